"""Cases of tools/tables2image."""

import os
import shutil
import subprocess
import sys

from acpi_images.tables import *
from acpi_images.text import text_of
from files import DSDT, FADT, HPET, MADT, image_of_files, image_of_one, wide_fadt
from tool_cases import TOP

RESERVED_INTI = madt(lapic(0, 0), io_apic(0xFEC00000, 0), override(0, 2, flags=2))
OVERLAPPING = srat(memory(0, 0x1000), memory(0x800, 0x1000))
WRONG_SLIT = slit(1, [11])
DANGLING = pptt(node(parent=20))
VALID = {
    "APIC": MADT,
    "SRAT": srat(memory(0, 0x1000)),
    "SLIT": slit(2, [10, 20, 20, 10]),
    "PPTT": pptt(node()),
    "HPET": HPET,
    "SSDT": table(b"SSDT", b"\x5b\x80"),
}
OWN = "the RSDP and the root table, an XSDT, are made by this tool: they are not the machine's own"
MADE_FADT = "no file has a FADT: one of reduced hardware is made by this tool, and is not the machine's own"
MADE_DSDT = "DSDT at 0x103000, where the FADT says, made by this tool: it is empty"
# Tools, each with another tool's file, and what names that tool by its installed name.
CALLED = (
    ("tables2image", "whole.txt", "use acpiset-acpidump2image"), ("memory2image", "apic.dat", "use acpiset-tables2image"),
    ("explain", "whole.txt", "of which acpiset-acpidump2image makes image text"), ("acpidump2image", "apic.dat", "use acpiset-tables2image"),
)
USAGE = "usage: tables2image FILE.., as tables2image /sys/firmware/acpi/tables/*"


def of_files(cases):
    """Files with a FADT."""
    makes = cases.makes
    old, order = text_of(image_of_files(FADT, MADT, HPET)), text_of(image_of_files(HPET, MADT, FADT))
    wide = text_of(image_of_files(wide_fadt(0x123456789ABC0), facs_at=0x123456789ABC0))
    files = "facp.dat", "apic.dat", "hpet.dat", "facs.dat"
    makes(OWN, "yes", "tables2image", *files, image=old)
    makes("slot 0: HPET at 0x101000, from hpet.dat", "yes", "tables2image", "facs.dat", "hpet.dat", "apic.dat", "facp.dat", image=order)
    makes("folder: a directory, skipped", "yes", "tables2image", "folder", *files, image=old)
    makes("rsdp.dat: an RSDP, left out: the image has one of its own", "yes", "tables2image", "rsdp.dat", "xsdt.dat", *files, image=old)
    makes("xsdt.dat: an XSDT, left out: the image has a root table of its own", "yes", "tables2image", "xsdt.dat", *files, image=old)
    makes("dsdt.dat: the DSDT, left out", "yes", "tables2image", "dsdt.dat", *files, image=old)
    makes("FACS at 0x123456789abc0, where the FADT says", "yes", "tables2image", "wide.dat", "facs.dat", image=wide)
    makes("FACS at 0xffffffffffffffc0", "yes", "tables2image", "last.dat", "facs.dat")
    makes("FACS at 0xe0000", "yes", "tables2image", "first.dat", "facs.dat", "hpet.dat")
    makes("FACS at 0x101000", "yes", "tables2image", "second.dat", "facs.dat", "hpet.dat")
    makes("slot 0: FACP at 0x101000", "yes", "tables2image", "reduced.dat", image=text_of(image_of_files(fadt(), facs_at=None)))
    makes("has 83 bytes, and its Length says 80: written as it is", "yes", "tables2image", "facp.dat", "longer.dat", "facs.dat")
    makes("has 79 bytes, and its Length says 80", "no 3 TableOut 0x1 0x102000 0x0", "tables2image", "facp.dat", "cut.dat", "hpet.dat", "facs.dat")
    makes("has 36 bytes, and its Length says 4294967295", "no 3 TableOut 0x1 0x102000 0x0", "tables2image", "reduced.dat", "huge.dat")
    makes("no file has it: check will say FacsHeaderOut", "no 5 FacsHeaderOut 0x7000 0x0 0x0", "tables2image", "facp.dat")
    makes("names no FACS: check will say NoFacs", "no 5 NoFacs 0x0 0x0 0x0", "tables2image", "named.dat")
    told = "second.srat: a second SRAT: only first.srat is read, and of this one the header, the Length and the checksum"
    cases.write("first.srat", VALID["SRAT"])
    cases.write("second.srat", OVERLAPPING)
    makes(told, "yes", "tables2image", "reduced.dat", "first.srat", "second.srat")
    makes("first.srat: a second SRAT", "no 10 Overlap 0x30 0x58 0x800", "tables2image", "reduced.dat", "second.srat", "first.srat")
    run = makes(OWN, "yes", "tables2image", "reduced.dat", "hpet.dat", "hpet.dat")
    cases.count("two HPETs, of which none is read", b"a second" in run.stderr and "a note on the second")


def of_one_table(cases):
    """One table alone: what is made beside it keeps every rule, and breaks no rule of advice."""
    for name, data in VALID.items():
        cases.write(f"{name}.one", data)
        cases.makes(MADE_FADT, "yes", "tables2image", f"{name}.one", image=text_of(image_of_one(data)))
    cases.makes(MADE_DSDT, "yes", "tables2image", "HPET.one", command="lint")
    for names in (["HPET.one"], ["SSDT.one", "HPET.one"], ["HPET.one", "facs.dat"]):
        cases.makes("made by this tool: it is empty", "yes", "tables2image", *names, command="lint")
    cases.write("unsummed.one", changed(HPET, {9: 0x5A}))
    for name, data, verdict in (
        ("unsummed.one", changed(HPET, {9: 0x5A}), "no 3 TableSum 0x0 0x101000 0x0"),
        ("inti.one", RESERVED_INTI, "no 6 ReservedInti 0x40 0x0 0x0"), ("overlapping.one", OVERLAPPING, "no 10 Overlap 0x30 0x58 0x800"),
        ("wrong.one", WRONG_SLIT, "no 11 SlitDiagonal 0x2c 0x0 0x0"), ("dangling.one", DANGLING, "no 13 DanglingParent 0x24 0x14 0x0"),
        ("facs.dat", facs(), "yes"), ("misversed.one", b"FACS" + number(63, 4) + bytes(56), "no 5 FacsLength 0x102000 0x0 0x0"),
    ):
        cases.write(name, data)
        cases.makes(MADE_FADT, verdict, "tables2image", name)
    cases.makes("FACS at 0x103000, where the FADT says, from facs.dat", "yes", "tables2image", "facs.dat", "hpet.dat")


# ---- a kernel's log


def log_line(address, data, name=None):
    """A line of Linux on a table."""
    name = name or data[:4].decode()
    if name == "FACS":
        return f"[    0.004000] ACPI: FACS 0x{address:016X} {len(data):06X}\n"
    if name == "RSDP":
        return f"[    0.004000] ACPI: RSDP 0x{address:016X} {len(data):06X} (v02 AAAAAA)\n"
    return f"[    0.004000] ACPI: {name} 0x{address:016X} {len(data):06X} (v{data[8]:02X} AAAAAA AAAAAAAA 00000001 AAAA 00000001)\n"


def log_of(*places):
    return "".join(["[    0.003000] ACPI: Early table checksum verification disabled\n", *(log_line(*place) for place in places)]).encode()


RSDP_PLACE, ROOT_PLACE, FADT_PLACE, MADT_PLACE, HPET_PLACE = 0xF0010, 0xBFFE0000, 0xBFFE1234, 0xBFFE2001, 0x1BFFE4000
ROOT = xsdt(FADT_PLACE, MADT_PLACE, HPET_PLACE)
PLACES = [(FADT_PLACE, FADT), (0xBFFE9000, DSDT), (FACS_AT, facs()), (MADT_PLACE, MADT), (HPET_PLACE, HPET)]
COMPLETE_LOG = log_of((RSDP_PLACE, extended_rsdp(), "RSDP"), (ROOT_PLACE, ROOT), *PLACES)
COMPLETE_IMAGE = {
    RSDP_PLACE: extended_rsdp(ROOT_PLACE, 0),
    ROOT_PLACE: ROOT,
    FADT_PLACE: FADT,
    MADT_PLACE: MADT,
    HPET_PLACE: HPET,
    FACS_AT: facs(),
}


def of_a_log(cases):
    """Real addresses, and the order of the log, whatever that of the files is."""
    makes, refuses, write = cases.makes, cases.refuses, cases.write
    write("log.txt", COMPLETE_LOG)
    files = "hpet.dat", "dsdt.dat", "apic.dat", "facs.dat", "facp.dat"
    words = "tables2image", "--dmesg", "log.txt"
    makes("slot 0: FACP at 0xbffe1234, from facp.dat", "yes", *words, *files, image=text_of(COMPLETE_IMAGE))
    own = extended_rsdp(ROOT_PLACE, 0x1234)
    write("own_rsdp.dat", own)
    write("own_xsdt.dat", ROOT)
    makes("are those of the files", "yes", *words, "own_rsdp.dat", "own_xsdt.dat", *files, image=text_of({**COMPLETE_IMAGE, RSDP_PLACE: own}))
    makes("own_rsdp.dat: an RSDP, left out", "yes", *words, "own_rsdp.dat", *files, image=text_of(COMPLETE_IMAGE))
    # A table that the machine's own root lists has no file.
    makes("own_xsdt.dat: an XSDT, left out", "yes", *words, "own_rsdp.dat", "own_xsdt.dat", "reduced.dat", "hpet.dat")
    makes("HPET at 0x1bffe4000, 56 bytes: in the log, and no file has it", "yes", *words, *files[1:])
    write("SSDT.one", VALID["SSDT"])
    makes("SSDT.one: not in the log", "yes", *words, *files, "SSDT.one")
    old_root = rsdt(0x2000)
    write("old.log", b"<6>ACPI: RSDP 00000000000f0490 00014 (v00 AAAAAA)\nACPI: RSDT 00001000 %06X (v01 AAAAAA AAAAAAAA 00000001 AAAA 00000001)\n"
          b"ACPI: FACP 0000000000002000 00074 (v01 AAAAAA AAAAAAAA 00000001 AAAA 00000001)\n" % len(old_root))
    makes("an RSDT, are made", "yes", "tables2image", "--dmesg", "old.log", "reduced.dat", image=text_of({0xF0490: rsdp(), 0x1000: old_root, 0x2000: fadt()}))
    write("twins.log", log_of((0x2000, fadt()), (0x3000, VALID["SSDT"]), (0x4000, VALID["SSDT"]), (0xFFFF888000000000, VALID["HPET"])))
    makes("the log has 2 such tables: the order of the files decides", "yes", "tables2image", "--dmesg", "twins.log", "reduced.dat", "SSDT.one", "SSDT.one")
    makes("hpet.dat: not in the log", "yes", "tables2image", "--dmesg", "twins.log", "reduced.dat", "hpet.dat")
    write("other.log", log_of((0x2000, fadt()), (0x2040, HPET)))
    refuses("HPET at 0x2040 overlaps reduced.dat at 0x2000", "tables2image", "--dmesg", "other.log", "reduced.dat", "hpet.dat")
    write("past.log", log_of((0x2000, fadt()), (2**63 - 8, HPET)))
    makes("slot 1: HPET at 0x7ffffffffffffff8", "yes", "tables2image", "--dmesg", "past.log", "reduced.dat", "hpet.dat")
    # An RSDT is below 2^32, also if the log has it above, with the RSDP just below.
    write("high.log", log_of((0xFFFFFFE0, rsdp(), "RSDP"), (0x100000000, rsdt(0x2000)), (0x2000, fadt())))
    image = text_of({0xFFFFFFE0: rsdp(0x100000), 0x100000: rsdt(0x2000), 0x2000: fadt()})
    makes("RSDT at 0x100000, 1 slot", "yes", "tables2image", "--dmesg", "high.log", "reduced.dat", image=image)
    refuses("no line such as 'ACPI: FACP", "tables2image", "--dmesg", "hpet.dat", "reduced.dat")
    refuses("absent.log: no such file", "tables2image", "--dmesg", "absent.log", "reduced.dat")
    refuses("usage: ", "tables2image", "--dmesg", status=2)


def refused(cases):
    refuses = cases.refuses
    refuses(USAGE, "tables2image", status=2)
    for words in (["--help"], ["-h"], [""], ["--dmesg", "log.txt"], ["--other", "facp.dat"]):
        refuses(USAGE, "tables2image", *words, status=2)
    refuses("absent.dat: no such file", "tables2image", "facp.dat", "absent.dat")
    refuses("/dev/null: not a regular file", "tables2image", "/dev/null")
    refuses("empty.dat: empty", "tables2image", "facp.dat", "empty.dat")
    refuses("short.dat: 35 bytes, and a table has at least 36", "tables2image", "facp.dat", "short.dat")
    refuses("zeros.dat: does not begin with the signature of a table: not a raw table", "tables2image", "zeros.dat")
    refuses("packed.dat: gzip data", "tables2image", "packed.dat")
    refuses("whole.txt: text of acpidump", "tables2image", "whole.txt")
    refuses("old.image: image text: acpiset reads it itself, as in acpiset check < IMAGE", "tables2image", "old.image")
    refuses("old.image: image text", "tables2image", "facp.dat", "old.image")
    cases.write("core.dat", b"\x7fELF" + bytes(60))
    refuses("core.dat: an ELF file: if it is a dump of memory, use memory2image", "tables2image", "core.dat")
    refuses("wide.txt: text of 16 bits a character", "tables2image", cases.write("wide.txt", "@1000\n41\n".encode("utf-16")))
    for line in (b"yes\n", b"no 10 Overlap 0x30 0x58 0x800\n", b"advice SameUid 0x2c 0x34 0x0\n", b"no rsdp\n", b"rsdp 0xf59e0\n"):
        refuses("lines.txt: lines of acpiset: use explain", "tables2image", cases.write("lines.txt", line))
    refuses("folder: a directory: give the files in it, as folder/*", "tables2image", "folder/")
    refuses("facs2.dat: a second FACS", "tables2image", "facp.dat", "facs.dat", "facs2.dat")
    refuses("facs.dat: a FACS, and named.dat names no address for it", "tables2image", "facs.dat", "named.dat")
    refuses("facs.dat: from 0xffffffffffffffe0 on the FACS goes past the last address", "tables2image", "facs.dat", "past.dat")
    refuses("no table to list among the files", "tables2image", "folder", "dsdt.dat")
    for name, size in (("large.dat", 20_000_000), ("larger.dat", 20_000_001)):
        with open(cases.path(name), "wb") as file:
            file.write(b"SSDT" + number(size, 4))
            file.truncate(size)
    refuses("larger.dat: larger than any table", "tables2image", "larger.dat")
    refuses("the image would have 120000348 bytes of text, and acpiset reads at most 67108864", "tables2image", "large.dat", "large.dat")
    if os.getuid() != 0:
        os.chmod(cases.path("hpet.dat"), 0)
        refuses("hpet.dat: permission denied", "tables2image", "hpet.dat")
        os.chmod(cases.path("hpet.dat"), 0o644)


def installed(cases):
    """A tool that is called by its installed name calls the others so."""
    folder = cases.path("prefix/bin")
    os.makedirs(folder)
    for tool, _, _ in CALLED:
        shutil.copy(os.path.join(TOP, "tools", tool), os.path.join(folder, f"acpiset-{tool}"))
    shutil.copytree(os.path.join(TOP, "share"), cases.path("prefix/share"))
    shutil.copy(os.path.join(TOP, "docs", "FAULTS.md"), cases.path("prefix/share/acpiset"))
    for tool, data, told in CALLED:
        words = [sys.executable, cases.path(f"prefix/bin/acpiset-{tool}"), data]
        run = subprocess.run(words, input=b"yes\n", capture_output=True, cwd=cases.folder, timeout=600)
        cases.count(f"acpiset-{tool} {data}", run.returncode != 1 and f"{run}", told.encode() not in run.stderr and f"{run}")


def all_cases(cases):
    for part in (of_files, of_one_table, of_a_log, refused, installed):
        part(cases)
