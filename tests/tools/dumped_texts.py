"""Cases of tools/acpidump2image."""

import os
import random
import shutil
import subprocess

from acpi_images.tables import *
from acpi_images.text import text_of
from files import COMPLETE, EMPTY_DSDT, FADT, HPET, MADT, TABLES, dump_of, image_of_files
from tool_cases import TOP, module_of

COMPLETE_IMAGE = text_of(dict(COMPLETE))


def of_texts(cases):
    makes = cases.makes
    makes("RSDP at 0xf59e0: check it with --rsdp f59e0", "yes", "acpidump2image", "whole.txt", image=COMPLETE_IMAGE)
    makes("APIC at 0x7fe3001, 80 bytes", "yes", "acpidump2image", "narrow.txt", image=COMPLETE_IMAGE)
    makes("APIC at 0x7fe3001 is printed twice: written once", "yes", "acpidump2image", "twice.txt", image=COMPLETE_IMAGE)
    makes("HPET: its address is 0, left out", "yes", "acpidump2image", "some.txt", image=COMPLETE_IMAGE)
    makes("RSDP at 0xf59e0", "yes", "acpidump2image", "returns.txt", image=COMPLETE_IMAGE)
    text = dump_of(COMPLETE)
    makes("RSDP at 0xf59e0", "yes", "acpidump2image", data=text, image=COMPLETE_IMAGE)
    makes("RSDP at 0xf59e0", "yes", "acpidump2image", "-", data=text, image=COMPLETE_IMAGE)
    makes("RSDP at 0xf59e0", "yes", "acpidump2image", data=text.rstrip(b"\n"), image=COMPLETE_IMAGE)
    makes("RSDP at 0xf59e0", "yes", "acpidump2image", data=text.lower().replace(b"@ 0x", b"@ 0X"), image=COMPLETE_IMAGE)
    made = text_of({0xE0000: extended_rsdp(0x7FE1000, 0), **dict(COMPLETE[1:])})
    makes("the text has no RSDP: one is made by this tool", "yes", "acpidump2image", "pointerless.txt", image=made)
    made = text_of({0xE0000: rsdp(0x7FE1000), **dict([*TABLES, (0x7FE1000, rsdt(*(at for at, _ in TABLES))), (FACS_AT, facs())])})
    makes("for the RSDT at 0x7fe1000", "yes", "acpidump2image", "rsdt.txt", image=made)
    at_search = [(0xE0004, table(b"SSDT", bytes(12))), *COMPLETE[1:]]
    makes("RSDP at 0xe0040", "yes", "acpidump2image", data=dump_of(at_search))


def without_addresses(cases):
    """Where addresses are 0, or there is no root, the tables are laid out as tables2image does."""
    zeros = "all addresses are 0, so the text does not say where the tables are"
    valid = [(0, FADT), (0, MADT), (0, facs()), (0, HPET)]
    image = text_of(image_of_files(FADT, MADT, HPET))
    cases.makes(zeros, "yes", "acpidump2image", data=dump_of(valid), image=image)
    cases.makes("slot 1: APIC at 0x102000, from APIC of line 11", "yes", "acpidump2image", data=dump_of(valid), image=image)
    cases.makes(zeros, "no 5 FacsHeaderOut 0x7000 0x0 0x0", "acpidump2image", "zeros.txt")
    places = dict(TABLES)
    image = text_of({0xE0000: extended_rsdp(0x100000, 0), 0x100000: xsdt(*places), **places, FACS_AT: facs()})
    cases.makes("the text has neither an RSDP nor a root table: both are made", "yes", "acpidump2image", "rootless.txt", image=image)
    cases.write("log.txt", b"ACPI: HPET 0x0000000000005000 000038 (v01 AAAAAA AAAAAAAA 00000001 AAAA 00000001)\n")
    made = {0x101000: fadt(_40=number(0x102000, 4)), 0x102000: EMPTY_DSDT}
    image = text_of({0xE0000: extended_rsdp(0x100000, 0), 0x100000: xsdt(0x5000, 0x101000), 0x5000: HPET, **made})
    cases.makes(zeros, "yes", "acpidump2image", "--dmesg", "log.txt", data=dump_of([(0, HPET)]), image=image)
    # A log of another machine, with a text that has addresses, an RSDP and a root.
    cases.write("foreign.log", b"ACPI: FACP 0x00000000BFFE1234 0000F4 (v03 ..)\n")
    cases.makes("left out: the image has a root table of its own", "yes", "acpidump2image", "--dmesg", "foreign.log", data=dump_of(COMPLETE))
    shutil.copy(os.path.join(TOP, "tools", "acpidump2image"), cases.path("alone"))
    run = subprocess.run([cases.path("alone"), "whole.txt"], capture_output=True, cwd=cases.folder, timeout=600)
    told = b"alone: tables2image is not beside this tool: copy both\n"
    cases.count("acpidump2image alone", (run.returncode, run.stdout, run.stderr) != (4, b"", told) and f"{run}")


def refused(cases):
    refuses = cases.refuses
    refuses("APIC at 0x7fe3001 is printed twice, with different bytes", "acpidump2image", "changed.txt")
    refuses("HPET at 0x7fe3010 overlaps APIC at 0x7fe3001", "acpidump2image", "overlap.txt")
    refuses("line 3: a row at 20 where one at 10 is expected: is a row missing or truncated?", "acpidump2image", "lost.txt")
    refuses("not acpidump output: text of 16 bits a character: make it plain with iconv", "acpidump2image", "utf16.txt")
    refuses("not acpidump output: one raw table, FACP: use tables2image", "acpidump2image", "facp.dat")
    refuses("not acpidump output: image text: acpiset reads it itself, as in acpiset check < IMAGE", "acpidump2image", "old.image")
    refuses("not acpidump output: an ELF file: if it is a dump of memory, use memory2image", "acpidump2image", data=b"\x7fELF" + bytes(60))
    refuses("not acpidump output: lines of acpiset: use explain", "acpidump2image", data=b"yes\n")
    refuses("not acpidump output: no line such as 'APIC @ 0x00000000BFFE1234'", "acpidump2image", data=b"APIC\n")
    refuses("not acpidump output: empty", "acpidump2image")
    refuses("absent.txt: cannot be read", "acpidump2image", "absent.txt")
    refuses("folder: a directory: give acpidump's text as a file", "acpidump2image", "folder")
    for words in (["whole.txt", "zeros.txt"], ["--help"], ["--rsdp", "e0000"]):
        refuses("usage: acpidump2image [FILE]", "acpidump2image", *words, status=2)
    for told, text in (
        ("line 2: a row of more than 16 bytes", b"SSDT @ 0x1000\n    0000: " + b"41 " * 17 + b" A\n"),
        ("line 3: SSDT at 0xfffffffffffffff0 goes past the last address", b"SSDT @ 0xFFFFFFFFFFFFFFF0\n" + dump_of([(0, HPET)]).partition(b"\n")[2]),
        ("line 1: an address of more than 16 digits", b"SSDT @ 0x10000000000000000\n    0000: 41\n"),
        ("line 2: an offset of more than 16 digits", b"SSDT @ 0x1000\n    " + b"0" * 17 + b": 41\n"),
        ("line 2: a row without bytes", b"SSDT @ 0x1000\n    0000: xy\n"),
        ("line 3: a row after one of fewer than 16 bytes: is a row truncated?", b"SSDT @ 0x1000\n    0000: 41\n    0001: 41\n"),
        ("line 1: bytes before the first line with a table's signature and address", b"    0000: 41\nSSDT @ 0x1000\n"),
        ("the RSDT is at 0x100000000, and an RSDP names one below 2^32 only", dump_of([(2**32, rsdt())])),
        ("SSDT of line 1: 1 bytes, and a table has at least 36", b"SSDT @ 0x0\n    0000: 41\n"),
        ("SSDT at 0x1000: no bytes", b"SSDT @ 0x1000\n"),
        ("a text of more than 4000000 lines", b"\n" * 4_000_001),
        ("a text of more than 134217728 bytes", b"#" * 134_217_729),
    ):
        refuses(told, "acpidump2image", data=text)


def hostile(cases):
    """Texts that try what acpiset refuses, and terminals."""
    long_title = b"\x1b[31m" + b"x" * 70_000
    text = dump_of(COMPLETE).replace(b"HPET @", long_title + b" @")
    cases.makes("?[31mxxx", "yes", "acpidump2image", data=text, image=COMPLETE_IMAGE)
    text = dump_of(COMPLETE).replace(b"HPET @", b" " * 3_000_000 + b"\nA @ 0x" * 3 + b" @ 0x" * 600_000 + b"!\nHPET @")
    cases.makes("HPET at 0x7fe4000, 56 bytes", "yes", "acpidump2image", data=text)
    # Whatever a text has instead of some bytes, the tool refuses it or makes an image that acpiset reads.
    tool = module_of("acpidump2image")
    dice = random.Random(20)
    whole = dump_of(COMPLETE)
    wrong = []
    made = 0
    for _ in range(300):
        text = bytearray(whole)
        for _ in range(dice.choice((1, 1, 2, 4))):
            at = dice.randrange(len(text))
            text[at : at + dice.choice((0, 1, 1, 17))] = dice.choice((b"", b"0", b"F", b" ", b"\n", b"@ 0xFFFFFFFFFFFFFFFF\n", b":", b"\0", b"00 " * 9))
        try:
            image = tool.image_of(tool.read_tables(bytes(text)), None)
        except tool.Refusal:
            continue
        made += 1
        status, line = cases.answer(["check"], image)
        if status > 1:
            wrong.append(f"{bytes(text)!r}: {line}")
    cases.count("texts with changed bytes", "\n".join(wrong), not 50 < made < 250 and f"{made} of 300 images")


def all_cases(cases):
    for part in (of_texts, without_addresses, refused, hostile):
        part(cases)
