"""Inputs that no program makes, on which a tool could take time that grows as the square of their size, or memory and output without
a bound. A function makes each of about a size: the tool, its arguments, of which a pair is a file with its name and contents, and the
bytes of standard input."""

import os
import struct
import subprocess
import sys
import tempfile
from pathlib import Path

import sets
from acpi_images.program import FIRMWARE, TESTS
from acpi_images.tables import *
from files import HPET, dump_of
from memory_dumps import UEFI, core_of, small_set

# Runs a program, and writes its status and what it used to a file. It is small: the memory of a program counts that of the one that
# started it.
HELPER = """import os, subprocess, sys
child = subprocess.Popen(sys.argv[1:])
_, status, used = os.wait4(child.pid, 0)
print(os.waitstatus_to_exitcode(status), *used, file=open("used", "w"))
"""


class Hostile:
    """Such an input, its files in a folder, for a tool that finds this program."""

    def __init__(self, make, size, program):
        self.tool, words, self.data = make(size)
        self.name, self.size = f"{self.tool}, {make.__name__}", len(self.data)
        self.folder = tempfile.TemporaryDirectory()
        for name, contents in (word for word in words if isinstance(word, tuple)):
            self.path(name).write_bytes(contents)
            self.size += len(contents)
        self.words = [word if isinstance(word, str) else word[0] for word in words]
        os.symlink(program, self.path("acpiset"))
        # The order of a set of texts is the same in each run.
        self.environment = {**os.environ, "PATH": f"{self.folder.name}:{os.environ['PATH']}", "PYTHONHASHSEED": "0"}

    def __enter__(self):
        return self

    def __exit__(self, *_):
        self.folder.cleanup()

    def path(self, name):
        return Path(self.folder.name, name)

    def run(self, *words, of=None):
        """A run of the tool on the input, or of these words on it, by the program and the arguments before them."""
        words = [*words, TESTS.parent / "tools" / self.tool, *(self.words if of is None else of)]
        return subprocess.run(words, input=self.data, capture_output=True, cwd=self.folder.name, timeout=600, env=self.environment)

    def used(self):
        """A run of the tool on the input, its status, and what it used, as `wait4` tells it."""
        run = self.run(sys.executable, "-S", "-c", HELPER, sys.executable)
        status, *used = map(float, self.path("used").read_text().split())
        return run, status, used


def dumped(text, *words):
    return "acpidump2image", [*words, ("dump.txt", text)], b""


def logged(log):
    return "tables2image", ["--dmesg", ("log.txt", log), ("hpet.dat", HPET)], b""


def memory(size, pieces, *words):
    """A raw dump of so many bytes from the address 0 on."""
    data = bytearray(size)
    for at, piece in pieces.items():
        data[at : at + len(piece)] = piece
    return "memory2image", [*words, "--base", "0", ("ram.bin", bytes(data))], b""


# ---- texts of acpidump and logs


def zeros_of_an_address(size):
    return dumped(b"x @ 0x" + b"0" * size + b"y\n")


def lines_like_titles(size):
    return dumped(b"x @ 0 y\n" * (size // 8))


def tables_without_rows(size):
    return dumped(b"A @ 0x1\n" * (size // 8))


def short_tables(size):
    return dumped(b"".join(b"A @ 0x%x\n 0: 41 \n" % (16 * place + 16) for place in range(size // 20)))


def short_lines(size):
    return dumped(b"A @ 0x1\n" + b" \n" * (size // 2))


def twins(size):
    return dumped(b"A @ 0x1\n 0: 41 \n" * (size // 16))


def falling_addresses(size):
    """The later tables of a text are at lower addresses by the log."""
    count = size // 300
    log = b"".join(b"ACPI: SSDT 0x%016X 000028\n" % (0x1000000 + 64 * place) for place in range(count, 0, -1))
    return dumped(dump_of([(0, table(b"SSDT", number(place, 4))) for place in range(count)]), "--dmesg", ("log.txt", log))


def open_parentheses(size):
    return logged(b"ACPI: HPET 0x0000000000005000 000038 (" * (size // 38) + b"\n")


def log_of_tables(size):
    return logged(b"".join(b"ACPI: SSDT 0x%016X 000028\n" % (64 * place) for place in range(size // 35)))


def comments_that_end_in_cr(size):
    """What begins as an image text may, and is none."""
    return "tables2image", [("raw.dat", b"#\r\n" * (size // 3))], b""


# ---- dumps of memory


def headers_of_the_same_bytes(size):
    """A core in which each program header gives an address to the same half of the file."""
    count = size // 2 // 56
    core = bytearray(core_of({place << 32: b"" for place in range(1, count + 1)}, is_many=True))
    for place in range(1, count + 1):
        struct.pack_into("<IIQQQQQQ", core, 64 + 56 * place, 1, 4, len(core), 0, place << 32, size // 2, size // 2, 0)
    return "memory2image", [("core", bytes(core) + bytes(size // 2))], b""


def slots_over_parts(size):
    """A root whose tables each lie in all of the parts of one byte."""
    count = size // 60
    slots = [0x1000000 + 8 * place for place in range(count // 25)]
    length = count - 8 * len(slots)
    parts = {0x1000000 + at: (b"SSDT" + number(length, 4))[at % 8 : at % 8 + 1] for at in range(count)}
    pieces = {0xF0010: extended_rsdp(0x100000, 0), 0x100000: xsdt(*slots), **parts}
    return "memory2image", [("core", core_of(pieces, is_many=True))], b""


def root_of_slots(slots, *words):
    root = table(b"RSDT", b"".join(number(at, 4) for at in slots))
    return memory(0x200000 + len(root), {0xF0010: rsdp(0x100000), 0x100000: root}, *words)


def tables_at_each_byte(size):
    return root_of_slots(range(0x200000 - size // 4, 0x200000))


def absent_tables(size):
    return root_of_slots(range(0x80000000, 0x80000000 + 16 * size, 64))


def empty_slots(size):
    return root_of_slots([0] * (size // 4))


def rsdt_beside_xsdt(slots, size=0):
    """A dump in which lint alone reads the RSDT of these slots; so many bytes follow it."""
    root = table(b"RSDT", b"".join(number(at, 4) for at in slots))
    return memory(0x200000 + len(root) + size, {0xF0010: extended_rsdp(0x100000, 0x200000), 0x100000: xsdt(), 0x200000: root})


def signatures_that_do_not_touch(size):
    count = size // 9
    start = 0x200000 + 36 + 4 * count
    return rsdt_beside_xsdt(range(start, start + 5 * count, 5), 5 * count)


def signatures_at_each_byte(size):
    return rsdt_beside_xsdt(range(0x200000 - size // 4, 0x200000))


def absent_signatures(size):
    return rsdt_beside_xsdt(range(0x80000000, 0x80000000 + 16 * size, 64))


def one_signature(size):
    return rsdt_beside_xsdt([0x1000] * (size // 4))


def signatures_of_the_same_bytes(size):
    """A core with an RSDT beside an XSDT whose slots list bytes that have addresses in two other parts: again those of the RSDT."""
    count = size // 4
    root = rsdt(*range(0x10000000, 0x10000000 + 5 * count, 5))
    whole = {0xF0010: extended_rsdp(0x100000, 0x200000), 0x100000: xsdt(), 0x10000000: b"", 0x20000000: b"", 0x200000: root}
    core = bytearray(core_of(whole))
    for place, at in (3, 0x10000000), (4, 0x10000000 + len(root)):
        struct.pack_into("<IIQQQQQQ", core, 64 + 56 * place, 1, 4, len(core) - len(root), 0, at, len(root), len(root), 0)
    return "memory2image", [("core", bytes(core))], b""


def two_roots_of_tables(size):
    """An XSDT and an RSDT that list other bytes, of which none touch."""
    count = size // 22
    wide, narrow = (range(start, start + 5 * count, 5) for start in (0x200000, 0x200000 + 5 * count))
    xsdt_at = 0x200000 + 10 * count
    rsdt_at = xsdt_at + 36 + 8 * count
    return memory(rsdt_at + 36 + 4 * count, {0xF0010: extended_rsdp(xsdt_at, rsdt_at), xsdt_at: xsdt(*wide), rsdt_at: rsdt(*narrow)})


def rsdps_without_a_root(size):
    return memory(0x200000 + size, {0x200000: rsdp(0x55550000) * (size // 20)})


def signatures_of_an_rsdp(size):
    return memory(size, {0: b"RSD PTR " * (size // 8)})


def long_rsdps(size):
    return memory(0x200000 + size, {0x200000: extended_rsdp(0x55550000, 0, 4096) * (size // 36)})


def entries_of_uefi(size):
    return memory(0x200000 + size, {0x1000: rsdp(0x55550000), 0x200000: (UEFI + number(0x1000, 8)) * (size // 24)})


# ---- what explain is asked


def asked(image, lines):
    return "explain", [("image.txt", image)], b"".join(b"%s\n" % line.encode() for line in lines)


def madt_of_short_structures(size):
    return sets.image_of(madt(bytes([99, 2]) * (size // 6)))


def equal_lines(size):
    return asked(madt_of_short_structures(size), ["advice NoProcessor 0x0 0x0 0x0"] * 100)


def equal_lines_on_unread_structures(size):
    return asked(madt_of_short_structures(size), ["advice MadtUnread 0x2c 0x63 0x0"] * 50 + ["yes"] * 50)


def lines_on_many_processors(size):
    """Lines that each look for other processors, affinities and overrides."""
    table = madt(*(lapic(place % 256, place % 200) for place in range(size // 48)), *[override(0, 2, flags=2)] * (size // 60))
    lines = [f"no 16 TwoDomains 0x30 0x38 {number:#x}" for number in range(25)]
    lines += [f"advice NoDomain {44 + 8 * place:#x} 0x0 0x0" for place in range(25)] + ["advice SciNowhere 0x2e 0x0 0x0"] * 25
    return asked(sets.image_of(table, srat(apic_domain(0, 1), apic_domain(0, 2))), lines)


def lines_on_long_chains(size):
    return asked(sets.image_of(sets.long_pptt(size // 60)), [f"no 14 ParentCycle {36 + 20 * place:#x} 0x0 0x1" for place in range(100)])


def lines_on_one_chain(_):
    return asked(sets.image_of(sets.long_pptt(1000)), [f"no 14 ParentCycle {36 + 20 * place:#x} 0x0 0x1" for place in range(100)])


def lines_on_equal_lists(_):
    """Lines that are about lists of a small image, each as long as it may be."""
    ones = gicc(0xFFFFFFFF, 0xFFFFFFFF)[:16] + b"\xff" * 64
    entries = [x2apic(5, 9), override(0, 2), io_apic(0xFEC00000, 0), redistributor(1 << 63, 0xFFFFFFFF), ones]
    table = madt(*(entry for entry in entries for _ in range(33)))
    lines = ["NoProcessor 0x0", "NoIoApic 0x0", "GicrTooSmall 0x2c", *["SciNowhere 0x2e"] * 4]
    lines = [*(f"advice {line} 0x0 0x0" for line in lines * 10), *["no 16 TwoDomains 0x30 0x48 0x9"] * 30]
    return asked(sets.image_of(table, srat(x2apic_domain(9, 1), x2apic_domain(9, 2))), lines)


def lines_that_look_for_one_structure(size):
    """Lines that each look for a local APIC or a distributor, which is the last structure or is not there."""
    table = madt(x2apic(0, 5), *[lapic(0, 255)] * (size // 30), *[gicd(23)] * (size // 400), lapic(0, 1))
    return asked(sets.image_of(table), ["advice X2ApicBelow255 0x2c 0x0 0x5", "advice GiccBaseDiffers 0x2c 0x2c 0x0"] * 50)


def pieces_of_a_byte(size):
    return asked(b"".join(b"@%x\n41\n" % (2 * at) for at in range(size // 9)), ["yes"])


def words_of_a_line(size):
    return "explain", ["no"] * (size // 40), b""


# ---- lines for report

HEAD = """rsdp 0xe0000 revision 2
root 0x1000 XSDT slots 1
"""


def reported(form, text):
    return "report", ["--format", form], text.encode()


def lines_of_a_verdict(size):
    return reported("sarif", "yes\n" + "advice ListedTwice 0x3 0x2 0x47fc198e\n" * (size // 38))


def entries_of_show(size, form="json"):
    lines = "".join(f"{44 + 8 * place:#x} lapic uid {place % 256} id {place % 256} flags 0x1\n" for place in range(size // 36))
    return reported(form, f"{HEAD}madt 0x3000 lapic 0xfee00000 flags 0x1\n{lines}")


def page_of_entries(size):
    return entries_of_show(size, "html")


def short_entries_of_show(size, form="json"):
    return reported(form, f"{HEAD}madt 0x3000\n" + "0x0 a\n" * (size // 6))


def page_of_short_entries(size):
    return short_entries_of_show(size, "html")


def page_of_distances(size):
    count = int((size / 3) ** 0.5)
    rows = "".join(f"row {place}" + " 10" * count + "\n" for place in range(count))
    return reported("html", f"{HEAD}slit 0x5000 localities {count}\n{rows}")


def page_of_memory(size):
    lines = "".join(f"{48 + 40 * at:#x} memory domain {at} base {at << 20:#x} length 0x100000 flags 0x1\n" for at in range(size // 65))
    return reported("html", f"{HEAD}srat 0x4000\n{lines}")


def page_of_nodes(size):
    lines = "".join(f"{36 + 20 * at:#x} node flags 0x0 parent {16 + 20 * at:#x} id {at} resources\n" for at in range(size // 50))
    return reported("html", f"{HEAD}pptt 0x6000\n{lines}")


def page_of_slots(size):
    lines = "".join(f"slot {at} {0x10000 + 64 * at:#x} SSDT length 40 revision 1\n" for at in range(size // 45))
    return reported("html", HEAD + lines)


def lines_like_none(size):
    return reported("json", "x" * size)


INPUTS = [
    zeros_of_an_address, lines_like_titles, tables_without_rows, short_tables, short_lines, twins, falling_addresses, open_parentheses,
    log_of_tables, comments_that_end_in_cr, headers_of_the_same_bytes, slots_over_parts, tables_at_each_byte, absent_tables, empty_slots,
    signatures_that_do_not_touch, signatures_at_each_byte, absent_signatures, one_signature, signatures_of_the_same_bytes,
    two_roots_of_tables, rsdps_without_a_root, signatures_of_an_rsdp, long_rsdps, entries_of_uefi, equal_lines,
    equal_lines_on_unread_structures, lines_on_many_processors, lines_on_long_chains, lines_on_one_chain, lines_on_equal_lists,
    lines_that_look_for_one_structure, pieces_of_a_byte, words_of_a_line, lines_of_a_verdict, entries_of_show, page_of_entries,
    short_entries_of_show, page_of_short_entries, page_of_distances, page_of_memory, page_of_nodes, page_of_slots, lines_like_none,
]


# ---- inputs that have an answer, but are large


def pieces_like_an_rsdp(size):
    """The example, and pieces of 8 bytes that each begin like an RSDP, unsorted."""
    count = size // 36
    addresses = (0x100000000 + 16 * (place * 77_773 % count) for place in range(count))
    example = (FIRMWARE / "example.img.txt").read_bytes()
    return asked(example + b"".join(b"@%x\n52 53 44 20 50 54 52 20\n" % address for address in addresses), ["yes"])


def long_cycle(size):
    return asked(sets.image_of(sets.long_pptt(size // 60)), [f"no 14 ParentCycle 0x24 0x0 {size // 60:#x}"])


def leaf_of_no_processor(size):
    return asked(sets.image_of(sets.x2apics(size // 48), sets.pptt(sets.node(flags=10))), ["no 18 LeafUnknown 0x24 0x0 0x0"])


def dump_of_tables(size, has_addresses=True):
    """What `acpidump` prints of many tables."""
    places = [(0x1000000 + 0x40 * place, table(b"SSDT", number(place, 4))) for place in range(size // 250)]
    root = xsdt(0x7FE0000, *(at for at, _ in places))
    pieces = [(0xE0000, extended_rsdp(0x8000000, 0)), (0x8000000, root), (0x7FE0000, fadt()), *places]
    return dumped(dump_of(pieces if has_addresses else [(0, data) for _, data in pieces]))


def dump_of_zeros(size):
    return dump_of_tables(size, has_addresses=False)


def rsdp_at_the_end(size):
    """A dump of memory of at least 2 MiB."""
    _, whole = small_set()
    return memory(size, {**whole, size - 36: whole[0xF0010]})


LARGE = [pieces_like_an_rsdp, long_cycle, leaf_of_no_processor, dump_of_tables, dump_of_zeros, rsdp_at_the_end]
