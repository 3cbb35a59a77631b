"""Sets of tables, and what the program has to answer. Each answer is worked out from the rules in docs/TABLES.md and
docs/FAULTS.md by hand, and none is taken from the program. Numbers of 0 at the end of an answer are left out."""

from __future__ import annotations

from dataclasses import dataclass
from functools import partial

from ..tables import *


@dataclass
class Row:
    name: str
    pieces: dict | bytes
    words: str
    answer: str


ROWS = []


def without_stage(words):
    """Words without those that only a check takes."""
    at = words.index("--through") if "--through" in words else len(words)
    return [*words[:at], *words[at + 2 :]]


def words_of(row):
    """The row's words after its command, without those that only a check takes."""
    return without_stage(row.words.split()[1:])


def with_numbers(line):
    """A line with its three numbers."""
    words = line.split()
    count = 0 if line == "no rsdp" else {"no": 6, "advice": 5}.get(words[0], 0)
    return line + " 0x0" * (count - len(words))


def row(name, pieces, answer, words="", command="check --rsdp e0000"):
    """The program's line for these pieces, or for this text, with these words after the command's own."""
    ROWS.append(Row(name, pieces, f"{command} {words}".strip(), with_numbers(answer)))


# ---- the RSDP and the root
SMALLEST = {RSDP_AT: rsdp(), RSDT_AT: rsdt()}
row("a set that lists nothing, through the listed tables", SMALLEST, "yes", "--through 3")
row("a set that lists nothing", SMALLEST, "no 4 NoFadt")
row("an empty text", b"", "no 1 RsdpOut 0xe0000")
row("an RSDP whose bytes do not sum to 0", {**SMALLEST, RSDP_AT: rsdp().replace(b"A", b"B", 1)}, "no 1 RsdpSum 0xe0000")
row("an RSDT in two pieces that touch", {RSDP_AT: rsdp(), RSDT_AT + 20: rsdt()[20:], RSDT_AT: rsdt()[:20]}, "yes", "--through 3")
row("an XSDT", {RSDP_AT: extended_rsdp(), XSDT_AT: xsdt()}, "yes", "--through 3")
row("an RSDT with two bytes after its slots", {RSDP_AT: rsdp(), RSDT_AT: table(b"RSDT", b"\0\0")}, "no 2 RootRagged 0x1000")
row("an extended RSDP of Length 2^32 - 1", {RSDP_AT: extended_rsdp(length=2**32 - 1), XSDT_AT: xsdt()}, "no 1 RsdpLongOut 0xe0000")
row("no RSDP at the top of the addresses", SMALLEST, "no 1 RsdpOut 0xfffffffffffffff0", command="check --rsdp fffffffffffffff0")

# ---- the search
row("an RSDP at the first place", SMALLEST, "rsdp 0xe0000", command="find")
row("an RSDP at no multiple of 16", {0xE0008: rsdp()}, "rsdp none", command="find")
row("two RSDPs", {0xF0000: rsdp(), 0xE0010: rsdp()}, "rsdp 0xe0010", command="find")
row("an RSDP at the last place", {0xFFFF0: rsdp()}, "rsdp 0xffff0", command="find")
row("nothing to find", b"", "rsdp none", command="find")
row("an RSDP just before the first place", {0xDFFF0: rsdp() + bytes(64)}, "rsdp none", command="find")
row("an RSDP just after the last place", {0xFFFF0: bytes(16) + rsdp()}, "rsdp none", command="find")
row("an RSDP at the last place, in a run that goes on", {0xFFFF0: rsdp() + bytes(64)}, "rsdp 0xffff0", command="find")
row("an RSDP in a run from below the first place", {0xDFFE5: bytes(27 + 64) + rsdp()}, "rsdp 0xe0040", command="find")
row("an RSDP in a run from between two places", {0xE0001: bytes(15) + rsdp()}, "rsdp 0xe0010", command="find")
row("an RSDP of 20 pieces", {0xE0010 + at: rsdp()[at : at + 1] for at in range(20)}, "rsdp 0xe0010", command="find")
row("19 bytes of an RSDP before one", {0xE0010: rsdp()[:19], 0xE0030: rsdp()}, "rsdp 0xe0030", command="find")
row("an RSDP of all its bytes but one", {0xE0010: rsdp()[:9], 0xE001A: rsdp()[10:]}, "rsdp none", command="find")
SPARSE = {address: b"R" for address in range(0xE0000, 0xE1000, 2)}
row("an RSDP after a byte at every second address", {**SPARSE, 0xE1000: rsdp()}, "rsdp 0xe1000", command="find")
row("a byte at every second address", SPARSE, "rsdp none", command="find")
row("nothing to check", b"", "no rsdp", command="check")

# ---- listed tables
row("a slot of 0 between two tables", listed(hpet(), slots=(0x2000, 0, 0x3000)), "yes")
row("a table of Length 2^32 - 1", image_of(fadt()[:4] + b"\xff" * 4 + fadt()[8:]), "no 3 TableOut 0x0 0x2000")
UNSUMMED = changed(hpet(), {9: 0})
row("a table without a sum in two slots", listed(UNSUMMED, slots=(0x2000, 0x3000, 0x3000)), "no 3 TableSum 0x1 0x3000")
row("an RSDT that lists itself", listed(slots=(0x1000, 0x2000)), "yes")

# ---- tables at 4 GiB and at the last address: rows of text end exactly there
LONG = table(b"HPET", bytes(28))


def high_row(name, answer, pieces, slot):
    """A set by an XSDT, with what is in its second slot."""
    row(name, {RSDP_AT: extended_rsdp(), XSDT_AT: xsdt(TABLES_AT, slot), TABLES_AT: fadt(), **pieces}, answer)


for at in (2**32 - 0x1000, 2**32 - len(LONG), 2**32 - 32, 2**32, 2**64 - 0x1000, 2**64 - len(LONG)):
    high_row(f"a table at {at:x}", "yes", {at: LONG}, at)
    high_row(f"a table at {at:x}, without a sum", f"no 3 TableSum 0x1 {at:#x} 0x0", {at: changed(LONG, {63: 1})}, at)
    high_row(f"a table at {at:x}, without its last byte", f"no 3 TableOut 0x1 {at:#x} 0x0", {at: LONG[:-1]}, at)
for at in (2**32 - 0x1000, 2**32 - 1, 2**32):
    pieces = {at + 1: LONG[11:], at: LONG[10:11], at - 10: LONG[:10]}
    high_row(f"a byte at {at:x}, which comes alone", "yes", pieces, at - 10)
    del pieces[at]
    high_row(f"no byte at {at:x}", f"no 3 TableHeaderOut 0x1 {at - 10:#x} 0x0", pieces, at - 10)
row("a table up to 4 GiB, by an RSDT", listed(slots=(0x2000, 2**32 - 64), others={2**32 - 64: LONG}), "yes")

# ---- FADT and FACS
FULL = image_of(full_fadt(), others={FACS_AT: facs()})
row("full hardware", FULL, "yes")
row("full hardware, a FADT of 244 bytes", image_of(full_fadt(length=244), others={FACS_AT: facs()}), "yes")
row("reduced hardware, a FADT of 276 bytes", image_of(fadt(length=276)), "yes")
row("a FACS at no multiple of 64", image_of(full_fadt(0x7020), others={0x7020: facs()}), "no 5 FacsAlign 0x7020")
X_FIRMWARE_CTRL = {"_132": number(FACS_AT, 8)}
row("X_FIRMWARE_CTRL wins", image_of(full_fadt(0x7020, 244, **X_FIRMWARE_CTRL), others={FACS_AT: facs()}), "yes")
row("a part of X_FIRMWARE_CTRL", image_of(fadt(length=139, _132=b"\1" * 7)), "yes")
row("a reset register of no width", image_of(fadt(REDUCED | RESET_REG_SUP, 276)), "no 4 ResetRegister 0x74")
row("a FADT that ends before the reset register", image_of(fadt(REDUCED | RESET_REG_SUP)), "yes")

# ---- one piece changed
# Sets of full hardware, by an RSDT and by an XSDT. Nothing lists the table at 0x3000, which is too short for a FADT.
SHORT = {0x3000: table(b"FACP", b"")}
BY_RSDT = {**FULL, **SHORT}
BY_XSDT = {RSDP_AT: extended_rsdp(), XSDT_AT: xsdt(TABLES_AT), TABLES_AT: full_fadt(), FACS_AT: facs(), **SHORT}


def changed_row(pieces, at, answer, changes, *sums):
    """A set with the piece at this address changed."""
    name = ", ".join(f"{offset}: {byte:02x}" for offset, byte in changes.items())
    row(f"the piece at {at:x} with {name}, sums {sums}", {**pieces, at: changed(pieces[at], changes, *sums)}, answer)


rsdp_row, rsdt_row, fadt_row, facs_row = (partial(changed_row, BY_RSDT, at) for at in (RSDP_AT, RSDT_AT, TABLES_AT, FACS_AT))
extended_row = partial(changed_row, BY_XSDT, RSDP_AT)
row("by an RSDT", BY_RSDT, "yes")
row("by an XSDT", BY_XSDT, "yes")
rsdp_row("no 1 RsdpSignature 0xe0000", {0: 0x72}, (8, 20))
rsdp_row("no 1 RsdpSignature 0xe0000", {0: 0x72})
rsdp_row("no 1 RsdpSum 0xe0000", {8: 0x4A})
rsdp_row("yes", {15: 1}, (8, 20))
rsdp_row("no 1 RsdpTailOut 0xe0000", {15: 2}, (8, 20))
extended_row("yes", {15: 0xFF}, (8, 20))
extended_row("no 1 RsdpLength 0xe0000", {20: 35}, (32, 36))
extended_row("no 1 RsdpLongOut 0xe0000", {20: 37}, (32, 36))
extended_row("no 1 RsdpExtendedSum 0xe0000", {32: 0xCC})
LONG_RSDP = changed(extended_rsdp() + b"\1\2\3\4", {20: 40}, (32, 40))
row("an RSDP of 40 bytes", {**BY_XSDT, RSDP_AT: LONG_RSDP}, "yes")
rsdp_row("no 2 NoRoot 0xe0000", {17: 0}, (8, 20))
rsdp_row("no 2 RootHeaderOut 0x4000", {17: 0x40}, (8, 20))
extended_row("no 2 RootHeaderOut 0x1000", {25: 0}, (32, 36))
rsdt_row("no 2 RootSignature 0x1000", {0: ord("X")}, (9, 40))
changed_row(BY_XSDT, XSDT_AT, "no 2 RootSignature 0x1100", {0: ord("R")}, (9, 44))
rsdt_row("no 2 RootLength 0x1000", {4: 35}, (9, 35))
rsdt_row("no 2 RootOut 0x1000", {4: 41})
rsdt_row("no 2 RootRagged 0x1000", {4: 39}, (9, 39))
rsdt_row("no 2 RootSum 0x1000", {9: 0xE7})
rsdt_row("no 3 TableHeaderOut 0x0 0x4000", {37: 0x40}, (9, 40))
fadt_row("no 3 TableLength 0x0 0x2000", {4: 35}, (9, 35))
fadt_row("no 3 TableOut 0x0 0x2000", {4: 117})
fadt_row("no 3 TableSum 0x0 0x2000", {9: 0x64})
row("a second table that is not there", {**BY_RSDT, RSDT_AT: rsdt(0x2000, 0x4000)}, "no 3 TableHeaderOut 0x1 0x4000")
fadt_row("no 4 NoFadt", {0: ord("f")}, (9, 116))
fadt_row("no 4 FadtShort", {4: 115}, (9, 115))
row("a second FADT, which is too short", {**BY_RSDT, RSDT_AT: rsdt(0x2000, 0x3000)}, "yes")
row("a first FADT that is too short", {**BY_RSDT, RSDT_AT: rsdt(0x3000, 0x2000)}, "no 4 FadtShort")
fadt_row("no 4 PmEventLength 0x58", {88: 3}, (9, 116))
fadt_row("no 4 PmControlLength 0x59", {89: 1}, (9, 116))
fadt_row("no 4 PmTimerLength 0x5b", {91: 3}, (9, 116))
fadt_row("yes", {91: 0}, (9, 116))
fadt_row("no 4 GpeLength 0x5c", {92: 1, 93: 1}, (9, 116))
fadt_row("no 4 GpeLength 0x5d", {93: 1}, (9, 116))
# reduced hardware has none of these
fadt_row("yes", {88: 0, 89: 0, 91: 3, 92: 1, 114: 0x10}, (9, 116))
for space, width, answer in ((1, 8, "yes"), (3, 8, "no 4 ResetRegister 0x74"), (1, 16, "no 4 ResetRegister 0x74")):
    register = bytes([space, width, 0, 0]) + bytes(8)
    resettable = full_fadt(length=129, _113=b"\4", _116=register)
    row(f"a reset register of {width} bits in the space {space}", {**BY_RSDT, TABLES_AT: resettable}, answer)
fadt_row("no 5 NoFacs", {37: 0}, (9, 116))
fadt_row("no 5 FacsAlign 0x7020", {36: 0x20}, (9, 116))
fadt_row("no 5 FacsHeaderOut 0x8000", {37: 0x80}, (9, 116))
facs_row("no 5 FacsSignature 0x7000", {0: ord("f")})
facs_row("no 5 FacsLength 0x7000", {4: 63})
facs_row("no 5 FacsOut 0x7000", {4: 65})

# ---- the MADT's entries
row("a MADT of its fixed fields", listed(madt()), "yes")
row("a MADT of 40 bytes", listed(table(b"APIC", bytes(4))), "no 6 MadtShort")
row("one byte after the last entry", listed(madt(lapic(0, 0), b"\7")), "no 6 MadtEntryCut 0x34")
row("an entry of length 0", listed(madt(b"\0\0")), "no 6 MadtEntryCut 0x2c")
row("an entry of length 0 after another", listed(madt(lapic(0, 0), b"\7\0")), "no 6 MadtEntryCut 0x34")
row("an entry that goes past the table", listed(madt(lapic(0, 0), b"\0\11" + bytes(6))), "no 6 MadtEntryCut 0x34")
row("an entry of length 1", listed(madt(b"\0\1")), "no 6 MadtEntryCut 0x2c")
row("a local APIC of 12 bytes", listed(madt(bytes([0, 12]) + bytes(10))), "no 6 MadtEntryLength 0x2c")
row("an entry of a type that no rule names", listed(madt(bytes([11, 80]) + bytes(78))), "yes")
row("a reserved polarity", listed(madt(override(9, 9, 0b0010))), "no 6 ReservedInti 0x2c")
row("a reserved trigger mode", listed(madt(override(9, 9, 0b1000))), "no 6 ReservedInti 0x2c")
row("active high and level", listed(madt(override(9, 9, 0b1101))), "yes")
row("a reserved polarity of an NMI source", listed(madt(nmi_source(9, 0b0010))), "no 6 ReservedInti 0x2c")
row("a reserved polarity of a local APIC NMI", listed(madt(lapic_nmi(255, 1, 0b0010))), "no 6 ReservedInti 0x2c")
row("a reserved polarity of an x2APIC NMI", listed(madt(x2apic_nmi(0, 1, 0b0010))), "no 6 ReservedInti 0x2c")
row("an override of another bus", listed(madt(override(9, 9, 0b0010, bus=1))), "no 6 OverrideBus 0x2c")
THREE_ADDRESSES = [lapic_nmi(255, 1), lapic_address(0), lapic(0, 0), lapic_address(0), lapic_address(0)]
row("three addresses of the local APICs", listed(madt(*THREE_ADDRESSES)), "no 6 SecondAddressOverride 0x46 0x32")
row("two addresses of the local APICs", listed(madt(lapic_address(0), lapic_address(0))), "no 6 SecondAddressOverride 0x38 0x2c")
HIGH = listed(madt(io_apic(0xFEC00000, 0xFFFFFFF0)))
row("interrupt numbers up to 2^32", HIGH, "yes", "--default-inputs 16")
row("an interrupt number of 2^32", HIGH, "no 6 GsiPastEnd 0x2c", "--default-inputs 17")
EVERY_KIND = madt(
    lapic(0, 0), io_apic(0xFEC00000, 0), override(0, 2), nmi_source(3), lapic_nmi(255, 1), lapic_address(0xFEE00000),
    x2apic(256, 256), x2apic_nmi(256, 1),
)
row("a MADT of every kind", listed(EVERY_KIND), "yes")

# ---- interrupt numbers and overrides
TWO_IO_APICS = listed(madt(io_apic(0xFEC00000, 0), io_apic(0xFEC01000, 24)))
row("two I/O APICs", TWO_IO_APICS, "yes")
row("two I/O APICs, the first one with 32 inputs", TWO_IO_APICS, "no 7 GsiClash 0x2c 0x38 0x18", "fec00000=32")
row("the first count of an address is used", TWO_IO_APICS, "no 7 GsiClash 0x2c 0x38 0x18", "fec00000=32 fec00000=24")
TOUCHING = madt(io_apic(0xFEC10000, 144), io_apic(0xFEC80000, 24), io_apic(0xFEC00000, 0))
row("interrupt numbers that touch", listed(TOUCHING), "yes", "fec80000=120")
row("the last interrupt numbers", listed(madt(io_apic(0xFEC00000, 2**32 - 24), io_apic(0xFEC10000, 2**32 - 48))), "yes")
for bases, words, clash in (
    ((0, 23), "", "0x2c 0x38 0x17"),
    ((23, 0), "", "0x38 0x2c 0x17"),
    ((60, 0, 23), "", "0x38 0x44 0x17"),
    ((143, 0, 24), "fec20000=120", "0x44 0x2c 0x8f"),
    # not neighbours in the table
    ((100, 0, 110), "", "0x2c 0x44 0x6e"),
    ((10, 8, 9), "", "0x38 0x44 0x9"),
    ((5, 5, 5), "", "0x2c 0x38 0x5"),
    # all three serve 20, and the two that begin first are reported
    ((20, 20, 0), "", "0x44 0x2c 0x14"),
    ((2**32 - 24, 2**32 - 47), "", "0x38 0x2c 0xffffffe8"),
):
    io_apics = [io_apic(0xFEC00000 + 0x10000 * place, base) for place, base in enumerate(bases)]
    row(f"I/O APICs from {bases} on", listed(madt(*io_apics)), f"no 7 GsiClash {clash}", words)
row("two numbers of one source", listed(madt(override(9, 9), override(9, 20))), "no 8 OverrideClash 0x36 0x2c 0x9")
SIX_OVERRIDES = [override(9, 20), override(0, 2), override(9, 20), override(9, 9), override(0, 2), override(9, 9)]
row("the first of six overrides", listed(madt(*SIX_OVERRIDES)), "no 8 OverrideClash 0x4a 0x2c 0x9")
row("one override twice", listed(madt(override(9, 9), override(9, 9))), "yes")
EACH_SOURCE = [override(source, 1) for source in range(255, -1, -1)]
row("an override of each source, in falling order", listed(madt(*EACH_SOURCE)), "yes")
row("the last source in two of them", listed(madt(*EACH_SOURCE, override(0, 2))), "no 8 OverrideClash 0xa2c 0xa22 0x0")
row("the first source in two of them", listed(madt(*EACH_SOURCE, override(255, 2))), "no 8 OverrideClash 0xa2c 0x2c 0xff")

# ---- the SRAT's entries
RANGES = (memory(0, 0xA0000), memory(0x50000, 0), memory(0x100000, 0x3FF00000))
row("ranges that are apart, one of them empty", listed(srat(*RANGES)), "yes")
row("an SRAT of 44 bytes", listed(table(b"SRAT", bytes(8))), "no 9 SratShort")
row("half an SRAT entry", listed(srat(memory(0, 0)[:20])), "no 9 SratEntryCut 0x30")
row("a range of 24 bytes", listed(srat(bytes([1, 24]) + bytes(22))), "no 9 SratEntryLength 0x30")
row("a byte after the last SRAT entry", listed(srat(b"\3\2", b"\0")), "no 9 SratEntryCut 0x32")
row("the first of two wrong lengths", listed(srat(x2apic_domain(0, 0), other(3, 3), other(0, 15), other(1, 2))), "no 9 SratEntryLength 0x4b")
row("an SRAT entry of a type that no rule names", listed(srat(bytes([3, 20]) + bytes(18))), "yes")
row("a range up to 2^64", listed(srat(memory(0xFFFFFFFFFFFFF000, 0x1000))), "yes")
row("a range past 2^64", listed(srat(memory(0xFFFFFFFFFFFFF000, 0x1001))), "no 9 RangePastEnd 0x30")
row("the longest range, from 1", listed(srat(memory(1, 2**64 - 1))), "yes")
row("the longest range, from 2", listed(srat(memory(2, 2**64 - 1))), "no 9 RangePastEnd 0x30")
row("the third range goes past 2^64", listed(srat(*(memory(2, 2**64 - 1, flags) for flags in (0, 2, 3)))), "no 9 RangePastEnd 0x80")
row("a range past 2^64 that is not enabled", listed(srat(memory(2, 2**64 - 1, flags=0))), "yes")

# ---- memory ranges
OVERLAP = listed(srat(*RANGES, memory(0x3FFFFFFF, 0x1000)))
row("two ranges that share an address", OVERLAP, "no 10 Overlap 0x80 0xa8 0x3fffffff")
THREE = srat(memory(0x1000, 0x2000), memory(0, 0x2000), memory(0x1000, 0x800))
row("the least address of three overlaps", listed(THREE), "no 10 Overlap 0x58 0x30 0x1000")
row("ranges that touch, unsorted", listed(srat(memory(16, 16), memory(0, 16), memory(32, 8))), "yes")
row("a range inside the first, after another", listed(srat(memory(0, 64), memory(100, 1), memory(8, 4))), "no 10 Overlap 0x30 0x80 0x8")
row("ranges that are not enabled", listed(srat(memory(0, 16), memory(0, 16, 0), memory(0, 16, 2))), "yes")
row("empty ranges inside another", listed(srat(memory(0, 16), memory(8, 0), memory(8, 0))), "yes")
row("the last and the first addresses", listed(srat(memory(2**64 - 0x1000, 0x1000), memory(0, 0x1000))), "yes")
row("the last address", listed(srat(memory(2**64 - 0x1000, 0x1000), memory(2**64 - 1, 1))), "no 10 Overlap 0x30 0x58 0xffffffffffffffff")
TWO_SRATS = listed(srat(memory(0, 0x1000)), srat(memory(0, 0x2000), memory(0, 0x2000)))
row("an overlap in a second SRAT", TWO_SRATS, "yes")
WINDOW = listed(srat(memory(0, 0x80000000), memory(0, 0x100000000, 3)))
TWO_WINDOWS = listed(srat(memory(0, 0x80000000), memory(0, 0x100000000, 3), memory(0x80000000, 0x1000, 3)))
BOTH_KINDS = listed(srat(*(memory(0, 0x1000, flags) for flags in (3, 3, 1, 1))))
for name, pieces, answer in (
    ("a hot-plug window over a range", WINDOW, "yes"),
    ("a hot-plug window over another", TWO_WINDOWS, "no 10 Overlap 0x58 0x80 0x80000000"),
    ("overlaps of both kinds at one address", BOTH_KINDS, "no 10 Overlap 0x80 0xa8"),
):
    row(f"{name}, all counted", pieces, "no 10 Overlap 0x30 0x58")
    row(f"{name}, counted", pieces, "no 10 Overlap 0x30 0x58", "--hotplug counted")
    row(f"{name}, apart", pieces, answer, "--hotplug apart")

for ranges, overlap in (
    # each is a base, a length and flags; windows have flags of 3
    (((0, 9, 3), (4, 9, 1), (8, 9, 3)), "0x30 0x80 0x8"),
    (((0, 9, 1), (4, 9, 3), (8, 9, 1)), "0x30 0x80 0x8"),
    (((0, 9, 1), (0, 9, 3), (8, 1, 1), (7, 1, 3)), "0x58 0xa8 0x7"),
    (((0, 9, 3), (0, 9, 1), (8, 1, 3), (7, 1, 1)), "0x58 0xa8 0x7"),
    (((0, 9, 3), (0, 9, 1), (8, 1, 3), (8, 1, 1)), "0x58 0xa8 0x8"),
):
    entries = [memory(*numbers) for numbers in ranges]
    row(f"ranges {ranges}", listed(srat(*entries)), f"no 10 Overlap {overlap}", "--hotplug apart")

# ---- the SLIT
row("no localities", listed(slit(0)), "yes")
row("one locality", listed(slit(1, [10])), "yes")
row("a SLIT of 40 bytes", listed(table(b"SLIT", bytes(4))), "no 11 SlitShort")
row("2^32 localities, whose square is 0 in 64 bits", listed(slit(2**32)), "no 11 SlitSize 0x24")
row("2^64 - 1 localities", listed(slit(2**64 - 1)), "no 11 SlitSize 0x24")
row("a locality at 11 from itself", listed(slit(2, [11, 20, 20, 10])), "no 11 SlitDiagonal 0x2c")
row("the second locality at 11 from itself", listed(slit(2, [10, 20, 20, 11])), "no 11 SlitDiagonal 0x2f")
row("a distance of 9 in the second row", listed(slit(2, [10, 20, 9, 10])), "no 11 SlitLow 0x2e")
row("a cell too few", listed(slit(2, [10, 20, 20])), "no 11 SlitSize 0x24")
row("a distance of 9", listed(slit(2, [10, 9, 20, 10])), "no 11 SlitLow 0x2d")
row("a locality at 9 from itself", listed(slit(2, [9, 20, 20, 10])), "no 11 SlitDiagonal 0x2c")
row("a SLIT of 43 bytes", listed(table(b"SLIT", bytes(7))), "no 11 SlitShort")
row("a byte after no localities", listed(slit(0, [0])), "no 11 SlitSize 0x24")
row("a distance of 9 before a locality at 11 from itself", listed(slit(2, [10, 9, 20, 11])), "no 11 SlitLow 0x2d")
row("a locality at 9 from itself before a distance of 9", listed(slit(2, [9, 9, 20, 10])), "no 11 SlitDiagonal 0x2c")
row("a locality out of reach", listed(slit(2, [10, 255, 255, 10])), "yes")

# ---- the PPTT
row("a PPTT with no entries", listed(pptt()), "yes")
row("a byte after the last node", listed(pptt(node(), b"\0")), "no 12 PpttEntryCut 0x38")
row("a node of 24 bytes with no resources", listed(pptt(node(count=0, length=24) + bytes(4))), "no 12 PpttEntryLength 0x24")
row("a node of 2^32 - 1 resources", listed(pptt(node(count=2**32 - 1, length=20))), "no 12 PpttEntryLength 0x24")
row("a cache of 26 bytes", listed(pptt(cache(length=26))), "no 12 PpttEntryLength 0x24")
row("a parent inside an entry that looks like a node", listed(pptt(node(58), bytes([5, 22]) + node())), "no 13 DanglingParent 0x24 0x3a")
row("a resource that is a cache", listed(pptt(node(resources=[60]), cache())), "yes")
row("a resource of a type that no rule names", listed(pptt(node(resources=[60]), bytes([2, 30]) + bytes(28))), "yes")
row("a resource that is a node", listed(pptt(node(resources=[36]), cache())), "no 13 DanglingResource 0x24 0x0 0x24")
row("a resource of 0", listed(pptt(node(resources=[0]), cache())), "no 13 DanglingResource 0x24")
row("the last but one of three resources", listed(pptt(node(resources=[68, 69, 68]), cache())), "no 13 DanglingResource 0x24 0x1 0x45")
row("a next level inside its own cache", listed(pptt(cache(37, 28))), "no 13 DanglingCache 0x24 0x25")
row("a node that is its own parent", listed(pptt(node(36))), "no 14 ParentCycle 0x24 0x0 0x1")
row("two nodes that lead to a cycle of three", listed(pptt(*map(node, (56, 76, 96, 116, 76)))), "no 14 ParentCycle 0x24 0x2 0x3")
row("a next level that is a node", listed(pptt(node(), cache(36))), "no 13 DanglingCache 0x38 0x24")
row("a parent inside a node, before a wrong resource", listed(pptt(node(), node(40, resources=[36]))), "no 13 DanglingParent 0x38 0x28")
row("a parent that is a cache", listed(pptt(node(56), cache())), "no 13 DanglingParent 0x24 0x38")
row("two nodes that are each other's parents", listed(pptt(node(56), node(36))), "no 14 ParentCycle 0x24 0x0 0x2")
row("a node under one that is its own parent", listed(pptt(node(56), node(56))), "no 14 ParentCycle 0x24 0x1 0x1")
row("the second node is its own parent", listed(pptt(node(), node(56))), "no 14 ParentCycle 0x38 0x0 0x1")
CHAIN = [node(56 + 20 * place) for place in range(999)]
RING = listed(pptt(*CHAIN, node(36)))
row("a chain of 1,000 nodes", listed(pptt(*CHAIN, node())), "yes")
row("a ring of 1,000 nodes", RING, "no 14 ParentCycle 0x24 0x0 0x3e8")
row("three caches that end", listed(pptt(cache(60), cache(84, 24), cache(length=28))), "yes")
row("a cache that leads to a cycle of two", listed(pptt(cache(60), cache(84), cache(60, 28))), "no 15 CacheCycle 0x24 0x1 0x2")
row("a cache that is its own next level", listed(pptt(cache(36, 28))), "no 15 CacheCycle 0x24 0x0 0x1")

# ---- proximity domains of processors
def two_domains(flags, second=1):
    """A processor of the MADT with these flags, which the SRAT puts in the domains 0 and `second`."""
    return listed(madt(lapic(0, 5, flags)), srat(apic_domain(5, 0), x2apic_domain(5, second)))


TWO_DOMAINS = "no 16 TwoDomains 0x40 0x30 0x5"
for flags, enabled, usable in (
    (0b00, "yes", "yes"),
    (0b01, TWO_DOMAINS, TWO_DOMAINS),
    (0b10, "yes", TWO_DOMAINS),
    (0b11, TWO_DOMAINS, TWO_DOMAINS),
):
    row(f"two domains of a processor with flags {flags:02b}", two_domains(flags), enabled)
    row(f"two domains of a processor with flags {flags:02b}, enabled", two_domains(flags), enabled, "--processors enabled")
    row(f"two domains of a processor with flags {flags:02b}, usable", two_domains(flags), usable, "--processors usable")
    row(f"one domain twice of a processor with flags {flags:02b}", two_domains(flags, second=0), "yes", "--processors usable")
row("two domains, the high bits apart", two_domains(1, second=0x100), TWO_DOMAINS)
row("two domains of an x2APIC", listed(madt(x2apic(0, 5)), srat(apic_domain(5, 0), x2apic_domain(5, 1))), TWO_DOMAINS)
row("a disabled entry in the SRAT", listed(madt(lapic(0, 5)), srat(apic_domain(5, 0), x2apic_domain(5, 1, flags=0))), "yes")

# ---- interrupt numbers that are named
row("an override to a number that none serves", listed(madt(io_apic(0xFEC00000, 0), override(9, 24))), "no 17 GsiNowhere 0x38 0x0 0x18")
row("an NMI source of a number that none serves", listed(madt(io_apic(0xFEC00000, 0), nmi_source(24))), "no 17 GsiNowhere 0x38 0x0 0x18")
row("an override to a number of the second I/O APIC", listed(madt(io_apic(0xFEC00000, 0), io_apic(0xFEC01000, 24), override(9, 47))), "yes")
row("an override and no I/O APIC", listed(madt(override(9, 24))), "yes")

# ---- leaves
LEAF = node(0, IS_ID_VALID | IS_LEAF, 7)
row("a leaf that is no processor", listed(madt(lapic(5, 0)), pptt(LEAF)), "no 18 LeafUnknown 0x24 0x0 0x7")
row("a leaf that is a disabled processor", listed(madt(lapic(7, 0, flags=0)), pptt(LEAF)), "yes")
row("a leaf in a PPTT of Revision 1", listed(madt(lapic(5, 0)), pptt(LEAF, revision=1)), "yes")
row("a leaf, and a MADT entry of a type that no rule names", listed(madt(lapic(5, 0), bytes([11, 80]) + bytes(78)), pptt(LEAF)), "yes")
row("a leaf whose ID is not valid", listed(madt(lapic(5, 0)), pptt(node(0, IS_LEAF, 7))), "yes")
row("a node that is no leaf", listed(madt(lapic(5, 0)), pptt(node(0, IS_ID_VALID, 7))), "yes")

# ---- a complete set, and parts of it
COMPLETE = image_of(
    full_fadt(_92=b"\4"),
    madt(lapic(0, 0), io_apic(0xFEC00000, 0), override(0, 2), lapic_nmi(255, 1)),
    hpet(),
    others={FACS_AT: facs()},
)
row("a complete set", COMPLETE, "yes")
# The number that an override names, the second domain of a processor, and the ID of a leaf. All stages up to the fault's take
# the memory that they need.
for gsi, domain, uid, answer in (
    (9, 0, 5, "yes"),
    (9, 0, 7, "no 18 LeafUnknown 0x24 0x0 0x7"),
    (24, 0, 7, "no 17 GsiNowhere 0x40 0x0 0x18"),
    (24, 1, 7, "no 16 TwoDomains 0x40 0x30 0x5"),
):
    processors = madt(lapic(5, 5), io_apic(0xFEC00000, 0), override(9, gsi))
    domains = srat(apic_domain(5, 0), x2apic_domain(5, domain))
    leaf = pptt(node(0, IS_ID_VALID | IS_LEAF, uid))
    row(f"a set for all stages, {gsi} {domain} {uid}", listed(processors, domains, leaf), answer)


def part(address, size):
    """The complete set, of whose piece at this address only the first bytes are present."""
    pieces = {**COMPLETE, address: COMPLETE[address][:size]}
    return {at: data for at, data in pieces.items() if data}


for size in range(20):
    row(f"an RSDP of which {size} bytes are present", part(RSDP_AT, size), "no 1 RsdpOut 0xe0000")
for size in range(48):
    fault = "RootHeaderOut" if size < 36 else "RootOut"
    row(f"an RSDT of which {size} bytes are present", part(RSDT_AT, size), f"no 2 {fault} 0x1000 0x0 0x0")
for size in range(80):
    fault = "TableHeaderOut" if size < 36 else "TableOut"
    row(f"a MADT of which {size} bytes are present", part(0x3000, size), f"no 3 {fault} 0x1 0x3000 0x0")
for size in range(64):
    fault = "FacsHeaderOut" if size < 8 else "FacsOut"
    row(f"a FACS of which {size} bytes are present", part(FACS_AT, size), f"no 5 {fault} 0x7000 0x0 0x0")


def madt_of_length(length):
    """The complete set with another Length of the MADT, whose checksum closes the sum where a header fits."""
    data = COMPLETE[0x3000]
    data = data[:4] + number(length, 4) + data[8:]
    if length >= 36:
        data = summed(data[:length], 9) + data[length:]
    return {**COMPLETE, 0x3000: data}


ENTRY_ENDS = (44, 52, 64, 74, 80)
for length in range(81):
    if length < 36:
        answer = "no 3 TableLength 0x1 0x3000"
    elif length < 44:
        answer = "no 6 MadtShort"
    elif length in ENTRY_ENDS:
        answer = "yes"
    else:
        answer = f"no 6 MadtEntryCut {max(end for end in ENTRY_ENDS if end < length):#x} 0x0 0x0"
    row(f"a MADT of Length {length}", madt_of_length(length), answer)
