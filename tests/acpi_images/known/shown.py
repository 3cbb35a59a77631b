"""Sets of tables, and the text that `show` has to write of each, which is written by hand from the tables' fields."""

from dataclasses import dataclass

from ..tables import *


@dataclass
class Shown:
    """A set, and what the program has to write of it with these words after `show`."""

    name: str
    pieces: dict
    text: str
    words: str = "--rsdp e0000"


SHOWN = []


def shown(name, pieces, text, words="--rsdp e0000"):
    SHOWN.append(Shown(name, pieces, text.lstrip("\n"), words))


HEADS = """
rsdp 0xe0000 revision 0
root 0x1000 RSDT length 44 slots 2
slot 0 0x2000 FACP length 116 revision 1
"""
REDUCED_FADT = """
fadt 0x2000 length 116 profile 0 sci 0 flags 0x100000 reduced yes
dsdt 0x0
"""


def beside_fadt(name, second, lines):
    """A FADT of hardware-reduced ACPI at 0x2000, and a second table at 0x3000: the line of its slot, and its own lines."""
    slot = f"slot 1 0x3000 {second[:4].decode()} length {len(second)} revision {second[8]}"
    text = HEADS.strip() + "\n" + slot + REDUCED_FADT + lines.strip() + "\n"
    shown(name, listed(second), text)


# ---- complete sets

shown("hardware-reduced ACPI", image_of(fadt()), """
rsdp 0xe0000 revision 0
root 0x1000 RSDT length 40 slots 1
slot 0 0x2000 FACP length 116 revision 1
fadt 0x2000 length 116 profile 0 sci 0 flags 0x100000 reduced yes
dsdt 0x0
""")
shown(
    "as PC firmware writes it",
    image_of(
        full_fadt(_92=b"\4"), madt(lapic(0, 0), io_apic(0xFEC00000, 0), override(0, 2), lapic_nmi(0xFF, 1)), hpet(),
        others={FACS_AT: facs()},
    ),
    """
rsdp 0xe0000 revision 0
root 0x1000 RSDT length 48 slots 3
slot 0 0x2000 FACP length 116 revision 1
slot 1 0x3000 APIC length 80 revision 1
slot 2 0x4000 HPET length 56 revision 1
fadt 0x2000 length 116 profile 0 sci 0 flags 0x0 reduced no
dsdt 0x0
facs 0x7000 length 64 version 1
madt 0x3000 lapic 0xfee00000 flags 0x1
0x2c lapic uid 0 id 0 flags 0x1
0x34 ioapic id 0 address 0xfec00000 base 0
0x40 override source 0 gsi 2 flags 0x0
0x4a lapic-nmi uid 255 flags 0x0 lint 1
""")
SMALLEST = {RSDP_AT: rsdp(), RSDT_AT: rsdt()}
NOTHING_LISTED = """
rsdp 0xe0000 revision 0
root 0x1000 RSDT length 36 slots 0
"""
shown("an RSDT that lists nothing", SMALLEST, NOTHING_LISTED)
shown("the RSDP that is found", SMALLEST, NOTHING_LISTED, "")
shown("an address with 0x before it", SMALLEST, NOTHING_LISTED, "--rsdp 0xE0000")
shown("an RSDP at the top of the addresses", {2**64 - 20: rsdp(), RSDT_AT: rsdt()}, """
rsdp 0xffffffffffffffec revision 0
root 0x1000 RSDT length 36 slots 0
""", "--rsdp ffffffffffffffec")

# ---- the root and its slots

shown(
    "an XSDT, whose slots are addresses above 4 GB, empty, or of the XSDT itself",
    {RSDP_AT: extended_rsdp(), XSDT_AT: xsdt(0x123456789000, 0, XSDT_AT), 0x123456789000: table(b"SSDT", b"no AML", 2)},
    """
rsdp 0xe0000 revision 2
root 0x1100 XSDT length 60 slots 3
slot 0 0x123456789000 SSDT length 42 revision 2
slot 1 empty
slot 2 0x1100 XSDT length 60 revision 1
""")
shown("a table at address 0, which no slot lists", {**listed(slots=(0, 0x2000)), 0: hpet()}, """
rsdp 0xe0000 revision 0
root 0x1000 RSDT length 44 slots 2
slot 0 empty
slot 1 0x2000 FACP length 116 revision 1
fadt 0x2000 length 116 profile 0 sci 0 flags 0x100000 reduced yes
dsdt 0x0
""")
shown(
    "signatures of any bytes: 20h to 7Eh are shown as they are",
    image_of(table(b"\0\x1f \x21", b"", 255), table(b"~\x7f\x80\xff", b""), table(b"a\nb\r", b""), table("Ü€".encode()[:4], b"")),
    """
rsdp 0xe0000 revision 0
root 0x1000 RSDT length 52 slots 4
slot 0 0x2000 .. ! length 36 revision 255
slot 1 0x3000 ~... length 36 revision 1
slot 2 0x4000 a.b. length 36 revision 1
slot 3 0x5000 .... length 36 revision 1
""")
shown("of two tables with one signature the first is shown", listed(table(b"APIC", b"", 7), madt(lapic(1, 2)), fadt(0, 200)), """
rsdp 0xe0000 revision 0
root 0x1000 RSDT length 52 slots 4
slot 0 0x2000 FACP length 116 revision 1
slot 1 0x3000 APIC length 36 revision 7
slot 2 0x4000 APIC length 52 revision 1
slot 3 0x5000 FACP length 200 revision 1
fadt 0x2000 length 116 profile 0 sci 0 flags 0x100000 reduced yes
dsdt 0x0
madt 0x3000 short
""")
shown("tables come in one order, whatever that of their slots", image_of(pptt(), slit(0), srat(), madt(), fadt()), """
rsdp 0xe0000 revision 0
root 0x1000 RSDT length 56 slots 5
slot 0 0x2000 PPTT length 36 revision 2
slot 1 0x3000 SLIT length 44 revision 1
slot 2 0x4000 SRAT length 48 revision 1
slot 3 0x5000 APIC length 44 revision 1
slot 4 0x6000 FACP length 116 revision 1
fadt 0x6000 length 116 profile 0 sci 0 flags 0x100000 reduced yes
dsdt 0x0
madt 0x5000 lapic 0xfee00000 flags 0x1
srat 0x4000
slit 0x3000 count 0
pptt 0x2000
""")

HIGH = 0x1_0000_0000
shown(
    "one of each kind above 4 GB, with other low halves and with the same",
    {
        RSDP_AT: extended_rsdp(5 * HIGH),
        5 * HIGH: xsdt(HIGH + 0x2000, 2 * HIGH + 0x3000, 3 * HIGH, 0xFFFFFFFFFFFF0000, 4 * HIGH + 0x3000),
        HIGH + 0x2000: fadt(),
        2 * HIGH + 0x3000: madt(),
        3 * HIGH: srat(),
        0xFFFFFFFFFFFF0000: slit(0),
        4 * HIGH + 0x3000: pptt(),
    },
    """
rsdp 0xe0000 revision 2
root 0x500000000 XSDT length 76 slots 5
slot 0 0x100002000 FACP length 116 revision 1
slot 1 0x200003000 APIC length 44 revision 1
slot 2 0x300000000 SRAT length 48 revision 1
slot 3 0xffffffffffff0000 SLIT length 44 revision 1
slot 4 0x400003000 PPTT length 36 revision 2
fadt 0x100002000 length 116 profile 0 sci 0 flags 0x100000 reduced yes
dsdt 0x0
madt 0x200003000 lapic 0xfee00000 flags 0x1
srat 0x300000000
slit 0xffffffffffff0000 count 0
pptt 0x400003000
""")

EMPTY_SLOTS = 1100
MANY_SLOTS = {RSDP_AT: rsdp(0x10000), 0x10000: rsdt(*[0] * EMPTY_SLOTS, TABLES_AT), TABLES_AT: fadt()}
shown("a FADT in slot 1,100, after empty ones", MANY_SLOTS, f"""
rsdp 0xe0000 revision 0
root 0x10000 RSDT length 4440 slots 1101
{"".join(f"slot {slot} empty" + chr(10) for slot in range(EMPTY_SLOTS))}slot 1100 0x2000 FACP length 116 revision 1
fadt 0x2000 length 116 profile 0 sci 0 flags 0x100000 reduced yes
dsdt 0x0
""")

# ---- the FADT, its register blocks, and the FACS


def with_fadt(name, table, lines, **others):
    """One FADT at 0x2000, and the lines after its slot."""
    others = {int(address[1:], 16): piece for address, piece in others.items()}
    head = f"""rsdp 0xe0000 revision 0
root 0x1000 RSDT length 40 slots 1
slot 0 0x2000 FACP length {len(table)} revision 1
"""
    shown(name, image_of(table, others=others), head + lines.lstrip("\n"))


with_fadt("one register block, by its 32-bit address", full_fadt(_56=number(0x600, 4)), """
fadt 0x2000 length 116 profile 0 sci 0 flags 0x0 reduced no
dsdt 0x0
block PM1a_EVT port 4 0x600
facs 0x7000 length 64 version 1
""", x7000=facs())
with_fadt("one register block, by its X_ structure", full_fadt(length=244, _56=number(0x600, 4), _148=b"\1\x20\0\0" + number(0x604, 8)), """
fadt 0x2000 length 244 profile 0 sci 0 flags 0x0 reduced no
dsdt 0x0
block PM1a_EVT gas 1 32 0 0 0x604
facs 0x7000 length 64 version 1
""", x7000=facs())
with_fadt(
    "the FADT of PC firmware, cut after Flags",
    fadt(
        0x84A5, 116, _36=number(0x7000, 4) + number(0x7FE0040, 4), _46=number(9, 2), _56=number(0x600, 4), _64=number(0x604, 4),
        _76=number(0x608, 4) + number(0x620, 4), _88=bytes([4, 2, 0, 4, 16]),
    ),
    """
fadt 0x2000 length 116 profile 0 sci 9 flags 0x84a5 reduced no
dsdt 0x7fe0040
block PM1a_EVT port 4 0x600
block PM1a_CNT port 2 0x604
block PM_TMR port 4 0x608
block GPE0 port 16 0x620
facs 0x7000 length 64 version 1
""", x7000=facs())
with_fadt(
    "all register blocks, by their 32-bit addresses",
    fadt(
        0x123400, 116, _40=number(0xDEADBEEF, 4), _45=b"\4", _46=number(0xABCD, 2), _56=b"".join(number(0x100 * k, 4) for k in range(1, 9)),
        _88=bytes(range(10, 16)),
    ),
    """
fadt 0x2000 length 116 profile 4 sci 43981 flags 0x123400 reduced yes
dsdt 0xdeadbeef
block PM1a_EVT port 10 0x100
block PM1b_EVT port 10 0x200
block PM1a_CNT port 11 0x300
block PM1b_CNT port 11 0x400
block PM2_CNT port 12 0x500
block PM_TMR port 13 0x600
block GPE0 port 14 0x700
block GPE1 port 15 0x800
""")


with_fadt(
    "all register blocks, by their X_ structures, and X_DSDT",
    fadt(
        length=276, _40=number(0xDEADBEEF, 4), _56=b"\1" * 32, _88=b"\2" * 6, _140=number(0x1_0000_0000, 8),
        _148=b"".join(generic_address(2**64 - 1 - k, k, 2 * k, 3 * k, 4 * k) for k in range(8)),
    ),
    """
fadt 0x2000 length 276 profile 0 sci 0 flags 0x100000 reduced yes
dsdt 0x100000000
block PM1a_EVT gas 0 0 0 0 0xffffffffffffffff
block PM1b_EVT gas 1 2 3 4 0xfffffffffffffffe
block PM1a_CNT gas 2 4 6 8 0xfffffffffffffffd
block PM1b_CNT gas 3 6 9 12 0xfffffffffffffffc
block PM2_CNT gas 4 8 12 16 0xfffffffffffffffb
block PM_TMR gas 5 10 15 20 0xfffffffffffffffa
block GPE0 gas 6 12 18 24 0xfffffffffffffff9
block GPE1 gas 7 14 21 28 0xfffffffffffffff8
""")
with_fadt(
    "an X_ structure that the FADT has only a part of, and X_DSDT the same",
    fadt(length=147, _40=number(7, 4), _140=b"\1" * 7, _80=number(0x22, 4), _92=b"\6"),
    """
fadt 0x2000 length 147 profile 0 sci 0 flags 0x100000 reduced yes
dsdt 0x7
block GPE0 port 6 0x22
""")
with_fadt(
    "an X_ structure whose address is 0, and one that ends with the FADT",
    fadt(length=244, _84=number(0x33, 4), _93=b"\x08", _220=generic_address(0, 1, 8, 0, 1), _232=generic_address(0x44, 1, 16, 0, 2)),
    """
fadt 0x2000 length 244 profile 0 sci 0 flags 0x100000 reduced yes
dsdt 0x0
block GPE1 gas 1 16 0 2 0x44
""")
with_fadt("a FADT of 115 bytes", table(b"FACP", b"\1" * 79), "fadt 0x2000 short\n")
with_fadt("a FADT of 36 bytes", table(b"FACP", b""), "fadt 0x2000 short\n")

FADT_LINES = """
fadt 0x2000 length 116 profile 0 sci 0 flags 0x0 reduced no
dsdt 0x0
"""
LONG_FACS = b"FACS" + number(80, 4) + bytes(24) + b"\2" + bytes(47)
with_fadt("a FACS of 80 bytes", full_fadt(), FADT_LINES + "facs 0x7000 length 80 version 2\n", x7000=LONG_FACS)
with_fadt("no FACS", full_fadt(0), FADT_LINES)
with_fadt("a FACS at no multiple of 64", full_fadt(0x7020), FADT_LINES + "facs 0x7020 bad\n", x7020=facs())
with_fadt("a FACS that is not present", full_fadt(), FADT_LINES + "facs 0x7000 bad\n")
with_fadt("a FACS of which 63 bytes are present", full_fadt(), FADT_LINES + "facs 0x7000 bad\n", x7000=facs()[:63])
with_fadt("a FACS of which 7 bytes are present", full_fadt(), FADT_LINES + "facs 0x7000 bad\n", x7000=facs()[:7])
with_fadt("a FACS with another signature", full_fadt(), FADT_LINES + "facs 0x7000 bad\n", x7000=b"facs" + facs()[4:])
with_fadt("a FACS of length 63", full_fadt(), FADT_LINES + "facs 0x7000 bad\n", x7000=b"FACS" + number(63, 4) + bytes(56))
with_fadt("a FACS of reduced hardware, by X_FIRMWARE_CTRL", fadt(length=140, _36=number(0x7020, 4), _132=number(0x7000, 8)), """
fadt 0x2000 length 140 profile 0 sci 0 flags 0x100000 reduced yes
dsdt 0x0
facs 0x7000 length 64 version 1
""", x7000=facs())

# X_FIRMWARE_CTRL, at 132 from FADT version 3 on, has 64 bits. In the second set the low 32 are 0.
for address in (0x1_0000_7000, 0x1_0000_0000, 0xFFFF_FFFF_FFFF_FF80):
    shown(f"a FACS at {address:#x}, above 4 GB", image_of(full_fadt(0, 140, _132=number(address, 8)), others={address: facs()}), f"""
rsdp 0xe0000 revision 0
root 0x1000 RSDT length 40 slots 1
slot 0 0x2000 FACP length 140 revision 1
fadt 0x2000 length 140 profile 0 sci 0 flags 0x0 reduced no
dsdt 0x0
facs {address:#x} length 64 version 1
""")
with_fadt("a FACS above 4 GB that is not present", full_fadt(0, 140, _132=number(0x1_0000_0000, 8)), """
fadt 0x2000 length 140 profile 0 sci 0 flags 0x0 reduced no
dsdt 0x0
facs 0x100000000 bad
""")

# ---- the MADT

beside_fadt(
    "a MADT with all kinds of entries",
    madt(
        lapic(1, 2, 3), bytes([1, 12, 9, 0]) + number(0xFEC00000, 4) + number(24, 4), override(9, 20, 0xF, 1), nmi_source(7, 5),
        lapic_nmi(255, 1, 0xD), lapic_address(0x1FEE00000), x2apic(4000000000, 300, 2), x2apic_nmi(0xFFFFFFFF, 1, 0xA),
    ),
    """
madt 0x3000 lapic 0xfee00000 flags 0x1
0x2c lapic uid 1 id 2 flags 0x3
0x34 ioapic id 9 address 0xfec00000 base 24
0x40 override source 9 gsi 20 flags 0xf
0x4a nmi gsi 7 flags 0x5
0x52 lapic-nmi uid 255 flags 0xd lint 1
0x58 lapic-address 0x1fee00000
0x64 x2apic uid 4000000000 id 300 flags 0x2
0x74 x2apic-nmi uid 4294967295 flags 0xa lint 1
""")
OPAQUE = [bytes([kind, 2]) for kind in (6, 7, 8, 11, 255)]
beside_fadt(
    "a MADT with entries that are not of its kinds, or of other lengths",
    madt(*OPAQUE, bytes([0, 9]) + bytes(7), bytes([1, 255]) + bytes(253), bytes([2, 2]), bytes([9, 12]) + bytes(10)),
    """
madt 0x3000 lapic 0xfee00000 flags 0x1
0x2c entry type 6 length 2
0x2e entry type 7 length 2
0x30 entry type 8 length 2
0x32 entry type 11 length 2
0x34 entry type 255 length 2
0x36 entry type 0 length 9
0x3f entry type 1 length 255
0x13e entry type 2 length 2
0x140 entry type 9 length 12
""")
# What comes after the MADT's own fields, and the lines of it, up to where it is cut.
for body, lines in (
    ("", ""), ("c1 03 a1 c2 02 c3 04 a2 a3", "0x2c entry type 193 length 3\n0x2f entry type 194 length 2\n0x31 entry type 195 length 4"),
    ("07", "0x2c cut"), ("c1 03 a1 07", "0x2c entry type 193 length 3\n0x2f cut"),
    ("c1 03 a1 07 00", "0x2c entry type 193 length 3\n0x2f cut"), ("c1 03 a1 07 01 c2 02", "0x2c entry type 193 length 3\n0x2f cut"),
    ("c1 02 07 05 a1 a2", "0x2c entry type 193 length 2\n0x2e cut"),
    ("c1 02 07 04 a1 a2", "0x2c entry type 193 length 2\n0x2e entry type 7 length 4"),
):
    entries = bytes.fromhex(body)
    beside_fadt(f"a MADT with the entries {body}", madt(entries), "madt 0x3000 lapic 0xfee00000 flags 0x1\n" + lines)
beside_fadt("a MADT that ends in one byte", madt(lapic(0, 0), b"\x07"), """
madt 0x3000 lapic 0xfee00000 flags 0x1
0x2c lapic uid 0 id 0 flags 0x1
0x34 cut
""")
beside_fadt("a MADT with an entry of length 1, and entries after it", madt(b"\0\1", lapic(0, 0)), """
madt 0x3000 lapic 0xfee00000 flags 0x1
0x2c cut
""")
beside_fadt("a MADT whose last entry is longer than the rest", madt(nmi_source(1), lapic(0, 0)[:7]), """
madt 0x3000 lapic 0xfee00000 flags 0x1
0x2c nmi gsi 1 flags 0x0
0x34 cut
""")
beside_fadt("a MADT of 43 bytes", table(b"APIC", bytes(7)), "madt 0x3000 short")

# ---- the SRAT

beside_fadt(
    "an SRAT with all kinds of entries",
    srat(
        apic_domain(5, 0x01020304, 1), memory(0x100000000, 0x130000000, 3), x2apic_domain(70000, 2, 0), bytes([3, 4, 0, 0]),
        bytes([0, 15]) + bytes(13),
    ),
    """
srat 0x3000
0x30 cpu id 5 domain 16909060 flags 0x1
0x40 memory domain 0 base 0x100000000 length 0x130000000 flags 0x3
0x68 cpu id 70000 domain 2 flags 0x0
0x80 entry type 3 length 4
0x84 entry type 0 length 15
""")
beside_fadt(
    "a range of memory with all fields",
    srat(bytes([1, 40]) + number(0x01020304, 4) + b"\xff\xff" + b"\xff" * 8 + number(1, 8) + b"\xff" * 4 + number(7, 4) + b"\xff" * 8),
    """
srat 0x3000
0x30 memory domain 16909060 base 0xffffffffffffffff length 0x1 flags 0x7
""")
beside_fadt("an SRAT that is cut off", srat(memory(0, 0, 0), b"\1\x28"), """
srat 0x3000
0x30 memory domain 0 base 0x0 length 0x0 flags 0x0
0x58 cut
""")
beside_fadt("an SRAT of 47 bytes", table(b"SRAT", bytes(11)), "srat 0x3000 short")

beside_fadt("an SRAT that is cut after an entry of a type of its own", srat(bytes.fromhex("c1 03 a1 07")), """
srat 0x3000
0x30 entry type 193 length 3
0x33 cut
""")

# ---- the SLIT

beside_fadt("a SLIT of three localities", slit(3, (10, 20, 255, 21, 10, 11, 254, 22, 10)), """
slit 0x3000 count 3
row 0 10 20 255
row 1 21 10 11
row 2 254 22 10
""")
beside_fadt("a SLIT of other distances to each side", slit(3, (10, 12, 13, 21, 10, 23, 255, 32, 10)), """
slit 0x3000 count 3
row 0 10 12 13
row 1 21 10 23
row 2 255 32 10
""")
beside_fadt("a SLIT of no localities", slit(0), "slit 0x3000 count 0")
beside_fadt("a SLIT of one locality", slit(1, b"\x0a"), "slit 0x3000 count 1\nrow 0 10")
beside_fadt("a SLIT of 43 bytes", table(b"SLIT", bytes(7)), "slit 0x3000 short")
for name, cells in [
    ("a cell too few", (10, 20, 20)), ("a cell too many", (10, 20, 20, 10, 10)),
    ("a distance of 11 from a locality to itself", (10, 20, 20, 11)), ("a distance of 9", (10, 9, 20, 10)),
]:
    length = 44 + len(cells)
    beside_fadt(f"a SLIT with {name}", slit(2, cells), "slit 0x3000 bad")
beside_fadt("a SLIT of 2^64 - 1 localities", slit(2**64 - 1), "slit 0x3000 bad")

# ---- the PPTT

beside_fadt(
    "a PPTT with all kinds of entries",
    pptt(
        node(0, 0x11, 4000000000), node(36, 0xA, 1, resources=(100, 0x12345678, 0)),
        bytes([1, 24, 0xFF, 0xFF])
        + number(0x7F, 4)
        + number(0x58, 4)
        + number(32768, 4)
        + number(64, 4)
        + bytes([8, 0x1F])
        + number(64, 2),
        bytes([1, 28, 0, 0]) + number(0xFF, 4) + bytes(4) + number(2**32 - 1, 4) + number(2**31, 4) + b"\xff\0\xff\xff" + number(300, 4),
        bytes([2, 30]) + bytes(28),
    ),
    """
pptt 0x3000
0x24 node flags 0x11 parent 0x0 id 4000000000 resources
0x38 node flags 0xa parent 0x24 id 1 resources 0x64 0x12345678 0x0
0x58 cache flags 0x7f next 0x58 size 32768 sets 64 ways 8 attributes 0x1f line 64
0x70 cache flags 0xff next 0x0 size 4294967295 sets 2147483648 ways 255 attributes 0x0 line 65535 id 300
0x8c entry type 2 length 30
""")
beside_fadt(
    "a PPTT with nodes and caches of other lengths",
    pptt(node(length=24) + bytes(4), node(resources=(1, 2), count=1), other(0, 19), node(count=2**32 - 1), cache(0, 26), cache(0, 32)),
    """
pptt 0x3000
0x24 entry type 0 length 24
0x3c entry type 0 length 28
0x58 entry type 0 length 19
0x6b entry type 0 length 20
0x7f entry type 1 length 26
0x99 entry type 1 length 32
""")
beside_fadt(
    "a node with as many resources as fit", pptt(node(resources=range(1, 59))),
    "pptt 0x3000\n0x24 node flags 0x0 parent 0x0 id 0 resources "
    "0x1 0x2 0x3 0x4 0x5 0x6 0x7 0x8 0x9 0xa 0xb 0xc 0xd 0xe 0xf 0x10 0x11 0x12 0x13 0x14 0x15 0x16 0x17 0x18 0x19 0x1a "
    "0x1b 0x1c 0x1d 0x1e 0x1f 0x20 0x21 0x22 0x23 0x24 0x25 0x26 0x27 0x28 0x29 0x2a 0x2b 0x2c 0x2d 0x2e 0x2f 0x30 0x31 "
    "0x32 0x33 0x34 0x35 0x36 0x37 0x38 0x39 0x3a",
)
beside_fadt("a PPTT of entries of other types", pptt(bytes.fromhex("c1 03 a1 c2 02")), """
pptt 0x3000
0x24 entry type 193 length 3
0x27 entry type 194 length 2
""")
beside_fadt("a PPTT that is cut off", pptt(cache(0, 24), b"\0\x14"), """
pptt 0x3000
0x24 cache flags 0x0 next 0x0 size 0 sets 0 ways 0 attributes 0x0 line 0
0x3c cut
""")

# ---- each number that no set above has from 10 on: below 10 its digits are the same in hex and in decimal

shown(
    "an RSDP, a root and slots with numbers from 10 on",
    {
        RSDP_AT: changed(extended_rsdp(), {15: 18}, (8, 20), (32, 36)),
        XSDT_AT: xsdt(*[0] * 11, TABLES_AT),
        TABLES_AT: table(b"HPET", bytes(20), 30),
    },
    """
rsdp 0xe0000 revision 18
root 0x1100 XSDT length 132 slots 12
slot 0 empty
slot 1 empty
slot 2 empty
slot 3 empty
slot 4 empty
slot 5 empty
slot 6 empty
slot 7 empty
slot 8 empty
slot 9 empty
slot 10 empty
slot 11 0x2000 HPET length 56 revision 30
""")
with_fadt(
    "a FADT, its register blocks and its FACS with numbers from 10 on",
    fadt(
        0xA5C, 244, _36=number(FACS_AT, 4) + number(0xD5D70000, 4), _45=bytes([200]) + number(300, 2), _64=number(0x604, 4),
        _89=bytes([20]), _148=generic_address(0x1234, 127, 48, 16, 20),
    ),
    """
fadt 0x2000 length 244 profile 200 sci 300 flags 0xa5c reduced no
dsdt 0xd5d70000
block PM1a_EVT gas 127 48 16 20 0x1234
block PM1a_CNT port 20 0x604
facs 0x7000 length 64 version 18
""", x7000=changed(facs(), {32: 18}))
beside_fadt(
    "a MADT with all kinds of entries, and numbers from 10 on",
    table(
        b"APIC",
        number(0xFEE00000, 4)
        + number(0x1B, 4)
        + lapic(18, 27, 0x1A2B3C4D)
        + bytes([1, 12, 16, 0])
        + number(0xFEC00000, 4)
        + number(240, 4)
        + override(14, 30, 0xD)
        + nmi_source(12, 0xD)
        + lapic_nmi(254, 17, 0xE)
        + lapic_address(0x1FEE00000)
        + x2apic(4000, 3000, 0xC)
        + x2apic_nmi(2000, 31, 0xB),
    ),
    """
madt 0x3000 lapic 0xfee00000 flags 0x1b
0x2c lapic uid 18 id 27 flags 0x1a2b3c4d
0x34 ioapic id 16 address 0xfec00000 base 240
0x40 override source 14 gsi 30 flags 0xd
0x4a nmi gsi 12 flags 0xd
0x52 lapic-nmi uid 254 flags 0xe lint 17
0x58 lapic-address 0x1fee00000
0x64 x2apic uid 4000 id 3000 flags 0xc
0x74 x2apic-nmi uid 2000 flags 0xb lint 31
""")
beside_fadt(
    "an SRAT with numbers from 10 on",
    srat(apic_domain(200, 0x0B0C0D, 0x1A), changed(memory(0x100000000, 0xA0000, 0x1F), {2: 30}), x2apic_domain(70000, 20, 0x2B)),
    """
srat 0x3000
0x30 cpu id 200 domain 723981 flags 0x1a
0x40 memory domain 30 base 0x100000000 length 0xa0000 flags 0x1f
0x68 cpu id 70000 domain 20 flags 0x2b
""")
beside_fadt("a SLIT of eleven localities", slit(11, even_cells(11)), """
slit 0x3000 count 11
row 0 10 20 20 20 20 20 20 20 20 20 20
row 1 20 10 20 20 20 20 20 20 20 20 20
row 2 20 20 10 20 20 20 20 20 20 20 20
row 3 20 20 20 10 20 20 20 20 20 20 20
row 4 20 20 20 20 10 20 20 20 20 20 20
row 5 20 20 20 20 20 10 20 20 20 20 20
row 6 20 20 20 20 20 20 10 20 20 20 20
row 7 20 20 20 20 20 20 20 10 20 20 20
row 8 20 20 20 20 20 20 20 20 10 20 20
row 9 20 20 20 20 20 20 20 20 20 10 20
row 10 20 20 20 20 20 20 20 20 20 20 10
""")
beside_fadt(
    "a PPTT with numbers from 10 on",
    pptt(
        node(0x3C, 0x1B, 70, resources=[0x50]), node(0, 0x1A, 80),
        bytes([1, 24, 0, 0])
        + number(0xAB, 4)
        + number(0x68, 4)
        + number(4096, 4)
        + number(32, 4)
        + bytes([16, 0x1C])
        + number(128, 2),
        bytes([1, 28, 0, 0])
        + number(0xCD, 4)
        + number(0, 4)
        + number(8192, 4)
        + number(512, 4)
        + bytes([12, 0x1E])
        + number(256, 2)
        + number(90, 4),
    ),
    """
pptt 0x3000
0x24 node flags 0x1b parent 0x3c id 70 resources 0x50
0x3c node flags 0x1a parent 0x0 id 80 resources
0x50 cache flags 0xab next 0x68 size 4096 sets 32 ways 16 attributes 0x1c line 128
0x68 cache flags 0xcd next 0x0 size 8192 sets 512 ways 12 attributes 0x1e line 256 id 90
""")
