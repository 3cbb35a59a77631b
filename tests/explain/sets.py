"""Sets of tables for tests/explain/run.py, made by tests/acpi_images/tables.py. The lines of acpiset on them, and what explain has to
say of them, are in run.py and were worked out by hand."""

from acpi_images.tables import *
from acpi_images.text import text_of

FADT = full_fadt()
GIB = 1 << 30


def image_of(*tables, places=None):
    """A set with an RSDP at 0xe0000, an XSDT, a FADT in slot 0 at 0x10000, and these tables in the slots after it."""
    step = 0x1000 if max(map(len, tables)) <= 0x1000 else 0x10000000
    places = places or [0x10000 + step * (slot + 1) for slot in range(len(tables))]
    pieces = {RSDP_AT: extended_rsdp(XSDT_AT, 0), XSDT_AT: xsdt(0x10000, *places), FACS_AT: facs(), 0x10000: FADT}
    return text_of({**pieces, **dict(zip(places, tables))})


def long_pptt(nodes):
    """A PPTT with this many nodes of 20 bytes, each of which has the next one as its Parent, and the last one the first."""
    parents = [36 + 20 * (place + 1) for place in range(nodes - 1)] + [36]
    return pptt(*(node(parent=parent) for parent in parents))


def x2apics(count):
    return madt(*(x2apic(2 * place + 1000, place) for place in range(count)))


# A MADT at a border of 4 GiB: its third row begins at 0x200000000, and the first structure is at 0x20000000c.
AT_BORDER = image_of(madt(lapic(0, 0), override(0, 2, flags=2)), places=[0x1FFFFFFE0])

# An override with reserved flags after an I/O APIC with a base from 2^31 on.
HIGH_BASE = image_of(madt(io_apic(0xFEC00000, 0xFFFFFFF0)))

LONGEST = image_of(hpet()[:4] + b"\xff\xff\xff\xff" + hpet()[8:])

# A structure of type 0 whose length is 12, after a local APIC; one that goes past the end, after an I/O APIC.
MADT_LENGTH = image_of(madt(lapic(3, 7), bytes([0, 12]) + bytes(10)))
MADT_CUT = image_of(madt(io_apic(0xFEC00000, 5), bytes([0, 200, 0, 0])))
SRAT_LENGTH = image_of(srat(apic_domain(9, 300), bytes([1, 24]) + bytes(22)))
SRAT_CUT = image_of(srat(memory(5 * GIB, GIB), b"\1"))
PPTT_LENGTH = image_of(pptt(cache(), bytes([0, 24]) + bytes(14) + b"\2\0\0\0" + bytes(4)))
PPTT_CUT = image_of(pptt(node(uid=4), bytes([1, 0])))
# The MADT without its last three bytes: what is left at 0x38 has no length.
MISSING = image_of(madt(io_apic(0xFEC00000, 5), bytes([0, 200, 0, 0]))[:-3])
# A PPTT whose Length, 8, ends before its Revision.
NO_REVISION = image_of(madt(lapic(0, 0)), changed(pptt(node(flags=10)), {4: 8}))
FIRST_LENGTH = image_of(madt(bytes([1, 8]) + bytes(6)))

# The chain from 0x24 comes after one step to a cycle of three: 0x24 to 0x38, 0x4c, 0x60 and 0x38 again.
PARENTS = image_of(pptt(node(parent=0x38), node(parent=0x4C), node(parent=0x60), node(parent=0x38)))
CACHES = image_of(pptt(cache(next_level=0x3C), cache(next_level=0x54), cache(next_level=0x3C)))
# A Parent into the middle of a structure, one to a cache, one after the table; a private resource that is a node.
DANGLING = image_of(pptt(node(parent=0x40), node(parent=0x4C), cache(next_level=0x1000), node(resources=(0x24,))))

LEAF = image_of(madt(lapic(0, 0), lapic(1, 1), lapic(2, 2, flags=0), x2apic(300, 9)), pptt(node(flags=0xA, uid=7), node(flags=0xA, uid=1)))
GICC = bytes([11, 80]) + bytes(6) + number(21, 4) + number(1, 4) + bytes(64)
AFFINITY = bytes([3, 18]) + number(6, 4) + number(22, 4) + number(1, 4) + bytes(4)
ARM = image_of(madt(GICC), srat(AFFINITY))
NONE_USABLE = image_of(madt(rintc(5, flags=0), core_pic(6, 3, flags=0)))
# Structures at which the stages do not look: of the MADT a GICC that is too short for advice too, a wakeup structure, two of a type that
# is not known, an IMSIC and one with a byte more, and a PLIC, at 0x2c, 0x53, 0x63, 0x67, 0x6b, 0x7b and 0x8c.
UNREAD = image_of(
    madt(other(11, 39), other(16, 16), other(28, 4), other(28, 4), other(25, 16), other(25, 17), other(27, 36)),
    srat(other(3, 14), other(3, 18), other(3, 18)), pptt(node(), other(2, 4), other(2, 8)),
)
# Parts of a GIC, of which the advice looks at the third alone: the others have a byte less or more than their type has.
GIC = image_of(madt(gicd(23), other(13, 25), other(14, 16), other(15, 21)))
WINDOWS = image_of(srat(memory(0, 4 * GIB), memory(GIB, 4 * GIB)))

# A signature with an escape character, which would clear a terminal.
ESCAPE = image_of(table(b"\x1b[2J", b""))

# Wrong checksums, and the byte that closes each.
SUMS = {}
CLEAN = {RSDP_AT: extended_rsdp(), XSDT_AT: xsdt(0x2000, 0x3000), 0x2000: FADT, 0x3000: hpet(), FACS_AT: facs()}
for line, address, place in (
    ("no 1 RsdpSum 0xe0000 0x0 0x0", RSDP_AT, 8), ("no 1 RsdpExtendedSum 0xe0000 0x0 0x0", RSDP_AT, 32),
    ("no 2 RootSum 0x1100 0x0 0x0", XSDT_AT, 9), ("no 3 TableSum 0x1 0x3000 0x0", 0x3000, 9),
):
    wrong = changed(CLEAN[address], {place: 0x5A})
    SUMS[line] = text_of({**CLEAN, address: wrong}), f"now 0x5a, must be {CLEAN[address][place]:#x}."
# Lengths that end before the byte that closes the sum.
SHORT_ROOT = text_of({**CLEAN, XSDT_AT: changed(CLEAN[XSDT_AT], {4: 5})})
SHORT_RSDP = text_of({**CLEAN, RSDP_AT: extended_rsdp(length=24)})
CUT = text_of({**CLEAN, 0x2000: FADT[:68]})


def cpu(uid):
    """A GICC of 76 bytes with the MPIDR 5."""
    return bytes([11, 76]) + bytes(6) + number(uid, 4) + number(1, 4) + bytes(52) + number(5, 8)


# A GIC of version 3 with room for one redistributor, two processors with one MPIDR, an ITS and an MSI frame: at 0x2c, 0x44, 0x54, 0xa0,
# 0xec and 0x100. The SRAT has a generic initiator that is off, at 0x30, and an ITS that the MADT does not have, at 0x50.
PARTS_OF_A_GIC = image_of(
    madt(
        bytes([12, 24]) + bytes(6) + number(0x8000000, 8) + bytes(4) + bytes([3, 0, 0, 0]),
        bytes([14, 16, 0, 0]) + number(0x80A0000, 8) + number(0x20000, 4), cpu(1), cpu(2),
        bytes([15, 20, 0, 0]) + number(4, 4) + number(0x8080000, 8) + bytes(4),
        bytes([13, 24, 0, 0]) + number(6, 4) + number(0x8020000, 8) + bytes(8),
    ),
    srat(device_domain(5, 1, flags=0), bytes([4, 12]) + number(0, 4) + bytes(2) + number(3, 4)),
)
# Local APICs that are off or have the ID of all processors, before the one beside which the local x2APIC, at 0x3c, has too low an ID.
BELOW_255 = image_of(madt(lapic(0, 3, flags=0), lapic(1, 255), x2apic(2, 5), lapic(3, 7, flags=2), lapic(4, 8)))
NO_IO_APIC = image_of(madt(lapic(1, 1), x2apic(300, 9, flags=0), override(0, 2), nmi_source(3)))
# A distributor of 23 bytes, which no rule reads, before the one whose version counts, at 0x43; and GICCs with two bases.
BASES = [placed(gicc(uid, length=40), _32=number(base, 8)) for uid, base in ((1, 0x8010000), (2, 0x8020000))]
TWO_BASES = image_of(madt(gicd(23), distributor(2, 0x8000000), *BASES))
# More GICCs than are listed, and two redistributors after them, at 0x594 and 0x5a4.
RANGES = redistributor(0x80A0000, 0x20000), redistributor(0x80C0000, 0x20000)
MANY_GICCS = image_of(madt(distributor(4), *(gicc(uid, length=40) for uid in range(34)), *RANGES))
# The one GICC that names a redistributor is off.
NO_REDISTRIBUTOR = image_of(madt(distributor(3), placed(gicc(9, flags=0), _60=number(0x80A0000, 8))))
# Reserved bits in the last byte of a field, a reserved version, and reserved attributes.
FLAGS = image_of(madt(lapic(0, 0, flags=0x80000001)), pptt(cache(attributes=0x20)))
VERSION = image_of(madt(distributor(5)), srat(memory(0, GIB, flags=0x801)))
# The distance from locality 1 to locality 2 is 9.
LOW_DISTANCE = image_of(slit(3, (10, 20, 30, 20, 10, 9, 30, 20, 10)))
TWO_MCFGS = image_of(*[table(b"MCFG", bytes(8))] * 2)
LISTED_TWICE = text_of({RSDP_AT: rsdp(), RSDT_AT: rsdt(0x10000, 0x11000, 0x11000), FACS_AT: facs(), 0x10000: FADT, 0x11000: hpet()})
# A leaf and its 1,001 parents, none of which is a package.
PARENTS_OF_A_LEAF = (*(36 + 20 * place for place in range(2, 1002)), 0)
LONG_PARENTS = image_of(pptt(node(56, flags=10), *map(node, PARENTS_OF_A_LEAF)))
TWO_IDS = image_of(madt(lapic(0, 1), lapic(1, 2)), srat(*(apic_domain(apic_id, domain) for apic_id in (1, 2) for domain in (0, 1))))
# A reserved byte of an I/O APIC, and a processor that is Online Capable too early; a distance of 10 between two localities; a cache
# of another size than that of its lines; a header with a byte that is no text.
ODD = image_of(
    madt(io_apic(0xFEC00000, 0, reserved=1), lapic(1, 1, flags=2)), slit(2, (10, 10, 20, 10)),
    pptt(cache(flags=0x47, size=0x8000, sets=64, ways=4, line=64)), changed(hpet(), {10: 0x80}, (9, 56)),
)
# An RSDT without the HPET beside the XSDT, which has an empty slot; and the HPET's last byte, F, is the FADT's first.
ROOTS = text_of({
    RSDP_AT: extended_rsdp(), XSDT_AT: xsdt(0x10000, 0, 0xFFC9), RSDT_AT: rsdt(0x10000), FACS_AT: facs(), 0x10000: FADT,
    0xFFC9: table(b"HPET", bytes(19) + b"F")[:-1],
})
