"""Sets near the edges of the rules of advice on the FADT, the MADT, the SRAT, the SLIT and the PPTT: each entry of a table with each of
its bytes changed, beside entries with which a rule may be broken; entries of each type with lengths around that of the type; a FADT with
each field, and each two of them, changed, and with a DSDT or a FACS; and on the MCFG, the HPET, the HMAT, the GTDT, the DMAR, the IVRS and
the SPCR, with each byte changed, with numbers around the limits of each field, and of each Length. A set has one table or two. None is
random, so a set is the same each time."""

from __future__ import annotations

from itertools import product

from ..tables import (
    NAMESPACE_DEVICE, OF_NAME, OF_PORT, SCOPE_IO_APIC, TABLES_AT, acpi_hid, andd, atsr, changed, device_entry, dmar, drhd, ecam,
    generic_address, gtdt, hmat, hpet, ivhd, ivmd, ivrs, mcfg, number, of_dmar, of_gtdt, of_hmat, of_ivrs, placed, proximity, rhsa, rmrr,
    satc, scope, side_cache, sidp, special, spcr, speeds, table, timer_block, timer_frame, watchdog,
)
from ..text import TOP

# The lengths of entries, by their types.
MADT_LENGTHS = {
    **dict.fromkeys(range(31), 16), 0: 8, 1: 12, 2: 10, 3: 8, 4: 6, 5: 12, 10: 12, 11: 82, 12: 24, 13: 24, 15: 20, 17: 15, 18: 23, 19: 21,
    20: 13, 21: 19, 22: 17, 23: 14, 24: 36, 26: 36, 27: 36, 128: 4, 255: 4,
}  # fmt: skip
SRAT_LENGTHS = {0: 16, 1: 40, 2: 24, 3: 18, 4: 12, 5: 32, 6: 32, 7: 20, 8: 8, 255: 8}
# Of each register block of the FADT the places of its 4-byte field, its length byte and its X_ structure, and its bytes (5.2.9).
BLOCKS = (
    (56, 88, 148, 4), (60, 88, 160, 4), (64, 89, 172, 2), (68, 89, 184, 2), (72, 90, 196, 1), (76, 91, 208, 4), (80, 92, 220, 4),
    (84, 93, 232, 4),
)
# The offset and the size of other fields that rules read.
FADT_FIELDS = (
    (8, 1), (36, 4), (40, 4), (44, 1), (45, 1), (46, 2), (48, 4), (52, 1), (53, 1), (54, 1), (55, 1), (94, 1), (95, 1), (109, 2), (111, 1),
    (112, 4), (117, 1), (120, 8), (129, 2), (131, 1), (132, 8), (140, 8), (245, 1), (246, 1), (248, 8), (257, 1), (258, 1), (260, 8),
)  # fmt: skip
BYTES = (0, 1, 2, 3, 4, 8, 9, 15, 16, 128, 254, 255)


def put(data, at, size, value):
    data[at : at + size] = number(value % 256**size, size)


def entry(kind, size, *fields):
    """An entry of this type and length; each field is its place, its size and its number."""
    data = bytearray([kind, size, *bytes(size - 2)])
    for at, width, value in fields:
        put(data, at, width, value)
    return bytes(data)


def with_byte(data, first=2):
    """An entry, and all that differ from it in one byte after its length; or bytes, and all that differ in one from this place on."""
    yield data
    for at, byte in product(range(first, len(data)), BYTES):
        yield data[:at] + bytes([byte]) + data[at + 1 :]


def of_size(data, size):
    """An entry that is cut off and says so."""
    return data[:1] + bytes([size]) + data[2:size]


def of_lengths(lengths):
    """Entries of each type and of lengths around its own, of zeros, of ones or of all bits."""
    for kind, right in lengths.items():
        for size, fill in product(sorted({right - 2, right - 1, right, right + 1, 20, 39, 40, 75, 76}), (0, 1, 255)):
            yield bytes([kind, size]) + bytes([fill]) * (size - 2)


LAPIC, IO_APIC, OVERRIDE = entry(0, 8, (2, 1, 7), (3, 1, 7), (4, 4, 1)), entry(1, 12, (4, 4, 0xFEC00000)), entry(2, 10, (3, 1, 9), (4, 4, 9))
NMI_SOURCE, LOCAL_NMI = entry(3, 8, (4, 4, 2)), entry(4, 6, (2, 1, 0xEE), (5, 1, 1))
X2APIC, X2APIC_NMI = entry(9, 16, (4, 4, 0x300), (8, 4, 1), (12, 4, 0x301)), entry(10, 12, (4, 4, 0xEE), (8, 1, 1))
GICC, GICD, ITS = entry(11, 82, (4, 4, 5), (8, 4, 5), (12, 4, 1), (68, 8, 5)), entry(12, 24, (20, 1, 3)), entry(15, 20, (4, 4, 3))
CORE_PIC, RINTC = entry(17, 15, (3, 4, 6), (7, 4, 6), (11, 4, 1)), entry(24, 36, (4, 4, 1), (8, 8, 9), (16, 4, 9))
MADT_ENTRIES = (
    LAPIC, IO_APIC, OVERRIDE, entry(2, 10, (8, 2, 0xF)), NMI_SOURCE, LOCAL_NMI, entry(5, 12), X2APIC, X2APIC_NMI, GICC, entry(11, 76, (12, 4, 8)), GICD, entry(13, 24),
    entry(14, 16), ITS, CORE_PIC, RINTC, entry(0, 8), entry(9, 16), entry(0, 8, (3, 1, 255), (4, 4, 1)), entry(9, 16, (4, 4, 254), (8, 4, 1)),
)  # fmt: skip
BESIDE_IN_MADT = (
    (), (LAPIC, OVERRIDE), (X2APIC,), (GICC, GICC), (CORE_PIC,), (RINTC,), (LAPIC, NMI_SOURCE), (LAPIC, LOCAL_NMI), (X2APIC, X2APIC_NMI),
    (LAPIC, IO_APIC), (GICC, GICD), (OVERRIDE, entry(2, 10, (3, 1, 8), (4, 4, 9))), (entry(12, 24, (20, 1, 2)), GICC), (GICD, entry(14, 16)),
    (ITS, entry(13, 24)),
)  # fmt: skip
# A GICC that names a redistributor of its own; wakeup structures of both versions; the interrupt controllers of LoongArch and RISC-V.
OWN_GICC = entry(11, 82, (4, 4, 6), (8, 4, 6), (12, 4, 1), (60, 8, 0x1000), (68, 8, 6))
WAKEUPS = entry(16, 16, (8, 8, 0x1000)), entry(16, 24, (2, 2, 1), (8, 8, 0x1000))
CONTROLLERS = tuple(entry(kind, MADT_LENGTHS[kind], (2, 1, 1)) for kind in (*range(18, 24), 25, 26, 27))
APIC_AFFINITY, X2APIC_AFFINITY = entry(0, 16, (3, 1, 7), (4, 4, 1)), entry(2, 24, (8, 4, 0x300), (12, 4, 1))
GICC_AFFINITY, RINTC_AFFINITY = entry(3, 18, (6, 4, 5), (10, 4, 1)), entry(7, 20, (8, 4, 9), (12, 4, 1))
MEMORY, ITS_AFFINITY = entry(1, 40, (16, 4, 0x1000), (28, 4, 1)), entry(4, 12, (8, 4, 3))
SRAT_ENTRIES = (
    APIC_AFFINITY, X2APIC_AFFINITY, GICC_AFFINITY, RINTC_AFFINITY, MEMORY, ITS_AFFINITY, entry(5, 32), entry(6, 32),
    entry(1, 40, (8, 8, 5), (28, 4, 1)), entry(0, 16, (4, 4, 1), (9, 1, 1)),
)  # fmt: skip
BESIDE_IN_SRAT = ((), (APIC_AFFINITY,), (X2APIC_AFFINITY,), (GICC_AFFINITY,), (RINTC_AFFINITY,), (MEMORY,), (APIC_AFFINITY, MEMORY))
NODE = entry(0, 20, (4, 4, 2))
# Nodes with the ID of a processor: one that is marked as a leaf, one that is not, one whose Parent is the first node, and one that is both.
LEAF, INNER, CHILD = (entry(0, 20, (4, 4, flags), (8, 4, parent), (12, 4, 5)) for flags, parent in ((10, 0), (2, 0), (0, 36)))
NODES = (LEAF, INNER, CHILD, entry(0, 20, (4, 4, 10), (8, 4, 36), (12, 4, 5)), entry(0, 24, (4, 4, 10), (12, 4, 5), (16, 4, 1)))
CACHES = tuple(entry(1, size, (4, 4, 0xFF), (12, 4, 64), (16, 4, 1), (20, 1, 1), (22, 2, 64), *more) for size, *more in ((24,), (28, (24, 4, 1))))
# A processor of the MADT, or an ITS, and the affinity that names it, or one of another type.
PAIRS = (
    (LAPIC, APIC_AFFINITY), (X2APIC, X2APIC_AFFINITY), (GICC, GICC_AFFINITY), (RINTC, RINTC_AFFINITY), (CORE_PIC, APIC_AFFINITY),
    (ITS, ITS_AFFINITY), (LAPIC, X2APIC_AFFINITY), (GICC, RINTC_AFFINITY),
)  # fmt: skip


def madt(*entries, flags=0, revision=5):
    return table(b"APIC", bytes(4) + number(flags, 4) + b"".join(entries), revision)


def srat(*entries, revision=3, first=1):
    return table(b"SRAT", number(first, 4) + bytes(8) + b"".join(entries), revision)


def blocks_fadt(flags=0):
    """A FADT of Revision 6 in which each register block has both addresses, which agree, as its sleep registers do, which reduced hardware
    has."""
    data = blank_fadt(flags)
    for index, (old, size, new, count) in enumerate(BLOCKS):
        data[size], data[new : new + 2] = count, (1, 8 * count)
        put(data, old, 4, 0x400 + 0x20 * index)
        put(data, new + 4, 8, 0x400 + 0x20 * index)
    for at, size, value in ((36, 4, 0x1000), (132, 8, 0x1000), (40, 4, 0x2000), (140, 8, 0x2000), (46, 2, 9), (48, 4, 0xB2)):
        put(data, at, size, value)
    data[52:54], data[94], data[131], data[245], data[257] = (0xA0, 0xA1), 16, 5, 8, 8
    if flags >> 20 & 1:
        put(data, 248, 8, 0x600), put(data, 260, 8, 0x700)
    return data


def blank_fadt(flags=0):
    """A FADT of Revision 6 that has nothing but flags."""
    data = bytearray(table(b"FACP", bytes(240), 6))
    put(data, 112, 4, flags)
    return data


def fadts():
    """FADTs with a field, or two, changed, and such of other lengths and Revisions."""
    places_of = lambda old, length, new, _: ((old, 4), (length, 1), (new, 1), (new + 1, 1), (new + 4, 8))
    fields = sorted({*FADT_FIELDS, *(place for block in BLOCKS for place in places_of(*block))})
    for base in (blocks_fadt(), blocks_fadt(1 << 20), blank_fadt(), blank_fadt(1 << 20)):
        for index, (at, size) in enumerate(fields):
            value = int.from_bytes(base[at : at + size], "little")
            for first in (0, 1, 8, 31, 32, 33, value + 1, value ^ 1 << 10, value ^ 1 << 20, 1 << 23, 1 << 24):
                one = bytearray(base)
                put(one, at, size, first)
                yield bytes(one)
                for (other, width), second in product(fields[index + 1 :], (0, 1, 32)):
                    two = bytearray(one)
                    put(two, other, width, second)
                    yield bytes(two)
    for revision, length in product(range(8), range(116, 282)):
        yield of_length(blocks_fadt(), length, revision)
    for major, minor, boot, length in product(range(8), (0, 1, 2, 0x10, 0xF1, 255), (0, 1, 2, 3, 256, 1 << 15), (130, 131, 132, 276)):
        data = blank_fadt(1 << 20)
        data[131] = minor
        put(data, 129, 2, boot)
        yield of_length(data, length, major)


def blocks():
    """FADTs of full hardware whose blocks are ports, structures or nothing, of many lengths, and the events of GPE0 and GPE1."""
    for flags, (old, length_at, new, _), length in product((0, 1 << 20), BLOCKS, (0, 1, 30, 31, 32, 33, 64, 255)):
        for port, address, space, width in product((0, 0x600, 1 << 24), (0, 0x600, 1 << 56), (0, 1, 2), (0, 8, 16, 32)):
            data = blank_fadt(flags)
            data[length_at], data[new : new + 2] = length, (space, width)
            put(data, old, 4, port), put(data, new + 4, 8, address)
            yield bytes(data)
    # a place of 0 is that of no block
    for first, second, base in product((0, 1, 4, 63, 64, 65, 66, 255), (0, 1, 4, 64, 65, 255), (0, 1, 16, 240, 241, 252, 253, 255)):
        for port, structure in product((0, 80, 84), (0, 220, 232)):
            data = blank_fadt()
            data[92:95] = first, second, base
            if port:
                put(data, port, 4, 0x600)
            if structure:
                put(data, structure + 4, 8, 0x600)
            yield bytes(data)


def of_length(data, length, revision):
    """A FADT cut to this length."""
    data = (data + bytes(8))[:length]
    data[8] = revision
    put(data, 4, 4, length)
    return bytes(data)


def madts():
    for beside in BESIDE_IN_MADT:
        for other in (*of_lengths(MADT_LENGTHS), *(it for one in MADT_ENTRIES for it in with_byte(one))):
            yield madt(*beside, other)
    for one, other in product(MADT_ENTRIES, repeat=2):
        yield madt(one, other, one)
    yield from (madt(LAPIC, flags=flags) for flags in (0, 1, 2, 3, 1 << 31))
    for beside in ((), (LAPIC,), (RINTC, CORE_PIC)):
        yield from (madt(*beside, other) for one in (*WAKEUPS, *CONTROLLERS) for other in with_byte(one))
    for revision, one in product(range(8), (*MADT_ENTRIES, *WAKEUPS, *CONTROLLERS)):
        yield from (madt(*entries, revision=revision) for entries in ((one,), (LAPIC, one), (one, RINTC), (one, GICC), (entry(one[0], 2),)))


def gics():
    """MADTs of a distributor of each version and of GICCs that name redistributors of their own."""
    for version, beside in product((2, 3, 4, 5), ((), (OWN_GICC,), (OWN_GICC, entry(14, 16, (12, 4, 0x20000))), (OWN_GICC, entry(14, 2)))):
        distributor = entry(12, 24, (20, 1, version))
        yield from (madt(distributor, *beside, other) for other in with_byte(OWN_GICC))
        for size, flags, own in product((39, 40, 59, 60, 67, 68, 75, 76, 79, 80, 81, 82), range(10), (0, 0x1000, 1 << 56)):
            yield madt(distributor, *beside, of_size(entry(11, 82, (12, 4, flags), (60, 8, own)), size))
    for at, value in product((40, 48, 56, 78, 80), (1, 15, 16, 31, 32, 255, 256, 1055, 1056, 1119, 1120, 65535)):
        one = entry(11, 82, (12, 4, 1), (at, 2, value))
        yield from (madt(GICD, *pair) for pair in ((GICC, one), (one, GICC), (one, one)))


def srats():
    for beside, revision in product(BESIDE_IN_SRAT, (1, 2, 3)):
        for other in (*of_lengths(SRAT_LENGTHS), *(it for one in SRAT_ENTRIES for it in with_byte(one))):
            yield srat(*beside, other, revision=revision)
    yield from (srat(APIC_AFFINITY, first=first) for first in (0, 1, 2, 257))
    for domain, one in product((0, 1, 256), (*SRAT_ENTRIES, entry(5, 32, (24, 4, 1)), entry(6, 32, (24, 4, 1)))):
        affinity = entry(4, 12, (2, 4, domain))
        yield from (srat(*pair) for other in with_byte(one) for pair in ((affinity, other), (other, affinity)))


def pptts():
    for revision, one in product((1, 2, 3), (NODE, *CACHES, entry(1, 28))):
        for beside, other in product(((), (one,), (NODE,)), (*with_byte(one), *(entry(one[0], size) for size in range(18, 34)))):
            yield table(b"PPTT", b"".join((*beside, other)), revision)
    for revision, size, flags, value in product(range(1, 6), range(24, 30), (0x7F, 0x80, 0xFF), (0, 1, 256, 1 << 24)):
        yield pptt(of_size(entry(1, 30, (4, 4, flags), (24, 4, value)), size), revision=revision)
    for revision, flags in product((2, 3, 4), (0x80, 0xFF)):
        yield from (pptt(other, revision=revision) for other in with_byte(entry(1, 28, (4, 4, flags))))
    for kind, size, beside in product((*range(2, 9), 127, 128, 255), range(2, 32, 3), ((), (NODE,), CACHES)):
        yield pptt(*beside, entry(kind, size))
    for power, difference in product(range(16), (-1, 0, 1)):
        yield table(b"PPTT", entry(1, 28, (4, 4, 0x40), (22, 2, (1 << power) + difference)), 3)


def pptt(*entries, revision=2):
    return table(b"PPTT", b"".join(entries), revision)


def slit(count, length):
    """A SLIT of so many localities, with so many cells."""
    return table(b"SLIT", number(count, 8) + bytes([10]) * length, 1)


def hierarchies():
    """A PPTT of nodes, alone or with a MADT."""
    for revision, one, beside in product((1, 2, 3), NODES, ((), (LEAF,), (INNER,), (CHILD,), (LEAF, CHILD), (NODE, entry(0, 19)))):
        for other in with_byte(one):
            yield (pptt(other, *beside, revision=revision),)
            yield (pptt(*beside, other, revision=revision),)
    processors = (entry(0, 8, (2, 1, 5), (4, 4, 1)), entry(9, 16, (8, 4, 1), (12, 4, 5)), GICC, entry(17, 15, (3, 4, 5), (11, 4, 1)), RINTC)
    for revision, one, node in product((1, 2), (*processors, entry(7, 16)), NODES):
        yield from ((madt(other), pptt(node, revision=revision)) for other in with_byte(one))
        yield from ((madt(one), pptt(other, CHILD, revision=revision)) for other in with_byte(node))
        yield from ((madt(GICC, one), pptt(LEAF, other, revision=revision)) for other in with_byte(node))


def typed_caches():
    """PPTTs of a node that names two caches, or three, each of a type."""
    for size, kinds in product((24, 28), product(range(4), repeat=2)):
        node, first, second = entry(0, 28, (16, 4, 2), (20, 4, 64), (24, 4, 64 + size)), *(typed_cache(size, kind) for kind in kinds)
        yield (pptt(node, first, second),)
        for at, byte in product((4, 8, 20, 21), (0, 1, 2, 3, 4, 8, 12, 16, 64, 64 + size, 64 + 2 * size, 255)):
            yield (pptt(node, changed(first, {at: byte}), second),)
            yield (pptt(node, first, changed(second, {at: byte})),)
        if kinds in ((0, 0), (0, 1), (2, 3)):
            yield from ((pptt(other, first, second),) for other in with_byte(node))
            for other in (it for one in (first, second) for it in with_byte(one)):
                yield from ((pptt(node, *pair),) for pair in ((other, second), (first, other)))
    for kinds, places in product(product(range(3), repeat=3), ((0, 1, 2), (2, 1, 0), (1, 1, 2), (0, 2, 0))):
        for following in (0, 68, 92, 116):
            node = entry(0, 32, (16, 4, 3), *((20 + 4 * index, 4, 68 + 24 * place) for index, place in enumerate(places)))
            caches = (typed_cache(24, kind, following if index == 0 else 0) for index, kind in enumerate(kinds))
            yield (pptt(node, *caches),)


def typed_cache(size, kind, following=0):
    """A cache of this type, with its Next Level."""
    return entry(1, size, (4, 4, 0x10), (8, 4, following), (21, 1, kind << 2))


def named_by_fadt():
    """A FADT and the DSDT or the FACS that it names, at the address of the second table."""
    dsdt = table(b"DSDT", bytes(4))
    for (place, size), at, byte in product(((40, 4), (140, 8)), range(36), (0, 1, 0x1F, 0x20, 0x41, 0x7E, 0x7F, 0x80, 0xA0, 0xFE, 0xFF)):
        data = blank_fadt(1 << 20)
        put(data, place, size, TABLES_AT + 0x1000)
        yield bytes(data), changed(dsdt, {at: byte})
    firmware = b"FACS" + number(64, 4) + bytes(24) + b"\2" + bytes(31)
    for flags, command, (at, byte) in product((0, 1 << 20), (0, 1, 255), product(range(64), (0, 1, 2, 3, 4, 128, 255))):
        data = blank_fadt(flags)
        put(data, 36, 4, TABLES_AT + 0x1000)
        data[54] = command
        yield bytes(data), changed(firmware, {at: byte})


def domains():
    """An SRAT with a SLIT."""
    for one, count in product((*SRAT_ENTRIES, entry(5, 32, (24, 4, 1)), entry(6, 32, (24, 4, 1))), (0, 1, 2, 3, 16)):
        yield from ((srat(other), slit(count, count * count)) for other in with_byte(one))
        yield from ((srat(one, one), slit(count, length)) for length in range(12))


def starts():
    """A FADT of a machine with a GIC, with its MADT."""
    for flags, length in product((0, 1, 2, 3, 256), (129, 130, 131, 132, 276)):
        data = blocks_fadt(1 << 20)
        put(data, 129, 2, flags)
        for other in (GICC, GICD, entry(11, 39), *with_byte(entry(11, 40, (12, 4, 1)))):
            yield of_length(data, length, 6), madt(GICC, other)
        yield of_length(data, length, 6), madt(GICC, GICC, entry(11, 39))


def pairs():
    """A MADT with a FADT or with an SRAT."""
    for major, minor, length in product(range(1, 8), (0, 1, 3, 4, 5, 0x50, 255), (276, 132, 131, 120)):
        data = blocks_fadt()
        data[131] = minor
        for one in (entry(0, 8, (4, 4, 2)), entry(9, 16, (8, 4, 2)), entry(11, 82, (12, 4, 8)), GICC, RINTC, entry(11, 30)):
            yield of_length(data, length, major), madt(one)
    for flags, other in product((0, 1 << 20), of_lengths(MADT_LENGTHS)):
        yield bytes(blocks_fadt(flags)), madt(other)
    for major, minor, length in product(range(8), (0, 1, 5, 6, 7, 15, 0x15, 0x16, 0x65), (131, 132, 276)):
        data = blank_fadt(1 << 20)
        data[131] = minor
        yield from ((of_length(data, length, major), madt(one)) for one in (RINTC, entry(24, 2), CORE_PIC, entry(25, 16)))
    for sci, source in product((9, 16, 17, 200), range(256)):
        data = blocks_fadt()
        put(data, 46, 2, sci)
        yield bytes(data), madt(OVERRIDE, entry(2, 10, (3, 1, source), (4, 4, 7)))
    for (one, affinity), beside in product(PAIRS, ((), (APIC_AFFINITY,), (GICC_AFFINITY,), (MEMORY,))):
        yield from ((madt(other), srat(*beside, affinity)) for other in (*with_byte(one), *of_lengths(MADT_LENGTHS)))
        yield from ((madt(one), srat(*beside, other)) for other in (*with_byte(affinity), *of_lengths(SRAT_LENGTHS)))
        yield from ((madt(one, other), srat(affinity, *beside)) for other in of_lengths(MADT_LENGTHS))
        yield from ((madt(one), srat(other, affinity, *beside)) for other in of_lengths(SRAT_LENGTHS))


# ---- the MCFG, the HPET and the SPCR

BUS, SEGMENT = 1 << 20, 1 << 28
ECAM = ecam(0xB0000000)
# Addresses of an ECAM around the limits of rules, and of which two share some.
ECAM_PLACES = (
    0, 1, BUS >> 1, BUS, 2 * BUS - 1, 2 * BUS, 3 * BUS, 2**32 - BUS, 2**32 - 2, 2**32 - 1, 2**32, TOP - SEGMENT, TOP - SEGMENT + 1,
    TOP - SEGMENT + BUS, TOP - 2 * BUS, TOP - BUS, TOP - 1,
)
MEETING_PLACES = (0, BUS, 2 * BUS - 1, 2 * BUS, TOP - BUS, TOP - 1)


def made_by(maker, data):
    """A table of which the OEM ID begins with these bytes."""
    return changed(data, {10 + place: byte for place, byte in enumerate(maker)}, (9, len(data)))


def mcfgs():
    """MCFGs of one entry, and of each Length, Revision and maker."""
    for revision, length, one in product((0, 1, 2), range(36, 112), (bytes(16), ECAM)):
        yield table(b"MCFG", (bytes(8) + one * 5)[: length - 36], revision)
    for maker, revision, base in product((b"", b"SGI", b"SGH", b"SG\0", b"RGI", b" SGI", b"SGIUV2"), (0, 1, 2, 255), ECAM_PLACES):
        yield made_by(maker, mcfg(ecam(base), revision=revision))
    for revision, base, first, last in product((0, 1), ECAM_PLACES, (0, 1, 2, 254, 255), (0, 1, 2, 254, 255)):
        yield mcfg(ecam(base, 0, first, last), revision=revision)
    yield from (mcfg(ecam(1 << bit), revision=revision) for revision, bit in product((0, 1), range(64)))
    for revision, before, after in product((0, 1), ((), (ECAM,), (ecam(0, 0, 1, 0),)), ((), (ECAM,))):
        for one in (ECAM, ecam(BUS, 1, 2, 2), ecam(TOP - SEGMENT, 0xFFFF)):
            yield from (mcfg(*before, other, *after, revision=revision) for other in with_byte(one, 0))


def meeting_entries():
    """MCFGs of two entries, or of three, of which some share a bus or an address."""
    some = [ecam(base, 0, *buses) for base, buses in product(MEETING_PLACES, ((0, 0), (0, 1), (1, 1), (1, 2), (1, 0), (0, 255)))]
    yield from (mcfg(one, placed(other, _8=number(segment, 2))) for segment, one, other in product((0, 1), some, some))
    few = [ecam(base, segment, *buses) for base, segment, buses in product((BUS, 2 * BUS), (0, 1), ((0, 0), (0, 2), (1, 1)))]
    yield from (mcfg(*three) for three in product(few, repeat=3))
    for segment, first, last in product((0, 1, 0x100, 0xFFFF), (0, 9, 10, 11, 20, 254, 255), (0, 9, 10, 11, 20, 254, 255)):
        yield mcfg(ecam(BUS, segment, 10, 20), ecam(2 * SEGMENT, segment, first, last))
        yield mcfg(ecam(BUS, segment, first, last), ecam(2 * SEGMENT, segment, 0, 9), ecam(4 * SEGMENT, segment, 21, 255))


def hpets():
    """HPETs of each Length, space and address."""
    for revision, length, one in product((0, 1, 2), range(36, 62), (hpet(), hpet(0), hpet(1, 1))):
        yield table(b"HPET", (one + bytes(8))[36:length], revision)
    for base in (hpet(), hpet(0), hpet(0xFED0000000000000), hpet(space=1)):
        yield from (table(b"HPET", body) for body in with_byte(base[36:], 0))
    for space, address in product((0, 1, 2, 255), (0, 1, 0x200, 0x3FF, 0x400, 0x401, 0xFED00000, 0xFED0000000000000, TOP - 1024, TOP - 1)):
        yield hpet(address, space)
    for bit, address in product(range(64), (0, 0xFED00000, 0xFED0000000000000)):
        yield hpet(address ^ 1 << bit)


# Fields of a serial port of an Arm machine, and of one that is a PCI device.
ARM_PORT = {"_36": b"\3", "_40": generic_address(0x9000000, 0, 32, 0, 3), "_52": b"\10\0" + number(33, 4), "_58": b"\3"}
PCI_PORT = {"_52": b"\2\0" + number(16, 4), "_64": number(1, 2) + number(2, 2) + b"\0\37\7"}


def spcrs():
    """SPCRs of each Length and Revision, and with each byte and each field changed."""
    for revision, length, fields in product(range(6), range(36, 94), (OF_PORT, ARM_PORT, {"_36": b"\xff" * 60})):
        yield spcr(revision, length, **fields)
    for revision, fields in product((2, 3, 4), (OF_PORT, ARM_PORT, PCI_PORT, OF_NAME)):
        yield from (table(b"SPCR", body, revision) for body in with_byte(spcr(revision, 92, **fields)[36:], 0))
    places = product((0, 1, 0x14, 0x15, 0x16, 0x115, 255), (0, 1, 2, 127, 255), (0, 1, 3, 4, 255), (0, 1, 1 << 32, 1 << 56))
    for kind, space, access, address in places:
        yield spcr(_36=number(kind, 2), _40=generic_address(address, space, 8, 0, access))
    for code, (revision, rate) in product(range(256), ((2, 0), (3, 1), (4, 0), (4, 1), (4, 1 << 24), (5, 0))):
        yield spcr(revision, 92, _58=bytes([code]), _80=number(rate, 4))
    for line, kind in product(range(256), (0, 1, 2, 3, 8, 9, 255)):
        yield spcr(_52=bytes([kind, line]))
    numbers = (0, 1, 0xFF, 0xFF00, 0xFFFE, 0xFFFF)
    for device_id, vendor_id, device, function in product(numbers, numbers, (0, 31, 32, 255), (0, 7, 8, 255)):
        yield spcr(_64=number(device_id, 2) + number(vendor_id, 2) + bytes([255, device, function]))


def names_of_ports():
    """SPCRs of a name that is too short, not in the table, or does not end."""
    sizes, starts = (0, 1, 2, 3, 39, 40, 41, 212, 255, 256, 65535), (0, 87, 88, 89, 90, 126, 127, 128, 255, 256, 298, 299, 65535)
    for revision, length, size, start in product((3, 4), (88, 90, 128, 300), sizes, starts):
        one, end = spcr(revision, length, _84=number(size, 2) + number(start, 2), _88=b"\1" * (length - 88)), start + size
        yield one
        if 88 < end <= length:
            yield from (changed(one, {end - 1: last}, (9, length)) for last in (0, 255))


def interrupts_of_ports():
    """An SPCR with a MADT that has I/O APICs or a distributor, or is not complete."""
    second, distributor, cut = entry(1, 12, (4, 4, 0xFEC01000), (8, 4, 32)), entry(12, 24), b"\1"
    numbers = (0, 15, 16, 23, 24, 31, 32, 33, 55, 56, 1019, 1020, 1056, 4095, 4096, 5119, 5120, 1 << 24, 2**32 - 1)
    of_madts = (
        (), (IO_APIC,), (IO_APIC, second), (second,), (entry(1, 12, (8, 4, 2**32 - 16)),), (IO_APIC, cut), (IO_APIC, entry(1, 11)),
        (entry(1, 11),), (distributor,), (distributor, IO_APIC), (distributor, cut), (entry(12, 2),), (entry(0, 7), distributor), (GICC,),
    )
    for kind, gsi, entries, address in product((0, 1, 2, 3, 4, 8, 9, 10, 12, 128, 255), numbers, of_madts, (0, 0x3F8)):
        one = spcr(_40=generic_address(address), _52=bytes([kind, 4]) + number(gsi, 4))
        yield (one, madt(*entries)) if gsi % 2 else (madt(*entries), one)
    for line, entries in product((0, 4, 8), of_madts):
        yield from ((spcr(_52=bytes([kind, line]) + number(24, 4)), madt(*entries)) for kind in range(16))


# ---- the HMAT

# Structures, two of which have lists.
TWO_AND_TWO, WITH_HANDLES = speeds((0, 1), (2, 3), (1, 2, 3, 0xFFFF), 1000), side_cache(0, 0x111, 2)
IN_HMAT = (proximity(0, 1), TWO_AND_TWO, WITH_HANDLES)
# Domains, four of which those structures name, in entries of each type.
IN_DOMAINS = (
    entry(0, 16), entry(1, 40, (2, 4, 1)), entry(2, 24, (4, 4, 2)), entry(3, 18, (2, 4, 3)), entry(4, 12, (2, 4, 4)),
    entry(5, 32, (4, 4, 5)), entry(6, 32, (4, 4, 6)), entry(7, 20, (4, 4, 7)),
)
# Of each type of entry of the SRAT where its flags are; that of an ITS has none, and ends before this place.
FLAGS_AT = {0: 4, 1: 28, 2: 12, 3: 10, 4: 12, 5: 24, 6: 24, 7: 12}
COUNTS = (0, 1, 2, 2**16, 2**30, 2**31 - 3, 2**31 - 2, 2**31, 2**32 - 2, 2**32 - 1)


def hmats():
    """HMATs of each Length and Revision, and with each byte of each structure changed."""
    for revision, length, fill in product(range(4), range(36, 96), (bytes(60), b"\xff" * 60, b"".join(IN_HMAT))):
        yield table(b"HMAT", (bytes(4) + fill)[: length - 36], revision)
    for revision, one, before in product((1, 2), IN_HMAT, ((), (proximity(),))):
        yield from (hmat(*before, other, revision=revision) for other in with_byte(one, 0))
    for revision, flags in product((0, 1, 2, 3), range(256)):
        yield hmat(speeds(flags=flags), revision=revision)
    yield from (hmat(speeds(kind=kind)) for kind in range(256))
    for low, high in product(range(16), repeat=2):
        yield from (hmat(side_cache(0, attributes)) for attributes in (low | high << 4, 0x33 | low << 8 | high << 12))


def lengths_in_hmats():
    """HMATs of structures of each length, with few entries in their lists, or very many, and with a part of one at the end."""
    for kind, length, fill in product((0, 1, 2, 3, 0x100, 0x101), range(8, 72), (0, 1, 255)):
        yield hmat(of_hmat(kind, length, _8=bytes([fill]) * 64))
    for first, second, more in product(range(4), range(4), range(-3, 4)):
        many = [0] * first, [1] * second
        yield hmat(speeds(*many, length=32 + 4 * first + 4 * second + 2 * first * second + more))
    for count, more in product((0, 1, 2, 3, 255, 256), range(-3, 4)):
        yield hmat(side_cache(handles=count, length=32 + 2 * count + more))
    for first, second, length in product(COUNTS, COUNTS, (31, 32, 40, 42)):
        yield hmat(placed(speeds((), (), length=length), _12=number(first, 4), _16=number(second, 4)))
    for before, size, said in product(((), IN_HMAT), range(17), (0, 1, 7, 8, 9, 16, 17, 40, 264, 2**31, 2**32 - 1)):
        yield hmat(*before, of_hmat(1, size, _4=number(said, 4)))


def cells_in_hmats():
    """HMATs of cells that are large in their unit, and of initiators and targets that occur twice."""
    units = (0, 1, 2**16, 2**16 + 1, 2**16 + 2, 2**16 + 3, 2**31, 2**32 - 1, 2**32, 2**62, 2**63, TOP - 1)
    for place, cell, unit in product(range(4), (0, 1, 2, 3, 255, 256, 0x7FFF, 0x8000, 0xFFFE, 0xFFFF), units):
        cells = [0] * 4
        cells[place] = cell
        yield hmat(speeds((0, 1), (0, 1), cells, unit))
    for first, second in product((*product((0, 1, 256), repeat=2), *product((0, 1, 2), repeat=3)), repeat=2):
        yield hmat(speeds(first, second))


def domains_in_hmats():
    """An HMAT with an SRAT of each type of entries, or one that is not read to its end."""
    srat_of_all = srat(*IN_DOMAINS)
    for revision, one in product((1, 2), IN_HMAT):
        yield from ((hmat(other, revision=revision), srat_of_all) for other in with_byte(one, 8))
    for one, affinity in product(IN_HMAT, IN_DOMAINS):
        yield from ((hmat(one), srat(other)) for other in with_byte(affinity))
    for revision, flags, first, second in product((0, 1, 2, 3), range(4), range(9), range(9)):
        yield hmat(proximity(first, second, flags), revision=revision), srat_of_all
    for structure, domain, enabled in product(range(3), (0, 1, 255, 256, 2**24, 2**32 - 1), (0, 1)):
        one = (proximity(domain, domain), speeds([domain], [domain]), side_cache(domain))[structure]
        for affinity in IN_DOMAINS:
            at, size = {0: (2, 1), 1: (2, 4), 3: (2, 4), 4: (2, 4)}.get(affinity[0], (4, 4))
            for there in (0, 1, 255, domain):
                other = placed(affinity, **{f"_{at}": number(there, size), f"_{FLAGS_AT[affinity[0]]}": bytes([enabled])})
                wide = placed(other, _9=number(there >> 8, 3)) if affinity[0] == 0 else other
                yield from ((hmat(one), srat(*entries)) for entries in ((wide,), (wide, b"\1"), (entry(1, 39), wide), (wide, entry(5, 31))))
    for kind, size in product((0, 1, 2, 3, 4, 5, 6, 7, 8, 255), (2, 11, 12, 13, 16, 17, 18, 19, 20, 21, 24, 31, 32, 33, 39, 40, 41)):
        yield from ((hmat(one), srat(entry(kind, size))) for one in (proximity(0, 0), speeds(), side_cache()))


# ---- the GTDT

PPI_EDGES = (0, 1, 15, 16, 31, 32, 1055, 1056, 1119, 1120, 2**16 + 16, 2**24 + 16, 2**32 - 1)
SPI_EDGES = (0, 1, 31, 32, 255, 256, 1019, 1020, 4095, 4096, 5119, 5120, 2**16 + 32, 2**24 + 32, 2**32 - 1)
TWO_FRAMES = timer_block(timer_frame(0, 0x10000), timer_frame(1, 0x20000, 0x30000, 41, 42), base=0x40000)
RIGHT_DOG = watchdog(0x50000, 0x60000)
REGISTER_PLACES = (0, 1, 0x1000, 0x1FFF, 0x2000, TOP - 0x1000, TOP - 2, TOP - 1)


def gtdts():
    """GTDTs of each Length and Revision, with each byte changed, and with each interrupt of a timer, alone and twice."""
    for revision, length, fields in product(range(6), range(36, 110), ({}, {"_36": bytes(74)}, {"_36": b"\xff" * 74})):
        yield gtdt(revision=revision, length=length, **fields)
    for revision in range(1, 5):
        yield from (table(b"GTDT", body, revision) for body in with_byte(gtdt(length=108)[36:], 0))
    for revision, (one, other), value in product((1, 2, 3), product((48, 56, 64, 72, 96), repeat=2), PPI_EDGES):
        yield gtdt(revision=revision, length=104, **{f"_{one}": number(value, 4), f"_{other}": number(value, 4)})
    for numbers in product((0, 20, 21, 276), repeat=4):
        yield gtdt(**{f"_{at}": number(value, 4) for at, value in zip((56, 64, 72, 96), numbers)})


def platform_timers():
    """GTDTs of platform timers: with each byte of them changed, from each place on, in each number, and of each type and length."""
    for revision, one, before in product((2, 3), (TWO_FRAMES, RIGHT_DOG), ((), (RIGHT_DOG,), (timer_block(timer_frame()),))):
        yield from (gtdt(*before, other, revision=revision) for other in with_byte(one, 0))
    starts = (0, 36, 79, 80, 95, 96, 97, 103, 104, 105, 131, 132, 133, 160, 2**16, 2**32 - 1)
    for revision, body, count, start in product((1, 2, 3, 4), (b"", RIGHT_DOG, RIGHT_DOG * 2), (0, 1, 2, 3, 256, 2**32 - 1), starts):
        yield gtdt(body, revision=revision, _88=number(count, 4), _92=number(start, 4))
    for kind, said, size, count in product((0, 1, 2, 3, 255), (0, 3, 4, 19, 20, 27, 28, 29, 60, 284), (1, 2, 3, 4, 28, 60), (1, 2)):
        yield gtdt((bytes([kind]) + number(said, 2) + bytes(60))[:size], _88=number(count, 4))
    counts, firsts = (0, 1, 2, 8, 9, 256, 2**32 - 1), (0, 19, 20, 21, 60, 256, 2**32 - 1)
    for count, first, length in product(counts, firsts, (19, 20, 60, 61, 100, 340, 380)):
        yield gtdt(placed(timer_block(*[timer_frame()] * 8, count=count, length=length), _16=number(first, 4)))
    for length, refresh, control in product((*range(4, 32), 284), (0, 0x1000), (0, 0x2000)):
        yield gtdt(watchdog(refresh, control, length=length))


def frames_of_blocks():
    """GTDTs of blocks of a frame or a few, with numbers, addresses and interrupts around their limits."""
    for frame_number, base, gsiv, flags in product((0, 7, 8, 255), (0, 1, 1 << 32, TOP - 1), (0, 1, 40, 1 << 24), (0, 1, 2, 3, 2**32 - 2)):
        yield gtdt(timer_block(timer_frame(frame_number, base, 0, gsiv, 0, flags)))
    for numbers in (*product((0, 1, 7, 8, 255), repeat=2), *product(range(3), repeat=3), *product((0, 3, 7), repeat=4)):
        yield gtdt(timer_block(*map(timer_frame, numbers)))
        yield gtdt(*(timer_block(timer_frame(it)) for it in numbers))
        yield gtdt(RIGHT_DOG, timer_block(*map(timer_frame, numbers), first=24))
    for one, other, third in product(REGISTER_PLACES, repeat=3):
        yield gtdt(timer_block(timer_frame(0, other, third), base=one))
        yield gtdt(timer_block(timer_frame(0, 0x9000), base=one), watchdog(other, third))
        yield gtdt(timer_block(timer_frame(0, one), timer_frame(1, other, third)))
    for places in product((1, 0x1000, 0x1800, TOP - 2), repeat=4):
        yield gtdt(watchdog(*places[:2]), watchdog(*places[2:]))


def timers_of_gics():
    """A GTDT with a MADT that has a distributor or a GICC, or is not complete, or a MADT alone."""
    of_madts = (
        (), (GICD,), (entry(12, 2),), (GICC,), (entry(11, 2),), (GICD, GICC), (GICD, b"\1"), (GICC, b"\1"), (GICD, entry(0, 7)),
        (GICC, entry(1, 11)), (LAPIC, GICD), (LAPIC, GICC), (entry(13, 24),), (entry(10, 12),),
    )
    for entries in of_madts:
        there = madt(*entries)
        yield (there,)
        for right in (gtdt(), gtdt(length=103), gtdt()[:35], gtdt()[:36], changed(gtdt(), {4: 0}), changed(gtdt(), {0: ord("X")}), hmat()):
            yield from ((there, right), (right, there))
        for at, gsiv, revision in product((48, 56, 64, 72, 96), PPI_EDGES, (2, 3)):
            yield gtdt(revision=revision, length=104, **{f"_{at}": number(gsiv, 4)}), there
        for gsiv, flags in product(SPI_EDGES, (0, 1)):
            for fields in ((gsiv, 0), (40, gsiv), (gsiv, gsiv)):
                yield there, gtdt(timer_block(timer_frame(0, 1, 0, *fields, flags)))
            yield there, gtdt(watchdog(gsiv=gsiv), timer_block(timer_frame(gsiv=gsiv)))
            yield there, gtdt(watchdog(flags, gsiv=gsiv), of_gtdt(2, 28, _20=number(gsiv, 4)))


# ---- the DMAR

APIC_SCOPE, DEVICE_SCOPE = scope(SCOPE_IO_APIC, 2, 0xF0, [(31, 7)]), scope(NAMESPACE_DEVICE, 1)
# Structures of each type, with what is sought of them.
IN_DMAR = (
    drhd(APIC_SCOPE, DEVICE_SCOPE, flags=1), rmrr(scope()), atsr(scope(), flags=1), rhsa(domain=2), andd(1, b"\\A\0"), satc(scope()),
    sidp(scope()),
)
HOLDERS = (drhd, rmrr, atsr, satc, sidp)
# Addresses of registers, of which two are within those of others.
UNITS_AT = (0, 1, 0x1000, 0x1800, 0x2000, 0x3000, TOP - 0x1000, TOP - 1)


def dmars():
    """DMARs of each Length, with each byte of the table's fields and of each structure changed."""
    for length, fill in product(range(36, 130), (bytes(100), b"\xff" * 100, b"".join(IN_DMAR))):
        yield table(b"DMAR", (bytes([47, 1]) + bytes(10) + fill)[: length - 36])
    yield from (table(b"DMAR", body) for body in with_byte(dmar(IN_DMAR[0])[36:52], 0))
    yield from (dmar(drhd(), width=width, flags=flags) for width, flags in product(range(256), (0, 1)))
    for one, before in product(IN_DMAR, ((), (drhd(),), (rmrr(),), IN_DMAR)):
        yield from (dmar(*before, other) for other in with_byte(one, 0))


def lengths_in_dmars():
    """DMARs of structures of each type and length, and with a part of one at the end."""
    for kind, length, fill, after in product((*range(8), 0x100, 0x103), range(4, 44), (0, 1, 255), ((), (drhd(),))):
        yield dmar(of_dmar(kind, length, _4=bytes([fill]) * 40), *after)
    for before, size, said in product(((), (drhd(),), IN_DMAR), range(9), (0, 1, 3, 4, 5, 8, 9, 16, 256, 264, 0xFFFF)):
        yield dmar(*before, of_dmar(2, size, _2=number(said, 2)))


def scopes_in_dmars():
    """DMARs of scopes of each type and length, of steps around their limits, and with a part of a scope at the end of a structure."""
    for make, kind, length in product(HOLDERS, (*range(8), 255), range(8, 20)):
        yield dmar(make(scope(kind, 1, 0, [(31, 7)] * 8, length)))
    for make, before, size, said in product(HOLDERS, ((), (scope(),)), range(1, 13), (0, 1, 6, 7, 8, 9, 10, 12, 13, 255)):
        yield dmar(make(*before, placed(scope(length=size), _1=bytes([said]))), drhd())
    edges = product((0, 31, 32, 255), (0, 7, 8, 255))
    for first, second, make in product(tuple(edges), ((0, 0), (31, 7), (32, 7), (31, 8)), HOLDERS):
        yield dmar(make(scope(steps=[first, second])))
        yield dmar(make(scope(), scope(steps=[second, first], length=9)))


def units_of_dmars():
    """DMARs of IOMMUs at addresses around each other's, of sizes and of segments, and of regions around a page."""
    for one, other, size in product(UNITS_AT, UNITS_AT, range(18)):
        yield dmar(drhd(base=one, size=size), drhd(base=other))
        yield dmar(drhd(base=one), drhd(base=other, size=size), rhsa(base=one), rhsa(base=other))
    yield from (dmar(*(drhd(base=base) for base in bases)) for bases in product(UNITS_AT, repeat=3))
    made = [make(flags=flags, segment=segment) for make in (drhd, atsr) for flags in (0, 1, 2) for segment in (0, 1)]
    yield from (dmar(*some) for some in product(made, repeat=3))
    yield from (dmar(*some, drhd(b"\1")) for some in product(made, repeat=2))
    edges = (0, 1, 0xFFE, 0xFFF, 0x1000, 0x1001, 0x1FFE, 0x1FFF, 0x2000, 0x2FFF, 2**32 - 1, 2**32, TOP - 0x1000, TOP - 1)
    yield from (dmar(rmrr(*inner, base=base, limit=limit)) for base, limit, inner in product(edges, edges, ((), (scope(),))))


def namespaces_of_dmars():
    """DMARs of devices of the namespace, of RHSAs and of I/O APICs: such as are named, and such as are not, where all is read or not."""
    some = (
        drhd(scope(5, 1)), drhd(scope(5, 2)), atsr(scope(5, 1)), satc(scope(5, 2)), andd(1, b"\0"), andd(2, b"A"), andd(2, b"A\0"),
        drhd(scope(3, 1)), drhd(scope(3, 1), scope(3, 2)), rmrr(scope(3, 1)), rhsa(base=0x1000), drhd(base=0x1000), rhsa(base=0x2000),
    )  # fmt: skip
    for one, other, last in product(some, some, (b"", drhd(), of_dmar(7, 4), b"\1", of_dmar(3, 19), atsr(b"\1"), *some)):
        yield dmar(one, other, last)
    yield from (dmar(andd(1, b"AB\0AB"[: size - 8], length=size)) for size in range(9, 16))


def dmars_with_tables():
    """A DMAR with an SRAT of each type of entries, or with a MADT of I/O APICs, or one that is not read to its end."""
    for domain in (*range(9), 256, 2**24, 2**32 - 1):
        yield from ((dmar(rhsa(domain=domain)), srat(*entries)) for entries in ((), IN_DOMAINS, (*IN_DOMAINS, b"\1"), (entry(8, 8),)))
        yield from ((dmar(rhsa(), rhsa(domain=domain), b"\1"), srat(it)) for it in IN_DOMAINS)
    yield from ((dmar(rhsa(domain=0x101)), srat(other)) for other in with_byte(entry(0, 16, (2, 1, 1), (9, 3, 1))))
    with_ids = [tuple(entry(1, 12, (2, 1, number)) for number in numbers) for numbers in ((), (1,), (2,), (255,), (1, 2), (2, 1), (1, 1))]
    cuts = ((), (b"\1",), (entry(1, 11),), (entry(0, 7),), (entry(9, 15),), (entry(11, 39),), (entry(127, 2),))
    of_scopes = ((), (1,), (2,), (1, 2), (255, 1))
    for entries, more, flags, numbers in product(with_ids, cuts, (0, 1, 3), of_scopes):
        scopes = [scope(3, number) for number in numbers]
        yield madt(*entries, *more), dmar(drhd(*scopes), flags=flags)
        yield dmar(atsr(*scopes), drhd(*scopes[1:]), flags=flags), madt(*more, *entries)
        yield madt(*entries, *more), dmar(drhd(*scopes), b"\1", flags=flags)
    yield from ((madt(IO_APIC), dmar(other, flags=1)) for other in with_byte(drhd(scope(3))))


# ---- the IVRS

IVHD_KINDS = (0x10, 0x11, 0x40)
# Entries of each length, and blocks with all of them, or with those of a range.
IN_IVHD = (device_entry(2), device_entry(3, 1), device_entry(4, 2), device_entry(0x42, 3), special(1, 2), special(2, 2))
IN_IVRS = (
    ivhd(*IN_IVHD), ivhd(*IN_IVHD, kind=0x11), ivhd(*IN_IVHD, acpi_hid(uid_kind=2, uid=b"A"), kind=0x40), ivmd(), ivmd(0x21, 1),
    ivmd(0x22, 1, 2, flags=8), ivmd(0x23),
)


def ivrss():
    """IVRSs of each Length, with each byte of the table's fields and of each block changed."""
    for length, fill in product(range(36, 160), (bytes(130), b"\xff" * 130, b"".join(IN_IVRS))):
        yield table(b"IVRS", (bytes(12) + fill)[: length - 36], 2)
    yield from (table(b"IVRS", body, 2) for body in with_byte(ivrs(ivmd())[36:52], 0))
    for one, before in product(IN_IVRS, ((), (ivhd(),), (ivmd(),), IN_IVRS)):
        yield from (ivrs(*before, other) for other in with_byte(one, 0))


def lengths_in_ivrss():
    """IVRSs of blocks of each type and length, and with a part of one at the end."""
    kinds = (0, 0x0F, 0x10, 0x11, 0x12, 0x1F, 0x20, 0x21, 0x22, 0x23, 0x24, 0x3F, 0x40, 0x41, 0xFF)
    for kind, length, fill, after in product(kinds, range(4, 50), (0, 1, 255), ((), (ivhd(),))):
        yield ivrs(of_ivrs(kind, length, _4=bytes([fill]) * 46), *after)
    for before, size, said in product(((), (ivhd(),), IN_IVRS), range(9), (0, 1, 3, 4, 5, 8, 9, 16, 256, 264, 0xFFFF)):
        yield ivrs(*before, of_ivrs(0x12, size, _2=number(said, 2)))


def entries_in_ivrss():
    """IVRSs of entries of each type, and of parts of one; special ones of each variety; and devices of the namespace."""
    for kind, entry_kind, size in product(IVHD_KINDS, range(256), (1, 4, 8, 22)):
        yield ivrs(ivhd((bytes([entry_kind]) + bytes([0, 0, 0, 65]) + bytes(17))[:size], kind=kind))
    for kind, variety, handle in product(IVHD_KINDS, (*range(6), 128, 255), (0, 1, 255)):
        yield ivrs(ivhd(special(variety, handle), device_entry(), kind=kind))
    for kind, uid_kind, uid_length, present in product(IVHD_KINDS, (0, 1, 2, 3, 255), (0, 1, 7, 8, 9, 255), (0, 1, 7, 8, 9, 30)):
        yield ivrs(ivhd(acpi_hid(uid_kind=uid_kind, uid=bytes(present), uid_length=uid_length), kind=kind))
    starts, ends = (device_entry(kind, 5) for kind in (3, 0x43, 0x47)), (device_entry(4, last) for last in (4, 5, 6))
    some = (device_entry(1, 5), *starts, *ends, special(), b"\x80")
    for kind, entries in product(IVHD_KINDS, product(some, repeat=3)):
        yield ivrs(ivhd(*entries, kind=kind))
    yield from (ivrs(ivhd(*entries, acpi_hid(), kind=0x40)) for entries in product(some, repeat=2))


def units_of_ivrss():
    """IVRSs of a few IOMMUs, of one device or of several, at one address or at several, and of memory around its limits."""
    made = [
        ivhd(kind=kind, device=device, base=base, segment=segment)
        for kind in IVHD_KINDS for device, base, segment in ((2, 0x4000, 0), (2, 0x8000, 0), (3, 0x4000, 0), (2, 0x4000, 1), (3, 0x8000, 1))
    ]  # fmt: skip
    yield from (ivrs(*some) for some in product(made, repeat=2))
    yield from (ivrs(*some, of_ivrs(0x10, 23)) for some in product(made, repeat=2))
    yield from (ivrs(*some) for some in product(made[:10], repeat=3))
    for kind, base in product(IVHD_KINDS, (0, 1, 0x1000, 0x2000, 0x3FFF, 0x4000, 2**32, TOP - 0x4000)):
        yield ivrs(ivhd(kind=kind, base=base))
    edges = (0, 1, 2, 2**32, 2**63, TOP - 0x1000, TOP - 2, TOP - 1)
    for kind, start, size, flags in product((0x20, 0x22, 0x23), edges, edges, (0, 1, 8)):
        yield ivrs(ivmd(kind, 0, 0, start, size, flags))
    for kind, flags, devices in product((0x20, 0x21, 0x22, 0x23), range(34), ((0, 0), (1, 0), (0x100, 0xFF))):
        yield ivrs(ivmd(kind, *devices, flags=flags))


def specials_of_ivrss():
    """IVRSs of special entries, some of them twice, in one block or in several, and of no block of an IOMMU."""
    some = [special(variety, handle) for variety in (0, 1, 2) for handle in (1, 2)]
    for one, other, kind, more in product(some, some, IVHD_KINDS, ((), (ivmd(),), (b"\1",))):
        yield ivrs(ivhd(one, other, kind=kind), *more)
        yield ivrs(ivhd(one), ivhd(other, kind=kind), *more)
    yield from (ivrs(*blocks) for blocks in product((ivmd(), ivmd(0x23), of_ivrs(0x12, 24), of_ivrs(0x10, 23), ivhd(), b"\1"), repeat=2))


def ivrss_with_madts():
    """An IVRS with a MADT of I/O APICs, or one that is not read to its end."""
    with_ids = [tuple(entry(1, 12, (2, 1, number)) for number in numbers) for numbers in ((), (1,), (2,), (255,), (1, 2), (2, 1), (1, 1))]
    cuts = ((), (b"\1",), (entry(1, 11),), (entry(0, 7),), (entry(9, 15),), (entry(11, 39),), (entry(127, 2),))
    for entries, more, kind in product(with_ids, cuts, IVHD_KINDS):
        for first, second in product(((), (1,), (2,), (1, 2)), repeat=2):
            one, other = (ivhd(*(special(1, number) for number in numbers), kind=it) for numbers, it in ((first, kind), (second, 0x11)))
            yield madt(*entries, *more), ivrs(one, other)
        yield ivrs(ivhd(special(1, 2), kind=kind), b"\1"), madt(*more, *entries)
        yield ivrs(ivhd(special(2, 2), special(1, 3), b"\1", kind=kind)), madt(*more, *entries)
    yield from ((madt(IO_APIC), ivrs(other)) for one in (ivhd(special(), special(1, 9)), IN_IVRS[2]) for other in with_byte(one, 0))


def tables_twice():
    """Two tables of one signature, of which the first counts, and of which it may be that the header alone is there."""
    pairs = (
        (mcfg(ECAM), mcfg()), (hpet(), hpet(0)), (spcr(), spcr(length=79)), (mcfg(ECAM), mcfg(ecam(1), ecam(1))), (hmat(), hmat(b"\1")),
        (gtdt(), gtdt(length=103)), (hmat(), srat()), (hmat(), srat(b"\1")), (dmar(drhd()), dmar(b"\1")),
        (ivrs(ivhd()), ivrs(b"\1")), (dmar(drhd()), ivrs(ivhd())),
    )
    for right, wrong in pairs:
        yield from ((right, wrong), (wrong, right), (wrong[:-1], right), (right[:-1], wrong), (right[:35], wrong), (wrong[:35], right))
        yield from ((changed(one, {4: length}), wrong) for one, length in product((right, wrong), (0, 35, 36, 255)))


def near_sets():
    """The tables of each set, each set once."""
    single = ((it,) for tables in (fadts, blocks, madts, gics, srats, pptts) for it in tables())
    several = (hierarchies, typed_caches, pairs, domains, starts, named_by_fadt)
    of_devices = (mcfgs, meeting_entries, hpets, hmats, lengths_in_hmats, cells_in_hmats, gtdts, platform_timers, frames_of_blocks)
    of_devices += (dmars, lengths_in_dmars, scopes_in_dmars, units_of_dmars, namespaces_of_dmars)
    of_devices += (ivrss, lengths_in_ivrss, entries_in_ivrss, units_of_ivrss, specials_of_ivrss)
    devices = ((it,) for tables in (*of_devices, spcrs, names_of_ports) for it in tables())
    more = (domains_in_hmats, timers_of_gics, dmars_with_tables, ivrss_with_madts, interrupts_of_ports, tables_twice)
    return list(dict.fromkeys((*single, *(it for sets in several for it in sets()), *devices, *(it for sets in more for it in sets()))))
