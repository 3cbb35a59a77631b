"""Sets of tables with an HMAT or a GTDT, each with one rule on these and the line that `lint` has to write of it, or None where the set
just keeps the rule; and at the end sets with all their lines. Each line is worked out by hand from the rules in docs/TABLES.md, and none
is taken from a program. Numbers of 0 at the end of a line are left out, and lines of other rules are not asked for."""

from __future__ import annotations

from functools import partial

from . import further
from ..tables import *
from ..text import TOP
from .one_table import which_table

MEMORY_AND_TIMERS, WHOLE_MEMORY_AND_TIMERS = [], []
broken = partial(further.broken, sets=MEMORY_AND_TIMERS)
kept = partial(further.kept, sets=MEMORY_AND_TIMERS)
whole = partial(further.whole, sets=WHOLE_MEMORY_AND_TIMERS)


def table_broken(rule, numbers, name, *tables):
    """A FADT at 0x2000 and these tables from 0x3000 on, which break a rule."""
    broken(rule, numbers, name, listed(*tables))


def table_kept(rule, name, *tables):
    kept(rule, name, listed(*tables))


def blank_table(signature, length, revision):
    """A table of this Length with nothing behind its header."""
    return table(signature, bytes(length - 36), revision)


# ---- the HMAT: its Length and its Revision
HEADER = "HmatHeader"
for length in (36, 37, 38, 39):
    for revision in (0, 1, 2, 3, 255):
        name = f"an HMAT of {length} bytes and Revision {revision}"
        table_broken(HEADER, f"0x4 0x28 {length:#x}", name, blank_table(b"HMAT", length, revision))
for length in (40, 41, 48, 80, 4096):
    for revision in (0, 3, 4, 127, 128, 129, 254, 255):
        name = f"an HMAT of {length} bytes and Revision {revision}"
        table_broken(HEADER, f"0x8 0x0 {revision:#x}", name, blank_table(b"HMAT", length, revision))
    for revision in (1, 2):
        name = f"an HMAT of {length} bytes and Revision {revision}"
        table_kept(HEADER, name, blank_table(b"HMAT", length, revision))
table_broken(HEADER, "0x8", "an HMAT of Revision 0 with structures", hmat(proximity(), speeds(), side_cache(), revision=0))
table_kept(HEADER, "an HMAT with structures", hmat(proximity(), speeds(), side_cache()))
table_kept(HEADER, "reserved bytes", table(b"HMAT", b"\1\2\3\4", 2))
# what ends before its structures begin has none
for rule in (
    "HmatCut", "HmatLength", "HmatDataType", "HmatHierarchy", "HmatUnit", "HmatTooLarge", "HmatSameDomain", "HmatProximity",
    "HmatDomainNowhere", "HmatCacheNowhere", "HmatCache",
):
    for length in (36, 37, 39, 40):
        table_kept(rule, f"an HMAT of {length} bytes", blank_table(b"HMAT", length, 2), srat())

# ---- the HMAT: where its structures end. The first one is at 0x28, and a proximity of 40 bytes ends at 0x50.
CUT = "HmatCut"
for count in range(1, 8):
    table_broken(CUT, f"0x28 0x0 {0x28 + count:#x}", f"{count} bytes", hmat(bytes(count)))
    table_broken(CUT, f"0x28 0x0 {0x28 + count:#x}", f"{count} bytes of FFh", hmat(b"\xff" * count))
    table_broken(CUT, f"0x50 0x0 {0x50 + count:#x}", f"{count} bytes after a structure", hmat(proximity(), bytes(count)))
for said in (0, 1, 4, 7):
    table_broken(CUT, f"0x28 {said:#x} 0x30", f"a head of length {said}", hmat(of_hmat(0, 8, _4=number(said, 4))))
    table_broken(CUT, f"0x28 {said:#x} 0x50", f"a structure of length {said}", hmat(placed(proximity(), _4=number(said, 4))))
for said in (9, 10, 40, 255, 256, 264, 0x1000008, 0x80000008, 2**32 - 8, 2**32 - 1):
    table_broken(CUT, f"0x28 {said:#x} 0x30", f"a head of length {said:#x}", hmat(of_hmat(0, 8, _4=number(said, 4))))
for kind in (0, 1, 2, 3, 0xFFFF):
    table_kept(CUT, f"a structure of type {kind} and 8 bytes", hmat(of_hmat(kind, 8)))
    table_kept(CUT, f"a structure of type {kind} and 9 bytes", hmat(of_hmat(kind, 9)))
    table_broken(CUT, "0x28 0x0 0x2f", f"a structure of type {kind} and 7 bytes", hmat(number(kind, 2) + bytes(2) + b"\7\0\0"))
    longer = changed(of_hmat(kind, 40), {4: 41})
    table_broken(CUT, "0x28 0x29 0x50", f"a structure of type {kind}, a byte of which is behind the table", hmat(longer))
    table_broken(CUT, "0x28 0x29 0x50", f"the same before another table's bytes, type {kind}", hmat(longer) + bytes(64))
table_kept(CUT, "no structure", hmat())
table_kept(CUT, "structures of each type", hmat(proximity(), speeds(), side_cache(), of_hmat(3, 8), of_hmat(255, 100)))
table_kept(CUT, "64 KiB of one structure", hmat(of_hmat(1, 65536)))
table_kept(CUT, "structures of lengths that they may not have", hmat(proximity(length=8), speeds(length=31), side_cache(length=9)))
table_broken(CUT, "0x6f 0x20 0x8e", "31 bytes of the last structure", hmat(proximity(length=71), changed(of_hmat(1, 31), {4: 32})))
table_broken(CUT, "0x30 0x0 0x31", "a byte after a structure of 8 bytes", hmat(proximity(length=8), b"\1"))
table_broken(CUT, "0x28 0x0 0x80", "a structure of length 0 before others", hmat(bytes(8), proximity(), proximity()))
table_broken(CUT, "0x7a 0x7 0xa2", "the third of three", hmat(proximity(), speeds(), placed(proximity(), _4=number(7, 4))))
for revision in (0, 1, 255):
    table_broken(CUT, "0x28 0x0 0x29", f"a byte of a structure, Revision {revision}", hmat(b"\1", revision=revision))

# ---- the HMAT: the lengths of its structures
SHAPE = "HmatLength"
for length in (8, 9, 12, 16, 20, 24, 32, 39, 41, 42, 48, 80, 255, 256, 296, 65536, 65576):
    table_broken(SHAPE, f"0x28 0x28 {length:#x}", f"a proximity of {length} bytes", hmat(proximity(length=length)))
table_kept(SHAPE, "a proximity of 40 bytes", hmat(proximity(5, 6, 0xFFFF)))
for length in (8, 9, 12, 16, 20, 24, 28, 31):
    for count in (0, 1, 2):
        numbers, many = f"0x28 0x20 {length:#x}", [0] * count
        table_broken(SHAPE, numbers, f"speeds of {length} bytes and {count} initiators", hmat(speeds(many, many, length=length)))
        table_broken(SHAPE, numbers, f"a cache of {length} bytes and {count} handles", hmat(side_cache(handles=count, length=length)))
for first, second, due in (
    (0, 0, 32), (1, 0, 36), (0, 1, 36), (1, 1, 42), (2, 3, 64), (3, 2, 64), (0, 5, 52), (5, 0, 52), (1, 2, 48), (10, 10, 312),
    (255, 1, 1566), (1, 256, 1572), (16, 16, 672),
):
    name, lists = f"{first} initiators and {second} targets", ([0] * first, [0] * second)
    for length in sorted({32, 33, due - 2, due - 1} & {*range(32, due)}):
        table_broken(SHAPE, f"0x28 {due:#x} {length:#x}", f"{name} in {length} bytes", hmat(speeds(*lists, length=length)))
    for length in (due, due + 1, due + 2, due + 64):
        table_kept(SHAPE, f"{name} in {length} bytes", hmat(speeds(*lists, length=length)))
# 32 + 4 i + 4 t + 2 i t, which is 2 (i + 2) (t + 2) + 24
for first, second, due in (
    (2**32 - 1, 0, 0x40000001C), (0, 2**32 - 1, 0x40000001C), (2**30, 0, 0x100000020), (0, 2**30, 0x100000020), (1, 2**32 - 1, 0x60000001E),
    (2**32 - 1, 1, 0x60000001E), (2**16, 2**16, 0x200080020), (2**16, 2**15, 0x100060020), (2**31, 2**31, 0x8000000400000020),
    (2**31, 1, 0x300000024), (2**32 - 1, 2**31 - 3, 0xFFFFFFFF00000016), (2**31 - 3, 2**32 - 1, 0xFFFFFFFF00000016),
    (2**31 - 3, 2**32 - 2, 0xFFFFFFFE00000018), (2**24, 2**24, 0x2000008000020),
    # 2^64 and more
    (2**32 - 1, 2**31 - 2, TOP - 1), (2**31 - 2, 2**32 - 1, TOP - 1), (2**32 - 1, 2**31, TOP - 1), (2**32 - 1, 2**32 - 1, TOP - 1),
    (2**31 - 2, 2**32 - 2, TOP - 1), (2**31, 2**32 - 1, TOP - 1), (2**32 - 1, 2**32 - 2, TOP - 1),
):
    for length in (32, 42, 4096):
        many = placed(speeds((), (), length=length), _12=number(first, 4), _16=number(second, 4))
        table_broken(SHAPE, f"0x28 {due:#x} {length:#x}", f"{first} initiators and {second} targets in {length} bytes", hmat(many))
for count, due in ((0, 32), (1, 34), (2, 36), (16, 64), (255, 542), (256, 544), (0x8000, 0x10020), (0xFFFF, 0x2001E)):
    for length in sorted({32, 33, due - 2, due - 1} & {*range(32, due)}):
        name = f"a cache of {count} handles in {length} bytes"
        table_broken(SHAPE, f"0x28 {due:#x} {length:#x}", name, hmat(side_cache(handles=count, length=length)))
    for length in (due, due + 1, due + 2, due + 64):
        table_kept(SHAPE, f"a cache of {count} handles in {length} bytes", hmat(side_cache(handles=count, length=length)))
for kind in (3, 4, 0x80, 0xFF, 0x100, 0x101, 0x102, 0x8000, 0xFFFF):
    for length in (8, 31, 40, 41):
        table_kept(SHAPE, f"a structure of type {kind:#x} and {length} bytes", hmat(of_hmat(kind, length, _12=b"\xff" * 8)))
table_kept(SHAPE, "reserved bytes of a type", hmat(of_hmat(3, 8, _2=b"\1\1")))
table_broken(SHAPE, "0x28 0x28 0x8", "reserved bytes of a proximity", hmat(of_hmat(0, 8, _2=b"\1\1")))
table_broken(SHAPE, "0x50 0x28 0x27", "the second proximity", hmat(proximity(), proximity(length=39)))
table_broken(SHAPE, "0x28 0x28 0x29", "the first of two", hmat(proximity(length=41), proximity(length=39)))
table_broken(SHAPE, "0x5a 0x22 0x20", "a cache after others", hmat(of_hmat(3, 8), speeds(), side_cache(handles=1, length=32)))
table_broken(SHAPE, "0x28 0x28 0x27", "a proximity before the cut", hmat(proximity(length=39), b"\1"))
table_kept(SHAPE, "a proximity after the cut", hmat(bytes(8), proximity(length=39)))
table_kept(SHAPE, "a proximity that is cut", hmat(proximity()[:39]))
table_kept(SHAPE, "a proximity after the end of the HMAT", hmat(proximity()) + proximity(length=39))
for revision in (0, 1, 255):
    table_broken(SHAPE, "0x28 0x28 0x29", f"Revision {revision}", hmat(proximity(length=41), revision=revision))

# ---- the HMAT: the kind of cells, their level and their unit. Cells of one initiator and one target take 42 bytes, from 0x28 to 0x52.
KIND, LEVEL, UNIT = "HmatDataType", "HmatHierarchy", "HmatUnit"
for kind in range(256):
    if kind < 6:
        table_kept(KIND, f"cells of kind {kind}", hmat(speeds(kind=kind)))
    elif kind < 17 or kind in (32, 64, 127, 128, 129, 133, 254, 255):
        table_broken(KIND, f"0x28 0x9 {kind:#x}", f"cells of kind {kind}", hmat(speeds(kind=kind)))
for flags in (*range(32), *range(0x80, 0x86), *range(0xF0, 0x100)):
    if flags & 15 < 4:
        table_kept(LEVEL, f"flags {flags:#x}", hmat(speeds(flags=flags)))
        table_kept(LEVEL, f"flags {flags:#x}, Revision 1", hmat(speeds(flags=flags), revision=1))
    else:
        table_broken(LEVEL, f"0x28 0x8 {flags:#x}", f"flags {flags:#x}", hmat(speeds(flags=flags)))
        if flags & 15 == 4:
            table_kept(LEVEL, f"flags {flags:#x}, Revision 1", hmat(speeds(flags=flags), revision=1))
        else:
            table_broken(LEVEL, f"0x28 0x8 {flags:#x}", f"flags {flags:#x}, Revision 1", hmat(speeds(flags=flags), revision=1))
for revision in (0, 3, 4, 129, 255):
    table_broken(LEVEL, "0x28 0x8 0x4", f"level 4, Revision {revision}", hmat(speeds(flags=4), revision=revision))
    table_kept(LEVEL, f"level 3, Revision {revision}", hmat(speeds(flags=3), revision=revision))
table_broken(UNIT, "0x28 0x18", "a unit of 0", hmat(speeds(unit=0)))
table_broken(UNIT, "0x28 0x18", "a unit of 0, and bytes beside it", hmat(placed(speeds(unit=0), _8=b"\xff" * 4, _20=b"\xff" * 4)))
for unit in (1, 2, 255, 256, 1000, 2**16, 2**24, 2**31, 2**32 - 1, 2**32, 2**40, 2**48, 2**56, 2**63, TOP - 1):
    table_kept(UNIT, f"a unit of {unit:#x}", hmat(speeds(unit=unit)))
WRONG_SPEEDS = {"kind": 6, "flags": 5, "unit": 0}
for rule, numbers in ((KIND, "0x9 0x6"), (LEVEL, "0x8 0x5"), (UNIT, "0x18")):
    wrong = partial(speeds, **WRONG_SPEEDS)
    table_broken(rule, f"0x28 {numbers}", "speeds that are wrong in all", hmat(wrong()))
    table_broken(rule, f"0x28 {numbers}", "no initiator and no target", hmat(wrong((), ())))
    table_broken(rule, f"0x28 {numbers}", "two initiators and no target", hmat(wrong((1, 2), ())))
    table_broken(rule, f"0x28 {numbers}", "more bytes than the lists have", hmat(wrong(length=64)))
    table_broken(rule, f"0x52 {numbers}", "the second speeds", hmat(speeds(), wrong()))
    table_broken(rule, f"0x51 {numbers}", "speeds after some that are too short", hmat(wrong(length=41), wrong()))
    table_broken(rule, f"0x28 {numbers}", "the first of two", hmat(wrong(), wrong()))
    table_broken(rule, f"0x50 {numbers}", "speeds after a proximity, before the cut", hmat(proximity(), wrong(), b"\1"))
    for length in (8, 9, 10, 24, 31, 32, 36, 41):
        table_kept(rule, f"speeds of {length} bytes", hmat(wrong(length=length)))
    for kind in (0, 2, 3, 0x100, 0x101):
        for length in (40, 64):
            table_kept(rule, f"a structure of type {kind} and {length} bytes", hmat(of_hmat(kind, length, _8=b"\5\6")))
    table_kept(rule, "speeds after the cut", hmat(bytes(8), wrong()))
    table_kept(rule, "speeds of which the last byte is behind the HMAT", changed(hmat(wrong()), {4: 81}))

# ---- the HMAT: cells that are too large. That of one initiator and one target is at 0x50.
CELL = "HmatTooLarge"
for cell, unit in (
    (1, 2**32), (2, 2**31), (4, 2**30), (0x8000, 2**17), (0x8000, 2**63), (3, 1431655766), (0xFFFE, 65539), (0xFFFE, 2**32), (1, TOP - 1),
    (0xFFFE, TOP - 1), (2, 2**63), (4, 2**62), (0x100, 2**56), (0x1000, 2**52), (5, 2**62), (0xFF00, 65794), (0xFF, 16843010),
):
    table_broken(CELL, f"0x50 0x0 {cell:#x}", f"{cell:#x} times {unit:#x}", hmat(speeds(cells=[cell], unit=unit)))
for cell, unit in (
    (1, 2**32 - 1), (2, 2**31 - 1), (4, 2**30 - 1), (0x8000, 2**17 - 1), (3, 1431655765), (0xFFFE, 65538), (0xFFFE, 65537), (0xFFFE, 1),
    (0, 2**32), (0, TOP - 1), (0xFFFE, 0), (1, 0), (0xFFFF, 65537), (0xFFFF, 65538), (0xFFFF, 2**32), (0xFFFF, TOP - 1), (0xFF00, 65793),
    (0xFF, 16843009),
):
    table_kept(CELL, f"{cell:#x} times {unit:#x}", hmat(speeds(cells=[cell], unit=unit)))
# of two initiators and three targets the cells are at 0x5C, 0x5E, 0x60, 0x62, 0x64 and 0x66; a cell may have up to 3
TWO_AND_THREE = partial(speeds, (0, 1), (0, 1, 2), unit=2**30)
for cells, numbers in (
    ((4, 1, 1, 1, 1, 1), "0x5c 0x0 0x4"), ((1, 5, 1, 1, 1, 1), "0x5e 0x0 0x5"), ((1, 1, 0xFFFF, 6, 1, 7), "0x62 0x0 0x6"),
    ((1, 2, 3, 3, 3, 4), "0x66 0x0 0x4"), ((0xFFFF, 0, 0xFFFE, 4, 4, 4), "0x60 0x0 0xfffe"),
):
    table_broken(CELL, numbers, f"six cells {cells}", hmat(TWO_AND_THREE(cells)))
table_kept(CELL, "six cells", hmat(TWO_AND_THREE((0, 1, 2, 3, 0xFFFF, 3))))
table_kept(CELL, "bytes after six cells", hmat(placed(TWO_AND_THREE((1,) * 6, length=80), _64=b"\4\0" * 8)))
table_kept(CELL, "domains that are no cells", hmat(speeds((0x40004, 2**32 - 2), (5, 6), [1] * 4, 2**30)))
table_broken(CELL, "0x7a 0x0 0x4", "the second speeds", hmat(speeds(cells=[4]), speeds(cells=[4], unit=2**30)))
table_kept(CELL, "no targets", hmat(speeds((1, 2, 3), (), (), TOP - 1)))
table_kept(CELL, "no initiators", hmat(speeds((), (1, 2, 3), (), TOP - 1)))
table_kept(CELL, "speeds of 41 bytes", hmat(speeds(cells=[4], unit=2**40, length=41)))
table_kept(CELL, "a cell that is cut", hmat(TWO_AND_THREE((4,) * 6, length=63)))
table_kept(CELL, "a proximity", hmat(placed(proximity(), _24=b"\xff" * 16)))
table_broken(CELL, "0x50 0x0 0x2", "a wrong kind and a wrong level", hmat(speeds(cells=[2], unit=2**31, kind=6, flags=15)))

# ---- the HMAT: domains twice. The first initiator is at 0x48, and without initiators the first target.
TWICE = "HmatSameDomain"
for first, second, numbers in (
    ((5, 5), (1,), "0x4c 0x48 0x5"), ((5, 5), (), "0x4c 0x48 0x5"), ((0, 0), (), "0x4c 0x48"), ((), (0, 0), "0x4c 0x48"),
    ((1,), (7, 7), "0x50 0x4c 0x7"), ((1, 2, 3, 2), (), "0x54 0x4c 0x2"), ((9, 9, 9), (), "0x4c 0x48 0x9"),
    ((1, 2, 2, 1), (), "0x50 0x4c 0x2"), ((1, 2, 1, 2), (), "0x50 0x48 0x1"), ((3, 4, 4), (6, 6), "0x50 0x4c 0x4"),
    ((3, 4, 5), (6, 7, 6), "0x5c 0x54 0x6"), ((2**32 - 1,) * 2, (), "0x4c 0x48 0xffffffff"),
    ((1, 2**24, 2**24), (), "0x50 0x4c 0x1000000"), ((5, 1), (5, 1, 5), "0x58 0x50 0x5"),
):
    table_broken(TWICE, numbers, f"initiators {first} and targets {second}", hmat(speeds(first, second)))
for first, second in (
    ((), ()), ((1,), (1,)), ((1, 2), (1, 2)), ((0, 2**24), ()), ((1, 0x101, 0x10001, 0x1000001), ()), ((), (1, 0x101, 0x10001, 0x1000001)),
    ((0xFFFF, 2**32 - 1), (0, 2**31)), ((*range(20),), (*range(20),)),
):
    table_kept(TWICE, f"initiators {first} and targets {second}", hmat(speeds(first, second)))
table_kept(TWICE, "one initiator in two structures", hmat(speeds((5,), ()), speeds((5,), ())))
table_broken(TWICE, "0x76 0x72 0x5", "the second speeds", hmat(speeds(), speeds((5, 5), ())))
table_broken(TWICE, "0x4c 0x48 0x5", "two speeds", hmat(speeds((5, 5), ()), speeds((4, 4), ())))
table_kept(TWICE, "equal cells, and equal bytes after them", hmat(speeds((1, 2), (3, 4), (9, 9, 9, 9), length=100)))
table_kept(TWICE, "a list that is cut", hmat(speeds((5, 5), (), length=39)))
table_kept(TWICE, "cells that are cut", hmat(speeds((5, 5), (1,), length=47)))
table_broken(TWICE, "0x1c8 0x48 0x1", "the last of 97", hmat(speeds((*range(1, 97), 1), ())))

# ---- the HMAT and the SRAT, which has an entry of each type: in these domains
OF_APIC, OF_MEMORY, OF_X2APIC, OF_GICC, OF_ITS, OF_INITIATOR, OF_PORT, OF_HART = 2, 3, 4, 5, 6, 7, 8, 9
OF_ALL = range(2, 10)
ENTRIES = (
    apic_domain(0, OF_APIC, 0), memory_of(OF_MEMORY, flags=0), x2apic_domain(0, OF_X2APIC, 0), uid_domain(0, OF_GICC, 0),
    its_domain(OF_ITS),
    device_domain(5, OF_INITIATOR, 0), device_domain(6, OF_PORT, 0), hart_domain(0, OF_HART, 0),
)
SRAT = srat(*ENTRIES)
OTHERS = (0, 1, 10, 0x102, 0x10002, 0x2000002, 2**31, 2**32 - 1)
NEAR, NOWHERE, CACHE_AT = "HmatProximity", "HmatDomainNowhere", "HmatCacheNowhere"


def beside_broken(rule, numbers, name, *structures, beside=SRAT, revision=2):
    """An HMAT and an SRAT."""
    table_broken(rule, numbers, name, hmat(*structures, revision=revision), beside)


def beside_kept(rule, name, *structures, beside=SRAT, revision=2):
    table_kept(rule, name, hmat(*structures, revision=revision), beside)


for domain in OF_ALL:
    beside_kept(NEAR, f"an initiator in domain {domain}", proximity(domain, OF_MEMORY))
    beside_kept(NOWHERE, f"an initiator in domain {domain}", speeds([domain], ()))
    beside_kept(NOWHERE, f"a target in domain {domain}", speeds((), [domain]))
    if domain in (OF_MEMORY, OF_PORT):
        beside_kept(NEAR, f"memory in domain {domain}", proximity(OF_APIC, domain))
    else:
        beside_broken(NEAR, f"0x28 0x10 {domain:#x}", f"memory in domain {domain}", proximity(OF_APIC, domain))
        beside_broken(NEAR, f"0x28 0x10 {domain:#x}", f"memory in domain {domain}, no initiator", proximity(0, domain, 0))
        beside_broken(NEAR, f"0x28 0x10 {domain:#x}", f"memory in domain {domain}, Revision 1", proximity(OF_APIC, domain, 3), revision=1)
        beside_kept(NEAR, f"memory in domain {domain} that is not valid", proximity(OF_APIC, domain, 1), revision=1)
    if domain == OF_MEMORY:
        beside_kept(CACHE_AT, f"a cache in domain {domain}", side_cache(domain))
    else:
        beside_broken(CACHE_AT, f"0x28 0x8 {domain:#x}", f"a cache in domain {domain}", side_cache(domain))
for domain in OTHERS:
    numbers, at = f"0xc {domain:#x}", f"{domain:#x}"
    beside_broken(NEAR, f"0x28 {numbers}", f"an initiator in domain {at}", proximity(domain, OF_MEMORY))
    beside_broken(NEAR, f"0x28 {numbers}", f"an initiator and memory in domain {at}", proximity(domain, domain))
    beside_broken(NEAR, f"0x28 {numbers}", f"an initiator in domain {at}, Revision 1", proximity(domain, domain), revision=1)
    beside_kept(NEAR, f"no initiator, which is in domain {at}", proximity(domain, OF_MEMORY, 0))
    beside_kept(NEAR, f"no initiator, which is in domain {at}, and reserved flags", proximity(domain, OF_PORT, 0xFFFE))
    beside_kept(NEAR, f"neither initiator nor memory, in domain {at}, Revision 1", proximity(domain, domain, 0), revision=1)
    beside_kept(NEAR, f"the same with reserved flags, in domain {at}", proximity(domain, domain, 0xFFFC), revision=1)
    beside_broken(NEAR, f"0x28 0x10 {at}", f"memory in domain {at}", proximity(OF_HART, domain))
    beside_broken(NEAR, f"0x28 0x10 {at}", f"memory in domain {at}, Revision 1", proximity(domain, domain, 2), revision=1)
    for revision in (0, 3, 255):
        beside_broken(NEAR, f"0x28 0x10 {at}", f"memory in domain {at}, Revision {revision}", proximity(0, domain, 0), revision=revision)
    beside_broken(NOWHERE, f"0x48 0x0 {at}", f"an initiator in domain {at}", speeds([domain], ()))
    beside_broken(NOWHERE, f"0x48 0x0 {at}", f"a target in domain {at}", speeds((), [domain]))
    beside_broken(NOWHERE, f"0x4c 0x0 {at}", f"a target in domain {at} after an initiator", speeds([OF_APIC], [domain]))
    beside_broken(NOWHERE, f"0x50 0x0 {at}", f"the third initiator in domain {at}", speeds([OF_APIC, OF_HART, domain], [domain]))
    beside_broken(NOWHERE, f"0x5c 0x0 {at}", f"the last of three targets in domain {at}", speeds([2, 3, 4], [2, 3, domain]))
    beside_broken(CACHE_AT, f"0x28 0x8 {at}", f"a cache in domain {at}", side_cache(domain))
# of an affinity of an APIC all 32 bits count
FAR = srat(apic_domain(0, 0x01020304, 0), memory_of(0x05060708, 0, 0, 0))
beside_kept(NEAR, "domains of 32 bits", proximity(0x01020304, 0x05060708), beside=FAR)
beside_kept(NOWHERE, "domains of 32 bits", speeds([0x01020304], [0x05060708]), beside=FAR)
beside_kept(CACHE_AT, "a domain of 32 bits", side_cache(0x05060708), beside=FAR)
for domain in (4, 0x304, 0x20304, 0x1020300):
    beside_broken(NEAR, f"0x28 0xc {domain:#x}", f"a part of a domain, {domain:#x}", proximity(domain, 0x05060708), beside=FAR)
    beside_broken(NOWHERE, f"0x48 0x0 {domain:#x}", f"a part of a domain, {domain:#x}", speeds([domain], ()), beside=FAR)
for enabled in (0, 1):
    one = srat(memory_of(0, 0, 0x1000, enabled))
    beside_kept(NEAR, f"memory alone, flags {enabled}", proximity(), beside=one)
    beside_kept(NOWHERE, f"memory alone, flags {enabled}", speeds(), beside=one)
    beside_kept(CACHE_AT, f"memory alone, flags {enabled}", side_cache(), beside=one)
    one = srat(apic_domain(0, 0, enabled))
    beside_broken(NEAR, "0x28 0x10", f"a processor alone, flags {enabled}", proximity(), beside=one)
    beside_kept(NOWHERE, f"a processor alone, flags {enabled}", speeds(), beside=one)
    beside_broken(CACHE_AT, "0x28 0x8", f"a processor alone, flags {enabled}", side_cache(), beside=one)
OF_THREE = ((NEAR, "0x28 0xc 0x1", proximity(1, 1)), (NOWHERE, "0x48 0x0 0x1", speeds([1], [1])), (CACHE_AT, "0x28 0x8 0x1", side_cache(1)))
for rule, numbers, structure in OF_THREE:
    beside_broken(rule, numbers, "an SRAT without entries", structure, beside=srat())
    beside_broken(rule, numbers, "an SRAT that does not sum to 0", structure, beside=changed(SRAT, {9: SRAT[9] ^ 1}))
    beside_broken(rule, numbers, "an SRAT of Revision 1", structure, beside=revised(SRAT, 1))
    beside_broken(rule, numbers, "an HMAT of Revision 255", structure if rule != NEAR else proximity(1, OF_MEMORY), revision=255)
    table_kept(rule, "no SRAT", hmat(structure))
    table_broken(rule, numbers, "an SRAT before the HMAT", SRAT, hmat(structure))
    table_broken(rule, numbers, "two SRATs", hmat(structure), SRAT, srat(memory_of(1)))
    table_kept(rule, "two SRATs, of which the first one has the domain", hmat(structure), srat(memory_of(1)), SRAT)
    for name, beside in (
        ("an SRAT of 47 bytes", blank_table(b"SRAT", 47, 3)), ("an SRAT of which the last byte is not present", SRAT[:-1]),
        ("an SRAT of Length 35", changed(SRAT, {4: 35, 5: 0})), ("an SRAT of another signature", changed(SRAT, {0: ord("X")})),
        ("an SRAT with a byte at its end", srat(*ENTRIES, b"\1")), ("an SRAT with an entry of no bytes", srat(*ENTRIES, b"\0\0")),
        ("an SRAT with an entry of a byte", srat(*ENTRIES, b"\4\1")), ("an SRAT that is cut before its entries", srat(b"\0\1", *ENTRIES)),
        ("an affinity of 15 bytes", srat(*ENTRIES, other(0, 15))), ("memory of 39 bytes", srat(other(1, 39), *ENTRIES)),
        ("an affinity of an x2APIC of 25 bytes", srat(*ENTRIES, other(2, 25))), ("an entry of type 8", srat(*ENTRIES, other(8, 8))),
        ("an entry of type 255", srat(other(255, 2), *ENTRIES)), ("an affinity of a GICC of 17 bytes", srat(*ENTRIES, other(3, 17))),
        ("an affinity of an ITS of 13 bytes", srat(*ENTRIES, other(4, 13))), ("an initiator of 31 bytes", srat(*ENTRIES, other(5, 31))),
        ("a port of 33 bytes", srat(*ENTRIES, other(6, 33))), ("an affinity of a hart of 21 bytes", srat(*ENTRIES, other(7, 21))),
    ):
        beside_kept(rule, name, structure, beside=beside)
for length in (8, 20, 39, 41, 48):
    beside_kept(NEAR, f"a proximity of {length} bytes", proximity(1, 1, length=length))
for length in (12, 35, 36, 39, 40, 41):
    beside_kept(NOWHERE, f"speeds of {length} bytes", speeds([1], [1], length=length))
for count, length in ((0, 8), (0, 12), (0, 31), (1, 33), (2, 35)):
    beside_kept(CACHE_AT, f"a cache of {count} handles in {length} bytes", side_cache(1, handles=count, length=length))
beside_broken(NEAR, "0x50 0xc 0x1", "the second proximity", proximity(OF_APIC, OF_MEMORY), proximity(1, 1))
beside_broken(NEAR, "0x28 0x10 0x1", "the first of two", proximity(OF_APIC, 1), proximity(1, 1))
beside_broken(NEAR, "0x4f 0xc 0x1", "a proximity after one that is too short", proximity(1, 1, length=39), proximity(1, 1))
beside_broken(NEAR, "0x28 0xc 0x1", "a proximity before the cut", proximity(1, 1), b"\1")
beside_kept(NEAR, "a proximity after the cut", bytes(8), proximity(1, 1))
beside_broken(NOWHERE, "0x70 0x0 0x1", "speeds after a proximity", proximity(), speeds([1], [1]))
beside_broken(NOWHERE, "0x4c 0x0 0x1", "domains in two speeds", speeds([2], [1]), speeds([0], [1]))
beside_kept(NOWHERE, "cells and bytes after them", speeds([2], [3], [1], length=100))
beside_kept(NOWHERE, "no list", speeds((), ()))
beside_broken(CACHE_AT, "0x48 0x8 0x1", "the second cache", side_cache(OF_MEMORY), side_cache(1))
beside_broken(CACHE_AT, "0x28 0x8 0x1", "a cache with handles", side_cache(1, handles=3))
beside_broken(CACHE_AT, "0x28 0x8 0x1", "a cache with bytes after its handles", side_cache(1, handles=3, length=100))
beside_kept(CACHE_AT, "a proximity and speeds", proximity(1, 1), speeds([1], [1]))

# ---- the HMAT: a cache, with its levels, its level, its associativity and its write policy in four bits each
CACHES = "HmatCache"
for levels in range(16):
    for level in range(16):
        attributes, name = levels | level << 4, f"level {level} of {levels}"
        if levels <= 3 and level <= levels:
            table_kept(CACHES, name, hmat(side_cache(0, attributes)))
        elif levels in (0, 1, 2, 3, 4, 8, 15):
            table_broken(CACHES, f"0x28 0x18 {attributes:#x}", name, hmat(side_cache(0, attributes)))
for ways in range(16):
    for policy in range(16):
        attributes, name = 0x33 | ways << 8 | policy << 12, f"associativity {ways} and write policy {policy}"
        if ways <= 2 and policy <= 2:
            table_kept(CACHES, name, hmat(side_cache(0, attributes)))
        elif ways in (0, 2, 3, 15):
            table_broken(CACHES, f"0x28 0x18 {attributes:#x}", name, hmat(side_cache(0, attributes)))
for size in (1, 64, 0x8000, 0xFFFF):
    table_kept(CACHES, f"lines of {size} bytes", hmat(side_cache(0, size << 16 | 0x2233)))
    table_broken(CACHES, f"0x28 0x18 {size << 16 | 4:#x}", f"lines of {size} bytes, and 4 levels", hmat(side_cache(0, size << 16 | 4)))
table_kept(CACHES, "bytes around the attributes", hmat(placed(side_cache(), _8=b"\xff" * 16, _28=b"\xff\xff")))
table_broken(CACHES, "0x28 0x18 0x4", "a cache with handles, and bytes after them", hmat(side_cache(0, 4, handles=2, length=64)))
table_broken(CACHES, "0x48 0x18 0x10", "the second cache", hmat(side_cache(), side_cache(0, 0x10)))
table_broken(CACHES, "0x28 0x18 0x300", "the first of two", hmat(side_cache(0, 0x300), side_cache(0, 0x10)))
table_broken(CACHES, "0x47 0x18 0x4", "a cache after one that is too short", hmat(side_cache(0, 4, length=31), side_cache(0, 4)))
for count, length in ((0, 28), (0, 31), (1, 32), (1, 33)):
    table_kept(CACHES, f"a cache of {count} handles in {length} bytes", hmat(side_cache(0, 4, count, length)))
for kind in (0, 1, 3, 0x102):
    table_kept(CACHES, f"a structure of type {kind:#x}", hmat(of_hmat(kind, 40, _24=b"\4")))
table_kept(CACHES, "a cache after the cut", hmat(bytes(8), side_cache(0, 4)))

# ---- the HMAT without an SRAT
ALONE = "HmatAlone"
for name, table_alone in (
    ("an HMAT", hmat()), ("an HMAT with structures", hmat(proximity(), speeds())), ("an HMAT of 36 bytes", blank_table(b"HMAT", 36, 2)),
    ("an HMAT of 39 bytes", blank_table(b"HMAT", 39, 0)), ("an HMAT of Revision 3", hmat(revision=3)), ("an HMAT that is cut", hmat(b"\1")),
    ("an HMAT that does not sum to 0", changed(hmat(), {9: hmat()[9] ^ 1})),
):
    table_broken(ALONE, "", name, table_alone)
    table_kept(ALONE, f"{name}, and an SRAT", table_alone, SRAT)
    table_kept(ALONE, f"an SRAT before {name}", SRAT, table_alone)
    for what, beside in (
        ("a SLIT", slit(1, [10])), ("35 bytes of an SRAT", SRAT[:35]), ("an SRAT of another signature", changed(SRAT, {3: ord("X")})),
        ("a second HMAT", hmat()), ("a MADT", madt(lapic(0, 0))),
    ):
        table_broken(ALONE, "", f"{name}, and {what}", table_alone, beside)
    for what, beside in (
        ("an SRAT of 36 bytes", blank_table(b"SRAT", 36, 3)), ("36 bytes of an SRAT", SRAT[:36]),
        ("an SRAT of Length 0", changed(SRAT, {4: 0, 5: 0})),
        ("an SRAT that does not sum to 0", changed(SRAT, {9: SRAT[9] ^ 1})), ("an SRAT that is cut", srat(b"\1")),
        ("an SRAT with an entry of type 255", srat(other(255))),
    ):
        table_kept(ALONE, f"{name}, and {what}", table_alone, beside)
broken(ALONE, "", "an SRAT that no slot lists", listed(hmat(), others={0x8000: SRAT}))
broken(ALONE, "", "an SRAT that the RSDT alone lists", {
    RSDP_AT: extended_rsdp(), XSDT_AT: xsdt(0x2000, 0x3000), RSDT_AT: rsdt(0x2000, 0x3000, 0x4000), 0x2000: fadt(),
    0x3000: hmat(), 0x4000: SRAT,
})
broken(ALONE, "", "one HMAT in two slots", listed(hmat(), slots=(0x2000, 0x3000, 0x3000)))
kept(ALONE, "an SRAT in two slots", listed(hmat(), SRAT, slots=(0x4000, 0x3000, 0x4000)))
kept(ALONE, "an HMAT that no slot lists", listed(others={0x3000: hmat()}))
for name, pieces in (
    ("no HMAT", listed()), ("an HMAT without its last byte", listed(hmat()[:-1])), ("a header of an HMAT", listed(hmat()[:36])),
    ("an HMAT of Length 35", listed(changed(hmat(), {4: 35}))), ("an HMAT of another signature", listed(changed(hmat(), {0: ord("X")}))),
    ("an HMAT without its last byte, before one that is complete", listed(hmat()[:-1], hmat())),
):
    kept(ALONE, name, pieces)

# ---- the GTDT: its Length by its Revision
SIZES = ((0, 80), (1, 80), (2, 96), (3, 104), (4, 104), (5, 104), (128, 104), (255, 104))
# Fields, platform timers and a MADT with which a GTDT that is full breaks each rule but its length.
FULLY_WRONG = {"_48": number(1, 4), "_56": bytes(4), "_64": bytes(4), "_72": number(1, 4), "_88": number(1, 4), "_92": bytes(4)}
WITH_GICD = madt(gicd())
OF_GTDT = (
    "NoTimer", "TimerNoPpi", "SameTimer", "PlatformTimerCut", "TimerBlock", "TimerFrame", "SameFrame", "Watchdog", "TimerNoSpi",
    "TimerOverlap",
)
for revision, size in SIZES:
    for length in sorted({36, 37, 40, 48, 60, 79, 80, 92, 95, 96, 97, 103} & {*range(36, size)}):
        name, short = f"a GTDT of {length} bytes and Revision {revision}", gtdt(revision=revision, length=length, **FULLY_WRONG)
        table_broken("GtdtLength", f"0x4 {size:#x} {length:#x}", name, short, WITH_GICD)
        for rule in OF_GTDT if length + 1 == size else ():
            table_kept(rule, name, short, WITH_GICD)
    for length in sorted({80, 95, 96, 103, 104, 105, 4096} - {*range(size)}):
        name, full = f"a GTDT of {length} bytes and Revision {revision}", gtdt(revision=revision, length=length, **FULLY_WRONG)
        table_kept("GtdtLength", name, full, WITH_GICD)
        table_broken("NoTimer", "0x38", name, full, WITH_GICD)
        table_broken("TimerNoPpi", "0x30 0x0 0x1", name, full, WITH_GICD)
        if revision >= 2:
            table_broken("PlatformTimerCut", "0x5c", name, full, WITH_GICD)
        else:
            table_kept("PlatformTimerCut", name, full, WITH_GICD)
    for rule in ("GtdtLength", *OF_GTDT) if revision < 4 else ():
        table_kept(rule, f"a valid GTDT of Revision {revision}", gtdt(revision=revision), WITH_GICD)

# ---- no GTDT
MISSING = "NoGtdt"
for name, entries in (
    ("a GICC", (gicc(0),)), ("a GICC that is off", (gicc(0, 0),)), ("two GICCs", (gicc(0), gicc(1))), ("a GIC", (gicd(), gicc(0))),
    ("an entry of type 11 and 2 bytes", (other(11, 2),)), ("a GICC of 39 bytes", (gicc(0, length=39),)),
    ("a GICC of 40 bytes", (gicc(0, length=40),)), ("an entry of type 11 and 255 bytes", (other(11, 255),)),
    ("a GICC after others", (lapic(0, 0), other(127, 2), gicc(0))), ("a GICC before others", (gicc(0), other(24, 2), io_apic(0, 0))),
):
    there = madt(*entries)
    table_broken(MISSING, "", name, there)
    table_kept(MISSING, f"{name}, and a GTDT", there, gtdt())
    table_kept(MISSING, f"a GTDT before {name}", gtdt(), there)
    table_kept(MISSING, f"{name} before the cut", madt(*entries, b"\1"))
ONE_GICC = madt(gicc(0))
for tail in (b"\1", b"\0\0", b"\13\1", b"\13\120", other(0, 7), other(1, 11), other(9, 12)):
    table_kept(MISSING, f"a GICC, and {tail.hex()} behind it", madt(gicc(0), tail))
for what, beside in (
    ("35 bytes of a GTDT", gtdt()[:35]), ("a GTDT of another signature", changed(gtdt(), {0: ord("X")})), ("an HMAT", hmat()),
    ("a GTDT of lower case", changed(gtdt(), dict(enumerate(b"gtdt")))),
):
    table_broken(MISSING, "", f"a GICC, and {what}", ONE_GICC, beside)
for what, beside in (
    ("36 bytes of a GTDT", gtdt()[:36]), ("a GTDT of 36 bytes", blank_table(b"GTDT", 36, 3)),
    ("a GTDT of Length 0", changed(gtdt(), {4: 0})),
    ("a GTDT that does not sum to 0", changed(gtdt(), {9: gtdt()[9] ^ 1})), ("a GTDT that lacks all", gtdt(_56=bytes(4), _64=bytes(4))),
):
    table_kept(MISSING, f"a GICC, and {what}", ONE_GICC, beside)
broken(MISSING, "", "a GTDT that no slot lists", listed(ONE_GICC, others={0x8000: gtdt()}))
kept(MISSING, "a GICC in a MADT that no slot lists", listed(others={0x3000: ONE_GICC}))
table_broken(MISSING, "", "a MADT that does not sum to 0", changed(ONE_GICC, {9: ONE_GICC[9] ^ 1}))
for name, entries in (
    ("no entry", ()), ("a distributor", (gicd(),)), ("a local APIC", (lapic(0, 0),)), ("type 10", (x2apic_nmi(0, 1),)),
    ("a GICC after the cut", (b"\0\0", gicc(0))), ("a GICC that is cut", (gicc(0)[:-1],)), ("a byte of a GICC", (b"\13",)),
    ("bytes of a GICC in another entry", (placed(other(127, 90), _2=gicc(0)),)),
    ("a redistributor and an ITS", (redistributor(0, 1), its(0))),
):
    table_kept(MISSING, name, madt(*entries))
for name, tables in (
    ("no MADT", ()), ("a MADT of 43 bytes", (blank_table(b"APIC", 43, 5),)), ("a MADT of 44 bytes", (blank_table(b"APIC", 44, 5),)),
    ("a MADT without its last byte", (ONE_GICC[:-1],)), ("a MADT of Length 35", (changed(ONE_GICC, {4: 35}),)),
    ("a MADT of another signature", (changed(ONE_GICC, {0: ord("X")}),)), ("two MADTs, the second of which has it", (madt(), ONE_GICC)),
):
    table_kept(MISSING, name, *tables)
table_broken(MISSING, "", "two MADTs, the first of which has it", ONE_GICC, madt())
broken(MISSING, "", "no FADT", {RSDP_AT: rsdp(), RSDT_AT: rsdt(0x3000), 0x3000: ONE_GICC})
broken(MISSING, "", "a GTDT that the RSDT alone lists", {
    RSDP_AT: extended_rsdp(), XSDT_AT: xsdt(0x2000, 0x3000), RSDT_AT: rsdt(0x2000, 0x3000, 0x4000), 0x2000: fadt(),
    0x3000: ONE_GICC, 0x4000: gtdt(),
})

# ---- the GTDT: the interrupts of the timers of a processor
ABSENT, PPI, SAME = "NoTimer", "TimerNoPpi", "SameTimer"
FIELDS = (48, 56, 64, 72)


def timers(revision=3, length=None, **numbers):
    """A GTDT with these interrupts, by their offsets."""
    return gtdt(revision=revision, length=length, **{at: number(it, 4) for at, it in numbers.items()})


for revision, _ in SIZES:
    table_broken(ABSENT, "0x38", f"no timer of EL1, Revision {revision}", timers(revision, _56=0, _64=0))
    table_broken(ABSENT, "0x38", f"no timer, Revision {revision}", timers(revision, 104, _48=0, _56=0, _64=0, _72=0, _96=0))
    table_kept(ABSENT, f"no timer but the virtual one, Revision {revision}", timers(revision, _48=0, _56=0, _72=0))
    table_kept(ABSENT, f"no virtual timer, Revision {revision}", timers(revision, _48=0, _64=0, _72=0))
for bit in (0, 8, 16, 31):
    table_kept(ABSENT, f"a timer of EL1 of bit {bit}", timers(_56=1 << bit, _64=0))
    table_kept(ABSENT, f"a virtual timer of bit {bit}", timers(_56=0, _64=1 << bit))
table_broken(ABSENT, "0x38", "all bytes beside them", timers(_52=2**32 - 1, _56=0, _60=2**32 - 1, _64=0, _68=2**32 - 1))
table_kept(ABSENT, "no timers of EL2", timers(_48=0, _72=0, _96=0))
# Interrupts that no processor has of its own, and such that one has.
NO_PPIS = (1, 15, 32, 256, 272, 1024, 1055, 1120, 4096, 65552, 0x1000010, 2**32 - 1)
PPIS = (0, 16, 17, 31, 1056, 1119)
for at in FIELDS:
    for gsiv in NO_PPIS:
        one = {f"_{at}": gsiv}
        table_broken(PPI, f"{at:#x} 0x0 {gsiv:#x}", f"{gsiv} at {at}", timers(**one), WITH_GICD)
        table_kept(PPI, f"{gsiv} at {at}, and no MADT", timers(**one))
    for gsiv in PPIS:
        table_kept(PPI, f"{gsiv} at {at}", timers(**{f"_{at}": gsiv}), WITH_GICD)
    for revision in (0, 1, 2, 4):
        table_broken(PPI, f"{at:#x} 0x0 0x1", f"1 at {at}, Revision {revision}", timers(revision, **{f"_{at}": 1}), WITH_GICD)
for revision, size in SIZES:
    for gsiv in (1, 15, 32, 1055, 1120, 2**32 - 1):
        name, one = f"{gsiv} at 96 of 104 bytes, Revision {revision}", timers(revision, 104, _96=gsiv)
        if revision >= 3:
            table_broken(PPI, f"0x60 0x0 {gsiv:#x}", name, one, WITH_GICD)
        else:
            table_kept(PPI, name, one, WITH_GICD)
    for gsiv in PPIS:
        table_kept(PPI, f"{gsiv} at 96 of 104 bytes, Revision {revision}", timers(revision, 104, _96=gsiv), WITH_GICD)
table_broken(PPI, "0x38 0x0 0x2", "the second one, and later ones", timers(_56=2, _64=3, _72=4, _96=5), WITH_GICD)
table_broken(PPI, "0x48 0x0 0x4", "the fourth one, and the fifth", timers(_72=4, _96=5), WITH_GICD)
BESIDE_THEM = {f"_{at}": b"\1" * size for at, size in ((36, 8), (44, 4), (52, 4), (76, 4), (80, 8), (100, 4))}
table_kept(PPI, "flags and addresses", gtdt(**BESIDE_THEM), WITH_GICD)


def by_madt(rule, numbers, wrong):
    """A GTDT that breaks a rule beside each distributor that is read, and keeps it where none is."""
    for name, entries in (
        ("a distributor of 2 bytes", (gicd(2),)), ("a distributor of 23 bytes", (gicd(23),)), ("two distributors", (gicd(), gicd())),
        ("a distributor after others", (lapic(0, 0), gicc(0), other(127, 2), gicd())), ("a GICC, too", (gicd(), gicc(0, length=39))),
    ):
        table_broken(rule, numbers, name, wrong, madt(*entries))
        table_broken(rule, numbers, f"{name}, in a MADT before the GTDT", madt(*entries), wrong)
    for name, entries in (
        ("a GICC", (gicc(0),)), ("a local APIC", (lapic(0, 0),)), ("no entry", ()), ("a distributor before the cut", (gicd(), b"\0")),
        ("a distributor after the cut", (b"\0\0", gicd())), ("a distributor that is cut", (gicd()[:-1],)),
        ("a distributor and a local APIC of 7 bytes", (gicd(), other(0, 7))), ("an MSI frame", (frame(0),)),
    ):
        table_kept(rule, name, wrong, madt(*entries))
    for name, beside in (
        ("a MADT of 43 bytes", blank_table(b"APIC", 43, 5)), ("a MADT without its last byte", WITH_GICD[:-1]),
        ("a MADT of another signature", changed(WITH_GICD, {0: ord("X")})),
    ):
        table_kept(rule, name, wrong, beside)
    table_kept(rule, "no MADT", wrong)
    table_broken(rule, numbers, "a MADT that does not sum to 0", wrong, changed(WITH_GICD, {9: WITH_GICD[9] ^ 1}))
    table_broken(rule, numbers, "two MADTs", wrong, WITH_GICD, madt())
    table_kept(rule, "two MADTs, of which the second one has a distributor", wrong, madt(), WITH_GICD)


by_madt(PPI, "0x30 0x0 0x21", timers(_48=33))
for later, first in ((64, 56), (72, 56), (72, 64), (96, 56), (96, 64), (96, 72)):
    for gsiv in (1, 16, 28, 256, 2**24, 2**32 - 1):
        one = {f"_{later}": gsiv, f"_{first}": gsiv}
        table_broken(SAME, f"{later:#x} {first:#x} {gsiv:#x}", f"{gsiv} at {first} and at {later}", timers(**one))
    for revision, _ in SIZES:
        name, one = f"19 at {first} and at {later}, Revision {revision}", timers(revision, 104, **{f"_{later}": 19, f"_{first}": 19})
        if later < 96 or revision >= 3:
            table_broken(SAME, f"{later:#x} {first:#x} 0x13", name, one)
        else:
            table_kept(SAME, name, one)
    table_kept(SAME, f"0 at {first} and at {later}", timers(**{f"_{later}": 0, f"_{first}": 0}))
    for bits in (0x100, 0x10000, 1 << 24):
        table_kept(SAME, f"{bits:#x} more at {first} than at {later}", timers(**{f"_{later}": 19, f"_{first}": 19 + bits}))
for at in (56, 64, 72, 96):
    table_kept(SAME, f"the interrupt of secure EL1 at {at}", timers(_48=19, **{f"_{at}": 19}))
table_broken(SAME, "0x40 0x38 0x14", "one interrupt of all", timers(_48=20, _56=20, _64=20, _72=20, _96=20))
table_broken(SAME, "0x48 0x40 0x15", "two pairs, one in the other", timers(_56=20, _64=21, _72=21, _96=20))
table_broken(SAME, "0x48 0x38 0x14", "two pairs, one after the other", timers(_56=20, _64=21, _72=20, _96=21))
table_broken(SAME, "0x60 0x48 0x15", "two without an interrupt, and two of one", timers(_56=0, _64=0, _72=21, _96=21))
table_kept(SAME, "no timer at all", timers(_48=0, _56=0, _64=0, _72=0))

# ---- the GTDT: where its platform timers begin and end. The first one is at 0x68.
LOST = "PlatformTimerCut"
for revision, size in SIZES:
    for start in (0, 1, 36, 79, 80, 92, 95, 96, 97, 103, 104, 105, 255):
        name = f"platform timers from {start} on, Revision {revision}"
        one = gtdt(revision=revision, length=112, _88=number(1, 4), _92=number(start, 4), _104=b"\1\4\0\0\1\4\0\0")
        if revision < 2:
            table_kept(LOST, name, one)
        elif start < size:
            table_broken(LOST, f"0x5c 0x0 {start:#x}", name, one)
        elif start == 104:
            table_kept(LOST, name, one)
        elif start == 255:
            table_broken(LOST, "0xff 0x0 0x70", name, one)
        table_kept(LOST, f"none, from {start} on, Revision {revision}", changed(one, {88: 0}))
    for count in (1, 256, 2**24, 2**32 - 1):
        name, one = f"{count:#x} platform timers from 0 on, Revision {revision}", gtdt(revision=revision, length=112, _88=number(count, 4))
        if revision < 2:
            table_kept(LOST, name, one)
        else:
            table_broken(LOST, "0x5c", name, one)


def platform(data, count, start=104, revision=3):
    """A GTDT with these bytes behind its fields, and so many platform timers from this offset on."""
    return gtdt(data, revision=revision, _88=number(count, 4), _92=number(start, 4))


# of Revision 2 the fields end at 96
table_kept(LOST, "a watchdog from 96 on, Revision 2", platform(watchdog(), 1, 96, 2))
table_broken(LOST, "0x7c 0x0 0x7c", "a watchdog from 96 on, and none after it, Revision 2", platform(watchdog(), 2, 96, 2))
table_broken(LOST, "0x5c 0x0 0x60", "platform timers from 96 on, Revision 3", platform(watchdog(), 1, 96))
for count in (1, 2, 256, 2**32 - 1):
    table_broken(LOST, "0x68 0x0 0x68", f"{count} platform timers, of which none is there", platform(b"", count))
    for size in (1, 2):
        table_broken(LOST, f"0x68 0x0 {0x68 + size:#x}", f"{count} platform timers in {size} bytes", platform(b"\1\4"[:size], count))
    table_broken(LOST, "0x68 0x4 0x6b", f"{count} platform timers in 3 bytes", platform(b"\1\4\0", count))
for start in (105, 200, 0x10068, 2**32 - 2, 2**32 - 1):
    table_broken(LOST, f"{start:#x} 0x0 0x68", f"a platform timer from {start:#x} on", platform(b"", 1, start))
for start, size in ((0x68, 0), (0x69, 1), (0x70, 8), (0x83, 27)):
    table_kept(LOST, f"a watchdog {size} bytes after the fields", platform(bytes(size) + watchdog(), 1, start))
table_broken(LOST, "0x83 0x0 0x84", "a platform timer that begins with the last byte", platform(watchdog(), 1, 0x83))
table_broken(LOST, "0x84 0x0 0x84", "a platform timer that begins with the end", platform(watchdog(), 1, 0x84))
for kind in (0, 1):
    for said in (0, 1, 2, 3):
        table_broken(LOST, f"0x68 {said:#x} 0x84", f"length {said} of type {kind}", platform(changed(of_gtdt(kind, 28), {1: said}), 1))
    for said in (29, 30, 255, 256, 284, 0x1C00, 0xFFFF):
        longer = changed(of_gtdt(kind, 28), {1: said % 256, 2: said // 256})
        table_broken(LOST, f"0x68 {said:#x} 0x84", f"length {said} of type {kind}", platform(longer, 1))
        table_broken(LOST, f"0x84 {said:#x} 0xa0", f"length {said} of the second one, type {kind}", platform(watchdog() + longer, 2))
    for said in (4, 5, 27, 28):
        table_kept(LOST, f"length {said} of type {kind}, of 28 bytes", platform(changed(of_gtdt(kind, 28), {1: said}), 1))
for count in (2, 3, 255, 256, 2**32 - 1):
    table_broken(LOST, "0x84 0x0 0x84", f"{count} platform timers, of which one is there", platform(watchdog(), count))
    table_broken(LOST, "0x84 0x3 0x87", f"{count} platform timers, one and a head", platform(watchdog() + b"\1\3\0", count))
for count in (0, 1, 2, 3):
    table_kept(LOST, f"{count} of three platform timers", platform(watchdog() * 3, count))
    table_kept(LOST, f"{count} platform timers, and others behind them", platform(watchdog() * count + of_gtdt(2, 4) + b"\0\0\0", count))
for kind in (2, 3, 16, 127, 128, 254, 255):
    one = of_gtdt(kind, 4)
    table_broken(LOST, f"0x68 0x0 {kind:#x}", f"type {kind}", platform(one, 1))
    table_broken(LOST, f"0x84 0x0 {kind:#x}", f"type {kind} after a watchdog", platform(watchdog() + one, 2))
    table_broken(LOST, f"0x68 0x0 {kind:#x}", f"type {kind} before the cut", platform(one, 2))
    table_kept(LOST, f"type {kind} after the last one", platform(watchdog() + one, 1))
    table_broken(LOST, f"0x68 {0x400 + kind:#x} 0x6d", f"a byte before type {kind}", platform(bytes(1) + one, 1))
    table_broken(LOST, "0x68 0x3 0x6c", f"type {kind} of length 3", platform(changed(one, {1: 3}), 1))
    table_broken(LOST, "0x5c 0x0 0x67", f"type {kind} among the fields", platform(one, 1, 0x67))
table_broken(LOST, "0x68 0x0 0x5", "the first of two types", platform(of_gtdt(5, 4) + of_gtdt(2, 4), 2))
table_kept(LOST, "a block of frames and a watchdog", platform(timer_block(timer_frame()) + watchdog(), 2))

# ---- the GTDT: a block at 0x68, whose frames begin 20 bytes after it
BLOCK = "TimerBlock"
for length in range(4, 20):
    one = timer_block(timer_frame(), length=length)
    table_broken(BLOCK, f"0x68 0x14 {length:#x}", f"a block of {length} bytes", gtdt(one))
    table_broken(BLOCK, f"0x68 0x14 {length:#x}", f"a block of {length} bytes, without a frame", gtdt(timer_block(length=length)))
for count in (0, 9, 10, 16, 255, 256, 2**24 + 1, 2**31, 2**32 - 1):
    for length in (20, 60, 380):
        name, one = f"{count} frames in {length} bytes", timer_block(count=count, length=length)
        table_broken(BLOCK, f"0x68 0xc {count:#x}", name, gtdt(one))
        table_broken(BLOCK, f"0x68 0xc {count:#x}", f"{name}, from 0 on", gtdt(placed(one, _16=bytes(4))))
for first in (0, 1, 4, 16, 19):
    for count in (1, 8):
        one = timer_block(count=count, first=first, length=first + 40 * count)
        table_broken(BLOCK, f"0x68 0x10 {first:#x}", f"{count} frames from {first} on", gtdt(one))
for count, first, due in (
    (1, 20, 60), (2, 20, 100), (7, 20, 300), (8, 20, 340), (1, 21, 61), (1, 24, 64), (8, 100, 420), (1, 0x1000, 0x1028),
):
    table_kept(BLOCK, f"{count} frames from {first} on in {due} bytes", gtdt(timer_block(count=count, first=first, length=due)))
    for length in sorted({20, 59, 60, due - 40, due - 1, due + 1, due + 40, due + 256} - {due} - {*range(20)}):
        name, one = f"{count} frames from {first} on in {length} bytes", timer_block(count=count, first=first, length=length)
        table_broken(BLOCK, f"0x68 {due:#x} {length:#x}", name, gtdt(one))
for count, first, due in (
    (8, 2**32 - 1, 0x10000013F), (1, 2**32 - 1, 0x100000027), (1, 2**32 - 40, 0x100000000), (1, 2**24 + 20, 0x100003C),
):
    one = placed(timer_block(count=count, length=60), _16=number(first, 4))
    table_broken(BLOCK, f"0x68 {due:#x} 0x3c", f"{count} frames from {first:#x} on", gtdt(one))
for kind in (1, 2, 128):
    for length in (4, 12, 19, 20, 28, 60):
        table_kept(BLOCK, f"type {kind} of {length} bytes", gtdt(of_gtdt(kind, length)))
table_kept(BLOCK, "reserved bytes", gtdt(placed(timer_block(timer_frame()), _3=b"\1")))
table_broken(BLOCK, "0xa4 0xc 0x0", "the second block", gtdt(timer_block(timer_frame()), timer_block()))
table_broken(BLOCK, "0x68 0xc 0x0", "the first of two blocks", gtdt(timer_block(), timer_block(length=19)))
table_broken(BLOCK, "0x84 0xc 0x0", "a block after a watchdog", gtdt(watchdog(), timer_block()))
table_broken(BLOCK, "0x68 0xc 0x0", "a block before the cut", gtdt(timer_block(), b"\0"))
table_kept(BLOCK, "a block after the cut", gtdt(b"\0", timer_block()))
table_kept(BLOCK, "a block behind the last timer", platform(watchdog() + timer_block(), 1))
table_kept(BLOCK, "a block that is cut", gtdt(timer_block()[:-1]))
table_kept(BLOCK, "a block, which starts among the fields", gtdt(timer_block(), _92=number(103, 4)))
table_kept(BLOCK, "a block of Revision 1", gtdt(timer_block(), revision=1))
table_broken(BLOCK, "0x60 0xc 0x0", "a block of Revision 2", gtdt(timer_block(), revision=2))

# ---- the GTDT: frames, the first at 0x7C and the second at 0xA4
FRAME, SAME_FRAME = "TimerFrame", "SameFrame"
for frame_number in range(256):
    if frame_number < 8:
        table_kept(FRAME, f"frame {frame_number}", gtdt(timer_block(timer_frame(frame_number))))
    elif frame_number < 17 or frame_number in (127, 128, 254, 255):
        for flags in (0, 1):
            name = f"frame {frame_number}, flags {flags}"
            table_broken(FRAME, f"0x7c 0x0 {frame_number:#x}", name, gtdt(timer_block(timer_frame(frame_number, 0, 0, 0, 0, flags))))
for flags in (0, 2, 4, 0x80, 0x100, 2**31, 2**32 - 2):
    table_broken(FRAME, "0x7c 0x4", f"no address, flags {flags:#x}", gtdt(timer_block(timer_frame(base=0, flags=flags))))
    table_broken(FRAME, "0x7c 0x14", f"no interrupt, flags {flags:#x}", gtdt(timer_block(timer_frame(gsiv=0, flags=flags))))
    table_broken(FRAME, "0x7c 0x4", f"neither, flags {flags:#x}", gtdt(timer_block(timer_frame(base=0, gsiv=0, flags=flags))))
    table_kept(FRAME, f"no address but one, and no virtual interrupt, flags {flags:#x}", gtdt(timer_block(timer_frame(flags=flags))))
for flags in (1, 3, 0x101, 2**32 - 1):
    table_kept(FRAME, f"neither address nor interrupt, flags {flags:#x}", gtdt(timer_block(timer_frame(base=0, gsiv=0, flags=flags))))
for base in (1, 0xFF, 0x100, 2**32, 2**56, 2**63, TOP - 1):
    table_kept(FRAME, f"a frame at {base:#x}", gtdt(timer_block(timer_frame(base=base))))
for gsiv in (1, 0x100, 2**24, 2**31):
    table_kept(FRAME, f"interrupt {gsiv:#x}", gtdt(timer_block(timer_frame(gsiv=gsiv))))
EMPTY_FRAME = timer_frame(8, 0, 0, 0)
for name, numbers, block in (
    ("the second frame", "0xa4 0x0 0x8", timer_block(timer_frame(), EMPTY_FRAME)),
    ("the second frame, without an address", "0xa4 0x4 0x0", timer_block(timer_frame(), timer_frame(1, 0))),
    ("the last of eight frames", "0x194 0x14 0x0", timer_block(*[timer_frame()] * 7, timer_frame(gsiv=0))),
    ("the first of two frames", "0x7c 0x14 0x0", timer_block(timer_frame(gsiv=0), EMPTY_FRAME)),
    ("a frame from 24 on", "0x80 0x0 0x8", timer_block(EMPTY_FRAME, first=24)),
    ("a frame from 300 on", "0x194 0x0 0x8", timer_block(EMPTY_FRAME, first=300)),
):
    table_broken(FRAME, numbers, name, gtdt(block))
for name, block in (
    ("a block of 19 bytes", timer_block(length=19)), ("a block without frames", timer_block(EMPTY_FRAME, count=0)),
    ("a block of nine frames", timer_block(*[EMPTY_FRAME] * 9)),
    ("a block of which the frames begin in its fields", timer_block(EMPTY_FRAME, first=19)),
    ("a block that is too long", timer_block(EMPTY_FRAME, length=61)), ("a block that is too short", timer_block(EMPTY_FRAME, length=59)),
    ("a block with bytes before its frame", timer_block(timer_frame(), first=60)),
    ("a platform timer of type 1", of_gtdt(1, 60, _12=b"\1\0\0\0\24")), ("a platform timer of type 2", of_gtdt(2, 60, _12=b"\1\0\0\0\24")),
):
    table_kept(FRAME, name, gtdt(block))
table_broken(FRAME, "0xb8 0x0 0x8", "a frame of the second block", gtdt(timer_block(timer_frame()), timer_block(EMPTY_FRAME)))
OF_NINE = timer_block(EMPTY_FRAME, count=9)
table_broken(FRAME, "0xb8 0x0 0x8", "a frame after a block that is not full", gtdt(OF_NINE, timer_block(EMPTY_FRAME)))
table_kept(FRAME, "a block after the cut", gtdt(b"\0", timer_block(EMPTY_FRAME)))
table_kept(FRAME, "a block of Revision 1", gtdt(timer_block(EMPTY_FRAME), revision=1))
table_broken(FRAME, "0x74 0x0 0x8", "a frame of Revision 2", gtdt(timer_block(EMPTY_FRAME), revision=2))


def block_of(*frame_numbers, **fields):
    """A block of frames with these numbers."""
    return timer_block(*map(timer_frame, frame_numbers), **fields)


for frame_numbers, numbers in (
    ((0, 0), "0xa4 0x7c"), ((7, 7), "0xa4 0x7c 0x7"), ((255, 255), "0xa4 0x7c 0xff"), ((1, 2, 1), "0xcc 0x7c 0x1"),
    ((1, 2, 2), "0xcc 0xa4 0x2"), ((3, 3, 3), "0xa4 0x7c 0x3"), ((1, 2, 2, 1), "0xcc 0xa4 0x2"), ((1, 2, 1, 2), "0xcc 0x7c 0x1"),
    ((0, 1, 2, 3, 4, 5, 6, 6), "0x194 0x16c 0x6"), ((0, 1, 2, 3, 4, 5, 6, 0), "0x194 0x7c"),
):
    table_broken(SAME_FRAME, numbers, f"frames {frame_numbers}", gtdt(block_of(*frame_numbers)))
for frame_numbers in ((0,), (0, 1), (1, 0), (0, 1, 2, 3, 4, 5, 6, 7), (0, 128), (1, 255)):
    table_kept(SAME_FRAME, f"frames {frame_numbers}", gtdt(block_of(*frame_numbers)))
table_kept(SAME_FRAME, "one number in two blocks", gtdt(block_of(3), block_of(3)))
table_kept(SAME_FRAME, "one number in three blocks of two", gtdt(block_of(3, 4), block_of(4, 3), block_of(3, 4)))
table_broken(SAME_FRAME, "0xe0 0xb8 0x4", "the second block", gtdt(block_of(3), block_of(4, 4)))
table_broken(SAME_FRAME, "0xa4 0x7c 0x5", "two blocks", gtdt(block_of(5, 5), block_of(4, 4)))
table_broken(SAME_FRAME, "0xb0 0x88 0x5", "frames from 32 on", gtdt(block_of(5, 5, first=32)))
SECURE = timer_block(timer_frame(2, flags=1), timer_frame(2, 0, 0, 0))
table_broken(SAME_FRAME, "0xa4 0x7c 0x2", "a secure frame", gtdt(SECURE))
for name, fields in (
    ("too many frames", {"count": 9}), ("no frame", {"count": 0}), ("one frame", {"count": 1}), ("a byte more", {"length": 101}),
):
    table_kept(SAME_FRAME, name, gtdt(block_of(5, 5, **fields)))

# ---- the GTDT: a watchdog at 0x68
WATCHDOG = "Watchdog"
for length in (*range(4, 28), 29, 32, 60, 255, 256, 284, 0x1C00):
    for refresh in (0, 0x20000):
        one = watchdog(refresh, length=length)
        table_broken(WATCHDOG, f"0x68 0x1c {length:#x}", f"a watchdog of {length} bytes, refreshed at {refresh:#x}", gtdt(one))
table_broken(WATCHDOG, "0x68 0x4", "no refresh frame", gtdt(watchdog(0)))
table_broken(WATCHDOG, "0x68 0xc", "no control frame", gtdt(watchdog(1, 0)))
table_broken(WATCHDOG, "0x68 0x4", "neither frame", gtdt(watchdog(0, 0)))
FILLED = placed(watchdog(0, TOP - 1, 2**32 - 1), _3=b"\xff", _24=b"\xff" * 4)
table_broken(WATCHDOG, "0x68 0x4", "no refresh frame, and all bytes beside it", gtdt(FILLED))
for base in (1, 0x100, 2**32, 2**56, 2**63, TOP - 1):
    table_kept(WATCHDOG, f"frames at {base:#x}", gtdt(watchdog(base, base, 0)))
for kind in (0, 2, 255):
    for length in (4, 27, 28, 29):
        table_kept(WATCHDOG, f"type {kind} of {length} bytes", gtdt(of_gtdt(kind, length)))
table_broken(WATCHDOG, "0x84 0xc", "the second watchdog", gtdt(watchdog(), watchdog(1, 0)))
table_broken(WATCHDOG, "0x68 0xc", "the first of two", gtdt(watchdog(1, 0), watchdog(0)))
table_broken(WATCHDOG, "0xa4 0x4", "a watchdog after a block", gtdt(timer_block(timer_frame()), watchdog(0)))
table_broken(WATCHDOG, "0x68 0x1c 0x1b", "a watchdog before the cut", gtdt(watchdog(length=27), b"\0"))
table_kept(WATCHDOG, "a watchdog after the cut", gtdt(b"\0", watchdog(0)))
table_kept(WATCHDOG, "a watchdog that is cut", gtdt(watchdog(0)[:-1]))
table_kept(WATCHDOG, "a watchdog behind the last timer", platform(watchdog() + watchdog(0), 1))
table_kept(WATCHDOG, "a watchdog of Revision 1", gtdt(watchdog(0), revision=1))
table_broken(WATCHDOG, "0x60 0x4", "a watchdog of Revision 2", gtdt(watchdog(0), revision=2))

# ---- the GTDT: the interrupts of frames and watchdogs
SPI = "TimerNoSpi"
NO_SPIS = (1, 15, 16, 31, 1020, 1023, 1024, 1056, 1119, 4095, 5120, 5121, 8192, 65536 + 33, 0x1000021, 2**31, 2**32 - 1)
SPIS = (0, 32, 33, 255, 256, 1018, 1019, 4096, 4097, 5118, 5119)
for gsiv in NO_SPIS:
    for flags in (0, 1):
        one = timer_block(timer_frame(gsiv=gsiv, flags=flags))
        table_broken(SPI, f"0x7c 0x14 {gsiv:#x}", f"interrupt {gsiv} of a frame, flags {flags}", gtdt(one), WITH_GICD)
        one = timer_block(timer_frame(virtual_gsiv=gsiv, flags=flags))
        table_broken(SPI, f"0x7c 0x1c {gsiv:#x}", f"virtual interrupt {gsiv} of a frame, flags {flags}", gtdt(one), WITH_GICD)
    table_broken(SPI, f"0x7c 0x14 {gsiv:#x}", f"both interrupts {gsiv}", gtdt(timer_block(timer_frame(0, 1, 0, gsiv, gsiv))), WITH_GICD)
    table_broken(SPI, f"0x68 0x14 {gsiv:#x}", f"interrupt {gsiv} of a watchdog", gtdt(watchdog(gsiv=gsiv)), WITH_GICD)
    table_kept(SPI, f"interrupt {gsiv} and no MADT", gtdt(timer_block(timer_frame(gsiv=gsiv)), watchdog(gsiv=gsiv)))
for gsiv in SPIS:
    table_kept(SPI, f"interrupt {gsiv}", gtdt(timer_block(timer_frame(0, 1, 0, gsiv, gsiv)), watchdog(gsiv=gsiv)), WITH_GICD)
by_madt(SPI, "0x7c 0x14 0x1f", gtdt(timer_block(timer_frame(gsiv=31))))
for name, numbers, *structures in (
    ("the second frame", "0xa4 0x14 0x1f", timer_block(timer_frame(), timer_frame(gsiv=31))),
    ("a frame from 24 on", "0x80 0x1c 0x1f", timer_block(timer_frame(virtual_gsiv=31), first=24)),
    ("the second block", "0xb8 0x14 0x1f", timer_block(timer_frame()), timer_block(timer_frame(gsiv=31))),
    ("the second watchdog", "0x84 0x14 0x1f", watchdog(), watchdog(gsiv=31)),
    ("a watchdog before a frame", "0x68 0x14 0x1e", watchdog(gsiv=30), timer_block(timer_frame(gsiv=31))),
    ("a frame before a watchdog", "0x7c 0x14 0x1f", timer_block(timer_frame(gsiv=31)), watchdog(gsiv=30)),
    ("a frame with the number 8", "0x7c 0x14 0x1f", timer_block(timer_frame(8, 0, 0, 31))),
    ("a watchdog after one without a frame", "0x84 0x14 0x1f", watchdog(0, gsiv=30), watchdog(gsiv=31)),
):
    table_broken(SPI, numbers, name, gtdt(*structures), WITH_GICD)
for name, *structures in (
    ("a block that is too long", timer_block(timer_frame(gsiv=31), length=61)),
    ("a block of count 0", timer_block(timer_frame(gsiv=31), count=0)),
    ("a watchdog of 29 bytes", watchdog(gsiv=31, length=29)), ("a watchdog of 27 bytes", watchdog(gsiv=31, length=27)),
    ("a watchdog without a refresh frame", watchdog(0, gsiv=31)), ("a watchdog without a control frame", watchdog(1, 0, 31)),
    ("type 2 of 28 bytes", of_gtdt(2, 28, _20=b"\37")), ("flags of a frame", timer_block(placed(timer_frame(), _24=b"\37", _32=b"\37"))),
    ("flags of a watchdog", placed(watchdog(), _24=b"\37")),
):
    table_kept(SPI, name, gtdt(*structures), WITH_GICD)

# ---- the GTDT: one address in two ranges of 1000h bytes. The number of a block at 0x68 is at 0x6C, and of its frames those of the first
# are at 0x80 and 0x88 and those of the second at 0xA8 and 0xB0; of a watchdog at 0x68 they are at 0x6C and 0x74, and of one after it at
# 0x88 and 0x90.
SHARED = "TimerOverlap"


def two(base, *bases):
    """A block at this address with a frame for each two others."""
    frames = [timer_frame(place // 2, *bases[place : place + 2]) for place in range(0, len(bases), 2)]
    return gtdt(timer_block(*frames, base=base))


for name, numbers, made in (
    ("a block and its frame", "0x6c 0x80 0x1000", two(0x1000, 0x1000, 0)),
    ("a block and the EL0 frame", "0x6c 0x88 0x1000", two(0x1000, 0, 0x1000)),
    ("a frame and its EL0 frame", "0x80 0x88 0x5000", two(0, 0x5000, 0x5000)),
    ("two frames", "0x80 0xa8 0x5000", two(0, 0x5000, 0, 0x5000, 0)),
    ("two EL0 frames", "0x88 0xb0 0x5000", two(0, 0, 0x5000, 0, 0x5000)),
    ("a frame and the EL0 frame of another", "0x80 0xb0 0x5000", two(0, 0x5000, 0, 0, 0x5000)),
    ("the last byte", "0x6c 0x80 0x1fff", two(0x1000, 0x1FFF, 0)),
    ("the last byte, the later one first", "0x80 0x6c 0x1fff", two(0x1FFF, 0x1000, 0)),
    ("odd addresses", "0x80 0x6c 0x1235", two(0x1235, 0x1234, 0)), ("the first address", "0x6c 0x80 0x1", two(1, 1, 0)),
    ("three", "0x6c 0x80 0x1000", two(0x1000, 0x1000, 0x1000)),
    ("two pairs, the later one less", "0xa8 0xb0 0x1000", two(0x5000, 0x5000, 0, 0x1000, 0x1000)),
    ("two pairs, the one less by its second", "0x80 0x88 0x5800", two(0, 0x5000, 0x5800, 0x6000, 0x6000)),
    ("one that two others begin in", "0x80 0x88 0x1800", two(0x2000, 0x1000, 0x1800)),
    ("up to the last address", f"0x6c 0x80 {TOP - 0x1000:#x}", two(TOP - 0x1000, TOP - 0x1000, 0)),
    ("past the last address", f"0x6c 0x80 {TOP - 2:#x}", two(TOP - 2, TOP - 2, 0)),
    ("at the last but one", f"0x6c 0x80 {TOP - 2:#x}", two(TOP - 0x1000, TOP - 2, 0)),
    ("in part past the last address", f"0x80 0x6c {TOP - 0x800:#x}", two(TOP - 0x800, TOP - 0xFFF, 0)),
    ("two frames of a watchdog", "0x6c 0x74 0x1000", gtdt(watchdog(0x1000, 0x1000))),
    ("two refresh frames", "0x6c 0x88 0x1000", gtdt(watchdog(0x1000, 0x5000), watchdog(0x1000, 0x7000))),
    ("two control frames", "0x74 0x90 0x5fff", gtdt(watchdog(0x1000, 0x5000), watchdog(0x3000, 0x5FFF))),
    ("a control frame and the refresh frame after it", "0x88 0x74 0x5000", gtdt(watchdog(0x1000, 0x5000), watchdog(0x4001, 0x7000))),
    ("a block and a watchdog", "0x6c 0xb0 0x1000", gtdt(timer_block(timer_frame(), base=0x1000), watchdog(0x5000, 0x1000))),
    ("a watchdog and a frame", "0x74 0x9c 0x5000", gtdt(watchdog(0x1000, 0x5000), timer_block(timer_frame(0, 0x5000)))),
    ("two blocks", "0x6c 0xa8 0x1000", gtdt(timer_block(timer_frame(), base=0x1000), timer_block(timer_frame(0, 0x20000), base=0x1000))),
    ("frames of two blocks", "0x80 0xbc 0x10000", gtdt(timer_block(timer_frame()), timer_block(timer_frame()))),
    ("frames from 24 on", "0x84 0x8c 0x5000", gtdt(timer_block(timer_frame(0, 0x5000, 0x5000), first=24))),
    ("a secure frame", "0x6c 0x80 0x1000", gtdt(timer_block(timer_frame(0, 0x1000, 0, 0, 0, 1), base=0x1000))),
    ("a frame with the number 8", "0x6c 0x80 0x1000", gtdt(timer_block(timer_frame(8, 0x1000), base=0x1000))),
    ("a block of Revision 2", "0x64 0x78 0x1000", gtdt(timer_block(timer_frame(0, 0x1000), base=0x1000), revision=2)),
):
    table_broken(SHARED, numbers, name, made)
for name, made in (
    ("a block alone", two(0x1000, 0, 0)), ("ranges that touch", two(0x2000, 0x1000, 0x3000)),
    ("odd addresses that touch", two(0x1234, 0x2234, 0x234)),
    ("all at 0", two(0, 0, 0, 0, 0)), ("all at the last address", two(TOP - 1, TOP - 1, TOP - 1, TOP - 1, TOP - 1)),
    ("one that holds the last address, and one at it", two(TOP - 0x1000, TOP - 1, 0)),
    ("one past the last address, and one at 1", two(TOP - 2, 1, 0)),
    ("4 GiB apart", two(0x1000, 0x100001000, 0)), ("ranges that touch the last one", two(TOP - 0x1000, TOP - 0x2000, 0)),
    ("a watchdog", gtdt(watchdog())), ("frames of a watchdog that touch", gtdt(watchdog(0x1000, 0x2000))),
    ("a watchdog of 29 bytes", gtdt(watchdog(0x1000, 0x1000, length=29))),
    ("a watchdog of 27 bytes", gtdt(watchdog(0x1000, 0x1000, length=27))),
    ("two watchdogs, one without a refresh frame", gtdt(watchdog(0x1000, 0x5000), watchdog(0, 0x5000))),
    ("a block that is too long", gtdt(timer_block(timer_frame(0, 0x1000), base=0x1000, length=61))),
    ("a block without frames", gtdt(timer_block(base=0x1000), timer_block(base=0x1000))),
    ("a block of 19 bytes and a watchdog", gtdt(timer_block(base=0x20000, length=19), watchdog())),
    ("platform timers of type 2", gtdt(of_gtdt(2, 28, _4=b"\1\1\1\1\1\1\1\1\1\1\1\1\1\1\1\1"))),
    ("a second watchdog behind the last timer", platform(watchdog() * 2, 1)),
    ("two watchdogs of Revision 1", gtdt(watchdog(), watchdog(), revision=1)),
    ("the addresses of the counters", gtdt(watchdog(0x1000, 0x5000), _36=number(0x1000, 8), _80=number(0x5000, 8))),
):
    table_kept(SHARED, name, made)

# ---- which table is read. Of each rule the numbers of one that is broken, the table, and others that it needs.
WRONG_PROXIMITY, WRONG_DOMAINS = hmat(proximity(1, 1)), hmat(speeds([1], [1]))
for rule, numbers, wrong, *beside in (
    (HEADER, "0x8 0x0 0x3", hmat(revision=3)), (CUT, "0x28 0x0 0x29", hmat(b"\1")), (SHAPE, "0x28 0x28 0x8", hmat(of_hmat(0, 8))),
    (KIND, "0x28 0x9 0x6", hmat(speeds(kind=6))), (LEVEL, "0x28 0x8 0x4", hmat(speeds(flags=4))), (UNIT, "0x28 0x18", hmat(speeds(unit=0))),
    (CELL, "0x50 0x0 0x2", hmat(speeds(cells=[2], unit=2**31))), (TWICE, "0x4c 0x48 0x5", hmat(speeds([5, 5], []))),
    (NEAR, "0x28 0xc 0x1", WRONG_PROXIMITY, SRAT), (NOWHERE, "0x48 0x0 0x1", WRONG_DOMAINS, SRAT),
    (CACHE_AT, "0x28 0x8 0x1", hmat(side_cache(1)), SRAT), (CACHES, "0x28 0x18 0x4", hmat(side_cache(0, 4))),
    ("GtdtLength", "0x4 0x68 0x67", gtdt(length=103)), (ABSENT, "0x38", timers(_56=0, _64=0)),
    (PPI, "0x30 0x0 0x21", timers(_48=33), WITH_GICD),
    (SAME, "0x40 0x38 0x14", timers(_56=20, _64=20)), (LOST, "0x5c", platform(b"", 1, 0)), (BLOCK, "0x68 0xc", gtdt(timer_block())),
    (FRAME, "0x7c 0x0 0x8", gtdt(timer_block(timer_frame(8)))), (SAME_FRAME, "0xa4 0x7c 0x5", gtdt(block_of(5, 5))),
    (WATCHDOG, "0x68 0x4", gtdt(watchdog(0))), (SPI, "0x68 0x14 0x1f", gtdt(watchdog(gsiv=31)), WITH_GICD),
    (SHARED, "0x6c 0x74 0x1000", gtdt(watchdog(0x1000, 0x1000))),
):
    right = {b"HMAT": hmat(side_cache(OF_MEMORY)), b"GTDT": gtdt(watchdog())}[wrong[:4]]
    which_table(rule, numbers, wrong, right, beside, MEMORY_AND_TIMERS)

# ---- all lines, in their order, of sets that break several rules
whole("an HMAT with an SRAT", sound(hmat(proximity(), speeds(), side_cache()), srat(memory(0, 1))))
whole("an HMAT with a port of no memory", sound(hmat(proximity(5, 6)), srat(device_domain(5, 5), device_domain(6, 6))))
whole("a GTDT", sound(gtdt(timer_block(timer_frame(), base=0x1000), watchdog())))
whole("a GTDT of a GIC", sound(revised(madt(gicd(), gicc(0)), 6), gtdt(timer_block(timer_frame()), watchdog())))
whole("a GICC without a GTDT", image_of(sound_fadt(), revised(madt(gicd(), gicc(0)), 6)), "NoGtdt")
whole(
    "an HMAT that is wrong in all, and an SRAT",
    sound(
        hmat(
            proximity(1, 1),  # 0x28
            speeds((2, 2), (0,), (2, 1), 2**31, kind=7, flags=5),  # 0x50
            speeds((), (), unit=0),  # 0x80
            side_cache(1, 0x10),  # 0xA0
            side_cache(handles=1, length=32),  # 0xC0
            bytes(3),  # 0xE0
            revision=0,
        ),
        srat(memory(0, 1)),
    ),
    "HmatHeader 0x8", "HmatCut 0xe0 0x0 0xe3", "HmatLength 0xc0 0x22 0x20", "HmatDataType 0x50 0x9 0x7", "HmatHierarchy 0x50 0x8 0x5",
    "HmatUnit 0x80 0x18", "HmatTooLarge 0x7c 0x0 0x2", "HmatSameDomain 0x74 0x70 0x2", "HmatProximity 0x28 0xc 0x1",
    "HmatDomainNowhere 0x70 0x0 0x2", "HmatCacheNowhere 0xa0 0x8 0x1", "HmatCache 0xa0 0x18 0x10",
)
whole("an HMAT that ends before its structures begin", sound(blank_table(b"HMAT", 39, 3)), "HmatHeader 0x4 0x28 0x27", "HmatAlone")
whole(
    "a GTDT that is wrong in all, and a GIC",
    sound(
        revised(madt(gicd(), gicc(0)), 6),
        gtdt(
            timer_block(timer_frame(9, gsiv=20), timer_frame(9)),  # 0x68
            timer_block(),  # 0xCC
            watchdog(0),  # 0xE0
            _48=number(40, 4), _56=bytes(4), _64=bytes(4), _72=number(20, 4), _96=number(20, 4), _88=number(4, 4),
        ),
    ),
    "NoTimer 0x38", "TimerNoPpi 0x30 0x0 0x28", "SameTimer 0x60 0x48 0x14", "PlatformTimerCut 0xfc 0x0 0xfc", "TimerBlock 0xcc 0xc",
    "TimerFrame 0x7c 0x0 0x9", "SameFrame 0xa4 0x7c 0x9", "Watchdog 0xe0 0x4", "TimerNoSpi 0x7c 0x14 0x14",
    "TimerOverlap 0x80 0xa8 0x10000",
)
whole(
    "a GTDT that ends before its last field does", sound(revised(madt(gicd(), gicc(0)), 6), gtdt(length=103, **FULLY_WRONG)),
    "GtdtLength 0x4 0x68 0x67",
)
whole(
    "two of each, the first of which are valid", sound(hmat(), gtdt(), srat(), hmat(b"\1"), gtdt(length=103)),
    "SecondOther 0x4 0x1 0x6000",
)
whole(
    "each table alone, and none that sums to 0", sound(changed(hmat(b"\1"), {9: 0}), changed(gtdt(watchdog(0)), {9: 0})),
    "HmatCut 0x28 0x0 0x29", "HmatAlone", "Watchdog 0x68 0x4", faults=("no 3 TableSum 0x1 0x3000",),
)
