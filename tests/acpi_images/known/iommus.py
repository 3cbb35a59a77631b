"""Sets of tables with a DMAR or an IVRS, each with one rule on these and the line that `lint` has to write of it, or None where the set
just keeps the rule; and at the end sets with all their lines. Each line is worked out by hand from the rules in docs/TABLES.md, and none
is taken from a program. Numbers of 0 at the end of a line are left out, and lines of other rules are not asked for."""

from __future__ import annotations

from functools import partial
from itertools import product

from . import further
from ..tables import *
from ..text import TOP
from .memory_and_timers import ENTRIES, OF_ALL, OTHERS, SRAT, blank_table
from .one_table import which_table

IOMMUS, WHOLE_IOMMUS = [], []
broken = partial(further.broken, sets=IOMMUS)
kept = partial(further.kept, sets=IOMMUS)
whole = partial(further.whole, sets=WHOLE_IOMMUS)


def table_broken(rule, numbers, name, *tables):
    """A FADT at 0x2000 and these tables from 0x3000 on, which break a rule."""
    broken(rule, numbers, name, listed(*tables))


def table_kept(rule, name, *tables):
    kept(rule, name, listed(*tables))


def dmar_broken(rule, numbers, name, *structures, **fields):
    """A FADT, and a DMAR of these structures."""
    table_broken(rule, numbers, name, dmar(*structures, **fields))


def dmar_kept(rule, name, *structures, **fields):
    table_kept(rule, name, dmar(*structures, **fields))


# ---- the DMAR: its Length and the width of addresses. Structures begin at 0x30.
WIDTH = "DmarWidth"
OF_DMAR = (
    "DmarCut", "DmarShort", "NoDrhd", "ScopeCut", "ScopeType", "DrhdAddress", "DrhdOverlap", "SecondIncludeAll", "IncludeAllNotLast",
    "RmrrRange", "RmrrNoDevice", "RhsaNowhere", "RhsaDomain", "SameRhsa", "AnddName", "AnddNowhere", "IoApicUnmapped", "SameScope",
)
for length in range(36, 48):
    name = f"a DMAR of {length} bytes"
    table_broken(WIDTH, f"0x4 0x30 {length:#x}", name, blank_table(b"DMAR", length, 1))
    table_broken(WIDTH, f"0x4 0x30 {length:#x}", f"{name} of FFh", table(b"DMAR", b"\xff" * (length - 36)))
    table_broken(WIDTH, f"0x4 0x30 {length:#x}", f"{name}, of a width of 48", table(b"DMAR", dmar()[36:length]))
    for rule in OF_DMAR:
        table_kept(rule, name, blank_table(b"DMAR", length, 1), srat(), madt(io_apic(0xFEC00000, 0)))
        table_kept(rule, f"{name} of FFh", table(b"DMAR", b"\xff" * (length - 36)), srat(), madt(io_apic(0xFEC00000, 0)))
for width in (*range(16), 31, 32, 38, 47, *range(60, 70), 127, 128, 139, 255):
    if 11 <= width <= 63:
        dmar_kept(WIDTH, f"a width of {width}, less one", width=width)
    else:
        dmar_broken(WIDTH, f"0x24 0x0 {width:#x}", f"a width of {width}, less one", width=width)
for revision in (0, 2, 255):
    dmar_broken(WIDTH, "0x24 0x0 0xa", f"a width of 10, Revision {revision}", width=10, revision=revision)
    dmar_kept(WIDTH, f"a width of 11, Revision {revision}", width=11, revision=revision)
table_kept(WIDTH, "flags and reserved bytes", table(b"DMAR", bytes([38]) + b"\xff" * 11))
dmar_broken(WIDTH, "0x24", "a width of 0 with structures", drhd(), rmrr(), width=0)
dmar_broken(WIDTH, "0x24 0x0 0x40", "a width of 64 and a byte after the table's fields", b"\1", width=64)

# ---- the DMAR: where its structures end. A DRHD of 16 bytes ends at 0x40.
CUT = "DmarCut"
for count in range(1, 4):
    dmar_broken(CUT, f"0x30 0x0 {0x30 + count:#x}", f"{count} bytes", bytes(count))
    dmar_broken(CUT, f"0x30 0x0 {0x30 + count:#x}", f"{count} bytes of FFh", b"\xff" * count)
    dmar_broken(CUT, f"0x40 0x0 {0x40 + count:#x}", f"{count} bytes after a structure", drhd(), b"\4" * count)
for kind in (0, 1, 2, 3, 4, 5, 6, 7, 0x100, 0xFFFF):
    for said in range(4):
        dmar_broken(CUT, f"0x30 {said:#x} 0x34", f"a head of type {kind:#x} and length {said}", of_dmar(kind, 4, _2=bytes([said, 0])))
        dmar_broken(CUT, f"0x30 {said:#x} 0x48", f"24 bytes of type {kind:#x} and length {said}", of_dmar(kind, 24, _2=bytes([said, 0])))
    for said in (25, 26, 255, 256, 280, 0x1800, 0xFFFF):
        dmar_broken(CUT, f"0x30 {said:#x} 0x48", f"24 bytes of type {kind:#x} and length {said}", of_dmar(kind, 24, _2=number(said, 2)))
    for length in (4, 5, 8, 9, 255, 256, 257, 0xFFFF):
        dmar_kept(CUT, f"{length} bytes of type {kind:#x}", of_dmar(kind, length))
    dmar_broken(CUT, "0x30 0x5 0x34", f"4 of 5 bytes of type {kind:#x}", of_dmar(kind, 5)[:4])
dmar_kept(CUT, "no structure")
dmar_kept(CUT, "structures of each type", drhd(), rmrr(), atsr(), rhsa(), andd(), satc(), sidp(), of_dmar(7, 4), of_dmar(0xFFFF, 100))
dmar_kept(
    CUT, "structures that are short, and scopes that are cut", of_dmar(0, 4), of_dmar(1, 23), drhd(b"\0"), rmrr(bytes(8)), andd(1, b"A"),
)
dmar_broken(CUT, "0x43 0x11 0x53", "16 bytes of the last structure", of_dmar(9, 19), of_dmar(0, 17)[:16])
dmar_broken(CUT, "0x30 0x0 0x50", "a structure of length 0 before others", bytes(4), drhd(), of_dmar(7, 12))
dmar_broken(CUT, "0x50 0x3 0x68", "the third of three", drhd(), of_dmar(7, 16), of_dmar(1, 24, _2=b"\3"))
table_broken(CUT, "0x30 0x11 0x40", "a byte behind the table", dmar(of_dmar(0, 17)[:16]) + bytes(64))
for fields in ({"width": 0}, {"flags": 255}, {"revision": 0}, {"revision": 255}):
    dmar_broken(CUT, "0x30 0x0 0x31", f"a byte, {fields}", b"\1", **fields)

# ---- the DMAR: the lengths of its structures
SHORT = "DmarShort"
LEAST = {DRHD: 16, RMRR: 24, ATSR: 8, RHSA: 20, ANDD: 9, SATC: 8, SIDP: 8}
for kind, least in LEAST.items():
    for length in range(4, least):
        dmar_broken(SHORT, f"0x30 {least:#x} {length:#x}", f"{length} bytes of type {kind}", of_dmar(kind, length))
        dmar_broken(SHORT, f"0x30 {least:#x} {length:#x}", f"{length} bytes FFh of type {kind}", of_dmar(kind, length, _4=b"\xff" * 24))
    for length in (least, least + 1, least + 8, 255, 256, 260, 0xFFFF):
        dmar_kept(SHORT, f"{length} bytes of type {kind}", of_dmar(kind, length))
    dmar_broken(SHORT, f"0x40 {least:#x} {least - 1:#x}", f"the second structure, of type {kind}", drhd(), of_dmar(kind, least - 1))
    dmar_broken(SHORT, f"0x30 {least:#x} {least - 1:#x}", f"the first of two of type {kind}", *[of_dmar(kind, least - 1)] * 2)
    dmar_broken(SHORT, f"0x30 {least:#x} 0x4", f"4 bytes of type {kind} before the cut", of_dmar(kind, 4), b"\1")
    dmar_kept(SHORT, f"4 bytes of type {kind} after the cut", bytes(4), of_dmar(kind, 4))
    dmar_kept(SHORT, f"type {kind}, cut", of_dmar(kind, least)[: least - 1])
    dmar_kept(SHORT, f"4 bytes of type {kind + 0x100:#x}", of_dmar(kind + 0x100, 4))
for kind in (7, 8, 16, 0x80, 0xFF, 0xFFFF):
    for length in (4, 5, 8, 9):
        dmar_kept(SHORT, f"{length} bytes of type {kind:#x}", of_dmar(kind, length))
dmar_broken(SHORT, "0x30 0x18 0x17", "the least of two is not the first", of_dmar(1, 23), of_dmar(2, 4))
table_kept(SHORT, "a structure after the end of the table", dmar(drhd()) + of_dmar(0, 4))

# ---- the DMAR: where the scopes of a structure end. Those of a structure at 0x30 begin at its least length.
SCOPES = "ScopeCut"
HOLDERS = {DRHD: drhd, RMRR: rmrr, ATSR: atsr, SATC: satc, SIDP: sidp}
for kind, made in HOLDERS.items():
    first = 0x30 + LEAST[kind]
    of = f"in type {kind}"
    dmar_kept(SCOPES, f"no scope {of}", made())
    dmar_broken(SCOPES, f"{first:#x} 0x0 {first + 1:#x}", f"a byte {of}", made(b"\1"))
    for count, said in product(range(2, 8), (0, 1, 7, 8, 255)):
        dmar_broken(
            SCOPES, f"{first:#x} {said:#x} {first + count:#x}", f"{count} bytes of a scope of {said} {of}",
            made(bytes([1, said]) + bytes(count - 2)),
        )
    for said in range(8):
        one = changed(scope(), {1: said})
        dmar_broken(SCOPES, f"{first:#x} {said:#x} {first + 8:#x}", f"a scope of length {said} {of}", made(one))
        dmar_broken(SCOPES, f"{first + 8:#x} {said:#x} {first + 16:#x}", f"the second scope, of length {said} {of}", made(scope(), one))
        dmar_broken(SCOPES, f"{first:#x} {said:#x} {first + 16:#x}", f"a scope of length {said} before one {of}", made(one, scope()))
    for said in (9, 10, 16, 255):
        dmar_broken(SCOPES, f"{first:#x} {said:#x} {first + 8:#x}", f"a scope of length {said} {of}", made(changed(scope(), {1: said})))
    for length in (8, 9, 10, 11, 254, 255):
        dmar_kept(SCOPES, f"a scope of {length} bytes {of}", made(scope(length=length)))
        dmar_kept(SCOPES, f"a scope of {length} bytes, and another one, {of}", made(scope(length=length), scope(0xFF)))
        longer = changed(scope(length=length), {1: (length + 1) % 256})
        dmar_broken(
            SCOPES, f"{first:#x} {(length + 1) % 256:#x} {first + length:#x}", f"a scope a byte longer than {length} {of}", made(longer),
        )
    dmar_broken(SCOPES, f"{first + 8:#x} 0x0 {first + 9:#x}", f"a byte after a scope {of}", made(scope(), b"\0"))
    dmar_broken(
        SCOPES, f"{first:#x} 0x9 {first + 8:#x}", f"a scope that ends in the next structure {of}", made(changed(scope(), {1: 9})), drhd(),
    )
    dmar_broken(SCOPES, f"{first + 16:#x} 0x0 {first + 18:#x}", f"the second structure {of}", drhd(), made(bytes(2)))
    dmar_broken(SCOPES, f"{first:#x} 0x0 {first + 2:#x}", f"the first of two structures {of}", made(bytes(2)), made(bytes(2)))
    dmar_broken(SCOPES, f"{first:#x} 0x0 {first + 8:#x}", f"a structure before the cut {of}", made(bytes(8)), b"\1")
    dmar_kept(SCOPES, f"a structure after the cut {of}", bytes(4), made(bytes(8)))
    for length in (4, LEAST[kind] - 1):
        dmar_kept(SCOPES, f"{length} bytes {of}", of_dmar(kind, length, _4=b"\1" * 24))
    dmar_kept(SCOPES, f"the same {of} and 256 more", placed(made(bytes(8)), _1=b"\1"))
for name, one in (
    ("an RHSA", rhsa(length=28)), ("an ANDD", andd(1, b"\\A\0" + bytes(8))), ("type 7", of_dmar(7, 24)),
    ("type 5 of 256", of_dmar(0x105, 24)),
):
    dmar_kept(SCOPES, f"{name} has no scopes", one)
dmar_broken(
    SCOPES, "0x50 0x7 0x58", "the least offset is in a type of a higher number", satc(scope()), sidp(scope(), b"\1\7" + bytes(6)),
    drhd(b"\1"),
)

# ---- the DMAR: types, lengths and steps of scopes. That of an ATSR at 0x30 is at 0x38, and its steps from 0x3E on.
TYPE = "ScopeType"
for kind in (*range(10), 127, 128, 129, 255):
    if 1 <= kind <= 5:
        dmar_kept(TYPE, f"a scope of type {kind}", atsr(scope(kind, 1)))
    else:
        dmar_broken(TYPE, f"0x38 0x0 {kind:#x}", f"a scope of type {kind}", atsr(scope(kind, 1)))
for length in (*range(8, 20), 127, 128, 129, 253, 254, 255):
    if length % 2:
        dmar_broken(TYPE, f"0x38 0x1 {length:#x}", f"a scope of {length} bytes", atsr(scope(length=length)))
    else:
        dmar_kept(TYPE, f"a scope of {length} bytes", atsr(scope(length=length)))
for device in (0, 1, 15, 16, 30, 31, 32, 33, 63, 64, 96, 128, 255):
    if device <= 31:
        dmar_kept(TYPE, f"device {device}", atsr(scope(steps=[(device, 7)])))
    else:
        dmar_broken(TYPE, f"0x3e 0x0 {device:#x}", f"device {device}", atsr(scope(steps=[(device, 7)])))
for function in (0, 1, 6, 7, 8, 9, 15, 16, 128, 255):
    if function <= 7:
        dmar_kept(TYPE, f"function {function}", atsr(scope(steps=[(31, function)])))
    else:
        dmar_broken(TYPE, f"0x3e 0x1 {function:#x}", f"function {function}", atsr(scope(steps=[(31, function)])))
for kind, made in HOLDERS.items():
    first, of = 0x30 + LEAST[kind], f"in type {kind}"
    dmar_broken(TYPE, f"{first:#x}", f"type 0 {of}", made(scope(0)))
    dmar_broken(TYPE, f"{first:#x} 0x0 0x6", f"type 6 {of}", made(scope(6)))
    dmar_broken(TYPE, f"{first:#x} 0x1 0x9", f"9 bytes {of}", made(scope(length=9)))
    dmar_broken(TYPE, f"{first + 6:#x} 0x0 0x20", f"device 32 {of}", made(scope(steps=[(32, 0)])))
    dmar_broken(TYPE, f"{first + 6:#x} 0x1 0x8", f"function 8 {of}", made(scope(steps=[(0, 8)])))
    dmar_broken(TYPE, f"{first + 8:#x} 0x0 0x21", f"the second step {of}", made(scope(steps=[(31, 7), (33, 9)])))
    dmar_broken(TYPE, f"{first + 8 + 6:#x} 0x1 0x8", f"the second scope {of}", made(scope(), scope(steps=[(1, 8)])))
    dmar_broken(TYPE, f"{first:#x} 0x0 0x6", f"a scope before a cut {of}", made(scope(6), b"\1"))
    dmar_kept(TYPE, f"a scope after a cut {of}", made(bytes(8), scope(6)))
    dmar_kept(TYPE, f"a scope that is cut {of}", made(changed(scope(6), {1: 9})))
    dmar_kept(TYPE, f"no scope {of}", made())
    for length in (4, LEAST[kind] - 1):
        dmar_kept(TYPE, f"{length} bytes {of}", of_dmar(kind, length, _4=b"\xff" * 24))
    dmar_kept(TYPE, f"the same {of} and 256 more", placed(made(scope(6)), _1=b"\1"))
for name, numbers, one in (
    ("a type and a length", "0x38", scope(0, length=9)), ("a length and a step", "0x38 0x1 0xb", scope(steps=[(32, 8)], length=11)),
    ("a type and a step", "0x38 0x0 0x6", scope(6, steps=[(32, 8)])), ("both numbers of a step", "0x3e 0x0 0x20", scope(steps=[(32, 8)])),
    ("a function, and the next device", "0x3e 0x1 0x8", scope(steps=[(0, 8), (32, 0)])),
    ("the last of 124 steps", f"{0x3E + 2 * 123:#x} 0x1 0xff", scope(steps=[*[(31, 7)] * 123, (0, 255)])),
    ("a step of a scope with half of one", "0x38 0x1 0xd", scope(steps=[(0, 0), (0, 0), (32, 0)], length=13)),
):
    dmar_broken(TYPE, numbers, name, atsr(one))
for name, one in (
    ("half of a step", scope(steps=[(0, 0), (32, 8)], length=8)),
    ("reserved bytes, the number and the bus", placed(scope(), _2=b"\xff" * 4)),
    ("124 steps", scope(steps=[(31, 7)] * 124)),
):
    dmar_kept(TYPE, name, atsr(one))
dmar_broken(TYPE, "0x38 0x1 0x9", "an odd length, and reserved bytes", atsr(placed(scope(length=9), _2=b"\xff\xff")))
dmar_broken(TYPE, "0x38 0x0 0x7", "the first structure's second number", atsr(scope(7)), drhd(scope(0)))
dmar_broken(TYPE, "0x38 0x0 0x6", "a scope that is wrong in a DMAR that is cut", atsr(scope(6)), b"\1")
dmar_kept(TYPE, "bytes of an RHSA", rhsa(length=28))

# ---- the DMAR: where the registers of an IOMMU are
ADDRESS = "DrhdAddress"
for base in (0, 1, 0x7FF, 0x800, 0xFFF, 0x1001, 0xFED90800, 0xFED90001, 2**32 + 1, TOP - 1, TOP - 0x800, TOP - 0xFFF):
    dmar_broken(ADDRESS, f"0x30 0x8 {base:#x}", f"an IOMMU at {base:#x}", drhd(base=base))
for base in (0x1000, 0x2000, 0xFED90000, 2**32, 2**63, TOP - 0x1000):
    dmar_kept(ADDRESS, f"an IOMMU at {base:#x}", drhd(base=base))
FULL_OF_ONES = {"flags": 255, "segment": 0xFFFF, "size": 255}
dmar_broken(ADDRESS, "0x30 0x8", "flags, a size and a segment beside 0", drhd(base=0, **FULL_OF_ONES))
dmar_broken(ADDRESS, "0x30 0x8 0x1", "scopes after it", drhd(scope(), scope(), base=1))
dmar_broken(ADDRESS, "0x40 0x8 0x1", "the second IOMMU", drhd(), drhd(base=1))
dmar_broken(ADDRESS, "0x30 0x8", "the first of two", drhd(base=0), drhd(base=1))
dmar_broken(ADDRESS, "0x30 0x8", "an IOMMU with a scope that is cut", drhd(b"\1", base=0))
dmar_broken(ADDRESS, "0x30 0x8", "an IOMMU before the cut", drhd(base=0), b"\1")
dmar_kept(ADDRESS, "an IOMMU after the cut", bytes(4), drhd(base=0))
dmar_kept(ADDRESS, "an IOMMU that is cut", drhd(base=0)[:15])
for length in range(4, 16):
    dmar_kept(ADDRESS, f"an IOMMU of {length} bytes", drhd(base=1, length=length))
for kind in (1, 2, 3, 4, 5, 6, 7, 0x100):
    dmar_kept(ADDRESS, f"type {kind:#x}", of_dmar(kind, 24))

# ---- the DMAR: registers of two IOMMUs at one address. The first is at 0x30 and the second at 0x40.
SHARED = "DrhdOverlap"
for size in range(16):
    taken = 4096 << size
    for flags in (0, 0xF0):
        bits = size | flags
        dmar_broken(
            SHARED, f"0x30 0x40 {0x10000000 + taken - 1:#x}", f"size {bits:#x}, the last byte", drhd(base=0x10000000, size=bits),
            drhd(base=0x10000000 + taken - 1),
        )
        dmar_kept(SHARED, f"size {bits:#x}, ranges that touch", drhd(base=0x10000000, size=bits), drhd(base=0x10000000 + taken))
        dmar_broken(
            SHARED, "0x40 0x30 0x10000000", f"size {bits:#x} of the second", drhd(base=0x10000000),
            drhd(base=0x10000001 - taken, size=bits),
        )
        dmar_kept(
            SHARED, f"size {bits:#x} of the second, ranges that touch", drhd(base=0x10000000), drhd(base=0x10000000 - taken, size=bits),
        )
for name, numbers, *structures in (
    ("one address", "0x30 0x40 0x1000", drhd(base=0x1000), drhd(base=0x1000)),
    ("odd addresses", "0x40 0x30 0x1235", drhd(base=0x1235), drhd(base=0x1234)),
    ("the first address", "0x30 0x40 0x1", drhd(base=1), drhd(base=1)),
    ("three", "0x30 0x40 0x1000", drhd(base=0x1000), drhd(base=0x1000), drhd(base=0x1000)),
    ("two pairs, the later one less", "0x50 0x60 0x1000", drhd(base=0x5000), drhd(base=0x5000), drhd(base=0x1000), drhd(base=0x1000)),
    ("one that two others begin in", "0x40 0x50 0x3000", drhd(base=0x4000), drhd(base=0x1000, size=3), drhd(base=0x3000)),
    ("two in one", "0x30 0x40 0x2000", drhd(base=0x1000, size=2), drhd(base=0x2000, size=1), drhd(base=0x2000)),
    ("two segments", "0x30 0x40 0x1000", drhd(base=0x1000), drhd(base=0x1000, segment=1)),
    ("up to the last address", f"0x30 0x40 {TOP - 0x1000:#x}", drhd(base=TOP - 0x1000), drhd(base=TOP - 0x1000)),
    ("past the last address", f"0x30 0x40 {TOP - 1:#x}", drhd(base=TOP - 1, size=15), drhd(base=TOP - 1)),
    ("in part past the last address", f"0x30 0x40 {TOP - 1:#x}", drhd(base=TOP - 0x1000, size=15), drhd(base=TOP - 1)),
    ("scopes between them", "0x30 0x48 0x1000", drhd(scope(), base=0x1000), drhd(scope(), base=0x1000)),
    ("an RMRR between them", "0x30 0x58 0x1000", drhd(base=0x1000), rmrr(base=0x1000), drhd(base=0x1000)),
    ("one that is cut after them", "0x30 0x40 0x1000", drhd(base=0x1000), drhd(base=0x1000), b"\1"),
    ("scopes that are cut", "0x30 0x41 0x1000", drhd(b"\1", base=0x1000), drhd(base=0x1000)),
):
    dmar_broken(SHARED, numbers, name, *structures)
for name, *structures in (
    ("one IOMMU", drhd()), ("no IOMMU",), ("two at 0", drhd(base=0), drhd(base=0)),
    ("one at 0 of all sizes, and one at 4096", drhd(base=0, size=15), drhd(base=0x1000)),
    ("one past the last address, and one at 1", drhd(base=TOP - 1, size=15), drhd(base=1)),
    ("4 GiB apart", drhd(base=0x1000), drhd(base=0x100001000)), ("an RMRR at one", drhd(base=0x1000), rmrr(base=0x1000)),
    ("an RHSA of one", drhd(base=0x1000), rhsa(base=0x1000)),
    ("types that are none", drhd(base=0x1000), placed(drhd(base=0x1000), _1=b"\1")),
    ("one of 15 bytes", drhd(base=0x1000), drhd(base=0x1000, length=15)),
    ("one after the cut", drhd(base=0x1000), bytes(4), drhd(base=0x1000)),
    ("one that is cut", drhd(base=0x1000), drhd(base=0x1000)[:15]),
):
    dmar_kept(SHARED, name, *structures)

# ---- the DMAR: IOMMUs of all other devices. The first is at 0x30 and the second at 0x40; ATSRs are 8 bytes apart.
ALL, LAST = "SecondIncludeAll", "IncludeAllNotLast"
of_all, ports = partial(drhd, flags=1), partial(atsr, flags=1)
for segment in (0, 1, 255, 256, 0xFFFF):
    at = f"{segment:#x}"
    dmar_broken(ALL, f"0x40 0x30 {at}", f"two IOMMUs of segment {at}", of_all(segment=segment), of_all(segment=segment))
    dmar_broken(ALL, f"0x38 0x30 {at}", f"two ATSRs of segment {at}", ports(segment=segment), ports(segment=segment))
    dmar_broken(LAST, f"0x40 0x30 {at}", f"an IOMMU of segment {at} after that of all", of_all(segment=segment), drhd(segment=segment))
    dmar_kept(LAST, f"an IOMMU of segment {at} before that of all", drhd(segment=segment), of_all(segment=segment))
    for bits in (1, 0x100, 0x8000):
        dmar_kept(ALL, f"IOMMUs of segments {at} and {segment ^ bits:#x}", of_all(segment=segment), of_all(segment=segment ^ bits))
        dmar_kept(ALL, f"ATSRs of segments {at} and {segment ^ bits:#x}", ports(segment=segment), ports(segment=segment ^ bits))
        dmar_kept(LAST, f"IOMMUs of segments {at} and {segment ^ bits:#x}", of_all(segment=segment), drhd(segment=segment ^ bits))
for flags in (*range(6), 16, 128, 129, 254, 255):
    two, two_of_ports = (drhd(flags=flags), of_all()), (atsr(flags=flags), ports())
    if flags % 2:
        dmar_broken(ALL, "0x40 0x30", f"an IOMMU with flags {flags:#x}", *two)
        dmar_broken(ALL, "0x38 0x30", f"an ATSR with flags {flags:#x}", *two_of_ports)
        dmar_broken(LAST, "0x40 0x30", f"an IOMMU after one with flags {flags:#x}", drhd(flags=flags), drhd())
        dmar_kept(LAST, f"an IOMMU with flags {flags:#x} after that of all", of_all(), drhd(flags=flags))
    else:
        dmar_kept(ALL, f"an IOMMU with flags {flags:#x}", *two)
        dmar_kept(ALL, f"an ATSR with flags {flags:#x}", *two_of_ports)
        dmar_kept(LAST, f"an IOMMU after one with flags {flags:#x}", drhd(flags=flags), drhd())
        dmar_broken(LAST, "0x40 0x30", f"an IOMMU with flags {flags:#x} after that of all", of_all(), drhd(flags=flags))
for name, numbers, *structures in (
    ("three", "0x40 0x30", of_all(), of_all(), of_all()),
    ("two pairs, one in the other", "0x50 0x40 0x1", of_all(), of_all(segment=1), of_all(segment=1), of_all()),
    ("two pairs, crossed", "0x50 0x30", of_all(), of_all(segment=1), of_all(), of_all(segment=1)),
    ("an IOMMU of some devices between", "0x50 0x30", of_all(), drhd(), of_all()),
    ("an ATSR first", "0x48 0x38", ports(), of_all(), of_all()),
    ("two ATSRs before two IOMMUs", "0x38 0x30", ports(), ports(), of_all(), of_all()),
    ("two IOMMUs before two ATSRs", "0x40 0x30", of_all(), of_all(), ports(), ports()),
    ("two ATSRs between two IOMMUs", "0x48 0x40", of_all(), ports(), ports(), of_all()),
    ("two IOMMUs between two ATSRs", "0x48 0x38", ports(), of_all(), of_all(), ports()),
    ("IOMMUs with scopes", "0x48 0x30", of_all(scope()), of_all(scope())), ("two before the cut", "0x40 0x30", of_all(), of_all(), b"\1"),
    ("scopes that are cut", "0x41 0x30", of_all(b"\1"), of_all()),
):
    dmar_broken(ALL, numbers, name, *structures)
for name, *structures in (
    ("an IOMMU and an ATSR", of_all(), ports()), ("one of each", drhd(), of_all(), atsr(), ports()),
    ("two SATCs", satc(flags=1), satc(flags=1)),
    ("two RMRRs", *[placed(rmrr(), _4=b"\1")] * 2), ("types of 256", *[placed(of_all(), _1=b"\1")] * 2),
    ("IOMMUs of 15 bytes", *[of_all(length=15)] * 2), ("an IOMMU of 15 bytes", of_all(length=15), of_all()),
    ("ATSRs of 7 bytes", *[ports(length=7)] * 2),
    ("an IOMMU after the cut", of_all(), bytes(4), of_all()), ("ATSRs that are cut", ports(), ports()[:7]),
):
    dmar_kept(ALL, name, *structures)
for name, numbers, *structures in (
    ("two after it", "0x40 0x30", of_all(), drhd(), drhd()), ("the second after two", "0x50 0x30", of_all(), of_all(), drhd()),
    ("one before it and one after it", "0x50 0x40", drhd(), of_all(), drhd()),
    ("two segments", "0x50 0x40 0x1", of_all(), of_all(segment=1), drhd(segment=1)),
    ("two segments, of which the first is in order", "0x60 0x50 0x2", drhd(), of_all(), of_all(segment=2), drhd(segment=2)),
    ("one of another segment between", "0x50 0x30", of_all(), drhd(segment=1), drhd()),
    ("scopes", "0x48 0x30", of_all(scope()), drhd(scope())), ("other structures between", "0x60 0x30", of_all(), rmrr(), atsr(), drhd()),
    ("before the cut", "0x40 0x30", of_all(), drhd(), b"\1"), ("scopes that are cut", "0x41 0x30", of_all(b"\1"), drhd()),
):
    dmar_broken(LAST, numbers, name, *structures)
for name, *structures in (
    ("that of all alone", of_all()), ("none of all", drhd(), drhd()), ("two of all", of_all(), of_all()),
    ("that of all at the end", drhd(), drhd(), of_all()),
    ("an ATSR after it", of_all(), atsr()), ("an IOMMU after an ATSR", ports(), drhd()), ("two ATSRs", ports(), atsr()),
    ("an RMRR", of_all(), rmrr()),
    ("types of 256", placed(of_all(), _1=b"\1"), drhd()), ("a type of 256 after it", of_all(), placed(drhd(), _1=b"\1")),
    ("that of all with 15 bytes", of_all(length=15), drhd()), ("an IOMMU of 15 bytes", of_all(), drhd(length=15)),
    ("an IOMMU after the cut", of_all(), bytes(4), drhd()), ("an IOMMU that is cut", of_all(), drhd()[:15]),
):
    dmar_kept(LAST, name, *structures)

# ---- the DMAR: regions
REGION, NO_DEVICE = "RmrrRange", "RmrrNoDevice"
for base in (1, 0x800, 0xFFF, 0x1800, 0x100000FFF, 2**63 + 1):
    dmar_broken(REGION, f"0x30 0x8 {base:#x}", f"a region from {base:#x} on", rmrr(base=base, limit=TOP - 1))
for base in (0, 0x1000, 0xFFFFF000, 2**32, 2**63, TOP - 0x1000):
    dmar_kept(REGION, f"a region from {base:#x} on", rmrr(base=base, limit=TOP - 1))
    dmar_kept(REGION, f"a page from {base:#x} on", rmrr(base=base, limit=base + 0xFFF))
for limit in (0x2000, 0x27FF, 0x2FFE, 0x2EFF, 0x2FFF ^ 0x400, 0x3000, 2**32, 2**63, TOP - 2, TOP - 0x1000):
    dmar_broken(REGION, f"0x30 0x10 {limit:#x}", f"a region up to {limit:#x}", rmrr(base=0x1000, limit=limit))
for limit in (0x1FFF, 0x2FFF, 0xFFFFFFFF, 2**32 + 0xFFF, TOP - 1):
    dmar_kept(REGION, f"a region up to {limit:#x}", rmrr(base=0x1000, limit=limit))
for base, limit in (
    (0x1000, 0), (0x1000, 0xFFF), (0x2000, 0xFFF), (2**32, 0xFFFFFFFF), (0, 0), (0, 0xFFE), (2**63, 2**63 - 1), (TOP - 0x1000, 0xFFF),
):
    dmar_broken(REGION, f"0x30 0x10 {limit:#x}", f"a region from {base:#x} up to {limit:#x}", rmrr(base=base, limit=limit))
for base in (0xFFF, 0x1FFF, 0x1FFE, 0x2001):
    dmar_broken(REGION, f"0x30 0x8 {base:#x}", f"a region from {base:#x} up to 0x1fff", rmrr(base=base, limit=0x1FFF))
dmar_broken(REGION, "0x30 0x8 0x1", "a wrong base and a wrong limit", rmrr(base=1, limit=0))
dmar_broken(REGION, "0x48 0x10 0x1000", "the second region", rmrr(), rmrr(limit=0x1000))
dmar_broken(REGION, "0x30 0x10 0x1000", "the first of two", rmrr(limit=0x1000), rmrr(base=1))
dmar_broken(REGION, "0x30 0x10 0x1000", "a region with scopes", rmrr(scope(), limit=0x1000))
dmar_broken(REGION, "0x30 0x10 0x1000", "a region with scopes that are cut", rmrr(b"\1", limit=0x1000))
dmar_broken(REGION, "0x30 0x10 0x1000", "a region before the cut", rmrr(limit=0x1000), b"\1")
dmar_kept(REGION, "a region after the cut", bytes(4), rmrr(limit=0))
dmar_kept(REGION, "a region that is cut", rmrr(limit=0)[:23])
dmar_kept(REGION, "a segment and reserved bytes", placed(rmrr(segment=0xFFFF), _4=b"\xff\xff"))
for length in range(4, 24):
    dmar_kept(REGION, f"a region of {length} bytes", rmrr(base=1, limit=0, length=length))
    dmar_kept(NO_DEVICE, f"a region of {length} bytes", rmrr(length=length))
for kind in (0, 2, 3, 4, 5, 6, 7, 0x101):
    dmar_kept(REGION, f"type {kind:#x}", of_dmar(kind, 24, _8=b"\1" * 16))
    dmar_kept(NO_DEVICE, f"type {kind:#x}", of_dmar(kind, 24))
dmar_broken(NO_DEVICE, "0x30 0x20 0x18", "a region of no device", rmrr())
dmar_broken(NO_DEVICE, "0x30 0x20 0x18", "a region of nothing", rmrr(base=0, limit=0))
for length in (*range(25, 34), 40, 255, 256, 280, 0x1818, 0xFFFF):
    dmar_kept(NO_DEVICE, f"a region of {length} bytes", rmrr(length=length))
dmar_kept(NO_DEVICE, "a region of a device", rmrr(scope()))
dmar_broken(NO_DEVICE, "0x50 0x20 0x18", "the second region", rmrr(scope()), rmrr())
dmar_broken(NO_DEVICE, "0x30 0x20 0x18", "the first of two", rmrr(), rmrr())
dmar_broken(NO_DEVICE, "0x30 0x20 0x18", "a region before the cut", rmrr(), b"\1")
dmar_kept(NO_DEVICE, "a region after the cut", bytes(4), rmrr())
dmar_kept(NO_DEVICE, "a region that is cut", rmrr(length=25)[:24])

# ---- the DMAR: what is sought in it, and is said to be missing only where no structure and no scope is lost. Of each such rule the numbers
# of a finding, and the structures of a DMAR that breaks it.
NONE, RHSA_OF, DEVICE_OF, IO_APIC_OF = "NoDrhd", "RhsaNowhere", "AnddNowhere", "IoApicUnmapped"
IO_APIC_2 = madt(io_apic(0xFEC00000, 0, 2))
MISSING = (
    (NONE, "", rmrr(scope())), (RHSA_OF, "0x40 0x8 0x1000", drhd(), rhsa(base=0x1000)),
    (DEVICE_OF, "0x40 0x4 0x7", drhd(scope(NAMESPACE_DEVICE, 7))), (DEVICE_OF, "0x40 0x7 0x7", drhd(), andd(7)),
    (IO_APIC_OF, "0x2c 0x2 0x2", drhd()),
)
# What is no structure, or is shorter than its type, or has no scope up to its end.
NOT_FORMED = (
    ("a byte", b"\1"), ("a head of length 0", bytes(4)), ("a structure without its last byte", of_dmar(9, 8)[:7]),
    *((f"type {kind}, a byte too short", of_dmar(kind, least - 1)) for kind, least in LEAST.items()),
    *((f"type {kind} with a byte of a scope", made(b"\1")) for kind, made in HOLDERS.items()),
    *((f"type {kind} with a scope of length 0", made(bytes(8))) for kind, made in HOLDERS.items()),
    ("a scope of length 7", atsr(changed(scope(), {1: 7}))), ("a scope a byte too long", sidp(changed(scope(), {1: 9}))),
)
for place, (rule, numbers, *structures) in enumerate(MISSING):
    wrong = partial(dmar, *structures, flags=1)
    table_broken(rule, numbers, f"a well-formed DMAR, {place}", wrong(), IO_APIC_2)
    for name, last in NOT_FORMED:
        table_kept(rule, f"{name} at the end, {place}", wrong(last), IO_APIC_2)
        table_kept(rule, f"{name} at the beginning, {place}", dmar(last, *structures, flags=1), IO_APIC_2)
    for name, last in (
        ("type 7 of 4 bytes", of_dmar(7, 4)), ("a type of 256", of_dmar(0x100, 4)), ("an odd scope of type 0", atsr(scope(0, length=9))),
        ("a region of nothing", rmrr(base=1, limit=0)), ("a step that there is not", satc(scope(steps=[(32, 8)]))),
    ):
        table_broken(rule, numbers, f"{name} at the end, {place}", wrong(last), IO_APIC_2)
    table_broken(rule, numbers, f"a width of 0, {place}", wrong(width=0), IO_APIC_2)
    table_broken(rule, numbers, f"a DMAR that does not sum to 0, {place}", changed(wrong(), {9: 0}), IO_APIC_2)

# ---- the DMAR: no IOMMU
dmar_broken(NONE, "", "no structure")
for name, one in (
    ("a region", rmrr(scope())), ("an ATSR", atsr(scope())), ("an RHSA", rhsa()), ("an ANDD", andd()), ("a SATC", satc(scope())),
    ("a SIDP", sidp()), ("type 7", of_dmar(7, 16)), ("type 100h", of_dmar(0x100, 16)), ("type FF00h", of_dmar(0xFF00, 16)),
):
    dmar_broken(NONE, "", name, one)
    dmar_broken(NONE, "", f"{name} and a region", one, rmrr(scope()))
    dmar_kept(NONE, f"an IOMMU after {name}", one, drhd())
dmar_kept(NONE, "an IOMMU", drhd())
dmar_kept(NONE, "an IOMMU at 0", drhd(base=0))
for length in range(4, 16):
    dmar_kept(NONE, f"an IOMMU of {length} bytes", drhd(length=length))
    dmar_kept(NONE, f"an IOMMU of {length} bytes after a region", rmrr(scope()), drhd(length=length))
table_broken(NONE, "", "an IOMMU behind the table", dmar() + drhd())

# ---- the DMAR: RHSAs. One after an IOMMU of 16 bytes is at 0x40.
for base in (0, 1, 0x1000, 0xFED90001, 0xFED91000, 0xFED90000 ^ 2**31, 0xFED90000 + 2**32, 0xFED90000 << 32, TOP - 1):
    at = f"{base:#x}"
    dmar_broken(RHSA_OF, f"0x40 0x8 {at}", f"an RHSA of {at}", drhd(), rhsa(base=base))
    dmar_broken(RHSA_OF, f"0x30 0x8 {at}", f"an RHSA of {at} before the IOMMU", rhsa(base=base), drhd())
    dmar_broken(RHSA_OF, f"0x40 0x8 {at}", f"two RHSAs of {at}", drhd(), rhsa(base=base), rhsa(base=base))
    dmar_broken(RHSA_OF, f"0x30 0x8 {at}", f"an RHSA of {at}, and no IOMMU", rhsa(base=base))
    dmar_kept(RHSA_OF, f"an RHSA of {at}, where an IOMMU is", drhd(base=base), rhsa(base=base))
    dmar_kept(RHSA_OF, f"an RHSA of {at}, where the last IOMMU is", rhsa(base=base), drhd(), drhd(base=base))
dmar_broken(RHSA_OF, "0x54 0x8 0x1000", "the second RHSA", drhd(), rhsa(), rhsa(base=0x1000))
dmar_broken(RHSA_OF, "0x54 0x8 0x2000", "the second and the third", drhd(), rhsa(), rhsa(base=0x2000), rhsa(base=0x1000))
dmar_broken(RHSA_OF, "0x50 0x8 0x1000", "a page within the registers", drhd(base=0x2000), drhd(base=0, size=15), rhsa(base=0x1000))
dmar_broken(RHSA_OF, "0x48 0x8 0x1000", "a region there", rmrr(base=0x1000), rhsa(base=0x1000))
dmar_broken(RHSA_OF, "0x40 0x8 0x1000", "an RHSA of a domain", drhd(), rhsa(base=0x1000, domain=2**32 - 1))
dmar_kept(RHSA_OF, "no RHSA", drhd())
dmar_kept(RHSA_OF, "a longer RHSA", drhd(), rhsa(length=255))
dmar_kept(RHSA_OF, "types that are none", drhd(), of_dmar(7, 20), placed(rhsa(base=1), _1=b"\1"))
DOMAIN, SAME_RHSA = "RhsaDomain", "SameRhsa"


def in_domain(domain, *before, after=(), beside=SRAT):
    """A DMAR with an RHSA of this domain, and an SRAT with an entry of each type."""
    return dmar(*before, rhsa(domain=domain), *after), beside


for domain in OF_ALL:
    table_kept(DOMAIN, f"domain {domain}", *in_domain(domain, drhd()))
    table_kept(DOMAIN, f"domain {domain}, and no IOMMU", *in_domain(domain))
    one = srat(*(it for place, it in enumerate(ENTRIES) if place != domain - OF_ALL[0]))
    table_broken(DOMAIN, f"0x30 0x10 {domain:#x}", f"domain {domain}, of which the SRAT has no entry", *in_domain(domain, beside=one))
for domain in OTHERS:
    table_broken(DOMAIN, f"0x40 0x10 {domain:#x}", f"domain {domain:#x}", *in_domain(domain, drhd()))
    table_broken(DOMAIN, f"0x30 0x10 {domain:#x}", f"domain {domain:#x}, and no IOMMU", *in_domain(domain))
    table_broken(DOMAIN, f"0x30 0x10 {domain:#x}", f"domain {domain:#x} before the cut", *in_domain(domain, after=[b"\1"]))
    table_broken(DOMAIN, f"0x44 0x10 {domain:#x}", f"the second RHSA, of domain {domain:#x}", *in_domain(domain, rhsa(domain=2)))
    table_broken(DOMAIN, f"0x41 0x10 {domain:#x}", f"domain {domain:#x} after scopes that are cut", *in_domain(domain, drhd(b"\1")))
    table_kept(DOMAIN, f"domain {domain:#x} after the cut", *in_domain(domain, bytes(4)))
    table_kept(DOMAIN, f"domain {domain:#x}, and no SRAT", dmar(rhsa(domain=domain)))
    table_kept(DOMAIN, f"domain {domain:#x} of 19 bytes", dmar(rhsa(domain=domain, length=19)), SRAT)
    table_kept(DOMAIN, f"domain {domain:#x} of type 7", dmar(of_dmar(7, 20, _16=number(domain, 4))), SRAT)
    table_kept(DOMAIN, f"an RHSA with domain {domain:#x} that is cut", dmar(rhsa(domain=domain)[:19]), SRAT)
FAR = srat(apic_domain(0, 0x01020304, 0))
table_kept(DOMAIN, "a domain of 32 bits", *in_domain(0x01020304, beside=FAR))
for domain in (4, 0x304, 0x20304, 0x1020300):
    table_broken(DOMAIN, f"0x30 0x10 {domain:#x}", f"a part of a domain, {domain:#x}", *in_domain(domain, beside=FAR))
table_broken(DOMAIN, "0x30 0x10 0xa", "the first of two", *in_domain(10, after=[rhsa(domain=11)]))
table_broken(DOMAIN, "0x30 0x10", "an SRAT without entries", *in_domain(0, beside=srat()))
table_broken(DOMAIN, "0x30 0x10 0x1", "an SRAT that does not sum to 0", *in_domain(1, beside=changed(SRAT, {9: SRAT[9] ^ 1})))
table_broken(DOMAIN, "0x30 0x10 0x1", "an SRAT of Revision 1", *in_domain(1, beside=revised(SRAT, 1)))
table_broken(DOMAIN, "0x30 0x10 0x1", "an SRAT before the DMAR", *reversed(in_domain(1)))
table_broken(DOMAIN, "0x30 0x10 0x1", "two SRATs", *in_domain(1), srat(memory_of(1)))
table_kept(DOMAIN, "two SRATs, of which the first one has the domain", *in_domain(1, beside=srat(memory_of(1))), SRAT)
for name, beside in (
    ("an SRAT of 47 bytes", blank_table(b"SRAT", 47, 3)), ("an SRAT of which the last byte is not present", SRAT[:-1]),
    ("an SRAT of Length 35", changed(SRAT, {4: 35, 5: 0})), ("an SRAT of another signature", changed(SRAT, {0: ord("X")})),
    ("an SRAT with a byte at its end", srat(*ENTRIES, b"\1")), ("an SRAT with an entry of no bytes", srat(*ENTRIES, b"\0\0")),
    ("an SRAT that is cut before its entries", srat(b"\0\1", *ENTRIES)), ("an affinity of 15 bytes", srat(*ENTRIES, other(0, 15))),
    ("memory of 39 bytes", srat(other(1, 39), *ENTRIES)), ("an affinity of an x2APIC of 25 bytes", srat(*ENTRIES, other(2, 25))),
    ("an affinity of a GICC of 17 bytes", srat(*ENTRIES, other(3, 17))),
    ("an affinity of an ITS of 13 bytes", srat(*ENTRIES, other(4, 13))),
    ("an initiator of 31 bytes", srat(*ENTRIES, other(5, 31))), ("a port of 33 bytes", srat(*ENTRIES, other(6, 33))),
    ("an affinity of a hart of 21 bytes", srat(*ENTRIES, other(7, 21))), ("an entry of type 8", srat(*ENTRIES, other(8, 8))),
    ("an entry of type 255", srat(other(255, 2), *ENTRIES)),
):
    table_kept(DOMAIN, name, *in_domain(1, beside=beside))
for base in (0, 1, 0x1000, REGISTERS_AT, 2**32, TOP - 1):
    at = f"{base:#x}"
    dmar_broken(SAME_RHSA, f"0x44 0x30 {at}", f"two RHSAs of {at}", rhsa(base=base), rhsa(base=base, domain=1))
    for bit in (0, 12, 31, 32, 63):
        dmar_kept(SAME_RHSA, f"RHSAs of {at} and one with another bit {bit}", rhsa(base=base), rhsa(base=base ^ 1 << bit))
one, two = rhsa(base=0x1000), rhsa(base=0x2000)
for name, numbers, *structures in (
    ("three", "0x44 0x30 0x1000", one, one, one), ("two pairs, one in the other", "0x58 0x44 0x2000", one, two, two, one),
    ("two pairs, crossed", "0x58 0x30 0x1000", one, two, one, two),
    ("two pairs, one after the other", "0x44 0x30 0x2000", two, two, one, one),
    ("an IOMMU between", "0x54 0x30 0x1000", one, drhd(), one), ("two before the cut", "0x44 0x30 0x1000", one, one, b"\1"),
    ("a longer one", "0x48 0x30 0x1000", rhsa(base=0x1000, length=24), one),
):
    dmar_broken(SAME_RHSA, numbers, name, *structures)
for name, *structures in (
    ("one RHSA", one), ("RHSAs of one domain", one, two), ("one of 19 bytes", one, rhsa(base=0x1000, length=19)),
    ("two of 19 bytes", *[rhsa(base=0x1000, length=19)] * 2), ("types of 256", *[placed(one, _1=b"\1")] * 2),
    ("one after the cut", one, bytes(4), one),
    ("one that is cut", one, one[:19]), ("IOMMUs", drhd(), drhd()), ("type 7", of_dmar(7, 20), of_dmar(7, 20)),
):
    dmar_kept(SAME_RHSA, name, *structures)

# ---- the DMAR: devices of the namespace
NAME = "AnddName"
for name in (b"A", b"\\", b"\\_SB.DEV", b"\1", b"\xff" * 9, b"A" * 247):
    dmar_broken(NAME, "0x30 0x8", f"the name {name}", andd(0, name))
    dmar_kept(NAME, f"the name {name} and a 0", andd(0, name + b"\0"))
    dmar_kept(NAME, f"the name {name} and a 0 and more", andd(0, name + b"\0A"))
    dmar_kept(NAME, f"a 0 and the name {name}", andd(0, b"\0" + name))
    dmar_broken(NAME, "0x30 0x8", f"the name {name} before another one", andd(0, name), andd(0))
dmar_kept(NAME, "a 0 alone", andd(0, b"\0"))
dmar_broken(NAME, "0x30 0x8", "a byte of a name, and zeros before it", placed(andd(0, b"A"), _4=bytes(4)))
dmar_broken(NAME, "0x30 0x8", "256 bytes", andd(0, b"A" * 248))
dmar_kept(NAME, "256 bytes, the last of which is 0", andd(0, b"A" * 247 + b"\0"))
dmar_broken(NAME, "0x41 0x8", "the second ANDD", andd(), andd(2, b"A" * 9))
dmar_broken(NAME, "0x40 0x8", "an ANDD after an IOMMU", drhd(), andd(1, b"AB"))
dmar_broken(NAME, "0x30 0x8", "the first of two", andd(1, b"AB"), andd(1, b"A"))
dmar_broken(NAME, "0x30 0x8", "an ANDD before the cut", andd(1, b"A"), b"\0")
dmar_kept(NAME, "an ANDD after the cut", bytes(4), andd(1, b"A"))
dmar_kept(NAME, "an ANDD that is cut", andd(1, b"AB")[:9])
for length in range(4, 9):
    dmar_kept(NAME, f"an ANDD of {length} bytes", placed(andd(1, length=length), _4=b"A" * 4))
for kind in (0, 1, 2, 3, 5, 6, 7, 0x104):
    dmar_kept(NAME, f"type {kind:#x}", of_dmar(kind, 32, _4=b"\1" * 28))

device_scope = partial(scope, NAMESPACE_DEVICE)
for value in (0, 1, 2, 128, 255):
    at = f"{value:#x}"
    dmar_broken(DEVICE_OF, f"0x40 0x4 {at}", f"a scope of device {at}", drhd(device_scope(value)))
    dmar_broken(DEVICE_OF, f"0x30 0x7 {at}", f"device {at}", andd(value))
    dmar_kept(DEVICE_OF, f"device {at} and its scope", drhd(device_scope(value)), andd(value))
    dmar_kept(DEVICE_OF, f"device {at}, before its scope", andd(value), drhd(device_scope(value)))
    # the scope of an IOMMU at 0x30, then a scope of each other structure at 0x48
    for kind, made in list(HOLDERS.items())[1:]:
        within = 0x48 + LEAST[kind]
        here = drhd(device_scope(value)), andd(value, b"\0")
        dmar_kept(DEVICE_OF, f"device {at} in type {kind}, too", here[0], made(device_scope(value)), here[1])
        dmar_broken(
            DEVICE_OF, f"{within:#x} 0x4 {value ^ 1:#x}", f"device {value ^ 1:#x} in type {kind}", here[0], made(device_scope(value ^ 1)),
            here[1],
        )
        dmar_broken(DEVICE_OF, f"0x30 0x7 {at}", f"device {at} in type {kind} alone", here[1], drhd(), made(device_scope(value)))
    for kind in (0, 1, 2, 3, 4, 6, 255):
        dmar_kept(DEVICE_OF, f"a scope of type {kind} and device {at}", drhd(scope(kind, value)))
        dmar_broken(DEVICE_OF, f"0x48 0x7 {at}", f"device {at}, in a scope of type {kind}", drhd(scope(kind, value)), andd(value))
for name, numbers, *structures in (
    ("the second scope", "0x48 0x4 0x3", drhd(device_scope(2), device_scope(3)), andd(2)),
    ("the first of two scopes", "0x40 0x4 0x2", drhd(device_scope(2), device_scope(1))),
    ("a scope before an ANDD", "0x40 0x4 0x2", drhd(device_scope(2)), andd(3)),
    ("an ANDD before a scope", "0x30 0x7 0x3", andd(3), drhd(device_scope(2))),
    ("the second ANDD", "0x51 0x7 0x3", drhd(device_scope(2)), andd(2, b"\0"), andd(3)),
    ("the first of two ANDDs", "0x30 0x7 0x9", andd(9), andd(3)),
    ("the number of a bus", "0x40 0x4", drhd(device_scope(0, 2)), andd(2)),
    ("a number and a bus", "0x40 0x4 0x2", drhd(device_scope(2, 7))),
    ("a number and a name", "0x30 0x7 0x2", andd(2, b"ABC\0")), ("an open name", "0x30 0x7 0x2", andd(2, b"A")),
    ("a structure without a device in between", "0x48 0x7 0x2", drhd(scope()), andd(2), atsr(device_scope(2))),
):
    dmar_broken(DEVICE_OF, numbers, name, *structures)
for name, *structures in (
    ("a scope with a bus", drhd(device_scope(2, 7)), andd(2)),
    ("another scope with a bus", drhd(device_scope(2)), andd(2), atsr(device_scope(2, 7))),
    ("neither a device nor a scope", drhd(scope())), ("two scopes of one device", drhd(device_scope(2), device_scope(2)), andd(2)),
    ("one device twice", drhd(device_scope(2)), andd(2), andd(2)),
    ("devices of two IOMMUs", drhd(device_scope(2)), drhd(device_scope(3)), andd(3), andd(2)),
    ("other reserved bytes", drhd(device_scope(2)), placed(andd(2), _4=b"\1\1\1")), ("type 7", of_dmar(7, 16, _7=b"\2")),
    ("types of 256", placed(andd(2), _1=b"\1"), placed(drhd(device_scope(2)), _1=b"\1")),
):
    dmar_kept(DEVICE_OF, name, *structures)

# ---- the DMAR: I/O APICs. Of a MADT the first one is at 0x2C and the second at 0x38; the first scope of an IOMMU is at 0x40.
apic_scope, SAME_SCOPE = partial(scope, SCOPE_IO_APIC), "SameScope"
for value in (0, 1, 2, 8, 127, 128, 255):
    at = f"{value:#x}"
    one = madt(io_apic(0xFEC00000, 0, value))
    table_broken(IO_APIC_OF, f"0x2c 0x2 {at}", f"I/O APIC {at}", dmar(drhd(), flags=1), one)
    table_broken(IO_APIC_OF, f"0x2c 0x2 {at}", f"I/O APIC {at}, and no IOMMU", dmar(flags=1), one)
    table_broken(
        IO_APIC_OF, f"0x2c 0x2 {at}", f"I/O APIC {at}, and a scope of another one", dmar(drhd(apic_scope(value ^ 1)), flags=1), one,
    )
    table_kept(IO_APIC_OF, f"I/O APIC {at} and its scope", dmar(drhd(apic_scope(value)), flags=1), one)
    table_kept(IO_APIC_OF, f"I/O APIC {at} and its scope with a bus", dmar(drhd(apic_scope(value, 0xFF)), flags=1), one)
    reserved = madt(io_apic(0xFEC00000, 0, value, 0xFF))
    table_kept(IO_APIC_OF, f"I/O APIC {at} with a reserved byte, and its scope", dmar(drhd(apic_scope(value)), flags=1), reserved)
    table_kept(IO_APIC_OF, f"I/O APIC {at} and the last scope", dmar(drhd(scope()), rmrr(), drhd(scope(), apic_scope(value)), flags=1), one)
    for kind in (0, 1, 2, 4, 5, 6, 255):
        table_broken(IO_APIC_OF, f"0x2c 0x2 {at}", f"I/O APIC {at} in a scope of type {kind}", dmar(drhd(scope(kind, value)), flags=1), one)
    for kind, made in list(HOLDERS.items())[1:]:
        table_broken(IO_APIC_OF, f"0x2c 0x2 {at}", f"I/O APIC {at} in type {kind}", dmar(drhd(), made(apic_scope(value)), flags=1), one)
    table_broken(
        IO_APIC_OF, f"0x2c 0x2 {at}", f"I/O APIC {at} in type 7", dmar(drhd(), of_dmar(7, 24, _8=apic_scope(value) * 2), flags=1), one,
    )
for flags in (*range(6), 16, 128, 129, 254, 255):
    if flags % 2:
        table_broken(IO_APIC_OF, "0x2c 0x2 0x2", f"flags {flags:#x}", dmar(drhd(), flags=flags), IO_APIC_2)
    else:
        table_kept(IO_APIC_OF, f"flags {flags:#x}", dmar(drhd(), flags=flags), IO_APIC_2)
WITH_2 = dmar(drhd(apic_scope(2)), flags=1)
for name, numbers, *entries in (
    ("the second I/O APIC", "0x38 0x2 0x3", io_apic(0xFEC00000, 0, 2), io_apic(0xFEC10000, 24, 3)),
    ("the first of two", "0x2c 0x2 0x9", io_apic(0xFEC00000, 0, 9), io_apic(0xFEC10000, 24, 3)),
    ("an I/O APIC after others", "0x36 0x2 0x1", lapic(0, 0), other(127, 2), io_apic(0xFEC00000, 0, 1)),
    ("an I/O APIC at 0", "0x2c 0x2 0x1", io_apic(0, 0, 1, 255)),
    ("a GICC of 39 bytes, too", "0x53 0x2 0x1", gicc(0, length=39), io_apic(0xFEC00000, 0, 1)),
):
    table_broken(IO_APIC_OF, numbers, name, WITH_2, madt(*entries))
    table_broken(IO_APIC_OF, numbers, f"{name}, in a MADT before the DMAR", madt(*entries), WITH_2)
    table_kept(IO_APIC_OF, f"{name}, and interrupts are not remapped", dmar(drhd(apic_scope(2))), madt(*entries))
WITHOUT, NO_2 = dmar(drhd(), flags=1), io_apic(0xFEC00000, 0, 2)
for name, entries in (
    ("no entry", ()), ("a local APIC", (lapic(0, 0),)), ("an I/O SAPIC", (other(6, 16),)), ("a byte after it", (NO_2, b"\0")),
    ("an entry of no bytes before it", (b"\0\0", NO_2)), ("an I/O APIC that is cut", (NO_2[:-1],)),
    ("an I/O APIC of 11 bytes", (other(1, 11),)),
    ("an I/O APIC of 13 bytes", (other(1, 13),)), ("one of 13 bytes, too", (NO_2, other(1, 13))),
    ("a local APIC of 7 bytes", (NO_2, other(0, 7))),
    ("an override of 9 bytes", (NO_2, other(2, 9))), ("a local x2APIC of 15 bytes", (NO_2, other(9, 15))),
    ("types above", (other(2, 10), other(17, 12))),
):
    table_kept(IO_APIC_OF, f"a MADT with {name}", WITHOUT, madt(*entries))
for name, beside in (
    ("a MADT of 43 bytes", blank_table(b"APIC", 43, 5)), ("a MADT without its last byte", IO_APIC_2[:-1]),
    ("a MADT of another signature", changed(IO_APIC_2, {0: ord("X")})),
):
    table_kept(IO_APIC_OF, name, WITHOUT, beside)
table_kept(IO_APIC_OF, "no MADT", WITHOUT)
table_broken(IO_APIC_OF, "0x2c 0x2 0x2", "a MADT that does not sum to 0", WITHOUT, changed(IO_APIC_2, {9: IO_APIC_2[9] ^ 1}))
table_broken(IO_APIC_OF, "0x2c 0x2 0x2", "two MADTs", WITHOUT, IO_APIC_2, madt())
table_kept(IO_APIC_OF, "two MADTs, of which the second one has an I/O APIC", WITHOUT, madt(), IO_APIC_2)
for value in (0, 1, 128, 255):
    at = f"{value:#x}"
    dmar_broken(SAME_SCOPE, f"0x48 0x40 {at}", f"two scopes of I/O APIC {at}", drhd(apic_scope(value), apic_scope(value)))
    dmar_broken(SAME_SCOPE, f"0x58 0x40 {at}", f"two IOMMUs with I/O APIC {at}", drhd(apic_scope(value)), drhd(apic_scope(value)))
    dmar_kept(SAME_SCOPE, f"scopes of I/O APICs {at} and {value ^ 1:#x}", drhd(apic_scope(value), apic_scope(value ^ 1)))
    for kind in (0, 1, 2, 4, 5, 6, 255):
        dmar_kept(SAME_SCOPE, f"a scope of type {kind} and number {at}", drhd(apic_scope(value), scope(kind, value)))
        dmar_kept(SAME_SCOPE, f"two scopes of type {kind} and number {at}", drhd(scope(kind, value), scope(kind, value)))
    for kind, made in list(HOLDERS.items())[1:]:
        dmar_kept(SAME_SCOPE, f"I/O APIC {at} in type {kind}", drhd(apic_scope(value)), made(apic_scope(value), apic_scope(value)))
a, b = apic_scope(2), apic_scope(3, 0xFF, [(31, 7), (0, 0)])
for name, numbers, *structures in (
    ("three", "0x48 0x40 0x2", drhd(a, a, a)), ("two pairs, one in the other", "0x52 0x48 0x3", drhd(a, b, b, a)),
    ("two pairs, crossed", "0x52 0x40 0x2", drhd(a, b, a, b)),
    ("other buses and paths", "0x48 0x40 0x2", drhd(a, apic_scope(2, 5, [(9, 1)]))),
    ("other scopes between", "0x50 0x40 0x2", drhd(a, scope(), a)), ("a region between", "0x78 0x40 0x2", drhd(a), rmrr(a), drhd(a)),
    ("scopes before the cut", "0x48 0x40 0x2", drhd(a, a, b"\1")), ("structures before the cut", "0x58 0x40 0x2", drhd(a), drhd(a), b"\1"),
    ("odd lengths", "0x49 0x40 0x2", drhd(apic_scope(2, length=9), a)), ("two segments", "0x58 0x40 0x2", drhd(a), drhd(a, segment=1)),
):
    dmar_broken(SAME_SCOPE, numbers, name, *structures)
for name, *structures in (
    ("one scope", drhd(a)), ("two I/O APICs at one place", drhd(a, apic_scope(3))), ("a scope after the cut", drhd(a, bytes(8), a)),
    ("a scope that is cut", drhd(a, a[:7])), ("an IOMMU after the cut", drhd(a), bytes(4), drhd(a)),
    ("types of 256", *[placed(drhd(a), _1=b"\1")] * 2),
):
    dmar_kept(SAME_SCOPE, name, *structures)

# ---- the IVRS: where its blocks begin and end. The first one is at 0x30, and an IVHD of 24 bytes ends at 0x48.
IVRS_CUT = "IvrsCut"
OF_IVRS = (
    "IvrsShort", "NoIvhd", "IvhdAddress", "SameIvhd", "IvhdDiffers", "IvhdEntryCut", "IvhdEntryType", "IvhdRange", "IoApicNotInIvrs",
    "SameSpecial", "IvmdRange",
)
BLOCKS = {IVHD_10: 24, IVHD_11: 40, IVHD_40: 40, IVMD_ALL: 32, IVMD_ONE: 32, IVMD_RANGE: 32, IVMD_OTHER: 32}
OTHER_KINDS = (0, 0x0F, 0x12, 0x1F, 0x24, 0x41, 0xFF)


def ivrs_broken(rule, numbers, name, *blocks, **fields):
    """A FADT, and an IVRS of these blocks."""
    table_broken(rule, numbers, name, ivrs(*blocks, **fields))


def ivrs_kept(rule, name, *blocks, **fields):
    table_kept(rule, name, ivrs(*blocks, **fields))


for length in range(36, 48):
    for fill in (0, 255):
        name, one = f"an IVRS of {length} bytes {fill}", table(b"IVRS", bytes([fill]) * (length - 36), 2)
        table_broken(IVRS_CUT, f"0x4 0x30 {length:#x}", name, one)
        for rule in OF_IVRS:
            table_kept(rule, name, one, madt(io_apic(0xFEC00000, 0)))
for count in range(1, 4):
    ivrs_broken(IVRS_CUT, f"0x30 0x0 {0x30 + count:#x}", f"{count} bytes", bytes(count))
    ivrs_broken(IVRS_CUT, f"0x30 0x0 {0x30 + count:#x}", f"{count} bytes of FFh", b"\xff" * count)
    ivrs_broken(IVRS_CUT, f"0x48 0x0 {0x48 + count:#x}", f"{count} bytes after a block", ivhd(), b"\4" * count)
for kind in (*BLOCKS, *OTHER_KINDS):
    for said in range(4):
        ivrs_broken(IVRS_CUT, f"0x30 {said:#x} 0x34", f"a head of type {kind:#x} and length {said}", of_ivrs(kind, 4, _2=bytes([said, 0])))
        ivrs_broken(
            IVRS_CUT, f"0x30 {said:#x} 0x58", f"40 bytes of type {kind:#x} and length {said}", of_ivrs(kind, 40, _2=bytes([said, 0])),
        )
    for said in (41, 256, 296, 0xFFFF):
        ivrs_broken(
            IVRS_CUT, f"0x30 {said:#x} 0x58", f"40 bytes of type {kind:#x} and length {said}", of_ivrs(kind, 40, _2=number(said, 2)),
        )
    for length in (4, 5, 24, 255, 256, 257, 0xFFFF):
        ivrs_kept(IVRS_CUT, f"{length} bytes of type {kind:#x}", of_ivrs(kind, length))
    ivrs_broken(IVRS_CUT, "0x30 0x5 0x34", f"4 of 5 bytes of type {kind:#x}", of_ivrs(kind, 5)[:4])
ivrs_kept(IVRS_CUT, "no block")
ivrs_kept(IVRS_CUT, "blocks of each type", *[of_ivrs(kind, length) for kind, length in BLOCKS.items()], of_ivrs(5, 4), of_ivrs(0xFF, 100))
ivrs_kept(IVRS_CUT, "blocks that are short, and entries that are cut", of_ivrs(0x10, 4), ivhd(b"\0"), ivhd(b"\x80"), of_ivrs(0x20, 31))
ivrs_broken(IVRS_CUT, "0x43 0x11 0x53", "16 bytes of the last block", of_ivrs(9, 19), of_ivrs(0x10, 17)[:16])
ivrs_broken(IVRS_CUT, "0x30 0x0 0x54", "a block of length 0 before others", bytes(4), ivmd())
ivrs_broken(IVRS_CUT, "0x68 0x3 0x80", "the third of three", ivhd(), ivmd(), of_ivrs(0x10, 24, _2=b"\3"))
table_broken(IVRS_CUT, "0x30 0x11 0x40", "a byte behind the table", ivrs(of_ivrs(0x10, 17)[:16]) + bytes(64))
for fields in ({"info": 0}, {"info": 2**32 - 1}, {"revision": 0}, {"revision": 1}):
    ivrs_broken(IVRS_CUT, "0x30 0x0 0x31", f"a byte, {fields}", b"\x10", **fields)
    ivrs_kept(IVRS_CUT, f"no byte, {fields}", **fields)

# ---- the IVRS: the lengths of its blocks
IVRS_SHORT = "IvrsShort"
for kind, least in BLOCKS.items():
    for length in range(4, least):
        ivrs_broken(IVRS_SHORT, f"0x30 {least:#x} {length:#x}", f"{length} bytes of type {kind:#x}", of_ivrs(kind, length))
    for length in (4, 5, least - 1):
        ivrs_broken(
            IVRS_SHORT, f"0x30 {least:#x} {length:#x}", f"{length} bytes FFh of type {kind:#x}", of_ivrs(kind, length, _4=b"\xff" * 36),
        )
    for length in (least, least + 1, least + 8, 255, 256, 260, 0xFFFF):
        ivrs_kept(IVRS_SHORT, f"{length} bytes of type {kind:#x}", of_ivrs(kind, length))
    ivrs_broken(IVRS_SHORT, f"0x48 {least:#x} {least - 1:#x}", f"the second block, of type {kind:#x}", ivhd(), of_ivrs(kind, least - 1))
    ivrs_broken(IVRS_SHORT, f"0x30 {least:#x} {least - 1:#x}", f"the first of two of type {kind:#x}", *[of_ivrs(kind, least - 1)] * 2)
    ivrs_broken(IVRS_SHORT, f"0x30 {least:#x} 0x4", f"4 bytes of type {kind:#x} before the cut", of_ivrs(kind, 4), b"\1")
    ivrs_broken(IVRS_SHORT, f"0x30 {least:#x} 0x4", f"4 bytes of type {kind:#x} with all flags", of_ivrs(kind, 4, _1=b"\xff"))
    ivrs_kept(IVRS_SHORT, f"4 bytes of type {kind:#x} after the cut", bytes(4), of_ivrs(kind, 4))
    ivrs_kept(IVRS_SHORT, f"type {kind:#x}, cut", of_ivrs(kind, least)[: least - 1])
for kind in OTHER_KINDS:
    for length in (4, 5, 23, 24, 31):
        ivrs_kept(IVRS_SHORT, f"{length} bytes of type {kind:#x}", of_ivrs(kind, length))
ivrs_broken(IVRS_SHORT, "0x30 0x28 0x27", "the least of two is not the first", of_ivrs(0x40, 39), of_ivrs(0x10, 4))
table_kept(IVRS_SHORT, "a block after the end of the table", ivrs(ivhd()) + of_ivrs(0x10, 4))

# ---- the IVRS: where the entries of a block end. Of a block at 0x30 they begin at 0x48, or at 0x58 of the later types.
ENTRIES_CUT = "IvhdEntryCut"
IVHDS = {IVHD_10: 0x48, IVHD_11: 0x58, IVHD_40: 0x58}
for kind, first in IVHDS.items():
    with_entries, of = partial(ivhd, kind=kind), f"in type {kind:#x}"
    ivrs_kept(ENTRIES_CUT, f"no entry {of}", with_entries())
    for entry_kind in (0, 3, 4, 0x3F):
        for count in (1, 2, 3):
            numbers = f"{first:#x} 0x4 {first + count:#x}"
            ivrs_broken(
                ENTRIES_CUT, numbers, f"{count} bytes of type {entry_kind:#x} {of}", with_entries(bytes([entry_kind, 1, 1])[:count]),
            )
        ivrs_kept(ENTRIES_CUT, f"4 bytes of type {entry_kind:#x} {of}", with_entries(device_entry(entry_kind)))
        ivrs_broken(
            ENTRIES_CUT, f"{first + 4:#x} 0x4 {first + 7:#x}", f"7 of type {entry_kind:#x} {of}",
            with_entries(bytes([entry_kind, 0, 0, 0] * 2)[:7]),
        )
    for entry_kind in (0x40, 0x43, 0x48, 0x7F):
        for count in (1, 2, 4, 7):
            numbers = f"{first:#x} 0x8 {first + count:#x}"
            ivrs_broken(ENTRIES_CUT, numbers, f"{count} bytes of type {entry_kind:#x} {of}", with_entries(device_entry(entry_kind)[:count]))
        ivrs_kept(ENTRIES_CUT, f"8 bytes of type {entry_kind:#x} {of}", with_entries(device_entry(entry_kind)))
        ivrs_kept(ENTRIES_CUT, f"12 bytes of type {entry_kind:#x} {of}", with_entries(device_entry(entry_kind), device_entry()))
    for entry_kind in (0x80, 0xEF, 0xF1, 0xFF):
        for count in (1, 4, 8, 22, 64):
            numbers = f"{first:#x} 0x0 {first + count:#x}"
            ivrs_broken(
                ENTRIES_CUT, numbers, f"{count} bytes of type {entry_kind:#x} {of}", with_entries(bytes([entry_kind]) + bytes(count - 1)),
            )
        numbers = f"{first + 12:#x} 0x0 {first + 20:#x}"
        ivrs_broken(
            ENTRIES_CUT, numbers, f"type {entry_kind:#x} after others {of}",
            with_entries(device_entry(), special(), bytes([entry_kind]) * 8),
        )
    for count in (1, 2, 8, 21):
        ivrs_broken(
            ENTRIES_CUT, f"{first:#x} 0x0 {first + count:#x}", f"{count} bytes of a device of the namespace {of}",
            with_entries(acpi_hid()[:count]),
        )
    for uid_length in (0, 1, 8, 9, 100, 255):
        one = acpi_hid(uid_kind=2, uid=b"A" * uid_length)
        ivrs_kept(ENTRIES_CUT, f"a device with a UID of {uid_length} bytes {of}", with_entries(one))
        ivrs_kept(ENTRIES_CUT, f"a device with a UID of {uid_length} bytes before an entry {of}", with_entries(one, device_entry()))
        if uid_length:
            numbers = f"{first:#x} {22 + uid_length:#x} {first + 21 + uid_length:#x}"
            ivrs_broken(ENTRIES_CUT, numbers, f"a byte less of a UID of {uid_length} bytes {of}", with_entries(one[:-1]))
            numbers = f"{first:#x} {22 + uid_length:#x} {first + 22:#x}"
            ivrs_broken(ENTRIES_CUT, numbers, f"no UID, of {uid_length} bytes {of}", with_entries(one[:22]))
    ivrs_broken(
        ENTRIES_CUT, f"{first:#x} 0x8 {first + 4:#x}", f"an entry that ends in the next block {of}", with_entries(special()[:4]), ivhd(),
    )
    ivrs_broken(ENTRIES_CUT, f"{first + 24:#x} 0x4 {first + 26:#x}", f"the second block {of}", ivhd(), with_entries(b"\1\1"))
    ivrs_broken(ENTRIES_CUT, f"{first:#x} 0x0 {first + 4:#x}", f"the first of two blocks {of}", *[with_entries(b"\xff" * 4)] * 2)
    ivrs_broken(ENTRIES_CUT, f"{first:#x} 0x4 {first + 1:#x}", f"a block before the cut {of}", with_entries(b"\1"), b"\1")
    ivrs_kept(ENTRIES_CUT, f"a block after the cut {of}", bytes(4), with_entries(b"\1"))
    for length in (4, BLOCKS[kind] - 1):
        ivrs_kept(ENTRIES_CUT, f"{length} bytes {of}", of_ivrs(kind, length, _4=b"\xff" * 36))
for kind in (IVMD_ALL, IVMD_ONE, IVMD_RANGE, IVMD_OTHER, *OTHER_KINDS):
    ivrs_kept(ENTRIES_CUT, f"type {kind:#x} has no entries", of_ivrs(kind, 64, _4=b"\xff" * 60))
ivrs_kept(ENTRIES_CUT, "bytes of the later fields", ivhd(kind=IVHD_40, flags=255), placed(ivhd(kind=IVHD_11), _24=b"\xff" * 16))
ivrs_broken(ENTRIES_CUT, "0x48 0x0 0x58", "bytes of the later fields in the first type", placed(ivhd(length=40), _24=b"\xff" * 16))

# ---- the IVRS: types of entries
ENTRY_TYPE = "IvhdEntryType"
KINDS = (0, 1, 2, 3, 4, 0x40, 0x42, 0x43, 0x46, 0x47)
for kind, first in IVHDS.items():
    with_entries, of = partial(ivhd, kind=kind), f"in type {kind:#x}"
    for entry_kind in KINDS:
        ivrs_kept(ENTRY_TYPE, f"type {entry_kind:#x} {of}", with_entries(device_entry(entry_kind, 0xFFFF, 0xFF)))
    for entry_kind in (*range(5, 10), 0x0F, 0x20, 0x3E, 0x3F, 0x41, 0x44, 0x45, 0x49, 0x4A, 0x50, 0x7E, 0x7F):
        ivrs_broken(ENTRY_TYPE, f"{first:#x} 0x0 {entry_kind:#x}", f"type {entry_kind:#x} {of}", with_entries(device_entry(entry_kind)))
        numbers = f"{first + 12:#x} 0x0 {entry_kind:#x}"
        ivrs_broken(
            ENTRY_TYPE, numbers, f"type {entry_kind:#x} after others {of}",
            with_entries(device_entry(), special(), device_entry(entry_kind)),
        )
        ivrs_kept(ENTRY_TYPE, f"type {entry_kind:#x}, cut {of}", with_entries(device_entry(entry_kind)[:3]))
    for entry_kind in (0x80, 0xC0, 0xEF, 0xF1, 0xFF):
        ivrs_kept(ENTRY_TYPE, f"type {entry_kind:#x} {of}", with_entries(bytes([entry_kind]) + bytes(7)))
        ivrs_broken(
            ENTRY_TYPE, f"{first:#x} 0x0 0x5", f"an entry before type {entry_kind:#x} {of}",
            with_entries(device_entry(5), bytes([entry_kind]) * 8),
        )
        ivrs_kept(ENTRY_TYPE, f"an entry after type {entry_kind:#x} {of}", with_entries(bytes([entry_kind]) * 4, device_entry(5)))
    for variety in (0, 1, 2, 3, 4, 5, 127, 128, 129, 255):
        if 1 <= variety <= 3:
            ivrs_kept(ENTRY_TYPE, f"variety {variety} {of}", with_entries(special(variety, 255, 0xFFFF)))
        else:
            ivrs_broken(ENTRY_TYPE, f"{first:#x} 0x7 {variety:#x}", f"variety {variety} {of}", with_entries(special(variety)))
        for entry_kind in (0x42, 0x46):
            ivrs_kept(
                ENTRY_TYPE, f"{variety} of type {entry_kind:#x} {of}", with_entries(placed(device_entry(entry_kind), _7=bytes([variety]))),
            )
    for length in (4, BLOCKS[kind] - 1):
        ivrs_kept(ENTRY_TYPE, f"{length} bytes {of}", of_ivrs(kind, length, _4=b"\5" * 36))
    device_of = f"{first:#x} 0x0 0xf0"
    with_uid = acpi_hid(uid_kind=3, uid=b"A")
    for name, one in (("one", acpi_hid(device=0x1234)), ("one without a name", acpi_hid(b"")), ("one with a UID", with_uid)):
        if kind == IVHD_40:
            continue
        ivrs_broken(ENTRY_TYPE, device_of, f"a device of the namespace {of}, {name}", with_entries(one))
        ivrs_broken(
            ENTRY_TYPE, f"{first + 4:#x} 0x0 0xf0", f"a device of the namespace after another {of}, {name}",
            with_entries(device_entry(), one),
        )
        ivrs_kept(ENTRY_TYPE, f"a device of the namespace that is cut {of}, {name}", with_entries(one[:21]))
    ivrs_broken(ENTRY_TYPE, f"{first:#x} 0x0 0x6", f"the first of two {of}", with_entries(device_entry(6), device_entry(5)))
    ivrs_broken(ENTRY_TYPE, f"{first + 24:#x} 0x0 0x6", f"the second block {of}", ivhd(), with_entries(device_entry(6)))
    ivrs_broken(ENTRY_TYPE, f"{first:#x} 0x0 0x6", f"a block before the cut {of}", with_entries(device_entry(6)), b"\1")
    ivrs_kept(ENTRY_TYPE, f"a block after the cut {of}", bytes(4), with_entries(device_entry(6)))
# of an entry of the namespace at 0x58 in a block of type 40h
in_40 = lambda *entries: ivhd(*entries, kind=IVHD_40)
for hid in (b"A", b"\xff", b"\0BC", b"AMDI0020", b"\0" * 7 + b"A"):
    if hid[0]:
        ivrs_kept(ENTRY_TYPE, f"the name {hid}", in_40(acpi_hid(hid)))
    else:
        ivrs_broken(ENTRY_TYPE, "0x58 0x4", f"the name {hid}", in_40(acpi_hid(hid)))
ivrs_broken(ENTRY_TYPE, "0x58 0x4", "no name, and a wrong UID", in_40(acpi_hid(b"", 3, b"A")))
ivrs_broken(ENTRY_TYPE, "0x58 0x4", "no name, and a second name", in_40(placed(acpi_hid(b""), _12=b"B" * 8)))
for uid_kind, uid_length in product((0, 1, 2, 3, 4, 128, 255), (0, 1, 7, 8, 9, 255)):
    name, one = f"a UID of kind {uid_kind} and {uid_length} bytes", in_40(acpi_hid(uid_kind=uid_kind, uid=bytes(uid_length)))
    if uid_kind > 2:
        ivrs_broken(ENTRY_TYPE, f"0x58 0x14 {uid_kind:#x}", name, one)
    elif (uid_kind == 0 and uid_length != 0) or (uid_kind == 1 and uid_length != 8):
        ivrs_broken(ENTRY_TYPE, f"0x58 0x15 {uid_length:#x}", name, one)
    else:
        ivrs_kept(ENTRY_TYPE, name, one)
ivrs_kept(ENTRY_TYPE, "the UID is cut", in_40(acpi_hid(b"", 3, b"AAAA")[:-1]))
ivrs_broken(ENTRY_TYPE, "0x74 0x15 0x7", "the second one", in_40(acpi_hid(uid_kind=2, uid=b"ABCDEF"), acpi_hid(uid_kind=1, uid=bytes(7))))
ivrs_broken(ENTRY_TYPE, "0x60 0x14 0x3", "one after a special entry", in_40(special(), acpi_hid(uid_kind=3)))
ivrs_broken(ENTRY_TYPE, "0x6e 0x7", "a special entry after one", in_40(acpi_hid(), special(0)))
for kind in (IVMD_ALL, IVMD_RANGE, *OTHER_KINDS):
    ivrs_kept(ENTRY_TYPE, f"block {kind:#x}", of_ivrs(kind, 64, _4=b"\5" * 60))
ivrs_kept(ENTRY_TYPE, "bytes of the later fields", placed(ivhd(kind=IVHD_11), _24=b"\5" * 16))
ivrs_broken(ENTRY_TYPE, "0x48 0x0 0x5", "bytes of the later fields in the first type", placed(ivhd(length=40), _24=b"\5" * 16))

# ---- the IVRS: where the registers of an IOMMU are
IVHD_ADDRESS = "IvhdAddress"
for kind in IVHDS:
    for base in (0, 1, 0x1000, 0x2000, 0x3FFF, 0x4001, 0xFED81000, 0xFED82000, 2**32 + 0x2000, TOP - 1, TOP - 0x2000, TOP - 0x3FFF):
        ivrs_broken(IVHD_ADDRESS, f"0x30 0x8 {base:#x}", f"type {kind:#x} at {base:#x}", ivhd(kind=kind, base=base))
    for base in (0x4000, 0x8000, 0xFED80000, 0xFED84000, 2**32, 2**63, TOP - 0x4000):
        ivrs_kept(IVHD_ADDRESS, f"type {kind:#x} at {base:#x}", ivhd(kind=kind, base=base))
    ones = placed(ivhd(kind=kind, base=0, device=0xFFFF, segment=0xFFFF, flags=255), _6=b"\xff\xff", _18=b"\xff" * 6)
    ivrs_broken(IVHD_ADDRESS, "0x30 0x8", f"all bytes beside 0, type {kind:#x}", ones)
    ivrs_broken(IVHD_ADDRESS, "0x48 0x8 0x1", f"the second block, of type {kind:#x}", ivhd(), ivhd(kind=kind, base=1))
    ivrs_broken(IVHD_ADDRESS, "0x30 0x8", f"the first of two, type {kind:#x}", ivhd(kind=kind, base=0), ivhd(base=1))
    ivrs_broken(IVHD_ADDRESS, "0x30 0x8", f"entries that are cut, type {kind:#x}", ivhd(b"\1", kind=kind, base=0))
    ivrs_broken(IVHD_ADDRESS, "0x30 0x8", f"a block before the cut, type {kind:#x}", ivhd(kind=kind, base=0), b"\1")
    ivrs_kept(IVHD_ADDRESS, f"a block after the cut, type {kind:#x}", bytes(4), ivhd(kind=kind, base=0))
    ivrs_kept(IVHD_ADDRESS, f"a block that is cut, type {kind:#x}", ivhd(kind=kind, base=0)[:-1])
    for length in range(4, BLOCKS[kind]):
        ivrs_kept(IVHD_ADDRESS, f"{length} bytes of type {kind:#x}", ivhd(kind=kind, base=1, length=length))
for kind in (IVMD_ALL, IVMD_ONE, IVMD_RANGE, IVMD_OTHER, *OTHER_KINDS):
    ivrs_kept(IVHD_ADDRESS, f"block {kind:#x}", of_ivrs(kind, 40))

# ---- the IVRS: blocks of one IOMMU. The second of two of type 10h is at 0x48, and after one of the later types at 0x58.
SAME_IVHD, DIFFERS = "SameIvhd", "IvhdDiffers"
for kind, second in IVHDS.items():
    of_kind = partial(ivhd, kind=kind)
    for value in (0, 1, 2, 255, 256, 0xFFFF):
        at = f"{value:#x}"
        numbers = f"{second:#x} 0x30 {at}"
        ivrs_broken(SAME_IVHD, numbers, f"two of type {kind:#x} and device {at}", of_kind(device=value), of_kind(device=value))
        ivrs_broken(
            SAME_IVHD, numbers, f"two of type {kind:#x}, device {at} and two addresses", of_kind(device=value),
            of_kind(device=value, base=0x4000),
        )
        numbers = f"{second:#x} 0x30 0x2"
        ivrs_broken(SAME_IVHD, numbers, f"two of type {kind:#x} and segment {at}", of_kind(segment=value), of_kind(segment=value))
        for bits in (1, 0x100, 0x8000):
            name = f"type {kind:#x}, {at} and {value ^ bits:#x}"
            ivrs_kept(SAME_IVHD, f"devices, {name}", of_kind(device=value), of_kind(device=value ^ bits))
            ivrs_kept(SAME_IVHD, f"segments, {name}", of_kind(segment=value), of_kind(segment=value ^ bits))
    for other_kind in set(IVHDS) - {kind}:
        ivrs_kept(SAME_IVHD, f"types {kind:#x} and {other_kind:#x}", of_kind(), ivhd(kind=other_kind))
        third = second + BLOCKS[other_kind]
        numbers = f"{third:#x} 0x30 0x2"
        ivrs_broken(SAME_IVHD, numbers, f"type {other_kind:#x} between two of type {kind:#x}", of_kind(), ivhd(kind=other_kind), of_kind())
    for length in (4, 18, BLOCKS[kind] - 1):
        ivrs_kept(SAME_IVHD, f"one of {length} bytes, type {kind:#x}", of_kind(length=length), of_kind())
        ivrs_kept(SAME_IVHD, f"the second of {length} bytes, type {kind:#x}", of_kind(), of_kind(length=length))
one, two = ivhd(device=1), ivhd(device=2)
for name, numbers, *blocks in (
    ("three", "0x48 0x30 0x1", one, one, one), ("two pairs, one in the other", "0x60 0x48 0x2", one, two, two, one),
    ("two pairs, crossed", "0x60 0x30 0x1", one, two, one, two),
    ("a pair of each segment", "0x60 0x30 0x1", one, ivhd(device=1, segment=1), one, ivhd(device=1, segment=1)),
    ("a pair of another segment first", "0x48 0x30 0x1", ivhd(device=1, segment=9), ivhd(device=1, segment=9), one, one),
    ("memory between", "0x68 0x30 0x1", one, ivmd(), one), ("entries", "0x50 0x30 0x1", ivhd(special(), device=1), one),
    ("entries that are cut", "0x49 0x30 0x1", ivhd(b"\1", device=1), one), ("two before the cut", "0x48 0x30 0x1", one, one, b"\1"),
    ("other flags and capabilities", "0x48 0x30 0x1", one, placed(ivhd(device=1, flags=255), _6=b"\xff\xff", _18=b"\xff" * 6)),
    ("a pair of type 40h before one of type 10h", "0x58 0x30 0x1", ivhd(device=1, kind=IVHD_40), ivhd(device=1, kind=IVHD_40), one, one),
):
    ivrs_broken(SAME_IVHD, numbers, name, *blocks)
for name, *blocks in (
    ("one", one), ("a block after the cut", one, bytes(4), one), ("a block that is cut", one, one[:23]),
    ("memory of one device", *[ivmd(IVMD_ONE, 1)] * 2),
    ("blocks of other types", *[of_ivrs(0x12, 40)] * 2), ("types of all", *[ivhd(kind=kind) for kind in IVHDS]),
):
    ivrs_kept(SAME_IVHD, name, *blocks)
HERE, THERE = 0x4000, 0x0102030405060000
for (kind, second), other_kind in product(IVHDS.items(), IVHDS):
    of_kinds = f"types {kind:#x} and {other_kind:#x}"
    first, later = partial(ivhd, kind=kind, base=HERE), partial(ivhd, kind=other_kind, base=HERE)
    ivrs_kept(DIFFERS, f"one IOMMU, {of_kinds}", first(), later())
    ivrs_kept(DIFFERS, f"two IOMMUs, {of_kinds}", first(), later(base=THERE, device=3))
    ivrs_kept(DIFFERS, f"two segments, {of_kinds}", first(), later(base=THERE, segment=3))
    ivrs_broken(DIFFERS, f"{second:#x} 0x30 {THERE:#x}", f"two addresses of one IOMMU, {of_kinds}", first(), later(base=THERE))
    for bit in (14, 31, 32, 63):
        ivrs_broken(
            DIFFERS, f"{second:#x} 0x30 {HERE ^ 1 << bit:#x}", f"two addresses, bit {bit}, {of_kinds}", first(),
            later(base=HERE ^ 1 << bit),
        )
    for bit in (0, 8, 15):
        ivrs_broken(
            DIFFERS, f"{second:#x} 0x30 0x4000", f"two devices at one address, bit {bit}, {of_kinds}", first(), later(device=2 ^ 1 << bit),
        )
        ivrs_broken(
            DIFFERS, f"{second:#x} 0x30 0x4000", f"two segments at one address, bit {bit}, {of_kinds}", first(), later(segment=1 << bit),
        )
    ivrs_broken(DIFFERS, f"{second:#x} 0x30 0x4000", f"another device and segment, {of_kinds}", first(), later(device=9, segment=9))
    for length in (4, 18, BLOCKS[kind] - 1):
        ivrs_kept(DIFFERS, f"the first of {length} bytes, {of_kinds}", first(length=length), later(base=THERE))
    for length in (4, 18, BLOCKS[other_kind] - 1):
        ivrs_kept(DIFFERS, f"the second of {length} bytes, {of_kinds}", first(), later(base=THERE, length=length))
for name, numbers, *blocks in (
    ("two addresses of 0 and of one", "0x48 0x30", ivhd(base=1), ivhd(base=0)),
    ("two devices at 0", "0x48 0x30", ivhd(base=0), ivhd(base=0, device=1)),
    ("the third one", "0x60 0x30 0x8000", ivhd(base=HERE), ivhd(base=HERE), ivhd(base=0x8000)),
    ("the third, of the second", "0x60 0x48 0xc000", ivhd(base=HERE), ivhd(device=3, base=0x8000), ivhd(device=3, base=0xC000)),
    ("the third, by the first of three", "0x48 0x30 0x8000", ivhd(base=HERE), ivhd(base=0x8000), ivhd(base=HERE)),
    ("the first device at the second address", "0x60 0x30 0x8000", ivhd(base=HERE), ivhd(device=3, base=0x8000), ivhd(base=0x8000)),
    ("the second device at the first address", "0x60 0x30 0x4000", ivhd(base=HERE), ivhd(device=3, base=0x8000), ivhd(device=3, base=HERE)),
    ("one at the address of a third one", "0x48 0x30 0x4000", ivhd(base=HERE), ivhd(device=3, base=HERE), ivhd(device=3, base=0x8000)),
    ("memory between", "0x68 0x30 0x8000", ivhd(base=HERE), ivmd(), ivhd(base=0x8000)),
    ("entries that are cut", "0x49 0x30 0x8000", ivhd(b"\1", base=HERE), ivhd(base=0x8000)),
    ("two before the cut", "0x48 0x30 0x8000", ivhd(base=HERE), ivhd(base=0x8000), b"\1"),
):
    ivrs_broken(DIFFERS, numbers, name, *blocks)
for name, *blocks in (
    ("one", ivhd()), ("one of each type", *[ivhd(kind=kind) for kind in IVHDS]),
    ("a block after the cut", ivhd(), bytes(4), ivhd(base=0x4000)),
    ("other flags and capabilities", ivhd(), placed(ivhd(kind=IVHD_11, flags=255), _6=b"\xff\xff", _18=b"\xff" * 22)),
    ("a block that is cut", ivhd(), ivhd(base=0x4000)[:23]), ("memory", ivhd(), of_ivrs(0x20, 32, _4=b"\2")),
    ("a block of type 12h", ivhd(), of_ivrs(0x12, 40, _4=b"\2")),
):
    ivrs_kept(DIFFERS, name, *blocks)

# ---- the IVRS: ranges of devices
RANGE = "IvhdRange"
starting = {3: partial(device_entry, 3), 0x43: partial(device_entry, 0x43), 0x47: partial(device_entry, 0x47)}
ending, single = partial(device_entry, RANGE_END), partial(device_entry, ONE_DEVICE)
OTHER_ENTRIES = (
    ("one device", single(0x300)), ("all", device_entry(ALL_DEVICES, 0x300)), ("an alias", device_entry(ALIAS)),
    ("a special entry", special()),
    ("a device of the namespace", acpi_hid()),
)
for kind, first in IVHDS.items():
    with_entries = partial(ivhd, kind=kind)
    for entry_kind, start in starting.items():
        size, of = len(start()), f"type {entry_kind:#x} in type {kind:#x}"
        after = first + size
        for begin, end in ((0, 0), (1, 1), (1, 2), (0, 0xFFFF), (0xFFFF, 0xFFFF), (0xFF, 0x100), (0x100, 0x1FF)):
            ivrs_kept(RANGE, f"from {begin:#x} to {end:#x}, {of}", with_entries(start(begin), ending(end)))
        for begin, end in ((1, 0), (0xFFFF, 0xFFFE), (0x100, 0xFF), (0x200, 0x1FF), (0xFFFF, 0)):
            ivrs_broken(RANGE, f"{after:#x} 0x1 {end:#x}", f"from {begin:#x} to {end:#x}, {of}", with_entries(start(begin), ending(end)))
        ivrs_broken(RANGE, f"{first:#x} 0x1 0x102", f"no end, {of}", with_entries(start(0x102)))
        ivrs_broken(RANGE, f"{first:#x} 0x1 0x102", f"no end before the next block, {of}", with_entries(start(0x102)), ivhd(ending(0x103)))
        for name, more in OTHER_ENTRIES:
            ivrs_broken(RANGE, f"{first:#x} 0x1 0x102", f"{name} and no end, {of}", with_entries(start(0x102), more))
            ivrs_broken(RANGE, f"{first:#x} 0x1 0x102", f"{name} before the end, {of}", with_entries(start(0x102), more, ending(0x103)))
            ivrs_kept(RANGE, f"{name} after the end, {of}", with_entries(start(0x102), ending(0x103), more))
        for other_kind, another in starting.items():
            numbers = f"{first:#x} 0x1 0x102"
            ivrs_broken(
                RANGE, numbers, f"type {other_kind:#x} before the end, {of}", with_entries(start(0x102), another(0x103), ending(0x104)),
            )
            ivrs_kept(
                RANGE, f"type {other_kind:#x} after the end, {of}", with_entries(start(0x102), ending(0x103), another(0x50), ending(0x51)),
            )
            numbers = f"{after + 4:#x} 0x1 0x104"
            ivrs_broken(
                RANGE, numbers, f"type {other_kind:#x} without an end, {of}", with_entries(start(0x102), ending(0x103), another(0x104)),
            )
        ivrs_broken(RANGE, f"{after + 4:#x} 0x1 0x104", f"two ends, {of}", with_entries(start(0x102), ending(0x103), ending(0x104)))
        for name, cut in (("a byte", b"\1"), ("a byte of an end", b"\4"), ("three bytes", ending(9)[:3]), ("type 80h", b"\x80" * 8)):
            ivrs_kept(RANGE, f"{name} after it, {of}", with_entries(start(0x102), cut))
            ivrs_broken(RANGE, f"{first:#x} 0x1 0x102", f"one device and {name} after it, {of}", with_entries(start(0x102), single(), cut))
            ivrs_broken(
                RANGE, f"{after:#x} 0x1 0x101", f"an end below it, and {name}, {of}", with_entries(start(0x102), ending(0x101), cut),
            )
        ivrs_broken(RANGE, f"{first:#x} 0x1 0x102", f"a block before the cut, {of}", with_entries(start(0x102)), b"\1")
        ivrs_kept(RANGE, f"a block after the cut, {of}", bytes(4), with_entries(start(0x102)))
    ivrs_broken(RANGE, f"{first:#x} 0x1 0x102", f"an end first in type {kind:#x}", with_entries(ending(0x102)))
    ivrs_broken(RANGE, f"{first:#x} 0x1", f"an end of device 0 first in type {kind:#x}", with_entries(ending(0), starting[3](1), ending(2)))
    ivrs_broken(RANGE, f"{first:#x} 0x1 0x102", f"an end first in type {kind:#x}, and then a cut", with_entries(ending(0x102), b"\1"))
    for name, more in (*OTHER_ENTRIES, ("type 0", bytes(4)), ("type 5", device_entry(5)), ("type 46h", device_entry(EXTENDED))):
        ivrs_broken(RANGE, f"{first + len(more):#x} 0x1 0x102", f"an end after {name} in type {kind:#x}", with_entries(more, ending(0x102)))
        ivrs_kept(RANGE, f"{name} alone in type {kind:#x}", with_entries(more))
    ivrs_kept(RANGE, f"no entry in type {kind:#x}", with_entries())
    for length in (4, BLOCKS[kind] - 1):
        ivrs_kept(RANGE, f"{length} bytes of type {kind:#x}", of_ivrs(kind, length, _4=b"\4" * 36))
ivrs_broken(RANGE, "0x48 0x1 0x9", "a start with a setting", ivhd(starting[3](9, 255)))
ivrs_broken(RANGE, "0x48 0x1 0x9", "an end with a setting", ivhd(ending(9, 255)))
ivrs_broken(RANGE, "0x4c 0x1 0x8", "a range with a setting that ends before it starts", ivhd(starting[3](9), ending(8, 255)))
ivrs_kept(RANGE, "a range with settings", ivhd(starting[3](9, 255), ending(9)))
ivrs_broken(RANGE, "0x60 0x1 0x9", "the second block", ivhd(), ivhd(ending(9)))
ivrs_broken(RANGE, "0x48 0x1 0x9", "the first of two", ivhd(starting[3](9)), ivhd(ending(8)))
for kind in (IVMD_ALL, *OTHER_KINDS):
    ivrs_kept(RANGE, f"block {kind:#x}", of_ivrs(kind, 64, _4=b"\4" * 60))
ivrs_kept(RANGE, "bytes of the later fields", placed(ivhd(kind=IVHD_11), _24=b"\4" * 16))
ivrs_broken(RANGE, "0x48 0x1 0x404", "bytes of the later fields in the first type", placed(ivhd(length=40), _24=b"\4" * 16))

# ---- the IVRS: what is sought in it, and is said to be missing only where no block and no entry is lost
NO_IVHD, IO_APIC_IN = "NoIvhd", "IoApicNotInIvrs"
IVRS_NOT_FORMED = (
    ("a byte", b"\1"), ("a head of length 0", bytes(4)), ("a block without its last byte", of_ivrs(9, 8)[:7]),
    *((f"type {kind:#x}, a byte too short", of_ivrs(kind, least - 1)) for kind, least in BLOCKS.items()),
    *((f"type {kind:#x} with a byte of an entry", ivhd(b"\1", kind=kind)) for kind in IVHDS),
    *((f"type {kind:#x} with an entry of type 80h", ivhd(b"\x80" * 4, kind=kind)) for kind in IVHDS),
    ("a special entry a byte too short", ivhd(special(2)[:7])), ("a UID a byte too short", in_40(acpi_hid(uid_kind=2, uid=b"AB")[:-1])),
)
for rule, numbers, block in ((NO_IVHD, "", ivmd()), (IO_APIC_IN, "0x2c 0x2 0x2", ivhd(special(1, 3)))):
    table_broken(rule, numbers, "a well-formed IVRS", ivrs(block), IO_APIC_2)
    for name, last in IVRS_NOT_FORMED:
        table_kept(rule, f"{name} at the end", ivrs(block, last), IO_APIC_2)
        table_kept(rule, f"{name} at the beginning", ivrs(last, block), IO_APIC_2)
    for name, last in (
        ("type 12h of 4 bytes", of_ivrs(0x12, 4)), ("type FFh", of_ivrs(0xFF, 9)), ("memory of no bytes", ivmd(size=0)),
        ("memory of type 23h", ivmd(IVMD_OTHER)),
    ):
        table_broken(rule, numbers, f"{name} at the end", ivrs(block, last), IO_APIC_2)
    table_broken(rule, numbers, "all bits of IVinfo", ivrs(block, info=2**32 - 1), IO_APIC_2)
    table_broken(rule, numbers, "an IVRS that does not sum to 0", changed(ivrs(block), {9: 0}), IO_APIC_2)
ivrs_broken(NO_IVHD, "", "no block")
for kind in (*list(BLOCKS)[3:], *OTHER_KINDS):
    ivrs_broken(NO_IVHD, "", f"a block of type {kind:#x}", of_ivrs(kind, 40))
    for there in IVHDS:
        ivrs_kept(NO_IVHD, f"type {there:#x} after one of type {kind:#x}", of_ivrs(kind, 40), ivhd(kind=there))
        ivrs_kept(NO_IVHD, f"4 bytes of type {there:#x} after one of type {kind:#x}", of_ivrs(kind, 40), of_ivrs(there, 4))
for kind in IVHDS:
    ivrs_kept(NO_IVHD, f"an IOMMU of type {kind:#x}", ivhd(kind=kind))
    ivrs_kept(NO_IVHD, f"an IOMMU at 0 of type {kind:#x}", ivhd(kind=kind, base=0))
table_broken(NO_IVHD, "", "an IOMMU behind the table", ivrs() + ivhd())

# ---- the IVRS: I/O APICs. Of a MADT the first one is at 0x2C and the second at 0x38; the first entry of a block of type 10h is at 0x48.
SAME_SPECIAL = "SameSpecial"
OTHER_IOMMU = {"device": 3, "base": 0x4000}
for kind, first in IVHDS.items():
    with_entries, of = partial(ivhd, kind=kind), f"in type {kind:#x}"
    for value in (0, 1, 2, 128, 255):
        at = f"{value:#x}"
        numbers, one = f"0x2c 0x2 {at}", madt(io_apic(0xFEC00000, 0, value))
        table_broken(IO_APIC_IN, numbers, f"I/O APIC {at} {of}", ivrs(with_entries(special(1, value ^ 1))), one)
        reserved = madt(io_apic(0xFEC00000, 0, value, 0xFF))
        table_kept(IO_APIC_IN, f"I/O APIC {at} with a reserved byte, and its entry {of}", ivrs(with_entries(special(1, value))), reserved)
        table_kept(IO_APIC_IN, f"I/O APIC {at} and its entry {of}", ivrs(with_entries(special(1, value))), one)
        table_kept(
            IO_APIC_IN, f"I/O APIC {at} and the last entry {of}",
            ivrs(with_entries(special(1, 9)), with_entries(special(1, value), **OTHER_IOMMU)), one,
        )
        for variety in (0, 2, 3, 255):
            table_kept(IO_APIC_IN, f"I/O APIC {at} and variety {variety} alone {of}", ivrs(with_entries(special(variety, value ^ 1))), one)
            both = with_entries(special(variety, value), special(1, value ^ 1))
            table_broken(IO_APIC_IN, numbers, f"I/O APIC {at}, of variety {variety} {of}", ivrs(both), one)
        for other_kind in set(IVHDS) - {kind}:
            without, of_both = ivhd(special(1, value ^ 1), kind=other_kind), f"{at}, {of} and in type {other_kind:#x}"
            table_broken(IO_APIC_IN, numbers, f"not I/O APIC {of_both}", ivrs(with_entries(special(1, value)), without), one)
            table_broken(
                IO_APIC_IN, numbers, f"not I/O APIC {of_both}, which is first", ivrs(without, with_entries(special(1, value))), one,
            )
            none = ivhd(special(2, value), kind=other_kind)
            table_kept(IO_APIC_IN, f"I/O APIC {of_both}, where no I/O APIC is", ivrs(none, with_entries(special(1, value))), one)
        numbers = f"{first + 8:#x} {first:#x} {at}"
        for variety in (0, 1, 2, 3, 255):
            two = special(variety, value), special(variety, value, 0)
            ivrs_broken(SAME_SPECIAL, numbers, f"two entries {at} of variety {variety} {of}", with_entries(*two))
            ivrs_kept(
                SAME_SPECIAL, f"entries {at} and {value ^ 1:#x} of variety {variety} {of}",
                with_entries(special(variety, value), special(variety, value ^ 1)),
            )
            ivrs_kept(
                SAME_SPECIAL, f"{at} of varieties {variety} and {variety ^ 1} {of}",
                with_entries(special(variety, value), special(variety ^ 1, value)),
            )
            later = first + 8 + BLOCKS[kind]
            two = with_entries(special(variety, value)), with_entries(special(variety, value), **OTHER_IOMMU)
            ivrs_broken(SAME_SPECIAL, f"{later:#x} {first:#x} {at}", f"two IOMMUs with {at} of variety {variety} {of}", *two)
            for other_kind in set(IVHDS) - {kind}:
                two = with_entries(special(variety, value)), ivhd(special(variety, value), kind=other_kind)
                ivrs_kept(SAME_SPECIAL, f"{at} of variety {variety} {of} and in type {other_kind:#x}", *two)
    for length in (4, BLOCKS[kind] - 1):
        ivrs_kept(SAME_SPECIAL, f"{length} bytes {of}", *[of_ivrs(kind, length, _4=special() * 4)] * 2)
WITH_2_IVRS = ivrs(ivhd(special(1, 2)))
for name, numbers, *entries in (
    ("the second I/O APIC", "0x38 0x2 0x3", io_apic(0xFEC00000, 0, 2), io_apic(0xFEC10000, 24, 3)),
    ("the first of two", "0x2c 0x2 0x9", io_apic(0xFEC00000, 0, 9), io_apic(0xFEC10000, 24, 3)),
    ("an I/O APIC after others", "0x36 0x2 0x1", lapic(0, 0), other(127, 2), io_apic(0xFEC00000, 0, 1)),
    ("an I/O APIC at 0", "0x2c 0x2 0x1", io_apic(0, 0, 1, 255)),
):
    table_broken(IO_APIC_IN, numbers, name, WITH_2_IVRS, madt(*entries))
    table_broken(IO_APIC_IN, numbers, f"{name}, in a MADT before the IVRS", madt(*entries), WITH_2_IVRS)
    table_kept(IO_APIC_IN, f"{name}, and no entry", ivrs(ivhd()), madt(*entries))
WITHOUT_2 = ivrs(ivhd(special(1, 3)))
for name, entries in (
    ("no entry", ()), ("a local APIC", (lapic(0, 0),)), ("an I/O SAPIC", (other(6, 16),)), ("a byte after it", (NO_2, b"\0")),
    ("an entry of no bytes before it", (b"\0\0", NO_2)), ("an I/O APIC that is cut", (NO_2[:-1],)),
    ("an I/O APIC of 11 bytes", (other(1, 11),)),
    ("one of 13 bytes, too", (NO_2, other(1, 13))), ("a local APIC of 7 bytes", (NO_2, other(0, 7))),
    ("a local x2APIC of 15 bytes", (NO_2, other(9, 15))),
):
    table_kept(IO_APIC_IN, f"a MADT with {name}", WITHOUT_2, madt(*entries))
for name, beside in (
    ("a MADT of 43 bytes", blank_table(b"APIC", 43, 5)), ("a MADT without its last byte", IO_APIC_2[:-1]),
    ("a MADT of another signature", changed(IO_APIC_2, {0: ord("X")})),
):
    table_kept(IO_APIC_IN, name, WITHOUT_2, beside)
table_kept(IO_APIC_IN, "no MADT", WITHOUT_2)
table_broken(IO_APIC_IN, "0x2c 0x2 0x2", "two MADTs", WITHOUT_2, IO_APIC_2, madt())
table_kept(IO_APIC_IN, "two MADTs, of which the second one has an I/O APIC", WITHOUT_2, madt(), IO_APIC_2)
c, d = special(1, 2), special(2, 2)
for name, numbers, *blocks in (
    ("three", "0x50 0x48 0x2", ivhd(c, c, c)), ("two pairs, one in the other", "0x58 0x50 0x2", ivhd(c, d, d, c)),
    ("two pairs, crossed", "0x58 0x48 0x2", ivhd(c, d, c, d)), ("another entry between", "0x54 0x48 0x2", ivhd(c, single(), c)),
    ("pairs of two types, the later type first", "0x60 0x58 0x2", in_40(c, c), ivhd(c, c)),
    ("blocks between", "0x88 0x48 0x2", ivhd(c), ivmd(), ivhd(c, device=5)),
    ("entries before the cut", "0x50 0x48 0x2", ivhd(c, c, b"\1")), ("blocks before the cut", "0x50 0x48 0x2", ivhd(c, c), b"\1"),
    ("one number of each segment", "0x68 0x48 0x2", ivhd(c), ivhd(c, segment=1)),
):
    ivrs_broken(SAME_SPECIAL, numbers, name, *blocks)
for name, *blocks in (
    ("one entry", ivhd(c)), ("an entry after the cut", ivhd(c, b"\x80" * 8, c)), ("an entry that is cut", ivhd(c, c[:7])),
    ("a block after the cut", ivhd(c), bytes(4), ivhd(c)),
    ("aliases", ivhd(device_entry(0x42), device_entry(0x42))), ("one of each type", *[ivhd(c, kind=kind) for kind in IVHDS]),
):
    ivrs_kept(SAME_SPECIAL, name, *blocks)

# ---- the IVRS: memory that devices use
MEMORY_OF = "IvmdRange"
for kind in (IVMD_ALL, IVMD_ONE, IVMD_RANGE):
    of_kind, of = partial(ivmd, kind), f"in type {kind:#x}"
    for flags in (*range(18), 0x21, 0x40, 0x41, 0x48, 0x80, 0x81, 0x88, 0xF0, 0xFF):
        if flags in (1, 3, 5, 7, *range(8, 16)):
            ivrs_kept(MEMORY_OF, f"flags {flags:#x} {of}", of_kind(flags=flags))
        else:
            ivrs_broken(MEMORY_OF, f"0x30 0x1 {flags:#x}", f"flags {flags:#x} {of}", of_kind(flags=flags))
    for start, size in (
        (1, TOP - 1), (2, TOP - 1), (TOP - 1, 1), (TOP - 1, 2), (TOP - 1, TOP - 1), (2**63, 2**63), (2**63 + 1, 2**63),
        (TOP - 0x1000, 0x1001),
        (0, TOP - 1),
    ):
        if start + size > TOP:
            ivrs_broken(MEMORY_OF, f"0x30 0x10 {start:#x}", f"{size:#x} bytes from {start:#x} on {of}", of_kind(start=start, size=size))
        else:
            ivrs_kept(MEMORY_OF, f"{size:#x} bytes from {start:#x} on {of}", of_kind(start=start, size=size))
    for start in (0, 1, 0x1000, TOP - 1):
        ivrs_broken(MEMORY_OF, "0x30 0x18", f"no byte from {start:#x} on {of}", of_kind(start=start, size=0))
    for size in (1, 256, 2**32, 2**56):
        ivrs_kept(MEMORY_OF, f"{size:#x} bytes {of}", of_kind(start=0, size=size))
    for device, last in ((1, 0), (0x100, 0xFF), (0xFFFF, 0xFFFE), (0xFFFF, 0)):
        if kind == IVMD_RANGE:
            ivrs_broken(MEMORY_OF, f"0x30 0x6 {last:#x}", f"devices {device:#x} to {last:#x} {of}", of_kind(device, last))
        else:
            ivrs_kept(MEMORY_OF, f"devices {device:#x} to {last:#x} {of}", of_kind(device, last))
    for device, last in ((0, 0), (0, 1), (0xFF, 0x100), (0xFFFF, 0xFFFF)):
        ivrs_kept(MEMORY_OF, f"devices {device:#x} to {last:#x} {of}", of_kind(device, last))
    ivrs_broken(MEMORY_OF, "0x30 0x1", f"all is wrong {of}", of_kind(1, 0, TOP - 1, TOP - 1, flags=0))
    for length in (4, 16, 31):
        ivrs_kept(MEMORY_OF, f"{length} bytes {of}", of_kind(size=0, flags=0, length=length))
    ivrs_broken(MEMORY_OF, "0x30 0x1", f"33 bytes {of}", of_kind(flags=0, length=33))
    ivrs_broken(MEMORY_OF, "0x48 0x18", f"the second block {of}", ivhd(), of_kind(size=0))
    ivrs_broken(MEMORY_OF, "0x30 0x18", f"the first of two {of}", of_kind(size=0), of_kind(flags=0))
    ivrs_broken(MEMORY_OF, "0x30 0x18", f"a block before the cut {of}", of_kind(size=0), b"\1")
    ivrs_kept(MEMORY_OF, f"a block after the cut {of}", bytes(4), of_kind(size=0))
    ivrs_kept(MEMORY_OF, f"a block that is cut {of}", of_kind(size=0)[:31])
for numbers, fields in (
    ("0x30 0x6", {"device": 1, "start": TOP - 1, "size": 2}), ("0x30 0x6", {"device": 1, "size": 0}),
    ("0x30 0x10 0xffffffffffffffff", {"start": TOP - 1, "size": 2}),
    ("0x30 0x1 0x10", {"device": 1, "flags": 0x10, "size": 0}),
):
    ivrs_broken(MEMORY_OF, numbers, f"{fields} of a range", ivmd(IVMD_RANGE, **fields))
ivrs_broken(MEMORY_OF, "0x30 0x6 0x1", "a range that is reversed, and reserved bytes", placed(ivmd(IVMD_RANGE, 2, 1), _8=b"\xff" * 8))
ivrs_kept(MEMORY_OF, "a range, and reserved bytes", placed(ivmd(IVMD_RANGE, 1, 2), _8=b"\xff" * 8))
for kind in (IVMD_OTHER, *IVHDS, *OTHER_KINDS):
    ivrs_kept(MEMORY_OF, f"block {kind:#x}", of_ivrs(kind, 40))

# ---- which table is read. Of each rule the numbers of one that is broken, the table, and others that it needs.
RIGHT_DMAR = dmar(
    drhd(apic_scope(2), device_scope(1)), rmrr(scope()), atsr(scope()), rhsa(domain=OF_ALL[0]), andd(), satc(scope()), sidp(scope()),
)
RIGHT_ENTRIES = device_entry(ALL_DEVICES), starting[3](1), ending(2), device_entry(ALIAS, 3), special(1, 2), special(2, 2)
RIGHT_IVRS = ivrs(
    ivhd(*RIGHT_ENTRIES), ivhd(*RIGHT_ENTRIES, kind=IVHD_11), in_40(*RIGHT_ENTRIES, acpi_hid()), ivmd(), ivmd(IVMD_RANGE, 1, 2, flags=8),
)
for rule, numbers, wrong, *beside in (
    (WIDTH, "0x24 0x0 0xa", dmar(width=10)), (CUT, "0x30 0x0 0x31", dmar(b"\1")), (SHORT, "0x30 0x10 0x4", dmar(of_dmar(0, 4))),
    (NONE, "", dmar()),
    (SCOPES, "0x40 0x0 0x41", dmar(drhd(b"\1"))), (TYPE, "0x40", dmar(drhd(scope(0)))), (ADDRESS, "0x30 0x8", dmar(drhd(base=0))),
    (SHARED, f"0x30 0x40 {REGISTERS_AT:#x}", dmar(drhd(), drhd())), (ALL, "0x40 0x30", dmar(of_all(), of_all())),
    (LAST, "0x40 0x30", dmar(of_all(), drhd())), (REGION, "0x30 0x8 0x1", dmar(rmrr(base=1))), (NO_DEVICE, "0x30 0x20 0x18", dmar(rmrr())),
    (RHSA_OF, "0x30 0x8 0x1", dmar(rhsa(base=1))), (DOMAIN, "0x30 0x10 0x1", dmar(rhsa(domain=1)), SRAT),
    (SAME_RHSA, "0x44 0x30 0x1", dmar(rhsa(base=1), rhsa(base=1))), (NAME, "0x30 0x8", dmar(andd(1, b"A"))),
    (DEVICE_OF, "0x30 0x7 0x1", dmar(andd())), (IO_APIC_OF, "0x2c 0x2 0x2", WITHOUT, IO_APIC_2),
    (SAME_SCOPE, "0x48 0x40 0x2", dmar(drhd(a, a))),
):
    which_table(rule, numbers, wrong, RIGHT_DMAR, beside, IOMMUS)

# ---- all lines, in their order, of sets that break several rules
whole("a DMAR", sound(RIGHT_DMAR))
whole(
    "a DMAR with what it names",
    sound(RIGHT_DMAR, srat(memory(0, 1, domain=OF_ALL[0])), revised(madt(lapic(0, 0), io_apic(0xFEC00000, 0, 2)), 6)),
)
whole(
    "a DMAR of which interrupts are remapped",
    sound(changed(RIGHT_DMAR, {37: 1}, (9, len(RIGHT_DMAR))), revised(madt(lapic(0, 0), io_apic(0xFEC00000, 0, 2)), 6)),
)
whole(
    "a DMAR that is wrong in all but what is missing, and an SRAT",
    sound(
        dmar(
            of_all(base=0),  # 0x30
            drhd(base=0x2000, size=1),  # 0x40
            of_all(apic_scope(2), apic_scope(2), base=0x3000),  # 0x50
            rmrr(base=1),  # 0x70
            rhsa(base=0x5000, domain=1),  # 0x88
            rhsa(base=0x5000),  # 0x9C
            andd(1, b"A"),  # 0xB0
            satc(scope(6)),  # 0xB9
            atsr(b"\1"),  # 0xC9
            of_dmar(3, 19),  # 0xD2
            b"\1\0\2",  # 0xE5
            width=64,
        ),
        srat(memory(0, 1)),
    ),
    "DmarWidth 0x24 0x0 0x40", "DmarCut 0xe5 0x0 0xe8", "DmarShort 0xd2 0x14 0x13", "ScopeCut 0xd1 0x0 0xd2", "ScopeType 0xc1 0x0 0x6",
    "DrhdAddress 0x30 0x8", "DrhdOverlap 0x40 0x50 0x3000", "SecondIncludeAll 0x50 0x30", "IncludeAllNotLast 0x40 0x30",
    "RmrrRange 0x70 0x8 0x1", "RmrrNoDevice 0x70 0x20 0x18", "RhsaDomain 0x88 0x10 0x1", "SameRhsa 0x9c 0x88 0x5000", "AnddName 0xb0 0x8",
    "SameScope 0x68 0x60 0x2",
)
whole(
    "a DMAR that lacks all that is sought in it",
    sound(
        dmar(
            rmrr(device_scope(3)),  # 0x30
            rhsa(),  # 0x50
            andd(3),  # 0x64
            flags=1,
        ),
        revised(madt(lapic(0, 0), io_apic(0xFEC00000, 0, 2)), 6),
    ),
    "NoDrhd", "RhsaNowhere 0x50 0x8 0xfed90000", "AnddNowhere 0x64 0x7 0x3", "IoApicUnmapped 0x34 0x2 0x2",
)
whole("an IVRS", sound(RIGHT_IVRS))
whole("a DMAR and an IVRS", sound(RIGHT_DMAR, RIGHT_IVRS, revised(madt(lapic(0, 0), io_apic(0xFEC00000, 0, 2)), 6)))
whole(
    "an IVRS that is wrong in all but what is missing",
    sound(
        ivrs(
            ivhd(starting[3](9), c, c, base=0x1000),  # 0x30, of which the entries are at 0x48, 0x4C and 0x54
            ivhd(device_entry(5), base=0x8000),  # 0x5C, of which the entry is at 0x74
            in_40(acpi_hid(b""), b"\x80"),  # 0x78, of which the entries are at 0xA0 and 0xB6
            ivmd(IVMD_RANGE, 2, 1),  # 0xB7
            of_ivrs(0x21, 31),  # 0xD7
            b"\1\0\2",  # 0xF6
        ),
    ),
    "IvrsCut 0xf6 0x0 0xf9", "IvrsShort 0xd7 0x20 0x1f", "IvhdAddress 0x30 0x8 0x1000", "SameIvhd 0x5c 0x30 0x2",
    "IvhdDiffers 0x5c 0x30 0x8000", "IvhdEntryCut 0xb6 0x0 0xb7", "IvhdEntryType 0x74 0x0 0x5", "IvhdRange 0x48 0x1 0x9",
    "SameSpecial 0x54 0x4c 0x2", "IvmdRange 0xb7 0x6 0x1",
)
whole("an IVRS of memory alone", sound(ivrs(ivmd())), "NoIvhd")
whole(
    "an IVRS that lacks an I/O APIC", sound(WITHOUT_2, revised(madt(lapic(0, 0), io_apic(0xFEC00000, 0, 2)), 6)),
    "IoApicNotInIvrs 0x34 0x2 0x2",
)
whole("an IVRS that ends before its blocks begin", sound(blank_table(b"IVRS", 47, 2)), "IvrsCut 0x4 0x30 0x2f")
whole(
    "two of each, the first of which are valid", sound(RIGHT_DMAR, RIGHT_IVRS, dmar(b"\1"), ivrs(b"\1")), "SecondOther 0x3 0x1 0x5000",
)
whole(
    "each table alone, and none that sums to 0", sound(changed(dmar(b"\1"), {9: 0}), changed(ivrs(b"\1"), {9: 0})),
    "DmarCut 0x30 0x0 0x31", "IvrsCut 0x30 0x0 0x31", faults=("no 3 TableSum 0x1 0x3000",),
)
whole("a DMAR that ends before its structures begin", sound(blank_table(b"DMAR", 47, 1)), "DmarWidth 0x4 0x30 0x2f")
