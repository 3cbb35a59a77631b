"""Sets of tables with an MCFG, an HPET or an SPCR, each with one rule on these and the line that `lint` has to write of it, or None where
the set just keeps the rule; and at the end sets with all their lines. Each line is worked out by hand from the rules in docs/TABLES.md,
and none is taken from a program. Numbers of 0 at the end of a line are left out, and lines of other rules are not asked for."""

from __future__ import annotations

from functools import partial

from . import further
from ..tables import *
from ..text import TOP
from .one_table import which_table

DEVICES, WHOLE_DEVICES = [], []
broken = partial(further.broken, sets=DEVICES)
kept = partial(further.kept, sets=DEVICES)
whole = partial(further.whole, sets=WHOLE_DEVICES)

# One bus of an ECAM, and all of a segment.
BUS, SEGMENT = 1 << 20, 1 << 28


def table_broken(rule, numbers, name, *tables, words="--rsdp e0000"):
    """A FADT at 0x2000 and these tables from 0x3000 on, which break a rule."""
    broken(rule, numbers, name, listed(*tables), words)


def table_kept(rule, name, *tables, words="--rsdp e0000"):
    kept(rule, name, listed(*tables), words)


# ---- the MCFG: its Length
LENGTH = "McfgLength"
for length, due in (
    (36, 60), (37, 60), (43, 60), (44, 60), (45, 60), (52, 60), (59, 60), (61, 76), (62, 76), (75, 76), (77, 92), (91, 92), (93, 108),
    (44 + 16 * 255 - 1, 44 + 16 * 255), (44 + 16 * 255 + 1, 44 + 16 * 256), (44 + 16 * 4096 + 15, 44 + 16 * 4097),
):
    table_broken(LENGTH, f"0x4 {due:#x} {length:#x}", f"an MCFG of {length} bytes", table(b"MCFG", bytes(length - 36)))
for length in (60, 76, 92, 108, 44 + 16 * 255, 44 + 16 * 256, 44 + 16 * 4096):
    table_kept(LENGTH, f"an MCFG of {length} bytes", table(b"MCFG", bytes(length - 36)))
for revision in (0, 2, 255):
    table_broken(LENGTH, "0x4 0x3c 0x2c", f"an MCFG without entries, Revision {revision}", mcfg(revision=revision))

# ---- the MCFG: where an ECAM is
AT = "EcamAddress"
for base in (0, 1, 1 << 19, BUS - 1, BUS + 1, BUS + (1 << 19), (1 << 32) + 0x80000, (1 << 63) + 1, TOP - 1, TOP - BUS - 1, TOP - BUS + 1):
    table_broken(AT, f"0x2c 0x0 {base:#x}", f"an ECAM at {base:#x}", mcfg(ecam(base)))
for bit in range(20):
    table_broken(AT, f"0x2c 0x0 {0xE0000000 | 1 << bit:#x}", f"an ECAM at an address with bit {bit}", mcfg(ecam(0xE0000000 | 1 << bit)))
for bit in range(20, 64):
    table_kept(AT, f"an ECAM at an address of bit {bit}", mcfg(ecam(1 << bit)))
table_kept(AT, "an ECAM at the last address of one", mcfg(ecam(TOP - BUS, 0, 0, 0)))
table_broken(AT, "0x2c", "the first of two ECAMs, both at 0", mcfg(ecam(0), ecam(0)))
table_broken(AT, "0x3c 0x0 0x1", "the second ECAM", mcfg(ecam(BUS), ecam(1)))
table_broken(AT, "0x2c 0x0 0x3", "the first of two ECAMs, at the higher address", mcfg(ecam(3), ecam(1)))
table_broken(AT, "0x5c", "the fourth of five ECAMs", mcfg(ecam(BUS), ecam(BUS), ecam(BUS), ecam(0), ecam(0)))
table_broken(AT, "0x2c 0x0 0x1", "reversed buses", mcfg(ecam(1, 0, 5, 0)))
table_broken(AT, "0x2c 0x0 0x1", "an MCFG with a part of a second entry", table(b"MCFG", bytes(8) + ecam(1) + ecam(0)[:15]))
for size in (1, 8, 15):
    table_kept(AT, f"{size} bytes of a second entry", table(b"MCFG", bytes(8) + ecam(BUS) + ecam(0)[:size]))
    table_kept(AT, f"{size} bytes of an entry", table(b"MCFG", bytes(8) + ecam(0)[:size]))
table_kept(AT, "no entry", mcfg())
table_kept(AT, "an MCFG of 36 bytes", table(b"MCFG", b""))
table_kept(AT, "reserved bytes", table(b"MCFG", b"\1" * 8 + placed(ecam(BUS), _8=b"\1\1", _12=b"\1" * 4)))
table_kept(AT, "an entry after the end of the MCFG", mcfg(ecam(BUS)) + ecam(0))
table_broken(AT, "0x2c", "an ECAM at 0 before a valid one", mcfg(ecam(0), ecam(BUS)))
for segment in (1, 256, 0xFFFF):
    table_broken(AT, "0x2c", f"segment {segment} at 0", mcfg(ecam(0, segment)))
    table_broken(AT, "0x2c 0x0 0x1", f"segment {segment} at 1", mcfg(ecam(1, segment)))

# ---- the MCFG: the buses of an entry
REVERSED = "BusesReversed"
for first, last in ((1, 0), (255, 254), (255, 0), (128, 127), (2, 1)):
    table_broken(REVERSED, f"0x2c 0xb {last:#x}", f"buses {first} to {last}", mcfg(ecam(BUS, 0, first, last)))
for first, last in ((0, 0), (1, 1), (255, 255), (0, 255), (0, 1), (127, 128), (254, 255)):
    table_kept(REVERSED, f"buses {first} to {last}", mcfg(ecam(BUS, 0, first, last)))
table_broken(REVERSED, "0x2c 0xb 0x3", "an ECAM at 0", mcfg(ecam(0, 0, 4, 3)))
table_broken(REVERSED, "0x3c 0xb 0x0", "the second entry", mcfg(ecam(BUS), ecam(BUS, 0, 1, 0)))
table_broken(REVERSED, "0x2c 0xb 0x9", "the first of two entries", mcfg(ecam(BUS, 0, 10, 9), ecam(BUS, 0, 1, 0)))
table_broken(REVERSED, "0x2c 0xb 0x3", "a reserved byte", mcfg(placed(ecam(BUS, 0, 4, 3), _12=b"\1")))
table_kept(REVERSED, "two segments", mcfg(ecam(BUS, 0xFFFF, 3, 3), ecam(BUS, 0, 3, 3)))
table_kept(REVERSED, "reserved bytes", mcfg(placed(ecam(BUS, 0, 3, 3), _12=b"\0\1\2\3")))
table_kept(REVERSED, "11 bytes of an entry", table(b"MCFG", bytes(8) + ecam(BUS, 0, 1, 0)[:11]))
table_kept(REVERSED, "15 bytes of an entry", table(b"MCFG", bytes(8) + ecam(BUS, 0, 1, 0)[:15]))

# ---- the MCFG: an ECAM that goes past the last address
WRAPS = "EcamWraps"
for base, first, last in (
    (TOP - SEGMENT + 1, 0, 255), (TOP - SEGMENT + BUS, 0, 255), (TOP - BUS, 0, 1), (TOP - BUS, 1, 1), (TOP - BUS + 1, 0, 0),
    (TOP - 1, 0, 0), (TOP - 1, 0, 255), (TOP - 2 * BUS, 0, 2), (TOP - 2 * BUS + 1, 1, 1), (TOP - BUS, 5, 1), (TOP - BUS, 255, 255),
    (TOP - SEGMENT + 1, 255, 255),
):
    table_broken(WRAPS, f"0x2c 0x0 {base:#x}", f"buses {first} to {last} at {base:#x}", mcfg(ecam(base, 0, first, last)))
for base, first, last in (
    (TOP - SEGMENT, 0, 255), (TOP - SEGMENT - 1, 0, 255), (TOP - BUS, 0, 0), (TOP - BUS - 1, 0, 0), (TOP - 2 * BUS, 0, 1),
    (TOP - 2 * BUS, 1, 1), (TOP - BUS, 5, 0), (0, 0, 255), (1, 255, 255), (1 << 63, 0, 255), (TOP - SEGMENT + BUS, 0, 254),
    (TOP - SEGMENT, 255, 255),
):
    table_kept(WRAPS, f"buses {first} to {last} at {base:#x}", mcfg(ecam(base, 0, first, last)))
table_broken(WRAPS, f"0x3c 0x0 {TOP - BUS:#x}", "the second entry", mcfg(ecam(TOP - SEGMENT), ecam(TOP - BUS)))
table_broken(WRAPS, f"0x2c 0x0 {TOP - BUS:#x}", "the first of two entries", mcfg(ecam(TOP - BUS), ecam(TOP - 2 * BUS)))
table_broken(WRAPS, f"0x2c 0x0 {TOP - BUS:#x}", "segment 1", mcfg(ecam(TOP - BUS, 1)))
table_kept(WRAPS, "segments and reserved bytes", mcfg(placed(ecam(TOP - BUS, 0xFFFF, 0, 0), _12=b"\xff" * 4)))


# ---- the MCFG: an address that an old one may not have
def made_by(maker, *entries, revision=0):
    """An MCFG of this Revision, the OEM ID of which begins with these bytes."""
    return changed(mcfg(*entries, revision=revision), {10 + place: byte for place, byte in enumerate(maker)}, (9, 44 + 16 * len(entries)))


HIGH_ECAM = "EcamTooHigh"
for base in (2**32 - 1, 2**32, 2**32 + BUS, 1 << 63, TOP - 1):
    table_broken(HIGH_ECAM, f"0x2c 0x0 {base:#x}", f"an ECAM at {base:#x}", mcfg(ecam(base), revision=0))
    for revision in (1, 2, 255):
        table_kept(HIGH_ECAM, f"an ECAM at {base:#x}, Revision {revision}", mcfg(ecam(base), revision=revision))
    table_kept(HIGH_ECAM, f"an ECAM of SGI at {base:#x}", made_by(b"SGI", ecam(base)))
for base in (0, 1, BUS, 2**31, 2**32 - BUS, 2**32 - 2):
    table_kept(HIGH_ECAM, f"an ECAM at {base:#x}", mcfg(ecam(base), revision=0))
for maker in (b"SGI   ", b"SGI\0\0\0", b"SGIUV2"):
    table_kept(HIGH_ECAM, f"an OEM ID {maker}", made_by(maker, ecam(2**32)))
for maker in (b"SGH", b"SGJ", b"SFI", b"RGI", b"TGI", b"sgi", b"IGS", b" SGI", b"SG\0", b"SG I", b"\0SGI"):
    table_broken(HIGH_ECAM, "0x2c 0x0 0x100000000", f"an OEM ID {maker}", made_by(maker, ecam(2**32)))
table_broken(HIGH_ECAM, "0x3c 0x0 0x100000000", "the second entry", mcfg(ecam(2**32 - BUS), ecam(2**32), revision=0))
table_broken(HIGH_ECAM, "0x2c 0x0 0x200000000", "the first of two entries", mcfg(ecam(2**33), ecam(2**32), revision=0))
table_broken(HIGH_ECAM, "0x2c 0x0 0x100000000", "reversed buses", mcfg(ecam(2**32, 0, 1, 0), revision=0))
table_broken(HIGH_ECAM, "0x2c 0x0 0x100000000", "segment 1", mcfg(ecam(2**32, 1), revision=0))
table_kept(HIGH_ECAM, "segment 65535 below 4 GiB", mcfg(ecam(BUS, 0xFFFF), revision=0))
table_kept(HIGH_ECAM, "an ECAM that ends above 4 GiB", mcfg(ecam(2**32 - BUS), revision=0))
table_kept(HIGH_ECAM, "15 bytes of an entry", table(b"MCFG", bytes(8) + ecam(2**32)[:15], 0))
table_kept(HIGH_ECAM, "no entry", mcfg(revision=0))

# ---- the MCFG: one bus in two entries. The numbers are those of entries at 0x2c, 0x3c and 0x4c.
SAME = "SameBus"


def buses(*entries):
    """An MCFG of entries of a segment, a first and a last bus, each at an address of its own."""
    return mcfg(*(ecam(SEGMENT * (place + 1), *entry) for place, entry in enumerate(entries)))


for name, numbers, *entries in (
    ("all buses twice", "0x2c 0x3c 0x0", (0, 0, 255), (0, 0, 255)), ("one bus twice", "0x2c 0x3c 0x7", (0, 7, 7), (0, 7, 7)),
    ("bus 255 twice", "0x2c 0x3c 0xff", (0, 255, 255), (0, 255, 255)),
    ("the last bus and the first", "0x2c 0x3c 0x80", (0, 0, 128), (0, 128, 255)),
    ("the first bus and the last", "0x3c 0x2c 0x80", (0, 128, 255), (0, 0, 128)),
    ("buses in others", "0x2c 0x3c 0xa", (0, 0, 255), (0, 10, 20)), ("others before and after", "0x3c 0x2c 0xa", (0, 10, 20), (0, 0, 255)),
    ("buses of one first bus", "0x2c 0x3c 0x5", (0, 5, 5), (0, 5, 9)), ("the longer ones first", "0x2c 0x3c 0x5", (0, 5, 9), (0, 5, 5)),
    ("segment 1", "0x2c 0x3c 0x100", (1, 0, 255), (1, 0, 0)), ("segment 256", "0x2c 0x3c 0x10003", (256, 0, 3), (256, 3, 3)),
    ("the last bus of all", "0x2c 0x3c 0xffffff", (0xFFFF, 255, 255), (0xFFFF, 255, 255)),
    ("the last segment, all buses", "0x2c 0x3c 0xffff00", (0xFFFF, 0, 255), (0xFFFF, 0, 255)),
    ("the second and the third", "0x3c 0x4c 0x100", (0, 0, 255), (1, 0, 5), (1, 0, 6)),
    ("the first and the third", "0x2c 0x4c 0x9", (0, 0, 9), (1, 0, 255), (0, 9, 20)),
    ("three with one bus", "0x2c 0x3c 0x0", (0, 0, 0), (0, 0, 255), (0, 0, 7)),
    ("three, two of which share a lesser bus", "0x4c 0x2c 0x64", (0, 100, 200), (0, 150, 160), (0, 50, 120)),
    ("two in one", "0x2c 0x3c 0xa", (0, 0, 255), (0, 10, 20), (0, 15, 30)),
    ("two in one, the later one first", "0x2c 0x4c 0xa", (0, 0, 255), (0, 15, 30), (0, 10, 20)),
    ("two pairs, that of the lesser segment later", "0x4c 0x5c 0x0", (5, 0, 1), (5, 0, 1), (0, 0, 1), (0, 0, 1)),
    ("reversed buses between", "0x2c 0x4c 0x3", (0, 3, 3), (0, 5, 3), (0, 3, 3)),
):
    table_broken(SAME, numbers, name, buses(*entries))
for name, *entries in (
    ("one entry", (0, 0, 255)), ("halves that touch", (0, 0, 127), (0, 128, 255)),
    ("halves that touch, the later one first", (0, 128, 255), (0, 0, 127)), ("two segments", (0, 0, 255), (1, 0, 255)),
    ("segments whose low bytes are the same", (0, 0, 255), (0x100, 0, 255)),
    ("segments whose high bytes are the same", (0x100, 0, 255), (0x101, 0, 255)),
    ("bus 255 and the next segment", (0, 255, 255), (1, 0, 0)), ("reversed buses", (0, 0, 255), (0, 255, 0)),
    ("buses reversed twice", (0, 9, 8), (0, 9, 8)),
    ("a bus and one before it", (0, 7, 7), (0, 6, 6)), ("a bus and one after it", (0, 7, 7), (0, 8, 8)),
    ("three in no order", (0, 200, 255), (0, 0, 99), (0, 100, 199)),
):
    table_kept(SAME, name, buses(*entries))
table_broken(SAME, "0x2c 0x3c 0x0", "ECAMs at 0", mcfg(ecam(0), ecam(0)))
table_broken(SAME, "0x2c 0x3c 0x0", "an ECAM at 0, and one that goes past the last address", mcfg(ecam(0), ecam(TOP - 1)))
table_broken(SAME, "0x2c 0x3c 0x0", "a part of a third entry", table(b"MCFG", bytes(8) + ecam(BUS) + ecam(SEGMENT) + ecam(0)[:15]))
table_kept(SAME, "15 bytes of a second entry", table(b"MCFG", bytes(8) + ecam(BUS) + ecam(BUS)[:15]))
table_kept(SAME, "a second entry after the end of the MCFG", mcfg(ecam(BUS)) + ecam(BUS))
table_kept(SAME, "no entry", mcfg())
table_broken(
    SAME, "0x78c 0x102c 0x77", "the last of 257 entries", buses(*((0, bus, bus) for bus in (*range(1, 255), 0, 255, 0x77))),
)

# ---- the MCFG: one address in two ECAMs
SHARED = "EcamOverlap"


def spaces(*entries):
    """An MCFG of entries of an address, a first and a last bus, each of a segment of its own."""
    return mcfg(*(ecam(base, segment, first, last) for segment, (base, first, last) in enumerate(entries)))


for name, numbers, *entries in (
    ("one address twice", "0x2c 0x3c 0xb0000000", (0xB0000000, 0, 255), (0xB0000000, 0, 255)),
    ("one bus in all of them", "0x2c 0x3c 0xb0700000", (0xB0000000, 0, 255), (0xB0000000, 7, 7)),
    ("the last bus of the one", "0x2c 0x3c 0xbff00000", (0xB0000000, 0, 255), (0xBFF00000, 0, 255)),
    ("the first bus of the one", "0x3c 0x2c 0xbff00000", (0xBFF00000, 0, 255), (0xB0000000, 0, 255)),
    ("the last byte of the one", "0x2c 0x3c 0x2fffff", (0x200000, 0, 0), (0x2FFFFF, 0, 0)),
    ("the last byte of the one, which is later", "0x3c 0x2c 0x2fffff", (0x2FFFFF, 0, 0), (0x200000, 0, 0)),
    ("odd addresses", "0x2c 0x3c 0x180000", (0x100000, 0, 0), (0x180000, 0, 0)),
    ("bus 1 of the one and bus 0 of the other", "0x2c 0x3c 0x200000", (0x100000, 1, 1), (0x200000, 0, 0)),
    ("bus 0 of the one and bus 1 of the other", "0x2c 0x3c 0x200000", (0x200000, 0, 0), (0x100000, 1, 1)),
    ("bus 255", "0x2c 0x3c 0x10000000", (0x100000, 255, 255), (0x10000000, 0, 0)),
    ("the last bus and more", "0x2c 0x3c 0x500000", (0x100000, 0, 4), (0x400000, 1, 9)),
    ("one start, the shorter one first", "0x2c 0x3c 0x100000", (0x100000, 0, 0), (0x100000, 0, 9)),
    ("one start of two addresses, the later one less", "0x2c 0x3c 0x300000", (0x300000, 0, 0), (0x100000, 2, 2)),
    ("the second and the third", "0x3c 0x4c 0x90000000", (0xB0000000, 0, 255), (0x90000000, 0, 1), (0x90000000, 0, 0)),
    ("three at one address", "0x2c 0x3c 0x100000", (0x100000, 0, 5), (0x100000, 0, 5), (0x100000, 0, 5)),
    ("two in one", "0x2c 0x4c 0x300000", (0x100000, 0, 255), (0x500000, 0, 0), (0x300000, 0, 0)),
    ("three, two of which share a lesser address", "0x4c 0x2c 0x600000", (0x600000, 0, 9), (0x900000, 0, 0), (0x100000, 0, 5)),
    ("an ECAM at 0 between", "0x2c 0x4c 0x100000", (0x100000, 0, 0), (0, 0, 255), (0x100000, 0, 0)),
    ("reversed buses between", "0x2c 0x4c 0x100000", (0x100000, 0, 0), (0x100000, 1, 0), (0x100000, 0, 0)),
    ("a low address", "0x2c 0x3c 0x1", (1, 0, 0), (1, 0, 0)),
    # up to the last address, and past it
    ("the last bus of the addresses", f"0x2c 0x3c {TOP - BUS:#x}", (TOP - BUS, 0, 0), (TOP - BUS, 0, 0)),
    ("the last address", f"0x2c 0x3c {TOP - 1:#x}", (TOP - BUS, 0, 0), (TOP - 1, 0, 0)),
    ("the last address twice", f"0x2c 0x3c {TOP - 1:#x}", (TOP - 1, 0, 0), (TOP - 1, 0, 255)),
    ("a part past the last address", f"0x2c 0x3c {TOP - BUS:#x}", (TOP - BUS, 0, 255), (TOP - BUS, 0, 255)),
    ("a part past it, and one in all of them", f"0x2c 0x3c {TOP - BUS:#x}", (TOP - SEGMENT, 0, 255), (TOP - BUS, 0, 255)),
    ("one that begins past it between", f"0x2c 0x4c {TOP - 1:#x}", (TOP - 1, 0, 9), (TOP - BUS, 1, 9), (TOP - 1, 0, 0)),
):
    table_broken(SHARED, numbers, name, spaces(*entries))
for name, *entries in (
    ("one entry", (0xB0000000, 0, 255)), ("ECAMs that touch", (0xB0000000, 0, 255), (0xC0000000, 0, 255)),
    ("ECAMs that touch, the later one first", (0xC0000000, 0, 255), (0xB0000000, 0, 255)),
    ("ECAMs of one bus that touch", (0x200000, 0, 0), (0x300000, 0, 0)),
    ("odd addresses that touch", (0x1234567, 0, 0), (0x1334567, 0, 0)),
    ("other buses at one address", (0xB0000000, 0, 127), (0xB0000000, 128, 255)),
    ("bus 1 of the one after bus 0 of the other", (0x100000, 0, 0), (0x100000, 1, 1)),
    ("two at 0", (0, 0, 255), (0, 0, 255)), ("one at 0, of which bus 1 would be another's", (0, 1, 1), (0x100000, 0, 0)),
    ("reversed buses", (0x100000, 0, 255), (0x100000, 2, 1)), ("buses reversed twice", (0x100000, 2, 1), (0x100000, 2, 1)),
    ("the first address after those of the one", (0x200000, 0, 0), (0x100000, 2, 2)),
    # past the last address nothing is, and no address is 0 again
    ("both past the last address", (TOP - BUS, 1, 1), (TOP - BUS, 1, 1)), ("both far past it", (TOP - 1, 255, 255), (TOP - 1, 254, 255)),
    ("one up to the last address and one past it", (TOP - BUS, 0, 0), (TOP - BUS, 1, 1)),
    ("one past it, and the first addresses", (TOP - BUS, 0, 255), (1, 0, 0)), ("one of two buses past it", (TOP - BUS, 0, 2), (BUS, 0, 0)),
    ("one that ends there, and the one before it", (TOP - BUS, 0, 0), (TOP - 2 * BUS, 0, 0)),
):
    table_kept(SHARED, name, spaces(*entries))
table_broken(SHARED, "0x2c 0x3c 0x100000", "one segment", mcfg(ecam(BUS, 0, 0, 127), ecam(BUS, 0, 0, 0)))
table_broken(SHARED, "0x2c 0x3c 0x100000", "a part of a third entry", table(b"MCFG", bytes(8) + ecam(BUS) + ecam(BUS) + ecam(BUS)[:15]))
table_kept(SHARED, "15 bytes of a second entry", table(b"MCFG", bytes(8) + ecam(BUS) + ecam(BUS)[:15]))
table_kept(SHARED, "a second entry after the end of the MCFG", mcfg(ecam(BUS)) + ecam(BUS))
table_kept(SHARED, "a second MCFG", mcfg(ecam(BUS)), mcfg(ecam(BUS)))
table_kept(SHARED, "no entry", mcfg())
MANY = [(SEGMENT * (place + 1), 0, 255) for place in range(256)]
table_kept(SHARED, "256 entries", spaces(*MANY))
table_broken(SHARED, "0x4c 0x102c 0x30000000", "the last of 257 entries", spaces(*MANY, (0x30000000, 0, 0)))

# ---- the HPET
for length in (36, 37, 40, 44, 52, 53, 54, 55):
    short = table(b"HPET", hpet(1, 1)[36:length])
    table_broken("HpetLength", f"0x4 0x38 {length:#x}", f"an HPET of {length} bytes", short)
    table_kept("HpetSpace", f"an HPET of {length} bytes", short)
    table_kept("HpetAddress", f"an HPET of {length} bytes", short)
for length in (56, 57, 64, 4096):
    long = table(b"HPET", hpet(1, 1)[36:] + bytes(length - 56))
    table_kept("HpetLength", f"an HPET of {length} bytes", long)
    table_broken("HpetSpace", "0x28 0x0 0x1", f"an HPET of {length} bytes", long)
    table_broken("HpetAddress", "0x2c 0x0 0x1", f"an HPET of {length} bytes", long)
for space in (1, 2, 3, 10, 127, 128, 255):
    table_broken("HpetSpace", f"0x28 0x0 {space:#x}", f"an HPET in space {space}", hpet(space=space))
table_broken("HpetSpace", "0x28 0x0 0x1", "an HPET in space 1 at 0", hpet(0, 1))
WITH_WIDTH = generic_address(0, 1, 64, 1, 4)
table_broken("HpetSpace", "0x28 0x0 0x1", "a width and an access size", table(b"HPET", bytes(4) + WITH_WIDTH + bytes(4)))
table_broken("HpetAddress", "0x2c", "a sequence number of 1", table(b"HPET", bytes(4) + WITH_WIDTH + b"\1\0\0\0"))
table_kept("HpetSpace", "an HPET in memory", hpet())
table_kept("HpetSpace", "an HPET in memory at 0", hpet(0))
# all bytes but the space and the address
FILLED = changed(hpet(), dict.fromkeys((36, 37, 38, 39, 41, 42, 43, 52, 53, 54, 55), 0xFF), (9, 56))
table_kept("HpetSpace", "all other bytes", FILLED)
table_kept("HpetAddress", "all other bytes", FILLED)
SHIFTED = 0xFED0000000000000
for address in (0, SHIFTED, 1, 0x200, 0x3FF, 0x401, 0xFED00001, 0xFED00200, SHIFTED + 1, SHIFTED + 0x200, 2**63 + 1, TOP - 1, TOP - 512):
    table_broken("HpetAddress", f"0x2c 0x0 {address:#x}", f"an HPET at {address:#x}", hpet(address))
for address in (
    0x400, 0xFED00000, 0xFED00400, 0xFED01000, 2**32, SHIFTED >> 1, SHIFTED + 0x400, SHIFTED - 0x400, SHIFTED + 2**32, TOP - 1024,
):
    table_kept("HpetAddress", f"an HPET at {address:#x}", hpet(address))
for bit in range(10):
    table_broken("HpetAddress", f"0x2c 0x0 {0xFED00000 | 1 << bit:#x}", f"an address with bit {bit}", hpet(0xFED00000 | 1 << bit))
for bit in range(10, 64):
    table_kept("HpetAddress", f"an address of bit {bit}", hpet(1 << bit))
for space in (1, 255):
    table_broken("HpetAddress", "0x2c", f"an HPET in space {space} at 0", hpet(0, space))
    table_broken("HpetAddress", f"0x2c 0x0 {SHIFTED:#x}", f"an HPET in space {space} at {SHIFTED:#x}", hpet(SHIFTED, space))
    table_kept("HpetAddress", f"an HPET in space {space}", hpet(space=space))
for revision in (0, 2, 255):
    table_broken("HpetLength", "0x4 0x38 0x37", f"Revision {revision}", revised(table(b"HPET", hpet()[36:55]), revision))
    table_broken("HpetAddress", "0x2c", f"Revision {revision}", revised(hpet(0), revision))

# ---- the SPCR: its Length
for revision, least, lengths in (
    (0, 80, (36, 79)), (1, 80, (79,)), (2, 80, (36, 37, 44, 52, 58, 72, 78, 79)), (3, 80, (36, 79)), (4, 88, (36, 79, 80, 84, 86, 87)),
    (5, 88, (80, 87)), (128, 88, (80, 87)), (255, 88, (36, 80, 87)),
):
    # wrong in all that other rules ask
    fields = {"_36": b"\0", "_40": generic_address(1, 2), "_52": b"\1\0", "_58": b"\1", "_64": b"\0\0\xff\xff", "_84": b"\0"}
    for length in lengths:
        name, short = f"an SPCR of Revision {revision} and {length} bytes", spcr(revision, length, **fields)
        table_broken("SpcrLength", f"0x4 {least:#x} {length:#x}", name, short)
        for rule in ("SpcrAddress", "SpcrBaud", "SpcrGsi", "SpcrPci", "SpcrName"):
            table_kept(rule, name, short)
    for length in sorted({least, least + 1, 88, 90, 256}):
        name, full = f"an SPCR of Revision {revision} and {length} bytes", spcr(revision, length, **fields)
        table_kept("SpcrLength", name, full)
        table_broken("SpcrAddress", "0x28 0x0 0x2", name, full)
        table_broken("SpcrBaud", "0x3a 0x0 0x1", name, full)
        table_broken("SpcrGsi", "0x35 0x0 0x0", name, full)
        table_broken("SpcrPci", "0x40 0x0 0x0", name, full)
for revision, lengths in ((0, (80, 88, 90)), (2, (80, 81, 88)), (3, (80, 87, 88)), (4, (88, 89, 90)), (255, (88, 90))):
    for length in lengths:
        table_kept("SpcrLength", f"a valid SPCR of Revision {revision} and {length} bytes", spcr(revision, length))

# ---- the SPCR: where the port is
PORT = "SpcrAddress"
for space in (2, 3, 4, 10, 127, 128, 255):
    table_broken(PORT, f"0x28 0x0 {space:#x}", f"space {space}", spcr(_40=generic_address(0x3F8, space)))
    table_broken(PORT, f"0x28 0x0 {space:#x}", f"space {space}, access 4", spcr(_40=generic_address(0x3F8, space, access=4)))
    table_kept(PORT, f"space {space} at 0", spcr(_40=generic_address(0, space, access=4)))
for access in (4, 5, 8, 128, 255):
    table_broken(PORT, f"0x2b 0x0 {access:#x}", f"memory, access {access}", spcr(_40=generic_address(0x9000000, 0, 32, 0, access)))
    table_kept(PORT, f"a port, access {access}", spcr(_40=generic_address(0x3F8, 1, 8, 0, access)))
    table_kept(PORT, f"memory at 0, access {access}", spcr(_40=generic_address(0, 0, 32, 0, access)))
for space, access in ((0, 0), (0, 1), (0, 2), (0, 3), (1, 0), (1, 1), (1, 3)):
    table_kept(PORT, f"space {space}, access {access}", spcr(_40=generic_address(0x3F8, space, 8, 0, access)))
for address in (1, 0x3F8, 1 << 32, 1 << 56, 1 << 63, TOP - 1):
    table_broken(PORT, "0x28 0x0 0x2", f"space 2 at {address:#x}", spcr(_40=generic_address(address, 2)))
    table_broken(PORT, "0x2b 0x0 0x4", f"access 4 at {address:#x}", spcr(_40=generic_address(address, 0, access=4)))
for kind in (0, 1, 3, 0x12, 0x14, 0x16, 0x95, 0xFF):
    table_broken(PORT, "0x28 0x0 0x2", f"interface {kind:#x}, space 2", spcr(_36=bytes([kind]), _40=generic_address(1, 2)))
    table_broken(PORT, "0x2b 0x0 0x4", f"interface {kind:#x}, access 4", spcr(_36=bytes([kind]), _40=generic_address(1, 0, access=4)))
table_kept(PORT, "interface 15h, space 2", spcr(_36=b"\x15", _40=generic_address(1, 2)))
table_kept(PORT, "interface 15h, space 2, and a reserved byte", spcr(_36=b"\x15\1", _40=generic_address(1, 2)))
table_kept(PORT, "interface 15h, access 4", spcr(_36=b"\x15", _40=generic_address(1, 0, access=4)))
table_broken(PORT, "0x28 0x0 0x2", "interface 0, and a reserved byte of 15h", spcr(_36=b"\0\x15", _40=generic_address(1, 2)))
table_kept(PORT, "a bit width and a bit offset", spcr(_40=generic_address(0x3F8, 0, 255, 255, 3)))
table_kept(PORT, "an SPCR of a PC", spcr())
for revision in (0, 1, 4, 255):
    table_broken(PORT, "0x28 0x0 0x2", f"Revision {revision}", spcr(revision, _40=generic_address(1, 2)))

# ---- the SPCR: the rate
RATE = "SpcrBaud"
CODES = (0, 3, 4, 6, 7)
for code in range(256):
    one = bytes([code])
    if code in CODES:
        table_kept(RATE, f"rate {code}", spcr(_58=one))
    elif code < 16 or code in (0x13, 0x43, 0x83, 127, 128, 255):
        table_broken(RATE, f"0x3a 0x0 {code:#x}", f"rate {code}", spcr(_58=one))
for code in (1, 2, 5, 8, 255):
    one, told = bytes([code]), f"0x3a 0x0 {code:#x}"
    for revision in (4, 5, 255):
        table_broken(RATE, told, f"rate {code}, no precise one, Revision {revision}", spcr(revision, _58=one))
        for rate in (1, 0x100, 0x10000, 1 << 24, 1 << 31, 2**32 - 1):
            table_kept(RATE, f"rate {code}, a precise one of {rate}, Revision {revision}", spcr(revision, _58=one, _80=number(rate, 4)))
    for revision in (0, 1, 2, 3):
        old = spcr(revision, 90, _58=one, _80=number(115200, 4))
        table_broken(RATE, told, f"rate {code}, Revision {revision} with a precise one", old)
    table_broken(RATE, told, f"rate {code}, and bytes beside the precise one", spcr(4, _58=one, _76=b"\1" * 4))
for revision in (2, 4):
    table_kept(RATE, f"rate 3, and a precise one, Revision {revision}", spcr(revision, 90, _58=b"\3", _80=number(1, 4)))
table_broken(RATE, "0x3a 0x0 0x1", "a wrong rate, and bytes beside it", spcr(_54=number(0x07070707, 4), _58=b"\1\7\7\7\7\7"))
table_kept(RATE, "bytes beside the rate", spcr(_54=number(0x01010101, 4), _59=b"\1\1\1\1\1"))

# ---- the SPCR: the interrupt of a PC
WIRED = "SpcrGsi"
PC_LINES = (2, 3, 4, 5, 6, 7, 9, 10, 11, 12, 14, 15)
for line in range(256):
    if line in PC_LINES:
        table_kept(WIRED, f"interrupt {line} of a PC", spcr(_52=bytes([1, line])))
    elif line < 32 or line in (0x84, 127, 128, 254, 255):
        table_broken(WIRED, f"0x35 0x0 {line:#x}", f"interrupt {line} of a PC", spcr(_52=bytes([1, line])))
for kind in (1, 3, 5, 9, 0x81, 0xFF):
    table_broken(WIRED, "0x35 0x0 0x8", f"interrupt 8, type {kind:#x}", spcr(_52=bytes([kind, 8])))
for kind in (0, 2, 4, 8, 0xFE):
    table_kept(WIRED, f"interrupt 8, type {kind:#x}", spcr(_52=bytes([kind, 8])))
table_broken(WIRED, "0x35 0x0 0x0", "interrupt 0 of a port at 0", spcr(_40=generic_address(0), _52=b"\1\0"))
table_broken(WIRED, "0x35 0x0 0x0", "interrupt 0 of an interface of 15h", spcr(_36=b"\x15", _52=b"\1\0"))


# ---- the SPCR: the interrupt of an I/O APIC
def by_io_apic(gsi, kind=2, **fields):
    return spcr(_52=bytes([kind, 4]) + number(gsi, 4), **fields)


def wired_broken(gsi, name, *entries, words="--rsdp e0000", kind=2, numbers=None):
    """An SPCR with this interrupt number, which none of the I/O APICs of a MADT serves."""
    table_broken(WIRED, numbers or f"0x36 0x0 {gsi:#x}", f"{gsi:#x}, {name}", by_io_apic(gsi, kind), madt(*entries), words=words)


def wired_kept(gsi, name, *entries, words="--rsdp e0000", kind=2):
    table_kept(WIRED, f"{gsi:#x}, {name}", by_io_apic(gsi, kind), madt(*entries), words=words)


FIRST, SECOND = io_apic(0xFEC00000, 0), io_apic(0xFEC01000, 32, 1)
HIGHEST = io_apic(0xFEC00000, 2**32 - 16)
for name, entries, words, served, others in (
    ("one I/O APIC", (FIRST,), "", (0, 4, 23), (24, 25, 255, 256, 0x01000000, 0x01000017, 2**32 - 1)),
    ("one I/O APIC from 16 on", (io_apic(0xFEC00000, 16),), "", (16, 39), (0, 4, 15, 40)),
    ("two I/O APICs with a gap", (FIRST, SECOND), "", (0, 23, 32, 55), (24, 31, 56)),
    ("two I/O APICs, the later one first", (SECOND, FIRST), "", (0, 23, 32, 55), (24, 31, 56)),
    ("an I/O APIC up to past the last number", (HIGHEST,), "", (2**32 - 16, 2**32 - 1), (0, 7, 2**32 - 17)),
    ("16 inputs", (FIRST,), "--default-inputs 16", (15,), (16, 23)),
    ("25 inputs of this one", (FIRST,), "fec00000=25", (24,), (25,)),
    ("25 inputs of another one", (FIRST,), "fec01000=25", (23,), (24,)),
    ("1 input of this one", (FIRST, SECOND), "fec00000=1", (0, 32), (1, 23)),
    ("256 inputs of each", (FIRST,), "--default-inputs 256", (255,), (256,)),
    ("processors, too", (lapic(0, 0), FIRST, lapic_nmi(255, 1)), "", (23,), (24,)),
    ("entries that nothing reads", (other(6, 12), other(127, 2), FIRST), "", (23,), (24,)),
    ("an I/O APIC at 0", (io_apic(0, 0),), "", (23,), (24,)),
):
    for gsi in served:
        wired_kept(gsi, name, *entries, words=f"--rsdp e0000 {words}".strip())
    for gsi in others:
        wired_broken(gsi, name, *entries, words=f"--rsdp e0000 {words}".strip())
for kind in (2, 6, 0x82, 0xFE):
    wired_broken(24, f"type {kind:#x}", FIRST, kind=kind)
for kind in (0, 1, 4, 8, 0xFC, 0xFD):
    wired_kept(24, f"type {kind:#x}", FIRST, kind=kind)
wired_broken(24, "an I/O APIC, and a PC", FIRST, kind=3)
table_broken(WIRED, "0x35 0x0 0x8", "an interrupt of a PC, and one of an I/O APIC", spcr(_52=b"\3\10" + number(24, 4)), madt(FIRST))
for name, entries in (
    ("no I/O APIC", (lapic(0, 0),)), ("no entry", ()), ("an I/O SAPIC", (other(6, 16),)), ("a MADT that is cut", (FIRST, b"\1")),
    ("an entry of no bytes", (FIRST, b"\1\0")), ("an I/O APIC of 11 bytes", (FIRST, other(1, 11))),
    ("an I/O APIC of 11 bytes alone", (other(1, 11),)), ("a local APIC of 7 bytes", (FIRST, other(0, 7))),
    ("an x2APIC of 12 bytes", (other(9, 12), FIRST)), ("a second I/O APIC that is cut", (FIRST, SECOND[:11])),
):
    wired_kept(24, name, *entries)
for name, entries in (("a GICC of 39 bytes", (gicc(0, 1, 39), FIRST)), ("a distributor", (gicd(), FIRST))):
    table_broken(WIRED, "0x36 0x0 0x18", name, by_io_apic(24, _44=bytes(8)), madt(*entries))
table_kept(WIRED, "no MADT", by_io_apic(24))
BESIDE = by_io_apic(24)
for name, beside in (
    ("a MADT of 43 bytes", table(b"APIC", bytes(7))), ("a MADT of 44 bytes", madt()),
    ("a MADT of Length 35", changed(madt(FIRST), {4: 35})), ("35 bytes of a MADT", madt(FIRST)[:35]),
    ("a MADT of which the last byte is not present", madt(FIRST)[:-1]),
    ("a MADT of another signature", changed(madt(FIRST), {0: ord("B")})),
):
    table_kept(WIRED, name, BESIDE, beside)
table_broken(WIRED, "0x36 0x0 0x18", "a MADT that does not sum to 0", BESIDE, changed(madt(FIRST), {9: 0}))
table_broken(WIRED, "0x36 0x0 0x18", "a MADT before the SPCR", madt(FIRST), BESIDE)
table_broken(WIRED, "0x36 0x0 0x18", "two MADTs", BESIDE, madt(FIRST), madt(io_apic(0xFEC00000, 24)))
table_kept(WIRED, "two MADTs, of which the first one has the number", BESIDE, madt(io_apic(0xFEC00000, 24)), madt(FIRST))
table_broken(WIRED, "0x36 0x0 0x18", "an override to this number", BESIDE, madt(FIRST, override(4, 24)))
table_kept(WIRED, "an override of this number", by_io_apic(4), madt(FIRST, override(4, 50)))
table_broken(WIRED, "0x36 0x0 0x18", "a port at 0", by_io_apic(24, _40=generic_address(0)), madt(FIRST))

# ---- the SPCR: the interrupt of a GIC
GIC_PORT = generic_address(0x9000000, 0, 32, 0, 3)


def by_gic(kind, gsi=33, **fields):
    return spcr(_36=b"\3", _40=GIC_PORT, _52=bytes([kind, 4]) + number(gsi, 4), **fields)


for kind in (1, 2, 3, 4, 5, 6, 7, 9, 10, 12, 0x10, 0x18, 0x80, 0x88, 255):
    table_broken(WIRED, f"0x34 0x0 {kind:#x}", f"type {kind:#x} beside a GIC", by_gic(kind), madt(gicd()))
for kind in (0, 8):
    table_kept(WIRED, f"type {kind} beside a GIC", by_gic(kind), madt(gicd()))
for gsi in (32, 33, 255, 256, 1018, 1019, 4096, 4097, 5118, 5119):
    table_kept(WIRED, f"interrupt {gsi} of a GIC", by_gic(8, gsi), madt(gicd()))
for gsi in (0, 1, 15, 16, 31, 1020, 1023, 1024, 1055, 1056, 1119, 1120, 4095, 5120, 8192, 65536 + 33, 0x01000021, 2**31, 2**32 - 1):
    table_broken(WIRED, f"0x36 0x0 {gsi:#x}", f"interrupt {gsi} of a GIC", by_gic(8, gsi), madt(gicd()))
    table_kept(WIRED, f"interrupt {gsi} of a GIC, type 0", by_gic(0, gsi), madt(gicd()))
    table_kept(WIRED, f"interrupt {gsi} without a GIC", by_gic(8, gsi), madt(gicc(0)))
    table_kept(WIRED, f"interrupt {gsi} of a GIC, a port at 0", by_gic(8, gsi, _44=bytes(8)), madt(gicd()))
for kind in (1, 4, 9, 255):
    table_kept(WIRED, f"type {kind:#x} beside a GIC, a port at 0", by_gic(kind, _44=bytes(8)), madt(gicd()))
    table_kept(WIRED, f"type {kind:#x} beside a GICC", by_gic(kind), madt(gicc(0)))
    table_kept(WIRED, f"type {kind:#x} and no MADT", by_gic(kind))
for address in (1, 1 << 32, 1 << 63):
    table_broken(WIRED, "0x34 0x0 0x4", f"type 4 of a port at {address:#x}", by_gic(4, _44=number(address, 8)), madt(gicd()))
for length in (2, 23, 25, 255):
    table_broken(WIRED, "0x34 0x0 0x4", f"a distributor of {length} bytes", by_gic(4), madt(gicd(length)))
    table_broken(WIRED, "0x36 0x0 0x1f", f"a distributor of {length} bytes, interrupt 31", by_gic(8, 31), madt(gicd(length)))
for name, entries in (
    ("a distributor that is cut", (gicd()[:23],)), ("a distributor before the cut", (gicd(), b"\0")),
    ("a distributor after the cut", (b"\0\0", gicd())), ("a local APIC of 7 bytes, too", (gicd(), other(0, 7))),
    ("an address override of 11 bytes, too", (other(5, 11), gicd())), ("a redistributor", (redistributor(0, 1),)), ("type 13", (frame(0),)),
):
    table_kept(WIRED, f"type 4, {name}", by_gic(4), madt(*entries))
    table_kept(WIRED, f"interrupt 31, {name}", by_gic(8, 31), madt(*entries))
table_broken(WIRED, "0x34 0x0 0x4", "a distributor after other entries", by_gic(4), madt(gicc(0), other(127), gicd()))
table_broken(WIRED, "0x34 0x0 0x4", "two distributors", by_gic(4), madt(gicd(), gicd()))
table_broken(WIRED, "0x34 0x0 0x1", "an interrupt of a PC beside a GIC", by_gic(1, _53=b"\0"), madt(gicd()))
table_broken(WIRED, "0x34 0x0 0x2", "an interrupt of an I/O APIC beside a GIC", by_gic(2, 24), madt(gicd(), FIRST))
table_kept(WIRED, "a GIC beside an I/O APIC", by_gic(8, 33), madt(gicd(), FIRST))
table_broken(WIRED, "0x34 0x0 0x3", "all three", by_gic(3, 24, _53=b"\0"), madt(gicd(), FIRST))
table_broken(WIRED, "0x36 0x0 0x1f", "an interface of 15h beside a GIC", changed(by_gic(8, 31), {36: 0x15}, (9, 80)), madt(gicd()))

# ---- the SPCR: the PCI device
DEVICE = "SpcrPci"


def of_pci(device_id, vendor_id, bus=0, device=0, function=0):
    return spcr(_64=number(device_id, 2) + number(vendor_id, 2) + bytes([bus, device, function]))


for one in (0, 1, 0xFF, 0xFF00, 0xFFFE, 0x7FFF):
    table_broken(DEVICE, "0x40 0x0 0xffff", f"a vendor {one:#x} alone", of_pci(0xFFFF, one))
    table_broken(DEVICE, f"0x40 0x0 {one:#x}", f"a device {one:#x} alone", of_pci(one, 0xFFFF))
    table_kept(DEVICE, f"a vendor and a device {one:#x}", of_pci(one, one))
table_broken(DEVICE, "0x40 0x0 0x1", "a device alone, and wrong numbers", of_pci(1, 0xFFFF, 0, 32, 8))
table_broken(DEVICE, "0x40 0x0 0xffff", "a vendor alone, and wrong numbers", of_pci(0xFFFF, 1, 0, 32, 8))
for device in (32, 33, 64, 128, 255):
    table_broken(DEVICE, f"0x45 0x0 {device:#x}", f"device {device}", of_pci(1, 2, 0, device))
    table_kept(DEVICE, f"device {device} of no IDs", of_pci(0xFFFF, 0xFFFF, 0, device))
for function in (8, 9, 16, 128, 255):
    table_broken(DEVICE, f"0x46 0x0 {function:#x}", f"function {function}", of_pci(1, 2, 0, 31, function))
    table_kept(DEVICE, f"function {function} of no IDs", of_pci(0xFFFF, 0xFFFF, 0, 31, function))
table_broken(DEVICE, "0x45 0x0 0x20", "device 32 and function 8", of_pci(0, 0, 255, 32, 8))
table_kept(DEVICE, "bus 255, device 31, function 7", of_pci(0, 0, 255, 31, 7))
table_kept(DEVICE, "all zeros", of_pci(0, 0))
table_kept(DEVICE, "no PCI device", of_pci(0xFFFF, 0xFFFF, 255, 255, 255))
table_kept(DEVICE, "the bytes around them", spcr(_63=b"\xff", _64=bytes(7) + b"\xff" * 9))
table_broken(DEVICE, "0x45 0x0 0x20", "IDs with a byte of FFh each", of_pci(0xFF, 0xFF00, 0, 32))
for revision in (0, 4):
    table_broken(DEVICE, "0x46 0x0 0x8", f"function 8, Revision {revision}", spcr(revision, _64=bytes(6) + b"\10"))

# ---- the SPCR: the name
NAME = "SpcrName"


def named(size, start, name=b"", length=128, revision=4):
    """An SPCR with this size and place of its name, and these bytes there."""
    fields = {"_84": number(size, 2) + number(start, 2), "_88": bytes(length - 88)}
    return spcr(revision, length, **{**fields, **({f"_{start}": name} if name else {})})


for size in (0, 1):
    for start in (0, 87, 88, 100, 128, 129, 65535):
        table_broken(NAME, f"0x54 0x0 {size:#x}", f"a name of {size} bytes at {start}", named(size, start))
for start in (0, 1, 36, 80, 84, 86, 87):
    table_broken(NAME, f"0x56 0x0 {start:#x}", f"a name at {start}", named(2, start))
for size, start, length in ((3, 88, 90), (2, 89, 90), (41, 88, 128), (40, 89, 128), (2, 127, 128), (2, 128, 128), (2, 200, 128)):
    table_broken(NAME, f"0x56 0x0 {start:#x}", f"a name of {size} bytes at {start} of {length}", named(size, start, length=length))
for size, start, length in ((65535, 88, 128), (2, 65535, 128), (65535, 65535, 128), (65535, 65535, 70000), (0x8000, 0x8000, 0xFFFF)):
    table_broken(NAME, f"0x56 0x0 {start:#x}", f"a name of {size} bytes at {start} of {length}", named(size, start, length=length))
for size, start, length in (
    (2, 88, 90), (2, 88, 91), (2, 88, 128), (40, 88, 128), (39, 89, 128), (2, 126, 128), (10, 100, 128), (2, 0x100, 0x200),
    (0x8000, 0x8000, 0x10000), (65535, 65535, 131070), (65535, 65535, 140000),
):
    end = start + size
    table_kept(NAME, f"a name of {size} bytes at {start} of {length}", named(size, start, b"\1" * (size - 1) + b"\0", length))
    for last in (1, 0x2E, 255):
        wrong = named(size, start, b"\0" * (size - 1) + bytes([last]), length)
        table_broken(NAME, f"{end - 1:#x} 0x0 {last:#x}", f"a name of {size} bytes at {start} of {length} that ends with {last}", wrong)
    if end < length:
        table_kept(NAME, f"a byte after a name of {size} bytes at {start} of {length}", named(size, start, bytes(size) + b"\1", length))
for revision in (4, 5, 128, 255):
    table_broken(NAME, "0x54", f"no name, Revision {revision}", spcr(revision, 88, _84=bytes(4)))
    table_kept(NAME, f"a name, Revision {revision}", spcr(revision))
for revision in (0, 1, 2, 3):
    table_kept(NAME, f"no name, Revision {revision}", spcr(revision, 90))
    table_kept(NAME, f"a name that does not end, Revision {revision}", named(2, 88, b"\1\1", revision=revision))
table_broken(NAME, "0x54 0x0 0x1", "a name of one byte before the fields", named(1, 0))
table_broken(NAME, "0x59 0x0 0x5a", "a name with a 0 in it", named(2, 88, b"\0\x5a"))
table_broken(NAME, "0x59 0x0 0x1", "a name that ends with the table, and a 0 behind the table", named(2, 88, b".\1", 90) + b"\0")
table_broken(NAME, "0x56 0x0 0x58", "a name of which the last byte is behind the table", named(3, 88, b"..", 90) + b"\0")

# ---- which table is read. Of each rule the numbers of one that is broken, and the table.
WRONG = (
    ("McfgLength", "0x4 0x3c 0x2c", mcfg()), ("EcamAddress", "0x2c 0x0 0x1", mcfg(ecam(1))),
    ("BusesReversed", "0x2c 0xb 0x0", mcfg(ecam(BUS, 0, 1, 0))), ("EcamWraps", f"0x2c 0x0 {TOP - BUS:#x}", mcfg(ecam(TOP - BUS))),
    ("EcamTooHigh", "0x2c 0x0 0x100000000", mcfg(ecam(2**32), revision=0)), ("SameBus", "0x2c 0x3c 0x0", mcfg(ecam(BUS), ecam(2**32))),
    ("EcamOverlap", "0x2c 0x3c 0x100000", mcfg(ecam(BUS), ecam(BUS, 1))), ("HpetLength", "0x4 0x38 0x28", table(b"HPET", bytes(4))),
    ("HpetSpace", "0x28 0x0 0x1", hpet(space=1)), ("HpetAddress", "0x2c", hpet(0)), ("SpcrLength", "0x4 0x50 0x4f", spcr(length=79)),
    ("SpcrAddress", "0x28 0x0 0x2", spcr(_40=b"\2")), ("SpcrBaud", "0x3a 0x0 0x1", spcr(_58=b"\1")),
    ("SpcrGsi", "0x35 0x0 0x0", spcr(_53=b"\0")), ("SpcrPci", "0x40 0x0 0x0", spcr(_64=bytes(2))),
    ("SpcrName", "0x54", spcr(4, _84=bytes(2))),
)
RIGHT = {b"MCFG": mcfg(ecam(0xB0000000)), b"HPET": hpet(), b"SPCR": spcr(4)}
for rule, numbers, wrong in WRONG:
    which_table(rule, numbers, wrong, RIGHT[wrong[:4]], sets=DEVICES)

# ---- all lines, in their order, of sets that break several rules
whole("an MCFG, an HPET and an SPCR", sound(mcfg(ecam(0xB0000000)), hpet(), spcr()))
whole("an SPCR with a name", sound(spcr(4)))
WRONG_IN_ALL = table(b"MCFG", bytes(8) + ecam(TOP - 1) + ecam(TOP - 1, 0, 0, 9) + ecam(0, 0, 5, 4) + bytes(3), 0)
whole(
    "an MCFG that is wrong in all", sound(WRONG_IN_ALL),
    "McfgLength 0x4 0x6c 0x5f", f"EcamAddress 0x2c 0x0 {TOP - 1:#x}", "BusesReversed 0x4c 0xb 0x4", f"EcamWraps 0x2c 0x0 {TOP - 1:#x}",
    f"EcamTooHigh 0x2c 0x0 {TOP - 1:#x}", "SameBus 0x2c 0x3c 0x0", f"EcamOverlap 0x2c 0x3c {TOP - 1:#x}",
)
whole("an HPET that is wrong in all its fields", sound(hpet(1, 1)), "HpetSpace 0x28 0x0 0x1", "HpetAddress 0x2c 0x0 0x1")
whole("an HPET that ends before its last field does", sound(table(b"HPET", hpet(1, 1)[36:55])), "HpetLength 0x4 0x38 0x37")
whole(
    "an SPCR that is wrong in all its fields",
    sound(spcr(4, 88, _40=generic_address(1, 2), _52=b"\1\0", _58=b"\1", _64=b"\0\0\xff\xff", _84=bytes(4))),
    "SpcrAddress 0x28 0x0 0x2", "SpcrBaud 0x3a 0x0 0x1", "SpcrGsi 0x35", "SpcrPci 0x40", "SpcrName 0x54",
)
whole(
    "an SPCR that ends before its last field does",
    sound(spcr(4, 87, _40=generic_address(1, 2), _52=b"\1\0", _58=b"\1", _64=b"\0\0\xff\xff")), "SpcrLength 0x4 0x58 0x57",
)
whole(
    "two of each, the first of which are valid", sound(mcfg(ecam(BUS)), hpet(), spcr(), mcfg(), hpet(0), spcr(length=79)),
    "SecondOther 0x4 0x1 0x6000",
)
whole(
    "each table alone, and none that sums to 0",
    sound(changed(mcfg(), {9: 0}), changed(hpet(0), {9: 0}), changed(spcr(length=79), {9: 0})),
    "McfgLength 0x4 0x3c 0x2c", "HpetAddress 0x2c", "SpcrLength 0x4 0x50 0x4f", faults=("no 3 TableSum 0x1 0x3000",),
)
