#!/usr/bin/env python3
"""`check` and `lint` on tables of up to a million entries, clean or all at fault, of each of which they gather a number, and on a set of
many slots, unsorted, that list tables each in its own segment of the image. A rule that gave up on this many would be out of memory by
its contract, and one that looked through all of them for each one would not end, so only these sets show it.

usage: large.py PROGRAM; the last line is 'lint of large sets: N passed, M failed'. `bench/run --lint` measures the time of both."""

import itertools
import random
import struct
import sys
from pathlib import Path

sys.path.insert(0, str(Path(__file__).resolve().parents[1]))

from acpi_images.program import main
from acpi_images.tables import *
from acpi_images.text import text_of

COUNT = 1_000_000
LAST = COUNT - 1
PLACES = (TABLES_AT, 0x10000000, 0x20000000)
# How many entries of 80 and of 40 bytes, and how many pairs of 12 and 20 bytes, fit into a text.
GICCS, RANGES, PAIRS = 400_000, 800_000, 900_000


def text_with(*tables):
    """The text of a FADT and of these tables, in rows as long as a line may be."""
    listed = dict(zip(PLACES, (sound_fadt(), *tables)))
    return text_of({RSDP_AT: rsdp(), RSDT_AT: rsdt(*listed), **listed}, width=32_768, blank="")


def advised(*advice, first="yes"):
    """The lines of a set with this advice, and with this fault if there is one. Numbers of 0 at the end are left out."""
    lines = [first, *(f"advice {line}" for line in advice)]
    return [line + " 0x0" * ((6 if line.startswith("no") else 5) - len(line.split())) if " " in line else line for line in lines]


# ---- the MADT


def madt_of(*entries):
    """A MADT of Revision 6, which has all types of entries."""
    return revised(madt(*entries), 6)


def interrupt_sources():
    """A processor, an I/O APIC from 0 on, and NMI sources of a number that it serves, but for the last one."""
    fault = f"no 17 GsiNowhere {44 + 8 + 12 + 8 * LAST:#x} 0x0 0x18"
    yield "the last", madt_of(lapic(0, 0), io_apic(0xFEC00000, 0), nmi_source(23) * LAST, nmi_source(24)), advised(first=fault)


def processors():
    """Processors whose UIDs fall and whose IDs rise, but the last one has the UID and the ID of the first; and two leaves, of which the
    second one is no processor."""
    entry = struct.Struct("<BBHIII")
    numbers = [*((place, COUNT - place) for place in range(LAST)), (0, COUNT)]
    entries = b"".join(entry.pack(9, 16, 0, apic_id, 1, uid) for apic_id, uid in numbers)
    last = 44 + 16 * LAST
    advice = f"SameUid {last:#x} 0x2c {COUNT:#x}", f"SameApicId {last:#x} 0x2c", f"NoLeaf 0x3c 0x0 {COUNT - 1:#x}"
    yield "the last", (madt_of(entries), pptt(core(COUNT), core(1))), advised(*advice, first="no 18 LeafUnknown 0x38 0x0 0x1")


def io_apics():
    """A processor, and I/O APICs whose addresses rise or are in no order, with IDs that count from 0 to 255 and begin again."""
    entry = struct.Struct("<BBBBII")
    apics = lambda address: b"".join(entry.pack(1, 12, place % 256, 0, address(place), 24 * place) for place in range(COUNT))
    repeated = advised(f"SameIoApicId {52 + 12 * 256:#x} 0x34")
    yield "rising", madt_of(lapic(0, 0), apics(lambda place: 0x1000 * (place + 1))), repeated
    order = random.Random(5).sample(range(COUNT), COUNT)
    yield "in no order", madt_of(lapic(0, 0), apics(lambda place: 0x1000 * (order[place] + 1))), repeated


def x2apics():
    """x2APICs whose UIDs and IDs are in no order: all differ, the last one has those of the first, or each occurs twice."""
    entry = struct.Struct("<BBHIII")
    ids, uids = (random.Random(seed).sample(range(2**32 - 1), COUNT) for seed in (3, 4))
    alike = [entry.pack(9, 16, 0, apic_id, 1, uid) for apic_id, uid in zip(ids, uids)]
    yield "clean", madt_of(*alike), advised()
    repeated = lambda at: (f"SameUid {at:#x} 0x2c {uids[0]:#x}", f"SameApicId {at:#x} 0x2c {ids[0]:#x}")
    yield "the last", madt_of(*alike[:-1], alike[0]), advised(*repeated(44 + 16 * LAST))
    half = COUNT // 2
    yield "each twice", madt_of(*alike[:half], *alike[:half]), advised(*repeated(44 + 16 * half))


def unread_entries():
    """A processor, and entries of two bytes of a type without a meaning; behind them a range of redistributors of no bytes."""
    entries = lapic(0, 0) + bytes((0x80, 2)) * COUNT
    yield "all", madt_of(entries), advised("MadtUnread 0x34 0x80")
    empty = struct.pack("<BBHQI", 14, 16, 0, 0x20000, 0)
    yield "the last", madt_of(entries, empty), advised("MadtUnread 0x34 0x80", f"GicrEmpty {52 + 2 * COUNT:#x} 0x0 0x20000")


def giccs():
    """GICCs whose UIDs rise and whose MPIDRs fall, and the last of which has the UID and the MPIDR of the first; a distributor, and a
    GTDT."""
    entry = struct.Struct("<BB6xII52xQ4x")
    mpidr = lambda place: (GICCS - place & 0xFFFFFF) | (place % 256) << 32
    alike = b"".join(entry.pack(11, 80, place, 1, mpidr(place)) for place in range(GICCS))
    last = 44 + 80 * GICCS
    yield "clean", (madt_of(alike, gicd()), gtdt()), advised()
    yield "the last", (madt_of(alike, gicd(), entry.pack(11, 80, 0, 1, mpidr(0))), gtdt()), advised(
        f"SameUid {last + 24:#x} 0x2c", f"SameMpidr {last + 24:#x} 0x2c {mpidr(0):#x}"
    )
    wrong = b"".join(entry.pack(11, 80, place, 1, place << 24) for place in range(GICCS))
    yield "all", (madt_of(wrong, gicd()), gtdt()), advised("MpidrReserved 0x7c 0x0 0x1000000")


def harts():
    """Harts whose UIDs rise and whose IDs fall; the last of them has the ID of the first."""
    entry = struct.Struct("<BBHIQI")
    alike = [entry.pack(24, 20, 1, 1, COUNT - place, place) for place in range(COUNT)]
    yield "clean", madt_of(*alike), advised()
    yield "the last", madt_of(*alike[:-1], entry.pack(24, 20, 1, 1, COUNT, LAST)), advised(f"SameHart {44 + 20 * LAST:#x} 0x2c {COUNT:#x}")
    one = (entry.pack(24, 20, 1, 3, 0, place) for place in range(COUNT))
    yield "all", madt_of(*one), advised("EnabledAndCapable 0x2c 0x0 0x3", "SameHart 0x40 0x2c")


def overrides():
    """A processor, an I/O APIC and overrides of 16 sources, each to a number of its own, with one of another source behind them; all to one
    number; and of 256 sources."""
    before = lapic(0, 0) + io_apic(0xFEC00000, 0)
    alike = b"".join(override(source, source) for source in range(16)) * (COUNT // 16)
    yield "clean", madt_of(before, alike), advised()
    last = 64 + 10 * COUNT
    past = advised(f"OverridePastIsa {last:#x} 0x13 0x3", f"TwoSourcesOneGsi {last:#x} 0x5e 0x3")
    yield "the last", madt_of(before, alike, override(19, 3)), past
    one = b"".join(override(source, 2) for source in range(16)) * (COUNT // 16)
    yield "all", madt_of(before, one), advised("TwoSourcesOneGsi 0x4a 0x40 0x2")
    many = b"".join(override(source, source % 24) for source in range(256)) * (COUNT // 256)
    yield "256 sources", madt_of(before, many), advised("OverridePastIsa 0xe0 0x10 0x10", "TwoSourcesOneGsi 0x130 0x40")


def redistributors():
    """A processor, and ranges of redistributors at falling addresses, at one address, or empty."""
    entry = struct.Struct("<BBHQI")
    ranges = lambda base, size: b"".join(entry.pack(14, 16, 0, base(place), size) for place in range(COUNT))
    falling = ranges(lambda place: 0x20000 * (COUNT - place), 0x20000)
    yield "clean", madt_of(lapic(0, 0), falling), advised()
    yield "the last two", madt_of(lapic(0, 0), falling, entry.pack(14, 16, 0, 0x3FFFF, 1)), advised(
        f"GicOverlap {52 + 16 * LAST:#x} {52 + 16 * COUNT:#x} 0x3ffff"
    )
    yield "all", madt_of(lapic(0, 0), ranges(lambda _: 0x20000, 0x20000)), advised("GicOverlap 0x34 0x44 0x20000")
    yield "all empty", madt_of(lapic(0, 0), ranges(lambda _: 0x20000, 0)), advised("GicrEmpty 0x34 0x0 0x20000")


def its_and_frames():
    """A processor, and ITS and MSI frames whose numbers and addresses fall; or that all have one number."""
    of_its = struct.Struct("<BBHIQ4x")
    of_frame = struct.Struct("<BBHIQ8x")
    half = COUNT // 2
    entries = lambda number: b"".join(
        [*(of_its.pack(15, 20, 0, number(place), 0x20000 * (COUNT - place)) for place in range(half))]
        + [*(of_frame.pack(13, 24, 0, number(place), 0x1000 * place) for place in range(half))]
    )
    yield "clean", madt_of(lapic(0, 0), entries(lambda place: half - place)), advised()
    frames = 52 + 20 * half
    alike = advised("SameIts 0x48 0x34 0x7", f"SameMsiFrame {frames + 24:#x} {frames:#x} 0x7")
    yield "all", madt_of(lapic(0, 0), entries(lambda _: 7)), alike


def distributors():
    """A processor, and distributors with a reserved byte each."""
    entries = gicd() + placed(gicd(), _16=b"\1") * LAST
    yield "all", madt_of(lapic(0, 0), entries), advised("SecondGicd 0x4c 0x34", "GicOverlap 0x34 0x4c", "MadtReserved 0x4c 0x10")


# ---- the SRAT and the SLIT


def ranges():
    """Ranges of memory that are empty, or that all have a reserved flag."""
    entry = struct.Struct("<BBI2xQQ4xI8x")
    yield "clean", srat(*(entry.pack(1, 40, 0, 0x1000 * place, 0x1000, 1) for place in reversed(range(RANGES)))), advised()
    yield "all empty", srat(entry.pack(1, 40, 0, 0, 0, 1) * RANGES), advised("EmptyRange 0x30")
    yield "all with a flag", srat(entry.pack(1, 40, 0, 0, 0, 8) * RANGES), advised("SratReserved 0x30 0x1c")


def affinities_of_its():
    """ITS whose numbers fall, and affinities of them whose numbers rise, the last one of none."""
    of_madt, of_srat = struct.Struct("<BBHIQ4x"), struct.Struct("<BBI2xI")
    entries = b"".join(of_madt.pack(15, 20, 0, PAIRS - place, 0x20000 * place) for place in range(PAIRS))
    affinities = lambda last: b"".join(of_srat.pack(4, 12, 0, place + 1) for place in range(PAIRS - 1)) + of_srat.pack(4, 12, 0, last)
    there = madt_of(lapic(0, 0), entries)
    # the domain of them all has memory too
    yield "clean", (there, srat(affinities(PAIRS), memory(0, 1))), advised()
    nowhere = advised(f"ItsNowhere {48 + 12 * (PAIRS - 1):#x} 0x0 {PAIRS + 1:#x}")
    yield "the last", (there, srat(affinities(PAIRS + 1), memory(0, 1))), nowhere


def localities():
    """A SLIT of 4,000 localities, all far from each other, or the last two at the distance of one from itself."""
    count = 4000
    row = lambda own: bytes([20] * own + [10] + [20] * (count - own - 1))
    cells = bytearray(b"".join(map(row, range(count))))
    yield "clean", slit(count, cells), advised()
    cells[-2] = cells[-count - 1] = 10
    at = 44 + count * count - count - 1
    yield "the last two", slit(count, cells), advised(f"RemoteAsLocal {at:#x} {count - 2:#x} {count - 1:#x}")


# ---- the PPTT


def nodes():
    """A chain of nodes, the first one a package or not, and as many leaves below its last one; all leaves with a reserved flag."""
    half = COUNT // 2
    entry = struct.Struct("<BBHIIII")
    last = 36 + 20 * (half - 1)
    chain = b"".join(entry.pack(0, 20, 0, 0, 36 + 20 * (place - 1), 0, 0) for place in range(1, half))
    leaves = lambda flags: b"".join(entry.pack(0, 20, 0, flags, last, place, 0) for place in range(half))
    first = lambda flags: entry.pack(0, 20, 0, flags, 0, 0, 0)
    at = 36 + 20 * half
    yield "clean", pptt(first(IS_PACKAGE), chain, leaves(LEAF)), advised()
    yield "no package", pptt(first(0), chain, leaves(LEAF)), advised(f"NoPackage {at:#x}")
    yield "no flags of leaves", pptt(first(IS_PACKAGE), chain, leaves(IS_ID_VALID)), advised(f"LeafUnflagged {at:#x}")
    yield "a reserved flag", pptt(first(IS_PACKAGE), chain, leaves(LEAF | 1 << 5)), advised(f"PpttReserved {at:#x} 0x4")
    under = b"".join(entry.pack(0, 20, 0, LEAF, 36 + 20 * (place - 1), place, 0) for place in range(1, COUNT))
    yield "leaves below each other", pptt(entry.pack(0, 20, 0, LEAF | IS_PACKAGE, 0, 0, 0), under), advised("LeafAsParent 0x24 0x38")


def caches():
    """Caches of a size, or with a size that is not that of their lines."""
    right, wrong = (cache(flags=0x47, size=size, sets=64, ways=8, line=64) for size in (0x8000, 0x8001))
    yield "clean", pptt(right * COUNT), advised()
    yield "the last", pptt(right * LAST, wrong), advised(f"CacheNumbers {36 + 24 * LAST:#x} 0x8001 0x8000")


# ---- the MCFG


def ecams():
    """Entries of one bus each, in no order, of which the last one has that of the first; all of one bus; and of buses that are reversed."""
    entry = struct.Struct("<QHBB4x")
    of_bus = lambda place: entry.pack((place // 256 + 1) << 28, place // 256, place % 256, place % 256)
    order = random.Random(6).sample(range(COUNT), COUNT)
    alike, last = [*map(of_bus, order)], 44 + 16 * LAST
    yield "clean", mcfg(*alike), advised()
    shared = f"SameBus 0x2c {last:#x} {order[0]:#x}", f"EcamOverlap 0x2c {last:#x} {(order[0] + 256) << 20:#x}"
    yield "the last", mcfg(*alike[:-1], alike[0]), advised(*shared)
    yield "all", mcfg(of_bus(0) * COUNT), advised("SameBus 0x2c 0x3c", "EcamOverlap 0x2c 0x3c 0x10000000")
    yield "all reversed", mcfg(entry.pack(1 << 20, 0, 1, 0) * COUNT), advised("BusesReversed 0x2c 0xb")


# ---- the HMAT


def affinities_of(domains):
    """An SRAT with an affinity of a processor, which is not enabled, in each of these domains."""
    entry = struct.Struct("<BBBBIBBBB4x")
    of_domain = lambda it: entry.pack(0, 16, it & 0xFF, 0, 0, 0, it >> 8 & 0xFF, it >> 16 & 0xFF, it >> 24)
    return srat(b"".join(map(of_domain, domains)))


def cells():
    """Cells of 1,000 initiators and 1,000 targets, the last one or all of which are too large in their unit."""
    count = 1000
    domains = random.Random(7).sample(range(count), count)
    there, unit, large = affinities_of(range(count)), 65539, number(0xFFFE, 2)
    lists = b"".join(number(it, 4) for it in (*domains, *reversed(domains)))
    fields = {"_9": b"\5", "_12": number(count, 4), "_16": number(count, 4), "_24": number(unit, 8)}
    made = lambda of_cells: hmat(of_hmat(1, 32 + len(lists) + len(of_cells), **fields, _32=lists + of_cells))
    first = 40 + 32 + 8 * count
    yield "clean", (made(b"\1\0" * (count * count)), there), advised()
    last = advised(f"HmatTooLarge {first + 2 * (count * count - 1):#x} 0x0 0xfffe")
    yield "the last", (made(b"\1\0" * (count * count - 1) + large), there), last
    yield "all", (made(large * (count * count)), there), advised(f"HmatTooLarge {first:#x} 0x0 0xfffe")
    yield "unreachable", (made(b"\xff\xff" * (count * count)), there), advised()


def initiators():
    """Initiators in no order, the last one of which is the first or in no domain; and targets that are all one domain."""
    order = random.Random(8).sample(range(COUNT), COUNT)
    there, lists = affinities_of(range(COUNT)), struct.pack(f"<{COUNT}I", *order)
    made = lambda counts, of_lists: hmat(of_hmat(1, 32 + len(of_lists), _12=counts, _24=number(1, 8), _32=of_lists))
    of_first, of_second = number(COUNT, 4) + bytes(4), bytes(4) + number(COUNT, 4)
    last = 72 + 4 * LAST
    yield "clean", (made(of_first, lists), there), advised()
    again = advised(f"HmatSameDomain {last:#x} 0x48 {order[0]:#x}")
    yield "the last like the first", (made(of_first, lists[:-4] + lists[:4]), there), again
    nowhere = advised(f"HmatDomainNowhere {last:#x} 0x0 {COUNT:#x}")
    yield "the last in no domain", (made(of_second, lists[:-4] + number(COUNT, 4)), there), nowhere
    yield "all one domain", (made(of_second, number(7, 4) * COUNT), there), advised("HmatSameDomain 0x4c 0x48 0x7")


def structures_of_8_bytes():
    """Structures of 8 bytes, of a type that there is not, with a byte behind them or none; and of the first type, which are longer."""
    nothing = of_hmat(3, 8) * COUNT
    end = 40 + 8 * COUNT
    yield "clean", (hmat(nothing), srat(memory(0, 1))), advised()
    yield "a byte behind them", (hmat(nothing, b"\1"), srat(memory(0, 1))), advised(f"HmatCut {end:#x} 0x0 {end + 1:#x}")
    yield "a cache behind them", (hmat(nothing, side_cache(0, 4)), srat(memory(0, 1))), advised(f"HmatCache {end:#x} 0x18 0x4")
    yield "all", (hmat(of_hmat(0, 8) * COUNT), srat(memory(0, 1))), advised("HmatLength 0x28 0x28 0x8")


def proximities():
    """Proximities, whose initiators are in domains that fall, and the last of which is in none."""
    count = 400_000
    entry = struct.Struct("<HHIHHII20x")
    alike = b"".join(entry.pack(0, 0, 40, 1, 0, count - place, 0) for place in range(count - 1))
    made = lambda last: hmat(alike, entry.pack(0, 0, 40, 1, 0, last, 0), revision=1)
    there = affinities_of(range(1, count + 1))
    yield "clean", (made(1), there), advised()
    yield "the last", (made(0), there), advised(f"HmatProximity {40 + 40 * (count - 1):#x} 0xc")


# ---- the GTDT


def watchdogs():
    """Watchdogs whose frames are at falling addresses, the last of which has the control frame of the first, or is said to be another one;
    and all of one address."""
    count = RANGES
    entry = struct.Struct("<BHxQQII")
    alike = b"".join(entry.pack(1, 28, 0x2000 * (count - place), 0x2000 * (count - place) + 0x1000, 48, 0) for place in range(count))
    made = lambda timers, more=0: gtdt(timers, _88=number(len(timers) // 28 + more, 4))
    end = 104 + 28 * count
    yield "clean", made(alike), advised()
    first = 0x2000 * count + 0x1000
    again = entry.pack(1, 28, 0x1000, first, 48, 0)
    yield "the last like the first", made(alike + again), advised(f"TimerOverlap 0x74 {end + 12:#x} {first:#x}")
    yield "one more", made(alike, 1), advised(f"PlatformTimerCut {end:#x} 0x0 {end:#x}")
    yield "2^32 - 1", made(alike, 2**32 - 1 - count), advised(f"PlatformTimerCut {end:#x} 0x0 {end:#x}")
    yield "all", made(entry.pack(1, 28, 0x1000, 0x1000, 48, 0) * count), advised("TimerOverlap 0x6c 0x74 0x1000")


def timers_of_4_bytes():
    """Platform timers of 4 bytes, of a type that there is not, or too short for theirs."""
    made = lambda kind: gtdt(of_gtdt(kind, 4) * COUNT, _88=number(COUNT, 4))
    yield "all of type 2", made(2), advised("PlatformTimerCut 0x68 0x0 0x2")
    yield "all blocks", made(0), advised("TimerBlock 0x68 0x14 0x4")
    yield "all watchdogs", made(1), advised("Watchdog 0x68 0x1c 0x4")


def frames():
    """Blocks of eight frames at rising addresses, the last frame of which has the number of the one before, or the address of the first."""
    count = 80_000
    entry, head = struct.Struct("<B3xQQI4xI4xI"), struct.Struct("<BHxQII")
    base = lambda place: 0x1000 * (place + 1)
    of_block = lambda block, number_of=lambda it: it: head.pack(0, 340, base(9 * block), 8, 20) + b"".join(
        entry.pack(number_of(it), base(9 * block + 1 + it), 0, 40, 0, 0) for it in range(8)
    )
    alike = b"".join(map(of_block, range(count - 1)))
    made = lambda last: gtdt(alike, last, _88=number(count, 4))
    last = 104 + 340 * (count - 1) + 20 + 40 * 7
    yield "clean", made(of_block(count - 1)), advised()
    yield "a number twice", made(of_block(count - 1, lambda it: min(it, 6))), advised(f"SameFrame {last:#x} {last - 40:#x} 0x6")
    shared = placed(of_block(count - 1), _304=number(base(1), 8))
    yield "an address twice", made(shared), advised(f"TimerOverlap 0x80 {last + 4:#x} {base(1):#x}")
    yield "all without an address", gtdt(
        (head.pack(0, 60, 0, 1, 20) + entry.pack(0, 0, 0, 40, 0, 0)) * count, _88=number(count, 4),
    ), advised("TimerFrame 0x7c 0x4")


# ---- the DMAR

# How many scopes of 8 bytes one structure has, whose length is a number of 16 bits, and how many structures have a million of them; and how
# many IOMMUs with an RHSA and an affinity, of 52 bytes, fit into a text.
IN_ONE, HOLDING, UNITS = 8000, COUNT // 8000, 500_000
UNIT = struct.Struct("<HHBBHQ")


def unit(place, scopes=b"", flags=0, segment=0):
    """An IOMMU whose registers are at this page, with scopes."""
    return UNIT.pack(0, 16 + len(scopes), flags, 0, segment, 4096 * (place + 1)) + scopes


def scopes_of_units():
    """A million scopes in as few IOMMUs as can have them: of endpoints, the last of which has a function that there is not, or is cut; of
    I/O APICs, of which there are 256; and of a device of the namespace."""
    one = scope()
    made = lambda scopes, last: dmar(b"".join(unit(place, scopes) for place in range(HOLDING - 1)), unit(HOLDING - 1, last))
    end = 48 + HOLDING * (16 + 8 * IN_ONE)
    yield "clean", made(one * IN_ONE, one * IN_ONE), advised()
    last = made(one * IN_ONE, one * (IN_ONE - 1) + scope(steps=[(0, 8)]))
    yield "the last", last, advised(f"ScopeType {end - 2:#x} 0x1 0x8")
    yield "a byte behind the last", made(one * IN_ONE, one * IN_ONE + b"\1"), advised(f"ScopeCut {end:#x} 0x0 {end + 1:#x}")
    apics = b"".join(scope(SCOPE_IO_APIC, place % 256) for place in range(IN_ONE))
    yield "of I/O APICs", made(apics, apics), advised(f"SameScope {64 + 8 * 256:#x} 0x40")
    yield "of devices", made(scope(NAMESPACE_DEVICE, 7) * IN_ONE, one), advised("AnddNowhere 0x40 0x4 0x7")
    long = scope(steps=[(31, 7)] * 124) * 250
    last = made(long, long[:-2] + b"\40\0")
    yield "long paths", last, advised(f"ScopeType {48 + HOLDING * (16 + len(long)) - 2:#x} 0x0 0x20")


def regions():
    """Regions with a scope each, at falling addresses; the last one ends within a page, or is of no device; and all end before they
    begin."""
    entry, one = struct.Struct("<HHHHQQ"), scope()
    region = lambda place, length=32, less=0: entry.pack(1, length, 0, 0, 4096 * (RANGES - place), 4096 * (RANGES - place + 1) - 1 - less)
    alike = b"".join(region(place) + one for place in range(RANGES))
    end = 64 + 32 * RANGES
    yield "clean", dmar(unit(0), alike), advised()
    yield "the last", dmar(unit(0), alike, region(0, less=1), one), advised(f"RmrrRange {end:#x} 0x10 {4096 * (RANGES + 1) - 2:#x}")
    yield "the last of no device", dmar(unit(0), alike, region(0, 24)), advised(f"RmrrNoDevice {end:#x} 0x20 0x18")
    yield "all", dmar(unit(0), (region(0, less=4096) + one) * RANGES), advised(f"RmrrRange 0x40 0x10 {4096 * RANGES - 1:#x}")


def units():
    """IOMMUs at addresses in no order, the last of which is at that of the first, or all at one; and of segments, each of which ends with
    one of all other devices, with one more of some devices, or of all, after them."""
    order = random.Random(9).sample(range(COUNT), COUNT)
    alike, end = b"".join(map(unit, order)), 48 + 16 * COUNT
    at = lambda place: f"{4096 * (place + 1):#x}"
    yield "clean", dmar(alike), advised()
    yield "the last like the first", dmar(alike, unit(order[0])), advised(f"DrhdOverlap 0x30 {end:#x} {at(order[0])}")
    yield "all at one address", dmar(unit(0) * COUNT), advised("DrhdOverlap 0x30 0x40 0x1000")
    yield "all at 0", dmar(unit(-1) * COUNT), advised("DrhdAddress 0x30 0x8")
    some = b"".join(unit(place, segment=order[place] % 65536) for place in range(COUNT))
    of_all = b"".join(unit(COUNT + segment, flags=1, segment=segment) for segment in range(65536))
    past, last_of = end + 16 * 65536, end + 16 * 1234
    yield "segments", dmar(some, of_all), advised()
    after = dmar(some, of_all, unit(2 * COUNT, segment=1234))
    yield "segments, and one after them", after, advised(f"IncludeAllNotLast {past:#x} {last_of:#x} 0x4d2")
    again = dmar(some, of_all, unit(2 * COUNT, flags=1, segment=1234))
    yield "segments, and one of all after them", again, advised(f"SecondIncludeAll {past:#x} {last_of:#x} 0x4d2")
    yield "all of all", dmar(*(unit(place, flags=1) for place in range(COUNT))), advised("SecondIncludeAll 0x40 0x30")


def rhsas():
    """RHSAs of IOMMUs in no order, in domains that fall; the last one is of no IOMMU, in no domain, or of the first IOMMU; and all are of
    one IOMMU."""
    entry = struct.Struct("<HHIQI")
    rhsa_of = lambda place, domain: entry.pack(3, 20, 0, 4096 * (place + 1), domain)
    order = random.Random(10).sample(range(UNITS), UNITS)
    there, units_of = affinities_of(range(UNITS)), b"".join(map(unit, range(UNITS)))
    alike = b"".join(rhsa_of(place, UNITS - 1 - index) for index, place in enumerate(order[:-1]))
    made = lambda *last: (dmar(units_of, alike, *last), there)
    first = 48 + 16 * UNITS
    last = first + 20 * (UNITS - 1)
    yield "clean", made(rhsa_of(order[-1], 0)), advised()
    yield "the last of no IOMMU", made(rhsa_of(UNITS, 0)), advised(f"RhsaNowhere {last:#x} 0x8 {4096 * (UNITS + 1):#x}")
    yield "the last in no domain", made(rhsa_of(order[-1], UNITS)), advised(f"RhsaDomain {last:#x} 0x10 {UNITS:#x}")
    yield "the last like the first", made(rhsa_of(order[0], 0)), advised(f"SameRhsa {last:#x} {first:#x} {4096 * (order[0] + 1):#x}")
    yield "all", dmar(unit(0), rhsa_of(0, 0) * COUNT), advised("SameRhsa 0x54 0x40 0x1000")


def structures_of_4_bytes():
    """Structures of 4 bytes, of a type that there is not, with a byte behind them or none, and without an IOMMU; and IOMMUs and devices of
    the namespace that are too short."""
    nothing, end = of_dmar(7, 4) * COUNT, 48 + 4 * COUNT
    yield "clean", dmar(nothing, drhd()), advised()
    yield "a byte behind them", dmar(nothing, b"\1"), advised(f"DmarCut {end:#x} 0x0 {end + 1:#x}")
    yield "no IOMMU", dmar(nothing), advised("NoDrhd")
    yield "all", dmar(of_dmar(0, 4) * COUNT), advised("DmarShort 0x30 0x10 0x4")
    yield "devices", dmar(of_dmar(4, 4) * COUNT), advised("DmarShort 0x30 0x9 0x4")


def devices_of_the_namespace():
    """Devices of the namespace with 255 numbers, each of which has a scope; the last has a number that no scope has, or a name that is
    open."""
    entry = struct.Struct("<HHHxBB")
    alike = b"".join(entry.pack(4, 9, 0, place % 255, 0) for place in range(COUNT))
    made = lambda *last: dmar(drhd(*(scope(NAMESPACE_DEVICE, place) for place in range(255))), alike, *last)
    end = 48 + 16 + 8 * 255 + 9 * COUNT
    yield "clean", made(), advised()
    yield "the last in no scope", made(entry.pack(4, 9, 0, 255, 0)), advised(f"AnddNowhere {end:#x} 0x7 0xff")
    yield "the last with an open name", made(entry.pack(4, 9, 0, 3, 65)), advised(f"AnddName {end:#x} 0x8")


# ---- the IVRS

# How many entries of 4 bytes a block has, whose length is a number of 16 bits, and how many blocks have a million of them.
ENTRIES, BLOCKS = 16_000, 63
BLOCK = struct.Struct("<BBHHHQHHI")


def block(place, entries=b"", base=None):
    """An IOMMU of type 10h, the device and the segment of which are of this number, as its address is, with entries."""
    base = 16384 * (place + 1) if base is None else base
    return BLOCK.pack(0x10, 0, 24 + len(entries), place % 65536, 0, base, place // 65536, 0, 0) + entries


def device_entries():
    """A million entries of 4 bytes: of single devices, the last of which has a type that there is not, or is cut; and of ranges, the last
    of which ends before it starts, or all of which have no end."""
    single = device_entry(ALL_DEVICES, 5)
    made = lambda entries, last: ivrs(b"".join(block(place, entries) for place in range(BLOCKS - 1)), block(BLOCKS - 1, last))
    end = 48 + BLOCKS * (24 + 4 * ENTRIES)
    most = single * (ENTRIES - 1)
    yield "clean", made(single * ENTRIES, single * ENTRIES), advised()
    yield "the last", made(single * ENTRIES, most + device_entry(5)), advised(f"IvhdEntryType {end - 4:#x} 0x0 0x5")
    yield "the last cut", made(single * ENTRIES, most + b"\1\1\1"), advised(f"IvhdEntryCut {end - 4:#x} 0x4 {end - 1:#x}")
    ranges_of = b"".join(device_entry(RANGE_START, place) + device_entry(RANGE_END, place) for place in range(ENTRIES // 2))
    yield "ranges", made(ranges_of, ranges_of), advised()
    last = ranges_of[:-4] + device_entry(RANGE_END, ENTRIES // 2 - 2)
    yield "ranges, the last reversed", made(ranges_of, last), advised(f"IvhdRange {end - 4:#x} 0x1 {ENTRIES // 2 - 2:#x}")
    yield "starts alone", made(device_entry(RANGE_START, 9) * ENTRIES, single), advised("IvhdRange 0x48 0x1 0x9")


def special_entries():
    """Half a million entries of I/O APICs and HPETs in one block after another, and a MADT of 256 I/O APICs, of which one has no entry; and
    entries of one."""
    count = ENTRIES // 2
    some = b"".join(special(VARIETY_IO_APIC, place % 255) + special(VARIETY_HPET, place % 255) for place in range(count // 2))
    made = lambda entries: ivrs(*(block(place, entries) for place in range(BLOCKS)))
    apics = madt_of(lapic(0, 0), *(io_apic(0x1000 * (place + 1), 24 * place, place) for place in range(256)))
    nowhere = f"IoApicNotInIvrs {52 + 12 * 255:#x} 0x2 0xff"
    yield "of 255 numbers", (made(some), apics), advised(nowhere, f"SameSpecial {72 + 16 * 255:#x} 0x48")
    yield "all", made(special(VARIETY_IO_APIC, 3) * count), advised("SameSpecial 0x50 0x48 0x3")


def iommus():
    """IOMMUs at addresses in no order; the last is the first one once more, at its address or at another one, or another device at its
    address; and all are one."""
    order = random.Random(11).sample(range(COUNT), COUNT)
    alike, end = b"".join(map(block, order)), 48 + 24 * COUNT
    here, device = 16384 * (order[0] + 1), f"{order[0] % 65536:#x}"
    same = f"SameIvhd {end:#x} 0x30 {device}"
    yield "clean", ivrs(alike), advised()
    yield "the last like the first", ivrs(alike, block(order[0])), advised(same)
    other = ivrs(alike, block(order[0], base=16384 * (COUNT + 1)))
    yield "the last at another address", other, advised(same, f"IvhdDiffers {end:#x} 0x30 {16384 * (COUNT + 1):#x}")
    yield "another device at the first address", ivrs(alike, block(COUNT, base=here)), advised(f"IvhdDiffers {end:#x} 0x30 {here:#x}")
    yield "all one", ivrs(block(3) * COUNT), advised("SameIvhd 0x48 0x30 0x3")


def blocks_of_memory():
    """Blocks of memory, the last of which has no bytes, or all of which have no flag; and blocks of 4 bytes."""
    some = ivmd() * RANGES
    yield "clean", ivrs(block(0), some), advised()
    yield "the last", ivrs(block(0), some, ivmd(size=0)), advised(f"IvmdRange {72 + 32 * RANGES:#x} 0x18")
    yield "all", ivrs(block(0), ivmd(flags=0) * RANGES), advised("IvmdRange 0x48 0x1")
    nothing, end = of_ivrs(0x12, 4) * COUNT, 48 + 4 * COUNT
    yield "of 4 bytes", ivrs(nothing, block(0)), advised()
    yield "of 4 bytes, and a byte", ivrs(nothing, b"\1"), advised(f"IvrsCut {end:#x} 0x0 {end + 1:#x}")
    yield "of 4 bytes, and no IOMMU", ivrs(nothing), advised("NoIvhd")
    yield "of 4 bytes, all IOMMUs", ivrs(of_ivrs(0x10, 4) * COUNT), advised("IvrsShort 0x30 0x18 0x4")


OF_ENTRIES = (
    interrupt_sources, processors, io_apics, x2apics, unread_entries, giccs, harts, overrides, redistributors, its_and_frames,
    distributors, ranges, affinities_of_its, localities, nodes, caches, ecams, cells, initiators, structures_of_8_bytes, proximities,
    watchdogs, timers_of_4_bytes, frames, scopes_of_units, regions, units, rhsas, structures_of_4_bytes, devices_of_the_namespace,
    device_entries, special_entries, iommus, blocks_of_memory,
)


def many_entries():
    """The name and text of each set, its lines, and whether it is the first of its kind, on which `check` is run too."""
    for made in OF_ENTRIES:
        for place, (name, tables, lines) in enumerate(made()):
            tables = tables if isinstance(tables, tuple) else (tables,)
            yield f"{made.__name__}, {name}", text_with(*tables), lines, place == 0


# ---- slots

SLOTS, TABLES = 400_000, 20_000
ROOT_AT, RSDT_AT_TOO, FIRST_AT, APART = 0x60000000, 0x68000000, 0x20000000, 64


def listed_in_no_order():
    """The pieces of the set, and the lines of `lint`: slot `at` is the first that lists what an earlier one, `other`, lists."""
    chosen = random.Random(1).choices(range(TABLES), k=SLOTS)
    slots = [TABLES_AT, *(FIRST_AT + APART * place for place in chosen)]
    first = {}
    at = next(slot for slot, address in enumerate(slots) if first.setdefault(address, slot) != slot)
    pieces = {RSDP_AT: rsdp(ROOT_AT), ROOT_AT: rsdt(*slots), TABLES_AT: sound_fadt()}
    pieces.update((FIRST_AT + APART * place, table(b"DATA", b"")) for place in range(TABLES))
    return pieces, advised(f"ListedTwice {at:#x} {first[slots[at]]:#x} {slots[at]:#x}"), slots


def many_slots():
    """The same of many slots: of a root; of an XSDT and an RSDT that list the same in other orders, the second one with a table once more;
    and of tables that overlap."""
    pieces, lines, slots = listed_in_no_order()
    yield "slots, one root", text_of(pieces), lines, True
    shuffled = random.Random(2).sample(slots, len(slots))
    pieces.update({RSDP_AT: extended_rsdp(ROOT_AT, RSDT_AT_TOO), ROOT_AT: xsdt(*slots), RSDT_AT_TOO: rsdt(*shuffled)})
    yield "slots, two roots", text_of(pieces), lines, False
    differs = advised("RsdtDiffers 0x10 0x0 0x50434146")[1:]
    yield "slots, two roots that differ", text_of({**pieces, RSDT_AT_TOO: rsdt(*shuffled, TABLES_AT)}), [*lines, *differs], False
    last = FIRST_AT + APART * (TABLES - 1)
    inner = {last: table(b"DATA", table(b"DATA", bytes(20)))}
    overlap = advised(f"TablesOverlap {last:#x} {last + 36:#x} {last + 36:#x}")[1:]
    roots = {ROOT_AT: xsdt(*slots, last, last + 36), RSDT_AT_TOO: rsdt(*shuffled, last + 36, last)}
    yield "slots, tables that overlap", text_of({**pieces, **inner, **roots}), [*lines, *overlap], False


def large(cases):
    for name, text, lines, is_first in itertools.chain(many_entries(), many_slots()):
        if is_first:
            cases.writes(f"check, {name}", "check --rsdp e0000", text, lines[:1])
        cases.writes(f"lint, {name}", "lint --rsdp e0000", text, lines)


if __name__ == "__main__":
    main("lint of large sets", large)
