"""The rules of advice on the MCFG, which says where the configuration space of PCI is in memory, its ECAM (PCI Firmware Specification
3.3, 4.1.2)."""

from __future__ import annotations

from ..table_set import structures_of
from ..text import TOP
from .rule import of_entry, overlap, rule

# Where the entries begin, and how many bytes each has.
FIRST, SIZE = 44, 16
# How many bytes of an ECAM each bus has, and how many buses a segment has.
BUS_SIZE, BUSES = 1 << 20, 256
# The first address that an MCFG of Revision 0 may not have, unless it is of SGI.
TOO_HIGH = 0xFFFFFFFF


def has_mcfg(facts):
    return facts.mcfg is not None


def entries_of(facts):
    return structures_of(facts.mcfg, FIRST, SIZE)


def buses_of(entry):
    """The first and the last bus of an entry."""
    return entry.number(10, 1), entry.number(11, 1)


@rule(185, "McfgLength", has_mcfg)
def odd_mcfg(facts):
    """The MCFG has no entry, or a part of one at its end."""
    length = len(facts.mcfg)
    count = len(entries_of(facts))
    if count == 0 or length != FIRST + SIZE * count:
        yield 4, FIRST + SIZE * (count + 1), length


@rule(186, "EcamAddress", has_mcfg)
def odd_ecams(facts):
    """An ECAM is at 0, or at no multiple of the size that one bus has."""
    for entry in entries_of(facts):
        base = entry.number(0, 8)
        if base == 0 or base % BUS_SIZE:
            yield of_entry(entry, 0, 8)


@rule(187, "BusesReversed", has_mcfg)
def reversed_buses(facts):
    """The last bus of an entry is before its first one."""
    for entry in entries_of(facts):
        first, last = buses_of(entry)
        if last < first:
            yield of_entry(entry, 11, 1)


@rule(188, "EcamWraps", has_mcfg)
def wrapping_ecams(facts):
    """An ECAM ends past the last address."""
    for entry in entries_of(facts):
        _, last = buses_of(entry)
        if entry.number(0, 8) + BUS_SIZE * (last + 1) > TOP:
            yield of_entry(entry, 0, 8)


@rule(189, "EcamTooHigh", has_mcfg)
def high_ecams(facts):
    """An MCFG of Revision 0 has an address that kernels take of none but of SGI."""
    if facts.mcfg.number(8, 1) != 0 or facts.mcfg.data[10:13] == b"SGI":
        return
    for entry in entries_of(facts):
        if entry.number(0, 8) >= TOO_HIGH:
            yield of_entry(entry, 0, 8)


@rule(190, "SameBus", has_mcfg)
def same_buses(facts):
    """Two entries have one bus of one segment."""
    yield from overlap(buses_in_all(entry) for entry in entries_of(facts))


def buses_in_all(entry):
    """The (start, size, offset) of the buses of an entry among those of all segments; of reversed ones there are none."""
    first, last = buses_of(entry)
    return BUSES * entry.number(8, 2) + first, max(last - first + 1, 0), entry.offset


@rule(191, "EcamOverlap", has_mcfg)
def overlapping_ecams(facts):
    """Two ECAMs share an address."""
    yield from overlap(ecams(facts))


def ecams(facts):
    """The (start, size, offset) of the ECAMs, up to the last address. An entry at 0, and one of reversed buses, has none."""
    for entry in entries_of(facts):
        base, (first, last) = entry.number(0, 8), buses_of(entry)
        start = base + BUS_SIZE * first
        end = min(base + BUS_SIZE * (last + 1), TOP)
        if base and start < end:
            yield start, end - start, entry.offset
