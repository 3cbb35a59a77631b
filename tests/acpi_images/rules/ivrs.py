"""The rules of advice on the I/O Virtualization Reporting Structure (IVRS), which says where the IOMMUs of AMD's processors are, which
devices each of them has, and which memory devices use. Sections are those of the AMD I/O Virtualization specification (48882)."""

from __future__ import annotations

from collections import defaultdict
from functools import cached_property, lru_cache

from ..table_set import Structure, Walk, walk
from ..text import TOP
from .facts import IO_APIC
from .rule import has_complete_madt, of_entry, rule, same, same_field, too_short

# Where the blocks begin, and how many bytes the head of each has.
FIRST, HEAD = 48, 4
# The types of blocks of an IOMMU, and where their entries begin, which is how many bytes their fields take; and those of memory.
ENTRIES_AT = {0x10: 24, 0x11: 40, 0x40: 40}
OF_ALL, OF_ONE, OF_RANGE, RESERVED_MEMORY = range(0x20, 0x24)
LENGTHS = {**ENTRIES_AT, **dict.fromkeys((OF_ALL, OF_ONE, OF_RANGE, RESERVED_MEMORY), 32)}
# Of an IOMMU: its registers are at a multiple of this.
ALIGNMENT = 16384
# The types of entries that there are. Of these some begin a range, and one ends it; one is of an I/O APIC or an HPET, and one, which has a
# head of its own, of a device of the namespace.
KINDS = (0, 1, 2, 3, 4, 0x40, 0x42, 0x43, 0x46, 0x47, 0x48, 0xF0)
STARTS, END, SPECIAL, OF_NAMESPACE = (3, 0x43, 0x47), 4, 0x48, 0xF0
NAMESPACE_HEAD = 22
# Of a special entry: that it is of an I/O APIC, and the greatest variety. Of the UID of a device of the namespace: that there is none, that
# it is a number, how many bytes this has, and the greatest kind.
OF_IO_APIC, GREATEST_VARIETY = 1, 3
NO_UID, UID_NUMBER, UID_NUMBER_LENGTH, GREATEST_UID_KIND = 0, 1, 8, 2
# Flags of a block of memory: that it is mapped, that devices do not use it, and all that there are.
IS_UNITY, IS_EXCLUDED, ALL_FLAGS = 1 << 0, 1 << 3, 0b1111


class Virtualization:
    """The blocks of an IVRS, the full ones among them, and the entries of each full block of an IOMMU."""

    def __init__(self, table):
        self.is_long = len(table) >= FIRST
        self.blocks, self.cut = walk(table, FIRST, 2, 2, HEAD) if self.is_long else Walk([], None)
        self.full = [it for it in self.blocks if len(it) >= LENGTHS.get(kind_of(it), 0)]
        # each with the walk of its entries
        self.iommus = [(it, entries_of(it)) for it in self.full if kind_of(it) in ENTRIES_AT]

    def short(self):
        """The blocks that end before their fields do, each with the length that it has to have."""
        for it in self.blocks:
            due = LENGTHS.get(kind_of(it), 0)
            if len(it) < due:
                yield it, due

    @cached_property
    def cuts_of_entries(self):
        return [entries.cut for _, entries in self.iommus if entries.cut]

    @cached_property
    def is_well_formed(self):
        """Whether what is not found is not there."""
        return self.is_long and not self.cut and not any(self.short()) and not self.cuts_of_entries

    def special(self):
        """By the type of a block and the variety, the special entries."""
        found = defaultdict(list)
        for block, entries in self.iommus:
            for it in entries.structures:
                if kind_of(it) == SPECIAL:
                    found[kind_of(block), it.number(7, 1)].append(it)
        return found


def kind_of(structure):
    """The type of a block, or of an entry."""
    return structure.data[0]


def said_length(block, at):
    """The length of an entry, which follows from its type, or 0 if there is no such type, or if its head does not lie within the block."""
    kind = block.data[at]
    if kind == OF_NAMESPACE:
        return NAMESPACE_HEAD + block.data[at + 21] if at + NAMESPACE_HEAD <= len(block) else 0
    return 4 if kind < 0x40 else 8 if kind < 0x80 else 0


def entries_of(block):
    """The entries of a block, up to its end, by offsets in the table."""
    entries, at, end = [], ENTRIES_AT[kind_of(block)], len(block)
    while at < end:
        size = said_length(block, at)
        if size == 0 or at + size > end:
            return Walk(entries, (block.offset + at, size, block.offset + end))
        entries.append(Structure(block.offset + at, block.data[at : at + size]))
        at += size
    return Walk(entries, None)


@lru_cache(maxsize=1)
def virtualization_of(facts):
    """What the IVRS of a set has, which is read once for all rules."""
    return Virtualization(facts.ivrs)


def has_ivrs(facts):
    return facts.ivrs is not None


def is_well_formed(facts):
    """Whether there is an IVRS, and what is not found in it is not there."""
    return has_ivrs(facts) and virtualization_of(facts).is_well_formed


def iommus(facts):
    """The full blocks of IOMMUs."""
    return [block for block, _ in virtualization_of(facts).iommus]


def device_of(block):
    """The segment and the device that an IOMMU is."""
    return block.number(16, 2), block.number(4, 2)


def base_of(block):
    return block.number(8, 8)


# ---- the rules


@rule(259, "IvrsCut", has_ivrs)
def cut_ivrs(facts):
    """The IVRS ends before its blocks begin, or these do not end with it (5.2.1)."""
    yield from too_short(facts.ivrs, FIRST)
    if virtualization_of(facts).cut:
        yield virtualization_of(facts).cut


@rule(260, "IvrsShort", has_ivrs)
def short_blocks(facts):
    """A block ends before the fields of its type do (5.2.2, 5.2.3)."""
    for it, due in virtualization_of(facts).short():
        yield it.offset, due, len(it)


@rule(261, "NoIvhd", is_well_formed)
def no_iommu(facts):
    """There is no IOMMU (5.2.2)."""
    if all(kind_of(it) not in ENTRIES_AT for it in virtualization_of(facts).blocks):
        yield ()


@rule(262, "IvhdAddress", has_ivrs)
def odd_addresses(facts):
    """The registers of an IOMMU are at 0, or at no multiple of 16 KiB (5.2.2)."""
    for it in iommus(facts):
        if base_of(it) == 0 or base_of(it) % ALIGNMENT:
            yield of_entry(it, 8, 8)


@rule(263, "SameIvhd", has_ivrs)
def same_iommus(facts):
    """Two blocks of one type are of one IOMMU (5.2.2)."""
    by_type_and_segment = defaultdict(list)
    for it in iommus(facts):
        by_type_and_segment[kind_of(it), it.number(16, 2)].append(it)
    for some in by_type_and_segment.values():
        yield from same_field(some, 4, 2)


@rule(264, "IvhdDiffers", has_ivrs)
def differing_iommus(facts):
    """Two blocks of one IOMMU have two addresses, or those of two IOMMUs have one (5.2.2)."""
    of_device, of_base = {}, {}
    for it in iommus(facts):
        for first in (of_device.setdefault(device_of(it), it), of_base.setdefault(base_of(it), it)):
            if (device_of(first), base_of(first)) != (device_of(it), base_of(it)):
                yield it.offset, first.offset, base_of(it)


@rule(265, "IvhdEntryCut", has_ivrs)
def cut_entries(facts):
    """The entries of a block do not end with it (5.2.2)."""
    yield from virtualization_of(facts).cuts_of_entries


@rule(266, "IvhdEntryType", has_ivrs)
def odd_entries(facts):
    """An entry is of a type or a variety that there is not, or of a device of the namespace where none may be, or without a name, or with a
    UID that there is not (5.2.2)."""
    for block, entries in virtualization_of(facts).iommus:
        for it in entries.structures:
            if kind_of(it) not in KINDS:
                yield of_entry(it, 0, 1)
            if kind_of(it) == SPECIAL and not 1 <= it.number(7, 1) <= GREATEST_VARIETY:
                yield of_entry(it, 7, 1)
            if kind_of(it) == OF_NAMESPACE:
                yield from wrong_in_namespace(block, it)


def wrong_in_namespace(block, entry):
    """The findings on an entry of a device of the namespace."""
    if kind_of(block) != 0x40:
        yield of_entry(entry, 0, 1)
    if entry.number(4, 1) == 0:
        yield of_entry(entry, 4, 1)
    kind, length = entry.number(20, 1), entry.number(21, 1)
    if kind > GREATEST_UID_KIND:
        yield of_entry(entry, 20, 1)
    if (kind == NO_UID and length != 0) or (kind == UID_NUMBER and length != UID_NUMBER_LENGTH):
        yield of_entry(entry, 21, 1)


@rule(267, "IvhdRange", has_ivrs)
def odd_ranges(facts):
    """A range of devices has no end or no start, or ends before it starts (5.2.2)."""
    for _, (entries, cut) in virtualization_of(facts).iommus:
        for place, it in enumerate(entries):
            before = entries[place - 1] if place else None
            is_last = place + 1 == len(entries)
            if kind_of(it) in STARTS and (not cut if is_last else kind_of(entries[place + 1]) != END):
                yield of_entry(it, 1, 2)
            if kind_of(it) == END:
                has_start = before is not None and kind_of(before) in STARTS
                if not has_start or it.number(1, 2) < before.number(1, 2):
                    yield of_entry(it, 1, 2)


@rule(268, "IoApicNotInIvrs", lambda facts: is_well_formed(facts) and has_complete_madt(facts))
def io_apics_of_none(facts):
    """Blocks of a type are of I/O APICs, and one of the MADT is in none of them (5.2.2)."""
    for (_, variety), entries in virtualization_of(facts).special().items():
        ids = {it.number(4, 1) for it in entries}
        for it in facts.madt.typed(IO_APIC) if variety == OF_IO_APIC else ():
            if it.number(2, 1) not in ids:
                yield of_entry(it, 2, 1)


@rule(269, "SameSpecial", has_ivrs)
def same_special(facts):
    """Blocks of one type have one I/O APIC or HPET twice (5.2.2)."""
    for entries in virtualization_of(facts).special().values():
        yield from same((it.offset, it.number(4, 1)) for it in entries)


@rule(270, "IvmdRange", has_ivrs)
def odd_memory(facts):
    """Memory that devices use is neither mapped nor excluded, or has a flag that there is not, ends past the last address, has no bytes, or
    is of devices of which the last is before the first (5.2.3)."""
    for it in virtualization_of(facts).full:
        if not OF_ALL <= kind_of(it) <= OF_RANGE:
            continue
        flags, start, size = it.number(1, 1), it.number(16, 8), it.number(24, 8)
        if not flags & (IS_UNITY | IS_EXCLUDED) or flags > ALL_FLAGS:
            yield of_entry(it, 1, 1)
        if start + size > TOP:
            yield of_entry(it, 16, 8)
        if size == 0:
            yield of_entry(it, 24, 8)
        if kind_of(it) == OF_RANGE and it.number(6, 2) < it.number(4, 2):
            yield of_entry(it, 6, 2)
