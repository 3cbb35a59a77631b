"""The faults of an image, by the rules of docs/TABLES.md and the sections of ACPI 6.5 that are named below: a second reading,
which shares no code with the program. A fault counts whether or not there are others.

Each function gives all faults of its kind, but of overlaps and cycles only the first one; of those with one name the least by their
numbers is the first."""

from __future__ import annotations

from bisect import bisect_right
from functools import cached_property
from itertools import chain, permutations

from .table_set import (
    HEADER, Entries, Fadt, Finding, MadtEntries, SratEntries, TableSet, complete_table, domain_of, fadt_of, is_enabled, slit_count,
)
from .text import TOP

# The names of the faults by stage, in the order of their codes.
STAGES = {
    1: "RsdpOut RsdpSignature RsdpSum RsdpTailOut RsdpLength RsdpLongOut RsdpExtendedSum",
    2: "NoRoot RootHeaderOut RootSignature RootLength RootOut RootRagged RootSum",
    3: "TableHeaderOut TableLength TableOut TableSum",
    4: "NoFadt FadtShort PmEventLength PmControlLength PmTimerLength GpeLength ResetRegister",
    5: "NoFacs FacsAlign FacsHeaderOut FacsSignature FacsLength FacsOut",
    6: "MadtShort MadtEntryCut MadtEntryLength OverrideBus ReservedInti SecondAddressOverride GsiPastEnd",
    7: "GsiClash",
    8: "OverrideClash",
    9: "SratShort SratEntryCut SratEntryLength RangePastEnd",
    10: "Overlap",
    11: "SlitShort SlitSize SlitDiagonal SlitLow",
    12: "PpttEntryCut PpttEntryLength",
    13: "DanglingParent DanglingResource DanglingCache",
    14: "ParentCycle",
    15: "CacheCycle",
    16: "TwoDomains",
    17: "GsiNowhere",
    18: "LeafUnknown",
}
STAGE_OF = {name: stage for stage, names in STAGES.items() for name in names.split()}
CODE_OF = {name: code for code, name in enumerate(STAGE_OF, 1)}


class Fault(Finding):
    """A fault, which is written as the program writes it after `no`."""

    __slots__ = ()

    def __str__(self):
        return f"{STAGE_OF[self.name]} {super().__str__()}"

    def order(self):
        """Of two faults `check` reports the one whose order is less."""
        return STAGE_OF[self.name], self.at, CODE_OF[self.name], self.other, self.point


# ---- the RSDP (5.2.5.3) and the root (5.2.7, 5.2.8)


def rsdp_faults(tables):
    image, at = tables.image, tables.rsdp
    head = image.present(at, 20)
    if not head:
        yield Fault("RsdpOut", at)
        return
    if head.data[:8] != b"RSD PTR ":
        yield Fault("RsdpSignature", at)
    if not head.sums_to_0():
        yield Fault("RsdpSum", at)
    if head.number(15, 1) < 2:
        return
    long = image.present(at, 36)
    if not long:
        yield Fault("RsdpTailOut", at)
    elif long.number(20, 4) < 36:
        yield Fault("RsdpLength", at)
    elif not image.present(at, long.number(20, 4)):
        yield Fault("RsdpLongOut", at)
    elif not image.present(at, long.number(20, 4)).sums_to_0():
        yield Fault("RsdpExtendedSum", at)


def root_faults(tables):
    image, at = tables.image, tables.root_at
    if at is None:
        return
    if at == 0:
        yield Fault("NoRoot", tables.rsdp)
        return
    header = image.present(at, HEADER)
    if not header:
        yield Fault("RootHeaderOut", at)
        return
    if header.data[:4] != tables.signature:
        yield Fault("RootSignature", at)
    length = header.number(4, 4)
    if length < HEADER:
        yield Fault("RootLength", at)
        return
    if (length - HEADER) % tables.width:
        yield Fault("RootRagged", at)
    complete = image.present(at, length)
    if not complete:
        yield Fault("RootOut", at)
    elif not complete.sums_to_0():
        yield Fault("RootSum", at)


def table_fault(image, address):
    """The name of what is wrong with the table at this address, or None (5.2.6)."""
    header = image.present(address, HEADER)
    if not header:
        return "TableHeaderOut"
    if header.number(4, 4) < HEADER:
        return "TableLength"
    complete = complete_table(image, address)
    if not complete:
        return "TableOut"
    return None if complete.sums_to_0() else "TableSum"


def table_faults(tables):
    wrong = {address: table_fault(tables.image, address) for address in set(tables.slots.values())}
    for slot, address in tables.slots.items():
        if wrong[address]:
            yield Fault(wrong[address], slot, address)


# ---- the FADT and the FACS (5.2.9, 5.2.10)


def fadt_faults(tables):
    if tables.root and b"FACP" not in tables.first_slots:
        yield Fault("NoFadt")
    table = tables.table(b"FACP")
    if table and len(table) < Fadt.LEAST:
        yield Fault("FadtShort")
    fadt = fadt_of(tables)
    if not fadt:
        return
    if not fadt.reduced:
        yield from block_faults(fadt)
    if fadt.flags >> 10 & 1 and len(table) >= 129:
        space, width, offset = table.data[116:119]
        if space > 2 or width != 8 or offset != 0:
            yield Fault("ResetRegister", 116)


def block_faults(fadt):
    """The lengths of register blocks, of full hardware."""
    if fadt.field(88, 1) < 4:
        yield Fault("PmEventLength", 88)
    if fadt.field(89, 1) < 2:
        yield Fault("PmControlLength", 89)
    if fadt.field(91, 1) not in (0, 4):
        yield Fault("PmTimerLength", 91)
    for at in (92, 93):
        if fadt.field(at, 1) % 2:
            yield Fault("GpeLength", at)


def facs_faults(tables):
    fadt = fadt_of(tables)
    if not fadt:
        return
    at = fadt.facs
    if at == 0:
        if not fadt.reduced:
            yield Fault("NoFacs")
        return
    if at % 64:
        yield Fault("FacsAlign", at)
    head = tables.image.present(at, 8)
    if not head:
        yield Fault("FacsHeaderOut", at)
        return
    if head.data[:4] != b"FACS":
        yield Fault("FacsSignature", at)
    length = head.number(4, 4)
    if length < 64:
        yield Fault("FacsLength", at)
    elif not tables.image.present(at, length):
        yield Fault("FacsOut", at)


# ---- entries, and spans of numbers


def differing(name, entries):
    """Of (offset, number, value): each entry after an earlier one that has the number and another value."""
    earlier = {}
    for offset, number, value in entries:
        same = earlier.setdefault(number, [])
        for its_offset, its_value in same:
            if its_value != value:
                yield Fault(name, offset, its_offset, number)
        same.append((offset, value))


def short_fault(tables, name, signature, least):
    table = tables.table(signature)
    if table and len(table) < least:
        yield Fault(name)


def entry_faults(table, entries: Entries | None):
    """The cut, and entries of a known type with another length."""
    if not entries:
        return
    if entries.cut is not None:
        yield Fault(f"{table}EntryCut", entries.cut)
    for entry in entries.entries:
        if entry.kind in entries.LENGTHS and not entries.is_typed(entry):
            yield Fault(f"{table}EntryLength", entry.offset)


def first_clash(spans):
    """Of (start, end, offset): the least number that two hold, after the first two by start and offset that hold it; None
    where none does."""
    spans = sorted((span for span in spans if span[0] < span[1]), key=lambda span: (span[0], span[2]))
    reached = 0
    for start, end, _ in spans:
        if start < reached:
            holders = [offset for first, last, offset in spans if first <= start < last]
            return holders[0], holders[1], start
        reached = max(reached, end)
    return None


def span_groups(tables, policy):
    """By the name of the fault of two spans that overlap: groups of spans, in none of which two may."""
    return {"GsiClash": [served(tables.madt, policy)], "Overlap": range_groups(tables.srat, policy)}


def overlap_faults(tables, policy):
    for name, groups in span_groups(tables, policy).items():
        clashes = [clash for clash in map(first_clash, groups) if clash]
        if clashes:
            # of two at one number that of the first group
            yield Fault(name, *min(clashes, key=lambda clash: clash[2]))


class Numbers:
    """The numbers that spans hold, for look-ups."""

    def __init__(self, spans):
        self.starts, self.ends = [], []
        for start, end, _ in sorted(spans):
            if self.ends and start <= self.ends[-1]:
                self.ends[-1] = max(self.ends[-1], end)
            else:
                self.starts.append(start)
                self.ends.append(end)

    def __len__(self):
        return len(self.starts)

    def __contains__(self, number):
        place = bisect_right(self.starts, number)
        return place > 0 and number < self.ends[place - 1]


# ---- the MADT (5.2.12)


def madt_faults(tables, policy):
    yield from short_fault(tables, "MadtShort", b"APIC", MadtEntries.FIRST)
    yield from entry_faults("Madt", tables.madt)
    if not tables.madt:
        return
    madt = tables.madt
    for entry in madt.typed(2):
        if entry.number(2, 1):
            yield Fault("OverrideBus", entry.offset)
    for entry in madt.typed(2, 3, 4, 10):
        flags = entry.number({2: 8, 3: 2, 4: 3, 10: 2}[entry.kind], 2)
        if 0b10 in (flags & 3, flags >> 2 & 3):
            yield Fault("ReservedInti", entry.offset)
    addresses = madt.typed(5)
    for entry in addresses[1:]:
        yield Fault("SecondAddressOverride", entry.offset, addresses[0].offset)
    for _, end, offset in served(madt, policy):
        if end > 1 << 32:
            yield Fault("GsiPastEnd", offset)
    # overrides that give a Source two numbers (5.2.12.5)
    yield from differing("OverrideClash", ((it.offset, it.number(3, 1), it.number(4, 4)) for it in madt.typed(2)))


def served(madt, policy):
    """The interrupt numbers of each I/O APIC (5.2.12.3)."""
    io_apics = madt.typed(1) if madt else []
    for_each = ((entry.number(8, 4), policy.inputs_of(entry.number(4, 4)), entry.offset) for entry in io_apics)
    return [(base, base + inputs, offset) for base, inputs, offset in for_each]


def gsi_faults(tables, policy):
    """Interrupt numbers that are named and that no I/O APIC serves (5.2.12.5, 5.2.12.6)."""
    numbers = Numbers(served(tables.madt, policy))
    for entry in tables.madt.typed(2, 3) if numbers else []:
        if entry.number(4, 4) not in numbers:
            yield Fault("GsiNowhere", entry.offset, 0, entry.number(4, 4))


# ---- the SRAT (5.2.16)


def srat_faults(tables, policy):
    yield from short_fault(tables, "SratShort", b"SRAT", SratEntries.FIRST)
    yield from entry_faults("Srat", tables.srat)
    for _, end, offset in chain.from_iterable(range_groups(tables.srat, policy)):
        if end > TOP:
            yield Fault("RangePastEnd", offset)


def range_groups(srat, policy):
    """The enabled ranges of memory, all together or those that are not hot-pluggable and those that are (5.2.16.2)."""
    ranges = [entry for entry in srat.typed(1) if is_enabled(entry.number(28, 4))] if srat else []
    if policy.hotplug == "counted":
        return [[span_of(entry) for entry in ranges]]
    return [[span_of(entry) for entry in ranges if entry.number(28, 4) >> 1 & 1 == kind] for kind in (0, 1)]


def span_of(entry):
    base = entry.number(8, 8)
    return base, base + entry.number(16, 8), entry.offset


def domain_faults(tables, policy):
    """Processors in two proximity domains (5.2.16.1, 5.2.16.3)."""
    if not tables.madt or not tables.srat:
        return
    asked = 0b11 if policy.processors == "usable" else 0b01
    processors = {entry.number(3, 1) for entry in tables.madt.typed(0) if entry.number(4, 4) & asked}
    processors |= {entry.number(4, 4) for entry in tables.madt.typed(9) if entry.number(8, 4) & asked}
    domains = []
    for entry in tables.srat.typed(0, 2):
        number, flags = (entry.number(3, 1), entry.number(4, 4)) if entry.kind == 0 else (entry.number(8, 4), entry.number(12, 4))
        if number in processors and is_enabled(flags):
            domains.append((entry.offset, number, domain_of(entry)))
    yield from differing("TwoDomains", domains)


# ---- the SLIT (5.2.17)


def slit_faults(tables):
    yield from short_fault(tables, "SlitShort", b"SLIT", 44)
    table = tables.table(b"SLIT")
    if not table or len(table) < 44:
        return
    count = slit_count(table)
    if count is None:
        yield Fault("SlitSize", 36)
        return
    cells = table.data[44:]
    for place in range(count):
        if cells[place * count + place] != 10:
            yield Fault("SlitDiagonal", 44 + place * count + place)
    for place, cell in enumerate(cells):
        if cell < 10:
            yield Fault("SlitLow", 44 + place)


# ---- the PPTT (5.2.30)


def pptt_faults(tables):
    pptt = tables.pptt
    yield from entry_faults("Pptt", pptt)
    if not pptt:
        return
    for kind, dangling, cyclic in ((0, "DanglingParent", "ParentCycle"), (1, "DanglingCache", "CacheCycle")):
        links = links_of(pptt, kind)
        for offset, named in links.items():
            if named and named not in links:
                yield Fault(dangling, offset, named)
        cycle = first_cycle(links)
        if cycle:
            yield Fault(cyclic, *cycle)
    resources = {entry.offset for entry in pptt.entries if entry.kind != 0}
    for node in pptt.typed(0):
        for place in range(node.number(16, 4)):
            if node.number(20 + 4 * place, 4) not in resources:
                yield Fault("DanglingResource", node.offset, place, node.number(20 + 4 * place, 4))


def links_of(pptt, kind):
    """What each entry of a type names by its offset: a node its Parent, a cache its Next Level."""
    return {entry.offset: entry.number(8, 4) for entry in pptt.typed(kind)}


def first_cycle(links):
    """The least offset whose chain does not end, how many steps lead to the cycle, and how many go around it; None if all chains
    end."""
    ended = set()
    for offset in links:
        steps = cycle_from(offset, links, ended)
        if steps:
            return offset, *steps
    return None


def cycle_from(offset, links, ended):
    """How many steps lead from an entry to a cycle, and how many go around it; None if its chain ends: at what is none of these, or
    at one of those whose chains are known to end, which all on this chain then are too."""
    path, at = {}, offset
    while at in links and at not in ended and at not in path:
        path[at] = len(path)
        at = links[at]
    if at in path:
        return path[at], len(path) - path[at]
    ended.update(path)
    return None


def leaf_faults(tables):
    """Leaves that are no processor of the MADT, where all its entries are of types that are read."""
    table, madt = tables.table(b"PPTT"), tables.madt
    if not tables.pptt or table.number(8, 1) < 2 or not madt or madt.cut is not None:
        return
    if not all(madt.is_typed(entry) for entry in madt.entries):
        return
    uids = {entry.number(2, 1) for entry in madt.typed(0)} | {entry.number(12, 4) for entry in madt.typed(9)}
    for node in tables.pptt.typed(0):
        if node.number(4, 4) & 0b1010 == 0b1010 and node.number(12, 4) not in uids:
            yield Fault("LeafUnknown", node.offset, 0, node.number(12, 4))


def early_faults(tables):
    """Those of the RSDP, of the root and of listed tables, without which `show` shows nothing."""
    return chain(rsdp_faults(tables), root_faults(tables), table_faults(tables))


def all_faults(tables, policy):
    """All faults, but of overlaps and cycles the first of each name alone."""
    for part in (early_faults, fadt_faults, facs_faults):
        yield from part(tables)
    for part in (madt_faults, srat_faults, overlap_faults):
        yield from part(tables, policy)
    for part in (slit_faults, pptt_faults):
        yield from part(tables)
    for part in (domain_faults, gsi_faults):
        yield from part(tables, policy)
    yield from leaf_faults(tables)


# ---- what `check` and `confirm` answer

# Of the faults of chains that do not end: the type of the entries, and how many bytes each has at least.
CHAINS = {"ParentCycle": (0, 20), "CacheCycle": (1, 24)}


class Judgement:
    """What is wrong with the set that an RSDP leads to.

    `listed` are all faults, but of overlaps and cycles the first of each name alone, `faults` all of them, save overlaps and cycles, of
    which each pair and each chain has some."""

    def __init__(self, image, rsdp, policy):
        tables = TableSet(image, rsdp)
        self.listed = list(all_faults(tables, policy))
        self.span_groups = span_groups(tables, policy)
        self.pptt, self.pptt_table = tables.pptt, tables.table(b"PPTT")

    @cached_property
    def faults(self):
        return list(dict.fromkeys([*self.listed, *self.overlaps(), *self.cycles()]))

    def overlaps(self):
        for name, groups in self.span_groups.items():
            yield from chain.from_iterable(some_shared(name, spans) for spans in groups)

    def cycles(self):
        for name in CHAINS if self.pptt else ():
            yield from some_cycles(name, *self.links(name))

    def links(self, name):
        """What each entry of a kind names, and the most steps that a fault may have."""
        kind, least = CHAINS[name]
        return links_of(self.pptt, kind), len(self.pptt_table) // least

    def verdict(self, last=18):
        """The fault that `check` reports through the stage `last`, or None."""
        return min((fault for fault in self.listed if STAGE_OF[fault.name] <= last), key=Fault.order, default=None)

    def has(self, fault):
        """Whether the set has this fault."""
        if fault.name in self.span_groups:
            return any(have_both(spans, fault) for spans in self.span_groups[fault.name])
        if fault.name in CHAINS:
            return self.pptt is not None and is_cycle(*self.links(fault.name), fault)
        return fault in self.listed


def some_shared(name, spans):
    """Of any two spans the faults with the first and the last number that they share, in both orders of the two."""
    for one, other in permutations(spans, 2):
        first, last = max(one[0], other[0]), min(one[1], other[1], TOP) - 1
        if first <= last:
            yield from (Fault(name, one[2], other[2], point) for point in sorted({first, last}))


def have_both(spans, fault):
    """Whether the spans at the fault's two offsets are two, and both have its number."""
    having = [offset for start, end, offset in spans if offset in (fault.at, fault.other) and start <= fault.point < end]
    return len(having) == 2


def some_cycles(name, links, bound):
    """Of each entry whose chain does not end, the fault with the least counts, and those next to it that the bound allows."""
    cycles = ((offset, cycle_from(offset, links, set())) for offset in links)
    for offset, (lead, size) in (it for it in cycles if it[1]):
        counts = {(lead, size), (lead + 1, size), (lead, 2 * size), (bound - size, size)}
        yield from (Fault(name, offset, *it) for it in sorted(counts) if it[0] >= lead and sum(it) <= bound)


def after(links, at, steps):
    """Where a chain is after this many steps, or None if it has ended before."""
    for _ in range(steps):
        at = links.get(at)
    return at


def is_cycle(links, bound, fault):
    """Whether there is such a cycle: this many steps lead to an entry, and this many from it to itself."""
    if fault.point == 0 or fault.other + fault.point > bound:
        return False
    reached = after(links, fault.at, fault.other)
    return reached is not None and after(links, reached, fault.point) == reached
