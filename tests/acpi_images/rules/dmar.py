"""The rules of advice on the DMA Remapping table (DMAR), which says where the IOMMUs of Intel's chipsets are, and which devices each of
them has. Sections are those of the Intel VT-d specification."""

from __future__ import annotations

from collections import defaultdict
from functools import cached_property, lru_cache

from ..table_set import Walk, walk, walk_within
from ..text import TOP
from .domains import domains_of, knows_domains
from .facts import IO_APIC
from .rule import field, has_complete_madt, of_entry, of_table, overlap, rule, same, same_field, too_short

# Where the structures begin, and how many bytes the head of each has, and the least scope.
FIRST, HEAD, LEAST_SCOPE = 48, 4, 8
# The least and the greatest width of addresses, less one, that kernels take.
LEAST_WIDTH, GREATEST_WIDTH = 11, 63
# The types of structures, how many bytes the fields of each take, and where the scopes of those begin that have some.
DRHD, RMRR, ATSR, RHSA, ANDD, SATC, SIDP = range(7)
LENGTHS = {DRHD: 16, RMRR: 24, ATSR: 8, RHSA: 20, ANDD: 9, SATC: 8, SIDP: 8}
SCOPES_AT = {DRHD: 16, RMRR: 24, ATSR: 8, SATC: 8, SIDP: 8}
# Types of scopes, of which the last is the greatest.
OF_IO_APIC, OF_DEVICE = 3, 5
# Of the table: that interrupts are remapped; of a DRHD that it has all other devices of its segment, and of an ATSR all ports.
REMAPS_INTERRUPTS, HAS_ALL = 1 << 0, 1 << 0
PAGE = 4096


class Remapping:
    """The structures of a DMAR, the full ones among them by their types, and the scopes of these."""

    def __init__(self, table):
        self.is_long = len(table) >= FIRST
        self.structures, self.cut = walk(table, FIRST, 2, 2, HEAD) if self.is_long else Walk([], None)
        self.full, self.walks = defaultdict(list), defaultdict(list)
        for it in self.structures:
            kind = kind_of(it)
            if len(it) >= LENGTHS.get(kind, 0):
                self.full[kind].append(it)
                if kind in SCOPES_AT:
                    self.walks[kind].append(walk_within(it, SCOPES_AT[kind], 1, 1, LEAST_SCOPE))

    def short(self):
        """The structures that end before their fields do, each with the length that it has to have."""
        for it in self.structures:
            due = LENGTHS.get(kind_of(it), 0)
            if len(it) < due:
                yield it, due

    def scopes(self, *kinds):
        """The scopes of the structures of these types, or of all."""
        return [scope for kind in kinds or SCOPES_AT for walked in self.walks[kind] for scope in walked.structures]

    def cuts_of_scopes(self):
        return [walked.cut for kind in SCOPES_AT for walked in self.walks[kind] if walked.cut]

    @cached_property
    def is_well_formed(self):
        """Whether what is not found is not there."""
        return self.is_long and not self.cut and not any(self.short()) and not self.cuts_of_scopes()


def kind_of(structure):
    return structure.number(0, 2)


@lru_cache(maxsize=1)
def remapping_of(facts):
    """What the DMAR of a set has, which is read once for all rules."""
    return Remapping(facts.dmar)


def has_dmar(facts):
    return facts.dmar is not None


def is_well_formed(facts):
    """Whether there is a DMAR, and what is not found in it is not there."""
    return has_dmar(facts) and remapping_of(facts).is_well_formed


def full(facts, kind):
    return remapping_of(facts).full[kind]


def has_all(structure):
    return structure.number(4, 1) & HAS_ALL != 0


def segment_of(structure):
    return structure.number(6, 2)


def ids_of(scopes, kind):
    """The numbers that scopes of a type give."""
    return {scope.number(4, 1) for scope in scopes if scope.number(0, 1) == kind}


# ---- the rules


@rule(240, "DmarWidth", has_dmar)
def odd_dmar(facts):
    """The DMAR ends before its structures begin, or has a width of addresses that there is not (8.1)."""
    yield from too_short(facts.dmar, FIRST)
    width = field(facts.dmar, 36, 1)
    if width is not None and not LEAST_WIDTH <= width <= GREATEST_WIDTH:
        yield of_table(facts.dmar, 36, 1)


@rule(241, "DmarCut", has_dmar)
def cut_dmar(facts):
    """The structures do not end with the table (8.1)."""
    if remapping_of(facts).cut:
        yield remapping_of(facts).cut


@rule(242, "DmarShort", has_dmar)
def short_structures(facts):
    """A structure ends before the fields of its type do (8.3 to 8.9)."""
    for it, due in remapping_of(facts).short():
        yield it.offset, due, len(it)


@rule(243, "NoDrhd", is_well_formed)
def no_drhd(facts):
    """There is no IOMMU (8.3)."""
    if all(kind_of(it) != DRHD for it in remapping_of(facts).structures):
        yield ()


@rule(244, "ScopeCut", has_dmar)
def cut_scopes(facts):
    """The scopes of a structure do not end with it (8.3.1)."""
    yield from remapping_of(facts).cuts_of_scopes()


@rule(245, "ScopeType", has_dmar)
def odd_scopes(facts):
    """A scope is of a type that there is not, has a half of a step, or a step to a device or function that there is not (8.3.1)."""
    for it in remapping_of(facts).scopes():
        if not 1 <= it.number(0, 1) <= OF_DEVICE:
            yield of_entry(it, 0, 1)
        if len(it) % 2:
            yield of_entry(it, 1, 1)
        for at in range(6, len(it) - 1, 2):
            for part, most in ((0, 31), (1, 7)):
                if it.number(at + part, 1) > most:
                    yield it.offset + at, part, it.number(at + part, 1)


@rule(246, "DrhdAddress", has_dmar)
def odd_addresses(facts):
    """The registers of an IOMMU are at 0, or at no multiple of a page (8.3)."""
    for it in full(facts, DRHD):
        if it.number(8, 8) == 0 or it.number(8, 8) % PAGE:
            yield of_entry(it, 8, 8)


@rule(247, "DrhdOverlap", has_dmar)
def overlapping_registers(facts):
    """Two IOMMUs share an address of their registers (8.3)."""
    yield from overlap(registers_of(facts))


def registers_of(facts):
    """The (start, size, offset) of the registers of the IOMMUs, up to the last address."""
    for it in full(facts, DRHD):
        start, size = it.number(8, 8), PAGE << (it.number(5, 1) & 0b1111)
        if start:
            yield start, min(size, TOP - start), it.offset


@rule(248, "SecondIncludeAll", has_dmar)
def second_of_all(facts):
    """Two IOMMUs have all other devices of one segment, or two ATSRs all its ports (8.3, 8.5)."""
    for kind in (DRHD, ATSR):
        yield from same((it.offset, segment_of(it)) for it in full(facts, kind) if has_all(it))


@rule(249, "IncludeAllNotLast", has_dmar)
def after_that_of_all(facts):
    """An IOMMU of some devices is after that of all others of its segment (8.3)."""
    first = {}
    for it in full(facts, DRHD):
        if has_all(it):
            first.setdefault(segment_of(it), it.offset)
        elif segment_of(it) in first:
            yield it.offset, first[segment_of(it)], segment_of(it)


@rule(250, "RmrrRange", has_dmar)
def odd_regions(facts):
    """A region does not begin and end with a page, or ends before it begins (8.4)."""
    for it in full(facts, RMRR):
        base, limit = it.number(8, 8), it.number(16, 8)
        if base % PAGE:
            yield of_entry(it, 8, 8)
        if limit % PAGE != PAGE - 1 or limit <= base:
            yield of_entry(it, 16, 8)


@rule(251, "RmrrNoDevice", has_dmar)
def regions_of_none(facts):
    """A region is of no device (8.4)."""
    least = LENGTHS[RMRR]
    for it in full(facts, RMRR):
        if len(it) == least:
            yield it.offset, least + LEAST_SCOPE, least


@rule(252, "RhsaNowhere", is_well_formed)
def rhsas_of_none(facts):
    """An RHSA is of no IOMMU (8.6)."""
    bases = {it.number(8, 8) for it in full(facts, DRHD)}
    for it in full(facts, RHSA):
        if it.number(8, 8) not in bases:
            yield of_entry(it, 8, 8)


@rule(253, "RhsaDomain", lambda facts: has_dmar(facts) and knows_domains(facts))
def domains_of_none(facts):
    """An IOMMU is in no domain of the SRAT (8.6)."""
    domains = domains_of(facts)
    for it in full(facts, RHSA):
        if it.number(16, 4) not in domains:
            yield of_entry(it, 16, 4)


@rule(254, "SameRhsa", has_dmar)
def same_rhsas(facts):
    """Two RHSAs are of one IOMMU (8.6)."""
    yield from same_field(full(facts, RHSA), 8, 8)


@rule(255, "AnddName", has_dmar)
def open_names(facts):
    """The name of a device of the namespace does not end (8.7)."""
    for it in full(facts, ANDD):
        if 0 not in it.data[8:]:
            yield it.offset, 8


@rule(256, "AnddNowhere", is_well_formed)
def nowhere_devices(facts):
    """A scope is of a device of the namespace that has no ANDD, or such a device is in no scope of an IOMMU (8.7)."""
    named = {it.number(7, 1) for it in full(facts, ANDD)}
    for it in remapping_of(facts).scopes():
        if it.number(0, 1) == OF_DEVICE and it.number(4, 1) not in named:
            yield of_entry(it, 4, 1)
    of_drhds = ids_of(remapping_of(facts).scopes(DRHD), OF_DEVICE)
    for it in full(facts, ANDD):
        if it.number(7, 1) not in of_drhds:
            yield of_entry(it, 7, 1)


@rule(257, "IoApicUnmapped", lambda facts: is_well_formed(facts) and has_complete_madt(facts))
def io_apics_of_none(facts):
    """Interrupts are remapped, and an I/O APIC is in no scope of an IOMMU (8.3.1)."""
    if not facts.dmar.number(37, 1) & REMAPS_INTERRUPTS:
        return
    ids = ids_of(remapping_of(facts).scopes(DRHD), OF_IO_APIC)
    for it in facts.madt.typed(IO_APIC):
        if it.number(2, 1) not in ids:
            yield of_entry(it, 2, 1)


@rule(258, "SameScope", has_dmar)
def same_scopes(facts):
    """One I/O APIC is in two scopes of IOMMUs (8.3.1)."""
    scopes = remapping_of(facts).scopes(DRHD)
    yield from same_field([it for it in scopes if it.number(0, 1) == OF_IO_APIC], 4, 1)
