"""The rules of advice on the SRAT and the SLIT."""

from __future__ import annotations

from ..table_set import domain_of, is_enabled, slit_count
from .facts import GICC_AFFINITY, INITIATOR, ITS, ITS_AFFINITY, MEMORY, PORT, RINTC_AFFINITY, SRAT_LENGTHS
from .rule import (
    has_complete_madt, has_complete_srat, has_srat, is_of_another_length, of_entry, rule, unread, wrong_entries, wrong_numbers, zeros,
)


# ---- the SRAT (5.2.16)


@rule(117, "TwoUidDomains", has_srat)
def two_uid_domains(facts):
    """Two affinities put one UID into two domains (5.2.16.4)."""
    first = {}
    for it in facts.affinities:
        if it.is_of_uid:
            earlier = first.setdefault(it.number, it)
            if it.domain != earlier.domain:
                yield earlier.offset, it.offset, it.number


@rule(118, "AffinityNowhere", has_srat)
def nowhere_affinities(facts):
    """An affinity is of no processor of the MADT (5.2.16)."""
    for it in facts.affinities if facts.knows_processors else ():
        if it.number not in (facts.uids if it.is_of_uid else facts.apic_ids):
            yield it.offset, 0, it.number


@rule(119, "NoDomain", has_complete_srat)
def no_domains(facts):
    """A usable processor is in no domain, and others are (5.2.16)."""
    if not facts.affinities or facts.is_mixed:
        return
    named = {(it.is_of_uid, it.number) for it in facts.affinities}
    for it in facts.usable:
        is_of_uid = it.apic_id is None
        number = it.uid if is_of_uid else it.apic_id
        if (is_of_uid, number) not in named:
            yield it.offset, 0, number


@rule(128, "SratUnread", has_srat)
def unread_in_srat(facts):
    """An entry of a type, or with a length, that neither a stage nor a rule reads (5.2.16)."""
    yield from unread(facts.srat, SRAT_LENGTHS)


def knows_domains(facts):
    """Whether there is an SRAT, and rules read all that it may put into a domain."""
    return has_complete_srat(facts) and not list(unread_in_srat(facts))


def domains_of(facts, *kinds):
    """The domains of the entries of the SRAT of these types, or of all, enabled or not; for an SRAT of which rules read all."""
    return {domain_of(entry) for entry in facts.srat.entries if not kinds or entry.kind in kinds}


def enabled_memory(srat):
    return [entry for entry in srat.typed(MEMORY) if is_enabled(entry.number(28, 4))]


@rule(173, "NoMemoryRange", has_complete_srat)
def no_memory_range(facts):
    """Processors are in domains, and no memory is (5.2.16.2)."""
    if facts.affinities and not any(entry.number(16, 8) for entry in enabled_memory(facts.srat)):
        yield ()


@rule(174, "EmptyRange", has_srat)
def empty_ranges(facts):
    """An enabled range of memory has no bytes (5.2.16.2)."""
    for entry in enabled_memory(facts.srat):
        if entry.number(16, 8) == 0:
            yield entry.offset, 0, entry.number(8, 8)


@rule(175, "InitiatorOff", has_srat)
def initiators_off(facts):
    """A generic initiator is not enabled (5.2.16.6)."""
    for entry in facts.of_srat(INITIATOR):
        if not is_enabled(entry.number(24, 4)):
            yield entry.offset, 0, domain_of(entry)


@rule(176, "DomainPastRevision", has_srat)
def domains_past_revision(facts):
    """An enabled affinity has a domain of more than the one byte that an SRAT of Revision 1 gives it (5.2.16)."""
    revision = facts.tables.table(b"SRAT").number(8, 1)
    enabled = enabled_memory(facts.srat) + [entry for entry in facts.srat.typed(0) if is_enabled(entry.number(4, 4))]
    for entry in enabled if revision < 2 else ():
        if domain_of(entry) > 0xFF:
            yield entry.offset, revision, domain_of(entry)


@rule(177, "ItsNowhere", lambda facts: has_srat(facts) and has_complete_madt(facts))
def nowhere_its(facts):
    """An affinity of an ITS that is none of the MADT (5.2.16.5)."""
    if is_of_another_length(facts, ITS):
        return
    ids = {entry.number(4, 4) for entry in facts.of_madt(ITS)}
    for entry in facts.of_srat(ITS_AFFINITY):
        if entry.number(8, 4) not in ids:
            yield entry.offset, 0, entry.number(8, 4)


@rule(308, "ItsDomain", knows_domains)
def domains_of_its_alone(facts):
    """An ITS is in a domain in which nothing else is, neither a processor nor memory nor a device (5.2.16.5)."""
    domains = {domain_of(entry) for entry in facts.with_domain if entry.kind != ITS_AFFINITY}
    for entry in facts.of_srat(ITS_AFFINITY):
        if domain_of(entry) not in domains:
            yield of_entry(entry, 2, 4)


# Of each type of entry of the SRAT what it may have.
SRAT_LIMITS = {
    0: [(4, 4, 0b1)],
    MEMORY: [*zeros(6, 7, *range(24, 28), *range(32, 40)), (28, 4, 0b111)],
    2: [*zeros(2, 3, *range(20, 24)), (12, 4, 0b1)],
}


@rule(178, "SratReserved", has_srat)
def reserved_in_srat(facts):
    """The first reserved number of the SRAT is not 1, or a reserved byte or flag of one of its entries is used (5.2.16)."""
    one = facts.tables.table(b"SRAT").number(36, 4)
    if one != 1:
        yield 36, 0, one
    yield from wrong_entries(facts.srat.typed(*SRAT_LIMITS), SRAT_LIMITS)


# The same of the entries that only rules read, of which that of harts came after ACPI 6.5.
DEVICE_LIMITS = [*zeros(2), (24, 4, 0b11), *zeros(28, 29, 30, 31)]
FURTHER_LIMITS = {
    GICC_AFFINITY: [(10, 4, 0b1)],
    ITS_AFFINITY: zeros(6, 7),
    INITIATOR: DEVICE_LIMITS,
    PORT: DEVICE_LIMITS,
    RINTC_AFFINITY: [*zeros(2, 3), (12, 4, 0b1)],
}


@rule(306, "AffinityReserved", has_srat)
def reserved_in_affinities(facts):
    """A reserved byte or flag of an affinity that only rules read is used (5.2.16.4 to 5.2.16.7)."""
    for kind in FURTHER_LIMITS:
        yield from wrong_numbers(facts.of_srat(kind), FURTHER_LIMITS)


@rule(307, "DeviceHandle", has_srat)
def device_handles(facts):
    """A generic initiator or port has a handle of a kind that there is not (5.2.16.6)."""
    for entry in facts.of_srat(INITIATOR) + facts.of_srat(PORT):
        if entry.number(3, 1) > 1:
            yield of_entry(entry, 3, 1)


# ---- the SLIT (5.2.17)

LOCAL = 10


@rule(120, "DomainPastSlit", has_srat)
def domains_past_slit(facts):
    """A domain is no locality of the SLIT (5.2.17)."""
    count = slit_count(facts.tables.table(b"SLIT"))
    for entry in facts.with_domain if count is not None else ():
        if domain_of(entry) >= count:
            yield entry.offset, count, domain_of(entry)


@rule(121, "SlitDiffers")
def differing_distances(facts):
    """The distance between two localities depends on the direction (5.2.17)."""
    table = facts.tables.table(b"SLIT")
    count = slit_count(table) or 0
    for i in range(count):
        for j in range(i + 1, count):
            here, there = 44 + count * i + j, 44 + count * j + i
            if table.data[here] != table.data[there]:
                yield here, there
                return


@rule(179, "RemoteAsLocal")
def remote_as_local(facts):
    """The distance between two localities is that of a locality from itself (5.2.17)."""
    table = facts.tables.table(b"SLIT")
    count = slit_count(table) or 0
    for place in range(count * count):
        row, column = divmod(place, count)
        if row != column and table.data[44 + place] == LOCAL:
            yield 44 + place, row, column
            return
