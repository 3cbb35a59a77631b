"""The list of the rules of advice, when a rule is asked, and what several of them use.

Each rule gives the (at, other, point) of its findings, where numbers of 0 at the end are left out; of overlaps only the first one. Of the
findings of one rule the least by their numbers is the first."""

from __future__ import annotations

from collections.abc import Callable
from dataclasses import dataclass

from ..faults import first_clash
from .facts import has_length


@dataclass(frozen=True)
class Rule:
    """A rule: when it is asked, and what gives the numbers of its findings."""

    name: str
    is_asked: Callable
    findings: Callable


# The rules by their numbers.
RULES = {}


def rule(number, name, is_asked=lambda facts: True):
    """Adds a rule, which is kept where it is not asked."""

    def added(findings):
        RULES[number] = Rule(name, is_asked, findings)
        return findings

    return added


# ---- when a rule is asked


def has_fadt(facts):
    return facts.fadt is not None


def is_full(facts):
    """Whether there is a FADT, of hardware that is not reduced."""
    return facts.fadt is not None and not facts.fadt.reduced


def has_madt(facts):
    return facts.madt is not None


def has_complete_madt(facts):
    """Whether there is a MADT, and what is not found in it is not there."""
    return facts.madt is not None and facts.madt.is_well_formed()


def has_in_madt(facts, kind):
    """Whether there is an entry of this type, of any length, in a MADT of which all is read."""
    return has_complete_madt(facts) and kind in facts.madt_kinds


def has_srat(facts):
    return facts.srat is not None


def has_complete_srat(facts):
    """The same of the SRAT."""
    return facts.srat is not None and facts.srat.is_well_formed()


def has_pptt(facts):
    return facts.pptt is not None


def has_leaf_flags(facts):
    """Whether there is a PPTT whose nodes have the flag of a leaf (5.2.30.1)."""
    return facts.pptt is not None and facts.tables.table(b"PPTT").number(8, 1) >= 2


def is_listed(facts, signature):
    """Whether a slot lists a table with this signature, of which no more than the header need be there."""
    return signature in facts.tables.first_slots


# ---- what several rules use


def is_of_another_length(facts, kind):
    """Whether an entry of the MADT of a type that only rules read has a length that is none of its type."""
    return sum(entry.kind == kind for entry in facts.madt.entries) != len(facts.of_madt(kind))


def same(numbered):
    """The later ones of those with one number, each with the first of them, from (offset, number)."""
    first = {}
    for offset, number in numbered:
        if first.setdefault(number, offset) != offset:
            yield offset, first[number], number


def same_field(entries, at, size):
    """The same of the entries with one number at this place."""
    return same((entry.offset, entry.number(at, size)) for entry in entries)


def field(entry, at, size):
    """A number of an entry, or None where the entry ends before it."""
    return entry.number(at, size) if at + size <= len(entry) else None


def overlap(sized):
    """The first overlap of ranges, from (start, size, name), or nothing."""
    clash = first_clash([(start, start + size, name) for start, size, name in sized])
    return [clash] if clash else []


def is_read(table, entry, lengths):
    """Whether a stage or a rule reads an entry, by its type and the lengths of those that rules read."""
    return entry.kind in table.LENGTHS or has_length(entry, lengths)


def unread(table, lengths):
    """The entries of a type, or with a length, that neither a stage nor a rule reads, by the lengths of those that rules read."""
    for entry in table.entries:
        if not is_read(table, entry, lengths):
            yield entry.offset, entry.kind


def too_short(table, least):
    """The numbers of a finding that a table is shorter than this, or nothing."""
    return [(4, least, len(table))] if len(table) < least else []


def of_table(data, at, size):
    """The numbers of a finding that is a number of a table."""
    return at, 0, data.number(at, size)


def of_entry(entry, at, size):
    """The numbers of a finding that is a number of an entry."""
    return entry.offset, at, entry.number(at, size)


def is_text(data):
    """Whether these bytes are printable, but for zeros at their end."""
    return all(0x20 <= byte <= 0x7E for byte in data.rstrip(b"\0"))


# Where the header of a table has names: the OEM ID, the OEM Table ID and the Creator ID (5.2.6).
NAMES = ((10, 6), (16, 8), (28, 4))


def wrong_names(data, places=NAMES):
    """The names at these places that have a byte that is no text."""
    for at, size in places:
        if not is_text(data.data[at : at + size]):
            yield of_table(data, at, size)


# What a table or an entry may have, by rows of offset, size and the most that the number there may be: a reserved byte is 0.


def zeros(*places):
    return [(at, 1, 0) for at in places]


def past_limits(data, limits):
    """The (offset, number) of each number that is more than it may be, in the order of their offsets."""
    return [(at, data.number(at, size)) for at, size, most in sorted(limits) if data.number(at, size) > most]


def wrong_numbers(entries, limits):
    """The numbers of entries that are more than they may be by the limits of their type. One past the end of its entry is not there."""
    for entry in entries:
        for at, size, most in limits[entry.kind]:
            if (field(entry, at, size) or 0) > most:
                yield of_entry(entry, at, size)


def wrong_entries(entries, limits):
    """The entries that have more than they may have by the limits of their type, each with the first offset where it does."""
    for entry in entries:
        for at, _ in past_limits(entry, limits[entry.kind])[:1]:
            yield entry.offset, at
