"""The rules of advice on the Heterogeneous Memory Attribute Table (HMAT), which says how fast memory is (ACPI 6.5, 5.2.28)."""

from __future__ import annotations

from ..table_set import parts_of, walk
from ..text import TOP
from .domains import domains_of, knows_domains
from .facts import MEMORY, PORT
from .rule import is_listed, of_entry, of_table, rule, same_field, too_short

# Where the structures begin, and how many bytes the head of each has.
FIRST, HEAD = 40, 8
# The types of structures, and how many bytes one of the first has, and the others at least.
PROXIMITY, SPEEDS, CACHE = 0, 1, 2
PROXIMITY_LENGTH, LEAST_LENGTH = 40, 32
# What a cell has where nothing reaches a target, and the largest number that kernels take of one.
UNREACHABLE, LARGEST = 0xFFFF, 0xFFFFFFFF
# Bits of the flags of a proximity: that it has an initiator, and in Revision 1 that it has memory.
HAS_INITIATOR, HAS_MEMORY = 1 << 0, 1 << 1
# The most of the attributes of a cache: the levels, the associativity and the write policy.
MOST_LEVELS, MOST_WAYS, MOST_POLICY = 3, 2, 2


def has_hmat(facts):
    return facts.hmat is not None


def has_structures(facts):
    """Whether there is an HMAT that does not end before its structures begin."""
    return has_hmat(facts) and len(facts.hmat) >= FIRST


def is_first_revision(facts):
    return facts.hmat.number(8, 1) == 1


def walk_of(facts):
    return walk(facts.hmat, FIRST, length_at=4, length_size=4, least=HEAD)


# ---- the structures


def kind_of(structure):
    return structure.number(0, 2)


def due_length(structure):
    """The length that a structure has to have, if it has another one, or has to have at least, if it is shorter; else None."""
    kind, length = kind_of(structure), len(structure)
    if kind == PROXIMITY:
        return PROXIMITY_LENGTH if length != PROXIMITY_LENGTH else None
    if kind not in (SPEEDS, CACHE):
        return None
    due = LEAST_LENGTH if length < LEAST_LENGTH else length_by_counts(structure)
    return due if length < due else None


def length_by_counts(structure):
    """How many bytes a structure has with all its lists: those of initiators, of targets and of cells, or that of handles."""
    if kind_of(structure) == CACHE:
        return LEAST_LENGTH + 2 * structure.number(30, 2)
    first, second = counts_of(structure)
    return LEAST_LENGTH + 4 * first + 4 * second + 2 * first * second


def full(facts, kind):
    """The structures of a type that have all their lists."""
    return [it for it in walk_of(facts).structures if kind_of(it) == kind and due_length(it) is None]


def counts_of(speeds):
    """How many initiators and how many targets a structure has."""
    return speeds.number(12, 4), speeds.number(16, 4)


def initiators_of(speeds):
    return parts_of(speeds, LEAST_LENGTH, 4, counts_of(speeds)[0])


def targets_of(speeds):
    first, second = counts_of(speeds)
    return parts_of(speeds, LEAST_LENGTH + 4 * first, 4, second)


def cells_of(speeds):
    first, second = counts_of(speeds)
    return parts_of(speeds, LEAST_LENGTH + 4 * first + 4 * second, 2, first * second)


# ---- the rules


@rule(195, "HmatHeader", has_hmat)
def odd_hmat(facts):
    """The HMAT ends before its structures begin, or has a Revision that there is not (5.2.28)."""
    yield from too_short(facts.hmat, FIRST)
    if facts.hmat.number(8, 1) not in (1, 2):
        yield of_table(facts.hmat, 8, 1)


@rule(196, "HmatCut", has_structures)
def cut_hmat(facts):
    """The structures do not end with the table (5.2.28)."""
    cut = walk_of(facts).cut
    if cut:
        yield cut


@rule(197, "HmatLength", has_structures)
def odd_lengths(facts):
    """A structure has another length than its type, or ends before its lists do (5.2.28.3 to 5.2.28.5)."""
    for it in walk_of(facts).structures:
        due = due_length(it)
        if due is not None:
            yield it.offset, min(due, TOP - 1), len(it)


@rule(198, "HmatDataType", has_structures)
def odd_data_types(facts):
    """The cells are of a kind that there is not (5.2.28.4)."""
    for it in full(facts, SPEEDS):
        if it.number(9, 1) > 5:
            yield of_entry(it, 9, 1)


@rule(199, "HmatHierarchy", has_structures)
def odd_hierarchies(facts):
    """The cells are of a level of memory that there is not (5.2.28.4). Revision 1 has one more."""
    most = 4 if is_first_revision(facts) else 3
    for it in full(facts, SPEEDS):
        if it.number(8, 1) & 0b1111 > most:
            yield of_entry(it, 8, 1)


@rule(200, "HmatUnit", has_structures)
def units_of_zero(facts):
    """The cells are counted in units of 0 (5.2.28.4)."""
    for it in full(facts, SPEEDS):
        if it.number(24, 8) == 0:
            yield of_entry(it, 24, 8)


@rule(201, "HmatTooLarge", has_structures)
def large_cells(facts):
    """A cell in its unit is more than 32 bits hold (5.2.28.4)."""
    for it in full(facts, SPEEDS):
        for cell in cells_of(it):
            number = cell.number(0, 2)
            if number != UNREACHABLE and number * it.number(24, 8) > LARGEST:
                yield of_entry(cell, 0, 2)


@rule(202, "HmatSameDomain", has_structures)
def same_domains(facts):
    """Two initiators, or two targets, of one structure are one domain (5.2.28.4)."""
    for it in full(facts, SPEEDS):
        yield from same_field(initiators_of(it), 0, 4)
        yield from same_field(targets_of(it), 0, 4)


@rule(203, "HmatProximity", lambda facts: has_structures(facts) and knows_domains(facts))
def nowhere_proximities(facts):
    """The initiator is in no domain of the SRAT, or the memory in none of its memory or of its ports (5.2.28.3)."""
    all_domains, of_memory = domains_of(facts), domains_of(facts, MEMORY, PORT)
    for it in full(facts, PROXIMITY):
        flags = it.number(8, 2)
        if flags & HAS_INITIATOR and it.number(12, 4) not in all_domains:
            yield of_entry(it, 12, 4)
        has_memory = not is_first_revision(facts) or flags & HAS_MEMORY
        if has_memory and it.number(16, 4) not in of_memory:
            yield of_entry(it, 16, 4)


@rule(204, "HmatDomainNowhere", lambda facts: has_structures(facts) and knows_domains(facts))
def nowhere_domains(facts):
    """An initiator or a target is no domain of the SRAT (5.2.28.4)."""
    domains = domains_of(facts)
    for it in full(facts, SPEEDS):
        for part in initiators_of(it) + targets_of(it):
            if part.number(0, 4) not in domains:
                yield of_entry(part, 0, 4)


@rule(205, "HmatCacheNowhere", lambda facts: has_structures(facts) and knows_domains(facts))
def nowhere_caches(facts):
    """A cache is of a domain without memory in the SRAT (5.2.28.5)."""
    domains = domains_of(facts, MEMORY)
    for it in full(facts, CACHE):
        if it.number(8, 4) not in domains:
            yield of_entry(it, 8, 4)


@rule(206, "HmatCache", has_structures)
def odd_caches(facts):
    """A cache has more levels than there are, is of a level that it does not have, or has an associativity or a write policy that there is
    not (5.2.28.5)."""
    for it in full(facts, CACHE):
        attributes = it.number(24, 4)
        levels, level, ways, policy = (attributes >> shift & 0b1111 for shift in (0, 4, 8, 12))
        if levels > MOST_LEVELS or level > levels or ways > MOST_WAYS or policy > MOST_POLICY:
            yield of_entry(it, 24, 4)


@rule(207, "HmatAlone", has_hmat)
def hmat_alone(facts):
    """There is an HMAT, and no SRAT, which says what its domains are (5.2.28)."""
    if not is_listed(facts, b"SRAT"):
        yield ()
