"""The rules of advice on the PPTT."""

from __future__ import annotations

from collections import defaultdict

from .facts import CORE_PIC, GICC, RINTC
from .rule import has_leaf_flags, has_pptt, of_entry, rule, same_field, wrong_entries, zeros


# ---- nodes (5.2.30.1)

IS_PACKAGE, IS_ID_VALID, IS_LEAF = 1 << 0, 1 << 1, 1 << 3


@rule(122, "SameLeaf", has_pptt)
def same_leaves(facts):
    """Two leaves have one ID (5.2.30.1)."""
    yield from same_field(facts.leaves, 12, 4)


@rule(125, "NoLeaf", has_pptt)
def no_leaves(facts):
    """A usable processor is no leaf, and there are nodes (5.2.30.1)."""
    if not facts.nodes or not facts.pptt.is_well_formed() or facts.is_mixed:
        return
    ids = {node.number(12, 4) for node in facts.leaves}
    for it in facts.usable:
        if it.uid not in ids:
            yield it.offset, 0, it.uid


@rule(126, "LeafNowhere", has_pptt)
def nowhere_leaves(facts):
    """A leaf is no processor, and the MADT has processors of which a stage does not know (5.2.30.1)."""
    if facts.knows_processors and any(it.kind in (GICC, CORE_PIC, RINTC) for it in facts.processors):
        for node in facts.leaves:
            if node.number(12, 4) not in facts.uids:
                yield node.offset, 0, node.number(12, 4)


def first_children(nodes):
    """Of each offset that nodes name as their Parent the first of them."""
    first = {}
    for node in nodes:
        first.setdefault(node.number(8, 4), node.offset)
    return first


@rule(180, "LeafUnflagged", lambda facts: has_leaf_flags(facts) and facts.pptt.is_well_formed())
def unflagged_leaves(facts):
    """A node with a processor's ID is no node's Parent, and has no flag that it is a leaf (5.2.30.1)."""
    parents = first_children(facts.nodes)
    for node in facts.nodes:
        if node.number(4, 4) & (IS_ID_VALID | IS_LEAF) == IS_ID_VALID and node.offset not in parents:
            yield node.offset, 0, node.number(12, 4)


@rule(181, "LeafAsParent", has_leaf_flags)
def leaves_as_parents(facts):
    """A node with the flag that it is a leaf is the Parent of a node (5.2.30.1)."""
    parents = first_children(facts.nodes)
    for node in facts.nodes:
        if node.number(4, 4) & IS_LEAF and node.offset in parents:
            yield node.offset, parents[node.offset]


def nodes_outside_packages(nodes):
    """The offsets of nodes whose chain of Parents ends at none, and that are no physical package, nor is one on the chain."""
    children = defaultdict(list)
    for node in nodes:
        children[node.number(8, 4)].append(node)
    outside = [0]
    for parent in outside:
        outside.extend(node.offset for node in children[parent] if not node.number(4, 4) & IS_PACKAGE)
    return set(outside)


@rule(182, "NoPackage", has_pptt)
def leaves_outside_packages(facts):
    """A leaf whose chain of Parents ends is in no physical package (5.2.30.1)."""
    outside = nodes_outside_packages(facts.nodes)
    for node in facts.leaves:
        if node.offset in outside:
            yield node.offset, 0, node.number(12, 4)


# ---- caches (5.2.30.2)

SIZE_VALID, SETS_VALID, WAYS_VALID, TYPE_VALID, LINE_VALID, ID_VALID = 1 << 0, 1 << 1, 1 << 2, 1 << 4, 1 << 6, 1 << 7
ALL_VALID = SIZE_VALID | SETS_VALID | WAYS_VALID | LINE_VALID


@rule(123, "CacheShape", has_pptt)
def cache_shapes(facts):
    """A cache has no sets, or a line size that is no power of two (5.2.30.2)."""
    for cache in facts.pptt.typed(1):
        flags, sets, line = cache.number(4, 4), cache.number(16, 4), cache.number(22, 2)
        if (flags & SETS_VALID and sets == 0) or (flags & LINE_VALID and bin(line).count("1") != 1):
            yield (cache.offset,)


def with_cache_id(facts):
    """The caches with a valid Cache ID, which came with Revision 3 (5.2.30.2)."""
    if facts.tables.table(b"PPTT").number(8, 1) < 3:
        return []
    return [cache for cache in facts.pptt.typed(1) if len(cache) == 28 and cache.number(4, 4) & ID_VALID]


@rule(124, "SameCacheId", has_pptt)
def same_cache_ids(facts):
    """Two caches have one ID (5.2.30.2)."""
    yield from same_field(with_cache_id(facts), 24, 4)


@rule(310, "CacheIdZero", has_pptt)
def zero_cache_ids(facts):
    """A valid Cache ID is 0, which means that there is none (5.2.30.2)."""
    for cache in with_cache_id(facts):
        if cache.number(24, 4) == 0:
            yield of_entry(cache, 24, 4)


@rule(183, "CacheNumbers", has_pptt)
def cache_numbers(facts):
    """A valid number of ways or size of a cache is 0, or its size is not that of its sets, ways and lines (5.2.30.2)."""
    for cache in facts.pptt.typed(1):
        flags, size, ways = cache.number(4, 4), cache.number(12, 4), cache.number(20, 1)
        product = cache.number(16, 4) * ways * cache.number(22, 2)
        is_zero = (flags & WAYS_VALID and ways == 0) or (flags & SIZE_VALID and size == 0)
        if is_zero or (flags & ALL_VALID == ALL_VALID and size != product):
            yield cache.offset, size, product


def cache_type(cache):
    """The type of a cache, of data, of instructions or of both, which two numbers say, or None if it is not valid (5.2.30.2)."""
    return min(cache.number(21, 1) >> 2 & 0b11, 0b10) if cache.number(4, 4) & TYPE_VALID else None


def nearest_caches(node, caches):
    """The caches that a node names and that are the Next Level of none that it names, in the order of its references."""
    named = [caches[at] for at in (node.number(20 + 4 * place, 4) for place in range(node.number(16, 4))) if at in caches]
    further = {cache.number(8, 4) for cache in named}
    return [cache for cache in named if cache.offset not in further]


@rule(311, "SameCacheType", has_pptt)
def same_cache_types(facts):
    """A node names two caches of one level that are of one type (5.2.30.2)."""
    caches = {cache.offset: cache for cache in facts.pptt.typed(1)}
    for node in facts.nodes:
        first = {}
        for cache in nearest_caches(node, caches):
            kind = cache_type(cache)
            if kind is not None and first.setdefault(kind, cache.offset) != cache.offset:
                yield node.offset, first[kind], cache.offset


# ---- what nothing reads, and reserved bytes (5.2.30)


@rule(309, "PpttUnread", has_pptt)
def unread_in_pptt(facts):
    """An entry of a type that neither a stage nor a rule reads (5.2.30)."""
    for entry in facts.pptt.entries:
        if entry.kind not in facts.pptt.LENGTHS:
            yield entry.offset, entry.kind


# Of each type of entry of the PPTT what it may have: reserved bytes, flags, and attributes of a cache.
PPTT_LIMITS = {0: [*zeros(2, 3), (4, 4, 0x1F)], 1: [*zeros(2, 3), (4, 4, 0xFF), (21, 1, 0x1F)]}


@rule(184, "PpttReserved", has_pptt)
def reserved_in_pptt(facts):
    """A reserved byte, flag or attribute of a node or a cache is used (5.2.30)."""
    yield from wrong_entries(facts.pptt.typed(*PPTT_LIMITS), PPTT_LIMITS)
