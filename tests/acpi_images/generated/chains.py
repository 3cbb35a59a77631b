"""Cycles in PPTTs, which `confirm` is asked about: small tables of entries in random order, each witness judged by the second program,
and long chains, which must not take much longer than reading their text."""

import random

from ..faults import CHAINS, Fault, Judgement, links_of
from ..table_set import PpttEntries, Policy, entries_of
from ..tables import *
from ..text import Bytes, Image

PARENT, NEXT_LEVEL = CHAINS
FIRST = 36
FILLER = bytes([6, 2])


# ---- small tables


def entry_of(draw):
    """An entry that may be a node or a cache, or has a node's bytes inside, or is of any length."""
    kind = draw.choice("nnnnccosl")
    if kind == "n":
        return bytearray(node(resources=[0] * draw.choice((0, 0, 1, 5))))
    if kind == "c":
        return bytearray(cache(length=draw.choice((24, 28))))
    if kind == "s":
        return bytearray(FILLER * draw.randrange(1, 40))
    if kind == "l":
        length = draw.choice((100, 127, 128, 129, 254, 255))
        return bytearray([draw.choice((0, 1, 7)), length]) + bytearray(length - 2)
    return bytearray([6, 4]) + bytearray([6, 22]) + node()


def small_table(draw):
    """Entries whose nodes and caches name each other, and now and then what only looks like one. Some tables are cut."""
    body = bytearray(b"".join(entry_of(draw) for _ in range(draw.randrange(1, 60))))
    if draw.random() < 0.2:
        body += bytes(draw.randrange(1, 30))
    entries = entries_of(PpttEntries, Bytes(bytes(36) + body))
    places = {name: [entry.offset for entry in entries.typed(kind)] for name, (kind, _) in CHAINS.items()}
    inside = [FIRST + at for at in range(len(body) - 20) if body[at : at + 2] == b"\0\x14"]
    for offsets in places.values():
        for at in offsets:
            named = draw.choice(inside) if inside and draw.random() < 0.02 else draw.choice(offsets)
            body[at - FIRST + 8 : at - FIRST + 12] = number(named, 4)
    return pptt(bytes(body)), places


def small_faults(draw, judgement, places):
    """Of a place the cycle that it leads to, and faults near it."""
    for name, offsets in places.items():
        names = links_of(judgement.pptt, CHAINS[name][0])
        for at in draw.sample(offsets, min(2, len(offsets))):
            passed = [at]
            while names.get(passed[-1]) in names and names[passed[-1]] not in passed:
                passed.append(names[passed[-1]])
            back = names.get(passed[-1])
            lead = passed.index(back) if back in passed else len(passed) - 1
            around = len(passed) - lead
            for numbers in ((at, lead, around), (at, lead + around, around), (at, lead + 1, around), (at, lead, around + 1), (at + 2, 0, 1)):
                yield Fault(name, *numbers)


def small_questions():
    """Name, pieces, witness, and whether the set has this fault."""
    draw = random.Random(34)
    for turn in range(30):
        data, places = small_table(draw)
        pieces = listed(data)
        judgement = Judgement(Image(pieces), RSDP_AT, Policy())
        for fault in small_faults(draw, judgement, places):
            yield f"small table {turn}", pieces, str(fault), judgement.has(fault)


# ---- long chains


def ring(order, size=20, first=FIRST, entry=node):
    """Entries of a size of which each leads to the next in this order of their numbers, and the last to the first."""
    leads_to = dict(zip(order, [*order[1:], order[0]]))
    return b"".join(entry(first + size * leads_to[number]) for number in range(len(order)))


def falling(count):
    return range(count - 1, -1, -1)


def shuffled(count):
    return random.Random(1).sample(range(count), count)


def stretches(count, before, after):
    """Stretches of short entries with a node among them, and each node's parent is in the stretch before it."""
    size = 2 * before + 20 + 2 * after
    at = [FIRST + size * number + 2 * before for number in range(count)]
    return b"".join(FILLER * before + node(at[number - 1]) + FILLER * after for number in range(count)), at[-1]


def most_steps(body, around):
    """As many steps to the cycle as may be, and a whole number of times round it."""
    return ((FIRST + len(body)) // 20 - around) // around * around


def long_chains():
    """Name, body of the PPTT, kind of fault, the numbers of a true witness. A cycle of n has no other number of steps than a
    multiple of n, so one step more or less is none."""
    yield "falling nodes in 600 KB", ring(falling(30_000)), PARENT, (FIRST + 20 * 29_999, 0, 30_000)
    yield "falling nodes in 500 KB", ring(falling(25_000)), PARENT, (FIRST + 20 * 24_999, 0, 25_000)
    order = shuffled(30_000)
    yield "nodes unsorted", ring(order), PARENT, (FIRST + 20 * order[0], 0, 30_000)
    yield "falling caches", ring(falling(25_000), 24, entry=cache), NEXT_LEVEL, (FIRST + 24 * 24_999, 0, 25_000)
    short = FILLER * 100_000
    body = short + ring(falling(10), first=FIRST + len(short))
    yield "short entries before a ring of 10", body, PARENT, (FIRST + len(short), most_steps(body, 10), 10)
    body, last = stretches(1000, 246, 0)
    yield "a node after each 246 short entries", body, PARENT, (last, most_steps(body, 1000), 1000)
    body, last = stretches(2000, 54, 57)
    yield "a node among each 111 short entries", body, PARENT, (last, most_steps(body, 2000), 2000)
    long = bytes([7, 255]) + bytes(253)
    size = 20 + 2 * len(long)
    body = b"".join(node(FIRST + size * ((number - 1) % 3000)) + long * 2 for number in range(3000))
    yield "a node before each 510 bytes of two entries", body, PARENT, (FIRST, most_steps(body, 3000), 3000)
