"""Sets with 10,000 entries of each kind that a stage gathers in memory, and what the program has to answer, worked out by hand:
once without a fault, and once with one among the last entries; and PPTTs of 2 MiB. A stage that gives up on this many is out of
memory to each contract, so only these sets show it."""

from ..tables import *
from .rows import Row

COUNT = 10_000
LAST = COUNT - 1
# Where the tables after the FADT begin: each has room for 16 MiB.
PLACES = [0x1000000 * place for place in range(1, 4)]

MANY = []


def many(name, answer, *tables, words="", count=COUNT):
    """The program's line for a FADT and these tables."""
    others = dict(zip(PLACES, tables))
    pieces = listed(slots=[TABLES_AT, *others], others=others)
    MANY.append(Row(f"{count} {name}", pieces, f"check --rsdp e0000 {words}".strip(), answer))


def at(first, size, place):
    """The offset of the entry in this place, where entries of one size come after `first` bytes, in hex."""
    return f"{first + size * place:#x}"


# ---- interrupt numbers that two I/O APICs serve: each has 24, and entries of 12 bytes
IO_APICS = [io_apic(0xFEC00000, 24 * place) for place in range(COUNT)]
many("I/O APICs", "yes", madt(*IO_APICS))
many(
    "I/O APICs, the last one from one number too low on", f"no 7 GsiClash {at(44, 12, LAST - 1)} {at(44, 12, LAST)} {24 * LAST - 1:#x}",
    madt(*IO_APICS[:LAST], io_apic(0xFEC00000, 24 * LAST - 1)),
)

# ---- memory ranges that overlap: each has 4 KiB, and entries of 40 bytes
RANGES = [memory(0x1000 * place, 0x1000) for place in range(COUNT)]
WINDOWS = [memory(0x1000 * place, 0x1000, 3) for place in range(COUNT)]
OVERLAP = f"no 10 Overlap {at(48, 40, LAST - 1)} {at(48, 40, LAST)} {0x1000 * LAST - 1:#x}"
LOW = memory(0x1000 * LAST - 1, 0x1000)
LOW_WINDOW = memory(0x1000 * LAST - 1, 0x1000, 3)
many("ranges", "yes", srat(*RANGES))
many("ranges, the last one from one address too low on", OVERLAP, srat(*RANGES[:LAST], LOW))
many("ranges under as many windows", "yes", srat(*RANGES, *WINDOWS), words="--hotplug apart")
many(
    "ranges, the last one from one address too low on, under as many windows", OVERLAP, srat(*RANGES[:LAST], LOW, *WINDOWS),
    words="--hotplug apart",
)
many(
    "windows, the last one from one address too low on, over as many ranges", OVERLAP, srat(*WINDOWS[:LAST], LOW_WINDOW, *RANGES),
    words="--hotplug apart",
)

# ---- references of the PPTT: nodes of 24 bytes under the first one, each with a resource of its own after the nodes
RESOURCES_AT = 36 + 24 * COUNT
RESOURCES = [bytes([2, 4, 0, 0])] * COUNT


def owner(place, parent=36):
    """The node in this place, whose resource is the one in the same place."""
    return node(parent if place else 0, resources=[RESOURCES_AT + 4 * place])


OWNERS = [owner(place) for place in range(COUNT)]
many("nodes with a resource each", "yes", pptt(*OWNERS, *RESOURCES))
many(
    "nodes, the last one with a parent inside the first", f"no 13 DanglingParent {at(36, 24, LAST)} 0x25 0x0",
    pptt(*OWNERS[:LAST], owner(LAST, 37), *RESOURCES),
)
many(
    "nodes, the last one with a resource after the last", f"no 13 DanglingResource {at(36, 24, LAST)} 0x0 {at(RESOURCES_AT, 4, COUNT)}",
    pptt(*OWNERS[:LAST], node(36, resources=[RESOURCES_AT + 4 * COUNT]), *RESOURCES),
)
CACHES = [cache(36 if place else 0) for place in range(COUNT)]
many("caches", "yes", pptt(*CACHES))
many(
    "caches, the last one with a next level inside the first", f"no 13 DanglingCache {at(36, 24, LAST)} 0x25 0x0",
    pptt(*CACHES[:LAST], cache(37)),
)

# ---- cycles of parents and of next levels: nodes of 20 bytes, caches of 24
CHAIN = [node(36 + 20 * (place + 1)) for place in range(LAST)]
many("nodes in a chain", "yes", pptt(*CHAIN, node()))
many("nodes in a ring", f"no 14 ParentCycle 0x24 0x0 {COUNT:#x}", pptt(*CHAIN, node(36)))
many(
    "nodes, the last one its own parent", f"no 14 ParentCycle {at(36, 20, LAST)} 0x0 0x1",
    pptt(node(), *[node(36)] * (COUNT - 2), node(36 + 20 * LAST)),
)
LEVELS = [cache(36 + 24 * (place + 1)) for place in range(LAST)]
many("caches in a chain", "yes", pptt(*LEVELS, cache()))
many("caches in a ring", f"no 15 CacheCycle 0x24 0x0 {COUNT:#x}", pptt(*LEVELS, cache(36)))
many("caches, the last one its own next level", f"no 15 CacheCycle {at(36, 24, LAST)} 0x0 0x1", pptt(*CACHES[:LAST], cache(36 + 24 * LAST)))

# ---- processors in two domains: entries of 24 bytes in the SRAT
PROCESSORS = madt(*(x2apic(place, place) for place in range(COUNT)))
DOMAINS = [x2apic_domain(place, 0) for place in range(COUNT)]
many("processors in a domain", "yes", PROCESSORS, srat(*DOMAINS))
many(
    "processors in a domain, the last one also in another", f"no 16 TwoDomains {at(48, 24, COUNT)} {at(48, 24, LAST)} {LAST:#x}",
    PROCESSORS, srat(*DOMAINS, x2apic_domain(LAST, 1)),
)
many(
    "processors in a domain, and one that the MADT lacks in two", "yes", PROCESSORS,
    srat(*DOMAINS, x2apic_domain(COUNT, 0), x2apic_domain(COUNT, 1)),
)

# ---- interrupt numbers that none serves: NMI sources of 8 bytes after the I/O APICs, each of the last number of one
SOURCES = [nmi_source(24 * place + 23) for place in range(COUNT)]
many("NMI sources", "yes", madt(*IO_APICS, *SOURCES))
many(
    "NMI sources, the last one of a number that none serves", f"no 17 GsiNowhere {at(44 + 12 * COUNT, 8, LAST)} 0x0 {24 * COUNT:#x}",
    madt(*IO_APICS, *SOURCES[:LAST], nmi_source(24 * COUNT)),
)

# ---- leaves that the MADT lacks: nodes of 20 bytes
LEAVES = [node(0, IS_ID_VALID | IS_LEAF, place) for place in range(COUNT)]
many("leaves", "yes", PROCESSORS, pptt(*LEAVES))
many(
    "leaves, the last one no processor", f"no 18 LeafUnknown {at(36, 20, LAST)} 0x0 {COUNT:#x}", PROCESSORS,
    pptt(*LEAVES[:LAST], node(0, IS_ID_VALID | IS_LEAF, COUNT)),
)

# ---- a PPTT of 2 MiB: a node of 24 bytes under the node before it, and its cache of 24 bytes before that of the next node
PAIRS = 2**21 // 48 + 1
END = 36 + 48 * PAIRS
NODE_AT, CACHE_AT = END - 48, END - 24


def pairs(resource, level):
    """The last node has this resource, and the last cache this next level."""
    body = [node(48 * place - 12 if place else 0, resources=[60 + 48 * place]) + cache(108 + 48 * place) for place in range(PAIRS - 1)]
    return pptt(*body, node(NODE_AT - 48, resources=[resource]), cache(level))


many("nodes with a cache each", "yes", pairs(CACHE_AT, 0), count=PAIRS)
many(
    "nodes with a cache each, the last one with a resource after the last", f"no 13 DanglingResource {NODE_AT:#x} 0x0 {END:#x}",
    pairs(END, 0), count=PAIRS,
)
many(
    "nodes with a cache each, the last one its own next level", f"no 15 CacheCycle 0x3c {PAIRS - 1:#x} 0x1", pairs(CACHE_AT, CACHE_AT),
    count=PAIRS,
)
