"""Writes the generated image texts.

usage: inputs.py FORM TEXT FILE        one run, just below TEXT MiB of text; FORM is one of FORMS below
       inputs.py ORDER SIZE COUNT FILE COUNT rows of SIZE bytes, each with its own address; ORDER is one of
                                       ORDERS below
       inputs.py one-table COUNT FILE  COUNT slots that list one table of 16 MiB
       inputs.py nested COUNT FILE     COUNT tables 64 bytes apart, all of which end where the last does
       inputs.py KIND COUNT FILE       a set with COUNT entries of a KIND, one of KINDS below
       inputs.py CHAIN COUNT FILE      a set with COUNT nodes or caches in a CHAIN, one of CHAINS below; prints a witness
       inputs.py SHAPE COUNT FILE      a set with COUNT entries or slots of a SHAPE, one of SHAPES below
       inputs.py region FILE           memory of a machine, which real firmware wrote
       inputs.py real-sets COUNT FILE  no text: an RSDP's address and a file of tests/images in each line, in turn
       inputs.py counts FILE           no text: the counts of inputs, ADDRESS=COUNT, that go with the shape io-apics-with-counts
"""

import gzip
import itertools
import math
import random
import struct
import sys
from pathlib import Path

BASE = 0x100000
RSDT = 64  # its offset in the run
TESTS = Path(__file__).resolve().parent.parent / "tests"

# the lines of a run: how many pairs each has, what is between them, and what is after them
FORMS = {
    "run": (16, " ", "\n"),
    "rows-of-32": (32, " ", "\n"),
    "cr-lf": (16, " ", "\r\n"),
    "blank-at-the-end": (16, " ", " \n"),
    "lines-of-xxd": (30, "", "\n"),
    "dense": (1 << 14, "", "\n"),
    "empty-lines": (16, " ", "\n\n"),
    "comments": (16, " ", "\n# a row\n"),
    "one-byte": (1, "", "\n"),
}


def with_checksum(table, at):
    table = bytearray(table)
    table[at] = -sum(table) % 256
    return bytes(table)


def lines(memory, form):
    """The lines of a run, without the address."""
    size, blank, end = FORMS[form]
    if not blank:
        return memory.hex(end, -size) + end
    return "".join(memory[at : at + size].hex(blank) + end for at in range(0, len(memory), size))


def long_run(mebibytes, form="run"):
    """Random bytes after an RSDP and an RSDT that lists no table."""
    address = f"@{BASE:x}\n"
    pairs = FORMS[form][0]
    size = ((mebibytes << 20) - 1 - len(address)) // len(lines(bytes(pairs), form)) * pairs
    rsdp = struct.pack("<8sB6sBI", b"RSD PTR ", 0, b"BENCH ", 0, BASE + RSDT)
    rsdt = struct.pack("<4sIBB6s8sI4sI", b"RSDT", 36, 1, 0, b"BENCH ", b"BENCHRUN", 1, b"NONE", 1)
    memory = bytearray(random.Random(1).randbytes(size))
    memory[: len(rsdp)] = with_checksum(rsdp, 8)
    memory[RSDT : RSDT + len(rsdt)] = with_checksum(rsdt, 9)
    return address + lines(memory, form)


def shuffled(count):
    numbers = list(range(count))
    random.Random(1).shuffle(numbers)
    return numbers


# how far apart rows of a size begin, in addresses, and the order in which they come
ORDERS = {
    "rising-apart": (lambda size: 2 * size, range),
    "falling-apart": (lambda size: 2 * size, lambda count: range(count - 1, -1, -1)),
    "shuffled-apart": (lambda size: 2 * size, shuffled),
    "falling-touching": (lambda size: size, lambda count: range(count - 1, -1, -1)),
    "holes-last": (lambda size: size, lambda count: [*range(0, count, 2), *range(1, count, 2)]),
    "rising-far": (lambda size: 256, range),
    "shuffled-far": (lambda size: 256, shuffled),
    "bad-apart": (lambda size: 2 * size, lambda count: bad_order(count)),
    "rising-but-one": (lambda size: 2 * size, lambda count: [*range(1, count), 0]),
}


def many_rows(order, size, count):
    distance, numbers = ORDERS[order]
    step = distance(size)
    row = bytes(size).hex(" ") + "\n"
    return "".join(f"@{(BASE << 4) + number * step:x}\n{row}" for number in numbers(count))


def table(signature, body, revision=1):
    header = struct.pack("<4sIBB6s8sI4sI", signature, 36 + len(body), revision, 0, b"BENCH ", b"BENCHRUN", 1, b"NONE", 1)
    return with_checksum(header + body, 9)


def override(number):
    """Source 9 is interrupt number 9, again and again."""
    return bytes((2, 10, 0, 9, 9, 0, 0, 0, 0, 0))


def nmi_source(number):
    return struct.pack("<BBHI", 3, 8, 0, number)


def io_apic(number, address=0xFEC00000):
    return struct.pack("<BBBBII", 1, 12, 0, 0, address, number)


def x2apic(number):
    """An enabled processor, its X2APIC ID and its UID."""
    return struct.pack("<BBHIII", 9, 16, 0, number, 1, number)


def x2apic_affinity(number):
    """Puts the processor into one of 64 domains."""
    return struct.pack("<BBHIIIII", 2, 24, 0, number % 64, number, 1, 0, 0)


def memory_range(number):
    """An enabled range of 4 KiB that begins where the one before it ends."""
    return struct.pack("<BBIHQQIIQ", 1, 40, 0, 0, number << 12, 1 << 12, 0, 1, 0)


def node(parent, flags=0, uid=0, resources=()):
    head = struct.pack("<BBHIIII", 0, 20 + 4 * len(resources), 0, flags, parent, uid, len(resources))
    return head + struct.pack(f"<{len(resources)}I", *resources)


def cache(next_level):
    return struct.pack("<BBHIIIIBBH", 1, 24, 0, 0, next_level, 0, 0, 0, 0, 64)


def reserved(number):
    """An entry of a type without a meaning, as short as an entry may be."""
    return bytes((6, 2))


def madt(*entries):
    return table(b"APIC", struct.pack("<II", 0xFEE00000, 1) + b"".join(entries))


def srat(*entries):
    return table(b"SRAT", struct.pack("<IQ", 1, 0) + b"".join(entries))


def slit(count):
    """All distances are 20, except those from a locality to itself."""
    cells = bytearray(b"\x14") * (count * count)
    cells[:: count + 1] = b"\x0a" * count
    return table(b"SLIT", struct.pack("<Q", count) + bytes(cells))


def pptt(*entries):
    return table(b"PPTT", b"".join(entries), revision=2)


def chain(count, last):
    """Nodes each of which has the next one as its parent; `last` is the parent of the last one."""
    parents = [36 + 20 * number for number in range(1, count)] + [last]
    return pptt(*map(node, parents))


def nodes_of_58_caches(count):
    """Nodes with as many private resources as fit, all of them caches at the table's start."""
    caches = [36 + 24 * number for number in range(58)]
    return pptt(*(cache(0) for _ in caches), *(node(0, resources=caches) for _ in range(count)))


def scattered_references(count):
    """Nodes of 58 private resources in random order, among as many nodes without any, so that entries are not evenly spaced."""
    numbers = random.Random(1)
    caches = []
    entries = []
    offset = 36
    for number in range(count):
        for entry in (cache(0), node(0)) if numbers.random() < 0.5 else (cache(0),):
            if len(entry) == 24:
                caches.append(offset)
            entries.append(entry)
            offset += len(entry)
    nodes = (node(0, resources=numbers.choices(caches, k=58)) for _ in range(count))
    return pptt(*entries, *nodes)


def topology(count):
    """A PPTT with a package and two caches for every 64 processors."""
    packages = range(36, 36 + 68 * (count // 64), 68)
    entries = [node(0) + cache(at + 44) + cache(0) for at in packages]
    leaves = [node(36 + 68 * (number // 64 % len(packages)), flags=0b1010, uid=number) for number in range(count)]
    return pptt(*entries, *leaves)


def machine(count):
    """A machine with this many processors in 64 domains."""
    numbers = range(count)
    affinities = srat(*map(x2apic_affinity, numbers), *map(memory_range, range(64)))
    return [madt(io_apic(0), *map(x2apic, numbers)), affinities, slit(64), topology(count)]


def hmat(body):
    return table(b"HMAT", bytes(4) + body, 2)


def latencies(initiators, targets, cells):
    """A structure of an HMAT with these lists, in units of 1."""
    lists = struct.pack(f"<{len(initiators)}I{len(targets)}I", *initiators, *targets) + cells
    counts = len(initiators), len(targets)
    return struct.pack("<HHIIIIIQ", 1, 0, 32 + len(lists), 0, *counts, 0, 1) + lists


def square_of_cells(count):
    """An HMAT with that many cells, or somewhat fewer, of as many initiators as targets."""
    side = math.isqrt(count)
    return hmat(latencies(range(side), range(side), bytes(2 * side * side)))


def platform_timers(count):
    """A GTDT with platform timers of 4 bytes, which are no blocks and no watchdogs."""
    fields = bytes(20) + struct.pack("<I", 30) + bytes(28) + struct.pack("<II", count, 104) + bytes(8)
    return table(b"GTDT", fields + struct.pack("<BHB", 2, 4, 0) * count, 3)


# Of a DMAR and an IVRS, the structures of which have a length of 16 bits: how many scopes of 8 bytes one has, and how many entries of 4.
SCOPES, ENTRIES = 8000, 16000


def dmar(*structures, flags=0):
    return table(b"DMAR", bytes([47, flags]) + bytes(10) + b"".join(structures))


def drhd(number, scopes=b""):
    """An IOMMU whose registers are at this page, with scopes."""
    return struct.pack("<HHIQ", 0, 16 + len(scopes), 0, 4096 * (number + 1)) + scopes


def rhsa(number):
    return struct.pack("<HHIQI", 3, 20, 0, 4096 * (number + 1), 0)


def scope(kind, number=0):
    """A device scope of one step."""
    return struct.pack("<BBHBBH", kind, 8, 0, number % 256, 0, 0)


def units_of_scopes(kind, count):
    """IOMMUs with that many scopes, or somewhat more, as many in each as fit."""
    scopes = b"".join(scope(kind, number) for number in range(SCOPES))
    return [drhd(number, scopes) for number in range(-(-count // SCOPES))]


def ivrs(*blocks):
    return table(b"IVRS", bytes(12) + b"".join(blocks), 2)


def ivhd(number, entries=b""):
    """An IOMMU whose device and segment are of this number, as its address is, with entries."""
    base = 16384 * (number + 1)
    return struct.pack("<BBHHHQHHI", 0x10, 0, 24 + len(entries), number % 65536, 0, base, number // 65536, 0, 0) + entries


def special_entries(count):
    """Entries of I/O APICs."""
    return b"".join(struct.pack("<B3xBHB", 0x48, number % 256, 0, 1) for number in range(count))


def units_of_entries(entries, count):
    """IOMMUs with so many entries, or somewhat more, of which each has these."""
    return [ivhd(number, entries) for number in range(-(-count // ENTRIES))]


# the tables of a kind, by the number of entries, which are in random order if they differ
KINDS = {
    "scopes": lambda count: [dmar(*units_of_scopes(1, count))],
    "scopes-of-io-apics": lambda count: [dmar(*units_of_scopes(3, count), flags=1), madt(*map(io_apic, shuffled(count)))],
    "scopes-apart": lambda count: [dmar(drhd(0), (struct.pack("<HHI", 2, 16, 0) + scope(1)) * count)],
    "iommus": lambda count: [dmar(*map(drhd, shuffled(count)))],
    "rhsas": lambda count: [dmar(*map(drhd, shuffled(count)), *map(rhsa, reversed(shuffled(count)))), srat(memory_range(0))],
    "structures-of-4-bytes": lambda count: [dmar(drhd(0), struct.pack("<HH", 7, 4) * count)],
    "device-entries": lambda count: [ivrs(*units_of_entries(struct.pack("<BHB", 2, 8, 0) * ENTRIES, count))],
    "device-ranges": lambda count: [ivrs(*units_of_entries(struct.pack("<BHBBHB", 3, 8, 0, 4, 9, 0) * (ENTRIES // 2), count))],
    "special-entries": lambda count: [
        ivrs(*units_of_entries(special_entries(ENTRIES // 2), 2 * count)), madt(*map(io_apic, shuffled(count))),
    ],
    "ivhds": lambda count: [ivrs(*map(ivhd, shuffled(count)))],
    "ivmds": lambda count: [ivrs(ivhd(0), struct.pack("<BBHIQQQ", 0x20, 1, 32, 0, 0, 4096, 4096) * count)],
    "initiators": lambda count: [hmat(latencies(shuffled(count), (), b"")), srat(memory_range(0))],
    "cells": lambda count: [square_of_cells(count), srat(memory_range(0))],
    "structures-of-8-bytes": lambda count: [hmat(struct.pack("<HHI", 3, 0, 8) * count), srat(memory_range(0))],
    "platform-timers": lambda count: [platform_timers(count)],
    "reserved-entries": lambda count: [madt(*map(reserved, range(count)))],
    "empty-tables": lambda count: [table(b"DATA", b"")] * count,
    "bytes-of-a-table": lambda count: [table(b"DATA", random.Random(1).randbytes(count))],
    "overrides": lambda count: [madt(*map(override, shuffled(count)))],
    "io-apics": lambda count: [madt(*map(io_apic, shuffled(count)))],
    "ranges": lambda count: [srat(*map(memory_range, shuffled(count)))],
    "localities": lambda count: [slit(count)],
    "chained-nodes": lambda count: [chain(count, last=0)],
    "nodes-in-a-ring": lambda count: [chain(count, last=36)],
    "nodes-of-58-caches": lambda count: [nodes_of_58_caches(count)],
    "processors": lambda count: [
        madt(*map(x2apic, shuffled(count))),
        srat(*map(x2apic_affinity, reversed(shuffled(count)))),
    ],
    "nmi-sources": lambda count: [madt(*map(io_apic, shuffled(count)), *map(nmi_source, reversed(shuffled(count))))],
    "io-apics-last-clash": lambda count: [madt(*map(io_apic, shuffled(count)), io_apic(count - 1))],
    "overrides-last-clash": lambda count: [madt(*map(override, range(count)), bytes((2, 10, 0, 9, 8, 0, 0, 0, 0, 0)))],
    "nmi-sources-last-unserved": lambda count: [
        madt(*map(io_apic, shuffled(count)), *map(nmi_source, reversed(shuffled(count))), nmi_source(count))
    ],
    "nmi-sources-apart": lambda count: [
        madt(
            *(io_apic(2 * number) for number in shuffled(count)),
            *(nmi_source(2 * number) for number in reversed(shuffled(count))),
        )
    ],
    "nmi-sources-apart-last-unserved": lambda count: [
        madt(
            *(io_apic(2 * number) for number in shuffled(count)),
            *(nmi_source(2 * number) for number in reversed(shuffled(count))),
            nmi_source(1),
        )
    ],
    "short-entries": lambda count: [
        madt(
            io_apic(8), override(0), nmi_source(8), *map(reserved, range(count)), io_apic(9), override(1), nmi_source(9)
        )
    ],
    "scattered-references": lambda count: [scattered_references(count)],
    "processors-of-a-machine": machine,
    "leaves": lambda count: [
        madt(*map(x2apic, shuffled(count))),
        pptt(*(node(0, flags=0b1010, uid=number) for number in reversed(shuffled(count)))),
    ],
}


# ---- chains of a PPTT, each with a witness of a cycle to be confirmed

FILLER = reserved(0)


def witness(at, lead, around):
    return f"14 ParentCycle {at:#x} {lead:#x} {around:#x}"


def ring(order, entry=node, size=20, first=36):
    """Each of the entries refers to the next one in this order, and the last one to the first. `order` has their numbers in the
    table."""
    leads_to = [0] * len(order)
    for number, following in zip(order, [*order[1:], order[0]]):
        leads_to[number] = first + size * following
    return b"".join(map(entry, leads_to))


def ring_of_nodes(order):
    return pptt(ring(order)), witness(36 + 20 * order[0], 0, len(order))


def ring_of_caches(order):
    return pptt(ring(order, cache, 24)), f"15 CacheCycle {36 + 24 * order[0]:#x} 0x0 {len(order):#x}"


def most_steps(body):
    """As many steps as a witness may have."""
    return (36 + len(body)) // 20


def short_entries_and_ring(count):
    """COUNT entries of two bytes, and a falling ring of 10 nodes with the largest possible number of steps around it."""
    first = 36 + 2 * count
    body = FILLER * count + ring(range(9, -1, -1), first=first)
    return pptt(body), witness(first, (most_steps(body) - 10) // 10 * 10, 10)


def falling_chain(count):
    """The chain ends, but not before the last step of a witness whose cycle has one step."""
    nodes = b"".join(node(36 + 20 * (number - 1) if number else 0) for number in range(count))
    return pptt(nodes), witness(36 + 20 * (count - 1), count - 2, 2)


def nodes_in_stretches(size, front, back):
    """Blocks of `size` bytes that are full of entries of two bytes, with nodes at the beginning and at the end. A ring visits the
    nodes in random order, with the largest possible number of steps around it. Each block begins at a multiple of its size in the
    table."""

    def made(count):
        inside = [20 * number for number in range(front)] + [size - 20 * (back - number) for number in range(back)]
        before = FILLER * ((-36 % size) // 2)
        gap = FILLER * ((size - 20 * len(inside)) // 2)
        begins = range(36 + len(before), 36 + len(before) + count // len(inside) * size, size)
        places = [begin + at for begin in begins for at in inside]
        order = [places[number] for number in shuffled(len(places))]
        leads_to = dict(zip(order, order[1:] + order[:1]))
        nodes = [node(leads_to[place]) for place in places]
        pairs = zip(*(nodes[number :: len(inside)] for number in range(len(inside))))
        body = before + b"".join(b"".join((*stretch[:front], gap, *stretch[front:])) for stretch in pairs)
        around = len(order)
        return pptt(body), witness(order[0], (most_steps(body) - around) // around * around, around)

    return made


CHAINS = {
    "rising-ring": lambda count: ring_of_nodes(range(count)),
    "falling-ring": lambda count: ring_of_nodes(range(count - 1, -1, -1)),
    "shuffled-ring": lambda count: ring_of_nodes(shuffled(count)),
    "falling-ring-of-caches": lambda count: ring_of_caches(range(count - 1, -1, -1)),
    "falling-chain": falling_chain,
    "short-entries-and-ring": short_entries_and_ring,
    "one-node-in-128-bytes": nodes_in_stretches(128, 0, 1),
    "two-nodes-in-128-bytes": nodes_in_stretches(128, 1, 1),
    "three-nodes-in-128-bytes": nodes_in_stretches(128, 1, 2),
    "two-nodes-in-256-bytes": nodes_in_stretches(256, 1, 1),
    "one-node-in-512-bytes": nodes_in_stretches(512, 0, 1),
    "six-nodes-in-512-bytes": nodes_in_stretches(512, 1, 5),
}


def with_rsdp(pieces):
    """An RSDP that names the first piece, and the pieces."""
    rsdp = with_checksum(struct.pack("<8sB6sBI", b"RSD PTR ", 0, b"BENCH ", 0, pieces[0][0]), 8)
    return ((0xE0000, rsdp), *pieces)


def bare_text(pieces, form="dense"):
    """The pieces alone."""
    return "".join(f"@{address:x}\n{lines(data, form)}" for address, data in pieces)


def pieces_text(pieces, form="dense"):
    """An RSDP that names the first piece, and the pieces."""
    return bare_text(with_rsdp(pieces), form)


def rows_text(pieces):
    """The same in rows of 16 pairs, which are read sooner than as many bytes without blanks."""
    return pieces_text(pieces, "run")


LISTED_AT = 0x20000000


def listed(addresses, memory):
    """An RSDT with these addresses in its slots, and the bytes at LISTED_AT."""
    return pieces_text([(0x10000000, rsdt(addresses)), (LISTED_AT, memory)])


def one_table(count):
    return listed([LISTED_AT] * count, table(b"DATA", random.Random(1).randbytes((1 << 24) - 36)))


def nested_tables(count):
    """64 bytes of each table sum to 0, and so do those of all after it."""
    return b"".join(with_checksum(struct.pack("<4sI56x", b"DATA", 64 * left), 9) for left in range(count, 0, -1))


def nested(count):
    return listed([LISTED_AT + 64 * number for number in range(count)], nested_tables(count))


SETS = {"one-table": one_table, "nested": nested}


def after(pieces):
    """The first multiple of 64 after the last piece, and after the first MiB."""
    address, data = pieces[-1]
    return max(0x100000, (address + len(data) + 63) // 64 * 64)


# of hardware-reduced ACPI
FADT = table(b"FACP", bytes(76) + struct.pack("<I", 1 << 20))


def rsdt(addresses):
    return table(b"RSDT", struct.pack(f"<{len(addresses)}I", *addresses))


def set_of(tables, inside=(), text=pieces_text):
    """An RSDP, an RSDT, a FADT, and the tables. `inside` has the offsets in the last one at which further tables begin."""
    pieces = [(0x2000, FADT)]
    for data in tables:
        pieces.append((after(pieces), data))
    addresses = [address for address, _ in pieces]
    root = rsdt(addresses + [addresses[-1] + offset for offset in inside])
    return text([(after(pieces), root), *pieces])


# ---- guests, as a monitor writes their tables


def local_apic(number):
    """An enabled processor, and its UID and APIC ID, which are the same."""
    return struct.pack("<BBBBI", 0, 8, number, number, 1)


def affinity(number):
    """Puts the processor into a domain of 16."""
    return struct.pack("<BBBBI8x", 0, 16, number // 16, number, 1)


def guest(count, slots=0):
    """A guest with this many processors. From 64 on they are in domains, with distances and a topology. So many further slots of its
    RSDT list a table at LISTED_AT, which is no piece of the text."""
    timer, sci = bytes((2, 10, 0, 0, 2, 0, 0, 0, 0, 0)), bytes((2, 10, 0, 9, 9, 0, 0, 0, 13, 0))
    tables = [FADT, madt(*map(local_apic, range(count)), io_apic(0), timer, sci)]
    if count >= 64:
        domains = count // 16
        ranges = map(memory_range, range(domains))
        tables += [srat(*map(affinity, range(count)), *ranges), slit(domains), topology(count)]
    places = itertools.accumulate((len(data) + 63 & ~63 for data in tables), initial=0xE1000)
    pieces = list(zip(places, tables))
    root = rsdt([address for address, _ in pieces] + [LISTED_AT] * slots)
    return pieces_text([(LISTED_AT // 2, root) if slots else (0xE0040, root), *pieces])


def real_sets(count):
    """The images of real firmware, in turn."""
    sys.path.insert(0, str(TESTS))
    from acpi_images.program import FIRMWARE, IMAGES

    sets = itertools.cycle(f"{rsdp} {FIRMWARE / name}.img.txt\n" for name, rsdp in IMAGES.items())
    return "".join(itertools.islice(sets, count))


# ---- shapes that take long beside the reading of their text


def slots_before_kinds(addresses, pieces):
    """An RSDT that lists the addresses, in no order, and after them a table of each kind, of a machine with one processor."""
    tables = [FADT, madt(io_apic(0), x2apic(0)), srat(x2apic_affinity(0)), slit(1), pptt(node(0, flags=0b1010))]
    kinds = [(0x2000 + 0x1000 * number, data) for number, data in enumerate(tables)]
    root = rsdt(addresses + [address for address, _ in kinds])
    return pieces_text([(0x10000000, root), *kinds, *pieces])


def slots_of_scattered_tables(count):
    """Slots that list tables of 36 bytes, with a hole after each. There is a table for each 25 slots."""
    addresses = range(LISTED_AT, LISTED_AT + 64 * (count // 25), 64)
    pieces = [(address, table(b"DATA", b"")) for address in addresses]
    return slots_before_kinds(random.Random(1).choices(addresses, k=count), pieces)


def slots_of_nested_tables(count):
    """Slots that list tables of which each begins 64 bytes after the one before it. There is a table for each 48 slots."""
    addresses = range(LISTED_AT, LISTED_AT + 64 * (count // 48), 64)
    pieces = [(LISTED_AT, nested_tables(len(addresses)))]
    return slots_before_kinds(random.Random(1).choices(addresses, k=count), pieces)


def signatures_of_two_roots(count):
    """An XSDT of one slot, and slots of an RSDT that list pieces of 4 bytes, in no order. There is a piece for each 6 slots, with a
    signature of its own and a hole after it."""
    signatures = shuffled(count // 6)
    places = range(LISTED_AT, LISTED_AT + 64 * len(signatures), 64)
    rsdp = with_checksum(struct.pack("<8sB6sBI", b"RSD PTR ", 0, b"BENCH ", 2, 0x10000000), 8)
    whole = with_checksum(rsdp + struct.pack("<IQI", 36, 0x1000, 0), 32)
    roots = [(0x1000, table(b"XSDT", struct.pack("<Q", 0x2000))), (0x10000000, rsdt(random.Random(1).choices(places, k=count)))]
    pieces = ((place, struct.pack("<I", signature)) for place, signature in zip(places, signatures))
    return bare_text([(0xE0000, whole), (0x2000, FADT), *roots, *pieces])


def spanning(data, shared):
    """A table after an entry that ends where the table's bytes are shared."""
    return bytes((12, 2 + len(data) - len(shared))) + data


def entry_of_each_type():
    """Those of a MADT, with the numbers of one machine."""
    local_apic = struct.pack("<BBBBI", 0, 8, 1, 1, 1)
    local_nmi = struct.pack("<BBBHB", 4, 6, 1, 0, 0)
    address_override = struct.pack("<BBHQ", 5, 12, 0, 0xFEE00000)
    x2apic_nmi = struct.pack("<BBHI4x", 10, 12, 0, 0)
    return local_apic + io_apic(0) + override(0) + nmi_source(0) + local_nmi + address_override + x2apic(0) + x2apic_nmi


def shared_entries(count, kind=12):
    """A MADT, an SRAT and a PPTT with the same COUNT entries of two bytes, of the type of a GIC distributor in a MADT if no other is
    given. The SRAT is inside the MADT and the PPTT inside the SRAT. The MADT ends with an entry of each type."""
    shared = bytes((kind, 2)) * count
    inner = table(b"PPTT", shared, revision=3)
    middle = srat(memory_range(0), x2apic_affinity(0), spanning(inner, shared))
    outer = madt(spanning(middle, shared), entry_of_each_type())
    first = len(madt()) + 2
    return set_of([outer], [first, first + len(middle) - len(inner)], rows_text)


def resources_among_short_entries(count):
    """Nodes of 58 private resources in no order, which are among 64 entries of two bytes for each node. One more such entry is
    at the end, so that these are not evenly far from each other."""
    offsets = range(36, 36 + 2 * 64 * count, 2)
    numbers = random.Random(1)
    nodes = (node(0, resources=numbers.choices(offsets, k=58)) for _ in range(count))
    return set_of([pptt(FILLER * len(offsets), *nodes, FILLER)], text=rows_text)


def chain_in_no_order(count):
    """A chain through nodes in no order. An entry of two bytes is before some of them, so that they are not evenly far from
    each other."""
    numbers = random.Random(1)
    gaps = [FILLER if numbers.random() < 0.3 else b"" for _ in range(count)]
    offsets = []
    offset = 36
    for gap in gaps:
        offsets.append(offset + len(gap))
        offset += len(gap) + 20
    parents = [0] * count
    order = shuffled(count)
    for number, parent in zip(order, order[1:]):
        parents[number] = offsets[parent]
    return set_of([pptt(*(gap + node(parent) for gap, parent in zip(gaps, parents)))])


# As many as a command line can surely have counts for.
MOST_COUNTS = 90000


def counted_addresses():
    return random.Random(1).sample(range(1 << 31, 1 << 32), MOST_COUNTS)


def counts(count=MOST_COUNTS):
    return "".join(f"{address:x}=1\n" for address in counted_addresses()[:count])


def io_apics_with_counts(count):
    """I/O APICs in no order, at addresses for which there may be counts of inputs, and an override."""
    addresses = random.Random(2).choices(counted_addresses(), k=count)
    return set_of([madt(*map(io_apic, shuffled(count), addresses), override(0))], text=rows_text)


def lowest_sample(a, b, c, n):
    """The places of which the sort takes the median of medians for its pivot, without a third of them at each level: where the
    least elements are at those that are left, the greatest of these is the pivot."""
    if n < 8:
        return [a, b]
    m = n // 8
    return lowest_sample(a, a + 4 * m, a + 7 * m, m) + lowest_sample(b, b + 4 * m, b + 7 * m, m)


def partition(row, low, places):
    """Partitions what is from `low` on by the element there, where those at these places alone are less, as the sort does: it
    holds one element out, and swaps each lesser one with the first that is not less. Returns the place of the pivot."""
    lesser = {row[place] for place in places}
    left = low + 1
    while row[left] in lesser:
        left += 1
    hole = left + 1
    held = row[hole]
    moved = row[left]
    for place in sorted(place for place in places if place > hole):
        row[hole] = moved
        row[left] = row[place]
        left += 1
        moved = row[left]
        hole = place
    row[hole] = moved
    row[left] = held
    left += held in lesser
    row[low], row[left - 1] = row[left - 1], row[low]
    return left - 1


def bad_order(count):
    """The numbers below COUNT, in an order in which the quicksort of the toolchain's library finds pivots among the least alone. As
    soon as it has partitioned twice the logarithm of COUNT times, it leaves what is left, nearly all, to a sort by a heap."""
    row = list(range(count))
    numbers = [0] * count
    low = 0
    for _ in range(2 * (count.bit_length() - 1)):
        m = (count - low) // 8
        places = lowest_sample(low, low + 4 * m, low + 7 * m, m)
        for number, place in enumerate(places, low):
            numbers[row[place]] = number
        pivot = places[-1]
        row[low], row[pivot] = row[pivot], row[low]
        low = partition(row, low, places[1:]) + 1
    for element, number in zip(row[low:], shuffled(count - low)):
        numbers[element] = low + number
    return numbers


def last_repeated(numbers):
    """The numbers below an even count, the last one of which repeats the one that is next to it in size."""
    return [*numbers[:-1], numbers[-1] ^ 1]


def io_apics_of(numbers):
    """I/O APICs with an address for each number, and an override."""
    entries = (io_apic(number, 0xA0000000 + number) for number in numbers)
    return set_of([madt(*entries, override(0))], text=rows_text)


def x2apics_of(numbers):
    """Processors, an NMI of the first of them, an affinity and a leaf of it, and two affinities of a processor that is not there."""
    count = len(numbers)
    local_nmi = struct.pack("<BBHI4x", 10, 12, 0, 0)
    absent = struct.pack("<BBHIIIII", 2, 24, 0, 65, count, 1, 0, 0)
    tables = [
        madt(*map(x2apic, numbers), local_nmi),
        srat(x2apic_affinity(0), x2apic_affinity(count), absent),
        pptt(node(0, flags=0b1010)),
    ]
    return set_of(tables, text=rows_text)


def slots_of(numbers):
    """Slots with an address for each number, none of which has a byte."""
    return pieces_text([(0x10000000, rsdt([LISTED_AT + number for number in numbers]))])


SHAPES = {
    "slots-of-scattered-tables": slots_of_scattered_tables,
    "slots-of-nested-tables": slots_of_nested_tables,
    "signatures-of-two-roots": signatures_of_two_roots,
    "shared-entries": shared_entries,
    "shared-processors": lambda count: shared_entries(count, kind=0),
    "resources-among-short-entries": resources_among_short_entries,
    "chain-in-no-order": chain_in_no_order,
    "io-apics-in-a-bad-order": lambda count: io_apics_of(bad_order(count)),
    "io-apics-last-repeated": lambda count: io_apics_of(last_repeated(bad_order(count))),
    "x2apics-in-a-bad-order": lambda count: x2apics_of(bad_order(count)),
    "x2apics-last-repeated": lambda count: x2apics_of(last_repeated(bad_order(count))),
    "slots-in-a-bad-order": lambda count: slots_of(bad_order(count)),
    "io-apics-with-counts": io_apics_with_counts,
    "guest": guest,
    "guest-with-slots": lambda slots: guest(4, slots),
    "real-sets": real_sets,
}


def text_of(what):
    if what == ["counts"]:
        return counts()
    kind, *numbers = what
    if kind == "region":
        return gzip.decompress((TESTS / "images" / "sb-q35-default.region.img.txt.gz").read_bytes()).decode()
    if kind in FORMS:
        return long_run(*map(int, numbers), kind)
    if kind in SHAPES:
        return SHAPES[kind](*map(int, numbers))
    if kind in SETS:
        return SETS[kind](*map(int, numbers))
    if kind in ORDERS:
        return many_rows(kind, *map(int, numbers))
    if kind in CHAINS:
        data, fault = CHAINS[kind](*map(int, numbers))
        print(fault)
        return set_of([data])
    return set_of(KINDS[kind](*map(int, numbers)))


def main():
    *what, path = sys.argv[1:]
    text = text_of(what)
    with open(path, "w", encoding="ascii") as out:
        out.write(text)


if __name__ == "__main__":
    main()
