#!/usr/bin/env python3
"""Runs all commands of the built program on sets with many slots, and many entries of each kind, in no order: just above 20, 255 and
1,024 of each, where the answers are compared with those of the second programs, and above 65,535. What comes in order need not be
sorted or kept, nor what is short, so only such sets show a command that gives up on them: it would be out of memory to its contract.

usage: unsorted.py PROGRAM; the last line is 'unsorted: N passed, M failed'."""

import random
import sys
from pathlib import Path

sys.path.insert(0, str(Path(__file__).resolve().parents[1]))

from acpi_images.advice import lint_lines
from acpi_images.faults import Fault, Judgement
from acpi_images.program import answer, main
from acpi_images.rebuilt import rebuilt
from acpi_images.shown import shown, shown_anyway
from acpi_images.table_set import Policy
from acpi_images.tables import *
from acpi_images.text import read, text_of

COUNTS = (21, 257, 1_025)
MOST = 65_537
# Where the tables with entries, and the others, are, and where a set is rebuilt: in room for 16 MiB, and above all of them.
PLACES = [0x1000000 * place for place in range(1, 5)]
ROOT_AT, OTHERS_AT, OTHER_SIZE, BASE = 0x8000000, 0x10000000, 0x40, 0x4000000000
DOMAINS = 7


class Lists:
    """Lists of so many numbers in no order, none of them twice; the same for the same seed."""

    def __init__(self, count):
        self.dice, self.count = random.Random(count), count

    def below(self, most=1 << 31):
        return self.dice.sample(range(most), self.count)

    def mixed(self, *lists):
        """All entries of these lists in no order."""
        entries = [entry for entries in lists for entry in entries]
        return self.dice.sample(entries, len(entries))


# ---- sets without a fault: the entries of the MADT, the SRAT and the PPTT


def of_x2apics(lists):
    """Processors with their NMIs, domains and leaves; I/O APICs, with NMI sources and overrides that they serve; ranges of memory."""
    uids, ids = lists.below(), lists.below()
    bases = [24 * place for place in lists.below(1 << 27)]
    apics = [io_apic(0x1000 * (place + 1), base) for place, base in zip(lists.below(1 << 19), bases)]
    nmis = lists.mixed([x2apic_nmi(uid, 1) for uid in uids], [nmi_source(base + 23) for base in bases])
    overrides = [override(source, base) for source, base in zip(lists.dice.sample(range(16), 16), bases)]
    ranges = [memory(0x1000 * place, 0x1000) for place in lists.below()]
    domains = [x2apic_domain(own, place % DOMAINS) for place, own in enumerate(ids)]
    yield lists.mixed(map(x2apic, uids, ids), apics, nmis, overrides)
    yield lists.mixed(domains, ranges)
    yield hierarchy(lists, uids)


def hierarchy(lists, uids):
    """A leaf for each UID, then as many nodes above them, and as many caches, each of which names an earlier one."""
    nodes_at, caches_at = (36 + 24 * lists.count * part for part in (1, 2))
    one_from = lambda first, count=lists.count: first + 24 * lists.dice.randrange(count)
    leaves = [node(one_from(nodes_at), LEAF, uid, [one_from(caches_at)]) for uid in lists.dice.sample(uids, len(uids))]
    above = [node(0, IS_PACKAGE, resources=[one_from(caches_at)]) for _ in uids]
    return leaves + above + [cache(one_from(caches_at, place) if place else 0) for place in range(lists.count)]


def of_giccs(lists):
    """The parts of a GIC, with the domains of its processors and ITS, and leaves."""
    uids, ids = lists.below(), lists.below()
    parts = [redistributor(0x20000 * place, 0x20000) for place in lists.below()]
    parts += [its(own, (1 << 50) + 0x20000 * place) for place, own in enumerate(ids)]
    parts += [frame(own, (1 << 51) + 0x1000 * place) for place, own in enumerate(ids)]
    domains = [uid_domain(own, place % DOMAINS) for place, own in enumerate(uids)]
    yield [distributor(3, 1 << 52), *lists.mixed(map(gicc, uids), parts)]
    yield lists.mixed(domains, map(of_its, ids))
    yield [leaf(uid) for uid in lists.dice.sample(uids, len(uids))]


def of_harts(lists):
    uids = lists.below()
    yield lists.mixed(map(rintc, uids))
    yield lists.mixed(hart_domain(own, place % DOMAINS) for place, own in enumerate(uids))
    yield [leaf(uid) for uid in lists.dice.sample(uids, len(uids))]


def of_cores(lists):
    uids = lists.below()
    yield lists.mixed(map(core_pic, uids, lists.below()))
    yield [memory(0x2000 * place, 0x1000, domain=place % DOMAINS) for place in lists.below()]
    yield [leaf(uid) for uid in lists.dice.sample(uids, len(uids))]


SETS = (of_x2apics, of_giccs, of_harts, of_cores)


def image_with(lists, tables):
    """A set of these entries, and as many further tables, in slots in no order: one in nine of them is in a later slot too."""
    whole = dict(zip(PLACES, (*(make(*entries) for make, entries in zip((madt, srat, pptt), tables)), slit(DOMAINS, even_cells(DOMAINS)))))
    others = {OTHERS_AT + OTHER_SIZE * place: table(b"DATA", bytes(place % 7), place % 200) for place in lists.below(2 * lists.count)}
    slots = lists.mixed([TABLES_AT, *whole, *others]) + list(others)[: lists.count // 9]
    return {RSDP_AT: rsdp(ROOT_AT), ROOT_AT: rsdt(*slots), TABLES_AT: sound_fadt(), **whole, **others}


def with_mistakes(lists, tables):
    """The entries, where each time one of a table is replaced with another one of the same length."""
    for place, entries in enumerate(tables):
        at = lists.dice.randrange(1, len(entries))
        alike = [other for other in entries if len(other) == len(entries[at]) and other != entries[at]]
        changed = [*entries[:at], lists.dice.choice(alike), *entries[at + 1 :]]
        yield [*tables[:place], changed, *tables[place + 1 :]]


def clean_set(made, count):
    """The pieces of a set of this kind without a mistake, and how many lines of `show` are about its slots and its entries."""
    lists = Lists(count)
    tables = list(made(lists))
    pieces = image_with(lists, tables)
    return pieces, (len(pieces[ROOT_AT]) - 36) // 4 + sum(map(len, tables))


def small_sets():
    """The name and the pieces of each set that is compared: without a mistake, and with one each."""
    for made in SETS:
        for count in COUNTS:
            lists = Lists(count)
            tables = list(made(lists))
            for place, some in enumerate((tables, *with_mistakes(lists, tables))):
                yield f"{made.__name__}, {count}, {place}", image_with(lists, some)


# ---- what all commands answer


def expected(image):
    """The words of each command on a set, and the answer of the second programs."""
    judgement, lines = Judgement(image, RSDP_AT, Policy()), lint_lines(image, RSDP_AT, Policy())
    fault, text = judgement.verdict(), shown(image, RSDP_AT)
    verdict = answer("yes" if fault is None else f"no {fault}")
    yield ["check"], verdict
    yield ["lint"], (verdict[0], "".join(f"{line}\n" for line in lines), "")
    yield ["show"], (0, text, "")
    yield ["show", "--anyway"], (0, shown_anyway(image, RSDP_AT)[0], "")
    yield ["rebuild", "--base", f"{BASE:x}"], verdict if fault else (0, rebuilt(image, RSDP_AT, BASE), "")
    for asked in (fault, Fault("GsiNowhere", 44, 0, 5), Fault("DanglingParent", 36, 60, 0)):
        if asked:
            yield ["confirm", "--witness", str(asked)], answer("true" if judgement.has(asked) else "false")


def compared(cases, name, pieces):
    """What differs on a set, command by command."""
    text = text_of(pieces)
    for words, wanted in expected(read(text)):
        found = cases.run([words[0], "--rsdp", f"{RSDP_AT:x}", *words[1:]], text)
        yield f"{name}: {' '.join(words)}", "" if found == wanted else difference(found, wanted)


def difference(found, wanted):
    """The first line that differs."""
    lines = [(one, other) for one, other in zip(found[1].splitlines(), wanted[1].splitlines()) if one != other]
    return f"{found[0]}, {found[2]!r} and {lines[:1] or len(found[1])}, not {wanted[0]}, {wanted[2]!r} and {len(wanted[1])} bytes"


def unsorted(cases):
    cases.in_parallel(lambda it: compared(cases, *it), small_sets())


def largest(cases):
    """The answers that a clean set has, and a line of `show` for each slot and entry, also of the set that is rebuilt."""
    for made in SETS:
        name = f"{made.__name__}, {MOST}"
        few, own = clean_set(made, COUNTS[0])
        others = len(shown(read(text_of(few)), RSDP_AT).splitlines()) - own
        pieces, own = clean_set(made, MOST)
        text = text_of(pieces)
        cases.writes(f"{name}: check", f"check --rsdp {RSDP_AT:x}", text, ["yes"])
        cases.same(f"{name}: lint", cases.run(f"lint --rsdp {RSDP_AT:x}", text)[1].splitlines()[:1], ["yes"])
        cases.same(f"{name}: confirm", cases.run(["confirm", "--witness", "18 LeafUnknown 0x24 0x0 0x0"], text), answer("false"))
        status, rebuilt_text, _ = cases.run(f"rebuild --rsdp {RSDP_AT:x} --base {BASE:x}", text)
        cases.same(f"{name}: rebuild", status, 0)
        for words, what in ((f"show --rsdp {RSDP_AT:x}", text), (f"show --rsdp {BASE:x}", rebuilt_text.encode())):
            lines = cases.run(words, what)[1]
            cases.same(f"{name}: {words}", len(lines.splitlines()), own + others)
            cases.same(f"{name}: {words} --anyway", cases.run(f"{words} --anyway", what), (0, f"yes\n{lines}", ""))


main("unsorted", unsorted, largest)
