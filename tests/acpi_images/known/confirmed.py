"""Faults that `confirm` is asked about, with the answers: each fault that a row reports is confirmed, and none that differs from it by
one in one number, save those that the definition takes too. Other faults, true and false, follow. The answers are worked out by hand,
but for those on small tables of entries in random order."""

from __future__ import annotations

from dataclasses import dataclass

from ..generated.chains import small_questions
from ..tables import *
from .judged import JUDGED
from .rows import (
    BOTH_KINDS, CHAIN, FULL, OVERLAP, RING, ROWS, SMALLEST, TWO_IO_APICS, TWO_SRATS, TWO_WINDOWS, WINDOW, two_domains, words_of,
)

# What the definition takes too, worked out by hand for each row: the faults that are one away from the reported one, by
# the row's name.
BOTH_GPE_LENGTHS = "both lengths of a GPE block are odd"
BOTH_SERVE = "both I/O APICs serve the next number too"
BOTH_COVER = "both ranges cover the next address too"
ONE_STEP_MORE = "one step further on around the cycle, within the bound"
TWICE_AROUND = "twice around a cycle of one, within the bound"
ALSO = {
    "the piece at 2000 with 92: 01, 93: 01, sums ((9, 116),)": {"4 GpeLength 0x5d 0x0 0x0": BOTH_GPE_LENGTHS},
    "a table without a sum in two slots": {"3 TableSum 0x2 0x3000 0x0": "the next slot lists the same table"},
    "two I/O APICs, the first one with 32 inputs": {"7 GsiClash 0x2c 0x38 0x19": BOTH_SERVE},
    "the first count of an address is used": {"7 GsiClash 0x2c 0x38 0x19": BOTH_SERVE},
    "I/O APICs from (100, 0, 110) on": {"7 GsiClash 0x2c 0x44 0x6f": BOTH_SERVE},
    "I/O APICs from (10, 8, 9) on": {"7 GsiClash 0x38 0x44 0xa": BOTH_SERVE},
    "I/O APICs from (5, 5, 5) on": {"7 GsiClash 0x2c 0x38 0x6": BOTH_SERVE},
    "I/O APICs from (20, 20, 0) on": {"7 GsiClash 0x44 0x2c 0x15": BOTH_SERVE},
    "the least address of three overlaps": {"10 Overlap 0x58 0x30 0x1001": BOTH_COVER},
    "a range inside the first, after another": {"10 Overlap 0x30 0x80 0x9": BOTH_COVER},
    "a hot-plug window over another, apart": {"10 Overlap 0x58 0x80 0x80000001": BOTH_COVER},
    "overlaps of both kinds at one address, apart": {"10 Overlap 0x80 0xa8 0x1": BOTH_COVER},
    # the bound is Length / 20, rounded down: 2, 6, 3, 3, 3 and 1,001
    "a node that is its own parent": {"14 ParentCycle 0x24 0x1 0x1": ONE_STEP_MORE, "14 ParentCycle 0x24 0x0 0x2": TWICE_AROUND},
    "two nodes that lead to a cycle of three": {"14 ParentCycle 0x24 0x3 0x3": ONE_STEP_MORE},
    "two nodes that are each other's parents": {"14 ParentCycle 0x24 0x1 0x2": ONE_STEP_MORE},
    "a node under one that is its own parent": {"14 ParentCycle 0x24 0x2 0x1": ONE_STEP_MORE, "14 ParentCycle 0x24 0x1 0x2": TWICE_AROUND},
    "the second node is its own parent": {"14 ParentCycle 0x38 0x1 0x1": ONE_STEP_MORE, "14 ParentCycle 0x38 0x0 0x2": TWICE_AROUND},
    "a ring of 1,000 nodes": {"14 ParentCycle 0x24 0x1 0x3e8": ONE_STEP_MORE},
    # the bound is Length / 24, rounded down: 4 and 2
    "a cache that leads to a cycle of two": {"15 CacheCycle 0x24 0x2 0x2": ONE_STEP_MORE},
    "a cache that is its own next level": {"15 CacheCycle 0x24 0x1 0x1": ONE_STEP_MORE, "15 CacheCycle 0x24 0x0 0x2": TWICE_AROUND},
}
for window in ("a hot-plug window over a range", "a hot-plug window over another", "overlaps of both kinds at one address"):
    for setting in ("all counted", "counted"):
        ALSO[f"{window}, {setting}"] = {"10 Overlap 0x30 0x58 0x1": BOTH_COVER}

# The faults whose two offsets may be in either order.
UNORDERED = ("GsiClash", "Overlap")


@dataclass
class Question:
    name: str
    pieces: dict | bytes
    words: list
    witness: str
    answer: str


def written(stage, name, numbers):
    return " ".join((stage, name, *map(hex, numbers)))


def near(witness):
    """The faults that differ from this one by one in one number."""
    stage, name, *texts = witness.split()
    numbers = [int(text, 16) for text in texts]
    for place, value in enumerate(numbers):
        for other in (value - 1, value + 1):
            if 0 <= other < 2**64:
                yield written(stage, name, [*numbers[:place], other, *numbers[place + 1 :]])


def questions_of(row):
    """What is asked on a row that reports a fault."""
    witness = row.answer.removeprefix("no ")
    words = words_of(row)
    also = ALSO.get(row.name, {})
    yield Question(row.name, row.pieces, words, witness, "true")
    for other in near(witness):
        yield Question(row.name, row.pieces, words, other, "true" if other in also else "false")
    stage, name, at, other, point = witness.split()
    if name in UNORDERED:
        yield Question(row.name, row.pieces, words, f"{stage} {name} {other} {at} {point}", "true")
        yield Question(row.name, row.pieces, words, f"{stage} {name} {at} {at} {point}", "false")


# ---- other faults
ASKED = []


def asked(name, pieces, witness, answer, words="--rsdp e0000"):
    ASKED.append(Question(name, pieces, words.split(), witness, answer))


asked("no RSDP to start from", b"", "1 RsdpOut 0xe0000 0x0 0x0", "no rsdp", "")
asked("the RSDP found", SMALLEST, "4 NoFadt 0x0 0x0 0x0", "true", "")
asked("an RSDP at another address", SMALLEST, "1 RsdpOut 0x1000 0x0 0x0", "false")
asked("a number that is not used", SMALLEST, "4 NoFadt 0x0 0x0 0x1", "false")
asked("a fault of a valid set", FULL, "5 FacsAlign 0x7000 0x0 0x0", "false")
asked("the last number that both serve", TWO_IO_APICS, "7 GsiClash 0x38 0x2c 0x1f", "true", "--rsdp e0000 fec00000=32")
asked("a number that one serves", TWO_IO_APICS, "7 GsiClash 0x38 0x2c 0x20", "false", "--rsdp e0000 fec00000=32")
asked("a clash under other counts", TWO_IO_APICS, "7 GsiClash 0x2c 0x38 0x18", "false")
asked("a default of 25 inputs", TWO_IO_APICS, "7 GsiClash 0x2c 0x38 0x18", "true", "--rsdp e0000 --default-inputs 25")
asked("an address that one range covers", OVERLAP, "10 Overlap 0x80 0xa8 0x40000000", "false")
asked("an overlap of the second SRAT", TWO_SRATS, "10 Overlap 0x30 0x58 0x0", "false")
asked("a window over a range, counted", WINDOW, "10 Overlap 0x30 0x58 0x0", "true")
asked("a window over a range, apart", WINDOW, "10 Overlap 0x30 0x58 0x0", "false", "--rsdp e0000 --hotplug apart")
asked("two windows, counted", TWO_WINDOWS, "10 Overlap 0x58 0x80 0x80000000", "true", "--rsdp e0000 --hotplug counted")
asked("a later overlap, apart", BOTH_KINDS, "10 Overlap 0x30 0x58 0xfff", "true", "--rsdp e0000 --hotplug apart")
LATER = "16 TwoDomains 0x40 0x30 0x5"
asked("a processor that may be enabled, usable", two_domains(0b10), LATER, "true", "--rsdp e0000 --processors usable")
asked("a processor that may be enabled, enabled", two_domains(0b10), LATER, "false", "--rsdp e0000 --processors enabled")
asked("the two entries exchanged", two_domains(0b01), "16 TwoDomains 0x30 0x40 0x5", "false")
asked("a later fault of a set without a FADT", image_of(srat(memory(0, 2), memory(1, 2))), "10 Overlap 0x30 0x58 0x1", "true")
UNSUMMED = changed(srat(memory(0, 2), memory(1, 2)), {9: 0})
asked("an overlap in an SRAT that does not sum to 0", listed(UNSUMMED), "10 Overlap 0x30 0x58 0x1", "true")
TOP = hex(2**64 - 1)
for lead, round_, due in (
    ("0x1", "0x3e8", "true"),
    ("0x2", "0x3e8", "false"),
    ("0x0", "0x7d0", "false"),
    ("0x0", "0x0", "false"),
    (TOP, "0x1", "false"),
    ("0x1", TOP, "false"),
    (TOP, TOP, "false"),
):
    asked(f"a ring, {lead} {round_}", RING, f"14 ParentCycle 0x24 {lead} {round_}", due)
asked("a ring, from its last node", RING, f"14 ParentCycle {36 + 20 * 999:#x} 0x0 0x3e8", "true")
asked("a chain that ends", listed(pptt(*CHAIN, node())), "14 ParentCycle 0x24 0x0 0x3e8", "false")
# Length / 24 is 5, and Length / 20 is 6: each kind of entry has its own bound
FIVE = listed(pptt(node(36), *[node()] * 4))
asked("as many steps as nodes fit", FIVE, "14 ParentCycle 0x24 0x5 0x1", "true")
asked("more steps than nodes fit", FIVE, "14 ParentCycle 0x24 0x6 0x1", "false")
FOUR = listed(pptt(cache(36, 28), *[cache()] * 3))
asked("as many steps as caches fit", FOUR, "15 CacheCycle 0x24 0x4 0x1", "true")
asked("more steps than caches fit, and not more than nodes would", FOUR, "15 CacheCycle 0x24 0x5 0x1", "false")
asked("a cycle of caches is none of nodes", FOUR, "14 ParentCycle 0x24 0x0 0x1", "false")
THREE = listed(madt(*[lapic_address(0)] * 3))
asked("the second of three addresses", THREE, "6 SecondAddressOverride 0x44 0x38 0x0", "true")
asked("an address before the other", THREE, "6 SecondAddressOverride 0x38 0x44 0x0", "false")
for at, due in ((TOP, "false"), ("0x100000000", "false"), ("0x2c", "true")):
    asked(f"an entry at {at}", listed(madt(override(9, 9, bus=1))), f"6 OverrideBus {at} 0x0 0x0", due)
# inside the entry of the unknown type is what looks like an override of another bus
INSIDE = listed(madt(bytes([11, 12]) + override(9, 9, bus=1)))
asked("an entry inside another", INSIDE, "6 OverrideBus 0x2e 0x0 0x0", "false")

for name, pieces, words, rows in JUDGED:
    for kind, *numbers, is_fault in rows:
        asked(name, pieces, written(*kind.split(), numbers), "true" if is_fault else "false", f"--rsdp e0000 {words}")


for name, pieces, witness, is_fault in small_questions():
    asked(name, pieces, witness, "true" if is_fault else "false")


def all_questions():
    """What is asked on each row that reports a fault, and the rest."""
    faulty = [row for row in ROWS if row.answer.startswith("no ") and row.answer != "no rsdp"]
    return [question for row in faulty for question in questions_of(row)] + ASKED
