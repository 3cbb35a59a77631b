"""Which table a rule on one kind of tables reads: the first one that a slot of the root lists, where all of it is there, whatever it sums
to."""

from __future__ import annotations

from . import further
from ..tables import *
from ..text import TOP

# Where other tables are that a rule reads too.
BESIDE_AT = 0x8000


class OneTable:
    """A rule on one kind of tables, of which these are the numbers of a finding, and what is beside such a table."""

    def __init__(self, rule, numbers, beside, sets):
        self.rule, self.numbers, self.sets = rule, numbers, sets
        self.others = {BESIDE_AT + 0x1000 * place: data for place, data in enumerate(beside)}

    def listing(self, *tables, slots=None, more=()):
        """A FADT at 0x2000, these tables from 0x3000 on, and the others."""
        slots = [0x2000, *(0x3000 + 0x1000 * place for place in range(len(tables)))] if slots is None else slots
        return listed(*tables, slots=[*slots, *self.others], others={**self.others, **dict(more)})

    def broken(self, name, pieces):
        further.broken(self.rule, self.numbers, name, pieces, sets=self.sets)

    def kept(self, name, pieces):
        further.kept(self.rule, name, pieces, sets=self.sets)


def which_table(rule, numbers, wrong, right, beside=(), sets=further.FURTHER):
    """Sets with a table that breaks a rule, of which these are the numbers, and with one that keeps it."""
    table = OneTable(rule, numbers, beside, sets)
    which_slot(table, wrong, right)
    which_bytes(table, wrong, right)
    of_the_xsdt(table, wrong, right)
    of_the_rsdt(table, wrong)


def which_slot(table, wrong, right):
    """One of several tables, by the slots that list them."""
    listing, broken, kept = table.listing, table.broken, table.kept
    kept("a valid table", listing(right))
    broken("one table", listing(wrong))
    broken("a table that does not sum to 0", listing(changed(wrong, {9: wrong[9] ^ 1})))
    broken("two tables, the first of which is wrong", listing(wrong, right))
    kept("two tables, the second of which is wrong", listing(right, wrong))
    broken("one table in two slots", listing(wrong, slots=(0x2000, 0x3000, 0x3000)))
    broken("a wrong table at the higher address, which is the first", listing(right, wrong, slots=(0x2000, 0x4000, 0x3000)))
    kept("a wrong table at the lower address, which is the second", listing(wrong, right, slots=(0x2000, 0x4000, 0x3000)))
    kept("a table that no slot lists", listing(more={0x3000: wrong}))
    kept("a table after slots that list a valid one twice", listing(right, wrong, slots=(0x2000, 0x3000, 0x3000, 0x4000)))
    broken("slots of 0", listing(wrong, slots=(0, 0x3000, 0)))


def which_bytes(table, wrong, right):
    """Of which all bytes are there, by the header."""
    listing, broken, kept = table.listing, table.broken, table.kept
    kept("a table without its last byte", listing(wrong[:-1]))
    kept("a table without its last byte, before one that is complete", listing(wrong[:-1], wrong))
    kept("a header alone", listing(changed(wrong, {4: 37})[:36]))
    broken("35 bytes of a header, before a table", listing(right[:35], wrong))
    broken("a table of another signature, before it", listing(changed(right, {3: ord("X")}), wrong))
    kept("a table of another signature", listing(changed(wrong, {3: ord("X")})))
    for short in (0, 1, 35):
        length = changed(wrong, dict(enumerate(number(short, 4), 4)))
        kept(f"a Length of {short}", listing(length))
        kept(f"a Length of {short}, before a table", listing(length, wrong))
    kept("a Length of 2^32 - 1", listing(wrong[:4] + b"\xff" * 4 + wrong[8:]))
    broken("bytes after the table", listing(wrong + b"\xff" * 64))


def of_the_xsdt(table, wrong, right):
    """Which root table lists it, where both are there."""
    broken, kept, others = table.broken, table.kept, table.others
    by_xsdt = {
        RSDP_AT: extended_rsdp(), XSDT_AT: xsdt(0x2000, 0x3000, *others), RSDT_AT: rsdt(0x2000, 0x4000, *others), 0x2000: fadt(), **others,
    }
    broken("a table that the XSDT lists", {**by_xsdt, 0x3000: wrong, 0x4000: right})
    kept("a table that the RSDT alone lists", {**by_xsdt, 0x3000: right, 0x4000: wrong})
    cut_xsdt = {**by_xsdt, XSDT_AT: by_xsdt[XSDT_AT][:-1], RSDT_AT: rsdt(0x2000, 0x3000, *others)}
    kept("an XSDT of which the last byte is not present, and an RSDT", {**cut_xsdt, 0x3000: wrong})
    broken("an RSDT, and no XSDT", {**cut_xsdt, RSDP_AT: extended_rsdp(0), 0x3000: wrong})
    highest = TOP - len(wrong)
    broken("a table that ends with the last address", {**by_xsdt, XSDT_AT: xsdt(0x2000, highest, *others), highest: wrong})


def of_the_rsdt(table, wrong):
    """An RSDT that lists it, and no XSDT."""
    broken, kept, others = table.broken, table.kept, table.others
    root = rsdt(0x3000, *others)
    for name, other_root in (
        ("an RSDT of which the last byte is not present", root[:-1]), ("an RSDT of another signature", changed(root, {0: ord("X")})),
        ("an RSDT of 35 bytes", changed(root, {4: 35})), ("three bytes of a slot", changed(root, {4: 39})),
    ):
        kept(name, {RSDP_AT: rsdp(), RSDT_AT: other_root, 0x3000: wrong, **others})
    broken("an RSDT that does not sum to 0", {RSDP_AT: rsdp(), RSDT_AT: changed(root, {9: 0}), 0x3000: wrong, **others})
    broken("no FADT", {RSDP_AT: rsdp(), RSDT_AT: root, 0x3000: wrong, **others})
