"""The sets on which `lint` is tested: those with lines written by hand, all of them or that of one rule, those of the other tests, and
images of real firmware."""

from __future__ import annotations

import random
from dataclasses import dataclass

from acpi_images.known.judged import JUDGED
from acpi_images.known.linted import EXPECTED
from acpi_images.known.many import MANY
from acpi_images.known.mistakes import MISTAKES, UNCHANGED
from acpi_images.known.one_rule import ALL_LINES, ONE_RULE
from acpi_images.known.rows import ROWS, words_of
from acpi_images.known.shown import SHOWN
from acpi_images.program import IMAGES, firmware_text
from acpi_images.tables import *
from acpi_images.text import text_of
from large import advised, text_with

AT_SEED = ["--rsdp", "e0000"]


@dataclass
class Case:
    """An image text and the words after `lint`, and what is written by hand of it: all its lines, or None; of one rule its line, or an
    empty text where the set keeps it; the line of `check`, or None if it is to be asked for."""

    name: str
    text: bytes
    words: list[str]
    lines: list[str] | None = None
    rule: str | None = None
    line: str = ""
    checked: str | None = None

    def differences(self, lines):
        """What is wrong with these lines, one text for each thing that is written by hand."""
        if self.lines is not None:
            yield "" if lines == self.lines else f"judged {lines}, not {self.lines}"
        if self.rule is not None:
            told = [line for line in lines if line.startswith(f"advice {self.rule} ")]
            yield "" if told == [self.line] * bool(self.line) else f"judged {told} by {self.rule}, not '{self.line}'"


def by_hand():
    """Sets of which lines are written by hand."""
    for it in EXPECTED:
        yield Case(it.name, text_of(it.pieces), it.words.split(), it.lines)
    for it in MISTAKES:
        yield Case(it.name, text_of(it.pieces()), it.words.split(), it.lines)
    for name, words, lines in UNCHANGED:
        yield Case(f"{name} {words}", firmware_text(name), f"--rsdp {IMAGES[name]} {words}".split(), lines)
    for it in ONE_RULE:
        yield Case(f"{it.rule}, {it.name}", text_of(it.pieces), it.words.split(), rule=it.rule, line=it.line or "")
    for name, pieces, lines in ALL_LINES:
        yield Case(name, text_of(pieces), AT_SEED, lines)
    for count in range(18, 24):
        yield from of_few(count)


def of_few(count):
    """So many entries, of which `lint` looks for numbers that occur twice: the sort has one way for up to 20 of them, and one for more."""
    order = random.Random(count).sample(range(count), count)
    apics = [x2apic(1000 + place, 2000 + place) for place in order]
    last = f"{44 + 16 * (count - 1):#x} 0x2c"
    again = advised(f"SameUid {last} {1000 + order[0]:#x}", f"SameApicId {last} {2000 + order[0]:#x}")
    overrides = [override(place % 16, place % 16) for place in range(count - 1)]
    before, last = (lapic(0, 0), io_apic(0xFEC00000, 0)), f"{64 + 10 * (count - 1):#x}"
    two = advised(f"OverridePastIsa {last} 0x13 0x3", f"TwoSourcesOneGsi {last} {64 + 10 * 3:#x} 0x3")
    for name, tables, lines in (
        ("x2APICs in no order", apics, advised()),
        ("x2APICs, the last like the first", [*apics[:-1], apics[0]], again),
        ("overrides", [*before, *overrides, override(0, 0)], advised()),
        ("overrides, the last to a number of another source", [*before, *overrides, override(19, 3)], two),
    ):
        yield Case(f"{count} {name}", text_with(revised(madt(*tables), 6)), AT_SEED, lines)


def of_row(row):
    """A row, checked through all stages. What `find` answers says nothing of the set."""
    checked = None if row.words.startswith("find") or "--through" in row.words else row.answer
    return Case(row.name, text_of(row.pieces), words_of(row), checked=checked)


def of_other_tests():
    yield from map(of_row, (*ROWS, *MANY))
    for name, pieces, words, _ in JUDGED:
        yield Case(name, text_of(pieces), [*AT_SEED, *words.split()])
    for it in SHOWN:
        yield Case(it.name, text_of(it.pieces), it.words.split())
