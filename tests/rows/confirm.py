#!/usr/bin/env python3
"""Has the built program confirm faults, those of known/confirmed.py of tests/acpi_images, and then some of long chains.

usage: confirm.py PROGRAM; the last line is 'confirm: N passed, M failed'."""

import sys
from pathlib import Path

sys.path.insert(0, str(Path(__file__).resolve().parents[1]))

from acpi_images.faults import Fault
from acpi_images.generated.chains import long_chains
from acpi_images.known.confirmed import ALSO, all_questions
from acpi_images.program import answer, main
from acpi_images.tables import *
from acpi_images.text import text_of


def confirmed(cases):
    questions = all_questions()
    texts = {id(it.pieces): text_of(it.pieces) for it in questions}

    def told(it):
        found, due = cases.run(["confirm", "--witness", it.witness, *it.words], texts[id(it.pieces)]), answer(it.answer, texts[id(it.pieces)])
        yield f"{it.name}: {it.witness} {it.words}", "" if found == due else f"{found}, not {due}"

    cases.in_parallel(told, questions)
    # each fault of the list above is one that was asked
    true = {(it.name, it.witness) for it in questions if it.answer == "true"}
    for name, witness in ((name, witness) for name, also in ALSO.items() for witness in also):
        if (name, witness) not in true:
            cases.count(name, f"{witness} is not one away")


# ---- long chains


def on_a_chain(cases, name, body, fault, numbers):
    """The answers to the witness and to two that are one step off."""
    text = text_of(listed(others={0x100000: pptt(body)}, slots=[TABLES_AT, 0x100000]))
    at, lead, around = numbers
    for asked, due in ((numbers, "true"), ((at, lead, around - 1), "false"), ((at + 2, lead, around), "false")):
        witness = str(Fault(fault, *asked))
        cases.same(f"{name}: {witness}", cases.run(["confirm", "--witness", witness, "--rsdp", "e0000"], text), answer(due))


def on_long_chains(cases):
    """The chains one after another."""
    for chain in long_chains():
        on_a_chain(cases, *chain)


main("confirm", confirmed, on_long_chains)
