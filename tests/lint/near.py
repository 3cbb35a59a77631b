#!/usr/bin/env python3
"""Compares what the built program's `lint` writes with what a second program writes (advice.py of tests/acpi_images), on sets near the
edges of the rules that are rows (generated/near.py): on each STEP-th of them, or with --all on all, which takes half an hour. Some of
them break each of these rules, and some do not.

usage: near.py PROGRAM [--all]; the last line is 'near sets: N passed, M failed'."""

from __future__ import annotations

import re
import sys
from collections import Counter
from pathlib import Path

TOP = Path(__file__).resolve().parents[2]
sys.path.insert(0, str(TOP / "tests"))

from acpi_images.advice import lint_lines, lint_status
from acpi_images.generated.near import near_sets
from acpi_images.program import Cases, finish
from acpi_images.table_set import Policy
from acpi_images.tables import RSDP_AT, RSDT_AT, TABLES_AT, rsdp, rsdt
from acpi_images.text import read, text_of

STEP = 41
ROWS = "\n".join(path.read_text() for path in sorted((TOP / "crates" / "acpi_lint" / "src" / "rows").glob("*.rt")))
# The rules that are rows, by their names.
RULES = sorted(set(re.findall(r"rule!\(\d+ (\w+)", ROWS)))


def text_with(tables):
    """The text of a set with these tables, and no others."""
    listed = {TABLES_AT + 0x1000 * index: data for index, data in enumerate(tables)}
    return text_of({RSDP_AT: rsdp(), RSDT_AT: rsdt(*listed), **listed})


def compared(cases, broken, tables):
    """The name of a set, and what is wrong with the program's lines on it. Counts the rules that it breaks."""
    text = text_with(tables)
    lines = lint_lines(read(text), RSDP_AT, Policy())
    status, out, _ = cases.run(["lint", "--rsdp", f"{RSDP_AT:x}"], text)
    broken.update(line.split()[1] for line in lines if line.startswith("advice "))
    is_right = (status, out.splitlines()) == (lint_status(lines), lines)
    yield " ".join(it.hex() for it in tables), "" if is_right else f"{status} {out.splitlines()}, not {lines}"


def main():
    program, *options = sys.argv[1:]
    cases = Cases(program)
    broken = Counter()
    sets = near_sets()[:: 1 if options == ["--all"] else STEP]
    cases.in_parallel(lambda tables: compared(cases, broken, tables), sets)
    for name in RULES:
        cases.count(name, "" if 0 < broken[name] < len(sets) else f"broken in {broken[name]} of {len(sets)} sets")
    finish("near sets", cases)


if __name__ == "__main__":
    main()
