#!/usr/bin/env python3
"""Runs the built program on the rows: the line, the status, and nothing but a hint on standard error.

usage: run.py PROGRAM; the last line is 'rows: N passed, M failed'."""

import sys
from pathlib import Path

sys.path.insert(0, str(Path(__file__).resolve().parents[1]))

from acpi_images.known.many import MANY
from acpi_images.known.rows import ROWS
from acpi_images.program import main


def rows(cases):
    for row in [*ROWS, *MANY]:
        cases.writes(row.name, row.words, row.pieces, [row.answer])


main("rows", rows)
