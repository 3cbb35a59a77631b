#!/usr/bin/env python3
"""Runs the tools that make image text, reports and pages on small files, and the built program on what they make.

usage: run.py PROGRAM; the last line is 'tools: N passed, M failed'."""

import os
import sys
import tempfile
from pathlib import Path

sys.path.insert(0, str(Path(__file__).resolve().parents[1]))

import dumped_texts
import files
import memory_dumps
import other_forms
import pages
import raw_tables
import reports
import told_addresses
from acpi_images.program import finish
from tool_cases import ToolCases


def main():
    _, program = sys.argv
    # A folder whose name has blanks, as a user's may.
    with tempfile.TemporaryDirectory(prefix="acpiset tools ") as folder:
        cases = ToolCases(os.path.abspath(program), folder)
        cases.put_on_path()
        files.write_into(folder)
        for part in (raw_tables, dumped_texts, memory_dumps, other_forms, told_addresses, reports, pages):
            part.all_cases(cases)
    finish("tools", cases)


main()
