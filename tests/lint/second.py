#!/usr/bin/env python3
"""Compares the second program of `lint` (advice.py of tests/acpi_images) with lines written by hand (known/linted.py, known/mistakes.py
and those of known/one_rule.py), and runs it on every set of the other tests and on images, on none of which it may fail. Each rule
has a set that breaks it and one that keeps it. It needs no built program.

usage: second.py [DIRECTORY].., with further images; the last line is 'second: N passed, M failed'."""

from __future__ import annotations

import gzip
import sys
from collections import Counter
from pathlib import Path

sys.path.insert(0, str(Path(__file__).resolve().parents[1]))

from acpi_images.advice import RULES, linted
from acpi_images.known.one_rule import ONE_RULE
from acpi_images.program import FIRMWARE, IMAGES, Cases, finish
from acpi_images.text import Refused, read
from sets import Case, by_hand, of_other_tests


def rules_of(lines):
    """The rules that lines of advice are on."""
    return {line.split()[1] for line in lines if line.startswith("advice ")}


def compared(cases):
    """The sets with lines written by hand."""
    broken, kept = set(), set()
    others = set(RULES) - {it.rule for it in ONE_RULE}
    for case in by_hand():
        lines, _ = linted(case.words, read(case.text))
        for wrong in case.differences(lines):
            cases.count(case.name, wrong)
        told = rules_of(case.lines or [case.line])
        broken |= told
        # the sets with all their lines are about the other rules
        kept |= ({case.rule} if case.rule else others) - told
    for name in RULES:
        cases.count(name, "" if name in broken else "no set where it is broken")
        cases.count(name, "" if name in kept else "no set where it is kept")
    for name in (broken | kept) - set(RULES):
        cases.count(name, "no rule")


def images_of(directory):
    """The images of a directory, each with its words."""
    for path in sorted(Path(directory).glob("*.img.txt*")):
        name = path.name.partition(".")[0]
        text = gzip.decompress(path.read_bytes()) if path.suffix == ".gz" else path.read_bytes()
        yield Case(path.name, text, ["--rsdp", IMAGES[name]] if name in IMAGES else [])


def all_run(cases, sets):
    """Nothing fails on these sets. Gives how many of them break each rule."""
    seen = Counter()
    for case in sets:
        try:
            lines, _ = linted(case.words, read(case.text))
        except Refused:
            continue
        except Exception as wrong:
            cases.count(case.name, f"{type(wrong).__name__}: {wrong}")
            continue
        cases.count(case.name, "")
        seen.update(rules_of(lines))
    return seen


def main(directories):
    cases = Cases(program=None)
    compared(cases)
    all_run(cases, of_other_tests())
    for directory in (FIRMWARE, *directories):
        seen = all_run(cases, images_of(directory))
        print(f"{directory}:", ", ".join(f"{name} {seen[name]}" for name in RULES if seen[name]) or "none")
    finish("second", cases)


main(sys.argv[1:])
