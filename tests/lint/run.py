#!/usr/bin/env python3
"""Runs the built program's `lint`. Its lines are compared with lines written by hand (known/linted.py, known/mistakes.py and
those of known/one_rule.py, of tests/acpi_images), and on every set of the other tests and on the images of real firmware with those of a
second program (advice.py). Each fault that it reports is confirmed, and that of `check` is among them.

usage: run.py PROGRAM; the last line is 'lint: N passed, M failed'."""

from __future__ import annotations

import subprocess
import sys
from pathlib import Path

sys.path.insert(0, str(Path(__file__).resolve().parents[1]))

from acpi_images.advice import NO_RSDP, RULES, linted, lint_status
from acpi_images.faults import STAGE_OF
from acpi_images.known.judged import JUDGED
from acpi_images.known.linted import EXPECTED
from acpi_images.known.mistakes import MISTAKES, UNCHANGED
from acpi_images.program import beside, firmware_text, main, refusal
from acpi_images.text import read, text_of
from sets import AT_SEED, by_hand, of_other_tests

# Cases that are run with --strict too, by their names, and the status.
STRICT = {
    "nothing": 1,
    "a set that lists nothing": 1,
    "two UIDs and two APIC IDs": 0,
    "one UID twice": 1,
    "a SLIT of no localities": 0,
    "a fault in each of four tables": 1,
    "a cache of no sets": 1,
    "entries of types 13 to 16": 1,
}
# Cases that are run with rules that are allowed, by their names: what is given to --allow, and the status with --strict.
ALLOWED = {
    "a SLIT of no localities": [("ListedTwice", 0)],
    "one UID twice": [("SameUid", 0), ("SameUid,SameUid", 0), ("SameLeaf", 1)],
    "one UID and one APIC ID, at two places": [
        ("SameUid", 1), ("SameApicId", 1), ("SameApicId,SameUid", 0), ("SameUid,SameApicId,SameUid", 0), ("SameLeaf,NoDsdt", 1),
        (",".join(RULES), 0),
    ],
    "a fault in each of four tables": [(",".join(RULES), 1)],
    "a root that does not sum to 0 is read": [("ListedTwice", 1)],
    "nothing": [("SameUid", 1)],
}
ALL_RULES = "33 faults, and each of the first rules of advice but NoProcessor"
# Words that are refused, and texts that are no image, with what is reported of them.
REFUSED = (
    "--through 3", "--witness 1", "--base 0", "--hotplug all", "--processors all", "0=257", "--default-inputs 0", "--rsdp x", "--strict=1",
    "--allow",
)
# What --allow refuses, and commands that do not have it.
NO_RULES = (
    "", ",", "ListedTwice,", ",ListedTwice", "ListedTwice,,NullSlot", "listedtwice", "LISTEDTWICE", "ListedTwice,nullslot", "Listed",
    "ListedTwices", "ListedTwice NullSlot", " ListedTwice", "ListedTwice ", "ListedTwice, NullSlot", "ListedTwice;NullSlot", "101", "184",
    "0", "all", "*", "advice", "advice ListedTwice", "no", "yes", "ListedTwice,Overlap",
)
WITHOUT_ALLOW = ("check", "find", "show", "confirm --witness 0", "rebuild --base 0")
NO_IMAGE = {b"@0\n1\n": "line 2: bad line", b"01\n": "line 1: no address", b"@0\n01\n@0\n01\n": "address 0x0 twice"}
SEEN_BY_CHECK, ALL_MISTAKES = 11, 122


# ---- what is wrong with the program's answers


def linted_sets(cases):
    cases.in_parallel(lambda case: ((case.name, wrong) for wrong in lints(cases, case)), [*by_hand(), *of_other_tests()])


def lints(cases, case):
    """What is wrong with the program on this case, one text for each thing that was asked."""
    lines, _ = linted(case.words, read(case.text))
    yield from case.differences(lines)
    told = cases.run(["lint", *case.words], case.text)
    text = "".join(line + "\n" for line in lines)
    right = (lint_status(lines), text, beside(text, case.text))
    yield "" if told == right else f"{case.words}: {told}, not {right}"
    checked = case.checked or cases.run(["check", *case.words], case.text)[1].removesuffix("\n")
    faults = [line for line in lines if not line.startswith("advice ")]
    yield "" if checked in faults else f"checked {checked}, which is none of {faults}"
    if lines != NO_RSDP:
        for witness in [line.removeprefix("no ") for line in lines if line.startswith("no ")]:
            told = cases.run(["confirm", "--witness", witness, *case.words], case.text)
            yield "" if told == (0, "true\n", "") else f"{witness} is not confirmed: {told}"


def strict(cases):
    """With --strict advice makes the status 1, and no line differs."""
    known = {it.name: it for it in EXPECTED}
    for name, status in STRICT.items():
        it = known[name]
        cases.writes(f"{name}, strict", f"lint {it.words} --strict", it.pieces, it.lines, status)


def allowed(cases):
    """Lines on rules that are allowed are not written and do not count, and all others are as without --allow."""
    known = {it.name: it for it in EXPECTED}
    for name, rows in ALLOWED.items():
        for rules, status in rows:
            it, words = known[name], ["--allow", rules, "--strict"]
            lines, judged = linted([*it.words.split(), *words], read(text_of(it.pieces)))
            cases.same(f"{name}, {rules[:60]} allowed, judged", judged, status)
            cases.writes(f"{name}, {rules[:60]} allowed", ["lint", *it.words.split(), *words], it.pieces, lines, status)
    it = known[ALL_RULES]
    for rule in RULES:
        lines = [line for line in it.lines if not line.startswith(f"advice {rule} ")]
        cases.writes(f"{rule} allowed", f"lint --allow={rule} {it.words}", it.pieces, lines)


def refused(cases):
    """Words and texts that are refused, and a device that takes nothing."""
    clean = firmware_text("sb-q35-default")
    lines = [["lint", *words.split()] for words in REFUSED]
    lines += [["lint", "--allow", rules] for rules in (*NO_RULES, *STAGE_OF)]
    lines += [["lint", "--allow", "SameUid", "--allow", rules] for rules in ("SameUid", "SameLeaf")]
    lines += [[*command.split(), "--allow", "SameUid"] for command in WITHOUT_ALLOW]
    for words in lines:
        status, told, complaint = cases.run(words, clean)
        right = status == 2 and told == "" and complaint.startswith("acpiset: ")
        cases.count(" ".join(words), "" if right else f"{status}, {told}, {complaint}")
    for text, complaint in NO_IMAGE.items():
        cases.same(complaint, cases.run("lint", text), refusal(complaint))
    with open("/dev/full", "wb") as full:
        run = subprocess.run([cases.program, "lint"], input=clean, stdout=full, stderr=subprocess.PIPE, timeout=600)
    cases.same("a full device", (run.returncode, run.stderr), (4, b"acpiset: device\n"))


def mistakes(cases):
    """How many of the mistakes are seen, and by what."""
    by_check = sum(it.is_seen_by_check for it in MISTAKES)
    cases.same("mistakes that check sees, and all", (by_check, len(MISTAKES)), (SEEN_BY_CHECK, ALL_MISTAKES))
    deserved = {name: lines for name, words, lines in UNCHANGED if not words}
    for it in MISTAKES:
        cases.count(it.name, "" if set(it.lines) - set(deserved[it.image]) else "no line that the set as it is does not have")


def judged_by_hand(cases):
    """The faults that the sets of known/judged.py have, and those that they do not have."""
    for name, pieces, words, rows in JUDGED:
        lines, _ = linted([*AT_SEED, *words.split()], read(text_of(pieces)))
        for kind, *numbers, is_fault in rows:
            line = " ".join((f"no {kind}", *map(hex, numbers)))
            is_of_kind = any(it.startswith(f"no {kind} ") for it in lines)
            wrong = not is_of_kind if is_fault else line in lines
            cases.count(name, f"{line} is a fault: {is_fault}, judged {lines}" if wrong else "")


main("lint", linted_sets, strict, allowed, refused, mistakes, judged_by_hand)
