#!/usr/bin/env python3
"""Compares the answers of the Python package with those that were worked out by hand: on the rows of tests/acpi_images/known, on the
examples of docs/FAULTS.md, and on images of real firmware. On all of these it also tests what acpiset.h promises of the answers of
several calls: a check and a lint agree, each fault is confirmed, and an image is the same as pieces, in another order, and as a text.

usage: python_sets.py, with the package on PYTHONPATH and its library in ACPISET_LIBRARY; the last line is 'python sets: N passed, M
failed'"""

import re
import sys
from dataclasses import replace
from pathlib import Path

HERE = Path(__file__).resolve().parent
sys.path[:0] = [str(HERE), str(HERE.parent), str(HERE.parent / "rows")]

import acpiset
from acpi_images.known.judged import JUDGED
from acpi_images.program import FIRMWARE, Cases, finish
from acpi_images.text import read
from examples import EXAMPLE, FIRST_RULE, PART, TOP, beginnings, changed
from jobs import all_findings, confirmations, firmware, lines_of_sets, rows

CHOICES = {"--hotplug": {"counted": 0, "apart": 1}, "--processors": {"enabled": 0, "usable": 1}}
NUMBERS = {"--default-inputs": "default_inputs", "--through": "through"}


# ---- the words of a command line as arguments of a call


def arguments_of(words):
    """The settings that the words of a command line give, without an RSDP's address if there is none, and the fault to confirm."""
    settings, inputs, witness = {}, [], None
    words = iter(words)
    for word in words:
        if word in NUMBERS:
            settings[NUMBERS[word]] = int(next(words))
        elif word in CHOICES:
            settings[word[2:]] = CHOICES[word][next(words)]
        elif word == "--rsdp":
            settings["rsdp"] = int(next(words), 16)
        elif word == "--witness":
            witness = next(words)
        else:
            address, count = word.split("=")
            inputs.append((int(address, 16), int(count)))
    return {**settings, "inputs": inputs}, witness


def fault_of(line):
    """The fault of a line such as '4 NoFadt 0x0 0x0 0x0'."""
    stage, name, *numbers = line.split()
    fault = acpiset.Fault(acpiset.Code[name], *(int(number, 16) for number in numbers))
    if str(fault.stage) != stage:
        raise ValueError(f"{line}: {name} is a fault of stage {fault.stage}")
    return fault


def lines_of(command, pieces, settings, witness):
    """What the program writes for these arguments, by the answer of a call."""
    if command == "find":
        found = acpiset.find(pieces)
        return "rsdp none" if found is None else f"rsdp {found:#x}"
    if "rsdp" not in settings:
        found = acpiset.find(pieces)
        if found is None:
            return "no rsdp"
        settings = {**settings, "rsdp": found}
    settings = acpiset.Settings(**settings)
    if command == "check":
        fault = acpiset.check(pieces, settings)
        return "yes" if fault is None else f"no {fault}"
    if command == "lint":
        return str(acpiset.lint(pieces, settings))
    if command == "show":
        shown = acpiset.show(pieces, settings)
        return f"no {shown}" if isinstance(shown, acpiset.Fault) else shown.rstrip("\n")
    return str(acpiset.confirm(pieces, settings, fault_of(witness))).lower()


# ---- what the answers of several calls have to do with each other


def broken_promises(text, pieces, settings):
    """What is not as acpiset.h says, of an image as a text and as pieces."""
    fault, found = acpiset.check(pieces, settings), acpiset.lint(pieces, settings)
    if acpiset.check(acpiset.pieces_of_text(text), settings) != fault or acpiset.check_text(text, settings) != fault:
        yield "a text and pieces have different answers"
    if acpiset.lint(pieces[::-1], settings) != found:
        yield "another order of pieces has another answer"
    if (fault is None) != (not found.faults):
        yield f"check says {fault}, and lint {found}"
    if fault is not None and fault not in found.faults:
        yield f"lint does not report {fault}"
    for findings in (found.faults, found.advice):
        numbers = [it.number for it in findings]
        if numbers != sorted(set(numbers)):
            yield f"findings are not by number: {findings}"
    for it in found.faults:
        if not acpiset.confirm(pieces, settings, it):
            yield f"{it} is not confirmed"
    shown, first = acpiset.show(pieces, settings), acpiset.check(pieces, replace(settings, through=3))
    if (shown if isinstance(shown, acpiset.Fault) else None) != first:
        yield f"show says {shown}, and a check through stage 3 {first}"
    yield from broken_moves(pieces, settings, fault)
    if fault is not None and found.faults and fault.stage != min(it.stage for it in found.faults):
        yield f"{fault} is no fault of the first stage"


# A base address below 2^32, so that each FADT has room for that of the FACS.
BASE = 0x10000


def broken_moves(pieces, settings, fault):
    """What is wrong with a set that is rebuilt, whose first fault through all stages is this one."""
    moved = acpiset.rebuild(pieces, settings, BASE)
    if isinstance(moved, acpiset.Fault) or fault is not None:
        if moved != fault:
            yield f"rebuild says {moved}, and check {fault}"
        return
    there = [(BASE, moved)], replace(settings, rsdp=BASE)
    if acpiset.check(*there) is not None:
        yield f"what is rebuilt has the fault {acpiset.check(*there)}"
    if acpiset.rebuild(*there, BASE) != moved:
        yield "what is rebuilt is another set when it is rebuilt again"


# ---- the cases


def of_rows(cases):
    """The rows, from several threads at the same time."""
    jobs = [*rows(), *confirmations(), *all_findings(), *lines_of_sets()]

    def wrong(job):
        pieces = list(read(job.text).pieces().items())
        settings, witness = arguments_of(job.words[1:])
        told = lines_of(job.words[0], pieces, settings, witness)
        yield job.name, "" if told == job.lines.rstrip("\n") else f"{' '.join(job.words)}: {told}, not {job.lines}"
        if job.words[0] in ("check", "lint") and "rsdp" in settings:
            settings = acpiset.Settings(**{**settings, "through": 18})
            yield f"{job.name}, {' '.join(job.words)}", "; ".join(broken_promises(job.text, pieces, settings))

    cases.in_parallel(wrong, jobs)


def of_judged(cases):
    """Faults, true and false, of sets that have other faults too."""
    for name, pieces, words, asked in JUDGED:
        settings, _ = arguments_of(words.split())
        settings = acpiset.Settings(**{"rsdp": 0xE0000, **settings})
        for line, *numbers, is_there in asked:
            fault = fault_of(" ".join((line, *map(hex, numbers))))
            cases.same(f"{name}: {fault}", acpiset.confirm(list(pieces.items()), settings, fault), is_there)


def of_faults(cases):
    """The examples of docs/FAULTS.md: the line of each, and that its text is that of its part."""
    document = (TOP / "docs" / "FAULTS.md").read_text()
    sets = [*beginnings(document, read((FIRMWARE / "example.img.txt").read_bytes()))]
    for found_part in PART.finditer(document):
        number, name, part = found_part.groups()
        is_fault = int(number) < FIRST_RULE
        changes, line = EXAMPLE.search(part).groups()
        image = [image for place, _, image in sets if place <= found_part.start()][-1]
        pieces = list(changed(image, changes).pieces().items())
        settings = acpiset.Settings(0xE0000)
        found = [acpiset.check(pieces, settings)] if is_fault else acpiset.lint(pieces, settings).advice
        told = [f"{'no' if is_fault else 'advice'} {it}" for it in found]
        cases.same(f"{number} {name}", (told, found[0].number if found else None), ([line], int(number)))
        for finding in found:
            said = " ".join(re.search(r"^- (?:Wrong|Found): (.*?)(?=^- )", part, re.M | re.S)[1].split())
            plain = re.sub(r"\[([^]]*)\]\([^)]*\)", r"\1", said)
            cases.same(f"{number} {name}, its text", finding.text.splitlines()[0], plain[0].upper() + plain[1:])


def of_firmware(cases):
    """What acpiset.h promises, on images of real firmware, through each stage."""
    for name, (_, rsdp), text in firmware():
        pieces = list(read(text).pieces().items())
        for settings in ({}, {"hotplug": acpiset.HotPlug.APART}, {"processors": acpiset.Processors.USABLE}, {"default_inputs": 256}):
            chosen = acpiset.Settings(int(rsdp, 16), **settings)
            cases.count(f"{name} {settings}", "; ".join(broken_promises(text, pieces, chosen)))
        verdicts = [acpiset.check(pieces, acpiset.Settings(int(rsdp, 16), through=stage)) for stage in range(1, 19)]
        last = verdicts[-1]
        expected = [None if last is None or stage < last.stage else last for stage in range(1, 19)]
        cases.same(f"{name}, stage by stage", verdicts, expected)


def main():
    if sys.argv[1:]:
        sys.exit(__doc__)
    cases = Cases(None)
    for part in (of_rows, of_judged, of_faults, of_firmware):
        part(cases)
    finish("python sets", cases)


main()
