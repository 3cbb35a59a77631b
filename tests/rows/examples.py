#!/usr/bin/env python3
"""Runs the built program on the examples of docs/FAULTS.md: each one's bytes put into the set of
tests/images/example.img.txt make it print the line that the example has. And tools/explain finds in each image what the
line is about. The examples of advice begin with that set and the bytes that the sections before them put into it: `lint` prints
`yes` and the line of the example.

usage: examples.py PROGRAM; the last line is 'examples: N passed, M failed'."""

import os
import re
import subprocess
import sys
import tempfile
from pathlib import Path

sys.path.insert(0, str(Path(__file__).resolve().parents[1]))

from acpi_images.program import FIRMWARE, TESTS, main
from acpi_images.text import Image, read, text_of

TOP = TESTS.parent
PART = re.compile(r"^### (\d+) (\w+)$(.*?)(?=^##|\Z)", re.M | re.S)
EXAMPLE = re.compile(r"^- Example: (.*?): `([^`]*)`\.$", re.M | re.S)
CHANGE = re.compile(r"`@([0-9a-f]+) ([-0-9a-f\s]+)`")
# Sections with the bytes that are put into the set before those of the examples below.
BEGIN = re.compile(r"^### (Examples of advice[^\n]*)$(.*?)(?=^##)", re.M | re.S)
FIRST_RULE = 101


def changed(image, changes):
    """The image with the bytes of `@ADDRESS BYTES` put instead of those there; -- takes one out."""
    image = Image(image.pieces())
    for address, words in CHANGE.findall(changes):
        for at, word in enumerate(words.split(), int(address, 16)):
            image.drop(at, 1)
            image.put(at, b"" if word == "--" else bytes.fromhex(word))
    return image


def unexplained(program, line, text):
    """What tools/explain, which asks the program, does not find in the image that the line is of."""
    with tempfile.TemporaryDirectory() as folder:
        os.symlink(os.path.realpath(program), f"{folder}/acpiset")
        with open(f"{folder}/image", "wb") as file:
            file.write(text)
        words = [f"{TOP}/tools/explain", "--rsdp", "e0000", file.name]
        environment = {**os.environ, "PATH": f"{folder}:{os.environ['PATH']}"}
        run = subprocess.run(words, input=line.encode(), capture_output=True, timeout=600, env=environment)
    _, _, found = run.stdout.decode().partition("In the image:")
    is_found = run.returncode == 0 and not run.stderr and re.search(r"0x[0-9a-f]+ |the slots list", found)
    is_asked = "(acpiset " not in found
    return "" if is_found and is_asked and "s this the image" not in found else f"explain: {run.stderr.decode()}{found}"


def wrong(cases, image, name, part, command):
    """What is wrong with a part's examples, each a fault of `check` or advice of `lint`; nothing where they are right."""
    found = [wrong_example(cases, image, name, *example.groups(), command) for example in EXAMPLE.finditer(part)]
    return " ".join(filter(None, found)) if found else "no example"


def wrong_example(cases, image, name, changes, line, command):
    """What is wrong with one of them."""
    if name not in line.split()[1:3]:
        return f"the example's line is '{line}'"
    text = text_of(changed(image, changes).pieces())
    found = cases.run([command, "--rsdp", "e0000"], text)
    due = (1, line + "\n", "") if command == "check" else (0, f"yes\n{line}\n", "")
    return unexplained(cases.program, line, text) if found == due else f"{found}, not {line}"


def beginnings(document, image):
    """The sets with which examples begin, each with where these are in the document, and what it is called."""
    yield 0, "the set itself", image
    for section in BEGIN.finditer(document):
        image = changed(image, section[2])
        yield section.end(), f"the set of the {section[1]}", image


def examples(cases):
    document = (TOP / "docs" / "FAULTS.md").read_text()
    sets = [*beginnings(document, read((FIRMWARE / "example.img.txt").read_bytes()))]
    for part in PART.finditer(document):
        number, name, text = part.groups()
        image = [image for place, _, image in sets if place <= part.start()][-1]
        cases.count(f"{number} {name}", wrong(cases, image, name, text, "check" if int(number) < FIRST_RULE else "lint"))
    for place, what, image in sets:
        command = "lint --rsdp e0000" if place else "check"
        cases.writes(what, command, image.pieces(), ["yes"])
    cases.count("sets of examples", len(sets) != 3 and f"{len(sets)}")


if __name__ == "__main__":
    main("examples", examples)
