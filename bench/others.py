#!/usr/bin/env python3
"""What the tools of ACPICA say of each fault that acpiset reports. Each example of docs/FAULTS.md is made from one valid set of
tables by changing some bytes; here its tables are written to files, one each, and passed to

- iasl: each file is disassembled, and the resulting text is compiled;
- acpiexec: the files are loaded together.

A tool reports a fault if it writes an error, a warning or a remark, of any kind, that it does not write for the valid set, or
fails otherwise. So that it has nothing else to report, the checksum of each changed table is corrected, unless the fault is a
wrong checksum.

usage: others.py [--messages] PROGRAM; it prints a table, or with --messages what each tool wrote for each fault."""

import os
import re
import subprocess
import sys
import tempfile

sys.dont_write_bytecode = True
TOP = os.path.join(os.path.dirname(os.path.abspath(__file__)), "..")
sys.path[:0] = [os.path.join(TOP, "tests"), os.path.join(TOP, "tests", "rows")]

from acpi_images.tables import number, summed
from acpi_images.text import Image, read, text_of
from examples import EXAMPLE, FIRST_RULE, PART, changed

STAGE = re.compile(r"^## Stages? (\d+):", re.M)
COMPLAINT = re.compile(
    r"error|warning|remark|invalid|incorrect|unknown|unexpected|exceed|mismatch|fail|truncat|should be|zero.length"
    r"|too (small|short|large|long)|could not|not contain|beyond|ignor|\*\*\*\*",
    re.I,
)
# What differs from run to run, or from file to file, and is not a complaint.
CHANGING = re.compile(r"0x0000[0-9A-Fa-f]{12}|[0-9a-f]+\.(dat|dsl|aml)")
FADT_AT = 0x2000
GROUPS = [
    ("the RSDP", [1]),
    ("the root", [2]),
    ("header, length and sum of listed tables", [3]),
    ("the FADT and the FACS", [4, 5]),
    ("lengths and fields of entries: MADT, SRAT, SLIT, PPTT", [6, 9, 11, 12]),
    ("two entries of the MADT or the SRAT", [7, 8, 10]),
    ("what the PPTT names, and cycles of it", [13, 14, 15]),
    ("two tables", [16, 17, 18]),
]
DSDT = 'DefinitionBlock ("dsdt.aml", "DSDT", 2, "AAAAAA", "AAAAAAAA", 1) {}\n'


def with_sum(piece):
    """A table with the checksum set, if its Length bytes are present."""
    length = int.from_bytes(piece[4:8], "little")
    if piece.startswith(b"RSD PTR ") or piece.startswith(b"FACS") or not 36 <= length <= len(piece):
        return piece
    return summed(piece, 9, length)


def closed(image, old):
    """The image with corrected checksums in those of its tables that are not among the old pieces."""
    return Image({at: piece if piece == old.get(at) else with_sum(piece) for at, piece in image.pieces().items()})


def valid_image():
    """The set of tables that the examples begin with. Its FADT names no ports and no DSDT, and its Revision does not match its
    length, about which these tools complain: here it has all of these."""
    with open(f"{TOP}/tests/images/example.img.txt", "rb") as file:
        image = read(file.read())
    for offset, address in ((40, 0x8000), (56, 0x600), (64, 0x604), (76, 0x608), (80, 0x620)):
        image.replace(FADT_AT + offset, number(address, 4))
    image.replace(FADT_AT + 8, b"\3")
    return closed(image, {})


def run(words, folder):
    """What a tool writes, without what changes from run to run, and how it ends if it is killed."""
    try:
        ended = subprocess.run(words, cwd=folder, stdin=subprocess.DEVNULL, capture_output=True, timeout=5)
    except subprocess.TimeoutExpired:
        return ["**** it did not end within 5 seconds"]
    lines = (ended.stdout + ended.stderr).decode(errors="replace").splitlines()
    return lines + ([f"**** killed by signal {-ended.returncode}"] if ended.returncode < 0 else [])


def complaints(lines):
    return {CHANGING.sub("", line).strip() for line in lines if COMPLAINT.search(line) and "0 Errors, 0 Warn" not in line}


def iasl_on(folder, name):
    lines = run(["iasl", "-d", f"{name}.dat"], folder)
    text = os.path.join(folder, f"{name}.dsl")
    if not os.path.exists(text):
        return lines
    with open(text, errors="replace") as file:
        lines += file.read().splitlines()
    return lines + run(["iasl", f"{name}.dsl"], folder)


def iasl(folder, names):
    """Each table, and the root table; no version that was tried takes an RSDP in a file for a table."""
    return {f"{name}: {line}" for name in names if int(name, 16) < 0x8000 for line in complaints(iasl_on(folder, name))}


def acpiexec(folder, names):
    """The tables except the RSDP and the root table, which acpiexec replaces by its own, and a DSDT, which it needs."""
    with open(os.path.join(folder, "empty.asl"), "w") as file:
        file.write(DSDT)
    run(["iasl", "empty.asl"], folder)
    tables = [f"{name}.dat" for name in names if int(name, 16) in range(FADT_AT, 0x8000)]
    return complaints(run(["acpiexec", "-b", "quit", "dsdt.aml", *tables], folder))


def told(tool, image):
    """The complaints of a tool on the tables of an image, each in a file."""
    with tempfile.TemporaryDirectory() as folder:
        names = []
        for at, piece in image.pieces().items():
            names.append(f"{at:x}")
            with open(os.path.join(folder, f"{at:x}.dat"), "wb") as file:
                file.write(piece)
        return tool(folder, names)


def version(words):
    return re.search(r"version (\d+)", "\n".join(run(words, "."))).group(1)


def faults_of(document):
    """Each fault's stage, name and example. Rules of advice are not faults."""
    stages = [(match.start(), int(match.group(1))) for match in STAGE.finditer(document)]
    for part in PART.finditer(document):
        if int(part.group(1)) >= FIRST_RULE:
            continue
        stage = [stage for at, stage in stages if at < part.start()][-1]
        yield stage, part.group(2), EXAMPLE.search(part.group(3)).group(1)


def acpiset(program, image, name):
    """The line of acpiset for an image, if it is that of the fault."""
    run = subprocess.run([program, "check", "--rsdp", "e0000"], input=text_of(image.pieces()), capture_output=True, timeout=60)
    line = run.stdout.decode().strip()
    return [line] if line.split()[2:3] == [name] else []


def table(rows):
    """A row for each group of stages: how many faults they have, and how many of them each tool reports."""
    heads = ["faults", "acpiset"] + [f"{tool} {version([tool, '-v'])}" for tool in ("iasl", "acpiexec")]
    width = max(len(group) for group, _ in GROUPS)
    print(f"{'of':{width}}  {'  '.join(heads)}")
    for group, stages in [*GROUPS, ("all", range(1, 19))]:
        of_group = [tells for stage, tells in rows if stage in stages]
        counts = [len(of_group)] + [sum(tells[tool] for tells in of_group) for tool in range(3)]
        print(f"{group:{width}}  {'  '.join(f'{count:{len(head)}}' for count, head in zip(counts, heads))}")


def main():
    program = sys.argv[-1]
    valid = valid_image()
    usual = {tool: told(tool, valid) for tool in (iasl, acpiexec)}
    with open(f"{TOP}/docs/FAULTS.md") as file:
        faults = faults_of(file.read())
    rows = []
    for stage, name, example in faults:
        image = changed(valid, example)
        if not name.endswith("Sum"):
            image = closed(image, valid.pieces())
        news = [acpiset(program, image, name)]
        news += [sorted(told(tool, image) - usual[tool]) for tool in (iasl, acpiexec)]
        rows.append((stage, [lines != [] for lines in news]))
        if "--messages" in sys.argv:
            print(f"{stage} {name}")
            for label, lines in zip(("acpiset", "iasl", "acpiexec"), news):
                print("".join(f"  {label}: {line}\n" for line in lines or ["-"]), end="")
    if "--messages" not in sys.argv:
        table(rows)


if __name__ == "__main__":
    main()
