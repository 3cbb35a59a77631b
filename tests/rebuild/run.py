#!/usr/bin/env python3
"""Runs the built program's `rebuild`. Its text is compared with texts written by hand, and on eleven images of real firmware and every
known set with that of a second program, rebuilt.py of tests/acpi_images. Each new image is checked, shown and rebuilt again.

usage: run.py PROGRAM; the last line is 'rebuild: N passed, M failed'."""

import re
import sys
from pathlib import Path

sys.path.insert(0, str(Path(__file__).resolve().parents[1]))

from acpi_images.known.many import MANY
from acpi_images.known.rows import FULL, ROWS, WINDOW
from acpi_images.program import IMAGES, firmware_text, main
from acpi_images.rebuilt import NotRebuilt, read_back, rebuilt
from acpi_images.tables import *
from acpi_images.text import read, text_of

# Below 1 MiB, below and above 4 GiB.
BASES = ("e0000", "7ffe0000", "123456780")
APART = ["--hotplug", "apart"]

REDUCED_SET = image_of(fadt())
# The FADT alone, which has no FACS, from 0xE0000 on: the numbers are worked out by hand.
REDUCED_TEXT = """@e0000
52 53 44 20 50 54 52 20 59 41 41 41 41 41 41 02
00 00 00 00 24 00 00 00 40 00 0e 00 00 00 00 00
8e 00 00 00
@e0040
58 53 44 54 2c 00 00 00 01 6e 41 41 41 41 41 41
41 41 41 41 41 41 41 41 01 00 00 00 41 41 41 41
01 00 00 00 80 00 0e 00 00 00 00 00
@e0080
46 41 43 50 74 00 00 00 01 cd 41 41 41 41 41 41
41 41 41 41 41 41 41 41 01 00 00 00 41 41 41 41
01 00 00 00 00 00 00 00 00 00 00 00 00 00 00 00
00 00 00 00 00 00 00 00 00 00 00 00 00 00 00 00
00 00 00 00 00 00 00 00 00 00 00 00 00 00 00 00
00 00 00 00 00 00 00 00 00 00 00 00 00 00 00 00
00 00 00 00 00 00 00 00 00 00 00 00 00 00 00 00
00 00 10 00
"""
LISTED_TWICE = image_of(fadt(), slots=(0x2000, 0x2000))
LONG_FADT = image_of(full_fadt(length=244), others={FACS_AT: facs()})
FAULTY = image_of(fadt(), srat(memory(0, 0x2000), memory(0x1000, 0x2000)))

# A set, the words after `rebuild`, the status, and what is written.
BY_HAND = [
    ("a FADT alone", REDUCED_SET, "--rsdp e0000 --base e0000", 0, REDUCED_TEXT),
    ("a FADT alone, rebuilt again", REDUCED_TEXT.encode(), "--base e0000", 0, REDUCED_TEXT),
    ("a base address not a multiple of 64", REDUCED_SET, "--rsdp e0000 --base e0020", 1, "refused Unaligned\n"),
    ("a base address one above a multiple of 64", REDUCED_SET, "--rsdp e0000 --base 1", 1, "refused Unaligned\n"),
    ("the topmost base address", REDUCED_SET, "--rsdp e0000 --base ffffffffffffffc0", 1, "refused PastEnd\n"),
    # The RSDP, the XSDT and the FADT of 116 bytes need 64, 64 and 116 bytes: the last base address is 2^64 - 256.
    ("one place above the last base address", REDUCED_SET, "--rsdp e0000 --base ffffffffffffff40", 1, "refused PastEnd\n"),
    ("a FACS at 2^32", FULL, "--rsdp e0000 --base ffffff80", 1, "refused NeedsLow\n"),
    ("a FACS at 2^32, and a table past the end", FULL, "--rsdp e0000 --base ffffffffffffffc0", 1, "refused PastEnd\n"),
    ("two ranges that overlap", FAULTY, "--rsdp e0000 --base e0000", 1, "no 10 Overlap 0x30 0x58 0x1000\n"),
    ("two ranges that overlap, and a wrong base address", FAULTY, "--rsdp e0000 --base e0020", 1, "refused Unaligned\n"),
    ("two ranges that overlap, and the topmost address", FAULTY, "--base ffffffffffffffc0", 1, "no 10 Overlap 0x30 0x58 0x1000\n"),
    ("a window over a range, counted", WINDOW, "--rsdp e0000 --base e0000 --hotplug counted", 1, "no 10 Overlap 0x30 0x58 0x0\n"),
    ("no RSDP at the address", b"", "--rsdp e0000 --base e0000", 1, "no 1 RsdpOut 0xe0000 0x0 0x0\n"),
    ("no RSDP to find", b"", "--base e0000", 1, "no rsdp\n"),
    ("no RSDP to find, and a wrong base address", b"", "--base e0020", 1, "no rsdp\n"),
]
# Where lines of a set's text begin.
FACS_PLACES = [
    ("the last FACS below 2^32", FULL, "ffffff40", 0xFFFFFFC0),
    ("a FADT of 244 bytes, and a FACS at 2^32", LONG_FADT, "ffffff80", 0x100000000),
]


def expected_of(pieces, address, base):
    """The status and the text that the second program gives."""
    try:
        return 0, rebuilt(read(text_of(pieces)), int(address, 16), int(base, 16))
    except NotRebuilt as name:
        return 1, f"refused {name}\n"


def new_pieces(cases, pieces, base):
    """What the program makes of a set, by address."""
    image = read_back(cases.run(f"rebuild --rsdp e0000 --base {base}", pieces)[1])
    return image.pieces() if image else {}


def by_hand(cases):
    for name, pieces, words, status, expected in BY_HAND:
        cases.writes(name, f"rebuild {words}", pieces, expected, status)
    for name, pieces, base, place in FACS_PLACES:
        starts = [at + data.index(b"FACS") for at, data in new_pieces(cases, pieces, base).items() if b"FACS" in data]
        cases.same(name, starts, [place])
    last = "ffffffffffffff00"
    status, expected = expected_of(REDUCED_SET, "e0000", last)
    cases.writes("the last base address", f"rebuild --base {last}", REDUCED_SET, expected, status)
    places = [f"{at:x} {len(data)}" for at, data in new_pieces(cases, LISTED_TWICE, "e0000").items()]
    cases.same("a table in two slots", places, ["e0000 36", "e0040 52", "e0080 116", "e0100 116"])


# ---- a new image

# Lines of `show` that begin with a table's place, which differs, and those that differ as a whole.
PLACED = re.compile(r"^(slot \d+|fadt|facs|madt|srat|slit|pptt) 0x[0-9a-f]+")
HEADS = re.compile(r"^(rsdp|root) .*|^slot \d+ empty$")


def contents(lines):
    """Lines that are shown, without the places of tables, the RSDP's and the root's, and slots of 0."""
    slots = 0
    for line in lines.splitlines():
        if HEADS.match(line):
            continue
        line = PLACED.sub(r"\1", line)
        if line.startswith("slot"):
            line = re.sub(r"^slot \d+", f"slot {slots}", line)
            slots += 1
        yield line


def new_image(cases, name, pieces, old_words, base, settings):
    """What the program makes of its own new image: a clean set that says the same, and the same text again."""
    _, told, _ = cases.run(["rebuild", *old_words, "--base", base, *settings], pieces)
    image, text = read_back(told), told.encode()
    cases.count(f"{name}, its form", "" if image else told)
    if not image:
        return
    at = ["--rsdp", base]
    cases.same(f"{name}, its first address", image.starts[0], int(base, 16))
    cases.writes(f"{name}, checked", ["check", *at, *settings], text, ["yes"])
    cases.writes(f"{name}, rebuilt again", ["rebuild", *at, "--base", base, *settings], text, told, 0)
    _, before, _ = cases.run(["show", *old_words], pieces)
    _, after, _ = cases.run(["show", *at], text)
    same = list(contents(before)) == list(contents(after))
    cases.count(f"{name}, shown", "" if same else f"{before}and\n{after}")


def rebuilds(cases, name, pieces, old_words, base, settings):
    """The program rebuilds a clean set as the second program does, and its new image."""
    status, expected = expected_of(pieces, old_words[1], base)
    cases.writes(f"{name}, rebuilt at {base}", ["rebuild", *old_words, "--base", base, *settings], pieces, expected, status)
    if status == 0:
        new_image(cases, f"{name} at {base}", pieces, old_words, base, settings)


def firmware(cases):
    """A set of SeaBIOS has a FADT of 116 bytes on the older machine: there it needs a FACS below 4 GiB."""
    for name, address in IMAGES.items():
        for base in BASES:
            rebuilds(cases, name, firmware_text(name), ["--rsdp", address], base, APART if name == "sb-pc-nvdimm-numa" else [])
    words, text = ["rebuild", "--rsdp", IMAGES["sb-pc-nvdimm-numa"], "--base"], firmware_text("sb-pc-nvdimm-numa")
    cases.writes("sb-pc-nvdimm-numa, counted", [*words, "e0000"], text, ["no 10 Overlap 0x90 0xb8 0x100000000"])
    cases.writes("sb-pc-nvdimm-numa, above 4 GiB", [*words, "123456780", *APART], text, ["refused NeedsLow"])


# ---- all sets that are checked


def rows(cases):
    """Each known set that a check judges completely: rebuilt as the second program does it, or the line of the check."""
    for row in [*ROWS, *MANY]:
        command, *words = row.words.split()
        if command != "check" or words[:1] != ["--rsdp"] or "--through" in words:
            continue
        if row.answer == "yes":
            rebuilds(cases, row.name, text_of(row.pieces), words[:2], "e0000", words[2:])
        else:
            cases.writes(f"{row.name}, rebuilt", ["rebuild", *words, "--base", "e0000"], row.pieces, [row.answer])


# ---- arguments

ADDRESSES = "1 to 16 hex digits, with or without 0x before them, as in f59e0"
REFUSED = [
    (f"rebuild needs --base HEX: {ADDRESSES}", ["--rsdp", "e0000"]),
    (f"--base '10000000000000000': expected {ADDRESSES}", ["--base", "10000000000000000"]),
    (f"--base '0x': expected {ADDRESSES}", ["--base", "0x"]),
    (f"--base '': expected {ADDRESSES}", ["--base", ""]),
    (f"--base 'e0000h': expected {ADDRESSES}", ["--base", "e0000h"]),
    (f"--rsdp 'g': expected {ADDRESSES}", ["--base", "g", "--rsdp", "g"]),
    ("a value is required for '--base <HEX>' but none was supplied", ["--base"]),
    ("the argument '--base <HEX>' cannot be used multiple times", ["--base", "0", "--base", "0"]),
    ("unexpected argument '--through' found", ["--base", "0", "--through", "3"]),
    ("--hotplug 'both': expected counted or apart", ["--base", "0", "--hotplug", "both"]),
    ("--processors 'all': expected enabled or usable", ["--base", "0", "--processors", "all"]),
    ("--default-inputs '0': expected a number of inputs from 1 to 256, in at most 3 decimal digits", ["--base", "0", "--default-inputs", "0"]),
    ("'fec00000=257': expected a COUNT from 1 to 256, in at most 3 decimal digits", ["--base", "0", "fec00000=257"]),
]


def arguments(cases):
    for message, words in REFUSED:
        status, out, err = cases.run(["rebuild", *words], REDUCED_SET)
        cases.same(f"arguments {words}", (status, out, err.split("\n")[0]), (2, "", f"acpiset: {message}"))
    for base in ("0xE0000", "00000000000e0000", "E0000"):
        words = f"rebuild --rsdp 0xe0000 --base={base} --default-inputs 16 fec00000=32 --processors usable"
        cases.writes(f"base address {base}", words, REDUCED_SET, REDUCED_TEXT, 0)


# ---- many tables


def many(cases):
    """Ten thousand tables, and one of a MiB."""
    slots = [TABLES_AT, *[0x8000] * 10_000, 0x1000000]
    listed = {TABLES_AT: fadt(), 0x8000: hpet(), 0x1000000: table(b"OEM1", bytes(range(256)) * 4096)}
    text = text_of({RSDP_AT: rsdp(0x2000000), 0x2000000: rsdt(*slots), **listed})
    status, expected = expected_of(text, "e0000", "100000000000")
    cases.writes("ten thousand tables", "rebuild --rsdp e0000 --base 100000000000", text, expected, status)


main("rebuild", by_hand, firmware, rows, arguments, many)
