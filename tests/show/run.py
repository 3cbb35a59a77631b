#!/usr/bin/env python3
"""Runs the built program's `show`. Its text is compared with texts written by hand (known/shown.py of tests/acpi_images), with those of
eleven images of real firmware (images/), and on every known set with that of a second program (shown.py), without and with `--anyway`; then a set with a
million entries.

usage: run.py PROGRAM; the last line is 'show: N passed, M failed'."""

import resource
import sys
from pathlib import Path

sys.path.insert(0, str(Path(__file__).resolve().parents[1]))

from acpi_images.known.rows import ROWS
from acpi_images.known.shown import SHOWN
from acpi_images.program import IMAGES, firmware_text, main
from acpi_images.shown import shown, shown_anyway
from acpi_images.tables import *
from acpi_images.text import read, text_of

HERE = Path(__file__).parent

# Sets of which nothing is shown, with what is written of them instead.
WRONG_RSDP = rsdp().replace(b"A", b"B", 1)
NOT_SHOWN = [
    ("nothing to show", b"", "", "no rsdp"),
    ("no RSDP with a right sum", {RSDP_AT: WRONG_RSDP}, "", "no rsdp"),
    ("an RSDP that is not present", b"", "--rsdp e0000", "no 1 RsdpOut 0xe0000 0x0 0x0"),
    ("an RSDP whose sum is wrong", {RSDP_AT: WRONG_RSDP}, "--rsdp e0000", "no 1 RsdpSum 0xe0000 0x0 0x0"),
    ("an RSDP that names no root", {RSDP_AT: rsdp(0)}, "--rsdp e0000", "no 2 NoRoot 0xe0000 0x0 0x0"),
    ("a root with a part of a slot", {RSDP_AT: rsdp(), RSDT_AT: table(b"RSDT", b"\0\0")}, "", "no 2 RootRagged 0x1000 0x0 0x0"),
    ("a listed table that is not present", {RSDP_AT: rsdp(), RSDT_AT: rsdt(0, 0x2000)}, "", "no 3 TableHeaderOut 0x1 0x2000 0x0"),
    ("a listed table whose sum is wrong", image_of(fadt(), hpet().replace(b"A", b"B", 1)), "", "no 3 TableSum 0x1 0x3000 0x0"),
]


# What `show --anyway` writes of sets that are not valid, and its status, by hand.
ROOT = "rsdp 0xe0000 revision 0\nroot 0x1000 RSDT length 44 slots 2\n"
FADT_SLOT = "slot 0 0x2000 FACP length 116 revision 1\n"
FADT_LINES = "fadt 0x2000 length 116 profile 0 sci 0 flags 0x100000 reduced yes\ndsdt 0x0\n"
HPET_SLOT = "slot 1 0x3000 HPET length 56 revision 1\n"
WRONG_FADT = fadt().replace(b"AAAAAA", b"BAAAAA", 1)
WRONG_HPET = hpet().replace(b"A", b"B", 1)
WRONG_ROOT = rsdt(0x2000, 0x3000).replace(b"A", b"B", 1)
SHORT = hpet()[:4] + (35).to_bytes(4, "little") + hpet()[8:]
ANYWAY = [
    ("a set of valid tables", image_of(fadt(), hpet()), "yes\n" + ROOT + FADT_SLOT + HPET_SLOT + FADT_LINES, 0),
    ("an RSDP whose sum is wrong", {**image_of(fadt(), hpet()), RSDP_AT: WRONG_RSDP}, "no 1 RsdpSum 0xe0000 0x0 0x0\n" + ROOT + FADT_SLOT + HPET_SLOT + FADT_LINES, 0),
    ("a root whose sum is wrong", {**image_of(fadt(), hpet()), RSDT_AT: WRONG_ROOT}, "no 2 RootSum 0x1000 0x0 0x0\n" + ROOT + FADT_SLOT + HPET_SLOT + FADT_LINES, 0),
    ("a FADT whose sum is wrong", image_of(WRONG_FADT, hpet()), "no 3 TableSum 0x0 0x2000 0x0\n" + ROOT + FADT_SLOT + HPET_SLOT + FADT_LINES, 0),
    ("another table whose sum is wrong", image_of(fadt(), WRONG_HPET), "no 3 TableSum 0x1 0x3000 0x0\n" + ROOT + FADT_SLOT + HPET_SLOT + FADT_LINES, 0),
    ("a table whose last byte is not present", image_of(fadt(), hpet()[:-1]), "no 3 TableOut 0x1 0x3000 0x0\n" + ROOT + FADT_SLOT + "slot 1 0x3000 bad\n" + FADT_LINES, 0),
    ("a table with a Length of 35", image_of(fadt(), SHORT), "no 3 TableLength 0x1 0x3000 0x0\n" + ROOT + FADT_SLOT + "slot 1 0x3000 bad\n" + FADT_LINES, 0),
    ("a FADT that is not complete, before one that is", image_of(fadt()[:-1], fadt()), "no 3 TableOut 0x0 0x2000 0x0\n" + ROOT + "slot 0 0x2000 bad\nslot 1 0x3000 FACP length 116 revision 1\n", 0),
    ("a FADT of whose header all bytes are present and no more, before one that is complete", image_of(fadt()[:36], fadt()), "no 3 TableOut 0x0 0x2000 0x0\n" + ROOT + "slot 0 0x2000 bad\nslot 1 0x3000 FACP length 116 revision 1\n", 0),
    ("a root with another signature", {RSDP_AT: rsdp(), RSDT_AT: xsdt(0x2000), 0x2000: fadt()}, "no 2 RootSignature 0x1000 0x0 0x0\n", 1),
    ("a root whose last byte is not present", {RSDP_AT: rsdp(), RSDT_AT: rsdt(0x2000)[:-1], 0x2000: fadt()}, "no 2 RootOut 0x1000 0x0 0x0\n", 1),
    ("a root that ends within a slot", {RSDP_AT: rsdp(), RSDT_AT: table(b"RSDT", b"\0\0")}, "no 2 RootRagged 0x1000 0x0 0x0\nrsdp 0xe0000 revision 0\nroot 0x1000 RSDT length 38 slots 0\n", 0),
    ("an RSDP that names no root", {RSDP_AT: rsdp(0)}, "no 2 NoRoot 0xe0000 0x0 0x0\n", 1),
    ("an RSDP that is not present", b"", "no 1 RsdpOut 0xe0000 0x0 0x0\n", 1),
]  # fmt: skip


# Part of a header is none, even if it has the signature: the table that a later slot lists is the first.
PART_OF_A_HEADER = "no 3 TableHeaderOut 0x0 0x2000 0x0\n" + ROOT + "slot 0 0x2000 bad\n"
WHOLE = [
    (fadt(), FADT_LINES.replace("0x2000", "0x3000")), (madt(), "madt 0x3000 lapic 0xfee00000 flags 0x1\n"), (srat(), "srat 0x3000\n"),
    (slit(0), "slit 0x3000 count 0\n"), (pptt(), "pptt 0x3000\n"),
]  # fmt: skip
for whole, lines in WHOLE:
    signature = whole[:4].decode()
    slot = f"slot 1 0x3000 {signature} length {len(whole)} revision {whole[8]}\n"
    for part in (3, 4, 8, 35):
        name = f"{part} bytes of a table {signature}, before a complete one"
        ANYWAY.append((name, image_of(whole[:part], whole), PART_OF_A_HEADER + slot + lines, 0))


def both(cases, name, words, pieces, expected):
    """The second program and the built one show the same."""
    address = int(words.split()[1], 16) if words else RSDP_AT
    cases.same(f"{name}, read", shown(read(text_of(pieces)), address), expected)
    cases.writes(name, f"show {words}", pieces, expected, 0)


def by_hand(cases):
    for one in SHOWN:
        both(cases, one.name, one.words, one.pieces, one.text)


def firmware(cases):
    for name, address in IMAGES.items():
        both(cases, name, f"--rsdp {address}", firmware_text(name), (HERE / "images" / f"{name}.txt").read_text())


def not_shown(cases):
    for name, pieces, words, line in NOT_SHOWN:
        cases.writes(name, f"show {words}", pieces, [line])


def anyway(cases):
    """By hand, and on the sets that are checked, compared with the second program."""
    for name, pieces, text, status in ANYWAY:
        cases.same(f"{name}, anyway, read", shown_anyway(read(text_of(pieces)), RSDP_AT), (text, status == 0))
        cases.writes(f"{name}, anyway", "show --anyway --rsdp e0000", pieces, text, status)
    cases.writes("nothing to show anyway", "show --anyway", b"", "no rsdp\n", 1)
    for one in SHOWN:
        cases.writes(f"{one.name}, anyway", f"show --anyway {one.words}", one.pieces, "yes\n" + one.text, 0)
    for row in ROWS:
        command, *words = row.words.split()
        if command == "check" and words[:1] == ["--rsdp"]:
            text, is_shown = shown_anyway(read(text_of(row.pieces)), int(words[1], 16))
            cases.writes(f"{row.name}, anyway", ["show", "--rsdp", words[1], "--anyway"], row.pieces, text, 0 if is_shown else 1)


def rows(cases):
    """The sets that are checked: shown as the second program shows them, or where they are not valid up to their listed tables, with
    the line of the check."""
    for row in ROWS:
        command, *words = row.words.split()
        if command == "check" and words[:1] == ["--rsdp"]:
            text = shown(read(text_of(row.pieces)), int(words[1], 16))
            expected, status = (row.answer + "\n", 1) if text is None else (text, 0)
            cases.writes(row.name, ["show", "--rsdp", words[1]], row.pieces, expected, status)


MANY_AT = 0x1000000


def many(count):
    """A set whose MADT has this many entries, of 22 bytes on average, and what is shown of it."""
    pair = x2apic(4000000000, 300, 3) + other(6, 28)
    whole = madt(pair * (count // 2))
    pieces = image_of(fadt(), slots=(TABLES_AT, MANY_AT), others={MANY_AT: whole})
    text = f"""rsdp 0xe0000 revision 0
root 0x1000 RSDT length 44 slots 2
slot 0 0x2000 FACP length 116 revision 1
slot 1 {MANY_AT:#x} APIC length {len(whole)} revision 1
fadt 0x2000 length 116 profile 0 sci 0 flags 0x100000 reduced yes
dsdt 0x0
madt {MANY_AT:#x} lapic 0xfee00000 flags 0x1
"""
    lines = (
        f"{at:#x} x2apic uid 4000000000 id 300 flags 0x3\n{at + 16:#x} entry type 6 length 28\n"
        for at in range(44, len(whole), len(pair))
    )
    return pieces, text + "".join(lines)


def large(cases):
    """A million entries, in a text just below the most that is read, 67,108,864 bytes, in at most ten times the image's memory."""
    pieces, expected = many(1_000_000)
    most = 10 * sum(len(piece) for piece in pieces.values())
    limit = lambda: resource.setrlimit(resource.RLIMIT_AS, (most, most))
    status, told, complaint = cases.run("show --rsdp e0000", pieces, preexec_fn=limit)
    cases.count("a million entries", "" if (status, told) == (0, expected) else f"status {status}, {complaint}")


main("show", by_hand, firmware, not_shown, anyway, rows, large)
