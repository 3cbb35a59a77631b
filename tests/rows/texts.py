#!/usr/bin/env python3
"""Runs the built program on texts that come in pieces, on rows as long as a line may be, and on large texts whose rows come in any
order.

usage: texts.py PROGRAM; the last line is 'texts: N passed, M failed'."""

import os
import random
import struct
import subprocess
import sys
from pathlib import Path

sys.path.insert(0, str(Path(__file__).resolve().parents[1]))

from acpi_images.program import SECONDS, answer, main, refusal
from acpi_images.tables import RSDP_AT, RSDT_AT, changed, rsdp, rsdt, summed, table
from acpi_images.text import text_of

WORDS = "check --rsdp e0000 --through 3"
TABLES_AT = 0x100000


def told_in_pieces(cases, pieces):
    """What the program tells where each read returns one piece: each write to such a pipe is a packet of its own."""
    reading, writing = os.pipe2(os.O_DIRECT)
    run = subprocess.Popen([cases.program, *WORDS.split()], stdin=reading, stdout=subprocess.PIPE, stderr=subprocess.PIPE)
    os.close(reading)
    try:
        for piece in pieces:
            os.write(writing, piece)
    except BrokenPipeError:
        pass  # It has refused the text, and reads no more.
    os.close(writing)
    out, err = run.communicate(timeout=SECONDS)
    return (run.returncode, out.decode(), err.decode())


def is_told(cases, name, text, expected):
    cases.same(name, cases.run(WORDS, text), expected)


# ---- texts in pieces


def small_text():
    """The RSDP and an RSDT without slots, some 200 bytes of text. All bytes count in a sum."""
    pointer, root = rsdp(), rsdt()
    lines = [
        f"@{RSDP_AT:x} # RSDP\r\n",
        pointer[:9].hex(" ") + "\r\n",
        "\t" + pointer[9:].hex(" ").upper() + " # \r\n",
        "\r\n",
        f"@{RSDT_AT:X}\n",
        root[:10].hex() + "\t" + root[10:20].hex(" ") + "\r\n",
        root[20:35].hex(" ") + " \n",
        "#\n",
        root[35:].hex(),
    ]
    return "".join(lines)


def small_texts():
    whole = small_text()
    yield "a good text", whole, answer("yes")
    yield "half a pair at the end", whole[:-1], refusal("line 9: bad line")
    yield "a bad line, and worse after it", whole.replace("#\n", "0g\n1\n"), refusal("line 8: bad line")
    yield "an address twice", whole + f"\n@{RSDP_AT:x}\r\n00", refusal("address 0xe0000 twice")
    yield "a CR before the line's end", whole.replace("#\n", "\r\r\n"), refusal("line 8: bad line")


def in_pieces(cases):
    """Each small text cut at each of its places, and one byte at a time."""
    for name, text, expected in small_texts():
        text = text.encode()
        cuts = [[text[:at], text[at:]] for at in range(1, len(text))]
        for pieces in [[text], *cuts, [text[at : at + 1] for at in range(len(text))]]:
            name_of = f"{name}, {len(pieces)} pieces, the first of {len(pieces[0])} bytes"
            cases.same(name_of, told_in_pieces(cases, pieces), expected)


# ---- a table in one row


def long_rows(cases):
    """The table is 32,768 bytes, so that its line is as long as one may be."""
    whole = table(b"ROWS", bytes(range(256)) * 127 + bytes(range(220)))
    for name, digits, expected in (
        ("32,768 bytes in a row", whole.hex(), answer("yes")),
        ("the last one wrong", whole.hex()[:-1] + "0", answer(f"no 3 TableSum 0x0 {TABLES_AT:#x} 0x0")),
        ("all but the last digit", whole.hex()[:-1], refusal("line 6: bad line")),
        ("a digit that is none at the end", whole.hex()[:-1] + "g", refusal("line 6: bad line")),
        ("a byte more", whole.hex() + "00", refusal("too long")),
    ):
        is_told(cases, name, front([TABLES_AT]) + f"@{TABLES_AT:x}\n{digits}\n".encode(), expected)


# ---- rows in any order

COUNT = 100_000
BROKEN = 77_777


def front(addresses, root_at=RSDT_AT):
    """The RSDP, and an RSDT that lists tables at these addresses."""
    root = table(b"RSDT", struct.pack(f"<{len(addresses)}I", *addresses))
    return text_of({RSDP_AT: rsdp(root_at), root_at: root}, width=16_384, blank="")


def shuffled(count=COUNT):
    numbers = list(range(count))
    random.Random(1).shuffle(numbers)
    return numbers


# the distance from table to table, each of 36 bytes, and the order in which they come
ORDERS = {
    "rising, apart": (64, range(COUNT)),
    "falling, apart": (64, range(COUNT - 1, -1, -1)),
    "shuffled, apart": (64, shuffled()),
    "every second row, then the holes": (36, [*range(0, COUNT, 2), *range(1, COUNT, 2)]),
    "falling, touching": (36, range(COUNT - 1, -1, -1)),
}


def row(address, data):
    return b"@%x\n%s\n" % (address, data.hex().encode())


def in_order(cases):
    """A table a row: all valid, then one with a wrong sum, then one that comes again."""
    valid = table(b"HPET", b"")
    wrong = valid[:10] + bytes([valid[10] ^ 1]) + valid[11:]
    for name, (distance, order) in ORDERS.items():
        addresses = [TABLES_AT + number * distance for number in range(COUNT)]
        head, broken_at = front(addresses), addresses[BROKEN]
        rows = [row(addresses[number], valid) for number in order]
        is_told(cases, name, head + b"".join(rows), answer("yes"))
        is_told(cases, f"{name}, a row again", head + b"".join([*rows, row(broken_at, b"\0")]), refusal(f"address {broken_at:#x} twice"))
        rows[list(order).index(BROKEN)] = row(broken_at, wrong)
        is_told(cases, f"{name}, a wrong sum", head + b"".join(rows), answer(f"no 3 TableSum {BROKEN:#x} {broken_at:#x} 0x0"))


# A table a row, apart, and the RSDT after them. The last table that is listed has a wrong sum.
PIECES = 250_000
ROOT_AT = 0x2000000


def many_pieces(cases):
    """The pieces in three orders."""
    addresses = [TABLES_AT + 64 * number for number in range(PIECES)]
    valid = table(b"HPET", b"")
    rows = [row(address, valid) for address in addresses]
    rows[-1] = row(addresses[-1], changed(valid, {10: 0}))
    expected = answer(f"no 3 TableSum {PIECES - 1:#x} {addresses[-1]:#x} 0x0")
    head = front(addresses, ROOT_AT)
    for name, order in (("rising", range(PIECES)), ("falling", range(PIECES - 1, -1, -1)), ("shuffled", shuffled(PIECES))):
        is_told(cases, f"{PIECES} pieces, {name}", head + b"".join(rows[number] for number in order), expected)


# ---- sums


def nested(count):
    """Tables 64 bytes apart, all of which end where the last does: 64 bytes of each sum to 0."""
    return b"".join(summed(table(b"HPET", b"")[:4] + struct.pack("<I", 64 * left) + bytes(56), 9) for left in range(count, 0, -1))


def sums(cases):
    full = table(b"FULL", b"\xff" * (1 << 20))
    count = 60_000
    slots, memory = [TABLES_AT + 64 * number for number in range(count)], nested(count)
    at = 64 * 40_000 - 1
    wrong = memory[:at] + b"\1" + memory[at + 1 :]
    first = answer(f"no 3 TableSum 0x0 {TABLES_AT:#x} 0x0")
    for name, listed, data, expected in (
        ("one table of FFh bytes", [TABLES_AT], full, answer("yes")),
        ("100,000 slots, one table", [TABLES_AT] * COUNT, full, answer("yes")),
        ("nested tables", slots, memory, answer("yes")),
        ("nested tables, the last byte wrong", slots, memory[:-1] + b"\1", first),
        ("nested tables, a byte wrong in the midst", slots, wrong, first),
        ("the tables after it", slots[40_000:], wrong, answer("yes")),
    ):
        is_told(cases, name, front(listed) + text_of({TABLES_AT: data}, width=16_384, blank=""), expected)


main("texts", in_pieces, long_rows, in_order, many_pieces, sums)
