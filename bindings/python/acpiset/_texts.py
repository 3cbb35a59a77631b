"""Image texts, the input of the program, and pieces."""

from __future__ import annotations

from typing import List, Tuple, Union

from ._calls import check_text, text_bytes
from ._library import LAST_64_BITS, Pieces, ReadableBuffer, bytes_of, within
from ._settings import Settings

BYTES_IN_A_ROW = 16


def pieces_of_text(text: Union[str, ReadableBuffer]) -> List[Tuple[int, bytes]]:
    """The pieces of an image text, for the calls that take pieces.

    Refusals: those of `check_text` for the text. The library decides whether it is image text.

    >>> pieces_of_text("@e0000 # an RSDP\\n52 53 44 20\\n50545220\\n@1000\\n00\\n")
    [(917504, b'RSD PTR '), (4096, b'\\x00')]
    """
    passed = text_bytes(text)
    check_text(passed, Settings(0, through=1))
    pieces: List[Tuple[int, bytearray]] = []
    address = 0
    for line in passed.split(b"\n"):
        # An address, or pairs of hex digits, or nothing: any other line was refused.
        row = line.split(b"#", 1)[0].strip(b" \t\r").decode()
        if row.startswith("@"):
            address = int(row[1:], 16)
        elif row:
            data = bytes.fromhex(row)
            if not pieces or pieces[-1][0] + len(pieces[-1][1]) != address:
                pieces.append((address, bytearray()))
            pieces[-1][1].extend(data)
            address += len(data)
    return [(start, bytes(data)) for start, data in pieces]


def image_text(pieces: Pieces) -> str:
    """The image text of these pieces, which the program and its tools take, such as ``acpiset-report``, which makes a
    page. Pieces that share addresses, or pass the last one, give a text that the program refuses.

    Refusals: `BadNumber` for an address outside 0 to 2^64 - 1.

    >>> print(image_text([(0xE0000, b"RSD PTR ")]), end="")
    @e0000
    52 53 44 20 50 54 52 20
    """
    lines = []
    for place, (address, buffer) in enumerate(pieces):
        data = bytes_of(buffer)
        lines.append(f"@{within(f'the address of pieces[{place}]', address, LAST_64_BITS):x}\n")
        for at in range(0, len(data), BYTES_IN_A_ROW):
            lines.append(data[at : at + BYTES_IN_A_ROW].hex(" ") + "\n")
    return "".join(lines)
