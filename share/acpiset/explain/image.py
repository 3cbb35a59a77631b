"""Image text, read by the rules of acpiset(1): a text that acpiset refuses is refused here too."""

import io
import re
from array import array
from bisect import bisect_right
from functools import partial
from itertools import accumulate, compress, repeat, takewhile
from operator import add, sub

from .refusal import BAD_INPUT, Refusal

LARGEST_TEXT = 67_108_864
LONGEST_LINE = 65_536
ADDRESSES = 2**64
ALLOWED = b"@0123456789ABCDEFabcdef \t\r\n"
COMMENT = re.compile(rb"#[^\n]*")
ADDRESS_LINE = re.compile("@([0-9A-Fa-f]{1,16})[ \\t]*\\r?\\n")
INSIDE_LINE = re.compile("[^ \\t\\n][ \\t]*@")
RSDP_SIZE = 20
RSDP = re.compile(rb"RSD PTR (?=.{12})", re.DOTALL)
# The head of a text is its comments and empty lines before the first line with an address or bytes, as far as it is looked at.
MOST_OF_HEAD = 4096
HEAD_LINE = re.compile(rb"[ \t]*(?:#[^\n]*|\r)?")
# The comment with the address of the RSDP, which the tools that make image text write.
RSDP_LINE = re.compile(rb"[ \t]*#[ \t]*rsdp[ \t]+0x([0-9A-Fa-f]{1,16})[ \t]*\r?")
LINE = re.compile(rb"[ \t]*(?:@[0-9A-Fa-f]{1,16}[ \t]*|(?:[0-9A-Fa-f]{2}[ \t]*)*)(?:#[^\n]*|\r)?\n?")


class Image:
    """What a machine's memory holds: runs of bytes that do not touch, in the order of their addresses."""

    def __init__(self, text, starts, offsets, store):
        self.text = text
        self.starts = starts  # of the runs
        self.offsets = offsets  # of the runs in the store, and its end
        self.store = store

    def part(self, address, size):
        """The bytes from an address on, up to the first one that is not in the image, and at most this many."""
        run = bisect_right(self.starts, address) - 1
        if run < 0:
            return b""
        at = self.offsets[run] + address - self.starts[run]
        return self.store[at : min(at + size, self.offsets[run + 1])]

    def has(self, address, size):
        return len(self.part(address, size)) == size

    def number(self, address, size):
        """A little-endian number, or None if one of its bytes is not in the image."""
        part = self.part(address, size)
        return int.from_bytes(part, "little") if len(part) == size else None

    def told_rsdp(self):
        """The address of the RSDP that the head of the text tells, or None. It counts only if the image has the byte there: the text may
        have been changed since a tool wrote it."""
        address = rsdp_in_head(self.text)
        return address if address is not None and self.has(address, 1) else None

    def rsdps(self):
        """The addresses of 20 bytes that begin as an RSDP does and have a right checksum, in order."""
        runs = zip(self.starts, self.offsets, self.offsets[1:])
        for start, begin, end in ((start, begin, end) for start, begin, end in runs if end - begin >= RSDP_SIZE):
            for found in RSDP.finditer(self.store, begin, end):
                at = found.start()
                if sum(self.store[at : at + RSDP_SIZE]) % 256 == 0:
                    yield start + at - begin


def rsdp_in_head(text):
    """The address of the RSDP by a comment before the first line with an address or bytes; None if there is none, or several differ."""
    head = takewhile(HEAD_LINE.fullmatch, text[:MOST_OF_HEAD].split(b"\n"))
    told = {int(found[1], 16) for found in map(RSDP_LINE.fullmatch, head) if found}
    return told.pop() if len(told) == 1 else None


def read(text):
    """The image that a text is of. What is between two addresses is read at once: a text of 64 MiB takes a few seconds."""
    if len(text) > LARGEST_TEXT:
        raise refusal(f"it has more than {LARGEST_TEXT:,} bytes")
    if has_long_line(text):
        raise refusal(f"a line has more than {LONGEST_LINE:,} bytes")
    pieces = pieces_of(text)
    if pieces is None:
        raise bad_line(text)
    return laid_out(text, *pieces)


def pieces_of(text):
    """The addresses of the pieces that a text has, and their bytes; None if a line is bad or bytes have no address."""
    rows = bare(text)
    if rows is None or not do_begin_lines(rows):
        return None
    # The bytes before the first address, and then each address with the bytes after it.
    pieces = ADDRESS_LINE.split(rows + "\n")
    del rows  # of many short pieces the memory is needed
    if pieces[0].strip():
        return None
    starts = array("Q", map(int, pieces[1::2], repeat(16)))
    try:
        parts = [*map(bytes.fromhex, pieces[2::2])]
    except ValueError:
        return None
    return array("Q", compress(starts, parts)), [*filter(None, parts)]


def bare(text):
    """A text without its comments, or None if it has other characters than rows and addresses, or a CR not before an LF."""
    rows = COMMENT.sub(b"#", text) if b"#" in text else text
    has_stray_return = rows.count(b"\r") - rows.endswith(b"\r") != rows.count(b"\r\n")
    rows = rows.replace(b"#", b"")
    return None if has_stray_return or rows.translate(None, ALLOWED) else rows.decode()


def do_begin_lines(rows):
    """Whether before each @ there are only blanks on its line."""
    at_begin = rows.count("\n@") + rows.startswith("@")
    return rows.count("@") == at_begin or not INSIDE_LINE.search(rows)


def laid_out(text, starts, parts):
    """The image of some pieces: in the order of their addresses, and those that touch joined."""
    # The key of each part is its start: sorted asks for the keys once, in the order of the parts.
    parts = sorted(parts, key=partial(next, iter(starts)))
    starts = array("Q", sorted(starts))
    sizes = [*map(len, parts)]
    gaps = [*map(sub, starts[1:], map(add, starts, sizes))]
    if gaps and min(gaps) < 0:
        twice = next(compress(starts[1:], map((0).__gt__, gaps)))
        raise refusal(f"address {twice:#x} is given twice")
    if parts and starts[-1] + sizes[-1] > ADDRESSES:
        raise refusal(f"bytes go past the last address, {ADDRESSES - 1:#x}")
    begins_run = [1, *gaps] if parts else []
    offsets = compress(accumulate(sizes, initial=0), [*begins_run, 1])
    return Image(text, array("Q", compress(starts, begins_run)), array("Q", offsets), b"".join(parts))


def bad_line(text):
    """The refusal of the first line that is none of an image text."""
    for number, line in enumerate(io.BytesIO(text), 1):
        if not LINE.fullmatch(line):
            return refusal(f"line {number} is no line of image text")
    return refusal("there are bytes before the first address")


def refusal(why):
    return Refusal(BAD_INPUT, f"the image: {why}; acpiset does not read it either")


def has_long_line(text):
    begin = 0
    while len(text) - begin > LONGEST_LINE:
        begin = text.rfind(b"\n", begin, begin + LONGEST_LINE + 1) + 1
        if begin == 0:
            return True
    return False
