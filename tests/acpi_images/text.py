"""Reads image text by docs/TABLES.md, part "Image text", alone, and writes it: a second reader, which shares no code with the program."""

from bisect import bisect_right

LONGEST_TEXT = 67_108_864
LONGEST_LINE = 65_536
TOP = 1 << 64
HEX_DIGITS = frozenset(b"0123456789abcdefABCDEF")


class Refused(Exception):
    """The text is refused; the message is the one on standard error."""


class Bytes:
    """Bytes, with numbers little-endian by offset and size."""

    def __init__(self, data):
        self.data = bytes(data)

    def __len__(self):
        return len(self.data)

    def number(self, at, size):
        if at + size > len(self.data):
            raise IndexError(f"{size} bytes at {at} of {len(self.data)}")
        return int.from_bytes(self.data[at : at + size], "little")

    def sums_to_0(self):
        return sum(self.data) % 256 == 0


class Image:
    """What a machine's memory holds: runs of bytes that do not touch, in rising order, and the address of each."""

    def __init__(self, pieces=()):
        self.starts, self.runs = [], []
        for at, data in dict(pieces).items():
            self.put(at, data)

    def put(self, at, data):
        """Adds bytes, none of which may be present already. Where they touch others they make one run with them."""
        if not data:
            return
        place = bisect_right(self.starts, at)
        end = self.starts[place - 1] + len(self.runs[place - 1]) if place else None
        following = self.starts[place] if place < len(self.starts) else None
        if place and at < end:
            raise Refused(f"address {at:#x} twice")
        if following is not None and following < at + len(data):
            raise Refused(f"address {following:#x} twice")
        if at == end:
            place -= 1
            self.runs[place] += data
        else:
            self.starts.insert(place, at)
            self.runs.insert(place, bytearray(data))
        if following == at + len(data):
            self.runs[place] += self.runs.pop(place + 1)
            del self.starts[place + 1]

    def drop(self, address, size):
        """Takes away what is present of this many bytes from this address on."""
        pieces, end = self.pieces(), address + size
        self.starts, self.runs = [], []
        for at, data in pieces.items():
            self.put(at, data[: max(address - at, 0)])
            self.put(max(at, end), data[max(end - at, 0) :])

    def replace(self, address, data):
        """Puts bytes in the place of what is present at their addresses."""
        self.drop(address, len(data))
        self.put(address, data)

    def pieces(self):
        """The runs by their addresses."""
        return {at: bytes(data) for at, data in zip(self.starts, self.runs)}

    def present(self, address, size):
        """This many bytes from this address on, or None if one of them is not present."""
        place = bisect_right(self.starts, address) - 1
        if place < 0 or address + size > self.starts[place] + len(self.runs[place]):
            return None
        at = address - self.starts[place]
        return Bytes(self.runs[place][at : at + size])


def is_hex(word):
    return HEX_DIGITS.issuperset(word)


def address_in(line):
    """The address of an `@` line, or None if it is no such line."""
    digits = line[1:]
    if 1 <= len(digits) <= 16 and is_hex(digits):
        return int(digits, 16)
    return None


def data_in(line):
    """The bytes of a line of pairs, or None if it is no such line."""
    words = line.replace(b"\t", b" ").split(b" ")
    digits = b"".join(words)
    if is_hex(digits) and all(len(word) % 2 == 0 for word in words):
        return bytes.fromhex(digits.decode())
    return None


def read(text):
    """The image that a text describes. Refuses it for the first line that has a fault."""
    image, next_at, size = Image(), None, 0
    lines = text.split(b"\n")
    for number, line in enumerate(lines, 1):
        size += len(line) + (number < len(lines))
        if len(line) > LONGEST_LINE or size > LONGEST_TEXT:
            raise Refused("too long")
        line = line[:-1] if line.endswith(b"\r") else line
        line = line.partition(b"#")[0].strip(b" \t")
        if not line:
            continue
        is_address = line.startswith(b"@")
        value = address_in(line) if is_address else data_in(line)
        if value is None:
            raise Refused(f"line {number}: bad line")
        if is_address:
            next_at = value
            continue
        if next_at is None:
            raise Refused(f"line {number}: no address")
        if next_at + len(value) > TOP:
            raise Refused(f"line {number}: past the end")
        image.put(next_at, value)
        next_at += len(value)
    return image


def text_of(pieces, width=16, blank=" "):
    """Image text of pieces by their addresses, with this many bytes a line, and this between two of them. What is a text already
    stays as it is."""
    if isinstance(pieces, bytes):
        return pieces
    lines = []
    for address, data in pieces.items():
        lines.append(f"@{address:x}")
        lines.extend(data[at : at + width].hex(" ").replace(" ", blank) for at in range(0, len(data), width))
    return "".join(line + "\n" for line in lines).encode()
