"""What is printed of an image, a line of text at a time."""

from .program import MISMATCH


def both(offset):
    """An offset in hex and in decimal."""
    return f"{offset:#x} ({offset})"


def known(number, form="d"):
    """A number of a table, some of whose bytes may not be in the image."""
    return "unknown" if number is None else format(number, form)


class Report:
    """What one line is about in an image."""

    def __init__(self, tables, settings):
        self.image, self.tables, self.settings = tables.image, tables, settings
        self.lines = []

    def say(self, text):
        self.lines.append(text)

    def bytes(self, address, size):
        data = self.image.part(address, size)
        parts = data.hex(" ").split()
        if len(data) < size:
            parts += [self.image.part(address + at, 1).hex() or "--" for at in range(len(data), size)]
        for at in range(0, size, 16):
            self.say(f"  {address + at:#x}  {' '.join(parts[at : at + 16])}")
        if "--" in parts:
            self.say("  (--: a byte that is not in the image)")

    def gap(self, address, size):
        """Which of the bytes that must be in the image is the first that is not."""
        held = len(self.image.part(address, size))
        if held == size:
            self.say(f"all {size} bytes are in the image: {MISMATCH}")
        else:
            self.say(f"of the {size} bytes that must be in the image the first {held} are; the next one, at {address + held:#x}, is not")

    def checksum(self, what, address, size, place):
        """The value with which the byte at `place` makes the bytes sum to 0."""
        data = self.image.part(address, size)
        over = sum(data) % 256
        if len(data) < size:
            self.say(f"{what}: of the {size} bytes to sum only the first {len(data)} are in the image")
        elif over == 0:
            self.say(f"{what}: the {size} bytes sum to 0: {MISMATCH}")
        elif place >= size:
            self.say(f"{what}: the {size} bytes sum to {over:#x}, not 0, but the checksum, byte {place}, is not among them: {MISMATCH}")
        else:
            now, due = data[place], (data[place] - over) % 256
            self.say(f"{what}: the {size} bytes sum to {over:#x}, not 0. The byte at {place}, now {now:#x}, must be {due:#x}.")

    def has_root(self):
        if self.tables.rsdp is None:
            self.say("no RSDP is found in it: give its address with --rsdp HEX")
        elif self.tables.root is None:
            rsdp = self.tables.rsdp
            self.say(f"the RSDP at {rsdp:#x} names no XSDT or RSDT that is in the image: give the one that was checked with --rsdp HEX")
        return self.tables.root is not None

    def table(self, signature):
        """The table that a line is about, or None; it is said where it is."""
        if not self.has_root():
            return None
        table = self.tables.first(signature)
        self.say(table.told if table else f"no slot lists a table with the signature {signature}: {MISMATCH}")
        if table and len(table.data) < table.length:
            self.say(f"only the first {len(table.data)} of its bytes are in the image")
        return table

    def field(self, table, what, at, size):
        self.say(f"{what} at offset {both(at)}, at {table.address + at:#x}:")
        self.bytes(table.address + at, size)

    def structure(self, table, what, at):
        """Says what a structure is, and returns it; of bytes at which none begins it says 16, and returns None."""
        found = table.structure(at)
        size = found.size if found else max(0, min(16, table.length - at))
        self.say(f"{what} at offset {both(at)}, at {table.address + at:#x}:")
        if found:
            self.say(f"  {found.shown()}")
        self.bytes(table.address + at, size)
        return found

    def named(self, table, what, at):
        """The same of a structure that the line names."""
        found = self.structure(table, what, at)
        if not found:
            self.say(f"no structure begins there: {MISMATCH}")
        return found
