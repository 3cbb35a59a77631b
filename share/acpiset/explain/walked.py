"""Structures of tables that only rules of advice read, and structures within them."""

from functools import lru_cache
from typing import NamedTuple

from .image import ADDRESSES
from .program import MISMATCH
from .report import both
from .tables import little

MOST_SHOWN = 40


class Shape(NamedTuple):
    """Of some structures how many bytes their type has, where their length is and how many bytes it has, and the least one."""

    type_size: int
    length_at: int
    length_size: int
    least: int

    def head(self):
        """How many bytes have the type and the length."""
        return self.length_at + self.length_size

    def length(self, table, at):
        """What a structure at an offset says that its length is; None if these bytes are not in the table."""
        return little(table.data, at + self.length_at, self.length_size) if at + self.head() <= len(table.data) else None


class Found(NamedTuple):
    """A structure of a table, with its type and its length."""

    table: object
    at: int
    kind: int
    size: int

    def number(self, at, size):
        """A number of it; None if it ends before that."""
        return little(self.table.data, self.at + at, size) if at + size <= self.size else None


def begun(table, shape, first, end, most):
    """A byte for each offset from `first` on, 1 where a structure begins that ends at `end` or before."""
    end = min(end, len(table.data))
    marks, at, left = bytearray(max(0, end - first)), first, most
    size = shape.length(table, at)
    while left and size is not None and size >= shape.least and at + size <= end:
        marks[at - first] = 1
        at, left = at + size, left - 1
        size = shape.length(table, at)
    return marks


# Those of a table are walked once, since there may be millions. Within one of them there are not so many.
begun_in_table = lru_cache(maxsize=None)(begun)


class Walk:
    """The structures of a table from an offset on, at most so many; or those within one of them, which may be called a block, up to the end
    of that one."""

    def __init__(self, table, shape, first, most=-1, within=None, whole="structure"):
        self.table, self.shape, self.first, self.is_counted = table, shape, first, most >= 0
        self.whole = whole if within else "table"
        self.end = within.at + within.size if within else table.length
        self.marks = (begun if within else begun_in_table)(table, shape, first, self.end, most)

    def __iter__(self):
        """All of them."""
        place = self.marks.find(1)
        while place >= 0:
            yield self.one(self.first + place)
            place = self.marks.find(1, place + 1)

    def one(self, at):
        """The structure at an offset, or None."""
        if not (0 <= at - self.first < len(self.marks) and self.marks[at - self.first]):
            return None
        return Found(self.table, at, little(self.table.data, at, self.shape.type_size), self.shape.length(self.table, at))

    def of(self, at):
        """The structure that has the byte at an offset, or None."""
        found = self.before(at + 1)
        return found if found and at < found.at + found.size else None

    def before(self, at):
        """The last structure that begins before an offset, or None."""
        return self.one(self.first + self.marks.rfind(1, 0, max(0, at - self.first)))

    def stop(self):
        """Where the last structure ends."""
        last = self.before(self.end)
        return last.at + last.size if last else self.first


def told_of(found, fields):
    """The fields that a structure has, from the name, the offset, the size and the form of each."""
    numbers = ((name, found.number(at, size), form) for name, at, size, form in fields)
    return ", ".join(f"{name} is {number:{form}}" for name, number, form in numbers if number is not None)


def say_one(report, what, found, names, fields, form="d"):
    """A structure: its first bytes, what it is, and its fields. Its type has that form."""
    report.field(found.table, what, found.at, min(found.size, MOST_SHOWN))
    told, name = told_of(found, fields), names.get(found.kind, "of an unknown type")
    report.say(f"it is {name} (type {found.kind:{form}}), of {found.size} bytes{told and f': {told}'}")


def not_there(report, what, at):
    report.say(f"at offset {both(at)} is no {what}: {MISMATCH}")


def rest(report, walk, at, what):
    """Bytes that no structure takes. Returns how many there are; None if the structures do not end there."""
    left = max(0, walk.end - at)
    report.field(walk.table, f"the rest of the {walk.whole}", at, min(16, left))
    if at == walk.stop() and (left or walk.is_counted):
        return left
    every = f"{what[:-1]}ies" if what.endswith("y") else f"{what}s"
    report.say(f"a {what} begins there: {MISMATCH}" if walk.one(at) else f"the {every} end at offset {both(walk.stop())}: {MISMATCH}")
    return None


def left_over(left, walk):
    return f"{'1 byte is' if left == 1 else f'{left} bytes are'} left in the {walk.whole}"


def cut(report, walk, at, what="structure"):
    """Bytes at which no structure fits."""
    left, shape = rest(report, walk, at, what), walk.shape
    if left is None:
        return
    size = shape.length(walk.table, at)
    if left < shape.head():
        report.say(f"{left_over(left, walk)}, and a {what} has at least {shape.head()}")
    elif size is None:
        report.say("its length is not in the image")
    elif shape.least <= size <= left:
        report.say(f"a {what} of {size} bytes fits there: {MISMATCH}")
    else:
        least = f"a {what} has at least {shape.least} bytes" if size < shape.least else f"only {left} bytes are left in the {walk.whole}"
        report.say(f"its length, at {shape.length_at}, is {size}, but {least}")


def registers_from(report, address, size):
    """Says which addresses registers have, and returns the first one and the one after the last."""
    end = min(address + size, ADDRESSES)
    report.say(f"its registers are at {address:#x} to {end - 1:#x}")
    return address, end


def both_have(report, ranges, point):
    """Whether an address is in two ranges, of which one may be missing."""
    if None not in ranges:
        is_shared = all(first <= point < end for first, end in ranges)
        report.say(f"both have the address {point:#x}" if is_shared else f"not both have the address {point:#x}: {MISMATCH}")
