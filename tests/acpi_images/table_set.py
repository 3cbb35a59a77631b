"""What the second programs read: the policy, the tables that the RSDP leads to, and their entries, from the
layouts of ACPI 6.5, section 5.2, alone. A table is read where its bytes are present, whatever they sum to."""

from __future__ import annotations

from dataclasses import dataclass, field
from typing import NamedTuple

from .text import Bytes, Image

HEADER = 36
# The FADT's register blocks: the name that `show` writes, the offsets of the 4-byte address, of the length and of the generic address
# structure (5.2.9).
BLOCKS = (
    ("PM1a_EVT", 56, 88, 148), ("PM1b_EVT", 60, 88, 160), ("PM1a_CNT", 64, 89, 172), ("PM1b_CNT", 68, 89, 184),
    ("PM2_CNT", 72, 90, 196), ("PM_TMR", 76, 91, 208), ("GPE0", 80, 92, 220), ("GPE1", 84, 93, 232),
)
# Where `find_rsdp` looks (5.2.5.1).
PLACES = range(0xE0000, 0x100000, 16)


@dataclass
class Policy:
    """What the tables do not say: the inputs of the I/O APICs, and what is counted."""

    default_inputs: int = 24
    inputs: dict[int, int] = field(default_factory=dict)
    hotplug: str = "counted"
    processors: str = "enabled"

    def inputs_of(self, address):
        return self.inputs.get(address, self.default_inputs)


class Finding(NamedTuple):
    """A fault or a broken rule: its name and its three numbers."""

    name: str
    at: int = 0
    other: int = 0
    point: int = 0

    def __str__(self):
        return " ".join((self.name, *map(hex, self[1:])))


def find_rsdp(image):
    """The least address at which a search finds an RSDP, or None."""
    for start, data in zip(image.starts, image.runs):
        for address in range(max(start + -start % 16, PLACES.start), min(start + len(data), PLACES.stop), 16):
            head = image.present(address, 20)
            if head and head.data[:8] == b"RSD PTR " and head.sums_to_0():
                return address
    return None


# ---- structures of a fixed size


class Structure(Bytes):
    """A structure of a table, with its offset."""

    def __init__(self, offset, data):
        super().__init__(data)
        self.offset = offset


def structures_of(table, first, size):
    """The structures of this size that a table has from this offset on, one after another. A part of one at the end is none."""
    return [Structure(at, table.data[at : at + size]) for at in range(first, len(table) - size + 1, size)]


def parts_of(structure, first, size, count):
    """So many structures of this size within another one, from this offset of it on, each with its offset in the table."""
    places = range(first, first + size * count, size)
    return [Structure(structure.offset + at, structure.data[at : at + size]) for at in places]


class Walk(NamedTuple):
    """Structures that follow one another, and where none fits any more: the offset, the length that is said there, or 0 if it ends before,
    and the end of the table; or None."""

    structures: list[Structure]
    cut: tuple[int, int, int] | None


def walk(table, first, length_at, length_size, least, count=None):
    """The structures of a table from this offset on, each of which says its length at this place and is no shorter than the least one: all
    up to the end of the table, or so many."""
    structures, at, end = [], first, len(table)
    while at < end if count is None else len(structures) < count:
        has_length = at + length_at + length_size <= end
        size = table.number(at + length_at, length_size) if has_length else 0
        if size < least or at + size > end:
            return Walk(structures, (at, size, end))
        structures.append(Structure(at, table.data[at : at + size]))
        at += size
    return Walk(structures, None)


def walk_within(structure, first, length_at, length_size, least):
    """The same of the structures within another one, up to its end, by offsets in the table."""
    inner, cut = walk(structure, first, length_at, length_size, least)
    for it in inner:
        it.offset += structure.offset
    return Walk(inner, cut and (structure.offset + cut[0], cut[1], structure.offset + cut[2]))


# ---- entries: byte 0 is the type and byte 1 the length (5.2.12, 5.2.16, 5.2.30)


class Entry(Structure):
    """An entry of a table: a structure with its type."""

    def __init__(self, offset, data):
        super().__init__(offset, data)
        self.kind = self.data[0]


@dataclass
class Entries:
    """The entries, one after another, and the cut: the offset at which no further entry can begin, or None."""

    entries: list[Entry]
    cut: int | None

    def typed(self, *kinds):
        """Those of these types that have a length of their type."""
        return [entry for entry in self.entries if entry.kind in kinds and self.is_typed(entry)]

    def is_well_formed(self):
        """Whether there is no cut, and no entry of a type that the stages read has a length that is none of its type."""
        return self.cut is None and all(self.is_typed(entry) for entry in self.entries if entry.kind in self.LENGTHS)


class MadtEntries(Entries):
    FIRST = 44
    LENGTHS = {0: 8, 1: 12, 2: 10, 3: 8, 4: 6, 5: 12, 9: 16, 10: 12}

    def is_typed(self, entry):
        return len(entry) == self.LENGTHS.get(entry.kind)


class SratEntries(MadtEntries):
    FIRST = 48
    LENGTHS = {0: 16, 1: 40, 2: 24}


class PpttEntries(Entries):
    FIRST = 36
    LENGTHS = {0: "20 and 4 for each reference", 1: "24 or 28"}

    def is_typed(self, entry):
        if entry.kind == 0:
            return len(entry) >= 20 and len(entry) == 20 + 4 * entry.number(16, 4)
        return entry.kind == 1 and len(entry) in (24, 28)


def entries_of(kind, table):
    """The entries of a table of this kind, or None if there is no such table or it ends before its first entry's place."""
    if table is None or len(table) < kind.FIRST:
        return None
    entries, at, data = [], kind.FIRST, table.data
    while at < len(data):
        size = data[at + 1] if at + 2 <= len(data) else 0
        if size < 2 or at + size > len(data):
            return kind(entries, at)
        entries.append(Entry(at, data[at : at + size]))
        at += size
    return kind(entries, None)


def is_enabled(flags):
    return flags & 1 == 1


def domain_of(entry):
    """The proximity domain of an SRAT entry of type 0 to 7 (5.2.16)."""
    if entry.kind == 0:
        return entry.number(2, 1) + (entry.number(9, 3) << 8)
    return entry.number(4 if entry.kind in (2, 5, 6, 7) else 2, 4)


# ---- the tables


def complete_table(image, address):
    """A table's bytes, where its header and all of its Length, of at least 36, are present; else None (5.2.6)."""
    header = image.present(address, HEADER)
    length = header.number(4, 4) if header else 0
    return image.present(address, length) if length >= HEADER else None


class TableSet:
    """What an RSDP leads to, as far as it is there.

    `root_at` is None if the RSDP cannot be read and 0 where it names no root, `root` None if that is not complete;
    `slots` are the addresses that it lists, by slot, without those of 0; `headers` the headers that are present there."""

    def __init__(self, image, rsdp):
        self.image, self.rsdp = image, rsdp
        self.root_at, self.width = self.root_place()
        self.signature = b"XSDT" if self.width == 8 else b"RSDT"
        self.root = complete_table(image, self.root_at) if self.root_at else None
        if self.root and self.root.data[:4] != self.signature:
            self.root = None
        self.slots = self.listed()
        present = {address: image.present(address, HEADER) for address in set(self.slots.values())}
        self.headers = {slot: present[address] for slot, address in self.slots.items() if present[address]}
        self.first_slots = {}
        for slot, header in self.headers.items():
            self.first_slots.setdefault(header.data[:4], slot)
        self.madt = entries_of(MadtEntries, self.table(b"APIC"))
        self.srat = entries_of(SratEntries, self.table(b"SRAT"))
        self.pptt = entries_of(PpttEntries, self.table(b"PPTT"))

    def root_place(self):
        """The root's address and the width of its slots (5.2.5.3)."""
        head = self.image.present(self.rsdp, 20)
        if not head:
            return None, 0
        if head.number(15, 1) >= 2:
            long = self.image.present(self.rsdp, 36)
            if not long:
                return None, 0
            if long.number(24, 8):
                return long.number(24, 8), 8
        return head.number(16, 4), 4

    def listed(self):
        """The slots that lie wholly below the root's Length (5.2.7, 5.2.8)."""
        if not self.root:
            return {}
        count = (len(self.root) - HEADER) // self.width
        addresses = (self.root.number(HEADER + self.width * slot, self.width) for slot in range(count))
        return {slot: address for slot, address in enumerate(addresses) if address}

    def table(self, signature):
        """The first listed table with the signature, where it is complete; else None."""
        slot = self.first_slots.get(signature)
        return None if slot is None else complete_table(self.image, self.slots[slot])


class Fadt:
    """The fields of a FADT of at least 116 bytes. A field exists where it lies wholly below Length (5.2.9)."""

    LEAST = 116

    def __init__(self, table):
        self.bytes = table
        self.flags = table.number(112, 4)
        self.reduced = self.flags >> 20 & 1 == 1
        self.facs = self.field(132, 8) or self.field(36, 4)

    def field(self, at, size):
        """The field's number, 0 where it does not exist."""
        return self.bytes.number(at, size) if at + size <= len(self.bytes) else 0


def fadt_of(tables):
    """The FADT of a set, or None if there is none with all fields of the least Length."""
    table = tables.table(b"FACP")
    return Fadt(table) if table and len(table) >= Fadt.LEAST else None


def slit_count(table):
    """How many localities a SLIT has, or None if its Length is not that of this many (5.2.17)."""
    if table is None or len(table) < 44:
        return None
    count = table.number(36, 8)
    return count if len(table) == 44 + count * count else None
