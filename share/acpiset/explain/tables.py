"""The tables that an RSDP leads to, and what their structures say, read whatever the checksums are."""

from itertools import accumulate
from typing import NamedTuple

from .refusal import signature_of

# Where the structures of a table begin.
FIRST = {"APIC": 44, "SRAT": 48, "PPTT": 36}

# What `show` writes of a structure, by table, type and length: its word, and of each field the name, the offset and the size in
# bytes, with an x where it is hex. Of those with a - `show` writes type and length alone. A field with a . before its name is said
# only where a line is about it.
CACHE = "cache flags:4/4x next:8/4x size:12/4 sets:16/4 ways:20/1 attributes:21/1x line:22/2"
LAYOUTS = {
    ("APIC", 0, 8): "lapic uid:2/1 id:3/1 flags:4/4x",
    ("APIC", 1, 12): "ioapic id:2/1 address:4/4x base:8/4",
    ("APIC", 2, 10): "override source:3/1 gsi:4/4 flags:8/2x",
    ("APIC", 3, 8): "nmi gsi:4/4 flags:2/2x",
    ("APIC", 4, 6): "lapic-nmi uid:2/1 flags:3/2x lint:5/1",
    ("APIC", 5, 12): "lapic-address :4/8x",
    ("APIC", 9, 16): "x2apic uid:12/4 id:4/4 flags:8/4x",
    ("APIC", 10, 12): "x2apic-nmi uid:4/4 flags:2/2x lint:8/1",
    ("APIC", 12, 24): "-gicd base:8/8x version:20/1",
    ("APIC", 13, 24): "-msi-frame id:4/4 base:8/8x .flags:16/4x",
    ("APIC", 14, 16): "-gicr base:4/8x length:12/4x .flags:2/1x",
    ("APIC", 15, 20): "-its id:4/4 base:8/8x .flags:2/1x",
    ("APIC", 17, 15): "-core-pic uid:3/4 id:7/4 flags:11/4x .version:2/1",
    ("APIC", 18, 23): "-lio-pic base:3/8x .version:2/1",
    ("APIC", 19, 21): "-ht-pic base:3/8x .version:2/1",
    ("APIC", 20, 13): "-eio-pic node:4/1 .version:2/1",
    ("APIC", 21, 19): "-msi-pic base:3/8x .version:2/1",
    ("APIC", 22, 17): "-bio-pic base:3/8x gsi:15/2 .version:2/1",
    ("APIC", 23, 14): "-lpc-pic base:3/8x .version:2/1",
    ("APIC", 25, 16): "-imsic .version:2/1 .reserved:4/4x",
    ("APIC", 26, 36): "-aplic id:3/1 base:24/8x gsi:20/4 .version:2/1",
    ("APIC", 27, 36): "-plic id:3/1 base:24/8x gsi:32/4 .version:2/1",
    ("SRAT", 0, 16): "cpu id:3/1 domain:2/1+9/3 flags:4/4x",
    ("SRAT", 1, 40): "memory domain:2/4 base:8/8x length:16/8x flags:28/4x",
    ("SRAT", 2, 24): "cpu id:8/4 domain:4/4 flags:12/4x",
    ("SRAT", 3, 18): "-gicc uid:6/4 domain:2/4 flags:10/4x",
    ("SRAT", 4, 12): "-its domain:2/4 id:8/4",
    ("SRAT", 5, 32): "-initiator domain:4/4 flags:24/4x .handle:3/1",
    ("SRAT", 6, 32): "-port domain:4/4 flags:24/4x .handle:3/1",
    ("SRAT", 7, 20): "-rintc uid:8/4 domain:4/4 flags:12/4x",
    ("PPTT", 1, 24): CACHE,
    ("PPTT", 1, 28): CACHE + " id:24/4",
}

# The same for types of at least a length: the least one, and what each greater one adds.
GROWING = {
    ("APIC", 11): {
        40: "-gicc uid:8/4 flags:12/4x parking:16/4 base:32/8x", 60: ".gicv:40/8x .gich:48/8x .maintenance:56/4", 68: "gicr:60/8x",
        76: "mpidr:68/8x", 80: ".spe:78/2", 82: ".trbe:80/2",
    },
    ("APIC", 16): {4: "-wakeup version:2/2", 8: ".reserved:4/4x", 16: "mailbox:8/8x"},
    ("APIC", 24): {20: "-rintc uid:16/4 hart:8/8 flags:4/4x .version:2/1"},
}

# The length that a type has.
LENGTHS = {
    "APIC": {0: "8", 1: "12", 2: "10", 3: "8", 4: "6", 5: "12", 9: "16", 10: "12"},
    "SRAT": {0: "16", 1: "40", 2: "24"},
    "PPTT": {1: "24 or 28"},
}

# Types at which the stages do not look.
UNREAD = {
    ("APIC", 6): "I/O SAPIC",
    ("APIC", 7): "local SAPIC",
    ("APIC", 8): "platform interrupt source",
    ("APIC", 11): "GICC",
    ("APIC", 12): "GIC distributor",
    ("APIC", 13): "GIC MSI frame",
    ("APIC", 14): "GIC redistributor",
    ("APIC", 15): "GIC ITS",
    ("APIC", 16): "multiprocessor wakeup",
    ("APIC", 17): "CORE PIC",
    ("APIC", 18): "LIO PIC",
    ("APIC", 19): "HT PIC",
    ("APIC", 20): "EIO PIC",
    ("APIC", 21): "MSI PIC",
    ("APIC", 22): "BIO PIC",
    ("APIC", 23): "LPC PIC",
    ("APIC", 24): "RINTC",
    ("APIC", 25): "IMSIC",
    ("APIC", 26): "APLIC",
    ("APIC", 27): "PLIC",
    ("SRAT", 3): "GICC affinity",
    ("SRAT", 4): "GIC ITS affinity",
    ("SRAT", 5): "generic initiator affinity",
    ("SRAT", 6): "generic port affinity",
    ("SRAT", 7): "RINTC affinity",
    ("PPTT", 2): "ID structure",
}


class Place(NamedTuple):
    """A field of a structure. Its parts are offsets and sizes."""

    name: str
    parts: list
    is_hex: bool
    is_said: bool  # with the structure, also where the line is about something else


def parsed(layout):
    """A layout's word, whether `show` writes it, and its fields."""
    word, *fields = layout.lstrip("-").split()
    places = []
    for name, _, where in (field.partition(":") for field in fields):
        parts = [tuple(map(int, part.split("/"))) for part in where.rstrip("x").split("+")]
        places.append(Place(name.lstrip("."), parts, where.endswith("x"), not name.startswith(".")))
    return word, not layout.startswith("-"), places


def grown(layouts):
    """The layouts of a type by its least lengths, the greatest of which comes first."""
    added = accumulate(layouts.values(), "{} {}".format)
    return [*zip(layouts, map(parsed, added))][::-1]


PARSED = {key: parsed(layout) for key, layout in LAYOUTS.items()}
PARSED_LONGER = {key: grown(layouts) for key, layouts in GROWING.items()}
PARSED_NODE = parsed("node flags:4/4x parent:8/4x id:12/4")
OPAQUE = ("", False, [])


def layout_of(signature, data, at):
    """The layout of the structure at an offset of a table."""
    kind, size = data[at], data[at + 1]
    for least, layout in PARSED_LONGER.get((signature, kind), ()):
        if size >= least:
            return layout
    if kind == 0 and size >= 20 and signature == "PPTT" and size == 20 + 4 * little(data, at + 16, 4):
        return PARSED_NODE
    return PARSED.get((signature, kind, size), OPAQUE)


def little(data, at, size):
    return int.from_bytes(data[at : at + size], "little")


def value_at(data, at, parts):
    """The number of a field, whose parts begin with the lowest bits."""
    value, bits = 0, 0
    for offset, size in parts:
        value |= little(data, at + offset, size) << bits
        bits += 8 * size
    return value


class Structure:
    """A structure of a MADT, an SRAT or a PPTT: its bytes, its word and its fields by name."""

    def __init__(self, signature, offset, data):
        self.offset, self.data = offset, data
        self.type, self.size = data[0], len(data)
        self.word, self.is_shown, self.places = layout_of(signature, data, 0)
        self.fields = {place.name: value_at(data, 0, place.parts) for place in self.places}

    def number(self, at, size):
        return little(self.data, at, size)

    def field_at(self, at):
        """The name of the field that begins at an offset in the structure, or None."""
        return next((place.name for place in self.places if place.parts[0][0] == at), None)

    def shown(self):
        """The line that `show` writes of it; of those that only rules of advice read, their fields are said too."""
        told = [self.word]
        for name, _, is_hex, _ in (place for place in self.places if place.is_said):
            value = f"{self.fields[name]:#x}" if is_hex else str(self.fields[name])
            told.append(f"{name} {value}" if name else value)
        if self.word == "node":
            told += ["resources", *(f"{self.number(at, 4):#x}" for at in range(20, self.size, 4))]
        told = " ".join(told)
        if not self.is_shown:
            told = f"entry type {self.type} length {self.size}" + f": {told}" * bool(told)
        return f"{self.offset:#x} {told}"


class Table:
    """A listed table: its bytes up to the first one that is not in the image."""

    def __init__(self, image, address, slot):
        head = image.part(address, 36)
        self.address, self.slot = address, slot
        self.signature, self.length = signature_of(head), int.from_bytes(head[4:8], "little")
        self.data = image.part(address, self.length)
        self.told = f"{self.signature} at {address:#x}, in slot {slot}, Length {self.length}"
        self.begun = None

    def number(self, at, size):
        part = self.data[at : at + size]
        return int.from_bytes(part, "little") if len(part) == size else None

    def marks(self):
        """A byte for each offset, 1 where a structure begins: the structures are walked once, since a table may have millions."""
        if self.begun is None:
            data, at, end = self.data, FIRST.get(self.signature, 36), len(self.data)
            self.begun = marks = bytearray(end)
            size = data[at + 1] if at + 2 <= end else 0
            while size >= 2 and at + size <= end:
                marks[at] = 1
                at += size
                size = data[at + 1] if at + 2 <= end else 0
        return self.begun

    def begins(self, offset):
        return offset < len(self.marks()) and self.marks()[offset] == 1

    def structure(self, offset):
        """The structure at an offset, or None if none begins."""
        if not self.begins(offset):
            return None
        return Structure(self.signature, offset, self.data[offset : offset + self.data[offset + 1]])

    def before(self, offset):
        """The last structure that begins before an offset, or None."""
        at = self.marks().rfind(1, 0, offset)
        return self.structure(at) if at >= 0 else None

    def places(self, *types):
        """The offsets of the structures of these types; all of them where none is named."""
        marks = self.marks()
        at = marks.find(1)
        while at >= 0:
            if not types or self.data[at] in types:
                yield at
            at = marks.find(1, at + 1)

    def structures(self, *types):
        return (self.structure(at) for at in self.places(*types))

    def values(self, name, *types):
        """The values of a field of all structures of these types that have it, each with the structure's offset."""
        for at in self.places(*types):
            _, _, places = layout_of(self.signature, self.data, at)
            for place in places:
                if place.name == name:
                    yield value_at(self.data, at, place.parts), at


# Structures of chains that are listed for all lines together.
MOST_OF_CHAINS = 1000


class Tables:
    """The RSDP of an image, the XSDT or RSDT that it names, and the tables that this lists."""

    def __init__(self, image, given):
        self.image, self.note = image, ""
        self.rsdp = given if given is not None else self.found()
        self.named, self.root, self.width, self.slots = None, None, 4, ()
        self.signatures, self.firsts = {}, {}
        self.chain_left, self.listed = MOST_OF_CHAINS, set()
        if self.rsdp is not None:
            self.read_root()

    def found(self):
        """The RSDP that the head of the image text tells, else the one that `find` finds, else the first one. Where the image has others,
        a note says so."""
        addresses = list(self.image.rsdps())
        told = self.image.told_rsdp()
        searched = [address for address in addresses if 0xE0000 <= address <= 0xFFFF0 and address % 16 == 0]
        first = told if told is not None else (searched or addresses or [None])[0]
        if {*addresses} - {first}:
            addresses = {*addresses, first}
            self.note = f"(the image has {len(addresses)} RSDPs; this is by the one at {first:#x}, and --rsdp HEX takes another)"
        return first

    def of_chain(self, size):
        """How many structures of a chain of so many are listed: the first one, and others as long as there are not too many of all."""
        listed = min(size, max(self.chain_left, 1))
        self.chain_left -= listed
        return listed

    def read_root(self):
        number = self.image.number
        wide = number(self.rsdp + 24, 8) if (number(self.rsdp + 15, 1) or 0) >= 2 else 0
        self.width = 8 if wide else 4
        self.named = wide or number(self.rsdp + 16, 4) or None
        if self.named is None or not self.image.has(self.named, 36):
            return
        self.root = self.named
        size = max(0, number(self.root + 4, 4) - 36)
        data = self.image.part(self.root + 36, size)
        whole = len(data) // self.width * self.width
        self.slots = [int.from_bytes(data[at : at + self.width], "little") for at in range(0, whole, self.width)]

    def signature(self, address):
        """The signature of the table at an address, or None if its header is not in the image."""
        if address not in self.signatures:
            head = self.image.part(address, 36)
            self.signatures[address] = signature_of(head) if len(head) == 36 else None
        return self.signatures[address]

    def first(self, signature):
        """The first listed table with a signature, or None."""
        if signature not in self.firsts:
            slots = enumerate(self.slots)
            found = next((slot for slot, address in slots if address and self.signature(address) == signature), None)
            self.firsts[signature] = None if found is None else Table(self.image, self.slots[found], found)
        return self.firsts[signature]
