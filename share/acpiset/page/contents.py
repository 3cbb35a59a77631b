"""What the pictures show: the items of `show`'s lines, and of the entries that `show` writes no fields of what the image has."""

from typing import NamedTuple, Optional

from explain.entries import is_advised
from explain.tables import LENGTHS, UNREAD

# The signatures of the tables whose entries `show` writes, by the word that it has for the table.
SIGNATURES = {"madt": "APIC", "srat": "SRAT", "pptt": "PPTT"}
NAMES = {"APIC": "MADT", "FACP": "FADT"}

# Of each kind of processor its name, the bit of its flags that is Online Capable, and whether affinities have its UID, not its ID.
PROCESSORS = {
    "lapic": ("local APIC", 1, False),
    "x2apic": ("local x2APIC", 1, False),
    "gicc": ("GICC", 3, True),
    "rintc": ("RINTC", 1, True),
    "core-pic": ("CORE PIC", None, False),
}
# The type of nodes, whose length is no constant.
NODE = ("PPTT", 0)
TYPES_OF_PROCESSORS, TYPES_OF_AFFINITIES = (11, 17, 24), (3, 7)


class Processor(NamedTuple):
    offset: int
    kind: str
    uid: int
    id: Optional[int]
    state: str  # on, capable or off
    domain: Optional[int]
    affinities: tuple  # the offsets of the entries of the SRAT that name it


class Range(NamedTuple):
    """A range of memory of the SRAT."""

    offset: int
    domain: int
    first: int
    end: int
    flags: int

    @property
    def is_enabled(self):
        return self.flags & 1 == 1

    @property
    def is_pluggable(self):
        return self.flags >> 1 & 1 == 1

    @property
    def is_lasting(self):
        return self.flags >> 2 & 1 == 1


class IoApic(NamedTuple):
    offset: int
    id: int
    address: int
    base: int
    inputs: int
    is_given: bool  # whether the number of inputs is

    @property
    def end(self):
        return self.base + self.inputs


class Node(NamedTuple):
    """A node of the PPTT."""

    offset: int
    flags: int
    parent: int
    id: int
    resources: tuple


class Cache(NamedTuple):
    offset: int
    flags: int
    next: int
    size: int
    sets: int
    ways: int
    attributes: int
    line: int


class Unread(NamedTuple):
    """Entries of one type whose contents no stage checks."""

    type: int
    name: str
    count: int
    is_advised: bool


def value_of(word):
    """A number of a line, which is decimal or hexadecimal."""
    return int(word, 0) if isinstance(word, str) else word


class Contents:
    """The contents of a set. `shown` is what `report` makes of the lines of `show`; `tables` are the image's, if there is one."""

    def __init__(self, shown: dict, tables, settings):
        self.shown, self.tables, self.settings = shown, tables, settings
        self.affinities = self.read_affinities()
        self.processors = [self.processor(*found) for found in self.found_processors()]
        self.ranges = [self.range_of(entry) for entry in self.entries("srat", "memory")]
        self.io_apics = [self.io_apic(entry) for entry in self.entries("madt", "ioapic")]
        self.nodes = {node.offset: node for node in map(node_of, self.entries("pptt", "node"))}
        self.caches = {cache.offset: cache for cache in map(cache_of, self.entries("pptt", "cache"))}

    def entries(self, table: str, *kinds):
        """The entries of a table that have one of these kinds."""
        entries = self.shown.get(table, {}).get("entries")
        for entry in entries.of_kinds(kinds) if entries else ():
            yield {name: value_of(value) if name not in ("kind", "resources") else value for name, value in entry.items()}

    def structures(self, signature: str, *types):
        """The image's structures of some types; none without an image."""
        table = self.tables.first(signature) if self.tables else None
        return table.structures(*types) if table else ()

    def distances(self):
        """The rows of the SLIT."""
        return [*self.shown.get("slit", {}).get("rows", ())]

    # ---- processors, and the domains that they are in

    def read_affinities(self):
        """Of each processor that the SRAT names, by whether it is by its UID and by this number, the domain and the offset of each
        enabled affinity."""
        found = [(False, entry["id"], entry["domain"], entry["offset"], entry["flags"]) for entry in self.entries("srat", "cpu")]
        for one in self.structures("SRAT", *TYPES_OF_AFFINITIES):
            if one.word:
                found.append((True, *(one.fields[name] for name in ("uid", "domain")), one.offset, one.fields["flags"]))
        named = {}
        for is_uid, number, domain, offset, flags in found:
            if flags & 1:
                named.setdefault((is_uid, number), []).append((domain, offset))
        return named

    def found_processors(self):
        for entry in self.entries("madt", "lapic", "x2apic"):
            yield entry["offset"], entry["kind"], entry
        for one in self.structures("APIC", *TYPES_OF_PROCESSORS):
            if one.word:
                yield one.offset, one.word, one.fields

    def processor(self, offset, word, fields):
        kind, capable, is_by_uid = PROCESSORS[word]
        own = self.affinities.get((is_by_uid, fields["uid" if is_by_uid else "id"]), [])
        flags = fields["flags"]
        state = "on" if flags & 1 else "capable" if capable is not None and flags >> capable & 1 else "off"
        domain = own[0][0] if own else None
        return Processor(offset, kind, fields["uid"], fields.get("id", fields.get("hart")), state, domain, tuple(at for _, at in own))

    # ---- memory and interrupts

    @staticmethod
    def range_of(entry):
        return Range(entry["offset"], entry["domain"], entry["base"], entry["base"] + entry["length"], entry["flags"])

    def io_apic(self, entry):
        address = entry["address"]
        is_given = address in self.settings.counts or self.settings.default_inputs is not None
        return IoApic(entry["offset"], entry["id"], address, entry["base"], self.settings.inputs(address), is_given)

    def sci(self):
        """SCI_INT of a FADT whose hardware is not reduced, and the number that an override of the ISA bus gives it; else None."""
        fadt = self.shown.get("fadt", {})
        if "sci" not in fadt or fadt["reduced"]:
            return None
        overrides = {entry["source"]: entry["gsi"] for entry in reversed(list(self.entries("madt", "override")))}
        return fadt["sci"], overrides.get(fadt["sci"], fadt["sci"])

    # ---- how far the tables are checked

    def unread(self, table: str) -> list:
        """The entries of a table whose contents no stage checks, by type."""
        signature, found = SIGNATURES[table], {}
        for entry in self.entries(table, "entry"):
            kind, size = entry["type"], entry["length"]
            if kind not in LENGTHS[signature] and (signature, kind) != NODE:
                key = kind, is_advised(signature, kind, size)
                found[key] = found.get(key, 0) + 1
        return [Unread(kind, UNREAD.get((signature, kind), ""), count, is_read) for (kind, is_read), count in found.items()]


def node_of(entry):
    return Node(*(entry[name] for name in ("offset", "flags", "parent", "id")), tuple(map(value_of, entry["resources"])))


def cache_of(entry):
    return Cache(*(entry[name] for name in Cache._fields))
