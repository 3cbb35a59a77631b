"""The set of tables of an image rebuilt at another address, from the layouts of ACPI 6.5, section 5.2, and from what docs/REBUILD.md
says, alone: a second program, to compare the first with. It is for clean sets."""

from .table_set import TableSet, complete_table, fadt_of
from .tables import number, summed
from .text import TOP, Image, Refused, read, text_of

ALIGNMENT = 64
LOW = 1 << 32

# Where each kind of entry has reserved bytes, by its type: offset and size (5.2.12, 5.2.16, 5.2.30).
MADT = (44, {1: [(3, 1)], 5: [(2, 2)], 9: [(2, 2)], 10: [(9, 3)]})
SRAT = (48, {1: [(6, 2), (24, 4), (32, 8)], 2: [(2, 2), (20, 4)]})
PPTT = (36, {0: [(2, 2)], 1: [(2, 2)]})
ENTRY_TABLES = {b"APIC": MADT, b"SRAT": SRAT, b"PPTT": PPTT}

# The FADT's fields for the FACS's address (5.2.9).
FIRMWARE_CTRL = slice(36, 40)
X_FIRMWARE_CTRL = slice(132, 140)
X_LENGTH = 140


class NotRebuilt(Exception):
    """The set cannot be placed at this address; the name is the one that the program writes."""


def placed(sizes, base):
    """The addresses of pieces of these sizes, from the base address on."""
    places = []
    for size in sizes:
        base += -base % ALIGNMENT
        places.append(base)
        base += size
        if base > TOP:
            raise NotRebuilt("PastEnd")
    return places


def without_reserved(data, first, reserved):
    """A table of entries from this offset on, the reserved bytes of each 0."""
    data = bytearray(data)
    at = first
    while at < len(data):
        for offset, size in reserved.get(data[at], ()):
            data[at + offset : at + offset + size] = bytes(size)
        at += data[at + 1]
    return data


def retyped(signature, data):
    """The first table with a signature that the checker looks into, its reserved bytes as the standard has them."""
    if signature not in ENTRY_TABLES:
        return data
    data = without_reserved(data, *ENTRY_TABLES[signature])
    if signature == b"SRAT":
        data[36:48] = number(1, 4) + bytes(8)
    return summed(data, 9)


def fadt_at(data, facs):
    """The FADT with this address of the FACS, 0 for none."""
    data = bytearray(data)
    wide = len(data) >= X_LENGTH
    if facs >= LOW and not wide:
        raise NotRebuilt("NeedsLow")
    data[FIRMWARE_CTRL] = number(0 if wide else facs, 4)
    if wide:
        data[X_FIRMWARE_CTRL] = number(facs, 8)
    return summed(data, 9)


def rsdp_at(oemid, xsdt):
    first = summed(b"RSD PTR \0" + oemid + b"\2" + bytes(4), 8)
    return summed(first + number(36, 4) + number(xsdt, 8) + bytes(4), 32)


def xsdt_of(root, places):
    """The root with slots of 8 bytes, and else with what the old one says of itself."""
    slots = b"".join(number(place, 8) for place in places)
    return summed(b"XSDT" + number(36 + len(slots), 4) + root[8:9] + b"\0" + root[10:36] + slots, 9)


def facs_of(tables):
    at = fadt_of(tables).facs
    return tables.image.present(at, tables.image.present(at, 8).number(4, 4)).data if at else b""


def rebuilt(image, rsdp, base):
    """The text of the set that is rebuilt from the base address on."""
    if base % ALIGNMENT:
        raise NotRebuilt("Unaligned")
    tables = TableSet(image, rsdp)
    listed = {slot: complete_table(image, address).data for slot, address in tables.slots.items()}
    for signature, slot in tables.first_slots.items():
        listed[slot] = retyped(signature, listed[slot])
    facs = facs_of(tables)
    sizes = [36, 36 + 8 * len(listed), *([len(facs)] if facs else []), *map(len, listed.values())]
    new_rsdp, new_root, *places = placed(sizes, base)
    new_facs = places.pop(0) if facs else 0
    fadt = tables.first_slots[b"FACP"]
    listed[fadt] = fadt_at(listed[fadt], new_facs)
    new = {new_rsdp: rsdp_at(image.present(rsdp, 20).data[9:15], new_root), new_root: xsdt_of(tables.root.data, places)}
    new.update({new_facs: facs} if facs else {})
    new.update(zip(places, listed.values()))
    return text_of(Image(new).pieces()).decode()


def read_back(text):
    """The image of a text that is in the form in which `rebuild` writes: runs that do not touch, in rising order, 16 bytes a line. None
    where it has another form."""
    try:
        image = read(text.encode())
    except Refused:
        return None
    return image if image.starts and text_of(image.pieces()).decode() == text else None
