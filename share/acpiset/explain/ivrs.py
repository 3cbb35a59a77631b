"""What lines on the IVRS are about."""

from .entries import in_ranges, kept
from .further_tables import length
from .image import ADDRESSES
from .program import MISMATCH
from .report import both, known
from .walked import Shape, Walk, cut, left_over, not_there, rest, say_one

FIRST, SHAPE = 48, Shape(1, 2, 2, 4)
IVHDS, IVMDS = (0x10, 0x11, 0x40), range(0x20, 0x24)
NAMES = {**dict.fromkeys(IVHDS, "an IVHD"), **dict.fromkeys(IVMDS, "an IVMD")}
# The least length of each type, and where the device entries of a type begin.
LEAST = {0x10: 24, 0x11: 40, 0x40: 40, **dict.fromkeys(IVMDS, 32)}
ENTRIES = {0x10: 24, 0x11: 40, 0x40: 40}
# Their fields: of each the name, the offset, the size and the form.
DEVICE_ID, FLAGS = ("DeviceID", 4, 2, "#x"), ("Flags", 1, 1, "#x")
MEMORY = [("IVMD Start Address", 16, 8, "#x"), ("IVMD Memory Block Length", 24, 8, "#x")]
FIELDS = {
    **dict.fromkeys(IVHDS, [DEVICE_ID, ("IOMMU Base Address", 8, 8, "#x"), ("PCI Segment Group", 16, 2, "d")]),
    **dict.fromkeys(IVMDS, [FLAGS, DEVICE_ID, *MEMORY]), 0x22: [FLAGS, DEVICE_ID, ("the last DeviceID", 6, 2, "#x"), *MEMORY],
}
START, END, SPECIAL, ACPI_HID = 3, 4, 0x48, 0xF0
ENTRY_NAMES = {
    0: "padding", 1: "an entry of all devices", 2: "an entry of one device", START: "the start of a range", END: "the end of a range",
    0x40: "padding", 0x42: "an entry of one device, with an alias", 0x43: "the start of a range with an alias",
    0x46: "an entry of one device, with an extended setting", 0x47: "the start of a range with an extended setting",
    SPECIAL: "a special device", ACPI_HID: "an ACPI HID device",
}
ID, SOURCE = ("DeviceID", 1, 2, "#x"), ("Source Device ID", 5, 2, "#x")
ENTRY_FIELDS = {
    **dict.fromkeys((1, 2, START, END, 0x46, 0x47), [ID]), **dict.fromkeys((0x42, 0x43), [ID, SOURCE]),
    SPECIAL: [("Handle", 4, 1, "d"), SOURCE, ("Variety", 7, 1, "d")],
    ACPI_HID: [ID, ("the first byte of Hardware ID", 4, 1, "#x"), ("UID Format", 20, 1, "d"), ("UID Length", 21, 1, "d")],
}
IO_APIC = 1
# Of a device entry of type 0xf0 the bytes before the UID, the last of which is its length.
BEFORE_UID = 22


class EntryShape:
    """What walked.Shape is, of device entries, whose length follows from their type."""

    type_size, least = 1, 4

    def length(self, table, at):
        """The length of a device entry at an offset; None if its type has none, or it is not in the table."""
        kind, uid = table.number(at, 1), table.number(at + BEFORE_UID - 1, 1)
        if kind == ACPI_HID and uid is not None:
            return BEFORE_UID + uid
        return None if kind is None or kind >= 0x80 else 8 if kind >= 0x40 else 4


ENTRY_SHAPE = EntryShape()


def ivrs(report, code, at, other, point):
    table = report.table("IVRS")
    if not table:
        return
    walk = Walk(table, SHAPE, FIRST)
    if code == 259:
        blocks(report, walk, at)
    elif code == 261:
        no_ivhd(report, table)
    elif code == 265:
        cut_entries(report, walk, at)
    elif code == 268:
        not_named(report, table, at)
    elif code in (266, 267, 269):
        of_entries(report, walk, code, at, other)
    else:
        of_blocks(report, walk, code, at, other)


def blocks(report, walk, at):
    """What the rule is about that blocks fill the table."""
    if at == 4:
        length(report, walk.table, FIRST)
        return
    cut(report, walk, at, "block")
    before = walk.before(at)
    if before:
        say(report, "the block before", before)


def say(report, what, found):
    say_one(report, what, found, NAMES, FIELDS.get(found.kind, []), "#x")


def no_ivhd(report, table):
    types = types_of(table)
    report.field(table, "its header", 0, 36)
    told = f"an IVHD has the type 0x10, 0x11 or 0x40: {MISMATCH}" if types & {*IVHDS} else "an IVHD would have the type 0x10, 0x11 or 0x40"
    report.say(f"the types of its blocks: {', '.join(f'{kind:#x}' for kind in sorted(types)) or 'none'}; {told}")


@kept
def types_of(table):
    return {found.kind for found in Walk(table, SHAPE, FIRST)}


def of_blocks(report, walk, code, at, other):
    """What a rule on a block, or on two, is about."""
    for what, place in [("the block", at), ("the other block", other)][: 2 if code in (263, 264) else 1]:
        found = walk.one(place)
        if not found:
            not_there(report, "block", place)
            continue
        say(report, what, found)
        if code == 260:
            report.say(f"its length is {found.size}, and must be at least {LEAST.get(found.kind, SHAPE.least)}")
        elif code == 270:
            memory(report, found)


def memory(report, found):
    """Where the memory of an IVMD ends."""
    start, size = found.number(16, 8), found.number(24, 8)
    if found.kind in IVMDS and size is not None:
        report.say(f"its memory ends before {start + size:#x}, and at most {ADDRESSES:#x} is allowed")


# ---- device entries


def entries_in(found):
    """The device entries of a block, or None if its type has none, or it is too short."""
    first = ENTRIES.get(found.kind) if found else None
    if first is None or found.size < first:
        return None
    return Walk(found.table, ENTRY_SHAPE, found.at + first, within=found, whole="block")


def cut_entries(report, walk, at):
    """Bytes at which no device entry fits."""
    found = walk.of(at)
    entries = entries_in(found)
    if not entries or at < entries.first:
        not_there(report, "device entry", at)
        return
    say(report, "the block", found)
    left = rest(report, entries, at, "device entry")
    if left is None:
        return
    kind, size = walk.table.number(at, 1), ENTRY_SHAPE.length(walk.table, at)
    if kind == ACPI_HID and left < BEFORE_UID:
        size = BEFORE_UID
    told = "has no length" if size is None else f"has {size} bytes or more" if size == BEFORE_UID else f"has {size} bytes"
    report.say(f"{left_over(left, entries)}, and a device entry of the type there, {known(kind, '#x')}, {told}")
    before = entries.before(at)
    if before:
        say_entry(report, "the device entry before", before)


def say_entry(report, what, found):
    say_one(report, what, found, ENTRY_NAMES, ENTRY_FIELDS.get(found.kind, []), "#x")


def of_entries(report, walk, code, at, other):
    """What a rule on a device entry, or on two, is about."""
    for what, place in [("the device entry", at), ("the other device entry", other)][: 2 if code == 269 else 1]:
        block = walk.of(place)
        entries = entries_in(block)
        found = entries.one(place) if entries else None
        if not found:
            not_there(report, "device entry", place)
            continue
        say_entry(report, what, found)
        report.say(f"it is in an IVHD of type {block.kind:#x} at offset {both(block.at)}")
        if code == 267:
            around(report, entries, found)


def around(report, entries, found):
    """The device entries before and after one."""
    for what, one in (("the device entry before", entries.before(found.at)), ("the next device entry", entries.one(found.at + found.size))):
        if one:
            say_entry(report, what, one)
        else:
            report.say(f"{what}: none")


def not_named(report, table, at):
    """An I/O APIC of the MADT, and those that the special devices of each type of IVHDs are."""
    for kind, handles in sorted(io_apics_of(table).items()):
        report.say(f"the special devices of Variety {IO_APIC} in IVHDs of type {kind:#x} have the Handles {in_ranges(handles)}")
    if not io_apics_of(table):
        report.say(f"no IVHD has a special device of Variety {IO_APIC}: {MISMATCH}")
    apic = report.table("APIC")
    if apic:
        report.named(apic, "the structure", at)


@kept
def io_apics_of(table):
    """The Handles of the special devices that are I/O APICs, by the types of the IVHDs that have some."""
    handles = {}
    for block in Walk(table, SHAPE, FIRST):
        for found in entries_in(block) or ():
            if found.kind == SPECIAL and found.number(7, 1) == IO_APIC:
                handles.setdefault(block.kind, set()).add(found.number(4, 1))
    return handles
