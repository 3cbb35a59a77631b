"""What lines on the MCFG, the HPET and the SPCR are about, tables that only rules of advice read."""

from .entries import io_apics, listing
from .fadt import no_field, register
from .image import ADDRESSES
from .program import MISMATCH
from .report import both, known

# Where the entries of the MCFG begin, and how many bytes each has. Of an ECAM each bus has 1 MiB.
FIRST_ENTRY, ENTRY_SIZE = 44, 16
BUS_SIZE = 1 << 20
BUSES = 256
# Where the HPET and the SPCR have the base address.
BASE_ADDRESS = 40
# The bits of the interrupt type of an SPCR.
IO_APIC, GIC = 2, 8
MOST_OF_STRING = 64
# Fields of the SPCR that follow one another: what they are, and of each the name, the offset and the size.
SPEED = "the baud rate", [("the baud rate", 58, 1)]
INTERRUPT = "the interrupt", [("the interrupt type", 52, 1), ("IRQ", 53, 1), ("GSI", 54, 4)]
IDS = "the PCI IDs", [("the PCI device ID", 64, 2), ("the PCI vendor ID", 66, 2)]
NUMBERS = "the PCI numbers", [("the PCI bus number", 68, 1), ("the PCI device number", 69, 1), ("the PCI function number", 70, 1)]
STRING = "the string's length and offset", [("NamespaceStringLength", 84, 2), ("NamespaceStringOffset", 86, 2)]
# Those that a line is about, by its rule and the offset that it names.
FIELDS = {
    (273, 58): SPEED, **dict.fromkeys(((274, 52), (274, 53), (274, 54)), INTERRUPT), (275, 64): IDS,
    **dict.fromkeys(((275, 69), (275, 70)), NUMBERS), (276, 84): STRING, (276, 86): STRING,
}
# The offsets of those that are said in hex.
IN_HEX = {52, 64, 66}


# ---- the MCFG


class Entry:
    """An entry of the MCFG."""

    def __init__(self, table, at):
        self.base, self.segment = table.number(at, 8), table.number(at + 8, 2)
        self.first, self.last = table.number(at + 10, 1), table.number(at + 11, 1)

    def ecam(self):
        """The first address of its ECAM, and the one after the last; none if the entry has no ECAM."""
        if self.base == 0 or self.last < self.first:
            return 0, 0
        return self.base + BUS_SIZE * self.first, min(self.base + BUS_SIZE * (self.last + 1), ADDRESSES)

    def buses(self):
        """The same of its buses, counted on through all segments."""
        return BUSES * self.segment + self.first, BUSES * self.segment + self.last + 1


def mcfg(report, code, at, other, point):
    table = report.table("MCFG")
    if not table:
        return
    if code == 185:
        length_of_entries(report, table)
        return
    entry = named_entry(report, table, "the entry", at)
    if code in (190, 191):
        second = named_entry(report, table, "the other entry", other)
        if entry and second:
            shared(report, code, entry, second, point)
    elif entry and code == 188:
        end = entry.base + BUS_SIZE * (entry.last + 1)
        report.say(f"bus {entry.last} ends at {end:#x}, and at most {ADDRESSES:#x} is allowed")
    elif entry and code == 189:
        report.say(f"the MCFG's Revision is {known(table.number(8, 1))}, and its OEMID is {table.data[10:16].hex(' ')}")


def length_of_entries(report, table):
    """How many entries the Length of the MCFG is."""
    report.field(table, "its header", 0, 36)
    count, left = divmod(max(table.length - FIRST_ENTRY, 0), ENTRY_SIZE)
    told = f"{count} entries of {ENTRY_SIZE} bytes from {FIRST_ENTRY} on, and {left} bytes more"
    if table.length < FIRST_ENTRY:
        told = f"the entries begin at {FIRST_ENTRY}"
    report.say(f"Length is {table.length}: {told}; up to entry {count + 1} it is {FIRST_ENTRY + ENTRY_SIZE * (count + 1)}")


def named_entry(report, table, what, at):
    """Says what an entry is that the line names, and returns it; None where no complete entry begins."""
    if at < FIRST_ENTRY or (at - FIRST_ENTRY) % ENTRY_SIZE or at + ENTRY_SIZE > len(table.data):
        report.say(f"at offset {both(at)} no entry begins: {MISMATCH}")
        return None
    report.field(table, what, at, ENTRY_SIZE)
    entry = Entry(table, at)
    buses = f"start bus {entry.first}, and the end bus {entry.last}"
    report.say(f"it has the base address {entry.base:#x}, the segment {entry.segment}, the {buses}")
    return entry


def shared(report, code, entry, second, point):
    """What two entries both have: a bus, or an address of their ECAMs."""
    ranges = [one.buses() if code == 190 else one.ecam() for one in (entry, second)]
    if code == 191:
        for what, (first, end) in zip(("the entry", "the other entry"), ranges):
            report.say(f"the ECAM of {what} is {first:#x} to {end - 1:#x}" if first < end else f"{what} has no ECAM")
    told = f"bus {point % BUSES} of segment {point // BUSES}" if code == 190 else f"the address {point:#x}"
    is_shared = all(first <= point < end for first, end in ranges)
    report.say(f"both have {told}" if is_shared else f"not both have {told}: {MISMATCH}")


# ---- the HPET and the SPCR


def hpet(report, code, at, other, point):
    table = report.table("HPET")
    if table and code == 192:
        length(report, table, f"{other}")
    elif table and (code, at) in ((193, 40), (194, 44)):
        register(report, table, "the base address", BASE_ADDRESS)
    elif table:
        no_field(report, at)


def length(report, table, least):
    report.field(table, "its header", 0, 36)
    report.say(f"Length is {table.length}, and must be at least {least}")


def spcr(report, code, at, other, point):
    table = report.table("SPCR")
    if not table:
        return
    if code == 271:
        length(report, table, f"{other} for Revision {known(table.number(8, 1))}")
    elif code == 272 and at in (40, 43):
        register(report, table, "the base address", BASE_ADDRESS)
        access, interface = known(table.number(43, 1)), known(table.number(36, 1), "#x")
        report.say(f"its access size is {access}, and the interface type is {interface}")
    elif (code, at) in FIELDS:
        spcr_fields(report, table, *FIELDS[code, at])
        conditions(report, table, code, at)
    elif code == 276:
        spcr_fields(report, table, *STRING)
        string(report, table, at)
    else:
        no_field(report, at)


def spcr_fields(report, table, what, fields):
    """Fields that follow one another, and their values."""
    (_, first, _), (_, last, size) = fields[0], fields[-1]
    report.field(table, what, first, last + size - first)
    told = (f"{name} is {known(table.number(at, size), '#x' if at in IN_HEX else 'd')}" for name, at, size in fields)
    report.say(", ".join(told))


def conditions(report, table, code, at):
    """What else a rule on these fields looks at."""
    revision = table.number(8, 1)
    if code == 273:
        precise = f", and the precise baud rate is {known(table.number(80, 4))}" if (revision or 0) >= 4 else ""
        report.say(f"the SPCR's Revision is {known(revision)}{precise}")
    elif code == 274 and at != 53:
        controllers(report, table, at)
    elif code == 276:
        report.say(f"the string must be from byte 88 on, and end at {table.length}, where the table ends, or before")


def controllers(report, table, at):
    """What the MADT has for the interrupt of an SPCR: its I/O APICs, if the interrupt type has one, and its GIC."""
    kind = table.number(52, 1) or 0
    report.say(f"the address at 44 is {known(table.number(44, 8), '#x')}")
    apic = report.table("APIC")
    if apic and at == 54 and kind & IO_APIC:
        io_apics(report, apic)
    if apic and (at == 52 or kind == GIC):
        listing(report, "the MADT's GIC distributors:", apic, (12,))
    if kind == GIC:
        report.say("the SPIs of a GIC are 32 to 1019 and 4096 to 5119")


def string(report, table, at):
    """The namespace string, up to the last byte, which the line names."""
    size, first = table.number(84, 2) or 0, table.number(86, 2) or 0
    if size < 1 or first + size - 1 != at:
        no_field(report, at)
        return
    shown = max(first, at + 1 - MOST_OF_STRING)
    report.field(table, "the namespace string" if shown == first else f"the last {MOST_OF_STRING} bytes of it", shown, at + 1 - shown)
    report.say(f"its last byte, at {both(at)}, is {known(table.number(at, 1), '#x')}, and must be 0")
