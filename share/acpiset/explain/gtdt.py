"""What lines on the GTDT, or on none that is listed, are about."""

from .entries import listing
from .fadt import no_field
from .fixed import signatures
from .further_tables import length
from .report import both, known
from .walked import MOST_SHOWN, Found, Shape, Walk, both_have, cut, not_there, registers_from, say_one, told_of

SHAPE = Shape(1, 1, 2, 4)
BLOCK_SIZE, FRAME_SIZE, WATCHDOG_SIZE = 20, 40, 28
BLOCK, WATCHDOG = range(2)
NAMES = {BLOCK: "a GT Block", WATCHDOG: "a watchdog"}
# Their fields: of each the name, the offset, the size and the form.
ADDRESSES = {BLOCK: {4: "CntCtlBase"}, WATCHDOG: {4: "RefreshFrame", 12: "WatchdogControlFrame"}}
FRAME_ADDRESSES = {4: "CntBase", 12: "CntEL0Base"}
FIELDS = {
    BLOCK: [("CntCtlBase", 4, 8, "#x"), ("GT Block Timer Count", 12, 4, "d"), ("GT Block Timer Offset", 16, 4, "d")],
    WATCHDOG: [("RefreshFrame", 4, 8, "#x"), ("WatchdogControlFrame", 12, 8, "#x"), ("the GSIV", 20, 4, "d")],
}
FRAME_FIELDS = [
    ("GT Frame Number", 0, 1, "d"), ("CntBase", 4, 8, "#x"), ("CntEL0Base", 12, 8, "#x"), ("the GSIV of the physical timer", 20, 4, "d"),
    ("that of the virtual timer", 28, 4, "d"), ("GTx Common Flags", 36, 4, "#x"),
]
# The timers of each processor, by the offsets of their GSIVs.
TIMERS = {
    48: "the secure EL1 timer", 56: "the non-secure EL1 timer", 64: "the virtual timer", 72: "the EL2 timer", 96: "the virtual EL2 timer",
}
REGISTERS = 0x1000


def gtdt(report, code, at, other, point):
    table = report.table("GTDT")
    if not table:
        return
    if code == 208:
        length(report, table, f"{other} for Revision {known(table.number(8, 1))}")
    elif code in (210, 211, 212):
        for place in {210: (56, 64), 211: (at,), 212: (other, at)}[code]:
            timer(report, table, place)
    elif code == 213:
        platform_timers(report, table, at)
    else:
        of_platform_timers(report, table, code, at, other, point)
    if code in (211, 218):
        gic(report, "PPIs of a GIC are 16 to 31 and 1056 to 1119" if code == 211 else "SPIs of a GIC are 32 to 1019 and 4096 to 5119")


def no_gtdt(report, code, at, other, point):
    """What the rule is about that no GTDT is listed."""
    table = report.table("APIC")
    if table:
        listing(report, "the MADT's GICCs:", table, (11,))
        signatures(report)


def gic(report, interrupts):
    """The GIC of the MADT, and which interrupts it has."""
    report.say(f"the {interrupts}")
    apic = report.table("APIC")
    if apic:
        listing(report, "the MADT's GIC distributors:", apic, (12,))


def timer(report, table, at):
    if at not in TIMERS:
        no_field(report, at)
        return
    report.field(table, f"the GSIV of {TIMERS[at]}", at, 4)
    report.say(f"the GSIV of {TIMERS[at]} is {known(table.number(at, 4))}")


def walk_of(table):
    """The platform timers of a table."""
    revision, count, first = table.number(8, 1) or 0, table.number(88, 4) or 0, table.number(92, 4) or 0
    is_there = revision >= 2 and first >= fields_end(revision)
    return Walk(table, SHAPE, first, count if is_there else 0)


def fields_end(revision):
    """Where the fields of a Revision end."""
    return 80 if revision < 2 else 96 if revision == 2 else 104


def platform_timers(report, table, at):
    """What the rule is about that platform timers are there, and of known types."""
    report.field(table, "Platform Timer Count and Platform Timer Offset", 88, 8)
    revision, count, first = table.number(8, 1), table.number(88, 4), table.number(92, 4)
    report.say(f"Platform Timer Count is {known(count)}, and Platform Timer Offset is {known(first)}")
    if at == 92:
        report.say(f"the fields of Revision {known(revision)} end at {fields_end(revision or 0)}")
        return
    walk = walk_of(table)
    found = walk.one(at)
    if found:
        say(report, "the platform timer", found)
        return
    cut(report, walk, at)
    report.say(f"the number of platform timers before it is {walk.marks.count(1)}")
    before = walk.before(at)
    if before:
        say(report, "the platform timer before", before)


def say(report, what, found):
    say_one(report, what, found, NAMES, FIELDS.get(found.kind, []))


def of_platform_timers(report, table, code, at, other, point):
    """What a rule on platform timers or on frames is about."""
    walk = walk_of(table)
    if code == 219:
        both_have(report, [registers(report, walk, place) for place in (at, other)], point)
        return
    found = walk.one(at)
    if code in (215, 216) or not found:
        frame(report, walk, "the frame", at)
        if code == 216:
            frame(report, walk, "the other frame", other)
        return
    say(report, "the platform timer", found)
    if code == 214 and found.size >= BLOCK_SIZE:
        count, first = found.number(12, 4), found.number(16, 4)
        report.say(f"its length is {found.size}, and {first} + {FRAME_SIZE} * {count} is {first + FRAME_SIZE * count}")
    elif code == 214:
        report.say(f"its length is {found.size}, and must be at least {BLOCK_SIZE}")
    elif code == 217 and other == WATCHDOG_SIZE:
        report.say(f"its length is {found.size}, and must be {WATCHDOG_SIZE}")


def frame_of(walk, at):
    """The frame that has the byte at an offset, as a structure without a type, and its GT Block; or None twice."""
    block = walk.of(at)
    if not block or block.kind != BLOCK or block.size < BLOCK_SIZE:
        return None, None
    index, place = divmod(at - block.at - block.number(16, 4), FRAME_SIZE)
    if not 0 <= index < block.number(12, 4) or at - place + FRAME_SIZE > block.at + block.size:
        return None, None
    return Found(walk.table, at - place, 0, FRAME_SIZE), block


def frame(report, walk, what, at):
    """A frame that the line names."""
    found, block = frame_of(walk, at)
    if not found or found.at != at:
        not_there(report, "platform timer or frame", at)
        return
    report.field(walk.table, what, at, MOST_SHOWN)
    report.say(f"it is one of the GT Block at {both(block.at)}: {told_of(found, FRAME_FIELDS)}")


def registers(report, walk, at):
    """The registers of a platform timer or a frame whose address is at an offset: their first address, and the one after the last; None
    if no such address is there."""
    whole = walk.of(at)
    part, _ = frame_of(walk, at)
    found, names = (part, FRAME_ADDRESSES) if part else (whole, ADDRESSES.get(whole.kind, {}) if whole else {})
    name = names.get(at - found.at) if found else None
    address = found.number(at - found.at, 8) if name else None
    if address is None:
        not_there(report, "address of registers", at)
        return None
    what = "the frame" if part else NAMES[found.kind].replace("a ", "the ")
    report.field(walk.table, f"{name} of {what} at {both(found.at)}", at, 8)
    return registers_from(report, address, REGISTERS)
