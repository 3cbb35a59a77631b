"""The rules of advice on the Generic Timer Description Table (GTDT), which says what interrupts the timers of Arm processors have, and
where further timers and watchdogs are (ACPI 6.5, 5.2.25)."""

from __future__ import annotations

from ..table_set import parts_of, walk
from ..text import TOP
from .facts import GICC, GICD
from .gic import PPIS, SPIS
from .rule import has_complete_madt, has_in_madt, is_listed, of_entry, of_table, overlap, rule, same, same_field, too_short

# How many bytes a GTDT with all its fields has: before Revision 2, of Revision 2, and from Revision 3 on.
OLD_SIZE, SIZE_WITH_TIMERS, SIZE_WITH_VIRTUAL_EL2 = 80, 96, 104
# The timers of a processor: the secure one of EL1, that of EL1, the virtual one, that of EL2, and from Revision 3 on the virtual one of
# EL2.
SECURE_EL1, EL1, VIRTUAL, EL2, VIRTUAL_EL2 = 48, 56, 64, 72, 96
# The types of platform timers, how many bytes the least one has, and how many a watchdog has and a block of frames at least.
BLOCK, WATCHDOG = 0, 1
LEAST_LENGTH, WATCHDOG_LENGTH, BLOCK_LENGTH = 4, 28, 20
# How many bytes a frame of a block has, how many of them a block, and how many the registers of one take.
FRAME_LENGTH, MOST_FRAMES, REGISTERS = 40, 8, 0x1000
IS_SECURE = 1 << 0
# The addresses that say that there are no registers.
NOWHERE = (0, TOP - 1)


def has_gtdt(facts):
    return facts.gtdt is not None


def revision_of(facts):
    return facts.gtdt.number(8, 1)


def size_of(facts):
    revision = revision_of(facts)
    return OLD_SIZE if revision < 2 else SIZE_WITH_TIMERS if revision == 2 else SIZE_WITH_VIRTUAL_EL2


def has_all_fields(facts):
    return has_gtdt(facts) and len(facts.gtdt) >= size_of(facts)


def has_distributor(facts):
    """Whether there is a full GTDT, and a distributor of a GIC, of which the numbers of interrupts are."""
    return has_all_fields(facts) and has_in_madt(facts, GICD)


def with_virtual_el2(facts, places):
    """These places, and from Revision 3 on that of the virtual timer of EL2."""
    return (*places, VIRTUAL_EL2) if revision_of(facts) >= 3 else places


# ---- the platform timers


def count_of(facts):
    """How many platform timers there are said to be; before Revision 2 none."""
    return facts.gtdt.number(88, 4) if revision_of(facts) >= 2 else 0


def walk_of(facts):
    """The platform timers. There are none where they would begin among the fields."""
    if not count_of(facts) or facts.gtdt.number(92, 4) < size_of(facts):
        return walk(facts.gtdt, 0, 1, 2, LEAST_LENGTH, count=0)
    return walk(facts.gtdt, facts.gtdt.number(92, 4), length_at=1, length_size=2, least=LEAST_LENGTH, count=count_of(facts))


def timers_of(facts, kind):
    """All platform timers of a type."""
    return [it for it in walk_of(facts).structures if it.number(0, 1) == kind]


def blocks_of(facts):
    """The full blocks."""
    return [it for it in timers_of(facts, BLOCK) if not list(wrong_in_block(it))]


def watchdogs_of(facts):
    """The full watchdogs."""
    return [it for it in timers_of(facts, WATCHDOG) if not list(wrong_in_watchdog(it))]


def frames_of(block):
    return parts_of(block, block.number(16, 4), FRAME_LENGTH, block.number(12, 4))


def frames_of_all(facts):
    return [frame for block in blocks_of(facts) for frame in frames_of(block)]


def wrong_in_block(block):
    """The findings that a block is too short, has no frame or too many, or that its frames do not lie in it up to its end."""
    length = len(block)
    if length < BLOCK_LENGTH:
        yield block.offset, BLOCK_LENGTH, length
        return
    count, first = block.number(12, 4), block.number(16, 4)
    has_count, has_place = 1 <= count <= MOST_FRAMES, first >= BLOCK_LENGTH
    if not has_count:
        yield of_entry(block, 12, 4)
    if not has_place:
        yield of_entry(block, 16, 4)
    if has_count and has_place and length != first + FRAME_LENGTH * count:
        yield block.offset, first + FRAME_LENGTH * count, length


def wrong_in_watchdog(watchdog):
    """The findings that a watchdog has another length than one has, or lacks one of its frames."""
    if len(watchdog) != WATCHDOG_LENGTH:
        yield watchdog.offset, WATCHDOG_LENGTH, len(watchdog)
        return
    for at in (4, 12):
        if watchdog.number(at, 8) == 0:
            yield of_entry(watchdog, at, 8)


# ---- the rules


@rule(208, "GtdtLength", has_gtdt)
def short_gtdt(facts):
    """The GTDT ends before the fields of its Revision do (5.2.25)."""
    yield from too_short(facts.gtdt, size_of(facts))


@rule(209, "NoGtdt", has_complete_madt)
def no_gtdt(facts):
    """There is a GIC CPU interface, and no GTDT (5.2.25)."""
    if has_in_madt(facts, GICC) and not is_listed(facts, b"GTDT"):
        yield ()


@rule(210, "NoTimer", has_all_fields)
def no_timer(facts):
    """Neither the timer of EL1 nor the virtual one has an interrupt (5.2.25)."""
    if facts.gtdt.number(EL1, 4) == 0 and facts.gtdt.number(VIRTUAL, 4) == 0:
        yield of_table(facts.gtdt, EL1, 4)


@rule(211, "TimerNoPpi", has_distributor)
def other_interrupts_of_timers(facts):
    """The interrupt of a timer of a processor is none of one processor (5.2.25)."""
    for at in with_virtual_el2(facts, (SECURE_EL1, EL1, VIRTUAL, EL2)):
        number = facts.gtdt.number(at, 4)
        if number and number not in PPIS:
            yield of_table(facts.gtdt, at, 4)


@rule(212, "SameTimer", has_all_fields)
def same_timers(facts):
    """Two timers of a processor have one interrupt (5.2.25). That of secure EL1 may have any."""
    numbers = ((at, facts.gtdt.number(at, 4)) for at in with_virtual_el2(facts, (EL1, VIRTUAL, EL2)))
    yield from same((at, number) for at, number in numbers if number)


@rule(213, "PlatformTimerCut", has_all_fields)
def cut_timers(facts):
    """The platform timers begin among the fields, or are fewer than it is said, or one is of a type that there is not (5.2.25)."""
    if count_of(facts) and facts.gtdt.number(92, 4) < size_of(facts):
        yield of_table(facts.gtdt, 92, 4)
    timers, cut = walk_of(facts)
    if cut:
        yield cut
    for it in timers:
        if it.number(0, 1) > WATCHDOG:
            yield of_entry(it, 0, 1)


@rule(214, "TimerBlock", has_all_fields)
def odd_blocks(facts):
    """A block of timers has not the shape that it should have (5.2.25.1)."""
    for it in timers_of(facts, BLOCK):
        yield from wrong_in_block(it)


@rule(215, "TimerFrame", has_all_fields)
def odd_frames(facts):
    """A frame has a number that there is not, or one that is not secure has no address or no interrupt (5.2.25.1)."""
    for frame in frames_of_all(facts):
        if frame.number(0, 1) >= MOST_FRAMES:
            yield of_entry(frame, 0, 1)
        for at, size in ((4, 8), (20, 4)) if not frame.number(36, 4) & IS_SECURE else ():
            if frame.number(at, size) == 0:
                yield of_entry(frame, at, size)


@rule(216, "SameFrame", has_all_fields)
def same_frame_numbers(facts):
    """Two frames of one block have one number (5.2.25.1)."""
    for block in blocks_of(facts):
        yield from same_field(frames_of(block), 0, 1)


@rule(217, "Watchdog", has_all_fields)
def odd_watchdogs(facts):
    """A watchdog has another length than one has, or lacks one of its frames (5.2.25.2)."""
    for it in timers_of(facts, WATCHDOG):
        yield from wrong_in_watchdog(it)


@rule(218, "TimerNoSpi", has_distributor)
def other_interrupts_of_devices(facts):
    """The interrupt of a frame or of a watchdog is none that devices have (5.2.25.1, 5.2.25.2)."""
    places = [(frame, at) for frame in frames_of_all(facts) for at in (20, 28)]
    for it, at in places + [(watchdog, 20) for watchdog in watchdogs_of(facts)]:
        number = it.number(at, 4)
        if number and number not in SPIS:
            yield of_entry(it, at, 4)


@rule(219, "TimerOverlap", has_all_fields)
def overlapping_timers(facts):
    """Two blocks, frames or watchdogs share an address of their registers (5.2.25.1, 5.2.25.2)."""
    yield from overlap(registers_of(facts))


def registers_of(facts):
    """The (start, size, offset) of the registers of blocks, frames and watchdogs, up to the last address, by the offsets of the numbers."""
    places = [(block, 4) for block in blocks_of(facts)]
    places += [(it, at) for it in frames_of_all(facts) + watchdogs_of(facts) for at in (4, 12)]
    for it, at in places:
        start = it.number(at, 8)
        if start not in NOWHERE:
            yield start, min(REGISTERS, TOP - start), it.offset + at
