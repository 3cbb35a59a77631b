"""The rules of advice on the FADT, and on the DSDT and the FACS that it names."""

from __future__ import annotations

from dataclasses import dataclass

from ..faults import Numbers, served
from ..table_set import BLOCKS, HEADER
from .facts import GICC, OVERRIDE, RINTC, SYSTEM_IO, version_of
from .rule import has_fadt, has_madt, is_full, of_table, overlap, past_limits, rule, wrong_names, zeros

# How long a FADT of each revision is, at least (5.2.9), and those of the first two, which are no longer.
LENGTHS = {3: 244, 4: 244, 5: 268}
FIRST_LENGTHS = {1: 116, 2: 132}
LAST_LENGTH = 276
LAST_PORT = 0xFFFF


# ---- what the Revision has, and two addresses of one thing (5.2.9)


@rule(104, "FadtOfRevision", has_fadt)
def fadt_of_revision(facts):
    """The FADT is shorter than one of its Revision is (5.2.9)."""
    revision, length = facts.fadt.bytes.number(8, 1), len(facts.fadt.bytes)
    least = LENGTHS.get(revision, LAST_LENGTH) if revision >= 3 else 0
    if length < least:
        yield 4, length, least


@rule(282, "FadtPastRevision", has_fadt)
def fadt_past_revision(facts):
    """The FADT's Revision is 0, or the FADT is longer than one of its Revision is (5.2.9)."""
    revision, length = facts.fadt.bytes.number(8, 1), len(facts.fadt.bytes)
    if revision == 0:
        yield of_table(facts.fadt.bytes, 8, 1)
        return
    most = {**FIRST_LENGTHS, **LENGTHS}.get(revision, LAST_LENGTH)
    if length > most:
        yield 4, most, length


@rule(283, "ArmBootEarly", has_fadt)
def early_arm_boot(facts):
    """The FADT is older than its field on how Arm processors are started, ARM_BOOT_ARCH, and that is not 0 (5.2.9)."""
    flags = facts.fadt.field(129, 2)
    if flags and version_of(facts.fadt) < (5, 1):
        yield 129, 0, flags


def two_addresses(fadt, narrow, wide):
    """Two fields with an address of one thing, which differ."""
    if 0 != fadt.field(narrow, 4) != fadt.field(wide, 8) != 0:
        yield narrow, fadt.field(narrow, 4), fadt.field(wide, 8)


@rule(105, "FacsDiffers", has_fadt)
def differing_facs(facts):
    """FIRMWARE_CTRL and X_FIRMWARE_CTRL differ (5.2.9)."""
    yield from two_addresses(facts.fadt, 36, 132)


@rule(106, "DsdtDiffers", has_fadt)
def differing_dsdt(facts):
    """DSDT and X_DSDT differ (5.2.9)."""
    yield from two_addresses(facts.fadt, 40, 140)


@rule(107, "BlockDiffers", is_full)
def differing_blocks(facts):
    """The two fields of a register block are different ports (5.2.9)."""
    for _, narrow, _, wide in BLOCKS:
        if facts.fadt.field(wide, 1) == SYSTEM_IO:
            yield from two_addresses(facts.fadt, narrow, wide + 4)


@rule(108, "SciNowhere", is_full)
def nowhere_sci(facts):
    """No I/O APIC serves the interrupt number of the SCI, which an override of the ISA bus may give (5.2.12.5)."""
    sci = facts.fadt.field(46, 2)
    overrides = facts.madt.typed(OVERRIDE) if facts.madt else []
    numbers = [entry.number(4, 4) for entry in overrides if entry.number(2, 1) == 0 and entry.number(3, 1) == sci]
    gsi = numbers[0] if numbers else sci
    spans = served(facts.madt, facts.policy)
    if spans and facts.madt.is_well_formed() and gsi not in Numbers(spans):
        yield 46, 0, gsi


# ---- the DSDT (5.2.9, 5.2.11.1)


@rule(132, "NoDsdt", has_fadt)
def no_dsdt(facts):
    """The FADT names no DSDT, in neither of the two fields (5.2.9)."""
    if facts.dsdt_at == 0:
        yield (40,)


@rule(133, "DsdtWrong", has_fadt)
def wrong_dsdt(facts):
    """What the FADT names as the DSDT has another signature, a Length that is no table's, or a wrong sum (5.2.11.1)."""
    at = facts.dsdt_at
    header = facts.image.present(at, HEADER) if at else None
    if header is None:
        return
    length = header.number(4, 4)
    held = facts.image.present(at, length)
    if header.data[:4] != b"DSDT" or length < HEADER or (held and not held.sums_to_0()):
        yield 40, 0, at


@rule(281, "DsdtText", has_fadt)
def dsdt_text(facts):
    """The header of the DSDT has a name with a byte that is no text (5.2.6)."""
    header = facts.image.present(facts.dsdt_at, HEADER) if facts.dsdt_at else None
    if header and header.data[:4] == b"DSDT":
        yield from wrong_names(header)


# ---- register blocks of hardware that is not reduced (5.2.9)


@dataclass(frozen=True)
class Block:
    """A register block: its field of 4 bytes, its length byte, the address in use, 0 if there is none, and its count of ports."""

    narrow: int
    length: int
    address: int
    ports: int


def blocks_of(fadt):
    return [block_of(fadt, *places) for _, *places in BLOCKS]


def block_of(fadt, narrow, length_at, wide):
    """The block at these places: the generic address structure is used where its address is not 0, else the field of 4 bytes, a port.
    One that is in another space than that of the ports has none."""
    length, address = fadt.field(length_at, 1), fadt.field(wide + 4, 8)
    if address == 0:
        port = fadt.field(narrow, 4)
        return Block(narrow, length, port, length if port else 0)
    rounded_up = (fadt.field(wide + 1, 1) + 7) // 8
    return Block(narrow, length, address, (length or rounded_up) if fadt.field(wide, 1) == SYSTEM_IO else 0)


@rule(134, "NoPm1Block", is_full)
def no_pm1_block(facts):
    """Block A of the PM1 events or of the PM1 control, which full hardware has, is nowhere (5.2.9)."""
    for block in blocks_of(facts.fadt):
        if block.narrow in (56, 64) and block.address == 0:
            yield (block.narrow,)


@rule(135, "BlockWidth", is_full)
def block_widths(facts):
    """A block's length byte and the width in its generic address structure, both given, are not the same count of bits (5.2.9)."""
    fadt = facts.fadt
    for _, narrow, length_at, wide in BLOCKS:
        bits, width = 8 * fadt.field(length_at, 1), fadt.field(wide + 1, 1)
        is_twice = fadt.field(narrow, 4) != 0 and fadt.field(wide + 4, 8) != 0
        if is_twice and width and 0 < bits <= 255 and bits != width:
            yield narrow, bits, width


@rule(136, "HalfBlock", is_full)
def half_blocks(facts):
    """Of a block that hardware may lack, from PM2 control to GPE1, the length or the place is given, and the other is not (5.2.9)."""
    for block in blocks_of(facts.fadt)[4:]:
        if (block.address == 0) != (block.length == 0):
            yield block.narrow, block.length, block.address


@rule(137, "PortsOverlap", is_full)
def overlapping_ports(facts):
    """Two blocks share a port (5.2.9)."""
    yield from overlap((block.address, block.ports, block.narrow) for block in blocks_of(facts.fadt))


@rule(138, "PortPastEnd", has_fadt)
def ports_past_end(facts):
    """A block, SMI_CMD or the reset register is in the space of ports and goes past the last port (5.2.9)."""
    fadt = facts.fadt
    ports = []
    if not fadt.reduced:
        ports = [(block.narrow, block.ports, block.address) for block in blocks_of(fadt)] + [(48, 1, fadt.field(48, 4))]
    if has_reset(fadt) and fadt.field(116, 1) == SYSTEM_IO:
        ports.append((116, 1, fadt.field(120, 8)))
    for at, count, address in ports:
        if count and address + count - 1 > LAST_PORT:
            yield at, count, address


def has_reset(fadt):
    """Whether the FADT says that it has a reset register, and has its fields."""
    return fadt.flags >> 10 & 1 == 1 and len(fadt.bytes) >= 129


@rule(139, "GpeOverlap", is_full)
def overlapping_events(facts):
    """The events of GPE1 begin among those of GPE0, of which each byte of a half of the block has eight (5.2.9)."""
    first, second = blocks_of(facts.fadt)[6:]
    base = facts.fadt.field(94, 1)
    if first.address and second.address and first.length and second.length and base < 4 * first.length:
        yield 94, 4 * first.length, base


@rule(140, "SmiHalf", is_full)
def half_smi(facts):
    """There is an SMI port, and one command turns ACPI on and off; or there is none, and there are commands for it (5.2.9)."""
    fadt = facts.fadt
    port = fadt.field(48, 4)
    if port:
        if fadt.field(52, 1) == fadt.field(53, 1):
            yield 48, 52, port
        return
    for at in (52, 53, 54, 55, 95):
        if fadt.field(at, 1):
            yield 48, at


@rule(141, "SciZero", is_full)
def zero_sci(facts):
    """The interrupt of the SCI is 0, that of the timer (5.2.9)."""
    if facts.fadt.field(46, 2) == 0:
        yield (46,)


@rule(285, "SmiHandshake", is_full)
def half_handshake(facts):
    """There is an SMI port, and of the two commands that turn ACPI on and off one is 0 (5.2.9)."""
    commands = {at: facts.fadt.field(at, 1) for at in (52, 53)}
    if facts.fadt.field(48, 4) and any(commands.values()):
        for at, command in commands.items():
            if command == 0:
                yield (at,)


@rule(286, "S4BiosDiffers", is_full)
def differing_s4bios(facts):
    """The FADT has a command for S4 by firmware, and the FACS says that firmware has no such S4, or the reverse (5.2.9, 5.2.10)."""
    command = facts.fadt.field(54, 1)
    if facts.facs and (command != 0) != (facts.facs.number(20, 4) & 1 == 1):
        yield 54, 0, command


# The most bits that the width of a generic address structure can say, and how many events of GPE0 and GPE1 can have a method (5.6.4.1).
MOST_BITS, EVENTS = 255, 256
# How wide the registers of each block are (4.8.3).
USUAL_WIDTHS = {148: 32, 160: 32, 172: 16, 184: 16, 196: 8, 208: 32}


@rule(287, "GpePastEnd", is_full)
def events_past_end(facts):
    """GPE0 or GPE1 has events after the last one that can have a method, of which each byte of a half of the block has eight (5.6.4.1)."""
    first, second = blocks_of(facts.fadt)[6:]
    base = facts.fadt.field(94, 1)
    if first.address and 4 * first.length > EVENTS:
        yield 92, 0, first.length
    if second.address and base + 4 * second.length > EVENTS:
        yield 94, 0, base


@rule(288, "BlockTooLong", is_full)
def long_blocks(facts):
    """A port of PM1 events to the PM timer has more bytes than the width of a generic address structure can say (5.2.9, 5.2.3.2)."""
    fadt = facts.fadt
    for _, narrow, length_at, wide in BLOCKS[:6]:
        is_port = fadt.field(wide + 4, 8) == 0 and fadt.field(narrow, 4) != 0
        if is_port and 8 * fadt.field(length_at, 1) > MOST_BITS:
            yield length_at, 0, fadt.field(length_at, 1)


def used_structures(fadt):
    """The offsets of the generic address structures of blocks that have an address."""
    return [wide for _, _, _, wide in BLOCKS if fadt.field(wide + 4, 8)]


@rule(289, "BlockSpace", is_full)
def block_spaces(facts):
    """A block is neither in memory nor in the space of ports (5.2.9)."""
    for wide in used_structures(facts.fadt):
        if facts.fadt.field(wide, 1) > SYSTEM_IO:
            yield of_table(facts.fadt.bytes, wide, 1)


@rule(290, "BlockUsualWidth", is_full)
def unusual_widths(facts):
    """The generic address structure of a block, but for those of events, has another width than its registers (4.8.3)."""
    for wide in used_structures(facts.fadt):
        width = facts.fadt.field(wide + 1, 1)
        if width != USUAL_WIDTHS.get(wide, width):
            yield wide + 1, 0, width


@rule(291, "SleepNotReduced", is_full)
def sleep_of_full_hardware(facts):
    """Hardware that is not reduced has a sleep register, which only reduced hardware uses (5.2.9)."""
    for at in (248, 260):
        if facts.fadt.field(at, 8):
            yield of_table(facts.fadt.bytes, at, 8)


# ---- the FADT as a whole (5.2.9)


@rule(284, "FixedInReduced", lambda facts: has_fadt(facts) and facts.fadt.reduced)
def fixed_hardware(facts):
    """Reduced hardware has an SMI port or a block of the fixed hardware, which it does not use (5.2.9)."""
    fadt = facts.fadt
    for at in (48, *(narrow for _, narrow, _, _ in BLOCKS)):
        if fadt.field(at, 4):
            yield of_table(fadt.bytes, at, 4)
    for wide in used_structures(fadt):
        yield of_table(fadt.bytes, wide + 4, 8)


@rule(142, "ResetNowhere", has_fadt)
def nowhere_reset(facts):
    """There is a reset register, by its flag, and its address is 0 (5.2.9)."""
    if has_reset(facts.fadt) and facts.fadt.field(120, 8) == 0:
        yield (116,)


@rule(143, "FadtForArch", has_fadt)
def fadt_for_arch(facts):
    """Beside a GIC or a hart the hardware is not reduced, or beside a GIC the FADT is older than ACPI 5.1 (5.2.9)."""
    if facts.madt_kinds & {GICC, RINTC} and not facts.fadt.reduced:
        yield (112,)
    if GICC in facts.madt_kinds and version_of(facts.fadt) < (5, 1):
        yield 8, *version_of(facts.fadt)


@rule(292, "FadtForRiscv", lambda facts: has_fadt(facts) and has_madt(facts))
def fadt_for_riscv(facts):
    """Beside a hart the FADT is older than ACPI 6.6, which has the first harts (5.2.9)."""
    if RINTC in facts.madt_kinds and version_of(facts.fadt) < (6, 6):
        yield 8, *version_of(facts.fadt)


@rule(144, "SleepRegister", lambda facts: has_fadt(facts) and facts.fadt.reduced)
def sleep_registers(facts):
    """A sleep register is not one byte, or one of the two is there without the other (5.2.9)."""
    fadt = facts.fadt
    addresses = {at: fadt.field(at + 4, 8) for at in (244, 256) if at + 12 <= len(fadt.bytes)}
    for at, address in addresses.items():
        width, offset = fadt.field(at + 1, 1), fadt.field(at + 2, 1)
        if address and (width != 8 or offset != 0):
            yield at, width, offset
        if address == 0 and len(addresses) == 2 and any(addresses.values()):
            yield (at,)


# ---- reserved bytes (5.2.9, 5.2.10)

FADT_LIMITS = [(44, 1, 1), (45, 1, 8), (111, 1, 0), (112, 4, 0xFFFFFF)]
# The Version and the flags of a FACS, and its reserved bytes (5.2.10).
FACS_LIMITS = [(20, 4, 0b11), (32, 1, 2), *zeros(33, 34, 35), (36, 4, 0b1), *zeros(*range(40, 64))]


@rule(145, "FadtReserved", has_fadt)
def reserved_in_fadt(facts):
    """A reserved byte, profile or flag of the FADT is used, or both flags of what caches keep when power fails (5.2.9)."""
    for at, number in past_limits(facts.fadt.bytes, FADT_LIMITS):
        yield at, 0, number
    if facts.fadt.flags >> 22 & 0b11 == 0b11:
        yield 112, 0, facts.fadt.flags


@rule(146, "FacsReserved", has_fadt)
def reserved_in_facs(facts):
    """A reserved byte, flag or Version of the FACS is used (5.2.10)."""
    for at, number in past_limits(facts.facs, FACS_LIMITS) if facts.facs else ():
        yield at, 0, number
