"""What lines on the FADT and on what it names are about."""

from .fixed import header, text
from .program import MISMATCH
from .refusal import signature_of
from .report import both, known

BLOCKS = "PM1a_EVT_BLK PM1b_EVT_BLK PM1a_CNT_BLK PM1b_CNT_BLK PM2_CNT_BLK PM_TMR_BLK GPE0_BLK GPE1_BLK".split()
# Where the length byte of each block is, and the usual bit width of each block but those of GPEs.
BLOCK_LENGTH_AT = (88, 88, 89, 89, 90, 91, 92, 93)
USUAL_WIDTHS = (32, 32, 16, 16, 8, 32)
BLOCK_LENGTHS = {
    88: "PM1_EVT_LEN is {}, and must be at least 4",
    89: "PM1_CNT_LEN is {}, and must be at least 2",
    91: "PM_TMR_LEN is {}, and must be 0 or 4",
    92: "GPE0_BLK_LEN is {}, and must be even",
    93: "GPE1_BLK_LEN is {}, and must be even",
}

# Fields of the FADT and of the FACS on which there is advice: the name and the size.
FIELDS = {
    8: ("Revision", 1), 44: ("byte 44", 1), 45: ("Preferred_PM_Profile", 1), 46: ("SCI_INT", 2), 48: ("SMI_CMD", 4), 54: ("S4BIOS_REQ", 1),
    88: ("PM1_EVT_LEN", 1), 89: ("PM1_CNT_LEN", 1), 90: ("PM2_CNT_LEN", 1), 91: ("PM_TMR_LEN", 1), 94: ("GPE1_BASE", 1),
    111: ("byte 111", 1), 112: ("Flags", 4), 129: ("ARM_BOOT_ARCH", 2),
}
FACS_FIELDS = {20: ("Flags", 4), 32: ("Version", 1), 36: ("OSPM Flags", 4)}
# Generic address structures beside those of the blocks.
REGISTERS = {116: "RESET_REG", 244: "SLEEP_CONTROL_REG", 256: "SLEEP_STATUS_REG"}
COMMANDS = {52: "ACPI_ENABLE", 53: "ACPI_DISABLE", 54: "S4BIOS_REQ", 55: "PSTATE_CNT", 95: "CST_CNT"}
# Rules on a field of 4 bytes and one of 8 with an address of the same thing.
TWICE = {105: ("FIRMWARE_CTRL", 36, 132), **dict.fromkeys((106, 132, 133, 281), ("DSDT", 40, 140))}
# Rules on register blocks.
OF_BLOCKS = {107, 134, 135, 136, 137, 138, 139, 284, 287, 288, 289, 290}


def found_fadt(report):
    """The FADT that a line is about, or None; it is said as `show` writes it."""
    table = report.table("FACP")
    if table and table.length >= 116:
        profile, sci, flags = (table.number(at, size) or 0 for at, size in ((45, 1), (46, 2), (112, 4)))
        told = f"length {table.length} profile {profile} sci {sci} flags {flags:#x} reduced {'yes' if flags >> 20 & 1 else 'no'}"
        report.say(f"  fadt {table.address:#x} {told}")
    return table


def fadt(report, code, at):
    table = found_fadt(report)
    if not table:
        return
    number = table.number
    if code == 20:
        report.field(table, "its header", 0, 36)
        report.say(f"Length is {table.length}, and must be at least 116")
    elif code == 25:
        report.field(table, "RESET_REG", 116, 12)
        space, width, offset = (known(number(place, 1)) for place in (116, 117, 118))
        report.say(f"its address space is {space}, its bit width {width}, its bit offset {offset}; they must be 0 to 2, 8, and 0")
    elif code == 26:
        addresses(report, table, "FIRMWARE_CTRL", 36, 132)
    else:
        report.field(table, "the field", at, 1)
        report.say(BLOCK_LENGTHS.get(at, f"this field has no such rule: {MISMATCH}").format(known(number(at, 1))))


def addresses(report, table, name, narrow, wide):
    """Two fields with an address of the same thing."""
    report.field(table, name, narrow, 4)
    told = f"{name} is {known(table.number(narrow, 4), '#x')}"
    if table.length >= wide + 8:
        report.field(table, f"X_{name}", wide, 8)
        told += f", and X_{name} is {known(table.number(wide, 8), '#x')}"
    report.say(told)


def fadt_advice(report, code, at, other, point):
    """What a rule on the FADT alone is about, or one on the DSDT."""
    table = found_fadt(report)
    if not table:
        return
    if code in (104, 282) and at == 4:
        report.field(table, "its header", 0, 36)
        told = f"has fields up to {point}" if code == 104 else f"is that of a FADT of {other} bytes"
        report.say(f"Length is {table.length}, and Revision {known(table.number(8, 1))} {told}")
    elif code in TWICE:
        addresses(report, table, *TWICE[code])
        if code == 133:
            dsdt(report, point)
        elif code == 281:
            dsdt_text(report, table, at)
    elif code in OF_BLOCKS:
        of_blocks(report, table, code, at, other)
    elif code in (140, 285):
        field(report, table, 48)
        report.say(", ".join(f"{name} is {known(table.number(place, 1), '#x')}" for place, name in COMMANDS.items()))
    elif code == 291 and at - 4 in REGISTERS:
        register(report, table, REGISTERS[at - 4], at - 4)
    elif code != 291 and at in REGISTERS:
        for place in (244, 256) if code == 144 else (at,):
            register(report, table, REGISTERS[place], place)
    else:
        field(report, table, at)
        if code == 283:
            report.say(f"the FADT is of version {version(table)}")


def of_blocks(report, table, code, at, other):
    """What a rule on register blocks is about: of some the line names the block, of others a field of it or of its X_ structure."""
    if code == 107:
        both_addresses(report, table, at)
    elif code == 139:
        block(report, table, 80)
        block(report, table, 84)
        field(report, table, 94)
    elif code == 287:
        events(report, table, at)
    elif code == 288:
        field(report, table, at)
        for index in (index for index, place in enumerate(BLOCK_LENGTH_AT) if place == at):
            block(report, table, 56 + 4 * index)
    elif code in (289, 290) or code == 284 and at >= 148:
        x_structure(report, table, code, at)
    elif at in REGISTERS:
        register(report, table, REGISTERS[at], at)
    elif code in (138, 284) and at == 48:
        field(report, table, at)
    else:
        block(report, table, at)
        if code == 137:
            block(report, table, other)


def both_addresses(report, table, at):
    """The address of a block in its 4-byte field and in its X_ structure."""
    wide, is_field = 148 + 3 * (at - 56), at in range(56, 88, 4)
    name = BLOCKS[(at - 56) // 4] if is_field else f"no block: {MISMATCH}"
    report.field(table, "the 4-byte address", at, 4)
    report.field(table, "the X_ structure", max(wide, 0), 12)
    narrow_address, wide_address = table.number(at, 4), table.number(max(wide, 0) + 4, 8)
    report.say(f"of {name}: {known(narrow_address, '#x')}, and in the X_ structure {known(wide_address, '#x')}")


def x_structure(report, table, code, at):
    """The X_ structure of a block that has this byte."""
    index, place = divmod(at - 148, 12)
    if index not in range(len(USUAL_WIDTHS) if code == 290 else len(BLOCKS)) or place != {284: 4, 289: 0, 290: 1}[code]:
        no_field(report, at)
        return
    register(report, table, f"X_{BLOCKS[index]}", at - place)
    if code == 290:
        report.say(f"the usual bit width is {USUAL_WIDTHS[index]}")


def events(report, table, at):
    """The general-purpose events of the block that has this field."""
    if at not in (92, 94):
        no_field(report, at)
        return
    index, first = (6, 0) if at == 92 else (7, table.number(94, 1) or 0)
    block(report, table, 56 + 4 * index)
    if at == 94:
        field(report, table, at)
    last = first + 4 * (table.number(BLOCK_LENGTH_AT[index], 1) or 0) - 1
    report.say(f"{BLOCKS[index]} has the events {first} to {last}; those above 255 can have no method")


def version(table):
    """The Revision of a FADT and its minor version, whose high bits are something else."""
    minor = (table.number(131, 1) or 0) & 0xF if table.length >= 132 else 0
    return f"{known(table.number(8, 1))}.{minor}"


def no_field(report, at):
    report.say(f"at offset {both(at)} is no field with such a rule: {MISMATCH}")


def field(report, table, at):
    if at not in FIELDS:
        no_field(report, at)
        return
    name, size = FIELDS[at]
    report.field(table, name, at, size)
    report.say(f"{name} is {known(table.number(at, size), '#x')}")


def register(report, table, name, at):
    """A generic address structure, if the table has it."""
    if table.length < at + 12:
        report.say(f"{name}, at {at}, does not exist: Length is {table.length}")
        return
    report.field(table, name, at, 12)
    space, width, offset = (known(table.number(at + place, 1)) for place in range(3))
    address = known(table.number(at + 4, 8), "#x")
    report.say(f"{name} has the address space {space}, the bit width {width}, the bit offset {offset}, and the address {address}")


def block(report, table, at):
    """A register block by the offset of its 4-byte field."""
    if at not in range(56, 88, 4):
        report.say(f"at offset {both(at)} is no register block: {MISMATCH}")
        return
    index = (at - 56) // 4
    name, length_at = BLOCKS[index], BLOCK_LENGTH_AT[index]
    report.field(table, name, at, 4)
    length = known(table.number(length_at, 1))
    report.say(f"{name} is {known(table.number(at, 4), '#x')}, and its length byte, at {length_at}, is {length}")
    if table.length >= 148 + 12 * index + 12:
        register(report, table, f"X_{name}", 148 + 12 * index)


def dsdt(report, address):
    """What is at the DSDT's address, and whether its checksum is right."""
    head = report.image.part(address, 36)
    report.say(f"the DSDT at {address:#x}:")
    report.bytes(address, 36)
    if len(head) == 36:
        length = int.from_bytes(head[4:8], "little")
        report.say(f"signature {signature_of(head)}, Length {length}")
        if length >= 36 and sum(report.image.part(address, length)) % 256:
            report.checksum("DSDT", address, length, 9)


def dsdt_text(report, table, at):
    """A text of the header of the DSDT that the FADT names."""
    address = (table.number(140, 8) if table.length >= 148 else 0) or table.number(40, 4)
    if not address:
        report.say(f"the FADT names no DSDT: {MISMATCH}")
        return
    header(report, 281, address, "the DSDT")
    text(report, address, at)


def facs_advice(report, code, at, other, point):
    """What a rule on the FACS is about, or the one on a field of the FADT and on the Flags of the FACS."""
    table = found_fadt(report)
    if not table:
        return
    if code == 286:
        field(report, table, at)
        at = 20
    address = table.number(132, 8) if table.length >= 140 else 0
    address = address or table.number(36, 4)
    if not address:
        report.say(f"the FADT names no FACS: {MISMATCH}")
        return
    report.say(f"the FACS at {address:#x}:")
    report.bytes(address, 64)
    name, size = FACS_FIELDS.get(at, (f"byte {at}", 1))
    report.say(f"{name} is {known(report.image.number(address + at, size), '#x')}")
