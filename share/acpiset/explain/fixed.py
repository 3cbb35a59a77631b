"""What lines on fixed fields are about: the RSDP, the XSDT or RSDT, headers, the FACS, the SLIT."""

from .program import MISMATCH
from .refusal import signature_of
from .report import both, known

MOST_SLOTS = 32
# Where a header has text: the name and the size of each field.
TEXTS = {0: ("Signature", 4), 10: ("OEMID", 6), 16: ("OEM Table ID", 8), 28: ("Creator ID", 4)}
# Rules on two slots.
TWO_SLOTS = (101, 102, 149)


def rsdp(report, code, at):
    number = report.image.number
    is_long = (number(at + 15, 1) or 0) >= 2
    report.say(f"the RSDP at {at:#x}:")
    report.bytes(at, 36 if is_long else 20)
    length, rsdt, xsdt = number(at + 20, 4), number(at + 16, 4), number(at + 24, 8)
    if code in (1, 4, 6):
        report.gap(at, {1: 20, 4: 36}.get(code, length or 36))
    elif code == 2:
        report.say("it must begin with 52 53 44 20 50 54 52 20, which is 'RSD PTR '")
    elif code == 3:
        report.checksum("RSDP", at, 20, 8)
    elif code == 5 and length is not None:
        report.say(f"Length is {length}, and must be at least 36")
    elif code == 7:
        report.checksum("RSDP", at, length or 36, 32)
    elif code == 8 and rsdt is not None:
        report.say(f"RsdtAddress is {rsdt:#x}" + (f", and XsdtAddress is {xsdt:#x}" if is_long and xsdt is not None else ""))


def header(report, code, address, what):
    """The header of the XSDT or RSDT, or of a listed table, whose codes are alike."""
    head = report.image.part(address, 36)
    length = int.from_bytes(head[4:8], "little")
    report.say(f"{what} at {address:#x}:")
    report.bytes(address, 36)
    if len(head) >= 8:
        report.say(f"signature {signature_of(head)}, Length {length}")
    if code in (9, 15):
        report.gap(address, 36)
    elif code in (11, 16):
        report.say(f"Length is {length}, and must be at least 36, the header's size")
    elif code in (12, 17):
        report.gap(address, length)
    elif code in (14, 18):
        report.checksum(signature_of(head), address, length, 9)


def root(report, code, at):
    tables = report.tables
    header(report, code, at, "the XSDT or RSDT")
    if tables.named != at:
        report.has_root()
        if tables.rsdp is not None:
            report.say(f"the RSDP at {tables.rsdp:#x} does not name this address: {MISMATCH}")
    elif code == 10:
        kind = "XSDT" if tables.width == 8 else "RSDT"
        report.say(f"the signature must be {kind}, since the RSDP names this address in its {kind.capitalize()}Address")
    elif code == 13:
        slots = (report.image.number(at + 4, 4) or 0) - 36
        report.say(f"{slots} bytes of slots of {tables.width} bytes leave {slots % tables.width} over")


def listed(report, code, slot, other, point):
    """The table of a slot: of a fault its address is `other`, of advice `point`."""
    if not report.has_root():
        return
    slots, address = report.tables.slots, other if code <= 18 else point
    for number in (slot, other) if code in TWO_SLOTS else ():
        slot_field(report, number)
    header(report, code, address, f"the table of slot {slot}")
    if code == 101:
        report.say(f"slot {other} lists it too")
    if code in (102, 149) and other < len(slots):
        header(report, code, slots[other], f"the table of slot {other}")
    if code == 148:
        text(report, address, other)
    if slot >= len(slots) or slots[slot] != address:
        report.say(f"slot {slot} does not list this address: {MISMATCH}")


def text(report, address, at):
    """A text of the header at an address."""
    name, size = TEXTS.get(at, (f"what is at {at}, where no text is,", 1))
    report.say(f"{name} is {report.image.part(address + at, size).hex(' ')}")


def signatures(report):
    if report.has_root():
        say_signatures(report, "the slots list", report.tables.slots)


def say_signatures(report, what, slots):
    names = [(report.tables.signature(slot) or "nothing in the image") if slot else "empty" for slot in slots[:MOST_SLOTS]]
    more = f", and {len(slots) - MOST_SLOTS} more" * (len(slots) > MOST_SLOTS)
    report.say(f"{what}: {', '.join(names) or 'nothing'}{more}")


def slot_field(report, slot):
    place = 36 + report.tables.width * slot
    report.say(f"slot {slot} at offset {both(place)} of the XSDT or RSDT, at {report.tables.root + place:#x}:")
    report.bytes(report.tables.root + place, report.tables.width)


def root_advice(report, code, at, other, point):
    """What a rule on a slot, on the root's header, on both roots, or on tables at one place is about."""
    if not report.has_root():
        return
    if code == 129:
        slot_field(report, at)
    elif code == 130:
        both_roots(report, point)
    elif code == 280:
        root_header(report, at)
    else:
        for address in (at, other):
            piece(report, address)
        report.say(f"both hold the byte at {point:#x}")


def root_header(report, at):
    address = report.tables.root
    header(report, 280, address, "the XSDT or RSDT")
    if at == 8:
        report.say(f"Revision is {known(report.image.number(address + 8, 1))}, and must be 1")
    else:
        text(report, address, at)


def both_roots(report, signature):
    rsdp(report, 8, report.tables.rsdp)
    address = report.image.number(report.tables.rsdp + 16, 4) or 0
    length = report.image.number(address + 4, 4) or 0
    data = report.image.part(address + 36, max(0, length - 36))
    narrow = [int.from_bytes(data[at : at + 4], "little") for at in range(0, len(data) // 4 * 4, 4)]
    say_signatures(report, "the XSDT lists", report.tables.slots)
    say_signatures(report, "the RSDT lists", narrow)
    report.say(f"they list {signature_of((signature % 2**32).to_bytes(4, 'little'))} a different number of times")


def piece(report, address):
    """A table, the RSDP or the FACS, by where it begins."""
    head = report.image.part(address, 36)
    is_rsdp = address == report.tables.rsdp
    size = (36 if len(head) > 15 and head[15] >= 2 else 20) if is_rsdp else int.from_bytes(head[4:8], "little")
    report.say(f"the {'RSDP' if is_rsdp else signature_of(head)} at {address:#x}, {size} bytes, up to {address + max(size, 1) - 1:#x}:")
    report.bytes(address, 36)


def rsdp_advice(report, code, at, other, point):
    address = report.tables.rsdp
    if address is None:
        report.has_root()
        return
    rsdp(report, code, address)
    if code == 279:
        report.say(f"OEMID is {report.image.part(address + 9, 6).hex(' ')}")
        return
    name, size = {15: ("Revision", 1), 20: ("Length", 4)}.get(at, (f"byte {at}", 1))
    report.say(f"{name} is {known(report.image.number(address + at, size), '#x')}")


def facs(report, code, at):
    length = report.image.number(at + 4, 4) or 0
    report.say(f"the FACS at {at:#x}:")
    report.bytes(at, 64)
    if code == 27:
        report.say(f"its address is {at % 64} past a multiple of 64" if at % 64 else f"its address is a multiple of 64: {MISMATCH}")
    elif code == 28:
        report.gap(at, 8)
    elif code == 29:
        report.say(f"signature {signature_of(report.image.part(at, 4))}, which must be FACS")
    elif code == 30:
        report.say(f"Length is {length}, and must be at least 64")
    else:
        report.gap(at, length)


def slit(report, code, at, other):
    table = report.table("SLIT")
    if not table:
        return
    count = table.number(36, 8)
    if code == 46:
        report.field(table, "its beginning", 0, min(44, table.length))
        report.say(f"Length is {table.length}, and must be at least 44")
    elif code == 47:
        report.field(table, "the number of localities", 36, 8)
        if count is not None:
            report.say(f"for {count} localities Length must be 44 + {count} * {count} = {44 + count * count}, and is {table.length}")
    else:
        localities(report, table)
        distance(report, table, "the distance", count, at)
        if code == 121:
            distance(report, table, "the other distance", count, other)


def localities(report, table):
    report.field(table, "the number of localities", 36, 8)
    report.say(f"the SLIT has {known(table.number(36, 8))} localities, numbered from 0")


def slit_advice(report, code, at, other, point):
    slit(report, code, at, other)


def distance(report, table, what, count, at):
    report.field(table, what, at, 1)
    if count and 44 <= at < 44 + count * count:
        row, column = divmod(at - 44, count)
        report.say(f"from locality {row} to locality {column} it is {known(table.number(at, 1))}")
    else:
        report.say(f"of {known(count)} localities no distance is there: {MISMATCH}")
