"""What lines on the DMAR are about."""

from .entries import MOST_LISTED, in_ranges, kept, numbers_of
from .fadt import no_field
from .further_tables import length
from .program import MISMATCH
from .report import both, known
from .walked import Shape, Walk, both_have, cut, not_there, registers_from, say_one

FIRST, SHAPE, SCOPE_SHAPE = 48, Shape(2, 2, 2, 4), Shape(1, 1, 1, 8)
DRHD, RMRR, ATSR, RHSA, ANDD, SATC, SIDP = range(7)
NAMES = {DRHD: "a DRHD", RMRR: "an RMRR", ATSR: "an ATSR", RHSA: "an RHSA", ANDD: "an ANDD", SATC: "an SATC", SIDP: "an SIDP"}
# The least length of each type, and where the device scopes of a type begin.
LEAST = {DRHD: 16, RMRR: 24, ATSR: 8, RHSA: 20, ANDD: 9, SATC: 8, SIDP: 8}
SCOPES = {DRHD: 16, RMRR: 24, ATSR: 8, SATC: 8, SIDP: 8}
# Their fields: of each the name, the offset, the size and the form.
FLAGS, SEGMENT, BASE = ("Flags", 4, 1, "#x"), ("Segment Number", 6, 2, "d"), ("Register Base Address", 8, 8, "#x")
FIELDS = {
    DRHD: [FLAGS, ("Size", 5, 1, "#x"), SEGMENT, BASE],
    RMRR: [SEGMENT, ("Reserved Memory Region Base Address", 8, 8, "#x"), ("Reserved Memory Region Limit Address", 16, 8, "#x")],
    ATSR: [FLAGS, SEGMENT], RHSA: [BASE, ("Proximity Domain", 16, 4, "d")], ANDD: [("ACPI Device Number", 7, 1, "d")],
    SATC: [FLAGS, SEGMENT], SIDP: [SEGMENT],
}
IO_APIC, NAMESPACE_DEVICE = 3, 5
SCOPE_NAMES = {
    1: "a device scope of an endpoint", 2: "a device scope of a bridge", IO_APIC: "a device scope of an I/O APIC",
    4: "a device scope of an HPET", NAMESPACE_DEVICE: "a device scope of a namespace device",
}
ENUMERATION_ID = 4
SCOPE_FIELDS = [("Enumeration ID", ENUMERATION_ID, 1, "d"), ("Start Bus Number", 5, 1, "d")]
PATH, STEP_SIZE, MOST_STEPS = 6, 2, 16
NAME = 8
WIDTH = 36
# Rules on two structures.
PAIRS = (248, 249, 254)


def dmar(report, code, at, other, point):
    table = report.table("DMAR")
    if not table:
        return
    walk = Walk(table, SHAPE, FIRST)
    if code in (240, 241, 243, 257):
        of_table(report, walk, code, at)
    elif code in (244, 245, 258) or (code, other) == (256, ENUMERATION_ID):
        of_scopes(report, walk, code, at, other)
    elif code == 247:
        both_have(report, [registers(report, walk, place) for place in (at, other)], point)
    elif found := walk.one(at):
        say(report, "the structure", found)
        of_structure(report, walk, code, found, other)
    else:
        not_there(report, "structure", at)


def of_table(report, walk, code, at):
    """What a rule on the table's header or on all its structures is about."""
    if code == 240:
        header(report, walk.table, at)
    elif code == 241:
        cut(report, walk, at)
        before(report, walk, at)
    elif code == 243:
        no_drhd(report, walk.table)
    else:
        unmapped(report, walk, at)


def header(report, table, at):
    if at == 4:
        length(report, table, FIRST)
    elif at == WIDTH:
        report.field(table, "Host Address Width", at, 1)
        report.say(f"Host Address Width is {known(table.number(at, 1))}, and must be 11 to 63")
    else:
        no_field(report, at)


def no_drhd(report, table):
    types = types_of(table)
    report.field(table, "its header", 0, 36)
    told = f"a DRHD has the type {DRHD}: {MISMATCH}" if DRHD in types else f"a DRHD would have the type {DRHD}"
    report.say(f"the types of its structures: {in_ranges(types)}; {told}")


def before(report, walk, at):
    """The structure before bytes that are none, whose length may be the wrong one."""
    found = walk.before(at)
    if found:
        say(report, "the structure before", found)


def say(report, what, found):
    say_one(report, what, found, NAMES, FIELDS.get(found.kind, []))


def of_structure(report, walk, code, found, other):
    """What else a rule on a structure looks at."""
    if code in PAIRS:
        second(report, walk, other)
    elif code == 242:
        report.say(f"its length is {found.size}, and must be at least {LEAST.get(found.kind, SHAPE.least)}")
    elif code == 251:
        least = f"{SCOPES[RMRR]} + {SCOPE_SHAPE.least} = {SCOPES[RMRR] + SCOPE_SHAPE.least}"
        report.say(f"its length is {found.size}, and with a device scope it is at least {least}")
    elif code == 252:
        report.say(f"the DRHDs have the Register Base Addresses {addresses(numbers_in(walk.table, DRHD, 8, 8))}")
    elif code == 253:
        domains = numbers_of(report.tables.first("SRAT"), tuple(range(8)), "domain", False)
        report.say(f"the domains of the SRAT's structures are {domains}")
    elif code == 255:
        name(report, found)
    elif code == 256:
        report.say(f"the device scopes of namespace devices in DRHDs have the Enumeration IDs {scope_ids(walk.table, NAMESPACE_DEVICE)}")


def second(report, walk, at):
    found = walk.one(at)
    if found:
        say(report, "the other structure", found)
    else:
        not_there(report, "structure", at)


def name(report, found):
    """The bytes of an ACPI Object Name, none of which is 0."""
    data = found.table.data[found.at + NAME : found.at + found.size]
    end = data.find(0)
    told = f"byte {NAME + end} of it is 0: {MISMATCH}" if end >= 0 else f"none of its bytes from {NAME} to {found.size - 1} is 0"
    report.say(told)


def addresses(numbers):
    """The first of some addresses, and how many more there are."""
    more = f", and {len(numbers) - MOST_LISTED} more" * (len(numbers) > MOST_LISTED)
    return (", ".join(f"{number:#x}" for number in numbers[:MOST_LISTED]) or "none") + more


def registers(report, walk, at):
    """The registers of a DRHD: their first address, and the one after the last; None if there is no such structure."""
    found = walk.one(at)
    if not found or found.kind != DRHD or found.size < LEAST[DRHD]:
        not_there(report, "DRHD", at)
        return None
    say(report, "the structure", found)
    return registers_from(report, found.number(8, 8), 4096 << (found.number(5, 1) & 15))


# ---- device scopes


def scopes_in(found):
    """The device scopes of a structure, or None if its type has none, or it is too short."""
    first = SCOPES.get(found.kind) if found else None
    if first is None or found.size < first:
        return None
    return Walk(found.table, SCOPE_SHAPE, found.at + first, within=found)


def scope_of(walk, at):
    """The device scope that has the byte at an offset, or None."""
    scopes = scopes_in(walk.of(at))
    return scopes.of(at) if scopes else None


def of_scopes(report, walk, code, at, other):
    """What a rule on device scopes is about."""
    if code == 244:
        cut_scopes(report, walk, at)
    elif code == 258:
        for place in (at, other):
            device_scope(report, walk, place)
    elif code == 256:
        device_scope(report, walk, at)
        report.say(f"the ANDDs have the ACPI Device Numbers {in_ranges(numbers_in(walk.table, ANDD, 7, 1))}")
    else:
        scope_or_step(report, walk, at)


def cut_scopes(report, walk, at):
    found = walk.of(at)
    scopes = scopes_in(found)
    if not scopes or at < scopes.first:
        not_there(report, "device scope", at)
        return
    say(report, "the structure", found)
    cut(report, scopes, at, "device scope")
    last = scopes.before(at)
    if last:
        say_scope(report, "the device scope before", last)


def scope_or_step(report, walk, at):
    """The device scope that begins at an offset, or a step of one."""
    found = scope_of(walk, at)
    place = at - found.at - PATH if found else -1
    if not found or at == found.at:
        device_scope(report, walk, at)
    elif place < 0 or place % STEP_SIZE or at + STEP_SIZE > found.at + found.size:
        not_there(report, "device scope or step of a path", at)
    else:
        say_scope(report, "the device scope", found)
        report.field(walk.table, f"step {place // STEP_SIZE} of its path", at, STEP_SIZE)
        device, function = (walk.table.number(at + byte, 1) for byte in (0, 1))
        report.say(f"its Device is {device}, and its Function is {function}: at most 31 and 7 are allowed")


def device_scope(report, walk, at):
    """A device scope that the line names, and the structure that has it."""
    found = scope_of(walk, at)
    if not found or found.at != at:
        not_there(report, "device scope", at)
        return
    say_scope(report, "the device scope", found)
    whole = walk.of(at)
    report.say(f"it is in {NAMES[whole.kind]} at offset {both(whole.at)}")


def say_scope(report, what, found):
    say_one(report, what, found, SCOPE_NAMES, SCOPE_FIELDS)
    steps = [(found.number(at, 1), found.number(at + 1, 1)) for at in range(PATH, found.size - 1, STEP_SIZE)]
    told = ", ".join(f"{device}.{function}" for device, function in steps[:MOST_STEPS])
    report.say(f"its path, as Device.Function, is {told}{', ..' * (len(steps) > MOST_STEPS)}")


def unmapped(report, walk, at):
    """An I/O APIC of the MADT, and those of which the DMAR has device scopes."""
    flags = walk.table.number(37, 1)
    report.say(f"its Flags, at 37, are {known(flags, '#x')}")
    report.say(f"the device scopes of I/O APICs in DRHDs have the Enumeration IDs {scope_ids(walk.table, IO_APIC)}")
    apic = report.table("APIC")
    if apic:
        report.named(apic, "the structure", at)


# ---- what all structures have


@kept
def types_of(table):
    return {found.kind for found in Walk(table, SHAPE, FIRST)}


@kept
def numbers_in(table, kind, at, size):
    """A field of all structures of a type that have it, in order."""
    numbers = {found.number(at, size) for found in Walk(table, SHAPE, FIRST) if found.kind == kind}
    return sorted(numbers - {None})


@kept
def scope_ids(table, kind):
    """The Enumeration IDs of all device scopes of a type in DRHDs."""
    every = (scopes_in(found) for found in Walk(table, SHAPE, FIRST) if found.kind == DRHD)
    return in_ranges({scope.number(ENUMERATION_ID, 1) for scopes in every if scopes for scope in scopes if scope.kind == kind})
