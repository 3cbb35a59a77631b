"""What lines on the HMAT are about."""

from .entries import numbers_of
from .fixed import signatures
from .further_tables import length
from .report import known
from .walked import Shape, Walk, cut, not_there, say_one

FIRST, SHAPE = 40, Shape(2, 4, 4, 8)
PROXIMITY, LATENCY, CACHE = range(3)
NAMES = {
    PROXIMITY: "a memory proximity domain attributes structure", LATENCY: "a latency and bandwidth structure",
    CACHE: "a memory side cache information structure",
}
# Their fields: of each the name, the offset, the size and the form.
DOMAIN, HANDLES = "the domain of the memory", ("the number of SMBIOS handles", 30, 2, "d")
FIELDS = {
    PROXIMITY: [("Flags", 8, 2, "#x"), ("the domain of the initiator", 12, 4, "d"), (DOMAIN, 16, 4, "d")],
    LATENCY: [
        ("Flags", 8, 1, "#x"), ("Data Type", 9, 1, "d"), ("the number of initiators", 12, 4, "d"), ("the number of targets", 16, 4, "d"),
        ("Entry Base Unit", 24, 8, "d"),
    ],
    CACHE: [(DOMAIN, 8, 4, "d"), ("Cache Attributes", 24, 4, "#x"), HANDLES],
}
LISTS, MOST = 32, (1 << 32) - 1
IN_SRAT = range(8)


def hmat(report, code, at, other, point):
    table = report.table("HMAT")
    if not table:
        return
    walk = Walk(table, SHAPE, FIRST)
    if code == 195:
        header(report, table, at)
    elif code == 196:
        cut(report, walk, at)
        before = walk.before(at)
        if before:
            say(report, "the structure before", before)
    elif code == 207:
        signatures(report)
    elif code in (201, 202, 204):
        in_lists(report, walk, code, at, other)
    elif found := walk.one(at):
        say(report, "the structure", found)
        of_structure(report, table, code, found)
    else:
        not_there(report, "structure", at)


def say(report, what, found):
    say_one(report, what, found, NAMES, FIELDS.get(found.kind, []))


def header(report, table, at):
    if at == 4:
        length(report, table, FIRST)
    else:
        report.field(table, "its Revision", 8, 1)
        report.say(f"Revision is {known(table.number(8, 1))}, and must be 1 or 2")


def of_structure(report, table, code, found):
    """What else a rule on a structure looks at."""
    if code == 197:
        report.say(f"its length is {found.size}, and must be {due(found)}")
    elif code in (199, 203):
        report.say(f"the HMAT's Revision is {known(table.number(8, 1))}")
    if code == 203:
        domains(report, IN_SRAT, "structures")
    if code in (203, 205):
        domains(report, (1, 6) if code == 203 else (1,), "memory and generic ports" if code == 203 else "memory")
    elif code == 206:
        attributes = found.number(24, 4) or 0
        parts = (f"the {name} {attributes >> shift & 15}" for name, shift in (("level", 4), ("associativity", 8), ("write policy", 12)))
        report.say(f"of Cache Attributes the number of levels is {attributes & 15}, {', '.join(parts)}")


def due(found):
    """The length that a structure must have."""
    if found.kind == PROXIMITY:
        return "40"
    if found.kind not in FIELDS or found.size < LISTS:
        return f"at least {LISTS}"
    if found.kind == CACHE:
        handles = found.number(30, 2)
        return f"at least 32 + 2 * {handles} = {LISTS + 2 * handles}"
    initiators, targets = counts(found)
    needed = LISTS + 4 * initiators + 4 * targets + 2 * initiators * targets
    return f"at least 32 + 4 * {initiators} + 4 * {targets} + 2 * {initiators} * {targets} = {needed}"


def counts(found):
    """The numbers of initiators and of targets of a latency and bandwidth structure."""
    return found.number(12, 4), found.number(16, 4)


def domains(report, types, what):
    report.say(f"the domains of the SRAT's {what} are {numbers_of(report.tables.first('SRAT'), tuple(types), 'domain', False)}")


def place_in(found, at):
    """What is at an offset of the lists of a latency and bandwidth structure: the word for it, and of which initiator and target."""
    initiators, targets = counts(found)
    place, matrix = at - found.at - LISTS, 4 * (initiators + targets)
    if 0 <= place < matrix and place % 4 == 0:
        index = place // 4
        return ("initiator", index, None) if index < initiators else ("target", None, index - initiators)
    index, odd = divmod(place - matrix, 2)
    return ("value", *divmod(index, targets)) if not odd and 0 <= index < initiators * targets else ("", None, None)


def domain_of(found, initiator, target):
    """The domain of an initiator, or of a target."""
    return found.number(LISTS + 4 * (counts(found)[0] + target if initiator is None else initiator), 4)


def in_lists(report, walk, code, at, other):
    """An initiator, a target or a value of a latency and bandwidth structure; two of the first or second kind."""
    found = walk.of(at)
    word = place_in(found, at)[0] if found and found.kind == LATENCY and found.size >= LISTS else ""
    if (word == "value") != (code == 201) or not word:
        not_there(report, "value of a structure" if code == 201 else "initiator or target", at)
        return
    say(report, "the structure", found)
    for place in (other, at) if code == 202 else (at,):
        element(report, found, place)
    if code == 204:
        domains(report, IN_SRAT, "structures")


def element(report, found, at):
    """An initiator, a target or a value, with its bytes."""
    word, initiator, target = place_in(found, at)
    if not word:
        not_there(report, "initiator or target", at)
    elif word == "value":
        value, unit = found.number(at - found.at, 2), found.number(24, 8)
        report.field(found.table, "the value", at, 2)
        told = f"from the initiator domain {domain_of(found, initiator, None)} to the target domain {domain_of(found, None, target)}"
        report.say(f"it is {told}: {value} * {unit} is {value * unit}, and at most {MOST} is allowed")
    else:
        index = target if initiator is None else initiator
        report.field(found.table, f"{word} {index}", at, 4)
        report.say(f"its domain is {domain_of(found, initiator, target)}")
