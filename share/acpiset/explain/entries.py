"""What lines on the structures of the MADT, the SRAT and the PPTT are about."""

from functools import lru_cache
from itertools import islice

from .fadt import field, found_fadt, version
from .fixed import localities
from .image import ADDRESSES
from .program import MISMATCH
from .report import both, known
from .tables import FIRST, LENGTHS, UNREAD, layout_of, little

MOST_LISTED = 32
# Codes whose second number is the offset of another structure.
PAIRS = {37, 39, 40, 45, 57, 109, 110, 112, 113, 115, 117, 122, 124, 156, 162, 163, 166, 167, 168, 169, 171, 181, 297, 311}
# Rules whose second number is an offset in the structure, of a field or of a byte: those on reserved ones, which also look at a field of
# the table, and others.
RESERVED = {172, 178, 184}
OF_FIELD = {294, 295, 296, 298, 299, 300, 301, 302, 303, 304, 306, 307, 308, 310}
# Rules that say of the MADT as a whole that something is not there.
OF_WHOLE_MADT = {116, 158, 159}
PROCESSORS = (0, 9, 11, 17, 24)
# The types of the SRAT that put something into a domain: all but that of an ITS.
IN_DOMAINS = (0, 1, 2, 3, 5, 6, 7)

# What is listed of the MADT for a rule, also what it says is not there: what that is, and the types.
LISTED = {
    116: (("the MADT's processors:", PROCESSORS),),
    158: (
        ("the MADT's local APICs and local x2APICs:", (0, 9)), ("the MADT's overrides and NMI sources:", (2, 3)),
        ("the MADT's I/O APICs and I/O SAPICs:", (1, 6)),
    ),
    159: (("the MADT's GICCs:", (11,)), ("the MADT's GIC distributors:", (12,))),
    # Apart from the GICCs, of which a MADT may have more than are listed, before its redistributors.
    **dict.fromkeys((160, 161, 294), (("the MADT's redistributors:", (14,)), ("the MADT's GICCs:", (11,)))),
    295: (("the MADT's redistributors:", (14,)),),
}

# The types of the MADT that a Revision added.
SINCE_REVISION = {3: range(9, 16), 6: range(24, 28)}

# Where a rule looks for a number and does not find it: the table, what is there, of which types, and which field.
LOOKED_IN = {
    59: ("APIC", "the MADT's processors have the UIDs", (0, 9), "uid"),
    114: ("APIC", "the MADT's processors have the UIDs", PROCESSORS, "uid"),
    118: ("APIC", "the MADT's processors have the APIC IDs", (0, 9, 17), "id"),
    125: ("PPTT", "the PPTT's leaves have the IDs", (0,), "id"),
    126: ("APIC", "the MADT's processors have the UIDs", PROCESSORS, "uid"),
    177: ("APIC", "the MADT's ITSs have the IDs", (15,), "id"),
}


def beginning(report, table):
    least = FIRST[table.signature]
    report.field(table, "its beginning", 0, min(least, table.length))
    report.say(f"Length is {table.length}, and must be at least {least}")


def cut(report, table, at):
    """Bytes at which no structure begins, and the structure before them, whose length may be the wrong one."""
    left = table.length - at
    report.say(f"the rest of the table at offset {both(at)}, at {table.address + at:#x}:")
    report.bytes(table.address + at, max(0, min(16, left)))
    if left <= 0 or table.begins(at):
        report.say(f"the table ends before it, or a structure begins there: {MISMATCH}")
    elif left == 1:
        report.say("a single byte is left, and a structure has at least 2")
    elif at + 2 > len(table.data):
        report.say("its length, byte 1, is not in the image")
    else:
        size = table.number(at + 1, 1)
        least = "a structure has at least 2 bytes" if size < 2 else f"only {left} bytes are left in the table"
        report.say(f"its length, byte 1, is {size}, but {least}")
    preceding(report, table, at)


def preceding(report, table, at):
    before = table.before(at)
    if before:
        report.structure(table, "the structure before", before.offset)
    else:
        report.say("no structure is before it")


def length(report, table, at):
    found = report.named(table, "the structure", at)
    if found:
        due = LENGTHS[table.signature].get(found.type, "at least 2")
        if table.signature == "PPTT" and found.type == 0:
            count = found.number(16, 4) if found.size >= 20 else None
            due = "at least 20" if count is None else f"20 + 4 * {count} = {20 + 4 * count}"
        report.say(f"type {found.type} has a length of {due}, but byte 1 is {found.size}")
    preceding(report, table, at)


def served(report, io_apic):
    """The first interrupt number that an I/O APIC serves, and the first one after those that it serves."""
    base = io_apic.fields["base"]
    return base, base + report.settings.inputs(io_apic.fields["address"])


def say_served(report, io_apic):
    first, end = served(report, io_apic)
    report.say(f"  {io_apic.offset:#x} serves {first} to {end - 1} (0x{first:x} to 0x{end - 1:x}), with {end - first} inputs")


# What has to look at each structure of a table is kept, since many lines may ask for it.
kept = lru_cache(maxsize=None)


@kept
def offsets(table, types, word):
    """The offsets of the first structures of some types, with this word if there is one, and how many there are."""
    found, count = [], 0
    for at in table.places(*types):
        if word is None or layout_of(table.signature, table.data, at)[0] == word:
            found += [at] if count < MOST_LISTED else []
            count += 1
    return found, count


def is_listed_above(report, what):
    """Whether this was listed for an earlier line, which is said: many lines may be about one list."""
    if what in report.tables.listed:
        report.say(f"{what} as listed above")
        return True
    report.tables.listed.add(what)
    return False


def listing(report, what, table, types, word=None, say_more=None):
    """The first structures of some types, as `show` writes them, and how many more there are."""
    if is_listed_above(report, what):
        return
    found, count = offsets(table, types, word)
    report.say(what)
    for one in map(table.structure, found):
        report.say(f"  {one.shown()}")
        if say_more:
            say_more(report, one)
    if count == 0 or count > MOST_LISTED:
        report.say(f"  and {count - MOST_LISTED} more" if count else "  none")


def io_apics(report, table):
    listing(report, "the MADT's I/O APICs:", table, (1,), "ioapic", say_served)


def whole_table(report, signature, code, at):
    """The table, where the line is about a structure that begins in it; else what the line is about is said here."""
    table = report.table(signature)
    if table and code in (32, 41):
        beginning(report, table)
    elif table and code in (33, 42, 50):
        cut(report, table, at)
    elif table and code in (34, 43, 51):
        length(report, table, at)
    else:
        return table
    return None


def madt(report, code, at, other, point):
    table = whole_table(report, "APIC", code, at)
    if not table:
        return
    if code in OF_WHOLE_MADT:
        report.field(table, "its beginning", 0, 44)
    elif code == 305:
        revision(report, table)
    elif code in RESERVED:
        reserved(report, table, 40, at, other)
    else:
        madt_structures(report, table, code, at, other)
    for what, types in LISTED.get(code, ()):
        listing(report, what, table, types)
    if code in BESIDE:
        first = beside(report, table, *BESIDE[code])
        if code == 296:
            value(report, first, other)


def madt_structures(report, table, code, at, other):
    """The one or two structures of the MADT that a line names, and what else is said of them."""
    found = report.named(table, "the structure", at)
    second = report.named(table, "the other structure", other) if code in PAIRS else None
    if found and code == 35:
        report.say(f"Bus is {found.number(2, 1)}, and must be 0")
    elif found and code == 36 and "flags" in found.fields:
        flags = found.fields["flags"]
        report.say(f"the polarity is {flags & 3:02b}b, the trigger mode {flags >> 2 & 3:02b}b; 10b is reserved")
    elif code == 38 and is_one(found, "ioapic"):
        first, end = served(report, found)
        report.say(f"{first:#x} and {end - first} inputs are {end:#x}, and at most 0x100000000 is allowed")
    elif code == 39 and is_one(found, "ioapic") and is_one(second, "ioapic"):
        say_served(report, found)
        say_served(report, second)
    elif code == 58:
        io_apics(report, table)
    elif code == 119:
        affinities(report, found)
    elif code == 127:
        count_unread(report, table)
    elif code in (114, 125):
        looked_for(report, code)
    elif code in (152, 154):
        of_fadt(report, code)
    elif found and (code == 293 or code == 303 and found.field_at(other) is None):
        due = f"must be at least {other}" if code == 293 else f"one of its version has {other}"
        report.say(f"its length, byte 1, is {found.size}, and {due}")
    elif code in OF_FIELD:
        value(report, found, other)


def revision(report, table):
    """The MADT's Revision, and the structures that only a later one has."""
    report.field(table, "Revision", 8, 1)
    report.say(f"Revision is {known(table.number(8, 1))}")
    for least, types in SINCE_REVISION.items():
        if (table.number(8, 1) or 0) < least:
            listing(report, f"the MADT's structures of types {types[0]} to {types[-1]}, which are those of Revision {least}:", table, types)


def is_distributor(one):
    return is_one(one, "gicd")


def is_usable_below_255(one):
    """Whether a structure is a local APIC that is Enabled or Online Capable, and whose ID is not the one that addresses all processors."""
    return is_one(one, "lapic") and one.fields["flags"] & 3 != 0 and one.fields["id"] != 255


def is_usable_of_60(one):
    """Whether a structure is a GICC of at least 60 bytes that is Enabled or Online Capable."""
    return is_one(one, "gicc") and one.size >= 60 and one.fields["flags"] & 9 != 0


# What a rule looks at in the MADT beside the structures that its line names: what that is, its type, and which one it is. The first one
# is shown: the GIC's version is that of the first distributor.
BESIDE = {
    150: ("usable local APIC with an APIC ID other than 255", 0, is_usable_below_255),
    **dict.fromkeys((161, 162, 294, 295, 297), ("GIC distributor of 24 bytes", 12, is_distributor)),
    296: ("usable GICC of at least 60 bytes", 11, is_usable_of_60),
}


def beside(report, table, what, kind, is_due):
    """The first such structure, or None."""
    at = first_of(table, kind, is_due)
    if at is None:
        report.say(f"the MADT has no {what}: {MISMATCH}")
        return None
    return report.structure(table, f"the first {what}", at)


@kept
def first_of(table, kind, is_due):
    return next((at for at in table.places(kind) if is_due(table.structure(at))), None)


def of_fadt(report, code):
    """What the FADT says, where a rule on a structure of the MADT looks at it."""
    table = report.tables.first("FACP")
    if table and code == 152:
        report.say(f"the FADT is of version {version(table)}")
    elif table:
        report.say(f"SCI_INT is {known(table.number(46, 2))}")


def reserved(report, table, field_at, at, place):
    """A reserved value: of the field of 4 bytes that the table has, or of a structure, with the field or the byte at a place of it."""
    if at == field_at:
        report.field(table, "the field", at, 4)
        report.say(f"it is {known(table.number(at, 4), '#x')}")
        return
    value(report, report.named(table, "the structure", at), place)


def value(report, found, place):
    """What a structure has at a place: a field, or else a byte. The word of a structure of one field is the field's name too."""
    name = found and found.field_at(place)
    if found and name is not None:
        report.say(f"its field {name or found.word}, at {place}, is {found.fields[name]:#x}")
    elif found and place < found.size:
        report.say(f"byte {place} of it is {found.number(place, 1):#x}")


def is_one(structure, word):
    return structure is not None and structure.word == word


def srat(report, code, at, other, point):
    table = whole_table(report, "SRAT", code, at)
    if not table:
        return
    if code == 173:
        report.field(table, "its beginning", 0, 48)
        listing(report, "the SRAT's memory ranges:", table, (1,))
        return
    if code in RESERVED:
        reserved(report, table, 36, at, other)
        return
    found = report.named(table, "the structure", at)
    second = report.named(table, "the other structure", other) if code in PAIRS else None
    if code == 44 and is_one(found, "memory"):
        end = found.fields["base"] + found.fields["length"]
        report.say(f"Base Address and Length are {end:#x} together, and at most {ADDRESSES:#x} is allowed")
    elif code == 45 and is_one(found, "memory") and is_one(second, "memory"):
        ranges(report, found, second)
    elif code == 57:
        processors(report, point)
    elif code == 118:
        looked_for(report, 114 if is_one(found, "gicc") or is_one(found, "rintc") else 118)
    elif code == 176:
        report.say(f"the SRAT's Revision is {known(table.number(8, 1))}")
    elif code == 177:
        looked_for(report, code)
    elif code == 128:
        count_unread(report, table)
    elif code == 120 and (slit := report.table("SLIT")):
        localities(report, slit)
    elif code in OF_FIELD:
        value(report, found, other)
        if code == 308:
            domains(report, table)


def domains(report, table):
    """The domains of what is in one: of enabled affinities, memory ranges, initiators and ports."""
    numbers = enabled_numbers(table, IN_DOMAINS, "domain")
    report.say(f"the SRAT's enabled affinities, memory ranges, initiators and ports have the domains {numbers}")


def ranges(report, *two):
    """What two ranges of memory cover, and what both cover."""
    for one in two:
        base, size, flags = (one.fields[name] for name in ("base", "length", "flags"))
        covered = f"covers {base:#x} to {base + size - 1:#x}" if size else "covers nothing"
        words = [word for bit, word in enumerate(("enabled", "hot-pluggable", "non-volatile")) if flags >> bit & 1]
        report.say(f"  {one.offset:#x} {covered}, domain {one.fields['domain']}: {', '.join(words) or 'not enabled'}")
    first = max(one.fields["base"] for one in two)
    end = min(one.fields["base"] + one.fields["length"] for one in two)
    report.say(f"both cover {first:#x} to {end - 1:#x}" if first < end else f"no address is in both: {MISMATCH}")


def processors(report, number):
    """The processors of the MADT that have an APIC ID or X2APIC ID."""
    table = report.table("APIC")
    found = with_ids(table).get(number, ()) if table else ()
    if found and is_listed_above(report, f"the processors with the ID {number}:"):
        return
    for at in found:
        report.structure(table, "the processor", at)
    if table and not found:
        report.say(f"no processor has the ID {number}: {MISMATCH}")


@kept
def with_ids(table):
    """The offsets of the first processors with each APIC ID or X2APIC ID."""
    found = {}
    for number, at in table.values("id", 0, 9):
        places = found.setdefault(number, [])
        places += [at] if len(places) < MOST_LISTED else []
    return found


def pptt(report, code, at, other, point):
    table = whole_table(report, "PPTT", code, at)
    if not table:
        return
    if code in (55, 56):
        cycle(report, table, code, at, (other, point))
        return
    if code in RESERVED:
        reserved(report, table, None, at, other)
        return
    found = report.named(table, "the structure", at)
    if code == 311:
        caches(report, table, other, point)
    elif code in PAIRS:
        report.named(table, "the other structure", other)
    elif code == 52:
        reference(report, table, other, "a node, type 0")
    elif code == 53 and is_one(found, "node"):
        report.field(table, f"private resource {other}", at + 20 + 4 * other, 4)
        reference(report, table, point, "of another type")
    elif code == 54:
        reference(report, table, other, "a cache, type 1")
    elif code == 182:
        parents(report, table, at)
    elif code == 183 and is_one(found, "cache"):
        ways, sets, line = (found.fields[name] for name in ("ways", "sets", "line"))
        report.say(f"{sets} sets * {ways} ways * {line} bytes of a line are {sets * ways * line}, and Size is {found.fields['size']}")
    elif code == 309:
        count_unread(report, table)
    elif code == 310:
        value(report, found, other)
        report.say(f"the PPTT's Revision is {known(table.number(8, 1))}")
    elif code in LOOKED_IN:
        looked_for(report, code)


def caches(report, table, *two):
    """Two caches that a node names, and what they are caches of."""
    for what, at in zip(("the first cache", "the other cache"), two):
        found = report.named(table, what, at)
        if is_one(found, "cache"):
            kind = ("data", "instructions", *2 * ["data and instructions"])[found.fields["attributes"] >> 2 & 3]
            report.say(f"its field attributes, at 21, is {found.fields['attributes']:#x}: it is a cache of {kind}")


def reference(report, table, at, due):
    """What is where a reference leads to."""
    before = table.before(at)
    if table.begins(at):
        found = report.structure(table, "what is named", at)
        report.say(f"it is of type {found.type}, and must be {due}")
    elif before and at < before.offset + before.size:
        report.say(f"no structure begins at offset {both(at)}: it is inside this one")
        report.structure(table, "the structure", before.offset)
    else:
        report.say(f"no structure begins at offset {both(at)}: the table's structures are at 36 to {len(table.data) - 1}")


def cycle(report, table, code, at, counts):
    """All nodes or caches of a chain from one on, until one comes again."""
    word = "node" if code == 55 else "cache"
    steps, named = chain(table, word, at)
    listed = report.tables.of_chain(len(steps))
    for offset in islice(steps, listed):
        report.structure(table, f"{word} {steps[offset] + 1} of the chain" if steps[offset] else f"the {word}", offset)
    say_unlisted(report, steps, listed)
    if named not in steps:
        report.say(f"the chain comes to no {word} again: {MISMATCH}")
        return
    lead, around = steps[named], len(steps) - steps[named]
    report.say(f"it names the one at {named:#x} again: {around} of these {len(steps)} are the cycle")
    if counts != (lead, around):
        report.say(f"the line says {counts[0]} steps to it and {counts[1]} around it: {MISMATCH}")


def say_unlisted(report, steps, listed):
    if len(steps) > listed:
        report.say(f"and {len(steps) - listed} more, up to the one at {next(reversed(steps)):#x}")


def parents(report, table, at):
    """The nodes to which the Parents of one lead."""
    steps, _ = chain(table, "node", at)
    listed = report.tables.of_chain(len(steps))
    for offset in islice(steps, 1, listed):
        report.structure(table, f"parent {steps[offset]}", offset)
    say_unlisted(report, steps, listed)
    report.say("none of them has the flag of a package, bit 0")


@lru_cache(maxsize=1)
def chain(table, word, at):
    """The offsets from a node or cache on, each with its number, and the one that the last of them names."""
    links, steps = links_of(table, word), {}
    while at not in steps and at in links:
        steps[at] = len(steps)
        at = links[at]
    return steps, at


@kept
def links_of(table, word):
    """The offset of each node or cache, and the one that it names. Both kinds have it at 8."""
    places = (at for at in table.places(0, 1) if layout_of(table.signature, table.data, at)[0] == word)
    return {at: little(table.data, at + 8, 4) for at in places}


def looked_for(report, code):
    """The numbers among which one was looked for."""
    signature, what, types, name = LOOKED_IN[code]
    report.say(f"{what} {numbers_of(report.tables.first(signature), types, name, code == 125)}")


@kept
def numbers_of(table, types, name, is_of_leaves):
    """The values of a field of all structures of some types, or the IDs of leaves."""
    numbers = () if not table else leaves(table) if is_of_leaves else (number for number, _ in table.values(name, *types))
    return in_ranges(set(numbers))


def leaves(table):
    """The IDs of leaves: of nodes with a valid ID that their flags call leaves, or that no Parent names if the Revision is below 2."""
    nodes = (one for one in table.structures(0) if one.fields.get("flags", 0) & 2)
    if (table.number(8, 1) or 0) >= 2:
        return (one.fields["id"] for one in nodes if one.fields["flags"] & 8)
    parents = {number for number, _ in table.values("parent", 0)}
    return (one.fields["id"] for one in nodes if one.offset not in parents)


def affinities(report, processor):
    """The numbers of the SRAT's affinities, of the kind that a processor would have."""
    types, name, what = (0, 2), "id", "affinities have the IDs"
    if is_one(processor, "gicc") or is_one(processor, "rintc"):
        types, name, what = (3, 7), "uid", "affinities of types 3 and 7 have the UIDs"
    report.say(f"the SRAT's enabled {what} {enabled_numbers(report.tables.first('SRAT'), types, name)}")


@kept
def enabled_numbers(table, types, name):
    enabled = (one for one in table.structures(*types) if one.fields.get("flags", 0) & 1) if table else ()
    return in_ranges({one.fields[name] for one in enabled})


def in_ranges(numbers):
    """Numbers in order, those that follow one another as a range."""
    ranges_of = []
    for number in sorted(numbers):
        if ranges_of and number == ranges_of[-1][1] + 1:
            ranges_of[-1][1] = number
        else:
            ranges_of.append([number, number])
    shown = [str(first) if first == last else f"{first} to {last}" for first, last in ranges_of[:MOST_LISTED]]
    more = f", and {len(ranges_of) - MOST_LISTED} more ranges" * (len(ranges_of) > MOST_LISTED)
    return (", ".join(shown) or "none") + more


def fadt_madt(report, code, at, other, point):
    """What a rule on a field of the FADT and on the MADT is about."""
    table = found_fadt(report)
    if table and code == 108:
        sci(report, table)
    elif table:
        field(report, table, at)
        report.say(f"the FADT is of version {version(table)}")
        apic = report.table("APIC")
        if apic:
            listing(report, "the MADT's GICCs and RINTCs:", apic, (11, 24))


def sci(report, table):
    """SCI_INT, its overrides, and the I/O APICs that would have to serve it."""
    report.field(table, "SCI_INT", 46, 2)
    source = table.number(46, 2)
    report.say(f"SCI_INT is {known(source)}")
    apic = report.table("APIC")
    if not apic:
        return
    found = overrides(apic, source)
    if found and not is_listed_above(report, "the overrides of SCI_INT:"):
        for at in found[:MOST_LISTED]:
            report.structure(apic, "an override of SCI_INT", at)
        if len(found) > MOST_LISTED:
            report.say(f"and {len(found) - MOST_LISTED} more overrides of SCI_INT")
    io_apics(report, apic)


@kept
def overrides(table, source):
    """The offsets of the overrides of an interrupt of the bus 0, ISA."""
    found = (one for one in table.structures(2) if is_one(one, "override"))
    return [one.offset for one in found if one.number(2, 1) == 0 and one.fields["source"] == source]


# The structures at which rules of advice look and no stage does, by type: the least length, or the lengths.
ADVISED_FROM = {("APIC", 11): 40, ("APIC", 24): 20}
ADVISED = {
    "APIC": {
        12: (24,), 13: (24,), 14: (16,), 15: (20,), 16: (16, 24), 17: (15,), 18: (23,), 19: (21,), 20: (13,), 21: (19,), 22: (17,),
        23: (14,), 25: (16,), 26: (36,), 27: (36,),
    },
    "SRAT": {3: (18,), 4: (12,), 5: (32,), 6: (32,), 7: (20,)},
    "PPTT": {},
}
# The types at which the stages look.
STAGED = {"APIC": (0, 1, 2, 3, 4, 5, 9, 10), "SRAT": (0, 1, 2), "PPTT": (0, 1)}


def is_advised(signature, kind, size):
    """Whether rules of advice look at a structure of a type that no stage looks at."""
    least = ADVISED_FROM.get((signature, kind))
    return size in ADVISED[signature].get(kind, ()) if least is None else size >= least


@kept
def unread_kinds(table):
    """Types at which the stages do not look, each with whether advice does: how many structures a table has of them, and the first one."""
    alike, kinds = {}, {}
    for at in table.places():
        key = table.data[at : at + 2]
        if key not in alike:
            alike[key] = [0, at]
        alike[key][0] += 1
    for (kind, size), (count, at) in alike.items():
        if kind not in STAGED[table.signature]:
            found = kinds.setdefault((kind, is_advised(table.signature, kind, size)), [0, at])
            found[0] += count
    return kinds


def told_kind(signature, kind, count, at):
    """A type, how many structures have it, and where the first one is."""
    name = f" ({UNREAD[signature, kind]})" if (signature, kind) in UNREAD else ""
    return f"  type {kind}{name}: {count}{', the first' if count > 1 else ''} at offset {both(at)}"


def unread(report, signature):
    """Which structures of a table the stages do not look at, by type."""
    table = report.tables.first(signature)
    kinds = unread_kinds(table) if table else {}
    if kinds:
        if not report.lines:
            report.say("`yes` does not cover these structures:")
        report.say(table.told)
    for (kind, is_read), found in kinds.items():
        report.say(f"{told_kind(signature, kind, *found)}: {'looked at by the advice of lint only' if is_read else 'not looked at'}")


def count_unread(report, table):
    """How many structures lint does not read, by type: it reports the first one alone."""
    report.say("structures of this table that neither the stages nor advice look at:")
    for (kind, is_read), found in unread_kinds(table).items():
        if not is_read:
            report.say(told_kind(table.signature, kind, *found))
