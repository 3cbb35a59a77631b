"""What `show` has to write of an image, from the layouts of ACPI 6.5, section 5.2, and docs/SHOW.md alone: a second program, to compare
the first with."""

import re

from .faults import Fault, early_faults
from .table_set import BLOCKS, HEADER, TableSet, complete_table, domain_of, fadt_of, slit_count

# The lines of entries by their types: {OFFSET:SIZE} is a number of the entry, with an x in hex (5.2.12, 5.2.16, 5.2.30).
MADT_LINES = {
    0: "lapic uid {2:1} id {3:1} flags {4:4x}",
    1: "ioapic id {2:1} address {4:4x} base {8:4}",
    2: "override source {3:1} gsi {4:4} flags {8:2x}",
    3: "nmi gsi {4:4} flags {2:2x}",
    4: "lapic-nmi uid {2:1} flags {3:2x} lint {5:1}",
    5: "lapic-address {4:8x}",
    9: "x2apic uid {12:4} id {4:4} flags {8:4x}",
    10: "x2apic-nmi uid {4:4} flags {2:2x} lint {8:1}",
}
SRAT_LINES = {
    0: "cpu id {3:1} domain {domain} flags {4:4x}",
    1: "memory domain {2:4} base {8:8x} length {16:8x} flags {28:4x}",
    2: "cpu id {8:4} domain {domain} flags {12:4x}",
}
PPTT_LINES = {
    0: "node flags {4:4x} parent {8:4x} id {12:4} resources",
    1: "cache flags {4:4x} next {8:4x} size {12:4} sets {16:4} ways {20:1} attributes {21:1x} line {22:2}",
}


def shown(image, rsdp):
    """The text of `show` where the RSDP lies at this address; None where the RSDP, the root or a listed table is not valid."""
    tables = TableSet(image, rsdp)
    return None if any(early_faults(tables)) else "".join(f"{line}\n" for line in set_lines(tables))


def shown_anyway(image, rsdp):
    """The text of `show --anyway`, and whether the root is complete: the verdict on the RSDP, the root and the listed tables, and the
    lines of what is complete."""
    tables = TableSet(image, rsdp)
    fault = min(early_faults(tables), key=Fault.order, default=None)
    verdict = f"no {fault}\n" if fault else "yes\n"
    if tables.root is None:
        return verdict, False
    tables.first_slots = {signature: slot for signature, slot in tables.first_slots.items() if tables.table(signature)}
    return verdict + "".join(f"{line}\n" for line in set_lines(tables)), True


def set_lines(tables):
    for part in (root_lines, slot_lines, fadt_lines, madt_lines, srat_lines, slit_lines, pptt_lines):
        yield from part(tables)


# ---- the RSDP (5.2.5.3), the root (5.2.7, 5.2.8) and its slots


def root_lines(tables):
    yield f"rsdp {tables.rsdp:#x} revision {tables.image.present(tables.rsdp, 20).number(15, 1)}"
    yield f"root {tables.root_at:#x} {tables.signature.decode()} length {len(tables.root)} slots {slot_count(tables)}"


def slot_count(tables):
    return (len(tables.root) - HEADER) // tables.width


def slot_lines(tables):
    for slot in range(slot_count(tables)):
        address = tables.slots.get(slot)
        header = complete_table(tables.image, address) if address else None
        if not header:
            yield f"slot {slot} {address:#x} bad" if address else f"slot {slot} empty"
            continue
        printed = "".join(chr(byte) if 0x20 <= byte <= 0x7E else "." for byte in header.data[:4])
        yield f"slot {slot} {address:#x} {printed} length {header.number(4, 4)} revision {header.number(8, 1)}"


# ---- tables, of each kind the first one


def address_of(tables, signature):
    """The address of the first table with the signature, or None."""
    slot = tables.first_slots.get(signature)
    return None if slot is None else tables.slots[slot]


def fadt_lines(tables):
    address, fadt = address_of(tables, b"FACP"), fadt_of(tables)
    if address is None:
        return
    if not fadt:
        yield f"fadt {address:#x} short"
        return
    reduced = "yes" if fadt.reduced else "no"
    yield (
        f"fadt {address:#x} length {len(fadt.bytes)} profile {fadt.field(45, 1)} sci {fadt.field(46, 2)} flags {fadt.flags:#x}"
        f" reduced {reduced}"
    )
    yield f"dsdt {fadt.field(140, 8) or fadt.field(40, 4):#x}"
    for name, narrow, size, wide in BLOCKS:
        if fadt.field(wide + 4, 8):
            space, width, offset, access = fadt.bytes.data[wide : wide + 4]
            yield f"block {name} gas {space} {width} {offset} {access} {fadt.field(wide + 4, 8):#x}"
        elif fadt.field(narrow, 4):
            yield f"block {name} port {fadt.field(size, 1)} {fadt.field(narrow, 4):#x}"
    if fadt.facs:
        yield facs_line(tables.image, fadt.facs)


def facs_line(image, address):
    head = image.present(address, 8)
    if not address % 64 and head and head.data[:4] == b"FACS" and head.number(4, 4) >= 64:
        facs = image.present(address, head.number(4, 4))
        if facs:
            return f"facs {address:#x} length {len(facs)} version {facs.number(32, 1)}"
    return f"facs {address:#x} bad"


def madt_lines(tables):
    address, table = address_of(tables, b"APIC"), tables.table(b"APIC")
    head = f" lapic {table.number(36, 4):#x} flags {table.number(40, 4):#x}" if tables.madt else ""
    return entry_lines(f"madt {address:#x}{head}", tables.madt, MADT_LINES) if table else ()


def srat_lines(tables):
    address = address_of(tables, b"SRAT")
    return () if address is None else entry_lines(f"srat {address:#x}", tables.srat, SRAT_LINES)


def pptt_lines(tables):
    address = address_of(tables, b"PPTT")
    return () if address is None else entry_lines(f"pptt {address:#x}", tables.pptt, PPTT_LINES)


def slit_lines(tables):
    address, slit = address_of(tables, b"SLIT"), tables.table(b"SLIT")
    if address is None:
        return
    count, cells = slit_count(slit), slit.data[44:]
    if len(slit) < 44:
        yield f"slit {address:#x} short"
    elif count is None or min(cells, default=10) < 10 or any(cells[place * (count + 1)] != 10 for place in range(count)):
        yield f"slit {address:#x} bad"
    else:
        yield f"slit {address:#x} count {count}"
        yield from (f"row {row} " + " ".join(map(str, cells[row * count : row * count + count])) for row in range(count))


# ---- entries


def entry_lines(head, entries, lines):
    """The line of a table, and one of each of its entries, which is None where the table is too short to have some."""
    if not entries:
        yield f"{head} short"
        return
    yield head
    for entry in entries.entries:
        line = line_of(entry, lines[entry.kind]) if entries.is_typed(entry) else f"entry type {entry.kind} length {len(entry)}"
        yield f"{entry.offset:#x} {line}"
    if entries.cut is not None:
        yield f"{entries.cut:#x} cut"


def line_of(entry, words):
    """The line of an entry: these words, and what only some entries of its kind have."""
    numbers = re.sub(r"\{(\d+):(\d)(x?)\}", lambda it: format(entry.number(int(it[1]), int(it[2])), "#x" if it[3] else "d"), words)
    if "{domain}" in numbers:
        return numbers.replace("{domain}", str(domain_of(entry)))
    if numbers.startswith("node"):
        return numbers + "".join(f" {entry.number(at, 4):#x}" for at in range(20, len(entry), 4))
    return numbers + (f" id {entry.number(24, 4)}" if len(entry) == 28 else "")
