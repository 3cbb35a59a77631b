"""The rules of advice on the SPCR, which says where the serial port of the console is (Microsoft's Serial Port Console Redirection Table
1.10)."""

from __future__ import annotations

from ..faults import Numbers, served
from .facts import GICD, SYSTEM_IO
from .gic import SPIS
from .rule import has_complete_madt, has_in_madt, of_table, rule, too_short

# How many bytes an SPCR with all its fields has, and one of a Revision with a name.
LENGTH, LENGTH_WITH_NAME = 80, 88
NAMED_SINCE = 4
# The type of an interface that is no port, that of firmware of RISC-V (SBI), the space of memory, and the code of the widest access.
OF_FIRMWARE, SYSTEM_MEMORY, WIDEST = 0x15, 0, 3
# The codes of rates, 0 for that which firmware has set.
RATES = (0, 3, 4, 6, 7)
# Bits of the interrupt type, and the interrupts of the first that a port can have.
PIC, IO_APIC, GIC = 1 << 0, 1 << 1, 1 << 3
IRQS = (*range(2, 8), *range(9, 13), 14, 15)
NO_ID = 0xFFFF


def has_spcr(facts):
    return facts.spcr is not None


def has_name(table):
    """Whether the SPCR is of a Revision with a precise rate and a name."""
    return table.number(8, 1) >= NAMED_SINCE


def size_of(table):
    return LENGTH_WITH_NAME if has_name(table) else LENGTH


def has_all_fields(facts):
    return has_spcr(facts) and len(facts.spcr) >= size_of(facts.spcr)


@rule(271, "SpcrLength", has_spcr)
def short_spcr(facts):
    """The SPCR ends before the fields of its Revision do."""
    yield from too_short(facts.spcr, size_of(facts.spcr))


@rule(272, "SpcrAddress", has_all_fields)
def spcr_address(facts):
    """The port is neither in memory nor in the space of ports, or is in memory and has an access size that there is not."""
    table = facts.spcr
    if table.number(44, 8) == 0 or table.number(36, 1) == OF_FIRMWARE:
        return
    space = table.number(40, 1)
    if space not in (SYSTEM_MEMORY, SYSTEM_IO):
        yield of_table(table, 40, 1)
    if space == SYSTEM_MEMORY and table.number(43, 1) > WIDEST:
        yield of_table(table, 43, 1)


@rule(273, "SpcrBaud", has_all_fields)
def spcr_rate(facts):
    """The rate has a code that there is not, and no number says it."""
    table = facts.spcr
    is_precise = has_name(table) and table.number(80, 4) != 0
    if table.number(58, 1) not in RATES and not is_precise:
        yield of_table(table, 58, 1)


@rule(274, "SpcrGsi", has_all_fields)
def spcr_interrupt(facts):
    """The port has an interrupt that a PC has for something else, that no I/O APIC serves, or that is none of devices of a GIC."""
    table = facts.spcr
    kind, gsi = table.number(52, 1), table.number(54, 4)
    if kind & PIC and table.number(53, 1) not in IRQS:
        yield of_table(table, 53, 1)
    spans = served(facts.madt, facts.policy) if has_complete_madt(facts) else []
    if kind & IO_APIC and spans and gsi not in Numbers(spans):
        yield of_table(table, 54, 4)
    if table.number(44, 8) and has_in_madt(facts, GICD):
        if kind not in (0, GIC):
            yield of_table(table, 52, 1)
        if kind == GIC and gsi not in SPIS:
            yield of_table(table, 54, 4)


@rule(275, "SpcrPci", has_all_fields)
def spcr_device(facts):
    """The port is a PCI device of which one ID alone is given, or with a device or a function that there is not."""
    table = facts.spcr
    ids = [table.number(at, 2) for at in (64, 66)]
    if ids.count(NO_ID) == 1:
        yield of_table(table, 64, 2)
    for at, most in ((69, 31), (70, 7)) if NO_ID not in ids else ():
        if table.number(at, 1) > most:
            yield of_table(table, at, 1)


@rule(276, "SpcrName", has_all_fields)
def spcr_name(facts):
    """The name is too short for one, is not after the fields and within the table, or does not end with a 0."""
    table = facts.spcr
    if not has_name(table):
        return
    size, start = table.number(84, 2), table.number(86, 2)
    end = start + size
    if size < 2:
        yield of_table(table, 84, 2)
    if start < LENGTH_WITH_NAME or end > len(table):
        yield of_table(table, 86, 2)
    elif size >= 2 and table.number(end - 1, 1) != 0:
        yield of_table(table, end - 1, 1)
