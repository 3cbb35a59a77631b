"""The rules of advice on the MADT: processors, local APICs and I/O APICs, and reserved bytes of all its entries."""

from __future__ import annotations

from collections import defaultdict

from .facts import (
    ADDRESS, CORE_PIC, GICC, GICD, GICR, IMSIC, IO_APIC, IO_SAPIC, ITS, LAPIC, LAPIC_NMI, MADT_LENGTHS, MSI_FRAME, NMI_SOURCE, OVERRIDE,
    RINTC, WAKEUP, X2APIC, X2APIC_NMI, processor_of, version_of,
)
from .rule import (
    field, has_complete_madt, has_fadt, has_madt, is_read, of_entry, of_table, rule, same, same_field, unread, wrong_entries, wrong_numbers,
    zeros,
)

# Of each NMI of local APICs the UID that means all processors (5.2.12.7, 5.2.12.13).
ALL_PROCESSORS = {LAPIC_NMI: 0xFF, X2APIC_NMI: 0xFFFFFFFF}
# Of each type of processor the place of its flags, and the flags Enabled and Online Capable (5.2.12.2, 5.2.12.12, 5.2.12.14); the
# harts of RISC-V came after ACPI 6.5.
CAPABLE = {LAPIC: (4, 1 << 0, 1 << 1), X2APIC: (8, 1 << 0, 1 << 1), GICC: (12, 1 << 0, 1 << 3), RINTC: (4, 1 << 0, 1 << 1)}
# Of some of these the version of the FADT since which there is the flag Online Capable.
CAPABLE_SINCE = {LAPIC: (6, 3), X2APIC: (6, 3), GICC: (6, 5)}
# Of each type of local APIC the place of its ID, and the ID to which all of them listen.
APIC_ID = {LAPIC: (3, 1), X2APIC: (4, 4)}
BROADCAST = {LAPIC: 0xFF, X2APIC: 0xFFFFFFFF}
NO_HART = 2**64 - 1


# ---- processors (5.2.12)


@rule(109, "SameUid", has_madt)
def same_uids(facts):
    """Two usable processors have one UID (5.2.12)."""
    yield from same((it.offset, it.uid) for it in facts.usable)


@rule(110, "SameApicId", has_madt)
def same_apic_ids(facts):
    """Two usable processors have one APIC ID (5.2.12)."""
    yield from same((it.offset, it.apic_id) for it in facts.usable if it.apic_id is not None)


@rule(116, "NoProcessor", has_madt)
def no_processor(facts):
    """No processor is usable (5.2.12)."""
    if facts.knows_processors and not facts.usable:
        yield ()


@rule(150, "X2ApicBelow255", has_madt)
def low_x2apics(facts):
    """A usable x2APIC has an ID that a local APIC can have, beside a usable local APIC (5.2.12.12)."""
    if all(entry.number(3, 1) == 0xFF for entry in facts.usable_of(LAPIC)):
        return
    for entry in facts.usable_of(X2APIC):
        if entry.number(4, 4) < 0xFF:
            yield entry.offset, 0, entry.number(4, 4)


@rule(151, "BroadcastId", has_madt)
def broadcast_ids(facts):
    """A usable local APIC or x2APIC has the ID that means all of them (5.2.12.2, 5.2.12.12)."""
    for entry in facts.usable_of(LAPIC, X2APIC):
        apic_id = entry.number(*APIC_ID[entry.kind])
        if apic_id == BROADCAST[entry.kind]:
            yield entry.offset, 0, apic_id


def capable(facts):
    """The processors with these two flags: the entry, all its flags, whether it is enabled, and whether it is online capable."""
    for entry in facts.madt.entries:
        if entry.kind in CAPABLE and processor_of(entry):
            at, enabled, online_capable = CAPABLE[entry.kind]
            flags = entry.number(at, 4)
            yield entry, flags, flags & enabled != 0, flags & online_capable != 0


@rule(152, "CapableTooEarly", lambda facts: has_madt(facts) and has_fadt(facts))
def too_early_capable(facts):
    """A processor is not enabled and is Online Capable, by a FADT older than that flag (5.2.12.2, 5.2.12.12, 5.2.12.14)."""
    version = version_of(facts.fadt)
    for entry, _, is_enabled, is_capable in capable(facts):
        if is_capable and not is_enabled and version < CAPABLE_SINCE.get(entry.kind, version):
            yield entry.offset, *version


@rule(153, "EnabledAndCapable", has_madt)
def enabled_and_capable(facts):
    """A processor is Enabled and Online Capable, of which at most one may be said (5.2.12.2, 5.2.12.12, 5.2.12.14)."""
    for entry, flags, is_enabled, is_capable in capable(facts):
        if is_enabled and is_capable:
            yield entry.offset, 0, flags


@rule(171, "SameHart", has_madt)
def same_harts(facts):
    """Two usable harts have one hart ID (after ACPI 6.5)."""
    yield from same_field(facts.usable_of(RINTC), 8, 8)


@rule(302, "HartInvalid", has_madt)
def invalid_harts(facts):
    """A usable hart has the hart ID that is none (after ACPI 6.5)."""
    for entry in facts.usable_of(RINTC):
        if entry.number(8, 8) == NO_HART:
            yield of_entry(entry, 8, 8)


# ---- I/O APICs, overrides and NMIs (5.2.12.3 to 5.2.12.7)


@rule(111, "IoApicAtZero", has_madt)
def io_apics_at_zero(facts):
    """An I/O APIC is at 0 (5.2.12.3)."""
    for entry in facts.madt.typed(IO_APIC):
        if entry.number(4, 4) == 0:
            yield (entry.offset,)


@rule(112, "SameIoApicId", has_madt)
def same_io_apic_ids(facts):
    """Two I/O APICs have one ID (5.2.12.3)."""
    yield from same_field(facts.madt.typed(IO_APIC), 2, 1)


@rule(113, "SameIoApicAddress", has_madt)
def same_io_apic_addresses(facts):
    """Two I/O APICs have one address (5.2.12.3)."""
    yield from same_field([entry for entry in facts.madt.typed(IO_APIC) if entry.number(4, 4)], 4, 4)


@rule(114, "NmiNowhere", has_madt)
def nowhere_nmis(facts):
    """An NMI of local APICs has a UID that is no processor's (5.2.12.7)."""
    for entry in facts.madt.typed(LAPIC_NMI, X2APIC_NMI) if facts.knows_processors else ():
        uid = entry.number(2, 1) if entry.kind == LAPIC_NMI else entry.number(4, 4)
        if uid != ALL_PROCESSORS[entry.kind] and uid not in facts.uids:
            yield entry.offset, 0, uid


@rule(154, "OverridePastIsa", lambda facts: has_madt(facts) and has_fadt(facts))
def overrides_past_isa(facts):
    """An override of an interrupt that the ISA bus does not have, and that is not the SCI's (5.2.12.5)."""
    for entry in facts.madt.typed(OVERRIDE):
        source = entry.number(3, 1)
        if source > 15 and source != facts.fadt.field(46, 2):
            yield entry.offset, source, entry.number(4, 4)


@rule(155, "TimerLevel", has_madt)
def level_timers(facts):
    """An override makes the timer's interrupt, 0, level-triggered (5.2.12.5)."""
    for entry in facts.madt.typed(OVERRIDE):
        flags = entry.number(8, 2)
        if entry.number(3, 1) == 0 and flags >> 2 & 0b11 == 0b11:
            yield entry.offset, 0, flags


@rule(156, "TwoSourcesOneGsi", has_madt)
def sources_of_one_gsi(facts):
    """An override gives a number that an earlier one gives to another interrupt of the ISA bus (5.2.12.5)."""
    earlier = defaultdict(dict)
    for entry in facts.madt.typed(OVERRIDE):
        source, gsi = entry.number(3, 1), entry.number(4, 4)
        others = [offset for its_source, offset in earlier[gsi].items() if its_source != source]
        if others:
            yield entry.offset, min(others), gsi
        earlier[gsi].setdefault(source, entry.offset)


@rule(157, "LintNotOne", has_madt)
def other_lints(facts):
    """The Local APIC LINT# of an NMI is not 1 (5.2.12.7, 5.2.12.13)."""
    for entry in facts.madt.typed(LAPIC_NMI, X2APIC_NMI):
        lint = entry.number(5 if entry.kind == LAPIC_NMI else 8, 1)
        if lint != 1:
            yield entry.offset, 0, lint


@rule(158, "NoIoApic", has_complete_madt)
def no_io_apic(facts):
    """There are usable local APICs, and overrides or NMI sources, and no I/O APIC or I/O SAPIC (5.2.12.3)."""
    is_told_of = facts.madt_kinds & {OVERRIDE, NMI_SOURCE} and not facts.madt_kinds & {IO_APIC, IO_SAPIC}
    if is_told_of and facts.usable_of(LAPIC, X2APIC):
        yield ()


@rule(304, "LapicAtZero", has_madt)
def lapics_at_zero(facts):
    """An address override puts the local APICs at 0 (5.2.12.8)."""
    for entry in facts.madt.typed(ADDRESS):
        if entry.number(4, 8) == 0:
            yield of_entry(entry, 4, 8)


# ---- the wakeup structure (5.2.12.19)


def wakeup_length(version):
    """How long a wakeup structure of this version is, or None if there is no such version; of one without a version the first length."""
    return {None: 16, 0: 16, 1: 24}.get(version)


@rule(303, "WakeupMailbox", has_madt)
def wakeup_mailboxes(facts):
    """A wakeup structure has another length than its version, a version that there is not, a reserved byte that is used, or a mailbox at
    0 or at no multiple of 4096 (5.2.12.19)."""
    for entry in facts.madt.entries:
        if entry.kind == WAKEUP:
            version, mailbox = field(entry, 2, 2), field(entry, 8, 8)
            length = wakeup_length(version)
            if length is None:
                yield of_entry(entry, 2, 2)
            elif len(entry) != length:
                yield entry.offset, length, len(entry)
            if field(entry, 4, 4):
                yield of_entry(entry, 4, 4)
            if mailbox is not None and (mailbox == 0 or mailbox % 4096):
                yield of_entry(entry, 8, 8)


# ---- entries that nothing reads, versions, and reserved bytes


@rule(127, "MadtUnread", has_madt)
def unread_in_madt(facts):
    """An entry of a type, or with a length, that neither a stage nor a rule reads (5.2.12)."""
    yield from unread(facts.madt, MADT_LENGTHS)


# Of each type of entry of the MADT what it may have: flags, reserved bytes, and the version of a distributor (5.2.12).
MADT_LIMITS = {
    LAPIC: [(4, 4, 0b11)],
    IO_APIC: zeros(3),
    OVERRIDE: [(8, 2, 0b1111)],
    NMI_SOURCE: [(2, 2, 0b1111)],
    LAPIC_NMI: [(3, 2, 0b1111)],
    5: zeros(2, 3),
    X2APIC: [*zeros(2, 3), (8, 4, 0b11)],
    X2APIC_NMI: [(2, 2, 0b1111), *zeros(9, 10, 11)],
    GICD: [*zeros(16, 17, 18, 19), (20, 1, 4)],
}


@rule(172, "MadtReserved", has_madt)
def reserved_in_madt(facts):
    """A reserved byte, flag or version of the MADT or of one of its entries is used (5.2.12)."""
    flags = facts.tables.table(b"APIC").number(40, 4)
    if flags > 0b1:
        yield 40, 0, flags
    yield from wrong_entries([*facts.madt.typed(*MADT_LIMITS), *facts.gicds], MADT_LIMITS)


def read_entries(facts, kinds):
    """The entries of these types that a stage or a rule reads."""
    return [entry for entry in facts.madt.entries if entry.kind in kinds and is_read(facts.madt, entry, MADT_LENGTHS)]


@rule(300, "PicVersion", has_madt)
def pic_versions(facts):
    """An interrupt controller of LoongArch or RISC-V has another version than 1 (5.2.12.20 to 5.2.12.26, and after ACPI 6.5)."""
    for entry in read_entries(facts, range(17, 28)):
        if entry.number(2, 1) != 1:
            yield of_entry(entry, 2, 1)


# The same of the entries of which only rules read more than their type (5.2.12.14 to 5.2.12.20). Bit 4 of a GICC's flags, and bit 0 of
# those of redistributors and of an ITS, came after ACPI 6.5, as the types from 24 on did.
FURTHER_LIMITS = {
    GICC: [*zeros(2, 3), (12, 4, 0b11111), *zeros(77)],
    GICD: zeros(2, 3, 21, 22, 23),
    MSI_FRAME: [*zeros(2, 3), (16, 4, 0b1)],
    GICR: [(2, 1, 0b1), *zeros(3)],
    ITS: [(2, 1, 0b1), *zeros(3, 16, 17, 18, 19)],
    CORE_PIC: [(11, 4, 0b1)],
    RINTC: [*zeros(3), (4, 4, 0b11)],
    IMSIC: [*zeros(3), (4, 4, 0)],
}


@rule(301, "FurtherReserved", has_madt)
def reserved_in_further(facts):
    """A reserved byte or flag of a GIC's entry, or of a processor of LoongArch or RISC-V, is used (5.2.12.14 to 5.2.12.20)."""
    yield from wrong_numbers(read_entries(facts, FURTHER_LIMITS), FURTHER_LIMITS)


@rule(305, "MadtRevision", has_madt)
def early_entries(facts):
    """The MADT has an entry of a type that came after its Revision: from 9 to 15 with 3, from 24 to 27 with 6 (5.2.12)."""
    table = facts.tables.table(b"APIC")
    least = max((6 if 24 <= kind <= 27 else 3 if 9 <= kind <= 15 else 0 for kind in facts.madt_kinds), default=0)
    if table.number(8, 1) < least:
        yield of_table(table, 8, 1)
