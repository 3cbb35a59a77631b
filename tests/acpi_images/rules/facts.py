"""What the rules of advice ask of a set, read once: its tables, which entries describe processors and which of these are usable,
which entries put something into a domain, and the parts of a GIC. By docs/TABLES.md and the sections of ACPI 6.5 that are named below."""

from __future__ import annotations

from dataclasses import dataclass
from functools import cached_property

from ..table_set import TableSet, domain_of, fadt_of, is_enabled

SYSTEM_IO = 1

# Types of entries of the MADT (5.2.12). Of a local SAPIC no rule reads more than that there is one. An RINTC came after ACPI 6.5.
LAPIC, IO_APIC, OVERRIDE, NMI_SOURCE, LAPIC_NMI, ADDRESS, IO_SAPIC, SAPIC, X2APIC, X2APIC_NMI = 0, 1, 2, 3, 4, 5, 6, 7, 9, 10
GICC, GICD, MSI_FRAME, GICR, ITS, WAKEUP, CORE_PIC, RINTC, IMSIC = 11, 12, 13, 14, 15, 16, 17, 24, 25
# Types of entries of the SRAT (5.2.16).
MEMORY, GICC_AFFINITY, ITS_AFFINITY, INITIATOR, PORT, RINTC_AFFINITY = 1, 3, 4, 5, 6, 7

# The lengths of processors of the MADT and of its entries that only rules read, by their types, and of the entries of the SRAT. Of a
# multiprocessor wakeup structure it depends on the version; the interrupt controllers of LoongArch are 18 to 23 (5.2.12.21 to 5.2.12.26),
# those of RISC-V, which came after ACPI 6.5, 25 to 27.
MADT_LENGTHS = {
    LAPIC: [8], X2APIC: [16], GICC: range(40, 256), GICD: [24], MSI_FRAME: [24], GICR: [16], ITS: [20], WAKEUP: [16, 24],
    CORE_PIC: [15], 18: [23], 19: [21], 20: [13], 21: [19], 22: [17], 23: [14], RINTC: range(20, 256), IMSIC: [16], 26: [36], 27: [36],
}
SRAT_LENGTHS = {0: [16], MEMORY: [40], 2: [24], GICC_AFFINITY: [18], ITS_AFFINITY: [12], INITIATOR: [32], PORT: [32], RINTC_AFFINITY: [20]}
# Of each type of processor the places, by offset and size, of its UID, its APIC ID, if it has one, and its flags, and the flags of
# which one makes it usable (5.2.12.2, 5.2.12.12, 5.2.12.14, 5.2.12.20).
PROCESSORS = {
    LAPIC: ((2, 1), (3, 1), (4, 4), 0b11), X2APIC: ((12, 4), (4, 4), (8, 4), 0b11), GICC: ((8, 4), None, (12, 4), 0b1001),
    CORE_PIC: ((3, 4), (7, 4), (11, 4), 0b1), RINTC: ((16, 4), None, (4, 4), 0b11),
}
# Of each type of entry of the SRAT (5.2.16) where its flags are, of which bit 0 is Enabled: a GIC ITS affinity, type 4, has none.
# Of an affinity of a processor the place of the number that it names: an APIC ID, or in two types a UID.
FLAGS_AT = {0: 4, MEMORY: 28, 2: 12, GICC_AFFINITY: 10, INITIATOR: 24, PORT: 24, RINTC_AFFINITY: 12}
NAMED = {0: (3, 1), 2: (8, 4), GICC_AFFINITY: (6, 4), RINTC_AFFINITY: (8, 4)}
OF_UID = (GICC_AFFINITY, RINTC_AFFINITY)


@dataclass(frozen=True)
class Processor:
    """A processor of the MADT. One of a GIC, and a hart of RISC-V, has no APIC ID."""

    offset: int
    kind: int
    uid: int
    apic_id: int | None
    is_usable: bool


@dataclass(frozen=True)
class Affinity:
    """An enabled affinity of a processor: its number is an APIC ID, or a UID."""

    offset: int
    number: int
    domain: int
    is_of_uid: bool


def has_length(entry, lengths):
    """Whether an entry is of one of these types and has a length of its type."""
    return len(entry) in lengths.get(entry.kind, ())


def processor_of(entry):
    """The processor that an entry of the MADT describes, or None."""
    if entry.kind not in PROCESSORS or not has_length(entry, MADT_LENGTHS):
        return None
    uid, apic_id, flags, usable = PROCESSORS[entry.kind]
    n = entry.number
    return Processor(entry.offset, entry.kind, n(*uid), n(*apic_id) if apic_id else None, n(*flags) & usable != 0)


def is_unread_processor(entry):
    """Whether an entry of the MADT is a processor that no rule reads."""
    return entry.kind in (SAPIC, GICC, CORE_PIC, RINTC) and not has_length(entry, MADT_LENGTHS)


def has_domain(entry):
    """Whether an entry of the SRAT puts something into a domain: it has a length of its type, and is enabled if it has flags."""
    at = FLAGS_AT.get(entry.kind)
    return has_length(entry, SRAT_LENGTHS) and (at is None or is_enabled(entry.number(at, 4)))


def affinity_of(entry):
    """The affinity that an entry of the SRAT with a domain describes, or None if it is of no processor."""
    if entry.kind not in NAMED:
        return None
    return Affinity(entry.offset, entry.number(*NAMED[entry.kind]), domain_of(entry), entry.kind in OF_UID)


class Facts:
    """What the rules ask of a set, read once."""

    def __init__(self, tables: TableSet, policy):
        self.tables, self.image, self.policy = tables, tables.image, policy
        self.fadt = fadt_of(tables)
        self.madt, self.srat, self.pptt = tables.madt, tables.srat, tables.pptt
        madt_entries = self.madt.entries if self.madt else []
        srat_entries = self.srat.entries if self.srat else []
        self.madt_kinds = {entry.kind for entry in madt_entries}
        read = [(entry, processor_of(entry)) for entry in madt_entries]
        self.processors = [it for _, it in read if it]
        self.usable = [it for it in self.processors if it.is_usable]
        self.usable_entries = [entry for entry, it in read if it and it.is_usable]
        self.with_domain = [entry for entry in srat_entries if has_domain(entry)]
        self.affinities = [it for it in map(affinity_of, self.with_domain) if it]
        self.nodes = self.pptt.typed(0) if self.pptt else []
        self.is_mixed = any(map(is_unread_processor, madt_entries))
        # whether the rules read all processors that the MADT may have
        self.knows_processors = self.madt is not None and self.madt.is_well_formed() and not self.is_mixed

    def of_madt(self, kind):
        """The entries of the MADT of a type that only rules read, with a length of their type."""
        return [entry for entry in self.madt.entries if entry.kind == kind and has_length(entry, MADT_LENGTHS)] if self.madt else []

    def of_srat(self, kind):
        """The same of the SRAT."""
        return [entry for entry in self.srat.entries if entry.kind == kind and has_length(entry, SRAT_LENGTHS)] if self.srat else []

    def usable_of(self, *kinds):
        """The entries of usable processors of these types."""
        return [entry for entry in self.usable_entries if entry.kind in kinds]

    @cached_property
    def gicds(self):
        return self.of_madt(GICD)

    @cached_property
    def gicrs(self):
        return self.of_madt(GICR)

    @property
    def gic_version(self):
        """The version of the distributor, which is the first one, or None."""
        return self.gicds[0].number(20, 1) if self.gicds else None

    @cached_property
    def facs(self):
        """The FACS that the FADT names, or None if nothing that is right is there (5.2.10)."""
        at = self.fadt.facs if self.fadt else 0
        head = self.image.present(at, 8) if at and at % 64 == 0 else None
        if not head or head.data[:4] != b"FACS" or head.number(4, 4) < 64:
            return None
        return self.image.present(at, head.number(4, 4))

    @cached_property
    def dsdt_at(self):
        """The address of the DSDT, 0 if there is none: X_DSDT is used where it is not 0 (5.2.9)."""
        return self.fadt.field(140, 8) or self.fadt.field(40, 4) if self.fadt else 0

    @cached_property
    def mcfg(self):
        """The MCFG, or None if there is none, or if it is not complete."""
        return self.tables.table(b"MCFG")

    @cached_property
    def hpet(self):
        """The same of the HPET."""
        return self.tables.table(b"HPET")

    @cached_property
    def hmat(self):
        """The same of the HMAT."""
        return self.tables.table(b"HMAT")

    @cached_property
    def gtdt(self):
        """The same of the GTDT."""
        return self.tables.table(b"GTDT")

    @cached_property
    def spcr(self):
        """The same of the SPCR."""
        return self.tables.table(b"SPCR")

    @cached_property
    def dmar(self):
        """The same of the DMAR."""
        return self.tables.table(b"DMAR")

    @cached_property
    def ivrs(self):
        """The same of the IVRS."""
        return self.tables.table(b"IVRS")

    @cached_property
    def uids(self):
        return {it.uid for it in self.processors}

    @cached_property
    def apic_ids(self):
        return {it.apic_id for it in self.processors if it.apic_id is not None}

    @cached_property
    def leaves(self):
        """The leaves of the PPTT (5.2.30.1). Before Revision 2 they have no flag, and are what is no parent, where all are read."""
        named = [node for node in self.nodes if node.number(4, 4) >> 1 & 1]
        if self.nodes and self.tables.table(b"PPTT").number(8, 1) >= 2:
            return [node for node in named if node.number(4, 4) >> 3 & 1]
        if not self.pptt or not self.pptt.is_well_formed():
            return []
        parents = {node.number(8, 4) for node in self.nodes}
        return [node for node in named if node.offset not in parents]


def version_of(fadt):
    """The revision and the minor version, of which the high bits are for errata (5.2.9)."""
    return fadt.bytes.number(8, 1), fadt.field(131, 1) & 0b1111
