"""The rules of advice on the entries of a GIC in the MADT (5.2.12.14 to 5.2.12.18)."""

from __future__ import annotations

from .facts import GICC, GICD, GICR, ITS, MSI_FRAME
from .rule import field, has_complete_madt, has_fadt, has_madt, is_of_another_length, of_entry, overlap, rule, same_field

# Versions of a GIC that has redistributors, and of one that has none (5.2.12.15).
WITH_REDISTRIBUTORS, WITHOUT_REDISTRIBUTORS = (3, 4), (1, 2)
# How many bytes the registers of one redistributor take, of an ITS, of a frame, and of a distributor with and without redistributors.
REDISTRIBUTOR_SIZE, ITS_SIZE, FRAME_SIZE, WIDE_GICD_SIZE, GICD_SIZE = 0x20000, 0x20000, 0x1000, 0x10000, 0x1000
AFFINITY_BITS = 0xFF00FFFFFF
# The flags of a GICC that say that it is enabled, that it may be made so, and the mode of its maintenance interrupt (5.2.12.14).
ENABLED, VGIC_EDGE, ONLINE_CAPABLE = 1 << 0, 1 << 2, 1 << 3
# How long a GICC with an MPIDR is, at least.
WITH_MPIDR_LENGTH = 76
# The interrupt numbers of one processor of its own (PPI), those of the first GICs and those that came with GICv3; and of devices (SPI).
PPIS = (*range(16, 32), *range(1056, 1120))
SPIS = frozenset((*range(32, 1020), *range(4096, 5120)))


@rule(115, "SecondGicd", has_madt)
def second_distributors(facts):
    """There is a second distributor (5.2.12.15)."""
    offsets = [entry.offset for entry in facts.madt.entries if entry.kind == GICD]
    for offset in offsets[1:]:
        yield offset, offsets[0]


@rule(159, "NoDistributor", has_complete_madt)
def no_distributor(facts):
    """There is a GIC CPU interface, and no distributor (5.2.12.15)."""
    if GICC in facts.madt_kinds and GICD not in facts.madt_kinds:
        yield ()


def own_redistributors(facts):
    """The usable GICCs that name a redistributor of their own, with its address (5.2.12.14)."""
    return [(entry, field(entry, 60, 8)) for entry in facts.usable_of(GICC) if field(entry, 60, 8)]


@rule(160, "NoRedistributor", has_complete_madt)
def no_redistributor(facts):
    """The GIC has redistributors by its version, and neither a structure of them nor a usable GICC names one (5.2.12.17)."""
    if facts.gic_version in WITH_REDISTRIBUTORS and GICR not in facts.madt_kinds and not own_redistributors(facts):
        yield facts.gicds[0].offset, facts.gic_version


@rule(161, "GicrTooSmall", has_complete_madt)
def small_redistributors(facts):
    """The ranges of redistributors have less of them than there are usable processors (5.2.12.17)."""
    if facts.gic_version not in WITH_REDISTRIBUTORS or not facts.gicrs or is_of_another_length(facts, GICR):
        return
    count, due = sum(entry.number(12, 4) // REDISTRIBUTOR_SIZE for entry in facts.gicrs), len(facts.usable_of(GICC))
    if count < due:
        yield facts.gicrs[0].offset, count, due


@rule(162, "GiccBaseDiffers", has_madt)
def differing_bases(facts):
    """In a GIC without redistributors a CPU interface has another address than the first one (5.2.12.14)."""
    if facts.gic_version not in WITHOUT_REDISTRIBUTORS:
        return
    giccs = facts.of_madt(GICC)
    for entry in giccs:
        if entry.number(32, 8) != giccs[0].number(32, 8):
            yield entry.offset, giccs[0].offset, entry.number(32, 8)


@rule(293, "GiccShort", has_madt)
def short_giccs(facts):
    """A CPU interface ends before its MPIDR does, which came with ACPI 5.1 (5.2.12.14)."""
    for entry in facts.of_madt(GICC):
        if len(entry) < WITH_MPIDR_LENGTH:
            yield entry.offset, WITH_MPIDR_LENGTH, len(entry)


def giccs_with(facts, flag, without=0):
    """The CPU interfaces with one flag, and not another."""
    return [entry for entry in facts.of_madt(GICC) if entry.number(12, 4) & (flag | without) == flag]


def is_named_by_giccs(facts):
    """Whether the GIC has redistributors by its version, and no structure of them, so that each CPU interface has to name its own."""
    return facts.gic_version in WITH_REDISTRIBUTORS and GICR not in facts.madt_kinds


@rule(294, "GiccNoGicr", has_complete_madt)
def giccs_without_redistributor(facts):
    """Of the CPU interfaces that have to name their redistributors an enabled one does not, and a usable one does (5.2.12.14)."""
    for entry in giccs_with(facts, ENABLED) if is_named_by_giccs(facts) and own_redistributors(facts) else ():
        if field(entry, 60, 8) == 0:
            yield of_entry(entry, 60, 8)


@rule(295, "CapableNoGicr", has_complete_madt)
def capable_without_redistributors(facts):
    """A CPU interface that is not enabled is Online Capable, and there is no structure of redistributors (5.2.12.14)."""
    for entry in giccs_with(facts, ONLINE_CAPABLE, ENABLED) if is_named_by_giccs(facts) else ():
        yield of_entry(entry, 12, 4)


@rule(296, "GiccDiffers", has_madt)
def differing_giccs(facts):
    """Of usable CPU interfaces one has another GICV, GICH or maintenance interrupt than the first one, or another mode (5.2.12.14)."""
    giccs = [entry for entry in facts.usable_of(GICC) if len(entry) >= 60]
    for entry in giccs:
        for at, size, bits in ((12, 4, VGIC_EDGE), (40, 8, -1), (48, 8, -1), (56, 4, -1)):
            if (entry.number(at, size) ^ giccs[0].number(at, size)) & bits:
                yield of_entry(entry, at, size)


@rule(297, "SameGicrBase", has_madt)
def same_redistributors(facts):
    """Two enabled CPU interfaces name one redistributor (5.2.12.14)."""
    if facts.gic_version in WITH_REDISTRIBUTORS:
        yield from same_field([entry for entry in giccs_with(facts, ENABLED) if field(entry, 60, 8)], 60, 8)


@rule(298, "ParkingVersion", has_madt)
def parking_versions(facts):
    """A CPU interface has a version of the parking protocol that there is not (5.2.12.14)."""
    for entry in facts.of_madt(GICC):
        if entry.number(16, 4) > 1:
            yield of_entry(entry, 16, 4)


@rule(299, "GiccNoPpi", has_madt)
def other_interrupts(facts):
    """The interrupt of a CPU interface for statistics (SPE) or for traces (TRBE) is none of one processor (5.2.12.14)."""
    for entry in facts.of_madt(GICC):
        for at in (78, 80):
            number = field(entry, at, 2)
            if number and number not in PPIS:
                yield of_entry(entry, at, 2)


def with_mpidr(facts):
    """The usable GICCs that have an MPIDR."""
    return [entry for entry in facts.usable_of(GICC) if field(entry, 68, 8) is not None]


@rule(163, "SameMpidr", has_madt)
def same_mpidrs(facts):
    """Two usable GICCs have one MPIDR (5.2.12.14)."""
    yield from same_field(with_mpidr(facts), 68, 8)


@rule(164, "MpidrReserved", has_madt)
def reserved_in_mpidr(facts):
    """The MPIDR of a usable GICC has a bit that is none of an affinity (5.2.12.14)."""
    for entry in with_mpidr(facts):
        if entry.number(68, 8) & ~AFFINITY_BITS:
            yield entry.offset, 0, entry.number(68, 8)


@rule(165, "GicrEmpty", has_madt)
def empty_redistributors(facts):
    """A range of redistributors has no bytes (5.2.12.17)."""
    for entry in facts.gicrs:
        if entry.number(12, 4) == 0:
            yield entry.offset, 0, entry.number(4, 8)


@rule(166, "SameIts", has_madt)
def same_its(facts):
    """Two ITS have one ID (5.2.12.18)."""
    yield from same_field(facts.of_madt(ITS), 4, 4)


@rule(167, "SameMsiFrame", has_madt)
def same_frames(facts):
    """Two MSI frames have one ID (5.2.12.16)."""
    yield from same_field(facts.of_madt(MSI_FRAME), 4, 4)


def gic_ranges(facts):
    """The (start, size, offset) of the registers of redistributors, ITS, MSI frames and distributors."""
    for entry in facts.gicrs:
        yield entry.number(4, 8), entry.number(12, 4), entry.offset
    for entry in facts.of_madt(ITS):
        yield entry.number(8, 8), ITS_SIZE, entry.offset
    for entry in facts.of_madt(MSI_FRAME):
        yield entry.number(8, 8), FRAME_SIZE, entry.offset
    for entry in facts.gicds:
        size = WIDE_GICD_SIZE if entry.number(20, 1) in WITH_REDISTRIBUTORS else GICD_SIZE
        yield entry.number(8, 8), size, entry.offset


@rule(168, "GicOverlap", has_madt)
def overlapping_gic(facts):
    """The registers of two parts of the GIC share an address (5.2.12.15)."""
    yield from overlap(gic_ranges(facts))


@rule(169, "RedistributorTwice", has_madt)
def redistributors_twice(facts):
    """There are ranges of redistributors, and a usable GICC names one of its own too (5.2.12.17)."""
    for entry, base in own_redistributors(facts) if facts.gicrs else ():
        yield entry.offset, facts.gicrs[0].offset, base


@rule(170, "NoBootMethod", lambda facts: has_fadt(facts) and has_complete_madt(facts))
def no_boot_method(facts):
    """Of several usable GICCs none has a parking protocol, and the FADT says that there is no PSCI (5.2.12.14)."""
    others = facts.usable_of(GICC)
    has_field = len(facts.fadt.bytes) >= 131
    if len(others) < 2 or not has_field or any(entry.number(16, 4) for entry in others):
        return
    flags = facts.fadt.field(129, 2)
    if flags & 1 == 0:
        yield 129, 0, flags
