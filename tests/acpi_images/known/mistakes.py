"""Mistakes that firmware makes, put by hand into sets of real firmware one at a time, and the lines that `lint` has to write of
each, worked out by hand from the rules in docs/TABLES.md and docs/FAULTS.md and from what tests/show/images says of the set.
Eleven of 122 break a rule that `check` looks at, and of the first 26, which other tools were given too, nine; the others are seen by
advice alone."""

from __future__ import annotations

from dataclasses import dataclass, field

from ..program import IMAGES, firmware_text
from ..table_set import TableSet, complete_table
from ..tables import *
from ..text import read
from .rows import with_numbers

# What each set deserves as it is, with the words after `lint` and the address of its RSDP.
UNCHANGED = [
    ("sb-q35-default", "", ["yes"]), ("sb-q35-numa4-dist", "", ["yes"]), ("sb-pc-nvdimm-numa", "", ["no 10 Overlap 0x90 0xb8 0x100000000"]),
    ("sb-pc-nvdimm-numa", "--hotplug apart", ["yes"]), ("ovmf-q35", "", ["yes"]), ("mv-acpi", "", ["yes"]),
    ("q10-efi-virt-smp4", "", ["yes"]), ("q11-efi-virt-caches", "", ["yes", "advice ListedTwice 0x3 0x2 0x47fc198e"]),
    ("sb-q35-hmat", "", ["yes"]), ("sb-q35-intel-iommu", "", ["yes"]), ("sb-q35-amd-iommu", "", ["yes"]),
    ("q102-virt-smmuv3", "", ["yes", "advice NoDsdt 0x28 0x0 0x0"]),
]


@dataclass
class Mistake:
    """Bytes of one table of a set, or of its RSDP, changed, its sum closed again, and what `lint` writes of the set then. `others` are
    pieces that the set did not have."""

    name: str
    image: str
    signature: bytes
    changes: dict[int, bytes]
    lines: list[str]
    closes: bool = True
    others: dict[int, bytes] = field(default_factory=dict)

    @property
    def words(self):
        return f"--rsdp {IMAGES[self.image]}"

    @property
    def is_seen_by_check(self):
        return self.lines[0] != "yes"

    def pieces(self):
        """The pieces of the changed set."""
        image = read(firmware_text(self.image))
        tables = TableSet(image, int(IMAGES[self.image], 16))
        address, found, sum_at = self.place_in(tables)
        table = bytearray(found.data)
        for offset, new in self.changes.items():
            table[offset : offset + len(new)] = new
        image.replace(address, summed(table, sum_at) if self.closes else table)
        return {**image.pieces(), **self.others}

    def place_in(self, tables):
        """Where the table is, its bytes, and the offset of its checksum; of an RSDP its first 20 bytes."""
        if self.signature == RSDP_SIGNATURE:
            return tables.rsdp, tables.image.present(tables.rsdp, 20), 8
        is_root = self.signature == tables.signature
        address = tables.root_at if is_root else tables.slots[tables.first_slots[self.signature]]
        return address, complete_table(tables.image, address), 9


MISTAKES = []
RSDP_SIGNATURE = b"RSD PTR "


def of_pc(name, signature, changes, *lines, **more):
    """A mistake in the set of a PC with 8 processors in 4 domains: local APICs from 0x2C on, the I/O APIC at 0x6C, overrides from
    0x78 on and a local APIC NMI at 0xAA; affinities from 0x30 on and memory from 0xB0 on; the distances of 4 localities."""
    MISTAKES.append(Mistake(name, "sb-q35-numa4-dist", signature, changes, list(map(with_numbers, lines)), **more))


def of_arm(name, signature, changes, *lines, **more):
    """A mistake in the set of an Arm machine, whose PPTT is listed in two slots and has caches and 8 leaves, and whose MADT has
    a GICC for each from 0x44 on. What the set deserves as it is comes before the advice of `lines`."""
    before, *advice = lines
    slots = "advice ListedTwice 0x3 0x2 0x47fc198e"
    MISTAKES.append(Mistake(name, "q11-efi-virt-caches", signature, changes, list(map(with_numbers, (before, slots, *advice))), **more))


def of_four(name, signature, changes, *lines):
    """A mistake in the set of an Arm machine with 4 processors, of which the GIC has no redistributors: its distributor is at 0x2C, a
    GICC for each from 0x44 on, and of its PPTT a leaf for each from 0x38 on."""
    MISTAKES.append(Mistake(name, "q10-efi-virt-smp4", signature, changes, list(map(with_numbers, lines))))


def of_small(name, signature, changes, *lines):
    """A mistake in the set of a small virtual machine of reduced hardware, which has sleep registers."""
    MISTAKES.append(Mistake(name, "mv-acpi", signature, changes, list(map(with_numbers, lines))))


def of_numa(name, signature, changes, *lines, **more):
    """A mistake in the set of a PC with 2 processors and 2 domains, of whose HMAT proximities are at 0x28 and 0x50, and at 0x78 the speeds
    of one initiator at 0x98 and of two targets at 0x9C and 0xA0, with cells from 0xA4 on."""
    MISTAKES.append(Mistake(name, "sb-q35-hmat", signature, changes, list(map(with_numbers, lines)), **more))


def of_intel(name, signature, changes, *lines, **more):
    """A mistake in the set of a PC with one processor and an IOMMU, of whose DMAR this is at 0x30, with scopes of 8 bytes from 0x40 on, of
    which the first is that of the I/O APIC, the only one, at 0x34 of the MADT."""
    MISTAKES.append(Mistake(name, "sb-q35-intel-iommu", signature, changes, list(map(with_numbers, lines)), **more))


def of_amd(name, signature, changes, *lines, **more):
    """The same with an IVRS, of which the IOMMU is at 0x30, with entries of 4 bytes from 0x48 to 0x58, and at 0x5C that of the I/O APIC."""
    MISTAKES.append(Mistake(name, "sb-q35-amd-iommu", signature, changes, list(map(with_numbers, lines)), **more))


# ---- what check sees
of_pc("the MADT is patched after its checksum is made", b"APIC", {40: b"\0"}, "no 3 TableSum 0x1 0x7ffe23b4", closes=False)
of_pc("the RSDT has the address of a table that was moved", b"RSDT", {60: number(0x7FFE5000, 4)}, "no 3 TableHeaderOut 0x6 0x7ffe5000")
of_pc("PM1_EVT_LEN is left 0", b"FACP", {88: b"\0"}, "no 4 PmEventLength 0x58")
of_pc(
    "FIRMWARE_CTRL leads into the FACS", b"FACP", {36: number(0x7FFE0020, 4)}, "no 5 FacsAlign 0x7ffe0020", "no 5 FacsSignature 0x7ffe0020",
    "no 5 FacsLength 0x7ffe0020",
)
of_pc("the last MADT entry is said to be 8 bytes long", b"APIC", {0xAB: b"\x08"}, "no 6 MadtEntryCut 0xaa")
of_pc("node 2 grows into node 3", b"SRAT", {0x138: number(0x48000000, 8)}, "no 10 Overlap 0x128 0x150 0x140000000")
of_pc("a locality is 20 from itself", b"SLIT", {44 + 10: b"\x14"}, "no 11 SlitDiagonal 0x36")
of_pc(
    "an affinity is copied, and its APIC ID not counted up", b"SRAT", {0x53: b"\0"}, "no 16 TwoDomains 0x50 0x30",
    "advice NoDomain 0x3c 0x0 0x2",
)
of_pc("an override leads to an interrupt that is not there", b"APIC", {0x86: number(50, 4)}, "no 17 GsiNowhere 0x82 0x0 0x32")

# ---- what advice alone sees
of_pc(
    "the RSDT lists a second SRAT", b"RSDT", {60: number(0x7FFE5000, 4)}, "yes", "advice SecondTable 0x6 0x3 0x7ffe5000",
    others={0x7FFE5000: srat(apic_domain(0, 3))},
)
of_pc(
    "the RSDT lists the DSDT", b"RSDT", {60: number(0x7FFE0040, 4)}, "yes", "advice ListedApart 0x6 0x0 0x7ffe0040",
    others={0x7FFE0040: table(b"DSDT", b"\x5b\x80")},
)
of_pc("the FADT's Revision is raised, and not its Length", b"FACP", {8: b"\6"}, "yes", "advice FadtOfRevision 0x4 0xf4 0x114")
of_pc(
    "X_FIRMWARE_CTRL leads to another FACS", b"FACP", {132: number(0x7FFE1000, 8)}, "yes", "advice FacsDiffers 0x24 0x7ffe0000 0x7ffe1000",
    others={0x7FFE1000: facs()},
)
of_pc(
    "DSDT and X_DSDT are set at different times", b"FACP", {40: number(0xA020000, 4), 140: number(0xA010000, 8)}, "yes",
    "advice DsdtDiffers 0x28 0xa020000 0xa010000",
)
of_pc("the ACPI timer has two ports", b"FACP", {212: number(0x408, 8)}, "yes", "advice BlockDiffers 0x4c 0x608 0x408")
of_pc("SCI_INT is 200", b"FACP", {46: number(200, 2)}, "yes", "advice SciNowhere 0x2e 0x0 0xc8")
of_pc("two processors have UID 0", b"APIC", {0x36: b"\0"}, "yes", "advice SameUid 0x34 0x2c")
of_pc(
    "two processors have APIC ID 6", b"APIC", {0x67: b"\6"}, "yes", "advice SameApicId 0x64 0x5c 0x6",
    "advice AffinityNowhere 0xa0 0x0 0x7",
)
of_pc("the I/O APIC's address is left 0", b"APIC", {0x70: bytes(4)}, "yes", "advice IoApicAtZero 0x6c")
of_pc("a local APIC NMI is of UID 48", b"APIC", {0xAC: b"\x30"}, "yes", "advice NmiNowhere 0xaa 0x0 0x30")
of_pc("no processor is enabled", b"APIC", {at: b"\0" for at in range(0x30, 0x70, 8)}, "yes", "advice NoProcessor")
of_pc("the last processor's affinity is not enabled", b"SRAT", {0xA4: b"\0"}, "yes", "advice NoDomain 0x64 0x0 0x7")
of_pc("domains of memory are counted from 1", b"SRAT", {0x152: b"\4"}, "yes", "advice DomainPastSlit 0x150 0x4 0x4")
of_pc("a distance is 11 one way and 20 the other", b"SLIT", {44 + 1: b"\x0b"}, "yes", "advice SlitDiffers 0x2d 0x30")
of_arm(
    "a leaf is copied, and its ID not counted up", b"PPTT", {0x120: b"\0"}, "yes", "advice SameLeaf 0x114 0xc8",
    "advice NoLeaf 0x94 0x0 0x1",
)
of_arm("a cache has lines of 0 bytes", b"PPTT", {0x4E: bytes(2)}, "yes", "advice CacheShape 0x38", "advice CacheNumbers 0x38 0x200000")

# ---- what the further rules see
of_pc("the RSDP's OEM ID is not set", RSDP_SIGNATURE, {9: b"\xff" * 6}, "yes", "advice RsdpText 0x9 0x0 0xffffffffffff")
of_pc("the RSDT's Revision is left 0", b"RSDT", {8: b"\0"}, "yes", "advice RootHeader 0x8")
of_pc(
    "the DSDT's OEM Table ID begins with a zero", b"FACP", {}, "yes", "advice DsdtText 0x10 0x0 0x4141414141414100",
    others={0x7FFE0040: changed(table(b"DSDT", b"\x5b\x80"), {16: 0}, (9, 38))},
)
of_pc("the FADT's Revision is left 1", b"FACP", {8: b"\1"}, "yes", "advice FadtPastRevision 0x4 0x74 0xf4")
of_pc("the FADT of a PC says that there is PSCI", b"FACP", {129: b"\1"}, "yes", "advice ArmBootEarly 0x81 0x0 0x1")
of_arm(
    "the SMI port of a PC is in a FADT of reduced hardware", b"FACP", {48: number(0xB2, 4)}, "yes", "advice FixedInReduced 0x30 0x0 0xb2",
)
of_pc("ACPI_DISABLE is left 0", b"FACP", {53: b"\0"}, "yes", "advice SmiHandshake 0x35")
of_pc(
    "there is a command for S4 by firmware, which the FACS does not have", b"FACP", {54: b"\xf2"}, "yes", "advice S4BiosDiffers 0x36 0x0 0xf2",
)
of_pc("GPE0_BLK_LEN counts bits", b"FACP", {92: b"\x80"}, "yes", "advice GpePastEnd 0x5c 0x0 0x80")
of_pc(
    "PM1_EVT_LEN counts bits, of PM1a_EVT without a structure", b"FACP", {88: b"\x20", 148: bytes(12)}, "yes",
    "advice PortsOverlap 0x38 0x40 0x604", "advice BlockTooLong 0x58 0x0 0x20",
)
of_pc("PM1a_EVT is in the space of PCI", b"FACP", {148: b"\2"}, "yes", "advice BlockSpace 0x94 0x0 0x2")
of_pc("PM1a_CNT has 32 bits", b"FACP", {89: b"\4", 173: b"\x20"}, "yes", "advice BlockUsualWidth 0xad 0x0 0x20")
of_small(
    "the flag of reduced hardware is lost", b"FACP", {114: b"\0"}, "no 4 PmEventLength 0x58", "no 4 PmControlLength 0x59", "no 5 NoFacs",
    "advice NoPm1Block 0x38", "advice SciZero 0x2e", "advice SleepNotReduced 0xf8 0x0 0xfea00200",
)
of_arm(
    "the last GICC is said to be 75 bytes long", b"APIC", {0x275: b"\x4b"}, "no 6 MadtEntryCut 0x2bf", "advice GiccShort 0x274 0x4c 0x4b",
)
# The version of a GIC with redistributors, and one of each GICC.
OWN = {0x40: b"\3", **{at + 60: number(base, 8) for at, base in zip((0x44, 0x94, 0xE4, 0x134), range(0x80A0000, 0x8120000, 0x20000))}}
of_four("the last GICC names no redistributor", b"APIC", {**OWN, 0x134 + 60: bytes(8)}, "yes", "advice GiccNoGicr 0x134 0x3c")
of_four(
    "the last GICC can be added, and is where no redistributors are found", b"APIC", {**OWN, 0x134 + 12: b"\x08"}, "yes",
    "advice CapableTooEarly 0x134 0x6 0x3", "advice CapableNoGicr 0x134 0xc 0x8",
)
of_four("the last GICC has no GICV", b"APIC", {0x134 + 40: bytes(8)}, "yes", "advice GiccDiffers 0x134 0x28")
of_four(
    "the last GICC names the redistributor of the one before", b"APIC", {**OWN, 0x134 + 60: number(0x80E0000, 8)}, "yes",
    "advice SameGicrBase 0x134 0xe4 0x80e0000",
)
of_arm("a GICC has a second version of the parking protocol", b"APIC", {0x44 + 16: b"\2"}, "yes", "advice ParkingVersion 0x44 0x10 0x2")
of_arm("the interrupt of SPE is an SPI", b"APIC", {0x44 + 78: number(53, 2)}, "yes", "advice GiccNoPpi 0x44 0x4e 0x35")
of_arm("a GICC has a flag that there is not", b"APIC", {0x44 + 12: b"\x21"}, "yes", "advice FurtherReserved 0x44 0xc 0x21")
of_arm("the MADT of a GIC has Revision 1", b"APIC", {8: b"\1"}, "yes", "advice MadtRevision 0x8 0x0 0x1")
of_four("the last leaf has another type", b"PPTT", {0x74: b"\2"}, "yes", "advice NoLeaf 0x134 0x0 0x3", "advice PpttUnread 0x74 0x2")
of_arm("both caches of a core are of instructions", b"PPTT", {0x98 + 21: b"\7"}, "yes", "advice SameCacheType 0xc8 0xb0 0x98")

# ---- what the rules on the MCFG, the HPET and the SPCR see
# What a slot of the PC's RSDT leads to in the place of its HPET or its MCFG, and one of the Arm machine's XSDT in the place of its SPCR.
HPET_SLOT, MCFG_SLOT, MOVED = {44: number(0x7FFE5000, 4)}, {56: number(0x7FFE5000, 4)}, 0x7FFE5000
SPCR_SLOT, SPCR_MOVED = {84: number(0x47FD0000, 8)}, 0x47FD0000
of_pc("the MCFG has no entry", b"RSDT", MCFG_SLOT, "yes", "advice McfgLength 0x4 0x3c 0x2c", others={MOVED: mcfg()})
of_pc("the ECAM's address is left 0", b"MCFG", {44: bytes(8)}, "yes", "advice EcamAddress 0x2c")
of_pc("the first bus and the last are exchanged", b"MCFG", {54: b"\xff\0"}, "yes", "advice BusesReversed 0x2c 0xb 0x0")
of_pc(
    "the ECAM's address is F8000000h with its sign", b"MCFG", {44: number(0xFFFFFFFFF8000000, 8)}, "yes",
    "advice EcamWraps 0x2c 0x0 0xfffffffff8000000",
)
of_arm("the MCFG's Revision is left 0", b"MCFG", {8: b"\0"}, "yes", "advice EcamTooHigh 0x2c 0x0 0x4010000000")
of_pc(
    "buses from 128 on have an entry, and the one of all buses stays", b"RSDT", MCFG_SLOT, "yes", "advice SameBus 0x2c 0x3c 0x80",
    others={MOVED: mcfg(ecam(0xB0000000), ecam(0x90000000, 0, 128, 255))},
)
of_pc(
    "a second segment has the ECAM of the first", b"RSDT", MCFG_SLOT, "yes", "advice EcamOverlap 0x2c 0x3c 0xb0000000",
    others={MOVED: mcfg(ecam(0xB0000000), ecam(0xB0000000, 1))},
)
of_pc(
    "the HPET ends after its address", b"RSDT", HPET_SLOT, "yes", "advice HpetLength 0x4 0x38 0x34",
    others={MOVED: table(b"HPET", hpet()[36:52])},
)
of_pc("the HPET is in the space of ports", b"HPET", {40: b"\1"}, "yes", "advice HpetSpace 0x28 0x0 0x1")
of_pc(
    "the HPET's address is in the high half", b"HPET", {44: number(0xFED00000 << 32, 8)}, "yes",
    "advice HpetAddress 0x2c 0x0 0xfed0000000000000",
)
of_arm("the SPCR's Revision is raised, and not its Length", b"SPCR", {8: b"\4"}, "yes", "advice SpcrLength 0x4 0x58 0x50")
of_arm("the access size of the port counts bits", b"SPCR", {43: b"\x20"}, "yes", "advice SpcrAddress 0x2b 0x0 0x20")
of_arm("the rate counts from 1", b"SPCR", {58: b"\1"}, "yes", "advice SpcrBaud 0x3a 0x0 0x1")
of_arm("the interrupt of the port counts from that of the first SPI", b"SPCR", {54: number(1, 4)}, "yes", "advice SpcrGsi 0x36 0x0 0x1")
of_four("the vendor of no PCI device is left 0", b"SPCR", {66: bytes(2)}, "yes", "advice SpcrPci 0x40 0x0 0xffff")
ARM_PORT = {"_36": b"\3", "_40": generic_address(0x9000000, 0, 32, 0, 3), "_52": b"\10\0" + number(33, 4), "_58": b"\3"}
of_arm(
    "the name of the port has no zero at its end", b"XSDT", SPCR_SLOT, "yes", "advice SpcrName 0x60 0x0 0x30",
    others={SPCR_MOVED: spcr(4, 97, **ARM_PORT, _84=number(9, 2), _88=b"\\_SB.COM0")},
)

# ---- what the rules on the HMAT and the GTDT see
# What a slot leads to in the place of the HMAT, or of the GTDT.
HMAT_SLOT, GTDT_SLOT, GTDT_MOVED = {52: number(MOVED, 4)}, {68: number(0x47FD0000, 8)}, 0x47FD0000
# The GTDT of the Arm machine, with watchdogs, or with blocks of frames, beside what it has.
arm_timers = lambda *platform, **fields: {GTDT_MOVED: gtdt(*platform, _36=b"\xff" * 8, _60=number(4, 4), _80=b"\xff" * 8, **fields)}
of_numa("the HMAT's Revision is left 0", b"HMAT", {8: b"\0"}, "yes", "advice HmatHeader 0x8")
of_numa("the length of the last structure counts a cell too much", b"HMAT", {0x7C: b"\x32"}, "yes", "advice HmatCut 0x78 0x32 0xa8")
of_numa("a second initiator is counted, and not there", b"HMAT", {0x84: b"\2"}, "yes", "advice HmatLength 0x78 0x38 0x30")
of_numa("the cells are of a kind that there is not", b"HMAT", {0x81: b"\6"}, "yes", "advice HmatDataType 0x78 0x9 0x6")
of_numa("the level of memory counts from 1 in the high bits", b"HMAT", {0x80: b"\4"}, "yes", "advice HmatHierarchy 0x78 0x8 0x4")
of_numa("the unit of the cells is left 0", b"HMAT", {0x90: bytes(8)}, "yes", "advice HmatUnit 0x78 0x18")
of_numa("the unit of the cells is in the high half", b"HMAT", {0x90: number(1000 << 32, 8)}, "yes", "advice HmatTooLarge 0xa4 0x0 0x1")
of_numa("the second target is the first", b"HMAT", {0xA0: bytes(4)}, "yes", "advice HmatSameDomain 0xa0 0x9c")
of_numa("the memory of a proximity is counted from 1", b"HMAT", {0x60: b"\2"}, "yes", "advice HmatProximity 0x50 0x10 0x2")
of_numa("an initiator is in no domain", b"HMAT", {0x98: b"\3"}, "yes", "advice HmatDomainNowhere 0x98 0x0 0x3")
of_numa("there is no SRAT", b"RSDT", {48: bytes(4)}, "yes", "advice NullSlot 0x3", "advice HmatAlone")
of_numa(
    "a cache is of a domain that has no memory", b"RSDT", HMAT_SLOT, "yes", "advice HmatCacheNowhere 0x28 0x8 0x2",
    others={MOVED: hmat(side_cache(2, 0x2111))},
)
of_numa(
    "the level of a cache is above its levels", b"RSDT", HMAT_SLOT, "yes", "advice HmatCache 0x28 0x18 0x2121",
    others={MOVED: hmat(side_cache(1, 0x2121))},
)
of_arm("the GTDT's Length is that of Revision 2", b"GTDT", {4: b"\x60"}, "yes", "advice GtdtLength 0x4 0x68 0x60")
of_arm("there is no GTDT", b"XSDT", {68: bytes(8)}, "yes", "advice NullSlot 0x4", "advice NoGtdt")
of_arm("neither timer of EL1 has an interrupt", b"GTDT", {56: bytes(4), 64: bytes(4)}, "yes", "advice NoTimer 0x38")
of_arm("the interrupt of the virtual timer counts from the first PPI", b"GTDT", {64: b"\x0b"}, "yes", "advice TimerNoPpi 0x40 0x0 0xb")
of_arm("the timer of EL2 has the interrupt of the virtual one", b"GTDT", {72: b"\x1b"}, "yes", "advice SameTimer 0x48 0x40 0x1b")
of_arm("a platform timer is counted, and has no place", b"GTDT", {88: b"\1"}, "yes", "advice PlatformTimerCut 0x5c")
of_arm(
    "the frames of a block are counted wrong", b"XSDT", GTDT_SLOT, "yes", "advice TimerBlock 0x68 0x64 0x3c",
    others=arm_timers(timer_block(timer_frame(), base=0x2A810000, count=2, length=60)),
)
of_arm(
    "a frame has no address", b"XSDT", GTDT_SLOT, "yes", "advice TimerFrame 0x7c 0x4",
    others=arm_timers(timer_block(timer_frame(0, 0), base=0x2A810000)),
)
of_arm(
    "two frames have the number 0", b"XSDT", GTDT_SLOT, "yes", "advice SameFrame 0xa4 0x7c",
    others=arm_timers(timer_block(timer_frame(0, 0x2A820000), timer_frame(0, 0x2A830000), base=0x2A810000)),
)
of_arm(
    "a watchdog has no control frame", b"XSDT", GTDT_SLOT, "yes", "advice Watchdog 0x68 0xc", others=arm_timers(watchdog(0x2A440000, 0)),
)
of_arm(
    "the interrupt of a watchdog counts from that of the first SPI", b"XSDT", GTDT_SLOT, "yes", "advice TimerNoSpi 0x68 0x14 0x1b",
    others=arm_timers(watchdog(0x2A440000, 0x2A450000, 27)),
)
of_arm(
    "the control frame of a watchdog is its refresh frame", b"XSDT", GTDT_SLOT, "yes", "advice TimerOverlap 0x6c 0x74 0x2a440000",
    others=arm_timers(watchdog(0x2A440000, 0x2A440000)),
)

# ---- what the rules on the DMAR and the IVRS see
# What a slot leads to in the place of the DMAR or the IVRS, and in the set of several domains in the place of the HPET.
IOMMU_SLOT = {52: number(MOVED, 4)}
# The IOMMUs of the two sets, and what else their tables have: before the IOMMU, or after it.
INTEL_SCOPES = scope(SCOPE_IO_APIC, 0, 0xFF, [(0, 0)]), scope(steps=[(0, 0)]), *(scope(steps=[(31, function)]) for function in (0, 2, 3))
AMD_ENTRIES = *(device_entry(ALL_DEVICES, device) for device in (0, 8, 0xF8, 0xFA, 0xFB)), special(VARIETY_IO_APIC, 0)


def intel_dmar(*more, before=(), **fields):
    return {MOVED: dmar(*before, drhd(*INTEL_SCOPES, **fields), *more, width=38, flags=1)}


def amd_ivrs(*more, entries=AMD_ENTRIES, **fields):
    return {MOVED: ivrs(ivhd(*entries, device=8, **fields), *more, revision=1)}


of_intel("the width of addresses is left 0", b"DMAR", {36: b"\0"}, "yes", "advice DmarWidth 0x24")
of_intel("the length of the IOMMU counts a scope too much", b"DMAR", {0x32: b"\x40"}, "yes", "advice DmarCut 0x30 0x40 0x68")
of_intel(
    "a region ends after its limit's first half", b"RSDT", IOMMU_SLOT, "yes", "advice DmarShort 0x68 0x18 0x14",
    others=intel_dmar(rmrr(length=20)),
)
of_intel("the IOMMU has a type that there is not", b"DMAR", {0x30: b"\7"}, "yes", "advice NoDrhd", "advice IoApicUnmapped 0x34 0x2")
of_intel("the last scope's length is left 0", b"DMAR", {0x61: b"\0"}, "yes", "advice ScopeCut 0x60 0x0 0x68")
of_intel("the device and the function of a step are one byte", b"DMAR", {0x66: b"\xfb\0"}, "yes", "advice ScopeType 0x66 0x0 0xfb")
of_intel("the IOMMU's address is left 0", b"DMAR", {0x38: bytes(8)}, "yes", "advice DrhdAddress 0x30 0x8")
of_intel(
    "a second IOMMU is within the registers of the first", b"RSDT", IOMMU_SLOT, "yes", "advice DrhdOverlap 0x30 0x68 0xfed91000",
    others=intel_dmar(drhd(base=0xFED91000), size=1),
)
of_intel(
    "two IOMMUs have all other devices", b"RSDT", IOMMU_SLOT, "yes", "advice SecondIncludeAll 0x68 0x30",
    others=intel_dmar(drhd(base=0xFED91000, flags=1), flags=1),
)
of_intel(
    "the IOMMU of all other devices is the first", b"RSDT", IOMMU_SLOT, "yes", "advice IncludeAllNotLast 0x40 0x30",
    others=intel_dmar(before=[drhd(base=0xFED91000, flags=1)]),
)
of_intel(
    "the limit of a region is its end", b"RSDT", IOMMU_SLOT, "yes", "advice RmrrRange 0x68 0x10 0x7c000000",
    others=intel_dmar(rmrr(scope(steps=[(2, 0)]), base=0x7B800000, limit=0x7C000000)),
)
of_intel(
    "a region is of no device", b"RSDT", IOMMU_SLOT, "yes", "advice RmrrNoDevice 0x68 0x20 0x18",
    others=intel_dmar(rmrr(base=0x7B800000, limit=0x7BFFFFFF)),
)
of_intel(
    "an RHSA has the address of an IOMMU that is not there", b"RSDT", IOMMU_SLOT, "yes", "advice RhsaNowhere 0x68 0x8 0xfed91000",
    others=intel_dmar(rhsa(base=0xFED91000)),
)
of_pc(
    "the domains of IOMMUs are counted from 1", b"RSDT", HPET_SLOT, "yes", "advice RhsaDomain 0x8c 0x10 0x4",
    others=intel_dmar(rhsa(domain=4), before=[drhd(base=0xFED91000), rhsa(0xFED91000, 3)]),
)
of_intel(
    "an RHSA is copied, and its address not changed", b"RSDT", IOMMU_SLOT, "yes", "advice SameRhsa 0x7c 0x68 0xfed90000",
    others=intel_dmar(rhsa(), rhsa(domain=1)),
)
of_intel(
    "the name of a device has no zero at its end", b"RSDT", IOMMU_SLOT, "yes", "advice AnddName 0x50 0x8",
    others={MOVED: dmar(drhd(INTEL_SCOPES[0], scope(NAMESPACE_DEVICE, 1)), andd(1, b"\\_SB.I2C0"), flags=1)},
)
of_intel(
    "a scope is of a device that has no name", b"RSDT", IOMMU_SLOT, "yes", "advice AnddNowhere 0x48 0x4 0x2",
    others={MOVED: dmar(drhd(INTEL_SCOPES[0], scope(NAMESPACE_DEVICE, 2), scope(NAMESPACE_DEVICE, 1)), andd(1), flags=1)},
)
of_intel("the number of the I/O APIC is counted from 1", b"DMAR", {0x44: b"\1"}, "yes", "advice IoApicUnmapped 0x34 0x2")
of_intel("the scope of the host bridge is that of the I/O APIC", b"DMAR", {0x48: b"\3"}, "yes", "advice SameScope 0x48 0x40")
of_amd("the length of the IOMMU counts 8 bytes too much", b"IVRS", {0x32: b"\x3c"}, "yes", "advice IvrsCut 0x30 0x3c 0x64")
of_amd(
    "a block of memory ends before its length does", b"RSDT", IOMMU_SLOT, "yes", "advice IvrsShort 0x64 0x20 0x18",
    others=amd_ivrs(ivmd(length=24)),
)
of_amd("the IOMMU has a type that there is not", b"IVRS", {0x30: b"\x12"}, "yes", "advice NoIvhd")
of_amd("the IOMMU's address is that of the next page", b"IVRS", {0x39: b"\x10"}, "yes", "advice IvhdAddress 0x30 0x8 0xfed81000")
of_amd(
    "the second IOMMU has the device of the first", b"RSDT", IOMMU_SLOT, "yes", "advice SameIvhd 0x64 0x30 0x8",
    "advice IvhdDiffers 0x64 0x30 0xfed84000", others=amd_ivrs(ivhd(device=8, base=0xFED84000)),
)
of_amd(
    "the block of a later type has another address", b"RSDT", IOMMU_SLOT, "yes", "advice IvhdDiffers 0x64 0x30 0xfed84000",
    others=amd_ivrs(ivhd(*AMD_ENTRIES, kind=IVHD_11, device=8, base=0xFED84000)),
)
of_amd("an entry has the type 82h", b"IVRS", {0x4C: b"\x82"}, "yes", "advice IvhdEntryCut 0x4c 0x0 0x64")
of_amd("the variety of the I/O APIC is left 0", b"IVRS", {0x63: b"\0"}, "yes", "advice IvhdEntryType 0x5c 0x7")
of_amd("a range of devices starts, and does not end", b"IVRS", {0x58: b"\3"}, "yes", "advice IvhdRange 0x58 0x1 0xfb")
of_amd("the number of the I/O APIC is counted from 1", b"IVRS", {0x60: b"\1"}, "yes", "advice IoApicNotInIvrs 0x34 0x2")
of_amd(
    "the I/O APIC has two entries", b"RSDT", IOMMU_SLOT, "yes", "advice SameSpecial 0x64 0x5c",
    others=amd_ivrs(entries=(*AMD_ENTRIES, special(VARIETY_IO_APIC, 0, 0xA1))),
)
of_amd("memory has neither of its flags", b"RSDT", IOMMU_SLOT, "yes", "advice IvmdRange 0x64 0x1", others=amd_ivrs(ivmd(flags=0)))
