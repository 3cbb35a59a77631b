"""Lines of advice whose numbers are a field's offset, in a table or in a structure, and its value; the length of a structure; or texts of
headers: each with what explain has to say of it, and its set. Both were worked out by hand."""

from acpi_images.tables import *
from acpi_images.text import text_of
from sets import NONE_USABLE, UNREAD, image_of


def of_fadt(fadt, facs_flags=0):
    """A set with this FADT at 0x10000, and a FACS with these Flags."""
    pieces = {RSDP_AT: extended_rsdp(XSDT_AT, 0), XSDT_AT: xsdt(0x10000), FACS_AT: changed(facs(), {20: facs_flags}), 0x10000: fadt}
    return text_of(pieces)


# Texts that are not in order: of the RSDP, of the XSDT, and of the DSDT that X_DSDT names, whose last text has a 0 before an A.
TEXTS = text_of({
    RSDP_AT: changed(extended_rsdp(XSDT_AT, 0), {9: 0x80}, (8, 20), (32, 36)), XSDT_AT: changed(xsdt(0x10000), {17: 9}, (9, 44)),
    0x10000: fadt(length=148, _40=number(0x30000, 4), _140=number(0x20000, 8)), 0x20000: changed(table(b"DSDT", b""), {30: 0}, (9, 36)),
})
ROOT_OF_REVISION_2 = text_of({RSDP_AT: extended_rsdp(XSDT_AT, 0), XSDT_AT: revised(xsdt(0x10000), 2), 0x10000: fadt()})
# A DSDT that the 4-byte field names, of which one byte of the OEMID is 0x7f.
NARROW_DSDT = text_of({
    RSDP_AT: extended_rsdp(XSDT_AT, 0), XSDT_AT: xsdt(0x10000), 0x10000: fadt(_40=number(0x20000, 4)),
    0x20000: changed(table(b"DSDT", b""), {12: 0x7F}, (9, 36)),
})

# A FADT of full hardware, of Revision 3 and longer than that, with a mistake of each kind.
FULL = revised(full_fadt(
    length=268, _48=number(0xB2, 4), _53=b"\3\5", _64=number(0x404, 4), _80=number(0x600, 4), _89=b"\x20", _92=b"\x42", _129=b"\1",
    _196=generic_address(0x1000, 2, 8), _208=generic_address(0x408, 1, 24), _256=generic_address(0x500, 1, 8),
), 3)
OF_FULL = of_fadt(FULL)
# The events 248 to 263 of GPE1; Revision 0; a FACS with S4BIOS_F, and a FADT without a command for it.
OF_GPE1 = of_fadt(full_fadt(_84=number(0x630, 4), _93=b"\4\xf8"))
REVISION_0 = of_fadt(revised(fadt(), 0))
OF_FACS = of_fadt(full_fadt(), 1)
# Addresses in a FADT of reduced hardware: SMI_CMD, PM_TMR_BLK, and X_GPE1_BLK.
SMI_IN_REDUCED, TIMER_IN_REDUCED = of_fadt(fadt(_48=number(0xB2, 4))), of_fadt(fadt(_76=number(0x408, 4)))
X_IN_REDUCED = of_fadt(fadt(length=244, _232=generic_address(0x630)))

HEADERS = [
    ("RsdpText 0x9 0x0 0x414141414180", ["the RSDP at 0xe0000:", "OEMID is 80 41 41 41 41 41"], TEXTS),
    (
        "RootHeader 0x10 0x0 0x4141414141410941",
        ["the XSDT or RSDT at 0x1100:", "signature XSDT, Length 44", "OEM Table ID is 41 09 41 41 41 41 41 41"], TEXTS,
    ),
    ("RootHeader 0x8 0x0 0x2", ["the XSDT or RSDT at 0x1100:", "Revision is 2, and must be 1"], ROOT_OF_REVISION_2),
    (
        "DsdtText 0x1c 0x0 0x41004141",
        [
            "DSDT is 0x30000, and X_DSDT is 0x20000", "the DSDT at 0x20000:", "  0x20010  41 41 41 41 41 41 41 41 01 00 00 00 41 41 00 41",
            "signature DSDT, Length 36", "Creator ID is 41 41 00 41",
        ],
        TEXTS,
    ),
    ("DsdtText 0xa 0x0 0x4141417f4141", ["DSDT is 0x20000", "the DSDT at 0x20000:", "OEMID is 41 41 7f 41 41 41"], NARROW_DSDT),
]

OF_FADT = [
    (
        "FadtPastRevision 0x4 0xf4 0x10c",
        ["its header at offset 0x0 (0), at 0x10000:", "Length is 268, and Revision 3 is that of a FADT of 244 bytes"], OF_FULL,
    ),
    ("FadtPastRevision 0x8 0x0 0x0", ["Revision at offset 0x8 (8), at 0x10008:", "Revision is 0x0"], REVISION_0),
    ("ArmBootEarly 0x81 0x0 0x1", ["ARM_BOOT_ARCH is 0x1", "the FADT is of version 3.0"], OF_FULL),
    (
        "SmiHandshake 0x34 0x0 0x0",
        ["SMI_CMD is 0xb2", "ACPI_ENABLE is 0x0, ACPI_DISABLE is 0x3, S4BIOS_REQ is 0x5, PSTATE_CNT is 0x0, CST_CNT is 0x0"], OF_FULL,
    ),
    (
        "S4BiosDiffers 0x36 0x0 0x5",
        ["S4BIOS_REQ at offset 0x36 (54), at 0x10036:", "S4BIOS_REQ is 0x5", "the FACS at 0x7000:", "Flags is 0x0"], OF_FULL,
    ),
    ("S4BiosDiffers 0x36 0x0 0x0", ["S4BIOS_REQ is 0x0", "the FACS at 0x7000:", "Flags is 0x1"], OF_FACS),
    (
        "GpePastEnd 0x5c 0x0 0x42",
        ["GPE0_BLK is 0x600, and its length byte, at 92, is 66", "GPE0_BLK has the events 0 to 263; those above 255 can have no method"],
        OF_FULL,
    ),
    (
        "GpePastEnd 0x5e 0x0 0xf8",
        [
            "GPE1_BLK is 0x630, and its length byte, at 93, is 4", "GPE1_BASE is 0xf8",
            "GPE1_BLK has the events 248 to 263; those above 255 can have no method",
        ],
        OF_GPE1,
    ),
    (
        "BlockTooLong 0x59 0x0 0x20",
        [
            "PM1_CNT_LEN at offset 0x59 (89), at 0x10059:", "PM1_CNT_LEN is 0x20",
            "PM1a_CNT_BLK is 0x404, and its length byte, at 89, is 32", "PM1b_CNT_BLK is 0x0, and its length byte, at 89, is 32",
        ],
        OF_FULL,
    ),
    (
        "BlockSpace 0xc4 0x0 0x2",
        [
            "X_PM2_CNT_BLK at offset 0xc4 (196), at 0x100c4:",
            "X_PM2_CNT_BLK has the address space 2, the bit width 8, the bit offset 0, and the address 0x1000",
        ],
        OF_FULL,
    ),
    (
        "BlockUsualWidth 0xd1 0x0 0x18",
        [
            "X_PM_TMR_BLK at offset 0xd0 (208), at 0x100d0:",
            "X_PM_TMR_BLK has the address space 1, the bit width 24, the bit offset 0, and the address 0x408", "the usual bit width is 32",
        ],
        OF_FULL,
    ),
    (
        "SleepNotReduced 0x104 0x0 0x500",
        ["SLEEP_STATUS_REG has the address space 1, the bit width 8, the bit offset 0, and the address 0x500"], OF_FULL,
    ),
    ("FixedInReduced 0x30 0x0 0xb2", ["SMI_CMD at offset 0x30 (48), at 0x10030:", "SMI_CMD is 0xb2"], SMI_IN_REDUCED),
    ("FixedInReduced 0x4c 0x0 0x408", ["PM_TMR_BLK is 0x408, and its length byte, at 91, is 0"], TIMER_IN_REDUCED),
    (
        "FixedInReduced 0xec 0x0 0x630",
        [
            "X_GPE1_BLK at offset 0xe8 (232), at 0x100e8:",
            "X_GPE1_BLK has the address space 1, the bit width 32, the bit offset 0, and the address 0x630",
        ],
        X_IN_REDUCED,
    ),
    (
        "FadtForRiscv 0x8 0x1 0x0",
        ["Revision is 0x1", "the FADT is of version 1.0", "  0x2c entry type 24 length 36: rintc uid 5 hart 6 flags 0x0"], NONE_USABLE,
    ),
]

# A GIC of version 3, at 0x2c, and GICCs: one that is off, at 0x44; two that are on, at 0x90 and 0xe2, of which the second names no
# redistributor; one that can come online later, at 0x12e; and one that is a byte short, at 0x17a, with the redistributor of another.
GICCS = image_of(madt(
    distributor(3), placed(gicc(0, 0, 76), _40=number(0x1000, 8)),
    placed(
        gicc(1, 1, 82), _40=number(0x8040000, 8), _48=number(0x8050000, 8), _56=number(25, 4), _60=number(0x80A0000, 8), _77=b"\x09",
        _80=b"\x20",
    ),
    placed(gicc(2, 1, 76), _40=number(0x8060000, 8)), placed(gicc(3, 8, 76), _16=number(2, 4)),
    placed(gicc(4, 1, 75), _60=number(0x80A0000, 8)),
))
PROFILING = image_of(madt(placed(gicc(0, 1, 80), _78=number(33, 2))))
NO_HART = image_of(madt(hart(2**64 - 1)))
# Wakeup structures: of version 1 and the length of version 0, of 3 bytes, of version 2, with a reserved number, with a wrong mailbox.
SHORT_WAKEUP, NO_WAKEUP, WAKEUP_OF_2, RESERVED_WAKEUP, WRONG_MAILBOX = (
    image_of(madt(placed(other(16, length), _2=number(version, 2), _4=number(reserved, 4), _8=number(mailbox, 8))))
    for length, version, reserved, mailbox in (
        (16, 1, 0, 0x1000), (3, 0, 0, 0), (16, 2, 0, 0x1000), (16, 0, 0x300, 0x1000), (16, 0, 0, 0x1001),
    )
)
NO_LAPIC_ADDRESS = image_of(madt(lapic_address(0)))
REVISION_2, REVISION_5 = (image_of(revised(madt(x2apic(300, 9), rintc(5)), revision)) for revision in (2, 5))
# Structures of types 17 to 27 of versions 2 to 12, and parts of a GIC.
SIZES = {17: 15, 18: 23, 19: 21, 20: 13, 21: 19, 22: 17, 23: 14, 24: 36, 25: 16, 26: 36, 27: 36}
PICS = image_of(madt(*(placed(other(kind, size), _2=bytes([kind - 15])) for kind, size in SIZES.items())))
PARTS = image_of(madt(
    placed(frame(6), _16=number(6, 4)), placed(redistributor(0x80A0000, 0x20000), _2=b"\2"), placed(its(4), _2=b"\4"),
    placed(other(25, 16), _2=b"\1", _4=number(0x100, 4)),
))

OF_MADT = [
    (
        "GiccShort 0x17a 0x4c 0x4b",
        ["the structure at offset 0x17a (378), at 0x1117a:", "its length, byte 1, is 75, and must be at least 76"], GICCS,
    ),
    (
        "GiccNoGicr 0xe2 0x3c 0x0",
        [
            "its field gicr, at 60, is 0x0", "..the MADT's redistributors:\n  none\nthe MADT's GICCs:\n",
            "  0x90 entry type 11 length 82: gicc uid 1 flags 0x1 parking 0 base 0x0 gicr 0x80a0000 mpidr 0x1",
            "the first GIC distributor of 24 bytes at offset 0x2c (44), at 0x1102c:",
            "  0x2c entry type 12 length 24: gicd base 0x0 version 3",
        ],
        GICCS,
    ),
    (
        "CapableNoGicr 0x12e 0xc 0x8",
        ["its field flags, at 12, is 0x8", "..the MADT's redistributors:\n  none\nthe first GIC distributor of 24 bytes at offset 0x2c"],
        GICCS,
    ),
    (
        "GiccDiffers 0xe2 0x28 0x8060000",
        [
            "..its field gicv, at 40, is 0x8060000\nthe first usable GICC of at least 60 bytes at offset 0x90 (144), at 0x11090:\n",
            "its field gicv, at 40, is 0x8040000",
        ],
        GICCS,
    ),
    ("SameGicrBase 0x17a 0x90 0x80a0000", ["the other structure at offset 0x90 (144), at 0x11090:"], GICCS),
    ("ParkingVersion 0x12e 0x10 0x2", "its field parking, at 16, is 0x2", GICCS),
    ("GiccNoPpi 0x90 0x50 0x20", "its field trbe, at 80, is 0x20", GICCS),
    ("GiccNoPpi 0x2c 0x4e 0x21", "its field spe, at 78, is 0x21", PROFILING),
    ("FurtherReserved 0x90 0x4d 0x9", "byte 77 of it is 0x9", GICCS),
    ("FurtherReserved 0x2c 0x10 0x6", "its field flags, at 16, is 0x6", PARTS),
    ("PicVersion 0x2c 0x2 0x2", ["  0x2c entry type 17 length 15: core-pic uid 0 id 0 flags 0x0", "its field version, at 2, is 0x2"], PICS),
    ("HartInvalid 0x2c 0x8 0xffffffffffffffff", "its field hart, at 8, is 0xffffffffffffffff", NO_HART),
    (
        "WakeupMailbox 0x2c 0x18 0x10",
        ["  0x2c entry type 16 length 16: wakeup version 1 mailbox 0x1000", "its length, byte 1, is 16, and one of its version has 24"],
        SHORT_WAKEUP,
    ),
    ("WakeupMailbox 0x2c 0x10 0x3", "its length, byte 1, is 3, and one of its version has 16", NO_WAKEUP),
    ("WakeupMailbox 0x2c 0x2 0x2", "its field version, at 2, is 0x2", WAKEUP_OF_2),
    ("WakeupMailbox 0x2c 0x4 0x300", "its field reserved, at 4, is 0x300", RESERVED_WAKEUP),
    ("WakeupMailbox 0x2c 0x8 0x1001", "its field mailbox, at 8, is 0x1001", WRONG_MAILBOX),
    ("LapicAtZero 0x2c 0x4 0x0", ["  0x2c lapic-address 0x0", "its field lapic-address, at 4, is 0x0"], NO_LAPIC_ADDRESS),
    (
        "MadtRevision 0x8 0x0 0x2",
        [
            "Revision at offset 0x8 (8), at 0x11008:",
            "..Revision is 2\nthe MADT's structures of types 9 to 15, which are those of Revision 3:\n",
            "  0x2c x2apic uid 300 id 9 flags 0x1", "  0x3c entry type 24 length 36: rintc uid 5 hart 6 flags 0x1",
        ],
        REVISION_2,
    ),
    (
        "MadtRevision 0x8 0x0 0x5",
        [
            "..Revision is 5\nthe MADT's structures of types 24 to 27, which are those of Revision 6:\n",
            "  0x3c entry type 24 length 36: rintc uid 5 hart 6 flags 0x1",
        ],
        REVISION_5,
    ),
]

# The domains 1 and 2 of a memory range and of a GICC, 4 of an initiator, whose handle is of type 2; a processor that is off in domain 3;
# and an ITS in domain 7.
DOMAINS = image_of(srat(
    its_domain(7), apic_domain(0, 3, flags=0), memory_of(1, 0, 1 << 30), uid_domain(1, 2),
    placed(device_domain(5, 4), _3=b"\2", _29=b"\x11"),
))
# A node at 0x24 and two caches of instructions that it names, at 0x40 and 0x58.
TWO_CACHES = image_of(pptt(node(resources=(0x40, 0x58)), *[cache(flags=0x10, attributes=4)] * 2))
CACHE_0 = image_of(pptt(cache(length=28, flags=CACHE_ID_VALID, size=64), revision=3))

OF_SRAT_AND_PPTT = [
    ("AffinityReserved 0x86 0x1d 0x11", ["  0x86 entry type 5 length 32: initiator domain 4 flags 0x1", "byte 29 of it is 0x11"], DOMAINS),
    ("DeviceHandle 0x86 0x3 0x2", "its field handle, at 3, is 0x2", DOMAINS),
    (
        "ItsDomain 0x30 0x2 0x7",
        ["its field domain, at 2, is 0x7", "the SRAT's enabled affinities, memory ranges, initiators and ports have the domains 1 to 2, 4"],
        DOMAINS,
    ),
    (
        "PpttUnread 0x38 0x2 0x0",
        [
            "  0x38 entry type 2 length 4", "structures of this table that neither the stages nor advice look at:",
            "  type 2 (ID structure): 2, the first at offset 0x38 (56)",
        ],
        UNREAD,
    ),
    (
        "SameCacheType 0x24 0x40 0x58",
        [
            "the first cache at offset 0x40 (64), at 0x11040:", "the other cache at offset 0x58 (88), at 0x11058:",
            "its field attributes, at 21, is 0x4: it is a cache of instructions",
        ],
        TWO_CACHES,
    ),
    ("CacheIdZero 0x24 0x18 0x0", ["its field id, at 24, is 0x0", "the PPTT's Revision is 3"], CACHE_0),
]

CASES = [*HEADERS, *OF_FADT, *OF_MADT, *OF_SRAT_AND_PPTT]

# Fields of structures, which a line names that `lint` does not write of the set.
FIELDS = [
    ("GiccDiffers 0x90 0x30 0x0", "its field gich, at 48, is 0x8050000", GICCS),
    ("GiccDiffers 0x90 0x38 0x0", "its field maintenance, at 56, is 0x19", GICCS),
    ("GiccNoPpi 0x90 0x4e 0x0", "its field spe, at 78, is 0x0", GICCS),
    ("FurtherReserved 0x44 0x2 0x0", "its field flags, at 2, is 0x2", PARTS),
    ("FurtherReserved 0x54 0x2 0x0", "its field flags, at 2, is 0x4", PARTS),
    ("FurtherReserved 0x68 0x4 0x0", "its field reserved, at 4, is 0x100", PARTS),
    ("PicVersion 0x3b 0x2 0x3", ["  0x3b entry type 18 length 23: lio-pic base 0x0", "its field version, at 2, is 0x3"], PICS),
    ("PicVersion 0x52 0x2 0x4", ["  0x52 entry type 19 length 21: ht-pic base 0x0", "its field version, at 2, is 0x4"], PICS),
    ("PicVersion 0x67 0x2 0x5", ["  0x67 entry type 20 length 13: eio-pic node 0", "its field version, at 2, is 0x5"], PICS),
    ("PicVersion 0x74 0x2 0x6", ["  0x74 entry type 21 length 19: msi-pic base 0x0", "its field version, at 2, is 0x6"], PICS),
    ("PicVersion 0x87 0x2 0x7", ["  0x87 entry type 22 length 17: bio-pic base 0x0 gsi 0", "its field version, at 2, is 0x7"], PICS),
    ("PicVersion 0x98 0x2 0x8", ["  0x98 entry type 23 length 14: lpc-pic base 0x0", "its field version, at 2, is 0x8"], PICS),
    ("PicVersion 0xa6 0x2 0x9", ["  0xa6 entry type 24 length 36: rintc uid 0 hart 0 flags 0x0", "its field version, at 2, is 0x9"], PICS),
    ("PicVersion 0xca 0x2 0xa", ["  0xca entry type 25 length 16: imsic", "its field version, at 2, is 0xa"], PICS),
    ("PicVersion 0xda 0x2 0xb", ["  0xda entry type 26 length 36: aplic id 0 base 0x0 gsi 0", "its field version, at 2, is 0xb"], PICS),
    ("PicVersion 0xfe 0x2 0xc", ["  0xfe entry type 27 length 36: plic id 0 base 0x0 gsi 0", "its field version, at 2, is 0xc"], PICS),
]
# What is said where the image has nothing of the kind.
MISMATCHES = [
    ("BlockSpace 0x95 0x0 0x2", "at offset 0x95 (149) is no field with such a rule", OF_FULL),
    ("BlockUsualWidth 0xdd 0x0 0x2", "at offset 0xdd (221) is no field with such a rule", OF_FULL),
    ("FixedInReduced 0x94 0x0 0x2", "at offset 0x94 (148) is no field with such a rule", OF_FULL),
    ("FixedInReduced 0x32 0x0 0x2", "at offset 0x32 (50) is no register block", OF_FULL),
    ("GpePastEnd 0x5d 0x0 0x2", "at offset 0x5d (93) is no field with such a rule", OF_FULL),
    ("SleepNotReduced 0xf4 0x0 0x2", "at offset 0xf4 (244) is no field with such a rule", OF_FULL),
    ("DsdtText 0xa 0x0 0x0", "the FADT names no DSDT", OF_FULL),
    ("GiccDiffers 0x2c 0x28 0x0", "the MADT has no usable GICC of at least 60 bytes", PARTS),
    ("CapableNoGicr 0x2c 0xc 0x0", "the MADT has no GIC distributor of 24 bytes", PICS),
    ("HartInvalid 0x2d 0x8 0x0", "no structure begins there", NO_HART),
]
