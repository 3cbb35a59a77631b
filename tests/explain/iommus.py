"""Lines of advice on the DMAR and the IVRS: each with what explain has to say of it, and its set. Both were worked out by hand."""

from acpi_images.tables import *
from sets import image_of

# The registers of a second and a third IOMMU.
SECOND_AT, THIRD_AT = REGISTERS_AT + 0x1000, REGISTERS_AT + 0x2000

SHORT_DMAR, WIDTH_10 = image_of(table(b"DMAR", bytes(11))), image_of(dmar(width=10))
# A length below that of a head, one that goes past the table's end, and fewer bytes than a head has.
LENGTH_3 = image_of(dmar(rhsa(), placed(drhd(), _2=number(3, 2))))
LENGTH_17, BYTES_2 = image_of(dmar(placed(drhd(), _2=number(17, 2)))), image_of(dmar(drhd(), bytes(2)))
BYTES_23, NO_IOMMU = image_of(dmar(rmrr(length=23))), image_of(dmar(rmrr(scope()), rhsa()))
# The same of device scopes: in a DRHD after another one, in an ATSR, and in an RMRR.
SCOPE_7 = image_of(dmar(drhd(scope(), placed(scope(), _1=b"\7"))))
SCOPE_10, SCOPE_OF_1 = image_of(dmar(atsr(placed(scope(), _1=b"\x0a")))), image_of(dmar(rmrr(b"\1")))
# A device scope of a type that there is not, one with half a step, and a second step to a device that there is not.
KIND_6, BYTES_9 = image_of(dmar(drhd(scope(6)))), image_of(dmar(sidp(scope(length=9))))
DEVICE_32 = image_of(dmar(satc(scope(steps=((2, 0), (32, 9))))))
ODD_BASE = image_of(dmar(drhd(base=0xFED90800)))
# The first IOMMU has registers of 8 KiB, and the second one begins within these.
OVERLAPPING = image_of(dmar(drhd(size=1), drhd(base=SECOND_AT)))
TWO_OF_ALL = image_of(dmar(atsr(flags=ALL_PORTS, segment=2), atsr(flags=ALL_PORTS, segment=2)))
AFTER_ALL = image_of(dmar(drhd(flags=INCLUDE_PCI_ALL), drhd(base=SECOND_AT)))
ODD_LIMIT, OF_NO_DEVICE = image_of(dmar(rmrr(limit=0x2000))), image_of(dmar(rmrr()))
NO_SUCH_IOMMU = image_of(dmar(drhd(), drhd(base=SECOND_AT), rhsa(THIRD_AT)))
MANY_IOMMUS = image_of(dmar(*(drhd(base=REGISTERS_AT + (place << 12)) for place in range(35)), rhsa(0x1000)))
# A DMAR after an SRAT or a MADT is at 0x12000.
DOMAIN_7 = image_of(srat(apic_domain(0, 0), device_domain(6, 2)), dmar(rhsa(domain=7)))
SAME_IOMMU = image_of(dmar(rhsa(), rhsa()))
OPEN_NAME, DEVICE = image_of(dmar(andd(name=b"\\_SB.DEV"))), image_of(dmar(andd()))
# A device scope of a third device of the namespace, and a second device without one.
DEVICE_3 = image_of(dmar(drhd(scope(NAMESPACE_DEVICE, 3)), andd(1), andd(2)))
DEVICE_2 = image_of(dmar(drhd(scope(NAMESPACE_DEVICE, 1)), andd(1), andd(2)))
IO_APIC_2 = image_of(madt(io_apic(0xFEC00000, 0, 2)), dmar(drhd(scope(SCOPE_IO_APIC, 1)), flags=1))
TWO_SCOPES = image_of(dmar(drhd(scope(SCOPE_IO_APIC, 2), scope(SCOPE_IO_APIC, 2))))

OF_DMAR = [
    (
        "DmarWidth 0x4 0x30 0x2f",
        ["DMAR at 0x11000, in slot 1, Length 47", "its header at offset 0x0 (0), at 0x11000:", "Length is 47, and must be at least 48"],
        SHORT_DMAR,
    ),
    (
        "DmarWidth 0x24 0x0 0xa",
        ["Host Address Width at offset 0x24 (36), at 0x11024:", "  0x11024  0a", "Host Address Width is 10, and must be 11 to 63"],
        WIDTH_10,
    ),
    (
        "DmarCut 0x44 0x3 0x54",
        [
            "the rest of the table at offset 0x44 (68), at 0x11044:", "  0x11044  00 00 03 00 00 00 00 00 00 00 d9 fe 00 00 00 00",
            "its length, at 2, is 3, but a structure has at least 4 bytes", "the structure before at offset 0x30 (48), at 0x11030:",
            "it is an RHSA (type 3), of 20 bytes: Register Base Address is 0xfed90000, Proximity Domain is 0",
        ],
        LENGTH_3,
    ),
    ("DmarCut 0x30 0x11 0x40", "its length, at 2, is 17, but only 16 bytes are left in the table", LENGTH_17),
    ("DmarCut 0x40 0x0 0x42", "2 bytes are left in the table, and a structure has at least 4", BYTES_2),
    (
        "DmarShort 0x30 0x18 0x17",
        [
            "the structure at offset 0x30 (48), at 0x11030:", "..it is an RMRR (type 1), of 23 bytes: Segment Number is 0,",
            "its length is 23, and must be at least 24",
        ],
        BYTES_23,
    ),
    ("NoDrhd 0x0 0x0 0x0", "the types of its structures: 1, 3; a DRHD would have the type 0", NO_IOMMU),
    ("NoDrhd 0x0 0x0 0x0", "the types of its structures: none; a DRHD would have the type 0", WIDTH_10),
    (
        "ScopeCut 0x48 0x7 0x50",
        [
            "the structure at offset 0x30 (48), at 0x11030:",
            "it is a DRHD (type 0), of 32 bytes: Flags is 0x0, Size is 0x0, Segment Number is 0, Register Base Address is 0xfed90000",
            "the rest of the structure at offset 0x48 (72), at 0x11048:", "  0x11048  01 07 00 00 00 00 02 00",
            "its length, at 1, is 7, but a device scope has at least 8 bytes", "the device scope before at offset 0x40 (64), at 0x11040:",
            "it is a device scope of an endpoint (type 1), of 8 bytes: Enumeration ID is 0, Start Bus Number is 0",
            "its path, as Device.Function, is 2.0",
        ],
        SCOPE_7,
    ),
    ("ScopeCut 0x38 0xa 0x40", "its length, at 1, is 10, but only 8 bytes are left in the structure", SCOPE_10),
    ("ScopeCut 0x48 0x0 0x49", "1 byte is left in the structure, and a device scope has at least 2", SCOPE_OF_1),
    (
        "ScopeType 0x40 0x0 0x6",
        [
            "the device scope at offset 0x40 (64), at 0x11040:", "  0x11040  06 08 00 00 00 00 02 00",
            "it is of an unknown type (type 6), of 8 bytes: Enumeration ID is 0, Start Bus Number is 0",
            "it is in a DRHD at offset 0x30 (48)",
        ],
        KIND_6,
    ),
    (
        "ScopeType 0x38 0x1 0x9",
        ["..it is a device scope of an endpoint (type 1), of 9 bytes: ", "it is in an SIDP at offset 0x30 (48)"], BYTES_9,
    ),
    (
        "ScopeType 0x40 0x0 0x20",
        [
            "the device scope at offset 0x38 (56), at 0x11038:", "its path, as Device.Function, is 2.0, 32.9",
            "step 1 of its path at offset 0x40 (64), at 0x11040:", "  0x11040  20 09",
            "its Device is 32, and its Function is 9: at most 31 and 7 are allowed",
        ],
        DEVICE_32,
    ),
    ("DrhdAddress 0x30 0x8 0xfed90800", "..Segment Number is 0, Register Base Address is 0xfed90800\n", ODD_BASE),
    (
        "DrhdOverlap 0x30 0x40 0xfed91000",
        [
            "the structure at offset 0x30 (48), at 0x11030:", "its registers are at 0xfed90000 to 0xfed91fff",
            "the structure at offset 0x40 (64), at 0x11040:", "its registers are at 0xfed91000 to 0xfed91fff",
            "both have the address 0xfed91000",
        ],
        OVERLAPPING,
    ),
    (
        "SecondIncludeAll 0x38 0x30 0x2",
        [
            "the structure at offset 0x38 (56), at 0x11038:", "the other structure at offset 0x30 (48), at 0x11030:",
            "it is an ATSR (type 2), of 8 bytes: Flags is 0x1, Segment Number is 2",
        ],
        TWO_OF_ALL,
    ),
    (
        "IncludeAllNotLast 0x40 0x30 0x0",
        [
            "the structure at offset 0x40 (64), at 0x11040:", "the other structure at offset 0x30 (48), at 0x11030:",
            "it is a DRHD (type 0), of 16 bytes: Flags is 0x1, Size is 0x0, Segment Number is 0, Register Base Address is 0xfed90000",
        ],
        AFTER_ALL,
    ),
    (
        "RmrrRange 0x30 0x10 0x2000",
        "..Reserved Memory Region Base Address is 0x1000, Reserved Memory Region Limit Address is 0x2000\n", ODD_LIMIT,
    ),
    ("RmrrNoDevice 0x30 0x20 0x18", "its length is 24, and with a device scope it is at least 24 + 8 = 32", OF_NO_DEVICE),
    (
        "RhsaNowhere 0x50 0x8 0xfed92000",
        [
            "it is an RHSA (type 3), of 20 bytes: Register Base Address is 0xfed92000, Proximity Domain is 0",
            "the DRHDs have the Register Base Addresses 0xfed90000, 0xfed91000",
        ],
        NO_SUCH_IOMMU,
    ),
    ("RhsaNowhere 0x260 0x8 0x1000", "..0xfedae000, 0xfedaf000, and 3 more\n", MANY_IOMMUS),
    (
        "RhsaDomain 0x30 0x10 0x7",
        ["DMAR at 0x12000, in slot 2, Length 68", "..Proximity Domain is 7\n", "the domains of the SRAT's structures are 0, 2"], DOMAIN_7,
    ),
    (
        "SameRhsa 0x44 0x30 0xfed90000",
        ["the structure at offset 0x44 (68), at 0x11044:", "the other structure at offset 0x30 (48), at 0x11030:"], SAME_IOMMU,
    ),
    (
        "AnddName 0x30 0x8 0x0",
        [
            "  0x11030  04 00 10 00 00 00 00 01 5c 5f 53 42 2e 44 45 56", "it is an ANDD (type 4), of 16 bytes: ACPI Device Number is 1",
            "none of its bytes from 8 to 15 is 0",
        ],
        OPEN_NAME,
    ),
    (
        "AnddNowhere 0x40 0x4 0x3",
        [
            "it is a device scope of a namespace device (type 5), of 8 bytes: Enumeration ID is 3, Start Bus Number is 0",
            "it is in a DRHD at offset 0x30 (48)", "the ANDDs have the ACPI Device Numbers 1 to 2",
        ],
        DEVICE_3,
    ),
    (
        "AnddNowhere 0x59 0x7 0x2",
        ["..ACPI Device Number is 2\n", "the device scopes of namespace devices in DRHDs have the Enumeration IDs 1"], DEVICE_2,
    ),
    (
        "IoApicUnmapped 0x2c 0x2 0x2",
        [
            "DMAR at 0x12000, in slot 2, Length 72", "its Flags, at 37, are 0x1",
            "the device scopes of I/O APICs in DRHDs have the Enumeration IDs 1", "APIC at 0x11000, in slot 1, Length 56",
            "the structure at offset 0x2c (44), at 0x1102c:", "  0x2c ioapic id 2 address 0xfec00000 base 0",
        ],
        IO_APIC_2,
    ),
    (
        "SameScope 0x48 0x40 0x2",
        [
            "the device scope at offset 0x48 (72), at 0x11048:", "the device scope at offset 0x40 (64), at 0x11040:",
            "it is a device scope of an I/O APIC (type 3), of 8 bytes: Enumeration ID is 2, Start Bus Number is 0",
        ],
        TWO_SCOPES,
    ),
]

SHORT_IVRS, NO_IVHD = image_of(table(b"IVRS", bytes(11))), image_of(ivrs(ivmd(IVMD_ONE), ivmd()))
# A length below that of a head, one that goes past the table's end, and fewer bytes than a head has.
LENGTH_2 = image_of(ivrs(ivmd(), placed(ivmd(), _2=number(2, 2))))
LENGTH_25, BYTES_3 = image_of(ivrs(placed(ivhd(), _2=number(25, 2)))), image_of(ivrs(ivhd(), bytes(3)))
BYTES_39 = image_of(ivrs(ivhd(kind=IVHD_11, length=39)))
ODD_REGISTERS = image_of(ivrs(ivhd(base=0xFED82000)))
TWICE_IN_11 = image_of(ivrs(ivhd(kind=IVHD_11, segment=3), ivhd(kind=IVHD_11, segment=3)))
OTHER_BASE = image_of(ivrs(ivhd(), ivhd(kind=IVHD_11, base=0xFEDC0000)))
# After an entry of 4 bytes one of a type without a length, one of 8 bytes in 4, and one of 22 bytes and more in 21.
OF_TYPE_80, IN_4_BYTES, IN_21_BYTES = (
    image_of(ivrs(ivhd(device_entry(), rest))) for rest in (b"\x80" + bytes(3), special()[:4], acpi_hid()[:21])
)
OF_TYPE_5, VARIETY_4 = image_of(ivrs(ivhd(device_entry(5)))), image_of(ivrs(ivhd(special(4, 7))))
FORMAT_3 = image_of(ivrs(ivhd(acpi_hid(uid_kind=3, uid=b"AB"), kind=IVHD_40)))
# A range from 8 on that ends at 7, after an entry that is not of it.
RANGE_TO_7 = image_of(ivrs(ivhd(device_entry(), device_entry(RANGE_START, 8), device_entry(RANGE_END, 7))))
# The I/O APICs 1, in IVHDs of two types, and 2, in one of these; an IVRS after a MADT is at 0x12000.
IO_APICS = ivhd(special(handle=1)), ivhd(special(handle=1), special(handle=2), special(VARIETY_HPET, 5), kind=IVHD_11)
IO_APIC_IN_ONE = image_of(madt(io_apic(0xFEC00000, 0, 2)), ivrs(*IO_APICS))
SAME_HPET = image_of(ivrs(ivhd(special(VARIETY_HPET), special(), special(VARIETY_HPET))))
BACKWARDS, WRAPPING = image_of(ivrs(ivmd(IVMD_RANGE, 9, 8))), image_of(ivrs(ivmd(start=0xFFFFFFFFFFFFF000, size=0x2000)))

OF_IVRS = [
    (
        "IvrsCut 0x4 0x30 0x2f",
        ["IVRS at 0x11000, in slot 1, Length 47", "its header at offset 0x0 (0), at 0x11000:", "Length is 47, and must be at least 48"],
        SHORT_IVRS,
    ),
    (
        "IvrsCut 0x50 0x2 0x70",
        [
            "the rest of the table at offset 0x50 (80), at 0x11050:", "  0x11050  20 01 02 00 00 00 00 00 00 00 00 00 00 00 00 00",
            "its length, at 2, is 2, but a block has at least 4 bytes", "the block before at offset 0x30 (48), at 0x11030:",
            "..(type 0x20), of 32 bytes: Flags is 0x1, DeviceID is 0x0, IVMD Start Address is 0x1000, IVMD Memory Block Length is 0x1000\n",
        ],
        LENGTH_2,
    ),
    ("IvrsCut 0x30 0x19 0x48", "its length, at 2, is 25, but only 24 bytes are left in the table", LENGTH_25),
    ("IvrsCut 0x48 0x0 0x4b", "3 bytes are left in the table, and a block has at least 4", BYTES_3),
    (
        "IvrsShort 0x30 0x28 0x27",
        [
            "the block at offset 0x30 (48), at 0x11030:",
            "it is an IVHD (type 0x11), of 39 bytes: DeviceID is 0x2, IOMMU Base Address is 0xfed80000, PCI Segment Group is 0",
            "its length is 39, and must be at least 40",
        ],
        BYTES_39,
    ),
    ("NoIvhd 0x0 0x0 0x0", "the types of its blocks: 0x20, 0x21; an IVHD would have the type 0x10, 0x11 or 0x40", NO_IVHD),
    ("IvhdAddress 0x30 0x8 0xfed82000", "..(type 0x10), of 24 bytes: DeviceID is 0x2, IOMMU Base Address is 0xfed82000,", ODD_REGISTERS),
    (
        "SameIvhd 0x58 0x30 0x2",
        [
            "the block at offset 0x58 (88), at 0x11058:", "the other block at offset 0x30 (48), at 0x11030:",
            "it is an IVHD (type 0x11), of 40 bytes: DeviceID is 0x2, IOMMU Base Address is 0xfed80000, PCI Segment Group is 3",
        ],
        TWICE_IN_11,
    ),
    (
        "IvhdDiffers 0x48 0x30 0xfedc0000",
        [
            "the block at offset 0x48 (72), at 0x11048:",
            "it is an IVHD (type 0x11), of 40 bytes: DeviceID is 0x2, IOMMU Base Address is 0xfedc0000, PCI Segment Group is 0",
            "the other block at offset 0x30 (48), at 0x11030:",
            "it is an IVHD (type 0x10), of 24 bytes: DeviceID is 0x2, IOMMU Base Address is 0xfed80000, PCI Segment Group is 0",
        ],
        OTHER_BASE,
    ),
    (
        "IvhdEntryCut 0x4c 0x0 0x50",
        [
            "the block at offset 0x30 (48), at 0x11030:", "the rest of the block at offset 0x4c (76), at 0x1104c:",
            "  0x1104c  80 00 00 00",
            "4 bytes are left in the block, and a device entry of the type there, 0x80, has no length",
            "the device entry before at offset 0x48 (72), at 0x11048:",
            "it is an entry of one device (type 0x2), of 4 bytes: DeviceID is 0x0",
        ],
        OF_TYPE_80,
    ),
    ("IvhdEntryCut 0x4c 0x8 0x50", "..and a device entry of the type there, 0x48, has 8 bytes\n", IN_4_BYTES),
    (
        "IvhdEntryCut 0x4c 0x0 0x61",
        "21 bytes are left in the block, and a device entry of the type there, 0xf0, has 22 bytes or more", IN_21_BYTES,
    ),
    (
        "IvhdEntryType 0x48 0x0 0x5",
        ["the device entry at offset 0x48 (72), at 0x11048:", "  0x11048  05 00 00 00", "it is of an unknown type (type 0x5), of 4 bytes"],
        OF_TYPE_5,
    ),
    (
        "IvhdEntryType 0x48 0x7 0x4",
        [
            "it is a special device (type 0x48), of 8 bytes: Handle is 7, Source Device ID is 0xa0, Variety is 4",
            "it is in an IVHD of type 0x10 at offset 0x30 (48)",
        ],
        VARIETY_4,
    ),
    (
        "IvhdEntryType 0x58 0x14 0x3",
        [
            "..(type 0xf0), of 24 bytes: DeviceID is 0x0, the first byte of Hardware ID is 0x41, UID Format is 3, UID Length is 2\n",
            "it is in an IVHD of type 0x40 at offset 0x30 (48)",
        ],
        FORMAT_3,
    ),
    (
        "IvhdRange 0x50 0x1 0x7",
        [
            "it is the end of a range (type 0x4), of 4 bytes: DeviceID is 0x7", "the device entry before at offset 0x4c (76), at 0x1104c:",
            "it is the start of a range (type 0x3), of 4 bytes: DeviceID is 0x8", "the next device entry: none",
        ],
        RANGE_TO_7,
    ),
    (
        "IoApicNotInIvrs 0x2c 0x2 0x2",
        [
            "IVRS at 0x12000, in slot 2, Length 144", "the special devices of Variety 1 in IVHDs of type 0x10 have the Handles 1",
            "the special devices of Variety 1 in IVHDs of type 0x11 have the Handles 1 to 2", "APIC at 0x11000, in slot 1, Length 56",
            "  0x2c ioapic id 2 address 0xfec00000 base 0",
        ],
        IO_APIC_IN_ONE,
    ),
    (
        "SameSpecial 0x58 0x48 0x0",
        [
            "the device entry at offset 0x58 (88), at 0x11058:", "the other device entry at offset 0x48 (72), at 0x11048:",
            "it is a special device (type 0x48), of 8 bytes: Handle is 0, Source Device ID is 0xa0, Variety is 2",
        ],
        SAME_HPET,
    ),
    (
        "IvmdRange 0x30 0x6 0x8",
        [
            "..(type 0x22), of 32 bytes: Flags is 0x1, DeviceID is 0x9, the last DeviceID is 0x8, IVMD Start Address is 0x1000, IVMD",
            "its memory ends before 0x2000, and at most 0x10000000000000000 is allowed",
        ],
        BACKWARDS,
    ),
    (
        "IvmdRange 0x30 0x10 0xfffffffffffff000",
        "its memory ends before 0x10000000000001000, and at most 0x10000000000000000 is allowed", WRAPPING,
    ),
]

CASES = [*OF_DMAR, *OF_IVRS]

# What is said where the image has nothing of the kind.
MISMATCHES = [
    ("DmarWidth 0x25 0x0 0x0", "at offset 0x25 (37) is no field with such a rule", WIDTH_10),
    ("DmarCut 0x30 0x0 0x40", "a structure begins there", ODD_BASE),
    ("DmarCut 0x34 0x0 0x40", "the structures end at offset 0x40 (64)", ODD_BASE),
    ("DmarCut 0x40 0x0 0x40", "the structures end at offset 0x40 (64)", ODD_BASE),
    ("NoDrhd 0x0 0x0 0x0", "the types of its structures: 0; a DRHD has the type 0", ODD_BASE),
    ("ScopeCut 0x30 0x0 0x40", "at offset 0x30 (48) is no device scope", KIND_6),
    ("ScopeCut 0x34 0x0 0x44", "at offset 0x34 (52) is no device scope", SAME_IOMMU),
    ("ScopeCut 0x40 0x0 0x48", "a device scope begins there", KIND_6),
    ("ScopeCut 0x48 0x0 0x48", "at offset 0x48 (72) is no device scope", KIND_6),
    ("ScopeType 0x30 0x0 0x6", "at offset 0x30 (48) is no device scope", KIND_6),
    ("ScopeType 0x42 0x0 0x6", "at offset 0x42 (66) is no device scope or step of a path", KIND_6),
    ("ScopeType 0x47 0x0 0x6", "at offset 0x47 (71) is no device scope or step of a path", KIND_6),
    ("ScopeType 0x40 0x1 0x9", "at offset 0x40 (64) is no device scope or step of a path", BYTES_9),
    ("DrhdAddress 0x34 0x8 0x0", "at offset 0x34 (52) is no structure", ODD_BASE),
    ("DrhdOverlap 0x30 0x34 0x0", "at offset 0x34 (52) is no DRHD", OVERLAPPING),
    ("DrhdOverlap 0x30 0x44 0x0", "at offset 0x44 (68) is no DRHD", SAME_IOMMU),
    ("DrhdOverlap 0x30 0x40 0xfed92000", "not both have the address 0xfed92000", OVERLAPPING),
    ("SameRhsa 0x44 0x31 0x0", "at offset 0x31 (49) is no structure", SAME_IOMMU),
    ("AnddName 0x30 0x8 0x0", "byte 16 of it is 0", DEVICE),
    ("AnddNowhere 0x31 0x7 0x0", "at offset 0x31 (49) is no structure", DEVICE),
    ("AnddNowhere 0x30 0x4 0x0", "at offset 0x30 (48) is no device scope", DEVICE),
    ("IoApicUnmapped 0x2d 0x2 0x2", "no structure begins there", IO_APIC_2),
    ("SameScope 0x48 0x46 0x2", "at offset 0x46 (70) is no device scope", TWO_SCOPES),
    ("IvrsCut 0x30 0x0 0x48", "a block begins there", ODD_REGISTERS),
    ("IvrsCut 0x34 0x0 0x48", "the blocks end at offset 0x48 (72)", ODD_REGISTERS),
    ("NoIvhd 0x0 0x0 0x0", "the types of its blocks: 0x10; an IVHD has the type 0x10, 0x11 or 0x40", ODD_REGISTERS),
    ("IvhdAddress 0x38 0x8 0x0", "at offset 0x38 (56) is no block", ODD_REGISTERS),
    ("SameIvhd 0x58 0x40 0x2", "at offset 0x40 (64) is no block", TWICE_IN_11),
    ("IvhdEntryCut 0x30 0x0 0x50", "at offset 0x30 (48) is no device entry", OF_TYPE_5),
    ("IvhdEntryCut 0x30 0x0 0x50", "at offset 0x30 (48) is no device entry", NO_IVHD),
    ("IvhdEntryCut 0x48 0x0 0x4c", "a device entry begins there", OF_TYPE_5),
    ("IvhdEntryCut 0x4a 0x0 0x4c", "the device entries end at offset 0x4c (76)", OF_TYPE_5),
    ("IvhdEntryType 0x49 0x0 0x5", "at offset 0x49 (73) is no device entry", OF_TYPE_5),
    ("IvhdRange 0x70 0x1 0x7", "at offset 0x70 (112) is no device entry", RANGE_TO_7),
    ("IoApicNotInIvrs 0x2c 0x2 0x2", "no IVHD has a special device of Variety 1", OF_TYPE_5),
    ("IoApicNotInIvrs 0x2d 0x2 0x2", "no structure begins there", IO_APIC_IN_ONE),
    ("SameSpecial 0x58 0x4c 0x0", "at offset 0x4c (76) is no device entry", SAME_HPET),
    ("IvmdRange 0x31 0x6 0x0", "at offset 0x31 (49) is no block", BACKWARDS),
]
