"""Lines of advice on the MCFG, the HPET, the HMAT, the GTDT and the SPCR: each with what explain has to say of it, and its set. Both were
worked out by hand."""

from functools import partial

from acpi_images.tables import *
from sets import image_of

# A structure with values in units of 1,000, a cache that is direct mapped, frames of addresses and interrupts of their own, and watchdogs.
latency, cache = partial(speeds, unit=1000), partial(side_cache, attributes=0x401111)
gt_block = partial(timer_block, base=0x2A810000)
gt_frame = partial(timer_frame, base=0x2A820000, el0_base=0x2A830000, gsiv=92)
dog = partial(watchdog, refresh=0x2A440000, control=0x2A450000, gsiv=59)

# An MCFG with 4 bytes after its two entries, and one that ends before the first. The second entry has a wrong address.
ODD_LENGTH = image_of(mcfg(ecam(0xE0000000, last=15), ecam(0xE8080000, 1, 2, 3), bytes(4)))
NO_ENTRY = image_of(table(b"MCFG", bytes(4)))
REVERSED = image_of(mcfg(ecam(0xE0000000, first=8, last=7)))
WRAPPING = image_of(mcfg(ecam(0xFFFFFFFFFF000000, last=255)))
OF_REVISION_0 = image_of(mcfg(ecam(0x100000000), revision=0))
# The buses 64 to 127 of segment 3 twice; and ECAMs of which the later one begins lower, at bus 16 of its base.
BUSES = image_of(mcfg(ecam(0xC0000000, 3, 0, 127), ecam(0xE0000000, 3, 64, 255)))
ECAMS = image_of(mcfg(ecam(0xE2000000, 0, 0, 15), ecam(0xE0000000, 1, 16, 63)))
# The first entry has no address, the second one no bus, and the third one shares nothing.
NO_ECAMS = image_of(mcfg(ecam(0, 1), ecam(0xE0000000, 0, 2, 1), ecam(0xC0000000, 0, 0, 15)))
# The last byte of the second entry is missing.
CUT = image_of(mcfg(ecam(0xE0000000), ecam(0xC0000000))[:-1])

OF_MCFG = [
    (
        "McfgLength 0x4 0x5c 0x50",
        [
            "MCFG at 0x11000, in slot 1, Length 80", "its header at offset 0x0 (0), at 0x11000:",
            "Length is 80: 2 entries of 16 bytes from 44 on, and 4 bytes more; up to entry 3 it is 92",
        ],
        ODD_LENGTH,
    ),
    ("McfgLength 0x4 0x3c 0x28", "Length is 40: the entries begin at 44; up to entry 1 it is 60", NO_ENTRY),
    (
        "EcamAddress 0x3c 0x0 0xe8080000",
        [
            "the entry at offset 0x3c (60), at 0x1103c:", "  0x1103c  00 00 08 e8 00 00 00 00 01 00 02 03 00 00 00 00",
            "it has the base address 0xe8080000, the segment 1, the start bus 2, and the end bus 3",
        ],
        ODD_LENGTH,
    ),
    ("BusesReversed 0x2c 0xb 0x7", "it has the base address 0xe0000000, the segment 0, the start bus 8, and the end bus 7", REVERSED),
    (
        "EcamWraps 0x2c 0x0 0xffffffffff000000",
        ["the entry at offset 0x2c (44), at 0x1102c:", "bus 255 ends at 0x1000000000f000000, and at most 0x10000000000000000 is allowed"],
        WRAPPING,
    ),
    (
        "EcamTooHigh 0x2c 0x0 0x100000000",
        ["the entry at offset 0x2c (44), at 0x1102c:", "the MCFG's Revision is 0, and its OEMID is 41 41 41 41 41 41"], OF_REVISION_0,
    ),
    (
        "SameBus 0x2c 0x3c 0x340",
        [
            "the entry at offset 0x2c (44), at 0x1102c:",
            "it has the base address 0xc0000000, the segment 3, the start bus 0, and the end bus 127",
            "the other entry at offset 0x3c (60), at 0x1103c:",
            "it has the base address 0xe0000000, the segment 3, the start bus 64, and the end bus 255", "both have bus 64 of segment 3",
        ],
        BUSES,
    ),
    (
        "EcamOverlap 0x3c 0x2c 0xe2000000",
        [
            "the entry at offset 0x3c (60), at 0x1103c:", "the other entry at offset 0x2c (44), at 0x1102c:",
            "the ECAM of the entry is 0xe1000000 to 0xe3ffffff", "the ECAM of the other entry is 0xe2000000 to 0xe2ffffff",
            "both have the address 0xe2000000",
        ],
        ECAMS,
    ),
]

SHORT_HPET, PORT_HPET, ODD_HPET = image_of(table(b"HPET", bytes(19))), image_of(hpet(space=1)), image_of(hpet(0xFED00200))
OF_HPET = [
    (
        "HpetLength 0x4 0x38 0x37",
        ["HPET at 0x11000, in slot 1, Length 55", "its header at offset 0x0 (0), at 0x11000:", "Length is 55, and must be at least 56"],
        SHORT_HPET,
    ),
    (
        "HpetSpace 0x28 0x0 0x1",
        [
            "the base address at offset 0x28 (40), at 0x11028:", "  0x11028  01 00 00 00 00 00 d0 fe 00 00 00 00",
            "the base address has the address space 1, the bit width 0, the bit offset 0, and the address 0xfed00000",
        ],
        PORT_HPET,
    ),
    (
        "HpetAddress 0x2c 0x0 0xfed00200",
        "the base address has the address space 0, the bit width 0, the bit offset 0, and the address 0xfed00200", ODD_HPET,
    ),
]

PROXIMITY, LATENCY = "a memory proximity domain attributes structure (type 0)", "a latency and bandwidth structure (type 1)"
SHORT_HMAT, OF_REVISION_0_TOO = image_of(table(b"HMAT", bytes(3), 2)), image_of(hmat(revision=0))
# A length below that of a head, one that goes past the table's end, and fewer bytes than a head has.
LENGTH_7 = image_of(hmat(proximity(0, 3), placed(cache(0), _4=number(7, 4))))
LENGTH_33 = image_of(hmat(placed(cache(0), _4=number(33, 4))))
BYTES_7 = image_of(hmat(bytes(7)))
LONG_PROXIMITY = image_of(hmat(proximity(length=48)))
# Two targets of which one has no domain and no values; a structure that ends a byte before its fields do; a handle that is not there.
TARGETS_2 = image_of(hmat(placed(latency((0, 1), (0,), (10, 20)), _16=number(2, 4))))
BYTES_31 = image_of(hmat(placed(latency((), (), ())[:31], _4=number(31, 4))))
HANDLES_1 = image_of(hmat(placed(cache(0), _30=number(1, 2))))
OF_KIND_6, NO_UNIT = image_of(hmat(latency((0,), (0,), (10,), kind=6))), image_of(hmat(latency((0,), (0,), (10,), unit=0)))
LEVEL_5 = image_of(hmat(latency((0,), (0,), (10,), flags=5), revision=1))
# The fourth of six values, from the second initiator to the first target, is 2^32; a target twice.
VALUES, TWICE = image_of(hmat(latency((3, 4), (5, 6, 7), range(1, 7), unit=1 << 30))), image_of(hmat(latency((3,), (5, 5), (1, 2))))
# An SRAT with a processor, memory and a port in the domains 0 to 2, and after it an HMAT, whose structures begin at 0x12028.
DOMAINS = srat(apic_domain(0, 0), memory_of(1, 0, 1 << 30), device_domain(6, 2))
INITIATOR_7, TARGET_9, CACHE_2 = (
    image_of(DOMAINS, hmat(one)) for one in (proximity(7, 1), latency((0,), (9,), (1,)), cache(2))
)
ODD_CACHE = image_of(hmat(side_cache(0, 0x3421)))

OF_HMAT = [
    (
        "HmatHeader 0x4 0x28 0x27",
        ["HMAT at 0x11000, in slot 1, Length 39", "its header at offset 0x0 (0), at 0x11000:", "Length is 39, and must be at least 40"],
        SHORT_HMAT,
    ),
    (
        "HmatHeader 0x8 0x0 0x0",
        ["its Revision at offset 0x8 (8), at 0x11008:", "  0x11008  00", "Revision is 0, and must be 1 or 2"], OF_REVISION_0_TOO,
    ),
    (
        "HmatCut 0x50 0x7 0x70",
        [
            "the rest of the table at offset 0x50 (80), at 0x11050:", "  0x11050  02 00 00 00 07 00 00 00 00 00 00 00 00 00 00 00",
            "its length, at 4, is 7, but a structure has at least 8 bytes", "the structure before at offset 0x28 (40), at 0x11028:",
            f"it is {PROXIMITY}, of 40 bytes: Flags is 0x1, the domain of the initiator is 0, the domain of the memory is 3",
        ],
        LENGTH_7,
    ),
    ("HmatCut 0x28 0x21 0x48", "its length, at 4, is 33, but only 32 bytes are left in the table", LENGTH_33),
    ("HmatCut 0x28 0x0 0x2f", "7 bytes are left in the table, and a structure has at least 8", BYTES_7),
    ("HmatLength 0x28 0x28 0x30", "its length is 48, and must be 40", LONG_PROXIMITY),
    ("HmatLength 0x28 0x38 0x30", "its length is 48, and must be at least 32 + 4 * 2 + 4 * 2 + 2 * 2 * 2 = 56", TARGETS_2),
    ("HmatLength 0x28 0x20 0x1f", "its length is 31, and must be at least 32", BYTES_31),
    ("HmatLength 0x28 0x22 0x20", "its length is 32, and must be at least 32 + 2 * 1 = 34", HANDLES_1),
    (
        "HmatDataType 0x28 0x9 0x6",
        [
            "the structure at offset 0x28 (40), at 0x11028:", "  0x11048  00 00 00 00 00 00 00 00",
            f"..{LATENCY}, of 42 bytes: Flags is 0x0, Data Type is 6, the number of initiators is 1, the number of targets is 1,",
        ],
        OF_KIND_6,
    ),
    ("HmatHierarchy 0x28 0x8 0x5", ["..: Flags is 0x5, Data Type is 0,", "the HMAT's Revision is 1"], LEVEL_5),
    ("HmatUnit 0x28 0x18 0x0", "..the number of targets is 1, Entry Base Unit is 0\n", NO_UNIT),
    (
        "HmatTooLarge 0x62 0x0 0x4",
        [
            "the structure at offset 0x28 (40), at 0x11028:", "the value at offset 0x62 (98), at 0x11062:", "  0x11062  04 00",
            "..domain 4 to the target domain 5: 4 * 1073741824 is 4294967296, and at most 4294967295 is allowed",
        ],
        VALUES,
    ),
    (
        "HmatSameDomain 0x50 0x4c 0x5",
        ["target 0 at offset 0x4c (76), at 0x1104c:", "target 1 at offset 0x50 (80), at 0x11050:", "  0x11050  05 00 00 00"],
        TWICE,
    ),
    (
        "HmatProximity 0x28 0xc 0x7",
        [
            "HMAT at 0x12000, in slot 2, Length 80", "..the domain of the initiator is 7, the domain of the memory is 1",
            "the HMAT's Revision is 2", "the domains of the SRAT's structures are 0 to 2",
            "the domains of the SRAT's memory and generic ports are 1 to 2",
        ],
        INITIATOR_7,
    ),
    (
        "HmatDomainNowhere 0x4c 0x0 0x9",
        ["target 0 at offset 0x4c (76), at 0x1204c:", "its domain is 9", "the domains of the SRAT's structures are 0 to 2"], TARGET_9,
    ),
    (
        "HmatCacheNowhere 0x28 0x8 0x2",
        [
            "..of 32 bytes: the domain of the memory is 2, Cache Attributes is 0x401111, the number of SMBIOS handles is 0",
            "the domains of the SRAT's memory are 1",
        ],
        CACHE_2,
    ),
    (
        "HmatCache 0x28 0x18 0x3421",
        "of Cache Attributes the number of levels is 1, the level 2, the associativity 4, the write policy 3", ODD_CACHE,
    ),
    ("HmatAlone 0x0 0x0 0x0", ["HMAT at 0x11000, in slot 1, Length 40", "the slots list: FACP, HMAT"], OF_REVISION_0_TOO),
]

SHORT_GTDT, NO_TIMERS = image_of(gtdt(revision=2, length=80)), image_of(gtdt(_56=bytes(4), _64=bytes(4)))
GICCS = image_of(madt(gicc(0), gicc(1)))
# Interrupts that are not private to a processor, and those that are; a GTDT after a MADT is at 0x12000.
SHARED_TIMER = image_of(madt(gicd()), gtdt(_96=number(32, 4)))
PRIVATE_FRAME, NO_SPI = (image_of(madt(gicd()), gtdt(one)) for one in (gt_block(gt_frame(0, virtual_gsiv=31)), dog(gsiv=1024)))
SAME_TIMER = image_of(gtdt(_72=number(30, 4)))
# An offset within the fields; a second platform timer of 3 bytes; one of a type that is not known.
EARLY_TIMERS, BYTES_3 = image_of(gtdt(dog(), _92=number(80, 4))), image_of(gtdt(dog(), b"\1\3\0"))
KIND_2 = image_of(gtdt(b"\2\4\0\0"))
BLOCK_16, NO_FRAME = image_of(gtdt(gt_block(length=16)[:16])), image_of(gtdt(gt_block(count=1)))
SILENT_FRAME = image_of(gtdt(gt_block(gt_frame(3, gsiv=0))))
FRAMES = image_of(gtdt(gt_block(gt_frame(1), gt_frame(1, base=0x2A840000, el0_base=0x2A850000, gsiv=93, virtual_gsiv=94))))
BYTES_24, NO_CONTROL = image_of(gtdt(dog(length=24))), image_of(gtdt(dog(control=0)))
# The registers of the GT Block go on into those of its frame.
CONTROL = image_of(gtdt(gt_block(gt_frame(0), base=0x2A81F800)))

OF_GTDT = [
    (
        "GtdtLength 0x4 0x60 0x50",
        ["GTDT at 0x11000, in slot 1, Length 80", "Length is 80, and must be at least 96 for Revision 2"], SHORT_GTDT,
    ),
    (
        "NoGtdt 0x0 0x0 0x0",
        [
            "the MADT's GICCs:", "  0x2c entry type 11 length 80: gicc uid 0 flags 0x1 parking 0 base 0x0 gicr 0x0 mpidr 0x0",
            "the slots list: FACP, APIC",
        ],
        GICCS,
    ),
    (
        "NoTimer 0x38 0x0 0x0",
        [
            "the GSIV of the non-secure EL1 timer at offset 0x38 (56), at 0x11038:", "the GSIV of the non-secure EL1 timer is 0",
            "the GSIV of the virtual timer at offset 0x40 (64), at 0x11040:", "the GSIV of the virtual timer is 0",
        ],
        NO_TIMERS,
    ),
    (
        "TimerNoPpi 0x60 0x0 0x20",
        [
            "the GSIV of the virtual EL2 timer at offset 0x60 (96), at 0x12060:", "the GSIV of the virtual EL2 timer is 32",
            "the PPIs of a GIC are 16 to 31 and 1056 to 1119", "the MADT's GIC distributors:",
            "  0x2c entry type 12 length 24: gicd base 0x0 version 0",
        ],
        SHARED_TIMER,
    ),
    ("SameTimer 0x48 0x38 0x1e", ["the GSIV of the EL2 timer is 30", "the GSIV of the non-secure EL1 timer is 30"], SAME_TIMER),
    (
        "PlatformTimerCut 0x5c 0x0 0x50",
        [
            "Platform Timer Count and Platform Timer Offset at offset 0x58 (88), at 0x11058:", "  0x11058  01 00 00 00 50 00 00 00",
            "Platform Timer Count is 1, and Platform Timer Offset is 80", "the fields of Revision 3 end at 104",
        ],
        EARLY_TIMERS,
    ),
    (
        "PlatformTimerCut 0x84 0x3 0x87",
        [
            "the rest of the table at offset 0x84 (132), at 0x11084:", "its length, at 1, is 3, but a structure has at least 4 bytes",
            "the number of platform timers before it is 1", "the platform timer before at offset 0x68 (104), at 0x11068:",
            "it is a watchdog (type 1), of 28 bytes: RefreshFrame is 0x2a440000, WatchdogControlFrame is 0x2a450000, the GSIV is 59",
        ],
        BYTES_3,
    ),
    ("PlatformTimerCut 0x68 0x0 0x2", "it is of an unknown type (type 2), of 4 bytes", KIND_2),
    (
        "TimerBlock 0x68 0x14 0x10",
        [
            "it is a GT Block (type 0), of 16 bytes: CntCtlBase is 0x2a810000, GT Block Timer Count is 0",
            "its length is 16, and must be at least 20",
        ],
        BLOCK_16,
    ),
    ("TimerBlock 0x68 0x3c 0x14", "its length is 20, and 20 + 40 * 1 is 60", NO_FRAME),
    (
        "TimerFrame 0x7c 0x14 0x0",
        [
            "the frame at offset 0x7c (124), at 0x1107c:", "  0x1107c  03 00 00 00 00 00 82 2a 00 00 00 00 00 00 83 2a",
            "..the GT Block at 0x68 (104): GT Frame Number is 3, CntBase is 0x2a820000, CntEL0Base is 0x2a830000, the GSIV of the physical",
            "..the GSIV of the physical timer is 0, that of the virtual timer is 0, GTx Common Flags is 0x0\n",
        ],
        SILENT_FRAME,
    ),
    (
        "SameFrame 0xa4 0x7c 0x1",
        ["the frame at offset 0xa4 (164), at 0x110a4:", "the other frame at offset 0x7c (124), at 0x1107c:"], FRAMES,
    ),
    ("Watchdog 0x68 0x1c 0x18", ["..it is a watchdog (type 1), of 24 bytes", "its length is 24, and must be 28"], BYTES_24),
    ("Watchdog 0x68 0xc 0x0", "..WatchdogControlFrame is 0x0, the GSIV is 59\n", NO_CONTROL),
    (
        "TimerNoSpi 0x7c 0x1c 0x1f",
        [
            "the frame at offset 0x7c (124), at 0x1207c:", "..that of the virtual timer is 31",
            "the SPIs of a GIC are 32 to 1019 and 4096 to 5119", "  0x2c entry type 12 length 24: gicd base 0x0 version 0",
        ],
        PRIVATE_FRAME,
    ),
    ("TimerNoSpi 0x68 0x14 0x400", ["the platform timer at offset 0x68 (104), at 0x12068:", "..the GSIV is 1024\n"], NO_SPI),
    (
        "TimerOverlap 0x6c 0x80 0x2a820000",
        [
            "CntCtlBase of the GT Block at 0x68 (104) at offset 0x6c (108), at 0x1106c:", "its registers are at 0x2a81f800 to 0x2a8207ff",
            "CntBase of the frame at 0x7c (124) at offset 0x80 (128), at 0x11080:", "its registers are at 0x2a820000 to 0x2a820fff",
            "both have the address 0x2a820000",
        ],
        CONTROL,
    ),
]

SHORT_SPCR = image_of(spcr(4, length=87))
# A port in an unknown address space, and one in memory with accesses of 64 bits.
SPACE_2 = image_of(spcr(_40=generic_address(0x3F8, 2, 8, 0, 1)))
OF_64_BITS = image_of(spcr(_36=b"\3", _40=generic_address(0x9000000, 0, 32, 0, 4)))
SLOW, SLOW_4 = image_of(spcr(_58=b"\5")), image_of(spcr(4, _58=b"\1"))
# IRQ 8; the GSI 30, which the MADT's one I/O APIC, with 24 inputs, does not serve; with a GIC an 8259, and an interrupt of a processor.
IRQ_8 = image_of(spcr(_53=b"\10"))
GSI_30 = image_of(madt(io_apic(0xFEC00000, 0)), spcr(_54=number(30, 4)))
WITHOUT_GIC, OF_PROCESSOR = (
    image_of(madt(distributor(3, 0x8000000)), spcr(**fields)) for fields in ({"_52": b"\1\4\0\0\0\0"}, {"_52": b"\10\0" + number(31, 4)})
)
ONE_ID = image_of(spcr(_66=number(0x8086, 2)))
DEVICE_32, FUNCTION_8 = (image_of(spcr(_64=number(0x8086A13D, 4), **number_of)) for number_of in ({"_69": b"\x20"}, {"_70": b"\10"}))
SHORT_NAME, EARLY_NAME = image_of(spcr(4, _84=number(1, 2) + number(88, 2))), image_of(spcr(4, _86=number(87, 2)))
OPEN_NAME = image_of(spcr(4, _89=b"A"))
# A string of 72 bytes, whose last one is H.
LONG_NAME = image_of(spcr(4, 160, _84=number(72, 2) + number(88, 2), _88=b"A" * 71 + b"H"))

OF_SPCR = [
    (
        "SpcrLength 0x4 0x58 0x57",
        [
            "SPCR at 0x11000, in slot 1, Length 87", "its header at offset 0x0 (0), at 0x11000:",
            "Length is 87, and must be at least 88 for Revision 4",
        ],
        SHORT_SPCR,
    ),
    (
        "SpcrAddress 0x28 0x0 0x2",
        [
            "the base address has the address space 2, the bit width 8, the bit offset 0, and the address 0x3f8",
            "its access size is 1, and the interface type is 0x0",
        ],
        SPACE_2,
    ),
    (
        "SpcrAddress 0x2b 0x0 0x4",
        ["the base address at offset 0x28 (40), at 0x11028:", "its access size is 4, and the interface type is 0x3"], OF_64_BITS,
    ),
    ("SpcrBaud 0x3a 0x0 0x5", ["the baud rate at offset 0x3a (58), at 0x1103a:", "the baud rate is 5", "the SPCR's Revision is 2"], SLOW),
    ("SpcrBaud 0x3a 0x0 0x1", "the SPCR's Revision is 4, and the precise baud rate is 0", SLOW_4),
    (
        "SpcrGsi 0x35 0x0 0x8",
        ["the interrupt at offset 0x34 (52), at 0x11034:", "  0x11034  03 08 04 00 00 00", "the interrupt type is 0x3, IRQ is 8, GSI is 4"],
        IRQ_8,
    ),
    (
        "SpcrGsi 0x36 0x0 0x1e",
        [
            "the interrupt type is 0x3, IRQ is 4, GSI is 30", "the address at 44 is 0x3f8", "the MADT's I/O APICs:",
            "  0x2c ioapic id 0 address 0xfec00000 base 0", "  0x2c serves 0 to 23 (0x0 to 0x17), with 24 inputs",
        ],
        GSI_30,
    ),
    (
        "SpcrGsi 0x34 0x0 0x1",
        [
            "the interrupt type is 0x1, IRQ is 4, GSI is 0", "the address at 44 is 0x3f8", "the MADT's GIC distributors:",
            "  0x2c entry type 12 length 24: gicd base 0x8000000 version 3",
        ],
        WITHOUT_GIC,
    ),
    (
        "SpcrGsi 0x36 0x0 0x1f",
        [
            "the interrupt type is 0x8, IRQ is 0, GSI is 31", "  0x2c entry type 12 length 24: gicd base 0x8000000 version 3",
            "the SPIs of a GIC are 32 to 1019 and 4096 to 5119",
        ],
        OF_PROCESSOR,
    ),
    (
        "SpcrPci 0x40 0x0 0xffff",
        ["the PCI IDs at offset 0x40 (64), at 0x11040:", "the PCI device ID is 0xffff, the PCI vendor ID is 0x8086"], ONE_ID,
    ),
    (
        "SpcrPci 0x45 0x0 0x20",
        [
            "the PCI numbers at offset 0x44 (68), at 0x11044:",
            "the PCI bus number is 0, the PCI device number is 32, the PCI function number is 0",
        ],
        DEVICE_32,
    ),
    ("SpcrPci 0x46 0x0 0x8", "the PCI bus number is 0, the PCI device number is 0, the PCI function number is 8", FUNCTION_8),
    (
        "SpcrName 0x54 0x0 0x1",
        ["the string's length and offset at offset 0x54 (84), at 0x11054:", "NamespaceStringLength is 1, NamespaceStringOffset is 88"],
        SHORT_NAME,
    ),
    (
        "SpcrName 0x56 0x0 0x57",
        [
            "NamespaceStringLength is 2, NamespaceStringOffset is 87",
            "the string must be from byte 88 on, and end at 90, where the table ends, or before",
        ],
        EARLY_NAME,
    ),
    (
        "SpcrName 0x59 0x0 0x41",
        [
            "the namespace string at offset 0x58 (88), at 0x11058:", "  0x11058  2e 41",
            "its last byte, at 0x59 (89), is 0x41, and must be 0",
        ],
        OPEN_NAME,
    ),
    (
        "SpcrName 0x9f 0x0 0x48",
        [
            "NamespaceStringLength is 72, NamespaceStringOffset is 88", "the last 64 bytes of it at offset 0x60 (96), at 0x11060:",
            "its last byte, at 0x9f (159), is 0x48, and must be 0",
        ],
        LONG_NAME,
    ),
]

CASES = [*OF_MCFG, *OF_HPET, *OF_HMAT, *OF_GTDT, *OF_SPCR]

# What is said where the image has nothing of the kind.
MISMATCHES = [
    ("EcamAddress 0x34 0x0 0x0", "at offset 0x34 (52) no entry begins", ODD_LENGTH),
    ("EcamAddress 0x1c 0x0 0x0", "at offset 0x1c (28) no entry begins", ODD_LENGTH),
    ("SameBus 0x2c 0x4c 0x0", "at offset 0x4c (76) no entry begins", ODD_LENGTH),
    ("EcamAddress 0x3c 0x0 0x0", "at offset 0x3c (60) no entry begins", CUT),
    ("SameBus 0x2c 0x3c 0x200", "not both have bus 0 of segment 2", BUSES),
    ("SameBus 0x2c 0x3c 0x380", "not both have bus 128 of segment 3", BUSES),
    ("EcamOverlap 0x3c 0x2c 0xe3000000", "not both have the address 0xe3000000", ECAMS),
    ("EcamOverlap 0x2c 0x4c 0x0", "not both have the address 0x0", NO_ECAMS),
    ("HpetAddress 0x28 0x0 0x0", "at offset 0x28 (40) is no field with such a rule", ODD_HPET),
    ("HmatCut 0x28 0x0 0x28", "a structure begins there", LONG_PROXIMITY),
    ("HmatUnit 0x29 0x18 0x0", "at offset 0x29 (41) is no structure", NO_UNIT),
    ("HmatTooLarge 0x61 0x0 0x4", "at offset 0x61 (97) is no value of a structure", VALUES),
    ("HmatTooLarge 0x68 0x0 0x4", "at offset 0x68 (104) is no value of a structure", VALUES),
    ("HmatDomainNowhere 0x62 0x0 0x4", "at offset 0x62 (98) is no initiator or target", VALUES),
    ("HmatSameDomain 0x50 0x4e 0x5", "at offset 0x4e (78) is no initiator or target", TWICE),
    ("SameTimer 0x4c 0x38 0x1e", "at offset 0x4c (76) is no field with such a rule", SAME_TIMER),
    ("TimerFrame 0x7d 0x0 0x8", "at offset 0x7d (125) is no platform timer or frame", SILENT_FRAME),
    ("SameFrame 0xa4 0x90 0x1", "at offset 0x90 (144) is no platform timer or frame", FRAMES),
    ("Watchdog 0x6c 0x4 0x0", "at offset 0x6c (108) is no platform timer or frame", NO_CONTROL),
    ("TimerOverlap 0x6c 0x84 0x0", "at offset 0x84 (132) is no address of registers", CONTROL),
    ("TimerOverlap 0x6c 0x80 0x2a81f800", "not both have the address 0x2a81f800", CONTROL),
    ("NoGtdt 0x0 0x0 0x0", "no slot lists a table with the signature APIC", SAME_TIMER),
    ("SpcrBaud 0x3b 0x0 0x0", "at offset 0x3b (59) is no field with such a rule", SLOW),
    ("SpcrAddress 0x2c 0x0 0x0", "at offset 0x2c (44) is no field with such a rule", SPACE_2),
    ("SpcrName 0x58 0x0 0x0", "at offset 0x58 (88) is no field with such a rule", OPEN_NAME),
    ("SpcrGsi 0x34 0x0 0x3", "no slot lists a table with the signature APIC", IRQ_8),
]
# What is said of entries that have no ECAM.
WITHOUT_ECAM = ["the entry has no ECAM", "the other entry has no ECAM"], NO_ECAMS
