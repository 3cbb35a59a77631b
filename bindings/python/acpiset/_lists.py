"""The codes of faults and the rules of advice."""

# Written by scripts/lists.py from the crates and docs/FAULTS.md: change those, and run it again.

from enum import IntEnum
from typing import Dict


class Code(IntEnum):
    """The codes of faults. A number never changes its meaning; a later version may have more."""

    RsdpOut = 1  # the 20 bytes at the RSDP's address are not all in the image
    RsdpSignature = 2  # the RSDP does not begin with "RSD PTR "
    RsdpSum = 3  # the checksum of the RSDP's first 20 bytes is wrong
    RsdpTailOut = 4  # the RSDP has Revision 2 or more, and its 36 bytes are not all in the image
    RsdpLength = 5  # the RSDP's Length is below 36
    RsdpLongOut = 6  # the RSDP's Length bytes are not all in the image
    RsdpExtendedSum = 7  # the RSDP's extended checksum is wrong
    NoRoot = 8  # the RSDP gives the address of neither an XSDT nor an RSDT
    RootHeaderOut = 9  # the header of the XSDT or RSDT is not all in the image
    RootSignature = 10  # the XSDT or RSDT has another signature
    RootLength = 11  # the Length of the XSDT or RSDT is below 36
    RootOut = 12  # the XSDT or RSDT is not all in the image
    RootRagged = 13  # the XSDT or RSDT ends inside an entry
    RootSum = 14  # the checksum of the XSDT or RSDT is wrong
    TableHeaderOut = 15  # the header of a listed table is not all in the image
    TableLength = 16  # the Length of a listed table is below 36
    TableOut = 17  # a listed table is not all in the image
    TableSum = 18  # the checksum of a listed table is wrong
    NoFadt = 19  # no FADT is listed
    FadtShort = 20  # the FADT's Length is below 116
    PmEventLength = 21  # PM1_EVT_LEN is below 4
    PmControlLength = 22  # PM1_CNT_LEN is below 2
    PmTimerLength = 23  # PM_TMR_LEN is neither 0 nor 4
    GpeLength = 24  # the length of a GPE block is odd
    ResetRegister = 25  # RESET_REG is not one that ACPI 6.5, 4.8.3.6 allows
    NoFacs = 26  # the hardware is not reduced, and the FADT gives no address of a FACS
    FacsAlign = 27  # the FACS's address is no multiple of 64
    FacsHeaderOut = 28  # the FACS's first 8 bytes are not all in the image
    FacsSignature = 29  # the FACS does not begin with "FACS"
    FacsLength = 30  # the FACS's Length is below 64
    FacsOut = 31  # the FACS is not all in the image
    MadtShort = 32  # the MADT's Length is below 44
    MadtEntryCut = 33  # a structure of the MADT is cut off, or its length is below 2
    MadtEntryLength = 34  # a structure of the MADT does not have the length of its type
    OverrideBus = 35  # an Interrupt Source Override has a Bus other than 0
    ReservedInti = 36  # MPS INTI Flags have a reserved polarity or trigger mode
    SecondAddressOverride = 37  # there is a second Local APIC Address Override
    GsiPastEnd = 38  # an interrupt number of an I/O APIC is above 2^32 - 1
    GsiClash = 39  # two I/O APICs serve one interrupt number
    OverrideClash = 40  # two overrides give one source two interrupt numbers
    SratShort = 41  # the SRAT's Length is below 48
    SratEntryCut = 42  # a structure of the SRAT is cut off, or its length is below 2
    SratEntryLength = 43  # a structure of the SRAT does not have the length of its type
    RangePastEnd = 44  # an enabled memory range passes 2^64 - 1
    Overlap = 45  # two enabled memory ranges overlap
    SlitShort = 46  # the SLIT's Length is below 44
    SlitSize = 47  # the SLIT's Length does not fit its number of localities
    SlitDiagonal = 48  # the distance of a locality to itself is not 10
    SlitLow = 49  # a distance is below 10
    PpttEntryCut = 50  # a structure of the PPTT is cut off, or its length is below 2
    PpttEntryLength = 51  # a structure of the PPTT does not have the length of its type
    DanglingParent = 52  # a node's Parent is neither 0 nor the offset of a node
    DanglingResource = 53  # a node's private resource is no offset of a structure, or that of a node
    DanglingCache = 54  # a cache's Next Level of Cache is neither 0 nor the offset of a cache
    ParentCycle = 55  # the Parents of nodes form a cycle
    CacheCycle = 56  # the next levels of caches form a cycle
    TwoDomains = 57  # an enabled processor is in two proximity domains
    GsiNowhere = 58  # an override or NMI source has an interrupt number that no I/O APIC serves
    LeafUnknown = 59  # a leaf's ACPI Processor ID is no processor's UID in the MADT


class Rule(IntEnum):
    """The rules of advice. A set of tables may have a reason to break one, so no rule is a fault."""

    ListedTwice = 101  # an address is listed twice
    SecondTable = 102  # a second table of a kind is listed, of which only the first is read
    ListedApart = 103  # a DSDT or FACS is listed, which only the FADT should name
    FadtOfRevision = 104  # the FADT is too short for its Revision
    FacsDiffers = 105  # FIRMWARE_CTRL and X_FIRMWARE_CTRL differ
    DsdtDiffers = 106  # DSDT and X_DSDT differ
    BlockDiffers = 107  # the two fields of a register block give different I/O ports
    SciNowhere = 108  # no I/O APIC serves the interrupt number of SCI_INT
    SameUid = 109  # two usable processors have the same UID
    SameApicId = 110  # two usable processors have the same APIC ID, X2APIC ID or core ID
    IoApicAtZero = 111  # an I/O APIC has the address 0
    SameIoApicId = 112  # two I/O APICs have the same ID
    SameIoApicAddress = 113  # two I/O APICs have the same address
    NmiNowhere = 114  # a Local APIC NMI or Local x2APIC NMI names a UID that no processor has
    SecondGicd = 115  # there is a second GIC Distributor
    NoProcessor = 116  # no processor is usable
    TwoUidDomains = 117  # two affinities put the processor of one UID in two proximity domains
    AffinityNowhere = 118  # the SRAT has a processor that the MADT does not have
    NoDomain = 119  # a usable processor is not in the SRAT, which has affinities
    DomainPastSlit = 120  # a proximity domain of the SRAT is no locality of the SLIT
    SlitDiffers = 121  # the distance between two localities depends on the direction
    SameLeaf = 122  # two leaves of the PPTT have the same ACPI Processor ID
    CacheShape = 123  # a cache has no sets, or a line size that is no power of two
    SameCacheId = 124  # two caches have the same Cache ID
    NoLeaf = 125  # a usable processor has no leaf in the PPTT, which has nodes
    LeafNowhere = 126  # a leaf's ACPI Processor ID is no UID, and not all processors are of x86
    MadtUnread = 127  # a structure of the MADT of a type or length that is not read
    SratUnread = 128  # a structure of the SRAT of a type or length that is not read
    NullSlot = 129  # a slot of the root table is 0
    RsdtDiffers = 130  # the RSDT and the XSDT list different numbers of tables with a signature
    TablesOverlap = 131  # two structures, the RSDP or tables, share bytes of memory
    NoDsdt = 132  # the FADT names no DSDT
    DsdtWrong = 133  # the DSDT has another signature, a wrong Length or a wrong checksum
    NoPm1Block = 134  # PM1a_EVT_BLK or PM1a_CNT_BLK is missing
    BlockWidth = 135  # the length of a register block is not the width of its X_ structure
    HalfBlock = 136  # a register block has an address and no length, or a length and no address
    PortsOverlap = 137  # two register blocks share an I/O port
    PortPastEnd = 138  # a register is at an I/O port above 0xffff
    GpeOverlap = 139  # GPE1_BASE is an event number of the GPE0 block
    SmiHalf = 140  # SMI_CMD cannot switch between legacy mode and ACPI mode, or is 0 and its values are not
    SciZero = 141  # SCI_INT is 0
    ResetNowhere = 142  # the reset register is supported and has the address 0
    FadtForArch = 143  # the MADT is of Arm or RISC-V, and the FADT is not of reduced hardware or is too old
    SleepRegister = 144  # a sleep register of reduced hardware has no address, or not 8 bits from bit 0 on
    FadtReserved = 145  # a field of the FADT has a reserved value
    FacsReserved = 146  # a field of the FACS has a reserved value
    RsdpReserved = 147  # a field of the RSDP has a reserved value
    HeaderText = 148  # a text of a table's header has a byte that is not printable
    SecondOther = 149  # a second table of a kind is listed that should be listed once
    X2ApicBelow255 = 150  # a usable local x2APIC and a usable local APIC both have an ID below 255
    BroadcastId = 151  # a usable processor has the ID of a broadcast
    CapableTooEarly = 152  # a processor is Online Capable, which the FADT's version does not have
    EnabledAndCapable = 153  # a processor is both Enabled and Online Capable
    OverridePastIsa = 154  # an override is for an interrupt above 15 that is not SCI_INT
    TimerLevel = 155  # the override of ISA interrupt 0, the timer, is level-triggered
    TwoSourcesOneGsi = 156  # two ISA interrupts are overridden with one interrupt number
    LintNotOne = 157  # an NMI is connected to another input than LINT1
    NoIoApic = 158  # overrides or NMI sources are there, and no I/O APIC
    NoDistributor = 159  # there are GIC CPU interfaces, and no GIC Distributor
    NoRedistributor = 160  # the GIC has version 3 or 4, and no redistributor
    GicrTooSmall = 161  # the ranges of redistributors are too small for the usable processors
    GiccBaseDiffers = 162  # two GIC CPU interfaces of a GIC of version 1 or 2 have different base addresses
    SameMpidr = 163  # two usable processors have the same MPIDR
    MpidrReserved = 164  # a usable processor's MPIDR has a reserved bit set
    GicrEmpty = 165  # a range of redistributors has the length 0
    SameIts = 166  # two ITS have the same ID
    SameMsiFrame = 167  # two GIC MSI frames have the same ID
    GicOverlap = 168  # two structures of the GIC share an address
    RedistributorTwice = 169  # a processor names a redistributor, and ranges of redistributors are there
    NoBootMethod = 170  # there are several processors and neither PSCI nor a parking protocol
    SameHart = 171  # two usable harts have the same ID
    MadtReserved = 172  # a field of the MADT has a reserved value
    NoMemoryRange = 173  # an SRAT with affinities has no enabled memory range of a length above 0
    EmptyRange = 174  # an enabled memory range has the length 0
    InitiatorOff = 175  # a Generic Initiator is not enabled
    DomainPastRevision = 176  # a domain above 255 is in an SRAT of a Revision below 2
    ItsNowhere = 177  # the SRAT has an ITS that the MADT does not have
    SratReserved = 178  # a field of the SRAT has a reserved value
    RemoteAsLocal = 179  # the distance of a locality from another one is 10, that from itself
    LeafUnflagged = 180  # a processor that no node names as Parent is not marked as a leaf
    LeafAsParent = 181  # a leaf is the Parent of a node
    NoPackage = 182  # no node from a leaf to its root is a package
    CacheNumbers = 183  # a cache's size or associativity is 0, or its size is not sets * ways * line size
    PpttReserved = 184  # a field of the PPTT has a reserved value
    McfgLength = 185  # the MCFG's Length is not 44 plus 16 for each of one or more entries
    EcamAddress = 186  # an entry of the MCFG has a base address that is 0 or no multiple of 1 MiB
    BusesReversed = 187  # an entry of the MCFG has an end bus number below its start bus number
    EcamWraps = 188  # the address range of an entry of the MCFG ends above the highest address
    EcamTooHigh = 189  # the MCFG has Revision 0, and an entry's base address is not below 0xffffffff
    SameBus = 190  # two entries of the MCFG have the same bus of the same PCI segment
    EcamOverlap = 191  # the ECAMs of two entries of the MCFG share an address
    HpetLength = 192  # the HPET is shorter than 56 bytes
    HpetSpace = 193  # the HPET's base address is not in memory
    HpetAddress = 194  # the HPET's base address is 0, has its halves swapped, or is no multiple of 1024
    HmatHeader = 195  # the HMAT is shorter than 40 bytes, or its Revision is neither 1 nor 2
    HmatCut = 196  # after the last structure of the HMAT there are bytes that are not a structure
    HmatLength = 197  # a structure of the HMAT does not have the length of its type, or is too short for its lists
    HmatDataType = 198  # a latency and bandwidth structure of the HMAT has a reserved data type
    HmatHierarchy = 199  # a latency and bandwidth structure of the HMAT has a reserved memory hierarchy
    HmatUnit = 200  # a latency and bandwidth structure of the HMAT has the base unit 0
    HmatTooLarge = 201  # a latency or bandwidth of the HMAT does not fit into 32 bits
    HmatSameDomain = 202  # a latency and bandwidth structure of the HMAT lists an initiator or a target twice
    HmatProximity = 203  # a structure of the HMAT has an initiator or memory in a domain that the SRAT does not have
    HmatDomainNowhere = 204  # a latency and bandwidth structure of the HMAT has an initiator or a target in a domain that the SRAT does not have
    HmatCacheNowhere = 205  # a memory side cache of the HMAT is of a domain in which the SRAT has no memory
    HmatCache = 206  # a memory side cache of the HMAT has reserved attributes, or a level above its number of levels
    HmatAlone = 207  # there is an HMAT, and no SRAT is listed
    GtdtLength = 208  # the GTDT is too short for its Revision
    NoGtdt = 209  # the MADT has a GIC CPU interface, and no GTDT is listed
    NoTimer = 210  # the GTDT has neither the non-secure EL1 timer nor the virtual timer
    TimerNoPpi = 211  # the GTDT gives a timer of each processor an interrupt that is no PPI
    SameTimer = 212  # two timers of the GTDT have the same interrupt
    PlatformTimerCut = 213  # the GTDT has fewer platform timers than it says, or one of an unknown type
    TimerBlock = 214  # a GT Block of the GTDT does not have 1 to 8 frames that end with it
    TimerFrame = 215  # a frame of a GT Block of the GTDT has a number above 7, or is non-secure and has no address or no interrupt
    SameFrame = 216  # two frames of a GT Block of the GTDT have the same number
    Watchdog = 217  # a watchdog of the GTDT does not have 28 bytes, or one of its addresses is 0
    TimerNoSpi = 218  # the GTDT gives a platform timer an interrupt that is no SPI
    TimerOverlap = 219  # two ranges of registers of the GTDT's platform timers share an address
    DmarWidth = 240  # the DMAR is shorter than 48 bytes, or its Host Address Width is not 11 to 63
    DmarCut = 241  # after the last structure of the DMAR there are bytes that are not a structure
    DmarShort = 242  # a structure of the DMAR is shorter than the fields of its type
    NoDrhd = 243  # the DMAR has no DRHD
    ScopeCut = 244  # after the last device scope of a structure of the DMAR there are bytes that are not a device scope
    ScopeType = 245  # a device scope of the DMAR has an unknown type or an odd length, or a step of its path has a Device above 31 or a Function above 7
    DrhdAddress = 246  # a DRHD has a Register Base Address that is 0 or no multiple of 4096
    DrhdOverlap = 247  # the registers of two DRHDs share an address
    SecondIncludeAll = 248  # two DRHDs of one segment have INCLUDE_PCI_ALL set, or two ATSRs of one segment have ALL_PORTS set
    IncludeAllNotLast = 249  # a DRHD follows one of the same segment that has INCLUDE_PCI_ALL set, and does not have it set itself
    RmrrRange = 250  # the memory of an RMRR does not begin or end at a multiple of 4096, or its limit is not above its base
    RmrrNoDevice = 251  # an RMRR has no device scope
    RhsaNowhere = 252  # an RHSA has a Register Base Address that no DRHD has
    RhsaDomain = 253  # an RHSA is in a proximity domain that the SRAT does not have
    SameRhsa = 254  # two RHSAs have the same Register Base Address
    AnddName = 255  # the ACPI Object Name of an ANDD has no byte that is 0
    AnddNowhere = 256  # a device scope names an ANDD that the DMAR does not have, or no DRHD has a device scope of an ANDD
    IoApicUnmapped = 257  # interrupts are remapped, and an I/O APIC of the MADT is in no device scope of a DRHD
    SameScope = 258  # two device scopes of DRHDs are of the same I/O APIC
    IvrsCut = 259  # the IVRS is shorter than 48 bytes, or after its last block there are bytes that are not a block
    IvrsShort = 260  # a block of the IVRS is shorter than the fields of its type
    NoIvhd = 261  # the IVRS has no IVHD
    IvhdAddress = 262  # an IVHD has an IOMMU Base Address that is 0 or no multiple of 16384
    SameIvhd = 263  # two IVHDs of one type and one PCI Segment Group have the same DeviceID
    IvhdDiffers = 264  # two IVHDs have the same IOMMU Base Address, or the same PCI Segment Group and DeviceID, and not both
    IvhdEntryCut = 265  # after the last device entry of an IVHD there are bytes that are not a device entry
    IvhdEntryType = 266  # a device entry of the IVRS is of a type that its block does not have, or has a Variety, a Hardware ID or a UID that is reserved
    IvhdRange = 267  # a device entry of the IVRS starts a range that the next one does not end, or ends one that the one before does not start, or that starts at a higher DeviceID
    IoApicNotInIvrs = 268  # the IVHDs of one type have special devices that are I/O APICs, and an I/O APIC of the MADT is none of them
    SameSpecial = 269  # two special devices of one Variety, in IVHDs of one type, have the same Handle
    IvmdRange = 270  # an IVMD has reserved flags or none of a mapping, an empty range of memory or one that ends above the highest address, or a range of devices that ends below its start
    SpcrLength = 271  # the SPCR is too short for its Revision
    SpcrAddress = 272  # the SPCR's base address is neither in memory nor in I/O ports, or is in memory with an access size above 3 (32 bits)
    SpcrBaud = 273  # the SPCR's baud rate has a reserved value, and there is no precise baud rate
    SpcrGsi = 274  # the SPCR names an interrupt that its interrupt controller does not have, or another controller than the MADT's GIC
    SpcrPci = 275  # exactly one of the SPCR's PCI device ID and PCI vendor ID is 0xffff, or its PCI device or function number is too large
    SpcrName = 276  # the SPCR's namespace string is too short, does not lie within the table, or does not end with 0
    RsdpText = 279  # the OEMID of the RSDP has a byte that is not printable
    RootHeader = 280  # the root table has a Revision that is not 1, or a text of its header has a byte that is not printable
    DsdtText = 281  # a text of the DSDT's header has a byte that is not printable
    FadtPastRevision = 282  # the FADT is longer than one of its Revision, or has Revision 0
    ArmBootEarly = 283  # ARM_BOOT_ARCH is not 0 in a FADT older than 5.1, which does not have it
    FixedInReduced = 284  # the hardware is reduced, and SMI_CMD or a register block has an address
    SmiHandshake = 285  # SMI_CMD is there, and one of ACPI_ENABLE and ACPI_DISABLE is 0
    S4BiosDiffers = 286  # S4BIOS_REQ of the FADT and S4BIOS_F of the FACS do not agree
    GpePastEnd = 287  # a GPE block has events above 255, for which there are no methods
    BlockTooLong = 288  # a register block is longer than a generic address structure can describe
    BlockSpace = 289  # a register block is neither in memory nor in I/O ports
    BlockUsualWidth = 290  # a register block has another width than the usual one
    SleepNotReduced = 291  # a sleep register has an address, and the hardware is not reduced
    FadtForRiscv = 292  # the MADT is of RISC-V, and the FADT is older than 6.6
    GiccShort = 293  # a GIC CPU interface has fewer than the 76 bytes of ACPI 5.1
    GiccNoGicr = 294  # an enabled processor names no redistributor, and others do
    CapableNoGicr = 295  # a processor is Online Capable, and there is no range of redistributors
    GiccDiffers = 296  # the virtual interface, the maintenance interrupt or the mode of a usable processor is not that of the first one
    SameGicrBase = 297  # two enabled processors name the same redistributor
    ParkingVersion = 298  # a GIC CPU interface has a version of the parking protocol above 1
    GiccNoPpi = 299  # an interrupt of a processor's profiling or trace is not private to it
    PicVersion = 300  # a structure of LoongArch or RISC-V has a version that is not 1
    FurtherReserved = 301  # a structure of a GIC, of LoongArch or of RISC-V has a reserved value
    HartInvalid = 302  # a usable hart has an ID of all ones, which no hart has
    WakeupMailbox = 303  # a Multiprocessor Wakeup structure is not of the length of its version, or has a wrong version, reserved bytes or address
    LapicAtZero = 304  # a Local APIC Address Override has the address 0
    MadtRevision = 305  # the MADT has structures that its Revision does not have
    AffinityReserved = 306  # a structure of a GIC, of RISC-V, or of an initiator or a port has a reserved value
    DeviceHandle = 307  # a device handle is neither of ACPI nor of PCI
    ItsDomain = 308  # an ITS is in a proximity domain that nothing else is in
    PpttUnread = 309  # a structure of the PPTT of a type that is not read
    CacheIdZero = 310  # a cache has the Cache ID 0, and its flags say that the ID is valid
    SameCacheType = 311  # a node names two caches of one type, and neither is the Next Level of a cache that it names


# The stage of each code.
STAGE_OF: Dict[int, int] = {
    1: 1, 2: 1, 3: 1, 4: 1, 5: 1, 6: 1, 7: 1, 8: 2, 9: 2, 10: 2, 11: 2, 12: 2,
    13: 2, 14: 2, 15: 3, 16: 3, 17: 3, 18: 3, 19: 4, 20: 4, 21: 4, 22: 4, 23: 4, 24: 4,
    25: 4, 26: 5, 27: 5, 28: 5, 29: 5, 30: 5, 31: 5, 32: 6, 33: 6, 34: 6, 35: 6, 36: 6,
    37: 6, 38: 6, 39: 7, 40: 8, 41: 9, 42: 9, 43: 9, 44: 9, 45: 10, 46: 11, 47: 11, 48: 11,
    49: 11, 50: 12, 51: 12, 52: 13, 53: 13, 54: 13, 55: 14, 56: 15, 57: 16, 58: 17, 59: 18,
}

# The severity of each rule.
SEVERITY_OF: Dict[int, int] = {
    101: 3, 102: 3, 103: 3, 104: 3, 105: 3, 106: 3, 107: 3, 108: 3, 109: 3, 110: 3, 111: 3, 112: 3,
    113: 3, 114: 3, 115: 3, 116: 3, 117: 3, 118: 3, 119: 3, 120: 3, 121: 2, 122: 3, 123: 2, 124: 3,
    125: 3, 126: 3, 127: 1, 128: 1, 129: 2, 130: 3, 131: 3, 132: 3, 133: 3, 134: 3, 135: 3, 136: 3,
    137: 3, 138: 3, 139: 3, 140: 3, 141: 3, 142: 3, 143: 3, 144: 3, 145: 2, 146: 2, 147: 2, 148: 2,
    149: 2, 150: 3, 151: 3, 152: 3, 153: 2, 154: 3, 155: 3, 156: 3, 157: 2, 158: 2, 159: 3, 160: 3,
    161: 3, 162: 3, 163: 3, 164: 3, 165: 3, 166: 3, 167: 3, 168: 3, 169: 3, 170: 3, 171: 3, 172: 2,
    173: 3, 174: 3, 175: 3, 176: 3, 177: 3, 178: 2, 179: 3, 180: 3, 181: 2, 182: 3, 183: 2, 184: 2,
    185: 3, 186: 3, 187: 3, 188: 3, 189: 3, 190: 3, 191: 3, 192: 3, 193: 3, 194: 3, 195: 3, 196: 3,
    197: 3, 198: 2, 199: 2, 200: 3, 201: 2, 202: 2, 203: 3, 204: 3, 205: 3, 206: 2, 207: 3, 208: 3,
    209: 3, 210: 3, 211: 3, 212: 2, 213: 3, 214: 3, 215: 3, 216: 2, 217: 3, 218: 3, 219: 2, 240: 3,
    241: 3, 242: 3, 243: 3, 244: 3, 245: 3, 246: 3, 247: 3, 248: 3, 249: 2, 250: 3, 251: 3, 252: 3,
    253: 2, 254: 3, 255: 3, 256: 3, 257: 3, 258: 3, 259: 3, 260: 3, 261: 3, 262: 3, 263: 3, 264: 3,
    265: 3, 266: 2, 267: 3, 268: 3, 269: 3, 270: 3, 271: 3, 272: 3, 273: 3, 274: 3, 275: 2, 276: 3,
    279: 2, 280: 2, 281: 2, 282: 2, 283: 2, 284: 2, 285: 2, 286: 2, 287: 3, 288: 3, 289: 3, 290: 3,
    291: 2, 292: 3, 293: 3, 294: 3, 295: 3, 296: 3, 297: 3, 298: 2, 299: 3, 300: 2, 301: 2, 302: 3,
    303: 3, 304: 3, 305: 2, 306: 2, 307: 2, 308: 3, 309: 1, 310: 2, 311: 2,
}

# What each means and what to fix: lines of text, with an LF between any two.
TEXT_OF: Dict[int, str] = {
    1: (
        "The 20 bytes at the RSDP's address are not all in the image.\n"
        "Numbers: `at` is the RSDP's address.\n"
        "Fix: first make sure that the image is complete and the address right. Then check that the firmware writes an RSDP "
        "there."
    ),
    2: (
        "The first 8 bytes are not `RSD PTR ` (the last character is a space).\n"
        "Numbers: `at` is the RSDP's address.\n"
        "Fix: check the address; then write the signature."
    ),
    3: (
        "The first 20 bytes do not sum to 0 modulo 256.\n"
        "Numbers: `at` is the RSDP's address.\n"
        "Fix: set Checksum at 8 after all other fields of the first 20 bytes, and before Extended Checksum."
    ),
    4: (
        "Revision is 2 or more, but the 36 bytes are not all in the image.\n"
        "Numbers: `at` is the RSDP's address.\n"
        "Fix: first make sure that the image is complete. Then reserve and write all 36 bytes, or set Revision to 0 and provide "
        "an RSDT."
    ),
    5: (
        "Revision is 2 or more, and Length at 20 is below 36.\n"
        "Numbers: `at` is the RSDP's address.\n"
        "Fix: set Length to 36, then set Extended Checksum. Checksum at 8 does not cover Length."
    ),
    6: (
        "Revision is 2 or more and Length is at least 36, but not all Length bytes are in the image.\n"
        "Numbers: `at` is the RSDP's address.\n"
        "Fix: first make sure that the image is complete. Then set Length to 36, and Extended Checksum after it."
    ),
    7: (
        "Revision is 2 or more, Length is at least 36, the image holds the Length bytes, and they do not sum to 0 modulo 256.\n"
        "Numbers: `at` is the RSDP's address.\n"
        "Fix: set Extended Checksum at 32 after all other fields, Checksum at 8 included."
    ),
    8: (
        "The RSDP names neither an RSDT nor an XSDT. With a Revision below 2 only RsdtAddress counts.\n"
        "Numbers: `at` is the RSDP's address.\n"
        "Fix: write the address of the XSDT or RSDT. An XSDT needs an RSDP of Revision 2."
    ),
    9: (
        "The 36-byte header of the XSDT or RSDT is not all in the image.\n"
        "Numbers: `at` is the address of the XSDT or RSDT.\n"
        "Fix: first make sure that the image is complete: does it contain the memory at this address? Then check the address in "
        "the RSDP."
    ),
    10: (
        "The table at XsdtAddress does not begin with `XSDT`, or the one at RsdtAddress, if that is used, not with `RSDT`.\n"
        "Numbers: `at` is the address of the XSDT or RSDT.\n"
        "Fix: write each address into its own field: the RSDT's at 16, the XSDT's at 24."
    ),
    11: (
        "Length of the XSDT or RSDT is below 36, the size of its header.\n"
        "Numbers: `at` is the address of the XSDT or RSDT.\n"
        "Fix: set Length to 36 plus the number of slots times their width, then set Checksum."
    ),
    12: (
        "Length of the XSDT or RSDT is at least 36, but not all Length bytes are in the image.\n"
        "Numbers: `at` is the address of the XSDT or RSDT.\n"
        "Fix: first make sure that the image is complete. Then as for RootLength."
    ),
    13: (
        "Length is at least 36, but Length - 36 is not a multiple of the width of a slot (4 in an RSDT, 8 in an XSDT).\n"
        "Numbers: `at` is the address of the XSDT or RSDT.\n"
        "Fix: as for RootLength. An XSDT that was filled with an odd number of 4-byte slots has this fault too."
    ),
    14: (
        "Length is at least 36, the image holds the Length bytes of the XSDT or RSDT, and they do not sum to 0 modulo 256.\n"
        "Numbers: `at` is the address of the XSDT or RSDT.\n"
        "Fix: set Checksum at 9 after the last slot is written. Adding a slot changes the checksum."
    ),
    15: (
        "The table's 36-byte header is not all in the image.\n"
        "Numbers: `at` is the slot's number, `other` the table's address.\n"
        "Fix: first make sure that the image is complete: does it contain this table's memory? Then remove the slot, or write the "
        "table before the slot."
    ),
    16: (
        "The table's Length is below 36, the size of its header.\n"
        "Numbers: `at` is the slot's number, `other` the table's address.\n"
        "Fix: set Length to the size of the table, header included, then set Checksum."
    ),
    17: (
        "Length is at least 36, but not all Length bytes are in the image.\n"
        "Numbers: `at` is the slot's number, `other` the table's address.\n"
        "Fix: first make sure that the image is complete. Then correct Length."
    ),
    18: (
        "The table's Length is at least 36, the image holds its Length bytes, and they do not sum to 0 modulo 256.\n"
        "Numbers: `at` is the slot's number, `other` the table's address.\n"
        "Fix: set Checksum at 9 after every other byte, and again after each change at run time. If Length was changed by "
        "mistake, correct Length instead."
    ),
    19: (
        "No slot lists a table with the signature `FACP`.\n"
        "Numbers: all 0.\n"
        "Fix: list the FADT. Its signature is `FACP`, not `FADT`."
    ),
    20: (
        "The FADT's Length is below 116, so the table ends before the end of Flags at 112.\n"
        "Numbers: all 0.\n"
        "Fix: write the FADT at least up to and including Flags, and set Length. The FADT of ACPI 6.5 has 276 bytes."
    ),
    21: (
        "The hardware is not reduced, and PM1_EVT_LEN is below 4.\n"
        "Numbers: `at` is 0x58 (88), the field's offset.\n"
        "Fix: set PM1_EVT_LEN to 4, or set HW_REDUCED_ACPI if the machine has no such registers."
    ),
    22: (
        "The hardware is not reduced, and PM1_CNT_LEN is below 2.\n"
        "Numbers: `at` is 0x59 (89), the field's offset.\n"
        "Fix: set PM1_CNT_LEN to 2, or set HW_REDUCED_ACPI if the machine has no such registers."
    ),
    23: (
        "The hardware is not reduced, and PM_TMR_LEN is neither 0 nor 4.\n"
        "Numbers: `at` is 0x5b (91), the field's offset.\n"
        "Fix: set PM_TMR_LEN to 4 if there is a timer, else to 0."
    ),
    24: (
        "The hardware is not reduced, and the length of a GPE block is odd.\n"
        "Numbers: `at` is the field's offset: 0x5c (92) for GPE0_BLK_LEN, 0x5d (93) for GPE1_BLK_LEN. If both are odd, 0x5c is "
        "reported.\n"
        "Fix: set the length to twice the number of status bytes."
    ),
    25: (
        "RESET_REG_SUP is set and Length is at least 129, but RESET_REG has an address space above 2, a bit width other than 8, "
        "or a bit offset other than 0.\n"
        "Numbers: `at` is 0x74 (116), the field's offset.\n"
        "Fix: describe an 8-bit register in system memory, system I/O or PCI configuration space, or clear RESET_REG_SUP."
    ),
    26: (
        "The hardware is not reduced, and the FADT names no FACS: both FIRMWARE_CTRL and, if the table has it, X_FIRMWARE_CTRL "
        "are 0.\n"
        "Numbers: all 0.\n"
        "Fix: write the FACS's address into one of the two fields, or set HW_REDUCED_ACPI if the hardware is reduced."
    ),
    27: (
        "The FACS's address is not a multiple of 64.\n"
        "Numbers: `at` is the FACS's address.\n"
        "Fix: allocate the FACS at a multiple of 64."
    ),
    28: (
        "The first 8 bytes at the FACS's address are not all in the image.\n"
        "Numbers: `at` is the FACS's address.\n"
        "Fix: first make sure that the image is complete: the FACS is usually in other memory than the tables. Then check the "
        "address in the FADT: X_FIRMWARE_CTRL is used if the table has it and it is not 0, else FIRMWARE_CTRL."
    ),
    29: (
        "The first 4 bytes at the FACS's address are not `FACS`.\n"
        "Numbers: `at` is the FACS's address.\n"
        "Fix: as for FacsHeaderOut."
    ),
    30: (
        "The FACS's Length is below 64.\n"
        "Numbers: `at` is the FACS's address.\n"
        "Fix: set Length to 64. The FACS has no checksum."
    ),
    31: (
        "Length is at least 64, but not all Length bytes are in the image.\n"
        "Numbers: `at` is the FACS's address.\n"
        "Fix: first make sure that the image is complete. Then correct Length."
    ),
    32: (
        "The MADT's Length is below 44, so it ends within its fixed fields.\n"
        "Numbers: all 0.\n"
        "Fix: write all of the fixed part, 44 bytes, and set Length to its size and that of all structures."
    ),
    33: (
        "After the last structure there are bytes that are not a structure: a single byte, a length of 0 or 1, or a length that "
        "goes past the end of the table.\n"
        "Numbers: `at` is the offset of these bytes.\n"
        "Fix: correct the structure's length byte, or the table's Length. Often the structure before it is the wrong one: if its "
        "length byte is too small or too large, the walk continues in the wrong place."
    ),
    34: (
        "A structure of type 0 to 5, 9 or 10 does not have the length of its type (8, 12, 10, 8, 6, 12, 16, 12).\n"
        "Numbers: `at` is the structure's offset.\n"
        "Fix: set byte 1 to the length of the type, and give the structure that many bytes. If the type looks wrong too, the "
        "length byte of the structure before it may be the wrong one."
    ),
    35: (
        "Bus of an interrupt source override is not 0. 0 is the ISA bus, the only one that is defined (5.2.12.5).\n"
        "Numbers: `at` is the structure's offset.\n"
        "Fix: set Bus, byte 2 of the structure, to 0. Source is byte 3."
    ),
    36: (
        "The flags of an interrupt have the reserved value 10b as polarity, bits 1:0, or as trigger mode, bits 3:2. The structure "
        "is an interrupt source override, an NMI source, or an NMI of a local APIC or x2APIC.\n"
        "Numbers: `at` is the structure's offset.\n"
        "Fix: 00b means as the bus specifies; 01b is active high or edge-triggered, 11b active low or level-triggered."
    ),
    37: (
        "There is a second structure that overrides the address of the local APICs. One whose Length is not 12 is another fault, "
        "and does not count here.\n"
        "Numbers: `at` is its offset, `other` that of the first such structure.\n"
        "Fix: keep one."
    ),
    38: (
        "Global System Interrupt Base of an I/O APIC plus its number of inputs is more than 0x100000000, 2^32.\n"
        "Numbers: `at` is the structure's offset.\n"
        "Fix: correct the base. No ACPI table says how many inputs an I/O APIC has, and `acpiset` assumes 24. If the base is "
        "right, give it the real number, as `ADDRESS=COUNT` or with `--default-inputs`."
    ),
    39: (
        "Two I/O APICs serve the same interrupt number.\n"
        "Numbers: `at` and `other` are the offsets of their structures, `point` is the interrupt number. It is the lowest one "
        "that two serve. The structures are the first two that serve it, by base, then by offset.\n"
        "Fix: correct a Global System Interrupt Base: each I/O APIC begins where the one before it ends. If both are right, give "
        "`acpiset` the real numbers of inputs, as `ADDRESS=COUNT` or with `--default-inputs`."
    ),
    40: (
        "Two interrupt source overrides give different interrupt numbers for the same Source.\n"
        "Numbers: `at` is the offset of the later override, `other` that of the earlier one, `point` is the Source, an ISA "
        "interrupt.\n"
        "Fix: keep one override for each Source."
    ),
    41: (
        "The SRAT's Length is below 48, so it ends within its reserved bytes.\n"
        "Numbers: all 0.\n"
        "Fix: write the header and the 12 reserved bytes, 48 bytes in all, and set Length to their size and that of all "
        "structures."
    ),
    42: (
        "After the last structure there are bytes that are not a structure: a single byte, a length of 0 or 1, or a length that "
        "goes past the end of the table.\n"
        "Numbers: `at` is the offset of these bytes.\n"
        "Fix: correct the structure's length byte, or the table's Length. Often the structure before it is the wrong one: if its "
        "length byte is too small or too large, the walk continues in the wrong place."
    ),
    43: (
        "A structure of type 0, 1 or 2 does not have the length of its type (16, 40, 24).\n"
        "Numbers: `at` is the structure's offset.\n"
        "Fix: set byte 1 to the length of the type, and give the structure that many bytes, including the reserved ones at its "
        "end. If the type looks wrong too, the length byte of the structure before it may be the wrong one."
    ),
    44: (
        "An enabled memory range goes past the end of the address space: Base Address plus Length is more than 2^64.\n"
        "Numbers: `at` is the structure's offset.\n"
        "Fix: correct Base Address or Length. Length is a size in bytes, not the last address. In a structure that is not in use "
        "clear Enabled, bit 0 of its flags."
    ),
    45: (
        "Two enabled memory ranges overlap.\n"
        "Numbers: `at` and `other` are the offsets of their structures, `point` is an address in both ranges: the lowest address "
        "that two ranges cover. The structures are the first two that cover it, by base, then by offset.\n"
        "Fix: make each range begin where the one before it ends, and list no memory twice."
    ),
    46: (
        "The SLIT's Length is below 44, so it ends before the end of N.\n"
        "Numbers: all 0.\n"
        "Fix: write N and the N * N distances that follow it, and set Length to include them all."
    ),
    47: (
        "Length is not 44 + N * N.\n"
        "Numbers: `at` is 0x24 (36), the offset of N.\n"
        "Fix: correct N, or write all N rows of N bytes; then set Length. N has 8 bytes: check that the upper four are 0."
    ),
    48: (
        "The distance from a locality to itself is not 10.\n"
        "Numbers: `at` is the offset of the distance.\n"
        "Fix: write 10 (0x0a) at 44 + N * i + i for each i. If many are wrong, check that each row has N bytes."
    ),
    49: (
        "A distance is below 10. The values 0 to 9 are reserved.\n"
        "Numbers: `at` is the offset of the distance. A distance below 10 on the diagonal is a SlitDiagonal too, and that is "
        "reported.\n"
        "Fix: scale the distances so that 10 is local memory; 255 means that there is no connection."
    ),
    50: (
        "After the last structure there are bytes that are not a structure: a single byte, a length of 0 or 1, or a length that "
        "goes past the end of the table.\n"
        "Numbers: `at` is the offset of these bytes.\n"
        "Fix: correct the structure's length byte, or the table's Length. Often the structure before it is the wrong one: if its "
        "length byte is too small or too large, the walk continues in the wrong place."
    ),
    51: (
        "The length of a node, type 0, is not 20 plus 4 for each private resource, whose number is at 16; or that of a cache, "
        "type 1, is neither 24 nor 28.\n"
        "Numbers: `at` is the structure's offset.\n"
        "Fix: set byte 1 to the length. It is at most 255, so a node has at most 58 private resources. If the type looks wrong "
        "too, the length byte of the structure before it may be the wrong one."
    ),
    52: (
        "Parent of a node is not 0, and no node begins at it. A structure of type 0 with another Length than a node's is not a "
        "node.\n"
        "Numbers: `at` is the node's offset, `other` is the Parent.\n"
        "Fix: write the offset of the parent's structure from the table's start, or 0 in a top node. If a structure is added or "
        "removed, all offsets after it change."
    ),
    53: (
        "No structure begins at a private resource of a node, or a node does. 0 is not a valid offset either: a node without "
        "private resources has 0 as their number.\n"
        "Numbers: `at` is the node's offset, `other` the index of the private resource, from 0, `point` its value, an offset.\n"
        "Fix: write the offset of the cache's structure, or reduce the number of private resources and the structure's length."
    ),
    54: (
        "Next Level of Cache of a cache is not 0, and no cache begins at it. A structure of type 1 whose Length is not that of a "
        "cache is no cache.\n"
        "Numbers: `at` is the cache's offset, `other` is the Next Level of Cache.\n"
        "Fix: write the offset of the next level's structure from the table's start, or 0 in the last level."
    ),
    55: (
        "The Parents of a node, followed from one node to the next, form a cycle instead of ending at a top node.\n"
        "Numbers: `at` is the node's offset. The cycle is reached after `other` steps, and has `point` nodes. Of all nodes whose "
        "chain does not end, the one with the lowest offset is reported, with the smallest numbers of steps.\n"
        "Fix: follow the Parents from the node at `at`, and set that of the top node to 0. A node that names itself is a cycle of "
        "1."
    ),
    56: (
        "The Next Levels of a cache, followed from one cache to the next, form a cycle instead of ending.\n"
        "Numbers: as for ParentCycle, of caches.\n"
        "Fix: set Next Level of Cache to 0 in the last cache, the one nearest to memory."
    ),
    57: (
        "Two enabled structures of the SRAT assign one processor to different proximity domains, and this processor is enabled in "
        "the MADT.\n"
        "Numbers: `at` and `other` are the offsets of the structures in the SRAT, `other` the lower one; `point` is the "
        "processor's APIC ID or X2APIC ID.\n"
        "Fix: keep one structure for each processor. Types 0 and 2 describe the same processors: an APIC ID below 255 and the "
        "same X2APIC ID are one processor. Bits 31:8 of the domain in a structure of type 0 are at 9."
    ),
    58: (
        "An interrupt source override or an NMI source of the MADT uses an interrupt number that no I/O APIC serves, although the "
        "MADT has an I/O APIC.\n"
        "Numbers: `at` is the structure's offset in the MADT, `point` is the interrupt number.\n"
        "Fix: correct the number in the structure, or the I/O APIC's Global System Interrupt Base. If both are right, give "
        "`acpiset` the I/O APIC's number of inputs, as `ADDRESS=COUNT` or with `--default-inputs`."
    ),
    59: (
        "A node of the PPTT is a leaf with a valid ACPI Processor ID (bits 3 and 1 of its flags), and no processor of the MADT, "
        "enabled or not, has this UID.\n"
        "Numbers: `at` is the node's offset in the PPTT, `point` is the ACPI Processor ID.\n"
        "Fix: write the ACPI Processor UID of the processor's MADT structure into the node, not its APIC ID. Clear bit 3 in a "
        "node that is not a leaf."
    ),
    101: (
        "A slot holds the same address as an earlier slot. Slots that hold 0 are not compared.\n"
        "Numbers: `at` is the slot's number, from 0, `other` that of the first slot with this address, `point` is the address.\n"
        "Fix: remove the slot, and reduce Length by its width. Look for firmware code that installs its table each time it runs."
    ),
    102: (
        "A slot lists a FADT, MADT, SRAT, SLIT or PPTT, and an earlier slot lists a table with the same signature at another "
        "address (5.2). A table counts if its header, 36 bytes, is in the image.\n"
        "Numbers: `at` is the slot's number, `other` that of the first slot with this signature, `point` is the address in slot "
        "`at`.\n"
        "Fix: list one table of each kind. Code that replaces a table has to replace its slot instead of adding one."
    ),
    103: (
        "A slot lists a DSDT or a FACS. These two are not listed in the XSDT or RSDT: the FADT holds their addresses (5.2.9).\n"
        "Numbers: `at` is the slot's number, `point` is the address in it.\n"
        "Fix: remove the slot. If the FADT does not have the table's address, write it there."
    ),
    104: (
        "The FADT is shorter than the fields of its Revision: fewer than 244 bytes at Revision 3 or 4, 268 at 5, 276 from 6 on.\n"
        "Numbers: `at` is 0x4, the offset of Length, `other` is Length, `point` is the length that the Revision needs.\n"
        "Fix: write all fields of the Revision, with 0 in those that are not used, and set Length; or set the Revision to that of "
        "the fields."
    ),
    105: (
        "FIRMWARE_CTRL and X_FIRMWARE_CTRL exist, neither is 0, and they differ.\n"
        "Numbers: `at` is 0x24 (36), the offset of FIRMWARE_CTRL, `other` is FIRMWARE_CTRL, `point` is X_FIRMWARE_CTRL.\n"
        "Fix: write the address of the one FACS to both fields, or 0 to one of them. Only X_FIRMWARE_CTRL can hold an address of "
        "0x100000000 or above."
    ),
    106: (
        "DSDT and X_DSDT exist, neither is 0, and they differ.\n"
        "Numbers: `at` is 0x28 (40), the offset of DSDT, `other` is DSDT, `point` is X_DSDT.\n"
        "Fix: write the same address to both fields, or 0 to one of them. Code that moves or patches the DSDT has to update both."
    ),
    107: (
        "The hardware is not reduced, and a register block's 4-byte address and the address in its X_ structure both exist, "
        "neither is 0, and they differ. The X_ structure's address space is 1, system I/O.\n"
        "Numbers: `at` is the offset of the 4-byte address, `other` is this address, `point` is the address in the X_ structure, "
        "which is at 148 + 3 * (`at` - 56).\n"
        "Fix: write the same port to both, or 0 to one of them. The block's length byte, from 88 on, and the structure's bit "
        "width should agree too."
    ),
    108: (
        "The hardware is not reduced, the MADT has I/O APICs, and none of them serves the interrupt number of the SCI. That "
        "number is given by the first interrupt source override of bus 0 with SCI_INT as its Source (5.2.12.5); without one it is "
        "SCI_INT itself. Applies only if the MADT is well-formed.\n"
        "Numbers: `at` is 0x2e (46), the offset of SCI_INT in the FADT, `point` is the interrupt number.\n"
        "Fix: correct SCI_INT, the override, or an I/O APIC's Global System Interrupt Base. If all are right, give `acpiset` the "
        "I/O APIC's number of inputs, as `ADDRESS=COUNT` or with `--default-inputs`."
    ),
    109: (
        "A usable processor has the ACPI Processor UID of an earlier usable one.\n"
        "Numbers: `at` is the structure's offset, `other` that of the first usable one with this UID, `point` is the UID.\n"
        "Fix: give each processor a UID of its own, the one that `_UID` of its object returns."
    ),
    110: (
        "A usable processor has the APIC ID, X2APIC ID or core ID of an earlier usable one.\n"
        "Numbers: `at` is the structure's offset, `other` that of the first usable one with this ID, `point` is the ID.\n"
        "Fix: write the ID that the processor has. List each processor once, as a local APIC or as a local x2APIC, but not as "
        "both."
    ),
    111: (
        "The I/O APIC Address of an I/O APIC is 0 (5.2.12.3).\n"
        "Numbers: `at` is the structure's offset.\n"
        "Fix: write the address, or remove the structure if the machine does not have this I/O APIC."
    ),
    112: (
        "An I/O APIC has the I/O APIC ID of an earlier one (5.2.12.3).\n"
        "Numbers: `at` is the structure's offset, `other` that of the first I/O APIC with this ID, `point` is the ID.\n"
        "Fix: give each I/O APIC an ID of its own, and use it in the MADT, in the I/O APIC's ID register, and in DMAR or IVRS."
    ),
    113: (
        "An I/O APIC has the I/O APIC Address of an earlier one, other than 0 (5.2.12.3).\n"
        "Numbers: `at` is the structure's offset, `other` that of the first I/O APIC with this address, `point` is the address.\n"
        "Fix: write the second one's own address, or remove its structure."
    ),
    114: (
        "A Local APIC NMI (5.2.12.7) or Local x2APIC NMI (5.2.12.13) names a UID that no processor has, usable or not. 0xff in "
        "the first kind and 0xffffffff in the second mean all processors. Applies only if all processors are read and the MADT is "
        "well-formed.\n"
        "Numbers: `at` is the structure's offset, `point` is the UID.\n"
        "Fix: write the processor's UID, not its APIC ID, or the value for all processors. In type 10 that value has 4 bytes: "
        "0xff there is the UID 255."
    ),
    115: (
        "The MADT has a second GIC Distributor structure (5.2.12.15), type 12, of any length.\n"
        "Numbers: `at` is the structure's offset, `other` that of the first one.\n"
        "Fix: keep the structure of the distributor that the machine has. GIC MSI frames, redistributors and ITSs have types of "
        "their own: 13, 14 and 15."
    ),
    116: (
        "The MADT has no usable processor. Applies only if all processors are read and the MADT is well-formed.\n"
        "Numbers: all 0.\n"
        "Fix: write a structure for each processor, and set Enabled in its flags."
    ),
    117: (
        "Two affinities of types 3 and 7 assign the same ACPI Processor UID to different proximity domains (5.2.16.4). For "
        "processors with an APIC ID this is the fault TwoDomains.\n"
        "Numbers: `at` is the offset of the first affinity with this UID, `other` that of the one with another domain, `point` is "
        "the UID.\n"
        "Fix: keep one affinity for each UID."
    ),
    118: (
        "No processor of the MADT, usable or not, has the APIC ID or X2APIC ID that an affinity names, or the UID that an "
        "affinity of type 3 or 7 names. Applies only if all processors are read and the MADT is well-formed.\n"
        "Numbers: `at` is the affinity's offset, `point` is its APIC ID, X2APIC ID or UID.\n"
        "Fix: write the number that the processor has in the MADT: the APIC ID, X2APIC ID or core ID, not the UID; in an affinity "
        "of a GICC or an RINTC the UID, not the MPIDR or the hart ID. In an affinity for a processor that does not exist, clear "
        "Enabled."
    ),
    119: (
        "A usable processor of the MADT is named by no affinity, although the SRAT has affinities: neither by its APIC ID, X2APIC "
        "ID or core ID, nor, if it has none of these, by its UID. Applies only if all processors are read and the SRAT is "
        "well-formed.\n"
        "Numbers: `at` is the processor's offset in the MADT, `point` is its APIC ID, X2APIC ID or core ID, of a GICC or an RINTC "
        "its UID.\n"
        "Fix: write an affinity for each processor of the MADT, and set Enabled in it."
    ),
    120: (
        "The proximity domain of an affinity, of an ITS (type 4), of an enabled initiator or port (types 5 and 6), or of an "
        "enabled memory range of any length, is N or above, where N is the SLIT's number of localities (5.2.17).\n"
        "Numbers: `at` is the offset in the SRAT, `other` is N, `point` is the domain.\n"
        "Fix: number the domains from 0 without gaps, and give each a row and a column in the SLIT. Bits 31:8 of the domain in a "
        "structure of type 0 are at 9."
    ),
    121: (
        "The distance from locality i to locality j is not the distance from j to i.\n"
        "Numbers: `at` is the offset of the distance from i to j, with i below j, `other` that of the distance from j to i.\n"
        "Fix: write the same value to both cells, unless the two directions really differ. If many cells differ, check that each "
        "row has N bytes."
    ),
    122: (
        "A leaf has the ACPI Processor ID of an earlier leaf (5.2.30.1).\n"
        "Numbers: `at` is the leaf's offset, `other` that of the first leaf with this ID, `point` is the ID.\n"
        "Fix: write to each leaf the ACPI Processor UID of its own processor in the MADT."
    ),
    123: (
        "A cache's flags say that its Number of Sets is valid, bit 1, and it is 0; or that its Line Size is valid, bit 6, and it "
        "is not a power of two (5.2.30.2).\n"
        "Numbers: `at` is the cache's offset.\n"
        "Fix: write the number of sets and the line size in bytes, or clear the bit that says that the field is valid. Do not "
        "copy the fields of Arm's CCSIDR_EL1: they hold the number of sets minus 1, and the line size as a logarithm."
    ),
    124: (
        "The PPTT's Revision is 3 or more, and a cache with a valid Cache ID, bit 7 of its flags, has that of an earlier one "
        "(5.2.30.2).\n"
        "Numbers: `at` is the cache's offset, `other` that of the first cache with this Cache ID, `point` is the Cache ID.\n"
        "Fix: give each cache of the table a Cache ID of its own, across all levels. Nodes that share a cache have to refer to "
        "the same structure."
    ),
    125: (
        "A usable processor of the MADT has a UID that no leaf of the PPTT has, although the PPTT has nodes. Applies only if all "
        "processors are read and the PPTT is well-formed.\n"
        "Numbers: `at` is the processor's offset in the MADT, `point` is its UID.\n"
        "Fix: write a leaf for each processor of the MADT, with its ACPI Processor UID, and set bits 1 and 3 of the leaf's flags."
    ),
    126: (
        "The MADT has a processor of type 11, 17 or 24, and no processor, usable or not, has the ACPI Processor ID of a leaf as "
        "its UID. Applies only if all processors are read and the MADT is well-formed. For a MADT with types 0 to 5, 9 and 10 "
        "only, this is the fault LeafUnknown.\n"
        "Numbers: `at` is the leaf's offset, `point` is its ACPI Processor ID.\n"
        "Fix: write the ACPI Processor UID: of a GICC at 8, not its CPU Interface Number at 4 or its MPIDR at 68; of an RINTC at "
        "16, not its hart ID at 8; of a CORE PIC at 3, not its core ID at 7."
    ),
    127: (
        "The MADT has a structure of a type or length that is not read: of types 6 to 8, or from 28 on; or of another length than "
        "40 or more (type 11), 24 (12, 13), 16 (14, 25), 20 (15), 16 or 24 (16), 15 (17), 23 (18), 21 (19), 13 (20), 19 (21), 17 "
        "(22), 14 (23), 20 or more (24), or 36 (26, 27). `acpiset` uses only its type and length, and of type 16 the fields of "
        "WakeupMailbox.\n"
        "Numbers: `at` is the offset of the first one, `other` its type.\n"
        "Fix: nothing is known to be wrong. Check these structures by other means, such as `iasl -d`. `show` prints the offset, "
        "type and length of each, and `acpiset-explain` counts them for a `yes`."
    ),
    128: (
        "The SRAT has a structure that no stage and no rule looks at: one of type 8 or above, of type 3 of other than 18 bytes, 4 "
        "of other than 12, 5 or 6 of other than 32, or 7 of other than 20. `acpiset` uses only its type and length.\n"
        "Numbers: `at` is the offset of the first one, `other` its type.\n"
        "Fix: as for MadtUnread."
    ),
    129: (
        "A slot of the XSDT or RSDT holds 0.\n"
        "Numbers: `at` is the slot's number, from 0.\n"
        "Fix: remove the slot, and reduce Length by its width. If a table is missing, look for the code that should write its "
        "address."
    ),
    130: (
        "The XSDT and the RSDT do not list the same number of tables of each signature. The XSDT is complete, the RSDP also names "
        "an RSDT, and that one is complete. Slots of 0 do not count, nor slots with an address at which fewer than 4 bytes are in "
        "the image, nor slots of the XSDT with an address of 0x100000000 or above, which no RSDT can list.\n"
        "Numbers: `at` is 0x10 (16), the offset of RsdtAddress in the RSDP, `point` is the signature as a little-endian number: "
        "0x54545050 is `PPTT`. If several signatures differ, it is the lowest of these numbers.\n"
        "Fix: list the same tables in both, or write 0 to RsdtAddress. Code that adds or replaces a table has to change both."
    ),
    131: (
        "Two structures share bytes of memory. Compared are the RSDP; the XSDT or RSDT; the FACS, if it has none of the faults 27 "
        "to 31; the DSDT, if its signature is `DSDT`; and the listed tables, by slot. Each counts with all its bytes, if they are "
        "in the image; a table with a Length below 36 does not count. Of those that begin at the same address only the first in "
        "this order counts, with its length.\n"
        "Numbers: `at` and `other` are the addresses at which two such structures begin, the lower one first, `point` is the "
        "lowest address at which two of them overlap.\n"
        "Fix: give each table memory of its own. Code that makes a table longer in place has to check where the next one begins."
    ),
    132: (
        "The FADT names no DSDT: DSDT is 0, and X_DSDT does not exist or is 0.\n"
        "Numbers: `at` is 0x28 (40), the offset of DSDT.\n"
        "Fix: write the DSDT's address to X_DSDT, and also to DSDT if it is below 0x100000000. A machine without AML needs a DSDT "
        "too, of 36 bytes: the header alone."
    ),
    133: (
        "The FADT names a DSDT, and what is there has another signature, a Length below 36, or a wrong checksum (5.2.11.1). Its "
        "header, 36 bytes, is in the image; for the checksum all Length bytes are.\n"
        "Numbers: `at` is 0x28 (40), the offset of DSDT in the FADT, `point` is the DSDT's address.\n"
        "Fix: if the address is right, set the checksum after all changes to the AML. Otherwise correct the address."
    ),
    134: (
        "The hardware is not reduced, and PM1a_EVT_BLK or PM1a_CNT_BLK has no address, neither in its 4-byte field nor in its X_ "
        "structure.\n"
        "Numbers: `at` is the offset of the 4-byte field, 0x38 (56) or 0x40 (64).\n"
        "Fix: write the ports of the block. If the hardware does not have these registers, set HW_REDUCED_ACPI."
    ),
    135: (
        "The hardware is not reduced, and the length byte of a register block is not the bit width of its X_ structure. Neither "
        "address is 0, neither the width nor the length is 0, and the length is at most 31, since a width is one byte.\n"
        "Numbers: `at` is the offset of the 4-byte address, `other` is 8 times the length byte, `point` is the bit width.\n"
        "Fix: write 8 times the length to the bit width."
    ),
    136: (
        "The hardware is not reduced, and one of the register blocks PM2_CNT, PM_TMR, GPE0 and GPE1 has a length and no address, "
        "or an address and no length.\n"
        "Numbers: `at` is the offset of the 4-byte field, `other` is the length byte, `point` is the address, or 0 if there is "
        "none.\n"
        "Fix: write both, or 0 to both."
    ),
    137: (
        "The hardware is not reduced, and two register blocks in system I/O share a port. A block is at the address of its X_ "
        "structure or, if that is missing or 0, at its 4-byte address. It has as many ports as its length byte says. If the "
        "length byte is 0, a block at its X_ address has its bit width / 8 ports, rounded up, and one at its 4-byte address has "
        "none.\n"
        "Numbers: `at` and `other` are the offsets of the 4-byte fields of two such blocks, first the one that begins lower, and "
        "of two that begin together the one at the lower offset; `point` is the lowest port at which two blocks overlap.\n"
        "Fix: correct the addresses and lengths by the hardware's manual."
    ),
    138: (
        "A register in system I/O is at a port above 0xffff. Checked are the last port of each register block and SMI_CMD, unless "
        "the hardware is reduced, and RESET_REG in system I/O, if RESET_REG_SUP is set and Length is at least 129.\n"
        "Numbers: `at` is the offset of the block's 4-byte field, of SMI_CMD, 0x30 (48), or of RESET_REG, 0x74 (116), `other` is "
        "the number of bytes, `point` is the address.\n"
        "Fix: correct the address. A register in memory has the address space 0 in its X_ structure, and its 4-byte field is 0."
    ),
    139: (
        "The hardware is not reduced, there are two GPE blocks, and GPE1_BASE is below 4 * GPE0_BLK_LEN, the number of events of "
        "GPE0.\n"
        "Numbers: `at` is 0x5e (94), the offset of GPE1_BASE, `other` is 4 * GPE0_BLK_LEN, `point` is GPE1_BASE.\n"
        "Fix: write the number of GPE1's first event to GPE1_BASE, the one by which its `_Lxx` and `_Exx` methods are named."
    ),
    140: (
        "The hardware is not reduced, and SMI_CMD does not fit its commands. Either SMI_CMD is not 0, and ACPI_ENABLE and "
        "ACPI_DISABLE are the same; or SMI_CMD is 0, and a command is not.\n"
        "Numbers: `at` is 0x30 (48), the offset of SMI_CMD, `other` is the offset of ACPI_ENABLE, 0x34 (52), or of the first "
        "command that is not 0, `point` is SMI_CMD.\n"
        "Fix: write the port and the commands of the firmware's SMI handler. If there is none, write 0 to all six fields."
    ),
    141: (
        "The hardware is not reduced, and SCI_INT is 0.\n"
        "Numbers: `at` is 0x2e (46), the offset of SCI_INT.\n"
        "Fix: write the interrupt number of the SCI, which is 9 on most PCs. Hardware without an SCI has HW_REDUCED_ACPI set."
    ),
    142: (
        "RESET_REG_SUP is set, Length is at least 129, and the address in RESET_REG is 0.\n"
        "Numbers: `at` is 0x74 (116), the offset of RESET_REG.\n"
        "Fix: write the register's address, or clear RESET_REG_SUP."
    ),
    143: (
        "The MADT is of a machine of Arm or RISC-V, and the FADT does not fit it. With a structure of type 11 (GICC) or 24 "
        "(RINTC), of any length, HW_REDUCED_ACPI must be set; with one of type 11 the FADT must not be older than 5.1.\n"
        "Numbers: for HW_REDUCED_ACPI `at` is 0x70 (112), the offset of Flags. For the version `at` is 0x8, the offset of "
        "Revision, `other` is Revision, `point` is the minor version.\n"
        "Fix: set HW_REDUCED_ACPI, and write all fields of Revision 6 with its minor version."
    ),
    144: (
        "The hardware is reduced, and its sleep registers cannot be used. One of them has an address and a bit width other than 8 "
        "or a bit offset other than 0; or both exist, and only one has an address.\n"
        "Numbers: `at` is the register's offset, 0xf4 (244) or 0x100 (256). For a width or an offset `other` is the bit width, "
        "`point` is the bit offset; for a register without an address both are 0.\n"
        "Fix: write both registers with the bit width 8 and the bit offset 0. If the hardware has none, write 0 to all their "
        "fields."
    ),
    145: (
        "A field of the FADT has a reserved value. Byte 44 is above 1, Preferred_PM_Profile is above 8, byte 111 is not 0, a bit "
        "of Flags above bit 23 is set, or bits 22 and 23 both are.\n"
        "Numbers: `at` is the field's offset, `point` is its value.\n"
        "Fix: write 0 to reserved bytes and bits. If several fields look wrong, check that the fields are laid out without gaps."
    ),
    146: (
        "A field of the FACS has a reserved value. Version is above 2, a byte from 33 to 35 or from 40 to 63 is not 0, a bit of "
        "Flags above bit 1 is set, or a bit of OSPM Flags above bit 0. Applies only to a FACS without the faults 27 to 31.\n"
        "Numbers: `at` is the field's offset in the FACS, `point` is its value.\n"
        "Fix: clear the whole FACS before its fields are written, but not when the machine wakes: its waking vector is still "
        "needed."
    ),
    147: (
        "A field of the RSDP has a reserved value. Revision is neither 0 nor 2; or Revision is 2 or above, and Length is above 36 "
        "or a byte from 33 to 35 is not 0. Length is looked at if as many bytes as it says are in the image.\n"
        "Numbers: `at` is the field's offset in the RSDP, `point` is its value.\n"
        "Fix: write Revision 2, Length 36 and zeros to the reserved bytes; or Revision 0, for an RSDP of 20 bytes."
    ),
    148: (
        "A text in the header of a listed table has a byte that is not printable ASCII, 0x20 to 0x7e. Zeros at the end of a text "
        "are allowed. A table counts if its header, 36 bytes, is in the image.\n"
        "Numbers: `at` is the slot's number, `other` the offset of the text, `point` is the table's address.\n"
        "Fix: write the whole text, with blanks or zeros after its last letter. Other bytes there are often those of memory that "
        "was not cleared."
    ),
    149: (
        "A slot lists a table of a kind of which a set has at most one, and an earlier slot lists one with the same signature at "
        "another address. The kinds are BERT, BGRT, CCEL, CPEP, DBG2, DMAR, ECDT, EINJ, ERST, FPDT, GTDT, HEST, HMAT, IORT, IVRS, "
        "MCFG, MPST, MSCT, NFIT, PCCT, PDTT, PHAT, PMTT, PRMT, RASF, RAS2, SBST, SDEI, SDEV, SPCR, SVKL, TPM2, VIOT, WAET and "
        "WSMT. A table counts if its header, 36 bytes, is in the image.\n"
        "Numbers: `at` is the slot's number, `other` that of the first slot with this signature, `point` is the address in slot "
        "`at`.\n"
        "Fix: list one table of each kind, with all structures of both."
    ),
    150: (
        "A usable local x2APIC has an X2APIC ID below 255, beside a usable local APIC with another APIC ID than 255 (5.2.12.12).\n"
        "Numbers: `at` is the offset of the local x2APIC, `point` is its X2APIC ID.\n"
        "Fix: list processors with an ID below 255 as local APICs and only the others as local x2APICs; or list all as local "
        "x2APICs."
    ),
    151: (
        "A usable local APIC has the APIC ID 255, or a usable local x2APIC the X2APIC ID 0xffffffff (5.2.12.2, 5.2.12.12).\n"
        "Numbers: `at` is the structure's offset, `point` is the ID.\n"
        "Fix: write the processor's ID. In a structure for a processor that does not exist, clear Enabled and Online Capable."
    ),
    152: (
        "A processor is Online Capable and not Enabled, and the FADT's version does not have this flag: it is older than 6.3 for "
        "a local APIC or x2APIC, or older than 6.5 for a GICC (5.2.12.2, 5.2.12.12, 5.2.12.14).\n"
        "Numbers: `at` is the structure's offset, `other` is the FADT's Revision, `point` is its minor version.\n"
        "Fix: write the FADT of version 6.5, with all its fields; or clear Online Capable."
    ),
    153: (
        "A processor is both Enabled and Online Capable (5.2.12.2, 5.2.12.12, 5.2.12.14).\n"
        "Numbers: `at` is the structure's offset, `point` is its Flags.\n"
        "Fix: clear Online Capable where Enabled is set."
    ),
    154: (
        "An interrupt source override has a Source above 15 that is not SCI_INT (5.2.12.5). Applies if there is a FADT.\n"
        "Numbers: `at` is the override's offset, `other` is its Source, `point` is its Global System Interrupt.\n"
        "Fix: correct Source. The interrupts of other devices are described in AML, those of PCI devices in `_PRT`."
    ),
    155: (
        "The override of Source 0, the timer of the ISA bus, says that the interrupt is level-triggered (5.2.12.5).\n"
        "Numbers: `at` is the override's offset, `point` is its Flags.\n"
        "Fix: write 01b, edge-triggered, or 00b, as the bus has it."
    ),
    156: (
        "An override has the Global System Interrupt of an earlier one with another Source (5.2.12.5).\n"
        "Numbers: `at` is the override's offset, `other` that of the first one with this number and another Source, `point` is "
        "the number.\n"
        "Fix: write to each override the number of the input to which its interrupt is wired."
    ),
    157: (
        "The NMI of a local APIC or local x2APIC is wired to another input than LINT1 (5.2.12.7, 5.2.12.13).\n"
        "Numbers: `at` is the structure's offset, `point` is the LINT#.\n"
        "Fix: write 1, unless the hardware's manual says otherwise. On PCs LINT0 is the input for the interrupts of the 8259."
    ),
    158: (
        "A local APIC or local x2APIC is usable, the MADT has overrides or NMI sources, and it has no I/O APIC (5.2.12.3). There "
        "is no I/O SAPIC (type 6) either. Applies only if the MADT is well-formed.\n"
        "Numbers: all 0.\n"
        "Fix: write a structure for each I/O APIC. If the machine has none, remove the overrides and NMI sources."
    ),
    159: (
        "The MADT has a GICC (type 11) and no GIC Distributor (type 12), of any length (5.2.12.15). Applies only if the MADT is "
        "well-formed.\n"
        "Numbers: all 0.\n"
        "Fix: write a GICD with the distributor's address and the GIC's version."
    ),
    160: (
        "The GIC has version 3 or 4, and no redistributor is described (5.2.12.17). There is no structure of type 14, and no "
        "usable GICC has a GICR Base Address other than 0. Applies only if the MADT is well-formed.\n"
        "Numbers: `at` is the GICD's offset, `other` is its version.\n"
        "Fix: write a GICR for each range of redistributors, or each redistributor's address to the processor's GICC."
    ),
    161: (
        "The GIC has version 3 or 4, and the GICRs have room for fewer redistributors than there are usable GICCs (5.2.12.17). "
        "Each redistributor takes 0x20000 bytes of one range. Applies only if the MADT is well-formed and all its structures of "
        "type 14 have 16 bytes.\n"
        "Numbers: `at` is the offset of the first GICR, `other` is the number of redistributors for which there is room, `point` "
        "that of usable GICCs.\n"
        "Fix: write the size of the range: 0x20000 bytes for each redistributor, or 0x40000 for each one of a GIC with direct "
        "injection of virtual LPIs (version 4)."
    ),
    162: (
        "The GIC has version 1 or 2, and a GICC has another Physical Base Address than the first GICC (5.2.12.14).\n"
        "Numbers: `at` is the offset of the GICC, `other` that of the first GICC, `point` is the address of the one at `at`.\n"
        "Fix: write the same address to all GICCs."
    ),
    163: (
        "A usable GICC has the MPIDR of an earlier usable one (5.2.12.14).\n"
        "Numbers: `at` is the structure's offset, `other` that of the first usable one with this MPIDR, `point` is the MPIDR.\n"
        "Fix: write to each GICC the MPIDR of its own processor."
    ),
    164: (
        "The MPIDR of a usable GICC has a bit set outside of 0xff00ffffff, its four affinity fields (5.2.12.14).\n"
        "Numbers: `at` is the structure's offset, `point` is the MPIDR.\n"
        "Fix: write the affinity fields alone: Aff3 in bits 39:32, Aff2 to Aff0 in bits 23:0. The register MPIDR_EL1 has further "
        "bits, such as bit 31, which is always 1."
    ),
    165: (
        "A GICR has a Discovery Range Length of 0 (5.2.12.17).\n"
        "Numbers: `at` is the structure's offset, `point` is the base address.\n"
        "Fix: write the size of the range, or remove the structure."
    ),
    166: (
        "An ITS has the GIC ITS ID of an earlier one (5.2.12.18).\n"
        "Numbers: `at` is the structure's offset, `other` that of the first one with this ID, `point` is the ID.\n"
        "Fix: give each ITS an ID of its own, and use it in the IORT and in the SRAT."
    ),
    167: (
        "An MSI frame has the GIC MSI Frame ID of an earlier one (5.2.12.16).\n"
        "Numbers: `at` is the structure's offset, `other` that of the first one with this ID, `point` is the ID.\n"
        "Fix: give each frame an ID of its own. If the two structures describe the same frame, remove one."
    ),
    168: (
        "Two structures of the GIC share an address (5.2.12.15). A GICR has as many bytes as its Discovery Range Length says, an "
        "ITS 0x20000, an MSI frame 0x1000, and a GICD 0x10000 if its version is 3 or 4 and 0x1000 otherwise.\n"
        "Numbers: `at` and `other` are the offsets of two such structures, first the one that begins lower, and of two that begin "
        "together the one at the lower offset; `point` is the lowest address at which two overlap.\n"
        "Fix: correct the addresses, and the length of the GICR, by the hardware's manual."
    ),
    169: (
        "There is a GICR, and a usable GICC also has a GICR Base Address other than 0 (5.2.12.14, 5.2.12.17).\n"
        "Numbers: `at` is the offset of the GICC, `other` that of the first GICR, `point` is the GICR Base Address.\n"
        "Fix: write 0 to GICR Base Address of all GICCs; or remove the GICRs, if each usable GICC has its address."
    ),
    170: (
        "More than one GICC is usable, and nothing says how the other processors are started (5.2.12.14). ARM_BOOT_ARCH exists, "
        "its bit 0, PSCI_COMPLIANT, is clear, and the Parking Protocol Version is 0 in all usable GICCs. Applies only if the MADT "
        "is well-formed.\n"
        "Numbers: `at` is 0x81 (129), the offset of ARM_BOOT_ARCH in the FADT, `point` is ARM_BOOT_ARCH.\n"
        "Fix: set PSCI_COMPLIANT, and bit 1 if PSCI is called by HVC; or write the version and the address of the parking "
        "protocol to each GICC."
    ),
    171: (
        "A usable RINTC has the Hart ID of an earlier usable one. RINTC comes after ACPI 6.5.\n"
        "Numbers: `at` is the structure's offset, `other` that of the first usable one with this ID, `point` is the ID.\n"
        "Fix: write to each RINTC the ID of its own hart."
    ),
    172: (
        "A field of the MADT has a reserved value. It is a bit of the MADT's Flags above bit 0; a reserved byte or a reserved bit "
        "of the flags in a structure of types 0 to 5, 9 and 10; or, in a GICD, a byte from 16 to 19 that is not 0, or a version "
        "above 4.\n"
        "Numbers: for the MADT's Flags `at` is 0x28 (40), `point` is Flags. Otherwise `at` is the structure's offset, `other` the "
        "offset in it of the first field or byte that is wrong.\n"
        "Fix: write 0 to reserved bytes and bits."
    ),
    173: (
        "The SRAT has an affinity, and no enabled memory range with a Length above 0 (5.2.16.2). Applies only if the SRAT is "
        "well-formed.\n"
        "Numbers: all 0.\n"
        "Fix: write a memory range for each range of memory, and set Enabled in it."
    ),
    174: (
        "An enabled memory range has a Length of 0 (5.2.16.2).\n"
        "Numbers: `at` is the structure's offset, `point` is the Base Address.\n"
        "Fix: write the Length in bytes. In a structure that is not used, clear Enabled."
    ),
    175: (
        "A generic initiator (type 5, 32 bytes) is not enabled (5.2.16.6).\n"
        "Numbers: `at` is the structure's offset, `point` is its domain.\n"
        "Fix: remove the structure, or put it after all other structures of the SRAT."
    ),
    176: (
        "The SRAT's Revision is below 2, and an enabled structure of type 0 or 1 has a domain above 255 (5.2.16).\n"
        "Numbers: `at` is the structure's offset, `other` is the Revision, `point` is the domain.\n"
        "Fix: set Revision to 3; or clear the upper bytes, if they are not part of the domain."
    ),
    177: (
        "An ITS affinity of the SRAT names an ITS that the MADT does not have (5.2.16.5). Applies only if the MADT is well-formed "
        "and all its structures of type 15 have 20 bytes.\n"
        "Numbers: `at` is the structure's offset in the SRAT, `point` is its ITS ID.\n"
        "Fix: write the ID that the ITS has in the MADT."
    ),
    178: (
        "A field of the SRAT has a reserved value. The 4 bytes at 36 are not the number 1, or a structure of types 0 to 2 has a "
        "reserved byte that is not 0 or a reserved bit of its flags set.\n"
        "Numbers: for the number `at` is 0x24 (36), `point` is the number. Otherwise `at` is the structure's offset, `other` the "
        "offset in it of the first field or byte that is wrong.\n"
        "Fix: write 1 at 36, and 0 to reserved bytes and bits."
    ),
    179: (
        "The distance from one locality to another one is 10, which means the same locality (5.2.17).\n"
        "Numbers: `at` is the offset of the distance in the SLIT, `other` is i, `point` is j: it is the distance from i to j.\n"
        "Fix: write distances above 10 between different localities. If there is no distance between two localities, make them "
        "one proximity domain."
    ),
    180: (
        "The PPTT's Revision is 2 or above, and a node with a valid ACPI Processor ID is no node's Parent and is not marked as a "
        "leaf (5.2.30.1). Applies only if the PPTT is well-formed.\n"
        "Numbers: `at` is the node's offset, `point` is its ACPI Processor ID.\n"
        "Fix: set bit 3 in the flags of each node that is a processor."
    ),
    181: (
        "The PPTT's Revision is 2 or above, and a node that is marked as a leaf is the Parent of a node (5.2.30.1).\n"
        "Numbers: `at` is the leaf's offset, `other` that of the first node that names it as its Parent.\n"
        "Fix: clear bit 3 in a node that groups others, or correct Parent."
    ),
    182: (
        "The Parents of a leaf lead to a node whose Parent is 0, and neither the leaf nor any of these nodes is marked as a "
        "physical package (5.2.30.1). Parents that lead to no node (52) or in a circle (55) keep the rule.\n"
        "Numbers: `at` is the leaf's offset, `point` is its ACPI Processor ID.\n"
        "Fix: set bit 0 in the node of each package."
    ),
    183: (
        "The valid numbers of a cache contradict each other (5.2.30.2). Its Associativity is valid and 0, or its Size is valid "
        "and 0; or Size, Number of Sets, Associativity and Line Size are all valid, and Size is not the product of the others.\n"
        "Numbers: `at` is the cache's offset, `other` is its Size, `point` is Number of Sets * Associativity * Line Size, as "
        "these fields are.\n"
        "Fix: write the size in bytes, the number of sets and ways, and the line size in bytes; or clear the bit of a number that "
        "is not known."
    ),
    184: (
        "A field of a node or a cache has a reserved value. A reserved byte, 2 or 3, is not 0; or a reserved bit is set: above "
        "bit 4 in the flags of a node, above bit 7 in those of a cache, above bit 4 in the attributes of a cache.\n"
        "Numbers: `at` is the structure's offset, `other` the offset in it of the first field or byte that is wrong.\n"
        "Fix: write 0 to reserved bytes and bits."
    ),
    185: (
        "The MCFG's Length is not 44 plus 16 for each of one or more entries: there is no entry, or bytes are left over after the "
        "last one.\n"
        "Numbers: `at` is 0x4, the offset of Length, `other` is the next length above Length that is right, `point` is Length.\n"
        "Fix: set Length to 44 plus 16 times the number of entries."
    ),
    186: (
        "The base address of an entry of the MCFG is 0 or no multiple of 1 MiB.\n"
        "Numbers: `at` is the entry's offset, `point` is its base address.\n"
        "Fix: write the address to which the host bridge maps bus 0 of the segment."
    ),
    187: (
        "An entry of the MCFG has an end bus number below its start bus number.\n"
        "Numbers: `at` is the entry's offset, `other` is 0xb (11), the offset of the end bus number in it, `point` is the end bus "
        "number.\n"
        "Fix: write the entry's first bus to Start Bus Number, and its last one to End Bus Number."
    ),
    188: (
        "The address range of an entry of the MCFG ends above the highest address: its base address plus 1 MiB for each bus from "
        "0 to its end bus number is above 2^64.\n"
        "Numbers: `at` is the entry's offset, `point` is its base address.\n"
        "Fix: correct the base address or the end bus number."
    ),
    189: (
        "The MCFG's Revision is 0, and an entry's base address is 0xffffffff or above. Applies if OEMID does not begin with "
        "`SGI`.\n"
        "Numbers: `at` is the entry's offset, `point` is its base address.\n"
        "Fix: write Revision 1, or an address below 4 GiB."
    ),
    190: (
        "Two entries of the MCFG have the same bus of the same segment. An entry whose end bus number is below its start bus "
        "number has no bus.\n"
        "Numbers: `at` and `other` are the offsets of two such entries, first the one whose buses begin lower, and of two that "
        "begin together the one at the lower offset; `point` is 256 * segment + bus of the lowest bus that two have.\n"
        "Fix: give each bus of a segment to one entry."
    ),
    191: (
        "The ECAMs of two entries of the MCFG share an address.\n"
        "Numbers: `at` and `other` are the offsets of two such entries, first the one whose ECAM begins lower, and of two that "
        "begin together the one at the lower offset; `point` is the lowest address at which two overlap.\n"
        "Fix: write to each entry the address to which the host bridge maps bus 0 of its segment."
    ),
    192: (
        "The HPET's Length is below 56.\n"
        "Numbers: `at` is 0x4, the offset of Length, `other` is 0x38 (56), `point` is Length.\n"
        "Fix: write all fields, and set Length to 56."
    ),
    193: (
        "The HPET's base address is not in memory: its address space is not 0.\n"
        "Numbers: `at` is 0x28 (40), the offset of the address space, `point` is the address space.\n"
        "Fix: write the address space 0, since the registers are in memory."
    ),
    194: (
        "The HPET's base address is 0; or 0xfed0000000000000, which is 0xfed00000 with its halves swapped; or no multiple of "
        "1024, the size of its registers.\n"
        "Numbers: `at` is 0x2c (44), the offset of the base address, `point` is the base address.\n"
        "Fix: write the address to which the chipset maps the registers, 0xfed00000 on most PCs."
    ),
    195: (
        "The HMAT's Length is below 40, or its Revision is neither 1 nor 2.\n"
        "Numbers: `at` is the offset of the field, 0x4 of Length or 0x8 of Revision, `point` is the field; for Length `other` is "
        "0x28 (40).\n"
        "Fix: write Revision 2, with the structures that ACPI 6.3 and later define; set Length to the end of the last structure."
    ),
    196: (
        "After the last structure of the HMAT there are bytes that are not a structure: fewer than 8 bytes, a length below 8, or "
        "a length that goes past the end of the table.\n"
        "Numbers: `at` is the offset of these bytes, `other` is the length that they say, or 0 if they are fewer than 8, `point` "
        "is the HMAT's Length.\n"
        "Fix: correct the structure's length or the table's Length. Often the length of the structure before it is wrong."
    ),
    197: (
        "A structure of the HMAT has a wrong length: one of type 0 not 40, one of type 1 below 32 + 4 * I + 4 * T + 2 * I * T, or "
        "one of type 2 below 32 + 2 * H. I, T and H count only if the structure has 32 bytes.\n"
        "Numbers: `at` is the structure's offset, `other` is the length that it needs, at most 2^64 - 1, `point` is its length.\n"
        "Fix: correct the length, or the numbers of initiators, targets or handles."
    ),
    198: (
        "Data Type of a structure of type 1 is above 5.\n"
        "Numbers: `at` is the structure's offset, `other` is 0x9, the offset of Data Type in it, `point` is Data Type.\n"
        "Fix: write 0 to 2 for the latency of accesses, reads or writes, or 3 to 5 for their bandwidth."
    ),
    199: (
        "The memory hierarchy of a structure of type 1, bits 3:0 of Flags, is above 4 in an HMAT of Revision 1, or above 3 in any "
        "other.\n"
        "Numbers: `at` is the structure's offset, `other` is 0x8, the offset of Flags in it, `point` is Flags.\n"
        "Fix: write 0 for memory, or in Revision 2 the level, 1 to 3, of a memory side cache."
    ),
    200: (
        "Entry Base Unit of a structure of type 1 is 0.\n"
        "Numbers: `at` is the structure's offset, `other` is 0x18 (24), the offset of Entry Base Unit in it.\n"
        "Fix: write the unit of the values: of latencies in picoseconds, of bandwidths in MB/s."
    ),
    201: (
        "A value in the matrix of a structure of type 1, times Entry Base Unit, is above 2^32 - 1. 0xffff does not count: it says "
        "that the initiator cannot reach the target.\n"
        "Numbers: `at` is the offset of the value in the structure's matrix, `point` is the value.\n"
        "Fix: write a smaller unit or value: latencies are in picoseconds, bandwidths in MB/s."
    ),
    202: (
        "Two initiators of a structure of type 1 have the same domain, or two of its targets.\n"
        "Numbers: `at` is the offset of the domain in one of the structure's lists, `other` that of the first one in that list "
        "with the same value, `point` is the domain.\n"
        "Fix: list each domain once."
    ),
    203: (
        "A structure of type 0 has an initiator, bit 0 of Flags, in a domain that no structure of the SRAT has; or memory in a "
        "domain that none of type 1 or 6 has: in an HMAT of Revision 1 if bit 1 of Flags is set, in any other always.\n"
        "Numbers: `at` is the structure's offset in the HMAT, `other` is the offset in it of the domain, 0xc (12) of the "
        "initiator or 0x10 (16) of the memory, `point` is the domain.\n"
        "Fix: write domains of the SRAT, and describe all of them there."
    ),
    204: (
        "An initiator or a target of a structure of type 1 is in a domain that no structure of the SRAT has.\n"
        "Numbers: `at` is the offset of the domain in the structure's list, `point` is the domain.\n"
        "Fix: write domains of the SRAT, and describe all of them there."
    ),
    205: (
        "A structure of type 2 is of a domain that no memory affinity (type 1) of the SRAT has.\n"
        "Numbers: `at` is the structure's offset in the HMAT, `other` is 0x8, the offset of the domain in it, `point` is the "
        "domain.\n"
        "Fix: write the domain of the memory that the cache is for."
    ),
    206: (
        "Cache Attributes of a structure of type 2 have a number of levels, bits 3:0, above 3; a level, bits 7:4, above that "
        "number; or an associativity, bits 11:8, or a write policy, bits 15:12, above 2.\n"
        "Numbers: `at` is the structure's offset, `other` is 0x18 (24), the offset of Cache Attributes in it, `point` is Cache "
        "Attributes.\n"
        "Fix: write the attributes of the cache as 5.2.28.5 defines them."
    ),
    207: (
        "There is an HMAT, whatever its Length and Revision, and the XSDT or RSDT lists no SRAT. The header of an SRAT, 36 bytes, "
        "is enough.\n"
        "Numbers: all 0.\n"
        "Fix: list the SRAT that has the HMAT's domains."
    ),
    208: (
        "The GTDT's Length is below 80, or in Revision 2 below 96, or from Revision 3 on below 104.\n"
        "Numbers: `at` is 0x4, the offset of Length, `other` is the length that the Revision needs, `point` is Length.\n"
        "Fix: write all fields of the Revision, and set Length; or set the Revision to that of the fields."
    ),
    209: (
        "The MADT is well-formed and has a GICC, and the XSDT or RSDT lists no GTDT. The header of a GTDT, 36 bytes, is enough.\n"
        "Numbers: all 0.\n"
        "Fix: list a GTDT with the timers of the processors."
    ),
    210: (
        "The GSIVs of the non-secure EL1 timer and of the virtual timer are both 0.\n"
        "Numbers: `at` is 0x38 (56), the offset of the GSIV of the non-secure EL1 timer.\n"
        "Fix: write the interrupts of both timers: in most systems 30 and 27."
    ),
    211: (
        "The GSIV of a timer of each processor is not 0, and no PPI: neither 16 to 31 nor 1056 to 1119.\n"
        "Numbers: `at` is the offset of the timer's GSIV, `point` is the GSIV.\n"
        "Fix: write the interrupt ID of the PPI: for PPI n from 0 to 15 it is 16 + n, for extended PPI n 1056 + n."
    ),
    212: (
        "Two timers of each processor have the same GSIV, which is not 0. The secure EL1 timer is not compared.\n"
        "Numbers: `at` is the offset of the GSIV of a timer, `other` that of the first one with the same value, `point` is the "
        "GSIV.\n"
        "Fix: write to each timer its own interrupt."
    ),
    213: (
        "The Revision is at least 2, Platform Timer Count is not 0, and Platform Timer Offset is within the GTDT's fields; or a "
        "platform timer goes past the table's end or has a length below 4; or one has a type above 1.\n"
        "Numbers: `at` is the offset of Platform Timer Offset, 0x5c (92), or of the platform timer, `point` is that field or the "
        "type. For one that does not fit `other` is its length, 0 if it has none, `point` is the GTDT's Length.\n"
        "Fix: correct the count, the offset or the length. Often the length of the platform timer before it is wrong."
    ),
    214: (
        "A GT Block has fewer than 20 bytes; or its GT Block Timer Count is not 1 to 8, or GT Block Timer Offset is below 20; or "
        "both are right, and the length is not the offset plus 40 for each frame.\n"
        "Numbers: `at` is the structure's offset, `other` is the length that it needs, `point` is its length; or `other` is the "
        "offset in it of GT Block Timer Count, 0xc (12), or GT Block Timer Offset, 0x10 (16), `point` is that field.\n"
        "Fix: correct the field that is wrong. Mostly the offset is 20."
    ),
    215: (
        "GT Frame Number of a frame is above 7; or the frame is non-secure, bit 0 of its flags is clear, and its CntBase or the "
        "GSIV of its physical timer is 0.\n"
        "Numbers: `at` is the frame's offset, `other` is the offset in it of the field that is wrong, 0 of GT Frame Number, 0x4 "
        "of CntBase, 0x14 (20) of the physical timer's GSIV, `point` is the field.\n"
        "Fix: write the frame's number, address and interrupt; or leave the frame out."
    ),
    216: (
        "Two frames of a GT Block have the same GT Frame Number.\n"
        "Numbers: `at` is the frame's offset, `other` that of the first frame of the GT Block with this number, `point` is the "
        "number.\n"
        "Fix: write each frame's own number."
    ),
    217: (
        "A watchdog does not have 28 bytes; or its RefreshFrame or WatchdogControlFrame address is 0.\n"
        "Numbers: `at` is the structure's offset. For its length `other` is 0x1c (28), `point` is its length. For an address "
        "`other` is the offset of it in the structure, 0x4 of RefreshFrame or 0xc (12) of WatchdogControlFrame.\n"
        "Fix: write the length 28, and the addresses of both frames."
    ),
    218: (
        "A GSIV of a frame or a watchdog is not 0, and no SPI: neither 32 to 1019 nor 4096 to 5119.\n"
        "Numbers: `at` is the offset of the frame or the watchdog, `other` is the offset in it of the GSIV, 0x14 (20) of the "
        "frame's physical timer or of the watchdog, 0x1c (28) of the frame's virtual timer, `point` is the GSIV.\n"
        "Fix: write the interrupt ID of the SPI: for SPI n it is 32 + n, for extended SPI n 4096 + n."
    ),
    219: (
        "Two of these ranges of 4096 bytes share an address: those from the CntCtlBase of a GT Block, from the CntBase or "
        "CntEL0Base of a frame, and from the RefreshFrame or WatchdogControlFrame of a watchdog. An address of 0 or 2^64 - 1 has "
        "no range.\n"
        "Numbers: `at` and `other` are the offsets in the GTDT of the addresses of two such ranges, first that of the one that "
        "begins lower, and of two that begin together the lower offset; `point` is the lowest address at which two overlap.\n"
        "Fix: write the addresses of the registers."
    ),
    240: (
        "The DMAR's Length is below 48, or Host Address Width is below 11 or above 63.\n"
        "Numbers: `at` is the offset of the field, 0x4 of Length or 0x24 (36) of Host Address Width, `point` is the field; for "
        "Length `other` is 0x30 (48).\n"
        "Fix: write the number of bits of the machine's physical addresses less one, such as 38, 45 or 51."
    ),
    241: (
        "After the last structure of the DMAR there are bytes that are not a structure: fewer than 4 bytes, a length below 4, or "
        "a length that goes past the end of the table.\n"
        "Numbers: `at` is the offset of these bytes, `other` is the length that they say, or 0 if they are fewer than 4, `point` "
        "is the DMAR's Length.\n"
        "Fix: correct the structure's length or the table's Length. Often the length of the structure before it is wrong."
    ),
    242: (
        "A structure is too short for its type: a DRHD needs 16 bytes, an RMRR 24, an RHSA 20, an ANDD 9, and an ATSR, an SATC or "
        "an SIDP 8.\n"
        "Numbers: `at` is the structure's offset, `other` is the length that its type needs, `point` is its length.\n"
        "Fix: correct the length or the type."
    ),
    243: (
        "The DMAR has no DRHD.\n"
        "Numbers: all 0.\n"
        "Fix: write a DRHD for each unit of remapping hardware; or list no DMAR if the machine has none."
    ),
    244: (
        "After the last device scope of a structure there are bytes that are not a device scope: a single byte, a length below 8, "
        "or a length that goes past the end of the structure.\n"
        "Numbers: `at` is the offset of these bytes, `other` is the length that they say, or 0 if there is 1 byte, `point` is the "
        "offset at which the structure ends.\n"
        "Fix: correct the length of the device scope, which is 6 plus 2 for each step of its path, or that of the structure."
    ),
    245: (
        "The type of a device scope is 0 or above 5, or its length is odd; or a step of its path has a Device above 31 or a "
        "Function above 7.\n"
        "Numbers: `at` is the offset of the device scope or of the step, `other` is 0 for the scope's type or the step's Device, "
        "0x1 for the scope's length or the step's Function, `point` is that number.\n"
        "Fix: write the type of the device, and the steps that lead to it from Start Bus Number on."
    ),
    246: (
        "Register Base Address of a DRHD is 0, or no multiple of 4096.\n"
        "Numbers: `at` is the structure's offset, `other` is 0x8, the offset of Register Base Address in it, `point` is that "
        "address.\n"
        "Fix: write the address to which the chipset maps the registers of the unit; or leave the DRHD out if the unit is "
        "disabled."
    ),
    247: (
        "The registers of two DRHDs share an address. They have 4096 * 2^n bytes, where n is bits 3:0 of Size. There are none "
        "where Register Base Address is 0.\n"
        "Numbers: `at` and `other` are the offsets of two such structures, first the one whose registers begin lower, and of two "
        "that begin together the one at the lower offset; `point` is the lowest address at which two overlap.\n"
        "Fix: write to each DRHD the address and the size of its own registers."
    ),
    248: (
        "Two DRHDs of one segment have INCLUDE_PCI_ALL set; or two ATSRs of one segment have ALL_PORTS set.\n"
        "Numbers: `at` is the structure's offset, `other` that of the first one of its type with this flag and this segment, "
        "`point` is its Segment Number.\n"
        "Fix: set the flag in one of them, and list the devices or ports of the other one in device scopes."
    ),
    249: (
        "A DRHD without INCLUDE_PCI_ALL comes after one of the same segment that has it. The specification asks that this one is "
        "the last of its segment.\n"
        "Numbers: `at` is the structure's offset, `other` that of the first DRHD of its segment with INCLUDE_PCI_ALL, `point` is "
        "its Segment Number.\n"
        "Fix: move the DRHD with INCLUDE_PCI_ALL behind all others of its segment."
    ),
    250: (
        "The base address of an RMRR is no multiple of 4096; or bits 11:0 of its limit address are not all set; or its limit "
        "address is not above its base address.\n"
        "Numbers: `at` is the structure's offset, `other` is the offset in it of the address, 0x8 of Reserved Memory Region Base "
        "Address or 0x10 (16) of Reserved Memory Region Limit Address, `point` is that address.\n"
        "Fix: write the addresses of the first and the last byte of the region, in whole pages."
    ),
    251: (
        "An RMRR has 24 bytes, so it has no device scope.\n"
        "Numbers: `at` is the structure's offset, `other` is 0x20 (32), the least length with a device scope, `point` is its "
        "length.\n"
        "Fix: add the device scopes of the devices that use the region; or leave the RMRR out."
    ),
    252: (
        "No DRHD has the Register Base Address of an RHSA.\n"
        "Numbers: `at` is the structure's offset, `other` is 0x8, the offset of Register Base Address in it, `point` is that "
        "address.\n"
        "Fix: write the Register Base Address of the unit's DRHD; or leave the RHSA out if the unit has no DRHD."
    ),
    253: (
        "No structure of the SRAT has Proximity Domain of an RHSA. Applies if SratUnread finds nothing.\n"
        "Numbers: `at` is the structure's offset in the DMAR, `other` is 0x10 (16), the offset of Proximity Domain in it, `point` "
        "is the domain.\n"
        "Fix: write the domain of the SRAT that the unit is in."
    ),
    254: (
        "Two RHSAs have the same Register Base Address.\n"
        "Numbers: `at` is the structure's offset, `other` that of the first RHSA with this address, `point` is the address.\n"
        "Fix: write one RHSA for each DRHD."
    ),
    255: (
        "None of the bytes of ACPI Object Name of an ANDD is 0.\n"
        "Numbers: `at` is the structure's offset, `other` is 0x8, the offset of ACPI Object Name in it.\n"
        "Fix: end the name with a 0, and count it in the length."
    ),
    256: (
        "Enumeration ID of a device scope of type 5 is the ACPI Device Number of no ANDD; or the ACPI Device Number of an ANDD is "
        "the Enumeration ID of no device scope of type 5 in a DRHD.\n"
        "Numbers: `at` is the offset of the device scope or of the ANDD, `other` is the offset in it of its number, 0x4 of the "
        "scope's Enumeration ID or 0x7 of ACPI Device Number, `point` is that number.\n"
        "Fix: give the ANDD and the device scope in the DRHD of its unit the same number."
    ),
    257: (
        "Bit 0 of the DMAR's Flags is set, and no device scope of type 3 in a DRHD has the ID of an I/O APIC of the MADT.\n"
        "Numbers: `at` is the offset of the I/O APIC in the MADT, `other` is 0x2, the offset of its ID in it, `point` is the ID.\n"
        "Fix: add to the DRHD of its unit a device scope of type 3 with the I/O APIC's ID."
    ),
    258: (
        "Two device scopes of type 3, in DRHDs, have the same Enumeration ID.\n"
        "Numbers: `at` is the device scope's offset, `other` that of the first one with this ID, `point` is its Enumeration ID.\n"
        "Fix: write to each device scope the ID of its own I/O APIC."
    ),
    259: (
        "The IVRS's Length is below 48; or after its last block there are bytes that are not a block: fewer than 4 bytes, a "
        "length below 4, or a length that goes past the end of the table.\n"
        "Numbers: `at` is 0x4, the offset of Length, or the offset of these bytes; `other` is 0x30 (48), or the length that the "
        "bytes say, 0 if they are fewer than 4; `point` is the IVRS's Length.\n"
        "Fix: correct the block's length or the table's Length. Often the length of the block before it is wrong."
    ),
    260: (
        "A block is too short for its type: an IVHD of type 0x10 needs 24 bytes, one of type 0x11 or 0x40 needs 40, and an IVMD "
        "32.\n"
        "Numbers: `at` is the block's offset, `other` is the length that its type needs, `point` is its length.\n"
        "Fix: correct the length or the type."
    ),
    261: (
        "The IVRS has no IVHD.\n"
        "Numbers: all 0.\n"
        "Fix: write an IVHD for each IOMMU; or list no IVRS if the machine has none."
    ),
    262: (
        "IOMMU Base Address of an IVHD is 0, or no multiple of 16384.\n"
        "Numbers: `at` is the block's offset, `other` is 0x8, the offset of IOMMU Base Address in it, `point` is that address.\n"
        "Fix: write the address of the registers that the firmware wrote to the capability of the IOMMU."
    ),
    263: (
        "Two IVHDs of one type and one PCI Segment Group have the same DeviceID.\n"
        "Numbers: `at` is the block's offset, `other` that of the first IVHD of its type and PCI Segment Group with this "
        "DeviceID, `point` is the DeviceID.\n"
        "Fix: write one IVHD of each type for an IOMMU, with the DeviceID of that IOMMU."
    ),
    264: (
        "An IVHD has another IOMMU Base Address than the first IVHD with its PCI Segment Group and DeviceID; or another PCI "
        "Segment Group or DeviceID than the first one with its IOMMU Base Address.\n"
        "Numbers: `at` is the block's offset, `other` that of the first IVHD that has its IOMMU Base Address, or its PCI Segment "
        "Group and DeviceID, `point` is its IOMMU Base Address.\n"
        "Fix: write the same three fields to all IVHDs of an IOMMU."
    ),
    265: (
        "After the last device entry of an IVHD there are bytes that are not a device entry: their type has no length, or a "
        "length that goes past the end of the block.\n"
        "Numbers: `at` is the offset of these bytes, `other` is the length of the type that they say, 0 if they say none, `point` "
        "is the offset at which the block ends.\n"
        "Fix: correct the type, UID Length, or the length of the IVHD."
    ),
    266: (
        "A device entry is of an unknown type, or of type 0xf0 in an IVHD of another type than 0x40. Of type 0x48: Variety is 0 "
        "or above 3. Of type 0xf0: Hardware ID begins with 0; or UID Format is above 2; or UID Length is not 0 for the format 0, "
        "or not 8 for 1.\n"
        "Numbers: `at` is the device entry's offset, `other` is the offset in it of the byte that is wrong, 0 of its type, 0x4 of "
        "Hardware ID, 0x7 of Variety, 0x14 (20) of UID Format, 0x15 (21) of UID Length, `point` is that byte.\n"
        "Fix: write a type that the block may have, and the fields of the device."
    ),
    267: (
        "A device entry that starts a range is not followed by one that ends it; or one that ends a range does not follow one "
        "that starts it, or has a lower DeviceID than that one.\n"
        "Numbers: `at` is the device entry's offset, `other` is 0x1, the offset of DeviceID in it, `point` is the DeviceID.\n"
        "Fix: write the first DeviceID to the start of a range, and the last one to an entry of type 4 just after it."
    ),
    268: (
        "IVHDs of a type have device entries of type 0x48 with Variety 1, and none of these has the ID of an I/O APIC of the MADT "
        "as Handle.\n"
        "Numbers: `at` is the offset of the I/O APIC in the MADT, `other` is 0x2, the offset of its ID in it, `point` is the ID.\n"
        "Fix: add the device entry to an IVHD of each type, with the I/O APIC's ID and its Source Device ID."
    ),
    269: (
        "Two device entries of type 0x48 with one Variety, in IVHDs of one type, have the same Handle.\n"
        "Numbers: `at` is the device entry's offset, `other` that of the first one of its Variety with this Handle in IVHDs of "
        "this type, `point` is the Handle.\n"
        "Fix: write to each device entry the ID of its own I/O APIC, or the number of its own HPET."
    ),
    270: (
        "An IVMD of type 0x20 to 0x22 has neither Unity nor exclusion range set, or a higher bit of Flags; or IVMD Memory Block "
        "Length is 0, or the memory ends above the highest address; or, of type 0x22, the last DeviceID is below the first.\n"
        "Numbers: `at` is the block's offset, `other` is the offset in it of the field that is wrong, 0x1 of Flags, 0x6 of the "
        "last DeviceID, 0x10 (16) of IVMD Start Address, 0x18 (24) of IVMD Memory Block Length, `point` is that field.\n"
        "Fix: write the memory, the devices and the Flags: for a unity mapping bit 0, with bit 1 for reads and bit 2 for writes."
    ),
    271: (
        "The SPCR's Length is below 80, or, from Revision 4 on, below 88.\n"
        "Numbers: `at` is 0x4, the offset of Length, `other` is the length that the Revision needs, `point` is Length.\n"
        "Fix: write all fields of the Revision, and set Length; or set the Revision to that of the fields."
    ),
    272: (
        "The SPCR's base address is neither in memory (address space 0) nor in I/O ports (1); or it is in memory, and its access "
        "size is above 3 (32 bits). Applies if the address is not 0 and the interface type is not 0x15, the RISC-V SBI console.\n"
        "Numbers: `at` is the offset of the address space, 0x28 (40), or of the access size, 0x2b (43); `point` is the space or "
        "the size.\n"
        "Fix: write the address space and the access size of the serial port's registers."
    ),
    273: (
        "The SPCR's baud rate is none of 0, 3, 4, 6 and 7, and there is no precise one: the Revision is below 4, or the number at "
        "80 is 0.\n"
        "Numbers: `at` is 0x3a (58), the offset of the baud rate, `point` is its value.\n"
        "Fix: write 3 for 9600, 4 for 19200, 6 for 57600, 7 for 115200, or 0 for the rate that the firmware has set."
    ),
    274: (
        "Bit 0 (8259) of the SPCR's interrupt type is set, and IRQ is none of 2 to 7, 9 to 12, 14 and 15. Or, with a well-formed "
        "MADT, bit 1 (I/O APIC) is set, and the MADT has I/O APICs, none of which serves the GSI; or it has a GICD (type 12), the "
        "base address is not 0, and the interrupt type is neither 0 nor 8 (GIC), or is 8 with a GSI that is no SPI, 32 to 1019 or "
        "4096 to 5119.\n"
        "Numbers: `at` is the field's offset: 0x34 (52) of the interrupt type, 0x35 (53) of IRQ, 0x36 (54) of the GSI; `point` is "
        "the field.\n"
        "Fix: write the interrupt and the type of its controller, or 0 for none; or give `acpiset` the I/O APIC's inputs as "
        "`ADDRESS=COUNT`."
    ),
    275: (
        "Exactly one of the SPCR's PCI device ID and PCI vendor ID is 0xffff, which means no PCI device; or neither is, and the "
        "PCI device number is above 31 or the PCI function number above 7.\n"
        "Numbers: for the IDs `at` is 0x40 (64), the offset of the PCI device ID, `point` is the PCI device ID. For the numbers "
        "`at` is 0x45 (69) for the device or 0x46 (70) for the function, the offset of the number, `point` is the number.\n"
        "Fix: write both IDs and the numbers of the PCI device; or, if the serial port is no PCI device, 0xffff to both IDs."
    ),
    276: (
        "The SPCR's namespace string has fewer than 2 bytes, or does not lie between byte 88 and the table's end; or it lies "
        "there, and its last byte is not 0. Applies from Revision 4 on.\n"
        "Numbers: `at` is the offset of what is wrong, 0x54 (84) of NamespaceStringLength, 0x56 (86) of NamespaceStringOffset, or "
        "that of the string's last byte; `point` is its value.\n"
        "Fix: write the device's path in the ACPI namespace, or `.` for none, and a 0; and its offset in the table and its length "
        "with the 0."
    ),
    279: (
        "The OEMID of the RSDP has a byte that is not printable ASCII, 0x20 to 0x7e. Zeros at its end are allowed. Applies if 20 "
        "bytes of the RSDP are in the image.\n"
        "Numbers: `at` is 0x9, the offset of OEMID in the RSDP, `point` is its 6 bytes as a number.\n"
        "Fix: write the complete text, with blanks or zeros after its last letter."
    ),
    280: (
        "A text in the header of the XSDT or RSDT has a byte that is neither printable ASCII, 0x20 to 0x7e, nor one of the zeros "
        "at its end; or Revision is not 1. Applies if all bytes of the table are in the image.\n"
        "Numbers: `at` is the field's offset: 0x8 for Revision, 0xa (10) for OEMID, 0x10 (16) for OEM Table ID, 0x1c (28) for "
        "Creator ID; `point` is the field as a number.\n"
        "Fix: write the complete texts, with blanks or zeros after the last letter, and Revision 1."
    ),
    281: (
        "A text in the header of the DSDT that the FADT names has a byte that is neither printable ASCII, 0x20 to 0x7e, nor one "
        "of the zeros at its end. Applies if 36 bytes with the signature `DSDT` are in the image.\n"
        "Numbers: `at` is the text's offset in the DSDT: 0xa (10) for OEMID, 0x10 (16) for OEM Table ID, 0x1c (28) for Creator "
        "ID; `point` is the text as a number.\n"
        "Fix: correct the texts in `DefinitionBlock` of the ASL, or in the code that writes the header, which also has to set the "
        "checksum."
    ),
    282: (
        "Revision is 0; or the FADT is longer than one of its Revision: above 116 bytes at Revision 1, 132 at 2, 244 at 3 or 4, "
        "268 at 5, 276 from 6 on.\n"
        "Numbers: for the length `at` is 0x4, the offset of Length, `other` is the length that a FADT of this Revision has, "
        "`point` is Length. For Revision 0 `at` is 0x8, the offset of Revision.\n"
        "Fix: set Revision to that of the fields, or Length to that of the Revision."
    ),
    283: (
        "The FADT is older than 5.1, which added ARM_BOOT_ARCH, and this field exists and is not 0.\n"
        "Numbers: `at` is 0x81 (129), the offset of ARM_BOOT_ARCH, `point` is ARM_BOOT_ARCH.\n"
        "Fix: write the version of the fields, 5.1 or later; or write 0 to ARM_BOOT_ARCH."
    ),
    284: (
        "The hardware is reduced, HW_REDUCED_ACPI is set, and SMI_CMD, the 4-byte address of a register block, or the address in "
        "an X_ structure that exists is not 0.\n"
        "Numbers: `at` is the offset of the address, `point` is the address.\n"
        "Fix: write 0 to them; or clear HW_REDUCED_ACPI if the hardware has these registers."
    ),
    285: (
        "The hardware is not reduced, SMI_CMD is not 0, and exactly one of ACPI_ENABLE and ACPI_DISABLE is 0.\n"
        "Numbers: `at` is the offset of the one that is 0, 0x34 (52) or 0x35 (53).\n"
        "Fix: write both commands of the firmware's SMI handler. If it has none, write 0 to all three fields."
    ),
    286: (
        "The hardware is not reduced, and S4BIOS_REQ is not 0 while S4BIOS_F is clear, or is 0 while S4BIOS_F is set. Applies "
        "only to a FACS without the faults 27 to 31.\n"
        "Numbers: `at` is 0x36 (54), the offset of S4BIOS_REQ, `point` is S4BIOS_REQ.\n"
        "Fix: if the firmware does this, write the command to S4BIOS_REQ and set S4BIOS_F; otherwise clear both."
    ),
    287: (
        "The hardware is not reduced, and a GPE block has events above 255: GPE0 has an address, and GPE0_BLK_LEN is above 64; or "
        "GPE1 has one, and GPE1_BASE + 4 * GPE1_BLK_LEN is above 256. The address is that of the X_ structure or of the 4-byte "
        "field.\n"
        "Numbers: for GPE0 `at` is 0x5c (92), the offset of GPE0_BLK_LEN, `point` is GPE0_BLK_LEN. For GPE1 `at` is 0x5e (94), "
        "the offset of GPE1_BASE, `point` is GPE1_BASE.\n"
        "Fix: correct the length or GPE1_BASE. A block of n bytes has 4 * n events."
    ),
    288: (
        "The hardware is not reduced, and the length byte of a register block other than GPE0 and GPE1 is above 31. The block's "
        "4-byte address is not 0, and its X_ structure is missing or has the address 0.\n"
        "Numbers: `at` is the offset of the length byte, `point` is the length.\n"
        "Fix: write the length in bytes: usually 4 to PM1_EVT_LEN and PM_TMR_LEN, 2 to PM1_CNT_LEN, 1 to PM2_CNT_LEN."
    ),
    289: (
        "The hardware is not reduced, and the X_ structure of a register block exists and has an address other than 0 and an "
        "address space above 1.\n"
        "Numbers: `at` is the offset of the X_ structure, which begins with its address space, `point` is this space.\n"
        "Fix: write the address space 0, memory, or 1, system I/O."
    ),
    290: (
        "The hardware is not reduced, and an X_ structure that exists has an address other than 0 and another bit width than 32 "
        "for PM1a_EVT, PM1b_EVT and PM_TMR, 16 for PM1a_CNT and PM1b_CNT, or 8 for PM2_CNT (4.8.3).\n"
        "Numbers: `at` is the offset of the width in the X_ structure, `point` is the width, in bits.\n"
        "Fix: write the usual width, and to the length byte an eighth of it."
    ),
    291: (
        "The hardware is not reduced, and SLEEP_CONTROL_REG or SLEEP_STATUS_REG exists and has an address other than 0.\n"
        "Numbers: `at` is the offset of the address, `point` is the address.\n"
        "Fix: write 0 to both; or set HW_REDUCED_ACPI if the hardware has no PM1 registers."
    ),
    292: (
        "The MADT has a structure of type 24 (RINTC), of any length, and the FADT is older than 6.6.\n"
        "Numbers: `at` is 0x8, the offset of Revision, `other` is Revision, `point` is the minor version.\n"
        "Fix: write all fields of Revision 6, and the minor version 6."
    ),
    293: (
        "A GICC is shorter than 76 bytes, its length in ACPI 5.1.\n"
        "Numbers: `at` is the structure's offset, `other` is 0x4c (76), `point` is its length.\n"
        "Fix: write the complete structure: 76 bytes in ACPI 5.1, 80 from 6.0 on, 82 from 6.5 on."
    ),
    294: (
        "The GIC has version 3 or 4, there is no structure of type 14, a usable GICC has a GICR Base Address other than 0, and "
        "that of an enabled GICC is 0. Applies only if the MADT is well-formed.\n"
        "Numbers: `at` is the structure's offset, `other` is 0x3c (60), the offset of the GICR Base Address in it.\n"
        "Fix: write to each GICC the address of its redistributor; or write a GICR for each range of redistributors, and 0 to all "
        "GICCs."
    ),
    295: (
        "The GIC has version 3 or 4, there is no structure of type 14, and a GICC is Online Capable and not Enabled. Applies only "
        "if the MADT is well-formed.\n"
        "Numbers: `at` is the structure's offset, `other` is 0xc (12), the offset of Flags in it, `point` is Flags.\n"
        "Fix: write a GICR for each range of redistributors, and 0 to GICR Base Address of all GICCs."
    ),
    296: (
        "A usable GICC of at least 60 bytes has another GICV, GICH or VGIC Maintenance Interrupt than the first such GICC, or "
        "another mode of this interrupt.\n"
        "Numbers: `at` is the structure's offset, `other` the offset in it of the field that differs: 0xc (12) for the mode, bit "
        "2 of Flags, 0x28 (40) for GICV, 0x30 (48) for GICH, 0x38 (56) for the maintenance interrupt; `point` is the field.\n"
        "Fix: write the same values to all usable GICCs."
    ),
    297: (
        "The GIC has version 3 or 4, and an enabled GICC has the GICR Base Address of an earlier enabled one, other than 0.\n"
        "Numbers: `at` is the structure's offset, `other` that of the first enabled one with this redistributor, `point` is its "
        "address.\n"
        "Fix: write to each GICC the address of its own redistributor."
    ),
    298: (
        "The Parking Protocol Version of a GICC is above 1.\n"
        "Numbers: `at` is the structure's offset, `other` is 0x10 (16), the offset of the version in it, `point` is the version.\n"
        "Fix: write 1, or 0 if the processor is not started by the parking protocol."
    ),
    299: (
        "The SPE Overflow Interrupt or the TRBE Interrupt of a GICC is neither 0 nor a PPI, 16 to 31 or 1056 to 1119.\n"
        "Numbers: `at` is the structure's offset, `other` the offset in it of the interrupt, 0x4e (78) for that of profiling, "
        "0x50 (80) for that of the trace buffer, `point` is the interrupt.\n"
        "Fix: write the interrupt ID, which is 16 for the first PPI; or 0 if the processor does not have this interrupt."
    ),
    300: (
        "A structure of types 17 to 27 has a version other than 1. Applies if it has the length that MadtUnread names.\n"
        "Numbers: `at` is the structure's offset, `other` is 0x2, the offset of the version in it, `point` is the version.\n"
        "Fix: write 1, and lay out all fields by the standard."
    ),
    301: (
        "A structure of types 11 to 15, 17, 24 and 25 has a reserved byte that is not 0, or a reserved bit of its flags set. "
        "Applies if it has the length that MadtUnread names.\n"
        "Numbers: `at` is the structure's offset, `other` the offset in it of the first field or byte that is wrong, `point` is "
        "the value there.\n"
        "Fix: write 0 to reserved bytes and bits."
    ),
    302: (
        "The Hart ID of a usable RINTC is 0xffffffffffffffff.\n"
        "Numbers: `at` is the structure's offset, `other` is 0x8, the offset of the ID in it, `point` is the ID.\n"
        "Fix: write the hart's ID. In a structure for a hart that does not exist, clear Enabled and Online Capable."
    ),
    303: (
        "In a structure of type 16, of any length, the Mailbox Version is above 1, a byte from 4 to 7 is not 0, or the Mailbox "
        "Address is 0 or no multiple of 4096; or its length is not that of its version: 24 bytes for 1; 16 for 0, and if it is "
        "too short to have a version.\n"
        "Numbers: `at` is the structure's offset. For its length `other` is the length of its version, `point` is its length. "
        "Otherwise `other` is the offset in it of the field that is wrong, `point` is the value there.\n"
        "Fix: write all fields of the version, and the address of the mailbox's page of 4096 bytes."
    ),
    304: (
        "A Local APIC Address Override (type 5, 12 bytes) has the address 0 (5.2.12.8).\n"
        "Numbers: `at` is the structure's offset, `other` is 0x4, the offset of the address in it.\n"
        "Fix: write the address; or remove the structure if the 4 bytes at 36 of the MADT can hold the address."
    ),
    305: (
        "The MADT has a structure of types 9 to 15, of any length, and a Revision below 3; or one of types 24 to 27, of any "
        "length, and a Revision below 6.\n"
        "Numbers: `at` is 0x8, the offset of Revision, `point` is Revision.\n"
        "Fix: write the Revision of the standard that has these structures."
    ),
    306: (
        "A structure of types 3 to 7 has a reserved byte that is not 0, or a reserved bit of its flags set. Applies if it has the "
        "length that SratUnread names.\n"
        "Numbers: `at` is the structure's offset, `other` the offset in it of the first field or byte that is wrong, `point` is "
        "the value there.\n"
        "Fix: write 0 to reserved bytes and bits."
    ),
    307: (
        "A generic initiator or port (types 5 and 6, 32 bytes) has a Device Handle Type above 1.\n"
        "Numbers: `at` is the structure's offset, `other` is 0x3, the offset of Device Handle Type in it, `point` is this type.\n"
        "Fix: write 0 for a device handle of ACPI, 1 for one of PCI."
    ),
    308: (
        "Nothing else is in the proximity domain of an ITS affinity (type 4, 12 bytes): no affinity, no enabled memory range, and "
        "no enabled initiator or port. Applies only if the SRAT is well-formed and SratUnread finds nothing in it.\n"
        "Numbers: `at` is the structure's offset, `other` is 0x2, the offset of the domain in it, `point` is the domain.\n"
        "Fix: write the domain of processors or memory near the ITS."
    ),
    309: (
        "The PPTT has a structure of a type above 1, of any length. `acpiset` uses only its type and length.\n"
        "Numbers: `at` is the offset of the first one, `other` its type.\n"
        "Fix: remove the structure, or check it by other means, such as `iasl -d`."
    ),
    310: (
        "The PPTT's Revision is 3 or more, and a cache of 28 bytes with a valid Cache ID, bit 7 of its flags, has the Cache ID 0.\n"
        "Numbers: `at` is the cache's offset, `other` is 0x18 (24), the offset of the Cache ID in it.\n"
        "Fix: number the caches from 1; or clear bit 7."
    ),
    311: (
        "A node names two caches of one type, neither of which is the Next Level of a cache that the node names. The type is "
        "valid in both, bit 4 of their flags; 10b and 11b are one type, unified.\n"
        "Numbers: `at` is the node's offset, `other` that of the first cache of the type, `point` that of the other one.\n"
        "Fix: let the node name only the caches nearest to it, one of each type, and let Next Level of Cache lead to the others."
    ),
}
