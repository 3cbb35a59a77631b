//! The stages, codes and rules.

// Written by scripts/lists.py from the crates and docs/FAULTS.md: change those, and run it again.

use crate::finding::Severity;
use crate::numbered::numbered;

numbered! {
    /// A part of a check. Each stage is looked at only if all earlier ones hold. Sections are those of ACPI 6.5.
    Stage {
        /// The RSDP (5.2.5.3).
        Rsdp = 1,
        /// The XSDT or RSDT (5.2.7, 5.2.8).
        Root = 2,
        /// Each listed table's header, length and checksum (5.2.6).
        Tables = 3,
        /// The FADT (5.2.9).
        Fadt = 4,
        /// The FACS (5.2.10).
        Facs = 5,
        /// The MADT (5.2.12).
        Madt = 6,
        /// Interrupt numbers: none is served by two I/O APICs (5.2.12.3).
        Interrupts = 7,
        /// Interrupt source overrides: none contradicts another (5.2.12.5).
        Overrides = 8,
        /// The SRAT (5.2.16).
        Srat = 9,
        /// Memory ranges: no address is in two (5.2.16.2).
        Ranges = 10,
        /// The SLIT (5.2.17).
        Slit = 11,
        /// The PPTT (5.2.30).
        Pptt = 12,
        /// References of the PPTT's entries (5.2.30).
        References = 13,
        /// Chains of parents end (5.2.30.1).
        Parents = 14,
        /// Chains of caches end (5.2.30.2).
        Caches = 15,
        /// No enabled processor has two proximity domains (5.2.12, 5.2.16).
        Domains = 16,
        /// Each interrupt number that an entry names is served (5.2.12).
        Served = 17,
        /// Each leaf of the PPTT is a processor of the MADT (5.2.12, 5.2.30.1).
        Leaves = 18,
    }
}

numbered! {
    /// What is wrong with a set of tables. The manual page `acpiset-faults(7)` and docs/FAULTS.md of the repository say
    /// of each code what it means for an operating system and what is to be fixed. "Numbers" are those of a
    /// [`Fault`](crate::Fault): offsets are from the start of a table, and slots are those of the RSDT or XSDT, from 0
    /// on.
    Code {
        /// The 20 bytes at the RSDP's address are not all in the image.
        ///
        /// Numbers: `at` is the RSDP's address.
        RsdpOut = 1,
        /// The first 8 bytes are not `RSD PTR ` (the last character is a space).
        ///
        /// Numbers: `at` is the RSDP's address.
        RsdpSignature = 2,
        /// The first 20 bytes do not sum to 0 modulo 256.
        ///
        /// Numbers: `at` is the RSDP's address.
        RsdpSum = 3,
        /// Revision is 2 or more, but the 36 bytes are not all in the image.
        ///
        /// Numbers: `at` is the RSDP's address.
        RsdpTailOut = 4,
        /// Revision is 2 or more, and Length at 20 is below 36.
        ///
        /// Numbers: `at` is the RSDP's address.
        RsdpLength = 5,
        /// Revision is 2 or more and Length is at least 36, but not all Length bytes are in the image.
        ///
        /// Numbers: `at` is the RSDP's address.
        RsdpLongOut = 6,
        /// Revision is 2 or more, Length is at least 36, the image holds the Length bytes, and they do not sum to 0
        /// modulo 256.
        ///
        /// Numbers: `at` is the RSDP's address.
        RsdpExtendedSum = 7,
        /// The RSDP names neither an RSDT nor an XSDT. With a Revision below 2 only RsdtAddress counts.
        ///
        /// Numbers: `at` is the RSDP's address.
        NoRoot = 8,
        /// The 36-byte header of the XSDT or RSDT is not all in the image.
        ///
        /// Numbers: `at` is the address of the XSDT or RSDT.
        RootHeaderOut = 9,
        /// The table at XsdtAddress does not begin with `XSDT`, or the one at RsdtAddress, if that is used, not with
        /// `RSDT`.
        ///
        /// Numbers: `at` is the address of the XSDT or RSDT.
        RootSignature = 10,
        /// Length of the XSDT or RSDT is below 36, the size of its header.
        ///
        /// Numbers: `at` is the address of the XSDT or RSDT.
        RootLength = 11,
        /// Length of the XSDT or RSDT is at least 36, but not all Length bytes are in the image.
        ///
        /// Numbers: `at` is the address of the XSDT or RSDT.
        RootOut = 12,
        /// Length is at least 36, but Length - 36 is not a multiple of the width of a slot (4 in an RSDT, 8 in an
        /// XSDT).
        ///
        /// Numbers: `at` is the address of the XSDT or RSDT.
        RootRagged = 13,
        /// Length is at least 36, the image holds the Length bytes of the XSDT or RSDT, and they do not sum to 0 modulo
        /// 256.
        ///
        /// Numbers: `at` is the address of the XSDT or RSDT.
        RootSum = 14,
        /// The table's 36-byte header is not all in the image.
        ///
        /// Numbers: `at` is the slot's number, `other` the table's address.
        TableHeaderOut = 15,
        /// The table's Length is below 36, the size of its header.
        ///
        /// Numbers: `at` is the slot's number, `other` the table's address.
        TableLength = 16,
        /// Length is at least 36, but not all Length bytes are in the image.
        ///
        /// Numbers: `at` is the slot's number, `other` the table's address.
        TableOut = 17,
        /// The table's Length is at least 36, the image holds its Length bytes, and they do not sum to 0 modulo 256.
        ///
        /// Numbers: `at` is the slot's number, `other` the table's address.
        TableSum = 18,
        /// No slot lists a table with the signature `FACP`.
        ///
        /// Numbers: all 0.
        NoFadt = 19,
        /// The FADT's Length is below 116, so the table ends before the end of Flags at 112.
        ///
        /// Numbers: all 0.
        FadtShort = 20,
        /// The hardware is not reduced, and PM1_EVT_LEN is below 4.
        ///
        /// Numbers: `at` is 0x58 (88), the field's offset.
        PmEventLength = 21,
        /// The hardware is not reduced, and PM1_CNT_LEN is below 2.
        ///
        /// Numbers: `at` is 0x59 (89), the field's offset.
        PmControlLength = 22,
        /// The hardware is not reduced, and PM_TMR_LEN is neither 0 nor 4.
        ///
        /// Numbers: `at` is 0x5b (91), the field's offset.
        PmTimerLength = 23,
        /// The hardware is not reduced, and the length of a GPE block is odd.
        ///
        /// Numbers: `at` is the field's offset: 0x5c (92) for GPE0_BLK_LEN, 0x5d (93) for GPE1_BLK_LEN. If both are
        /// odd, 0x5c is reported.
        GpeLength = 24,
        /// RESET_REG_SUP is set and Length is at least 129, but RESET_REG has an address space above 2, a bit width
        /// other than 8, or a bit offset other than 0.
        ///
        /// Numbers: `at` is 0x74 (116), the field's offset.
        ResetRegister = 25,
        /// The hardware is not reduced, and the FADT names no FACS: both FIRMWARE_CTRL and, if the table has it,
        /// X_FIRMWARE_CTRL are 0.
        ///
        /// Numbers: all 0.
        NoFacs = 26,
        /// The FACS's address is not a multiple of 64.
        ///
        /// Numbers: `at` is the FACS's address.
        FacsAlign = 27,
        /// The first 8 bytes at the FACS's address are not all in the image.
        ///
        /// Numbers: `at` is the FACS's address.
        FacsHeaderOut = 28,
        /// The first 4 bytes at the FACS's address are not `FACS`.
        ///
        /// Numbers: `at` is the FACS's address.
        FacsSignature = 29,
        /// The FACS's Length is below 64.
        ///
        /// Numbers: `at` is the FACS's address.
        FacsLength = 30,
        /// Length is at least 64, but not all Length bytes are in the image.
        ///
        /// Numbers: `at` is the FACS's address.
        FacsOut = 31,
        /// The MADT's Length is below 44, so it ends within its fixed fields.
        ///
        /// Numbers: all 0.
        MadtShort = 32,
        /// After the last structure there are bytes that are not a structure: a single byte, a length of 0 or 1, or a
        /// length that goes past the end of the table.
        ///
        /// Numbers: `at` is the offset of these bytes.
        MadtEntryCut = 33,
        /// A structure of type 0 to 5, 9 or 10 does not have the length of its type (8, 12, 10, 8, 6, 12, 16, 12).
        ///
        /// Numbers: `at` is the structure's offset.
        MadtEntryLength = 34,
        /// Bus of an interrupt source override is not 0. 0 is the ISA bus, the only one that is defined (5.2.12.5).
        ///
        /// Numbers: `at` is the structure's offset.
        OverrideBus = 35,
        /// The flags of an interrupt have the reserved value 10b as polarity, bits 1:0, or as trigger mode, bits 3:2.
        /// The structure is an interrupt source override, an NMI source, or an NMI of a local APIC or x2APIC.
        ///
        /// Numbers: `at` is the structure's offset.
        ReservedInti = 36,
        /// There is a second structure that overrides the address of the local APICs. One whose Length is not 12 is
        /// another fault, and does not count here.
        ///
        /// Numbers: `at` is its offset, `other` that of the first such structure.
        SecondAddressOverride = 37,
        /// Global System Interrupt Base of an I/O APIC plus its number of inputs is more than 0x100000000, 2^32.
        ///
        /// Numbers: `at` is the structure's offset.
        GsiPastEnd = 38,
        /// Two I/O APICs serve the same interrupt number.
        ///
        /// Numbers: `at` and `other` are the offsets of their structures, `point` is the interrupt number. It is the
        /// lowest one that two serve. The structures are the first two that serve it, by base, then by offset.
        GsiClash = 39,
        /// Two interrupt source overrides give different interrupt numbers for the same Source.
        ///
        /// Numbers: `at` is the offset of the later override, `other` that of the earlier one, `point` is the Source,
        /// an ISA interrupt.
        OverrideClash = 40,
        /// The SRAT's Length is below 48, so it ends within its reserved bytes.
        ///
        /// Numbers: all 0.
        SratShort = 41,
        /// After the last structure there are bytes that are not a structure: a single byte, a length of 0 or 1, or a
        /// length that goes past the end of the table.
        ///
        /// Numbers: `at` is the offset of these bytes.
        SratEntryCut = 42,
        /// A structure of type 0, 1 or 2 does not have the length of its type (16, 40, 24).
        ///
        /// Numbers: `at` is the structure's offset.
        SratEntryLength = 43,
        /// An enabled memory range goes past the end of the address space: Base Address plus Length is more than 2^64.
        ///
        /// Numbers: `at` is the structure's offset.
        RangePastEnd = 44,
        /// Two enabled memory ranges overlap.
        ///
        /// Numbers: `at` and `other` are the offsets of their structures, `point` is an address in both ranges: the
        /// lowest address that two ranges cover. The structures are the first two that cover it, by base, then by
        /// offset.
        Overlap = 45,
        /// The SLIT's Length is below 44, so it ends before the end of N.
        ///
        /// Numbers: all 0.
        SlitShort = 46,
        /// Length is not 44 + N * N.
        ///
        /// Numbers: `at` is 0x24 (36), the offset of N.
        SlitSize = 47,
        /// The distance from a locality to itself is not 10.
        ///
        /// Numbers: `at` is the offset of the distance.
        SlitDiagonal = 48,
        /// A distance is below 10. The values 0 to 9 are reserved.
        ///
        /// Numbers: `at` is the offset of the distance. A distance below 10 on the diagonal is a SlitDiagonal too, and
        /// that is reported.
        SlitLow = 49,
        /// After the last structure there are bytes that are not a structure: a single byte, a length of 0 or 1, or a
        /// length that goes past the end of the table.
        ///
        /// Numbers: `at` is the offset of these bytes.
        PpttEntryCut = 50,
        /// The length of a node, type 0, is not 20 plus 4 for each private resource, whose number is at 16; or that of
        /// a cache, type 1, is neither 24 nor 28.
        ///
        /// Numbers: `at` is the structure's offset.
        PpttEntryLength = 51,
        /// Parent of a node is not 0, and no node begins at it. A structure of type 0 with another Length than a node's
        /// is not a node.
        ///
        /// Numbers: `at` is the node's offset, `other` is the Parent.
        DanglingParent = 52,
        /// No structure begins at a private resource of a node, or a node does. 0 is not a valid offset either: a node
        /// without private resources has 0 as their number.
        ///
        /// Numbers: `at` is the node's offset, `other` the index of the private resource, from 0, `point` its value, an
        /// offset.
        DanglingResource = 53,
        /// Next Level of Cache of a cache is not 0, and no cache begins at it. A structure of type 1 whose Length is
        /// not that of a cache is no cache.
        ///
        /// Numbers: `at` is the cache's offset, `other` is the Next Level of Cache.
        DanglingCache = 54,
        /// The Parents of a node, followed from one node to the next, form a cycle instead of ending at a top node.
        ///
        /// Numbers: `at` is the node's offset. The cycle is reached after `other` steps, and has `point` nodes. Of all
        /// nodes whose chain does not end, the one with the lowest offset is reported, with the smallest numbers of
        /// steps.
        ParentCycle = 55,
        /// The Next Levels of a cache, followed from one cache to the next, form a cycle instead of ending.
        ///
        /// Numbers: as for ParentCycle, of caches.
        CacheCycle = 56,
        /// Two enabled structures of the SRAT assign one processor to different proximity domains, and this processor
        /// is enabled in the MADT.
        ///
        /// Numbers: `at` and `other` are the offsets of the structures in the SRAT, `other` the lower one; `point` is
        /// the processor's APIC ID or X2APIC ID.
        TwoDomains = 57,
        /// An interrupt source override or an NMI source of the MADT uses an interrupt number that no I/O APIC serves,
        /// although the MADT has an I/O APIC.
        ///
        /// Numbers: `at` is the structure's offset in the MADT, `point` is the interrupt number.
        GsiNowhere = 58,
        /// A node of the PPTT is a leaf with a valid ACPI Processor ID (bits 3 and 1 of its flags), and no processor of
        /// the MADT, enabled or not, has this UID.
        ///
        /// Numbers: `at` is the node's offset in the PPTT, `point` is the ACPI Processor ID.
        LeafUnknown = 59,
    }
}

impl Code {
    /// The stage that it is a fault of; none of a code that this version of the crate does not know.
    #[must_use]
    #[rustfmt::skip]
    pub const fn stage(self) -> Option<Stage> {
        Some(match self {
            Code::RsdpOut
            | Code::RsdpSignature
            | Code::RsdpSum
            | Code::RsdpTailOut
            | Code::RsdpLength
            | Code::RsdpLongOut
            | Code::RsdpExtendedSum => Stage::Rsdp,
            Code::NoRoot
            | Code::RootHeaderOut
            | Code::RootSignature
            | Code::RootLength
            | Code::RootOut
            | Code::RootRagged
            | Code::RootSum => Stage::Root,
            Code::TableHeaderOut
            | Code::TableLength
            | Code::TableOut
            | Code::TableSum => Stage::Tables,
            Code::NoFadt
            | Code::FadtShort
            | Code::PmEventLength
            | Code::PmControlLength
            | Code::PmTimerLength
            | Code::GpeLength
            | Code::ResetRegister => Stage::Fadt,
            Code::NoFacs
            | Code::FacsAlign
            | Code::FacsHeaderOut
            | Code::FacsSignature
            | Code::FacsLength
            | Code::FacsOut => Stage::Facs,
            Code::MadtShort
            | Code::MadtEntryCut
            | Code::MadtEntryLength
            | Code::OverrideBus
            | Code::ReservedInti
            | Code::SecondAddressOverride
            | Code::GsiPastEnd => Stage::Madt,
            Code::GsiClash => Stage::Interrupts,
            Code::OverrideClash => Stage::Overrides,
            Code::SratShort
            | Code::SratEntryCut
            | Code::SratEntryLength
            | Code::RangePastEnd => Stage::Srat,
            Code::Overlap => Stage::Ranges,
            Code::SlitShort
            | Code::SlitSize
            | Code::SlitDiagonal
            | Code::SlitLow => Stage::Slit,
            Code::PpttEntryCut
            | Code::PpttEntryLength => Stage::Pptt,
            Code::DanglingParent
            | Code::DanglingResource
            | Code::DanglingCache => Stage::References,
            Code::ParentCycle => Stage::Parents,
            Code::CacheCycle => Stage::Caches,
            Code::TwoDomains => Stage::Domains,
            Code::GsiNowhere => Stage::Served,
            Code::LeafUnknown => Stage::Leaves,
            Code::Unknown { .. } => return None,
        })
    }
}

numbered! {
    /// A rule of advice. A set of tables may have a reason to break one, so no rule is a fault. "Numbers" are those of
    /// an [`Advice`](crate::Advice), as with [`Code`].
    Rule {
        /// A slot holds the same address as an earlier slot. Slots that hold 0 are not compared.
        ///
        /// Numbers: `at` is the slot's number, from 0, `other` that of the first slot with this address, `point` is the
        /// address.
        ListedTwice = 101,
        /// A slot lists a FADT, MADT, SRAT, SLIT or PPTT, and an earlier slot lists a table with the same signature at
        /// another address (5.2). A table counts if its header, 36 bytes, is in the image.
        ///
        /// Numbers: `at` is the slot's number, `other` that of the first slot with this signature, `point` is the
        /// address in slot `at`.
        SecondTable = 102,
        /// A slot lists a DSDT or a FACS. These two are not listed in the XSDT or RSDT: the FADT holds their addresses
        /// (5.2.9).
        ///
        /// Numbers: `at` is the slot's number, `point` is the address in it.
        ListedApart = 103,
        /// The FADT is shorter than the fields of its Revision: fewer than 244 bytes at Revision 3 or 4, 268 at 5, 276
        /// from 6 on.
        ///
        /// Numbers: `at` is 0x4, the offset of Length, `other` is Length, `point` is the length that the Revision
        /// needs.
        FadtOfRevision = 104,
        /// FIRMWARE_CTRL and X_FIRMWARE_CTRL exist, neither is 0, and they differ.
        ///
        /// Numbers: `at` is 0x24 (36), the offset of FIRMWARE_CTRL, `other` is FIRMWARE_CTRL, `point` is
        /// X_FIRMWARE_CTRL.
        FacsDiffers = 105,
        /// DSDT and X_DSDT exist, neither is 0, and they differ.
        ///
        /// Numbers: `at` is 0x28 (40), the offset of DSDT, `other` is DSDT, `point` is X_DSDT.
        DsdtDiffers = 106,
        /// The hardware is not reduced, and a register block's 4-byte address and the address in its X_ structure both
        /// exist, neither is 0, and they differ. The X_ structure's address space is 1, system I/O.
        ///
        /// Numbers: `at` is the offset of the 4-byte address, `other` is this address, `point` is the address in the X_
        /// structure, which is at 148 + 3 * (`at` - 56).
        BlockDiffers = 107,
        /// The hardware is not reduced, the MADT has I/O APICs, and none of them serves the interrupt number of the
        /// SCI. That number is given by the first interrupt source override of bus 0 with SCI_INT as its Source
        /// (5.2.12.5); without one it is SCI_INT itself. Applies only if the MADT is well-formed.
        ///
        /// Numbers: `at` is 0x2e (46), the offset of SCI_INT in the FADT, `point` is the interrupt number.
        SciNowhere = 108,
        /// A usable processor has the ACPI Processor UID of an earlier usable one.
        ///
        /// Numbers: `at` is the structure's offset, `other` that of the first usable one with this UID, `point` is the
        /// UID.
        SameUid = 109,
        /// A usable processor has the APIC ID, X2APIC ID or core ID of an earlier usable one.
        ///
        /// Numbers: `at` is the structure's offset, `other` that of the first usable one with this ID, `point` is the
        /// ID.
        SameApicId = 110,
        /// The I/O APIC Address of an I/O APIC is 0 (5.2.12.3).
        ///
        /// Numbers: `at` is the structure's offset.
        IoApicAtZero = 111,
        /// An I/O APIC has the I/O APIC ID of an earlier one (5.2.12.3).
        ///
        /// Numbers: `at` is the structure's offset, `other` that of the first I/O APIC with this ID, `point` is the ID.
        SameIoApicId = 112,
        /// An I/O APIC has the I/O APIC Address of an earlier one, other than 0 (5.2.12.3).
        ///
        /// Numbers: `at` is the structure's offset, `other` that of the first I/O APIC with this address, `point` is
        /// the address.
        SameIoApicAddress = 113,
        /// A Local APIC NMI (5.2.12.7) or Local x2APIC NMI (5.2.12.13) names a UID that no processor has, usable or
        /// not. 0xff in the first kind and 0xffffffff in the second mean all processors. Applies only if all processors
        /// are read and the MADT is well-formed.
        ///
        /// Numbers: `at` is the structure's offset, `point` is the UID.
        NmiNowhere = 114,
        /// The MADT has a second GIC Distributor structure (5.2.12.15), type 12, of any length.
        ///
        /// Numbers: `at` is the structure's offset, `other` that of the first one.
        SecondGicd = 115,
        /// The MADT has no usable processor. Applies only if all processors are read and the MADT is well-formed.
        ///
        /// Numbers: all 0.
        NoProcessor = 116,
        /// Two affinities of types 3 and 7 assign the same ACPI Processor UID to different proximity domains
        /// (5.2.16.4). For processors with an APIC ID this is the fault TwoDomains.
        ///
        /// Numbers: `at` is the offset of the first affinity with this UID, `other` that of the one with another
        /// domain, `point` is the UID.
        TwoUidDomains = 117,
        /// No processor of the MADT, usable or not, has the APIC ID or X2APIC ID that an affinity names, or the UID
        /// that an affinity of type 3 or 7 names. Applies only if all processors are read and the MADT is well-formed.
        ///
        /// Numbers: `at` is the affinity's offset, `point` is its APIC ID, X2APIC ID or UID.
        AffinityNowhere = 118,
        /// A usable processor of the MADT is named by no affinity, although the SRAT has affinities: neither by its
        /// APIC ID, X2APIC ID or core ID, nor, if it has none of these, by its UID. Applies only if all processors are
        /// read and the SRAT is well-formed.
        ///
        /// Numbers: `at` is the processor's offset in the MADT, `point` is its APIC ID, X2APIC ID or core ID, of a GICC
        /// or an RINTC its UID.
        NoDomain = 119,
        /// The proximity domain of an affinity, of an ITS (type 4), of an enabled initiator or port (types 5 and 6), or
        /// of an enabled memory range of any length, is N or above, where N is the SLIT's number of localities
        /// (5.2.17).
        ///
        /// Numbers: `at` is the offset in the SRAT, `other` is N, `point` is the domain.
        DomainPastSlit = 120,
        /// The distance from locality i to locality j is not the distance from j to i.
        ///
        /// Numbers: `at` is the offset of the distance from i to j, with i below j, `other` that of the distance from j
        /// to i.
        SlitDiffers = 121,
        /// A leaf has the ACPI Processor ID of an earlier leaf (5.2.30.1).
        ///
        /// Numbers: `at` is the leaf's offset, `other` that of the first leaf with this ID, `point` is the ID.
        SameLeaf = 122,
        /// A cache's flags say that its Number of Sets is valid, bit 1, and it is 0; or that its Line Size is valid,
        /// bit 6, and it is not a power of two (5.2.30.2).
        ///
        /// Numbers: `at` is the cache's offset.
        CacheShape = 123,
        /// The PPTT's Revision is 3 or more, and a cache with a valid Cache ID, bit 7 of its flags, has that of an
        /// earlier one (5.2.30.2).
        ///
        /// Numbers: `at` is the cache's offset, `other` that of the first cache with this Cache ID, `point` is the
        /// Cache ID.
        SameCacheId = 124,
        /// A usable processor of the MADT has a UID that no leaf of the PPTT has, although the PPTT has nodes. Applies
        /// only if all processors are read and the PPTT is well-formed.
        ///
        /// Numbers: `at` is the processor's offset in the MADT, `point` is its UID.
        NoLeaf = 125,
        /// The MADT has a processor of type 11, 17 or 24, and no processor, usable or not, has the ACPI Processor ID of
        /// a leaf as its UID. Applies only if all processors are read and the MADT is well-formed. For a MADT with
        /// types 0 to 5, 9 and 10 only, this is the fault LeafUnknown.
        ///
        /// Numbers: `at` is the leaf's offset, `point` is its ACPI Processor ID.
        LeafNowhere = 126,
        /// The MADT has a structure of a type or length that is not read: of types 6 to 8, or from 28 on; or of another
        /// length than 40 or more (type 11), 24 (12, 13), 16 (14, 25), 20 (15), 16 or 24 (16), 15 (17), 23 (18), 21
        /// (19), 13 (20), 19 (21), 17 (22), 14 (23), 20 or more (24), or 36 (26, 27). `acpiset` uses only its type and
        /// length, and of type 16 the fields of WakeupMailbox.
        ///
        /// Numbers: `at` is the offset of the first one, `other` its type.
        MadtUnread = 127,
        /// The SRAT has a structure that no stage and no rule looks at: one of type 8 or above, of type 3 of other than
        /// 18 bytes, 4 of other than 12, 5 or 6 of other than 32, or 7 of other than 20. `acpiset` uses only its type
        /// and length.
        ///
        /// Numbers: `at` is the offset of the first one, `other` its type.
        SratUnread = 128,
        /// A slot of the XSDT or RSDT holds 0.
        ///
        /// Numbers: `at` is the slot's number, from 0.
        NullSlot = 129,
        /// The XSDT and the RSDT do not list the same number of tables of each signature. The XSDT is complete, the
        /// RSDP also names an RSDT, and that one is complete. Slots of 0 do not count, nor slots with an address at
        /// which fewer than 4 bytes are in the image, nor slots of the XSDT with an address of 0x100000000 or above,
        /// which no RSDT can list.
        ///
        /// Numbers: `at` is 0x10 (16), the offset of RsdtAddress in the RSDP, `point` is the signature as a
        /// little-endian number: 0x54545050 is `PPTT`. If several signatures differ, it is the lowest of these numbers.
        RsdtDiffers = 130,
        /// Two structures share bytes of memory. Compared are the RSDP; the XSDT or RSDT; the FACS, if it has none of
        /// the faults 27 to 31; the DSDT, if its signature is `DSDT`; and the listed tables, by slot. Each counts with
        /// all its bytes, if they are in the image; a table with a Length below 36 does not count. Of those that begin
        /// at the same address only the first in this order counts, with its length.
        ///
        /// Numbers: `at` and `other` are the addresses at which two such structures begin, the lower one first, `point`
        /// is the lowest address at which two of them overlap.
        TablesOverlap = 131,
        /// The FADT names no DSDT: DSDT is 0, and X_DSDT does not exist or is 0.
        ///
        /// Numbers: `at` is 0x28 (40), the offset of DSDT.
        NoDsdt = 132,
        /// The FADT names a DSDT, and what is there has another signature, a Length below 36, or a wrong checksum
        /// (5.2.11.1). Its header, 36 bytes, is in the image; for the checksum all Length bytes are.
        ///
        /// Numbers: `at` is 0x28 (40), the offset of DSDT in the FADT, `point` is the DSDT's address.
        DsdtWrong = 133,
        /// The hardware is not reduced, and PM1a_EVT_BLK or PM1a_CNT_BLK has no address, neither in its 4-byte field
        /// nor in its X_ structure.
        ///
        /// Numbers: `at` is the offset of the 4-byte field, 0x38 (56) or 0x40 (64).
        NoPm1Block = 134,
        /// The hardware is not reduced, and the length byte of a register block is not the bit width of its X_
        /// structure. Neither address is 0, neither the width nor the length is 0, and the length is at most 31, since
        /// a width is one byte.
        ///
        /// Numbers: `at` is the offset of the 4-byte address, `other` is 8 times the length byte, `point` is the bit
        /// width.
        BlockWidth = 135,
        /// The hardware is not reduced, and one of the register blocks PM2_CNT, PM_TMR, GPE0 and GPE1 has a length and
        /// no address, or an address and no length.
        ///
        /// Numbers: `at` is the offset of the 4-byte field, `other` is the length byte, `point` is the address, or 0 if
        /// there is none.
        HalfBlock = 136,
        /// The hardware is not reduced, and two register blocks in system I/O share a port. A block is at the address
        /// of its X_ structure or, if that is missing or 0, at its 4-byte address. It has as many ports as its length
        /// byte says. If the length byte is 0, a block at its X_ address has its bit width / 8 ports, rounded up, and
        /// one at its 4-byte address has none.
        ///
        /// Numbers: `at` and `other` are the offsets of the 4-byte fields of two such blocks, first the one that begins
        /// lower, and of two that begin together the one at the lower offset; `point` is the lowest port at which two
        /// blocks overlap.
        PortsOverlap = 137,
        /// A register in system I/O is at a port above 0xffff. Checked are the last port of each register block and
        /// SMI_CMD, unless the hardware is reduced, and RESET_REG in system I/O, if RESET_REG_SUP is set and Length is
        /// at least 129.
        ///
        /// Numbers: `at` is the offset of the block's 4-byte field, of SMI_CMD, 0x30 (48), or of RESET_REG, 0x74 (116),
        /// `other` is the number of bytes, `point` is the address.
        PortPastEnd = 138,
        /// The hardware is not reduced, there are two GPE blocks, and GPE1_BASE is below 4 * GPE0_BLK_LEN, the number
        /// of events of GPE0.
        ///
        /// Numbers: `at` is 0x5e (94), the offset of GPE1_BASE, `other` is 4 * GPE0_BLK_LEN, `point` is GPE1_BASE.
        GpeOverlap = 139,
        /// The hardware is not reduced, and SMI_CMD does not fit its commands. Either SMI_CMD is not 0, and ACPI_ENABLE
        /// and ACPI_DISABLE are the same; or SMI_CMD is 0, and a command is not.
        ///
        /// Numbers: `at` is 0x30 (48), the offset of SMI_CMD, `other` is the offset of ACPI_ENABLE, 0x34 (52), or of
        /// the first command that is not 0, `point` is SMI_CMD.
        SmiHalf = 140,
        /// The hardware is not reduced, and SCI_INT is 0.
        ///
        /// Numbers: `at` is 0x2e (46), the offset of SCI_INT.
        SciZero = 141,
        /// RESET_REG_SUP is set, Length is at least 129, and the address in RESET_REG is 0.
        ///
        /// Numbers: `at` is 0x74 (116), the offset of RESET_REG.
        ResetNowhere = 142,
        /// The MADT is of a machine of Arm or RISC-V, and the FADT does not fit it. With a structure of type 11 (GICC)
        /// or 24 (RINTC), of any length, HW_REDUCED_ACPI must be set; with one of type 11 the FADT must not be older
        /// than 5.1.
        ///
        /// Numbers: for HW_REDUCED_ACPI `at` is 0x70 (112), the offset of Flags. For the version `at` is 0x8, the
        /// offset of Revision, `other` is Revision, `point` is the minor version.
        FadtForArch = 143,
        /// The hardware is reduced, and its sleep registers cannot be used. One of them has an address and a bit width
        /// other than 8 or a bit offset other than 0; or both exist, and only one has an address.
        ///
        /// Numbers: `at` is the register's offset, 0xf4 (244) or 0x100 (256). For a width or an offset `other` is the
        /// bit width, `point` is the bit offset; for a register without an address both are 0.
        SleepRegister = 144,
        /// A field of the FADT has a reserved value. Byte 44 is above 1, Preferred_PM_Profile is above 8, byte 111 is
        /// not 0, a bit of Flags above bit 23 is set, or bits 22 and 23 both are.
        ///
        /// Numbers: `at` is the field's offset, `point` is its value.
        FadtReserved = 145,
        /// A field of the FACS has a reserved value. Version is above 2, a byte from 33 to 35 or from 40 to 63 is not
        /// 0, a bit of Flags above bit 1 is set, or a bit of OSPM Flags above bit 0. Applies only to a FACS without the
        /// faults 27 to 31.
        ///
        /// Numbers: `at` is the field's offset in the FACS, `point` is its value.
        FacsReserved = 146,
        /// A field of the RSDP has a reserved value. Revision is neither 0 nor 2; or Revision is 2 or above, and Length
        /// is above 36 or a byte from 33 to 35 is not 0. Length is looked at if as many bytes as it says are in the
        /// image.
        ///
        /// Numbers: `at` is the field's offset in the RSDP, `point` is its value.
        RsdpReserved = 147,
        /// A text in the header of a listed table has a byte that is not printable ASCII, 0x20 to 0x7e. Zeros at the
        /// end of a text are allowed. A table counts if its header, 36 bytes, is in the image.
        ///
        /// Numbers: `at` is the slot's number, `other` the offset of the text, `point` is the table's address.
        HeaderText = 148,
        /// A slot lists a table of a kind of which a set has at most one, and an earlier slot lists one with the same
        /// signature at another address. The kinds are BERT, BGRT, CCEL, CPEP, DBG2, DMAR, ECDT, EINJ, ERST, FPDT,
        /// GTDT, HEST, HMAT, IORT, IVRS, MCFG, MPST, MSCT, NFIT, PCCT, PDTT, PHAT, PMTT, PRMT, RASF, RAS2, SBST, SDEI,
        /// SDEV, SPCR, SVKL, TPM2, VIOT, WAET and WSMT. A table counts if its header, 36 bytes, is in the image.
        ///
        /// Numbers: `at` is the slot's number, `other` that of the first slot with this signature, `point` is the
        /// address in slot `at`.
        SecondOther = 149,
        /// A usable local x2APIC has an X2APIC ID below 255, beside a usable local APIC with another APIC ID than 255
        /// (5.2.12.12).
        ///
        /// Numbers: `at` is the offset of the local x2APIC, `point` is its X2APIC ID.
        X2ApicBelow255 = 150,
        /// A usable local APIC has the APIC ID 255, or a usable local x2APIC the X2APIC ID 0xffffffff (5.2.12.2,
        /// 5.2.12.12).
        ///
        /// Numbers: `at` is the structure's offset, `point` is the ID.
        BroadcastId = 151,
        /// A processor is Online Capable and not Enabled, and the FADT's version does not have this flag: it is older
        /// than 6.3 for a local APIC or x2APIC, or older than 6.5 for a GICC (5.2.12.2, 5.2.12.12, 5.2.12.14).
        ///
        /// Numbers: `at` is the structure's offset, `other` is the FADT's Revision, `point` is its minor version.
        CapableTooEarly = 152,
        /// A processor is both Enabled and Online Capable (5.2.12.2, 5.2.12.12, 5.2.12.14).
        ///
        /// Numbers: `at` is the structure's offset, `point` is its Flags.
        EnabledAndCapable = 153,
        /// An interrupt source override has a Source above 15 that is not SCI_INT (5.2.12.5). Applies if there is a
        /// FADT.
        ///
        /// Numbers: `at` is the override's offset, `other` is its Source, `point` is its Global System Interrupt.
        OverridePastIsa = 154,
        /// The override of Source 0, the timer of the ISA bus, says that the interrupt is level-triggered (5.2.12.5).
        ///
        /// Numbers: `at` is the override's offset, `point` is its Flags.
        TimerLevel = 155,
        /// An override has the Global System Interrupt of an earlier one with another Source (5.2.12.5).
        ///
        /// Numbers: `at` is the override's offset, `other` that of the first one with this number and another Source,
        /// `point` is the number.
        TwoSourcesOneGsi = 156,
        /// The NMI of a local APIC or local x2APIC is wired to another input than LINT1 (5.2.12.7, 5.2.12.13).
        ///
        /// Numbers: `at` is the structure's offset, `point` is the LINT#.
        LintNotOne = 157,
        /// A local APIC or local x2APIC is usable, the MADT has overrides or NMI sources, and it has no I/O APIC
        /// (5.2.12.3). There is no I/O SAPIC (type 6) either. Applies only if the MADT is well-formed.
        ///
        /// Numbers: all 0.
        NoIoApic = 158,
        /// The MADT has a GICC (type 11) and no GIC Distributor (type 12), of any length (5.2.12.15). Applies only if
        /// the MADT is well-formed.
        ///
        /// Numbers: all 0.
        NoDistributor = 159,
        /// The GIC has version 3 or 4, and no redistributor is described (5.2.12.17). There is no structure of type 14,
        /// and no usable GICC has a GICR Base Address other than 0. Applies only if the MADT is well-formed.
        ///
        /// Numbers: `at` is the GICD's offset, `other` is its version.
        NoRedistributor = 160,
        /// The GIC has version 3 or 4, and the GICRs have room for fewer redistributors than there are usable GICCs
        /// (5.2.12.17). Each redistributor takes 0x20000 bytes of one range. Applies only if the MADT is well-formed
        /// and all its structures of type 14 have 16 bytes.
        ///
        /// Numbers: `at` is the offset of the first GICR, `other` is the number of redistributors for which there is
        /// room, `point` that of usable GICCs.
        GicrTooSmall = 161,
        /// The GIC has version 1 or 2, and a GICC has another Physical Base Address than the first GICC (5.2.12.14).
        ///
        /// Numbers: `at` is the offset of the GICC, `other` that of the first GICC, `point` is the address of the one
        /// at `at`.
        GiccBaseDiffers = 162,
        /// A usable GICC has the MPIDR of an earlier usable one (5.2.12.14).
        ///
        /// Numbers: `at` is the structure's offset, `other` that of the first usable one with this MPIDR, `point` is
        /// the MPIDR.
        SameMpidr = 163,
        /// The MPIDR of a usable GICC has a bit set outside of 0xff00ffffff, its four affinity fields (5.2.12.14).
        ///
        /// Numbers: `at` is the structure's offset, `point` is the MPIDR.
        MpidrReserved = 164,
        /// A GICR has a Discovery Range Length of 0 (5.2.12.17).
        ///
        /// Numbers: `at` is the structure's offset, `point` is the base address.
        GicrEmpty = 165,
        /// An ITS has the GIC ITS ID of an earlier one (5.2.12.18).
        ///
        /// Numbers: `at` is the structure's offset, `other` that of the first one with this ID, `point` is the ID.
        SameIts = 166,
        /// An MSI frame has the GIC MSI Frame ID of an earlier one (5.2.12.16).
        ///
        /// Numbers: `at` is the structure's offset, `other` that of the first one with this ID, `point` is the ID.
        SameMsiFrame = 167,
        /// Two structures of the GIC share an address (5.2.12.15). A GICR has as many bytes as its Discovery Range
        /// Length says, an ITS 0x20000, an MSI frame 0x1000, and a GICD 0x10000 if its version is 3 or 4 and 0x1000
        /// otherwise.
        ///
        /// Numbers: `at` and `other` are the offsets of two such structures, first the one that begins lower, and of
        /// two that begin together the one at the lower offset; `point` is the lowest address at which two overlap.
        GicOverlap = 168,
        /// There is a GICR, and a usable GICC also has a GICR Base Address other than 0 (5.2.12.14, 5.2.12.17).
        ///
        /// Numbers: `at` is the offset of the GICC, `other` that of the first GICR, `point` is the GICR Base Address.
        RedistributorTwice = 169,
        /// More than one GICC is usable, and nothing says how the other processors are started (5.2.12.14).
        /// ARM_BOOT_ARCH exists, its bit 0, PSCI_COMPLIANT, is clear, and the Parking Protocol Version is 0 in all
        /// usable GICCs. Applies only if the MADT is well-formed.
        ///
        /// Numbers: `at` is 0x81 (129), the offset of ARM_BOOT_ARCH in the FADT, `point` is ARM_BOOT_ARCH.
        NoBootMethod = 170,
        /// A usable RINTC has the Hart ID of an earlier usable one. RINTC comes after ACPI 6.5.
        ///
        /// Numbers: `at` is the structure's offset, `other` that of the first usable one with this ID, `point` is the
        /// ID.
        SameHart = 171,
        /// A field of the MADT has a reserved value. It is a bit of the MADT's Flags above bit 0; a reserved byte or a
        /// reserved bit of the flags in a structure of types 0 to 5, 9 and 10; or, in a GICD, a byte from 16 to 19 that
        /// is not 0, or a version above 4.
        ///
        /// Numbers: for the MADT's Flags `at` is 0x28 (40), `point` is Flags. Otherwise `at` is the structure's offset,
        /// `other` the offset in it of the first field or byte that is wrong.
        MadtReserved = 172,
        /// The SRAT has an affinity, and no enabled memory range with a Length above 0 (5.2.16.2). Applies only if the
        /// SRAT is well-formed.
        ///
        /// Numbers: all 0.
        NoMemoryRange = 173,
        /// An enabled memory range has a Length of 0 (5.2.16.2).
        ///
        /// Numbers: `at` is the structure's offset, `point` is the Base Address.
        EmptyRange = 174,
        /// A generic initiator (type 5, 32 bytes) is not enabled (5.2.16.6).
        ///
        /// Numbers: `at` is the structure's offset, `point` is its domain.
        InitiatorOff = 175,
        /// The SRAT's Revision is below 2, and an enabled structure of type 0 or 1 has a domain above 255 (5.2.16).
        ///
        /// Numbers: `at` is the structure's offset, `other` is the Revision, `point` is the domain.
        DomainPastRevision = 176,
        /// An ITS affinity of the SRAT names an ITS that the MADT does not have (5.2.16.5). Applies only if the MADT is
        /// well-formed and all its structures of type 15 have 20 bytes.
        ///
        /// Numbers: `at` is the structure's offset in the SRAT, `point` is its ITS ID.
        ItsNowhere = 177,
        /// A field of the SRAT has a reserved value. The 4 bytes at 36 are not the number 1, or a structure of types 0
        /// to 2 has a reserved byte that is not 0 or a reserved bit of its flags set.
        ///
        /// Numbers: for the number `at` is 0x24 (36), `point` is the number. Otherwise `at` is the structure's offset,
        /// `other` the offset in it of the first field or byte that is wrong.
        SratReserved = 178,
        /// The distance from one locality to another one is 10, which means the same locality (5.2.17).
        ///
        /// Numbers: `at` is the offset of the distance in the SLIT, `other` is i, `point` is j: it is the distance from
        /// i to j.
        RemoteAsLocal = 179,
        /// The PPTT's Revision is 2 or above, and a node with a valid ACPI Processor ID is no node's Parent and is not
        /// marked as a leaf (5.2.30.1). Applies only if the PPTT is well-formed.
        ///
        /// Numbers: `at` is the node's offset, `point` is its ACPI Processor ID.
        LeafUnflagged = 180,
        /// The PPTT's Revision is 2 or above, and a node that is marked as a leaf is the Parent of a node (5.2.30.1).
        ///
        /// Numbers: `at` is the leaf's offset, `other` that of the first node that names it as its Parent.
        LeafAsParent = 181,
        /// The Parents of a leaf lead to a node whose Parent is 0, and neither the leaf nor any of these nodes is
        /// marked as a physical package (5.2.30.1). Parents that lead to no node (52) or in a circle (55) keep the
        /// rule.
        ///
        /// Numbers: `at` is the leaf's offset, `point` is its ACPI Processor ID.
        NoPackage = 182,
        /// The valid numbers of a cache contradict each other (5.2.30.2). Its Associativity is valid and 0, or its Size
        /// is valid and 0; or Size, Number of Sets, Associativity and Line Size are all valid, and Size is not the
        /// product of the others.
        ///
        /// Numbers: `at` is the cache's offset, `other` is its Size, `point` is Number of Sets * Associativity * Line
        /// Size, as these fields are.
        CacheNumbers = 183,
        /// A field of a node or a cache has a reserved value. A reserved byte, 2 or 3, is not 0; or a reserved bit is
        /// set: above bit 4 in the flags of a node, above bit 7 in those of a cache, above bit 4 in the attributes of a
        /// cache.
        ///
        /// Numbers: `at` is the structure's offset, `other` the offset in it of the first field or byte that is wrong.
        PpttReserved = 184,
        /// The MCFG's Length is not 44 plus 16 for each of one or more entries: there is no entry, or bytes are left
        /// over after the last one.
        ///
        /// Numbers: `at` is 0x4, the offset of Length, `other` is the next length above Length that is right, `point`
        /// is Length.
        McfgLength = 185,
        /// The base address of an entry of the MCFG is 0 or no multiple of 1 MiB.
        ///
        /// Numbers: `at` is the entry's offset, `point` is its base address.
        EcamAddress = 186,
        /// An entry of the MCFG has an end bus number below its start bus number.
        ///
        /// Numbers: `at` is the entry's offset, `other` is 0xb (11), the offset of the end bus number in it, `point` is
        /// the end bus number.
        BusesReversed = 187,
        /// The address range of an entry of the MCFG ends above the highest address: its base address plus 1 MiB for
        /// each bus from 0 to its end bus number is above 2^64.
        ///
        /// Numbers: `at` is the entry's offset, `point` is its base address.
        EcamWraps = 188,
        /// The MCFG's Revision is 0, and an entry's base address is 0xffffffff or above. Applies if OEMID does not
        /// begin with `SGI`.
        ///
        /// Numbers: `at` is the entry's offset, `point` is its base address.
        EcamTooHigh = 189,
        /// Two entries of the MCFG have the same bus of the same segment. An entry whose end bus number is below its
        /// start bus number has no bus.
        ///
        /// Numbers: `at` and `other` are the offsets of two such entries, first the one whose buses begin lower, and of
        /// two that begin together the one at the lower offset; `point` is 256 * segment + bus of the lowest bus that
        /// two have.
        SameBus = 190,
        /// The ECAMs of two entries of the MCFG share an address.
        ///
        /// Numbers: `at` and `other` are the offsets of two such entries, first the one whose ECAM begins lower, and of
        /// two that begin together the one at the lower offset; `point` is the lowest address at which two overlap.
        EcamOverlap = 191,
        /// The HPET's Length is below 56.
        ///
        /// Numbers: `at` is 0x4, the offset of Length, `other` is 0x38 (56), `point` is Length.
        HpetLength = 192,
        /// The HPET's base address is not in memory: its address space is not 0.
        ///
        /// Numbers: `at` is 0x28 (40), the offset of the address space, `point` is the address space.
        HpetSpace = 193,
        /// The HPET's base address is 0; or 0xfed0000000000000, which is 0xfed00000 with its halves swapped; or no
        /// multiple of 1024, the size of its registers.
        ///
        /// Numbers: `at` is 0x2c (44), the offset of the base address, `point` is the base address.
        HpetAddress = 194,
        /// The HMAT's Length is below 40, or its Revision is neither 1 nor 2.
        ///
        /// Numbers: `at` is the offset of the field, 0x4 of Length or 0x8 of Revision, `point` is the field; for Length
        /// `other` is 0x28 (40).
        HmatHeader = 195,
        /// After the last structure of the HMAT there are bytes that are not a structure: fewer than 8 bytes, a length
        /// below 8, or a length that goes past the end of the table.
        ///
        /// Numbers: `at` is the offset of these bytes, `other` is the length that they say, or 0 if they are fewer than
        /// 8, `point` is the HMAT's Length.
        HmatCut = 196,
        /// A structure of the HMAT has a wrong length: one of type 0 not 40, one of type 1 below 32 + 4 * I + 4 * T +
        /// 2 * I * T, or one of type 2 below 32 + 2 * H. I, T and H count only if the structure has 32 bytes.
        ///
        /// Numbers: `at` is the structure's offset, `other` is the length that it needs, at most 2^64 - 1, `point` is
        /// its length.
        HmatLength = 197,
        /// Data Type of a structure of type 1 is above 5.
        ///
        /// Numbers: `at` is the structure's offset, `other` is 0x9, the offset of Data Type in it, `point` is Data
        /// Type.
        HmatDataType = 198,
        /// The memory hierarchy of a structure of type 1, bits 3:0 of Flags, is above 4 in an HMAT of Revision 1, or
        /// above 3 in any other.
        ///
        /// Numbers: `at` is the structure's offset, `other` is 0x8, the offset of Flags in it, `point` is Flags.
        HmatHierarchy = 199,
        /// Entry Base Unit of a structure of type 1 is 0.
        ///
        /// Numbers: `at` is the structure's offset, `other` is 0x18 (24), the offset of Entry Base Unit in it.
        HmatUnit = 200,
        /// A value in the matrix of a structure of type 1, times Entry Base Unit, is above 2^32 - 1. 0xffff does not
        /// count: it says that the initiator cannot reach the target.
        ///
        /// Numbers: `at` is the offset of the value in the structure's matrix, `point` is the value.
        HmatTooLarge = 201,
        /// Two initiators of a structure of type 1 have the same domain, or two of its targets.
        ///
        /// Numbers: `at` is the offset of the domain in one of the structure's lists, `other` that of the first one in
        /// that list with the same value, `point` is the domain.
        HmatSameDomain = 202,
        /// A structure of type 0 has an initiator, bit 0 of Flags, in a domain that no structure of the SRAT has; or
        /// memory in a domain that none of type 1 or 6 has: in an HMAT of Revision 1 if bit 1 of Flags is set, in any
        /// other always.
        ///
        /// Numbers: `at` is the structure's offset in the HMAT, `other` is the offset in it of the domain, 0xc (12) of
        /// the initiator or 0x10 (16) of the memory, `point` is the domain.
        HmatProximity = 203,
        /// An initiator or a target of a structure of type 1 is in a domain that no structure of the SRAT has.
        ///
        /// Numbers: `at` is the offset of the domain in the structure's list, `point` is the domain.
        HmatDomainNowhere = 204,
        /// A structure of type 2 is of a domain that no memory affinity (type 1) of the SRAT has.
        ///
        /// Numbers: `at` is the structure's offset in the HMAT, `other` is 0x8, the offset of the domain in it, `point`
        /// is the domain.
        HmatCacheNowhere = 205,
        /// Cache Attributes of a structure of type 2 have a number of levels, bits 3:0, above 3; a level, bits 7:4,
        /// above that number; or an associativity, bits 11:8, or a write policy, bits 15:12, above 2.
        ///
        /// Numbers: `at` is the structure's offset, `other` is 0x18 (24), the offset of Cache Attributes in it, `point`
        /// is Cache Attributes.
        HmatCache = 206,
        /// There is an HMAT, whatever its Length and Revision, and the XSDT or RSDT lists no SRAT. The header of an
        /// SRAT, 36 bytes, is enough.
        ///
        /// Numbers: all 0.
        HmatAlone = 207,
        /// The GTDT's Length is below 80, or in Revision 2 below 96, or from Revision 3 on below 104.
        ///
        /// Numbers: `at` is 0x4, the offset of Length, `other` is the length that the Revision needs, `point` is
        /// Length.
        GtdtLength = 208,
        /// The MADT is well-formed and has a GICC, and the XSDT or RSDT lists no GTDT. The header of a GTDT, 36 bytes,
        /// is enough.
        ///
        /// Numbers: all 0.
        NoGtdt = 209,
        /// The GSIVs of the non-secure EL1 timer and of the virtual timer are both 0.
        ///
        /// Numbers: `at` is 0x38 (56), the offset of the GSIV of the non-secure EL1 timer.
        NoTimer = 210,
        /// The GSIV of a timer of each processor is not 0, and no PPI: neither 16 to 31 nor 1056 to 1119.
        ///
        /// Numbers: `at` is the offset of the timer's GSIV, `point` is the GSIV.
        TimerNoPpi = 211,
        /// Two timers of each processor have the same GSIV, which is not 0. The secure EL1 timer is not compared.
        ///
        /// Numbers: `at` is the offset of the GSIV of a timer, `other` that of the first one with the same value,
        /// `point` is the GSIV.
        SameTimer = 212,
        /// The Revision is at least 2, Platform Timer Count is not 0, and Platform Timer Offset is within the GTDT's
        /// fields; or a platform timer goes past the table's end or has a length below 4; or one has a type above 1.
        ///
        /// Numbers: `at` is the offset of Platform Timer Offset, 0x5c (92), or of the platform timer, `point` is that
        /// field or the type. For one that does not fit `other` is its length, 0 if it has none, `point` is the GTDT's
        /// Length.
        PlatformTimerCut = 213,
        /// A GT Block has fewer than 20 bytes; or its GT Block Timer Count is not 1 to 8, or GT Block Timer Offset is
        /// below 20; or both are right, and the length is not the offset plus 40 for each frame.
        ///
        /// Numbers: `at` is the structure's offset, `other` is the length that it needs, `point` is its length; or
        /// `other` is the offset in it of GT Block Timer Count, 0xc (12), or GT Block Timer Offset, 0x10 (16), `point`
        /// is that field.
        TimerBlock = 214,
        /// GT Frame Number of a frame is above 7; or the frame is non-secure, bit 0 of its flags is clear, and its
        /// CntBase or the GSIV of its physical timer is 0.
        ///
        /// Numbers: `at` is the frame's offset, `other` is the offset in it of the field that is wrong, 0 of GT Frame
        /// Number, 0x4 of CntBase, 0x14 (20) of the physical timer's GSIV, `point` is the field.
        TimerFrame = 215,
        /// Two frames of a GT Block have the same GT Frame Number.
        ///
        /// Numbers: `at` is the frame's offset, `other` that of the first frame of the GT Block with this number,
        /// `point` is the number.
        SameFrame = 216,
        /// A watchdog does not have 28 bytes; or its RefreshFrame or WatchdogControlFrame address is 0.
        ///
        /// Numbers: `at` is the structure's offset. For its length `other` is 0x1c (28), `point` is its length. For an
        /// address `other` is the offset of it in the structure, 0x4 of RefreshFrame or 0xc (12) of
        /// WatchdogControlFrame.
        Watchdog = 217,
        /// A GSIV of a frame or a watchdog is not 0, and no SPI: neither 32 to 1019 nor 4096 to 5119.
        ///
        /// Numbers: `at` is the offset of the frame or the watchdog, `other` is the offset in it of the GSIV, 0x14 (20)
        /// of the frame's physical timer or of the watchdog, 0x1c (28) of the frame's virtual timer, `point` is the
        /// GSIV.
        TimerNoSpi = 218,
        /// Two of these ranges of 4096 bytes share an address: those from the CntCtlBase of a GT Block, from the
        /// CntBase or CntEL0Base of a frame, and from the RefreshFrame or WatchdogControlFrame of a watchdog. An
        /// address of 0 or 2^64 - 1 has no range.
        ///
        /// Numbers: `at` and `other` are the offsets in the GTDT of the addresses of two such ranges, first that of the
        /// one that begins lower, and of two that begin together the lower offset; `point` is the lowest address at
        /// which two overlap.
        TimerOverlap = 219,
        /// The DMAR's Length is below 48, or Host Address Width is below 11 or above 63.
        ///
        /// Numbers: `at` is the offset of the field, 0x4 of Length or 0x24 (36) of Host Address Width, `point` is the
        /// field; for Length `other` is 0x30 (48).
        DmarWidth = 240,
        /// After the last structure of the DMAR there are bytes that are not a structure: fewer than 4 bytes, a length
        /// below 4, or a length that goes past the end of the table.
        ///
        /// Numbers: `at` is the offset of these bytes, `other` is the length that they say, or 0 if they are fewer than
        /// 4, `point` is the DMAR's Length.
        DmarCut = 241,
        /// A structure is too short for its type: a DRHD needs 16 bytes, an RMRR 24, an RHSA 20, an ANDD 9, and an
        /// ATSR, an SATC or an SIDP 8.
        ///
        /// Numbers: `at` is the structure's offset, `other` is the length that its type needs, `point` is its length.
        DmarShort = 242,
        /// The DMAR has no DRHD.
        ///
        /// Numbers: all 0.
        NoDrhd = 243,
        /// After the last device scope of a structure there are bytes that are not a device scope: a single byte, a
        /// length below 8, or a length that goes past the end of the structure.
        ///
        /// Numbers: `at` is the offset of these bytes, `other` is the length that they say, or 0 if there is 1 byte,
        /// `point` is the offset at which the structure ends.
        ScopeCut = 244,
        /// The type of a device scope is 0 or above 5, or its length is odd; or a step of its path has a Device above
        /// 31 or a Function above 7.
        ///
        /// Numbers: `at` is the offset of the device scope or of the step, `other` is 0 for the scope's type or the
        /// step's Device, 0x1 for the scope's length or the step's Function, `point` is that number.
        ScopeType = 245,
        /// Register Base Address of a DRHD is 0, or no multiple of 4096.
        ///
        /// Numbers: `at` is the structure's offset, `other` is 0x8, the offset of Register Base Address in it, `point`
        /// is that address.
        DrhdAddress = 246,
        /// The registers of two DRHDs share an address. They have 4096 * 2^n bytes, where n is bits 3:0 of Size. There
        /// are none where Register Base Address is 0.
        ///
        /// Numbers: `at` and `other` are the offsets of two such structures, first the one whose registers begin lower,
        /// and of two that begin together the one at the lower offset; `point` is the lowest address at which two
        /// overlap.
        DrhdOverlap = 247,
        /// Two DRHDs of one segment have INCLUDE_PCI_ALL set; or two ATSRs of one segment have ALL_PORTS set.
        ///
        /// Numbers: `at` is the structure's offset, `other` that of the first one of its type with this flag and this
        /// segment, `point` is its Segment Number.
        SecondIncludeAll = 248,
        /// A DRHD without INCLUDE_PCI_ALL comes after one of the same segment that has it. The specification asks that
        /// this one is the last of its segment.
        ///
        /// Numbers: `at` is the structure's offset, `other` that of the first DRHD of its segment with INCLUDE_PCI_ALL,
        /// `point` is its Segment Number.
        IncludeAllNotLast = 249,
        /// The base address of an RMRR is no multiple of 4096; or bits 11:0 of its limit address are not all set; or
        /// its limit address is not above its base address.
        ///
        /// Numbers: `at` is the structure's offset, `other` is the offset in it of the address, 0x8 of Reserved Memory
        /// Region Base Address or 0x10 (16) of Reserved Memory Region Limit Address, `point` is that address.
        RmrrRange = 250,
        /// An RMRR has 24 bytes, so it has no device scope.
        ///
        /// Numbers: `at` is the structure's offset, `other` is 0x20 (32), the least length with a device scope, `point`
        /// is its length.
        RmrrNoDevice = 251,
        /// No DRHD has the Register Base Address of an RHSA.
        ///
        /// Numbers: `at` is the structure's offset, `other` is 0x8, the offset of Register Base Address in it, `point`
        /// is that address.
        RhsaNowhere = 252,
        /// No structure of the SRAT has Proximity Domain of an RHSA. Applies if SratUnread finds nothing.
        ///
        /// Numbers: `at` is the structure's offset in the DMAR, `other` is 0x10 (16), the offset of Proximity Domain in
        /// it, `point` is the domain.
        RhsaDomain = 253,
        /// Two RHSAs have the same Register Base Address.
        ///
        /// Numbers: `at` is the structure's offset, `other` that of the first RHSA with this address, `point` is the
        /// address.
        SameRhsa = 254,
        /// None of the bytes of ACPI Object Name of an ANDD is 0.
        ///
        /// Numbers: `at` is the structure's offset, `other` is 0x8, the offset of ACPI Object Name in it.
        AnddName = 255,
        /// Enumeration ID of a device scope of type 5 is the ACPI Device Number of no ANDD; or the ACPI Device Number
        /// of an ANDD is the Enumeration ID of no device scope of type 5 in a DRHD.
        ///
        /// Numbers: `at` is the offset of the device scope or of the ANDD, `other` is the offset in it of its number,
        /// 0x4 of the scope's Enumeration ID or 0x7 of ACPI Device Number, `point` is that number.
        AnddNowhere = 256,
        /// Bit 0 of the DMAR's Flags is set, and no device scope of type 3 in a DRHD has the ID of an I/O APIC of the
        /// MADT.
        ///
        /// Numbers: `at` is the offset of the I/O APIC in the MADT, `other` is 0x2, the offset of its ID in it, `point`
        /// is the ID.
        IoApicUnmapped = 257,
        /// Two device scopes of type 3, in DRHDs, have the same Enumeration ID.
        ///
        /// Numbers: `at` is the device scope's offset, `other` that of the first one with this ID, `point` is its
        /// Enumeration ID.
        SameScope = 258,
        /// The IVRS's Length is below 48; or after its last block there are bytes that are not a block: fewer than 4
        /// bytes, a length below 4, or a length that goes past the end of the table.
        ///
        /// Numbers: `at` is 0x4, the offset of Length, or the offset of these bytes; `other` is 0x30 (48), or the
        /// length that the bytes say, 0 if they are fewer than 4; `point` is the IVRS's Length.
        IvrsCut = 259,
        /// A block is too short for its type: an IVHD of type 0x10 needs 24 bytes, one of type 0x11 or 0x40 needs 40,
        /// and an IVMD 32.
        ///
        /// Numbers: `at` is the block's offset, `other` is the length that its type needs, `point` is its length.
        IvrsShort = 260,
        /// The IVRS has no IVHD.
        ///
        /// Numbers: all 0.
        NoIvhd = 261,
        /// IOMMU Base Address of an IVHD is 0, or no multiple of 16384.
        ///
        /// Numbers: `at` is the block's offset, `other` is 0x8, the offset of IOMMU Base Address in it, `point` is that
        /// address.
        IvhdAddress = 262,
        /// Two IVHDs of one type and one PCI Segment Group have the same DeviceID.
        ///
        /// Numbers: `at` is the block's offset, `other` that of the first IVHD of its type and PCI Segment Group with
        /// this DeviceID, `point` is the DeviceID.
        SameIvhd = 263,
        /// An IVHD has another IOMMU Base Address than the first IVHD with its PCI Segment Group and DeviceID; or
        /// another PCI Segment Group or DeviceID than the first one with its IOMMU Base Address.
        ///
        /// Numbers: `at` is the block's offset, `other` that of the first IVHD that has its IOMMU Base Address, or its
        /// PCI Segment Group and DeviceID, `point` is its IOMMU Base Address.
        IvhdDiffers = 264,
        /// After the last device entry of an IVHD there are bytes that are not a device entry: their type has no
        /// length, or a length that goes past the end of the block.
        ///
        /// Numbers: `at` is the offset of these bytes, `other` is the length of the type that they say, 0 if they say
        /// none, `point` is the offset at which the block ends.
        IvhdEntryCut = 265,
        /// A device entry is of an unknown type, or of type 0xf0 in an IVHD of another type than 0x40. Of type 0x48:
        /// Variety is 0 or above 3. Of type 0xf0: Hardware ID begins with 0; or UID Format is above 2; or UID Length is
        /// not 0 for the format 0, or not 8 for 1.
        ///
        /// Numbers: `at` is the device entry's offset, `other` is the offset in it of the byte that is wrong, 0 of its
        /// type, 0x4 of Hardware ID, 0x7 of Variety, 0x14 (20) of UID Format, 0x15 (21) of UID Length, `point` is that
        /// byte.
        IvhdEntryType = 266,
        /// A device entry that starts a range is not followed by one that ends it; or one that ends a range does not
        /// follow one that starts it, or has a lower DeviceID than that one.
        ///
        /// Numbers: `at` is the device entry's offset, `other` is 0x1, the offset of DeviceID in it, `point` is the
        /// DeviceID.
        IvhdRange = 267,
        /// IVHDs of a type have device entries of type 0x48 with Variety 1, and none of these has the ID of an I/O APIC
        /// of the MADT as Handle.
        ///
        /// Numbers: `at` is the offset of the I/O APIC in the MADT, `other` is 0x2, the offset of its ID in it, `point`
        /// is the ID.
        IoApicNotInIvrs = 268,
        /// Two device entries of type 0x48 with one Variety, in IVHDs of one type, have the same Handle.
        ///
        /// Numbers: `at` is the device entry's offset, `other` that of the first one of its Variety with this Handle in
        /// IVHDs of this type, `point` is the Handle.
        SameSpecial = 269,
        /// An IVMD of type 0x20 to 0x22 has neither Unity nor exclusion range set, or a higher bit of Flags; or IVMD
        /// Memory Block Length is 0, or the memory ends above the highest address; or, of type 0x22, the last DeviceID
        /// is below the first.
        ///
        /// Numbers: `at` is the block's offset, `other` is the offset in it of the field that is wrong, 0x1 of Flags,
        /// 0x6 of the last DeviceID, 0x10 (16) of IVMD Start Address, 0x18 (24) of IVMD Memory Block Length, `point` is
        /// that field.
        IvmdRange = 270,
        /// The SPCR's Length is below 80, or, from Revision 4 on, below 88.
        ///
        /// Numbers: `at` is 0x4, the offset of Length, `other` is the length that the Revision needs, `point` is
        /// Length.
        SpcrLength = 271,
        /// The SPCR's base address is neither in memory (address space 0) nor in I/O ports (1); or it is in memory, and
        /// its access size is above 3 (32 bits). Applies if the address is not 0 and the interface type is not 0x15,
        /// the RISC-V SBI console.
        ///
        /// Numbers: `at` is the offset of the address space, 0x28 (40), or of the access size, 0x2b (43); `point` is
        /// the space or the size.
        SpcrAddress = 272,
        /// The SPCR's baud rate is none of 0, 3, 4, 6 and 7, and there is no precise one: the Revision is below 4, or
        /// the number at 80 is 0.
        ///
        /// Numbers: `at` is 0x3a (58), the offset of the baud rate, `point` is its value.
        SpcrBaud = 273,
        /// Bit 0 (8259) of the SPCR's interrupt type is set, and IRQ is none of 2 to 7, 9 to 12, 14 and 15. Or, with a
        /// well-formed MADT, bit 1 (I/O APIC) is set, and the MADT has I/O APICs, none of which serves the GSI; or it
        /// has a GICD (type 12), the base address is not 0, and the interrupt type is neither 0 nor 8 (GIC), or is 8
        /// with a GSI that is no SPI, 32 to 1019 or 4096 to 5119.
        ///
        /// Numbers: `at` is the field's offset: 0x34 (52) of the interrupt type, 0x35 (53) of IRQ, 0x36 (54) of the
        /// GSI; `point` is the field.
        SpcrGsi = 274,
        /// Exactly one of the SPCR's PCI device ID and PCI vendor ID is 0xffff, which means no PCI device; or neither
        /// is, and the PCI device number is above 31 or the PCI function number above 7.
        ///
        /// Numbers: for the IDs `at` is 0x40 (64), the offset of the PCI device ID, `point` is the PCI device ID. For
        /// the numbers `at` is 0x45 (69) for the device or 0x46 (70) for the function, the offset of the number,
        /// `point` is the number.
        SpcrPci = 275,
        /// The SPCR's namespace string has fewer than 2 bytes, or does not lie between byte 88 and the table's end; or
        /// it lies there, and its last byte is not 0. Applies from Revision 4 on.
        ///
        /// Numbers: `at` is the offset of what is wrong, 0x54 (84) of NamespaceStringLength, 0x56 (86) of
        /// NamespaceStringOffset, or that of the string's last byte; `point` is its value.
        SpcrName = 276,
        /// The OEMID of the RSDP has a byte that is not printable ASCII, 0x20 to 0x7e. Zeros at its end are allowed.
        /// Applies if 20 bytes of the RSDP are in the image.
        ///
        /// Numbers: `at` is 0x9, the offset of OEMID in the RSDP, `point` is its 6 bytes as a number.
        RsdpText = 279,
        /// A text in the header of the XSDT or RSDT has a byte that is neither printable ASCII, 0x20 to 0x7e, nor one
        /// of the zeros at its end; or Revision is not 1. Applies if all bytes of the table are in the image.
        ///
        /// Numbers: `at` is the field's offset: 0x8 for Revision, 0xa (10) for OEMID, 0x10 (16) for OEM Table ID, 0x1c
        /// (28) for Creator ID; `point` is the field as a number.
        RootHeader = 280,
        /// A text in the header of the DSDT that the FADT names has a byte that is neither printable ASCII, 0x20 to
        /// 0x7e, nor one of the zeros at its end. Applies if 36 bytes with the signature `DSDT` are in the image.
        ///
        /// Numbers: `at` is the text's offset in the DSDT: 0xa (10) for OEMID, 0x10 (16) for OEM Table ID, 0x1c (28)
        /// for Creator ID; `point` is the text as a number.
        DsdtText = 281,
        /// Revision is 0; or the FADT is longer than one of its Revision: above 116 bytes at Revision 1, 132 at 2, 244
        /// at 3 or 4, 268 at 5, 276 from 6 on.
        ///
        /// Numbers: for the length `at` is 0x4, the offset of Length, `other` is the length that a FADT of this
        /// Revision has, `point` is Length. For Revision 0 `at` is 0x8, the offset of Revision.
        FadtPastRevision = 282,
        /// The FADT is older than 5.1, which added ARM_BOOT_ARCH, and this field exists and is not 0.
        ///
        /// Numbers: `at` is 0x81 (129), the offset of ARM_BOOT_ARCH, `point` is ARM_BOOT_ARCH.
        ArmBootEarly = 283,
        /// The hardware is reduced, HW_REDUCED_ACPI is set, and SMI_CMD, the 4-byte address of a register block, or the
        /// address in an X_ structure that exists is not 0.
        ///
        /// Numbers: `at` is the offset of the address, `point` is the address.
        FixedInReduced = 284,
        /// The hardware is not reduced, SMI_CMD is not 0, and exactly one of ACPI_ENABLE and ACPI_DISABLE is 0.
        ///
        /// Numbers: `at` is the offset of the one that is 0, 0x34 (52) or 0x35 (53).
        SmiHandshake = 285,
        /// The hardware is not reduced, and S4BIOS_REQ is not 0 while S4BIOS_F is clear, or is 0 while S4BIOS_F is set.
        /// Applies only to a FACS without the faults 27 to 31.
        ///
        /// Numbers: `at` is 0x36 (54), the offset of S4BIOS_REQ, `point` is S4BIOS_REQ.
        S4BiosDiffers = 286,
        /// The hardware is not reduced, and a GPE block has events above 255: GPE0 has an address, and GPE0_BLK_LEN is
        /// above 64; or GPE1 has one, and GPE1_BASE + 4 * GPE1_BLK_LEN is above 256. The address is that of the X_
        /// structure or of the 4-byte field.
        ///
        /// Numbers: for GPE0 `at` is 0x5c (92), the offset of GPE0_BLK_LEN, `point` is GPE0_BLK_LEN. For GPE1 `at` is
        /// 0x5e (94), the offset of GPE1_BASE, `point` is GPE1_BASE.
        GpePastEnd = 287,
        /// The hardware is not reduced, and the length byte of a register block other than GPE0 and GPE1 is above 31.
        /// The block's 4-byte address is not 0, and its X_ structure is missing or has the address 0.
        ///
        /// Numbers: `at` is the offset of the length byte, `point` is the length.
        BlockTooLong = 288,
        /// The hardware is not reduced, and the X_ structure of a register block exists and has an address other than 0
        /// and an address space above 1.
        ///
        /// Numbers: `at` is the offset of the X_ structure, which begins with its address space, `point` is this space.
        BlockSpace = 289,
        /// The hardware is not reduced, and an X_ structure that exists has an address other than 0 and another bit
        /// width than 32 for PM1a_EVT, PM1b_EVT and PM_TMR, 16 for PM1a_CNT and PM1b_CNT, or 8 for PM2_CNT (4.8.3).
        ///
        /// Numbers: `at` is the offset of the width in the X_ structure, `point` is the width, in bits.
        BlockUsualWidth = 290,
        /// The hardware is not reduced, and SLEEP_CONTROL_REG or SLEEP_STATUS_REG exists and has an address other than
        /// 0.
        ///
        /// Numbers: `at` is the offset of the address, `point` is the address.
        SleepNotReduced = 291,
        /// The MADT has a structure of type 24 (RINTC), of any length, and the FADT is older than 6.6.
        ///
        /// Numbers: `at` is 0x8, the offset of Revision, `other` is Revision, `point` is the minor version.
        FadtForRiscv = 292,
        /// A GICC is shorter than 76 bytes, its length in ACPI 5.1.
        ///
        /// Numbers: `at` is the structure's offset, `other` is 0x4c (76), `point` is its length.
        GiccShort = 293,
        /// The GIC has version 3 or 4, there is no structure of type 14, a usable GICC has a GICR Base Address other
        /// than 0, and that of an enabled GICC is 0. Applies only if the MADT is well-formed.
        ///
        /// Numbers: `at` is the structure's offset, `other` is 0x3c (60), the offset of the GICR Base Address in it.
        GiccNoGicr = 294,
        /// The GIC has version 3 or 4, there is no structure of type 14, and a GICC is Online Capable and not Enabled.
        /// Applies only if the MADT is well-formed.
        ///
        /// Numbers: `at` is the structure's offset, `other` is 0xc (12), the offset of Flags in it, `point` is Flags.
        CapableNoGicr = 295,
        /// A usable GICC of at least 60 bytes has another GICV, GICH or VGIC Maintenance Interrupt than the first such
        /// GICC, or another mode of this interrupt.
        ///
        /// Numbers: `at` is the structure's offset, `other` the offset in it of the field that differs: 0xc (12) for
        /// the mode, bit 2 of Flags, 0x28 (40) for GICV, 0x30 (48) for GICH, 0x38 (56) for the maintenance interrupt;
        /// `point` is the field.
        GiccDiffers = 296,
        /// The GIC has version 3 or 4, and an enabled GICC has the GICR Base Address of an earlier enabled one, other
        /// than 0.
        ///
        /// Numbers: `at` is the structure's offset, `other` that of the first enabled one with this redistributor,
        /// `point` is its address.
        SameGicrBase = 297,
        /// The Parking Protocol Version of a GICC is above 1.
        ///
        /// Numbers: `at` is the structure's offset, `other` is 0x10 (16), the offset of the version in it, `point` is
        /// the version.
        ParkingVersion = 298,
        /// The SPE Overflow Interrupt or the TRBE Interrupt of a GICC is neither 0 nor a PPI, 16 to 31 or 1056 to 1119.
        ///
        /// Numbers: `at` is the structure's offset, `other` the offset in it of the interrupt, 0x4e (78) for that of
        /// profiling, 0x50 (80) for that of the trace buffer, `point` is the interrupt.
        GiccNoPpi = 299,
        /// A structure of types 17 to 27 has a version other than 1. Applies if it has the length that MadtUnread
        /// names.
        ///
        /// Numbers: `at` is the structure's offset, `other` is 0x2, the offset of the version in it, `point` is the
        /// version.
        PicVersion = 300,
        /// A structure of types 11 to 15, 17, 24 and 25 has a reserved byte that is not 0, or a reserved bit of its
        /// flags set. Applies if it has the length that MadtUnread names.
        ///
        /// Numbers: `at` is the structure's offset, `other` the offset in it of the first field or byte that is wrong,
        /// `point` is the value there.
        FurtherReserved = 301,
        /// The Hart ID of a usable RINTC is 0xffffffffffffffff.
        ///
        /// Numbers: `at` is the structure's offset, `other` is 0x8, the offset of the ID in it, `point` is the ID.
        HartInvalid = 302,
        /// In a structure of type 16, of any length, the Mailbox Version is above 1, a byte from 4 to 7 is not 0, or
        /// the Mailbox Address is 0 or no multiple of 4096; or its length is not that of its version: 24 bytes for 1;
        /// 16 for 0, and if it is too short to have a version.
        ///
        /// Numbers: `at` is the structure's offset. For its length `other` is the length of its version, `point` is its
        /// length. Otherwise `other` is the offset in it of the field that is wrong, `point` is the value there.
        WakeupMailbox = 303,
        /// A Local APIC Address Override (type 5, 12 bytes) has the address 0 (5.2.12.8).
        ///
        /// Numbers: `at` is the structure's offset, `other` is 0x4, the offset of the address in it.
        LapicAtZero = 304,
        /// The MADT has a structure of types 9 to 15, of any length, and a Revision below 3; or one of types 24 to 27,
        /// of any length, and a Revision below 6.
        ///
        /// Numbers: `at` is 0x8, the offset of Revision, `point` is Revision.
        MadtRevision = 305,
        /// A structure of types 3 to 7 has a reserved byte that is not 0, or a reserved bit of its flags set. Applies
        /// if it has the length that SratUnread names.
        ///
        /// Numbers: `at` is the structure's offset, `other` the offset in it of the first field or byte that is wrong,
        /// `point` is the value there.
        AffinityReserved = 306,
        /// A generic initiator or port (types 5 and 6, 32 bytes) has a Device Handle Type above 1.
        ///
        /// Numbers: `at` is the structure's offset, `other` is 0x3, the offset of Device Handle Type in it, `point` is
        /// this type.
        DeviceHandle = 307,
        /// Nothing else is in the proximity domain of an ITS affinity (type 4, 12 bytes): no affinity, no enabled
        /// memory range, and no enabled initiator or port. Applies only if the SRAT is well-formed and SratUnread finds
        /// nothing in it.
        ///
        /// Numbers: `at` is the structure's offset, `other` is 0x2, the offset of the domain in it, `point` is the
        /// domain.
        ItsDomain = 308,
        /// The PPTT has a structure of a type above 1, of any length. `acpiset` uses only its type and length.
        ///
        /// Numbers: `at` is the offset of the first one, `other` its type.
        PpttUnread = 309,
        /// The PPTT's Revision is 3 or more, and a cache of 28 bytes with a valid Cache ID, bit 7 of its flags, has the
        /// Cache ID 0.
        ///
        /// Numbers: `at` is the cache's offset, `other` is 0x18 (24), the offset of the Cache ID in it.
        CacheIdZero = 310,
        /// A node names two caches of one type, neither of which is the Next Level of a cache that the node names. The
        /// type is valid in both, bit 4 of their flags; 10b and 11b are one type, unified.
        ///
        /// Numbers: `at` is the node's offset, `other` that of the first cache of the type, `point` that of the other
        /// one.
        SameCacheType = 311,
    }
}

impl Rule {
    /// How serious a finding of it is; none of a rule that this version of the crate does not know.
    #[must_use]
    #[rustfmt::skip]
    pub const fn severity(self) -> Option<Severity> {
        Some(match self {
            Rule::MadtUnread
            | Rule::SratUnread
            | Rule::PpttUnread => Severity::NotLookedAt,
            Rule::SlitDiffers
            | Rule::CacheShape
            | Rule::NullSlot
            | Rule::FadtReserved
            | Rule::FacsReserved
            | Rule::RsdpReserved
            | Rule::HeaderText
            | Rule::SecondOther
            | Rule::EnabledAndCapable
            | Rule::LintNotOne
            | Rule::NoIoApic
            | Rule::MadtReserved
            | Rule::SratReserved
            | Rule::LeafAsParent
            | Rule::CacheNumbers
            | Rule::PpttReserved
            | Rule::HmatDataType
            | Rule::HmatHierarchy
            | Rule::HmatTooLarge
            | Rule::HmatSameDomain
            | Rule::HmatCache
            | Rule::SameTimer
            | Rule::SameFrame
            | Rule::TimerOverlap
            | Rule::IncludeAllNotLast
            | Rule::RhsaDomain
            | Rule::IvhdEntryType
            | Rule::SpcrPci
            | Rule::RsdpText
            | Rule::RootHeader
            | Rule::DsdtText
            | Rule::FadtPastRevision
            | Rule::ArmBootEarly
            | Rule::FixedInReduced
            | Rule::SmiHandshake
            | Rule::S4BiosDiffers
            | Rule::SleepNotReduced
            | Rule::ParkingVersion
            | Rule::PicVersion
            | Rule::FurtherReserved
            | Rule::MadtRevision
            | Rule::AffinityReserved
            | Rule::DeviceHandle
            | Rule::CacheIdZero
            | Rule::SameCacheType => Severity::LookAtIt,
            Rule::ListedTwice
            | Rule::SecondTable
            | Rule::ListedApart
            | Rule::FadtOfRevision
            | Rule::FacsDiffers
            | Rule::DsdtDiffers
            | Rule::BlockDiffers
            | Rule::SciNowhere
            | Rule::SameUid
            | Rule::SameApicId
            | Rule::IoApicAtZero
            | Rule::SameIoApicId
            | Rule::SameIoApicAddress
            | Rule::NmiNowhere
            | Rule::SecondGicd
            | Rule::NoProcessor
            | Rule::TwoUidDomains
            | Rule::AffinityNowhere
            | Rule::NoDomain
            | Rule::DomainPastSlit
            | Rule::SameLeaf
            | Rule::SameCacheId
            | Rule::NoLeaf
            | Rule::LeafNowhere
            | Rule::RsdtDiffers
            | Rule::TablesOverlap
            | Rule::NoDsdt
            | Rule::DsdtWrong
            | Rule::NoPm1Block
            | Rule::BlockWidth
            | Rule::HalfBlock
            | Rule::PortsOverlap
            | Rule::PortPastEnd
            | Rule::GpeOverlap
            | Rule::SmiHalf
            | Rule::SciZero
            | Rule::ResetNowhere
            | Rule::FadtForArch
            | Rule::SleepRegister
            | Rule::X2ApicBelow255
            | Rule::BroadcastId
            | Rule::CapableTooEarly
            | Rule::OverridePastIsa
            | Rule::TimerLevel
            | Rule::TwoSourcesOneGsi
            | Rule::NoDistributor
            | Rule::NoRedistributor
            | Rule::GicrTooSmall
            | Rule::GiccBaseDiffers
            | Rule::SameMpidr
            | Rule::MpidrReserved
            | Rule::GicrEmpty
            | Rule::SameIts
            | Rule::SameMsiFrame
            | Rule::GicOverlap
            | Rule::RedistributorTwice
            | Rule::NoBootMethod
            | Rule::SameHart
            | Rule::NoMemoryRange
            | Rule::EmptyRange
            | Rule::InitiatorOff
            | Rule::DomainPastRevision
            | Rule::ItsNowhere
            | Rule::RemoteAsLocal
            | Rule::LeafUnflagged
            | Rule::NoPackage
            | Rule::McfgLength
            | Rule::EcamAddress
            | Rule::BusesReversed
            | Rule::EcamWraps
            | Rule::EcamTooHigh
            | Rule::SameBus
            | Rule::EcamOverlap
            | Rule::HpetLength
            | Rule::HpetSpace
            | Rule::HpetAddress
            | Rule::HmatHeader
            | Rule::HmatCut
            | Rule::HmatLength
            | Rule::HmatUnit
            | Rule::HmatProximity
            | Rule::HmatDomainNowhere
            | Rule::HmatCacheNowhere
            | Rule::HmatAlone
            | Rule::GtdtLength
            | Rule::NoGtdt
            | Rule::NoTimer
            | Rule::TimerNoPpi
            | Rule::PlatformTimerCut
            | Rule::TimerBlock
            | Rule::TimerFrame
            | Rule::Watchdog
            | Rule::TimerNoSpi
            | Rule::DmarWidth
            | Rule::DmarCut
            | Rule::DmarShort
            | Rule::NoDrhd
            | Rule::ScopeCut
            | Rule::ScopeType
            | Rule::DrhdAddress
            | Rule::DrhdOverlap
            | Rule::SecondIncludeAll
            | Rule::RmrrRange
            | Rule::RmrrNoDevice
            | Rule::RhsaNowhere
            | Rule::SameRhsa
            | Rule::AnddName
            | Rule::AnddNowhere
            | Rule::IoApicUnmapped
            | Rule::SameScope
            | Rule::IvrsCut
            | Rule::IvrsShort
            | Rule::NoIvhd
            | Rule::IvhdAddress
            | Rule::SameIvhd
            | Rule::IvhdDiffers
            | Rule::IvhdEntryCut
            | Rule::IvhdRange
            | Rule::IoApicNotInIvrs
            | Rule::SameSpecial
            | Rule::IvmdRange
            | Rule::SpcrLength
            | Rule::SpcrAddress
            | Rule::SpcrBaud
            | Rule::SpcrGsi
            | Rule::SpcrName
            | Rule::GpePastEnd
            | Rule::BlockTooLong
            | Rule::BlockSpace
            | Rule::BlockUsualWidth
            | Rule::FadtForRiscv
            | Rule::GiccShort
            | Rule::GiccNoGicr
            | Rule::CapableNoGicr
            | Rule::GiccDiffers
            | Rule::SameGicrBase
            | Rule::GiccNoPpi
            | Rule::HartInvalid
            | Rule::WakeupMailbox
            | Rule::LapicAtZero
            | Rule::ItsDomain => Severity::LikelyWrong,
            Rule::Unknown { .. } => return None,
        })
    }
}
