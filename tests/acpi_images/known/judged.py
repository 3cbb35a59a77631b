"""Images and faults of them, true and false, which `confirm.py` asks about. They are worked out by hand.

Tables have a checksum of 0, since only the faults of sums ask for it. Nothing but the tables that a row is about is
valid, and a fault counts whether or not there are others."""

from ..tables import *

JUDGED = []
TOP = 2**64 - 1
POINTER = rsdp()


def judged(name, pieces, *rows, words=""):
    """Rows of a fault's stage and name, its three numbers, and whether the set has it."""
    JUDGED.append((name, pieces, words, rows))


def raw(signature, body, revision=0):
    """A table with a checksum of 0."""
    return signature + number(36 + len(body), 4) + bytes([revision]) + bytes(27) + bytes(body)


def listing(*listed):
    """The RSDP, an RSDT that lists 0x2000 and 0x3000, and these tables there."""
    root = raw(b"RSDT", number(0x2000, 4) + number(0x3000, 4))
    return {RSDP_AT: POINTER, RSDT_AT: root, **dict(zip((0x2000, 0x3000), listed))}


# ---- an empty image, and the RSDP
judged(
    "nothing at all", {}, ("1 RsdpOut", 0xE0000, 0, 0, True), ("1 RsdpOut", 0xE0000, 0, 1, False), ("1 RsdpOut", 0xE0001, 0, 0, False),
    ("2 NoRoot", 0xE0000, 0, 0, False), ("4 NoFadt", 0, 0, 0, False),
)
# The sum is 2, and 36 bytes are asked.
REVISED = changed(POINTER, {15: 2})
judged(
    "revision 2 in place of 0", {RSDP_AT: REVISED}, ("1 RsdpOut", 0xE0000, 0, 0, False), ("1 RsdpSignature", 0xE0000, 0, 0, False),
    ("1 RsdpSum", 0xE0000, 0, 0, True), ("1 RsdpTailOut", 0xE0000, 0, 0, True), ("1 RsdpLength", 0xE0000, 0, 0, False),
    ("2 RootHeaderOut", 0x1000, 0, 0, False),
)
judged(
    "Length 255, and address 1 of the XSDT", {RSDP_AT: REVISED, RSDP_AT + 20: number(255, 4) + number(1, 8) + bytes(4)},
    ("1 RsdpTailOut", 0xE0000, 0, 0, False), ("1 RsdpLength", 0xE0000, 0, 0, False), ("1 RsdpLongOut", 0xE0000, 0, 0, True),
    ("1 RsdpExtendedSum", 0xE0000, 0, 0, False), ("2 RootHeaderOut", 1, 0, 0, True), ("2 RootHeaderOut", 0x1000, 0, 0, False),
)

# ---- the root and the listed tables
judged("a root with no slots", {RSDP_AT: POINTER, RSDT_AT: raw(b"RSDT", b"")}, ("4 NoFadt", 0, 0, 0, True))
judged(
    "slots with 2000h, 0 and 3000h and a byte too many, a Length of 35, and a header that is cut",
    {
        RSDP_AT: POINTER,
        RSDT_AT: raw(b"RSDT", number(0x2000, 4) + number(0, 4) + number(0x3000, 4) + b"\1"),
        0x2000: bytes([0, 0, 0, 0, 35]) + bytes(31),
        0x3000: bytes(35),
    },
    ("2 NoRoot", 0xE0000, 0, 0, False), ("2 RootSignature", 0x1000, 0, 0, False), ("2 RootRagged", 0x1000, 0, 0, True),
    ("2 RootRagged", 0x1000, 0, 1, False), ("2 RootSum", 0x1000, 0, 0, True), ("2 RootSum", 0x1001, 0, 0, False),
    ("3 TableLength", 0, 0x2000, 0, True), ("3 TableLength", 0, 0x2000, 1, False), ("3 TableLength", 2, 0x2000, 0, False),
    ("3 TableHeaderOut", 0, 0x2000, 0, False), ("3 TableHeaderOut", 1, 0, 0, False), ("3 TableHeaderOut", 2, 0x3000, 0, True),
    ("3 TableHeaderOut", 3, 1, 0, False), ("3 TableHeaderOut", TOP, 0x3000, 0, False), ("3 TableOut", 2, 0x3000, 0, False),
    ("4 NoFadt", 0, 0, 0, True), ("4 NoFadt", 0, 0, 1, False),
)

# ---- the FADT and the FACS
judged(
    "a FADT of 116 bytes: a FACS at 4020h, a second GPE block of 3 bytes, Flags 0",
    {**listing(raw(b"HPET", b""), raw(b"FACP", changed(bytes(80), {0: 0x20, 1: 0x40, 57: 3}))), 0x4020: b"FACS\x3f\0\0\0"},
    ("4 NoFadt", 0, 0, 0, False), ("4 FadtShort", 0, 0, 0, False), ("4 PmEventLength", 88, 0, 0, True),
    ("4 PmControlLength", 89, 0, 0, True), ("4 PmTimerLength", 91, 0, 0, False), ("4 GpeLength", 92, 0, 0, False),
    ("4 GpeLength", 93, 0, 0, True), ("4 GpeLength", 93, 1, 0, False), ("4 ResetRegister", 116, 0, 0, False), ("5 NoFacs", 0, 0, 0, False),
    ("5 FacsAlign", 0x4020, 0, 0, True), ("5 FacsAlign", 0x4060, 0, 0, False), ("5 FacsHeaderOut", 0x4020, 0, 0, False),
    ("5 FacsSignature", 0x4020, 0, 0, False), ("5 FacsLength", 0x4020, 0, 0, True), ("5 FacsOut", 0x4020, 0, 0, False),
)
judged(
    "a FADT of 129 bytes without X_FIRMWARE_CTRL: no FACS is named, flag bit 10 asks for 8 bits; the second one is short",
    listing(raw(b"FACP", changed(bytes(93), {77: 4})), raw(b"FACP", b"")), ("4 ResetRegister", 116, 0, 0, True),
    ("5 NoFacs", 0, 0, 0, True), ("5 FacsHeaderOut", 0, 0, 0, False), ("4 FadtShort", 0, 0, 0, False),
)

# ---- the MADT
# Two overrides of source 5, two address overrides, and a Local APIC that is too short; the last two bytes are no entry.
MADT = [
    bytes([1, 12, 0, 0]) + number(0xFEC00000, 4) + number(0, 4),  # 44
    bytes([1, 12, 1, 0]) + number(0xFEC01000, 4) + number(16, 4),  # 56
    bytes([1, 12, 2, 0]) + number(0xFEC02000, 4) + number(0xFFFFFFF0, 4),  # 68
    override(5, 5),  # 80
    override(5, 9, 2, bus=1),  # 90
    lapic_address(0xFEE00000),  # 100
    lapic_address(0xFEE00000),  # 112
    bytes([0, 6, 7, 7, 1, 0]),  # 124
    nmi_source(4, 8),  # 130
    bytes([7, 0]),  # 138
]
judged(
    "a MADT with an entry of each kind of fault", listing(raw(b"APIC", bytes(8) + b"".join(MADT))), ("6 MadtShort", 0, 0, 0, False),
    ("9 SratShort", 0, 0, 0, False), ("6 MadtEntryCut", 138, 0, 0, True), ("6 MadtEntryCut", 138, 0, 1, False),
    ("6 MadtEntryCut", 139, 0, 0, False), ("6 MadtEntryLength", 124, 0, 0, True), ("6 MadtEntryLength", 124, 1, 0, False),
    ("6 MadtEntryLength", 92, 0, 0, False),  # the bytes 1, 5 within an entry
    ("6 OverrideBus", 90, 0, 0, True), ("6 OverrideBus", 80, 0, 0, False), ("6 ReservedInti", 90, 0, 0, True),
    ("6 ReservedInti", 130, 0, 0, True), ("6 ReservedInti", 80, 0, 0, False), ("6 SecondAddressOverride", 112, 100, 0, True),
    ("6 SecondAddressOverride", 100, 112, 0, False), ("6 SecondAddressOverride", 112, 112, 0, False), ("6 GsiPastEnd", 68, 0, 0, True),
    ("6 GsiPastEnd", 56, 0, 0, False), ("7 GsiClash", 44, 56, 16, True), ("7 GsiClash", 56, 44, 23, True),
    ("7 GsiClash", 44, 56, 15, False), ("7 GsiClash", 44, 56, 24, False), ("7 GsiClash", 44, 44, 16, False),
    ("8 OverrideClash", 90, 80, 5, True), ("8 OverrideClash", 80, 90, 5, False), ("8 OverrideClash", 90, 80, 6, False),
    ("8 OverrideClash", TOP, TOP, TOP, False),
)
judged("a MADT of 43 bytes", listing(raw(b"APIC", bytes(7))), ("6 MadtShort", 0, 0, 0, True))
judged(
    "two I/O APICs, and a second MADT, which is short and is none",
    listing(raw(b"APIC", number(0xFEE00000, 4) + number(1, 4) + io_apic(0xFEC00000, 0) + io_apic(0xFEC01000, 24)), raw(b"APIC", b"")),
    ("7 GsiClash", 0x2C, 0x38, 0x18, True), ("7 GsiClash", 0x38, 0x2C, 0x1F, True), ("7 GsiClash", 0x38, 0x2C, 0x20, False),
    ("7 GsiClash", 0x2C, 0x2C, 0x18, False), ("6 MadtShort", 0, 0, 0, False), ("4 NoFadt", 0, 0, 0, True), words="fec00000=32",
)

# ---- the SRAT
# The last entry of 12 bytes is too short for its type, and the last byte is no entry.
SRAT = [
    memory(0x1000, 0x2000),  # 48
    memory(0x2000, 0x2000, 3),  # 88, hot-pluggable
    memory(0x2FFF, 1),  # 128
    memory(0xFFFFFFFFFFFFF000, 0x1001),  # 168
    memory(0x2000, 0),  # 208
    memory(0x2000, 0x1000, 0),  # 248, not enabled
    bytes([2, 12]) + bytes(10),  # 288
    bytes(1),  # 300
]
for setting, is_counted in (("counted", True), ("apart", False)):
    judged(
        f"an SRAT with a range of each kind of fault, {setting}", listing(raw(b"SRAT", bytes(12) + b"".join(SRAT))),
        ("9 SratShort", 0, 0, 0, False), ("9 SratEntryCut", 300, 0, 0, True), ("9 SratEntryLength", 288, 0, 0, True),
        ("9 SratEntryLength", 48, 0, 0, False), ("9 RangePastEnd", 168, 0, 0, True), ("9 RangePastEnd", 168, 0, 1, False),
        ("9 RangePastEnd", 48, 0, 0, False), ("10 Overlap", 48, 88, 0x2000, is_counted), ("10 Overlap", 88, 48, 0x2FFF, is_counted),
        ("10 Overlap", 48, 88, 0x3000, False), ("10 Overlap", 48, 128, 0x2FFF, True), ("10 Overlap", 48, 208, 0x2000, False),
        ("10 Overlap", 48, 248, 0x2000, False), ("10 Overlap", 48, 48, 0x2000, False), words=f"--hotplug {setting}",
    )
judged("an SRAT of 47 bytes", listing(raw(b"SRAT", bytes(11))), ("9 SratShort", 0, 0, 0, True))
TWICE = raw(b"SRAT", bytes(12) + memory(0, 0x2000) * 2)
judged("two ranges that overlap, in the second SRAT", listing(raw(b"SRAT", bytes(12)), TWICE), ("10 Overlap", 48, 88, 0, False))
judged(
    "two ranges that overlap, in the first SRAT", listing(TWICE, raw(b"SRAT", bytes(12))), ("10 Overlap", 48, 88, 0, True),
    ("10 Overlap", 88, 48, 0x1FFF, True), ("10 Overlap", 48, 88, 0x2000, False),
)

# ---- the SLIT
for body, *rows in (
    ([2, 0, 0, 0, 0, 0, 0], ("11 SlitShort", 0, 0, 0, True)), ([2, 0, 0, 0, 0, 0, 0, 0], ("11 SlitShort", 0, 0, 0, False)),
    ([2, 0, 0, 0, 0, 0, 0, 0, 10, 9, 20], ("11 SlitSize", 36, 0, 0, True), ("11 SlitLow", 45, 0, 0, False)),
    (
        [2, 0, 0, 0, 0, 0, 0, 0, 10, 9, 20, 11], ("11 SlitSize", 36, 0, 0, False), ("11 SlitDiagonal", 47, 0, 0, True),
        ("11 SlitDiagonal", 44, 0, 0, False), ("11 SlitDiagonal", 45, 0, 0, False), ("11 SlitLow", 45, 0, 0, True),
        ("11 SlitLow", 45, 1, 0, False), ("11 SlitLow", 46, 0, 0, False), ("11 SlitLow", 48, 0, 0, False),
    ),
    # 2^32 localities would have 2^64 cells
    ([0, 0, 0, 0, 1, 0, 0, 0], ("11 SlitSize", 36, 0, 0, True)),
):
    judged(f"a SLIT of {36 + len(body)} bytes", listing(raw(b"SLIT", body)), *rows)

# ---- the PPTT
# A node that is its own Parent, a cache that is its own Next Level, a node that names two offsets at which no such thing
# begins, and a node of another length. At most 120 / 20 steps of parents, and 120 / 24 of caches.
PPTT = [
    node(36),  # 36
    cache(56),  # 56
    node(81, resources=[104]),  # 80
    bytes([0, 16]) + bytes(14),  # 104
]
judged(
    "a PPTT with an entry of each kind of fault", listing(raw(b"PPTT", b"".join(PPTT))), ("12 PpttEntryCut", 104, 0, 0, False),
    ("12 PpttEntryLength", 104, 0, 0, True), ("12 PpttEntryLength", 104, 0, 1, False), ("12 PpttEntryLength", 80, 0, 0, False),
    ("13 DanglingParent", 80, 81, 0, True), ("13 DanglingParent", 80, 81, 1, False), ("13 DanglingParent", 36, 36, 0, False),
    ("13 DanglingResource", 80, 0, 104, True), ("13 DanglingResource", 80, 1, 104, False), ("13 DanglingResource", 80, 0, 105, False),
    ("13 DanglingCache", 56, 56, 0, False), ("14 ParentCycle", 36, 0, 1, True), ("14 ParentCycle", 36, 5, 1, True),
    ("14 ParentCycle", 36, 5, 2, False), ("14 ParentCycle", 36, 0, 0, False), ("14 ParentCycle", 36, TOP, 1, False),
    ("14 ParentCycle", 80, 0, 1, False), ("14 ParentCycle", 56, 0, 1, False), ("15 CacheCycle", 56, 4, 1, True),
    ("15 CacheCycle", 56, 5, 1, False), ("15 CacheCycle", 36, 0, 1, False),
)
PPTT[3] = bytes([0, 17]) + bytes(14)
judged("a node that is cut", listing(raw(b"PPTT", b"".join(PPTT))), ("12 PpttEntryCut", 104, 0, 0, True))
judged(
    "five nodes with the Parents 56, 76, 96, 116 and 76", listing(raw(b"PPTT", b"".join(map(node, (56, 76, 96, 116, 76))))),
    ("14 ParentCycle", 36, 2, 3, True), ("14 ParentCycle", 36, 3, 3, True), ("14 ParentCycle", 36, 1, 3, False),
    ("14 ParentCycle", 36, 2, 2, False),
    ("14 ParentCycle", 36, 4, 3, False),  # more than 136 / 20 steps
)

# ---- two tables
def processor(flags=1, uid=5, kind=1, first=0):
    """A MADT: a Local APIC with ID 5, an I/O APIC, and an override of source 9 to 24."""
    served = bytes([kind, 12, 0, 0]) + number(0xFEC00000, 4) + number(first, 4)
    return raw(b"APIC", bytes(8) + lapic(uid, 5, flags) + served + override(9, 24))


# The flags of the Local APIC, the domain of the second entry, and whether there is a fault for enabled and for usable
# processors.
for flags, domain, *faults in ((0b00, 1, False, False), (0b01, 1, True, True), (0b10, 1, False, True), (0b01, 0, False, False)):
    for setting, is_fault in zip(("enabled", "usable"), faults):
        judged(
            f"a processor with flags {flags:02b} in the domains 0 and {domain}, {setting}",
            listing(processor(flags), raw(b"SRAT", bytes(12) + apic_domain(5, 0) + x2apic_domain(5, domain))),
            ("16 TwoDomains", 64, 48, 5, is_fault), ("16 TwoDomains", 48, 64, 5, False), words=f"--processors {setting}",
        )
for kind, first, is_fault in ((1, 0, True), (1, 1, False), (7, 1, False)):
    judged(
        f"the interrupt number 24, and an entry of type {kind} from {first} on", listing(processor(kind=kind, first=first)),
        ("17 GsiNowhere", 64, 0, 24, is_fault), ("17 GsiNowhere", 64, 1, 24, False),
    )
LEAF = node(0, IS_ID_VALID | IS_LEAF, 7)
# The last byte of a complete MADT is not there.
CUT = raw(b"APIC", processor()[36:-1])
for name, table_of_processors, revision, is_fault in (
    ("a leaf that is no processor", processor(), 2, True), ("a leaf, and a MADT that is cut", CUT, 2, False),
    ("a leaf in a PPTT of Revision 1", processor(), 1, False), ("a leaf that is a processor", processor(uid=7), 2, False),
):
    judged(name, listing(table_of_processors, raw(b"PPTT", LEAF, revision)), ("18 LeafUnknown", 36, 0, 7, is_fault))
