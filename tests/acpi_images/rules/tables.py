"""The rules of advice on the RSDP, the roots, headers, and where tables lie."""

from __future__ import annotations

from collections import Counter

from ..table_set import HEADER, complete_table
from .rule import NAMES, is_text, of_table, overlap, past_limits, rule, same, wrong_names, zeros


# ---- slots (5.2.7)

READ_ONCE = (b"FACP", b"APIC", b"SRAT", b"SLIT", b"PPTT")
NAMED_BY_FADT = (b"DSDT", b"FACS")


@rule(101, "ListedTwice")
def listed_twice(facts):
    """Two slots list one address (5.2.7)."""
    yield from same(facts.tables.slots.items())


def second_tables(facts, signatures):
    """The slots that list another address than the first slot with their signature, one of these."""
    tables = facts.tables
    for slot, header in tables.headers.items():
        signature, address = header.data[:4], tables.slots[slot]
        first = tables.first_slots[signature]
        if signature in signatures and address != tables.slots[first]:
            yield slot, first, address


@rule(102, "SecondTable")
def second_read_tables(facts):
    """A second table of a kind of which the stages read one (5.2)."""
    yield from second_tables(facts, READ_ONCE)


@rule(103, "ListedApart")
def listed_apart(facts):
    """A slot lists what the FADT alone names (5.2.9)."""
    tables = facts.tables
    for slot, header in tables.headers.items():
        if header.data[:4] in NAMED_BY_FADT:
            yield slot, 0, tables.slots[slot]


def slots_of(root, width):
    """The addresses in the slots of a root, with those of 0."""
    return [root.number(at, width) for at in range(HEADER, len(root) - width + 1, width)]


@rule(129, "NullSlot")
def null_slots(facts):
    """A slot of the root is 0 and lists nothing (5.2.7)."""
    tables = facts.tables
    for slot, address in enumerate(slots_of(tables.root, tables.width) if tables.root else []):
        if address == 0:
            yield (slot,)


# ---- the roots, and tables at one place


def signatures(image, addresses):
    """Of each signature, as a number, how often what is present below 4 GiB at these addresses has it."""
    heads = (image.present(address, 4) for address in addresses if 0 < address < 1 << 32)
    return Counter(head.number(0, 4) for head in heads if head)


@rule(130, "RsdtDiffers")
def differing_roots(facts):
    """The XSDT is the root, and the RSDT, of which the RSDP has the address too, lists a signature more or less often (5.2.7)."""
    tables, image = facts.tables, facts.image
    if not tables.root or tables.signature != b"XSDT":
        return
    address = image.present(tables.rsdp, 36).number(16, 4)
    rsdt = complete_table(image, address) if address else None
    if not rsdt or rsdt.data[:4] != b"RSDT":
        return
    here, there = signatures(image, slots_of(tables.root, 8)), signatures(image, slots_of(rsdt, 4))
    for signature in here.keys() | there.keys():
        if here[signature] != there[signature]:
            yield 16, 0, signature


def pieces(facts):
    """The address and the bytes of the RSDP, the root, the FACS, the DSDT and each listed table; None for what is not there."""
    tables, image = facts.tables, facts.image
    head = image.present(tables.rsdp, 20)
    is_extended = head is not None and head.number(15, 1) >= 2
    yield tables.rsdp, image.present(tables.rsdp, 36) if is_extended else head
    yield tables.root_at, tables.root
    yield facts.fadt.facs if facts.fadt else 0, facts.facs
    dsdt = complete_table(image, facts.dsdt_at) if facts.dsdt_at else None
    yield facts.dsdt_at, dsdt if dsdt and dsdt.data[:4] == b"DSDT" else None
    for address in dict.fromkeys(tables.slots.values()):
        yield address, complete_table(image, address)


@rule(131, "TablesOverlap")
def overlapping_tables(facts):
    """Two structures share an address; what begins at one address is one structure (5.2)."""
    sizes = {}
    for start, data in pieces(facts):
        if data is not None:
            sizes.setdefault(start, len(data))
    yield from overlap((start, size, start) for start, size in sizes.items())


# ---- the RSDP (5.2.5.3)


@rule(147, "RsdpReserved")
def reserved_in_rsdp(facts):
    """The RSDP has a Revision that there is not, or in the extended form a longer Length or a reserved byte that is used (5.2.5.3)."""
    image, at = facts.image, facts.tables.rsdp
    head, long = image.present(at, 20), image.present(at, 36)
    revision = head.number(15, 1) if head else 0
    if revision not in (0, 2):
        yield 15, 0, revision
    if revision < 2 or not long:
        return
    length = long.number(20, 4)
    if length > 36 and image.present(at, length):
        yield 20, 0, length
    for place, number in past_limits(long, zeros(33, 34, 35)):
        yield place, 0, number


@rule(279, "RsdpText")
def rsdp_text(facts):
    """The OEM ID of the RSDP has a byte that is no text (5.2.5.3)."""
    head = facts.image.present(facts.tables.rsdp, 20)
    yield from wrong_names(head, [(9, 6)]) if head else ()


# ---- headers (5.2.6)

# Where a header has text: the signature, and the names.
TEXTS = ((0, 4), *NAMES)
READ_ONCE_TOO = """
    BERT BGRT CCEL CPEP DBG2 DMAR ECDT EINJ ERST FPDT GTDT HEST HMAT IORT IVRS MCFG MPST MSCT NFIT PCCT PDTT PHAT PMTT PRMT RASF RAS2
    SBST SDEI SDEV SPCR SVKL TPM2 VIOT WAET WSMT
""".encode().split()


@rule(148, "HeaderText")
def header_texts(facts):
    """A listed table's header has a signature or a name with a byte that is no text (5.2.6)."""
    tables = facts.tables
    for slot, header in tables.headers.items():
        for at, size in TEXTS:
            if not is_text(header.data[at : at + size]):
                yield slot, at, tables.slots[slot]


@rule(149, "SecondOther")
def second_other_tables(facts):
    """A second table of another kind of which a set has one (5.2.6)."""
    yield from second_tables(facts, READ_ONCE_TOO)


@rule(280, "RootHeader")
def root_header(facts):
    """The header of the root has a name with a byte that is no text, or another Revision than 1 (5.2.7, 5.2.8)."""
    root = facts.tables.root
    if root:
        yield from wrong_names(root)
        if root.number(8, 1) != 1:
            yield of_table(root, 8, 1)
