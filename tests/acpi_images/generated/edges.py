"""The edge of each fault: for each code a function that changes a made set so that a value lies just on the wrong side of its
rule, or just on the right one."""

from ..table_set import MadtEntries, SratEntries
from ..tables import REDUCED, RESET_REG_SUP, lapic, nmi_source, number, override
from ..text import TOP
from .layout import nowhere, somewhere
from .sets import (
    FACS_SIZE, HEADER_SIZE, LOW, RSDP_SIZE, Item, apic_domain, flagged_entries, io_apic, lapic_address, memory, x2apic, x2apic_domain,
)

PM1_EVT_LEN, PM1_CNT_LEN, PM_TMR_LEN, GPE0_BLK_LEN, GPE1_BLK_LEN = 88, 89, 91, 92, 93
FLAGS, RESET_REG = 112, 116
KINDS = (b"FACP", b"APIC", b"SRAT", b"SLIT", b"PPTT")


def changed(data, at, values):
    return data[:at] + bytes(values) + data[at + len(values) :]


# What a sum that is wrong comes to.
WRONG_SUMS = (1, 2, 128, 255)


def value(part, name, wrong, right, is_extended=False):
    """The edge of one value of the set or of a part of it, sometimes with the extended form of the RSDP."""

    def change(made, is_wrong):
        if is_extended:
            extended(made)
        setattr(getattr(made, part) if part else made, name, made.dice.choice(wrong) if is_wrong else right)

    return change


def one_byte_wrong(dice, signature):
    at = dice.choice((len(signature) - 1, dice.randrange(len(signature))))
    return changed(signature, at, [signature[at] ^ dice.choice((1, 0x20, 0x80))])


# ---- RSDP


def extended(made):
    """Gives the RSDP the extended form."""
    made.rsdp.revision = made.dice.choice((2, 2, 3, 255))


def rsdp_out(made, is_wrong):
    if not is_wrong:
        made.rsdp.revision = made.dice.randrange(2)
        made.is_xsdt, made.root.signature = False, b"RSDT"
    made.rsdp.present = made.dice.choice((19, 19, 0, 8, 15)) if is_wrong else RSDP_SIZE


def rsdp_signature(made, is_wrong):
    made.rsdp.signature = one_byte_wrong(made.dice, b"RSD PTR ") if is_wrong else b"RSD PTR "


def rsdp_long_out(made, is_wrong):
    extended(made)
    made.rsdp.tail = bytes(range(made.dice.choice((1, 2, 28))))
    made.rsdp.length = 36 + len(made.rsdp.tail)
    made.rsdp.present = made.rsdp.length - is_wrong
    if is_wrong and made.dice.random() < 0.2:
        made.rsdp.length = LOW - 1


def rsdp_extended_sum(made, is_wrong):
    extended(made)
    made.rsdp.tail = bytes(range(made.dice.choice((0, 0, 4))))
    made.rsdp.length = 36 + len(made.rsdp.tail)
    made.rsdp.long_error = made.dice.choice(WRONG_SUMS) if is_wrong else 0


# ---- root


def no_root(made, is_wrong):
    made.rsdp.rsdt = 0
    if is_wrong:
        made.rsdp.xsdt = made.dice.choice((0, None)) if made.rsdp.revision < 2 else 0
    else:
        extended(made)
        made.is_xsdt, made.root.signature = True, b"XSDT"


def root_header_out(made, is_wrong):
    made.root.present = made.dice.choice((35, 35, 0, 8)) if is_wrong else HEADER_SIZE
    if is_wrong and made.is_xsdt and made.dice.random() < 0.2:
        made.root.present, made.rsdp.xsdt = None, made.dice.choice((1 << 56, 1, TOP - 1))


def root_signature(made, is_wrong):
    own, other = (b"XSDT", b"RSDT") if made.is_xsdt else (b"RSDT", b"XSDT")
    made.root.signature = made.dice.choice((other, one_byte_wrong(made.dice, own))) if is_wrong else own


def root_out(made, is_wrong):
    made.others.append(made.made_other())
    made.root.present = made.dice.choice((36, 37, 39)) if is_wrong else None


def root_ragged(made, is_wrong):
    made.ragged = b"\1\2\3\4\5\6\7"[: made.dice.choice((1, 3, 4, 7) if made.is_xsdt else (1, 2, 3))] if is_wrong else b""
    if not is_wrong:
        made.extra_slots.append(nowhere)


# ---- listed tables


def on_a_table(made, change):
    """Changes one of the listed tables."""
    made.changes.append((made.dice.choice((None, *KINDS, b"SSDT")), change))


def table_header_out(made, is_wrong):
    if is_wrong and made.dice.random() < 0.5:
        made.extra_slots.append(somewhere)
    else:
        present = made.dice.choice((35, 35, 0, 4, 8)) if is_wrong else HEADER_SIZE
        on_a_table(made, lambda table: setattr(table, "present", present))


def table_length(made, is_wrong):
    length = made.dice.choice((35, 35, 0, 9)) if is_wrong else HEADER_SIZE
    on_a_table(made, lambda table: setattr(table, "length", length))


def table_out(made, is_wrong):
    def change(table):
        table.present = len(table) - is_wrong
        if is_wrong and made.dice.random() < 0.5:
            longer = (LOW - 1, 0x80000000, 0x80000000, len(table) + (1 << 24), len(table) + 4096)
            table.length, table.present = made.dice.choice(longer), None

    on_a_table(made, change)


def table_sum(made, is_wrong):
    wrong = made.dice.choice(WRONG_SUMS) if is_wrong else 0
    on_a_table(made, lambda table: setattr(table, "error", wrong))
    if made.dice.random() < 0.5:
        made.extra_slots += [nowhere, somewhere]


# ---- FADT


def no_fadt(made, is_wrong):
    signature = made.dice.choice((b"FADT", b"facp", b"FACq", b"FACS")) if is_wrong else b"FACP"
    made.others = [it for it in made.others if it.signature != b"FACP"] if is_wrong else made.others
    made.changes.insert(0, (b"FACP", lambda table: setattr(table, "signature", signature)))


def fadt_short(made, is_wrong):
    made.fadt_length = made.dice.choice((115, 115, 115, 36, 114)) if is_wrong else 116
    if made.dice.random() < 0.6:
        made.facs_at = made.dice.choice((0x8010, 0x8000))


def set_flags(made, bits, is_set):
    flags = int.from_bytes(made.fadt[FLAGS : FLAGS + 4], "little")
    made.fadt[FLAGS : FLAGS + 4] = number(flags | bits if is_set else flags & ~bits, 4)


def block_length(at, wrong, right):
    """The edge of a register block's length, sometimes with reduced hardware, where it does not matter."""

    def change(made, is_wrong):
        made.fadt[at] = made.dice.choice(wrong if is_wrong else right)
        set_flags(made, REDUCED, made.dice.random() < 0.15)

    return change


def gpe_length(made, is_wrong):
    block_length(made.dice.choice((GPE0_BLK_LEN, GPE1_BLK_LEN)), (1, 3, 255), (0, 2, 254))(made, is_wrong)


def reset_register(made, is_wrong):
    dice = made.dice
    set_flags(made, RESET_REG_SUP, is_wrong or dice.random() < 0.7)
    made.fadt_length = dice.choice((129, 129, 130, 276) if is_wrong or dice.random() < 0.5 else (128, 128, 117))
    right = [(0, 8, 0), (1, 8, 0), (2, 8, 0)]
    wrong = [(3, 8, 0), (3, 8, 0), (255, 8, 0), (1, 7, 0), (1, 9, 0), (1, 0, 0), (1, 8, 1), (0, 8, 255), (2, 16, 1)]
    made.fadt[RESET_REG : RESET_REG + 3] = bytes(dice.choice(wrong if is_wrong or made.fadt_length < 129 else right))


# ---- FACS


def no_facs(made, is_wrong):
    made.facs_at = 0 if is_wrong else None
    set_flags(made, REDUCED, made.dice.random() < 0.2)


def facs_align(made, is_wrong):
    made.facs.shift = made.dice.choice((1, 32, 63)) if is_wrong else 0


def facs_header_out(made, is_wrong):
    made.facs.present = made.dice.choice((7, 7, 0, 4)) if is_wrong else 8
    if is_wrong and made.dice.random() < 0.3:
        made.facs_at = made.dice.choice((LOW - 64, 0x40, TOP - 64))


def facs_signature(made, is_wrong):
    made.facs.signature = one_byte_wrong(made.dice, b"FACS") if is_wrong else b"FACS"


def facs_length(made, is_wrong):
    made.facs.length = made.dice.choice((63, 63, 0, 32)) if is_wrong else FACS_SIZE
    # Too short, and not all present: the first alone is said.
    made.facs.present = made.dice.choice((8, 62)) if is_wrong and made.dice.random() < 0.4 else None


def facs_out(made, is_wrong):
    made.facs.size = made.facs.length = made.dice.choice((64, 64, 65, 128))
    made.facs.present = made.facs.size - is_wrong
    if is_wrong and made.dice.random() < 0.3:
        made.facs.length = made.dice.choice((LOW - 1, 1 << 24))


# ---- entries


def put(made, entries, *more):
    """Puts entries at places of their own, in any order."""
    for entry in more:
        entries.insert(made.dice.randrange(len(entries) + 1), entry)


def last_entry(table):
    """The edge of a table's last entry: bytes that are no entry, or an entry."""

    def change(made, is_wrong):
        kind, size = made.dice.choice((0, 1, 2, 7, 200)), made.dice.choice((3, 8, 12, 255))
        wrong = (b"\7", bytes([kind, 0]), bytes([kind, 1, 0]), bytes([kind, size]) + bytes(size - 3), bytes([kind, 1]))
        getattr(made, table).append(made.dice.choice(wrong) if is_wrong else bytes([7, size]) + bytes(size - 2))

    return change


def entry_length(table, types):
    """The edge of an entry's length: one more or less than its type has, that of another type, or the right one."""

    def change(made, is_wrong):
        kind = made.dice.choice(list(types))
        size = types[kind]
        wrong = [it for it in (size - 1, size + 1, *types.values(), 2, 255) if it != size and it >= 2]
        size = made.dice.choice(wrong) if is_wrong else size
        put(made, getattr(made, table), bytes([kind, size]) + bytes(size - 2))

    return change


def table_cut(name, first):
    """The edge of a table's fixed part."""
    return value(None, name, (first - 1, first - 1, 36, first - 4), first)


def override_bus(made, is_wrong):
    put(made, made.madt, override(200, 0, 0, made.dice.choice((1, 2, 255)) if is_wrong else 0))


def reserved_inti(made, is_wrong):
    wrong, right = (0b0010, 0b1000, 0b1010, 0b1110, 0b1001, 0xFFF2, 0xFFFB), (0, 5, 7, 13, 15, 0xFFF0)
    flags = made.dice.choice(wrong if is_wrong else right)
    put(made, made.madt, made.dice.choice(flagged_entries(flags)))


def second_address(made, is_wrong):
    made.madt[:] = [entry for entry in made.madt if entry[0] != 5]
    count = made.dice.choice((2, 2, 3)) if is_wrong else 1
    put(made, made.madt, *[lapic_address(0xFEE00000)] * count)
    if made.dice.random() < 0.2:
        put(made, made.madt, bytes([5, 8]) + bytes(6))


def gsi_past_end(made, is_wrong):
    address = made.dice.choice((0xFEC00000, 0xFEC10000, 0xFFFFFFFF, 3))
    base = LOW - made.inputs_of(address) + is_wrong
    made.madt[:] = [entry for entry in made.madt if entry[0] != 1 or made.dice.random() < 0.3]
    put(made, made.madt, io_apic(address, base))


def gsi_clash(made, is_wrong):
    """Two I/O APICs that touch or share a number, beside those that are there; of which some begin at one number."""
    dice = made.dice
    first, second = dice.choice((0xFEC00000, 0xFEC10000, 3)), dice.choice((0xFEC00000, 0xFFFFFFFF, 4))
    base = dice.choice((0, 1000, 0x7FFFFFF0, LOW - 600))
    end = base + made.inputs_of(first)
    made.madt[:] = [entry for entry in made.madt if entry[0] != 1 or dice.random() < 0.3]
    start = end - is_wrong if dice.random() < 0.7 or not is_wrong else base
    put(made, made.madt, io_apic(first, base), io_apic(second, start))
    if is_wrong and dice.random() < 0.4:
        put(made, made.madt, io_apic(first, dice.choice((base, base + 1, start, max(base - 1, 0)))))


def override_clash(made, is_wrong):
    dice, source = made.dice, made.dice.choice((0, 9, 202))
    gsis = [dice.choice((0, 1, 2)) for _ in range(dice.choice((1, 1, 2)))]
    put(made, made.madt, *[override(source, gsi) for gsi in (*gsis, gsis[0] + is_wrong * dice.choice((1, 256, 1 << 24)))])


def range_past_end(made, is_wrong):
    dice = made.dice
    length = dice.choice((2, 0x1000, TOP - 1) if is_wrong else (0, 1, 0x1000, TOP - 1))
    base = min(TOP - length + is_wrong, TOP - 1)
    put(made, made.srat, memory(base, length, dice.choice((1, 3, 5))))
    if dice.random() < 0.3:
        put(made, made.srat, memory(TOP - 1, 0x1000, dice.choice((0, 2))))


def overlap(made, is_wrong):
    """Two ranges that touch or share an address, of one kind or of two, and sometimes a third one; or two of each kind, at
    addresses near each other."""
    dice = made.dice
    base, size, flags = dice.choice((0x10000, LOW - 8, TOP - 0x2000)), dice.choice((1, 8, 0x1000)), dice.choice((1, 3))
    start = base + size - is_wrong * dice.choice((1, 1, size))
    ranges = [memory(base, size, flags), memory(start, dice.choice((1, 8, 0x1000)), dice.choice((1, 3, flags, flags)))]
    if dice.random() < 0.4:
        start, is_plain = dice.choice((base, start, max(base - 1, 0))), dice.random() < 0.5
        ranges.append(memory(start, dice.choice((0, 1, 2, 0x1001)), dice.choice((0, 2, 1, 3)) if is_plain else flags))
    if is_wrong and dice.random() < 0.5:
        starts = (base, base + dice.choice((-8, 0, 0, 0, 8)))
        ranges = [memory(at, 16, its_flags) for at, its_flags in zip(starts, (1, 3)) for _ in range(2)]
    put(made, made.srat, *ranges)


# ---- SLIT


def slit_short(made, is_wrong):
    made.changes.append((b"SLIT", lambda table: setattr(table, "body", table.body[: 7 if is_wrong else 8])))


def slit_size(made, is_wrong):
    dice, (count, cells) = made.dice, made.slit
    if is_wrong:
        wrong = (count + 1, count - 1 if count else 5, LOW, LOW + count, *[(1 << 63) + count] * 3, TOP - count if count else 7)
        made.slit[0] = dice.choice(wrong)
        cells.extend(bytes(dice.choice((0, 0, 1, 2))))
    else:
        made.slit[:] = [0, bytearray()] if dice.random() < 0.3 else [3, bytearray(b"\x0a\x14\x14\x14\x0a\x14\x14\x14\x0a")]


def slit_cell(is_diagonal, wrong, right):
    def change(made, is_wrong):
        dice, (count, cells) = made.dice, made.slit
        if count < 2 or count * count != len(cells):
            count, cells = made.slit[:] = 2, bytearray(b"\x0a\x14\x14\x0a")
        for _ in range(dice.choice((1, 1, 2))):
            row = dice.randrange(count)
            column = row if is_diagonal else (row + dice.randrange(1, count)) % count
            cells[row * count + column] = dice.choice(wrong if is_wrong else right)

    return change


# ---- PPTT


def pptt_entry_cut(made, is_wrong):
    kind, size = made.dice.choice((0, 1, 2, 9)), made.dice.choice((2, 20, 24, 200))
    item = Item(kind, size=size)
    made.pptt.append(item)
    if is_wrong:
        # Less than the item has; or an item of one byte, or one whose length says so.
        wrong = made.dice.choice(("less", "byte", "zero"))
        item.size = {"less": size, "byte": 1, "zero": made.dice.choice((0, 1))}[wrong]
        whole = HEADER_SIZE + sum(map(len, made.pptt))
        made.pptt_cut = whole - 1 if wrong == "less" else None
        made.pptt[-1] = Odd(item, wrong)


class Odd(Item):
    """An entry whose bytes are more or fewer than its length byte says."""

    def __init__(self, item, wrong):
        super().__init__(item.kind, size=item.size)
        self.wrong = wrong

    def __len__(self):
        return 2 if self.wrong == "zero" else self.size

    def bytes(self):
        return bytes([self.kind, self.size]) if self.wrong == "zero" else super().bytes()


def pptt_entry_length(made, is_wrong):
    dice = made.dice
    item = Item(0, 0, [], 0, 7) if dice.random() < 0.6 else Item(1)
    if item.kind == 0 and is_wrong:
        item.count = dice.choice((1, 1, 0x40000000, LOW - 1))
        item.size = dice.choice((20, 20, 21, 23, 19, 16, 2))
    elif item.kind == 1:
        item.size = dice.choice((23, 25, 26, 27, 29, 20, 2, 255) if is_wrong else (24, 28))
    put(made, made.pptt, item)


def of_kind(made, kind):
    """One of the entries of this type, put in if there is none."""
    items = [item for item in made.pptt if item.kind == kind]
    if not items:
        items = [Item(kind)]
        put(made, made.pptt, *items)
    return made.dice.choice(items)


def stray(made, kind):
    """What is no entry of this type: something beside one, an entry of another type, or one without a length of its type."""
    dice = made.dice
    beside = (of_kind(made, kind), dice.choice((1, 2, 20, -1, -20, 1 << 24)))
    mistyped_item = Item(kind, size=21)
    if dice.random() < 0.2:
        put(made, made.pptt, mistyped_item)
        return mistyped_item
    return dice.choice((beside, beside, of_kind(made, 1 - kind), 36 if kind == 1 else 35, 35, 1, LOW - 1, 0x10000))


def dangling_parent(made, is_wrong):
    node = of_kind(made, 0)
    node.names = stray(made, 0) if is_wrong else made.dice.choice((0, of_kind(made, 0)))
    if is_wrong and made.dice.random() < 0.6:
        node.resources = [0]


def dangling_resource(made, is_wrong):
    dice, node = made.dice, of_kind(made, 0)
    if is_wrong and dice.random() < 0.4:
        node.names = stray(made, 0)
    for _ in range(dice.choice((1, 1, 2))):
        right, wrong = (of_kind(made, 1), of_kind(made, 2)), (0, stray(made, 1), of_kind(made, 0))
        node.resources.insert(dice.randrange(len(node.resources) + 1), dice.choice(wrong if is_wrong else right))


def dangling_cache(made, is_wrong):
    of_kind(made, 1).names = stray(made, 1) if is_wrong else made.dice.choice((0, of_kind(made, 1)))


def cycle(kind):
    """Some entries that lead to each other, around or to an end, and some that lead to these."""

    def change(made, is_wrong):
        dice = made.dice
        ring = [Item(kind) for _ in range(dice.choice((1, 1, 2, 3, 5)))]
        for place, item in enumerate(ring):
            item.names = ring[(place + 1) % len(ring)]
        if not is_wrong:
            ring[dice.randrange(len(ring))].names = 0
        chain = [Item(kind, dice.choice(ring))]
        for _ in range(dice.choice((0, 0, 1, 2))):
            chain.append(Item(kind, dice.choice(chain)))
        items = ring + chain[: dice.choice((0, 1, len(chain)))]
        dice.shuffle(items)
        put(made, made.pptt, *items)

    return change


# ---- across tables


def two_domains(made, is_wrong):
    """Processors in domains that differ in one byte; right by one thing, if they are right."""
    for apic_id in made.dice.sample((0, 5, 255, 256, LOW - 1), made.dice.choice((1, 2))):
        processor_in_domains(made, is_wrong, apic_id)


def processor_in_domains(made, is_wrong, apic_id):
    dice, is_usable = made.dice, made.settings.processors == "usable"
    kept_by = None if is_wrong else dice.choice(("processor", "flags", "flags", "flags", "entry", "domain"))
    off, on = ((0,), (1, 2)) if is_usable else ((0, 2, 2, 2), (1, 3))
    maker = x2apic if apic_id > 255 or dice.random() < 0.5 else lapic
    if kept_by != "processor":
        put(made, made.madt, maker(5, apic_id, dice.choice(off if kept_by == "flags" else on)))
    domain = dice.choice((0, 1, 0x01020304))
    other = domain if kept_by == "domain" else domain ^ dice.choice((1, 1 << 8, 1 << 16, 1 << 24))
    domains = [(domain, dice.choice((1, 1, 3))), (other, dice.choice((0, 2)) if kept_by == "entry" else 1)]
    if is_wrong and dice.random() < 0.4:
        domains.append((dice.choice((domain, 7)), dice.choice((1, 0))))
    for it, flags in domains:
        maker = x2apic_domain if apic_id > 255 or dice.random() < 0.25 else apic_domain
        put(made, made.srat, maker(apic_id, it, flags))


def gsi_nowhere(made, is_wrong):
    dice, spans = made.dice, []
    if not any(entry[:2] == b"\1\x0c" for entry in made.madt):
        put(made, made.madt, io_apic(0xFEC00000, dice.choice((0, 24))))
    for entry in made.madt:
        if entry[:2] == b"\1\x0c":
            base, address = int.from_bytes(entry[8:12], "little"), int.from_bytes(entry[4:8], "little")
            spans.append((base, base + made.inputs_of(address)))
    base, end = dice.choice(spans)
    gsi = dice.choice((end, end, base - 1, LOW - 1) if is_wrong else (base, end - 1))
    put(made, made.madt, override(203, gsi) if dice.random() < 0.5 else nmi_source(gsi))


def leaf_unknown(made, is_wrong):
    """A leaf that no processor has; right by one thing, if it is right."""
    dice = made.dice
    kept_by = None if is_wrong else dice.choice(("processor", "processor", "flags", "revision", "entry", "cut"))
    uid = dice.choice((7, 255, 256, 0xABCDEF, LOW - 1))
    made.madt[:] = [entry for entry in made.madt if len(entry) == MadtEntries.LENGTHS.get(entry[0])]
    made.pptt_revision = dice.choice((1, 1, 0)) if kept_by == "revision" else dice.choice((2, 2, 3, 255))
    if kept_by == "processor":
        flags = dice.choice((1, 0))
        put(made, made.madt, x2apic(uid, 900, flags) if uid > 255 or dice.random() < 0.5 else lapic(uid, 99, flags))
    elif kept_by == "entry":
        put(made, made.madt, dice.choice((b"\x0b\x02", bytes([255, 8]) + bytes(6), bytes([0, 9]) + bytes(7))))
    elif kept_by == "cut":
        made.madt.append(b"\0")
    flags = dice.choice((0, 2, 8)) if kept_by == "flags" else 0b1010 | dice.choice((0, 1, 4, LOW - 16))
    put(made, made.pptt, Item(0, 0, [], flags, uid))


EDGES = (
    rsdp_out, rsdp_signature, value("rsdp", "error", WRONG_SUMS, 0), value("rsdp", "present", (35, 35, 20, 24, 32), 36, True),
    value("rsdp", "length", (35, 35, 20, 0, 33), 36, True), rsdp_long_out, rsdp_extended_sum,
    no_root, root_header_out, root_signature, value("root", "length", (35, 35, 0, 9), HEADER_SIZE), root_out, root_ragged,
    value("root", "error", WRONG_SUMS, 0),
    table_header_out, table_length, table_out, table_sum,
    no_fadt, fadt_short, block_length(PM1_EVT_LEN, (3, 3, 0), (4, 5, 255)), block_length(PM1_CNT_LEN, (1, 1, 0), (2, 3, 255)),
    block_length(PM_TMR_LEN, (1, 3, 5, 255), (0, 4)), gpe_length, reset_register,
    no_facs, facs_align, facs_header_out, facs_signature, facs_length, facs_out,
    table_cut("madt_cut", 44), last_entry("madt"), entry_length("madt", MadtEntries.LENGTHS), override_bus, reserved_inti, second_address,
    gsi_past_end, gsi_clash, override_clash,
    table_cut("srat_cut", 48), last_entry("srat"), entry_length("srat", SratEntries.LENGTHS), range_past_end, overlap,
    slit_short, slit_size, slit_cell(True, (9, 11, 0, 255), (10,)), slit_cell(False, (9, 0, 9), (10, 255, 11)),
    pptt_entry_cut, pptt_entry_length, dangling_parent, dangling_resource, dangling_cache, cycle(0), cycle(1),
    two_domains, gsi_nowhere, leaf_unknown,
)
# The tables that an edge changes, by the place of the first code that does and the last.
NEEDED = (("madt", 32, 40), ("srat", 41, 45), ("slit", 46, 49), ("pptt", 50, 56), ("madt", 57, 59), ("srat", 57, 57), ("pptt", 59, 59))


def change_at_edge(made, code, is_wrong):
    """Changes a set at the edge of this code, where it has the tables that the edge is of."""
    if all(getattr(made, name) is not None for name, first, last in NEEDED if first <= code <= last):
        EDGES[code - 1](made, is_wrong)
