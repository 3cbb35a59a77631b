"""Changes known sets of tables at random, and makes sets of tables whose numbers are likely to be those of others, so that the rules of
`lint` are broken as often as they are kept."""

from functools import cache as once

from ..known.judged import JUDGED
from ..known.linted import EXPECTED
from ..known.mistakes import MISTAKES, UNCHANGED
from ..known.one_rule import ALL_LINES, ONE_RULE
from ..known.rows import ROWS
from ..program import IMAGES, firmware_text
from ..rules.facts import MADT_LENGTHS
from ..table_set import MadtEntries, PpttEntries, SratEntries, TableSet, complete_table, entries_of, fadt_of
from ..tables import *
from ..text import Image, read
from .sets import (
    LATER_FIELDS, further_domain, further_entry, further_processor, gic_entries, gic_part, some_device, some_dmar, some_gtdt, some_hmat,
    some_hpet, some_ivrs, some_mcfg, some_spcr,
)

KINDS = {b"APIC": MadtEntries, b"SRAT": SratEntries, b"PPTT": PpttEntries}
LENGTH_AT, REVISION_AT, SUM_AT = 4, 8, 9
MOST_BYTES = 4000


@once
def known_sets():
    """The pieces of sets to begin with, and the address of the RSDP of each."""
    rows = (*EXPECTED, *ROWS, *ONE_RULE)
    pieces = [it.pieces for it in rows if isinstance(it.pieces, dict) and sum(map(len, it.pieces.values())) < MOST_BYTES]
    made = [(it, RSDP_AT) for it in (*pieces, *(it[1] for it in (*JUDGED, *ALL_LINES)))]
    made += [(it.pieces(), int(IMAGES[it.image], 16)) for it in MISTAKES]
    return made + [(read(firmware_text(name)).pieces(), int(IMAGES[name], 16)) for name, _, _ in UNCHANGED * 4]


# ---- entries at random


def small(dice):
    """A number that others are likely to be too."""
    return dice.choice((0, 0, 1, 1, 2, 3, 5, 7, 10, 15, 23, 24, 255, 256, 2**31, 2**32 - 1))


def byte(dice):
    return small(dice) % 256


def flags(dice):
    return dice.choice((0, 1, 1, 1, 2, 3, 8, 0xA, 0x42, 0xC2, 0x7F, 0xFF))


def madt_entry(dice):
    make = dice.choice((
        lambda: lapic(small(dice), small(dice), flags(dice)),
        lambda: x2apic(small(dice), small(dice), flags(dice)),
        *[lambda: further_processor(dice, lambda: small(dice), flags(dice))] * 3,
        lambda: io_apic(small(dice), small(dice), byte(dice)),
        lambda: override(byte(dice), small(dice), dice.choice((0, 0, 2, 8, 13)), dice.choice((0, 0, 0, 1))),
        lambda: nmi_source(small(dice), dice.choice((0, 0, 2))),
        lambda: dice.choice(local_nmis(small(dice), dice.choice((1, 1, 0, 255)), dice.choice((0, 0, 2, 16)))),
        lambda: lapic_address(small(dice)),
        *[lambda: gic_part(dice, lambda: small(dice))] * 3,
        lambda: other(dice.choice((6, 7, 8, 13, 14, 15, 16, 17, 23, 24, 25, 28, 255)), dice.choice((2, 8, 16))),
        lambda: further_entry(dice),
    ))
    return make()


def srat_entry(dice):
    base = lambda: dice.choice((0, 8, 0x1000, 0x2000, 2**32, 2**64 - 0x1000, 2**64 - 1))
    size = lambda: dice.choice((0, 1, 8, 0x1000, 0x1001, 2**64 - 1))
    make = dice.choice((
        lambda: apic_domain(small(dice), small(dice), flags(dice)),
        lambda: x2apic_domain(small(dice), small(dice), flags(dice)),
        *[lambda: further_domain(dice, lambda: small(dice), flags(dice))] * 3,
        lambda: memory(base(), size(), flags(dice), small(dice)),
        lambda: other(dice.choice((3, 4, 5, 6, 7, 8, 255)), dice.choice((2, 12, 20))),
    ))
    return make()


def pptt_entry(dice, starts=(36, 56, 76, 96, 64, 92)):
    place = lambda: dice.choice((0, 0, 36, *starts, dice.randrange(300)))
    leaf_flags = lambda: dice.choice((0, 1, 2, 8, 0xA, 0xA, 0xA, 0xB, 0x1F, 0x2A))
    cache_flags = lambda: dice.choice((0, 1, 2, 4, 0x10, 0x10, 0x40, 0x47, 0x47, 0x80, 0xC2, 0xFF, 0x100))
    line = lambda: dice.choice((0, 1, 3, 32, 64, 96))
    size = lambda: dice.choice((0, 1, 64, 128, 64 * 64, 64 * 64 * 2))
    length = lambda: dice.choice((24, 28, 28))
    ways, attributes = lambda: dice.choice((0, 1, 2)), lambda: dice.choice((0, 0, 4, 8, 0xA, 0x1F, 0x20))
    shape = lambda: {"size": size(), "sets": dice.choice((0, 1, 64)), "ways": ways(), "attributes": attributes(), "line": line()}
    make = dice.choice((
        lambda: node(place(), leaf_flags(), small(dice), [place() for _ in range(dice.choice((0, 1, 2, 2, 3)))]),
        lambda: node(place(), leaf_flags(), small(dice)),
        lambda: cache(place(), length(), cache_flags(), cache_id=byte(dice), **shape()),
        lambda: other(dice.choice((2, 3, 255)), dice.choice((2, 20, 30))),
    ))
    return make()


# ---- tables at random


def new_fadt(dice):
    length = dice.choice((115, 116, 128, 129, 139, 140, 147, 148, 159, 160, 219, 220, 243, 244, 267, 268, 275, 276, 300))
    address = lambda size: number(dice.choice((0, 0, FACS_AT, FACS_AT + 0x1000, 0x600, 0x604, 0xFFFD)), size)
    fields = {36: address(4), 40: address(4), 46: number(dice.choice((0, 9, 23, 24, 200, 265)), 2)}
    fields.update((at, address(4)) for at in range(56, 88, 4))
    fields[88] = bytes(map(dice.choice, ((4, 4, 4, 3), (2, 2, 1), (0,), (0, 4, 3), (0, 1), (0, 1))))
    fields[112] = number(dice.choice((0, 0, REDUCED, RESET_REG_SUP)), 4)
    fields.update({116: bytes([dice.choice((1, 1, 3)), 8, 0, 0]), 132: address(8), 140: address(8)})
    width = lambda: dice.choice((0, 0, 8, 16, 32))
    fields.update((at, bytes([dice.choice((0, 1, 1, 1)), width(), 0, 0]) + address(8)) for at in (*range(148, 244, 12), 244, 256))
    fields.update((at, bytes([dice.choice(values)])) for at, values in LATER_FIELDS.items())
    body = bytearray(300)
    for at, value in fields.items():
        body[at : at + len(value)] = value
    return table(b"FACP", bytes(body[36:length]), dice.choice((1, 2, 3, 4, 5, 6, 255)))


def new_slit(dice):
    count = dice.choice((0, 1, 2, 3, 4))
    cells = even_cells(count)
    for _ in range(dice.choice((0, 0, 1, 2))):
        if cells:
            cells[dice.randrange(len(cells))] = dice.choice((9, 10, 11, 20, 255))
    return slit(dice.choice((count,) * 6 + (count + 1,)), cells)


def several(dice, make):
    """Entries of one make; some of them more than once."""
    made = [make(dice) for _ in range(dice.choice((0, 1, 2, 3, 5, 8, 8, 30)))]
    return made + [dice.choice(made) for _ in range(dice.choice((0, 0, 1, 2)))] if made else []


def new_madt(dice):
    """A MADT, often that of a GIC, in half of the cases without entries that hide which processors there are."""
    entries = gic_entries(dice) if dice.random() < 0.3 else several(dice, madt_entry)
    if dice.random() < 0.5:
        entries = [it for it in entries if it[0] not in (7, 11, 17, 24) or it[1] in MADT_LENGTHS.get(it[0], ())]
    return revised(madt(*entries), dice.choice((1, 2, 3, 5, 6)))


def new_srat(dice):
    return srat(*several(dice, srat_entry))


def new_pptt(dice):
    """A PPTT of which many references lead to entries, and those of nodes to caches."""
    entries = several(dice, pptt_entry)
    starts = [36 + sum(map(len, entries[:place])) for place in range(len(entries))]
    caches = [start for start, entry in zip(starts, entries) if entry[0] == 1]
    for place, entry in enumerate(entries):
        if dice.random() < 0.5 and entry[0] in (0, 1):
            entry = entry[:8] + number(dice.choice((0, *starts)), 4) + entry[12:]
        if dice.random() < 0.5 and entry[0] == 0 and caches:
            entry = entry[:20] + b"".join(number(dice.choice(caches), 4) for _ in range(20, len(entry), 4))
        entries[place] = entry
    return pptt(*entries, revision=dice.choice((0, 1, 2, 2, 3, 3)))


def new_other(dice):
    """A table of which only the header is read, some with a byte in it that is no text."""
    signature = dice.choice((b"DSDT", b"FACS", b"SSDT", b"WAET", b"WAET", b"DBG2"))
    made = table(signature, bytes(20))
    return changed(made, {dice.choice((10, 15, 23, 31)): dice.choice((0, 0x1F, 0x7F))}, (9, 56)) if dice.random() < 0.2 else made


def new_table(dice):
    return dice.choice((new_madt, new_srat, new_slit, new_pptt, new_fadt, new_other, some_device, some_device))(dice)


def new_set(dice):
    """A set of all tables that are looked into."""
    listed = [new_fadt(dice) if dice.random() < 0.5 else fadt(), new_madt(dice), new_srat(dice), new_slit(dice), new_pptt(dice)]
    listed += [make(dice) for make in (some_mcfg, some_hpet, some_spcr, some_hmat, some_gtdt, some_dmar, some_ivrs)]
    dice.shuffle(listed)
    addresses = [0x10000 * place for place in range(2, 14)]
    return image_of(slots=addresses, others={**dict(zip(addresses, listed)), FACS_AT: facs(), FACS_AT + 0x1000: facs()})


# ---- what is changed of a set


class Change:
    """A set that is changed step by step."""

    def __init__(self, dice, image, rsdp):
        self.dice, self.image, self.rsdp = dice, image, rsdp

    def tables(self):
        return TableSet(self.image, self.rsdp)

    def put_byte(self, at, *values):
        """Puts one of these values, or any, to an address whose byte is present."""
        if self.image.present(at, 1):
            self.image.replace(at, bytes([self.dice.choice((*values, self.dice.randrange(256)))]))

    def change_byte(self):
        if self.image.runs:
            place = self.dice.randrange(len(self.image.runs))
            self.put_byte(self.image.starts[place] + self.dice.randrange(len(self.image.runs[place])), 0, 1, 2, 4, 8, 11, 24, 255)

    def change_table_byte(self):
        """Changes a byte of a table, and usually closes its sum."""
        tables = self.tables()
        places = sorted({*tables.slots.values(), tables.root_at} - {0, None})
        if not places:
            return
        address = self.dice.choice(places)
        whole = complete_table(self.image, address) or b"\0" * 60
        offset = self.dice.choice((self.dice.randrange(len(whole)), self.dice.randrange(min(len(whole), 60)), LENGTH_AT, REVISION_AT))
        self.put_byte(address + offset, 0, 1, 2, 3, 4, 5, 6, 255)
        changed_one = complete_table(self.image, address)
        if changed_one and self.dice.random() < 0.8:
            self.image.replace(address, summed(changed_one.data, SUM_AT))

    def change_entries(self):
        """Inserts, repeats, removes or exchanges entries of a MADT, an SRAT or a PPTT."""
        tables = self.tables()
        there = {signature: entries_of(kind, tables.table(signature)) for signature, kind in KINDS.items()}
        signatures = [signature for signature, entries in there.items() if entries]
        if not signatures:
            return
        signature = self.dice.choice(signatures)
        entries, data = there[signature], tables.table(signature).data
        parts = [entry.data for entry in entries.entries]
        rest = b"" if entries.cut is None else data[entries.cut :]
        for _ in range(self.dice.choice((1, 1, 2, 4))):
            self.change_parts(signature, parts, [entry.offset for entry in entries.entries])
        body = data[36 : entries.FIRST] + b"".join(parts) + rest
        new = summed(data[:LENGTH_AT] + number(36 + len(body), 4) + data[8:36] + body, SUM_AT)
        self.image.replace(tables.slots[tables.first_slots[signature]], new)

    def change_parts(self, signature, parts, starts):
        at = self.dice.randrange(len(parts) + 1)
        what = self.dice.choice(("insert", "insert", "repeat", "remove", "exchange"))
        if what == "insert" or not parts:
            made = {b"APIC": madt_entry, b"SRAT": srat_entry}.get(signature)
            parts.insert(at, made(self.dice) if made else pptt_entry(self.dice, starts))
        elif what == "repeat":
            parts.insert(at, self.dice.choice(parts))
        elif what == "remove":
            del parts[at % len(parts)]
        else:
            self.exchange(parts)

    def exchange(self, some):
        one, two = self.dice.randrange(len(some)), self.dice.randrange(len(some))
        some[one], some[two] = some[two], some[one]

    def change_slots(self):
        """Writes another root: slots repeated, of 0, exchanged, or of a table that is new."""
        tables = self.tables()
        if not tables.root:
            return
        slots = [tables.slots.get(slot, 0) for slot in range((len(tables.root) - 36) // tables.width)]
        for _ in range(self.dice.choice((1, 1, 2, 3))):
            at = self.dice.randrange(len(slots) + 1)
            what = self.dice.choice(("repeat", "zero", "new", "exchange"))
            if what == "new":
                address = 0x400000 + 0x10000 * self.dice.randrange(8)
                self.image.replace(address, new_table(self.dice))
                slots.insert(at, address)
            elif what == "exchange" and slots:
                self.exchange(slots)
            else:
                slots.insert(at, self.dice.choice(slots) if what == "repeat" and slots else 0)
        self.image.replace(tables.root_at, table(tables.signature, b"".join(number(slot, tables.width) for slot in slots)))

    def change_fadt(self):
        """Writes another FADT."""
        tables = self.tables()
        if b"FACP" in tables.first_slots:
            self.image.replace(tables.slots[tables.first_slots[b"FACP"]], new_fadt(self.dice))

    def change_roots(self):
        """Puts an RSDP, an XSDT and an RSDT, which list the same, or not quite."""
        tables = self.tables()
        slots = [address for _, address in sorted(tables.slots.items())]
        low = [address for address in slots if address < 1 << 32]
        if self.dice.random() < 0.6 and low:
            what = self.dice.choice(("repeat", "drop", "exchange", "zero", "other"))
            if what == "drop":
                low.remove(self.dice.choice(low))
            elif what == "exchange":
                self.exchange(low)
            else:
                more = {"repeat": self.dice.choice(low), "zero": 0, "other": self.dice.choice((RSDP_AT, 0x500000, low[0] + 4))}
                low.insert(self.dice.randrange(len(low) + 1), more[what])
        self.image.replace(self.rsdp, extended_rsdp(0x500000, self.dice.choice((0x510000, 0x510000, 0x510000, 0x500000, 0))))
        self.image.replace(0x500000, xsdt(*slots))
        self.image.replace(0x510000, rsdt(*low))

    def put_inside(self):
        """Lists a table and one that lies in it, or beside it, or that shares some bytes with it."""
        inner = new_table(self.dice)
        shift, rest = self.dice.choice((0, 0, 1, 20)), self.dice.choice((0, 0, 1))
        host = table(b"SSDT", bytes(shift) + inner[: len(inner) - self.dice.choice((0, 0, 0, 1))] + bytes(rest))
        self.image.replace(0x520000, host)
        self.list_more(0x520000, 0x520000 + self.dice.choice((36 + shift, 36 + shift, len(host))))

    def list_more(self, *addresses):
        """Writes the root with more slots."""
        tables = self.tables()
        if tables.root:
            slots = [address for _, address in sorted(tables.slots.items())] + list(addresses)
            self.image.replace(tables.root_at, table(tables.signature, b"".join(number(slot, tables.width) for slot in slots)))

    def name_dsdt(self):
        """Has the FADT name a DSDT that is right, or not quite."""
        tables = self.tables()
        fadt_at, whole = tables.slots.get(tables.first_slots.get(b"FACP")), tables.table(b"FACP")
        if not whole or len(whole) < 44:
            return
        dsdt = self.dice.choice((
            table(b"DSDT", b""), table(b"DSDT", bytes(3)), table(b"SSDT", b""), changed(table(b"DSDT", b""), {9: 0}),
            changed(table(b"DSDT", b""), {4: 35}), table(b"DSDT", bytes(9))[:44], table(b"DSDT", b"")[:35],
            changed(table(b"DSDT", bytes(9)), {self.dice.choice((10, 15, 16, 23, 28, 31)): self.dice.choice((0, 0x1F, 0x7F))}),
        ))
        at, address = self.dice.choice((40, 40, 140)), self.dice.choice((0x530000, 0x530000, 0x520010))
        self.image.replace(address, dsdt)
        size = 4 if at == 40 else 8
        data = whole.data[:at] + number(address, size) + whole.data[at + size :]
        self.image.replace(fadt_at, summed(data[: len(whole)], SUM_AT))

    def change_facs(self):
        """Puts a FACS, with a byte of it changed, where the FADT names one."""
        facts = fadt_of(self.tables())
        if facts and facts.facs:
            at = self.dice.choice((*range(20, 24), 32, 33, 35, 36, 39, 40, 63))
            self.image.replace(facts.facs, changed(facs(), {at: self.dice.choice((0, 1, 2, 3, 255))}))

    def change_rsdp(self):
        """Puts another Revision into the RSDP, a number into bytes that are reserved, or a byte into its OEM ID."""
        places = {9: (0, 0x20), 14: (0, 0x7E), 15: (0, 1, 2, 3), 20: (36, 37, 40), 33: (0, 1), 35: (0, 1)}
        at = self.dice.choice(list(places))
        self.put_byte(self.rsdp + at, *places[at] * 4)

    def cut(self):
        """Takes the last bytes of a run away."""
        if self.image.runs:
            place = self.dice.randrange(len(self.image.runs))
            size = len(self.image.runs[place])
            kept = self.dice.randrange(size + 1)
            self.image.drop(self.image.starts[place] + kept, size - kept)


# What is done, each so many times of forty.
CHANGES = {
    Change.change_byte: 2, Change.change_table_byte: 9, Change.change_entries: 12, Change.change_slots: 5, Change.change_fadt: 3,
    Change.change_roots: 2, Change.put_inside: 1, Change.name_dsdt: 2, Change.change_facs: 1, Change.change_rsdp: 1, Change.cut: 2,
}


def changed_set(dice):
    """The image of a set that is known or new, and was changed, and the address of its RSDP."""
    pieces, rsdp = (new_set(dice), RSDP_AT) if dice.random() < 0.4 else dice.choice(known_sets())
    change = Change(dice, Image(pieces), rsdp)
    for step in dice.choices(list(CHANGES), CHANGES.values(), k=dice.choice((0, 1, 1, 2, 3, 5))):
        step(change)
    return change.image, rsdp
