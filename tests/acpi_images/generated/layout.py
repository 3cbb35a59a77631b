"""Lays a made set out in an image: where its structures lie, and how much of each is present. Some lie inside others, or touch."""

from ..tables import number, summed
from ..text import TOP, Image
from .sets import HEADER_SIZE, LONG_RSDP_SIZE, LOW, RSDP_SIZE

BASES = (0x2000, 0x7FFE0000, LOW - 0x400, LOW - 0x1000, LOW + 0x123456)


def laid_out(made):
    """The image of a set, and the address of its RSDP."""
    return Layout(made).image()


class Layout:
    """Where the structures of a set lie. Of `inner` there are the table that lies in another one, that other one, and how far
    after its start."""

    def __init__(self, made):
        self.made, self.dice = made, made.dice
        self.tables = made.tables()
        self.inner = None
        self.put_one_inside()

    def put_one_inside(self):
        """Sometimes puts a table into the body of another one that no stage reads."""
        hosts = [table for table in self.tables if table.signature in (b"SSDT", b"HPET")]
        if not hosts or self.dice.random() < 0.5:
            return
        host = self.dice.choice(hosts)
        inner = self.dice.choice([table for table in self.tables if table is not host])
        shift = self.dice.choice((0, 1, 4, 28))
        inner_bytes = inner.bytes(self.dice)
        host.body = bytes(shift) + inner_bytes + host.body
        self.inner = (inner, host, HEADER_SIZE + shift)

    def size_of_root(self):
        slots = len(self.tables) + len(self.made.extra_slots)
        return HEADER_SIZE + (8 if self.made.is_xsdt else 4) * slots + len(self.made.ragged)

    def place_all(self):
        """Gives each structure its address."""
        made, dice = self.made, self.dice
        alone = [table for table in self.tables if not self.inner or table is not self.inner[0]]
        parts = [(table, len(table)) for table in alone] + [(made.root, self.size_of_root()), (made.facs, made.facs.size)]
        parts += [(made.rsdp, LONG_RSDP_SIZE + len(made.rsdp.tail))] if made.rsdp_at is None else []
        dice.shuffle(parts)
        at, places = 0, []
        alignment = dice.choice((1, 4, 16, 64))
        for part, size in parts:
            at += dice.choice((0, 0, 0, 1, 24, 256))
            at += -at % (64 if part is made.facs else alignment)
            places.append((part, at))
            at += size
        base = self.base(at)
        for part, offset in places:
            self.set_place(part, base + offset)
        if self.inner:
            self.inner[0].at = self.inner[1].at + self.inner[2]

    def base(self, size):
        """The first address of all structures, a multiple of 64, as the FACS is laid for it."""
        choices = [*BASES[:-1], LOW - size] if not self.made.is_xsdt else [*BASES, LOW - size, TOP - size]
        # Sometimes a structure lies at 0, an address that means none.
        base = self.dice.choice(choices) if self.dice.random() < 0.96 else 0
        # A FADT without X_FIRMWARE_CTRL does not reach a FACS above 4 GiB.
        if base >= LOW and self.made.fadt_length < 140 and self.dice.random() < 0.9:
            base = 0x2000
        if base + size > (TOP if self.made.is_xsdt else LOW):
            base = 0x2000
        return base - base % 64

    def set_place(self, part, at):
        if part is self.made.rsdp:
            self.made.rsdp_at = at
        else:
            part.at = at

    # ---- the bytes

    def image(self):
        made, dice = self.made, self.dice
        self.place_all()
        self.name_facs()
        pieces = []
        for table in self.tables:
            if not self.inner or table is not self.inner[0]:
                pieces.append((table.at, self.bytes_of(table), table.present))
        pieces.append((made.facs.at + made.facs.shift, made.facs.bytes(dice), made.facs.present))
        pieces.append((made.root.at, self.root_bytes(), made.root.present))
        pieces.append((made.rsdp_at, self.rsdp_bytes(), made.rsdp.present))
        image = Image()
        for at, data, present in self.decoys(pieces[-1][1]) + pieces:
            image.replace(at, data[:present][: max(TOP - at, 0)])
        return image, made.rsdp_at

    def decoys(self, rsdp):
        """What a search may take for an RSDP: at a multiple of 16 or beside one, with the right sum or another."""
        dice, decoys = self.dice, []
        for _ in range(dice.choice((0, 0, 0, 0, 1, 2))):
            at = dice.choice((0xE0000, 0xDFFF0, 0xFFFF0, 0x100000, 0xE0000 + 16 * dice.randrange(0x2000))) + dice.choice((0, 0, 0, 8))
            changed = bytes([dice.choice((rsdp[0], 0x72))]) + rsdp[1:8] + bytes([dice.choice((rsdp[8], rsdp[8] ^ 1))]) + rsdp[9:]
            decoys.append((at, changed, dice.choice((None, 20, 19))))
        return decoys

    def bytes_of(self, table):
        """The table's bytes; of a host with those of the inner table as they are now."""
        if self.inner and table is self.inner[1]:
            inner, at = self.inner[0].bytes(self.dice), self.inner[2] - HEADER_SIZE
            table.body = table.body[:at] + inner + table.body[at + len(inner) :]
        return table.bytes(self.dice)

    def name_facs(self):
        """Writes the FACS's address into the FADT."""
        made, dice = self.made, self.dice
        at = made.facs.at + made.facs.shift if made.facs_at is None else made.facs_at
        body = bytearray(made.fadt_table.body)
        is_wide = at >= LOW or dice.random() < 0.5
        has_wide = len(body) >= 140 - HEADER_SIZE
        if has_wide:
            body[132 - HEADER_SIZE : 140 - HEADER_SIZE] = number(at if is_wide else 0, 8)
        low = dice.choice((0, at, 0x20)) if has_wide and is_wide else at
        if len(body) >= 4:
            body[0:4] = number(low, 4)
        made.fadt_table.body = bytes(body)

    def root_bytes(self):
        made, width = self.made, 8 if self.made.is_xsdt else 4
        addresses = [table.at for table in self.tables]
        for slot in made.extra_slots:
            addresses.insert(self.dice.randrange(len(addresses) + 1), slot(self))
        made.root.body = b"".join(number(at, width) for at in addresses) + made.ragged
        return made.root.bytes(self.dice)

    def rsdp_bytes(self):
        made, rsdp = self.made, self.made.rsdp
        rsdt = 0 if made.is_xsdt and self.dice.random() < 0.5 else made.root.at
        rsdt = rsdt if rsdp.rsdt is None else rsdp.rsdt
        xsdt = made.root.at if made.is_xsdt else 0
        xsdt = xsdt if rsdp.xsdt is None else rsdp.xsdt
        maker = bytes(self.dice.randrange(256) for _ in range(6))
        first = rsdp.signature + b"\0" + maker + bytes([rsdp.revision]) + number(rsdt, 4)
        first = summed(first, 8, RSDP_SIZE, rsdp.error)
        data = first + number(rsdp.length, 4) + number(xsdt, 8) + bytes(4) + rsdp.tail
        data = summed(data, 32, rsdp.length, rsdp.long_error)
        is_short = rsdp.revision < 2 and self.dice.random() < 0.7
        return data[:RSDP_SIZE] if is_short else data


def somewhere(layout):
    """An address for a slot that leads to no table of its own."""
    made, dice = layout.made, layout.dice
    table = dice.choice(layout.tables)
    places = (made.root.at, made.rsdp_at, made.facs.at, table.at, table.at, table.at + 1, table.at + HEADER_SIZE, 1, TOP - 36, TOP - 1)
    return dice.choice(places) % (TOP if made.is_xsdt else LOW)


def nowhere(layout):
    return 0
