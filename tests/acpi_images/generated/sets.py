"""Makes sets of tables at random. Nearly all of them are clean; edges.py then changes them. Sections are those of ACPI 6.5. Numbers
are little-endian."""

from functools import partial
from types import SimpleNamespace

from .. import tables as built
from ..table_set import Policy
from ..tables import (
    REDUCED, RESET_REG_SUP, core_pic, device_domain, distributor, frame, gicc, gicd, hart_domain, its, its_domain, lapic, nmi_source,
    number, override, placed, redistributor, rintc, summed, uid_domain,
)
from ..text import TOP

RSDP_SIZE, LONG_RSDP_SIZE, HEADER_SIZE, FACS_SIZE = 20, 36, 36, 64
FADT_SIZE = 320
FADT_LENGTHS = (116, 117, 128, 129, 131, 132, 139, 140, 147, 148, 159, 160, 232, 243, 244, 268, 276, 277, FADT_SIZE)
LOW = 1 << 32
# What bytes of a FADT may be that no stage reads: the model and the profile, SMI_CMD and what is written to it, where GPE1 begins, a
# reserved byte, flags of an Arm machine, and the minor version.
LATER_FIELDS = {
    44: (0, 0, 0, 1, 2), 45: (0, 0, 4, 8, 9), 48: (0, 0, 0xB2), 50: (0, 0, 0, 0, 1), 52: (0, 0, 1, 2), 53: (0, 0, 0, 1),
    54: (0, 0, 0, 0xF2), 55: (0, 0, 0, 1), 94: (0, 8, 16, 255), 95: (0, 0, 0, 1), 111: (0, 0, 0, 0, 1), 129: (0, 1, 1, 2),
    131: (0, 1, 3, 5, 0x15),
}

# Entries whose reserved bytes hold what nothing may depend on: a rebuilt set has 0 there.
RESERVED = 0xA5
io_apic, lapic_address, x2apic, x2apic_nmi, x2apic_domain, memory = (
    partial(make, reserved=RESERVED)
    for make in (built.io_apic, built.lapic_address, built.x2apic, built.x2apic_nmi, built.x2apic_domain, built.memory)
)


class Table:
    """A table (5.2.6): `length` is its Length where it is not that of its bytes, `present` how many of its bytes are."""

    def __init__(self, signature, body, revision=1):
        self.signature, self.body, self.revision = signature, bytes(body), revision
        self.length, self.present, self.error = None, None, 0
        self.at = None

    def __len__(self):
        return HEADER_SIZE + len(self.body)

    def bytes(self, dice):
        """The bytes, with the checksum over Length of them."""
        length = len(self) if self.length is None else self.length
        maker = bytes(dice.randrange(256) for _ in range(26))
        data = self.signature + number(length, 4) + bytes([self.revision, 0]) + maker + self.body
        return summed(data, 9, length, self.error)


class Facs:
    """A FACS (5.2.10)."""

    def __init__(self):
        self.signature, self.length, self.size, self.present = b"FACS", FACS_SIZE, FACS_SIZE, None
        self.at, self.shift = None, 0

    def bytes(self, dice):
        head = self.signature + number(self.length, 4)
        return (head + bytes(24) + bytes([dice.randrange(4)]) + bytes(self.size))[: self.size]


def apic_domain(apic_id, domain, flags):
    """An affinity whose EID and clock domain, which are not compared, differ where the flags do."""
    made, own = built.apic_domain(apic_id, domain, flags), number(flags, 4)
    return made[:8] + own[:1] + made[9:12] + own


def flagged_entries(flags):
    """An entry of each kind that has interrupt flags."""
    return override(201, 0, flags), nmi_source(0, flags), built.lapic_nmi(255, 1, flags), x2apic_nmi(LOW - 1, 1, flags)


def other_entry(dice, kinds):
    size = dice.choice((2, 3, 8, 12, 15, 16, 18, 20, 24, 32, 39, 40, 80))
    return bytes([dice.choice(kinds), size]) + bytes(dice.choice((0, 1, 2, 255)) for _ in range(size - 2))


def further_processor(dice, drawn, flags):
    """A GICC, a CORE PIC or an RINTC, whose UID and ID are drawn. Some are a byte too short or too long to be read."""
    make = dice.choice((
        lambda: cpu_interface(dice, drawn(), flags, dice.choice((39, 40, 41, 67, 68, 75, 76, 80, 80, 82))),
        lambda: core_pic(drawn(), drawn(), flags, dice.choice((14, 15, 15, 15, 15, 16))),
        lambda: placed(rintc(drawn(), flags, dice.choice((19, 20, 21, 36, 36, 36))), _8=number(dice.choice((drawn(), TOP - 1)), 8)),
    ))
    return with_reserved(dice, make())


def with_reserved(dice, entry):
    """An entry, in one of eight cases with a number in one of its first bytes after the length, of which many are reserved."""
    at = dice.choice((2, 3, 4, 6, 7, 16, 21, 28, 77))
    return placed(entry, **{f"_{at}": bytes([dice.choice((1, 2, 4, 255))])}) if dice.random() < 1 / 8 else entry


def further_entry(dice):
    """A wakeup structure, or an interrupt controller of LoongArch or RISC-V. Some are a byte too short or too long to be read."""
    kind = dice.choice((16, 16, 16, 18, 19, 20, 21, 22, 23, 25, 25, 26, 27))
    version = dice.choice((0, 1, 1, 1, 2))
    size = {16: 24 if version == 1 else 16, 18: 23, 19: 21, 20: 13, 21: 19, 22: 17, 23: 14, 25: 16, 26: 36, 27: 36}[kind]
    made = placed(built.other(kind, size + dice.choice((-1, 0, 0, 0, 0, 0, 1))), _2=bytes([version]))
    return with_reserved(dice, placed(made, _8=number(dice.choice((0, 1, 0x1000, 0x1800, LOW)), 8)) if kind == 16 else made)


# Where parts of a GIC are: at one place, or beside each other.
GIC_BASES = (0, 0, 0x1000, 0x10000, 0x20000, 0x2F000, 0x40000, LOW, TOP - 0x20000, TOP - 0x1000)


def cpu_interface(dice, uid, flags, length=80):
    """A GICC, of whose other fields most are 0."""
    parking, base = number(dice.choice((0, 0, 0, 1, LOW - 1)), 4), number(dice.choice((0, 0, 0, 0x1000)), 8)
    redistributor_at = number(dice.choice((0, 0, 0x20000, 0x40000, TOP - 1)), 8)
    mpidr = number(dice.choice((uid, uid, uid, uid << 8, uid << 32, uid << 24, LOW - 1)), 8)
    virtual = {f"_{at}": number(dice.choice((0,) * 8 + (0x1000,)), size) for at, size in ((40, 8), (48, 8), (56, 4))}
    interrupt = number(dice.choice((0, 0, 15, 16, 21, 31, 32, 1055, 1056, 1120)), 2)
    made = placed(gicc(uid, flags, length), _16=parking, _32=base, _60=redistributor_at, _68=mpidr, **virtual)
    return placed(made, **{f"_{dice.choice((78, 80))}": interrupt})


def gic_part(dice, drawn):
    """A distributor, a range of redistributors, an ITS or an MSI frame. Some are a byte too short or too long to be read."""
    more, base = dice.choice((*(0,) * 12, -1, 1)), dice.choice(GIC_BASES)
    make = dice.choice((
        lambda: placed(gicd(24 + more), _8=number(base, 8), _16=bytes([0, 0, 0, 0, dice.choice((0, 1, 2, 3, 3, 4, 5))])),
        lambda: redistributor(base, dice.choice((0, 1, 0x1000, 0x1FFFF, 0x20000, 0x20000, 0x40000, LOW - 1)), 16 + more),
        lambda: its(drawn(), base, 20 + more),
        lambda: frame(drawn(), base, 24 + more),
    ))
    return with_reserved(dice, make())


def gic_entries(dice):
    """The entries of a GIC: distributors, processors, and what else it may have."""
    small = partial(dice.randrange, 3)
    parts = [gic_part(dice, small) for _ in range(dice.choice((0, 0, 1, 2, 4)))]
    parts += [distributor(dice.choice((1, 2, 3, 3, 4)), 0x80000000) for _ in range(dice.choice((0, 1, 1, 1, 2)))]
    parts += [cpu_interface(dice, uid, dice.choice((1, 1, 1, 8, 9, 0))) for uid in range(dice.choice((1, 2, 2, 3)))]
    dice.shuffle(parts)
    return parts


def further_domain(dice, drawn, flags):
    """An affinity of a GICC, an RINTC, an ITS, an initiator or a port, whose UID and domain are drawn. Some lengths are wrong."""
    more = dice.choice((-1, 0, 0, 0, 0, 0, 0, 1))
    of_uid = lambda: uid_domain(drawn(), drawn(), flags, 18 + more)
    of_hart = lambda: hart_domain(drawn(), drawn(), flags, 20 + more)
    of_one_its = lambda: placed(its_domain(drawn(), 12 + more), _8=number(drawn(), 4))
    of_device = lambda: device_domain(dice.choice((5, 6)), drawn(), flags, 32 + more)
    return with_reserved(dice, dice.choice((of_uid, of_uid, of_hart, of_hart, of_one_its, of_device))())


# ---- tables of devices, of which no stage reads more than the header

BUS, SEGMENT = 1 << 20, 1 << 28
ECAM_BASES = (0xB0000000, 0xB0000000, 0xC0000000, 0, 1, 2 * BUS, LOW - BUS, LOW, LOW, TOP - SEGMENT, TOP - BUS)
BUSES = ((0, 255), (0, 255), (0, 127), (128, 255), (0, 0), (5, 5), (1, 2), (9, 3), (255, 0))
HPET_BASES = (0xFED00000, 0xFED00000, 0xFED00400, 0xFED00200, 0, 0xFED00000 << 32, TOP - 1)


def some_mcfg(dice):
    """An MCFG of a few entries, some of which have an address or a bus of others. Some have a part of an entry at their end."""
    entry = lambda: built.ecam(dice.choice(ECAM_BASES), dice.choice((0, 0, 1)), *dice.choice(BUSES))
    body = bytes(8) + b"".join(entry() for _ in range(dice.choice((0, 1, 1, 1, 2, 3, 6)))) + bytes(dice.choice((0, 0, 0, 0, 1, 15)))
    made = built.table(b"MCFG", body, dice.choice((0, 0, 1, 1, 1)))
    return built.changed(made, dict(enumerate(b"SGI", 10)), (9, len(made))) if dice.random() < 1 / 8 else made


def some_hpet(dice):
    """An HPET, of which some end before their last field does."""
    made = built.hpet(dice.choice(HPET_BASES), dice.choice((0, 0, 0, 1)))
    return built.table(b"HPET", made[36 : dice.choice((55, 56, 56, 56, 56, 56))])


# What bytes of an SPCR may be: its interface, a space, an access size and an address, the type of the interrupt and its two numbers, the
# rate, the IDs of a device, its place, and a precise rate; and the size, the place and the bytes of its name.
SPCR_FIELDS = {
    36: (b"\0", b"\x15"), 40: (b"\0", b"\1", b"\2"), 43: (b"\0", b"\3", b"\4"), 44: (bytes(8), number(0x9000000, 8)),
    52: (b"\0", b"\1", b"\2", b"\3", b"\10"), 53: (b"\0", b"\4", b"\15"), 54: [number(it, 4) for it in (4, 23, 24, 31, 33, 1020)],
    58: (b"\0", b"\1", b"\3", b"\10"), 64: (b"\xff\xff\0\0", b"\1\0\xff\xff", b"\1\0\2\0"), 69: (b"\37", b"\40"), 70: (b"\7", b"\10"),
    80: (b"\0", b"\1"), 84: (b"\0", b"\1", b"\2", b"\4"), 86: (b"\0", b"\x57", b"\x58", b"\x59"), 88: (b"ab", b"ab\0\0"),
}


def some_spcr(dice):
    """An SPCR of one of the Revisions, with a few fields of other numbers. Some end before their last field does."""
    changes = {f"_{at}": dice.choice(values) for at, values in SPCR_FIELDS.items() if dice.random() < 1 / 3}
    length = dice.choice((79, 80, 87, 88, 90, 92, 92, None, None, None))
    return built.spcr(dice.choice((1, 2, 2, 3, 4, 4, 4, 255)), length, **changes)


def some_cells(dice):
    """Speeds of a few initiators and targets, some of them twice. Of some a part is missing."""
    domains = lambda: [dice.choice((0, 0, 1, 2, 3)) for _ in range(dice.choice((0, 1, 1, 2, 3)))]
    first, second = domains(), domains()
    cells = [dice.choice((0, 1, 2, 0xFFFE, 0xFFFF)) for _ in range(len(first) * len(second))]
    unit, kind, flags = dice.choice((1, 1000, 1000, 2**16 + 3, LOW // 2, LOW, 0)), dice.choice((0, 1, 5, 6)), dice.choice((0, 3, 0x13, 4))
    whole = built.speeds(first, second, cells, unit, kind, flags)
    return built.speeds(first, second, cells, unit, kind, flags, len(whole) + dice.choice((0,) * 8 + (1, 2, -1, -4)))


def some_hmat(dice):
    """An HMAT of a few structures, some of domains that are nowhere. Some have another length, or a part of one at the end."""
    domain = lambda: dice.choice((0, 0, 1, 1, 2, 7, 256))
    make = (
        lambda: built.proximity(domain(), domain(), dice.choice((0, 1, 1, 2, 3)), dice.choice((40,) * 8 + (39, 41))),
        lambda: some_cells(dice),
        lambda: built.side_cache(domain(), dice.choice((0, 0x11, 0x2133, 0x21, 0x304, 0x3000)), dice.choice((0, 1, 2))),
        lambda: built.side_cache(handles=2, length=dice.choice((31, 35))),
        lambda: built.of_hmat(dice.choice((0, 1, 2, 3, 0x100)), dice.choice((8, 16, 32, 40))),
    )
    structures = [dice.choice((*make[:3] * 3, *make))() for _ in range(dice.choice((0, 1, 2, 3, 5)))]
    made = built.hmat(*structures, bytes(dice.choice((0, 0, 0, 0, 1, 8))), revision=dice.choice((1, 2, 2, 2, 3)))
    return built.table(b"HMAT", made[36:38], 2) if dice.random() < 1 / 16 else made


# Where registers of timers are: at one place, beside each other, or nowhere.
TIMER_BASES = (0, 0x10000, 0x10800, 0x11000, 0x20000, 0x30000, 0x40000, LOW, TOP - 0x1000, TOP - 1)


def some_block(dice):
    """A block of a few frames. Some have another number of frames, or another length."""
    base, gsiv = lambda: dice.choice(TIMER_BASES), lambda: dice.choice((0, 31, 32, 40, 40, 1019, 1020, 4096))
    frame_of = lambda: built.timer_frame(dice.choice((0, 1, 2, 3, 7, 8)), base(), base(), gsiv(), gsiv(), dice.choice((0, 1, 2)))
    frames = [frame_of() for _ in range(dice.choice((1, 1, 2, 3, 8, 9)))]
    first = dice.choice((20,) * 6 + (19, 24))
    length = first + 40 * len(frames) if dice.random() < 7 / 8 else dice.choice((19, 20, 61, 101))
    return built.timer_block(*frames, base=base(), first=first, length=length)


def some_gtdt(dice):
    """A GTDT of one of the Revisions, with a few platform timers, and with other interrupts. Some lack a byte, or have one timer less."""
    base = lambda: dice.choice(TIMER_BASES)
    make = (
        lambda: some_block(dice),
        lambda: built.watchdog(base(), base(), dice.choice((0, 31, 48)), dice.choice((28,) * 7 + (27,))),
        lambda: built.of_gtdt(dice.choice((0, 1, 2)), dice.choice((4, 20, 28))),
    )
    timers = [dice.choice((*make[:2] * 4, *make))() for _ in range(dice.choice((0, 0, 1, 2, 3)))]
    interrupt = lambda: number(dice.choice((0, 15, 16, 26, 27, 27, 31, 32, 1056, 1120)), 4)
    changes = {f"_{at}": interrupt() for at in (48, 56, 64, 72, 96) if dice.random() < 1 / 4}
    more = {"_88": number(len(timers) + 1, 4)} if dice.random() < 1 / 8 else {}
    made = built.gtdt(*timers, revision=dice.choice((0, 1, 2, 3, 3, 3, 255)), **changes, **more)
    return built.table(b"GTDT", made[36:-1], made[8]) if dice.random() < 1 / 8 else made


# Where registers of IOMMUs are: at one place, beside each other, or nowhere.
UNIT_BASES = (0x4000, 0x4000, 0x8000, 0x8000, 0xC000, 0x10000, 0x5000, 0, 1, LOW, TOP - 0x4000, TOP - 1)


def some_scopes(dice):
    """A few scopes, some of which are one of the others. Some have another length, or a part of one at the end."""
    steps = lambda: [(dice.choice((0, 0, 31, 31, 32)), dice.choice((0, 0, 7, 7, 8))) for _ in range(dice.choice((1, 1, 2)))]
    kind, length = lambda: dice.choice((1, 2, 3, 3, 4, 5, 5, 5)), lambda: dice.choice((None,) * 24 + (7, 8, 9, 10))
    scopes = [built.scope(kind(), dice.choice((0, 1, 2)), 0, steps(), length()) for _ in range(dice.choice((0, 1, 1, 2, 3)))]
    return scopes + dice.choice(([],) * 16 + ([b"\1"], [built.scope(0)], [built.scope(6)], scopes[:1], scopes[:1]))


def some_dmar(dice):
    """A DMAR of a few structures, some of which name what is not there. Some have another length, or a part of one at the end."""
    base, segment, flags = lambda: dice.choice(UNIT_BASES), lambda: dice.choice((0, 0, 1)), lambda: dice.choice((0, 0, 1))
    limit, name = lambda: dice.choice((0x1FFF, 0x4FFF, 0xFFFF, 0x4000, 0x5FFE, LOW - 1)), lambda: dice.choice((b"\\A\0",) * 7 + (b"\\A",))
    make = (
        lambda: built.drhd(*some_scopes(dice), base=base(), flags=flags(), segment=segment(), size=dice.choice((0, 0, 1, 2, 15))),
        lambda: built.rmrr(*some_scopes(dice), base=base(), limit=limit()),
        lambda: built.atsr(*some_scopes(dice), flags=flags(), segment=segment()),
        lambda: built.rhsa(base(), dice.choice((0, 1, 2, 7))),
        lambda: built.andd(dice.choice((0, 1, 2)), name()),
        lambda: dice.choice((built.satc, built.sidp))(*some_scopes(dice)),
        lambda: built.of_dmar(dice.choice((0, 1, 2, 3, 4, 5, 6, 7, 0x100)), dice.choice((4, 8, 16, 20, 24))),
    )
    structures = [dice.choice((make[0], make[0], *make[:6] * 2, *make))() for _ in range(dice.choice((0, 1, 2, 3, 5)))]
    width = dice.choice((38, 47, 47, 47, 11, 10, 64))
    made = built.dmar(*structures, bytes(dice.choice((0,) * 8 + (1, 4))), width=width, flags=dice.choice((0, 1, 1)))
    return built.table(b"DMAR", made[36:47]) if dice.random() < 1 / 16 else made


def some_entries(dice):
    """Device entries, many of them ranges of devices. Some have a part of one at the end."""
    device = lambda: dice.choice((0, 1, 1, 2, 0x100))
    span = lambda: built.device_entry(dice.choice((3, 0x43, 0x47)), device()) + built.device_entry(4, dice.choice((1, 2, 0x100, 0x101)))
    hid = lambda: built.acpi_hid(dice.choice((b"AMDI0020", b"A", b"")), dice.choice((0, 1, 2, 3)), dice.choice((b"", b"A", bytes(8))))
    make = (
        span,
        lambda: built.special(dice.choice((1, 1, 2, 2, 3, 0)), dice.choice((0, 1, 2))),
        lambda: built.device_entry(dice.choice((1, 2)), device()),
        lambda: built.device_entry(dice.choice((0x40, 0x42, 0x46)), device()),
        hid,
        lambda: built.device_entry(dice.choice((3, 4, 5, 0x41, 0x43, 0x48, 0x80))),
    )
    entries = [dice.choice((*make[:4] * 3, *make))() for _ in range(dice.choice((0, 1, 2, 4)))]
    return entries + dice.choice(([],) * 12 + ([b"\1"], [b"\x80"], [built.acpi_hid()[:21]], entries[:1]))


def some_ivrs(dice):
    """An IVRS of a few blocks, some of which are of one IOMMU. Some have another length, or a part of one at the end."""
    device, base, kind = lambda: dice.choice((2, 2, 3)), lambda: dice.choice(UNIT_BASES), lambda: dice.choice((0x10, 0x11, 0x40))
    start, size = lambda: dice.choice((0, 0x1000, TOP - 0x1000)), lambda: dice.choice((0, 0x1000, 0x1000, 0x1001))
    make = (
        lambda: built.ivhd(*some_entries(dice), kind=kind(), device=device(), base=base(), segment=dice.choice((0, 0, 0, 1))),
        lambda: built.ivmd(dice.choice((0x20, 0x21, 0x22, 0x23)), device(), device(), start(), size(), dice.choice((1, 1, 3, 8, 0, 16))),
        lambda: built.of_ivrs(dice.choice((0x10, 0x11, 0x12, 0x20, 0x40)), dice.choice((4, 23, 24, 31, 32, 39, 40))),
    )
    blocks = [dice.choice((*make[:1] * 4, *make[:2] * 3, *make))() for _ in range(dice.choice((0, 1, 1, 2, 3)))]
    made = built.ivrs(*blocks, bytes(dice.choice((0,) * 8 + (1, 4))))
    return built.table(b"IVRS", made[36:47], 2) if dice.random() < 1 / 16 else made


def some_device(dice):
    return dice.choice((some_mcfg, some_hpet, some_spcr, *[some_hmat, some_gtdt, some_dmar, some_ivrs] * 2))(dice)


# ---- PPTT (5.2.30)


class Item:
    """An entry of the PPTT. What it names is another one, or an offset, or another one and how far after its start."""

    def __init__(self, kind, names=0, resources=(), flags=0, uid=0, size=None):
        self.kind, self.names, self.resources, self.flags, self.uid = kind, names, list(resources), flags, uid
        self.count = None
        self.size = size
        self.at = 0

    def __len__(self):
        if self.size is not None:
            return self.size
        return 20 + 4 * len(self.resources) if self.kind == 0 else 24

    def bytes(self):
        names, resources = offset_of(self.names), [offset_of(it) for it in self.resources]
        if self.kind == 0:
            made = built.node(names, self.flags, self.uid, resources, self.count, len(self), reserved=RESERVED)
        else:
            made = built.cache(names, 28, self.flags, self.uid, self.uid, 4, 1, 64, self.uid, reserved=RESERVED)
        return (bytes([self.kind, len(self)]) + made[2:] + bytes(len(self)))[: len(self)]


def offset_of(name):
    if isinstance(name, Item):
        return name.at
    if isinstance(name, tuple):
        return name[0].at + name[1]
    return name


def placed_items(items):
    """The bytes of entries one after another, each with its place."""
    at = HEADER_SIZE
    for item in items:
        item.at, at = at, at + len(item)
    return b"".join(item.bytes() for item in items)


# ---- a set


class MadeSet:
    """A set that keeps all rules, if its parts were not changed: what its tables say, and how they lie."""

    def __init__(self, dice, target):
        self.dice = dice
        self.settings = made_settings(dice)
        self.is_xsdt = dice.random() < 0.5
        self.rsdp = SimpleNamespace(signature=b"RSD PTR ", revision=self.made_revision(), length=36, tail=b"", rsdt=None, xsdt=None)
        self.rsdp.error, self.rsdp.long_error, self.rsdp.present = 0, 0, None
        self.rsdp_at = dice.choice((0xE0000, 0xE0000 + 16 * dice.randrange(1, 0x2000), 0xFFFF0, None))
        self.root = Table(b"XSDT" if self.is_xsdt else b"RSDT", b"", dice.randrange(3))
        self.ragged, self.extra_slots = b"", [listed_table] * (dice.random() < 0.1)
        self.facs = Facs()
        self.facs_at = None
        self.fadt_length = dice.choice(FADT_LENGTHS)
        self.fadt = self.made_fadt()
        self.processors = made_processors(dice)
        is_there = lambda *codes: target in codes or dice.random() < 0.6
        self.madt = self.made_madt() if is_there(*range(32, 41), 57, 58, 59) else None
        self.srat = self.made_srat() if is_there(*range(41, 46), 57) else None
        self.slit = self.made_slit() if is_there(*range(46, 50)) else None
        self.pptt = self.made_pptt() if is_there(*range(50, 57), 59) else None
        self.madt_cut = self.srat_cut = self.pptt_cut = None
        self.pptt_revision = dice.choice((2, 2, 2, 3, 3, 1, 255))
        self.others = [self.made_other() for _ in range(dice.choice((0, 0, 1, 2)))]
        # What is done to the tables when they are made: functions of the table with this signature.
        self.changes = []

    def made_revision(self):
        return self.dice.choice((2, 2, 2, 3, 255)) if self.is_xsdt else self.dice.choice((0, 0, 0, 1))

    def made_fadt(self):
        dice = self.dice
        body = bytearray(FADT_SIZE)
        body[88], body[89], body[91] = dice.choice((4, 4, 5, 255)), dice.choice((2, 2, 3, 255)), dice.choice((0, 4))
        body[92], body[93] = dice.choice((0, 2, 254)), dice.choice((0, 2, 254))
        body[112:116] = number(dice.choice((0, 0, REDUCED, RESET_REG_SUP, REDUCED | RESET_REG_SUP, 0xFFEFFFFF)), 4)
        body[116:119] = bytes([dice.randrange(3), 8, 0])
        body[46:48] = number(dice.choice((9, 9, 0, 24, 255)), 2)
        body[40:44] = number(dice.choice((0, 0x9011, 0x7FFE0001)), 4)
        for at, values in LATER_FIELDS.items():
            body[at] = dice.choice(values)
        for at in (244, 256):
            width, offset = dice.choice((8, 8, 8, 0, 16)), dice.choice((0, 0, 0, 1))
            body[at : at + 12] = built.generic_address(dice.choice((0, 0x600)), 0, width, offset)
        # A part of X_FIRMWARE_CTRL, which is none if Length ends in it.
        body[132:139] = b"\x55" * 7
        for at in (*range(56, 88, 4), *range(152, 244, 12), 140):
            body[at : at + 4] = number(dice.choice((0, 0, 0, 0x600, 0x608)), 4)
        for at in range(148, 244, 12):
            body[at : at + 4] = bytes([dice.choice((0, 1, 1, 127)), dice.choice((8, 16, 32)), 0, dice.randrange(5)])
        return body

    def inputs_of(self, address):
        return self.settings.inputs.get(address, self.settings.default_inputs)

    def made_madt(self):
        if self.dice.random() < 0.05:
            return gic_entries(self.dice)
        dice, base, spans = self.dice, self.dice.choice((0, 0, 0, 16, 0xFFFFF000)), []
        entries = []
        for place in range(dice.choice((0, 1, 1, 2, 3, 4))):
            address = dice.choice((0xFEC00000 + 0x10000 * place, 0xFEC00000, 0))
            entries.append(io_apic(address, base, dice.choice((place, 0))))
            spans.append((base, self.inputs_of(address)))
            base += self.inputs_of(address) + dice.choice((0, 0, 0, 1, 8))
        for uid, apic_id, flags, is_wide in self.processors:
            entries.append(x2apic(uid, apic_id, flags) if is_wide else lapic(uid, apic_id, flags))
        served = lambda: spans[0][0] + dice.randrange(spans[0][1]) if spans else dice.randrange(64)
        inti = lambda: dice.choice((0, 1, 3)) | dice.choice((0, 4, 12)) | dice.choice((0, 0, 0xFFF0))
        numbers = {}
        for _ in range(dice.choice((0, 1, 1, 3, 5))):
            source = dice.choice((0, 1, 5, 9, 10, 15, 255))
            entries.append(override(source, numbers.setdefault(source, served()), inti()))
        more = (
            lambda: nmi_source(served(), inti()),
            lambda: built.lapic_nmi(dice.choice((0, 1, 255)), dice.choice((1, 1, 1, 0)), inti()),
            lambda: x2apic_nmi(dice.choice((0, 256, 0xFFFFFFFF)), dice.choice((1, 1, 1, 0)), inti()),
        )
        entries += [dice.choice(more)() for _ in range(dice.choice((0, 1, 2)))]
        entries += [lapic_address(0xFEE00000)] * dice.choice((0, 0, 1))
        if dice.random() < 0.1:
            entries.append(other_entry(dice, (6, 7, 8, 11, 12, 13, 14, 15, 17, 24, 255)))
        if dice.random() < 0.15:
            entries += [gicd()] * dice.choice((0, 1, 2))
            uid, flags = lambda: dice.choice((0, 1, 77)), lambda: dice.choice((0, 1, 1, 2, 8))
            entries += [further_processor(dice, uid, flags()) for _ in range(dice.choice((1, 2)))]
        dice.shuffle(entries)
        return entries

    def made_srat(self):
        dice, entries, base = self.dice, [], self.dice.choice((0, 0, 0x100000000, TOP - 0x10000))
        for _, apic_id, _, is_wide in self.processors:
            domain, flags = dice.choice((0, 1, 255, 256, 0xFFFFFFFF)), dice.choice((1, 1, 1, 0, 0xFFFFFFFF))
            if dice.random() < 0.9:
                entries.append(x2apic_domain(apic_id, domain, flags) if is_wide else apic_domain(apic_id, domain, flags))
        for _ in range(dice.choice((0, 1, 2, 3, 5))):
            size = dice.choice((0, 1, 0x1000, 0x1000))
            entries.append(memory(base, size, dice.choice((1, 1, 3, 5, 0, 2)), dice.randrange(3)))
            base += size + dice.choice((0, 0, 1, 0x1000))
        if dice.random() < 0.2:
            entries.append(other_entry(dice, (3, 3, 4, 5, 6, 7, 255)))
        enabled = lambda: dice.choice((1, 1, 1, 0))
        entries += [further_domain(dice, partial(dice.randrange, 3), enabled()) for _ in range(dice.choice((0, 0, 0, 3)))]
        dice.shuffle(entries)
        return entries

    def made_slit(self):
        """The number of localities, and the distances."""
        dice = self.dice
        count = dice.choice((0, 1, 2, 2, 3, 4))
        far = dice.choice((10, 20, 255))
        return [count, bytearray(10 if i == j else far for i in range(count) for j in range(count))]

    def made_pptt(self):
        dice, items = self.dice, []
        caches = [Item(1, uid=dice.choice((0, 1, 64)), size=dice.choice((24, 28)), flags=dice.choice((0, 2, 0x80, 0xC2)))]
        for _ in range(dice.choice((0, 1, 2))):
            caches.append(Item(1, dice.choice((0, caches[-1])), size=dice.choice((24, 28)), flags=dice.choice((0, 0x80))))
        others = [Item(dice.choice((2, 3, 255)), size=dice.choice((2, 20, 24, 30)))] * dice.choice((0, 0, 1))
        uids = [uid for uid, _, _, _ in self.processors]
        nodes = [Item(0)]
        for place in range(dice.choice((0, 1, 2, 4))):
            is_leaf = place < len(uids)
            resources = [dice.choice(caches + others) for _ in range(dice.choice((0, 0, 1, 2)))]
            flags, uid = (0b1010 if is_leaf else dice.choice((0, 1, 2, 8))), (uids[place] if is_leaf else 77)
            nodes.append(Item(0, dice.choice(nodes), resources, flags, uid))
        items = nodes + caches + others
        dice.shuffle(items)
        return items

    def made_other(self):
        dice = self.dice
        if dice.random() < 1 / 4:
            made = some_device(dice)
            return Table(made[:4], made[36:], made[8])
        read = (b"APIC", b"FACP", b"SRAT", b"SLIT", b"PPTT")
        signature = dice.choice((b"HPET", b"SSDT", b"SSDT", b"DSDT", b"FACS", b"\0\x1f~\x7f", *read))
        return Table(signature, bytes(dice.randrange(256) for _ in range(dice.choice((0, 0, 4, 8, 12, 64, 80)))), dice.randrange(4))

    # ---- the tables, as their parts say

    def tables(self):
        """The listed tables in the order of the slots: usually a second table of a kind comes later."""
        self.fadt_table = Table(b"FACP", self.fadt[36 : self.fadt_length], self.dice.choice((1, 3, 5, 6)))
        tables = [self.fadt_table]
        if self.madt is not None:
            head = number(0xFEE00000, 4) + number(1, 4)
            tables.append(Table(b"APIC", cut(head + b"".join(self.madt), self.madt_cut)))
        if self.srat is not None:
            tables.append(Table(b"SRAT", cut(bytes([RESERVED]) * 12 + b"".join(self.srat), self.srat_cut)))
        if self.slit is not None:
            tables.append(Table(b"SLIT", number(self.slit[0], 8) + self.slit[1]))
        if self.pptt is not None:
            tables.append(Table(b"PPTT", cut(placed_items(self.pptt), self.pptt_cut), self.pptt_revision))
        self.dice.shuffle(tables)
        tables = tables + self.others if self.dice.random() < 0.8 else self.others + tables
        for signature, change in self.changes:
            for table in tables:
                if signature in (table.signature, None):
                    change(table)
                    break
        return tables


def listed_table(layout):
    """The address of a table that has a slot already."""
    return layout.dice.choice(layout.tables).at


def cut(data, size):
    """The bytes, or this many of them."""
    return data if size is None else data[: max(size - HEADER_SIZE, 0)]


def made_settings(dice):
    inputs = {}
    for _ in range(dice.choice((0, 0, 1, 2, 3))):
        inputs[dice.choice((0, 0xFEC00000, 0xFEC10000, 0xFFFFFFFF))] = dice.choice((1, 16, 23, 24, 25, 120, 256))
    hotplug, processors = dice.choice(("counted", "apart")), dice.choice(("enabled", "usable"))
    return Policy(dice.choice((24, 24, 24, 1, 16, 23, 25, 255, 256)), inputs, hotplug, processors)


def made_processors(dice):
    """(UID, APIC ID, flags, whether it is an x2APIC) of processors, which usually have different IDs."""
    processors = []
    for place in range(dice.choice((0, 1, 2, 2, 4))):
        is_wide, flags = dice.random() < 0.4, dice.choice((1, 1, 1, 2, 3, 0))
        apic_id = dice.choice((place, place, place + 250))
        if is_wide:
            apic_id = dice.choice((apic_id, place + 256, 0xFFFFFFFF - place))
        uid = dice.choice((place, place, 255 - place, apic_id))
        processors.append((uid, apic_id, flags, True) if is_wide else (uid % 256, apic_id % 256, flags, False))
    return processors
