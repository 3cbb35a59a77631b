"""Sets of tables, each with one of the further rules and the line that `lint` has to write of it, or None where the set just keeps
the rule; and at the end sets with all their lines. Each line is worked out by hand from the rules in docs/TABLES.md, and none is taken
from a program. Numbers of 0 at the end of a line are left out, and lines of other rules are not asked for."""

from __future__ import annotations

from dataclasses import dataclass

from ..tables import *
from .rows import with_numbers


@dataclass
class Further:
    """A set, and the line of one rule, or None if it is kept, with these words after `lint`."""

    name: str
    pieces: dict | bytes
    rule: str
    line: str | None
    words: str


FURTHER = []


def broken(rule, numbers, name, pieces, words="--rsdp e0000", sets=FURTHER):
    """A set that breaks a rule, of which these are the numbers of the first finding."""
    sets.append(Further(name, pieces, rule, with_numbers(f"advice {rule} {numbers}".strip()), words))


def kept(rule, name, pieces, words="--rsdp e0000", sets=FURTHER):
    """A set that keeps a rule."""
    sets.append(Further(name, pieces, rule, None, words))


# ---- the RSDP, the roots, and tables at one place
broken("NullSlot", "0x1", "a slot of 0 between two tables", listed(hpet(), slots=(0x2000, 0, 0x3000)))
broken("NullSlot", "0x0", "two slots of 0", listed(slots=(0, 0x2000, 0)))
kept("NullSlot", "no slot of 0", listed(hpet()))
kept("NullSlot", "three bytes of a slot of 0", {RSDP_AT: rsdp(), RSDT_AT: table(b"RSDT", number(0x2000, 4) + bytes(3)), 0x2000: fadt()})
kept("NullSlot", "a slot whose low half is 0", {RSDP_AT: extended_rsdp(), XSDT_AT: xsdt(0x2000, 2**32), 0x2000: fadt()})
kept("NullSlot", "no root", {RSDP_AT: rsdp()})

BOTH_ROOTS = {RSDP_AT: extended_rsdp(), XSDT_AT: xsdt(0x2000, 0x3000), RSDT_AT: rsdt(0x2000, 0x3000), 0x2000: fadt(), 0x3000: hpet()}


def roots(wide, narrow, **more):
    """A FADT and an HPET listed by an XSDT and an RSDT of these addresses."""
    others = {int(address[1:], 16): data for address, data in more.items()}
    return {**BOTH_ROOTS, XSDT_AT: xsdt(*wide), RSDT_AT: rsdt(*narrow), **others}


kept("RsdtDiffers", "two roots that list the same", BOTH_ROOTS)
kept("RsdtDiffers", "two roots in another order", roots((0x2000, 0x3000), (0x3000, 0, 0x2000)))
kept("RsdtDiffers", "two roots that list tables of one signature", roots((0x2000, 0x3000), (0x2000, 0x4000), _4000=hpet()))
broken("RsdtDiffers", "0x10 0x0 0x54455048", "an RSDT without the HPET", roots((0x2000, 0x3000), (0x2000,)))
broken("RsdtDiffers", "0x10 0x0 0x54455048", "an RSDT with the HPET twice", roots((0x2000, 0x3000), (0x3000, 0x2000, 0x3000)))
broken("RsdtDiffers", "0x10 0x0 0x50434146", "an RSDT with the HPET for the FADT", roots((0x2000, 0x3000), (0x3000, 0x3000)))
kept("RsdtDiffers", "an RSDT with an address where nothing is", roots((0x2000, 0x3000), (0x2000, 0x3000, 0x4000)))
kept("RsdtDiffers", "an RSDT with an address of three bytes", roots((0x2000, 0x3000), (0x2000, 0x3000, 0x4000), _4000=b"ABC"))
broken("RsdtDiffers", "0x10 0x0 0x44434241", "an RSDT with an address of four bytes", roots((0x2000,), (0x2000, 0x4000), _4000=b"ABCD"))
kept("RsdtDiffers", "an XSDT with a table at 4 GiB", roots((0x2000, 0x3000, 2**32), (0x2000, 0x3000), _100000000=hpet()))
broken(
    "RsdtDiffers", "0x10 0x0 0x44434241", "an XSDT with a signature below 4 GiB",
    roots((0x2000, 0x3000, 2**32 - 4), (0x2000, 0x3000), _fffffffc=b"ABCD"),
)
kept("RsdtDiffers", "no RSDT", {**BOTH_ROOTS, RSDP_AT: extended_rsdp(rsdt=0), RSDT_AT: rsdt()})
kept("RsdtDiffers", "an RSDT of which the last byte is not present", {**BOTH_ROOTS, RSDT_AT: rsdt()[:-1]})
kept("RsdtDiffers", "an RSDT of another signature", {**BOTH_ROOTS, RSDT_AT: changed(rsdt(), {0: ord("X")})})
kept("RsdtDiffers", "an RSDT of 35 bytes", {**BOTH_ROOTS, RSDT_AT: changed(rsdt(), {4: 35})})
kept("RsdtDiffers", "the RSDT is the root", {**BOTH_ROOTS, RSDP_AT: rsdp(), RSDT_AT: rsdt(0x2000)})

DSDT = table(b"DSDT", bytes(4))
OF_DSDT = {"_40": number(0x5000, 4)}
kept("TablesOverlap", "tables that touch", image_of(fadt() + hpet(), slots=(0x2000, 0x2074)))
broken("TablesOverlap", "0x2000 0x2074 0x2074", "a table in a FADT", image_of(fadt(length=172, _116=hpet()), slots=(0x2000, 0x2074)))
ONE_BYTE = fadt(length=117, _116=b"H") + hpet()[1:]
broken("TablesOverlap", "0x2000 0x2074 0x2074", "tables that share a byte", image_of(ONE_BYTE, slots=(0x2074, 0x2000)))
kept("TablesOverlap", "a table listed twice, and the root in a slot", listed(slots=(0x2000, 0x2000, 0x1000)))
BEFORE_RSDP = {0xDFFDC: table(b"HPET", b"R") + rsdp()[1:]}
BEFORE_IT = {**image_of(fadt(), slots=(0x2000, 0xDFFDC)), **BEFORE_RSDP}
del BEFORE_IT[RSDP_AT]
broken("TablesOverlap", "0xdffdc 0xe0000 0xe0000", "a table and the RSDP", BEFORE_IT)
kept("TablesOverlap", "a table after 20 bytes of an RSDP", {**image_of(fadt(), slots=(0x2000, 0xE0014)), RSDP_AT: rsdp() + hpet()})


def before_facs(last, facs_at=0x7000):
    """A FADT that names a FACS, and a table of which the last byte, this one, is the FACS's first."""
    return image_of(full_fadt(facs_at), slots=(0x2000, 0x6FD0), others={0x6FD0: table(b"HPET", bytes(12) + last) + facs()[1:]})


broken("TablesOverlap", "0x6fd0 0x7000 0x7000", "a table and the FACS", before_facs(b"F"))
kept("TablesOverlap", "a table and a FACS of another signature", before_facs(b"f"))
BEFORE_DSDT = {0x4FDC: table(b"HPET", b"D") + DSDT[1:]}
broken(
    "TablesOverlap", "0x4fdc 0x5000 0x5000", "a table and the DSDT",
    image_of(fadt(**OF_DSDT), slots=(0x2000, 0x4FDC), others=BEFORE_DSDT),
)
kept("TablesOverlap", "a table and a DSDT that is not named", image_of(fadt(), slots=(0x2000, 0x4FDC), others=BEFORE_DSDT))
kept("TablesOverlap", "a DSDT that is listed", image_of(fadt(**OF_DSDT), slots=(0x2000, 0x5000), others={0x5000: DSDT}))
NESTED = fadt(length=256, _116=table(b"OUTR", table(b"INNR", bytes(20))))
broken("TablesOverlap", "0x2000 0x2074 0x2074", "a table in a table in a FADT", image_of(NESTED, slots=(0x2098, 0x2074, 0x2000)))

# ---- the DSDT
broken("NoDsdt", "0x28", "a FADT of 116 bytes without a DSDT", listed())
broken("NoDsdt", "0x28", "a FADT of 148 bytes without a DSDT", image_of(fadt(length=148)))
broken("NoDsdt", "0x28", "seven bytes of X_DSDT", image_of(fadt(length=147, _140=b"\1" * 7)))
kept("NoDsdt", "a DSDT", image_of(fadt(**OF_DSDT)))
kept("NoDsdt", "an X_DSDT at 4 GiB", image_of(fadt(length=148, _140=number(2**32, 8))))
kept("NoDsdt", "a FADT of 115 bytes", image_of(table(b"FACP", bytes(79))))
kept("NoDsdt", "no FADT", image_of(hpet()))


def of_dsdt(dsdt):
    """A FADT that names what is at 0x5000."""
    return image_of(fadt(**OF_DSDT), others={0x5000: dsdt})


kept("DsdtWrong", "a DSDT that is right", of_dsdt(DSDT))
broken("DsdtWrong", "0x28 0x0 0x5000", "a DSDT that does not sum to 0", of_dsdt(changed(DSDT, {39: 1})))
broken("DsdtWrong", "0x28 0x0 0x5000", "an SSDT", of_dsdt(table(b"SSDT", bytes(4))))
broken("DsdtWrong", "0x28 0x0 0x5000", "a DSDT of 35 bytes", of_dsdt(changed(DSDT, {4: 35}, (9, 35))))
kept("DsdtWrong", "a DSDT of 36 bytes", of_dsdt(table(b"DSDT", b"")))
kept("DsdtWrong", "a DSDT of which the last byte is not present", of_dsdt(changed(DSDT, {9: 0})[:-1]))
kept("DsdtWrong", "35 bytes of an SSDT", of_dsdt(table(b"SSDT", bytes(4))[:35]))
X_DSDT = {**OF_DSDT, "_140": number(0x6000, 8)}
broken("DsdtWrong", "0x28 0x0 0x6000", "X_DSDT is used", image_of(fadt(length=148, **X_DSDT), others={0x5000: DSDT, 0x6000: facs()}))
kept("DsdtWrong", "DSDT is not used", image_of(fadt(length=148, **X_DSDT), others={0x5000: facs(), 0x6000: DSDT}))


# ---- register blocks of hardware that is not reduced
def full(length=116, facs_at=FACS_AT, **fields):
    """A FADT of full hardware, and a FACS."""
    return image_of(full_fadt(facs_at, length, **fields), others={FACS_AT: facs()})


EVENTS, CONTROL, TIMER = {"_56": number(0x600, 4)}, {"_64": number(0x604, 4)}, {"_76": number(0x608, 4)}
X_EVENTS, X_CONTROL = {"_148": generic_address(0x600)}, {"_172": generic_address(0x604, width=16)}

broken("NoPm1Block", "0x38", "neither block", full())
broken("NoPm1Block", "0x38", "events b for events a", full(_60=number(0x600, 4), **CONTROL))
broken("NoPm1Block", "0x40", "events alone", full(**EVENTS))
kept("NoPm1Block", "both blocks", full(**EVENTS, **CONTROL))
kept("NoPm1Block", "both structures", full(184, **X_EVENTS, **X_CONTROL))
broken("NoPm1Block", "0x40", "a structure that goes past the end by a byte", full(183, **X_EVENTS, _172=X_CONTROL["_172"][:11]))
broken("NoPm1Block", "0x40", "a structure without an address", full(184, **X_EVENTS, _172=generic_address(0)))
kept("NoPm1Block", "reduced hardware", listed())

broken("BlockWidth", "0x38 0x20 0x10", "events of 4 bytes and of 16 bits", full(160, **EVENTS, _148=generic_address(0x600, width=16)))
broken("BlockWidth", "0x38 0x20 0x10", "the same in memory", full(160, **EVENTS, _148=generic_address(0x600, 0, 16)))
broken(
    "BlockWidth", "0x38 0xf8 0xf9", "events of 31 bytes and of 249 bits",
    full(160, **EVENTS, _88=b"\37", _148=generic_address(1, width=249)),
)
broken("BlockWidth", "0x54 0x8 0x10", "events of GPE1", full(244, _84=b"\1", _93=b"\1", _232=generic_address(1, width=16)))
kept("BlockWidth", "events of 4 bytes and of 32 bits", full(160, **EVENTS, **X_EVENTS))
kept("BlockWidth", "events of 32 bytes and of 16 bits", full(160, **EVENTS, _88=b"\x20", _148=generic_address(0x600, width=16)))
kept("BlockWidth", "events of 4 bytes and of no bits", full(160, **EVENTS, _148=generic_address(0x600, width=0)))
kept("BlockWidth", "events of no bytes and of 16 bits", full(160, **EVENTS, _88=b"\0", _148=generic_address(0x600, width=16)))
kept("BlockWidth", "a structure alone", full(160, _148=generic_address(0x600, width=16)))
kept("BlockWidth", "a structure without an address", full(160, **EVENTS, _148=generic_address(0, width=16)))
kept("BlockWidth", "a structure that goes past the end by a byte", full(159, **EVENTS, _148=generic_address(0x600, width=16)[:11]))
kept("BlockWidth", "reduced hardware", image_of(fadt(length=160, **EVENTS, _88=b"\4", _148=generic_address(0x600, width=16))))

broken("HalfBlock", "0x4c 0x4 0x0", "a timer of 4 bytes that is nowhere", full())
broken("HalfBlock", "0x48 0x0 0x610", "a PM2 control of no bytes", full(**TIMER, _72=number(0x610, 4)))
broken("HalfBlock", "0x50 0x4 0x0", "events of GPE0 that are nowhere", full(**TIMER, _92=b"\4"))
broken("HalfBlock", "0x54 0x0 0x100000620", "events of GPE1 of no bytes", full(244, **TIMER, _232=generic_address(0x100000620, 0)))
kept("HalfBlock", "a timer of 4 bytes", full(**TIMER))
kept("HalfBlock", "neither a timer nor its length", full(_91=b"\0"))
kept("HalfBlock", "PM1 events of no bytes", full(**TIMER, **EVENTS, _88=b"\0"))
kept("HalfBlock", "reduced hardware", image_of(fadt(_91=b"\4")))

broken("PortsOverlap", "0x38 0x40 0x603", "the last port of events", full(**EVENTS, _64=number(0x603, 4)))
broken("PortsOverlap", "0x40 0x38 0x600", "the last port of the control", full(**EVENTS, _64=number(0x5FF, 4)))
broken("PortsOverlap", "0x38 0x3c 0x600", "events a and b at one place", full(**EVENTS, _60=number(0x600, 4)))
broken(
    "PortsOverlap", "0x38 0x40 0x601", "a structure of 9 bits",
    full(160, _88=b"\0", _148=generic_address(0x600, width=9), _64=number(0x601, 4)),
)
broken(
    "PortsOverlap", "0x38 0x40 0x603", "a structure of 8 bits and a length of 4 bytes",
    full(160, _148=generic_address(0x600, width=8), _64=number(0x603, 4)),
)
kept("PortsOverlap", "ports that touch", full(**EVENTS, **CONTROL, **TIMER))
kept("PortsOverlap", "a structure of 8 bits", full(160, _88=b"\0", _148=generic_address(0x600, width=8), _64=number(0x601, 4)))
kept("PortsOverlap", "a structure in memory", full(160, _148=generic_address(0x600, 0), _64=number(0x600, 4)))
kept("PortsOverlap", "a block of no bytes", full(_88=b"\0", **EVENTS, _64=number(0x600, 4)))
kept("PortsOverlap", "a field of 4 bytes that is not used", full(160, **EVENTS, _148=generic_address(0x700), _64=number(0x600, 4)))
kept("PortsOverlap", "reduced hardware", image_of(fadt(**EVENTS, _60=number(0x600, 4), _88=b"\4")))

RESETS = REDUCED | RESET_REG_SUP


def reset(address, space=1, flags=RESETS, length=129):
    """A FADT with a reset register, or as much of it as the Length holds."""
    return image_of(fadt(flags, length, _116=generic_address(address, space, 8)[: length - 116]))


broken("PortPastEnd", "0x38 0x4 0xfffd", "events that end past the last port", full(_56=number(0xFFFD, 4)))
kept("PortPastEnd", "events that end at the last port", full(_56=number(0xFFFC, 4)))
broken("PortPastEnd", "0x38 0x4 0x10000", "a structure past the last port", full(160, _148=generic_address(0x10000)))
kept("PortPastEnd", "a structure in memory", full(160, _148=generic_address(0x10000, 0)))
kept("PortPastEnd", "a block of no bytes", full(_88=b"\0", _56=number(0x10000, 4)))
broken("PortPastEnd", "0x30 0x1 0x10000", "SMI_CMD past the last port", full(_48=number(0x10000, 4)))
kept("PortPastEnd", "SMI_CMD at the last port", full(_48=number(0xFFFF, 4)))
kept("PortPastEnd", "SMI_CMD of reduced hardware", image_of(fadt(_48=number(0x10000, 4))))
broken("PortPastEnd", "0x74 0x1 0x10000", "a reset register past the last port", reset(0x10000))
broken("PortPastEnd", "0x74 0x1 0x10000", "the same of full hardware", reset(0x10000, flags=RESET_REG_SUP))
kept("PortPastEnd", "a reset register at the last port", reset(0xFFFF))
kept("PortPastEnd", "a reset register in memory", reset(0x10000, 0))
kept("PortPastEnd", "no reset register", reset(0x10000, flags=REDUCED))
kept("PortPastEnd", "no value of the reset register", reset(0x10000, length=128))

BOTH_GPES = {"_80": number(0x620, 4), "_84": number(0x630, 4), "_92": b"\4", "_93": b"\4"}
broken("GpeOverlap", "0x5e 0x10 0xf", "events of GPE1 from 15 on", full(**BOTH_GPES, _94=b"\17"))
kept("GpeOverlap", "events of GPE1 from 16 on", full(**BOTH_GPES, _94=b"\20"))
kept("GpeOverlap", "no length of GPE1", full(**{**BOTH_GPES, "_93": b"\0"}))
kept("GpeOverlap", "no length of GPE0", full(**{**BOTH_GPES, "_92": b"\0"}))
kept("GpeOverlap", "no GPE1", full(**{**BOTH_GPES, "_84": bytes(4)}))
kept("GpeOverlap", "no GPE0", full(**{**BOTH_GPES, "_80": bytes(4)}))
kept("GpeOverlap", "reduced hardware", image_of(fadt(**BOTH_GPES)))

SMI = {"_48": number(0xB2, 4)}
broken("SmiHalf", "0x30 0x34 0xb2", "an SMI port and no commands", full(**SMI))
broken("SmiHalf", "0x30 0x34 0xb2", "an SMI port and one command", full(**SMI, _52=b"\2\2"))
kept("SmiHalf", "an SMI port and two commands", full(**SMI, _52=b"\2\3"))
broken("SmiHalf", "0x30 0x35", "no SMI port, and commands", full(_53=b"\1\1\1"))
broken("SmiHalf", "0x30 0x5f", "no SMI port, and a command for idle states", full(_95=b"\1"))
kept("SmiHalf", "no SMI port", full())
kept("SmiHalf", "reduced hardware", image_of(fadt(**SMI)))

broken("SciZero", "0x2e", "an SCI of 0", full())
kept("SciZero", "an SCI of 256", full(_46=number(256, 2)))
kept("SciZero", "reduced hardware", listed())

# ---- the FADT as a whole
broken("ResetNowhere", "0x74", "a reset register at 0", reset(0))
kept("ResetNowhere", "a reset register at 4 GiB", reset(2**32, 0))
kept("ResetNowhere", "no reset register", reset(0, flags=REDUCED))
kept("ResetNowhere", "no value of the reset register", reset(0, length=128))


def arch(revision, minor, *entries, flags=REDUCED, length=132):
    """A FADT of this version, where its Length has a minor one, and a MADT."""
    return image_of(revised(fadt(flags, length, **({"_131": bytes([minor])} if length > 131 else {})), revision), madt(*entries))


broken("FadtForArch", "0x8 0x5 0x0", "a FADT 5.0 and a GICC", arch(5, 0, gicc(0)))
broken("FadtForArch", "0x8 0x5 0x0", "a FADT 5.0 with errata and a GICC", arch(5, 0x10, gicc(0)))
broken("FadtForArch", "0x8 0x5 0x0", "a FADT 5 without a minor version and a GICC", arch(5, 0, gicc(0), length=131))
broken("FadtForArch", "0x8 0x4 0x2", "a FADT 4.2 and a GICC of 2 bytes", arch(4, 2, other(11, 2)))
broken("FadtForArch", "0x8 0x1 0x0", "a FADT 1 of full hardware and a GICC", arch(1, 0, gicc(0), flags=0))
broken("FadtForArch", "0x70", "a FADT 5.1 of full hardware and a GICC", arch(5, 1, gicc(0), flags=0))
broken("FadtForArch", "0x70", "a FADT 1 of full hardware and an RINTC of 2 bytes", arch(1, 0, other(24, 2), flags=0))
kept("FadtForArch", "a FADT 5.1 and a GICC", arch(5, 1, gicc(0)))
kept("FadtForArch", "a FADT 6 without a minor version and a GICC", arch(6, 0, gicc(0), length=116))
kept("FadtForArch", "a FADT 1 and an RINTC", arch(1, 0, rintc(0)))
kept("FadtForArch", "a FADT 1 of full hardware and a local APIC", arch(1, 0, lapic(0, 0), flags=0))

BYTE = generic_address(1, width=8)


def sleep(control, status, flags=REDUCED, length=268):
    return image_of(fadt(flags, length, _244=control, _256=status[: length - 256]))


kept("SleepRegister", "two registers of a byte", sleep(BYTE, BYTE))
broken("SleepRegister", "0x100 0x10 0x0", "a status of 16 bits", sleep(BYTE, generic_address(1, width=16)))
broken("SleepRegister", "0xf4 0x8 0x1", "a control from the second bit on", sleep(generic_address(1, width=8, offset=1), BYTE))
broken("SleepRegister", "0x100", "a control without a status", sleep(BYTE, generic_address(0)))
broken("SleepRegister", "0xf4", "a status without a control", sleep(generic_address(0), BYTE))
broken("SleepRegister", "0xf4 0x0 0x0", "a control of no bits", sleep(generic_address(1, width=0), BYTE))
kept("SleepRegister", "neither register", sleep(generic_address(0, width=16), generic_address(0, width=16, offset=1)))
kept("SleepRegister", "a control, and a FADT that ends in the status", sleep(BYTE, bytes(12), length=267))
kept("SleepRegister", "full hardware", sleep(BYTE, bytes(12), flags=0))

broken("FadtReserved", "0x2c 0x0 0x2", "an interrupt model of 2", image_of(fadt(_44=b"\2")))
broken("FadtReserved", "0x2d 0x0 0x9", "a profile of 9", image_of(fadt(_45=b"\11")))
broken("FadtReserved", "0x6f 0x0 0x1", "the reserved byte before the flags", image_of(fadt(_111=b"\1")))
broken("FadtReserved", "0x70 0x0 0x1100000", "flag bit 24", image_of(fadt(REDUCED | 1 << 24)))
broken("FadtReserved", "0x70 0x0 0xd00000", "flag bits 22 and 23", image_of(fadt(REDUCED | 3 << 22)))
broken("FadtReserved", "0x2d 0x0 0xff", "two bytes", image_of(fadt(_45=b"\xff", _111=b"\1")))
kept("FadtReserved", "an interrupt model of 1, a profile of 8", image_of(fadt(_44=b"\1\10")))
kept("FadtReserved", "flag bits up to 22", image_of(fadt((1 << 23) - 1)))
kept("FadtReserved", "flag bit 23", image_of(fadt(REDUCED | 1 << 23)))


def of_facs(changes, pointer=None):
    """A FADT that names a FACS with some bytes changed."""
    return image_of(pointer or full_fadt(), others={FACS_AT: changed(facs(), changes)})


broken("FacsReserved", "0x20 0x0 0x3", "a FACS of Version 3", of_facs({32: 3}))
broken("FacsReserved", "0x21 0x0 0x1", "a byte after the Version", of_facs({33: 1}))
broken("FacsReserved", "0x23 0x0 0x1", "a byte before the OSPM Flags", of_facs({35: 1}))
broken("FacsReserved", "0x28 0x0 0x7", "a byte after the OSPM Flags", of_facs({40: 7, 63: 1}))
broken("FacsReserved", "0x3f 0x0 0x5", "the last byte", of_facs({63: 5}))
broken("FacsReserved", "0x14 0x0 0x4", "flag bit 2", of_facs({20: 4, 32: 3}))
broken("FacsReserved", "0x24 0x0 0x2", "OSPM flag bit 1", of_facs({36: 2}))
broken("FacsReserved", "0x24 0x0 0x1000001", "OSPM flag bits 0 and 24", of_facs({36: 1, 39: 1}))
broken("FacsReserved", "0x20 0x0 0x3", "reduced hardware with a FACS", of_facs({32: 3}, fadt(_36=number(FACS_AT, 4))))
kept("FacsReserved", "all that is defined", of_facs({20: 3, 32: 2, 36: 1, **dict.fromkeys([*range(8, 20), *range(24, 32)], 0xFF)}))
kept("FacsReserved", "a byte after the first 64", image_of(full_fadt(), others={FACS_AT: changed(facs() + b"\1", {4: 65})}))
kept("FacsReserved", "a FACS of another signature", of_facs({0: ord("f"), 32: 3}))
kept("FacsReserved", "a FACS of 63 bytes", of_facs({4: 63, 32: 3}))
kept("FacsReserved", "a FACS at no multiple of 64", image_of(full_fadt(0x7020), others={0x7020: changed(facs(), {32: 3})}))
kept("FacsReserved", "no FACS", listed())


def pointed(pointer):
    """A set with this RSDP."""
    return {**BOTH_ROOTS, RSDP_AT: pointer}


broken("RsdpReserved", "0xf 0x0 0x1", "Revision 1", pointed(changed(rsdp(), {15: 1}, (8, 20))))
broken("RsdpReserved", "0xf 0x0 0x3", "Revision 3", pointed(changed(extended_rsdp(), {15: 3}, (8, 20))))
broken("RsdpReserved", "0xf 0x0 0x3", "Revision 3, 20 bytes", {RSDP_AT: changed(rsdp(), {15: 3}, (8, 20))})
broken("RsdpReserved", "0x14 0x0 0x28", "an RSDP of 40 bytes", pointed(extended_rsdp(length=40) + bytes(4)))
kept("RsdpReserved", "an RSDP of 40 bytes, 39 of them present", pointed(extended_rsdp(length=40) + bytes(3)))
kept("RsdpReserved", "an RSDP of 35 bytes", pointed(extended_rsdp(length=35)))
broken("RsdpReserved", "0x21 0x0 0x9", "the first reserved byte", pointed(changed(extended_rsdp(), {33: 9, 35: 1})))
broken("RsdpReserved", "0x23 0x0 0x1", "the last reserved byte", pointed(changed(extended_rsdp(), {35: 1})))
kept("RsdpReserved", "an RSDP of 36 bytes", pointed(extended_rsdp()))
kept("RsdpReserved", "Revision 0, and a byte after the RSDP", pointed(rsdp() + bytes(13) + b"\1\1\1"))

# ---- headers


def header(changes):
    """An HPET of which bytes of the header are changed, in slot 1."""
    return listed(changed(hpet(), changes, (9, 56)))


broken("HeaderText", "0x1 0x0 0x3000", "a signature with a control byte", header({3: 0x1F}))
broken("HeaderText", "0x1 0xa 0x3000", "an OEM ID with 7Fh", header({12: 0x7F}))
broken("HeaderText", "0x1 0xa 0x3000", "an OEM ID with a zero before its end", header({10: 0}))
broken("HeaderText", "0x1 0x10 0x3000", "an OEM Table ID with 80h", header({23: 0x80, 28: 1}))
broken("HeaderText", "0x1 0x1c 0x3000", "a Creator ID with a zero before its end", header({30: 0}))
kept("HeaderText", "names of zeros", header(dict.fromkeys([*range(10, 24), *range(28, 32)], 0)))
kept("HeaderText", "zeros at the ends", header({3: 0, 14: 0, 15: 0, 23: 0, 31: 0}))
kept("HeaderText", "the first and the last byte of text", header({0: 0x20, 1: 0x7E, 10: 0x20, 15: 0x7E}))
kept("HeaderText", "other bytes of the header", header(dict.fromkeys([8, 24, 27, 32, 35], 0xFF)))
kept("HeaderText", "35 bytes of a header", listed(changed(hpet(), {12: 0x7F})[:35]))

ONCE = b"""
    WSMT WAET VIOT TPM2 SVKL SPCR SDEV SDEI SBST RAS2 RASF PRMT PMTT PHAT PDTT PCCT NFIT MSCT MPST MCFG IVRS IORT HMAT HEST GTDT FPDT
    ERST EINJ ECDT DMAR DBG2 CPEP CCEL BGRT BERT
"""
for signature in ONCE.split():
    broken("SecondOther", "0x2 0x1 0x4000", f"two tables of {signature.decode()}", listed(*[table(signature, b"")] * 2))
MCFG = table(b"MCFG", bytes(8))
broken("SecondOther", "0x3 0x1 0x4000", "an MCFG twice, and another one", listed(MCFG, MCFG, slots=(0x2000, 0x3000, 0x3000, 0x4000)))
kept("SecondOther", "an MCFG twice", listed(MCFG, slots=(0x2000, 0x3000, 0x3000)))
kept("SecondOther", "two SSDTs", listed(*[table(b"SSDT", b"")] * 2))
kept("SecondOther", "two MADTs", listed(madt(), madt()))


# ---- the MADT: local APICs and I/O APICs
def entries_broken(rule, numbers, name, *entries):
    """A MADT of these entries, from 0x2C on, that breaks a rule."""
    broken(rule, numbers, name, listed(madt(*entries)))


def entries_kept(rule, name, *entries):
    kept(rule, name, listed(madt(*entries)))


LOW = "X2ApicBelow255"
entries_broken(LOW, "0x34 0x0 0xfe", "an x2APIC of 254 after a local APIC", lapic(0, 0), x2apic(1, 254))
entries_broken(LOW, "0x2c 0x0 0x5", "an x2APIC of 5 before a local APIC", x2apic(1, 5), lapic(0, 0))
entries_broken(LOW, "0x3c 0x0 0x5", "local APICs of 255 and of 0", lapic(0, 255), lapic(1, 0), x2apic(2, 5))
entries_broken(LOW, "0x34 0x0 0x5", "both online capable", lapic(0, 0, 2), x2apic(1, 5, 2))
entries_kept(LOW, "an x2APIC of 255", lapic(0, 0), x2apic(1, 255))
entries_kept(LOW, "a local APIC of 255", lapic(0, 255), x2apic(1, 5))
entries_kept(LOW, "a local APIC that is off", lapic(0, 0, 0), x2apic(1, 5))
entries_kept(LOW, "an x2APIC that is off", lapic(0, 0), x2apic(1, 5, 0))
entries_kept(LOW, "no local APIC", x2apic(1, 5))

entries_broken("BroadcastId", "0x2c 0x0 0xff", "a local APIC of 255", lapic(0, 255))
entries_broken("BroadcastId", "0x34 0x0 0xffffffff", "an x2APIC of all ones", lapic(0, 254), x2apic(0, 2**32 - 1, 2))
entries_kept("BroadcastId", "a local APIC of 254", lapic(0, 254))
entries_kept("BroadcastId", "a local APIC of 255 that is off", lapic(0, 255, 0))
entries_kept("BroadcastId", "x2APICs of 255 and of all ones but one", x2apic(0, 255), x2apic(0, 2**32 - 2))
entries_kept("BroadcastId", "an x2APIC of all ones that is off", x2apic(0, 2**32 - 1, 0))

EARLY = "CapableTooEarly"
broken(EARLY, "0x2c 0x6 0x2", "an online capable local APIC by 6.2", arch(6, 2, lapic(0, 0, 2)))
broken(EARLY, "0x2c 0x6 0x2", "the same with errata", arch(6, 0xF2, lapic(0, 0, 2)))
broken(EARLY, "0x34 0x5 0x9", "an online capable x2APIC by 5.9", arch(5, 9, lapic(0, 0), x2apic(0, 0, 2)))
broken(EARLY, "0x2c 0x6 0x0", "an online capable local APIC by 6", arch(6, 0, lapic(0, 0, 2), length=131))
broken(EARLY, "0x2c 0x6 0x4", "an online capable GICC by 6.4", arch(6, 4, gicc(0, 8)))
kept(EARLY, "an online capable local APIC and x2APIC by 6.3", arch(6, 3, lapic(0, 0, 2), x2apic(1, 1, 2)))
kept(EARLY, "an online capable GICC by 6.5", arch(6, 5, gicc(0, 8)))
kept(EARLY, "an online capable GICC by 7.0", arch(7, 0, gicc(0, 8)))
kept(EARLY, "both flags by 6.2", arch(6, 2, lapic(0, 0, 3), gicc(1, 9)))
kept(EARLY, "neither flag by 6.2", arch(6, 2, lapic(0, 0, 4), gicc(1, 6)))
kept(EARLY, "an online capable RINTC by 6.2", arch(6, 2, rintc(0, 2)))
kept(EARLY, "no FADT", image_of(madt(lapic(0, 0, 2))))

entries_broken("EnabledAndCapable", "0x2c 0x0 0x3", "a local APIC", lapic(0, 0, 3))
entries_broken("EnabledAndCapable", "0x34 0x0 0x7", "an x2APIC", lapic(0, 0), x2apic(0, 0, 7))
entries_broken("EnabledAndCapable", "0x2c 0x0 0x9", "a GICC", gicc(0, 9))
entries_broken("EnabledAndCapable", "0x2c 0x0 0x3", "an RINTC", rintc(0, 3))
entries_kept(
    "EnabledAndCapable", "one flag of each",
    lapic(0, 0, 1), x2apic(1, 1, 2), gicc(2, 8), gicc(3, 7), rintc(4, 2), core_pic(5, 5, 3),
)
entries_kept("EnabledAndCapable", "lengths that are no processor's", gicc(0, 9, 39), rintc(0, 3, 19))

entries_broken("OverridePastIsa", "0x2c 0x10 0x14", "an override of 16", override(16, 20))
broken("OverridePastIsa", "0x2c 0x10 0x14", "an SCI of 272", image_of(fadt(_46=number(272, 2)), madt(override(16, 20))))
entries_kept("OverridePastIsa", "an override of 15", override(15, 20))
kept("OverridePastIsa", "an override of the SCI", image_of(fadt(_46=number(16, 2)), madt(override(16, 20))))
kept("OverridePastIsa", "no FADT", image_of(madt(override(16, 20))))

entries_broken("TimerLevel", "0x2c 0x0 0xc", "a timer by level", override(0, 2, 0b1100))
entries_broken("TimerLevel", "0x36 0x0 0xf", "a timer by level, active low", override(0, 2, 0b0100), override(0, 2, 0b1111))
entries_kept("TimerLevel", "a timer by edge, and one of a reserved mode", override(0, 2, 0b0100), override(0, 2, 0b1000))
entries_kept("TimerLevel", "another source by level", override(1, 2, 0b1100))

entries_broken("TwoSourcesOneGsi", "0x36 0x2c 0x2", "sources 0 and 2", override(0, 2), override(2, 2))
entries_broken("TwoSourcesOneGsi", "0x40 0x2c 0x2", "sources 0, 0 and 2", override(0, 2), override(0, 2), override(2, 2))
entries_broken(
    "TwoSourcesOneGsi", "0x4a 0x36 0x9", "after overrides of other numbers",
    override(0, 2), override(1, 9), override(2, 3), override(5, 9),
)
entries_kept("TwoSourcesOneGsi", "one source, twice to one number and to another", override(9, 9), override(9, 9), override(9, 20))

entries_broken("LintNotOne", "0x2c 0x0 0x0", "a local APIC NMI by LINT0", lapic_nmi(255, 0))
entries_broken("LintNotOne", "0x32 0x0 0x2", "an x2APIC NMI by LINT2", lapic_nmi(255, 1), x2apic_nmi(0, 2))
entries_kept("LintNotOne", "both by LINT1", *local_nmis(0, 1))

entries_broken("NoIoApic", "0x0", "a local APIC and an override", lapic(0, 0), override(0, 2))
entries_broken("NoIoApic", "0x0", "an x2APIC and an NMI source", x2apic(0, 0), nmi_source(3))
entries_kept("NoIoApic", "an I/O APIC", lapic(0, 0), override(0, 2), io_apic(0xFEC00000, 0))
entries_kept("NoIoApic", "an I/O SAPIC", lapic(0, 0), override(0, 2), other(6, 2))
entries_kept("NoIoApic", "a local APIC alone", lapic(0, 0))
entries_kept("NoIoApic", "a local APIC that is off", lapic(0, 0, 0), override(0, 2))
entries_kept("NoIoApic", "a GICC", gicc(0), override(0, 2))
entries_kept("NoIoApic", "a MADT that is cut", lapic(0, 0), override(0, 2), b"\7")
entries_kept("NoIoApic", "an NMI of 5 bytes", lapic(0, 0), override(0, 2), other(4, 5))


# ---- the MADT: a GIC
entries_broken("NoDistributor", "0x0", "a GICC", gicc(0))
entries_broken("NoDistributor", "0x0", "a GICC of 2 bytes", other(11, 2))
entries_kept("NoDistributor", "a GICC and a distributor", gicc(0), gicd())
entries_kept("NoDistributor", "both of 2 bytes", other(11, 2), other(12, 2))
entries_kept("NoDistributor", "no GICC", lapic(0, 0))
entries_kept("NoDistributor", "a MADT that is cut", gicc(0), b"\0")
entries_kept("NoDistributor", "a local APIC of 7 bytes", gicc(0), other(0, 7))

WANTED = "NoRedistributor"
entries_broken(WANTED, "0x2c 0x3", "version 3", distributor(3), cpu())
entries_broken(WANTED, "0x2c 0x4", "version 4, and no GICC", distributor(4))
entries_broken(WANTED, "0x43 0x3", "after a distributor of 23 bytes", gicd(23), distributor(3), cpu())
entries_broken(WANTED, "0x2c 0x3", "a GICC that is off has one", distributor(3), cpu(gicr=0x1000, flags=0))
entries_broken(WANTED, "0x2c 0x3", "a GICC that ends in it", distributor(3), cpu(gicr=2**24 - 1, length=67))
entries_kept(WANTED, "a GICC has one", distributor(3), cpu(gicr=0x1000, flags=8, length=68))
entries_kept(WANTED, "an empty range of them", distributor(3), redistributor(0, 0), cpu())
entries_kept(WANTED, "a structure of 2 bytes", distributor(3), other(14, 2), cpu())
for version in (0, 2, 5):
    entries_kept(WANTED, f"version {version}", distributor(version), distributor(3), cpu())
entries_kept(WANTED, "a MADT that is cut", distributor(3), cpu(), b"\0")

SMALL = "GicrTooSmall"
entries_broken(SMALL, "0x44 0x1 0x2", "one for two GICCs", distributor(3), redistributor(0, 0x20000), cpu(), cpu())
entries_broken(SMALL, "0x44 0x1 0x2", "two but for a byte", distributor(4), redistributor(0, 0x3FFFF), cpu(), cpu(flags=8))
entries_broken(SMALL, "0x44 0x0 0x1", "none for a GICC", distributor(3), redistributor(0, 0x1FFFF), redistributor(0x20000, 0x1FFFF), cpu())
entries_kept(SMALL, "two for two GICCs", distributor(3), redistributor(0, 0x20000), cpu(), redistributor(0x20000, 0x20000), cpu())
entries_kept(SMALL, "one for a usable GICC", distributor(3), redistributor(0, 0x20000), cpu(), cpu(flags=0))
entries_kept(SMALL, "a structure of 17 bytes", distributor(3), redistributor(0, 0), redistributor(0, 0, 17), cpu())
entries_kept(SMALL, "version 2", distributor(2), redistributor(0, 0), cpu())
entries_kept(SMALL, "no structure", distributor(3), cpu())
entries_kept(SMALL, "a MADT that is cut", distributor(3), redistributor(0, 0), cpu(), b"\0")

OTHER_BASE = "GiccBaseDiffers"
entries_broken(OTHER_BASE, "0x94 0x44 0x2000", "two bases, version 2", distributor(2), cpu(0x1000), cpu(0x2000))
entries_broken(
    OTHER_BASE, "0x94 0x44 0x0", "a base and none, version 1, the first one off",
    distributor(1), cpu(0x1000, flags=0), cpu(0, flags=0),
)
entries_kept(OTHER_BASE, "one base", distributor(2), cpu(0x1000), cpu(0x1000))
entries_kept(OTHER_BASE, "two bases, one of them in 39 bytes", distributor(2), cpu(0x2000, length=39), cpu(0x1000))
for version in (0, 3):
    entries_kept(OTHER_BASE, f"two bases, version {version}", distributor(version), distributor(2), cpu(0x1000), cpu(0x2000))
entries_kept(OTHER_BASE, "no distributor", cpu(0x1000), cpu(0x2000))

entries_broken("SameMpidr", "0x7c 0x2c 0x5", "one MPIDR twice", cpu(mpidr=5), cpu(mpidr=5))
entries_broken("SameMpidr", "0x78 0x2c 0x5", "one MPIDR twice, in 76 bytes", cpu(mpidr=5, length=76), cpu(mpidr=5, length=76, flags=8))
entries_kept("SameMpidr", "one MPIDR twice, once in 75 bytes", cpu(mpidr=5, length=75), cpu(mpidr=5))
entries_kept("SameMpidr", "one MPIDR twice, once off", cpu(mpidr=5, flags=0), cpu(mpidr=5))
entries_kept("SameMpidr", "two MPIDRs", cpu(mpidr=5), cpu(mpidr=2**32 + 5))

for bit in (24, 31, 40, 63):
    entries_broken("MpidrReserved", f"0x2c 0x0 {1 << bit:#x}", f"bit {bit}", cpu(mpidr=1 << bit))
entries_kept("MpidrReserved", "all bits of affinities", cpu(mpidr=0xFF00FFFFFF))
entries_kept("MpidrReserved", "bit 31 of one that is off", cpu(mpidr=1 << 31, flags=0))
entries_kept("MpidrReserved", "bit 31 in 75 bytes", cpu(mpidr=1 << 31, length=75))

entries_broken("GicrEmpty", "0x3c 0x0 0x1000", "an empty range", redistributor(0, 1), redistributor(0x1000, 0))
entries_kept("GicrEmpty", "a range of a byte, and one in 17 bytes", redistributor(0, 1), redistributor(0, 0, 17))

entries_broken("SameIts", "0x40 0x2c 0x1", "one ID twice", its(1), its(1, 0x20000))
entries_kept("SameIts", "two IDs, and one in 21 bytes", its(1), its(2), its(1, 0, 21))
entries_broken("SameMsiFrame", "0x44 0x2c 0x1", "one ID twice", frame(1), frame(1, 0x1000))
entries_kept("SameMsiFrame", "two IDs, and one in 23 bytes", frame(1), frame(2), frame(1, 0, 23))

GIC = "GicOverlap"
entries_broken(GIC, "0x2c 0x40 0x3ffff", "the last byte of an ITS", its(0, 0x20000), frame(0, 0x3FFFF))
entries_broken(GIC, "0x44 0x2c 0xfff", "the last byte of a frame", frame(1, 0xFFF), frame(0, 0))
entries_broken(GIC, "0x2c 0x44 0xfff", "the last byte of a distributor of version 2", distributor(2), frame(0, 0xFFF))
entries_broken(GIC, "0x2c 0x44 0xffff", "the last byte of a distributor of version 3", distributor(3), frame(0, 0xFFFF))
entries_broken(GIC, "0x2c 0x3c 0x1fff", "the last byte of redistributors", redistributor(0x1000, 0x1000), frame(0, 0x1FFF))
entries_broken(GIC, "0x2c 0x44 0x8000", "two distributors", distributor(4), distributor(2, 0x8000))
entries_broken(GIC, "0x2c 0x44 0x1000", "two frames at one place", frame(0, 0x1000), frame(1, 0x1000))
entries_broken(
    GIC, "0x40 0x2c 0x100", "two ITS, and two frames later on",
    its(0, 0x100), its(1), frame(0, 0x40000), frame(1, 0x40000),
)
entries_kept(
    GIC, "ranges that touch", distributor(3, 0x10000), distributor(2, 0x20000), redistributor(0x21000, 0x1000), its(0, 0x22000),
    frame(0, 0x42000), frame(1, 0x43000), distributor(5, 0x44000), frame(2, 0x45000),
)
entries_kept(GIC, "an empty range", redistributor(0x1000, 0), redistributor(0x1000, 0x1000))
entries_kept(GIC, "a range that goes past the last address", its(0, 2**64 - 1), frame(0, 0))
entries_kept(GIC, "a frame of 25 bytes", its(0), frame(0, 0, 25))

TWICE_TOLD = "RedistributorTwice"
entries_broken(TWICE_TOLD, "0x3c 0x2c 0x5000", "a range and one of a GICC", redistributor(0x1000, 0x1000), cpu(gicr=0x5000))
entries_broken(TWICE_TOLD, "0x2c 0x7c 0x5000", "a GICC before an empty range", cpu(gicr=0x5000), redistributor(0, 0))
entries_kept(TWICE_TOLD, "a range alone", redistributor(0x1000, 0x1000), cpu())
entries_kept(TWICE_TOLD, "a range, and one of a GICC that is off", redistributor(0x1000, 0x1000), cpu(gicr=0x5000, flags=0))
entries_kept(TWICE_TOLD, "a range, and one in 67 bytes", redistributor(0x1000, 0x1000), cpu(gicr=0x5000, length=67))
entries_kept(TWICE_TOLD, "one of a GICC, and a range in 17 bytes", redistributor(0x1000, 0x1000, 17), cpu(gicr=0x5000))


def booted(flags, *entries, length=131):
    """A FADT with this ARM_BOOT_ARCH, as far as its Length goes, and a MADT."""
    return image_of(fadt(length=length, _129=number(flags, 2)[: length - 129]), madt(*entries))


broken("NoBootMethod", "0x81", "two GICCs, no PSCI", booted(0, cpu(), cpu()))
broken("NoBootMethod", "0x81 0x0 0x2", "two GICCs, a call of PSCI alone", booted(2, cpu(), cpu(flags=8)))
broken("NoBootMethod", "0x81", "a GICC that is off has a parking protocol", booted(0, cpu(), cpu(), cpu(parking=1, flags=0)))
kept("NoBootMethod", "PSCI", booted(1, cpu(), cpu()))
kept("NoBootMethod", "a parking protocol", booted(0, cpu(), cpu(parking=1)))
kept("NoBootMethod", "one GICC that is on", booted(0, cpu(), cpu(flags=0)))
kept("NoBootMethod", "a FADT that ends in ARM_BOOT_ARCH", booted(0, cpu(), cpu(), length=130))
kept("NoBootMethod", "a MADT that is cut", booted(0, cpu(), cpu(), b"\0"))


entries_broken("SameHart", "0x50 0x2c 0x5", "one hart twice", hart(5), hart(5, 2))
entries_broken("SameHart", "0x40 0x2c 0x5", "one hart twice, in 20 bytes", hart(5, length=20), hart(5, length=20))
entries_kept("SameHart", "two harts", hart(5), hart(2**32 + 5))
entries_kept("SameHart", "one hart twice, once off, once in 19 bytes", hart(5), hart(5, 0), hart(5, 1, 19))

# ---- what is reserved in the MADT
USED = "MadtReserved"
broken(USED, "0x28 0x0 0x2", "flag bit 1 of the MADT", listed(table(b"APIC", bytes(4) + number(2, 4) + io_apic(0, 0, 0, 1))))
for name, entry, at in (
    ("an I/O APIC's reserved byte", io_apic(0, 0, 0, 1), "0x3"),
    ("a local APIC's flag bit 2", lapic(0, 0, 4), "0x4"),
    ("a local APIC's flag bit 31", lapic(0, 0, 1 << 31), "0x4"),
    ("an override's flag bit 4", override(0, 0, 0x10), "0x8"),
    ("an NMI source's flag bit 15", nmi_source(0, 0x8000), "0x2"),
    ("a local APIC NMI's flag bit 4", lapic_nmi(0, 1, 0x10), "0x3"),
    ("an address's reserved bytes", lapic_address(0, 1), "0x2"),
    ("an address's second reserved byte", changed(lapic_address(0), {3: 1}), "0x3"),
    ("an x2APIC's reserved bytes, and flag bit 2", x2apic(0, 0, 4, 1), "0x2"),
    ("an x2APIC's flag bit 2", x2apic(0, 0, 4), "0x8"),
    ("an x2APIC NMI's flag bit 4", x2apic_nmi(0, 1, 0x10, 1), "0x2"),
    ("an x2APIC NMI's reserved bytes", x2apic_nmi(0, 1, 0, 1), "0x9"),
    ("an x2APIC NMI's last byte", changed(x2apic_nmi(0, 1), {11: 1}), "0xb"),
    ("a distributor's byte 16", placed(distributor(5), _16=b"\1\1\1\1"), "0x10"),
    ("a distributor's byte 19", placed(gicd(), _19=b"\1"), "0x13"),
    ("a distributor's version 5", distributor(5), "0x14"),
):
    entries_broken(USED, f"0x2c {at}", name, entry)
entries_broken(USED, "0x34 0x3", "the first of three entries", lapic(0, 0), io_apic(0, 0, 0, 1), lapic(1, 1, 4), distributor(5))
entries_broken(USED, "0x2c 0x14", "a distributor before a local APIC", distributor(5), lapic(0, 0, 4))
entries_kept(
    USED, "all that is defined", lapic(0, 0, 3), io_apic(0, 0, 255), override(255, 0, 0xF, 255),
    nmi_source(0, 0xF), lapic_nmi(255, 255, 0xF),
    lapic_address(2**64 - 1), x2apic(2**32 - 1, 2**32 - 1, 3), x2apic_nmi(0, 255, 0xF), distributor(4, 2**64 - 1),
)
entries_kept(USED, "other bytes of a distributor", placed(gicd(), _2=b"\1" * 6, _21=b"\1" * 3))
entries_kept(
    USED, "entries of other lengths and types",
    other(6, 2), b"\0\11" + b"\xff" * 7, b"\14\31" + b"\xff" * 23, b"\13\50" + b"\xff" * 38,
)


# ---- the SRAT
def affinities_broken(rule, numbers, name, *entries):
    """An SRAT of these entries, from 0x30 on, that breaks a rule."""
    broken(rule, numbers, name, listed(srat(*entries)))


def affinities_kept(rule, name, *entries):
    kept(rule, name, listed(srat(*entries)))


HERE = apic_domain(0, 0)
NO_RANGE = "NoMemoryRange"
affinities_broken(NO_RANGE, "0x0", "a processor alone", HERE)
affinities_broken(NO_RANGE, "0x0", "a processor of a GIC", uid_domain(0, 0))
affinities_broken(NO_RANGE, "0x0", "a hart", hart_domain(0, 0))
affinities_broken(
    NO_RANGE, "0x0", "an x2APIC, and ranges that are empty or not enabled",
    x2apic_domain(0, 0), memory(0, 0), memory(0, 1, 0), memory(0, 1, 2),
)
affinities_kept(NO_RANGE, "a range of a byte", HERE, memory(0, 1))
affinities_kept(NO_RANGE, "a processor that is not enabled, and an ITS", apic_domain(0, 0, 0), its_domain(0), device_domain(5, 0))
affinities_kept(NO_RANGE, "an SRAT that is cut", HERE, b"\3")
affinities_kept(NO_RANGE, "a range of 24 bytes", HERE, other(1, 24))

affinities_broken("EmptyRange", "0x58 0x0 0x1000", "a range of a byte, and an empty one", memory(0, 1), memory(0x1000, 0))
affinities_kept("EmptyRange", "a range of a byte, and an empty one that is not enabled", memory(0, 1), memory(0x1000, 0, 2))

affinities_broken("InitiatorOff", "0x30 0x0 0x107", "an initiator that is not enabled", device_domain(5, 0x107, 2))
affinities_kept("InitiatorOff", "an initiator", device_domain(5, 7))
affinities_kept("InitiatorOff", "a port, and an initiator of 31 bytes", device_domain(6, 7, 0), device_domain(5, 7, 0, 31))

PAST = "DomainPastRevision"
affinities_broken(PAST, "0x30 0x1 0x100", "a processor in domain 256", apic_domain(0, 256))
affinities_broken(PAST, "0x58 0x1 0x100", "memory in domain 256", memory(0, 1, 1, 255), memory(1, 1, 1, 256))
affinities_broken(PAST, "0x30 0x1 0x1ff", "memory in domain 1FFh, and a processor later", memory(0, 1, 1, 0x1FF), apic_domain(0, 256))
broken(PAST, "0x30 0x0 0x100", "an SRAT of Revision 0", listed(revised(srat(apic_domain(0, 256)), 0)))
affinities_kept(PAST, "domain 255", apic_domain(0, 255), memory(0, 1, 1, 255))
affinities_kept(PAST, "domain 256 of what is not enabled", apic_domain(0, 256, 0), memory(0, 1, 0, 256))
affinities_kept(PAST, "domain 256 of other types", x2apic_domain(0, 256), uid_domain(0, 256))
kept(PAST, "an SRAT of Revision 2", listed(revised(srat(apic_domain(0, 256)), 2)))


def its_and(affinity, *entries):
    """A MADT of these entries, and an SRAT of one."""
    return listed(madt(*entries), srat(affinity))


broken("ItsNowhere", "0x30 0x0 0x6", "another ITS", its_and(of_its(6), its(5)))
broken("ItsNowhere", "0x30 0x0 0x0", "no ITS", its_and(of_its(0)))
broken("ItsNowhere", "0x3c 0x0 0x106", "the second affinity", listed(madt(its(6)), srat(of_its(6), of_its(0x106))))
kept("ItsNowhere", "two ITS", its_and(of_its(6), its(5), its(6)))
kept("ItsNowhere", "an affinity of 13 bytes", its_and(of_its(6, 13), its(5)))
kept("ItsNowhere", "an ITS of 21 bytes", its_and(of_its(6), its(5), its(7, 0, 21)))
kept("ItsNowhere", "a MADT that is cut", its_and(of_its(6), b"\0"))
kept("ItsNowhere", "no MADT", listed(srat(of_its(6))))
kept("ItsNowhere", "a MADT of 40 bytes", listed(table(b"APIC", bytes(4)), srat(of_its(6))))

USED_HERE = "SratReserved"


def begun(one, *entries):
    """An SRAT with this first reserved number."""
    return listed(table(b"SRAT", number(one, 4) + b"\1" * 8 + b"".join(entries)))


broken(USED_HERE, "0x24 0x0 0x2", "a first number of 2", begun(2, memory(0, 1, 8)))
broken(USED_HERE, "0x24", "a first number of 0", begun(0))
kept(USED_HERE, "a first number of 1, and other reserved bytes", begun(1))
RANGE = memory(0, 1)
for name, entry, at in (
    ("a processor's flag bit 1", apic_domain(0, 0, 2), "0x4"),
    ("all reserved bytes of a range", memory(0, 1, reserved=1), "0x6"),
    ("a range's byte 7", changed(RANGE, {7: 1}), "0x7"),
    ("a range's byte 24", changed(RANGE, {24: 1, 28: 8}), "0x18"),
    ("a range's byte 27", changed(RANGE, {27: 1}), "0x1b"),
    ("a range's flag bit 3", changed(memory(0, 1, 8), {39: 1}), "0x1c"),
    ("a range's flag bit 31", memory(0, 1, 1 << 31), "0x1c"),
    ("a range's byte 32", changed(RANGE, {32: 1}), "0x20"),
    ("a range's byte 39", changed(RANGE, {39: 1}), "0x27"),
    ("all reserved bytes of an x2APIC", x2apic_domain(0, 0, 2, 1), "0x2"),
    ("an x2APIC's byte 3", changed(x2apic_domain(0, 0), {3: 1}), "0x3"),
    ("an x2APIC's flag bit 1", x2apic_domain(0, 0, 2), "0xc"),
    ("an x2APIC's byte 20", changed(x2apic_domain(0, 0), {20: 1}), "0x14"),
    ("an x2APIC's byte 23", changed(x2apic_domain(0, 0), {23: 1}), "0x17"),
):
    affinities_broken(USED_HERE, f"0x30 {at}", name, entry)
affinities_broken(USED_HERE, "0x58 0x4", "the second entry", RANGE, apic_domain(0, 0, 2))
ALL_ONES = b"\xff" * 8
affinities_kept(
    USED_HERE, "all that is defined", placed(apic_domain(255, 2**32 - 1), _8=b"\xff", _12=ALL_ONES[:4]),
    memory(2**64 - 1, 2**64 - 1, 7, 2**32 - 1), placed(x2apic_domain(2**32 - 1, 2**32 - 1), _16=ALL_ONES[:4]),
)
affinities_kept(USED_HERE, "entries of other types and lengths", b"\3\22" + ALL_ONES * 2, b"\1\51" + b"\xff" * 39)

# ---- the SLIT
for count, cells, at, row, column in ((2, [10, 10, 20, 10], "0x2d", 0, 1), (2, [10, 20, 10, 10], "0x2e", 1, 0)):
    broken("RemoteAsLocal", f"{at} {row:#x} {column:#x}", f"10 from {row} to {column}", listed(slit(count, cells)))
broken("RemoteAsLocal", "0x31 0x1 0x2", "10 from 1 to 2, and later", listed(slit(3, [10, 20, 20, 20, 10, 10, 10, 10, 10])))
kept("RemoteAsLocal", "distances of 9 and 11", listed(slit(2, [10, 9, 11, 10])))
kept("RemoteAsLocal", "a SLIT of one locality", listed(slit(1, [10])))
kept("RemoteAsLocal", "a SLIT of another size", listed(slit(2, [10, 10, 10])))

# ---- the PPTT


def nodes_broken(rule, numbers, name, *entries, revision=2):
    """A PPTT of these entries, from 0x24 on, that breaks a rule."""
    broken(rule, numbers, name, listed(pptt(*entries, revision=revision)))


def nodes_kept(rule, name, *entries, revision=2):
    kept(rule, name, listed(pptt(*entries, revision=revision)))


PACKAGE = 1
NAMED = node(0, IS_ID_VALID, 7)
nodes_broken("LeafUnflagged", "0x24 0x0 0x7", "a node of a processor", NAMED)
nodes_broken("LeafUnflagged", "0x38 0x0 0x8", "its child", NAMED, node(36, IS_ID_VALID, 8), revision=3)
nodes_kept("LeafUnflagged", "a leaf, and a node of no processor", leaf(7), node(0, 0, 8))
nodes_kept("LeafUnflagged", "a parent of a leaf", NAMED, leaf(8, 36))
nodes_kept("LeafUnflagged", "a parent of itself", node(36, IS_ID_VALID, 7))
nodes_kept("LeafUnflagged", "Revision 1", NAMED, revision=1)
nodes_kept("LeafUnflagged", "a PPTT that is cut", NAMED, b"\0")
nodes_kept("LeafUnflagged", "a child of another length", NAMED, node(36, count=1))
nodes_kept("LeafUnflagged", "a cache of another length", NAMED, other(1, 20))

nodes_broken("LeafAsParent", "0x24 0x38", "a leaf with two children", leaf(7), node(36), node(36))
nodes_broken("LeafAsParent", "0x24 0x24", "a leaf that is its own child", leaf(7, 36), node(36))
nodes_broken("LeafAsParent", "0x38 0x24", "a leaf of no processor, after its child", node(56), node(0, IS_LEAF))
nodes_broken("LeafAsParent", "0x24 0x38", "a leaf in a PPTT that is cut", leaf(7), node(36), b"\0")
nodes_kept("LeafAsParent", "a node with a child", NAMED, leaf(8, 36))
nodes_kept("LeafAsParent", "a child of another length", leaf(7), node(36, count=1))
nodes_kept("LeafAsParent", "Revision 1", leaf(7), node(36), revision=1)

nodes_broken("NoPackage", "0x24 0x0 0x7", "a leaf alone", leaf(7))
nodes_broken("NoPackage", "0x38 0x0 0x7", "a leaf with a parent", node(), leaf(7, 36))
nodes_broken("NoPackage", "0x24 0x0 0x7", "a leaf before its parent, and a package beside it", leaf(7, 56), node(), node(0, PACKAGE))
nodes_broken("NoPackage", "0x24 0x0 0x7", "Revision 1", NAMED, revision=1)
nodes_broken("NoPackage", "0x24 0x0 0x7", "a leaf in a PPTT that is cut", leaf(7), b"\0")
nodes_kept("NoPackage", "a package", leaf(7, 0, LEAF | PACKAGE))
nodes_kept("NoPackage", "a leaf in a package", node(0, PACKAGE), node(36), leaf(7, 56))
nodes_kept("NoPackage", "a leaf in a part of a package that is a package", node(0, PACKAGE), node(36, PACKAGE), leaf(7, 56))
nodes_kept("NoPackage", "a leaf of a package in a node", node(), node(36, PACKAGE), leaf(7, 56))
nodes_kept("NoPackage", "a Parent that is not there", leaf(7, 99))
nodes_kept("NoPackage", "Parents in a cycle", node(56), node(36), leaf(7, 56))
nodes_kept("NoPackage", "a node that is no leaf", NAMED)
nodes_kept("NoPackage", "Revision 1, a PPTT that is cut", NAMED, b"\0", revision=1)

NUMBERS = "CacheNumbers"
SHAPE = {"sets": 64, "ways": 8, "line": 64}
nodes_broken(NUMBERS, "0x24 0x5 0x0", "no ways", cache(flags=4, size=5, sets=6, line=7))
nodes_broken(NUMBERS, "0x24 0x0 0x18", "no size", cache(flags=1, sets=2, ways=3, line=4))
nodes_broken(NUMBERS, "0x24 0x8001 0x8000", "a byte more than its lines", cache(flags=0x47, size=0x8001, **SHAPE))
nodes_broken(
    NUMBERS, "0x3c 0x7fff 0x8000", "a byte less than its lines",
    cache(flags=0x47, size=0x8000, **SHAPE), cache(0, 28, 0xFF, 0x7FFF, **SHAPE),
)
nodes_broken(NUMBERS, "0x24 0x1 0xfeff00ff0100ff", "the most lines", cache(flags=0x47, size=1, sets=2**32 - 1, ways=255, line=2**16 - 1))
nodes_kept(NUMBERS, "as many bytes as its lines have", cache(flags=0x47, size=0x8000, **SHAPE))
for flags in (0x46, 0x45, 0x43, 0x07):
    nodes_kept(NUMBERS, f"a byte more, flags {flags:x}", cache(flags=flags, size=0x8001, **SHAPE))
nodes_kept(NUMBERS, "no size and no ways that are valid", cache(flags=0xFA))
nodes_kept(NUMBERS, "a cache of 25 bytes", cache(0, 25, 5))

USED_THERE = "PpttReserved"
for name, entry, at in (
    ("a node's reserved bytes", node(flags=0x20, reserved=1), "0x2"),
    ("a node's byte 3", changed(node(), {3: 1}), "0x3"),
    ("a node's flag bit 5", node(flags=0x20), "0x4"),
    ("a node's flag bit 31", node(flags=1 << 31), "0x4"),
    ("a cache's reserved bytes", cache(reserved=1), "0x2"),
    ("a cache's byte 3", changed(cache(), {3: 1}), "0x3"),
    ("a cache's flag bit 8, and an attribute", cache(flags=0x100, attributes=0x20), "0x4"),
    ("a cache's attribute bit 5", cache(attributes=0x20), "0x15"),
    ("a cache's attribute bit 7, in 28 bytes", cache(length=28, attributes=0x80), "0x15"),
):
    nodes_broken(USED_THERE, f"0x24 {at}", name, entry, revision=1)
nodes_broken(USED_THERE, "0x38 0x15", "the second entry", node(), cache(attributes=0x20), node(flags=0x20))
nodes_kept(
    USED_THERE, "all that is defined", node(2**32 - 1, 0x1F, 2**32 - 1, [2**32 - 1]),
    cache(2**32 - 1, 28, 0xFF, 2**32 - 1, 2**32 - 1, 255, 0x1F, 2**16 - 1, 2**32 - 1),
)
nodes_kept(USED_THERE, "entries of other lengths and types", node(count=1, reserved=1), cache(0, 25, reserved=1), b"\2\4\xff\xff")

# ---- numbers that are as wide as their fields, and bytes next to fields
HIGH, HIGHER = 1 << 24, 1 << 56
broken("NoDsdt", "0x28", "an RSDP that is found", listed(), words="")
broken("NoDsdt", "0x28", "an interrupt model after the DSDT", image_of(fadt(_44=b"\1")))
kept("NoDsdt", "a DSDT at 16 MiB", image_of(fadt(_40=number(HIGH, 4))))
kept("DsdtWrong", "a DSDT of 16 MiB", of_dsdt(changed(DSDT, {7: 1})))
kept("RsdtDiffers", "a slot of 0, and something at 0", roots((0x2000, 0x3000), (0x2000, 0x3000, 0), _0=b"ABCD"))
FAR_RSDT = {**BOTH_ROOTS, RSDP_AT: extended_rsdp(rsdt=0x1001000), 0x1001000: rsdt(0x2000)}
broken("RsdtDiffers", "0x10 0x0 0x54455048", "an RSDT past 16 MiB", FAR_RSDT)


def before(pointer, at, following):
    """An RSDP, which leads to an XSDT or an RSDT with a FADT and what is at this address, and bytes that follow it."""
    return {RSDP_AT: pointer + following, XSDT_AT: xsdt(0x2000, at), 0x1001: rsdt(0x2000, at), 0x2000: fadt()}


broken("TablesOverlap", "0xe0000 0xe0020 0xe0020", "a table at the end of an RSDP", before(extended_rsdp(), 0xE0020, hpet()[4:]))
broken("TablesOverlap", "0xe0000 0xe0023 0xe0023", "a table at the last byte of an RSDP", before(extended_rsdp(), 0xE0023, hpet()[1:]))
kept("TablesOverlap", "a table after 36 bytes of an RSDP", before(extended_rsdp(), 0xE0024, hpet()))
kept("TablesOverlap", "a table after an RSDP of Revision 1", before(changed(rsdp(0x1001), {15: 1}, (8, 20)), 0xE0014, hpet()))
kept("RsdpReserved", "an RSDT at an odd address", before(rsdp(0x1001), 0xE0014, hpet()))
broken("RsdpReserved", "0x14 0x0 0x28", "an XSDT at an odd address", pointed(extended_rsdp(0x1101, length=40) + bytes(4)))
broken("RsdpReserved", "0x14 0x0 0x25", "an RSDP of 37 bytes", pointed(extended_rsdp(length=37) + bytes(1)))
kept("RsdpReserved", "an RSDP of 16 MiB", pointed(extended_rsdp(length=HIGH + 40) + bytes(4)))
broken("RsdpReserved", "0x22 0x0 0x1", "the second reserved byte", pointed(changed(extended_rsdp(), {34: 1})))
kept("FacsReserved", "a FACS of 16 MiB", of_facs({7: 1, 32: 3}))
broken("FacsReserved", "0x22 0x0 0x1", "the second byte after the Version", of_facs({34: 1}))
broken("FacsReserved", "0x14 0x0 0x1000000", "flag bit 24", of_facs({23: 1}))
broken("FadtReserved", "0x70 0x0 0x1000000", "flag bit 24 alone", image_of(fadt(HIGH)))
kept("FadtReserved", "an SCI of 9", image_of(fadt(_46=number(9, 2))))
broken("HeaderText", "0x1 0xa 0x3000", "the last byte of the OEM ID", header({15: 0x7F}))
broken("HeaderText", "0x1 0xa 0x3000", "a zero before the last byte of the OEM ID", header({14: 0, 15: 0x21}))

broken("PortPastEnd", "0x38 0x4 0x1000000", "events at 1000000h", full(_56=number(HIGH, 4)))
broken("PortPastEnd", "0x30 0x1 0x1000000", "SMI_CMD at 1000000h", full(_48=number(HIGH, 4)))
broken("PortPastEnd", f"0x74 0x1 {HIGHER:#x}", "a reset register at 2^56", reset(HIGHER))
kept("PortPastEnd", "a command after SMI_CMD", full(_52=b"\1"))
kept("PortPastEnd", "a value of the reset register", image_of(fadt(RESETS, 129, _116=generic_address(1, width=8) + b"\1")))
kept("PortsOverlap", "a block of 8 bits", full(160, _88=b"\0", _148=generic_address(0x600, width=8, offset=1), _64=number(0x601, 4)))
broken("BlockWidth", "0x38 0x20 0x10", "events at 1000000h", full(160, _56=number(HIGH, 4), _148=generic_address(1, width=16)))
kept("BlockWidth", "events b after no events a", full(160, _60=number(1, 4), _148=generic_address(1, width=16)))
kept("BlockWidth", "a block of 32 bits, not from the first on", full(160, **EVENTS, _148=generic_address(0x600, offset=1)))
broken("GpeOverlap", "0x5e 0x10 0xf", "a command after the base", full(**BOTH_GPES, _94=b"\17\1"))
broken("SmiHalf", "0x30 0x34 0x1000000", "an SMI port at 1000000h", full(_48=number(HIGH, 4)))
broken("SmiHalf", "0x30 0x34 0xb2", "one command, and another after it", full(**SMI, _52=b"\2\2\1"))
for at in (52, 54, 55):
    broken("SmiHalf", f"0x30 {at:#x}", f"no SMI port, and the command at {at}", full(**{f"_{at}": b"\1"}))
kept("SmiHalf", "no SMI port, and a block", full(_56=b"\1"))
broken("SciZero", "0x2e", "an SCI of 0 before an SMI port", full(**SMI))
kept("SciZero", "an SCI of 1", full(_46=number(1, 2)))
broken("ResetNowhere", "0x74", "an access size and a value, at 0", image_of(fadt(RESETS, 129, _116=generic_address(0, 1, 8, 0, 1) + b"\1")))
kept("ResetNowhere", "a reset register at 1", reset(1))
kept("ResetNowhere", "a reset register at 2^56", reset(HIGHER, 0))
kept("SleepRegister", "an access size, a status at 2^56", sleep(generic_address(1, width=8, access=1), generic_address(HIGHER, width=8)))
kept("SleepRegister", "an access size without an address", sleep(generic_address(0, width=16, access=1), bytes(12)))

entries_kept(LOW, "an x2APIC of 1000005h", lapic(0, 0), x2apic(1, HIGH + 5))
broken(EARLY, "0x2c 0x6 0x2", "an online capable x2APIC by 6.2", arch(6, 2, x2apic(0, 0, 2)))
broken(EARLY, "0x2c 0x6 0x4", "an online capable GICC by 6.4, with flag bit 1", arch(6, 4, gicc(0, 10)))
entries_broken("EnabledAndCapable", "0x2c 0x0 0x1000003", "flag bit 24", lapic(0, 0, HIGH + 3))
entries_kept("EnabledAndCapable", "the other flag of each", lapic(0, 0, 2), x2apic(1, 1, 1), gicc(2, 10), rintc(3, 1))
kept("OverridePastIsa", "an SCI before an SMI port", image_of(fadt(_46=number(16, 2), _48=b"\1"), madt(override(16, 20))))
entries_broken("OverridePastIsa", "0x2c 0x10 0x1000000", "a number of 1000000h, and flags", override(16, HIGH, 1))
entries_broken("TimerLevel", "0x2c 0x0 0x10c", "flag bit 8", override(0, 2, 0x10C))
entries_kept("TwoSourcesOneGsi", "numbers of one low byte", override(0, 2), override(2, HIGH + 2))

entries_broken(WANTED, "0x2c 0x3", "a byte after the version", placed(distributor(3), _21=b"\1"), cpu())
entries_kept(SMALL, "128 for a GICC", distributor(3), redistributor(0, HIGH), cpu())
entries_broken(OTHER_BASE, "0x94 0x44 0x1000", "a first base past 2^56", distributor(2), cpu(HIGHER + 0x1000), cpu(0x1000))
entries_broken(OTHER_BASE, "0x94 0x44 0x100000000001000", "a second base past 2^56", distributor(2), cpu(0x1000), cpu(HIGHER + 0x1000))
entries_kept(OTHER_BASE, "a byte after the first base", distributor(2), placed(cpu(5), _40=b"\1"), cpu(5))
entries_kept(OTHER_BASE, "a byte after the second base", distributor(2), cpu(5), placed(cpu(5), _40=b"\1"))
entries_broken(OTHER_BASE, "0x94 0x44 0x6", "a byte after another base", distributor(2), cpu(5), placed(cpu(6), _40=b"\1"))
entries_kept("SameMpidr", "MPIDRs of one low half", cpu(mpidr=5), cpu(mpidr=HIGHER + 5))
entries_broken("MpidrReserved", "0x2c 0x0 0x80000000", "bit 31, and a byte after the MPIDR", placed(cpu(mpidr=1 << 31), _76=b"\1"))
entries_kept("GicrEmpty", "a range of 1000000h bytes", redistributor(0x1000, HIGH))
entries_broken("GicrEmpty", "0x2c 0x0 0x100000000000000", "an empty range at 2^56", redistributor(HIGHER, 0))
entries_kept("SameIts", "IDs of one low byte", its(1), its(HIGH + 1))
entries_broken("SameIts", "0x40 0x2c 0x1", "odd addresses", its(1, 1), its(1, 2))
entries_kept("SameMsiFrame", "IDs of one low byte", frame(1), frame(HIGH + 1))
entries_broken("SameMsiFrame", "0x44 0x2c 0x1", "odd addresses", frame(1, 1), frame(1, 2))
entries_broken(GIC, "0x2c 0x3c 0xffffff", "redistributors of 1000000h bytes", redistributor(0, HIGH), frame(0, 0xFFFFFF))
entries_broken(GIC, "0x2c 0x3c 0x1000", "redistributors of an odd number of bytes", redistributor(0, 0x1001), frame(0, 0x1000))
entries_broken(GIC, "0x2c 0x44 0xffff", "a byte after the version", placed(distributor(3), _21=b"\1"), frame(0, 0xFFFF))
for entry, following in ((its(0), 0x40), (frame(0), 0x44), (distributor(2), 0x44)):
    entries_broken(GIC, f"0x2c {following:#x} 0x0", f"a byte after the address of type {entry[0]}", placed(entry, _16=b"\1"), frame(1))
HIGHEST = [redistributor(HIGHER, 0x1000), its(1, 2 * HIGHER), frame(2, 3 * HIGHER), distributor(2, 4 * HIGHER)]
entries_kept(GIC, "addresses from 2^56 on", frame(0), *HIGHEST)
entries_broken(TWICE_TOLD, "0x3c 0x2c 0x100000000000000", "one at 2^56", redistributor(0, 1), cpu(gicr=HIGHER))
entries_broken(TWICE_TOLD, "0x3c 0x2c 0x5000", "one of a GICC with an MPIDR", redistributor(0, 1), cpu(gicr=0x5000, mpidr=1))
entries_kept(TWICE_TOLD, "an MPIDR", redistributor(0, 1), cpu(mpidr=1))
kept("NoBootMethod", "a parking protocol of 1000000h", booted(0, cpu(), cpu(parking=HIGH)))
broken("NoBootMethod", "0x81", "flag bit 24, and a byte after the version", booted(0, cpu(flags=HIGH + 1), placed(cpu(), _20=b"\1")))
broken("NoBootMethod", "0x81 0x0 0x100", "bit 8 of ARM_BOOT_ARCH", booted(0x100, cpu(), cpu()))
entries_kept("SameHart", "harts of one low half", hart(5), hart(HIGHER + 5))
entries_broken("SameHart", "0x50 0x2c 0x5", "one hart of two UIDs", placed(hart(5), _16=b"\1"), hart(5))
broken(USED, "0x28 0x0 0x1000000", "flag bit 24 of the MADT", listed(table(b"APIC", bytes(4) + number(HIGH, 4))))
for name, entry, at in (
    ("an override's flag bit 8", override(0, 0, 0x100), "0x8"),
    ("an NMI source's flag bit 4", nmi_source(0, 0x10), "0x2"),
    ("a local APIC NMI's flag bit 8", lapic_nmi(0, 1, 0x100), "0x3"),
    ("an x2APIC's byte 3", changed(x2apic(0, 0), {3: 1}), "0x3"),
    ("an x2APIC's byte 2", changed(x2apic(0, 0), {2: 1}), "0x2"),
    ("an x2APIC's flag bit 24", x2apic(0, 0, HIGH), "0x8"),
    ("an x2APIC NMI's flag bit 8", x2apic_nmi(0, 1, 0x100), "0x2"),
    ("an x2APIC NMI's byte 9", changed(x2apic_nmi(0, 1), {9: 1}), "0x9"),
    ("an x2APIC NMI's byte 10", changed(x2apic_nmi(0, 1), {10: 1}), "0xa"),
    ("a distributor's byte 17", placed(gicd(), _17=b"\1"), "0x11"),
    ("a distributor's byte 18", placed(gicd(), _18=b"\1"), "0x12"),
):
    entries_broken(USED, f"0x2c {at}", name, entry)
entries_kept(USED, "numbers after flags", nmi_source(9, 0xF), x2apic_nmi(9, 1, 0xF))

affinities_kept(NO_RANGE, "a range of 2^56 bytes", HERE, memory(0, HIGHER))
affinities_broken(NO_RANGE, "0x0", "an empty range at 2^56, and a byte after its length", HERE, changed(memory(HIGHER, 0), {24: 1}))
affinities_kept("EmptyRange", "a range of 2^56 bytes", memory(0, HIGHER))
affinities_broken("EmptyRange", f"0x30 0x0 {HIGHER:#x}", "an empty range at 2^56", changed(memory(HIGHER, 0), {24: 1}))
broken("ItsNowhere", "0x30 0x0 0x6", "an ITS of 1000006h", its_and(of_its(6), its(HIGH + 6)))
broken("ItsNowhere", "0x30 0x0 0x1000006", "an affinity of 1000006h", its_and(of_its(HIGH + 6), its(6)))
kept("ItsNowhere", "an ITS at an odd address", its_and(of_its(6), its(6, 1)))
affinities_broken(USED_HERE, "0x30 0x4", "a processor's flag bit 24", apic_domain(0, 0, HIGH))
affinities_broken(USED_HERE, "0x30 0xc", "an x2APIC's flag bit 24", x2apic_domain(0, 0, HIGH))
broken(USED_HERE, "0x24 0x0 0x1000001", "a first number of 1000001h", begun(HIGH + 1))

nodes_broken("LeafUnflagged", "0x24 0x0 0x7", "a Parent past 16 MiB", NAMED, node(HIGH + 36))
nodes_broken("LeafUnflagged", "0x24 0x0 0x1000007", "an ID of 1000007h", node(0, IS_ID_VALID, HIGH + 7))
nodes_broken("LeafUnflagged", "0x24 0x0 0x7", "a node with a cache", node(0, IS_ID_VALID, 7, [60]), cache())
nodes_kept("LeafAsParent", "a Parent past 16 MiB", leaf(7), node(HIGH + 36))
nodes_broken("NoPackage", "0x24 0x0 0x1000007", "an ID of 1000007h", leaf(HIGH + 7))
nodes_broken("NoPackage", "0x24 0x0 0x7", "a leaf with a cache", node(0, LEAF, 7, [60]), cache())
nodes_kept("NoPackage", "a Parent at 16 MiB", leaf(7, HIGH))
nodes_kept(NUMBERS, "a size of 16 MiB", cache(flags=1, size=HIGH))
nodes_kept(NUMBERS, "as many bytes as its lines have, and an attribute", cache(flags=0x47, size=0x8000, attributes=1, **SHAPE))
nodes_broken(USED_THERE, "0x24 0x4", "a node's flag bit 24", node(flags=HIGH))
nodes_broken(USED_THERE, "0x24 0x4", "a cache's flag bit 24", cache(flags=HIGH))

# ---- the text and the Revision of the RSDP, of the root and of the DSDT
# Texts of letters A with another byte at their start or end, or a zero before their end, as numbers: of 6, 8 and 4 bytes.
TEXT_6 = ((0, 0x1F, 0x41414141411F), (5, 0x7F, 0x7F4141414141), (5, 0xFF, 0xFF4141414141), (0, 0, 0x414141414100), (4, 0, 0x410041414141))
TEXT_8 = ((0, 0x1F, 0x414141414141411F), (7, 0x80, 0x8041414141414141), (6, 0, 0x4100414141414141))
TEXT_4 = ((0, 0x1F, 0x4141411F), (3, 0x7F, 0x7F414141), (1, 0, 0x41410041))
TEXTS = [(at, *it) for at, texts in ((10, TEXT_6), (16, TEXT_8), (28, TEXT_4)) for it in texts]
# What is text, and what is none of these numbers of a header.
NO_NAMES = dict.fromkeys([*range(10, 24), *range(28, 32)], 0)
AT_ENDS = {14: 0, 15: 0, 23: 0, 31: 0}
EDGES_OF_TEXT = {10: 0x20, 15: 0x7E, 16: 0x7E, 23: 0x20, 28: 0x20, 31: 0x7E}
NO_TEXT = dict.fromkeys([*range(24, 28), *range(32, 36)], 0xFF)

for place, byte, told in TEXT_6:
    pointer = changed(rsdp(), {9 + place: byte}, (8, 20))
    broken("RsdpText", f"0x9 0x0 {told:#x}", f"byte {place} is {byte:x}", pointed(pointer))
WRONG_TEXT = {9: 0x1F}
broken("RsdpText", "0x9 0x0 0x41414141411f", "an extended RSDP", pointed(changed(extended_rsdp(), WRONG_TEXT, (8, 20), (32, 36))))
broken("RsdpText", "0x9 0x0 0x41414141411f", "20 bytes of an extended RSDP", {RSDP_AT: changed(extended_rsdp(), WRONG_TEXT, (8, 20))[:20]})
broken("RsdpText", "0x9 0x0 0x41414141411f", "an RSDP that does not sum to 0", pointed(changed(rsdp(), WRONG_TEXT)))
broken(
    "RsdpText", "0x9 0x0 0x41414141411f", "an RSDP that is found", listed(others={RSDP_AT: changed(rsdp(), WRONG_TEXT, (8, 20))}), words="",
)
kept("RsdpText", "19 bytes of an RSDP", {RSDP_AT: changed(rsdp(), WRONG_TEXT, (8, 20))[:19]})
kept("RsdpText", "no text", pointed(changed(rsdp(), dict.fromkeys(range(9, 15), 0), (8, 20))))
kept("RsdpText", "zeros at the end", pointed(changed(rsdp(), {13: 0, 14: 0}, (8, 20))))
kept("RsdpText", "the first and the last byte of text", pointed(changed(rsdp(), {9: 0x20, 14: 0x7E}, (8, 20))))
kept("RsdpText", "another signature", pointed(changed(rsdp(), {7: 0x1F}, (8, 20))))
kept("RsdpText", "an RSDP", pointed(extended_rsdp()))


def rooted(changes, present=40):
    """A FADT in an RSDT of which bytes are changed, and as many are present."""
    return {RSDP_AT: rsdp(), RSDT_AT: changed(rsdt(0x2000), changes, (9, 40))[:present], 0x2000: fadt()}


for at, place, byte, told in TEXTS:
    broken("RootHeader", f"{at:#x} 0x0 {told:#x}", f"byte {at + place} is {byte:x}", rooted({at + place: byte}))
for revision in (0, 2, 255):
    broken("RootHeader", f"0x8 0x0 {revision:#x}", f"an RSDT of Revision {revision}", rooted({8: revision}))
XSDT_2 = {**BOTH_ROOTS, XSDT_AT: revised(xsdt(0x2000, 0x3000), 2)}
broken("RootHeader", "0x8 0x0 0x2", "an XSDT of Revision 2", XSDT_2)
broken("RootHeader", "0x8 0x0 0x2", "a Revision and a name", rooted({8: 2, 10: 0x1F}))
broken("RootHeader", "0xa 0x0 0x41414141411f", "two names", rooted({10: 0x1F, 28: 0}))
broken("RootHeader", "0x10 0x0 0x414141414141411f", "the last two names", rooted({16: 0x1F, 28: 0}))
broken("RootHeader", "0x8 0x0 0x2", "an RSDT that does not sum to 0", {**rooted({}), RSDT_AT: changed(rsdt(0x2000), {8: 2})})
broken("RootHeader", "0x8 0x0 0x2", "an RSDT of no slots", {RSDP_AT: rsdp(), RSDT_AT: revised(rsdt(), 2)})
kept("RootHeader", "an RSDT of Revision 1", rooted({}))
for name, changes in (("no names", NO_NAMES), ("zeros at the ends", AT_ENDS), ("the first and the last byte of text", EDGES_OF_TEXT)):
    kept("RootHeader", name, rooted(changes))
    kept("DsdtText", name, of_dsdt(changed(DSDT, changes)))
kept("RootHeader", "other bytes of the header", rooted(NO_TEXT))
kept("RootHeader", "an RSDT that is not the root", {**BOTH_ROOTS, RSDT_AT: revised(rsdt(0x2000, 0x3000), 2)})
kept("RootHeader", "an RSDT of which the last byte is not present", rooted({8: 2}, 39))
kept("RootHeader", "an RSDT of another signature", rooted({0: ord("X"), 8: 2}))
kept("RootHeader", "an RSDT of 35 bytes", rooted({4: 35, 8: 2}))
kept("RootHeader", "no root", {RSDP_AT: rsdp()})

for at, place, byte, told in TEXTS:
    broken("DsdtText", f"{at:#x} 0x0 {told:#x}", f"byte {at + place} is {byte:x}", of_dsdt(changed(DSDT, {at + place: byte})))
WRONG_DSDT, TOLD = changed(DSDT, {10: 0x1F, 16: 0x1F, 28: 0x1F}), "0xa 0x0 0x41414141411f"
broken("DsdtText", TOLD, "three names", of_dsdt(WRONG_DSDT))
broken("DsdtText", "0x10 0x0 0x414141414141411f", "two names", of_dsdt(changed(DSDT, {16: 0x1F, 28: 0x1F})))
broken("DsdtText", TOLD, "a DSDT of which the header alone is present", of_dsdt(WRONG_DSDT[:36]))
broken("DsdtText", TOLD, "a DSDT of 35 bytes", of_dsdt(changed(WRONG_DSDT, {4: 35})))
broken("DsdtText", TOLD, "X_DSDT is used", image_of(fadt(length=148, **X_DSDT), others={0x5000: DSDT, 0x6000: WRONG_DSDT}))
SHORT_X_DSDT = fadt(length=147, **{**OF_DSDT, "_140": number(0x6000, 7)})
broken("DsdtText", TOLD, "seven bytes of X_DSDT", image_of(SHORT_X_DSDT, others={0x5000: WRONG_DSDT, 0x6000: DSDT}))
broken("DsdtText", TOLD, "an X_DSDT of 0", image_of(fadt(length=148, **OF_DSDT), others={0x5000: WRONG_DSDT}))
kept("DsdtText", "DSDT is not used", image_of(fadt(length=148, **X_DSDT), others={0x5000: WRONG_DSDT, 0x6000: DSDT}))
kept("DsdtText", "other bytes of the header", of_dsdt(changed(DSDT, NO_TEXT)))
kept("DsdtText", "35 bytes of a DSDT", of_dsdt(WRONG_DSDT[:35]))
kept("DsdtText", "an SSDT", of_dsdt(changed(WRONG_DSDT, {0: ord("S"), 1: ord("S")})))
kept("DsdtText", "a DSDT at 0, which is no address", listed(others={0: WRONG_DSDT}))
SHORT_FADT = table(b"FACP", bytes(4) + OF_DSDT["_40"] + bytes(71), 0)
kept("DsdtText", "a FADT of 115 bytes", image_of(SHORT_FADT, others={0x5000: WRONG_DSDT}))

# ---- the FADT: what came after its Revision
PAST_REVISION = "FadtPastRevision"
for revision, most in ((1, 116), (2, 132), (3, 244), (4, 244), (5, 268), (6, 276), (7, 276), (255, 276)):
    kept(PAST_REVISION, f"a FADT of Revision {revision} and Length {most}", image_of(old_fadt(revision, most)))
    for length in (most + 1, 300):
        name = f"a FADT of Revision {revision} and Length {length}"
        broken(PAST_REVISION, f"0x4 {most:#x} {length:#x}", name, image_of(old_fadt(revision, length)))
for length in (116, 276, 300):
    broken(PAST_REVISION, "0x8", f"a FADT of Revision 0 and Length {length}", image_of(old_fadt(0, length)))
broken(PAST_REVISION, "0x4 0x74 0x75", "a FADT that does not sum to 0", image_of(changed(old_fadt(1, 117), {9: 0})))
kept(PAST_REVISION, "a FADT of Revision 6 and Length 116", image_of(old_fadt(6, 116)))
kept(PAST_REVISION, "a FADT of Revision 0 and Length 115", image_of(SHORT_FADT))
kept(PAST_REVISION, "a FADT of which the last byte is not present", image_of(old_fadt(1, 117)[:-1]))


def arm_boot(revision, minor, boot, length=132, flags=REDUCED):
    """A FADT of this version with this ARM_BOOT_ARCH, as far as its Length goes."""
    end = (number(boot, 2) + bytes([minor]))[: length - 129]
    return image_of(revised(fadt(flags, length, _129=end), revision))


for revision, minor, boot, length in (
    (5, 0, 1, 132), (5, 0x10, 1, 132), (5, 1, 1, 131), (4, 9, 2, 132), (1, 0, 0x8000, 131), (0, 15, 0xFFFF, 132), (3, 0, 0x100, 244),
):
    name = f"{boot:#x} by {revision}, {minor:#x}, {length} bytes"
    broken("ArmBootEarly", f"0x81 0x0 {boot:#x}", name, arm_boot(revision, minor, boot, length))
broken("ArmBootEarly", "0x81 0x0 0x1", "full hardware", arm_boot(5, 0, 1, flags=0))
for revision, minor, boot, length in ((5, 1, 3, 132), (5, 0xF1, 3, 132), (6, 0, 3, 131), (255, 0, 3, 131), (5, 0, 0, 132), (1, 0, 1, 130)):
    kept("ArmBootEarly", f"{boot:#x} by {revision}, {minor:#x}, {length} bytes", arm_boot(revision, minor, boot, length))
kept("ArmBootEarly", "the bytes around it", image_of(fadt(length=132, _128=b"\xff\0\0\xff")))

# ---- the FADT: what reduced hardware, or full hardware, does not use
FIXED = "FixedInReduced"
STRUCTURES = range(148, 233, 12)
for at in (48, *range(56, 85, 4)):
    for address in (1, HIGH):
        broken(FIXED, f"{at:#x} 0x0 {address:#x}", f"{address:#x} at {at}", image_of(fadt(**{f"_{at}": number(address, 4)})))
for at in STRUCTURES:
    for address, space in ((1, 1), (HIGHER, 0), (1, 127)):
        one = fadt(length=at + 12, **{f"_{at}": generic_address(address, space)})
        broken(FIXED, f"{at + 4:#x} 0x0 {address:#x}", f"{address:#x} in the structure at {at}, space {space}", image_of(one))
    kept(FIXED, f"a structure at {at} without an address", image_of(fadt(length=at + 12, **{f"_{at}": generic_address(0, 1, 32, 1, 3)})))
    cut = {f"_{at}": generic_address(1)[:11]}
    kept(FIXED, f"a structure at {at} that goes past the end by a byte", image_of(fadt(length=at + 11, **cut)))
broken(FIXED, "0x30 0x0 0xb2", "an SMI port and a block", image_of(fadt(**SMI, **EVENTS)))
broken(FIXED, "0x30 0x0 0xb2", "an SMI port and commands", image_of(fadt(**SMI, _52=b"\1\1")))
broken(FIXED, "0x38 0x0 0x600", "two blocks", image_of(fadt(**EVENTS, _60=b"\1")))
broken(FIXED, "0x38 0x0 0x600", "a block at two places", image_of(fadt(length=160, **EVENTS, **X_EVENTS)))
broken(FIXED, "0x98 0x0 0x600", "two structures", image_of(fadt(length=184, **X_EVENTS, **X_CONTROL)))
kept(FIXED, "full hardware", full(184, **SMI, **EVENTS, **X_EVENTS, **X_CONTROL))
NO_BLOCKS = {"_36": number(FACS_AT, 4), **OF_DSDT, "_46": b"\1\1", "_52": b"\1\1\1\1", "_88": b"\4" * 8, "_96": b"\1" * 16}
kept(FIXED, "commands, lengths and other fields", image_of(fadt(length=148, **NO_BLOCKS, _116=b"\1" * 32)))
kept(FIXED, "sleep registers", sleep(BYTE, BYTE))

HANDSHAKE = "SmiHandshake"
broken(HANDSHAKE, "0x35", "a command that turns ACPI on", full(**SMI, _52=b"\2\0"))
broken(HANDSHAKE, "0x34", "a command that turns ACPI off", full(**SMI, _52=b"\0\2"))
broken(HANDSHAKE, "0x35", "an SMI port at 1000000h, and commands after it", full(_48=number(HIGH, 4), _52=b"\xff\0\1\1"))
kept(HANDSHAKE, "neither command", full(**SMI))
kept(HANDSHAKE, "neither command, and others", full(**SMI, _52=b"\0\0\1\1"))
kept(HANDSHAKE, "two commands", full(**SMI, _52=b"\2\3"))
kept(HANDSHAKE, "one command twice", full(**SMI, _52=b"\2\2"))
kept(HANDSHAKE, "no SMI port", full(_52=b"\2\0"))
kept(HANDSHAKE, "no SMI port, and an SCI", full(_46=b"\1\1", _52=b"\2\0"))
kept(HANDSHAKE, "reduced hardware", image_of(fadt(**SMI, _52=b"\2\0")))

S4BIOS = "S4BiosDiffers"
ASKED = full_fadt(_54=b"\1")
broken(S4BIOS, "0x36 0x0 0x1", "a command alone", of_facs({}, ASKED))
broken(S4BIOS, "0x36 0x0 0xff", "a command of 255", of_facs({}, full_fadt(_54=b"\xff")))
broken(S4BIOS, "0x36 0x0 0x1", "a command and the other flags", of_facs({20: 0xFE, 21: 1}, ASKED))
broken(S4BIOS, "0x36", "the flag alone", of_facs({20: 1}))
broken(S4BIOS, "0x36", "the flag and other commands", of_facs({20: 3}, full_fadt(_52=b"\1\1\0\1")))
kept(S4BIOS, "both", of_facs({20: 1}, ASKED))
kept(S4BIOS, "neither", of_facs({}))
kept(S4BIOS, "the other flags", of_facs({20: 0xFE, 21: 1, 36: 1}))
kept(S4BIOS, "other commands", of_facs({}, full_fadt(_53=b"\1\0\1")))
for name, pieces in (
    ("no FACS", image_of(full_fadt(0, _54=b"\1"))),
    ("a FACS of another signature", of_facs({0: ord("f")}, ASKED)), ("a FACS of 63 bytes", of_facs({4: 63}, ASKED)),
    ("a FACS of which the last byte is not present", image_of(ASKED, others={FACS_AT: facs()[:-1]})),
    ("a FACS at no multiple of 64", image_of(full_fadt(0x7020, _54=b"\1"), others={0x7020: facs()})),
    ("reduced hardware", of_facs({}, fadt(_36=number(FACS_AT, 4), _54=b"\1"))),
):
    kept(S4BIOS, f"a command, {name}", pieces)
TWO_FACS = full_fadt(length=140, _132=number(0x8000, 8))
broken(
    S4BIOS, "0x36", "the flag in the FACS of X_FIRMWARE_CTRL",
    image_of(TWO_FACS, others={0x7000: facs(), 0x8000: changed(facs(), {20: 1})}),
)
kept(S4BIOS, "the flag in the other FACS", image_of(TWO_FACS, others={0x7000: changed(facs(), {20: 1}), 0x8000: facs()}))

# ---- register blocks of hardware that is not reduced, further
GPES = "GpePastEnd"
GPE0, GPE1 = {"_80": number(0x620, 4)}, {"_84": number(0x720, 4)}
X_GPE0, X_GPE1 = {"_220": generic_address(0x620)}, {"_232": generic_address(0x720)}
for length in (65, 66, 255):
    broken(GPES, f"0x5c 0x0 {length:#x}", f"GPE0 of {length} bytes", full(**GPE0, _92=bytes([length])))
broken(GPES, "0x5c 0x0 0x42", "GPE0 of 66 bytes, a structure in memory", full(232, _220=generic_address(HIGHER, 0), _92=b"\x42"))
kept(GPES, "GPE0 of 64 bytes", full(**GPE0, _92=b"\x40"))
kept(GPES, "66 bytes of no GPE0", full(_92=b"\x42", **GPE1))
kept(GPES, "66 bytes of a GPE0 that goes past the end by a byte", full(231, _220=generic_address(0x620)[:11], _92=b"\x42"))
for length, base in ((4, 241), (1, 253), (1, 255), (64, 1), (65, 0), (255, 255)):
    broken(GPES, f"0x5e 0x0 {base:#x}", f"GPE1 of {length} bytes from {base} on", full(**GPE1, _93=bytes([length, base])))
for length, base in ((4, 240), (1, 252), (0, 255), (64, 0)):
    kept(GPES, f"GPE1 of {length} bytes from {base} on", full(**GPE1, _93=bytes([length, base])))
broken(GPES, "0x5e 0x0 0xf1", "GPE1 past the last event, a structure", full(244, **X_GPE1, _93=bytes([4, 241])))
broken(GPES, "0x5e 0x0 0xf1", "GPE1 past the last event, and a command after its base", full(**GPE1, _93=bytes([4, 241, 1])))
kept(GPES, "a command after the base of GPE1", full(**GPE1, _93=bytes([4, 240, 1])))
kept(GPES, "no GPE1", full(**GPE0, _93=bytes([4, 241])))
kept(GPES, "a GPE1 that goes past the end by a byte", full(243, _232=generic_address(0x720)[:11], _93=bytes([4, 241])))
broken(GPES, "0x5c 0x0 0x42", "GPE0 and GPE1", full(**GPE0, **GPE1, _92=bytes([66, 4, 241])))
kept(GPES, "reduced hardware", image_of(fadt(**GPE0, **GPE1, _92=bytes([66, 4, 241]))))

LONG = "BlockTooLong"
for narrow, length_at, wide in ((56, 88, 148), (60, 88, 160), (64, 89, 172), (68, 89, 184), (72, 90, 196), (76, 91, 208)):
    port = {f"_{narrow}": number(0x600, 4)}
    for length in (32, 255):
        own = {f"_{length_at}": bytes([length])}
        broken(LONG, f"{length_at:#x} 0x0 {length:#x}", f"the port at {narrow} of {length} bytes", full(**port, **own))
    kept(LONG, f"the port at {narrow} of 31 bytes", full(**port, **{f"_{length_at}": b"\37"}))
    own = {f"_{length_at}": b"\40"}
    kept(LONG, f"no port at {narrow}", full(**own))
    kept(LONG, f"the structure at {wide}", full(wide + 12, **port, **own, **{f"_{wide}": generic_address(0x600)}))
    empty, cut = {f"_{wide}": generic_address(0)}, {f"_{wide}": generic_address(0x600)[:11]}
    broken(LONG, f"{length_at:#x} 0x0 0x20", f"the structure at {wide} without an address", full(wide + 12, **port, **own, **empty))
    broken(LONG, f"{length_at:#x} 0x0 0x20", f"the structure at {wide} past the end by a byte", full(wide + 11, **port, **own, **cut))
    kept(LONG, f"the port at {narrow}, of reduced hardware", image_of(fadt(**port, **own)))
broken(LONG, "0x58 0x0 0x20", "two ports", full(**CONTROL, **EVENTS, _88=b"\40\41"))
broken(LONG, "0x58 0x0 0x20", "a port past 16 MiB", full(_56=number(HIGH, 4), _88=b"\40"))
kept(LONG, "GPE0 and GPE1 of 64 bytes", full(**GPE0, **GPE1, _92=b"\x40\x40"))
kept(LONG, "32 bytes of no PM2 control, before a timer", full(**TIMER, _90=b"\40"))

SPACES = "BlockSpace"
for at in STRUCTURES:
    for space in (2, 255):
        one = {f"_{at}": generic_address(1, space)}
        broken(SPACES, f"{at:#x} 0x0 {space:#x}", f"the structure at {at} of the space {space}", full(at + 12, **one))
    for space in (0, 1):
        kept(SPACES, f"the structure at {at} of the space {space}", full(at + 12, **{f"_{at}": generic_address(1, space)}))
    kept(SPACES, f"the structure at {at} without an address", full(at + 12, **{f"_{at}": generic_address(0, 2)}))
    kept(SPACES, f"the structure at {at} past the end by a byte", full(at + 11, **{f"_{at}": generic_address(1, 2)[:11]}))
broken(SPACES, "0xa0 0x0 0x2", "the second and the third structure", full(184, _160=generic_address(1, 2), _172=generic_address(1, 3)))
broken(SPACES, "0x94 0x0 0x2", "an address at 2^56", full(160, _148=generic_address(HIGHER, 2)))
kept(SPACES, "sleep registers", full(268, _244=generic_address(1, 2), _256=generic_address(1, 2)))
kept(SPACES, "reduced hardware", image_of(fadt(length=160, _148=generic_address(1, 2))))

WIDTHS = "BlockUsualWidth"
for at, usual in ((148, 32), (160, 32), (172, 16), (184, 16), (196, 8), (208, 32)):
    kept(WIDTHS, f"{usual} bits at {at}", full(at + 12, **{f"_{at}": generic_address(1, width=usual)}))
    for width in (usual - 1, usual + 1, 0, 255):
        one = {f"_{at}": generic_address(1, width=width)}
        broken(WIDTHS, f"{at + 1:#x} 0x0 {width:#x}", f"{width} bits at {at}", full(at + 12, **one))
    kept(WIDTHS, f"no address at {at}", full(at + 12, **{f"_{at}": generic_address(0, width=usual + 1)}))
    kept(WIDTHS, f"a structure at {at} past the end by a byte", full(at + 11, **{f"_{at}": generic_address(1, width=usual + 1)[:11]}))
    kept(WIDTHS, f"{usual} bits at {at}, not from the first on", full(at + 12, **{f"_{at}": generic_address(1, 0, usual, 1, 3)}))
broken(WIDTHS, "0x95 0x0 0x10", "a structure in memory, at 2^56", full(160, _148=generic_address(HIGHER, 0, 16)))
broken(WIDTHS, "0x95 0x0 0x10", "two structures", full(184, _148=generic_address(1, width=16), _172=generic_address(1)))
kept(WIDTHS, "events of GPE0 and GPE1", full(244, _220=generic_address(1, width=7), _232=generic_address(1, width=255)))
kept(WIDTHS, "reduced hardware", image_of(fadt(length=160, _148=generic_address(1, width=16))))

ASLEEP = "SleepNotReduced"
for at in (244, 256):
    for address in (1, HIGHER):
        one = {f"_{at}": generic_address(address, width=8)}
        broken(ASLEEP, f"{at + 4:#x} 0x0 {address:#x}", f"{address:#x} in the structure at {at}", full(at + 12, **one))
    kept(ASLEEP, f"no address in the structure at {at}", full(at + 12, **{f"_{at}": generic_address(0, 1, 8, 1, 1)}))
    kept(ASLEEP, f"a structure at {at} past the end by a byte", full(at + 11, **{f"_{at}": generic_address(1)[:11]}))
broken(ASLEEP, "0xf8 0x0 0x1", "both registers", sleep(BYTE, generic_address(2), 0))
broken(ASLEEP, "0xf8 0x0 0x1", "the first register, and a FADT that ends in the second", sleep(BYTE, BYTE, 0, 267))
kept(ASLEEP, "reduced hardware", sleep(BYTE, BYTE))
kept(ASLEEP, "the bytes around them", full(276, _232=generic_address(1), _268=b"\1" * 8))

# ---- the FADT of harts
FOR_RISCV = "FadtForRiscv"
for revision, minor, length, told in (
    (6, 5, 132, "0x6 0x5"), (6, 0xF5, 132, "0x6 0x5"), (6, 6, 131, "0x6 0x0"), (5, 15, 132, "0x5 0xf"), (1, 6, 132, "0x1 0x6"),
    (0, 0, 116, "0x0 0x0"),
):
    broken(FOR_RISCV, f"0x8 {told}", f"a hart by {revision}, {minor:#x}, {length} bytes", arch(revision, minor, rintc(0), length=length))
broken(FOR_RISCV, "0x8 0x6 0x5", "an RINTC of 2 bytes", arch(6, 5, other(24, 2)))
broken(FOR_RISCV, "0x8 0x6 0x5", "a hart that is off, full hardware", arch(6, 5, rintc(0, 0), flags=0))
broken(FOR_RISCV, "0x8 0x6 0x5", "a hart, and a MADT that is cut", arch(6, 5, rintc(0), b"\0"))
for revision, minor in ((6, 6), (6, 0x16), (6, 15), (7, 0), (255, 0)):
    kept(FOR_RISCV, f"a hart by {revision}, {minor:#x}", arch(revision, minor, rintc(0)))
kept(FOR_RISCV, "other entries", arch(6, 5, gicc(0), core_pic(0, 0), *(other(kind, 2) for kind in (23, 25, 26, 27))))
kept(FOR_RISCV, "a hart after the cut", arch(6, 5, lapic(0, 0), b"\0\0", rintc(0)))
kept(FOR_RISCV, "no FADT", image_of(madt(rintc(0))))
kept(FOR_RISCV, "a FADT of 115 bytes", image_of(SHORT_FADT, madt(rintc(0))))
kept(FOR_RISCV, "no MADT", image_of(old_fadt(5, 268)))


# ---- entries of the MADT that nothing reads
UNREAD = "MadtUnread"
for kind, read, unread in (
    (11, (40, 41, 76, 80, 82, 255), (2, 39)), (12, (24,), (23, 25)), (13, (24,), (23, 25)), (14, (16,), (15, 17)), (15, (20,), (19, 21)),
    (16, (16, 24), (2, 15, 17, 23, 25)), (17, (15,), (14, 16)), (18, (23,), (22, 24)), (19, (21,), (20, 22)), (20, (13,), (12, 14)),
    (21, (19,), (18, 20)), (22, (17,), (16, 18)), (23, (14,), (2, 13, 15)), (24, (20, 21, 36, 255), (2, 19)), (25, (16,), (2, 15, 17)),
    (26, (36,), (35, 37)), (27, (36,), (2, 35, 37)),
):
    for length in read:
        entries_kept(UNREAD, f"type {kind} of {length} bytes", other(kind, length))
    for length in unread:
        entries_broken(UNREAD, f"0x2c {kind:#x}", f"type {kind} of {length} bytes", other(kind, length))
for kind in (6, 7, 8, 28, 29, 30, 127, 128, 255):
    for length in (2, 16, 20, 24):
        entries_broken(UNREAD, f"0x2c {kind:#x}", f"type {kind} of {length} bytes", other(kind, length))
for kind in (0, 1, 2, 3, 4, 5, 9, 10):
    entries_kept(UNREAD, f"type {kind} of 2 bytes", other(kind, 2))
entries_broken(UNREAD, "0x3c 0x1c", "the second entry, before a third", other(16, 16), other(28, 2), other(18, 22))

# ---- the MADT: a GIC, further
SHORT = "GiccShort"
for length in (40, 75):
    entries_broken(SHORT, f"0x2c 0x4c {length:#x}", f"a GICC of {length} bytes", cpu(length=length))
entries_broken(SHORT, "0x7c 0x4c 0x4b", "a GICC that is off, after another", cpu(), cpu(flags=0, length=75))
entries_broken(SHORT, "0x2c 0x4c 0x4b", "two GICCs", cpu(length=75), cpu(length=74))
entries_broken(SHORT, "0x2c 0x4c 0x28", "a MADT that is cut", cpu(length=40), b"\0")
for length in (76, 80, 82, 255, 39, 2):
    entries_kept(SHORT, f"an entry of {length} bytes", other(11, length))

NO_GICR = "GiccNoGicr"
WITH_GICR = cpu(gicr=0x1000)
entries_broken(NO_GICR, "0x94 0x3c", "the second GICC, version 3", distributor(3), WITH_GICR, cpu())
entries_broken(NO_GICR, "0x44 0x3c", "the first GICC, version 4", distributor(4), cpu(), WITH_GICR)
entries_broken(
    NO_GICR, "0x94 0x3c", "after one that is online capable, of 68 bytes", distributor(3), cpu(gicr=0x1000, flags=8), cpu(length=68),
)
entries_broken(NO_GICR, "0x94 0x3c", "one at 2^56, and both flags", distributor(3), cpu(gicr=HIGHER), cpu(flags=9))
entries_broken(NO_GICR, "0xab 0x3c", "after a distributor of 23 bytes", gicd(23), distributor(3), WITH_GICR, cpu(mpidr=1))
entries_broken(NO_GICR, "0x94 0x3c", "two GICCs", distributor(3), WITH_GICR, cpu(), cpu())
entries_kept(NO_GICR, "none has one", distributor(3), cpu(), cpu())
entries_kept(NO_GICR, "one that is off has one", distributor(3), cpu(gicr=0x1000, flags=0), cpu())
entries_kept(NO_GICR, "both have one", distributor(3), WITH_GICR, cpu(gicr=0x2000))
entries_kept(NO_GICR, "one without that is off, and one that is online capable", distributor(3), WITH_GICR, cpu(flags=6), cpu(flags=8))
entries_kept(NO_GICR, "one that ends in it", distributor(3), WITH_GICR, cpu(length=67))
entries_kept(NO_GICR, "a structure of redistributors of 2 bytes", distributor(3), WITH_GICR, cpu(), other(14, 2))
for name, entry in (("a cut", b"\0"), ("a local APIC of 7 bytes", other(0, 7))):
    entries_kept(NO_GICR, f"a MADT with {name}", distributor(3), WITH_GICR, cpu(), entry)
    entries_kept("CapableNoGicr", f"a MADT with {name}", distributor(3), cpu(flags=8), entry)
for version in (0, 1, 2, 5):
    entries_kept(NO_GICR, f"version {version}", distributor(version), WITH_GICR, cpu(), distributor(3))
    entries_kept("CapableNoGicr", f"version {version}", distributor(version), cpu(flags=8), distributor(3))
    entries_kept("SameGicrBase", f"version {version}", distributor(version), WITH_GICR, WITH_GICR, distributor(3))
entries_kept(NO_GICR, "no distributor", WITH_GICR, cpu())

NEVER_ON = "CapableNoGicr"
for version, flags in ((3, 8), (4, 10), (3, HIGH + 8)):
    entries_broken(NEVER_ON, f"0x44 0xc {flags:#x}", f"flags {flags:#x}, version {version}", distributor(version), cpu(flags=flags))
entries_broken(NEVER_ON, "0x94 0xc 0x8", "the second GICC, with one of its own", distributor(3), cpu(), cpu(gicr=0x1000, flags=8))
entries_broken(NEVER_ON, "0x44 0xc 0x8", "a byte after the flags", distributor(3), cpu(parking=1, flags=8))
entries_broken(NEVER_ON, "0x44 0xc 0x8", "a GICC of 40 bytes, and another", distributor(3), cpu(flags=8, length=40), cpu(flags=12))
for flags in (0, 1, 7, 9, 0xF):
    entries_kept(NEVER_ON, f"flags {flags:#x}", distributor(3), cpu(flags=flags))
entries_kept(NEVER_ON, "a GICC of 39 bytes", distributor(3), cpu(flags=8, length=39))
entries_kept(NEVER_ON, "a structure of redistributors", distributor(3), cpu(flags=8), redistributor(0x1000, 0x20000))
entries_kept(NEVER_ON, "a structure of redistributors of 2 bytes", distributor(3), cpu(flags=8), other(14, 2))
entries_kept(NEVER_ON, "no distributor", cpu(flags=8))

OTHERS = "GiccDiffers"
for at, size in ((40, 8), (48, 8), (56, 4)):
    top = 1 << 8 * size - 8
    for value in (1, 0x5000, top):
        one = placed(cpu(), **{f"_{at}": number(value, size)})
        entries_broken(OTHERS, f"0x7c {at:#x} {value:#x}", f"{value:#x} at {at}, after 0", cpu(), one)
    entries_broken(OTHERS, f"0x7c {at:#x} 0x0", f"0 at {at}, after 1", placed(cpu(), **{f"_{at}": b"\1"}), cpu())
    off = placed(cpu(flags=0), **{f"_{at}": b"\1"})
    entries_kept(OTHERS, f"1 at {at}, of ones that are off", off, cpu(), off)
    entries_kept(OTHERS, f"one number at {at}", *[placed(cpu(), **{f"_{at}": b"\1"})] * 2)
    short = placed(cpu(length=59), **{f"_{at}": b"\1"})
    entries_kept(OTHERS, f"1 at {at}, of ones of 59 bytes", short, cpu(), short)
    entries_broken(OTHERS, f"0x7c {at:#x} 0x1", f"1 at {at}, of one of 60 bytes", cpu(), placed(cpu(length=60), **{f"_{at}": b"\1"}))
entries_broken(OTHERS, "0x7c 0xc 0x5", "level, then edge", cpu(), cpu(flags=5))
entries_broken(OTHERS, "0x7c 0xc 0x1000005", "level, then edge, flag bit 24, and a byte after it", cpu(), cpu(parking=1, flags=HIGH + 5))
entries_broken(OTHERS, "0x7c 0xc 0x8", "edge, then level, online capable", cpu(flags=5), cpu(flags=8))
entries_broken(OTHERS, "0x7c 0xc 0x5", "all that may differ", cpu(), placed(cpu(flags=5), _40=b"\1" * 20))
entries_broken(OTHERS, "0x7c 0x28 0x1", "GICV and GICH", cpu(), placed(cpu(), _40=b"\1", _48=b"\1"))
entries_broken(OTHERS, "0x7c 0x30 0x1", "GICH and the interrupt", cpu(), placed(cpu(), _48=b"\1", _56=b"\1"))
entries_broken(OTHERS, "0xcc 0x38 0x9", "the third, and the fourth", cpu(), cpu(), placed(cpu(), _56=b"\11"), cpu(flags=5))
entries_broken(OTHERS, "0xcc 0x28 0x0", "after one that is off", cpu(flags=0), placed(cpu(), _40=b"\1"), cpu())
entries_kept(OTHERS, "other flags", cpu(), cpu(flags=11), cpu(flags=8), cpu(flags=HIGH + 1))
entries_kept(OTHERS, "edge of one that is off, and of one of 59 bytes", cpu(flags=4), cpu(), cpu(flags=5, length=59), cpu(flags=6))
entries_kept(OTHERS, "other fields", cpu(), placed(cpu(5, 6, 7, 8), _2=b"\1" * 6, _20=b"\1" * 20, _76=b"\1" * 4))
entries_kept(OTHERS, "no GICC that is on", cpu(flags=0), placed(cpu(flags=0), _40=b"\1"))

ONE_GICR = "SameGicrBase"
entries_broken(ONE_GICR, "0x94 0x44 0x1000", "version 3", distributor(3), WITH_GICR, WITH_GICR)
entries_broken(ONE_GICR, "0x88 0x44 0x1000", "version 4, of 68 bytes", distributor(4), *[cpu(gicr=0x1000, length=68)] * 2)
entries_broken(ONE_GICR, "0x94 0x44 0x100000000000000", "at 2^56, both flags", distributor(3), *[cpu(gicr=HIGHER, flags=9)] * 2)
entries_broken(
    ONE_GICR, "0xe4 0x94 0x2000", "one within the other", distributor(3), *(cpu(gicr=it) for it in (0x1000, 0x2000, 0x2000, 0x1000)),
)
entries_broken(ONE_GICR, "0xe4 0x44 0x1000", "beside one that is off", distributor(3), WITH_GICR, cpu(gicr=0x1000, flags=2), WITH_GICR)
entries_broken(
    ONE_GICR, "0xa4 0x54 0x1000", "a structure of redistributors", distributor(3), redistributor(0, 0x20000), WITH_GICR, WITH_GICR,
)
entries_broken(ONE_GICR, "0x94 0x44 0x1000", "a MADT that is cut", distributor(3), WITH_GICR, WITH_GICR, b"\0")
entries_kept(ONE_GICR, "none twice", distributor(3), cpu(), cpu())
entries_kept(ONE_GICR, "two, of one low half", distributor(3), WITH_GICR, cpu(gicr=HIGHER + 0x1000))
entries_kept(
    ONE_GICR, "one that is off, and one that is online capable", distributor(3), WITH_GICR, *(cpu(gicr=0x1000, flags=it) for it in (0, 8)),
)
entries_kept(ONE_GICR, "one that ends in it", distributor(3), WITH_GICR, cpu(gicr=0x1000, length=67))
entries_kept(ONE_GICR, "no distributor", WITH_GICR, WITH_GICR)

PARKING = "ParkingVersion"
for version in (2, 256, HIGH, 2**32 - 1):
    entries_broken(PARKING, f"0x2c 0x10 {version:#x}", f"version {version:#x}", cpu(parking=version))
entries_broken(PARKING, "0x54 0x10 0x2", "the second GICC, off", cpu(parking=1, length=40), cpu(parking=2, flags=0, length=40))
entries_broken(PARKING, "0x2c 0x10 0x2", "a byte after the version", placed(cpu(parking=2), _20=b"\1"))
entries_kept(PARKING, "versions 0 and 1", cpu(), cpu(parking=1), placed(cpu(), _12=b"\1\1\1\1", _20=b"\1"))
entries_kept(PARKING, "version 2, of 39 bytes", cpu(parking=2, length=39))

NO_PPI = "GiccNoPpi"
for at in (78, 80):
    for value in (1, 15, 32, 1055, 1120, 0x1000, 0xFFFF):
        one = placed(cpu(length=82), **{f"_{at}": number(value, 2)})
        entries_broken(NO_PPI, f"0x2c {at:#x} {value:#x}", f"{value} at {at}", one)
    for value in (0, 16, 31, 1056, 1119):
        entries_kept(NO_PPI, f"{value} at {at}", placed(cpu(length=82), **{f"_{at}": number(value, 2)}))
    entries_kept(NO_PPI, f"1 at {at}, of which one byte is there", placed(cpu(length=at + 1), **{f"_{at}": b"\1"}))
    one = placed(cpu(length=at + 2, flags=0), **{f"_{at}": b"\1"})
    entries_broken(NO_PPI, f"0x7c {at:#x} 0x1", f"1 at {at}, of the second GICC, which is off and ends there", cpu(), one)
entries_broken(NO_PPI, "0x2c 0x4e 0x20", "both", placed(cpu(length=82), _78=b"\x20\0\1\0"))
entries_kept(NO_PPI, "bytes around them", placed(cpu(length=84), _76=b"\xff\xff", _82=b"\xff\xff"))

# ---- the MADT: versions, reserved bytes, and what came after its Revision
READ_LENGTHS = {17: 15, 18: 23, 19: 21, 20: 13, 21: 19, 22: 17, 23: 14, 24: 36, 25: 16, 26: 36, 27: 36}
for kind, length in READ_LENGTHS.items():
    for version in (0, 2, 255):
        one = placed(other(kind, length), _2=bytes([version]))
        entries_broken("PicVersion", f"0x2c 0x2 {version:#x}", f"version {version} of type {kind}", one)
    entries_kept("PicVersion", f"version 1 of type {kind}", placed(other(kind, length), _2=b"\1"))
    if kind != 24:
        lengths = (2, length - 1, length + 1)
        entries_kept("PicVersion", f"version 0 of type {kind}, other lengths", *(other(kind, it) for it in lengths))
entries_broken("PicVersion", "0x2c 0x2 0x0", "version 0 of type 24, of 20 bytes", other(24, 20))
entries_broken("PicVersion", "0x2c 0x2 0x0", "version 0, and a byte after it", placed(other(18, 23), _3=b"\1"))
entries_kept("PicVersion", "version 1, and a byte after it", placed(other(18, 23), _2=b"\1\1"))
entries_broken("PicVersion", "0x3b 0x2 0x0", "the second entry", core_pic(0, 0), other(20, 13), other(17, 15))
entries_kept("PicVersion", "version 0 of type 24, of 19 bytes", other(24, 19))
entries_kept("PicVersion", "other types", *(other(kind, 16) for kind in (6, 9, 14, 16, 28)))

RESERVED = "FurtherReserved"
BLANK_25 = placed(other(25, 16), _2=b"\1")
for entry, unread, *places in (
    (cpu(length=82), (), (2, 1, 1), (3, 1, 0x80), (12, 4, 0x21), (12, 4, 1 << 31), (77, 1, 1)),
    (cpu(length=40), (39,), (3, 1, 1), (12, 4, 0x20)),
    (gicd(), (23, 25), (2, 1, 1), (3, 1, 0xFF), (21, 1, 1), (22, 1, 1), (23, 1, 0x80)),
    (frame(0), (23, 25), (2, 1, 1), (3, 1, 1), (16, 4, 2), (16, 4, 1 << 31)),
    (redistributor(0, 0), (15, 17), (2, 1, 2), (2, 1, 0x81), (3, 1, 1)),
    (its(0), (19, 21), (2, 1, 2), (2, 1, 0x80), (3, 1, 1), *((at, 1, 1) for at in range(16, 20))),
    (core_pic(0, 0), (14, 16), (11, 4, 2), (11, 4, 1 << 31)),
    (rintc(0), (19,), (3, 1, 1), (4, 4, 4), (4, 4, 1 << 31)), (rintc(0, length=20), (), (3, 1, 0xFF), (4, 4, 4)),
    (BLANK_25, (15, 17), (3, 1, 1), (4, 4, 1), (4, 4, 1 << 31)),
):
    for at, size, value in places:
        one = placed(entry, **{f"_{at}": number(value, size)})
        name = f"{value:#x} at {at} of type {entry[0]}, {len(entry)} bytes"
        entries_broken(RESERVED, f"0x2c {at:#x} {value:#x}", name, one)
        for length in unread:
            entries_kept(RESERVED, f"{name}, made {length}", changed((one + bytes(8))[:length], {1: length}))
entries_broken(RESERVED, "0x2c 0x4d 0x1", "byte 77 of a GICC that ends with it", placed(cpu(length=78), _77=b"\1"))
entries_kept(RESERVED, "the byte after a GICC of 77 bytes", cpu(length=77), placed(gicd(), _16=b"\1"))
entries_broken(RESERVED, "0x2c 0x3 0x1", "a reserved byte and a flag", placed(cpu(flags=0x20), _3=b"\1"))
entries_broken(RESERVED, "0x2c 0xc 0x20", "a flag, and an earlier byte of a later entry", cpu(flags=0x20), placed(gicd(), _2=b"\1"))
entries_broken(RESERVED, "0x7c 0x3 0x1", "the second entry", cpu(), placed(gicd(), _3=b"\1"), placed(frame(0), _2=b"\1"))
entries_kept(
    RESERVED, "all that is defined", placed(cpu(flags=0x1F, length=82), _4=b"\xff" * 8, _16=b"\xff" * 61, _78=b"\xff" * 4),
    placed(gicd(), _4=b"\xff" * 17), placed(frame(0), _4=b"\xff" * 12, _16=b"\1", _20=b"\xff" * 4),
    placed(redistributor(0, 0), _2=b"\1", _4=b"\xff" * 12), placed(its(0), _2=b"\1", _4=b"\xff" * 12),
    placed(core_pic(2**32 - 1, 2**32 - 1), _2=b"\xff"), placed(rintc(0, 3), _2=b"\xff", _8=b"\xff" * 28), placed(BLANK_25, _8=b"\xff" * 8),
)
for kind, length in ((16, 16), *READ_LENGTHS.items(), (28, 16), (6, 16)):
    if kind not in (17, 24, 25):
        entries_kept(RESERVED, f"type {kind}", bytes([kind, length]) + b"\xff" * (length - 2))

for flags in (1, 2):
    told = "0x2c 0x8 0xffffffffffffffff"
    entries_broken("HartInvalid", told, f"a hart of no ID, flags {flags}", hart(2**64 - 1, flags))
entries_broken("HartInvalid", "0x50 0x8 0xffffffffffffffff", "the second hart, of 20 bytes", hart(5), hart(2**64 - 1, 1, 20))
entries_broken("HartInvalid", "0x2c 0x8 0xffffffffffffffff", "a UID after no ID", placed(hart(2**64 - 1), _16=b"\1"))
entries_kept("HartInvalid", "IDs just below", *map(hart, (2**64 - 2, 2**32 - 1, 2**63, 2**64 - 1 - HIGHER)))
entries_kept("HartInvalid", "a hart of no ID that is off", hart(2**64 - 1, 0), hart(2**64 - 1, 4))
entries_kept("HartInvalid", "a hart of no ID, of 19 bytes", hart(2**64 - 1, 1, 19))


def wakeup(version, mailbox=0x1000, length=16, reserved=0):
    """A multiprocessor wakeup structure (5.2.12.19), as far as it goes."""
    return placed(other(16, length), _2=number(version, 2), _4=number(reserved, 4), _8=number(mailbox, 8))


WAKE = "WakeupMailbox"
entries_kept(WAKE, "versions 0 and 1", wakeup(0), wakeup(1, length=24))
entries_kept(WAKE, "other types of entries", other(15, 16), other(17, 16))
entries_kept(WAKE, "one after the cut", b"\20\0", wakeup(2))
for version, least, lengths in ((0, 16, (4, 8, 15, 17, 24, 255)), (1, 24, (4, 16, 23, 25, 255))):
    for length in lengths:
        entries_broken(WAKE, f"0x2c {least:#x} {length:#x}", f"version {version} of {length} bytes", wakeup(version, length=length))
entries_broken(WAKE, "0x2c 0x10 0x2", "an entry of 2 bytes", other(16, 2))
entries_broken(WAKE, "0x2c 0x10 0x3", "an entry of 3 bytes, with one of version 1", placed(other(16, 3), _2=b"\1"))
for version, length in ((2, 16), (256, 24), (0xFFFF, 16), (2, 4), (2, 15)):
    entries_broken(WAKE, f"0x2c 0x2 {version:#x}", f"version {version} of {length} bytes", wakeup(version, length=length))
for reserved in (1, 1 << 31):
    entries_broken(WAKE, f"0x2c 0x4 {reserved:#x}", f"a reserved number of {reserved:#x}", wakeup(0, reserved=reserved))
entries_broken(WAKE, "0x2c 0x4 0x1", "a reserved number, in 8 bytes", wakeup(1, length=8, reserved=1))
entries_broken(WAKE, "0x2c 0x10 0x7", "three bytes of a reserved number", wakeup(0, length=7, reserved=1))
for mailbox in (0, 1, 0xFFF, 0x1001, 0x1800, HIGHER + 0x800):
    entries_broken(WAKE, f"0x2c 0x8 {mailbox:#x}", f"a mailbox at {mailbox:#x}", wakeup(0, mailbox))
entries_broken(WAKE, "0x2c 0x8 0x1", "a mailbox at 1, of version 1", wakeup(1, 1, 24))
entries_broken(WAKE, "0x2c 0x8 0x1", "a mailbox at 1, and another length", wakeup(0, 1, 24))
entries_kept(WAKE, "mailboxes at multiples of 4096", *(wakeup(0, it) for it in (0x1000, HIGHER, 2**64 - 0x1000)))
entries_broken(WAKE, "0x2c 0x2 0x2", "a version, a reserved number and a mailbox", wakeup(2, 1, 16, 1))
entries_broken(WAKE, "0x2c 0x4 0x1", "a reserved number and a mailbox", wakeup(0, 1, 16, 1))
entries_broken(WAKE, "0x3c 0x8 0x1", "the second entry, before a third", wakeup(0), wakeup(0, 1), wakeup(2))

AT_ZERO = "LapicAtZero"
entries_broken(AT_ZERO, "0x2c 0x4", "an address of 0", lapic_address(0))
entries_broken(AT_ZERO, "0x38 0x4", "the second address, after reserved bytes", lapic_address(1), lapic_address(0, 1))
entries_broken(AT_ZERO, "0x2c 0x4", "a MADT that is cut", lapic_address(0), b"\0")
entries_kept(AT_ZERO, "other addresses", lapic_address(1), lapic_address(HIGHER), lapic_address(2**64 - 1))
entries_kept(AT_ZERO, "other lengths", other(5, 11), other(5, 13))
kept(AT_ZERO, "the MADT's own address", listed(table(b"APIC", bytes(8) + lapic(0, 0))))

EARLY_ENTRY = "MadtRevision"


def of_revision(revision, *entries):
    """A MADT of a Revision."""
    return listed(revised(madt(*entries), revision))


for kinds, least in ((range(9, 16), 3), (range(24, 28), 6)):
    for kind in kinds:
        for length in (2, 24):
            name = f"type {kind} of {length} bytes"
            broken(EARLY_ENTRY, f"0x8 0x0 {least - 1:#x}", f"{name}, Revision {least - 1}", of_revision(least - 1, other(kind, length)))
            kept(EARLY_ENTRY, f"{name}, Revision {least}", of_revision(least, other(kind, length)))
broken(EARLY_ENTRY, "0x8", "an x2APIC, Revision 0", of_revision(0, x2apic(0, 0)))
broken(EARLY_ENTRY, "0x8 0x0 0x5", "an x2APIC and a hart, Revision 5", of_revision(5, x2apic(0, 0), rintc(0)))
broken(EARLY_ENTRY, "0x8 0x0 0x2", "a hart and an x2APIC, Revision 2", of_revision(2, rintc(0), x2apic(0, 0)))
broken(EARLY_ENTRY, "0x8 0x0 0x2", "an x2APIC, and a MADT that is cut", of_revision(2, x2apic(0, 0), b"\0"))
kept(EARLY_ENTRY, "all other types, Revision 0", of_revision(0, *(other(kind, 2) for kind in (*range(9), *range(16, 24), *range(28, 256)))))
kept(EARLY_ENTRY, "a hart, Revision 255", of_revision(255, rintc(0)))
kept(EARLY_ENTRY, "no entry, Revision 0", of_revision(0))
kept(EARLY_ENTRY, "an x2APIC after the cut", of_revision(0, lapic(0, 0), b"\0\0", x2apic(0, 0)))

# what these rules find is there, whatever comes after the cut, or is of another length
for tail, name in ((b"\0", "a MADT that is cut"), (other(0, 7), "a local APIC of 7 bytes")):
    for rule, numbers, entries in (
        (OTHERS, "0x7c 0xc 0x5", (cpu(), cpu(flags=5))), (PARKING, "0x2c 0x10 0x2", (cpu(parking=2),)),
        (NO_PPI, "0x2c 0x4e 0x20", (placed(cpu(), _78=b"\x20"),)), ("PicVersion", "0x2c 0x2 0x0", (other(18, 23),)),
        (RESERVED, "0x2c 0x3 0x1", (placed(gicd(), _3=b"\1"),)), ("HartInvalid", "0x2c 0x8 0xffffffffffffffff", (hart(2**64 - 1),)),
        (WAKE, "0x2c 0x10 0x8", (other(16),)), (UNREAD, "0x2c 0x1c", (other(28),)),
    ):
        entries_broken(rule, numbers, name, *entries, tail)

# ---- the SRAT, further
RESERVED_HERE = "AffinityReserved"
for entry, *places in (
    (uid_domain(0, 0), (10, 4, 2), (10, 4, 1 << 31)), (its_domain(0), (6, 1, 1), (7, 1, 0x80)),
    *((device_domain(kind, 0), (2, 1, 1), (24, 4, 4), (24, 4, 1 << 31), *((at, 1, 1) for at in range(28, 32))) for kind in (5, 6)),
    (hart_domain(0, 0), (2, 1, 1), (3, 1, 0xFF), (12, 4, 2), (12, 4, 1 << 31)),
):
    for at, size, value in places:
        one, name = placed(entry, **{f"_{at}": number(value, size)}), f"{value:#x} at {at} of type {entry[0]}"
        affinities_broken(RESERVED_HERE, f"0x30 {at:#x} {value:#x}", name, one)
        for length in (len(entry) - 1, len(entry) + 1):
            affinities_kept(RESERVED_HERE, f"{name}, made {length} bytes", changed((one + b"\0")[:length], {1: length}))
affinities_broken(RESERVED_HERE, "0x30 0xa 0x2", "the first of two entries", uid_domain(0, 0, 2), placed(hart_domain(0, 0), _2=b"\1"))
affinities_broken(RESERVED_HERE, "0x30 0x2 0x1", "a reserved byte and a flag", placed(device_domain(5, 0, 4), _2=b"\1"))
affinities_broken(RESERVED_HERE, "0x42 0x3 0x1", "the second entry", uid_domain(0, 0), placed(hart_domain(0, 0, 2), _3=b"\1"))
affinities_kept(
    RESERVED_HERE, "all that is defined",
    placed(uid_domain(2**32 - 1, 2**32 - 1), _14=b"\xff" * 4), placed(of_its(2**32 - 1), _2=b"\xff" * 4),
    *(placed(device_domain(kind, 2**32 - 1, 3), _3=b"\xff", _8=b"\xff" * 16) for kind in (5, 6)),
    placed(hart_domain(2**32 - 1, 2**32 - 1), _16=b"\xff" * 4),
)
affinities_kept(RESERVED_HERE, "other types", b"\0\20" + b"\xff" * 14, b"\2\30" + b"\xff" * 22, b"\10\24" + b"\xff" * 18)

HANDLE = "DeviceHandle"
for kind in (5, 6):
    for value in (2, 255):
        name = f"a handle of kind {value}, type {kind}"
        affinities_broken(HANDLE, f"0x30 0x3 {value:#x}", name, placed(device_domain(kind, 0), _3=bytes([value])))
    affinities_kept(HANDLE, f"handles of kinds 0 and 1, type {kind}", device_domain(kind, 0), placed(device_domain(kind, 0), _3=b"\1"))
    for length in (31, 33):
        affinities_kept(HANDLE, f"type {kind} of {length} bytes", placed(device_domain(kind, 0, 1, length), _3=b"\2"))
affinities_broken(
    HANDLE, "0x50 0x3 0x2", "the second entry, which is not enabled", device_domain(5, 0), placed(device_domain(6, 0, 0), _3=b"\2"),
)
affinities_broken(HANDLE, "0x30 0x3 0x2", "a port before an initiator", *(placed(device_domain(kind, 0), _3=b"\2") for kind in (6, 5)))
affinities_broken(HANDLE, "0x30 0x3 0x2", "a handle of kind 2, and domain 5", placed(device_domain(5, 5), _3=b"\2"))
for tail, name in ((b"\0", "an SRAT that is cut"), (other(1, 24), "a range of 24 bytes"), (other(8), "an entry of type 8")):
    affinities_broken(HANDLE, "0x30 0x3 0x2", name, placed(device_domain(5, 5), _3=b"\2"), tail)
    affinities_broken(RESERVED_HERE, "0x30 0xa 0x2", name, uid_domain(0, 0, 2), tail)
affinities_kept(HANDLE, "handles of kind 0 in domain 5", device_domain(5, 5), device_domain(6, 5))
affinities_kept(HANDLE, "other types", placed(hart_domain(0, 0), _3=b"\2"), placed(uid_domain(0, 0), _3=b"\2"))

OF_ITS_ALONE = "ItsDomain"
HERE_TOO = (
    ("a local APIC", lambda flags: apic_domain(0, 1, flags)), ("an x2APIC", lambda flags: x2apic_domain(0, 1, flags)),
    ("a GICC", lambda flags: uid_domain(0, 1, flags)), ("a hart", lambda flags: hart_domain(0, 1, flags)),
    ("a range of no bytes", lambda flags: memory_of(1, flags=flags)), ("an initiator", lambda flags: device_domain(5, 1, flags)),
    ("a port", lambda flags: device_domain(6, 1, flags)),
)
for name, affinity in HERE_TOO:
    affinities_kept(OF_ITS_ALONE, f"{name} in the domain", its_domain(1), affinity(1))
    affinities_broken(OF_ITS_ALONE, "0x30 0x2 0x1", f"{name} in the domain, not enabled", its_domain(1), affinity(2))
affinities_broken(OF_ITS_ALONE, "0x30 0x2 0x1", "two ITS in one domain", its_domain(1), its_domain(1), memory_of(0))
affinities_broken(OF_ITS_ALONE, "0x30 0x2", "an ITS in domain 0", its_domain(0))
affinities_broken(OF_ITS_ALONE, "0x30 0x2 0x5", "a byte after the domain", placed(its_domain(5), _6=b"\1"))
affinities_kept(OF_ITS_ALONE, "a byte after the domain of an ITS that is not alone", placed(its_domain(1), _6=b"\1"), memory_of(1))
affinities_broken(OF_ITS_ALONE, "0x58 0x2 0x1000001", "a domain of one low byte", memory_of(1), its_domain(0x1000001))
affinities_broken(OF_ITS_ALONE, "0x64 0x2 0x5", "the second ITS", memory_of(1), its_domain(1), its_domain(5), its_domain(6))
affinities_broken(OF_ITS_ALONE, "0x40 0x2 0x1", "domain 257 of a local APIC, and domain 1", apic_domain(0, 257), its_domain(1))
affinities_kept(OF_ITS_ALONE, "domain 257 of a local APIC", apic_domain(0, 257), its_domain(257))
affinities_kept(OF_ITS_ALONE, "a processor before the ITS", hart_domain(0, 1), its_domain(1))
for name, entry in (
    ("a type that nothing reads", other(8, 2)), ("a GICC of 17 bytes", uid_domain(0, 1, length=17)),
    ("an ITS of 13 bytes", its_domain(2, 13)), ("a cut", b"\0"), ("a range of 39 bytes", other(1, 39)),
):
    affinities_kept(OF_ITS_ALONE, f"{name} behind the ITS", its_domain(1), entry)
affinities_kept(OF_ITS_ALONE, "no ITS", memory_of(1), its_domain(1, 11))

# ---- the PPTT, further
NOTHING_READS = "PpttUnread"
for kind, length in ((2, 2), (2, 30), (3, 20), (128, 24), (255, 255)):
    nodes_broken(NOTHING_READS, f"0x24 {kind:#x}", f"type {kind} of {length} bytes", other(kind, length))
nodes_broken(NOTHING_READS, "0x38 0x3", "the second entry, before a third", node(), other(3), other(2), revision=1)
nodes_broken(NOTHING_READS, "0x24 0x2", "a PPTT that is cut", other(2), b"\0")
nodes_kept(NOTHING_READS, "nodes and caches, of any length", node(), cache(), other(0, 2), other(0, 19), other(1, 2), other(1, 200))
nodes_kept(NOTHING_READS, "an entry after the cut", node(), b"\0\0", other(2))
nodes_kept(NOTHING_READS, "no entry")

NO_ID = "CacheIdZero"
for revision in (3, 4, 255):
    nodes_broken(NO_ID, "0x24 0x18", f"an ID of 0, Revision {revision}", shaped_cache(CACHE_ID_VALID), revision=revision)
for revision in (0, 1, 2):
    nodes_kept(NO_ID, f"an ID of 0, Revision {revision}", shaped_cache(CACHE_ID_VALID), revision=revision)
nodes_broken(
    NO_ID, "0x40 0x18", "the second cache, with all flags", shaped_cache(CACHE_ID_VALID, cache_id=1), shaped_cache(0xFF), revision=3,
)
nodes_broken(NO_ID, "0x24 0x18", "a PPTT that is cut", shaped_cache(CACHE_ID_VALID), b"\0", revision=3)
IDS = [shaped_cache(CACHE_ID_VALID, cache_id=it) for it in (1, 256, HIGH)]
nodes_kept(NO_ID, "other IDs", *IDS, revision=3)
nodes_kept(NO_ID, "an ID of 0 that is not valid", shaped_cache(0xFFFFFF7F), revision=3)
nodes_kept(NO_ID, "a cache of 24 bytes", shaped_cache(CACHE_ID_VALID, length=24), revision=3)
nodes_kept(NO_ID, "caches of 27 and 29 bytes", *(cache(0, length, CACHE_ID_VALID) for length in (27, 29)), revision=3)

# Caches of a type, from 0x40 on behind a node that names two things: at 0x40, 0x58 and 0x70.
TYPED = 1 << 4
DATA, CODE, BOTH, BOTH_TOO = range(4)


def of_type(kind, next_level=0, flags=TYPED, length=24, others=0):
    return cache(next_level, length, flags, attributes=kind << 2 | others)


TYPES = "SameCacheType"
for one, other_one in ((DATA, DATA), (CODE, CODE), (BOTH, BOTH), (BOTH, BOTH_TOO), (BOTH_TOO, BOTH), (BOTH_TOO, BOTH_TOO)):
    two = node(resources=[64, 88]), of_type(one), of_type(other_one)
    nodes_broken(TYPES, "0x24 0x40 0x58", f"types {one} and {other_one}", *two)
for one, other_one in (
    (DATA, CODE), (DATA, BOTH), (DATA, BOTH_TOO), (CODE, DATA), (CODE, BOTH), (CODE, BOTH_TOO), (BOTH, DATA), (BOTH_TOO, CODE),
):
    nodes_kept(TYPES, f"types {one} and {other_one}", node(resources=[64, 88]), of_type(one), of_type(other_one))
TWO_OF_DATA = of_type(DATA), of_type(DATA)
nodes_broken(TYPES, "0x24 0x58 0x40", "the later one named first", node(resources=[88, 64]), *TWO_OF_DATA)
nodes_broken(
    TYPES, "0x24 0x40 0x58", "other attributes", node(resources=[64, 88]), of_type(CODE, others=0b10011), of_type(CODE), revision=1,
)
nodes_broken(TYPES, "0x24 0x40 0x5c", "caches of 28 bytes", node(resources=[64, 92]), *[of_type(DATA, length=28)] * 2, revision=3)
nodes_broken(TYPES, "0x24 0x40 0x58", "all flags", node(resources=[64, 88]), *[of_type(DATA, flags=2**32 - 1)] * 2)
nodes_broken(TYPES, "0x24 0x40 0x58", "a PPTT that is cut", node(resources=[64, 88]), *TWO_OF_DATA, b"\0")
nodes_kept(TYPES, "one cache named twice", node(resources=[64, 64]), *TWO_OF_DATA)
nodes_broken(TYPES, "0x24 0x44 0x5c", "one cache named twice, and another", node(resources=[68, 68, 92]), *TWO_OF_DATA)
for flags in ((TYPED, 0), (0, TYPED), (0xFFFFFFEF, TYPED), (0, 0), (0xFFFFFFEF, 0xFFFFFFEF)):
    two = (of_type(DATA, flags=it) for it in flags)
    nodes_kept(TYPES, f"flags {flags[0]:#x} and {flags[1]:#x}", node(resources=[64, 88]), *two)
nodes_kept(TYPES, "a cache and its Next Level", node(resources=[64, 88]), of_type(DATA, 88), of_type(DATA))
nodes_kept(TYPES, "a cache and its Next Level, named first", node(resources=[88, 64]), of_type(DATA, 88), of_type(DATA))
nodes_kept(TYPES, "a cache that is its own Next Level", node(resources=[64, 88]), of_type(DATA, 64), of_type(DATA))
nodes_kept(TYPES, "a cache with a size, and its Next Level", node(resources=[64, 88]), placed(of_type(DATA, 88), _12=b"\1"), of_type(DATA))
nodes_kept(TYPES, "a reference past 16 MiB", node(resources=[64, HIGH + 88]), *TWO_OF_DATA)
nodes_kept(TYPES, "a Next Level of one whose type is not valid", node(resources=[68, 92, 116]), of_type(DATA, 92, 0), *TWO_OF_DATA)
nodes_broken(
    TYPES, "0x24 0x40 0x58", "two caches of one Next Level that is not named",
    node(resources=[64, 88]), *[of_type(DATA, 112)] * 2, of_type(DATA),
)
nodes_broken(
    TYPES, "0x24 0x40 0x58", "the Next Level of a cache that is not named", node(resources=[64, 88]), *TWO_OF_DATA, of_type(DATA, 88),
)
nodes_broken(TYPES, "0x24 0x40 0x58", "a Next Level past 16 MiB", node(resources=[64, 88]), of_type(DATA, HIGH + 88), of_type(DATA))
THREE = [68, 92, 116]
nodes_broken(TYPES, "0x24 0x5c 0x74", "the second and the third", node(resources=THREE), of_type(DATA), of_type(CODE), of_type(CODE))
nodes_broken(TYPES, "0x24 0x44 0x5c", "three, the last one named before the second", node(resources=[68, 116, 92]), *[of_type(DATA)] * 3)
nodes_broken(
    TYPES, "0x24 0x48 0x78", "two types, each twice", node(resources=[96, 72, 144, 120]), *[of_type(DATA), of_type(CODE)] * 2,
)
nodes_kept(TYPES, "a node, and the middle of a cache", node(resources=[68, 92, 113]), of_type(DATA), node(), of_type(DATA))
nodes_kept(TYPES, "a cache of 25 bytes", node(resources=[64, 88]), of_type(DATA), of_type(DATA, length=25))
nodes_broken(
    TYPES, "0x24 0x5d 0x75", "the Next Level of a cache of 25 bytes",
    node(resources=[68, 93, 117]), of_type(DATA, 117, length=25), *TWO_OF_DATA,
)
nodes_kept(TYPES, "one cache each of two nodes", node(resources=[84]), node(resources=[108]), *TWO_OF_DATA)
nodes_broken(
    TYPES, "0x38 0x54 0x6c", "the second node, of two that are wrong", node(), node(resources=[84, 108]), *TWO_OF_DATA,
    node(resources=[84, 108]),
)
nodes_kept(TYPES, "a node of another length", node(resources=[64, 88], count=1), *TWO_OF_DATA)

# ---- all lines, in their order, of sets that break several rules
WHOLE = []


def whole(name, pieces, *advice, faults=("yes",), sets=WHOLE):
    """A set, and all lines of it."""
    sets.append((name, pieces, list(map(with_numbers, (*faults, *(f"advice {line}" for line in advice))))))


whole("a FADT that has a DSDT", of_dsdt(DSDT))
whole("reduced hardware", listed(), "NoDsdt 0x28")
whole("full hardware", full(), "NoDsdt 0x28", "NoPm1Block 0x38", "HalfBlock 0x4c 0x4", "SciZero 0x2e")
whole(
    "local APICs", listed(madt(lapic(0, 255, 3), x2apic(1, 5, 2), override(0, 2, 12), override(16, 2), lapic_nmi(255, 0))),
    "NoDsdt 0x28", "BroadcastId 0x2c 0x0 0xff", "CapableTooEarly 0x34 0x1", "EnabledAndCapable 0x2c 0x0 0x3",
    "OverridePastIsa 0x4e 0x10 0x2", "TimerLevel 0x44 0x0 0xc", "TwoSourcesOneGsi 0x4e 0x44 0x2", "LintNotOne 0x58", "NoIoApic 0x0",
    "MadtRevision 0x8 0x0 0x1",
)
whole(
    "two processors of a GIC", arch(5, 0, distributor(3), cpu(mpidr=1 << 24), cpu(mpidr=1 << 24), flags=0),
    "FadtOfRevision 0x4 0x84 0x10c", "SameUid 0x94 0x44", "NoDsdt 0x28", "NoPm1Block 0x38", "SciZero 0x2e", "FadtForArch 0x8 0x5",
    "NoRedistributor 0x2c 0x3", "SameMpidr 0x94 0x44 0x1000000", "MpidrReserved 0x44 0x0 0x1000000", "NoBootMethod 0x81",
    "NoGtdt 0x0", "MadtRevision 0x8 0x0 0x1",
    faults=("no 4 PmEventLength 0x58", "no 4 PmControlLength 0x59", "no 5 NoFacs"),
)
whole(
    "domains, distances and a topology",
    listed(
        srat(apic_domain(0, 256), device_domain(5, 0, 0)), slit(2, [10] * 4),
        pptt(node(0, IS_ID_VALID, 7, reserved=1), leaf(8), node(56), cache(flags=1)),
    ),
    "DomainPastSlit 0x30 0x2 0x100", "NoDsdt 0x28", "NoMemoryRange 0x0", "InitiatorOff 0x40", "DomainPastRevision 0x30 0x1 0x100",
    "RemoteAsLocal 0x2d 0x0 0x1", "LeafUnflagged 0x24 0x0 0x7", "LeafAsParent 0x38 0x4c", "NoPackage 0x38 0x0 0x8", "CacheNumbers 0x60",
    "PpttReserved 0x24 0x2",
)
whole("an RSDP alone", {RSDP_AT: rsdp()}, faults=("no 2 RootHeaderOut 0x1000",))
whole("nothing", {}, faults=("no 1 RsdpOut 0xe0000",))
