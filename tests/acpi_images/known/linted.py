"""Sets of tables, and the lines that `lint` has to write of each. Each line is worked out by hand from the rules in
docs/TABLES.md and docs/FAULTS.md, and none is taken from a program. Numbers of 0 at the end of a line are left out.

A set is kept as small as its rule lets it, so other rules are often broken beside it: their lines are there too."""

from __future__ import annotations

from dataclasses import dataclass
from functools import partial

from ..tables import *
from .rows import with_numbers


@dataclass
class Expected:
    name: str
    pieces: dict | bytes
    lines: list[str]
    words: str


EXPECTED = []


def expected(name, pieces, *lines, words="--rsdp e0000"):
    """The program's lines, with these words after `lint`."""
    EXPECTED.append(Expected(name, pieces, list(map(with_numbers, lines)), words))


def advised(name, pieces, *advice, words="--rsdp e0000"):
    """A set without a fault, and the advice on it."""
    expected(name, pieces, "yes", *(f"advice {line}" for line in advice), words=words)


def madt_of(*entries):
    """A MADT of these entries, from 0x2C on, and of a distributor after them where there are GICCs and none; of Revision 6, which has all
    types of entries."""
    kinds = [entry[:1] for entry in entries]
    return revised(madt(*entries, *[gicd()] if b"\x0b" in kinds and b"\x0c" not in kinds else []), 6)


def blank(kind, length):
    """An entry of a type of the MADT and nothing in it but the version that some types have, and of a wakeup structure a mailbox."""
    if kind == 16:
        return placed(other(kind, length), _2=bytes([length == 24]), _8=number(0x1000, 8))
    return placed(other(kind, length), _2=b"\1") if 17 <= kind <= 27 else other(kind, length)


def srat_of(*entries):
    """An SRAT of these entries, from 0x30 on, and of memory after them where there are others and none."""
    kinds = [entry[:1] for entry in entries]
    return srat(*entries, *[memory(1 << 40, 1)] if kinds and b"\1" not in kinds else [])


def processors(name, entries, *advice):
    """A MADT of these entries, from 0x2C on."""
    advised(name, sound(madt_of(*entries)), *advice)


ON = lapic(0, 0)
SUMMED_FACS = summed(facs(), 8)
DSDT = table(b"DSDT", bytes(4))

# ---- no set, and a root that cannot be read
expected("nothing", b"", "no rsdp", words="")
expected("an RSDP at no place of the search", {0xE0008: rsdp()}, "no rsdp", words="")
expected("nothing at an address", b"", "no 1 RsdpOut 0xe0000")
SMALLEST = {RSDP_AT: rsdp(), RSDT_AT: rsdt()}
expected("a set that lists nothing", SMALLEST, "no 4 NoFadt", words="")
TWICE = {RSDP_AT: rsdp(), RSDT_AT: rsdt(0x2000, 0x3000, 0x3000), 0x2000: sound_fadt(), 0x3000: hpet()}
CUT_ROOT = {**TWICE, RSDT_AT: rsdt(0x2000, 0x3000, 0x3000)[:47]}
expected("a root of which the last byte is not present", CUT_ROOT, "no 2 RootOut 0x1000")
OTHER_ROOT = {**TWICE, RSDT_AT: changed(rsdt(0x2000, 0x3000, 0x3000), {0: ord("X")})}
expected("a root of another signature", OTHER_ROOT, "no 2 RootSignature 0x1000", "no 2 RootSum 0x1000")
RAGGED = {**TWICE, RSDT_AT: changed(rsdt(0x2000, 0x3000, 0x3000), {4: 47}, (9, 47))}
expected("a root with three bytes of its last slot", RAGGED, "no 2 RootRagged 0x1000")
UNSUMMED_ROOT = {**TWICE, RSDT_AT: changed(rsdt(0x2000, 0x3000, 0x3000), {9: 0})}
expected("a root that does not sum to 0 is read", UNSUMMED_ROOT, "no 2 RootSum 0x1000", "advice ListedTwice 0x2 0x1 0x3000")
UNSUMMED_RSDP = {**TWICE, RSDP_AT: changed(rsdp(), {0: ord("r")})}
expected(
    "an RSDP of another signature, which does not sum to 0, is read", UNSUMMED_RSDP, "no 1 RsdpSignature 0xe0000", "no 1 RsdpSum 0xe0000",
    "advice ListedTwice 0x2 0x1 0x3000",
)

# ---- slots
advised("a table in two slots", TWICE, "ListedTwice 0x2 0x1 0x3000")
for name, slots, *advice in (
    ("a table in three slots", (0x2000, 0x3000, 0x3000, 0x3000), "ListedTwice 0x2 0x1 0x3000"),
    ("two tables in two slots each", (0x2000, 0x3000, 0x3000, 0x2000), "ListedTwice 0x2 0x1 0x3000"),
    ("slots of 0", (0, 0x2000, 0, 0x3000, 0), "NullSlot 0x0"),
    ("a table in two slots after slots of 0", (0, 0x2000, 0x3000, 0, 0x2000), "ListedTwice 0x4 0x1 0x2000", "NullSlot 0x0"),
):
    advised(name, sound(hpet(), slots=slots), *advice)
expected(
    "an address in two slots at which nothing is present", sound(slots=(0x2000, 0x9000, 0x9000)), "no 3 TableHeaderOut 0x1 0x9000",
    "advice ListedTwice 0x2 0x1 0x9000",
)
WIDE = {RSDP_AT: extended_rsdp(), XSDT_AT: xsdt(0x2000, 0x100002000), 0x2000: sound_fadt(), 0x100002000: hpet()}
advised("two addresses with the same low half", WIDE)
advised("a thousand slots with one address", sound(slots=[0x2000] * 1000), "ListedTwice 0x1 0x0 0x2000")
expected(
    "a thousand slots with one table, which does not sum to 0", image_of(changed(sound_fadt(), {9: 0}), slots=[0x2000] * 1000),
    "no 3 TableSum 0x0 0x2000", "advice ListedTwice 0x1 0x0 0x2000",
)

for signature, body, *lines in (
    (b"FACP", bytes(76) + number(REDUCED, 4), "yes", "advice SecondTable 0x1 0x0 0x3000"),
    (b"APIC", bytes(8) + ON, "yes", "advice SecondTable 0x2 0x1 0x4000"),
    (b"SRAT", number(1, 12), "yes", "advice SecondTable 0x2 0x1 0x4000"),
    (b"SLIT", bytes(8), "yes", "advice SecondTable 0x2 0x1 0x4000"), (b"PPTT", b"", "yes", "advice SecondTable 0x2 0x1 0x4000"),
    (b"HPET", hpet()[36:], "yes"), (b"SSDT", b"", "yes"), (b"XSDT", b"", "yes"),
):
    one = table(signature, body)
    tables = (one,) if signature == b"FACP" else (one, one)
    expected(f"two tables {signature.decode()}", sound(*tables), *lines)
for name, slots, *advice in (
    ("one SRAT in two slots", (0x2000, 0x3000, 0x3000), "ListedTwice 0x2 0x1 0x3000"),
    ("two SRATs after slots of 0", (0x2000, 0, 0x3000, 0, 0x4000), "SecondTable 0x4 0x2 0x4000", "NullSlot 0x1"),
    ("an SRAT twice, and another", (0x2000, 0x3000, 0x3000, 0x4000), "ListedTwice 0x2 0x1 0x3000", "SecondTable 0x3 0x1 0x4000"),
    ("two SRATs twice", (0x2000, 0x3000, 0x4000, 0x3000, 0x4000), "ListedTwice 0x3 0x1 0x3000", "SecondTable 0x2 0x1 0x4000"),
    ("an SRAT after another at a higher address", (0x2000, 0x4000, 0x3000), "SecondTable 0x2 0x1 0x3000"),
):
    advised(name, sound(srat_of(), srat_of(), slots=slots), *advice)
for size, *lines in (
    (35, "no 3 TableHeaderOut 0x2 0x4000"), (36, "no 3 TableOut 0x2 0x4000", "advice SecondTable 0x2 0x1 0x4000"),
    (48, "yes", "advice SecondTable 0x2 0x1 0x4000"),
):
    expected(f"a second SRAT of which {size} bytes are present", sound(srat_of(), srat_of()[:size]), *lines)
expected("a first SRAT whose header is cut", sound(srat_of()[:35], srat_of(memory(0, 1))), "no 3 TableHeaderOut 0x1 0x3000")
expected(
    "a first SRAT that is cut: no other is read in its place", sound(srat_of(memory(0, 1))[:87], srat_of(memory(0, 2), memory(1, 2))),
    "no 3 TableOut 0x1 0x3000", "advice SecondTable 0x2 0x1 0x4000",
)
expected(
    "a second table of Length 35", sound(slit(0), changed(slit(0), {4: 35})), "no 3 TableLength 0x2 0x4000",
    "advice SecondTable 0x2 0x1 0x4000",
)

advised("a DSDT in a slot", sound(DSDT), "ListedApart 0x1 0x0 0x3000")
advised("a FACS in a slot", sound(SUMMED_FACS), "ListedApart 0x1 0x0 0x3000")
expected("a FACS in a slot, with no sum", sound(facs()), "no 3 TableSum 0x1 0x3000", "advice ListedApart 0x1 0x0 0x3000")
advised("a FACS and a DSDT in slots", sound(hpet(), SUMMED_FACS, DSDT), "ListedApart 0x2 0x0 0x4000")
advised("a DSDT in two slots", sound(DSDT, slots=(0x2000, 0x3000, 0x3000)), "ListedTwice 0x2 0x1 0x3000", "ListedApart 0x1 0x0 0x3000")
advised("an SSDT and a PSDT", sound(table(b"SSDT", b""), table(b"PSDT", b"")))
expected("a DSDT whose header is cut", sound(DSDT[:35]), "no 3 TableHeaderOut 0x1 0x3000")
expected("a DSDT that is cut", sound(DSDT[:36]), "no 3 TableOut 0x1 0x3000", "advice ListedApart 0x1 0x0 0x3000")

# ---- the FADT: what its Revision has
for revision, length, *advice in (
    (0, 116, "FadtPastRevision 0x8"), (1, 116), (2, 116), (2, 132), (3, 116, "FadtOfRevision 0x4 0x74 0xf4"),
    (3, 243, "FadtOfRevision 0x4 0xf3 0xf4"), (3, 244),
    (4, 243, "FadtOfRevision 0x4 0xf3 0xf4"), (4, 244), (5, 244, "FadtOfRevision 0x4 0xf4 0x10c"),
    (5, 267, "FadtOfRevision 0x4 0x10b 0x10c"), (5, 268), (6, 244, "FadtOfRevision 0x4 0xf4 0x114"),
    (6, 268, "FadtOfRevision 0x4 0x10c 0x114"), (6, 275, "FadtOfRevision 0x4 0x113 0x114"), (6, 276),
    (6, 300, "FadtPastRevision 0x4 0x114 0x12c"), (7, 275, "FadtOfRevision 0x4 0x113 0x114"), (7, 276),
    (255, 275, "FadtOfRevision 0x4 0x113 0x114"), (255, 276),
):
    advised(f"a FADT of Revision {revision} and Length {length}", image_of(old_fadt(revision, length)), *advice)
expected(
    "a FADT that does not sum to 0 is read", image_of(changed(old_fadt(6, 244), {9: 0})), "no 3 TableSum 0x0 0x2000",
    "advice FadtOfRevision 0x4 0xf4 0x114",
)
expected("a FADT that is cut", image_of(old_fadt(6, 244)[:243]), "no 3 TableOut 0x0 0x2000")
expected("a FADT of Revision 6 and Length 115", image_of(table(b"FACP", bytes(79), 6)), "no 4 FadtShort")
advised("a second FADT, shorter than its Revision", image_of(old_fadt(6, 276), old_fadt(6, 244)), "SecondTable 0x1 0x0 0x3000")

# ---- the FADT: two addresses of one thing
FACS_TWICE = {0x7000: facs(), 0x8000: facs(), 0x100007000: facs()}


def two_addresses(name, length, fields, *advice, flags=0):
    """A FADT of full hardware with these fields, and FACSs. It is of Revision 3, or a shorter one of Revision 1, for which it is too
    long. Of reduced hardware there is advice on the first of the blocks, PM1a_EVT."""
    full = {**WITH_DSDT, **WITH_BLOCKS, "_36": number(0x7000, 4), "_88": b"\4", "_89": b"\2", "_91": b"\4", **fields}
    past = [] if length == 244 else [f"FadtPastRevision 0x4 0x74 {length:#x}"]
    fixed = [f"FixedInReduced 0x38 0x0 {int.from_bytes(full['_56'], 'little'):#x}"] if flags == REDUCED else []
    one = revised(fadt(flags, length, **full), 3 if length == 244 else 1)
    advised(name, image_of(one, others=FACS_TWICE), *advice, *past, *fixed)


two_addresses("two addresses of the FACS", 244, {"_132": number(0x8000, 8)}, "FacsDiffers 0x24 0x7000 0x8000")
two_addresses("two addresses of the FACS, the second one complete", 140, {"_132": number(0x8000, 8)}, "FacsDiffers 0x24 0x7000 0x8000")
two_addresses("an X_FIRMWARE_CTRL that is cut", 139, {"_132": number(0x8000, 7)})
two_addresses("one address of the FACS twice", 244, {"_132": number(0x7000, 8)})
two_addresses("an X_FIRMWARE_CTRL of 0", 244, {})
two_addresses("a FIRMWARE_CTRL of 0", 244, {"_36": bytes(4), "_132": number(0x8000, 8)})
HIGH_FACS = {"_132": number(0x100007000, 8)}
two_addresses("two addresses of the FACS with one low half", 244, HIGH_FACS, "FacsDiffers 0x24 0x7000 0x100007000")
two_addresses(
    "two addresses of the FACS, of reduced hardware", 244, {"_132": number(0x8000, 8)}, "FacsDiffers 0x24 0x7000 0x8000", flags=REDUCED,
)

TWO_DSDTS = {"_40": number(0xA020000, 4), "_140": number(0xA010000, 8)}
two_addresses("two addresses of the DSDT", 244, TWO_DSDTS, "DsdtDiffers 0x28 0xa020000 0xa010000")
two_addresses("two addresses of the DSDT, the second one complete", 148, TWO_DSDTS, "DsdtDiffers 0x28 0xa020000 0xa010000")
two_addresses("an X_DSDT that is cut", 147, {"_40": number(0xA020000, 4), "_140": number(0xA010000, 7)})
two_addresses("one address of the DSDT twice", 244, {"_40": number(0xA020000, 4), "_140": number(0xA020000, 8)})
two_addresses("a DSDT of 0", 244, {"_40": bytes(4), "_140": number(0xA010000, 8)})
two_addresses("an X_DSDT of 0", 244, {"_40": number(0xA020000, 4)})
two_addresses("two addresses of the DSDT, of reduced hardware", 244, TWO_DSDTS, "DsdtDiffers 0x28 0xa020000 0xa010000", flags=REDUCED)
two_addresses(
    "two addresses of the FACS and of the DSDT", 244, {"_132": number(0x8000, 8), **TWO_DSDTS}, "FacsDiffers 0x24 0x7000 0x8000",
    "DsdtDiffers 0x28 0xa020000 0xa010000",
)

# ---- the FADT: register blocks, each with its 4-byte address, its length, where its structure begins, and the bytes of its registers
for name, narrow, length, wide, size in (
    ("PM1a_EVT", 56, 88, 148, 4), ("PM1b_EVT", 60, 88, 160, 4), ("PM1a_CNT", 64, 89, 172, 2), ("PM1b_CNT", 68, 89, 184, 2),
    ("PM2_CNT", 72, 90, 196, 1), ("PM_TMR", 76, 91, 208, 4), ("GPE0", 80, 92, 220, 4), ("GPE1", 84, 93, 232, 4),
):
    narrow_one = {f"_{narrow}": number(0x600, 4), f"_{length}": bytes([size])}
    ports = {**narrow_one, f"_{wide}": generic_address(0x604, width=8 * size)}
    cut = {**narrow_one, f"_{wide}": generic_address(0x604)[:11]}
    two_addresses(f"two addresses of {name}", 244, ports, f"BlockDiffers {narrow:#x} 0x600 0x604")
    two_addresses(f"two addresses of {name}, the second one complete", wide + 12, ports, f"BlockDiffers {narrow:#x} 0x600 0x604")
    two_addresses(f"a structure of {name} that is cut", wide + 11, cut)
    two_addresses(f"one address of {name} twice", 244, {**ports, f"_{wide}": generic_address(0x600, width=8 * size)})
    two_addresses(f"two addresses of {name}, of reduced hardware", 244, ports, flags=REDUCED)
PORT = {"_56": number(0x600, 4)}
for space in (0, 2, 127):
    other_space = [f"BlockSpace 0x94 0x0 {space:#x}"] if space else []
    two_addresses(f"a structure of the space {space}", 244, {**PORT, "_148": generic_address(0x604, space)}, *other_space)
two_addresses("a structure with address 0", 244, {**PORT, "_148": generic_address(0)})
two_addresses("a structure and no port", 244, {"_56": bytes(4), "_148": generic_address(0x604)})
HIGH_BLOCK = {**PORT, "_148": generic_address(0x100000600)}
two_addresses(
    "two addresses of a block with one low half", 244, HIGH_BLOCK, "BlockDiffers 0x38 0x600 0x100000600",
    "PortPastEnd 0x38 0x4 0x100000600",
)
TWO_BLOCKS = {
    "_64": number(0x604, 4), "_172": generic_address(5, width=16), "_80": number(0x620, 4), "_92": b"\4", "_220": generic_address(0x16),
}
two_addresses("two blocks with two addresses each", 244, TWO_BLOCKS, "BlockDiffers 0x40 0x604 0x5")

# ---- the SCI
SERVED = io_apic(0xFEC00000, 0)


def sci(name, number_of_sci, entries, *lines, flags=0, words=""):
    """A FADT with this SCI_INT, and a MADT with a processor at 0x2C and these entries from 0x34 on."""
    full = sound_full_fadt(_46=number(number_of_sci, 2), _112=number(flags, 4))
    pieces = image_of(full, madt_of(ON, *entries), others={FACS_AT: facs()})
    expected(name, pieces, *lines, words=f"--rsdp e0000 {words}".strip())


sci("an SCI that is served", 23, [SERVED], "yes")
sci("an SCI one past what is served", 24, [SERVED], "yes", "advice SciNowhere 0x2e 0x0 0x18")
sci("an SCI of 200", 200, [SERVED], "yes", "advice SciNowhere 0x2e 0x0 0xc8")
sci("an SCI before what is served", 0, [io_apic(0xFEC00000, 1)], "yes", "advice SciNowhere 0x2e", "advice SciZero 0x2e")
sci("an SCI between two I/O APICs", 24, [SERVED, io_apic(0xFEC10000, 25, 1)], "yes", "advice SciNowhere 0x2e 0x0 0x18")
sci("an SCI of the second I/O APIC", 25, [SERVED, io_apic(0xFEC10000, 25, 1)], "yes")
sci("an SCI of 200, of reduced hardware", 200, [SERVED], "yes", "advice FixedInReduced 0x38 0x0 0x400", flags=REDUCED)
sci("an SCI of 200, and no I/O APIC", 200, [], "yes")
sci("an SCI of 200, and an I/O APIC of 201 inputs", 200, [SERVED], "yes", words="fec00000=201")
sci("an SCI of 200, and 201 inputs by default", 200, [SERVED], "yes", words="--default-inputs 201")
sci("an SCI of 200, and 200 inputs by default", 200, [SERVED], "yes", "advice SciNowhere 0x2e 0x0 0xc8", words="--default-inputs 200")
sci("an SCI of 65535", 65535, [SERVED], "yes", "advice SciNowhere 0x2e 0x0 0xffff")
sci("an SCI of 200 that an override leads to 5", 200, [SERVED, override(200, 5)], "yes")
sci(
    "an SCI of 9 that an override leads past what is served", 9, [SERVED, override(9, 24)], "no 17 GsiNowhere 0x40 0x0 0x18",
    "advice SciNowhere 0x2e 0x0 0x18",
)
sci("an SCI of 200, and an override of another source", 200, [SERVED, override(9, 5)], "yes", "advice SciNowhere 0x2e 0x0 0xc8")
sci("an SCI of 265, and an override of its low byte", 265, [SERVED, override(9, 5)], "yes", "advice SciNowhere 0x2e 0x0 0x109")
sci(
    "an SCI of 200, and an override of another bus", 200, [SERVED, override(200, 5, bus=1)], "no 6 OverrideBus 0x40",
    "advice SciNowhere 0x2e 0x0 0xc8",
)
sci(
    "an SCI of 200, and overrides of another bus and of bus 0", 200, [SERVED, override(200, 30, bus=1), override(200, 5)],
    "no 6 OverrideBus 0x40", "no 8 OverrideClash 0x4a 0x40 0xc8", "no 17 GsiNowhere 0x40 0x0 0x1e",
)
sci(
    "an SCI that two overrides lead to 5 and to 30", 200, [SERVED, override(200, 5), override(200, 30)],
    "no 8 OverrideClash 0x4a 0x40 0xc8", "no 17 GsiNowhere 0x4a 0x0 0x1e",
)
sci(
    "an SCI that two overrides lead to 30 and to 5", 200, [SERVED, override(200, 30), override(200, 5)],
    "no 8 OverrideClash 0x4a 0x40 0xc8", "no 17 GsiNowhere 0x40 0x0 0x1e", "advice SciNowhere 0x2e 0x0 0x1e",
)
sci(
    "an SCI of 200, and an override that is too long", 200, [SERVED, changed(override(200, 5) + bytes(2), {1: 12})],
    "no 6 MadtEntryLength 0x40",
)
sci("an SCI of 200, and an I/O APIC that is too long", 200, [changed(SERVED + bytes(2), {1: 14})], "no 6 MadtEntryLength 0x34")
sci("an SCI of 200, and an override after the cut", 200, [SERVED, b"\2\0", override(200, 5)], "no 6 MadtEntryCut 0x40")
sci(
    "an SCI of 200, and entries that no stage reads", 200, [SERVED, other(7, 3), other(13, 3)], "yes",
    "advice SciNowhere 0x2e 0x0 0xc8", "advice MadtUnread 0x40 0x7",
)
sci("an SCI of 200, and a processor that is too short", 200, [SERVED, other(0, 7)], "no 6 MadtEntryLength 0x40")
sci("an SCI of 200, and a byte after the last entry", 200, [SERVED, b"\0"], "no 6 MadtEntryCut 0x40")

# ---- processors with one UID, and with one APIC ID
processors("two UIDs and two APIC IDs", [lapic(0, 0), lapic(1, 1)])
processors("one UID twice", [lapic(1, 0), lapic(1, 1)], "SameUid 0x34 0x2c 0x1")
processors("one UID three times", [lapic(1, 0), lapic(1, 1), lapic(1, 2)], "SameUid 0x34 0x2c 0x1")
processors("two UIDs twice, one within the other", [lapic(1, 0), lapic(2, 1), lapic(2, 2), lapic(1, 3)], "SameUid 0x3c 0x34 0x2")
processors("one UID twice, the first one off", [lapic(1, 0, 0), lapic(1, 1)])
processors("one UID twice, the second one off", [lapic(1, 0), lapic(1, 1, 0)])
processors("one UID three times, the first one off", [lapic(1, 0, 0), lapic(1, 1), lapic(1, 2)], "SameUid 0x3c 0x34 0x1")
processors("one UID twice, online capable", [lapic(1, 0, 2), lapic(1, 1, 2)], "SameUid 0x34 0x2c 0x1")
processors("one UID twice, with another flag", [lapic(1, 0, 4), lapic(1, 1, 1)], "MadtReserved 0x2c 0x4")
processors("one UID of a local APIC and an x2APIC", [lapic(1, 0), x2apic(1, 1, 2)], "SameUid 0x34 0x2c 0x1", "X2ApicBelow255 0x34 0x0 0x1")
processors("one UID of an x2APIC and a local APIC", [x2apic(255, 0), lapic(255, 1)], "SameUid 0x3c 0x2c 0xff", "X2ApicBelow255 0x2c")
processors("two UIDs of x2APICs with one low byte", [x2apic(1, 0), x2apic(0x101, 1)])
processors("one UID of a local APIC and a GICC", [lapic(1, 0), gicc(1)], "SameUid 0x34 0x2c 0x1")
processors("one UID of two GICCs", [gicc(7), gicc(7)], "SameUid 0x7c 0x2c 0x7", "SameMpidr 0x7c 0x2c 0x7")
processors(
    "one UID of two GICCs of 40 bytes", [gicc(7, length=40), gicc(7, length=40)], "SameUid 0x54 0x2c 0x7", "GiccShort 0x2c 0x4c 0x28",
)
processors("one UID of two GICCs, one of them too short", [gicc(7), gicc(7, length=39)], "MadtUnread 0x7c 0xb")
processors("one UID of two GICCs, one of them off", [gicc(7), gicc(7, 2)])
processors("one UID of two GICCs, one of them online capable", [gicc(7), gicc(7, 8)], "SameUid 0x7c 0x2c 0x7", "SameMpidr 0x7c 0x2c 0x7")
for name, entries, *advice in (
    ("an RINTC and a GICC", [rintc(7), gicc(7)], "SameUid 0x50 0x2c 0x7"),
    ("a GICC and an RINTC of 20 bytes that is usable by bit 1", [gicc(7), rintc(7, 2, 20)], "SameUid 0x7c 0x2c 0x7"),
    ("two RINTCs, one of them off", [rintc(7), rintc(7, 0xFFFFFFFC)], "FurtherReserved 0x50 0x4 0xfffffffc"),
    ("two RINTCs, one of them too short", [rintc(7), rintc(7, length=19)], "MadtUnread 0x50 0x18"),
    ("a CORE PIC and an x2APIC", [core_pic(7, 1), x2apic(7, 2)], "SameUid 0x3b 0x2c 0x7"),
    ("two CORE PICs, one of them off", [core_pic(7, 1), core_pic(7, 2, 0xFFFFFFFE)], "FurtherReserved 0x3b 0xb 0xfffffffe"),
    ("two CORE PICs, one of them too short", [core_pic(7, 1), core_pic(7, 2, length=14)], "MadtUnread 0x3b 0x11"),
    ("two CORE PICs, one of them too long", [core_pic(7, 1), core_pic(7, 2, length=16)], "MadtUnread 0x3b 0x11"),
):
    processors(f"one UID of {name}", entries, *advice)
UIDS_APART = [gicc(7), gicc(0x1000007), rintc(0x2000007), core_pic(0x3000007, 1), core_pic(0x4000007, 0x1000001)]
processors("five UIDs and two APIC IDs, the high bits apart", UIDS_APART)
expected(
    "one UID of two local APICs, one of them too long", sound(madt_of(lapic(1, 0), changed(lapic(1, 1) + bytes(4), {1: 12}))),
    "no 6 MadtEntryLength 0x34",
)
expected(
    "one UID of two local APICs, one of them after the cut", sound(madt_of(lapic(1, 0), b"\7\0", lapic(1, 1))), "no 6 MadtEntryCut 0x34",
)
processors("a thousand processors of one UID", [x2apic(5, place) for place in range(1000)], "SameUid 0x3c 0x2c 0x5")

processors("one APIC ID twice", [lapic(0, 5), lapic(1, 5)], "SameApicId 0x34 0x2c 0x5")
processors("one APIC ID three times", [lapic(0, 5), lapic(1, 5), lapic(2, 5)], "SameApicId 0x34 0x2c 0x5")
processors("one APIC ID three times, the second one off", [lapic(0, 5), lapic(1, 5, 0), lapic(2, 5)], "SameApicId 0x3c 0x2c 0x5")
processors("one APIC ID twice, the first one off", [lapic(0, 5, 0), lapic(1, 5)])
processors("one APIC ID twice, online capable", [lapic(0, 5, 2), lapic(1, 5)], "SameApicId 0x34 0x2c 0x5")
processors(
    "one APIC ID of a local APIC and an x2APIC", [lapic(0, 5), x2apic(1, 5)], "SameApicId 0x34 0x2c 0x5", "X2ApicBelow255 0x34 0x0 0x5",
)
processors("two APIC IDs of x2APICs with one low byte", [x2apic(0, 5), x2apic(1, 0x105)])
for name, entries, *advice in (
    ("a CORE PIC and a local APIC", [core_pic(1, 5), lapic(2, 5)], "SameApicId 0x3b 0x2c 0x5"),
    ("an x2APIC and a CORE PIC", [x2apic(1, 5), core_pic(2, 5)], "SameApicId 0x3c 0x2c 0x5"),
    ("two CORE PICs, one of them off", [core_pic(1, 5), core_pic(2, 5, 2)], "FurtherReserved 0x3b 0xb 0x2"),
    ("two CORE PICs, one of them too long", [core_pic(1, 5), core_pic(2, 5, length=16)], "MadtUnread 0x3b 0x11"),
):
    processors(f"one APIC ID of {name}", entries, *advice)
processors("a GICC has no APIC ID", [lapic(1, 0), gicc(0)])
processors("an RINTC has no APIC ID", [lapic(1, 0), rintc(0), rintc(2)])
processors(
    "one UID and one APIC ID, at two places", [lapic(0, 0), lapic(1, 0), lapic(1, 2)], "SameUid 0x3c 0x34 0x1", "SameApicId 0x34 0x2c",
)

# ---- I/O APICs
processors("an I/O APIC at address 0", [ON, io_apic(0, 0)], "IoApicAtZero 0x34")
processors("two I/O APICs at address 0", [ON, io_apic(0xFEC00000, 48, 1), io_apic(0, 0, 2), io_apic(0, 24, 3)], "IoApicAtZero 0x40")
processors("two I/O APICs", [ON, SERVED, io_apic(0xFEC10000, 24, 1)])
processors("one ID of two I/O APICs", [ON, SERVED, io_apic(0xFEC10000, 24)], "SameIoApicId 0x40 0x34")
processors(
    "one ID of three I/O APICs",
    [ON, io_apic(0xFEC20000, 48, 1), io_apic(0xFEC00000, 0, 9)]
    + [io_apic(0xFEC10000, 24, 9), io_apic(0xFEC30000, 72, 9)], "SameIoApicId 0x4c 0x40 0x9",
)
processors("one address of two I/O APICs", [ON, SERVED, io_apic(0xFEC00000, 24, 1)], "SameIoApicAddress 0x40 0x34 0xfec00000")
processors(
    "two addresses of three I/O APICs, one of them 0", [ON, io_apic(0, 0, 1), io_apic(1, 24, 2), io_apic(0, 48, 3), io_apic(1, 72, 4)],
    "IoApicAtZero 0x34", "SameIoApicAddress 0x58 0x40 0x1",
)
expected(
    "an I/O APIC at address 0 that is too long", sound(madt_of(ON, changed(io_apic(0, 0) + b"\0", {1: 13}))), "no 6 MadtEntryLength 0x34",
)

# ---- local NMIs
processors("a local APIC NMI of no processor", [ON, lapic_nmi(48, 1)], "NmiNowhere 0x34 0x0 0x30")
processors("a local APIC NMI of a processor", [ON, lapic_nmi(0, 1)])
processors("a local APIC NMI of all processors", [ON, lapic_nmi(255, 1)])
processors("an x2APIC NMI of UID 255", [ON, x2apic_nmi(255, 1)], "NmiNowhere 0x34 0x0 0xff")
processors("an x2APIC NMI of all processors", [ON, x2apic_nmi(2**32 - 1, 1)])
processors("an x2APIC NMI of the last UID but one", [ON, x2apic_nmi(2**32 - 2, 1)], "NmiNowhere 0x34 0x0 0xfffffffe")
processors("an x2APIC NMI of a local APIC", [ON, x2apic_nmi(0, 1)])
processors("a local APIC NMI of an x2APIC", [x2apic(48, 0), lapic_nmi(48, 1)])
processors("a local APIC NMI of the low byte of a UID", [x2apic(0x130, 0), lapic_nmi(0x30, 1)], "NmiNowhere 0x3c 0x0 0x30")
processors("a local APIC NMI of a processor that is off", [ON, lapic(48, 1, 0), lapic_nmi(48, 1)])
processors("a local APIC NMI of a GICC that is off", [gicc(7), gicc(48, 0), lapic_nmi(48, 1)])
processors("a local APIC NMI of a GICC of 40 bytes", [ON, gicc(48, length=40), lapic_nmi(48, 1)], "GiccShort 0x34 0x4c 0x28")
processors("a local APIC NMI of an APIC ID", [lapic(0, 48), lapic_nmi(48, 1)], "NmiNowhere 0x34 0x0 0x30")
processors("a local APIC NMI before its processor", [lapic_nmi(3, 1), lapic(3, 0)])
processors("two local NMIs of no processor", [ON, lapic_nmi(255, 1), x2apic_nmi(9, 1), lapic_nmi(8, 1)], "NmiNowhere 0x3a 0x0 0x9")
for name, entry in (("a CORE PIC", core_pic(48, 1, 0)), ("an RINTC", rintc(48, 0)), ("an RINTC of 20 bytes", rintc(48, 0, 20))):
    processors(f"a local APIC NMI of {name} that is off", [ON, entry, lapic_nmi(48, 1)])
processors("a local APIC NMI of the ID of a CORE PIC", [ON, core_pic(1, 48), lapic_nmi(48, 1)], "NmiNowhere 0x43 0x0 0x30")
for kind in (6, 8, 13, 16, 18, 23, 25, 255):
    advice = ["WakeupMailbox 0x3a 0x10 0x8"] if kind == 16 else []
    processors(
        f"a local APIC NMI of no processor, and an entry of type {kind}", [ON, lapic_nmi(48, 1), other(kind)], "NmiNowhere 0x34 0x0 0x30",
        f"MadtUnread 0x3a {kind:#x} 0x0", *advice,
    )
expected(
    "a local APIC NMI of no processor, which is too long", sound(madt_of(ON, changed(lapic_nmi(48, 1) + b"\0", {1: 7}))),
    "no 6 MadtEntryLength 0x34",
)
expected(
    "a local APIC NMI of no processor, and what would be an entry of type 7 after the cut",
    sound(madt_of(ON, lapic_nmi(48, 1), b"\1\0", other(7))), "no 6 MadtEntryCut 0x3a",
)

# ---- distributors
processors("one distributor", [gicc(0), gicd()])
processors("two distributors", [gicc(0), gicd(), gicd()], "SecondGicd 0x94 0x7c", "GicOverlap 0x7c 0x94")
processors("three distributors", [gicd(), gicc(0), gicd(), gicd()], "SecondGicd 0x94 0x2c", "GicOverlap 0x2c 0x94")
processors("two distributors of two bytes", [gicd(2), gicd(2), ON], "SecondGicd 0x2e 0x2c", "MadtUnread 0x2c 0xc")

# ---- no processor
processors("a MADT of its fixed fields", [], "NoProcessor")
processors("an I/O APIC alone", [SERVED], "NoProcessor")
processors("processors that are off", [lapic(0, 0, 0), x2apic(1, 1, 4), gicc(2, 2)], "NoProcessor", "MadtReserved 0x34 0x8")
processors("a processor that is online capable", [lapic(0, 0, 2)])
processors("an x2APIC that is online capable", [x2apic(0, 0, 2)])
processors("a GICC that is online capable", [gicc(0, 8)])
processors("a GICC with all flags but two", [gicc(0, 0xFFFFFFF6)], "NoProcessor", "FurtherReserved 0x2c 0xc 0xfffffff6")
processors("a GICC of 40 bytes alone", [gicc(0, length=40)], "GiccShort 0x2c 0x4c 0x28")
for name, entry, *advice in (
    ("an RINTC", rintc(0)), ("a usable RINTC by bit 1", rintc(0, 2)), ("an RINTC of 20 bytes", rintc(0, length=20)),
    ("an RINTC with all flags but two", rintc(0, 0xFFFFFFFC), "NoProcessor", "FurtherReserved 0x2c 0x4 0xfffffffc"),
    ("a CORE PIC", core_pic(0, 0)),
    ("a CORE PIC with all flags but one", core_pic(0, 0, 0xFFFFFFFE), "NoProcessor", "FurtherReserved 0x2c 0xb 0xfffffffe"),
    ("a CORE PIC of 14 bytes", core_pic(0, 0, length=14), "MadtUnread 0x2c 0x11"),
    ("a CORE PIC of 16 bytes", core_pic(0, 0, length=16), "MadtUnread 0x2c 0x11"),
    ("an RINTC of 19 bytes", rintc(0, length=19), "MadtUnread 0x2c 0x18"),
):
    processors(f"{name} alone", [entry], *advice)
expected("a MADT of 43 bytes", sound(table(b"APIC", bytes(7))), "no 6 MadtShort")
expected(
    "a MADT that does not sum to 0 is read", sound(changed(madt_of(lapic(0, 0, 0)), {9: 0})), "no 3 TableSum 0x1 0x3000",
    "advice NoProcessor",
)
expected("a processor that is too long alone", sound(madt_of(changed(lapic(0, 0) + b"\0", {1: 9}))), "no 6 MadtEntryLength 0x2c")
advised("no MADT", sound())

# ---- domains by UID; no MADT says which processors there are
for name, entries, *advice in (
    ("a UID in one domain", [uid_domain(5, 0), uid_domain(6, 1)]), ("a UID in one domain twice", [uid_domain(5, 1), uid_domain(5, 1)]),
    ("a UID in two domains", [uid_domain(5, 0), uid_domain(5, 1)], "TwoUidDomains 0x30 0x42 0x5"),
    ("a UID in three domains", [uid_domain(5, 0), uid_domain(5, 1), uid_domain(5, 2)], "TwoUidDomains 0x30 0x42 0x5"),
    ("a UID in two domains, the first one twice", [uid_domain(5, 0)] * 2 + [uid_domain(5, 1)], "TwoUidDomains 0x30 0x54 0x5"),
    ("a UID in a domain, in another and in the first", [uid_domain(5, domain) for domain in (0, 1, 0)], "TwoUidDomains 0x30 0x42 0x5"),
    (
        "two UIDs in two domains, one within the other", [uid_domain(7, 0), uid_domain(5, 0), uid_domain(5, 1), uid_domain(7, 1)],
        "TwoUidDomains 0x30 0x66 0x7",
    ),
    (
        "two UIDs in two domains, one after the other",
        [uid_domain(1, 0), uid_domain(7, 0), uid_domain(5, 0), uid_domain(5, 1), uid_domain(7, 1)], "TwoUidDomains 0x42 0x78 0x7",
    ),
    ("a UID in two domains, the first one not enabled", [uid_domain(5, 0, 0), uid_domain(5, 1)]),
    ("a UID in two domains, the second one not enabled", [uid_domain(5, 0), uid_domain(5, 1, 2)], "AffinityReserved 0x42 0xa 0x2"),
    (
        "a UID in two domains after one that is not enabled", [uid_domain(5, 0, 0), uid_domain(5, 1), uid_domain(5, 0)],
        "TwoUidDomains 0x42 0x54 0x5",
    ),
    ("two domains, the high bits apart", [uid_domain(5, 0), uid_domain(5, 0x1000000)], "TwoUidDomains 0x30 0x42 0x5"),
    ("two UIDs, the high bits apart", [uid_domain(5, 0), uid_domain(0x1000005, 1)]),
    ("two UIDs of harts, the high bits apart", [hart_domain(5, 0), hart_domain(0x1000005, 1)]),
    ("a UID and an APIC ID", [uid_domain(5, 0), apic_domain(5, 1), x2apic_domain(5, 2)]),
    ("a UID of a hart in two domains", [hart_domain(5, 0), hart_domain(5, 1)], "TwoUidDomains 0x30 0x44 0x5"),
    ("a UID in a domain of a GICC and in one of a hart", [uid_domain(5, 0), hart_domain(5, 1)], "TwoUidDomains 0x30 0x42 0x5"),
    ("a UID in a domain of a hart and in one of a GICC", [hart_domain(5, 0), uid_domain(5, 1)], "TwoUidDomains 0x30 0x44 0x5"),
    ("a UID in one domain of a GICC and of a hart", [uid_domain(5, 1), hart_domain(5, 1)]),
    ("a UID in two domains, that of a hart not enabled", [uid_domain(5, 0), hart_domain(5, 1, 2)], "AffinityReserved 0x42 0xc 0x2"),
    ("a UID in two domains, that of a hart too short", [uid_domain(5, 0), hart_domain(5, 1, length=19)], "SratUnread 0x42 0x7"),
    ("a UID in two domains, that of a hart too long", [uid_domain(5, 0), hart_domain(5, 1, length=21)], "SratUnread 0x42 0x7"),
    ("a UID in two domains, the second entry too short", [uid_domain(5, 0), uid_domain(5, 1, length=17)], "SratUnread 0x42 0x3"),
    ("a UID in two domains, the second entry too long", [uid_domain(5, 0), uid_domain(5, 1, length=19)], "SratUnread 0x42 0x3"),
):
    advised(name, sound(srat_of(*entries)), *advice)


# ---- domains of processors
def domains(name, entries, affinities, *advice):
    """A MADT of these entries, from 0x2C on, and an SRAT of these, from 0x30 on."""
    advised(name, sound(madt_of(*entries), srat_of(*affinities)), *advice)


domains("a processor in a domain", [lapic(0, 6)], [apic_domain(6, 0)])
domains("a processor in a domain, by the longer entry", [lapic(0, 6)], [x2apic_domain(6, 0)])
domains("an x2APIC in a domain, by the shorter entry", [x2apic(0, 6)], [apic_domain(6, 0)])
domains("a processor and nothing in the SRAT", [lapic(0, 6)], [])
domains("a processor and memory", [lapic(0, 6)], [memory(0, 1)])
NOT_ENABLED = [apic_domain(7, 0, 0), x2apic_domain(7, 0, 0), uid_domain(7, 0, 2)]
domains("a processor and an affinity that is not enabled", [lapic(0, 6)], NOT_ENABLED, "AffinityReserved 0x58 0xa 0x2")
domains("an affinity of another processor", [lapic(0, 6)], [apic_domain(7, 0)], "AffinityNowhere 0x30 0x0 0x7", "NoDomain 0x2c 0x0 0x6")
domains(
    "an affinity of a UID that is an APIC ID", [lapic(7, 6)], [apic_domain(7, 0)], "AffinityNowhere 0x30 0x0 0x7", "NoDomain 0x2c 0x0 0x6",
)
domains("a longer affinity of no processor", [lapic(0, 6)], [apic_domain(6, 0), x2apic_domain(0x106, 0)], "AffinityNowhere 0x40 0x0 0x106")
domains("an affinity of a processor that is off", [lapic(0, 6), lapic(1, 7, 0)], [apic_domain(6, 0), apic_domain(7, 0)])
domains("an affinity of no processor that is not enabled", [lapic(0, 6)], [apic_domain(6, 0), apic_domain(7, 0, 0)])
domains("a processor in no domain", [lapic(0, 6), lapic(1, 7)], [apic_domain(6, 0)], "NoDomain 0x34 0x0 0x7")
domains("a processor in no domain that is off", [lapic(0, 6), lapic(1, 7, 0)], [apic_domain(6, 0)])
domains("a processor in no domain that is online capable", [lapic(0, 6), lapic(1, 7, 2)], [apic_domain(6, 0)], "NoDomain 0x34 0x0 0x7")
domains(
    "two processors in no domain, and two affinities of none", [lapic(0, 6), x2apic(1, 9), lapic(2, 8)],
    [memory(0, 1), x2apic_domain(11, 0), apic_domain(6, 0), apic_domain(10, 0)], "AffinityNowhere 0x58 0x0 0xb", "NoDomain 0x34 0x0 0x9",
    "X2ApicBelow255 0x34 0x0 0x9",
)
domains("a GICC in a domain", [gicc(5)], [uid_domain(5, 0)])
domains(
    "a GICC and an affinity of its UID as an APIC ID", [gicc(5)], [apic_domain(5, 0)], "AffinityNowhere 0x30 0x0 0x5",
    "NoDomain 0x2c 0x0 0x5",
)
domains("a GICC in no domain", [gicc(5), gicc(6)], [uid_domain(5, 0)], "NoDomain 0x7c 0x0 0x6")
domains("a GICC in no domain that is off", [gicc(5), gicc(6, 0xFFFFFFF6)], [uid_domain(5, 0)], "FurtherReserved 0x7c 0xc 0xfffffff6")
domains("a GICC in no domain that is online capable", [gicc(5), gicc(6, 8)], [uid_domain(5, 0)], "NoDomain 0x7c 0x0 0x6")
domains("an affinity of a GICC that is off", [gicc(5), gicc(6, 0)], [uid_domain(5, 0), uid_domain(6, 1)])
domains("an affinity of no GICC", [gicc(5)], [uid_domain(5, 0), uid_domain(6, 0)], "AffinityNowhere 0x42 0x0 0x6")
domains("an affinity of the UID of a local APIC", [lapic(5, 9)], [uid_domain(5, 0)], "NoDomain 0x2c 0x0 0x9")
domains(
    "an affinity of the APIC ID of a local APIC as a UID", [lapic(5, 9)], [uid_domain(9, 0)], "AffinityNowhere 0x30 0x0 0x9",
    "NoDomain 0x2c 0x0 0x9",
)
domains("affinities of both kinds", [lapic(5, 9), gicc(7)], [uid_domain(7, 0), apic_domain(9, 0)])
HART_5 = hart_domain(5, 0)
for name, entries, affinities, *advice in (
    ("an RINTC in a domain", [rintc(5)], [HART_5]),
    ("an RINTC in a domain, by the entry of a GICC", [rintc(5)], [uid_domain(5, 0)]),
    ("a GICC in a domain, by the entry of an RINTC", [gicc(5)], [HART_5]),
    ("an RINTC in no domain", [rintc(5), rintc(6)], [HART_5], "NoDomain 0x50 0x0 0x6"),
    ("a usable RINTC in no domain, by bit 1", [rintc(5), rintc(6, 2)], [HART_5], "NoDomain 0x50 0x0 0x6"),
    ("an RINTC in no domain that is off", [rintc(5), rintc(6, 4)], [HART_5], "FurtherReserved 0x50 0x4 0x4"),
    (
        "an RINTC and its affinity, not enabled", [rintc(5), rintc(6)], [HART_5, hart_domain(6, 0, 2)], "NoDomain 0x50 0x0 0x6",
        "AffinityReserved 0x44 0xc 0x2",
    ),
    (
        "an RINTC and its affinity of 21 bytes", [rintc(5), rintc(6)], [HART_5, hart_domain(6, 0, length=21)],
        "NoDomain 0x50 0x0 0x6", "SratUnread 0x44 0x7",
    ),
    ("an RINTC affinity of 21 bytes alone", [rintc(5)], [hart_domain(5, 0, length=21)], "SratUnread 0x30 0x7"),
    ("an affinity of no RINTC", [rintc(5)], [HART_5, hart_domain(6, 0)], "AffinityNowhere 0x44 0x0 0x6"),
    ("an affinity of no RINTC that is not enabled", [rintc(5)], [HART_5, hart_domain(6, 0, 0)]),
    ("an affinity of an RINTC that is off", [rintc(5), rintc(6, 0)], [HART_5, hart_domain(6, 1)]),
    ("an affinity of a hart ID", [rintc(5)], [HART_5, hart_domain(6, 0)], "AffinityNowhere 0x44 0x0 0x6"),
    (
        "an RINTC and an affinity of its UID as an APIC ID", [rintc(5)], [apic_domain(5, 0)], "AffinityNowhere 0x30 0x0 0x5",
        "NoDomain 0x2c 0x0 0x5",
    ),
    ("a CORE PIC in a domain", [core_pic(5, 9)], [apic_domain(9, 0)]),
    ("a CORE PIC in a domain, by the longer entry", [core_pic(5, 0x109)], [x2apic_domain(0x109, 0)]),
    ("a CORE PIC in no domain", [core_pic(5, 9), core_pic(6, 10)], [apic_domain(9, 0)], "NoDomain 0x3b 0x0 0xa"),
    ("a CORE PIC in no domain that is off", [core_pic(5, 9), core_pic(6, 10, 2)], [apic_domain(9, 0)], "FurtherReserved 0x3b 0xb 0x2"),
    ("an affinity of a CORE PIC that is off", [core_pic(5, 9), core_pic(6, 10, 0)], [apic_domain(9, 0), apic_domain(10, 0)]),
    ("an affinity of the UID of a CORE PIC", [core_pic(5, 9)], [HART_5], "NoDomain 0x2c 0x0 0x9"),
    (
        "an affinity of the ID of a CORE PIC as a UID", [core_pic(5, 9)], [hart_domain(9, 0)], "AffinityNowhere 0x30 0x0 0x9",
        "NoDomain 0x2c 0x0 0x9",
    ),
):
    domains(name, entries, affinities, *advice)
domains(
    "an affinity of another processor, and an entry of type 14", [lapic(0, 6), other(14)], [apic_domain(7, 0)],
    "AffinityNowhere 0x30 0x0 0x7", "NoDomain 0x2c 0x0 0x6", "MadtUnread 0x34 0xe",
)
domains("an affinity, and no processor", [], [apic_domain(7, 0)], "NoProcessor", "AffinityNowhere 0x30 0x0 0x7")
advised("an affinity and no MADT", sound(srat_of(apic_domain(7, 0))))
expected("an affinity and a MADT of 43 bytes", sound(table(b"APIC", bytes(7)), srat_of(apic_domain(7, 0))), "no 6 MadtShort")
expected("an affinity and an SRAT of 47 bytes", sound(madt_of(lapic(0, 6)), table(b"SRAT", bytes(11))), "no 9 SratShort")
expected(
    "an affinity that is too long", sound(madt_of(lapic(0, 6)), srat_of(changed(apic_domain(7, 0) + b"\0", {1: 17}))),
    "no 9 SratEntryLength 0x30",
)
expected(
    "a second affinity after the cut", sound(madt_of(lapic(0, 6)), srat_of(apic_domain(6, 0), b"\5\1", apic_domain(7, 0))),
    "no 9 SratEntryCut 0x40",
)


# ---- distances
def localities(name, count, entries, *advice):
    """A SLIT of this many localities, all 20 apart, and an SRAT of these entries, from 0x30 on."""
    advised(name, sound(slit(count, even_cells(count)), srat_of(*entries)), *advice)


localities("the last domain", 2, [apic_domain(0, 1), memory_of(1, 0, 16), x2apic_domain(1, 1), uid_domain(2, 1)])
localities("a processor past the distances", 2, [apic_domain(0, 1), apic_domain(1, 2)], "DomainPastSlit 0x40 0x2 0x2")
localities(
    "a processor far past the distances", 2, [apic_domain(0, 0x10000)], "DomainPastSlit 0x30 0x2 0x10000",
    "DomainPastRevision 0x30 0x1 0x10000",
)
localities("an x2APIC past the distances", 2, [x2apic_domain(0, 2**32 - 1)], "DomainPastSlit 0x30 0x2 0xffffffff")
localities("a GICC past the distances", 2, [uid_domain(0, 5)], "DomainPastSlit 0x30 0x2 0x5")
localities("memory past the distances", 2, [memory_of(3, 0, 16)], "DomainPastSlit 0x30 0x2 0x3")
localities("memory of length 0 past the distances", 2, [memory_of(3)], "DomainPastSlit 0x30 0x2 0x3", "EmptyRange 0x30")
localities(
    "what is not enabled past the distances", 2,
    [memory_of(3, 0, 16, 2), apic_domain(0, 3, 0), x2apic_domain(0, 3, 0), uid_domain(0, 3, 0)],
)
for name, in_domain in (
    ("an ITS", its_domain), ("an initiator", partial(device_domain, 5)), ("a port", partial(device_domain, 6)),
    ("an RINTC", partial(hart_domain, 0)),
):
    alone = ["ItsDomain 0x30 0x2"] if name == "an ITS" else []
    localities(f"{name} in the last domain", 2, [in_domain(1)], *(f"{it} 0x1" for it in alone))
    localities(f"{name} past the distances", 2, [in_domain(2)], "DomainPastSlit 0x30 0x2 0x2", *(f"{it} 0x2" for it in alone))
    far = (f"{it} 0x1000001" for it in alone)
    localities(f"{name} far past the distances", 2, [in_domain(0x1000001)], "DomainPastSlit 0x30 0x2 0x1000001", *far)
    if name != "an ITS":
        advice = ["InitiatorOff 0x30 0x0 0x2"] if name == "an initiator" else []
        flags = f"AffinityReserved 0x30 {0xC if name == 'an RINTC' else 0x18:#x} 0xfffffffe"
        localities(f"{name} past the distances, not enabled", 2, [in_domain(2, 0xFFFFFFFE)], *advice, flags)
for entry in (
    its_domain(2, 11), its_domain(2, 13), device_domain(5, 2, 1, 31), device_domain(5, 2, 1, 33), device_domain(6, 2, 1, 31),
    device_domain(6, 2, 1, 33), hart_domain(0, 2, 1, 19), hart_domain(0, 2, 1, 21),
):
    localities(f"type {entry[0]} of {len(entry)} bytes past the distances", 2, [entry], f"SratUnread 0x30 {entry[0]:#x}")
localities("memory before a processor", 2, [memory_of(0, 0, 16), memory_of(2, 16, 16), apic_domain(0, 3)], "DomainPastSlit 0x58 0x2 0x2")
localities("a processor before memory", 2, [apic_domain(0, 9), memory_of(2, 16, 16)], "DomainPastSlit 0x30 0x2 0x9")
localities("no localities", 0, [apic_domain(0, 0)], "DomainPastSlit 0x30")
localities("no localities and no domains", 0, [])
advised("a SLIT of no localities", sound(slit(0)))
advised("domains and no SLIT", sound(srat_of(apic_domain(0, 9))))
expected("domains, and a SLIT of another size", sound(slit(2, [10, 20, 20]), srat_of(apic_domain(0, 9))), "no 11 SlitSize 0x24")
expected("domains, and a SLIT of 43 bytes", sound(table(b"SLIT", bytes(7)), srat_of(apic_domain(0, 9))), "no 11 SlitShort")
expected(
    "domains, and a SLIT with wrong distances", sound(slit(2, [11, 9, 9, 10]), srat_of(apic_domain(0, 2))), "no 11 SlitDiagonal 0x2c",
    "no 11 SlitLow 0x2d", "advice DomainPastSlit 0x30 0x2 0x2",
)
expected(
    "a memory entry past the distances that is too long", sound(slit(1, [10]), srat_of(changed(memory_of(3) + b"\0", {1: 41}))),
    "no 9 SratEntryLength 0x30",
)
advised("two distances of one pair", sound(slit(2, [10, 20, 21, 10])), "SlitDiffers 0x2d 0x2e")
for changes, *advice in (
    ({},), ({1: 11}, "SlitDiffers 0x2d 0x30"), ({4: 11}, "SlitDiffers 0x2d 0x30"), ({11: 11}, "SlitDiffers 0x37 0x3a"),
    ({14: 255}, "SlitDiffers 0x37 0x3a"), ({14: 11, 9: 11}, "SlitDiffers 0x32 0x35"), ({11: 11, 14: 11},),
):
    advised(f"four localities with the cells {changes}", sound(slit(4, changed(even_cells(4), changes))), *advice)


# ---- the PPTT: leaves
def hierarchy(name, entries, *advice, revision=2, processors=None):
    """A PPTT of these entries, from 0x24 on, and a MADT of these processors, from 0x2C on, where there is one."""
    tables = [pptt(*entries, revision=revision)] + ([] if processors is None else [madt_of(*processors)])
    advised(name, sound(*tables), *advice)


def named(uid, parent=0):
    """A node whose ID is valid: before Revision 2 a leaf, where no node names it as its Parent."""
    return core(uid, parent, IS_ID_VALID)


hierarchy("two leaves", [core(0), core(1)])
hierarchy("two leaves of one ID", [core(3), core(3)], "SameLeaf 0x38 0x24 0x3")
hierarchy("three leaves of one ID", [core(2), core(3), core(3), core(3)], "SameLeaf 0x4c 0x38 0x3")
hierarchy("two IDs of two leaves each", [core(3), core(2), core(2), core(3)], "SameLeaf 0x4c 0x38 0x2")
hierarchy("a leaf and a package of one ID", [core(3, flags=IS_ID_VALID), core(3)], "LeafUnflagged 0x24 0x0 0x3")
hierarchy("a leaf and one whose ID is not valid", [core(3, flags=IS_LEAF), core(3)])
hierarchy("a leaf that is a parent, by its flags", [core(3), core(3, parent=36)], "SameLeaf 0x38 0x24 0x3", "LeafAsParent 0x24 0x38")
for revision in (0, 1):
    two_nodes = [named(3), named(3)]
    hierarchy(f"two nodes of Revision {revision} and of one ID", two_nodes, "SameLeaf 0x38 0x24 0x3", revision=revision)
for revision in (2, 3, 255):
    two_nodes = [named(3), named(3)]
    hierarchy(f"two nodes of Revision {revision} and of one ID", two_nodes, "LeafUnflagged 0x24 0x0 0x3", revision=revision)
hierarchy("a parent and its node of one ID", [named(3), named(3, 36)], revision=1)
hierarchy("a parent and its node of one ID, with the flag of a leaf", [core(3), core(3, parent=36)], revision=1)
hierarchy("two nodes under one that has their ID", [named(3), named(3, 36), named(3, 36)], "SameLeaf 0x4c 0x38 0x3", revision=1)
hierarchy("nodes of Revision 1 whose ID is not valid", [core(3, flags=0), core(3, flags=IS_LEAF)], revision=1)
hierarchy("a parent of a node whose ID is not valid", [named(3), named(3), core(0, parent=36, flags=0)], revision=1)
expected(
    "a node that is its own parent is no leaf of Revision 1", sound(pptt(named(3, 36), named(3), revision=1)),
    "no 14 ParentCycle 0x24 0x0 0x1",
)
expected(
    "two nodes of one ID are no leaves of Revision 1 beside one of a wrong length",
    sound(pptt(named(3), named(3), node(36, length=24) + bytes(4), revision=1)), "no 12 PpttEntryLength 0x4c",
)
expected("a second leaf of one ID after the cut", sound(pptt(core(3), b"\1\1", core(3))), "no 12 PpttEntryCut 0x38")
TWO_PROCESSORS = (lapic(0, 0), lapic(1, 1))
hierarchy("a leaf of each processor", [core(1), core(0)], processors=TWO_PROCESSORS)
hierarchy("a processor that is no leaf", [core(0)], "NoLeaf 0x34 0x0 0x1", processors=TWO_PROCESSORS)
hierarchy("two processors that are no leaf", [core(2)], "NoLeaf 0x2c", processors=(*TWO_PROCESSORS, lapic(2, 2)))
hierarchy("a processor that is no leaf, and is off", [core(0)], processors=(lapic(0, 0), lapic(1, 1, 0)))
hierarchy("a processor that is no leaf, and is online capable", [core(0)], "NoLeaf 0x34 0x0 0x1", processors=(lapic(0, 0), lapic(1, 1, 2)))
hierarchy("an x2APIC that is no leaf", [core(0)], "NoLeaf 0x34 0x0 0x100", processors=(lapic(0, 0), x2apic(0x100, 0x101)))
hierarchy("a processor whose APIC ID is that of a leaf", [core(0)], "NoLeaf 0x34 0x0 0x5", processors=(lapic(0, 1), lapic(5, 0)))
hierarchy("processors, and no leaf", [named(0), shaped_cache(0)], "NoLeaf 0x2c", "LeafUnflagged 0x24", processors=TWO_PROCESSORS)
hierarchy("processors, and a node of Revision 1 that is no leaf", [node()], "NoLeaf 0x2c", processors=TWO_PROCESSORS, revision=1)
hierarchy("processors, and no node", [shaped_cache(0), other(2, 20)], "PpttUnread 0x40 0x2", processors=TWO_PROCESSORS)
hierarchy("processors, and a PPTT without entries", [], processors=TWO_PROCESSORS)
ANOTHER_ENTRY = [core(0), other(2)]
hierarchy(
    "a processor that is no leaf, and another entry", ANOTHER_ENTRY, "NoLeaf 0x34 0x0 0x1", "PpttUnread 0x38 0x2",
    processors=TWO_PROCESSORS,
)
hierarchy("a processor that is no leaf, and a node of Revision 1", [named(0)], "NoLeaf 0x34 0x0 0x1", processors=TWO_PROCESSORS, revision=1)
hierarchy("processors that are parents in Revision 1", [named(0), named(1, 36)], "NoLeaf 0x2c", processors=TWO_PROCESSORS, revision=1)
for name, entries, *advice in (
    ("a GICC that is no leaf, and is online capable", (gicc(0), gicc(6, 8)), "NoLeaf 0x7c 0x0 0x6"),
    ("an RINTC that is no leaf", (rintc(0), rintc(6)), "NoLeaf 0x50 0x0 0x6"),
    ("an RINTC that is no leaf, and is usable by bit 1", (rintc(0), rintc(6, 2)), "NoLeaf 0x50 0x0 0x6"),
    ("an RINTC that is no leaf, and is off", (rintc(0), rintc(6, 4)), "FurtherReserved 0x50 0x4 0x4"),
    ("a CORE PIC that is no leaf", (core_pic(0, 1), core_pic(6, 0)), "NoLeaf 0x3b 0x0 0x6"),
    ("a CORE PIC that is no leaf, and is off", (core_pic(0, 1), core_pic(6, 0, 2)), "FurtherReserved 0x3b 0xb 0x2"),
):
    hierarchy(name, [core(0)], *advice, processors=entries)
hierarchy("leaves, and no MADT", [core(0), core(9)])

# ---- the PPTT: leaves of processors that stage 18 does not know
hierarchy("a leaf of each GICC", [core(7), core(6)], processors=(gicc(6), gicc(7)))
hierarchy("a leaf of no GICC", [core(6), core(9), core(8)], "LeafNowhere 0x38 0x0 0x9", processors=[gicc(6)])
hierarchy("a GICC that is no leaf, and a leaf of none", [core(9)], "NoLeaf 0x2c 0x0 0x6", "LeafNowhere 0x24 0x0 0x9", processors=[gicc(6)])
hierarchy("a leaf of a GICC that is off", [core(6), core(9)], processors=(gicc(6), gicc(9, 0)))
hierarchy("a leaf of a local APIC beside a GICC", [core(6), core(9)], processors=(gicc(6), lapic(9, 0)))
hierarchy("a leaf of no GICC, which are off", [core(9)], "NoProcessor", "LeafNowhere 0x24 0x0 0x9", processors=[gicc(6, 0)])
OF_40 = [gicc(6, length=40)]
hierarchy("a leaf of no GICC of 40 bytes", [core(6), core(9)], "LeafNowhere 0x38 0x0 0x9", "GiccShort 0x2c 0x4c 0x28", processors=OF_40)
hierarchy("a leaf of no GICC, one of them too short", [core(6), core(9)], "MadtUnread 0x7c 0xb", processors=(gicc(6), gicc(9, length=39)))
for name, processor in (("an RINTC", rintc(6)), ("an RINTC of 20 bytes", rintc(6, length=20)), ("a CORE PIC", core_pic(6, 9))):
    hierarchy(f"a leaf of {name}", [core(6)], processors=[processor])
    hierarchy(f"a leaf of none beside {name}", [core(6), core(9)], "LeafNowhere 0x38 0x0 0x9", processors=[processor])
    hierarchy(f"a leaf of a local APIC beside {name}", [core(6), core(9)], processors=(processor, lapic(9, 0)))
for processor in (rintc(6, 0), core_pic(6, 9, 0)):
    name = f"a leaf of none beside type {processor[0]} that is off"
    hierarchy(name, [core(9)], "NoProcessor", "LeafNowhere 0x24 0x0 0x9", processors=[processor])
for processor in (rintc(6, length=19), core_pic(6, 9, length=14), core_pic(6, 9, length=16)):
    name = f"a leaf of none beside type {processor[0]} of {len(processor)} bytes"
    hierarchy(name, [core(6), core(9)], f"MadtUnread 0x2c {processor[0]:#x}", processors=[processor])
hierarchy("a leaf of no GICC, in Revision 1", [named(6), named(9)], "LeafNowhere 0x38 0x0 0x9", processors=[gicc(6)], revision=1)
hierarchy("an ID of a node that is no leaf, and of no GICC", [core(6), named(9)], "LeafUnflagged 0x38 0x0 0x9", processors=[gicc(6)])
expected("a leaf of no local APIC", sound(pptt(core(0), core(9)), madt_of(lapic(0, 0))), "no 18 LeafUnknown 0x38 0x0 0x9")
hierarchy("a leaf of no local APIC, and a distributor", [core(0), core(9)], processors=(lapic(0, 0), gicd()))

# ---- what is nowhere, and processors that no rule reads
for kind, read, unread in ((7, (), (2, 8, 255)), (11, (40,), (2, 39)), (17, (15,), (2, 14, 16, 255)), (24, (20, 255), (2, 19))):
    for length in (*read, *unread):
        entry = blank(kind, length)
        for name, at, tables, *advice in (
            ("a local APIC NMI of no processor", 0x3A, [madt_of(ON, lapic_nmi(48, 1), entry)], "NmiNowhere 0x34 0x0 0x30"),
            ("no processor that is on", 0x34, [madt_of(lapic(0, 0, 0), entry)], "NoProcessor"),
            (
                "an affinity of another processor", 0x34, [madt_of(lapic(0, 6), entry), srat_of(apic_domain(7, 0))],
                "AffinityNowhere 0x30 0x0 0x7", "NoDomain 0x2c 0x0 0x6",
            ),
            ("a processor that is no leaf", 0x3C, [madt_of(*TWO_PROCESSORS, entry), pptt(core(0))], "NoLeaf 0x34 0x0 0x1"),
            ("a leaf of no GICC", 0x7C, [madt_of(gicc(6), entry), pptt(core(6), core(9))], "LeafNowhere 0x38 0x0 0x9"),
        ):
            short = [f"GiccShort {at:#x} 0x4c 0x28"] if kind == 11 else []
            advice = [*advice, *short] if length in read else [f"MadtUnread {at:#x} {kind:#x}"]
            advised(f"{name}, and an entry of type {kind} and length {length}", sound(*tables), *advice)

# ---- what is sought in a table that has a cut, or a wrong length, after its last entry: it may be there, and nothing is told
THREE_AFFINITIES = [apic_domain(0, 0), apic_domain(1, 0), apic_domain(7, 0)]
for what, tail, fault in (
    ("nothing", b"", ""), ("a cut", b"\0\0" + other(7), "EntryCut"), ("a wrong length", other(1, 13), "EntryLength"),
):
    two, two_and_more, arm = madt_of(*TWO_PROCESSORS), madt_of(*TWO_PROCESSORS, tail), madt_of(gicc(6))
    for is_told, stage, signature, at, name, tables, advice in (
        (False, 6, "MADT", 0x3A, "a local NMI of no processor", [madt_of(ON, lapic_nmi(48, 1), tail)], "NmiNowhere 0x34 0x0 0x30"),
        (False, 6, "MADT", 0x34, "no processor that is on", [madt_of(lapic(0, 0, 0), tail)], "NoProcessor"),
        (False, 6, "MADT", 0x3C, "an affinity of none", [two_and_more, srat_of(*THREE_AFFINITIES)], "AffinityNowhere 0x50 0x0 0x7"),
        (False, 6, "MADT", 0x7C, "a leaf of no GICC", [madt_of(gicc(6), tail), pptt(core(6), core(9))], "LeafNowhere 0x38 0x0 0x9"),
        (False, 9, "SRAT", 0x40, "a processor in no domain", [two, srat_of(apic_domain(0, 0), tail)], "NoDomain 0x34 0x0 0x1"),
        (False, 12, "PPTT", 0x38, "a processor that is no leaf", [two, pptt(core(0), tail)], "NoLeaf 0x34 0x0 0x1"),
        # in Revision 1 a leaf is a node that no other one names
        (False, 12, "PPTT", 0x4C, "two leaves", [pptt(named(3), named(3), tail, revision=1)], "SameLeaf 0x38 0x24 0x3"),
        (False, 12, "PPTT", 0x4C, "a leaf of none", [arm, pptt(named(6), named(9), tail, revision=1)], "LeafNowhere 0x38 0x0 0x9"),
        # what is sought in another table is told, and what this one has
        (True, 6, "MADT", 0x3C, "one UID twice", [madt_of(lapic(1, 0), lapic(1, 1), tail)], "SameUid 0x34 0x2c 0x1"),
        (True, 6, "MADT", 0x3C, "a processor in no domain", [two_and_more, srat_of(apic_domain(0, 0))], "NoDomain 0x34 0x0 0x1"),
        (True, 6, "MADT", 0x3C, "a processor that is no leaf", [two_and_more, pptt(core(0))], "NoLeaf 0x34 0x0 0x1"),
        (True, 9, "SRAT", 0x60, "an affinity of none", [two, srat_of(*THREE_AFFINITIES, tail)], "AffinityNowhere 0x50 0x0 0x7"),
        (True, 9, "SRAT", 0x54, "two domains", [srat_of(uid_domain(5, 0), uid_domain(5, 1), tail)], "TwoUidDomains 0x30 0x42 0x5"),
        (True, 12, "PPTT", 0x4C, "a leaf of none of Revision 2", [arm, pptt(core(6), core(9), tail)], "LeafNowhere 0x38 0x0 0x9"),
        (True, 12, "PPTT", 0x4C, "two leaves of Revision 2", [pptt(core(3), core(3), tail)], "SameLeaf 0x38 0x24 0x3"),
    ):
        first_line = f"no {stage} {signature.title()}{fault} {at:#x}" if fault else "yes"
        told = [f"advice {advice}"] if is_told or not fault else []
        expected(f"{name}, and {what} at {at:#x} of the {signature}", sound(*tables), first_line, *told)


# ---- the PPTT: caches
def caches(name, entries, *advice, revision=3):
    advised(name, sound(pptt(*entries, revision=revision)), *advice)


caches("a cache of no sets", [shaped_cache(SETS_VALID, sets=0)], "CacheShape 0x24")
caches("a cache of no sets, of 24 bytes", [shaped_cache(SETS_VALID, sets=0, length=24)], "CacheShape 0x24", revision=1)
caches("a cache of one set", [shaped_cache(SETS_VALID, sets=1)])
caches("a cache of three sets", [shaped_cache(SETS_VALID | LINE_VALID, sets=3)])
caches("a cache of 2^24 sets", [shaped_cache(SETS_VALID, sets=1 << 24)])
caches("a cache of no sets, which are not valid", [shaped_cache(0xFF ^ SETS_VALID, sets=0, cache_id=1)])
for line in (0, 3, 6, 63, 65, 96, 0x8001, 0xFFFF):
    caches(f"a line of {line} bytes", [shaped_cache(LINE_VALID, line=line)], "CacheShape 0x24")
for line in (1, 2, 64, 256, 0x8000):
    caches(f"a line of {line} bytes", [shaped_cache(LINE_VALID, line=line)])
caches("a line of 96 bytes, which is not valid", [shaped_cache(0xFF ^ LINE_VALID, line=96, cache_id=1)])
caches("a line of 96 bytes, of 24 bytes", [shaped_cache(LINE_VALID, line=96, length=24)], "CacheShape 0x24")
THREE_CACHES = [shaped_cache(0x7F), shaped_cache(LINE_VALID, line=0), shaped_cache(SETS_VALID, sets=0)]
caches("the second and the third cache", THREE_CACHES, "CacheShape 0x40")
expected(
    "a cache of no sets that is too long",
    sound(pptt(shaped_cache(SETS_VALID, sets=0)[:1] + b"\x1d" + shaped_cache(SETS_VALID, sets=0)[2:] + b"\0")),
    "no 12 PpttEntryLength 0x24",
)

ID_5 = shaped_cache(CACHE_ID_VALID, cache_id=5)
caches("two Cache IDs", [ID_5, shaped_cache(CACHE_ID_VALID, cache_id=6)])
caches("one Cache ID twice", [ID_5, ID_5], "SameCacheId 0x40 0x24 0x5")
caches("one Cache ID three times", [shaped_cache(CACHE_ID_VALID, cache_id=1), ID_5, ID_5, ID_5], "SameCacheId 0x5c 0x40 0x5")
caches("one Cache ID twice, in Revision 2", [ID_5, ID_5], revision=2)
caches("one Cache ID twice, in Revision 4", [ID_5, ID_5], "SameCacheId 0x40 0x24 0x5", revision=4)
caches("one Cache ID twice, one of them not valid", [ID_5, shaped_cache(0x7F, cache_id=5)])
caches("one Cache ID twice, after one that is not valid", [shaped_cache(0x7F, cache_id=5), ID_5, ID_5], "SameCacheId 0x5c 0x40 0x5")
caches("the Cache ID 0 twice", [shaped_cache(CACHE_ID_VALID)] * 2, "SameCacheId 0x40 0x24", "CacheIdZero 0x24 0x18")
caches("caches of 24 bytes with the flag of a Cache ID", [shaped_cache(CACHE_ID_VALID, length=24)] * 2)
caches("a Cache ID and a cache of 24 bytes", [shaped_cache(CACHE_ID_VALID, length=24), ID_5, ID_5], "SameCacheId 0x58 0x3c 0x5")

# ---- entries that nothing reads
for kind in (0, 1, 2, 3, 4, 5, 9, 10):
    # of a length that is none of their type: there may be a usable processor
    expected(f"an entry of type {kind} of 200 bytes", sound(madt_of(lapic(0, 0, 0), other(kind, 200))), "no 6 MadtEntryLength 0x34")
for kind, read, unread in (
    (11, (40, 80, 255), (2, 39)), (12, (24,), (2, 16, 20, 23, 25)), (13, (24,), (2, 16, 20, 23, 25)), (14, (16,), (2, 15, 17, 20, 24)),
    (15, (20,), (2, 16, 19, 21, 24)), (16, (16, 24), (2, 15, 17, 20, 23, 25)), (17, (15,), (2, 14, 16)), (18, (23,), (2, 22, 24)),
    (19, (21,), (2, 20, 22)), (20, (13,), (2, 12, 14)), (21, (19,), (2, 18, 20)), (22, (17,), (2, 16, 18)), (23, (14,), (2, 13, 15)),
    (24, (20, 36, 255), (2, 19)), (25, (16,), (2, 15, 17)), (26, (36,), (2, 35, 37)), (27, (36,), (2, 35, 37)),
    *((kind, (), (2, 16, 20, 24)) for kind in (6, 7, 8, 28, 29, 30, 128, 255)),
):
    for length in (*read, *unread):
        advice = ["GicrEmpty 0x34"] if kind == 14 else ["GiccShort 0x34 0x4c 0x28"] if (kind, length) == (11, 40) else []
        wakeup = [f"WakeupMailbox 0x34 0x10 {length:#x}"] if kind == 16 else []
        advice = advice if length in read else [f"MadtUnread 0x34 {kind:#x}", *wakeup]
        processors(f"an entry of type {kind} and length {length}", [ON, blank(kind, length)], *advice)
FOUR_OTHERS = [ON, gicc(1), *map(other, range(13, 17))]
processors("entries of types 13 to 16", FOUR_OTHERS, "MadtUnread 0x84 0xd", "WakeupMailbox 0x9c 0x10 0x8")
processors("an entry of type 11 of 39 bytes before others", [ON, gicc(1, length=39), other(13)], "MadtUnread 0x34 0xb")
expected("an entry of type 13 after the cut", sound(madt_of(ON, b"\1\1", other(13))), "no 6 MadtEntryCut 0x34")
for kind in (0, 1, 2):
    tables = madt_of(*TWO_PROCESSORS), srat_of(apic_domain(0, 0), other(kind, 200))
    expected(f"an SRAT entry of type {kind} of 200 bytes", sound(*tables), "no 9 SratEntryLength 0x40")
for kind in (0, 1):
    tables = madt_of(*TWO_PROCESSORS), pptt(core(0), other(kind, 200))
    expected(f"a PPTT entry of type {kind} of 200 bytes", sound(*tables), "no 12 PpttEntryLength 0x38")
for kind, right in ((3, 18), (4, 12), (5, 32), (6, 32), (7, 20), (8, None), (255, None)):
    for length in (2, 12, 20) if right is None else (2, right - 1, right, right + 1):
        advice = ["InitiatorOff 0x58"] if kind == 5 else []
        advice = advice if length == right else [f"SratUnread 0x58 {kind:#x}"]
        advised(f"an SRAT entry of type {kind} of {length} bytes", sound(srat_of(memory(0, 1), other(kind, length))), *advice)
SHORT_ENTRIES = srat_of(uid_domain(1, 1), *map(other, (5, 3, 4)))
advised("a GICC affinity, and entries of types 5, 3 and 4 of 8 bytes", sound(SHORT_ENTRIES), "SratUnread 0x42 0x5")

# ---- many faults
expected(
    "a fault in each of four tables",
    image_of(
        sound_full_fadt(_89=b"\1"), madt_of(ON, SERVED, io_apic(0xFEC10000, 20, 1)), srat_of(memory(0, 0x2000), memory(0x1000, 0x1000)),
        slit(2, [10, 9, 9, 10]), others={FACS_AT: facs()},
    ),
    "no 4 PmControlLength 0x59", "no 7 GsiClash 0x34 0x40 0x14", "no 10 Overlap 0x30 0x58 0x1000", "no 11 SlitLow 0x2d",
)
expected(
    "an RSDP, a root and tables of which none sums to 0",
    {
        RSDP_AT: changed(rsdp(), {8: 0}),
        RSDT_AT: changed(rsdt(0x2000, 0x3000), {9: 0}),
        0x2000: changed(sound_full_fadt(facs=0x7004, _80=b"\1", _84=b"\5", _88=b"\3", _91=b"\3", _92=b"\1\1\4"), {9: 0}),
        0x3000: changed(madt_of(lapic(0, 0, 0)), {9: 0}),
        0x7004: b"FACT\x3f\0\0\0",
    },
    "no 1 RsdpSum 0xe0000", "no 2 RootSum 0x1000", "no 3 TableSum 0x0 0x2000", "no 4 PmEventLength 0x58", "no 4 PmTimerLength 0x5b",
    "no 4 GpeLength 0x5c", "no 5 FacsAlign 0x7004", "no 5 FacsSignature 0x7004", "no 5 FacsLength 0x7004", "advice NoProcessor",
)
# A set of many faults, whose tables of entries have no cut and no wrong length, and what makes one of each in three of them.
MANY_FAULTS = {
    RSDP_AT: changed(extended_rsdp(), {0: ord("X")}),
    XSDT_AT: changed(xsdt(0x2000, 0x3000, 0x4000, 0x5000, 0x6000, 0x8000, 0x9000, 0xA000, 0xB000, 0xC000, 0xD000, 0x2000), {9: 0}),
    0x2000: revised(
        full_fadt(
            length=244, _40=number(0xA020000, 4), _46=number(200, 2), _56=number(0x600, 4), _88=b"\3", _89=b"\1", _91=b"\3\1",
            _112=number(RESET_REG_SUP, 4), _132=number(0x7004, 8), _140=number(0xA010000, 8), _148=generic_address(0x604),
        ),
        6,
    ),
    0x3000: madt_of(
        io_apic(0, 0, 0),  # 0x2C, serves 0 to 23
        io_apic(0xFEC00000, 20, 0),  # 0x38, serves 20 to 43
        io_apic(0xFEC00000, 0xFFFFFFF0, 1),  # 0x44
        override(5, 5),  # 0x50
        override(5, 9, 2, bus=1),  # 0x5A
        lapic_address(0xFEE00000),  # 0x64
        lapic_address(0xFEE00000),  # 0x70
        nmi_source(50),  # 0x7C
        lapic(1, 1),  # 0x84
        lapic(1, 1),  # 0x8C
        gicc(7),  # 0x94
        lapic_nmi(9, 0),  # 0xE4
        gicd(),  # 0xEA
        gicd(),  # 0x102
        other(13),  # 0x11A
    ),
    0x4000: srat_of(
        apic_domain(1, 0),  # 0x30
        x2apic_domain(1, 1),  # 0x40
        uid_domain(5, 0),  # 0x58
        uid_domain(5, 1),  # 0x6A
        memory(0x1000, 0x2000),  # 0x7C
        memory_of(9, 0x2000, 0x1000),  # 0xA4
        memory(0xFFFFFFFFFFFFF000, 0x1001),  # 0xCC
        other(5),  # 0xF4
    ),
    0x5000: slit(2, [11, 9, 20, 10]),
    0x6000: pptt(
        node(81, resources=[36]),  # 0x24
        node(60),  # 0x3C, its own parent
        core(8),  # 0x50
        core(8),  # 0x64
        shaped_cache(SETS_VALID | CACHE_ID_VALID, sets=0, cache_id=4),  # 0x78
        shaped_cache(CACHE_ID_VALID, cache_id=4),  # 0x94
        cache(176),  # 0xB0, its own next level
        cache(1),  # 0xC8
        revision=3,
    ),
    0x7004: b"FACT\x3f\0\0\0",
    0x9000: changed(hpet(), {4: 35}),
    0xA000: hpet()[:55],
    0xB000: changed(hpet(), {9: 0}),
    0xC000: srat_of(),
    0xD000: DSDT,
}
TAILS = {
    0x3000: changed(lapic(7, 7), {1: 7})[:7] + b"\7\0",  # 0x122, 0x129
    0x4000: other(2, 12) + bytes(1),  # 0xFC, 0x108
    0x6000: other(0, 16) + bytes(1),  # 0xE0, 0xF0
}
FOUND_IN_MANY = (
    "no 1 RsdpSignature 0xe0000", "no 1 RsdpSum 0xe0000", "no 1 RsdpExtendedSum 0xe0000", "no 2 RootSum 0x1100",
    "no 3 TableHeaderOut 0x5 0x8000", "no 3 TableLength 0x6 0x9000", "no 3 TableOut 0x7 0xa000", "no 3 TableSum 0x8 0xb000",
    "no 4 PmEventLength 0x58", "no 4 PmControlLength 0x59", "no 4 PmTimerLength 0x5b", "no 4 GpeLength 0x5c", "no 4 ResetRegister 0x74",
    "no 5 FacsAlign 0x7004", "no 5 FacsSignature 0x7004", "no 5 FacsLength 0x7004", "no 6 MadtEntryCut 0x129", "no 6 MadtEntryLength 0x122",
    "no 6 OverrideBus 0x5a", "no 6 ReservedInti 0x5a", "no 6 SecondAddressOverride 0x70 0x64", "no 6 GsiPastEnd 0x44",
    "no 7 GsiClash 0x2c 0x38 0x14", "no 8 OverrideClash 0x5a 0x50 0x5", "no 9 SratEntryCut 0x108", "no 9 SratEntryLength 0xfc",
    "no 9 RangePastEnd 0xcc", "no 10 Overlap 0x7c 0xa4 0x2000", "no 11 SlitDiagonal 0x2c", "no 11 SlitLow 0x2d", "no 12 PpttEntryCut 0xf0",
    "no 12 PpttEntryLength 0xe0", "no 13 DanglingParent 0x24 0x51", "no 13 DanglingResource 0x24 0x0 0x24", "no 13 DanglingCache 0xc8 0x1",
    "no 14 ParentCycle 0x3c 0x0 0x1", "no 15 CacheCycle 0xb0 0x0 0x1", "no 16 TwoDomains 0x40 0x30 0x1", "no 17 GsiNowhere 0x7c 0x0 0x32",
    "advice ListedTwice 0xb 0x0 0x2000", "advice SecondTable 0x9 0x2 0xc000", "advice ListedApart 0xa 0x0 0xd000",
    "advice FadtOfRevision 0x4 0xf4 0x114", "advice FacsDiffers 0x24 0x7000 0x7004", "advice DsdtDiffers 0x28 0xa020000 0xa010000",
    "advice BlockDiffers 0x38 0x600 0x604", "advice SciNowhere 0x2e 0x0 0xc8", "advice SameUid 0x8c 0x84 0x1",
    "advice SameApicId 0x8c 0x84 0x1", "advice IoApicAtZero 0x2c", "advice SameIoApicId 0x38 0x2c",
    "advice SameIoApicAddress 0x44 0x38 0xfec00000", "advice NmiNowhere 0xe4 0x0 0x9", "advice SecondGicd 0x102 0xea",
    "advice TwoUidDomains 0x58 0x6a 0x5", "advice AffinityNowhere 0x58 0x0 0x5", "advice NoDomain 0x94 0x0 0x7",
    "advice DomainPastSlit 0xa4 0x2 0x9", "advice SlitDiffers 0x2d 0x2e", "advice SameLeaf 0x64 0x50 0x8", "advice CacheShape 0x78",
    "advice SameCacheId 0x94 0x78 0x4", "advice NoLeaf 0x84 0x0 0x1", "advice LeafNowhere 0x50 0x0 0x8", "advice MadtUnread 0x11a 0xd",
    "advice SratUnread 0xf4 0x5", "advice NoPm1Block 0x40", "advice BlockWidth 0x38 0x18 0x20", "advice HalfBlock 0x4c 0x3",
    "advice ResetNowhere 0x74", "advice FadtForArch 0x70", "advice LintNotOne 0xe4", "advice GicOverlap 0xea 0x102", "advice NoGtdt 0x0",
)
# What is not told where a table in which it is sought has a cut or a wrong length.
SOUGHT = ("SciNowhere", "NmiNowhere", "AffinityNowhere", "NoDomain", "NoLeaf", "LeafNowhere", "NoGtdt")
expected(
    "33 faults, and each of the first rules of advice but NoProcessor", MANY_FAULTS,
    *(line for line in FOUND_IN_MANY if "Entry" not in line),
)
expected(
    "39 faults, and of these rules those on what is in a table",
    {**MANY_FAULTS, **{at: table(it[:4], it[36:] + TAILS[at], it[8]) for at, it in MANY_FAULTS.items() if at in TAILS}},
    *(line for line in FOUND_IN_MANY if line.split()[1] not in SOUGHT),
)
# The same set with more mistakes, on which there is as much advice as there can well be.
MOST = {
    **MANY_FAULTS,
    RSDP_AT: changed(MANY_FAULTS[RSDP_AT], {9: 0x1F, 33: 1}),
    RSDT_AT: rsdt(0x2000),
    XSDT_AT: changed(
        xsdt(
            *(0x1000 * place for place in (2, 3, 4, 5, 6, 8, 9, 10, 11, 12, 13)), 0, 0xE000, 0xF000, 0xE024, 0x2000, 0x10000, 0x11000,
            0x12000, 0x13000, 0x14000,
        ),
        {8: 2, 9: 0},
    ),
    0x2000: revised(
        full_fadt(
            length=244, _40=number(0xA020000, 4), _44=b"\2", _46=number(200, 2), _48=number(0x10000, 4), _56=number(0x600, 4),
            _60=number(0x606, 4), _80=number(0x620, 4), _84=number(0x630, 4), _88=b"\3", _89=b"\1", _91=b"\3\1\1",
            _112=number(RESET_REG_SUP, 4), _132=number(0x7004, 8), _140=number(0xA010000, 8), _148=generic_address(0x604),
            _232=generic_address(0x630, 2),
        ),
        6,
    ),
    0x3000: madt(
        io_apic(0, 0, 0),  # 0x2C, serves 0 to 23
        io_apic(0xFEC00000, 20, 0),  # 0x38, serves 20 to 43
        io_apic(0xFEC00000, 0xFFFFFFF0, 1),  # 0x44
        override(5, 5),  # 0x50
        override(5, 9, 2, bus=1),  # 0x5A
        override(0, 9, 0xC),  # 0x64
        override(16, 2),  # 0x6E
        lapic_address(0xFEE00000),  # 0x78
        lapic_address(0),  # 0x84
        nmi_source(50),  # 0x90
        lapic(1, 1),  # 0x98
        lapic(1, 1, 3),  # 0xA0
        lapic(2, 255, 2),  # 0xA8
        x2apic(3, 3, 5),  # 0xB0
        lapic_nmi(9, 0),  # 0xC0
        distributor(3),  # 0xC6
        distributor(3),  # 0xDE
        placed(cpu(gicr=0x5000, mpidr=1 << 24), _78=b"\x20"),  # 0xF6
        placed(cpu(gicr=0x5000, mpidr=1 << 24), _3=b"\1", _40=b"\1"),  # 0x146
        redistributor(0x100000, 0),  # 0x196
        its(1, 1 << 20),  # 0x1A6
        its(1, 1 << 30),  # 0x1BA
        frame(1, 1 << 31),  # 0x1CE
        frame(1, 1 << 32),  # 0x1E6
        hart(5),  # 0x1FE
        hart(5),  # 0x222
        other(13),  # 0x246
        other(16),  # 0x24E
        other(18, 23),  # 0x256
        cpu(gicr=0x5000, mpidr=1 << 32, length=75),  # 0x26D
    ),
    0x4000: srat(
        apic_domain(1, 0),  # 0x30
        x2apic_domain(1, 1),  # 0x40
        uid_domain(5, 0),  # 0x58
        uid_domain(5, 1),  # 0x6A
        memory(0x1000, 0x2000),  # 0x7C
        memory_of(256, 0x2000, 0x1000),  # 0xA4
        memory(0xFFFFFFFFFFFFF000, 0x1001, reserved=1),  # 0xCC
        memory(0x9000, 0),  # 0xF4
        of_its(6),  # 0x11C
        placed(device_domain(5, 0, 4), _3=b"\2"),  # 0x128
        other(5),  # 0x148
    ),
    0x5000: slit(3, [11, 9, 20, 10, 10, 10, 20, 10, 10]),
    0x6000: pptt(
        node(81, resources=[36]),  # 0x24
        node(60),  # 0x3C, its own parent
        leaf(8),  # 0x50
        leaf(8),  # 0x64
        node(80, IS_ID_VALID, 9, reserved=1),  # 0x78, whose parent is a leaf
        shaped_cache(SETS_VALID | CACHE_ID_VALID, sets=0, cache_id=4),  # 0x8C
        cache(0, 28, CACHE_ID_VALID | 1, cache_id=4),  # 0xA8
        cache(196),  # 0xC4, its own next level
        cache(1),  # 0xDC
        other(2),  # 0xF4
        cache(0, 28, CACHE_ID_VALID),  # 0xFC
        node(resources=[308, 332]),  # 0x118
        cache(flags=16),  # 0x134
        cache(flags=16),  # 0x14C
        revision=3,
    ),
    0xE000: changed(table(b"MCFG", table(b"DATA", bytes(8))), {10: 0x7F}, (9, 80)),
    0xF000: table(b"MCFG", b""),
    0x10000: spcr(4, 88, _40=generic_address(1, 2), _52=b"\1\0", _58=b"\1", _64=b"\0\0\xff\xff", _84=bytes(4)),
    0x11000: hmat(
        speeds((0, 0), (1,), (0xFFFE, 1), 0x10003, kind=6, flags=4),  # 0x28
        speeds(unit=0),  # 0x58
        side_cache(0, 4),  # 0x82
        proximity(length=39),  # 0xA2
        b"\1",  # 0xC9
        revision=3,
    ),
    0x12000: gtdt(
        timer_block(timer_frame(8, gsiv=31), timer_frame(8)),  # 0x68
        timer_block(length=19),  # 0xCC
        watchdog(length=27),  # 0xDF
        of_gtdt(2, 4),  # 0xFA
        _48=number(1, 4), _56=bytes(4), _64=bytes(4), _96=number(26, 4),
    ),
    0x13000: dmar(
        drhd(scope(3, 2), scope(3, 2), base=0x2000, flags=1),  # 0x30
        drhd(base=0x2000, flags=1),  # 0x50
        drhd(base=1),  # 0x60
        rmrr(limit=0x1000),  # 0x70
        rhsa(),  # 0x88
        rhsa(),  # 0x9C
        andd(1, b"A"),  # 0xB0
        satc(scope(6), b"\1"),  # 0xB9
        of_dmar(0, 15),  # 0xCA
        b"\1",  # 0xD9
        width=10,
    ),
    0x14000: ivrs(
        ivhd(device_entry(4), special(0, 3), special(0, 3), base=0x1000),  # 0x30
        ivhd(b"\1", base=0x2000),  # 0x5C
        ivmd(size=0),  # 0x75
        of_ivrs(0x40, 39),  # 0x95
        b"\1",  # 0xBC
    ),
    0xA010000: table(b"SSDT", b""),
}
expected(
    "more than a hundred findings", MOST,
    "no 1 RsdpSignature 0xe0000", "no 1 RsdpSum 0xe0000", "no 1 RsdpExtendedSum 0xe0000", "no 2 RootSum 0x1100",
    "no 3 TableHeaderOut 0x5 0x8000", "no 3 TableLength 0x6 0x9000", "no 3 TableOut 0x7 0xa000", "no 3 TableSum 0x8 0xb000",
    "no 4 PmEventLength 0x58", "no 4 PmControlLength 0x59", "no 4 PmTimerLength 0x5b", "no 4 GpeLength 0x5c", "no 4 ResetRegister 0x74",
    "no 5 FacsAlign 0x7004", "no 5 FacsSignature 0x7004", "no 5 FacsLength 0x7004", "no 6 OverrideBus 0x5a", "no 6 ReservedInti 0x5a",
    "no 6 SecondAddressOverride 0x84 0x78", "no 6 GsiPastEnd 0x44", "no 7 GsiClash 0x2c 0x38 0x14", "no 8 OverrideClash 0x5a 0x50 0x5",
    "no 9 RangePastEnd 0xcc", "no 10 Overlap 0x7c 0xa4 0x2000", "no 11 SlitDiagonal 0x2c", "no 11 SlitLow 0x2d",
    "no 13 DanglingParent 0x24 0x51", "no 13 DanglingResource 0x24 0x0 0x24", "no 13 DanglingCache 0xdc 0x1",
    "no 14 ParentCycle 0x3c 0x0 0x1", "no 15 CacheCycle 0xc4 0x0 0x1", "no 16 TwoDomains 0x40 0x30 0x1",
    "no 17 GsiNowhere 0x90 0x0 0x32",
    "advice ListedTwice 0xf 0x0 0x2000", "advice SecondTable 0x9 0x2 0xc000", "advice ListedApart 0xa 0x0 0xd000",
    "advice FadtOfRevision 0x4 0xf4 0x114", "advice FacsDiffers 0x24 0x7000 0x7004", "advice DsdtDiffers 0x28 0xa020000 0xa010000",
    "advice BlockDiffers 0x38 0x600 0x604", "advice SciNowhere 0x2e 0x0 0xc8", "advice SameUid 0xa0 0x98 0x1",
    "advice SameApicId 0xa0 0x98 0x1", "advice IoApicAtZero 0x2c", "advice SameIoApicId 0x38 0x2c",
    "advice SameIoApicAddress 0x44 0x38 0xfec00000", "advice NmiNowhere 0xc0 0x0 0x9", "advice SecondGicd 0xde 0xc6",
    "advice TwoUidDomains 0x58 0x6a 0x5", "advice AffinityNowhere 0x58 0x0 0x5", "advice NoDomain 0xa8 0x0 0xff",
    "advice DomainPastSlit 0xa4 0x3 0x100", "advice SlitDiffers 0x2d 0x2f", "advice SameLeaf 0x64 0x50 0x8", "advice CacheShape 0x8c",
    "advice SameCacheId 0xa8 0x8c 0x4", "advice NoLeaf 0x98 0x0 0x1", "advice LeafNowhere 0x50 0x0 0x8", "advice MadtUnread 0x246 0xd",
    "advice SratUnread 0x148 0x5", "advice NullSlot 0xb", "advice RsdtDiffers 0x10 0x0 0x41544144",
    "advice TablesOverlap 0xe000 0xe024 0xe024", "advice DsdtWrong 0x28 0x0 0xa010000", "advice NoPm1Block 0x40",
    "advice BlockWidth 0x38 0x18 0x20", "advice HalfBlock 0x4c 0x3", "advice PortsOverlap 0x38 0x3c 0x606",
    "advice PortPastEnd 0x30 0x1 0x10000", "advice GpeOverlap 0x5e 0x4", "advice SmiHalf 0x30 0x34 0x10000", "advice ResetNowhere 0x74",
    "advice FadtForArch 0x70", "advice FadtReserved 0x2c 0x0 0x2", "advice RsdpReserved 0x21 0x0 0x1",
    "advice HeaderText 0xc 0xa 0xe000", "advice SecondOther 0xd 0xc 0xf000", "advice X2ApicBelow255 0xb0 0x0 0x3",
    "advice BroadcastId 0xa8 0x0 0xff", "advice CapableTooEarly 0xa8 0x6", "advice EnabledAndCapable 0xa0 0x0 0x3",
    "advice OverridePastIsa 0x6e 0x10 0x2", "advice TimerLevel 0x64 0x0 0xc", "advice TwoSourcesOneGsi 0x64 0x5a 0x9",
    "advice LintNotOne 0xc0", "advice GicrTooSmall 0x196 0x0 0x3", "advice SameMpidr 0x146 0xf6 0x1000000",
    "advice MpidrReserved 0xf6 0x0 0x1000000", "advice GicrEmpty 0x196 0x0 0x100000", "advice SameIts 0x1ba 0x1a6 0x1",
    "advice SameMsiFrame 0x1e6 0x1ce 0x1", "advice GicOverlap 0xc6 0xde", "advice RedistributorTwice 0xf6 0x196 0x5000",
    "advice NoBootMethod 0x81", "advice SameHart 0x222 0x1fe 0x5", "advice MadtReserved 0xb0 0x8", "advice EmptyRange 0xf4 0x0 0x9000",
    "advice InitiatorOff 0x128", "advice DomainPastRevision 0xa4 0x1 0x100", "advice ItsNowhere 0x11c 0x0 0x6",
    "advice SratReserved 0xcc 0x6", "advice RemoteAsLocal 0x2f 0x1", "advice LeafUnflagged 0x78 0x0 0x9",
    "advice LeafAsParent 0x50 0x78", "advice NoPackage 0x50 0x0 0x8", "advice CacheNumbers 0xa8", "advice PpttReserved 0x78 0x2",
    "advice McfgLength 0x4 0x5c 0x50", "advice EcamAddress 0x2c 0x0 0x4141414141412501", "advice HmatHeader 0x8 0x0 0x3",
    "advice HmatCut 0xc9 0x0 0xca", "advice HmatLength 0xa2 0x28 0x27", "advice HmatDataType 0x28 0x9 0x6",
    "advice HmatHierarchy 0x28 0x8 0x4", "advice HmatUnit 0x58 0x18", "advice HmatTooLarge 0x54 0x0 0xfffe",
    "advice HmatSameDomain 0x4c 0x48", "advice HmatCache 0x82 0x18 0x4", "advice NoTimer 0x38", "advice TimerNoPpi 0x30 0x0 0x1",
    "advice SameTimer 0x60 0x48 0x1a", "advice PlatformTimerCut 0xfa 0x0 0x2", "advice TimerBlock 0xcc 0x14 0x13",
    "advice TimerFrame 0x7c 0x0 0x8", "advice SameFrame 0xa4 0x7c 0x8", "advice Watchdog 0xdf 0x1c 0x1b",
    "advice TimerNoSpi 0x7c 0x14 0x1f", "advice TimerOverlap 0x80 0xa8 0x10000", "advice DmarWidth 0x24 0x0 0xa",
    "advice DmarCut 0xd9 0x0 0xda", "advice DmarShort 0xca 0x10 0xf", "advice ScopeCut 0xc9 0x0 0xca",
    "advice ScopeType 0xc1 0x0 0x6", "advice DrhdAddress 0x60 0x8 0x1", "advice DrhdOverlap 0x30 0x50 0x2000",
    "advice SecondIncludeAll 0x50 0x30", "advice IncludeAllNotLast 0x60 0x30", "advice RmrrRange 0x70 0x10 0x1000",
    "advice RmrrNoDevice 0x70 0x20 0x18", "advice SameRhsa 0x9c 0x88 0xfed90000", "advice AnddName 0xb0 0x8",
    "advice SameScope 0x48 0x40 0x2", "advice IvrsCut 0xbc 0x0 0xbd", "advice IvrsShort 0x95 0x28 0x27",
    "advice IvhdAddress 0x30 0x8 0x1000", "advice SameIvhd 0x5c 0x30 0x2", "advice IvhdDiffers 0x5c 0x30 0x2000",
    "advice IvhdEntryCut 0x74 0x4 0x75", "advice IvhdEntryType 0x4c 0x7", "advice IvhdRange 0x48 0x1",
    "advice SameSpecial 0x54 0x4c 0x3", "advice IvmdRange 0x75 0x18", "advice SpcrAddress 0x28 0x0 0x2",
    "advice SpcrBaud 0x3a 0x0 0x1", "advice SpcrGsi 0x34 0x0 0x1", "advice SpcrPci 0x40", "advice SpcrName 0x54",
    "advice RsdpText 0x9 0x0 0x41414141411f", "advice RootHeader 0x8 0x0 0x2", "advice BlockSpace 0xe8 0x0 0x2",
    "advice FadtForRiscv 0x8 0x6", "advice GiccShort 0x26d 0x4c 0x4b", "advice GiccDiffers 0x146 0x28 0x1",
    "advice SameGicrBase 0x146 0xf6 0x5000", "advice GiccNoPpi 0xf6 0x4e 0x20", "advice PicVersion 0x256 0x2",
    "advice FurtherReserved 0x146 0x3 0x1", "advice WakeupMailbox 0x24e 0x10 0x8", "advice LapicAtZero 0x84 0x4",
    "advice MadtRevision 0x8 0x0 0x1", "advice AffinityReserved 0x128 0x18 0x4", "advice DeviceHandle 0x128 0x3 0x2",
    "advice PpttUnread 0xf4 0x2", "advice CacheIdZero 0xfc 0x18", "advice SameCacheType 0x118 0x134 0x14c",
)
expected(
    "each fault of the MADT's entries, and of the interrupt numbers",
    sound(
        madt_of(
            io_apic(0xFEC00000, 0, 0),  # 0x2C
            io_apic(0xFEC01000, 16, 1),  # 0x38
            io_apic(0xFEC02000, 0xFFFFFFF0, 2),  # 0x44
            override(5, 5),  # 0x50
            override(5, 9, 2, bus=1),  # 0x5A
            override(5, 5),  # 0x64
            lapic_address(0xFEE00000),  # 0x6E
            lapic_address(0xFEE00000),  # 0x7A
            changed(lapic(7, 7), {1: 7})[:7],  # 0x86
            nmi_source(40, 8),  # 0x8D
            nmi_source(41),  # 0x95
            lapic(7, 7),  # 0x9D
            b"\7\0",  # 0xA5
        )
    ),
    "no 6 MadtEntryCut 0xa5", "no 6 MadtEntryLength 0x86", "no 6 OverrideBus 0x5a", "no 6 ReservedInti 0x5a",
    "no 6 SecondAddressOverride 0x7a 0x6e", "no 6 GsiPastEnd 0x44", "no 7 GsiClash 0x2c 0x38 0x10", "no 8 OverrideClash 0x5a 0x50 0x5",
    "no 17 GsiNowhere 0x8d 0x0 0x28",
)
RANGES = [
    memory(0x1000, 0x2000),  # 0x30
    memory(0x2000, 0x2000, 3),  # 0x58, hot-pluggable
    memory(0x2FFF, 1),  # 0x80
    memory(0xFFFFFFFFFFFFF000, 0x1001),  # 0xA8
    memory(0x2000, 0),  # 0xD0
    memory(0x2000, 0x1000, 0),  # 0xF8, not enabled
    other(2, 12),  # 0x120
    bytes(1),  # 0x12C
]
for setting, overlap in (("counted", "0x30 0x58 0x2000"), ("apart", "0x30 0x80 0x2fff")):
    expected(
        f"each fault of the SRAT's entries, hot-plug windows {setting}", sound(srat_of(*RANGES)), "no 9 SratEntryCut 0x12c",
        "no 9 SratEntryLength 0x120", "no 9 RangePastEnd 0xa8", f"no 10 Overlap {overlap}", "advice EmptyRange 0xd0 0x0 0x2000",
        words=f"--rsdp e0000 --hotplug {setting}",
    )
for ranges, overlap in (
    # the lesser number of the two kinds, and at a tie the kind that is not hot-pluggable
    (((0, 9, 3), (0, 9, 1), (8, 9, 3), (7, 9, 1)), "0x58 0xa8 0x7"), (((0, 9, 3), (0, 9, 1), (7, 9, 3), (8, 9, 1)), "0x30 0x80 0x7"),
    (((0, 9, 3), (0, 9, 1), (8, 9, 3), (8, 9, 1)), "0x58 0xa8 0x8"),
):
    expected(
        f"ranges of both kinds, {ranges}", sound(srat_of(*(memory(*numbers) for numbers in ranges))), f"no 10 Overlap {overlap}",
        words="--rsdp e0000 --hotplug apart",
    )
expected(
    "each fault of the PPTT",
    sound(
        pptt(
            node(81, resources=[36]),  # 0x24
            node(60),  # 0x3C, its own parent
            node(60),  # 0x50
            shaped_cache(SETS_VALID, sets=0),  # 0x64
            cache(128),  # 0x80, its own next level
            cache(1),  # 0x98
            other(0, 16),  # 0xB0
            bytes(1),  # 0xC0
        )
    ),
    "no 12 PpttEntryCut 0xc0", "no 12 PpttEntryLength 0xb0", "no 13 DanglingParent 0x24 0x51", "no 13 DanglingResource 0x24 0x0 0x24",
    "no 13 DanglingCache 0x98 0x1", "no 14 ParentCycle 0x3c 0x0 0x1", "no 15 CacheCycle 0x80 0x0 0x1", "advice CacheShape 0x64",
)
expected(
    "ranges of one base, the longer one first", sound(srat_of(memory(0x1000, 0x2000), memory(0, 0x2000), memory(0x1000, 0x800))),
    "no 10 Overlap 0x58 0x30 0x1000",
)
expected(
    "I/O APICs from one number on, the one with more inputs first",
    sound(madt_of(ON, io_apic(0xFEC00000, 8, 0), io_apic(0xFEC10000, 8, 1))), "no 7 GsiClash 0x34 0x40 0x8",
    words="--rsdp e0000 fec00000=24 fec10000=8",
)
expected("a locality at 9 from itself, and at 11", sound(slit(2, [9, 20, 20, 11])), "no 11 SlitDiagonal 0x2c", "no 11 SlitLow 0x2c")
advised("interrupt numbers up to 2^32", sound(madt_of(ON, io_apic(0xFEC00000, 2**32 - 24))))
advised("a range up to 2^64", sound(srat_of(memory(2**64 - 0x1000, 0x1000))))
advised("a resource of a type that no rule names", sound(pptt(node(resources=[60]), other(2, 30))), "PpttUnread 0x3c 0x2")
expected(
    "a node that leads to a cycle of two, and another to one of three",
    sound(pptt(node(56), node(76), node(56), node(116), node(136), node(156), node(116))), "no 14 ParentCycle 0x24 0x1 0x2",
)
TWO_DOMAINS = sound(madt_of(lapic(0, 5, 0b10)), srat_of(apic_domain(5, 0), x2apic_domain(5, 1)))
advised("two domains of a processor that is online capable", TWO_DOMAINS)
expected(
    "two domains of a processor that is online capable, usable", TWO_DOMAINS, "no 16 TwoDomains 0x40 0x30 0x5",
    words="--rsdp e0000 --processors usable",
)
advised("a usable processor, whatever the policy", sound(madt_of(lapic(0, 5, 0b10))), words="--rsdp e0000 --processors enabled")

# ---- many entries
COUNT = 1000
expected(
    f"{COUNT} I/O APICs of one ID, at one address and from one number on", sound(madt_of(ON, *[SERVED] * COUNT)), "no 7 GsiClash 0x34 0x40",
    "advice SameIoApicId 0x40 0x34", "advice SameIoApicAddress 0x40 0x34 0xfec00000",
)
FAR = (0x100000, 0x200000)
X2APICS = madt_of(*(x2apic(place, place) for place in range(COUNT)))
NOWHERE = srat_of(*(x2apic_domain(COUNT + place, 0) for place in range(COUNT)))
advised(
    f"{COUNT} affinities of no processor, and as many processors in no domain",
    sound(slots=(TABLES_AT, *FAR), others=dict(zip(FAR, (X2APICS, NOWHERE)))), f"AffinityNowhere 0x30 0x0 {COUNT:#x}", "NoDomain 0x2c",
)
hierarchy(f"{COUNT} leaves of one ID", [core(9)] * COUNT, "SameLeaf 0x38 0x24 0x9")
