#!/usr/bin/env python3
"""Runs the built program on root tables of 100,000 slots that list tables unsorted. What is looked for is in slots all over the table,
and the slot that comes first has the higher address. Other root tables have 65,536 slots, one fewer and one more.

usage: many_slots.py PROGRAM; the last line is 'many slots: N passed, M failed'."""

import random
import resource
import sys
from pathlib import Path

sys.path.insert(0, str(Path(__file__).resolve().parents[1]))

from acpi_images.program import answer, main
from acpi_images.tables import RSDP_AT, apic_domain, extended_rsdp, lapic, madt, rsdp, sound_fadt, srat, table, x2apic_domain
from acpi_images.text import text_of

SLOTS = 100_000
TABLES = 5_000
# Where the tables are: most of them from OTHERS on, and those that a case is about below and above these.
LOW, LOWER_STILL, OTHERS, HIGH, FADT_AT = 0x18_0000, 0x17_0000, 0x20_0000, 0x80_0000, 0x90_0000
# Slots beside powers of two, and others. Each case needs the next slot too.
CHOSEN = (0, 1, 4_095, 32_766, 32_767, 32_768, 40_000, 65_535, 65_536, 98_303, 98_304, SLOTS - 2)
FADT_SLOT = 50_000
BASE = 0x4000_0000
# Each run has this much stack.
STACK = 1 << 20


def other(number):
    """A table of which only the header counts. Revisions and lengths differ, so that a line shows whose it is."""
    return table(b"DATA", bytes(number % 7), revision=number % 251)


class Set:
    """The slots of a root table, one in ten of them 0, and the tables. A FADT is among them."""

    def __init__(self, seed, wide=False, count=SLOTS):
        numbers = random.Random(seed)
        self.wide = wide
        self.tables = {OTHERS + 0x80 * number: other(number) for number in range(TABLES)}
        addresses = list(self.tables)
        self.slots = [0 if numbers.random() < 0.1 else numbers.choice(addresses) for _ in range(count)]
        self.put(FADT_SLOT, FADT_AT, sound_fadt())

    def put(self, slot, address, whole):
        """Lists a table in a slot."""
        self.tables[address] = whole
        self.slots[slot] = address
        return self

    def advice(self):
        """The advice on the first slot that lists what an earlier one does, and on the first slot of 0."""
        first = {}
        at = next(slot for slot, address in enumerate(self.slots) if address and first.setdefault(address, slot) != slot)
        twice = f"advice ListedTwice {at:#x} {first[self.slots[at]]:#x} {self.slots[at]:#x}"
        return f"{twice}\nadvice NullSlot {self.slots.index(0):#x} 0x0 0x0"

    def slot_lines(self):
        """What `show` writes of each slot."""
        for slot, address in enumerate(self.slots):
            yield f"slot {slot} {address:#x} {shown(self.tables[address])}" if address else f"slot {slot} empty"

    def text(self):
        width, signature, root_at = (8, b"XSDT", 0x1100) if self.wide else (4, b"RSDT", 0x1000)
        root = table(signature, b"".join(address.to_bytes(width, "little") for address in self.slots))
        pointer = extended_rsdp(xsdt=root_at) if self.wide else rsdp(root_at)
        return text_of({RSDP_AT: pointer, root_at: root, **self.tables})


def broken(whole):
    """The table with another byte after its checksum, so that its sum is wrong."""
    return whole[:10] + bytes([whole[10] ^ 1]) + whole[11:]


def asked(cases, words, text, line):
    """What is wrong with the one line that the program prints; nothing where it is right."""
    found = cases.run([words[0], "--rsdp", f"{RSDP_AT:x}", *words[1:]], text)
    return "" if found == answer(line) else f"{' '.join(words)}: {found}, not {answer(line)}"


# ---- check and confirm


def one_fault(cases, slot):
    """A wrong sum, and then one more in the next slot, at a lower address: the first slot counts."""
    line = f"3 TableSum {slot:#x} {HIGH:#x} 0x0"
    later = f"3 TableSum {slot + 1:#x} {LOW:#x} 0x0"
    for wide in (False, True):
        case = Set(slot, wide).put(slot, HIGH, broken(other(3)))
        yield asked(cases, ["check"], case.text(), f"no {line}")
        text = case.put(slot + 1, LOW, broken(other(4))).text()
        yield asked(cases, ["check"], text, f"no {line}")
        yield asked(cases, ["confirm", "--witness", line], text, "true")
        yield asked(cases, ["confirm", "--witness", later], text, "true")
        yield asked(cases, ["confirm", "--witness", f"3 TableSum {slot:#x} {LOW:#x} 0x0"], text, "false")


def first_of_kind(cases, slot):
    """Two MADTs in neighbouring slots, the second at a lower address: only the first one counts."""
    good, bad = madt(lapic(0, 0)), madt(b"\0\1")
    fault = "6 MadtEntryCut 0x2c 0x0 0x0"
    for wide in (False, True):
        text = Set(slot, wide).put(slot, HIGH, bad).put(slot + 1, LOW, good).text()
        yield asked(cases, ["check"], text, f"no {fault}")
        yield asked(cases, ["confirm", "--witness", fault], text, "true")
        text = Set(slot, wide).put(slot, HIGH, good).put(slot + 1, LOW, bad).text()
        yield asked(cases, ["check"], text, "yes")
        yield asked(cases, ["confirm", "--witness", fault], text, "false")


def first_of_two_kinds(cases, slot):
    """A fault between a MADT and an SRAT, in slots that are in different blocks or in the same one. A later SRAT, without the fault,
    has the lowest address."""
    fault = "16 TwoDomains 0x40 0x30 0x5"
    one = madt(lapic(0, 5))
    two = srat(apic_domain(5, 0), x2apic_domain(5, 1))
    for madt_slot, srat_slot in ((slot, SLOTS - 3), (3, slot), (slot + 1, 3)):
        case = Set(slot).put(SLOTS - 1, LOWER_STILL, srat()).put(madt_slot, HIGH, one).put(srat_slot, LOW, two)
        yield asked(cases, ["check"], case.text(), f"no {fault}")
        yield asked(cases, ["confirm", "--witness", fault], case.text(), "true")
        alone = case.put(srat_slot, LOW, other(1))
        yield asked(cases, ["check"], alone.text(), "yes")
        yield asked(cases, ["confirm", "--witness", fault], alone.text(), "false")


def last_of(cases, count):
    """What is in the last slot of this many counts as in any other."""
    last = count - 1
    case = Set(count, count=count)
    cut = madt(lapic(0, 0), b"\0\1")
    for fault, whole in ((f"3 TableSum {last:#x} {HIGH:#x} 0x0", broken(other(3))), ("6 MadtEntryCut 0x34 0x0 0x0", cut)):
        text = case.put(last, HIGH, whole).text()
        yield asked(cases, ["check"], text, f"no {fault}")
        yield asked(cases, ["confirm", "--witness", fault], text, "true")
        yield asked(cases, ["lint"], text, f"no {fault}\n{case.advice()}")
    text = case.put(last, HIGH, madt(lapic(0, 0))).text()
    yield asked(cases, ["check"], text, "yes")
    yield difference(f"show, {count} slots", slot_lines(cases, RSDP_AT, text), list(case.slot_lines()))


# ---- show and rebuild


def shown(whole):
    return f"{whole[:4].decode()} length {len(whole)} revision {whole[8]}"


def slot_lines(cases, rsdp_at, text):
    status, output, complaint = cases.run(["show", "--rsdp", f"{rsdp_at:x}"], text)
    lines = [line for line in output.splitlines() if line.startswith("slot ")]
    return lines if (status, complaint) == (0, "") else (status, complaint)


def written(cases, seed):
    """The line of each slot, and the lines of the rebuilt set: its slots list the same tables in the same order, without the zeros."""
    case = Set(seed, wide=seed % 2 == 1).put(SLOTS - 1, LOW, madt(lapic(0, 0)))
    text = case.text()
    yield difference(f"show, seed {seed}", slot_lines(cases, RSDP_AT, text), list(case.slot_lines()))
    status, rebuilt, complaint = cases.run(["rebuild", "--rsdp", f"{RSDP_AT:x}", "--base", f"{BASE:x}"], text)
    yield "" if (status, complaint) == (0, "") else f"rebuild, seed {seed}: {status} {complaint}"
    listed = [case.tables[address] for address in case.slots if address]
    lines = slot_lines(cases, BASE, rebuilt.encode())
    tails = [line.split(" ", 3)[3] for line in lines]
    yield difference(f"rebuild, seed {seed}", tails, [shown(whole) for whole in listed])


def difference(name, lines, expected):
    """The first line that is not as expected; nothing where all are."""
    if lines == expected:
        return ""
    if not isinstance(lines, list):
        return f"{name}: {lines}"
    pairs = ((line, right) for line, right in zip(lines, expected) if line != right)
    return f"{name}: {next(pairs, f'{len(lines)} lines, not {len(expected)}')}"


def many_slots(cases):
    resource.setrlimit(resource.RLIMIT_STACK, (STACK, resource.getrlimit(resource.RLIMIT_STACK)[1]))
    asked_about = [(part, slot) for slot in CHOSEN for part in (one_fault, first_of_kind, first_of_two_kinds)]
    asked_about += [(last_of, count) for count in (65_535, 65_536, 65_537)]
    asked_about += [(written, seed) for seed in range(4)]
    cases.in_parallel(lambda it: ((f"{it[0].__name__}, {it[1]}", wrong) for wrong in it[0](cases, it[1])), asked_about)


main("many slots", many_slots)
