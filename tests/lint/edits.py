#!/usr/bin/env python3
"""Runs the program that edits the rules that are rows, acpi_edit_rows: it changes each number and each comparison of each row at run
time, and looks for tables on which the edited row finds something else than the row as it is. It is given sets from which it builds
more. The edits that none shows are those of unseen.txt, each with its reason, and at most 3 in 100.

Edited rows are compared with the rows as they are, so no answer is expected here: near.py and second.py, whose sets these are made of,
compare the rows as they are with a second program.

usage: edits.py PROGRAM, which is crates/acpi_edit_rows/out/acpi_edit_rows; the last line is 'edits: N passed, M failed'."""

from __future__ import annotations

import re
import subprocess
import sys
from itertools import product
from pathlib import Path

sys.path.insert(0, str(Path(__file__).resolve().parents[1]))

from acpi_images.generated.near import (
    APIC_AFFINITY, ARM_PORT, BESIDE_IN_MADT, BESIDE_IN_SRAT, BUS, CACHES, CHILD, GICC, GICC_AFFINITY, HOLDERS, IN_DMAR, IN_DOMAINS, IN_HMAT,
    IN_IVHD, IN_IVRS, IVHD_KINDS, LAPIC, MADT_LENGTHS, NODES, OVERRIDE, PAIRS, PCI_PORT, RIGHT_DOG, RINTC, SRAT_LENGTHS, TWO_FRAMES,
    blocks_fadt, entry, madt, of_length, pptt, slit, srat,
)  # fmt: skip
from acpi_images.program import SECONDS, Cases, finish
from acpi_images.tables import (
    acpi_hid, andd, atsr, device_entry, dmar, drhd, ecam, generic_address, gtdt, hmat, hpet, ivhd, ivmd, ivrs, mcfg, number, of_dmar,
    of_gtdt, of_hmat, of_ivrs, placed, proximity, rhsa, rmrr, satc, scope, side_cache, sidp, spcr, special, speeds, table, timer_block,
    timer_frame, watchdog,
)

UNSEEN = Path(__file__).with_name("unseen.txt")
# How many edits of 100 may be unseen.
MOST_IN_100 = 3
# The order of the tables of a set.
ORDER = (b"FACP", b"APIC", b"SRAT", b"SLIT", b"PPTT", b"MCFG", b"HPET", b"HMAT", b"GTDT", b"DMAR", b"IVRS", b"SPCR")


def fadts():
    """FADTs with all fields, and such that end at a field or have another Revision; in one only one of two commands is written, in others
    blocks are too long."""
    yield table(b"FACP", bytes(240), 6)
    yield from (bytes(blocks_fadt(flags)) for flags in (0, 1 << 20))
    lengths = ((116, 1), (132, 2), (131, 5), (132, 5), (276, 5), (131, 6), (132, 6), (244, 3), (268, 5), (276, 6))
    yield from (of_length(blocks_fadt(), *how) for how in lengths)
    data = blocks_fadt()
    data[52] = 0
    yield bytes(data)
    data[60:64], data[68:72], data[88:92] = bytes(4), bytes(4), bytes([40] * 4)
    yield from (of_length(data, length, 3) for length in (160, 172, 184, 196, 208, 220))


def madts():
    """MADTs with several entries, or with one of each type: two I/O APICs with interrupts from another number on, GICs whose CPU interfaces
    differ, and one whose CPU interface names a redistributor."""
    yield from (madt(*beside) for beside in BESIDE_IN_MADT)
    for address in (0, 0xFEC00000):
        yield madt(*(entry(1, 12, (2, 1, 7), (4, 4, address), (8, 4, 0x18181818)) for _ in range(2)))
    for version in (1, 2, 3):
        interfaces = (entry(11, 82, (12, 4, 1), (32, 8, base)) for base in (0x0807060504030201, 0x1817161514131211))
        yield madt(entry(12, 24, (20, 1, version)), *interfaces)
    yield madt(entry(11, 82, (12, 4, 1), (60, 8, 0x0102030405060708)), entry(14, 16, (4, 8, 0x1000), (12, 4, 0x1000)))
    yield from (madt(entry(*how)) for how in MADT_LENGTHS.items())
    yield madt(LAPIC, OVERRIDE, entry(6, 12))
    others = ((10, 82), (11, 59), (11, 82), (12, 82))
    yield from (madt(GICC, entry(*how, (12, 4, 1), (40, 8, 5))) for how in others)
    for size, version in product(range(2, 27), (0, 1, 2)):
        wakeup = entry(16, 26, (2, 2, version), (8, 8, 0x1000))
        yield madt(bytes((16, size)) + wakeup[2:size])


def srats():
    yield from (srat(revision=revision) for revision in (1, 2, 3))
    yield from (srat(*beside) for beside in BESIDE_IN_SRAT)
    yield srat(entry(4, 12, (2, 4, 7)))
    yield from (srat(entry(*how)) for how in SRAT_LENGTHS.items())


def pptts():
    yield from (pptt(revision=revision) for revision in (1, 2, 3))
    yield from (pptt(cache, revision=3) for cache in CACHES)
    for revision, node, beside in product((1, 2, 3), NODES, ((), (CHILD,))):
        yield pptt(node, *beside, revision=revision)


def mcfgs():
    """MCFGs of each Length modulo 16, of one entry, and of two that share a bus."""
    yield from (table(b"MCFG", bytes(length - 36), 1) for length in range(60, 78))
    yield from (mcfg(ecam(base, 0, 1, 2), revision=revision) for base, revision in product((BUS, 2**64 - 3 * BUS), (0, 1)))
    yield mcfg(ecam(BUS, 1, 2, 4), ecam(2**32, 1, 3, 5))


def hmats():
    """HMATs of each structure, in both Revisions, of structures that are too short, and of one that is cut."""
    yield from (hmat(one, revision=revision) for one in IN_HMAT for revision in (1, 2))
    yield from (hmat(one, one, revision=2) for one in IN_HMAT)
    yield from (hmat(of_hmat(kind, length)) for kind in (0, 1, 2, 3) for length in (8, 31, 32, 39, 41))
    yield hmat(side_cache(0x01020304, 0x2233), proximity(0x01020304, 0x01020304, 3), revision=1)
    yield hmat(speeds((0x01020304, 5, 5), (6, 6), [0x8000] * 6, 0x1FFFF, 5, 0xF3), bytes(8))
    yield table(b"HMAT", bytes(2), 2)


def side_caches():
    """HMATs of a cache with two handles, of a length around the one that it needs: on a level above 3, above its two levels, on one of these,
    and above its one level."""
    for attributes, length in product((0x43, 0x32, 0x22, 0x21), (35, 36, 37)):
        yield hmat(side_cache(0, attributes, 2, length))


def hmats_with_domains():
    """An HMAT with an SRAT: of lists with all faults in a structure that is a byte too short for them, and of a domain above 255."""
    yield hmat(speeds((9, 9), (9, 9), [0x8000] * 4, 0x1FFFF, length=55)), srat(*IN_DOMAINS)
    yield hmat(proximity(0x101, 1)), srat(entry(0, 16, (2, 1, 1), (9, 3, 1)), entry(1, 40, (2, 4, 1)))


def gtdts():
    """GTDTs of each size, of platform timers of each type, of such that are not full, and of one that is cut; such in which a timer has the
    interrupt of the one of Revision 3, or there is none."""
    yield from (gtdt(revision=revision, length=104) for revision in range(5))
    yield from (gtdt(TWO_FRAMES, RIGHT_DOG, revision=revision) for revision in (2, 3))
    yield from (gtdt(of_gtdt(kind, length)) for kind in (0, 1, 2) for length in (4, 19, 27, 29, 60))
    yield gtdt(timer_block(timer_frame(0, 0x0102030405060708), timer_frame(0, 0x0102030405060708), first=24), watchdog())
    yield gtdt(*[watchdog(0x1817161514131211, 0x2827262524232221, 0x1234)] * 2, _88=number(3, 4))
    yield gtdt(_56=number(20, 4), _64=number(20, 4), _72=number(20, 4), _96=number(20, 4))
    yield gtdt(_56=bytes(4), _64=bytes(4), _88=number(1, 4))
    yield gtdt(revision=2, length=88, _56=bytes(4), _64=bytes(4))
    yield from (gtdt(revision=revision, length=104, _96=number(30, 4)) for revision in (2, 4))
    yield gtdt(_56=number(1, 4), _96=number(1, 4))


def full_blocks():
    """GTDTs of a block of as many frames as it may have, and of one more, whose number is that of the first."""
    yield from (gtdt(timer_block(*(timer_frame(it % 8) for it in range(count)))) for count in (8, 9))


def dmars():
    """DMARs of each structure, alone and after an IOMMU, of such that are a byte too short, and of one that is cut; of widths around the
    least and the greatest; and without an IOMMU."""
    yield from (table(b"DMAR", dmar(*IN_DMAR)[36:length]) for length in (46, 47, 48, 49, 51, 52, 64))
    yield from (dmar(drhd(), width=width) for width in (10, 11, 12, 62, 63, 64))
    yield from (dmar(*before, one) for one in IN_DMAR for before in ((), (drhd(),)))
    yield from (dmar(of_dmar(kind, length)) for kind in range(8) for length in (7, 8, 9, 15, 16, 17, 19, 20, 21, 23, 24, 25))
    yield dmar(*IN_DMAR)
    yield dmar(*IN_DMAR, b"\1\0\2")
    yield dmar(drhd(), of_dmar(0x100, 8), of_dmar(7, 4), bytes(4))


def scopes():
    """DMARs of scopes of each type, with steps and lengths around their limits, and of scopes that are cut, in each structure that has
    some."""
    for make, one in product(HOLDERS, (scope(0), scope(5), scope(6), scope(length=9), scope(length=7), b"\1", scope()[:-1])):
        yield dmar(make(scope(2, 2, 2, [(31, 7)]), one))
    for steps in ([(31, 7), (32, 0)], [(0, 7), (0, 8)], [(32, 8)], [(33, 9), (1, 1)]):
        yield from (dmar(make(scope(steps=steps))) for make in HOLDERS)
    yield dmar(drhd(scope(3, 0x21, 0x22, [(7, 7)]), scope(4, 0x21, 0x22, [(8, 7)])), drhd(scope(3, 0x22, 0x21), scope(3, 0x21)))
    yield from (dmar(drhd(scope(kind, 9)), make(scope(kind, 9), scope(kind, 9))) for kind in (2, 3, 4) for make in HOLDERS)


def units():
    """DMARs of two IOMMUs: at addresses that differ in each byte, whose registers touch or share a byte, by their size; of one segment or
    of two, with all other devices or without; and of ATSRs, SATCs and regions of such numbers."""
    bases = (0x0807060504031000, 0x1817161514132000)
    yield from (dmar(drhd(base=base, segment=0x0201)) for base in (0, 1, 0xFFF, 0x1000, 0x1001, 0x1800, *bases))
    for size, less in product((0, 1, 2, 7, 8, 15, 16, 0xF1), (1, 0)):
        yield dmar(drhd(base=0x10000000, size=size), drhd(base=0x10000000 + (4096 << size % 16) - less))
        yield dmar(drhd(base=0x10000000), drhd(base=0x10000000 + less - (4096 << size % 16), size=size))
    yield from (dmar(drhd(base=0), drhd(base=0, size=15)), dmar(drhd(base=2**64 - 0x1000, size=1), drhd(base=2**64 - 1)))
    for make, first, second in product((drhd, atsr), (1, 2, 3), ((0x0201, 1), (0x0201, 0), (0x0202, 1))):
        yield dmar(make(segment=0x0201, flags=first), make(segment=second[0], flags=second[1]))
        yield dmar(drhd(flags=1, segment=0x0201), make(segment=second[0], flags=second[1]), drhd(segment=0x0201), atsr(flags=first))
    yield dmar(satc(segment=0x0201, flags=1), satc(segment=0x0201, flags=1), *[rmrr(scope(), segment=0x0101)] * 2)
    for base, limit in product((0, 0xFFF, 0x1000, 0x1001, 0x2000), (0, 0xFFF, 0x1000, 0x1FFF, 0x27FF, 0x2FFE, 0x2FFF)):
        yield dmar(rmrr(scope(), base=base, limit=limit))
    yield from (dmar(rmrr(length=length)) for length in (24, 25, 32))
    yield from (dmar(rmrr(), one) for one in (rmrr(scope()), of_dmar(7, 24), drhd(length=24)))


def overlaps():
    """DMARs of two IOMMUs at the address 1, of which one may get any size; and of two of which one has this size, and the other begins at
    its last byte."""
    yield dmar(drhd(base=1), drhd(base=1))
    yield from (dmar(drhd(base=0x10000000, size=size), drhd(base=0x0FFFFFFF + (4096 << size))) for size in range(1, 16, 2))


def named_units():
    """DMARs of RHSAs and of devices of the namespace that are named, and that are not; where all structures are read, and where not."""
    far, near = 0x0807060504030201, 0x0807060504030202
    for base, more in product((far, near), ((), (b"\1",), (of_dmar(2, 7),), (satc(b"\1"),))):
        yield dmar(drhd(base=far), rhsa(base=base), *more)
    yield from (dmar(rhsa(base=far, domain=domain), rhsa(base=base, domain=3)) for base in (far, near) for domain in (2, 3))
    names = (b"A", b"\0", b"A\0", b"\0A", b"\\_SB.AB", b"\\_SB.AB\0")
    yield from (dmar(drhd(scope(5, 1)), andd(1, name), *more) for name in names for more in ((), (andd(2, b"A"),)))
    for first, second in product((1, 2), repeat=2):
        for make, more in ((drhd, [b"\1"]), (atsr, [of_dmar(4, 8)]), *((make, []) for make in HOLDERS)):
            yield dmar(drhd(scope(5, first, 2)), make(scope(5, second, 1)), andd(1), *more)
            yield dmar(make(scope(5, second), scope(3, first)), andd(second), *more)
    yield from (dmar(drhd(scope(kind, 1)), andd(1)) for kind in (4, 5, 6))


def dmars_with_madts():
    """A DMAR and a MADT of I/O APICs that have a scope, and that have none, where all structures are read, and where not."""
    apics = madt(entry(1, 12, (2, 1, 7), (4, 4, 0x04030201)), entry(1, 12, (2, 1, 9), (4, 4, 0x14131211)))
    for flags, *more in ((0,), (1,), (2,), (3,), (1, b"\1"), (1, sidp(b"\1")), (1, of_dmar(3, 19))):
        for scopes_of in (((3, 7), (3, 9)), ((3, 7), (3, 8)), ((3, 9), (4, 7)), ((2, 7), (3, 9))):
            yield dmar(drhd(*(scope(*it) for it in scopes_of)), *more, flags=flags), apics
    yield from ((dmar(make(scope(3, 7)), drhd(scope(3, 9)), flags=1), apics) for make in HOLDERS)
    yield dmar(drhd(), flags=1), madt(entry(1, 12, (2, 1, 7)), entry(1, 11))
    yield dmar(drhd(), flags=1), madt(entry(1, 12, (2, 1, 7)), entry(0, 7))


def dmars_with_srats():
    """A DMAR and an SRAT with an entry of each type, or one that is not read."""
    for domain in (1, 2, 4, 7, 8, 0x102):
        yield dmar(rhsa(domain=domain)), srat(*IN_DOMAINS)
        yield dmar(rhsa(domain=domain)), srat(*IN_DOMAINS, entry(8, 8))
    yield dmar(rhsa(domain=0x04030201)), srat(entry(0, 16, (2, 1, 1), (9, 3, 0x040302)))


def ivrss():
    """IVRSs of each block, alone and after an IOMMU, of such that are a byte too short, and of one that is cut; and without an IOMMU."""
    yield from (table(b"IVRS", ivrs(*IN_IVRS)[36:length], 2) for length in (46, 47, 48, 49, 51, 52, 72, 130))
    yield from (ivrs(*before, one) for one in IN_IVRS for before in ((), (ivhd(device=7),)))
    lengths = (23, 24, 25, 31, 32, 33, 39, 40, 41)
    yield from (ivrs(of_ivrs(*how)) for how in product((0x10, 0x11, 0x12, 0x20, 0x21, 0x22, 0x23, 0x40), lengths))
    yield from (ivrs(ivmd(), of_ivrs(0x0F, 24)), ivrs(of_ivrs(0x24, 24)), ivrs(*IN_IVRS), ivrs(*IN_IVRS, b"\1\0\2"), ivrs(ivhd(), bytes(4)))


def entries():
    """IVRSs of entries of each type, with parts of one at the end; of ranges; of devices of the namespace; and of memory."""
    for kind, one in product(IVHD_KINDS, (*range(7), 0x3F, *range(0x40, 0x4A), 0x7F, 0x80, 0xEF, 0xF1)):
        yield ivrs(ivhd(*IN_IVHD, (bytes([one]) + bytes(7))[: 4 if one < 0x40 else 8], kind=kind))
    yield from (ivrs(ivhd(*IN_IVHD, one, kind=kind)) for kind in IVHD_KINDS for one in (b"\1\1\1", special()[:7], acpi_hid()[:21]))
    for uid_kind, uid in product(range(4), (b"", b"A", b"A" * 7, b"A" * 8, b"A" * 9)):
        yield ivrs(ivhd(acpi_hid(uid_kind=uid_kind, uid=uid), kind=0x40))
    yield from (ivrs(ivhd(acpi_hid(hid, 2, b"AB")[:size], kind=kind)) for hid in (b"", b"A") for size in (23, 24) for kind in IVHD_KINDS)
    for kind, begin, last in product((3, 0x43, 0x47), (0x0201, 0x0202), (0x0200, 0x0201, 0x0301)):
        yield ivrs(ivhd(device_entry(kind, begin, 3), device_entry(4, last, 4)))
    start, end, one = device_entry(3, 1), device_entry(4, 2), device_entry(1, 3)
    for some in ((start,), (end,), (one, end), (start, one), (start, start, end), (start, end, end), (start, b"\1"), (start, one, b"\1")):
        yield from (ivrs(ivhd(*some, kind=kind)) for kind in IVHD_KINDS)
    yield from (ivrs(ivhd(special(variety, 0x21, 0x2221))) for variety in range(5))
    for flags, kind in product((0, 1, 2, 7, 8, 9, 15, 16, 17, 0x81), (0x20, 0x23)):
        yield ivrs(ivhd(), ivmd(kind, 0x0201, 0x0201, flags=flags))
    for kind, last, size in product((0x21, 0x22), (0x0200, 0x0201, 0x0302), (0, 1)):
        yield ivrs(ivhd(), ivmd(kind, 0x0201, last, 0x0807060504030201, size))
    yield from (ivrs(ivhd(), ivmd(0x20, 0, 0, 2**64 - 0x1000, size)) for size in (0xFFF, 0x1000, 0x1001, 2**64 - 1))


def ranges():
    """IVRSs of a start of each type, an entry of each of the types around those of starts and ends, and an end."""
    for kind, one in product((3, 0x43, 0x47), (0, 2, 4, 5, 0x42, 0x44, 0x46)):
        yield ivrs(ivhd(device_entry(kind, 1), device_entry(one), device_entry(4, 2)))


def like_specials():
    """IVRSs of two special devices whose Handles plus 255 times their Varieties are the same, and of an entry of the next type with the
    bytes of the first."""
    first = special(1, 255)
    yield from (ivrs(ivhd(first, special(2, 0), b"\x49" + first[1:], kind=kind)) for kind in IVHD_KINDS)


def ivrs_units():
    """IVRSs of two IOMMUs: of one device or of two that differ in each byte, at one address or at two, of one type or of two."""
    bases = (0, 1, 0x1000, 0x2000, 0x3FFF, 0x4000, 0x0807060504030000)
    yield from (ivrs(ivhd(kind=kind, base=base)) for kind, base in product(IVHD_KINDS, bases))
    far, near = 0x0807060504030000, 0x0807060504034000
    for one, other in product(IVHD_KINDS, repeat=2):
        first = ivhd(device=0x0201, base=far, segment=0x0403, kind=one)
        same, others = (0x0201, far, 0x0403), ((0x0201, near, 0x0403), (0x0202, far, 0x0403), (0x0201, far, 0x0404), (0x0302, near, 0x0404))
        for device, base, segment in (same, *others):
            yield ivrs(first, ivhd(device=device, base=base, segment=segment, kind=other))
    yield ivrs(ivhd(base=far), ivmd(), placed(ivhd(base=near, flags=3), _18=b"\1\2\3\4\5\6"), ivhd(base=far))
    for first, second, kind in product(((1, 0x21), (2, 0x21), (1, 0x22)), ((1, 0x21), (2, 0x22)), IVHD_KINDS):
        yield ivrs(ivhd(special(*first), special(*second), kind=kind))
        yield ivrs(ivhd(special(*first)), ivhd(device_entry(0x42, 1, 2), special(*second, 0x2221), device=9, base=near, kind=kind))


def ivrss_with_madts():
    """An IVRS and a MADT of I/O APICs that have an entry, and that have none, where all blocks are read, and where not."""
    apics = madt(entry(1, 12, (2, 1, 7), (4, 4, 0x04030201)), entry(1, 12, (2, 1, 9), (4, 4, 0x14131211)))
    for kind, more in product(IVHD_KINDS, ((), (b"\1",), (ivhd(b"\1", device=9),), (of_ivrs(0x20, 31),))):
        for of in (((1, 7), (1, 9)), ((1, 7), (1, 8)), ((1, 9), (2, 7)), ((2, 7), (2, 9)), ()):
            yield ivrs(ivhd(*(special(*it) for it in of), kind=kind), *more), apics
    for kind in IVHD_KINDS:
        yield ivrs(ivhd(special(1, 7)), ivhd(special(1, 9), kind=kind, device=9)), apics
        yield ivrs(ivhd(special(1, 7), special(1, 9)), ivhd(special(2, 7), kind=kind, device=9)), apics
    yield ivrs(ivhd(special(1, 8))), madt(entry(1, 12, (2, 1, 7)), entry(1, 11))
    yield ivrs(ivhd(special(1, 8))), madt(entry(1, 12, (2, 1, 7)), entry(0, 7))


def spcrs():
    """SPCRs of each size, of a port of a PC, of an Arm machine and of a PCI device, one that has no port in memory, and with other rates."""
    yield from (spcr(revision, length, **fields) for revision, length in ((3, 80), (4, 92)) for fields in ({}, ARM_PORT, PCI_PORT))
    yield spcr(3, 80, _36=b"\x15\1", _40=generic_address(0x1000, 2))
    yield from (spcr(revision, 92, _58=b"\1", _80=number(rate, 4)) for revision, rate in product((4, 5), (1, 0x1010100)))


def sets():
    """The sets from which more are built: tables of each kind, alone and beside one of each other kind."""
    slits = [slit(count, length) for count, length in ((1, 1), (2, 4), (3, 9), (0, 0), (2, 1), (1, 256))]
    some_madts = (madt(), madt(GICC, GICC))
    yield from product(fadts(), (*some_madts, madt(entry(0, 8, (4, 4, 2)), entry(9, 16, (8, 4, 2)))))
    yield from product(madts(), (bytes(blocks_fadt()), srat(), pptt()))
    yield from product(srats(), (*slits, madt()))
    yield from product(pptts(), some_madts)
    for (one, affinity), beside in product(PAIRS, ((), (APIC_AFFINITY,), (GICC_AFFINITY,))):
        yield madt(one), srat(*beside, affinity)
    yield from ((it,) for it in (*mcfgs(), hpet()))
    # before the others: of those on which a case decides what is found the program keeps the first 60
    yield from hmats_with_domains()
    yield from product(hmats(), (srat(), srat(*IN_DOMAINS), srat(entry(1, 40, (2, 4, 5), (28, 4, 1)))))
    yield from ((it,) for it in side_caches())
    yield from product(gtdts(), (madt(), madt(entry(12, 24)), madt(GICC)))
    yield from ((it, madt(entry(12, 24))) for it in full_blocks())
    # before the others as well
    yield from ((it,) for make in (overlaps, ranges, like_specials) for it in make())
    yield from dmars_with_madts()
    yield from dmars_with_srats()
    yield from ((it,) for make in (dmars, scopes, units, named_units) for it in make())
    yield from ivrss_with_madts()
    yield from ((it,) for make in (ivrss, entries, ivrs_units) for it in make())
    yield from product(spcrs(), (madt(), madt(entry(12, 24))))
    for length in (131, 132, 133):
        data = blocks_fadt()
        data[131] = 6
        yield of_length(data, length, 6), madt(RINTC)
    yield (srat(entry(0, 16, (2, 1, 1), (4, 4, 1), (9, 3, 1)), entry(4, 12, (2, 4, 0x101))),)
    for count in (256, 257):
        yield srat(entry(0, 16, (4, 4, 1), (9, 1, 1))), slit(count, count * count)


def data_of(tables):
    """A set as the program reads it: each table after its length, which is 0 where there is none."""
    by_signature = {it[:4]: it for it in tables}
    return b"".join(number(len(it), 4) + it for it in (by_signature.get(signature, b"") for signature in ORDER))


def known():
    """The edits of unseen.txt; a line that begins with '#' is the reason of those after it."""
    lines = UNSEEN.read_text().splitlines()
    return [line for line in lines if line and not line.startswith("#")]


def main():
    _, program = sys.argv
    cases = Cases(program)
    run = subprocess.run([program], input=b"".join(map(data_of, sets())), capture_output=True, timeout=SECONDS)
    *unseen, last = run.stdout.decode().splitlines() or [""]
    told = re.fullmatch(r"(\d+) edits, (\d+) unseen", last)
    cases.count("status", "" if run.returncode == 0 and not run.stderr and told else f"{run.returncode}, {run.stderr}, {last}")
    tried = int(told[1]) if told else 0
    listed = known()
    for edit in sorted({*unseen} - {*listed}):
        cases.count(edit, "unseen, and not in unseen.txt")
    for edit in listed:
        cases.count(edit, "" if edit in unseen else "seen, though unseen.txt has it")
    cases.same("edits that unseen.txt has twice", len({*listed}), len(listed))
    cases.count("edits", "" if 100 * len(unseen) <= MOST_IN_100 * tried and tried > 0 else f"{len(unseen)} of {tried} are unseen")
    print(f"{tried} edits, {len(unseen)} unseen")
    finish("edits", cases)


if __name__ == "__main__":
    main()
