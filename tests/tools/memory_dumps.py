"""Cases of tools/memory2image: raw dumps and ELF cores, which are written here from images."""

import os
import re
import struct
import subprocess
import sys

from acpi_images.known.judged import JUDGED
from acpi_images.known.linted import EXPECTED
from acpi_images.known.many import MANY
from acpi_images.known.mistakes import MISTAKES
from acpi_images.known.one_rule import ALL_LINES, ONE_RULE
from acpi_images.known.rows import ROWS
from acpi_images.known.shown import SHOWN
from acpi_images.program import FIRMWARE, IMAGES
from acpi_images.tables import *
from acpi_images.text import read, text_of
from tool_cases import module_of

UEFI = bytes.fromhex("71e86888f1e4d311bc220080c73c8881")
RAM = 16 << 20


def raw_dump(cases, name, pieces, size=RAM, base=0):
    """A raw dump of so much memory, of which the rest is 0."""
    with open(cases.path(name), "wb") as file:
        file.truncate(size)
        for at, data in pieces.items():
            file.seek(at - base)
            file.write(data)
    return name


def core_of(pieces, bits=64, order="<", kind=4, is_many=False, memory_sizes=()):
    """An ELF core with a part for each piece, of 32 or 64 bits (System V ABI, chapters 4 and 5)."""
    form = {64: ("HHIQQQIHHHHHH", "IIQQQQQQ", "IIQQQQIIQQ"), 32: ("HHIIIIIHHHHHH", "IIIIIIII", "IIIIIIIIII")}[bits]
    header, program, section = (order + one for one in form)
    start = 16 + struct.calcsize(header)
    count = len(pieces) + 1
    offset = start + count * struct.calcsize(program) + struct.calcsize(section)
    ident = b"\x7fELF" + bytes([bits // 32, 1 if order == "<" else 2, 1]) + bytes(9)
    sections_at = start + count * struct.calcsize(program)
    told = 0xFFFF if is_many else count
    head = struct.pack(header, kind, 62, 1, 0, start, sections_at if is_many else 0, 0, start, struct.calcsize(program), told,
                       struct.calcsize(section), int(is_many), 0)
    programs = [struct.pack(program, 4, *([0] * 7))]
    for place, (at, data) in enumerate(pieces.items()):
        size = dict(memory_sizes).get(place, len(data))
        fields = (1, 4, offset, 0, at, len(data), size, 0) if bits == 64 else (1, offset, 0, at, len(data), size, 4, 0)
        programs.append(struct.pack(program, *fields))
        offset += len(data)
    numbers = [0] * 10
    numbers[7] = count if is_many else 0
    return ident + head + b"".join(programs) + struct.pack(section, *numbers) + b"".join(pieces.values())


# ---- what is written


def small_set():
    """A set, and the pieces of it that acpiset reads, by their addresses. The RSDT alone lists the HPET, and nothing the SSDT."""
    fadt_of = full_fadt(FACS_AT, 244, _40=number(0x9000, 4))
    read = {
        0x1000: rsdt(0x2100, 0, 0x2000, 0x2100, 0x3000),
        0x2000: fadt_of,
        0x2100: madt(lapic(0, 0)),
        0x3000: hpet()[:4],
        0x7000: facs(),
        0x9000: table(b"DSDT", bytes(100)),
        0xF0010: extended_rsdp(0x100000, 0x1000),
        0x100000: xsdt(0x2100, 0, 0x2000, 0x2100),
    }
    return read, {**read, 0x3000: hpet(), 0xA000: table(b"SSDT", bytes(100))}


def of_a_set(cases):
    """What the set reaches, and nothing else; each table is written once."""
    read, whole = small_set()
    text = text_of(read)
    raw_dump(cases, "ram.bin", whole)
    for name, data in (
        ("core64", core_of(whole)),
        ("core32", core_of(whole, 32)),
        ("core64be", core_of(whole, order=">")),
        ("many64", core_of(whole, is_many=True)),
        ("many32", core_of(whole, 32, is_many=True)),
        ("twice64", core_of({**whole, 0xF0000: bytes(16) + whole[0xF0010]})),
    ):
        cases.write(name, data)
        cases.makes("the RSDP is where acpiset find looks", "yes", "memory2image", name, image=text)
    run = cases.makes("RSDP at 0xf0010: check it with --rsdp f0010", "yes", "memory2image", "ram.bin", image=text)
    told = b"slot 0: APIC at 0x2100, 52 bytes", b"slot 1: empty", b"slot 2: FACP at 0x2000, 244 bytes", b"slot 3: APIC at 0x2100, as an earlier slot"
    cases.count("slots that are told", *(f"{line} in {run.stderr.decode()}" for line in told if line not in run.stderr))
    cases.makes("RSDP at 0xf0010", "yes", "memory2image", "--rsdp", "0xf0010", "ram.bin", image=text)
    raw_dump(cases, "low.bin", {at: data for at, data in whole.items() if at < 0xB000}, 0xA000, 0x1000)
    raw_dump(cases, "high.bin", {0x10: whole[0xF0010], 0x10000: whole[0x100000]}, 0x20000)
    cases.makes("RSDP at 0xf0010", "yes", "memory2image", "--base", "1000", "low.bin", "--base", "0xF0000", "high.bin", image=text)
    # A table whose signature a terminal would obey.
    odd = rsdp(0xE0100).ljust(0x100, b"\0") + rsdt(0xE0200).ljust(0x100, b"\0") + b"\x1b[2J" + number(36, 4) + bytes(28)
    cases.makes("slot 0: ?[2J at 0xe0200", "no 3 TableSum 0x0 0xe0200 0x0", "memory2image", "--base", "e0000", cases.write("odd.bin", odd))


def of_real_images(cases):
    """The images of real firmware, in a dump of memory and in an ELF core."""
    for path in sorted(FIRMWARE.glob("*.img.txt")):
        name = path.name
        pieces = with_dsdt(cases, name.removesuffix(".img.txt"), path.read_bytes())
        raw_dump(cases, "ram.bin", pieces, max(at + len(data) for at, data in pieces.items()) + 100)
        cases.write("core", core_of(pieces))
        for dump in ("ram.bin", "core"):
            run = cases.run("memory2image", dump)
            cases.count(f"{name} as {dump}", run.returncode and run.stderr.decode(), kept(cases, pieces, run.stdout))


def with_dsdt(cases, name, text):
    """The pieces of an image, and where its FADT names a DSDT that it does not hold, one: in a raw dump there would be zeros."""
    pieces = read(text).pieces()
    words = ["show", *(["--rsdp", IMAGES[name]] if name in IMAGES else [])]
    dsdt = int(re.search(r"^dsdt (0x[0-9a-f]+)$", cases.answer(words, text)[1], re.M)[1], 16)
    if not any(at <= dsdt < at + len(data) for at, data in pieces.items()):
        pieces[dsdt] = table(b"DSDT", bytes(100))
    return pieces


def kept(cases, pieces, text):
    """What acpiset says otherwise of the text than of all pieces."""
    address = re.search(rb"^# the RSDP\n@([0-9a-f]+)$", text, re.M)[1].decode()
    for command in ("check", "lint", "show"):
        words = [command, "--rsdp", address]
        told, wanted = cases.answer(words, text), cases.answer(words, text_of(pieces))
        if told != wanted:
            return f"{' '.join(words)}: {told}, not {wanted}"
    return ""


def known_sets():
    """The sets of the other tests, each with a name, and with a command and its words."""
    for row in (*ROWS, *MANY):
        words = row.words.split()
        if words[0] == "check":
            yield row.name, row.pieces, words
            yield row.name, row.pieces, ["lint", *words[1:3]]
    for it in (*EXPECTED, *ONE_RULE):
        yield it.name, it.pieces, ["lint", *it.words.split()]
    for it in MISTAKES:
        yield it.name, it.pieces(), ["lint", *it.words.split()]
    for name, pieces, *_ in (*JUDGED, *ALL_LINES):
        yield name, pieces, ["lint", "--rsdp", "e0000"]
    for it in SHOWN:
        yield it.name, it.pieces, ["show", *it.words.split()]


def of_known_sets(cases):
    """Sets that keep and break each rule: acpiset says of what is written what it says of all of the memory."""
    tool = module_of("memory2image")
    written = []
    for name, pieces, words in known_sets():
        if not pieces or isinstance(pieces, bytes) or words[1:2] != ["--rsdp"] or sum(map(len, pieces.values())) > 1 << 20:
            continue
        parts = tool.parts_of(cases.path(cases.write("core", core_of(pieces))), None)
        try:
            written.append((name, words, tool.image_of(tool.Memory(parts), int(words[2], 16)), text_of(pieces)))
        except tool.Refusal as refusal:
            cases.count(name, "does not have 20 bytes" not in str(refusal) and str(refusal))
        os.close(parts[0].dump.stream)
    cases.count("known sets", len(written) < 2000 and f"{len(written)} sets alone")
    cases.in_parallel(lambda row: [(f"{row[0]}, written", difference(cases, *row[1:]))], written)


def difference(cases, words, text, whole):
    """What acpiset says otherwise of the text of what is written than of that of all of the memory."""
    told, wanted = cases.answer(words, text), cases.answer(words, whole)
    return "" if told == wanted else f"{words}: {told}, not {wanted}"


# ---- what lint alone reads


def rsdt_told(size):
    return f"RSDT at 0x1000, {size} bytes, which lint alone reads"


RSDT_TOLD = rsdt_told(56)
DSDT_TOLD = "DSDT at 0x9000, 136 bytes, which lint alone reads"
HPET_DIFFERS = "advice RsdtDiffers 0x10 0x0 0x54455048"
DSDT_WRONG = "advice DsdtWrong 0x28 0x0 0x9000"


def of_rsdts(cases):
    """An RSDT beside an XSDT. The small set with other bytes at some addresses; and where not all of these are written, those that are."""
    lists = [0x2100, 0, 0x2000, 0x2100]
    left_out = {0x1000: b"", 0x3000: b""}
    for name, told, line, changes, written in (
        ("that lists an HPET more", RSDT_TOLD, HPET_DIFFERS, {}, {}),
        ("that lists the same", rsdt_told(52), None, {0x1000: rsdt(*lists)}, {0x3000: b""}),
        ("that lists what is absent", RSDT_TOLD, None, {0x1000: rsdt(*lists, 0xFFFFFFFF), 0x3000: b""}, {}),
        ("that lists three bytes", RSDT_TOLD, None, {0x3000: b"HPE"}, {0x3000: b""}),
        ("that lists four bytes", RSDT_TOLD, HPET_DIFFERS, {0x3000: b"HPET"}, {}),
        ("that lists bytes of the MADT", RSDT_TOLD, "advice RsdtDiffers 0x10 0x0 0x1", {0x1000: rsdt(*lists, 0x2128)}, {0x3000: b""}),
        ("that lists signatures that touch", rsdt_told(68), "advice RsdtDiffers 0x10 0x0 0x38",
         {0x1000: rsdt(*lists, 0x3008, 0x3000, 0x3004, 0x3006)}, {0x3000: hpet()[:12]}),
        ("at 0", None, None, {0xF0010: extended_rsdp(0x100000, 0)}, left_out),
        ("that is the root", "RSDT at 0x1000, 56 bytes", None, {0xF0010: rsdp(0x1000)}, {0x3000: hpet(), 0x100000: b""}),
        ("that is the root of an extended RSDP", "RSDT at 0x1000, 56 bytes", None, {0xF0010: extended_rsdp(0, 0x1000)},
         {0x3000: hpet(), 0x100000: b""}),
        ("outside the dump", "RSDT at 0x1000: the dump holds 0 of the header's 36 bytes: left out", None, {0x1000: b""}, left_out),
        ("without its last byte", "RSDT at 0x1000: 56 bytes, of which the dump holds 55: left out", None, {0x1000: rsdt(*lists, 0x3000)[:-1]}, left_out),
        ("of another signature", "RSDT at 0x1000: has another signature: left out", None, {0x1000: xsdt(0x3000)}, left_out),
        ("of 35 bytes", "RSDT at 0x1000: has a Length of 35: left out", None, {0x1000: changed(rsdt(0x3000), {4: 35})}, left_out),
        ("with a wrong checksum", RSDT_TOLD, HPET_DIFFERS, {0x1000: changed(rsdt(*lists, 0x3000), {9: 0})}, {}),
        ("with three bytes of a slot", rsdt_told(55), None, {0x1000: table(b"RSDT", rsdt(*lists, 0x3000)[36:55])}, {0x3000: b""}),
    ):
        tells_lint(cases, f"an RSDT {name}", [told, DSDT_TOLD], "RsdtDiffers", line, changes, written)


def of_dsdts(cases):
    """The DSDT, in the same way."""
    dsdt = small_set()[1][0x9000]
    header = {0x9000: dsdt[:36]}
    for name, told, line, changes, written in (
        ("with a wrong checksum", DSDT_TOLD, DSDT_WRONG, {0x9000: changed(dsdt, {135: 1})}, {}),
        ("of which the dump holds the header", "DSDT at 0x9000: 136 bytes, of which the dump holds 36: only its header is written", None, header, {}),
        ("without its last byte", "DSDT at 0x9000: 136 bytes, of which the dump holds 135: only its header is written", None, {0x9000: dsdt[:-1]}, header),
        ("of 35 bytes in the dump", "DSDT at 0x9000: the dump holds 35 of the header's 36 bytes: left out", None, {0x9000: dsdt[:35]}, {0x9000: b""}),
        ("outside the dump", "DSDT at 0x9000: the dump holds 0 of the header's 36 bytes: left out", None, {0x9000: b""}, {}),
        ("that is an SSDT", "DSDT at 0x9000: has another signature: only its header is written", DSDT_WRONG,
         {0x9000: table(b"SSDT", bytes(4))}, {0x9000: table(b"SSDT", bytes(4))[:36]}),
        ("of Length 35", "DSDT at 0x9000: has a Length of 35: only its header is written", DSDT_WRONG,
         {0x9000: changed(dsdt, {4: 35})}, {0x9000: changed(dsdt, {4: 35})[:36]}),
        ("of Length 36", "DSDT at 0x9000, 36 bytes, which lint alone reads", None, {0x9000: table(b"DSDT", b"")}, {}),
        ("that overlaps the FACS", "DSDT at 0x6f9c, 136 bytes, which lint alone reads", "advice TablesOverlap 0x6f9c 0x7000 0x7000",
         {0x2000: full_fadt(FACS_AT, 244, _40=number(0x6F9C, 4)), 0x6F9C: table(b"DSDT", bytes(64) + facs()[:36]), 0x7000: b"", 0x7024: facs()[36:]},
         {0x7000: b"", 0x9000: b"", 0x7024: facs()[36:]}),
        ("that X_DSDT names", "DSDT at 0xa000, 136 bytes, which lint alone reads", None,
         {0x2000: full_fadt(FACS_AT, 148, _40=number(0x9000, 4), _140=number(0xA000, 8)), 0xA000: dsdt}, {0x9000: b""}),
        ("that seven bytes of X_DSDT do not name", DSDT_TOLD, None,
         {0x2000: full_fadt(FACS_AT, 147, _40=number(0x9000, 4), _140=b"\0\xa0\0\0\0\0\0")}, {}),
        ("that no field names", None, "advice NoDsdt 0x28 0x0 0x0", {0x2000: full_fadt(FACS_AT, 244)}, {0x9000: b""}),
        ("that a FADT of 115 bytes names", None, "no 4 FadtShort 0x0 0x0 0x0",
         {0x2000: table(b"FACP", full_fadt(_40=number(0x9000, 4))[36:115])}, {0x7000: b"", 0x9000: b""}),
    ):
        tells_lint(cases, f"a DSDT {name}", [RSDT_TOLD, told], "NoDsdt|DsdtWrong|TablesOverlap", line, changes, written)


def tells_lint(cases, name, told, rules, line, changes, written):
    """The tool tells these lines on the RSDT and the DSDT, and writes these pieces. lint says of them what it says of all of the memory;
    this line is among its lines, or, if it is None, there is no line on these rules."""
    read, whole = small_set()
    pieces = {at: data for at, data in {**whole, **changes}.items() if data}
    wanted = {at: data for at, data in sorted({**read, **changes, **written}.items()) if data}
    cases.write("core", core_of(pieces))
    run = cases.run("memory2image", "--rsdp", "f0010", "core")
    lines = re.findall("^memory2image: ([RD]SDT at .*)", run.stderr.decode(), re.M)
    bare = re.sub(rb"^#.*\n", b"", run.stdout, flags=re.M)
    words = ["lint", "--rsdp", "f0010"]
    _, linted = cases.answer(words, run.stdout)
    is_told = line in linted.split("\n") if line else not re.search(rules, linted)
    cases.count(
        name,
        lines != [one for one in told if one] and f"it tells {lines}, not {told}",
        bare != text_of(wanted) and f"another image: {bare.decode()}",
        difference(cases, words, run.stdout, text_of(pieces)),
        not is_told and f"lint says {linted}, not {line}",
    )


def of_large_ones(cases):
    """A DSDT and an RSDT of which an image does not hold all. check reads all that it would read."""
    read, _ = small_set()
    fadt_of = full_fadt(FACS_AT, 244, _40=number(0x1000000, 4))
    checked = {at: data for at, data in read.items() if at not in (0x1000, 0x3000, 0x9000)}
    checked = {**checked, 0x2000: fadt_of, 0xF0010: extended_rsdp(0x100000, 0x2800000)}
    longer = changed(table(b"DSDT", b""), {4: 1, 7: 1})
    large = table(b"DSDT", bytes(0xF00000))
    for told, dsdt, root, written in (
        ("DSDT at 0x1000000: 16777217 bytes, more than an image holds: only its header is written",
         longer, rsdt(), {0x1000000: longer, 0x2800000: rsdt()}),
        ("RSDT at 0x2800000: 16777220 bytes, more than an image holds: left out", table(b"DSDT", b""),
         changed(rsdt(), {4: 4, 7: 1}), {0x1000000: table(b"DSDT", b"")}),
        ("RSDT at 0x2800000: lists tables at more than 500000 places, more than an image holds: left out", table(b"DSDT", b""),
         rsdt(*range(0x1000000, 0x1000000 + 8 * 500_001, 8)), {0x1000000: table(b"DSDT", b"")}),
        ("what lint alone reads makes the text too long: left out", large, table(b"RSDT", bytes(0xF00000)), {}),
    ):
        pieces = {**checked, 0x1000000: dsdt, 0x2800000: root}
        cases.makes(told, "yes", "memory2image", raw_dump(cases, "large.bin", pieces, 64 << 20), image=text_of({**checked, **written}))


# ---- the RSDP


def of_the_search(cases):
    """Which RSDP is taken."""
    # An RSDT at 0x1000 and an XSDT at 0x1100, each with a FADT alone.
    tables = {0x1000: rsdt(0x2000), 0x1100: xsdt(0x2000), 0x2000: fadt()}
    new, old, lost = extended_rsdp(0x1100, 0), rsdp(0x1000), rsdp(0x5000)
    broken = bytes([*new[:35], new[35] ^ 1])
    wrong = changed(new, {9: 0x42})
    entry = {0x600008: UEFI + number(0x700014, 8)}
    for name, told, pieces in (
        ("where acpiset find looks, before all others", "0xe0010", {0xE0010: old, 0x20: new, 0x700014: new, **entry}),
        ("where UEFI says", "0x700014", {0x700014: new, 0x700000: old, 0x30: new, **entry}),
        ("an entry of UEFI that leads to none", "0x30", {0x30: new, **entry}),
        ("an entry of UEFI at no multiple of 8", "0x30", {0x700014: new, 0x30: new, 0x600004: UEFI + number(0x700014, 8)}),
        ("on a multiple of 16", "0x40", {0x24: new, 0x40: new}),
        ("at no multiple of 16", "0x700014", {0x700014: new}),
        ("the extended form", "0x700014", {0x700000: old, 0x700014: new}),
        ("one that leads to a root", "0x60", {0x20: lost, 0x60: old}),
        ("one with the right checksums", "0x100", {0x20: wrong, 0x60: broken, 0x100: new}),
        ("one that leads to no root", "0x20", {0x20: lost}),
        ("one at the end", "0xffffdc", {0xFFFFDC: new}),
    ):
        run = cases.run("memory2image", raw_dump(cases, "ram.bin", {**tables, **pieces}))
        cases.count(f"the RSDP: {name}", f"RSDP at {told}: check".encode() not in run.stderr and run.stderr.decode(), run.returncode and "its status")
    run = cases.run("memory2image", raw_dump(cases, "ram.bin", {**tables, 0x20: new, 0x60: old}))
    cases.count("other RSDPs are told", b"another RSDP at 0x60: if it is that one, give --rsdp 60" not in run.stderr and run.stderr.decode())
    halves = {**tables, 0x700000: bytes(16) + new[:5], 0x700015: new[5:]}
    cases.write("halves", core_of(halves))
    cases.makes("RSDP at 0x700010", "yes", "memory2image", "halves")
    # One that begins in a part of a few bytes after a gap, and one of which each byte is a part.
    for name, at in (("one byte", [1]), ("three bytes", [3]), ("seven bytes", [7, 30]), ("each byte", range(1, 36))):
        pieces = {**tables, **{0x700010 + begin: new[begin:end] for begin, end in zip([0, *at], [*at, 36])}}
        cases.write("parts", core_of(pieces))
        run = cases.makes("RSDP at 0x700010", "yes", "memory2image", "parts")
        cases.count(f"an RSDP that begins in a part of {name}", b"another" in run.stderr and run.stderr.decode())
    told = "no RSDP found: its signature is at 2 places, none with a valid checksum"
    cases.refuses(told, "memory2image", raw_dump(cases, "ram.bin", {0x20: wrong, 0x60: broken}))
    cases.refuses("no RSDP found: its signature is at 0 places", "memory2image", raw_dump(cases, "ram.bin", tables))
    many = cases.write("signatures", b"RSD PTR " * 1_000_100)
    told = "more than 1000000 places have the signature of an RSDP: those from 0x7a1200 on are skipped"
    cases.refuses(told, "memory2image", "--base", "0", many)


# ---- what is wrong with dumps


def of_lengths(cases):
    """Lengths beyond the dump, and beyond what an image holds."""
    def dump(name, **more):
        read, _ = small_set()
        return raw_dump(cases, name, {**read, **{int(at[1:], 16): data for at, data in more.items()}}, 64 << 20)

    long = hpet()[:4] + number(0x3000000, 4) + hpet()[8:]
    told = "slot 0: HPET at 0x2100, 50331648 bytes, more than an image holds: only 36 are written, and check will say TableOut"
    cases.makes(told, "no 3 TableOut 0x0 0x2100 0x0", "memory2image", dump("long.bin", _2100=long))
    longer = hpet()[:4] + b"\xff" * 4 + hpet()[8:]
    held = (64 << 20) - 0x2100
    told = f"slot 0: HPET at 0x2100, 4294967295 bytes, of which the dump holds {held}: check will say TableOut"
    cases.makes(told, "no 3 TableOut 0x0 0x2100 0x0", "memory2image", dump("longer.bin", _2100=longer))
    short = hpet()[:4] + number(35, 4) + hpet()[8:]
    cases.makes("slot 0: HPET at 0x2100", "no 3 TableLength 0x0 0x2100 0x0", "memory2image", dump("short.bin", _2100=short))
    outside = xsdt(0x2000, 2**64 - 36, 2**63)
    told = "slot 2:  at 0x8000000000000000: the dump holds 0 of the header's 36 bytes: check will say TableHeaderOut"
    cases.makes(told, "no 3 TableHeaderOut 0x1 0xffffffffffffffdc 0x0", "memory2image", dump("outside.bin", _100000=outside))
    cases.makes("has another signature: check will say RootSignature", "no 2 RootSignature 0x100000 0x0 0x0", "memory2image", dump("root.bin", _100000=hpet()))
    cases.makes("the RSDP names no root table: check will say NoRoot", "no 2 NoRoot 0xf0010 0x0 0x0", "memory2image", dump("none.bin", _F0010=extended_rsdp(0, 0)))


SHRINKING = """
import os, sys
sys.path.insert(0, sys.argv[2])
from tool_cases import module_of
tool = module_of("memory2image")

def job(arguments):
    memory = tool.Memory(tool.parts_of(arguments[0], None))
    os.truncate(arguments[0], 800)
    return tool.image_of(memory, None)

tool.run(job)
"""


def of_a_shrinking_dump(cases):
    """A file that becomes shorter while it is read is a failed read."""
    folder = os.path.dirname(os.path.abspath(__file__))
    for name, data in (("raw", bytes(1 << 21)), ("core", core_of(small_set()[1]))):
        cases.write("shrinking", data)
        words = [sys.executable, "-c", SHRINKING, "shrinking", os.path.dirname(folder)]
        environment = {**os.environ, "PYTHONPATH": folder}
        run = subprocess.run(words, capture_output=True, cwd=cases.folder, timeout=600, env=environment)
        told = b"shrinking: the file has shrunk while it was read\n"
        cases.count(f"a {name} that shrinks", (run.returncode, run.stdout) != (4, b"") and f"status {run.returncode}", told not in run.stderr and run.stderr.decode())


def refused(cases):
    read, whole = small_set()
    refuses, write = cases.refuses, cases.write
    for words in ([], ["--help"], ["--base", "0"], ["ram.bin", "--base", "0"], [""]):
        refuses("usage: memory2image [--rsdp HEX] [--base HEX] FILE", "memory2image", *words, status=2)
    refuses("FILE is a dump of memory: an ELF core, as QEMU's dump-guest-memory writes it, or bytes from the address --base on", "memory2image", status=2)
    for word in ("", "g", "0x", "1" * 17, "-1", "1_0", " 1"):
        refuses("expected 1 to 16 hex digits", "memory2image", "--rsdp", word, "ram.bin", status=2)
    refuses("absent.bin: cannot be read: No such file or directory", "memory2image", "absent.bin")
    refuses("folder: a directory: give the dump's file", "memory2image", "folder")
    refuses("old.image: image text: acpiset reads it itself, as in acpiset check < IMAGE", "memory2image", "old.image")
    refuses("whole.txt: text of acpidump: use acpidump2image", "memory2image", "whole.txt")
    refuses("apic.dat: one raw table, APIC: use tables2image; or give --base, if it is a raw dump", "memory2image", "apic.dat")
    refuses("no RSDP found", "memory2image", "--base", "0", "apic.dat")
    refuses("/dev/zero: not a regular file: copy it first, as with dd", "memory2image", "/dev/zero")
    refuses("empty.bin: empty", "memory2image", write("empty.bin", b""))
    refuses("the dump does not have 20 bytes at 0xffffffffffffffff", "memory2image", "--rsdp", "f" * 16, "ram.bin")
    refuses("the dump does not have 20 bytes at 0xfffff0", "memory2image", "--rsdp", "fffff0", "ram.bin")
    for name, begin, told in (
        ("packed", b"\x1f\x8b\x08", "gzip data: unpack it with gunzip"),
        ("kdump", b"KDUMP   ", "a compressed dump of kdump: dump without -z, -l and -s"),
        ("windows", b"PAGEDU64", "a dump for Windows: dump without -w"),
    ):
        refuses(told, "memory2image", write(name, begin + bytes(5000)))
    core = core_of(whole)
    refuses("an ELF file, but not a core", "memory2image", write("program", core_of(whole, kind=2)))
    for size in (16, 40, 63):
        refuses("an ELF file without a complete header", "memory2image", write("cut", core[:size]))
    refuses("an ELF core without complete program headers: is it truncated?", "memory2image", write("cut", core[:200]))
    refuses("an ELF core that holds no memory: is it truncated?", "memory2image", write("cut", core[: len(core) - sum(map(len, whole.values()))]))
    refuses("an ELF core whose parts are all at 0: is it of a process?", "memory2image", write("process", process()))
    refuses("an ELF core of more than 1000000 parts", "memory2image", write("parts", parts_of_none()))
    cases.makes("fewer bytes than the program headers say, the first time from 0xa074", "yes", "memory2image", write("cut", core[:-20]))
    paged = core_of(whole, memory_sizes=[(0, 0x1000)])
    cases.makes("is it truncated, or dumped with -p?", "yes", "memory2image", write("paged", paged))


def process():
    """A core of a process: its parts have no physical addresses."""
    core = bytearray(core_of({1: b"abcd", 2: b"efgh"}))
    for place in (1, 2):
        core[64 + 56 * place + 24 : 64 + 56 * place + 32] = bytes(8)
    return bytes(core)


def parts_of_none():
    """A core that says that it has 1,000,001 parts, and has room for as many headers."""
    core = bytearray(core_of({}, is_many=True))
    at = int.from_bytes(core[40:48], "little")
    core[at + 44 : at + 48] = number(1_000_001, 4)
    return bytes(core) + bytes(56 * 1_000_001)


def all_cases(cases):
    for part in (of_a_set, of_real_images, of_known_sets, of_rsdts, of_dsdts, of_large_ones, of_the_search, of_lengths, of_a_shrinking_dump, refused):
        part(cases)
    for name in os.listdir(cases.folder):
        if os.path.isfile(cases.path(name)) and os.path.getsize(cases.path(name)) > 1 << 24:
            os.remove(cases.path(name))
