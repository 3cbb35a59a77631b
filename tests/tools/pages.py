"""Cases of tools/report --format html: the pages are read back from their XML, and compared with the lines of show."""

from __future__ import annotations

import os
import re
import subprocess
import sys

from acpi_images.known.rows import ROWS
from acpi_images.program import FIRMWARE, IMAGES
from acpi_images.tables import *
from acpi_images.text import read, text_of
from browser import Browser
from page_reader import Page, said_at
from tool_cases import TOP, module_of

MOST_BYTES = 1_000_000
EXAMPLE = FIRMWARE / "example.img.txt"
CHANGES = re.compile(r"`@([0-9a-f]+) ([0-9a-f\s-]+)`")
HOSTILE = '<script>alert("1")</script>\'&\x01\x1b\u202e\ufffe'
REPORT = module_of("report")


# ---- sets, each with the words after the format


def firmware():
    for name, rsdp in IMAGES.items():
        yield name, (FIRMWARE / f"{name}.img.txt").read_bytes(), ["--rsdp", rsdp]


def large_set():
    """4,096 processors in 64 localities, some of which are online capable and some of which are off, with memory, and two distances that
    differ by direction."""
    states = [1 if at < 3000 else 2 if at < 3500 else 0 for at in range(4096)]
    processors = [x2apic(at, at, state) if at > 254 else lapic(at, at) for at, state in enumerate(states)]
    affinities = [x2apic_domain(at, at % 64) for at in range(4096)]
    ranges = [memory(at << 32, 1 << 32, 1, at) for at in range(64)]
    cells = [10 if row == column else 11 + (row * column + row + column) % 60 for row in range(64) for column in range(64)]
    cells[1] += 1
    leaves = [node(0, 1, 0), *(leaf(at, 36) for at in range(4096))]
    tables = [full_fadt(), madt(*processors, io_apic(0xFEC00000, 0)), srat(*affinities, *ranges), slit(64, cells), pptt(*leaves)]
    places = [TABLES_AT, 0x100000, 0x200000, 0x300000, 0x400000]
    return {RSDP_AT: rsdp(), RSDT_AT: rsdt(*places), FACS_AT: facs(), **dict(zip(places, tables))}


def numa_set():
    """Two ranges that overlap, one hot-pluggable, one disabled and one of length 0; distances that differ by direction."""
    ranges = [memory(0, 1 << 30), memory(0x30000000, 1 << 30, 1, 1), memory(1 << 33, 1 << 32, 3, 1), memory(1 << 40, 4096, 0), memory(0, 0)]
    processors = madt(*(lapic(at, at, 1 + (at > 5)) for at in range(8)), io_apic(0xFEC00000, 0), io_apic(0xFEC01000, 24, 1))
    affinities = [apic_domain(at, at % 2) for at in range(8)]
    return image_of(fadt(), processors, srat(*affinities, *ranges), slit(2, [10, 20, 30, 10]))


def interrupt_set():
    """I/O APICs two of which overlap, and overrides of which one leads nowhere and one is of no interrupt of the ISA bus."""
    io_apics = [io_apic(0xFEC00000, 0), io_apic(0xFEC01000, 16, 1), io_apic(0xFEC02000, 1000, 2)]
    overrides = [override(0, 2), override(9, 9, 13), override(5, 70), override(200, 7)]
    entries = madt(lapic(0, 0), *io_apics, *overrides, nmi_source(5), lapic_nmi(255, 1))
    return image_of(full_fadt(_46=b"\x09\0"), entries, others={FACS_AT: facs()})


def topology_set():
    """Cycles of nodes and of caches, a node that leads into one, a parent that is no node, and subtrees that are alike."""
    at = [36 + 20 * place for place in range(10)]
    caches = at[9] + 24
    nodes = [node(0, 1), node(at[0]), leaf(0, at[1]), leaf(1, at[1]), node(0x999, 2, 7)]
    nodes += [node(at[6], 2, 8), node(at[5], 2, 9), node(at[6], 2, 10), leaf(2, at[0]), node(at[0], LEAF, 3, [caches])]
    rings = [cache(caches + 24, flags=1, size=65536), cache(caches, flags=1, size=65536)]
    return listed(madt(*(lapic(uid, uid) for uid in range(4))), pptt(*nodes, *rings))


def riscv_set():
    harts = madt(rintc(0), rintc(1, 2), rintc(2, 0))
    return image_of(fadt(), harts, srat(hart_domain(0, 0), hart_domain(1, 1), memory(0x80000000, 1 << 31)))


def loong_set():
    return image_of(fadt(), madt(core_pic(0, 16), core_pic(1, 17, 0)), srat(x2apic_domain(16, 3)))


def sets():
    yield from firmware()
    yield "the example", EXAMPLE.read_bytes(), []
    for make in (numa_set, interrupt_set, topology_set, riscv_set, loong_set):
        yield make.__name__, text_of(make()), ["--rsdp", "e0000"]


# ---- pages


def made(cases, text, words, status=None):
    """The page of an image, made in this process."""
    cases.write("image.txt", text)
    data, found = REPORT.job(["--format", "html", *words, cases.path("image.txt")])
    assert found == status if status is not None else found in (0, 1), f"status {found}"
    return Page(data.decode())


def numbers_in(lines, pattern):
    """The numbers of each line that has this form, by the form's groups."""
    return sorted(tuple(int(number, 0) for number in found.groups()) for found in (re.fullmatch(pattern, line) for line in lines) if found)


def told_in(titles, pattern):
    return sorted(tuple(int(number, 0) for number in found.groups()) for found in (re.match(pattern, title) for title in titles) if found)


def compared(page, lines):
    """Where the pictures have other numbers than the lines of show."""
    ranges = numbers_in(lines, r"(0x\w+) memory domain (\d+) base (0x\w+) length (0x\w+) flags (0x\w+)")
    ranges = sorted((base, base + size - 1, domain, at) for at, domain, base, size, flags in ranges if flags & 1 and size)
    yield "ranges", told_in(page.titles("memory"), r"(0x\w+) to (0x\w+), .*, domain (\d+).*; entry at (0x\w+)"), ranges
    io_apics = numbers_in(lines, r"(0x\w+) ioapic id (\d+) address (0x\w+) base (\d+)")
    io_apics = sorted((id_, address, base, base + 23, at) for at, id_, address, base in io_apics)
    yield "I/O APICs", told_in(page.titles("interrupts"), r"I/O APIC (\d+) at (0x\w+): (\d+) to (\d+), .*; entry at (0x\w+)"), io_apics
    overrides = sorted((source, gsi, at) for at, source, gsi in numbers_in(lines, r"(0x\w+) override source (\d+) gsi (\d+) flags \w+"))
    yield "overrides", told_in(page.titles("interrupts"), r"ISA interrupt (\d+) is (\d+),.*; entry at (0x\w+)"), overrides
    rows = [line.split() for line in lines if line.startswith("row ")]
    wanted = [(int(row[1]), column, int(distance)) for row in rows for column, distance in enumerate(row[2:])]
    cells = [title.replace("unreachable", "255") for title in page.titles("distances")]
    yield "cells", told_in(cells, r"from (\d+) to (\d+): (\d+)"), wanted
    processors = numbers_in(lines, r"(0x\w+) (?:lapic|x2apic) uid (\d+) id (\d+) flags (0x\w+)")
    named = {"enabled": 1, "online capable": 2, "disabled": 0}
    wanted = sorted((at, uid, id_, flags & 1 or flags & 2) for at, uid, id_, flags in processors)
    title = re.compile(r"UID (\d+), ID (\d+).*, (enabled|online capable|disabled), local (?:x2)?APIC at (0x\w+)")
    found = filter(None, map(title.match, page.titles("processors")))
    yield "processors", sorted((int(one[4], 0), int(one[1]), int(one[2]), named[one[3]]) for one in found), wanted
    yield "nodes", page.nodes(), len(numbers_in(lines, r"(0x\w+) node .*"))
    tables = sorted(set(re.findall(r"^slot \d+ (0x\w+) ....", "\n".join(lines), re.M)))
    drawn = {title.partition(" at ")[2].split(",")[0] for title in page.titles("map")[1:]}
    yield "tables", [address for address in tables if address not in drawn], []


def read_back(cases):
    """Each picture has what the lines of show say."""
    for name, text, words in sets():
        page = made(cases, text, words)
        _, lines = cases.answer(["show", *words], text)
        cases.count(f"the page of {name}", page.problems())
        for what, found, wanted in compared(page, lines.splitlines()):
            cases.count(f"{what} of {name}", found != wanted and f"{found}, not {wanted}")
        folded = page.words("pre")[-1:]
        cases.count(f"the lines of {name}", folded != [lines] and f"{folded}")


def from_bytes(cases):
    """What show writes no fields of."""
    parts = ["distributor at 0x8000000", "redistributors at 0x80a0000", "ITS at 0x8080000"]
    has_titles(cases, page_of("q11-efi-virt-caches", cases), gic=parts, processors=["UID 0, enabled, GICC at", "UID 7, enabled, GICC at"])
    parts = ["distributor at 0x8000000", "CPU interfaces at 0x8010000", "MSI frames at 0x8020000"]
    has_titles(cases, page_of("q10-efi-virt-smp4", cases), gic=parts, processors=["UID 3, enabled, GICC at"])
    harts = ["UID 0, hart 1, enabled, RINTC", "UID 1, hart 2, online capable, RINTC", "UID 2, hart 3, disabled, RINTC"]
    has_titles(cases, made(cases, text_of(riscv_set()), []), processors=harts)
    page = made(cases, text_of(loong_set()), [])
    has_titles(cases, page, processors=["UID 0, ID 16, enabled, CORE PIC", "UID 1, ID 17, disabled, CORE PIC"])
    said = page.by_id["processors-text"].text
    cases.count("the domain of a core", "Domain 3: 1 processor, 1 enabled." not in said and said)


def page_of(name, cases):
    """The page of an image of real firmware."""
    return made(cases, (FIRMWARE / f"{name}.img.txt").read_bytes(), ["--rsdp", IMAGES[name]])


def has_titles(cases, page, **wanted):
    """Each picture has elements whose titles begin like this."""
    for picture, titles in wanted.items():
        missing = [title for title in titles if not any(one.startswith(title) for one in page.titles(picture))]
        cases.count(f"{picture} by bytes", missing and f"no {missing} in {page.titles(picture)}")


# ---- findings


def examples():
    """The images of the examples of FAULTS.md, with their lines."""
    with open(os.path.join(TOP, "docs", "FAULTS.md"), encoding="utf-8") as file:
        page = file.read()
    # The advice's examples begin with the bytes of the sections before them, so that the example itself breaks no rule.
    sections = [*re.finditer(r"^### Examples of advice[^\n]*$(.*?)^##", page, re.M | re.S)]
    for found in re.finditer(r"^- Example: (.*?): `((?:no|advice) [^`]*)`\.$", page, re.M | re.S):
        first = "".join(section[1] for section in sections if section.end() < found.start())
        yield found[2], changed_example(first + found[1])


def changed_example(changes):
    image = read(EXAMPLE.read_bytes())
    for address, data in CHANGES.findall(changes):
        for at, pair in enumerate(data.split(), int(address, 16)):
            image.drop(at, 1)
            if pair != "--":
                image.put(at, bytes.fromhex(pair))
    return text_of(image.pieces())


def rows_of_faults():
    """The first row of each fault that a row has."""
    seen = set()
    for row in ROWS:
        name = row.answer.split()[2:3]
        if row.answer.startswith("no ") and len(row.answer.split()) == 6 and "--through" not in row.words and name[0] not in seen:
            seen.add(name[0])
            yield row.answer, row.words.split()[1:], text_of(row.pieces)


def findings(cases):
    """Each finding has a card, which leads to an element of a picture that names it."""
    known = [(line, ["--rsdp", "e0000"], text) for line, text in examples()] + list(rows_of_faults())
    cases.count("lines with examples", len(known) < 100 and f"{len(known)}")
    for line, words, text in known:
        page = made(cases, text, words)
        wrong = [page.problems()] if page.problems() else []
        if line not in [told for _, told, _ in page.cards()]:
            wrong.append(f"no card, of {page.cards()}")
        for name, told, element in page.cards():
            if element is None or name not in said_at(element):
                wrong.append(f"{told}: {'no link' if element is None else said_at(element)}")
        cases.count(f"the page of {line}", "; ".join(wrong))


def marked_twice(cases):
    """The pictures show each of the two places that some findings are about."""
    known = {line.split()[1]: text for line, text in examples()}
    for name, picture, titles in (
        ("S4BiosDiffers", "map", ["Fixed ACPI Description Table", "Firmware ACPI Control Structure"]),
        ("DsdtText", "map", ["Fixed ACPI Description Table", "Differentiated System Description Table"]),
        ("SameGicrBase", "processors", ["UID 2", "UID 3"]), ("SameMpidr", "processors", ["UID 2", "UID 3"]),
    ):
        found = [title for title in made(cases, known[name], ["--rsdp", "e0000"]).titles(picture) if f"; advice 1: {name}" in title]
        missing = [title for title in titles if not any(one.startswith(title) for one in found)]
        cases.count(f"the places of {name}", missing and f"{missing} are not in {found}", len(found) != len(titles) and f"{found}")


def read_by_advice(cases):
    """Of tables that only rules of advice read the first one of a kind is drawn as checked in part, and marked; a later one is not."""
    mcfg, spcr = "PCI Memory-Mapped Configuration Space Table", "Serial Port Console Redirection Table"
    page = page_of("q10-efi-virt-smp4", cases)
    gtdt, hmat = "Generic Timer Description Table", "Heterogeneous Memory Attribute Table"
    titles = f"{mcfg} at 0x4f0b0a98", f"{spcr} at 0x4f0b0918", f"{gtdt} at 0x4f0b0818"
    has_titles(cases, page, map=[f"{title}, contents checked in part" for title in titles])
    cases.count("tables checked by advice", "60 bytes: checked by advice" not in page.text and page.titles("map"))
    for name, title in (
        ("sb-q35-hmat", f"{hmat} at 0xffe232f"), ("sb-q35-intel-iommu", "DMA Remapping Table at 0x7fe2214"),
        ("sb-q35-amd-iommu", "I/O Virtualization Reporting Structure at 0x7fe2225"),
    ):
        has_titles(cases, page_of(name, cases), map=[f"{title}, contents checked in part"])
    twice = [table(b"MCFG", bytes(8) + number(0xE0000000, 8) + bytes(8))] * 2
    page = made(cases, text_of(image_of(sound_fadt(), *twice)), ["--rsdp", "e0000"], 0)
    titles = [f"{mcfg} at 0x3000, contents checked in part", f"{mcfg} at 0x4000, header, Length, checksum"]
    has_titles(cases, page, map=[f"{title}; advice 1: SecondOther" for title in titles])


def cards_have(cases):
    """The parts of a card."""
    page = made(cases, text_of(numa_set()), ["--rsdp", "e0000"], 1)
    card = page.words("article")[0]
    for words in ("Two enabled memory ranges overlap.", "Fix: Make each range begin", "Severity", "fault", "Numbers: at and other"):
        cases.count(f"the card of an overlap: {words}", words not in card and card)
    cases.count("what the image has", "both cover 0x30000000 to 0x3fffffff" not in card and card)
    page = made(cases, text_of(image_of(fadt(), srat(), hpet(), hpet(), slots=(0x2000, 0x3000, 0x4000, 0x4000))), ["--rsdp", "e0000"])
    cases.count("the severity of advice", "advice: likely wrong" not in page.words("article")[0] and page.words("article"))


def pictures_have(cases):
    """What pictures have beside the numbers of show."""
    text = text_of(numa_set())
    page = made(cases, text, ["--rsdp", "e0000"], 1)
    bands = [title for title in page.titles("memory") if "is in 2 ranges" in title]
    cases.same("the band of an overlap", bands, ["0x30000000 to 0x3fffffff, 256 MiB, is in 2 ranges: 0xb0, 0xd8"])
    has_note(cases, page, "Not drawn, not enabled: 0x128. Not drawn, enabled and of length 0: 0x150.")
    has_note(cases, page, "Outlined: 1 pair with another distance back.")
    cases.count("its size as a text", "256 MiB twice" not in page.text and "missing")
    apart = text_of(image_of(fadt(), srat(memory(0, 1 << 30), memory(0, 1 << 32, 3))))
    page = made(cases, apart, ["--rsdp", "e0000", "--hotplug", "apart"], 0)
    is_window = 'class="band window"' in page.text and 'class="band fault"' not in page.text
    cases.count("a window that is apart", not is_window and "another band")
    page = made(cases, text_of(interrupt_set()), ["--rsdp", "e0000", "fec00000=16", "fec01000=8"], 1)
    given, assumed = "I/O APIC 0 at 0xfec00000: 0 to 15, 16 inputs, given", "I/O APIC 2 at 0xfec02000: 1000 to 1023, 24 inputs, assumed"
    has_titles(cases, page, interrupts=[given, assumed])
    has_titles(cases, page, interrupts=["SCI_INT of the FADT is 9", "NMI source: 5", "ISA interrupt 200 is 7"])
    has_note(cases, page, "NMIs of local APICs: LINT1 of all processors.")
    how = re.search("Checked by acpiset [0-9.]+, with --rsdp 0xe0000 fec00000=16 fec01000=8[.]", notes_of(page))
    cases.count("which options it was checked with", not how and notes_of(page))
    has_note(cases, page_of("q11-efi-virt-caches", cases), "8 of type 11 (GICC), checked by advice")
    has_titles(cases, made(cases, EXAMPLE.read_bytes(), []), map=["Fixed ACPI Description Table at 0x2000, contents checked"])
    page = made(cases, text, ["--rsdp", "e0000", "--through", "9"], 0)
    has_titles(cases, page, map=["System Locality Information Table at 0x5000, header, Length, checksum"])
    told = verdict_of(page)
    has_fault = any(name == "Overlap" for name, *_ in page.cards())
    cases.count("a check through a stage", "through stage 9 of 18" not in told and told, has_fault and "a fault of a later stage")
    page = made(cases, changed_example("`@4009 00`"), [], 1)
    has_titles(cases, page, map=["RSDP at 0xe0000", "XSDT at 0x1000", "System Resource Affinity Table at 0x4000"])
    cases.count("a set with a wrong checksum", page.picture("memory") is None and "no picture of memory")
    page = made(cases, text_of(image_of(fadt(), srat(), hpet()[:-1])), ["--rsdp", "e0000"], 1)
    has_titles(cases, page, map=["System Resource Affinity Table at 0x3000", "not complete at 0x4000"])
    page = made(cases, text_of({RSDP_AT: rsdp()}), ["--rsdp", "e0000"], 1)
    cases.count("a set without a root", "there is no complete root table" not in notes_of(page) and notes_of(page))
    run = cases.run("report", "--format", "html", "--strict", "--rsdp", IMAGES["q11-efi-virt-caches"], FIRMWARE / "q11-efi-virt-caches.img.txt")
    cases.count("advice with --strict", run.returncode != 1 and f"{run}", b"advice fails too" not in run.stdout and "not told")


def verdict_of(page):
    return page.words("p", "verdict")[0]


def notes_of(page):
    """The notes below the verdict."""
    return " ".join(page.words("li"))


def has_note(cases, page, words):
    """A line below a picture has these words."""
    notes = page.words("p", "note")
    cases.count(f"the note {words}", not any(words in note for note in notes) and f"{notes}")


# ---- lines in place of an image


def from_lines(cases):
    text = text_of(numa_set())
    linted, shown = (cases.answer([command, "--rsdp", "e0000"], text)[1] for command in ("lint", "show"))
    no_image, no_pictures = "Not drawn, as there is no image", "No pictures"
    for name, data, status, missing in (
        ("lint", linted, 1, [no_pictures]),
        ("show", shown, 0, ["No verdict", no_image]),
        ("lint and show", f"{linted}\n{shown}", 1, [no_image]),
        ("yes", "yes", 0, [no_pictures]),
        ("no rsdp", "no rsdp", 1, [no_pictures]),
        ("find", "rsdp 0xe0000", 0, [no_pictures]),
    ):
        run = cases.run("report", "--format", "html", data=data.encode() + b"\n")
        page = Page(run.stdout.decode())
        has_pictures = page.picture("memory") is not None
        cases.count(
            f"the page of lines of {name}", run.returncode != status and f"{run}", page.problems(),
            *(f"no note {note}" for note in missing if note not in notes_of(page)), has_pictures == (no_pictures in missing) and "its pictures",
        )
    for data, words, status in ((b"", [], 3), (b"", ["--status", "3"], 3), (b"yes\n", ["--status", "4"], 4)):
        run = cases.run("report", "--format", "html", *words, data=data)
        told = verdict_of(Page(run.stdout.decode()))
        cases.count(f"a page without a verdict {words}", run.returncode != status and f"{run}", not told.startswith("no verdict") and told)
    cases.refuses("line 2: 'x': not a line that acpiset writes there", "report", "--format", "html", data=b"yes\nx\n", status=3)
    number = len(linted.splitlines()) + 2
    lines = f"{linted}\n{shown.splitlines()[0]}\nx\n".encode()
    cases.refuses(f"line {number}: 'x': not a line of acpiset show", "report", "--format", "html", data=lines, status=3)


# ---- files


def dumps(cases):
    """What the other tools make image text of, and the address of the RSDP."""
    pieces = numa_set()
    dump = bytearray(0x200000)
    for at, data in pieces.items():
        dump[at : at + len(data)] = data
    cases.write("memory.bin", bytes(dump))
    for files, status, tool, picture in (
        (["whole.txt"], 0, "text of acpidump, made into image text by acpidump2image", "interrupts"),
        (["zeros.txt"], 1, "text of acpidump, made into image text by acpidump2image", "interrupts"),
        (["memory.bin"], 1, "a dump of memory, made into image text by memory2image", "memory"),
        (["facp.dat", "apic.dat", "facs.dat"], 0, "raw tables, made into image text by tables2image", "interrupts"),
        (["apic.dat"], 0, "raw tables, made into image text by tables2image", "interrupts"),
    ):
        run = cases.run("report", "--format", "html", *files)
        page = Page(run.stdout.decode())
        cases.count(
            f"the page of {files}", run.returncode != status and f"{run}", page.problems(), page.picture(picture) is None and "no picture",
            tool not in notes_of(page) and notes_of(page), tool not in run.stderr.decode() and f"{run.stderr}",
        )
    text = text_of(pieces)
    cases.write("image.txt", text)
    lines = cases.answer(["lint"], text)[1].encode() + b"\n"
    for form in ("json", "tap", "junit", "sarif"):
        of_lines = cases.run("report", "--format", form, "--image", "image.txt", data=lines)
        of_file = cases.run("report", "--format", form, "image.txt")
        cases.same(f"{form} of a file", (of_file.stdout, of_file.returncode), (of_lines.stdout, of_lines.returncode))
    of_file = cases.run("report", "--format", "html", "image.txt").stdout
    for name in ("-", "/dev/stdin"):
        run = cases.run("report", "--format", "html", "--image", "image.txt", name, data=text)
        cases.same(f"an image in a pipe, {name}", (run.stdout, run.stderr), (of_file, b""))


def bad_files(cases):
    """A clear line, and the status that the other formats have."""
    cases.write("image.txt", text_of(numa_set()))
    for told, status, words in (
        ("nowhere: cannot be read: No such file or directory", 3, ["nowhere"]),
        ("folder: a directory: give the files in it, as folder/*", 3, ["folder"]),
        ("image.txt: image text: give one such file at a time", 3, ["image.txt", "image.txt"]),
        ("whole.txt: text of acpidump: give one such file at a time", 3, ["facp.dat", "whole.txt"]),
        ("nowhere: no such file", 3, ["nowhere", "cut.dat"]),
        ("argument --rsdp: expected 1 to 16 hex digits", 2, ["--rsdp", "x", "image.txt"]),
        ("argument --through: expected a number from 1 to 18", 2, ["--through", "19", "image.txt"]),
        ("expected a number from 1 to 256 in ADDRESS=COUNT", 2, ["0=257", "image.txt"]),
        ("usage: report --format", 2, ["--rsdp", "e0000"]),
        ("usage: report --format", 2, ["--status", "1", "image.txt"]),
        ("usage: report --format", 2, ["--json", "image.txt"]),
        ("FILE is image text, a dump of memory, or text of acpidump; FILE.. are raw tables.", 2, ["--help"]),
    ):
        cases.refuses(told, "report", "--format", "html", *words, status=status)
    told = "standard input is image text: give its file, or - for standard input, as in report --format html IMAGE"
    cases.refuses(told, "report", "--format", "json", data=text_of(numa_set()), status=3)
    cases.refuses("standard input is no image text", "report", "--format", "html", "-", data=b"\x7fELF" + bytes(60), status=3)
    told = "/dev/stdin: a dump of memory in a pipe: give it as a file"
    cases.refuses(told, "report", "--format", "html", "/dev/stdin", data=b"\x7fELF" + bytes(60), status=3)
    for name, data, status, told in (("bad.txt", b"@e0000\nzz\n", 3, "line 2: bad line"), ("none.txt", b"", 1, "no rsdp")):
        cases.write(name, data)
        run = cases.run("report", "--format", "html", name)
        found = verdict_of(Page(run.stdout.decode()))
        cases.count(f"the page of {name}", run.returncode != status and f"{run}", told not in found and found)


# Inputs from which no set is drawn: the status, and the way on.
WAYS_ON = (
    ("none.txt", b"", 1, "hint: the input is empty"),
    ("blank.txt", b"# nothing\n" * 10, 1, "hint: with UEFI firmware the RSDP is elsewhere"),
    ("uefi.txt", text_of({0x2000: rsdp()}), 1, "the image's RSDP is at 0x2000: give it with --rsdp 0x2000"),
    ("marked.txt", b"\xef\xbb\xbf@0\n00\n", 3, "hint: the input begins with a byte order mark"),
)


def ways_on(cases):
    """The page and standard error have the hint of acpiset on an input, or the address of its RSDP."""
    for name, data, status, told in WAYS_ON:
        run = cases.run("report", "--format", "html", cases.write(name, data))
        found = notes_of(Page(run.stdout.decode()))
        said = run.stderr.decode()
        cases.count(f"the way on from {name}", run.returncode != status and f"{run}", told not in found and found, told not in said and said)


def alone(cases):
    """Without acpiset, and without the modules."""
    if not os.path.exists(os.path.join(TOP, "acpiset")):
        run = cases.run("report", "--format", "html", "image.txt", env={**os.environ, "PATH": os.path.dirname(sys.executable)})
        told = b"acpiset is neither beside this tool nor on PATH" in run.stdout
        cases.count("a machine without acpiset", run.returncode != 127 and f"{run}", not told and "not told")
    with open(os.path.join(TOP, "tools", "report"), "rb") as file:
        cases.write("alone-report", file.read())
    words = [sys.executable, cases.path("alone-report"), "--format", "html"]
    run = subprocess.run(words, input=b"yes\n", capture_output=True, timeout=600)
    told = b"its modules are not in share/acpiset" in run.stderr
    cases.count("a tool without its modules", run.returncode != 4 and f"{run}", not told and "not told")


def hostile(cases):
    """Names from outside are text."""
    text = text_of(image_of(fadt(), table(b'<a>"', bytes(4)), table(b"\x01\x1b&'", bytes(4))))
    cases.write("image.txt", text)
    run = cases.run("report", "--format", "html", "--image", HOSTILE, "--rsdp", "e0000", "image.txt")
    page = Page(run.stdout.decode())
    heading = page.words("h1")
    wanted = 'ACPI tables: <script>alert("1")</script>\'&\\u{1}\\u{1b}\\u{202e}\\u{fffe}'
    cases.count("a hostile name", page.problems(), heading != [wanted] and f"{heading}")
    cases.count("hostile signatures", not any('<a>"' in title for title in page.titles("map")) and f"{page.titles('map')}")
    run = cases.run("report", "--format", "html", "--image", b"a\xff\xfe", data=b"yes\n")
    cases.count("a name that is no UTF-8", Page(run.stdout.decode()).words("h1") != ["ACPI tables: a\ufffd\ufffd"] and f"{run.stdout[-300:]}")


def large(cases):
    """4,096 processors, and 64 x 64 distances."""
    text = text_of(large_set())
    cases.write("large.txt", text)
    run = cases.run("report", "--format", "html", "--rsdp", "e0000", "large.txt")
    page = Page(run.stdout.decode())
    cells = sum(one.get("d").count("M") for one in page.picture("distances").iter() if one.get("class", "").startswith("cell h"))
    processors = [title for title in page.titles("processors") if title.startswith("UID ")]
    cases.count(
        f"a large set: {len(run.stdout)} bytes", page.problems(),
        len(run.stdout) > MOST_BYTES and "too large",
        (cells, len(processors), page.nodes()) != (4096, 4096, 4097) and f"{cells} cells, {len(processors)} processors, {page.nodes()} nodes",
    )


# ---- in a browser


def opened(cases):
    """The pages in a browser: nothing in its console, and each text inside its box."""
    browser = Browser(cases.folder)
    if not browser.path:
        print("skipped: pages in headless Chromium, which is not on this machine")
        return
    pages = {name: made(cases, text, words).text for name, text, words in sets()}
    pages["large"] = made(cases, text_of(large_set()), ["--rsdp", "e0000"]).text
    pages.update((line, made(cases, text, ["--rsdp", "e0000"]).text) for line, text in examples())
    for name, wrong in browser.problems(pages):
        cases.count(f"{name} in the browser", wrong)


PARTS = (
    read_back, from_bytes, findings, marked_twice, read_by_advice, cards_have, pictures_have, from_lines, dumps, bad_files, ways_on, alone,
    hostile, large, opened,
)


def all_cases(cases):
    for part in PARTS:
        part(cases)
