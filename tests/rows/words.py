#!/usr/bin/env python3
"""Runs the built program on command lines: what each gives is seen in what the program answers for sets made for it, and
what each refused one is refused for in the error message; and the texts of help and version.

usage: words.py PROGRAM; the last line is 'words: N passed, M failed'."""

import os
import re
import subprocess
import sys
import tempfile
import unicodedata
from itertools import takewhile
from pathlib import Path

sys.path.insert(0, str(Path(__file__).resolve().parents[1]))

from acpi_images.advice import RULES
from acpi_images.faults import STAGE_OF
from acpi_images.program import SECONDS, main
from acpi_images.tables import *
from acpi_images.text import text_of


# ---- the address of the RSDP, and the last stage
LAST_FAULT = "no 18 LeafUnknown 0x24 0x0 0x7"
# Sets whose first fault is of the last stage, and of stages 2, 3 and 4.
FAULTY = {
    18: (listed(madt(lapic(5, 0)), pptt(leaf(7))), LAST_FAULT),
    2: ({RSDP_AT: rsdp()}, "no 2 RootHeaderOut 0x1000 0x0 0x0"),
    3: ({RSDP_AT: rsdp(), RSDT_AT: rsdt(TABLES_AT)}, "no 3 TableHeaderOut 0x0 0x2000 0x0"),
    4: ({RSDP_AT: rsdp(), RSDT_AT: rsdt()}, "no 4 NoFadt 0x0 0x0 0x0"),
}

# Lines that are read, with the address and the number of the last stage that they give.
READ = [
    ("acpiset check --rsdp e0000", 0xE0000, 18), ("acpiset check --rsdp 0xe0000", 0xE0000, 18), ("acpiset check --rsdp E0000", 0xE0000, 18),
    ("acpiset check --rsdp=e0000", 0xE0000, 18), ("acpiset check --rsdp 0", 0, 18), ("a check --rsdp 0", 0, 18),
    ("acpiset check --rsdp ffffffffffffffff", 2**64 - 1, 18), ("acpiset check --rsdp 0x0123456789aBcDeF", 0x0123456789ABCDEF, 18),
    ("acpiset check --rsdp e0000 --through 1", 0xE0000, 1), ("acpiset check --through 2 --rsdp e0000", 0xE0000, 2),
    ("acpiset check --rsdp e0000 --through 3", 0xE0000, 3), ("acpiset check --rsdp e0000 --through 03", 0xE0000, 3),
    ("acpiset check --rsdp e0000 --through 18", 0xE0000, 18), ("acpiset check --rsdp e0000 --through 17", 0xE0000, 17),
    # The address that is found.
    ("acpiset check", 0xE0000, 18), ("acpiset check --through 3", 0xE0000, 3),
]


def read_cases():
    """Without any bytes the RSDP is missed at the address. Where it is there, a fault of the last stage is reported, and
    one of the stage after it is not."""
    for line, address, last in READ:
        if "--rsdp" in line:
            yield line, b"", f"no 1 RsdpOut {address:#x} 0x0 0x0"
        for stage, (pieces, fault) in FAULTY.items():
            if stage in (last, last + 1) and address + 20 <= 2**64:
                moved = {address if at == RSDP_AT else at: data for at, data in pieces.items()}
                yield line, text_of(moved), fault if stage == last else "yes"


# ---- how many inputs an I/O APIC has
# Lines that are read, with the address of an I/O APIC and the number of inputs that it then has.
INPUTS = [
    ("acpiset check", 0xFEC00000, 24), ("acpiset check --default-inputs 1", 0xFEC00000, 1),
    ("acpiset check --default-inputs 256", 0xFEC00000, 256), ("acpiset check --default-inputs 016", 0xFEC00000, 16),
    ("acpiset check fec00000=32", 0xFEC00000, 32), ("acpiset check fec00000=32", 0xFEC01000, 24),
    ("acpiset check fec00000=1", 0xFEC00000, 1), ("acpiset check fec00000=256", 0xFEC00000, 256),
    ("acpiset check fec00000=007", 0xFEC00000, 7), ("acpiset check FEC0ABCD=32", 0xFEC0ABCD, 32),
    ("acpiset check 0xFeC0aBcD=32", 0xFEC0ABCD, 32), ("acpiset check 0=32", 0, 32), ("acpiset check 0xffffffff=32", 0xFFFFFFFF, 32),
    ("acpiset check fec00000=32 fec00000=8", 0xFEC00000, 32), ("acpiset check FEC00000=24 0xfec00000=32", 0xFEC00000, 24),
    ("acpiset check fec00000=32 fec01000=8", 0xFEC01000, 8), ("acpiset check fec00000=32 --default-inputs 16 fec01000=8", 0xFEC01000, 8),
    ("acpiset check fec00000=32 --default-inputs 16 fec01000=8", 0xFEC02000, 16), ("acpiset check -- fec00000=32", 0xFEC00000, 32),
]


def input_cases(line, address, count):
    """The last input is served, and the one after it is not."""
    for gsi in (count - 1, count):
        pieces = listed(madt(io_apic(address, 0), override(9, gsi)))
        yield line, text_of(pieces), "yes" if gsi < count else f"no 17 GsiNowhere 0x38 0x0 {gsi:#x}"


# Above the BIOS's memory, where a MADT of a megabyte overlaps nothing.
HIGH_AT = 0x100000


def many_counts():
    """65,000 I/O APICs, each with the number of inputs that a word gives, and one after them: they do not overlap, and the
    last input of each is served."""
    words, entries, base = [], [], 0
    for address in reversed(range(65_000)):
        count = address % 256 + 1
        words.append(f"{address:x}={count}")
        entries += [io_apic(address, base), nmi_source(base + count - 1)]
        base += count
    entries.append(io_apic(65_000, base))
    pieces = listed(slots=[TABLES_AT, HIGH_AT], others={HIGH_AT: madt(*entries)})
    return " ".join(["acpiset check", *words]), text_of(pieces), "yes"


# ---- the settings
# Lines that are read, with the settings that they give, and the number of inputs of the I/O APIC at 0xFEC00000.
SETTINGS = [
    ("acpiset check", "counted", "enabled", 24), ("acpiset check --hotplug counted --processors enabled", "counted", "enabled", 24),
    ("acpiset check --hotplug apart", "apart", "enabled", 24), ("acpiset check --hotplug=apart", "apart", "enabled", 24),
    ("acpiset check --processors usable", "counted", "usable", 24),
    ("acpiset check --processors usable --hotplug apart", "apart", "usable", 24),
    ("acpiset check fec00000=32 --hotplug apart --default-inputs 16", "apart", "enabled", 32),
]
# A hot-pluggable range over another one, and two domains of a processor that is not enabled, and online capable.
HOT_PLUG = listed(srat(memory(0, 0x80000000), memory(0, 0x100000000, 3)))
CAPABLE = listed(madt(lapic(0, 5, 0b10)), srat(apic_domain(5, 0), x2apic_domain(5, 1)))


def setting_cases():
    for line, hotplug, processors, count in SETTINGS:
        yield line, text_of(HOT_PLUG), "yes" if hotplug == "apart" else "no 10 Overlap 0x30 0x58 0x0"
        yield line, text_of(CAPABLE), "yes" if processors == "enabled" else "no 16 TwoDomains 0x40 0x30 0x5"
        yield from input_cases(line, 0xFEC00000, count)


# ---- all findings
# Lines that are read, and whether advice counts.
LINTED = [
    ("acpiset lint", False), ("acpiset lint --rsdp e0000", False), ("acpiset lint --strict", True),
    ("acpiset lint --strict --rsdp e0000", True), ("acpiset lint --rsdp=0xe0000 --processors usable --strict", True),
    ("acpiset lint fec00000=8 --strict --default-inputs 1", True), ("acpiset lint --hotplug apart -- fec00000=8", False),
]
# Two I/O APICs with one ID and no processor, in a table that slots 1 and 2 list: advice, and no fault.
ADVISED = sound(madt(io_apic(0xFEC00000, 0), io_apic(0xFEC01000, 24)), slots=[0x2000, 0x3000, 0x3000])
ADVICE = ["advice ListedTwice 0x2 0x1 0x3000", "advice SameIoApicId 0x38 0x2c 0x0", "advice NoProcessor 0x0 0x0 0x0"]
# Lines that allow rules, with the places of what is written of this advice, and the status.
ALLOWING = [
    ("acpiset lint --allow ListedTwice", (1, 2), 0), ("acpiset lint --strict --allow=SameIoApicId", (0, 2), 1),
    ("acpiset lint --allow NoProcessor,ListedTwice --strict", (1,), 1), ("acpiset lint --allow NoDsdt --rsdp e0000", (0, 1, 2), 0),
    ("acpiset lint --allow ListedTwice,SameIoApicId,NoProcessor --strict --rsdp e0000", (), 0),
    ("acpiset lint fec00000=8 --strict --allow NoProcessor,SameIoApicId,NoProcessor,ListedTwice", (), 0),
    ("acpiset lint --allow=PpttReserved,ListedTwice --hotplug apart -- fec00000=8", (1, 2), 0),
]


def lint_cases():
    """Each line with the lines of lint and its status, on a set with advice and on one with a fault."""
    for line, is_strict in LINTED:
        yield line, text_of(ADVISED), "\n".join(["yes", *ADVICE]), int(is_strict)
        pieces, fault = FAULTY[4]
        yield line, text_of(pieces), fault, 1
    for line, places, status in ALLOWING:
        yield line, text_of(ADVISED), "\n".join(["yes", *(ADVICE[place] for place in places)]), status
        pieces, fault = FAULTY[4]
        yield line, text_of(pieces), fault, 1
    for line, least in (("acpiset lint", 24), ("acpiset lint --default-inputs 16", 16), ("acpiset lint fec00000=32", 32)):
        pieces = sound(madt(io_apic(0xFEC00000, 0), override(9, least), lapic(0, 0)))
        yield line, text_of(pieces), f"no 17 GsiNowhere 0x38 0x0 {least:#x}", 1


# ---- lines that are refused
# Lines that are refused: of each command the words after it, with bars between two lines.
REFUSED_WORDS = {
    "acpiset": (
        "--help | -h | help --help | help check -h | version -h | judge --rsdp e0000 | Check --rsdp e0000 | chec --rsdp e0000 | --rsdp e0000 | fec00000=24 | Lint | "
        "--strict lint | confirm --strict | show --strict | --allow SameUid lint | find --allow SameUid | show --allow SameUid | "
        "--anyway show | check --anyway | find --anyway | lint --anyway"
    ),
    "acpiset check": (
        "--help | --rsdp | --rsdp 0x | --rsdp g | --rsdp 0Xe0000 | --rsdp 0x0x1 | --rsdp +1 | --rsdp -1 | --rsdp e_0000 | "
        "--rsdp 10000000000000000 | --rsdp 0x00000000000000001 | --rsdp e0000 --rsdp e0000 | --rsd e0000 | -rsdp e0000 | e0000 | "
        "--rsdp e0000 --through | --rsdp e0000 --through 0 | --rsdp e0000 --through 00 | --rsdp e0000 --through 19 | "
        "--rsdp e0000 --through 003 | --rsdp e0000 --through 0x3 | --rsdp e0000 --through a | --rsdp e0000 --through +3 | "
        "--rsdp e0000 --through 3 --through 3 | help | fec00000 | fec00000= | fec00000=0 | fec00000=257 | "
        "fec00000=024 fec00000=0024 | fec00000=+24 | fec00000=0x18 | fec00000=18h | fec00000==24 | fec00000=24=24 | "
        "fec00000=24,fec01000=24 | fec00000 = 24 | =24 | 0x=24 | 0Xfec00000=24 | fec0000h=24 | 1fec00000=24 | 0x0fec00000=24 | "
        "-fec00000=24 | --fec00000=24 | fec00000=24 fec01000=0 | --default-inputs | --default-inputs 0 | --default-inputs 257 | "
        "--default-inputs 0024 | --default-inputs 24 --default-inputs 24 | --hotplug | --hotplug Apart | --hotplug apar | "
        "--hotplug aparts | --hotplug counted,apart | --hotplug apart --hotplug counted | --processors | --processors Usable | "
        "--processors apart | --processors usable --processors usable | --strict | --base e0000 | "
        "--allow SameUid"
    ),
    "acpiset find": "--rsdp e0000 | find | fec00000=24 | --default-inputs 24 | --hotplug apart | --processors usable",
    "acpiset lint": (
        "--strict --strict | --strict=true | --strict true | -strict | --through 3 | --rsdp | --rsdp g --strict | "
        "--default-inputs 0 | fec00000 | --hotplug both | --processors online | --allow | --allow SameUid --allow SameUid | "
        "--allow SameUid --allow SameLeaf | --allow SameUid SameLeaf | --allow SameUid, | --allow ,SameUid | --allow SameUid,,SameLeaf | "
        "--allow , | --allow sameuid | --allow SAMEUID | --allow SameUI | --allow SameUids | --allow SameUid,Overlap | --allow Overlap | "
        "--allow 109 | --allow=SameUid,109 | --allow SameUid;SameLeaf | --allow= | -allow SameUid"
    ),
    "acpiset show": "--anyway --anyway | --anyway=true | --anyway true | -anyway | --anywa | --anyway --rsdp | --anyway --strict | fec00000=24",
    "acpiset help": "chek | check lint | check --rsdp | help help | version version | version version version | --rsdp | -V | Check",
    "acpiset version": "version | check | help | --version | 1",
    "acpiset rebuild": "--rsdp e0000 | --base | --base 10000000000000000 | --base e0000 --base e0000 | --base e0000 --through 3",
}
REFUSED = ["acpiset", *(f"{command} {words}" for command, lines in REFUSED_WORDS.items() for words in lines.split(" | "))]
# Lines whose last argument is empty.
WITHOUT_VALUE = ("check --rsdp", "check --rsdp e0000 --through", "check --hotplug", "lint --allow")
REFUSED += ["acpiset ", "acpiset help ", "acpiset version ", "acpiset Help", "acpiset versions", *(f"acpiset {line} " for line in WITHOUT_VALUE)]

ADDRESS = "1 to 16 hex digits, with or without 0x before them, as in f59e0"
COUNT = "from 1 to 256, in at most 3 decimal digits"
NO_COUNT = "expected ADDRESS=COUNT, as in fec00000=24"
NAMES_OF_RULES = "names of rules of advice, with a comma between any two"
# Lines that are refused, and what for.
MESSAGES = [
    ("acpiset judge", "unrecognized subcommand 'judge'"), ("acpiset check --fix", "unexpected argument '--fix' found"),
    ("acpiset check --rsdp f59e0h", f"--rsdp 'f59e0h': expected {ADDRESS}"),
    ("acpiset check --through 19", "--through '19': expected a stage from 1 to 18, in at most 2 decimal digits"),
    ("acpiset check --default-inputs 0", f"--default-inputs '0': expected a number of inputs {COUNT}"),
    ("acpiset check fec00000=257", f"'fec00000=257': expected a COUNT {COUNT}"),
    ("acpiset check fec00000=", f"'fec00000=': expected a COUNT {COUNT}"), ("acpiset check fec00000", f"'fec00000': {NO_COUNT}"),
    ("acpiset check 1fec00000=257", "'1fec00000=257': expected an ADDRESS of 1 to 8 hex digits, with or without 0x before them"),
    ("acpiset check --hotplug both", "--hotplug 'both': expected counted or apart"),
    ("acpiset check --processors online", "--processors 'online': expected enabled or usable"),
    ("acpiset lint --strict --strict", "the argument '--strict' cannot be used multiple times"),
    ("acpiset lint --strict=true", "unexpected value 'true' for '--strict' found; no more were expected"),
    ("acpiset lint --rsdp f59e0h", f"--rsdp 'f59e0h': expected {ADDRESS}"), ("acpiset lint strict", f"'strict': {NO_COUNT}"),
    ("acpiset check --strict", "unexpected argument '--strict' found"),
    ("acpiset lint --allow listedtwice", f"--allow 'listedtwice': expected {NAMES_OF_RULES}"),
    ("acpiset lint --allow SameUid,Overlap", f"--allow 'Overlap': expected {NAMES_OF_RULES}"),
    ("acpiset lint --allow SameUid,", f"--allow '': expected {NAMES_OF_RULES}"),
    ("acpiset lint --allow SameUid,Overlap,sameuid,GsiNowhere", f"--allow 'Overlap': expected {NAMES_OF_RULES}"),
    ("acpiset lint --allow sameuid,SameUid,Overlap", f"--allow 'sameuid': expected {NAMES_OF_RULES}"),
    ("acpiset lint --allow ", f"--allow '': expected {NAMES_OF_RULES}"),
    ("acpiset check --allow SameUid", "unexpected argument '--allow' found"),
    ("acpiset rebuild --base e0000h", f"--base 'e0000h': expected {ADDRESS}"), ("acpiset rebuild", f"rebuild needs --base HEX: {ADDRESS}"),
    # The first wrong word is named, and an option before any word.
    ("acpiset check fec00000=24 fec01000=0 fec02000", f"'fec01000=0': expected a COUNT {COUNT}"),
    ("acpiset check fec00000 --rsdp g", f"--rsdp 'g': expected {ADDRESS}"),
    ("acpiset help judge", "unrecognized subcommand 'judge'"), ("acpiset help --rsdp", "unexpected argument '--rsdp' found"),
    ("acpiset help check lint", "unexpected argument 'lint' found"), ("acpiset help version 1", "unexpected argument '1' found"),
    ("acpiset version 1 2", "unexpected argument '1' found"), ("acpiset version help", "unexpected argument 'help' found"),
    ("acpiset", "usage: acpiset check [OPTION].. [ADDRESS=COUNT].. < IMAGE"),
]


# Tips on names.
NO_RULE = "a fault can't be allowed: only rules of advice can"
OTHER_CASE = "upper and lower case differ: write the name as lint prints it"


def names(cases):
    """Each rule in another case, each fault that is to be allowed, in its own and in another case, and each fault to confirm in another
    case."""
    allowed = [(word, OTHER_CASE) for rule in RULES for word in (rule.lower(), rule.upper())]
    allowed += [(fault, NO_RULE) for fault in STAGE_OF] + [(fault.lower(), None) for fault in STAGE_OF]
    for word, tip in allowed:
        lines = told(cases, ["acpiset", "lint", "--allow", word], b"").stderr.decode().splitlines()
        tips = [f"  tip: {tip}"] * (tip is not None)
        cases.same(f"--allow {word}", lines[:-3], [f"acpiset: --allow '{word}': expected {NAMES_OF_RULES}", *tips])
    for fault, stage in STAGE_OF.items():
        for word in (fault.lower(), fault.upper()):
            witness = f"{stage} {word} 0x0 0x0 0x0"
            run = told(cases, ["acpiset", "confirm", "--witness", witness], b"")
            cases.same(witness, first_line(run), (2, f"acpiset: --witness '{witness}': no fault is named '{word}': write {fault}"))


# ---- help and version
HELP = (Path(__file__).resolve().parents[1] / "help.txt").read_text()
POLICY = ["--default-inputs N", "ADDRESS=COUNT", "--hotplug counted|apart", "--processors enabled|usable"]
# Of each command: the text between which words of the complete help says what it does, and its options.
HELPED = {
    "check": ("check judges", " confirm judges", ["--rsdp HEX", "--through N", *POLICY]),
    "lint": ("lint prints everything", "\n\nrebuild moves", ["--rsdp HEX", "--allow NAMES", "--strict", *POLICY]),
    "confirm": ("confirm judges", " show prints", ["--witness FAULT", "--rsdp HEX", *POLICY]),
    "rebuild": ("rebuild moves", "\n\n  --witness", ["--base HEX", "--rsdp HEX", *POLICY]),
    "show": ("show prints what", "\n\nlint prints", ["--rsdp HEX", "--anyway"]),
    "find": ("find searches", "\n\nhelp prints", []),
    "help": ("help prints", " version prints", []),
    "version": ("version prints", "\n\nIn the image", []),
}


def between(first, after):
    """The text of the complete help from these words up to those after it."""
    begin = HELP.index(first)
    return HELP[begin:HELP.index(after, begin + len(first))]


def option_part(name):
    """The lines of an option: those after its name's that begin further to the right."""
    lines = iter(HELP[HELP.index(f"\n  {name}") + 1:].splitlines(keepends=True))
    return next(lines) + "".join(takewhile(lambda line: line.startswith(" " * 14), lines))


def help_of(command):
    """What is printed on one command: its usage, where the image comes from if it reads one, what it does, and its options."""
    first, after, names = HELPED[command]
    usage = re.search(rf"  acpiset {command}\b.*\n(?: {{10}}.*\n)*", HELP)[0]
    parts = ["usage:\n\n" + usage]
    parts += [between("All commands but", "\n\ncheck judges") + "\n"] * (command not in ("help", "version"))
    parts += [between(first, after) + "\n", *(["".join(map(option_part, names))] if names else [])]
    return "\n".join([*parts, *([between("No ACPI table says", "\n\nfind") + "\n"] if POLICY[0] in names else [])])


# The lines that ask for a text, with the text.
PRINTED = [
    ("acpiset help", HELP), ("acpiset version", "acpiset: version 0.1.0, 18 stages\n"),
    *((f"a help {command}", help_of(command)) for command in HELPED),
]


def helps(cases):
    """The text is on standard output, and nothing is read; a failed write is reported as for all commands."""
    for line, text in PRINTED:
        with tempfile.TemporaryFile() as stdin:
            stdin.write(b"zz\n")
            stdin.seek(0)
            run = subprocess.run(line.split(), executable=cases.program, stdin=stdin, capture_output=True, timeout=SECONDS)
            cases.same(line, (run.returncode, run.stdout.decode(), run.stderr, os.lseek(stdin.fileno(), 0, os.SEEK_CUR)), (0, text, b"", 0))
        with open("/dev/full", "wb") as full:
            run = subprocess.run(line.split(), executable=cases.program, stdout=full, stderr=subprocess.PIPE, timeout=SECONDS)
        cases.same(f"{line}, /dev/full", (run.returncode, run.stderr), (4, b"acpiset: device\n"))


# ---- hidden characters, and long arguments
CONTROLS = [chr(code) for code in (*range(1, 0x20), *range(0x7F, 0xA0))]
# Those that turn the direction, end a line or a paragraph, have no width, select a variant, or are tags.
UNSEEN = "\u061c\u200b\u200c\u200d\u200e\u200f\u2028\u2029\u202a\u202e\u2060\u2066\u2069\ufe0f\ufeff\U000e0001\U000e0020\U000e007f"
# Those that this Python knows as format characters or separators, and the variation selectors.
SELECTORS = [*map(chr, range(0xFE00, 0xFE10)), *map(chr, range(0xE0100, 0xE01F0))]
FORMATS = [it for it in map(chr, range(sys.maxunicode + 1)) if unicodedata.category(it) in ("Cf", "Zl", "Zp")]
HIDDEN = {*CONTROLS, *UNSEEN, *FORMATS, *SELECTORS}
# Characters that print, of one to four bytes; some are next to hidden ones.
PRINTING = "a~\u00a0\u00ac\u00ae\u07ff\u0800\u200a\u2010\u2027\u202f\u2070\ufe10\uffff\U00010000\U000dffff\U000e1000\U0010ffff"
# Where an argument can be that is printed.
PLACES = [
    ["{}"], ["--{}"], ["-{}"], ["check", "--{}"], ["check", "{}"], ["check", "a/{}"], ["check", "{}=24"], ["check", "fec00000={}"],
    ["check", "--rsdp", "{}"], ["check", "--rsdp={}"], ["check", "--through", "{}"], ["check", "--default-inputs", "{}"],
    ["check", "--hotplug", "{}"], ["check", "--processors", "{}"], ["lint", "--strict={}"], ["lint", "--allow", "{}"],
    ["lint", "--allow", "SameUid,{}"], ["rebuild", "--base", "{}"],
    ["confirm", "--witness", "{}"], ["confirm", "--witness", "10 {} 0x30 0x58 0x0"], ["confirm", "--witness", "{} Overlap 0x30 0x58 0x0"],
    ["confirm", "--witness", "10 Overlap 0x30 0x58 {}"], ["find", "{}"], ["help", "{}"], ["help", "find", "{}"], ["version", "{}"],
]


def number(character):
    """A hidden character as error messages print it."""
    return f"\\x{ord(character):02x}" if character in CONTROLS else character.encode("unicode_escape").decode()


def printed(text):
    """A text as error messages print it: hidden characters as numbers, and 200 bytes at most."""
    end, size = 0, 0
    while end < len(text) and size + len(text[end].encode()) <= 200:
        size += len(text[end].encode())
        end += 1
    return "".join(number(it) if it in HIDDEN else it for it in text[:end]) + ("..." if end < len(text) else "")


def has_hidden(error):
    """Whether standard error has a hidden character other than the ends of its lines: one for each line of the complaint, the tip
    and the usage."""
    text = error.decode()
    return any(it in HIDDEN and it != "\n" for it in text) or not 4 <= text.count("\n") <= 5


def first_line(run):
    """The status of a run and the first line of its error message."""
    return run.returncode, run.stderr.decode().partition("\n")[0]


def printed_words(cases):
    """Each character that is not seen at each place; and values of which the beginning is printed, never a part of a character."""
    for place in PLACES:
        for hidden in (*CONTROLS, *UNSEEN):
            words = [it.format(f"x{hidden}y") for it in place]
            run = told(cases, ["acpiset", *words], b"")
            cases.same(repr(words), (run.returncode, run.stdout, has_hidden(run.stderr)), (2, b"", False))
    hidden = sorted(HIDDEN)
    for text in (
        *("".join(hidden[begin:][:40]) for begin in range(0, len(hidden), 40)), PRINTING,
        *(it * count for it in PRINTING for count in (49, 50, 51, 66, 67, 100, 101, 200, 201, 1000)),
        *("x" * count + it for it in (*PRINTING, "\x1b", "\x9b") for count in range(195, 202)), "\x1b" * 201, "\x9b" * 101,
        "\u202e" * 67, "\U000e0001" * 51,
    ):
        run = told(cases, ["acpiset", "check", "--hotplug", text], b"")
        cases.same(repr(text), first_line(run), (2, f"acpiset: --hotplug '{printed(text)}': expected counted or apart"))


# ---- all of them


def told(cases, words, text):
    """The program's run; the first word is the name that it is run by."""
    return subprocess.run(words, executable=cases.program, input=text, capture_output=True, timeout=SECONDS)


def answers(cases):
    """Each line, whose words are a space apart, with the answer."""
    asked = [*read_cases(), *(case for row in INPUTS for case in input_cases(*row)), *setting_cases(), many_counts()]
    asked = [(*case, int(case[2] != "yes")) for case in asked]
    for line, text, answer, status in [*asked, *lint_cases()]:
        run = told(cases, line.split(" "), text)
        cases.same(line[:100], (run.returncode, run.stdout.decode(), run.stderr.decode()), (status, answer + "\n", ""))


def refusals(cases):
    smallest = text_of({RSDP_AT: rsdp(), RSDT_AT: rsdt()})
    for line in REFUSED:
        run = told(cases, line.split(" "), smallest)
        cases.same(line, (run.returncode, run.stdout), (2, b""))
    for line, message in MESSAGES:
        cases.same(line, first_line(told(cases, line.split(" "), smallest)), (2, f"acpiset: {message}"))


main("words", answers, refusals, names, helps, printed_words)
