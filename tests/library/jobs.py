"""What the library is asked beside the program: sets of the other tests, with their arguments and answers; and the same sets under
other settings, about which the program is asked too."""

from __future__ import annotations

import gzip
import random
from dataclasses import dataclass

from acpi_images.known.confirmed import all_questions
from acpi_images.known.judged import JUDGED
from acpi_images.known.linted import EXPECTED
from acpi_images.known.many import MANY
from acpi_images.known.mistakes import MISTAKES, UNCHANGED
from acpi_images.known.one_rule import ONE_RULE
from acpi_images.known.rows import ROWS, without_stage
from acpi_images.known.shown import SHOWN
from acpi_images.generated.cases import changed_case
from acpi_images.program import FIRMWARE, IMAGES, firmware_text, status_of
from acpi_images.text import text_of

SEED = 1


@dataclass
class Job:
    """Arguments and an image text. `lines` are the answer where it is known, and `status` the status. A text that may have faults is
    passed as a text alone."""

    name: str
    words: tuple
    text: bytes
    lines: str | None = None
    status: int | None = None
    is_faulty: bool = False


def known(name, words, text, lines):
    """A job whose answer was worked out by hand."""
    return Job(name, tuple(words), text, "".join(line + "\n" for line in lines), status_of(lines[0]))


# ---- answers that were worked out by hand


def rows():
    for row in (*ROWS, *MANY):
        yield known(row.name, row.words.split(), text_of(row.pieces), [row.answer])


def confirmations():
    for it in all_questions():
        yield known(it.name, ["confirm", *it.words, "--witness", it.witness], text_of(it.pieces), [it.answer])


def all_findings():
    for it in EXPECTED:
        yield known(it.name, ["lint", *it.words.split()], text_of(it.pieces), it.lines)
    for it in MISTAKES:
        yield known(it.name, ["lint", *it.words.split()], text_of(it.pieces()), it.lines)
    for name, words, lines in UNCHANGED:
        yield known(name, ["lint", "--rsdp", IMAGES[name], *words.split()], firmware_text(name), lines)


def lines_of_sets():
    for it in SHOWN:
        yield known(it.name, ["show", *it.words.split()], text_of(it.pieces), it.text.splitlines())


# ---- the same sets under other settings

SETTINGS = [
    [],
    ["--hotplug", "apart"],
    ["--processors", "usable"],
    ["--hotplug", "apart", "--processors", "usable", "--default-inputs", "16"],
    ["--default-inputs", "256", "fec00000=1", "fec01000=255", "fec00000=24"],
    ["--default-inputs", "1", "fec00000=120", "0=256"],
]
STAGES = range(1, 19)


def rsdp_in(words):
    """The words that say where the RSDP is, if any do."""
    words = list(words)
    at = words.index("--rsdp") if "--rsdp" in words else len(words)
    return words[at : at + 2]


def sets():
    """Each set of the other tests once, with its RSDP's address."""
    known_sets = set()
    everything = [
        *((row.name, rsdp_in(row.words.split()), row.pieces) for row in (*ROWS, *MANY)),
        *((name, ["--rsdp", "e0000"], pieces) for name, pieces, _, _ in JUDGED),
        *((it.name, rsdp_in(it.words.split()), it.pieces) for it in (*EXPECTED, *ONE_RULE, *SHOWN)),
        *((it.name, rsdp_in(it.words.split()), it.pieces()) for it in MISTAKES),
    ]
    for name, rsdp, pieces in everything:
        text = text_of(pieces)
        if (text, *rsdp) not in known_sets:
            known_sets.add((text, *rsdp))
            yield name, rsdp, text


def firmware():
    for name, rsdp in (*IMAGES.items(), ("example", "e0000")):
        yield name, ["--rsdp", rsdp], firmware_text(name)


def of_sets():
    """Each set with some of the settings and stages in turn, and each image of firmware with all of them. The program is asked."""
    for place, (name, rsdp, text) in enumerate(sets()):
        settings = SETTINGS[place % len(SETTINGS)]
        yield Job(name, ("check", *rsdp, *settings), text)
        yield Job(name, ("check", *rsdp, *SETTINGS[(place + 1) % len(SETTINGS)], "--through", str(STAGES[place % len(STAGES)])), text)
        yield Job(name, ("lint", *rsdp, *SETTINGS[(place + 2) % len(SETTINGS)]), text)
        yield Job(name, ("find",), text)
    for name, rsdp, text in firmware():
        yield Job(name, ("find",), text)
        for settings in SETTINGS:
            yield Job(name, ("lint", *rsdp, *settings), text)
            for stage in STAGES:
                yield Job(name, ("check", *rsdp, *settings, "--through", str(stage)), text)


# Below 1 MiB, below and above 4 GiB, no multiple of 64, and near the last address.
BASES = ("e0000", "7ffe0000", "ffffff80", "123456780", "e0020", "fffffffffffffc00", "ffffffffffffffc0")


def shown_and_rebuilt():
    """Each set shown, and rebuilt at one of the addresses; and each image of firmware rebuilt at each. The program is asked."""
    for place, (name, rsdp, text) in enumerate(sets()):
        yield Job(name, ("show", *rsdp), text)
        yield Job(name, ("rebuild", *rsdp, "--base", BASES[place % len(BASES)], *SETTINGS[place % len(SETTINGS)]), text)
    for name, rsdp, text in firmware():
        yield Job(name, ("show", *rsdp), text)
        for base in BASES:
            yield Job(name, ("rebuild", *rsdp, "--base", base), text)
            yield Job(name, ("rebuild", *rsdp, "--base", base, "--hotplug", "apart"), text)


def region():
    """A part of a guest's memory, of which the tables are a few pages."""
    text = gzip.decompress((FIRMWARE / "sb-q35-default.region.img.txt.gz").read_bytes())
    for command in ("find", "check", "lint"):
        yield Job("sb-q35-default.region", (command,), text)


RANDOM_SETS = 300


def at_random():
    """Random sets, and random changes of other sets, as tests/fuzz/run.py has them. The program is asked."""
    for place in range(RANDOM_SETS):
        case, _ = changed_case(SEED, place)
        for command in ("check", "lint"):
            yield Job(f"random set {place}", (command, *case.rsdp_words, *case.setting_words), case.text)


def of_faults(answered):
    """The faults that these jobs found, confirmed, and with another number."""
    for job in answered:
        if job.words[0] != "check":
            continue
        words = without_stage(job.words[1:])
        witness = job.lines.strip().removeprefix("no ")
        if not job.lines.startswith("no ") or witness == "rsdp":
            continue
        yield Job(job.name, ("confirm", *words, "--witness", witness), job.text, "true\n", 0)
        *numbers, point = witness.split()
        yield Job(job.name, ("confirm", *words, "--witness", " ".join((*numbers, f"{(int(point, 16) + 1) % 2**64:#x}"))), job.text)


# ---- texts with faults

TEXT = (
    b"# an RSDP\r\n@e0000\n52 53 44 20 50 54 52 20 4b 41 41 41 41 41 41 00\n\t00 10 00 00\n"
    b"@1000 # an RSDT\n525344 54 2400 0000 01 0A 41 41 41 41 41 41\n41 41 41 41 41 41 41 41 01 00 00 00 41 41 41 41\n01 00 00 00\n"
    b"@FFFFFFFFFFFFFFF8\n0001020304050607\n"
)
MUTATIONS = 400


def texts():
    """A text that is cut at each of its places, and that is changed at random."""
    words = ("check", "--rsdp", "e0000")
    for at in range(len(TEXT)):
        yield Job(f"the first {at} bytes of a text", words, TEXT[:at], is_faulty=True)
    dice = random.Random(SEED)
    for place in range(MUTATIONS):
        text = bytearray(TEXT)
        for _ in range(dice.choice((1, 1, 1, 2, 4))):
            at = dice.randrange(len(text))
            byte = dice.choice(b"@#\n\r\t 0123456789abcdefABCDEFgz\x00\xff")
            change = dice.randrange(4)
            if change == 0:
                text[at] = byte
            elif change == 1:
                text.insert(at, byte)
            elif change == 2:
                del text[at : at + dice.choice((1, 1, 8))]
            else:
                line = dice.choice(TEXT.split(b"\n")) + b"\n"
                text[at:at] = line
        yield Job(f"changed text {place}", words, bytes(text), is_faulty=True)
