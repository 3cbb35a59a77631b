#!/usr/bin/env python3
"""Refuses the built program its memory, request by request, and lets its input and its output fail, call by call.

A run in which a request for memory was refused ends with status 4, writes nothing, and reports that it is out of memory;
the usual answer comes only where none was refused, or where SPARED_AFTER says so. A run in which a read failed reports the device and writes nothing,
save where the text had a fault before that. A run in which a write failed reports the device, and what went out is a
prefix.

usage: refusals.py PROGRAM; the last line is 'refusals: N passed, M failed'. The object that is preloaded into the program is
built from refusals.c, by the C compiler of the system or of the toolchain."""

from __future__ import annotations

import os
import resource
import subprocess
import sys
import tempfile
import time
from concurrent.futures import ThreadPoolExecutor
from dataclasses import dataclass
from itertools import count
from pathlib import Path

HERE = Path(__file__).resolve().parent
sys.path.insert(0, str(HERE))

from acpi_images.advice import linted
from acpi_images.known.linted import EXPECTED
from acpi_images.known.rows import COMPLETE, OVERLAP, ROWS, SMALLEST
from acpi_images.program import SECONDS, UNREADABLE, Cases, finish, firmware_text, tell
from acpi_images.rebuilt import rebuilt
from acpi_images.shown import shown
from acpi_images.tables import *
from acpi_images.text import LONGEST_LINE, LONGEST_TEXT, read, text_of
from preloaded import build_object, numbers

OUT_OF_MEMORY = (4, "", "acpiset: out of memory\n")
NO_FADT = "4 NoFadt 0x0 0x0 0x0"


@dataclass
class Run:
    """What the program is asked of a text, and what it answers where nothing is refused: status, standard output and
    standard error."""

    name: str
    text: bytes
    words: list
    status: int
    out: str
    err: str = ""

    def answer(self):
        return (self.status, self.out, self.err)


def device(out=""):
    """The answer where a write failed after this output."""
    return (4, out, "acpiset: device\n")


def unread():
    """The answer where a read failed."""
    return (4, "", f"acpiset: device\n{UNREADABLE}")


# ---- what the program is asked

# A set with all tables that stages look into, and entries of each kind: two domains, of two processors and a cache each. The
# caches are at 36 and 60, and the node above the processors' at 84.
CACHES = [cache(), cache()]
NODES = [node(flags=1), *(node(84, IS_ID_VALID | IS_LEAF, uid, [36 + 24 * (uid // 2)]) for uid in range(4))]
ENTRIES = image_of(
    full_fadt(_92=b"\4"),
    madt(
        *(lapic(uid, 2 * uid) for uid in (0, 1)), *(x2apic(uid, 0x100 + uid) for uid in (2, 3)), io_apic(0xFEC00000, 0),
        io_apic(0xFEC01000, 24), override(0, 2), override(9, 47, 0b1101), nmi_source(25), *local_nmis(0xFFFFFFFF, 1),
        lapic_address(0xFEE00000),
    ),
    srat(
        *(apic_domain(apic_id, 0) for apic_id in (0, 2)), *(x2apic_domain(apic_id, 1) for apic_id in (0x102, 0x103)), memory(0, 0xA0000),
        memory(0x100000, 0x7FF00000), memory(0x100000000, 0x80000000), memory(0x180000000, 0x80000000, 3),
    ),
    slit(2, [10, 20, 20, 10]), pptt(*CACHES, *NODES), others={FACS_AT: facs()},
)


# Where sets are rebuilt.
BASE = 0x7FFE0000


def lint_run(name, text, words):
    """All findings, as a second program tells them."""
    lines, status = linted(words, read(text))
    return Run(name, text, ["lint", *words], status, "".join(line + "\n" for line in lines))


def clean_runs(name, text, address, found, lines, anew):
    """Each command on a clean set whose RSDP is at this address, in hex: what a search says of it, what is shown, and the
    set rebuilt. A line added here puts a command to all tests."""
    rsdp = ["--rsdp", address]
    return [
        Run(f"check, {name}", text, ["check", *rsdp], 0, "yes\n"),
        lint_run(f"lint, {name}", text, rsdp),
        Run(f"confirm, {name}", text, ["confirm", *rsdp, "--witness", NO_FADT], 1, "false\n"),
        Run(f"rebuild, {name}", text, ["rebuild", *rsdp, "--base", f"{BASE:x}"], 0, anew),
        Run(f"find, {name}", text, ["find"], int(found == "none"), f"rsdp {found}\n"),
        Run(f"show, {name}", text, ["show", *rsdp], 0, lines),
        Run(f"show anyway, {name}", text, ["show", *rsdp, "--anyway"], 0, "yes\n" + lines),
    ]


def made(name, pieces):
    image = read(text_of(pieces))
    return clean_runs(name, text_of(pieces), "e0000", "0xe0000", shown(image, RSDP_AT), rebuilt(image, RSDP_AT, BASE))


def firmware(name, address, found):
    text = firmware_text(name)
    lines = (HERE / "show" / "images" / f"{name}.txt").read_text()
    return clean_runs(name, text, address, found, lines, rebuilt(read(text), int(address, 16), BASE))


COMPLETE_RUNS = made("a complete set", COMPLETE)
CLEAN_RUNS = [
    *COMPLETE_RUNS, *made("a set of entries of each kind", ENTRIES), *firmware("sb-q35-numa4-dist", "f59c0", "0xf59c0"),
    *firmware("q11-efi-virt-caches", "47fe0000", "none"),
]


def row_run(row):
    return Run(row.name, text_of(row.pieces), row.words.split(), int(row.answer != "yes"), row.answer + "\n")


# The stages that take memory, and may have to find the first fault by a longer way.
LATER_STAGES = (7, 10, 13, 14, 15, 16, 17, 18)


# Sets with several findings, by their names in known/linted.py.
FOUND = ("a fault in each of four tables", "two UIDs and two APIC IDs")


def faulty_runs():
    """A check that finds a fault of each of these stages, one that goes round a longer cycle, findings of several kinds, and an
    overlap confirmed."""
    for stage in LATER_STAGES:
        yield row_run(next(row for row in ROWS if row.answer.startswith(f"no {stage} ")))
    yield row_run(next(row for row in ROWS if row.name == "two nodes that lead to a cycle of three"))
    for name in FOUND:
        it = next(it for it in EXPECTED if it.name == name)
        yield lint_run(f"lint, {name}", text_of(it.pieces), it.words.split())
    words = ["confirm", "--rsdp", "e0000", "--witness", "10 Overlap 0x80 0xa8 0x3fffffff"]
    yield Run("confirm, two ranges that share an address", text_of(OVERLAP), words, 0, "true\n")


def early_runs():
    """Checks through stages that need no memory, of a clean set and of one with a later fault."""
    for name, pieces in (("a complete set", COMPLETE), ("two ranges that share an address", OVERLAP)):
        for stage in range(1, 7):
            words = ["check", "--rsdp", "e0000", "--through", str(stage)]
            yield Run(f"check through {stage}, {name}", text_of(pieces), words, 0, "yes\n")


def wordy_runs():
    """All options, and many words."""
    text = text_of(SMALLEST)
    check = ["check", "--rsdp", "e0000", "--through", "3"]
    settings = ["--default-inputs", "16", "fec00000=32", "fec01000=8", "--hotplug", "apart", "--processors", "usable"]
    many = [f"{16 * place:x}={place % 256 + 1}" for place in range(400, 0, -1)]
    yield Run("check with all options", text, [*check, *settings], 0, "yes\n")
    yield Run("confirm with all options", text, ["confirm", "--rsdp", "e0000", "--witness", NO_FADT, *settings], 0, "true\n")
    yield Run("rebuild with all options, refused", text, ["rebuild", "--base", "40", *settings], 1, f"no {NO_FADT}\n")
    yield Run("check with 400 counts of inputs", text, [*check, *many], 0, "yes\n")


def text_runs():
    """Texts that arguments ask for; the input is not read."""
    yield Run("help", b"", ["help"], 0, (HERE / "help.txt").read_text())
    yield Run("version", b"", ["version"], 0, "acpiset: version 0.1.0, 18 stages\n")


def scattered_runs():
    """Texts of many pieces: in falling order; unsorted; and so that the last one is there a second time."""
    falling = range(8000, 0, -2)
    shuffled = [2 + 2 * (1231 * place % 4000) for place in range(4000)]
    yield Run("find in 4,000 pieces", rows_at(falling), ["find"], 1, "rsdp none\n")
    yield Run(UNSORTED, rows_at(shuffled), ["find"], 1, "rsdp none\n")
    yield Run(ONE_TWICE, rows_at([*shuffled, 0x1000]), ["find"], 3, "", "acpiset: address 0x1000 twice\n")


def many_slots_run():
    """A check of more slots than those for which it keeps the last address alone."""
    pieces = {RSDP_AT: rsdp(0x60000), 0x60000: rsdt(TABLES_AT, *[0x3000, 0x4000] * 600)}
    pieces.update({TABLES_AT: sound_fadt(), 0x3000: hpet(), 0x4000: table(b"SSDT", b"")})
    return Run(MANY_SLOTS, text_of(pieces), ["check", "--rsdp", "e0000"], 0, "yes\n")


# The runs with a request, after the input was read, that may be refused without another answer: for the buffer in which pieces are
# sorted, for addresses of many slots, and for the bytes of a line of data that has no address or passes the last one. An address that is
# there twice is told without any other request.
UNSORTED = "find in 4,000 pieces unsorted"
ONE_TWICE = "find in 4,000 pieces unsorted, one twice"
MANY_SLOTS = "check, 1,201 slots"
SPARED_AFTER = {
    (UNSORTED, "REFUSE_AT"), (ONE_TWICE, "REFUSE_AT"), (ONE_TWICE, "REFUSE_FROM"), ("check, no address", "REFUSE_AT"),
    ("check, a row past the end", "REFUSE_AT"), (MANY_SLOTS, "REFUSE_AT"),
}


def rows_at(addresses):
    return "".join(f"@{address:x}\n00\n" for address in addresses).encode()


A_FAULT = "a fault as check prints it after no"
USAGE = "usage: acpiset check [OPTION].. [ADDRESS=COUNT].. < IMAGE"
NOT_A_FAULT = "9 Overlap 0x30 0x58 0x0"
# Arguments that are refused, with what is said of them.
WRONG_WORDS = [
    ("unrecognized subcommand 'chek'", ["chek"]), ("unexpected argument '--rspd' found", ["check", "--rspd", "e0000"]),
    ("a value is required for '--rsdp <HEX>' but none was supplied", ["check", "--rsdp"]),
    ("--rsdp 'xyz': expected 1 to 16 hex digits, with or without 0x before them, as in f59e0", ["check", "--rsdp", "xyz"]),
    ("--through '0': expected a stage from 1 to 18, in at most 2 decimal digits", ["check", "--through", "0"]),
    ("--default-inputs '0': expected a number of inputs from 1 to 256, in at most 3 decimal digits", ["check", "--default-inputs", "0"]),
    ("--hotplug 'both': expected counted or apart", ["check", "--hotplug", "both"]),
    ("--processors 'both': expected enabled or usable", ["check", "--processors", "both"]),
    ("'fec00000=257': expected a COUNT from 1 to 256, in at most 3 decimal digits", ["check", "fec00000=24", "fec00000=257"]),
    ("'fec00000': expected ADDRESS=COUNT, as in fec00000=24", ["check", "fec00000"]),
    ("an argument is not UTF-8", ["check", "--rsdp", b"\xff"]),
    ("checks the static ACPI tables that an operating system reaches from", ["--help"]), ("version 0.1.0, 18 stages", ["--version"]),
    (USAGE, []), ("unrecognized subcommand 'image.txt'", ["image.txt"]),
    (f"confirm needs --witness FAULT: {A_FAULT}, in one argument, as in '10 Overlap 0x30 0x58 0x0'", ["confirm"]),
    (f"--witness '{NOT_A_FAULT}': Overlap is a fault of stage 10, not '9'", ["confirm", "--witness", NOT_A_FAULT]),
    ("rebuild needs --base HEX: 1 to 16 hex digits, with or without 0x before them, as in f59e0", ["rebuild"]),
    ("--rsdp 'xyz': expected 1 to 16 hex digits, with or without 0x before them, as in f59e0", ["show", "--rsdp", "xyz"]),
]


# ---- the program


@dataclass
class Told:
    """What a run told: status, standard output and standard error. Where something was refused, `refused` is the number of
    bytes in the file that says so: 1 where standard input had been read by then, else 0."""

    answer: tuple
    refused: int | None


class Program:
    """The program, with or without the object."""

    def __init__(self, path, scratch):
        self.path = os.path.realpath(path)
        self.scratch = scratch
        self.preload = build_object(scratch)
        self.names = count()

    def file(self, text):
        """A file with this text."""
        path = self.scratch / str(next(self.names))
        path.write_bytes(text)
        return path

    def runs(self, words, stdin, **rest):
        """The program's answer."""
        streams = {"stdin": stdin, "stdout": subprocess.PIPE, "stderr": subprocess.PIPE, **rest}
        try:
            run = subprocess.run([self.path, *words], timeout=SECONDS, **streams)
        except subprocess.TimeoutExpired:
            return (None, "", f"no end in {SECONDS} seconds")
        return (run.returncode, (run.stdout or b"").decode(), run.stderr.decode())

    def told(self, words, text, **settings):
        """What it tells with these settings of the object, on the file `text`."""
        mark = self.scratch / str(next(self.names))
        numbers = {name: str(number) for name, number in settings.items()}
        with open(text, "rb") as stdin:
            answer = self.runs(words, stdin, env={"LD_PRELOAD": str(self.preload), "REFUSED": str(mark), **numbers})
        try:
            refused = mark.stat().st_size
            mark.unlink()
        except FileNotFoundError:
            refused = None
        return Told(answer, refused)


# ---- refused memory

class Sweep:
    """What a run told where each of its requests for memory was refused, by its number."""

    def __init__(self, program, words, text, setting):
        self.tell = lambda number: program.told(words, text, **{setting: number})
        self.refused = {}
        for number in numbers():
            told = self.tell(number)
            if told.refused is None:
                self.usual = told.answer
                self.end = number
                break
            self.refused[number] = told
        self.last = self.last_refused()

    def last_refused(self):
        """The last request of all, between the last one that was refused and the first that was not."""
        low, high = max(self.refused, default=0), self.end
        while high - low > 1:
            middle = (low + high) // 2
            told = self.tell(middle)
            if told.refused is None:
                high = middle
            else:
                low = middle
                self.refused[middle] = told
        return low

    def sampled(self):
        return f"{len(self.refused)} of {self.last} requests refused" if len(self.refused) < self.last else ""


def shuffled_run():
    """A check that sorts the numbers of I/O APICs in stage 7, and once more in stage 17."""
    numbers = [7 * place % 30 for place in range(30)]
    entries = [io_apic(0xFEC00000 + 0x1000 * number, number) for number in numbers]
    tables = [full_fadt(), madt(lapic(0, 0), *entries, override(0, 2))]
    text = text_of(image_of(*tables, others={FACS_AT: facs()}))
    words = ["check", "--rsdp", "e0000", "--default-inputs", "1"]
    return Run("check, 30 unsorted I/O APICs", text, words, 0, "yes\n")


def wrong_sweep(sweep, answer, spared, spared_after=0):
    """What is wrong with a sweep over a run that has this answer. This many requests may be refused before the input is read, and
    this many after it, and the answer be the usual one. Where not all requests were refused, they need not be among these."""
    if not sweep.refused:
        return "no request was refused"
    if sweep.usual != answer:
        return f"nothing refused: {sweep.usual}, not {answer}"
    others = {number: told for number, told in sweep.refused.items() if told.answer != OUT_OF_MEMORY}
    allowed = [(answer, 0)] * spared + [(answer, 1)] * spared_after
    same = [(told.answer, told.refused) for told in others.values()]
    if same == allowed or sweep.sampled() and not same:
        return ""
    told = "; ".join(f"request {number}: {told.answer}" for number, told in others.items())
    return told or "no request was spared"


# The runs that make more requests than are refused each in its turn, beside those whose arguments are refused.
# docs/PROMISES.md names them.
SAMPLED = {
    "rebuild, q11-efi-virt-caches",
    "check with 400 counts of inputs",
}


def wrong_extent(sweep, name=""):
    """All requests of a run are refused, or a sample of them, as SAMPLED has it."""
    if bool(sweep.sampled()) == (name in SAMPLED):
        return ""
    return sweep.sampled() or "all requests were refused, and not a sample"


# Room for all arguments is asked for at once. Where this request alone is refused, room for one is asked for.
SPARED = {"REFUSE_AT": 1, "REFUSE_FROM": 0}


def starved(program, run, setting):
    """Each request for memory refused, alone or with all after it."""
    sweep = Sweep(program, run.words, program.file(run.text), setting)
    if sweep.sampled():
        tell(f"{run.name}, {setting}: {sweep.sampled()}")
    spared = SPARED[setting], int((run.name, setting) in SPARED_AFTER)
    yield f"{run.name}, {setting}", wrong_sweep(sweep, run.answer(), *spared) or wrong_extent(sweep, run.name)


def starved_refusal(program, message, words):
    """Each request for memory refused where the arguments are: the run is out of memory, or says no more than the usage."""
    sweep = Sweep(program, words, program.file(text_of(SMALLEST)), "REFUSE_AT")
    wrong = "" if sweep.refused else "no request was refused"
    usage, usual = (2, "", f"acpiset: {USAGE}"), (2, "", f"acpiset: {message}")
    if first_line(sweep.usual) != usual:
        wrong = f"nothing refused: {sweep.usual}"
    for number, told in sweep.refused.items():
        if told.answer != OUT_OF_MEMORY and first_line(told.answer) not in (usage, usual):
            wrong = f"request {number}: {told.answer}"
    yield f"arguments {words}", wrong


def first_line(answer):
    """The answer with the first line of standard error alone."""
    status, out, err = answer
    return (status, out, err.split("\n")[0])


def same_requests(program, runs):
    """Runs that are told by their last stage alone make as many requests for memory."""
    lasts = {}
    for run in runs:
        sweep = Sweep(program, run.words, program.file(run.text), "REFUSE_AT")
        yield run.name, wrong_sweep(sweep, run.answer(), 1) or wrong_extent(sweep)
        lasts.setdefault(run.text, set()).add(sweep.last)
    yield "requests for memory up to each early stage", "" if all(len(last) == 1 for last in lasts.values()) else str(lasts)


# ---- calls that fail


def wrong_answer(answer, expected):
    return "" if answer == expected else f"{answer}, not {expected}"


def failing(program, run, failure, most, expected):
    """The call 1, 2, .. fails in its turn, until none does: READ_FAILS, WRITE_FAILS or WRITE_EMPTY. Each call takes this many
    bytes at most; `expected` is the answer where the call with a number fails."""
    text = program.file(run.text)
    limit = "READ_MOST" if failure == "READ_FAILS" else "WRITE_MOST"
    for number in count(1):
        told = program.told(run.words, text, **{failure: number, limit: most})
        is_last = told.refused is None
        wrong = wrong_answer(told.answer, run.answer() if is_last else expected(number))
        if is_last and number == 1:
            wrong = "no call failed"
        if is_last or wrong:
            yield f"{run.name}, {failure} {number}, {most} bytes a call", wrong
            return


READ_SIZE = 7
WRITE_SIZE = 3


def failing_reads(program, run, fault_at=None, most=READ_SIZE):
    """Each read fails in its turn. The text has its fault as soon as this many bytes have come, or has none."""
    faulty = lambda number: fault_at is not None and most * (number - 1) >= fault_at
    return failing(program, run, "READ_FAILS", most, lambda number: run.answer() if faulty(number) else unread())


def failing_writes(program, run, failure):
    """Each write fails in its turn."""
    return failing(program, run, failure, WRITE_SIZE, lambda number: device(run.out[: WRITE_SIZE * (number - 1)]))


def in_pieces(program, run, setting, most):
    """Reads bring, or writes take, few bytes each."""
    told = program.told(run.words, program.file(run.text), **{setting: most})
    yield f"{run.name}, {setting} {most}", wrong_answer(told.answer, run.answer())


def interrupted(program, run, call, limit, most):
    """A signal interrupts one of the calls, which is then made again, or each of them, which is a failure."""
    text = program.file(run.text)
    for number in range(1, 5):
        told = program.told(run.words, text, **{f"{call}_INTERRUPTED": number, limit: most})
        yield f"{run.name}, {call} {number} is interrupted", wrong_answer(told.answer, run.answer())
    told = program.told(run.words, text, **{f"{call}_INTERRUPTED_FROM": 1})
    yield f"{run.name}, each {call} is interrupted", wrong_answer(told.answer, unread() if call == "READ" else device())


# A text, the number of its bytes after which it has its fault, if it ever has one before the end, and what is said of it.
GOOD_TEXT = text_of(SMALLEST)
GOOD_LINES = GOOD_TEXT.count(b"\n")
BAD_TEXTS = [
    ("a bad line", GOOD_TEXT + b"0g\n" + GOOD_TEXT, len(GOOD_TEXT) + 3, f"line {GOOD_LINES + 1}: bad line"),
    ("an address twice", GOOD_TEXT + b"@e0000\n00\n", len(GOOD_TEXT) + 10, "address 0xe0000 twice"),
    ("no address", b"# none\n00 # a byte\n" + GOOD_TEXT, 19, "line 2: no address"),
    ("a row past the end", b"@ffffffffffffffff\n00 00\n" + GOOD_TEXT, 24, "line 2: past the end"),
    ("half a pair at the end", GOOD_TEXT + b"0", None, f"line {GOOD_LINES + 1}: bad line"),
]
BAD_TEXTS.append(("a line that is too long", b"#" * (LONGEST_LINE + 100), LONGEST_LINE + 1, "too long"))


def bad_text_tasks():
    """Reads of bad texts that fail, and requests for memory that are refused: of each text in a check, and of the first one
    by each command."""
    for place, (name, text, fault_at, message) in enumerate(BAD_TEXTS):
        most = LONGEST_LINE // 4 if len(text) > LONGEST_LINE else READ_SIZE
        for asked in COMPLETE_RUNS[:1] if place else COMPLETE_RUNS:
            run = Run(f"{asked.words[0]}, {name}", text, asked.words, 3, "", f"acpiset: {message}\n")
            yield failing_reads, run, fault_at, most
            yield starved, run, "REFUSE_AT"


# ---- devices of the system


def failing_input(program, run):
    """An input that is closed, a folder, or open for writing alone."""
    yield "an input that is closed", program.runs(run.words, None, preexec_fn=lambda: os.close(0)), unread()
    folder = os.open(HERE, os.O_RDONLY)
    yield "an input that is a folder", program.runs(run.words, folder), unread()
    os.close(folder)
    writing = os.open("/dev/null", os.O_WRONLY)
    yield "an input that is open for writing alone", program.runs(run.words, writing), unread()
    os.close(writing)


def failing_output(program, run):
    """An output that is full, closed, open for reading alone, or a pipe whose reader is gone."""
    text = program.file(run.text)
    reading, pipe = os.pipe()
    os.close(reading)
    full, reading = os.open("/dev/full", os.O_WRONLY), os.open("/dev/null", os.O_RDONLY)
    for name, stream in (("full", full), ("a pipe whose reader is gone", pipe), ("open for reading alone", reading)):
        with open(text, "rb") as stdin:
            yield f"an output that is {name}", program.runs(run.words, stdin, stdout=stream), device()
    with open(text, "rb") as stdin:
        closed = program.runs(run.words, stdin, stdout=None, preexec_fn=lambda: os.close(1))
    yield "an output that is closed", closed, device()
    for stream in (full, reading, pipe):
        os.close(stream)


def fed(program, words, pieces):
    """The program's answer where these pieces come through a pipe, with a pause between them, which then ends."""
    reading, writing = os.pipe()

    def feed():
        try:
            for place, piece in enumerate(pieces):
                time.sleep(0.02 if place else 0)
                for at in range(0, len(piece), 1 << 16):
                    os.write(writing, piece[at : at + (1 << 16)])
        except BrokenPipeError:
            pass  # It has refused the text, and reads no more.
        os.close(writing)

    with ThreadPoolExecutor(1) as feeder:
        done = feeder.submit(feed)
        answer = program.runs(words, reading)
        os.close(reading)
        done.result()
    return answer


# The complete set's text up to its root, and what commands write of it that do not write the verdict.
STOPS = text_of({RSDP_AT: COMPLETE[RSDP_AT]})
NO_ROOT = "no 2 RootHeaderOut 0x1000 0x0 0x0\n"
STOPPED = {"confirm": "false\n", "find": "rsdp 0xe0000\n"}


def pipes(program, run):
    """A pipe that pauses, one that stops, one that stops within a pair, and one that brings a byte too many."""
    cut = len(run.text) // 2
    yield "a pipe that pauses", fed(program, run.words, [run.text[:cut], run.text[cut:]]), run.answer()
    stopped = STOPPED.get(run.words[0], NO_ROOT)
    yield "a pipe that stops", fed(program, run.words, [STOPS]), (int(not stopped.startswith("rsdp")), stopped, "")
    half = f"acpiset: line {STOPS.count(10) + 1}: bad line\n"
    yield "a pipe that stops within a pair", fed(program, run.words, [STOPS, b"0"]), (3, "", half)
    long = run.text + b"\n" * (LONGEST_TEXT + 1 - len(run.text))
    yield "a pipe of 64 MiB and a byte", fed(program, run.words, [long]), (3, "", "acpiset: too long\n")


# An image of 8 MiB, and sizes of memory, in MiB: those up to 8 do not hold it, and the last one is far more than is needed.
LARGE_SIZE = 8
LARGE_TEXT = text_of(COMPLETE) + b"@1000000\n" + (b"00" * 16384 + b"\n") * (LARGE_SIZE << 6)
SIZES = (5, 6, 7, 8, 10, 12, 14, 16, 20, 24, 80)
COMPLETE_IMAGE = read(text_of(COMPLETE))
LARGE_RUNS = clean_runs(
    "an image of 8 MiB", LARGE_TEXT, "e0000", "0xe0000", shown(COMPLETE_IMAGE, RSDP_AT), rebuilt(COMPLETE_IMAGE, RSDP_AT, BASE)
)


def little_memory(program, run):
    """What is answered in this many MiB: that memory ran out where they do not hold the image, the usual answer where they are
    ten times as many, and one of the two between."""
    text = program.file(run.text)
    for size in SIZES:
        limit = lambda: resource.setrlimit(resource.RLIMIT_AS, (size << 20, size << 20))
        with open(text, "rb") as stdin:
            answer = program.runs(run.words, stdin, preexec_fn=limit)
        ran_out = size <= LARGE_SIZE or size < SIZES[-1] and answer == OUT_OF_MEMORY
        yield f"{size} MiB of memory", answer, OUT_OF_MEMORY if ran_out else run.answer()


# ---- all of them


def tasks():
    """The tests that need the object, each as a function and its arguments."""
    for run in [*CLEAN_RUNS, *faulty_runs(), *wordy_runs(), *text_runs(), *scattered_runs(), shuffled_run(), many_slots_run()]:
        yield starved, run, "REFUSE_AT"
    for run in [*CLEAN_RUNS, *text_runs(), *scattered_runs()]:
        yield starved, run, "REFUSE_FROM"
    for message, words in WRONG_WORDS:
        yield starved_refusal, message, words
    yield same_requests, early_runs()
    for run in CLEAN_RUNS:
        for setting, most in (("READ_MOST", 1), ("READ_MOST", READ_SIZE), ("WRITE_MOST", 1), ("WRITE_MOST", WRITE_SIZE)):
            yield in_pieces, run, setting, most
    for run in [*COMPLETE_RUNS, row_run(next(row for row in ROWS if row.pieces == OVERLAP))]:
        yield failing_reads, run
        yield failing_writes, run, "WRITE_FAILS"
        yield failing_writes, run, "WRITE_EMPTY"
        yield interrupted, run, "READ", "READ_MOST", READ_SIZE
        yield interrupted, run, "WRITE", "WRITE_MOST", WRITE_SIZE
    *_, version = text_runs()
    yield failing_writes, version, "WRITE_FAILS"
    yield from bad_text_tasks()


def cases(program):
    """Each case with what is wrong with it."""
    with ThreadPoolExecutor(2) as pool:
        for told in pool.map(lambda task: list(task[0](program, *task[1:])), tasks()):
            yield from told
    for test in (failing_input, failing_output, pipes, little_memory):
        for run in LARGE_RUNS if test == little_memory else COMPLETE_RUNS:
            for name, answer, expected in test(program, run):
                yield f"{run.name}, {name}", wrong_answer(answer, expected)


def main():
    _, path = sys.argv
    counted = Cases(path)
    with tempfile.TemporaryDirectory() as scratch:
        program = Program(path, Path(scratch))
        if not program.preload:
            counted.count("tests/refusals.c", "no C compiler to build it")
        for name, wrong in cases(program) if program.preload else ():
            counted.count(name, wrong)
    finish("refusals", counted)


main()
