#!/usr/bin/env python3
"""Gives the tools what no program writes: texts of acpidump, raw tables, logs, dumps of memory, images and lines of acpiset that are
changed at random. Each ends with a status of its own, writes no traceback, and ends; an image that it makes is one
that acpiset reads; JSON, XML and pages are well-formed.

usage: fuzz.py PROGRAM [--seed N] [--cases N] [--first N] [--keep FOLDER]
A case depends on the seed and on its number alone; --first is the first number. Without options the cases are the same each time.
--keep leaves the input of each case that fails in this folder. The last line is 'fuzz of the tools: N passed, M failed'."""

import argparse
import io
import json
import os
import random
import re
import signal
import sys
import tempfile
import traceback
import xml.etree.ElementTree as xml
from pathlib import Path

sys.path[:0] = [str(Path(__file__).resolve().parents[1]), str(Path(__file__).resolve().parents[1] / "explain")]

import sets
from acpi_images.known.rows import ROWS
from acpi_images.program import FIRMWARE, SECONDS, Cases, finish
from acpi_images.text import text_of
from files import COMPLETE, RAW, dump_of
from memory_dumps import core_of, small_set
from raw_tables import COMPLETE_LOG
from tool_cases import TOP, module_of

SEED, CASES = 1, 1500
NUMBERS = (0, 1, 2, 5, 8, 36, 44, 255, 256, 0xFFFF, 0xFFFFFFFF, 1 << 32, 1 << 63, (1 << 64) - 1)
DIGITS = b"0123456789abcdefABCDEFxX@#: ()\r\n\t\0-"


class Slow(Exception):
    """A tool does not end."""


# ---- what is given


def changed(dice, data):
    """The bytes with some of them replaced, left out, repeated, or put elsewhere."""
    data = bytearray(data)
    for _ in range(dice.choice((1, 1, 1, 2, 3, 8))):
        at = dice.randrange(len(data) + 1)
        end = min(at + dice.choice((0, 1, 1, 2, 4, 8, 40)), len(data))
        number = dice.choice(NUMBERS).to_bytes(8, "little")[: dice.choice((1, 2, 4, 8))]
        piece = bytes(data[at:end])
        data[at:end] = dice.choice((b"", bytes([dice.choice(DIGITS)]), piece * 3, number, dice.randbytes(end - at), b"%x" % dice.choice(NUMBERS)))
    return bytes(data[: dice.randrange(len(data) + 1)] if dice.random() < 0.05 else data)


def some_log(dice):
    """A kernel's log with other addresses, or with an RSDT."""
    lines = COMPLETE_LOG.replace(b"XSDT", dice.choice((b"XSDT", b"RSDT"))).splitlines(keepends=True)
    for _ in range(dice.choice((1, 1, 2, 4))):
        at = dice.choice((1, 2, dice.randrange(len(lines))))
        address = max(dice.choice((*NUMBERS, 1 << 32, 0x1000, 0xE0000)) - dice.choice((0, 1, 36, 4096)), 0)
        other = re.sub(b"0x[0-9A-F]{16}", b"0x%016X" % address, lines[at])
        lines[at] = dice.choice((other, other, changed(dice, lines[at])))
    return b"".join(lines)


def with_length(dice, data):
    """A table, or an RSDP, with another Length."""
    at = 20 if data[:4] == b"RSD " else 4
    return data[:at] + dice.choice((dice.choice(NUMBERS), dice.randrange(12), dice.randrange(40))).to_bytes(8, "little")[:4] + data[at + 4 :] if len(data) >= at + 4 else data


def of_words(dice, text):
    """A line with some words left out, repeated, or put in the place of others."""
    words = text.split(b" ")
    for _ in range(dice.choice((1, 1, 2))):
        at = dice.randrange(len(words) + 1)
        other = dice.choice(([dice.choice(words or [b"x"])], [b"%#x" % dice.choice(NUMBERS)], [b"7"]))
        words[at : at + dice.choice((0, 1, 2, 2))] = dice.choice(([], other))
    return b" ".join(words)


SETS = [row.pieces for row in ROWS if isinstance(row.pieces, dict) and row.pieces and sum(map(len, row.pieces.values())) < 20_000]
TEXTS = [value for value in vars(sets).values() if isinstance(value, bytes) and value.startswith(b"@")]


def image(dice):
    """An image, and addresses of its tables, most often of those that are changed."""
    pieces = dict(dice.choice(SETS))
    places = [*pieces]
    for change in dice.choice(((), (changed,), (with_length,), (with_length,), (with_length, changed))):
        at = dice.choice([*pieces])
        pieces[at] = change(dice, pieces[at])
        places += [at] * 5
    at = dice.random()
    text = dice.choice(TEXTS) if at < 0.1 else text_of(pieces)
    return changed(dice, text) if 0.1 < at < 0.2 else text, places


def line(dice, parts, places):
    """A line on any fault or advice, most often at the place of a table, or one that is none."""
    part = dice.choice(dice.choice((parts, parts[:31])))
    numbers = " ".join(f"{dice.choice(dice.choice((places, places, NUMBERS, range(130)))):#x}" for _ in range(3))
    text = f"no {part.stage} {part.name} {numbers}" if part.code < 101 else f"advice {part.name} {numbers}"
    text = dice.choice((text, text, text, text, text, text, text, text, "yes", "no rsdp", "rsdp none"))
    return changed(dice, text.encode()).decode("latin-1") if dice.random() < 0.05 else text


# ---- the tools


class Tools(Cases):
    """Runs the tools in this process: to start Python takes longer than a case."""

    def __init__(self, said, folder, path):
        super().__init__(said.program)
        self.said, self.folder = said, folder
        self.modules = {name: module_of(name) for name in ("tables2image", "acpidump2image", "memory2image", "report", "explain")}
        # The tools ask the program that is tested.
        os.symlink(os.path.abspath(said.program), os.path.join(path, "acpiset"))
        os.environ["PATH"] = path
        self.parts = [*self.modules["explain"].Document([os.path.join(TOP, "docs", "FAULTS.md")]).codes.values()]
        signal.signal(signal.SIGALRM, self.stop)

    @staticmethod
    def stop(*_):
        raise Slow

    def write(self, name, data):
        path = os.path.join(self.folder, name)
        with open(path, "wb") as file:
            file.write(data)
        return path

    def ran(self, tool, words, data=b""):
        """What a tool writes to standard output, and its status; the rest of standard error, which is checked, is left out."""
        module, out = self.modules[tool], io.BytesIO()
        stdin = os.open(self.write("input", data), os.O_RDONLY)
        os.dup2(stdin, 0)
        os.close(stdin)
        if tool == "explain":
            module.write = lambda text: out.write(text.encode())
            try:
                module.run(words)
                return 0, out.getvalue()
            except module.Refusal as refusal:
                return refusal.status, out.getvalue()
        try:
            made = module.job(words)
            return (made[1], made[0]) if tool == "report" else (0, made)
        except (module.Refusal, *([module.t2i.Refusal] if tool == "acpidump2image" else [])) as refusal:
            return refusal.status, b""
        finally:
            notes = module.t2i.NOTES if tool == "acpidump2image" else module.NOTES
            getattr(notes, "lines", notes).clear()

    def makes(self, tool, words):
        """What is wrong with the image that a tool makes of files."""
        status, text = self.ran(tool, words)
        if status:
            return "" if status in (1, 2) else f"status {status}"
        status, out, err = self.run(["check"], bytes(text))
        return "" if status in (0, 1) else f"acpiset: status {status}, {out}{err}"

    # ---- a case of each kind

    def of_raw_tables(self, dice):
        names = [self.write(f"{place}.dat", changed(dice, dice.choice([*RAW.values()]) or b"\0")) for place in range(dice.choice((1, 2, 4)))]
        log = ["--dmesg", self.write("log", some_log(dice))] if dice.random() < 0.5 else []
        return self.makes("tables2image", [*log, *names])

    def of_dumped_texts(self, dice):
        tables = [(0, data) for _, data in COMPLETE] if dice.random() < 0.3 else COMPLETE
        log = ["--dmesg", self.write("log", some_log(dice))] if dice.random() < 0.3 else []
        return self.makes("acpidump2image", [*log, self.write("text", changed(dice, dump_of(tables)))])

    def of_memory(self, dice):
        pieces = {**small_set()[1]}
        if dice.random() < 0.5:
            at = dice.choice([*pieces])
            pieces[at] = changed(dice, pieces[at]) or b"\0"
        core = core_of(pieces, dice.choice((32, 64)), dice.choice("<>"), is_many=dice.random() < 0.3)
        core = changed(dice, core[:700]) + core[700:] if dice.random() < 0.7 else core
        rsdp = ["--rsdp", f"{dice.choice((*NUMBERS, 0xF0010, 0x1000)):x}"] if dice.random() < 0.3 else []
        base = ["--base", f"{dice.choice((*NUMBERS, 0xE0000)):x}"] if dice.random() < 0.3 else []
        return self.makes("memory2image", [*rsdp, *base, self.write("core", core)])

    def of_lines(self, dice):
        """What explain says of any lines and any image."""
        text, places = image(dice)
        lines = [line(dice, self.parts, places) for _ in range(dice.choice((1, 20, 20)))]
        rsdp = ["--rsdp", f"{dice.choice((*NUMBERS, *places)):#x}"] if dice.random() < 0.3 else []
        path = [self.write("image", text)] if dice.random() < 0.95 else []
        data = "\n".join(lines).encode("latin-1")
        words = lines[0].split() if dice.random() < 0.2 and lines[0].isprintable() and not lines[0].startswith("-") else []
        status, _ = self.ran("explain", [*rsdp, *words, *path], data)
        return "" if status in (0, 1, 2) else f"status {status}"

    def reported(self, dice, words, data=b""):
        form = dice.choice(("json", "tap", "junit", "sarif", "html", "html", "html"))
        status, text = self.ran("report", ["--format", form, *words], data)
        if status not in (0, 1, 2, 3, 4) or not text:
            return "" if status in (0, 1, 2, 3, 4) else f"status {status}"
        if form in ("json", "sarif"):
            json.loads(text)
        elif form in ("junit", "html"):
            xml.fromstring(bytes(text).partition(b"\n")[2] if form == "html" else text)
        return ""

    def of_reports(self, dice):
        """A report or a page of lines of lint and show, some of which are changed."""
        name = dice.choice(["example", "sb-pc-nvdimm-numa", "q11-efi-virt-caches", "ovmf-q35"])
        text = (FIRMWARE / f"{name}.img.txt").read_bytes()
        shown = self.run(["show", "--anyway"], text)[1].encode()
        lines = [*self.run(["lint"], text)[1].encode().splitlines(), *shown.splitlines()]
        for _ in range(dice.choice((0, 1, 1, 2))):
            at = dice.randrange(len(lines))
            lines[at] = dice.choice((of_words, of_words, changed))(dice, lines[at])
        lines = lines[dice.choice((0, 0, 1, 3)) :]
        return self.reported(dice, [], b"\n".join(lines))

    def of_pages(self, dice):
        """A report or a page of an image."""
        return self.reported(dice, [self.write("image", image(dice)[0])])

    KINDS = (of_raw_tables, of_dumped_texts, of_memory, of_lines, of_lines, of_reports, of_pages)

    def run_case(self, place):
        said = self.said
        dice = random.Random(f"{said.seed} {place}")
        kind = self.KINDS[place % len(self.KINDS)]
        for name in os.listdir(self.folder):
            os.remove(os.path.join(self.folder, name))
        signal.setitimer(signal.ITIMER_REAL, SECONDS)
        try:
            wrong = kind(self, dice)
        except Slow:
            wrong = f"no end in {SECONDS} seconds"
        except Exception:
            wrong = traceback.format_exc()
        signal.setitimer(signal.ITIMER_REAL, 0)
        self.count(f"{kind.__name__} (--seed {said.seed} --first {place} --cases 1)", wrong)
        if wrong and said.keep:
            for name in os.listdir(self.folder):
                Path(said.keep, f"{place}-{name}").write_bytes(Path(self.folder, name).read_bytes())


def main():
    parser = argparse.ArgumentParser()
    parser.add_argument("program")
    parser.add_argument("--seed", type=int, default=SEED)
    parser.add_argument("--cases", type=int, default=CASES)
    parser.add_argument("--first", type=int, default=0)
    parser.add_argument("--keep")
    said = parser.parse_args()
    with tempfile.TemporaryDirectory() as folder, tempfile.TemporaryDirectory() as path:
        tools = Tools(said, folder, path)
        for place in range(said.first, said.first + said.cases):
            tools.run_case(place)
    finish("fuzz of the tools", tools)


if __name__ == "__main__":
    main()
