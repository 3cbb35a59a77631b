#!/usr/bin/env python3
"""Generates sets of tables and image texts, and compares every answer of the built program with that of second programs in Python,
those of tests/acpi_images: refusals with text.py, written from docs/TABLES.md alone; verdicts, faults and advice with faults.py and
advice.py, written from docs/TABLES.md and docs/FAULTS.md alone; and all other lines with shown.py and rebuilt.py.

usage: run.py PROGRAM [--seed N] [--cases N] [--first N] [--keep FOLDER] [--coverage]
Each number has two cases: a set or a text that is made, and a known set that is changed. A case depends on the seed and on its number
alone; --first is the first number. Without options the cases are the same each time. --keep leaves the text of each case that differs
in this folder, and --coverage prints how often each fault was reported and confirmed. The last line is 'fuzz: N passed, M failed'."""

import argparse
import os
import signal
import sys
from collections import Counter
from itertools import islice
from pathlib import Path

sys.path.insert(0, str(Path(__file__).resolve().parents[1]))

from acpi_images.advice import RULES, lint_lines, lint_status, without_rules
from acpi_images.faults import STAGE_OF, Judgement
from acpi_images.generated.cases import asked, changed_case, made_case
from acpi_images.program import SECONDS, Cases, answer, finish, hinted, refusal
from acpi_images.rebuilt import NotRebuilt, rebuilt
from acpi_images.shown import shown
from acpi_images.table_set import find_rsdp
from acpi_images.text import Refused, read

SEED, CASES = 1, 800
# Of a text of this many bytes only the first runs are compared, as each takes as long as some hundred others.
LONG_TEXT, RUNS_OF_LONG_TEXT = 1 << 20, 2


class Disagree(Exception):
    """A text and the image that it was written from differ."""


class Program:
    """The built program: it reads a file in memory and writes two, which takes less than half the time that pipes do."""

    def __init__(self, path):
        self.path = path
        self.files = [os.memfd_create(name) for name in ("input", "output", "errors")]
        self.actions = [(os.POSIX_SPAWN_DUP2, file, place) for place, file in enumerate(self.files)]
        signal.signal(signal.SIGALRM, self.stop)
        self.child = None

    def stop(self, *_):
        os.kill(self.child, signal.SIGKILL)

    def read(self, text):
        """Has the next runs read this text."""
        os.ftruncate(self.files[0], 0)
        os.pwrite(self.files[0], text, 0)

    def run(self, *words):
        """The status, the standard output and the standard error of a run."""
        for file in self.files:
            os.lseek(file, 0, os.SEEK_SET)
        for file in self.files[1:]:
            os.ftruncate(file, 0)
        self.child = os.posix_spawn(self.path, [self.path, *words], {}, file_actions=self.actions)
        signal.alarm(SECONDS)
        _, status = os.waitpid(self.child, 0)
        signal.alarm(0)
        out, err = (os.pread(file, os.fstat(file).st_size, 0).decode("utf-8", "replace") for file in self.files[1:])
        return os.waitstatus_to_exitcode(status), out, err


def without_hint(told):
    """The answer without the hint that may follow the refusal of a text. tests/rows/hints.py tests which one does."""
    status, out, err = told
    reason, *more = err.splitlines(keepends=True) or [""]
    is_hinted = status == 3 and len(more) == 1 and more[0].startswith(hinted("").rstrip("\n"))
    return (status, out, reason) if is_hinted else told


# ---- what the second programs say


class Judged:
    """A case as the second programs judge it: for each command line the answer."""

    def __init__(self, case, dice):
        self.case, self.dice = case, dice
        self.words = [*case.rsdp_words, *case.setting_words]
        self.base = ["--base", f"{case.base:x}"]
        self.fault, self.asked, self.advised = None, [], []

    def answers(self):
        """(words, answer) of each run."""
        case = self.case
        try:
            image = read(case.text)
        except Refused as refused:
            return self.refusals(refusal(refused))
        if case.image and image.pieces() != case.image.pieces():
            raise Disagree("the text says something else than the image that it was written from")
        found = find_rsdp(image)
        rsdp = found if case.rsdp is None else case.rsdp
        find = (["find"], answer("rsdp none" if found is None else f"rsdp {found:#x}"))
        if rsdp is None:
            return [find, *self.refusals(answer("no rsdp", case.text))[1:]]
        return [find, *self.judged(image, rsdp)]

    def refusals(self, told):
        """All commands, with one answer."""
        witness = ["--witness", "4 NoFadt 0x0 0x0 0x0"]
        commands = (["find"], ["check", *self.words], ["lint", *self.words], ["show", *self.case.rsdp_words])
        commands = (*commands, ["confirm", *witness, *self.words], ["rebuild", *self.base, *self.words])
        return [(words, told) for words in commands]

    def judged(self, image, rsdp):
        case = self.case
        judgement = Judgement(image, rsdp, case.settings)
        self.fault = judgement.verdict()
        through = ["--through", str(case.last)] if case.last != 18 else []
        yield ["check", *self.words, *through], self.line_of(judgement.verdict(case.last))
        allow = ["--allow", ",".join(case.allowed)] if case.allowed else []
        yield ["lint", *self.words, *allow, *["--strict"] * case.is_strict], self.linted(image, rsdp)
        text = shown(image, rsdp)
        yield ["show", *case.rsdp_words], self.line_of(self.fault) if text is None else (0, text, "")
        yield ["rebuild", *self.base, *self.words], self.rebuilt(image, rsdp)
        for fault in asked(self.dice, judgement):
            has_it = judgement.has(fault)
            self.asked += [fault.name] if has_it else []
            yield ["confirm", "--witness", str(fault), *self.words], answer("true" if has_it else "false")

    def line_of(self, fault):
        """What `check` answers."""
        return answer("yes" if fault is None else f"no {fault}")

    def linted(self, image, rsdp):
        lines = without_rules(lint_lines(image, rsdp, self.case.settings), self.case.allowed)
        self.advised = [line.split()[1] for line in lines if line.startswith("advice ")]
        return lint_status(lines, self.case.is_strict), "".join(f"{line}\n" for line in lines), ""

    def rebuilt(self, image, rsdp):
        if self.case.base % 64 == 0 and self.fault:
            return self.line_of(self.fault)
        try:
            return 0, rebuilt(image, rsdp, self.case.base), ""
        except NotRebuilt as why:
            return answer(f"refused {why}")


# ---- the comparison


class Fuzz(Cases):
    """Compares cases, and counts what they have."""

    def __init__(self, said):
        super().__init__(said.program)
        self.said, self.fast_program = said, Program(said.program)
        self.reported, self.confirmed, self.advised = Counter(), Counter(), Counter()

    def wrong_with(self, case, dice):
        """What differs of a case, run by run."""
        self.fast_program.read(case.text)
        judged, wrong = Judged(case, dice), []
        most = RUNS_OF_LONG_TEXT if len(case.text) > LONG_TEXT else None
        try:
            for words, expected in islice(judged.answers(), most):
                told = without_hint(self.fast_program.run(*words))
                if told != expected:
                    wrong.append(f"  {words}\n    program {told}\n    judged  {expected}")
        except OSError:
            # There is no such program, or no room for another process.
            raise
        except Exception as reason:
            wrong.append(f"  a second program: {reason!r}")
        self.reported.update([judged.fault.name] if judged.fault else [])
        self.confirmed.update(judged.asked)
        self.advised.update(judged.advised)
        return wrong

    def run_case(self, place, make):
        said = self.said
        case, dice = make(said.seed, place)
        name, wrong = f"{make.__name__} {place} of seed {said.seed}", self.wrong_with(case, dice)
        self.count(f"{name} (--seed {said.seed} --first {place} --cases 1)", "\n".join(["", *wrong]) if wrong else "")
        if wrong and said.keep:
            (Path(said.keep) / f"{name.replace(' ', '-')}.img.txt").write_bytes(case.text)

    def print_coverage(self):
        for code, name in enumerate(STAGE_OF, 1):
            print(f"{code} {name}: reported {self.reported[name]} times, confirmed {self.confirmed[name]}")
        for name in RULES:
            print(f"advice {name}: {self.advised[name]} times")

    def count_codes(self):
        """Each fault is reported, and each advice given, at least once in the run without options. Few cases of another seed may miss
        one."""
        missing = [name for name in STAGE_OF if not self.reported[name]] + [name for name in RULES if not self.advised[name]]
        if missing:
            self.count("never reported", " ".join(missing))


def read_words():
    parser = argparse.ArgumentParser()
    parser.add_argument("program")
    parser.add_argument("--seed", type=int, default=SEED)
    parser.add_argument("--cases", type=int, default=CASES)
    parser.add_argument("--first", type=int, default=0)
    parser.add_argument("--keep")
    parser.add_argument("--coverage", action="store_true")
    return parser.parse_args()


def main():
    said = read_words()
    if said.keep:
        os.makedirs(said.keep, exist_ok=True)
    fuzz = Fuzz(said)
    for place in range(said.first, said.first + said.cases):
        fuzz.run_case(place, made_case)
        fuzz.run_case(place, changed_case)
    if said.coverage:
        fuzz.print_coverage()
    if (said.seed, said.first) == (SEED, 0) and said.cases >= CASES:
        fuzz.count_codes()
    finish("fuzz", fuzz)


if __name__ == "__main__":
    main()
