#!/usr/bin/env python3
"""Runs scripts/lists.py on the tree, of which it has to say nothing, and on a copy with an edit at a time: it has to say what the edit
changes, and, where it can write what follows from an edit, to have nothing to say after that.

usage: lists.py; the last line is 'lists: N passed, M failed'."""

import shutil
import subprocess
import sys
import tempfile
from pathlib import Path

TOP = Path(__file__).resolve().parent.parent
sys.path.insert(0, str(TOP / "tests"))
from acpi_images.program import finish  # noqa: E402

SCRIPT = "scripts/lists.py"
READ = ("bindings", "docs", "scripts", "share/acpiset/explain", "crates/acpi_lint/proofs",
        *(f"crates/{it}/{part}" for it in ("acpi_base", "acpi_c", "acpi_lint") for part in ("specs", "src")))
HEADER = "bindings/c/acpiset.h"
PYTHON, RUST = "bindings/python/acpiset/_lists.py", "bindings/rust/src/lists.rs"
EXPLAINED = "crates/acpi_c/src/explained.rt"
RULE, ROWS = "crates/acpi_lint/src/rule.rt", "crates/acpi_lint/specs/Rules/Rows.antt"
BOUNDS = "crates/acpi_lint/proofs/RuleNumbers.antt"
ABOUT, SENTENCES = "share/acpiset/explain/about.py", "share/acpiset/explain/sentences.py"
FAULTS, TABLES = "docs/FAULTS.md", "docs/TABLES.md"
MADT, SLOTS, CACHES = (f"crates/acpi_lint/src/{name}.rt" for name in ("rows/madt", "slot_advice", "cache_types"))
CODE, CODES = "crates/acpi_base/src/code.rt", "crates/acpi_base/specs/Codes.antt"
TIMER = "155 TimerLevel, likely wrong (5.2.12.5): the override of ISA interrupt 0, the timer, is level-triggered."

# An edit of a file, of which the script has to say this: that the file, or one that is written, is another one.
COMPARED = [
    (HEADER, "ACPISET_NO_FADT = 19,", "ACPISET_NO_FADT = 20,", [HEADER]),
    (HEADER, 'return "NoFadt"', 'return "NoFACP"', [HEADER]),
    (PYTHON, " 155: 3, ", " 155: 2, ", [PYTHON]),
    (RUST, "        TimerLevel = 155,", "        TimerLevel = 156,", [RUST]),
    (EXPLAINED, "Fix: list the FADT.", "Fix: add the FADT.", [EXPLAINED]),
    (RULE, "timer, is level-triggered", "timer, is edge-triggered", [RULE]),
    (RULE, "(Rule::TimerLevel, 155),", "(Rule::TimerLevel, 156),", [RULE]),
    (RULE, '=> "TimerLevel",', '=> "TimerEdge",', [RULE]),
    (RULE, "COUNT: usize = ", "COUNT: usize = 1", [RULE]),
    (RULE, "FIRST: u16 = 101", "FIRST: u16 = 100", [RULE]),
    (RULE, "LAST: u16 = ", "LAST: u16 = 1", [RULE]),
    (BOUNDS, "101 ≤ rule_number r", "100 ≤ rule_number r", [BOUNDS]),
    (BOUNDS, "rule_number r ≤ ", "rule_number r ≤ 1", [BOUNDS]),
    (ROWS, "rule_row rule.TimerLevel = (54, 155", "rule_row rule.TimerLevel = (54, 156", [ROWS]),
    (ROWS, "rule.TimerLevel ∷ rule.TwoSourcesOneGsi", "rule.TwoSourcesOneGsi ∷ rule.TimerLevel", [ROWS]),
    (SENTENCES, "its Flags are {point}", "its Flags are {other}", [SENTENCES]),
    (FAULTS, "| 10 | 45 [Overlap](#45-overlap) |", "| 9 | 45 [Overlap](#45-overlap) |", [FAULTS]),
    (FAULTS, "| 50, 51 |\n", "| 50 to 52 |\n", [FAULTS]),
    (FAULTS, "[TimerLevel](#155-timerlevel) 155, ", "", [FAULTS]),
    (FAULTS, "155 [TimerLevel](#155-timerlevel), ", "", [FAULTS]),
    (FAULTS, "- Numbers: `at` is the override's offset, `point` is its Flags.", "- Numbers: `at` is its offset.", [FAULTS]),
    (FAULTS, "- Numbers: `at` is the override's offset, `point` is its Flags.\n- Severity: likely wrong.\n", "", [FAULTS]),
    (FAULTS, "| not looked at | 127, 128, 309 |", "| not looked at | 127, 128 |", [FAULTS]),
    (TABLES, "| entry | 0 | Flags | 5.2.12.5 |", "| entry | 0 | Flags | 5.2.12.7 |", [TABLES]),
    (TABLES, "| 127, 128, 309 | not looked at", "| 127, 128 | not looked at", [TABLES]),
]
# An edit, and the files that the script writes for it.
WRITTEN = [
    (FAULTS, "- Fix: list the FADT.", "- Fix: add the FADT.", [EXPLAINED, PYTHON]),
    (FAULTS, "- Found: the override of Source 0,", "- Found: that override of Source 0,", [EXPLAINED, PYTHON, RUST]),
    (MADT, TIMER, TIMER.replace("likely wrong", "look at it"), [FAULTS, TABLES, EXPLAINED, HEADER, PYTHON, RUST]),
    (MADT, TIMER, TIMER.replace("5.2.12.5", "5.2.12"), [TABLES, RULE]),
    (MADT, TIMER, TIMER.replace("5.2.12.5", "IA-PC HPET 1.0a, 3.2.4"), [TABLES, RULE]),
    (MADT, TIMER, TIMER.replace("5.2.12.5", "Microsoft's SPCR 1.10"), [TABLES, RULE]),
    (MADT, TIMER, TIMER.replace("5.2.12.5", "AMD 48882, 5.2.2"), [TABLES, RULE]),
    (MADT, TIMER, TIMER.replace("level-triggered", "wrong"), [RULE, HEADER, PYTHON]),
    (MADT, "is level-triggered: its Flags are {point}.", "has the Flags {point}.", [SENTENCES]),
    (MADT, "`at` is the override's offset, `point` is its Flags.", "`at` is where it is, `point` its Flags.", [FAULTS, PYTHON, RUST]),
    (SLOTS, "103 ListedApart, likely wrong", "103 ListedApart, not looked at", [FAULTS, TABLES, EXPLAINED, HEADER, PYTHON, RUST]),
    (CODE, "/// No FADT is listed.", "/// There is no FADT.", [HEADER, PYTHON]),
]
# An edit, and what is wrong with it.
REFUSED = [
    (HEADER, "ACPISET_BAD_CODE = 9,", "ACPISET_BAD_CODE = 17,", "kind 9: None in acpiset.h, BadCode in the package"),
    (HEADER, 'return "BadCode"', 'return "BadNumber"', "kind 9: BadNumber in acpiset.h, BadCode in the package"),
    (HEADER, "#define ACPISET_ABI 1", "#define ACPISET_ABI 2", "ABI: 2 in acpiset.h, 1 in the package"),
    (HEADER, "(acpiset_answer, at, 16, 8)", "(acpiset_answer, at, 12, 8)", "answer.at: (12, 8) in acpiset.h, (16, 8) in the package"),
    (HEADER, "(acpiset_settings, 32)", "(acpiset_settings, 40)", "settings: 40 in acpiset.h, 32 in the package"),
    (HEADER, "\nstruct acpiset_answer acpiset_find(", "\nstruct acpiset_answer acpiset_find(const char *text, ", "acpiset_find: "),
    (HEADER, "ACPISET_FAULT = 4", "ACPISET_ERROR = 4", "severity 4: ERROR in acpiset.h"),
    (HEADER, "ACPISET_HOTPLUG_APART = 1", "ACPISET_HOTPLUG_ALONE = 1", "hotplug 1: ALONE in acpiset.h"),
    ("bindings/rust/src/refusal.rs", " 9 => Refusal::", " 19 => Refusal::", "src/refusal.rs and Kinds.antt differ in BadCode, 19"),
    ("bindings/rust/src/sys.rs", "pub const ABI: u32 = 1;", "pub const ABI: u32 = 2;", "ABI: ['1'] in acpiset.h, ['2'] in src/sys.rs"),
    (MADT, "// 155 TimerLevel", "// 156 TimerLevel", "the comment of 156 TimerLevel is at neither its row nor a function"),
    (MADT, "// 155 TimerLevel", "// 155 TimerEdge", "the comment of 155 TimerEdge is at neither its row nor a function"),
    (MADT, TIMER, "The override.", "the first row of 155 TimerLevel has no comment of it"),
    (MADT, TIMER, TIMER.replace("likely wrong", "wrong"), "is not: NUMBER NAME, SEVERITY (SECTIONS): SENTENCE."),
    (MADT, TIMER, TIMER.replace("(5.2.12.5)", "(FADT)"), "is not: NUMBER NAME, SEVERITY (SECTIONS): SENTENCE."),
    (MADT, TIMER, TIMER.replace("(5.2.12.5)", "(HPET 3)"), "is not: NUMBER NAME, SEVERITY (SECTIONS): SENTENCE."),
    (MADT, TIMER, TIMER + "\n    // Found in real sets.", "is not: NUMBER NAME, SEVERITY (SECTIONS): SENTENCE."),
    (MADT, "its Flags are {point}", "its Flags are {other}", "is none of its numbers"),
    (MADT, "its Flags are {point}", "its Flags are {flags}", "is none of its numbers"),
    (MADT, "If `at` is 0x28: ", "", "its sentences are not"),
    (MADT, '"The structure at {at} of the MADT has', 'If `at` is 0: "The structure at {at} of the MADT has', "its sentences are not"),
    (SLOTS, "/// 102 SecondTable", "/// 101 SecondTable", "two comments of rules have one number or one name"),
    (CODE, "/// No FADT is listed.", "// No FADT is listed.", "NoFadt: its comment has to be a sentence on one line"),
    (CODES, 'codes "NoFadt"', 'codes "NoFACP"', "NoFadt: its comment has to be a sentence on one line, and the definitions have to have a row of it"),
    (FAULTS, "### 155 TimerLevel", "### 155 TimerEdge", "docs/FAULTS.md: no part '### 155 TimerLevel'"),
    (FAULTS, "### 19 NoFadt", "### 20 NoFadt", "docs/FAULTS.md: the part of "),
    (FAULTS, "- Fix: list the FADT.", "- Next: list the FADT.", "docs/FAULTS.md: the part of 19 NoFadt has no point Fix"),
    (TABLES, "| 155 TimerLevel |", "| 155 Timer |", "docs/TABLES.md: no row of 155 TimerLevel"),
]
# The last rule, which is by hand, with a number beyond 999 that does not follow on the one before.
LARGE = [
    (CACHES, "311 SameCacheType", "1000 SameCacheType"),
    (FAULTS, "### 311 SameCacheType", "### 1000 SameCacheType"),
    (TABLES, "| 311 SameCacheType |", "| 1000 SameCacheType |"),
    (ABOUT, "entries.pptt: (182, 311)", "entries.pptt: (182, 1000)"),
]


class Lists:
    """The script in a copy of the tree."""

    def __init__(self, top):
        self.top, self.passed, self.failed = top, 0, 0

    def count(self, what, wrong):
        self.passed, self.failed = self.passed + (not wrong), self.failed + bool(wrong)
        if wrong:
            print(f"{what}: {wrong}")

    def run(self, *words):
        """What the script prints, and its status."""
        ended = subprocess.run([self.top / SCRIPT, *words], stdout=subprocess.PIPE, stderr=subprocess.STDOUT, timeout=600, check=False)
        return ended.stdout.decode(errors="replace"), ended.returncode

    def edit(self, name, old, new):
        path = self.top / name
        text = path.read_text()
        self.count(f"{name}: '{old}', to be edited", "" if old in text and old != new else "it is not there")
        path.write_text(text.replace(old, new))

    def restored(self, *names):
        for name in names:
            shutil.copyfile(TOP / name, self.top / name)

    def says(self, what, *texts):
        told, status = self.run("--check")
        missing = [text for text in texts if text not in told]
        is_right = not missing and status == 1 and "Traceback" not in told
        self.count(what, "" if is_right else f"it does not say {missing}, but ends with status {status}: {told}")

    def is_silent(self, what, *words):
        told, status = self.run(*words)
        self.count(what, f"status {status}: {told}" if told or status else "")


def differ(names):
    return [f"{name} is not what lists.py writes" for name in names]


def compared(lists):
    """Of a file that is written it says that it is another one, and it writes it anew."""
    for name, old, new, names in COMPARED:
        lists.edit(name, old, new)
        lists.says(f"{name} with '{new}'", *differ(names))
        lists.is_silent(f"{name} with '{new}', written anew")
        is_same = (lists.top / name).read_text() == (TOP / name).read_text()
        lists.count(f"{name} with '{new}', after that", "" if is_same else "it is another file")
        lists.restored(name)


def written(lists):
    """From an edit of what it reads it writes what follows."""
    for name, old, new, names in WRITTEN:
        lists.edit(name, old, new)
        told, _ = lists.run("--check")
        changed = {line.partition(" ")[0] for line in told.splitlines() if line.endswith(" is not what lists.py writes:")}
        lists.count(f"{name} with '{new}'", "" if changed == set(names) else f"{changed} are other files, and not {names}: {told}")
        lists.is_silent(f"{name} with '{new}', whose files are written")
        lists.is_silent(f"{name} with '{new}', after that", "--check")
        lists.restored(name, *names)


def refused(lists):
    """It says what is wrong, and of what it cannot read it writes nothing."""
    for name, old, new, text in REFUSED:
        lists.edit(name, old, new)
        lists.says(f"{name} with '{new}'", text)
        lists.restored(name)
    lists.is_silent("the copy after all edits", "--check")


def large_number(lists):
    for name, old, new in LARGE:
        lists.edit(name, old, new)
    lists.is_silent("a number beyond 999, after a gap, that is written")
    lists.is_silent("a number beyond 999, after a gap", "--check")
    for name, text in (
        (RULE, "SameCacheType, 1000),\n    // end: rules"), (ROWS, '(188, 1000, codes "SameCacheType")'), (BOUNDS, "rule_number r ≤ 1000"),
        (HEADER, "ACPISET_SAME_CACHE_TYPE = 1000"), (PYTHON, "    SameCacheType = 1000  #"), (RUST, "        SameCacheType = 1000,"),
        (SENTENCES, "    1000: ("), (FAULTS, "1000 [SameCacheType](#1000-samec"),
    ):
        lists.count(f"a number beyond 999 in {name}", "" if text in (lists.top / name).read_text() else "it is not there")


def main():
    with tempfile.TemporaryDirectory() as scratch:
        lists = Lists(Path(scratch))
        for name in READ:
            shutil.copytree(TOP / name, lists.top / name, ignore=shutil.ignore_patterns("__pycache__", "out", "target"))
        lists.is_silent("the tree", "--check")
        compared(lists)
        written(lists)
        refused(lists)
        large_number(lists)
        for words in (["--check", "--header"], ["--header"], ["--all"], ["--check", "one"]):
            told, status = lists.run(*words)
            lists.count(f"the arguments {words}", "" if status == 1 and told.startswith("usage: ") else f"status {status}: {told}")
        finish("lists", lists)


if __name__ == "__main__":
    main()
