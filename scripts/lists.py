#!/usr/bin/env python3
"""Writes each list of codes, rules of advice, stages and kinds, and each text on them, that is told in more than one place. They come from
the comments at the rules in crates/acpi_lint/src, the definitions and comments of codes in crates/acpi_base, the structs and kinds of
crates/acpi_c, and the points Wrong, Found, Numbers and Fix of docs/FAULTS.md.

usage: scripts/lists.py [--header FILE]          writes what differs
       scripts/lists.py --check [--header FILE]  writes nothing, prints what differs, and ends with status 1 if anything does

With --header the C header is FILE, not bindings/c/acpiset.h. What the header and the packages for Python and Rust declare by hand is
compared too. Written are:

  crates/acpi_lint/src/rule.rt              the variants of Rule, the table ROWS, COUNT, FIRST, LAST
  crates/acpi_lint/specs/Rules/Rows.antt    rule_row and all_rules
  crates/acpi_lint/proofs/RuleNumbers.antt  the lowest and the highest number of a rule
  crates/acpi_c/src/explained.rt            the texts of the library
  bindings                                  parts of c/acpiset.h, python/acpiset/_lists.py, rust/src/lists.rs
  share/acpiset/explain/sentences.py        what lines of advice say
  docs/FAULTS.md                            its indexes, the faults of a stage, the rules of a severity, and of each rule the points
                                            Numbers and Severity
  docs/TABLES.md                            the sections of the rules, and the rules of a severity"""

import difflib
import sys
from pathlib import Path

sys.dont_write_bytecode = True  # nothing but the lists is written into the tree
from listing import header, pages, python_package, rattle, rust_crate, sentences  # noqa: E402
from listing.crates import read_crates  # noqa: E402
from listing.rules import read_rules  # noqa: E402
from listing.tree import FAULTS, HEADER, TOP, Wrong, named, text_of  # noqa: E402

TABLES = TOP / "docs/TABLES.md"


def text_there(path):
    return text_of(path) if path.exists() else ""


def due(crates, rules, header_at):
    """What each file has to be, by its path."""
    faults = pages.faults_page(text_of(FAULTS), crates.codes, rules)
    page = pages.Page(faults, [*crates.codes, *rules])
    return {
        rattle.RULE: rattle.rule_source(text_of(rattle.RULE), rules),
        rattle.ROWS: rattle.rule_rows(text_of(rattle.ROWS), rules),
        rattle.RULE_NUMBERS: rattle.rule_bounds(text_of(rattle.RULE_NUMBERS), rules),
        rattle.EXPLAINED: rattle.explained(crates.codes, rules, page),
        header_at: header.header(text_of(header_at), crates, rules),
        python_package.LISTS: python_package.lists(crates.codes, rules, page),
        rust_crate.LISTS: rust_crate.lists(crates, rules, page),
        sentences.SENTENCES: sentences.sentences(rules),
        FAULTS: faults,
        TABLES: pages.tables_page(text_of(TABLES), rules),
    }


def differences(path, text):
    """What differs in a file, with its name."""
    lines = list(difflib.unified_diff(text_there(path).splitlines(), text.splitlines(), lineterm="", n=0))
    return [f"{named(path)} is not what {Path(sys.argv[0]).name} writes:", *lines[2:]] if lines or text_there(path) != text else []


def by_hand(crates, rules, header_at):
    """What differs in what is written by hand."""
    text = text_of(header_at)
    yield from header.by_hand(text, crates, rules)
    yield from python_package.differences(text)
    yield from rust_crate.differences(text, crates.kinds)
    yield from sentences.unexplained(rules)


def run(is_check, header_at):
    """Writes or compares all; what is wrong, in lines."""
    crates, rules = read_crates(), read_rules()
    files = due(crates, rules, header_at)
    if header_at != HEADER:
        files = {header_at: files[header_at]}
    told = []
    for path, text in files.items():
        if is_check:
            told += differences(path, text)
        elif text_there(path) != text:
            path.write_text(text, encoding="utf-8")
    return [*told, *by_hand(crates, rules, header_at)]


def main(words):
    is_check = words[:1] == ["--check"]
    words = words[1:] if is_check else words
    if words and (len(words) != 2 or words[0] != "--header"):
        sys.exit(__doc__.partition("\n\n")[2])
    header_at = Path(words[1]).resolve() if words else HEADER
    try:
        told = run(is_check, header_at)
    except Wrong as wrong:
        told = [str(wrong)]
    print(*told, sep="\n", end="\n" if told else "")
    return 1 if told else 0


if __name__ == "__main__":
    sys.exit(main(sys.argv[1:]))
