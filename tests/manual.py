#!/usr/bin/env python3
"""Compares the options in the manual page man/acpiset.1 with those in the help of the program, tests/help.txt, whose words they have.

usage: tests/manual.py [--write]; prints the options that differ, and nothing where all agree. With --write it makes that part of the
page again."""

import re
import sys
import textwrap
from dataclasses import dataclass
from pathlib import Path

TOP = Path(__file__).resolve().parent.parent
PAGE, HELP = TOP / "man" / "acpiset.1", TOP / "tests" / "help.txt"
SECTION = re.compile(r"(?<=^\.SH OPTIONS\n).*?(?=^\.SH )", re.M | re.S)
# A term begins at the third column, and its text at the sixteenth, on the same line or on the next one.
TERM = re.compile(r"  (--[a-z-]+(?: [A-Za-z|]+)?|ADDRESS=COUNT)(?:  +(.*))?")
COMMANDS = "check", "lint", "confirm", "rebuild", "show", "find"
LISTED = re.compile(r" +\d+ ")


@dataclass
class Option:
    """An option, the lines of its text, and those of the list after it."""

    term: str
    lines: list
    listed: list

    def take(self, line):
        (self.listed if LISTED.match(line) else self.lines).append(line.strip())

    def roff(self):
        """The option as the manual page has it."""
        text = re.sub(r"`([^`]*)`", r"\\fB\1\\fP", " ".join(self.lines).replace("--", r"\-\-"))
        text = text if text.partition(" ")[0] in COMMANDS else text[:1].upper() + text[1:]
        text = text if text.endswith(":") else text + "."
        lines = [r"\&" * line.startswith(("'", ".")) + line for line in textwrap.wrap(text, 76)]
        return "\n".join([".TP", self.head(), *lines, *([".nf", *self.listed, ".fi"] if self.listed else []), ""])

    def head(self):
        name, _, value = self.term.replace("-", r"\-").partition(" ")
        if name == "ADDRESS=COUNT":
            return ".IR ADDRESS = COUNT"
        if "|" in value:
            return f".BR {name} \" \" {value.replace('|', ' | ')}"
        return f'.BI {name} " {value}"' if value else f".B {name}"


def options():
    """The options of the help, in its order."""
    found, is_open = [], False
    for line in HELP.read_text().splitlines():
        term = TERM.fullmatch(line)
        is_open = bool(term) or is_open and line.startswith(" " * 15)
        if term:
            found.append(Option(term[1], [term[2]] if term[2] else [], []))
        elif is_open:
            found[-1].take(line)
    return found


def main():
    made = "".join(option.roff() for option in options())
    page = PAGE.read_text()
    if sys.argv[1:] == ["--write"]:
        PAGE.write_text(SECTION.sub(lambda _: made, page))
    own = SECTION.search(PAGE.read_text())
    parts = own[0].split(".TP\n") if own else []
    wrong = [part for part in made.split(".TP\n") if part not in parts] + [part for part in parts if part not in made.split(".TP\n")]
    print("".join(wrong), end="")
    sys.exit(1 if wrong or len(options()) < 8 else 0)


main()
