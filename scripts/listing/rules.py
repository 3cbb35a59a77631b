"""The rules of advice, as the comments at them in crates/acpi_lint/src say. Such a comment is above the first row of a rule, or begins
the comment of the function that finds it, followed by an empty line:

    // 140 SmiHalf, likely wrong (5.2.9): SMI_CMD cannot switch between legacy mode and ACPI mode, or is 0 and its values
    // are not.
    // Numbers: `at` is 0x30 (48), the offset of SMI_CMD, `other` is ..
    // If `point` is 0: "SMI_CMD, at {at} of the FADT, is 0, and the command at {other} is not."
    // "SMI_CMD, at {at} of the FADT, is {point}, and .."

These are its number, name and severity, the sections of ACPI, or another standard and its sections, as (IA-PC HPET 1.0a, 3.2.4), and what
it finds; what its three numbers are; and what a line of it says: the first sentence whose condition holds. A place is filled in
hexadecimal; {at:d} is decimal, {point:s} the characters of a signature. What follows them is for readers alone."""

import re
from dataclasses import dataclass
from itertools import groupby

from .tree import CRATES, Wrong, capital, named, text_of

SOURCE = CRATES / "acpi_lint" / "src"
SEVERITIES = ("not looked at", "look at it", "likely wrong")
# Sections of ACPI, or another standard with its version, or its sections, or both.
NUMBERS, STANDARD = r"\d[\d., to]*", r"[A-Z][\w' -]*"
SECTIONS = rf"{NUMBERS}|{STANDARD} \d+\.\d+\w?(?:, {NUMBERS})?|{STANDARD}, {NUMBERS}"
HEAD = re.compile(rf"(\d+) ([A-Z]\w*), ({'|'.join(SEVERITIES)})(?: \(({SECTIONS})\))?: ((?:(?!\. ).)+)\.")
TOLD = re.compile(r'(?:If `(at|other|point)` is (0x[1-9a-f][0-9a-f]*|0): )?"([A-Z][^"]*\.)"')
PLACE = re.compile(r"\{(at|other|point)(?::[ds])?\}")
COMMENT = re.compile(r" *///? ?(.*)")
ROW = re.compile(r" *rule!\((\d+) (\w+),")
FUNCTION = re.compile(r"(?:pub )?fn \w+")
ROWS = re.compile(r"(?:pub )?static (\w+): \[Row<")


@dataclass(frozen=True)
class Told:
    """A sentence with places for numbers, of lines one of whose numbers has a value; of all others without a condition."""

    sentence: str
    number: str = ""
    value: int = 0


@dataclass(frozen=True)
class Rule:
    """`sentence` is what it finds, as a part of a sentence; `sections` may be none; the last of `told` has no condition. `rows` is the
    list that its first row is in, or nothing."""

    number: int
    name: str
    severity: str
    sections: str
    sentence: str
    numbers: str
    told: tuple
    rows: str

    def heading(self):
        """What it finds, with the sections."""
        sections = f" ({self.sections})" if self.sections else ""
        return f"{capital(self.sentence)}{sections}."


def paragraphs(lines):
    """The head, the numbers and each sentence of a comment, in a line each."""
    parts = []
    for line in lines:
        if not parts or line.startswith(("Numbers: ", "If `", '"')):
            parts.append(line)
        elif parts[-1].endswith('"'):
            break
        else:
            parts[-1] += f" {line}"
    return parts


def told_of(texts, numbers):
    """The sentences of a rule. Numbers that it does not use have no place."""
    told = [TOLD.fullmatch(text) for text in texts]
    if not told or not all(told) or [bool(one[1]) for one in told] != [True] * (len(told) - 1) + [False]:
        raise Wrong('its sentences are not: If `NUMBER` is VALUE: "SENTENCE." for some values, and "SENTENCE." for all others')
    for one in told:
        places = PLACE.findall(one[3])
        if not one[3].count("{") == one[3].count("}") == len(places) or any(f"`{place}`" not in numbers for place in places):
            raise Wrong(f"a place of {one[3]} is none of its numbers")
    return tuple(Told(one[3], one[1] or "", int(one[2] or "0", 0)) for one in told)


def rule_of(lines, rows):
    head, *rest = paragraphs(lines)
    found = HEAD.fullmatch(head)
    if not found:
        raise Wrong(f"'{head}' is not: NUMBER NAME, SEVERITY (SECTIONS): SENTENCE.")
    if not rest or not re.fullmatch(r"Numbers: .+\.", rest[0]):
        raise Wrong("the line after its first sentence is not: Numbers: SENTENCE.")
    numbers = rest[0].partition(" ")[2]
    return Rule(int(found[1]), found[2], found[3], found[4] or "", found[5], numbers, told_of(rest[1:], numbers), rows)


def rules_in(lines):
    """The rules of a source file. A rule's comment is at its row, or at a function."""
    place, rows = 0, ""
    for is_comment, group in groupby(lines, lambda line: bool(COMMENT.fullmatch(line))):
        group = list(group)
        place += len(group)
        texts = [COMMENT.fullmatch(line)[1] for line in group] if is_comment else []
        rows = next((found[1].lower() for found in map(ROWS.match, reversed(group)) if found), rows)
        first = next((at for at, text in enumerate(texts) if re.match(r"\d+ [A-Z]\w*, ", text)), None)
        if first is not None:
            below = next((line for line in lines[place:] if not line.startswith("#[")), "")
            row = ROW.match(below)
            rule = rule_of(texts[first:], rows if row else "")
            if row.groups() != (str(rule.number), rule.name) if row else not FUNCTION.match(below):
                raise Wrong(f"the comment of {rule.number} {rule.name} is at neither its row nor a function")
            yield rule


def read_rules():
    """All rules, by number."""
    rules, rows = [], {}
    for path in sorted(SOURCE.glob("**/*.rt")):
        lines = text_of(path).split("\n")
        try:
            rules += rules_in(lines)
        except Wrong as wrong:
            raise Wrong(f"{named(path)}: {wrong}") from None
        rows.update((int(row[1]), row[2]) for row in map(ROW.match, lines) if row)
    names = {rule.number: rule.name for rule in rules}
    if not rules or len(names) != len(rules) or len(set(names.values())) != len(rules):
        raise Wrong(f"{named(SOURCE)}: two comments of rules have one number or one name, or there is none")
    for number, name in rows.items():
        if names.get(number) != name:
            raise Wrong(f"{named(SOURCE)}: the first row of {number} {name} has no comment of it")
    return sorted(rules, key=lambda rule: rule.number)
