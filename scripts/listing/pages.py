"""docs/FAULTS.md, of which the indexes, the tables of severities, and of each rule the points Numbers and Severity are written, and the
severities and sections in docs/TABLES.md."""

import re
from itertools import groupby

from .rules import SECTIONS, SEVERITIES
from .tree import FAULTS, Wrong, lines_of, named, plain, replaced, wrapped

WIDTH = 138
PART = re.compile(r"^### (\d+) (\w+)\n(.*?)(?=^##|\Z)", re.M | re.S)
POINT = re.compile(r"^- ([A-Z]\w*): (.*?)(?=^- |^\n|\Z)", re.M | re.S)
# A section whose parts are on rules: what it is on. Sections of the standard follow.
CHAPTER = re.compile(r"^## (?:Advice on (?:the )?)?(.*?)(?: \([\d., ]+\))?\n(.*?)(?=^## |\Z)", re.M | re.S)
# A row of docs/TABLES.md on a rule, which ends with sections of the standard, or with another one.
ROW = re.compile(rf"^(\| (\d+) ([A-Z]\w*) \|.*\|)( (?:(?:{SECTIONS}) )?\|)$", re.M)


# ---- what the page says


def points_of(page):
    """What the parts say, by their numbers: their names, and texts by the words that they begin with."""
    found = PART.findall(page)
    parts = {int(number): (name, body) for number, name, body in found}
    for place, (number, name, _) in enumerate(found):
        if number in (before for before, _, _ in found[:place]):
            raise Wrong(f"{named(FAULTS)}: the part of {number} {name} has the number of an earlier one")
    return {number: (name, {word: " ".join(text.split()) for word, text in POINT.findall(body)}) for number, (name, body) in parts.items()}


class Page:
    """What the page says of each code and rule."""

    def __init__(self, text, numbered):
        self.points = points_of(text)
        names = {number: name for number, (name, _) in self.points.items()}
        due = {one.number: one.name for one in numbered}
        for number, name in sorted(names.items() ^ due.items()):
            raise Wrong(f"{named(FAULTS)}: the part of {number} {name} is missing, or nothing has that number and name")

    def said(self, number, *words):
        """The first of these points that a part has."""
        name, points = self.points[number]
        word = next((word for word in words if word in points), None)
        if word is None:
            raise Wrong(f"{named(FAULTS)}: the part of {number} {name} has no point {' or '.join(words)}")
        return word, points[word]

    def wrong(self, number):
        """What is wrong or found, without links and the word that it begins with."""
        return plain(self.said(number, "Wrong", "Found")[1])

    def fix(self, number):
        return plain(self.said(number, "Fix")[1])

    def numbers(self, number):
        return plain(self.said(number, "Numbers")[1])

    def explained(self, number):
        """What is wrong or found and how it is mended, in a line each."""
        return f"{self.said(number, 'Wrong', 'Found')[0]}: {self.wrong(number)}\nFix: {self.fix(number)}"


# ---- what is written of the page


def link(one):
    return f"[{one.name}](#{one.number}-{one.name.lower()})"


def row(first, second):
    return f"| {first} | {second} |\n"


def by_name(numbered):
    ordered = sorted(numbered, key=lambda one: one.name)
    groups = groupby(ordered, lambda one: one.name[0])
    return "| | |\n|---|---|\n" + "".join(row(letter, ", ".join(f"{link(one)} {one.number}" for one in ones)) for letter, ones in groups)


def by_stage(codes):
    groups = groupby(codes, lambda code: code.stage.number)
    return "| Stage | Faults |\n|---|---|\n" + "".join(row(stage, numbers_of(ones)) for stage, ones in groups)


def numbers_of(numbered):
    return ", ".join(f"{one.number} {link(one)}" for one in numbered)


def by_chapter(page, rules):
    """The rules by the chapters of the page."""
    known = {rule.number: rule for rule in rules}
    chapters = {}
    for title, body in CHAPTER.findall(page):
        own = [known[number] for number in (int(part[0]) for part in PART.findall(body)) if number in known]
        if own:
            chapters.setdefault(title, []).extend(own)
    return "| Table | Rules |\n|---|---|\n" + "".join(row(title, numbers_of(own)) for title, own in chapters.items())


def ranges(numbers):
    """Numbers that rise, of which three or more that follow one another are a range."""
    runs = []
    for number in numbers:
        if runs and number == runs[-1][-1] + 1:
            runs[-1].append(number)
        else:
            runs.append([number])
    parts = [[f"{run[0]} to {run[-1]}"] if len(run) > 2 else map(str, run) for run in runs]
    return ", ".join(text for part in parts for text in part)


def of_severity(rules, severity):
    return ranges([rule.number for rule in rules if rule.severity == severity])


def with_table(page, heading, before, table):
    """The page with another table after a line of a section, which is empty if it follows the heading."""
    head = rf"^{re.escape(heading)}\n(?:(?!##).*\n)*?{re.escape(before)}\n\n"
    found = re.search(rf"{head}((?:\|.*\n)+)", page, re.M)
    if not found:
        raise Wrong(f"{named(FAULTS)}: no table after '{before}' under '{heading}'")
    return page[: found.start(1)] + table + page[found.end(1) :]


def with_points(part, rule):
    """The part of a rule with its numbers and its severity, after the point Fields."""
    points = re.sub(r"^- (?:Numbers|Severity): .*?(?=^- |^\n|\Z)", "", part, flags=re.M | re.S)
    fields = re.search(r"^- Fields: .*?(?=^- |^\n|\Z)", points, re.M | re.S)
    if not fields:
        raise Wrong(f"{named(FAULTS)}: the part of {rule.number} {rule.name} has no point Fields")
    lines = lines_of([*wrapped(f"- Numbers: {rule.numbers}", WIDTH, "", "  "), f"- Severity: {rule.severity}."])
    return points[: fields.end()] + lines + points[fields.end() :]


def with_parts(page, rules):
    """The page with the numbers and the severity of each rule."""
    known = {(str(rule.number), rule.name): rule for rule in rules}
    parts = {found.group(1, 2) for found in PART.finditer(page)}
    for number, name in known.keys() - parts:
        raise Wrong(f"{named(FAULTS)}: no part '### {number} {name}'")
    return PART.sub(lambda found: with_points(found[0], known[found.group(1, 2)]) if found.group(1, 2) in known else found[0], page)


def faults_page(page, codes, rules):
    """What docs/FAULTS.md has to be."""
    page = with_parts(page, rules)
    page = with_table(page, "## Index", "**By code**, with the stage:", by_stage(codes))
    page = with_table(page, "## Index", "**By name:**", by_name(codes))
    page = with_table(page, "### Index of advice", "**By number:**", by_chapter(page, rules))
    page = with_table(page, "### Index of advice", "**By name:**", by_name(rules))
    for stage, ones in groupby(codes, lambda code: code.stage.number):
        row_of = rf"(^\| {stage} \| [^|\n]* \| )[\d, to]*(?= \|$)"
        page = replaced(row_of, page, ranges([code.number for code in ones]), f"{named(FAULTS)}: the row of stage {stage}")
    for severity in SEVERITIES:
        rules_of = f"| {severity} | {of_severity(rules, severity)} |"
        page = replaced(rf"^\| {severity} \| [\d, to]* \|", page, rules_of, f"{named(FAULTS)}: the row of {severity}")
    return page


def tables_page(page, rules):
    """What docs/TABLES.md has to be: the sections of each rule, and the rules of each severity."""
    rows = sorted((int(found[2]), found[3]) for found in ROW.finditer(page) if int(found[2]) >= rules[0].number)
    due = [(rule.number, rule.name) for rule in rules]
    for number, name in sorted({*due} - {*rows}):
        raise Wrong(f"docs/TABLES.md: no row of {number} {name}, with the sections last")
    for number, name in sorted({*rows} - {*due}):
        raise Wrong(f"docs/TABLES.md: a row of {number} {name}, which is no rule")
    if len(rows) != len(rules):
        raise Wrong("docs/TABLES.md: two rows of one rule")
    known = {str(rule.number): f" {rule.sections} |" if rule.sections else " |" for rule in rules}
    page = ROW.sub(lambda found: found[1] + known.get(found[2], found[4]), page)
    for severity in SEVERITIES:
        rules_of = f"| {of_severity(rules, severity)} | {severity}"
        page = replaced(rf"^\| [\d, to]* \| {severity}(?=[ :])", page, rules_of, f"docs/TABLES.md: the row of {severity}")
    return page
