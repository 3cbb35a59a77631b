"""share/acpiset/explain/sentences.py, with what lines of advice say, and which rules are rows on which tables."""

import re

from .tree import SCRIPT, TOP, lines_of, named, quoted, text_of

SENTENCES = TOP / "share/acpiset/explain/sentences.py"
ABOUT = TOP / "share/acpiset/explain/about.py"
WIDTH = 140
HEAD = f'''"""What a line of advice says, with places for its numbers, and which rules are rows on which tables."""

# Written by {SCRIPT} from the comments at the rules: change those, and run it again.

# The names of the rules, and their sentences: those of lines one of whose numbers has a value, and that of all others.
SENTENCES = {{'''
ROWS = '''
# The rules that are rows, by the list that has them: rows on a table, or on one with another.
ROWS = {'''


def entry(rule):
    *special, usual = rule.told
    cases = ", ".join(f"({quoted(one.number)}, {one.value:#x}): {quoted(one.sentence)}" for one in special)
    items = [quoted(rule.name), f"{{{cases}}}", quoted(usual.sentence)]
    line = f"    {rule.number}: ({', '.join(items)}),"
    return [line] if len(line) <= WIDTH else [f"    {rule.number}: (", *(f"        {item}," for item in items), "    ),"]


def rows_of(rules):
    """The numbers of the rules in each list of rows."""
    lists = sorted({rule.rows for rule in rules} - {""})
    for rows in lists:
        numbers = [str(rule.number) for rule in rules if rule.rows == rows]
        yield f"    {quoted(rows)}: ({', '.join(numbers)}{',' * (len(numbers) == 1)}),"


def sentences(rules):
    """What that file has to be."""
    told = (line for rule in rules for line in entry(rule))
    return lines_of([HEAD, *told, "}", ROWS, *rows_of(rules), "}"])


def unexplained(rules):
    """Lists of rows, and rules that are no rows, of which about.py says nothing, or which it names and are not there."""
    named_there = dict(re.findall(r"^(OF_ROWS|BY_HAND) = \{\n(.*?)^\}$", text_of(ABOUT), re.M | re.S))
    lists = {quoted(rule.rows) for rule in rules if rule.rows} ^ {*re.findall(r'"\w+"', named_there.get("OF_ROWS", ""))}
    by_hand = {str(rule.number) for rule in rules if not rule.rows} ^ {*re.findall(r"\b\d+\b", named_there.get("BY_HAND", ""))}
    yield from (f"{named(ABOUT)}: OF_ROWS and the lists of rows differ in {name}" for name in sorted(lists))
    yield from (f"{named(ABOUT)}: BY_HAND and the rules that are no rows differ in {number}" for number in sorted(by_hand))
