#!/usr/bin/env python3
"""Compares the tables of definitions in docs/PROOF.md with what public contracts rest on: each file of definitions that the
contract of a public call names, and each that such a file imports, is in one of these tables with its number of
lines, and no other file does. The first table has exactly those of the headline, a file comes after those that it
imports, and none names a private type of a library. The sums in sentences of that page and of README.md are those of the tables,
the number of lines of rows is that of the sources, and a definition that the page quotes is in the sources.

usage: tests/definitions.py [--write]; prints what differs and what to write in its place, and nothing where all agrees.
With --write it puts the right numbers of lines and sums into both pages."""

import re
import sys
from dataclasses import dataclass
from functools import cache
from pathlib import Path

TOP = Path(__file__).resolve().parent.parent
PAGE = TOP / "docs" / "PROOF.md"
README = TOP / "README.md"
# Sentences with a sum: of the first table, or of all.
SUM_OF_FIRST = re.compile(r"(?<=toolchain and )\d+(?= lines\sof definitions)|(?<=`confirm` )\d+(?= lines\sof definitions)")
SUM_OF_ALL = re.compile(r"(?<=and )\d+(?= for all that is promised)")
# And how many lines the rules have that are rows of data, with the macros that they are written with.
SUM_OF_ROWS = re.compile(r"\d+(?= lines\sof rows)")
ROWS = [TOP / "crates" / "acpi_lint" / "src" / "rows.rt", *sorted((TOP / "crates" / "acpi_lint" / "src" / "rows").glob("*.rt"))]
CRATES = re.findall(r"^([a-z_]+)(?: staticlib)?:", (TOP / "crates.txt").read_text(), re.M)
# Those that are libraries for C: what they export is functions alone.
FOR_C = re.findall(r"^([a-z_]+) staticlib:", (TOP / "crates.txt").read_text(), re.M)
# A name without a crate in the page's tables is of this one.
BASE = "acpi_base"
# The public calls of the program, which exports nothing, as tests/documents.sh has them; and its laws.
PROGRAM = re.compile(r"do_job|obey|read_words|run_[a-z]+|status_of")
# The calls whose definitions the first table has.
HEADLINE = {"acpi_check::check", "acpi_confirm::confirm", "acpi_cli::check_and_confirm_agree"}

IMPORT = re.compile(r"^ *(?:ghost |pub )?use Rattle\.(\w+)\.specs\.([\w.]+?)(?:\.\{(.*)\}| as (\w+))?;?$", re.M)
# An item at the left margin, up to the line that ends it.
ITEM = re.compile(r'^(?:pub )?(?:extern "C" )?(?:fn|impl|struct|trait)\b(?:[^\n]*(?:;|\{\})$|.*?^(?:\}|\{\})$)', re.M | re.S)
# A function's name and what comes before its body.
HEAD = re.compile(r'^ *(pub )?(?:extern "C" )?fn (\w+)(.*?)(?:^ *\{\}?$|;$| \{$)', re.M | re.S)
# What a trait, an impl or a struct says in ghost code, save proofs: what they prove is said in the trait.
GHOST = re.compile(r"^ *(?:pub )?ghost (?!use|counted =|one_value =|laid =)(\w+)(.*?)[;,]$", re.M | re.S)


# ---- files of definitions


def path_of(crate, module):
    """The file of a module of definitions; none of the types that the code declares."""
    parts = module.split(".")
    for count in range(len(parts), 0, -1):
        path = TOP.joinpath("crates", crate, "specs", *parts[:count]).with_suffix(".antt")
        if path.exists():
            return path
    return None


def imports(text):
    """The files that are imported, each with the names that come from it."""
    for crate, module, names, alias in IMPORT.findall(text):
        path = path_of(crate, module) if crate in CRATES else None
        if path:
            yield path, re.findall(r"[\w']+(?=\s*(?:,|$))", names) or [alias or module.split(".")[-1]]


def private_types(path):
    """The types that it imports and that their library does not export. A constant is no type: it is the text that it has."""
    for crate, module, _, _ in IMPORT.findall(path.read_text()):
        if crate in CRATES and crate not in FOR_C and module.startswith("declared.") and library_of(crate).exists():
            name = re.search(r"\.([A-Z]\w*)", module)[1]
            if name not in ("TheConstants", *exported(crate)):
                yield name


def name_of(path):
    """The file's name in the page."""
    crate, _, *parts = path.relative_to(TOP / "crates").with_suffix("").parts
    return "/".join(parts if crate == BASE else [crate, *parts])


def lines_of(path):
    return path.read_text().count("\n")


# ---- public contracts


def library_of(crate):
    return TOP / "crates" / crate / "src" / "lib.rt"


@cache
def exported(crate):
    """The names that a library exports, and its public functions; of a library for C the functions that C can call, and its laws;
    of the program its public calls and its laws."""
    library = library_of(crate)
    if crate in FOR_C:
        return {name for path in sources(crate) for name in re.findall(r'^pub extern "C" fn (\w+)' if path.stem != "laws" else r"^pub fn (\w+)", path.read_text(), re.M)}
    if not library.exists():
        items = [(path, item) for path in sources(crate) for item in ITEM.findall(path.read_text())]
        calls = [(path, item, re.match(r"pub fn (\w+)", item)) for path, item in items]
        is_law = lambda path, item: path.stem == "laws" or item.endswith("\n{}")
        return {call[1] for path, item, call in calls if call and (PROGRAM.fullmatch(call[1]) or is_law(path, item))}
    text = library.read_text()
    names = set(re.findall(r"\w+", " ".join(re.findall(r"^pub use [a-z_:]*::([^;]*);", text, re.M))))
    files = [file for module in [*names, *re.findall(r"^pub mod (\w+);", text, re.M)] for file in library.parent.rglob(f"{module}.rt")]
    modules = [file.read_text() for file in files]
    return names.union(*(re.findall(r"^pub (?:fn|struct|enum|trait) (\w+)", module, re.M) for module in [text, *modules]))


def sources(crate):
    return [path for path in (TOP / "crates" / crate / "src").rglob("*.rt") if "tests" not in (path.stem, path.parent.name)]


def clauses(head):
    """What the clauses of a function say, without their names."""
    start = re.search(r"^ *(?:requires|ensures) ", head, re.M)
    return re.sub(r"^ *(?:requires|ensures) \w* *\{", "{", head[start.start() :], flags=re.M) if start else ""


def promises(item, names):
    """The public functions and ghost parts of an item, each with what it says. Of a model a caller sees its type alone."""
    free = re.match(r'pub (?:extern "C" )?fn (\w+)', item)
    block = re.match(r"(?:pub (?:struct|trait)|impl(?:<[^>]*>)?) (?:(\w+)(?:<.*>)? for )?(\w+)", item)
    if free and free[1] in names:
        yield free[1], clauses(HEAD.match(item)[3])
    if not block or block[2] not in names:
        return
    is_open = block[1] or item.startswith("pub trait")
    for public, name, head in HEAD.findall(item):
        if public or is_open:
            yield f"{block[2]}::{name}", clauses(head)
    for name, said in GHOST.findall(item):
        if block[1] != "Model" or name == "Value":
            yield f"{block[2]}::{name}", said


def named():
    """For each public contract the files of definitions that it names."""
    for crate in CRATES:
        names = exported(crate)
        for path in sources(crate):
            text = path.read_text()
            head = "\n".join(re.findall(r"^ghost use .*", text, re.M))
            for item in ITEM.findall(text):
                scope = [*imports(head), *imports(item)]
                for call, said in promises(item, names):
                    words = set(re.findall(r"(?<![.\w])[\w']+", said))
                    yield f"{crate}::{call}", {file for file, known in scope if words.intersection(known)}


def closure(contracts):
    """The files that these contracts rest on, each with what leads to it."""
    found = {}
    for call, files in contracts:
        for file in files:
            found.setdefault(file, f"the contract of {call}")
    open_ones = list(found)
    for file in open_ones:
        for imported, _ in imports(file.read_text()):
            if imported not in found:
                found[imported] = f"`{name_of(file)}`, and so {found[file].split(', and so ')[-1]}"
                open_ones.append(imported)
    return found


# ---- the tables of the page


def file_named(name):
    crate, _, rest = name.partition("/")
    crate, module = (crate, rest) if crate in CRATES else (BASE, name)
    return TOP.joinpath("crates", crate, "specs", module).with_suffix(".antt")


@dataclass
class Row:
    """A row of a table: the place of its line, and the files that it names."""

    place: int
    files: list

    def lines(self):
        return sum(lines_of(file) for file in self.files if file.exists())


def tables(lines):
    """The tables, each as its rows and the place of its sum."""
    rows = []
    start, end = lines.index("## What the contracts rest on"), lines.index("## What is proved")
    for place in range(start, end):
        if names := re.match(r"\| (`[^|]*`) \| \d+ \|", lines[place]):
            rows.append(Row(place, [file_named(name) for name in re.findall(r"`([^`]+)`", names[1])]))
        if lines[place].startswith("| together |"):
            yield rows, place
            rows = []


def right_lines(lines):
    """The lines of the page whose numbers are wrong, by place, as they have to be."""
    right = {}
    for rows, place in tables(lines):
        counts = {row.place: row.lines() for row in rows}
        for at, count in [*counts.items(), (place, sum(counts.values()))]:
            right[at] = re.sub(r"\| \d+ \|", f"| {count} |", lines[at], count=1)
    return {place: line for place, line in right.items() if line != lines[place]}


def with_right_sums(text, lines):
    """A page whose sentences have the sums of the tables in the lines of PROOF.md, and the number of lines of rows."""
    sums = [sum(row.lines() for row in rows) for rows, _ in tables(lines)]
    text = SUM_OF_ROWS.sub(str(sum(lines_of(file) for file in ROWS)), text)
    return SUM_OF_ALL.sub(str(sum(sums)), SUM_OF_FIRST.sub(str(sums[0]), text))


def wrong_sentences(lines):
    """What is wrong with the sums in sentences, and with the definitions that are quoted."""
    for page, least in ((PAGE, 4), (README, 1)):
        text = page.read_text()
        if with_right_sums(text, lines) != text or sum(len(it.findall(text)) for it in (SUM_OF_FIRST, SUM_OF_ALL, SUM_OF_ROWS)) < least:
            yield f"{page.name}: the sums in its sentences are missing, or are not those of the tables"
    sources = "\n\n".join(path.read_text() for path in TOP.glob("crates/*/specs/**/*.antt"))
    quoted = re.findall(r"^```antt\n(.*?)^```$", PAGE.read_text(), re.M | re.S)
    for item in "\n".join(quoted).split("\n\n"):
        if not item.strip() or item.strip("\n") + "\n" not in sources:
            yield f"quotes a definition that is not in the sources:\n{item or 'none'}"


def row_for(file):
    """A row for a file, which says what its first comment says."""
    says = re.match(r"-- (.*)", file.read_text())
    return f"| `{name_of(file)}` | {lines_of(file)} | {says[1].rstrip('.') if says else '..'} | |"


def differences(lines):
    contracts = list(named())
    needed = closure(contracts)
    headline = closure((call, files) for call, files in contracts if call in HEADLINE)
    told = [[file for row in rows for file in row.files] for rows, _ in tables(lines)]
    listed = sum(told, [])
    for file in sorted(needed.keys() - set(listed)):
        yield f"no row for {name_of(file)}, which is asked for by {needed[file]}; such as\n{row_for(file)}"
    for file in sorted(set(listed) - needed.keys()):
        yield f"a row for {name_of(file)}, on which no public contract rests"
    for file in sorted({file for file in listed if listed.count(file) > 1}):
        yield f"{name_of(file)} is in two rows"
    for file in sorted(headline.keys() ^ set(told[0])):
        where = "asked for by " + headline[file] if file in headline else "not asked for by the headline"
        yield f"the first table and {name_of(file)}, {where}"
    rows = [row for table, _ in tables(lines) for row in table]
    places = {file: place for place, row in enumerate(rows) for file in row.files if file.exists()}
    for file, place in places.items():
        for imported, _ in imports(file.read_text()):
            if places.get(imported, 0) > place:
                yield f"{name_of(file)} comes before {name_of(imported)}, which it imports"
    for file in sorted(needed):
        for name in sorted(set(private_types(file))):
            yield f"{name_of(file)} names the private type {name}: what names it is to be apart from what contracts name"
    for place, line in right_lines(lines).items():
        yield f"line {place + 1} must be\n{line}"
    yield from wrong_sentences(lines)


def main():
    lines = PAGE.read_text().split("\n")
    if sys.argv[1:] == ["--write"]:
        for place, line in right_lines(lines).items():
            lines[place] = line
        PAGE.write_text(with_right_sums("\n".join(lines), lines))
        README.write_text(with_right_sums(README.read_text(), lines))
    told = list(differences(lines))
    for line in told:
        print(f"docs/PROOF.md: {line}")
    sys.exit(1 if told else 0)


main()
