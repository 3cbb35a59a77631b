"""The codes, stages and kinds of answers of the crates, and the structs of the library."""

import re
from dataclasses import dataclass

from .tree import CRATES, Wrong, found, named, text_of

CODES = CRATES / "acpi_base/specs/Codes.antt"
BASE = CRATES / "acpi_base/src"
CRATE = CRATES / "acpi_c"
KINDS = CRATE / "specs/Kinds.antt"
# A struct of the crate that C sees: its name and its fields.
STRUCT = re.compile(r"^#\[repr\(C\)\]\n(?:#[^\n]*\n)*pub struct (\w+)(?:<[^>\n]*>)? \{\n(.*?)^\}", re.M | re.S)
# These structs, as the header calls them, in its order.
STRUCTS = {it: f"acpiset_{it.lower()}" for it in ("Piece", "Inputs", "Settings", "Finding", "Answer")}
SIZES = {"u32": 4, "u64": 8, "usize": 8}


@dataclass(frozen=True)
class Stage:
    number: int
    name: str
    heading: str
    sentence: str


@dataclass(frozen=True)
class Code:
    """`sentence` is what the comment of its variant says, as a part of a sentence and without sections of the standard."""

    number: int
    name: str
    stage: Stage
    sentence: str


@dataclass(frozen=True)
class Crates:
    """`kinds` are numbers by name; `structs` are fields with offsets and sizes, and each struct's size, by name."""

    stages: list
    codes: list
    kinds: dict
    structs: dict
    abi: int


def clauses(path, function, value):
    """The values of a function of a file of definitions, by the variant that each clause is of."""
    return dict(found(rf"^{function} \w+\.(\w+) = {value}$", path, f"clause of {function}"))


def headings(enum, names):
    """The comments of an enum's variants, which are these. Each is a sentence on one line."""
    path = BASE / f"{enum}.rt"
    told = {name: text for text, name in found(r"(?<=[,{]\n)    /// (.*\.)\n    (\w+),$", path, "comments of variants")}
    for name in names ^ told.keys():
        raise Wrong(f"{named(path)}: {name}: its comment has to be a sentence on one line, and the definitions have to have a row of it")
    return told


def sentence_of(heading):
    text = re.sub(r" \([\d., ]+\)\.$|\.$", "", heading)
    return text[0].lower() + text[1:] if text[1].islower() or text[1] == " " else text


def laid_out(fields):
    """These fields at their offsets, as C lays them out, and the size of all."""
    parts = []
    for name, kind in fields:
        # a slice is a pointer and a length
        if not kind.startswith("&") and kind not in SIZES:
            raise Wrong(f"{named(CRATE)}: the size of a field of {kind} is not known")
        parts += [(name, 8), ("length", 8)] if kind.startswith("&") else [(name, SIZES[kind])]
    end, placed = 0, []
    for name, size in parts:
        offset = -(-end // size) * size
        placed.append((name, offset, size))
        end = offset + size
    most = max(size for _, _, size in placed)
    return placed, -(-end // most) * most


def read_structs():
    structs = {}
    for path in sorted((CRATE / "src").glob("**/*.rt")):
        for name, body in STRUCT.findall(text_of(path)):
            structs[name] = laid_out(re.findall(r"^    pub (\w+): (.*),$", body, re.M))
    if structs.keys() != STRUCTS.keys():
        raise Wrong(f"the structs of {named(CRATE)} are {', '.join(structs)}, not {', '.join(STRUCTS)}")
    return structs


def read_stages():
    numbers = clauses(CODES, "stage_number", r"(\d+)")
    told = headings("stage", numbers.keys())
    return [Stage(int(number), name, told[name], sentence_of(told[name])) for name, number in numbers.items()]


def read_codes(stages):
    rows = found(r'^code_row code\.(\w+) = \((\d+), stage\.(\w+), codes "\1"\)$', CODES, "row of code_row")
    by_name = {stage.name: stage for stage in stages}
    told = headings("code", {name for name, _, _ in rows})
    for name in sorted({stage for _, _, stage in rows} - by_name.keys()):
        raise Wrong(f"{named(CODES)}: {name} is no stage")
    return [Code(int(number), name, by_name[stage], sentence_of(told[name])) for name, number, stage in rows]


def read_crates():
    stages = read_stages()
    abi = re.search(r"fn acpiset_abi\(\) -> u32\n.*?\n\{\n    (\d+)\n\}", text_of(CRATE / "src/lib.rt"), re.S)
    if not abi:
        raise Wrong(f"{named(CRATE)}: no acpiset_abi")
    kinds = {name: int(number) for name, number in clauses(KINDS, "kind_number", r"(\d+)").items()}
    return Crates(stages, read_codes(stages), kinds, read_structs(), int(abi[1]))
