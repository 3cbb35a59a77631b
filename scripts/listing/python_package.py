"""bindings/python: acpiset/_lists.py, which is written, and what the package declares of the library, compared with the header."""

import ctypes
import importlib
import re
import sys

from .header import enumerators, functions, names, version
from .rules import SEVERITIES
from .tree import SCRIPT, TOP, capital, lines_of, quoted, wrapped

PACKAGE = TOP / "bindings/python"
LISTS = PACKAGE / "acpiset/_lists.py"
HEAD = f'''"""The codes of faults and the rules of advice."""

# Written by {SCRIPT} from the crates and docs/FAULTS.md: change those, and run it again.

from enum import IntEnum
from typing import Dict

'''
CODE = "The codes of faults. A number never changes its meaning; a later version may have more."
RULE = "The rules of advice. A set of tables may have a reason to break one, so no rule is a fault."
IN_A_LINE = 12


def members(enum, about, numbered):
    """A class of numbers, each with what it means."""
    yield f"\nclass {enum}(IntEnum):"
    yield f'    """{about}"""\n'
    yield from (f"    {one.name} = {one.number}  # {one.sentence}" for one in numbered)
    yield ""


def table(name, about, rows):
    """A table from numbers to numbers."""
    words = [f"{number}: {value}," for number, value in rows.items()]
    yield f"\n# {about}"
    yield f"{name}: Dict[int, int] = {{"
    for at in range(0, len(words), IN_A_LINE):
        yield "    " + " ".join(words[at : at + IN_A_LINE])
    yield "}"


def literals(text):
    """A line of text as string literals one under another, which end with an LF."""
    parts = wrapped(text, 120)
    yield from (f"        {quoted(f'{part} ')}" for part in parts[:-1])
    yield f"        {quoted(parts[-1] + chr(10))}"


def texts(numbered, page):
    yield "\n# What each means and what to fix: lines of text, with an LF between any two."
    yield "TEXT_OF: Dict[int, str] = {"
    for one in numbered:
        lines = [capital(page.wrong(one.number)), f"Numbers: {page.numbers(one.number)}", f"Fix: {page.fix(one.number)}"]
        parts = [part for line in lines for part in literals(line)]
        yield f"    {one.number}: ("
        yield from [*parts[:-1], parts[-1].removesuffix('\\n"') + '"']
        yield "    ),"
    yield "}"


def lists(codes, rules, page):
    """What acpiset/_lists.py has to be."""
    lines = [
        *members("Code", CODE, codes),
        *members("Rule", RULE, rules),
        *table("STAGE_OF", "The stage of each code.", {code.number: code.stage.number for code in codes}),
        *table("SEVERITY_OF", "The severity of each rule.", {rule.number: SEVERITIES.index(rule.severity) + 1 for rule in rules}),
        *texts([*codes, *rules], page),
    ]
    return HEAD + lines_of(lines)


# ---- what is written by hand


# The types of functions as ctypes calls them.
TYPES = {
    "size_t": "c_ulong",
    "uint32_t": "c_uint",
    "uint64_t": "c_ulong",
    "struct acpiset_answer": "RawAnswer",
    "char *": "c_char_p",
    "uint8_t *": "c_char_p",
    "const char *": "c_char_p",
    **{f"const struct acpiset_{it} *": f"LP_Raw{capital(it)}" for it in ("inputs", "settings", "finding")},
    "const struct acpiset_piece *": "LP_RawPiece",
    "struct acpiset_finding *": "LP_RawFinding",
}


def declared_in_c(header):
    """The fields of the structs with their offsets and sizes, the types of the functions, the kinds and the version of the header."""
    for struct, field, offset, size in re.findall(r"^ACPISET_FIELD\(acpiset_(\w+), (\w+), (\d+), (\d+)\);", header, re.M):
        yield f"{struct}.{field}", (int(offset), int(size))
    for struct, size in re.findall(r"^ACPISET_SIZE\(acpiset_(\w+), (\d+)\);", header, re.M):
        yield struct, int(size)
    for name, result, parameters in functions(header):
        yield name, [TYPES.get(kind, kind) for kind in (result, *(kind for kind, _ in parameters))]
    known = names(header, "acpiset_kind_name")
    for number, enumerator in enumerators(header, "kind").items():
        yield f"kind {number}", known.get(enumerator)
    for enum, prefix in (("severity", ""), ("hotplug", "HOTPLUG_"), ("processors", "PROCESSORS_")):
        for number, enumerator in enumerators(header, enum).items():
            yield f"{enum} {number}", enumerator.removeprefix(f"ACPISET_{prefix}")
    yield "ABI", next(map(int, version(header)), None)


def declared_in_python():
    """The same of the package. Nothing is loaded."""
    sys.path.insert(0, str(PACKAGE))
    modules = (importlib.import_module(f"acpiset._{it}") for it in ("findings", "library", "refusals", "settings"))
    findings, library, refusals, settings = modules
    for name in ("Piece", "Inputs", "Settings", "Finding", "Answer"):
        struct = getattr(library, f"Raw{name}")
        for field, _ in struct._fields_:
            place = getattr(struct, field)
            yield f"{name.lower()}.{field}", (place.offset, place.size)
        yield name.lower(), ctypes.sizeof(struct)
    for name, types in library.FUNCTIONS.items():
        yield name, [kind.__name__ for kind in types]
    yield from {"kind 0": "Yes", "kind 1": "No"}.items()
    yield from ((f"kind {number}", refusal.__name__) for number, (refusal, _) in refusals.OF_KIND.items())
    for title, enum in (("severity", findings.Severity), ("hotplug", settings.HotPlug), ("processors", settings.Processors)):
        yield from ((f"{title} {member.value}", member.name) for member in enum)
    yield "ABI", library.ABI


def differences(header):
    in_c, in_python = dict(declared_in_c(header)), dict(declared_in_python())
    for name in sorted(in_c.keys() | in_python.keys()):
        if in_c.get(name) != in_python.get(name):
            yield f"{name}: {in_c.get(name)} in acpiset.h, {in_python.get(name)} in the package"
