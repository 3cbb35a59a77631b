"""bindings/rust: src/lists.rs, which is written, and what the crate declares of the library, compared with the header."""

import re
from itertools import groupby

from .header import PARAMETER, functions, version, without_comments
from .rules import SEVERITIES
from .tree import SCRIPT, TOP, capital, lines_of, text_of, wrapped

CRATE = TOP / "bindings/rust/src"
LISTS = CRATE / "lists.rs"
HEAD = f"""//! The stages, codes and rules.

// Written by {SCRIPT} from the crates and docs/FAULTS.md: change those, and run it again.

use crate::finding::Severity;
use crate::numbered::numbered;
"""
STAGE = "A part of a check. Each stage is looked at only if all earlier ones hold. Sections are those of ACPI 6.5."
CODE = """What is wrong with a set of tables. The manual page `acpiset-faults(7)` and docs/FAULTS.md of the repository say of each code what
it means for an operating system and what is to be fixed. "Numbers" are those of a [`Fault`](crate::Fault): offsets are from the start of
a table, and slots are those of the RSDT or XSDT, from 0 on."""
RULE = """A rule of advice. A set of tables may have a reason to break one, so no rule is a fault. "Numbers" are those of an
[`Advice`](crate::Advice), as with [`Code`]."""


def comment(paragraphs, indent):
    for place, text in enumerate(paragraphs):
        if place:
            yield f"{indent}///"
        yield from wrapped(text, 120, f"{indent}/// ", f"{indent}/// ")


def numbered(enum, about, ones, meaning):
    """The enum, as the macro of src/numbered.rs takes it."""
    yield "numbered! {"
    yield from comment([about], "    ")
    yield f"    {enum} {{"
    for one in ones:
        yield from comment(meaning(one), "        ")
        yield f"        {one.name} = {one.number},"
    yield "    }"
    yield "}"
    yield ""


def arm(enum, names, value):
    lines = f"\n            | {enum}::".join(names)
    return f"            {enum}::{lines} => {value},"


def function(enum, name, about, returned, arms):
    """A method from a code or rule to what it has, an arm for each."""
    return [
        f"impl {enum} {{",
        f"    /// {about}",
        "    #[must_use]",
        "    #[rustfmt::skip]",
        f"    pub const fn {name}(self) -> Option<{returned}> {{",
        "        Some(match self {",
        *arms,
        f"            {enum}::Unknown {{ .. }} => return None,",
        "        })",
        "    }",
        "}",
        "",
    ]


def stages(codes):
    arms = [arm("Code", [code.name for code in ones], f"Stage::{name}") for name, ones in groupby(codes, lambda code: code.stage.name)]
    about = "The stage that it is a fault of; none of a code that this version of the crate does not know."
    return function("Code", "stage", about, "Stage", arms)


def severities(rules):
    arms = []
    for severity in SEVERITIES:
        name = severity.title().replace(" ", "")
        arms.append(arm("Rule", [rule.name for rule in rules if rule.severity == severity], f"Severity::{name}"))
    about = "How serious a finding of it is; none of a rule that this version of the crate does not know."
    return function("Rule", "severity", about, "Severity", arms)


def lists(crates, rules, page):
    """What src/lists.rs has to be."""

    def meaning(one):
        return [capital(page.wrong(one.number)), f"Numbers: {page.numbers(one.number)}"]

    lines = [
        HEAD,
        *numbered("Stage", STAGE, crates.stages, lambda stage: [stage.heading]),
        *numbered("Code", CODE, crates.codes, meaning),
        *stages(crates.codes),
        *numbered("Rule", RULE, rules, meaning),
        *severities(rules),
    ]
    return lines_of(lines[:-1])


# ---- what is written by hand

TYPES = {
    "uint64_t": "u64",
    "uint32_t": "u32",
    "size_t": "usize",
    "const uint8_t *": "*const u8",
    "char *": "*mut u8",
    "uint8_t *": "*mut u8",
    "const char *": "*const u8",
    "const struct acpiset_piece *": "*const Piece<'_>",
    "const struct acpiset_inputs *": "*const Inputs",
    "const struct acpiset_settings *": "*const Settings",
    "const struct acpiset_finding *": "*const Finding",
    "struct acpiset_finding *": "*mut Finding",
    "struct acpiset_answer": "Answer",
}
# What the crate has lists of its own for.
OWN = {"acpiset_stage", "acpiset_severity", "acpiset_name"}


def kinds_told():
    """The kinds of refusals and their numbers, as src/refusal.rs reads them."""
    text = text_of(CRATE / "refusal.rs")
    found = {name: int(number) for number, name in re.findall(r"^ +(\d+) => Refusal::(\w+)", text, re.M)}
    answers = {name: int(number) for number, name in re.findall(r"^ +(\d+) => return Ok\((\w+)\)", text, re.M)}
    return {"true": 0, "false": 1, **answers, **found}


def declared_in_c(header):
    """The structs, functions and numbers of the header, as Rust has to declare them."""
    for name, body in re.findall(r"^struct acpiset_(\w+) \{(.*?)^\};", without_comments(header), re.M | re.S):
        fields = re.findall(rf"^\s*{PARAMETER};", body, re.M)
        yield name, [f"{field}: {TYPES.get(kind.strip(), kind)}" for kind, field in fields]
    for name, result, parameters in functions(header):
        yield name, [*(f"{own}: {TYPES.get(kind, kind)}" for kind, own in parameters), TYPES.get(result, result)]
    yield "ABI", version(header)


def declared_in_rust():
    text = re.sub(r"//.*", "", text_of(CRATE / "sys.rs") + text_of(CRATE / "settings.rs"))
    for name, body in re.findall(r"#\[repr\(C\)\]\n(?:#\[[^\n]*\n)*pub struct (\w+)(?:<'a>)? \{(.*?)^\}", text, re.M | re.S):
        yield name.lower(), re.findall(r"(\w+: (?!PhantomData)[\w*' <>]+),", body)
    for name, parameters, result in re.findall(r"^    fn (acpiset_\w+)\(([^)]*)\) -> (\w+);", text, re.M):
        yield name, [*re.findall(r"\w+: [\w*' <>]+[\w>]", parameters), result]
    yield "ABI", re.findall(r"^pub const ABI: \w+ = (\d+);", text, re.M)


def differences(header, kinds):
    known = {"Yes": "true", "No": "false"}
    for kind in sorted({known.get(kind, kind): number for kind, number in kinds.items()}.items() ^ kinds_told().items()):
        yield f"src/refusal.rs and Kinds.antt differ in {kind[0]}, {kind[1]}"
    in_c, in_rust = dict(declared_in_c(header)), dict(declared_in_rust())
    for name in sorted((in_c.keys() | in_rust.keys()) - OWN):
        if in_c.get(name) != in_rust.get(name):
            yield f"{name}: {in_c.get(name)} in acpiset.h, {in_rust.get(name)} in src/sys.rs"
