"""bindings/c/acpiset.h: the parts between marks, which are written, and what is written by hand, as far as the crates say it."""

import re

from .crates import STRUCTS
from .rules import SEVERITIES
from .tree import SCRIPT, Wrong, lines_of

# Enumerators that are spelled otherwise than their variants.
SPELLED = {"BadHotPlug": "BAD_HOTPLUG"}
IN_A_LINE = 20


def enumerator(name):
    """RsdpOut is ACPISET_RSDP_OUT."""
    return "ACPISET_" + SPELLED.get(name, re.sub(r"(?<!^)(?=[A-Z])", "_", name).upper())


def severity_of(severity):
    return f"ACPISET_{severity.upper().replace(' ', '_')}"


# ---- the parts between marks


def commented(lines):
    """Enumerators with their comments, one under another, as lines of an enum."""
    lines = list(lines)
    last = max(place for place, (left, _) in enumerate(lines) if left)
    lines = [(left + ("," if left and place != last else ""), comment) for place, (left, comment) in enumerate(lines)]
    width = max(len(left) for left, _ in lines)
    for left, comment in lines:
        yield f"    {left:{width}} /* {comment} */" if left else f"    /* {comment} */"


def code_lines(codes):
    stage = None
    for code in codes:
        if code.stage != stage:
            stage = code.stage
            yield "", f"stage {stage.number}: {stage.sentence}"
        yield f"{enumerator(code.name)} = {code.number}", code.sentence


def rule_lines(rules):
    return ((f"{enumerator(rule.name)} = {rule.number}", rule.sentence) for rule in rules)


def switch(function, number, cases):
    """A function from these numbers to names."""
    yield f"static inline const char *{function}(uint32_t {number}) {{"
    yield f"    switch ({number}) {{"
    for case in cases:
        yield f'    case {enumerator(case)}: return "{case}";'
    yield '    default: return "";'
    yield "    }"
    yield "}"


def stage_function(codes):
    by_number = {code.number: code.stage.number for code in codes}
    stages = [str(by_number.get(number, 0)) for number in range(max(by_number) + 1)]
    yield "static inline uint32_t acpiset_stage_of(uint32_t code) {"
    yield "    static const uint8_t stages[] = {"
    for at in range(0, len(stages), IN_A_LINE):
        yield "        " + ", ".join(stages[at : at + IN_A_LINE]) + ("," if at + IN_A_LINE < len(stages) else "")
    yield "    };"
    yield "    return code < sizeof stages / sizeof stages[0] ? stages[code] : 0;"
    yield "}"


def severity_function(codes, rules):
    numbers = [code.number for code in codes]
    yield "static inline uint32_t acpiset_severity_of(uint32_t number) {"
    yield "    switch (number) {"
    for severity in SEVERITIES:
        yield from (f"    case {enumerator(rule.name)}:" for rule in rules if rule.severity == severity)
        yield f"        return {severity_of(severity)};"
    yield f"    default: return number >= {min(numbers)} && number <= {max(numbers)} ? ACPISET_FAULT : 0;"
    yield "    }"
    yield "}"


def layout(structs):
    for name, struct in STRUCTS.items():
        fields, size = structs[name]
        for field, offset, own in fields:
            yield f"ACPISET_FIELD({struct}, {field}, {offset}, {own});"
        yield f"ACPISET_SIZE({struct}, {size});"


def parts(crates, rules):
    """The parts by their marks."""
    numbered = [*crates.codes, *rules]
    return {
        "codes": ["enum acpiset_code {", *commented(code_lines(crates.codes)), "};"],
        "most": [f"#define ACPISET_MOST_FINDINGS {len(numbered)}"],
        "rules": ["enum acpiset_rule {", *commented(rule_lines(rules)), "};"],
        "names": switch("acpiset_number_name", "number", [it.name for it in numbered]),
        "stages": stage_function(crates.codes),
        "severities": severity_function(crates.codes, rules),
        "kinds": switch("acpiset_kind_name", "kind", crates.kinds),
        "layout": layout(crates.structs),
    }


def header(text, crates, rules):
    """What the header has to be: these parts between their marks."""
    for name, lines in parts(crates, rules).items():
        between = re.compile(rf"(/\* begin: {name}, made by {SCRIPT} \*/\n).*?(/\* end: {name} \*/\n)", re.S)
        if len(between.findall(text)) != 1:
            raise Wrong(f"the header does not have the marks of {name} once")
        part = lines_of(lines)
        text = between.sub(lambda found, part=part: found[1] + part + found[2], text)
    return text


# ---- the parts that are written by hand


def by_hand(text, crates, rules):
    """What differs there."""
    body = re.search(r"^enum acpiset_kind \{\n(.*?)^\};", text, re.M | re.S)
    told = {name: int(number) for name, number in re.findall(r"^    (\w+) = (\d+)", body[1] if body else "", re.M)}
    right = {enumerator(kind): number for kind, number in crates.kinds.items()}
    for name in sorted(told.keys() | right.keys()):
        if told.get(name) != right.get(name):
            yield f"enum acpiset_kind: {name} is {told.get(name, 'not there')}, not {right.get(name, 'there')}"
    found = re.search(r"^#define ACPISET_ABI (\d+)$", text, re.M)
    if not found or int(found[1]) != crates.abi:
        yield f"ACPISET_ABI is {found[1] if found else 'not there'}, not {crates.abi}"
    every = [enumerator(it) for it in (*(it.name for it in (*crates.codes, *rules)), *crates.kinds)]
    for name in sorted({name for name in every if every.count(name) > 1}):
        yield f"{name} has two meanings"


# ---- what it declares, with which other declarations are compared


def without_comments(text):
    return re.sub(r"/\*.*?\*/", "", text, flags=re.S)


def enumerators(text, enum):
    """The enumerators of an enum, by their numbers."""
    body = re.search(rf"^enum acpiset_{enum} \{{\n(.*?)^\}};", text, re.M | re.S)
    return {int(number): name for name, number in re.findall(r"^    (ACPISET_\w+) = (\d+)", body[1] if body else "", re.M)}


def names(text, function):
    """The names that a function returns, by enumerator."""
    body = re.search(rf"^static inline const char \*{function}\(.*?^\}}", text, re.M | re.S)
    return dict(re.findall(r'case (ACPISET_\w+): return "(\w+)";', body[0] if body else ""))


PARAMETER = r"((?:const )?(?:struct )?\w+ ?\*?) ?(\w+)"


def functions(text):
    """The type of the result, and the types and names of parameters, of each function that is exported, by its name."""
    for result, name, parameters in re.findall(r"^(\w[\w ]*?) (acpiset_\w+)\(([^)]*)\) ACPISET_CALL;", without_comments(text), re.M):
        told = [] if parameters == "void" else re.findall(rf"{PARAMETER}(?:,|$)", parameters)
        yield name, result, [(kind.strip(), own) for kind, own in told]


def version(text):
    """ACPISET_ABI, which may be there several times or not."""
    return re.findall(r"^#define ACPISET_ABI (\d+)$", text, re.M)
