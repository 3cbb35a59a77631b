"""The parts of the crates that are written: the rules of acpi_lint, and the texts of acpi_c."""

import re
from itertools import accumulate
from textwrap import wrap

from .rules import SEVERITIES
from .tree import CRATES, SCRIPT, lines_of, named, quoted, replaced, wrapped

RULE = CRATES / "acpi_lint/src/rule.rt"
ROWS = CRATES / "acpi_lint/specs/Rules/Rows.antt"
RULE_NUMBERS = CRATES / "acpi_lint/proofs/RuleNumbers.antt"
EXPLAINED = CRATES / "acpi_c/src/explained.rt"
BEGIN, END = f"    // begin: rules, made by {SCRIPT}", "    // end: rules"
COLUMNS_OF_NUMBERS = 95  # of a line of numbers, as `rt fmt` fills it


def variants(rules):
    for rule in rules:
        yield from wrapped(rule.heading(), 120, "    /// ", "    /// ")
        yield f"    {rule.name},"


def rule_source(text, rules):
    """What src/rule.rt of acpi_lint has to be."""
    body = lines_of([BEGIN, *variants(rules), END])
    text = replaced(r"(^pub enum Rule \{\n).*?(?=^\})", text, body, f"{named(RULE)}: the enum Rule")
    rows = lines_of([BEGIN, *(f"    (Rule::{rule.name}, {rule.number})," for rule in rules), END])
    text = replaced(r"(^const ROWS: [^\n]* = \[\n).*?(?=^\];)", text, rows, f"{named(RULE)}: the table ROWS")
    arms = (f"    Rule::{rule.name} => {quoted(rule.name)}," for rule in rules)
    names = lines_of(f"        {line}" for line in (BEGIN, *arms, END))
    text = replaced(r"(^    pub fn name\(.*?^        match self \{\n).*?(?=^        \}\n)", text, names, f"{named(RULE)}: the function name")
    for constant, kind, value in (("COUNT", "usize", len(rules)), ("FIRST", "u16", rules[0].number), ("LAST", "u16", rules[-1].number)):
        where = rf"(^    pub const {constant}: {kind} = )\d+(?=;$)"
        text = replaced(where, text, str(value), f"{named(RULE)}: the constant {constant}")
    return text


def rule_rows(text, rules):
    """What specs/Rules/Rows.antt of acpi_lint has to be."""
    rows = lines_of(f'rule_row rule.{rule.name} = ({place}, {rule.number}, codes "{rule.name}")' for place, rule in enumerate(rules))
    text = replaced(r"(?:^rule_row rule\.\w+ = [^\n]*\n)+", text, rows, f"{named(ROWS)}: the rows of rule_row")
    listed = lines_of(wrapped(" ∷ ".join([*(f"rule.{rule.name}" for rule in rules), "[]"]), 110, "    ", "    "))
    return replaced(r"(^all_rules =\n).*?(?=^\n|\Z)", text, listed, f"{named(ROWS)}: the list all_rules")


def rule_bounds(text, rules):
    """What proofs/RuleNumbers.antt of acpi_lint has to be."""
    lowest = r"(^pub rule_from : \(r : Rule\) → )\d+(?= ≤ rule_number r$)"
    text = replaced(lowest, text, str(rules[0].number), f"{named(RULE_NUMBERS)}: the lowest number of a rule")
    highest = r"(^pub rule_upto : \(r : Rule\) → rule_number r ≤ )\d+(?=$)"
    return replaced(highest, text, str(rules[-1].number), f"{named(RULE_NUMBERS)}: the highest number of a rule")


def texts_of(name, starts_name, count, what, texts):
    """Texts one after another, and where each begins, and the last ends, in bytes."""
    starts = [0, *accumulate(len(text.encode()) for text in texts)]
    return [
        f"/// {what}, one text after another.",
        f'pub const {name}: &str = "\\',
        *(f"    {quoted(text)[1:-1]}\\" for text in texts[:-1]),
        f'    {quoted(texts[-1])[1:]};',
        "",
        "/// The offsets in bytes where these begin, and where the last one ends.",
        f"pub const {starts_name}: [u32; {count} + 1] = [",
        *(f"    {line}" for line in wrap(" ".join(f"{start}," for start in starts), COLUMNS_OF_NUMBERS)),
        "];",
        "",
    ]


def explained(codes, rules, page):
    """What src/explained.rt of acpi_c has to be."""
    variants_of = {severity: severity.title().replace(" ", "") for severity in SEVERITIES}
    of_codes, of_rules = ([page.explained(one.number) for one in some] for some in (codes, rules))
    return lines_of(
        [
            f"//! What docs/FAULTS.md says of the codes and the rules. {SCRIPT} writes this file.",
            "",
            "use crate::meaning::Severity;",
            "use acpi_base::Code;",
            "use acpi_lint::Rule;",
            "",
            *texts_of("CODE_TEXTS", "CODE_STARTS", "Code::COUNT", "What is wrong and how it is mended, of each code by its number", of_codes),
            *texts_of("RULE_TEXTS", "RULE_STARTS", "Rule::COUNT", "What is found and how it is mended, of each rule by its number", of_rules),
            *texts_of("RULE_NAMES", "NAME_STARTS", "Rule::COUNT", "The name of each rule by its number", [rule.name for rule in rules]),
            "/// The severity of each rule, by its number.",
            "pub const SEVERITIES: [Severity; Rule::COUNT] = [",
            *(f"    Severity::{variants_of[rule.severity]}," for rule in rules),
            "];",
        ]
    )
