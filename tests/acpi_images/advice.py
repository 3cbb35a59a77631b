"""What `lint` writes of an image, and with which status it ends: its faults, and the advice on it by all rules, those of the folder
rules."""

from __future__ import annotations

import argparse
from dataclasses import dataclass, field

from .faults import STAGE_OF, all_faults
from .rules.facts import Facts
from .rules.rule import RULES as RULES_BY_NUMBER
from .table_set import Finding, Policy, TableSet, find_rsdp

# The names of all rules, in the order of their numbers.
RULES = [rule.name for _, rule in sorted(RULES_BY_NUMBER.items())]

NO_RSDP = ["no rsdp"]


def all_advice(tables, policy):
    """At least the first finding of each broken rule."""
    facts = Facts(tables, policy)
    for rule in RULES_BY_NUMBER.values():
        for numbers in rule.findings(facts) if rule.is_asked(facts) else ():
            yield Finding(rule.name, *numbers)


def firsts(findings):
    """The least finding of each name."""
    first = {}
    for finding in findings:
        first[finding.name] = min(finding, first.get(finding.name, finding))
    return first


def lint_lines(image, rsdp, policy):
    """The lines of `lint` for an image, with the RSDP at this address, or where it is found."""
    rsdp = find_rsdp(image) if rsdp is None else rsdp
    if rsdp is None:
        return NO_RSDP
    tables = TableSet(image, rsdp)
    faults = firsts(all_faults(tables, policy))
    advice = firsts(all_advice(tables, policy))
    lines = [f"no {faults[name]}" for name in STAGE_OF if name in faults]
    return (lines or ["yes"]) + [f"advice {advice[name]}" for name in RULES if name in advice]


def without_rules(lines, allowed):
    """The lines but for those on rules that are allowed to be broken."""
    return [line for line in lines if not (line.startswith("advice ") and line.split()[1] in allowed)]


def lint_status(lines, strict=False):
    """The status with which `lint` ends after these lines."""
    is_advised = any(line.startswith("advice ") for line in lines)
    return 1 if lines[0] != "yes" or (strict and is_advised) else 0


@dataclass
class Asked:
    """What the words after `lint` say: the RSDP's address or None, the policy, whether advice counts, and the rules that are allowed to be
    broken."""

    rsdp: int | None
    policy: Policy
    is_strict: bool = False
    allowed: list[str] = field(default_factory=list)


def read_words(words):
    """What is asked with these words after `lint`."""
    parser = argparse.ArgumentParser()
    parser.add_argument("--rsdp", type=lambda text: int(text, 16))
    parser.add_argument("--default-inputs", type=int, default=24)
    parser.add_argument("--hotplug", choices=("counted", "apart"), default="counted")
    parser.add_argument("--processors", choices=("enabled", "usable"), default="enabled")
    parser.add_argument("--strict", action="store_true")
    parser.add_argument("--allow", type=lambda text: text.split(","), default=[])
    parser.add_argument("counts", nargs="*", metavar="ADDRESS=COUNT")
    said = parser.parse_intermixed_args(words)
    inputs = {}
    for text in said.counts:
        address, count = text.split("=")
        inputs.setdefault(int(address, 16), int(count))
    return Asked(said.rsdp, Policy(said.default_inputs, inputs, said.hotplug, said.processors), said.strict, said.allow)


def linted(words, image):
    """The lines and the status of `lint` with these words."""
    asked = read_words(words)
    lines = without_rules(lint_lines(image, asked.rsdp, asked.policy), asked.allowed)
    return lines, lint_status(lines, asked.is_strict)
