"""docs/FAULTS.md, and the lines of acpiset on which it has a part."""

import os
import re
from difflib import get_close_matches

from .advised import sentence
from .refusal import BAD_INPUT, Refusal

FIRST_RULE = 101
MOST_WORDS = 6  # of a line
HEX = r"(0x(?:0|[1-9a-f][0-9a-f]{0,15}))"
FAULT = re.compile(rf"(?:no )?([1-9][0-9]?) ([A-Z][A-Za-z0-9]*) {HEX} {HEX} {HEX}")
ADVICE = re.compile(rf"advice ([A-Z][A-Za-z0-9]*) {HEX} {HEX} {HEX}")
FOUND = re.compile(rf"rsdp {HEX}")
LINK = re.compile(r"\[([^]]*)\]\([^)]*\)")
EXAMPLE = re.compile(r"\n- Example: .*?(?=\n- |\Z)", re.S)


class Part:
    """A part of the document. A fault has its stage; a line without a fault has the code 0."""

    def __init__(self, title, stage, lines):
        number, _, name = title.partition(" ")
        is_numbered = number.isdigit()
        self.title, self.stage = title, stage
        self.code, self.name = (int(number), name) if is_numbered else (0, title)
        self.blocks = LINK.sub(r"\1", "\n".join(lines)).strip("\n").split("\n\n")

    def text(self, is_example_due=True, is_window_due=True):
        """The part as lines. Examples, and what is said of windows for hot-plug, may be left out."""
        lines, kept = [self.title], True
        for block in self.blocks:
            if block.startswith("**"):
                kept = (is_window_due or not block.startswith("**Hot-plug")) and (is_example_due or not block.startswith("**Example"))
            if kept:
                lines += ["", block if is_example_due else EXAMPLE.sub("", block)]
        return lines


class Line:
    """A line of acpiset, its part of the document, and its three numbers."""

    def __init__(self, text, part, numbers=()):
        self.text, self.part = text, part
        self.numbers = [int(number, 16) for number in numbers] or [0, 0, 0]

    def sentence(self):
        """What a line of advice says, with its numbers; nothing of another line."""
        return sentence(self.part.name, self.numbers) if self.part.code >= FIRST_RULE else ""


class Document:
    """The parts of the document by their names."""

    def __init__(self, paths):
        text = next((text for text in map(text_at, paths) if "\n### 59 LeafUnknown\n" in text), None)
        if text is None:
            raise Refusal(BAD_INPUT, f"acpiset's FAULTS.md is at neither {' nor '.join(map(os.path.normpath, paths))}")
        self.parts = {part.name: part for part in parts_of(text.splitlines())}
        self.codes = {str(part.code): part for part in self.parts.values() if part.code}

    def named(self, text):
        """The part of a name, in upper or lower case, or of a code, or None."""
        return self.codes.get(text) or next((part for part in self.codes.values() if part.name.lower() == text.lower()), None)

    def similar(self, text):
        """A name that is nearly this text, or None."""
        names = {part.name.lower(): part.name for part in self.codes.values()}
        return next((names[name] for name in get_close_matches(text.lower(), names, 1)), None)

    def joined(self, words):
        """The words, those of a line that was given without quotes joined to one."""
        at, joined = 0, []
        while at < len(words):
            ends = range(min(at + MOST_WORDS, len(words)), at + 1, -1)
            end = next((end for end in ends if self.line(" ".join(words[at:end]))), at + 1)
            joined.append(" ".join(words[at:end]))
            at = end
        return joined

    def line(self, text):
        """The line that a text is, a fault also without its `no`; None if acpiset writes no such line."""
        fault, advice = FAULT.fullmatch(text), ADVICE.fullmatch(text)
        if fault:
            part = self.named(fault[2])
            is_right = part and (part.stage, part.name) == (fault[1], fault[2])
            return Line("no " + text.removeprefix("no "), part, fault.groups()[2:]) if is_right else None
        if advice:
            part = self.named(advice[1])
            return Line(text, part, advice.groups()[1:]) if part and part.name == advice[1] and part.code >= FIRST_RULE else None
        name = "rsdp 0x" if FOUND.fullmatch(text) else text
        part = self.parts.get(name)
        return Line(text, part) if part and part.code == 0 and (name == text) == (name != "rsdp 0x") else None


def text_at(path):
    try:
        with open(path, encoding="utf-8") as file:
            return file.read()
    except (OSError, UnicodeDecodeError):
        return ""


def parts_of(lines):
    """The parts on faults, on rules of advice and on lines without a fault."""
    section, title, body = "", "", []
    for line in [*lines, "## "]:
        if not line.startswith(("## ", "### ")):
            body.append(line)
            continue
        is_numbered = re.fullmatch(r"[0-9]+ [A-Za-z0-9]+", title)
        if is_numbered or title and section == "Lines without a fault":
            stage = re.match(r"Stage ([0-9]+):", section)
            yield Part(title, stage[1] if stage else "", body)
        if line.startswith("## "):
            section = line[3:]
        title, body = line[4:] if line.startswith("### ") else "", []
