"""Where the files are, and texts of them."""

import re
import textwrap
from pathlib import Path

TOP = Path(__file__).resolve().parents[2]
CRATES = TOP / "crates"
FAULTS = TOP / "docs/FAULTS.md"
HEADER = TOP / "bindings/c/acpiset.h"

SCRIPT = "scripts/lists.py"
JOINED = "\u00a0"  # a blank at which no line ends


class Wrong(Exception):
    """What is wrong with a file that is read."""


def text_of(path):
    """The text of a file, whatever the locale."""
    try:
        return path.read_text(encoding="utf-8")
    except (OSError, UnicodeDecodeError) as error:
        raise Wrong(f"{named(path)}: {error}") from None


def named(path):
    """A path as it is told."""
    return path.relative_to(TOP) if TOP in path.parents else path


def found(pattern, path, what):
    """All that a pattern finds in a file, which has to be something."""
    every = re.findall(pattern, text_of(path), re.M)
    if not every:
        raise Wrong(f"{named(path)}: no {what}")
    return every


def replaced(pattern, text, new, what):
    """The text with new text for what a pattern finds, which has to be there once. What its first group finds, if it has one, is kept."""
    changed, count = re.subn(pattern, lambda found: (found[1] if found.re.groups else "") + new, text, flags=re.M | re.S)
    if count != 1:
        raise Wrong(f"{what}: {count} times, not once")
    return changed


def lines_of(lines):
    return "".join(f"{line}\n" for line in lines)


def capital(text):
    return text[0].upper() + text[1:]


def quoted(text):
    """A string literal, in C, Python, Rust and Rattle alike."""
    return '"' + text.replace("\\", "\\\\").replace('"', '\\"').replace("\n", "\\n") + '"'


def plain(text):
    """A text of a page, of whose links only the words are left."""
    return re.sub(r"\[([^]]*)\]\([^)]*\)", r"\1", text)


def wrapped(text, width, first="", other=""):
    """A text in lines of at most this width. No line begins with an operator, which would be an item of a list on a page."""
    text = re.sub(r" ([-+*∷]) ", f"{JOINED}\\1 ", text)
    lines = textwrap.wrap(text, width, initial_indent=first, subsequent_indent=other, break_on_hyphens=False, break_long_words=False)
    return [line.replace(JOINED, " ") for line in lines]
