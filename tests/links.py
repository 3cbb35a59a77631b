#!/usr/bin/env python3
"""Prints the links between the documents that lead nowhere: to a file that is not there, or to a heading that the page does not have.

usage: tests/links.py"""

import re
import sys
from collections import Counter
from pathlib import Path

TOP = Path(__file__).resolve().parent.parent
PAGES = [page for folder in (".", "docs", "bench", "bindings/python", "bindings/rust", "release") for page in sorted((TOP / folder).glob("*.md"))]


def prose(page):
    """The text of a page without its blocks of code."""
    return re.sub(r"^```.*?^```", "", page.read_text(), flags=re.S | re.M)


def anchor(heading):
    """What a link to a heading ends with: its words in lower case, joined by hyphens."""
    words = re.sub(r"\[([^\]]*)\]\([^)]*\)", r"\1", heading).lower()
    return re.sub(r"[^\w\- ]", "", words).replace(" ", "-")


def anchors(page):
    """The headings of a page, a second one of a name with -1 after it, and the places that it names itself."""
    seen, found = Counter(), set(re.findall(r'<a id="([^"]*)">', prose(page)))
    for heading in re.findall(r"^#+ (.*)$", prose(page), re.M):
        name = anchor(heading)
        found.add(f"{name}-{seen[name]}" if seen[name] else name)
        seen[name] += 1
    return found


def is_there(page, link):
    path, _, place = link.partition("#")
    target = (page.parent / path).resolve() if path else page
    return target.exists() and (not place or target.suffix != ".md" or place in anchors(target))


def main():
    wrong = []
    for page in PAGES:
        for link in re.findall(r"\[[^\]]*\]\(([^)\s]*)\)", prose(page)):
            if not link.startswith(("http:", "https:", "mailto:")) and not is_there(page, link):
                wrong.append(f"{page.relative_to(TOP)}: {link}")
    print(*wrong, sep="\n", end="\n" if wrong else "")
    sys.exit(1 if wrong else 0)


if __name__ == "__main__":
    main()
