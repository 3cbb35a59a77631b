"""A page as one file: no script, and nothing from another address."""

from explain.about import about
from explain.document import Document
from explain.refusal import Refusal
from explain.settings import Settings

from . import controllers, distances, interrupts, memory, processors, set_map, topology
from .amounts import counted
from .cards import card, kind_of, verdict
from .contents import Contents
from .markup import element, escaped
from .marks import Mark, Marks
from .places import places_of
from .style import SHEET

MOST_NOTES = 4
# After the map of the set.
PICTURES = (
    ("Memory by proximity domain (SRAT)", memory),
    ("Distances (SLIT)", distances),
    ("Interrupt numbers (MADT)", interrupts),
    ("Parts of the GIC (MADT)", controllers),
    ("Processors (MADT, SRAT)", processors),
    ("Processors and caches (PPTT)", topology),
)
# Patterns that are told apart without colour: for what nothing covers, and for what several ranges cover.
PATTERNS = """<svg xmlns="http://www.w3.org/2000/svg" width="0" height="0" aria-hidden="true" style="position: absolute"><defs>
<pattern id="hatch" width="8" height="8" patternUnits="userSpaceOnUse" patternTransform="rotate(45)">
<path class="hatch" d="M0 0V8"/></pattern>
<pattern id="cross" width="9" height="9" patternUnits="userSpaceOnUse" patternTransform="rotate(45)">
<path class="cross" d="M0 0V9M0 0H9"/></pattern>
</defs></svg>"""


def numbers_of(finding) -> tuple:
    return tuple(int(number, 16) for number in finding.numbers.values())


def marked(report) -> tuple:
    """The marks of all findings, and the places of each."""
    marks, places = Marks(), []
    for number, finding in enumerate(report.verdict.findings if report.verdict else (), 1):
        at, other, _ = numbers_of(finding) or (0, 0, 0)
        own = places_of(report.rule(finding).number, finding.stage, at, other) if finding.numbers else ()
        marks.put(Mark(number, finding.name, kind_of(finding)), own)
        places.append(own)
    return marks, places


def section(name: str, *parts, **attributes) -> str:
    return element("section", element("h2", escaped(name)), *parts, **attributes)


def pictures(contents, marks, last_stage: int) -> list:
    """A section for each kind of picture for which the set has something."""
    drawn = set_map.Map(contents, marks, last_stage).drawn()
    parts = [section("The set", set_map.legend(), drawn, set_map.unread_entries(contents), set_map.limits())]
    for name, module in PICTURES:
        picture = module.drawn(contents, marks)
        if picture:
            parts.append(section(name, picture))
    return parts


def said_of_image(finding, source, document) -> list:
    """What explain says of a finding in the image."""
    line = document and source.tables and document.line(finding.line)
    return about(line, source.tables, source.settings) if line and line.part.code else []


def document_at(paths):
    """FAULTS.md, if it is there."""
    try:
        return Document(paths)
    except Refusal:
        return None


def cards_of(report, marks, places, document) -> list:
    parts = []
    for number, (finding, own) in enumerate(zip(report.verdict.findings, places), 1):
        parts.append(card(number, finding, report, marks.element_of(own), said_of_image(finding, report.source, document)))
    return parts


def notes_of(source) -> str:
    """The notes below the verdict, those after the first few folded."""
    items = [element("li", escaped(note)) for note in source.notes]
    first, more = items[:MOST_NOTES], items[MOST_NOTES:]
    parts = [element("ul", *first, class_="found")] if first else []
    if more:
        summary = element("summary", escaped(counted(len(more), "more note")))
        parts.append(element("details", summary, element("ul", *more, class_="found"), class_="note"))
    return "".join(parts)


def lines_of(source) -> list:
    """All lines of `show`, folded."""
    if not source.lines:
        return []
    summary = element("summary", escaped(f"{counted(len(source.lines), 'line')} of acpiset show"))
    folded = element("details", summary, element("pre", "\n".join(map(escaped, source.lines))))
    return [section("All lines", folded, class_="lines")]


def page(report, documents) -> str:
    """The page of a report. Its source has the lines of `show`, what they say, and the image's tables, as far as there are some."""
    source = report.source
    name = "ACPI tables" + (f": {report.name()}" if report.name() else "")
    marks, places = marked(report)
    shown = source.shown or set_map.map_of(source.tables)
    settings = source.settings or Settings(None, [], None, None)
    contents = Contents(shown, source.tables if source.shown else None, settings)
    drawn = pictures(contents, marks, source.last_stage) if shown else []
    document = document_at(documents) if source.tables else None
    cards = cards_of(report, marks, places, document) if report.verdict else []
    title = f"{name}, {report.verdict.word if report.verdict else 'no verdict'}"
    metas = [element("meta", charset="utf-8"), element("meta", name="viewport", content="width=device-width, initial-scale=1")]
    head = element("head", *metas, element("title", escaped(title)), element("style", SHEET))
    top = [element("h1", escaped(name)), verdict(report, source), notes_of(source)]
    body = element("body", PATTERNS, element("main", *top, *cards, *drawn, *lines_of(source)))
    html = element("html", head, body, xmlns="http://www.w3.org/1999/xhtml", lang="en")
    return f"<!DOCTYPE html>\n{html}\n"
