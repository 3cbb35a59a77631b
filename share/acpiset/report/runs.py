"""What acpiset says of an image, and what is in it."""

import argparse
import os
import re
from typing import NamedTuple, Optional

from explain import image as image_text
from explain.program import Program
from explain.refusal import BAD_ARGUMENTS, Refusal, printable
from explain.settings import COUNT, Settings, add_options, inputs_of
from explain.tables import Tables

from . import images

LAST_STAGE = 18
VERSION = re.compile(r"version ([0-9.]+)")
NOT_FOUND = 127


class Run(NamedTuple):
    """The exit status of `check`, its line, the lines of `lint` through the last stage, and those of `show`, which are none if it does
    not show the set. `told` is what acpiset wrote to standard error, and `how` says which acpiset was run with which options."""

    status: int
    told: str
    checked: str = ""
    verdict: tuple = ()
    shown: tuple = ()
    settings: Optional[Settings] = None
    last_stage: int = LAST_STAGE
    tables: Optional[Tables] = None
    notes: tuple = ()
    how: str = ""


class Arguments(argparse.ArgumentParser):
    def error(self, message):
        raise Refusal(BAD_ARGUMENTS, printable(message))


def stage_of(text):
    if text not in map(str, range(1, LAST_STAGE + 1)):
        raise argparse.ArgumentTypeError(f"expected a number from 1 to {LAST_STAGE}")
    return int(text)


def read_words(words):
    """The options of `check`, and its counts, from words among which there are no files."""
    parser = Arguments(add_help=False, allow_abbrev=False)
    add_options(parser)
    parser.add_argument("--through", type=stage_of, default=LAST_STAGE)
    parser.add_argument("counts", nargs="*")
    options = parser.parse_intermixed_args(words)
    found = [COUNT.fullmatch(word) for word in options.counts]
    try:
        counts = [(one[1], inputs_of(one[2])) for one in found]
    except argparse.ArgumentTypeError as error:
        raise Refusal(BAD_ARGUMENTS, f"{error} in ADDRESS=COUNT") from None
    return options, Settings(options.default_inputs, counts, options.hotplug, options.processors)


def shown_by(program, at) -> tuple:
    """The lines of `show` after that of the verdict, whatever the checksums; none if there is no complete root table."""
    answer = program.answer("show", "--anyway", *at)
    return tuple(answer.lines[1:]) if answer.status == 0 else ()


def hints_in(told: str) -> tuple:
    """What acpiset wrote to standard error on what its input may be, or where its RSDP may be."""
    return tuple(line[len("acpiset: ") :] for line in told.splitlines() if line.startswith("acpiset: hint: "))


def place_of_rsdp(lines, tables) -> tuple:
    """Where the RSDP is that acpiset did not find."""
    is_told = lines == ["no rsdp"] and tables.rsdp is not None
    return (f"the image's RSDP is at {tables.rsdp:#x}: give it with --rsdp {tables.rsdp:#x}",) if is_told else ()


def version_of(program) -> str:
    found = VERSION.search(program.answer("--version").told)
    return found[1] if found else "of an unknown version"


def through(lines, last_stage: int) -> tuple:
    """The lines of `lint` without faults of later stages."""
    kept = [line for line in lines if not line.startswith("no ") or line == "no rsdp" or int(line.split()[1]) <= last_stage]
    has_fault = any(line.startswith("no ") for line in kept)
    return tuple(kept if has_fault or "yes" in kept else ["yes", *kept])


def rsdp_of(given: Optional[int], text: images.Text) -> tuple:
    """The address of the RSDP that acpiset is given, if any, and a sentence on where it is from, if that is the head of the image text."""
    if given is not None or text.rsdp is not None:
        return (text.rsdp if given is None else given), ""
    try:
        told = image_text.read(text.data).told_rsdp() if image_text.rsdp_in_head(text.data) is not None else None
    except Refusal:
        told = None  # acpiset refuses the text too, and says why
    return told, "" if told is None else " The head of the image text has the address of the RSDP."


def of_files(paths, words, folder: str, is_installed: bool) -> Run:
    """The run on the image that these files are, or are made into."""
    options, settings = read_words(words)
    text = images.of_files(paths, options.rsdp, folder, "acpiset-" if is_installed else "")
    rsdp, origin = rsdp_of(options.rsdp, text)
    beside = os.path.join(folder, *([] if is_installed else [".."]), "acpiset")
    program = Program([beside], text.data, settings)
    if not program.path:
        return Run(NOT_FOUND, "acpiset is neither beside this tool nor on PATH", notes=text.notes)
    at = () if rsdp is None else ("--rsdp", f"{rsdp:#x}")
    last = ("--through", str(options.through)) if options.through != LAST_STAGE else ()
    checked = program.answer("check", *at, *last)
    if not checked.is_given:
        return Run(checked.status, checked.told.partition("\n")[0], notes=(*text.notes, *hints_in(checked.told)))
    linted = program.answer("lint", *at)
    tables = Tables(image_text.read(text.data), rsdp)
    verdict = through(linted.lines, options.through) if linted.is_given else tuple(checked.lines)
    given = " ".join([*at, *last, *settings.words()])
    how = f"Checked by acpiset {version_of(program)}, {f'with {given}' if given else 'without options'}.{origin}"
    line = " ".join(checked.lines)
    notes = (*text.notes, *(place_of_rsdp(checked.lines, tables) or hints_in(checked.told)))
    return Run(checked.status, "", line, verdict, shown_by(program, at), settings, options.through, tables, notes, how)
