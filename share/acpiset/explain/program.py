"""The program, which says whether an image has a fault."""

import os
import shutil
import subprocess
from typing import NamedTuple

from .document import FIRST_RULE
from .refusal import printable

MISMATCH = "is this the image that the line is of?"
NOT_ASKED = "(acpiset is neither beside this tool nor on PATH, so it was not asked whether the image has this)"
NO_VERDICT = "(acpiset has no verdict on this image, so it is not known whether it has this)"


# These commands take neither counts nor settings.
WITHOUT_SETTINGS = ("show", "find", "--version")


class Answer(NamedTuple):
    """What a run of the program wrote, and its exit status."""

    status: int
    lines: list
    told: str

    @property
    def is_given(self):
        return self.status in (0, 1)


NOT_STARTED = Answer(127, [], "acpiset cannot be started")


class Program:
    """acpiset, where it is at one of some paths or on PATH. It is asked with the counts and settings that check was given."""

    def __init__(self, paths, text, settings):
        found = (path for path in paths if os.path.isfile(path) and os.access(path, os.X_OK))
        self.path = next(found, None) or shutil.which("acpiset")
        self.text, self.settings = text, settings
        self.answers = {}

    def answer(self, *words):
        """The answer of a command. Each is run once."""
        if words not in self.answers:
            settings = () if words[0] in WITHOUT_SETTINGS else self.settings.words()
            self.answers[words] = self.ran([self.path, *words, *settings])
        return self.answers[words]

    def asked(self, *words):
        """What a command writes, or None if it gives no verdict."""
        answer = self.answer(*words)
        return answer.lines if answer.is_given else None

    def ran(self, words):
        # From a file the program reads the text faster than from a pipe.
        try:
            with open(os.memfd_create("image"), "w+b") as file:
                file.write(self.text)
                file.seek(0)
                run = subprocess.run(words, stdin=file, capture_output=True, check=False)
        except OSError:
            return NOT_STARTED
        return Answer(run.returncode, run.stdout.decode("ascii", "replace").splitlines(), run.stderr.decode("ascii", "replace"))

    def doubt(self, line, rsdp):
        """What to say where the image does not have what the line says, or where that is not known; else nothing."""
        if not self.path:
            return NOT_ASKED * (line.part.code > 0)
        at = () if rsdp is None else ("--rsdp", f"{rsdp:#x}")
        lines = self.asked("lint", *at)
        if lines is None or lines == ["no rsdp"]:
            return NO_VERDICT * (line.part.code > 0)
        if line.text in lines:
            return ""
        if line.part.code == 0:
            return f"acpiset lint finds faults in this image. Was check given --through? If not, {MISMATCH}"
        if line.part.code >= FIRST_RULE:
            return self.doubt_advice(line, lines)
        verdict = self.asked("confirm", "--witness", line.text.removeprefix("no "), *at)
        refuted = f"acpiset confirm answers false: the image does not have this fault. {question()}"
        return "" if verdict == ["true"] else refuted if verdict == ["false"] else NO_VERDICT

    @staticmethod
    def doubt_advice(line, lines):
        found = next((text for text in lines if text.startswith(f"advice {line.part.name} ")), "no line of this name")
        return f"acpiset lint does not write this line of the image; it writes: {printable(found)}. {question()}"


def question():
    return f"{MISMATCH.capitalize()} If check was given counts or settings, give them here too."
