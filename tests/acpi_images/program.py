"""Runs the built program, counts the cases, and has the images of real firmware."""

import subprocess
import sys
from concurrent.futures import ThreadPoolExecutor
from pathlib import Path

from .text import text_of

TESTS = Path(__file__).resolve().parent.parent
FIRMWARE = TESTS / "images"
# The images, each with the address of its RSDP.
IMAGES = {
    "sb-q35-default": "f59e0",
    "sb-q35-numa4-dist": "f59c0",
    "sb-pc-nvdimm-numa": "f59d0",
    "ovmf-q35": "f77e014",
    "mv-acpi": "f4a10",
    "q10-efi-virt-smp4": "4f0b0018",
    "q11-efi-virt-caches": "47fe0000",
    "sb-q35-hmat": "f5990",
    "sb-q35-intel-iommu": "f59e0",
    "sb-q35-amd-iommu": "f59e0",
    "q102-virt-smmuv3": "f5ac0",
}
GOOD = ("yes", "rsdp 0x", "true")


def firmware_text(name):
    return (FIRMWARE / f"{name}.img.txt").read_bytes()


def status_of(line):
    """The status with which `check`, `confirm` or `find` ends after its line."""
    return 0 if line.startswith(GOOD) else 1


def hinted(text):
    """The line of a hint."""
    return f"acpiset: hint: {text}\n"


EMPTY = hinted("the input is empty: is it the wrong file, or did the command before the pipe fail?")
NO_RSDP = hinted(
    "with UEFI firmware the RSDP is elsewhere: give its address by --rsdp, from the image's first line, dmesg or /sys/firmware/efi/systab"
)
UNREADABLE = hinted("the input cannot be read: is it a folder, or closed? acpiset-tables2image FOLDER/* takes the tables in a folder")


def beside(out, text):
    """What standard error has beside the output for a text that is read: a hint if there is no RSDP to start from."""
    if out != "no rsdp\n":
        return ""
    return EMPTY if len(text) < 64 and not text.strip() else NO_RSDP


def answer(line, text=b""):
    """What the program answers if it writes only this line, for this text."""
    return status_of(line), f"{line}\n", beside(f"{line}\n", text)


def refusal(line):
    """What the program tells of a text that it refuses for this."""
    return 3, "", f"acpiset: {line}\n"


# After so many seconds a run counts as one that does not end: far more than any takes on a busy machine.
SECONDS = 600


def tell(line):
    """Writes a line in one piece: `print` writes the end by itself, and another thread may come between."""
    sys.stdout.write(f"{line}\n")
    sys.stdout.flush()


class Cases:
    """Runs the program, counts the cases, and tells what failed."""

    def __init__(self, program):
        self.program = program
        self.passed = self.failed = 0

    def count(self, name, wrong):
        """Counts a case, which is passed where nothing is wrong."""
        if wrong:
            self.failed += 1
            tell(f"{name}: {wrong}")
        else:
            self.passed += 1

    def same(self, name, told, expected):
        self.count(name, "" if told == expected else f"{told}, not {expected}")

    def run(self, words, pieces, **how):
        """The program's status, standard output and standard error, for pieces or a text on its standard input."""
        words = [self.program, *(words.split() if isinstance(words, str) else words)]
        run = subprocess.run(words, input=text_of(pieces), capture_output=True, timeout=SECONDS, **how)
        return run.returncode, run.stdout.decode(), run.stderr.decode()

    def writes(self, name, words, pieces, expected, status=None):
        """The program writes these lines, or this text, with this status or that of the first line, and reports no more than a hint."""
        text = "".join(f"{line}\n" for line in expected) if isinstance(expected, list) else expected
        hint = beside(text, text_of(pieces))
        self.same(name, self.run(words, pieces), (status_of(text) if status is None else status, text, hint))

    def in_parallel(self, found, cases):
        """Runs the cases in parallel, and counts each (name, what is wrong) that `found` gives."""
        with ThreadPoolExecutor() as pool:
            for told in pool.map(lambda case: list(found(case)), cases):
                for name, wrong in told:
                    self.count(name, wrong)


def main(title, *parts):
    """Runs the parts of a test on the program that the command line names, prints how many cases passed, and ends."""
    if len(sys.argv) != 2:
        sys.exit(f"usage: {sys.argv[0]} PROGRAM")
    cases = Cases(sys.argv[1])
    for part in parts:
        part(cases)
    finish(title, cases)


def finish(title, cases):
    """Prints how many cases passed, and ends: with an error if one failed, or if there was none."""
    print(f"{title}: {cases.passed} passed, {cases.failed} failed")
    sys.exit(0 if cases.passed and not cases.failed else 1)
