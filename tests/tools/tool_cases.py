"""Runs a tool in the scratch folder and compares what it does with what a case says. Numbers and texts that cases expect are worked
out by hand, or come from tests/acpi_images/tables.py, which shares no code with the tools."""

import importlib.machinery
import importlib.util
import os
import re
import subprocess
import sys

from acpi_images.program import TESTS, Cases

TOP = str(TESTS.parent)
NOT_PRINTED = re.compile(rb"[^ -~\n]")


class ToolCases(Cases):
    """Counts cases. The folder is where tools run, and where files of cases are."""

    def __init__(self, program, folder):
        super().__init__(program)
        self.folder = folder

    def put_on_path(self):
        """Has the tools find the program that is tested."""
        folder = self.path("path")
        os.mkdir(folder)
        os.symlink(self.program, os.path.join(folder, "acpiset"))
        os.environ["PATH"] = f"{folder}:{os.environ['PATH']}"

    def path(self, name):
        return os.path.join(self.folder, name)

    def write(self, name, data):
        with open(self.path(name), "wb") as file:
            file.write(data)
        return name

    def count(self, name, *problems):
        """Counts a case, which is passed where there is no problem."""
        super().count(name, "; ".join(problem for problem in problems if problem))

    def run(self, tool, *arguments, data=b"", **options):
        """A tool's run, with this many bytes on standard input."""
        words = [sys.executable, os.path.join(TOP, "tools", tool), *arguments]
        return subprocess.run(words, input=data, capture_output=True, cwd=self.folder, timeout=600, **options)

    def answer(self, words, text):
        """What the program says of an image: its status and its line or lines."""
        status, out, err = super().run(words, text)
        return status, out.strip() + err.strip()

    # ---- cases on images

    def makes(self, told, verdict, tool, *arguments, image=None, data=b"", command="check"):
        """The tool makes an image, this one if one is given, and tells this; the program says this of it, at the address that the tool
        tells."""
        run = self.run(tool, *arguments, data=data)
        found = re.search(r"check it with --rsdp ([0-9a-f]+)$", run.stderr.decode(), re.M)
        words = [command, *(["--rsdp", found[1]] if found else [])]
        status, line = self.answer(words, run.stdout)
        bare = re.sub(rb"^#.*\n", b"", run.stdout, flags=re.M)
        self.count(
            f"{tool} {' '.join(arguments)}",
            run.returncode and f"status {run.returncode}",
            told not in run.stderr.decode() and f"standard error {run.stderr.decode()}",
            not found and "no address is told",
            found and not run.stdout.startswith(f"# rsdp 0x{found[1]}\n".encode()) and f"its first line: {run.stdout[:80].decode()}",
            image is not None and bare != image and f"another image: {bare.decode()}",
            line != verdict and f"{' '.join(words)}: {line}, not {verdict}",
            status > 1 and f"status {status} of the program",
            NOT_PRINTED.search(run.stdout + run.stderr) and "bytes that are not printed",
        )
        return run

    def refuses(self, told, tool, *arguments, status=1, data=b"", **options):
        """The tool refuses with this status, tells this, and writes nothing to standard output."""
        run = self.run(tool, *arguments, data=data, **options)
        self.count(
            f"{tool} {' '.join(arguments)[:200]}",
            run.returncode != status and f"status {run.returncode}, not {status}",
            told not in run.stderr.decode() and f"standard error {run.stderr.decode()}",
            run.stdout and f"standard output {run.stdout[:200].decode()}",
            NOT_PRINTED.search(run.stderr) and "bytes that are not printed",
            b"Traceback" in run.stderr and "a traceback",
        )


def module_of(tool):
    """A tool as a module, for cases that ask it many times."""
    sys.dont_write_bytecode = True
    loader = importlib.machinery.SourceFileLoader(tool, os.path.join(TOP, "tools", tool))
    module = importlib.util.module_from_spec(importlib.util.spec_from_loader(tool, loader))
    loader.exec_module(module)
    return module
