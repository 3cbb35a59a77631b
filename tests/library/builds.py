"""Compiles the programs of this folder and the examples against the library: as C11 and as C++17, with its archive and with its shared
object, and with sanitizers."""

import os
import re
import shutil
import subprocess
from dataclasses import dataclass
from pathlib import Path

from acpi_images.program import SECONDS

HERE = Path(__file__).resolve().parent
TOP = HERE.parent.parent
HEADER = TOP / "bindings" / "c" / "acpiset.h"
STRICT = ["-Wall", "-Wextra", "-pedantic", "-Werror"]
COUNTED = ["-Wl,--wrap=malloc,--wrap=realloc,--wrap=free"]
SANITIZERS = ["-fsanitize=address,undefined", "-fno-sanitize-recover=all", "-fno-omit-frame-pointer"]

# The sources of each program, in this folder.
CALLS = ["calls.c", "common.c"]
SOURCES = {
    "header": ["header.c"],
    "bad_input": ["bad_input.c", "common.c"],
    "through_pieces": ["through_pieces.c", "common.c"],
    "many_pieces": ["many_pieces.c", "common.c"],
    "overlapping": ["overlapping.c", "common.c"],
    "findings": ["findings.c", *CALLS],
    "made": ["made.c", *CALLS],
    "meanings": ["meanings.c", "common.c"],
    "guarded": ["guarded.c", *CALLS],
    "refused_memory": ["refused_memory.c", "counted_memory.c", *CALLS],
    "threads": ["threads.c", "counted_memory.c", *CALLS],
    "stack": ["stack.c", *CALLS],
    "speed": ["speed.c", *CALLS],
}
# Those that count blocks, so that the library's own calls have to be linked with them.
WITH_COUNTS = ("refused_memory", "threads")
# Those that measure, of which sanitizers change the results.
MEASURES = ("stack", "speed")


def run(words, **how):
    """What a command prints, and its status."""
    try:
        ended = subprocess.run(words, stdout=subprocess.PIPE, stderr=subprocess.STDOUT, timeout=SECONDS, **how)
    except subprocess.TimeoutExpired:
        return f"no end in {SECONDS} seconds", None
    return ended.stdout.decode(errors="replace"), ended.returncode


def difference(told, right):
    """What one set has too many and too few."""
    parts = (("too many", told - right), ("missing", right - told))
    return "; ".join(f"{name} {what}" for what, names in parts for name in sorted(names))


def counted(cases, build, program, words):
    """Adds the cases of a program whose last line says how many passed."""
    told, status = run(words, env=build.environment())
    *lines, last = told.splitlines() or [""]
    found = re.fullmatch(r"\w+: (\d+) passed, (\d+) failed", last)
    if found and status == (0 if found[2] == "0" else 1):
        cases.passed += int(found[1])
        cases.failed += int(found[2])
        if found[2] == "0":
            return lines
        print(f"{program}, {build.name}:", *lines[:40], last, sep="\n")
        return []
    cases.count(f"{program}, {build.name}", f"status {status}: {told[-3000:]}")
    return []


def first_of(*names):
    return next(filter(None, map(shutil.which, names)), None)


@dataclass
class Build:
    """A way to compile: its name, the compiler's command, and what is linked."""

    name: str
    command: list
    linked: list
    is_shared: bool = False
    is_sanitized: bool = False

    def programs(self):
        """The programs that are built in this way."""
        return [it for it in SOURCES if not (self.is_shared and it in WITH_COUNTS or self.is_sanitized and it in MEASURES)]

    def path(self, scratch, program):
        return scratch / f"{program}-{self.name.replace(' ', '-')}"

    def compile(self, scratch, program, sources, *options):
        """Builds a program, and returns what the compiler says if it refuses it."""
        counted = COUNTED if program in WITH_COUNTS else []
        words = [*self.command, *STRICT, f"-I{HEADER.parent}", f"-I{HERE}", *options, *sources]
        words += ["-x", "none", *self.linked, *counted, "-pthread", "-o", self.path(scratch, program)]
        built = subprocess.run(words, capture_output=True, text=True, timeout=SECONDS)
        return "" if built.returncode == 0 else f"{built.stdout}{built.stderr}" or f"status {built.returncode}"

    def environment(self):
        """Leaks are told where the system lets a sanitizer look for them."""
        return {**os.environ, "ASAN_OPTIONS": "detect_leaks=1", "UBSAN_OPTIONS": "print_stacktrace=1"}


def works_with(command, options, scratch):
    """Whether a program can be compiled with these options and then runs."""
    source, program = scratch / "nothing.c", scratch / "nothing"
    source.write_text("int main(void) { return 0; }\n")
    built = subprocess.run([*command, *options, source, "-o", program], capture_output=True, timeout=SECONDS)
    return built.returncode == 0 and subprocess.run([program], capture_output=True, timeout=600).returncode == 0


def builds_of(folder, scratch):
    """The ways that this machine has, and what it does not have."""
    archive = [folder / "libacpiset.a"]
    shared = [f"-L{folder}", "-lacpiset", f"-Wl,-rpath,{folder}"]
    c, cpp = first_of("cc", "gcc", "clang"), first_of("g++", "c++", "clang++")
    if not c:
        return [], ["no C compiler"]
    c11 = [c, "-x", "c", "-std=c11", "-O1", "-g"]
    found = [Build("C11", c11, archive), Build("C11, shared", c11, shared, is_shared=True)]
    missing = []
    if cpp:
        found.append(Build("C++17", [cpp, "-x", "c++", "-std=c++17", "-O1", "-g"], archive))
    else:
        missing.append("no C++ compiler")
    if works_with([c], SANITIZERS, scratch):
        found.append(Build("C11, sanitizers", [*c11, *SANITIZERS], archive, is_sanitized=True))
    else:
        missing.append("no sanitizers")
    return found, missing


# Standards and compilers with which the header alone is compiled, and its program.
STANDARDS = {"c": ("c99", "c11", "c17", "c2x"), "c++": ("c++11", "c++14", "c++17", "c++20", "c++23")}
COMPILERS = {"c": ("cc", "gcc", "clang"), "c++": ("c++", "g++", "clang++")}


def knows(compiler, language, standard):
    run = subprocess.run([compiler, "-x", language, f"-std={standard}", "-fsyntax-only", "-"], input=b"", capture_output=True, timeout=600)
    return run.returncode == 0


def syntaxes():
    """Each compiler here with each standard that it knows, as a command."""
    for language, names in COMPILERS.items():
        for compiler in dict.fromkeys(os.path.realpath(path) for path in filter(None, map(shutil.which, names))):
            for standard in STANDARDS[language]:
                if knows(compiler, language, standard):
                    yield f"{Path(compiler).name} -std={standard}", [compiler, "-x", language, f"-std={standard}", *STRICT, "-fsyntax-only"]


def refused_by(command, source, include):
    """What a compiler says of a source with the header in this folder."""
    run = subprocess.run([*command, f"-I{include}", source], capture_output=True, text=True, timeout=600)
    return "" if run.returncode == 0 else run.stdout + run.stderr or f"status {run.returncode}"
