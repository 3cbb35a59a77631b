#!/usr/bin/env python3
"""Tests the library for C: what its files export and need, its header, and its answers.

The programs in this folder and in `examples` are compiled against it: as C11 and as C++17, with the archive and with the shared object,
and with sanitizers if the compiler has them. The library answers as the program does on the sets of the other tests, however an image is
passed.

usage: run.py PROGRAM LIBRARY_FOLDER; the last line is 'library: N passed, M failed'"""

import functools
import os
import re
import shutil
import signal
import sys
import tempfile
from concurrent.futures import ThreadPoolExecutor
from dataclasses import dataclass
from pathlib import Path

HERE = Path(__file__).resolve().parent
sys.path.insert(0, str(HERE.parent))

from acpi_images.generated.chains import falling, ring, shuffled
from acpi_images.known.linted import EXPECTED
from acpi_images.known.rows import COMPLETE, ROWS
from acpi_images.program import FIRMWARE, IMAGES, Cases, finish
from acpi_images.tables import *
from acpi_images.text import text_of
from beside import all_jobs, compared
from builds import HEADER, SOURCES, builds_of, counted, refused_by, run, syntaxes, works_with
from example_runs import examples, fuzzer
from files import files
from headers import header, lists, printed
from jobs import STAGES, firmware

# Image texts that are larger are tried in one build alone.
LARGE = 100_000


# ---- images for the programs that take files


def one_of_each_stage():
    """A row that reports a fault of each stage, at the usual address."""
    for stage in STAGES:
        yield next(row for row in ROWS if row.answer.startswith(f"no {stage} ") and row.words == "check --rsdp e0000")


COUNT = 4096
MANY_PIECES = 100_000
OVERLAPPING = 1_000_000
MANY_COUNTS = 1_100_000
# How many bytes of stack a call may take on any image.
MOST_STACK = 100_000


def many_processors():
    """A set of 4,096 processors in 8 nodes, with a leaf and a cache for each."""
    caches = [cache()] * COUNT
    leaves = [node(0, IS_ID_VALID | IS_LEAF, uid, [36 + 24 * uid]) for uid in range(COUNT)]
    listed = [
        fadt(length=276),
        madt(*(x2apic(uid, uid) for uid in range(COUNT)), io_apic(0xFEC00000, 0), override(0, 2)),
        srat(*(x2apic_domain(uid, uid // 512) for uid in range(COUNT)), *(memory(at << 32, 1 << 32) for at in range(8))),
        slit(8, even_cells(8)),
        pptt(*caches, *leaves),
    ]
    places = [0x1000000 * place for place in range(1, 6)]
    return {RSDP_AT: rsdp(), RSDT_AT: rsdt(*places), **dict(zip(places, listed))}


@dataclass
class Subject:
    """An image for the programs that take files."""

    rsdp: str
    path: Path


def subjects(scratch):
    """Images of firmware; a clean set; a fault of each stage; the sets with the most findings, of which one has more than an earlier
    library has at most; and many pieces in falling order. None is so large that it cannot be asked a thousand times."""
    made = [("a complete set", COMPLETE), *((f"stage {row.answer.split()[1]}", row.pieces) for row in one_of_each_stage())]
    with_most = sorted((it for it in EXPECTED if it.words == "--rsdp e0000"), key=lambda it: -len(it.lines))[:6]
    # In rising order: more than 20 pieces in another one are sorted in place if the buffer of the sort is refused, so no call is refused.
    made += [(f"findings {place}", dict(sorted(it.pieces.items()))) for place, it in enumerate(with_most)]
    made += [("scattered", {address: b"\0" for address in range(1000, 0, -2)})]
    for name, rsdp, text in firmware():
        yield Subject(rsdp[1], FIRMWARE / f"{name}.img.txt")
    for name, pieces in made:
        yield written(scratch, name, pieces)


def written(scratch, name, pieces):
    """An image in a file with this name."""
    path = scratch / f"{name.replace(' ', '-')}.img.txt"
    path.write_bytes(text_of(pieces))
    return Subject("e0000", path)


@functools.cache
def large_subject(scratch):
    return written(scratch, "4,096 processors", many_processors())


def worst_for_the_stack(scratch):
    """Sets for which a call may take more of the stack than for others, if it keeps there what it sorts, notes or reads."""
    addresses = [0x100000 + 0x40 * place for place in range(5000)]
    tables = {address: hpet() for address in addresses}
    slots = [addresses[place % 5000] for place in shuffled(70_000)]
    yield written(scratch, "slots unsorted", {RSDP_AT: rsdp(), RSDT_AT: rsdt(*slots), **tables})
    ranges = srat(*(memory(0x1000 * place, 0x1000) for place in shuffled(200_000)))
    yield written(scratch, "ranges unsorted", with_fadt(ranges))
    with_counts = madt(*(io_apic(place, 24 * place) for place in shuffled(MANY_COUNTS)))
    yield written(scratch, "IO APICs with counts", with_fadt(with_counts))
    # 22 MB of nodes; the text has just below 64 MiB.
    yield written(scratch, "a long cycle", with_fadt(pptt(ring(falling(1_110_000)))))


def with_fadt(whole):
    """A set of a FADT and a large table."""
    return image_of(fadt(), slots=[TABLES_AT, 0x1000000], others={0x1000000: whole})


def words_of(some):
    return [word for it in some for word in (it.rsdp, it.path)]


def speeds(build, scratch):
    """How long calls take. Nothing is expected of it."""
    usual = ("sb-q35-default", "sb-q35-numa4-dist", "q11-efi-virt-caches")
    guests = [Subject(IMAGES[name], FIRMWARE / f"{name}.img.txt") for name in usual]
    told, status = run([build.path(scratch, "speed"), *words_of([*guests, large_subject(scratch)])])
    print(re.sub(r"^\S*/", "", told, flags=re.M), end="" if status == 0 else f"speed: status {status}\n")


# ---- all of it


def compiled(cases, builds, scratch):
    """Compiles all programs in each way, beside each other. Gives what was built."""
    wanted = [(build, program) for build in builds for program in build.programs()]
    with ThreadPoolExecutor(os.cpu_count()) as pool:
        compile_one = lambda it: it[0].compile(scratch, it[1], [HERE / source for source in SOURCES[it[1]]])
        told = list(pool.map(compile_one, wanted))
    for (build, program), refused in zip(wanted, told):
        cases.count(f"{program}.c, {build.name}", refused)
    return {(build.name, program) for (build, program), refused in zip(wanted, told) if not refused}


def tested(cases, build, place, built, scratch, jobs, some):
    """Runs what was built in one way."""
    usual = words_of(some)
    wanted = [("bad_input", []), ("meanings", []), ("many_pieces", [str(MANY_PIECES)]), ("overlapping", [str(OVERLAPPING)])]
    wanted += [(program, usual) for program in ("findings", "made", "guarded", "refused_memory", "threads")]
    wanted.append(("stack", [str(MOST_STACK), "12", *usual, *words_of([large_subject(scratch)])]))
    if place == 0:
        wanted.append(("stack", [str(MOST_STACK), str(MANY_COUNTS), *words_of(worst_for_the_stack(scratch))]))
    for program, words in wanted:
        if (build.name, program) in built:
            lines = counted(cases, build, program, [build.path(scratch, program), *words])
            if place == 0:
                print(*lines, sep="\n", end="\n" if lines else "")
    if (build.name, "header") in built:
        printed(cases, build, build.path(scratch, "header"))
    if (build.name, "through_pieces") in built:
        compared(cases, build, scratch, [job for job in jobs if place == 0 or len(job.text) < LARGE])
    if not build.is_shared:
        examples(cases, build, scratch)


def sees_a_block(cases, build, scratch, words):
    """The program that measures the stack sees a block of 128 KiB on it, and its thread with a small stack ends by a signal."""
    block = 128 << 10
    refused = build.compile(scratch, "stack_planted", [HERE / it for it in SOURCES["stack"]], f"-DPLANTED={block}")
    told, status = run([build.path(scratch, "stack_planted"), str(MOST_STACK), "12", *words])
    found = [int(it) for it in re.findall(r"takes (\d+) bytes", told)]
    is_seen = len(found) >= 5 and min(found) > block and status == -signal.SIGSEGV
    cases.count("a block on the stack", refused or ("" if is_seen else f"status {status}: {told[-3000:]}"))


def under_valgrind(cases, build, scratch, words):
    """What is written to rooms of several sizes, and freed, as valgrind sees it."""
    valgrind = shutil.which("valgrind")
    if not valgrind:
        print("left out: valgrind is not installed")
        return
    options = ["--quiet", "--leak-check=full", "--show-leak-kinds=all", "--errors-for-leak-kinds=all", "--error-exitcode=99"]
    told, status = run([valgrind, *options, build.path(scratch, "made"), *words])
    is_clean = re.fullmatch(r"made: [1-9]\d* passed, 0 failed\n", told) and status == 0
    cases.count("made.c under valgrind", "" if is_clean else f"status {status}: {told[-3000:]}")


def other_convention(cases, build, scratch):
    """The header's functions are called as the library wants it, whatever convention the compiler has; or the header is refused."""
    if works_with([*build.command, "-mabi=ms"], [], scratch):
        refused = build.compile(scratch, "other_convention", [HERE / "other_convention.c"], "-mabi=ms")
        told, status = ("", None) if refused else run([build.path(scratch, "other_convention")])
        cases.count("a program with another calling convention", refused or ("" if status == 0 else f"status {status}: {told}"))
    else:
        print("left out: no compiler with another calling convention")
    for name, command in syntaxes():
        is_refused = "calling convention" in refused_by([*command, "-D_WIN64"], HERE / "header.c", HEADER.parent)
        cases.count(f"the header for Windows, {name}", "" if is_refused else "accepted")


def main():
    _, program, folder = sys.argv
    program, folder = Path(program).resolve(), Path(folder).resolve()
    cases = Cases(program)
    with tempfile.TemporaryDirectory() as name:
        scratch = Path(name)
        lists(cases, scratch)
        files(cases, folder, scratch)
        builds, missing = builds_of(folder, scratch)
        for it in missing:
            print(f"left out: {it}")
        header(cases, scratch)
        built = compiled(cases, builds, scratch)
        jobs = all_jobs(program) if builds else []
        some = list(subjects(scratch))
        for place, build in enumerate(builds):
            tested(cases, build, place, built, scratch, jobs, some)
        if builds:
            sees_a_block(cases, builds[0], scratch, words_of(some[:3]))
            under_valgrind(cases, builds[0], scratch, words_of(some))
            other_convention(cases, builds[0], scratch)
        fuzzer(cases, folder, scratch)
        if builds and (builds[0].name, "speed") in built:
            speeds(builds[0], scratch)
        cases.failed += not builds
    finish("library", cases)


main()
