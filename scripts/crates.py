"""The crates of this repository, as crates.txt lists them, and how the toolchain's compiler is called on one of them over what was
proved of those below it. The scripts beside this file import it."""

import fcntl
import hashlib
import os
import re
import shutil
import signal
import subprocess
import sys
from contextlib import contextmanager
from dataclasses import dataclass
from functools import lru_cache
from pathlib import Path

# A caller may ignore SIGCHLD. Then Python takes status 0 for every child, so also for a prover that refuses; and so does `rt`.
signal.signal(signal.SIGCHLD, signal.SIG_DFL)
# A caller may have closed a standard stream. Then the next file that is opened would be it.
while (opened := os.open(os.devnull, os.O_RDWR)) <= 2:
    os.set_inheritable(opened, True)
os.close(opened)

TOP = Path(__file__).resolve().parent.parent
PARTS = ("src", "specs", "proofs")
# Where crates are proved beside one another, on copies. `out` is in .gitignore.
ROOMS = TOP / "out" / "rooms"
# The processor that the program and the library are built for: any x86-64. Without this flag `rt` builds for x86-64-v2, also in `rt ci`.
CPU = "x86-64"
# The program that users run; another one is a test.
PRODUCT = "acpi_cli"
# A check of one of these crates takes 1 to 4 GB.
BYTES_OF_A_CHECK = 4_000_000_000
# Minutes of one processor that a proof from nothing took; and that of a crate's tests, over the proof that is kept of the crate. The
# processors are shared by these.
MINUTES = {
    "acpi_graph": 0.6,
    "acpi_base": 6.5,
    "acpi_read": 4.5,
    "acpi_confirm": 3.6,
    "acpi_check": 5,
    "acpi_write": 4.5,
    "acpi_show": 1.5,
    "acpi_rules": 2,
    "acpi_lint": 6,
    "acpi_examples": 1,
    "acpi_c": 4,
    "acpi_arguments": 6.6,
    "acpi_cli": 7.6,
}
MINUTES_OF_TESTS = {"acpi_c": 3, "acpi_cli": 6, "acpi_tests": 20}

# Asks the kernel for SIGTERM when the thread that started this process ends, with PR_SET_PDEATHSIG, and becomes the command. Where Python has
# no ctypes, it is only the command. Linux may schedule each session as a group (autogroup), and then a process is nice only to those of its
# own session: a new session gets the niceness too.
BECOMES = """import os, sys
try:
    import ctypes
    ctypes.CDLL(None).prctl(1, 15)
except (ImportError, OSError, AttributeError):
    pass
if os.getsid(0) == os.getpid():
    try:
        with open("/proc/self/autogroup", "w") as group:
            group.write(str(os.nice(0)))
    except OSError:
        pass
if os.getppid() == int(sys.argv[1]):
    os.execvp(sys.argv[2], sys.argv[2:])
"""


class Failed(Exception):
    """What ends a script with its text as the reason."""


def ending_with_this(*words):
    """The words of a command that is ended when this process ends, however that is. The thread that starts it has to wait for it."""
    return [sys.executable, "-ISc", BECOMES, str(os.getpid()), *words]


@lru_cache(maxsize=None)
def kit():
    """The folder of the toolchain."""
    return Path(subprocess.run(["rt", "doc"], stdout=subprocess.PIPE, check=True, text=True).stdout.strip()).parent


def says_proved(printed):
    """Whether what the toolchain printed of a crate says at its end that it was proved."""
    return re.findall(r"^logic=\S+", printed, re.M)[-1:] == ["logic=proved"]


@dataclass(frozen=True)
class Crate:
    """A crate of crates.txt: its name, the crates and the toolchain's libraries that its line names, those of the crates below it,
    each after those that it depends on, and whether it is a static library."""

    name: str
    own: tuple
    of_kit: tuple
    below: tuple
    is_static: bool

    @property
    def folder(self):
        return TOP / "crates" / self.name

    @property
    def rlib(self):
        return rlib_of(self.name)

    @property
    def program(self):
        return self.folder / "out" / self.name

    @property
    def archive(self):
        return self.folder / "out" / f"lib{self.name}.a"

    @property
    def tests(self):
        return self.folder / "out" / f"{self.name}_tests"

    @property
    def minutes(self):
        """How long its proof takes on one processor, for sharing them; of a crate that was not measured, a guess by its lines."""
        return MINUTES.get(self.name, self.lines() / 1000)

    def is_program(self):
        return (self.folder / "src" / "main.rt").is_file()

    def is_product(self):
        return self.name == PRODUCT

    def lines(self):
        return sum(len(file.read_bytes().splitlines()) for part in PARTS for file in (self.folder / part).glob("**/*") if file.is_file())

    def has_tests(self):
        return any(b"#[test]" in file.read_bytes() for file in self.folder.glob("src/**/*.rt") if file.is_file())

    def sources(self, top):
        """The files of the crate and of those below it, in this repository or in copies."""
        for folder in (top / "crates" / name / part for name in (*self.below, self.name) for part in PARTS):
            for file in sorted(it for it in folder.glob("**/*") if it.is_file()):
                if not file.name.isprintable():
                    raise Failed(f"a source has a line break, or another control character, in its name: {file.name!r}")
                yield file

    def digest(self, version, top=TOP):
        """A digest of what its program or its tests are made from: the toolchain, the processor, and the sources of the crate and
        of those below it."""
        sources = hashlib.sha256(version.encode() + CPU.encode() + (top / "crates.txt").read_bytes())
        for file in self.sources(top):
            sources.update(repr((str(file.relative_to(top)), file.read_bytes())).encode())
        return sources.hexdigest()

    def sums(self, top):
        """The checksums of the same sources, as `sha256sum --check` reads them. An added file is named in an existing one, so it
        shows."""
        files = (top / "crates.txt", *self.sources(top))
        return "".join(f"{hashlib.sha256(file.read_bytes()).hexdigest()}  {file.relative_to(top)}\n" for file in files)

    def words(self):
        """What the compiler is told of the crate, as `rt` tells it: its root, the proved libraries, and the program logic."""
        root = "src/main.rt" if self.is_program() else "src/lib.rt"
        libraries = [f"{name}={kit()}/rlibs/{name}.rlib" for name in ("std", *self.of_kit)]
        libraries += [f"{name}={rlib_of(name)}" for name in self.own]
        places = [kit() / "rlibs", *(rlib_of(name).parent for name in self.below)]
        return [
            "--crate-name", self.name, root,
            *(word for library in libraries for word in ("--extern", library)),
            *(word for place in places for word in ("-L", f"dependency={place}")),
            "--antt-project", f"{kit()}/rattle/logic/antt-project.json", "--logic-built", f"{kit()}/logic_built",
            "--links", f"{self.name}=", *(["--crate-type", "staticlib"] if self.is_static else []),
        ]  # fmt: skip


def rlib_of(name):
    return TOP / "crates" / name / "out" / "rlib" / f"{name}.rlib"


def for_any(built):
    """Where the gate builds this file for any x86-64 processor, while `rt ci` builds it in its own place for x86-64-v2."""
    return built.parent / "for_any" / built.name


def crates():
    """The crates of crates.txt, each after those that it depends on."""
    lines = [line.partition("#")[0] for line in (TOP / "crates.txt").read_text().splitlines()]
    rows = [(name.split(), uses.split()) for name, _, uses in (line.partition(":") for line in lines if line.strip())]
    named = {words[0]: uses for words, uses in rows}
    static = {words[0] for words, _ in rows if "staticlib" in words}
    found = {}

    def add(name):
        if name not in found:
            own = tuple(use for use in named[name] if use in named)
            for use in own:
                add(use)
            below = dict.fromkeys(it for use in own for it in (*found[use].below, use))
            of_kit = tuple(use for use in named[name] if use not in named)
            found[name] = Crate(name, own, of_kit, tuple(below), name in static)

    for name in named:
        add(name)
    return list(found.values())


def tell(line):
    """Writes a line in one piece: `print` writes the end by itself, and another thread, or a process, may come between."""
    sys.stdout.write(f"{line}\n")
    sys.stdout.flush()


def processors():
    return len(os.sched_getaffinity(0))


def free_bytes():
    found = re.search(r"MemAvailable:\s+(\d+) kB", Path("/proc/meminfo").read_text())
    return 1024 * int(found[1]) if found else 0


@contextmanager
def locked(folder):
    """Takes the lock that a running `rt` takes on a crate's folder."""
    held = os.open(folder, os.O_RDONLY)
    try:
        fcntl.flock(held, fcntl.LOCK_EX)
        yield
    finally:
        os.close(held)


def copy_tree(source, target):
    """Copies a folder of sources, and its links as links: `rt` refuses them."""
    if source.is_dir():
        shutil.copytree(source, target, symlinks=True, dirs_exist_ok=True)


def link_tree(source, target):
    """Copies a folder, with hard links instead of copies of its files. The compiler and `rt` replace files and never write into
    them, so the first folder stays as it is."""
    if source.is_dir():
        shutil.copytree(source, target, copy_function=os.link)
