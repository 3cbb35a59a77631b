"""Measures programs that read one text on standard input."""

import os
import re
import shlex
import signal
import subprocess
import sys
import tempfile
import time

# If a caller ignores SIGCHLD, Python takes status 0 for every child, also for one that fails.
signal.signal(signal.SIGCHLD, signal.SIG_DFL)

ROUNDS = 5
# The least time, in seconds, for which programs are run in turn.
SPAN = 0.5
CALLGRIND = "valgrind --tool=callgrind --callgrind-out-file=/dev/null --cache-sim=no --branch-sim=no --vgdb=no --trace-children=yes"


def fail(message):
    """Ends with status 2: nothing is known of a limit."""
    print(message, file=sys.stderr)
    sys.exit(2)


def words_of(word):
    """The word itself, or where it is @FILE the words of the file."""
    if not word.startswith("@"):
        return [word]
    with open(word[1:], encoding="ascii") as file:
        return file.read().split()


class Program:
    """A command, which is split at blanks, on a text, and what it took: the least times in seconds, and the most memory in bytes."""

    def __init__(self, name, text, command, statuses=(0, 1)):
        self.name = name
        self.text = text
        self.words = [word for part in shlex.split(command) for word in words_of(part)]
        self.statuses = statuses
        self.size = os.path.getsize(text)
        self.wall = self.processor = float("inf")
        self.memory = 0

    def run(self, output=os.devnull):
        start = time.perf_counter()
        pid = os.posix_spawnp(
            self.words[0],
            self.words,
            os.environ,
            file_actions=[
                (os.POSIX_SPAWN_OPEN, 0, self.text, os.O_RDONLY, 0),
                (os.POSIX_SPAWN_OPEN, 1, output, os.O_WRONLY, 0),
            ],
        )
        _, status, used = os.wait4(pid, 0)
        wall = time.perf_counter() - start
        if os.waitstatus_to_exitcode(status) not in self.statuses:
            fail(f"{shlex.join(self.words)}: status {os.waitstatus_to_exitcode(status)} on {self.name}")
        self.wall = min(self.wall, wall)
        self.processor = min(self.processor, used.ru_utime + used.ru_stime)
        self.memory = max(self.memory, used.ru_maxrss * 1024)

    def instructions(self, inside=""):
        """How many instructions it and what it starts execute in user mode; or only those inside of a function."""
        words = [*CALLGRIND.split(), *([f"--toggle-collect={inside}"] if inside else []), *self.words]
        with open(self.text, "rb") as text:
            done = subprocess.run(words, stdin=text, stdout=subprocess.DEVNULL, stderr=subprocess.PIPE, check=False)
        collected = re.findall(rb"Collected *: (\d+)", done.stderr)
        if done.returncode not in self.statuses or not collected:
            fail(f"{shlex.join(words)}: status {done.returncode} on {self.name}\n{done.stderr.decode(errors='replace')}")
        return sum(map(int, collected))


def run_in_turn(programs):
    """Runs each as often, so that other work on the machine slows all of them alike."""
    begun = time.perf_counter()
    rounds = 0
    while rounds < ROUNDS or time.perf_counter() - begun < SPAN:
        for program in programs:
            program.run()
        rounds += 1


def least_memory():
    """The memory that is measured of a program that needs none: that of this program, before it is replaced."""
    nothing = Program("nothing", os.devnull, "true")
    nothing.run()
    return nothing.memory


def written_by(program):
    """Runs it, and returns how many bytes it writes."""
    with tempfile.NamedTemporaryFile() as output:
        program.run(output.name)
        return os.path.getsize(output.name)
