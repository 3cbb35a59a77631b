"""How the library is found, and how one of another version is handled."""

import os
import shutil
import subprocess
import sys
import tempfile
import unittest
from pathlib import Path
from unittest import mock

from acpiset import LibraryNotFound, _library

HERE = Path(__file__).resolve().parent
BINDINGS = HERE.parents[1]
LATER = BINDINGS / "rust" / "tests" / "later_library.c"
COMPILER = shutil.which("cc") or shutil.which("gcc") or shutil.which("clang")


def told_by(program, arguments=(), **environment):
    """What a program in Python prints with these arguments and variables, and what it says on standard error."""
    path = os.pathsep.join([str(HERE.parent), str(HERE)])
    variables = {**{name: value for name, value in os.environ.items() if name != "ACPISET_LIBRARY"}, "PYTHONPATH": path, **environment}
    ended = subprocess.run([sys.executable, "-c", program, *arguments], capture_output=True, text=True, timeout=600, env=variables)
    return ended.stdout, ended.stderr


# Each call, and what it answers or why it is refused.
EACH_CALL = """
import acpiset
fault, settings = acpiset.Fault(acpiset.Code.TableSum, 0, 0x1000), acpiset.Settings(0xE0000)
for call in (
    acpiset.abi, lambda: acpiset.check([], settings), lambda: acpiset.check_text("", settings),
    lambda: acpiset.confirm([], settings, fault), lambda: acpiset.lint([], settings), lambda: acpiset.find([]),
    lambda: acpiset.show([], settings), lambda: acpiset.rebuild([], settings, 0),
):
    try:
        told = call()
    except acpiset.Refusal as refusal:
        told = refusal
    print(repr(told))
"""

# All findings of a library that has more codes and rules.
ALL_FINDINGS = """
import acpiset
found = acpiset.lint([], acpiset.Settings(0xE0000))
print([(it.number, it.at) for it in found.faults] == [(own + 1, own) for own in range(70)])
print([(it.number, it.at) for it in found.advice] == [(own + (31 if own < 154 else 847), own) for own in range(70, 170)])
print(found.faults[58].name, found.faults[59].name, found.advice[83].name, found.advice[84].name, found.advice[84].severity)
"""


@unittest.skipUnless(COMPILER, "no C compiler")
class LaterLibraries(unittest.TestCase):
    """Libraries made of the file that the tests of the Rust crate use, of this version and of the next."""

    @classmethod
    def setUpClass(cls):
        folder = tempfile.TemporaryDirectory()
        cls.addClassCleanup(folder.cleanup)
        cls.folder = Path(folder.name)
        for version in (1, 2):
            (cls.folder / str(version)).mkdir()
            words = ["-shared", "-fPIC", f"-DVERSION={version}", "-I", BINDINGS / "c", LATER]
            subprocess.run([COMPILER, *words, "-o", cls.folder / str(version) / "libacpiset.so.1"], check=True, timeout=600)

    def told_by(self, program, version):
        return told_by(program, ACPISET_LIBRARY=str(self.folder / str(version)))

    def test_another_version_is_refused(self):
        self.assertEqual(self.told_by(EACH_CALL, 2), ("OtherVersion(2)\n" * 8, ""))

    def test_numbers_of_a_later_library_are_kept(self):
        told, problems = self.told_by(EACH_CALL.replace("lambda: acpiset.lint([], settings), ", ""), 1)
        lines = ["1", "<Fault ? Unknown(60) 0x1 0x2 0x3>", "UnknownRefusal(77, 5, 6)", "BadSize()", "OutOfMemory()"]
        lines += ["UnknownRefusal(78, 7, 8)", lines[1]]
        self.assertEqual((told.splitlines(), problems), (lines, ""))

    def test_all_findings_of_a_later_library_are_reported(self):
        told = "True\nTrue\nLeafUnknown Unknown(60) PpttReserved Unknown(1001) None\n"
        self.assertEqual(self.told_by(ALL_FINDINGS, 1), (told, ""))

    def test_a_file_a_folder_and_a_path_from_here_name_a_library(self):
        folder = self.folder / "1"
        for name in (folder, folder / "libacpiset.so.1", os.path.relpath(folder), os.path.relpath(folder / "libacpiset.so.1")):
            self.assertEqual(told_by("import acpiset; print(acpiset.abi())", ACPISET_LIBRARY=str(name)), ("1\n", ""), name)

    def test_the_loader_finds_a_library(self):
        told = told_by("import acpiset; print(acpiset.abi())", LD_LIBRARY_PATH=str(self.folder / "1"), ACPISET_LIBRARY="")
        self.assertEqual(told, ("1\n", ""))

    def test_a_library_is_looked_for_again_after_it_was_not_found(self):
        program = """
import acpiset, os, sys
os.environ["ACPISET_LIBRARY"] = "/none"
for _ in range(2):
    try:
        print(acpiset.abi())
    except acpiset.LibraryNotFound:
        os.environ["ACPISET_LIBRARY"] = sys.argv[1]
"""
        self.assertEqual(told_by(program, [str(self.folder / "1")]), ("1\n", ""))


class Loading(unittest.TestCase):
    """The places at which a library is looked for."""

    def opened(self, variable, is_found, of_the_system):
        """The paths that are loaded, if the system has a library of this name."""
        tried = []

        def loaded(path):
            tried.append(path)
            if path not in is_found:
                raise LibraryNotFound("none")
            return path

        with mock.patch.dict(os.environ, {"ACPISET_LIBRARY": variable}), mock.patch.object(_library, "loaded", loaded):
            with mock.patch("ctypes.util.find_library", {"acpiset": of_the_system}.get):
                try:
                    found = _library.opened()
                except LibraryNotFound:
                    found = None
        return found, tried

    def test_the_order_of_places(self):
        self.assertEqual(self.opened("", ["libacpiset.so.1"], "x"), ("libacpiset.so.1", ["libacpiset.so.1"]))
        self.assertEqual(self.opened("", ["x"], "x"), ("x", ["libacpiset.so.1", "x"]))
        self.assertEqual(self.opened("", [], None), (None, ["libacpiset.so.1"]))
        self.assertEqual(self.opened("/a/b", ["/a/b", "libacpiset.so.1"], "x"), ("/a/b", ["/a/b"]))
        # What the variable names is not replaced.
        self.assertEqual(self.opened("/a/b", ["libacpiset.so.1", "x"], "x"), (None, ["/a/b"]))

    def test_nothing_is_loaded_before_the_first_call(self):
        self.assertEqual(told_by("import acpiset; print(acpiset.Fault(19))", ACPISET_LIBRARY="/none"), ("4 NoFadt 0x0 0x0 0x0\n", ""))

    def test_what_is_no_library_is_told(self):
        with tempfile.TemporaryDirectory() as name:
            folder = Path(name)
            (folder / "text").write_text("text\n")
            for path, told in (
                (folder / "none", "cannot open shared object file"), (folder, "cannot open shared object file"),
                (folder / "text", "(invalid ELF header|file too short)"),
            ):
                self.assert_not_found(path, told)

    def test_a_library_without_the_functions_is_told(self):
        # a module of Python is a library that can be loaded everywhere
        import _ctypes

        self.assert_not_found(_ctypes.__file__, "has no function acpiset_abi")

    def assert_not_found(self, path, told):
        message = f"^libacpiset cannot be loaded: .*{told}.*set the environment variable ACPISET_LIBRARY"
        with mock.patch.dict(os.environ, {"ACPISET_LIBRARY": str(path)}), self.assertRaisesRegex(LibraryNotFound, message):
            _library.library.__wrapped__()


if __name__ == "__main__":
    unittest.main()
