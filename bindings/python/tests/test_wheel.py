"""The wheel and the source archive, and an installation from them without the network."""

import base64
import csv
import hashlib
import importlib.util
import io
import os
import subprocess
import sys
import tarfile
import tempfile
import unittest
import zipfile
from email.parser import Parser
from pathlib import Path

FOLDER = Path(__file__).resolve().parents[1]
HAS_PIP = importlib.util.find_spec("ensurepip") is not None and importlib.util.find_spec("venv") is not None
INFO = "acpiset-0.1.0.dist-info"
MODULES = {"__init__", "_calls", "_findings", "_library", "_lists", "_refusals", "_settings", "_texts"}
PACKAGE = {*(f"acpiset/{it}.py" for it in MODULES), "acpiset/py.typed"}


def built(hook, target, folder=FOLDER):
    """The file that a hook of the build backend writes into a folder, as a front end runs it: in the folder of the sources."""
    program = f"import sys; sys.path.insert(0, 'backend'); import wheel_builder; print(wheel_builder.{hook}(sys.argv[1]))"
    environment = {**os.environ, "PYTHONDONTWRITEBYTECODE": "1"}
    ended = subprocess.run([sys.executable, "-c", program, target], cwd=folder, capture_output=True, text=True, timeout=600, env=environment)
    assert ended.returncode == 0, ended.stderr
    return Path(target, ended.stdout.strip())


class Wheel(unittest.TestCase):
    def setUp(self):
        folder = tempfile.TemporaryDirectory()
        self.addCleanup(folder.cleanup)
        self.scratch = Path(folder.name)

    def test_the_files_of_the_wheel(self):
        path = built("build_wheel", self.scratch)
        self.assertEqual(path.name, "acpiset-0.1.0-py3-none-any.whl")
        with zipfile.ZipFile(path) as wheel:
            self.assertIsNone(wheel.testzip())
            files = {name: wheel.read(name) for name in wheel.namelist()}
            self.assertEqual({it.external_attr >> 16 for it in wheel.infolist()}, {0o100644})
        self.assertEqual(set(files), {*PACKAGE, f"{INFO}/METADATA", f"{INFO}/WHEEL", f"{INFO}/RECORD"})
        for name in PACKAGE:
            self.assertEqual(files[name], (FOLDER / name).read_bytes(), name)

    def test_the_record_of_the_wheel(self):
        with zipfile.ZipFile(built("build_wheel", self.scratch)) as wheel:
            rows = list(csv.reader(io.StringIO(wheel.read(f"{INFO}/RECORD").decode())))
            self.assertEqual([row[0] for row in rows], wheel.namelist())
            self.assertEqual(rows[-1], [f"{INFO}/RECORD", "", ""])
            for name, digest, size in rows[:-1]:
                data = wheel.read(name)
                right = base64.urlsafe_b64encode(hashlib.sha256(data).digest()).decode().rstrip("=")
                self.assertEqual((digest, int(size)), (f"sha256={right}", len(data)), name)

    def test_what_the_wheel_says_of_itself(self):
        with zipfile.ZipFile(built("build_wheel", self.scratch)) as wheel:
            metadata = Parser().parsestr(wheel.read(f"{INFO}/METADATA").decode())
            own = Parser().parsestr(wheel.read(f"{INFO}/WHEEL").decode())
        fields = {name: metadata[name] for name in ("Metadata-Version", "Name", "Version", "Requires-Python", "Description-Content-Type")}
        right = ("2.1", "acpiset", "0.1.0", ">=3.9", "text/markdown")
        self.assertEqual(tuple(fields.values()), right)
        self.assertIsNone(metadata["Requires-Dist"])
        self.assertEqual(metadata.get_payload().rstrip(), (FOLDER / "README.md").read_text().rstrip())
        self.assertEqual((own["Wheel-Version"], own["Root-Is-Purelib"], own["Tag"]), ("1.0", "true", "py3-none-any"))

    def test_the_version_is_that_of_the_release(self):
        changes = (FOLDER.parents[1] / "CHANGELOG.md").read_text()
        self.assertIn("\n## 0.1.0", changes)
        self.assertEqual(changes.partition("\n## ")[2].split(",")[0].split("\n")[0], "0.1.0")

    def test_the_same_sources_give_the_same_bytes(self):
        again = self.scratch / "again"
        again.mkdir()
        for hook in ("build_wheel", "build_sdist"):
            self.assertEqual(built(hook, self.scratch).read_bytes(), built(hook, again).read_bytes(), hook)

    def test_the_archive_of_sources_gives_the_same_wheel(self):
        path = built("build_sdist", self.scratch)
        self.assertEqual(path.name, "acpiset-0.1.0.tar.gz")
        with tarfile.open(path) as archive:
            names = {it.removeprefix("acpiset-0.1.0/") for it in archive.getnames()}
            self.assertEqual(names, {*PACKAGE, "pyproject.toml", "README.md", "PKG-INFO", "backend/wheel_builder.py"})
            for member in archive.getmembers():
                target = self.scratch / member.name
                target.parent.mkdir(parents=True, exist_ok=True)
                target.write_bytes(archive.extractfile(member).read())
        again = self.scratch / "again"
        again.mkdir()
        wheel = built("build_wheel", again, self.scratch / "acpiset-0.1.0")
        self.assertEqual(wheel.read_bytes(), built("build_wheel", self.scratch).read_bytes())

    @unittest.skipUnless(HAS_PIP, "no pip")
    def test_pip_installs_the_folder_without_the_network(self):
        place = self.scratch / "environment"
        subprocess.run([sys.executable, "-m", "venv", place], check=True, capture_output=True, timeout=600)
        variables = {name: value for name, value in os.environ.items() if not name.startswith(("PIP_", "PYTHON"))}
        variables["PYTHONDONTWRITEBYTECODE"] = "1"

        def run(*words):
            ended = subprocess.run(words, cwd=self.scratch, capture_output=True, text=True, timeout=600, env=variables)
            self.assertEqual(ended.returncode, 0, ended.stderr)
            return ended.stdout

        python = place / "bin" / "python"
        run(python, "-m", "pip", "install", "--quiet", "--no-index", FOLDER)
        told = run(python, "-c", "import acpiset; print(acpiset.__file__, acpiset.abi())").split()
        self.assertTrue(told[0].startswith(f"{place}/"), told)
        self.assertEqual(told[1], "1")
        self.assertIn("Version: 0.1.0", run(python, "-m", "pip", "show", "acpiset"))
        run(python, "-m", "pip", "check")
        run(python, "-m", "pip", "uninstall", "--quiet", "--yes", "acpiset")
        self.assertEqual(list(place.rglob("acpiset*")), [])


if __name__ == "__main__":
    unittest.main()
