"""The examples in the docstrings and in README."""

import doctest
import importlib
import re
import unittest
from pathlib import Path

import acpiset

PACKAGE = Path(acpiset.__file__).parent
README = Path(__file__).resolve().parents[1] / "README.md"


class Examples(unittest.TestCase):
    def test_docstrings(self):
        tried = 0
        for path in sorted(PACKAGE.glob("*.py")):
            name = "acpiset" if path.stem == "__init__" else f"acpiset.{path.stem}"
            with self.subTest(name):
                told = doctest.testmod(importlib.import_module(name))
                self.assertEqual(told.failed, 0)
                tried += told.attempted
        self.assertGreater(tried, 20)

    def test_each_call_has_an_example(self):
        for name in ("check", "check_text", "confirm", "lint", "find", "pieces_of_text", "image_text"):
            self.assertIn(">>>", getattr(acpiset, name).__doc__, name)

    def test_all_that_is_exported_is_documented(self):
        for name in acpiset.__all__:
            self.assertTrue(name == "ABI" or getattr(acpiset, name).__doc__, name)

    def test_readme(self):
        code = re.search(r"^```python\n(.*?)^```", README.read_text(), re.M | re.S)[1]
        example = doctest.DocTestParser().get_doctest(code, {}, "README", str(README), 0)
        self.assertEqual(doctest.DocTestRunner().run(example).failed, 0)


if __name__ == "__main__":
    unittest.main()
