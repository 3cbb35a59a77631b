"""What tests of tools/explain share: a copy of the tool, and cases that are counted."""

import os
import shutil
import subprocess
import sys

from acpi_images.program import FIRMWARE, TESTS, Cases

TOP = str(TESTS.parent)
IMAGES = str(FIRMWARE)


class Tests(Cases):
    def __init__(self, program, scratch):
        super().__init__(program)
        self.scratch = scratch
        self.tool = self.copy("whole", "tools", "explain", os.path.join("docs", "FAULTS.md"))
        os.symlink(program, os.path.join(scratch, "whole", "acpiset"))
        self.path = os.path.dirname(sys.executable) + ":/usr/bin:/bin"

    def copy(self, name, folder, tool, document):
        """A copy of the tool and what it needs, so that nothing else of the tree is found. Returns the tool's path."""
        top = os.path.join(self.scratch, name)
        for part in (folder, os.path.dirname(document)):
            os.makedirs(os.path.join(top, part), exist_ok=True)
        shutil.copy(os.path.join(TOP, "tools", "explain"), os.path.join(top, folder, tool))
        shutil.copy(os.path.join(TOP, "docs", "FAULTS.md"), os.path.join(top, document))
        if os.path.isdir(os.path.join(TOP, "share")):
            shutil.copytree(os.path.join(TOP, "share"), os.path.join(top, "share"), dirs_exist_ok=True)
        return os.path.join(top, folder, tool)

    def file(self, data):
        """A file with an image."""
        path = os.path.join(self.scratch, "image")
        with open(path, "wb") as file:
            file.write(data)
        return path

    def run(self, *words, text=b"", tool=None, **kept):
        kept.setdefault("stdout", subprocess.PIPE)
        environment = {**os.environ, "PATH": self.path}
        text = text if isinstance(text, bytes) else (text + "\n").encode()
        return subprocess.run([tool or self.tool, *words], input=text, stderr=subprocess.PIPE, env=environment, timeout=600, **kept)

    def says(self, line, texts, image=None, *words, without=(), tool=None):
        """Of this line explain says these texts, each a whole line or a part of one that begins with .., and none of others."""
        image = [] if image is None else [self.file(image) if isinstance(image, bytes) else os.path.join(IMAGES, image)]
        run = self.run(*words, *image, text=line, tool=tool)
        said = run.stdout.decode("latin-1")
        lines = said.split("\n")
        wrong = f"status {run.returncode}, {run.stderr.decode('latin-1')}" if run.returncode or run.stderr else ""
        for text in [texts] if isinstance(texts, str) else texts:
            if not (text[2:] in said if text.startswith("..") else text in lines):
                wrong += f"\nnot said: {text}"
        wrong += "".join(f"\nsaid: {text}" for text in without if text in said)
        self.count(f"{line} {' '.join(words)}", wrong and f"{wrong}\nbut: {said}")

    def refuses(self, status, told, *words, text=b"", **kept):
        """Explain ends with this status, writes nothing, and says this in one line or before its usage."""
        run = self.run(*words, text=text, **kept)
        said = run.stderr.decode("latin-1")
        is_right = run.returncode == status and not run.stdout and told in said and said.endswith("\n") and "Traceback" not in said
        self.count(f"{words} {text[:60]!r}", "" if is_right else f"status {run.returncode}, {said!r}, {run.stdout!r}, not {told}")
