"""Image text, from what a user has: image text itself, or what one of the other tools makes image text of."""

import os
import re
import subprocess
import sys
from typing import NamedTuple, Optional

from explain import image as image_text
from explain.forms import LOOKED_AT, WHAT, is_image_text, lines_in, to_change, tool_for
from explain.refusal import BAD_INPUT, FAILED, Refusal, printable

RSDP_TOLD = re.compile(r"check it with --rsdp ([0-9a-f]+)$", re.M)


class Text(NamedTuple):
    """Image text, the address of the RSDP if a tool has told it, and what was made of what."""

    data: bytes
    rsdp: Optional[int] = None
    notes: tuple = ()


def of_files(paths, rsdp, folder: str, prefix: str) -> Text:
    """The image text of files, or of standard input for `-`."""
    if paths == ["-"]:
        text = read_all(0, "standard input")
        if tool_for(text[:LOOKED_AT], len(text)) is not None:
            raise Refusal(BAD_INPUT, "standard input is no image text: give the file instead of -")
        return Text(text)
    if len(paths) > 1:
        refuse_several(paths)
        return made_by("tables2image", paths, rsdp, folder, prefix)
    name = printable(paths[0])
    with opened(paths[0]) as file:
        is_pipe = not file.seekable()
        text = read_all(file.fileno(), name) if is_pipe else b""
        head = text[:LOOKED_AT] if is_pipe else file.read(LOOKED_AT)
        tool = tool_for(head, len(text) if is_pipe else os.fstat(file.fileno()).st_size)
        if lines := lines_in(head):
            raise Refusal(BAD_INPUT, f"{name}: {lines}: give them on standard input, as in < {name}")
        if change := to_change(head, prefix):
            raise Refusal(BAD_INPUT, f"{name}: {change}")
        if tool is None and not is_pipe:
            file.seek(0)
            text = read_all(file.fileno(), name)
    if tool is None:
        return Text(text)
    if is_pipe:
        raise Refusal(BAD_INPUT, f"{name}: {WHAT[tool]} in a pipe: give it as a file")
    return made_by(tool, paths, rsdp, folder, prefix)


def refuse_several(paths):
    """Refuses several files if one of them is a text; tables2image says what is wrong with one that cannot be read."""
    for path in (path for path in paths if os.path.isfile(path) and os.access(path, os.R_OK)):
        with opened(path) as file:
            head = file.read(LOOKED_AT)
        is_dumped = tool_for(head, len(head)) == "acpidump2image"
        if is_dumped or is_image_text(head):
            what = WHAT["acpidump2image"] if is_dumped else "image text"
            raise Refusal(BAD_INPUT, f"{printable(path)}: {what}: give one such file at a time")


def opened(path):
    try:
        return open(path, "rb")
    except IsADirectoryError:
        raise Refusal(BAD_INPUT, f"{printable(path)}: a directory: give the files in it, as {printable(path)}/*") from None
    except (OSError, ValueError) as error:
        raise Refusal(BAD_INPUT, f"{printable(path)}: cannot be read: {getattr(error, 'strerror', error)}") from None


def read_all(file: int, name: str) -> bytes:
    """All bytes of a descriptor, and one more than acpiset takes if there are more."""
    data = bytearray()
    try:
        while part := os.read(file, min(1 << 20, image_text.LARGEST_TEXT + 1 - len(data))):
            data += part
    except OSError as error:
        raise Refusal(FAILED, f"{name}: {error.strerror}") from None
    return bytes(data)


def made_by(tool: str, paths, rsdp, folder: str, prefix: str) -> Text:
    """The image text that a tool makes of files. A name without its prefix may be another program's where it is installed."""
    own = os.path.join(folder, prefix + tool)
    if not os.path.exists(own):
        raise Refusal(FAILED, f"{tool} is not beside this tool: copy both")
    words = ["--rsdp", f"{rsdp:x}"] if tool == "memory2image" and rsdp is not None else []
    files = [path if not path.startswith("-") else os.path.join(".", path) for path in paths]
    run = subprocess.run([sys.executable, own, *words, *files], stdin=subprocess.DEVNULL, capture_output=True, check=False)
    told = run.stderr.decode("ascii", "replace")
    if run.returncode:
        status = FAILED if run.returncode == FAILED else BAD_INPUT
        raise Refusal(status, (told.strip().splitlines() or [f"{tool} ended with status {run.returncode}"])[-1])
    found = RSDP_TOLD.search(told)
    note = f"{WHAT[tool]}, made into image text by {tool}"
    return Text(run.stdout, int(found[1], 16) if found else None, (note, *told.strip().splitlines()))
