"""Why explain ends without an answer, and texts of others as a terminal may get them."""

import os

# The exit statuses.
BAD_INPUT = 1
BAD_ARGUMENTS = 2
FAILED = 4

MOST_SHOWN = 200


class Refusal(Exception):
    """Why nothing, or nothing more, is printed, and the exit status that says so."""

    def __init__(self, status, text):
        super().__init__(text)
        self.status = status


def printable(text):
    """A file's or an argument's text without control characters: what is not printable ASCII is escaped, and the rest is cut."""
    data = text if isinstance(text, bytes) else os.fsencode(text)
    shown = "".join(chr(byte) if 0x20 <= byte <= 0x7E else f"\\x{byte:02x}" for byte in data[:MOST_SHOWN])
    return shown + ".." * (len(data) > MOST_SHOWN)


def signature_of(data):
    """A table's signature, as `show` writes it."""
    return "".join(chr(byte) if 0x20 <= byte <= 0x7E else "." for byte in data[:4])
