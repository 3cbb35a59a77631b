"""What a file is, by how it begins: image text, or what one of the tools makes image text of."""

import re
from typing import Optional

LOOKED_AT = 1 << 16
LARGEST_TABLE = 20_000_000
IMAGE_TEXT = re.compile(rb"(?:[ \t]*(?:#[^\n]*|\r)?\n)*[ \t]*@[0-9A-Fa-f]{1,16}[ \t\r]*(?:#[^\n]*)?(?:\n|\Z)")
TITLE_OF_DUMP = re.compile(rb"^[A-Z0-9_!]{3,4}(?: PTR)? @ 0[xX][0-9A-Fa-f]+[ \t\r]*$", re.M)
SIGNATURE = re.compile(rb"RSD PTR |[A-Z0-9_!]{4}")
LINES = re.compile(
    rb"(?:yes|true|false|no rsdp|rsdp (?:none|0x[0-9a-f]+)|(?:no [1-9][0-9]?|advice) [A-Z][A-Za-z0-9]* 0x.*)\r?(?:\n|\Z)"
)
LINES_OF_SHOW = re.compile(rb"rsdp 0x[0-9a-f]+ revision [0-9]")
WIDE = re.compile(rb"\xff\xfe[\t\n\r -~]\0|\xfe\xff\0[\t\n\r -~]")
SOURCE = re.compile(rb'(?:[^\n\0]*\n)*?(?:\[[^\]\n\0]{4,20}\])?[ \t]*(?:Signature : "|DefinitionBlock[ \t]*\()')
NO_TEXT = re.compile(rb"[^\t\n\r -~\x80-\xff]")
WHAT = {"tables2image": "raw tables", "acpidump2image": "text of acpidump", "memory2image": "a dump of memory"}


def is_image_text(head: bytes) -> bool:
    return IMAGE_TEXT.match(head) is not None


def lines_in(head: bytes) -> Optional[str]:
    """What a file with lines of acpiset has; None of another one."""
    return "lines of acpiset" if LINES.match(head) else "lines of acpiset show" if LINES_OF_SHOW.match(head) else None


def to_change(head: bytes, prefix: str) -> Optional[str]:
    """What a text is of which a tool makes image text once it is changed, and how; None of another file."""
    if WIDE.match(head):
        return "text of 16 bits a character: make it plain with iconv -f UTF-16 -t ASCII"
    if not is_image_text(head) and SOURCE.match(head):
        return f"source of iasl: compile it with iasl, and give the .aml file to {prefix}tables2image"
    return None


def tool_for(head: bytes, size: int) -> Optional[str]:
    """The tool that makes image text of a file that begins like this; None if it is image text, or another text."""
    if is_image_text(head):
        return None
    if head[:4] == b"\x7fELF":
        return "memory2image"
    if not NO_TEXT.search(head):
        return "acpidump2image" if TITLE_OF_DUMP.search(head) else None
    is_table = SIGNATURE.match(head) and size <= LARGEST_TABLE and (head[:8] == b"RSD PTR " or is_length(head, size))
    return "tables2image" if is_table else "memory2image"


def is_length(head: bytes, size: int) -> bool:
    """Whether a file is as long as a table that it begins with, or nearly: tables2image says so of one that is not."""
    length = int.from_bytes(head[4:8], "little")
    return 36 <= length and abs(length - size) <= 4096
