#!/usr/bin/env python3
"""Runs the built program on inputs that are no image text or have no RSDP: after the usual lines there is a hint on what they look
like, or none.

usage: hints.py PROGRAM; the last line is 'hints: N passed, M failed'."""

import gzip
import lzma
import os
import subprocess
import sys
import time
from pathlib import Path

sys.path.insert(0, str(Path(__file__).resolve().parents[1]))

from acpi_images.program import EMPTY, FIRMWARE, NO_RSDP, UNREADABLE, firmware_text, hinted, main
from acpi_images.tables import *
from acpi_images.text import text_of

TABLE = hinted("the input looks like a raw ACPI table: acpiset-tables2image FILE.. > image.txt makes image text of it and others")
DSDT = hinted("the input looks like a raw DSDT, in which nothing is checked: acpiset-tables2image FILE.. takes the other tables")
RSDP = hinted(
    "the input looks like a raw RSDP or a dump of memory: acpiset-tables2image and acpiset-memory2image make image text of such files"
)
ELF = hinted("the input is an ELF file: if it is a dump of memory, acpiset-memory2image FILE > image.txt makes image text of it")
GZIP = hinted("the input looks like gzip data: gzip -dc FILE | acpiset check")
XZ = hinted("the input looks like xz data: xz -dc FILE | acpiset check")
ZSTD = hinted("the input looks like zstd data: zstd -dc FILE | acpiset check")
ACPIDUMP = hinted("the input looks like text of acpidump: acpiset-acpidump2image FILE > image.txt makes image text of it")
UTF_16 = hinted("the input looks like UTF-16: iconv -f UTF-16 -t ASCII FILE | acpiset check")
MARK = hinted("the input begins with a byte order mark: tail -c +4 FILE | acpiset check")
BINARY = hinted("the input is no text: acpiset-memory2image makes image text of a dump of memory, acpiset-tables2image of raw tables")
NONE = ""

BAD = "line 1: bad line"
IMAGE = firmware_text("sb-q35-default")
TITLE = b" @ 0x00000000BFFE1234\n"
# Inputs that are refused, what is said of them, and the hint.
REFUSED = [
    ("a raw MADT", madt(lapic(0, 0)), BAD, TABLE), ("a raw FADT", full_fadt(), BAD, TABLE), ("a raw RSDT", rsdt(), BAD, TABLE),
    ("a raw FACS", facs(), BAD, TABLE), ("a table of 36 bytes", b"OEM1\x24\0\0\0" + bytes(28), BAD, TABLE),
    ("a table of 256 bytes", b"APIC\0\1\0\0" + bytes(248), BAD, TABLE), ("a table of 64 KiB", b"X_Y!\0\0\1\0", BAD, TABLE),
    ("a raw DSDT", b"DSDT\x24\0\0\0" + bytes(28), BAD, DSDT), ("a Length of 35", b"APIC\x23\0\0\0" + bytes(28), BAD, BINARY),
    ("a Length of 16 MiB", b"APIC\0\0\0\1" + bytes(28), BAD, BINARY), ("a signature in lower case", b"apic\x24\0\0\0", BAD, BINARY),
    ("a signature that is cut", b"APIC\x24\0\0", BAD, BINARY), ("zeros", bytes(70000), "too long", BINARY), ("a raw RSDP", rsdp(), BAD, RSDP),
    ("a dump of memory", rsdp() + bytes(4076), BAD, RSDP), ("an ELF file", b"\x7fELF\2\1\1" + bytes(60), BAD, ELF),
    ("gzip data", gzip.compress(IMAGE), None, GZIP), ("xz data", lzma.compress(IMAGE), None, XZ),
    ("zstd data", b"\x28\xb5\x2f\xfd\x04\x00\x01\x00\x00", BAD, ZSTD),
    ("text of acpidump", (FIRMWARE / "example.acpidump.txt").read_bytes(), BAD, ACPIDUMP),
    ("a title of acpidump", b"APIC" + TITLE, BAD, ACPIDUMP), ("the RSDP's title", b"RSD PTR" + TITLE, BAD, ACPIDUMP),
    ("a title with a comment's sign", b"#APIC" + TITLE + b"g", "line 2: bad line", NONE), ("another title", b"image" + TITLE, BAD, NONE),
    ("UTF-16, the lower byte first", b"\xff\xfe" + IMAGE.decode().encode("utf-16-le"), BAD, UTF_16),
    ("UTF-16, the upper byte first", b"\xfe\xff" + IMAGE.decode().encode("utf-16-be"), BAD, UTF_16),
    ("UTF-32, the lowest byte first", b"\xff\xfe\0\0" + IMAGE.decode().encode("utf-32-le"), BAD, BINARY),
    ("UTF-32, the highest byte first", b"\0\0\xfe\xff" + IMAGE.decode().encode("utf-32-be"), BAD, BINARY),
    ("bytes ff and fe", b"\xff\xfe\x01\x02", BAD, NONE), ("a byte order mark", b"\xef\xbb\xbf" + IMAGE, BAD, MARK),
    ("another text", b"yes\n", BAD, NONE), ("a bad line after good ones", IMAGE + b"0g\n", None, NONE),
    ("no address", b"52 53\n", "line 1: no address", NONE),
]
# Titles of acpidump, and lines that are almost such a title.
REFUSED += [(f"the title {title}", title.encode() + b"\n", BAD, ACPIDUMP) for title in (
    "FACP @ 0xBFFE1234", "FACP @ 0x9", "FACP @ 0xbffe1234", "SSD2 @ 0x00000000BFFE1234", "0_Y! @ 0x1", "BGR @ 0x1", "RSD PTR @ 0x000F59E0",
)]
REFUSED += [(f"the line {line}", line.encode() + b"\n", BAD, NONE) for line in (
    "facp @ 0xBFFE1234", "FACp @ 0xBFFE1234", "FACP @ 0XBFFE1234", "FACP @ 1xBFFE1234", "FACP @ BFFE1234", "FACP  @ 0xBFFE1234",
    "FA @ 0xBFFE1234", "FACPS @ 0xBFFE1234", "rsd ptr @ 0x000F59E0", "RSD PTX @ 0x000F59E0", "RSD-PTR @ 0x000F59E0",
)]
# Bytes that are almost the first ones of such a file: the last of them is another one.
REFUSED += [(f"the bytes {data[:8]!r}", data, BAD, NONE) for data in (
    b"\x1f\x8b\x09\x01\x01\x01", b"\xfd7zXZ\x01\x01", b"\x28\xb5\x2f\xfc\x04", b"\xef\xbb\xbe5", b"\x7fELG\2\1\1", b"RSD PTR!\1",
)]
# Inputs that are read, the arguments, the output, and the hint.
READ = [
    ("nothing", b"", "check", "no rsdp\n", EMPTY), ("blanks", b" \t\r\n\n", "check", "no rsdp\n", EMPTY),
    ("63 line feeds", b"\n" * 63, "lint", "no rsdp\n", EMPTY), ("64 line feeds", b"\n" * 64, "lint", "no rsdp\n", NO_RSDP),
    ("a comment", b"# rsdp 0x0\n", "show", "no rsdp\n", NO_RSDP), ("an image of UEFI", firmware_text("ovmf-q35"), "check", "no rsdp\n", NO_RSDP),
    ("an image of UEFI to rebuild", firmware_text("ovmf-q35"), "rebuild --base 0", "no rsdp\n", NO_RSDP),
    ("nothing to show anyway", b"", "show --anyway", "no rsdp\n", EMPTY), ("nothing to confirm", b"", "confirm --witness", "no rsdp\n", EMPTY),
    ("nothing at an address", b"", "check --rsdp 0", "no 1 RsdpOut 0x0 0x0 0x0\n", NONE), ("nothing to find", b"", "find", "rsdp none\n", NONE),
    ("an image of UEFI to find", firmware_text("ovmf-q35"), "find", "rsdp none\n", NONE), ("an image", IMAGE, "check", "yes\n", NONE),
]
COMMANDS = ["check"], ["lint"], ["show"], ["find"], ["rebuild", "--base", "0"], ["confirm", "--witness", "4 NoFadt 0x0 0x0 0x0"]


def refused(cases):
    """Each command says the same, whether its arguments name an RSDP or not."""
    for name, data, message, hint in REFUSED:
        for words in COMMANDS:
            status, out, err = run(cases, words, data)
            first, _, rest = err.partition("\n")
            is_told = first == f"acpiset: {message}" if message else first.startswith("acpiset: line ")
            cases.count(f"{name}, {words[0]}", "" if (status, out, is_told, rest) == (3, "", True, hint) else f"{status} {out}{err}")


def run(cases, words, data):
    told = subprocess.run([cases.program, *words], input=data, capture_output=True, timeout=600)
    return told.returncode, told.stdout.decode(), told.stderr.decode()


def in_pieces(cases):
    """A table whose bytes come one at a time."""
    run = subprocess.Popen([cases.program, "check"], stdin=subprocess.PIPE, stdout=subprocess.PIPE, stderr=subprocess.PIPE)
    for byte in madt():
        run.stdin.write(bytes([byte]))
        run.stdin.flush()
        time.sleep(0.005)
    out, err = run.communicate(timeout=600)
    cases.same("a raw MADT, byte by byte", (run.returncode, out, err.decode()), (3, b"", f"acpiset: {BAD}\n{TABLE}"))


def read(cases):
    for name, data, line, out, hint in READ:
        words = [*line.split(), *["4 NoFadt 0x0 0x0 0x0"] * line.endswith("--witness")]
        cases.same(f"{name}, {line}", run(cases, words, data), (int(out != "yes\n"), out, hint))


def failed(cases):
    """A read that fails has a hint, and a write that fails, or a text that was not asked for, has none."""
    folder = os.open(FIRMWARE, os.O_RDONLY)
    full = os.open("/dev/full", os.O_WRONLY)
    for words in COMMANDS:
        told = subprocess.run([cases.program, *words], stdin=folder, capture_output=True, timeout=600)
        cases.same(f"a folder, {words[0]}", (told.returncode, told.stdout, told.stderr.decode()), (4, b"", f"acpiset: device\n{UNREADABLE}"))
        told = subprocess.run([cases.program, *words], input=text_of({}), stdout=full, stderr=subprocess.PIPE, timeout=600)
        cases.same(f"a full device, {words[0]}", (told.returncode, told.stderr), (4, b"acpiset: device\n"))
    for words in (["help"], ["version"], ["--help"], ["chek"]):
        told = subprocess.run([cases.program, *words], stdin=folder, capture_output=True, timeout=600)
        cases.count(f"a folder, {words[0]}", "hint:" in told.stderr.decode() and told.stderr.decode())
    os.close(folder)
    os.close(full)


main("hints", refused, in_pieces, read, failed)
