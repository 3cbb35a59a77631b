"""The files of tests/tools/run.py: raw tables, and texts as acpidump prints them. The bytes come from tests/acpi_images/tables.py, and none
from the tools."""

import os

from acpi_images.tables import *
from acpi_images.text import text_of

FADT = full_fadt()
MADT = madt(lapic(0, 0), io_apic(0xFEC00000, 0), override(0, 2), lapic_nmi(255, 1))
HPET = hpet()
DSDT = table(b"DSDT", b"\x5b\x80")
EMPTY_DSDT = table(b"DSDT", b"", 2)
ROOT_AT = 0x100000
# The structures of a machine.
TABLES = [(0x7FE2000, FADT), (0x7FE3001, MADT), (0x7FE4000, HPET)]
COMPLETE = [(0xF59E0, extended_rsdp(0x7FE1000, 0)), (0x7FE1000, xsdt(*dict(TABLES))), *TABLES, (FACS_AT, facs())]


def wide_fadt(address):
    """A FADT whose X_FIRMWARE_CTRL wins over its FIRMWARE_CTRL."""
    return full_fadt(0x7000, 244, _132=number(address, 8))


def image_of_files(*tables, facs_at=FACS_AT):
    """What tables2image makes of these tables, in this order, and of the FACS, if it has an address."""
    places = [ROOT_AT + 0x1000 * (slot + 1) for slot in range(len(tables))]
    lock = {} if facs_at is None else {facs_at: facs()}
    return {RSDP_AT: extended_rsdp(ROOT_AT, 0), ROOT_AT: xsdt(*places), **dict(zip(places, tables)), **lock}


def image_of_one(data):
    """What tables2image makes of one table that is no FADT: it makes a FADT and an empty DSDT itself."""
    dsdt_at = ROOT_AT + 0x3000
    return {**image_of_files(data, fadt(_40=number(dsdt_at, 4)), facs_at=None), dsdt_at: EMPTY_DSDT}


def dump_of(pieces, width=16, margin=4, padded=True):
    """Text as acpidump prints it, of (address, bytes)."""
    lines = []
    for address, data in pieces:
        lines.append(f"{data[:4].decode()} @ 0x{address:0{width}X}")
        for at in range(0, len(data), 16):
            row = data[at : at + 16]
            drawn = "".join(chr(byte) if 32 <= byte < 127 else "." for byte in row)
            digits = row.hex(" ").upper()
            digits = digits.ljust(47) if padded else digits
            lines.append(f"{' ' * margin}{at:04X}: {digits}  {drawn}")
        lines.append("")
    return "".join(line + "\n" for line in lines).encode()


# What tables2image is given.
RAW = {
    "facp.dat": FADT, "apic.dat": MADT, "hpet.dat": HPET, "dsdt.dat": DSDT, "facs.dat": facs(), "facs2.dat": facs(), "rsdp.dat": rsdp(),
    "xsdt.dat": xsdt(0x2000), "wide.dat": wide_fadt(0x123456789ABC0), "last.dat": wide_fadt(2**64 - 64), "past.dat": wide_fadt(2**64 - 32),
    "first.dat": full_fadt(RSDP_AT), "second.dat": full_fadt(0x101000), "named.dat": full_fadt(0), "reduced.dat": fadt(),
    "longer.dat": MADT + b"\1\2\3", "cut.dat": MADT[:-1], "short.dat": HPET[:35], "huge.dat": HPET[:4] + b"\xff" * 4 + HPET[8:36],
    "empty.dat": b"", "zeros.dat": bytes(64), "packed.dat": b"\x1f\x8b\x08\x00" + bytes(60),
    "old.image": text_of(image_of_files(FADT, MADT, HPET)),
}


def dumps():
    """What acpidump2image is given."""
    _, root, *tables, lock = COMPLETE
    text = dump_of(COMPLETE)
    lines = text.splitlines(keepends=True)
    return {
        "whole.txt": text,
        "narrow.txt": dump_of(COMPLETE, width=8, margin=2, padded=False),
        "twice.txt": dump_of([*COMPLETE, tables[1]]),
        "changed.txt": dump_of([*COMPLETE, (0x7FE3001, MADT[:-1] + b"\0")]),
        "overlap.txt": dump_of([*COMPLETE, (0x7FE3010, HPET)]),
        "rootless.txt": dump_of([*tables, lock]),
        "pointerless.txt": dump_of([root, *tables, lock]),
        "rsdt.txt": dump_of([*tables, (root[0], rsdt(*dict(tables))), lock]),
        "zeros.txt": dump_of([(0, FADT), (0, MADT)]),
        "some.txt": dump_of([*COMPLETE, (0, HPET)]),
        "lost.txt": b"".join(lines[:2] + lines[3:]),
        "returns.txt": text.replace(b"\n", b"\r\n"),
        "utf16.txt": text.decode().encode("utf-16"),
    }


def write_into(folder):
    os.mkdir(f"{folder}/folder")
    for name, data in {**RAW, **dumps()}.items():
        with open(f"{folder}/{name}", "wb") as file:
            file.write(data)
