"""Tests of ACPI tables for pytest, as a virtual machine monitor written in Python, or the tests of another one, would have them: they
build the tables of a guest in memory, and have them checked.

    pip install --no-index bindings/python
    pytest examples/test_guest_tables.py"""

from dataclasses import dataclass, replace

from acpiset import Code, Fault, Settings, check, confirm, lint

RSDP_AT = 0xE0000
DSDT_AT = 0xE0800
TABLES_AT = 0xE1000
IO_APIC = 0xFEC00000
GIB = 1 << 30

# ---- the code under test. Sections are those of the ACPI Specification 6.5.


@dataclass(frozen=True)
class Machine:
    """A machine with processors in two NUMA nodes, and memory below and above 4 GiB, in bytes."""

    processors: int = 4
    low_memory: int = 3 * GIB
    high_memory: int = 2 * GIB
    distance: int = 20


def number(value, size):
    """A little-endian number of this many bytes."""
    return value.to_bytes(size, "little")


def summed(data, at):
    """The bytes with the one at this offset set so that all sum to 0 modulo 256."""
    return data[:at] + number(-(sum(data) - data[at]) % 256, 1) + data[at + 1 :]


def table(signature, revision, body):
    """A header (5.2.6) and a body."""
    head = signature + number(36 + len(body), 4) + bytes([revision, 0])
    return summed(head + b"VMM   TESTVM  " + number(1, 4) + b"VMM " + number(1, 4) + body, 9)


def rsdp(xsdt):
    """An RSDP of revision 2 (5.2.5.3)."""
    first = summed(b"RSD PTR \0VMM   \2" + number(0, 4), 8)
    return summed(first + number(36, 4) + number(xsdt, 8) + bytes(4), 32)


def fadt():
    """A FADT of hardware-reduced ACPI (5.2.9) that names a DSDT."""
    body = bytearray(276 - 36)
    body[112 - 36 : 116 - 36] = number(1 << 20, 4)
    body[140 - 36 : 148 - 36] = number(DSDT_AT, 8)
    return table(b"FACP", 6, bytes(body))


def madt(machine):
    """A MADT (5.2.12) with a local APIC for each processor and one I/O APIC."""
    local = [bytes([0, 8, processor, processor, 1, 0, 0, 0]) for processor in range(machine.processors)]
    io_apic = bytes([1, 12, 0, 0]) + number(IO_APIC, 4) + number(0, 4)
    return table(b"APIC", 5, number(0xFEE00000, 4) + number(0, 4) + b"".join(local) + io_apic)


def srat(machine):
    """An SRAT (5.2.16): the first half of the processors and the low memory are node 0, all else is node 1."""
    entries = [
        bytes([0, 16, processor >= machine.processors // 2, processor, 1, 0, 0, 0]) + bytes(8) for processor in range(machine.processors)
    ]
    for node, base, length in ((0, 0, machine.low_memory), (1, 4 * GIB, machine.high_memory)):
        entries.append(bytes([1, 40, node, 0, 0, 0, 0, 0]) + number(base, 8) + number(length, 8) + number(1 << 32, 8) + bytes(8))
    return table(b"SRAT", 3, number(1, 4) + bytes(8) + b"".join(entries))


def slit(machine):
    """A SLIT (5.2.17) of two nodes."""
    return table(b"SLIT", 1, number(2, 8) + bytes([10, machine.distance, machine.distance, 10]))


def acpi_tables(machine):
    """What the monitor writes into the guest's memory, each with its address: the DSDT, which has no code; the other tables one after
    another; then the XSDT, and the RSDP where a BIOS puts it."""
    writes, slots, address = [(DSDT_AT, table(b"DSDT", 2, b""))], [], TABLES_AT
    for data in (fadt(), madt(machine), srat(machine), slit(machine)):
        writes.append((address, data))
        slots.append(number(address, 8))
        address = (address + len(data) + 15) & ~15
    return [*writes, (address, table(b"XSDT", 1, b"".join(slots))), (RSDP_AT, rsdp(address))]


# ---- the tests

SETTINGS = Settings(RSDP_AT)


def assert_clean(machine):
    """Fails with the line of each finding, and what it means. To see the set as a page, write `acpiset.image_text(acpi_tables(machine))`
    to a file, and run `acpiset-report --format html` on it."""
    found = lint(acpi_tables(machine), SETTINGS)
    wrong = [*found.faults, *found.advice]
    assert not wrong, "\n\n".join(f"{it}\n{it.text}" for it in wrong)


def test_the_tables_are_clean():
    assert_clean(Machine())


def test_so_they_are_with_other_numbers_of_processors():
    for processors in (1, 2, 3, 254):
        assert_clean(Machine(processors=processors))


def test_memory_that_is_too_large_overlaps():
    """Memory below 4 GiB may not reach into that above."""
    wrong, right = acpi_tables(Machine(low_memory=5 * GIB)), acpi_tables(Machine())
    fault = check(wrong, SETTINGS)
    assert fault is not None and str(fault) == "10 Overlap 0x70 0x98 0x100000000"
    assert confirm(wrong, SETTINGS, fault)
    assert not confirm(right, SETTINGS, fault)


def test_each_byte_counts():
    """With any byte of any table but the DSDT changed a checksum is wrong."""
    writes = acpi_tables(Machine())
    for own, (address, data) in enumerate(writes[1:], 1):
        for at in range(len(data)):
            changed = data[:at] + bytes([data[at] ^ 1]) + data[at + 1 :]
            assert check([*writes[:own], (address, changed), *writes[own + 1 :]], SETTINGS), f"byte {at} of the piece at {address:#x}"


def test_distances_are_at_least_10():
    """A distance below 10 is none (5.2.17)."""
    found = lint(acpi_tables(replace(Machine(), distance=9)), SETTINGS)
    assert found.faults == (Fault(Code.SlitLow, 0x2D),)
