"""Images of the repository's tests/images, as pieces that a test can change."""

from pathlib import Path

IMAGES = Path(__file__).resolve().parents[3] / "tests" / "images"

RSDP = 0xE0000
MADT = 0x3000
SRAT = 0x4000
SLIT = 0x5000

# The images of firmware, each with the address of its RSDP and what `check` says of it.
FIRMWARE = {
    "sb-q35-default": (0xF59E0, "yes"),
    "sb-q35-numa4-dist": (0xF59C0, "yes"),
    "sb-pc-nvdimm-numa": (0xF59D0, "10 Overlap 0x90 0xb8 0x100000000"),
    "ovmf-q35": (0xF77E014, "yes"),
    "mv-acpi": (0xF4A10, "yes"),
    "q10-efi-virt-smp4": (0x4F0B0018, "yes"),
    "q11-efi-virt-caches": (0x47FE0000, "yes"),
    "sb-q35-hmat": (0xF5990, "yes"),
    "sb-q35-intel-iommu": (0xF59E0, "yes"),
    "sb-q35-amd-iommu": (0xF59E0, "yes"),
    "q102-virt-smmuv3": (0xF5AC0, "yes"),
}


def text(name):
    return (IMAGES / f"{name}.img.txt").read_text()


class Image:
    """Pieces by their addresses. Each line of a text with an address begins one, but where the one before it ends there."""

    def __init__(self, content):
        self.parts = {}
        address = None
        for line in content.splitlines():
            row = line.partition("#")[0].strip()
            if row.startswith("@"):
                start = int(row[1:], 16)
                if address is None or address + len(self.parts[address]) != start:
                    address = start
                    self.parts[address] = bytearray()
            elif row:
                self.parts[address] += bytes.fromhex(row)

    @classmethod
    def named(cls, name):
        return cls(text(name))

    def pieces(self):
        return list(self.parts.items())

    def set(self, at, new):
        """Puts bytes in place of those that are there."""
        address = max(it for it in self.parts if it <= at)
        part = self.parts[address]
        assert at - address + len(new) <= len(part)
        part[at - address : at - address + len(new)] = new

    def fix_sum(self, address):
        """Makes the table that is the piece at this address sum to 0."""
        table = self.parts[address]
        table[9] = (table[9] - sum(table)) % 256


def example():
    """The set of tests/images that passes all stages."""
    return Image.named("example")


def mistakes():
    """The example with five mistakes: the SLIT's checksum; locality 0's distance to itself, and to locality 1 another one than back; two
    processors with one APIC ID; a memory range of node 1 that overlaps that of node 0."""
    image = example()
    image.set(SLIT + 44, [11, 30])
    image.set(MADT + 55, [0])
    image.set(SRAT + 128, [0, 0, 0, 0x40, 0, 0, 0, 0])
    image.fix_sum(MADT)
    image.fix_sum(SRAT)
    return image
