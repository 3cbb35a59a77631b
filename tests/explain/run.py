#!/usr/bin/env python3
"""Runs tools/explain on lines of acpiset and on images. What it has to say was worked out by hand from the bytes of each set; what
it shows of structures is compared with `acpiset show` too, a program that shares no code with it.

usage: run.py PROGRAM; the last line is 'explain: N passed, M failed'."""

import os
import re
import subprocess
import sys
import tempfile
from pathlib import Path

sys.path.insert(0, str(Path(__file__).resolve().parents[1]))

import further
import further_tables
import iommus
import sets
from acpi_images.program import IMAGES as FIRMWARE_AT, finish
from explained import IMAGES, TOP, Tests

OVERLAP = "no 10 Overlap 0x90 0xb8 0x100000000"
DOUBT = "acpiset confirm answers false: the image does not have this fault. Is this the image that the line is of?"
MISMATCH = "s this the image that the line is of?"


def lines_without_image(tests):
    for line in ("yes\n", "yes", "yes\r\n"):
        tests.says(line.encode(), ["yes", "..the image passes every stage"], without=["In the image"])
    for line in ("no rsdp", "rsdp none", "rsdp 0xf59e0"):
        tests.says(line, [line, "..--rsdp"])
    tests.says("yes\nadvice ListedTwice 0x3 0x2 0x47fc198e", ["..the image passes every stage", "101 ListedTwice"])
    tests.says("10 Overlap 0x90 0xb8 0x100000000", [OVERLAP, "45 Overlap", "..Example"])
    with open(os.path.join(TOP, "docs", "FAULTS.md"), encoding="utf-8") as file:
        document = file.read()
    stage, lines, titles = "", [], []
    sys.path.insert(0, os.path.join(TOP, "share", "acpiset"))
    from explain.document import Document

    parts = Document([os.path.join(TOP, "docs", "FAULTS.md")])
    for stage_number, code, name in re.findall(r"^## Stage (\d+)|^### (\d+) (\w+)$", document, re.M):
        stage = stage_number or stage
        if code:
            titles.append(f"{code} {name}")
            lines.append(f"no {stage} {name} 0x0 0x0 0x0" if int(code) < 100 else f"advice {name} 0x0 0x0 0x0")
            found = [part and part.title for part in map(parts.named, (code, name))]
            tests.count(titles[-1], "" if found == 2 * [titles[-1]] else f"the parts {found}")
    tests.count("parts of faults and of rules", "" if len(titles) == len(parts.codes) > 0 else f"{len(titles)}")
    tests.says("\n".join(lines), lines + titles)
    lower = [part and part.title for part in map(parts.named, (title.partition(" ")[2].lower() for title in titles))]
    tests.same("names in lower case", lower, titles)
    for words in ("no 10 Overlap 0x90 0xb8 0x100000000", "10 Overlap 0x90 0xb8 0x100000000"):
        tests.says(b"", [OVERLAP, "45 Overlap"], None, *words.split())
    tests.says(b"", ["..its RSDP is at 0xf77e014: acpiset check --rsdp 0xf77e014 < IMAGE"], "ovmf-q35.img.txt", "no", "rsdp")
    tests.says(b"", ["both cover 0x100000000 to 0x107ffffff"], "sb-pc-nvdimm-numa.img.txt", *OVERLAP.split(), "--rsdp", "f59d0")
    tests.says(b"", "101 ListedTwice", None, *"advice ListedTwice 0x3 0x2 0x47fc198e".split())
    for word, title in (
        ("43", "43 SratEntryLength"), ("Overlap", "45 Overlap"), ("overlap", "45 Overlap"), ("128", "128 SratUnread"), ("NoLeaf", "125 NoLeaf"),
        ("184", "184 PpttReserved"), ("NoDsdt", "132 NoDsdt"),
    ):
        tests.says(b"", [title, "..- Example: "], None, word)


# Lines of advice, and the sentence on each: with numbers in hexadecimal and in decimal, a signature, and one of several sentences.
SENTENCES = [
    ("TimerLevel 0x54 0x0 0xd", "The override at 0x54 of the MADT, of ISA interrupt 0, the timer, is level-triggered: its Flags are 0xd."),
    ("FadtOfRevision 0x4 0xf4 0x114", "The FADT's Length, at 0x4, is 244, and its Revision needs 276 bytes."),
    ("SameHart 0x96 0x82 0xffffffffffffffff", "The usable hart at 0x96 of the MADT has the ID 18446744073709551615, as the one at 0x82 does."),
    ("NoProcessor 0x0 0x0 0x0", "No processor of the MADT is usable."),
    ("RsdtDiffers 0x10 0x0 0x54545050", "..list different numbers of tables with the signature PPTT."),
    ("RsdtDiffers 0x10 0x0 0x54545009", "..list different numbers of tables with the signature 0x54545009."),
    ("RsdtDiffers 0x10 0x0 0xe9e9e9e9", "..list different numbers of tables with the signature 0xe9e9e9e9."),
    ("NoPm1Block 0x38 0x0 0x0", "PM1a_EVT_BLK, at 0x38 of the FADT, has no address."),
    ("NoPm1Block 0x40 0x0 0x0", "PM1a_CNT_BLK, at 0x40 of the FADT, has no address."),
    ("HalfBlock 0x50 0x0 0x620", "The register block at 0x50 of the FADT has the address 0x620, and the length 0."),
    ("HalfBlock 0x50 0x4 0x0", "The register block at 0x50 of the FADT has the length 4, and no address."),
    ("SmiHalf 0x30 0x35 0x0", "SMI_CMD, at 0x30 of the FADT, is 0, and the command at 0x35 is not."),
    ("SmiHalf 0x30 0x34 0xb2", "SMI_CMD, at 0x30 of the FADT, is 0xb2, and ACPI_ENABLE, at 0x34, is the same as ACPI_DISABLE."),
    ("FadtForArch 0x70 0x0 0x0", "..Flags, at 0x70 of the FADT, do not say that the hardware is reduced."),
    ("FadtForArch 0x8 0x5 0x0", "The MADT is of Arm, and the FADT, of version 5.0, is older than 5.1."),
    ("SleepRegister 0x100 0x0 0x0", "The sleep register at 0x100 of the FADT has no address, or the bit width 0."),
    ("SleepRegister 0xf4 0x10 0x1", "The sleep register at 0xf4 of the FADT has the bit width 16 and the bit offset 1, not 8 and 0."),
    ("MadtReserved 0x28 0x0 0x3", "Flags, at 0x28 of the MADT, are 0x3, in which a reserved bit is set."),
    ("MadtReserved 0x3c 0x3 0x0", "The structure at 0x3c of the MADT has a reserved value at its offset 3."),
    ("SratReserved 0x24 0x0 0x2", "The number at 0x24 of the SRAT is 0x2, not 1."),
    ("SratReserved 0x30 0x4 0x0", "The structure at 0x30 of the SRAT has a reserved value at its offset 4."),
    ("RootHeader 0x8 0x0 0x2", "The Revision of the root table, at 0x8, is 2, not 1."),
    ("RootHeader 0x1c 0x0 0x41004141", "The text at 0x1c of the root table, 0x41004141 as a number, has a byte that is not printable."),
    ("FadtPastRevision 0x8 0x0 0x0", "The FADT's Revision, at 0x8, is 0."),
    ("FadtPastRevision 0x4 0xf4 0x10c", "The FADT's Length, at 0x4, is 268, and a FADT of its Revision has at most 244 bytes."),
    ("SmiHandshake 0x35 0x0 0x0", "ACPI_DISABLE, at 0x35 of the FADT, is 0, and SMI_CMD and ACPI_ENABLE are not."),
    ("S4BiosDiffers 0x36 0x0 0x0", "S4BIOS_REQ, at 0x36 of the FADT, is 0, and S4BIOS_F of the FACS is set."),
    ("S4BiosDiffers 0x36 0x0 0x5", "S4BIOS_REQ, at 0x36 of the FADT, is 0x5, and S4BIOS_F of the FACS is clear."),
    ("GpePastEnd 0x5c 0x0 0x42", "GPE0_BLK_LEN, at 0x5c of the FADT, is 66, which gives events above 255."),
    ("GiccNoPpi 0x90 0x50 0x20", "..has the trace buffer interrupt 32, which is not private to a processor."),
    ("WakeupMailbox 0x2c 0x18 0x10", "The wakeup structure at 0x2c of the MADT has 16 bytes, and one of its version has 24."),
    ("WakeupMailbox 0x2c 0x8 0x1001", "..has the mailbox address 0x1001, which is 0 or no multiple of 4096."),
    ("McfgLength 0x4 0x5c 0x50", "..is 80, not 44 plus 16 for each of one or more entries: the next such length is 92."),
    ("EcamAddress 0x3c 0x0 0x0", "The entry at 0x3c of the MCFG has the base address 0."),
    ("EcamAddress 0x3c 0x0 0x80000", "The entry at 0x3c of the MCFG has the base address 0x80000, which is no multiple of 1 MiB."),
    ("SameBus 0x2c 0x3c 0x340", "The entries at 0x2c and 0x3c of the MCFG both have the bus of which 256 * segment + bus is 0x340."),
    ("HpetAddress 0x2c 0x0 0x0", "The base address at 0x2c of the HPET is 0."),
    ("HpetAddress 0x2c 0x0 0xfed0000000000000", "The base address at 0x2c of the HPET is 0xfed0000000000000, whose halves are swapped."),
    ("HpetAddress 0x2c 0x0 0xfed00200", "The base address at 0x2c of the HPET is 0xfed00200, which is no multiple of 1024."),
    ("HmatHeader 0x8 0x0 0x3", "The HMAT's Revision, at 0x8, is 3, neither 1 nor 2."),
    ("HmatCut 0xa8 0x0 0xaa", "At 0xa8 of the HMAT there is no structure: the length there is 0, or the table ends at 0xaa, before it."),
    ("HmatProximity 0x50 0xc 0x7", "The structure at 0x50 of the HMAT has an initiator in the domain 7, which the SRAT does not have."),
    ("HmatAlone 0x0 0x0 0x0", "There is an HMAT, and no SRAT is listed."),
    ("SameTimer 0x48 0x40 0x1b", "The timer whose GSIV is at 0x48 of the GTDT has the interrupt 27, as the one whose GSIV is at 0x40 does."),
    ("PlatformTimerCut 0x5c 0x0 0x50", "Platform Timer Offset, at 0x5c of the GTDT, is 80, which is within the fields of its Revision."),
    ("PlatformTimerCut 0x68 0x0 0x2", "..is of an unknown type or is not complete: 2 is the type or the table's Length."),
    ("PlatformTimerCut 0x68 0x3 0x6c", "..has the length 3, which is below 4 or goes past the table's end at 0x6c."),
    ("TimerBlock 0x68 0xc 0x9", "The GT Block at 0x68 of the GTDT has 9 frames, not 1 to 8."),
    ("TimerBlock 0x68 0x10 0x4", "The frames of the GT Block at 0x68 of the GTDT begin at its byte 4, below 20."),
    ("TimerFrame 0x7c 0x0 0x8", "The frame at 0x7c of the GTDT has the number 8, above 7."),
    ("TimerFrame 0x7c 0x4 0x0", "The non-secure frame at 0x7c of the GTDT has the CntBase address 0."),
    ("TimerNoSpi 0x7c 0x1c 0x1f", "The virtual timer of the frame at 0x7c of the GTDT has the GSIV 31, which is no SPI of a GIC."),
    ("DmarWidth 0x24 0x0 0xa", "The Host Address Width at 0x24 of the DMAR is 10, not 11 to 63."),
    ("DmarWidth 0x4 0x30 0x2f", "The DMAR's Length, at 0x4, is 47, and it needs 48 bytes."),
    ("DmarCut 0x40 0x0 0x42", "At 0x40 of the DMAR there is no structure: the length there is 0, or the table ends at 0x42, before it."),
    ("DmarCut 0x30 0x11 0x40", "..the length there, 17, is below 4 or goes past the table's end at 0x40."),
    ("ScopeCut 0x48 0x0 0x49", "..no device scope: the length there is 0, or the structure ends at 0x49, before it."),
    ("ScopeCut 0x38 0xa 0x40", "..the length there, 10, is below 8 or goes past the structure's end at 0x40."),
    ("ScopeType 0x40 0x0 0x6", "..has a type that is not 1 to 5, or the step of a path there has a Device above 31: 6."),
    ("ScopeType 0x38 0x1 0x9", "..at 0x38 of the DMAR has an odd length, or the step of a path there has a Function above 7: 9."),
    ("DrhdAddress 0x30 0x8 0x0", "The DRHD at 0x30 of the DMAR has the Register Base Address 0."),
    ("DrhdAddress 0x30 0x8 0x800", "The DRHD at 0x30 of the DMAR has the Register Base Address 0x800, which is no multiple of 4096."),
    ("RmrrRange 0x30 0x8 0x1001", "The RMRR at 0x30 of the DMAR has the base address 0x1001, which is no multiple of 4096."),
    ("RmrrRange 0x30 0x10 0x2000", "..has the limit address 0x2000, whose bits 11:0 are not all set, or which is not above the base address."),
    ("AnddName 0x30 0x8 0x0", "The ACPI Object Name of the ANDD at 0x30 of the DMAR does not end: none of the bytes from 8 on is 0."),
    ("AnddNowhere 0x40 0x4 0x3", "..has the Enumeration ID 3, which is the ACPI Device Number of no ANDD."),
    ("AnddNowhere 0x48 0x7 0x2", "..the ACPI Device Number 2, which is the Enumeration ID of no device scope of a DRHD."),
    ("IvrsCut 0x4 0x30 0x2f", "The IVRS's Length, at 0x4, is 47, and it needs 48 bytes."),
    ("IvrsCut 0x48 0x0 0x4b", "At 0x48 of the IVRS there is no block: the length there is 0, or the table ends at 0x4b, before it."),
    ("IvrsCut 0x30 0x3 0x48", "..the length there, 3, is below 4 or goes past the table's end at 0x48."),
    ("IvhdAddress 0x30 0x8 0x0", "The IVHD at 0x30 of the IVRS has the IOMMU Base Address 0."),
    ("IvhdAddress 0x30 0x8 0x2000", "The IVHD at 0x30 of the IVRS has the IOMMU Base Address 0x2000, which is no multiple of 16384."),
    ("IvhdEntryCut 0x48 0x0 0x4c", "..the type there has no length, or the block ends at 0x4c, before the length."),
    ("IvhdEntryCut 0x48 0x8 0x4c", "..no device entry: one of the type there has 8 bytes, and the block ends at 0x4c."),
    ("IvhdEntryType 0x48 0x0 0x5", "The device entry at 0x48 of the IVRS has the type 0x5, which is reserved."),
    ("IvhdEntryType 0x48 0x0 0xf0", "..has the type 0xf0, which a block of type 0x10 or 0x11 does not have."),
    ("IvhdEntryType 0x48 0x4 0x0", "The ACPI HID device at 0x48 of the IVRS has a Hardware ID that begins with 0."),
    ("IvhdEntryType 0x48 0x7 0xf0", "The special device at 0x48 of the IVRS has the Variety 240, not 1 to 3."),
    ("IvhdEntryType 0x48 0x14 0x3", "The ACPI HID device at 0x48 of the IVRS has the UID Format 3, above 2."),
    ("IvhdEntryType 0x48 0x15 0xf0", "..has the UID Length 240, which its UID Format does not allow."),
    ("IvmdRange 0x30 0x1 0x10", "..has the Flags 0x10, with neither bit 0 nor bit 3 set, or with a bit above bit 3 set."),
    ("IvmdRange 0x30 0x6 0x1", "The IVMD at 0x30 of the IVRS has the last DeviceID 0x1, below the first one."),
    ("IvmdRange 0x30 0x10 0xfffffffffffff000", "..with the IVMD Start Address 0xfffffffffffff000, ends above the highest address."),
    ("IvmdRange 0x30 0x18 0x0", "The IVMD at 0x30 of the IVRS has the IVMD Memory Block Length 0."),
    ("SpcrAddress 0x28 0x0 0x2", "The SPCR's base address, at 0x28, has the address space 0x2, neither memory nor I/O ports."),
    ("SpcrAddress 0x2b 0x0 0x4", "The access size at 0x2b of the SPCR is 4, above 3 (32 bits)."),
    ("SpcrGsi 0x34 0x0 0x3", "The interrupt type at 0x34 of the SPCR is 0x3, neither 0 nor 8, the GIC that the MADT has."),
    ("SpcrGsi 0x36 0x0 0x1f", "The GSI at 0x36 of the SPCR is 31, which no I/O APIC of the MADT serves, or which is no SPI of its GIC."),
    ("SpcrPci 0x46 0x0 0x8", "The PCI function number at 0x46 of the SPCR is 8, above 7."),
    ("SpcrName 0x59 0x0 0x41", "The last byte of the namespace string, at 0x59 of the SPCR, is 0x41, not 0."),
]


def sentences(tests):
    """A line of advice is followed by a sentence with its numbers, a fault by nothing."""
    for line, text in SENTENCES:
        tests.says(f"advice {line}", text)
    tests.says("no 3 TableSum 0x1 0x3000 0x0", "..no 3 TableSum 0x1 0x3000 0x0\n\n18 TableSum\n")
    names = re.findall(r"^### (\d+) (\w+)$", Path(TOP, "docs/FAULTS.md").read_text(encoding="utf-8"), re.M)
    rules = [name for number, name in names if int(number) > 100]
    said = tests.run(text="\n".join(f"advice {name} 0x51 0x52 0x53" for name in rules)).stdout.decode().split("\n")
    told = {name: said[said.index(f"advice {name} 0x51 0x52 0x53") + 1] for name in rules}
    tests.count("rules of advice that have a sentence", "" if rules and len(set(told.values())) == len(rules) else f"{len(set(told.values()))}")
    wrong = {name: text for name, text in told.items() if not re.fullmatch(r"[A-Z][^{}]*\.", text)}
    tests.count("sentences on lines of advice", str(wrong) if wrong else "")


# Lines that acpiset does not write.
NO_LINES = """no 3 RsdpSum 0x0 0x0 0x0
no 1 RsdpSun 0x0 0x0 0x0
no 01 RsdpSum 0x0 0x0 0x0
no 1 RsdpSum 0x0 0x0
no 1 RsdpSum 0x0 0x0 0x0 0x0
no 1 RsdpSum 0x0 0x0 0x10000000000000000
no 1 RsdpSum 0x0 0x0 0x00
no 1 RsdpSum 0X0 0x0 0x0
no 1 RsdpSum 0xA 0x0 0x0
no 1 RsdpSum 0 0 0
no 1 RsdpSum 0x0 0x0 0x0 \x20
\x20no 1 RsdpSum 0x0 0x0 0x0
no  1 RsdpSum 0x0 0x0 0x0
no 1\tRsdpSum 0x0 0x0 0x0
no 1 \\122sdpSum 0x0 0x0 0x0
no 1 RsdpSum 0x0 0x0 0x0\r\r
advice TableSum 0x0 0x0 0x0
no 18 ListedTwice 0x0 0x0 0x0
no 18 Severities 0x0 0x0 0x0
advice Severities 0x0 0x0 0x0
advice SlitDiffers 0x0 0x0
rsdp 0x
rsdp 0x10000000000000000
rsdp none here
rsdp
yes yes
Overlap
YES
no"""


def refused_lines(tests):
    for line in NO_LINES.split("\n"):
        tests.refuses(1, "not a line that acpiset check, lint or find writes", text=line.encode())
    tests.refuses(1, "not a line that acpiset check, lint or find writes", text=b"yes\nfoo\n")
    tests.refuses(1, "'\\x1b[2J\\xff'", text=b"\x1b[2J\xff\n")
    tests.refuses(1, "no line on standard input")
    tests.refuses(1, "standard input has more than 65,536 bytes", text=b"41 " * 1_000_000)
    tests.refuses(1, "more than 200 lines", tests.file(sets.LEAF), text=b"yes\n" * 201)
    tests.refuses(1, "absent: cannot be read", "absent", text=b"yes\n")
    tests.refuses(1, "\\x1b[2J: cannot be read", "\x1b[2J", text=b"yes\n")
    tests.refuses(1, "/: a directory: give the file with the image", "/", text=b"yes\n")
    tests.refuses(1, "Overlp: cannot be read: No such file or directory (nor is it", "Overlp")
    tests.refuses(1, "a similar name is Overlap)", "overlp")
    tests.refuses(1, "a name or a code of acpiset)", "image.bin")
    with open(os.path.join(IMAGES, "example.img.txt"), "rb") as file:
        tests.refuses(1, "standard input is image text: give it as IMAGE, and here what acpiset writes", text=file.read())
    dump = os.path.join(IMAGES, "example.acpidump.txt")
    tests.refuses(1, "it looks like text of acpidump, of which acpidump2image makes image text", dump, text=b"yes\n")
    for data, what, tool in ((b"\x7fELF" + bytes(60), "a dump of memory", "memory2image"), (sets.hpet(), "raw tables", "tables2image")):
        tests.refuses(1, f"it looks like {what}, of which {tool} makes image text", tests.file(data), text=b"yes\n")
    tests.refuses(1, f"is in {TOP}/docs/TROUBLESHOOTING.md", tool=os.path.join(TOP, "tools", "explain"))
    for words in (["--rsdp", "g"], ["--rsdp", "0X0"], ["--rsdp", "1" * 17], ["one", "two"], ["--help"], ["--nothing"], ["--rsdp"]):
        tests.refuses(2, "usage: ", *words, text=b"yes\n")
    for words in (["43", "44"], ["43", tests.file(b"")], ["yes", "43"], ["1=0"], ["1=257"]):
        tests.refuses(2, "usage: ", *words, text=b"yes\n")
    for words in (["--default-inputs", "0"], ["--hotplug", "x"], ["--processors", "all"]):
        tests.refuses(2, "usage: ", *words, text=b"yes\n")
    tests.refuses(2, "\\x1b[2J", "--\x1b[2J")


def terminal(tests):
    """On a terminal it says what it waits for."""
    master, slave = os.openpty()
    os.write(master, b"yes\n\x04")
    run = subprocess.run([tests.tool], stdin=slave, capture_output=True, timeout=600)
    is_told = b"reading lines of acpiset from the terminal, up to Ctrl-D; usual is acpiset check < IMAGE | explain IMAGE\n" in run.stderr
    tests.count("a terminal", "" if is_told and run.returncode == 0 and run.stdout.startswith(b"yes\n") else f"{run}")
    os.close(master)
    os.close(slave)


# Lines on wrong lengths, what is said of the structure, and of the one before it.
LENGTHS = [
    ("no 6 MadtEntryLength 0x34", sets.MADT_LENGTH, "type 0 has a length of 8, but byte 1 is 12", "  0x2c lapic uid 3 id 7 flags 0x1"),
    ("no 6 MadtEntryLength 0x2c", sets.FIRST_LENGTH, "type 1 has a length of 12, but byte 1 is 8", "no structure is before it"),
    (
        "no 6 MadtEntryCut 0x38", sets.MADT_CUT, "its length, byte 1, is 200, but only 4 bytes are left in the table",
        "  0x2c ioapic id 0 address 0xfec00000 base 5",
    ),
    ("no 9 SratEntryLength 0x40", sets.SRAT_LENGTH, "type 1 has a length of 40, but byte 1 is 24", "  0x30 cpu id 9 domain 300 flags 0x1"),
    (
        "no 9 SratEntryCut 0x58", sets.SRAT_CUT, "a single byte is left, and a structure has at least 2",
        "  0x30 memory domain 0 base 0x140000000 length 0x40000000 flags 0x1",
    ),
    (
        "no 12 PpttEntryLength 0x3c", sets.PPTT_LENGTH, "type 0 has a length of 20 + 4 * 2 = 28, but byte 1 is 24",
        "  0x24 cache flags 0x0 next 0x0 size 0 sets 0 ways 0 attributes 0x0 line 0",
    ),
    (
        "no 12 PpttEntryCut 0x38", sets.PPTT_CUT, "its length, byte 1, is 0, but a structure has at least 2 bytes",
        "  0x24 node flags 0x0 parent 0x0 id 4 resources",
    ),
]


def structures(tests):
    """What show says of the structures that a line names, what is compared, and the structure before a wrong length."""
    with open(os.path.join(IMAGES, "sb-q35-numa4-dist.img.txt"), "rb") as file:
        grown = file.read().replace(b"\n01 00 00 00 00 00 00 40", b"\n01 00 00 00 00 00 00 48", 1)
    texts = ["  0x128 memory domain 2 base 0x100000000 length 0x48000000 flags 0x1"]
    texts += ["the structure at offset 0x128 (296), at 0x7ffe25c4:"]
    texts += ["  0x150 memory domain 3 base 0x140000000 length 0x40000000 flags 0x1", "both cover 0x140000000 to 0x147ffffff"]
    texts += ["  0x7ffe25c4  01 28 02 00 00 00 00 00 00 00 00 00 01 00 00 00"]
    tests.says("no 10 Overlap 0x128 0x150 0x140000000", texts, grown, without=["ot-plug windows", "Example", MISMATCH])
    window = ["..**Hot-plug windows.**", "both cover 0x100000000 to 0x107ffffff"]
    window += ["  0xb8 covers 0x100000000 to 0x22fffffff, domain 0: enabled, hot-pluggable"]
    tests.says(OVERLAP, window, "sb-pc-nvdimm-numa.img.txt", without=["Example", "QEMU", MISMATCH])
    tests.says("no 10 Overlap 0x30 0x58 0x40000000", "both cover 0x40000000 to 0xffffffff", sets.WINDOWS, without=[MISMATCH])
    for line, image, text, before in LENGTHS:
        tests.says(f"{line} 0x0 0x0", [text, before], image, without=[MISMATCH])
    tests.says("no 6 MadtEntryCut 0x38 0x0 0x0", ["its length, byte 1, is not in the image", f"..{DOUBT}"], sets.MISSING)
    tests.says("no 6 MadtEntryCut 0x38 0x0 0x0", "only the first 57 of its bytes are in the image", sets.MISSING)
    tests.says("advice NoLeaf 0x2c 0x0 0x0", "the PPTT's leaves have the IDs none", sets.NO_REVISION)
    tests.says("no 18 LeafUnknown 0x24 0x0 0x7", "the MADT's processors have the UIDs 0 to 2, 300", sets.LEAF, without=[MISMATCH])
    tests.says("advice AffinityNowhere 0x30 0x0 0x16", "the MADT's processors have the UIDs 21", sets.ARM, without=[MISMATCH])
    texts = ["  0x2c entry type 11 length 80: gicc uid 21 flags 0x1 parking 0 base 0x0 gicr 0x0 mpidr 0x0", "the SRAT's enabled affinities of types 3 and 7 have the UIDs 22"]
    tests.says("advice NoDomain 0x2c 0x0 0x15", texts, sets.ARM, without=[MISMATCH])
    texts = ["  0x2c entry type 24 length 36: rintc uid 5 hart 6 flags 0x0", "  0x50 entry type 17 length 15: core-pic uid 6 id 3 flags 0x0"]
    tests.says("advice NoProcessor 0x0 0x0 0x0", texts, sets.NONE_USABLE, without=[MISMATCH])
    served = "  0x3c serves 0 to 31 (0x0 to 0x1f), with 32 inputs"
    tests.says("no 7 GsiClash 0x3c 0x48 0x18", served, "example.img.txt", "--default-inputs", "32", without=[MISMATCH])


def chains(tests):
    parents = {"0x24": "0x38", "0x38": "0x4c", "0x4c": "0x60", "0x60": "0x38"}
    nodes = [f"  {at} node flags 0x0 parent {parent} id 0 resources" for at, parent in parents.items()]
    told = "it names the one at 0x38 again: 3 of these 4 are the cycle"
    tests.says("no 14 ParentCycle 0x24 0x1 0x3", [*nodes, told], sets.PARENTS, without=[MISMATCH])
    tests.says("no 14 ParentCycle 0x38 0x0 0x3", nodes[1:], sets.PARENTS, without=[MISMATCH, nodes[0]])
    tests.says("no 14 ParentCycle 0x24 0x0 0x4", ["..the line says 0 steps to it and 4 around it: is this", f"..{DOUBT}"], sets.PARENTS)
    told = "it names the one at 0x3c again: 2 of these 3 are the cycle"
    tests.says("no 15 CacheCycle 0x24 0x1 0x2", [told, "..  0x54 cache flags 0x0 next 0x3c "], sets.CACHES, without=[MISMATCH])
    inside = ["no structure begins at offset 0x40 (64): it is inside this one", "  0x38 node flags 0x0 parent 0x4c id 0 resources"]
    tests.says("no 13 DanglingParent 0x24 0x40 0x0", inside, sets.DANGLING, without=[MISMATCH])
    tests.says("no 13 DanglingParent 0x38 0x4c 0x0", "it is of type 1, and must be a node, type 0", sets.DANGLING, without=[MISMATCH])
    past = "no structure begins at offset 0x1000 (4096): the table's structures are at 36 to 123"
    tests.says("no 13 DanglingCache 0x4c 0x1000 0x0", past, sets.DANGLING, without=[MISMATCH])
    tests.says("no 13 DanglingResource 0x64 0x0 0x24", "it is of type 0, and must be of another type", sets.DANGLING, without=[MISMATCH])


def numbers(tests):
    """Exact numbers: at a border of 4 GiB, and from 2^31 on."""
    rows = ["  0x200000000  01 00 00 00", "..  0x1fffffff0  41 41 41 41 41 41 41 41 01 00 00 00 41 41 41 41"]
    tests.says("no 3 TableSum 0x1 0x1ffffffe0 0x0", rows, sets.AT_BORDER)
    texts = ["the structure at offset 0x34 (52), at 0x200000014:", "  0x34 override source 0 gsi 2 flags 0x2"]
    texts += ["..  0x200000014  02 0a 00 00 02"]
    tests.says("no 6 ReservedInti 0x34 0x0 0x0", texts, sets.AT_BORDER, without=[MISMATCH])
    texts = ["  0x2c ioapic id 0 address 0xfec00000 base 4294967280"]
    texts += ["0xfffffff0 and 24 inputs are 0x100000008, and at most 0x100000000 is allowed"]
    tests.says("no 6 GsiPastEnd 0x2c 0x0 0x0", texts, sets.HIGH_BASE, without=[MISMATCH])
    texts = ["signature HPET, Length 4294967295"]
    texts += ["of the 4294967295 bytes that must be in the image the first 56 are; the next one, at 0x11038, is not"]
    tests.says("no 3 TableOut 0x1 0x11000 0x0", texts, sets.LONGEST, without=[MISMATCH])


def fields(tests):
    for line, (image, text) in sets.SUMS.items():
        tests.says(line, f"..{text}", image, without=[MISMATCH])
    tests.says("no 3 TableSum 0x1 0x3000 0x0", "signature HPET, Length 56", sets.SUMS["no 3 TableSum 0x1 0x3000 0x0"][0])
    told = "but the checksum, byte {}, is not among them: is this the image that the line is of?"
    tests.says(f"no 2 RootSum {sets.XSDT_AT:#x} 0x0 0x0", f"XSDT: the 5 bytes sum to 0x48, not 0, {told.format(9)}", sets.SHORT_ROOT)
    tests.says("no 1 RsdpExtendedSum 0xe0000 0x0 0x0", f"RSDP: the 24 bytes sum to 0x18, not 0, {told.format(32)}", sets.SHORT_RSDP)
    tests.says("no 3 TableSum 0x0 0x10000 0x0", "..sum to 0: is this the image that the line is of?", sets.LEAF)
    tests.says("no 3 TableOut 0x0 0x10000 0x0", "..all 116 bytes are in the image: is this the image", sets.LEAF)
    told = "of the 116 bytes that must be in the image the first 68 are; the next one, at 0x2044, is not"
    tests.says("no 3 TableOut 0x0 0x2000 0x0", told, sets.CUT, without=[MISMATCH])
    tests.says("no 3 TableOut 0x1 0x3000 0x0", "  (--: a byte that is not in the image)", "ovmf-q35.img.txt")
    tests.says("no 4 PmEventLength 0x58 0x0 0x0", ["the field at offset 0x58 (88), at 0x10058:", f"..{DOUBT}"], sets.LEAF)
    tests.says("no 4 NoFadt 0x0 0x0 0x0", "the slots list: FACP, APIC, HPET, MCFG, WAET", "ovmf-q35.img.txt")
    tests.says("no 4 NoFadt 0x0 0x0 0x0", "the slots list: FACP, .[2J", sets.ESCAPE, without=["\x1b"])
    tests.says("no 3 TableLength 0x1 0x11000 0x0", "signature .[2J, Length 36", sets.ESCAPE, without=["\x1b"])
    texts = ["from locality 0 to locality 1 it is 20", "the other distance at offset 0x2e (46), at 0x502e:"]
    tests.says("advice SlitDiffers 0x2d 0x2e 0x0", texts, "example.img.txt")
    texts = ["the SLIT has 3 localities, numbered from 0", "  0x11024  03 00 00 00 00 00 00 00", "from locality 1 to locality 2 it is 9"]
    tests.says("no 11 SlitLow 0x31 0x0 0x0", texts, sets.LOW_DISTANCE, without=[MISMATCH])
    texts = ["an override of SCI_INT at offset 0x54 (84), at 0x3054:", "  0x3c serves 0 to 23 (0x0 to 0x17), with 24 inputs"]
    tests.says("advice SciNowhere 0x2e 0x0 0x0", texts, "example.img.txt")
    caches = ["q11-efi-virt-caches.img.txt", "--rsdp", "47fe0000"]
    tests.says("advice ListedTwice 0x3 0x2 0x47fc198e", "slot 2 lists it too", *caches)
    tests.says("advice ListedTwice 0x3 0x2 0x47fc198f", "..slot 3 does not list this address: is this the image", *caches)


# Lines of advice, what is said of the fields that they are about, and the set.
ADVISED = [
    ("NullSlot 0x1 0x0 0x0", ["slot 1 at offset 0x2c (44) of the XSDT or RSDT, at 0x112c:", "  0x112c  00 00 00 00 00 00 00 00"], sets.ROOTS),
    (
        "RsdtDiffers 0x10 0x0 0x54455048",
        ["the XSDT lists: FACP, empty, HPET", "the RSDT lists: FACP", "they list HPET a different number of times"], sets.ROOTS,
    ),
    (
        "TablesOverlap 0xffc9 0x10000 0x10000",
        ["the HPET at 0xffc9, 56 bytes, up to 0x10000:", "the FACP at 0x10000, 116 bytes, up to 0x10073:", "both hold the byte at 0x10000"],
        sets.ROOTS,
    ),
    ("NoDsdt 0x28 0x0 0x0", "DSDT is 0x0, and X_DSDT is 0x0", "example.img.txt"),
    ("NoPm1Block 0x38 0x0 0x0", "PM1a_EVT_BLK is 0x0, and its length byte, at 88, is 4", "example.img.txt"),
    (
        "HalfBlock 0x4c 0x4 0x0",
        [
            "PM_TMR_BLK is 0x0, and its length byte, at 91, is 4",
            "X_PM_TMR_BLK has the address space 0, the bit width 0, the bit offset 0, and the address 0x0",
        ],
        "example.img.txt",
    ),
    ("SciZero 0x2e 0x0 0x0", "SCI_INT is 0x0", "example.img.txt"),
    (
        "FadtForArch 0x8 0x1 0x0",
        [
            "Revision is 0x1", "the FADT is of version 1.0",
            "  0xa0 entry type 11 length 76: gicc uid 2 flags 0x1 parking 0 base 0x0 gicr 0x0 mpidr 0x5",
        ],
        sets.PARTS_OF_A_GIC,
    ),
    ("HeaderText 0x4 0xa 0x14000", "OEMID is 80 41 41 41 41 41", sets.ODD),
    ("CapableTooEarly 0x38 0x1 0x0", ["  0x38 lapic uid 1 id 1 flags 0x2", "the FADT is of version 1.0"], sets.ODD),
    (
        "GicrTooSmall 0x44 0x1 0x2",
        [
            "  0x44 entry type 14 length 16: gicr base 0x80a0000 length 0x20000",
            "  0x54 entry type 11 length 76: gicc uid 1 flags 0x1 parking 0 base 0x0 gicr 0x0 mpidr 0x5",
            "the first GIC distributor of 24 bytes at offset 0x2c (44), at 0x1102c:",
            "  0x2c entry type 12 length 24: gicd base 0x8000000 version 3",
            "  0x1102c  0c 18 00 00 00 00 00 00 00 00 00 08 00 00 00 00", "  0x1103c  00 00 00 00 03 00 00 00",
        ],
        sets.PARTS_OF_A_GIC,
    ),
    (
        "GicrTooSmall 0x594 0x2 0x22",
        [
            "..the MADT's redistributors:\n  0x594 entry type 14 length 16: gicr base 0x80a0000 length 0x20000\n",
            "  0x5a4 entry type 14 length 16: gicr base 0x80c0000 length 0x20000",
            "..  0x51c entry type 11 length 40: gicc uid 31 flags 0x1 parking 0 base 0x0\n  and 2 more\n",
            "  0x2c entry type 12 length 24: gicd base 0x0 version 4",
        ],
        sets.MANY_GICCS,
    ),
    (
        "NoRedistributor 0x2c 0x3 0x0",
        [
            "  0x2c entry type 12 length 24: gicd base 0x0 version 3", "..the MADT's redistributors:\n  none\nthe MADT's GICCs:\n",
            "  0x44 entry type 11 length 80: gicc uid 9 flags 0x0 parking 0 base 0x0 gicr 0x80a0000 mpidr 0x9",
        ],
        sets.NO_REDISTRIBUTOR,
    ),
    (
        "NoDistributor 0x0 0x0 0x0",
        [
            "..the MADT's GICCs:\n  0x2c entry type 11 length 80: gicc uid 21 flags 0x1 parking 0 base 0x0 gicr 0x0 mpidr 0x0\n",
            "..the MADT's GIC distributors:\n  none\n",
        ],
        sets.ARM,
    ),
    (
        "GiccBaseDiffers 0x83 0x5b 0x8020000",
        [
            "  0x83 entry type 11 length 40: gicc uid 2 flags 0x1 parking 0 base 0x8020000",
            "  0x5b entry type 11 length 40: gicc uid 1 flags 0x1 parking 0 base 0x8010000",
            "the first GIC distributor of 24 bytes at offset 0x43 (67), at 0x11043:",
            "  0x43 entry type 12 length 24: gicd base 0x8000000 version 2", "  0x11053  00 00 00 00 02 00 00 00",
        ],
        sets.TWO_BASES,
    ),
    (
        "X2ApicBelow255 0x3c 0x0 0x5",
        [
            "  0x3c x2apic uid 2 id 5 flags 0x1",
            "the first usable local APIC with an APIC ID other than 255 at offset 0x4c (76), at 0x1104c:",
            "  0x4c lapic uid 3 id 7 flags 0x2", "  0x1104c  00 08 03 07 02 00 00 00",
        ],
        sets.BELOW_255,
    ),
    (
        "NoIoApic 0x0 0x0 0x0",
        [
            "..the MADT's local APICs and local x2APICs:\n  0x2c lapic uid 1 id 1 flags 0x1\n  0x34 x2apic uid 300 id 9 flags 0x0\n",
            "..the MADT's overrides and NMI sources:\n  0x44 override source 0 gsi 2 flags 0x0\n  0x4e nmi gsi 3 flags 0x0\n",
            "..the MADT's I/O APICs and I/O SAPICs:\n  none\n",
        ],
        sets.NO_IO_APIC,
    ),
    (
        "SecondOther 0x2 0x1 0x12000",
        [
            "slot 2 at offset 0x34 (52) of the XSDT or RSDT, at 0x1134:", "  0x1134  00 20 01 00 00 00 00 00",
            "slot 1 at offset 0x2c (44) of the XSDT or RSDT, at 0x112c:", "  0x112c  00 10 01 00 00 00 00 00",
        ],
        sets.TWO_MCFGS,
    ),
    (
        "ListedTwice 0x2 0x1 0x11000",
        [
            "slot 2 at offset 0x2c (44) of the XSDT or RSDT, at 0x102c:", "  0x102c  00 10 01 00",
            "slot 1 at offset 0x28 (40) of the XSDT or RSDT, at 0x1028:", "  0x1028  00 10 01 00",
        ],
        sets.LISTED_TWICE,
    ),
    ("SameMpidr 0xa0 0x54 0x5", ["the structure at offset 0xa0 (160), at 0x110a0:", "the other structure at offset 0x54 (84), at 0x11054:"], sets.PARTS_OF_A_GIC),
    ("MadtReserved 0x2c 0x4 0x0", ["  0x2c lapic uid 0 id 0 flags 0x80000001", "its field flags, at 4, is 0x80000001"], sets.FLAGS),
    (
        "MadtReserved 0x2c 0x14 0x0",
        ["  0x2c entry type 12 length 24: gicd base 0x0 version 5", "its field version, at 20, is 0x5"], sets.VERSION,
    ),
    ("SratReserved 0x30 0x1c 0x0", "its field flags, at 28, is 0x801", sets.VERSION),
    ("PpttReserved 0x24 0x15 0x0", "its field attributes, at 21, is 0x20", sets.FLAGS),
    ("MadtReserved 0x2c 0x3 0x0", ["  0x2c ioapic id 0 address 0xfec00000 base 0", "byte 3 of it is 0x1"], sets.ODD),
    ("InitiatorOff 0x30 0x0 0x1", "  0x30 entry type 5 length 32: initiator domain 1 flags 0x0", sets.PARTS_OF_A_GIC),
    ("ItsNowhere 0x50 0x0 0x3", ["  0x50 entry type 4 length 12: its domain 0 id 3", "the MADT's ITSs have the IDs 4"], sets.PARTS_OF_A_GIC),
    (
        "RemoteAsLocal 0x2d 0x0 0x1",
        [
            "the number of localities at offset 0x24 (36), at 0x12024:", "  0x12024  02 00 00 00 00 00 00 00",
            "the SLIT has 2 localities, numbered from 0", "from locality 0 to locality 1 it is 10",
        ],
        sets.ODD,
    ),
    ("NoPackage 0x38 0x0 0x0", ["  0x24 node flags 0x0 parent 0x0 id 0 resources", "none of them has the flag of a package, bit 0"], "example.img.txt"),
    ("CacheNumbers 0x24 0x8000 0x4000", "64 sets * 4 ways * 64 bytes of a line are 16384, and Size is 32768", sets.ODD),
]


def advised(tests):
    """The fields and the structures that a rule names; and what structures of a GIC say, for any line."""
    for line, texts, image in ADVISED:
        tests.says(f"advice {line}", texts, image, without=[MISMATCH])
    for at, text in (
        ("0x2c", "type 12 length 24: gicd base 0x8000000 version 3"), ("0xec", "type 15 length 20: its id 4 base 0x8080000"),
        ("0x100", "type 13 length 24: msi-frame id 6 base 0x8020000"),
    ):
        tests.says(f"advice MadtReserved {at} 0x11 0x0", [f"  {at} entry {text}", "byte 17 of it is 0x0"], sets.PARTS_OF_A_GIC)
    for line, text in (
        ("X2ApicBelow255 0x2c 0x0 0x0", "the MADT has no usable local APIC with an APIC ID other than 255"),
        ("GicrTooSmall 0x2c 0x0 0x0", "the MADT has no GIC distributor of 24 bytes"),
    ):
        tests.says(f"advice {line}", f"{text}: i{MISMATCH}", sets.NONE_USABLE)
    tests.says("advice RsdpReserved 0x14 0x0 0x25", "Length is 0x24", "example.img.txt")
    tests.says("advice FacsReserved 0x20 0x0 0x3", ["the FACS at 0x7000:", "Version is 0x1"], "example.img.txt")
    tests.says("advice PortsOverlap 0x30 0x50 0x0", "..at offset 0x30 (48) is no register block: is this the image", "example.img.txt")


def numbered(tests):
    """Fields and lengths that a line names by their offsets, and texts of headers."""
    for line, texts, image in (*further.CASES, *further_tables.CASES, *iommus.CASES):
        tests.says(f"advice {line}", texts, image, without=[MISMATCH])
    for line, texts, image in further.FIELDS:
        tests.says(f"advice {line}", texts, image)
    for line, text, image in (*further.MISMATCHES, *further_tables.MISMATCHES, *iommus.MISMATCHES):
        tests.says(f"advice {line}", f"{text}: i{MISMATCH}", image)
    tests.says("advice MadtRevision 0x8 0x0 0x5", "Revision is 5", further.REVISION_5, without=["of Revision 3:"])
    tests.says("advice EcamOverlap 0x2c 0x3c 0x0", *further_tables.WITHOUT_ECAM)
    tests.says("advice Watchdog 0x68 0xc 0x0", "..(type 1), of 28 bytes", further_tables.NO_CONTROL, without=["must be 28"])
    tests.says("advice SpcrBaud 0x3a 0x0 0x5", "the baud rate is 5", further_tables.SLOW, without=["the precise baud rate"])
    tests.says("advice SpcrGsi 0x35 0x0 0x8", "..IRQ is 8", further_tables.IRQ_8, without=["signature APIC"])


def unread(tests):
    arm, caches = "q10-efi-virt-smp4.img.txt", "q11-efi-virt-caches.img.txt"
    by_advice = "looked at by the advice of lint only"
    tests.says("yes", f"  type 13 (GIC MSI frame): 1 at offset 0x184 (388): {by_advice}", arm, "--rsdp", "4f0b0018")
    tests.says("yes", f"  type 11 (GICC): 4, the first at offset 0x44 (68): {by_advice}", arm)
    tests.says("yes", f"  type 15 (GIC ITS): 1 at offset 0x2d4 (724): {by_advice}", caches, "--rsdp", "47fe0000")
    tests.says("yes", "its MADT, SRAT and PPTT have no structures of types that the stages do not check", "sb-q35-default.img.txt")
    tests.says("yes", "no RSDP is found in it: give its address with --rsdp HEX", b"@2000\n41\n")
    texts = ["  type 3 (GICC affinity): 1 at offset 0x30 (48): not looked at", "  type 11 (GICC): 1 at offset 0x2c (44): not looked at"]
    texts += [f"  type 3 (GICC affinity): 2, the first at offset 0x3e (62): {by_advice}"]
    texts += [f"  type 16 (multiprocessor wakeup): 1 at offset 0x53 (83): {by_advice}"]
    texts += ["  type 28: 2, the first at offset 0x63 (99): not looked at", f"  type 25 (IMSIC): 1 at offset 0x6b (107): {by_advice}"]
    texts += ["  type 25 (IMSIC): 1 at offset 0x7b (123): not looked at", f"  type 27 (PLIC): 1 at offset 0x8c (140): {by_advice}"]
    texts += ["  type 2 (ID structure): 2, the first at offset 0x38 (56): not looked at"]
    tests.says("yes", texts, sets.UNREAD)
    head = "structures of this table that neither the stages nor advice look at:"
    texts = [head, "  type 11 (GICC): 1 at offset 0x2c (44)", "  type 28: 2, the first at offset 0x63 (99)", "  type 25 (IMSIC): 1 at offset 0x7b (123)"]
    tests.says("advice MadtUnread 0x2c 0xb 0x0", texts, sets.UNREAD, without=["multiprocessor wakeup): ", "PLIC"])
    texts = [head, "  type 3 (GICC affinity): 1 at offset 0x30 (48)"]
    tests.says("advice SratUnread 0x30 0x3 0x0", texts, sets.UNREAD, without=["offset 0x3e"])
    texts = [f"  type {kind} ({name}): 1 at offset {at}: {told}" for kind, name, at, told in (
        (12, "GIC distributor", "0x2c (44)", "not looked at"), (13, "GIC MSI frame", "0x43 (67)", "not looked at"),
        (14, "GIC redistributor", "0x5c (92)", by_advice), (15, "GIC ITS", "0x6c (108)", "not looked at"),
    )]
    tests.says("yes", texts, sets.GIC)


def judged(tests):
    """Whether the image has what the line says: acpiset is asked, with the counts and settings that are given."""
    for line, words, image, is_doubted in (
        ("no 10 Overlap 0x50 0x78 0x0", (), "example.img.txt", True), ("no 7 GsiClash 0x3c 0x48 0x18", (), "example.img.txt", True),
        ("no 7 GsiClash 0x3c 0x48 0x18", ("0xfec00000=25",), "example.img.txt", False),
        ("no 7 GsiClash 0x3c 0x48 0x18", ("fec00000=24", "fec00000=25"), "example.img.txt", True),
        (OVERLAP, ("--hotplug", "counted"), "sb-pc-nvdimm-numa.img.txt", False),
        (OVERLAP, ("--hotplug", "apart"), "sb-pc-nvdimm-numa.img.txt", True),
        ("no 18 LeafUnknown 0x38 0x0 0x1", ("--rsdp", "e0000"), sets.LEAF, True), ("no 1 RsdpOut 0x123 0x0 0x0", (), sets.LEAF, False),
    ):
        tests.says(line, f"..{DOUBT}" if is_doubted else line, image, *words, without=() if is_doubted else (DOUBT,))
    advice = "advice SlitDiffers 0x2d 0x2e 0x0"
    tests.says(advice, "..acpiset lint does not write this line of the image; it writes: no line of this name.", "example.img.txt")
    other = "advice FadtOfRevision 0x4 0xf4 0x114"
    tests.says(other, other, "example.img.txt", without=[MISMATCH])
    tests.says("advice FadtOfRevision 0x4 0xf5 0x114", f"..it writes: {other}.", "example.img.txt")
    tests.says("yes", "..acpiset lint finds faults in this image. Was check given --through? If not, is this the image", "sb-pc-nvdimm-numa.img.txt")
    alone = tests.copy("alone", "tools", "explain", os.path.join("docs", "FAULTS.md"))
    asked = "(acpiset is neither beside this tool nor on PATH, so it was not asked whether the image has this)"
    tests.says("no 10 Overlap 0x50 0x78 0x0", [asked, f"..no address is in both: i{MISMATCH}"], "example.img.txt", tool=alone)
    tests.says(OVERLAP, [asked, "both cover 0x100000000 to 0x107ffffff"], "sb-pc-nvdimm-numa.img.txt", tool=alone, without=[MISMATCH])
    nothing_else = "its MADT, SRAT and PPTT have no structures of types that the stages do not check"
    tests.says("yes", nothing_else, "sb-q35-default.img.txt", tool=alone, without=["acpiset is neither"])
    tests.path = os.path.join(tests.scratch, "whole") + ":" + tests.path
    tests.says("no 10 Overlap 0x50 0x78 0x0", f"..{DOUBT}", "example.img.txt", tool=alone)


def other_programs(tests):
    """A program that is called acpiset and fails, or writes something else."""
    tool = tests.copy("other", "tools", "explain", os.path.join("docs", "FAULTS.md"))
    unknown = "(acpiset has no verdict on this image, so it is not known whether it has this)"
    for script, line, text in (
        ("exit 4", OVERLAP, unknown), ("echo maybe", OVERLAP, unknown),
        ("printf 'advice SlitDiffers \\033[2J\\n'", "advice SlitDiffers 0x2d 0x2e 0x0", "..SlitDiffers \\x1b[2J"),
    ):
        with open(os.path.join(tests.scratch, "other", "acpiset"), "w", encoding="ascii") as file:
            file.write(f"#!/bin/sh\n{script}\n")
        os.chmod(file.name, 0o755)
        tests.says(line, text, "sb-pc-nvdimm-numa.img.txt", tool=tool, without=[DOUBT, "\x1b"])


def shown(tests):
    """Each structure of each image has the line that `show` writes of it."""
    codes = {"madt": "no 6 OverrideBus", "srat": "no 9 RangePastEnd", "pptt": "advice CacheShape"}
    for name, address in {**FIRMWARE_AT, "example": "e0000"}.items():
        name, words = f"{name}.img.txt", ["--rsdp", address]
        with open(os.path.join(IMAGES, name), "rb") as file:
            text = file.read()
        run = subprocess.run([tests.program, "show", *words], input=text, stdout=subprocess.PIPE)
        lines, due, table = [], [], ""
        for line in run.stdout.decode().splitlines():
            word, _, rest = line.partition(" ")
            table = word if not word.startswith("0x") else table
            if word.startswith("0x") and table in codes:
                lines.append(f"{codes[table]} {word} 0x0 0x0")
                due.append(f"  {line}" if " entry type" not in line else f"..  {line}")
        tests.count(f"structures of {name}", "" if len(lines) >= 3 else f"{len(lines)}")
        for place in range(0, len(lines), 100):
            tests.says("\n".join(lines[place : place + 100]), due[place : place + 100], name, *words)


# Image texts and whether acpiset reads them.
TEXTS = [
    (b"", True), (b" \r", True), (b"@10\n41 42", True), (b" @20\n41\n@20\n@10\n42\n", True),
    (b"  @10 \t# an address\r\n\t41 42\t43 \r\n4445#\n\n", True), (b"@10\n41\r", True), (b"@fffffffffffffffe\n41 42\n@0\n41\n", True),
    (b"@10\n41\n@8\n42 43 44 45 46 47 48 49\n", True), (b"@10\n" + b"41" * 32_768 + b"\n", True),
    (b"@10\n41#" + b"x" * 65_533 + b"\n", True), (b"41\n", False), (b"@10 41\n", False), (b"@10\n41 @20\n42\n", False),
    (b"@ 10\n41\n", False), (b"@\n41\n", False), (b"@00000000000000010\n41\n", False), (b"@1_0\n41\n", False), (b"@10\n41 4\n", False),
    (b"@10\n4 1\n", False), (b"@10\n4\n1\n", False), (b"@10\n41\x0b42\n", False), (b"\x0c@10\n41\n", False), (b"@10\n@20\x0c\n41\n", False),
    (b"@10\n41\0\n", False), (b"@10\n41\r\r\n", False), (b"@10\n41\r#\n", False), (b"@10\r41\n", False), (b"@10\n0x41\n", False),
    (b"@fffffffffffffffe\n41 42 43\n", False), (b"@10\n41 42\n@11\n43\n", False), (b"@11\n41 42\n@10\n43 44\n", False),
    (b"@10\n41\n@10\n42\n", False), (b"@10\n" + b"41" * 32_768 + b" \n", False), (b"@10\n41#" + b"x" * 65_534 + b"\n", False),
    (b"@10\n" + b"#" * 65_535 + b"\n" + (b"#" * 65_535 + b"\n") * 1023 + b"\n", False),
]


def image_texts(tests):
    for text, is_read in TEXTS:
        run = subprocess.run([tests.program, "find"], input=text, stdout=subprocess.PIPE, stderr=subprocess.PIPE)
        tests.count(f"acpiset reads {text[:40]!r}", "" if (run.returncode != 3) == is_read else f"status {run.returncode}")
        if is_read:
            tests.says("no 4 NoFadt 0x0 0x0 0x0", "no RSDP is found in it: give its address with --rsdp HEX", text)
        else:
            tests.refuses(1, "acpiset does not read it either", tests.file(text), text=b"yes\n")
    tests.refuses(1, "line 3 is no line of image text", tests.file(b"@10\n41\n4x\n42\n"), text=b"yes\n")
    tests.refuses(1, "it has more than 67,108,864 bytes", "/dev/zero", text=b"yes\n")


def streams(tests):
    """A full disk, a closed stream or one that cannot be read is never status 0."""
    image = os.path.join(IMAGES, "sb-pc-nvdimm-numa.img.txt")
    line = (OVERLAP + "\n").encode()
    if os.path.exists("/dev/full"):
        for words in ([], [image], ["43"]):
            with open("/dev/full", "wb") as full:
                run = tests.run(*words, text=line, stdout=full)
            is_right = run.returncode == 4 and b"standard output cannot be written: No space left" in run.stderr
            tests.count(f"a full disk {words}", "" if is_right else f"{run.returncode} {run.stderr}")
    environment = {**os.environ, "PATH": tests.path}
    for name, closing, status, told in (
        ("a closed output", ">&-", 4, "explain: standard output cannot be written: it is closed\n"),
        ("a closed input", "<&-", 4, "explain: standard input cannot be read: it is closed\n"),
        ("closed output and error", ">&- 2>&-", 4, ""), ("a line as argument, and a closed input", f"'{OVERLAP}' <&- >/dev/null", 0, ""),
    ):
        words = ["sh", "-c", f'"$0" "$1" {closing}', tests.tool, image]
        run = subprocess.run(words, input=line, stderr=subprocess.PIPE, env=environment)
        is_right = (run.returncode, run.stderr.decode()) == (status, told)
        tests.count(name, "" if is_right else f"{run.returncode} {run.stderr}")
    reading, pipe = os.pipe()
    os.close(reading)
    run = tests.run("43", stdout=pipe)
    os.close(pipe)
    is_right = run.returncode == 4 and b"standard output cannot be written" in run.stderr
    tests.count("a reader that has gone", "" if is_right else f"{run.returncode} {run.stderr}")


def places(tests):
    """The document of the tool's own copy is found first, and nothing is written into it."""
    other = "# Faults\n\n### 59 LeafUnknown\n\n- Wrong: another project's.\n"
    installed = tests.copy("prefix", "bin", "acpiset-explain", os.path.join("share", "doc", "acpiset", "docs", "FAULTS.md"))
    os.makedirs(os.path.join(tests.scratch, "prefix", "docs"))
    with open(os.path.join(tests.scratch, "prefix", "docs", "FAULTS.md"), "w", encoding="utf-8") as file:
        file.write(other)
    os.symlink(tests.program, os.path.join(tests.scratch, "prefix", "bin", "acpiset"))
    tests.says("no 18 LeafUnknown 0x0 0x0 0x0", "59 LeafUnknown", tool=installed, without=["another project"])
    tests.says("no 10 Overlap 0x50 0x78 0x0", f"..{DOUBT}", "example.img.txt", tool=installed)
    os.symlink(installed, os.path.join(tests.scratch, "link"))
    tests.says("yes", "..the image passes every stage", tool=os.path.join(tests.scratch, "link"))
    other_page = os.path.join(tests.scratch, "prefix", "share", "acpiset", "FAULTS.md")
    os.rename(os.path.join(tests.scratch, "prefix", "share", "doc", "acpiset", "docs", "FAULTS.md"), other_page)
    tests.says("no 18 LeafUnknown 0x0 0x0 0x0", "59 LeafUnknown", tool=installed, without=["another project"])
    tests.refuses(1, "on standard error is in TROUBLESHOOTING.md", tool=installed)
    os.remove(other_page)
    os.remove(os.path.join(tests.scratch, "prefix", "docs", "FAULTS.md"))
    tests.refuses(1, "acpiset's FAULTS.md is at neither", tool=installed, text=b"yes\n")
    left = [name for _, folders, names in os.walk(tests.scratch) for name in folders + names if "pyc" in name]
    tests.count("files that Python leaves", " ".join(left))


def many(tests):
    """A line of a million bytes, and a cycle of 100,000 nodes."""
    with open(os.path.join(IMAGES, "example.img.txt"), "rb") as file:
        example = file.read()
    long_line = example + b"41 " * 1_000_000 + b"\n"
    tests.refuses(1, "a line has more than 65,536 bytes", tests.file(long_line), text=b"yes\n")
    chain = ["..and 99000 more, up to the one at 0x1e8490", "it names the one at 0x24 again: 100000 of these 100000 are the cycle"]
    tests.says("no 14 ParentCycle 0x24 0x0 0x186a0", chain, sets.image_of(sets.long_pptt(100_000)))
    # Lint can write one line of each fault and of each rule.
    tests.says("yes\n" * 200, "yes", sets.LEAF)
    # Of two chains 1,000 structures are listed together, and of each one the first.
    lines = "no 14 ParentCycle 0x24 0x0 0x3e8\nno 14 ParentCycle 0x38 0x0 0x3e8"
    tests.says(lines, ["..node 1000 of the chain", "and 999 more, up to the one at 0x24"], sets.image_of(sets.long_pptt(1000)), without=["node 2 of the chain at offset 0x4c"])
    texts = ["..parent 999 at offset 0x4e30 (20016)", "and 2 more, up to the one at 0x4e58"]
    tests.says("advice NoPackage 0x24 0x0 0x0", texts, sets.LONG_PARENTS, without=[MISMATCH, "parent 1000"])
    # What a line lists is not listed again for a later one.
    for line, listed, image in (
        ("advice NoProcessor 0x0 0x0 0x0", "the MADT's processors:", sets.NONE_USABLE),
        ("advice SciNowhere 0x2e 0x0 0x0", "the overrides of SCI_INT:", sets.NO_IO_APIC),
        ("advice SciNowhere 0x2e 0x0 0x0", "the MADT's I/O APICs:", sets.NO_IO_APIC),
        ("no 16 TwoDomains 0x30 0x40 0x1", "the processors with the ID 1:", sets.TWO_IDS),
    ):
        tests.says(line, line, image, without=["as listed above"])
        tests.says(f"{line}\n{line}", f"{listed} as listed above", image)
    lines = "no 16 TwoDomains 0x30 0x40 0x1\nno 16 TwoDomains 0x50 0x60 0x2"
    texts = ["..the processor at offset 0x2c (44)", "..the processor at offset 0x34 (52)"]
    tests.says(lines, texts, sets.TWO_IDS, without=["as listed above"])
    # Many overrides of SCI_INT, which is 0 in this FADT.
    overrides = sets.madt(*[sets.override(0, 2)] * 40)
    tests.says("advice SciNowhere 0x2e 0x0 0x0", "and 8 more overrides of SCI_INT", sets.image_of(overrides))
    for words in (["no"] * 50_000, ["no", "rsdp"] * 4, [f"{place:x}=24" for place in range(1000)] + ["a", "b"]):
        tests.refuses(2, "one line, name or code, and one image at most", *words)


PARTS = [lines_without_image, sentences, refused_lines, structures, chains, numbers, fields, advised, numbered, unread, judged, other_programs]
PARTS += [shown, image_texts, streams, places, many, terminal]


def main():
    _, program = sys.argv
    with tempfile.TemporaryDirectory() as scratch:
        tests = Tests(os.path.realpath(program), scratch)
        for part in PARTS:
            part(tests)
    finish("explain", tests)


if __name__ == "__main__":
    main()
