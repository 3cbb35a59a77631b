"""What each tool says of an input of another form: what it is, and which tool takes it."""

from acpi_images.tables import *
from acpi_images.text import text_of
from files import COMPLETE, HPET, dump_of
from memory_dumps import core_of

FAULT = b"no 10 Overlap 0x90 0xb8 0x100000000\n"
FORMS = {
    "image": text_of(dict(COMPLETE)),
    "dump": dump_of(COMPLETE),
    "table": HPET,
    "core": core_of(dict(COMPLETE)),
    "memory": bytes(65536),
    "lines": FAULT,
    "show": b"rsdp 0xe0000 revision 2\nroot 0x1000 XSDT length 36 slots 0\n",
    "wide": b"\xff\xfe" + text_of(dict(COMPLETE)).decode().encode("utf-16-le"),
    "upper": b"\xfe\xff" + text_of(dict(COMPLETE)).decode().encode("utf-16-be"),
    "table.asl": b'/*\n * iasl -T APIC\n */\n[0004]                          Signature : "APIC"\n[0004]   Table Length : 0000015A\n',
    "table.dsl": b'[000h 0000   4]                    Signature : "SRAT"    [System Resource Affinity Table]\n',
    "aml.asl": b'DefinitionBlock ("", "SSDT", 2, "ACME", "TEST", 1)\n{\n}\n',
}
WIDE = dict.fromkeys(("wide", "upper"), "text of 16 bits a character: make it plain with iconv -f UTF-16 -t ASCII")
SOURCES = dict.fromkeys(("table.asl", "table.dsl", "aml.asl"), "source of iasl: compile it with iasl, and give the .aml file to ")
OTHERS = {**WIDE, **{name: f"{text}tables2image" for name, text in SOURCES.items()}}
# What a tool says of a file of each form that it does not take, and of a folder.
FILES = {
    "tables2image": {
        "image": "image text: acpiset reads it itself", "dump": "text of acpidump: use acpidump2image", "core": "use memory2image",
        "memory": "not a raw table", "lines": "lines of acpiset: use explain", "show": "lines of acpiset show: use report",
        "folder": "a directory: give the files in it, as folder/*", **OTHERS,
    },
    "acpidump2image": {
        "image": "image text: acpiset reads it itself", "table": "one raw table, HPET: use tables2image", "core": "use memory2image",
        "memory": "no text: use tables2image for raw tables, and memory2image for a dump of memory",
        "lines": "lines of acpiset: use explain", "show": "lines of acpiset show: use report",
        "folder": "a directory: give acpidump's text as a file; for a folder of raw tables use tables2image folder/*", **OTHERS,
    },
    "memory2image": {
        "image": "image text: acpiset reads it itself", "dump": "text of acpidump: use acpidump2image",
        "table": "one raw table, HPET: use tables2image", "lines": "lines of acpiset: use explain",
        "show": "lines of acpiset show: use report", "folder": "a directory: give the dump's file; for a folder of raw tables use tables2image", **OTHERS,
    },
    "explain": {
        "dump": "it looks like text of acpidump, of which acpidump2image makes image text",
        "table": "it looks like raw tables, of which tables2image makes image text",
        "core": "it looks like a dump of memory, of which memory2image makes image text",
        "memory": "it looks like a dump of memory, of which memory2image makes image text",
        "lines": "lines of acpiset, not an image: give them on standard input", "show": "lines of acpiset show, not an image: report takes them",
        "folder": "a directory: give the file with the image", **OTHERS,
    },
    "report": {
        "lines": "lines of acpiset: give them on standard input", "show": "lines of acpiset show: give them on standard input",
        "folder": "a directory: give the files in it, as folder/*", **OTHERS,
    },
}
# The same of standard input.
INPUTS = {
    "explain": {
        "image": "image text: give it as IMAGE", "dump": "it looks like text of acpidump, of which acpidump2image makes image text",
        "table": "it looks like raw tables, of which tables2image makes image text", "core": "of which memory2image makes image text",
        "memory": "of which memory2image makes image text", "show": "lines of acpiset show: report takes them",
    },
    "report": {
        "image": "image text: give its file", "dump": "text of acpidump: give its file", "table": "no text: give the file of a dump of memory",
        "core": "no text: give the file of a dump of memory", "memory": "no text: give the file of a dump of memory",
    },
}
# After the name of a tool: an option that it needs, and its status of a refusal.
WORDS = {"report": ["--format", "json"]}
STATUSES = {"report": 3}


def all_cases(cases):
    for name, data in FORMS.items():
        cases.write(name, data)
    for tool, told in FILES.items():
        for name, text in told.items():
            cases.refuses(text, tool, *WORDS.get(tool, []), name, status=STATUSES.get(tool, 1), data=FAULT)
    for tool, told in INPUTS.items():
        for name, text in told.items():
            cases.refuses(text, tool, *WORDS.get(tool, []), status=STATUSES.get(tool, 1), data=FORMS[name])
