"""The address of the RSDP in the head of an image text: which heads report and explain take, and which they do not."""

import json

from acpi_images.tables import *
from acpi_images.text import text_of

OTHER_AT = 0x700000
# Two sets: the one that acpiset finds is clean, and in the other one the checksum of the second table is wrong.
FIRST = {RSDP_AT: rsdp(), RSDT_AT: rsdt(0x2000), 0x2000: fadt(), OTHER_AT: rsdp(0x1800)}
PIECES = {**FIRST, 0x1800: rsdt(0x2000, 0x3000), 0x3000: changed(hpet(), {10: 0x42})}
TEXT = text_of(PIECES)
OTHER_FAULT = ["TableSum", "0x1", "0x3000"]

TAKEN = {
    "a line as the tools write it": b"# rsdp 0x700000\n",
    "upper case, zeros, blanks and a CR": b" \t#  rsdp\t0x000000000070000A \r\n".replace(b"0A", b"00"),
    "below another comment and an empty line": b"# made by hand\n\n# rsdp 0x700000\n",
    "twice the same": b"# rsdp 0x700000\n# rsdp 0x0700000\n",
}
IGNORED = {
    "no prefix": b"# rsdp 700000\n",
    "no digits": b"# rsdp 0x\n",
    "other digits": b"# rsdp 0x70000g\n",
    "17 digits": b"# rsdp 0x00000000000700000\n",
    "more words": b"# rsdp 0x700000 or so\n",
    "another word": b"# the rsdp 0x700000\n",
    "two that differ": b"# rsdp 0x700000\n# rsdp 0xe0000\n",
    "an address without a byte": b"# rsdp 0x123456789\n",
    "an address with no byte after it": b"# rsdp 0xffffffffffffffff\n",
    "beyond the first 4096 bytes": b"#" + b"x" * 4096 + b"\n# rsdp 0x700000\n",
    "below an address": b"@800000\n# rsdp 0x700000\n",
    "below bytes": b"@800000\n00\n# rsdp 0x700000\n",
    "beside an address": b"@800000 # rsdp 0x700000\n",
}


def verdict(cases, *words, data=b""):
    """The verdict of a report, and the name and the first two numbers of the first fault."""
    told = json.loads(cases.run("report", "--format", "json", *words, data=data).stdout)
    fault = [told["findings"][0][name] for name in ("name", "at", "other")] if told["verdict"] == "no" else []
    return [told["verdict"], *fault]


def of_heads(cases):
    for name, head in {**TAKEN, **IGNORED}.items():
        wanted = ["no", *OTHER_FAULT] if name in TAKEN else ["yes"]
        cases.write("head.txt", head + TEXT)
        cases.same(f"report, {name}", verdict(cases, "head.txt"), wanted)
        run = cases.run("explain", "head.txt", data=b"no rsdp\n")
        at = OTHER_AT if name in TAKEN else RSDP_AT
        cases.count(f"explain, {name}", f"its RSDP is at {at:#x}: ".encode() not in run.stdout and f"{run}")
    cases.same("report, an end of the text", verdict(cases, "-", data=TEXT + b"# rsdp 0x700000\n"), ["yes"])
    cases.same("report, standard input", verdict(cases, "-", data=TAKEN["twice the same"] + TEXT), ["no", *OTHER_FAULT])


def given(cases):
    """An address that is given wins."""
    cases.write("head.txt", b"# rsdp 0x700000\n" + TEXT)
    cases.same("report --rsdp", verdict(cases, "--rsdp", "e0000", "head.txt"), ["yes"])
    run = cases.run("explain", "--rsdp", "0xe0000", "head.txt", data=b"no rsdp\n")
    cases.count("explain --rsdp", b"its RSDP is at 0xe0000" not in run.stdout and f"{run}")
    cases.write("tail.txt", TEXT)
    run = cases.run("explain", "--rsdp", "700000", "tail.txt", data=b"no 3 TableSum 0x1 0x3000 0x0\n")
    cases.count("explain --rsdp without a head", b"the table of slot 1 at 0x3000:" not in run.stdout and f"{run}")


def wrong(cases):
    """Explain says where an RSDP is if a line finds none at another address."""
    alone = text_of({RSDP_AT: changed(rsdp(), {9: 0x42})})
    for line, text, at in (("RsdpOut 0x123", TEXT, 0xE0000), ("RsdpSignature 0xe0000", TEXT, OTHER_AT), ("RsdpSum 0xe0000", alone, None)):
        cases.write("wrong.txt", text)
        run = cases.run("explain", "wrong.txt", data=f"no 1 {line} 0x0 0x0\n".encode())
        said = [row for row in run.stdout.decode().split("\n") if row.startswith("an RSDP is at ")]
        cases.same(f"explain {line}", said, [] if at is None else [f"an RSDP is at {at:#x}: acpiset check --rsdp {at:#x} < IMAGE"])


def told(cases):
    """The page says where the address is from, and explain that there is another RSDP."""
    cases.write("head.txt", b"# rsdp 0x700000\n" + TEXT)
    page = cases.run("report", "--format", "html", "head.txt").stdout.decode()
    cases.count("the page", "with --rsdp 0x700000. The head of the image text has the address of the RSDP." not in page and page[-2000:])
    run = cases.run("explain", "head.txt", data=b"no 3 TableSum 0x1 0x3000 0x0\n")
    note = b"(the image has 2 RSDPs; this is by the one at 0x700000, and --rsdp HEX takes another)"
    cases.count("explain, another RSDP", note not in run.stdout and f"{run}", b"is this the image" in run.stdout and f"{run}")


def bad_texts(cases):
    """A head does not hide what is wrong with the text."""
    cases.write("bad.txt", b"# rsdp 0x700000\n@e0000\nzz\n")
    run = cases.run("report", "--format", "json", "bad.txt")
    cases.count("a bad line", run.returncode != 3 and f"{run}", b"line 3: bad line" not in run.stdout and f"{run}")


def all_cases(cases):
    for part in (of_heads, given, wrong, told, bad_texts):
        part(cases)
