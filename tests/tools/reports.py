"""Cases of tools/report. Each format is read by a reader of it: JSON and XML by Python's, SARIF by what its schema requires, TAP by the
reader below and by prove, if it is there."""

import json
import os
import re
import shutil
import subprocess
import sys
import xml.etree.ElementTree as xml

from tool_cases import TOP, module_of

FORMATS = "json", "tap", "junit", "sarif"
REPORT = module_of("report")
OVERLAP = "no 10 Overlap 0x90 0xb8 0x100000000"
TOP_NUMBERS = "no 9 RangePastEnd 0x30 0xffffffff 0xffffffffffffffff"
LISTED = "advice ListedTwice 0x3 0x2 0x47fc198e"
SHAPE = "advice CacheShape 0x74 0x0 0x0"
UNREAD = "advice MadtUnread 0x2c4 0xe 0x0"
# Of each fault and rule of advice the line of its example.
EXAMPLE = re.compile(r"^- Example: .*?: `((?:no|advice) [^`]*)`\.$", re.M | re.S)


# ---- readers


def tap_of(text):
    """The tests of a TAP stream, as (is ok, description, directive); or what is wrong with it. By the specification of TAP 13."""
    version, *lines = text.splitlines()
    if version != "TAP version 13":
        return f"begins with {version}"
    if len(lines) == 1 and lines[0].startswith("Bail out! "):
        return []
    plan = re.fullmatch(r"1\.\.([0-9]+)", lines[0])
    tests = [re.fullmatch(r"(not ok|ok) ([0-9]+) - ((?:[^\\#]|\\[\\#])*?)(?: # (TODO|SKIP) (.*))?", line) for line in lines[1:]]
    if not plan or not all(tests):
        return f"lines that are none of TAP: {lines}"
    if [int(test[2]) for test in tests] != list(range(1, int(plan[1]) + 1)):
        return f"tests that the plan does not have: {lines}"
    return [(test[1] == "ok", test[3], test[4]) for test in tests]


def junit_of(text):
    """The cases of a JUnit file, as (name, its child's name, that one's message); or what is wrong with it."""
    suites = xml.fromstring(text)
    if suites.tag != "testsuites" or [suite.tag for suite in suites] != ["testsuite"]:
        return f"begins with {suites.tag}"
    suite = suites[0]
    cases = list(suite)
    for of in (suites, suite):
        for kind, counted in (("tests", None), ("failures", "failure"), ("errors", "error"), ("skipped", "skipped")):
            number = len(cases) if counted is None else sum(case.find(counted) is not None for case in cases)
            if of.get(kind) != str(number):
                return f"{kind}: {of.get(kind)}, not {number}"
    if any(case.tag != "testcase" or not case.get("classname") or not case.get("name") or len(case) > 1 for case in cases):
        return "a case without its name"
    return [(case.get("name"), *((case[0].tag, case[0].get("message")) if len(case) else (None, None))) for case in cases]


def sarif_of(text):
    """The results of a SARIF log, as (ruleId, level, message, uri); or what is wrong with it, by what the schema of SARIF 2.1.0 requires
    of the objects that are there (sections 3.13, 3.14, 3.18, 3.19, 3.20, 3.27, 3.49 of the standard)."""
    log = json.loads(text)
    if log["version"] != "2.1.0" or not log["$schema"].endswith("sarif-2.1.0.json") or len(log["runs"]) != 1:
        return "no log of one run"
    run = log["runs"][0]
    rules = run["tool"]["driver"]["rules"]
    if not run["tool"]["driver"]["name"] or len({rule["id"] for rule in rules}) != len(rules):
        return "a tool without a name, or a rule twice"
    levels = {"none", "note", "warning", "error"}
    for rule in rules:
        if not rule["shortDescription"]["text"] or rule["defaultConfiguration"]["level"] not in levels or rule.get("help", {"text": "x"})["text"] == "":
            return f"a rule without its texts: {rule}"
    if [type(one["executionSuccessful"]) for one in run["invocations"]] != [bool] or type(run["invocations"][0]["exitCode"]) is not int:
        return "no invocation"
    for result in run["results"]:
        if rules[result["ruleIndex"]]["id"] != result["ruleId"] or result["level"] not in levels or not result["message"]["text"]:
            return f"a result without what it has to have: {result}"
        if not all(type(value) is str and value for value in result["partialFingerprints"].values()):
            return f"fingerprints: {result}"
        for location in result.get("locations", []):
            if location["physicalLocation"]["region"]["startLine"] < 1 or re.search(r"[^!-~]", location["physicalLocation"]["artifactLocation"]["uri"]):
                return f"a location: {location}"
    uris = [[one["physicalLocation"]["artifactLocation"]["uri"] for one in result.get("locations", [])] for result in run["results"]]
    return [(result["ruleId"], result["level"], result["message"]["text"], uri) for result, uri in zip(run["results"], uris)]


def read(form, text):
    """What a reader of a format says of the text."""
    return {"json": json.loads, "tap": tap_of, "junit": junit_of, "sarif": sarif_of}[form](text)


# ---- cases


def reported(cases, lines, *words, status, **forms):
    """Each format's report of these lines ends with the status, and its reader reads this."""
    for form, wanted in forms.items():
        data = "".join(line + "\n" for line in lines).encode()
        run = cases.run("report", "--format", form, *words, data=data)
        try:
            got = read(form, run.stdout.decode("ascii"))
        except (ValueError, LookupError, xml.ParseError) as error:
            got = f"{error!r}: {run.stdout.decode()}"
        cases.count(
            f"report --format {form} {' '.join(words)} of {lines}",
            run.returncode != status and f"status {run.returncode}, not {status}: {run.stderr.decode()}",
            got != wanted and f"{got}, not {wanted}",
        )


def verdicts(cases):
    overlap = "Two enabled memory ranges overlap."
    numbers = (
        "at and other are the offsets of their structures, point is an address in both ranges: the lowest address that two ranges cover. "
        "The structures are the first two that cover it, by base, then by offset."
    )
    message = f"{overlap} Line of acpiset: {OVERLAP}. Numbers: {numbers}"
    finding = {"kind": "fault", "name": "Overlap", "code": 45, "stage": 10, "at": "0x90", "other": "0xb8", "point": "0x100000000", "level": "error", "text": overlap}
    reported(
        cases, [OVERLAP], "--image", "tables/a b.txt", status=1,
        json={"verdict": "no", "passed": False, "image": "tables/a b.txt", "findings": [finding]},
        tap=[(False, f"{OVERLAP}: {overlap}", None)],
        junit=[("Overlap", "failure", f"{OVERLAP}: {overlap}")],
        sarif=[("Overlap", "error", message, ["tables/a%20b.txt"])],
    )
    reported(cases, ["yes"], status=0, json={"verdict": "yes", "passed": True, "findings": []}, tap=[(True, "yes", None)], junit=[("yes", None, None)], sarif=[])
    for line in ("true", "rsdp 0xf59e0"):
        reported(cases, [line], status=0, json={"verdict": line, "passed": True, "findings": []}, tap=[(True, line, None)], junit=[(line, None, None)], sarif=[])
    listed = "Slot 3 lists the address 0x47fc198e, as slot 2 does."
    run = cases.run("report", "--format", "sarif", data=f"yes\n{LISTED}\n{SHAPE}\n{UNREAD}\n".encode())
    told = sarif_of(run.stdout.decode())
    cases.count("a message of advice", not told[0][2].startswith(f"{listed} Line of acpiset: {LISTED}. Numbers: at is the slot's number, ") and f"{told[0]}")
    cases.count("levels of advice", [one[:2] for one in told] != [("ListedTwice", "warning"), ("CacheShape", "note"), ("MadtUnread", "note")] and f"{told}", run.returncode and "its status")
    reported(
        cases, ["yes", LISTED], status=0,
        tap=[(True, "yes", None), (False, f"{LISTED}: {listed}", "TODO")],
        junit=[("yes", None, None), ("ListedTwice", "skipped", f"{LISTED}: {listed}")],
    )
    reported(
        cases, ["yes", LISTED], "--strict", status=1,
        tap=[(True, "yes", None), (False, f"{LISTED}: {listed}", None)],
        junit=[("yes", None, None), ("ListedTwice", "failure", f"{LISTED}: {listed}")],
    )
    for line in ("false", "rsdp none", "no rsdp", "refused Unaligned"):
        for form in FORMATS:
            run = cases.run("report", "--format", form, data=f"{line}\n".encode())
            told = read(form, run.stdout.decode())
            cases.count(f"{form} of {line}", run.returncode != 1 and f"status {run.returncode}", not (told["findings"] if form == "json" else told) and f"{told}")
    run = cases.run("report", "--format", "json", data=f"{TOP_NUMBERS}\n".encode())
    told = json.loads(run.stdout)["findings"][0]
    cases.count("numbers of 64 bits", (told["other"], told["point"]) != ("0xffffffff", "0xffffffffffffffff") and f"{told}")


def made(cases, form, lines):
    """A strict report of these lines, made in this process, since to start Python takes longer; and its status."""
    stdin = os.open(cases.path(cases.write("lines.txt", lines)), os.O_RDONLY)
    os.dup2(stdin, 0)
    os.close(stdin)
    return REPORT.job(["--format", form, "--strict"])


def each_name(cases):
    """The line of each fault's and each rule's example: its code and its first sentence are those of the document."""
    with open(os.path.join(TOP, "docs", "FAULTS.md"), encoding="utf-8") as file:
        page = file.read()
    parts = re.findall(r"^### ([0-9]+) ([A-Z][A-Za-z0-9]*)\n(.*?)(?=^##|\Z)", page, re.M | re.S)
    wrong = []
    for number, name, part in parts:
        line = EXAMPLE.search(part)[1]
        lines = line if line.startswith("no") else f"yes\n{line}"
        for form in FORMATS:
            text, status = made(cases, form, lines.encode() + b"\n")
            told = read(form, text.decode("ascii"))
            wrong += [f"{form} of {line}: {told}"] if status != 1 or isinstance(told, str) else []
            if form != "json":
                continue
            (finding,) = told["findings"]
            words = " ".join(re.search(r"^- (?:Wrong|Found): (.*?)(?=^- )", part, re.M | re.S)[1].replace("`", "").split())
            if (finding["code"], finding["name"]) != (int(number), name) or words[1:].find(" ".join(finding["text"].split())[1:]) != 0:
                wrong.append(f"{line}: {finding}")
    cases.count("the examples of FAULTS.md", "\n".join(wrong), len(parts) < 248 and f"{len(parts)} parts")


def no_verdicts(cases):
    """A verdict that is missing never passes."""
    for words, status in (((), 3), (("--status", "3"), 3), (("--status", "4"), 4), (("--status", "127"), 127), (("--status", "0"), 3), (("--status", "1"), 3)):
        for form in FORMATS:
            run = cases.run("report", "--format", form, *words)
            told = read(form, run.stdout.decode("ascii"))
            is_told = b"acpiset gave no verdict" in run.stdout and b"acpiset gave no verdict" in run.stderr
            is_passed = told["verdict"] is not None if form == "json" else told != [("verdict", "error", told[0][2])] if form == "junit" else told != []
            cases.count(f"{form} of nothing {words}", run.returncode != status and f"status {run.returncode}", not is_told and f"{run}", is_passed and f"{told}")
    cases.count("a cut line with its status", cases.run("report", "--format", "tap", "--status", "4", data=b"yes").returncode != 4 and "its status")
    cases.count("yes with status 1", cases.run("report", "--format", "tap", "--status", "1", data=b"yes\n").returncode != 1 and "its status")
    cases.count("no with status 0", cases.run("report", "--format", "tap", "--status", "0", data=b"no rsdp\n").returncode != 1 and "its status")


def refused(cases):
    for lines in (
        "ye", "yes\nyes", f"yes\n{OVERLAP}", f"{OVERLAP}\nyes", LISTED, f"no rsdp\n{LISTED}", f"{LISTED}\n{OVERLAP}", f"{OVERLAP}\n{LISTED}\n{OVERLAP}",
        "no 10 Overlap 0x90 0xb8", "no 10 Overlap 0x90 0xb8 0x1 0x2", "no 10 Overlap 90 b8 0", "no 010 Overlap 0x0 0x0 0x0", "no 10 Over-lap 0x0 0x0 0x0",
        "no 10 Overlap 0x90 0xb8 0x10000000000000000", "no 10 Overlap 0x90 0xB8 0x0", "@e0000", "yes ", "\x1b[31m", "yes\n\n", "true\ntrue", "\0",
        "rsdp 0xf59e0 revision 0", "rsdp 0xf59e0 revision 0\nroot", "rsdp 0xf59e0 revision 0\nslot 0 x", "rsdp 0xf59e0 revision 0\n0x2c lapic uid 0",
        "rsdp 0xf59e0 revision 0\nrow 0 10", "rsdp 0xf59e0 revision 0\nblock GPE0 gas 1", "rsdp 0xf59e0 revision 0\nmadt 0x1 lapic 0x0 flags",
    ):
        told = "standard input is image text" if lines.startswith("@") else ": not a line "
        cases.refuses(told, "report", "--format", "json", data=lines.encode() + b"\n", status=3)
    show = b"rsdp 0xf59e0 revision 0\nroot 0x1000 RSDT length 36 slots 0\n"
    for form in FORMATS[1:]:
        cases.refuses("--format json and html alone take them", "report", "--format", form, data=show, status=2)
    for words in ([], ["--format"], ["--format", "xml"], ["--help"], ["--format", "tap", "--rsdp", "0"], ["--format", "tap", "--image", ""]):
        cases.refuses("usage: report --format json|tap|junit|sarif|html", "report", *words, data=b"yes\n", status=2)
    for word in ("256", "-1", "", "1e1", "0x1", "\x1b[2J"):
        cases.refuses("no status from 0 to 255", "report", "--format", "tap", "--status", word, data=b"yes\n", status=2)
    many = b"yes\n" + (LISTED.encode() + b"\n") * 1000
    for form in FORMATS:
        cases.refuses("1001 lines of a verdict, and acpiset lint writes fewer than 1000", "report", "--format", form, data=many, status=3)
    for body in ("madt 0x3000\n0x2c ioapic id 0", "madt 0x3000\n0x2c lapic uid x id 0 flags 0x1", "slit 0x5000 count 2\nrow 0 10 20\nrow 1 20"):
        cases.refuses("of which no page can be drawn", "report", "--format", "html", data=f"rsdp 0xe0000 revision 2\n{body}\n".encode(), status=3)
    for body in (f"slot {'1' * 21} empty", f"slit 0x5000 count 2\nrow 0 {'1' * 21}", "slit 0x5000 count 2\nrow 0 1_0"):
        told = f"'{body.splitlines()[-1]}': not a line of acpiset show"
        cases.refuses(told, "report", "--format", "json", data=f"rsdp 0xe0000 revision 2\n{body}\n".encode(), status=3)
    cases.refuses("more than 67108864 bytes of lines", "report", "--format", "tap", data=b"y" * (1 << 26 | 1), status=3)


def names_of_images(cases):
    """A file's name as a terminal, XML, JSON and a URI take it."""
    name = b"a \x1b[31m<&\xc3\xa4\xff#%.txt"
    for form in FORMATS:
        run = cases.run("report", "--format", form, "--image", name, data=f"{OVERLAP}\n".encode())
        read(form, run.stdout.decode("ascii"))
        cases.count(f"{form} of an image with an odd name", re.search(rb"[^ -~\n]", run.stdout) and "bytes that are not printed", run.returncode != 1 and "its status")
        if form == "sarif":
            uri = sarif_of(run.stdout.decode())[0][3]
            cases.count("its URI", uri != ["a%20%1B%5B31m%3C%26%C3%A4%FF%23%25.txt"] and f"{uri}")
    uri = sarif_of(cases.run("report", "--format", "sarif", "--image", "/tmp/a b", data=f"{OVERLAP}\n".encode()).stdout.decode())[0][3]
    cases.count("the URI of a whole path", uri != ["file:///tmp/a%20b"] and f"{uri}")


def prove(cases):
    """perl's reader of TAP."""
    if not shutil.which("prove"):
        print("left out: TAP read by prove, which is not on this machine")
        return
    for lines, words, status in ((f"yes\n{LISTED}\n", [], 0), (f"yes\n{LISTED}\n", ["--strict"], 1), (f"{OVERLAP}\n", [], 1), ("", [], 1), ("yes\n", [], 0)):
        run = cases.run("report", "--format", "tap", *words, data=lines.encode())
        cases.write("report.tap", run.stdout)
        told = subprocess.run(["prove", "report.tap"], capture_output=True, cwd=cases.folder, timeout=600)
        cases.count(f"prove of {lines!r} {words}", (told.returncode != 0) != status and f"{told}")


def beside_no_modules(cases):
    """The tool and FAULTS.md without share/acpiset: advice has the first sentence of the page."""
    for part in ("tools/report", "docs/FAULTS.md"):
        os.makedirs(cases.path(os.path.join("bare", os.path.dirname(part))))
        shutil.copy(os.path.join(TOP, part), cases.path(os.path.join("bare", part)))
    words = [sys.executable, cases.path("bare/tools/report"), "--format", "tap"]
    run = subprocess.run(words, input=f"yes\n{LISTED}\n".encode(), capture_output=True, timeout=600)
    wanted = [(True, "yes", None), (False, f"{LISTED}: A slot holds the same address as an earlier slot.", "TODO")]
    told = read("tap", run.stdout.decode())
    cases.count("tap without modules", run.returncode and f"{run}", told != wanted and f"{told}")


def beside_no_document(cases):
    """The tool alone, without FAULTS.md."""
    shutil.copy(os.path.join(TOP, "tools", "report"), cases.path("alone"))
    for form in FORMATS:
        run = subprocess.run([sys.executable, cases.path("alone"), "--format", form], input=f"{OVERLAP}\n{LISTED}\n".encode(), capture_output=True, timeout=600)
        told = read(form, run.stdout.decode())
        cases.count(f"{form} without FAULTS.md", run.returncode != 1 and f"{run}", isinstance(told, str) and told, len(told["findings"] if form == "json" else told) != 2 and f"{told}")


# ---- show


def words_of_table(kind, table):
    """The lines of show on a table with entries, from what the tool made of them."""
    if "short" in table or "bad" in table:
        return [f"{kind} {table['address']} {'short' if 'short' in table else 'bad'}"]
    head = {name: value for name, value in table.items() if name not in ("address", "entries", "rows", "blocks")}
    lines = [" ".join([kind, table["address"], *(f"{name} {yes_or_no(value)}" for name, value in head.items())])]
    for entry in table.get("entries", []):
        rest = {name: value for name, value in entry.items() if name not in ("offset", "kind", "resources")}
        words = [entry["offset"], entry["kind"]]
        words += [entry["address"]] if entry["kind"] == "lapic-address" else [word for name, value in rest.items() for word in (name, str(value))]
        lines.append(" ".join([*words, *(["resources", *entry["resources"]] if "resources" in entry else [])]))
    return lines + [f"row {at} {' '.join(map(str, row))}" for at, row in enumerate(table.get("rows", []))]


def yes_or_no(value):
    return {True: "yes", False: "no"}[value] if isinstance(value, bool) else value


def words_of_show(told):
    """The lines of show, from what the tool made of them."""
    root = told["root"]
    lines = [f"rsdp {told['rsdp']['address']} revision {told['rsdp']['revision']}"]
    lines.append(f"root {root['address']} {root['signature']} length {root['length']} slots {root['slots']}")
    for slot in told["slots"]:
        rest = "empty" if slot.get("empty") else f"{slot['address']} {slot['signature']} length {slot['length']} revision {slot['revision']}"
        lines.append(f"slot {slot['slot']} {rest}")
    for kind in ("fadt", "facs", "madt", "srat", "slit", "pptt"):
        lines += words_of_table(kind, told[kind]) if kind in told and kind != "facs" else []
        if kind != "fadt":
            lines += words_of_table(kind, told[kind]) if kind in told and kind == "facs" else []
            continue
        lines += [f"dsdt {told['dsdt']}"] if "dsdt" in told else []
        for block in told.get("fadt", {}).get("blocks", []):
            names = ("space", "width", "offset", "access", "address") if block["form"] == "gas" else ("bytes", "address")
            lines.append(" ".join(["block", block["name"], block["form"], *(str(block[name]) for name in names)]))
    return lines


def shown_sets(cases):
    """Of the lines of show nothing is lost: they can be written anew from the report."""
    for folder in (os.path.join(TOP, "tests", "images"), os.path.join(TOP, "tests", "show", "images")):
        for name in sorted(os.listdir(folder)):
            if not name.endswith(".txt") or "acpidump" in name:
                continue
            with open(os.path.join(folder, name), "rb") as file:
                text = file.read()
            rsdp = re.search(r"^\| `?" + name.partition(".")[0] + r"`? .*\| ([0-9a-f]+) \|$", images_page(), re.M)
            _, lines = cases.answer(["show", *(["--rsdp", rsdp[1]] if rsdp else [])], text)
            if not lines.startswith("rsdp 0x"):
                continue
            run = cases.run("report", "--format", "json", data=lines.encode() + b"\n")
            told = words_of_show(json.loads(run.stdout))
            cases.count(f"show of {name}", run.returncode and f"{run}", told != lines.splitlines() and f"{told}, not {lines}")


def images_page():
    with open(os.path.join(TOP, "tests", "images", "README.md"), encoding="utf-8") as file:
        return file.read()


def shown_by_hand(cases):
    """Lines of each kind, and what JSON they are."""
    lines = [
        "rsdp 0xe0000 revision 2", "root 0x1000 XSDT length 52 slots 2", "slot 0 empty", "slot 1 0xffffffffffffffc0 A  . length 4294967295 revision 255",
        "fadt 0x2000 length 116 profile 0 sci 9 flags 0x100000 reduced yes", "dsdt 0x0", "block PM_TMR port 4 0x608", "block GPE0 gas 1 128 0 0 0x620",
        "facs 0x7000 bad", "madt 0x3000 lapic 0xfee00000 flags 0x1", "0x2c x2apic uid 4294967295 id 5 flags 0x3", "0x3c lapic-address 0x100000000", "0x48 cut",
        "srat 0x4000 short", "slit 0x5000 count 1", "row 0 10", "pptt 0x6000", "0x24 node flags 0x2 parent 0x0 id 1 resources 0x38 0x50", "0x38 entry type 7 length 2",
        "0x3a node flags 0x2 parent 0x0 id 1 resources",
    ]
    wanted = {
        "slots": [{"slot": 0, "empty": True}, {"slot": 1, "address": "0xffffffffffffffc0", "signature": "A  .", "length": 4294967295, "revision": 255}],
        "rsdp": {"address": "0xe0000", "revision": 2},
        "root": {"address": "0x1000", "signature": "XSDT", "length": 52, "slots": 2},
        "fadt": {
            "address": "0x2000", "length": 116, "profile": 0, "sci": 9, "flags": "0x100000", "reduced": True,
            "blocks": [
                {"name": "PM_TMR", "form": "port", "bytes": 4, "address": "0x608"},
                {"name": "GPE0", "form": "gas", "space": 1, "width": 128, "offset": 0, "access": 0, "address": "0x620"},
            ],
        },
        "dsdt": "0x0",
        "facs": {"address": "0x7000", "bad": True},
        "madt": {
            "address": "0x3000", "lapic": "0xfee00000", "flags": "0x1",
            "entries": [
                {"offset": "0x2c", "kind": "x2apic", "uid": 4294967295, "id": 5, "flags": "0x3"},
                {"offset": "0x3c", "kind": "lapic-address", "address": "0x100000000"},
                {"offset": "0x48", "kind": "cut"},
            ],
        },
        "srat": {"address": "0x4000", "short": True},
        "slit": {"address": "0x5000", "count": 1, "rows": [[10]]},
        "pptt": {
            "address": "0x6000",
            "entries": [
                {"offset": "0x24", "kind": "node", "flags": "0x2", "parent": "0x0", "id": 1, "resources": ["0x38", "0x50"]},
                {"offset": "0x38", "kind": "entry", "type": 7, "length": 2},
                {"offset": "0x3a", "kind": "node", "flags": "0x2", "parent": "0x0", "id": 1, "resources": []},
            ],
        },
    }
    reported(cases, lines, status=0, json=wanted)


def all_cases(cases):
    for part in (verdicts, each_name, no_verdicts, refused, names_of_images, prove, beside_no_modules, beside_no_document, shown_sets, shown_by_hand):
        part(cases)
