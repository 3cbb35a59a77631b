#!/usr/bin/env python3
"""Reads the list of parts of an unpacked archive, and prints what is wrong with it: what SPDX 2.3 asks of a document in JSON, sums that
are not those of the files, parts that crates.txt names and the list does not, and licences whose texts the archive lacks. Where
`pyspdxtools` is installed, it is asked too.

usage: tests/parts_list.py FOLDER"""

import hashlib
import json
import re
import shutil
import subprocess
import sys
from pathlib import Path

import acpi_images  # noqa: F401

TOP = Path(__file__).resolve().parent.parent
IDENTIFIER = re.compile(r"SPDXRef-[A-Za-z0-9.-]+")
LICENCES = {"MIT", "Apache-2.0", "LGPL-2.1-or-later", "GPL-3.0-or-later", "GCC-exception-3.1"}
RELATIONS = {"DESCRIBES", "CONTAINS", "STATIC_LINK", "DYNAMIC_LINK", "BUILD_DEPENDENCY_OF"}
HEAD = {
    "spdxVersion": r"SPDX-2\.3",
    "dataLicense": r"CC0-1\.0",
    "SPDXID": "SPDXRef-DOCUMENT",
    "name": ".+",
    "documentNamespace": r"https://[^#\s]+",
}
# The fields of a package that the standard asks for, and those that a packager looks for.
FIELDS = {
    "name": ".+",
    "SPDXID": IDENTIFIER.pattern,
    "downloadLocation": r"NOASSERTION|NONE|https://\S+",
    "versionInfo": ".+",
    "licenseDeclared": ".+",
    "licenseConcluded": ".+",
    "copyrightText": ".+",
}


def of_fields(what, found, wanted):
    """Fields that are missing, or are no text of their kind."""
    for field, pattern in wanted.items():
        value = found.get(field)
        if not isinstance(value, str) or not re.fullmatch(pattern, value, re.S):
            yield f"{what}: {field} is {value!r}"


def of_licence(what, text):
    """Words of a licence that the standard's list does not have."""
    if text not in ("NOASSERTION", "NONE"):
        words = re.split(r" (?:OR|AND|WITH) ", text)
        yield from (f"{what}: no licence of the standard's list: {word}" for word in words if word not in LICENCES)


def of_head(document):
    yield from of_fields("document", document, HEAD)
    made = document.get("creationInfo", {})
    yield from of_fields("creationInfo", made, {"created": r"\d{4}-\d\d-\d\dT\d\d:\d\d:\d\dZ"})
    creators = made.get("creators", [])
    if not creators or not all(re.match(r"(Tool|Person|Organization): \S", it) for it in creators):
        yield f"creationInfo: creators is {creators!r}"


def of_package(it, folder):
    what = it.get("name", "a package")
    yield from of_fields(what, it, FIELDS)
    yield from of_licence(what, it.get("licenseDeclared", "NONE"))
    if it.get("filesAnalyzed") is not False:
        yield f"{what}: its files are not listed, and filesAnalyzed is not false"
    for sum_of in it.get("checksums", []):
        file = folder / it["packageFileName"]
        if sum_of != {"algorithm": "SHA256", "checksumValue": hashlib.sha256(file.read_bytes()).hexdigest()}:
            yield f"{what}: its sum is not that of {file}"


def of_relations(document):
    known = {"SPDXRef-DOCUMENT", *(it.get("SPDXID") for it in document["packages"])}
    if len(known) != len(document["packages"]) + 1:
        yield "two packages have one SPDXID"
    for it in document["relationships"]:
        if it["relationshipType"] not in RELATIONS:
            yield f"relationship of an unknown kind: {it}"
        for end in ("spdxElementId", "relatedSpdxElement"):
            if it[end] not in known:
                yield f"relationship with a package that is not there: {it}"
    tied = {it[end] for it in document["relationships"] for end in ("spdxElementId", "relatedSpdxElement")}
    yield from (f"{it} is tied to nothing" for it in sorted(known - tied))


def names_in_crates_txt():
    """The crates and the libraries of the toolchain that crates.txt names."""
    lines = (TOP / "crates.txt").read_text().splitlines()
    rows = [line.partition("#")[0].partition(":") for line in lines]
    crates = {row[0].split()[0] for row in rows if row[0].strip()}
    return crates, {name for row in rows for name in row[2].split()} - crates


def of_parts(document, folder):
    """Parts of crates.txt that are missing, and licences without a text."""
    packages = {it["name"]: it for it in document["packages"]}
    crates, libraries = names_in_crates_txt()
    crates -= {"acpi_edit_rows", "acpi_edits", "acpi_examples", "acpi_tests"}  # They are in no product.
    if not (folder / "lib" / "libacpiset.a").exists():
        crates -= {"acpi_c"}
    for name in sorted({*crates, *libraries, "acpiset", "rattle-std", "glibc"} - {*packages}):
        yield f"{name} is not listed"
    notices = (folder / "share/doc/acpiset/NOTICES.md").read_text()
    for name, it in packages.items():
        if "port of" in it.get("comment", "") and f"\n## {name}\n" not in notices:
            yield f"{name}: NOTICES.md has no part of that name"
    has_c_library = (folder / "licences" / "LGPL-2.1.txt").exists()
    is_static = {"spdxElementId": "SPDXRef-acpiset", "relationshipType": "STATIC_LINK", "relatedSpdxElement": "SPDXRef-glibc"} in document["relationships"]
    if has_c_library != is_static:
        yield f"the C library is inside: {is_static}; its licence is there: {has_c_library}"


def of_validator(file):
    """What a program says that knows the standard, where there is one."""
    validator = shutil.which("pyspdxtools")
    if validator:
        ran = subprocess.run([validator, "-i", str(file)], stdout=subprocess.PIPE, stderr=subprocess.STDOUT, text=True)
        if ran.returncode:
            yield f"pyspdxtools: {ran.stdout}"


def main():
    if len(sys.argv) != 2:
        sys.exit(__doc__.partition("\n\n")[2])
    folder = Path(sys.argv[1])
    file = folder / "acpiset.spdx.json"
    document = json.loads(file.read_text())
    wrong = [*of_head(document), *of_relations(document), *of_parts(document, folder), *of_validator(file)]
    for it in document["packages"]:
        wrong += of_package(it, folder)
    print(*wrong, sep="\n", end="\n" if wrong else "")
    sys.exit(1 if wrong else 0)


if __name__ == "__main__":
    main()
