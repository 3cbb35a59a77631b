"""The header of the library: its lists, which compilers accept it, and what it says when it is compiled."""

from acpi_images.advice import RULES_BY_NUMBER
from acpi_images.faults import STAGE_OF
from builds import HEADER, HERE, TOP, difference, refused_by, run, syntaxes

# Changes of parts that scripts/lists.py compares, and does not write.
BY_HAND = ("a kind's number", "a kind", "the version")


def lists(cases, scratch):
    """The lists of the header are those of the crates, and the script that compares them sees what differs."""
    script = TOP / "scripts" / "lists.py"
    told, status = run([script, "--check"])
    cases.count("lists of the header", told if told or status else "")
    text = HEADER.read_text()
    for name, old, new in (
        ("a code's number", "ACPISET_NO_FADT = 19", "ACPISET_NO_FADT = 18"),
        ("a code's name", 'return "NoFadt";', 'return "NoFADT";'),
        ("a rule's number", "ACPISET_SAME_UID = 109", "ACPISET_SAME_UID = 110"),
        ("a kind's number", "ACPISET_BAD_SIZE = 3", "ACPISET_BAD_SIZE = 13"),
        ("a kind", "ACPISET_BAD_HOTPLUG = 5,", ""),
        ("a kind's name", 'return "BadHotPlug";', 'return "BadHotplug";'),
        ("the stages", "1, 1, 1, 1, 1, 1, 1, 2", "1, 1, 1, 1, 1, 1, 2, 2"),
        ("a severity", "        return ACPISET_LOOK_AT_IT;", "        return ACPISET_LIKELY_WRONG;"),
        ("a field", "ACPISET_FIELD(acpiset_answer, point, 32, 8);", ""),
        ("the version", "#define ACPISET_ABI 1", "#define ACPISET_ABI 2"),
        ("the number of findings", "#define ACPISET_MOST_FINDINGS ", "#define ACPISET_MOST_FINDINGS 1"),
    ):
        cases.count(f"{name}, to be changed", "" if old in text else f"the header does not have {old}")
        other = scratch / "other.h"
        other.write_text(text.replace(old, new, 1))
        told, status = run([script, "--check", "--header", other])
        cases.count(f"{name}, changed", "" if told and status == 1 else f"{told}, status {status}")
        if name not in BY_HAND:
            run([script, "--header", other])
            cases.count(f"{name}, made anew", "" if other.read_text() == text else "another header")


def header(cases, scratch):
    """The header is accepted by each compiler with each standard, and refused where a struct of it differs from the library's."""
    folder = scratch / "include"
    folder.mkdir()
    text = HEADER.read_text()
    changes = (
        ("a wider field", "    uint32_t through;", "    uint64_t through;"),
        ("a narrower field", "struct acpiset_finding {\n    uint32_t number;", "struct acpiset_finding {\n    uint16_t number;"),
        ("a field in another place", "    uint32_t kind;  /* enum acpiset_kind */\n", ""),
        ("a field after the others", "    uint64_t point; /* its third number */", "    uint64_t point, more;"),
        ("two fields exchanged", "    const uint8_t *bytes;\n    size_t length;\n", "    size_t length;\n    const uint8_t *bytes;\n"),
    )
    for name, command in syntaxes():
        cases.count(f"the header, {name}", refused_by(command, HERE / "header.c", HEADER.parent))
        if name.endswith("=c99"):
            continue
        for what, old, new in changes:
            (folder / "acpiset.h").write_text(text.replace(old, new, 1))
            told = "" if text.count(old) == 1 else f"the header has {text.count(old)} of {old}"
            is_refused = "this struct differs from the library's" in refused_by(command, HERE / "header.c", folder)
            cases.count(f"{what}, {name}", told or ("" if is_refused else "accepted"))


KINDS = """Yes No OutOfMemory BadSize BadDefaultInputs BadHotPlug BadProcessors BadStage BadInputs BadCode PiecePastEnd PiecesOverlap
BadLine NoAddress TextOverlap TextPastEnd TextTooLong Unaligned TableTooLong PastEnd NeedsLow""".split()


# The rules of which nothing is known to be wrong, and those whose findings may be right; those of all others are likely wrong.
NOT_LOOKED_AT = {127, 128, 309}
LOOK_AT_IT = {
    121, 123, 129, *range(145, 150), 153, 157, 158, 172, 178, 181, 183, 184, 198, 199, 201, 202, 206, 212, 216, 219, 249, 253, 266, 275,
    *range(279, 287), 291, 298, 300, 301, 305, 306, 307, 310, 311,
}


def severity(rule):
    return 1 if rule in NOT_LOOKED_AT else 2 if rule in LOOK_AT_IT else 3


def names():
    """What header.c prints: codes, stages and rules as the second programs of tests/acpi_images have them, severities and kinds as
    above."""
    for number, (name, stage) in enumerate(STAGE_OF.items(), 1):
        yield f"{number} {name} {stage} 4"
    for number, rule in sorted(RULES_BY_NUMBER.items()):
        yield f"{number} {rule.name} 0 {severity(number)}"
    for number, name in enumerate(KINDS):
        yield f"kind {number} {name}"
    yield "settings 32 e0000 24 0 0 18"
    yield "abi 1 1"


def printed(cases, build, program):
    """What header.c prints."""
    told, status = run([program], env=build.environment())
    right = list(names())
    wrong = difference(set(told.splitlines()), set(right))
    if not wrong and (told.splitlines() != right or status != 0):
        wrong = f"{told}, status {status}"
    cases.count(f"header.c, {build.name}", wrong)
