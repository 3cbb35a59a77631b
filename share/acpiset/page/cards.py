"""The verdict, and a card for each finding."""

from .amounts import counted
from .markup import element, escaped

MOST_OF_IMAGE = 60  # lines of a card on what the image has


def card(number: int, finding, report, target, about) -> str:
    """What is wrong, how to correct it, the numbers, and a link to the place in a picture. `about` are lines on what the image has."""
    rule, kind = report.rule(finding), kind_of(finding)
    severity = f"{kind}: {rule.severity}" if rule.severity else kind
    tag = element("span", escaped(f"{kind.capitalize()} {number}"), class_=f"tag {kind}")
    parts = [element("h3", tag, " ", element("strong", escaped(finding.name)), " ", element("code", escaped(finding.line)))]
    if rule.wrong:
        parts.append(element("p", escaped(rule.wrong)))
    if rule.fix:
        parts.append(element("p", element("b", "Fix: "), escaped(rule.fix)))
    parts.append(numbers_of(finding, rule, severity))
    if about:
        lines = about[:MOST_OF_IMAGE]
        if len(about) > MOST_OF_IMAGE:
            lines.append(f".. and {counted(len(about) - MOST_OF_IMAGE, 'more line')}, which acpiset-explain writes")
        parts.append(element("details", element("summary", "In the image"), element("pre", "\n".join(map(escaped, lines)))))
    if target:
        parts.append(element("p", element("a", "Show it in the picture", href=f"#{target}"), class_="where"))
    return element("article", *parts, id=f"finding-{number}", class_=f"card {kind}")


def kind_of(finding) -> str:
    return "advice" if finding.kind == "advice" else "fault"


def numbers_of(finding, rule, severity: str) -> str:
    """The severity and the numbers of a line, with what they mean."""
    rows = [("Severity", severity)]
    if finding.stage:
        rows.append(("Stage", finding.stage))
    rows += finding.numbers.items()
    told = [part for name, value in rows for part in (element("dt", escaped(name)), element("dd", escaped(value)))]
    meaning = element("p", escaped(f"Numbers: {rule.numbers}"), class_="note") if rule.numbers else ""
    return element("dl", *told) + meaning


def verdict(report, source) -> str:
    """The answer of acpiset, in words, and how many findings there are."""
    if report.verdict is None:
        return banner("none", "no verdict", report.problem or "")
    findings = report.verdict.findings
    advice = sum(kind_of(finding) == "advice" for finding in findings)
    counts = ["no rule is broken"] if report.verdict.word == "yes" and not findings else []
    counts += [counted(len(findings) - advice, "fault")] if len(findings) > advice else []
    counts += [counted(advice, "finding of advice", "findings of advice")] if advice else []
    if advice:
        counts.append("advice fails too (--strict)" if report.is_strict else "advice is not a fault")
    through = f"checked through stage {source.last_stage} of 18 alone" if source.last_stage < 18 else ""
    told = ", ".join(filter(None, [*counts, through]))
    return banner("yes" if report.verdict.has_good_line else "no", report.verdict.word, told, source.checked)


def banner(class_: str, word: str, told: str, checked: str = "") -> str:
    """The word of the verdict; and the line of check, if it has more than the word."""
    parts = [element("strong", escaped(word)), escaped(f" {told}")]
    if checked not in ("", word):
        parts += [element("br"), element("code", escaped(f"acpiset check: {checked}"))]
    return element("p", *parts, class_=f"verdict {class_}")
