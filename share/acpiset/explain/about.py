"""What a line of acpiset is about in an image."""

from . import dmar, entries, fadt, fixed, further_tables, gtdt, hmat, ivrs
from .document import FIRST_RULE
from .report import Report
from .sentences import ROWS

# What says more of a fault's structures, by its stage, and of those of a finding of advice, by the tables that its rule is a row on, or by
# its number if it is no row.
OF_STAGES = {entries.madt: (6, 7, 8, 17), entries.srat: (9, 10, 16), entries.pptt: (12, 13, 14, 15, 18)}
OF_ROWS = {
    fadt.fadt_advice: ("fadt", "fadt_further"),
    entries.fadt_madt: ("fadt_with_madt",),
    entries.madt: ("madt", "madt_further", "gic", "madt_with_fadt", "madt_with_srat", "madt_with_pptt"),
    entries.srat: ("srat", "srat_with_madt", "srat_with_slit"),
    entries.pptt: ("pptt", "pptt_with_madt"),
    further_tables.mcfg: ("mcfg",),
    further_tables.hpet: ("hpet",),
    hmat.hmat: ("hmat", "hmat_with_srat"),
    gtdt.gtdt: ("gtdt", "gtdt_with_madt"),
    dmar.dmar: ("dmar", "dmar_scopes", "dmar_with_srat", "madt_with_dmar"),
    ivrs.ivrs: ("ivrs", "devices", "madt_with_ivrs"),
    further_tables.spcr: ("spcr",),
}
BY_HAND = {
    fixed.listed: (101, 102, 103, 148, 149),
    fixed.root_advice: (129, 130, 131, 280),
    fadt.fadt_advice: (133, 137, 138, 281),
    entries.fadt_madt: (108,),
    fadt.facs_advice: (146, 286),
    fixed.rsdp_advice: (147, 279),
    entries.madt: (161,),
    fixed.slit_advice: (121, 179),
    entries.pptt: (182, 311),
    further_tables.mcfg: (191,),
    hmat.hmat: (207,),
    gtdt.no_gtdt: (209,),
    gtdt.gtdt: (219,),
}
OF_RULES = {**BY_HAND}
for explain, lists in OF_ROWS.items():
    OF_RULES[explain] = (*BY_HAND.get(explain, ()), *(number for rows in lists for number in ROWS[rows]))


def about(line, tables, settings):
    """The lines of text on it."""
    report = Report(tables, settings)
    code, numbers = line.part.code, line.numbers
    if code == 0:
        of_yes(report)
    elif code < FIRST_RULE:
        of_fault(report, int(line.part.stage), code, *numbers)
    else:
        explained(report, OF_RULES, code, code, *numbers)
    return report.lines


def of_yes(report):
    """The structures that a `yes` does not cover, or that there are none."""
    if report.has_root():
        for signature in entries.STAGED:
            entries.unread(report, signature)
        if not report.lines:
            report.say("its MADT, SRAT and PPTT have no structures of types that the stages do not check")


def of_fault(report, stage, code, at, other, point):
    # Code 8 is about what the RSDP names, and code 26 about what the FADT names.
    if stage == 1 or code == 8:
        fixed.rsdp(report, code, at)
    elif stage == 2:
        fixed.root(report, code, at)
    elif stage == 3:
        fixed.listed(report, code, at, other, point)
    elif code == 19:
        fixed.signatures(report)
    elif stage == 4 or code == 26:
        fadt.fadt(report, code, at)
    elif stage == 5:
        fixed.facs(report, code, at)
    elif stage == 11:
        fixed.slit(report, code, at, other)
    else:
        explained(report, OF_STAGES, stage, code, at, other, point)


def explained(report, by, number, code, at, other, point):
    for explain, numbers in by.items():
        if number in numbers:
            explain(report, code, at, other, point)


def is_pluggable(line, tables):
    """Whether one of two ranges of memory that overlap is hot-pluggable."""
    srat = tables.first("SRAT")
    two = [srat.structure(at) for at in line.numbers[:2]] if srat else []
    return any(entries.is_one(one, "memory") and one.fields["flags"] >> 1 & 1 for one in two)
