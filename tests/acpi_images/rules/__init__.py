"""The rules of advice on an image, a module for each subject: a second reading by docs/TABLES.md and the sections of ACPI 6.5 that are
named in it, which shares no code with the program. A rule whose tables or fields are not there is kept."""

# Each adds its rules to the list of rule.py.
from . import dmar, domains, fadt, gic, gtdt, hmat, hpet, ivrs, madt, mcfg, pptt, spcr, tables
