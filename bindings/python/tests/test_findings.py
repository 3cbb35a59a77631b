"""Findings: what follows from their numbers, and how they are shown."""

import copy
import ctypes
import dataclasses
import json
import pickle
import unittest

from acpiset import Advice, Code, Fault, Finding, Findings, Rule, Severity
from acpiset._library import library


class Numbers(unittest.TestCase):
    def test_codes_and_rules_have_their_numbers(self):
        self.assertEqual([code.value for code in Code], list(range(1, 60)))
        self.assertEqual([rule.value for rule in Rule], [*range(101, 220), *range(240, 277), *range(279, 312)])
        self.assertEqual((Code.RsdpOut, Code.Overlap, Code.LeafUnknown), (1, 45, 59))
        self.assertEqual((Rule.ListedTwice, Rule.X2ApicBelow255, Rule.PpttReserved), (101, 150, 184))

    def test_faults_have_the_stages_of_their_codes(self):
        # the last code of each stage, as the table of stages in docs/FAULTS.md has them
        last = (7, 14, 18, 25, 31, 38, 39, 40, 44, 45, 49, 51, 54, 55, 56, 57, 58, 59)
        expected = [next(stage for stage, end in enumerate(last, 1) if code <= end) for code in Code]
        self.assertEqual([Fault(code).stage for code in Code], expected)
        self.assertEqual({Fault(code).severity for code in Code}, {Severity.FAULT})

    def test_advice_has_the_severities_of_its_rules(self):
        self.assertEqual({Advice(rule).stage for rule in Rule}, {None})
        for rule, severity in (
            (Rule.MadtUnread, Severity.NOT_LOOKED_AT), (Rule.SratUnread, Severity.NOT_LOOKED_AT), (Rule.HeaderText, Severity.LOOK_AT_IT),
            (Rule.NullSlot, Severity.LOOK_AT_IT), (Rule.ListedTwice, Severity.LIKELY_WRONG), (Rule.NoDsdt, Severity.LIKELY_WRONG),
        ):
            self.assertEqual(Advice(rule).severity, severity, rule)
        self.assertLess(Severity.LIKELY_WRONG, Severity.FAULT)

    def test_each_says_what_is_wrong_and_what_to_fix(self):
        self.assertEqual(
            Fault(Code.RsdpOut).text,
            "The 20 bytes at the RSDP's address are not all in the image.\n"
            "Numbers: `at` is the RSDP's address.\n"
            "Fix: first make sure that the image is complete and the address right. Then check that the firmware writes an RSDP there.",
        )
        self.assertEqual(
            Advice(Rule.SlitDiffers).text,
            "The distance from locality i to locality j is not the distance from j to i.\n"
            "Numbers: `at` is the offset of the distance from i to j, with i below j, `other` that of the distance from j to i.\n"
            "Fix: write the same value to both cells, unless the two directions really differ. If many cells differ, check that each row "
            "has N bytes.",
        )
        for finding in (*map(Fault, Code), *map(Advice, Rule)):
            lines = finding.text.splitlines()
            self.assertEqual([line.split(" ")[0] for line in lines[1:]], ["Numbers:", "Fix:"], finding)
            self.assertNotRegex(finding.text, r"\]\(|  ", finding)

    def test_numbers_of_later_versions_are_kept(self):
        fault, advice = Fault(60, 1, 2, 3), Advice(999, 4)
        self.assertEqual((fault.number, fault.name, fault.stage, fault.severity), (60, "Unknown(60)", None, Severity.FAULT))
        self.assertEqual((advice.number, advice.name, advice.stage, advice.severity), (999, "Unknown(999)", None, None))
        self.assertEqual((str(fault), str(advice)), ("? Unknown(60) 0x1 0x2 0x3", "Unknown(999) 0x4 0x0 0x0"))
        self.assertIn("later library", fault.text)
        # A rule is no code.
        self.assertEqual((Fault(101).name, Advice(1).name), ("Unknown(101)", "Unknown(1)"))


class TheLibrary(unittest.TestCase):
    """The library says the same of a number, by its own lists."""

    def written(self, function, number):
        length = function(number, None, 0)
        room = ctypes.create_string_buffer(length + 1)
        self.assertEqual(function(number, room, length), length)
        return room.raw[:length].decode()

    def test_the_library_knows_each_number(self):
        functions = library().functions
        for finding in [*map(Fault, Code), *map(Advice, Rule)]:
            number = int(finding.number)
            self.assertEqual(functions["acpiset_stage"](number), finding.stage or 0)
            self.assertEqual(functions["acpiset_severity"](number), finding.severity)
            self.assertEqual(self.written(functions["acpiset_name"], number), finding.name)
            found, _, fix = finding.text.splitlines()
            told = self.written(functions["acpiset_explain"], number).removeprefix("Wrong: ").removeprefix("Found: ")
            self.assertEqual(told[0].upper() + told[1:], f"{found}\n{fix}")


class Values(unittest.TestCase):
    def test_findings_are_equal_if_their_numbers_are(self):
        fault = Fault(Code.Overlap, 0x30, 0x58, 0x1000)
        self.assertEqual(fault, Fault(45, 0x30, 0x58, 0x1000))
        self.assertEqual(hash(fault), hash(Fault(45, 0x30, 0x58, 0x1000)))
        for other in (Fault(44, 0x30, 0x58, 0x1000), Fault(45, 0x31, 0x58, 0x1000), Fault(45, 0x30, 0x59, 0x1000), Fault(45, 0x30, 0x58)):
            self.assertNotEqual(fault, other)
        self.assertNotEqual(Fault(999), Advice(999))

    def test_findings_do_not_change(self):
        fault = Fault(Code.Overlap)
        for name in ("number", "at", "name", "text"):
            with self.assertRaises(dataclasses.FrozenInstanceError):
                setattr(fault, name, 1)
        with self.assertRaises(dataclasses.FrozenInstanceError):
            Findings().faults = ()

    def test_findings_can_be_copied_sent_and_written_as_json(self):
        found = Findings((Fault(Code.Overlap, 0x30, 0x58),), (Advice(Rule.SlitDiffers, 0x2D, 0x30), Advice(999)))
        for again in (copy.deepcopy(found), pickle.loads(pickle.dumps(found))):
            self.assertEqual((again, str(again), again.faults[0].text), (found, str(found), found.faults[0].text))
        written = json.loads(json.dumps(dataclasses.asdict(found)))
        fault = {"number": 45, "at": 48, "other": 88, "point": 0, "name": "Overlap", "stage": 10, "severity": 4}
        self.assertEqual({**fault, "text": Fault(45).text}, written["faults"][0])
        self.assertEqual(dataclasses.replace(found.faults[0], point=7), Fault(45, 0x30, 0x58, 7))

    def test_findings_are_shown_as_the_program_has_them(self):
        fault, advice = Fault(Code.TableSum, 3, 0x7FFE249C), Advice(Rule.SlitDiffers, 0x2D, 0x30)
        self.assertEqual((repr(fault), repr(advice)), ("<Fault 3 TableSum 0x3 0x7ffe249c 0x0>", "<Advice SlitDiffers 0x2d 0x30 0x0>"))
        self.assertEqual(repr(Finding(Code.TableSum, 3)), "<Finding TableSum 0x3 0x0 0x0>")
        self.assertEqual(str(Findings((fault,), (advice,))), "no 3 TableSum 0x3 0x7ffe249c 0x0\nadvice SlitDiffers 0x2d 0x30 0x0")
        self.assertEqual(str(Findings((), (advice,))), "yes\nadvice SlitDiffers 0x2d 0x30 0x0")


if __name__ == "__main__":
    unittest.main()
