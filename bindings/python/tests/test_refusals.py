"""Each refusal, where the library itself refuses. Those of a later library are in test_other_libraries.py."""

import copy
import pickle
import resource
import subprocess
import sys
import unittest

import acpiset
from acpiset import (
    BadCode, BadDefaultInputs, BadHotPlug, BadInputs, BadLine, BadNumber, BadProcessors, BadStage, Code, Fault, LibraryNotFound, NoAddress,
    OtherVersion, OutOfMemory, PiecePastEnd, PiecesOverlap, Refusal, Settings, TextOverlap, TextPastEnd, TextTooLong, UnknownRefusal, check,
    check_text, confirm, find, lint, pieces_of_text,
)
from images import RSDP

SETTINGS = Settings(RSDP)
FAULT = Fault(Code.RsdpOut, RSDP)
LAST = 2**64 - 1
# Numbers that are outside 1 to 256, some of which would be inside if only their last 32 or 64 bits counted.
COUNTS = (0, 257, 2**32 - 1, 2**32 + 24, 2**64 + 24, -1)


class Refused(unittest.TestCase):
    def assert_refused(self, refusal, call, *arguments):
        """The call is refused with this refusal and its numbers."""
        with self.assertRaises(Refusal) as raised:
            call(*arguments)
        self.assertEqual((type(raised.exception), raised.exception.args), (type(refusal), refusal.args))

    def assert_each_refused(self, refusal, pieces, settings, text=b""):
        """Each call that takes settings is refused."""
        self.assert_refused(refusal, check, pieces, settings)
        self.assert_refused(refusal, confirm, pieces, settings, FAULT)
        self.assert_refused(refusal, lint, pieces, settings)
        if text is not None:
            self.assert_refused(refusal, check_text, text, settings)


class OfSettings(Refused):
    def test_counts_of_inputs(self):
        for count in COUNTS:
            self.assert_each_refused(BadDefaultInputs(), [], Settings(RSDP, default_inputs=count))
            self.assert_each_refused(BadInputs(1), [], Settings(RSDP, inputs=[(1, 1), (2, count)]))
        for count in (1, 256):
            settings = Settings(RSDP, default_inputs=count, inputs=[(1, count)])
            self.assertEqual(str(check([], settings)), "1 RsdpOut 0xe0000 0x0 0x0")

    def test_choices(self):
        for number in (2, 2**32 - 1, 2**32, 2**32 + 1, -1):
            self.assert_each_refused(BadHotPlug(), [], Settings(RSDP, hotplug=number))
            self.assert_each_refused(BadProcessors(), [], Settings(RSDP, processors=number))

    def test_stages(self):
        for stage in (0, 19, 2**32 - 1, 2**32 + 18, -1):
            settings = Settings(RSDP, through=stage)
            self.assert_refused(BadStage(), check, [], settings)
            self.assert_refused(BadStage(), check_text, b"", settings)
            self.assertTrue(confirm([], settings, FAULT))
            self.assertEqual(lint([], settings).faults, (FAULT,))

    def test_codes(self):
        for number in (0, 60, 101, 184, 2**32 - 1, 2**32 + 1, -1):
            self.assert_refused(BadCode(), confirm, [], SETTINGS, Fault(number, RSDP))
        advice = acpiset.Advice(acpiset.Rule.ListedTwice, 1, 0, 0x2000)
        self.assert_refused(BadCode(), confirm, [], SETTINGS, advice)

    def test_addresses_that_have_no_place_in_c(self):
        for address in (-1, LAST + 1, 2**64 + RSDP):
            self.assert_each_refused(BadNumber("settings.rsdp", address, LAST), [], Settings(address))
            pieces = [(0, b""), (address, b"x")]
            refusal = BadNumber("the address of pieces[1]", address, LAST)
            self.assert_each_refused(refusal, pieces, SETTINGS, None)
            self.assert_refused(refusal, find, pieces)
            self.assert_refused(refusal, acpiset.image_text, pieces)
        for address in (-1, 2**32):
            refusal = BadNumber("the address of settings.inputs[0]", address, 2**32 - 1)
            self.assert_each_refused(refusal, [], Settings(RSDP, inputs=[(address, 1)]))
        for name in ("at", "other", "point"):
            fault = Fault(Code.RsdpOut, **{name: LAST + 1})
            self.assert_refused(BadNumber(f"finding.{name}", LAST + 1, LAST), confirm, [], SETTINGS, fault)

    def test_other_types_are_errors(self):
        for settings in (Settings("e0000"), Settings(RSDP, default_inputs="24"), Settings(RSDP, through=1.0), Settings(RSDP, inputs=[7])):
            with self.assertRaises(TypeError):
                check([], settings)


class OfImages(Refused):
    def test_pieces_that_make_up_no_image(self):
        three, first = b"\1\2\3", (0x1000, b"\1\2\3")
        for pieces, refusal in (
            ([first, (LAST - 1, three)], PiecePastEnd(1)),
            ([(LAST, three), first], PiecePastEnd(0)),
            ([first, (0x1002, three)], PiecesOverlap(1, 0x1002)),
            ([first, (0xFFE, three)], PiecesOverlap(1, 0x1000)),
            ([first, first], PiecesOverlap(1, 0x1000)),
        ):
            self.assert_each_refused(refusal, pieces, SETTINGS, None)
            self.assert_refused(refusal, find, pieces)
        self.assertIsNone(find([first, (0x1003, three), (0xFFD, three), (LAST - 2, three)]))

    def test_texts_that_are_no_image_text(self):
        for text, refusal in (
            (b"@0\n01\nx\n", BadLine(3)),
            ("@0\n01\nx\n", BadLine(3)),
            ("@0\n0\xe9", BadLine(2)),
            (b"# no address\n01\n", NoAddress(2)),
            (b"@10\n01 02\n@11\n03", TextOverlap(0x11)),
            (b"@ffffffffffffffff\n01 02", TextPastEnd(2)),
            (b"#" * 65_537, TextTooLong()),
            (b"\n" * 67_108_865, TextTooLong()),
        ):
            self.assert_refused(refusal, check_text, text, SETTINGS)
            self.assert_refused(refusal, pieces_of_text, text)
        self.assertIsNotNone(check_text(b"#" * 65_536, SETTINGS))
        for text in (7, None, [b"@0"]):
            with self.assertRaises(TypeError):
                check_text(text, SETTINGS)

    def test_the_order_of_refusals(self):
        two = [(LAST, b"\1\2"), (0, b"\1"), (0, b"\1")]
        none = Fault(0)
        settings = dict(default_inputs=0, inputs=[(0, 0)], hotplug=2, processors=2, through=0)
        for usual, refusal in (
            ({}, BadDefaultInputs()), ({"default_inputs": 1}, BadHotPlug()), ({"hotplug": 0}, BadProcessors()),
            ({"processors": 0}, BadInputs(0)),
        ):
            settings.update(usual)
            for call, *more in ((check,), (confirm, none), (lint,)):
                self.assert_refused(refusal, call, two, Settings(RSDP, **settings), *more)
        settings["inputs"] = ()
        self.assert_refused(BadStage(), check, two, Settings(RSDP, **settings))
        self.assert_refused(BadCode(), confirm, two, Settings(RSDP, **settings), none)
        self.assert_refused(PiecePastEnd(0), lint, two, Settings(RSDP, **settings))
        settings["through"] = 1
        self.assert_refused(PiecePastEnd(0), check, two, Settings(RSDP, **settings))
        self.assert_refused(PiecesOverlap(1, 0), check, two[1:], Settings(RSDP, **settings))


# A process whose memory is limited to what it has and a little: Python has made the pieces, and the library has no room for the image. The
# pieces touch, so they are copied.
LIMITED = """
import resource, acpiset
pieces = [(at << 24, bytes(1 << 24)) for at in range(8)]
acpiset.abi()
used = int(open("/proc/self/statm").read().split()[0]) * resource.getpagesize()
resource.setrlimit(resource.RLIMIT_AS, (used + (1 << 25), resource.RLIM_INFINITY))
for call in (acpiset.check, acpiset.lint):
    try:
        print(call(pieces, acpiset.Settings(0)))
    except acpiset.OutOfMemory as refusal:
        print(refusal)
resource.setrlimit(resource.RLIMIT_AS, (resource.RLIM_INFINITY, resource.RLIM_INFINITY))
print(acpiset.check(pieces, acpiset.Settings(0)))
"""


class OfMemory(unittest.TestCase):
    def test_a_process_with_little_memory(self):
        if resource.getrlimit(resource.RLIMIT_AS)[1] != resource.RLIM_INFINITY:
            self.skipTest("the memory of this process is limited")
        ended = subprocess.run([sys.executable, "-c", LIMITED], capture_output=True, text=True, timeout=600)
        told = "out of memory\nout of memory\n1 RsdpSignature 0x0 0x0 0x0\n"
        self.assertEqual((ended.stdout, ended.stderr), (told, ""))


EACH = (
    LibraryNotFound("no file"), OtherVersion(2), BadNumber("settings.rsdp", -1, LAST), OutOfMemory(), acpiset.BadSize(), BadDefaultInputs(),
    BadHotPlug(), BadProcessors(), BadStage(), BadInputs(7), BadCode(), PiecePastEnd(7), PiecesOverlap(7, 8), BadLine(7), NoAddress(7),
    TextOverlap(8), TextPastEnd(7), TextTooLong(), acpiset.Unaligned(), acpiset.TableTooLong(),
    acpiset.PastEnd(), acpiset.NeedsLow(), UnknownRefusal(21, 7, 8),
)


class Exceptions(unittest.TestCase):
    def test_each_says_something_else(self):
        self.assertEqual(len({str(it) for it in EACH}), len(EACH))
        exported = {it for it in map(acpiset.__dict__.get, acpiset.__all__) if isinstance(it, type) and issubclass(it, Refusal)}
        self.assertEqual({type(it) for it in EACH} | {Refusal}, exported)

    def test_they_say_what_is_wrong(self):
        self.assertEqual(str(PiecePastEnd(0)), "pieces[0] passes the address 2^64 - 1")
        self.assertEqual(str(PiecesOverlap(1, 0x1002)), "pieces[1] and an earlier piece share addresses, the lowest of them 0x1002")
        self.assertEqual(str(BadNumber("settings.rsdp", -1, LAST)), "settings.rsdp is -0x1, outside 0 to 0xffffffffffffffff")
        overlap = PiecesOverlap(1, 0x1002)
        self.assertEqual((overlap.index, overlap.address, NoAddress(3).line, TextOverlap(4).address), (1, 0x1002, 3, 4))
        self.assertIsInstance(OutOfMemory(), MemoryError)

    def test_they_can_be_copied_and_sent_to_other_processes(self):
        for refusal in EACH:
            for again in (copy.copy(refusal), pickle.loads(pickle.dumps(refusal))):
                told = (type(again), again.args, str(again), vars(again))
                self.assertEqual(told, (type(refusal), refusal.args, str(refusal), vars(refusal)))


if __name__ == "__main__":
    unittest.main()
