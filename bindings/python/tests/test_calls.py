"""Each call with each answer, on images whose answers were worked out by hand."""

import array
import mmap
import unittest
from concurrent.futures import ThreadPoolExecutor
from pathlib import Path

import acpiset
from acpiset import Code, Fault, HotPlug, Processors, Rule, Settings, check, check_text, confirm, find, lint, rebuild, show
from acpiset._library import PieceArray
from images import FIRMWARE, MADT, RSDP, SLIT, SRAT, Image, example, mistakes, text

SETTINGS = Settings(RSDP)
# What show prints of images of firmware, as the tests of the program have it.
SHOWN = Path(__file__).resolve().parents[3] / "tests" / "show" / "images"
# What lint says of the example with mistakes.
LINES = """\
no 3 TableSum 0x3 0x5000 0x0
no 10 Overlap 0x50 0x78 0x40000000
no 11 SlitDiagonal 0x2c 0x0 0x0
advice FadtOfRevision 0x4 0xf4 0x114
advice SameApicId 0x34 0x2c 0x0
advice SameIoApicId 0x48 0x3c 0x0
advice AffinityNowhere 0x40 0x0 0x1
advice SlitDiffers 0x2d 0x2e 0x0
advice NoDsdt 0x28 0x0 0x0
advice NoPm1Block 0x38 0x0 0x0
advice HalfBlock 0x4c 0x4 0x0
advice SciZero 0x2e 0x0 0x0
advice NoPackage 0x38 0x0 0x0"""


def line(fault):
    return "yes" if fault is None else str(fault)


class Answers(unittest.TestCase):
    def test_the_library_has_the_version_of_the_package(self):
        self.assertEqual((acpiset.abi(), acpiset.ABI), (1, 1))

    def test_a_valid_set_has_no_fault(self):
        pieces = example().pieces()
        self.assertIsNone(check(pieces, SETTINGS))
        self.assertIsNone(check_text(text("example"), SETTINGS))
        self.assertIsNone(check_text(text("example").encode(), SETTINGS))
        self.assertEqual(find(pieces), RSDP)
        found = lint(pieces, SETTINGS)
        self.assertEqual((found.faults, str(found).splitlines()[0]), ((), "yes"))

    def test_a_check_reports_the_first_fault_of_its_stages(self):
        image = mistakes()
        self.assertEqual(line(check(image.pieces(), SETTINGS)), "3 TableSum 0x3 0x5000 0x0")
        self.assertIsNone(check(image.pieces(), Settings(RSDP, through=2)))
        image.fix_sum(SLIT)
        fault = check(image.pieces(), SETTINGS)
        self.assertIsNone(check(image.pieces(), Settings(RSDP, through=9)))
        self.assertEqual((fault.number, fault.stage, line(fault)), (Code.Overlap, 10, "10 Overlap 0x50 0x78 0x40000000"))
        self.assertEqual(fault, Fault(Code.Overlap, 0x50, 0x78, 0x40000000))

    def test_lint_reports_the_first_fault_of_each_code_and_advice(self):
        pieces = mistakes().pieces()
        found = lint(pieces, SETTINGS)
        self.assertEqual(str(found), LINES)
        # It ignores the last stage that a check goes through.
        self.assertEqual(lint(pieces, Settings(RSDP, through=0)), found)

    def test_each_fault_that_lint_reports_is_confirmed(self):
        pieces = mistakes().pieces()
        faults = lint(pieces, SETTINGS).faults
        self.assertEqual(len(faults), 3)
        for fault in faults:
            beside = Fault(fault.number, fault.at + 1, fault.other, fault.point)
            self.assertIs(confirm(pieces, SETTINGS, fault), True, fault)
            self.assertIs(confirm(example().pieces(), SETTINGS, fault), False, fault)
            self.assertIs(confirm(pieces, SETTINGS, beside), False, beside)

    def test_an_rsdp_is_found_where_a_bios_puts_it(self):
        rsdp = example().parts[RSDP]
        for address, is_found in (
            (0xE0000, True), (0xFFFF0, True), (0xFFFD0, True), (0xE0008, False), (0x100000, False), (0xDFFF0, False),
        ):
            self.assertEqual(find([(address, rsdp)]), address if is_found else None, hex(address))
        self.assertIsNone(find([]))
        self.assertEqual(find([(0xF0000, rsdp), (0xE1230, rsdp)]), 0xE1230)

    def test_images_of_firmware_have_their_verdicts(self):
        for name, (rsdp, said) in FIRMWARE.items():
            self.assertEqual(line(check_text(text(name), Settings(rsdp))), said, name)
            self.assertEqual(line(check(Image.named(name).pieces(), Settings(rsdp))), said, name)
            self.assertEqual(line(check(acpiset.pieces_of_text(text(name)), Settings(rsdp))), said, name)

    def test_advice_on_firmware(self):
        rsdp, _ = FIRMWARE["q11-efi-virt-caches"]
        found = lint(Image.named("q11-efi-virt-caches").pieces(), Settings(rsdp))
        self.assertEqual(str(found), "yes\nadvice ListedTwice 0x3 0x2 0x47fc198e")
        advice = found.advice[0]
        self.assertEqual((advice.number, advice.at, advice.other, advice.point), (Rule.ListedTwice, 3, 2, 0x47FC198E))


class Made(unittest.TestCase):
    """Texts and bytes."""

    def test_images_of_firmware_are_shown(self):
        for name, (rsdp, _) in FIRMWARE.items():
            told = show(Image.named(name).pieces(), Settings(rsdp))
            self.assertEqual(told, (SHOWN / f"{name}.txt").read_text(), name)

    def test_a_set_is_shown_if_stages_1_to_3_hold(self):
        image = mistakes()
        self.assertEqual(show(image.pieces(), SETTINGS), check(image.pieces(), SETTINGS))
        image.fix_sum(SLIT)
        self.assertEqual(line(check(image.pieces(), SETTINGS)), "10 Overlap 0x50 0x78 0x40000000")
        self.assertTrue(show(image.pieces(), SETTINGS).startswith("rsdp 0xe0000 "))
        self.assertEqual(show([], SETTINGS), Fault(Code.RsdpOut, RSDP))

    def test_a_set_is_rebuilt(self):
        pieces = example().pieces()
        for base in (0, 0x10000000, 2**32):
            memory = rebuild(pieces, SETTINGS, base)
            there = [(base, memory)], Settings(base)
            self.assertIsNone(check(*there))
            self.assertEqual(rebuild(*there, base), memory)
            entries = [[it for it in show(*of).splitlines() if it.startswith("0x")] for of in ((pieces, SETTINGS), there)]
            self.assertGreater(len(entries[0]), 5)
            self.assertEqual(*entries)
        self.assertEqual(rebuild(mistakes().pieces(), SETTINGS, 0), check(mistakes().pieces(), SETTINGS))

    def test_why_a_set_is_not_rebuilt(self):
        pieces = example().pieces()
        for base, refusal in ((32, acpiset.Unaligned), (2**64 - 64, acpiset.PastEnd), (2**64, acpiset.BadNumber), (-64, acpiset.BadNumber)):
            with self.assertRaises(refusal):
                rebuild(pieces, SETTINGS, base)
        with self.assertRaises(TypeError):
            rebuild(pieces, SETTINGS, "0")


class Images(unittest.TestCase):
    """How an image is passed."""

    def test_pieces_come_in_any_order_and_size(self):
        pieces = mistakes().pieces()
        verdict = check(pieces, SETTINGS)
        for _ in pieces:
            pieces.append(pieces.pop(0))
            self.assertEqual(check(pieces, SETTINGS), verdict)
        for size in (1, 7, 64):
            small = [(at + cut, data[cut : cut + size]) for at, data in pieces for cut in range(0, len(data), size)]
            small.reverse()
            self.assertEqual((check(small, SETTINGS), str(lint(small, SETTINGS))), (verdict, LINES), size)

    def test_lists_may_be_empty(self):
        for own in ([], (), iter([])):
            self.assertEqual(line(check(own, SETTINGS)), "1 RsdpOut 0xe0000 0x0 0x0")
        self.assertEqual(line(check_text(b"", SETTINGS)), "1 RsdpOut 0xe0000 0x0 0x0")
        self.assertEqual(str(lint([], SETTINGS)), "no 1 RsdpOut 0xe0000 0x0 0x0")
        self.assertTrue(confirm([], SETTINGS, Fault(Code.RsdpOut, RSDP)))
        pieces = example().pieces()
        for address in (0, RSDP, RSDP + 1, 2**64 - 1):
            pieces = [(address, b""), *pieces, (address, bytearray())]
        self.assertIsNone(check(pieces, SETTINGS))

    def test_the_last_addresses_can_be_used(self):
        rsdp = 2**64 - 20
        self.assertEqual(line(check([(rsdp, bytes(20))], Settings(rsdp))), f"1 RsdpSignature {rsdp:#x} 0x0 0x0")

    def test_any_buffer_is_taken(self):
        rsdp = bytes(example().parts[RSDP])
        mapped = mmap.mmap(-1, mmap.PAGESIZE)
        mapped[: len(rsdp)] = rsdp
        every_other = memoryview(bytes(byte for own in rsdp for byte in (own, 0xFF)))[::2]
        numbers = array.array("H", [int.from_bytes(rsdp[at : at + 2], "little") for at in range(0, len(rsdp), 2)])
        for buffer in (rsdp, bytearray(rsdp), memoryview(rsdp), mapped, every_other, numbers):
            self.assertEqual(find([(RSDP, buffer)]), RSDP, type(buffer))
        mapped.close()

    def test_subclasses_of_bytes_are_read_to_their_own_end(self):
        class Longer(bytes):
            def __len__(self):
                return 1 << 40

        self.assertEqual(find([(RSDP, Longer(example().parts[RSDP]))]), RSDP)

    def test_what_can_change_is_copied_before_a_call(self):
        fixed, changing = b"fixed", bytearray(b"first")
        made = PieceArray([(0, fixed), (0x1000, changing), (2**64 - 1, b"")])
        changing[:] = b"other"
        self.assertIs(made.kept[0][1], fixed)
        told = [(piece.address, piece.bytes, piece.length) for piece in made.array]
        self.assertEqual(told, [(0, b"fixed", 5), (0x1000, b"first", 5), (2**64 - 1, b"", 0)])

    def test_buffers_are_free_after_a_call(self):
        data = bytearray(example().parts[RSDP])
        self.assertEqual(find([(RSDP, data)]), RSDP)
        data += b"more"

    def test_pieces_of_a_generator_are_kept_until_the_call_returns(self):
        made = ((address, bytes(data)) for address, data in mistakes().pieces())
        self.assertEqual(line(check(made, SETTINGS)), "3 TableSum 0x3 0x5000 0x0")

    def test_other_types_are_errors(self):
        for pieces in ([(RSDP, "text")], [(RSDP, 20)], [(RSDP, [1, 2])], [("e0000", b"")], [(1.5, b"")], [7], 7):
            with self.assertRaises(TypeError):
                check(pieces, SETTINGS)
        with self.assertRaises(ValueError):
            check([(RSDP, b"", 3)], SETTINGS)


class Choices(unittest.TestCase):
    """Settings that change a verdict."""

    def test_hot_pluggable_ranges_can_be_apart(self):
        rsdp, said = FIRMWARE["sb-pc-nvdimm-numa"]
        pieces = Image.named("sb-pc-nvdimm-numa").pieces()
        self.assertEqual(line(check(pieces, Settings(rsdp, hotplug=HotPlug.COUNTED))), said)
        self.assertIsNone(check(pieces, Settings(rsdp, hotplug=HotPlug.APART)))

    def test_processors_that_can_be_brought_online_can_count(self):
        image = example()
        image.set(MADT + 56, [2])
        image.set(SRAT + 51, [1])
        image.fix_sum(MADT)
        image.fix_sum(SRAT)
        self.assertIsNone(check(image.pieces(), SETTINGS))
        fault = check(image.pieces(), Settings(RSDP, processors=Processors.USABLE))
        self.assertEqual(fault.number, Code.TwoDomains)

    def test_the_first_number_of_inputs_of_an_address_counts(self):
        pieces = example().pieces()
        few, many = (0xFEC00000, 24), (0xFEC00000, 25)
        for settings, said in (
            (Settings(RSDP, inputs=[few, many]), "yes"),
            (Settings(RSDP, inputs=(many, few)), "7 GsiClash 0x3c 0x48 0x18"),
            (Settings(RSDP, default_inputs=25), "7 GsiClash 0x3c 0x48 0x18"),
            (Settings(RSDP, default_inputs=256, inputs=[few]), "yes"),
        ):
            self.assertEqual(line(check(pieces, settings)), said, settings)

    def test_inputs_of_a_generator_count_in_each_call(self):
        pieces = example().pieces()
        settings = Settings(RSDP, inputs=(it for it in [(0xFEC00000, 25)]))
        for _ in range(3):
            self.assertEqual(line(check(pieces, settings)), "7 GsiClash 0x3c 0x48 0x18")


class Threads(unittest.TestCase):
    def test_threads_call_at_the_same_time(self):
        images = [(example().pieces(), RSDP), (mistakes().pieces(), RSDP)]
        images += [(Image.named(name).pieces(), FIRMWARE[name][0]) for name in ("sb-pc-nvdimm-numa", "q11-efi-virt-caches")]
        expected = ["yes", LINES.splitlines()[0], "no 10 Overlap 0x90 0xb8 0x100000000", "yes"]

        def ask(place):
            pieces, rsdp = images[place % len(images)]
            first = check(pieces, Settings(rsdp))
            found = lint(pieces, Settings(rsdp))
            return str(found).splitlines()[0], first == (found.faults[0] if found.faults else None)

        with ThreadPoolExecutor(8) as pool:
            answers = list(pool.map(ask, range(400)))
        self.assertEqual(answers, [(expected[place % len(images)], True) for place in range(400)])

    def test_other_threads_run_during_a_call(self):
        # A call that lasts: it copies and sorts many pieces.
        pieces = [(2 * at, b"\0") for at in range(200_000, 0, -1)]
        with ThreadPoolExecutor(2) as pool:
            long = pool.submit(check, pieces, SETTINGS)
            self.assertEqual(str(lint(mistakes().pieces(), SETTINGS)), LINES)
            self.assertEqual(line(long.result()), "1 RsdpOut 0xe0000 0x0 0x0")


if __name__ == "__main__":
    unittest.main()
