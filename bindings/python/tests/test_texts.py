"""Image texts and pieces."""

import unittest

import acpiset
from acpiset import image_text, pieces_of_text
from images import FIRMWARE, Image, example, text


class Texts(unittest.TestCase):
    def test_the_pieces_of_a_text(self):
        for content, pieces in (
            ("", []),
            ("@1000\n", []),
            ("@0\n00\n", [(0, b"\0")]),
            ("# comment\r\n@E0000 # 00\r\n\t52 5344\t20 \r\n\r\n50\r\n", [(0xE0000, b"RSD P")]),
            ("@10\n01\n@11\n02 # touches\n@13\n03\n", [(0x10, b"\1\2"), (0x13, b"\3")]),
            ("@20\n01\n@10\n02", [(0x20, b"\1"), (0x10, b"\2")]),
            ("@ffffffffffffffff\nFF\n", [(2**64 - 1, b"\xff")]),
        ):
            self.assertEqual(pieces_of_text(content), pieces, content)
            self.assertEqual(pieces_of_text(bytearray(content.encode())), pieces, content)

    def test_comments_may_have_any_bytes(self):
        self.assertEqual(pieces_of_text(b"@0 # \xff\xe9\n00"), [(0, b"\0")])
        self.assertEqual(pieces_of_text(b"@0 # \xff\xe9\n00".decode("utf-8", "surrogateescape")), [(0, b"\0")])
        self.assertEqual(pieces_of_text("@0 # caf\xe9\n00"), [(0, b"\0")])

    def test_the_text_of_pieces(self):
        self.assertEqual(image_text([]), "")
        self.assertEqual(image_text([(0xE0000, bytes(range(18))), (1, bytearray(b"\xff"))]), (
            "@e0000\n00 01 02 03 04 05 06 07 08 09 0a 0b 0c 0d 0e 0f\n10 11\n@1\nff\n"
        ))

    def test_a_text_and_its_pieces_are_one_image(self):
        for name in (*FIRMWARE, "example"):
            pieces = pieces_of_text(text(name))
            self.assertEqual(dict(pieces), dict(Image.named(name).pieces()), name)
            self.assertEqual(pieces_of_text(image_text(pieces)), pieces, name)

    def test_the_text_of_an_example_is_taken(self):
        self.assertIsNone(acpiset.check_text(image_text(example().pieces()), acpiset.Settings(0xE0000)))


if __name__ == "__main__":
    unittest.main()
