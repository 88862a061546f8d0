"""Lines of frame lists, and check sequences of frames."""
from __future__ import annotations

import os
import tempfile
import unittest

from afdx_tools.faults import Refused, cut, shown
from afdx_tools.lists import Listed, check_sequence, is_sealed, listed_of, read_list, sealed

LINE = "F 499999 A 1 030000000001020000000120"


class Lines(unittest.TestCase):
    """The five fields of a line."""

    def test_fields(self) -> None:
        listed = listed_of(7, LINE)
        self.assertEqual(listed, Listed(7, "F", 499_999, "A", 1, "030000000001020000000120"))
        self.assertEqual((listed.vl, listed.length), (1, 16))  # with a check sequence

    def test_a_raw_frame_has_its_check_sequence(self) -> None:
        self.assertEqual(listed_of(1, "R 0 B 24 03000000ffff").length, 6)
        self.assertEqual(listed_of(1, "R 0 B 24 03000000ffff").vl, 65_535)

    def test_other_destinations_name_no_link(self) -> None:
        for digits in ("-", "0300000000", "ffffffffffff", "030000010001"):
            self.assertIsNone(listed_of(1, f"F 0 A 1 {digits}").vl)

    def test_what_is_no_line_is_refused(self) -> None:
        for text in ("F 0 A 1", "Q 0 A 1 00", "F 0 C 1 00", "F x A 1 00", "F 0 A 1 00 00"):
            with self.assertRaisesRegex(Refused, "line 3 is no line of a frame list"):
                listed_of(3, text)

    def test_a_file(self) -> None:
        with tempfile.TemporaryDirectory() as folder:
            path = os.path.join(folder, "a.list")
            with open(path, "w", encoding="ascii", newline="") as file:
                file.write(f"# a remark\n\n{LINE}\r\n\r\nF 1 B 2 -")
            self.assertEqual([(each.line, each.side) for each in read_list(path)],
                             [(3, "A"), (5, "B")])
            with open(path, "w", encoding="ascii") as file:
                file.write("#" * 4_201 + "\n")
            with self.assertRaisesRegex(Refused, "line 1 has more than 4,200 bytes"):
                list(read_list(path))


class CheckSequences(unittest.TestCase):
    """The CRC-32 of Ethernet, whose check value for `123456789` is cbf43926."""

    def test_the_check_value_low_byte_first(self) -> None:
        self.assertEqual(check_sequence(b"123456789").hex(), "2639f4cb")

    def test_of_each_kind_of_line(self) -> None:
        digits = b"123456789".hex()
        right, wrong, raw = (sealed(Listed(1, kind, 0, "A", 1, digits)) for kind in "FBR")
        self.assertEqual(right, b"123456789\x26\x39\xf4\xcb")
        self.assertEqual(wrong, b"123456789\xd9\xc6\x0b\x34")
        self.assertEqual(raw, b"123456789")
        self.assertEqual([is_sealed(each) for each in (right, wrong, raw, b"")],
                         [True, False, False, False])

    def test_odd_digits_are_refused(self) -> None:
        with self.assertRaisesRegex(Refused, "line 5 has no hexadecimal digits"):
            sealed(Listed(5, "F", 0, "A", 1, "123"))


class Texts(unittest.TestCase):
    """Texts as they can be printed."""

    def test_what_a_terminal_would_obey(self) -> None:
        self.assertEqual(shown("a\x1b[0m\n"), "a\\x1b[0m\\n")
        self.assertEqual(shown("b\udcff"), "b\\xff")

    def test_a_long_one_is_cut(self) -> None:
        self.assertEqual(cut("abc", 3), "abc")
        self.assertEqual(cut("abcd", 3), "abc..")
        self.assertEqual(cut("ab\n", 3), "ab\\..")
