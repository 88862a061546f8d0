"""What is read of the words that the program lists."""
from __future__ import annotations

import unittest
from unittest import mock

from afdx_tools import known
from afdx_tools.faults import Failed
from afdx_tools.known import Kind
from known_words import DROPS, LISTED, ask_no_program, called

ask_no_program()


class Listed(unittest.TestCase):
    """The words of a listing."""

    def setUp(self) -> None:
        known.drops.cache_clear()
        known.kinds.cache_clear()
        known.of_senders.cache_clear()
        self.addCleanup(known.drops.cache_clear)
        self.addCleanup(known.of_senders.cache_clear)
        self.addCleanup(known.kinds.cache_clear)

    def test_verdicts_in_the_order_of_the_program(self) -> None:
        self.assertEqual(known.drops(), DROPS)

    def test_lines_about_frames_in_the_order_of_columns(self) -> None:
        self.assertEqual(list(known.kinds().items()), [
            ("stopped", Kind(is_left=False, is_timed=False, is_finding=True)),
            ("strange", Kind(is_left=True, is_timed=False, is_finding=True)),
            ("passed", Kind(is_left=False, is_timed=False, is_finding=True)),
            ("late", Kind(is_left=False, is_timed=True, is_finding=True)),
            ("early", Kind(is_left=False, is_timed=True, is_finding=True)),
            ("unsure", Kind(is_left=False, is_timed=False, is_finding=False)),
        ])  # fmt: skip
        self.assertEqual(known.findings(), ("stopped", "strange", "passed", "late", "early"))

    def test_lines_about_what_systems_sent(self) -> None:
        self.assertEqual(list(known.of_senders().items()), [
            ("unlawful", "WORD"), ("number", "Q"), ("soon", "NS"), ("differs", ""),
            ("apart", "NS"), ("single", ""),
        ])  # fmt: skip

    def test_a_finding_that_has_no_column_comes_last(self) -> None:
        new = "line bent\nbent n side port: frame n of CAME left bent.\n"
        with mock.patch("afdx_tools.known.listed", return_value=new + LISTED):
            self.assertEqual(known.findings()[-1], "bent")

    def test_a_program_that_lists_no_lines_of_conform(self) -> None:
        for text in ("", "drop over-rate\nover-rate: why.\n"):
            with mock.patch("afdx_tools.known.listed", return_value=text):
                with self.assertRaisesRegex(Failed, "lists no lines of conform"):
                    known.kinds()

    def test_a_program_that_can_not_be_called(self) -> None:
        with mock.patch("afdx_tools.known.program", return_value="/nowhere/afdx"):
            with self.assertRaisesRegex(Failed, "^/nowhere/afdx can't be run: No such file"):
                called()


if __name__ == "__main__":
    unittest.main()
