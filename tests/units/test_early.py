"""How much too early frames came: the program's `early` lines, and their rows in a report."""
from __future__ import annotations

import io
import unittest

try:
    import numpy as np
except ModuleNotFoundError:
    raise unittest.SkipTest("there is no package numpy") from None

from afdx_tools.faults import Refused
from afdx_tools.replay.early import Early
from afdx_tools.replay.listing import Listing
from afdx_tools.replay.named import Named
from afdx_tools.report.numbers import early_frames, early_rows
from small_replay import arrival, counted

# lines 1 and 4 say nothing, so the frames are of lines 2, 3, 5, 6, 7
LISTED = [
    "# a remark\n",
    arrival(0, "A", 10, 0),
    arrival(1_000, "A", 10, 1),
    "\n",
    arrival(2_000, "A", 10, 2),
    arrival(3_000, "B", 20, 0),
    arrival(4_000, "A", 10, 3),
]
WRITTEN = """V 2 A accept
V 3 A drop over-rate
V 5 A drop over-rate
V 6 B drop over-rate
V 7 A drop over-rate
"""


def read(errors: bytes, over_rate: np.ndarray | None = None) -> Early:
    """What standard error said of the list above."""
    listing = Listing(io.BytesIO("".join(LISTED).encode()))
    return Early(io.BytesIO(errors), Named(listing), over_rate)


class EarlyLines(unittest.TestCase):
    """The lines `early n NS` of standard error."""

    def test_lines_and_amounts_in_their_order(self) -> None:
        early = read(b"early 3 7999000\nearly 5 15998000\n")
        self.assertEqual(early.lines.tolist(), [3, 5])
        self.assertEqual(early.amounts.tolist(), [7_999_000, 15_998_000])
        self.assertEqual(early.fault, "")

    def test_a_last_line_that_was_cut_does_not_count(self) -> None:
        for rest in (b"early 5 159", b"early", b"e"):
            early = read(b"early 3 7999000\n" + rest)
            self.assertEqual(early.amounts.tolist(), [7_999_000])
            self.assertEqual(early.fault, "")

    def test_other_lines_are_the_fault(self) -> None:
        early = read(b"early 3 1\nlist BadLine 6\n")
        self.assertEqual(early.amounts.tolist(), [1])
        self.assertEqual(early.fault, "list BadLine 6")
        self.assertEqual(read(b"memory").fault, "memory")

    def test_nothing(self) -> None:
        early = read(b"")
        self.assertEqual((early.lines.tolist(), early.amounts.tolist()), ([], []))

    def test_amounts_of_many_digits(self) -> None:
        self.assertEqual(read(b"early 7 999999999999999\n").amounts.tolist(), [10**15 - 1])

    def test_a_number_that_no_line_has_is_refused(self) -> None:
        for number in (b"4", b"8"):
            with self.assertRaisesRegex(Refused, f"line {number.decode()} of the list is gone"):
                read(b"early " + number + b" 1\n")

    def test_of_two_recordings_the_next_frame_that_was_over_rate(self) -> None:
        lines = np.array([3, 5, 6])
        self.assertEqual(read(b"early 3 1\nearly 5 2\n", lines).lines.tolist(), [3, 5])
        with self.assertRaises(Refused):
            read(b"early 5 1\n", lines)


class EarlyRows(unittest.TestCase):
    """The rows of a report: by link and side, and the frames that came earliest."""

    def setUp(self) -> None:
        errors = "early 3 400\nearly 5 100\nearly 6 50\nearly 7 300\n"
        self.counting = counted(LISTED, WRITTEN, errors)

    def test_counts_medians_and_greatest(self) -> None:
        # of 100, 300, 400 the least that half don't exceed is 300
        self.assertEqual(
            early_rows(self.counting),
            [
                {"link": 10, "side": "A", "count": 3, "median": 300, "greatest": 400},
                {"link": 20, "side": "B", "count": 1, "median": 50, "greatest": 50},
            ],
        )

    def test_of_an_even_count_the_lower_median(self) -> None:
        errors = "early 3 400\nearly 5 100\nearly 6 50\n"
        self.assertEqual(early_rows(counted(LISTED, WRITTEN, errors))[0]["median"], 100)

    def test_the_earliest_frames_first(self) -> None:
        rows = early_frames(self.counting, 2)
        self.assertEqual([(row["line"], row["early_ns"]) for row in rows], [(3, 400), (7, 300)])
        self.assertEqual(rows[0]["number"], 1)

    def test_of_equal_ones_the_first(self) -> None:
        errors = "early 3 100\nearly 5 200\nearly 6 200\nearly 7 200\n"
        rows = early_frames(counted(LISTED, WRITTEN, errors), 2)
        self.assertEqual([row["line"] for row in rows], [5, 6])
