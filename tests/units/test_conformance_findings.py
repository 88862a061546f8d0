"""What is made of the findings of a recorded switch: by kind, and by the numbers of frames."""
from __future__ import annotations

import unittest

try:
    from small_replay import CONFIG, arrival
except ModuleNotFoundError:
    raise unittest.SkipTest("there is no package numpy") from None

from afdx_tools.conformance.frames import frame_of_line
from afdx_tools.conformance.grouping import firsts, groups, left_twice
from afdx_tools.conformance.judging import judged_of
from afdx_tools.conformance.losses import skipped
from afdx_tools.conformance.measuring import Measured
from afdx_tools.conformance.numbers import Numbers, no_verdict
from afdx_tools.conformance.options import Options
from afdx_tools.lists import listed_of
from afdx_tools.replay.checked import checked_of
from afdx_tools.tables import Row

INSIDE = 70_000  # ns that a frame is inside


def numbers_of(came: list[int], left: list[int], *found: str) -> Numbers:
    """Frames of link 10 with these numbers, each ms one; those that left do it INSIDE later."""
    texts = [arrival(number * 10**6, "A", 10, number).rstrip() for number in came]
    gone = [arrival(number * 10**6 + INSIDE, "A", 10, number).rstrip().replace(" A 1 ", " A 3 ")
            for number in left]  # fmt: skip
    frames = [[frame_of_line(listed_of(n, text)) for n, text in enumerate(each, 1)]
              for each in (texts, gone)]  # fmt: skip
    judged = judged_of(found)
    measured = Measured(CONFIG, Options(), frames[0], frames[1], judged.deviations)
    return Numbers(CONFIG, checked_of(["ok"]), judged, measured)


def kinds(numbers: Numbers) -> list[str]:
    """The groups in words."""
    rows = groups(numbers.deviations(), left_twice(numbers.measured))
    return [row["words"] for row in rows]


class Losses(unittest.TestCase):
    """Numbers that are missing where frames came, or where they left."""

    def said(self, came: list[int], left: list[int], *found: str) -> list[str]:
        """What the numbers say of each finding."""
        return [row["by_numbers"] for row in numbers_of(came, left, *found).deviations()]

    def test_missing_numbers(self) -> None:
        for before, after, missing in (
            (16, 18, {17}), (16, 17, set()), (254, 2, {255, 1}), (0, 2, {1}), (255, 1, set()),
            (7, 0, set()), (7, 7, set()), (7, 6, set()), (None, 6, set()), (6, None, set()),
        ):  # fmt: skip
            self.assertEqual(skipped(before, after), missing, (before, after))
        self.assertEqual((len(skipped(1, 128)), len(skipped(1, 129))), (126, 0))

    def test_one_left_and_never_came(self) -> None:
        said = self.said([16, 18, 19], [16, 17, 18, 19], "strange 2 A 3 no-arrival")
        self.assertEqual(said, ["number 17 left and never came: the recorder's"])

    def test_said_at_the_first_finding_behind_it(self) -> None:
        said = self.said([16, 19, 20], [16, 17, 18, 19, 20], "stopped 2 A 3", "stopped 3 A 3")
        self.assertEqual(said, ["numbers 17 and 1 more left and never came: the recorder's", ""])
        self.assertEqual(self.said([16, 18], [16, 17, 18], "late 1 A 3 1", "late 2 A 3 1"),
                         ["number 17 left and never came: the recorder's", ""])
        self.assertEqual(self.said([15, 16, 18], [15, 16, 17, 18], "late 1 A 3 1"), [""])

    def test_one_came_and_never_left(self) -> None:
        said = self.said([16, 17, 18], [16, 18], "stopped 2 A 3")
        self.assertEqual(said, ["number 17 came, and never left here"])

    def test_a_number_that_both_lack_says_nothing(self) -> None:
        said = self.said([16, 18], [16, 18], "stopped 2 A 3")
        self.assertEqual(said, [""])

    def test_a_frame_that_is_not_whole_says_nothing(self) -> None:
        said = self.said([16, 18], [16, 17, 18], "strange 2 A 3 bad-fcs", "late 2 A 3 1")
        self.assertEqual(said, ["", ""])


class Kinds(unittest.TestCase):
    """So many findings of a kind."""

    def test_in_words(self) -> None:
        numbers = numbers_of(
            [1, 2, 3, 4, 5], [1, 2, 2, 3, 3, 6], "late 1 A 3 17", "late 4 A 3 20",
            "strange 3 A 3 out-of-turn", "strange 5 A 3 no-arrival", "strange 6 A 3 no-arrival",
            "passed 5 A 3 over-rate", "stopped 5 A 3", "early 5 A 3 8", "unsure 5 A 3",
        )  # fmt: skip
        self.assertEqual([words.replace(" of link 10 at port 3 of A", "")
                          for words in kinds(numbers)], [
            "2 frames left late, by up to 20 ns",
            "2 frames left twice",
            "1 frame left and never came",
            "1 frame left, and had to be dropped: over-rate",
            "1 frame had to leave, and didn't in time",
            "1 frame left before they can have, by up to 8 ns",
            "1 frame came from which on nothing is said",
        ])  # fmt: skip

    def test_the_first_of_each_stream(self) -> None:
        rows = numbers_of([1, 2], [1], "late 1 A 3 1", "stopped 2 A 3", "stopped 1 B 3")
        self.assertEqual([row["what"] for row in firsts(rows.deviations())], ["late", "stopped"])


class Faults(unittest.TestCase):
    """What stands before a fault is no verdict."""

    def said(self, fault: str, count: int = 52) -> str:
        """What is said of so many findings before a fault."""
        report: Row = {"fault": fault, "deviations": [{}] * count}
        return no_verdict(report)

    def test_in_words(self) -> None:
        self.assertIn("the 52 findings before it are no verdict: with a greater --reorder",
                      self.said("recording TimeBack 1031"))
        self.assertIn("each may be of a frame that the recorder lost",
                      self.said("recording Lossy 7"))
        self.assertEqual(self.said("list came BadLine 7", 1),
                         "the finding before it is no verdict.")
        self.assertEqual((self.said(""), self.said("recording Lossy 7", 0)), ("", ""))


if __name__ == "__main__":
    unittest.main()
