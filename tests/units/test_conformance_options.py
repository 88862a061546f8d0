"""Which options the stamps of a recorded switch ask for."""
from __future__ import annotations

import random
import unittest
from typing import Callable

try:
    from small_replay import CONFIG, arrival
except ModuleNotFoundError:
    raise unittest.SkipTest("there is no package numpy") from None

from afdx_tools.conformance.frames import Frame, frame_of_line
from afdx_tools.conformance.measuring import Measured
from afdx_tools.conformance.options import Options
from afdx_tools.conformance.proposals import Proposals, option_words
from afdx_tools.conformance.recorded import most_back
from afdx_tools.lists import listed_of
from afdx_tools.tables import Row

MS = 1_000_000
WIRE = 57_600  # ns of 64 bytes and 8 more at 800 ns
LATENCY = 100_000
Stamp = Callable[[int], int]


def as_it_is(time: int) -> int:
    """A stamp that is right."""
    return time


def frames(moments: list[int], port: int) -> list[Frame]:
    """Frames of link 10 at these moments, each with bytes of its own."""
    found = []
    for number, time in enumerate(moments):
        fields = arrival(time, "A", 10, number % 256, 64 + number // 256).rstrip().split(" ")
        listed = listed_of(number + 1, " ".join([*fields[:3], str(port), fields[4]]))
        found.append(frame_of_line(listed))
    return found


def rows_of(came: Stamp = as_it_is, left: Stamp = as_it_is, count: int = 200,
            options: Options = Options(), resolution: int = 1, back: int = 0) -> dict[str, Row]:
    """The options that such clocks ask for, where frames come each 10 ms or so."""
    chance = random.Random(7)
    moments = [10 * MS * at + chance.randrange(MS) for at in range(count)]
    gone = [time + WIRE + 5_000 + chance.randrange(1_000) for time in moments]
    measured = Measured(CONFIG, options, frames([came(time) for time in moments], 1),
                        frames([left(time) for time in gone], 3), [])  # fmt: skip
    rows = Proposals(measured, {False: resolution, True: resolution}, back).rows()
    return {row["option"]: row for row in rows}


class Slack(unittest.TestCase):
    """By how much stamps are off, at the least."""

    def asked(self, **words: object) -> tuple[int, str]:
        """The slack, and why."""
        row = rows_of(**words)["--slack"]  # type: ignore[arg-type]
        return row["value"], row["reason"]

    def test_exact_stamps(self) -> None:
        value, reason = self.asked()
        self.assertEqual(value, 0)
        self.assertIn("steps of 1 ns", reason)
        self.assertIn("few frames", self.asked(count=3)[1])

    def test_half_a_step(self) -> None:
        value, reason = self.asked(came=lambda time: time // 8 * 8)
        self.assertEqual(value, 4)
        self.assertIn("came in at A:1 are multiples of 8 ns", reason)
        self.assertEqual(self.asked(left=lambda time: time // 1000 * 1000, count=3,
                                    resolution=1000)[0], 500)

    def test_a_period_of_the_sender_is_no_step(self) -> None:
        self.assertEqual(self.asked(came=lambda time: time // 5000 * 5000)[0], 0)

    def test_frames_in_a_row(self) -> None:
        came = frames([10 * MS, 10 * MS + 2_000, 10 * MS + 3_000], 1)
        rows = Proposals(Measured(CONFIG, Options(), came, [], []), {False: 1000}).rows()
        self.assertIn("in a row that came in at A:1 are stamped", rows[0]["reason"])
        line = 84 * 80  # ns of a frame with what is around it, on a line that may be faster
        self.assertEqual(rows[0]["value"], -(-(2 * (line - line * 200 // MS) - 3_000) // 2))

    def test_a_frame_that_leaves_before_it_can(self) -> None:
        first = rows_of()["--slack"]["value"]
        late = iter([20_000])
        value, reason = self.asked(came=lambda time: time + next(late, 0))
        self.assertEqual(first, 0)
        self.assertIn(value, range(7_000, 7_501))
        self.assertIn("before it can have, from A:1 to A:3", reason)


class Between(unittest.TestCase):
    """By how much recorders are apart, at the least."""

    def test_recorders_that_are_not(self) -> None:
        self.assertNotIn("--between", rows_of())
        row = rows_of(options=Options(between=7))["--between"]
        self.assertIn("--between 0 (7 was given, which is more): no frame", option_words(row))

    def test_a_clock_that_is_behind(self) -> None:
        rows = rows_of(left=lambda time: time - 300_000)
        self.assertIn(rows["--between"]["value"], range(294_900, 295_001))
        self.assertIn("the clock of what left is behind", rows["--between"]["reason"])
        self.assertIn("editcap -t 0.00029", rows["--between"]["reason"])
        self.assertEqual(rows["--slack"]["value"], 0)
        self.assertNotIn("none leaves before", rows["--slack"]["reason"])

    def test_beside_what_the_slack_allows(self) -> None:
        rows = rows_of(left=lambda time: (time - 300_000) // 1000 * 1000)
        self.assertEqual(rows["--slack"]["value"], 500)
        self.assertIn(rows["--between"]["value"], range(294_000, 295_001))

    def test_stamps_of_first_bits(self) -> None:
        first = "do cards stamp first bits there? Then say --stamps end-start"
        for behind, is_told in ((64 * 800, True), (300_000, False)):
            reason = rows_of(left=lambda time: time - behind)["--between"]["reason"]
            self.assertEqual(first in reason, is_told)

    def test_clocks_that_go_apart(self) -> None:
        for ppm in (50, -50):
            rows = rows_of(left=lambda time: time + time * ppm // MS)
            self.assertIn("go apart", rows["--between"]["reason"])
            self.assertEqual(rows["--slack"]["value"], 0)
            self.assertNotIn("--inner", rows)
            self.assertIn(rows["--drift"]["value"], (50, 51))

    def test_a_clock_that_is_ahead(self) -> None:
        rows = rows_of(left=lambda time: time + 300_000, options=Options(between=263_600))
        self.assertNotIn("--between", rows)
        row = rows["--inner"]
        self.assertIn(f"or say --between {row['value']} instead", row["reason"])


class Others(unittest.TestCase):
    """Other options."""

    def test_one_clock(self) -> None:
        row = rows_of()["--drift"]
        self.assertEqual(row["value"], 0)
        self.assertNotIn("--drift", rows_of(count=3))

    def test_time_inside(self) -> None:
        row = rows_of(left=lambda time: time + 300_000)["--inner"]
        self.assertIn("200 of 200 frames are inside for longer than their latency", row["reason"])
        self.assertIn("clock of what left is ahead", row["reason"])
        self.assertNotIn("--inner", rows_of())

    def test_how_far_back_frames_stand(self) -> None:
        self.assertEqual(most_back([1, 2, 2, 3]), 0)
        self.assertEqual(most_back([5, 6, 7, 1, 8, 6]), 3)
        self.assertNotIn("--reorder", rows_of(back=10_000))
        self.assertEqual(rows_of(back=10_001)["--reorder"]["value"], 10_001)
        self.assertEqual(rows_of(back=51, options=Options(reorder=50))["--reorder"]["value"], 51)
        self.assertIn("reordercap", rows_of(back=100_001)["--reorder"]["reason"])

    def test_beside_what_was_given(self) -> None:
        rows = rows_of(options=Options(slack=100_000))
        words = option_words(rows["--slack"])
        self.assertIn("--slack 0 (100000 was given, which is more): ", words)
        self.assertNotIn("given", option_words(rows["--drift"] | {"value": 7}))


if __name__ == "__main__":
    unittest.main()
