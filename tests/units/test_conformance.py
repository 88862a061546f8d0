"""What is read of `afdx conform`, and what is measured of a recorded switch."""
from __future__ import annotations

import argparse
import unittest
from typing import Iterator

try:
    from small_replay import CONFIG, arrival
except ModuleNotFoundError:
    raise unittest.SkipTest("there is no package numpy") from None

from afdx_tools.conformance.frames import Frame, frame_of_line
from afdx_tools.conformance.judging import Deviation, judged_of
from afdx_tools.conformance.measuring import Measured, Named, Pair, Stream
from afdx_tools.conformance.numbers import Numbers, account_words, rank, totals_of
from afdx_tools.conformance.options import (
    Options,
    add_conform_words,
    conform_options,
    refuse_conform_options,
    vl_or_other,
)
from afdx_tools.conformance.recorders import Recorders
from afdx_tools.faults import Refused
from afdx_tools.lists import listed_of
from afdx_tools.replay.checked import checked_of
from afdx_tools.tables import Row

OUT = ["stopped 2 A 3", "strange 3 A 3 out-of-turn", "passed 4 B 3 over-rate", "late 1 A 3 17",
       "deviates 4 explained 5 open 1 uncertain 2 left-out 3 unseen 0"]  # fmt: skip
LATENCY = 100_000  # of the small network's links, in ns
LEAST = 57_600  # of 64 bytes and 8 more at 800 ns


def lines(*texts: str) -> Iterator[Frame]:
    """The frames of a list."""
    return (frame_of_line(listed_of(number, text.rstrip("\n")))
            for number, text in enumerate(texts, 1))


def left(time: int, number: int, vl: int = 10, side: str = "A") -> str:
    """A line of LEFT: the frame of `arrival` at the port of disp."""
    fields = arrival(time, side, vl, number).split(" ")
    return " ".join([*fields[:3], "3", fields[4]])


def measured(came: list[str], gone: list[str], options: Options = Options()) -> Measured:
    """What is measured of two lists; what the third line of LEFT has is strange."""
    found = judged_of(["late 1 A 3 17", "stopped 2 A 3", "strange 3 A 3 out-of-turn"]).deviations
    return Measured(CONFIG, options, lines(*came), lines(*gone), found)


class Lines(unittest.TestCase):
    """The lines of the program."""

    def test_each_line(self) -> None:
        judged = judged_of(OUT)
        self.assertEqual(judged.deviations, [
            Deviation("stopped", 2, "A", 3),
            Deviation("strange", 3, "A", 3, "out-of-turn"),
            Deviation("passed", 4, "B", 3, "over-rate"),
            Deviation("late", 1, "A", 3, "", 17),
        ])
        self.assertEqual(judged.verdict, "deviates 4")
        self.assertEqual(judged.counts, {"explained": 5, "open": 1, "uncertain": 2, "left-out": 3,
                                         "unseen": 0})

    def test_idle_streams_in_the_last_line(self) -> None:
        judged = judged_of([f"{OUT[-1]} idle 7"])
        self.assertEqual(judged.verdict, "deviates 4")
        self.assertEqual(totals_of(judged, [], [{}])["idle"], 7)
        self.assertEqual(totals_of(judged_of(OUT), [], [{}])["idle"], 1)

    def test_only_a_strange_frame_is_one_that_left(self) -> None:
        self.assertEqual([each.is_left for each in judged_of(OUT).deviations],
                         [False, True, False, False])


class Measuring(unittest.TestCase):
    """A frame that left is paired with the one with its bytes that came."""

    def test_by_bytes(self) -> None:
        found = measured([arrival(0, "A", 10, 1), arrival(1000, "A", 10, 2)],
                         [left(70_000, 1), left(90_000, 2)])
        self.assertEqual(found.streams(), [Stream("A", 10, 3)])
        self.assertEqual(found.pairs(Stream("A", 10, 3)), [Pair(1, 1, 70_000), Pair(2, 2, 89_000)])

    def test_equal_bytes_in_order(self) -> None:
        found = measured([arrival(0, "A", 10, 1), arrival(5, "A", 10, 1)],
                         [left(70_000, 1), left(80_000, 1)])
        self.assertEqual(found.pairs(Stream("A", 10, 3)), [Pair(1, 1, 70_000), Pair(2, 2, 79_995)])

    def test_neither_too_early_nor_too_late(self) -> None:
        came = [arrival(0, "A", 10, 1)]
        for time, count in ((LEAST - 1, 0), (LEAST, 1), (2 * LATENCY, 1), (2 * LATENCY + 1, 0)):
            pairs = measured(came, [left(time, 1)]).pairs(Stream("A", 10, 3))
            self.assertEqual(len(pairs), count, time)

    def test_a_strange_frame_is_of_nothing(self) -> None:
        found = measured([arrival(0, "A", 10, 1), arrival(1, "A", 10, 2)],
                         [left(70_000, 1), left(80_000, 2), left(90_000, 2)])
        self.assertEqual([pair.left for pair in found.pairs(Stream("A", 10, 3))], [1, 2])

    def test_another_side_or_link_is_another_stream(self) -> None:
        found = measured([arrival(0, "A", 10, 1)], [left(70_000, 1, side="B"), left(70_000, 1, 20)])
        self.assertEqual([found.pairs(each) for each in found.streams()], [[], [], []])

    def test_what_is_passed_over(self) -> None:
        options = Options(slack=8, between=4, start=100, until=90_000, left_out=(20,))
        found = measured(
            [arrival(99, "A", 10, 1), arrival(100, "A", 10, 2), arrival(100, "A", 20, 1)],
            [left(79, 1), left(80, 2), left(90_001, 3)],
            options,
        )
        self.assertEqual([found.pairs(each) for each in found.streams()], [[]])
        self.assertEqual(found.named, {False: {2: Named(100, 10)}, True: {}})


class Rows(unittest.TestCase):
    """What a report says."""

    def numbers(self) -> Numbers:
        """Of three frames that came, two that left, one of them late."""
        came = [arrival(time, "A", 10, time) for time in (0, 1, 2)]
        judged = judged_of(["late 2 A 3 17", "stopped 3 A 3", *OUT[4:]])
        gone = lines(left(60_000, 0), left(100_018, 1))
        found = Measured(CONFIG, Options(), lines(*came), gone, judged.deviations)
        return Numbers(CONFIG, checked_of(["P 3 70000 - 300", "ok"]), judged, found)

    def test_a_stream(self) -> None:
        (row,) = self.numbers().streams()
        self.assertEqual((row["came"], row["left"], row["stopped"], row["late"], row["frames"]),
                         (3, 2, 1, 1, 2))
        self.assertEqual((row["least_ns"], row["median_ns"], row["greatest_ns"]),
                         (60_000, 60_000, 100_017))
        self.assertEqual((row["bound_ns"], row["margin_ns"], row["configured_ns"]),
                         (70_000, 30_000, LATENCY))
        self.assertEqual((row["system"], row["share"]), ("disp", 1.00017))

    def test_a_finding(self) -> None:
        row = self.numbers().deviations()[0]
        self.assertEqual(list(row.values()),
                         ["late", "CAME", 2, 1, 10, "A", 3, "disp", None, 17, ""])

    def idle_with(self, *gone: str, line: str = "", until: int | None = None) -> list[Row]:
        """The idle streams where a frame came on side A."""
        judged = judged_of([line] if line else [])
        options = Options(slack=10, until=until)
        came = lines(arrival(0, "A", 10, 0))
        found = Measured(CONFIG, options, came, lines(*gone), judged.deviations)
        return Numbers(CONFIG, checked_of(["ok"]), judged, found).idle()

    def test_idle_streams(self) -> None:
        rows = self.idle_with()
        self.assertEqual([(row["link"], row["side"], row["came"]) for row in rows],
                         [(10, "A", 1), (10, "B", 0), (20, "A", 0), (20, "B", 0)])
        self.assertEqual(len(self.idle_with(left(70_000, 0), until=70_020)), 3)
        self.assertEqual(len(self.idle_with(line="stopped 1 A 3")), 3)

    def test_a_frame_at_the_end_is_not_explained(self) -> None:
        self.assertEqual(len(self.idle_with(left(70_000, 0), until=70_019)), 4)
        self.assertEqual(len(self.idle_with(left(70_000, 0))), 4)

    def test_the_sums(self) -> None:
        numbers = self.numbers()
        totals = totals_of(numbers.judged, numbers.streams())
        self.assertEqual((totals["explained"], totals["left_out"], totals["late"]), (5, 3, 1))
        self.assertEqual((totals["of_streams"], totals["measured"]), (2, 2))

    def test_ranks(self) -> None:
        self.assertEqual([rank([1, 2, 3, 4], share) for share in (500, 990, 1)], [2, 4, 1])

    def test_how_much_of_the_account_was_tested(self) -> None:
        self.assertIn("nothing was shown", account_words({"explained": 0, "uncertain": 0}))
        self.assertIn("no answer", account_words({"explained": 9, "uncertain": 0}))
        self.assertIn("(22.2%)", account_words({"explained": 9, "uncertain": 2}))
        self.assertNotIn("little", account_words({"explained": 10, "uncertain": 5}))
        self.assertIn("little was shown", account_words({"explained": 10, "uncertain": 6}))


class Words(unittest.TestCase):
    """The options."""

    def given(self, *words: str) -> argparse.Namespace:
        """The words as they are taken."""
        parser = argparse.ArgumentParser()
        parser.add_argument("--from", dest="begin", type=int)
        for name in ("compare", "taps", "fcs", "origin", "reorder", "stamps"):
            parser.add_argument(f"--{name}")
        for name in ("link", "interface", "fail-on"):
            parser.add_argument(f"--{name}", action="append", default=[])
        parser.add_argument("--no-admission", action="store_true")
        add_conform_words(parser)
        return parser.parse_args(words)

    def test_those_of_recordings_are_handed_on(self) -> None:
        words = ["--interface=0=A:1", "--fcs=no", "--reorder=0", "--stamps=end-start",
                 "--left=1=A:3", "--lossy"]  # fmt: skip
        options = conform_options(self.given("--conform", "--slack=1", "--between=9", *words))
        self.assertEqual(options.of_recordings, tuple(words))
        self.assertEqual(options.words(), ["--slack=1", "--between=9"])
        self.assertEqual(options.recorders, Recorders(("0=A:1",), ("1=A:3",), False, "end-start"))

    def test_they_are_handed_on(self) -> None:
        words = ["--slack=100", "--until=5", "--from=0", "--leave-out=other", "--leave-out=7",
                 "--switch=fwd", "--exercised"]  # fmt: skip
        self.assertEqual(conform_options(self.given("--conform", *words)).words(), words)
        self.assertEqual(conform_options(self.given("--conform")).words(), [])

    def test_those_of_replays_are_refused(self) -> None:
        for word in ("--origin=0", "--no-admission", "--link=1"):
            with self.assertRaises(Refused):
                conform_options(self.given("--conform", word))

    def test_those_of_a_table_of_taps(self) -> None:
        options = conform_options(self.given("--conform", "--taps=taps.csv", "--fcs=no"))
        options = options.tapped(["--interface=0=A:1", "--left=1=A:3", "--left=3=A:1"])
        self.assertEqual(options.recorders, Recorders(("0=A:1",), ("1=A:3", "3=A:1"), False))
        self.assertEqual(options.of_recordings,
                         ("--interface=0=A:1", "--left=1=A:3", "--left=3=A:1", "--fcs=no"))
        with self.assertRaises(Refused):
            conform_options(self.given("--conform", "--taps=taps.csv", "--left=1=A:3"))

    def test_those_of_conform_are_refused_for_a_replay(self) -> None:
        for word in ("--left=1=A:3", "--lossy", "--exercised", "--stamps=end-start", "--slack=1",
                     "--between=1"):
            with self.assertRaises(Refused):
                refuse_conform_options(self.given(word))
        refuse_conform_options(self.given("--stamps=start", "--interface=0=A"))

    def test_a_link_or_other(self) -> None:
        self.assertEqual((vl_or_other("7"), vl_or_other("other")), (7, None))
        with self.assertRaises(argparse.ArgumentTypeError):
            vl_or_other("65536")


if __name__ == "__main__":
    unittest.main()
