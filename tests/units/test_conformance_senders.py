"""What is read of `afdx conform --senders`, and what a report says of the systems beside a recorded
switch."""
from __future__ import annotations

import argparse
import unittest

try:
    from small_replay import CONFIG, arrival
except ModuleNotFoundError:
    raise unittest.SkipTest("there is no package numpy") from None

from afdx_tools.conformance.frames import Frame, frame_of_line
from afdx_tools.conformance.judging import Amiss, Judged, judged_of, status_of
from afdx_tools.conformance.measuring import Measured
from afdx_tools.conformance.options import Options, add_sender_words, refuse_conform_options
from afdx_tools.conformance.recorded import Stood
from afdx_tools.conformance.recorders import Taps
from afdx_tools.conformance.senders import Senders, source_words, totals_of
from afdx_tools.conformance.together import of_senders_alone, premises, sentence
from afdx_tools.faults import Refused
from afdx_tools.lists import listed_of

COUNTS = "explained 0 open 0 uncertain 0 left-out 0 unseen 4 idle 0"
OUT = ["unlawful 3 A 2 not-its-link", "number 2 A 1 1", "soon 2 A 1 500", "soon 4 B 1 700",
       "apart 4 B 1 9", "single 1 A 1", f"deviates 6 {COUNTS} sent 1 cut 2 alone 0"]  # fmt: skip
GOOD = f"conforms {COUNTS} sent 5 cut 0 alone 0"
BOTH = "conforms explained 5 open 0 uncertain 0 left-out 0 unseen 0 idle 0 sent 5 cut 0 alone 0"
LATE = "late 1 A 3 5"


def lines(*texts: str) -> list[Frame]:
    """The frames of a list."""
    return [frame_of_line(listed_of(number, text.rstrip("\n")))
            for number, text in enumerate(texts, 1)]


def senders(told: list[str], taps: Taps = Taps(), start: int | None = None,
            stood: dict[tuple[bool, int], Stood] | None = None) -> Senders:  # fmt: skip
    """What systems sent: link 10 of adc four times, and fcc a frame of it, too."""
    other = arrival(20, "A", 10, 3).replace(" A 1 ", " A 2 ")
    came = lines(arrival(0, "A", 10, 0), arrival(10, "A", 10, 2), other,
                 arrival(30, "B", 10, 0), arrival(40, "B", 10, 1))  # fmt: skip
    judged = judged_of(told)
    measured = Measured(CONFIG, Options(start=start), came, [], judged.found, taps)
    return Senders(measured, judged, stood)


class Lines(unittest.TestCase):
    """The lines of the program."""

    def test_each_line(self) -> None:
        sent = judged_of(OUT)
        self.assertEqual(sent.amiss[:3], [
            Amiss("unlawful", 3, "A", 2, "not-its-link"),
            Amiss("number", 2, "A", 1, wanted=1),
            Amiss("soon", 2, "A", 1, by=500),
        ])  # fmt: skip
        self.assertEqual(sent.amiss[-1], Amiss("single", 1, "A", 1))
        self.assertEqual((sent.verdict, sent.counts["sent"]), ("deviates 6", 1))

    def test_those_of_the_switch_between_them(self) -> None:
        both = judged_of([OUT[0], LATE, *OUT[1:]])
        self.assertEqual([each.word for each in both.deviations], ["late"])
        self.assertEqual(both.amiss, judged_of(OUT).amiss)
        self.assertEqual([each.word for each in both.found][:2], ["late", "unlawful"])

    def test_the_sums(self) -> None:
        self.assertEqual(totals_of(judged_of(OUT)), {
            "sent": 1, "cut": 2, "alone": 0, "unlawful": 1, "number": 1, "soon": 2, "differs": 0,
            "apart": 1, "single": 1,
        })  # fmt: skip
        self.assertNotIn("sent", totals_of(judged_of([])))


class Answers(unittest.TestCase):
    """What one answer says of the switch, and of the senders."""

    def of_each(self, *told: str, is_exercised: bool = False) -> tuple[str, str]:
        """Both, by all lines."""
        judged = judged_of(told)
        return judged.of_switch(is_exercised), judged.of_senders()

    def test_right_ones(self) -> None:
        self.assertEqual(self.of_each(BOTH), ("conforms", "conforms"))

    def test_findings_are_counted_apart(self) -> None:
        last = BOTH.replace("conforms", "deviates 7")
        self.assertEqual(self.of_each(*OUT[:6], LATE, last), ("deviates 1", "deviates 6"))
        self.assertEqual(self.of_each(*OUT[:6], last), ("conforms", "deviates 6"))
        self.assertEqual(self.of_each(LATE, last), ("deviates 1", "conforms"))

    def test_nothing_shown(self) -> None:
        for last in (BOTH.replace("conforms", "undecided"), BOTH.replace("conforms", "deviates 6")):
            lines = OUT[:6] if "deviates" in last else []
            of_senders = "deviates 6" if lines else "conforms"
            self.assertEqual(self.of_each(*lines, last.replace("explained 5", "explained 0")),
                             ("undecided", of_senders))
            self.assertEqual(self.of_each(*lines, "unsure 1 A 3", last), ("undecided", of_senders))
            self.assertEqual(self.of_each(*lines, last.replace("idle 0", "idle 1"),
                                          is_exercised=True), ("undecided", of_senders))
            self.assertEqual(self.of_each(*lines, last.replace("idle 0", "idle 1")),
                             ("conforms", of_senders))
        self.assertEqual(self.of_each(BOTH.replace("sent 5", "sent 0")), ("conforms", "undecided"))

    def test_a_fault(self) -> None:
        self.assertEqual(self.of_each(*OUT[:6], LATE), ("", ""))

    def test_statuses(self) -> None:
        self.assertEqual([status_of(word) for word in ("conforms", "deviates 4", "undecided")],
                         [0, 5, 3])


class Sources(unittest.TestCase):
    """The rows of links and the systems that send them."""

    def test_what_was_found_of_each(self) -> None:
        rows = senders(OUT).sources()
        self.assertEqual([(row["link"], row["system"], row["networks"]) for row in rows],
                         [(10, "adc", "AB"), (20, "fcc", "AB"), (10, "fcc", "A")])
        self.assertEqual([(row["frames"], row["sent"], row["amiss"]) for row in rows],
                         [(4, 1, 3), (0, 0, 0), (1, 0, 1)])
        own = rows[0]
        self.assertEqual((own["soon"], own["soon_by_ns"], own["apart_by_ns"]), (2, 700, 9))
        self.assertEqual(rows[2]["reasons"], {"not-its-link": 1})
        self.assertEqual((rows[1]["soon"], rows[1]["soon_by_ns"]), (0, None))

    def test_in_words(self) -> None:
        rows = senders(OUT).sources()
        words = "1 with another number; 2 too soon, by up to 700 ns; "
        words += "1 too long behind their copies, by up to 9 ns; 1 without a copy"
        self.assertEqual(source_words(rows[0]), f"link 10 of adc at port 1: {words}")
        self.assertEqual(source_words(rows[2]),
                         "link 10 of fcc at port 2: 1 unlawful (not-its-link)")

    def test_what_was_recorded_of_them(self) -> None:
        taps = Taps(frozenset({("B", 1)}), frozenset())
        self.assertEqual([(row["link"], row["networks"]) for row in senders([], taps).sources()],
                         [(10, "B")])
        whole_side = Taps(frozenset({("A", None)}), frozenset())
        self.assertEqual([row["networks"] for row in senders([], whole_side).sources()],
                         ["A", "A"])

    def test_what_is_passed_over(self) -> None:
        self.assertEqual([row["frames"] for row in senders([], start=10).sources()], [3, 0])

    def test_the_frames_that_lines_name(self) -> None:
        rows = senders(OUT).lines()
        self.assertEqual(list(rows[0].values()),
                         ["unlawful", 3, 20, 10, "A", 2, "fcc", "not-its-link", None, None])
        self.assertEqual((rows[1]["wanted"], rows[2]["by_ns"]), (1, 500))
        stood = {(False, 2): Stood(4, "eth1", 1_000_000_000)}
        row = senders(OUT, stood=stood).lines()[1]
        self.assertEqual((row["interface"], row["name"], row["stamp"]),
                         (4, "eth1", "1970-01-01 00:00:01.000000000"))


class Words(unittest.TestCase):
    """The options of the run."""

    def test_all_are_handed_on(self) -> None:
        options = Options(slack=1, between=2, drift=3, inner=4, asked=5, start=6, until=7,
                          left_out=(8, None), switch="fwd", exercised=True, senders=True, apart=9,
                          of_recordings=("--interface=0=A:1", "--left=1=A:3", "--lossy"))
        self.assertEqual(options.words(), [
            "--slack=1", "--between=2", "--drift=3", "--inner=4", "--asked=5", "--until=7",
            "--from=6", "--apart=9", "--leave-out=8", "--leave-out=other", "--switch=fwd",
            "--exercised", "--senders",
        ])
        self.assertEqual(Options(senders=True).words(), ["--senders"])
        self.assertEqual(Options().words(), [])

    def test_they_are_refused_for_a_replay(self) -> None:
        parser = argparse.ArgumentParser()
        add_sender_words(parser)
        others = dict.fromkeys(("slack", "between", "drift", "inner", "asked", "until", "switch",
                                "stamps"))  # fmt: skip
        for words in (["--senders"], ["--apart=1"]):
            args = parser.parse_args(words)
            vars(args).update(others, leave_out=[], left=[], lossy=False, exercised=False)
            with self.assertRaisesRegex(Refused, words[0].partition("=")[0]):
                refuse_conform_options(args)


class Together(unittest.TestCase):
    """What a run says of both."""

    def says(self, *told: str, last: str = BOTH, options: Options = Options(),
             admission: str = "ok", least: int | None = None, lost: int | None = None) -> str:
        """The sentence of these lines and a last one."""
        judged = judged_of([*told, last])
        judged.skipped = [] if lost is None else [{"recorder-lost": lost}]
        return sentence(judged, options, premises(admission, judged, options, least))

    def test_nothing_is_lacking(self) -> None:
        for words in (self.says(), self.says(lost=0),
                      self.says(last=BOTH.replace("cut 0", "cut 1")),
                      self.says(options=Options(apart=7, slack=0), least=7)):
            self.assertTrue(words.startswith("No sender left the law. The switch conforms. "))
            self.assertIn("By the law both_show_once of PROMISES.md", words)
            self.assertIn("once and in order", words)
            self.assertNotIn("doesn't follow", words)

    def test_what_is_lacking(self) -> None:
        for words, told in (
            ({"admission": "no A6 1 7"}, "the tables are admitted (no A6 1 7)"),
            ({"last": BOTH.replace("open 0", "open 2")}, "(open 2)"),
            ({"last": BOTH.replace("left-out 0", "left-out 3")}, "(left-out 3)"),
            ({"last": BOTH.replace("unseen 0", "unseen 4")}, "(unseen 4)"),
            ({"last": BOTH.replace("alone 0", "alone 1")}, "(alone 1)"),
            ({"lost": 2}, "recorders lost nothing (2 lost)"),
            ({"options": Options(switch="fwd")}, "one switch a side (--switch fwd)"),
            ({"options": Options(start=0)}, "(--from 0)"),
            ({"options": Options(slack=5, drift=6)}, "exact (--slack 5 --drift 6)"),
            ({"options": Options(inner=1)}, "(--inner 1)"),
            ({"options": Options(apart=8), "least": 7}, "(--apart 8; what they leave is 7"),
            ({"options": Options(apart=8)}, "(--apart 8; what they leave is not known)"),
        ):
            found = self.says(**words)  # type: ignore[arg-type]
            self.assertTrue(found.startswith("No sender left the law. The switch conforms. "))
            self.assertIn(told, found)
            self.assertIn("doesn't follow, since this isn't so: ", found)
            self.assertNotIn("both_show_once", found)
            self.assertEqual(found.count(" ("), 1, found)

    def test_other_answers(self) -> None:
        deviates = BOTH.replace("conforms", "deviates 1")
        for lines, last, told in (
            ((LATE,), deviates, "No sender left the law. The switch deviates: 1 finding."),
            (OUT[:2], deviates, "Senders left the law: 2 findings. The switch conforms."),
            ((LATE, OUT[0]), deviates, "Senders left the law: 1 finding. The switch deviates: 1 "
             "finding."),
            ((), BOTH.replace("sent 5", "sent 0"),
             "Nothing was shown of the senders. The switch conforms."),
            ((), BOTH.replace("explained 5", "explained 0"),
             "No sender left the law. Nothing was shown of the switch."),
        ):
            self.assertEqual(self.says(*lines, last=last), told)

    def test_senders_alone(self) -> None:
        self.assertEqual(of_senders_alone(judged_of([GOOD])),
                         "No sender left the law. No switch was judged.")
        self.assertEqual(of_senders_alone(Judged(fault="list came BadLine 1")),
                         "There is no verdict on the senders: list came BadLine 1. "
                         "No switch was judged.")

    def test_a_fault(self) -> None:
        judged = judged_of([OUT[0], LATE])
        judged.fault, judged.status = "list left BadLine 1", 3
        asked = premises("ok", judged, Options(), None)
        self.assertEqual(sentence(judged, Options(), asked),
                         "There is no verdict: list left BadLine 1.")
        self.assertEqual({each.found for each in asked if not each.holds},
                         {"list left BadLine 1", "-"})


if __name__ == "__main__":
    unittest.main()
