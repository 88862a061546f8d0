"""What is computed of several switches that are judged from edge to edge: rows that are spelled
out, wrong ways to judge, right and wrong switches, and times on the cables."""
from __future__ import annotations

import os
import random
import sys
import unittest

TESTS = os.path.join(os.path.dirname(os.path.abspath(__file__)), "..")
PARTS = ("lib", "conform", "cascades", "fuzzing", "recordings")
sys.path[:0] = [os.path.join(TESTS, name) for name in PARTS]

import cascade_edge_claims as claims  # noqa: E402
from cascade_edge_rows import CONFIGS, EDGE_ROWS, SENDER_EDGE_ROWS, edge_pair  # noqa: E402
from cascade_rows import TWO_TEXT  # noqa: E402
from conform import conform  # noqa: E402
from conform_claims import JUDGED  # noqa: E402
from conform_edges import WayTerms, conform_edges  # noqa: E402
from conform_terms import Options  # noqa: E402
from rows import Row, list_of  # noqa: E402
from small_edges import Possible, small_edges  # noqa: E402
from tables import base_tables  # noqa: E402
from wrong_cascades import WRONG_HOPS, Hop, Wanted, wrong_cascade  # noqa: E402
from wrong_edges import wrong_edges  # noqa: E402

FIRST = base_tables()["link"][0]


class Rows(unittest.TestCase):
    """Rows that are spelled out."""

    def test_each_row(self) -> None:
        for row in EDGE_ROWS:
            self.assertEqual(conform_edges(*edge_pair(row)), row.answer(), row.name)

    def test_rows_of_senders(self) -> None:
        for row in SENDER_EDGE_ROWS:
            self.assertEqual(conform_edges(*row.pair()), row.answer(), row.name)

    def test_a_switch_that_is_named_is_judged_between_its_cables(self) -> None:
        row = Row("one of two", "--switch fwd", "F 0 A 1 H1", "F 6720 A 24 H1", "", "1/0/0/0/3")
        found = conform(TWO_TEXT, list_of(row.came, "came"), list_of(row.left, "left"),
                        row.words())
        self.assertEqual(found, row.answer())

    def test_each_wrong_way_to_judge_fails_a_row(self) -> None:
        for name, body in wrong_edges():
            with self.subTest(name):
                claims.edges_are_refused(body)

    def test_each_configuration_is_used(self) -> None:
        self.assertEqual({row.config for row in EDGE_ROWS}, set(CONFIGS))


class Terms(unittest.TestCase):
    """What holds of a stream."""

    def test_one_row_is_one_switch(self) -> None:
        loose = WayTerms([FIRST], 80, Options(drift=100, inner=7, asked=9), 0)
        self.assertTrue(loose.is_one)
        self.assertEqual((loose.latency, loose.before), ((10**6 * 17_007) // 999_900, 0))

    def test_exact_clocks_leave_the_first_account_alone(self) -> None:
        self.assertTrue(WayTerms([FIRST] * 3, 240, Options(slack=5, between=9), 0).is_one)
        for options in (Options(drift=1), Options(inner=1), Options(asked=1)):
            self.assertFalse(WayTerms([FIRST] * 3, 240, options, 0).is_one)

    def test_the_latencies_and_what_is_inside_add_up(self) -> None:
        terms = WayTerms([FIRST] * 3, 240, Options(inner=500, asked=1), 0)
        self.assertEqual((terms.latency, terms.before), (52_500, 35_000))
        self.assertEqual(terms.inside(), 10**6 * 84 * 2 * 500)
        self.assertEqual(terms.highest(), terms.cap + terms.slow * 35_001)
        self.assertEqual(terms.wire_time(64), 72 * 240)


class Made(unittest.TestCase):
    """Cases that are made at random."""

    def test_right_switches_conform(self) -> None:
        claims.right_edges(JUDGED, 7, 1)
        claims.edges_conform(JUDGED, claims.computed_replay, 7, 2)

    def test_wrong_ones_are_found_by_their_frames(self) -> None:
        self.assertGreater(len(WRONG_HOPS), 10)
        for kind in WRONG_HOPS:
            with self.subTest(kind.__doc__):
                claims.wrong_edges_are_found(JUDGED, kind, 2)

    def test_nothing_is_wanted_of_right_ones(self) -> None:
        for case in range(6):
            self.assertEqual(Wanted(wrong_cascade(Hop, case)).told, set())

    def test_nothing_is_found_exactly_where_times_on_cables_are_possible(self) -> None:
        claims.edges_are_exact(7, 40)
        self.assertGreater(min(Possible.tried), 20)

    def test_small_cases_have_each_kind_of_line(self) -> None:
        words, last = set(), set()
        for seed in range(60):
            pair = small_edges(random.Random(f"{seed} kinds"), claims.computed_replay,
                               claims.at_edges, False)
            *lines, end = conform_edges(*pair).out.decode().splitlines() or [""]
            words |= {line.split()[0] for line in lines}
            last |= {end.partition(" ")[0]}
        self.assertGreaterEqual(words, {"strange", "stopped", "late", "early", "unlawful", "soon"})
        self.assertGreaterEqual(last, {"conforms", "deviates", "undecided"})


if __name__ == "__main__":
    unittest.main()
