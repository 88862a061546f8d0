"""Which links come nearest to their configured latency, and how shares are written."""
from __future__ import annotations

import unittest

from afdx_tools.report.ranking import latency_text, latency_words, nearest, ranked
from afdx_tools.tables import Row, as_text, csv_text, in_us, percent


def row(link: int, share: float, frames: int = 10, late: int = 0, side: str = "A") -> Row:
    """A row of latencies at port 3."""
    return {"link": link, "port": 3, "side": side, "frames": frames, "late": late, "share": share}


class Ranking(unittest.TestCase):
    """The greatest shares first, of links with enough copies."""

    def test_the_greatest_share_first(self) -> None:
        rows = [row(1, 0.2), row(2, 0.9), row(3, 0.5)]
        self.assertEqual([each["link"] for each in ranked(rows)], [2, 3, 1])
        self.assertEqual(nearest(rows), rows[1])

    def test_of_equal_shares_the_lower_link_then_side_a(self) -> None:
        rows = [row(7, 0.5, side="B"), row(7, 0.5), row(4, 0.5)]
        self.assertEqual([(r["link"], r["side"]) for r in ranked(rows)],
                         [(4, "A"), (7, "A"), (7, "B")])

    def test_ten_copies_of_both_sides_are_enough(self) -> None:
        rows = [row(1, 0.9, 4), row(1, 0.8, 6, side="B"), row(2, 0.99, 9)]
        self.assertEqual([each["share"] for each in ranked(rows)], [0.9, 0.8])

    def test_a_late_one_is_always_ranked(self) -> None:
        rows = [row(1, 0.9), row(2, 1.01, frames=1, late=1)]
        self.assertEqual([each["link"] for each in ranked(rows)], [2, 1])

    def test_none(self) -> None:
        self.assertIsNone(nearest([row(1, 0.9, frames=9)]))

    def test_in_words(self) -> None:
        one = row(501, 133_400 / 200_000) | {"greatest_ns": 133_400, "configured_ns": 200_000}
        words = "link 501 at port 3, side A, 133,400 of 200,000 ns configured (66.7%)"
        self.assertEqual(latency_words(one), words)
        text = "link 501 at port 3, side A: 133400 of 200000 ns configured (66.7%)"
        self.assertEqual(latency_text(one), text)


class Shares(unittest.TestCase):
    """A share in percent is rounded away from 0 and from 100 %."""

    def test_below_all_of_it_down(self) -> None:
        for share, words in (
            (0.0, "0.0%"), (0.0009, "<0.1%"), (0.001, "0.1%"), (0.29, "29.0%"), (0.4567, "45.6%"),
            (0.9996, "99.9%"), (0.99999999, "99.9%"),
        ):
            self.assertEqual(percent(share), words)

    def test_above_all_of_it_up(self) -> None:
        for share, words in ((1.0, "100.0%"), (1.0 + 1e-12, "100.1%"), (1.28, "128.0%")):
            self.assertEqual(percent(share), words)


class Tables(unittest.TestCase):
    """Rows as text and as CSV."""

    ROWS = [{"name": "=adc", "share": 0.5, "count": 7}, {"name": "a;-b", "share": 1.0, "count": 10}]

    def test_numbers_stand_to_the_right(self) -> None:
        self.assertEqual(
            as_text(self.ROWS),
            "name   share  count\n=adc   50.0%      7\na;-b  100.0%     10\n",
        )

    def test_a_cell_is_no_formula(self) -> None:
        self.assertEqual(csv_text(self.ROWS), "name,share,count\n'=adc,0.5,7\n\"a;'-b\",1.0,10\n")

    def test_ns_as_us(self) -> None:
        self.assertEqual([in_us(each) for each in (0, 999, 1_234_567)],
                         ["0.000", "0.999", "1,234.567"])
