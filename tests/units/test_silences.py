"""Silences, gaps, jitter and sequence numbers of arrivals; skews and clocks of copies."""
from __future__ import annotations

import unittest

try:
    import numpy as np
except ModuleNotFoundError:
    raise unittest.SkipTest("there is no package numpy") from None

from afdx_tools.replay.copies import Offset, clock_of, is_alike, offset_of, offsets_of, pairs_of
from afdx_tools.replay.copies import skews_at_inputs
from afdx_tools.replay.silence import Silences, usual_gap
from afdx_tools.replay.traffic import Traffic, jitters, traffic_of
from small_replay import LINKS, MS, accepted, arrival


def by_time(lines: list[str]) -> list[str]:
    """The lines of a list in the order of time."""
    return sorted(lines, key=lambda line: int(line.split()[1]))


def both_sides(vl: int, times: list[int], later: int = 0) -> list[str]:
    """Frames on both sides at these times, on side B so much later."""
    lines = [arrival(time, "A", vl, number % 256) for number, time in enumerate(times)]
    return lines + [arrival(time + later, "B", vl, n % 256) for n, time in enumerate(times)]


class UsualGaps(unittest.TestCase):
    """What nearly all gaps between frames don't exceed."""

    def test_the_two_longest_do_not_count(self) -> None:
        self.assertEqual(usual_gap(np.diff([0, 10, 20, 30, 1000, 2000])), 10)
        self.assertEqual(usual_gap(np.diff([0, 10, 20, 30, 1000, 2000, 3000])), 970)

    def test_nor_the_longest_twentieth(self) -> None:
        gaps = [100] * 95 + [5000] * 5
        self.assertEqual(usual_gap(np.diff(np.cumsum([0, *gaps]))), 100)
        gaps = [100] * 94 + [5000] * 6
        self.assertEqual(usual_gap(np.diff(np.cumsum([0, *gaps]))), 5000)

    def test_of_few(self) -> None:
        self.assertEqual(usual_gap(np.diff([0])), 0)
        self.assertEqual(usual_gap(np.diff([0, 7])), 7)


class SilentTimes(unittest.TestCase):
    """Who fell silent, where, from when to when."""

    def run_without(self, missing: range) -> list:
        """The silences of a run of 800 ms: link 10 each 8 ms, link 20 each 4 ms, on both sides;
        these frames of link 10 are missing on side B."""
        lines = both_sides(20, [n * 4 * MS for n in range(201)])
        lines += [arrival(n * 8 * MS, "A", 10, n % 256) for n in range(101)]
        lines += [arrival(n * 8 * MS, "B", 10, n % 256) for n in range(101) if n not in missing]
        return Silences(accepted(by_time(lines))).rows

    def test_none(self) -> None:
        self.assertEqual(self.run_without(range(0)), [])

    def test_four_bags_are_no_silence(self) -> None:
        self.assertEqual(self.run_without(range(26, 29)), [])  # 32 ms between frames 25 and 29
        self.assertEqual(len(self.run_without(range(26, 30))), 1)

    def test_a_sender_that_is_silent_explains_its_links(self) -> None:
        (silence,) = self.run_without(range(26, 50))
        self.assertEqual((silence.level, silence.name, silence.side), ("system", "adc", "B"))
        self.assertEqual((silence.begin, silence.end), (200 * MS, 400 * MS))
        self.assertEqual((silence.bags, silence.least), (25.0, 32 * MS))
        self.assertEqual(silence.other, 26)  # frames 25 to 50 came on side A

    def test_the_end_of_the_run_counts_like_a_frame(self) -> None:
        (silence,) = self.run_without(range(90, 101))
        self.assertEqual((silence.begin, silence.end), (712 * MS, 800 * MS))

    def test_a_network_of_which_nothing_came_explains_all(self) -> None:
        lines = [arrival(n * 8 * MS, "A", 10, n) for n in range(20)]
        rows = Silences(accepted(lines)).rows
        self.assertIn(("network", None, "B"), [(row.level, row.name, row.side) for row in rows])
        self.assertNotIn("link", [row.level for row in rows if row.name == 10])


class Arrivals(unittest.TestCase):
    """Gaps, jitter and numbers of a link on one side."""

    def test_jitter_of_frames_that_come_early(self) -> None:
        # BAG 8 ms: the second comes 0.1 ms early, the third 0.2 ms, the fourth in time
        times = np.array([0, 7_900_000, 15_800_000, 24_000_000])
        needed = jitters(LINKS[0], times, np.full(4, 64))
        self.assertEqual(needed.tolist(), [0, 100_000, 200_000, 0])

    def test_jitter_by_bytes(self) -> None:
        # BAG 4 ms; 84 of 120 bytes are charged 2.8 ms: twice that is 5.6 ms, and 1.4 + 4 are there
        times = np.array([0, 1_400_000])
        needed = jitters(LINKS[1], times, np.array([64, 64]))
        self.assertEqual(needed.tolist(), [0, 200_000])

    def test_a_part_of_a_ns_is_rounded_up(self) -> None:
        # 81 of 120 bytes are charged 2.7 ms, three times 8.1 ms, less 2 + 4 ms and 1 ns
        needed = jitters(LINKS[1], np.array([0, 0, 2_000_001]), np.array([61, 61, 61]))
        self.assertEqual(needed.tolist(), [0, 1_400_000, 2_099_999])
        needed = jitters(LINKS[1], np.array([0, 0]), np.array([63, 63]))  # 83 / 120 of 4 ms, twice
        self.assertEqual(needed.tolist(), [0, 1_533_334])

    def traffic(self, numbers: list[int], times: list[int] | None = None) -> Traffic:
        """Link 10 on side A, a frame each 8 ms if no times are given."""
        moments = times or [n * 8 * MS for n in range(len(numbers))]
        lines = [arrival(time, "A", 10, n) for time, n in zip(moments, numbers)]
        return traffic_of(accepted(lines))[10, 0]

    def test_the_least_gap_and_its_line(self) -> None:
        traffic = self.traffic([0, 1, 2], [0, 9 * MS, 16 * MS])
        self.assertEqual((traffic.gap, traffic.gap_line), (7 * MS, 3))
        self.assertEqual((traffic.jitter, traffic.jitter_line), (MS, 3))

    def test_numbers_go_from_255_to_1(self) -> None:
        numbers = self.traffic([254, 255, 1, 2]).numbers
        self.assertEqual((numbers.first, numbers.missing, numbers.jumps), (254, 0, 0))

    def test_0_begins_anew(self) -> None:
        numbers = self.traffic([7, 8, 0, 1]).numbers
        self.assertEqual((numbers.missing, numbers.jumps), (0, 0))

    def test_what_is_skipped_is_missing_where_there_was_time_for_it(self) -> None:
        numbers = self.traffic([1, 2, 5, 6], [0, 8 * MS, 32 * MS, 40 * MS]).numbers
        self.assertEqual((numbers.missing, numbers.missing_line, numbers.jumps), (2, 3, 0))
        numbers = self.traffic([1, 2, 5, 6]).numbers  # 3 steps in 8 ms: no sender is so fast
        self.assertEqual((numbers.missing, numbers.jumps), (0, 1))

    def test_a_number_again_is_a_jump(self) -> None:
        numbers = self.traffic([1, 1, 2]).numbers
        self.assertEqual((numbers.missing, numbers.jumps), (0, 1))


class Clocks(unittest.TestCase):
    """By how much copies come later on side B."""

    def test_quartiles_and_medians(self) -> None:
        apart = np.array([100, 190, 110, 180, 120, 170, 130, 160, 140, 150]) * 1000
        self.assertEqual(
            offset_of("adc", apart), Offset("adc", 10, 120_000, 140_000, 170_000, 100_000, 150_000)
        )

    def test_beginning_and_end_are_medians_of_a_tenth(self) -> None:
        offset = offset_of("adc", np.arange(0, 3000, 100))  # 30 pairs: tenths of three
        self.assertEqual((offset.begin, offset.end, offset.median), (100, 2800, 1400))

    def test_alike_is_within_a_quarter_of_the_least(self) -> None:
        self.assertTrue(is_alike([400_000, 500_000]))
        self.assertFalse(is_alike([400_000, 500_001]))
        self.assertTrue(is_alike([-400_000, -500_000]))
        self.assertFalse(is_alike([400_000, -400_000]))
        self.assertFalse(is_alike([99_999, 99_999]))  # may be cables
        self.assertFalse(is_alike([]))

    def test_clocks_are_apart_where_all_senders_with_pairs_enough_agree(self) -> None:
        adc = Offset("adc", 10, 0, 500_000, 0, 500_000, 500_000)
        fcc = Offset("fcc", 99, 0, 600_000, 0, 600_000, 600_000)
        few = Offset("few", 9, 0, 0, 0, 0, 0)
        self.assertEqual(clock_of([adc, few, fcc]), [adc, fcc])
        other = Offset("disp", 10, 0, 20_000, 0, 20_000, 20_000)
        self.assertEqual(clock_of([adc, fcc, other]), [])

    def test_or_where_all_drift_alike(self) -> None:
        adc = Offset("adc", 10, 0, 1_000, 0, 0, 200_000)
        fcc = Offset("fcc", 10, 0, 90_000, 0, -10_000, 200_000)
        self.assertEqual(clock_of([adc, fcc]), [adc, fcc])

    def test_copies_of_a_run(self) -> None:
        counting = accepted(by_time(both_sides(10, [n * 8 * MS for n in range(12)], 3_000)))
        other = pairs_of(counting)
        (offset,) = offsets_of(counting, other)
        self.assertEqual((offset.system, offset.pairs, offset.median), ("adc", 12, 3_000))
        skew = skews_at_inputs(counting, other)[10]
        self.assertEqual((skew.pairs, skew.greatest, skew.line), (12, 3_000, 2))

    def test_clocks_that_are_nearly_half_a_round_apart(self) -> None:
        times = [n * 8 * MS for n in range(600)]  # numbers go half round in 1.016 s
        counting = accepted(by_time(both_sides(10, times, 1_000 * MS + 3)))
        (offset,) = offsets_of(counting, pairs_of(counting))
        self.assertEqual((offset.pairs, offset.median), (600, 1_000 * MS + 3))
