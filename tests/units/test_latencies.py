"""What is counted of a replay: latencies and their percentiles, late copies, backlogs, loads."""
from __future__ import annotations

import unittest

try:
    import numpy as np
except ModuleNotFoundError:
    raise unittest.SkipTest("there is no package numpy") from None

from afdx_tools.replay.counting import (
    Steps,
    late_of,
    loads_of,
    most_waiting,
    spreads_of,
    steps_of,
)
from afdx_tools.report.numbers import histogram_of, largest
from small_replay import arrival, counted

# Three frames of 64 bytes for port 3 of side A, whose slots take (64 + 20) * 800 = 67,200 ns: the
# first begins when it comes, and the others one after another.
LISTED = [
    arrival(1_000_000, "A", 10, 0),
    arrival(1_001_000, "A", 20, 0),
    arrival(1_010_000, "A", 20, 1),
]
WRITTEN = """V 1 A accept
V 2 A accept
V 3 A accept
D 1 1067200 A 3
M 1067200 disp 10 00
D 2 1134400 A 3
M 1134400 disp 20 00
D 3 1201600 A 3
X 1134400 disp sequence
"""


def percentiles(*parts: list[int]) -> list[tuple[int, ...]]:
    """Those of each of these parts of latencies, which ascend."""
    bounds = np.cumsum([0, *map(len, parts)])
    spreads = spreads_of(np.concatenate([np.array(part, np.int64) for part in parts]), bounds)
    for part, spread in zip(parts, spreads):
        assert (spread[0], spread[-1]) == (part[0], part[-1])
    return [spread[1:-1] for spread in spreads]


class Percentiles(unittest.TestCase):
    """The least latency that so many of the copies don't exceed."""

    def test_of_a_thousand(self) -> None:
        self.assertEqual(percentiles(list(range(1, 1001))), [(500, 990, 999)])

    def test_of_few(self) -> None:
        found = percentiles([7], [7, 9], [7, 8, 9])
        self.assertEqual(found, [(7, 7, 7), (7, 9, 9), (8, 9, 9)])
        self.assertEqual(percentiles(list(range(1, 102)))[0][1], 100)  # 99.99 of 101

    def test_is_exact_where_a_quotient_of_floats_is_not(self) -> None:
        # 99.9 * 41000 / 100 is 40959.00000000001 in floats
        self.assertEqual(percentiles(list(range(1, 41_001)))[0][2], 40_959)


class Late(unittest.TestCase):
    """How many latencies of each part are over what is asked."""

    def test_each_part_has_its_limit(self) -> None:
        latency, bounds = np.array([5, 6, 7, 5, 6, 7, 1]), np.array([0, 3, 6, 7])
        self.assertEqual(late_of(latency, bounds, np.array([6, 4, 1])).tolist(), [1, 3, 0])


class Latencies(unittest.TestCase):
    """Latencies of each link at each port of each side."""

    def setUp(self) -> None:
        self.counting = counted(LISTED, WRITTEN)

    def test_from_arrival_to_the_end_of_the_slot(self) -> None:
        paths = self.counting.paths
        places = [(one.link, one.port, one.side) for one in paths]
        self.assertEqual(places, [(10, 3, 0), (20, 3, 0)])
        self.assertEqual((paths[0].frames, set(paths[0].spread)), (1, {67_200}))
        self.assertEqual((paths[1].frames, set(paths[1].spread)), (2, {133_400, 191_600}))
        self.assertEqual([one.worst for one in paths], [0, 2])

    def test_late_is_over_the_configured_100_us(self) -> None:
        self.assertEqual([one.late for one in self.counting.paths], [0, 2])

    def test_just_in_time_is_not_late(self) -> None:
        counting = counted(LISTED[:1], "V 1 A accept\nD 1 1100000 A 3\nM 1100000 disp 10 00\n")
        self.assertEqual(counting.paths[0].late, 0)
        counting = counted(LISTED[:1], "V 1 A accept\nD 1 1100001 A 3\nM 1100001 disp 10 00\n")
        self.assertEqual(counting.paths[0].late, 1)

    def test_by_share_of_the_configured_one(self) -> None:
        # 67.2 % is in the 14th twentieth, and both others are over all of it
        wanted = [0] * 13 + [1] + [0] * 6 + [2]
        self.assertEqual(histogram_of(self.counting), {"A": wanted, "B": [0] * 21})

    def test_frames_and_copies_by_what_became_of_them(self) -> None:
        counting = self.counting
        self.assertEqual(counting.frames_by(counting.place, 3)[:, 0].tolist(), [1, 2, 0])
        ends = counting.ends_by(counting.links, 3)
        self.assertEqual(counting.events.ends.names, ["delivered", "redundant", "sequence"])
        self.assertEqual(ends.tolist(), [[1, 0, 0], [1, 0, 1], [0, 0, 0]])

    def test_the_port_is_always_busy(self) -> None:
        steps, queues = self.counting.queues
        self.assertEqual(len(queues), 1)
        port = queues[0]
        self.assertEqual((port.port, port.side, port.left), (3, 0, 3))
        self.assertEqual(port.load, 1.0)  # 3 slots of 67,200 ns in 201,600 ns
        self.assertEqual((port.backlog, port.time), (128, 1_010_000))  # frames 2 and 3 wait
        self.assertEqual((steps.start, steps.width, steps.count), (1_000_000, 2_000, 101))


class Sums(unittest.TestCase):
    """Backlogs, loads, steps of time, greatest values."""

    def test_a_frame_waits_at_both_ends_of_its_time(self) -> None:
        put, begun = np.array([0, 100, 100]), np.array([0, 100, 250])
        self.assertEqual(most_waiting(put, begun, np.array([64, 65, 66])), (131, 100))
        self.assertEqual(most_waiting(put[:0], begun[:0], put[:0]), (0, 0))

    def test_a_slot_counts_in_each_step_that_it_touches(self) -> None:
        steps = Steps(1_000, 1_000, 3)
        loads, load = loads_of(np.array([1_500, 3_500]), np.array([1_000, 250]), steps, 3_000)
        self.assertEqual([round(float(one), 9) for one in loads], [0.5, 0.5, 0.25])
        self.assertAlmostEqual(load, 1_250 / 3_000)

    def test_steps_are_1_2_or_5_times_a_power_of_ten(self) -> None:
        self.assertEqual(steps_of(0, 10**9, 200), Steps(0, 10**7, 101))
        self.assertEqual(steps_of(0, 10**9 - 1, 200), Steps(0, 5 * 10**6, 200))
        self.assertEqual(steps_of(7, 7, 200), Steps(7, 1_000, 1))

    def test_the_last_moment_is_in_the_last_step(self) -> None:
        self.assertEqual(Steps(0, 10, 3).of(np.array([0, 9, 10, 30, 31])).tolist(), [0, 0, 1, 2, 2])

    def test_of_equal_values_the_earlier_is_the_greater(self) -> None:
        self.assertEqual(largest(np.array([5, 9, 9, 1, 9]), 2).tolist(), [1, 2])
        self.assertEqual(largest(np.array([5, 9, 9, 1, 9]), 4).tolist(), [1, 2, 4, 0])
