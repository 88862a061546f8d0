"""What has the same key stands together, and copies are found by line and port."""
from __future__ import annotations

import random
import unittest

try:
    import numpy as np
except ModuleNotFoundError:
    raise unittest.SkipTest("there is no package numpy") from None

from afdx_tools.replay.copies import copies_at_receivers
from afdx_tools.replay.grouping import (
    FEW,
    ByKey,
    first_greatest,
    grouped,
    is_ascending,
    narrowed,
)
from small_replay import MS, arrival, counted

MOST = (1, 2, 50, FEW - 1, FEW, FEW + 1, 3 * FEW, 2**31 - 1)  # keys are below one of these


class Keys(unittest.TestCase):
    """Places by keys."""

    def test_places_of_each_key(self) -> None:
        dice = random.Random(1)
        for most in MOST:
            for count in (0, 1, 7, 3000):
                keys = [dice.randrange(most) for _ in range(count)]
                wanted: dict[int, list[int]] = {}
                for place, key in enumerate(keys):
                    wanted.setdefault(key, []).append(place)
                found = grouped(np.array(keys, np.int32))
                self.assertEqual({key: at.tolist() for key, at in found.items()}, wanted)
                self.assertEqual(list(found), sorted(wanted))

    def test_the_first_of_the_greatest_of_each_part(self) -> None:
        values, bounds = np.array([3, 9, 9, 4, 9, 2, 2]), np.array([0, 3, 4, 5, 7])
        self.assertEqual(first_greatest(values, bounds).tolist(), [1, 3, 4, 5])
        self.assertEqual(first_greatest(values[:0], bounds[:1]).tolist(), [])

    def test_more_keys_than_have_short_numbers(self) -> None:
        keys = np.random.default_rng(1).permutation(FEW + 9)
        found = grouped(np.concatenate((keys, keys)))
        self.assertEqual(len(found), FEW + 9)
        self.assertTrue(all(second == first + len(keys) and keys[first] == key
                            for key, (first, second) in found.items()))  # fmt: skip

    def test_values_of_a_key(self) -> None:
        values = ByKey(np.array([3, 1, 3]), np.array([10, 20, 30]))
        self.assertEqual([values.of(key).tolist() for key in (1, 2, 3)], [[20], [], [10, 30]])


class Values(unittest.TestCase):
    """What is known of values."""

    def test_ascending(self) -> None:
        self.assertTrue(all(is_ascending(np.array(each)) for each in ([], [1], [1, 1, 2])))
        self.assertFalse(is_ascending(np.array([1, 2, 1])))

    def test_narrowed_where_there_is_room(self) -> None:
        for values, kind in (([2**31 - 1, -(2**31)], np.int32), ([2**31], np.int64)):
            found = narrowed(np.array(values, np.int64))
            self.assertEqual((found.dtype, found.tolist()), (kind, values))


class Receivers(unittest.TestCase):
    """Copies of a frame that left the same port of both switches."""

    def test_pairs_by_lines(self) -> None:
        listed = [arrival(n * MS, side, vl, 0) for n, (side, vl) in
                  enumerate((("A", 10), ("A", 20), ("B", 20), ("B", 10)))]  # fmt: skip
        written = "".join(f"V {n + 1} {'AABB'[n]} accept\n" for n in range(4))
        left = [(1, "A"), (2, "A"), (3, "B"), (4, "B")]
        written += "".join(f"D {n} {n}500000 {side} 3\nM {n}500000 disp 1 00\n" for n, side in left)
        counting = counted(listed, written)
        mine, its = copies_at_receivers(counting, np.array([0, 4, 3, 2, 1]))
        self.assertEqual((mine.tolist(), its.tolist()), ([2, 3], [1, 0]))
        mine, its = copies_at_receivers(counting, np.array([0, 4, 0, 0, 1]))
        self.assertEqual((mine.tolist(), its.tolist()), ([3], [0]))


if __name__ == "__main__":
    unittest.main()
