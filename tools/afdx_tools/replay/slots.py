"""Of each line of the list a slot for each port to which copies of its link went: so a copy is
found by line and port without a search."""
from __future__ import annotations

import numpy as np

from afdx_tools.replay.counting import Counting

NONE = -1  # stands in the slot of a copy that isn't there


class Slots:
    """The copies `at`, each in its slot. Slots stand by lines, those of a line by ports; lines
    without any of the copies have none."""

    def __init__(self, counting: Counting, at: np.ndarray) -> None:
        places, lines = counting.places, counting.events.line
        if len(at) < len(lines):
            places, lines = places[at], lines[at]
        size = len(counting.vls) * counting.ports
        there = (np.bincount(places, minlength=size) > 0).reshape(-1, counting.ports)
        ranks = np.cumsum(there, axis=1, dtype=np.int32).ravel() - np.int32(1)
        known = np.zeros(len(counting.place), bool)
        known[lines] = True
        self.counts = np.where(known, there.sum(axis=1)[counting.place], 0)
        ends = np.cumsum(self.counts)
        self.begin = (ends - self.counts).astype(np.int32)
        self.table = np.full(int(ends[-1]), NONE, np.int32)
        self.table[self.begin[lines] + ranks[places]] = at

    def pairs(self, lines: np.ndarray, others: np.ndarray) -> tuple[np.ndarray, np.ndarray]:
        """The copies of these lines of which their others have one at the same port, too, and the
        copies of these; by lines as they are given, then by ports. A line and its other are of one
        link."""
        both = (self.counts[lines] > 0) & (self.counts[others] > 0)
        lines, others = lines[both], others[both]
        counts = self.counts[lines]
        first = np.cumsum(counts) - counts  # of each line the place of its first slot here
        mine = np.repeat(self.begin[lines] - first, counts)
        mine += np.arange(len(mine))
        its = mine + np.repeat(self.begin[others] - self.begin[lines], counts)
        mine, its = self.table[mine], self.table[its]
        there = (mine != NONE) & (its != NONE)
        return mine[there], its[there]
