"""Which line of a list the program means by a number: its own, or that of a recorded frame."""
from __future__ import annotations

import numpy as np

from afdx_tools.faults import Refused
from afdx_tools.replay.listing import Listing


class Named:
    """The lines of a listing by the numbers that a run gives them, and the other way round, 0 for
    none. In a run over a recording the i-th verdict is that of the listing's i-th arrival; where
    there are two recordings, a number is one of the frame's side."""

    def __init__(self, listing: Listing) -> None:
        self.listing = listing
        self.judged = 0
        known = listing.arrivals[:0] if listing.is_recorded else listing.arrivals
        self.lines = np.zeros(listing.lines + 1, np.int32)
        self.lines[known] = known
        self.numbers = self.lines.copy()
        self.seen = np.zeros(0, bool)  # of each key whether a verdict had it
        self.last = np.zeros(0, np.int32)  # of a key the place of a verdict among some

    def keys(self, numbers: np.ndarray, sides: np.ndarray | None) -> np.ndarray:
        """What tells these frames from all others; `sides` are the letters beside the numbers."""
        if sides is None or not self.listing.is_pair:
            return numbers
        return 2 * numbers + (sides == ord("B"))

    def are_first(self, numbers: np.ndarray, sides: np.ndarray) -> np.ndarray:
        """Which of the next verdicts are those of the list's arrivals: the first of its number, and
        of two recordings of its side. Later ones are of what cables bring."""
        keys = self.keys(numbers, sides)
        most = int(keys.max(initial=0))
        if most >= len(self.seen):
            self.seen = np.pad(self.seen, (0, 2 * most + 1 - len(self.seen)))
            self.last = np.zeros(len(self.seen), np.int32)
        places = np.arange(len(keys), dtype=np.int32)
        self.last[keys[::-1]] = places[::-1]  # so the first of equal ones is written last
        first = (self.last[keys] == places) & ~self.seen[keys]
        self.seen[keys] = True
        return first

    def next_lines(self, numbers: np.ndarray, sides: np.ndarray) -> np.ndarray:
        """The lines of the next verdicts, which have these numbers."""
        if self.listing.is_recorded:
            lines = self.listing.arrivals[self.judged : self.judged + len(numbers)]
            self.judged += len(numbers)
            if len(lines) < len(numbers):
                raise gone(numbers[len(lines)])
            keys = self.keys(numbers, sides)
            self.grow(int(keys.max(initial=0)))
            self.lines[keys] = lines
            self.numbers[lines] = numbers
        return self.of(numbers, sides)

    def grow(self, most: int) -> None:
        """Makes room for keys up to this one."""
        if most >= len(self.lines):
            self.lines = np.pad(self.lines, (0, 2 * most + 1 - len(self.lines)))

    def of(self, numbers: np.ndarray, sides: np.ndarray | None = None) -> np.ndarray:
        """The lines of these numbers; Refused where one has none."""
        keys = self.keys(numbers, sides)
        if int(keys.max(initial=0)) >= len(self.lines):
            keys = np.where(keys < len(self.lines), keys, 0)
        lines = self.lines[keys]
        if not lines.all():
            raise gone(numbers[np.flatnonzero(lines == 0)[0]])
        return lines


def gone(number: int) -> Refused:
    """What the program judged isn't in the list."""
    return Refused(f"line {number} of the list is gone: did the list change meanwhile?")
