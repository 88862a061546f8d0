"""The cells of a row of an interface document: what they have to be, and what they say."""
from __future__ import annotations

import itertools
import re
from collections import Counter
from fractions import Fraction
from typing import Iterable, Mapping, Sequence

from afdx_tools.spreadsheets.heads import amount_of
from afdx_tools.spreadsheets.sheets import Row

BAGS_MS = (1, 2, 4, 8, 16, 32, 64, 128)
MOST_US = 100_000  # of a latency and of a skew
LONGEST_PERIOD = 10**9  # ms
PARTS = 2**128  # of a message in a ms, in which many of them are counted


class Cells:
    """The cells of a row; what is wrong with one is noted, and then it has no value."""

    def __init__(self, row: Row, faults: list[str]) -> None:
        self.row, self.faults = row, faults

    def refuse(self, column: str, what: str) -> None:
        """Notes what is wrong."""
        self.faults.append(f"{self.row.at(column)}: {what}")

    def amount(self, column: str) -> Fraction | None:
        """The number of a cell in the unit of its column, whatever that of its head is."""
        number = amount_of(self.row.cells[column])
        return None if number is None else number * self.row.factor(column)

    def whole(self, column: str, least: int, most: int, empty: int | None = None) -> int | None:
        """A whole number of a range."""
        if self.row.cells[column] == "" and empty is not None:
            return empty
        number = self.amount(column)
        if number is not None and number.denominator == 1 and least <= number <= most:
            return int(number)
        low, high = self.row.in_head(column, least), self.row.in_head(column, most)
        if self.row.factor(column) == 1:
            self.refuse(column, f"it has to be a whole number from {low} to {high}")
        else:
            step = self.row.in_head(column, 1)
            self.refuse(column, f"it has to be {low} to {high}, in steps of {step}")
        return None

    def given(self, column: str, least: int, most: int) -> int | None:
        """A whole number of a range; none where the cell is empty."""
        return self.whole(column, least, most) if self.row.cells[column] else None

    def depth(self, column: str, kind: str | None) -> int | None:
        """How many messages may wait in a communication port of that kind."""
        if kind != "sampling":
            return self.whole(column, 1, 64)
        if self.row.cells[column] == "" or self.amount(column) in (0, 1):
            return 1
        self.refuse(column, "it has to be 1, or empty, for sampling")
        return None

    def one_of(self, column: str, words: Sequence[str]) -> str | None:
        """One of some words, in small or large letters."""
        text = self.row.cells[column].lower()
        if text in words:
            return text
        self.refuse_other(column, words)
        return None

    def member(self, column: str, numbers: Sequence[int], needs: Mapping[int, str]) -> int | None:
        """One of some numbers; `needs` are words with which others may be given too."""
        number = self.amount(column)
        if number is not None and number in numbers:
            return int(number)
        allowed = [self.row.in_head(column, each) for each in numbers]
        word = "" if number is None else needs.get(int(number), "")
        self.refuse_other(column, allowed, f"; with {word} also this" if word else "")
        return None

    def refuse_other(self, column: str, allowed: Sequence[str], more: str = "") -> None:
        """Notes that a cell is none of what it may be."""
        *others, last = allowed
        self.refuse(column, f"it has to be {', '.join(others)} or {last}{more}")

    def period_ms(self, column: str) -> Fraction | None:
        """A period in ms, which may have a fraction."""
        number = self.amount(column)
        if number is None or number >= LONGEST_PERIOD:
            self.refuse(column, "it has to be a period, as 20 or 12.5 ms")
        elif number < BAGS_MS[0]:
            self.refuse(column, "no BAG is so short; the least is 1 ms")
        else:
            return number
        return None

    def words(self, column: str) -> list[str]:
        """What stands in a cell, with spaces, commas or semicolons between."""
        return [word for word in re.split(r"[\s,;]+", self.row.cells[column]) if word]


def sum_of(periods: Iterable[Fraction]) -> tuple[int, int]:
    """How many messages of these periods come in a ms: a number, and by what it is to be divided.
    They are added by halves, so that most sums are of short numbers."""
    counts = Counter(periods)
    parts = [(count * period.denominator, period.numerator) for period, count in counts.items()]
    while len(parts) > 1:
        pairs = itertools.zip_longest(parts[::2], parts[1::2], fillvalue=(0, 1))
        parts = [(one * by + two * of, of * by) for (one, of), (two, by) in pairs]
    return parts[0] if parts else (0, 1)


def bag_of(periods: Iterable[Fraction]) -> int | None:
    """The greatest BAG with which a link can send messages of these periods, in ms: in each BAG it
    sends one. None if there is no such BAG."""
    all_periods = list(periods)
    # each is rounded down here, by less than one part
    least = sum(PARTS * period.denominator // period.numerator for period in all_periods)
    many = [bag for bag in BAGS_MS if bag * least <= PARTS]
    few = [bag for bag in BAGS_MS if bag * (least + len(all_periods)) <= PARTS]
    if many != few:  # the sum is so near to a BAG's that it has to be exact
        amount, divisor = sum_of(all_periods)
        few = [bag for bag in BAGS_MS if bag * amount <= divisor]
    return max(few, default=None)
