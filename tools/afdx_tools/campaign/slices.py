"""Slices of time of one long recording, each judged by a run of its own."""
from __future__ import annotations

import os
from typing import Iterable, NamedTuple, Sequence

from afdx_tools.conformance.options import LEFT
from afdx_tools.faults import Refused, shown
from afdx_tools.recordings.options import is_recording
from afdx_tools.recordings.span import span_of
from afdx_tools.tables import Row

# What two slices have in common. It is longer than the greatest latency, twice what stamps may be
# off, and a pause of a link that fills its account, whatever tables and options.
COMMON = 1_000_000_000  # ns
LEAST = 2 * COMMON
MOST = 1000
HIDDEN = (
    "a slice doesn't know the accounts at its start. Of a link that didn't pause for its BAG and "
    "jitter in the second that two slices have in common, a switch may have let frames through "
    "that it had to drop for what came before, or dropped some for which it had room: that isn't "
    "found"
)


class Slice(NamedTuple):
    """A slice: which it is of how many, and the times at which it begins and ends, in ns; None
    where it begins or ends as the recording does."""

    number: int
    total: int
    begin: int | None
    until: int | None

    def __str__(self) -> str:
        return f"{self.number} of {self.total}"

    def words(self) -> list[str]:
        """The words that say the same to the program."""
        times = (("from", self.begin), ("until", self.until))
        return [f"--{name}={time}" for name, time in times if time is not None]

    def cells(self) -> Row:
        """What the table says of it."""
        return {"slice": str(self), "from_ns": self.begin, "until_ns": self.until}


def cut(count: int, begin: int | None, end: int, until: int | None) -> list[Slice]:
    """The slices of what comes from a time to another, as long as each other; each goes on for what
    it has in common with the next one."""
    first = begin or 0
    seams = [first + (end - first) * place // count for place in range(1, count)]
    begins: list[int | None] = [begin, *seams]
    ends: list[int | None] = [*(seam + COMMON for seam in seams), until]
    pairs = enumerate(zip(begins, ends), 1)
    return [Slice(number, count, one, other) for number, (one, other) in pairs]


def interfaces_in(words: Iterable[str]) -> set[int]:
    """The interfaces of words as `--left=K=PLACE`."""
    numbers = (word.removeprefix(LEFT).partition("=")[0] for word in words if word.startswith(LEFT))
    return {int(number) for number in numbers if number.isascii() and number.isdigit()}


def slices_of(
    files: Sequence[str], count: int, begin: int | None, until: int | None, words: Iterable[str]
) -> list[Slice]:
    """The slices of a recording, of what comes from `begin` to `until`, where these are given;
    Refused where it can't be cut. Words say which of its interfaces are of what left.

    Without `until` the recording itself says how long it is, by its first and its last frame that
    left. Time 0 isn't behind the one, nor the end before the other; and no slice but the last has
    the last second. So none ends where recorders had stopped."""
    path = files[0]
    if len(files) > 1 or (os.path.isfile(path) and not is_recording(path)):
        raise Refused("--slices takes one recording, of what came and of what left")
    end = span_of(path, interfaces_in(words)) if until is None else until
    if end is None:
        raise Refused(f"{shown(path)} doesn't say how long it is (--until says it)")
    if end - (begin or 0) < count * LEAST:
        raise Refused(f"{shown(path)}: {count} slices of it aren't two seconds each")
    return cut(count, begin, end, until)
