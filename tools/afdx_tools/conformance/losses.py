"""What the sequence numbers of a link's frames say of what a recorder lost. A frame whose number is
missing where frames came, and that left, was lost by the recorder: a switch makes no frames. One
that came, and whose number is missing where frames left, was lost by either."""
from __future__ import annotations

from bisect import bisect_left, bisect_right
from typing import Iterable, NamedTuple, Sequence

from afdx_tools.conformance.frames import Frame
from afdx_tools.conformance.measuring import Measured, Pair, Stream

MOST_STEPS = 127  # a longer step is taken as one back
ROUND = 255  # numbers go from 1 to 255, and 0 begins anew


class Lost(NamedTuple):
    """A frame that one list has and whose number a gap of the other one lacks; `since` is the time
    of that one's frame before the gap."""

    frame: Frame
    since: int


def skipped(before: int | None, after: int | None) -> set[int]:
    """The numbers that are missing between those of two frames that follow one another."""
    if before is None or not after:
        return set()
    steps = after if before == 0 else (after - before) % ROUND
    if steps > MOST_STEPS:
        return set()
    return {(before + step - 1) % ROUND + 1 for step in range(1, steps)}


def lost(gaps: Sequence[Frame], alone: Sequence[Frame], earlier: int, later: int) -> list[Lost]:
    """Of frames that are alone, by time, those whose numbers a gap of the other list lacks, and
    whose times are from `earlier` ns before it to `later` ns behind it."""
    times = [frame.time for frame in alone]
    found: dict[int, Lost] = {}
    numbered = [frame for frame in gaps if frame.number is not None]
    for one, other in zip(numbered, numbered[1:]):
        missing = skipped(one.number, other.number)
        if missing:
            begin = bisect_left(times, one.time - earlier)
            for frame in alone[begin : bisect_right(times, other.time + later)]:
                if frame.number in missing:
                    found.setdefault(frame.line, Lost(frame, one.time))
    return list(found.values())


class Losses:
    """Of one stream the frames that its recorders lost, by their numbers: what left and never came,
    and what came and never left. `damaged` are lines of frames that left and aren't whole."""

    def __init__(self, measured: Measured, stream: Stream, pairs: Iterable[Pair],
                 damaged: set[int]) -> None:  # fmt: skip
        came = measured.came.get((stream.side, stream.vl), [])
        left = measured.left.get(stream, [])
        pairs = list(pairs)
        that_came, that_left = ({pair[at] for pair in pairs} for at in (0, 1))
        most = measured.most(stream)
        alone = [each for each in left if each.line not in that_left | damaged]
        self.never_came = lost(came, alone, 0, most)
        alone = [each for each in came if each.line not in that_came]
        self.never_left = lost(left, alone, most, 0)

    def words_of(self, is_left: bool, line: int, other_ports: Sequence[int] = ()) -> str:
        """What the numbers say of the frame that a finding names; `other_ports` are ports of its
        link by which it left."""
        for each in self.never_came if is_left else self.never_left:
            if each.frame.line == line:
                number = each.frame.number
                if is_left:
                    return f"number {number} left and never came: the recorder's"
                ports = " and ".join(map(str, other_ports))
                left = f"left at port{'s' * (len(other_ports) > 1)} {ports}, " if ports else ""
                return f"number {number} came, {left}and never left here"
        return ""

    def words_at(self, time: int | None) -> str:
        """What they say of a stream's first finding, which names a frame of that time."""
        numbers = [each.frame.number for each in self.never_came
                   if time is not None and each.since <= time]  # fmt: skip
        if not numbers:
            return ""
        more = f" and {len(numbers) - 1} more" if numbers[1:] else ""
        return f"number{'s' * bool(more)} {numbers[0]}{more} left and never came: the recorder's"
