"""Which links, systems and networks fell silent, on which side, from when to when.

A silence is a time without any frame that is longer than four BAGs of the link, and longer than
four times what is usual between its frames. The ends of the run count like frames. Of a system, all
that came in at its port counts, and the least BAG of its links; of a network, all that came in.
"""
from __future__ import annotations

from bisect import bisect_right
from dataclasses import dataclass, replace
from typing import Iterable, Iterator, NamedTuple

import numpy as np

from afdx_tools.replay.counting import Counting
from afdx_tools.replay.events import side_name
from afdx_tools.replay.grouping import grouped
from afdx_tools.replay.traffic import NUMBERED, by_link

LEAST = 4  # BAGs, and gaps as they are usual
NETWORK, SYSTEM, LINK = "network", "system", "link"
BOTH = "A and B"
Name = str | int | None


@dataclass(frozen=True)
class Silence:
    """A time without a frame: of a network, a system or a link by its name (None, a name, an
    identifier), on a side. `before` and `after` are the lines of the frames around it, 0 at an end
    of the run; `bag` in ns is that by which it is counted; anything shorter than `least` is no
    silence there. `other` says how many frames came meanwhile on the other side."""

    level: str
    name: Name
    side: str
    begin: int
    end: int
    before: int
    after: int
    bag: int
    least: int
    other: int

    @property
    def bags(self) -> float:
        """Of how many BAGs it is."""
        return (self.end - self.begin) / self.bag

    def is_like(self, other: Silence) -> bool:
        """Are they the same silence, on both sides?"""
        begin, end = abs(self.begin - other.begin), abs(self.end - other.end)
        return max(begin, end) <= self.least


class Heard(NamedTuple):
    """Whose frames these are, with the BAG in ns by which silences are counted, and the lines of
    the frames on each side."""

    level: str
    name: Name
    bag: int
    lines: list[np.ndarray]


class Silences:
    """The silences of a run from `begin` to `end`. `rows` has each once: on both sides where it is
    so, and none of a link or a system that one of its system or of a network explains."""

    def __init__(self, counting: Counting) -> None:
        self.counting = counting
        times = counting.listing.time[counting.arrived]
        self.begin, self.end = (int(times[0]), int(times[-1])) if len(times) else (0, 0)
        self.found = {
            (one.level, one.name, side_name(side)): silences
            for one in heard(counting)
            for side, silences in enumerate(self.silences_of(one))
        }
        left = {key: self.unexplained(key, found) for key, found in self.found.items()}
        names = dict.fromkeys((level, name) for level, name, _ in left)
        self.rows = [row for key in names for row in merged(left[(*key, "A")], left[(*key, "B")])]

    def silences_of(self, heard: Heard) -> list[list[Silence]]:
        """The silences of one, on each side. By the usual gap the lesser of both sides is meant, 0
        where there is none. A network of which nothing came is silent, however short the run."""
        times = [self.counting.listing.time[lines] for lines in heard.lines]
        gaps = [each[1:] - each[:-1] for each in times]
        usual = min((gap for gap in map(usual_gap, gaps) if gap), default=0)
        least, found = LEAST * max(heard.bag, usual), []
        for side in (0, 1):
            is_dead = heard.level == NETWORK and not len(times[side]) and len(times[1 - side]) > 0
            longest = self.longest(times[side], gaps[side])
            is_silent = is_dead or longest > least
            found.append(list(self.silent(heard, side, times, least)) if is_silent else [])
        return found

    def longest(self, times: np.ndarray, gaps: np.ndarray) -> int:
        """The longest time without any of these frames."""
        if not len(times):
            return self.end - self.begin
        edges = int(times[0]) - self.begin, self.end - int(times[-1])
        return max(*edges, int(gaps.max(initial=0)))

    def silent(
        self, heard: Heard, side: int, times: list[np.ndarray], least: int
    ) -> Iterator[Silence]:
        """The silences of one on a side; of one of which nothing came there, all of the run."""
        none = np.zeros(1, np.int64)
        edges = np.concatenate((none + self.begin, times[side], none + self.end))
        lines = np.concatenate((none, heard.lines[side], none))
        for at in np.flatnonzero(np.diff(edges) > (least if len(times[side]) else -1)):
            begin, end = int(edges[at]), int(edges[at + 1])
            first = np.searchsorted(times[1 - side], begin, "left")
            last = np.searchsorted(times[1 - side], end, "right")
            around = int(lines[at]), int(lines[at + 1])
            yield Silence(
                heard.level, heard.name, side_name(side), begin, end, *around, heard.bag, least,
                int(last - first),
            )  # fmt: skip

    def unexplained(self, key: tuple[str, Name, str], silences: list[Silence]) -> list[Silence]:
        """Those that aren't parts of a silence of the network, or of the system that sends."""
        level, name, side = key
        parents = [self.found[NETWORK, None, side]] if level != NETWORK else []
        if level == LINK:
            sender = self.counting.config.links[int(name or 0)].source
            parents.append(self.found.get((SYSTEM, sender, side), []))
        return [one for one in silences if not any(explains(each, one) for each in parents)]

    def cover(self, lines: np.ndarray, near: np.ndarray) -> np.ndarray:
        """Of each line: does a silence of the other side explain that its frame has no copy there?
        The copy may come `near` ns sooner or later."""
        config, listing, found = self.counting.config, self.counting.listing, np.zeros(0, bool)
        found = np.zeros(len(lines), bool)
        keys = self.counting.place[lines].astype(np.int64) * 2 + 1 - listing.side[lines]
        for key, at in grouped(keys).items():
            link = config.links[self.counting.vls[key // 2]]
            side, times = side_name(key % 2), listing.time[lines[at]]
            for name in ((NETWORK, None), (SYSTEM, link.source), (LINK, link.vl)):
                for one in self.found.get((*name, side), []):
                    found[at] |= (times >= one.begin - near[at]) & (times <= one.end + near[at])
        return found


def explains(parents: list[Silence], child: Silence) -> bool:
    """Is what one of these leaves of the other too short for a silence? They don't overlap."""
    at = bisect_right(parents, child.begin + child.least, key=lambda parent: parent.begin)
    return at > 0 and child.end <= parents[at - 1].end + child.least


def merged(of_a: list[Silence], of_b: list[Silence]) -> Iterable[Silence]:
    """What fell silent on both sides at once is one silence."""
    rows = {one.begin: one for one in of_a}
    alone = []
    for one in of_b:
        at = bisect_right(of_a, one.begin, key=lambda row: row.begin)
        like = [row for row in of_a[max(at - 1, 0) : at + 1] if row.is_like(one)]
        if like:
            first, last = min(like[0].begin, one.begin), max(like[0].end, one.end)
            rows[like[0].begin] = replace(like[0], side=BOTH, begin=first, end=last, other=0)
        else:
            alone.append(one)
    return [*rows.values(), *alone]


def heard(counting: Counting) -> Iterator[Heard]:
    """Whose frames came: the network, each system that sends, each link."""
    config, side = counting.config, counting.listing.side.astype(np.int64)
    arrived, numbered = counting.arrived, by_link(counting, NUMBERED)
    of_port = groups_by(side + 2 * counting.listing.port, arrived)
    none, heard_of = arrived[:0], set(numbered.keys)
    bags = {vl: link.bag_ms * 1_000_000 for vl, link in config.links.items()}
    came = [vl for place, vl in enumerate(counting.order) if {2 * place, 2 * place + 1} & heard_of]
    bag = min((bags[vl] for vl in came or bags), default=1_000_000)
    yield Heard(NETWORK, None, bag, [arrived[side[arrived] == each] for each in (0, 1)])
    for system in config.systems.values():
        mine = [vl for vl, link in config.links.items() if link.source == system.name]
        if mine:
            bag = min(bags[vl] for vl in ({*mine} & {*came} or mine))
            lines = [of_port.get(2 * system.port + each, none) for each in (0, 1)]
            yield Heard(SYSTEM, system.name, bag, lines)
    for place, vl in enumerate(counting.order):
        lines = [numbered.of(2 * place + each) for each in (0, 1)]
        yield Heard(LINK, vl, bags[vl], lines)


def groups_by(keys: np.ndarray, lines: np.ndarray) -> dict[int, np.ndarray]:
    """These lines by the keys of all lines."""
    return {key: lines[at] for key, at in grouped(keys[lines]).items()}


def usual_gap(gaps: np.ndarray) -> int:
    """What nearly all of these gaps don't exceed: all but the longest twentieth of them, and all
    but the two longest; 0 where there is none."""
    if not len(gaps):
        return 0
    rank = max(len(gaps) - 1 - max(len(gaps) // 20, 2), 0)
    return int(np.partition(gaps, rank)[rank])
