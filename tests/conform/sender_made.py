"""What a right system sends of link 1 of the base tables on both networks, as recorders would write
it; and whether a few frames are those of a right system, by trying all."""
from __future__ import annotations

import random
from collections.abc import Iterator
from typing import NamedTuple

from conform_terms import MILLION, Options
from frames import frame_of, number_of
from one_switch import MS
from sender_source import Heard, Source, SourceTerms, Way
from tables import base_tables

TABLES = base_tables()
LINK, SYSTEM = TABLES["link"][0], TABLES["system"][0]
WAY = Way(1_000_000, 17_000, 80)
BAG, JITTER = LINK["bag_ms"] * MS, 1000 * LINK["jitter_us"]
SIDES = "AB"


class Recording(NamedTuple):
    """Options, when the recordings end, and the frames that were recorded, by their lines."""

    options: Options
    until: int
    frames: list[Heard]

    def within(self) -> list[Heard]:
        """The frames that aren't passed over."""
        return [each for each in self.frames
                if self.options.begin(False) <= each.time <= self.until]

    def source(self) -> Source:
        """What is found of it."""
        return Source(SourceTerms(LINK, SYSTEM["id"], [WAY], self.options, self.until, True),
                      self.within())


def frame(place: int, side: int, payload: bytes = b"hello") -> bytes:
    """The frame of the message at this place, counted from 0."""
    return frame_of(SYSTEM, LINK["vl"], 1000, payload, number_of(place), SIDES[side])


def listed(stamped: list[tuple[int, int, bytes]]) -> list[Heard]:
    """Frames by their lines: stamp, side and bytes of each."""
    ordered = sorted(stamped, key=lambda each: each[:2])
    return [Heard(time, side, line, content)
            for line, (time, side, content) in enumerate(ordered, 1)]


def clocked(chance: random.Random, times: list[int], drift: int, begin: int) -> dict[int, int]:
    """By each time of the system's clock one of the recorder's, which is off by so many millionths
    at most between any two."""
    found, latest, at = {}, times[0], begin
    for time in times:
        gap = time - latest
        least, most = -(-MILLION * gap // (MILLION + drift)), MILLION * gap // (MILLION - drift)
        at += chance.randint(least, most)
        found[time], latest = at, time
    return found


def sent(chance: random.Random, count: int, apart: int) -> list[tuple[int, int, int]]:
    """When so many messages are sent on both sides, by the system's clock: each with its place."""
    found, moments = [], [0, 0]
    late = [0, chance.randint(0, apart)]
    chance.shuffle(late)
    for place in range(count):
        times = [0, 0]
        while True:
            gaps = [BAG + chance.choice([0, 0, chance.randint(0, 3 * BAG)])] * 2
            times = [moment + chance.choice([0, JITTER, chance.randint(0, JITTER)]) + by
                     for moment, by in zip(moments, late)]
            if abs(times[0] - times[1]) <= apart:
                break
        found += [(times[side], side, place) for side in (0, 1)]
        moments = [moment + gap for moment, gap in zip(moments, gaps)]
    return sorted(found)


def right(chance: random.Random) -> Recording:
    """A right system, from a message on, recorded from one time to another by recorders that start
    and stop apart."""
    slack, drift = chance.choice([(0, 0), (1_000, 0), (0, 1_000), (500, 300)])
    given = chance.choice([None, None, 0, 100_000, 100_000_000])
    apart = WAY.leaves(64) if given is None else given
    all_sent = sent(chance, chance.randint(1, 30), min(apart, 4 * BAG))
    times = [time for time, _, _ in all_sent]
    clock = clocked(chance, times, drift, chance.choice([2_000, 7 * BAG]))
    first = chance.choice([0, 0, 250, 300])
    start = None
    if chance.random() < 0.4 or first:
        start = clock[chance.choice(times)] + chance.randint(0, BAG)
    until = clock[chance.choice(times)] + chance.choice([0, chance.randint(0, 3 * BAG)])
    stamped = [(clock[time] + chance.randint(-slack, slack), side, frame(first + place, side))
               for time, side, place in all_sent]
    begins = [(start or 0) - chance.choice([0, 0, chance.randint(0, 9 * BAG)]) for _ in SIDES]
    ends = [until + chance.choice([0, 0, chance.randint(0, 9 * BAG)]) for _ in SIDES]
    kept = [each for each in stamped if begins[each[1]] <= each[0] <= ends[each[1]]]
    options = Options(slack=slack, drift=drift, start=start, until=until, apart=given)
    return Recording(options, until, listed(kept))


# ---- trying all ----------------------------------------------------------------------------------

UNIT = BAG // 4  # times of small cases are whole units
NEAR = 3 * UNIT


def is_spaced(times: list[int]) -> bool:
    """Each frame comes as many gaps behind any before it as stand between, but for the jitter."""
    return all(times[k] - times[i] >= (k - i) * BAG - JITTER
               for k in range(len(times)) for i in range(k))


def behind(times: list[int], copies: list[int], until: int) -> Iterator[list[int]]:
    """The times of copies, and each way to send those behind the end that are missing."""
    if len(copies) >= len(times):
        yield copies
        return
    place = len(copies)
    for time in range(times[place] - NEAR, times[place] + NEAR + 1, UNIT):
        if time > until:
            yield from behind(times, [*copies, time], until)


def is_right(sides: list[list[int]], until: int) -> bool:
    """Whether a right system may have sent frames at just these times up to the end, those of each
    side numbered from 0."""
    long, short = sorted(sides, key=len, reverse=True)
    return any(
        is_spaced(long) and is_spaced(copies)
        and all(abs(one - other) <= NEAR for one, other in zip(long, copies))
        for copies in behind(long, short, until)
    )


def small(chance: random.Random) -> tuple[list[list[int]], int]:
    """Times of few frames on each side, and the end."""
    sides = []
    base = [chance.randint(0, 2)]
    for _ in range(chance.randint(0, 3)):
        base.append(base[-1] + chance.randint(2, 5))
    for _ in SIDES:
        times = [max(0, time + chance.choice([-1, 0, 0, 1, 2, 3])) for time in base]
        sides.append(sorted(times)[: chance.choice([len(times), len(times), len(times) - 1])])
    latest = max([0, *(time for times in sides for time in times)])
    until = latest + chance.randint(0, 4)
    return [[time * UNIT for time in times] for times in sides], until * UNIT


def small_recording(sides: list[list[int]], until: int) -> Recording:
    """The same as it is recorded."""
    frames = [(time, side, frame(place, side))
              for side, times in enumerate(sides) for place, time in enumerate(times)]
    return Recording(Options(until=until, apart=NEAR), until, listed(frames))
