"""Whether a system sent a link's frames as it may: what is found of one source, by all its frames.
Computed apart from the program, in whole numbers.

A source is a link and the system that sends it on both networks. On each its messages are spaced by
the BAG, each frame up to the jitter later; the k-th frames of both are the same but for the network
in the source address, and are sent no further apart than the receivers allow.
"""
from __future__ import annotations

from collections.abc import Iterator
from typing import NamedTuple

from conform_terms import MILLION, Options
from frames import sealed
from one_switch import LONGEST, MS, SHORTEST, datagram

NETWORKS = (b"\x20", b"\x40")  # the last byte of a source address, by side
MOST_APART = 100 * MILLION  # ns: the greatest skew, and the greatest `--apart`
BEFORE_FRAME = 8  # bytes of the line: preamble and delimiter
# So many steps at most a number is behind another. Copies may be sent 100 ms apart, and are near
# within 100 ms. So a frame that was sent before one's copy may be near that one though it stands
# 201 places back: 54 steps on, by its number. Slack and drift take some more.
FURTHER_ON = 45


class Way(NamedTuple):
    """How a system gets a link, in ns: its skew, the sum of the latencies on the way there, and
    what a byte takes on all lines of the way, summed."""

    skew: int
    latency: int
    byte_ns: int

    def leaves(self, length: int) -> int:
        """How far apart the copies of a frame of this length may be sent."""
        sooner = max(0, self.latency - (length + BEFORE_FRAME) * self.byte_ns)
        return max(0, self.skew - sooner)


class Heard(NamedTuple):
    """A frame of a source: when and on which side it came, the number of its line, its bytes."""

    time: int
    side: int
    line: int
    content: bytes

    def number(self) -> int:
        """Its sequence number."""
        return self.content[-5]

    def common(self) -> bytes:
        """What is the same of its copy."""
        return self.content[:11] + self.content[12:-4]


class Told(NamedTuple):
    """A line of a source: its moment, side and frame, its place among those of the frame, and its
    first word and what stands behind the place."""

    moment: int
    side: int
    line: int
    place: int
    word: str
    behind: str = ""


def step(number: int) -> int:
    """The sequence number behind this one."""
    return number + 1 if number < 255 else 1


def further_on(number: int) -> set[int]:
    """The sequence numbers that are 1 to 45 steps behind this one."""
    found = set()
    for _ in range(FURTHER_ON):
        number = step(number)
        found.add(number)
    return found


def damage(content: bytes) -> str:
    """Why bytes are no frame, whatever they say; empty where they are one."""
    if len(content) < SHORTEST:
        return "too-short"
    if len(content) > LONGEST:
        return "too-long"
    return "" if sealed(content[:-4]) == content else "bad-fcs"


class SourceTerms:
    """What holds of the source of a link that a system with this number sends. The recordings end
    at `until`; it is paired if both networks were recorded."""

    def __init__(
        self, link: dict, ident: int, ways: list[Way], options: Options, until: int,
        is_paired: bool,
    ) -> None:  # fmt: skip
        self.link, self.ways, self.options, self.until = link, ways, options, until
        self.address = b"\x02\0\0" + ident.to_bytes(2, "big")
        self.is_paired = is_paired
        self.fast, self.slow = MILLION + options.drift, MILLION - options.drift
        self.slip = 2 * options.slack
        self.hold = self.longer(MOST_APART) + 2 * self.slip
        self.cost = MILLION * link["bag_ms"] * MS
        self.room = MILLION * 1000 * link["jitter_us"] + self.fast * self.slip

    def longer(self, time: int) -> int:
        """What a time of the sender's clock is at most, by the recorders'."""
        return MILLION * time // self.slow

    def apart(self, frame: Heard) -> int:
        """How far apart the copies of a frame may have come."""
        given = self.options.apart
        if given is None:
            length = len(frame.content)
            given = min((way.leaves(length) for way in self.ways), default=0)
        return self.longer(given)

    def flaw(self, frame: Heard) -> str:
        """Why a frame isn't lawful by itself; empty where it is."""
        content, link = frame.content, self.link
        fault = damage(content)
        if fault:
            return fault
        if len(content) > link["lmax"]:
            return "over-lmax"
        if len(content) < link["lmin"]:
            return "under-lmin"
        if content[6:12] != self.address + NETWORKS[frame.side]:
            return "not-its-address"
        return datagram(content)[0]


class Pace:
    """What is kept of one side: the last number, and the level of its account with its time."""

    def __init__(self, terms: SourceTerms) -> None:
        self.terms = terms
        self.next: int | None = None if terms.options.start is not None else 0
        self.level, self.time = 0, 0

    def come(self, frame: Heard) -> Iterator[tuple[str, int]]:
        """What is found of a frame by those before it on its side."""
        terms, number = self.terms, frame.number()
        if self.next not in (None, number):
            yield "number", self.next or 0
        self.next = step(number)
        level = max(0, self.level - terms.fast * (frame.time - self.time))
        self.level, self.time = level, frame.time
        if level > terms.room:
            yield "soon", -(-(level - terms.room) // terms.fast)
        else:
            self.level += terms.cost


class Source:
    """A source by its frames, in the order of their lines: what is told of it, how many frames have
    no finding, and of how many the copy may not have been recorded."""

    def __init__(self, terms: SourceTerms, frames: list[Heard]) -> None:
        self.terms = terms
        self.told: list[Told] = []
        self.cut = 0
        self.whole = [frame for frame in frames if not damage(frame.content)]
        self.paces = [Pace(terms), Pace(terms)]
        self.waiting: list[list[Heard]] = [[], []]
        for frame in frames:
            self.come(frame)
        for side in (0, 1):
            self.over(side, None)
        found = {line.line for line in self.told}
        self.sent = sum(frame.line not in found for frame in frames)

    def come(self, frame: Heard) -> None:
        """A frame comes: what is found of it then."""
        found: list[tuple[str, str]] = []
        flaw = self.terms.flaw(frame)
        if flaw:
            found.append(("unlawful", flaw))
        if not damage(frame.content):
            found += [(word, str(by)) for word, by in self.paces[frame.side].come(frame)]
            if self.terms.is_paired:
                found += self.by_copy(frame)
        for index, (word, behind) in enumerate(found):
            self.told.append(Told(frame.time, frame.side, frame.line, index, word, behind))

    def by_copy(self, frame: Heard) -> list[tuple[str, str]]:
        """What is found of a frame by its partner; without one it waits."""
        other = 1 - frame.side
        self.over(other, frame.time)
        waiting = self.waiting[other]
        partner = next((one for one in waiting if one.number() == frame.number()), None)
        if partner is None:
            self.waiting[frame.side].append(frame)
            return []
        waiting.remove(partner)
        if partner.common() != frame.common():
            return [("differs", "")]
        by = frame.time - partner.time - self.terms.apart(frame)
        return [("apart", str(by))] if by > self.terms.slip else []

    def over(self, side: int, time: int | None) -> None:
        """The frames of a side wait no longer that can have no partner of this time or a later one;
        without a time all."""
        waiting = self.waiting[side]
        while waiting and (time is None or waiting[0].time + self.terms.hold < time):
            frame = waiting.pop(0)
            if self.is_cut(frame):
                self.cut += 1
            else:
                moment = frame.time + self.terms.hold
                self.told.append(Told(moment, side, frame.line, 0, "single"))

    def near(self, frame: Heard) -> set[int]:
        """The numbers of the frames of the other side that came within the hold of a frame."""
        return {
            one.number() for one in self.whole
            if one.side != frame.side and abs(one.time - frame.time) <= self.terms.hold
        }  # fmt: skip

    def is_cut(self, frame: Heard) -> bool:
        """The copy of a frame may have been sent behind the end, or before the begin."""
        terms, near = self.terms, self.near(frame)
        reach, start = terms.apart(frame) + terms.slip, terms.options.start
        if frame.time + reach > terms.until and not near & further_on(frame.number()):
            return True
        if start is None or frame.time >= start + reach:
            return False
        return all(frame.number() not in further_on(number) for number in near)
