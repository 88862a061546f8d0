"""What can be measured of a recorded switch: which frame that left has the bytes of which one that
came, and how long it was inside. The program's lines don't say it, and nothing here is judged."""
from __future__ import annotations

from collections import defaultdict, deque
from typing import Iterable, Iterator, NamedTuple, Sequence

from afdx_tools.config import MOST_PORTS, Config, Link
from afdx_tools.conformance.frames import Frame
from afdx_tools.conformance.judging import Line
from afdx_tools.conformance.options import Options
from afdx_tools.conformance.recorders import Taps

MILLION = 1_000_000
SIDES = "AB"
BEFORE_FRAME = 8  # bytes of the line: preamble and delimiter


class Stream(NamedTuple):
    """A link on a side at one of its output ports."""

    side: str
    vl: int
    port: int


class Pair(NamedTuple):
    """A frame that came, and the one that left with its bytes: their lines, and the time between
    them."""

    came: int
    left: int
    latency: int


def links_at(config: Config, switch: str | None) -> tuple[int, dict[int, Link]]:
    """Where the ports of the judged switch begin, and its rows of the links."""
    if config.several is None or switch not in config.names:
        return 0, config.links
    place = config.names.index(switch)
    rows = {vl: row for (at, vl), row in config.several.rows.items() if at == place}
    return place * MOST_PORTS, rows


class Named(NamedTuple):
    """A frame that a finding names: its time, and its link, None where its address is of none."""

    time: int
    vl: int | None


def numbers_in(found: Sequence[Line]) -> dict[bool, set[int]]:
    """The frames that findings name, of those that came and of those that left."""
    return {is_left: {each.number for each in found if each.is_left == is_left}
            for is_left in (False, True)}  # fmt: skip


class Measured:
    """What came and what left, of which the frames that aren't passed over are taken: of each
    stream that was recorded what came, what left, and the pairs; and the frames that the findings
    name, of what came and of what left."""

    def __init__(
        self,
        config: Config,
        options: Options,
        came: Iterable[Frame],
        left: Iterable[Frame],
        found: Sequence[Line],
        taps: Taps = Taps(),
    ) -> None:
        self.config, self.options, self.taps = config, options, taps
        self.first, self.links = links_at(config, options.switch)
        self.latest = 0  # the time of the last frame of all
        self.by_port = config.by_port()
        self.numbers = numbers_in(found)
        self.strange = self.numbers[True]
        self.named: dict[bool, dict[int, Named]] = {False: {}, True: {}}
        self.came: dict[tuple[str, int], list[Frame]] = defaultdict(list)
        self.left: dict[Stream, list[Frame]] = defaultdict(list)
        for frame in self.taken(came, False):
            link = self.link_of(frame)
            if link is not None and link.port == self.first + frame.port:
                self.came[frame.side, link.vl].append(frame)
        for frame in self.taken(left, True):
            link = self.link_of(frame)
            if link is not None and self.first + frame.port in link.ports:
                self.left[Stream(frame.side, link.vl, frame.port)].append(frame)

    def link_of(self, frame: Frame) -> Link | None:
        """The row of the link that a frame names."""
        return None if frame.vl is None else self.links.get(frame.vl)

    def taken(self, frames: Iterable[Frame], is_left: bool) -> Iterator[Frame]:
        """The frames that aren't passed over."""
        for frame in frames:
            self.latest = max(self.latest, frame.time)
            if self.options.is_taken(frame.time, frame.vl, is_left):
                if frame.line in self.numbers[is_left]:
                    self.named[is_left][frame.line] = Named(frame.time, frame.vl)
                yield frame

    def all_streams(self) -> Iterator[Stream]:
        """The streams of the tables, by link, port and side."""
        for vl in sorted(self.links):
            for port in sorted(self.links[vl].ports):
                yield from (Stream(side, vl, port - self.first) for side in SIDES)

    def lacks(self, stream: Stream) -> str:
        """What wasn't recorded of a stream, so that it isn't judged; empty where all was."""
        port = self.links[stream.vl].port - self.first
        if not self.taps.has(stream.side, port, False):
            return f"what came in at {stream.side}:{port}"
        is_seen = self.taps.has(stream.side, stream.port, True)
        return "" if is_seen else f"what left at {stream.side}:{stream.port}"

    def is_idle(self, stream: Stream) -> bool:
        """No frame of a stream of which nothing was found is explained: none left, but for those so
        near the end that they may be of arrivals behind it."""
        until = self.options.until
        end = self.latest if until is None else until
        return all(frame.time + self.options.reach > end for frame in self.left.get(stream, []))

    def streams(self) -> list[Stream]:
        """The streams that are judged and of which something came or left."""
        some = set(self.came), set(self.left)
        return [each for each in self.all_streams() if not self.lacks(each)
                and ((each.side, each.vl) in some[0] or each in some[1])]  # fmt: skip

    def least(self, length: int, port: int) -> int:
        """What a frame takes at least to leave at a port, by the recorder's clock."""
        time = (length + BEFORE_FRAME) * self.by_port[self.first + port].byte_ns
        return -(-MILLION * time // (MILLION + (self.options.drift or 0)))

    def most(self, stream: Stream) -> int:
        """By how much a frame that came and the one that left are apart at most."""
        inside = self.links[stream.vl].latency_ns + (self.options.inner or 0)
        return 2 * (MILLION * inside // (MILLION - (self.options.drift or 0))) + self.options.reach

    def pairs(self, stream: Stream) -> list[Pair]:
        """Of each frame that left, the first one before it that came with its bytes, is of no other
        frame, and isn't apart by over twice the latency."""
        reach, most = self.options.reach, self.most(stream)
        waiting: dict[bytes, deque[Frame]] = defaultdict(deque)
        for frame in self.came.get((stream.side, stream.vl), []):
            waiting[frame.key].append(frame)
        pairs = []
        for frame in self.left.get(stream, []):
            others = waiting[frame.key]
            while others and others[0].time < frame.time - most:
                others.popleft()
            latest = frame.time + reach - self.least(frame.length, stream.port)
            if frame.line not in self.strange and others and others[0].time <= latest:
                came = others.popleft()
                pairs.append(Pair(came.line, frame.line, frame.time - came.time))
        return pairs
