"""What `conform` is told by its options, and what holds of one stream: the bounds of its account,
and which frame may be that of which arrival. Computed apart from the program, in whole numbers.

A stream is a link, a side and one of the link's output ports. A level is what an account lacks of
its cap, in millionths of a byte ns; of the switch's own level a lower and an upper bound are kept.
"""
from __future__ import annotations

from typing import NamedTuple

from first_fault import LATEST
from frames import OVERHEAD
from one_switch import MS

MILLION = 1_000_000
BEFORE_FRAME = 8  # bytes of the line: preamble and delimiter
# the greatest value of each option that has a number
MOST = {"--slack": MILLION, "--between": 100 * MILLION, "--drift": 1_000, "--inner": MILLION}
MOST |= {"--asked": MILLION, "--from": LATEST, "--until": LATEST, "--leave-out": 65_535}
MOST |= {"--apart": 100 * MILLION}
OTHER = "other"  # of --leave-out: frames whose bytes name no link
EXERCISED, SENDERS = "--exercised", "--senders"  # they have no value


class Options(NamedTuple):
    """The options: ns and millionths; `start`, `until` and `apart` are None where they aren't
    given."""

    slack: int = 0
    between: int = 0
    drift: int = 0
    inner: int = 0
    asked: int = 0
    start: int | None = None
    until: int | None = None
    left_out: frozenset[int | None] = frozenset()
    switch: str | None = None
    is_exercised: bool = False
    apart: int | None = None
    has_senders: bool = False

    def reach(self) -> int:
        """By how much the times of a line that came and of one that left may be off together."""
        return 2 * self.slack + self.between

    def begin(self, is_left: bool) -> int:
        """The first time whose lines aren't passed over, of what left or of what came."""
        return 0 if self.start is None else self.start - self.reach() * is_left


def options_of(words: tuple[str, ...]) -> Options | None:
    """The options of such words, each but the flags with its value behind it; None where a number
    is out of its range."""
    given: dict[str, int] = {}
    left_out: set[int | None] = set()
    switch = None
    valued = [word for word in words if word not in (EXERCISED, SENDERS)]
    for name, value in zip(valued[::2], valued[1::2], strict=True):
        if name == "--switch":
            switch = value
        elif (name, value) == ("--leave-out", OTHER):
            left_out.add(None)
        elif int(value) > MOST[name]:
            return None
        elif name == "--leave-out":
            left_out.add(int(value))
        else:
            given[{"--from": "start"}.get(name, name[2:])] = int(value)
    return Options(**given, left_out=frozenset(left_out), switch=switch,
                   is_exercised=EXERCISED in words, has_senders=SENDERS in words)


class Came(NamedTuple):
    """An arrival of a stream: its time, its line's number, its bytes, and why its shape is wrong,
    empty where it is right."""

    time: int
    number: int
    content: bytes
    shape: str


class Left(NamedTuple):
    """A frame of a stream: the time of its last bit, its line's number, its bytes, and what is
    wrong with these, empty where nothing is."""

    time: int
    number: int
    content: bytes
    fault: str


class Levels(NamedTuple):
    """The bounds of the account's level."""

    low: int
    high: int


class Terms:
    """What holds of a stream of a link to a line of `byte_ns`. The recordings end at `until`."""

    def __init__(self, link: dict, byte_ns: int, options: Options, until: int) -> None:
        drift, smax = options.drift, link["lmax"] + OVERHEAD
        self.options, self.until, self.byte_ns = options, until, byte_ns
        self.smax, self.is_byte = smax, link["policing"] == "byte"
        self.reach = options.reach()
        self.latency = self.most(1000 * link["latency_us"] + options.inner)
        self.fast, self.slow = smax * (MILLION + drift), smax * (MILLION - drift)
        self.bag = link["bag_ms"] * MS
        self.cap = MILLION * smax * (self.bag + 1000 * link["jitter_us"])
        # how far apart two moments of asking may be, by the stamps of what came
        self.asked = 2 * options.slack + options.asked

    # ---- times -----------------------------------------------------------------------------------

    def most(self, time: int) -> int:
        """What a time of the switch's clock is at most, by the recorder's."""
        return MILLION * time // (MILLION - self.options.drift)

    def wire_time(self, length: int) -> int:
        """What a frame of this length takes at least to leave."""
        time = (length + BEFORE_FRAME) * self.byte_ns
        return -(-MILLION * time // (MILLION + self.options.drift))

    def closing(self, frame: Left) -> int:
        """When a frame must have been explained."""
        return frame.time + self.reach

    def moment(self, time: int) -> int:
        """When what is found at an event of this time is told."""
        return time + 2 * self.latency + 2 * self.reach

    def is_cut_off(self, frame: Left) -> bool:
        """The frame may be of an arrival that the recording doesn't have."""
        return frame.time + self.reach > self.until

    def is_open(self, arrival: Came) -> bool:
        """The arrival's frame may be cut off."""
        return arrival.time + self.latency + 2 * self.reach > self.until

    def is_begun(self, frame: Left) -> bool:
        """The frame may be of an arrival before the recording's begin."""
        start = self.options.start
        return start is not None and frame.time < start + self.latency + self.reach

    def is_late(self, arrival: Came, frame: Left) -> bool:
        """The frame left too late for the arrival."""
        return frame.time > arrival.time + self.latency + self.reach

    def is_early(self, arrival: Came, frame: Left) -> bool:
        """The frame left too early for the arrival, if their bytes are equal."""
        wire = self.wire_time(len(frame.content))
        return frame.time + self.reach < arrival.time + wire

    def fits(self, arrival: Came, frame: Left) -> bool:
        """The frame may be that of the arrival."""
        is_same = arrival.content == frame.content
        return is_same and not self.is_early(arrival, frame) and not self.is_late(arrival, frame)

    # ---- levels ----------------------------------------------------------------------------------

    def cost(self, arrival: Came) -> int:
        """By what an arrival raises the level."""
        charge = len(arrival.content) + OVERHEAD if self.is_byte else self.smax
        return MILLION * self.bag * charge

    def first(self) -> Levels:
        """The levels at the begin."""
        known = self.options.start is None
        return Levels(0, 0 if known else self.cap + self.slow * self.asked)

    def later(self, levels: Levels, gap: int) -> Levels:
        """The levels so many ns later."""
        low, high = levels.low - self.fast * gap, levels.high - self.slow * gap
        return Levels(max(0, low), max(0, high))

    def may_pass(self, levels: Levels, cost: int) -> bool:
        """The account may have had room."""
        return levels.low + cost <= self.cap + self.fast * self.asked

    def has_to_pass(self, levels: Levels, cost: int) -> bool:
        """The account had room for sure."""
        return levels.high + cost <= self.cap

    def accepted(self, levels: Levels, cost: int) -> Levels:
        """The levels behind an arrival that was accepted; it had room."""
        least = self.slow * self.asked
        high = min(max(levels.high, least) + cost, self.cap + least)
        return Levels(levels.low + cost, high)

    def refused(self, levels: Levels, cost: int) -> Levels:
        """The levels behind an arrival of the right shape that was refused; it had no room."""
        return Levels(max(levels.low, self.cap - cost + 1), levels.high)
