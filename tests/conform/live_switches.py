"""A switch in Python, right or amiss in one way: what it does with a frame that came, and what
`conform` must find of it. Each wrong one is amiss with some frames of link 1 alone."""
from __future__ import annotations

from dataclasses import dataclass, field
from typing import Callable, NamedTuple

from frames import frame_of
from one_switch import MS, Policing
from tables import link_of, system_of, tables_of

SECOND = 1000 * MS
CHECK_SEQUENCE = 4  # bytes, which no network card gives or takes
SLACK, FROM = 100_000, SECOND  # ns: what `conform` is told
LATENCY = 100 * MS
PORT = 3  # of link 1's receiver
PERIOD = 50 * MS
EACH = 5  # one frame in so many is amiss
SYSTEMS = [system_of(port) for port in (1, 2, 3)]
LINKS = [
    link_of(vl, f"s{vl}", to, bag=32, jitter=2000, policing="frame", latency=LATENCY // 1000)
    for vl, to in ((1, ["s3"]), (2, ["s1", "s3"]), (3, ["s1"]))
]
TABLES = tables_of(SYSTEMS, LINKS, buffer=100_000)


class Sent(NamedTuple):
    """A frame to send: when, counted from the begin of all, on which link, without its check
    sequence; and how many of its link were sent before."""

    time: int
    vl: int
    content: bytes
    place: int


def content_of(vl: int, place: int) -> bytes:
    """A frame of a link, which is like no other of it."""
    payload = place.to_bytes(8, "big")
    system = next(each for each in SYSTEMS if each["name"] == LINKS[vl - 1]["from"])
    frame = frame_of(system, vl, 1000, payload, place % 256, "A")
    return frame[:-CHECK_SEQUENCE]


def traffic(length: int) -> list[Sent]:
    """What the systems send in so many ns: each link a frame each 50 ms, which its account has room
    for even where a busy machine sends late; link 1 a further one 8 ms behind each fourth, for
    which there is none."""
    sent = []
    for vl in (1, 2, 3):
        times = list(range(vl * MS, length, PERIOD))
        if vl == 1:
            times = sorted(times + [time + 8 * MS for time in times[3::4]])
        sent += [Sent(time, vl, content_of(vl, n), n) for n, time in enumerate(times)]
    return sorted(sent)


class Leaving(NamedTuple):
    """A copy that leaves at a port, so many ns after it came; `waits`: not before an earlier one
    of its stream."""

    after: int = 0
    port: int = PORT
    waits: bool = True


@dataclass
class Found:
    """A frame with which a switch was amiss, and what `conform` must say of it: of what came, and
    of the last frame of its bytes that left."""

    content: bytes
    came: str = ""
    left: str = ""


@dataclass
class Right:
    """Forwards what the account of its link accepts, at once. `is_on` says when a wrong switch is
    amiss: while the recorders know what was before and will see what comes behind."""

    is_on: Callable[[int], bool]
    accounts: dict[int, Policing] = field(
        default_factory=lambda: {link["vl"]: Policing(link) for link in LINKS}
    )
    accepted: int = 0  # frames of link 1
    found: list[Found] = field(default_factory=list)

    def came(self, stamp: int, content: bytes) -> list[Leaving]:
        """What leaves of a frame that came at the moment `stamp`."""
        vl = int.from_bytes(content[4:6], "big")
        is_right = not self.accounts[vl].early(stamp, len(content) + CHECK_SEQUENCE)
        ports = {each["name"]: each["port"] for each in SYSTEMS}
        copies = [Leaving(port=ports[name]) for name in LINKS[vl - 1]["to"]]
        if vl != 1 or not self.is_on(stamp):
            return copies if is_right else []
        if not is_right:
            return self.refused(content)
        self.accepted += 1
        return self.amiss(content) if self.accepted % EACH == 0 else copies

    def refused(self, _: bytes) -> list[Leaving]:
        """What leaves of a frame that came too early."""
        return []

    def amiss(self, _: bytes) -> list[Leaving]:
        """What leaves of a frame with which a wrong switch is amiss."""
        return [Leaving()]


class Dropping(Right):
    """Drops frames that it accepted."""

    def amiss(self, content: bytes) -> list[Leaving]:
        self.found.append(Found(content, came="stopped"))
        return []


class Delaying(Right):
    """Lets frames leave too late, in order."""

    def amiss(self, content: bytes) -> list[Leaving]:
        self.found.append(Found(content, came="late"))
        return [Leaving(LATENCY * 6 // 5)]


class Doubling(Right):
    """Sends frames twice."""

    def amiss(self, content: bytes) -> list[Leaving]:
        self.found.append(Found(content, left="strange out-of-turn"))
        return [Leaving(), Leaving(MS)]


class Reordering(Right):
    """Sends frames behind the next one."""

    def amiss(self, content: bytes) -> list[Leaving]:
        self.found.append(Found(content, came="stopped", left="strange out-of-turn"))
        return [Leaving(LATENCY * 4 // 5, waits=False)]


class Leaking(Right):
    """Forwards frames for which the account has no room."""

    def refused(self, content: bytes) -> list[Leaving]:
        self.found.append(Found(content, came="passed over-rate"))
        return [Leaving()]


SWITCHES = {
    "right": Right,
    "drops": Dropping,
    "delays": Delaying,
    "doubles": Doubling,
    "reorders": Reordering,
    "leaks": Leaking,
}
