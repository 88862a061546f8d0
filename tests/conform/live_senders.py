"""Systems on both networks, lawful or amiss in one way: what they send, and what `conform` must
find of it. Each wrong one is amiss with some messages of link 1 alone."""
from __future__ import annotations

from dataclasses import dataclass
from typing import Callable, NamedTuple

from frames import frame_of, number_of
from one_switch import MS
from sender_source import step
from tables import link_of, system_of, tables_of

SECOND = 1000 * MS
CHECK_SEQUENCE = 4  # bytes, which no network card gives or takes
FROM = SECOND  # ns: what `conform` is told
UNHEARD = 500 * MS  # of a begin that recorders may miss
BAG, PERIOD = 32, 160  # ms: the least time between messages, and that which a system takes
LATE = 80 * MS  # of a late copy: more than receivers allow, and less than it is waited for
EACH = 3  # one message in so many is amiss
SIDES = "AB"
SYSTEMS = [system_of(port) for port in (1, 2, 3)]
LINKS = [
    link_of(vl, f"s{vl}", ["s3"], bag=BAG, jitter=2000, latency=1000, skew=50_000) for vl in (1, 2)
]
TABLES = tables_of(SYSTEMS, LINKS)
ENDS = [f"{side}{port}" for port in (1, 2) for side in SIDES]  # a recorder is at each
MASQUERADE = 1 << 32  # the first place of frames that another system sends


class Put(NamedTuple):
    """A frame that goes out: when, counted from the begin of all; at which end; without its check
    sequence; and what must be found of it, if anything, but for its number."""

    time: int
    end: str
    content: bytes
    found: str = ""


def content_of(vl: int, side: str, place: int, number: int) -> bytes:
    """A frame of a link, which is like no other on its side but the copies of its place."""
    frame = frame_of(SYSTEMS[vl - 1], vl, 1000, place.to_bytes(8, "big"), number, side)
    return frame[:-CHECK_SEQUENCE]


def both(vl: int, place: int, number: int, time: int, found: str = "") -> list[Put]:
    """A message of a link, at one time on both networks."""
    return [Put(time, f"{side}{vl}", content_of(vl, side, place, number), found) for side in SIDES]


@dataclass
class Right:
    """Sends a message each period. `is_on` says when a wrong one is amiss: while the recorders know
    what was before, and will see what comes behind."""

    is_on: Callable[[int], bool]
    count: int = 0  # messages
    period = PERIOD * MS
    goes_first = True  # where the machine lets it
    is_exact = True  # what must be found doesn't depend on how late the machine is

    def puts(self, length: int) -> list[Put]:
        """What goes out in so many ns."""
        found: list[Put] = []
        for turn, time in enumerate(range(MS, length, self.period)):
            is_amiss = turn % EACH == 0 and self.is_on(time)
            found += self.amiss(time) if is_amiss else self.message(time)
        return found

    def message(self, time: int, found: str = "") -> list[Put]:
        """The next message."""
        self.count += 1
        return both(1, self.count, number_of(self.count - 1), time, found)

    def amiss(self, time: int) -> list[Put]:
        """The next one, with which a wrong system is amiss."""
        return self.message(time)


class RealTime(Right):
    """Sends as often as it may, on time if its machine is."""

    period = BAG * MS
    is_exact = False


class Host(RealTime):
    """The same of a process that others may hold up."""

    goes_first = False


class Bursts(Right):
    """Sends messages at once that it had to space."""

    def amiss(self, time: int) -> list[Put]:
        return self.message(time) + self.message(time, "soon") + self.message(time, "soon")


class Repeats(Right):
    """Gives a message the number of the one before."""

    def amiss(self, time: int) -> list[Put]:
        self.count += 1
        return both(1, self.count, number_of(self.count - 2), time)


class Masquerades(Right):
    """Sends messages of another system's link, too."""

    def amiss(self, time: int) -> list[Put]:
        place, word = MASQUERADE + self.count, "unlawful not-its-link"
        others = both(2, place, 0, time, word)
        return self.message(time) + [each._replace(end=f"{each.end[0]}1") for each in others]


class Halves(Right):
    """Sends messages on one network alone."""

    def amiss(self, time: int) -> list[Put]:
        first, _ = self.message(time, "single")
        return [first]


class Changes(Right):
    """Sends another payload on the other network."""

    def amiss(self, time: int) -> list[Put]:
        first, other = self.message(time)
        place = MASQUERADE + self.count
        content = content_of(1, "B", place, number_of(self.count - 1))
        return [first, other._replace(content=content, found="differs")]


class Lags(Right):
    """Sends the copy late."""

    def amiss(self, time: int) -> list[Put]:
        first, other = self.message(time)
        return [first, other._replace(time=time + LATE, found="apart")]


SENDERS = {
    "right": Right,
    "real-time": RealTime,
    "host": Host,
    "bursts": Bursts,
    "repeats": Repeats,
    "masquerades": Masquerades,
    "halves": Halves,
    "changes": Changes,
    "lags": Lags,
}


def traffic(name: str, length: int) -> list[Put]:
    """What goes out in so many ns: what a system of this name sends of link 1, beside link 2's."""
    sender = SENDERS[name](lambda time: FROM + UNHEARD + 200 * MS < time < length - 500 * MS)
    found = sender.puts(length)
    for place, time in enumerate(range(2 * MS, length, PERIOD * MS)):
        found += both(2, place, number_of(place), time)
    return sorted(found, key=lambda put: put.time)


def begin_of(puts: list[Put], end: str, content: bytes) -> int:
    """When a frame was to go out that came at an end."""
    return next(put.time for put in puts if (put.end, put.content) == (end, content))


def wanted_of(puts: list[Put], begin: int) -> dict[tuple[str, bytes], list[str]]:
    """What must be found of each frame, by its end and its bytes, but for times; the first one that
    was recorded was to go out at `begin`."""
    wanted: dict[tuple[str, bytes], list[str]] = {}
    following: dict[str, int] = {}
    for put in puts:
        if put.time < begin + FROM:
            continue
        words = [put.found] if put.found else []
        number = put.content[-1]
        if not put.found.startswith("unlawful"):
            if following.get(put.end, number) != number:
                words.append(f"number {following[put.end]}")
            following[put.end] = step(number)
        if words:
            wanted[put.end, put.content] = sorted(words)
    return wanted
