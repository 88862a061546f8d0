"""The messages of an interface document as end systems send them: each again after its period, as
submission lists."""
from __future__ import annotations

import heapq
import math
import random
from dataclasses import dataclass
from fractions import Fraction
from typing import Iterable, Iterator

from afdx_tools.faults import Refused, shown
from afdx_tools.icd.document import Document, apart

NS_IN_MS = 1_000_000
MOST_WAITING = 64  # messages of a sub-VL
DIGITS = 8  # of a message's number
LONGEST_NAME = 100  # characters of a message's name that are written


@dataclass(frozen=True)
class Stream:
    """A message and its repetitions: the first at `begin_ns`, each other a period later."""

    name: str
    vl: int
    sub: int
    udp: int
    size: int
    period_ns: Fraction
    begin_ns: int

    def count(self, end_ns: int) -> int:
        """How many times it comes before that moment."""
        return max(0, math.ceil((end_ns - self.begin_ns) / self.period_ns))

    def payload(self, number: int) -> bytes:
        """What its n-th message says, from 0: the number and the name, or of the number the last
        digits; zero bytes fill it up."""
        digits = f"{number:0{DIGITS}d}"[-DIGITS:]
        if self.size < DIGITS:
            return digits[-self.size :].encode()
        return f"{digits} {self.name}".encode()[: self.size].ljust(self.size, b"\0")

    def lines(self, end_ns: int) -> Iterator[tuple[int, str]]:
        """The times of its messages before that moment, and their lines in a submission list."""
        for number in range(self.count(end_ns)):
            time = self.begin_ns + math.ceil(number * self.period_ns)
            place = f"{self.vl} {self.sub} {self.udp}"
            yield time, f"{time} {place} {self.payload(number).hex()}\n"

    def remark(self) -> str:
        """What it is, for who reads the list."""
        period = float(self.period_ns) / NS_IN_MS
        return f"# {self.name}: each {period:g} ms from {self.begin_ns} ns on\n"


def begin_of(seed: int | None, vl: int, udp: int, period_ns: Fraction) -> int:
    """When a message first comes: at 0, or within its first period, by chance. That doesn't depend
    on other messages, so that it stays where some are added."""
    if seed is None:
        return 0
    return random.Random(f"{seed} {vl} {udp}").randrange(math.ceil(period_ns))


def streams_of(document: Document, seed: int | None) -> dict[str, list[Stream]]:
    """The messages that each system sends; Refused where so many share a link that one may find no
    room in its queue."""
    streams: dict[str, list[Stream]] = {system["name"]: [] for system in document.systems}
    for link in document.links:
        vl, messages = link["vl"], list(apart(document.messages[link["vl"]]).values())
        if len(messages) > MOST_WAITING:
            at = messages[MOST_WAITING].row.at("vl")
            raise Refused(f"{at}: no more than {MOST_WAITING} messages can wait for a link")
        for place, message in enumerate(messages):
            period_ms, udp, size = message.period_ms, message.udp, message.bytes
            assert period_ms is not None and udp is not None and size is not None  # it has no fault
            period_ns = period_ms * NS_IN_MS
            streams[link["from"]].append(
                Stream(
                    name=shown(message.row.name)[:LONGEST_NAME],
                    vl=vl,
                    sub=1 + place % link["subs"],
                    udp=udp,
                    size=size,
                    period_ns=period_ns,
                    begin_ns=begin_of(seed, vl, udp, period_ns),
                )
            )
    return streams


def submissions(streams: Iterable[Stream], end_ns: int) -> Iterator[str]:
    """The submission list of a system, up to that moment."""
    streams = list(streams)
    yield from (stream.remark() for stream in streams)
    for _, line in heapq.merge(*(each.lines(end_ns) for each in streams), key=lambda pair: pair[0]):
        yield line
