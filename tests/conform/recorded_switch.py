"""A switch whose clock drifts, recorded by stamps that are off: what came in and what left, made at
random. A right one accepts by the window rule at the moments at which it asks, by its own clock,
and lets each frame leave each of its ports, in order, within its wire time and its latency. A wrong
one is amiss in one way. There is no schedule: a line may carry two frames at once, as times inside
a switch aren't known.
"""
from __future__ import annotations

import heapq
import random
from collections import defaultdict
from typing import NamedTuple

from conform_terms import MILLION, Options, Terms
from frames import sealed
from one_switch import Frame, Policing, Switch

Recorded = tuple[int, str, int, str]  # a line: its stamp, its side, its port, kind and digits
Told = tuple[str, str, int, str]  # a finding: its word, side, port and frame
Key = tuple[str, int]  # a side and a link


class Clock:
    """The switch's clock beside true time, in whole ns: between any two moments that were asked
    of it, it drifts by at most so many millionths."""

    def __init__(self, chance: random.Random, drift: int) -> None:
        self.chance, self.drift = chance, drift
        self.offset = 0  # what the clock shows beyond the true time
        self.highest, self.lowest = 0, 0  # bounds from all moments so far
        self.way = chance.choice(["fast", "slow", "any"])

    def stay(self, moment: int) -> int:
        """The clock at a moment, where it went on like true time since the one before."""
        scaled = MILLION * self.offset
        self.highest = min(self.highest, scaled - self.drift * moment)
        self.lowest = max(self.lowest, scaled + self.drift * moment)
        return moment + self.offset

    def at(self, moment: int, most: int) -> int:
        """The clock at the next moment; it shows at most so much."""
        high = (self.highest + self.drift * moment) // MILLION
        low = -((self.drift * moment - self.lowest) // MILLION)
        if self.chance.random() < 0.001:
            self.way = self.chance.choice(["fast", "slow", "any"])
        offset = {"fast": high, "slow": low}.get(self.way, self.chance.randint(low, high))
        self.offset = min(offset, most - moment)
        return self.stay(moment)


class Arriving(NamedTuple):
    """A frame that comes: the true moment, its side and port, its bytes without check sequence; K
    of its line."""

    moment: int
    side: str
    port: int
    content: bytes
    kind: str = "F"

    def frame(self) -> Frame:
        """The frame with its check sequence."""
        whole = sealed(self.content)
        if self.kind == "B":
            whole = self.content + bytes(byte ^ 0xFF for byte in whole[-4:])
        return Frame(0, whole)


class RecordedSwitch:
    """Runs over all that comes. A wrong switch overrides a step."""

    damages = False  # frames that leave it may be damaged

    def __init__(self, tables: dict, options: Options, chance: random.Random) -> None:
        self.tables, self.options, self.chance = tables, options, chance
        self.switch = Switch(tables | {"neighbour": []})
        self.clock = Clock(chance, options.drift)
        self.ahead = self.apart(options.between)
        plain = options._replace(drift=0)
        self.byte_ns = {port: out.byte_ns for port, out in self.switch.ports.items()}
        self.terms = {
            (vl, port): Terms(link, self.byte_ns[port], plain, 0)
            for vl, link in self.switch.links.items()
            for port in self.ports_of(vl)
        }
        self.rules: dict[Key, Policing] = {}
        self.came: list[Recorded] = []
        self.left: list[Recorded] = []
        self.told: set[Told] = set()  # what must be found, of a wrong switch
        self.stamps: dict[tuple[bool, str, int], int] = defaultdict(int)
        self.asks: dict[Key, int] = defaultdict(int)  # the last moment of asking
        self.ends: dict[tuple[str, int, int], int] = defaultdict(int)  # the last end of a stream
        self.pending: list[tuple[int, int, str, int, str, bytes]] = []  # what is to leave
        self.count = 0

    def apart(self, most: int) -> int | None:
        """By how much the recorder of what left is ahead of that of what came, where they are so
        far apart at most; None: now by this, now by that."""
        return self.chance.choice([None, self.off_by(most)]) if most else 0

    def ports_of(self, vl: int) -> list[int]:
        """The output ports of a link."""
        return [self.switch.port_of[name] for name in self.switch.links[vl]["to"]]

    # ---- what a wrong switch may change ----------------------------------------------------------

    def accepts(self, vl: int, time: int, arriving: Arriving) -> bool:
        """The account has room."""
        rule = self.rules.setdefault((arriving.side, vl), Policing(self.switch.links[vl]))
        return not rule.early(time, len(arriving.frame().content))

    def delay(self, vl: int, port: int, length: int) -> int:
        """What a frame takes inside."""
        terms = self.terms[vl, port]
        least, most = terms.wire_time(length), terms.latency
        return self.chance.choice([least, most, self.chance.randint(least, most)])

    def leave(self, port: int, end: int, arriving: Arriving) -> None:
        """The frame is to leave the port when the clock shows so much."""
        self.put(arriving.side, port, end, arriving.kind, arriving.content)

    def tell(self, word: str, port: int, arriving: Arriving) -> None:
        """So much must be found."""
        self.told.add((word, arriving.side, port, arriving.content.hex()))

    # ---- the run ---------------------------------------------------------------------------------

    def put(self, side: str, port: int, end: int, kind: str, content: bytes) -> None:
        """Something is to leave."""
        self.count += 1
        heapq.heappush(self.pending, (end, self.count, side, port, kind, content))

    def stamp(self, is_left: bool, side: str, port: int, moment: int) -> int:
        """The stamp of a moment; those of a line don't go back."""
        line, off = (is_left, side, port), self.off_by(self.options.slack)
        if is_left:
            apart = self.options.between
            off += self.off_by(apart) if self.ahead is None else self.ahead
        self.stamps[line] = max(self.stamps[line], moment + off)
        return self.stamps[line]

    def off_by(self, most: int) -> int:
        """By how much something is off that is off by so much at most."""
        return self.chance.choice([-most, most, self.chance.randint(-most, most)])

    def run(self, arriving: list[Arriving]) -> None:
        """All that comes, by true time."""
        asked: list[tuple[int, int, int, Arriving]] = []  # when, in which order, the clock before
        coming = sorted(arriving, key=lambda each: each.moment)[::-1]
        while coming or asked or self.pending:
            most = self.pending[0][0] if self.pending else 10**18
            come = coming[-1].moment if coming else 10**18
            ask = asked[0][0] if asked else 10**18
            if most - self.clock.offset < min(come, ask):
                self.depart(most)
            elif ask < come:
                _, _, before, one = heapq.heappop(asked)
                self.ask(one, before, self.clock.at(ask, most))
            else:
                one = coming.pop()
                clock = self.clock.at(come, most)
                self.came.append((self.stamp(False, one.side, one.port, come), one.side, one.port,
                                  f"{one.kind} {one.content.hex()}"))
                key = one.side, one.frame().link() or 0
                late = self.chance.choice([0, self.options.asked])
                self.asks[key] = max(self.asks[key], come + late)
                self.count += 1
                heapq.heappush(asked, (self.asks[key], self.count, clock, one))

    def depart(self, end: int) -> None:
        """The first of what is to leave leaves."""
        _, _, side, port, kind, content = heapq.heappop(self.pending)
        moment = end - self.clock.offset
        self.clock.stay(moment)
        stamp = self.stamp(True, side, port, moment)
        self.left.append((stamp, side, port, f"{kind} {content.hex()}"))

    def ask(self, arriving: Arriving, came: int, clock: int) -> None:
        """The account is asked; what is accepted leaves each port of its link."""
        side, frame = arriving.side, arriving.frame()
        vl = frame.link()
        if self.switch.shape(arriving.port, frame) or vl is None:
            return
        length = len(frame.content)
        if self.accepts(vl, clock, arriving):
            for port in self.ports_of(vl):
                end = max(clock, self.ends[side, vl, port], came + self.delay(vl, port, length))
                self.ends[side, vl, port] = end
                self.leave(port, end, arriving)


def lines_of(recorded: list[Recorded], begin: int = 0, end: int = 10**18) -> bytes:
    """A list of what was recorded from a time up to another."""
    lines = []
    for time, side, port, words in sorted(recorded, key=lambda line: line[0]):
        if begin <= time <= end:
            kind, digits = words.split(" ")
            lines.append(f"{kind} {time} {side} {port} {digits}\n")
    return "".join(lines).encode()
