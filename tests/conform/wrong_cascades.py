"""Several switches of which some are amiss in one way, recorded at their edges by exact stamps; and
what must be found there, by what came and what left: of each accepted frame whether it left each
port of its link's systems, in order and in time; of each that left whether it had to.

Frames of a link differ, on both sides, so that each finding has one name.
"""
from __future__ import annotations

import random
from typing import NamedTuple

from admitted_cascades import SHAPES, admitted_cascade
from cascade_check import byte_times, latency_sum
from cascade_run import SIDES
from conform_edges import first_rows
from conform_terms import BEFORE_FRAME, Options
from one_switch import Frame, Policing, Switch
from recorded_cascade import HopSwitch, Line, RecordedCascade
from recorded_switch import Arriving
from traffic_made import content_of, stream_times

SOMETIMES = 0.2
Told = tuple[str, str, int, str]  # a finding: its word, its place, its port and the frame's digits


class Hop(HopSwitch):
    """A switch that is amiss in one way with some frames; here in none."""

    is_behind = is_before = True  # it may be amiss where a cable brings frames, and where none does
    whole: WrongCascade  # of which it is one

    def happens(self) -> bool:
        """It is amiss now."""
        return self.chance.random() < SOMETIMES

    def right(self, port: int, end: int, arriving: Arriving) -> None:
        """What a right switch does."""
        super().leave(port, end, arriving)

    def leave(self, port: int, end: int, arriving: Arriving) -> None:
        if self.happens():
            self.amiss(port, end, arriving)
        else:
            self.right(port, end, arriving)

    def amiss(self, port: int, end: int, arriving: Arriving) -> None:
        """What it does with some frames."""
        self.right(port, end, arriving)

    def own_ports(self) -> set[int]:
        """The ports at which systems stand."""
        return set(self.switch.port_of.values()) - set(self.cables)

    def row(self) -> dict:
        """The row of its link."""
        return next(iter(self.switch.links.values()))

    def keep(self, port: int, end: int, arriving: Arriving) -> None:
        """The frame leaves then, and no later one of its link before it."""
        self.ends[arriving.side, self.row()["vl"], port] = end
        self.right(port, end, arriving)


class Loses(Hop):
    """A frame is lost inside."""

    def amiss(self, port: int, end: int, arriving: Arriving) -> None:
        pass


class Doubles(Hop):
    """A frame leaves twice."""

    def amiss(self, port: int, end: int, arriving: Arriving) -> None:
        self.right(port, end, arriving)
        self.right(port, end, arriving)


class Damages(Hop):
    """A frame leaves damaged."""

    def amiss(self, port: int, end: int, arriving: Arriving) -> None:
        self.right(port, end, arriving._replace(kind="B"))


class Changes(Hop):
    """A frame leaves with another byte, and a right check sequence."""

    def amiss(self, port: int, end: int, arriving: Arriving) -> None:
        content = arriving.content
        self.right(port, end, arriving._replace(content=content[:-1] + b"\xfe"))


class Reorders(Hop):
    """A frame leaves behind the next one."""

    def leave(self, port: int, end: int, arriving: Arriving) -> None:
        held = self.__dict__.setdefault("held", {})
        key = arriving.side, port
        if key not in held and self.happens():
            held[key] = arriving
            return
        self.right(port, end, arriving)
        if key in held:
            self.right(port, end, held.pop(key))


class DeadCable(Hop):
    """A cable breaks on one side."""

    def leave(self, port: int, end: int, arriving: Arriving) -> None:
        self.dead = getattr(self, "dead", False) or self.happens()
        if not self.dead or port not in self.cables or arriving.side == "A":
            self.right(port, end, arriving)


class Misses(Hop):
    """One port never gets the link."""

    def leave(self, port: int, end: int, arriving: Arriving) -> None:
        if port != max(self.ports_of(self.row()["vl"])):
            self.right(port, end, arriving)


class Leaks(Hop):
    """A copy leaves to a system that doesn't get the link."""

    def amiss(self, port: int, end: int, arriving: Arriving) -> None:
        self.right(port, end, arriving)
        others = self.own_ports() - set(self.ports_of(self.row()["vl"]))
        if others:
            self.right(min(others), end, arriving)


class Late(Hop):
    """A frame leaves to a system later than the latencies allow."""

    def amiss(self, port: int, end: int, arriving: Arriving) -> None:
        latest, _ = self.whole.times(arriving, port, self)
        by = self.chance.choice([1, 2, 1_000])
        self.keep(port, end if port in self.cables else max(end, latest + by), arriving)


class Early(Hop):
    """Frames leave to systems sooner than all lines allow."""

    def delay(self, vl: int, port: int, length: int) -> int:
        return self.terms[vl, port].wire_time(length) - (port not in self.cables)


class LargerAccount(Hop):
    """The first account is too large."""

    is_behind = False

    def accepts(self, vl: int, time: int, arriving: Arriving) -> bool:
        return super().accepts(vl, time, arriving) or self.happens()


class SmallerAccount(Hop):
    """The first account is too small."""

    is_behind = False

    def accepts(self, vl: int, time: int, arriving: Arriving) -> bool:
        return super().accepts(vl, time, arriving) and not self.happens()


class AccountBehind(SmallerAccount):
    """An account behind the first is too small."""

    is_before, is_behind = False, True


class AnyPort(Hop):
    """The first switch takes frames of a link at any port."""

    is_behind = False

    def ask(self, arriving: Arriving, came: int, clock: int) -> None:
        own = self.switch.port_of[self.row()["from"]]
        super().ask(arriving._replace(port=own), came, clock)


WRONG_HOPS: tuple[type[Hop], ...] = (
    Loses, Doubles, Damages, Changes, Reorders, DeadCable, Misses, Leaks, Late, Early,
    LargerAccount, SmallerAccount, AccountBehind, AnyPort,
)


class WrongCascade(RecordedCascade):
    """Runs over what comes to all switches, of which some are amiss in this way."""

    def __init__(self, cascade: dict, kind: type[Hop], chance: random.Random) -> None:
        super().__init__(cascade, Options(), chance)
        self.kind = kind
        self.born: dict[str, int] = {}  # when each frame came, by its digits

    def hop(self, name: str, row: dict) -> HopSwitch:
        is_first = row["from"] in self.ways.own[name]
        is_amiss = self.kind.is_before if is_first else self.kind.is_behind
        kind = self.kind if is_amiss and self.chance.random() < 0.7 else Hop
        hop = kind(self.switches[name], row, self.options, self.chance)
        hop.whole = self
        return hop

    def times(self, arriving: Arriving, port: int, hop: HopSwitch) -> tuple[int, int]:
        """The latest time at which a frame may leave a system's port, and the soonest."""
        name, vl = hop.tables["name"], arriving.frame().link() or 0
        way = self.ways.way_to(name, vl) or []
        born = self.born.get(arriving.content.hex(), arriving.moment)
        ends = [end["name"] for end in self.switches[name]["system"] if end["port"] == port]
        byte_ns = sum(byte_times(list(self.switches.values()), self.switches[name], end, way)
                      for end in ends)
        length = len(arriving.frame().content)
        return born + 1000 * latency_sum(way), born + (length + BEFORE_FRAME) * byte_ns

    def run_all(self, count: int, kinds: int = 0) -> None:
        """So many frames of each link on each side, all of them different; and some that come where
        another system of the same switch stands."""
        for (name, vl), row in self.ways.rows.items():
            if row["from"] not in self.ways.own[name]:
                continue
            ports = {end["name"]: end["port"] for end in self.switches[name]["system"]}
            coming = []
            for side in SIDES:
                for place, time in enumerate(stream_times(self.chance, row, count)):
                    number = 2 * place + (side == "B")
                    odd = self.kind is AnyPort and self.chance.random() < SOMETIMES
                    port = max(ports.values()) if odd else ports[row["from"]]
                    content = content_of(self.chance, row, number)
                    self.born[content.hex()] = time
                    coming.append(Arriving(time, side, port, content))
            self.run(name, vl, coming)


# ---- what must be found --------------------------------------------------------------------------


class Seen(NamedTuple):
    """A line of a list: its time, its place and port, and its frame."""

    time: int
    place: str
    port: int
    kind: str
    digits: str

    def frame(self) -> Frame:
        """Its frame."""
        side, _ = self.place.split(" ")
        return Arriving(self.time, side, self.port, bytes.fromhex(self.digits), self.kind).frame()


def seen_of(lines: list[Line]) -> list[Seen]:
    """The lines of a list in their order."""
    found = []
    for time, text in sorted(lines, key=lambda line: line[0]):
        kind, _, side, name, port, digits = text.split()
        found.append(Seen(time, f"{side} {name}", int(port), kind, digits))
    return found


class Wanted:
    """What must be found of a cascade by what came and what left."""

    def __init__(self, run: WrongCascade) -> None:
        self.switches = list(run.switches.values())
        self.ways, self.told = run.ways, set[Told]()
        came, left = map(seen_of, run.edges)
        known = set[tuple[str, int]]()
        for row in first_rows(self.switches):
            for side in SIDES:
                own = [each for each in came
                       if each.frame().link() == row["vl"] and each.place[0] == side]
                for place, port in self.receivers(row["vl"], side):
                    known.add((f"{row['vl']} {place}", port))
                    at = [each for each in left if (each.place, each.port) == (place, port)
                          and each.frame().link() == row["vl"]]
                    missing = self.accepted(row, own).keys() - self.stream(row, own, at)
                    for each in own:
                        if each.digits in missing:
                            self.tell("stopped", place, port, each)
        for each in left:
            if (f"{each.frame().link()} {each.place}", each.port) not in known:
                self.tell("strange", each.place, each.port, each)

    def tell(self, word: str, place: str, port: int, each: Seen) -> None:
        """So much must be found."""
        self.told.add((word, place, port, each.digits))

    def receivers(self, vl: int, side: str) -> list[tuple[str, int]]:
        """Where systems get a link."""
        return [
            (f"{side} {switch['name']}", end["port"])
            for switch in self.switches for end in switch["system"]
            if end["name"] in self.ways.rows.get((switch["name"], vl), {"to": []})["to"]
        ]  # fmt: skip

    def accepted(self, row: dict, own: list[Seen]) -> dict[str, int]:
        """The arrivals that the first switch must accept, by their digits; each with its place."""
        rule, found = Policing(row), dict[str, int]()
        for place, each in enumerate(own):
            length = len(each.frame().content)
            if self.is_sound(each) and not rule.early(each.time, length):
                found[each.digits] = place
        return found

    def is_sound(self, each: Seen) -> bool:
        """An arrival has the right shape at its sender's switch, where all come."""
        switch = next(sw for sw in self.switches if sw["name"] == each.place.split(" ")[1])
        return not Switch(switch).shape(each.port, each.frame())

    def bounds(self, row: dict, each: Seen) -> tuple[int, int]:
        """How long after it came a frame may leave there at least, and at most."""
        switch = next(sw for sw in self.switches if sw["name"] == each.place.split(" ")[1])
        way = self.ways.way_to(switch["name"], row["vl"]) or []
        system = next(end["name"] for end in switch["system"] if end["port"] == each.port)
        times = byte_times(self.switches, switch, system, way)
        return (len(each.frame().content) + BEFORE_FRAME) * times, 1000 * latency_sum(way)

    def stream(self, row: dict, own: list[Seen], left: list[Seen]) -> set[str]:
        """What is found of the frames that left; the digits of those that did so in order."""
        accepted, gone = self.accepted(row, own), list[str]()
        came = {each.digits: each for each in own}
        for each in left:
            arrival, place = came.get(each.digits), accepted.get(each.digits, -1)
            is_turned = place >= 0 and bool(gone) and place <= accepted[gone[-1]]
            if arrival is None or each.frame().content != arrival.frame().content or is_turned:
                self.tell("strange", each.place, each.port, each)
            elif place < 0:
                self.tell("passed", each.place, each.port, arrival)
            else:
                gone.append(each.digits)
                least, most = self.bounds(row, each)
                if each.time > arrival.time + most:
                    self.tell("late", each.place, each.port, arrival)
                elif each.time < arrival.time + least:
                    self.tell("early", each.place, each.port, arrival)
        return set(gone)


def wrong_cascade(kind: type[Hop], case: int) -> WrongCascade:
    """One that ran."""
    chance = random.Random(f"{case} {kind.__name__} edges")
    shape = SHAPES[list(SHAPES)[case % len(SHAPES)]]
    run = WrongCascade(admitted_cascade(chance, shape, 2 + case % 3, 4), kind, chance)
    run.run_all(15)
    return run
