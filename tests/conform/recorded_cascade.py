"""Several right switches, each with a clock of its own that drifts, recorded at their edges by
stamps that are off: what came from systems and what left to systems, made at random.

Each link is run alone, from its sender's switch on, by clocks that no other link has: of several
links a judge sees no more."""
from __future__ import annotations

import random
from typing import NamedTuple

from cascade_check import Ways
from conform_terms import Options
from places import place_text
from recorded_switch import Arriving, Recorded, RecordedSwitch
from traffic_made import content_of, stream_times

Line = tuple[int, str]  # of a list, behind its time


class HopSwitch(RecordedSwitch):
    """One of several switches, with one link's row alone. What goes over cables has true moments,
    as nobody records it."""

    def __init__(self, switch: dict, row: dict, options: Options, chance: random.Random) -> None:
        ends = [*switch["system"], *switch["neighbour"]]
        self.cables = {end["port"]: end["name"] for end in switch["neighbour"]}
        super().__init__(switch | {"system": ends, "link": [row]}, options, chance)

    def stamp(self, is_left: bool, side: str, port: int, moment: int) -> int:
        return moment if port in self.cables else super().stamp(is_left, side, port, moment)


class Edges(NamedTuple):
    """What was recorded: a list's lines of what came, and those of what left."""

    came: list[Line]
    left: list[Line]


class RecordedCascade:
    """Runs over what comes to all switches."""

    def __init__(self, cascade: dict, options: Options, chance: random.Random) -> None:
        self.switches = {switch["name"]: switch for switch in cascade["switch"]}
        self.ways, self.chance = Ways(cascade["switch"]), chance
        # an account is asked before the frame has to leave
        latency = 1000 * min(row["latency_us"] for row in self.ways.rows.values())
        self.options = options._replace(asked=min(options.asked, latency // 2))
        self.edges = Edges([], [])

    def lines(self, name: str, recorded: list[Recorded], ports: set[int]) -> list[Line]:
        """What was recorded at these ports, as lines."""
        found = []
        for time, side, port, words in recorded:
            if port in ports:
                kind, digits = words.split(" ")
                place = place_text(side, name)
                found.append((time, f"{kind} {time} {place} {port} {digits}\n"))
        return found

    def back(self, name: str, other: str) -> int:
        """The port at which a switch has the cable from another."""
        ends = self.switches[name]["neighbour"]
        return next(end["port"] for end in ends if end["name"] == other)

    def hop(self, name: str, row: dict) -> HopSwitch:
        """A switch with a link's row."""
        return HopSwitch(self.switches[name], row, self.options, self.chance)

    def run(self, name: str, vl: int, coming: list[Arriving]) -> None:
        """What comes to a switch, of a link; and all that follows behind it."""
        hop = self.hop(name, self.ways.rows[name, vl])
        hop.run(coming)
        systems = {end["port"] for end in self.switches[name]["system"]}
        self.edges.came.extend(self.lines(name, hop.came, systems))
        self.edges.left.extend(self.lines(name, hop.left, systems))
        for port, other in hop.cables.items():
            back = self.back(other, name)
            gone = [Arriving(moment, side, back, bytes.fromhex(words[2:]), words[0])
                    for moment, side, at, words in hop.left if at == port]  # fmt: skip
            if gone:
                self.run(other, vl, gone)

    def run_all(self, count: int, kinds: int) -> None:
        """So many frames of each link on each side; a link has `kinds` different ones."""
        for (name, vl), row in self.ways.rows.items():
            if row["from"] not in self.ways.own[name]:
                continue
            systems = self.switches[name]["system"]
            port = next(end["port"] for end in systems if end["name"] == row["from"])
            coming = [
                Arriving(time, side, port, content_of(self.chance, row, place % kinds))
                for side in "AB"
                for place, time in enumerate(stream_times(self.chance, row, count))
            ]
            self.run(name, vl, coming)


def list_of(lines: list[Line], begin: int = 0, end: int = 10**18) -> bytes:
    """A list of what was recorded from a time up to another."""
    within = [line for line in lines if begin <= line[0] <= end]
    return "".join(text for _, text in sorted(within, key=lambda line: line[0])).encode()
