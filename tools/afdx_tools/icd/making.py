"""The values of several switches a side, as `solve` and `check` say them."""
from __future__ import annotations

import re
from dataclasses import replace
from typing import Mapping

from afdx_tools.faults import Failed, Refused
from afdx_tools.icd.cascade import Cascade, Place, Values
from afdx_tools.icd.document import MOST_BUFFER
from afdx_tools.icd.late_ways import refusal, too_full, too_late
from afdx_tools.icd.layout import several_text, shortened
from afdx_tools.icd.room import Room
from afdx_tools.solving import Worst, overloads, run, solve
from afdx_tools.spreadsheets.cells import MOST_US

MOST_BYTES = 4_194_304  # of a configuration
NUMBER = re.compile(r"^(buffer|vl|jitter_us|latency_us|skew_us) = (\d+)$", re.M)
ROW_KEYS = ("vl", "jitter_us", "latency_us", "skew_us")
OTHER_TABLES = "solve wrote other tables than it was given"

Latencies = Mapping[Place, int]  # of rows, in us


class Unsolved(Exception):
    """No values are enough; why, in lines in the words of the document."""


def text_with(cascade: Cascade, values: Values) -> bytes:
    """The configuration with these values, without names of messages and most spaces where it would
    be too long; Refused where it is even then."""
    tables = [cascade.tables(switch, values) for switch in cascade.switches]
    text = several_text(cascade.document, tables)
    if len(text) > MOST_BYTES:
        text = shortened(text)
    if len(text) > MOST_BYTES:
        raise Refused(f"the configuration has {len(text)} bytes; {MOST_BYTES} are the most")
    return text


def values_in(cascade: Cascade, text: str) -> Values:
    """The values that stand in what `solve` wrote."""
    found = NUMBER.findall(text)
    wanted = [
        key
        for switch in cascade.switches
        for key in ("buffer", *(ROW_KEYS * len(cascade.rows[switch])))
    ]
    if [key for key, _ in found] != wanted:
        raise Failed(OTHER_TABLES, 4)
    values, numbers = Values(), iter([int(digits) for _, digits in found])
    for switch in cascade.switches:
        values.buffers[switch] = next(numbers)
        for vl in cascade.rows[switch]:
            if next(numbers) != vl:
                raise Failed(OTHER_TABLES, 4)
            values.jitters[switch, vl] = next(numbers)
            values.latencies[switch, vl] = next(numbers)
            values.skews[switch, vl] = next(numbers)
    return values


def any_values(cascade: Cascade) -> Values:
    """Values of which each is in its range."""
    most = dict.fromkeys(cascade.places(), MOST_US)
    buffers = dict.fromkeys(cascade.switches, MOST_BUFFER)
    return Values(buffers, dict.fromkeys(most, 0), most, most)


class Bounds:
    """What `check` says of a cascade with these values: of each row the port where its frames can
    take longest, and of each switch the port where most bytes can wait."""

    def __init__(self, cascade: Cascade, values: Values) -> None:
        self.latencies: dict[Place, Worst] = {}
        self.buffers: dict[str, Worst] = {}
        switch, none = "", Worst(0, 0)
        for line in run(["check", "--margins"], text_with(cascade, values)).out.splitlines():
            match line.split():
                case ["S", name]:
                    switch = name
                case ["P", port, _, _, needed]:
                    worst, most = Worst(int(port), int(needed)), self.buffers.get(switch, none)
                    self.buffers[switch] = max(worst, most, key=lambda each: each.amount)
                case ["m", port, vl, bound, _]:
                    place, worst = (switch, int(vl)), Worst(int(port), int(bound))
                    if worst.amount > self.latencies.get(place, none).amount:
                        self.latencies[place] = worst


class Making:
    """How the values of a cascade are found, with the room that is asked for; `old` are those of an
    earlier configuration, which stay where they are enough and nothing else is asked for."""

    def __init__(self, cascade: Cascade, room: Room, old: Values) -> None:
        self.cascade, self.room, self.old = cascade, room, old
        self.skews = {
            (switch, vl): us
            for (switch, vl), us in old.skews.items()
            if (row := cascade.rows.get(switch, {}).get(vl)) and row["skew_us"] is None
        }

    def solved(self, asked: Latencies) -> Values:
        """The least values with which the network is admitted, no latency less than is asked;
        Unsolved where there are none."""
        values = Values(latencies=dict(asked), skews=self.skews)
        found = solve(text_with(self.cascade, values), self.room.solve_options())
        if found.line:
            lines = overloads(found.line, text_with(self.cascade, any_values(self.cascade)))
            raise Unsolved(*(refusal(self.cascade, line) for line in lines))
        return values_in(self.cascade, found.text)

    def with_room(self, asked: Latencies) -> Values:
        """The same, where each latency has the room that is asked for, if it isn't the old one.
        That room delays what comes after it, so more may be needed there; this goes on until all
        have theirs."""
        while True:
            values = self.solved(asked)
            more = self.missing(values) if self.room.reserve else {}
            if not more:
                return values
            asked = {**asked, **more}

    def missing(self, values: Values) -> dict[Place, int]:
        """The latencies that have less than the room that is asked for, with it; Unsolved where
        that is more than a latency may be."""
        found = {}
        for place, (port, ns) in Bounds(self.cascade, values).latencies.items():
            us, latency = self.room.added(ns, 1000), values.latencies[place]
            if latency >= us or latency == self.old.latencies.get(place):
                continue
            if us > MOST_US:
                text = f", and {us} us with a reserve of {self.room.reserve} %"
                switch, vl = place
                raise Unsolved(too_late(self.cascade, switch, port, vl, str(ns), text))
            found[place] = us
        return found

    def with_buffers(self, values: Values) -> Values:
        """The values with the old buffers, or with the room that is asked for; Unsolved where that
        is too much."""
        buffers = {}
        for switch, needed in values.buffers.items():
            old = self.old.buffers.get(switch, 0)
            buffers[switch] = buffer = old if old >= needed else self.room.added(needed)
            if buffer > MOST_BUFFER:
                text = f", and {buffer} with a reserve of {self.room.reserve} %"
                port = Bounds(self.cascade, values).buffers[switch].port
                raise Unsolved(too_full(self.cascade, switch, port, str(needed), text))
        return replace(values, buffers=buffers)
