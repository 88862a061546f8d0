"""What stands beside the lines of a replay as a frame's comments: how long its copies took, what
its link is called, and what `conform` said of it. tools/afdx.lua reads these lines."""
from __future__ import annotations

from dataclasses import dataclass, field
from typing import Iterator, Mapping

from afdx_tools.config import MOST_PORTS, Config, port_at
from afdx_tools.faults import Refused, shown
from afdx_tools.known import kinds, of_senders
from afdx_tools.naming import Naming, naming_beside

MOST_LINES = 1_000_000
LONGEST_LINE = 200


@dataclass
class Beside:
    """What is said of frames besides: the names of a document, and the lines of `conform` by the
    numbers of frames."""

    naming: Naming = field(default_factory=Naming)
    judged: Mapping[int, list[str]] = field(default_factory=dict)

    def of(self, number: int, vl: int | None) -> list[str]:
        """The comments about a frame of a link."""
        name = "" if vl is None else self.naming.of_link(vl)
        return self.judged.get(number, []) + ([f"called {name}"] if name else [])


def judged_in(path: str, is_one: bool) -> dict[int, list[str]]:
    """The lines of `conform` by their frames; `is_one`: what came and what left is one recording,
    else those about what left are passed over."""
    found: dict[int, list[str]] = {}
    with open(path, encoding="utf-8", errors="surrogateescape") as file:
        for place, line in enumerate(iter(lambda: file.readline(LONGEST_LINE), ""), 1):
            word, *others = line.split()[:3] or [""]
            kind = kinds().get(word)
            if word not in of_senders() and (kind is None or (kind.is_left and not is_one)):
                continue
            if place > MOST_LINES or not others or not others[0].isdecimal():
                raise Refused(f"{shown(path)} line {place}: it is no line of afdx conform")
            found.setdefault(int(others[0]), []).append(shown(line.strip()))
    return found


def beside(config: str, conform: str | None, is_one: bool) -> Beside:
    """What is said besides, by the table beside a configuration and by what `conform` said."""
    return Beside(naming_beside(config), judged_in(conform, is_one) if conform else {})


def latency_lines(
    config: Config, vl: int | None, came: Mapping[int, int], lines: list[str]
) -> Iterator[str]:
    """Of each departure how long the copy took from its arrival at that switch, and how long it
    may; `came` are the arrivals at the switches."""
    for line in lines:
        kind, *fields = line.split(" ")
        if kind != "D" or vl is None:
            continue
        switch = config.names.index(fields[3]) if config.several else 0
        port = port_at(switch, int(fields[-1]))
        row = config.row_at(vl, port)
        if row and switch in came:
            place = " ".join(fields[2:])
            yield f"latency {int(fields[1]) - came[switch]} of {row.latency_ns} ns at {place}"


def far_end(config: Config, switch: int, port: str) -> int | None:
    """The switch at the other end of the cable at a port, if there is one."""
    cable = config.cables.get(port_at(switch, int(port)))
    return cable.far // MOST_PORTS if cable else None
