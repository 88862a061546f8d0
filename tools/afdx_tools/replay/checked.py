"""What `afdx check` says: the bounds of each port, the answer of admission, and of several switches
the latencies from end to end."""
from __future__ import annotations

from dataclasses import dataclass, field
from typing import Iterable

from afdx_tools.config import Config, Link, port_at


@dataclass(frozen=True)
class Bound:
    """A P line of `check`: bounds in ns (low None where there is none), bytes of buffer."""

    high: int
    low: int | None
    buffer: int


@dataclass
class Checked:
    """What `check` answered. `ends` is what the E lines say of links and receivers, in ns: None
    where a way is broken. Of one switch there are none."""

    bounds: dict[int, Bound] = field(default_factory=dict)
    answer: str = ""
    ends: dict[tuple[int, str], int | None] = field(default_factory=dict)

    def bound_of(self, link: Link, port: int) -> int | None:
        """The proved bound for frames of a link at a port."""
        bound = self.bounds.get(port)
        if bound is None:
            return None
        return bound.high if link.priority == "high" else bound.low

    def bound_on(self, config: Config, vl: int, port: int) -> int | None:
        """The proved bounds for frames of a link on their way to an output port together."""
        rows = [(config.row_at(vl, each), each) for each in config.way_to(vl, port)]
        bounds = [self.bound_of(row, each) if row else None for row, each in rows]
        known = [bound for bound in bounds if bound is not None]
        return sum(known) if known and len(known) == len(bounds) else None


def checked_of(lines: Iterable[str]) -> Checked:
    """Reads the lines of `check`. Those of several switches come in the order of the switches."""
    checked, switch, named = Checked(), 0, 0
    for line in lines:
        match line.split():
            case ["S", _]:
                switch, named = named, named + 1
            case ["P", port, high, low, buffer]:
                checked.bounds[port_at(switch, int(port))] = Bound(
                    int(high), None if low == "-" else int(low), int(buffer)
                )
            case ["E", vl, system, end]:
                checked.ends[int(vl), system] = None if end == "-" else int(end)
            case _:
                checked.answer = line
    return checked
