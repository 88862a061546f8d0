"""Makes the configuration of several switches a side of an interface document."""
from __future__ import annotations

from typing import NamedTuple

from afdx_tools.icd.cascade import Cascade, Values
from afdx_tools.icd.late_ways import late_lines
from afdx_tools.icd.making import Making, Unsolved
from afdx_tools.icd.room import Room
from afdx_tools.icd.sharing import given_out, needed


class Made(NamedTuple):
    """Lines about what can't be as it is asked; and values, which are none where there can be no
    configuration."""

    late: list[str]
    values: Values | None


def left_out(cascade: Cascade) -> list[str]:
    """A line about the cables that no link needs."""
    called = cascade.cabling.called
    pairs = [
        f"{called(one.switch)} to {called(other.switch)}"
        for one, other in (cable.ends for cable in cascade.unneeded)
    ]
    text = f"{cascade.cabling.source}: cables that no message needs are left out: "
    return [text + ", ".join(pairs)] if pairs else []


def made_of(cascade: Cascade, room: Room, old: Values, is_raised: bool) -> Made:
    """The configuration with the latencies that the document allows and the room that is asked for;
    where they aren't enough for a message there is none, unless it may be raised."""
    new, again = (Making(cascade, room, values) for values in (Values(), old))
    try:
        least = roomy = new.solved({})
        if room.reserve:
            roomy = new.with_room(least.latencies)
        enough = needed(cascade, roomy.latencies)
        late = late_lines(cascade, least.latencies, enough, room.reserve)
        if late and not is_raised:
            return Made(late, None)
        return Made(late, again.with_buffers(given_out(again, roomy)))
    except Unsolved as fault:
        return Made(list(fault.args), None)
