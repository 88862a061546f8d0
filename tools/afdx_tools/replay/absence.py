"""Rows of what isn't there: silences, drops by where they came in, copies that came alone, clocks.

What came in is counted by links, sides and input ports; so a wrong port has its name.
"""
from __future__ import annotations

from dataclasses import dataclass

import numpy as np

from afdx_tools.config import MOST_PORTS
from afdx_tools.replay.copies import (
    Offset,
    alone_of,
    clock_of,
    copies_at_receivers,
    offsets_of,
    pairs_of,
    skews_at_inputs,
    skews_at_receivers,
    twice_by_link,
)
from afdx_tools.replay.counting import Counting
from afdx_tools.replay.events import side_name
from afdx_tools.replay.listing import NO_LINK, NO_SOURCE
from afdx_tools.replay.silence import LINK, NETWORK, SYSTEM, Silence, Silences
from afdx_tools.tables import Row

MOST_ROWS = 10_000
KINDS = 16  # more than the reasons to drop a frame
SEVERAL = "several"


@dataclass
class Copied:
    """What is known of the frames' copies: of each line the line of its other copy (0: none), the
    lines of those that came alone, the clocks of both sides, and which copies left the same port of
    both switches, the one that is later in the list and the other."""

    other: np.ndarray
    alone: np.ndarray
    offsets: list[Offset]
    at_receivers: tuple[np.ndarray, np.ndarray]


def copied_of(counting: Counting, silences: Silences) -> Copied:
    """What is known of the copies of a run."""
    other = pairs_of(counting)
    alone, offsets = alone_of(counting, other, silences), offsets_of(counting, other)
    return Copied(other, alone, offsets, copies_at_receivers(counting, other))


def number_of(counting: Counting, line: int) -> int | None:
    """The number of a line, None for none."""
    return counting.events.number_of(line) if line else None


def side_of(counting: Counting, line: int) -> str | None:
    """The side of a line's frame, None for none."""
    return side_name(int(counting.listing.side[line])) if line else None


# ---- silences ------------------------------------------------------------------------------------


def silence_rows(counting: Counting, silences: Silences) -> list[Row]:
    """A row for each silence: of networks, then of systems, then of links, each in its order."""
    rows = sorted(silences.rows, key=lambda one: (NETWORK, SYSTEM, LINK).index(one.level))
    return [silence_row(counting, one) for one in rows[:MOST_ROWS]]


def silence_row(counting: Counting, one: Silence) -> Row:
    """One silence; whose it is stands in the columns link and system."""
    link = one.name if one.level == LINK else None
    source = counting.config.links[link].source if isinstance(link, int) else one.name
    return {
        "silent": one.level,
        "link": link,
        "system": source,
        "side": one.side,
        "from_ns": one.begin,
        "until_ns": one.end,
        "for_ns": one.end - one.begin,
        "bags": int(one.bags),
        "bag_ms": one.bag // 1_000_000,
        "on_other_side": one.other,
        "last_line": number_of(counting, one.before),
        "next_line": number_of(counting, one.after),
    }


# ---- what was dropped, and where it came in ------------------------------------------------------


def dropped_rows(counting: Counting) -> list[Row]:
    """A row for each link, side, reason and input port of frames that a switch dropped."""
    came = counting.events.came
    at = np.flatnonzero(came.verdict > 0)
    lines = came.line[at]
    keys = counting.place[lines].astype(np.int64) * 2 + counting.listing.side[lines]
    keys = (keys * KINDS + came.verdict[at]) * counting.ports + came.port[at]
    order = np.argsort(keys, kind="stable")
    bounds = np.flatnonzero(np.diff(keys[order], prepend=-1, append=-1))
    return [
        dropped_row(counting, at[order[begin:end]]) for begin, end in zip(bounds[:-1], bounds[1:])
    ]


def dropped_row(counting: Counting, at: np.ndarray) -> Row:
    """Frames of one link, side, reason and input port, in the order in which they came; `at` are
    their places among all that came."""
    came, config = counting.events.came, counting.config
    lines, port = came.line[at], int(came.port[at[0]])
    first = int(lines[0])
    vl = counting.vls[counting.place[first]]
    link = config.row_at(vl, port)
    place = config.keys_of(port)
    own = link.port % MOST_PORTS if link else None
    return {
        "link": "none" if vl == NO_LINK else vl,
        "side": side_name(int(counting.listing.side[first])),
        "reason": counting.events.verdicts.names[came.verdict[at[0]]],
        "frames": len(lines),
        **{"switch": name for name in [place.get("switch")] if name},
        "came_in": place["port"],
        "system": system_at(counting, port),
        "own_port": own,
        "own_system": link.source if link else None,
        "address": addressed(counting, lines),
        "from_ns": int(came.time[at[0]]),
        "until_ns": int(came.time[at[-1]]),
        "first_line": counting.events.number_of(first),
    }


def system_at(counting: Counting, port: int) -> str | None:
    """The system at a port of both switches, or the switch at the other end of its cable."""
    system = counting.by_port.get(port)
    return system.name if system else None


def addressed(counting: Counting, lines: np.ndarray) -> str | None:
    """The system that the source addresses of these frames name, by its number where the tables
    have none; None where they have no address."""
    sources = np.unique(counting.listing.source[lines])
    sources = sources[sources != NO_SOURCE]
    if len(sources) != 1:
        return SEVERAL if len(sources) else None
    port = counting.config.ports_by_id().get(int(sources[0]))
    return f"number {sources[0]}" if port is None else system_at(counting, port)


def contradicted(counting: Counting) -> int:
    """The arrivals whose own source address names the other network. Of a recording without a fault
    the program says it itself."""
    named = counting.listing.network[counting.arrived]
    return int((named == 1 - counting.listing.side[counting.arrived]).sum())


# ---- copies --------------------------------------------------------------------------------------


def alone_by_side(counting: Counting, copied: Copied) -> dict[tuple[int, int], int]:
    """Of each link and side the frames that came there alone."""
    keys = counting.place[copied.alone].astype(np.int64) * 2 + counting.listing.side[copied.alone]
    found, counts = np.unique(keys, return_counts=True)
    return {(counting.vls[key // 2], int(key % 2)): int(n) for key, n in zip(found, counts)}


def skew_rows(counting: Counting, copied: Copied) -> list[Row]:
    """A row for each link of which a frame was accepted on both sides."""
    inputs = skews_at_inputs(counting, copied.other)
    receivers = skews_at_receivers(counting, *copied.at_receivers)
    twice = twice_by_link(counting, *copied.at_receivers)
    rows = []
    for vl, skew in inputs.items():
        there = receivers.get(vl)
        rows.append(
            {
                "link": vl,
                "pairs": skew.pairs,
                "at_inputs_ns": skew.greatest,
                "inputs_line": number_of(counting, skew.line),
                "inputs_side": side_of(counting, skew.line),
                "at_receivers_ns": there.greatest if there else None,
                "receivers_line": number_of(counting, there.line if there else 0),
                "receivers_side": side_of(counting, there.line if there else 0),
                "table_skew_ns": there.table if there else counting.config.links[vl].skew_ns,
                "twice": twice.get(vl, 0),
            }
        )
    return rows


def clock_rows(copied: Copied) -> list[Row]:
    """A row for each sender: by how many ns its copies came later on side B."""
    apart = clock_of(copied.offsets)
    return [
        {
            "system": offset.system,
            "pairs": offset.pairs,
            "quarter_ns": offset.low,
            "median_ns": offset.median,
            "three_quarters_ns": offset.high,
            "at_begin_ns": offset.begin,
            "at_end_ns": offset.end,
            "clock": "apart" if offset in apart else "",
        }
        for offset in copied.offsets
    ]
