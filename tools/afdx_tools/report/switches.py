"""Rows of several switches a side: what each switch took in and let out; what each line carries, by
the contracts of the links and in the replay."""
from __future__ import annotations

import numpy as np

from afdx_tools.config import MOST_PORTS, Link, System
from afdx_tools.replay.counting import WIRE_EXTRA, Counting, Queue, tally
from afdx_tools.replay.events import ACCEPT, FATES, LOST, OLD, side_name
from afdx_tools.report.numbers import words_of
from afdx_tools.tables import Row

SIDES = (0, 1)


def switch_rows(counting: Counting) -> list[Row]:
    """A row for each switch and side."""
    events, came, names = counting.events, counting.events.came, counting.config.names
    words, count = events.verdicts.names, 2 * len(names)
    here = 2 * (events.port // MOST_PORTS) + counting.sides  # of each copy
    there = 2 * (came.port // MOST_PORTS) + counting.listing.side[came.line]
    brought = counting.with_cable[came.port]
    verdicts = tally(there, came.verdict, count, len(words))
    fates = tally(here, events.fate, count, len(FATES))
    left = counting.left & ~counting.ended
    over, late, to_systems, to_cables = (
        np.bincount(keys[chosen], minlength=count)
        for keys, chosen in ((there, brought), (here, counting.late), (here, counting.ended),
                             (here, left))
    )  # fmt: skip
    rows = []
    for key in range(count):
        reasons = words_of(verdicts[key], words, [ACCEPT])
        rows.append(
            {
                "switch": names[key // 2],
                "side": side_name(key % 2),
                "from_systems": int(verdicts[key].sum() - over[key]),
                "over_cables": int(over[key]),
                "accepted": int(verdicts[key][words.index(ACCEPT)]),
                "dropped": sum(reasons.values()),
                "reasons": reasons,
                "full_buffer": int(fates[key][FATES.index(LOST)]),
                "late": int(late[key]),
                "too_old": int(fates[key][FATES.index(OLD)]),
                "to_systems": int(to_systems[key]),
                "to_cables": int(to_cables[key]),
            }
        )
    return rows


# ---- lines ---------------------------------------------------------------------------------------


def share_of(links: list[Link], byte_ns: int) -> float:
    """The share of a line that these links take up by their contracts, as A1 has it."""
    times = ((link.lmax + WIRE_EXTRA) * byte_ns / (link.bag_ms * 1_000_000) for link in links)
    return float(sum(times))


def line_rows(counting: Counting, queues: list[Queue]) -> list[Row]:
    """A row for each line in each direction: from a system to its switch, from a switch to a system
    or over a cable."""
    config, ends = counting.config, counting.by_port
    rows: list[Row] = []
    if config.several is None:
        return rows
    to_port: dict[int, list[Link]] = {}
    for row in config.several.rows.values():
        for port in row.ports:
            to_port.setdefault(port, []).append(row)
    loads = {(queue.port, queue.side): queue.load for queue in queues}
    brought = brought_in(counting)
    for port, end in sorted(ends.items()):
        if isinstance(end, System):
            own = [link for link in config.links.values() if link.port == port]
            sent = [end.byte_ns * float(brought[2 * port + side]) for side in SIDES]
            rows.append(line_row(counting, port, True, own, sent))
        left = [loads.get((port, side), 0.0) for side in SIDES]
        rows.append(line_row(counting, port, False, to_port.get(port, []), left))
    return rows


def line_row(
    counting: Counting, port: int, is_in: bool, links: list[Link], loads: list[float]
) -> Row:
    """A line in one direction: the links on it, and the share of it that they take up, by contract
    and in the replay on each side."""
    end, switch = counting.by_port[port], counting.config.switch_of(port)
    begin, to = (end.name, switch) if is_in else (switch, end.name)
    return {
        "from": begin,
        "to": to,
        **counting.config.keys_of(port),
        "rate": end.rate,
        "links": len(links),
        "contract": share_of(links, end.byte_ns),
        "load_A": loads[0],
        "load_B": loads[1],
    }


def brought_in(counting: Counting) -> np.ndarray:
    """Of each port and side how many bytes came in on the line there in each ns."""
    listing, lines = counting.listing, counting.arrived
    keys = 2 * listing.port[lines].astype(np.int64) + listing.side[lines]
    sizes = listing.length[lines].astype(np.int64) + WIRE_EXTRA
    span = max(counting.last - counting.first, 1)
    return np.bincount(keys, sizes, minlength=2 * counting.ports) / span
