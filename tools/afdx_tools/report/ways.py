"""Rows of several switches a side, from end to end: latencies on the ways of links, with what each
switch took of them; what each receiver read, once, twice or never."""
from __future__ import annotations

import functools
from typing import NamedTuple

import numpy as np

from afdx_tools.config import Way
from afdx_tools.replay.absence import Copied, number_of, side_of
from afdx_tools.replay.checked import Checked
from afdx_tools.replay.counting import Counting, Path
from afdx_tools.replay.events import DELIVERED, REDUNDANT, side_name
from afdx_tools.replay.grouping import Groups, first_greatest
from afdx_tools.report.numbers import at_port, spread_of, words_of, worst_of
from afdx_tools.tables import Row

Taken = dict[tuple[int, int], tuple[int, int]]


class Asked(NamedTuple):
    """What the tables and `check` say of a link's way to a receiver: first columns of its rows, the
    output ports on the way, its class, and the ns that are proved, configured and promised."""

    begins: Row
    way: Way
    priority: str
    bound: int | None
    configured: int
    promised: int | None


def asked_of(counting: Counting, checked: Checked, link: int, port: int) -> Asked:
    """What they say of the way of a link to a port."""
    config, at = counting.config, at_port(counting, port)
    row = config.row_at(link, port) or config.links[link]
    return Asked(
        {"link": link, "from": config.links[link].source, **at},
        config.way_to(link, port),
        row.priority,
        checked.bound_on(config, link, port),
        config.latency_to(link, port),
        checked.ends.get((link, at["system"])),
    )


def taken_by(counting: Counting, lines: np.ndarray) -> Taken:
    """Of the copies of these lines' frames that left what each took at its switch, and what is
    configured there, in ns, by line and port."""
    events, wanted = counting.events, np.zeros(len(counting.place), bool)
    wanted[lines] = True
    at = np.flatnonzero(counting.left & wanted[events.line])
    columns = (events.line, events.port, counting.latency, counting.configured)
    line, port, took, configured = (column[at].tolist() for column in columns)
    return dict(zip(zip(line, port), zip(took, configured)))


def way_rows(counting: Counting, checked: Checked) -> list[Row]:
    """A row for each link, receiver and side where a frame left, from the list's arrival on; by
    share of the configured latency, so that late ones come first."""
    paths = counting.ways
    worst, numbers = worst_of(counting, paths)
    lines = counting.events.line[worst]
    taken, times = taken_by(counting, lines), counting.listing.time[lines].tolist()
    both = functools.cache(functools.partial(asked_of, counting, checked))  # of both sides
    rows = [
        {
            **way_row(counting, both(path.link, path.port), path, line, taken),
            "at_line": number,
            "at_ns": time,
        }
        for path, line, number, time in zip(paths, lines.tolist(), numbers, times)
    ]
    return sorted(rows, key=lambda row: -row["share"])


def way_row(counting: Counting, asked: Asked, path: Path, line: int, found: Taken) -> Row:
    """The latencies of a link from end to end, at a receiver on one side. `hops_ns` is what each
    switch took of the greatest; `slowest` the one that took most of what it may. What the slowest
    frame's copies took is `found` by line and port."""
    config = counting.config
    copies = [found[line, port] for port in asked.way]
    shares = [took / max(configured, 1) for took, configured in copies]
    return {
        **asked.begins,
        "side": side_name(path.side),
        "priority": asked.priority,
        **spread_of(path),
        "at_line": None,
        "at_ns": None,
        "hops_ns": {config.switch_of(port): took for port, (took, _) in zip(asked.way, copies)},
        "slowest": config.called(asked.way[shares.index(max(shares))]),
        "bound_ns": asked.bound,
        "configured_ns": asked.configured,
        "promised_ns": asked.promised,
        "margin_ns": None if asked.bound is None else asked.configured - asked.bound,
        "share": path.spread[-1] / asked.configured,
        "late": path.late,
    }


# ---- what receivers read -------------------------------------------------------------------------


def sent_by(counting: Counting, copied: Copied) -> dict[int, int]:
    """Of each link how many frames its first switch accepted, on either side or on both."""
    accepted = counting.arrived[counting.verdicts == 0]
    others = copied.other[accepted]
    first = accepted[(others == 0) | (accepted < others)]
    counts = np.bincount(counting.place[first], minlength=len(counting.vls))
    return {vl: int(counts[place]) for place, vl in enumerate(counting.vls)}


def read_by(counting: Counting, copied: Copied) -> tuple[np.ndarray, np.ndarray]:
    """Of each link and port the copies that left to a system there by what the receiver did, and
    how many frames it read twice."""
    events, count = counting.events, len(counting.vls) * counting.ports
    ends = counting.ends_by(counting.places, count)
    mine, its = copied.at_receivers
    code = events.ends.names.index(DELIVERED)
    both = mine[(events.end[mine] == code) & (events.end[its] == code)]
    return ends, np.bincount(counting.places[both], minlength=count)


def receiver_rows(counting: Counting, copied: Copied) -> list[Row]:
    """A row for each link that sent frames and each of its receivers."""
    config, sent = counting.config, sent_by(counting, copied)
    ends, twice = read_by(counting, copied)
    skews = skews_of(counting, copied)
    rows = []
    for place, vl in enumerate(counting.order):
        for port in config.links[vl].ports if sent[vl] else ():
            key = place * counting.ports + port
            rows.append(
                {
                    "link": vl,
                    "from": config.links[vl].source,
                    **at_port(counting, port),
                    "frames": sent[vl],
                    **read_row(counting, ends[key].tolist(), int(twice[key]), sent[vl]),
                    **skews.get(key, dict.fromkeys(("skew_ns", "skew_line", "skew_side"))),
                    "table_skew_ns": config.skew_at(vl, port),
                }
            )
    return rows


def read_row(counting: Counting, counted: list[int], twice: int, sent: int) -> Row:
    """What a receiver made of the copies of a link's frames."""
    names = counting.events.ends.names
    delivered = counted[names.index(DELIVERED)]
    return {
        "once": delivered - 2 * twice,
        "twice": twice,
        "never": sent - (delivered - twice),
        "redundant": counted[names.index(REDUNDANT)],
        "refusals": words_of(counted, names, [DELIVERED, REDUNDANT]),
    }


def skews_of(counting: Counting, copied: Copied) -> dict[int, Row]:
    """Of each link and receiver the greatest time between a frame's copies there, and which copy
    came later."""
    mine, its = copied.at_receivers
    times, lines = counting.events.time, counting.events.line
    apart = times[mine] - times[its]
    later = np.where(apart >= 0, lines[mine], lines[its])
    groups = Groups(counting.places[mine])
    bounds = np.array(groups.bounds, np.int64)
    amounts = np.abs(apart)
    worst = groups.order[first_greatest(amounts[groups.order], bounds)]
    found = zip(groups.keys, amounts[worst].tolist(), later[worst].tolist())
    return {
        key: {
            "skew_ns": amount,
            "skew_line": number_of(counting, line),
            "skew_side": side_of(counting, line),
        }
        for key, amount, line in found
    }
