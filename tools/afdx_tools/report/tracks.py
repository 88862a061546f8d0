"""The time line of a link: its arrivals where most went wrong, with what became of their copies; of
several switches a side at each switch of its way."""
from __future__ import annotations

from collections import Counter
from dataclasses import dataclass, field

import numpy as np

from afdx_tools.config import MOST_PORTS
from afdx_tools.replay.counting import Counting
from afdx_tools.replay.events import ACCEPT, DELIVERED, FATES, LEFT, side_name
from afdx_tools.replay.listing import NO_LINK
from afdx_tools.report.svg import (
    LATE,
    WIDTH,
    Scale,
    box,
    dot,
    line,
    picture,
    reasons,
    symbol,
    text,
    time_axis,
    titled,
    unit_for,
)

EACH = 80  # arrivals that are looked at together
APART, BEFORE, SIDE = 22, 8, 38  # from lane to lane, before a further switch, and to the other side


@dataclass
class Copy:
    """A copy that came to its end: what became of it, when, where, what its receiver did."""

    what: str
    time: int
    port: int
    end: str


@dataclass
class Arrived:
    """An arrival at a switch: where it came in, what became of the frame and of its copies. What a
    cable brought left that `far` port of another switch."""

    line: int
    time: int
    side: str
    port: int
    verdict: str
    far: int | None = None
    copies: list[Copy] = field(default_factory=list)

    @property
    def lane(self) -> int:
        """Its lane: that of the arrivals at its switch."""
        return switch_lane(self.port)


def switch_lane(port: int) -> int:
    """The lane of the arrivals at the switch of a port; no output port has that number."""
    return port // MOST_PORTS * MOST_PORTS


def troubled(counting: Counting) -> np.ndarray:
    """Of each line of the list: was its frame dropped, or a copy of it lost, late or too old?"""
    events = counting.events
    wrong = events.verdict > 0
    wrong[events.came.line[events.came.verdict > 0]] = True
    wrong[events.line[~counting.left | counting.late]] = True
    return wrong


def chosen(counting: Counting, wrong: np.ndarray) -> int | None:
    """The link with the most late copies, else with the most trouble, else with the most frames."""
    count = len(counting.vls)
    late = counting.late_by(counting.links, count)
    trouble = np.bincount(counting.place[np.flatnonzero(wrong)], minlength=count)
    frames = np.bincount(counting.place[counting.arrived], minlength=count)
    order = np.lexsort((-np.arange(count), frames, trouble, late))
    best = [counting.vls[n] for n in order if frames[n] and counting.vls[n] != NO_LINK]
    return best[-1] if best else None


def shown_lines(counting: Counting, vl: int, wrong: np.ndarray, begin: int) -> np.ndarray:
    """Of a link's arrivals those that follow each other where most went wrong, and some after."""
    lines = counting.arrived[counting.place[counting.arrived] == counting.vls.index(vl)]
    if begin:
        return lines[counting.listing.time[lines] >= begin][:EACH]
    if len(lines) <= EACH:
        return lines
    sums = np.cumsum(np.concatenate(([0], wrong[lines])))
    first = int(np.argmax(sums[EACH:] - sums[:-EACH]))
    return lines[first : first + EACH * 5 // 4]


def arrivals_of(counting: Counting, lines: np.ndarray) -> list[Arrived]:
    """These lines' frames with their copies, at each switch to which they came."""
    listing, events, came = counting.listing, counting.events, counting.events.came
    cables = counting.config.cables
    found: dict[tuple[int, int], Arrived] = {}
    all_found = []
    for n in np.flatnonzero(np.isin(came.line, lines)):
        line, port = int(came.line[n]), int(came.port[n])
        far = cables[port].far if port in cables else None
        side, verdict = side_name(int(listing.side[line])), int(came.verdict[n])
        word = events.verdicts.names[verdict]
        one = Arrived(events.number_of(line), int(came.time[n]), side, port, word, far)
        all_found.append(one)
        if verdict == 0 or (line, one.lane) not in found:
            found[line, one.lane] = one
    for copy in np.flatnonzero(np.isin(events.line, lines)):
        fate, port = FATES[events.fate[copy]], int(events.port[copy])
        what = LATE if counting.late[copy] else fate
        found[int(events.line[copy]), switch_lane(port)].copies.append(
            Copy(what, int(events.time[copy]), port, events.end_of(copy))
        )
    return all_found


def lane_names(counting: Counting, vl: int) -> dict[int, str]:
    """The lanes of a link: of each switch on its ways the arrivals, which have the switch's name,
    then its output ports there."""
    config, lanes = counting.config, {}
    ports = list(config.links[vl].ports)
    if config.several:
        ports = [port for each, port in config.several.ways if each == vl]
    for lane in dict.fromkeys(map(switch_lane, ports)):
        name = config.switch_of(lane)
        lanes[lane] = name
        for port in ports:
            if switch_lane(port) == lane:
                lanes[port] = f"port {port % MOST_PORTS}, {counting.by_port[port].name}"
    return lanes


def lanes_of(track: list[Arrived], names: dict[int, str]) -> dict[tuple[str, int], float]:
    """The height of each lane: of each side those of all switches."""
    lanes: dict[tuple[str, int], float] = {}
    y = 56.0
    for side in sorted({arrived.side for arrived in track}):
        for place, lane in enumerate(names):
            y += (BEFORE if lane == switch_lane(lane) else 0) if place else 0
            lanes[side, lane] = y
            y += APART
        y += SIDE - APART
    return lanes


def arrival_mark(arrived: Arrived, x: float, y: float) -> str:
    """A dot for an accepted frame, its reason's symbol for a dropped one."""
    words = (
        f"line {arrived.line}, {arrived.time:,} ns, side {arrived.side}, "
        f"port {arrived.port % MOST_PORTS}: "
        f"{arrived.verdict}"
    )
    if arrived.verdict == ACCEPT:
        return titled(dot(x, y, 4, "accepted"), words)
    return titled(symbol(x, y, arrived.verdict), words)


def copy_mark(arrived: Arrived, copy: Copy, x: float, y: float) -> str:
    """A bar where a copy left (hollow where it was not delivered), a symbol where it was lost, too
    old or late."""
    words = (
        f"line {arrived.line}: {copy.what} at port {copy.port % MOST_PORTS}, {copy.time:,} ns, "
        f"{copy.time - arrived.time:,} ns after its arrival"
    )
    words += f"; {copy.end}" if copy.end else ""
    if copy.what == LEFT:
        kind = "delivered" if copy.end == DELIVERED else "passed"
        return titled(box(x - 2, y - 6, 4, 12, kind), words)
    return titled(symbol(x, y, copy.what), words)


def track_legend(track: list[Arrived], left: float) -> list[str]:
    """What the marks of a time line mean; only words that come in it."""
    parts = [
        dot(left + 4, 10, 4, "accepted"),
        text(left + 14, 14, "accepted"),
        box(left + 88, 4, 4, 12, "delivered"),
        text(left + 98, 14, "left the port, delivered"),
        box(left + 252, 4, 4, 12, "passed"),
        text(left + 262, 14, "left, not delivered (as a redundant copy)"),
    ]
    come = {arrived.verdict for arrived in track} | {c.what for a in track for c in a.copies}
    x, y = left + 534.0, 10.0
    for word in (*reasons(), LATE):
        if word in come:
            if x + 20 + 7 * len(word) > WIDTH:
                x, y = left + 4.0, y + 18
            parts.append(symbol(x, y, word))
            parts.append(text(x + 12, y + 4, word))
            x += 36 + 7 * len(word)
    return parts


def track_in_words(track: list[Arrived]) -> str:
    """The arrivals of a time line in words."""
    words = []
    for side in sorted({arrived.side for arrived in track}):
        all_mine = [arrived for arrived in track if arrived.side == side]
        mine = [arrived for arrived in all_mine if arrived.far is None]
        verdicts = Counter(arrived.verdict for arrived in mine)
        ends = Counter(c.end if c.what == LEFT else c.what for a in all_mine for c in a.copies)
        counts = [f"{count} {word}" for word, count in verdicts.items()]
        counts += [f"{count} copies {word or 'left'}" for word, count in ends.items()]
        span = f"from {mine[0].time:,} to {mine[-1].time:,} ns"
        words.append(f"Side {side}, {len(mine)} arrivals {span}: {', '.join(counts)}")
    return ". ".join(words)


def one_arrival(
    arrived: Arrived, lanes: dict[tuple[str, int], float], place: Scale
) -> list[str]:
    """An arrival with its copies."""
    x, y = place(arrived.time), lanes[arrived.side, arrived.lane]
    parts = []
    if arrived.far is not None:
        parts.append(line(x, lanes[arrived.side, arrived.far], x, y, "way"))
    for copy in arrived.copies:
        to_x, to_y = place(copy.time), lanes[arrived.side, copy.port]
        parts.append(line(x, y, to_x, to_y, "way"))
        parts.append(copy_mark(arrived, copy, to_x, to_y))
    parts.append(arrival_mark(arrived, x, y))
    return parts


def left_of(names: dict[int, str]) -> float:
    """Where the lanes begin: behind their names, which are longer where they name switches."""
    is_of_several = any(lane == switch_lane(lane) and name for lane, name in names.items())
    return max(150, 20 + 7.2 * max(map(len, names.values()))) if is_of_several else 150


def track(name: str, arrivals: list[Arrived], names: dict[int, str]) -> str:
    """The time line of one link: arrivals, verdicts, departures. `names` are those of its lanes."""
    lanes = lanes_of(arrivals, names)
    begin = arrivals[0].time
    end = max([a.time for a in arrivals] + [copy.time for a in arrivals for copy in a.copies])
    pad = max((end - begin) * 0.02, 500)
    left, right = left_of(names), WIDTH - 20

    def place(time: float) -> float:
        return left + (right - left) * (time - begin + pad) / (end - begin + 2 * pad)

    bottom = max(lanes.values()) + 24
    parts = track_legend(arrivals, left)
    parts += time_axis(begin - pad, end + pad, place, 34, bottom)
    for (side, port), y in lanes.items():
        is_in = port == switch_lane(port)
        arrivals_at = f"{side} {names[port]}" if names[port] else f"side {side}: arrivals"
        lane = arrivals_at if is_in else names[port]
        parts.append(text(left - 12, y + 4, lane, "strong" if is_in else "muted", "end"))
        parts.append(line(left, y, right, y, "rule"))
    for arrived in arrivals:
        parts += one_arrival(arrived, lanes, place)
    unit = unit_for(end - begin + 2 * pad)
    parts.append(text(left, bottom + 34, f"time of the list in {unit}", "muted"))
    return picture(name, bottom + 42, parts, "Time line of one link", track_in_words(arrivals))
