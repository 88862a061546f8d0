"""Arrivals over time by link and side: where frames came, where none did, where too many did."""
from __future__ import annotations

from typing import Sequence

import numpy as np

from afdx_tools.replay.counting import Counting, Steps, steps_of
from afdx_tools.replay.events import side_name
from afdx_tools.replay.silence import LINK, NETWORK, Silence, Silences
from afdx_tools.replay.traffic import NUMBERED, of_kinds
from afdx_tools.report.svg import (
    WIDTH,
    box,
    in_unit,
    line,
    picture,
    text,
    time_axis,
    titled,
    unit_for,
)
from afdx_tools.tables import Row, link_words

MOST_STEPS = 100
MOST_LINKS = 100  # that are drawn; the CSV file has all
WRONG_PORT = "wrong-port"
LEFT, RIGHT, TOP = 170, 120, 104  # where the lanes begin and end, and where the first link stands
EACH, HIGH = 13, 4.6  # a link's lanes, and one of them
FIRST, NEXT = 20, 70  # links of the first picture, and of each after it


def counts_by(counting: Counting, steps: Steps, lines: np.ndarray) -> np.ndarray:
    """For each link and side how many of these frames came in each step."""
    listing, count = counting.listing, 2 * len(counting.vls)
    keys = counting.place[lines].astype(np.int64) * 2 + listing.side[lines]
    keys = keys * steps.count + steps.of(listing.time[lines])
    return np.bincount(keys, minlength=count * steps.count).reshape(count, steps.count)


def spans_of(silences: Silences, vl: int, side: int) -> list[list[int]]:
    """When a link is silent on a side, itself or with its system or network."""
    source = silences.counting.config.links[vl].source
    names = (NETWORK, None), ("system", source), (LINK, vl)
    found: list[Silence] = []
    for name in names:
        found += silences.found.get((*name, side_name(side)), [])
    spans: list[list[int]] = []
    for one in sorted(found, key=lambda one: one.begin):
        if spans and one.begin <= spans[-1][1]:
            spans[-1][1] = max(spans[-1][1], one.end)
        else:
            spans.append([one.begin, one.end])
    return spans


def arrivals_of(counting: Counting, silences: Silences) -> Row:
    """For each link and side that should be heard the arrivals in each step of time; how many of
    them at most a sender may send; the frames that came at a wrong port, and the silences."""
    steps = steps_of(silences.begin, max(silences.end, silences.begin + 1), MOST_STEPS)
    came = counts_by(counting, steps, of_kinds(counting, NUMBERED))
    wrong = counts_by(counting, steps, of_kinds(counting, (WRONG_PORT,)))
    all_lines = counting.arrived
    sides = counting.listing.side[all_lines]
    moments = steps.of(counting.listing.time[all_lines])
    rows = []
    for key in range(2 * len(counting.order)):
        vl, side = counting.vls[key // 2], key % 2
        link = counting.config.links[vl]
        bag = link.bag_ms * 1_000_000
        rows.append(
            {
                "link": vl,
                "system": link.source,
                "side": side_name(side),
                "counts": came[key].tolist(),
                "at_most": (steps.width + link.jitter_ns) // bag + 1,
                "wrong_port": wrong[key].tolist() if wrong[key].any() else [],
                "silent_ns": spans_of(silences, vl, side),
            }
        )
    return {
        "start_ns": steps.start,
        "step_ns": steps.width,
        "end_ns": silences.end,
        "networks": {
            side_name(side): np.bincount(moments[sides == side], minlength=steps.count).tolist()
            for side in (0, 1)
        },
        "links": rows,
    }


# ---- the picture ---------------------------------------------------------------------------------


def busy_steps(row: Row) -> int:
    """In how many steps more frames came than may be sent."""
    counts, most = row["counts"], row["at_most"]
    return sum(count > most for count in counts) if max(counts, default=0) > most else 0


def troubles_of(pair: Sequence[Row]) -> tuple[bool, int]:
    """Is a link silent, and in how many steps too many frames came, or some at wrong ports?"""
    busy = sum(map(busy_steps, pair))
    return any(row["silent_ns"] for row in pair), busy + sum(len(row["wrong_port"]) for row in pair)


def runs(cells: np.ndarray) -> list[tuple[int, int]]:
    """The runs of true cells, each by its first one and the one after its last."""
    none = np.zeros(1, np.int8)
    edges = np.flatnonzero(np.diff(np.concatenate((none, cells, none))))
    return [(int(begin), int(end)) for begin, end in zip(edges[::2], edges[1::2])]


def strokes(spans: Sequence[tuple[float, float]], y: float, kind: str) -> str:
    """Bars of one height, as one path."""
    parts = "".join(f"M{begin:.1f} {y:.1f}H{max(end, begin + 1.2):.1f}" for begin, end in spans)
    return f'<path d="{parts}" class="{kind}"/>' if parts else ""


class Axis:
    """Where a time stands."""

    def __init__(self, arrivals: Row) -> None:
        self.start, self.width = arrivals["start_ns"], arrivals["step_ns"]
        self.end = max(arrivals["end_ns"], self.start + 1)

    def at(self, time: float) -> float:
        """The place of a time."""
        share = (time - self.start) / (self.end - self.start)
        return LEFT + (WIDTH - LEFT - RIGHT) * min(max(share, 0.0), 1.0)

    def cells(self, wanted: np.ndarray) -> list[tuple[float, float]]:
        """The places of these steps."""
        return [
            (self.at(self.start + begin * self.width), self.at(self.start + end * self.width))
            for begin, end in runs(wanted)
        ]


def lane_in_words(row: Row) -> str:
    """A lane in words."""
    words = f"link {link_words(row)} on side {row['side']}: {sum(row['counts']):,} frames"
    if row["silent_ns"]:
        words += f", {len(row['silent_ns'])} silences"
    if busy := busy_steps(row):
        words += f", {busy} steps with more than it may send"
    return words + (f", {sum(row['wrong_port'])} at a wrong port" if row["wrong_port"] else "")


def lane(row: Row, y: float, axis: Axis) -> str:
    """One side of a link: dark where frames came, light where none did though it isn't silent,
    nothing but a broken line where it is silent; high where too many came."""
    counts = np.array(row["counts"])
    silent = [(axis.at(begin), axis.at(end)) for begin, end in row["silent_ns"]]
    shapes = strokes([(axis.at(axis.start), axis.at(axis.end))], y, "lane-none")
    shapes += strokes(axis.cells(counts > 0), y, f"lane-{row['side']}")
    for begin, end in silent:
        shapes += box(begin, y - HIGH / 2, end - begin, HIGH, "lane-gone")
    shapes += strokes(silent, y, "lane-silent")
    shapes += strokes(axis.cells(counts > row["at_most"]), y, "lane-busy")
    if row["wrong_port"]:
        shapes += strokes(axis.cells(np.array(row["wrong_port"]) > 0), y, "lane-wrong")
    return titled(shapes, lane_in_words(row))


def link_lanes(pair: Sequence[Row], y: float, axis: Axis) -> str:
    """Both sides of a link, its name before them, its sums after them."""
    is_silent, others = troubles_of(pair)
    sums = " / ".join(f"{sum(row['counts']):,}" for row in pair)
    words = [word for word, wrong in (("silent", is_silent), ("!", others)) if wrong]
    parts = text(0, y + 4, f"VL {pair[0]['link']}", "lane-name")
    parts += text(62, y + 4, pair[0]["system"], "lane-name muted")
    parts += lane(pair[0], y - 2.6, axis) + lane(pair[1], y + 2.6, axis)
    kind = "lane-name bad" if words else "lane-name muted"
    return parts + text(WIDTH - RIGHT + 8, y + 4, " ".join([sums, *words]), kind)


def network_lanes(arrivals: Row, axis: Axis) -> list[str]:
    """All that came in on each side, A above the line and B below it."""
    most = max(max(series, default=0) for series in arrivals["networks"].values()) or 1
    base, parts = 62, []
    for side, height in (("A", 26.0), ("B", -26.0)):
        series, points = arrivals["networks"][side], [f"M{LEFT} {base}"]
        for step, count in enumerate(series):
            y = base - height * count / most
            begin, end = (axis.start + (step + n) * axis.width for n in (0, 1))
            points.append(f"L{axis.at(begin):.1f} {y:.1f}L{axis.at(end):.1f} {y:.1f}")
        shape = f'<path d="{"".join(points)}V{base}z" class="side-{side}"/>'
        parts.append(titled(shape, f"network {side}: {sum(series):,} frames"))
        y = base - height / 2 + 4
        parts.append(text(0, y, f"network {side}, all links", "strong"))
        parts.append(text(WIDTH - RIGHT + 8, y, f"{sum(series):,}", "muted"))
    return [*parts, line(LEFT, base, WIDTH - RIGHT, base, "axis")]


def legend() -> str:
    """What the marks mean."""
    marks = (("lane-A", "A"), ("lane-B", "B"), ("lane-none", "none, not yet silent"),
             ("lane-silent", "silent"), ("lane-busy", "more than it may send"),
             ("lane-wrong", "at a wrong port"))  # fmt: skip
    x, parts = float(LEFT), ""
    for kind, words in marks:
        parts += strokes([(x, x + 22)], 12, kind) + text(x + 28, 16, words)
        x += 48 + 7.2 * len(words)
    return parts


def lanes(arrivals: Row) -> str:
    """Both networks, then the links, those with trouble first. On paper a picture isn't cut, so
    there is one for some links at a time."""
    rows = arrivals["links"]
    pairs = sorted(
        (rows[at : at + 2] for at in range(0, len(rows), 2)),
        key=lambda pair: (not any(troubles_of(pair)), pair[0]["link"]),
    )
    shown, axis = pairs[:MOST_LINKS], Axis(arrivals)
    unit = unit_for(axis.end - axis.start)
    note = f"time of the list in {unit}, in steps of {in_unit(axis.width, unit)} {unit}"
    if len(shown) < len(pairs):
        note += f"; {len(shown)} of {len(pairs):,} links, arrivals.csv has all"
    networks = arrivals["networks"]
    words = [f"Network {side}: {sum(networks[side]):,} frames" for side in "AB"]
    head = [legend(), *network_lanes(arrivals, axis)]
    drawn = [lanes_part(0, head, words, shown[:FIRST], TOP, axis, note)]
    for at in range(FIRST, len(shown), NEXT):
        drawn.append(lanes_part(at, [], [], shown[at : at + NEXT], EACH, axis, note))
    return "".join(drawn)


def lanes_part(
    number: int, head: list[str], words: list[str], pairs: Sequence, top: int, axis: Axis, note: str
) -> str:
    """Some of the links, from `top` on, with an axis of their own."""
    bottom = top + EACH * len(pairs)
    parts = [*time_axis(axis.start, axis.end, axis.at, 30 if head else 0, bottom), *head]
    parts += [link_lanes(pair, top + EACH * at, axis) for at, pair in enumerate(pairs)]
    parts.append(text(LEFT, bottom + 34, note, "muted"))
    description = ". ".join(words + [lane_in_words(row) for pair in pairs for row in pair])
    return picture(f"lanes-{number}", bottom + 42, parts, "Arrivals over time by link", description)
