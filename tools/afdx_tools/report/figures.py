"""The pictures of a report: latencies, their histogram, drops and loads over time."""
from __future__ import annotations

import math
from typing import Callable, Sequence

from afdx_tools.report.ranking import at_system, port_of
from afdx_tools.report.svg import (
    LATE,
    WIDTH,
    Scale,
    box,
    decade_ticks,
    diamond,
    dot,
    in_unit,
    in_us,
    line,
    picture,
    reasons,
    symbol,
    text,
    time_axis,
    titled,
    unit_for,
)
from afdx_tools.tables import Row, link_words, percent

# ---- latencies -----------------------------------------------------------------------------

LEFT, RIGHT, ROW = 250, 176, 30
FIRST, NEXT = 20, 35  # rows of the first picture, and of each after it
ON_PAPER = 3  # of these pictures; a screen has them all


def latency_in_words(row: Row) -> str:
    """A row of latencies in words."""
    bound = "no bound" if row["bound_ns"] is None else f"bound {row['bound_ns']:,} ns"
    return (
        f"link {link_words(row)} {at_system(row)}, side {row['side']}, "
        f"{row['frames']:,} copies: {row['least_ns']:,} to {row['greatest_ns']:,} ns, median "
        f"{row['median_ns']:,}, 99 percent within {row['p99_ns']:,} ns; {bound}, configured "
        f"{row['configured_ns']:,} ns; {percent(row['share'])} of the configured"
        + (f"; {row['late']:,} late" if row["late"] else "")
    )


def side_bar(row: Row, y: float, place: Scale) -> str:
    """One side's copies: least to greatest as a bar, median and 99 percent marked; what is over the
    configured latency is thicker."""
    least, greatest = place(row["least_ns"]), place(row["greatest_ns"])
    shapes = box(least, y - 3.5, max(greatest - least, 2), 7, "replayed")
    shapes += line(place(row["p99_ns"]), y - 3.5, place(row["p99_ns"]), y + 3.5, "nearly")
    shapes += dot(place(row["median_ns"]), y, 2.8, "median")
    if row["late"]:
        over = place(max(row["configured_ns"], row["least_ns"]))
        shapes += box(over - 1, y - 5, max(greatest - over, 0) + 6, 10, "late")
    return titled(shapes, latency_in_words(row)) + text(LEFT - 10, y + 3.5, row["side"], "small")


def latency_row(pair: Sequence[Row], y: float, place: Scale) -> list[str]:
    """One link at one port: both sides, bound and configured latency, the margin between."""
    row = max(pair, key=lambda one: one["share"])
    is_late = any(one["late"] for one in pair)
    above = y - 2 if is_late else y + 4
    parts = [
        text(0, above, f"VL {row['link']}", "strong"),
        text(70, above, f"{row['from']} to {row['system']}"),
        text(LEFT - 20, y + 4, row["priority"], "muted", "end"),
        line(LEFT, y, WIDTH - RIGHT, y, "rule"),
    ]
    x = place(row["configured_ns"])
    if row["bound_ns"] is not None:
        at = place(row["bound_ns"])
        kind = "margin" if row["margin_ns"] >= 0 else "short"
        description = f"margin from bound to configured: {row['margin_ns']:,} ns"
        parts.append(titled(line(at, y, x, y, kind), description))
        parts.append(line(at, y - 10, at, y + 10, "bound"))
    parts += [side_bar(one, y - 6 if one["side"] == "A" else y + 6, place) for one in pair]
    parts.append(diamond(x, y))
    share = f"{percent(row['share'])} of configured"
    if is_late:
        parts.append(text(0, y + 12, f"LATE, {percent(row['share'])}", "bad"))
        parts.append(symbol(WIDTH - RIGHT + 17, y, LATE))
        parts.append(text(WIDTH - RIGHT + 28, y + 4, f"LATE, {percent(row['share'])}", "bad"))
    else:
        parts.append(text(WIDTH - RIGHT + 12, y + 4, share, "muted"))
    return parts


def latency_legend(bound: str) -> list[str]:
    """What the marks mean; `bound` names that of the bounds."""
    y = 12
    return [
        box(LEFT, y - 3.5, 44, 7, "replayed"),
        dot(LEFT + 14, y, 2.8, "median"),
        line(LEFT + 36, y - 3.5, LEFT + 36, y + 3.5, "nearly"),
        text(LEFT + 51, y + 4, "least, median, 99 %, greatest"),
        line(LEFT + 251, y - 8, LEFT + 251, y + 8, "bound"),
        text(LEFT + 260, y + 4, bound),
        line(LEFT + 366, y, LEFT + 394, y, "margin"),
        text(LEFT + 400, y + 4, "margin"),
        diamond(LEFT + 462, y),
        text(LEFT + 474, y + 4, "configured latency"),
        box(LEFT + 606, y - 5, 24, 10, "late"),
        text(LEFT + 636, y + 4, "over it"),
    ]


def latencies(pairs: Sequence[Sequence[Row]], bound: str, where: str = "in the replay") -> str:
    """Latency against bound and configured latency: a row for each link at a port. On paper a
    picture isn't cut, so the first one leaves room for what stands above it."""
    keys = ("least_ns", "bound_ns", "configured_ns", "greatest_ns")
    values = [row[key] for pair in pairs for row in pair for key in keys if (row[key] or 0) > 0]
    low, high = min(values) * 0.8, max(values) * 1.15
    span = math.log(high / low)

    def place(ns: float) -> float:
        return LEFT + (WIDTH - LEFT - RIGHT) * math.log(max(ns, low) / low) / span

    ticks = decade_ticks(low, high)
    shown = [pairs[:FIRST]] + [pairs[n : n + NEXT] for n in range(FIRST, len(pairs), NEXT)]
    label = f"Latency {where} of each link beside its bound and its configured latency"
    drawn = [latency_part(part, n, ticks, place, (bound, label)) for n, part in enumerate(shown)]
    return "".join(drawn)


def latency_part(
    pairs: Sequence[Sequence[Row]],
    number: int,
    ticks: Sequence[float],
    place: Scale,
    names: tuple[str, str],
) -> str:
    """Some of the rows, with an axis of their own."""
    bottom = 40 + ROW * len(pairs)
    bound, label = names
    parts = latency_legend(bound)
    for tick in ticks:
        parts.append(line(place(tick), 34, place(tick), bottom, "grid"))
        parts.append(text(place(tick), bottom + 16, in_us(tick), "muted", "middle"))
    parts.append(text(WIDTH - RIGHT + 12, bottom + 16, "us, logarithmic", "muted"))
    for place_of, pair in enumerate(pairs):
        parts += latency_row(pair, 54 + ROW * place_of, place)
    description = ". ".join(latency_in_words(row) for pair in pairs for row in pair)
    kind = "shown" if number < ON_PAPER else "screen"
    return picture(f"latencies-{number + 1}", bottom + 24, parts, label, description, kind)


# ---- histogram -----------------------------------------------------------------------------


def steps_in_words(counts: Sequence[int]) -> str:
    """The counts of a histogram in words."""
    words = [
        f"{5 * step} to {5 * step + 5} percent: {count:,}"
        for step, count in enumerate(counts[:20])
        if count
    ]
    return ", ".join(words + ([f"over 100 percent: {counts[20]:,}"] if counts[20] else []))


def histogram(counts: dict[str, Sequence[int]]) -> str:
    """For both sides the copies by share of the configured latency."""
    most = max(max(series) for series in counts.values())
    top, bottom, left, right = 30, 190, 84, WIDTH - 30
    decades = max(math.ceil(math.log10(most)), 1) if most else 1
    width = (right - left) / 21

    def place(count: float) -> float:
        return bottom - (bottom - top - 14) * (math.log10(count) + 0.35) / (decades + 0.35)

    parts = [box(left, 4, 10, 10, "side-A"), text(left + 16, 14, "side A, left")]
    parts += [box(left + 114, 4, 10, 10, "side-B"), text(left + 130, 14, "side B, right")]
    for power in range(decades + 1):
        parts.append(line(left, place(10**power), right, place(10**power), "grid"))
        parts.append(text(left - 8, place(10**power) + 4, f"{10**power:,}", "muted", "end"))
    for step in range(21):
        x = left + width * step
        name = f"{5 * step}" if step < 20 else "over 100 %"
        parts.append(
            text(x + (0 if step < 20 else width / 2), bottom + 16, name, "muted", "middle")
        )
        for place_of, side in enumerate("AB"):
            count = counts[side][step]
            if count:
                y = place(count)
                kind = "late" if step == 20 else f"side-{side}"
                shape = box(x + 4 + place_of * 19, y, 16, bottom - y, kind)
                parts.append(titled(shape, f"side {side}: {count:,}"))
    parts.append(line(left, bottom, right, bottom, "axis"))
    note = "share of the link's configured latency in %, steps of 5; number of copies, logarithmic"
    parts.append(text(left, bottom + 36, note, "muted"))
    words = ". ".join(f"Side {side}: {steps_in_words(counts[side])}" for side in "AB")
    return picture("shares", bottom + 44, parts, "Copies by share of the configured latency", words)


# ---- drops over time -----------------------------------------------------------------------

LANE, NAME = 34, 176


def bars(
    series: Sequence[int],
    most: int,
    base: float,
    place_x: Scale,
    describe: Callable[[int, int], str],
) -> list[str]:
    """One lane's bars."""
    parts = []
    for step, count in enumerate(series):
        if count:
            x1, x2, height = place_x(step), place_x(step + 1), 24 * count / most
            shape = box(
                x1 + 0.4, base - max(height, 2), max(x2 - x1 - 0.8, 1.2), max(height, 2), "drop"
            )
            parts.append(titled(shape, describe(step, count)))
    return parts


def drops(found: Row) -> str:
    """Drops over time, a lane for each reason."""
    present = [word for word in reasons() if word in found["reasons"]]
    present += [word for word in found["reasons"] if word not in present]
    if not present:
        return '<p class="muted">No frame was dropped.</p>'
    start, width = found["start_ns"], found["step_ns"]
    steps = max(len(found["reasons"][present[0]]), 8)
    left, right, bottom = NAME, WIDTH - 90, 10 + LANE * len(present)
    unit = unit_for(steps * width)

    def place_x(step: float) -> float:
        return left + (right - left) * step / steps

    def describe(step: int, count: int) -> str:
        return f"{count:,} from {in_unit(start + step * width, unit)} {unit} on"

    parts = time_axis(
        start, start + steps * width, lambda tick: place_x((tick - start) / width), 4, bottom
    )
    words = []
    for number, word in enumerate(present):
        series, base = found["reasons"][word], LANE * (number + 1)
        most = max(series)
        at = describe(list(series).index(most), most)
        words.append(f"{word}: {sum(series):,} in all, most {at}")
        parts.append(symbol(10, base - 7, word))
        parts.append(text(24, base - 3, word, "strong"))
        parts.append(text(left - 12, base - 3, f"{sum(series):,}", "", "end"))
        parts.append(line(left, base, right, base, "axis"))
        parts += bars(series, most, base, place_x, describe)
        parts.append(text(right + 8, base - 3, f"most {most:,}", "muted"))
    size = f"{in_unit(width, unit)} {unit}"
    note = f"time of the list in {unit}; a bar is {size} wide, each lane as high as its most"
    parts.append(text(left, bottom + 34, note, "muted"))
    return picture("drops", bottom + 42, parts, "Drops by reason over time", ". ".join(words))


# ---- loads over time -----------------------------------------------------------------------


def area(
    loads: Sequence[float], most: float, base: float, height: float, place_x: Scale
) -> str:
    """Loads as a filled line above the base (or below, where the height is negative)."""
    edges = [f"{place_x(step):.1f}" for step in range(len(loads) + 1)]
    heights = [f"{base - height * load / most:.1f}" for load in loads]
    points = [f"{x1} {y}L{x2} {y}" for x1, x2, y in zip(edges, edges[1:], heights)]
    return "L".join([f"M{edges[0]} {base:.1f}", *points, f"{edges[-1]} {base:.1f}z"])


def loads(found: Row, rows: Sequence[Row]) -> str:
    """The load of each port over time; a picture for each switch, where there are several."""
    of_switch: dict[str, list[Row]] = {}
    for port in found["ports"]:
        of_switch.setdefault(port.get("switch", ""), []).append(port)
    most = max(max((max(port["loads"], default=0) for port in found["ports"]), default=0), 1e-6)
    of_row: dict[tuple, Row] = {(*place_of_port(row), row["side"]): row for row in rows}
    return "".join(
        loads_part(found, ports, of_row, most, f"loads{name and '-'}{name}", n)
        for n, (name, ports) in enumerate(of_switch.items())
    )


def place_of_port(row: Row) -> tuple[str, int]:
    """The switch and the port of a row."""
    return row.get("switch", ""), row["port"]


def loads_part(
    found: Row, ports: Sequence[Row], rows: dict[tuple, Row], most: float, name: str, number: int
) -> str:
    """The loads of some ports, A above each one's line and B below."""
    steps = max(len(port["loads"]) for port in ports)
    pairs: dict[tuple[str, int], list[Row]] = {}
    for port in ports:
        pairs.setdefault(place_of_port(port), []).append(port)
    names = [f"{port_of(pair[0])}, {pair[0]['system']}" for pair in pairs.values()]
    longest = max(map(len, names)) if "switch" in ports[0] else 0
    left, right, bottom = max(NAME, 20 + 7 * longest), WIDTH - 190, 12 + 40 * len(pairs)
    start, width = found["start_ns"], found["step_ns"]

    def place_x(step: float) -> float:
        return left + (right - left) * step / steps

    parts = time_axis(
        start, start + steps * width, lambda tick: place_x((tick - start) / width), 4, bottom
    )
    words: list[str] = []
    for place, pair in enumerate(pairs.values()):
        base = 26 + 40 * place
        parts.append(text(left - 12, base + 4, names[place], "", "end"))
        for one in pair:
            row = rows[(*place_of_port(one), one["side"])]
            parts += port_load(one, row, most, base, place_x, right)
            words.append(load_in_words(row))
        parts.append(line(left, base, right, base, "axis"))
    unit = unit_for(steps * width)
    note = (
        f"time of the list in {unit}, in steps of {in_unit(width, unit)} {unit}; A above the line, "
        f"B below; the full height is {percent(most)} of the line's rate"
    )
    parts.append(text(left, bottom + 34, note, "muted"))
    kind = "shown" if number < ON_PAPER else "screen"
    label = "Load of each port over time"
    return picture(name, bottom + 42, parts, label, ". ".join(words), kind)


def load_in_words(row: Row) -> str:
    """A port's load in words."""
    shares = f"{percent(row['load'])}, at most {percent(row['peak_load'])}"
    return f"{port_of(row)}, side {row['side']}: {shares}"


def port_load(
    port: Row, row: Row, most: float, base: float, place_x: Scale, right: float
) -> list[str]:
    """The load of a port on one side, as an area and in words."""
    is_a = port["side"] == "A"
    way = area(port["loads"], most, base, 17 if is_a else -17, place_x)
    shape = f'<path d="{way}" class="side-{port["side"]}"/>'
    short = f"{port['side']} {percent(row['load'])}, most {percent(row['peak_load'])}"
    return [
        titled(shape, load_in_words(row)),
        text(right + 10, base + (-3 if is_a else 11), short, "muted"),
    ]
