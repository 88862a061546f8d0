"""What the pictures of a report are made of: shapes, symbols, axes, as SVG by hand."""
from __future__ import annotations

import math
from html import escape
from typing import Callable, Sequence

from afdx_tools.known import drops
from afdx_tools.replay.events import LOST, OLD

Scale = Callable[[float], float]  # where an amount stands in a picture

WIDTH = 1000
LATE = "late"
# shapes, about ten units wide, with their middle at the pen's place: one for each verdict, in their
# order; a further one has the cross
CROSS = "m-4-4l8 8m0-8l-8 8"
SHAPES = (
    "m-4 0h8",
    "m0-6v12",
    CROSS,
    "m-5 0h10m-5-5v10",
    "m-4-4h8v8h-8z",
    "m0-5l5 5l-5 5l-5-5z",
    "m-5 4l5-9l5 9z",
    "m-5-4l5 9l5-9z",
    "m-4-4l4 4l-4 4m4-8l4 4l-4 4",
)
SYMBOLS = {
    LOST: "m-4-4h8v8h-8zm0 0l8 8m0-8l-8 8",
    OLD: "m-4-5h8l-8 10h8z",
    LATE: "m-5-3h6l4 3l-4 3h-6z",
}


def reasons() -> tuple[str, ...]:
    """Why a frame or its copy is lost: what a switch says, then what comes at its ports."""
    return (*drops(), LOST, OLD)


def text(x: float, y: float, words: str, kind: str = "", anchor: str = "start") -> str:
    """A text whose base line begins, has its middle or ends at x, y."""
    return (
        f'<text x="{x:.1f}" y="{y:.1f}" class="{kind}" text-anchor="{anchor}">'
        f"{escape(words)}</text>"
    )


def line(x1: float, y1: float, x2: float, y2: float, kind: str) -> str:
    """A straight line."""
    return f'<line x1="{x1:.1f}" y1="{y1:.1f}" x2="{x2:.1f}" y2="{y2:.1f}" class="{kind}"/>'


def box(x: float, y: float, width: float, height: float, kind: str) -> str:
    """A rectangle."""
    return (
        f'<rect x="{x:.1f}" y="{y:.1f}" width="{width:.1f}" height="{height:.1f}" class="{kind}"/>'
    )


def dot(x: float, y: float, size: float, kind: str) -> str:
    """A circle."""
    return f'<circle cx="{x:.1f}" cy="{y:.1f}" r="{size}" class="{kind}"/>'


def symbol(x: float, y: float, word: str) -> str:
    """The symbol of a reason."""
    shape = {**dict(zip(drops(), SHAPES)), **SYMBOLS}.get(word, CROSS)
    return f'<path d="M{x:.1f} {y:.1f}{shape}" class="reason"/>'


def diamond(x: float, y: float) -> str:
    """The mark of a configured latency."""
    return f'<path d="M{x:.1f} {y - 5:.1f}l5 5l-5 5l-5-5z" class="configured"/>'


def titled(shape: str, words: str) -> str:
    """A shape that tells words where the pointer rests on it."""
    return f"<g><title>{escape(words)}</title>{shape}</g>"


def picture(
    name: str,
    height: float,
    parts: Sequence[str],
    label: str,
    description: str,
    kind: str = "shown",
) -> str:
    """The parts as one picture, with a label and its numbers for those who can't see it; of the
    kind `screen` it isn't on paper."""
    return (
        f'<svg viewBox="0 0 {WIDTH} {height:.0f}" class="{kind}" role="img" '
        f'aria-labelledby="{name}-label {name}-numbers">'
        f'<title id="{name}-label">{escape(label)}</title>'
        f'<desc id="{name}-numbers">{escape(description)}</desc>' + "".join(parts) + "</svg>"
    )


def in_us(ns: float) -> str:
    """A time in us, as a person writes it."""
    us = ns / 1000
    return f"{us:,.0f}" if us >= 1000 or us == int(us) else f"{us:,.1f}"


def in_unit(ns: float, unit: str) -> str:
    """A time as a label of an axis."""
    size = {"ns": 1, "us": 1e3, "ms": 1e6, "s": 1e9}[unit]
    return f"{ns / size:,.10g}"


def unit_for(span: float) -> str:
    """The unit in which a span of ns is read best."""
    for unit, size in (("s", 1e10), ("ms", 1e6), ("us", 1e3)):
        if span >= size:
            return unit
    return "ns"


def even_ticks(low: float, high: float, wanted: int = 8) -> list[float]:
    """Round numbers from low to high, about as many as wanted."""
    span = max(high - low, 1)
    raw = span / wanted
    power = 10 ** math.floor(math.log10(raw))
    step = next(power * m for m in (1, 2, 5, 10) if power * m >= raw)
    first = math.ceil(low / step)
    return [n * step for n in range(first, math.floor(high / step) + 1)]


def decade_ticks(low: float, high: float) -> list[float]:
    """1, 2 and 5 times the powers of ten from low to high; powers alone where these are many."""
    powers = range(math.floor(math.log10(low)), math.ceil(math.log10(high)) + 1)
    digits = (1, 2, 5) if len(powers) <= 5 else (1,)
    return [m * 10**p for p in powers for m in digits if low <= m * 10**p <= high]


def time_axis(begin: float, end: float, place: Scale, top: float, bottom: float) -> list[str]:
    """Ticks of the list's time, with lines from `top` on, and what unit they have."""
    unit = unit_for(end - begin)
    parts = []
    for tick in even_ticks(begin, end, 10):
        if tick >= 0:
            parts.append(line(place(tick), top, place(tick), bottom, "grid"))
            parts.append(text(place(tick), bottom + 16, in_unit(tick, unit), "muted", "middle"))
    return parts
