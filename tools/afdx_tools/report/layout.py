"""Where the switches of a network stand in a picture, and how its cables run: Graphviz says it."""
from __future__ import annotations

import math
import shutil
import subprocess
from typing import NamedTuple, Sequence

ENGINE = "neato"
INCH = 72  # points of Graphviz, and units of the picture
PATIENCE = 60  # seconds
NEAR = 0.01  # between points that are one
STEPS = 10  # points on each curve of a cable
HEAD = (
    "graph { graph [overlap=prism, splines=true, sep=\"+26\", esep=\"+9\", "
    "start=1, mode=major]; "
    "node [shape=box, fixedsize=true, label=\"\"]; "
)
Point = tuple[float, float]


class Layout(NamedTuple):
    """The size of a picture, the middle of each box, and of each cable the points on its way from
    the first box that it joins to the second."""

    width: float
    height: float
    boxes: list[Point]
    cables: dict[tuple[int, int], list[Point]]


def is_there() -> bool:
    """Is Graphviz installed?"""
    return shutil.which(ENGINE) is not None


def laid_out(
    sizes: Sequence[tuple[float, float]], cables: Sequence[tuple[int, int]]
) -> Layout | None:
    """A layout of boxes of these widths and heights, and of cables between them; None where
    Graphviz makes none."""
    longest = max((max(size) for size in sizes), default=0) / INCH
    boxes = (
        f"n{n} [width={width / INCH:.3f}, height={height / INCH:.3f}];"
        for n, (width, height) in enumerate(sizes)
    )
    joins = (f"n{one} -- n{two} [len={1.2 * longest + 1:.3f}];" for one, two in cables)
    try:
        run = subprocess.run(
            [ENGINE, "-Tplain"],
            input=HEAD + " ".join([*boxes, *joins]) + "}",
            capture_output=True,
            encoding="ascii",
            timeout=PATIENCE,
            check=False,
        )
        return layout_of(run.stdout, len(sizes)) if run.returncode == 0 else None
    except (OSError, ValueError, LookupError, subprocess.TimeoutExpired):
        return None


def layout_of(text: str, count: int) -> Layout:
    """What Graphviz wrote of so many boxes."""
    width = height = 0.0
    boxes: list[Point] = [(0.0, 0.0)] * count
    cables: dict[tuple[int, int], list[Point]] = {}

    def point(x: str, y: str) -> Point:
        return INCH * float(x), INCH * (height - float(y))

    for line in text.splitlines():
        match line.split():
            case ["graph", _, wide, high]:
                width, height = float(wide), float(high)
            case ["node", name, x, y, *_]:
                boxes[int(name[1:])] = point(x, y)
            case ["edge", tail, head, many, *others]:
                numbers = others[: 2 * int(many)]
                ends = int(tail[1:]), int(head[1:])
                cables[ends] = curve(list(map(point, numbers[::2], numbers[1::2])))
    return Layout(INCH * width, INCH * height, boxes, cables)


def curve(controls: Sequence[Point]) -> list[Point]:
    """Points on a line of Bezier curves, each with four controls, of which the next one has the
    last."""
    found = [controls[0]]
    for begin in range(0, len(controls) - 3, 3):
        four = controls[begin : begin + 4]
        for step in range(1, STEPS + 1):
            t = step / STEPS
            weights = ((1 - t) ** 3, 3 * t * (1 - t) ** 2, 3 * t * t * (1 - t), t**3)
            x, y = (sum(w * p[axis] for w, p in zip(weights, four)) for axis in (0, 1))
            found.append((x, y))
    return found


def halves(points: Sequence[Point]) -> tuple[list[Point], list[Point]]:
    """Both halves of a line by its length, each from its end of the line to the middle."""
    lengths = [math.dist(one, two) for one, two in zip(points, points[1:])]
    left = sum(lengths) / 2
    for n, length in enumerate(lengths):
        if left <= length:
            share = left / length if length else 0.0
            (x1, y1), (x2, y2) = points[n], points[n + 1]
            middle = x1 + share * (x2 - x1), y1 + share * (y2 - y1)
            return to(points[: n + 1], middle), to(points[:n:-1], middle)
        left -= length
    return list(points), [points[-1]]


def to(points: Sequence[Point], end: Point) -> list[Point]:
    """A line on to its end; a last point that is nearly there has no direction to it."""
    near = len(points) > 1 and math.dist(points[-1], end) < NEAR
    return [*(points[:-1] if near else points), end]
