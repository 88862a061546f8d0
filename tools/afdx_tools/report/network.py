"""The picture of a network of several switches: switches with their systems, and the cables between
them. Each line has two halves, one for each direction, coloured by its load."""
from __future__ import annotations

import math
from typing import Collection, Mapping, NamedTuple, Sequence

from afdx_tools.config import MOST_PORTS, Cable, Config, System
from afdx_tools.report.layout import Layout, Point, halves, laid_out
from afdx_tools.report.svg import box, line, text, titled
from afdx_tools.tables import Row, percent

TITLE, EACH, LETTER, STUB = 24, 16, 7.4, 40  # heights of a box's parts, widths of its cells
COLUMN = 7  # systems of a column, if there are fewer than three columns
MARGIN, TOP = 14, 72  # around the picture, and above it for the legend
HEAD = 7  # of an arrow
# the greatest share of each step, and how wide its lines are
STEPS = ((0.0, 1.4), (0.05, 1.8), (0.15, 2.4), (0.30, 3.2), (0.50, 4.2), (0.75, 5.2), (1.0, 6.4))
MOST_NAMED = 8


class Lines(NamedTuple):
    """What is known of the lines: the loads by port and direction (True: into the switch), the
    ports of the links whose trees are shown, and what was late or lost at an output port."""

    loads: dict[tuple[int, bool], float]
    rows: dict[tuple[int, bool], Row]
    tree: Collection[tuple[int, bool]]
    wrong: Mapping[int, str]

    def kind(self, key: tuple[int, bool]) -> str:
        """The style of a line."""
        if not key[1] and key[0] in self.wrong:
            return "wrong"
        load = self.loads[key]
        step = next((n for n, (most, _) in enumerate(STEPS) if load <= most), len(STEPS))
        return f"load-{step}" + ("" if not self.tree or key in self.tree else " aside")

    def words(self, key: tuple[int, bool]) -> str:
        """A line in words."""
        row = self.rows[key]
        wrong = "" if key[1] or key[0] not in self.wrong else f"; {self.wrong[key[0]]}"
        return (
            f"{row['from']} to {row['to']} ({row['switch']} port {row['port']}, {row['rate']} "
            f"Mbit/s): {percent(self.loads[key])}; {row['links']} links{wrong}"
        )


def lines_of(
    config: Config, rows: Sequence[Row], wrong: Mapping[int, str], vls: Sequence[int]
) -> Lines:
    """The lines with their loads, and with what was wrong."""
    switches = {name: place for place, name in enumerate(config.names)}
    loads, by_key = {}, {}
    for row in rows:
        key = MOST_PORTS * switches[row["switch"]] + row["port"], row["to"] == row["switch"]
        loads[key], by_key[key] = row["load"], row
    return Lines(loads, by_key, tree_of(config, vls), wrong)


def tree_of(config: Config, vls: Sequence[int]) -> set[tuple[int, bool]]:
    """The lines on which frames of these links come to their receivers."""
    ways = config.several.ways if config.several else {}
    chosen = [vl for vl in vls if vl in config.links]
    tree = {(port, False) for vl, port in ways if vl in chosen}
    return tree | {(config.links[vl].port, True) for vl in chosen}


# ---- switches ------------------------------------------------------------------------------------


class Box:
    """A switch: its name above its systems, which stand in columns."""

    def __init__(self, config: Config, place: int) -> None:
        self.name = config.names[place]
        ends = config.by_port()
        ports = [port for port in sorted(ends) if port // MOST_PORTS == place]
        self.systems = [end for port in ports if isinstance(end := ends[port], System)]
        self.columns = min(max(-(-len(self.systems) // COLUMN), 1), 3)
        self.rows = -(-len(self.systems) // self.columns)
        longest = max((len(system.name) for system in self.systems), default=0)
        self.cell = STUB + LETTER * longest + 14
        title = 9.0 * len(self.name) + 24
        self.width = max(self.columns * self.cell if self.systems else 0, title, 84) + 8
        self.height = TITLE + EACH * self.rows + (8 if self.systems else 4)

    def drawn(self, middle: Point, lines: Lines) -> list[str]:
        """The box with its middle there."""
        left, top = middle[0] - self.width / 2, middle[1] - self.height / 2
        parts = [
            box(left, top, self.width, self.height, "switch"),
            text(middle[0], top + 17, self.name, "strong", "middle"),
        ]
        for n, system in enumerate(self.systems):
            x = left + 4 + self.cell * (n // self.rows)
            y = top + TITLE + EACH * (n % self.rows) + EACH / 2
            parts += stub(system, x, y, lines)
        return parts


def stub(system: System, x: float, y: float, lines: Lines) -> list[str]:
    """A system with its line: the half near the box's edge is what the switch sends to it, the half
    at its name what it sends."""
    out, into = (system.port, False), (system.port, True)
    half = (STUB - 12) / 2
    is_aside = lines.tree and not {out, into} & set(lines.tree)
    return [
        titled(line(x + 6, y, x + 6 + half, y, lines.kind(out)), lines.words(out)),
        titled(line(x + 8 + half, y, x + 8 + 2 * half, y, lines.kind(into)), lines.words(into)),
        text(x + STUB, y + 4, system.name, "aside" if is_aside else ""),
    ]


# ---- cables --------------------------------------------------------------------------------------


def way_of(points: Sequence[Point]) -> str:
    """A line through points."""
    return "M" + "L".join(f"{x:.1f} {y:.1f}" for x, y in points)


def arrow(points: Sequence[Point], kind: str) -> str:
    """A line with a head at its end."""
    (x, y), before = points[-1], points[-2] if len(points) > 1 else points[-1]
    angle = math.atan2(y - before[1], x - before[0])
    sides = [
        (x - HEAD * math.cos(angle + turn), y - HEAD * math.sin(angle + turn))
        for turn in (0.45, -0.45)
    ]
    (ax, ay), (bx, by) = sides
    head = f"M{ax:.1f} {ay:.1f}L{x:.1f} {y:.1f}L{bx:.1f} {by:.1f}"
    return f'<path d="{way_of(points)}{head}" class="cable {kind}"/>'


def cable_parts(cable: Cable, points: Sequence[Point], lines: Lines) -> list[str]:
    """A cable: from each of its ends to its middle the load that goes out there."""
    parts = []
    for port, half in zip((cable.port, cable.far), halves(points)):
        key = (port, False)
        kind = lines.kind(key)
        if key in lines.tree:
            parts.append(f'<path d="{way_of(half)}" class="tree"/>')
        is_idle = kind.startswith("load-0")
        shape = f'<path d="{way_of(half)}" class="cable idle"/>' if is_idle else arrow(half, kind)
        parts.append(titled(shape, lines.words(key)))
    return parts


# ---- the picture ---------------------------------------------------------------------------------


def legend(vls: Sequence[int]) -> list[str]:
    """What the colours mean."""
    x, parts = float(MARGIN), []
    steps = ["none", *(f"to {100 * most:.0f} %" for most, _ in STEPS[1:]), "more"]
    for n, name in enumerate(steps):
        parts += [line(x, 16, x + 26, 16, f"load-{n}"), text(x + 32, 20, name, "muted")]
        x += 46 + 6.6 * len(name)
    note = "late or lost; each half of a line is what goes out at its end, at a name what it sends"
    parts += [line(MARGIN, 36, MARGIN + 26, 36, "wrong"), text(MARGIN + 32, 40, note, "muted")]
    if vls:
        names = ", ".join(map(str, vls))
        note = f"shaded: the way of link {names}; lines that it doesn't take are pale"
        parts.append(text(MARGIN, 58, note, "strong"))
    return parts


def in_words(lines: Lines) -> str:
    """The lines with the greatest loads."""
    order = sorted(lines.loads, key=lambda key: (lines.kind(key) != "wrong", -lines.loads[key]))
    return ". ".join(lines.words(key) for key in order[:MOST_NAMED])


class Map:
    """The layout of a network; there is none where Graphviz makes none."""

    def __init__(self, config: Config) -> None:
        self.config = config
        self.boxes = [Box(config, place) for place in range(len(config.names))]
        self.cables = {
            (cable.port // MOST_PORTS, cable.far // MOST_PORTS): cable
            for cable in config.cables.values()
            if cable.port < cable.far
        }
        sizes = [(each.width, each.height) for each in self.boxes]
        self.layout: Layout | None = laid_out(sizes, list(self.cables))

    def picture(
        self, name: str, rows: Sequence[Row], wrong: Mapping[int, str], vls: Sequence[int]
    ) -> str:
        """The network with its loads, and with what was wrong; nothing where there is no layout."""
        if self.layout is None:
            return ""
        lines = lines_of(self.config, rows, wrong, vls)
        shown = [vl for vl in dict.fromkeys(vls) if vl in self.config.links]
        drawn: list[str] = []
        for ends, cable in self.cables.items():
            drawn += cable_parts(cable, self.layout.cables[ends], lines)
        for each, middle in zip(self.boxes, self.layout.boxes):
            drawn += each.drawn(middle, lines)
        width = max(self.layout.width + 2 * MARGIN, 720)
        height = self.layout.height + TOP + MARGIN
        moved = f'<g transform="translate({MARGIN} {TOP})">{"".join(drawn)}</g>'
        return (
            f'<svg viewBox="0 0 {width:.0f} {height:.0f}" class="map" role="img" '
            f'style="--most:{width:.0f}px;--least:{0.75 * width:.0f}px" '
            f'aria-labelledby="{name}-label {name}-numbers"><title id="{name}-label">'
            f'Load of the lines of the network</title><desc id="{name}-numbers">'
            f"{in_words(lines)}</desc>" + "".join(legend(shown)) + moved + "</svg>"
        )
