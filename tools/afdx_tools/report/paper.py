"""What of a report's tables stands on paper, and in how many columns. With the pictures that is at
most twenty sheets, as long as what is wrong finds room there: it stands there in any case."""
from __future__ import annotations

import heapq
from typing import Collection, Mapping, NamedTuple, Sequence

from afdx_tools.report.parts import are_over, heads_of, most_shown, share_of, words_in
from afdx_tools.tables import Row, by_column, heads, kinds_of

# Pixels of the style sheet, 96 an inch, at its 7 pt, of a wide font: a sheet has 281 mm for tables
WIDE, LETTER, APART, GAP = 1_060, 6.0, 5, 16
MARK = 2  # letters before the head of a row in which something is over
BROKEN = 18  # letters of a column whose words are broken
MOST_COLUMNS = 3
LINES = 50  # rows of a column
HEAD = 6  # as many rows are as high as what stands above and below a table
ROOM = 11 * LINES  # rows of all tables, beside one another where there are columns
SMALL = 40  # rows beside one another of a table that no sheet ends in
LEAST_TOP = 20  # rows of a table that stand there in any case: the nearest to their latency
LOOKED_AT = 2_000  # rows that say how wide a table is
NO_CSV = ("taps", "early-frames", "only-here", "only-there")  # tables that report.json has alone


class Paper(NamedTuple):
    """What of a table stands on paper: the places of its rows, in how many columns, and whether it
    is wider than a sheet, so that words of its cells are broken."""

    places: Collection[int]
    columns: int = 1
    is_broken: bool = False

    @property
    def lines(self) -> int:
        """How high it is, in rows."""
        return -(-len(self.places) // self.columns) + HEAD if self.places else HEAD

    @property
    def styles(self) -> str:
        """Its classes in the style sheet."""
        words = [f"columns-{self.columns}"] if self.columns > 1 else []
        words += ["broken"] * self.is_broken
        return " ".join(words + ["small"] * (self.lines <= SMALL))


def wrong_ones(rows: Sequence[Row]) -> set[int]:
    """The places of the rows that aren't as they should be, or that are about frames that were
    dropped and the like."""
    if {"reason", "what"} & set(heads(rows)):
        return {*range(len(rows))}
    return {place for place, is_over in enumerate(are_over(rows)) if is_over}


def width_of(rows: Sequence[Row]) -> float:
    """How wide a table of these rows is."""
    width = LETTER * MARK
    for name, values in by_column(rows[:LOOKED_AT]):
        longest = max(map(len, words_in(name, values)))
        if any(issubclass(kind, dict) for kind in kinds_of(values)):
            longest = min(longest, BROKEN)
        width += LETTER * max(longest, *map(len, heads_of(name).split())) + APART
    return width


def needed(rows: Sequence[Row]) -> set[int]:
    """The places of the rows that stand on paper in any case: what is wrong, and the rows that are
    nearest to their latency, or the first ones."""
    top = heapq.nsmallest(LEAST_TOP, range(len(rows)), key=lambda n: (-share_of(rows[n]), n))
    return wrong_ones(rows) | {*top}


def paper_of(rows: Sequence[Row]) -> Paper:
    """What stands on paper of a table in any case."""
    if not rows:
        return Paper(())
    width = width_of(rows)
    columns = int((WIDE + GAP) // (width + GAP))
    return Paper(needed(rows), min(max(columns, 1), MOST_COLUMNS), width > WIDE)


def on_paper(tables: Mapping[str, Sequence[Row]]) -> dict[str, Paper]:
    """Of each table what stands on paper: in any case some, and all of those tables for which there
    is room, the shortest first."""
    shown = {name: most_shown(rows) for name, rows in tables.items()}
    chosen = {name: paper_of(rows) for name, rows in shown.items()}
    room = ROOM - sum(paper.lines for paper in chosen.values())
    for name in sorted(shown, key=lambda name: len(shown[name])):
        whole = chosen[name]._replace(places=range(len(shown[name])))
        more = whole.lines - chosen[name].lines
        if more <= room:
            room -= more
            chosen[name] = whole
    return chosen


def file_of(name: str) -> str:
    """The file that has all rows of a table."""
    return "report.json" if name in NO_CSV else f"{name}.csv"


def cut_words(tables: Mapping[str, Sequence[Row]], papers: Mapping[str, Paper]) -> str:
    """Which files have what isn't on paper, in a sentence; nothing where all is there."""
    cut = [file_of(name) for name, rows in tables.items() if len(papers[name].places) < len(rows)]
    if not cut:
        return ""
    files = ", ".join(dict.fromkeys(cut))
    words = "On paper the tables have all rows in which something is wrong, and of the others "
    words += f"those that are nearest to their latency, or the first ones; the rest is in {files}."
    return f'<p class="on-paper wide">{words}</p>'
