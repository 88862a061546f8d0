"""What a report's page is made of: sections, and tables of which it has the rows that matter."""
from __future__ import annotations

import functools
import operator
from html import escape
from typing import Callable, Collection, Sequence

from afdx_tools.known import findings
from afdx_tools.report.where import Where, named_in
from afdx_tools.tables import NONE, Row, by_column, cell, cells_of, filled, heads, kinds_of

MOST_ROWS = 10_000  # of a table on a page
LONG = 60  # rows that don't find room in a box
# what isn't counted, and so has no commas
PLAIN = ("link", "port", "number", "line", "first_number", "came_in", "own_port", "interface")
PLACES = ("came_in",)  # ports that the search field finds
# columns that are empty where nothing is wrong, as those of findings are, and columns with what
# the tables say beside them
WRONG = ("late", "silent", "clock", "twice", "alone", "missing", "never", "amiss")
LIMITED = (("jitter_ns", "table_jitter_ns"), ("at_receivers_ns", "table_skew_ns"),
           ("skew_ns", "table_skew_ns"))  # fmt: skip
SAID = (("reason", "wrong-port"), ("holds", "no"))  # columns, and their words of what is wrong


def is_plain(name: str) -> bool:
    """Does a column have numbers that are names?"""
    return name in PLAIN or name.endswith("_line")


def kind_of(name: str, rows: Sequence[Row]) -> str:
    """How a column stands: numbers to the right, long words broken."""
    if name in PLACES:
        return "place"
    if name.endswith("_us"):
        return "number"
    values = [row[name] for row in rows[:50] if row[name] is not None]
    if any(isinstance(value, dict) for value in values):
        return "words"
    return "" if any(isinstance(value, str) for value in values) else "number"


@functools.cache
def wrong_columns() -> tuple[str, ...]:
    """Columns that are empty where nothing is wrong."""
    return *WRONG, *findings()


def are_over(rows: Sequence[Row]) -> list[bool]:
    """Of each row of a table: is something in it over what the tables say, or of no good at all?"""
    columns = heads(rows)
    tests: list[Callable[[Row], object]] = [
        operator.itemgetter(name) for name in wrong_columns() if name in columns
    ]
    tests += [functools.partial(exceeds, *pair) for pair in LIMITED if pair[1] in columns]
    tests += [functools.partial(says, *pair) for pair in SAID if pair[0] in columns]
    if "latency_ns" in columns:
        tests.append(lambda row: row["share"] > 1)
    over = [False] * len(rows)
    for test in tests:
        over = [was or bool(test(row)) for was, row in zip(over, rows)]
    return over


def exceeds(name: str, table: str, row: Row) -> bool:
    """Is a value of the row over what the tables say?"""
    return (row.get(name) or 0) > row[table]


def says(name: str, word: str, row: Row) -> bool:
    """Is a value of the row this word?"""
    return bool(row[name] == word)


# ---- which rows ----------------------------------------------------------------------------------


def most_shown(rows: Sequence[Row]) -> Sequence[Row]:
    """The rows that a page shows: all, or of too many those with the greatest share."""
    if len(rows) <= MOST_ROWS:
        return rows
    shares = [-share_of(row) for row in rows]
    order = sorted(zip(map(operator.not_, are_over(rows)), shares, range(len(rows))))
    return [rows[n] for n in sorted(n for _, _, n in order[:MOST_ROWS])]


def share_of(row: Row) -> float:
    """The share of the configured latency, 0 where the row has none."""
    return float(row.get("share") or 0)


# ---- tables --------------------------------------------------------------------------------------


def words_in(name: str, values: Sequence) -> list[str]:
    """The values of a column as they stand on the page."""
    kinds = kinds_of(values)
    if is_plain(name) or not any(issubclass(kind, int) for kind in kinds):
        return cells_of(values)
    if kinds == {int}:
        return [f"{value:,}" for value in values]
    if NONE in kinds:
        return filled(functools.partial(words_in, name), values, "-")
    return [f"{value:,}" if isinstance(value, int) else cell(value) for value in values]


def heads_of(name: str) -> str:
    """What stands above a column."""
    return name.replace("_", " ")


def begun(rows: Sequence[Row], paper: Collection[int]) -> list[str]:
    """How the rows begin: what styles each has."""
    begins = []
    for place, is_over in enumerate(are_over(rows)):
        styled = " ".join(["over"] * is_over + ["screen"] * (place not in paper))
        begins.append(f'<tr class="{styled}">' if styled else "<tr>")
    return begins


def titled(rows: Sequence[Row], where: Where | None) -> dict[str, list[str]]:
    """Of each column that names frames how its cells say where these stand."""
    titles: dict[str, list[str]] = {}
    if where is not None and where.is_recorded:
        for number, row in enumerate(rows):
            for name, place in named_in(row, where.is_pair):
                if words := where.in_words(place):
                    of_column = titles.setdefault(name, [""] * len(rows))
                    of_column[number] = f' title="{escape(words)}"'
    return titles


def escaped(texts: Sequence[str]) -> list[str]:
    """Texts as they stand in HTML; none of them has a line feed."""
    return escape("\n".join(texts)).split("\n")


def late_marks(rows: Sequence[Row]) -> list[str]:
    """What stands before the heads of the rows where copies were late."""
    return ['<b class="late-row">LATE</b> ' if row.get("late") else "" for row in rows]


def body_of(
    rows: Sequence[Row], kinds: Sequence[str], paper: Collection[int], where: Where | None
) -> str:
    """The rows of a table. A cell that names a frame has a title that says where it stands."""
    titles, none = titled(rows, where), [""] * len(rows)
    line, columns = "%s", [begun(rows, paper)]
    for (name, values), kind in zip(by_column(rows), kinds):
        styled = f' class="{kind}"' if kind else ""
        if len(columns) == 1:
            line += f'<th scope="row"{styled}%s>%s<span>%s</span></th>'
            columns += [titles.get(name, none), late_marks(rows)]
        elif name in titles:
            line += f"<td{styled}%s>%s</td>"
            columns.append(titles[name])
        else:
            line += f"<td{styled}>%s</td>"
        columns.append(escaped(words_in(name, values)))
    line += "</tr>\n"
    return "".join([line % cells for cells in zip(*columns)])


def caption_of(all_rows: Sequence[Row], shown: int, paper: int, head: str, file: str) -> str:
    """What a table is, how many of its rows stand there, and how many on paper."""
    count = f"{len(all_rows):,} rows" if len(all_rows) != 1 else "1 row"
    if shown < len(all_rows):
        count = f"the {shown:,} with the greatest share of {count}; {file} has all"
    words = f"{escape(head)}: {count}"
    if paper < shown:
        words += f'<span class="on-paper">; on paper {paper:,} of them, {file} has all</span>'
    return f"<caption>{words}</caption>"


def table(
    all_rows: Sequence[Row],
    head: str,
    paper: Collection[int] | None = None,
    where: Where | None = None,
    file: str = "the CSV file",
) -> str:
    """Rows as a table; on paper those at these places alone. `file` has all of them."""
    rows = most_shown(all_rows)
    on_paper = range(len(rows)) if paper is None else paper
    caption = caption_of(all_rows, len(rows), len(on_paper), head, file)
    if not rows:
        return f"<table>{caption}<tbody><tr><td>none</td></tr></tbody></table>"
    kinds = [kind_of(name, rows) for name in heads(rows)]
    names = "".join(
        f'<th scope="col"{f" class={kind!r}" if kind else ""}>{escape(heads_of(name))}</th>'
        for name, kind in zip(heads(rows), kinds)
    )
    body = body_of(rows, kinds, on_paper, where)
    return f"<table>{caption}<thead><tr>{names}</tr></thead><tbody>{body}</tbody></table>"


# ---- sections ------------------------------------------------------------------------------------


def section(name: str, title: str, words: str, body: str) -> str:
    """A part of the page."""
    return (
        f'<section id="{name}"><h2>{escape(title)}</h2><p class="muted">{escape(words)}</p>{body}'
        "</section>"
    )


def table_section(name: str, head: str, body: str, styles: str) -> str:
    """A table, in a box that rolls on a screen and is whole on paper, where it has these classes,
    too."""
    box = "box long" if body.count("<tr") > LONG else "box"
    return (
        f'<section id="{name}" class="{f"wide {styles}".strip()}"><div class="{box}" '
        f'tabindex="0" role="region" aria-label="{escape(head)}">{body}</div></section>'
    )
