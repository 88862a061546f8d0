"""Rows as text, CSV and JSON."""
from __future__ import annotations

import functools
import json
import math
import re
from typing import Callable, Iterator, Sequence

from afdx_tools.columns import columns_of
from afdx_tools.faults import shown

Row = dict
NONE = type(None)
VERSION = 1  # of the form of report.json, which docs/report.schema.json describes
NAMES = {
    "silences": "Silences: which network, system or link, on which side, from when to when",
    "dropped": "Dropped frames: by link, side, reason and the port where they came in",
    "links": "Links: what became of their frames",
    "latency": "Links, ports and sides: latency in the replay, in ns",
    "frames": "Frames nearest to their configured latency, or over it",
    "sides": "Links and sides: sums, numbers, gaps and jitter of the arrivals",
    "skews": "Links: greatest time between the two copies of a frame, in ns",
    "clocks": "Senders: by how much their copies came later on side B, in ns",
    "ports": "Ports: load, greatest backlog in bytes, and frames that left",
}
# the tables that the report of several switches a side has, before the others
OF_SEVERAL = {
    "ways": "Links, receivers and sides: latency from end to end in the replay, in ns",
    "receivers": "Receivers: frames of each link that were read once, twice, never",
    "switches": "Switches and sides: what came in, was dropped, lost, late, and left",
    "lines": "Lines and cables: load by contract, and in the replay on each side",
}
TROUBLES = "Frames with trouble: dropped, late, too old, refused, or at a full buffer"
EARLY = "Links and sides: over-rate frames, and by how much they came too early"
PROVED = (
    "Proved: each verdict (V), loss (L), departure with its time (D), drop for age (T), message "
    "(M) and refusal at a receiver (X) is a line of the proved program, and so are the bounds of "
    "the ports (P) and the answer of admission. On an admitted network no accepted frame is lost, "
    "and each leaves its port within its link's configured latency; the bound of a port is the "
    "least latency in ns that admission takes there."
)
PROVED_OF_SEVERAL = (
    " Of several switches the latencies from end to end (E) are such lines too. On admitted ones "
    "each frame that a cable brings is accepted, and leaves each port of its link's way within the "
    "configured latencies up to there together."
)
UNPROMISED = "This network is not admitted, so nothing promises its bounds."
COUNTED = (
    "Counted by this report from those lines and the list, and not proved: all sums; latencies in "
    "the replay (a departure less the arrival of its line) with their percentiles, and which are "
    "late; backlogs (bytes of frames that wait in an output port, without the one that is being "
    "sent); loads; gaps, jitter, numbers, skews and clocks; silences and what came on one side "
    "alone; shares; and the pictures."
)
# Where a formula could begin: at a cell's begin, or after a semicolon, at which spreadsheets of
# many countries cut a line.
FORMULA = re.compile(r"(^|;)( *)(?=[=+\-@])")
WRITTEN = {f"{name}.csv" for name in (*NAMES, *OF_SEVERAL)}
WRITTEN |= {"arrivals.csv", "early.csv", "compared.csv"}
WRITTEN |= {"troubles.csv", "where.csv"}
WRITTEN |= {"streams.csv", "deviations.csv", "unseen.csv"}  # of a recorded switch
WRITTEN |= {"groups.csv", "idle.csv", "options.csv", "stamps.csv", "offsets.csv"}
WRITTEN |= {"senders.csv", "sender_deviations.csv", "premises.csv"}  # and of its senders
WRITTEN |= {"report.json", "report.html"}  # what a folder may have of an earlier report


def names_of(report: Row) -> dict[str, str]:
    """The tables of a report, with their heads."""
    return {name: head for name, head in {**OF_SEVERAL, **NAMES}.items() if name in report}


def percent(share: float) -> str:
    """A share to a tenth of a percent, away from 0 and 100 %: only all of it is 100.0%."""
    tenths = share * 1000
    if 0 < share < 0.001:
        return "<0.1%"
    if share < 1:
        return f"{min(math.floor(tenths + 1e-6), 999) / 10:.1f}%"
    return f"{max(math.ceil(tenths - 1e-6), 1000 + (share > 1)) / 10:.1f}%"


def in_us(amount: int) -> str:
    """A time in ns as us, each ns of it."""
    return f"{amount // 1000:,}.{amount % 1000:03}"


def cell(value: object) -> str:
    """A value as it stands in a table."""
    if isinstance(value, int):
        return str(value)
    if value is None:
        return "-"
    if isinstance(value, float):
        return percent(value)
    if isinstance(value, dict):
        value = ", ".join(f"{count} {word}" for word, count in value.items()) or "-"
    return shown(str(value))


def kinds_of(values: Sequence) -> set[type]:
    """The types of a column's values; most columns have one."""
    return {*map(type, values)}


def filled(texts_of: Callable[[Sequence], list[str]], values: Sequence, none: str) -> list[str]:
    """The texts of the values that are there, in their places; `none` where there is none."""
    texts = iter(texts_of([value for value in values if value is not None]))
    return [none if value is None else next(texts) for value in values]


def cells_of(values: Sequence) -> list[str]:
    """The values of a column as they stand in a table."""
    kinds = kinds_of(values)
    if NONE in kinds:
        return filled(cells_of, values, "-")
    if kinds == {int}:
        return list(map(str, values))
    if kinds == {dict}:
        return [cell(value) if value else "-" for value in values]
    if kinds == {float}:
        return list(map(percent, values))
    if kinds == {str} and "".join(values).isprintable():
        return list(values)
    return list(map(cell, values))


def link_words(row: Row) -> str:
    """The number of a row's link, and what its messages are called, where that is known."""
    return f"{row['link']} ({row['message']})" if row.get("message") else f"{row['link']}"


def heads(rows: Sequence[Row]) -> list[str]:
    """The names of a table's columns."""
    return list(rows[0]) if rows else []


def by_column(rows: Sequence[Row]) -> Iterator[tuple[str, Sequence]]:
    """The columns of a table: of each its name and its values."""
    return zip(heads(rows), zip(*map(dict.values, rows)))


def even(name: str, values: Sequence) -> tuple[str, list[str]]:
    """A column with its name above it, and the format that gives all of it one width; numbers stand
    to the right."""
    cells = [name, *cells_of(values)]
    is_number = all(issubclass(kind, (int, float, type(None))) for kind in kinds_of(values))
    return f"%{'' if is_number else '-'}{max(map(len, cells))}s", cells


def as_text(rows: Sequence[Row]) -> str:
    """Rows as a table of even columns."""
    if not rows:
        return "(none)\n"
    formats, columns = zip(*(even(name, values) for name, values in by_column(rows)))
    line = "  ".join(formats)
    return "\n".join([(line % cells).rstrip() for cells in zip(*columns)]) + "\n"


def plain(value: object) -> str:
    """A value as it stands in a CSV file. Shares are plain fractions."""
    if isinstance(value, str):
        return quoted(value)
    if value is None or value == {}:
        return ""
    return quoted(cell(value)) if isinstance(value, dict) else str(value)


@functools.lru_cache(maxsize=1 << 12)  # most texts of a report are names, which come often
def quoted(value: str) -> str:
    """A text as it stands in a CSV file. One that a spreadsheet would take for a formula gets an
    apostrophe before it; one with a semicolon is quoted too."""
    text = FORMULA.sub(r"\1\2'", shown(value))
    return f'"{text.replace(chr(34), 2 * chr(34))}"' if set(text) & set(',;"') else text


def plains(values: Sequence) -> list[str]:
    """The values of a column as they stand in a CSV file."""
    kinds = kinds_of(values)
    if NONE in kinds:
        return filled(plains, values, "")
    if kinds == {dict}:
        return [plain(value) if value else "" for value in values]
    if kinds <= {int, float}:
        return list(map(str, values))
    if kinds == {str}:
        return list(map(quoted, values))
    return list(map(plain, values))


def csv_text(rows: Sequence[Row], columns: Sequence[str] = ()) -> str:
    """Rows as the text of a CSV file; where there are none these columns are its head."""
    lines = zip(*(plains(values) for _, values in by_column(rows)))
    head = map(plain, heads(rows) or columns)
    return "\n".join(map(",".join, (head, *lines))) + "\n"


def over_time(arrivals: Row) -> list[Row]:
    """The arrivals of each link and side, a column for each step of time, by its begin in ns."""
    start, width, rows = arrivals["start_ns"], arrivals["step_ns"], arrivals["links"]
    most = max((len(row["counts"]) for row in rows), default=0)
    begins = [str(start + n * width) for n in range(most)]
    return [
        {
            **{name: row[name] for name in ("link", "message", "side") if name in row},
            **dict(zip(begins, row["counts"])),
        }
        for row in rows
    ]


def files_of(report: Row) -> dict[str, str]:
    """The tables as CSV files, and all of the report as JSON: names and texts."""
    rows = {name: report[name] for name in names_of(report)}
    rows["arrivals"] = over_time(report["arrivals"])
    if "early_ns" in report:
        rows["early"] = report["early_ns"]
    rows["troubles"] = report["troubles"]
    if "where" in report:
        rows["where"] = report["where"]
    if report.get("compared"):
        rows["compared"] = report["compared"]["rows"]
    texts = {f"{name}.csv": csv_text(each, columns_of(name, report)) for name, each in rows.items()}
    parts = (f"{json.dumps(name)}: {json.dumps(value)}" for name, value in report.items())
    return {**texts, "report.json": "{" + ",\n".join(parts) + "}\n"}
