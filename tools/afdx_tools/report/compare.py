"""Two runs beside one another: rows by link, port and side, of several switches also by switch;
frames by link, side, number, time."""
from __future__ import annotations

import json
from typing import Iterator, Sequence

from afdx_tools.faults import LONGEST_NAME, Refused, cut, shown
from afdx_tools.report.numbers import MOST_TROUBLES
from afdx_tools.tables import Row

KEYS = {
    "links": ("link",),
    "ways": ("link", "system", "side"),
    "latency": ("link", "switch", "port", "side"),
    "receivers": ("link", "system"),
    "switches": ("switch", "side"),
    "lines": ("from", "to"),
    "sides": ("link", "side"),
    "skews": ("link",),
    "ports": ("switch", "port", "side"),
    "early_ns": ("link", "side"),
}
LATENCIES = ("frames", "median_ns", "p99_ns", "greatest_ns", "late", "bound_ns", "configured_ns")
COMPARED = {
    "links": (
        "frames",
        "accepted",
        "dropped",
        "full_buffer",
        "late",
        "too_old",
        "delivered",
        "redundant",
        "refused",
    ),
    "ways": (*LATENCIES, "promised_ns"),
    "latency": LATENCIES,
    "receivers": ("frames", "once", "twice", "never", "skew_ns", "table_skew_ns"),
    "switches": (
        "accepted",
        "dropped",
        "full_buffer",
        "late",
        "too_old",
        "to_systems",
        "to_cables",
    ),
    "lines": ("rate", "links"),
    "sides": ("alone", "first_number", "missing", "least_gap_ns", "jitter_ns", "table_jitter_ns"),
    "skews": ("at_inputs_ns", "at_receivers_ns", "table_skew_ns", "twice"),
    "ports": ("left", "backlog", "bound"),
    "early_ns": ("greatest",),
}
# what a report hasn't where no frame was over-rate, and of one switch a side
RARE: Row = {"early_ns": [], "ways": [], "receivers": [], "switches": [], "lines": []}
LONGEST_TITLE = 300  # characters
MOST = 2**63  # no number of a report is greater
FRAME = ("link", "side", "number", "time_ns", "switch", "port", "what")
# what a report has of it, one of one switch a side without the switch
TROUBLE = ("link", "side", "number", "time_ns", "line", "switch", "port", "what")


def is_count(value: object) -> bool:
    """A whole number, as all numbers are that are compared, or that there is none."""
    return value is None or (type(value) is int and abs(value) <= MOST)


def is_name(value: object) -> bool:
    """What names a row or a frame: a number or a word."""
    return is_count(value) or (isinstance(value, str) and len(value) <= LONGEST_NAME)


def known(names: Sequence[str], row: Row) -> list[str]:
    """The names of a row's columns: only several switches have theirs."""
    return [name for name in names if name != "switch" or name in row]


def is_report(report: Row) -> bool:
    """Has it each value that is compared, of the kind that afdx-report writes?"""
    rows = [(row, KEYS[name], COMPARED[name]) for name in KEYS for row in report[name]]
    rows += [(row, TROUBLE, ()) for row in report["troubles"]]
    named = all(is_name(row[word]) for row, names, _ in rows for word in known(names, row))
    counted = all(is_count(row[word]) for row, _, counts in rows for word in counts)
    return named and counted and isinstance(report["run"]["title"], str)


def other_report(path: str) -> Row:
    """The report of another run, as afdx-report wrote it."""
    try:
        with open(path, encoding="utf-8") as file:
            report = {**RARE, **json.load(file)}
        if is_report(report):
            troubles = [
                {word: row[word] for word in known(TROUBLE, row)} for row in report["troubles"]
            ]
            return {**report, "troubles": troubles}
    except (ValueError, LookupError, TypeError, RecursionError):
        pass
    raise Refused(f"{shown(path)} is no report.json of this afdx-report")


def where(key: tuple[str, ...], row: Row) -> str:
    """A row's key as words."""
    return " ".join(f"{word} {row[word]}" for word in known(key, row))


def differing(name: str, this: Row, other: Row) -> Iterator[Row]:
    """What differs in one table, row by row; a row that one run hasn't counts as none."""
    key = KEYS[name]
    here = {tuple(str(row.get(word)) for word in key): row for row in this.get(name, [])}
    there = {tuple(str(row.get(word)) for word in key): row for row in other[name]}
    for place in [*here, *(place for place in there if place not in here)]:
        mine, its = here.get(place, {}), there.get(place, {})
        for word in COMPARED[name]:
            now, before = mine.get(word), its.get(word)
            if now != before:
                both = isinstance(now, int) and isinstance(before, int)
                yield {
                    "table": name,
                    "of": where(key, mine or its),
                    "number": word,
                    "other": before,
                    "this": now,
                    "change": now - before if both else None,
                }


def only_in(one: Row, two: Row) -> list[Row]:
    """The frames with trouble of the first report that are none of the second's."""
    those = {tuple(row.get(word) for word in FRAME) for row in two["troubles"]}
    return [row for row in one["troubles"] if tuple(row.get(word) for word in FRAME) not in those]


def compared(this: Row, other: Row, path: str) -> Row:
    """Both reports beside one another."""
    is_cut = max(len(this["troubles"]), len(other["troubles"])) >= MOST_TROUBLES
    return {
        "file": shown(path),
        "title": cut(other["run"]["title"], LONGEST_TITLE),
        "rows": [row for name in KEYS for row in differing(name, this, other)],
        "only_here": only_in(this, other),
        "only_there": only_in(other, this),
        "cut": is_cut,
    }


def words_of(pair: Row) -> list[str]:
    """What was compared, in sentences."""
    here, there = len(pair["only_here"]), len(pair["only_there"])
    words = [
        f"Compared with {pair['title'] or pair['file']}: {len(pair['rows'])} numbers differ.",
        "Frames that were dropped, late, too old or refused, or met a full buffer, by link, side, "
        f"number, time, port and reason: {here} only here, {there} only there.",
    ]
    if pair["cut"]:
        words.append(f"Of each run only the first {MOST_TROUBLES:,} such frames were compared.")
    return words
