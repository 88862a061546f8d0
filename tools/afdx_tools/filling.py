"""A configuration as a person wrote it, with the values that `solve` found."""
from __future__ import annotations

import tomllib
from typing import Iterator, NamedTuple

from afdx_tools.faults import Refused
from afdx_tools.places import Places, Table, Unplaced, places_of
from afdx_tools.solving import AS_WRITTEN, solve

MARK = "\ufeff"  # a byte order mark
SOLVED = ("jitter_us", "latency_us", "skew_us")  # the keys of a link that are


class Change(NamedTuple):
    """A part of a text and what comes in its place."""

    begin: int
    end: int
    text: str


def number_at(text: str, table: Table, key: str) -> int:
    """The whole number that a key has."""
    value = table.values[key]
    return int(text[value.begin : value.end].replace("_", ""), 0)


def new_line(text: str, place: int, key: str, number: int) -> Change:
    """A key in a line of its own, below the line of this place, and as far from the margin."""
    end = text.find("\n", place)
    begin = text.rfind("\n", 0, place) + 1
    line = text[begin:] if end < 0 else text[begin : end + 1]
    margin = line[: len(line) - len(line.lstrip(" \t"))]
    if end < 0:  # the last line has no end
        return Change(len(text), len(text), f"\n{margin}{key} = {number}")
    ending = "\r\n" if line.endswith("\r\n") else "\n"
    return Change(end + 1, end + 1, f"{margin}{key} = {number}{ending}")


def changes_of(text: str, table: Table, row: dict, keys: tuple[str, ...]) -> Iterator[Change]:
    """What gives a table the numbers that a row has for these keys."""
    for key in keys:
        if key in table.values:
            value = table.values[key]
            if number_at(text, table, key) != row[key]:
                yield Change(value.begin, value.end, str(row[key]))
        elif table.is_inline:
            yield Change(table.end, table.end, f", {key} = {row[key]}")
        else:
            yield new_line(text, table.end, key, row[key])


def all_changes(text: str, places: Places, wanted: dict) -> Iterator[Change]:
    """What gives a configuration the values of these tables; of several switches one by one."""
    if places.switches:
        for switch, tables in zip(places.switches, wanted["switch"]):
            yield from all_changes(text, switch, tables)
        return
    if places.top.is_inline or "buffer" in places.top.values:
        yield from changes_of(text, places.top, wanted, ("buffer",))
    else:
        yield new_line(text, places.top.values["profile"].end, "buffer", wanted["buffer"])
    for table, row in zip(places.rows.get("link", []), wanted.get("link", [])):
        yield from changes_of(text, table, row, SOLVED)


def changed(text: str, wanted: dict) -> str:
    """The text with the values of these tables."""
    parts, begin = [], 0
    for change in sorted(all_changes(text, places_of(text), wanted), key=lambda each: each.begin):
        parts += [text[begin : change.begin], change.text]
        begin = change.end
    return "".join([*parts, text[begin:]])


def filled(text: str, solved: str) -> str:
    """The text of a configuration with the values of what `solve` made of it; all else is as it is.
    Refused where the program doesn't read what is made as the same tables."""
    mark = MARK if text.startswith(MARK) else ""
    try:
        made = mark + changed(text.removeprefix(MARK), tomllib.loads(solved))
        if solve(made.encode(), ("--keep", AS_WRITTEN)).text == solved:
            return made
    except (Unplaced, ValueError, LookupError):
        pass
    raise Refused("this layout can't be kept; `afdx solve` writes one of its own")
