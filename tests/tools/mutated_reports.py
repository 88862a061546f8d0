"""Compares a report with itself after a change of each value in turn: the tool must refuse the
changed one in a line, or compare it without a fault and without a character that a terminal obeys.

    tests/tools/mutated_reports.py REPORT.json

Prints a line for each change that does otherwise, then how many were refused and how many compared.
"""
from __future__ import annotations

import copy
import json
import os
import sys
import tempfile
from typing import Iterator

sys.dont_write_bytecode = True
sys.path.insert(0, os.path.join(os.path.dirname(os.path.abspath(__file__)), "..", "..", "tools"))
from afdx_tools.faults import Refused  # noqa: E402
from afdx_tools.report.compare import KEYS, compared, other_report, words_of  # noqa: E402
from afdx_tools.report.page import compared_tables  # noqa: E402
from afdx_tools.report.parts import table  # noqa: E402
from afdx_tools.tables import as_text, csv_text  # noqa: E402

GONE = object()  # in the place of a value: its key goes too
OTHERS = [
    GONE, None, True, -1, 2**80, 1.5, float("nan"), float("inf"), "", "word", "\x1b]0;x\x07\r",
    "\ud800", "=1+1", [], [[]], {}, {"a": {}}, [1, "a"],
]  # fmt: skip
LOOKED_AT = {*KEYS, "run", "totals", "troubles"}
MOST_ROWS = 1  # of a table that are changed
Path = tuple[object, ...]


def places(value: object, path: Path = ()) -> Iterator[Path]:
    """The way to each value in a report that is compared, of long lists to the first rows."""
    yield path
    if isinstance(value, dict):
        for key, part in value.items():
            if path or key in LOOKED_AT:
                yield from places(part, (*path, key))
    elif isinstance(value, list):
        for number, part in enumerate(value[:MOST_ROWS]):
            yield from places(part, (*path, number))


def changed(report: dict, path: Path, value: object) -> object:
    """The report with another value at that place."""
    if not path:
        return None if value is GONE else value
    made = copy.deepcopy(report)
    at = made
    for key in path[:-1]:
        at = at[key]
    if value is GONE:
        del at[path[-1]]
    else:
        at[path[-1]] = value
    return made


def fault_of(report: dict, file: str) -> str | None:
    """What is wrong with how a file is compared; None where it is refused."""
    try:
        pair = compared(report, other_report(file), file)
    except Refused:
        return None
    said = "".join([*words_of(pair), as_text(pair["rows"]), csv_text(pair["rows"])])
    for head, rows in compared_tables({"compared": pair}).values():
        said += table(rows, head)
    odd = {letter for letter in said if not letter.isprintable() and letter != "\n"}
    return f"it writes {odd}" if odd else ""


def main() -> None:
    """Tries all changes."""
    with open(sys.argv[1], encoding="utf-8") as file:
        report = json.load(file)
    counts = {True: 0, False: 0}
    with tempfile.TemporaryDirectory() as folder:
        path = os.path.join(folder, "other.json")
        for place in places(report):
            for value in OTHERS:
                with open(path, "w", encoding="utf-8") as file:
                    json.dump(changed(report, place, value), file)
                try:
                    fault = fault_of(report, path)
                except Exception as error:  # whatever it is, a user would see a traceback
                    fault = f"{type(error).__name__}: {error}"
                if fault:
                    what = "gone" if value is GONE else repr(value)
                    print(f"{place} {what}: {fault}")
                counts[fault is None] += 1
    print(f"{counts[True]} refused, {counts[False]} compared")


main()
