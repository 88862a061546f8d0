"""Configurations of several switches a side, as tables and as text."""
from __future__ import annotations

import tomllib

from first_fault import ROWS
from tables import key_lines

TOP_ORDER = ("name", "profile", "buffer")  # of the keys of a switch


def own_names(switch: dict) -> set[str]:
    """The names of a switch's systems."""
    return {system["name"] for system in switch["system"]}


def is_tables(value: object) -> bool:
    """It is written as tables of its own."""
    return isinstance(value, list) and bool(value) and all(isinstance(row, dict) for row in value)


def plain_lines(row: dict, order: tuple[str, ...] = ()) -> list[str]:
    """The lines of its keys, those named first, that aren't tables of their own."""
    keys = [*(key for key in order if key in row), *(key for key in row if key not in order)]
    return key_lines({key: row[key] for key in keys if not is_tables(row[key])})


def cascade_text(cascade: dict) -> bytes:
    """A configuration that spells the tables, an empty line before each but the first. A part of a
    switch that is no array of tables, as in a file with faults, stands among its keys."""
    blocks = [plain_lines(cascade)]
    for switch in cascade["switch"] if is_tables(cascade.get("switch")) else ():
        blocks.append(["[[switch]]", *plain_lines(switch, TOP_ORDER)])
        for part in ROWS:
            for row in switch[part] if is_tables(switch.get(part)) else ():
                blocks.append([f"[[switch.{part}]]", *plain_lines(row)])
    return "\n\n".join("\n".join(lines) for lines in blocks if lines).encode("ascii") + b"\n"


def of_one(tables: dict, name: str) -> dict:
    """A cascade of one switch of that name, which has the tables of a file of one switch."""
    return {"switch": [{"name": name, **tables, "neighbour": []}]}


def loaded(text: bytes) -> dict:
    """The tables of a file of several switches that has no fault, absent arrays too."""
    cascade = tomllib.loads(text.decode())
    return {"switch": [{part: [] for part in ROWS} | switch for switch in cascade["switch"]]}
