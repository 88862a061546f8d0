"""Reads configurations as `afdx solve` writes them, many times faster than all of TOML is read.

Each of their lines has a key with its value, begins a table, or is empty; and a value is a number,
a word, or a list of words. The program took them for TOML, so no key stands there twice.
"""
from __future__ import annotations

import contextlib
import re

LINE = re.compile(
    r"^(?:([a-z_]+) = (?:(0|[1-9][0-9]*)|"
    r'"([A-Za-z0-9-]*)"|\[("[A-Za-z0-9]*"(?:, "[A-Za-z0-9]*")*)\])'
    r"|\[\[([a-z]+(?:\.[a-z]+)?)\]\]|)$",
    re.MULTILINE,
)


def begun(tables: dict, name: str) -> dict:
    """The next table of this name; of a name in two parts it is one of the last of the first."""
    above, _, last = name.rpartition(".")
    rows = (tables[above][-1] if above else tables).setdefault(last, [])
    rows.append({})
    return rows[-1]


def tables_in(lines: list[tuple[str, ...]]) -> dict:
    """The tables of these lines."""
    tables: dict = {}
    table = tables
    for key, number, word, words, name in lines:
        if name:
            table = begun(tables, name)
        elif number:
            table[key] = int(number)
        elif words:
            table[key] = words[1:-1].split('", "')
        elif key:
            table[key] = word
    return tables


def read_written(text: str) -> dict:
    """The tables of such a text; one that isn't of that form is read as any TOML."""
    lines = LINE.findall(text)
    if len(lines) == text.count("\n") + 1:
        with contextlib.suppress(LookupError, AttributeError):
            return tables_in(lines)
    import tomllib  # seldom needed

    return tomllib.loads(text)
