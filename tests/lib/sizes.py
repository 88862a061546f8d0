"""How large functions, their clauses and lines of proofs are, read off the sources; a part of
tests/run/house.py."""
from __future__ import annotations

import re
from collections.abc import Iterator
from typing import NamedTuple

OPENS, CLOSES = "([{", ")]}"


class Function(NamedTuple):
    """A function of a source file: its name, how many values it takes, the texts of its clauses,
    and the lines of its body."""

    name: str
    values: int
    clauses: list[str]
    body: list[str]


def without_remarks(text: str) -> str:
    """A source whose comments and texts are blank, so that no bracket stands in them."""
    def blank(found: re.Match[str]) -> str:
        return re.sub(r"[^\n]", " ", found.group())
    return re.sub(r"//[^\n]*|b?\"(?:[^\"\\]|\\.|\\\n)*\"|b?'(?:[^'\\]|\\.)'", blank, text)


def behind(text: str, start: int) -> int:
    """The place behind the bracket that closes the one at `start`."""
    depth = 0
    for place in range(start, len(text)):
        if text[place] in OPENS:
            depth += 1
        elif text[place] in CLOSES:
            depth -= 1
            if depth == 0:
                return place + 1
    return len(text)


def values_in(text: str) -> int:
    """How many values a list of parameters has, without `self`."""
    depth, count = 0, 1
    for place, letter in enumerate(text):
        if letter in OPENS or letter == "<":
            depth += 1
        elif letter in CLOSES or (letter == ">" and text[place - 1] not in "-="):
            depth -= 1
        elif letter == "," and depth == 0:
            count += 1
    if text.rstrip().endswith(","):
        count -= 1
    has_self = re.match(r"\s*(&(\s*'\w+)?\s*)?(mut\s+)?self\b", text) is not None
    return count - has_self if text.strip() else 0


def clauses_behind(text: str, place: int) -> tuple[list[str], int | None]:
    """The clauses from a place on, and where the body stands, if there is one."""
    clauses: list[str] = []
    while True:
        found = re.compile(r"[{;]|\b(?:requires|ensures)\*?(?=\s)").search(text, place)
        if found is None or found.group() == ";":
            return clauses, None
        if found.group() == "{":
            return clauses, found.start()
        start = text.index("{", found.end())
        place = behind(text, start)
        clauses.append(text[start + 1 : place - 1])


def functions_in(source: str) -> Iterator[Function]:
    """The functions of a source, nested ones too."""
    text = without_remarks(source)
    for found in re.finditer(r"^[ \t]*(?:pub(?:\([a-z]+\))? )?(?:const )?fn (\w+)", text, re.M):
        place = text.find("(", found.end())
        if text[found.end()] == "<":
            place = text.index("(", behind_types(text, found.end()))
        end = behind(text, place)
        clauses, body = clauses_behind(text, end)
        inside = source[body + 1 : behind(text, body) - 1] if body is not None else ""
        values = values_in(text[place + 1 : end - 1])
        yield Function(found.group(1), values, clauses, inside.strip("\n").splitlines())


def behind_types(text: str, start: int) -> int:
    """The place behind the types in angle brackets at `start`."""
    depth = 0
    for place in range(start, len(text)):
        if text[place] == "<":
            depth += 1
        elif text[place] == ">" and text[place - 1] not in "-=":
            depth -= 1
            if depth == 0:
                return place + 1
    return len(text)


def letters(clause: str) -> int:
    """How many characters a clause has, each white space being one."""
    return len(" ".join(clause.split()))


def lines_of(clause: str) -> int:
    return len(clause.strip().splitlines())
