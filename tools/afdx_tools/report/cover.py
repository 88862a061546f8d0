"""The cover of a report, from a TOML file: title, fields, parts with serial numbers, signatures."""
from __future__ import annotations

import datetime
import hashlib
from html import escape
from typing import Sequence

from afdx_tools.faults import Refused, shown
from afdx_tools.tables import Row

MOST_BYTES = 10_000
MOST_ROWS = 40  # of each kind: with so many bytes that is some sheets, by far not 40
PART = ("name", "number", "serial")
SIGNATURE = ("role", "name", "date")
SIGNED = (*SIGNATURE, "signature")
PLAIN = (str, int, float, datetime.date, datetime.time)  # a moment is a date, too


class Cover:
    """Reads the tables of a cover; faults name the file and the place."""

    def __init__(self, path: str) -> None:
        self.path = shown(path)
        with open(path, "rb") as file:
            text = file.read(MOST_BYTES + 1)
        if len(text) > MOST_BYTES:
            raise self.wrong(f"it has more than {MOST_BYTES:,} bytes")
        self.digest = hashlib.sha256(text).hexdigest()
        import tomllib  # seldom needed

        try:
            self.tree = tomllib.loads(text.decode("utf-8-sig"))
            self.content = self.all()
        except (ValueError, RecursionError) as error:
            raise self.wrong(f"it is no TOML: {shown(str(error))}") from error

    def wrong(self, line: str) -> Refused:
        """A fault."""
        return Refused(f"--cover {self.path}: {line}")

    def text(self, where: str, value: object) -> str:
        """A value of a field, with its line ends."""
        if not isinstance(value, PLAIN) or isinstance(value, bool):
            raise self.wrong(f"{where} is no text, number or date")
        return "\n".join(map(shown, str(value).splitlines()))

    def row(self, where: str, row: object, keys: Sequence[str]) -> Row:
        """A part or a signature."""
        if not isinstance(row, dict):
            raise self.wrong(f"{where} is no table")
        self.refuse_others(f"{where} has", row, keys)
        return {key: self.text(f"{where}, {key},", row.get(key, "")) for key in keys}

    def refuse_others(self, has: str, row: Row, keys: Sequence[str]) -> None:
        """Refuses a key that isn't known."""
        for key in row:
            if key not in keys:
                raise self.wrong(f"{has} a key {shown(key)}; it may have {', '.join(keys)}")

    def rows(self, name: str, keys: Sequence[str]) -> list[Row]:
        """All parts, or all signatures."""
        rows = self.tree.get(name, [])
        if not isinstance(rows, list) or len(rows) > MOST_ROWS:
            raise self.wrong(f"{name} isn't up to {MOST_ROWS} tables [[{name}]]")
        return [self.row(f"{name} {n}", row, keys) for n, row in enumerate(rows, 1)]

    def all(self) -> Row:
        """All of its content."""
        self.refuse_others("it has", self.tree, ("title", "fields", "part", "signature"))
        fields = self.tree.get("fields", {})
        if not isinstance(fields, dict) or len(fields) > MOST_ROWS:
            raise self.wrong(f"fields isn't a table of up to {MOST_ROWS} keys")
        return {
            "title": self.text("title", self.tree.get("title", "")),
            "fields": [
                {"field": shown(key), "content": self.text(shown(key), value)}
                for key, value in fields.items()
            ],
            "parts": self.rows("part", PART),
            "signatures": self.rows("signature", SIGNATURE),
        }


# ---- on the page ---------------------------------------------------------------------------------


def table_of(name: str, heads: Sequence[str], rows: Sequence[Sequence[str]]) -> str:
    """A table of the cover."""
    if not rows:
        return ""
    head = "".join(f'<th scope="col">{escape(head)}</th>' for head in heads)
    body = ""
    for first, *others in rows:
        cells = "".join(f"<td>{escape(value)}</td>" for value in others)
        body += f'<tr><th scope="row"><span>{escape(first)}</span></th>{cells}</tr>'
    return (
        f'<table class="{name.lower()}"><caption>{name}</caption><thead><tr>{head}</tr></thead>'
        f"<tbody>{body}</tbody></table>"
    )


def cover_section(cover: Row | None, made: str) -> str:
    """The cover, a sheet of its own on paper: who signs sees there what made the report."""
    if not cover:
        return ""
    title = f"<h2>{escape(cover['title'])}</h2>" if cover["title"] else ""
    fields, parts, signed = (
        [list(row.values()) for row in cover[name]] for name in ("fields", "parts", "signatures")
    )
    return (
        f'<section id="cover">{title}{table_of("Fields", ("field", "content"), fields)}'
        f'{table_of("Parts", ("part", "part number", "serial number"), parts)}{made}'
        + table_of("Signatures", SIGNED, [[*row, ""] for row in signed])
        + "</section>"
    )
