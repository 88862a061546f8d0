"""Where the values of a TOML text stand, so that some can be changed and all else stays.

It takes texts that the program has read, of TOML 1.1, and says nothing of others: what it finds in
them may be wrong, and then what is made of it doesn't read as it should.
"""
from __future__ import annotations

import re
from dataclasses import dataclass, field
from typing import Callable

BLANK = re.compile(r"(?:[ \t\r\n]|#[^\n]*)*")
KEY = re.compile(r"[A-Za-z0-9_-]+|\"[^\"\\\n]*\"|'[^'\n]*'")
TEXT = re.compile(
    r'"""(?:[^\\]|\\.)*?"""(?!")|\'\'\'.*?\'\'\'(?!\')|"(?:[^"\\\n]|\\.)*"|\'[^\'\n]*\'', re.DOTALL
)
SWITCH = "switch"  # the array whose tables have arrays of their own
WORD = re.compile(r"[^\s,\]}#]+(?: [0-9][^\s,\]}#]*)?")  # a number, a truth value, a date


class Unplaced(Exception):
    """A text of another form."""


@dataclass
class Value:
    """A value from `begin` to `end`; of an array its values, of an inline table its table."""

    begin: int
    end: int
    values: list[Value] = field(default_factory=list)
    table: Table | None = None


@dataclass
class Table:
    """A table: its values by their keys in the order of the text. An inline one stands in braces,
    any other has a line for each key."""

    is_inline: bool
    values: dict[str, Value] = field(default_factory=dict)

    @property
    def end(self) -> int:
        """Where its last value ends."""
        return max((value.end for value in self.values.values()), default=0)


class Reader:
    """Goes through a text."""

    def __init__(self, text: str) -> None:
        self.text, self.at = text, 0

    def skip(self) -> None:
        """Goes past spaces, line ends and remarks."""
        blank = BLANK.match(self.text, self.at)
        self.at = blank.end() if blank else self.at

    def takes(self, mark: str) -> bool:
        """Goes past a mark, if it stands there."""
        is_there = self.text.startswith(mark, self.at)
        self.at += len(mark) if is_there else 0
        return is_there

    def wants(self, mark: str) -> None:
        """Goes past a mark, which has to be there."""
        if not self.takes(mark):
            raise Unplaced

    def match(self, form: re.Pattern) -> str:
        """Goes past what has this form, which has to be there."""
        found = form.match(self.text, self.at)
        if found is None:
            raise Unplaced
        self.at = found.end()
        return found[0]

    def key(self) -> str:
        """A key without its quotes; the parts of a longer one with a point between."""
        parts = []
        while True:
            self.skip()
            parts.append(self.match(KEY).strip("\"'"))
            self.skip()
            if not self.takes("."):
                return ".".join(parts)

    def pair(self, table: Table) -> None:
        """A key and its value."""
        key = self.key()
        self.wants("=")
        self.skip()
        table.values[key] = self.value()

    def value(self) -> Value:
        """A value."""
        found = Value(self.at, self.at)
        if self.takes("["):
            self.each("]", lambda: found.values.append(self.value()))
        elif self.takes("{"):
            table = found.table = Table(True)
            self.each("}", lambda: self.pair(table))
        else:
            self.match(TEXT if self.text[self.at : self.at + 1] in ('"', "'") else WORD)
        found.end = self.at
        return found

    def each(self, end: str, take: Callable[[], object]) -> None:
        """What stands between brackets or braces, with commas between and maybe after."""
        self.skip()
        while not self.takes(end):
            take()
            self.skip()
            if not self.takes(","):
                self.wants(end)
                return
            self.skip()


@dataclass
class Places:
    """The table at the top of a text, and the tables of each array of tables in their order. Those
    of the array `switch` have rows of their own, and stand in `switches`."""

    top: Table = field(default_factory=lambda: Table(False))
    rows: dict[str, list[Table]] = field(default_factory=dict)
    switches: list[Places] = field(default_factory=list)

    def begin(self, key: str) -> Table:
        """The next table of an array, whose head stands there."""
        array, _, part = key.partition(".")
        if array == SWITCH and part:
            if not self.switches:
                raise Unplaced
            return self.switches[-1].begin(part)
        table = Table(False)
        if array == SWITCH:
            self.switches.append(Places(table))
        else:
            self.rows.setdefault(key, []).append(table)
        return table

    def look_inside(self) -> None:
        """Finds the tables that stand in braces."""
        for key, value in self.top.values.items():
            inline = [part.table for part in value.values if part.table is not None]
            if inline and key == SWITCH:
                self.switches = [Places(table) for table in inline]
            elif inline:
                self.rows[key] = inline
        for switch in self.switches:
            switch.look_inside()


def places_of(text: str) -> Places:
    """Where the values of a text stand; Unplaced where it has another form than a configuration."""
    places, reader = Places(), Reader(text)
    table = places.top
    reader.skip()
    while reader.at < len(text):
        if reader.takes("[["):
            table = places.begin(reader.key())
            reader.wants("]]")
        else:
            reader.pair(table)
        reader.skip()
    places.look_inside()
    return places
