#!/usr/bin/env python3
"""Checks where in a configuration `--explain` says that a fault's table and key stand.

    tests/program/located_faults.py PROGRAM

A sound configuration, of one switch or of several, is written in many layouts: heads or braces, on
one line or several, remarks and texts with brackets in them, keys and texts in each kind of quotes,
other ends of lines. One value is put out of range, one key left out, or one that isn't known put
in, in a table, at the top of a switch or at that of the file: with a value of any kind, with dots,
or as a table below a head of its own. The last line on standard error must name the line on which
it was written, the key, the table and its switch by their values, and what is out of range.
Prints a line for each layout that isn't explained so, and nothing where all are; ends with status 1
if there is one.
"""
import pathlib
import random
import subprocess
import sys
import tempfile
from typing import NamedTuple

TOP = pathlib.Path(__file__).resolve().parent.parent.parent
sys.path.insert(0, str(TOP / "tests" / "lib"))

from tables import base_tables, example_tables  # noqa: E402

COUNT = 600
MARKS = {"switch": ["name"], "system": ["name", "id"], "neighbour": ["name", "port"],
         "link": ["vl"], "port": ["system", "link", "udp"]}
REMARKS = ["", "", " # [[link]] vl = 7, {", ' # "', " # '''", "  # = ] }"]
BETWEEN = ["", "", "# [[system]]", '  # """ {', "\t"]
WRONG: dict[str, object] = {"name": "", "from": 7, "to": []}
WRONG |= dict.fromkeys(["priority", "policing", "kind"], "no")


UNKNOWN = "vlan"
# a key that is absent at the top has no line: this is the last one of what is said of it
ABSENT = "'afdx check' prints the bytes that each port needs in the last field of its P line."
# a table by the arrays that lead to it and its number in each, or a key by its table and its name
Place = tuple[str | int, ...]


class Toml(str):
    """A text that is written as it stands."""


STRANGE = ["1979-05-27 07:32:00", "[[1, [ ]], {vl = 7}, # ] }\n '[[link]]']", "1_0.5e-3", "true"]
STRANGE += ['{ vl = 1, b.c = "}", "[[link]]" = [{d = 2}], }', '"""\n[[link]]\nvl = 7\n\\""""""']
STRANGE += ["'\"[[link]]'", "'''\n[[port]]\n# \\'''", '"[[port]]"']
STRANGE += ["{\n # }\n a.b = 1,\n c = [ ]\n}"]


class Layout:
    """A text that is written, and the line of each table and key."""

    def __init__(self, chance: random.Random) -> None:
        self.chance = chance
        self.text = chance.choice(["", "", "\ufeff"])
        self.lines: dict[tuple, int] = {}
        self.feed = chance.choice(["\n", "\n", "\r\n"])

    def put(self, text: str, *place: str | int) -> None:
        """Puts a piece of the text; at this place."""
        if place:
            self.lines[place] = self.text.count("\n") + 1
        self.text += text

    def end_line(self) -> None:
        self.put(self.chance.choice(REMARKS) + self.feed)
        for _ in range(self.chance.randrange(3)):
            self.put(self.chance.choice(BETWEEN) + self.feed)

    def break_line(self) -> None:
        if self.chance.random() < 0.3:
            self.put(self.chance.choice(REMARKS) + self.feed)

    def key(self, name: str) -> str:
        escaped = f'"\\u{ord(name[0]):04x}{name[1:]}"'
        return self.chance.choice([name, name, f'"{name}"', f"'{name}'", escaped])

    def quoted(self, text: str) -> str:
        return self.chance.choice(['"', "'", '"""', "'''"]).join(["", text, ""])

    def value(self, value: object) -> str:
        if isinstance(value, list):
            inner = ", ".join(self.value(one) for one in value)
            return self.chance.choice([f"[{inner}]", f"[ # ]{self.feed}{inner} ]"])
        if isinstance(value, str) and not isinstance(value, Toml):
            return self.quoted(value)
        return str(value)

    def pair(self, value: object, *place: str | int) -> None:
        """A key of a table, with dots if it isn't known, and its value."""
        name = str(place[-1])
        dots = self.chance.choice(["", "", ".x", ' . "y".z']) if name == UNKNOWN else ""
        self.put(self.key(name) + dots, *place)
        self.put(f" = {self.value(value)}")

    def head(self, *names: str) -> str:
        """The head of a table."""
        return self.chance.choice([".", " . "]).join(self.key(name) for name in names)

    def below(self, *place: str | int) -> None:
        """The key that isn't known, as a table below a head."""
        head = self.head(*names_in(place), *self.chance.choice([(), ("x", "y")]))
        self.put(self.chance.choice([f"[{head}]", f" [ {head} ]", f"[[{head}]]"]), *place)
        self.end_line()
        self.put(f"vl = 7{self.feed}buffer = []")
        self.end_line()

    def heads(self, row: dict, *place: str | int) -> None:
        """A table below a head, and then the tables in it."""
        head = self.head(*names_in(place))
        self.put(self.chance.choice([f"[[{head}]]", f"  [[ {head} ]]"]), *place)
        self.end_line()
        self.keys(row, *place)

    def keys(self, row: dict, *place: str | int) -> None:
        """The keys of a table below a head, or of the top; then the tables in it, in braces or
        below heads."""
        parts = [key for key in row if key in MARKS and is_tables(row[key])]
        is_below = UNKNOWN in row and self.chance.random() < 0.5
        for key, value in row.items():
            if key not in parts and (key != UNKNOWN or not is_below):
                self.pair(value, *place, key)
                self.end_line()
        braces = [part for part in parts if self.chance.random() < 0.5]
        for part in braces:
            self.braces(row[part], *place, part)
            self.end_line()
        heads = [part for part in parts if part not in braces for _ in row[part]]
        self.chance.shuffle(heads)
        for before, part in enumerate(heads):
            index = heads[:before].count(part)
            self.heads(row[part][index], *place, part, index + 1)
        if is_below:
            self.below(*place, UNKNOWN)

    def braces(self, rows: list[dict], *place: str | int) -> None:
        """All tables of an array in braces."""
        self.put(f"{self.key(str(place[-1]))} = [")
        for index, row in enumerate(rows, 1):
            self.break_line()
            self.put("{", *place, index)
            for number, (key, value) in enumerate(row.items()):
                if number > 0:
                    self.put(", ")
                self.break_line()
                if key in MARKS and is_tables(value):
                    self.braces(value, *place, index, key)
                else:
                    self.pair(value, *place, index, key)
            self.put("}, ")
        self.put("]")


class Fault(NamedTuple):
    """Where a fault was put, the key that has it, and what is wrong."""

    place: Place
    key: str
    how: str


def is_tables(value: object) -> bool:
    """It is an array of tables."""
    return isinstance(value, list) and all(isinstance(row, dict) for row in value)


def names_in(place: Place) -> list[str]:
    """The names of a place."""
    return [str(name) for name in place if isinstance(name, str)]


def table_at(tables: dict, place: Place) -> dict:
    """The table of a place."""
    for array, number in zip(place[::2], place[1::2]):
        tables = tables[array][int(number) - 1]
    return tables


def tables_in(chance: random.Random, tables: dict, place: Place) -> Place:
    """The place of one of the tables of a table, or its own."""
    part = chance.choice([None, *(part for part in MARKS if tables.get(part))])
    return place if part is None else (*place, part, chance.randrange(len(tables[part])) + 1)


def place_for(chance: random.Random, tables: dict) -> Place:
    """The place of a table in which a fault is put."""
    place = tables_in(chance, tables, ())
    return tables_in(chance, table_at(tables, place), place) if "switch" in place else place


def spoiled(chance: random.Random, tables: dict) -> Fault:
    """Puts one fault into the tables."""
    place = place_for(chance, tables)
    row = table_at(tables, place)
    known = [key for key in row if key not in MARKS or not is_tables(row[key])]
    if "switch" not in place and row is tables:
        known = ["buffer"] if "buffer" in row else []
    how = chance.choice(["wrong", "absent", "unknown"] if known else ["unknown"])
    key = UNKNOWN if how == "unknown" else chance.choice(known)
    if how == "wrong":
        row[key] = WRONG.get(key, 99_999_999)
    elif how == "absent":
        del row[key]
    else:
        row[key] = Toml(chance.choice(STRANGE))
    rows = list(row.items())
    chance.shuffle(rows)
    row.clear()
    row.update(rows)
    return Fault(place, key, how)


def table_text(tables: dict, place: Place) -> str:
    """A table, with its switch if it is in one, by their values."""
    texts = []
    for end in range(len(place), 0, -2):
        part, row = str(place[end - 2]), table_at(tables, place[:end])
        marks = [f"{mark} {row[mark]}" for mark in MARKS[part] if row.get(mark, "") != ""]
        texts.append(f"{part} {place[end - 1]}" + (f" ({', '.join(marks)})" if marks else ""))
    return " of ".join(texts)


def value_text(value: object) -> str:
    """What the key is, if that is short."""
    if isinstance(value, int):
        return f" is {value}"
    if isinstance(value, str) and len(value) <= 40 and " " not in value:
        return f" is '{value}'"
    return ""


def wanted(layout: Layout, tables: dict, fault: Fault) -> str:
    """The last line of the explanation."""
    place, key, how = fault
    if not place and how == "absent":
        return ABSENT
    line = f"Line {layout.lines[place if how == 'absent' else (*place, key)]} of CONFIG"
    table = table_text(tables, place)
    if how == "absent":
        return f"{line}: {table}, without {key}."
    value = "" if key == UNKNOWN else value_text(table_at(tables, place)[key])
    return f"{line}: {key} of {table}{value}." if place else f"{line}: {key}{value}."


def sound_tables(chance: random.Random) -> dict:
    """A sound configuration, of one switch or of two."""
    if chance.random() < 0.5:
        return base_tables()
    return example_tables("two_switches.toml")


def main() -> int:
    if len(sys.argv) != 2:
        print(__doc__, file=sys.stderr)
        return 2
    status = 0
    with tempfile.TemporaryDirectory(prefix="afdx-tests-") as folder:
        path = pathlib.Path(folder) / "config.toml"
        for seed in range(COUNT):
            chance = random.Random(seed)
            tables = sound_tables(chance)
            fault = spoiled(chance, tables)
            layout = Layout(chance)
            layout.keys(tables)
            path.write_bytes(layout.text.encode())
            words = [sys.argv[1], "check", "--explain", str(path)]
            ran = subprocess.run(words, capture_output=True, text=True, check=False)
            told = ran.stderr.splitlines()[-1:]
            line = wanted(layout, tables, fault)
            if told != [line]:
                print(f"layout {seed}: wanted {line!r}, told {told}")
                status = 1
    return status


if __name__ == "__main__":
    sys.exit(main())
