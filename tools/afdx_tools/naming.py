"""What an interface document calls the systems, switches and messages of a configuration: a table
beside it, as `net.names.csv` beside `net.toml`. A configuration takes no `_` and `-` in names, and
knows messages by numbers alone."""
from __future__ import annotations

import contextlib
import os
import re
from collections import Counter
from dataclasses import dataclass, field, replace
from typing import Any, Iterable, Iterator, TypeVar

from afdx_tools.config import Cable, Config, Link, System
from afdx_tools.faults import Refused, cut, shown
from afdx_tools.outputs import whole
from afdx_tools.tables import Row

COLUMNS = dict.fromkeys(("called", "part", "name", "number", "udp"), True)  # the first names a row
PARTS = ("system", "switch", "message")
MOST_BYTES = 4_194_304
MOST_ROWS = 100_000
LONGEST = 60  # characters of a name, and of the names of a link's messages together
APOSTROPHE = re.compile(r"(^|;)( *)'(?=[=+\-@])")
End = TypeVar("End", System, Cable)


def table_beside(config: str) -> str:
    """The path of the table beside a configuration."""
    return f"{config.removesuffix('.toml')}.names.csv"


@contextlib.contextmanager
def copied_table(config: str, other: str) -> Iterator[None]:
    """Copies the table beside a configuration to another one, once what is done meanwhile is
    done."""
    path = table_beside(config)
    if path == table_beside(other) or not os.path.isfile(path):
        yield
        return
    with open(path, "rb") as file:
        text = file.read(MOST_BYTES).decode(errors="replace")
    with with_table(other, text):
        yield


@dataclass
class Naming:
    """What the document calls the ends of cables and lines, by their names in the configuration,
    and the messages of each link."""

    ends: dict[str, str] = field(default_factory=dict)
    messages: dict[int, list[str]] = field(default_factory=dict)
    path: str = ""

    def of_link(self, vl: int) -> str:
        """The messages of a link, in a few words; nothing where it isn't in the table."""
        return cut(", ".join(dict.fromkeys(self.messages.get(vl, []))), LONGEST)

    def by_link(self, links: Iterable[int]) -> dict[int, str]:
        """What these links are called, as far as it is known."""
        return {vl: name for vl in links if (name := self.of_link(vl))}


def row_of(part: str, name: str, called: str, number: int | None, udp: int | None) -> Row:
    """A row of the table: a system with its number in addresses, a switch, or a message with the
    number of its link and its UDP port."""
    return {"part": part, "name": name, "number": number, "udp": udp, "called": called}


@contextlib.contextmanager
def with_table(config: str, text: str) -> Iterator[None]:
    """Writes the table beside a configuration, once what is done meanwhile is done; none where the
    configuration isn't a regular file."""
    if config == "-" or (os.path.lexists(config) and not os.path.isfile(config)):
        yield
        return
    with whole(table_beside(config)) as file:
        file.write(text.encode())
        yield


def name_in(cell: str) -> str:
    """A name as it can be printed, without the apostrophe that stands where a spreadsheet would see
    a formula."""
    return cut(shown(APOSTROPHE.sub(r"\1\2", cell)), LONGEST)


def read_table(path: str) -> Naming:
    """Reads the table."""
    from afdx_tools.spreadsheets.sheets import read_sheet

    if os.path.getsize(path) > MOST_BYTES:
        raise Refused(f"{shown(path)}: it has more than {MOST_BYTES:,} bytes")
    naming = Naming(path=shown(path))
    for row in read_sheet(path, COLUMNS, most=MOST_ROWS).rows:
        part, called = row.cells["part"], name_in(row.name)
        if part not in PARTS:
            raise Refused(f"{row.at('part')}: it has to be one of {', '.join(PARTS)}")
        if part != "message":
            naming.ends[row.cells["name"]] = called
        elif row.cells["number"].isascii() and row.cells["number"].isdigit():
            naming.messages.setdefault(int(row.cells["number"]), []).append(called)
        else:
            raise Refused(f"{row.at('number')}: it has to be the number of a link")
    return naming


def naming_beside(config: str) -> Naming:
    """What the table beside a configuration says; nothing where there is none."""
    path = table_beside(config)
    return read_table(path) if os.path.isfile(path) else Naming()


# ---- a configuration with these names ------------------------------------------------------------


def with_names(config: Config, ends: dict[str, str], messages: dict[int, str]) -> Config:
    """The configuration with other names of systems and switches, and with names of links."""

    def renamed(link: Link) -> Link:
        return replace(link, source=ends[link.source], to=tuple(ends[name] for name in link.to))

    def end(one: End) -> End:
        return replace(one, name=ends[one.name])

    several = config.several and replace(
        config.several,
        names=tuple(ends[name] for name in config.names),
        cables={port: end(cable) for port, cable in config.cables.items()},
        rows={key: renamed(link) for key, link in config.several.rows.items()},
    )
    return replace(
        config,
        systems={ends[name]: end(system) for name, system in config.systems.items()},
        links={vl: renamed(link) for vl, link in config.links.items()},
        several=several,
        messages=messages,
    )


def as_called(config: Config, naming: Naming) -> Config:
    """The configuration with the names of the table beside it; Refused where two would have one."""
    ends = {name: naming.ends.get(name) or name for name in [*config.systems, *config.names]}
    for name, count in Counter(ends.values()).items():
        if count > 1:
            raise Refused(f"{naming.path}: two are called {name}")
    return with_names(config, ends, naming.by_link(config.links))


ENDS = ("from", "to", "system", "switch")  # columns with names of systems and switches


def named_rows(value: Any, naming: Naming) -> Any:
    """The rows of a report with the names of the table: each about a link has its messages beside
    it."""
    if not (naming.ends or naming.messages):
        return value
    if isinstance(value, list):
        return [named_rows(each, naming) for each in value]
    if not isinstance(value, dict):
        return value
    row = {}
    for name, each in value.items():
        is_end = name in ENDS and isinstance(each, str)
        row[name] = naming.ends.get(each) or each if is_end else named_rows(each, naming)
        if name == "link" and naming.messages and not isinstance(each, (list, dict)):
            row["message"] = naming.of_link(each)
    return row
