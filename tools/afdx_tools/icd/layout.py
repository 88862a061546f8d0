"""The configuration of an interface document as text, in one layout: a link and a port a line, with
the names that the document has as remarks."""
from __future__ import annotations

from typing import Iterator, Mapping

from afdx_tools.faults import shown
from afdx_tools.icd.document import MOST_BUFFER, Document, apart
from afdx_tools.naming import row_of
from afdx_tools.spreadsheets.cells import MOST_US
from afdx_tools.tables import csv_text

SOLVED = ("jitter_us", "latency_us", "skew_us")  # the keys of a link that `solve` finds
PARTS = ("system", "link", "port")
SHORTER = (("  {", "{"), (", ", ","), (" = ", "="), ("{ ", "{"), (" }", "}"))
PARTS_OF_SEVERAL = ("system", "neighbour", "link", "port")


def value_text(value: object) -> str:
    """A value as TOML spells it."""
    if isinstance(value, str):
        return f'"{value}"'
    return f"[{', '.join(map(value_text, value))}]" if isinstance(value, list) else str(value)


def row_text(row: dict) -> str:
    """A table in a line; keys without a value are left out."""
    pairs = [
        f"{key} = {value if isinstance(value, int) else value_text(value)}"
        for key, value in row.items()
        if value is not None
    ]
    return f"{{ {', '.join(pairs)} }},"


def names_of(document: Document, vl: int) -> list[str]:
    """The names of a link's messages, each once."""
    return list(dict.fromkeys(shown(message.row.name) for message in document.messages[vl]))


def remarks_of(document: Document, part: str, row: dict, renamed: Mapping[str, str]) -> list[str]:
    """What the document calls the thing that a row is about, where a row doesn't say it."""
    if part == "link":
        return names_of(document, row["vl"])
    return [shown(renamed[row["name"]])] if row.get("name") in renamed else []


def part_lines(
    document: Document, part: str, rows: list[dict], renamed: Mapping[str, str]
) -> Iterator[str]:
    """An array of tables, a table a line."""
    yield f"{part} = ["
    for row in rows:
        yield from (f"  # {name}" for name in remarks_of(document, part, row, renamed))
        yield f"  {row_text(row)}"
    yield "]"


def text_of(document: Document, lines: list[str]) -> bytes:
    """The configuration with these lines."""
    head = f"# Made by afdx-icd from {document.source}."
    return "".join(f"{line}\n" for line in [head, *lines]).encode()


def config_text(document: Document, tables: dict) -> bytes:
    """The configuration with the buffer and the links of these tables, and with the names that the
    document has."""
    lines = [f"profile = {document.profile}"]
    lines += [f"buffer = {tables['buffer']}"] if "buffer" in tables else []
    renamed = {lawful: name for name, lawful in document.renamed().items()}
    rows = {"system": document.systems, "link": tables["link"], "port": document.ports}
    for part in PARTS:
        lines += ["", *part_lines(document, part, rows[part], renamed)]
    return text_of(document, lines)


def asked_text(document: Document) -> bytes:
    """The configuration with the keys that are asked for."""
    return config_text(document, {"link": document.links})


def any_text(document: Document) -> bytes:
    """The configuration with any values, each in its range, in the place of those that are
    solved."""
    values = {"jitter_us": 0, "latency_us": MOST_US, "skew_us": MOST_US}
    links = [link | values for link in document.links]
    return config_text(document, {"buffer": MOST_BUFFER, "link": links})


def several_text(document: Document, switches: list[dict]) -> bytes:
    """The configuration of several switches with these tables, and with the names that the document
    has. A part without rows is left out."""
    assert document.cabling is not None
    renamed = {name: key for key, name in document.renamed().items()}
    called = {name: key for key, name in document.cabling.renamed().items()}
    lines = []
    for tables in switches:
        name = tables["name"]
        lines += ["", "[[switch]]", *([f"# {shown(called[name])}"] if name in called else [])]
        keys = ("name", "profile", "buffer")
        lines += [f"{key} = {value_text(tables[key])}" for key in keys if tables[key] is not None]
        for part in filter(tables.get, PARTS_OF_SEVERAL):
            lines += part_lines(document, part, tables[part], renamed | called)
    return text_of(document, lines)


def shortened(config: bytes) -> bytes:
    """The same configuration without the names of messages and most spaces. In quotes stand names
    of the configuration alone, which have none of what is shortened."""
    lines = []
    for line in config.decode().splitlines():
        if not line.startswith("  # "):
            for long, short in SHORTER if not line.startswith("#") else ():
                line = line.replace(long, short)
            lines.append(line)
    return "".join(f"{line}\n" for line in lines).encode()


def with_solved(document: Document, solved: dict) -> dict:
    """The document's tables, with the keys that are solved as `solve` wrote them."""
    written = {link["vl"]: link for link in solved["link"]}
    links = [link | {key: written[link["vl"]][key] for key in SOLVED} for link in document.links]
    return {
        "buffer": solved["buffer"],
        "system": document.systems,
        "link": links,
        "port": document.ports,
    }


def naming_text(document: Document) -> str:
    """The table that stands beside the configuration: what the document calls its parts."""
    ids = {row["name"]: row["id"] for row in document.systems}
    rows = [row_of("system", lawful, name, ids[lawful], None)
            for name, lawful in document.names.items()]
    switches = document.cabling.switches if document.cabling else {}
    rows += [row_of("switch", lawful, name, None, None) for name, lawful in switches.items()]
    rows += [
        row_of("message", "", message.row.name, vl, udp)
        for vl, messages in document.messages.items()
        for udp, message in apart(messages).items()
    ]
    return csv_text(rows)
