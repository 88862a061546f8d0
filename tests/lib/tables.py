"""Configurations: their keys, their rows, of which a test says what it is about and no more, and
their text.

All keys stand here alone. `KEY_ROWS` and `SWITCH_ROWS` have their ranges, `LEFT_OUT` those that may
be absent; `link_of`, `system_of`, `port_of`, `cable_of`, `switch_of` and `tables_of` have what they
are where a test says nothing. `KEYS` has the words of these that are other than the keys;
`with_values` and the changes of cascades take the words too.

    python3 -B tests/lib/tables.py NAME COUNT

writes a configuration of `MADE` with so many links, for tests in shell.
"""
from __future__ import annotations

import os
import sys
import tomllib
from typing import Callable

TOP = os.path.dirname(os.path.dirname(os.path.dirname(os.path.abspath(__file__))))
EXAMPLES = os.path.join(TOP, "examples")
KEYS = {
    "sender": "from", "bag": "bag_ms", "jitter": "jitter_us", "latency": "latency_us",
    "skew": "skew_us",
}  # fmt: skip
# of each part its keys by their numbers, with the least and the greatest value; of a text or an
# array of its length, of tables of their count; where a text is one of two words 0 and 0
KEY_ROWS = {
    "top": {
        "profile": (1, 2), "buffer": (64, 4_194_304), "system": (0, 24), "link": (0, 4_096),
        "port": (0, 4_096),
    },
    "system": {
        "name": (1, 16), "port": (1, 24), "id": (0, 65_535), "partition": (0, 255),
        "rate": (10, 1_000),
    },
    "link": {
        "vl": (0, 65_535), "from": (1, 16), "to": (1, 24), "bag_ms": (1, 128), "lmin": (64, 1_518),
        "lmax": (64, 1_518), "jitter_us": (0, 128_000), "priority": (0, 0), "policing": (0, 0),
        "latency_us": (1, 100_000), "skew_us": (1, 100_000), "subs": (1, 4),
    },
    "port": {
        "system": (1, 16), "link": (0, 65_535), "udp": (1, 65_535), "kind": (0, 0),
        "depth": (1, 64),
    },
}
# the same of a file of several switches: of the top of a switch, and of its neighbours
SWITCH_ROWS = {
    "switch": KEY_ROWS["top"] | {"name": (1, 16), "neighbour": (0, 23)},
    "neighbour": {"name": (1, 16), "port": (1, 24), "rate": (10, 1_000)},
}
# keys that a table may leave out
LEFT_OUT = {
    "top": ("system", "link", "port"), "switch": ("system", "link", "port", "neighbour"),
}  # fmt: skip


# ---- rows ----------------------------------------------------------------------------------------


def row_of(**values: object) -> dict:
    """A row by these words; a key that is None is absent."""
    return {KEYS.get(word, word): value for word, value in values.items() if value is not None}


def with_values(row: dict, **values: object) -> dict:
    """The row with other values, by these words."""
    return row | row_of(**values)


def changed(rows: list[dict], **values: object) -> list[dict]:
    """The rows, each with these values."""
    return [with_values(row, **values) for row in rows]


def system_of(
    port: int, rate: int = 100, name: str = "", ident: int | None = None, partition: int = 1
) -> dict:
    """The system at a port, which where nothing else is said has its number in all places."""
    ident = port if ident is None else ident
    return row_of(name=name or f"s{port}", port=port, id=ident, partition=partition, rate=rate)


def link_of(
    vl: int,
    sender: str,
    to: list[str],
    bag: int = 128,
    lmin: int = 64,
    lmax: int = 64,
    jitter: int | None = 500,
    priority: str = "high",
    policing: str = "byte",
    latency: int | None = 100_000,
    skew: int | None = 100_000,
    subs: int = 1,
) -> dict:
    """A link, which where nothing else is said sends little and may take any time: BAG in ms,
    lengths in bytes, jitter, latency and skew in us."""
    return row_of(
        vl=vl, sender=sender, to=to, bag=bag, lmin=lmin, lmax=lmax, jitter=jitter,
        priority=priority, policing=policing, latency=latency, skew=skew, subs=subs,
    )  # fmt: skip


def port_of(
    system: str, link: int, udp: int = 1000, kind: str = "sampling", depth: int = 1
) -> dict:
    """A communication port."""
    return row_of(system=system, link=link, udp=udp, kind=kind, depth=depth)


def cable_of(name: str, port: int, rate: int = 100) -> dict:
    """A cable at a port to the switch of that name."""
    return row_of(name=name, port=port, rate=rate)


def tables_of(
    systems: list[dict],
    links: list[dict],
    ports: list[dict] | None = None,
    profile: int = 1,
    buffer: int = 65536,
) -> dict:
    """The tables of a file of one switch a side."""
    return row_of(
        profile=profile, buffer=buffer, system=systems, link=links, port=ports or []
    )  # fmt: skip


def switch_of(
    name: str,
    systems: list[dict],
    cables: list[dict],
    links: list[dict] | None,
    ports: list[dict] | None,
    profile: int = 1,
    buffer: int = 4096,
) -> dict:
    """A switch of a cascade with its tables; an array that is None is absent."""
    return row_of(
        name=name, profile=profile, buffer=buffer, system=systems, neighbour=cables, link=links,
        port=ports,
    )  # fmt: skip


def system_named(tables: dict, name: str) -> dict:
    """The system of that name."""
    return next(system for system in tables["system"] if system["name"] == name)


# ---- examples, and tables that several tests have ------------------------------------------------


def example(name: str) -> bytes:
    """The bytes of an example."""
    with open(os.path.join(EXAMPLES, name), "rb") as file:
        return file.read()


def example_tables(name: str) -> dict:
    """The tables of an example."""
    return tomllib.loads(example(name).decode())


def base_tables(profile: int = 1, rate: int = 100) -> dict:
    """The tables of examples/base.toml in a profile, with all systems at a rate: link 1 of s1,
    high, and link 2 of s2, low, both to s3."""
    tables = example_tables("base.toml")
    return tables | {"profile": profile, "system": changed(tables["system"], rate=rate)}


def long_tables(profile: int = 1, rate: int = 100) -> dict:
    """The base tables, where the frames of link 1 have up to 1,518 bytes."""
    tables = base_tables(profile, rate)
    tables |= {"buffer": 4096, "link": changed(tables["link"], latency=1000)}
    tables["link"][0]["lmax"] = 1518
    return tables


def one_link_tables(bag_ms: int, lmax: int, jitter_us: int) -> dict:
    """The base tables with link 1 alone, as `police` judges it where no option says otherwise."""
    tables = base_tables()
    link = with_values(tables["link"][0], bag=bag_ms, lmax=lmax, jitter=jitter_us, policing="byte")
    return tables | {"buffer": 65536, "link": [link], "port": []}


def others_than(place: int) -> list[str]:
    """The names of 24 systems but one."""
    return [f"s{port}" for port in range(1, 25) if port != place]


def largest_tables() -> dict:
    """24 systems, 4,096 links each to all others, 4,096 communication ports; admitted, by 1 Gbit/s
    and long BAGs."""
    links = [
        link_of(
            vl, f"s{vl % 24 + 1}", others_than(vl % 24 + 1), latency=10_000, skew=10_000, subs=4,
            priority=["high", "low"][vl // 24 % 2], policing=["byte", "frame"][vl // 48 % 2],
        )
        for vl in range(4096)
    ]  # fmt: skip
    ports = [
        port_of(f"s{(vl + 1 + vl // 24 % 23) % 24 + 1}", vl, udp=1000 + vl) for vl in range(4096)
    ]
    systems = [system_of(port, 1000) for port in range(1, 25)]
    return tables_of(systems, links, ports, profile=2, buffer=524288)


def wide_tables(links: int, senders: int = 1) -> dict:
    """24 systems and so many links, each to all others: of the first system at 100 Mbit/s, which
    isn't admitted, or of several in turn at 1 Gbit/s."""
    rate, bag = (100, 1) if senders == 1 else (1000, 128)
    rows = [
        link_of(vl, f"s{place}", others_than(place), bag=bag, policing="frame", latency=17,
                skew=1000, subs=2)
        for vl in range(links)
        for place in [vl % senders + 1]
    ]  # fmt: skip
    ports = [port_of("s2" if senders == 1 else f"s{(vl + 1) % 24 + 1}", vl) for vl in range(links)]
    systems = [system_of(port, rate) for port in range(1, 25)]
    return tables_of(systems, rows, ports, profile=1 if senders == 1 else 2, buffer=252)


def long_link_tables(links: int) -> dict:
    """The systems of the base tables, and so many links of s1 to s3 of the longest frames and
    gap."""
    rows = [link_of(vl, "s1", ["s3"], lmax=1518, policing="frame") for vl in range(links)]
    return tables_of(base_tables()["system"], rows)


# ---- text ----------------------------------------------------------------------------------------


def value_text(value: object) -> str:
    """A value as TOML spells it."""
    if isinstance(value, bool):
        return str(value).lower()
    if isinstance(value, str):
        return f'"{value}"'
    if isinstance(value, list):
        return "[" + ", ".join(map(value_text, value)) + "]"
    return str(value)


def key_lines(row: dict) -> list[str]:
    """The lines of a row's keys."""
    return [f"{key} = {value_text(value)}" for key, value in row.items()]


def text_of(tables: dict) -> bytes:
    """A configuration that spells the tables."""
    lines = key_lines({key: tables[key] for key in ("profile", "buffer")})
    for part in ("system", "link", "port"):
        for row in tables[part]:
            lines += [f"[[{part}]]", *key_lines(row)]
    return ("\n".join(lines) + "\n").encode("ascii")


MADE: dict[str, Callable[[int], dict]] = {"wide": wide_tables, "long-links": long_link_tables}

if __name__ == "__main__":
    sys.stdout.buffer.write(text_of(MADE[sys.argv[1]](int(sys.argv[2]))))
