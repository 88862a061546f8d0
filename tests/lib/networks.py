"""Networks made at random, or for one purpose: lawful tables, admitted or not."""
from __future__ import annotations

import random

from first_fault import BAGS
from least import SOLVED
from tables import base_tables, link_of, system_of, tables_of, with_values

BEYOND = (0, 1, 100_001, 4_194_305, 2**63 - 1)  # numbers for keys that are solved


def link_between(chance: random.Random, vl: int, names: list[str], is_light: bool) -> dict:
    """A link, whose four keys have any value in range."""
    sender = names[vl % len(names)]
    others = [name for name in names if name != sender]
    bag = chance.choice(BAGS[3:] if is_light else BAGS)
    lmin = chance.choice([64, 64, 70, 100])
    return link_of(
        vl,
        sender,
        chance.sample(others, chance.randint(1, min(3, len(others)))),
        bag=bag,
        lmin=lmin,
        lmax=chance.randint(lmin, 200 if is_light else 1518),
        jitter=chance.choice([0, 40, 100, 250, 500, 1000 * bag]),
        priority=chance.choice(["high", "low"]),
        policing=chance.choice(["byte", "frame"]),
        latency=chance.choice([1, 20, 200, 2000, 100_000]),
        skew=chance.choice([1, 20, 200, 2000, 100_000]),
    )


def network(chance: random.Random, links: int, is_light: bool) -> dict:
    """A network of so many links, each system of which sends about as many; a light one has values
    with which it is admitted, unless it has many links to a slow line."""
    profile = chance.choice([1, 2])
    rates = [10, 100, 100, 100] if links <= 40 else [100]
    rates += [1000] if profile == 2 else []
    count = 24 if links > 100 else chance.randint(2, 24)
    ports = chance.sample(range(1, 25), count)
    systems = [system_of(port, chance.choice(rates)) for port in ports]
    names = [system["name"] for system in systems]
    buffer = chance.choice([64, 300, 3000, 65536])
    rows = [link_between(chance, vl, names, is_light) for vl in range(links)]
    return tables_of(systems, rows, profile=profile, buffer=buffer)


def with_any_keys(chance: random.Random, tables: dict) -> dict:
    """The tables with some of the four keys absent, or with any number in their place."""

    def changed(row: dict) -> dict:
        row = dict(row)
        for key in SOLVED.values():
            kind = chance.random()
            if key in row and kind < 0.4:
                row[key] = None if kind < 0.2 else chance.choice(BEYOND)
        return row

    return changed(tables) | {"link": [changed(link) for link in tables["link"]]}


def one_port(profile: int, senders: int, links: int, lmax: int, rate: int) -> dict:
    """Links of the longest gap from some senders to the system s24, whose line has that rate."""
    fastest = 1000 if profile == 2 else 100
    systems = [system_of(port, fastest) for port in range(1, senders + 1)]
    tables = base_tables(profile)
    row = with_values(tables["link"][0], to=["s24"], bag=128, lmax=lmax)
    rows = [with_values(row, vl=vl, sender=f"s{vl % senders + 1}") for vl in range(links)]
    return tables | {"system": [*systems, system_of(24, rate)], "link": rows, "port": []}


def unsolvable() -> list[tuple[str, dict, str]]:
    """Tables for which no values in range are enough: why, and the line that says so."""
    return [
        ("a port is overloaded", one_port(1, 5, 130, 1518, 10), "no A1 24"),
        ("a buffer is too large", one_port(2, 1, 2800, 1518, 1000), "no A2 24 .."),
        ("a latency is too large", one_port(2, 3, 90, 1518, 10), "no A3 24 0 .."),
        ("a sender is too busy", one_port(1, 1, 4, 1518, 100), "no A5 s1 532160"),
    ]
