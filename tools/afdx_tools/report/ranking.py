"""Which links come nearest to their configured latency, and which are over it."""
from __future__ import annotations

from typing import Sequence

from afdx_tools.tables import Row, link_words, percent

FEWEST = 10  # copies at a port, of both sides, below which a link isn't ranked there


def latencies_of(report: Row) -> list[Row]:
    """The latencies that links are ranked by: those from end to end, where there are such."""
    return report["ways"] if "ways" in report else report["latency"]


def place_of(row: Row) -> tuple:
    """A row's port, of several switches also which it is at."""
    return row["link"], row.get("switch", ""), row["port"]


def port_of(row: Row) -> str:
    """A row's port in words: `port 3`, of several switches `fwd port 3`."""
    return f"{row.get('switch', '')} port {row['port']}".lstrip()


def at_system(row: Row) -> str:
    """Where a row is, and what is there."""
    return f"at {port_of(row)} ({row['system']})"


def at(row: Row) -> str:
    """Where a row is; of one switch the port alone."""
    return at_system(row) if "switch" in row else f"at {port_of(row)}"


def ranked(latency: Sequence[Row]) -> list[Row]:
    """The rows that are late, and those of ports to which enough frames of the link came, by share
    of the configured latency, the greatest first."""
    return sorted(kept(latency), key=rank_of)


def kept(latency: Sequence[Row]) -> list[Row]:
    """The rows that are ranked, as they stand."""
    places = list(map(place_of, latency))
    copies: dict[tuple, int] = {}
    for place, row in zip(places, latency):
        copies[place] = copies.get(place, 0) + row["frames"]
    return [
        row for place, row in zip(places, latency) if row["late"] or copies[place] >= FEWEST
    ]


def rank_of(row: Row) -> tuple:
    """By what they are ranked, the first one having the least."""
    return -row["share"], *place_of(row), row["side"]


def nearest(latency: Sequence[Row]) -> Row | None:
    """The first of those that are ranked."""
    rows = kept(latency)
    return min(rows, key=rank_of) if rows else None


def late_ones(latency: Sequence[Row]) -> list[Row]:
    """Those of the ranked rows that are late."""
    return sorted((row for row in latency if row["late"]), key=rank_of)


def latency_words(row: Row) -> str:
    """A row of latencies in words."""
    return (
        f"link {link_words(row)} {at(row)}, side {row['side']}, "
        f"{row['greatest_ns']:,} of {row['configured_ns']:,} ns configured "
        f"({percent(row['share'])})"
    )


def latency_text(row: Row) -> str:
    """The same without commas in numbers."""
    return (
        f"link {link_words(row)} {at(row)}, side {row['side']}: {row['greatest_ns']} of "
        f"{row['configured_ns']} ns configured ({percent(row['share'])})"
    )
