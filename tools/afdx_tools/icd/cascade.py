"""The tables of each switch of an interface document: a row of a link at each switch on its ways,
and the neighbours that these rows name."""
from __future__ import annotations

from dataclasses import dataclass, field
from typing import NamedTuple

from afdx_tools.icd.cabling import Cable, Cabling
from afdx_tools.icd.document import Document
from afdx_tools.icd.ways import way_to

Place = tuple[str, int]  # a row of a link: the switch, and the link's identifier


class Receiver(NamedTuple):
    """A receiver of a link."""

    vl: int
    system: str


@dataclass(frozen=True)
class Values:
    """The values of the keys that are solved: the buffers of switches, and of rows the jitters,
    latencies and skews in us. A key that isn't there has no value yet."""

    buffers: dict[str, int] = field(default_factory=dict)
    jitters: dict[Place, int] = field(default_factory=dict)
    latencies: dict[Place, int] = field(default_factory=dict)
    skews: dict[Place, int] = field(default_factory=dict)

    @staticmethod
    def of(switches: list[dict]) -> Values:
        """The values in the tables of switches."""
        rows = {(tables["name"], row["vl"]): row
                for tables in switches for row in tables.get("link", [])}
        jitters, latencies, skews = (
            {place: row[key] for place, row in rows.items()}
            for key in ("jitter_us", "latency_us", "skew_us")
        )
        buffers = {tables["name"]: tables["buffer"] for tables in switches}
        return Values(buffers, jitters, latencies, skews)


class Cascade:
    """The rows of a document's links at the switches, and the switches on the way to each receiver,
    all by names of the configuration. What no link needs is left out: a cable over which none goes,
    and a switch that then has neither a cable nor a system."""

    def __init__(self, document: Document, cabling: Cabling) -> None:
        self.document, self.cabling = document, cabling
        self.ways: dict[Receiver, list[str]] = {}
        self.rows: dict[str, dict[int, dict]] = {name: {} for name in cabling.switches.values()}
        for link in document.links:
            self.add_rows(link)
        hops = {(at, name) for at, rows in self.rows.items() for row in rows.values()
                for name in row["to"]}
        is_needed = [
            not hops.isdisjoint({(one.switch, other.switch), (other.switch, one.switch)})
            for one, other in (cable.ends for cable in cabling.cables)
        ]
        pairs = list(zip(cabling.cables, is_needed))
        self.cables = [cable for cable, needed in pairs if needed]
        self.unneeded = [cable for cable, needed in pairs if not needed]
        used = {end.switch for cable in self.cables for end in cable.ends}
        used.update(cabling.switch_of.values())
        self.switches = [name for name in self.rows if name in used]

    def add_rows(self, link: dict) -> None:
        """The rows of a link: where it comes from at each switch, and where it goes to."""
        vl, at = link["vl"], self.cabling.switch_of
        tree = self.document.trees[vl]
        to: dict[str, dict[str, None]] = {}
        for system in link["to"]:
            way = self.ways[Receiver(vl, system)] = way_to(tree, at[system])
            for switch, name in zip(way, [*way[1:], system]):
                to.setdefault(switch, {})[name] = None
        for switch, names in to.items():
            ends = {"from": tree[switch] or link["from"], "to": list(names)}
            self.rows[switch][vl] = link | ends

    def places(self) -> list[Place]:
        """All rows in the order of the configuration."""
        return [(switch, vl) for switch in self.switches for vl in self.rows[switch]]

    def leads_on(self, place: Place) -> bool:
        """A row goes to another switch."""
        switch, vl = place
        return not self.rows.keys().isdisjoint(self.rows[switch][vl]["to"])

    def places_to(self, receiver: Receiver) -> list[Place]:
        """The rows on the way to a receiver."""
        return [(switch, receiver.vl) for switch in self.ways[receiver]]

    def neighbours(self, switch: str) -> list[dict]:
        """The neighbours of a switch."""
        return [
            {"name": far.switch, "port": end.port, "rate": cable.rate}
            for _, cable, end, far in self.cabling.at(switch)
            if cable in self.cables
        ]

    def cable_at(self, switch: str, port: int) -> tuple[Cable, str] | None:
        """The cable that ends at a port of a switch, and the column that says so; none where a
        system is."""
        ends = ((each.cable, each.end) for each in self.cabling.at(switch))
        return next(((cable, end.column) for cable, end in ends if end.port == port), None)

    def system_at(self, switch: str, port: int) -> str:
        """What the document calls the system at a port of a switch."""
        at = self.cabling.switch_of
        return self.document.called(
            next(
                row["name"]
                for row in self.document.systems
                if row["port"] == port and at[row["name"]] == switch
            )
        )

    def row_with(self, place: Place, values: Values) -> dict:
        """A row with its values."""
        switch, vl = place
        row = self.rows[switch][vl]
        return row | {
            "jitter_us": values.jitters.get(place),
            "latency_us": values.latencies.get(place),
            "skew_us": values.skews.get(place, row["skew_us"]),
        }

    def tables(self, switch: str, values: Values) -> dict:
        """The tables of a switch with these values."""
        at = self.cabling.switch_of
        return {
            "name": switch,
            "profile": self.document.profile,
            "buffer": values.buffers.get(switch),
            "system": [row for row in self.document.systems if at[row["name"]] == switch],
            "neighbour": self.neighbours(switch),
            "link": [self.row_with((switch, vl), values) for vl in self.rows[switch]],
            "port": [row for row in self.document.ports if at[row["system"]] == switch],
        }
