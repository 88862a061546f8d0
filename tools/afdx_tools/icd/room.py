"""Latencies, skews and a buffer with room for growth, and those of an earlier configuration where
they are still enough."""
from __future__ import annotations

from dataclasses import dataclass, field

from afdx_tools.faults import Failed
from afdx_tools.icd.document import MOST_BUFFER, Document
from afdx_tools.icd.untimely import too_far_apart, too_full, too_late
from afdx_tools.solving import Bounds
from afdx_tools.spreadsheets.cells import MOST_US


@dataclass(frozen=True)
class Room:
    """The percent of room that is asked for; by how many ns one copy of a frame may be sent later
    than the other; buffer and links (by their identifiers) of an earlier configuration, which are
    none where there is none."""

    reserve: int
    apart: int = 0
    old_buffer: int = 0
    old_links: dict[int, dict] = field(default_factory=dict)

    def solve_options(self) -> list[str]:
        """The options by which `solve` lowers no value, and skews allow for such copies."""
        return ["--raise-only", *(["--apart", str(self.apart)] if self.apart else [])]

    def added(self, amount: int, divisor: int = 1) -> int:
        """So much and the reserve, divided, rounded up."""
        return -(-amount * (100 + self.reserve) // (100 * divisor))

    def enough_us(self, bounds: Bounds) -> dict[int, int]:
        """The latency that is enough for each link, with the reserve."""
        return {vl: self.added(worst.amount, 1000) for vl, worst in bounds.latencies.items()}

    def link(self, wanted: dict, solved: dict, needed_ns: int) -> dict:
        """A link with its latency and its skew. `wanted` has those that the document asks for, or
        none; `solved` the least, but no less than these."""
        old = self.old_links.get(wanted["vl"], {})
        latency = max(solved["latency_us"], self.added(needed_ns, 1000))
        if wanted["latency_us"] is None and 1000 * old.get("latency_us", 0) >= needed_ns:
            latency = old["latency_us"]
        asked = wanted["skew_us"]
        least = latency - (-self.apart // 1000)
        skew = max(least, old.get("skew_us", 0) if asked is None else asked)
        return solved | {"latency_us": latency, "skew_us": skew}


def room_of(reserve: int, apart: int, since: dict | None) -> Room:
    """The room that is asked for, beside the tables of an earlier configuration."""
    if since is None:
        return Room(reserve, apart)
    links = {link["vl"]: link for link in since.get("link", [])}
    return Room(reserve, apart, since["buffer"], links)


def roomy(document: Document, room: Room, bounds: Bounds, tables: dict) -> dict:
    """The tables that `solve` made, with room. Failed where a value would be out of its range."""
    links = [
        room.link(wanted, solved, bounds.latencies[wanted["vl"]].amount)
        for wanted, solved in zip(document.links, tables["link"])
    ]
    for link in links:
        if link["latency_us"] > MOST_US:
            port, needed_ns = bounds.latencies[link["vl"]]
            more = f", and {link['latency_us']} us with a reserve of {room.reserve} %"
            raise Failed(too_late(document, port, link["vl"], str(needed_ns), more), 1)
        if link["skew_us"] > MOST_US:
            raise Failed(too_far_apart(document, link["vl"], f"{link['skew_us']} us"), 1)
    needed = tables["buffer"]
    buffer = room.old_buffer if room.old_buffer >= needed else room.added(needed)
    if buffer > MOST_BUFFER:
        more = f", and {buffer} with a reserve of {room.reserve} %"
        raise Failed(too_full(document, bounds.buffer.port, str(needed), more), 1)
    return tables | {"buffer": buffer, "link": links}
