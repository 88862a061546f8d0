"""What is another in a configuration than in an earlier one, and why, for each number of a link."""
from __future__ import annotations

import functools
from typing import Callable, Collection, Iterable, Iterator, Mapping, NamedTuple, TypeVar

from afdx_tools.icd.document import Document
from afdx_tools.icd.layout import names_of, value_text
from afdx_tools.solving import Bounds, Worst

FEW = 8  # links that a reason names
OF_SYSTEM = ("port", "id", "partition", "rate")
OF_LINK = ("from", "to", "bag_ms", "lmin", "lmax", "priority", "policing", "subs")
SOLVED = ("jitter_us", "latency_us", "skew_us")
OF_SENDER = ("lmax",)  # by which a link holds up the others of its sender
AT_PORT = ("bag_ms", "lmax", "jitter_us", "priority")  # by which one holds up others at a port
AS_ASKED = "the table says so"
UDP_PORT = "UDP port {udp} of link {link} at {system}"

Key = TypeVar("Key", int, str)  # what names a row of a table


class Change(NamedTuple):
    """A key of a link that has another value, as both are spelled, and why."""

    key: str
    old: str
    new: str
    why: str


def numbered(vls: Iterable[int], most: int) -> str:
    """Links by their identifiers: so many of them, and how many others there are."""
    numbers = list(map(str, sorted(vls)))
    others = f" and {len(numbers) - most} others" if len(numbers) > most else ""
    head = "link" if len(numbers) == 1 else "links"
    return f"{head} {', '.join(numbers[:most])}{others}"


def reasons(
    old: Mapping[int, dict], new: Mapping[int, dict], keys: Iterable[str], where: str
) -> Iterator[str]:
    """What is another between two sets of links, as far as these keys say it."""
    if new.keys() - old.keys():
        yield f"new {where}: {numbered(new.keys() - old.keys(), FEW)}"
    if old.keys() - new.keys():
        yield f"no longer {where}: {numbered(old.keys() - new.keys(), FEW)}"
    for key in keys:
        vls = [vl for vl in old.keys() & new.keys() if old[vl][key] != new[vl][key]]
        if vls:
            yield f"other {key}: {numbered(vls, FEW)}"


def row_lines(
    old: Mapping[Key, dict],
    new: Mapping[Key, dict],
    keys: Iterable[str],
    called: Callable[[Key], str],
) -> list[str]:
    """The rows that are new or gone, and what is another in one that stayed."""
    lines = [f"{called(key)}: new" for key in new if key not in old]
    lines += [f"{called(key)}: gone" for key in old if key not in new]
    for name, key in ((name, key) for name in new if name in old for key in keys):
        if old[name][key] != new[name][key]:
            was, now = value_text(old[name][key]), value_text(new[name][key])
            lines.append(f"{called(name)}: {key} {was} to {now}")
    return lines


class Tables:
    """The tables of a configuration, or of one of its switches, by what names their rows."""

    def __init__(self, tree: dict) -> None:
        self.buffer: int = tree["buffer"]
        self.systems: dict[str, dict] = {row["name"]: row for row in tree.get("system", [])}
        self.neighbours: dict[str, dict] = {row["name"]: row for row in tree.get("neighbour", [])}
        self.ends = self.systems | self.neighbours
        self.links: dict[int, dict] = {row["vl"]: row for row in tree.get("link", [])}
        self.ports: list[dict] = tree.get("port", [])

    def sent_by(self, name: str) -> dict[int, dict]:
        """The links that a system sends."""
        return {vl: link for vl, link in self.links.items() if link["from"] == name}

    def sent_to(self, name: str) -> dict[int, dict]:
        """The links that go to a system."""
        return {vl: link for vl, link in self.links.items() if name in link["to"]}

    def ports_of(self, vls: Collection[int]) -> dict[str, dict]:
        """The communication ports of these links, by what they are called."""
        rows = (row for row in self.ports if row["link"] in vls)
        return {UDP_PORT.format(**row): row for row in rows}


class Comparison:
    """An earlier configuration and one that was made of a document, with its bounds."""

    def __init__(self, document: Document, old: dict, new: dict, bounds: Bounds) -> None:
        self.document, self.bounds = document, bounds
        self.old, self.new = Tables(old), Tables(new)
        self.asked = {link["vl"]: link for link in document.links}
        self.of_sender = functools.cache(self.why_sender)
        self.of_system = functools.cache(self.why_system)

    def rates(self, name: str) -> list[str]:
        """A system, or another switch, whose line has another rate."""
        old, new = (tables.ends.get(name, {}).get("rate") for tables in (self.old, self.new))
        return [f"other rate: {name}"] if old != new else []

    def why_sender(self, name: str) -> str:
        """Why the jitter of a sender's links is another."""
        links = self.old.sent_by(name), self.new.sent_by(name)
        found = [*reasons(*links, OF_SENDER, f"from {name}"), *self.rates(name)]
        return "; ".join(found) or "it wasn't the least"

    def why_system(self, name: str) -> list[str]:
        """Why the bounds of the port to a system are others."""
        links = self.old.sent_to(name), self.new.sent_to(name)
        return [*reasons(*links, AT_PORT, f"to {name}"), *self.rates(name)]

    def why_bound(self, worst: Worst, what: str) -> str:
        """Why so much is needed at a port; `what` has room for the amount and the system."""
        name = next(name for name, row in self.new.ends.items() if row["port"] == worst.port)
        return "; ".join([what.format(worst.amount, name), *self.of_system(name)])

    def why(self, vl: int, key: str) -> str:
        """Why a key of a link that is solved has another value."""
        if self.asked[vl][key] == self.new.links[vl][key]:
            return AS_ASKED
        if key == "jitter_us":
            return self.of_sender(self.new.links[vl]["from"])
        if key == "skew_us":
            return "as its latency"
        return self.why_bound(self.bounds.latencies[vl], "it can take {0} ns to {1}")

    def changes(self) -> dict[Change, list[int]]:
        """The keys of links that have other values, with the links that have them."""
        found: dict[Change, list[int]] = {}
        stayed = [vl for vl in self.new.links if vl in self.old.links]
        for key, vl in ((key, vl) for key in (*OF_LINK, *SOLVED) for vl in stayed):
            old, new = (tables.links[vl][key] for tables in (self.old, self.new))
            if old != new:
                why = AS_ASKED if key in OF_LINK else self.why(vl, key)
                change = Change(key, value_text(old), value_text(new), why)
                found.setdefault(change, []).append(vl)
        return found

    def called(self, vl: int) -> str:
        """A link, and what the document calls it if it has it."""
        names = names_of(self.document, vl) if vl in self.document.messages else []
        return ", ".join([f"link {vl}", *names])

    def buffer_lines(self) -> list[str]:
        """The buffer, if it is another."""
        if self.old.buffer == self.new.buffer:
            return []
        why = self.why_bound(self.bounds.buffer, "{0} bytes can wait for {1}")
        return [f"buffer {self.old.buffer} to {self.new.buffer} ({why})"]

    def lines(self) -> list[str]:
        """A line for each thing that is another; one if nothing is."""
        old, new = self.old, self.new
        lines = row_lines(old.systems, new.systems, OF_SYSTEM, lambda name: f"system {name}")
        lines += row_lines(old.links, new.links, (), self.called)
        for change, vls in self.changes().items():
            named = self.called(vls[0]) if len(vls) == 1 else numbered(vls, len(vls))
            lines.append(f"{named}: {change.key} {change.old} to {change.new} ({change.why})")
        lines += self.buffer_lines()
        both = old.links.keys() & new.links.keys()
        lines += row_lines(old.ports_of(both), new.ports_of(both), ("kind", "depth"), str)
        return lines or ["nothing changed"]
