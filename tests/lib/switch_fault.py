"""The first fault of a configuration that may describe several switches, by the order of
docs/FORMATS.md, apart from the program."""
from __future__ import annotations

from typing import Iterator

from first_fault import Fault, config_fault, faults_of, table_faults


def is_cascade(tables: dict) -> bool:
    """The file describes several switches: it has them, and no profile at its top."""
    return "switch" in tables and "profile" not in tables


def top_faults(tables: dict) -> Iterator[str]:
    """The faults of the top of a file of several switches."""
    switches = tables["switch"]
    if not isinstance(switches, list) or not all(isinstance(row, dict) for row in switches):
        yield "WrongKind top 0 key 6"
    if not 1 <= len(switches) <= 24:
        yield "OutOfRange top 0 key 6"
    if set(tables) != {"switch"}:
        yield "UnknownKey top 0 key 0"


def name_faults(switches: list[dict]) -> Iterator[tuple[int, Fault]]:
    """Switches that have the name of one before, by their places from 0."""
    names = [switch["name"] for switch in switches]
    for k, name in enumerate(names):
        if name in names[:k]:
            yield k, Fault("Twice", "top", 0, 6)


def system_faults(switches: list[dict]) -> Iterator[tuple[int, Fault]]:
    """Systems that have the name of a switch, or the name or number of a system before."""
    names = {switch["name"] for switch in switches}
    ids: set[int] = set()
    for k, switch in enumerate(switches):
        for index, system in enumerate(switch["system"], 1):
            if system["name"] in names:
                yield k, Fault("Twice", "system", index, 1)
            if system["id"] in ids:
                yield k, Fault("Twice", "system", index, 3)
            names.add(system["name"])
            ids.add(system["id"])


def cable_faults(switches: list[dict]) -> Iterator[tuple[int, Fault]]:
    """Neighbours that are no other switch, or one whose end of the cable is missing or has another
    rate."""
    for k, switch in enumerate(switches):
        for index, end in enumerate(switch["neighbour"], 1):
            far = [other for other in switches if other["name"] == end["name"] != switch["name"]]
            if not far:
                yield k, Fault("NoSuchSystem", "neighbour", index, 1)
                continue
            back = [row for row in far[0]["neighbour"] if row["name"] == switch["name"]]
            if not back:
                yield k, Fault("OutOfRange", "neighbour", index, 1)
            elif back[0]["rate"] != end["rate"]:
                yield k, Fault("OutOfRange", "neighbour", index, 3)


def start_faults(switches: list[dict]) -> Iterator[tuple[int, Fault]]:
    """Links that a system sends here and another one at a switch before."""
    begun: dict[int, int] = {}
    for k, switch in enumerate(switches):
        names = [system["name"] for system in switch["system"]]
        for index, link in enumerate(switch["link"], 1):
            if link["from"] in names and begun.setdefault(link["vl"], k) != k:
                yield k, Fault("Twice", "link", index, 2)


def cascade_faults(tables: dict) -> Iterator[str]:
    """The faults of a file of several switches in their order; only the first one counts."""
    yield from top_faults(tables)
    switches = tables["switch"]
    for k, switch in enumerate(switches, 1):
        yield from (fault.text(f"switch {k} ") for fault in table_faults(switch, "switch"))
    for faults in (name_faults, system_faults, cable_faults, start_faults):
        yield from (fault.text(f"switch {k + 1} ") for k, fault in faults(switches))


def any_faults(tables: dict) -> Iterator[str]:
    """The faults of a file of one switch or of several."""
    return cascade_faults(tables) if is_cascade(tables) else faults_of(tables)


def file_fault(text: bytes) -> bytes:
    """The line on standard error for a file of one switch or of several; none where it has no
    fault."""
    return config_fault(text, any_faults)
