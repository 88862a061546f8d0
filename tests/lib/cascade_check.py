"""What `check` must write of several switches a side, computed apart from the program by the
formulas of docs/NETWORK.md."""
from __future__ import annotations

from typing import Iterator

from cascade import own_names
from frames import byte_ns
from least import apart_line, false_lines, left_apart, port_lines

CONTRACT = ("bag_ms", "lmin", "lmax", "policing")  # what a link's rows have alike
MOST_SWITCHES = 24


class Ways:
    """The rows of the links, by switch and link, and the ways that they make."""

    def __init__(self, switches: list[dict]) -> None:
        self.own = {switch["name"]: own_names(switch) for switch in switches}
        self.rows = {
            (switch["name"], link["vl"]): link for switch in switches for link in switch["link"]
        }

    def way_to(self, name: str, vl: int) -> list[dict] | None:
        """The link's rows on its way to a switch, that of its sender first; None where the way is
        broken."""
        way: list[dict] = []
        behind = ""
        for _ in range(MOST_SWITCHES):
            row = self.rows.get((name, vl))
            if row is None or (way and behind not in row["to"]):
                return None
            way.insert(0, row)
            if row["from"] in self.own[name]:
                return way
            behind, name = name, row["from"]
        return None


def at_switch(line: str, name: str) -> str:
    """A false line of the switch's own tables, with its name."""
    no, condition, rest = line.split(" ", 2)
    return f"{no} {condition} {name} {rest}"


def latency_sum(way: list[dict]) -> int:
    """The time that a frame may take on a way, in us."""
    return sum(row["latency_us"] for row in way)


def false_behind(ways: Ways, name: str, link: dict) -> Iterator[str]:
    """The lines that are false of a link's row behind a cable: B1 to B4."""
    way = ways.way_to(name, link["vl"])
    if way is None:
        yield f"no B1 {name} {link['vl']}"
        return
    before = way[-2]
    if any(link[key] != before[key] for key in CONTRACT):
        yield f"no B2 {name} {link['vl']}"
    needed = before["jitter_us"] + before["latency_us"]
    if link["jitter_us"] < needed:
        yield f"no B3 {name} {link['vl']} {needed}"
    if ways.own[name].intersection(link["to"]) and link["skew_us"] < latency_sum(way):
        yield f"no B4 {name} {link['vl']} {latency_sum(way)}"


def unread(ways: Ways, name: str, link: dict) -> Iterator[str]:
    """The neighbours that a link goes to and where none of its rows comes from here: B5."""
    for other in link["to"]:
        if other not in ways.own[name]:
            row = ways.rows.get((other, link["vl"]))
            if row is None or row["from"] != name:
                yield f"no B5 {name} {link['vl']} {other}"


def cascade_false_lines(switches: list[dict]) -> list[str]:
    """Each line of admission that is false, in their order."""
    lines = [at_switch(line, sw["name"]) for sw in switches for line in false_lines(sw)]
    ways = Ways(switches)
    for switch in switches:
        for link in switch["link"]:
            if link["from"] not in ways.own[switch["name"]]:
                lines += false_behind(ways, switch["name"], link)
    for switch in switches:
        for link in switch["link"]:
            lines += unread(ways, switch["name"], link)
    return lines


def end_lines(switches: list[dict]) -> Iterator[str]:
    """Of each link and each system that it goes to the time that its frames may take, in ns."""
    ways = Ways(switches)
    for vl in dict.fromkeys(link["vl"] for switch in switches for link in switch["link"]):
        for switch in switches:
            row = ways.rows.get((switch["name"], vl), {"to": []})
            way = ways.way_to(switch["name"], vl)
            ns = "-" if way is None else 1000 * latency_sum(way)
            for system in switch["system"]:
                if system["name"] in row["to"]:
                    yield f"E {vl} {system['name']} {ns}"


def byte_times(switches: list[dict], switch: dict, system: str, way: list[dict]) -> int:
    """The times of a byte on the lines of a way, summed: on each cable, and to the system at its
    end."""
    named = {each["name"]: each for each in switches}
    total = sum(byte_ns(end) for end in switch["system"] if end["name"] == system)
    for row in reversed(way[1:]):
        cable = next(end for end in switch["neighbour"] if end["name"] == row["from"])
        total, switch = total + byte_ns(cable), named[row["from"]]
    return total


def left_by_row(switches: list[dict], switch: dict, vl: int) -> list[int]:
    """What a link's row at a switch leaves the copies of its frames, of each system there."""
    ways = Ways(switches)
    row, way = ways.rows.get((switch["name"], vl)), ways.way_to(switch["name"], vl)
    if row is None or way is None:
        return []
    return [
        left_apart(row, way, byte_times(switches, switch, name, way))
        for name in row["to"]
        if name in ways.own[switch["name"]]
    ]


def apart_lines(switches: list[dict]) -> Iterator[str]:
    """What each link leaves the copies of its frames."""
    for vl in dict.fromkeys(link["vl"] for switch in switches for link in switch["link"]):
        yield apart_line(vl, [ns for sw in switches for ns in left_by_row(switches, sw, vl)])


def short_row(switches: list[dict], apart: int) -> str:
    """The line of the first row that leaves less than is asked for, or nothing."""
    for switch in switches:
        for link in switch["link"]:
            least = min(left_by_row(switches, switch, link["vl"]), default=apart)
            if least < apart:
                return f"no apart {switch['name']} {link['vl']} {least}"
    return ""


def check_lines(cascade: dict, is_all: bool, with_margins: bool = False) -> list[str]:
    """What `check` writes of a cascade without a fault, with its options or without them."""
    switches = cascade["switch"]
    lines = []
    for switch in switches:
        lines += [f"S {switch['name']}", *port_lines(switch, with_margins)]
    false = cascade_false_lines(switches)
    answer = false if is_all else false[:1]
    if not false:
        answer = ["ok", *(apart_lines(switches) if with_margins else ())]
    return [*lines, *end_lines(switches), *answer]
