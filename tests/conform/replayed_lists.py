"""What a replay says to leave a switch, as the lists of `conform`: what came to the switch, from
the list and over cables, and what left its ports, each line with the bytes of its frame."""
from __future__ import annotations

from typing import NamedTuple

from cascade_run import SIDES, Arrival, Places, arrivals_of
from first_fault import LATEST


class Replayed(NamedTuple):
    """What came to a switch, and what left it."""

    came: bytes
    left: bytes


class Departure(NamedTuple):
    """A D line."""

    number: int
    time: int
    side: str
    switch: str
    port: int


def departures_of(out: bytes, is_named: bool) -> list[Departure]:
    """The D lines of an output whose times a list may have; without places of several switches no
    switch has a name."""
    found = []
    for line in out.decode().splitlines():
        words = line.split(" ")
        if words[0] == "D":
            _, number, time, side, *switch, port = words
            name = switch[0] if is_named else ""
            found.append(Departure(int(number), int(time), side, name, int(port)))
    return [leaves for leaves in found if leaves.time <= LATEST]


def raw(time: int, side: str, port: int, content: bytes) -> tuple[int, str]:
    """A line of a list, behind its time."""
    return time, f"R {time} {side} {port} {content.hex() or '-'}\n"


def text_of(lines: list[tuple[int, str]]) -> bytes:
    """A list of the lines in the order of their times."""
    return "".join(text for _, text in sorted(lines, key=lambda line: line[0])).encode()


def of_one(text: bytes, out: bytes) -> Replayed:
    """Of one switch: the list is what came."""
    arrivals, _ = arrivals_of(text, Places([], False))
    content = {arrival.frame.number: arrival.frame.content for arrival in arrivals}
    left = [raw(leaves.time, leaves.side, leaves.port, content[leaves.number])
            for leaves in departures_of(out, False)]
    return Replayed(text, text_of(left))


def of_several(switches: list[dict], text: bytes, out: bytes) -> dict[str, Replayed]:
    """Of several switches, by their names. What a cable brings comes before the list's frames of
    its time, in the order in which it left."""
    arrivals, _ = arrivals_of(text, Places(switches, True))
    content = {arrival.frame.number: arrival.frame.content for arrival in arrivals}
    departures = departures_of(out, True)
    ends = {(sw["name"], end["port"]): end["name"] for sw in switches for end in sw["neighbour"]}
    found = {}
    for place, switch in enumerate(switches):
        name = switch["name"]
        ports = {end["name"]: end["port"] for end in switch["neighbour"]}
        came, left = [], []
        for leaves in departures:
            frame = content[leaves.number]
            if leaves.switch == name:
                left.append(raw(leaves.time, leaves.side, leaves.port, frame))
            elif ends.get((leaves.switch, leaves.port)) == name:
                came.append(raw(leaves.time, leaves.side, ports[leaves.switch], frame))
        came += [at_switch(arrival) for arrival in arrivals if arrival.switch == place]
        found[name] = Replayed(text_of(came), text_of(left))
    return found


def at_switch(arrival: Arrival) -> tuple[int, str]:
    """A line of the list, without its switch."""
    return raw(arrival.time, SIDES[arrival.side], arrival.port, arrival.frame.content)
