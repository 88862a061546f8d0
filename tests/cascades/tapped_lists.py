"""Lists of cascades as recorders write them: with a tap at each port, a mirror of each switch, or
one recorder that sees all frames of a side or of both."""
from __future__ import annotations

import random
from typing import NamedTuple

from cascade_run import SIDES, Arrival, Places, arrivals_of, replayed
from frames import sealed
from made_recordings import Blocks, Clock
from places import place_text
from recorded_arrivals import SIDES as SIDE_OF

FIRST = 1_700_000_000 * 10**9  # ns since 1970: time 0 of the list
# flags: the frame ends with 4 bytes of check sequence; the recorder found it wrong
CHECKED, WRONG = 4 << 5, 1 << 24
NS, UNSEALED = (9, b"\x09"), (13, b"\0")  # options of an interface
TAPS, MIRRORS, A_SIDE, ALL = GRAINS = ("a port", "a switch", "a side", "all")


class Seen(NamedTuple):
    """A frame that a recorder saw, and how it is kept."""

    time: int
    interface: int
    content: bytes
    flags: int


# ---- frames --------------------------------------------------------------------------------------


def frames_of(cascade: dict, text: bytes) -> list[Arrival]:
    """The AFDX frames of a list without a fault."""
    arrivals, fault = arrivals_of(text, Places(cascade["switch"], True))
    if fault:
        raise ValueError(f"the list has the fault {fault!r}")
    return [one for one in arrivals if one.frame.link() is not None]


def names_its_port(cascade: dict, one: Arrival) -> bool:
    """The source address names the system at the port where the frame comes in, and the side."""
    systems = cascade["switch"][one.switch]["system"]
    numbers = {system["port"]: system["id"].to_bytes(2, "big") for system in systems}
    content = one.frame.content
    is_sender = content[6:9] == b"\x02\0\0" and content[9:11] == numbers.get(one.port)
    return is_sender and SIDE_OF.get(content[11]) == SIDES[one.side]


def over_cables(cascade: dict, text: bytes) -> list[Arrival]:
    """What cables bring when the list is replayed, by what is computed here: the V lines of a frame
    but its first one. Before each stand the D lines of its time."""
    names = [switch["name"] for switch in cascade["switch"]]
    listed = {one.frame.number: one for one in frames_of(cascade, text)}
    found, seen, time = list[Arrival](), set[int](), 0
    for line in replayed(cascade, text).lines:
        kind, number, *rest = line.split(" ")
        if kind == "D":
            time = int(rest[0])
        elif kind == "V" and int(number) in seen:
            one, switch = listed[int(number)], names.index(rest[1])
            found.append(one._replace(time=time, switch=switch, port=0))
        elif kind == "V":
            seen.add(int(number))
    return found


# ---- recordings ----------------------------------------------------------------------------------


def recorder_of(cascade: dict, one: Arrival, grain: str) -> str:
    """What the recorder says of where a frame comes in, as a PLACE; empty where it says nothing."""
    side = SIDES[one.side]
    place = place_text(side, cascade["switch"][one.switch]["name"])
    return {TAPS: f"{place}:{one.port}", MIRRORS: place, A_SIDE: side, ALL: ""}[grain]


def kept(chance: random.Random, frame: bytes) -> tuple[bytes, int]:
    """The bytes that are kept of a frame, and their flags: with its check sequence, or without."""
    whole = sealed(frame[:-4])
    wrong = frame[:-4] + bytes(byte ^ 0xFF for byte in whole[-4:])
    if frame in (whole, wrong) and chance.random() < 0.7:
        return frame[:-4], 0 if frame == whole else WRONG
    return frame, CHECKED


def pcapng(chance: random.Random, seen: list[Seen]) -> bytes:
    """A recording of these frames, in ns; some interfaces are described at the begin, others where
    they are used."""
    blocks, described = Blocks(chance, Clock(chance, 1), [9]), 0
    data = blocks.section()
    for time, interface, content, flags in seen:
        most = interface if chance.random() < 0.7 else max(each.interface for each in seen)
        for _ in range(described, most + 1):
            head = blocks.numbers(1, 0, size=2) + blocks.numbers(0)
            data += blocks.block(1, head + blocks.options(NS, UNSEALED))
        described = max(described, most + 1)
        stamp, size = FIRST + time, len(content)
        head = blocks.numbers(interface, stamp >> 32, stamp & 0xFFFF_FFFF, size, size)
        said = [(2, blocks.numbers(flags))] if flags else []
        data += blocks.block(6, head + blocks.filled(content) + blocks.options(*said))
    return data


def recorded(
    chance: random.Random, cascade: dict, frames: list[Arrival], grain: str, spread: int = 0
) -> tuple[bytes, list[str]]:
    """A recording of these frames, which stand out of order by so many ns, and what is said of each
    of its interfaces."""
    placed = [(one, recorder_of(cascade, one, grain)) for one in frames]
    names = sorted({place for _, place in placed})
    chance.shuffle(names)
    order = [one.time + chance.random() * spread for one in frames]
    seen = [
        Seen(one.time, names.index(place), *kept(chance, one.frame.content))
        for _, (one, place) in sorted(zip(order, placed), key=lambda pair: pair[0])
    ]
    return pcapng(chance, seen), names
