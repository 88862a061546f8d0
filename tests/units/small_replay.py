"""A small network, its list and what a replay wrote of it, for unit tests; no program is run."""
from __future__ import annotations

import io

from known_words import ask_no_program
from afdx_tools.config import Config, Link, System
from afdx_tools.replay.counting import Counting
from afdx_tools.replay.events import Events
from afdx_tools.replay.listing import Listing

ask_no_program()

MS = 1_000_000  # ns
SIDES = {"A": "20", "B": "40"}  # the last byte of a source address


def link(vl: int, source: str, port: int, bag_ms: int, policing: str = "frame") -> Link:
    """A link to the system `disp`, which may take 100 us: 64 to 100 bytes."""
    return Link(
        vl=vl,
        source=source,
        port=port,
        to=("disp",),
        ports=(3,),
        bag_ms=bag_ms,
        lmax=100,
        priority="high",
        latency_ns=100_000,
        policing=policing,
        jitter_ns=50_000,
        skew_ns=MS,
    )


# a byte takes 80 ns on the lines of adc and fcc, and 800 ns on that of disp
SYSTEMS = (System("adc", 1, 1, 100), System("fcc", 2, 2, 100), System("disp", 3, 3, 10))
LINKS = (link(10, "adc", 1, 8), link(20, "fcc", 2, 4, "byte"))
CONFIG = Config(
    1, 1000, {system.name: system for system in SYSTEMS}, {each.vl: each for each in LINKS}
)


def arrival(time: int, side: str, vl: int, number: int, size: int = 64) -> str:
    """A line of a frame list: a frame of so many bytes, from the system that sends the link."""
    port = CONFIG.links[vl].port
    head = f"03000000{vl:04x}020000{port:04x}{SIDES[side]}"
    return f"F {time} {side} {port} {head}{'00' * (size - 17)}{number:02x}\n"


def counted(listed: list[str], written: str, errors: str = "") -> Counting:
    """What is counted of a list, and of the lines that a replay of it wrote on both streams."""
    listing = Listing(io.BytesIO("".join(listed).encode()))
    events = Events(listing)
    events.read(io.BytesIO(written.encode()))
    events.read_errors(io.BytesIO(errors.encode()))
    return Counting(CONFIG, listing, events)


def accepted(listed: list[str]) -> Counting:
    """The same of a list whose frames were all accepted, and left no port yet."""
    sides = [line.split()[2] for line in listed]
    return counted(listed, "".join(f"V {n} {side} accept\n" for n, side in enumerate(sides, 1)))
