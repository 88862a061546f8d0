#!/usr/bin/python3
"""Writes a frame list as a test bench would record it: all links of a network, and some faults.

    tests/tools/sample_list.py CONFIG [--ms N] [--seed N] [--sound] >sample.list

Each system sends on each of its links about once in a BAG, at most one frame at a time on its line,
on both sides; side B is a little late. Unless --sound is given, a link babbles for a while, some
check sequences are wrong, some copies are missing on one side, one system uses another's link, and
some frames name no link. Of several switches a side lines name these. The same words give the same
list.
"""
from __future__ import annotations

import argparse
import os
import random
import sys
import tomllib
from typing import Iterator, NamedTuple

sys.dont_write_bytecode = True
TOP = os.path.join(os.path.dirname(os.path.realpath(__file__)), "..", "..")
sys.path[:0] = [os.path.join(TOP, "tools"), os.path.join(TOP, "examples")]
from afdx_tools.config import Config, Link, config_of  # noqa: E402
from frame_builder import AROUND, frame_of  # noqa: E402

MS = 1_000_000


class Sent(NamedTuple):
    """A frame that a system hands to its line: time, length, link, sequence number."""

    time: int
    length: int
    vl: int
    number: int


UDPS: dict[int, int] = {}  # of links whose UDP port isn't their identifier + 20,000


def note_udps(tables: dict) -> None:
    """Notes the UDP ports that links have at systems of several switches."""
    for switch in tables.get("switch", []):
        UDPS.update({row["link"]: row["udp"] for row in switch.get("port", [])})


def body(link: Link, system_id: int, side: str, length: int, number: int) -> bytes:
    """A frame without its check sequence."""
    payload = bytes((number + n) % 251 for n in range(max(length - AROUND, 1)))
    udp = UDPS.get(link.vl, (20_000 + link.vl) % 65_536)
    return frame_of(system_id, 1, link.vl, payload, number, side, udp, length)


def releases(link: Link, end: int, dice: random.Random) -> Iterator[Sent]:
    """A link's frames: one in each BAG, now and then none."""
    bag = link.bag_ms * MS
    time, number = dice.randrange(bag), 0
    while time < end:
        if dice.random() < 0.93:
            yield Sent(time, dice.randint(64, link.lmax), link.vl, number)
            number = number % 255 + 1
        time += bag


def on_the_line(frames: list[Sent], byte_ns: int) -> Iterator[tuple[int, Sent]]:
    """One frame after the other; with each the moment of its last bit."""
    free = 0
    for frame in sorted(frames):
        free = max(free, frame.time) + (frame.length + 20) * byte_ns
        yield free, frame


def babble(link: Link, begin: int) -> list[Sent]:
    """A burst that the account doesn't cover."""
    return [
        Sent(begin + n * link.bag_ms * MS // 8, min(link.lmax, 100), link.vl, n) for n in range(24)
    ]


def place_of(config: Config, side: str, port: int) -> str:
    """A port of a side as a line has it."""
    return " ".join(map(str, [side, *config.keys_of(port).values()]))


def other_port(config: Config, port: int) -> int:
    """The port of another system, or one that has none."""
    if config.several is None:
        return port % len(config.systems) + 1
    ports = [system.port for system in config.systems.values()]
    return ports[(ports.index(port) + 1) % len(ports)]


def lines_of(config: Config, args: argparse.Namespace) -> Iterator[tuple[int, str, str]]:
    """Time, side and line of each frame."""
    dice = random.Random(args.seed)
    end = args.ms * MS
    babbler = min(config.links) if not args.sound else None
    for system in config.systems.values():
        mine = [link for link in config.links.values() if link.source == system.name]
        frames = [sent for link in mine for sent in releases(link, end, dice)]
        if babbler in [link.vl for link in mine]:
            frames += babble(config.links[babbler], end // 3)
        for time, sent in on_the_line(frames, system.byte_ns):
            link = config.links[sent.vl]
            for side, late in (("A", 0), ("B", 1_000 + dice.randrange(20_000))):
                kind, port, frame = (
                    "F",
                    system.port,
                    body(link, system.id, side, sent.length, sent.number),
                )
                luck = 1.0 if args.sound else dice.random()
                if luck < 0.006:
                    kind = "B"
                elif luck < 0.010:
                    continue
                elif luck < 0.012:
                    frame = frame[:4] + b"\xff\xf0" + frame[6:]
                elif luck < 0.014:
                    port = other_port(config, port)
                elif luck < 0.015:
                    kind, frame = "R", frame[:40]
                place = place_of(config, side, port)
                yield time + late, side, f"{kind} {time + late} {place} {frame.hex()}"


def main() -> None:
    """Writes the list."""
    parser = argparse.ArgumentParser(
        description=__doc__, formatter_class=argparse.RawDescriptionHelpFormatter
    )
    parser.add_argument("config", metavar="CONFIG")
    parser.add_argument("--ms", type=int, default=200)
    parser.add_argument("--seed", type=int, default=1)
    parser.add_argument("--sound", action="store_true")
    args = parser.parse_args()
    with open(args.config, "rb") as file:
        tables = tomllib.load(file)
    config = config_of(tables, args.config)
    note_udps(tables)
    for _, _, line in sorted(lines_of(config, args)):
        print(line)


main()
