#!/usr/bin/python3
"""Recordings of the taps of several switches, as a replay says what came to each and what left it.

    AFDX=PROGRAM tests/lib/tapped_switches.py CONFIG LIST FOLDER

LIST has R lines. FOLDER gets recordings of each switch on each side (NAME.A.pcapng), in which the
interface `A3in` is at port 3 of side A, and all.pcapng with the taps of all switches, whose
interfaces have the names of their switches before them; and the tables of taps of both, taps.csv
and all.csv. Check sequences are left off, as cards do.
"""
from __future__ import annotations

import array
import os
import subprocess
import sys
import tomllib
from typing import BinaryIO, Iterator, NamedTuple, Sequence

BEGIN = 10**18  # ns
PAUSE = 200_000_000  # ns, of more than a BAG
PACKET = 6
SECTION = b"\x0a\x0d\x0d\x0a\x1c\0\0\0\x4d\x3c\x2b\x1a\x01\0\0\0" + b"\xff" * 8 + b"\x1c\0\0\0"
FCS = 4  # bytes of a check sequence
SIDES = "AB"


class Tap(NamedTuple):
    """A port of a switch on a side, and whether its frames leave there."""

    switch: str
    side: str
    port: int
    is_left: bool

    @property
    def name(self) -> str:
        """What its interface is called."""
        return f"{self.side}{self.port}{'out' if self.is_left else 'in'}"


class Seen(NamedTuple):
    """A frame at a tap."""

    time: int
    tap: Tap
    content: bytes


def switches_of(config: str) -> dict[str, dict[int, str]]:
    """The ports of each switch, with the switch at the other end or nothing."""
    with open(config, "rb") as file:
        tables = tomllib.load(file)["switch"]
    found = {}
    for switch in tables:
        ports = {end["port"]: "" for end in switch["system"]}
        found[switch["name"]] = ports | {end["port"]: end["name"] for end in switch["neighbour"]}
    return found


def listed_in(listing: str) -> Iterator[Seen]:
    """What came from systems, line by line."""
    with open(listing, encoding="ascii") as file:
        for line in file:
            _, time, side, switch, port, digits = line.split()
            tap, content = Tap(switch, side, int(port), False), bytes.fromhex(digits)[:-FCS]
            yield Seen(int(time), tap, content)


def seen_in(config: str, listing: str) -> Iterator[Seen]:
    """What came and what left, in no order."""
    switches, frames = switches_of(config), {}
    for number, seen in enumerate(listed_in(listing), 1):
        frames[number] = seen.content
        yield seen
    words = [os.environ["AFDX"], "replay", config, listing]
    with subprocess.Popen(words, stdout=subprocess.PIPE, encoding="ascii") as run:
        assert run.stdout is not None
        for line in run.stdout:
            if line.startswith("D "):
                _, at, time, side, switch, port = line.split()
                tap, content = Tap(switch, side, int(port), True), frames[int(at)]
                yield Seen(int(time), tap, content)
                far = switches[switch][tap.port]
                if far:
                    back = next(p for p, name in switches[far].items() if name == switch)
                    yield Seen(int(time), Tap(far, side, back, False), content)
    assert run.returncode == 0, "the replay has a fault"


def low(*numbers: int) -> bytes:
    """Numbers of 32 bits, low byte first."""
    return b"".join(number.to_bytes(4, "little") for number in numbers)


def block(kind: int, body: bytes) -> bytes:
    """A block of a pcapng."""
    body += bytes(-len(body) % 4)
    size = low(len(body) + 12)
    return low(kind) + size + body + size


def interface(name: str) -> bytes:
    """An interface of Ethernet, with times in ns, and frames without check sequences."""
    named = low(len(name) << 16 | 2) + name.encode() + bytes(-len(name) % 4)
    return block(1, low(1, 65_535) + named + low(1 << 16 | 9, 9, 1 << 16 | 13, 0, 0))


def write_packets(file: BinaryIO, seen: Sequence[Seen], places: dict[Tap, int], times: int) -> None:
    """Writes frames in the order of their times, so many times, with a pause before each."""
    words, stamps = array.array("I"), []
    for time, tap, content in seen:
        stamps.append((len(words) + 3, BEGIN + time))
        head = low(places[tap], 0, 0, len(content), len(content))
        words.frombytes(block(PACKET, head + content))
    step = seen[-1].time + PAUSE
    for turn in range(times):
        for at, stamp in stamps:
            words[at], words[at + 1] = divmod(stamp + turn * step, 1 << 32)
        words.tofile(file)


def write_recording(path: str, seen: list[Seen], names: dict[Tap, str], times: int = 1) -> None:
    """Writes what is seen at these taps, so many times."""
    places = {tap: place for place, tap in enumerate(names)}
    with open(path, "wb") as file:
        file.write(SECTION + b"".join(map(interface, names.values())))
        write_packets(file, [each for each in seen if each.tap in places], places, times)


def write_table(path: str, names: dict[Tap, str]) -> None:
    """Writes a table of taps."""
    with open(path, "w", encoding="ascii") as file:
        file.write("interface,side,switch,port,direction\n")
        for (switch, side, port, is_left), name in names.items():
            file.write(f"{name},{side},{switch},{port},{'out' if is_left else 'in'}\n")


def sorted_in(config: str, listing: str) -> list[Seen]:
    """What is seen, by time, what came first."""
    return sorted(seen_in(config, listing), key=lambda each: (each.time, each.tap.is_left))


def all_taps(config: str) -> list[Tap]:
    """The taps of all switches."""
    return [Tap(name, side, port, is_left) for name, ports in switches_of(config).items()
            for side in SIDES for port in ports for is_left in (False, True)]  # fmt: skip


def write_taps(config: str, listing: str, folder: str, times: int = 1) -> list[tuple[str, str]]:
    """Writes the recordings of each switch and side, and their table; the switches with them."""
    seen, found = sorted_in(config, listing), []
    names = {tap: tap.name for tap in all_taps(config)}
    write_table(os.path.join(folder, "taps.csv"), names)
    for place in dict.fromkeys((tap.switch, tap.side) for tap in names):
        path = f"{'.'.join(place)}.pcapng"
        own = {tap: name for tap, name in names.items() if (tap.switch, tap.side) == place}
        write_recording(os.path.join(folder, path), seen, own, times)
        found.append((place[0], path))
    return found


def write_whole(config: str, listing: str, folder: str) -> None:
    """Writes the recording of all switches, and its table."""
    names = {tap: f"{tap.switch}-{tap.name}" for tap in all_taps(config)}
    write_table(os.path.join(folder, "all.csv"), names)
    write_recording(os.path.join(folder, "all.pcapng"), sorted_in(config, listing), names)


if __name__ == "__main__":
    write_taps(sys.argv[1], sys.argv[2], sys.argv[3])
    write_whole(sys.argv[1], sys.argv[2], sys.argv[3])
