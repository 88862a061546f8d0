#!/usr/bin/python3
"""Writes a recording of a right switch, by clocks that are off as the words say.

    tests/tools/stamped_recording.py FILE [NAME=NUMBER]..

The switch is that of examples/base.toml on side A: interfaces 0 and 1 of the pcapng are what came
in at ports 1 and 2, interface 2 is what left at port 3. Each system sends a frame each ms or more;
now and then both do at once, so that two frames leave one behind the other. NAME is

    frames      how many each system sends (400)
    step        stamps are cut to so many ns (1)
    digits      of a stamp's fraction (9)
    late        stamps are late by up to so many ns, never before an earlier one of their line (0)
    behind      the clock of what left is so many ns behind (0)
    ppm         it goes faster by so many millionths (0)
    inside      what the switch takes besides, in ns (0)
    back        each so manieth frame stands 50 frames too late in the file (0: none)
"""
from __future__ import annotations

import random
import struct
import sys

BEGIN, MS = 1_700_000_000 * 10**9, 1_000_000
SLOT = 6_720  # ns of a frame of 64 bytes on its line, with what is around it
OUT = 2  # the interface of what left
Stamped = tuple[int, int, bytes]  # a stamp, an interface, the bytes
WORDS = {"frames": 400, "step": 1, "digits": 9, "late": 0, "behind": 0, "ppm": 0, "inside": 0,
         "back": 0}  # fmt: skip


def block(kind: int, body: bytes) -> bytes:
    """A block of a pcapng."""
    body += bytes(-len(body) % 4)
    size = struct.pack("<I", 12 + len(body))
    return struct.pack("<I", kind) + size + body + size


def option(code: int, value: int) -> bytes:
    """An option of one byte."""
    return struct.pack("<HHI", code, 1, value)


def content_of(system: int, number: int) -> bytes:
    """A frame of a system's link, without its check sequence."""
    head = b"\x03\0\0\0" + struct.pack(">H", system) + b"\x02\0\0" + struct.pack(">H", system)
    return head + b"\x20\x08\0" + struct.pack(">I", number).ljust(45, b"\0") + bytes(
        [1 + number % 255]
    )


def traffic(chance: random.Random, frames: int) -> list[Stamped]:
    """What comes, by its true time."""
    found = []
    for number in range(frames):
        first = 2 * MS * number + chance.randrange(MS // 3)
        both = number % 4 == 0
        for system in (1, 2):
            time = first if both else 2 * MS * number + chance.randrange(MS // 3)
            found.append((time + (system - 1) * 100 * both, system - 1, content_of(system, number)))
    return sorted(found)


def leaving(came: list[Stamped], inside: int) -> list[Stamped]:
    """What leaves, by its true time: one frame after the other."""
    found, free = [], 0
    for time, _, content in came:
        free = max(time + inside, free) + SLOT
        found.append((free, OUT, content))
    return found


def recorded(chance: random.Random, frames: list[Stamped], words: dict[str, int]) -> list[Stamped]:
    """The frames with the stamps that recorders give them."""
    found, last = [], {0: 0, 1: 0, 2: 0}
    for time, place, content in frames:
        stamp = time
        if place == OUT:
            stamp += time * words["ppm"] // 1_000_000 - words["behind"]
        stamp = max(stamp + chance.randrange(words["late"] + 1), last[place])
        last[place] = stamp
        found.append((stamp // words["step"] * words["step"], place, content))
    return found


def in_the_file(frames: list[Stamped], back: int) -> list[Stamped]:
    """The frames in the order of the file."""
    order = [(at + 50.5 * (back > 0 and at % back == 0), each) for at, each in enumerate(frames)]
    return [each for _, each in sorted(order)]


def main() -> None:
    """Writes the recording."""
    path, *given = sys.argv[1:]
    words = WORDS | {name: int(value) for name, _, value in (word.partition("=") for word in given)}
    chance = random.Random(1)
    came = traffic(chance, words["frames"])
    frames = recorded(chance, came, words)
    frames += recorded(chance, leaving(came, words["inside"]), words)
    options = option(9, words["digits"]) + option(13, 0) + bytes(4)
    data = [block(0x0A0D0D0A, struct.pack("<IHHq", 0x1A2B3C4D, 1, 0, -1))]
    data += 3 * [block(1, struct.pack("<HHI", 1, 0, 65535) + options)]
    for stamp, place, content in in_the_file(sorted(frames), words["back"]):
        ticks = (BEGIN + stamp) // 10 ** (9 - words["digits"])
        size = len(content)
        head = struct.pack("<5I", place, ticks >> 32, ticks & 0xFFFF_FFFF, size, size)
        data.append(block(6, head + content))
    with open(path, "wb") as file:
        file.write(b"".join(data))


main()
