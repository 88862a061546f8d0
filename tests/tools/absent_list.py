#!/usr/bin/python3
"""Reads a sound frame list of examples/network.toml, and writes it with something amiss.

    tests/tools/sample_list.py examples/network.toml --sound | tests/tools/absent_list.py WHAT

WHAT is one of the functions below: `half`, `system`, `link`, `babbler`, `masquerade`, `alone`,
`began`, `steps`.
"""
from __future__ import annotations

import os
import random
import sys
from typing import Iterator, NamedTuple

sys.dont_write_bytecode = True
TOP = os.path.join(os.path.dirname(os.path.realpath(__file__)), "..", "..")
sys.path[:0] = [os.path.join(TOP, "examples")]
from frame_builder import frame_of  # noqa: E402

MS = 1_000_000


class Line(NamedTuple):
    """A line of a frame list."""

    time: int
    side: str
    vl: int
    number: int
    port: int
    text: str


def line_of(text: str) -> Line:
    """A line's fields; the sound list has F lines alone."""
    _, time, side, port, digits = text.split()
    return Line(int(time), side, int(digits[8:12], 16), int(digits[-2:], 16), int(port), text)


def made(time: int, side: str, port: int, vl: int, ident: int, number: int) -> Line:
    """A further frame."""
    frame = frame_of(ident, 1, vl, b"further", number, side, 20_000 + vl)
    return Line(time, side, vl, number, port, f"F {time} {side} {port} {frame.hex()}")


def half(lines: list[Line], end: int) -> Iterator[Line]:
    """Nothing comes on side B after the middle of the run."""
    yield from (line for line in lines if line.side == "A" or line.time < end // 2)


def system(lines: list[Line], end: int) -> Iterator[Line]:
    """Nothing comes from irs1 on side A in the second quarter of the run."""
    for line in lines:
        if (line.port, line.side) != (5, "A") or not end // 4 <= line.time < end // 2:
            yield line


def link(lines: list[Line], end: int) -> Iterator[Line]:
    """Nothing comes of link 501 on either side in the second quarter of the run."""
    yield from (line for line in lines if line.vl != 501 or not end // 4 <= line.time < end // 2)


def babbler(lines: list[Line], end: int) -> Iterator[Line]:
    """disp1 sends link 703 every 50 us in the second quarter, with any numbers."""
    dice = random.Random(1)
    yield from lines
    for time in range(end // 4, end // 2, 50_000):
        number = dice.randrange(256)
        yield made(time, "A", 7, 703, 65, number)
        yield made(time + 9_000, "B", 7, 703, 65, number)


def masquerade(lines: list[Line], end: int) -> Iterator[Line]:
    """eec2, at port 11, sends link 1001 of eec1, at port 10."""
    yield from lines
    for number in range(11):
        time = end // 4 + number * 3 * MS
        yield made(time, "A", 11, 1001, 98, number)
        yield made(time + 9_000, "B", 11, 1001, 98, number)


def alone(lines: list[Line], end: int) -> Iterator[Line]:
    """The first frame 7 of link 201 doesn't come on side B, the first frame 9 not on side A."""
    gone = (201, 7, "B"), (201, 9, "A")
    for line in lines:
        if (line.vl, line.number, line.side) not in gone or line.time > end // 2:
            yield line


def began(lines: list[Line], end: int) -> Iterator[Line]:
    """The run begins in the midst of it."""
    yield from (line for line in lines if line.time >= end // 4)


def steps(lines: list[Line], end: int) -> Iterator[Line]:
    """The first frames 20 to 22 of link 201 don't come at all."""
    for line in lines:
        if line.vl != 201 or line.number not in (20, 21, 22) or line.time > end // 2:
            yield line


def main() -> None:
    """Writes the list, by time."""
    lines = [line_of(text) for text in sys.stdin]
    ways = half, system, link, babbler, masquerade, alone, began, steps
    make = {one.__name__: one for one in ways}
    for line in sorted(make[sys.argv[1]](lines, lines[-1].time), key=lambda line: line.time):
        print(line.text.strip())


main()
