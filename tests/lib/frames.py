"""The frames of a configuration's systems, and lists of them, by examples/frame_builder.py. Nothing
is taken from the program or its tools."""
from __future__ import annotations

import os
import sys
from typing import NamedTuple

from program import TOP

sys.path.append(os.path.join(TOP, "examples"))
import frame_builder  # noqa: E402
from frame_builder import sealed  # noqa: E402

OVERHEAD = 20  # bytes of the line beside a frame: preamble, delimiter, gap


def frame_of(
    system: dict, vl: int, udp: int, payload: bytes, number: int, side: str, least: int = 64
) -> bytes:
    """The frame that the system sends on the link, sealed."""
    ident, partition = system["id"], system["partition"]
    return sealed(frame_builder.frame_of(ident, partition, vl, payload, number, side, udp, least))


def number_of(place: int) -> int:
    """The sequence number of a link's frame, counted from 0: 0, 1 to 255, 1 to 255, and so on."""
    return 0 if place == 0 else (place - 1) % 255 + 1


def byte_ns(system: dict) -> int:
    """What a byte takes on the system's line."""
    return 8000 // system["rate"]


def slot(frame: bytes, system: dict) -> int:
    """What a frame takes on the system's line, in ns."""
    return (len(frame) + OVERHEAD) * byte_ns(system)


class Sent(NamedTuple):
    """A message as it was submitted, and the end of its frame's slot."""

    end: int
    vl: int
    udp: int
    payload: bytes
    a: bytes
    b: bytes


def raw_line(time: int, side: str, port: int, frame: bytes) -> bytes:
    """An R line, with its line feed."""
    return b"R %d %s %d %s\n" % (time, side.encode(), port, frame.hex().encode())


def lines_sent(system: dict, sent: list[Sent]) -> list[bytes]:
    """The R lines of the emissions, A before B."""
    lines = []
    for one in sent:
        lines.append(raw_line(one.end, "A", system["port"], one.a))
        lines.append(raw_line(one.end, "B", system["port"], one.b))
    return lines


# The parts of the example frames of docs/FORMATS.md: a check of the builder.
HELLO = bytes.fromhex(
    "030000000001020000000120080045000021000000000111cdea0a000101e0e00001"
    "03e803e8000d000068656c6c6f00000000000000000000000000"
)
FIRST = {"port": 1, "id": 1, "partition": 1, "rate": 100}
if frame_of(FIRST, 1, 1000, b"hello", 0, "A") != sealed(HELLO):
    raise ValueError("frame_of doesn't give the example of docs/FORMATS.md")
if sealed(b"123456789")[9:] != bytes.fromhex("2639f4cb"):
    raise ValueError("sealed doesn't give the example of docs/FORMATS.md")
