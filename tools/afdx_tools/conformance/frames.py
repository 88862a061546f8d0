"""Frames that came to a recorded switch, or left it, as a list or a recording has them."""
from __future__ import annotations

import hashlib
from typing import Iterator, NamedTuple

from afdx_tools.lists import CONSTANT, Listed, is_sealed, read_list, sealed

SHORTEST, NUMBER_AT = 64, -5  # bytes of a frame; where its sequence number stands
OF_LINKS = bytes.fromhex(CONSTANT)  # how a link's destination address begins


class Frame(NamedTuple):
    """A frame: its line in a list, or its number in a recording; its time, side and port; the link
    that its address names, None where that is none; what stands for its bytes; how many these
    are; its sequence number, None where it isn't whole."""

    line: int
    time: int
    side: str
    port: int
    vl: int | None
    key: bytes
    length: int
    number: int | None = None


def vl_of(content: bytes) -> int | None:
    """The link that a frame's destination address names, or None where it is no link's address."""
    if len(content) < 6 or not content.startswith(OF_LINKS):
        return None
    return int.from_bytes(content[4:6], "big")


def frame_of(line: int, time: int, side: str, port: int, content: bytes) -> Frame:
    """A frame of these bytes, check sequence included."""
    key = hashlib.blake2b(content, digest_size=16).digest()
    number = content[NUMBER_AT] if len(content) >= SHORTEST and is_sealed(content) else None
    return Frame(line, time, side, port, vl_of(content), key, len(content), number)


def frame_of_line(listed: Listed) -> Frame:
    """The frame of a list's line."""
    return frame_of(listed.line, listed.time, listed.side, listed.port, sealed(listed))


def frames_of_list(path: str) -> Iterator[Frame]:
    """The frames of a list."""
    return map(frame_of_line, read_list(path))
