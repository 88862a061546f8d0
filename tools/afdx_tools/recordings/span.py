"""The time that a pcapng covers, by its first and its last frame; what lies between isn't read."""
from __future__ import annotations

import struct
from typing import Collection

from afdx_tools.recordings.options import is_recording
from afdx_tools.recordings.reading import (
    OLD_PACKET,
    PACKET,
    SECTION,
    Frame,
    Interface,
    Odd,
    Recording,
    frame_of,
    order_at,
)

LEAST = 12  # bytes of a block


def last_of(
    recording: Recording, interfaces: list[Interface], wanted: Collection[int]
) -> Frame | None:
    """The last frame of the wanted ones among the interfaces of the first section. Each block ends
    with its own length, so they are found from the end; None where that isn't so."""
    data, end = recording.data, len(recording.data)
    order = order_at(data, 8)
    one, two = struct.Struct(order + "I").unpack_from, struct.Struct(order + "2I").unpack_from
    while end >= LEAST:
        at = end - one(data, end - 4)[0]
        if not 0 <= at <= end - LEAST:
            return None
        kind, length = two(data, at)
        if length != end - at:
            return None
        if kind in (PACKET, OLD_PACKET):
            body = bytes(data[at + 8 : end - 4])
            frame = frame_of(order, 0, kind, body, 0, interfaces)
            if frame.place in wanted:
                return frame
        end = at
    return None


def span_of(path: str, wanted: Collection[int]) -> int | None:
    """The ns from the first frame of these interfaces to the last one; None where the file doesn't
    say it."""
    if not is_recording(path):
        return None
    recording = Recording(path)
    if bytes(recording.data[:4]) != SECTION:
        return None
    try:
        frames = (frame for frame in recording.frames() if frame.ticks is not None)
        first = next((frame for frame in frames if frame.place in wanted), None)
        last = last_of(recording, first.interfaces, wanted) if first else None
    except (Odd, IndexError, struct.error):
        return None
    if first is None or last is None or first.stamp is None or last.stamp is None:
        return None
    return last.stamp - first.stamp
