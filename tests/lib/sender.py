"""What a sending end system does with submissions, computed apart from the program.

A link's oldest message of the next sub-VL is released a BAG or more after the link's last release,
from its submission on; released frames leave one after the other, in order of release and of the
links' places.
"""
from __future__ import annotations

from collections import deque
from typing import NamedTuple

from frames import Sent, frame_of, lines_sent, number_of, slot
from tables import system_named


class Message(NamedTuple):
    """A line of a submission list."""

    time: int
    vl: int
    sub: int
    udp: int
    payload: bytes


def submission_list(messages: list[Message]) -> bytes:
    """The list that spells the messages."""
    lines = [
        b"%d %d %d %d %s\n" % (m.time, m.vl, m.sub, m.udp, m.payload.hex().encode() or b"-")
        for m in messages
    ]
    return b"".join(lines)


def releases(link: dict, messages: list[Message]) -> list[tuple[int, Message]]:
    """The releases of a link: its messages by sub-VL in turn, a BAG or more apart."""
    queues = [deque(m for m in messages if m.sub == sub) for sub in range(1, link["subs"] + 1)]
    released: list[tuple[int, Message]] = []
    earliest, last = 0, len(queues) - 1
    while any(queues):
        time = max(earliest, min(queue[0].time for queue in queues if queue))
        turns = [(last + 1 + step) % len(queues) for step in range(len(queues))]
        last = next(turn for turn in turns if queues[turn] and queues[turn][0].time <= time)
        released.append((time, queues[last].popleft()))
        earliest = time + link["bag_ms"] * 1_000_000
    return released


def emissions(tables: dict, name: str, messages: list[Message]) -> list[Sent]:
    """What the system emits, in order; none of the messages may be one that it refuses."""
    system = system_named(tables, name)
    all_released = []
    for place, link in enumerate(tables["link"]):
        own = [m for m in messages if m.vl == link["vl"]]
        for count, (time, message) in enumerate(releases(link, own)):
            all_released.append((time, place, count, message))
    free, sent = 0, []
    for time, place, count, m in sorted(all_released):
        least, number = tables["link"][place]["lmin"], number_of(count)
        frame = {
            side: frame_of(system, m.vl, m.udp, m.payload, number, side, least) for side in "AB"
        }
        free = max(free, time) + slot(frame["A"], system)
        sent.append(Sent(free, m.vl, m.udp, m.payload, frame["A"], frame["B"]))
    return sent


def list_sent(tables: dict, name: str, messages: list[Message]) -> bytes:
    """The text that `send` writes."""
    sent = emissions(tables, name, messages)
    return b"".join(lines_sent(system_named(tables, name), sent))
