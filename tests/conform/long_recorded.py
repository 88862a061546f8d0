"""Recordings longer than any list, which `conform` judges while they come through pipes: the run
takes the memory that a short one takes."""
from __future__ import annotations

import subprocess
from collections.abc import Iterator

from frames import HELLO, sealed
from long_recordings import A_SECOND, HEAD, SHORT, STEP_NS, low, piped
from program import Answer, Program, answers, least_room
from recorded_forms import EXACT, interface_of
from recording_rows import FIRST_NS, SL
from rows import CONFIGS

FRAME = sealed(HELLO)
LATER = 6_720  # ns after which a frame leaves
SIZE = 32 + len(FRAME)  # bytes of a packet of pcapng
TWO = ["--interface", "0=A:1", "--left", "0=A:3"]
ONE = ["--interface", "0=A:1", "--left", "1=A:3"]


def as_pcap(frames: int, later: int) -> Iterator[bytes]:
    """A recording of so many frames of link 1, 1 ms apart, so much later, a second at a time."""
    heads = (low(0) + low(place * STEP_NS + later) + 2 * low(len(FRAME))
             for place in range(A_SECOND))
    second, size = bytearray(b"".join(head + FRAME for head in heads)), 16 + len(FRAME)
    yield HEAD
    for number in range(frames // A_SECOND):
        for place, byte in enumerate(low(number)):
            second[place::size] = bytes([byte]) * A_SECOND
        yield bytes(second)


def as_pcapng(frames: int) -> Iterator[bytes]:
    """One recording of both: each frame comes, and leaves before the next one."""
    yield bytes.fromhex(SL + 2 * interface_of(EXACT))
    behind = 2 * low(len(FRAME)) + FRAME + low(SIZE)
    heads = [low(6) + low(SIZE) + low(interface) for interface in (0, 1)]
    for second in range(frames // A_SECOND):
        pieces = []
        for place in range(A_SECOND):
            time = FIRST_NS + second * 10**9 + place * STEP_NS
            for head, at in zip(heads, (time, time + LATER)):
                pieces += [head, low(at >> 32), low(at & 0xFFFF_FFFF), behind]
        yield b"".join(pieces)


def judged(program: Program, frames: int, is_one: bool, room: int) -> Answer:
    """What is answered of so many frames that came and left, in an address space of so many KiB."""
    config = program.write("long.toml", CONFIGS["base"])
    recordings = [as_pcapng(frames)] if is_one else [as_pcap(frames, 0), as_pcap(frames, LATER)]
    words = ["conform", *(ONE if is_one else TWO), config]
    return piped(program, words, room, recordings, subprocess.PIPE)


def long_memory(program: Program, frames: int, is_one: bool) -> None:
    """So many frames take no more memory than a few, up to 64 KiB."""
    program = program.apart()
    room = least_room(lambda room: judged(program, SHORT, is_one, room).status == 0)
    last = b"conforms explained %d open 0 uncertain 0 left-out 0 unseen 3 idle 0\n" % frames
    answers(judged(program, frames, is_one, room + 64), 0, last, b"")
