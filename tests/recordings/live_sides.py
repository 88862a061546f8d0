#!/usr/bin/env python3
"""A bench of one machine: a system on two networks, of which one may be dead, a recorder for each,
and a replay of both recordings while they are written.

    unshare --net tests/recordings/live_sides.py PROGRAM CONFIG SECONDS FOLDER WORD..

It wants a network of its own, which ends with it. Each recorder writes a pcapng into a pipe: what
comes in at its network, with the kernel's stamps, and as a second interface the heartbeats that it
hears at `lo`. WORDs are options of the replay; `silent` stands for a bench without heartbeats. The
system sends on network A alone. FOLDER/said.json has for each frame that was sent when that was,
and of each verdict when it was there, in ns, by the number of the message.
"""
from __future__ import annotations

import json
import os
import select
import socket
import struct
import subprocess
import sys
import threading
import time

sys.dont_write_bytecode = True
HERE = os.path.dirname(os.path.abspath(__file__))
sys.path[:0] = [os.path.join(HERE, "..", name) for name in ("lib", "conform")] + [HERE]
from frames import frame_of  # noqa: E402
from live_bench import STAMPS, lay_cables, opened, say  # noqa: E402
from tables import system_of  # noqa: E402

MS = 10**6  # ns
PERIOD, HEARTBEAT = 40 * MS, 50 * MS  # of messages, and of heartbeats
ENDS = ("A1", "B1")
HEARD = 5_000  # a UDP port of heartbeats
LONGEST = 2_000  # bytes of a frame, and of what the kernel says of it
SECTION = bytes.fromhex("0a0d0d0a 1c000000 4d3c2b1a 01000000 ffffffff ffffffff 1c000000")
INTERFACE = bytes.fromhex(
    "01000000 20000000 01000000 00000400 09000100 09000000 00000000 20000000"
)


def packet(interface: int, stamp: int, content: bytes) -> bytes:
    """A frame in a pcapng, with a stamp in ns."""
    filled = content + bytes(-len(content) % 4)
    words = interface, stamp >> 32, stamp & 0xFFFF_FFFF, len(content), len(content)
    size = struct.pack("<I", 32 + len(filled))
    return struct.pack("<I", 6) + size + struct.pack("<5I", *words) + filled + size


def record(lines: list[socket.socket], pipe: int, ends: threading.Event) -> None:
    """Writes what comes in at these interfaces, until all is to end."""
    os.write(pipe, SECTION + INTERFACE * len(lines))
    while not ends.is_set():
        ready, _, _ = select.select(lines, [], [], 0.1)
        for line in ready:
            content, said, _, _ = line.recvmsg(LONGEST, LONGEST)
            stamps = [data for level, kind, data in said
                      if (level, kind) == (socket.SOL_SOCKET, STAMPS)]
            seconds, rest = struct.unpack("qq", stamps[0])
            os.write(pipe, packet(lines.index(line), seconds * 10**9 + rest, content))
    os.close(pipe)


def beat(ends: threading.Event) -> None:
    """Sends heartbeats, until all is to end."""
    with socket.socket(socket.AF_INET, socket.SOCK_DGRAM) as line:
        while not ends.wait(HEARTBEAT / 10**9):
            line.sendto(b"here", ("127.0.0.1", HEARD))


def send(seconds: int) -> dict[int, int]:
    """Sends a message each period on network A; when each went out, by the frame's number."""
    line, sent = opened("sA1"), {}
    begin = time.time_ns()
    for place in range(seconds * 10**9 // PERIOD):
        due = begin + place * PERIOD
        time.sleep(max(due - time.time_ns(), 0) / 10**9)
        frame = frame_of(system_of(1), 1, 1000, place.to_bytes(8, "big"), place % 255 + 1, "A")
        sent[place] = time.time_ns()
        line.send(frame[:-4])
    return sent


def verdicts(run: subprocess.Popen, found: list[tuple[int, str]]) -> None:
    """Each line, with the moment at which it is there."""
    assert run.stdout is not None
    for line in run.stdout:
        found.append((time.time_ns(), line.decode().strip()))


def started(words: list[str], pipes: list[int]) -> subprocess.Popen:
    """The replay of what comes through these pipes."""
    files = [f"/dev/fd/{pipe}" for pipe in pipes]
    return subprocess.Popen(
        [*words, *files], stdout=subprocess.PIPE, stderr=subprocess.PIPE, bufsize=0, pass_fds=pipes
    )


def main() -> None:
    """Runs the bench."""
    program, config, seconds, folder = sys.argv[1], sys.argv[2], int(sys.argv[3]), sys.argv[4]
    words = [word for word in sys.argv[5:] if word != "silent"]
    lay_cables(ENDS)
    say("ip", "link", "set", "lo", "up")
    pipes = [os.pipe() for _ in ENDS]
    run = started([program, "replay", *words, config], [end for end, _ in pipes])
    ends, found = threading.Event(), list[tuple[int, str]]()
    tasks = [threading.Thread(target=verdicts, args=(run, found))]
    for end, (reading, pipe) in zip(ENDS, pipes):
        os.close(reading)
        lines = [opened(f"p{end}"), opened("lo")]
        tasks.append(threading.Thread(target=record, args=(lines, pipe, ends)))
    if "silent" not in sys.argv:
        tasks.append(threading.Thread(target=beat, args=(ends,)))
    for task in tasks:
        task.start()
    sent = send(seconds)
    time.sleep(1)
    until = time.time_ns()
    ends.set()
    for task in tasks:
        task.join()
    assert run.stderr is not None
    said = {"sent": sent, "told": found, "until": until, "err": run.stderr.read().decode(),
            "status": run.wait()}
    with open(os.path.join(folder, "said.json"), "w", encoding="ascii") as file:
        json.dump(said, file)


if __name__ == "__main__":
    main()
