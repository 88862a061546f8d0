#!/usr/bin/env python3
"""A bench of one machine: three systems, a switch between them, and a recorder at its ports.

    unshare --net tests/conform/live_bench.py SWITCH SECONDS FOLDER

It wants a network of its own, which ends with it. Each cable is a pair of interfaces: p1 to p3 are
the switch's, s1 to s3 those of the systems. SWITCH is a name of live_switches.py. `dumpcap` records
at each port what comes in and what leaves, each as an interface of its own, into FOLDER/run.pcapng;
FOLDER/said.json has what the switch was amiss with, by how much a frame went out later than it was
meant to, at most, and how many frames that were sent the recorder lost.
"""
from __future__ import annotations

import collections
import contextlib
import heapq
import json
import os
import select
import socket
import struct
import subprocess
import sys
import time
from typing import Callable, Counter, Iterable, Iterator, Sequence

sys.dont_write_bytecode = True
HERE = os.path.dirname(os.path.abspath(__file__))
sys.path[:0] = [os.path.join(HERE, "..", "lib"), HERE]
from live_switches import FROM, LINKS, SWITCHES, SYSTEMS  # noqa: E402
from live_switches import Leaving, Right, Sent, traffic  # noqa: E402
from one_switch import MS  # noqa: E402
from recorded import recorded  # noqa: E402

EVERY_FRAME = 3  # ETH_P_ALL
AF_PACKET, OUTGOING = 263, 4  # a level of socket options; how a socket calls what it hasn't to give
IGNORE_OUTGOING = 23
STAMPS = 35  # SO_TIMESTAMPNS: the moment at which the kernel took a frame, as recorders get it
PATIENCE = 300  # seconds
LOST = 120  # seconds after which what isn't recorded is lost
PORTS = [system["port"] for system in SYSTEMS]


def say(*words: str) -> None:
    """Runs a command."""
    subprocess.run(words, check=True, stdin=subprocess.DEVNULL, stdout=subprocess.DEVNULL)


def lay_cables(ends: Iterable[object]) -> None:
    """A cable for each of these ends, over which nothing goes of the machine's own."""
    for name in ("all", "default"):
        path = f"/proc/sys/net/ipv6/conf/{name}/disable_ipv6"
        if os.path.exists(path):
            with open(path, "w", encoding="ascii") as file:
                file.write("1")
    for end in ends:
        say("ip", "link", "add", f"p{end}", "type", "veth", "peer", "name", f"s{end}")
        for name in (f"p{end}", f"s{end}"):
            say("ip", "link", "set", name, "arp", "off", "promisc", "on", "up")


def go_first() -> None:
    """A busy machine doesn't make this process wait, where it may say so."""
    with contextlib.suppress(OSError):
        os.nice(-10)
        os.sched_setscheduler(0, os.SCHED_FIFO, os.sched_param(1))


def opened(name: str) -> socket.socket:
    """A socket that gives what comes in at an interface, with stamps, and sends there."""
    found = socket.socket(socket.AF_PACKET, socket.SOCK_RAW, socket.htons(EVERY_FRAME))
    found.setsockopt(AF_PACKET, IGNORE_OUTGOING, 1)
    found.setsockopt(socket.SOL_SOCKET, STAMPS, 1)
    found.bind((name, EVERY_FRAME))
    found.setblocking(False)
    return found


@contextlib.contextmanager
def recorder(
    path: str, seconds: int, ends: Iterable[object], ways: Sequence[str]
) -> Iterator[Callable[[Counter[bytes]], int]]:
    """Records at these ends what goes these ways; it ends by itself, too. What is given waits until
    these frames are recorded, and says how many are lost."""
    words = ["dumpcap", "-w", path, "-a", f"duration:{seconds + PATIENCE}"]
    for end in ends:
        for way in ways:
            words += ["-i", f"p{end}", "-f", way]
    with subprocess.Popen(words, stdin=subprocess.DEVNULL, stderr=subprocess.PIPE) as run:
        try:
            assert run.stderr is not None
            if not any(line.startswith(b"File:") for line in run.stderr):
                sys.exit("dumpcap doesn't record")
            time.sleep(0.5)
            yield lambda sent: until_recorded(path, sent)
        finally:
            run.terminate()
            run.communicate(timeout=PATIENCE)


def until_recorded(path: str, sent: Counter[bytes]) -> int:
    """Waits until these frames stand in the recording, each so many times; but not for ever. How
    many don't."""
    end = time.monotonic() + LOST
    while True:
        with open(path, "rb") as file:
            frames = recorded(file.read()).numbers
        missing = sent - collections.Counter(frame.bytes for frame in frames if frame)
        if not missing or time.monotonic() >= end:
            return missing.total()
        time.sleep(0.2)


class Bench:
    """The systems and the switch, which take turns by the clock of the machine."""

    def __init__(self, switch: Right, begin: int) -> None:
        self.switch, self.begin = switch, begin
        self.systems = {port: opened(f"s{port}") for port in PORTS}
        self.ports = {port: opened(f"p{port}") for port in PORTS}
        self.waiting: list[tuple[int, int, socket.socket, bytes]] = []  # by moment and turn
        self.turn = 0
        self.latest: dict[tuple[int, int], int] = {}  # of a link and port: when its last one leaves
        self.longest = 0
        self.sent: Counter[bytes] = collections.Counter()  # of what is judged

    def put(self, moment: int, line: socket.socket, content: bytes) -> None:
        """A frame goes out there at a moment."""
        self.turn += 1
        heapq.heappush(self.waiting, (moment, self.turn, line, content))

    def leave(self, stamp: int, vl: int, copy: Leaving, content: bytes) -> None:
        """A copy leaves the switch."""
        moment, stream = stamp + copy.after, (vl, copy.port)
        if copy.waits:
            moment = self.latest[stream] = max(moment, self.latest.get(stream, 0))
        self.put(moment, self.ports[copy.port], content)

    def take(self, port: int) -> None:
        """The switch takes what came in at a port."""
        with contextlib.suppress(BlockingIOError):
            while True:
                content, others, _, _ = self.ports[port].recvmsg(2048, 64)
                seconds, ns = struct.unpack("2q", others[0][2])
                stamp = seconds * 10**9 + ns
                for copy in self.switch.came(stamp, content):
                    self.leave(stamp, int.from_bytes(content[4:6], "big"), copy, content)

    def send_due(self) -> None:
        """What is due goes out."""
        while self.waiting and self.waiting[0][0] <= time.time_ns():
            moment, _, line, content = heapq.heappop(self.waiting)
            line.send(content)
            if moment >= self.begin + FROM:
                self.sent[content] += 1
            self.longest = max(self.longest, time.time_ns() - moment)

    def run(self, coming: list[Sent], length: int) -> None:
        """The traffic of so many ns, and what is left of it in the switch."""
        port_of = {link["vl"]: int(link["from"][1:]) for link in LINKS}
        for sent in coming:
            self.put(self.begin + sent.time, self.systems[port_of[sent.vl]], sent.content)
        by_number = {line.fileno(): port for port, line in self.ports.items()}
        asked = select.poll()
        for number in by_number:
            asked.register(number, select.POLLIN)
        end = self.begin + length + 500 * MS
        while time.time_ns() < end:
            due = self.waiting[0][0] if self.waiting else end
            wait = max(0, min(due, end) - time.time_ns())
            for number, _ in asked.poll(wait / MS):
                self.take(by_number[number])
            self.send_due()


def main() -> None:
    """Runs the bench."""
    name, seconds, folder = sys.argv[1], int(sys.argv[2]), sys.argv[3]
    lay_cables(PORTS)
    go_first()
    length = seconds * 10**9
    coming = traffic(length)
    path = os.path.join(folder, "run.pcapng")
    with recorder(path, seconds, PORTS, ("inbound", "outbound")) as await_recorded:
        begin = time.time_ns() + 500 * MS  # all is made ready till then
        end = begin + length
        switch = SWITCHES[name](lambda now: begin + FROM + 300 * MS < now < end - 500 * MS)
        bench = Bench(switch, begin)
        bench.run(coming, length)
        lost = await_recorded(bench.sent)
    found = [[each.content.hex(), each.came, each.left] for each in switch.found]
    with open(os.path.join(folder, "said.json"), "w", encoding="ascii") as file:
        json.dump({"found": found, "longest": bench.longest, "lost": lost}, file)


if __name__ == "__main__":
    main()
