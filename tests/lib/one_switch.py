"""What a switch does with the frames that come to it, and a system with those that it gets, by the
rules of docs/NETWORK.md, apart from the program.

A neighbour of a switch stands where a system does: at a port, with a rate.
"""
from __future__ import annotations

from collections import deque
from typing import NamedTuple

from frames import OVERHEAD, byte_ns, sealed

MS = 1_000_000  # ns
LEFT, TOO_OLD = 0, 3  # what a turn is: its place among what happens at one time
SHORTEST, LONGEST = 64, 1518
ACCEPTED = ""


class Frame(NamedTuple):
    """A frame under the number of its line, with its check sequence."""

    number: int
    content: bytes

    def link(self) -> int | None:
        """The link that its address names."""
        is_link = len(self.content) >= 6 and self.content[:4] == b"\x03\0\0\0"
        return int.from_bytes(self.content[4:6], "big") if is_link else None

    def sequence(self) -> int:
        """Its sequence number."""
        return self.content[-5]


# ---- policing ------------------------------------------------------------------------------------


class Policing:
    """The window rule of one link at one switch: of each window, from an accepted frame up to the
    one in question, `BAG * charges <= Smax * (its length + BAG + J)`. All sums run from the start,
    so the window that counts is that with the least `BAG * charges before it - Smax * its begin`.
    """

    def __init__(self, link: dict) -> None:
        self.bag, self.smax = link["bag_ms"] * MS, link["lmax"] + OVERHEAD
        self.burst = self.bag + 1000 * link["jitter_us"]
        self.is_byte = link["policing"] == "byte"
        self.charged = 0
        self.least: int | None = None

    def early(self, time: int, length: int) -> int:
        """How many ns too early a frame comes; 0 where it is accepted, which is then charged."""
        charged = self.charged + self.bag * (length + OVERHEAD if self.is_byte else self.smax)
        begin = self.charged - self.smax * time
        least = begin if self.least is None else min(self.least, begin)
        over = charged - least - self.smax * (time + self.burst)
        if over > 0:
            return -(-over // self.smax)
        self.charged, self.least = charged, least
        return 0


# ---- output ports --------------------------------------------------------------------------------


class Entry(NamedTuple):
    """A frame in an output port: when it came, and how long it may wait, if there is a limit."""

    time: int
    frame: Frame
    is_high: bool
    longest: int | None


class Turn(NamedTuple):
    """The turn of an entry: it is chosen at a moment, and leaves at the end of its slot, or is
    dropped as too old."""

    moment: int
    time: int
    kind: int
    entry: Entry


class OutputPort:
    """An output port, with the entries that have had no turn yet."""

    def __init__(self, end: dict, buffer: int) -> None:
        self.byte_ns, self.buffer = byte_ns(end), buffer
        self.free = 0
        self.high: deque[Entry] = deque()
        self.low: deque[Entry] = deque()
        self.held = 0  # bytes of all entries

    def turn(self) -> Turn | None:
        """The next turn, of what has come so far."""
        heads = [queue[0] for queue in (self.high, self.low) if queue]
        if not heads:
            return None
        moment = max(self.free, min(entry.time for entry in heads))
        entry = next(entry for entry in heads if entry.time <= moment)
        if entry.longest is not None and moment > entry.time + entry.longest:
            return Turn(moment, moment, TOO_OLD, entry)
        slot = (len(entry.frame.content) + OVERHEAD) * self.byte_ns
        return Turn(moment, moment + slot, LEFT, entry)

    def take(self, turn: Turn) -> None:
        """The next turn is over."""
        queue = self.high if turn.entry.is_high else self.low
        queue.popleft()
        self.held -= len(turn.entry.frame.content)
        self.free = turn.time

    def put(self, entry: Entry) -> bool:
        """Takes an entry, if those that wait leave it room. One whose slot has begun before waits
        no more."""
        length, turn, waiting = len(entry.frame.content), self.turn(), self.held
        if turn is not None and turn.moment < entry.time:
            waiting -= len(turn.entry.frame.content)
        if waiting + length > self.buffer:
            return False
        (self.high if entry.is_high else self.low).append(entry)
        self.held += length
        return True


# ---- a switch ------------------------------------------------------------------------------------


class Switch:
    """A switch of one side."""

    def __init__(self, tables: dict) -> None:
        ends = [*tables["system"], *tables["neighbour"]]
        self.port_of = {end["name"]: end["port"] for end in ends}
        self.ports = {end["port"]: OutputPort(end, tables["buffer"]) for end in ends}
        self.links = {link["vl"]: link for link in tables["link"]}
        self.policing = {link["vl"]: Policing(link) for link in tables["link"]}
        self.has_limits = tables["profile"] == 2

    def shape(self, port: int, frame: Frame) -> str:
        """Why a frame is dropped, whatever came before it."""
        content, link = frame.content, self.links.get(frame.link())
        length = len(content)
        if length < SHORTEST:
            return "too-short"
        if length > LONGEST:
            return "too-long"
        if sealed(content[:-4]) != content:
            return "bad-fcs"
        if frame.link() is None:
            return "bad-address"
        if link is None:
            return "unknown-link"
        if port != self.port_of[link["from"]]:
            return "wrong-port"
        if length > link["lmax"]:
            return "over-lmax"
        if link["policing"] == "byte" and length < link["lmin"]:
            return "under-lmin"
        return ACCEPTED

    def judge(self, time: int, port: int, frame: Frame) -> tuple[str, int]:
        """Why a frame is dropped, ACCEPTED where it isn't; and how many ns too early it came."""
        reason = self.shape(port, frame)
        if reason != ACCEPTED:
            return reason, 0
        vl = frame.link()
        assert vl is not None
        early = self.policing[vl].early(time, len(frame.content))
        return ("over-rate" if early else ACCEPTED), early

    def put(self, time: int, frame: Frame) -> tuple[list[int], list[int]]:
        """Puts an accepted frame to the ports of its link: those that took it, and those where it
        is lost."""
        vl = frame.link()
        assert vl is not None
        link = self.links[vl]
        longest = 1000 * link["latency_us"] if self.has_limits else None
        entry = Entry(time, frame, link["priority"] == "high", longest)
        took: list[int] = []
        lost: list[int] = []
        for port in sorted(self.port_of[name] for name in link["to"]):
            (took if self.ports[port].put(entry) else lost).append(port)
        return took, lost


# ---- a system ------------------------------------------------------------------------------------


def steps(one: int, other: int) -> int | None:
    """How many steps lead from a sequence number to another, at least one; none leads to 0."""
    return (other - one - 1) % 255 + 1 if other else None


def datagram(content: bytes) -> tuple[str, int, bytes]:
    """Why a frame is no sound datagram, empty where it is; else its UDP port and its payload."""
    header = content[14:34]
    total, fragment = (int.from_bytes(header[at : at + 2], "big") for at in (2, 6))
    words = sum(int.from_bytes(header[at : at + 2], "big") for at in range(0, 20, 2))
    udp_port, udp_length = (int.from_bytes(content[at : at + 2], "big") for at in (36, 38))
    fault = ""
    if content[12:14] != b"\x08\0":
        fault = "not-ipv4"
    elif header[0] != 0x45 or not 28 <= total <= len(content) - 19 or not is_ones(words):
        fault = "bad-ip-header"
    elif fragment & 0x3FFF:
        fault = "fragment"
    elif header[9] != 17:
        fault = "not-udp"
    elif udp_length != total - 20 or udp_length == 8:
        fault = "bad-udp-length"
    return fault, udp_port, content[42 : 34 + udp_length]


def is_ones(words: int) -> bool:
    """The ones' complement sum of the words, of which this is the sum, is ffff."""
    while words > 0xFFFF:
        words = (words & 0xFFFF) + (words >> 16)
    return words == 0xFFFF


def skew_ns(link: dict) -> int:
    """How much later than the last winner a copy may come."""
    return 1000 * link["skew_us"]


class Receiver:
    """A system that gets frames from both sides."""

    def __init__(self, tables: dict, name: str) -> None:
        self.skew = {link["vl"]: skew_ns(link) for link in tables["link"]}
        rows = [row for row in tables["port"] if row["system"] == name]
        self.open = {(row["link"], row["udp"]) for row in rows}
        self.before: dict[tuple[int, str], int] = {}  # the number before, by link and side
        self.winner: dict[int, tuple[int, int]] = {}  # time and number of the last winner

    def is_valid(self, vl: int, side: str, number: int) -> bool:
        """Whether the number may follow on its side; it is now the one before."""
        before = self.before.get((vl, side))
        self.before[vl, side] = number
        return before is None or number == 0 or steps(before, number) in (1, 2)

    def wins(self, time: int, vl: int, number: int) -> bool:
        """Whether a valid frame is no copy; then it is now the last winner."""
        if vl in self.winner:
            won, last = self.winner[vl]
            behind = steps(last, number)
            if time - won <= self.skew[vl] and (behind is None or behind > 127):
                return False
        self.winner[vl] = time, number
        return True

    def hear(self, time: int, side: str, frame: Frame) -> tuple[str, bytes]:
        """Why the frame is dropped, empty where it isn't; and its payload."""
        vl, number = frame.link(), frame.sequence()
        assert vl is not None
        if not self.is_valid(vl, side, number):
            return "sequence", b""
        if not self.wins(time, vl, number):
            return "redundant", b""
        fault, udp, payload = datagram(frame.content)
        if not fault and (vl, udp) not in self.open:
            fault = "no-port"
        return fault, payload
