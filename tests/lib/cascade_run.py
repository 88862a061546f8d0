"""What `replay` and `send` must write of several switches a side, computed apart from the program:
the events of a list of frames in their one order, what happens to each by the tables of its switch
(one_switch.py), and the first fault of the list.

A file of one switch is answered too: then no place has a switch's name.
"""
from __future__ import annotations

import heapq
from collections import deque
from typing import Iterator, NamedTuple

from cascade import of_one, own_names
from cascade_check import cascade_false_lines
from first_fault import MOST_LINES, field_faults, list_fault, list_lines
from frames import sealed
from one_switch import ACCEPTED, LEFT, Frame, Receiver, Switch, Turn
from places import place_text
from program import Answer
from sender import Message, emissions

SIDES = ("A", "B")
CABLE, LIST = 1, 2  # what happens at one time: first what leaves, last what is too old
CLOCK_END = 1_000_032_768_000_000  # ns: a cable brings what has left by then
COUNTS = ("accepted", "dropped", "lost", "departed", "too-old", "delivered")

# where something happens: its time, what it is, side, switch and port by their places
At = tuple[int, int, int, int, int]


class Arrival(NamedTuple):
    """A frame of a list: when and where it comes in."""

    time: int
    side: int
    switch: int
    port: int
    frame: Frame


class Ran(NamedTuple):
    """What a replay writes: its output, the lines of frames that came too early, and the fault of
    its list; and how many lines this has."""

    lines: list[str]
    early: list[str]
    fault: bytes
    listed: int

    def out(self) -> bytes:
        """Its standard output."""
        return "".join(f"{line}\n" for line in self.lines).encode()

    def summary(self) -> str:
        """The line of its counts."""
        counts = dict.fromkeys(COUNTS, 0)
        for line in self.lines:
            name = {"V": "accepted" if line.endswith(" accept") else "dropped", "L": "lost",
                    "D": "departed", "T": "too-old", "M": "delivered"}.get(line[0])
            if name is not None:
                counts[name] += 1
        told = " ".join(f"{name} {count}" for name, count in counts.items())
        return f"summary lines {self.listed} {told}"

    def answer(self, options: tuple[str, ...] = ()) -> Answer:
        """The replay's answer with these of its options: --explain-drops, --summary."""
        err = [f"{line}\n" for line in self.early] if "--explain-drops" in options else []
        if not self.fault and "--summary" in options:
            err.append(f"{self.summary()}\n")
        return Answer(3 if self.fault else 0, self.out(), "".join(err).encode() + self.fault)


# ---- a list --------------------------------------------------------------------------------------


class Places:
    """The switches that a list may name, and their ports with a cable. Of a file of one switch a
    line has no name."""

    def __init__(self, switches: list[dict], is_named: bool) -> None:
        self.is_named = is_named
        self.switch = {sw["name"].encode(): at for at, sw in enumerate(switches)}
        self.cables = [{end["port"] for end in sw["neighbour"]} for sw in switches]

    def fault(self, fields: list[bytes], latest: int) -> str | None:
        """The first fault of a line's fields."""
        if not self.is_named:
            return next(field_faults(fields, latest, True), None)
        if len(fields) != 6 or fields[3] not in self.switch:
            return "BadLine"
        fault = next(field_faults([*fields[:3], *fields[4:]], latest, True), None)
        is_cable = fault in (None, "BadHex") and int(fields[4]) in self.cables[self.at(fields)]
        return "BadPort" if is_cable else fault

    def at(self, fields: list[bytes]) -> int:
        """The switch of a sound line, by its place."""
        return self.switch[fields[3]] if self.is_named else 0

    def arrival(self, number: int, fields: list[bytes]) -> Arrival:
        """The frame of a sound line."""
        kind, time, side, port, digits = fields[0], fields[1], fields[2], fields[-2], fields[-1]
        content = b"" if digits == b"-" else bytes.fromhex(digits.decode())
        if kind == b"F":
            content = sealed(content)
        elif kind == b"B":
            content += bytes(byte ^ 0xFF for byte in sealed(content)[-4:])
        frame = Frame(number, content)
        return Arrival(int(time), SIDES.index(side.decode()), self.at(fields), int(port), frame)


def arrivals_of(text: bytes, places: Places) -> tuple[list[Arrival], bytes]:
    """The frames before the first fault of a list, and that fault's line, empty where it has
    none."""
    fault = list_fault(text, True, places.fault)
    lines = list_lines(text)[:MOST_LINES]
    words = fault.split()
    sound = lines[: int(words[2]) - 1] if len(words) == 3 else lines
    arrivals = []
    for number, line in enumerate(sound, 1):
        line = line[:-1] if line.endswith(b"\r") else line
        if line and not line.startswith(b"#"):
            arrivals.append(places.arrival(number, line.split(b" ")))
    return arrivals, fault


# ---- what happens --------------------------------------------------------------------------------


class Running:
    """The switches of both sides, after some events."""

    def __init__(self, switches: list[dict], is_named: bool) -> None:
        self.is_named, count = is_named, range(len(switches))
        names = [switch["name"] for switch in switches]
        self.place = [[place_text(side, name) for name in names] for side in SIDES]
        self.switches = [[Switch(tables) for tables in switches] for _ in SIDES]
        self.systems = [{row["port"]: row["name"] for row in sw["system"]} for sw in switches]
        self.receivers = {
            name: Receiver(sw, name) for sw in switches for name in own_names(sw)
        }
        far = [{end["name"]: end["port"] for end in sw["neighbour"]} for sw in switches]
        self.far_end = {
            (k, port): (names.index(name), far[names.index(name)][names[k]])
            for k in count
            for name, port in far[k].items()
        }
        self.turns: list[tuple[At, Turn]] = []  # those that are due, and some that are no more
        self.cables: deque[tuple[At, Frame]] = deque()  # what has left, and hasn't arrived yet
        self.lines: list[str] = []
        self.early: list[str] = []

    def look(self, side: int, k: int, port: int) -> None:
        """The next turn of a port is due."""
        turn = self.switches[side][k].ports[port].turn()
        if turn is not None:
            heapq.heappush(self.turns, ((turn.time, turn.kind, side, k, port), turn))

    def next_turn(self) -> At | None:
        """Where the first turn is due."""
        while self.turns:
            (_, _, side, k, port), turn = at_turn = self.turns[0]
            if self.switches[side][k].ports[port].turn() == turn:
                return at_turn[0]
            heapq.heappop(self.turns)
        return None

    def arrive(self, arrival: Arrival) -> None:
        """A frame comes to a switch."""
        time, side, k, port, frame = arrival
        place, switch = self.place[side][k], self.switches[side][k]
        reason, early = switch.judge(time, port, frame)
        verdict = "accept" if reason == ACCEPTED else f"drop {reason}"
        self.lines.append(f"V {frame.number} {place} {verdict}")
        if early:
            where = f"{place} " if self.is_named else ""
            self.early.append(f"early {frame.number} {where}{early}")
        if reason == ACCEPTED:
            took, lost = switch.put(time, frame)
            self.lines += [f"L {frame.number} {place} {other}" for other in lost]
            for other in took:
                self.look(side, k, other)

    def leave(self, at: At, frame: Frame) -> None:
        """A frame's slot has ended: at a system, which hears it, or at a cable."""
        time, _, side, k, port = at
        self.lines.append(f"D {frame.number} {time} {self.place[side][k]} {port}")
        if (k, port) in self.far_end:
            if time <= CLOCK_END:
                self.cables.append(((time, CABLE, side, k, port), frame))
            return
        name = self.systems[k][port]
        fault, payload = self.receivers[name].hear(time, SIDES[side], frame)
        if fault:
            self.lines.append(f"X {time} {name} {frame.number} {fault}")
        else:
            self.lines.append(f"M {time} {name} {frame.link()} {payload.hex()}")

    def happen(self, limit: tuple[int, int] | None) -> None:
        """All that is due before this time and place, or all there is."""
        while True:
            at, is_cable = self.next_turn(), False
            if self.cables and (at is None or self.cables[0][0] < at):
                at, is_cable = self.cables[0][0], True
            if at is None or (limit is not None and at[:2] >= limit):
                return
            time, kind, side, k, port = at
            if is_cable:
                _, frame = self.cables.popleft()
                self.arrive(Arrival(time, side, *self.far_end[k, port], frame))
                continue
            _, turn = heapq.heappop(self.turns)
            self.switches[side][k].ports[port].take(turn)
            self.look(side, k, port)
            if kind == LEFT:
                self.leave(at, turn.entry.frame)
            else:
                place = self.place[side][k]
                self.lines.append(f"T {turn.entry.frame.number} {time} {place} {port}")


def run(switches: list[dict], text: bytes, is_named: bool) -> Ran:
    """What a replay writes of a list, whether the switches are admitted or not."""
    arrivals, fault = arrivals_of(text, Places(switches, is_named))
    running = Running(switches, is_named)
    for arrival in arrivals:
        running.happen((arrival.time, LIST))
        running.arrive(arrival)
    if not fault:
        running.happen(None)
    return Ran(running.lines, running.early, fault, len(list_lines(text)))


def replayed(cascade: dict, text: bytes) -> Ran:
    """The same of a cascade."""
    return run(cascade["switch"], text, True)


def replayed_one(tables: dict, text: bytes) -> Ran:
    """The same of a file of one switch."""
    return run(of_one(tables, "")["switch"], text, False)


def refused(switches: list[dict]) -> Answer | None:
    """The answer to a list where the switches are not admitted; None where they are."""
    false = cascade_false_lines(switches)[:1]
    fault = "".join(f"admit {line.removeprefix('no ')}\n" for line in false)
    return Answer(1, b"", fault.encode()) if false else None


# ---- what a system sends -------------------------------------------------------------------------


def refusal(switch: dict, name: str, message: Message) -> str:
    """Why a message is refused, whatever was submitted before; empty where it isn't."""
    own = {link["vl"]: link for link in switch["link"] if link["from"] == name}
    link = own.get(message.vl)
    if link is None:
        return "S1"
    if not 1 <= message.sub <= link["subs"]:
        return "S2"
    if not message.payload:
        return "S3"
    return "S4" if len(message.payload) + 47 > link["lmax"] else ""


def sent_lines(switch: dict, name: str, messages: list[Message]) -> Iterator[tuple]:
    """The lines that `send` writes, each behind its time and what it is."""
    port = next(system["port"] for system in switch["system"] if system["name"] == name)
    refused = [refusal(switch, name, message) for message in messages]
    for n, (word, message) in enumerate(zip(refused, messages), 1):
        if word:
            yield message.time, 1, n, f"# {n} {word}"
    taken = [message for word, message in zip(refused, messages) if not word]
    for n, one in enumerate(emissions(switch, name, taken)):
        for side, frame in zip(SIDES, (one.a, one.b)):
            place = place_text(side, switch["name"])
            yield one.end, 0, n, f"R {one.end} {place} {port} {frame.hex()}"


def sent_text(cascade: dict, name: str, messages: list[Message]) -> bytes:
    """What `send` writes of a system's messages, of which none may find its queue full."""
    switch = next(sw for sw in cascade["switch"] if name in own_names(sw))
    lines = sorted(sent_lines(switch, name, messages), key=lambda line: line[:3])
    return "".join(f"{line[3]}\n" for line in lines).encode()
