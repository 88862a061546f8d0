"""Lists of frames for cascades, made at random: bursts and pauses on both sides, copies, frames at
moments at which others leave or have waited for long enough, and frames of each kind that a switch
or a system drops."""
from __future__ import annotations

import random

from cascade import own_names
from first_fault import LATEST
from frames import OVERHEAD
from made import changed_list, random_frame, sealed
from one_switch import skew_ns

MS = 1_000_000
STEPS = [*8 * [1], 0, 2, 3, 127, 128]  # from one sequence number to the next
GAPS = [0, 0, 0, 1, 719, 720, 6_719, 6_720, 100_000, 500_000, MS, 16 * MS]
RATES = [8, 80, 800]  # ns of a byte
BEGINS = (0, 0, 5, LATEST - 100 * MS)
COPY_LATE = [0, 0, 1, 3_000, MS]
KINDS = [*12 * ["F"], "R", "B"]

Line = tuple[int, str]  # of a list, behind its time


class Lister:
    """Makes the lines of a list for a cascade."""

    def __init__(self, chance: random.Random, cascade: dict, begin: int) -> None:
        self.chance, self.switches, self.time = chance, cascade["switch"], begin
        self.home = {
            system["name"]: (switch, system)
            for switch in self.switches
            for system in switch["system"]
        }
        self.tables = {
            "system": [system for _, system in self.home.values()],
            "port": [row for switch in self.switches for row in switch["port"]],
        }
        self.begins = [
            link for sw in self.switches for link in sw["link"] if link["from"] in own_names(sw)
        ]
        self.rows: dict[int, list[dict]] = {}  # by link
        for switch in self.switches:
            for link in switch["link"]:
                self.rows.setdefault(link["vl"], []).append(link)
        self.numbers: dict[int, int] = {}
        self.moments: list[int] = []  # at which something may happen

    def number(self, vl: int) -> int:
        """The next number of a link's frame, mostly one step further."""
        number = self.numbers.get(vl, -1) + self.chance.choice(STEPS)
        self.numbers[vl] = number
        return (number - 1) % 255 + 1 if number > 0 else 0

    def any_place(self) -> str:
        """A switch and a port that has no cable."""
        switch = self.chance.choice(self.switches)
        cables = {end["port"] for end in switch["neighbour"]}
        port = self.chance.choice([port for port in range(1, 25) if port not in cables])
        return f"{switch['name']} {port}"

    def line(self, kind: str, time: int, side: str, place: str, content: bytes) -> Line:
        """A line of the list; the time is at most the latest one."""
        time = min(time, LATEST)
        return time, f"{kind} {time} {side} {place} {content.hex() or '-'}"

    def odd_line(self) -> Line:
        """What is no frame, or of no link."""
        chance = self.chance
        size = chance.choice([0, 5, 63, 64, 100, 1518, 1519, 1600])
        content = chance.randbytes(size) if chance.random() < 0.5 else bytes(size)
        if chance.random() < 0.4:
            content = b"\x03\0\0\0" + chance.randbytes(2) + content[6:]
        kind, side = chance.choice("FR"), chance.choice("AB")
        return self.line(kind, self.time, side, self.any_place(), content)

    def step(self) -> None:
        """The time of the next frame."""
        chance = self.chance
        near = sorted(moment for moment in self.moments if self.time <= moment < self.time + MS)
        if near and chance.random() < 0.4:
            self.time = chance.choice(near[:6])
        else:
            self.time += chance.choice(GAPS)
        self.moments = [moment for moment in self.moments if moment >= self.time][-60:]

    def look_ahead(self, link: dict, length: int) -> None:
        """When a frame may leave, and when one may have waited for as long as it may behind it."""
        slots = [(length + OVERHEAD) * rate for rate in RATES]
        waits = [1000 * row["latency_us"] for row in self.rows[link["vl"]]]
        self.moments += [self.time + many * slot for slot in slots for many in (1, 2)]
        self.moments += [self.time + slot - wait for slot in slots for wait in waits]

    def late(self, link: dict) -> int:
        """How much later a copy comes; it may be just the skew of a row."""
        skews = [skew_ns(row) for row in self.rows[link["vl"]]]
        return self.chance.choice([*2 * COPY_LATE, *skews])

    def copies(self, link: dict) -> list[Line]:
        """A frame of a link on one side or on both."""
        chance, lines = self.chance, []
        number = self.number(link["vl"])
        state = chance.getstate()
        for side in chance.choice(["A", "AB", "AB", "B", "BA"]):
            chance.setstate(state)  # the copy is the same frame
            sender, frame = random_frame(chance, self.tables, link, number, side)
            switch, _ = self.home[sender["name"]]
            time = self.time + (0 if side == "A" else self.late(link))
            place = f"{switch['name']} {sender['port']}"
            if chance.random() < 0.05:
                place = self.any_place()
            kind = chance.choice(KINDS)
            content = sealed(frame) if kind == "R" else frame
            self.look_ahead(link, len(frame) + 4)
            lines.append(self.line(kind, time, side, place, content))
        return lines

    def lines(self, count: int) -> list[Line]:
        """So many frames, and the copies of some, by time."""
        chance, lines = self.chance, []
        link = None
        for _ in range(count):
            self.step()
            if link is None or chance.random() < 0.6:
                link = chance.choice(self.begins) if self.begins else None
            if link is None or chance.random() < 0.05:
                lines.append(self.odd_line())
            else:
                lines += self.copies(link)
        return sorted(lines, key=lambda line: line[0])


def made_list(
    chance: random.Random, cascade: dict, count: int, begins: tuple[int, ...] = BEGINS
) -> bytes:
    """A list of so many frames without a fault, which begins at one of these times."""
    lines = [line for _, line in Lister(chance, cascade, chance.choice(begins)).lines(count)]
    remark = ["# a remark"] if chance.random() < 0.3 else []
    return "\n".join([*remark, *lines]).encode() + chance.choice([b"\n", b""])


def moved(chance: random.Random, cascade: dict, line: bytes) -> bytes:
    """A line with another place, mostly one that a list may not name."""
    fields = line.split(b" ")
    if len(fields) != 6:
        return line
    switch = chance.choice(cascade["switch"])
    way = chance.randrange(4)
    if way == 0:
        del fields[3]
    elif way == 1:
        fields[3] = chance.choice([b"", b"w9", switch["name"].encode() + b"x", b"A"])
    elif way == 2:
        fields[3:5] = [fields[4], fields[3]]
    else:
        ports = [end["port"] for end in switch["neighbour"]] or [25]
        fields[3:5] = [switch["name"].encode(), b"%d" % chance.choice(ports)]
    return b" ".join(fields)


def faulty_list(chance: random.Random, cascade: dict, text: bytes) -> bytes:
    """A list with a change or a few, which mostly is a fault."""
    if chance.random() < 0.5:
        return changed_list(chance, text)
    lines = text.split(b"\n")
    at = chance.randrange(len(lines))
    lines[at] = moved(chance, cascade, lines[at])
    return b"\n".join(lines)
