"""What must be so of a replay of several switches, found in its own output: each switch does with
what comes to it what it does alone, and a cable brings what left its other end."""
from __future__ import annotations

from collections import deque
from typing import Callable, NamedTuple

from cascade import own_names
from cascade_run import CLOCK_END, SIDES, Arrival, Places, arrivals_of
from program import must, same_text

PLACES = {"V": 2, "L": 2, "D": 3, "T": 3}  # where a line has its side, with its switch behind it
NUMBERS = {"V": 1, "L": 1, "D": 1, "T": 1, "X": 3}  # where it has a line's number
FROM_LIST = 0  # no port has this number


class Came(NamedTuple):
    """A frame that came to a switch."""

    time: int
    side: str
    port: int
    number: int
    content: bytes


class Part:
    """What came to a switch, and the lines that name it or its systems, without its name."""

    def __init__(self) -> None:
        self.came: list[Came] = []
        self.told: list[str] = []
        self.accepted: set[tuple[str, int]] = set()


class Split:
    """A replay's output, cut into the parts of the switches."""

    def __init__(self, cascade: dict, arrivals: list[Arrival]) -> None:
        self.names = [switch["name"] for switch in cascade["switch"]]
        self.parts = {name: Part() for name in self.names}
        self.home = {name: sw["name"] for sw in cascade["switch"] for name in own_names(sw)}
        self.cable = {
            (switch["name"], end["port"]): end["name"]
            for switch in cascade["switch"]
            for end in switch["neighbour"]
        }
        self.far_port = {(name, far): port for (name, port), far in self.cable.items()}
        self.listed = deque(arrivals)
        self.content = {one.frame.number: one.frame.content for one in arrivals}
        self.left: deque[tuple[str, Came]] = deque()  # what a cable is to bring, and where

    def verdict(self, line: str, number: int, side: str, name: str) -> None:
        """A V line: of the list's next frame, or of what left first of all that a cable brings."""
        if self.listed and self.listed[0].frame.number == number:
            one = self.listed.popleft()
            place = SIDES[one.side], self.names[one.switch]
            must(place == (side, name), f"{line!r} is not of the list's next frame")
            came = Came(one.time, side, one.port, number, one.frame.content)
        else:
            must(self.left, f"{line!r}: no cable brings a frame")
            far, came = self.left.popleft()
            must((far, came.side, came.number) == (name, side, number), f"{line!r} is not next")
        part = self.parts[name]
        part.came.append(came)
        if line.endswith(" accept"):
            must((side, number) not in part.accepted, f"{line!r}: it was accepted there before")
            part.accepted.add((side, number))

    def departure(self, words: list[str], name: str) -> None:
        """A D line: at a cable the frame arrives at its other end."""
        number, time, side, port = int(words[1]), int(words[2]), words[3], int(words[5])
        far = self.cable.get((name, port))
        if far is not None and time <= CLOCK_END:
            came = Came(time, side, self.far_port[far, name], number, self.content[number])
            self.left.append((far, came))

    def take(self, line: str) -> None:
        """The next line."""
        words = line.split(" ")
        place = PLACES.get(words[0])
        if place is None:
            self.parts[self.home[words[2]]].told.append(line)
            return
        name = words[place + 1]
        if words[0] == "V":
            self.verdict(line, int(words[1]), words[2], name)
        elif words[0] == "D":
            self.departure(words, name)
        del words[place + 1]
        self.parts[name].told.append(" ".join(words))

    def end(self) -> None:
        """Everything has been told."""
        must(not self.listed, f"{len(self.listed)} frames of the list have no verdict")
        must(not self.left, f"{len(self.left)} frames that left to a cable never arrive")


def tables_alone(switch: dict) -> dict:
    """A file of one switch with its tables, in which its neighbours are systems that nobody knows
    otherwise."""
    used = {system["id"] for system in switch["system"]}
    free = (number for number in range(65_535, -1, -1) if number not in used)
    cables = [end | {"id": next(free), "partition": 0} for end in switch["neighbour"]]
    tables = {key: switch[key] for key in ("profile", "buffer", "link", "port")}
    return tables | {"system": [*switch["system"], *cables]}


def told_alone(switch: dict, part: Part, out: str) -> list[str]:
    """What a replay of one switch wrote on what came to it: with the numbers of the cascade, and
    without what its neighbours do with frames, which nobody reads there."""
    cables = {end["name"] for end in switch["neighbour"]}
    lines = []
    for line in out.splitlines():
        words = line.split(" ")
        if words[0] in ("M", "X") and words[2] in cables:
            must(words[0] == "X", f"a neighbour reads a message: {line!r}")
            continue
        if words[0] in NUMBERS:
            at = NUMBERS[words[0]]
            words[at] = str(part.came[int(words[at]) - 1].number)
        lines.append(" ".join(words))
    return lines


def each_switch_alone(
    cascade: dict, text: bytes, out: bytes, replay_one: Callable[[dict, bytes], bytes]
) -> None:
    """The lines of each switch are those of a file of it alone on what came to it. The list has no
    fault, and no jitter is more than its BAG."""
    arrivals, fault = arrivals_of(text, Places(cascade["switch"], True))
    must(not fault, f"the list has a fault: {fault!r}")
    split = Split(cascade, arrivals)
    for line in out.decode().splitlines():
        split.take(line)
    split.end()
    for switch in cascade["switch"]:
        part = split.parts[switch["name"]]
        listed = [
            f"R {one.time} {one.side} {one.port} {one.content.hex() or '-'}\n" for one in part.came
        ]
        alone = replay_one(tables_alone(switch), "".join(listed).encode()).decode()
        wanted = "\n".join(told_alone(switch, part, alone)).encode()
        same_text(f"what {switch['name']} does", wanted, "\n".join(part.told).encode())


def with_short_jitters(cascade: dict) -> dict:
    """The cascade with jitters that a file of one switch may have."""
    return {
        "switch": [
            switch | {"link": [
                link | {"jitter_us": min(link["jitter_us"], 1000 * link["bag_ms"])}
                for link in switch["link"]
            ]}
            for switch in cascade["switch"]
        ]
    }
