"""What is promised of admitted cascades from end to end, found in what a run wrote: it is read off
its lines, the list and the tables alone, and computed by nothing that computes a run.

Each claim is a function that raises Wrong where it is false.
"""
from __future__ import annotations

from collections.abc import Iterator
from typing import NamedTuple

from cascade import own_names
from cascade_run import SIDES, Arrival
from program import must

Key = tuple[str, int]  # a frame: its side, and its number there
Place = tuple[str, str, int]  # an output port: its side, switch, and number
Ends = dict[tuple[int, str], int]  # ns that frames may take, by link and system


class Hop(NamedTuple):
    """A link's row at a switch, and how long after they came to the first switch its frames may
    leave this one, in ns."""

    switch: str
    row: dict
    most: int


class Network:
    """What the tables say of links: the row from a system, and the rows behind it."""

    def __init__(self, cascade: dict) -> None:
        self.switches = {switch["name"]: switch for switch in cascade["switch"]}
        self.port_of = {
            (switch["name"], end["name"]): end["port"]
            for switch in cascade["switch"]
            for end in [*switch["system"], *switch["neighbour"]]
        }
        self.links = {link["vl"] for switch in cascade["switch"] for link in switch["link"]}
        self.hops = {vl: self.hops_of(vl) for vl in self.links}
        self.open = {
            (row["system"], row["link"], row["udp"])
            for switch in cascade["switch"] for row in switch["port"]
        }

    def hops_of(self, vl: int) -> list[Hop]:
        """The link's rows, each behind that from which its frames come; none where no system sends
        it."""
        rows = {
            name: link for name, switch in self.switches.items()
            for link in switch["link"] if link["vl"] == vl
        }
        hops = [
            Hop(name, row, 1000 * row["latency_us"]) for name, row in rows.items()
            if row["from"] in own_names(self.switches[name])
        ]
        for switch, row, most in hops:  # it grows
            behind = [name for name in row["to"] if name in rows and rows[name]["from"] == switch]
            hops += [Hop(name, rows[name], most + 1000 * rows[name]["latency_us"])
                     for name in behind]
        return hops

    def receivers(self, vl: int) -> Iterator[tuple[str, int]]:
        """The systems that the link goes to, and how long its frames may take to them."""
        for switch, row, most in self.hops[vl]:
            for name in sorted(own_names(self.switches[switch]).intersection(row["to"])):
                yield name, most

    def sender_place(self, vl: int) -> tuple[str, int]:
        """The switch and the port at which the link's sender is."""
        first = self.hops[vl][0]
        return first.switch, self.port_of[first.switch, first.row["from"]]


class Told:
    """What a run wrote, by frame, by port and by system. One that stopped at a fault of its list
    took these arrivals, and wrote what happened up to the last one."""

    def __init__(
        self, cascade: dict, arrivals: list[Arrival], out: bytes, is_stopped: bool = False
    ) -> None:
        self.network, self.is_stopped = Network(cascade), is_stopped
        self.names = [switch["name"] for switch in cascade["switch"]]
        self.listed = {(SIDES[one.side], one.frame.number): one for one in arrivals}
        self.link = {key: one.frame.link() for key, one in self.listed.items()}
        self.of_link: dict[tuple[str, int | None], list[Key]] = {}  # by side too
        for key, vl in self.link.items():
            self.of_link.setdefault((key[0], vl), []).append(key)
        self.verdicts: dict[Key, list[tuple[str, str]]] = {key: [] for key in self.listed}
        self.left: dict[tuple[Place, int | None], list[tuple[Key, int]]] = {}  # by link too
        self.read: dict[tuple[str, int], list[bytes]] = {}
        self.missing: list[str] = []  # lines of frames that are lost or too old
        for line in out.decode().splitlines():
            self.take(line)

    def take(self, line: str) -> None:
        """A line."""
        kind, *words = line.split(" ")
        must(kind in ("V", "L", "D", "T", "M", "X"), f"a line is {line!r}")
        if kind == "V":
            number, side, name, verdict = words[0], words[1], words[2], " ".join(words[3:])
            must((side, int(number)) in self.listed, f"{line!r} is of no frame that came")
            self.verdicts[side, int(number)].append((name, verdict))
        elif kind == "D":
            number, time, side, name, port = words
            key = side, int(number)
            must(key in self.listed, f"{line!r} is of no frame that came")
            place = (side, name, int(port)), self.link[key]
            self.left.setdefault(place, []).append((key, int(time)))
        elif kind == "M":
            self.read.setdefault((words[1], int(words[2])), []).append(bytes.fromhex(words[3]))
        elif kind in "LT":
            self.missing.append(line)

    def as_far(self, wanted: list, count: int) -> list:
        """All that is to be told; so many of it where the run stopped."""
        return wanted[:count] if self.is_stopped else wanted

    def named(self, side: str, vl: int) -> list[Key]:
        """The listed frames of a side that name a link, in order."""
        return self.of_link.get((side, vl), [])

    def is_own(self, key: Key, vl: int) -> bool:
        """A frame that names the link comes from its sender's port."""
        one = self.listed[key]
        return (self.names[one.switch], one.port) == self.network.sender_place(vl)

    def left_of(self, place: Place, vl: int) -> list[tuple[Key, int]]:
        """The link's frames that left a port, in order."""
        return self.left.get((place, vl), [])


# ---- accepted once is accepted everywhere --------------------------------------------------------


def accepted_everywhere(told: Told) -> None:
    """What a cable brings is accepted; no copy is lost, and none too old."""
    must(not told.missing, f"a copy doesn't leave: {told.missing[:1]}")
    for key, verdicts in told.verdicts.items():
        must(verdicts, f"{key} has no verdict")
        name = told.names[told.listed[key].switch]
        must(verdicts[0][0] == name, f"{key} is first told of at {verdicts[0][0]}, not at {name}")
        for behind, verdict in verdicts[1:]:
            must(verdict == "accept", f"a cable brings {key} to {behind}: {verdict}")


# ---- from end to end -----------------------------------------------------------------------------


def ends_are_sums(network: Network, lines: list[str]) -> None:
    """The E lines of `check` are the sums of the latencies, one for each link and receiver."""
    found: Ends = {}
    for _, vl, name, ns in (line.split(" ") for line in lines if line.startswith("E ")):
        must((int(vl), name) not in found, f"two E lines of link {vl} to {name}")
        found[int(vl), name] = -1 if ns == "-" else int(ns)
    wanted = {(vl, name): most for vl in network.hops for name, most in network.receivers(vl)}
    must(found == wanted, f"the E lines are {found}, not {wanted}")


def leaves_in_time(told: Told, place: Place, vl: int, wanted: list[Key], most: int) -> None:
    """Just these frames of a link left a port, in order, each in so many ns; of a run that stopped
    the first of them."""
    found = told.left_of(place, vl)
    wanted = told.as_far(wanted, len(found))
    must([key for key, _ in found] == wanted,
         f"of link {vl} {len(found)} frames leave {place} in place of {len(wanted)}, or others")
    for key, time in found:
        stay = time - told.listed[key].time
        must(0 < stay <= most, f"{key} leaves {place} {stay} ns after it came, of {most}")


def from_end_to_end(told: Told) -> None:
    """At each port of a link's way leave just the frames that its first switch accepted, in order
    and in time; nothing else leaves anywhere."""
    count = 0
    for vl, hops in told.network.hops.items():
        for side in SIDES if hops else ():
            passed = [
                key for key in told.named(side, vl)
                if told.verdicts[key][0] == (hops[0].switch, "accept")
            ]
            for switch, row, most in hops:
                for name in row["to"]:
                    place = side, switch, told.network.port_of[switch, name]
                    leaves_in_time(told, place, vl, passed, most)
                    count += len(told.left_of(place, vl))
    others = sum(map(len, told.left.values())) - count
    must(not others, f"{others} frames leave ports to which their link doesn't go")


# ---- alone, end to end ---------------------------------------------------------------------------


class OwnText(NamedTuple):
    """What a run told of a link's own frames of a side, each by its place among them: when it came,
    and its bytes; its verdict at the first switch; who accepted it behind; which left each port."""

    came: list[tuple[int, bytes]]
    first: list[str]
    behind: list[list[str]]
    left: dict[Place, list[int]]


def own_text(told: Told, side: str, vl: int) -> OwnText:
    """It; all else under the link's name is dropped where it comes."""
    keys = told.named(side, vl)
    own = [key for key in keys if told.is_own(key, vl)]
    for key in keys:
        verdicts = told.verdicts[key]
        is_dropped = len(verdicts) == 1 and verdicts[0][1].startswith("drop ")
        must(told.is_own(key, vl) or is_dropped, f"a stranger's frame {key}: {verdicts}")
    place_of = {key: place for place, key in enumerate(own)}
    left = {
        place: [place_of.get(key, -1) for key, _ in found]
        for (place, link), found in told.left.items() if place[0] == side and link == vl
    }
    return OwnText(
        [(told.listed[key].time, told.listed[key].frame.content) for key in own],
        [told.verdicts[key][0][1] for key in own],
        [[" ".join(each) for each in sorted(told.verdicts[key][1:])] for key in own],
        left,
    )


def alone(one: Told, other: Told, side: str, vl: int) -> None:
    """Two runs whose lists have equal frames of a link tell the same of it."""
    wanted, found = own_text(one, side, vl), own_text(other, side, vl)
    must(wanted.came == found.came, f"the lists have other frames of link {vl}")
    must(wanted.first == found.first, f"link {vl} has other verdicts on {side}")
    must(wanted.behind == found.behind, f"link {vl} has other verdicts behind cables on {side}")
    must(wanted.left == found.left, f"other frames of link {vl} leave ports of {side}")


# ---- exactly once --------------------------------------------------------------------------------


def receivers_named(network: Network) -> Iterator[tuple[str, int]]:
    """The systems to which rows of the tables go, each with the link, whether it is fed or not."""
    for switch in network.switches.values():
        for link in switch["link"]:
            for name in sorted(own_names(switch).intersection(link["to"])):
                yield name, link["vl"]


def exactly_once(told: Told, sent: dict[int, list[tuple[int, bytes]]]) -> None:
    """Each receiver reads of each link the messages that were sent to UDP ports that it has, each
    once and in order; nobody reads anything else. Of a run that stopped it is the first of them."""
    read = dict(told.read)
    for name, vl in receivers_named(told.network):
        of_link = sent.get(vl, [])
        wanted = [payload for udp, payload in of_link if (name, vl, udp) in told.network.open]
        found = read.pop((name, vl), [])
        wanted = told.as_far(wanted, len(found))
        what = f"{len(found)} messages of link {vl} in place of {len(wanted)}"
        must(found == wanted, f"{name} reads {what}, or others")
    must(not read, f"messages are read where none are sent: {sorted(read)[:5]}")
