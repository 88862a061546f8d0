"""What `conform` must write of two lists: its lines in their order, the last line, its status, and
the first fault. Computed apart from the program."""
from __future__ import annotations

import tomllib
from collections import defaultdict
from typing import NamedTuple

from cascade import loaded
from cascade_run import SIDES, Arrival, Places, arrivals_of
from conform_stream import Stream
from conform_terms import Came, Left, Options, Terms, options_of
from first_fault import ROWS
from one_switch import Frame, Switch
from program import Answer
from switch_fault import file_fault, is_cascade

NO_LINK = ("too-short", "too-long", "bad-fcs", "bad-address", "unknown-link")
NO_FRAME = ("too-short", "too-long", "bad-fcs")
CONFORMS, DEVIATES, UNDECIDED = 0, 5, 3
BAD_NUMBER = Answer(2, b"", b"words BadNumber\n")
NO_SWITCH = Answer(2, b"", b"words NoSuchSwitch\n")

Order = tuple[int, int, int, int, int, int]  # of a line among all


class Taken(NamedTuple):
    """The lines of two lists that are taken, the time of the last one, and the fault that ends
    them, empty where none does."""

    came: list[Arrival]
    left: list[Arrival]
    latest: int
    fault: bytes


def of_list(fault: bytes, name: str) -> bytes:
    """A list's fault with the list's name."""
    return fault.replace(b"list ", b"list %s " % name.encode(), 1)


def taken_of(came: bytes, left: bytes, places: Places = Places([], False)) -> Taken:
    """What is taken of two lists: a line of each is read, the lesser one is taken, at one time that
    of what came, and the next of its list is read."""
    lists = [arrivals_of(text, places) for text in (came, left)]
    taken, latest, fault = [0, 0], 0, b""
    reads = [0, 1]  # the lists of which a line is read next
    while not fault:
        for at in reads:
            arrivals, why = lists[at]
            if taken[at] == len(arrivals) and why:
                fault = of_list(why, ("came", "left")[at])
                break
        heads = [(arrivals[taken[at]].time, at)
                 for at, (arrivals, _) in enumerate(lists) if taken[at] < len(arrivals)]
        if fault or not heads:
            break
        latest, at = min(heads)
        taken[at] += 1
        reads = [at]
    (in_came, _), (in_left, _) = lists
    return Taken(in_came[: taken[0]], in_left[: taken[1]], latest, fault)


def tables_of(config: bytes, name: str | None) -> dict | None:
    """The tables of the switch that is judged; None where no switch has that name."""
    tables = tomllib.loads(config.decode())
    if not is_cascade(tables):
        return {part: [] for part in ROWS} | tables if name is None else None
    named = [switch for switch in loaded(config)["switch"] if switch["name"] == name]
    return named[0] if named else None


def judged_tables(config: bytes, name: str | None) -> dict | Answer:
    """The same with its neighbours; or what is answered where there are none."""
    fault = file_fault(config)
    if fault:
        return Answer(1, b"", fault)
    tables = tables_of(config, name)
    return NO_SWITCH if tables is None else {"neighbour": []} | tables


class Judging:
    """Two lists without a fault, or as far as one was taken, judged by the tables of a switch. A
    port is its number there."""

    def __init__(self, tables: dict, options: Options, taken: Taken) -> None:
        self.options = options
        self.links = self.links_of(tables)
        until = taken.latest if options.until is None else options.until
        self.until, self.left_out = until, 0
        self.lines: list[tuple[Order, str]] = []
        self.findings = 0
        self.place_of = {link["vl"]: place for place, link in enumerate(self.links)}
        came, left = self.kept(taken.came, False), self.kept(taken.left, True)
        self.streams = self.streams_of(self.own(came), self.at_ports(left))
        for (side, port, place), stream in self.streams.items():
            self.findings += stream.findings()
            for index, (moment, text) in enumerate(stream.found):
                self.lines.append(((moment, side, port, 1, place, index), text))
        self.lines.sort()

    def links_of(self, tables: dict) -> list[dict]:
        """The links in their order, by these tables, which are kept."""
        self.switch = Switch(tables)
        return list(self.switch.links.values())

    def port_at(self, each: Arrival) -> int:
        """Where a frame was seen."""
        return each.port

    def place(self, side: int, port: int) -> str:
        """A port as a line has it."""
        return f"{SIDES[side]} {port}"

    def shape(self, port: int, frame: Frame) -> str:
        """Why a frame that comes there is dropped, whatever came before it."""
        return self.switch.shape(port, frame)

    def kept(self, lines: list[Arrival], is_left: bool) -> list[Arrival]:
        """The lines that aren't passed over."""
        begin = self.options.begin(is_left)
        within = [each for each in lines if begin <= each.time <= self.until]
        kept = [each for each in within if not self.passes_over(each, is_left)]
        self.left_out += len(within) - len(kept)
        return kept

    def passes_over(self, each: Arrival, is_left: bool) -> bool:
        """A line counts as left out."""
        return each.frame.link() in self.options.left_out

    def is_judged(self, side: int, port: int, place: int) -> bool:
        """A stream was recorded."""
        return True

    def sees_sender(self, side: int, place: int) -> bool:
        """What a link's sender sends to this side was recorded."""
        return True

    def judged_streams(self) -> list[bool]:
        """Of each stream, whether it was recorded."""
        return [self.is_judged(side, port, place) for place in self.place_of.values()
                for side in range(len(SIDES)) for port in self.ports_of(place)]

    def idle(self) -> int:
        """How many streams that were recorded have no line and no frame that is explained."""
        shown = [each for each in self.streams.values() if each.found or each.counts()[0]]
        return sum(self.judged_streams()) - len(shown)

    def own(self, came: list[Arrival]) -> dict[tuple[int, int], list[Came]]:
        """The arrivals of each link on each side."""
        found = defaultdict(list)
        for each in came:
            frame, place = each.frame, self.place_of.get(each.frame.link())
            if place is not None:
                shape = self.shape(self.port_at(each), frame)
                arrival = Came(each.time, frame.number, frame.content, shape)
                found[each.side, place].append(arrival)
        return found

    def ports_of(self, place: int) -> list[int]:
        """The output ports of a link."""
        return [self.switch.port_of[name] for name in self.links[place]["to"]]

    def at_ports(self, left: list[Arrival]) -> dict[tuple[int, int, int], list[Left]]:
        """The frames of each stream; of those that are of none the lines."""
        found = defaultdict(list)
        ports = {place: set(self.ports_of(place)) for place in self.place_of.values()}
        for each in left:
            time, side, frame, port = each.time, each.side, each.frame, self.port_at(each)
            place = self.place_of.get(frame.link())
            is_heard = place is not None and self.sees_sender(side, place)
            if place is None or port not in ports[place] or not is_heard:
                self.foreign(time, side, port, frame)
                continue
            fault = self.shape(port, frame)
            word = fault if fault in NO_FRAME else ""
            found[side, port, place].append(Left(time, frame.number, frame.content, word))
        return found

    def foreign(self, time: int, side: int, port: int, frame: Frame) -> None:
        """The line of a frame that is of no stream."""
        fault = self.shape(port, frame)
        word = fault if fault in NO_LINK else "not-its-port"
        text = f"strange {frame.number} {self.place(side, port)} {word}"
        self.lines.append(((time, side, port, 0, frame.number, 0), text))
        self.findings += 1

    def streams_of(
        self,
        came: dict[tuple[int, int], list[Came]],
        left: dict[tuple[int, int, int], list[Left]],
    ) -> dict[tuple[int, int, int], Stream]:
        """The streams that have an arrival or a frame, by side, port and the link's place."""
        keys = set(left)
        for side, place in came:
            keys |= {(side, port, place) for port in self.ports_of(place)
                     if self.is_judged(side, port, place)}
        streams = {}
        for side, port, place in sorted(keys):
            terms = self.terms(self.links[place], port)
            arrivals, frames = came.get((side, place), []), left.get((side, port, place), [])
            stream = self.stream(terms, self.place(side, port), arrivals, frames)
            streams[side, port, place] = stream
        return streams

    def terms(self, link: dict, port: int) -> Terms:
        """What holds of a stream."""
        return Terms(link, self.switch.ports[port].byte_ns, self.options, self.until)

    def stream(self, terms: Terms, place: str, came: list[Came], left: list[Left]) -> Stream:
        """A stream, judged."""
        return Stream(terms, place, came, left)

    # ---- what is written -------------------------------------------------------------------------

    def text(self, before: int | None = None) -> bytes:
        """The lines, or those of moments before a time."""
        texts = [text for order, text in self.lines if before is None or order[0] < before]
        return "".join(f"{text}\n" for text in texts).encode()

    def answer(self) -> Answer:
        """Of two lists without a fault."""
        counts = [stream.counts() for stream in self.streams.values()]
        explained, opened, uncertain = (sum(each[at] for each in counts) for at in range(3))
        is_unsure = any(stream.is_unsure for stream in self.streams.values())
        status, verdict = CONFORMS, "conforms"
        if self.findings:
            status, verdict = DEVIATES, f"deviates {self.findings}"
        elif is_unsure or explained == 0 or (self.options.is_exercised and self.idle()):
            status, verdict = UNDECIDED, "undecided"
        last = f"{verdict} explained {explained} open {opened} uncertain {uncertain}"
        unseen = self.judged_streams().count(False)
        last += f" left-out {self.left_out} unseen {unseen} idle {self.idle()}\n"
        return Answer(status, self.text() + last.encode(), b"")


def conform(
    config: bytes,
    came: bytes,
    left: bytes,
    words: tuple[str, ...] = (),
    judging: type[Judging] = Judging,
) -> Answer:
    """What `conform` answers of a configuration, two lists, and these options with their values."""
    options = options_of(words)
    if options is None:
        return BAD_NUMBER
    tables = judged_tables(config, options.switch)
    if isinstance(tables, Answer):
        return tables
    taken = taken_of(came, left)
    judged = judging(tables, options, taken)
    if taken.fault:
        return Answer(3, judged.text(taken.latest), taken.fault)
    return judged.answer()
