"""What `conform --senders` must write of the systems that sent what came to a switch: their lines
in their order, the end of the last line, its status, and the first fault. Computed apart from the
program."""
from __future__ import annotations

import tomllib
from collections import defaultdict
from typing import Callable, NamedTuple

from cascade import loaded, of_one
from cascade_check import Ways, byte_times, latency_sum
from cascade_run import SIDES, Arrival
from conform import BAD_NUMBER, CONFORMS, DEVIATES, UNDECIDED, Judging, Order, Taken
from conform import judged_tables, taken_of
from conform_terms import Options, options_of
from one_switch import Frame, skew_ns
from program import Answer
from sender_source import Heard, Source, SourceTerms, Way, damage
from switch_fault import is_cascade

Seen = Callable[[int, int], bool]  # whether a port of a side was recorded
SENDERS_FIRST = -1  # among the lines of one moment, side and port


class Counted(NamedTuple):
    """The end of the last line."""

    sent: int
    cut: int
    alone: int

    def text(self) -> str:
        """As it stands there."""
        return f" sent {self.sent} cut {self.cut} alone {self.alone}"


def seen_all(side: int, port: int) -> bool:
    """Lists have what came at all ports."""
    return True


def ways_of(switches: list[dict], vl: int) -> list[Way]:
    """How each system gets a link that gets it."""
    ways, found = Ways(switches), []
    for switch in switches:
        row, way = ways.rows.get((switch["name"], vl)), ways.way_to(switch["name"], vl)
        if row is None or way is None:
            continue
        latency = 1000 * latency_sum(way)
        for name in row["to"]:
            if name in ways.own[switch["name"]]:
                times = byte_times(switches, switch, name, way)
                found.append(Way(skew_ns(row), latency, times))
    return found


def switches_of(config: bytes, tables: dict) -> list[dict]:
    """The switches of a configuration, of which these tables are one's."""
    if is_cascade(tomllib.loads(config.decode())):
        return loaded(config)["switch"]
    return of_one(tables, "one")["switch"]


class Site(NamedTuple):
    """The port of a system, and its number in addresses."""

    port: int
    ident: int


class Senders:
    """The systems of a switch, judged by what came to it from F to T and wasn't left out. A port is
    its number there."""

    def __init__(
        self, switches: list[dict], tables: dict, options: Options, until: int,
        came: list[Arrival], seen: Seen = seen_all,
    ) -> None:  # fmt: skip
        self.seen = seen
        self.systems = self.systems_in(tables)
        self.ports = {site.port for site in self.systems.values()}
        self.links = {link["vl"]: link for link in self.links_in(tables)}
        self.known = {link["vl"] for switch in switches for link in switch["link"]}
        self.lines: list[tuple[Order, str]] = []
        frames = self.by_source(came)
        own = [link for link in self.links.values() if link["from"] in self.systems]
        sources, alone = [], 0
        for link in own:
            port, ident = self.systems[link["from"]]
            is_paired = seen(0, port) and seen(1, port)
            alone += not is_paired
            terms = SourceTerms(link, ident, ways_of(switches, link["vl"]), options, until,
                                is_paired)
            source = Source(terms, frames[link["vl"]])
            sources.append(source)
            for told in source.told:
                self.put(told.moment, told.side, port, (told.line, told.place), told.word,
                         told.behind)
        self.lines.sort()
        self.counted = Counted(sum(each.sent for each in sources),
                               sum(each.cut for each in sources), alone)

    def systems_in(self, tables: dict) -> dict[str, Site]:
        """The systems that are judged."""
        return {each["name"]: Site(each["port"], each["id"]) for each in tables["system"]}

    def links_in(self, tables: dict) -> list[dict]:
        """The links of which they may send some, in their order."""
        return tables["link"]

    def port_at(self, each: Arrival) -> int:
        """Where a frame came."""
        return each.port

    def place(self, side: int, port: int) -> str:
        """A port as a line has it."""
        return f"{SIDES[side]} {port}"

    def put(
        self, moment: int, side: int, port: int, place: tuple[int, int], word: str, behind: str
    ) -> None:
        """A line is told; its place is the frame's line, and its index there."""
        text = f"{word} {place[0]} {self.place(side, port)}" + (f" {behind}" if behind else "")
        self.lines.append(((moment, side, port, SENDERS_FIRST, *place), text))

    def by_source(self, came: list[Arrival]) -> dict[int, list[Heard]]:
        """The frames of each link at its source's sites; what is of no source is told."""
        found: dict[int, list[Heard]] = defaultdict(list)
        for each in came:
            time, side, port, frame = each.time, each.side, self.port_at(each), each.frame
            vl = frame.link()
            if vl is None or port not in self.ports or not self.seen(side, port):
                continue
            if self.is_sent_at(vl, port):
                found[vl].append(Heard(time, side, frame.number, frame.content))
            else:
                word = self.of_none(vl, frame)
                self.put(time, side, port, (frame.number, 0), "unlawful", word)
        return found

    def is_sent_at(self, vl: int, port: int) -> bool:
        """The system at a port sends the link."""
        sender = self.systems.get(self.links[vl]["from"]) if vl in self.links else None
        return sender is not None and sender.port == port

    def of_none(self, vl: int, frame: Frame) -> str:
        """Why a frame is unlawful that is of no source."""
        other = "not-its-link" if vl in self.known else "unknown-link"
        return damage(frame.content) or other

    def text(self, before: int | None = None) -> bytes:
        """The lines, or those of moments before a time."""
        return text_of(self.lines, before)


def text_of(lines: list[tuple[Order, str]], before: int | None = None) -> bytes:
    """The text of lines, or of those of moments before a time."""
    texts = [text for order, text in lines if before is None or order[0] < before]
    return "".join(f"{text}\n" for text in texts).encode()


def senders_by(
    config: bytes, tables: dict, options: Options, judged: Judging, taken: Taken,
    seen: Seen = seen_all, senders: type[Senders] = Senders,
) -> Senders:  # fmt: skip
    """The senders of a switch whose streams are judged, by what was taken."""
    within = [each for each in taken.came if judged.options.begin(False) <= each.time]
    kept = [each for each in within
            if each.time <= judged.until and each.frame.link() not in options.left_out]
    return senders(switches_of(config, tables), tables, options, judged.until, kept, seen)


def alone_answer(senders: Senders, judged: Judging) -> Answer:
    """Of senders alone, of a list without a fault. No stream is judged."""
    counted, findings = senders.counted, len(senders.lines)
    status, verdict = CONFORMS, "conforms"
    if findings:
        status, verdict = DEVIATES, f"deviates {findings}"
    elif counted.sent == 0:
        status, verdict = UNDECIDED, "undecided"
    unseen = len(judged.judged_streams())
    last = f"{verdict} explained 0 open 0 uncertain 0 left-out {judged.left_out} unseen {unseen}"
    out = senders.text() + f"{last} idle 0{counted.text()}\n".encode()
    return Answer(status, out, b"")


def beside_answer(senders: Senders, judged: Judging) -> Answer:
    """Of senders beside the streams of two lists without a fault."""
    of_streams = judged.answer()
    status, last = of_streams.status, of_streams.out.decode().splitlines()[-1]
    findings = judged.findings + len(senders.lines)
    if findings:
        status = DEVIATES
        _, _, counts = last.partition(" explained ")
        last = f"deviates {findings} explained {counts}"
    lines = sorted([*senders.lines, *judged.lines])
    return Answer(status, text_of(lines) + f"{last}{senders.counted.text()}\n".encode(), b"")


def senders_answer(senders: Senders, judged: Judging, taken: Taken, is_alone: bool) -> Answer:
    """Of senders alone or beside streams, of what was taken."""
    if taken.fault:
        lines = senders.lines if is_alone else sorted([*senders.lines, *judged.lines])
        return Answer(3, text_of(lines, taken.latest), taken.fault)
    return alone_answer(senders, judged) if is_alone else beside_answer(senders, judged)


def conform_senders(
    config: bytes, came: bytes, left: bytes | None = None, words: tuple[str, ...] = (),
    seen: Seen = seen_all,
) -> Answer:  # fmt: skip
    """What `conform --senders` answers of a configuration, what came, and what left; without that
    the senders alone are judged, at the ports that were recorded."""
    options = options_of(words)
    if options is None:
        return BAD_NUMBER
    tables = judged_tables(config, options.switch)
    if isinstance(tables, Answer):
        return tables
    taken = taken_of(came, left or b"")
    judged = Judging(tables, options, taken)
    senders = senders_by(config, tables, options, judged, taken, seen)
    return senders_answer(senders, judged, taken, left is None)
