"""What `conform` must write of several switches a side that are judged from edge to edge: by what
came from systems and what left to systems, as one big switch; with `--senders` also of the systems.
Computed apart from the program.

A link's rule and account are those of its row at its sender's switch; its frames may leave to each
system that its rows name, within the sum of the latencies of the rows on the way there. What goes
over cables isn't looked at.
"""
from __future__ import annotations

from cascade import loaded
from cascade_check import Ways, byte_times
from cascade_run import SIDES, Arrival, Places, refused
from conform import BAD_NUMBER, Judging, taken_of
from conform_terms import MILLION, Levels, Options, Terms, options_of
from one_switch import Frame, Switch
from places import place_text
from program import Answer
from senders import Senders, Site, senders_answer, senders_by
from switch_fault import file_fault

PORTS = 25  # more than the number of any port of a switch
NOWHERE = 0  # the number of no port


class WayTerms(Terms):
    """What holds of a stream of a link that passes some switches, by its rows there; `byte_ns` is
    what a byte takes on all lines of the way, summed."""

    def __init__(self, way: list[dict], byte_ns: int, options: Options, until: int) -> None:
        super().__init__(way[0], byte_ns, options, until)
        self.hops = len(way)
        self.latency = self.most(self.taken(way))
        is_exact = options.drift == options.inner == options.asked == 0
        self.is_one = is_exact or self.hops == 1  # only the first switch refuses
        later = 0 if self.is_one else self.taken(way[:-1])
        # what a frame takes at most up to the last switch
        self.before = -(-MILLION * later // (MILLION - options.drift))

    def taken(self, way: list[dict]) -> int:
        """What a frame may take on some rows of the way."""
        return sum(1000 * row["latency_us"] + self.options.inner for row in way)

    def highest(self) -> int:
        """The greatest level that the account of a switch of the way may have, against its cap."""
        return self.cap + self.slow * (self.asked + self.before)

    def inside(self) -> int:
        """What of a full rate may wait inside of all switches but the last."""
        return MILLION * self.smax * (self.hops - 1) * self.options.inner

    def first(self) -> Levels:
        known = self.options.start is None
        return Levels(0, 0 if known else self.highest())

    def accepted(self, levels: Levels, cost: int) -> Levels:
        if self.is_one:
            return super().accepted(levels, cost)
        least = self.slow * self.asked + self.inside()
        high = min(max(levels.high, least) + cost, self.highest())
        return Levels(levels.low + cost, high)

    def refused(self, levels: Levels, cost: int) -> Levels:
        """The first switch may have accepted it, and a later one refused it."""
        if self.is_one:
            return super().refused(levels, cost)
        return Levels(levels.low, self.accepted(levels, cost).high)


def first_rows(switches: list[dict]) -> list[dict]:
    """The row of each link at its sender's switch, in the order in which links first stand."""
    own = {system["name"] for switch in switches for system in switch["system"]}
    rows = [link for switch in switches for link in switch["link"]]
    sent = {link["vl"]: link for link in rows if link["from"] in own}
    return [sent[vl] for vl in dict.fromkeys(link["vl"] for link in rows)]


def place_of(switches: list[dict], side: int, port: int) -> str:
    """A port as a line has it."""
    return f"{place_text(SIDES[side], switches[port // PORTS]['name'])} {port % PORTS}"


class EdgesJudging(Judging):
    """Two lists of all switches, judged. A port is its number, with its switch's place times 25."""

    def links_of(self, tables: dict) -> list[dict]:
        """The links' rows at their senders' switches, in the order in which links first stand."""
        self.switches = tables["switch"]
        self.ways = Ways(self.switches)
        self.each = [Switch(switch) for switch in self.switches]
        rows = first_rows(self.switches)
        self.at = {row["vl"]: place for row in rows for place, switch in enumerate(self.switches)
                   if row in switch["link"]}  # fmt: skip
        return rows

    def port_at(self, each: Arrival) -> int:
        return PORTS * each.switch + each.port

    def place(self, side: int, port: int) -> str:
        return place_of(self.switches, side, port)

    def shape(self, port: int, frame: Frame) -> str:
        """By the rule at the sender's switch; a port of another one is wrong."""
        switch = self.at.get(frame.link() or 0, 0)
        own = port % PORTS if port // PORTS == switch else NOWHERE
        return self.each[switch].shape(own, frame)

    def ports_of(self, place: int) -> list[int]:
        """The ports of all systems that the link's rows name."""
        vl, found = self.links[place]["vl"], []
        for at, switch in enumerate(self.switches):
            row = self.ways.rows.get((switch["name"], vl), {"to": []})
            own = self.ways.own[switch["name"]]
            ports = (self.each[at].port_of[name] for name in row["to"] if name in own)
            found += [PORTS * at + port for port in ports]
        return found

    def terms(self, link: dict, port: int) -> Terms:
        switch = self.switches[port // PORTS]
        way = self.ways.way_to(switch["name"], link["vl"])
        system = next(one["name"] for one in switch["system"] if one["port"] == port % PORTS)
        assert way is not None, "admitted"
        byte_ns = byte_times(self.switches, switch, system, way)
        return self.way_terms(way, byte_ns)

    def way_terms(self, way: list[dict], byte_ns: int) -> Terms:
        """What holds of a stream with this way."""
        return WayTerms(way, byte_ns, self.options, self.until)


class EdgesSenders(Senders):
    """The systems of all switches, judged by what came from them."""

    def systems_in(self, tables: dict) -> dict[str, Site]:
        self.switches = tables["switch"]
        return {
            each["name"]: Site(PORTS * at + each["port"], each["id"])
            for at, switch in enumerate(self.switches) for each in switch["system"]
        }  # fmt: skip

    def links_in(self, tables: dict) -> list[dict]:
        return first_rows(self.switches)

    def port_at(self, each: Arrival) -> int:
        return PORTS * each.switch + each.port

    def place(self, side: int, port: int) -> str:
        return place_of(self.switches, side, port)


def conform_edges(
    config: bytes,
    came: bytes,
    left: bytes | None,
    words: tuple[str, ...] = (),
    judging: type[Judging] = EdgesJudging,
) -> Answer:
    """What `conform` answers of a configuration of several switches, of which none is named, of two
    lists, and these options with their values; without what left the senders alone are judged."""
    options = options_of(words)
    if options is None:
        return BAD_NUMBER
    fault = file_fault(config)
    if fault:
        return Answer(1, b"", fault)
    cascade = loaded(config)
    answer = refused(cascade["switch"])
    if answer is not None:
        return answer
    taken = taken_of(came, left or b"", Places(cascade["switch"], True))
    judged = judging(cascade, options, taken)
    if options.has_senders:
        senders = senders_by(config, cascade, options, judged, taken, senders=EdgesSenders)
        return senders_answer(senders, judged, taken, left is None)
    if taken.fault:
        return Answer(3, judged.text(taken.latest), taken.fault)
    return judged.answer()
