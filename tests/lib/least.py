"""What `check` and `solve` must say of a network, computed apart from the program by the formulas
of docs/NETWORK.md, in whole numbers: the bounds of its ports, the lines of admission that are
false, and the least jitters, buffer, latencies and skews with which it is admitted.
"""
from __future__ import annotations

import itertools
from typing import Collection, Iterator, NamedTuple

from first_fault import RANGES, config_fault, faults_of, is_whole
from frames import OVERHEAD, byte_ns
from tables import tomllib

UNITS = 128_000_000  # an account's units in a byte, so that all sums are whole
FIXED_JITTER, GREATEST_JITTER = 40_000, 500_000  # of a system's output, in ns
# what --keep calls the keys that are solved, in the order in which they are
SOLVED = {"jitter": "jitter_us", "buffer": "buffer", "latency": "latency_us", "skew": "skew_us"}
KEEPS = [keep for count in range(5) for keep in itertools.combinations(SOLVED, count)]


def key_line(word: str, value: object) -> bytes:
    """The line of a key that is solved."""
    return f"{SOLVED[word]} = {value}".encode()


def quotient_up(amount: int, divisor: int) -> int:
    """The quotient, rounded up."""
    return -(-amount // divisor)


# ---- an output port, and a sender ----------------------------------------------------------------


def wire_size(link: dict) -> int:
    """Smax, the bytes that the link's longest frame takes on the wire."""
    return link["lmax"] + OVERHEAD


def fill_rate(link: dict) -> int:
    """The units that the link may send in a ns."""
    return wire_size(link) * (128 // link["bag_ms"])


def burst(link: dict) -> int:
    """The units that the link may send at once."""
    return fill_rate(link) * (1_000_000 * link["bag_ms"] + 1000 * link["jitter_us"])


def is_high(link: dict) -> bool:
    return link["priority"] == "high"


class Output(NamedTuple):
    """The output port of a system or a neighbour: its number, the ns of a byte on its line, and its
    links."""

    port: int
    byte_ns: int
    links: list[dict]

    def high(self) -> list[dict]:
        """Its links of high priority."""
        return [link for link in self.links if is_high(link)]

    def load(self, links: list[dict]) -> int:
        """The units that these may send in the time of a byte; UNITS is the whole line."""
        return self.byte_ns * sum(map(fill_rate, links))

    def buffer_need(self) -> int:
        """The bytes that wait at most, rounded up."""
        return quotient_up(sum(map(burst, self.links)), UNITS)

    def high_bound(self) -> int:
        """The ns that a high frame takes at most, rounded up."""
        longest = max((wire_size(link) for link in self.links if not is_high(link)), default=0)
        units = sum(map(burst, self.high())) + UNITS * longest
        return quotient_up(self.byte_ns * units, UNITS)

    def low_bound(self) -> int | None:
        """The ns that a low frame takes at most, rounded up; None where the high links take the
        whole line."""
        left = UNITS - self.load(self.high())
        if left <= 0:
            return None
        return quotient_up(self.byte_ns * sum(map(burst, self.links)), left)


def outputs_of(tables: dict) -> list[Output]:
    """The output ports that have a system or a neighbour, ascending."""
    ends = [*tables["system"], *tables.get("neighbour", [])]
    links_to: dict[str, list[dict]] = {end["name"]: [] for end in ends}
    for link in tables["link"]:
        for name in link["to"]:
            links_to[name].append(link)
    ends.sort(key=lambda end: end["port"])
    return [Output(end["port"], byte_ns(end), links_to[end["name"]]) for end in ends]


def jitters_of(tables: dict) -> dict[str, int]:
    """The jitter of each system's output, in ns: its own, and one frame of each of its links."""
    jitters = {system["name"]: FIXED_JITTER for system in tables["system"]}
    a_byte = {system["name"]: byte_ns(system) for system in tables["system"]}
    for link in tables["link"]:
        if link["from"] in jitters:
            jitters[link["from"]] += wire_size(link) * a_byte[link["from"]]
    return jitters


# ---- what `check` writes -------------------------------------------------------------------------


def told(bound: int | None) -> str:
    """A bound in a line."""
    return "-" if bound is None else str(bound)


def margins(output: Output) -> Iterator[tuple[dict, int | None]]:
    """The links of an output port, in the order of the file, each with its bound there."""
    high, low = output.high_bound(), output.low_bound()
    for link in output.links:
        yield link, high if is_high(link) else low


def port_line(output: Output) -> str:
    """The bounds of an output port."""
    low = told(output.low_bound())
    return f"P {output.port} {output.high_bound()} {low} {output.buffer_need()}"


def port_lines(tables: dict, with_margins: bool = False) -> Iterator[str]:
    """The bounds of each output port; with them, each link's at once behind its port's."""
    for output in outputs_of(tables):
        yield port_line(output)
        for link, bound in margins(output) if with_margins else ():
            yield f"m {output.port} {link['vl']} {told(bound)} {1000 * link['latency_us']}"


def left_apart(row: dict, way: list[dict], byte_times: int) -> int:
    """How far apart the copies of a frame may be sent, in ns, that go to a system over rows whose
    lines take so long for a byte, summed: both may come to it no further apart than its row's
    skew, and one may take all latencies, the other only the time on the lines of the shortest
    frame, with 8 bytes before it on each."""
    latency = sum(1000 * each["latency_us"] for each in way)
    sooner = max(0, latency - (row["lmin"] + 8) * byte_times)
    return max(0, 1000 * row["skew_us"] - sooner)


def apart_line(vl: int, left: list[int]) -> str:
    """What a link leaves the copies of its frames, by what it leaves to each receiver."""
    return f"apart {vl} {min(left, default='-')}"


def apart_lines(tables: dict) -> Iterator[str]:
    """The same of each link, where there is one switch on a side."""
    a_byte = {system["name"]: byte_ns(system) for system in tables["system"]}
    for link in tables["link"]:
        left = [left_apart(link, [link], a_byte[name]) for name in link["to"]]
        yield apart_line(link["vl"], left)


def false_at(output: Output, buffer: int) -> Iterator[str]:
    """The lines that are false at an output port: A1, A2, A3 of high links, A4 of low ones."""
    if output.load(output.links) > UNITS:
        yield f"no A1 {output.port}"
    if output.buffer_need() > buffer:
        yield f"no A2 {output.port} {output.buffer_need()}"
    bounds = list(margins(output))
    for name, high in (("A3", True), ("A4", False)):
        for link, bound in bounds:
            in_time = bound is not None and bound <= 1000 * link["latency_us"]
            if is_high(link) == high and not in_time:
                yield f"no {name} {output.port} {link['vl']} {told(bound)}"


def false_lines(tables: dict) -> list[str]:
    """Each line of admission that is false, in their order."""
    lines = [line for output in outputs_of(tables) for line in false_at(output, tables["buffer"])]
    jitters = jitters_of(tables)
    lines += [f"no A5 {name} {ns}" for name, ns in jitters.items() if ns > GREATEST_JITTER]
    for link in tables["link"]:
        needed = jitters.get(link["from"], 0)  # none of a link from a neighbour
        if needed > 1000 * link["jitter_us"]:
            lines.append(f"no A6 {link['vl']} {needed}")
        if link["latency_us"] > link["skew_us"]:
            lines.append(f"no A7 {link['vl']}")
    return lines


def check_text(tables: dict, is_all: bool, with_margins: bool = False) -> bytes:
    """What `check` writes of tables without a fault, with its options or without them."""
    false = false_lines(tables)
    answer = false if is_all else false[:1]
    if not false:
        answer = ["ok", *(apart_lines(tables) if with_margins else ())]
    lines = [*port_lines(tables, with_margins), *answer]
    return "".join(f"{line}\n" for line in lines).encode()


# ---- what `solve` answers ------------------------------------------------------------------------


class Solved(NamedTuple):
    """The tables with their four keys: each the least that is enough, or the greatest in its range
    where none is; and the first line of admission that is false then, or nothing."""

    tables: dict
    fault: str


class Choice(NamedTuple):
    """What is asked of the values that are written: which keys stay as they are, whether none may
    be less than in the file, and by how many ns one copy may be sent later than the other."""

    keep: Collection[str] = ()
    raise_only: bool = False
    apart: int = 0

    def written(
        self, row: dict, part: str, key: str, enough: int | None, late_us: int = 0
    ) -> int:
        """The value of a key, of which so much is enough (None: no value is); a jitter may be so
        much over the BAG."""
        if key in self.keep:
            return row[key]
        least, greatest = RANGES[part, key]
        if key == "jitter_us":
            greatest = 1000 * row["bag_ms"] + late_us
        asked = row.get(key, 0) if self.raise_only else 0
        return greatest if enough is None else min(max(least, asked, enough), greatest)


def with_jitters(tables: dict, choice: Choice) -> dict:
    """The jitters, from those of the senders."""
    jitters = jitters_of(tables)
    links = []
    for link in tables["link"]:
        enough = quotient_up(jitters[link["from"]], 1000)
        links.append(link | {"jitter_us": choice.written(link, "link", "jitter_us", enough)})
    return tables | {"link": links}


def with_buffer(tables: dict, choice: Choice) -> dict:
    """The buffer, from the needs of all ports."""
    enough = max((output.buffer_need() for output in outputs_of(tables)), default=0)
    return tables | {"buffer": choice.written(tables, "top", "buffer", enough)}


def with_latencies(tables: dict, choice: Choice) -> dict:
    """The latencies, from the bounds at all ports of a link."""
    enough: dict[int, int | None] = {link["vl"]: 0 for link in tables["link"]}
    for output in outputs_of(tables):
        for link, bound in margins(output):
            most = enough[link["vl"]]
            us = None if bound is None else quotient_up(bound, 1000)
            enough[link["vl"]] = None if us is None or most is None else max(us, most)
    links = []
    for link in tables["link"]:
        latency = choice.written(link, "link", "latency_us", enough[link["vl"]])
        links.append(link | {"latency_us": latency})
    return tables | {"link": links}


def with_skews(tables: dict, choice: Choice) -> dict:
    """The skews, from the latencies and how far apart copies may be sent."""
    links = []
    for link in tables["link"]:
        enough = link["latency_us"] + quotient_up(choice.apart, 1000)
        skew = choice.written(link, "link", "skew_us", enough)
        links.append(link | {"skew_us": skew})
    return tables | {"link": links}


def short_line(lines: Iterator[str], apart: int) -> str:
    """The line of the first link that leaves less than is asked for, or nothing."""
    less = (line for line in lines if "-" not in line and int(line.split()[-1]) < apart)
    return next((f"no {line}" for line in less), "")


def solved(
    tables: dict, keep: Collection[str] = (), raise_only: bool = False, apart: int = 0
) -> Solved:
    """What `solve` makes of tables that have no fault for it: each key from those before it as
    written."""
    choice = Choice([SOLVED[word] for word in keep], raise_only, apart)
    for step in (with_jitters, with_buffer, with_latencies, with_skews):
        tables = step(tables, choice)
    fault = next(iter(false_lines(tables)), "")
    return Solved(tables, fault or short_line(apart_lines(tables), apart))


def needs(asked: dict, tables: dict) -> list[str]:
    """What is reported of each link and port where more is needed than the file asks, by ports and
    then by links; a latency that isn't there asks nothing."""
    latencies = {link["vl"]: link.get("latency_us") for link in asked["link"]}
    lines = []
    for output in outputs_of(tables):
        for link, bound in margins(output):
            latency = latencies[link["vl"]]
            if None not in (latency, bound) and bound > 1000 * latency:
                lines.append(
                    f"vl {link['vl']} at {output.port}: {bound} ns needed, {latency} us asked"
                )
    return lines


def lawful_in(part: str, row: dict, keep: Collection[str]) -> dict:
    """The row where a key that is solved, absent or any whole number from 0, has a value in
    range."""
    solved_keys = [key for key in SOLVED.values() if (part, key) in RANGES and key not in keep]
    return row | {
        key: RANGES[part, key][0]
        for key in solved_keys
        if key not in row or (is_whole(row[key]) and row[key] >= 0)
    }


def lawful_tables(tables: dict, part: str, keep: Collection[str]) -> dict:
    """The tables of a file of one switch (`top`), or of a switch (`switch`), likewise."""
    tables = lawful_in(part, tables, keep)
    if isinstance(tables.get("link"), list):
        rows = tables["link"]
        tables["link"] = [
            lawful_in("link", row, keep) if isinstance(row, dict) else row for row in rows
        ]
    return tables


def solve_fault(text: bytes, keep: Collection[str] = ()) -> str:
    """The fault of a configuration for `solve`; nothing where there is none."""
    kept = [SOLVED[word] for word in keep]
    line = config_fault(text, lambda tables: faults_of(lawful_tables(tables, "top", kept)))
    return line.decode().rstrip("\n")


class Told(NamedTuple):
    """How `solve` answers: its status, the tables that it writes or the line in their place, and
    the lines on standard error."""

    status: int
    tables: dict | None
    line: str
    errors: list[str]


def solve_answer(
    text: bytes, keep: Collection[str] = (), raise_only: bool = False, apart: int = 0
) -> Told:
    """What `solve` answers to a configuration."""
    fault = solve_fault(text, keep)
    if fault:
        return Told(1, None, "", [fault])
    tables: dict = {"system": [], "link": [], "port": []}
    tables |= tomllib.loads(text.decode("utf-8"))
    found = solved(tables, keep, raise_only, apart)
    if found.fault:
        return Told(1, None, found.fault, [])
    return Told(0, found.tables, "", needs(tables, found.tables))
