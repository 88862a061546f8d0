"""The least jitters, latencies, skews and buffers with which several switches a side are admitted,
computed apart from the program."""
from __future__ import annotations

from typing import Collection, NamedTuple

from cascade import TOP_ORDER, cascade_text, loaded
from cascade_check import Ways, cascade_false_lines, latency_sum, short_row
from first_fault import ALL_KEYS, LATE_US, ROWS, config_fault
from least import SOLVED, Choice, jitters_of, lawful_tables, needs, quotient_up, with_buffer
from least import with_latencies
from program import Answer
from switch_fault import any_faults, is_cascade


class SolvedCascade(NamedTuple):
    """The switches with their values: each the least that is enough, or the greatest in its range
    where none is; and the first line of admission that is false then, or nothing."""

    switches: list[dict]
    fault: str


def begun(switch: dict, choice: Choice) -> dict:
    """The switch with the latencies from which the rounds begin, and jitters of 0 where they are
    absent."""
    links = [
        {"jitter_us": 0, **link, "latency_us": choice.written(link, "link", "latency_us", 1)}
        for link in switch["link"]
    ]
    return switch | {"link": links}


def with_link_keys(switch: dict, key: str, values: dict[tuple[str, int], int]) -> dict:
    """The switch with a key of its links, by the switch's name and the link."""
    links = [link | {key: values[switch["name"], link["vl"]]} for link in switch["link"]]
    return switch | {"link": links}


def with_way_jitters(switches: list[dict], choice: Choice) -> list[dict]:
    """The jitters: of a link's first row from its sender, of each next one from the row before."""
    ways = Ways(switches)
    senders = {switch["name"]: jitters_of(switch) for switch in switches}
    found: dict[tuple[str, int], int] = {}

    def jitter(name: str, vl: int) -> int:
        if (name, vl) not in found:
            row = ways.rows[name, vl]
            if row["from"] in ways.own[name]:
                enough, late = quotient_up(senders[name][row["from"]], 1000), 0
            elif ways.way_to(name, vl) is None:
                enough, late = 0, LATE_US
            else:
                before = ways.rows[row["from"], vl]
                enough, late = jitter(row["from"], vl) + before["latency_us"], LATE_US
            found[name, vl] = choice.written(row, "link", SOLVED["jitter"], enough, late)
        return found[name, vl]

    for name, vl in ways.rows:
        jitter(name, vl)
    return [with_link_keys(switch, SOLVED["jitter"], found) for switch in switches]


def with_way_skews(switches: list[dict], choice: Choice) -> list[dict]:
    """The skews: a row's latency, or where the row goes to a system that of its whole way and how
    far apart copies may be sent."""
    ways = Ways(switches)
    found = {}
    for (name, vl), row in ways.rows.items():
        way = ways.way_to(name, vl) if ways.own[name].intersection(row["to"]) else None
        late = 0 if way is None else latency_sum(way) + quotient_up(choice.apart, 1000)
        enough = max(row["latency_us"], late)
        found[name, vl] = choice.written(row, "link", SOLVED["skew"], enough)
    return [with_link_keys(switch, SOLVED["skew"], found) for switch in switches]


def solved_cascade(
    cascade: dict, keep: Collection[str] = (), raise_only: bool = False, apart: int = 0
) -> SolvedCascade:
    """The least values, by rounds: each rests on those before it as they are written."""
    choice = Choice([SOLVED[word] for word in keep], raise_only, apart)
    switches = [begun(switch, choice) for switch in cascade["switch"]]
    while True:
        switches = with_way_jitters(switches, choice)
        later = [with_latencies(switch, choice) for switch in switches]
        if later == switches:
            break
        switches = later
    switches = [with_buffer(sw, choice) for sw in with_way_skews(switches, choice)]
    fault = next(iter(cascade_false_lines(switches)), "")
    return SolvedCascade(switches, fault or short_row(switches, apart))


# ---- what `solve` answers ------------------------------------------------------------------------


def lawful_file(tables: dict, keep: Collection[str]) -> dict:
    """The file where keys that are solved have values in range, of one switch or of several."""
    if not is_cascade(tables):
        return lawful_tables(tables, "top", keep)
    switches = tables["switch"]
    if isinstance(switches, list):
        switches = [
            lawful_tables(row, "switch", keep) if isinstance(row, dict) else row
            for row in switches
        ]
    return tables | {"switch": switches}


def solve_file_fault(text: bytes, keep: Collection[str] = ()) -> bytes:
    """The line on standard error for a file of one switch or of several; none where it has no
    fault."""
    kept = [SOLVED[word] for word in keep]
    return config_fault(text, lambda tables: any_faults(lawful_file(tables, kept)))


def laid_out(switch: dict) -> dict:
    """The switch with the keys that a file has, in the order in which they are written."""
    rows = {
        part: [{key: row[key] for key in ALL_KEYS[part]} for row in switch[part]]
        for part in ROWS
        if switch[part]
    }
    return {key: switch[key] for key in TOP_ORDER} | rows


def solved_text(switches: list[dict]) -> bytes:
    """The text that `solve` writes of them."""
    return cascade_text({"switch": [laid_out(switch) for switch in switches]})


def cascade_needs(asked: list[dict], switches: list[dict]) -> bytes:
    """What is told of each link and port where more is needed than the file asks, switch by
    switch."""
    lines = []
    for before, after in zip(asked, switches):
        place = f" at {after['name']} "
        lines += [line.replace(" at ", place, 1) for line in needs(before, after)]
    return "".join(f"{line}\n" for line in lines).encode()


def solve_cascade_answer(
    text: bytes, keep: Collection[str] = (), raise_only: bool = False, apart: int = 0
) -> Answer:
    """What `solve` answers to a file of several switches, or to one with a fault."""
    fault = solve_file_fault(text, keep)
    if fault:
        return Answer(1, b"", fault)
    asked = loaded(text)
    found = solved_cascade(asked, keep, raise_only, apart)
    if found.fault:
        return Answer(1, f"{found.fault}\n".encode(), b"")
    return Answer(0, solved_text(found.switches), cascade_needs(asked["switch"], found.switches))
