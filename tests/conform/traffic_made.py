"""What comes to a recorded switch, made at random: links that keep their gaps, or send in bursts,
or too much; and frames that are damaged or at wrong ports."""
from __future__ import annotations

import random

import tables as made
from first_fault import BAGS
from one_switch import MS
from recorded_switch import Arriving

SHORT = 60  # bytes of the shortest frame without its check sequence


def bench_tables(chance: random.Random, links: int) -> dict:
    """Tables of some links from s1 and s2, each to one or two systems; latencies are wide."""
    tables = made.base_tables(2)
    rate = chance.choice([100, 1000])
    tables["system"] = [made.system_of(port, rate) for port in (1, 2, 3, 4)]
    rows = []
    for vl in range(1, links + 1):
        bag = chance.choice(BAGS[:4])
        row = {"vl": vl, "from": chance.choice(["s1", "s2"]), "bag_ms": bag, "lmin": 64}
        row |= {"to": chance.choice([["s3"], ["s4", "s3"], ["s4"]])}
        row |= {"lmax": chance.choice([64, 100, 1518]), "jitter_us": chance.randint(1, 1000 * bag)}
        row |= {"policing": chance.choice(["byte", "frame"])}
        row |= {"latency_us": chance.choice([150, 500, 2000])}
        rows.append(tables["link"][0] | row)
    return tables | {"link": rows, "port": []}


def content_of(chance: random.Random, link: dict, number: int) -> bytes:
    """The link's frame of this number, without its check sequence."""
    length = chance.choice([SHORT, SHORT, link["lmax"] - 4])
    head = b"\x03\0\0\0" + link["vl"].to_bytes(2, "big") + number.to_bytes(4, "big")
    return head + bytes(length - len(head))


def stream_times(chance: random.Random, link: dict, count: int) -> list[int]:
    """When the frames of a link come: a BAG apart but for their jitter, in bursts, or too often."""
    bag, jitter = link["bag_ms"] * MS, 1000 * link["jitter_us"]
    kind, begin = chance.choice(["exact", "late", "edge", "greedy"]), chance.randrange(MS)
    times = []
    for place in range(count):
        time = begin + place * bag
        if kind == "late":
            time += chance.choice([0, jitter, chance.randint(0, jitter)])
        elif kind == "edge":
            time -= min(place, 1) * (jitter + chance.choice([0, 0, 0, 1, 2, 1000]))
        elif kind == "greedy":
            time = begin + place * bag * 2 // 3 + chance.randrange(bag // 2)
        times.append(max(0, time))
    return sorted(times)


def traffic(
    chance: random.Random, tables: dict, count: int, kinds: int, odd: float
) -> list[Arriving]:
    """What comes, so many frames of a link on each side; a link has `kinds` different ones. `odd`
    is the part of frames that are damaged or misplaced."""
    coming = []
    port_of = {system["name"]: system["port"] for system in tables["system"]}
    for link in tables["link"]:
        for side in "AB":
            for place, time in enumerate(stream_times(chance, link, count)):
                content = content_of(chance, link, place % kinds)
                port, kind = port_of[link["from"]], "F"
                if chance.random() < odd:
                    port, kind = chance.choice([(port, "B"), (3, "F"), (port % 2 + 1, "F")])
                coming.append(Arriving(time, side, port, content, kind))
    return coming
