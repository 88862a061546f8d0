"""Cascades made at random, admitted or not, and changed at random."""
from __future__ import annotations

import copy
import random
from collections.abc import Callable

import tables as made
from cascade import cascade_text, is_tables, own_names
from cascade_least import solved_cascade
from first_fault import BAGS, ROWS
from least import SOLVED

KEYS_OF_LINK = [key for key in SOLVED.values() if key != "buffer"]  # one less: a line is false
RATES = {1: (10, 100, 100, 100), 2: (10, 100, 100, 1000, 1000)}

# the cables of so many switches, each by its two ends
Join = Callable[[random.Random, list[str]], list[tuple[str, str]]]


# ---- a cascade -----------------------------------------------------------------------------------


def joined(chance: random.Random, names: list[str]) -> list[tuple[str, str]]:
    """The cables of so many switches: all hang together, and there may be a ring."""
    order = chance.sample(names, len(names))
    cables = [(chance.choice(order[:place]), order[place]) for place in range(1, len(order))]
    others = [
        (one, other)
        for one in names
        for other in names
        if one < other and (one, other) not in cables and (other, one) not in cables
    ]
    if others and chance.random() < 0.3:
        cables.append(chance.choice(others))
    return cables


def switch_of(chance: random.Random, name: str, systems: int, first: int) -> dict:
    """A switch with so many systems, which are numbered from the first on, and no cable yet."""
    profile = chance.choice([1, 2])
    ports = chance.sample(range(1, 20), systems)
    rows = [
        made.system_of(port, chance.choice(RATES[profile]), f"s{number}", 257 * number, place)
        for place, port in enumerate(ports)
        for number in [first + place]
    ]
    buffer = chance.choice([64, 300, 3000, 65536])
    return made.switch_of(name, rows, [], [], [], profile, buffer)


def switches_of(chance: random.Random, count: int, join: Join = joined) -> list[dict]:
    """So many switches that cables join, without links."""
    counts = [chance.randint(0, 4) for _ in range(count)]
    counts[chance.randrange(count)] += 2
    names = [f"w{place}" for place in range(count)]
    switches = [
        switch_of(chance, name, counts[place], sum(counts[:place]))
        for place, name in enumerate(names)
    ]
    of_name = {switch["name"]: switch for switch in switches}
    for one, other in join(chance, names):
        profile = min(of_name[one]["profile"], of_name[other]["profile"])
        rate = chance.choice(RATES[profile])
        for here, there in ((one, other), (other, one)):
            ends = of_name[here]["neighbour"]
            ends.append(made.cable_of(there, 20 + len(ends), rate))
    for switch in switches:
        chance.shuffle(switch["neighbour"])
    return switches


def ways_from(chance: random.Random, switches: list[dict], start: str) -> dict[str, str]:
    """Of each other switch the one before it, on ways from the start over any cables."""
    of_name = {switch["name"]: switch for switch in switches}
    before: dict[str, str] = {}
    reached = [start]
    while len(reached) < len(switches):
        here = chance.choice(reached)
        for end in of_name[here]["neighbour"]:
            if end["name"] not in reached:
                before[end["name"]] = here
                reached.append(end["name"])
    return before


def add_link(chance: random.Random, switches: list[dict], vl: int, is_light: bool) -> None:
    """A link from a system to one to four others, in the tables of each switch on its ways."""
    homes = [(sw["name"], system["name"]) for sw in switches for system in sw["system"]]
    start, sender = chance.choice(homes)
    others = [home for home in homes if home[1] != sender]
    before = ways_from(chance, switches, start)
    to: dict[str, list[str]] = {start: []}
    for home, receiver in chance.sample(others, chance.randint(1, min(4, len(others)))):
        to.setdefault(home, []).append(receiver)
        while home != start:
            behind, home = home, before[home]
            if behind not in to.setdefault(home, []):
                to[home].append(behind)
    bag = chance.choice(BAGS[4:] if is_light else BAGS)
    lmin = chance.choice([64, 64, 70, 100])
    contract = {"bag": bag, "lmin": lmin, "policing": chance.choice(["byte", "frame"])}
    contract["lmax"] = chance.randint(lmin, 200 if is_light else 1518)
    for switch in switches:
        name = switch["name"]
        if name in to:
            chance.shuffle(to[name])
            late = 0 if name == start else 100_000
            row: dict = {"vl": vl, "sender": before.get(name, sender), "to": to[name], **contract}
            link = made.link_of(
                **row,
                jitter=chance.choice([0, 500, 1000 * bag, 1000 * bag + late]),
                priority=chance.choice(["high", "low"]),
                latency=chance.choice([1, 20, 200, 2000, 100_000]),
                skew=chance.choice([1, 200, 2000, 100_000]),
                subs=chance.randint(1, 4),
            )
            switch["link"].append(made.row_of(**row) | link)  # so are keys numbered, to be changed


def add_ports(chance: random.Random, switch: dict) -> None:
    """Communication ports of most receivers."""
    for link in switch["link"]:
        for name in own_names(switch).intersection(link["to"]):
            if chance.random() < 0.8:
                kind = chance.choice(["sampling", "queuing"])
                depth = 1 if kind == "sampling" else chance.randint(1, 64)
                switch["port"].append(made.port_of(name, link["vl"], kind=kind, depth=depth))


def made_cascade(chance: random.Random, count: int, links: int, is_light: bool) -> dict:
    """So many switches with so many links, whose four keys have any value in range."""
    switches = switches_of(chance, count)
    for vl in chance.sample(range(65_536), links):
        add_link(chance, switches, vl, is_light)
    for switch in switches:
        chance.shuffle(switch["link"])
        add_ports(chance, switch)
    return {"switch": switches}


# ---- not quite admitted --------------------------------------------------------------------------


def solved(cascade: dict) -> dict:
    """The cascade with its least values, with which it is admitted, if it can be."""
    return {"switch": solved_cascade(cascade).switches}


def row_picked(chance: random.Random, cascade: dict) -> tuple[dict, int]:
    """A link's row: its switch and place."""
    rows = [(sw, place) for sw in cascade["switch"] for place in range(len(sw["link"]))]
    return chance.choice(rows)


def without_link(switch: dict, place: int) -> None:
    """The switch forgets a link, with its communication ports."""
    vl = switch["link"].pop(place)["vl"]
    switch["port"] = [row for row in switch["port"] if row["link"] != vl]


def spoil(chance: random.Random, cascade: dict) -> None:
    """One change, most of which make a line of admission false."""
    switch, place = row_picked(chance, cascade)
    link = switch["link"][place]
    way = chance.randrange(6)
    if way == 0:
        without_link(switch, place)
    elif way == 1:
        neighbours = [end["name"] for end in switch["neighbour"] if end["name"] not in link["to"]]
        if neighbours:
            others = [name for name in neighbours if name != link["from"]]
            link["to"] += others[:1]
            if link["from"] in neighbours and others[1:]:
                link["from"] = others[1]
    elif way == 2:
        link["policing"] = "byte" if link["policing"] == "frame" else "frame"
    elif way == 3:
        link["lmax"] = max(link["lmin"], link["lmax"] - 1)
    else:
        key = chance.choice(KEYS_OF_LINK)
        link[key] = max(0 if key == "jitter_us" else 1, link[key] - 1)


def spoiled(chance: random.Random, cascade: dict) -> dict:
    """The cascade with a change or a few."""
    cascade = copy.deepcopy(cascade)
    for _ in range(chance.choice([1, 1, 2, 4])):
        if any(switch["link"] for switch in cascade["switch"]):
            spoil(chance, cascade)
    return cascade


def flooded(chance: random.Random, cascade: dict) -> dict:
    """The cascade, in which most rows go to all neighbours but the one from which they come: over a
    ring of cables frames come again."""
    cascade = copy.deepcopy(cascade)
    for switch in cascade["switch"]:
        for link in switch["link"]:
            if chance.random() < 0.7:
                own = own_names(switch).intersection(link["to"])
                cables = [end["name"] for end in switch["neighbour"] if end["name"] != link["from"]]
                link["to"] = [*sorted(own), *cables] or link["to"]
    return cascade


def three_of(chance: random.Random, is_light: bool) -> list[dict]:
    """A cascade with any values, with the least ones, and with these spoiled or flooded."""
    cascade = made_cascade(chance, chance.randint(1, 5), chance.randint(1, 25), is_light)
    least = solved(cascade)
    return [cascade, least, chance.choice([spoiled, flooded])(chance, least)]


# ---- files with faults ---------------------------------------------------------------------------

VALUES = [
    -1, 0, 1, 2, 3, 10, 24, 25, 63, 64, 100, 1000, 1518, 1519, 65_535, 65_536, 100_000, 101_000,
    128_000, 228_000, 4_194_304, 4_194_305, 2**63 - 1, "", "w0", "w1", "s0", "s1", "a b", "x" * 16,
    "x" * 17, "high", "byte", "queuing", True, 1.5, [], ["s1"], ["w1", "s1"], [1], ["s1", "s1"],
]
ODD_KEYS = ["x", "id", "switch", "profile", "buffer", "name", "neighbour", "udp"]


def tables_in(cascade: dict) -> list[dict]:
    """All tables of the file: its top, the switches, their rows."""
    found = [cascade]
    for switch in cascade["switch"] if is_tables(cascade.get("switch")) else ():
        found.append(switch)
        for part in ROWS:
            found += switch[part] if is_tables(switch.get(part)) else []
    return found


def change_table(chance: random.Random, cascade: dict) -> None:
    """A key that is absent, unknown, or has another value, mostly one of another row."""
    every = tables_in(cascade)
    table = chance.choice(every)
    keys = [key for key in table if not is_tables(table[key])]
    alike = [row for row in every if row.keys() == table.keys()]
    way = chance.randrange(8)
    if way == 0 or not keys:
        table[chance.choice(ODD_KEYS)] = chance.choice(VALUES)
    elif way == 1:
        del table[chance.choice(keys)]
    elif way < 5:
        key = chance.choice(keys)
        table[key] = copy.deepcopy(chance.choice(alike)[key])
    else:
        table[chance.choice(keys)] = chance.choice(VALUES)


def change_rows(chance: random.Random, cascade: dict) -> None:
    """A table that is gone, stands twice, or stands at another switch or place."""
    switches = cascade.get("switch", [])
    if not is_tables(switches):
        return
    arrays = [switches]
    arrays += [sw[part] for sw in switches for part in ROWS if is_tables(sw.get(part))]
    rows = chance.choice(arrays)
    place = chance.randrange(len(rows))
    way = chance.randrange(4)
    if way == 0:
        chance.shuffle(rows)
    elif way == 1:
        del rows[place]
    elif way == 2:
        rows.insert(chance.randrange(len(rows) + 1), copy.deepcopy(rows[place]))
    else:
        part = next((part for part in ROWS for sw in switches if sw.get(part) is rows), None)
        other = chance.choice(switches)
        if part is not None and isinstance(other.get(part, []), list):
            other.setdefault(part, []).append(rows.pop(place))


def change_names(chance: random.Random, cascade: dict) -> None:
    """A link that comes from another system or neighbour of its switch, or an end or a switch that
    has the name of another."""
    switches = cascade.get("switch", [])
    named = [row for row in switches if "name" in row] if is_tables(switches) else []
    if not named:
        return
    switch = chance.choice(named)
    ends = [row for part in ROWS[:2] if is_tables(switch.get(part)) for row in switch[part]]
    ends = [row for row in ends if "name" in row]
    if ends and is_tables(switch.get("link")) and chance.random() < 0.6:
        chance.choice(switch["link"])["from"] = chance.choice(ends)["name"]
    else:
        chance.choice([*named, *ends])["name"] = chance.choice([*named, *ends])["name"]


def change_text(chance: random.Random, text: bytes) -> bytes:
    """A line that is gone, stands twice or at another place, or another character."""
    lines = text.split(b"\n")
    one, other = chance.randrange(len(lines)), chance.randrange(len(lines))
    way = chance.randrange(4)
    if way == 0:
        del lines[one]
    elif way == 1:
        lines.insert(other, lines[one])
    elif way == 2:
        lines[one], lines[other] = lines[other], lines[one]
    elif lines[one]:
        place = chance.randrange(len(lines[one]))
        line = bytearray(lines[one])
        line[place] = chance.choice(b'ax09_-." =[]#')
        lines[one] = bytes(line)
    return b"\n".join(lines)


def mutated(chance: random.Random, cascade: dict) -> bytes:
    """A file of the cascade with a change or a few, which mostly is a fault."""
    cascade = copy.deepcopy(cascade)
    for _ in range(chance.choice([0, 1, 1, 1, 2, 3])):
        chance.choice([change_table, change_rows, change_names])(chance, cascade)
    text = cascade_text(cascade)
    return change_text(chance, text) if chance.random() < 0.3 else text
