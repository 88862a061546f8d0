#!/usr/bin/python3
"""Makes interface documents of several switches a side at random: trees, rings and meshes.

    tests/tools/random_cables.py COUNT PROGRAM [PREFIX..]

The tables that begin with each PREFIX are looked at, too: with examples/light these are
examples/light_systems.csv and so on. What afdx-icd makes of each must be admitted by formulas that
are computed apart. Each link must go to its receivers, and to no switch for nothing, on ways of the
fewest cables, or on those that the document gives; each message must be in time from end to end,
and what the document allows be given out. Where messages can't be in time just these must be named,
with what is enough for them. What was made stays with --since where the tables stay. Prints what
isn't so, then how many were made; ends with status 1 if something isn't.
"""
from __future__ import annotations

import csv
import os
import random
import re
import subprocess
import sys
import tempfile
from typing import Any, NamedTuple

sys.dont_write_bytecode = True
HERE = os.path.dirname(os.path.abspath(__file__))
sys.path[:0] = [os.path.join(HERE, "..", "lib")]
from cascade import loaded  # noqa: E402
from cascade_check import Ways, cascade_false_lines, latency_sum  # noqa: E402
from cascade_least import solved_cascade  # noqa: E402
from least import SOLVED  # noqa: E402
from program import Wrong, must  # noqa: E402

TOOL = os.path.join(HERE, "..", "..", "tools", "afdx-icd")
LATE = re.compile(r"afdx-icd: messages.csv line (\d+), [^:]+: within_us \d+: to (\w+) it can take "
                  r"(\d+) us \(((?:\w+ \d+(?:, )?)+)\); (\d+) is enough")
LEFT_OUT = "afdx-icd: cables.csv: cables that no message needs are left out: "
RATES = (10, 100, 1000)

Pair = tuple[int, int]


class Tables(NamedTuple):
    """The rows of the three tables."""

    systems: list[dict]
    messages: list[dict]
    cables: list[list]

    @staticmethod
    def read(prefix: str) -> Tables:
        """The tables that begin so."""
        rows: dict[str, list[list]] = {}
        for name in ("systems", "messages", "cables"):
            with open(f"{prefix}_{name}.csv", encoding="utf-8", newline="") as file:
                rows[name] = list(csv.reader(file))
        systems, messages = (
            [dict[str, Any](zip(rows[name][0], cells)) for cells in rows[name][1:]]
            for name in ("systems", "messages")
        )
        for row in messages:
            numbers = ("vl", "port", "within_us", "skew_us")
            row |= {key: int(row[key]) for key in numbers if row.get(key)}
            for key in ("via", "within_us", "skew_us"):
                row.setdefault(key, "")
        return Tables(systems, messages, rows["cables"][1:])

    def switch_of(self, system: str) -> str:
        """The switch of a system."""
        return next(row["switch"] for row in self.systems if row["system"] == system)

    def write(self, folder: str) -> None:
        """Writes the tables."""
        for name, rows in (("systems", self.systems), ("messages", self.messages)):
            with open(os.path.join(folder, f"{name}.csv"), "w", encoding="utf-8") as file:
                writer = csv.DictWriter(file, rows[0].keys())
                writer.writeheader()
                writer.writerows(rows)
        with open(os.path.join(folder, "cables.csv"), "w", encoding="utf-8") as file:
            csv.writer(file).writerows([["switch", "port", "switch", "port", "rate"], *self.cables])


# ---- tables at random ----------------------------------------------------------------------------


def pairs_of(chance: random.Random, count: int) -> list[Pair]:
    """The switches that cables join: a tree, a ring, or a tree with more cables."""
    tree = [(chance.randrange(max(0, place - 3), place), place) for place in range(1, count)]
    kind = chance.choice(["tree", "ring", "mesh", "mesh"])
    if kind == "ring" and count > 2:
        return [(place, (place + 1) % count) for place in range(count)]
    if kind == "mesh":
        pairs = ((one, two) for two in range(count) for one in range(two))
        others = [pair for pair in pairs if pair not in tree]
        tree += chance.sample(others, min(len(others), chance.randint(1, count)))
    chance.shuffle(tree)
    return tree


def tables_of(chance: random.Random) -> Tables:
    """Some switches with systems and messages."""
    count = chance.choice([2, 2, 3, 4, 5, 8, 24])
    ports = [chance.sample(range(1, 25), 24) for _ in range(count)]
    rates = chance.choice([RATES, RATES[1:], RATES[2:]])
    cables: list[list] = []
    for pair in pairs_of(chance, count):
        if min(len(ports[place]) for place in pair) > 2:
            one, two = chance.sample(pair, 2)
            cables.append([f"w{one}", ports[one].pop(), f"w{two}", ports[two].pop(),
                           chance.choice(rates)])
    named = sorted({cable[place] for cable in cables for place in (0, 2)})
    systems: list[dict] = []
    for number in range(chance.randint(2, 12)):
        switch = chance.choice(named)
        if ports[int(switch[1:])]:
            systems.append({"system": f"s{number}", "switch": switch, "id": number, "partition": 1,
                            "port": ports[int(switch[1:])].pop(),
                            "rate": chance.choice(rates)})
    names = [row["system"] for row in systems]
    messages: list[dict] = []
    for vl in range(chance.randint(1, 25)):
        source, *others = chance.sample(names, chance.randint(2, min(5, len(names))))
        messages.append(message_of(chance, vl, source, others))
        if chance.random() < 0.2:  # another one of the link
            messages.append(message_of(chance, vl, source, others[-1:]) | {
                "priority": messages[-1]["priority"], "port": 2})
    tables = Tables(systems, messages, cables)
    for row in messages:
        if chance.random() < 0.4:
            row["via"] = via_of(chance, tables, row)
    return tables


def message_of(chance: random.Random, vl: int, source: str, to: list[str]) -> dict:
    """A message of a link."""
    return {
        "message": f"m{vl}", "vl": vl, "from": source, "to": " ".join(to),
        "every_ms": chance.choice([8, 16, 20, 50, 128, 1000]),
        "bytes": chance.choice([1, 40, 100, 300, chance.randint(1, 1471)]),
        "within_us": chance.choice(["", 500, 2000, 10_000, 50_000, chance.randint(1, 100_000)]),
        "priority": chance.choice(["high", "low"]), "port": 1, "kind": "sampling", "depth": "",
        "skew_us": chance.choice(["", "", 30_000]), "via": "",
    }


def via_of(chance: random.Random, tables: Tables, row: dict) -> str:
    """A way at random from a message's sender to its only receiver; nothing if there are several or
    it leads nowhere."""
    way = [tables.switch_of(row["from"])]
    end = tables.switch_of(row["to"].split()[0])
    while " " not in row["to"] and row["vl"] % 3:  # links with a way of their own alone
        if way[-1] == end:
            return " ".join(way)
        ahead = [switch for switch in joined(tables, way[-1]) if switch not in way]
        if not ahead:
            break
        way.append(chance.choice(ahead))
    return ""


def joined(tables: Tables, switch: str) -> list[str]:
    """The switches to which a cable leads from one."""
    return [
        two
        for cable in tables.cables
        for one, two in ((cable[0], cable[2]), (cable[2], cable[0]))
        if one == switch
    ]


# ---- what must hold ------------------------------------------------------------------------------


def distances(tables: Tables, first: str) -> dict[str, int]:
    """How many cables lead from a switch to each that can be reached."""
    found = {first: 0}
    level = [first]
    for switch in level:
        for other in joined(tables, switch):
            if other not in found:
                found[other] = found[switch] + 1
                level.append(other)
    return found


def receivers_of(tables: Tables, vl: int) -> list[str]:
    """The systems to which a link goes."""
    rows = [row for row in tables.messages if row["vl"] == vl]
    return list(dict.fromkeys(name for row in rows for name in row["to"].split()))


def switches_to(ways: Ways, switch: str, vl: int) -> list[str]:
    """The switches on a link's way to one of them."""
    found: list[str] = []
    while True:
        found.insert(0, switch)
        source = ways.rows[switch, vl]["from"]
        if source in ways.own[switch]:
            return found
        switch = source


def must_go(tables: Tables, made: dict) -> None:
    """Each link goes to its receivers, on lawful ways, and nowhere for nothing."""
    ways = Ways(made["switch"])
    for vl in {row["vl"] for row in tables.messages}:
        rows = [row for row in tables.messages if row["vl"] == vl]
        passed: set[str] = set()
        for system in receivers_of(tables, vl):
            switch = tables.switch_of(system)
            must(system in ways.rows[switch, vl]["to"], f"link {vl} doesn't go to {system}")
            way = switches_to(ways, switch, vl)
            passed.update(way)
            given = [row["via"].split() for row in rows if system in row["to"].split()]
            given = list(filter(None, given))
            must(not given or way in given, f"link {vl} goes to {system} by {way}, not {given}")
            if not any(row["via"] for row in rows):
                least = distances(tables, way[0])[switch]
                must(len(way) == least + 1, f"link {vl} goes to {system} by {way}")
        must({name for name, other in ways.rows if other == vl} == passed, f"rows of link {vl}")
        for switch in passed:
            others = set(ways.rows[switch, vl]["to"]) - ways.own[switch]
            must(others <= passed, f"link {vl} goes from {switch} to {others}")
    for tables_here in made["switch"]:
        rows = tables_here["link"]
        named = {end for row in rows for end in [row["from"], *row["to"]]}
        for end in tables_here["neighbour"]:
            must(end["name"] in named, f"{tables_here['name']} names {end['name']}")


def sums_of(tables: Tables, switches: list[dict]) -> dict[tuple[int, str], int]:
    """The latencies on the way of each link to each of its receivers."""
    ways = Ways(switches)
    return {
        (vl, system): latency_sum(ways.way_to(tables.switch_of(system), vl) or [])
        for vl in {row["vl"] for row in tables.messages}
        for system in receivers_of(tables, vl)
    }


def limits_of(tables: Tables, least: dict[tuple[int, str], int]) -> dict[tuple[int, str], int]:
    """What may be taken to each receiver for which the document says something, and no less than is
    needed."""
    limits: dict[tuple[int, str], int] = {}
    for row in tables.messages:
        for system in row["to"].split() if row["within_us"] != "" else ():
            end = row["vl"], system
            limits[end] = max(least[end], min(row["within_us"], limits.get(end, 10**6)))
    return limits


def must_be_in_time(tables: Tables, made: dict, limits: dict[tuple[int, str], int]) -> None:
    """No way takes longer than it may, and at the end of each all of its time is given out."""
    ways = Ways(made["switch"])
    sums = sums_of(tables, made["switch"])
    for (vl, system), limit in limits.items():
        must(sums[vl, system] <= limit, f"link {vl} may take {sums[vl, system]} us to {system}")
        switch = tables.switch_of(system)
        to = ways.rows[switch, vl]["to"]
        if ways.own[switch].issuperset(to):
            least = min(limits.get((vl, name), 10**6) for name in to)
            must(sums[vl, system] == least, f"link {vl} has {sums[vl, system]} us to {system}")


def must_name(tables: Tables, said: list[str], least: dict[tuple[int, str], int]) -> None:
    """Just the messages that can't be in time are named, with what is enough."""
    told = {}
    for found in map(LATE.fullmatch, said):
        must(found is not None, f"it says {said}")
        assert found is not None
        line, to, total, hops, enough = found.groups()
        row = tables.messages[int(line) - 2]
        us = [int(hop.split()[1]) for hop in hops.split(", ")]
        must(sum(us) == int(total) == int(enough) == least[row["vl"], to], found[0])
        must(hops.split()[0] == tables.switch_of(row["from"]), found[0])
        told[int(line) - 2] = int(enough)
    late = {}
    for place, row in enumerate(tables.messages):
        enough = max(least[row["vl"], name] for name in row["to"].split())
        if row["within_us"] != "" and row["within_us"] < enough:
            late[place] = enough
    must(told == late, f"named {told}, late {late}")


# ---- runs ----------------------------------------------------------------------------------------


def icd(folder: str, *options: str) -> tuple[int, list[str]]:
    """Makes a configuration: the status, and the lines on either stream."""
    words = [TOOL, "--profile", "2", "--cables", "cables.csv", *options, "systems.csv",
             "messages.csv", "made.toml"]
    done = subprocess.run(words, cwd=folder, text=True, check=False, stdout=subprocess.PIPE,
                          stderr=subprocess.STDOUT)
    lines = [line for line in done.stdout.splitlines() if not line.startswith(LEFT_OUT)]
    return done.returncode, lines


def read(folder: str) -> dict:
    """The configuration that was made."""
    with open(os.path.join(folder, "made.toml"), "rb") as file:
        return loaded(file.read())


def tried(folder: str, tables: Tables) -> bool:
    """Makes a network, if there can be one, and looks at it."""
    tables.write(folder)
    status, said = icd(folder, "--raise")
    if status == 2:
        must(all("no cables lead to" in line or ": via " in line for line in said), f"{said}")
        return False
    if status == 1 and said and all("(no " in line for line in said):
        return False
    must(status == 0 and said[-1:] == ["ok"], f"{status} {said}")
    made = read(folder)
    bare = {"switch": [switch | {"link": [
        {key: row[key] for key in row if key not in SOLVED.values()}
        for row in switch["link"]]} for switch in made["switch"]]}
    found = solved_cascade(bare)
    must(not found.fault and not cascade_false_lines(made["switch"]), "it isn't admitted")
    least = sums_of(tables, found.switches)
    must_go(tables, made)
    must_name(tables, said[:-1], least)
    must_be_in_time(tables, made, limits_of(tables, least))
    for row in tables.messages:
        for system in row["to"].split() if row["skew_us"] != "" else ():
            switch = next(sw for sw in made["switch"] if sw["name"] == tables.switch_of(system))
            link = next(link for link in switch["link"] if link["vl"] == row["vl"])
            must(link["skew_us"] >= row["skew_us"], f"the skew of link {row['vl']}")
    status, again = icd(folder, "--raise", "--since", "made.toml")
    must(status == 0 and again == [*said[:-1], "nothing changed", "ok"], f"since {again}")
    must(read(folder) == made, "what was kept is another")
    must_be_exact(folder, tables, least)
    return True


def must_be_exact(folder: str, tables: Tables, least: dict[tuple[int, str], int]) -> None:
    """A message that asks just what is needed is in time; one that asks for a us less is late."""
    for row in tables.messages:
        enough = max(least[row["vl"], name] for name in row["to"].split())
        row["within_us"] = max(1, enough - (row["vl"] + row["port"]) % 2)
    tables.write(folder)
    status, said = icd(folder)
    must_name(tables, said if status else [], least)


def main() -> None:
    """Tries as many networks as are asked for, and those of tables."""
    count, program, *prefixes = sys.argv[1:]
    os.environ["AFDX"] = os.path.abspath(program)
    cases = {prefix: Tables.read(prefix) for prefix in prefixes}
    cases |= {str(seed): tables_of(random.Random(f"cables {seed}")) for seed in range(int(count))}
    made = wrong = 0
    for name, tables in cases.items():
        with tempfile.TemporaryDirectory() as folder:
            try:
                made += tried(folder, tables)
            except Wrong as fault:
                wrong += 1
                print(f"{name}: {fault}")
    print(f"{made} of {len(cases)} were made")
    sys.exit(1 if wrong or not made else 0)


main()
