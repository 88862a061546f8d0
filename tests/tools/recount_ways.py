"""Counts what a report says of several switches a side in a slower way, and compares.

    tests/tools/recount_ways.py CONFIG LIST LINES REPORT.JSON

Prints what differs: the ways from end to end with what each switch took, what receivers read, what
each switch took in and let out, latencies at each port, the load of each line. LINES are those of
`afdx replay`. Lines are followed one by one, copies of a frame found by link, number and message.
Nothing of tools/ is used.
"""
from __future__ import annotations

import json
import statistics
import sys
import tomllib
from collections import Counter, defaultdict
from fractions import Fraction
from typing import Any, NamedTuple

Key = tuple[str, str, int]  # a side, a switch and a port


class Frame(NamedTuple):
    """A frame of the list: when and where it came in, its link, its bytes and digits."""

    time: int
    side: str
    switch: str
    port: int
    link: int
    length: int
    digits: str


class Tables:
    """The configuration."""

    def __init__(self, path: str) -> None:
        with open(path, "rb") as file:
            self.switches = {switch["name"]: switch for switch in tomllib.load(file)["switch"]}
        self.rows = {
            (name, row["vl"]): row for name, sw in self.switches.items() for row in sw["link"]
        }
        self.ends = {
            (name, end["port"]): end
            for name, switch in self.switches.items()
            for end in [*switch.get("system", []), *switch.get("neighbour", [])]
        }
        self.port = {(name, end["name"]): port for (name, port), end in self.ends.items()}

    def is_cable(self, switch: str, port: int) -> bool:
        """Is another switch there?"""
        return self.ends[switch, port]["name"] in self.switches

    def far(self, switch: str, port: int) -> tuple[str, int]:
        """The other end of a cable."""
        other = self.ends[switch, port]["name"]
        return other, self.port[other, switch]

    def latency(self, switch: str, vl: int) -> int:
        """The configured latency of a link at a switch, in ns."""
        return 1000 * self.rows[switch, vl]["latency_us"]


class Run:
    """What the lines say, one by one."""

    def __init__(self, tables: Tables, list_path: str, lines_path: str) -> None:
        self.tables, self.frames = tables, frames_of(list_path)
        self.here: dict[tuple[int, str], int] = {}  # when a line's frame was accepted at a switch
        self.hops: dict[int, dict[tuple[str, int], int]] = defaultdict(dict)
        self.left: dict[tuple[int, Key], list[tuple[int, int]]] = defaultdict(list)
        self.ends: dict[tuple[int, str], list[tuple[int, str]]] = defaultdict(list)
        self.sums: dict[tuple[str, str], Counter[str]] = defaultdict(Counter)
        self.slots: dict[Key, int] = defaultdict(int)
        self.brought: list[tuple[int, int, tuple[str, int]]] = []
        self.last = 0
        self.begun: set[int] = set()
        self.departed: tuple[int, str] = 0, ""
        with open(lines_path, encoding="ascii") as file:
            for words in map(str.split, file):
                getattr(self, f"take_{words[0]}")(*words[1:])

    def take_V(self, number: str, side: str, switch: str, verdict: str, word: str = "") -> None:
        """A verdict, of the list's frame or of one that a cable brought."""
        line, sums = int(number), self.sums[switch, side]
        if line in self.begun:
            which, time, (there, _) = self.brought.pop(0)
            if (which, there) != (line, switch):
                print(f"line {line} comes to {switch}, and {which} left for {there}")
            sums["over_cables"] += 1
        else:
            self.begun.add(line)
            time = self.frames[line].time
            self.last = max(self.last, time)
            sums["from_systems"] += 1
        sums["accepted" if verdict == "accept" else "dropped"] += 1
        if verdict == "accept":
            self.here[line, switch] = time

    def take_D(self, number: str, at: str, side: str, switch: str, where: str) -> None:
        """A departure."""
        line, time, port = int(number), int(at), int(where)
        frame, sums = self.frames[line], self.sums[switch, side]
        self.last = max(self.last, time)
        took = time - self.here[line, switch]
        self.hops[line][switch, port] = took
        sums["late"] += took > self.tables.latency(switch, frame.link)
        rate = self.tables.ends[switch, port]["rate"]
        self.slots[side, switch, port] += (frame.length + 20) * 8000 // rate
        self.departed = line, self.tables.ends[switch, port]["name"]
        if self.tables.is_cable(switch, port):
            sums["to_cables"] += 1
            self.brought.append((line, time, self.tables.far(switch, port)))
        else:
            sums["to_systems"] += 1
            self.left[frame.link, (side, switch, port)].append((time - frame.time, line))

    def take_L(self, number: str, side: str, switch: str, port: str) -> None:
        """A copy that met a full buffer."""
        self.sums[switch, side]["full_buffer"] += 1

    def take_T(self, number: str, at: str, side: str, switch: str, port: str) -> None:
        """A copy that was too old."""
        self.last = max(self.last, int(at))
        self.sums[switch, side]["too_old"] += 1

    def take_M(self, at: str, system: str, link: str, message: str) -> None:
        """A message."""
        line, name = self.departed
        self.ends[int(link), name].append((line, "delivered"))

    def take_X(self, at: str, system: str, number: str, word: str) -> None:
        """A copy that a receiver dropped."""
        line, name = self.departed
        self.ends[self.frames[line].link, name].append((line, word))


def frames_of(path: str) -> dict[int, Frame]:
    """The frames of a list by their lines."""
    frames = {}
    with open(path, encoding="ascii") as file:
        for number, text in enumerate(file, 1):
            if text[0] in "FBR":
                kind, time, side, switch, port, digits = text.split()
                link = int(digits[8:12], 16) if digits[:8] == "03000000" else -1
                length = len(digits) // 2 + (4 if kind != "R" else 0)
                frames[number] = Frame(int(time), side, switch, int(port), link, length, digits)
    return frames


def differ(what: str, wanted: Any, found: Any) -> None:
    """Prints what differs."""
    if wanted != found:
        print(f"{what}: {wanted}, in the report {found}")


def compare_ways(run: Run, report: dict) -> None:
    """Latencies from end to end, and what each switch took of the longest."""
    rows = {(r["link"], (r["side"], r["switch"], r["port"])): r for r in report["ways"]}
    differ("ways", sorted(run.left), sorted(rows))
    for key, seen in run.left.items():
        row, times = rows[key], [time for time, _ in seen]
        found = row["least_ns"], row["median_ns"], row["greatest_ns"], row["frames"]
        wanted = min(times), statistics.median_low(times), max(times), len(times)
        differ(f"way {key}", wanted, found)
        # the ports of the way, from the receiver back to the sender
        vl, (_, switch, port) = key
        way = [(switch, port)]
        while (source := run.tables.rows[switch, vl]["from"]) in run.tables.switches:
            switch, port = source, run.tables.port[source, switch]
            way.insert(0, (switch, port))
        first = next(line for time, line in seen if time == max(times))
        differ(f"hops {key}", {sw: run.hops[first][sw, p] for sw, p in way}, row["hops_ns"])
        asked = sum(run.tables.latency(switch, vl) for switch, _ in way)
        differ(f"configured {key}", asked, row["configured_ns"])
        differ(f"late {key}", sum(time > asked for time in times), row["late"])
        differ(f"promised {key}", asked, row["promised_ns"])


def compare_ports(run: Run, report: dict) -> None:
    """The latencies at each port."""
    wanted = defaultdict(list)
    for line, hops in run.hops.items():
        for (switch, port), took in hops.items():
            wanted[run.frames[line].link, run.frames[line].side, switch, port].append(took)
    place, numbers = ("link", "side", "switch", "port"), ("least_ns", "greatest_ns", "frames")
    found = {tuple(r[k] for k in place): tuple(r[k] for k in numbers) for r in report["latency"]}
    differ("ports", {k: (min(v), max(v), len(v)) for k, v in wanted.items()}, found)


def compare_receivers(run: Run, report: dict) -> None:
    """What receivers read: frames are told apart by link, number and message."""

    def name(line: int) -> str:
        digits = run.frames[line].digits
        return digits[:22] + digits[24:]  # all but the side

    sent: dict[int, set[str]] = defaultdict(set)
    for line, switch in run.here:
        if switch == run.frames[line].switch:
            sent[run.frames[line].link].add(name(line))
    for row in report["receivers"]:
        mine = run.ends[row["link"], row["system"]]
        counts = Counter(name(line) for line, word in mine if word == "delivered")
        wanted = {
            "frames": len(sent[row["link"]]),
            "once": sum(n == 1 for n in counts.values()),
            "twice": sum(n > 1 for n in counts.values()),
            "never": len(sent[row["link"]] - counts.keys()),
            "redundant": sum(word == "redundant" for _, word in mine),
        }
        differ(f"receiver {row['system']} of {row['link']}", wanted, {k: row[k] for k in wanted})


def compare_switches(run: Run, report: dict) -> None:
    """The sums of each switch and side."""
    names = ("from_systems", "over_cables", "accepted", "dropped", "full_buffer", "late",
             "too_old", "to_systems", "to_cables")  # fmt: skip
    for row in report["switches"]:
        mine = run.sums[row["switch"], row["side"]]
        wanted, found = {k: mine[k] for k in names}, {k: row[k] for k in names}
        differ(f"switch {row['switch']} {row['side']}", wanted, found)


def compare_lines(run: Run, report: dict) -> None:
    """The loads of the lines, by contract and in the replay."""
    tables = run.tables
    span = max(run.last - min(frame.time for frame in run.frames.values()), 1)
    for row in report["lines"]:
        switch, port, byte_ns = row["switch"], row["port"], 8000 // row["rate"]
        is_in = row["to"] == switch
        wanted = Fraction(0)
        for (name, _), link in tables.rows.items():
            to = [tables.port[name, end] for end in link["to"]]
            is_mine = tables.port[name, link["from"]] == port if is_in else port in to
            if name == switch and is_mine:
                wanted += Fraction((link["lmax"] + 20) * byte_ns, link["bag_ms"] * 1_000_000)
        used = {side: run.slots[side, switch, port] for side in "AB"}
        if is_in:
            mine = [f for f in run.frames.values() if (f.switch, f.port) == (switch, port)]
            used = {s: sum((f.length + 20) * byte_ns for f in mine if f.side == s) for s in "AB"}
        loads = [float(wanted), *(used[side] / span for side in "AB")]
        found = [row["contract"], row["load_A"], row["load_B"]]
        if any(abs(one - other) > 1e-9 for one, other in zip(loads, found)):
            differ(f"line {row['from']} {row['to']}", loads, found)


def main() -> None:
    """Compares."""
    config, list_path, lines_path, report_path = sys.argv[1:]
    with open(report_path, encoding="utf-8") as file:
        report = json.load(file)
    run = Run(Tables(config), list_path, lines_path)
    compare_ways(run, report)
    compare_ports(run, report)
    compare_receivers(run, report)
    compare_switches(run, report)
    compare_lines(run, report)


main()
