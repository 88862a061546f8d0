"""Counts what a report says of the traffic in a slower way, and compares.

    tests/tools/recount_traffic.py CONFIG LIST LINES REPORT.JSON

Prints what differs: gaps, jitter, missing numbers, skews, late copies, loads, worst frames. All
lines are held, the account of a link is stepped as a fraction, and pairs of copies are looked for
one by one. Nothing of tools/ is used.
"""
import json
import sys
import tomllib
from collections import defaultdict
from fractions import Fraction

CHARGED = ("accept", "over-rate")
NUMBERED = (*CHARGED, "over-lmax", "under-lmin")


def frames_of(path: str) -> dict[int, dict]:
    """Each line's frame."""
    frames = {}
    with open(path, encoding="ascii") as file:
        for line, text in enumerate(file, 1):
            kind, time, side, _, digits = text.split()
            if len(digits) >= 80:
                frames[line] = {
                    "line": line,
                    "time": int(time),
                    "side": side,
                    "link": int(digits[8:12], 16),
                    "length": len(digits) // 2 + (4 if kind != "R" else 0),
                    "number": int(digits[-2:] if kind != "R" else digits[-10:-8], 16),
                }
    return frames


def judge(path: str, frames: dict[int, dict]) -> list[tuple[dict, int, int]]:
    """Notes the verdicts; the departures: frame, port, time."""
    left = []
    with open(path, encoding="ascii") as file:
        for words in map(str.split, file):
            if words[0] == "V" and int(words[1]) in frames:
                frames[int(words[1])]["verdict"] = words[-1]
            elif words[0] == "D":
                left.append((frames[int(words[1])], int(words[4]), int(words[2])))
    return left


def jitter_of(link: dict, frames: list[dict]) -> int | None:
    """The least jitter with which the account would cover them all, in ns, rounded up."""
    bag, smax = link["bag_ms"] * 1_000_000, link["lmax"] + 20
    free: Fraction | None = None
    needed: Fraction | None = None
    for frame in frames:
        begin = Fraction(frame["time"]) if free is None else max(free, frame["time"])
        charge = frame["length"] + 20 if link["policing"] == "byte" else smax
        free = begin + Fraction(charge * bag, smax)
        needed = max(needed or Fraction(0), free - frame["time"] - bag)
    return None if needed is None else -(-needed.numerator // needed.denominator)


def numbers_of(link: dict, frames: list[dict]) -> tuple[int, int] | tuple[None, None]:
    """The numbers that were skipped while there was time for them, counted up one by one; how many
    other steps are none to the next number."""
    missing, jumps = 0, 0
    for before, frame in zip(frames, frames[1:]):
        number, steps = before["number"], 0
        while number != frame["number"] and steps < 300:
            number, steps = number % 255 + 1, steps + 1
        room = frame["time"] - before["time"] + 1000 * link["jitter_us"]
        in_time = 1 < steps <= 127 and steps * link["bag_ms"] * 1_000_000 <= room
        missing += steps - 1 if in_time and frame["number"] else 0
        jumps += frame["number"] != 0 and steps != 1 and not in_time
    return (missing, jumps) if frames else (None, None)


def compare_sides(config: dict, frames: dict, rows: list[dict]) -> None:
    """Prints what differs of gaps, jitter and missing numbers."""
    links = {row["vl"]: row for row in config["link"]}
    for row in rows:
        mine = [f for f in frames.values() if (f["link"], f["side"]) == (row["link"], row["side"])]
        charged = [f for f in mine if f["verdict"] in CHARGED]
        gaps = [b["time"] - a["time"] for a, b in zip(charged, charged[1:])]
        wanted = (
            min(gaps, default=None),
            jitter_of(links[row["link"]], charged),
            *numbers_of(links[row["link"]], [f for f in mine if f["verdict"] in NUMBERED]),
        )
        told = row["least_gap_ns"], row["jitter_ns"], row["missing"], row["jumps"]
        if wanted != told:
            print(f"link {row['link']} side {row['side']}: {wanted} and {row}")


def skews_of(config: dict, frames: dict, left: list) -> dict[int, list]:
    """Of each link the pairs, the greatest skew at the inputs and at the receivers."""
    bags = {row["vl"]: row["bag_ms"] * 1_000_000 for row in config["link"]}
    same: dict[tuple, list] = defaultdict(list)
    ends: dict[int, dict] = defaultdict(dict)
    for frame in frames.values():
        if frame["verdict"] == "accept":
            same[frame["link"], frame["number"]].append(frame)
    for frame, port, time in left:
        ends[frame["line"]][port] = time
    skews: dict[int, list] = defaultdict(lambda: [0, 0, None])
    for (link, _), group in same.items():
        sides = [[f for f in group if f["side"] == side] for side in "AB"]
        for one in sides[0]:

            def apart(other: dict, one: dict = one) -> int:
                return abs(other["time"] - one["time"])

            two = min(sides[1], key=apart, default=None)
            if two is None or apart(two) > 127 * bags[link]:
                continue
            if any(abs(f["time"] - two["time"]) < apart(two) for f in sides[0]):
                continue
            row = skews[link]
            row[0] += 1
            row[1] = max(row[1], apart(two))
            for port in ends[one["line"]].keys() & ends[two["line"]].keys():
                gone = abs(ends[one["line"]][port] - ends[two["line"]][port])
                row[2] = max(row[2] or 0, gone)
    return skews


def compare_loads(config: dict, left: list, report: dict) -> None:
    """Prints what differs of the loads, and of the late copies."""
    systems = {row["port"]: row for row in config["system"]}
    latency = {row["vl"]: 1000 * row["latency_us"] for row in config["link"]}
    used: dict[tuple, int] = defaultdict(int)
    for frame, port, _ in left:
        used[port, frame["side"]] += (frame["length"] + 20) * 8000 // systems[port]["rate"]
    for row in report["ports"]:
        wanted = used[row["port"], row["side"]] / report["run"]["span_ns"]
        if abs(wanted - row["load"]) > 1e-9:
            print(f"port {row['port']} {row['side']}: load {wanted} and {row['load']}")
    late = sum(time - frame["time"] > latency[frame["link"]] for frame, _, time in left)
    if late != report["totals"]["late"]:
        print(f"{late} late, in the report {report['totals']['late']}")
    shares = sorted(((t - f["time"]) / latency[f["link"]] for f, _, t in left), reverse=True)
    if shares[: len(report["frames"])] != [row["share"] for row in report["frames"]]:
        print("the worst frames are others")


def main() -> None:
    """Compares."""
    config_path, list_path, lines_path, report_path = sys.argv[1:]
    with open(config_path, "rb") as file:
        config = tomllib.load(file)
    with open(report_path, encoding="utf-8") as file:
        report = json.load(file)
    frames = frames_of(list_path)
    left = judge(lines_path, frames)
    frames = {line: frame for line, frame in frames.items() if "verdict" in frame}
    compare_sides(config, frames, report["sides"])
    compare_loads(config, left, report)
    skews = skews_of(config, frames, left)
    told = {
        row["link"]: [row["pairs"], row["at_inputs_ns"], row["at_receivers_ns"]]
        for row in report["skews"]
    }
    for link in skews.keys() | told.keys():
        if skews.get(link) != told.get(link):
            print(f"skew of link {link}: {skews.get(link)} and {told.get(link)}")


main()
