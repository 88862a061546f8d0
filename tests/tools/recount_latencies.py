"""Counts latencies and backlogs from the lines of a replay in a slower way, and compares a report.

    tests/tools/recount_latencies.py CONFIG LIST LINES REPORT.JSON

Prints what differs. All lines are held; a port's backlog is taken anew at each arrival, as the
bytes of the frames that have come to it and whose slots have not begun before. Nothing of tools/ is
used.
"""
import json
import statistics
import sys
import tomllib
from collections import defaultdict


def frames_of(path: str) -> dict[int, tuple[int, str, int, int]]:
    """The time, side, link and bytes of each line's frame."""
    frames = {}
    with open(path, encoding="ascii") as file:
        for number, line in enumerate(file, 1):
            kind, time, side, _, digits = line.split()
            length = len(digits) // 2 + (4 if kind != "R" else 0)
            frames[number] = int(time), side, int(digits[8:12], 16), length
    return frames


def departures(config: dict, frames: dict, path: str) -> tuple[dict, dict]:
    """The latencies of each link, port and side; of each port when its frames came and began."""
    systems = {row["name"]: row for row in config["system"]}
    byte_ns = {row["port"]: 8000 // row["rate"] for row in config["system"]}
    links = {row["vl"]: row for row in config["link"]}
    seen: dict[tuple, list] = defaultdict(list)
    stays: dict[tuple, dict] = defaultdict(dict)
    with open(path, encoding="ascii") as file:
        for words in map(str.split, file):
            if words[0] == "V" and words[-1] == "accept":
                time, side, vl, length = frames[int(words[1])]
                for name in links[vl]["to"]:
                    stays[side, systems[name]["port"]][int(words[1])] = [time, None, length]
            elif words[0] == "D":
                line, end, side, port = int(words[1]), int(words[2]), words[3], int(words[4])
                time, _, vl, length = frames[line]
                seen[vl, port, side].append(end - time)
                stays[side, port][line][1] = end - (length + 20) * byte_ns[port]
    return seen, stays


def compare_latencies(rows: list[dict], seen: dict) -> None:
    """Prints what differs in the report's latencies."""
    for row in rows:
        mine = seen.pop((row["link"], row["port"], row["side"]))
        wanted = min(mine), statistics.median_low(mine), max(mine)
        if wanted != (row["least_ns"], row["median_ns"], row["greatest_ns"]):
            print(f"link {row['link']} at port {row['port']}: {wanted} and {row}")
    if seen:
        print(f"not in the report: {sorted(seen)}")


def compare_backlogs(rows: list[dict], stays: dict) -> None:
    """Prints what differs in the report's backlogs."""
    for row in rows:
        mine = stays[row["side"], row["port"]].values()
        most = max(
            sum(size for put, start, size in mine if put <= now and start >= now)
            for now, _, _ in mine
        )
        if most != row["backlog"]:
            port = f"port {row['port']} {row['side']}"
            print(f"{port}: backlog {most}, in the report {row['backlog']}")


def main() -> None:
    """Compares."""
    config_path, list_path, lines_path, report_path = sys.argv[1:]
    with open(config_path, "rb") as file:
        config = tomllib.load(file)
    with open(report_path, encoding="utf-8") as file:
        report = json.load(file)
    seen, stays = departures(config, frames_of(list_path), lines_path)
    compare_latencies(report["latency"], seen)
    compare_backlogs(report["ports"], stays)


main()
