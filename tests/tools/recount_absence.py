"""Finds in a slower way what a report says is absent, and compares.

    tests/tools/recount_absence.py CONFIG LIST LINES REPORT.JSON

Prints what differs: silences, dropped frames by input port, frames that came on one side alone,
first numbers, messages delivered twice, medians of the copies' distance. Each frame is looked for
by itself, gap by gap and copy by copy. Nothing of tools/ is used.
"""
import json
import statistics
import sys
import tomllib
from collections import Counter, defaultdict
from itertools import pairwise

NUMBERED = ("accept", "over-rate", "over-lmax", "under-lmin")
MS = 1_000_000


class Run:
    """A replay: its configuration, its frames with their verdicts, which copies were delivered."""

    def __init__(self, config_path: str, list_path: str, lines_path: str) -> None:
        with open(config_path, "rb") as file:
            config = tomllib.load(file)
        self.links = {row["vl"]: row for row in config["link"]}
        self.systems = {row["name"]: row for row in config["system"]}
        self.frames = frames_of(list_path)
        self.read: set[tuple[int, int]] = set()  # line and port of each copy that gave a message
        copy = 0, 0
        with open(lines_path, encoding="ascii") as file:
            for words in map(str.split, file):
                if words[0] == "V":
                    self.frames[int(words[1])]["verdict"] = words[-1]
                elif words[0] == "D":
                    copy = int(words[1]), int(words[4])
                elif words[0] == "M":
                    self.read.add(copy)
        self.all = [frame for frame in self.frames.values() if "verdict" in frame]
        self.numbered = [frame for frame in self.all if frame["verdict"] in NUMBERED]
        self.begin, self.end = self.all[0]["time"], self.all[-1]["time"]

    def of(self, link: int, side: str, frames: list[dict] | None = None) -> list[dict]:
        """The frames of a link on a side."""
        found = self.numbered if frames is None else frames
        return [f for f in found if (f["link"], f["side"]) == (link, side)]


def frames_of(path: str) -> dict[int, dict]:
    """Each line's frame."""
    frames = {}
    with open(path, encoding="ascii") as file:
        for line, text in enumerate(file, 1):
            if text.startswith("#") or not text.strip():
                continue
            kind, time, side, port, digits = text.split()
            digits, cut = digits.strip("-"), 8 if kind == "R" else 0
            is_link = digits.startswith("03000000") and len(digits) >= 12
            frames[line] = {
                "line": line,
                "time": int(time),
                "side": side,
                "port": int(port),
                "link": int(digits[8:12], 16) if is_link else "none",
                "number": int(digits[len(digits) - cut - 2 : len(digits) - cut] or "0", 16),
            }
    return frames


# ---- silences ------------------------------------------------------------------------------------


def usual(times: list[int]) -> int:
    """All gaps but the longest twentieth of them, two at least, are no longer."""
    gaps = sorted(after - before for before, after in pairwise(times))
    return gaps[max(len(gaps) - 1 - max(len(gaps) // 20, 2), 0)] if gaps else 0


def gaps_of(run: Run, frames: dict[str, list[dict]], bag: int, is_network: bool) -> list[tuple]:
    """The silences of some frames by side: side, begin, end, what is too short to be one."""
    times = {side: [f["time"] for f in frames[side]] for side in "AB"}
    rhythm = min((gap for gap in map(usual, times.values()) if gap), default=0)
    least = 4 * max(bag, rhythm)
    found: list[tuple] = []
    for side, other in (("A", "B"), ("B", "A")):
        dead = is_network and not times[side] and times[other]
        for begin, end in pairwise([run.begin, *times[side], run.end]):
            if dead or end - begin > least:
                found.append((side, begin, end, least))
    return found


def explained(one: tuple, parents: list[tuple]) -> bool:
    """Is it a part of one of these?"""
    side, begin, end, least = one
    return any(p[0] == side and p[1] <= begin + least and p[2] >= end - least for p in parents)


def both(found: list[tuple]) -> list[tuple]:
    """Those of both sides at once are one."""
    rows = [one for one in found if one[0] == "A"]
    for one in (one for one in found if one[0] == "B"):
        for at, (side, begin, end, least) in enumerate(rows):
            if side == "A" and max(abs(begin - one[1]), abs(end - one[2])) <= least:
                rows[at] = ("A and B", min(begin, one[1]), max(end, one[2]), least)
                break
        else:
            rows.append(one)
    return [row[:3] for row in rows]


def silences_of(run: Run) -> Counter:
    """All silences: of what, of which name, on which side, from when to when."""
    came = {frame["link"] for frame in run.numbered}
    bags = {vl: row["bag_ms"] * MS for vl, row in run.links.items()}
    sides = {side: [f for f in run.all if f["side"] == side] for side in "AB"}
    bag = min(bags[vl] for vl in came or bags)
    networks = gaps_of(run, sides, bag, True)
    rows = [("network", None, *one) for one in both(networks)]
    of_system = {}
    for name, system in run.systems.items():
        mine = [vl for vl, row in run.links.items() if row["from"] == name]
        if not mine:
            continue
        at = {s: [f for f in sides[s] if f["port"] == system["port"]] for s in "AB"}
        bag = min(bags[vl] for vl in [vl for vl in mine if vl in came] or mine)
        of_system[name] = gaps_of(run, at, bag, False)
        left = [one for one in of_system[name] if not explained(one, networks)]
        rows += [("system", name, *one) for one in both(left)]
    for vl, row in run.links.items():
        found = gaps_of(run, {side: run.of(vl, side) for side in "AB"}, bags[vl], False)
        above = networks + of_system[row["from"]]
        rows += [("link", vl, *one) for one in both([o for o in found if not explained(o, above)])]
    return Counter(rows)


def compare_silences(run: Run, report: dict) -> None:
    """Prints what differs of the silences."""
    told = Counter(
        (
            row["silent"],
            {"network": None, "system": row["system"], "link": row["link"]}[row["silent"]],
            row["side"],
            row["from_ns"],
            row["until_ns"],
        )
        for row in report["silences"]
    )
    wanted = silences_of(run)
    for row in (wanted - told) + (told - wanted):
        print(f"silence {row}: {told[row]} times, wanted {wanted[row]}")


# ---- copies --------------------------------------------------------------------------------------


def pairs_of(run: Run) -> list[tuple[dict, dict]]:
    """The copies of accepted frames, of side A and of side B, each the nearest to the other."""
    pairs = []
    same = defaultdict(list)
    for frame in run.numbered:
        if frame["verdict"] == "accept":
            same[frame["link"], frame["number"]].append(frame)
    for (link, _), group in same.items():
        sides = [[f for f in group if f["side"] == side] for side in "AB"]
        for one in sides[0]:
            two = min(sides[1], key=lambda f: abs(f["time"] - one["time"]), default=None)
            if two is None:
                continue
            apart = abs(two["time"] - one["time"])
            nearer = any(abs(f["time"] - two["time"]) < apart for f in sides[0])
            if apart <= 127 * run.links[link]["bag_ms"] * MS and not nearer:
                pairs.append((one, two))
    return pairs


def compare_copies(run: Run, report: dict, pairs: list[tuple[dict, dict]]) -> None:
    """Prints what differs of messages delivered twice and of the copies' distance."""
    twice: Counter[int] = Counter()
    apart: dict[str, list[int]] = defaultdict(list)
    for one, two in pairs:
        ports = [{port for line, port in run.read if line == f["line"]} for f in (one, two)]
        twice[one["link"]] += len(ports[0] & ports[1])
        apart[run.links[one["link"]]["from"]].append(two["time"] - one["time"])
    for row in report["skews"]:
        if row["twice"] != twice[row["link"]]:
            print(f"link {row['link']}: {row['twice']} twice, wanted {twice[row['link']]}")
    told = {row["system"]: (row["pairs"], row["median_ns"]) for row in report["clocks"]}
    wanted = {name: (len(all_), statistics.median_low(all_)) for name, all_ in apart.items()}
    if told != wanted:
        print(f"medians {told}, wanted {wanted}")


def compare_sides(run: Run, report: dict, pairs: list[tuple[dict, dict]]) -> None:
    """Prints what differs of first numbers, and of frames that came alone, where no silence and no
    end of the run is near."""
    shift = statistics.median([two["time"] - one["time"] for one, two in pairs] or [0])
    most = max((abs(two["time"] - one["time"] - int(shift)) for one, two in pairs), default=0)
    for row in report["sides"]:
        mine = run.of(row["link"], row["side"])
        first = mine[0]["number"] if mine else None
        theirs = run.of(row["link"], "AB".replace(row["side"], ""))
        half = 127 * run.links[row["link"]]["bag_ms"] * MS
        near = min(1000 * run.links[row["link"]]["skew_us"], 2 * most + 100_000)
        alone = sum(
            frame["verdict"] == "accept"
            and run.begin + near < frame["time"] < run.end - near
            and not any(
                f["number"] == frame["number"] and abs(f["time"] - frame["time"]) <= half
                for f in theirs
            )
            for frame in mine
        )
        if report["silences"]:
            alone = row["alone"]  # reported of the silences instead
        if (first, alone) != (row["first_number"], row["alone"]):
            print(f"link {row['link']} side {row['side']}: {first}, {alone} alone, and {row}")


def compare_dropped(run: Run, report: dict) -> None:
    """Prints what differs of the dropped frames."""
    wanted = Counter(
        (f["link"] if f["link"] in run.links else "none", f["side"], f["verdict"], f["port"])
        for f in run.all
        if f["verdict"] != "accept"
    )
    told = {
        (row["link"], row["side"], row["reason"], row["came_in"]): row["frames"]
        for row in report["dropped"]
    }
    if told != wanted:
        print(f"dropped {told}, wanted {dict(wanted)}")


def main() -> None:
    """Compares."""
    config_path, list_path, lines_path, report_path = sys.argv[1:]
    run = Run(config_path, list_path, lines_path)
    with open(report_path, encoding="utf-8") as file:
        report = json.load(file)
    compare_silences(run, report)
    pairs = pairs_of(run)
    compare_copies(run, report, pairs)
    compare_sides(run, report, pairs)
    compare_dropped(run, report)


main()
