"""The numbers of a report as rows."""
from __future__ import annotations

from typing import Iterable, Sequence

import numpy as np

from afdx_tools.config import MOST_PORTS
from afdx_tools.replay.absence import Copied, alone_by_side, contradicted
from afdx_tools.replay.checked import Checked
from afdx_tools.replay.counting import Counting, Path, sorted_by
from afdx_tools.replay.events import ACCEPT, DELIVERED, FATES, LEFT, LOST, OLD, REDUNDANT, side_name
from afdx_tools.replay.listing import NO_LINK
from afdx_tools.replay.traffic import Traffic, traffic_of
from afdx_tools.tables import Row

MOST_TROUBLES = 10_000
PIECE = 64  # values of which the greatest is looked for first
AT_SWITCHES = ("dropped", "full_buffer", "late", "too_old")
SUMS = (
    "frames",
    "accepted",
    "dropped",
    "full_buffer",
    "late",
    "too_old",
    "departed",
    "delivered",
    "redundant",
    "refused",
)


def vl_text(vl: int) -> str | int:
    """A link's identifier, or what stands for frames that name no link."""
    return "none" if vl == NO_LINK else int(vl)


def words_of(counts: Iterable[int], names: Sequence[str], without: Sequence[str]) -> Row:
    """The words that come, with their counts, in the order of the names."""
    return {name: int(count) for name, count in zip(names, counts) if count and name not in without}


def sums_by(counting: Counting) -> list[np.ndarray]:
    """For each link and side the arrivals and all that came to a switch by verdict, the copies by
    fate and by what receivers did, those that were late, and those that left to systems."""
    keys, count = counting.sent_on, 2 * len(counting.vls)
    of_copies = counting.links * np.int32(2) + counting.sides
    return [
        counting.frames_by(keys, count),
        counting.came_by(keys, count),
        counting.fates_by(of_copies, count),
        counting.ends_by(of_copies, count),
        counting.late_by(of_copies, count),
        counting.ended_by(of_copies, count),
    ]


def of_both_sides(sums: list[np.ndarray]) -> list[np.ndarray]:
    """The same for each link."""
    return [counts[::2] + counts[1::2] for counts in sums]


def sums_rows(counting: Counting, sums: list[np.ndarray]) -> list[Row]:
    """A row for each of these sums, of what has no frames that alone."""
    frames, came, fates, ends, late, left = sums
    verdicts, ended = counting.events.verdicts.names, counting.events.ends.names
    rows: list[Row] = []
    for key, total in enumerate(frames.sum(axis=1).tolist()):
        if not total:
            rows.append({"frames": 0})
            continue
        reasons = words_of(came[key], verdicts, [ACCEPT])
        refusals = words_of(ends[key], ended, [DELIVERED, REDUNDANT])
        rows.append(
            {
                "frames": total,
                "accepted": int(frames[key][verdicts.index(ACCEPT)]),
                "dropped": sum(reasons.values()),
                "reasons": reasons,
                "full_buffer": int(fates[key][FATES.index(LOST)]),
                "late": int(late[key]),
                "too_old": int(fates[key][FATES.index(OLD)]),
                "departed": int(left[key]),
                "delivered": int(ends[key][ended.index(DELIVERED)]),
                "redundant": int(ends[key][ended.index(REDUNDANT)]),
                "refused": sum(refusals.values()),
                "refusals": dict(sorted(refusals.items())),
            }
        )
    return rows


def at_port(counting: Counting, port: int) -> Row:
    """An output port as columns of a row: its number, of several switches also which it is at, and
    what is there."""
    return {**counting.config.keys_of(port), "system": counting.by_port[port].name}


def link_rows(counting: Counting, sums: list[np.ndarray]) -> list[Row]:
    """A row for each link that has frames, by its identifier; frames of no link come last."""
    rows = sums_rows(counting, of_both_sides(sums))
    return [{"link": vl_text(vl), **row} for vl, row in zip(counting.vls, rows) if row["frames"]]


def side_rows(counting: Counting, copied: Copied, sums: list[np.ndarray]) -> list[Row]:
    """A row for each link and side: sums, and what was measured of the arrivals there."""
    traffic, alone = traffic_of(counting), alone_by_side(counting, copied)
    rows = []
    for key, row in enumerate(sums_rows(counting, sums)):
        vl, side = counting.vls[key // 2], key % 2
        if row["frames"] and vl != NO_LINK:
            measured = measured_row(counting, vl, traffic.get((vl, side)))
            rows.append(
                {
                    "link": vl,
                    "side": side_name(side),
                    **{name: row[name] for name in SUMS},
                    "alone": alone.get((vl, side), 0),
                    **measured,
                }
            )
    return rows


def measured_row(counting: Counting, vl: int, traffic: Traffic | None) -> Row:
    """What was measured of a link's arrivals on one side, beside its table."""
    link, numbers = counting.config.links[vl], traffic.numbers if traffic else None
    return {
        "first_number": numbers.first if numbers else None,
        "first_line": named(counting, numbers.first_line if numbers else None),
        "missing": numbers.missing if numbers else None,
        "missing_line": named(counting, numbers.missing_line if numbers else None),
        "jumps": numbers.jumps if numbers else None,
        "least_gap_ns": traffic.gap if traffic else None,
        "gap_line": named(counting, traffic.gap_line if traffic else None),
        "bag_ns": link.bag_ms * 1_000_000,
        "jitter_ns": traffic.jitter if traffic else None,
        "jitter_line": named(counting, traffic.jitter_line if traffic else None),
        "table_jitter_ns": link.jitter_ns,
    }


def spread_of(path: Path) -> Row:
    """How many frames went on a path, and the latencies of the fastest, of most, of the slowest."""
    least, half, most, nearly, greatest = path.spread
    return {
        "frames": path.frames,
        "least_ns": least,
        "median_ns": half,
        "p99_ns": most,
        "p99.9_ns": nearly,
        "greatest_ns": greatest,
    }


def worst_of(counting: Counting, paths: Sequence[Path]) -> tuple[np.ndarray, list[int]]:
    """Of each path its slowest copy, and the number that the program gave that one's line."""
    worst = np.array([path.worst for path in paths], np.int64)
    return worst, counting.events.named.numbers[counting.events.line[worst]].tolist()


def latency_row(counting: Counting, checked: Checked, path: Path, line: int, time: int) -> Row:
    """The latencies of a link at a port of one side; the slowest frame's line, and when it came."""
    config = counting.config
    link = config.row_at(path.link, path.port) or config.links[path.link]
    bound = checked.bound_of(link, path.port)
    return {
        "link": path.link,
        "from": link.source,
        **at_port(counting, path.port),
        "side": side_name(path.side),
        "priority": link.priority,
        **spread_of(path),
        "at_line": line,
        "at_ns": time,
        "bound_ns": bound,
        "configured_ns": link.latency_ns,
        "margin_ns": None if bound is None else link.latency_ns - bound,
        "share": path.spread[-1] / link.latency_ns,
        "late": path.late,
    }


def latency_rows(counting: Counting, checked: Checked) -> list[Row]:
    """A row for each link, port and side where a frame left."""
    worst, lines = worst_of(counting, counting.paths)
    found = zip(counting.paths, lines, counting.events.since[worst].tolist())
    return [latency_row(counting, checked, *one) for one in found]


def port_rows(counting: Counting, checked: Checked) -> tuple[list[Row], Row]:
    """A row for each output port of each side that frames went to; the loads over time."""
    steps, queues = counting.queues
    rows = []
    for queue in queues:
        bound = checked.bounds.get(queue.port)
        rows.append(
            {
                **at_port(counting, queue.port),
                "side": side_name(queue.side),
                "left": queue.left,
                "load": queue.load,
                "peak_load": float(queue.loads.max(initial=0.0)),
                "backlog": queue.backlog,
                "at_ns": queue.time,
                "bound": bound.buffer if bound else None,
                "buffer": counting.config.buffer_at(queue.port),
            }
        )
    loads = [
        {
            **at_port(counting, queue.port),
            "side": side_name(queue.side),
            "loads": [round(float(load), 6) for load in queue.loads],
        }
        for queue in queues
    ]
    return rows, {"start_ns": steps.start, "step_ns": steps.width, "ports": loads}


def drops_of(counting: Counting) -> Row:
    """The drops by reason in each step of time."""
    steps, found = counting.drops()
    counts = {word: [int(count) for count in series] for word, series in found.items()}
    return {"start_ns": steps.start, "step_ns": steps.width, "reasons": counts}


def histogram_of(counting: Counting) -> Row:
    """For each side the copies by share of their link's configured latency, in steps of 5 %; the
    last step is over 100 %."""
    whole, promised, sides = counting.whole, counting.promised, counting.sides
    if not (at := counting.ended).all():
        whole, promised, sides = whole[at], promised[at], sides[at]
    steps = np.clip((20 * whole - 1) // np.maximum(promised, 1), 0, 20)
    counts = np.bincount(steps + 21 * sides.astype(np.int64), minlength=42)
    return {side_name(side): counts[21 * side : 21 * side + 21].tolist() for side in (0, 1)}


def frame_rows(counting: Counting, checked: Checked, most: int) -> list[Row]:
    """The copies whose latency was the greatest share of the configured one, the worst first; of
    several switches from end to end."""
    at, whole, promised = np.flatnonzero(counting.ended), counting.whole, counting.promised
    if len(at) < len(whole):
        whole, promised = whole[at], promised[at]
    shares = whole / np.maximum(promised, 1)
    order = np.lexsort((at, -shares))[:most] if len(at) <= 4 * most else largest(shares, most)
    rows = []
    for copy in at[order]:
        line, port = int(counting.events.line[copy]), int(counting.events.port[copy])
        vl = counting.vls[counting.links[copy]]
        rows.append(
            {
                **frame_key(counting, line),
                "line": named(counting, line),
                **at_port(counting, port),
                "latency_ns": int(counting.whole[copy]),
                "bound_ns": checked.bound_on(counting.config, vl, port),
                "configured_ns": int(counting.promised[copy]),
                "share": int(counting.whole[copy]) / int(counting.promised[copy]),
            }
        )
    return rows


def nth_greatest(values: np.ndarray, n: int) -> float:
    """The n-th of these values from the greatest on."""
    return np.partition(values, len(values) - n)[len(values) - n]


def largest(values: np.ndarray, most: int) -> np.ndarray:
    """The places of the greatest values, the greatest first, of equal ones the earlier first. Of as
    many pieces each has a value that is no less than the least of their greatest."""
    if len(values) > PIECE * most:
        greatest = np.maximum.reduceat(values, np.arange(0, len(values), PIECE))
        at = np.flatnonzero(values >= nth_greatest(greatest, most))
        return at[largest(values[at], most)] if len(at) < len(values) else at[:most]
    at = np.flatnonzero(values >= nth_greatest(values, most))
    return at[np.lexsort((at, -values[at]))][:most]


def frame_key(counting: Counting, line: int) -> Row:
    """What tells a frame from all others, whatever its line: link, side, number, time."""
    listing = counting.listing
    return {
        "link": vl_text(counting.vls[counting.place[line]]),
        "side": side_name(int(listing.side[line])),
        "number": int(listing.number[line]),
        "time_ns": int(listing.time[line]),
    }


def named(counting: Counting, line: int | None) -> int | None:
    """The number that the program gave a line of the list."""
    return None if line is None else counting.events.number_of(line)


def early_rows(counting: Counting) -> list[Row]:
    """A row for each link and side with over-rate frames: how many; of the ns that they came too
    early by, the least that half of them don't exceed, and the greatest."""
    early = counting.events.early
    keys = counting.place[early.lines].astype(np.int64) * 2 + counting.listing.side[early.lines]
    order = sorted_by(keys, early.amounts)
    keys, amounts = keys[order], early.amounts[order]
    bounds = np.flatnonzero(np.diff(keys, prepend=-1, append=-1))
    return [
        {
            "link": vl_text(counting.vls[keys[begin] // 2]),
            "side": side_name(keys[begin] % 2),
            "count": int(end - begin),
            "median": int(amounts[(begin + end - 1) // 2]),
            "greatest": int(amounts[end - 1]),
        }
        for begin, end in zip(bounds[:-1], bounds[1:])
    ]


def early_frames(counting: Counting, most: int) -> list[Row]:
    """The over-rate frames that came too early by most, of equal ones the earlier first."""
    early = counting.events.early
    rows = []
    for place in largest(early.amounts, min(most, len(early.amounts))):
        line, amount = int(early.lines[place]), int(early.amounts[place])
        key = frame_key(counting, line)
        rows.append({**key, "line": named(counting, line), "early_ns": amount})
    return rows


def trouble_rows(counting: Counting, most: int = MOST_TROUBLES) -> list[Row]:
    """The first frames, by their lines, that were dropped, lost, late, too old or refused; at which
    port, if they came that far, and where they came in there."""
    events, came = counting.events, counting.events.came
    dropped = np.flatnonzero(came.verdict > 0)
    dropped = dropped[np.argsort(came.line[dropped], kind="stable")]
    refused = events.end > events.ends.names.index(REDUNDANT)
    copies = np.flatnonzero(~counting.left | counting.late | refused)
    words = events.verdicts.names
    found = [
        (int(came.line[n]), int(came.port[n]) // MOST_PORTS * MOST_PORTS, words[came.verdict[n]],
         int(came.port[n]))
        for n in dropped[:most]
    ]  # fmt: skip
    for copy in copies[np.argsort(events.line[copies], kind="stable")][:most]:
        fate, line, port = FATES[events.fate[copy]], int(events.line[copy]), int(events.port[copy])
        whats = [fate] if fate != LEFT else ["late"] if counting.late[copy] else []
        whats += [events.end_of(copy)] if refused[copy] else []
        row = counting.config.row_at(counting.vls[counting.links[copy]], port)
        came_in = row.port if row else int(counting.listing.port[line])
        found += [(line, port, what, came_in) for what in whats]
    return [trouble_row(counting, *one) for one in sorted(found)[:most]]


def trouble_row(counting: Counting, line: int, port: int, what: str, came_in: int) -> Row:
    """A frame with trouble. A frame that was dropped came to no output port."""
    place = counting.config.keys_of(port)
    return {
        **frame_key(counting, line),
        "line": named(counting, line),
        **place,
        "port": place["port"] or None,
        "what": what,
        "came_in": came_in % MOST_PORTS,
    }


def totals(counting: Counting, report: Row) -> Row:
    """The sums over all links, and the counts of what isn't as it should be."""
    sides, skews = report["sides"], report["skews"]
    left = dict(report.get("skipped", {}))
    lost, claimed = left.pop("recorder-lost", 0), left.pop("claimed", 0)
    named, unused = left.pop("contradicted", contradicted(counting)), left.pop("unused", 0)
    over = [row for row in skews if (row["at_receivers_ns"] or 0) > row["table_skew_ns"]]
    shaky = [row for row in sides if (row["jitter_ns"] or 0) > row["table_jitter_ns"]]
    return {
        **{key: sum(row[key] for row in report["links"]) for key in SUMS},
        "missing": sum(row["missing"] or 0 for row in sides),
        "silent": len(report["silences"]),
        "unequal": sum(row["alone"] for row in sides),
        "first_number": sum(bool(row["first_number"]) for row in sides),
        "twice": sum(row["twice"] for row in skews),
        "clock": sum(row["clock"] == "apart" for row in report["clocks"]),
        "skew": len(over),
        "jitter": len(shaky),
        "contradicted": named,
        "unused": 0 if "taps" in report else unused,  # a table of taps was looked up in each
        "recorder_lost": lost,
        "claimed": claimed,
        "left_out": sum(left.values()),
        **at_switches(report),
    }


def at_switches(report: Row) -> Row:
    """The counts of some of these at each of several switches that has some."""
    found: dict[str, dict[str, int]] = {word: {} for word in AT_SWITCHES}
    for row in report.get("switches", []):
        for word, counts in found.items():
            if row[word]:
                counts[row["switch"]] = counts.get(row["switch"], 0) + row[word]
    return {"at_switches": found} if "switches" in report else {}
