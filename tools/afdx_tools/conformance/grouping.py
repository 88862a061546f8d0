"""The findings of a recorded switch, taken together: the first one of each link and port, and how
many there are of a kind."""
from __future__ import annotations

from collections import Counter
from typing import Sequence

from afdx_tools.columns import BEHIND_LINK
from afdx_tools.conformance.measuring import Measured
from afdx_tools.tables import Row, link_words

TWICE = "left twice"
OUT_OF_TURN, NO_ARRIVAL = "out-of-turn", "no-arrival"  # why a frame of a stream is strange
WORDS = {
    "stopped": "had to leave, and didn't in time",
    "passed": "left, and had to be dropped: {reason}",
    "late": "left late, by up to {by_ns} ns",
    "early": "left before they can have, by up to {by_ns} ns",
    "strange": "left, and nothing explains it: {reason}",
    "unsure": "came from which on nothing is said",
}
OF_STRANGE = {
    TWICE: TWICE,
    OUT_OF_TURN: "left out of turn",
    NO_ARRIVAL: "left and never came",
    "not-its-port": "left where the link doesn't go",
}


def left_twice(measured: Measured) -> set[int]:
    """The strange frames whose bytes came, and left a port more often than that."""
    found: set[int] = set()
    for stream, left in measured.left.items():
        strange = [frame for frame in left if frame.line in measured.strange]
        if strange:
            came = Counter(each.key for each in measured.came.get((stream.side, stream.vl), []))
            counts = Counter(frame.key for frame in left)
            found.update(each.line for each in strange if 0 < came[each.key] < counts[each.key])
    return found


def kind_of(row: Row, twice: set[int]) -> str:
    """What kind of its word a finding is; `twice` are the frames that left twice."""
    may_be = row["reason"] in (OUT_OF_TURN, NO_ARRIVAL) and not row["by_numbers"]
    return TWICE if may_be and row["line"] in twice else row["reason"] or ""


def place_of(row: Row) -> tuple:
    """The link, side and port of a finding."""
    return row["link"], row["side"], row["port"]


def firsts(rows: Sequence[Row]) -> list[Row]:
    """The first finding of each link, side and port."""
    found: dict[tuple, Row] = {}
    for row in rows:
        found.setdefault(place_of(row), row)
    return list(found.values())


def of_link(row: Row) -> str:
    """The link of a finding; nothing after a fault, where no frame was looked for."""
    if row["time_ns"] is None:
        return ""
    return "no link" if row["link"] is None else f"link {link_words(row)}"


def words_of(group: Row, first: Row, kind: str) -> str:
    """A group in words, with its first finding."""
    frames = "1 frame" if group["findings"] == 1 else f"{group['findings']:,} frames"
    frames += f" of {of_link(first)}" if of_link(first) else ""
    words = OF_STRANGE.get(kind) or WORDS[group["what"]].format(**group)
    return f"{frames} at port {group['port']} of {group['side']} {words}"


def groups(rows: Sequence[Row], twice: set[int]) -> list[Row]:
    """A row for each link, side, port and kind of finding, those with the most first; `twice` are
    the frames that left twice."""
    found: dict[tuple, list[Row]] = {}
    for row in rows:
        key = *place_of(row), row["what"], kind_of(row, twice)
        found.setdefault(key, []).append(row)
    made = []
    for (link, side, port, what, kind), each in found.items():
        times = [row["by_ns"] for row in each if row["by_ns"] is not None]
        group = {
            "findings": len(each),
            "what": what,
            "reason": each[0]["reason"],
            "link": link,
            **{name: each[0][name] for name in [BEHIND_LINK] if name in each[0]},
            "side": side,
            "port": port,
            "system": each[0]["system"],
            "first_line": each[0]["line"],
            "by_ns": max(times, default=None),
        }
        made.append({**group, "words": words_of(group, each[0], kind)})
    return sorted(made, key=lambda group: -group["findings"])
