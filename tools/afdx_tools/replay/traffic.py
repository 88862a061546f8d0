"""What is measured of the traffic as it arrives at one side: gaps, jitter, sequence numbers."""
from __future__ import annotations

from dataclasses import dataclass

import numpy as np

from afdx_tools.config import Link
from afdx_tools.replay.counting import WIRE_EXTRA, Counting
from afdx_tools.replay.events import ACCEPT
from afdx_tools.replay.grouping import ByKey

NUMBERED = (ACCEPT, "over-rate", "over-lmax", "under-lmin")  # their bytes are those of a sender
CHARGED = (ACCEPT, "over-rate")  # what the account of a link is asked for
MOST_STEPS = 127  # a longer step is taken as one back


@dataclass(frozen=True)
class Numbers:
    """The sequence numbers of a link on one side: the first one and its line; `missing` ones, which
    were skipped, and the line after the longest gap; `jumps`, the steps that no sender makes."""

    first: int
    first_line: int
    missing: int
    missing_line: int | None
    jumps: int


@dataclass(frozen=True)
class Traffic:
    """A link's arrivals on one side. `gap` is the least time between two, `jitter` the least jitter
    of a table in ns with which none of them would be over-rate (None without any), each with the
    line where it was."""

    gap: int | None
    gap_line: int | None
    jitter: int | None
    jitter_line: int | None
    numbers: Numbers


def of_kinds(counting: Counting, words: tuple[str, ...]) -> np.ndarray:
    """The lines whose verdict is one of these words."""
    is_one = np.array([name in words for name in counting.events.verdicts.names], bool)
    chosen = is_one[counting.verdicts]
    return counting.arrived if chosen.all() else counting.arrived[chosen]


def by_link(counting: Counting, words: tuple[str, ...]) -> ByKey:
    """The lines by link and side whose verdict is one of these words."""
    lines = of_kinds(counting, words)
    if lines is counting.arrived:
        return counting.arrived_by_link
    return ByKey(counting.sent_on[lines], lines)


def traffic_of(counting: Counting) -> dict[tuple[int, int], Traffic]:
    """The traffic of each link (by its identifier) and side."""
    listing = counting.listing
    charged, numbered = by_link(counting, CHARGED), by_link(counting, NUMBERED)
    times, lengths = (column[charged.values] for column in (listing.time, listing.length))
    found = {}
    for key, numbers in zip(numbered.keys, numbers_by(counting, numbered)):
        link = counting.config.links[counting.vls[key // 2]]
        span = charged.spans.get(key, slice(0))
        lines, own_lengths = charged.values[span], lengths[span].astype(np.int64)
        found[link.vl, key % 2] = measured(link, lines, times[span], own_lengths, numbers)
    return found


def measured(
    link: Link, lines: np.ndarray, times: np.ndarray, lengths: np.ndarray, numbers: Numbers
) -> Traffic:
    """Gap and jitter of one side's arrivals."""
    if not len(times):
        return Traffic(None, None, None, None, numbers)
    needed = jitters(link, times, lengths)
    worst = int(needed.argmax())
    gap = gap_line = None
    if len(times) > 1:
        gaps = times[1:] - times[:-1]
        least = int(gaps.argmin())
        gap, gap_line = int(gaps[least]), int(lines[1 + least])
    return Traffic(gap, gap_line, int(needed[worst]), int(lines[worst]), numbers)


def jitters(link: Link, times: np.ndarray, lengths: np.ndarray) -> np.ndarray:
    """Of each arrival the least jitter in ns with which it and those before it would all pass.

    A frame of charge c keeps the account busy for BAG * c / Smax; the account is free again at the
    greatest over all earlier k of: the time of k, and what k and all after it are charged. Times
    are multiplied by Smax here, so that nothing is divided before the end; where each frame is
    charged Smax, they needn't be."""
    smax = link.lmax + WIRE_EXTRA
    bag = link.bag_ms * 1_000_000
    if link.policing != "byte":
        ahead = times - np.arange(len(times)) * bag
        return np.maximum.accumulate(ahead) - ahead
    charge = lengths + WIRE_EXTRA
    scaled = (times - times[0]) * smax
    taken = np.cumsum(charge * bag)
    free = taken + np.maximum.accumulate(scaled - (taken - charge * bag))
    return np.maximum(-((scaled + smax * bag - free) // smax), 0)


def numbers_by(counting: Counting, by_link: ByKey) -> list[Numbers]:
    """The sequence numbers of each link's arrivals on one side: a number follows the one before it,
    1 follows 255, and 0 begins anew. What is skipped is missing if the sender had the time to send
    it: s steps take it s BAGs less the jitter of its table. Any other step but one is a jump."""
    lines, begins = by_link.values, np.array(by_link.bounds, np.int64)
    numbers = counting.listing.number[lines].astype(np.int16)
    steps = numbers[1:] - numbers[:-1]
    others = (steps != 1) & (steps != -254) & (numbers[1:] != 0)
    others[begins[1:-1] - 1] = False  # from one link to the next
    at = np.flatnonzero(others)
    which = np.searchsorted(begins, at, "right") - 1
    skipped = skipped_at(counting, lines, at, np.array(by_link.keys, np.int64)[which])
    missing = np.bincount(which, skipped, len(by_link.keys)).astype(np.int64)
    jumps = np.bincount(which, skipped == 0, len(by_link.keys)).astype(np.int64)
    worst = {int(n): int(lines[1 + at[which == n][skipped[which == n].argmax()]])
             for n in np.flatnonzero(missing)}  # fmt: skip
    first = begins[:-1]
    columns = (numbers[first], lines[first], missing, jumps)
    return [
        Numbers(number, line, lost, worst.get(n), wrong)
        for n, (number, line, lost, wrong) in enumerate(zip(*(part.tolist() for part in columns)))
    ]


def skipped_at(
    counting: Counting, lines: np.ndarray, at: np.ndarray, keys: np.ndarray
) -> np.ndarray:
    """How many numbers were skipped, and are missing, from these places among the lines to the ones
    after them; `keys` are those of their links and sides."""
    numbers, times = counting.listing.number, counting.listing.time
    links = [counting.config.links[vl] for vl in counting.order]
    bags, jitters = (np.array([*column, 0], np.int64)[keys // 2] for column in (
        [link.bag_ms * 1_000_000 for link in links], [link.jitter_ns for link in links]
    ))  # fmt: skip
    before, now = lines[at], lines[at + 1]
    first, second = numbers[before].astype(np.int64), numbers[now].astype(np.int64)
    steps = np.where(first == 0, second, (second - first) % 255)
    in_time = (steps <= MOST_STEPS) & (steps * bags <= times[now] - times[before] + jitters)
    return np.where((steps > 1) & in_time, steps - 1, 0)
