"""What the stamps of a recorded switch show of the clocks that made them: their steps, how near to
one another frames stand that went over one line, and how far what left is from what came."""
from __future__ import annotations

from bisect import bisect_left
from collections import defaultdict
from typing import NamedTuple

import numpy as np

from afdx_tools.conformance.frames import Frame
from afdx_tools.conformance.measuring import BEFORE_FRAME, MILLION, Measured, Stream
from afdx_tools.tables import Row

FEWEST = 32  # frames without which their steps and their slope say nothing
BEHIND_FRAME = 12  # bytes of the line: the gap
MOST_APART = 50_000_000  # ns between a frame that came and the one that left, either way
LINE_CLOCK = 200  # millionths by which a line may be faster
LONGEST_STEP = 1_000  # ns: a longer one, which the recording doesn't say, is one of the senders
BINS, FEWEST_BINS = 16, 4  # parts of a recording whose medians have a slope
LEAST_CHANGE = 1_000  # ns over a recording, below which a slope is none


class Line(NamedTuple):
    """The stamps at a port, of what came or of what left: how many; the ns that all are multiples
    of; the least distance of two, less the time on the line of the second one; and by how much
    frames in a row are nearer to one another than they can go over the line. None: too few."""

    side: str
    port: int
    is_left: bool
    frames: int
    step: int | None
    nearest: int | None
    bunched: int


class Pair(NamedTuple):
    """A frame that came and left: when it came; the time between, less that on the line; the time
    between, less its latency; and how long it was on the line, first to last bit."""

    came: int
    offset: int
    over: int
    lasting: int


class Offset(NamedTuple):
    """Of frames that came at a port and left at another one: how many; the time between, less that
    on the line: the least, a tenth, half, nine tenths, the greatest; how many were inside for
    longer than their latency, the most by so many ns; the slope in millionths, None where none can
    be told; and the least time between if the stamps of what left were of first bits."""

    side: str
    came: int
    left: int
    frames: int
    spread: tuple[int, int, int, int, int]
    over: int
    most_over: int
    slope: float | None
    by_first_bits: int


# ---- lines ---------------------------------------------------------------------------------------


def step_of(stamps: np.ndarray, resolution: int) -> int | None:
    """The ns that all stamps are multiples of: as they show where there are enough to tell, else as
    the recording says it."""
    if len(stamps) < FEWEST:
        return resolution if resolution > 1 else None
    step = int(np.gcd.reduce(np.diff(stamps)))
    return step if 0 < step <= LONGEST_STEP else resolution


def line_of(measured: Measured, frames: list[Frame], is_left: bool, resolution: int) -> Line:
    """The stamps of a line."""
    side, port = frames[0].side, frames[0].port
    byte_ns = measured.by_port[measured.first + port].byte_ns
    times = np.array([frame.time for frame in frames], np.int64)
    lengths = np.array([frame.length for frame in frames], np.int64)
    order = np.argsort(times, kind="stable")
    times, lengths = times[order], lengths[order]
    are_starts = measured.options.recorders.are_starts(is_left)
    step = step_of(times - lengths * byte_ns if are_starts else times, resolution)
    wire = (lengths + BEFORE_FRAME + BEHIND_FRAME) * byte_ns
    apart = np.diff(times) - (wire - wire * LINE_CLOCK // MILLION)[1:]
    if not len(apart):
        return Line(side, port, is_left, len(times), step, None, 0)
    lags = np.concatenate([[0], np.cumsum(-apart)])
    bunched = int(np.max(lags - np.minimum.accumulate(lags)))
    return Line(side, port, is_left, len(times), step, int(apart.min()), bunched)


def lines_of(measured: Measured, resolution: dict[bool, int]) -> list[Line]:
    """The lines at all ports."""
    found: dict[tuple[bool, str, int], list[Frame]] = defaultdict(list)
    for is_left, lists in ((False, measured.came.values()), (True, measured.left.values())):
        for frames in lists:
            for frame in frames:
                found[is_left, frame.side, frame.port].append(frame)
    return [line_of(measured, found[key], key[0], resolution.get(key[0], 1))
            for key in sorted(found)]  # fmt: skip


# ---- what left, by what came ---------------------------------------------------------------------


def alone(times: dict[bytes, list[int]]) -> dict[bytes, list[int]]:
    """Of frames by their bytes those that no other frame of the same bytes is near to."""
    near = 2 * MOST_APART
    return {
        key: [time for at, time in enumerate(each)
              if (at == 0 or time - each[at - 1] > near)
              and (at + 1 == len(each) or each[at + 1] - time > near)]
        for key, each in times.items()
    }  # fmt: skip


def times_by_bytes(frames: list[Frame]) -> dict[bytes, list[int]]:
    """The times of frames by their bytes, of those that tell which frame is which."""
    times: dict[bytes, list[int]] = defaultdict(list)
    for frame in sorted(frames, key=lambda frame: frame.time):
        times[frame.key].append(frame.time)
    return alone(times)


def slope_of(times: np.ndarray, offsets: np.ndarray) -> float | None:
    """By how many millionths offsets grow with time: the slope of their medians, where these change
    more over the recording than they stray from it. None where it is too short to tell."""
    parts = min(BINS, len(times) // 8)
    if len(times) < FEWEST or parts < FEWEST_BINS:
        return None
    order = np.argsort(times, kind="stable")
    moments = np.array([np.mean(each) for each in np.array_split(times[order], parts)])
    medians = np.array([np.median(each) for each in np.array_split(offsets[order], parts)])
    moments -= moments[0]
    if moments[-1] <= 0:
        return None
    slope, start = np.polyfit(moments, medians, 1)
    stray = float(np.std(medians - (start + slope * moments)))
    change = abs(slope) * moments[-1]
    return float(slope) * MILLION if change > max(LEAST_CHANGE, 4 * stray) else 0.0


def offset_of(came: int, stream: Stream, pairs: list[Pair]) -> Offset:
    """How far what left is from what came."""
    times, offsets, over, lasting = (np.array(each, np.int64) for each in zip(*pairs))
    ranks = np.quantile(offsets, (0, 0.1, 0.5, 0.9, 1), method="lower")
    spread = tuple(int(rank) for rank in ranks)
    slope = slope_of(times, offsets)
    return Offset(stream.side, came, stream.port, len(pairs), spread,  # type: ignore[arg-type]
                  int(np.sum(over > 0)), int(over.max()), slope,
                  int((offsets + lasting).min()))  # fmt: skip


def offsets_of(measured: Measured) -> list[Offset]:
    """The offsets between all ports, of frames that no other one of equal bytes is near to."""
    came = {key: times_by_bytes(frames) for key, frames in measured.came.items()}
    pairs: dict[tuple[str, int, int], list[Pair]] = defaultdict(list)
    for stream, frames in measured.left.items():
        link = measured.links[stream.vl]
        all_came = came.get((stream.side, stream.vl))
        if not all_came or measured.lacks(stream):
            continue
        here = pairs[stream.side, link.port - measured.first, stream.port]
        byte_ns = measured.by_port[measured.first + stream.port].byte_ns
        for frame in frames:
            times = all_came.get(frame.key, [])
            at = bisect_left(times, frame.time)
            near = min(times[max(at - 1, 0) : at + 1], default=None,
                       key=lambda time: abs(frame.time - time))  # fmt: skip
            if near is not None and abs(frame.time - near) <= MOST_APART:
                inside, lasting = frame.time - near, frame.length * byte_ns
                line = lasting + BEFORE_FRAME * byte_ns
                here.append(Pair(near, inside - line, inside - link.latency_ns, lasting))
    return [offset_of(port, Stream(side, 0, left), each)
            for (side, port, left), each in sorted(pairs.items()) if each]  # fmt: skip


# ---- rows ----------------------------------------------------------------------------------------


def line_row(line: Line) -> Row:
    """A line as a row."""
    return {
        "side": line.side,
        "port": line.port,
        "way": "left" if line.is_left else "came",
        "frames": line.frames,
        "step_ns": line.step,
        "nearest_ns": line.nearest,
        "bunched_ns": line.bunched,
    }


def offset_row(offset: Offset) -> Row:
    """An offset as a row."""
    names = ("least_ns", "tenth_ns", "median_ns", "nine_tenths_ns", "greatest_ns")
    slope = offset.slope
    return {
        "side": offset.side,
        "came_port": offset.came,
        "left_port": offset.left,
        "frames": offset.frames,
        **dict(zip(names, offset.spread)),
        "over_latency": offset.over,
        "slope_ppm": None if slope is None else str(round(slope, 1)),
    }
