"""Counts what a replay wrote: sums by link and side, latencies, backlogs, loads.

Every number here is counted from the program's lines and the list. A latency runs from the arrival
of a frame's last bit to the end of its slot: at a switch from where it came in there, from end to
end from the list's arrival. All columns of the run are held, about 60 bytes for each line of the
list and 60 for each copy that left a port.
"""
from __future__ import annotations

import functools
from dataclasses import dataclass
from typing import NamedTuple

import numpy as np

from afdx_tools.config import MOST_PORTS, Config
from afdx_tools.replay.events import ACCEPT, FATES, LEFT, LOST, NOT_YET, OLD, Events
from afdx_tools.replay.grouping import ByKey, Groups, first_greatest, is_ascending, narrowed
from afdx_tools.replay.listing import NO_LINK, Listing

WIRE_EXTRA = 20  # bytes that a frame takes on the wire beside its own
MOST_LINK = 65_536
MOST_STEPS = 120  # of loads over time
SHARES = (500, 990, 999)  # of a thousand: the percentiles 50, 99 and 99.9 of latencies
Spread = tuple[int, ...]  # of latencies: the least, their percentiles, the greatest


class Path(NamedTuple):
    """The copies of a link that left one port of one side: how many, the `spread` of their
    latencies in ns, the first copy (its place in the events) that had the greatest, and how many
    took longer than is asked of them."""

    link: int
    port: int
    side: int
    frames: int
    spread: Spread
    worst: int
    late: int


@dataclass(frozen=True)
class Queue:
    """One output port of one side: frames that left, the greatest backlog in bytes and its time,
    the share of the line in use over the run, and in each step of time."""

    port: int
    side: int
    left: int
    backlog: int
    time: int
    load: float
    loads: np.ndarray


@dataclass(frozen=True)
class Steps:
    """A run's time in equal steps: where the first begins, how wide each is, how many there are."""

    start: int
    width: int
    count: int

    def of(self, times: np.ndarray) -> np.ndarray:
        """The step of each time."""
        return np.minimum((times - self.start) // self.width, self.count - 1)


def steps_of(first: int, last: int, most: int) -> Steps:
    """At most so many steps of 1, 2 or 5 times a power of ten, at least 1 us wide."""
    widths = (digit * 10**power for power in range(3, 18) for digit in (1, 2, 5))
    width = next(width for width in widths if (last - first) // width < most)
    return Steps(first, width, (last - first) // width + 1)


class Counting:
    """All that is counted of one replay."""

    def __init__(self, config: Config, listing: Listing, events: Events) -> None:
        self.config, self.listing, self.events = config, listing, events
        self.by_port = config.by_port()
        self.order = sorted(config.links)  # the last place is that of frames of no link
        self.vls = [*self.order, NO_LINK]
        index = np.full(MOST_LINK + 1, len(self.order), np.int32)  # NO_LINK is the last one
        index[self.order] = range(len(self.order))
        self.place = index[listing.link]  # of each line its link's place in `vls`
        self.sent_on = self.place * np.int32(2) + listing.side  # and that of its link and side
        self.arrived = np.flatnonzero(events.verdict != NOT_YET)
        self.verdicts = events.verdict[self.arrived]
        self.span()
        self.links = self.place[events.line]  # of each copy
        self.sides = listing.side[events.line]
        self.places = self.links * np.int32(self.ports) + events.port  # of its link and port
        self.left = events.fate == FATES.index(LEFT)
        self.all_left = bool(self.left.all())
        self.latency = events.time - events.since
        self.lengths = listing.length[events.line]
        self.configured, self.promised = self.asked()
        self.late = self.left & (self.latency > self.configured)
        # of each copy that left: it went to a system; and from end to end
        self.ended = self.left & ~self.with_cable[events.port] if config.cables else self.left
        self.whole = events.time - listing.time[events.line] if config.several else self.latency

    @functools.cached_property
    def arrived_by_link(self) -> ByKey:
        """The lines that arrived by link and side."""
        return ByKey(self.sent_on[self.arrived], self.arrived)

    @functools.cached_property
    def ports(self) -> int:
        """More than the number of any port."""
        return MOST_PORTS * max(len(self.config.names), 1)

    @functools.cached_property
    def with_cable(self) -> np.ndarray:
        """Of each port: does a cable go from there to another switch?"""
        found = np.zeros(self.ports, bool)
        found[list(self.config.cables)] = True
        return found

    def asked(self) -> tuple[np.ndarray, np.ndarray]:
        """Of each copy the latency that is configured at its switch, and that of its link's way to
        its port."""
        config = self.config
        if config.several is None:
            configured = [config.links[vl].latency_ns for vl in self.order] + [0]
            here = np.array(configured, np.int64)[self.links]
            return here, here
        at = {vl: place for place, vl in enumerate(self.order)}
        rows, ways = (np.zeros((len(self.vls), self.ports), np.int64) for _ in range(2))
        for (_, vl), row in config.several.rows.items():
            if vl in at:
                rows[at[vl], list(row.ports)] = row.latency_ns
        for vl, port in config.several.ways:
            ways[at[vl], port] = config.latency_to(vl, port)
        return rows.ravel()[self.places], ways.ravel()[self.places]

    def span(self) -> None:
        """The first and the last time of the run."""
        times = self.listing.time[self.arrived]
        self.first = int(times[0]) if len(times) else 0
        ends = self.events.time
        self.last = max(int(times[-1]) if len(times) else 0, int(ends.max(initial=0)))

    def frames_by(self, keys: np.ndarray, count: int) -> np.ndarray:
        """For each key the arrivals by verdict; `keys` has one for each line of the list."""
        words = len(self.events.verdicts.names)
        return tally(keys[self.arrived], self.verdicts, count, words)

    def came_by(self, keys: np.ndarray, count: int) -> np.ndarray:
        """The same with what cables brought to further switches."""
        came, words = self.events.came, len(self.events.verdicts.names)
        return tally(keys[came.line], came.verdict, count, words)

    def fates_by(self, keys: np.ndarray, count: int) -> np.ndarray:
        """For each key the copies by fate; `keys` has one for each copy."""
        return tally(keys, self.events.fate, count, len(FATES))

    def ends_by(self, keys: np.ndarray, count: int) -> np.ndarray:
        """For each key the copies by what their receivers did."""
        ends, known = self.events.end, self.events.end != NOT_YET
        if not known.all():
            keys, ends = keys[known], ends[known]
        return tally(keys, ends, count, len(self.events.ends.names))

    def ended_by(self, keys: np.ndarray, count: int) -> np.ndarray:
        """For each key the copies that left to a system."""
        return np.bincount(keys if self.ended.all() else keys[self.ended], minlength=count)

    def late_by(self, keys: np.ndarray, count: int) -> np.ndarray:
        """For each key the copies that took longer than their link's configured latency."""
        return np.bincount(keys[self.late], minlength=count)

    @functools.cached_property
    def paths(self) -> list[Path]:
        """The latencies of each link at each port of each side, in that order."""
        return self.paths_of(np.flatnonzero(self.left), self.latency, self.configured)

    @functools.cached_property
    def ways(self) -> list[Path]:
        """Those from end to end."""
        if self.config.several is None:
            return self.paths
        return self.paths_of(np.flatnonzero(self.ended), self.whole, self.promised)

    def paths_of(self, at: np.ndarray, latency: np.ndarray, asked: np.ndarray) -> list[Path]:
        """The latencies of these copies, of which so much is asked."""
        groups = Groups(self.places[at] * np.int32(2) + self.sides[at])
        at = at[groups.order]
        latency = narrowed(latency)[at]
        bounds = np.array(groups.bounds, np.int64)
        worst, limits = at[first_greatest(latency, bounds)], asked[at[bounds[:-1]]]
        for _, begin, end in groups.parts():
            latency[begin:end].sort()
        counts = np.diff(bounds)
        columns = (counts, worst, late_of(latency, bounds, limits))
        found = zip(groups.keys, spreads_of(latency, bounds), *(part.tolist() for part in columns))
        return [
            Path(self.vls[key // 2 // self.ports], key // 2 % self.ports, key % 2, count, spread,
                 slowest, late)
            for key, spread, count, slowest, late in found
        ]  # fmt: skip

    @functools.cached_property
    def queues(self) -> tuple[Steps, list[Queue]]:
        """Each output port of each side to which copies came, and the steps of its loads."""
        steps = steps_of(self.first, max(self.last - 1, self.first), MOST_STEPS)
        groups = Groups(self.events.port * 2 + self.sides)
        parts = (groups.order[begin:end] for _, begin, end in groups.parts())
        return steps, [self.queue(part, steps) for part in parts]

    def queue(self, at: np.ndarray, steps: Steps) -> Queue:
        """One output port of one side; `at` are its copies."""
        events, port, side = self.events, int(self.events.port[at[0]]), int(self.sides[at[0]])
        length = self.lengths[at].astype(np.int64)
        slot = (length + WIRE_EXTRA) * self.by_port[port].byte_ns
        since, begun, span = events.since[at], events.time[at], self.last - self.first
        if self.all_left:
            begun -= slot
            backlog, time = most_waiting(since, begun, length)
            loads, load = loads_of(begun, slot, steps, span)
            return Queue(port, side, len(at), backlog, time, load, loads)
        left = self.left[at]
        begun -= np.where(left, slot, 0)
        put = events.fate[at] != FATES.index(LOST)
        backlog, time = most_waiting(since[put], begun[put], length[put])
        loads, load = loads_of(begun[left], slot[left], steps, span)
        return Queue(port, side, int(left.sum()), backlog, time, load, loads)

    def drops(self, most: int = 200) -> tuple[Steps, dict[str, np.ndarray]]:
        """Drops by reason in each step of time: frames that were dropped by the time of their
        arrival, copies that were lost or too old by that of their end."""
        events, steps = self.events, steps_of(self.first, self.last, most)
        found = {}
        for code, word in enumerate(events.verdicts.names):
            times = events.came.time[events.came.verdict == code]
            if word != ACCEPT and len(times):
                found[word] = np.bincount(steps.of(times), minlength=steps.count)
        for word in (LOST, OLD):
            times = events.time[events.fate == FATES.index(word)]
            if len(times):
                found[word] = np.bincount(steps.of(times), minlength=steps.count)
        return steps, found


def spreads_of(latency: np.ndarray, bounds: np.ndarray) -> list[Spread]:
    """The spread of each part of the latencies, which ascend from one of the bounds to the next. A
    percentile is the least latency that so many of a thousand copies don't exceed."""
    first, counts = bounds[:-1], np.diff(bounds)
    percentiles = [first + np.maximum(-(-share * counts // 1000) - 1, 0) for share in SHARES]
    places = [first, *percentiles, bounds[1:] - 1]
    return list(zip(*(latency[place].tolist() for place in places)))


def late_of(latency: np.ndarray, bounds: np.ndarray, limits: np.ndarray) -> np.ndarray:
    """How many of each part of the latencies, which ascend from one of the bounds to the next, are
    over its limit."""
    late = np.zeros(len(limits), np.int64)
    for place in np.flatnonzero(latency[bounds[1:] - 1] > limits).tolist():
        part = latency[bounds[place] : bounds[place + 1]]
        late[place] = len(part) - part.searchsorted(limits[place], "right")
    return late


def sorted_by(keys: np.ndarray, values: np.ndarray) -> np.ndarray:
    """The order by keys, then by values; equal ones as they stand."""
    bits = int(values.max(initial=0)).bit_length()
    if bits + int(keys.max(initial=0)).bit_length() < 64:
        return np.argsort(keys << bits | values, kind="stable")  # one sort, not two
    return np.lexsort((values, keys))


def tally(keys: np.ndarray, kinds: np.ndarray, key_count: int, kind_count: int) -> np.ndarray:
    """How often each kind comes with each key."""
    both = keys * np.int32(kind_count) + kinds
    return np.bincount(both, minlength=key_count * kind_count).reshape(key_count, kind_count)


def in_order(times: np.ndarray, others: np.ndarray) -> tuple[np.ndarray, np.ndarray]:
    """The times in their order, and the others beside them."""
    if is_ascending(times):
        return times, others
    order = np.argsort(times, kind="stable")
    return times[order], others[order]


def most_waiting(put: np.ndarray, begun: np.ndarray, length: np.ndarray) -> tuple[int, int]:
    """The most bytes that wait at one moment, and the first such moment. A frame waits from when it
    is put until it is begun, at both moments too."""
    if not len(put):
        return 0, 0
    times, coming = in_order(put, length)
    begun, going = in_order(begun, length)
    gone = np.concatenate(([0], np.cumsum(going)))
    before = begun.searchsorted(times, "left")  # how many were begun earlier
    waiting = np.cumsum(coming)
    waiting -= gone[before]
    most = int(waiting.argmax())
    return int(waiting[most]), int(times[most])


def loads_of(
    begun: np.ndarray, slot: np.ndarray, steps: Steps, span: int
) -> tuple[np.ndarray, float]:
    """The share of the line in use in each step, and over the whole run. No two slots overlap, so
    at an edge between steps those around it say how much was used until then."""
    if not len(begun):
        return np.zeros(steps.count), 0.0
    begun, slot = in_order(begun, slot)
    used = np.cumsum(slot)
    edges = np.arange(steps.count + 1) * steps.width
    near = begun.searchsorted(edges + steps.start, "right")[:, None] + (-1, 0)
    near = np.unique(np.clip(near, 0, len(begun) - 1))
    some, slots, until = begun[near], slot[near], used[near]
    moments = np.stack((some, some + slots), axis=1).ravel() - steps.start
    busy = np.stack((until - slots, until), axis=1).ravel()
    at_edges = np.interp(edges, moments, busy)
    return np.diff(at_edges) / steps.width, float(used[-1]) / max(span, 1)
