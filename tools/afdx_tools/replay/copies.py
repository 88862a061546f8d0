"""The two copies of a frame, one on each side: those that came alone, skews, clocks, doubles."""
from __future__ import annotations

from dataclasses import dataclass

import numpy as np

from afdx_tools.replay.counting import Counting
from afdx_tools.replay.events import ACCEPT, DELIVERED
from afdx_tools.replay.grouping import Groups, first_greatest, grouped, order_of
from afdx_tools.replay.silence import Silences
from afdx_tools.replay.slots import Slots
from afdx_tools.replay.traffic import NUMBERED, of_kinds

HALF_ROUND = 127  # BAGs in which the numbers of a link go half round
NEVER = np.iinfo(np.int64).max
FEWEST = 10  # pairs of a sender below which nothing is said of its clock
LEAST_OFFSET = 100_000  # ns; below that it may as well be cables and senders


@dataclass(frozen=True)
class Skew:
    """The greatest time in ns between the two copies of a frame, and the line of the later one; of
    several receivers that which is the most of its SkewMax, `table`."""

    pairs: int
    greatest: int
    line: int
    table: int


@dataclass(frozen=True)
class Offset:
    """By how many ns the copies of a sender came later on side B than on side A: the median of all,
    the quartiles, and the median of the first and of the last tenth of them."""

    system: str
    pairs: int
    low: int
    median: int
    high: int
    begin: int
    end: int


# ---- which frames belong together ----------------------------------------------------------------


def in_rounds(
    counting: Counting, lines: np.ndarray, shift: int
) -> tuple[np.ndarray, np.ndarray, np.ndarray]:
    """These lines by link and number, of each by time; their keys, and these times. The clock of
    side B is `shift` ns ahead."""
    listing = counting.listing
    times = listing.time[lines] - shift * listing.side[lines].astype(np.int64)
    keys = counting.place[lines].astype(np.int64) * 256 + listing.number[lines]
    order = np.argsort(times, kind="stable") if shift else np.arange(len(lines))
    order = order[order_of(keys[order])]
    return lines[order], keys[order], times[order]


def paired(counting: Counting, lines: np.ndarray, shift: int) -> np.ndarray:
    """Of each line of the list the line of the frame's other copy, 0 where it has none.

    Copies are two of these frames of a link and number, one of each side, each the nearest to the
    other in time, and less apart than half of the time in which the numbers go round."""
    other = np.zeros(counting.listing.lines + 1, np.int32)
    if len(lines) < 2:
        return other
    lines, keys, times = in_rounds(counting, lines, shift)
    apart, side = np.diff(times), counting.listing.side[lines]
    both = (keys[1:] == keys[:-1]) & (side[1:] != side[:-1])
    both &= apart <= half_rounds(counting)[counting.place[lines[1:]]]
    apart = np.where(both, apart, NEVER)
    before, after = np.roll(apart, 1), np.roll(apart, -1)
    before[0] = after[-1] = NEVER
    at = np.flatnonzero(both & (apart <= before) & (apart < after))
    other[lines[at]], other[lines[at + 1]] = lines[at + 1], lines[at]
    return other


def half_rounds(counting: Counting) -> np.ndarray:
    """Of each link, by its place, the ns in which its numbers go half round."""
    bags = [counting.config.links[vl].bag_ms for vl in counting.order]
    return np.array([*bags, 0], np.int64) * HALF_ROUND * 1_000_000


def middle_of(values: np.ndarray) -> float:
    """The one in the middle, or the mean of the two there."""
    half = len(values) // 2
    if len(values) % 2:
        return float(np.partition(values, half)[half])
    low, high = np.partition(values, (half - 1, half))[half - 1 : half + 1]
    return (float(low) + float(high)) / 2


def later_on_b(counting: Counting, other: np.ndarray) -> tuple[np.ndarray, np.ndarray]:
    """The frames of side A that have a copy on side B, and by how many ns that came later."""
    at = np.flatnonzero((other > 0) & (counting.listing.side == 0))
    time = counting.listing.time
    return at, time[other[at]] - time[at]


def pairs_of(counting: Counting) -> np.ndarray:
    """Of each line of the list the line of the frame's other copy, 0 where it has none; of accepted
    frames alone. Clocks that are far apart pair each copy with one of another round: so they are
    paired again, by the median over the links of what was found first."""
    lines = of_kinds(counting, (ACCEPT,))
    other = paired(counting, lines, 0)
    at, apart = later_on_b(counting, other)
    medians = [middle_of(apart[each]) for each in grouped(counting.place[at]).values()]
    shift = int(middle_of(np.array(medians))) if medians else 0
    return paired(counting, lines, shift) if abs(shift) > LEAST_OFFSET else other


def alone_of(counting: Counting, other: np.ndarray, silences: Silences) -> np.ndarray:
    """The lines of accepted frames of which no copy came on the other side, accepted or not, while
    that side was heard: not those within its silences, nor those so near to an end of the run that
    the copy may lie beyond it, by SkewMax or twice the greatest skew that came."""
    listing, place = counting.listing, counting.place
    _, apart = later_on_b(counting, other)
    shift = int(middle_of(apart)) if len(apart) else 0
    accepted = of_kinds(counting, (ACCEPT,))
    single = np.zeros(listing.lines + 1, bool)
    single[accepted[other[accepted] == 0]] = True
    lines, keys, times = in_rounds(counting, alike(counting, single), shift)
    far = nearest_there(keys, times, listing.side[lines]) > half_rounds(counting)[place[lines]]
    lines = np.sort(lines[far & single[lines]])
    skews = [counting.config.links[vl].skew_ns for vl in counting.order]
    usual = 2 * int(np.abs(apart - shift).max(initial=0)) + LEAST_OFFSET
    near = np.minimum(np.array([*skews, 0], np.int64)[place[lines]], usual)
    times = listing.time[lines] + np.where(listing.side[lines] == 0, shift, -shift)
    inside = (times - near > silences.begin) & (times + near < silences.end)
    return lines[inside & ~silences.cover(lines, near + abs(shift))]


def alike(counting: Counting, single: np.ndarray) -> np.ndarray:
    """The lines whose bytes are those of a sender, with link and number of a line that is
    `single`."""
    lines, number = of_kinds(counting, NUMBERED), counting.listing.number
    known = np.zeros(len(counting.vls) * 256, bool)
    known[counting.place[single] * 256 + number[single]] = True
    return lines[known[counting.place[lines] * 256 + number[lines]]]


def nearest_there(keys: np.ndarray, times: np.ndarray, side: np.ndarray) -> np.ndarray:
    """Of each frame the least time to one of its key on the other side, NEVER where there is none;
    they stand by keys, then by times. A babbler's frames count, so none of its numbers is wanting
    where only its account there let another through."""
    places, count = np.arange(len(keys)), len(keys)
    found = np.full(count, NEVER)
    for each in (0, 1):
        there, mine = side != each, np.flatnonzero(side == each)
        before = np.maximum.accumulate(np.where(there, places, -1))[mine]
        after = np.minimum.accumulate(np.where(there, places, count)[::-1])[::-1][mine]
        for at in (before, after):
            near = np.clip(at, 0, count - 1)
            is_copy = (at == near) & (keys[near] == keys[mine])
            apart = np.where(is_copy, np.abs(times[near] - times[mine]), NEVER)
            found[mine] = np.minimum(found[mine], apart)
    return found


# ---- how far apart they are ----------------------------------------------------------------------


def greatest_by_link(
    counting: Counting, places: np.ndarray, apart: np.ndarray, lines: np.ndarray,
    table: np.ndarray,
) -> dict[int, Skew]:  # fmt: skip
    """The greatest of each link, by its share of what its table has; `places` are those of the
    links."""
    shares, groups = apart / np.maximum(table, 1), Groups(places)
    bounds = np.array(groups.bounds, np.int64)
    worst = groups.order[first_greatest(shares[groups.order], bounds)]
    columns = (np.diff(bounds), apart[worst], lines[worst], table[worst])
    found = zip(groups.keys, *(part.tolist() for part in columns))
    return {counting.vls[index]: Skew(*skew) for index, *skew in found}


def skews_asked(counting: Counting, places: np.ndarray, ports: np.ndarray) -> np.ndarray:
    """SkewMax of these links in their rows at the switches of these ports."""
    keys = places * np.int32(counting.ports) + ports
    counts = np.bincount(keys)
    table = np.zeros(len(counts), np.int64)
    for key in np.flatnonzero(counts).tolist():
        vl, port = counting.vls[key // counting.ports], key % counting.ports
        table[key] = counting.config.skew_at(vl, port)
    return table[keys]


def skews_at_inputs(counting: Counting, other: np.ndarray) -> dict[int, Skew]:
    """By how much the later copy of a frame came to its switch after the earlier one."""
    time = counting.listing.time
    later = np.flatnonzero(other)
    later = later[other[later] < later]
    places = counting.place[later]
    table = skews_asked(counting, places, counting.listing.port[later])
    return greatest_by_link(counting, places, time[later] - time[other[later]], later, table)


def copies_at_receivers(counting: Counting, other: np.ndarray) -> tuple[np.ndarray, np.ndarray]:
    """The copies that left a port after, in the list, their frame's copy of the other side, and
    those that left the same port of the other switch; ports with a system alone."""
    slots = Slots(counting, np.flatnonzero(counting.ended))
    second = np.flatnonzero((other > 0) & (other < np.arange(len(other))))
    return slots.pairs(second, other[second])


def skews_at_receivers(counting: Counting, mine: np.ndarray, its: np.ndarray) -> dict[int, Skew]:
    """By how much these copies of a frame left the two switches apart, over all output ports."""
    events = counting.events
    apart = events.time[mine] - events.time[its]
    lines = events.line[np.where(apart >= 0, mine, its)]
    places = counting.links[mine]
    table = skews_asked(counting, places, events.port[mine])
    return greatest_by_link(counting, places, np.abs(apart), lines, table)


def twice_by_link(counting: Counting, mine: np.ndarray, its: np.ndarray) -> dict[int, int]:
    """Of each link the messages that a receiver read twice, one from each of these copies of the
    frame."""
    events = counting.events
    code = events.ends.names.index(DELIVERED)
    both = mine[(events.end[mine] == code) & (events.end[its] == code)]
    places, counts = np.unique(counting.links[both], return_counts=True)
    return {counting.vls[place]: int(count) for place, count in zip(places, counts)}


# ---- clocks --------------------------------------------------------------------------------------


def offsets_of(counting: Counting, other: np.ndarray) -> list[Offset]:
    """By how much the copies of each sender came later on side B, in the order of the tables."""
    at, apart = later_on_b(counting, other)
    names = list(counting.config.systems)
    sender = [names.index(counting.config.links[vl].source) for vl in counting.order] + [0]
    of_sender = grouped(np.array(sender, np.int32)[counting.place[at]])
    return [offset_of(names[place], apart[of_sender[place]]) for place in sorted(of_sender)]


def offset_of(system: str, apart: np.ndarray) -> Offset:
    """That of one sender, whose pairs stand in the order of time."""
    tenth = max(len(apart) // 10, 1)
    ranks = (len(apart) // 4, (len(apart) - 1) // 2, (3 * len(apart)) // 4)
    low, median, high = (int(value) for value in np.partition(apart, ranks)[list(ranks)])
    begin, end = (int(middle_of(part)) for part in (apart[:tenth], apart[-tenth:]))
    return Offset(system, len(apart), low, median, high, begin, end)


def clock_of(offsets: list[Offset]) -> list[Offset]:
    """The senders by whose copies the clocks of both sides differ: of all that have pairs enough
    the medians are alike, and too great for cables; or all of them drift alike."""
    known = [offset for offset in offsets if offset.pairs >= FEWEST]
    if is_alike([offset.median for offset in known]):
        return known
    return known if is_alike([offset.end - offset.begin for offset in known]) else []


def is_alike(amounts: list[int]) -> bool:
    """Are all of these so great, and no further apart than a quarter of the least?"""
    least = min((abs(amount) for amount in amounts), default=0)
    return least >= LEAST_OFFSET and max(amounts) - min(amounts) <= least // 4
