"""Recordings that are read with `--live`, spelled out: how late a frame may stand, what counts for
a clock, and what of two recordings is taken before a fault."""
from __future__ import annotations

from edge_rows import edge, low
from order_rows import CUT, FOREIGN, LONG, NOWHERE, ROGUE, at, lines
from pair_order_rows import pair
from pair_rows import PairRow
from recorded_arrivals import Options
from recorded_pair import PairOptions
from recording_rows import CUSTOM, FIRST_NS, H1, H2, IL9, PL, SL, ZERO, N, R, Row

MS = 1_000  # us
HEARD = PL + at(0) + at(2 * MS, FOREIGN)


def live(ms: int, **more) -> Options:
    """So many ms late a frame may stand."""
    return Options(live=ms, **more)


def late_rows() -> list[Row]:
    """A frame that stands late, by as much as it may and by more."""
    late, more = PL + at(MS) + at(0, H2), PL + at(MS + 1) + at(0, H2)
    same, sorted_ = PL + at(5) + at(5, H2), lines((0, 2), (MS * 1000, 1))
    far = PL + at(0) + at(999 * MS) + at(0, H2)
    between = PL + at(3) + at(5) + at(4, H2) + at(9) + at(5)
    return [
        edge("live: late by all of it", late, sorted_, "", live(1)),
        edge("live: late by 1 us more", more, lines((0, 1)), "TimeBack 2", live(1)),
        edge("live: late by 999 ms", far, lines((0, 1), (0, 2), (999 * 10**6, 1)), "", live(999)),
        edge("live: late, of 10 s", far, lines((0, 1), (0, 2), (999 * 10**6, 1)), "", live(10_000)),
        edge("live: equal moments", same, lines((0, 1), (0, 2)), "", live(0)),
        edge("live: back by 1 us", PL + at(1) + at(0, H2), lines((0, 1)), "TimeBack 2", live(0)),
        edge(
            "live: several between",
            between,
            lines((0, 1), (1000, 2), (2000, 1), (2000, 1), (6000, 1)),
            "",
            live(1),
        ),
    ]


def clock_rows() -> list[Row]:
    """What counts for the clock: each stamp, and none of a number that has none."""
    skipped = PL + at(0) + at(MS + 1, FOREIGN) + at(0, H2)
    heard = PL + at(0) + at(MS, FOREIGN) + at(0, H2)
    ns = N(ZERO, "00002a36", H1) + N("01000000", "41423936", FOREIGN) + N(ZERO, "00002a36", H2)
    left_out = Options({1: "-"}, live=1)
    custom = N(ZERO, "00002a36", H1) + CUSTOM + N(ZERO, "00002a36", H2)
    start = R(low(1), LONG, low(1514) * 2) + at(MS) + at(0, H2)
    before = at(MS, H2) + at(2 * MS, FOREIGN) + at(MS - 1)
    shown = f"# not-afdx 2 / {lines((0, 1))}"
    return [
        edge("live: a skipped frame's stamp", skipped, shown, "TimeBack 3", live(1)),
        edge("live: as late as it may", heard, f"{shown} / {lines((0, 2))}", "", live(1)),
        edge(
            "live: the stamp of one that is left out",
            SL + IL9 + IL9 + ns,
            f"# left-out 2 / {lines((0, 1))}",
            "TimeBack 3",
            left_out,
        ),
        edge(
            "live: a block without a stamp",
            SL + IL9 + custom,
            f"{lines((0, 1))} / # no-frame 2 / {lines((0, 2))}",
            "",
            live(0),
        ),
        edge(
            "live: stamps of starts, as they stand",
            PL + start,
            f"F 5120 A 2 {H2} / F 122440 A 1 {LONG} / F 1005120 A 1 {H1}",
            "",
            live(1, stamps="start", origin=FIRST_NS),
        ),
        edge(
            "live: earlier than the first",
            PL + before,
            f"# not-afdx 2 / {lines((0, 2))}",
            "TimeBack 3",
            live(1),
        ),
    ]


def taken_rows() -> list[Row]:
    """A remark stands before what its stamp shows to be known."""
    data = PL + at(0) + at(1, H2) + at(2 * MS, FOREIGN) + at(2 * MS + 1) + at(4 * MS, ROGUE)
    first, second, last = lines((0, 1)), lines((1000, 2)), lines((2_001_000, 1))
    whole = f"# not-afdx 3 / {first} / {second} / # unknown-sender 5 / {last}"
    as_read = f"{first} / {second} / # not-afdx 3 / {last} / # unknown-sender 5"
    cut = f"# not-afdx 3 / {first} / {second} / # no-network 5 / {last}"
    broken = PL + at(0) + at(1, H2) + at(2 * MS, FOREIGN) + at(2 * MS + 1) + at(0, NOWHERE) + CUT
    return [
        edge("live: remarks", data, whole, "", live(1)),
        edge("live: remarks, 0", data, as_read, "", live(0)),
        edge("live: held before a fault", broken, cut, "Cut 6", live(1)),
    ]


def live_rows() -> list[Row]:
    """All."""
    return late_rows() + clock_rows() + taken_rows()


def live_pair(
    name: str, recordings: tuple[str, str], shown: list[str], fault: str = "", ms: int = 1
) -> PairRow:
    """A row of two recordings."""
    return pair(f"live: {name}", recordings, shown, fault, PairOptions(live=ms))


def live_pairs() -> list[PairRow]:
    """Two recordings: each arrival is taken once nothing of the other can come before it; the one
    whose clock is behind is read."""
    heard = PL + at(2 * MS, FOREIGN) + at(4 * MS, FOREIGN)
    of_b = PL + at(0) + at(1, H2) + at(2 * MS, H2) + at(3 * MS)
    told_b = ["B1 0", "B2 1", f"B2 {2 * MS}"]
    a2, a4 = "# not-afdx 1", "# not-afdx 2"
    same = PL + at(MS) + at(3 * MS), PL + at(MS, H2) + at(3 * MS, H2)
    held = PL + at(3) + at(0, H2) + at(2 * MS, FOREIGN) + at(4 * MS, FOREIGN)
    before_end, back = [a2, *told_b[:2], a4, told_b[2]], PL + at(2 * MS) + at(0)
    of_a = [a2, "A1 0", "A2 1", a4, f"A2 {2 * MS}", f"A1 {3 * MS}"]
    all_of_it = [*before_end, f"B1 {3 * MS}", f"A1 {4 * MS}"]
    in_turn = ["A1 0", "B2 0", f"A1 {2 * MS}", f"B2 {2 * MS}"]
    own = ["# not-afdx 2", "# not-afdx 3", "A2 0", "B1 1", "A1 3", "# not-afdx 4"]
    return [
        live_pair("A hears, B sends", (heard, of_b), before_end, "NoArrival 2 A"),
        live_pair("B hears, A sends", (of_b, heard), of_a, "NoArrival 2 B"),
        live_pair("A hears and sends, B sends", (heard + at(4 * MS), of_b), all_of_it),
        live_pair("a fault of A, which hears", (heard + CUT, of_b), before_end, "Cut 3 A"),
        live_pair("at one moment, A's first", same, in_turn, "", 0),
        live_pair("each in its own order", (held, PL + at(1) + at(4 * MS, FOREIGN)), own),
        live_pair("B's goes back", (heard, back), [a2, a4, "B1 0"], "TimeBack 2 B"),
    ]
