"""Pairs of recordings whose frames stand out of order, spelled out: each has its own order."""
from __future__ import annotations

from edge_rows import low
from order_rows import CUT, FOREIGN, LATE, LONG, ROGUE, at
from pair_edge_rows import LIST
from pair_rows import PairRow
from recorded_pair import PairOptions
from recording_rows import F1, FIRST_NS, G1, H1, H2, ONE, PL, ZERO, R

AS_READ, ONE_HELD = PairOptions(reorder=0), PairOptions(reorder=1)
STARTS_OF_BOTH = PairOptions(origin=FIRST_NS, stamps="start")
A, B = PL + at(5) + at(3, H2), PL + at(4) + at(6, H2)


def line(text: str) -> str:
    """A line of the list: of a frame by its side, its link and its time in us, as `A1 5`; a remark
    as it is."""
    if text[0] == "#":
        return text
    side, vl, us = text[0], int(text[1]), int(text[3:])
    return f"F {us * 1000} {side} {vl} {(H1, H2)[vl - 1]}"


def pair(
    name: str,
    recordings: tuple[str, str],
    shown: list[str],
    fault: str = "",
    options: PairOptions = PairOptions(),
) -> PairRow:
    """A row of which the list is reported."""
    listed = " / ".join(map(line, shown))
    return PairRow(f"order: {name}", *recordings, "..", fault, options, listed)


def own_order_rows() -> list[PairRow]:
    """Arrivals of both."""
    both, as_read = ["A2 0", "B1 1", "A1 2", "B2 3"], ["B1 0", "A1 1"]
    equal = PL + at(5) + at(3), PL + at(3, H2) + at(5, H2)
    in_b, both_words = PL + at(5) + at(4) + at(3, H2), PairOptions(reorder=1, at_once=True)
    at_once = PairOptions(at_once=True)
    return [
        pair("of both", (A, B), both),
        pair("of both, --reorder 1", (A, B), both, "", ONE_HELD),
        pair("of both, --line-buffered --reorder 1", (A, B), both, "", both_words),
        pair("A's goes back", (A, B), as_read, "TimeBack 2 A", AS_READ),
        pair("B's goes back", (B, A), ["A1 0", "B1 1"], "TimeBack 2 B", at_once),
        pair("equal moments, A's first", equal, ["A1 0", "B2 0", "A1 2", "B2 2"]),
        pair("two later in B", (F1, in_b), ["A1 0", "B1 4", "B1 5"], "TimeBack 3 B", ONE_HELD),
        pair("two later in B, sorted", (F1, in_b), ["A1 0", "B2 3", "B1 4", "B1 5"]),
    ]


def fault_rows() -> list[PairRow]:
    """Before a fault stand all of its recording, and those of the other that come before the last
    of them."""
    cut_b, told_of_a = PL + at(4) + CUT, ["A2 0", "B1 1", "A1 2"]
    late = PL + R(ONE, H1, seconds=LATE) + at(0, H2)
    return [
        pair("a fault of A", (A + CUT, B), told_of_a, "Cut 3 A"),
        pair("a fault of B", (A, cut_b), ["A2 0", "B1 1"], "Cut 2 B"),
        pair("a fault of both", (A + CUT, cut_b), ["A2 0", "B1 1"], "Cut 2 B"),
        pair("a fault of B's head", (A, PL + CUT), [], "Cut 1 B"),
        pair("B is a list", (A, LIST), [], "NotRecording 0 B"),
        pair("no arrival of B", (A, PL + at(1, FOREIGN)), ["# not-afdx 1"], "NoArrival 1 B"),
        pair("a late one of A", (late, PL + at(1)), ["A2 0", "B1 1"], "TimeTooLarge 1 A"),
    ]


def remark_rows() -> list[PairRow]:
    """Skipped numbers stand where they are read: all of A's that are read for its first arrival
    before any of B's."""
    a = PL + at(0) + at(1, FOREIGN) + at(2, H2) + at(3, FOREIGN)
    b = PL + at(0, ROGUE) + at(1) + at(2, ROGUE) + at(3, H2)
    f = ["", *(f"# not-afdx {n}" for n in range(1, 5))]
    u = ["", *(f"# unknown-sender {n}" for n in range(1, 4))]
    as_read = [u[1], "A1 0", f[2], "B1 1", u[3], "A2 2", f[4], "B2 3"]
    one_held = [f[2], u[1], u[3], "A1 0", f[4], "B1 1", "A2 2", "B2 3"]
    held = [f[2], f[4], u[1], u[3], "A1 0", "B1 1", "A2 2", "B2 3"]
    beside_list, no_b = PL + at(1, FOREIGN) + at(0) + at(2, FOREIGN), "NotRecording 0 B"
    return [
        pair("remarks, --reorder 0", (a, b), as_read, "", AS_READ),
        pair("remarks, --reorder 1", (a, b), one_held, "", ONE_HELD),
        pair("remarks", (a, b), held),
        pair("remarks of A, B is a list", (beside_list, LIST), [f[1], f[3]], no_b),
        pair("a remark of A, B is a list", (beside_list, LIST), [f[1]], no_b, AS_READ),
    ]


def start_rows() -> list[PairRow]:
    """Stamps of a frame's start: of both recordings."""
    long = PL + R(ZERO, LONG, low(1514) * 2) + at(1, H2)
    starts, from_first = PairOptions(stamps="start"), STARTS_OF_BOTH
    shown = f"F 0 A 2 {H2} / F 1000 B 1 {H1} / F 115320 A 1 {LONG}"
    at_24 = from_first._replace(places=("0=B:24",))
    return [
        PairRow("starts of both", long, PL + at(2), listed=shown, options=starts),
        PairRow(
            "starts, from the first one's",
            F1,
            G1,
            listed=f"F 5120 A 1 {H1} / F 5120 B 1 {H1}",
            options=from_first,
        ),
        PairRow(
            "starts, at a port without a system",
            F1,
            G1,
            listed=f"F 0 B 24 {H1} / F 5120 A 1 {H1}",
            options=at_24,
        ),
    ]


def pair_orders() -> list[PairRow]:
    """All."""
    return own_order_rows() + fault_rows() + remark_rows() + start_rows()
