"""More pairs of recordings, spelled out: faults of either, times, and sides."""
from __future__ import annotations

from edge_rows import ARRIVAL, CLOSED, RAW, low
from pair_rows import CUT, FIVE, FOREIGN, OF_B, SIX, PairRow, at_places, listed, merged_rows
from pair_rows import reading_rows, told_rows
from recorded_pair import PairOptions
from recording_rows import ACCEPT, F1, FIRST_NS, G1, H1, H2, IL, IW, OK, ONE, PL, SL, US, ZERO
from recording_rows import E, R, from_sender

LIST, PACKED = b"F 0 A 1 -\n".hex(), "1f8b0800" + "00" * 20
ROGUE = from_sender("020000000920")  # of no system
LATE = "40336365"  # the seconds of a frame, 1,000,000 s later
TWO = f"{ACCEPT} / V 1 B accept"
PIECE = "00" * 10
BROKEN = F1 + PIECE
UNCLEAR = PL + R(ZERO, CLOSED, "40000000 40000000")


def faulty(name: str, a: str, b: str, fault: str, told: str = "", lines: str = "..") -> PairRow:
    """A row with a fault."""
    return PairRow(name, a, b, told, fault, listed=lines)


def no_recording_rows() -> list[PairRow]:
    """What is no recording."""
    return [
        faulty("B is a list", F1, LIST, "NotRecording 0 B", lines=""),
        faulty("A is a list", LIST, F1, "NotRecording 0 A", lines=""),
        faulty("both are lists", LIST, LIST, "NotRecording 0 A", lines=""),
        faulty("B has no byte", F1, "", "NotRecording 0 B", lines=""),
        faulty("A has three bytes", "d4c3b2", F1, "NotRecording 0 A", lines=""),
        faulty("neither has a byte", "", "", "NotRecording 0 A", lines=""),
        faulty("A is packed", PACKED, F1, "Packed A", lines=""),
        faulty("B is packed", F1, PACKED, "Packed B", lines=""),
        faulty("both are packed", PACKED, PACKED, "Packed A", lines=""),
    ]


def fault_rows() -> list[PairRow]:
    """Faults of either."""
    last = PL + R("f4010000", H1) + PIECE
    behind = f"{OK} / V 1 B accept"
    in_b, in_a = PL + R(ONE, H1) + R(ZERO, H2), PL + R(FIVE, H1) + PIECE
    damaged, at_head = G1 + "00" * 12, PL + CUT
    told = "V 1 B accept / V 1 A accept"
    return [
        faulty("before A's last", F1 + R("58020000", H1), last, "Ended 1 B", behind),
        faulty("A's, before B's equal arrival", BROKEN, G1, "Ended 1 A", ACCEPT, ARRIVAL),
        faulty("A's, behind B's earlier arrival", in_a, F1, "Ended 1 A", told),
        faulty("at B's head", F1, at_head, "Cut 1 B", lines=""),
        faulty("at both heads", at_head, PL + PIECE, "Cut 1 A", lines=""),
        faulty("both end within", BROKEN, BROKEN, "Ended 1 A", ACCEPT),
        faulty("A's version", PL.replace("400 ", "300 "), G1, "BadVersion 0 A"),
        faulty("B is damaged", F1, damaged, "Damaged 1 B", TWO),
        faulty("B isn't Ethernet", F1, SL + IW + E(US, H1), "NotEthernet 1 B"),
        PairRow(
            "back in B alone",
            PL + R("09000000", H1),
            in_b,
            "V 1 B accept",
            "TimeBack 2 B",
            PairOptions(at_once=True),
        ),
        faulty("unclear in B", F1, UNCLEAR, "FcsUnclear 1 B"),
    ]


def no_arrival_rows() -> list[PairRow]:
    """Recordings of which nothing is left."""
    rogue, unknown = PL + R(ZERO, ROGUE), "# unknown-sender 1"
    rogues, foreign = rogue + R(ONE, ROGUE), PL + R(ZERO, FOREIGN)
    second = "# unknown-sender 2"
    return [
        faulty(
            "NoArrival of both", rogues, foreign, "NoArrival 2 A", "", f"{unknown} / {second}"
        ),
        faulty("NoArrival of B", F1, rogue, "NoArrival 1 B", "", unknown),
        faulty("NoArrival of B, A has no number", PL, rogue, "NoArrival 1 B", "", unknown),
        faulty("NoArrival of A, B ends within", foreign, PL + "00", "NoArrival 1 A"),
    ]


def time_rows() -> list[PairRow]:
    """Times beyond the last."""
    at, beyond = (PL + R(fraction, H1, seconds=LATE) for fraction in (ZERO, ONE))
    behind, last = F1 + R(ONE, H1, seconds=LATE), f"{ARRIVAL} / F {10**15} B 1 {H1}"
    told = f"{OK} / V 1 B accept / D .. B 3 / M .."
    return [
        PairRow("the greatest time", F1, at, told, listed=last),
        faulty("a time of B's beyond 10^15", F1, beyond, "TimeTooLarge 1 B", ACCEPT),
        faulty("a time of A's beyond 10^15", beyond, F1, "TimeTooLarge 1 A", "V 1 B accept"),
        faulty("equal times beyond 10^15", behind, behind, "TimeTooLarge 2 A", TWO),
        faulty("a fault before such a time", behind, F1 + CUT, "Cut 2 B", TWO),
    ]


def origin_rows() -> list[PairRow]:
    """The moment that is time 0."""
    one, two, early = F1 + R(FIVE, H1), F1 + R(SIX, H1), "# before-origin 1"
    shown = f"F 7 A 1 {H1} / F 7 B 1 {H1}"
    between = PairOptions(origin=FIRST_NS + 1000)
    before, zero = PairOptions(origin=FIRST_NS - 7), PairOptions(origin=0)
    return [
        PairRow(
            "an origin behind arrivals of both",
            one,
            two,
            "V 2 A accept / V 2 B accept / D 2 10720 A 3 / M 10720 s3 1 68656c6c6f / D 2 11720 B 3"
            " / X 11720 s3 2 redundant",
            options=between,
            listed=f"{early} / {early} / F 4000 A 1 {H1} / F 5000 B 1 {H1}",
            skipped=".. before-origin 2 recorder-lost 0 claimed 2 ..",
        ),
        PairRow("an origin behind all of A", F1, two, "", "NoArrival 1 A", between, early),
        listed("an origin before both", F1, G1, shown, before),
        PairRow("an origin in 1970", F1, G1, "", "TimeTooLarge 1 A", zero),
    ]


def of_interface(place: int) -> str:
    """H1 in an enhanced packet of that interface."""
    return E(US, H1).replace("5c000000 00000000", f"5c000000 {low(place)}", 1)


def place_rows() -> list[PairRow]:
    """Sides and ports that words say; `claimed` counts the ports that frames say, `unused` the
    interfaces of either recording that it doesn't have."""
    at_2, at_24 = f"F 0 B 2 {H1}", f"F 0 {{}} 24 {H1}"
    tries = [
        ("A at a port, B at another", ["0=A:1", "0=B:2"], f"{ARRIVAL} / {at_2}", 0, 0),
        ("A's place isn't B's", ["0=A:24"], f"{at_24.format('A')} / {OF_B}", 1, 0),
        ("B's place isn't A's", ["0=B:24"], f"{ARRIVAL} / {at_24.format('B')}", 1, 0),
        ("sides alone", ["0=A", "0=B"], f"{ARRIVAL} / {OF_B}", 2, 0),
        ("a side, and a port", ["0=B:2", "0=A"], f"{ARRIVAL} / {at_2}", 1, 0),
        ("other interfaces", ["1=-", "2=A:3", "2=B:3"], f"{ARRIVAL} / {OF_B}", 2, 4),
        ("another one of B", ["0=A", "7=B:3"], f"{ARRIVAL} / {OF_B}", 2, 1),
    ]
    rows = [
        PairRow(
            name,
            F1,
            G1,
            options=at_places(*words),
            listed=lines,
            skipped=f".. claimed {claimed} .. unused {unused}",
        )
        for name, words, lines, claimed, unused in tries
    ]
    left, known = "# left-out 1", f"{ARRIVAL} / F 0 B 1 {ROGUE}"
    return [
        *rows,
        PairRow("left out of both", F1, G1, "", "NoArrival 1 A", at_places("0=-"), left),
        listed("a rogue at B's port", F1, PL + R(ZERO, ROGUE), known, at_places("0=B:1")),
        PairRow(
            "an interface of both that is left out",
            SL + IL + IL + E(US, H1) + of_interface(1),
            SL + IL + IW + of_interface(1) + E(US, H1),
            options=at_places("1=-", "0=B:2")._replace(reorder=0),
            listed=f"{left} / {ARRIVAL} / # left-out 2 / {at_2}",
            skipped="no-frame 0 left-out 2 .. claimed 1 .. unused 0",
        ),
    ]


def side_rows() -> list[PairRow]:
    """Sides are those of the recordings, whatever frames say."""
    none, of_b = from_sender("020000000160"), from_sender("020000000140")
    short, yes = PL + R(ZERO, H1[:22], low(11) * 2), PairOptions(fcs=True)
    return [
        PairRow(
            "both frames say the other side",
            PL + R(ZERO, of_b),
            F1,
            listed=f"F 0 A 1 {of_b} / {OF_B}",
            skipped=".. claimed 2 contradicted 2 unused 0",
        ),
        PairRow(
            "frames that say no network",
            PL + R(ZERO, none),
            short,
            listed=f"F 0 A 1 {none} / F 0 B 1 {H1[:22]}",
            skipped=".. no-network 0 before-origin 0 recorder-lost 0 claimed 2 ..",
        ),
        listed("--fcs yes, for both", UNCLEAR, UNCLEAR, f"{RAW} / {RAW.replace('A', 'B')}", yes),
    ]


def pair_rows() -> list[PairRow]:
    """All pairs that are spelled out."""
    groups = merged_rows() + told_rows() + reading_rows() + no_recording_rows() + fault_rows()
    groups += no_arrival_rows() + time_rows() + origin_rows()
    return groups + place_rows() + side_rows()
