"""Recordings whose frames stand out of order, and stamps of a frame's start, spelled out, and what
is reported of each."""
from __future__ import annotations

from edge_rows import ARRIVAL, CLOSED, edge, interface, low, option, packet
from recorded import LATEST
from recorded_arrivals import Options
from recording_rows import ACCEPT, BACK, F1, FIRST_NS, H1, H2, IL9, IW, NS, ONE, PL, SL, ZERO
from recording_rows import N, R, Row, from_sender

FOREIGN, ROGUE = "ff" * 6 + H1[12:], from_sender("020000000920")
NOWHERE = from_sender("020000000160")  # of no network
LATE = "40336365"  # the seconds of a frame, 1,000,000 s later
CUT = R("09000000", H1[:80], "28000000 3c000000")
LONG = H1 + "00" * 1454  # 1,514 bytes
TOLD = (
    "V 2 A accept / V 1 A accept / D 2 6720 A 3 / M 6720 s3 2 776f726c64 / D 1 13440 A 3"
    " / M 13440 s3 1 68656c6c6f"
)
OF_STARTS = (
    "V 1 A accept / V 2 A accept / D 1 11840 A 3 / M 11840 s3 1 68656c6c6f / D 2 18560 A 3"
    " / M 18560 s3 2 776f726c64"
)
STARTS = Options(origin=FIRST_NS, stamps="start")


def at(us: int, frame: str = H1) -> str:
    """A frame of 60 bytes in a pcap, so many us after the first second."""
    return R(low(us), frame)


def held(most: int) -> Options:
    """So many arrivals are held."""
    return Options(reorder=most)


def lines(*each: tuple[int, int]) -> str:
    """The lines of frames of the links, by their times."""
    return " / ".join(f"F {time} A {vl} {(H1, H2)[vl - 1]}" for time, vl in each)


def told_rows() -> list[Row]:
    """Two frames, the later one first."""
    more = f"{BACK} 00f15365 02000000 3c00"
    listed = lines((0, 2), (1000, 1))
    at_once = Options(reorder=1, at_once=True)
    police = Options({0: "A:1"}, port=1, reorder=1)
    back = PL + at(500) + at(3)
    return [
        Row("back, --reorder 0", BACK, ACCEPT, "TimeBack 2", held(0), listed=ARRIVAL),
        Row("back, --reorder 1", BACK, TOLD, "", held(1), listed=listed, summary="lines 2 .."),
        Row("back, no option", BACK, TOLD, "", listed=listed, skipped=".. claimed 2 .."),
        Row("back, --reorder 1, --line-buffered", BACK, TOLD, "", at_once, listed=listed),
        Row("held at a fault", more, "V 2 A accept / V 1 A accept", "Ended 2", listed=listed),
        Row(
            "police: back",
            back,
            "V 2 A accept / V 1 A drop over-rate",
            options=police,
            rule="1 64 500",
        ),
    ]


def count_rows() -> list[Row]:
    """How many arrivals in front of a frame are later, and which of them count."""
    same = PL + at(5) + at(5, H2) + at(5)
    mixed, by_number = PL + at(5) + at(3, H2) + at(5, H2) + at(3), lines((0, 2), (0, 1))
    taken, ascending = PL + at(5) + at(6, H2) + at(7) + at(4, H2), lines((0, 1), (1000, 2))
    all_of_it = lines((0, 2), (1000, 1), (2000, 2), (3000, 1))
    before_fault = lines((0, 2), (2000, 1), (2000, 2))
    return [
        edge("equal moments", same, lines((0, 1), (0, 2), (0, 1)), "", held(0)),
        edge("by number", mixed, f"{by_number} / {lines((2000, 1), (2000, 2))}", "", held(2)),
        edge("two later, --reorder 1", mixed, before_fault, "TimeBack 4", held(1)),
        edge("taken ones count", taken, f"{ascending} / {lines((2000, 1))}", "TimeBack 4", held(2)),
        edge("three later, --reorder 3", taken, all_of_it, "", held(3)),
    ]


def skipped_rows() -> list[Row]:
    """Those that are skipped neither count nor go back."""
    between = PL + at(5) + at(7, FOREIGN) + at(8, ROGUE) + at(3, H2)
    remarks = f"# not-afdx 2 / # unknown-sender 3 / {lines((0, 2), (2000, 1))}"
    back = PL + at(5) + at(0, FOREIGN)
    ns = N(ZERO, NS, H1) + N(ONE, "ffff2936", H1) + N(ZERO, "01002a36", H2)
    left, out = f"{ARRIVAL} / # left-out 2 / {lines((1, 2))}", Options({1: "-"}, reorder=0)
    early, later = PL + at(5) + at(1) + at(6, H2), Options(origin=FIRST_NS + 2000, reorder=0)
    shown = f"{lines((3000, 1))} / # before-origin 2 / {lines((4000, 2))}"
    return [
        edge("skipped between two", between, remarks, "", held(1)),
        edge("a skipped one goes back", back, f"{ARRIVAL} / # not-afdx 2", "", held(0)),
        edge("one that is left out goes back", SL + IL9 + IW + ns, left, "", out),
        edge("one before the origin", early, shown, "", later),
    ]


def remark_rows() -> list[Row]:
    """Skipped numbers stand where they are read, arrivals where they are taken."""
    data = PL + at(0) + at(1, FOREIGN) + at(2, H2) + at(3, ROGUE) + at(4) + at(5, NOWHERE)
    one, three, five = lines((0, 1)), lines((2000, 2)), lines((4000, 1))
    two, four, six = "# not-afdx 2", "# unknown-sender 4", "# no-network 6"
    texts = {
        0: [one, two, three, four, five, six],
        1: [two, one, four, three, six, five],
        2: [two, four, one, six, three, five],
        3: [two, four, six, one, three, five],
        100_000: [two, four, six, one, three, five],
    }
    rows = [
        edge(f"remarks, --reorder {most}", data, " / ".join(shown), "", held(most))
        for most, shown in texts.items()
    ]
    whole, cut = " / ".join(texts[3]), f"{two} / {four} / {six} / {one} / {three} / {five}"
    return [
        *rows,
        edge("remarks, no option", data, whole),
        edge("remarks, --line-buffered", data, " / ".join(texts[0]), "", Options(at_once=True)),
        edge("remarks before a fault", data + CUT, cut, "Cut 7"),
    ]


def fault_rows() -> list[Row]:
    """What is held is reported before a fault, in order."""
    begin, shown = PL + at(5) + at(3, H2), lines((0, 2), (2000, 1))
    closed = R("09000000", CLOSED, "40000000 40000000")
    over = R(ZERO, "", f"{low(262_145)} {ZERO}")
    packets = SL + IL9 + IW + N(ZERO, "05002a36", H1) + N(ZERO, "03002a36", H2)
    of_ns = lines((0, 2), (2, 1))
    faults = [
        ("Cut 3", begin + CUT + at(0), shown),
        ("FcsUnclear 3", begin + closed, shown),
        ("BadTime 3", begin + R("40420f00", H1), shown),
        ("TimeBack 3", begin + at(2), shown),
        ("Ended 2", begin + "00" * 15, shown),
        ("Damaged 2", begin + over, shown),
        ("NotEthernet 3", packets + N(ONE, "04002a36", H1), of_ns),
        ("BadVersion 2", packets + SL.replace(ONE, "02000000"), of_ns),
    ]
    return [edge(f"held at {fault}", data, told, fault, held(1)) for fault, data, told in faults]


def late_rows() -> list[Row]:
    """Times beyond the last, when their turn comes."""
    first, second = R(ONE, H1, seconds=LATE), at(0, H2)
    between = PL + at(0) + R(ONE, H1, seconds=LATE) + at(1, H2)
    shown, both = lines((0, 2)), lines((0, 1), (1000, 2))
    return [
        edge("a late one first", PL + first + second, shown, "TimeTooLarge 1"),
        edge("late before a fault", PL + first + second + CUT, shown, "TimeTooLarge 1"),
        edge("late, and another behind it", between, both, "TimeTooLarge 2"),
        edge("late, --reorder 0", PL + first + second, ARRIVAL, "TimeBack 2", held(0)),
        edge("late between, --reorder 0", between, ARRIVAL, "TimeTooLarge 2", held(0)),
    ]


def start_rows() -> list[Row]:
    """Stamps of a frame's start: 5,120 ns for 64 bytes at 100 Mbit/s."""
    two = SL + IL9 + N(ZERO, NS, H1) + N(ZERO, "e8032a36", H2)
    long = PL + R(ZERO, LONG, low(1514) * 2) + at(1, H2)
    sorted_by_ends = f"{lines((0, 2))} / F 115320 A 1 {LONG}"
    return [
        Row(
            "stamps of starts",
            two,
            OF_STARTS,
            options=STARTS,
            listed=lines((5120, 1), (6120, 2)),
        ),
        edge("starts, no origin", two, lines((0, 1), (1000, 2)), "", Options(stamps="start")),
        edge("starts: --stamps end", two, lines((0, 1), (1000, 2)), "", Options(stamps="end")),
        edge("starts: a long frame", long, sorted_by_ends, "", Options(stamps="start")),
        edge(
            "starts: a long frame, --reorder 0",
            long,
            f"F 0 A 1 {LONG}",
            "TimeBack 2",
            Options(stamps="start", reorder=0),
        ),
    ]


def length_rows() -> list[Row]:
    """The length that counts is that with the check sequence; the rate that of the port."""
    says_4 = SL + interface(option(13, "04")) + packet("", CLOSED)
    wrong = SL + IL9.replace("09000100 09", "09000100 06") + packet(option(2, low(0x0100_0000)))
    longer = PL + R(ZERO, H1 + "00" * 1941, low(2001) * 2)
    first = H1 + "00" * 1940
    tries = [
        ("not said", F1, f"F 5120 A 1 {H1}", STARTS),
        ("said", says_4, f"R 5120 A 1 {CLOSED}", STARTS),
        ("--fcs yes", F1, f"R 4800 A 1 {H1}", STARTS._replace(fcs=True)),
        ("--fcs no for what is said", says_4, f"F 5440 A 1 {CLOSED}", STARTS._replace(fcs=False)),
        ("found wrong", wrong, f"B 5120 A 1 {H1}", STARTS),
        ("all bytes of a longer frame", longer, f"R 160400 A 1 {first}", STARTS),
        ("at another port", F1, f"F 5120 A 2 {H1}", STARTS._replace(places={0: "A:2"})),
        ("at no system's port", F1, f"F 0 A 24 {H1}", STARTS._replace(places={0: "A:24"})),
    ]
    return [edge(f"starts: {name}", data, told, "", given) for name, data, told, given in tries]


def start_limits() -> list[Row]:
    """The origin is compared with the moment; the range is that of stamps."""
    last = SL + interface(option(9, "09")) + packet(ticks=LATEST - 5120)
    stamped_last = SL + interface(option(9, "09")) + packet(ticks=LATEST)
    beyond = SL + interface(option(9, "09")) + packet(ticks=LATEST + 1)
    at_end, behind = (STARTS._replace(origin=FIRST_NS + ns) for ns in (5120, 5121))
    latest = STARTS._replace(origin=LATEST)
    return [
        edge("starts: an origin at the end", F1, ARRIVAL, "", at_end),
        edge("starts: an origin behind it", F1, "# before-origin 1", "NoArrival 1", behind),
        edge("starts: the last moment", last, ARRIVAL, "", latest),
        edge("starts: the last moment alone", last, ARRIVAL, "", Options(stamps="start")),
        edge("starts: a moment behind it", stamped_last, f"F 5120 A 1 {H1}", "", latest),
        edge("starts: a stamp behind the last", beyond, "", "BadTime 1", latest),
    ]


def orders() -> list[Row]:
    """All."""
    groups = told_rows() + count_rows() + skipped_rows() + remark_rows() + fault_rows()
    return groups + late_rows() + start_rows() + length_rows() + start_limits()
