"""Recordings at the edges of what a frame becomes, spelled out, and the list that says the same."""
from __future__ import annotations

from edge_rows import ARRIVAL, CLOSED, RAW, UNCLEAR, block, edge, interface, low, option, packet
from recorded_arrivals import Options
from recording_rows import F1, FIRST_NS, G1, H1, H2, IL, IW, ONE, PL, SL, US, ZERO
from recording_rows import E, R, Row, Z, from_sender

AS_READ = Options(reorder=0)
AT_START = Options(origin=FIRST_NS)
AT_1 = Options({0: "A:1"})
SIDE_B = Options({0: "B"})
AT_A, AT_B, RULE = Options({0: "A"}, port=1), Options({0: "B"}, port=1), "1 64 500"
LEFT_OUT = Options({0: "-"})
LATER = Options(origin=FIRST_NS + 1)
NONE = "NoArrival 1"
CUT = "28000000 3c000000"
ROGUE = from_sender("020000000920")
FOREIGN = "ff" * 6 + H1[12:]


def short(size: int) -> str:
    """The first bytes of H1, in a pcap of their own."""
    return PL + R(ZERO, H1[: 2 * size], low(size) * 2)


def sent_by(address: str) -> str:
    """H1 with another source address, in a pcap of its own."""
    return PL + R(ZERO, from_sender(address))


def place_rows() -> list[Row]:
    """Sides and ports."""
    unknown, at_2, left = "# unknown-sender 1", Options({1: "B:2"}), "# no-network 1"
    of_b, second = from_sender("020000000140"), SL + IL + IL + packet(place=1)
    again = second + SL + IL + IL + packet(place=1, ticks=FIRST_NS // 1000 + 1)
    return [
        edge("5 bytes at a port", short(5), "# not-afdx 1", NONE, AT_1),
        edge("6 bytes at a port", short(6), left, NONE, Options(port=1)),
        edge("6 bytes at a side and port", short(6), f"F 0 A 1 {H1[:12]}", "", AT_1),
        edge("10 bytes", short(10), unknown, NONE),
        edge("11 bytes", short(11), left, NONE),
        edge("11 bytes of a side", short(11), f"F 0 B 1 {H1[:22]}", "", SIDE_B),
        edge("12 bytes", short(12), f"F 0 A 1 {H1[:24]}"),
        edge("no bytes", short(0), "# not-afdx 1", NONE),
        edge("another constant field", sent_by("020001000120"), unknown, NONE),
        edge("a system's low byte", sent_by("020000010120"), unknown, NONE),
        edge("network 40", sent_by("020000000140"), f"F 0 B 1 {of_b}"),
        edge("a side alone", F1, f"F 0 B 1 {H1}", "", SIDE_B),
        edge("port 24", F1, f"F 0 A 24 {H1}", "", Options({0: "A:24"})),
        edge("another interface's place", F1, ARRIVAL, "", Options({1: "B:2", 4095: "-"})),
        edge("a place", second, f"F 0 B 2 {H1}", "", at_2),
        edge("in each section", again, f"F 0 B 2 {H1} / F 1000 B 2 {H1}", "", at_2),
        edge("police: any sender", PL + R(ZERO, ROGUE), f"F 0 A 7 {ROGUE}", "", Options(port=7)),
        edge("police: a place", F1, f"F 0 A 2 {H1}", "", Options({0: "A:2"}, port=7)),
    ]


def order_rows() -> list[Row]:
    """Which line comes first where several are true."""
    wifi, cut, simple = SL + IW, R(ZERO, FOREIGN[:80], CUT), block(3, "3c000000" + H1)
    snapped = SL + interface(snap=low(40)) + block(3, "3c000000" + H1[:80])
    odd_time, odd_cut = R("40420f00", FOREIGN), R("40420f00", H1[:80], CUT)
    early = R(ZERO, CLOSED, "40000000 40000000", "fff05365")
    nowhere, left = PL + R(ZERO, from_sender("020000000160")), "# left-out 1"
    return [
        edge("left out before NotEthernet", wifi + E(US, H1), left, NONE, LEFT_OUT),
        edge("left out before NoTime", SL + IL + simple, left, NONE, LEFT_OUT),
        edge("NotEthernet before NoTime", wifi + simple, fault="NotEthernet 1"),
        edge("NoTime before Cut", snapped, fault="NoTime 1"),
        edge("BadTime before Cut", PL + odd_cut, fault="BadTime 1"),
        edge("BadTime before not-afdx", PL + odd_time, fault="BadTime 1"),
        edge("Cut before not-afdx", PL + cut, fault="Cut 1"),
        edge("no-network before the origin", nowhere, "# no-network 1", NONE, LATER),
        edge("before the origin, and unclear", PL + early, "# before-origin 1", NONE, AT_START),
        edge("FcsUnclear before TimeBack", F1 + early, ARRIVAL, "FcsUnclear 2", AS_READ),
        edge("Cut before Ended", PL + cut + "00", fault="Cut 1"),
        edge("Ended before NoArrival", PL + R(ZERO, FOREIGN) + "00", "# not-afdx 1", "Ended 1"),
        edge("the first of two faults", PL + odd_time + cut, fault="BadTime 1"),
    ]


def time_rows() -> list[Row]:
    """Moments, the origin, and times."""
    one, late, foreign = PL + R(ZERO, H1), R("02000000", H2), R("09000000", FOREIGN)
    early, before = R(ZERO, H1, seconds="fff05365"), "# before-origin 1"
    shown, early_as_read = f"F 2000 A 2 {H2}", AT_START._replace(reorder=0)
    between = f"{ARRIVAL} / # not-afdx 2 / {shown}"
    second = f"{ARRIVAL} / # before-origin 2 / {shown}"
    least, last = Options(origin=FIRST_NS - 10**15), Options(origin=2**63 - 1)
    return [
        edge("equal times", F1 + R(ZERO, H2), f"{ARRIVAL} / F 0 A 2 {H2}"),
        edge("a skipped frame between", F1 + foreign + late, between, "", AS_READ),
        edge("back", F1 + late + R(ONE, H1), f"{ARRIVAL} / {shown}", "TimeBack 3", AS_READ),
        edge("early", F1 + early + late, second, "", early_as_read),
        edge("the origin later than all", one, before, NONE, LATER),
        edge("the origin a ns before", one, f"F 1 A 1 {H1}", "", Options(origin=FIRST_NS - 1)),
        edge("the origin 1970", one, "", "TimeTooLarge 1", Options(origin=0)),
        edge("the greatest time", one, f"F {10**15} A 1 {H1}", "", least),
        edge("the greatest origin", one, before, NONE, last),
        edge("the first arrival is time 0", PL + foreign + late, f"# not-afdx 1 / F 0 A 2 {H2}"),
    ]


def check_sequence_rows() -> list[Row]:
    """Check sequences, by the words."""
    yes, no = Options(fcs=True), Options(fcs=False)
    wrong, says_4 = option(2, low(0x0100_0000)), SL + interface(option(13, "04"))
    closed = PL + R(ZERO, CLOSED, "40000000 40000000")
    return [
        edge("--fcs yes, frames without", F1, f"R 0 A 1 {H1}", "", yes),
        edge("--fcs no for what is said", says_4 + packet("", CLOSED), f"F 0 A 1 {CLOSED}", "", no),
        edge("--fcs yes, found wrong", SL + IL + packet(wrong, CLOSED), RAW, "", yes),
        edge("--fcs no, found wrong", says_4 + packet(wrong), f"B 0 A 1 {H1}", "", no),
        edge("FcsUnclear in police", closed, "", UNCLEAR, Options(port=1)),
        edge("--fcs yes, 4 bytes fewer", PL + R(ZERO, H1, "3c000000 40000000"), "", "Cut 1", yes),
        edge("--fcs no, 3 bytes fewer", PL + R(ZERO, H1, "3c000000 3f000000"), "", "Cut 1", no),
        edge("--fcs no, 4 bytes more", PL + R(ZERO, H1, "3c000000 38000000"), ARRIVAL, "", no),
    ]


def lost(drops: str, system_drops: str) -> str:
    """Statistics of the first interface."""
    return Z(ZERO, drops, system_drops)


def claim_rows() -> list[Row]:
    """Arrivals whose side or port is taken from their bytes, and those whose address names another
    side."""
    second, of_none, b_1 = F1 + R(ONE, H2), sent_by("020000000160"), Options({0: "B:1"})
    tries = [
        ("both", second, Options(), 2, 0, ""),
        ("their ports", second, SIDE_B, 2, 2, ""),
        ("neither", second, AT_1, 0, 0, ""),
        ("police: their sides", second, Options(port=1), 2, 0, RULE),
        ("police: neither", second, AT_A, 0, 0, RULE),
        ("police: of A at B", second, AT_B, 0, 2, RULE),
        ("of another interface", second, Options({1: "A:1"}), 2, 0, ""),
        ("of A at B's port", second, b_1, 0, 2, ""),
        ("of B at A's port", sent_by("020000000140"), AT_1, 0, 1, ""),
        ("of no network", of_none, b_1, 0, 0, ""),
        ("of 11 bytes", short(11), b_1, 0, 0, ""),
        ("of B, no system's", sent_by("ff00ff00ff40"), AT_1, 0, 1, ""),
    ]
    return [
        Row(
            f"claimed: {name}",
            data,
            "..",
            options=given,
            skipped=f".. claimed {claimed} contradicted {others} unused ..",
            rule=rule,
        )
        for name, data, given, claimed, others, rule in tries
    ]


def unused_rows() -> list[Row]:
    """Interfaces that options name and the recording doesn't have: those of no section."""
    frame, two, three = E(US, H1), SL + IL + IL, SL + IL + IL + IL
    last, at_0_and_2 = Options({4095: "-"}), Options({0: "A:1", 2: "B:1"})
    tries = [
        ("none is named", F1, Options(), 0),
        ("a pcap has interface 0", F1, AT_1, 0),
        ("and no other", F1, Options({0: "A:1", 1: "B", 4095: "-"}), 2),
        ("a pcapng's second", two + frame, Options({1: "-"}), 0),
        ("and its third", two + frame, at_0_and_2, 1),
        ("of a section before", three + frame + SL + IL + frame, at_0_and_2, 0),
        ("of the last section", SL + IL + frame + three, at_0_and_2, 0),
        ("of none of two sections", two + frame + two, at_0_and_2, 1),
        ("described behind the last frame", SL + IL + frame + IL, Options({1: "B"}), 0),
        ("the last of 4,096", SL + IL * 4096 + frame, last, 0),
        ("one more than 4,095", SL + IL * 4095 + frame, last, 1),
        ("a pcapng without interfaces", SL, AT_1, 1),
    ]
    return [
        Row(f"unused: {name}", data, "..", options=given, skipped=f".. unused {count}")
        for name, data, given, count in tries
    ]


def count_rows() -> list[Row]:
    """What the recorder lost."""
    five = block(5, ZERO * 3 + option(5, low(5, 8)))
    seven = block(5, ZERO * 3 + option(7, low(7, 8)))
    most = block(5, ZERO * 3 + option(5, "ff" * 8) + option(7, low(1, 8)))
    received = block(5, ZERO * 3 + option(4, low(99, 8)) + option(5, low(1, 8)))
    short_count = block(5, ZERO * 3 + option(5, low(1)))
    texts = [
        ("each of two counts", five + seven, 12),
        ("the last of each", five + seven + lost("01000000", "02000000"), 3),
        ("two sections", five + SL + IL + seven, 12),
        ("no more than 2^64 - 1", most, 2**64 - 1),
        ("what was received", received, 1),
        ("the first of two options", block(5, ZERO * 3 + option(5, low(3, 8)) * 2), 3),
        ("statistics without options", block(5, ZERO * 3), 0),
    ]
    rows = [
        Row(f"lost: {name}", G1 + data, "..", listed=ARRIVAL, skipped=f".. recorder-lost {n} ..")
        for name, data, n in texts
    ]
    return [*rows, edge("a count of 4 bytes", G1 + short_count, ARRIVAL, "Damaged 1")]


def outcomes() -> list[Row]:
    """All."""
    groups = place_rows() + order_rows() + time_rows() + check_sequence_rows()
    return groups + claim_rows() + unused_rows() + count_rows()
