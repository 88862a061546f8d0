"""Recordings of cascades that are spelled out: a configuration, options, one recording or two, and
what `replay` or `list` must answer. The configurations are those of cascade_rows.py, with changes.

Lines stand with ` / ` between them. In lines of lists frames have their names here.
"""
from __future__ import annotations

import re
from typing import NamedTuple

from cascade import cascade_text, of_one
from cascade_rows import TWO_TEXT, Changes
from cascade_run_rows import ODD_NAMES, told, two_with
from edge_rows import CLOSED, low
from recorded_arrivals import Options
from recorded_pair import PairOptions
from recording_rows import BACK, F1, FIRST_NS, H1, H2, IL, PL, SL, US, E, R, from_sender
from tables import base_tables

FREE, DROPS, SUMMARY = "--no-admission", "--explain-drops", "--summary"


class TappedRow(NamedTuple):
    """A configuration, a command and its words beside the options of recordings, one recording or
    two, in hexadecimal, and the answer: its status and the lines of both streams."""

    name: str
    text: bytes
    words: tuple[str, ...]
    options: Options | PairOptions
    given: tuple[str, ...]
    out: str
    err: str = ""
    status: int = 0


def shown(lines: str) -> bytes:
    """Lines of a stream, with the digits of the frames."""
    frames = {"H1": H1, "H2": H2, "CLOSED": CLOSED, "ROGUE": ROGUE, "ZERO_SENDER": ZERO_SENDER}
    return told(re.sub("|".join(frames), lambda found: frames[found[0]], lines))


def each_ms(*frames: str) -> str:
    """A pcap in us, whose first frame is at 0 and each next one a ms later."""
    return PL + "".join(R(low(1000 * place), frame) for place, frame in enumerate(frames))


def at(*frames: tuple[int, str]) -> str:
    """A pcap in us, of frames at these us."""
    return PL + "".join(R(low(us), frame) for us, frame in frames)


def at_interfaces(*frames: tuple[int, int, str]) -> str:
    """A pcapng in us with two interfaces: the interface, us, and frame of each."""
    first = int.from_bytes(bytes.fromhex(US), "little")
    packets = (E(low(first + us), frame).split(" ", 3) for _, us, frame in frames)
    placed = (
        f"{kind} {size} {low(frame[0])} {rest}"
        for frame, (kind, size, _, rest) in zip(frames, packets)
    )
    return SL + IL + IL + "".join(placed)


def pair_of(*words: str) -> PairOptions:
    """Options that say where interfaces of two recordings are."""
    return PairOptions(words)


ROGUE = from_sender("020000000920")  # of no system
NOWHERE = from_sender("020000000160")  # of no network
ZERO_SENDER = from_sender("020000000020")  # its sender has the number 0
LONGEST = "ForwardAvionics1"  # a name of 16 letters and digits
SECOND = H1[:-2] + "01"  # link 1's frame with the next number
BOTH = each_ms(H1, H2)
NO_OPTION = Options()
OVER_TWO = (
    "V 1 A fwd accept / D 1 6720 A fwd 24 / V 1 A aft accept / D 1 13440 A aft 3"
    " / M 13440 s3 1 hello"
)
WORLD = (
    " / V 3 A aft accept / D 3 26720 A aft 3 / M 26720 s3 2 world / D 3 26720 A aft 20"
    " / V 3 A fwd accept / D 3 33440 A fwd 1 / M 33440 s1 2 world"
)
TWO_TAPS = at_interfaces((0, 0, H1), (1, 7, H1), (1, 20, H2))
MIRRORED = (
    "skipped no-frame 0 left-out 0 not-afdx 0 unknown-sender 1 no-network 0 before-origin 0"
    " recorder-lost 0 claimed 2 contradicted 0 unused 0"
)
TAPPED = (
    "skipped no-frame 0 left-out 0 not-afdx 0 unknown-sender 0 no-network 0 before-origin 0"
    " recorder-lost 0 claimed 0 contradicted 0 unused 0"
)
CROSSED = TAPPED.replace("contradicted 0", "contradicted 1")
LISTED = "F 0 A fwd 1 H1 / F 1000000 A aft 2 H2"
STARTS = Options(origin=FIRST_NS, stamps="start")
# s1 has a slow line, and s2 the same port of the other switch
SLOW: Changes = {"fwd system 1 rate": 10, "aft system 1 port": 1}
NO_JITTER: Changes = {"aft link 1 jitter": 0}
SHORT_JITTER: Changes = {"aft link 1 jitter": 516}


def row(
    name: str,
    given: str | tuple[str, str],
    out: str,
    err: str = "",
    options: Options | PairOptions = NO_OPTION,
    words: tuple[str, ...] = ("replay",),
    text: bytes = TWO_TEXT,
) -> TappedRow:
    """A run over the two switches. A recording's fault has the status 3."""
    data = (given,) if isinstance(given, str) else given
    status = 3 if err.startswith("recording ") else 0
    return TappedRow(name, text, words, options, data, out, err, status)


def listed(
    name: str,
    given: str | tuple[str, str],
    out: str,
    err: str = "",
    options: Options | PairOptions = NO_OPTION,
    text: bytes = TWO_TEXT,
) -> TappedRow:
    """What `list` writes."""
    return row(name, given, out, err, options, ("list",), text)


def place_rows() -> list[TappedRow]:
    """What each PLACE says."""
    at_fwd, at_aft, at_port = (Options({0: place}) for place in ("A fwd", "A aft", "B fwd:1"))
    in_order, remark = at_fwd._replace(reorder=0), "# unknown-sender 2"
    of_a, only = Options({0: "A"}), cascade_text(of_one(base_tables(), "only"))
    return [
        listed("no PLACE", BOTH, LISTED),
        listed("a side", each_ms(H1, NOWHERE), "F 0 A fwd 1 H1 / F 1000000 A fwd 1 " + NOWHERE,
               options=of_a),
        listed("one switch", BOTH, f"F 0 A fwd 1 H1 / {remark}", options=in_order),
        listed("one switch, as it is read", BOTH, f"{remark} / F 0 A fwd 1 H1", options=at_fwd),
        listed("the other switch", BOTH, "# unknown-sender 1 / F 0 A aft 2 H2", options=at_aft),
        listed("a port of it", BOTH, "F 0 B fwd 1 H1 / F 1000000 B fwd 1 H2", options=at_port),
        listed("a sender of no switch", each_ms(ROGUE, H1), "# unknown-sender 1 / F 0 A fwd 1 H1"),
        listed("at a port", each_ms(ROGUE), "F 0 A aft 3 ROGUE", options=Options({0: "A aft:03"})),
        listed("no network at a switch", each_ms(NOWHERE), f"F 0 B fwd 1 {NOWHERE}",
               options=Options({0: "B fwd"})),
        listed("no network", each_ms(H1, NOWHERE), "# no-network 2 / F 0 A fwd 1 H1"),
        listed("left out", TWO_TAPS, "F 0 A fwd 1 H1 / # left-out 2 / # left-out 3",
               options=Options({1: "-"}, reorder=0)),
        listed("with a check sequence", F1.replace("3c000000", "40000000") + CLOSED[-8:],
               "R 0 A fwd 1 CLOSED", options=Options({0: "A fwd"}, fcs=True)),
        listed("one switch alone", BOTH, "F 0 A only 1 H1 / F 1000000 A only 2 H2", text=only),
        listed("its port", BOTH, "F 0 A only 2 H1 / F 1000000 A only 2 H2",
               options=Options({0: "A only:2"}), text=only),
    ]


def name_rows() -> list[TappedRow]:
    """Numbers of systems, and names of switches. A neighbour has no number."""
    to_fwd, no_number = Options({0: "A fwd"}), each_ms(ZERO_SENDER)
    long = TWO_TEXT.replace(b'"fwd"', b'"%s"' % LONGEST.encode())
    skipped = "# unknown-sender 1", "recording NoArrival 1"
    of_s1 = two_with({"fwd system 1 id": 0})
    return [
        listed("the number 0, of no system", no_number, *skipped),
        listed("the number 0, of none of the switch", no_number, *skipped, to_fwd),
        listed("the number 0, of s1", no_number, "F 0 A fwd 1 ZERO_SENDER", text=of_s1),
        listed("a switch named as a port", BOTH, "# unknown-sender 2 / F 0 A 1 1 H1",
               options=Options({0: "A 1"}), text=ODD_NAMES),
        listed("a port of such a switch", F1, "F 0 B 1 2 H1", options=Options({0: "B 1:2"}),
               text=ODD_NAMES),
        listed("a switch named as a side", F1, "F 0 B A 1 H1", options=Options({0: "B A:1"}),
               text=ODD_NAMES),
        listed("a name of 16 letters", F1, f"F 0 A {LONGEST} 1 H1",
               options=Options({0: f"A {LONGEST}:1"}), text=long),
    ]


def run_rows() -> list[TappedRow]:
    """What a run makes of one recording."""
    mirrors, taps = Options({0: "A fwd", 1: "A aft"}), Options({0: "A fwd:1", 1: "A aft:2"})
    twice, again = at((0, H1), (7, H1)), "V 2 A fwd drop over-rate"
    told_again = OVER_TWO.replace(" / D 1 13440", f" / {again} / D 1 13440")
    counts = "summary lines 3 accepted 4 dropped 0 lost 0 departed 5 too-old 0 delivered 3"
    at_taps = "summary lines 3 accepted 4 dropped 1 lost 0 departed 5 too-old 0 delivered 3"
    late = told_again.replace(again, "V 2 A aft drop wrong-port")
    early = "V 1 A fwd accept / D 1 506720 A fwd 24 / V 1 A aft accept / D 1 513440 A aft 3"
    early += " / M 513440 s3 1 hello / V 2 A fwd accept / D 2 1006720 A fwd 24"
    early += " / V 2 A aft drop over-rate"
    return [
        row("over two switches", F1, OVER_TWO),
        row("seen again at the next switch", twice, told_again, "early 2 A fwd 493000",
            words=("replay", DROPS)),
        row("a mirror of each switch", TWO_TAPS, OVER_TWO + WORLD, f"{counts} / {MIRRORED}",
            mirrors, ("replay", SUMMARY)),
        row("a tap that gets more", TWO_TAPS, late + WORLD, f"{at_taps} / {TAPPED}", taps,
            ("replay", SUMMARY)),
        row("crossed", F1, OVER_TWO.replace(" A ", " B "), "summary lines 1 accepted 2 dropped 0"
            f" lost 0 departed 2 too-old 0 delivered 1 / {CROSSED}", Options({0: "B fwd:1"}),
            ("replay", SUMMARY)),
        row("counts of a list", F1, "F 0 B fwd 1 H1", CROSSED, Options({0: "B fwd:1"}),
            ("list", SUMMARY)),
        row("no system's port", F1, "V 1 A fwd drop wrong-port", options=Options({0: "A fwd:7"})),
        row("too early behind a cable", at((500, H1), (1000, SECOND)), early,
            "early 2 A aft 500000", Options(origin=FIRST_NS), ("replay", FREE, DROPS),
            two_with(NO_JITTER)),
    ]


def order_rows() -> list[TappedRow]:
    """Frames out of order, and stamps of a frame's start."""
    slow, both = two_with(SLOW), Options({0: "A fwd:1", 1: "A aft:1"}, None, FIRST_NS)
    starts, begins = both._replace(stamps="start"), at_interfaces((0, 0, H1), (1, 7, H2))
    ends = "F 12120 A aft 1 H2 / F 51200 A fwd 1 H1"
    back = "F 0 A aft 2 H2 / F 1000 A fwd 1 H1"
    return [
        listed("back", BACK, back),
        listed("back by one", BACK, back, options=Options(reorder=1)),
        row("back, --line-buffered", BACK, "V 1 A fwd accept", "recording TimeBack 2",
            Options(at_once=True)),
        listed("starts", BOTH, "F 5120 A fwd 1 H1 / F 1005120 A aft 2 H2", options=STARTS),
        listed("starts at one port of two switches", begins, ends, options=starts, text=slow),
        listed("ends there", begins, "F 0 A fwd 1 H1 / F 7000 A aft 1 H2", options=both, text=slow),
        listed("starts, --reorder 0", begins, "F 51200 A fwd 1 H1", "recording TimeBack 2",
               starts._replace(reorder=0), slow),
        listed("starts by the sender's port", begins, ends, options=STARTS, text=slow),
        listed("starts at no system's port", F1, "F 0 A fwd 7 H1",
               options=STARTS._replace(places={0: "A fwd:7"})),
    ]


def fault_rows() -> list[TappedRow]:
    """What stands before a fault."""
    piece, late = "00" * 10, "40336365"  # of a head; the seconds 1,000,000 s later
    before = "V 1 A fwd accept / D 1 6720 A fwd 24 / V 1 A aft accept / V 2 A aft accept"
    two, a_list = at((0, H1), (7, H2)), b"F 0 A fwd 1 -\n".hex()
    tight = two_with(SHORT_JITTER)
    return [
        row("the end within a frame", F1 + piece, "V 1 A fwd accept", "recording Ended 1"),
        row("what a cable brings before it", two + piece, before, "recording Ended 2"),
        row("a time beyond 10^15", F1 + R("01000000", H1, seconds=late), "V 1 A fwd accept",
            "recording TimeTooLarge 2"),
        row("no arrival at that switch", F1, "", "recording NoArrival 1", Options({0: "A aft"})),
        row("a list where one asks for a recording", a_list, "", "recording NotRecording 0",
            Options({0: "A fwd"})),
        listed("a list", a_list, "", "recording NotRecording 0"),
        row("packed", "1f8b0800", "", "recording Packed"),
        row("no number", PL, ""),
        TappedRow("not admitted", tight, ("replay",), NO_OPTION, (F1,), "", "admit B3 aft 1 517",
                  1),
        row("--no-admission", F1, OVER_TWO, words=("replay", FREE), text=tight),
        listed("a list, not admitted", F1, "F 0 A fwd 1 H1", text=tight),
    ]


def pair_rows() -> list[TappedRow]:
    """Two recordings at once."""
    told_both = (
        "V 1 A fwd accept / V 1 B fwd accept / D 1 6720 A fwd 24 / D 1 6720 B fwd 24"
        " / V 1 A aft accept / V 1 B aft accept / D 1 13440 A aft 3 / M 13440 s3 1 hello"
        " / D 1 13440 B aft 3 / X 13440 s3 1 redundant"
    )
    counts = "summary lines 2 accepted 4 dropped 0 lost 0 departed 4 too-old 0 delivered 1"
    claimed = CROSSED.replace("claimed 0", "claimed 2")
    taps, mirrors = pair_of("0=A fwd:1", "0=B aft:2"), pair_of("0=B aft", "0=A fwd", "1=B fwd")
    mirrors = mirrors._replace(reorder=0)
    of_taps = "F 0 A fwd 1 H1 / F 0 B aft 2 H1 / F 1000000 A fwd 1 H2 / F 1000000 B aft 2 H2"
    one, other = "F 0 A fwd 1 H1", "F 1000000 B aft 2 H2"
    seen = at_interfaces((0, 1000, H2), (1, 1000, H2), (1, 1007, H1))
    a_list = b"F 0 A fwd 1 -\n".hex()
    return [
        row("two recordings", (F1, F1), told_both, f"{counts} / {claimed}", pair_of(),
            ("replay", SUMMARY)),
        listed("two: no PLACE", (BOTH, BOTH), "F 0 A fwd 1 H1 / F 0 B fwd 1 H1"
               " / F 1000000 A aft 2 H2 / F 1000000 B aft 2 H2", options=pair_of()),
        listed("two: a port of each", (BOTH, BOTH), of_taps, options=taps),
        listed("two: a switch of each", (F1, seen), f"{one} / {other} / # unknown-sender 2"
               " / F 1007000 B fwd 1 H1", options=mirrors),
        listed("two: left out of both", (BOTH, TWO_TAPS), "# unknown-sender 1 / # left-out 2"
               " / # left-out 3", "recording NoArrival 3 B", pair_of("0=B aft", "1=-")),
        row("two: a list", (F1, a_list), "", "recording NotRecording 0 B", pair_of()),
        row("two: one ends within a frame", (at((0, H1), (7, H2)), at((7, H1)) + "00"),
            "V 1 A fwd accept / D 1 6720 A fwd 24 / V 1 A aft accept / V 2 A aft accept"
            " / V 1 B fwd accept", "recording Ended 1 B", pair_of()),
    ]


ROWS = [*place_rows(), *name_rows(), *run_rows(), *order_rows(), *fault_rows(), *pair_rows()]
