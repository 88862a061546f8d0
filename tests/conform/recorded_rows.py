"""Recordings for `conform` that are spelled out byte by byte, with what must be answered.

One recording has all that came in and left, two have it apart. Where nothing else is said
interface 0 is at link 1's input port and interface 1 at s3's port, both on side A. The frames are
those of tests/conform/rows.py, and a row's last line is spelled as there. Of the four streams of
the base tables one was recorded.
"""
from __future__ import annotations

import shlex
from typing import NamedTuple

from edge_rows import low
from program import Answer
from recorded_arrivals import SKIPS
from recorded_list import COUNTS
from recording_rows import FCS, H1, H2, IL9, IW, PB, PL, SL, ZERO, R, Z
from recording_rows import packet_ns
from rows import NO_LINK, answer_of

FIRST = int.from_bytes(bytes.fromhex("00002a36"), "little")  # the low word of 1,700,000,000 s in ns
TWO = SL + IL9 + IL9
HERE = "--interface 0=A:1 --left 1=A:3"
SEALED = f"00000040 00000040 {H1} {FCS}"
X = NO_LINK


def packet(interface: int, time: int, frame: str) -> str:
    """A frame of 60 bytes at so many ns."""
    return packet_ns(low(interface), low(FIRST + time), frame)


class RecordedRow(NamedTuple):
    """Options, one recording or two in hexadecimal, and what is answered; `skipped` has the numbers
    of the lines of `--summary`."""

    name: str
    data: tuple[str, ...]
    lines: str
    counts: str
    err: str = ""
    options: str = HERE
    unseen: int = 3
    skipped: str = ""
    config: str = "base"

    def words(self) -> tuple[str, ...]:
        """The words of the options."""
        return tuple(shlex.split(self.options))

    def inputs(self) -> tuple[bytes, ...]:
        """The recordings."""
        return tuple(map(bytes.fromhex, self.data))

    def answer(self) -> Answer:
        """What must be answered."""
        answer = answer_of(self.lines, self.counts, self.err, self.unseen,
                           "--exercised" in self.words())
        return answer._replace(out=answer.out + skipped_lines(self.skipped))


def skipped_lines(numbers: str) -> bytes:
    """The lines of what was skipped, with these numbers; ` / ` stands between them."""
    lines = []
    for each in filter(None, numbers.split(" / ")):
        counts = zip([*SKIPS, *COUNTS], each.split("/"), strict=True)
        lines.append(" ".join(["skipped", *(f"{word} {count}" for word, count in counts)]) + "\n")
    return "".join(lines).encode()


def one(*frames: tuple[int, int, str], more: str = "") -> tuple[str]:
    """One recording of frames, each at an interface and a time."""
    return (TWO + "".join(packet(*frame) for frame in frames) + more,)


CAME, RIGHT = (0, 0, H1), one((0, 0, H1), (1, 6720, H1))
BACK = one((1, 17001, H1), CAME)
ALL_OF_A = "--interface 0=A --left 0=A:3"
TWICE = f"{PB} 6553f100 00000000 {SEALED} 6553f100 0007a11f {SEALED}"
LOSSY = one(CAME, (1, 17001, H1), (0, 90000, H1), more=Z("01000000", low(37), ZERO))
ODD = (TWO + IW + packet(0, 0, H1) + packet(0, 0, X) + packet(2, 0, H1) + packet(1, 6720, H1)
       + packet(1, 20000, X),)
BAD = "words BadInterface"

PAPER_ROWS = (
    RecordedRow("a frame came and left", RIGHT, "", "1/0/0/0"),
    RecordedRow("nothing is said to have left", RIGHT, "", "", BAD, "--interface 0=A:1"),
    RecordedRow("out of order", BACK, "late 2 A 3 1", "0/0/0/0"),
    RecordedRow("out of order, in the order of numbers", BACK, "", "", "recording TimeBack 2",
                f"{HERE} --reorder 0"),
    RecordedRow("two recordings, all of a side", (TWICE, SL + IL9 + packet(0, 6720, H1)), "",
                "1/0/0/0", "", ALL_OF_A, 2),
    RecordedRow("the second one breaks off", (PL + R(ZERO, H1), PL + R(low(7), H1) + "00" * 10),
                "", "", "recording Ended 1 left", ALL_OF_A),
    RecordedRow("other frames and interfaces", ODD, "strange 5 A 3 bad-address", "1/0/0/0"),
    RecordedRow("stamps of starts", one(CAME, (1, 5760, H1)), "", "1/0/0/0", "",
                f"{HERE} --stamps start"),
    RecordedRow("frames that the recorder lost", LOSSY, "late 1 A 3 1", "", "recording Lossy 37"),
    RecordedRow("frames that may be lost", LOSSY, "late 1 A 3 1", "0/0/0/0", "", f"{HERE} --lossy"),
    RecordedRow("a sender that wasn't recorded",
                one(CAME, (1, 6720, H1), (1, 13440, H2)), "", "1/0/0/1"),
    RecordedRow("a port that isn't the link's", RIGHT, "strange 2 A 2 not-its-port", "0/0/0/0", "",
                "--interface 0=A:1 --left 1=A:2", 4),
    RecordedRow("from the last bit to the first", one(CAME, (1, 640, H1)), "", "1/0/0/0", "",
                f"{HERE} --stamps end-start"),
    RecordedRow("from the last bit to the first, early", one(CAME, (1, 639, H1)),
                "early 1 A 3 1", "0/0/0/0", "", f"{HERE} --stamps end-start"),
    RecordedRow("from the first bit to the last", one(CAME, (1, 22120, H1)), "", "1/0/0/0", "",
                f"{HERE} --stamps start-end"),
    RecordedRow("from the first bit to the last, late", one(CAME, (1, 22121, H1)),
                "late 1 A 3 1", "0/0/0/0", "", f"{HERE} --stamps start-end"),
)

# ---- beside these: what else a program may get wrong ---------------------------------------------

SAME, FOREIGN = "--interface 0=A:1 --left 0=A:3", R("f4010000", X)
PAIR = (PL + R(ZERO, H1), PL + R(low(7), H1))  # the second in us
UNKNOWN = PL + R(ZERO, H1[:12] + "020000000920" + H1[24:])
MORE_ROWS = (
    RecordedRow("an interface twice in one recording", RIGHT, "", "", BAD,
                "--interface 0=A:1 --left 0=A:3"),
    RecordedRow("an interface twice in what came", PAIR, "", "", BAD,
                "--interface 0=A:1 --interface 0=B:1 --left 0=A:3"),
    RecordedRow("an interface that left without a port", RIGHT, "", "", BAD,
                "--interface 0=A:1 --left 1=A"),
    RecordedRow("an interface that is left out", RIGHT, "", "", BAD,
                "--interface 0=A:1 --left 1=A:3 --interface 2=-"),
    RecordedRow("an interface of another form", RIGHT, "", "", BAD,
                "--interface 0=A:1 --left 1=A:3 --interface 2=A:"),
    RecordedRow("no input port of a switch", RIGHT, "", "", BAD,
                "--switch k1 --interface 0=A --left 1=A:3"),
    RecordedRow("port 25", RIGHT, "", "", BAD, "--interface 0=A:1 --left 1=A:25"),
    RecordedRow("wrong interfaces before wrong numbers", RIGHT, "", "", BAD,
                "--interface 0=A:1 --slack 1000001"),
    RecordedRow("too many to be put in order", RIGHT, "", "", "words BadNumber",
                f"{HERE} --reorder 100001"),
    RecordedRow("the same interface of two recordings", PAIR, "", "1/0/0/0", "", SAME),
    RecordedRow("no recording", (b"F 0 A 1 -\n".hex(), PAIR[1]), "", "",
                "recording NotRecording 0 came", SAME),
    RecordedRow("a second one that is none", (PAIR[0], b"F 0 A 1 -\n".hex()), "", "",
                "recording NotRecording 0 left", SAME),
    RecordedRow("nothing came", (PL + FOREIGN, PAIR[1]), "", "", "recording NoArrival 1 came",
                SAME),
    RecordedRow("an unknown sender", (UNKNOWN, PAIR[1]), "", "", "recording NoArrival 1 came",
                ALL_OF_A),
    RecordedRow("an unknown sender at a port", (UNKNOWN, PAIR[1]),
                "strange 1 A 3 no-arrival / stopped 1 A 3", "0/0/0/0", "", f"{SAME} --until 60000"),
    RecordedRow("what isn't AFDX left", (PAIR[0], PAIR[1] + FOREIGN), "strange 2 A 3 bad-address",
                "1/0/0/0", "", SAME),
    RecordedRow("what isn't AFDX is left out", (PAIR[0], PAIR[1] + FOREIGN), "", "1/0/0/1", "",
                f"{SAME} --leave-out other"),
    RecordedRow("at one moment what came first", (PL + R(ZERO, H1), PL + R(ZERO, H1)),
                "early 1 A 3 5760", "0/0/0/0", "", SAME),
    RecordedRow("a time too large, of what left",
                (PAIR[0], PL + R(ZERO, H1, seconds="40336365") + R(low(1), H1, seconds="40336365")),
                "stopped 1 A 3", "", "recording TimeTooLarge 2 left", SAME),
)
RECORDED_ROWS = (*PAPER_ROWS, *MORE_ROWS)
