"""Lists and recordings of what came to a switch and what left it, spelled out, with what
`conform --senders` must answer of the switch and of the systems that sent; and recordings of what
came alone.

Lines are spelled as in sender_rows.py, what left too; there a frame of side B has the address of
that side. The last line is spelled by its numbers: `2/0/0/0/2` is explained, open, uncertain, left
out, idle, and `2/0/0` is sent, cut, alone.
"""
from __future__ import annotations

import shlex
from typing import NamedTuple

from program import Answer
from recorded_cases import RecordedCase
from recorded_rows import HERE, RecordedRow, X, one, packet
from recording_rows import IL9, SL
from rows import Row
from sender_rows import AFT, FWD, SENDER_CONFIGS, SenderRow, digits

COUNTS = " sent {} cut {} alone {}\n"


def with_systems(answer: Answer, sent: str) -> Answer:
    """An answer of a switch, whose last line has these numbers of systems, too."""
    if not sent:
        return answer
    return answer._replace(out=answer.out[:-1] + COUNTS.format(*sent.split("/")).encode())


class BesideRow(NamedTuple):
    """A row of a switch, and the numbers of systems in its last line."""

    row: Row
    sent: str

    def answer(self) -> Answer:
        """What must be answered."""
        return with_systems(self.row.answer(), self.sent)


class BesideRecorded(NamedTuple):
    """The same of recordings."""

    row: RecordedRow
    sent: str

    def answer(self) -> Answer:
        """What must be answered."""
        return with_systems(self.row.answer(), self.sent)


class AloneRecorded(NamedTuple):
    """A row of senders alone, of which a recording has what came."""

    row: SenderRow
    data: tuple[str, ...]

    def case(self) -> RecordedCase:
        """Its configuration, recordings and words."""
        words = ("--senders", *shlex.split(self.row.options))
        data = tuple(map(bytes.fromhex, self.data))
        return RecordedCase(SENDER_CONFIGS[self.row.config], data, words)


BOTH, BOTH_LEFT = "0 00 / 0 00 B", "F 6720 A 3 G1 / F 6720 B 3 G1"
OF_AFT = "F 0 A 2 G2 / F 0 B 2 G2 / F 0 A 20 H1"
OF_AFT_LEFT = "F 6720 A 3 G2 / F 6720 A 20 G2 / F 6720 B 3 G2 / F 6720 B 20 G2"
OF_FWD_LEFT = "F 6720 A 24 G1 / F 6720 B 24 G1"
BESIDE_ROWS = (
    BesideRow(Row("both are right", "--senders", BOTH, BOTH_LEFT, "", "2/0/0/0/2"), "2/0/0"),
    BesideRow(Row("systems before the switch, by moment", "--senders --until 17001",
                  "0 01 / 0 01 B", "F 6720 B 3 G1(01) / F 17001 A 3 G1(01)",
                  "number 1 A 1 0 / number 2 B 1 0 / late 1 A 3 1", "1/0/0/0/2"), "0/0/0"),
    BesideRow(Row("what came by a cable has no sender here", f"--senders {AFT}", OF_AFT,
                  OF_AFT_LEFT, "", "4/1/0/0/2", config="two"), "2/0/0"),
    BesideRow(Row("the switch before systems, by moment", "--senders --until 200000000", "0 00",
                  "", "stopped 1 A 3 / single 1 A 1", "0/0/0/0/3"), "0/0/0"),
    BesideRow(Row("at one port systems first", "--senders", "0 01", "F 0 A 1 G2 / F 0 A 1 G1",
                  "number 1 A 1 0 / strange 1 A 1 not-its-port / strange 2 A 1 not-its-port",
                  "0/1/0/0/4"), "0/1/0"),
    BesideRow(Row("at one moment by side", "--senders", "0 01 B", "F 0 A 2 G1",
                  "strange 1 A 2 not-its-port / number 1 B 1 0", "0/1/0/0/4"), "0/1/0"),
    BesideRow(Row("at one moment by port", "--senders", "F 0 A 2 G2(01)",
                  "F 0 A 1 G2 / F 0 A 4 G2",
                  "strange 1 A 1 not-its-port / number 1 A 2 0 / strange 2 A 4 not-its-port",
                  "0/1/0/0/4"), "0/1/0"),
    BesideRow(Row("several of one frame stand together", "--senders", "0 00 / 0 02", "F 0 A 1 G2",
                  "number 2 A 1 1 / soon 2 A 1 500000 / strange 1 A 1 not-its-port", "0/1/0/0/4"),
              "1/2/0"),
    BesideRow(Row("nothing is shown of the switch", "--senders", BOTH, "", "", "0/2/0/0/4"),
              "2/0/0"),
    BesideRow(Row("a stream is idle, and that matters", "--senders --exercised", BOTH, BOTH_LEFT,
                  "", "2/0/0/0/2"), "2/0/0"),
    BesideRow(Row("left out of both", "--senders --leave-out 1", "0 09", "F 6720 A 3 G1", "",
                  "0/0/0/2/4"), "0/0/0"),
    BesideRow(Row("a system alone is wrong", "--senders", "F 0 A 1 G1+>20=20",
                  "F 6720 A 3 G1+>20=20", "unlawful 1 A 1 bad-ip-header", "1/0/0/0/3"), "0/1/0"),
    BesideRow(Row("a distance that is given", "--senders --apart 5", "0 00 / 6 00 B",
                  "F 6720 A 3 G1 / F 6726 B 3 G1", "apart 2 B 1 1", "2/0/0/0/2"), "1/0/0"),
    BesideRow(Row("too far apart", "--senders --apart 100000001", "0 00", "", "", "",
                  "words BadNumber"), ""),
    BesideRow(Row("a bad line of what left", "--senders", "0 01", "F 5 A 3 G1(01) / F 0 A",
                  "number 1 A 1 0", "", "list left BadLine 2"), ""),
    BesideRow(Row("a bad line of what came", "--senders", "0 01 / F 5 A", "F 6720 A 3 G1(01)", "",
                  "", "list came BadLine 2"), ""),
    BesideRow(Row("a switch of several and its systems", f"--senders {FWD} --until 1000000", BOTH,
                  OF_FWD_LEFT, "", "2/0/0/0/2", config="two"), "2/0/0"),
    BesideRow(Row("a cascade without a switch", "--senders", BOTH, BOTH_LEFT, "", "",
                  "words NoSuchSwitch", "two"), ""),
)

G1_HEX = digits("G1", "A")
ONE_OF_BOTH = one((0, 0, G1_HEX), (1, 6720, G1_HEX))
LATE_OF_BOTH = one((1, 17001, digits("G1(01)", "A")), (0, 0, digits("G1(01)", "A")))
APART = (SL + IL9 + packet(0, 0, G1_HEX), SL + IL9 + packet(0, 6720, G1_HEX))
BESIDE_RECORDED = (
    BesideRecorded(RecordedRow("one recording of both", ONE_OF_BOTH, "", "1/0/0/0/0",
                               options=f"--senders {HERE}"), "1/0/2"),
    BesideRecorded(RecordedRow("of both, late and with a number", LATE_OF_BOTH,
                               "number 2 A 1 0 / late 2 A 3 1", "0/0/0/0/0",
                               options=f"--senders {HERE}"), "0/0/2"),
    BesideRecorded(RecordedRow("two recordings", APART, "", "1/0/0/0/0",
                               options="--senders --interface 0=A:1 --left 0=A:3"), "1/0/2"),
    BesideRecorded(RecordedRow("a place of several switches", ONE_OF_BOTH, "", "",
                               "words BadInterface",
                               options="--senders --interface '0=A fwd:1' --left 1=A:3"), ""),
    BesideRecorded(RecordedRow("no interface of what came", ONE_OF_BOTH, "", "",
                               "words BadInterface", options="--senders --left 1=A:3"), ""),
)

G1_OF_B, ON_A = digits("G1", "B"), "--interface 0=A:1"
ON_BOTH = f"{ON_A} --interface 1=B:1"
BOTH_SENT = one((0, 0, G1_HEX), (1, 100, G1_OF_B))
ALONE_RECORDED = (
    AloneRecorded(SenderRow("both networks", ON_BOTH, "", "", "2/0/1"), BOTH_SENT),
    AloneRecorded(SenderRow("one network, with what is no frame", ON_A, "", "", "1/0/2"),
                  one((0, 0, G1_HEX), (0, 5, X))),
    AloneRecorded(SenderRow("each says its sender", "--interface 0=A --interface 1=B", "", "",
                            "2/0/0"), BOTH_SENT),
    AloneRecorded(SenderRow("further apart, by a slow stamp", f"{ON_BOTH} --apart 99", "",
                            "apart 2 B 1 1", "1/0/1"), BOTH_SENT),
    AloneRecorded(SenderRow("plugged crosswise", "--interface 0=B:1 --interface 1=A:1", "",
                            "unlawful 1 B 1 not-its-address / unlawful 2 A 1 not-its-address",
                            "0/0/1"), BOTH_SENT),
    AloneRecorded(SenderRow("a switch of two", f"--switch fwd {ON_BOTH}", "", "", "2/0/0",
                            config="two"), BOTH_SENT),
    AloneRecorded(SenderRow("a switch of two, without a port", "--switch fwd --interface 0=A", "",
                            "", "", "words BadInterface", "two"), BOTH_SENT),
    AloneRecorded(SenderRow("stamps, and no interface", "--stamps end", "", "", "",
                            "words BadInterface"), BOTH_SENT),
    AloneRecorded(SenderRow("an interface twice", "--interface 0=A:1 --interface 0=B:1", "", "",
                            "", "words BadInterface"), BOTH_SENT),
    AloneRecorded(SenderRow("an interface that isn't there", f"{ON_A} --interface 7=B:1", "", "",
                            "", "recording Absent 7"), BOTH_SENT),
    AloneRecorded(SenderRow("times that go back", f"{ON_A} --reorder 0", "", "", "",
                            "recording TimeBack 2"), one((0, 100, G1_HEX), (0, 0, G1_HEX))),
    AloneRecorded(SenderRow("nothing came", ON_A, "", "", "", "recording NoArrival 1"),
                  one((1, 0, G1_HEX))),
)
