"""Lists of what came to several switches from systems and what left to systems, spelled out, with
what `conform` must answer where no switch is named. The switches are those of
examples/two_switches.toml, or three in a row, with changes.

A row's lines and numbers are spelled as in rows.py; a bare number is the time of H1, at fwd's port
1 in what came, at aft's port 3 in what left.
"""
from __future__ import annotations

from typing import NamedTuple

import sender_rows
from cascade_rows import THREE_TEXT, TWO, TWO_TEXT, text_with
from program import Answer
from rows import Row, answer_of, list_of
from small_cases import Pair

BARE = {"came": "F {} A fwd 1 H1", "left": "F {} A aft 3 H1"}
CONFIGS = {
    "two": TWO_TEXT,
    "three": THREE_TEXT,
    "too little jitter": text_with(TWO, {"aft link 1 jitter": 516}),
}
OVER_RATE, DRIFT = "0 / 499999", "--drift 1000 --until 1700000"
BEGUN, SLOWER = "--asked 1 --from 0 --until 2000000", "--drift 1000 --from 0 --until 2000000"
INSIDE, WIDE = "--inner 500 --until 900000", "--inner 500 --from 0 --until 2000000"
AT_TWO, OTHER = "F {} A aft 2 H2", "F {} A {} H1(01)"
IN_A_ROW = "F 13440 A mid 4 H1 / F 20160 A aft 3 H1"


def row(
    name: str, options: str, came: str, left: str, lines: str, counts: str, err: str = "",
    config: str = "two",
) -> Row:  # fmt: skip
    """A row; bare numbers stand at link 1's edges."""
    spelled = {
        which: " / ".join(
            BARE[which].format(line) if line.isdigit() else line for line in text.split(" / ")
        )
        for which, text in (("came", came), ("left", left))
    }
    return Row(name, options, spelled["came"], spelled["left"], lines, counts, err, config)


EDGE_ROWS = [
    row("over a cable", "", "0", "13440", "", "1/0/0/0/5"),
    row("late by both rows", "", "0", "35001", "late 1 A aft 3 1", "0/0/0/0/5"),
    row("in time by both rows", "", "0", "35000", "", "1/0/0/0/5"),
    row("early by both lines", "", "0", "11519", "early 1 A aft 3 1", "0/0/0/0/5"),
    row("soon by both lines", "", "0", "11520", "", "1/0/0/0/5"),
    row("stopped", "--until 35000", "0", "", "stopped 1 A aft 3", "0/0/0/0/5"),
    row("open", "--until 34999", "0", "", "", "0/1/0/0/6"),
    row("where no receiver is", "", "0", "F 6720 A fwd 1 H1",
        "strange 1 A fwd 1 not-its-port", "0/1/0/0/6"),
    row("from another place", "", "F 0 A aft 3 H1", "13440", "passed 1 A aft 3 wrong-port",
        "0/0/0/0/5"),
    row("the first row's jitter", "", OVER_RATE, "13440 / 513439",
        "passed 2 A aft 3 over-rate", "1/0/0/0/5"),
    row("both receivers", "", AT_TWO.format(0), "F 6720 A aft 3 H2 / F 13440 A fwd 1 H2", "",
        "2/0/0/0/4"),
    row("one of two receivers", "--until 43000", AT_TWO.format(0), "F 6720 A aft 3 H2",
        "stopped 1 A fwd 1", "1/0/0/0/4"),
    row("inside of both", "--inner 500", "0", "36000", "", "1/0/0/0/5"),
    row("inside of both, and later", "--inner 500", "0", "36001", "late 1 A aft 3 1", "0/0/0/0/5"),
    row("one of two at the full rate", "--until 900000", "0 / 500000", "13440",
        "stopped 2 A aft 3", "1/0/0/0/5"),
    row("a slower clock behind", DRIFT, "0 / 500500 / 1501501", "13440", "", "1/0/2/0/5"),
    row("a clock that is slow enough", DRIFT, "0 / 500500 / 1501502", "13440",
        "stopped 3 A aft 3", "1/0/1/0/5"),
    row("not admitted", "", "0", "13440", "", "", "admit B3 aft 1 517", "too little jitter"),
    row("a neighbour's port", "", "0", "F 1 A aft 20 H1", "", "", "list left BadPort 1"),
    row("a neighbour's port in what came", "", "F 0 A fwd 24 H1", "", "", "",
        "list came BadPort 1"),
    row("without a switch's name", "", "0", "F 13440 A 3 H1", "", "", "list left BadLine 1"),
    row("from a moment on", "--from 0", "", "34999", "", "1/0/0/0/5"),
    row("from a moment on, and later", "--from 0", "", "35000",
        "strange 1 A aft 3 no-arrival", "0/0/0/0/5"),
    # what the frames before F may have taken up behind the first switch: its latency of 17 us more
    row("begun, of a later account", BEGUN, "1017000", "", "", "0/0/1/0/6"),
    row("begun, of no account", BEGUN, "1017001", "", "stopped 1 A aft 3", "0/0/0/0/5"),
    row("begun, of a later and slower account", SLOWER, "1018019", "", "", "0/0/1/0/6"),
    row("begun, of no slower account", SLOWER, "1018020", "", "stopped 1 A aft 3", "0/0/0/0/5"),
    row("begun, of the one switch alone", SLOWER, AT_TWO.format(1001002), "",
        "stopped 1 A aft 3", "0/0/1/0/5"),
    # what waits inside the first comes too early to the second
    row("inside of the first alone", INSIDE, "0 / 500499", "13440", "", "1/0/1/0/5"),
    row("inside of neither", INSIDE, "0 / 500500", "13440", "stopped 2 A aft 3", "1/0/0/0/5"),
    row("inside of one of two, of both of three", INSIDE, "0 / 600500", IN_A_ROW,
        "stopped 2 A mid 4", "2/0/1/0/2", "", "three"),
    row("no account is more than full", WIDE, "0 / 1017499", "13440", "", "1/0/2/0/5"),
    row("no account is more than full, and later", WIDE, "0 / 1017500", "13440",
        "stopped 2 A aft 3", "1/0/1/0/5"),
    # a frame that the second refused says nothing of the first one's account
    row("refused by the second", WIDE, f"0 / {OTHER.format(0, 'fwd 1')}",
        OTHER.format(36000, "aft 3"), "", "1/0/2/0/5"),
    row("refused by the first", "--from 0", f"0 / {OTHER.format(0, 'fwd 1')}",
        OTHER.format(35000, "aft 3"), "passed 2 A aft 3 over-rate", "0/0/1/0/5"),
    row("in time by three rows", "", "0", "F 20000 A mid 4 H1 / F 33000 A aft 3 H1", "",
        "2/0/0/0/2", "", "three"),
    row("late by three rows", "", "0", "F 20000 A mid 4 H1 / F 33001 A aft 3 H1",
        "late 1 A aft 3 1", "1/0/0/0/2", "", "three"),
    row("early by three lines", "", "0", "F 11520 A mid 4 H1 / F 17279 A aft 3 H1",
        "early 1 A aft 3 1", "1/0/0/0/2", "", "three"),
]


class SenderEdgeRow(NamedTuple):
    """A row with `--senders`: what is answered has `sent` behind the other numbers: sent, cut,
    alone. Without what left the senders alone are judged, of six streams that aren't seen."""

    name: str
    options: str
    came: str
    left: str | None
    lines: str
    counts: str
    sent: str

    def answer(self) -> Answer:
        """What must be answered."""
        is_alone = self.left is None
        found = answer_of(self.lines, self.counts, "", 6 if is_alone else 0)
        sent, cut, alone = self.sent.split("/")
        out = found.out[:-1] + f" sent {sent} cut {cut} alone {alone}\n".encode()
        if is_alone and not self.lines and sent != "0":
            return Answer(0, out.replace(b"undecided", b"conforms"), b"")
        return found._replace(out=out)

    def pair(self) -> tuple[bytes, bytes, bytes | None, tuple[str, ...]]:
        """Its configuration, lists and options."""
        left = None if self.left is None else sender_rows.list_of(self.left)
        words = ("--senders", *self.options.split())
        return CONFIGS["two"], sender_rows.list_of(self.came), left, words


BOTH_SENT = "F 0 A fwd 1 G1 / F {} B fwd 1 G1"
BOTH_LEFT = "F 13440 A aft 3 G1 / F {} B aft 3 G1"
SENDER_EDGE_ROWS = [
    SenderEdgeRow("as far apart as the way leaves them", "", BOTH_SENT.format(976520),
                  BOTH_LEFT.format(989960), "", "2/0/0/0/4", "2/0/0"),
    SenderEdgeRow("further apart", "--until 3000000", BOTH_SENT.format(976521),
                  BOTH_LEFT.format(989961), "apart 2 B fwd 1 1", "2/0/0/0/4", "1/0/0"),
    SenderEdgeRow("another's link", "", "F 0 A fwd 1 G2", "",
                  "unlawful 1 A fwd 1 not-its-link", "0/0/0/0/6", "0/0/0"),
    SenderEdgeRow("its link at another's place", "--until 2000000", "F 0 A aft 2 G1", "",
                  "unlawful 1 A aft 2 not-its-link", "0/0/0/0/6", "0/0/0"),
    SenderEdgeRow("senders alone", "", BOTH_SENT.format(0), None, "", "0/0/0/0/0", "2/0/0"),
    SenderEdgeRow("senders alone, where none stands", "", "F 0 A aft 1 G1", None, "",
                  "0/0/0/0/0", "0/0/0"),
    SenderEdgeRow("senders alone, of two switches", "", "F 0 A aft 2 G1 / F 0 A fwd 1 G2", None,
                  "unlawful 2 A fwd 1 not-its-link / unlawful 1 A aft 2 not-its-link",
                  "0/0/0/0/0", "0/0/0"),
]


def edge_pair(each: Row) -> Pair:
    """A row's configuration, lists and options."""
    came, left = list_of(each.came, "came"), list_of(each.left, "left")
    return Pair(CONFIGS[each.config], came, left, each.words())
