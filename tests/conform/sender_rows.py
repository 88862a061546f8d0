"""Lists of what came to a switch, spelled out, with what `conform --senders` must answer of the
systems that sent it.

A row's lines are spelled with ` / ` between them. G1 is the frame of link 1 of docs/FORMATS.md with
its line's network in the source address, G1(q) one whose last byte is q, `G1+>AT=HEX` one with
other bytes from place AT on, G1+HEX one with more bytes; G2 is that of link 2. H1, H9 and X are as
in rows.py, and G3 is of a link 3, which the base tables don't have. `T q` is G1(q) at link 1's
input port on A at T, `T q B` on B. The last line is spelled by its numbers: `2/0/0` is sent, cut,
alone; a fourth is how many lines are left out.
"""
from __future__ import annotations

import re
from typing import NamedTuple

import rows as plain
from cascade_rows import THREE, TWO, TWO_TEXT, text_with
from program import Answer
from tables import with_values

NETWORK = {"A": "20", "B": "40"}
NAME = re.compile(r"G([123])(?:\(([0-9a-f]{2})\))?(?:\+>(\d+)=)?\+?([0-9a-f]*)")
BARE = re.compile(r"(\d+) ([0-9a-f]{2})( B)?")
ALL = "explained 0 open 0 uncertain 0 left-out {} unseen {} idle 0 sent {} cut {} alone {}"


def digits(name: str, side: str) -> str:
    """The digits of a frame with such a name, on a side."""
    match = NAME.fullmatch(name)
    if match is None:
        return plain.digits(name)
    link, number, at, more = match.groups()
    text = plain.HEADS[link] + (number or "00")
    text = text[:22] + NETWORK[side] + text[24:]
    if at is None:
        return text + more
    place = 2 * int(at)
    return text[:place] + more + text[place + len(more):]


def list_of(text: str) -> bytes:
    """The list that is spelled so."""
    lines = []
    for line in text.split(" / ") if text else ():
        bare = BARE.fullmatch(line)
        if bare:
            time, number, is_b = bare.groups()
            line = f"F {time} {'B' if is_b else 'A'} 1 G1({number})"
        *words, name = line.split(" ")
        lines.append(" ".join([*words, digits(name, (words[2:3] or ["A"])[0])]) + "\n")
    return "".join(lines).encode()


# two switches, of which aft has a link 3 of its own from s2 to s3
WIDE = {"switch": [TWO["switch"][0], TWO["switch"][1] | {"link": [
    *TWO["switch"][1]["link"],
    with_values(TWO["switch"][1]["link"][1], vl=3, to=["s3"]),
]}]}  # fmt: skip
SLOW: dict[str, object] = {
    "fwd neighbour 1 rate": 10, "mid neighbour 1 rate": 10, "fwd link 1 latency": 50,
    "mid link 1 latency": 50, "aft link 1 latency": 50,
}  # fmt: skip
SENDER_CONFIGS = {
    "base": plain.CONFIGS["base"],
    "two": TWO_TEXT,
    "wide": text_with(WIDE, {}),
    "broken": text_with(TWO, {"aft link 1": None, "aft port 1": None}),
    "three": text_with(THREE, {}),
    "near": text_with(THREE, {"mid link 1 skew": 990}),
    "slow": text_with(THREE, SLOW),
}


class SenderRow(NamedTuple):
    """Options, what came, and what is answered: the lines, the last line's numbers, empty where it
    doesn't come, and what stands on standard error. The configuration is one of SENDER_CONFIGS; so
    many streams of the switch aren't seen."""

    name: str
    options: str
    came: str
    lines: str
    counts: str
    err: str = ""
    config: str = "base"
    unseen: int = plain.STREAMS

    def words(self) -> tuple[str, ...]:
        """The words of the options."""
        return ("--senders", *self.options.split())

    def answer(self) -> Answer:
        """What must be answered of senders alone."""
        lines = [f"{line}\n" for line in self.lines.split(" / ") if line]
        status = plain.STATUSES[self.err.partition(" ")[0]]
        if self.counts:
            sent, cut, alone, *more = self.counts.split("/")
            verdict, status = "conforms", 0
            if lines:
                verdict, status = f"deviates {len(lines)}", 5
            elif sent == "0":
                verdict, status = "undecided", 3
            last = ALL.format(more[0] if more else 0, self.unseen, sent, cut, alone)
            lines.append(f"{verdict} {last}\n")
        err = f"{self.err}\n".encode() if self.err else b""
        return Answer(status, "".join(lines).encode(), err)


def far_apart(count: int, late: int) -> str:
    """A right sender at its full rate, a frame a ms, whose copies on B are so many ms late. The
    recordings end with the last frame on A."""
    lines = [(ms, f"{ms}000000 {after(ms):02x}") for ms in range(count)]
    lines += [(ms, f"{ms}000000 {after(ms - late):02x} B") for ms in range(late, count)]
    return " / ".join(line for _, line in sorted(lines, key=lambda one: one[0]))


def after(steps: int) -> int:
    """The sequence number to which so many steps lead from 0."""
    return (steps - 1) % 255 + 1 if steps else 0


BEGUN, STEADY = "--from 5 --until 3000000", "--drift 1000"
HEADER, FRAGMENT = "G1+>20=20", "G1+>20=20000111adea"
FWD, AFT = "--switch fwd", "--switch aft"
ONE_SWITCH_ROWS = (
    SenderRow("copies are late by 90 ms", "--apart 100000000", far_apart(201, 90), "", "312/90/0"),
    SenderRow("both at one time", "", "0 00 / 0 00 B", "", "2/0/0"),
    SenderRow("the copy may be behind the end", "--until 988759", "0 00", "", "1/1/0"),
    SenderRow("the copy isn't behind the end", "--until 988760", "0 00", "single 1 A 1", "0/0/0"),
    SenderRow("as far apart as the way leaves", "", "0 00 / 988760 00 B", "", "2/0/0"),
    SenderRow("further apart", "", "0 00 / 988761 00 B", "apart 2 B 1 1", "1/0/0"),
    SenderRow("at the last moment", "", "0 00 / 100000000 00 B", "apart 2 B 1 99011240", "1/0/0"),
    SenderRow("behind the hold", "", "0 00 / 100000001 00 B", "single 1 A 1", "1/1/0"),
    SenderRow("a number is left out", "", "0 00 / 0 02", "number 2 A 1 1 / soon 2 A 1 500000",
              "1/2/0"),
    SenderRow("the first number", "", "0 01", "number 1 A 1 0", "0/1/0"),
    SenderRow("1 stands behind 255", "--from 0", "0 ff / 1000000 01", "", "2/2/0"),
    SenderRow("0 doesn't", "--from 0", "0 ff / 1000000 00", "number 2 A 1 1", "1/2/0"),
    SenderRow("too soon", "", "0 00 / 499999 01", "soon 2 A 1 1", "1/2/0"),
    SenderRow("two with one jitter", "", "0 00 / 500000 01 / 1499999 02",
              "soon 3 A 1 1 / single 1 A 1 / single 2 A 1", "0/1/0"),
    SenderRow("too soon isn't charged", "", "0 00 / 1 01 / 500000 02", "soon 2 A 1 499999",
              "2/3/0"),
    SenderRow("sooner by two slacks", "--slack 1", "0 00 / 499998 01", "", "2/2/0"),
    SenderRow("sooner by more", "--slack 1", "0 00 / 499997 01", "soon 2 A 1 1", "1/2/0"),
    SenderRow("sooner by the drift", STEADY, "0 00 / 499501 01", "", "2/2/0"),
    SenderRow("sooner by more than the drift", STEADY, "0 00 / 499500 01", "soon 2 A 1 1",
              "1/2/0"),
    SenderRow("a byte too long", "", "F 0 A 1 G1+00", "unlawful 1 A 1 over-lmax", "0/1/0"),
    SenderRow("the other network's address", "", "F 0 B 1 H1", "unlawful 1 B 1 not-its-address",
              "0/1/0"),
    SenderRow("damaged, so it has no number", "", "B 0 A 1 G1 / 1 00", "unlawful 1 A 1 bad-fcs",
              "1/1/0"),
    SenderRow("a bad header on both", "", f"F 0 A 1 {HEADER} / F 0 B 1 {HEADER}",
              "unlawful 1 A 1 bad-ip-header / unlawful 2 B 1 bad-ip-header", "0/0/0"),
    SenderRow("a fragment", "", f"F 0 A 1 {FRAGMENT}", "unlawful 1 A 1 fragment", "0/1/0"),
    SenderRow("another system's link", "", "F 0 A 2 G1 / F 0 A 2 G2",
              "unlawful 1 A 2 not-its-link", "1/1/0"),
    SenderRow("of no link", "", "F 0 A 1 H9 / R 0 A 1 030000000001",
              "unlawful 1 A 1 unknown-link / unlawful 2 A 1 too-short", "0/0/0"),
    SenderRow("passed over", "", "F 0 A 1 X / F 0 A 5 G1 / 0 00", "", "1/1/0"),
    SenderRow("another letter", "", "0 00 / F 0 B 1 G1+>42=69", "differs 2 B 1", "1/0/0"),
    SenderRow("lives twice", "", "0 00 / F 0 B 1 G1+>22=02",
              "unlawful 2 B 1 bad-ip-header / differs 2 B 1", "1/0/0"),
    SenderRow("no further apart than two slacks", "--apart 0 --slack 1",
              "0 00 / 2 00 B / 1000000 01 / 1000003 01 B", "apart 4 B 1 3", "3/0/0"),
    SenderRow("the copy may be before the begin", BEGUN, "988764 07", "", "1/1/0"),
    SenderRow("the copy isn't before the begin", BEGUN, "988765 07", "single 1 A 1", "0/0/0"),
    SenderRow("the other network began before", "--from 0 --until 3000000", "0 06 B / 10 07",
              "single 2 A 1", "1/1/0"),
    SenderRow("left out", "--leave-out 1", "0 09", "", "0/0/0/1"),
    SenderRow("apart by the drift", STEADY, "0 00 / 989749 00 B", "", "2/0/0"),
    SenderRow("apart by more than the drift", STEADY, "0 00 / 989750 00 B", "apart 2 B 1 1",
              "1/0/0"),
    SenderRow("a bad line", "", "0 00 / F 0 A", "", "", "list came BadLine 2"),
    SenderRow("too far apart", "--apart 100000001", "0 00", "", "", "words BadNumber"),
    # beside these
    SenderRow("the number behind a gap", "", "0 00 / 1000000 02 / 2000000 03", "number 2 A 1 1 / "
              "single 1 A 1 / single 2 A 1", "1/1/0"),
    SenderRow("a late first frame", "--until 700000", "123456 00 / 623456 01", "", "2/2/0"),
    SenderRow("behind the end it isn't looked at", "--until 600000", "123456 00 / 623456 09", "",
              "1/1/0"),
    SenderRow("damaged, and of no link", "", "B 0 A 1 H9 / B 0 A 2 G1",
              "unlawful 1 A 1 bad-fcs / unlawful 2 A 2 bad-fcs", "0/0/0"),
    SenderRow("before the begin it isn't looked at", BEGUN, "4 09 / 5 03 / 1000005 04",
              "single 3 A 1", "1/1/0"),
    SenderRow("both networks, A first", "", "0 01 B / 0 01", "number 2 A 1 0 / number 1 B 1 0",
              "0/0/0"),
    SenderRow("the greatest distance", "--apart 100000000", "0 00 / 100000000 00 B", "", "2/0/0"),
    SenderRow("all of one link", "--leave-out 2", "F 0 A 2 G2 / 0 00", "", "1/1/0/1"),
    SenderRow("of a link that stands nowhere", "", "F 0 A 1 G3", "unlawful 1 A 1 unknown-link",
              "0/0/0"),
)

# ---- a switch of several -------------------------------------------------------------------------

SWITCH_ROWS = (
    SenderRow("what came by a cable has no sender here", AFT,
              "F 0 A 2 G2 / F 0 B 2 G2 / F 0 A 20 H1", "", "2/0/0", config="two", unseen=6),
    SenderRow("nor has what is of no link", FWD, "F 0 A 24 H9 / F 0 A 24 G2 / 0 00", "", "1/1/0",
              config="two"),
    SenderRow("as far apart as a way over two leaves", FWD, "0 00 / 976520 00 B", "", "2/0/0",
              config="two"),
    SenderRow("further apart than that", FWD, "0 00 / 976521 00 B", "apart 2 B 1 1", "1/0/0",
              config="two"),
    SenderRow("by a way over two the copy may be behind the end", f"{FWD} --until 976519", "0 00",
              "", "1/1/0", config="two"),
    SenderRow("by a way over two it isn't behind the end", f"{FWD} --until 976520", "0 00",
              "single 1 A 1", "0/0/0", config="two"),
    SenderRow("of a link that comes by a cable", FWD, "F 0 A 1 G2", "unlawful 1 A 1 not-its-link",
              "0/0/0", config="two"),
    SenderRow("of a link of another switch alone", FWD, "F 0 A 1 G3 / F 0 A 1 H9",
              "unlawful 1 A 1 not-its-link / unlawful 2 A 1 unknown-link", "0/0/0", config="wide"),
    SenderRow("damaged, of a link of another switch", FWD, "B 0 A 1 G3", "unlawful 1 A 1 bad-fcs",
              "0/0/0", config="wide"),
    SenderRow("a way over three", FWD, "0 00 / 984280 00 B / 1000000 01 / 1984281 01 B",
              "apart 4 B 1 1", "3/0/0", config="three", unseen=2),
    SenderRow("a system on the way is nearer", FWD,
              "0 00 / 979520 00 B / 1000000 01 / 1979521 01 B", "apart 4 B 1 1", "3/0/0",
              config="near", unseen=2),
    SenderRow("slow cables", FWD, "0 00 / 919120 00 B / 1000000 01 / 1919121 01 B",
              "apart 4 B 1 1", "3/0/0", config="slow", unseen=2),
    SenderRow("where no system gets the link", FWD, "0 00 / 1 00 B", "apart 2 B 1 1", "1/0/0",
              config="broken"),
    SenderRow("a distance that is given", f"{FWD} --apart 5", "0 00 / 6 00 B", "apart 2 B 1 1",
              "1/0/0", config="two"),
    SenderRow("no system of the switch sends", AFT, "F 0 A 20 G1 / F 0 A 3 G1",
              "unlawful 2 A 3 not-its-link", "0/0/0", config="three", unseen=2),
    SenderRow("no such switch", "--switch mid", "0 00", "", "", "words NoSuchSwitch", "two"),
    SenderRow("a switch of one", FWD, "0 00", "", "", "words NoSuchSwitch"),
    SenderRow("a cascade without a switch", "", "0 00", "", "", "words NoSuchSwitch", "two"),
)

SENDER_ROWS = (*ONE_SWITCH_ROWS, *SWITCH_ROWS)
