"""Lists of what came to a switch and what left it, spelled out, with what `conform` must answer.

A row's lines are spelled with ` / ` between them. H1 is the frame of link 1 of docs/FORMATS.md
whose last byte is 00, H1(q) one whose last byte is q, H1(q, L) one with zero bytes before q, of L
bytes with its check sequence; H2 is the frame of link 2, H9 is H1 under link 9, X is no frame of
any link. A bare number is the time of H1, at link 1's input port in what came, at s3's port in what
left. The last line is spelled by its numbers: `1/0/0/0` is explained, open, uncertain, left out;
a fifth is how many streams are idle, where that isn't all but one that was shown.
"""
from __future__ import annotations

import re
from typing import NamedTuple

import tables as made
from cascade import cascade_text
from program import Answer

HEADS = {
    "1": "030000000001020000000120080045000021000000000111cdea0a000101e0e00001"
    "03e803e8000d000068656c6c6f000000000000000000000000",
    "2": "030000000002020000000220080045000021000000000111cce90a000201e0e00002"
    "07d007d0000d0000776f726c64000000000000000000000000",
}
HEADS["9"] = HEADS["1"][:10] + "09" + HEADS["1"][12:]
HEADS["3"] = HEADS["2"][:10] + "03" + HEADS["2"][12:]
# by a fault's first word
STATUSES = {"words": 2, "config": 1, "admit": 1, "list": 3, "recording": 3, "": 0}
NO_LINK = "ff" * 6 + "00" * 54
STREAMS = 4  # of the base tables: two links, of one output port each, on both sides
# a line of a frame that is of no stream
OF_NONE = re.compile("not-its-port|bad-address|unknown-link|strange .* too-short")
BARE = {"came": "F {} A 1 H1", "left": "F {} A 3 H1"}


def digits(name: str) -> str:
    """The digits of a frame with such a name."""
    if name == "X":
        return NO_LINK
    match = re.fullmatch(r"H([129])(?:\(([0-9a-f]{2})(?:,([0-9]+))?\))?", name)
    if match is None:
        return name
    head, number, length = match[1], match[2] or "00", int(match[3] or 64)
    return HEADS[head] + "00" * (length - 64) + number


def list_of(text: str, which: str) -> bytes:
    """The list that is spelled so."""
    lines = []
    for line in text.split(" / ") if text else ():
        words = (BARE[which].format(line) if line.isdigit() else line).split(" ")
        lines.append(" ".join([*words[:-1], digits(words[-1])]) + "\n")
    return "".join(lines).encode()


def answer_of(
    text: str, counts: str, err: str, unseen: int = 0, is_exercised: bool = False
) -> Answer:
    """What is answered with these lines, these numbers of the last line, and this fault. Of the
    streams that were recorded all are idle but one, if a frame is explained or a line is a
    stream's, where no fifth number says another count."""
    lines = [f"{line}\n" for line in text.split(" / ") if line]
    status = STATUSES[err.partition(" ")[0]]
    if counts:
        found = sum(not line.startswith("unsure") for line in lines)
        explained, opened, uncertain, left_out, *more = counts.split("/")
        is_shown = explained != "0" or any(not OF_NONE.search(line) for line in lines)
        idle = int(more[0]) if more else STREAMS - unseen - is_shown
        verdict, status = "conforms", 0
        if found:
            verdict, status = f"deviates {found}", 5
        elif len(lines) > found or explained == "0" or (is_exercised and idle):
            verdict, status = "undecided", 3
        last = f"{verdict} explained {explained} open {opened} uncertain {uncertain}"
        lines.append(f"{last} left-out {left_out} unseen {unseen} idle {idle}\n")
    return Answer(status, "".join(lines).encode(), f"{err}\n".encode() if err else b"")


class Row(NamedTuple):
    """Options, lists, and what is answered: the lines, the last line's numbers, empty where it
    doesn't come, and what stands on standard error."""

    name: str
    options: str
    came: str
    left: str
    lines: str
    counts: str
    err: str = ""
    config: str = "base"

    def words(self) -> tuple[str, ...]:
        """The words of the options."""
        return tuple(self.options.split())

    def answer(self) -> Answer:
        """What must be answered."""
        return answer_of(self.lines, self.counts, self.err,
                         is_exercised="--exercised" in self.words())


def long_tables() -> dict:
    """The base tables with long frames of link 1, policed by bytes."""
    tables = made.base_tables()
    tables["link"][0] |= {"lmax": 1518, "policing": "byte", "latency_us": 2000}
    return tables


def two_tables() -> dict:
    """Two switches, k1 and k2: link 1 comes to k1 over their cable."""
    tables = made.base_tables()
    systems, links = tables["system"], tables["link"]
    onward = links[0] | {"from": "k2", "jitter_us": 7000}
    first = tables | {"name": "k1", "system": systems[2:], "link": [onward], "port": []}
    first["neighbour"] = [{"name": "k2", "port": 1, "rate": 100}]
    to_first = [link | {"to": ["k1"]} for link in links]
    second = tables | {"name": "k2", "system": systems[:2], "link": to_first, "port": []}
    second["neighbour"] = [{"name": "k1", "port": 3, "rate": 100}]
    return {"switch": [first, second]}


def third_tables() -> dict:
    """The base tables with a link 3 from s2 to s1."""
    tables = made.base_tables()
    third = tables["link"][1] | {"vl": 3, "to": ["s1"]}
    return tables | {"link": [*tables["link"], third]}


def rated_tables() -> dict:
    """The base tables in profile 2, where s1 sends at 1 Gbit/s and s3 gets at 10 Mbit/s."""
    tables = made.base_tables(2)
    for system, rate in zip(tables["system"], (1000, 100, 10)):
        system["rate"] = rate
    return tables


CONFIGS = {
    "base": made.text_of(made.base_tables()),
    "third": made.text_of(third_tables()),
    "rates": made.text_of(rated_tables()),
    "long": made.text_of(long_tables()),
    "two": cascade_text(two_tables()),
    "faulty": b"profile = 1\n",
    "no toml": b"=",
}

BOTH, LONG = "F 0 A 1 H1 / F 0 A 2 H2", "F 0 A 1 H1(00,1518) / F 0 A 1 H1(00,749) / 54617 / 110000"
LONG_LEFT = "F 123040 A 3 H1(00,1518) / F 184560 A 3 H1(00,749) / 191280"
TURNED = "F 6720 A 3 H1(01) / F 13440 A 3 H1"
STEADY, SHORT, EDGE = "--drift 1000", "--drift 1000 --until 600000", "--asked 1 --until 600000"
APART = "--between 20000 --until 60000"
AFTER_5, ASKED_5 = "--from 5 --until 2000000", "--asked 2 --from 5 --until 2000000"
MANY = " / ".join(1_024 * ["1"]) + " / F 7000 A 3 H2"
RATE_2, STOPPED_1, STOPPED_2 = "passed 2 A 3 over-rate", "stopped 1 A 3", "stopped 2 A 3"

# ---- one switch, one after the other ------------------------------------------------------------

FIRST_ROWS = (
    Row("nothing has left yet", "", "0", "", "", "0/1/0/0"),
    Row("a frame after the end", "--until 17000", "0", "17001", STOPPED_1, "0/0/0/0"),
    Row("two, of which one is over-rate", "", "0 / 20000", "6720", "", "1/0/0/0"),
    Row("two, and nothing left", "", "0 / 20000", "", STOPPED_1, "0/0/0/0"),
    Row("a nanosecond late", "", "0", "17001", "late 1 A 3 1", "0/0/0/0"),
    Row("late by both slacks", "--slack 1 --until 30000", "0", "17002", "", "1/0/0/0"),
    Row("over twice the latency", "", "0", "34001", f"{STOPPED_1} / strange 1 A 3 no-arrival",
        "0/0/0/0"),
    Row("a nanosecond early", "", "0", "5759", "early 1 A 3 1", "0/0/0/0"),
    Row("at once", "", "0", "0", "early 1 A 3 5760", "0/0/0/0"),
    Row("an account too large", "", "0 / 499999", "6720 / 506719", RATE_2, "1/0/0/0"),
    Row("an account too small", "--slack 1 --until 600000", "0 / 500002", "6720", STOPPED_2,
        "1/0/0/0"),
    Row("another system's port", "", "0", "F 6720 A 2 H1", "strange 1 A 2 not-its-port",
        "0/1/0/0"),
    Row("a damaged frame passed", "", "B 0 A 1 H1", "B 6720 A 3 H1", "passed 1 A 3 bad-fcs",
        "0/0/0/0"),
    Row("a frame twice", "", "0", "6720 / 13440", "strange 2 A 3 out-of-turn", "1/0/0/0"),
    Row("two frames in the other order", "--until 5000000", "F 0 A 1 H1 / F 0 A 1 H1(01)", TURNED,
        f"{STOPPED_1} / strange 2 A 3 out-of-turn", "1/0/0/0", config="long"),
    Row("frames of no stream", "", "0", "F 6720 A 3 H1 / R 6720 A 3 0300 / F 6720 B 4 H9",
        "strange 2 A 3 too-short / strange 3 B 4 unknown-link", "1/0/0/0"),
    Row("charges by bytes, with slack", "--slack 1 --until 3000000", LONG, LONG_LEFT, "", "3/0/2/0",
        config="long"),
    Row("charges by bytes", "--until 3000000", LONG, LONG_LEFT, "stopped 4 A 3", "3/0/0/0",
        config="long"),
    Row("a frame that is cut off", "--slack 4000", "F 0 A 2 H2", "1000", "", "0/2/0/0"),
    Row("a bad line", "", "F 0 A 1 H1 / F 0 A", "40000", "", "", "list came BadLine 2"),
    Row("times that go back", "", "F 0 A 1 H1 / F 100000 A 2 H2", "200000 / 1",
        f"{STOPPED_1} / {STOPPED_2}", "", "list left TimeBack 2"),
    Row("late by the drift", STEADY, "0", "17017", "", "1/0/0/0"),
    Row("late by more than the drift", STEADY, "0", "17018", "late 1 A 3 1", "0/0/0/0"),
    Row("sooner by the drift", STEADY, "0 / 499501", "6720 / 506221", "", "2/0/1/0"),
    Row("sooner by more than the drift", STEADY, "0 / 499500", "6720 / 506220", RATE_2, "1/0/0/0"),
    Row("stopped within the drift", SHORT, "0 / 500500", "6720", "", "1/0/1/0"),
    Row("stopped beyond the drift", SHORT, "0 / 500501", "6720", STOPPED_2, "1/0/0/0"),
    Row("what passed had room", "--slack 1000 --until 2000000", "0 / 498000 / 1500000",
        "6720 / 504720", "stopped 3 A 3", "2/0/1/0"),
)
LATER_ROWS = (
    Row("begun before the begin", "--from 0", "", "16999", "", "1/0/0/0"),
    Row("too late to be begun", "--from 0", "", "17000", "strange 1 A 3 no-arrival", "0/0/0/0"),
    Row("an account that isn't known", AFTER_5, "0 / 1000004", "", "", "0/0/1/0"),
    Row("an account that is full", AFTER_5, "0 / 1000005", "", STOPPED_2, "0/0/0/0"),
    Row("what was stopped had no room", "--from 0", "F 0 A 1 H1 / F 0 A 1 H1(01)",
        "F 17000 A 3 H1(01)", RATE_2, "0/0/1/0"),
    Row("time inside", "--inner 60000", "0", "77000", "", "1/0/0/0"),
    Row("links that are left out", "--leave-out 9 --leave-out 2", BOTH,
        "F 6720 A 3 H1 / F 6720 B 4 H9", "", "1/0/0/2"),
    Row("too many states", "--from 0 --until 30000", BOTH, MANY, "unsure 1 A 3", "1/0/1/0/2"),
    Row("what is of no link left out", "--leave-out other", "0", "F 6720 A 3 H1 / F 20000 A 3 X",
        "", "1/0/0/1"),
    Row("what is of no link", "", "0", "F 6720 A 3 H1 / F 20000 A 3 X",
        "strange 2 A 3 bad-address", "1/0/0/0"),
    Row("sooner, asked later", "--asked 1", "0 / 499999", "6720 / 506719", "", "2/0/1/0"),
    Row("sooner than asked", "--asked 1", "0 / 499998", "6720 / 506718", RATE_2, "1/0/0/0"),
    Row("stopped, asked sooner", EDGE, "0 / 500000", "6720", "", "1/0/1/0"),
    Row("stopped beyond that", EDGE, "0 / 500001", "6720", STOPPED_2, "1/0/0/0"),
    Row("late whenever asked", "--asked 1", "0", "17001", "late 1 A 3 1", "0/0/0/0"),
    Row("an unknown account, asked later", ASKED_5, "0 / 1000006", "", "", "0/0/1/0"),
    Row("a full account, asked later", ASKED_5, "0 / 1000007", "", STOPPED_2, "0/0/0/0"),
    Row("late by recorders that are apart", APART, "0", "37000", "", "1/0/0/0"),
    Row("late by more than these", APART, "0", "37001", "late 1 A 3 20001", "0/0/0/0"),
    Row("sooner by recorders that are apart", "--between 1000 --until 600000", "0 / 499999",
        "6720 / 506720", RATE_2, "1/0/0/0"),
)

# ---- beside these: what else a program may get wrong ---------------------------------------------

UNKNOWN = "--from 0 --until 2000000"
# H1 with its check sequence, and with each bit of that inverted
SEALED, DAMAGED = (HEADS["1"] + "00" + sequence for sequence in ("95178b51", "6ae874ae"))
SIDES_CAME, SIDES_LEFT = "F 0 B 1 H1 / F 0 A 1 H1", "F 34000 B 3 H9 / F 34000 A 2 H1"
EACH = "F 0 A 1 H1 / F 0 A 2 H2 / F 0 B 1 H1 / F 0 B 2 H2"
EACH_LEFT = "F 6720 A 3 H1 / F 6720 B 3 H1 / F 13440 A 3 H2 / F 13440 B 3 H2"
MORE_ROWS = (
    Row("open by four slacks", "--slack 1 --until 17003", "0", "", "", "0/1/0/0"),
    Row("open no longer", "--slack 1 --until 17004", "0", "", STOPPED_1, "0/0/0/0"),
    Row("cut off by two slacks", "--slack 1 --until 12000", "0", "11999", "", "0/2/0/0"),
    Row("early by recorders that are apart", "--between 5760 --until 60000", "0", "0", "",
        "1/0/0/0"),
    Row("early by more than these", "--between 5759 --until 60000", "0", "0",
        "early 1 A 3 5760", "0/0/0/0"),
    Row("early by both", "--slack 10 --between 5740 --until 60000", "0", "0", "", "1/0/0/0"),
    Row("open by recorders that are apart", "--between 20000 --until 56999", "0", "", "",
        "0/1/0/0"),
    Row("open no longer, apart", "--between 20000 --until 57000", "0", "", STOPPED_1, "0/0/0/0"),
    Row("cut off by recorders that are apart", "--between 20000 --until 30000", "0", "10001", "",
        "0/2/0/0"),
    Row("cut off no longer, apart", "--between 20000 --until 30000", "0", "10000", "", "1/0/0/0"),
    Row("apart, and what had to leave", "--between 1000 --until 600000", "0 / 500000", "6720",
        STOPPED_2, "1/0/0/0"),
    Row("left before the begin, apart", "--between 20 --from 100 --until 100", "", "79 / 80", "",
        "1/0/0/0"),
    Row("came before the begin, apart", "--between 20 --from 100 --until 100", "99 / 100", "", "",
        "0/0/1/0"),
    Row("begun before the begin, apart", "--between 20 --from 0 --until 40000", "", "17019", "",
        "1/0/0/0"),
    Row("too late to be begun, apart", "--between 20 --from 0 --until 40000", "", "17020",
        "strange 1 A 3 no-arrival", "0/0/0/0"),
    Row("early by the drift", STEADY, "0", "5755", "", "1/0/0/0"),
    Row("early by more than the drift", STEADY, "0", "5754", "early 1 A 3 1", "0/0/0/0"),
    Row("two that wrongly passed", "", "0 / 1 / 2", "6720 / 6721 / 6722",
        f"{RATE_2} / passed 3 A 3 over-rate", "1/0/0/0"),
    Row("one that wrongly passed, twice", "", "0 / 1", "6720 / 6721 / 6722",
        f"{RATE_2} / strange 3 A 3 out-of-turn", "1/0/0/0"),
    Row("left before the begin", "--slack 10 --from 100 --until 100", "", "79 / 80", "",
        "1/0/0/0"),
    Row("left before the begin by exact times", "--from 100", "", "99", "", "0/0/0/0"),
    Row("came before the begin", "--slack 10 --from 100 --until 100", "99 / 100", "", "",
        "0/0/1/0"),
    Row("either of two, and the second passed", UNKNOWN, "0 / 10000 / 1000000", "16000", "",
        "1/0/2/0"),
    Row("either of two, and the first passed", UNKNOWN, "0 / 10000 / 995000", "16000 / 1001720",
        "", "2/0/3/0"),
    Row("all orders at one moment", "", SIDES_CAME, SIDES_LEFT,
        "strange 2 A 2 not-its-port / stopped 2 A 3 / strange 1 B 3 unknown-link / stopped 1 B 3",
        "0/0/0/0/2"),
    Row("links in the file's order", "--until 42000", "F 0 A 2 H2 / F 8000 A 1 H1", "",
        f"{STOPPED_2} / {STOPPED_1}", "0/0/0/0/2"),
    Row("a wrong port, passed", "", "F 0 A 2 H1", "6720", "passed 1 A 3 wrong-port", "0/0/0/0"),
    Row("a short frame, passed", "", "R 0 A 1 030000000001", "R 6720 A 3 030000000001",
        "passed 1 A 3 too-short", "0/0/0/0"),
    Row("a damaged frame of nothing", "", "0", "F 6720 A 3 H1 / B 6720 A 3 H1",
        "strange 2 A 3 bad-fcs", "1/0/0/0"),
    Row("bytes that are said whole", "", f"R 0 A 1 {SEALED}", "6720", "", "1/0/0/0"),
    Row("bytes that are said whole, left", "", "0", f"R 6720 A 3 {SEALED}", "", "1/0/0/0"),
    Row("damaged, and said whole", "", "B 0 A 1 H1", f"R 6720 A 3 {DAMAGED}",
        "passed 1 A 3 bad-fcs", "0/0/0/0"),
    Row("damaged as it left, and said whole", "--until 40000", "0", f"R 6720 A 3 {DAMAGED}",
        "strange 1 A 3 bad-fcs / stopped 1 A 3", "0/0/0/0"),
    Row("nothing at all", "", "", "", "", "0/0/0/0"),
    Row("not all was exercised", "--exercised", "0", "6720", "", "1/0/0/0/3"),
    Row("all was exercised", "--exercised", EACH, EACH_LEFT, "", "4/0/0/0/0"),
    Row("not all was exercised, and one was stopped", "--exercised --until 40000", "0", "",
        STOPPED_1, "0/0/0/0/3"),
    Row("an arrival alone shows nothing", "--until 10000", "0 / F 0 A 2 H2", "6720", "",
        "1/1/0/0/3"),
)

# ---- several switches, words, configurations ---------------------------------------------------

ONE_K1, TWICE = "--switch k1 --until 30000", "0 / 0"
NO_SWITCH = "words NoSuchSwitch"
CASCADE_ROWS = (
    Row("a switch of two", ONE_K1, TWICE, "6720", STOPPED_2, "1/0/0/0/1", config="two"),
    Row("none of two switches", "--until 30000", TWICE, "6720", "", "", NO_SWITCH, "two"),
    Row("a switch that isn't there", "--switch k3", TWICE, "6720", "", "", NO_SWITCH, "two"),
    Row("a switch of a file of one", "--switch k1", TWICE, "6720", "", "", NO_SWITCH),
)
NUMBERS = [("--slack", 10**6), ("--between", 10**8), ("--drift", 1000), ("--inner", 10**6)]
NUMBERS += [("--asked", 10**6)]
NUMBERS += [("--from", 10**15), ("--until", 10**15), ("--leave-out", 65_535)]
FAULT_ROWS = (
    *(Row(f"{name} out of its range", f"{name} {most + 1}", "", "", "", "", "words BadNumber",
          "faulty") for name, most in NUMBERS),
    *(Row(f"the greatest {name}", f"{name} {most}", "", "", "", "0/0/0/0")
      for name, most in NUMBERS),
    Row("no TOML", "--switch k", "x", "", "", "", "config NotToml", "no toml"),
    Row("a faulty configuration", "--switch k", "x", "", "", "", "config Missing top 0 key 2",
        "faulty"),
    Row("no switch before a bad line", "--switch k", "x", "", "", "", NO_SWITCH),
    Row("both lists are bad", "", "x", "y", "", "", "list came BadLine 1"),
    Row("one list is bad at once", "", "0", "# / y", "", "", "list left BadLine 2"),
    Row("a bad line that is read later", "", "0 / 9 / x", "5 / y", "", "", "list left BadLine 2"),
    Row("a bad line that is read sooner", "", "0 / 9 / x", "9 / y", "", "", "list came BadLine 3"),
    Row("a bad line before all is told", "", "0", "34000 / x", "", "", "list left BadLine 2"),
    Row("a bad line behind what is told", "", "0", "34001 / x", STOPPED_1, "",
        "list left BadLine 2"),
    Row("told before what is passed over", "--leave-out 1 --until 21000", "F 0 A 2 H2",
        "6720 / 42000 / 42001 / x", STOPPED_1, "", "list left BadLine 4"),
    Row("not told before its moment", "--leave-out 1 --until 21000", "F 0 A 2 H2",
        "6720 / 42000 / x", "", "", "list left BadLine 3"),
    Row("a time too large", "", "1000000000000001", "", "", "", "list came TimeTooLarge 1"),
)
ROWS = (*FIRST_ROWS, *LATER_ROWS, *MORE_ROWS, *CASCADE_ROWS, *FAULT_ROWS)
