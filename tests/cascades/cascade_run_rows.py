"""Runs of cascades that are spelled out: a configuration, a list, and what `replay` or `send` must
answer. The configurations are those of cascade_rows.py, with changes.

Lines stand with ` / ` between them. In a list H1 is link 1's frame with the message `hello`, H2
that of link 2 with `world`, both with number 0; H1(05) is H1 with number 5.
"""
from __future__ import annotations

import re
from typing import NamedTuple

from cascade import cascade_text, of_one
from cascade_rows import NO_LINK_1_AFT, THREE_TEXT, TWO, TWO_TEXT, Changes, text_with
from frames import HELLO, sealed
from tables import base_tables

H1 = HELLO[:-1].hex()
H2 = "030000000002020000000220080045000021000000000111cce90a000201e0e0000207d007d0000d0000"
H2 += "776f726c64" + 12 * "00"
# what s2 sends of the message `a` on link 2 to UDP port 2000, for side A and for side B
A_OF_S2, B_OF_S2 = (
    sealed(bytes.fromhex(
        f"0300000000020200000002{side}08004500001d000000000111cced0a000201e0e00002"
        f"07d007d00009000061{17 * '00'}"
    )).hex()
    for side in ("20", "40")
)
HELLO_TOLD, WORLD_TOLD = "68656c6c6f", "776f726c64"


class RunRow(NamedTuple):
    """A configuration, the words before it and behind it, a list, and the answer: its status and
    the lines of both streams."""

    name: str
    text: bytes
    words: tuple[str, ...]
    behind: tuple[str, ...]
    given: bytes
    status: int
    out: bytes
    err: bytes


def spelled(lines: str) -> bytes:
    """Lines of a list, with the digits of the frames."""
    lines = re.sub(r"H1(?:\((..)\))?", lambda found: H1 + (found[1] or "00"), lines)
    lines = re.sub(r"H2(?:\((..)\))?", lambda found: H2 + (found[1] or "00"), lines)
    return told(lines)


def told(lines: str) -> bytes:
    """Lines of a stream."""
    lines = lines.replace("hello", HELLO_TOLD).replace("world", WORLD_TOLD)
    return "".join(f"{line}\n" for line in lines.split(" / ") if line).encode()


def row(
    name: str,
    text: bytes,
    given: str,
    out: str,
    err: str = "",
    status: int = 0,
    options: tuple[str, ...] = (),
) -> RunRow:
    """A replay."""
    words = ("replay", *options)
    return RunRow(name, text, words, (), spelled(given), status, told(out), told(err))


def sent(name: str, system: str, given: str, out: str, err: str = "", status: int = 0) -> RunRow:
    """What a system of the two switches sends."""
    return RunRow(name, TWO_TEXT, ("send",), (system,), told(given), status, told(out), told(err))


def two_with(changes: Changes) -> bytes:
    """The two switches with changes."""
    return text_with(TWO, changes)


FREE = ("--no-admission",)
FIRST = "F 0 A fwd 1 H1"
OVER_TWO = (
    "V 1 A fwd accept / D 1 6720 A fwd 24 / V 1 A aft accept / D 1 13440 A aft 3"
    " / M 13440 s3 1 hello"
)
OVER_THREE = (
    "V 1 A fwd accept / D 1 6720 A fwd 24 / V 1 A mid accept / D 1 13440 A mid 4"
    " / M 13440 s4 1 hello / D 1 13440 A mid 24 / V 1 A aft accept / D 1 20160 A aft 3"
    " / M 20160 s3 1 hello"
)
ONE_SIDE_FAILS = (
    "V 1 A fwd accept / V 2 B fwd accept / D 1 6720 A fwd 24 / D 2 6720 B fwd 24"
    " / V 1 A aft accept / V 2 B aft accept / D 1 13440 A aft 3 / M 13440 s3 1 hello"
    " / D 2 13440 B aft 3 / X 13440 s3 2 redundant / V 3 B fwd accept / D 3 1006720 B fwd 24"
    " / V 3 B aft accept / D 3 1013440 B aft 3 / M 1013440 s3 1 hello"
)
CABLE_BEFORE_LIST = (
    "V 1 A fwd accept / D 1 6720 A fwd 24 / V 1 A aft accept / V 2 A aft accept"
    " / D 1 13440 A aft 3 / M 13440 s3 1 hello / D 2 13440 A aft 20 / V 2 A fwd accept"
    " / D 2 20160 A fwd 1 / M 20160 s1 2 world / D 2 20160 A aft 3 / M 20160 s3 2 world"
)
SIDE_BEFORE_SWITCH = (
    "V 1 A aft accept / V 2 B fwd accept / D 1 6720 A aft 3 / M 6720 s3 2 world"
    " / D 1 6720 A aft 20 / D 2 6720 B fwd 24 / V 1 A fwd accept / V 2 B aft accept"
    " / D 1 13440 A fwd 1 / M 13440 s1 2 world / D 2 13440 B aft 3 / M 13440 s3 1 hello"
)
BABBLE = " / ".join([*100 * ["F 0 A aft 3 H1"], *100 * ["F 0 B aft 3 H1"], FIRST])
BABBLED = " / ".join(
    [f"V {n} {'A' if n <= 100 else 'B'} aft drop wrong-port" for n in range(1, 201)]
)
AFTER_BABBLE = (
    " / V 201 A fwd accept / D 201 6720 A fwd 24 / V 201 A aft accept"
    " / V 202 A aft drop wrong-port / D 201 13440 A aft 3 / M 13440 s3 1 hello"
)
SENT_LINES = f"R 6720 A aft 2 {A_OF_S2} / R 6720 B aft 2 {B_OF_S2}"
SENT_TOLD = (
    "V 1 A aft accept / V 2 B aft accept / D 1 13440 A aft 3 / M 13440 s3 2 61"
    " / D 1 13440 A aft 20 / D 2 13440 B aft 3 / X 13440 s3 2 redundant / D 2 13440 B aft 20"
    " / V 1 A fwd accept / V 2 B fwd accept / D 1 20160 A fwd 1 / M 20160 s1 2 61"
    " / D 2 20160 B fwd 1 / X 20160 s1 2 redundant"
)
LOST = (
    "V 1 A fwd accept / D 1 6720 A fwd 24 / V 1 A aft accept / V 2 A aft accept / L 2 A aft 3"
    " / D 1 13440 A aft 3 / M 13440 s3 1 hello / D 2 13440 A aft 20 / V 2 A fwd accept"
    " / D 2 20160 A fwd 1 / M 20160 s1 2 world"
)
TOO_OLD = (
    "V 1 A fwd accept / D 1 6720 A fwd 24 / V 1 A aft accept / V 2 A aft accept"
    " / D 1 13440 A aft 3 / M 13440 s3 1 hello / V 3 B fwd accept / T 2 13440 A aft 3"
    " / D 2 14159 A aft 20 / V 2 A fwd accept / D 3 20160 B fwd 24 / V 3 B aft accept"
    " / D 2 20879 A fwd 1 / M 20879 s1 2 world / D 3 26880 B aft 3 / X 26880 s3 3 redundant"
)
LATEST = (
    "V 1 A fwd accept / D 1 1000000000006720 A fwd 24 / V 1 A aft accept"
    " / D 1 1000000000013440 A aft 3 / M 1000000000013440 s3 1 hello"
)
ALONE = (
    "V 1 A only accept / V 2 A only accept / D 2 6720 A only 3 / M 6720 s3 1 hello"
    " / D 1 13440 A only 3 / M 13440 s3 2 world"
)
EARLY = (
    "V 1 A fwd accept / D 1 506720 A fwd 24 / V 1 A aft accept / D 1 513440 A aft 3"
    " / M 513440 s3 1 hello / V 2 A fwd accept / D 2 1006720 A fwd 24"
    " / V 2 A aft drop over-rate"
)

# the two switches with names that look like a port and a side
ODD_NAMES = TWO_TEXT.replace(b'"fwd"', b'"1"').replace(b'"aft"', b'"A"')
ODDLY_NAMED = OVER_TWO.replace(" fwd ", " 1 ").replace(" aft ", " A ")

REPLAYS = [
    row("over two switches", TWO_TEXT, FIRST, OVER_TWO),
    row("with a jitter of more than a BAG", two_with({"aft link 1 jitter": 101_000}), FIRST,
        OVER_TWO, options=FREE),
    row("over three switches", THREE_TEXT, FIRST, OVER_THREE),
    row("once over two switches, then by one side", TWO_TEXT,
        f"{FIRST} / F 0 B fwd 1 H1 / F 1000000 B fwd 1 H1(01)", ONE_SIDE_FAILS),
    row("what a cable brings before the list", TWO_TEXT, f"{FIRST} / F 6720 A aft 2 H2",
        CABLE_BEFORE_LIST),
    row("side before switch", TWO_TEXT, "F 0 A aft 2 H2 / F 0 B fwd 1 H1", SIDE_BEFORE_SWITCH),
    row("beside a babbler", TWO_TEXT, f"{BABBLE} / F 6720 A aft 24 H1", BABBLED + AFTER_BABBLE),
    row("a list has a cable's port", TWO_TEXT, f"{FIRST} / F 0 A aft 20 H1", "V 1 A fwd accept",
        "list BadPort 2", 3),
    row("a list has another switch", TWO_TEXT, "F 0 A mid 1 H1", "", "list BadLine 1", 3),
    row("a list of one switch", TWO_TEXT, "F 0 A 1 H1", "", "list BadLine 1", 3),
    row("what s2 sends", TWO_TEXT, SENT_LINES, SENT_TOLD),
    row("not admitted", two_with({"aft link 1 jitter": 516}), FIRST, "", "admit B3 aft 1 517",
        1),
    row("a cable to a switch without the link", two_with(NO_LINK_1_AFT), FIRST,
        "V 1 A fwd accept / D 1 6720 A fwd 24 / V 1 A aft drop unknown-link", options=FREE),
    row("a copy is lost", two_with({"aft buffer": 64}), f"{FIRST} / F 6720 A aft 2 H2", LOST,
        options=FREE),
    row("a copy is too old", two_with({"aft profile": 2, "aft link 2 latency": 6}),
        f"{FIRST} / F 7439 A aft 2 H2 / F 13440 B fwd 1 H1", TOO_OLD, options=FREE),
    row("the latest time", TWO_TEXT, "F 1000000000000000 A fwd 1 H1", LATEST),
    row("one switch", cascade_text(of_one(base_tables(), "only")),
        "F 0 A only 2 H2 / F 0 A only 1 H1", ALONE),
    row("switches named as a port and a side", ODD_NAMES, "F 0 A 1 1 H1", ODDLY_NAMED),
    row("the same, with a field too many", ODD_NAMES, "F 0 A 1 1 H1 / F 0 A A 1 1 H1",
        "V 1 A 1 accept", "list BadLine 2", 3),
    row("names in other letters", TWO_TEXT, "F 0 A Fwd 1 H1", "", "list BadLine 1", 3),
    row("too early behind a cable", two_with({"aft link 1 jitter": 0}),
        "F 500000 A fwd 1 H1 / F 1000000 A fwd 1 H1(01)", EARLY, "early 2 A aft 500000",
        options=(*FREE, "--explain-drops")),
]
SENDS = [
    sent("a message of s2", "s2", "0 2 1 2000 61", SENT_LINES),
    sent("a message on another system's link", "s3", "0 2 1 2000 61", "# 1 S1"),
    sent("a switch sends nothing", "aft", "0 2 1 2000 61", "", "words NoSuchSystem", 2),
    sent("nor does one that isn't there", "mid", "0 2 1 2000 61", "", "words NoSuchSystem", 2),
]
