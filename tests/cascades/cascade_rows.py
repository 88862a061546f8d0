"""Cascades that are spelled out, each with what `check` must answer: two switches, which are those
of examples/two_switches.toml, and three, each with changes."""
from __future__ import annotations

import copy
import tomllib
from typing import NamedTuple

from cascade import cascade_text
from tables import KEYS, cable_of, example, port_of, switch_of, system_of, with_values

TWO_TEXT = example("two_switches.toml")
TWO = tomllib.loads(TWO_TEXT.decode())
PICTURE = b"""\
# On each side three switches in a row; link 1 goes from the first to systems at both others.
#
#     s1 --1 [fwd] 24 -- 20 [mid] 24 -- 20 [aft] 3-- s3
#                       s4 --4

"""


def three_switches() -> dict:
    """These three."""
    fwd, mid, aft = (
        with_values(TWO["switch"][0]["link"][0], sender=sender, to=to, jitter=jitter, latency=11)
        for sender, to, jitter in (
            ("s1", ["mid"], 400), ("fwd", ["s4", "aft"], 411), ("mid", ["s3"], 422),
        )
    )  # fmt: skip
    of_mid, of_aft = [port_of("s4", 1)], [port_of("s3", 1)]
    cables = [cable_of("fwd", 20), cable_of("aft", 24)]
    return {"switch": [
        switch_of("fwd", [system_of(1)], [cable_of("mid", 24)], [fwd], None, buffer=252),
        switch_of("mid", [system_of(4)], cables, [mid], of_mid, buffer=252),
        switch_of("aft", [system_of(3)], [cable_of("mid", 20)], [aft], of_aft, buffer=252),
    ]}  # fmt: skip


THREE_TEXT = PICTURE + cascade_text(three_switches())
THREE = tomllib.loads(THREE_TEXT.decode())

Changes = dict[str, object]


class Row(NamedTuple):
    """A configuration, the options of `check`, and the end of what it writes: its last lines."""

    name: str
    text: bytes
    options: tuple[str, ...]
    lines: str


class FaultRow(NamedTuple):
    """A configuration and its fault, behind `config`."""

    name: str
    text: bytes
    fault: str


def changed(cascade: dict, changes: Changes) -> dict:
    """The cascade with changes: `aft link 1 jitter` is that key, by the words of tables.py, of the
    first link of the switch aft, `aft link 1` the whole row, `aft buffer` a key of the switch; None
    takes it away."""
    cascade = copy.deepcopy(cascade)
    switches = {switch["name"]: switch for switch in cascade["switch"]}
    for path, value in changes.items():
        name, *way, last = path.split(" ")
        row, last = switches[name], KEYS.get(last, last)
        if way:
            row = row[way[0]]
        if len(way) == 2:
            row = row[int(way[1]) - 1]
        if isinstance(row, list):
            row[int(last) - 1] = value
        elif value is None:
            del row[last]
        else:
            row[last] = value
    for switch in switches.values():
        for part, rows in switch.items():
            if isinstance(rows, list):
                switch[part] = [row for row in rows if row is not None]
    return cascade


def text_with(cascade: dict, changes: Changes) -> bytes:
    """The configuration of the cascade with these changes."""
    return cascade_text(changed(cascade, changes))


def renamed(switch: str, old: str, new: str, /, **changes: object) -> bytes:
    """The two switches, in one of which a name is another wherever it stands; then with changes."""

    def in_row(row: dict) -> dict:
        return {key: in_value(value) for key, value in row.items()}

    def in_value(value: object) -> object:
        if isinstance(value, list):
            return [in_value(one) for one in value]
        if isinstance(value, dict):
            return in_row(value)
        return new if value == old else value

    switches = [in_row(sw) if sw["name"] == switch else sw for sw in TWO["switch"]]
    switches = [sw | changes if sw["name"] == switch else sw for sw in switches]
    return cascade_text({"switch": switches})


def before(line: bytes) -> bytes:
    """The two switches, with a line at the top of the file."""
    return line + b"\n" + TWO_TEXT


TWO_BOUNDS = """\
S fwd
P 1 6720 10222 128
P 24 10080 10149 126
S aft
P 2 0 0 0
P 3 16915 20412 254
P 20 6720 10080 126
E 1 s3 35000
E 2 s1 42000
E 2 s3 21000
"""
THREE_BOUNDS = """\
S fwd
P 1 0 0 0
P 24 9408 9472 118
S mid
P 4 9482 9547 119
P 20 0 0 0
P 24 9482 9547 119
S aft
P 3 9556 9621 120
P 20 0 0 0
E 1 s4 22000
E 1 s3 33000
"""
TWO_LEFT = "apart 1 976520\napart 2 969520\n"  # what their links leave the copies of frames

TWO_MARGINS = """\
S fwd
P 1 6720 10222 128
m 1 2 10222 21000
P 24 10080 10149 126
m 24 1 10080 17000
S aft
P 2 0 0 0
P 3 16915 20412 254
m 3 1 16915 18000
m 3 2 20412 21000
P 20 6720 10080 126
m 20 2 10080 21000
E 1 s3 35000
E 2 s1 42000
E 2 s3 21000
"""
SLOW_CABLE: Changes = {
    "fwd neighbour 1 rate": 10,
    "fwd buffer": 2000,
    "fwd link 1 bag": 128,
    "fwd link 1 lmax": 1518,
    "fwd link 1 latency": 1235,
    "fwd link 1 skew": 1235,
    "mid neighbour 1 rate": 10,
    "mid buffer": 2000,
    "mid link 1 to": ["aft"],
    "mid link 1 bag": 128,
    "mid link 1 lmax": 1518,
    "mid link 1 jitter": 1635,
    "mid link 1 latency": 125,
    "mid link 1 skew": 125,
    "mid port 1": None,
    "aft buffer": 2000,
    "aft link 1 bag": 128,
    "aft link 1 lmax": 1518,
    "aft link 1 jitter": 1760,
    "aft link 1 latency": 125,
    "aft link 1 skew": 1485,
}
TWO_FALSE: Changes = {"fwd link 1 latency": 10, "aft link 1 jitter": 500}
FALSE_LINES = "no A3 fwd 24 1 10080\nno B3 aft 1 510\n"
FROM_NOWHERE = "E 2 s1 42000\nE 2 s3 21000\nE 1 s3 -\nno B1 aft 1"
NO_LINK_1: Changes = {"fwd link 1": None}
NO_LINK_1_AFT: Changes = {"aft link 1": None, "aft port 1": None}


def last_rows() -> list[Row]:
    """The two switches with changes that are false in one line, which comes last."""
    cases: list[tuple[Changes, str]] = [
        ({"aft buffer": 253}, "no A2 aft 3 254"),
        ({"fwd link 1 latency": 10}, "no A3 fwd 24 1 10080"),
        ({"aft link 2 jitter": 46}, "no A6 aft 2 46720"),
        ({"fwd link 1 skew": 16}, "no A7 fwd 1"),
        (NO_LINK_1, FROM_NOWHERE),
        ({"aft link 1 policing": "byte"}, "no B2 aft 1"),
        ({"aft link 1 jitter": 516}, "no B3 aft 1 517"),
        ({"aft link 1 skew": 34}, "no B4 aft 1 35"),
        (NO_LINK_1_AFT, "no B5 fwd 1 aft"),
    ]
    return [
        Row(f"two switches, {line.splitlines()[-1]}", text_with(TWO, changes), (), f"{line}\n")
        for changes, line in cases
    ]


def limit_rows() -> list[Row]:
    """4,096 links from a cable to a line of 10 Mbit/s, with the greatest jitter that they may
    have."""
    link = with_values(TWO["switch"][1]["link"][0], lmax=1518, jitter=101_000, priority="low")
    links = [link | {"vl": vl} for vl in range(4096)]
    slow: Changes = {"aft system 2 rate": 10, "fwd link 1": None, "fwd link 2": None}
    slow |= {"fwd port 1": None, "aft port 1": None, "aft port 2": None, "aft buffer": 4_194_304}
    rows = []
    for name, low, bounds in (
        ("all low", 4096, "P 3 1230400 514051276800 642564096"),
        ("one low", 1, "P 3 513927006400 - 642564096"),
    ):
        high = [one | {"priority": "high"} for one in links[low:]]
        text = text_with(TWO, {**slow, "aft link": [*links[:low], *high]})
        lines = f"S fwd\nP 1 0 0 0\nP 24 0 0 0\nS aft\nP 2 0 0 0\n{bounds}\nP 20 0 0 0\n"
        lines += "".join(f"E {vl} s3 -\n" for vl in range(4096))
        rows.append(Row(f"4,096 links from a cable, {name}", text, (), f"{lines}no A1 aft 3\n"))
    return rows


ROWS = [
    Row("two switches", TWO_TEXT, (), f"{TWO_BOUNDS}ok\n"),
    Row("two switches, all", TWO_TEXT, ("--all",), f"{TWO_BOUNDS}ok\n"),
    Row("two switches, margins", TWO_TEXT, ("--margins",), f"{TWO_MARGINS}ok\n{TWO_LEFT}"),
    Row("two switches, both", TWO_TEXT, ("--margins", "--all"), f"{TWO_MARGINS}ok\n{TWO_LEFT}"),
    Row("three switches", THREE_TEXT, (), f"{THREE_BOUNDS}ok\n"),
    Row("a slow cable", text_with(THREE, SLOW_CABLE), (), "E 1 s3 1485000\nok\n"),
    *last_rows(),
    Row("two false lines", text_with(TWO, TWO_FALSE), ("--all",), f"E 2 s3 21000\n{FALSE_LINES}"),
    Row("a link from nowhere", text_with(TWO, NO_LINK_1), ("--all",), f"{FROM_NOWHERE}\n"),
    *limit_rows(),
]


def with_key(path: str, value: object) -> bytes:
    """The two switches with one change."""
    return text_with(TWO, {path: value})


def many(count: int) -> bytes:
    """So many switches without systems."""
    switches = [switch_of(f"w{n}", [], [], [], [], buffer=64) for n in range(count)]
    return cascade_text({"switch": switches})


def neighbours(count: int) -> list[dict]:
    """So many neighbours."""
    return [cable_of(f"w{n}", n) for n in range(1, count + 1)]


ALONE: Changes = {"aft neighbour 1": None, "aft link 1": None, "aft port 1": None}
ALONE |= {"aft link 2 to": ["s3"]}
FAULTS = [
    # the top of the file
    FaultRow("a profile before", before(b"profile = 1"), "Missing top 0 key 2"),
    FaultRow("profile 3 before", before(b"profile = 3"), "BadProfile"),
    FaultRow("a file of one switch", b"profile = 1\nbuffer = 252\n" + TWO_TEXT,
             "UnknownKey top 0 key 0"),
    FaultRow("a buffer alone", b"buffer = 252", "BadProfile"),
    FaultRow("nothing", b"", "BadProfile"),
    FaultRow("switch is a number", b"switch = 5", "WrongKind top 0 key 6"),
    FaultRow("switch is a table", b"[switch]\nname = 'fwd'", "WrongKind top 0 key 6"),
    FaultRow("switch has a number", b"switch = [{}, 1]", "WrongKind top 0 key 6"),
    FaultRow("no switches", b"switch = []", "OutOfRange top 0 key 6"),
    FaultRow("25 switches", many(25), "OutOfRange top 0 key 6"),
    FaultRow("a buffer before", before(b"buffer = 252"), "UnknownKey top 0 key 0"),
    FaultRow("a system before", before(b"system = []"), "UnknownKey top 0 key 0"),
    # the top of a switch
    FaultRow("no profile", with_key("fwd profile", None), "BadProfile switch 1 top 0 key 1"),
    FaultRow("profile 3", with_key("aft profile", 3), "BadProfile switch 2 top 0 key 1"),
    FaultRow("no buffer", with_key("aft buffer", None), "Missing switch 2 top 0 key 2"),
    FaultRow("a small buffer", with_key("aft buffer", 63), "OutOfRange switch 2 top 0 key 2"),
    FaultRow("a system is a number", with_key("fwd system", 5), "WrongKind switch 1 top 0 key 3"),
    FaultRow("no name", with_key("fwd name", None), "Missing switch 1 top 0 key 6"),
    FaultRow("a name is a number", with_key("fwd name", 1), "WrongKind switch 1 top 0 key 6"),
    FaultRow("an empty name", with_key("fwd name", ""), "OutOfRange switch 1 top 0 key 6"),
    FaultRow("a long name", with_key("fwd name", "f" * 17), "OutOfRange switch 1 top 0 key 6"),
    FaultRow("a name with a space", with_key("aft name", "a t"), "OutOfRange switch 2 top 0 key 6"),
    FaultRow("a neighbour is a number", with_key("fwd neighbour", 5),
             "WrongKind switch 1 top 0 key 7"),
    FaultRow("24 neighbours", with_key("fwd neighbour", neighbours(24)),
             "OutOfRange switch 1 top 0 key 7"),
    FaultRow("a key more", with_key("aft id", 1), "UnknownKey switch 2 top 0 key 0"),
    # a switch by its own table
    FaultRow("a fast cable, profile 1", with_key("fwd neighbour 1 rate", 1000),
             "OutOfRange switch 1 neighbour 1 key 3"),
    FaultRow("an id of a neighbour", with_key("fwd neighbour 1 id", 9),
             "UnknownKey switch 1 neighbour 1 key 0"),
    FaultRow("a neighbour without a port", with_key("fwd neighbour 1 port", None),
             "Missing switch 1 neighbour 1 key 2"),
    FaultRow("a neighbour at a system's port", with_key("aft neighbour 1 port", 3),
             "Twice switch 2 neighbour 1 key 2"),
    FaultRow("a neighbour with a system's name", with_key("aft neighbour 1 name", "s3"),
             "Twice switch 2 neighbour 1 key 1"),
    FaultRow("from another switch's system", with_key("aft link 1 from", "s1"),
             "NoSuchSystem switch 2 link 1 key 2"),
    FaultRow("to another switch's system", with_key("aft link 1 to", ["s1"]),
             "NoSuchSystem switch 2 link 1 key 3"),
    FaultRow("back over the cable", with_key("aft link 1 to", ["s3", "fwd"]),
             "Twice switch 2 link 1 key 3"),
    FaultRow("a port entry of a neighbour", with_key("aft port 1 system", "fwd"),
             "NoSuchSystem switch 2 port 1 key 1"),
    FaultRow("jitter behind a cable", with_key("aft link 1 jitter", 101_001),
             "OutOfRange switch 2 link 1 key 7"),
    FaultRow("jitter before a cable", with_key("aft link 2 jitter", 1001),
             "OutOfRange switch 2 link 2 key 7"),
    # over all switches
    FaultRow("two switches of a name", renamed("aft", "fwd", "x", name="fwd"),
             "Twice switch 2 top 0 key 6"),
    FaultRow("two systems of a name", renamed("aft", "s3", "s1"),
             "Twice switch 2 system 2 key 1"),
    FaultRow("a system with its switch's name", renamed("fwd", "s1", "fwd"),
             "Twice switch 1 system 1 key 1"),
    FaultRow("a neighbour that is the switch itself", renamed("fwd", "aft", "fwd"),
             "NoSuchSystem switch 1 neighbour 1 key 1"),
    FaultRow("two systems of a number", with_key("aft system 1 id", 1),
             "Twice switch 2 system 1 key 3"),
    FaultRow("a neighbour that is no switch", renamed("fwd", "aft", "mid"),
             "NoSuchSystem switch 1 neighbour 1 key 1"),
    FaultRow("a cable without an end", text_with(TWO, ALONE),
             "OutOfRange switch 1 neighbour 1 key 1"),
    FaultRow("a cable of two rates", with_key("aft neighbour 1 rate", 10),
             "OutOfRange switch 1 neighbour 1 key 3"),
    FaultRow("a link that begins twice", with_key("aft link 1 from", "s2"),
             "Twice switch 2 link 1 key 2"),
]

# ---- least values --------------------------------------------------------------------------------

NOT_SOLVED: Changes = {f"{name} buffer": 64 for name in ("fwd", "aft")}
NOT_SOLVED |= {f"{name} link {n} latency": 1 for name in ("fwd", "aft") for n in (1, 2)}
NOT_SOLVED |= {"aft link 1 jitter": 0, "fwd link 2 jitter": 0}
SLOW: Changes = {"fwd neighbour 1 rate": 10, "aft neighbour 1 rate": 10}
NO_JITTERS: Changes = {"mid link 1 jitter": 0, "aft link 1 jitter": 0}


TOLD = """\
vl 2 at fwd 1: 7137 ns needed, 1 us asked
vl 1 at fwd 24: 7036 ns needed, 1 us asked
vl 1 at aft 3: 13810 ns needed, 1 us asked
vl 2 at aft 3: 14222 ns needed, 1 us asked
vl 2 at aft 20: 7036 ns needed, 1 us asked
"""


class LeastRow(NamedTuple):
    """A cascade, the keys that are kept, and its least values: of each switch the buffer, and of
    each of its links jitter, latency and skew; or the first line of admission that is false. Then
    what is told, where it is spelled out."""

    name: str
    cascade: dict
    keep: tuple[str, ...]
    values: dict[str, list]
    fault: str = ""
    told: str | None = None


LEAST = [
    LeastRow("two switches", changed(TWO, NOT_SOLVED), (), {
        "fwd": [90, (47, 8, 8), (62, 8, 23)], "aft": [177, (55, 14, 22), (47, 15, 15)],
    }, told=TOLD),
    LeastRow("jitters are kept", changed(TWO, NOT_SOLVED), ("jitter",), {}, "no B3 fwd 2 517"),
    LeastRow("a slow cable", changed(TWO, NOT_SOLVED | SLOW), (), {
        "fwd": [94, (47, 71, 71), (118, 8, 79)], "aft": [182, (118, 15, 86), (47, 71, 71)],
    }),
    LeastRow("latencies are kept", changed(THREE, NO_JITTERS), ("latency",), {
        "fwd": [88, (47, 11, 11)], "mid": [89, (58, 11, 22)], "aft": [90, (69, 11, 33)],
    }, told=""),
]
