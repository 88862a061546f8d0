"""Cascades in which just one of the lines B1 to B5 of admission is false, each with a list of which
then something isn't so that is promised of admitted ones: what a run without admission must write,
and what is so again where that line is mended. They are those of cascade_rows.py, with changes.

In a list `H1` is link 1's frame with the message `hello`, as in cascade_run_rows.py; `W1` is one of
70 bytes, `L2` and `L3` are frames of 1518 bytes of links 2 and 3 to a UDP port that nobody has.
"""
from __future__ import annotations

from collections.abc import Callable
from typing import NamedTuple

from cascade import loaded
from cascade_rows import NO_LINK_1_AFT, THREE_TEXT, TWO, TWO_TEXT, Changes, changed
from cascade_run_rows import FIRST, OVER_TWO, spelled, told
from end_claims import Told, accepted_everywhere, exactly_once
from frames import FIRST as S1
from frames import frame_of
from one_switch import datagram
from tables import cable_of, port_of, with_values

S2, S4 = S1 | {"port": 2, "id": 2}, S1 | {"port": 4, "id": 4}
LONG = bytes(1471)
FRAMES = {
    "W1": frame_of(S1, 1, 1000, b"hello" + 18 * b"w", 0, "A"),
    "L2": frame_of(S2, 2, 7, LONG, 0, "B"),
    "L3": frame_of(S4, 3, 7, LONG, 0, "A"),
}


def read_once(run: Told) -> None:
    """Each receiver reads once, and in order, what the side that has more of a link has."""
    sent: dict[int, list[tuple[int, bytes]]] = {}
    for vl in run.network.links:
        for side in "AB" if run.network.hops[vl] else "":
            frames = [run.listed[key].frame for key in run.named(side, vl) if run.is_own(key, vl)]
            messages = [datagram(frame.content)[1:] for frame in frames]
            sent[vl] = max(sent.get(vl, []), messages, key=len)
    exactly_once(run, sent)


class Needed(NamedTuple):
    """Tables, the one line of admission that is false of them, tables in which it is mended, a
    list, what is written of it without admission, and the promise that it breaks."""

    name: str
    cascade: dict
    line: str
    mended: dict
    given: bytes
    out: bytes
    promise: Callable[[Told], None]


def listed(lines: str) -> bytes:
    """Lines of a list, with the digits of the frames."""
    for name, frame in FRAMES.items():
        lines = lines.replace(name, frame[:-4].hex())
    return spelled(lines)


def needed(
    name: str, base: dict, false: tuple[Changes, Changes, str], given: str, out: str,
    promise: Callable[[Told], None] = accepted_everywhere,
) -> Needed:
    """A row: changes of a cascade, those that mend it, and the line that is false."""
    changes, mending, line = false
    cascade, mended = (changed(base, each) for each in (changes, changes | mending))
    return Needed(name, cascade, line, mended, listed(given), told(out), promise)


# ---- cascades ------------------------------------------------------------------------------------

# the two switches, and a system s4 at fwd, which sends long frames to s2 on link 3; those of link 2
# may be long too
_LOW: Changes = {"latency": 300, "skew": 1000}
_LINK_3 = with_values(
    TWO["switch"][0]["link"][0], vl=3, priority="low", lmax=1518, subs=1, **_LOW
)  # fmt: skip
BUSY = changed(loaded(TWO_TEXT), {
    "fwd buffer": 5000,
    "aft buffer": 5000,
    "fwd system": [S1 | {"name": "s1"}, S4 | {"name": "s4"}],
    "fwd link 1 latency": 150,
    "aft link 1 jitter": 650,
    "aft link 1 latency": 150,
    **{f"{name} link 2 {key}": value for name in ("fwd", "aft") for key, value in _LOW.items()},
    "fwd link 2 lmax": 1518,
    "fwd link 2 jitter": 800,
    "aft link 2 lmax": 1518,
})
BUSY["switch"][0]["link"].append(with_values(_LINK_3, sender="s4"))
BUSY["switch"][1]["link"].append(with_values(_LINK_3, sender="fwd", to=["s2"], jitter=800))

# three switches, each joined to each, over which link 1 goes one way round
ROUND = changed(loaded(THREE_TEXT), {
    "fwd neighbour": [cable_of("mid", 24), cable_of("aft", 23)],
    "aft neighbour": [cable_of("mid", 20), cable_of("fwd", 21)],
})
PLAIN = loaded(TWO_TEXT)

# link 1 has lengths of up to 70 bytes, or of up to 148
WIDE: Changes = {
    "aft buffer": 400, "fwd link 1 lmax": 70, "aft link 1 lmax": 70, "aft link 2 latency": 31,
    "fwd link 2 jitter": 531,
}
BY_BYTES: Changes = WIDE | {"fwd link 1 policing": "byte", "aft link 1 policing": "byte"}
WIDER: Changes = BY_BYTES | {
    "fwd link 1 lmax": 148, "aft link 1 lmax": 148, "fwd link 1 latency": 21,
    "aft link 1 jitter": 521, "aft link 1 latency": 28,
}
TO_S4: Changes = {
    "fwd link 1 to": ["s4"], "fwd port": [*PLAIN["switch"][0]["port"], port_of("s4", 1)],
}

# ---- rows ----------------------------------------------------------------------------------------

ONE_BAG_LATER = f"{FIRST} / F 1000000 A fwd 1 H1(01)"
TWO_AT_ONCE = f"{FIRST} / F 0 A fwd 1 H1(01)"
NOT_TO_S3 = (
    "V 1 A fwd accept / V 2 B fwd accept / D 1 6720 A fwd 4 / M 6720 s4 1 hello"
    " / D 2 6720 B fwd 4 / X 6720 s4 2 redundant"
)
SECOND_DROPPED = (
    f"{OVER_TWO} / V 2 A fwd accept / D 2 1006720 A fwd 24 / V 2 A aft drop over-rate"
)
AT_ONCE_DROPPED = (
    "V 1 A fwd accept / V 2 A fwd accept / D 1 6720 A fwd 24 / V 1 A aft accept"
    " / D 2 13440 A fwd 24 / D 1 13440 A aft 3 / M 13440 s3 1 hello / V 2 A aft drop over-rate"
)
EARLY_DROPPED = (
    "V 1 A fwd accept / D 1 506720 A fwd 24 / V 1 A aft accept / D 1 513440 A aft 3"
    " / M 513440 s3 1 hello / V 2 A fwd accept / D 2 1006720 A fwd 24 / V 2 A aft drop over-rate"
)
BEHIND_LONG = "F 500000 A fwd 4 L3 / F 500001 A fwd 1 H1 / F 1000001 A fwd 1 H1(01)"
BEHIND_LONG_DROPPED = (
    "V 1 A fwd accept / V 2 A fwd accept / D 1 623040 A fwd 24 / V 1 A aft accept"
    " / D 2 629760 A fwd 24 / V 2 A aft accept / D 2 636480 A aft 3 / M 636480 s3 1 hello"
    " / D 1 746080 A aft 2 / X 746080 s2 1 no-port / V 3 A fwd accept / D 3 1006721 A fwd 24"
    " / V 3 A aft drop over-rate"
)
LATE_ON_B = "F 0 B fwd 4 L3 / F 1 A fwd 1 H1 / F 1 B fwd 1 H1 / F 129759 B aft 2 L2"
READ_TWICE = (
    "V 1 B fwd accept / V 2 A fwd accept / V 3 B fwd accept / D 2 6721 A fwd 24"
    " / V 2 A aft accept / D 2 13441 A aft 3 / M 13441 s3 1 hello / D 1 123040 B fwd 24"
    " / V 1 B aft accept / V 4 B aft accept / D 3 129760 B fwd 24 / V 3 B aft accept"
    " / D 1 246080 B aft 2 / X 246080 s2 1 no-port / D 4 252799 B aft 3 / X 252799 s3 4 no-port"
    " / D 4 252799 B aft 20 / V 4 B fwd accept / D 3 259519 B aft 3 / M 259519 s3 1 hello"
    " / D 4 375839 B fwd 1 / X 375839 s1 4 no-port"
)
BOTH_WAYS_ROUND = (
    "V 1 A fwd accept / D 1 6720 A fwd 23 / D 1 6720 A fwd 24 / V 1 A aft drop wrong-port"
    " / V 1 A mid accept / D 1 13440 A mid 4 / M 13440 s4 1 hello / D 1 13440 A mid 24"
    " / V 1 A aft accept / D 1 20160 A aft 3 / M 20160 s3 1 hello"
)


def at_aft(key: str, value: object) -> Changes:
    """A change of link 1 at the switch aft."""
    return {f"aft link 1 {key}": value}


def dropped(length: int, word: str) -> str:
    """A frame so long goes over the cable, and is dropped behind it."""
    return f"V 1 A fwd accept / D 1 {(length + 20) * 80} A fwd 24 / V 1 A aft drop {word}"


NEEDED = [
    needed("no row before it", BUSY, (TO_S4, {"fwd link 1 to": ["s4", "aft"]}, "B1 aft 1"),
           f"{FIRST} / F 0 B fwd 1 H1", NOT_TO_S3, read_once),
    needed("a longer BAG behind", PLAIN, (at_aft("bag", 2), at_aft("bag", 1), "B2 aft 1"),
           ONE_BAG_LATER, SECOND_DROPPED),
    needed("a smaller greatest length behind", PLAIN,
           (WIDE | at_aft("lmax", 64), at_aft("lmax", 70), "B2 aft 1"),
           "F 0 A fwd 1 W1", dropped(70, "over-lmax")),
    needed("a greater least length behind", PLAIN,
           (BY_BYTES | at_aft("lmin", 65), at_aft("lmin", 64), "B2 aft 1"),
           FIRST, dropped(64, "under-lmin")),
    needed("other policing behind", PLAIN,
           (WIDER | at_aft("policing", "frame"), at_aft("policing", "byte"), "B2 aft 1"),
           TWO_AT_ONCE, AT_ONCE_DROPPED),
    needed("no jitter behind", PLAIN,
           (at_aft("jitter", 0), at_aft("jitter", 517), "B3 aft 1 517"),
           "F 500000 A fwd 1 H1 / F 1000000 A fwd 1 H1(01)", EARLY_DROPPED),
    needed("less jitter behind than a long frame takes", BUSY,
           (at_aft("jitter", 623), at_aft("jitter", 650), "B3 aft 1 650"),
           BEHIND_LONG, BEHIND_LONG_DROPPED),
    needed("the skew of the last switch alone", BUSY,
           (at_aft("skew", 150), at_aft("skew", 300), "B4 aft 1 300"),
           LATE_ON_B, READ_TWICE, read_once),
    needed("no row behind", PLAIN, (NO_LINK_1_AFT, {}, "B5 fwd 1 aft"),
           FIRST, dropped(64, "unknown-link"))._replace(mended=PLAIN),
    needed("a row behind from elsewhere", ROUND,
           ({"fwd link 1 to": ["mid", "aft"]}, {"fwd link 1 to": ["mid"]}, "B5 fwd 1 aft"),
           FIRST, BOTH_WAYS_ROUND),
]
