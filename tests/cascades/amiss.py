"""Outputs of runs over admitted cascades in which something is amiss: what reads them for what is
promised must refuse each."""
from __future__ import annotations

import random
from collections.abc import Callable

from cascade_run import Arrival
from end_claims import Told, accepted_everywhere, exactly_once, from_end_to_end, own_text
from program import Wrong

# the output with something amiss, None where it can't be had
Change = Callable[[random.Random, Told, list[str]], list[str] | None]


def refused_by(
    cascade: dict, arrivals: list[Arrival], out: bytes, sent: dict[int, list[tuple[int, bytes]]]
) -> str | None:
    """Why the output isn't what is promised; None where it is."""
    told = Told(cascade, arrivals, out)
    try:
        accepted_everywhere(told)
        from_end_to_end(told)
        for vl in told.network.links:
            for side in "AB":
                own_text(told, side, vl)
        exactly_once(told, sent)
    except Wrong as wrong:
        return str(wrong)
    return None


def places(lines: list[str], kind: str) -> list[int]:
    """Where lines of a kind stand."""
    return [at for at, line in enumerate(lines) if line.startswith(f"{kind} ")]


def with_line(lines: list[str], at: int, *others: str) -> list[str]:
    """The lines with others in the place of one."""
    return [*lines[:at], *others, *lines[at + 1 :]]


def behind_cables(lines: list[str]) -> list[int]:
    """Where the verdicts of frames stand that have one already."""
    seen, found = set[str](), list[int]()
    for at in places(lines, "V"):
        number = lines[at].split(" ")[1]
        if number in seen:
            found.append(at)
        seen.add(number)
    return found


def any_of(kind: str, change: Callable[[str], list[str]]) -> Change:
    """Changes a line of a kind."""

    def changed(chance: random.Random, _: Told, lines: list[str]) -> list[str] | None:
        found = places(lines, kind)
        if not found:
            return None
        at = chance.choice(found)
        return with_line(lines, at, *change(lines[at]))

    return changed


def cable_drops(chance: random.Random, _: Told, lines: list[str]) -> list[str] | None:
    """What a cable brings is dropped."""
    found = behind_cables(lines)
    if not found:
        return None
    at = chance.choice(found)
    return with_line(lines, at, lines[at].replace("accept", "drop over-rate"))


def stranger_passes(chance: random.Random, _: Told, lines: list[str]) -> list[str] | None:
    """A stranger's frame is accepted."""
    found = [at for at in places(lines, "V") if lines[at].endswith("drop wrong-port")]
    if not found:
        return None
    at = chance.choice(found)
    return with_line(lines, at, lines[at].replace("drop wrong-port", "accept"))


def leaves_late(chance: random.Random, told: Told, lines: list[str]) -> list[str] | None:
    """A frame leaves a ns later than it may."""
    found = places(lines, "D")
    if not found:
        return None
    at = chance.choice(found)
    _, number, _, side, name, port = lines[at].split(" ")
    one = told.listed[side, int(number)]
    vl = one.frame.link()
    assert vl is not None
    most = next(hop.most for hop in told.network.hops[vl] if hop.switch == name)
    return with_line(lines, at, f"D {number} {one.time + most + 1} {side} {name} {port}")


def two_change_places(kind: str, alike: tuple[int, ...]) -> Change:
    """Two lines of a kind stand the other way round, which have these words alike: of M lines with
    other messages, of D lines of one link."""

    def changed(chance: random.Random, told: Told, lines: list[str]) -> list[str] | None:
        found = places(lines, kind)
        chance.shuffle(found)
        for one in found:
            for other in found:
                if one < other and differ(told, lines[one].split(" "), lines[other].split(" ")):
                    return with_line(with_line(lines, one, lines[other]), other, lines[one])
        return None

    def differ(told: Told, one: list[str], other: list[str]) -> bool:
        if any(one[at] != other[at] for at in alike):
            return False
        if kind == "M":
            return one[4] != other[4]
        links = {told.listed[words[3], int(words[1])].frame.link() for words in (one, other)}
        return len(links) == 1

    return changed


AMISS: dict[str, Change] = {
    "a frame that is dropped behind a cable": cable_drops,
    "a stranger's frame that is accepted": stranger_passes,
    "a frame that leaves too late": leaves_late,
    "a frame that never leaves": any_of("D", lambda line: []),
    "a frame that leaves twice": any_of("D", lambda line: [line, line]),
    "a frame that leaves elsewhere": any_of("D", lambda line: [line.rsplit(" ", 1)[0] + " 25"]),
    "a lost copy": any_of("D", lambda line: [line, "L 1 A w0 1"]),
    "a copy that is too old": any_of("D", lambda line: [line, "T 1 0 A w0 1"]),
    "frames that leave in another order": two_change_places("D", (3, 4, 5)),
    "a message that isn't read": any_of("M", lambda line: []),
    "a message that is read twice": any_of("M", lambda line: [line, line]),
    "messages in another order": two_change_places("M", (2, 3)),
}
