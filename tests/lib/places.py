"""Where a frame comes in: a side and, of several switches a side, a switch. How lines name it, and
what `--interface K=PLACE` says of it, as docs/FORMATS.md and docs/RECORDINGS.md have it.

A switch without a name is the only one of its side.
"""
from __future__ import annotations

import re
from typing import NamedTuple

LEFT_OUT = "-"
MOST_INTERFACE, MOST_PORT = 4_095, 24
WORD = re.compile(r"([0-9]{1,4})=(-|[AB](?: [A-Za-z0-9]{1,16})?(?::[0-9]{1,2})?)")


class Said(NamedTuple):
    """What a PLACE says: nothing that is empty, or None."""

    side: str = ""
    switch: str = ""
    port: int | None = None


def place_text(side: str, switch: str) -> str:
    """A place in a line."""
    return f"{side} {switch}" if switch else side


def said(place: str) -> Said:
    """What a PLACE of a sound form says; `-`, and none, say nothing."""
    if place in ("", LEFT_OUT):
        return Said()
    text, _, port = place.partition(":")
    side, _, switch = text.partition(" ")
    return Said(side, switch, int(port) if port else None)


def interfaces(words: list[str], of_police: bool = False) -> list[tuple[int, str]] | None:
    """The interfaces of such words `K=PLACE`, with their places; None where one has another form.
    In those of `police` no switch has a name."""
    found = []
    for word in words:
        match = WORD.fullmatch(word)
        if match is None:
            return None
        number, place = int(match[1]), match[2]
        port = said(place).port
        is_port = port is None or 1 <= port <= MOST_PORT
        if number > MOST_INTERFACE or not is_port or (of_police and said(place).switch):
            return None
        found.append((number, place))
    return found


def keys(number: int, place: str, of_two: bool) -> list[tuple[int, str]]:
    """Whose interface is meant: that of one recording, or of two that on a side, on both with `-`.
    """
    if not of_two:
        return [(number, "")]
    return [(number, side) for side in ("AB" if place == LEFT_OUT else said(place).side)]


def is_bad(words: list[str], of_police: bool = False, of_two: bool = False) -> bool:
    """The words are `words BadInterface`, whatever the configuration says: one has another form, or
    an interface is given twice."""
    pairs = interfaces(words, of_police)
    every = [key for pair in pairs or [] for key in keys(*pair, of_two)]
    return pairs is None or len(set(every)) < len(every)


def suits(place: str, switches: list[dict]) -> bool:
    """A place that these switches have: a port stands at a switch, and no cable is there."""
    word = said(place)
    cables = {sw["name"]: {end["port"] for end in sw["neighbour"]} for sw in switches}
    if word.switch == "" and word.port is None:
        return True
    return word.switch in cables and word.port not in cables[word.switch]


def is_unsuited(words: list[str], switches: list[dict]) -> bool:
    """Words that aren't bad are `words BadInterface` with this configuration."""
    return not all(suits(place, switches) for _, place in interfaces(words) or [])
