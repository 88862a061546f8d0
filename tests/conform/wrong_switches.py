"""Switches that are amiss in one way each, and what must be found of each by exact stamps. Frames
of a link differ, so that each finding has one name."""
from __future__ import annotations

import random

from conform_terms import Options
from one_switch import Policing
from recorded_switch import Arriving, RecordedSwitch

NINTH = 9


class OtherAccount(RecordedSwitch):
    """Its accounts are others: `other_rule` says which."""

    def __init__(self, tables: dict, options: Options, chance: random.Random) -> None:
        super().__init__(tables, options, chance)
        self.others: dict[tuple[str, int], Policing] = {}

    def other_rule(self, link: dict) -> dict:
        """The link as the switch has it."""
        return link

    def account(self, link: dict) -> int:
        """Which account a link has."""
        return link["vl"]

    def accepts(self, vl: int, time: int, arriving: Arriving) -> bool:
        """By its own account; where that isn't the window rule's answer it must be found."""
        link = self.switch.links[vl]
        key = arriving.side, self.account(link)
        rule = self.others.setdefault(key, Policing(self.other_rule(link)))
        answer = not rule.early(time, len(arriving.frame().content))
        right = super().accepts(vl, time, arriving)
        if answer != right:
            for port in self.ports_of(vl):
                self.tell("passed" if answer else "stopped", port, arriving)
        return answer


class LargerAccount(OtherAccount):
    """An account is too large."""

    def other_rule(self, link: dict) -> dict:
        return link | {"jitter_us": link["jitter_us"] + 300}


class SmallerAccount(OtherAccount):
    """An account is too small."""

    def other_rule(self, link: dict) -> dict:
        return link | {"jitter_us": link["jitter_us"] * 2 // 3}


class NoJitter(OtherAccount):
    """The jitter is left out."""

    def other_rule(self, link: dict) -> dict:
        return link | {"jitter_us": 0}


class OtherCharge(OtherAccount):
    """By frame for by byte, and the other way round."""

    def other_rule(self, link: dict) -> dict:
        return link | {"policing": "frame" if link["policing"] == "byte" else "byte"}


class OneAccountAPort(OtherAccount):
    """The links of an input port have one account."""

    def account(self, link: dict) -> int:
        return self.switch.port_of[link["from"]]


class PolicesNothing(OtherAccount):
    """Nothing is ever too much."""

    def other_rule(self, link: dict) -> dict:
        return link | {"jitter_us": 10**9}


class EachNinth(RecordedSwitch):
    """It is amiss with each ninth frame at a port."""

    def leave(self, port: int, end: int, arriving: Arriving) -> None:
        self.turns = getattr(self, "turns", 0) + 1
        if self.turns % NINTH:
            super().leave(port, end, arriving)
        else:
            self.amiss(port, end, arriving)

    def amiss(self, port: int, end: int, arriving: Arriving) -> None:
        """What it does with a ninth frame."""

    def right(self, port: int, end: int, arriving: Arriving) -> None:
        """What a right switch does."""
        super().leave(port, end, arriving)


class Drops(EachNinth):
    """Each ninth frame is dropped."""

    def amiss(self, port: int, end: int, arriving: Arriving) -> None:
        self.tell("stopped", port, arriving)


class Doubles(EachNinth):
    """Each ninth frame leaves twice."""

    def amiss(self, port: int, end: int, arriving: Arriving) -> None:
        self.right(port, end, arriving)
        self.right(port, end, arriving)
        self.tell("strange", port, arriving)


class OtherPort(EachNinth):
    """A copy of each ninth frame leaves another port too."""

    def amiss(self, port: int, end: int, arriving: Arriving) -> None:
        self.right(port, end, arriving)
        self.right(2, end, arriving)
        self.tell("strange", 2, arriving)


class Damages(EachNinth):
    """Each ninth frame leaves damaged."""

    damages = True

    def amiss(self, port: int, end: int, arriving: Arriving) -> None:
        self.put(arriving.side, port, end, "B", arriving.content)
        self.tell("strange", port, arriving)
        self.tell("stopped", port, arriving)


class Reorders(RecordedSwitch):
    """At each port each ninth frame of a link changes its place with the one behind it."""

    def __init__(self, tables: dict, options: Options, chance: random.Random) -> None:
        super().__init__(tables, options, chance)
        self.turns: dict[tuple[str, int, int | None], int] = {}
        self.held: dict[tuple[str, int, int | None], Arriving] = {}

    def leave(self, port: int, end: int, arriving: Arriving) -> None:
        key = arriving.side, port, arriving.frame().link()
        self.turns[key] = self.turns.get(key, 0) + 1
        if self.turns[key] % NINTH == 0:
            self.held[key] = arriving
            self.tell("stopped", port, arriving)
            return
        super().leave(port, end, arriving)
        if key in self.held:
            held = self.held.pop(key)
            super().leave(port, end, held)
            self.tell("strange", port, held)


class Late(RecordedSwitch):
    """Some frames leave a nanosecond late."""

    def delay(self, vl: int, port: int, length: int) -> int:
        return super().delay(vl, port, length) + self.chance.choice([0, 1])

    def leave(self, port: int, end: int, arriving: Arriving) -> None:
        super().leave(port, end, arriving)
        if end > arriving.moment + self.terms[arriving.frame().link() or 0, port].latency:
            self.tell("late", port, arriving)


class OtherTurns(RecordedSwitch):
    """Frames of other links pass by each ninth one: that is amiss where its latency is passed."""

    def leave(self, port: int, end: int, arriving: Arriving) -> None:
        vl = arriving.frame().link() or 0
        latency = self.terms[vl, port].latency
        self.turns = getattr(self, "turns", 0) + 1
        if self.turns % NINTH == 0:
            longer = self.chance.randint(0, latency)
            end = min(end + longer, arriving.moment + 2 * latency - 1)
        self.ends[arriving.side, vl, port] = end  # those of its link don't pass by
        super().leave(port, end, arriving)
        if end > arriving.moment + latency:
            self.tell("late", port, arriving)


class Early(RecordedSwitch):
    """Some frames leave a nanosecond early."""

    def delay(self, vl: int, port: int, length: int) -> int:
        return super().delay(vl, port, length) - self.chance.choice([0, 1])

    def leave(self, port: int, end: int, arriving: Arriving) -> None:
        super().leave(port, end, arriving)
        frame = arriving.frame()
        wire = self.terms[frame.link() or 0, port].wire_time(len(frame.content))
        if end < arriving.moment + wire:
            self.tell("early", port, arriving)


WRONG_SWITCHES: tuple[type[RecordedSwitch], ...] = (
    LargerAccount, SmallerAccount, NoJitter, OtherCharge, OneAccountAPort, PolicesNothing, Drops,
    Doubles, OtherPort, Damages, Reorders, OtherTurns, Late, Early,
)
