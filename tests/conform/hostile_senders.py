"""Lists for `conform --senders` of many frames of one moment, which wait for their copies; a part
of tests/run/hostile.py."""
from __future__ import annotations

from collections.abc import Iterator

import tables as made
from conform_claims import Judge
from conform_terms import SENDERS
from frames import frame_of, number_of, raw_line
from one_switch import MS
from program import answers
from sender_claims import NOTHING, answer_of
from sender_made import SIDES, frame

HOLD = 100 * MS  # so long a frame waits for its copy
SOON = 500_000  # ns: by so much a frame is too soon that comes with the one before it
NUMBERS = 256


class Told:
    """A list of frames of one moment, and what is told of each at that moment."""

    def __init__(self) -> None:
        self.frames = [[frame(place, side) for place in range(NUMBERS)] for side in (0, 1)]
        self.listed: list[bytes] = []
        self.lines: list[str] = []
        self.next = [0, 0]
        self.has_come = [False, False]

    def come(self, side: int, number: int) -> None:
        """A frame comes."""
        self.listed.append(raw_line(0, SIDES[side], 1, self.frames[side][number]))
        head = f"{len(self.listed)} {SIDES[side]} 1"
        if number != self.next[side]:
            self.lines.append(f"number {head} {self.next[side]}")
        if self.has_come[side]:
            self.lines.append(f"soon {head} {SOON}")
        self.next[side], self.has_come[side] = number_of(number + 1), True

    def are_told(self, judge: Judge, alone: int, sent: int) -> None:
        """These are told, then so many frames of A, the first, that have no copy."""
        lines = self.lines + [f"single {line} A 1" for line in range(1, alone + 1)]
        words = (SENDERS, "--until", str(2 * HOLD))
        found = answer_of(judge, b"".join(self.listed), None, words)
        lines.append(f"deviates {len(lines)}{NOTHING}sent {sent} cut 0 alone 0")
        answers(found, 5, "".join(f"{line}\n" for line in lines).encode(), b"")


def other_side_missing(judge: Judge, count: int) -> None:
    """So many frames come on one side alone, whose numbers go round."""
    told = Told()
    for place in range(count):
        told.come(0, number_of(place))
    told.are_told(judge, count, 0)


def one_side_first(judge: Judge, count: int) -> None:
    """So many frames come on one side, then all of their copies."""
    told = Told()
    for side in (0, 1):
        for place in range(count):
            told.come(side, number_of(place))
    told.are_told(judge, 0, 2)


def first_copy_missing(judge: Judge, count: int) -> None:
    """The same, but the copy of the first is missing: all others are behind one that waits."""
    told = Told()
    for side in (0, 1):
        for place in range(side, count):
            told.come(side, number_of(place))
    told.are_told(judge, 1, 0)


def one_number(judge: Judge, count: int) -> None:
    """So many frames of one number come on one side, then as many on the other."""
    told = Told()
    for side in (0, 1):
        for _ in range(count):
            told.come(side, 0)
    told.are_told(judge, 0, 2)


def numbers_in_blocks(judge: Judge, count: int) -> None:
    """On one side come many frames of each number, one number after the other; on the other side
    the greatest number comes first."""
    told = Told()
    for side in (0, 1):
        numbers = range(NUMBERS) if side == 0 else range(NUMBERS - 1, -1, -1)
        for number in numbers:
            for _ in range(count // NUMBERS):
                told.come(side, number)
    told.are_told(judge, 0, 1)


def largest_tables(judge: Judge) -> None:
    """Frames of 4,096 links on both networks; then those of one network are missing."""
    tables = made.largest_tables()
    lists: list[list[bytes]] = [[], []]
    for link in tables["link"]:
        system = made.system_named(tables, link["from"])
        for side, listed in zip(SIDES, lists):
            content = frame_of(system, link["vl"], 1000, b"x", 0, side)
            listed.append(raw_line(0, side, system["port"], content))
    config, (on_a, on_b) = made.text_of(tables), lists
    ports = [made.system_named(tables, link["from"])["port"] for link in tables["link"]]
    single = [f"single {line} A {port}\n" for port, line in sorted(zip(ports, range(1, 4097)))]
    words, numbers = (SENDERS, "--until", str(2 * HOLD)), NOTHING.replace("4", f"{2 * 23 * 4096}")
    last = f"conforms{numbers}sent 8192 cut 0 alone 0\n"
    found = answer_of(judge, b"".join(on_a + on_b), None, words, config)
    answers(found, 0, last.encode(), b"")
    last = f"deviates 4096{numbers}sent 0 cut 0 alone 0\n"
    found = answer_of(judge, b"".join(on_a), None, words, config)
    answers(found, 5, ("".join(single) + last).encode(), b"")


def hostile_senders(judge: Judge) -> Iterator[tuple]:
    """What is tried of many frames of one moment; what is quadratic takes too long."""
    for case in (other_side_missing, one_side_first, first_copy_missing, one_number,
                 numbers_in_blocks):
        for count in (1_024, 500_000):
            yield f"conform --senders: {count} at one moment, {case.__name__}", case, judge, count
    yield "conform --senders: the largest tables", largest_tables, judge
