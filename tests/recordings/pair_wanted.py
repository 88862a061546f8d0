"""What must be written of two recordings: the reference of tests/lib gives the list that says the
same, the fault and the counts, and the program's run on that list the text, but for the numbers."""
from __future__ import annotations

import random
from typing import NamedTuple

from made_recordings import made_pair
from pair_rows import PairRow
from program import Answer, Program
from recorded_list import Told
from recorded_pair import PairOptions, told_pair
from recording_rows import FIRST_NS
from wanted import IN_BASE, Case, Command, random_order

PLACES = ["A", "B", "A:1", "B:1", "A:2", "B:2", "A:24", "-"]


class PairCase(NamedTuple):
    """Two recordings and the options of the run, a replay."""

    pair: tuple[bytes, bytes]
    options: PairOptions = PairOptions()
    command: Command = IN_BASE

    def told(self, opens: str = "") -> Told:
        """What the reference says; `opens` are the sides of which more bytes are to come."""
        return told_pair(self.options, self.command.systems, self.pair, opens)

    def at_once(self) -> PairCase:
        """The same where each line is written at once."""
        return self._replace(options=self.options._replace(at_once=True))

    def words(self) -> list[str]:
        """The command with its options, without the recordings."""
        return [*self.command.words, *self.options.words()]

    def with_half(self, place: int, data: bytes) -> PairCase:
        """The same with another recording in the place of one."""
        pair = (data, self.pair[1]) if place == 0 else (self.pair[0], data)
        return self._replace(pair=pair)

    def listed(self, program: Program, *more: str, opens: str = "") -> Answer:
        """What the program must write of them: what it writes of the list that says the same, up to
        the fault, but for the numbers of frames. Where it ends well, standard error has what `more`
        words ask for."""
        return Case(b"", command=self.command).run_of(program, self.told(opens), *more)


def pair_case(row: PairRow) -> PairCase:
    """The recordings of a row."""
    return PairCase(row.pair(), row.options)


def random_options(chance: random.Random) -> PairOptions:
    """Options that mostly leave arrivals of both."""
    places = []
    for interface in range(6 if chance.random() < 0.5 else 0):
        for side in "AB":
            if chance.random() < 0.15:
                port = chance.choice(["", ":1", ":2", ":24"])
                places.append(f"{interface}={side}{port}")
        if chance.random() < 0.05 and not any(each[0] == str(interface) for each in places):
            places.append(f"{interface}=-")
    chance.shuffle(places)
    origin = FIRST_NS + chance.choice([-(10**15), -1, 0, 1000, 10**6, 10**10])
    options = PairOptions(
        tuple(places),
        chance.choice([None, None, None, True, False]),
        origin if chance.random() < 0.3 else None,
    )
    reorder, stamps = random_order(chance)
    return options._replace(reorder=reorder, stamps=stamps)


def random_pair(kind: str, number: int | str) -> PairCase:
    """Two recordings made at random, half of them with random options."""
    chance = random.Random(f"pair options/{kind}/{number}")
    options = random_options(chance) if chance.random() < 0.5 else PairOptions()
    return PairCase(made_pair(kind, number), options)


def cut_pair(chance: random.Random, case: PairCase) -> PairCase:
    """The same with one of them cut at a byte, or both."""
    cut = chance.choice([(0,), (1,), (0, 1)])
    for place in cut:
        data = case.pair[place]
        case = case.with_half(place, data[: chance.randrange(len(data) + 1)])
    return case
