"""Recordings of cascades made at random, with options: frames of lists over random cascades, as
recorders would write them or with other words; and any frames of the two switches' systems."""
from __future__ import annotations

import random

from cascade_run import SIDES, Arrival
from compared_recordings import AnyCase, case_over
from compared_runs import FREE
from made_lists import made_list
from made_recordings import made_data, made_pair
from pair_wanted import random_options as random_pair_options
from places import LEFT_OUT, place_text
from recorded_arrivals import Options
from recorded_pair import PairOptions
from tapped_lists import FIRST, GRAINS, MIRRORS, frames_of, over_cables, recorded
from wanted import random_options, random_order

MS = 1_000_000


def place_in(chance: random.Random, cascade: dict, sides: str = "AB") -> str:
    """A PLACE that the cascade has, at one of these sides."""
    side, switch = chance.choice(sides), chance.choice(cascade["switch"])
    cables = {end["port"] for end in switch["neighbour"]}
    own = [system["port"] for system in switch["system"]]
    port = chance.choice([*own, chance.choice(sorted({*range(1, 25)} - cables))])
    place = place_text(side, switch["name"])
    return chance.choice([side, place, f"{place}:{port}", f"{place}:{port:02}"])


def said_of(
    chance: random.Random, cascade: dict, names: list[str], sides: str = "AB"
) -> dict[int, str]:
    """What the options say of interfaces: of most what their recorders would say."""
    places = {number: name for number, name in enumerate(names) if name}
    for number in range(len(names) + 1):
        way = chance.random()
        if way < 0.15:
            places[number] = place_in(chance, cascade, sides)
        elif way < 0.25:
            places.pop(number, None)
    return places


def other_options(chance: random.Random) -> Options:
    """Options that mostly leave arrivals, without places."""
    begin = FIRST + chance.choice([-MS, -1, 0, 0, 1, MS])
    reorder, stamps = random_order(chance)
    fcs = chance.choice([*6 * [None], True, False])
    origin = chance.choice([None, begin])
    return Options({}, fcs, origin, reorder=reorder, stamps=stamps)


def pair_of(
    chance: random.Random, cascade: dict, names: tuple[list[str], list[str]], others: Options
) -> PairOptions:
    """Options of two recordings."""
    halves = [said_of(chance, cascade, *each) for each in zip(names, SIDES)]
    places = [f"{number}={place}" for half in halves for number, place in half.items()]
    free = [number for number in range(4) if not any(number in half for half in halves)]
    if free and chance.random() < 0.2:
        places.append(f"{chance.choice(free)}={LEFT_OUT}")
    chance.shuffle(places)
    return PairOptions(
        tuple(places), others.fcs, others.origin, others.reorder, others.stamps
    )


def of_list(chance: random.Random, cascade: dict, words: tuple[str, ...] = (FREE,)) -> AnyCase:
    """A list over the cascade as recorders write it, in one recording or in two."""
    text = made_list(chance, cascade, chance.choice([3, 20, 60]))
    grain, spread = chance.choice(GRAINS), chance.choice([0, 0, 1000, MS])
    frames = frames_of(cascade, text)
    if grain == MIRRORS:
        frames = sorted([*frames, *over_cables(cascade, text)], key=lambda one: one.time)
    others = other_options(chance)

    def recording(some: list[Arrival]) -> tuple[bytes, list[str]]:
        return recorded(chance, cascade, some, grain, spread)

    if chance.random() < 0.6:
        data, names = recording(frames)
        options = others._replace(places=said_of(chance, cascade, names))
        if chance.random() < 0.2:
            options.places[chance.randrange(4)] = LEFT_OUT
        return case_over(cascade, (data,), options, words)
    a, b = (recording([one for one in frames if one.side == side]) for side in (0, 1))
    both = pair_of(chance, cascade, (a[1], b[1]), others)
    return case_over(cascade, (a[0], b[0]), both, words)


def of_any_frames(chance: random.Random, cascade: dict, kind: str, number: int | str) -> AnyCase:
    """A recording made at random, or two, whose frames are mostly of links 1 and 2 and of systems
    with these numbers."""
    if chance.random() < 0.5:
        options = random_options(chance)
        places = {each: place_in(chance, cascade) for each in options.places}
        return case_over(cascade, (made_data(kind, number),), options._replace(places=places))
    pair, words = random_pair_options(chance), []
    for word in pair.places:
        interface, place = word.split("=")
        side = place[0]
        words.append(word if side == LEFT_OUT else f"{interface}={place_in(chance, cascade, side)}")
    both = pair._replace(places=tuple(words))
    return case_over(cascade, made_pair(kind, number), both)
