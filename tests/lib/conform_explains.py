"""What it means that a stream can be explained, said of whole lists: each way in which a switch may
have answered its arrivals is tried. It is slow, for streams of a few frames, and apart from the
states of conform_stream.py; so is what a switch must do by stamps that are exact."""
from __future__ import annotations

from typing import Iterator

from conform_terms import Came, Left, Levels, Terms
from one_switch import Policing


def answers_of(terms: Terms, came: list[Came]) -> Iterator[list[Came]]:
    """Each list of arrivals of the right shape that an account may have accepted."""

    def behind(place: int, levels: Levels, time: int) -> Iterator[list[Came]]:
        if place == len(came):
            yield []
            return
        arrival = came[place]
        now, cost = terms.later(levels, arrival.time - time), terms.cost(arrival)
        if terms.may_pass(now, cost):
            for accepted in behind(place + 1, terms.accepted(now, cost), arrival.time):
                yield [arrival, *accepted]
        if not terms.has_to_pass(now, cost):
            yield from behind(place + 1, terms.refused(now, cost), arrival.time)

    yield from behind(0, terms.first(), terms.options.start or 0)


def are_pairs(terms: Terms, accepted: list[Came], left: list[Left], begun: int) -> bool:
    """Behind the frames that were begun each is that of the next accepted arrival; those without
    one are open."""
    rest = left[begun:]
    is_enough = len(accepted) >= len(rest)
    is_begun = all(map(terms.is_begun, left[:begun]))
    are_fit = all(terms.fits(arrival, frame) for arrival, frame in zip(accepted, rest))
    are_open = all(terms.is_open(arrival) for arrival in accepted[len(rest) :])
    return is_enough and is_begun and are_fit and are_open


def is_explained(terms: Terms, came: list[Came], left: list[Left]) -> bool:
    """Some explanation is there of the frames that aren't cut off."""
    sound = [arrival for arrival in came if not arrival.shape]
    return any(
        are_pairs(terms, accepted, left, begun)
        for accepted in answers_of(terms, sound)
        for begun in range(len(left) + 1)
    )


def accepted_by(link: dict, came: list[Came]) -> list[Came]:
    """The arrivals that the window rule of the link accepts, at their times."""
    policing = Policing(link)
    return [
        arrival
        for arrival in came
        if not arrival.shape and not policing.early(arrival.time, len(arrival.content))
    ]


def is_right(terms: Terms, link: dict, came: list[Came], left: list[Left]) -> bool:
    """What left is what a right switch lets leave, by stamps that are exact: what the window rule
    accepts, in order, each within its latency."""
    return are_pairs(terms, accepted_by(link, came), left, 0)
