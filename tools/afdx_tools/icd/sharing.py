"""How the time that a document allows from end to end is shared over the switches of a way."""
from __future__ import annotations

from typing import Iterable, Iterator

from afdx_tools.icd.cascade import Cascade, Place, Receiver, Values
from afdx_tools.icd.document import Message
from afdx_tools.icd.making import Latencies, Making, Unsolved

# parts of what is left over that are given to all switches of a way; the last one gets the rest
PARTS = (1, 2, 4, 8)

Times = dict[Receiver, int]  # of the ways to receivers, in us


def allowed(messages: Iterable[Message]) -> Iterator[tuple[Receiver, int]]:
    """What each message allows on the way to each of its receivers, if it says so."""
    for message in messages:
        for system in message.to if message.within_us is not None else ():
            assert message.vl is not None and message.within_us is not None
            yield Receiver(message.vl, system), message.within_us


def needed(cascade: Cascade, latencies: Latencies) -> Times:
    """The time that frames may take on each way."""
    return {
        receiver: sum(latencies[place] for place in cascade.places_to(receiver))
        for receiver in cascade.ways
    }


def limits_of(cascade: Cascade, least: Latencies) -> Times:
    """What may be taken on each way for which the document says something, and no less than is
    needed."""
    limits: Times = {}
    for messages in cascade.document.messages.values():
        for receiver, within_us in allowed(messages):
            limits[receiver] = min(within_us, limits.get(receiver, within_us))
    need = needed(cascade, least)
    return {receiver: max(limit, need[receiver]) for receiver, limit in limits.items()}


def shares(cascade: Cascade, limits: Times, least: Latencies) -> dict[Place, int]:
    """How a way's time is shared over its switches: as what each of them needs. A row on several
    ways gets the least of its shares."""
    need = needed(cascade, least)
    found: dict[Place, int] = {}
    for receiver, limit in limits.items():
        for place in cascade.places_to(receiver):
            share = least[place] * limit // need[receiver]
            found[place] = min(share, found.get(place, share))
    return found


def left_over(cascade: Cascade, limits: Times, latencies: Latencies) -> Times:
    """What is left of the time on each way; below 0 where it is too little."""
    need = needed(cascade, latencies)
    return {receiver: limit - need[receiver] for receiver, limit in limits.items()}


def filled(cascade: Cascade, limits: Times, latencies: Latencies) -> dict[Place, int]:
    """The latencies, where the last switch of each way has what is left. What a link may take there
    delays nothing that comes after it."""
    rest: dict[Place, int] = {}
    for receiver, us in left_over(cascade, limits, latencies).items():
        last = cascade.places_to(receiver)[-1]
        if not cascade.leads_on(last):
            rest[last] = min(us, rest.get(last, us))
    return {place: us + rest.get(place, 0) for place, us in latencies.items()}


def wishes(making: Making, least: Latencies, limits: Times) -> Iterator[dict[Place, int]]:
    """The latencies that may be asked for, those that are wished first: the old ones; what the
    document allows, shared, beside the old ones where it says nothing, or without them; and parts
    of it."""
    whole = shares(making.cascade, limits, least)
    old = {place: us for place, us in making.old.latencies.items() if place in least}
    if old:
        yield {place: old.get(place, us) for place, us in least.items()}
    keeps: list[dict[Place, int]] = [old, {}] if old else [{}]
    for kept in keeps:
        for part in PARTS if whole else ():
            yield {
                place: us + (whole[place] - us) // part if place in whole else kept.get(place, us)
                for place, us in least.items()
            }


def given_out(making: Making, least: Values) -> Values:
    """The values where what the document allows is given out: by the first wish with which no
    message is too late, or else to the last switch of each way."""
    cascade = making.cascade
    limits = limits_of(cascade, least.latencies)
    found = least
    for asked in wishes(making, least.latencies, limits):
        try:
            values = making.with_room(asked)
        except Unsolved:
            continue
        if min(left_over(cascade, limits, values.latencies).values(), default=0) >= 0:
            found = values
            break
    return making.solved(filled(cascade, limits, found.latencies))
