"""The ways of links over the cables between switches: the shortest, or those that the document
gives."""
from __future__ import annotations

from typing import TYPE_CHECKING, Callable

from afdx_tools.faults import shown
from afdx_tools.icd.cabling import Cabling

if TYPE_CHECKING:
    from afdx_tools.icd.document import Document, Message

# how frames come to switches: the switch before each of them; before the first there is none
Tree = dict[str, str | None]


def shortest(cabling: Cabling, first: str) -> Tree:
    """How to come from a switch to each other on the fewest cables; of several such ways on that
    whose slowest cable has the greatest rate; of these on that whose last cable stands first in the
    table."""
    before: Tree = {first: None}
    slowest = {first: max((cable.rate or 0 for cable in cabling.cables), default=0)}
    level = [first]
    while level:
        found: dict[str, tuple[int, int, str]] = {}
        for switch in level:
            for place, cable, _, far in cabling.at(switch):
                if far.switch not in before:
                    rate = min(slowest[switch], cable.rate or 0)
                    offer = (-rate, place, switch)
                    found[far.switch] = min(found.get(far.switch, offer), offer)
        for switch, (rate, _, last) in found.items():
            before[switch], slowest[switch] = last, -rate
        level = list(found)
    return before


def way_to(tree: Tree, switch: str) -> list[str]:
    """The switches on the way to one of them, the first switch first."""
    way, before = [switch], tree[switch]
    while before is not None:
        way.append(before)
        before = tree[before]
    return way[::-1]


# ---- what the document gives ---------------------------------------------------------------------


def via_fault(cabling: Cabling, message: Message) -> str:
    """Why the switches that a message names aren't a way from its sender to its receivers; nothing
    if they are."""
    for place, name in enumerate(message.via):
        if name not in cabling.switches:
            return f"no switch is named {shown(name)}"
        if name in message.via[:place]:
            return f"{shown(name)} stands twice"
    first, *others = way = [cabling.switches[name] for name in message.via]
    source = cabling.switch_of.get(message.source or "", first)
    if source != first:
        return f"it has to begin at {cabling.called(source)}, where the sender is"
    for one, other in zip(way, others):
        if not cabling.joined(one, other):
            return f"no cable joins {cabling.called(one)} and {cabling.called(other)}"
    ends = {cabling.switch_of.get(name, first) for name in message.to}
    missing = [switch for switch in cabling.switches.values() if switch in ends - set(way)]
    if missing:
        return f"a receiver is at {cabling.called(missing[0])}, which it doesn't name"
    return "" if way[-1] in ends else f"no receiver is at {cabling.called(way[-1])}"


def add_given(document: Document, cabling: Cabling, tree: Tree, messages: list[Message]) -> None:
    """Adds the ways that messages of a link name; notes those that are none, or don't agree."""
    givers: dict[str, Message] = {}
    for message in filter(lambda message: message.via, messages):
        fault = via_fault(cabling, message)
        way = [] if fault else [cabling.switches[name] for name in message.via]
        for one, other in zip(way, way[1:]):
            if tree.setdefault(other, one) != one:
                before, at = cabling.called(tree[other] or ""), cabling.called(other)
                fault = f"{givers[other].row.place} comes to {at} from {before}, on this link"
                break
            givers.setdefault(other, message)
        if fault:
            document.faults.append(f"{message.row.at('via')}: {fault}")


def add_shortest(tree: Tree, ways: Tree, switch: str) -> None:
    """Adds what is missing of the shortest way to a switch, from the last switch that is there."""
    way = way_to(ways, switch)
    begin = max(place for place, passed in enumerate(way) if passed in tree)
    tree.update(zip(way[begin + 1 :], way[begin:]))


def add_tree(document: Document, vl: int, ways_from: Callable[[str], Tree]) -> None:
    """How the frames of a link come to their receivers; notes each that no cables lead to."""
    cabling, messages = document.cabling, document.messages[vl]
    assert cabling is not None
    first = cabling.switch_of.get(messages[0].source or "")
    if first is None:  # that has been noted
        return
    tree: Tree = {first: None}
    add_given(document, cabling, tree, messages)
    for message in filter(lambda message: not message.via, messages):
        for name in filter(cabling.switch_of.get, message.to):
            switch = cabling.switch_of[name]
            if switch in ways_from(first):
                add_shortest(tree, ways_from(first), switch)
            else:
                where = f"{shown(document.called(name))} at {cabling.called(switch)}"
                text = f"no cables lead to {where} from {cabling.called(first)}"
                document.faults.append(f"{message.row.at('to')}: {text}")
    document.trees[vl] = tree
