"""Why several switches a side can't be as an interface document asks, in the words of the
document."""
from __future__ import annotations

from typing import Iterator, Mapping

from afdx_tools.faults import shown
from afdx_tools.icd.cascade import Cascade, Place, Receiver
from afdx_tools.icd.document import MOST_BUFFER, Message
from afdx_tools.icd.untimely import MOST_JITTER, too_far_apart
from afdx_tools.spreadsheets.cells import MOST_US


def way_text(cascade: Cascade, receiver: Receiver, latencies: Mapping[Place, int]) -> str:
    """The switches on a way, each with the time that frames may take there."""
    return ", ".join(
        f"{cascade.cabling.called(place[0])} {latencies[place]}"
        for place in cascade.places_to(receiver)
    )


def late_messages(
    cascade: Cascade, enough: Mapping[Receiver, int]
) -> Iterator[tuple[Message, Receiver]]:
    """The messages that are asked to be faster than is sure, each with the receiver to which it
    takes longest."""
    for vl, messages in cascade.document.messages.items():
        for message in messages:
            receivers = [Receiver(vl, system) for system in message.to]
            worst = max(receivers, key=lambda receiver: enough[receiver])
            if message.within_us is not None and message.within_us < enough[worst]:
                yield message, worst


def late_lines(
    cascade: Cascade,
    least: Mapping[Place, int],
    enough: Mapping[Receiver, int],
    reserve: int,
) -> list[str]:
    """A line for each message that can't be in time at all of its receivers: the way on which it
    can take longest, and what is enough for each."""
    room = f" with a reserve of {reserve} %" if reserve else ""
    lines = []
    for message, receiver in late_messages(cascade, enough):
        us = sum(least[place] for place in cascade.places_to(receiver))
        system = shown(cascade.document.called(receiver.system))
        allowed = message.row.in_head("within_us", enough[receiver])
        lines.append(
            f"{message.row.at('within_us')}: to {system} it can take {us} us "
            f"({way_text(cascade, receiver, least)}); {allowed} is enough{room}"
        )
    return lines


# ---- where no values do --------------------------------------------------------------------------


def port_at(cascade: Cascade, switch: str, port: int, column: str) -> tuple[str, str]:
    """Where a table has what is at a port of a switch, and what goes out there: by that column of
    the table, `port` or `rate`."""
    found = cascade.cable_at(switch, port)
    if found is None:
        system = cascade.system_at(switch, port)
        return cascade.document.system_rows[system].at(column), f"to {shown(system)}"
    cable, end = found
    far, _ = cable.towards(switch)
    called = cascade.cabling.called
    goes = f"from {called(switch)} to {called(far.switch)}"
    return cable.row.at(end if column == "port" else column), goes


def too_late(cascade: Cascade, switch: str, port: int, vl: int, bound: str, room: str = "") -> str:
    """A message for which no latency at a switch is enough; `room` is what is asked for beside
    it."""
    at = cascade.document.messages[vl][0].row.at("within_us")
    _, goes = port_at(cascade, switch, port, "port")
    if bound == "-":
        return f"{at}: high messages {goes} take the whole line"
    called = cascade.cabling.called(switch)
    return f"{at}: {goes} it can take {bound} ns at {called}{room}; a link may allow {MOST_US} us"


def too_long(cascade: Cascade, switch: str, vl: int, needed: str) -> str:
    """A message that takes too long on its way to a switch."""
    at = cascade.document.messages[vl][0].row.at("within_us")
    called = cascade.cabling.called(switch)
    return f"{at}: to systems at {called} it can take {needed} us; a link may allow {MOST_US}"


def too_full(cascade: Cascade, switch: str, port: int, needed: str, room: str = "") -> str:
    """A port for which no buffer is enough; `room` is what is asked for beside it."""
    at, goes = port_at(cascade, switch, port, "port")
    return f"{at}: {needed} bytes can wait there {goes}{room}; it has room for {MOST_BUFFER}"


def refusal(cascade: Cascade, line: str) -> str:
    """A line of admission that no values make true, in the words of the document."""
    document = cascade.document
    match line.split():
        case ["no", "A1", switch, port]:
            at, goes = port_at(cascade, switch, int(port), "rate")
            text = f"{at}: the messages {goes} are more than the line can carry"
        case ["no", "A2", switch, port, needed]:
            text = too_full(cascade, switch, int(port), needed)
        case ["no", "A3" | "A4", switch, port, vl, bound]:
            text = too_late(cascade, switch, int(port), int(vl), bound)
        case ["no", "A5", _, system, needed]:
            at = document.system_rows[document.called(system)].at("rate")
            text = f"{at}: its messages can hold one up for {needed} ns; {MOST_JITTER} are the most"
        case ["no", "B3" | "B4", switch, vl, needed]:
            text = too_long(cascade, switch, int(vl), needed)
        case ["no", "apart", _, vl, _]:
            text = too_far_apart(document, int(vl), f"over {MOST_US} us")
        case _:
            text = "the tables are refused"
    return f"{text} ({line})"
