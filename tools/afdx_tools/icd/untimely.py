"""Why a network can't be as its interface document asks, in the words of the document."""
from __future__ import annotations

from typing import Iterator, Mapping

from afdx_tools.icd.document import MOST_BUFFER, Document, Message
from afdx_tools.solving import Worst
from afdx_tools.spreadsheets.cells import MOST_US

MOST_JITTER = 500_000  # ns of a sender


def late_messages(
    document: Document, enough_us: Mapping[int, int]
) -> Iterator[tuple[int, Message]]:
    """The messages that are asked to be faster than is sure, each after its link, in the order of
    the table."""
    for vl, messages in document.messages.items():
        for message in messages:
            if message.within_us is not None and message.within_us < enough_us.get(vl, 0):
                yield vl, message


def late_lines(
    document: Document, worst: Mapping[int, Worst], enough_us: Mapping[int, int], reserve: int
) -> list[str]:
    """A line for each message that can't be in time at all of its receivers: where it can take
    longest, and what is enough at each of them."""
    room = f" with a reserve of {reserve} %" if reserve else ""
    lines = []
    for vl, message in late_messages(document, enough_us):
        port, needed_ns = worst[vl]
        lines.append(
            f"{message.row.at('within_us')}: to {document.system_at(port)} it can take "
            f"{needed_ns} ns; {message.row.in_head('within_us', enough_us[vl])} is enough{room}"
        )
    return lines


def too_late(document: Document, port: int, vl: int, bound: str, room: str = "") -> str:
    """A message for which no latency is enough; `room` is what is asked for beside it."""
    at = document.messages[vl][0].row.at("within_us")
    system = document.system_at(port)
    if bound == "-":
        return f"{at}: high messages to {system} take its whole line"
    return f"{at}: to {system} it can take {bound} ns{room}; a link may allow {MOST_US} us"


def too_full(document: Document, port: int, needed: str, room: str = "") -> str:
    """A port for which no buffer is enough; `room` is what is asked for beside it."""
    row = document.system_rows[document.system_at(port)]
    return f"{row.at('port')}: {needed} bytes can wait there{room}; it has room for {MOST_BUFFER}"


def too_far_apart(document: Document, vl: int, needs: str) -> str:
    """A message whose copies can't be sent as far apart as is asked for."""
    at = document.messages[vl][0].row.at("within_us")
    return f"{at}: its copies can't be sent so far apart: that takes a skew of {needs}"


def refusal(document: Document, line: str) -> str:
    """A line of admission that no values make true, in the words of the document."""
    match line.split():
        case ["no", "A1", port]:
            row = document.system_rows[document.system_at(int(port))]
            text = f"{row.at('rate')}: the messages to it are more than its line can carry"
        case ["no", "A2", port, needed]:
            text = too_full(document, int(port), needed)
        case ["no", "A3" | "A4", port, vl, bound]:
            text = too_late(document, int(port), int(vl), bound)
        case ["no", "A5", system, needed]:
            at = document.system_rows[document.called(system)].at("rate")
            text = f"{at}: its messages can hold one up for {needed} ns; {MOST_JITTER} are the most"
        case ["no", "apart", vl, _]:
            text = too_far_apart(document, int(vl), f"over {MOST_US} us")
        case _:
            text = "the tables are refused"
    return f"{text} ({line})"
