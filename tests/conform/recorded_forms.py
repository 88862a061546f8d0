"""Recordings of frames that came to a switch and left it, in the forms that recorders write."""
from __future__ import annotations

import random
import zlib
from typing import NamedTuple

from cascade_run import Arrival
from edge_rows import block, low, option
from recorded import Order
from recorded_arrivals import SEALED
from recording_rows import FIRST_NS, ONE, SL

Key = tuple[bool, int, int]  # whether it left; a side by its place, and a port

CHECK_SEQUENCE = 4  # bytes
# magic numbers of pcap: in ns and in us, of either order of bytes
MAGICS: dict[tuple[Order, int], str] = {
    ("little", 1): "4d3cb2a1", ("big", 1): "a1b23c4d",
    ("little", 1000): "d4c3b2a1", ("big", 1000): "a1b2c3d4",
}


class Seen(NamedTuple):
    """A frame as it was recorded: its line, and where."""

    line: Arrival
    key: Key


class Form(NamedTuple):
    """How a recorder writes: the ns of its unit, whether it keeps check sequences and says so, and
    its order of bytes, of pcap alone."""

    unit: int = 1
    is_closed: bool = True
    is_said: bool = True
    order: Order = "little"


EXACT = Form()


def kept_of(form: Form, content: bytes) -> bytes:
    """The bytes that are kept of a frame; a damaged one keeps its check sequence."""
    is_cut = not form.is_closed and zlib.crc32(content) == SEALED
    return content[:-CHECK_SEQUENCE] if is_cut else content


def packet(place: int, ticks: int, content: bytes) -> str:
    """A packet of this interface."""
    head = low(place) + low(ticks >> 32) + low(ticks) + 2 * low(len(content))
    return block(6, head + content.hex() + "00" * (-len(content) % 4))


def interface_of(form: Form) -> str:
    """An interface, described."""
    options = option(9, "09" if form.unit == 1 else "06")
    if form.is_said:
        options += option(13, low(CHECK_SEQUENCE * form.is_closed, 1))
    return block(1, ONE + "00000400" + options)


def pcapng_of(keys: list[Key], seen: list[Seen], form: Form = EXACT) -> bytes:
    """A pcapng, with an interface for each of these places."""
    frames = (
        packet(keys.index(each.key), (FIRST_NS + each.line.time) // form.unit,
               kept_of(form, each.line.frame.content))
        for each in seen
    )
    return bytes.fromhex(SL + interface_of(form) * len(keys) + "".join(frames))


def pcap_of(seen: list[Seen], form: Form = EXACT) -> bytes:
    """A pcap; all frames are of interface 0."""

    def number(value: int, size: int = 4) -> bytes:
        return value.to_bytes(size, form.order)

    said = (2 * form.is_closed << 28 | 1 << 26) if form.is_said else 0
    pieces = [bytes.fromhex(MAGICS[form.order, form.unit]), number(2, 2), number(4, 2), bytes(8),
              number(0x40000), number(said | 1)]
    for each in seen:
        seconds, ns = divmod(FIRST_NS + each.line.time, 10**9)
        content = kept_of(form, each.line.frame.content)
        lengths = 2 * number(len(content))
        pieces += [number(seconds), number(ns // form.unit), lengths, content]
    return b"".join(pieces)


def any_form(chance: random.Random) -> Form:
    """Mostly exact."""
    if chance.random() < 0.6:
        return EXACT
    order: Order = "little" if chance.random() < 0.5 else "big"
    return Form(chance.choice([1, 1, 1000]), chance.random() < 0.5, chance.random() < 0.8, order)
