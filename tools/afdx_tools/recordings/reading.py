"""Reads recordings, pcap and pcapng, frame by frame: number, interface, stamp, bytes.

Nothing is judged here. The program says what a recording's faults are; where this one finds a
block that can't be right, it ends, as the program does.
"""
from __future__ import annotations

import mmap
import struct
from dataclasses import dataclass, field
from typing import Iterable, Iterator

BILLION = 1_000_000_000
# of each pcap: the order of its bytes, and the digits of a stamp's fraction
PCAPS = {
    b"\xd4\xc3\xb2\xa1": ("<", 6),
    b"\xa1\xb2\xc3\xd4": (">", 6),
    b"\x4d\x3c\xb2\xa1": ("<", 9),
    b"\xa1\xb2\x3c\x4d": (">", 9),
}
SECTION = b"\x0a\x0d\x0d\x0a"
SECTION_KIND = 0x0A0D0D0A  # the same in either order of bytes
ORDERS = {b"\x4d\x3c\x2b\x1a": "<", b"\x1a\x2b\x3c\x4d": ">"}
INTERFACE, OLD_PACKET, SIMPLE_PACKET, PACKET = 1, 2, 3, 6
JOURNAL = 9
NO_FRAMES = (0x0BAD, 0x4000_0BAD, JOURNAL)  # custom blocks and journals: numbered, but no frames
NUMBERED = (OLD_PACKET, SIMPLE_PACKET, PACKET, *NO_FRAMES)
NAME, RESOLUTION, CHECK_SEQUENCE, OFFSET = 2, 9, 13, 14  # options of an interface
# options of a frame that begin with a number, which stands in the order of its section, and how
# many bytes that has: flags, drop count, identifier, queue; who made an option of its own
NUMBERS = {2: 4, 4: 8, 5: 8, 6: 4, 2988: 4, 2989: 4, 19372: 4, 19373: 4}
Options = list[tuple[int, bytes]]


class Odd(Exception):
    """What stands there can't be right, or nothing more is wanted."""


@dataclass(frozen=True)
class Interface:
    """An interface as a recording describes it: its link type, the most bytes of a frame that are
    recorded, its name, the resolution of its stamps as pcapng says it and how many units that is
    in a second, the s that are added to stamps, the bytes of check sequence (None: not said)."""

    link_type: int
    most: int
    name: bytes
    resolution: int
    units: int
    offset: int
    check_sequence: int | None


@dataclass(frozen=True)
class Frame:
    """What takes a number: a frame of the interface `place` of its section, of which `interfaces`
    are those that are described so far; `ticks` are its stamp in units of that interface (None
    where it has none), `content` the bytes that were recorded, of `original` on the wire,
    `options` those of its block. Of a block that is no frame `kind` is its type, and `content`
    its body."""

    number: int
    section: int
    interfaces: list[Interface]
    place: int
    ticks: int | None
    content: bytes
    original: int
    kind: int = 0
    options: Options = field(default_factory=list)

    @property
    def interface(self) -> Interface:
        """Its interface."""
        return self.interfaces[self.place]

    @property
    def stamp(self) -> int | None:
        """Its stamp in ns since 1970, None where it has none."""
        if self.ticks is None:
            return None
        interface = self.interface
        return self.ticks * BILLION // interface.units + interface.offset * BILLION


class Recording:
    """A file that is read frame by frame."""

    def __init__(self, path: str) -> None:
        with open(path, "rb") as file:
            size = file.seek(0, 2)
            self.data: bytes | mmap.mmap = b""
            if size:
                self.data = mmap.mmap(file.fileno(), 0, access=mmap.ACCESS_READ)
        self.most_interfaces = 0  # that a section described, of those that were read

    def described(self) -> int:
        """How many interfaces a section of it describes at most, all of it being read."""
        for _ in self.frames([1 << 62]):
            pass
        return self.most_interfaces

    @property
    def has_interfaces(self) -> bool:
        """Its frames say of which interface they are, as those of a pcapng do."""
        return bytes(self.data[:4]) not in PCAPS

    def frames(self, wanted: Iterable[int] | None = None) -> Iterator[Frame]:
        """Its frames in order; only the wanted ones, by number, where these are named."""
        head = bytes(self.data[:4])
        numbers = None if wanted is None else iter(sorted(set(wanted)))
        try:
            if head in PCAPS:
                yield from self.pcap(*PCAPS[head], numbers)
            elif head == SECTION:
                yield from self.pcapng(numbers)
        except (Odd, IndexError, struct.error):
            return

    def pcap(self, order: str, digits: int, wanted: Iterator[int] | None) -> Iterator[Frame]:
        """The frames of a pcap."""
        data, at, number, units = self.data, 24, 0, 10**digits
        most, word = struct.unpack_from(order + "2I", data, 16)
        said = 2 * (word >> 28) if word >> 26 & 1 else None
        interfaces = [Interface(word & 0x3FF_FFFF, most, b"", digits, units, 0, said)]
        self.most_interfaces = 1
        head, length_at = struct.Struct(order + "4I"), struct.Struct(order + "8xI").unpack_from
        while True:
            for number in range(number + 1, next_of(wanted, number)):
                at += 16 + length_at(data, at)[0]
            seconds, fraction, captured, original = head.unpack_from(data, at)
            number, at = number + 1, at + 16 + captured
            if at > len(data):
                return
            content = bytes(data[at - captured : at])
            yield Frame(number, 0, interfaces, 0, seconds * units + fraction, content, original)

    def pcapng(self, wanted: Iterator[int] | None) -> Iterator[Frame]:
        """The frames of a pcapng."""
        data, at, number, order, section = self.data, 0, 0, "<", 0
        interfaces: list[Interface] = []
        end, two = len(data), struct.Struct("<2I").unpack_from
        stop = next_of(wanted, 0)
        while at < end:
            kind, length = two(data, at)
            if kind == SECTION_KIND:
                order, section, interfaces = order_at(data, at + 8), section + 1, []
                two = struct.Struct(order + "2I").unpack_from
                kind, length = two(data, at)
            if length < 12 or at + length > end:
                return
            if kind == INTERFACE:
                interfaces.append(interface_of(order, bytes(data[at + 8 : at + length - 4])))
                self.most_interfaces = max(self.most_interfaces, len(interfaces))
            elif kind == PACKET or kind in NUMBERED:
                number += 1
                if number == stop:
                    body = bytes(data[at + 8 : at + length - 4])
                    yield frame_of(order, number, kind, body, section, interfaces)
                    stop = next_of(wanted, number)
            at += length


def next_of(wanted: Iterator[int] | None, number: int) -> int:
    """The next number that is wanted; without any the reading ends."""
    if wanted is None:
        return number + 1
    following = next(wanted, None)
    if following is None:
        raise Odd
    return following


def order_at(data: bytes | mmap.mmap, at: int) -> str:
    """The order of bytes of the section whose mark stands there."""
    order = ORDERS.get(bytes(data[at : at + 4]))
    if order is None:
        raise Odd
    return order


def options_of(order: str, body: bytes, at: int) -> Options:
    """The options that stand in a block's body from there on."""
    found = []
    while at + 4 <= len(body):
        code, length = struct.unpack_from(order + "2H", body, at)
        if code == 0:
            break
        found.append((code, body[at + 4 : at + 4 + length]))
        at += 4 + length + -length % 4
    return found


def interface_of(order: str, body: bytes) -> Interface:
    """The interface that a block describes; of several options of a kind the first one counts."""
    link_type, most = struct.unpack_from(order + "H2xI", body, 0)
    options = dict(reversed(options_of(order, body, 8)))
    resolution = options.get(RESOLUTION, b"\x06")[0]
    units = 2 ** (resolution - 128) if resolution >= 128 else 10**resolution
    seconds = options.get(OFFSET, b"")[:8]
    offset = int.from_bytes(seconds, "little" if order == "<" else "big", signed=True)
    name = options.get(NAME, b"").split(b"\0")[0]
    said = options.get(CHECK_SEQUENCE)
    return Interface(link_type, most, name, resolution, units, offset, said[0] if said else None)


def swapped(code: int, value: bytes) -> bytes:
    """An option of a frame whose number has its bytes in the other order."""
    size = NUMBERS.get(code, 0)
    return value[:size][::-1] + value[size:]


def frame_of(
    order: str, number: int, kind: int, body: bytes, section: int, interfaces: list[Interface]
) -> Frame:
    """The frame of a block; one without a frame keeps its type and its body."""
    if kind in NO_FRAMES:  # the number of who made a custom block stands in the section's order
        head = body[:4][:: 1 if order == "<" or kind == JOURNAL else -1]
        return Frame(number, section, interfaces, 0, None, head + body[4:], 0, kind)
    if kind == SIMPLE_PACKET:
        (original,) = struct.unpack_from(order + "I", body, 0)
        most = interfaces[0].most or original
        content = body[4 : 4 + min(original, most)]
        return Frame(number, section, interfaces, 0, None, content, original)
    if kind == PACKET:
        place, high, low, captured, original = struct.unpack_from(order + "5I", body, 0)
    else:
        place, _, high, low, captured, original = struct.unpack_from(order + "2H4I", body, 0)
    if place >= len(interfaces):
        raise Odd
    end = 20 + captured
    options = options_of(order, body, end + -captured % 4)
    if order == ">":
        options = [(code, swapped(code, value)) for code, value in options]
    ticks, content = high << 32 | low, body[20:end]
    return Frame(number, section, interfaces, place, ticks, content, original, 0, options)
