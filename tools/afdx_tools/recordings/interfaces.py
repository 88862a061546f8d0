"""The interfaces of a recording: what each is called, and from whom its AFDX frames say they are.

It reads no more of a frame than its addresses. Where a recording has a fault it stops: the program
says what is wrong there."""
from __future__ import annotations

import struct
from collections import defaultdict
from dataclasses import dataclass, field
from typing import BinaryIO, Callable, NamedTuple

from afdx_tools.recordings.options import HEADS

PIECE = 1 << 22  # bytes that are read at once
LONGEST = 1 << 24  # bytes of a block that is looked into
MOST_CAPTURED = 262_144  # bytes of a frame
MOST_SOURCES = 1 << 10  # of an interface, that are told apart
MOST_INTERFACES = 4096  # that the program takes
VIRTUAL_LINK = b"\x03\0\0\0"  # a destination address of one begins with it
SECTION = b"\x0a\x0d\x0d\x0a"
INTERFACE, OLD_PACKET, SIMPLE_PACKET, PACKET = 1, 2, 3, 6
PACKETS = (PACKET, OLD_PACKET, SIMPLE_PACKET)
LEAST = {INTERFACE: 20, OLD_PACKET: 32, SIMPLE_PACKET: 16, PACKET: 32}  # bytes of a block
NO_FRAMES = (0x0BAD, 0x4000_0BAD, 9)  # custom blocks and journals, which have numbers too
NAME = 2  # the option of an interface that is its name
OTHERS = b""  # the source of frames beyond those that are told apart
ORDERS = {b"\x4d\x3c\x2b\x1a": "<", b"\x1a\x2b\x3c\x4d": ">"}


class Source(NamedTuple):
    """How many AFDX frames have a source address, and the number of the first."""

    frames: int
    first: int


@dataclass
class Interface:
    """An interface: its name (None where the recording has none), what it is called in a later
    section if that is another name, and its AFDX frames by their source addresses."""

    name: str | None
    other: str | None = None
    sources: dict[bytes, Source] = field(default_factory=dict)

    def add(self, source: bytes, first: int, count: int = 1) -> None:
        """AFDX frames with this source address, and the number of the first of them."""
        if source not in self.sources and len(self.sources) >= MOST_SOURCES:
            source = OTHERS
        frames, first = self.sources.get(source, (0, first))
        self.sources[source] = Source(frames + count, first)

    @property
    def frames(self) -> int:
        """All of its AFDX frames."""
        return sum(source.frames for source in self.sources.values())


class Pieces:
    """A file as it is read: the bytes that are looked at, from `at` on. `report` is called with how
    many were read."""

    def __init__(self, file: BinaryIO, report: Callable[[int], None]) -> None:
        self.file, self.report, self.read = file, report, 0
        self.bytes, self.at = b"", 0

    def more(self, size: int) -> bytes:
        """The next bytes, so many if the file has them."""
        more = self.file.read(size)
        self.read += len(more)
        self.report(self.read)
        return more

    def hold(self, size: int) -> bool:
        """Has so many bytes at hand; false where the file ends before."""
        while len(self.bytes) - self.at < size:
            more = self.more(max(PIECE, size))
            if not more:
                return False
            self.bytes, self.at = self.bytes[self.at :] + more, 0
        return True

    def skip(self, size: int) -> bool:
        """Passes over so many bytes; false where the file ends before."""
        while size > len(self.bytes) - self.at:
            size -= len(self.bytes) - self.at
            self.bytes, self.at = self.more(PIECE), 0
            if not self.bytes:
                return False
        self.at += size
        return True


class Heads:
    """The heads of frames at each interface, both addresses: each with how often it came and the
    number of the first."""

    def __init__(self) -> None:
        self.counts: dict[int, dict[bytes, int]] = defaultdict(dict)
        self.firsts: dict[int, dict[bytes, int]] = defaultdict(dict)

    def give(self, interfaces: list[Interface]) -> None:
        """Adds those of AFDX frames to their interfaces, and forgets all."""
        for place, firsts in self.firsts.items():
            for head, first in firsts.items():
                if head.startswith(VIRTUAL_LINK):
                    interfaces[place].add(head[6:12], first, self.counts[place][head])
        self.counts.clear()
        self.firsts.clear()


# ---- pcap ----------------------------------------------------------------------------------------


class Records:
    """A pcap as it is read: its interface, the heads of its frames, and the number of the latest.
    """

    def __init__(self, order: str) -> None:
        self.captured = struct.Struct(order + "8xI").unpack_from
        self.interfaces, self.heads, self.number = [Interface(None)], Heads(), 0

    def packets(self, pieces: Pieces) -> int:
        """Passes over the frames that are at hand as a whole; the bytes that the next one needs."""
        data, at, end, needed = pieces.bytes, pieces.at, len(pieces.bytes), 16
        counts, firsts = self.heads.counts[0], self.heads.firsts[0]
        while at + 16 <= end:
            (captured,) = self.captured(data, at)
            if at + 16 + captured > end:
                needed = 16 + captured
                break
            self.number += 1
            if captured >= 12:
                head = data[at + 16 : at + 28]
                try:
                    counts[head] += 1
                except KeyError:
                    counts[head], firsts[head] = 1, self.number
            at += 16 + captured
        pieces.at = at
        self.heads.give(self.interfaces)
        return needed


def read_pcap(pieces: Pieces) -> list[Interface]:
    """The one interface of a pcap."""
    records = Records("<" if pieces.bytes[0] in (0xD4, 0x4D) else ">")
    is_there = pieces.skip(24)
    while is_there:
        needed = records.packets(pieces)
        is_there = needed <= 16 + MOST_CAPTURED and pieces.hold(needed)
    return records.interfaces


# ---- pcapng --------------------------------------------------------------------------------------


class Sections:
    """A pcapng as it is read: its interfaces, how many its latest section has described, and the
    number of the latest frame."""

    def __init__(self) -> None:
        self.interfaces: list[Interface] = []
        self.described, self.number, self.heads = 0, 0, Heads()
        self.set_order("<")

    def begin(self, magic: bytes) -> bool:
        """A section; false where no one can say in which order its bytes stand."""
        self.described = 0
        self.set_order(ORDERS.get(magic, "<"))
        return magic in ORDERS

    def set_order(self, order: str) -> None:
        """The order of the bytes of a number."""
        self.order = order
        self.numbers = struct.Struct(order + "II").unpack_from
        self.packet_head = struct.Struct(order + "III8xI4x12s").unpack_from

    def describe(self, body: bytes) -> None:
        """An interface, by the body of its block."""
        name = self.name_in(body)
        if self.described == len(self.interfaces):
            self.interfaces.append(Interface(name))
        elif name != self.interfaces[self.described].name:
            self.interfaces[self.described].other = name or "(no name)"
        self.described += 1

    def name_in(self, body: bytes) -> str | None:
        """The name that an interface has among the options of its block."""
        at = 8
        while len(body) - at >= 4:
            code, size = struct.unpack_from(self.order + "HH", body, at)
            if code == 0:
                break
            if code == NAME:
                return body[at + 4 : at + 4 + size].rstrip(b"\0").decode("utf-8", "replace")
            at += 4 + size + -size % 4
        return None

    def packets(self, pieces: Pieces) -> None:
        """Passes over the frames in packet blocks, up to a block that isn't one, or that isn't at
        hand as a whole."""
        data, at, end = pieces.bytes, pieces.at, len(pieces.bytes)
        counts, firsts = self.heads.counts, self.heads.firsts
        while at + 44 <= end:
            kind, size, place, captured, head = self.packet_head(data, at)
            if kind != PACKET or not 12 <= captured <= size - 32 or at + size > end:
                break
            if place >= self.described:
                break
            self.number += 1
            try:
                counts[place][head] += 1
            except KeyError:
                counts[place][head], firsts[place][head] = 1, self.number
            at += size
        pieces.at = at
        self.heads.give(self.interfaces)

    def packet(self, data: bytes, at: int, kind: int, size: int) -> bool:
        """A frame, whose block is at that place; false where its interface isn't described."""
        if kind == SIMPLE_PACKET:
            place, begin = 0, at + 12
            (captured,) = struct.unpack_from(self.order + "I", data, at + 8)
        else:
            place, captured = struct.unpack_from(self.order + "I8xI", data, at + 8)
            begin = at + 28
        if kind == OLD_PACKET:
            (place,) = struct.unpack_from(self.order + "H", data, at + 8)
        if place >= self.described:
            return False
        self.number += 1
        is_whole = captured >= 12 and begin + 12 <= at + size - 4
        if is_whole and data.startswith(VIRTUAL_LINK, begin):
            self.interfaces[place].add(data[begin + 6 : begin + 12], self.number)
        return True

    def block(self, pieces: Pieces, kind: int, size: int) -> bool:
        """A block that is at hand as a whole; false where the reading has to stop."""
        data, at = pieces.bytes, pieces.at
        pieces.at += size
        if kind == INTERFACE:
            self.describe(data[at + 8 : at + size - 4])
            return self.described <= MOST_INTERFACES
        return kind not in PACKETS or self.packet(data, at, kind, size)


def read_pcapng(pieces: Pieces) -> list[Interface]:
    """The interfaces of a pcapng. Those of a later section have to be those of the first."""
    sections = Sections()
    while pieces.hold(12):
        sections.packets(pieces)
        if not pieces.hold(12):
            break
        if pieces.bytes.startswith(SECTION, pieces.at):
            if not sections.begin(pieces.bytes[pieces.at + 8 : pieces.at + 12]):
                break
        kind, size = sections.numbers(pieces.bytes, pieces.at)
        is_looked_into = kind in PACKETS or kind == INTERFACE
        if size < LEAST.get(kind, 12) or size % 4 or (is_looked_into and size > LONGEST):
            break
        if kind in NO_FRAMES:
            sections.number += 1
        there = pieces.hold(size) if is_looked_into else pieces.skip(size)
        if not there or (is_looked_into and not sections.block(pieces, kind, size)):
            break
    return sections.interfaces


def interfaces_of(path: str, report: Callable[[int], None] = lambda count: None) -> list[Interface]:
    """The interfaces of a recording by their numbers; none where it is no recording."""
    with open(path, "rb") as file:
        pieces = Pieces(file, report)
        if not pieces.hold(4) or pieces.bytes[:4] not in HEADS:
            return []
        if pieces.bytes[:4] == SECTION:
            return read_pcapng(pieces)
        return read_pcap(pieces)
