"""What a recording says, computed apart from the program: pcap (draft-ietf-opsawg-pcap) and pcapng
(draft-ietf-opsawg-pcapng) as docs/RECORDINGS.md takes them. No package reads the bytes."""
from __future__ import annotations

from typing import Iterator, Literal, NamedTuple

Order = Literal["little", "big"]  # of bytes

MOST_CAPTURED = 262_144  # bytes of a frame
LONGEST = 16_777_216  # bytes of a block that is looked into
MOST_INTERFACES = 4_096  # of a section
LATEST = 2**63 - 1  # ns since 1970

# of each magic number of pcap: the order of bytes, and the ns of a stamp's fraction
PCAPS: dict[str, tuple[Order, int]] = {
    "d4c3b2a1": ("little", 1000),
    "a1b2c3d4": ("big", 1000),
    "4d3cb2a1": ("little", 1),
    "a1b23c4d": ("big", 1),
}
# first bytes of packed files: gzip, bzip2, zstd, xz, zip
MAGICS = ("1f8b", "425a68", "28b52ffd", "fd377a58", "504b0304")
PACKED = tuple(bytes.fromhex(each) for each in MAGICS)
SECTION, INTERFACE, OLD_PACKET, SIMPLE_PACKET, STATISTICS, PACKET = 0x0A0D0D0A, 1, 2, 3, 5, 6
NO_FRAMES = (0x0BAD, 0x4000_0BAD, 9)  # custom blocks and journals: numbered, but no frames
LEAST = {SECTION: 28, INTERFACE: 20, OLD_PACKET: 32, SIMPLE_PACKET: 16, STATISTICS: 24, PACKET: 32}
ORDERS: dict[str, Order] = {"4d3c2b1a": "little", "1a2b3c4d": "big"}

# the options that count, and the bytes of their values
RESOLUTION, CHECK_SEQUENCE, OFFSET = 9, 13, 14
INTERFACE_OPTIONS = {RESOLUTION: 1, CHECK_SEQUENCE: 1, OFFSET: 8}
DROPS = {5: 8, 7: 8}  # frames that the interface, and the operating system, lost
FLAGS = 2
PACKET_OPTIONS = {FLAGS: 4}


class Frame(NamedTuple):
    """A recorded frame."""

    interface: int  # from 0, anew in each section
    link_type: int
    stamp: int | None  # ns since 1970; None where its block has none
    in_range: bool  # the stamp, with its offset and without, is 0 to LATEST, its fraction under 1 s
    original: int  # its length on the wire
    check_sequence: int | None  # the bytes of it at the frame's end; None where that isn't said
    found_wrong: bool  # the recorder found the check sequence wrong
    bytes: bytes


class Recording(NamedTuple):
    """What takes numbers, from 1: a frame, or None for a block that is none. Then the structure
    fault, which is empty where there is none, the frames that the recorder lost, and the most
    interfaces of a section; a pcap has one."""

    numbers: list[Frame | None]
    fault: str
    lost: int
    interfaces: int


class Broken(Exception):
    """A structure fault, by its name."""


class Interface(NamedTuple):
    """An interface of a section, as its block describes it."""

    link_type: int
    snap: int  # the most bytes of a frame; 0 for any
    units: int  # of a stamp, in a second
    offset: int  # s
    check_sequence: int | None
    drops: dict[int, int]  # by option


def must(holds: bool, fault: str = "Damaged") -> None:
    """Ends the reading where something doesn't hold."""
    if not holds:
        raise Broken(fault)


def pcap(data: bytes, order: Order, unit: int) -> Iterator[Frame]:
    """The frames of a pcap."""

    def number(at: int, size: int = 4) -> int:
        return int.from_bytes(data[at : at + size], order)

    must(len(data) >= 24, "Ended")
    must((number(4, 2), number(6, 2)) == (2, 4), "BadVersion")
    word, at = number(20), 24
    said = 2 * (word >> 28) if word >> 26 & 1 else None
    while at < len(data):
        must(len(data) - at >= 16, "Ended")
        seconds, fraction = number(at), number(at + 4) * unit
        captured, original = number(at + 8), number(at + 12)
        at += 16
        must(captured <= MOST_CAPTURED)
        must(len(data) - at >= captured, "Ended")
        stamp, is_sound = seconds * 10**9 + fraction, fraction < 10**9
        content = data[at : at + captured]
        yield Frame(0, word & 0x3FF_FFFF, stamp, is_sound, original, said, False, content)
        at += captured


def blocks(data: bytes) -> Iterator[tuple[int, Order, bytes]]:
    """The type, the order of bytes and the body of each block."""
    at = 0
    order: Order = "little"
    while at < len(data):
        must(len(data) - at >= 12, "Ended")
        if data[at : at + 4] == SECTION.to_bytes(4, "big"):
            magic = data[at + 8 : at + 12].hex()
            must(magic in ORDERS)
            order = ORDERS[magic]
        kind = int.from_bytes(data[at : at + 4], order)
        size = int.from_bytes(data[at + 4 : at + 8], order)
        must(size >= LEAST.get(kind, 12) and size % 4 == 0)
        must(size <= LONGEST or kind not in LEAST)
        must(len(data) - at >= size, "Ended")
        must(data[at + size - 4 : at + size] == data[at + 4 : at + 8])
        yield kind, order, data[at + 8 : at + size - 4]
        at += size


class Section:
    """A section of a pcapng: its order of bytes and its interfaces."""

    def __init__(self, order: Order, body: bytes) -> None:
        self.order, self.interfaces = order, list[Interface]()
        version = self.number(body, 4, 2), self.number(body, 6, 2)
        must(version in ((1, 0), (1, 2)), "BadVersion")

    def number(self, body: bytes, at: int, size: int = 4) -> int:
        """A number in a block's body."""
        return int.from_bytes(body[at : at + size], self.order)

    def options(self, body: bytes, at: int, sizes: dict[int, int]) -> dict[int, bytes]:
        """The values of the options that count, which stand from there on; of equal codes that of
        the first."""
        found: dict[int, bytes] = {}
        while at < len(body):
            must(len(body) - at >= 4)
            code, size = self.number(body, at, 2), self.number(body, at + 2, 2)
            if code == 0:
                break
            at += 4
            must(len(body) - at >= size + -size % 4)
            if code in sizes and code not in found:
                must(size == sizes[code])
                found[code] = body[at : at + size]
            at += size + -size % 4
        return found

    def described(self, place: int) -> Interface:
        """An interface of this section."""
        must(place < len(self.interfaces))
        return self.interfaces[place]

    def interface(self, body: bytes) -> Interface:
        """The interface that a block describes."""
        must(len(self.interfaces) < MOST_INTERFACES)
        found = self.options(body, 8, INTERFACE_OPTIONS)
        power = found.get(RESOLUTION, b"\x06")[0]
        units = 2 ** (power - 128) if power >= 128 else 10**power
        offset = int.from_bytes(found.get(OFFSET, b""), self.order, signed=True)
        said = found[CHECK_SEQUENCE][0] if CHECK_SEQUENCE in found else None
        return Interface(self.number(body, 0, 2), self.number(body, 4), units, offset, said, {})

    def statistics(self, body: bytes) -> None:
        """What the recorder lost at an interface; the last word on it counts."""
        drops = self.described(self.number(body, 0)).drops
        for code, value in self.options(body, 12, DROPS).items():
            drops[code] = int.from_bytes(value, self.order)

    def packet(self, body: bytes, place: int) -> Frame:
        """The frame of a packet block that has a stamp."""
        interface = self.described(place)
        ticks = self.number(body, 4) << 32 | self.number(body, 8)
        captured, original = self.number(body, 12), self.number(body, 16)
        must(captured <= MOST_CAPTURED)
        end = 20 + captured + -captured % 4
        must(end <= len(body))
        flags = int.from_bytes(self.options(body, end, PACKET_OPTIONS).get(FLAGS, b""), self.order)
        bare = ticks * 10**9 // interface.units
        stamp = bare + interface.offset * 10**9
        return Frame(
            interface=place,
            link_type=interface.link_type,
            stamp=stamp,
            in_range=bare <= LATEST and 0 <= stamp <= LATEST,
            original=original,
            check_sequence=flags >> 5 & 15 or interface.check_sequence,
            found_wrong=flags >> 24 & 1 == 1,
            bytes=body[20 : 20 + captured],
        )

    def simple_packet(self, body: bytes) -> Frame:
        """The frame of a packet block that has neither interface nor stamp."""
        interface, original = self.described(0), self.number(body, 0)
        captured = min(original, interface.snap or original)
        must(captured <= MOST_CAPTURED)
        must(4 + captured + -captured % 4 <= len(body))
        said = interface.check_sequence
        content = body[4 : 4 + captured]
        return Frame(0, interface.link_type, None, False, original, said, False, content)


def numbered(data: bytes, sections: list[Section]) -> Iterator[Frame | None]:
    """What takes numbers, one by one; adds the sections of a pcapng."""
    if data[:4].hex() in PCAPS:
        yield from pcap(data, *PCAPS[data[:4].hex()])
        return
    for kind, order, body in blocks(data):
        if kind == SECTION:
            sections.append(Section(order, body))
            continue
        section = sections[-1]
        if kind == INTERFACE:
            section.interfaces.append(section.interface(body))
        elif kind == STATISTICS:
            section.statistics(body)
        elif kind in (PACKET, OLD_PACKET):
            yield section.packet(body, section.number(body, 0, 4 if kind == PACKET else 2))
        elif kind == SIMPLE_PACKET:
            yield section.simple_packet(body)
        elif kind in NO_FRAMES:
            yield None


def is_recording(data: bytes) -> bool:
    """Its first four bytes are those of a recording."""
    return data[:4].hex() in PCAPS or data[:4] == SECTION.to_bytes(4, "big")


def is_packed(data: bytes) -> bool:
    """Its first four bytes are those of a packed file."""
    return len(data) >= 4 and data.startswith(PACKED)


def recorded(data: bytes) -> Recording:
    """What the recording says."""
    numbers: list[Frame | None] = []
    sections: list[Section] = []
    fault = ""
    try:
        for each in numbered(data, sections):
            numbers.append(each)
    except Broken as broken:
        fault = str(broken)
    interfaces = [each for section in sections for each in section.interfaces]
    lost = sum(sum(each.drops.values()) for each in interfaces)
    most = max((len(section.interfaces) for section in sections), default=1)
    return Recording(numbers, fault, min(lost, 2**64 - 1), most)
