"""Recordings made at random: of both forms, with either byte first, of all kinds of blocks, units
and options; and recordings with bytes changed."""
from __future__ import annotations

import random
import re
from typing import NamedTuple

from frames import FIRST, HELLO, frame_of
from recorded import SECTION, Order

ORDERS: tuple[Order, ...] = ("little", "big")
START = 1_700_000_000  # s since 1970
A_SECOND = 10**9  # ns
RESOLUTIONS = [0, 1, 2, 3, 6, 9, 10, 128, 130, 138, 148, 158, 160, 162]
FINE = [11, 12, 15, 18, 19, 30, 127, 163, 168, 180, 191, 192, 255]
# the head of a pcap in ns, low byte first, which doesn't say whether there are check sequences
PCAP_NS = bytes.fromhex("4d3cb2a1 02000400 00000000 00000000 00000400 01000000")
# time, side and bytes of a list's line
LINE = re.compile(rb"[FBR] (\d{1,18}) ([AB]) \d+ ([0-9a-fA-F]*)")
SENDERS = {1: FIRST, 2: FIRST | {"port": 2, "id": 2}}


def content(chance: random.Random, is_sealed: bool) -> bytes:
    """The bytes of a frame: mostly one of a link of the base tables, else one that is skipped."""
    vl, side = chance.choice([1, 2]), chance.choice("AB")
    size = chance.choice([0, 5, 17, 18, 100, 1471, chance.randrange(1472)])
    if chance.random() < 0.02:
        size = chance.choice([1949, 1953, 1954, 1957, 1958, 2500])
    number = chance.randrange(256)
    frame = frame_of(SENDERS[vl], vl, 1000 * vl, chance.randbytes(size), number, side)
    kind = chance.randrange(20)
    if kind == 0:
        frame = chance.randbytes(6) + frame[6:]
    elif kind == 1:
        frame = frame[:6] + b"\x02\0\0\0\x09" + frame[11:]
    elif kind == 2:
        frame = frame[:11] + b"\x60" + frame[12:]
    elif kind == 3:
        frame = frame[: chance.randrange(14)]
    return frame if is_sealed else frame[:-4]


def lengths(chance: random.Random, frame: bytes) -> tuple[bytes, int]:
    """What was captured of a frame, and its length on the wire."""
    kind = chance.randrange(200)
    if kind == 0:
        return frame[: chance.randrange(len(frame) + 1)], len(frame)
    if kind == 1:
        return frame, len(frame) + 4
    return frame, len(frame) - 1 if kind == 2 and frame else len(frame)


class Clock:
    """Moments in ns, the first one of so many. They go back in some recordings, where the program
    puts arrivals in order."""

    def __init__(self, chance: random.Random, spread: int) -> None:
        self.chance, self.first = chance, START * 10**9
        self.moment = self.first + chance.randrange(spread)
        self.most_back = chance.choice([0, 0, 1, 1000, 10**6, 10**7]) if ORDERS else 0

    def tick(self) -> int:
        """The next moment."""
        self.moment += self.chance.choice([0, 1, 999, 1000, 123_456, 500_000, 10**6])
        if self.most_back == 0 or self.chance.random() < 0.6:
            return self.moment
        return max(self.moment - self.chance.randint(1, self.most_back), self.first)


class Interface(NamedTuple):
    """How stamps of an interface are written, and whether its frames are sealed."""

    units: int
    offset: int
    is_sealed: bool


def made_pcap(chance: random.Random, spread: int = A_SECOND) -> bytes:
    """A pcap."""
    order, unit, clock = chance.choice(ORDERS), chance.choice([1, 1000]), Clock(chance, spread)

    def numbers(*values: int, size: int = 4) -> bytes:
        return b"".join(value.to_bytes(size, order) for value in values)

    said = chance.choice([None, None, 0, 2, 1])
    word = 1 if said is None else said << 28 | 1 << 26 | 1
    if chance.random() < 0.05:
        word = chance.choice([105, 0x0800_0001])
    head = numbers(0xA1B2C3D4 if unit == 1000 else 0xA1B23C4D) + numbers(2, 4, size=2)
    data = head + numbers(0, 0, 262_144, word)
    for _ in range(chance.randrange(12)):
        frame, original = lengths(chance, content(chance, said == 2 or chance.random() < 0.01))
        seconds, fraction = divmod(clock.tick(), 10**9)
        data += numbers(seconds, fraction // unit, len(frame), original) + frame
    return data


class Blocks:
    """Writes the blocks of a section."""

    def __init__(self, chance: random.Random, clock: Clock, resolutions: list[int]) -> None:
        self.chance, self.clock, self.resolutions = chance, clock, resolutions
        self.order = chance.choice(ORDERS)
        self.interfaces: list[Interface] = []

    def numbers(self, *values: int, size: int = 4) -> bytes:
        """Numbers, one after the other."""
        return b"".join(value.to_bytes(size, self.order) for value in values)

    def filled(self, data: bytes) -> bytes:
        """The bytes, filled up to a multiple of 4, not always with zeros."""
        return data + self.chance.choice([b"\0", b"\xa5"]) * (-len(data) % 4)

    def block(self, kind: int, body: bytes) -> bytes:
        """A block."""
        body = self.filled(body)
        size = self.numbers(len(body) + 12)
        return self.numbers(kind) + size + body + size

    def options(self, *known: tuple[int, bytes]) -> bytes:
        """Options that count, in some order, with others between them."""
        chance = self.chance
        others = [(1, b"a comment"), (1, b""), (2988, b"\0\x7e\xd9\0own")]
        every = [*known, *(each for each in others if chance.random() < 0.2)]
        chance.shuffle(every)
        text = b""
        for code, value in every:
            text += self.numbers(code, len(value), size=2) + self.filled(value)
        return text + (bytes(4) if chance.random() < 0.5 else b"")

    def section(self) -> bytes:
        """The block with which the section begins; its length is rarely said."""
        version = self.numbers(1, self.chance.choice([0, 0, 2]), size=2)
        body = self.numbers(0x1A2B3C4D) + version + b"\xff" * 8
        return self.block(SECTION, body + self.options((4, b"made")))

    def interface(self) -> bytes:
        """The description of one more interface."""
        chance, known = self.chance, []
        power = chance.choice(self.resolutions)
        units = 2 ** (power - 128) if power >= 128 else 10**power
        offset = START if (START + 60) * units >= 2**64 else chance.choice([0, 0, 5, -5, START])
        said = chance.choice([None, None, 0, 4, 3])
        if power != 6 or chance.random() < 0.5:
            known += [(9, bytes([power]))] * chance.choice([1, 1, 1, 2])
        if offset or chance.random() < 0.2:
            known.append((14, offset.to_bytes(8, self.order, signed=True)))
        if said is not None:
            known.append((13, bytes([said])))
        self.interfaces.append(Interface(units, offset, said == 4))
        link_type = 105 if chance.random() < 0.03 else 1
        snap = self.numbers(chance.choice([0, 262_144, 65_535]))
        body = self.numbers(link_type, 0, size=2) + snap + self.options(*known)
        return self.block(1, body)

    def packet(self, is_old: bool = False) -> bytes:
        """An enhanced packet, or an old one."""
        chance, place = self.chance, self.chance.randrange(len(self.interfaces))
        interface = self.interfaces[place]
        moment = self.clock.tick() - interface.offset * 10**9
        ticks = min(moment * interface.units // 10**9, 2**64 - 1)
        is_sealed, known = interface.is_sealed or chance.random() < 0.01, []
        if chance.random() < 0.1:
            flags = chance.choice([0, 1, 2, 0x80, 0x80, 0x0100_0000, 0x0100_0080])
            is_sealed = is_sealed or flags & 0x80 != 0
            known.append((2, self.numbers(flags)))
        frame, original = lengths(chance, content(chance, is_sealed))
        head = self.numbers(place, 7, size=2) if is_old else self.numbers(place)
        head += self.numbers(ticks >> 32, ticks & 0xFFFF_FFFF, len(frame), original)
        return self.block(2 if is_old else 6, head + self.filled(frame) + self.options(*known))

    def statistics(self) -> bytes:
        """What was lost at an interface."""
        place = self.chance.randrange(len(self.interfaces))
        drops = [(code, self.numbers(self.chance.randrange(100), size=8)) for code in (4, 5, 7)]
        known = [each for each in drops if self.chance.random() < 0.7]
        return self.block(5, self.numbers(place, 0, 0) + self.options(*known))

    def simple_packet(self) -> bytes:
        """A packet without a stamp."""
        frame = content(self.chance, self.interfaces[0].is_sealed)
        return self.block(3, self.numbers(len(frame)) + frame)

    def other(self) -> bytes:
        """A block that is no packet: custom, a journal, names, secrets, one that no one knows."""
        return self.chance.choice(
            [
                self.block(0x0BAD, self.numbers(32_473) + b"any bytes"),
                self.block(0x4000_0BAD, self.numbers(32_473)),
                self.block(9, b"__REALTIME_TIMESTAMP=1700000000000000\n"),
                self.block(4, self.numbers(1, 7, size=2) + b"\x0a\0\0\x01s1\0\0" + bytes(4)),
                self.block(10, self.numbers(0x544C534B, 4) + b"keys"),
                self.block(0x8000_0001, self.chance.randbytes(self.chance.randrange(40))),
            ]
        )


def made_section(chance: random.Random, clock: Clock, resolutions: list[int]) -> bytes:
    """A section: interfaces, then blocks of all kinds and more interfaces."""
    blocks = Blocks(chance, clock, resolutions)
    data = blocks.section() + blocks.interface()
    has_simple = chance.random() < 0.1
    for _ in range(chance.randrange(16)):
        kind = chance.randrange(16)
        if kind == 0 and len(blocks.interfaces) < 6:
            data += blocks.interface()
        elif kind == 1:
            data += blocks.statistics()
        elif kind == 2:
            data += blocks.other()
        elif kind == 3 and has_simple:
            data += blocks.simple_packet()
        else:
            data += blocks.packet(is_old=kind == 4)
    return data


def made_pcapng(chance: random.Random, is_fine: bool = False, spread: int = A_SECOND) -> bytes:
    """A pcapng; if it is fine, in units finer than those that tshark computes with."""
    known, clock = FINE if is_fine else RESOLUTIONS, Clock(chance, spread)
    resolutions = known if chance.random() < 0.3 else [chance.choice(known)]
    sections = chance.choice([1, 1, 1, 2, 3])
    return b"".join(made_section(chance, clock, resolutions) for _ in range(sections))


def made(chance: random.Random, spread: int = A_SECOND) -> bytes:
    """A recording of any form."""
    is_pcap, is_fine = chance.random() < 0.3, chance.random() < 0.3
    return made_pcap(chance, spread) if is_pcap else made_pcapng(chance, is_fine, spread)


def mutated(data: bytes, chance: random.Random) -> bytes:
    """The bytes with up to four changes."""
    changed = bytearray(data)
    for _ in range(chance.randint(1, 4)):
        place = chance.randrange(len(changed)) if changed else 0
        kind = chance.randrange(6)
        if kind == 0:
            changed[place : place + 1] = bytes([chance.choice([0, 1, 255, chance.randrange(256)])])
        elif kind == 1:
            del changed[place : place + chance.randint(1, 16)]
        elif kind == 2:
            changed[place : place + 4] = chance.choice([b"\xff\xff\xff\xff", b"\0\0\0\0", b"\0"])
        elif kind == 3:
            word = place - place % 4
            changed[word : word + 4] = chance.randrange(300).to_bytes(4, chance.choice(ORDERS))
        elif kind == 4:
            changed[place:place] = changed[chance.randrange(len(changed) + 1) :][: 4 * place]
        else:
            del changed[max(place, 4) :]
    return bytes(changed)


def recorded_at(time: int, frame: bytes) -> bytes:
    """A frame in a pcap in ns, low byte first, so many ns after the first second."""
    seconds, ns = divmod(START * 10**9 + time, 10**9)
    head = (seconds, ns, len(frame), len(frame))
    return b"".join(each.to_bytes(4, "little") for each in head) + frame


def of_each_length() -> bytes:
    """A pcap of frames of link 1, one of each length, up to some that no switch takes."""
    chance, start = random.Random("each length"), HELLO[:12]
    lengths_behind = range(2_100 - len(start))
    frames = [start + chance.randbytes(length) for length in lengths_behind]
    return PCAP_NS + b"".join(recorded_at(10**6 * at, frame) for at, frame in enumerate(frames))


def shuffled(frames: list[bytes], chance: random.Random) -> list[bytes]:
    """The frames, each not too far from where it stood."""
    spread = chance.choice([0, 2, 5, len(frames)])
    places = [place + chance.random() * spread for place in range(len(frames))]
    return [frames[place] for place in sorted(range(len(frames)), key=places.__getitem__)]


def pcap_of(text: bytes, chance: random.Random, sides: bytes = b"AB") -> bytes:
    """The frames of a list, in a pcap in ns that doesn't say whether they end with their check
    sequence; those of these sides. Lines that are none are left out. Some stand out of order, where
    the program puts arrivals in order."""
    frames = []
    for line in text.split(b"\n"):
        found = LINE.fullmatch(line.removesuffix(b"\r"))
        if found and found[2] in sides and len(found[3]) % 2 == 0:
            frame = bytes.fromhex(found[3].decode())
            frames.append(recorded_at(min(int(found[1]), 10**16), frame))
    return PCAP_NS + b"".join(shuffled(frames, chance) if ORDERS else frames)


def made_data(kind: str, number: int | str) -> bytes:
    """A recording made at random, the same for the same words; those of a kind `pcap` have that
    form, those of a kind `mutated` have bytes changed."""
    chance = random.Random(f"{kind}/{number}")
    data = made_pcap(chance) if "pcap" in kind else made(chance)
    return mutated(data, chance) if "mutated" in kind else data


def made_pair(kind: str, number: int | str) -> tuple[bytes, bytes]:
    """Two recordings of about the same time, made at random; of a kind `mutated` one of them has
    bytes changed, or both."""
    chance = random.Random(f"pair/{kind}/{number}")
    spread = chance.choice([1, 1000, 10**6])
    one, other = made(chance, spread), made(chance, spread)
    if chance.random() < 0.1:
        other = one
    if "mutated" not in kind:
        return one, other
    changed = chance.choice("AAABBB*")
    one = mutated(one, chance) if changed in "A*" else one
    return one, mutated(other, chance) if changed in "B*" else other
