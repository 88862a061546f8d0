"""Systems that send link 1 in a wrong way, one each, and what must be found of each by exact
stamps: the lines of the frames that are amiss, and no other."""
from __future__ import annotations

import random
from collections.abc import Callable, Iterable, Iterator

import frame_builder
import tables as made
from conform_terms import Options
from frames import frame_of, number_of, raw_line, sealed
from one_switch import MS
from sender_source import MOST_APART, Way

TABLES = made.base_tables()
TABLES["link"][0] |= {"lmin": 70, "lmax": 100}
CONFIG = made.text_of(TABLES)
OWN, OTHER = TABLES["system"][:2]
BAG, JITTER = MS, 500_000
COUNT, END = 20, 3 * MOST_APART  # messages; when the recordings end
MESSAGE = b"a message of thirty-three letters"
APART = Way(1_000_000, 17_000, 80).leaves(80)  # how far apart copies may be sent
PLACES = (5, 9, 14)  # of the messages that are tried
SIDES = "AB"


class Put:
    """A frame: when it is sent, on which side, at which port, and its bytes."""

    def __init__(self, time: int, side: int, content: bytes, port: int = 1) -> None:
        self.time, self.side, self.content, self.port = time, side, content, port

    def change(self, at: int, new: bytes) -> None:
        """Other bytes from there on, sealed again."""
        kept = self.content[:-4]
        self.content = sealed(kept[:at] + new + kept[at + len(new):])


Finding = tuple[str, Put, object]  # its word, its frame, and what stands behind the place


def content(place: int, side: int, payload: bytes = MESSAGE, least: int = 64) -> bytes:
    """The frame with the number of that place."""
    return frame_of(OWN, 1, 1000, payload, number_of(place), SIDES[side], least)


class Sending:
    """Messages a BAG apart, on both sides at one time."""

    def __init__(self) -> None:
        self.options = Options(until=END)
        self.sides = [[Put((place + 1) * BAG, side, content(place, side)) for place in range(COUNT)]
                      for side in (0, 1)]
        self.more: list[Put] = []  # frames beside these
        self.gone: list[Put] = []

    def both(self, place: int) -> tuple[Put, Put]:
        """The copies of a message."""
        return self.sides[0][place], self.sides[1][place]

    def all(self) -> list[Put]:
        """All frames, in their order."""
        every = [*self.sides[0], *self.sides[1], *self.more]
        kept = [each for each in every if each not in self.gone]
        return sorted(kept, key=lambda each: (each.time, each.side))

    def text(self) -> bytes:
        """What was recorded, as a list."""
        return b"".join(raw_line(each.time, SIDES[each.side], each.port, each.content)
                        for each in self.all())

    def lines(self, findings: Iterable[Finding]) -> list[str]:
        """Lines of these frames."""
        number = {id(each): line for line, each in enumerate(self.all(), 1)}
        return [f"{word} {number[id(put)]} {SIDES[put.side]} {put.port} {more}".rstrip()
                for word, put, more in findings]


Wrong = Callable[[Sending, int, int], Iterator[Finding]]


def missed(sent: Sending, side: int, at: int) -> Iterator[Finding]:
    """What is found where a frame of this side doesn't count."""
    yield "number", sent.sides[side][at + 1], at
    yield "single", sent.sides[1 - side][at], ""


def lost(sent: Sending, side: int, at: int) -> Iterator[Finding]:
    """A frame is not sent."""
    sent.gone.append(sent.sides[side][at])
    yield from missed(sent, side, at)


def silent(sent: Sending, side: int, at: int) -> Iterator[Finding]:
    """From a message on one network gets none."""
    sent.gone += sent.sides[side][at:]
    for put in sent.sides[1 - side][at:]:
        yield "single", put, ""


def doubled(sent: Sending, side: int, at: int) -> Iterator[Finding]:
    """A frame is sent twice."""
    put = sent.sides[side][at]
    sent.more.append(Put(put.time, side, put.content))
    yield "number", sent.more[0], at + 1
    yield "soon", sent.more[0], BAG - JITTER
    yield "single", sent.more[0], ""


# ---- times ---------------------------------------------------------------------------------------


def late(sent: Sending, side: int, at: int) -> Iterator[Finding]:
    """A frame is sent a nanosecond later behind its copy than it may."""
    sent.sides[side][at].time += APART + 1
    yield "apart", sent.sides[side][at], 1
    yield "soon", sent.sides[side][at + 1], APART + 1 - JITTER


def early(sent: Sending, side: int, at: int) -> Iterator[Finding]:
    """A frame is sent a nanosecond sooner than the jitter allows."""
    sent.sides[side][at].time -= JITTER + 1
    yield "soon", sent.sides[side][at], 1


def late_and_early(sent: Sending, side: int, at: int) -> Iterator[Finding]:
    """A frame is sent late by the jitter, the next one a nanosecond too early."""
    sent.sides[side][at].time += JITTER
    sent.sides[side][at + 1].time -= 1
    yield "soon", sent.sides[side][at + 1], 1


def bursting(sent: Sending, side: int, at: int) -> Iterator[Finding]:
    """Three messages are sent at once."""
    for place in range(at, at + 3):
        for put in sent.both(place):
            put.time = (at + 3) * BAG
            if place > at:
                yield "soon", put, BAG - JITTER


def too_soon(times: list[int]) -> Iterator[tuple[int, int]]:
    """Which of the frames of one side are too soon, and by how much: from no frame on that wasn't
    may come more than a BAG each allows."""
    kept: list[int] = []
    for place, time in enumerate(times):
        lacks = max([(len(kept) - at) * BAG - (time - begin) for at, begin in enumerate(kept)],
                    default=0)
        if lacks > JITTER:
            yield place, lacks - JITTER
        else:
            kept.append(time)


def too_often(sent: Sending, side: int, at: int) -> Iterator[Finding]:
    """Messages are sent less than a BAG apart."""
    period = BAG - 10_000 * at
    for puts in sent.sides:
        for place, put in enumerate(puts):
            put.time = place * period
        for place, by in too_soon([put.time for put in puts]):
            yield "soon", puts[place], by


def far(sent: Sending, side: int) -> Iterator[Finding]:
    """What is found where the frames of a side come behind their copies."""
    for put, copy in zip(sent.sides[side], sent.sides[1 - side]):
        if put.time - copy.time > APART:
            yield "apart", put, put.time - copy.time - APART


def running_off(sent: Sending, side: int, at: int) -> Iterator[Finding]:
    """One network gets its frames by a slower clock."""
    for put in sent.sides[side]:
        put.time += put.time // (at + 2)
    yield from far(sent, side)


def behind(sent: Sending, side: int, at: int) -> Iterator[Finding]:
    """One network gets each frame a BAG later."""
    for put in sent.sides[side]:
        put.time += BAG
    yield from far(sent, side)


# ---- numbers -------------------------------------------------------------------------------------


def renumbered(sent: Sending, side: int, at: int) -> Iterator[Finding]:
    """A frame has another number."""
    put = sent.sides[side][at]
    put.content = content(at + 100, side)
    yield "number", put, at
    yield "number", sent.sides[side][at + 1], at + 101
    yield "single", put, ""
    yield "single", sent.sides[1 - side][at], ""


def repeating(sent: Sending, side: int, at: int) -> Iterator[Finding]:
    """A frame has the number of the one before it."""
    put = sent.sides[side][at]
    put.content = content(at - 1, side)
    yield "number", put, at
    yield "number", sent.sides[side][at + 1], at
    yield "single", put, ""
    yield "single", sent.sides[1 - side][at], ""


def swapped(sent: Sending, side: int, at: int) -> Iterator[Finding]:
    """One network gets two messages in the other order."""
    first, second, third = sent.sides[side][at: at + 3]
    first.content, second.content = second.content, first.content
    yield from (("number", first, at), ("number", second, at + 2), ("number", third, at + 1))
    yield "apart", second, BAG - APART
    yield "apart", sent.sides[1 - side][at + 1], BAG - APART


def numbered(sent: Sending, at: int, first: int) -> None:
    """From a message on they have the numbers of other places, from this one on."""
    for place in range(at, COUNT):
        for put in sent.both(place):
            put.content = content(first + place - at, put.side)


def skipping(sent: Sending, side: int, at: int) -> Iterator[Finding]:
    """A number is left out on both networks."""
    numbered(sent, at, at + 1)
    yield from (("number", put, at) for put in sent.both(at))


def reset(sent: Sending, side: int, at: int) -> Iterator[Finding]:
    """The numbers begin again with 0."""
    numbered(sent, at, 0)
    yield from (("number", put, at) for put in sent.both(at))


def begun(sent: Sending, side: int, at: int) -> Iterator[Finding]:
    """The first number isn't 0."""
    numbered(sent, 0, at)
    yield from (("number", put, 0) for put in sent.both(0))


def through_zero(sent: Sending, side: int, at: int) -> Iterator[Finding]:
    """0 stands behind 255."""
    numbered(sent, 0, 256 - at)
    numbered(sent, at, 0)
    sent.options = sent.options._replace(start=0)
    yield from (("number", put, 1) for put in sent.both(at))


# ---- bytes ---------------------------------------------------------------------------------------


def other_message(sent: Sending, side: int, at: int) -> Iterator[Finding]:
    """The networks get other messages."""
    sent.sides[side][at].content = content(at, side, MESSAGE[::-1])
    yield "differs", sent.sides[1][at], ""


def other_length(sent: Sending, side: int, at: int) -> Iterator[Finding]:
    """A message has a letter more on one network."""
    sent.sides[side][at].content = content(at, side, MESSAGE + b"s")
    yield "differs", sent.sides[1][at], ""


def identified(sent: Sending, side: int, at: int) -> Iterator[Finding]:
    """The copies have other identifications, each with a right checksum."""
    put = sent.sides[side][at]
    head = bytearray(put.content[14:34])
    head[4:6], head[10:12] = b"\0\x07", bytes(2)
    head[10:12] = frame_builder.header_checksum(bytes(head)).to_bytes(2, "big")
    put.change(14, bytes(head))
    yield "differs", sent.sides[1][at], ""


def crossed(sent: Sending, side: int, at: int) -> Iterator[Finding]:
    """A frame has the address of the other network."""
    sent.sides[side][at].content = content(at, 1 - side)
    yield "unlawful", sent.sides[side][at], "not-its-address"


def too_much(sent: Sending, side: int, at: int) -> Iterator[Finding]:
    """A message is a byte too long for its link."""
    for put in sent.both(at):
        put.content = content(at, put.side, bytes(54))
        yield "unlawful", put, "over-lmax"


def too_little(sent: Sending, side: int, at: int) -> Iterator[Finding]:
    """A message is a byte too short for its link."""
    for put in sent.both(at):
        put.content = content(at, put.side, b"", 69)
        yield "unlawful", put, "under-lmin"


def damage(word: str, change: Callable[[bytes], bytes]) -> Wrong:
    """A frame is damaged."""

    def damaged(sent: Sending, side: int, at: int) -> Iterator[Finding]:
        put = sent.sides[side][at]
        put.content = change(put.content)
        yield "unlawful", put, word
        yield from missed(sent, side, at)

    damaged.__doc__ = f"A frame is {word}."
    return damaged


def header(word: str, at_byte: int, new: str) -> Wrong:
    """A frame has a header that no receiver takes."""

    def headed(sent: Sending, side: int, at: int) -> Iterator[Finding]:
        put = sent.sides[side][at]
        put.change(at_byte, bytes.fromhex(new))
        yield "unlawful", put, word
        yield "differs", sent.sides[1][at], ""

    headed.__doc__ = f"A frame is {word}, by byte {at_byte}."
    return headed


def field(word: str, **changes: int) -> Wrong:
    """The same on both networks, with a checksum that is right."""

    def built(sent: Sending, side: int, at: int) -> Iterator[Finding]:
        for put in sent.both(at):
            put.content = sealed(frame_builder.frame_of(
                OWN["id"], OWN["partition"], 1, MESSAGE, number_of(at), SIDES[put.side], 1000,
                **changes))
            yield "unlawful", put, word

    built.__doc__ = f"A message is {word} on both networks."
    return built


# ---- frames of others ----------------------------------------------------------------------------


def anothers(sent: Sending, side: int, at: int) -> Iterator[Finding]:
    """Another system sends a frame of the link."""
    copy = sent.sides[side][at]
    sent.more.append(Put(copy.time, side, copy.content, OTHER["port"]))
    yield "unlawful", sent.more[0], "not-its-link"


def another_link(sent: Sending, side: int, at: int) -> Iterator[Finding]:
    """The system sends a frame of another one's link."""
    frame = frame_of(OWN, 2, 2000, MESSAGE, 0, SIDES[side])
    sent.more.append(Put(sent.sides[side][at].time, side, frame))
    yield "unlawful", sent.more[0], "not-its-link"


def no_link(sent: Sending, side: int, at: int) -> Iterator[Finding]:
    """The system sends a frame of no link."""
    frame = frame_of(OWN, 9, 1000, MESSAGE, 0, SIDES[side])
    sent.more.append(Put(sent.sides[side][at].time, side, frame))
    yield "unlawful", sent.more[0], "unknown-link"


def disturbed(frame: bytes) -> bytes:
    """A frame of which a bit turned over."""
    place = random.Random(frame).randrange(14, len(frame))
    return frame[:place] + bytes([frame[place] ^ 16]) + frame[place + 1:]


WRONG_SENDERS: tuple[Wrong, ...] = (
    lost, silent, doubled, late, early, late_and_early, bursting, too_often, running_off, behind,
    renumbered, repeating, swapped, skipping, reset, begun, through_zero, other_message,
    other_length, identified, crossed, too_much, too_little, anothers, another_link, no_link,
    damage("bad-fcs", disturbed), damage("too-short", lambda frame: frame[:63]),
    damage("too-long", lambda frame: frame + bytes(1519 - len(frame))),
    header("not-its-address", 10, "02"), header("not-ipv4", 12, "0806"),
    header("bad-ip-header", 22, "02"), header("bad-udp-length", 38, "0008"),
    field("not-ipv4", ether_type=0x0806), field("fragment", flags=0x2000),
    field("not-udp", protocol=1), field("bad-udp-length", udp_length=12),
    field("bad-ip-header", checksum=1),
)  # fmt: skip
