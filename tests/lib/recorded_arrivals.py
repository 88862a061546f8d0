"""What becomes of the numbers of a recording, and in which order a run takes its arrivals, computed
apart from the program, as docs/RECORDINGS.md has it."""
from __future__ import annotations

import zlib
from bisect import bisect_right, insort
from collections.abc import Iterator
from typing import NamedTuple

from places import LEFT_OUT, said
from reads import HELD, LIVES, ORDERS
from recorded import Frame, is_packed, is_recording, recorded

MAGIC = 4  # bytes that say whether it is a recording
SEALED = 0x2144DF1C  # the check sequence of bytes that end with that of the others
SIDES = {0x20: "A", 0x40: "B"}
SKIPS = ("no-frame", "left-out", "not-afdx", "unknown-sender", "no-network", "before-origin")
BYTE_NS = 8_000  # of a byte at 1 Mbit/s
MS = 10**6  # ns
AT_ONCE = "--line-buffered"
BROKEN = "device Read"  # where more bytes are asked for than there are to come


class Options(NamedTuple):
    """The options of a run on a recording, the port that `police` gives its frames, and the side
    that they have as those of one of two recordings. `conform` has the last two."""

    places: dict[int, str] = {}  # of an interface, as in `--interface K=PLACE`
    fcs: bool | None = None
    origin: int | None = None
    port: int | None = None
    side: str | None = None  # that of all frames, where two recordings are read at once
    reorder: int | None = None
    stamps: str | None = None  # `end` or `start` of a frame
    live: int | None = None  # ms by which a frame may stand late, in the place of `reorder`
    at_once: bool = False  # each line is written at once
    unnamed: str = ""  # the place of an interface that `places` doesn't have
    lefts: frozenset[int] = frozenset()  # interfaces at which frames left the switch

    def place(self, frame: Frame) -> str:
        """What is said of the place of a frame's interface."""
        return self.places.get(frame.interface, self.unnamed)

    def has_left(self, frame: Frame) -> bool:
        """It left the switch."""
        return frame.interface in self.lefts

    def is_start(self, frame: Frame) -> bool:
        """Its stamp is that of its first bit: one word says it, or one of what came and one of what
        left."""
        came, _, left = (self.stamps or "end").partition("-")
        return (left or came if self.has_left(frame) else came) == "start"

    def held(self) -> int:
        """How many arrivals that stand before a frame may have a later moment."""
        if self.reorder is None:
            return 0 if self.at_once else HELD
        return self.reorder

    def is_late(self, moment: int, moments: list[int], greatest: int) -> bool:
        """A frame of this moment goes back too far, behind arrivals of these moments, which ascend,
        and numbers of which this is the greatest stamp."""
        if self.live is not None:
            return moment < greatest - self.live * MS
        return later_than(moment, moments) > self.held()

    def words(self) -> list[str]:
        """The program's words, without those of the port and the side. One that doesn't know the
        order's takes the arrivals as with 0 and `end`."""
        words = [f"--interface={each}={place}" for each, place in self.places.items()]
        if self.fcs is not None:
            words.append(f"--fcs={'yes' if self.fcs else 'no'}")
        if self.origin is not None:
            words.append(f"--origin={self.origin}")
        if ORDERS and self.reorder is not None:
            words.append(f"--reorder={self.reorder}")
        if LIVES and self.live is not None:
            words.append(f"--live={self.live}")
        if ORDERS and self.stamps is not None:
            words.append(f"--stamps={self.stamps}")
        return [*words, AT_ONCE] if self.at_once else words

    def want_recording(self) -> bool:
        """One of the words asks for a recording."""
        return any(word != AT_ONCE for word in self.words())


Port = tuple[str, int]  # of a switch, by its name and its number; one switch alone has no name


class Systems(NamedTuple):
    """What a run knows of the systems: their ports by their numbers, and Mbit/s by port."""

    ports: dict[int, Port]
    rates: dict[Port, int]


class Place(NamedTuple):
    """Where a frame came in: a side and a port, None where nothing says it."""

    side: str | None
    port: Port | None
    is_claimed: bool  # the frame's own bytes say one of them, or the switch
    is_contradicted: bool  # its source address names another side than the options say


class Arrival(NamedTuple):
    """A frame that is an arrival."""

    moment: int  # ns since 1970
    number: int
    frame: Frame
    place: Place


class Skipped(NamedTuple):
    """A number that is no arrival, and why."""

    number: int
    word: str


class Standing(NamedTuple):
    """What stands in a recording before its first fault, that fault, which is empty where there is
    none, the frames that the recorder lost, how many interfaces have a place that it hasn't, and
    the least of them; and the stamp of each number before the fault, None where it has none."""

    arrivals: list[Arrival]
    skipped: list[Skipped]
    fault: str
    lost: int = 0
    unused: int = 0
    absent: int | None = None
    stamps: tuple[int | None, ...] = ()


class Look(NamedTuple):
    """What a run meets where it looks for its next arrival: the numbers that it skips, then that
    arrival, or None with the fault, which is empty at an end without one."""

    skipped: list[Skipped]
    arrival: Arrival | None = None
    fault: str = ""


# ---- what becomes of a number ----------------------------------------------------------------


def systems_of(switches: list[dict]) -> Systems:
    """The systems of a configuration."""
    every = [(switch["name"], system) for switch in switches for system in switch["system"]]
    ports = {system["id"]: (name, system["port"]) for name, system in every}
    return Systems(ports, {(name, system["port"]): system["rate"] for name, system in every})


def senders_port(systems: Systems, content: bytes, switch: str) -> Port | None:
    """The port of the system whose number is in the source address: one of that switch, where it is
    named."""
    is_sender = len(content) >= 11 and content[6:9] == b"\x02\0\0"
    port = systems.ports.get(int.from_bytes(content[9:11], "big")) if is_sender else None
    return port if port is not None and switch in ("", port[0]) else None


def place_of(options: Options, systems: Systems, frame: Frame) -> Place:
    """Where a frame came in."""
    place, content = said(options.place(frame)), frame.bytes
    side = place.side or options.side or ""
    claimed_side = SIDES.get(content[11]) if len(content) >= 12 else None
    claimed_port = senders_port(systems, content, place.switch)
    known = options.port if place.port is None else place.port
    return Place(
        side or claimed_side,
        claimed_port if known is None else (place.switch, known),
        side == "" or known is None,
        side != "" and claimed_side not in (None, side) and not options.has_left(frame),
    )


def is_cut(options: Options, frame: Frame) -> bool:
    """Bytes of the frame are missing, beside its check sequence where the frames have none."""
    missing = frame.original - len(frame.bytes)
    return missing > 0 and not (options.fcs is False and missing == 4)


def is_closed(options: Options, frame: Frame) -> bool | None:
    """It ends with its check sequence; None where that isn't said."""
    ends: dict[int | None, bool] = {4: True, 0: False}
    said = ends.get(frame.check_sequence)
    return said if options.fcs is None else options.fcs


def moment_of(options: Options, systems: Systems, frame: Frame, place: Place) -> int:
    """When the last bit of a frame came, which has a stamp and a port."""
    assert frame.stamp is not None and place.port is not None
    rate = systems.rates.get(place.port)
    if not options.is_start(frame) or rate is None:
        return frame.stamp
    length = len(frame.bytes) + (0 if is_closed(options, frame) else 4)
    return frame.stamp + length * BYTE_NS // rate


def stamp_of(frame: Frame | None) -> int | None:
    """The stamp of a number, if it has one that can be."""
    return frame.stamp if frame is not None and frame.in_range else None


def later_than(moment: int, moments: list[int]) -> int:
    """How many of these are later; they ascend."""
    return len(moments) - bisect_right(moments, moment)


def outcomes(
    options: Options,
    systems: Systems,
    frame: Frame | None,
    place: Place | None,
    moments: list[int],
    greatest: int,
) -> Iterator[str]:
    """What becomes of a number, by the first word; an arrival has none. Words of SKIPS are skipped,
    the others are faults. The moments are those of all arrivals before it, ascending; then comes
    the greatest stamp of all numbers before it, or 0."""
    if frame is None or place is None:
        yield "no-frame"
        return
    if options.place(frame) == LEFT_OUT:
        yield "left-out"
    if frame.link_type != 1:
        yield "NotEthernet"
    if frame.stamp is None:
        yield "NoTime"
    if not frame.in_range:
        yield "BadTime"
    if is_cut(options, frame):
        yield "Cut"
    is_afdx = len(frame.bytes) >= 6 and frame.bytes[:4] == b"\x03\0\0\0"
    if not is_afdx and not options.has_left(frame):
        yield "not-afdx"
    if place.port is None:
        yield "unknown-sender"
    if place.side is None:
        yield "no-network"
    moment = moment_of(options, systems, frame, place)
    if options.origin is not None and moment < options.origin:
        yield "before-origin"
    if is_closed(options, frame) is None and zlib.crc32(frame.bytes) == SEALED:
        yield "FcsUnclear"
    if options.is_late(moment, moments, greatest):
        yield "TimeBack"


def standing_in(
    options: Options, systems: Systems, data: bytes, is_open: bool = False
) -> Standing:
    """What stands in a recording; where it is open its bytes are not all, and the run ends where it
    asks for more."""
    if is_open and len(data) < MAGIC:
        return Standing([], [], BROKEN)
    if is_packed(data):
        return Standing([], [], "Packed")
    if not is_recording(data):
        return Standing([], [], "NotRecording 0")
    arrivals, skipped, moments = list[Arrival](), list[Skipped](), list[int]()
    said = recorded(data)
    missing = [each for each in options.places if each >= said.interfaces]
    ends = (said.lost, len(missing), min(missing, default=None))
    stamps = tuple(map(stamp_of, said.numbers))
    greatest = 0
    for number, frame in enumerate(said.numbers, 1):
        place = frame and place_of(options, systems, frame)
        outcome = next(outcomes(options, systems, frame, place, moments, greatest), "")
        greatest = max(greatest, stamps[number - 1] or 0)
        if outcome in SKIPS:
            skipped.append(Skipped(number, outcome))
        elif outcome:
            return Standing(arrivals, skipped, f"{outcome} {number}", *ends, stamps)
        else:
            assert frame is not None and place is not None
            moment = moment_of(options, systems, frame, place)
            insort(moments, moment)
            arrivals.append(Arrival(moment, number, frame, place))
    if is_open and said.fault in ("", "Ended"):
        return Standing(arrivals, skipped, BROKEN, *ends, stamps)
    count = len(said.numbers)
    fault = said.fault or ("NoArrival" if count and not arrivals else "")
    return Standing(arrivals, skipped, fault and f"{fault} {count}", *ends, stamps)


def looks(standing: Standing, held: int) -> Iterator[Look]:
    """A run's looks for each arrival, by moment and then by number, and for the end. The next one
    is known once so many others that aren't taken have been read, or the fault or the end. What is
    skipped is met where it is read."""
    ordered = sorted(standing.arrivals, key=lambda each: each[:2])
    if standing.fault == BROKEN:
        ordered = ordered[: max(len(ordered) - held, 0)]
    numbers = [each.number for each in standing.skipped]
    read = [each.number for each in standing.arrivals[held:]]
    met = 0
    for place, arrival in enumerate(ordered):
        until = bisect_right(numbers, read[place]) if place < len(read) else len(numbers)
        yield Look(standing.skipped[met:until], arrival)
        met = until
    yield Look(standing.skipped[met:], fault=standing.fault)
