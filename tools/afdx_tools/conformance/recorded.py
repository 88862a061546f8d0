"""What recordings of a switch have: the frames that came and that left, where, and when.

Nothing is judged here, and the words are read as the program has taken them: it refuses what they
may not be, and reports the faults of a recording.
"""
from __future__ import annotations

from bisect import bisect_right
from dataclasses import dataclass, field
from typing import Container, Iterator, Mapping, NamedTuple, Sequence

from afdx_tools.config import Config
from afdx_tools.conformance.frames import Frame, frame_of, vl_of
from afdx_tools.conformance.recorders import Place, Recorders
from afdx_tools.lists import check_sequence
from afdx_tools.recordings.reading import BILLION, Recording
from afdx_tools.recordings.reading import Frame as Recording_frame

FLAGS = 2  # an option of a frame
IS_WRONG = 1 << 24  # the recorder found the check sequence wrong
MOST_HELD = 2000  # bytes of a frame that count
SENDER, SENDER_AT, SENDER_END = b"\x02\0\0", 6, 11  # of a source address of an end system
CHECK_SEQUENCE = 4
MOST_BACK = 100_000  # frames: the most that --reorder takes


class Stood(NamedTuple):
    """Where a frame stands that a finding names: its interface, the name of that, its stamp in ns
    since 1970."""

    interface: int
    name: str
    stamp: int


@dataclass
class Recorded:
    """All frames that came and that left, by time; the moment of time 0, None where there is no
    frame; and where those stand that are looked for, by whether they left and their numbers. The
    ns of a unit of the stamps, of what came and what left, and how many frames with later moments
    stand in front of one, at most."""

    came: list[Frame] = field(default_factory=list)
    left: list[Frame] = field(default_factory=list)
    time_0: int | None = None
    stood: dict[tuple[bool, int], Stood] = field(default_factory=dict)
    resolution: dict[bool, int] = field(default_factory=dict)
    back: int = 0


def most_back(moments: Sequence[int]) -> int:
    """The most frames with later moments that stand in front of one, as far as `--reorder` goes."""
    ordered: list[int] = []
    most = 0
    for moment in moments:
        at = bisect_right(ordered, moment)
        most = max(most, len(ordered) - at)
        if most > MOST_BACK:
            break
        ordered.insert(at, moment)
        if len(ordered) > 2 * MOST_BACK:
            del ordered[: MOST_BACK - 1]
    return most


class Ends:
    """What is at the ports of the switch: of each the ns of a byte, and the systems' numbers."""

    def __init__(self, config: Config, first: int) -> None:
        self.ports = {number: port - first for number, port in config.ports_by_id().items()}
        self.byte_ns = {port - first: end.byte_ns for port, end in config.by_port().items()}

    def port_of(self, place: Place, content: bytes) -> int | None:
        """The port of a frame: that of its interface, else that of the system which it names."""
        if place.port is not None or place.is_left:
            return place.port
        source = content[SENDER_AT:SENDER_END]
        if len(source) < SENDER_END - SENDER_AT or not source.startswith(SENDER):
            return None
        return self.ports.get(int.from_bytes(source[len(SENDER) :], "big"))


def flags_of(frame: Recording_frame) -> int:
    """What a recorder noted of a frame."""
    return next((int.from_bytes(v[:4], "little") for code, v in frame.options if code == FLAGS), 0)


def is_sealed(frame: Recording_frame, fcs: bool | None) -> bool:
    """The frame was recorded with its check sequence."""
    said = flags_of(frame) >> 5 & 15 or frame.interface.check_sequence
    return said == CHECK_SEQUENCE if fcs is None else fcs


def on_wire(frame: Recording_frame, has_check_sequence: bool) -> bytes:
    """A frame's bytes with its check sequence, of a long one the first that count."""
    content = frame.content
    if has_check_sequence or len(content) > MOST_HELD:
        return content[:MOST_HELD]
    end = check_sequence(content)
    if flags_of(frame) & IS_WRONG:
        end = bytes(255 - byte for byte in end)
    return content + end


class Reading:
    """Reads recordings, and puts what came and what left in order. `wanted` are the numbers of
    frames of which it is kept where they stand, of those that came and of those that left."""

    def __init__(
        self, recorders: Recorders, ends: Ends, wanted: Mapping[bool, Container[int]]
    ) -> None:
        self.recorders, self.ends, self.wanted = recorders, ends, wanted
        self.found = Recorded()

    def frames(self, path: str, places: dict[int, Place]) -> Iterator[tuple[bool, Frame]]:
        """The frames of a recording, with their moments for times, and whether they left."""
        for frame in Recording(path).frames():
            place, stamp = places.get(frame.place), frame.stamp
            if place is None or frame.kind or stamp is None:
                continue
            has_check_sequence = is_sealed(frame, self.recorders.fcs)
            content = on_wire(frame, has_check_sequence)
            port = self.ends.port_of(place, content)
            if port is None or not (place.is_left or vl_of(content) is not None):
                continue
            if frame.number in self.wanted[place.is_left]:
                name = frame.interface.name.decode("utf-8", "replace")
                self.found.stood[place.is_left, frame.number] = Stood(frame.place, name, stamp)
            unit = -(-BILLION // frame.interface.units)
            self.found.resolution[place.is_left] = max(
                unit, self.found.resolution.get(place.is_left, 1)
            )
            if self.recorders.are_starts(place.is_left):
                length = len(frame.content) + (0 if has_check_sequence else CHECK_SEQUENCE)
                stamp += length * self.ends.byte_ns.get(port, 0)
            yield place.is_left, frame_of(frame.number, stamp, place.side, port, content)

    def read(self, paths: list[str]) -> Recorded:
        """All that one recording has, or two, of which the first has what came."""
        sides: list[bool | None] = [None] if len(paths) == 1 else [False, True]
        found = self.found
        for path, is_left in zip(paths, sides):
            moments = []
            for has_left, frame in self.frames(path, self.recorders.places(is_left)):
                (found.left if has_left else found.came).append(frame)
                moments.append(frame.time)
            found.back = max(found.back, most_back(moments))
        found.time_0 = min((frame.time for frame in (*found.came, *found.left)), default=None)
        for frames in (found.came, found.left):
            frames.sort(key=lambda frame: (frame.time, frame.line))
            frames[:] = (each._replace(time=each.time - (found.time_0 or 0)) for each in frames)
        return found
