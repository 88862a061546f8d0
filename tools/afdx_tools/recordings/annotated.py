"""A replay of recordings beside their frames: each frame as it was recorded, with its own number,
interface and stamp, and what the program says of it as its comments."""
from __future__ import annotations

import contextlib
import heapq
import struct
import subprocess
import tempfile
from dataclasses import dataclass, field
from itertools import starmap
from operator import itemgetter
from typing import BinaryIO, Iterable, Iterator

from afdx_tools.config import read_config
from afdx_tools.faults import Failed, Refused
from afdx_tools.program import program
from afdx_tools.recordings.options import WRITER, WRITER_CODE
from afdx_tools.recordings.reading import (
    CHECK_SEQUENCE,
    NAME,
    OFFSET,
    RESOLUTION,
    Frame,
    Interface,
    Recording,
)
from afdx_tools.recordings.said import Beside, far_end, latency_lines

SIDES = ("A", "B")
LINK = b"\x03\0\0\0"  # a destination address of a link begins with it
COMMENT = 1  # an option of a frame
LONGEST = 65_535  # bytes of an option
MOST_LINK_TYPE = 65_535
Key = tuple[str, int]  # a side, empty where there is one recording, and a number


@dataclass
class Reported:
    """What the program says of a frame: its lines; how many verdicts these are, when it came to
    which switches, which of them accepted it, how many of its copies came to their end, and how
    many of these to a cable."""

    lines: list[bytes] = field(default_factory=list)
    verdicts: int = 0
    came: dict[int, int] = field(default_factory=dict)
    accepted: list[int] = field(default_factory=list)
    ended: int = 0
    sent: int = 0


# ---- what the program says -----------------------------------------------------------------------


@contextlib.contextmanager
def lines_of(words: list[str]) -> Iterator[Iterator[bytes]]:
    """The lines that the program writes with these words; Failed where it had a fault."""
    with tempfile.TemporaryFile() as errors:
        with subprocess.Popen([program(), *words], stdout=subprocess.PIPE, stderr=errors) as run:
            assert run.stdout is not None
            yield run.stdout
            for _ in run.stdout:  # what nobody wanted
                pass
        errors.seek(0)
        said, status = errors.read().decode("utf-8", "replace").strip(), run.returncode
    if status < 0:
        raise Failed(said or f"signal {-status} ended the program", 128 - status)
    if status:
        raise Failed(said or f"the program ended with status {status}", status)


def none_of_this(line: bytes) -> Refused:
    """The fault where the program wrote something else."""
    said = line[:60].decode("ascii", "replace").rstrip()
    return Refused(f"the program's line '{said}' is none of this replay")


class Followed:
    """The lines of a replay, by the frames that they are about; `times` are those of the arrivals.
    `copies` says how many ports the frames of each link go to at each switch; `names` are those of
    several switches."""

    def __init__(
        self, config: str, lines: Iterable[bytes], times: Iterator[int], is_pair: bool
    ) -> None:
        self.config = read = read_config(config)
        self.times = times
        self.names = {name.encode(): number for number, name in enumerate(read.names)}
        rows = {(0, vl): link for vl, link in read.links.items()}
        rows = read.several.rows if read.several else rows
        self.copies = {key: len(row.ports) for key, row in rows.items()}
        self.cables = set(read.cables)
        self.lines, self.is_pair = iter(lines), is_pair
        self.reported: dict[Key, Reported] = {}
        self.last = Reported()  # the frame of the last D line
        self.has_ended = False

    def take(self, line: bytes) -> None:
        """Takes a line. What a receiver does stands after the D line of its copy."""
        text = line.rstrip(b"\n")
        kind, number, *fields = text.split(b" ")
        if kind == b"M":  # the message itself stands in the frame
            self.last.lines.append(b" ".join([kind, number, *fields[:2]]))
        elif kind == b"X":
            self.last.lines.append(text)
        elif kind in (b"V", b"L", b"D", b"T"):
            side, *behind = fields if kind in (b"V", b"L") else fields[1:]
            switch = self.names[behind.pop(0)] if self.names else 0
            key = side.decode("ascii") if self.is_pair else "", int(number)
            one = self.reported.setdefault(key, Reported())
            one.lines.append(text)
            if kind == b"V":
                if not one.verdicts:  # it comes from its sender, not over a cable
                    one.came[switch] = next(self.times)
                one.verdicts += 1
                if behind[0] == b"accept":
                    one.accepted.append(switch)
            else:
                one.ended, self.last = one.ended + 1, one
                if kind == b"D" and self.cables:
                    far = far_end(self.config, switch, behind[0].decode("ascii"))
                    if far is not None:
                        one.sent, one.came[far] = one.sent + 1, int(fields[0])
        else:
            raise ValueError

    def more(self) -> None:
        """Takes the next line, if there is one."""
        line = next(self.lines, None)
        if line is None:
            self.has_ended = True
            return
        try:
            self.take(line)
        except (ValueError, LookupError, StopIteration) as error:
            raise none_of_this(line) from error

    def is_done(self, key: Key, content: bytes) -> bool:
        """Was all said of a frame?"""
        one = self.reported.get(key)
        if one is None or one.verdicts != 1 + one.sent:  # a cable has still to bring it somewhere
            return False
        vl = int.from_bytes(content[4:6], "big") if content.startswith(LINK) else -1
        wanted = sum(self.copies.get((switch, vl), 0) for switch in one.accepted)
        # the line after its last departure says what the receiver did, so that has to be here too
        return one.ended >= wanted and self.last is not one

    def of(self, key: Key, content: bytes) -> list[bytes]:
        """What is said of a frame with these bytes, once all of it is; then how long its copies
        took."""
        while not self.has_ended and not self.is_done(key, content):
            self.more()
        one = self.reported.pop(key, Reported())
        texts = [line.decode("ascii") for line in one.lines]
        took = latency_lines(self.config, link_of(content), one.came, texts)
        return one.lines + [line.encode() for line in took]

    def finish(self) -> None:
        """Takes the lines that are left."""
        while not self.has_ended:
            self.more()


def link_of(content: bytes) -> int | None:
    """The link that a frame's bytes name, if they name one."""
    return int.from_bytes(content[4:6], "big") if content.startswith(LINK) else None


def times_in(lines: Iterable[bytes]) -> Iterator[int]:
    """The times of the arrivals that `afdx list` writes, in their order."""
    return (int(line.split(b" ", 2)[1]) for line in lines if not line.startswith(b"#"))


# ---- which numbers are no arrivals, and why ------------------------------------------------------


class Skips:
    """The numbers of a recording that are no arrivals, of which each has a line `# WORD n` of `afdx
    list`; they come in their order."""

    def __init__(self, lines: Iterable[bytes]) -> None:
        self.lines = (line.rstrip(b"\n") for line in lines if line.startswith(b"#"))
        self.next = next(self.lines, None)

    def of(self, number: int) -> bytes | None:
        """The line about a number; None where that is an arrival. Numbers are asked for in their
        order."""
        line = self.next
        if line is None or line.split(b" ")[-1] != b"%d" % number:
            return None
        self.next = next(self.lines, None)
        return line


def of_side(options: list[str], side: str, recording: Recording) -> list[str]:
    """The options for one of two recordings that is listed alone: each frame is of its side."""
    kept = [word for word in options if not word.startswith("--interface=")]
    places = {}
    for word in options:
        if word.startswith("--interface="):
            number, _, place = word.removeprefix("--interface=").partition("=")
            if place[:1] in (side, "-"):
                places[int(number)] = place
    count = max(recording.described(), 1)
    return kept + [f"--interface={n}={places.get(n, side)}" for n in range(count)]


# ---- the frames ----------------------------------------------------------------------------------


def frames_of(side: str, recording: Recording) -> Iterator[tuple[int, str, Frame]]:
    """The frames of a recording, each after its stamp and its side."""
    for frame in recording.frames():
        yield frame.stamp or 0, side, frame


def merged(recordings: dict[str, Recording]) -> Iterable[tuple[int, str, Frame]]:
    """The frames of all recordings; of two those that were stamped earlier come first, each
    recording in its own order."""
    return heapq.merge(*starmap(frames_of, recordings.items()), key=itemgetter(0))


class Copied:
    """A pcapng with frames as they were recorded. Sections and interfaces keep their numbers; two
    recordings become one section, in which interfaces are numbered as they come."""

    def __init__(self, file: BinaryIO, is_pair: bool) -> None:
        self.file, self.is_pair = file, is_pair
        # of the interfaces of each section of each recording the numbers here
        self.numbers: dict[tuple[str, int], list[int]] = {}
        self.section = self.described = 0
        self.begin()

    def block(self, kind: int, body: bytes) -> None:
        """A block."""
        body += bytes(-len(body) % 4)
        size = struct.pack("<I", len(body) + 12)
        self.file.write(struct.pack("<I", kind) + size + body + size)

    def begin(self) -> None:
        """The next section, by this tool."""
        self.section, self.described = self.section + 1, 0
        self.numbers.clear()
        head = struct.pack("<IHHq", 0x1A2B3C4D, 1, 0, -1)
        self.block(0x0A0D0D0A, head + option(WRITER_CODE, WRITER) + option(0, b""))

    def describe(self, side: str, interface: Interface) -> None:
        """An interface: its name, with the side where there are two recordings."""
        name = b" ".join(part for part in (side.encode(), interface.name) if part)
        options = option(NAME, name[:LONGEST]) if name else b""
        options += option(RESOLUTION, bytes([interface.resolution]))
        if interface.check_sequence is not None:
            options += option(CHECK_SEQUENCE, bytes([interface.check_sequence]))
        if interface.offset:
            options += option(OFFSET, struct.pack("<q", interface.offset))
        link_type = min(interface.link_type, MOST_LINK_TYPE)  # that of a pcap may be greater
        head = struct.pack("<HHI", link_type, 0, interface.most)
        self.block(1, head + options + option(0, b""))

    def number_of(self, side: str, frame: Frame) -> int:
        """The number of a frame's interface, which is described with all that are known by now."""
        known = self.numbers.setdefault((side, frame.section), [])
        for interface in frame.interfaces[len(known) :]:
            known.append(self.described)
            self.described += 1
            self.describe(side, interface)
        return known[frame.place]

    def write(self, side: str, frame: Frame, said: list[bytes]) -> None:
        """A frame with its own options, and with the lines of the program as comments; a block that
        is no frame."""
        while self.section < frame.section and not self.is_pair:
            self.begin()
        if frame.kind:
            self.block(frame.kind, frame.content)
            return
        ticks, captured = frame.ticks or 0, len(frame.content)
        high, low = ticks >> 32, ticks & 0xFFFF_FFFF
        place = self.number_of(side, frame)
        head = struct.pack("<5I", place, high, low, captured, frame.original)
        lines = [(COMMENT, text) for text in said]
        options = b"".join(option(code, value) for code, value in [*frame.options, *lines])
        end = option(0, b"") if options else b""
        self.block(6, head + frame.content + bytes(-captured % 4) + options + end)


def option(code: int, value: bytes) -> bytes:
    """An option of a block."""
    return struct.pack("<HH", code, len(value)) + value + bytes(-len(value) % 4)


def annotated(
    config: str,
    paths: list[str],
    options: list[str],
    no_admission: bool,
    besides: Beside,
    out: BinaryIO,
) -> Iterator[None]:
    """Writes the frames of one recording, or of two, with what becomes of them; gives one None for
    each. Failed where the program had a fault."""
    recordings = dict(zip(SIDES if len(paths) == 2 else ("",), map(Recording, paths)))
    replay = ["replay", *(["--no-admission"] if no_admission else []), *options, config, *paths]
    skips: dict[str, Skips] = {}
    said = [b""]
    with contextlib.ExitStack() as runs:
        for path, (side, recording) in zip(paths, recordings.items()):
            of_one = of_side(options, side, recording) if side else options
            skips[side] = Skips(runs.enter_context(lines_of(["list", *of_one, config, path])))
        listed = runs.enter_context(lines_of(["list", *options, config, *paths]))
        # the last, so that its fault is reported before a list's
        lines = runs.enter_context(lines_of(replay))
        followed = Followed(config, lines, times_in(listed), len(paths) > 1)
        file = Copied(out, len(paths) > 1)
        for _, side, frame in merged(recordings):
            why = skips[side].of(frame.number)
            if why is None:
                said = followed.of((side, frame.number), frame.content)
            else:
                said = [why + f" {side}".rstrip().encode()]
            if not said:
                break
            others = besides.of(frame.number, link_of(frame.content))
            file.write(side, frame, said + [text.encode() for text in others])
            yield None
        followed.finish()
    if not said or followed.reported or any(each.next for each in skips.values()):
        raise Refused("replay and list of this afdx don't agree on which frames are arrivals")
