"""Where the frames stand that rows name: recording, number, interface and stamp, as Wireshark shows
them; and which moment is time 0."""
from __future__ import annotations

import datetime
from typing import Iterator

import numpy as np

from afdx_tools.faults import LONGEST_NAME, cut
from afdx_tools.recordings.reading import BILLION, Recording
from afdx_tools.replay.counting import Counting
from afdx_tools.replay.running import Source
from afdx_tools.tables import Row

TABLES = ("silences", "dropped", "latency", "frames", "sides", "skews", "early_frames", "troubles")
SHOWN = ("frames", "early_frames", "troubles")  # whose rows say it in columns of their own
SIDES = ("A", "B")
MOST_LISTED = 2000  # bytes of a frame that a list has of a recording
Place = tuple[str, int]  # a side, which is empty where there is one recording, and a number


def utc(stamp: int) -> str:
    """A moment in ns since 1970, as Wireshark's column has it for date and time in UTC."""
    seconds, ns = divmod(stamp, BILLION)
    moment = datetime.datetime.fromtimestamp(seconds, datetime.timezone.utc)
    return f"{moment:%Y-%m-%d %H:%M:%S}.{ns:09}"


def named_in(row: Row, is_pair: bool) -> Iterator[tuple[str, Place]]:
    """The columns of a row that name frames, and which ones."""
    for key, number in row.items():
        if number is not None and (key == "line" or key.endswith("_line")):
            side = row.get(f"{key[:-4]}side", row.get("side", "A")) if is_pair else ""
            yield key, (side[:1], number)


class Where:
    """The frames of recordings that a report names: of each its interface, the name of that, and
    its stamp in ns since 1970. A list has none."""

    def __init__(self, source: Source, counting: Counting) -> None:
        self.is_recorded, self.is_pair = source.is_recorded, source.is_pair
        self.options, self.counting = source.options, counting
        self.are_starts = "--stamps=start" in source.options
        sides = SIDES if source.is_pair else ("",)
        paths = source.paths if source.is_recorded else []
        self.recordings = {side: Recording(path) for side, path in zip(sides, paths)}
        self.found: dict[Place, tuple[int, str, int]] = {}
        self.time_0 = self.origin()

    def place_of(self, line: int) -> Place:
        """Where a line's frame stands."""
        side = SIDES[self.counting.listing.side[line]] if self.is_pair else ""
        return side, self.counting.events.number_of(line)

    def sending(self, line: int) -> int:
        """The ns from a frame's stamp to the moment that counts: with stamps of its first bit those
        that it takes on its line."""
        listing = self.counting.listing
        system = self.counting.by_port.get(int(listing.port[line]))
        if not self.are_starts or system is None:
            return 0
        return int(listing.length[line]) * system.byte_ns

    def origin(self) -> int | None:
        """The moment of time 0 in ns since 1970: that of an arrival, less its time. The list has
        no more than the first bytes of a frame that is too long, so another one says it."""
        for option in self.options:
            if option.startswith("--origin="):
                return int(option.removeprefix("--origin="))
        arrived = self.counting.arrived
        if not self.is_recorded or not len(arrived):
            return None
        line = int(arrived[np.argmax(self.counting.listing.length[arrived] < MOST_LISTED)])
        side, number = self.place_of(line)
        for frame in self.recordings[side].frames([number]):
            if frame.stamp is not None:
                moment = frame.stamp + self.sending(line)
                return moment - int(self.counting.listing.time[line])
        return None

    def look(self, wanted: set[Place]) -> None:
        """Finds these frames. A pcap has one interface, and stamps of the last bit follow from
        times; so it isn't read for them."""
        for side, recording in self.recordings.items():
            numbers = [number for each, number in wanted if each == side]
            if recording.has_interfaces or self.are_starts:
                for frame in recording.frames(numbers):
                    if frame.stamp is not None:
                        name = frame.interface.name.decode("utf-8", "surrogateescape")
                        where = frame.place, cut(name, LONGEST_NAME), frame.stamp
                        self.found[side, frame.number] = where
            elif self.time_0 is not None:
                for number in numbers:
                    time = int(self.counting.listing.time[self.line_at((side, number))])
                    self.found[side, number] = 0, "", self.time_0 + time

    def line_at(self, place: Place) -> int:
        """The list's line of a frame."""
        side, number = place
        key = 2 * number + (side == SIDES[1]) if self.is_pair else number
        return int(self.counting.events.named.lines[key])

    def rows(self) -> list[Row]:
        """The frames as rows, by recording and number."""
        return [
            {
                "recording": side,
                "number": number,
                "interface": interface,
                "name": name,
                "stamp": utc(stamp),
                "epoch": f"{stamp // BILLION}.{stamp % BILLION:09}",
            }
            for (side, number), (interface, name, stamp) in sorted(self.found.items())
        ]

    def in_words(self, place: Place) -> str:
        """A frame's interface and stamp in words, where they are known."""
        if place not in self.found:
            return ""
        interface, name, stamp = self.found[place]
        of = f"recording of {place[0]}, " if place[0] else ""
        return f"{of}frame {place[1]}, interface {interface}{name and f' {name}'}, {utc(stamp)} UTC"

    def add_to(self, report: Row) -> None:
        """Finds all frames that the report names; frames that stand for themselves get columns with
        interface and stamp."""
        if not self.is_recorded:
            return
        tables = [report[name] for name in TABLES if name in report]
        self.look(
            {place for rows in tables for row in rows for _, place in named_in(row, self.is_pair)}
        )
        for name in SHOWN:
            for row in report.get(name, []):
                place = next(named_in(row, self.is_pair))[1]
                interface, _, stamp = self.found.get(place, (None, None, None))
                row["interface"], row["stamp"] = interface, None if stamp is None else utc(stamp)
        report["where"] = self.rows()
