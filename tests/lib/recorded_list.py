"""What a run takes from a recording, computed apart from the program: the list that says the same,
the fault, and the counts, as docs/RECORDINGS.md has them."""
from __future__ import annotations

from typing import NamedTuple, NoReturn

from places import place_text
from recorded_arrivals import BROKEN, MS, SKIPS, Arrival, Options, Skipped, Systems
from recorded_arrivals import is_closed, looks, standing_in
from recorded_live import live_steps

LATEST_TIME = 10**15  # ns of a run
MOST_LISTED = 2_000  # bytes of a recorded frame in the list; every switch drops a longer one
MOST_LOST = 2**64 - 1
COUNTS = ["recorder-lost", "claimed", "contradicted", "unused"]


class Told(NamedTuple):
    """What is reported of a recording, or of two: a line of the list for each number, in the order
    in which the numbers are read and taken; those numbers; the line of the fault, which is empty
    if there is none; the line of the counts."""

    lines: list[bytes]
    numbers: list[int]
    fault: bytes
    skipped: bytes

    def text(self) -> bytes:
        """The list."""
        return b"".join(self.lines)

    def status(self) -> int:
        """How the run ends."""
        if self.fault == f"{BROKEN}\n".encode():
            return 4
        return 3 if self.fault else 0


class Ends(Exception):
    """The run ends with this line."""


def line_of(options: Options, arrival: Arrival, time: int) -> bytes:
    """An arrival's line of the list."""
    frame, (side, at, *_) = arrival.frame, arrival.place
    assert side is not None and at is not None
    kind = "B" if frame.found_wrong else "F"
    if is_closed(options, frame) or len(frame.bytes) > MOST_LISTED:
        kind = "R"
    digits = frame.bytes[:MOST_LISTED].hex()
    return f"{kind} {time} {place_text(side, at[0])} {at[1]} {digits}\n".encode()


class Source:
    """A recording that a run reads, or one of two. Where it is open its bytes are not all."""

    def __init__(
        self, options: Options, systems: Systems, data: bytes, is_open: bool = False
    ) -> None:
        standing = standing_in(options, systems, data, is_open)
        self.options, self.lost, self.unused = options, standing.lost, standing.unused
        self.absent, self.standing = standing.absent, standing
        self.looks = looks(standing, options.held())

    def end(self, fault: str) -> NoReturn:
        """Ends the run with a fault of this recording, of which two name the side."""
        side = self.options.side
        raise Ends(fault if fault == BROKEN else f"recording {fault}{f' {side}' if side else ''}")


class Run:
    """What a run has read and taken so far."""

    def __init__(self, origin: int | None) -> None:
        self.origin = origin
        self.lines: list[bytes] = []
        self.numbers: list[int] = []
        self.counts = dict.fromkeys([*SKIPS, *COUNTS], 0)

    def tell(self, number: int, line: bytes) -> None:
        """One line more."""
        self.lines.append(line)
        self.numbers.append(number)

    def skip(self, skipped: Skipped) -> None:
        """A number that is no arrival."""
        self.counts[skipped.word] += 1
        self.tell(skipped.number, f"# {skipped.word} {skipped.number}\n".encode())

    def seek(self, source: Source) -> Arrival | None:
        """The next arrival of a recording, None at its end; what stands before it is skipped."""
        look = next(source.looks)
        for skipped in look.skipped:
            self.skip(skipped)
        if look.fault:
            source.end(look.fault)
        return look.arrival

    def take(self, source: Source, arrival: Arrival) -> None:
        """Takes an arrival: the first one says when time 0 is, where no word does."""
        self.origin = arrival.moment if self.origin is None else self.origin
        time = arrival.moment - self.origin
        if time > LATEST_TIME:
            source.end(f"TimeTooLarge {arrival.number}")
        self.tell(arrival.number, line_of(source.options, arrival, time))
        self.counts["claimed"] += arrival.place.is_claimed
        self.counts["contradicted"] += arrival.place.is_contradicted

    def take_all(self, sources: list[Source]) -> None:
        """Takes the arrivals of all recordings, up to a fault or to all ends: always the earliest
        of their next ones, of equal moments the first recording's."""
        heads = [self.seek(source) for source in sources]
        while any(heads):
            _, first, head = min((head.moment, at, head) for at, head in enumerate(heads) if head)
            self.take(sources[first], head)
            heads[first] = self.seek(sources[first])

    def take_live(self, sources: list[Source], delay: int) -> None:
        """The same by the clocks of the recordings."""
        for step in live_steps([source.standing for source in sources], delay):
            source = sources[step.of]
            if step.fault:
                source.end(step.fault)
            if step.skipped:
                self.skip(step.skipped)
            if step.arrival:
                self.take(source, step.arrival)

    def told(self, sources: list[Source]) -> Told:
        """What is reported of these recordings."""
        fault = ""
        live = sources[0].options.live
        try:
            if live is None:
                self.take_all(sources)
            else:
                self.take_live(sources, live * MS)
        except Ends as ends:
            fault = f"{ends}\n"
        lost = sum(source.lost for source in sources)
        self.counts["recorder-lost"] = min(lost, MOST_LOST)
        self.counts["unused"] = sum(source.unused for source in sources)
        counts = " ".join(f"{word} {count}" for word, count in self.counts.items())
        return Told(self.lines, self.numbers, fault.encode(), f"skipped {counts}\n".encode())


def told(options: Options, systems: Systems, data: bytes, is_open: bool = False) -> Told:
    """What is reported of the bytes of a recording; where it is open they are not all."""
    return Run(options.origin).told([Source(options, systems, data, is_open)])
