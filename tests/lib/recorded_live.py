"""In which order a run with `--live` reads and takes the numbers of one recording, or of two,
computed apart from the program, as docs/RECORDINGS.md has it: by the clock of each recording."""
from __future__ import annotations

from collections.abc import Iterator
from heapq import heappop, heappush
from typing import NamedTuple

from recorded_arrivals import BROKEN, Arrival, Skipped, Standing


UNREAD = -1  # where a clock stands before a number was read


class Step(NamedTuple):
    """What a run meets next: a number that is skipped, an arrival that it takes, or the fault of a
    recording, which is empty where all have ended; and whose it is."""

    of: int
    skipped: Skipped | None = None
    arrival: Arrival | None = None
    fault: str = ""


class Reader:
    """A recording, how far it was read, and where its clock stands."""

    def __init__(self, standing: Standing, delay: int) -> None:
        self.standing, self.delay = standing, delay
        each: list[Arrival | Skipped] = [*standing.arrivals, *standing.skipped]
        each.sort(key=lambda one: one.number)
        self.numbers = iter(zip(each, standing.stamps))
        self.clock = UNREAD
        self.held: list[tuple[int, int, Arrival]] = []  # by moment, then by number
        self.is_over = False  # the fault was read, or the end

    def read(self) -> Skipped | None:
        """Reads the next number, or the fault or the end; says what is skipped."""
        found = next(self.numbers, None)
        if found is None:
            self.is_over = True
            return None
        number, stamp = found
        self.clock = max(self.clock, (stamp or 0) - self.delay, 0)
        if isinstance(number, Skipped):
            return number
        heappush(self.held, (number.moment, number.number, number))
        return None

    def head(self) -> Arrival | None:
        """The arrival at its head, if that is known: the clock has come to it, or all was read."""
        if self.held and (self.is_over or self.held[0][0] <= self.clock):
            return self.held[0][2]
        return None

    def fault(self) -> str:
        """The fault at its head; that of bytes that are still to come is there at once."""
        if self.is_over and (not self.held or self.standing.fault == BROKEN):
            return self.standing.fault
        return ""

    def has_ended(self) -> bool:
        """Nothing is left of it."""
        return self.is_over and not self.held

    def is_before(self, moment: int, is_first: bool) -> bool:
        """Something of it may come before an arrival of the other with this moment; that comes
        first of equal ones where `is_first`."""
        head = self.head()
        if self.has_ended():
            return False
        reached = head.moment if head else self.clock
        return reached < moment if is_first else reached <= moment


def taken_next(readers: list[Reader]) -> int | None:
    """Whose head may be taken, if any: the one of the lesser moment, of equal ones the first's, as
    soon as nothing of the other can come before it."""
    for place, reader in enumerate(readers):
        head = reader.head()
        others = readers[:place] + readers[place + 1 :]
        if head and not any(each.is_before(head.moment, place == 0) for each in others):
            return place
    return None


def live_steps(standings: list[Standing], delay: int) -> Iterator[Step]:
    """All that a run meets, up to a fault or to all ends."""
    readers = [Reader(standing, delay) for standing in standings]
    while True:
        for place, reader in enumerate(readers):
            if reader.fault():
                yield Step(place, fault=reader.fault())
                return
        if all(reader.has_ended() for reader in readers):
            yield Step(0)
            return
        taken = taken_next(readers)
        if taken is not None:
            yield Step(taken, arrival=heappop(readers[taken].held)[2])
            continue
        open_ones = [place for place, reader in enumerate(readers) if not reader.is_over]
        behind = min(open_ones, key=lambda place: (readers[place].clock, place))
        skipped = readers[behind].read()
        if skipped:
            yield Step(behind, skipped)
