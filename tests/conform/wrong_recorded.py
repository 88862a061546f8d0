"""Ways in which a program may get recordings wrong that it judges: each must be refused by a row of
recorded_rows.py or recorded_more_rows.py."""
from __future__ import annotations

from cascade_run import Arrival
from conform import NO_FRAME
from conform_recorded import Input, JudgingSeen, Reads, conform_recordings
from program import must
from recorded import Frame
from recorded_arrivals import Options
from recorded_more_rows import MORE_RECORDED_ROWS
from recorded_rows import RECORDED_ROWS
from rows import CONFIGS

# ---- what was seen -------------------------------------------------------------------------------


class JudgesUnseen(JudgingSeen):
    """A port that wasn't recorded is judged."""

    def is_judged(self, side: int, port: int, place: int) -> bool:
        return self.sees_sender(side, place)


class JudgesAll(JudgingSeen):
    """Each stream is judged."""

    def sees_sender(self, side: int, place: int) -> bool:
        return True


class KeepsUnseen(JudgingSeen):
    """What left of a sender that wasn't recorded isn't passed over."""

    def passes_over(self, each: Arrival, is_left: bool) -> bool:
        return super().passes_over(each, False)


class ForeignUnseen(JudgingSeen):
    """What left of a sender that wasn't recorded is of no stream."""

    def passes_over(self, each: Arrival, is_left: bool) -> bool:
        place = self.place_of.get(each.frame.link())
        if is_left and place is not None and not self.sees_sender(each.side, place):
            self.foreign(each.time, each.side, each.port, each.frame)
        return super().passes_over(each, is_left)


class OtherPortsOver(JudgingSeen):
    """What left of such a sender is passed over at ports of other links too."""

    def is_of_link(self, each: Arrival) -> bool:
        return self.switch.shape(each.port, each.frame) not in NO_FRAME


class DamagedOver(JudgingSeen):
    """What left of such a sender is passed over if it is damaged, too."""

    def is_of_link(self, each: Arrival) -> bool:
        place = self.place_of.get(each.frame.link())
        return place is not None and each.port in self.ports_of(place)


class UnknownOver(JudgingSeen):
    """What left of a link that no table has is passed over."""

    def passes_over(self, each: Arrival, is_left: bool) -> bool:
        is_unknown = each.frame.link() is not None and each.frame.link() not in self.place_of
        return (is_left and is_unknown) or super().passes_over(each, is_left)


class NotCounted(JudgingSeen):
    """What is passed over for its sender isn't counted."""

    def kept(self, lines: list[Arrival], is_left: bool) -> list[Arrival]:
        before = self.left_out
        kept = super().kept(lines, is_left)
        self.left_out = before + (0 if is_left else self.left_out - before)
        return kept


class OneSide(JudgingSeen):
    """Streams that weren't recorded are counted of one side."""

    def judged_streams(self) -> list[bool]:
        return [self.is_judged(0, port, place) for place in self.place_of.values()
                for port in self.ports_of(place)]


class NoneIdle(JudgingSeen):
    """Streams of which nothing came or left aren't idle."""

    def idle(self) -> int:
        return len(self.streams) - sum(bool(each.found or each.counts()[0])
                                       for each in self.streams.values())


class SidesAlike(JudgingSeen):
    """A port that was recorded on one side is seen on both."""

    @staticmethod
    def places(words: list[str]) -> set[tuple[int, int | None]]:
        found = JudgingSeen.places(words)
        return {(side, port) for _, port in found for side in (0, 1)}


# ---- what a frame becomes ------------------------------------------------------------------------


class CameStamps(Options):
    """The stamps of what left are taken as those of what came."""

    def is_start(self, frame: Frame) -> bool:
        return (self.stamps or "end").partition("-")[0] == "start"


class LeftStamps(Options):
    """The stamps of what came are taken as those of what left."""

    def is_start(self, frame: Frame) -> bool:
        return (self.stamps or "end").rpartition("-")[2] == "start"


class SkipsLeft(Options):
    """What left is skipped for its bytes."""

    def has_left(self, frame: Frame) -> bool:
        return super().has_left(frame) and frame.bytes[:4] == b"\x03\0\0\0"


class NoneLeft(Options):
    """What left is what came."""

    def has_left(self, frame: Frame) -> bool:
        return False


class TakesUnsaid(Options):
    """Interfaces that aren't named count by what their frames claim."""

    def place(self, frame: Frame) -> str:
        return self.places.get(frame.interface, "")


class OtherName(Input):
    """A fault of one of two has the name of the other."""

    def end(self, fault: str) -> None:  # type: ignore[override]
        other = {"came": "left", "left": "came"}.get(self.name, "")
        self.name = other
        super().end(fault)


JUDGING: tuple[type[JudgingSeen], ...] = (
    JudgesUnseen, JudgesAll, KeepsUnseen, ForeignUnseen, OtherPortsOver, DamagedOver, UnknownOver,
    NotCounted, OneSide, SidesAlike, NoneIdle,
)
OPTIONS: tuple[type[Options], ...] = (CameStamps, LeftStamps, SkipsLeft, NoneLeft, TakesUnsaid)


def wrong_readings() -> list[tuple[str, Reads]]:
    """Each by what it gets wrong."""
    reads = [Reads(judging=each) for each in JUDGING]
    reads += [Reads(options=each) for each in OPTIONS]
    reads.append(Reads(source=OtherName))
    whys = [*JUDGING, *OPTIONS, OtherName]
    return [((why.__doc__ or "").strip(" ."), each) for why, each in zip(whys, reads, strict=True)]


def readings_are_refused(reads: Reads) -> None:
    """Some row refuses a wrong body."""
    rows = (*RECORDED_ROWS, *MORE_RECORDED_ROWS)
    must(any(conform_recordings(CONFIGS[row.config], row.inputs(), row.words(), reads=reads)
             != row.answer() for row in rows), "no row refuses it")
