"""Ways in which a program may get `conform` wrong: each must be refused by a row of rows.py."""
from __future__ import annotations

from cascade_run import Arrival
from conform import Judging
from conform_stream import CAME, Event, State, Stream
from conform_terms import Came, Left, Levels, Options, Terms
from frames import OVERHEAD


class HalfOpen(Terms):
    """An arrival is open for the reach of two stamps once."""

    def is_open(self, arrival: Came) -> bool:
        return arrival.time + self.latency + self.reach > self.until


class NoMin(Terms):
    """That what passed had room isn't used."""

    def accepted(self, levels: Levels, cost: int) -> Levels:
        return Levels(levels.low + cost, max(levels.high, self.slow * self.asked) + cost)


class MinAtOnce(Terms):
    """What passed is taken to have been asked at once."""

    def accepted(self, levels: Levels, cost: int) -> Levels:
        return Levels(levels.low + cost, min(levels.high + cost, self.cap))


class WireWithoutDrift(Terms):
    """The wire time is that of the recorder's clock."""

    def wire_time(self, length: int) -> int:
        return (length + 8) * self.byte_ns


class WireWithGap(Terms):
    """The gap between frames is counted."""

    def wire_time(self, length: int) -> int:
        return super().wire_time(length + OVERHEAD - 8)


class LatencyWithoutDrift(Terms):
    """The latency is that of the recorder's clock."""

    def most(self, time: int) -> int:
        return time


class JudgesCutOff(Terms):
    """Frames of the last moments are judged."""

    def is_cut_off(self, frame: Left) -> bool:
        return False


class AskedFits(Terms):
    """When the account is asked counts for when a frame leaves."""

    def is_late(self, arrival: Came, frame: Left) -> bool:
        later = frame._replace(time=frame.time - self.options.asked)
        return super().is_late(arrival, later)


class AskedNever(Terms):
    """The account is asked at once."""

    def __init__(self, link: dict, byte_ns: int, options: Options, until: int) -> None:
        super().__init__(link, byte_ns, options, until)
        self.asked = 2 * options.slack


class ApartNever(Terms):
    """Recorders are never apart."""

    def __init__(self, link: dict, byte_ns: int, options: Options, until: int) -> None:
        super().__init__(link, byte_ns, options._replace(between=0), until)


class ApartWhenAsked(Terms):
    """Recorders that are apart leave open when the account is asked."""

    def __init__(self, link: dict, byte_ns: int, options: Options, until: int) -> None:
        super().__init__(link, byte_ns, options, until)
        self.asked += options.between


class ApartTwice(Terms):
    """The stamps of what came may be off by as much as those of what left."""

    def __init__(self, link: dict, byte_ns: int, options: Options, until: int) -> None:
        super().__init__(link, byte_ns, options, until)
        self.reach += options.between


class LateApart(Terms):
    """What left may be later by recorders that are apart, but not sooner."""

    def is_early(self, arrival: Came, frame: Left) -> bool:
        later = frame._replace(time=frame.time - self.options.between)
        return super().is_early(arrival, later)


class EarlyApart(Terms):
    """What left may be sooner by recorders that are apart, but not later."""

    def is_late(self, arrival: Came, frame: Left) -> bool:
        later = frame._replace(time=frame.time + self.options.between)
        return super().is_late(arrival, later)


class RefusedIsNothing(Terms):
    """A refusal shows nothing of the account."""

    def refused(self, levels: Levels, cost: int) -> Levels:
        return levels


class FirstState(Stream):
    """One state is kept for each number of frames, that of the lowest levels."""

    def weigh(self, place: int, arrival: Came) -> None:
        super().weigh(place, arrival)
        first: dict[int, State] = {}
        for state in self.states:
            first.setdefault(state.passed, state)
        self.states = list(first.values())


class LastState(Stream):
    """One state is kept for each number of frames, that of the highest levels."""

    def weigh(self, place: int, arrival: Came) -> None:
        super().weigh(place, arrival)
        self.states = list({state.passed: state for state in self.states}.values())


class ClosesFirst(Stream):
    """A closing comes before the arrivals of its time."""

    def events(self) -> list[Event]:
        return sorted(super().events(), key=lambda event: (event[0], event[1] == CAME))


class OneNamed(Stream):
    """An arrival is named each time that its frame is found."""

    def tell(self, word: str, number: int, more: object = None) -> None:
        super().tell(word, number, more)
        self.named.clear()


class LeftFromStart(Judging):
    """What left is taken from the begin of what came on."""

    def kept(self, lines: list[Arrival], is_left: bool) -> list[Arrival]:
        start = self.options.start or 0
        return super().kept([each for each in lines if each.time >= start], is_left)


class LeftByTheSlacks(Judging):
    """What left is taken from two slacks before the begin of what came on."""

    def kept(self, lines: list[Arrival], is_left: bool) -> list[Arrival]:
        start = (self.options.start or 0) - 2 * self.options.slack * is_left
        return super().kept([each for each in lines if each.time >= start], is_left)


class AllLeft(Judging):
    """What left before the begin is judged."""

    def kept(self, lines: list[Arrival], is_left: bool) -> list[Arrival]:
        options = self.options
        self.options = options._replace(start=None if is_left else options.start)
        kept = super().kept(lines, is_left)
        self.options = options
        return kept


class IdleConforms(Judging):
    """A stream of which only arrivals came isn't idle."""

    def idle(self) -> int:
        return sum(self.judged_streams()) - len(self.streams)


class StoppedIdle(Judging):
    """A stream is idle whatever lines it has."""

    def idle(self) -> int:
        shown = [each for each in self.streams.values() if each.counts()[0]]
        return sum(self.judged_streams()) - len(shown)


def judging_by(terms: type[Terms], stream: type[Stream]) -> type[Judging]:
    """The judging whose streams are judged so."""

    class Changed(Judging):
        """Streams with other terms, or other steps."""

        def terms(self, link: dict, port: int) -> Terms:
            return terms(link, self.switch.ports[port].byte_ns, self.options, self.until)

        def stream(self, terms: Terms, place: str, came: list[Came], left: list[Left]) -> Stream:
            return stream(terms, place, came, left)

    return Changed


OTHER_TERMS: tuple[type[Terms], ...] = (
    HalfOpen, NoMin, MinAtOnce, WireWithoutDrift, WireWithGap, LatencyWithoutDrift, JudgesCutOff,
    AskedFits, AskedNever, RefusedIsNothing, ApartNever, ApartWhenAsked, ApartTwice, LateApart,
    EarlyApart,
)
OTHER_STREAMS: tuple[type[Stream], ...] = (FirstState, LastState, ClosesFirst, OneNamed)
OTHER_RUNS: tuple[type[Judging], ...] = (
    LeftFromStart, LeftByTheSlacks, AllLeft, IdleConforms, StoppedIdle,
)


def wrong_bodies() -> list[tuple[str, type[Judging]]]:
    """Each by what it gets wrong."""
    changed = [(terms, judging_by(terms, Stream)) for terms in OTHER_TERMS]
    steps = [(stream, judging_by(Terms, stream)) for stream in OTHER_STREAMS]
    both = [*changed, *steps, *((run, run) for run in OTHER_RUNS)]
    return [((wrong.__doc__ or "").strip(" ."), judging) for wrong, judging in both]
