"""Whether what left on one stream can be explained by what came, and what is found where it can't:
the states that a right switch may be in, event by event. Computed apart from the program."""
from __future__ import annotations

import bisect
from typing import NamedTuple

from conform_terms import Came, Left, Levels, Terms

CAME, CLOSES = 0, 1  # the events of one time, in their order
MOST_STATES = 1_024
OVER_RATE = "over-rate"

Event = tuple[int, int, int]  # its time, its kind, the place of its arrival or frame from 0


class State(NamedTuple):
    """What may have happened so far: how many frames have passed, the levels at the last arrival
    of the right shape, and how many accepted arrivals wait for frames that are cut off."""

    passed: int
    levels: Levels
    waiting: int

    def outdoes(self, other: State) -> bool:
        """It allows all that the other allows."""
        is_wider = self.levels.low <= other.levels.low and self.levels.high >= other.levels.high
        return self.passed == other.passed and is_wider and self.waiting <= other.waiting


class Found(NamedTuple):
    """A line and its moment."""

    moment: int
    text: str


def thinned(states: list[State]) -> list[State]:
    """Those that no other outdoes; one of equal ones."""
    kept: dict[int, list[State]] = {}  # by the frames that have passed
    # what outdoes a state stands before it
    for state in sorted(states, key=lambda each: (
            each.passed, each.levels.low, -each.levels.high, each.waiting)):
        equals = kept.setdefault(state.passed, [])
        if not any(other.outdoes(state) for other in equals):
            equals.append(state)
    return [state for equals in kept.values() for state in equals]


class Stream:
    """One stream, judged. `place` is its side and port as a line has them."""

    def __init__(self, terms: Terms, place: str, came: list[Came], left: list[Left]) -> None:
        self.terms, self.place, self.came = terms, place, came
        self.times = [arrival.time for arrival in came]
        self.left = [frame for frame in left if not terms.is_cut_off(frame)]
        self.cut_off = len(left) - len(self.left)
        self.states = self.first_states()
        self.time = terms.options.start or 0  # of the levels
        self.over = 0  # arrivals whose events came
        self.marks: dict[int, str] = {}  # by the places of arrivals
        self.named: set[int] = set()  # places of those with a `passed` line
        self.amiss: set[int] = set()  # places of frames with a finding
        self.uncertain = 0
        self.is_unsure = False
        self.found: list[Found] = []
        self.moment = 0
        self.run()

    # ---- what is asked of it ---------------------------------------------------------------------

    def findings(self) -> int:
        """How many of its lines are findings."""
        return len(self.found) - self.is_unsure

    def counts(self) -> tuple[int, int, int]:
        """Its frames that are explained, those that are open, and its uncertain arrivals."""
        if self.is_unsure:
            return 0, 0, 0
        waiting = min(state.waiting for state in self.states)
        return len(self.left) - len(self.amiss), self.cut_off + waiting, self.uncertain

    # ---- events ----------------------------------------------------------------------------------

    def events(self) -> list[Event]:
        """Its events in their order."""
        came = [(arrival.time, CAME, place) for place, arrival in enumerate(self.came)]
        left = [(self.terms.closing(frame), CLOSES, place) for place, frame in enumerate(self.left)]
        return sorted([*came, *left])

    def run(self) -> None:
        """Takes all events."""
        for time, kind, place in self.events():
            self.moment = self.terms.moment(time)
            if kind == CAME:
                self.arrive(place)
            else:
                self.close(place)
            if self.is_unsure:
                return

    def first_states(self) -> list[State]:
        """One for each number of frames that may have been begun."""
        levels, states = self.terms.first(), []
        for passed, frame in enumerate([None, *self.left]):
            if frame is not None and not self.terms.is_begun(frame):
                break
            states.append(State(passed, levels, 0))
        return states

    def arrive(self, place: int) -> None:
        """An arrival's event."""
        arrival = self.came[place]
        if arrival.shape:
            self.marks[place] = arrival.shape
        else:
            self.weigh(place, arrival)
            if len(self.states) > MOST_STATES:
                self.is_unsure = True
                self.tell("unsure", arrival.number)
        self.over = place + 1

    def weigh(self, place: int, arrival: Came) -> None:
        """The event of an arrival of the right shape."""
        terms, cost = self.terms, self.terms.cost(arrival)
        gap, self.time = arrival.time - self.time, arrival.time
        states = [each._replace(levels=terms.later(each.levels, gap)) for each in self.states]
        may = [each for each in states if terms.may_pass(each.levels, cost)]
        if not may:
            self.marks[place] = OVER_RATE
        self.uncertain += any(not terms.has_to_pass(each.levels, cost) for each in may)
        led = self.led(states, arrival)
        while not led:
            states, led = self.deviate(states, place, arrival)
        self.states = thinned(led)

    def close(self, place: int) -> None:
        """A frame's closing."""
        kept = [each for each in self.states if each.passed > place]
        if not kept:
            kept = self.lead(self.states)
            while kept[0].passed <= place:
                self.unexplained(kept[0].passed)
                kept = [each._replace(passed=each.passed + 1) for each in kept]
        self.states = kept

    # ---- steps -----------------------------------------------------------------------------------

    def led(self, states: list[State], arrival: Came) -> list[State]:
        """The states to which the arrival leads."""
        terms, cost, led = self.terms, self.terms.cost(arrival), []
        is_open = terms.is_open(arrival)
        for passed, levels, waiting in states:
            is_last = passed == len(self.left)
            if terms.may_pass(levels, cost):
                accepted = terms.accepted(levels, cost)
                if not is_last and terms.fits(arrival, self.left[passed]):
                    led.append(State(passed + 1, accepted, waiting))
                if is_last and is_open:
                    led.append(State(passed, accepted, waiting + 1))
            if not terms.has_to_pass(levels, cost):
                led.append(State(passed, terms.refused(levels, cost), waiting))
        return led

    def lead(self, states: list[State]) -> list[State]:
        """Those in which most frames have passed."""
        most = max(each.passed for each in states)
        return [each for each in states if each.passed == most]

    def fits_later(self, place: int, frame: Left) -> bool:
        """The frame fits an arrival behind that of this place."""
        end = bisect.bisect_right(self.times, self.terms.closing(frame))
        return any(self.terms.fits(self.came[at], frame) for at in range(place + 1, end))

    def passed_on(self, states: list[State], arrival: Came, frames: int) -> list[State]:
        """The states, as those in which the arrival was accepted and so many frames passed."""
        cost = self.terms.cost(arrival)
        return [
            State(passed + frames, self.terms.accepted(levels, cost), waiting)
            for passed, levels, waiting in states
        ]

    def deviate(
        self, states: list[State], place: int, arrival: Came
    ) -> tuple[list[State], list[State]]:
        """An arrival that leads from these states to none: what is found, and how it goes on. Gives
        the states before it and those behind."""
        terms, lead = self.terms, self.lead(states)
        first = lead[0].passed  # the place of the next frame
        near = arrival.time + 2 * terms.latency + terms.reach
        frame = self.left[first] if first < len(self.left) else None
        if frame is None or frame.time > near:
            self.tell("stopped", arrival.number)
            return states, self.passed_on(states, arrival, 0)
        is_same = frame.content == arrival.content
        if is_same and arrival.time <= terms.closing(frame) and terms.is_early(arrival, frame):
            by = arrival.time + terms.wire_time(len(frame.content)) - frame.time
            self.tell("early", arrival.number, by)
        elif self.fits_later(place, frame):
            self.tell("stopped", arrival.number)
            return states, self.passed_on(states, arrival, 0)
        elif is_same and terms.is_late(arrival, frame):
            self.tell("late", arrival.number, frame.time - arrival.time - terms.latency)
        elif terms.is_late(arrival, frame):
            self.tell("stopped", arrival.number)
            return states, self.passed_on(states, arrival, 0)
        else:
            self.unexplained(first)
            states = [each._replace(passed=first + 1) for each in lead]
            return states, self.led(states, arrival)
        self.amiss.add(first)
        return states, self.passed_on(lead, arrival, 1)

    # ---- lines -----------------------------------------------------------------------------------

    def tell(self, word: str, number: int, more: object = None) -> None:
        """A line, of the moment of the event at hand."""
        behind = "" if more is None else f" {more}"
        self.found.append(Found(self.moment, f"{word} {number} {self.place}{behind}"))

    def fitting(self, frame: Left) -> list[int]:
        """The places of the arrivals whose events came and which the frame fits."""
        first = bisect.bisect_left(self.times, frame.time - self.terms.latency - self.terms.reach)
        return [at for at in range(first, self.over) if self.terms.fits(self.came[at], frame)]

    def unexplained(self, place: int) -> None:
        """The line of a frame that nothing explains."""
        frame = self.left[place]
        self.amiss.add(place)
        fitting = self.fitting(frame)
        for at in fitting:
            if at in self.marks and at not in self.named:
                self.named.add(at)
                self.tell("passed", self.came[at].number, self.marks[at])
                return
        is_turned = any(at not in self.marks for at in fitting)
        word = frame.fault or ("out-of-turn" if is_turned else "no-arrival")
        self.tell("strange", frame.number, word)
