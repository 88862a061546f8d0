"""Ways in which a program may get several switches wrong that are judged from edge to edge: each
must be refused by a row of cascade_edge_rows.py."""
from __future__ import annotations

from conform import Judging
from conform_edges import EdgesJudging, WayTerms
from conform_terms import MILLION, Levels, Options, Terms


class LastLatency(WayTerms):
    """The latency of the way is that of its last row."""

    def taken(self, way: list[dict]) -> int:
        return super().taken(way[-1:])


class InnerOnce(WayTerms):
    """What a frame may take inside counts once."""

    def taken(self, way: list[dict]) -> int:
        return super().taken(way) - (len(way) - 1) * self.options.inner


class OneLine(WayTerms):
    """The wire time is that of one line."""

    def __init__(self, way: list[dict], byte_ns: int, options: Options, until: int) -> None:
        super().__init__(way, byte_ns // len(way), options, until)


class LastJitter(WayTerms):
    """The account is that of the last row."""

    def __init__(self, way: list[dict], byte_ns: int, options: Options, until: int) -> None:
        first = way[0] | {"jitter_us": way[-1]["jitter_us"]}
        super().__init__([first, *way[1:]], byte_ns, options, until)


class OneAccount(WayTerms):
    """Only the first switch refuses, whatever the clocks."""

    def __init__(self, way: list[dict], byte_ns: int, options: Options, until: int) -> None:
        super().__init__(way, byte_ns, options, until)
        self.is_one, self.before = True, 0


class AnyAccount(WayTerms):
    """A later switch may refuse, also by exact clocks."""

    def __init__(self, way: list[dict], byte_ns: int, options: Options, until: int) -> None:
        super().__init__(way, byte_ns, options, until)
        self.is_one = self.hops == 1


class ByDriftAlone(WayTerms):
    """A later switch refuses by its clock alone."""

    def __init__(self, way: list[dict], byte_ns: int, options: Options, until: int) -> None:
        super().__init__(way, byte_ns, options, until)
        if options.drift == 0:
            self.is_one, self.before = True, 0


class BegunAtOnce(WayTerms):
    """What came before F took nothing up behind the first switch."""

    def highest(self) -> int:
        return self.cap + self.slow * self.asked


class BegunToTheEnd(WayTerms):
    """The last switch's latency counts among those before it."""

    def highest(self) -> int:
        time = 0 if self.is_one else self.latency
        return self.cap + self.slow * (self.asked + time)


class BegunRoundedDown(WayTerms):
    """The time before the last switch is rounded down."""

    def highest(self) -> int:
        is_whole = self.options.drift == 0
        return super().highest() - (0 if self.is_one or is_whole else self.slow)


class InnerNowhere(WayTerms):
    """What is inside of a switch doesn't wait there for the next one."""

    def inside(self) -> int:
        return 0


class InnerOfAll(WayTerms):
    """What is inside of the last switch waits, too."""

    def inside(self) -> int:
        return MILLION * self.smax * self.hops * self.options.inner


class RefusedByTheFirst(WayTerms):
    """What was refused found the first account full."""

    def refused(self, levels: Levels, cost: int) -> Levels:
        high = super().refused(levels, cost).high
        return Levels(max(levels.low, self.cap - cost + 1), high)


class RefusedIsNoCharge(WayTerms):
    """What was refused wasn't charged anywhere."""

    def refused(self, levels: Levels, cost: int) -> Levels:
        return super().refused(levels, cost) if self.is_one else levels


def judging_by(terms: type[WayTerms]) -> type[Judging]:
    """The judging whose streams have these terms."""

    class Changed(EdgesJudging):
        """Streams with other terms."""

        def way_terms(self, way: list[dict], byte_ns: int) -> Terms:
            return terms(way, byte_ns, self.options, self.until)

    return Changed


OTHER_TERMS: tuple[type[WayTerms], ...] = (
    LastLatency, InnerOnce, OneLine, LastJitter, OneAccount, AnyAccount, ByDriftAlone, BegunAtOnce,
    BegunToTheEnd, BegunRoundedDown, InnerNowhere, InnerOfAll, RefusedByTheFirst,
    RefusedIsNoCharge,
)


def wrong_edges() -> list[tuple[str, type[Judging]]]:
    """Each by what it gets wrong."""
    return [((terms.__doc__ or "").strip(" ."), judging_by(terms)) for terms in OTHER_TERMS]
