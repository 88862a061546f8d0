"""What a run takes from two recordings that are read at once, that of network A and that of B,
computed apart from the program: the list that says the same, the fault, and the counts."""
from __future__ import annotations

from typing import NamedTuple

from recorded_arrivals import Options, Systems
from recorded_list import Run, Source, Told

NETWORKS = "AB"


class PairOptions(NamedTuple):
    """The options of a run on two recordings."""

    places: tuple[str, ...] = ()  # as words: `0=A:1`, `0=B`, `0=-`
    fcs: bool | None = None
    origin: int | None = None
    reorder: int | None = None
    stamps: str | None = None
    live: int | None = None
    at_once: bool = False

    def of(self, side: str) -> Options:
        """Those of one of the recordings: a place on the other side isn't of its interfaces."""
        pairs = [each.split("=") for each in self.places]
        places = {int(number): place for number, place in pairs if place[0] in (side, "-")}
        return self.others()._replace(places=places, side=side)

    def others(self) -> Options:
        """Those that aren't of interfaces."""
        return Options(
            fcs=self.fcs,
            origin=self.origin,
            reorder=self.reorder,
            stamps=self.stamps,
            live=self.live,
            at_once=self.at_once,
        )

    def words(self) -> list[str]:
        """The program's words."""
        return [*(f"--interface={each}" for each in self.places), *self.others().words()]


def told_pair(
    options: PairOptions, systems: Systems, pair: tuple[bytes, bytes], opens: str = ""
) -> Told:
    """What is reported of the bytes of two recordings; of those sides that `opens` names the bytes
    are not all."""
    sources = [
        Source(options.of(side), systems, data, side in opens)
        for side, data in zip(NETWORKS, pair)
    ]
    return Run(options.origin).told(sources)
