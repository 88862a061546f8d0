"""What came to each switch: the list's arrivals, and what cables brought.

A verdict has no time. What a cable brings is judged in the order in which it left, at that time:
so the i-th verdict of a frame that isn't the list's is about the i-th copy that left a cable's
port. A switch accepts a frame of a side at most once.
"""
from __future__ import annotations

from typing import NamedTuple

import numpy as np

from afdx_tools.config import MOST_PORTS, Config
from afdx_tools.faults import Refused
from afdx_tools.replay.listing import Listing

OTHERS = "the program's lines aren't those of this network"


class Came(NamedTuple):
    """Frames as they came to a switch: of each its line in the list, the port where it came in, the
    time, and the place of its verdict's word."""

    line: np.ndarray
    port: np.ndarray
    time: np.ndarray
    verdict: np.ndarray


class Hops:
    """The verdicts of several switches, in their order. `cable` is the list of ports with a cable,
    and `far` the ports at the other ends of these."""

    def __init__(self, config: Config) -> None:
        count = MOST_PORTS * len(config.names)
        self.far = np.full(count, -1, np.int16)
        for port, cable in config.cables.items():
            self.far[port] = cable.far
        none = np.zeros(0, np.int32)
        self.parts = [(none, none.astype(np.int16), none.astype(np.int8), none.astype(bool))]

    def judged(
        self, line: np.ndarray, switch: np.ndarray, verdict: np.ndarray, first: np.ndarray
    ) -> None:
        """Takes verdicts: of each the line, the switch, the word, and whether the list brought the
        frame there."""
        self.parts.append((line, switch, verdict, first))

    def joined(
        self, listing: Listing, line: np.ndarray, port: np.ndarray, time: np.ndarray,
        left: np.ndarray,
    ) -> tuple[Came, np.ndarray]:  # fmt: skip
        """All that came to a switch, and of each copy when its frame came to that switch. The
        copies are given by line, port, time, and whether they left."""
        lines, switch, verdict, first = (np.concatenate(column) for column in zip(*self.parts))
        self.parts.clear()
        came_in, times = listing.port[lines], listing.time[lines]
        brought = np.flatnonzero(~first)
        cables = np.flatnonzero(left & (self.far[port] >= 0))[: len(brought)]
        if not np.array_equal(line[cables], lines[brought]):
            raise Refused(OTHERS)
        came_in[brought], times[brought] = self.far[port[cables]], time[cables]
        if (came_in // MOST_PORTS != switch).any() or (port < 0).any():
            raise Refused(OTHERS)
        came = Came(lines, came_in, times, verdict)
        return came, self.since_of(came, line, port)

    def since_of(self, came: Came, line: np.ndarray, port: np.ndarray) -> np.ndarray:
        """Of each copy when its frame came to the switch of its port and was accepted there."""
        switches = len(self.far) // MOST_PORTS
        accepted = np.flatnonzero(came.verdict == 0)
        keys = came.line[accepted].astype(np.int64) * switches + came.port[accepted] // MOST_PORTS
        wanted = line.astype(np.int64) * switches + port // MOST_PORTS
        most = max(int(keys.max(initial=0)), int(wanted.max(initial=0)))
        place = np.full(most + 1, -1, np.int32)
        place[keys] = accepted
        found = place[wanted]
        if (found < 0).any():
            raise Refused(OTHERS)
        return came.time[found]
