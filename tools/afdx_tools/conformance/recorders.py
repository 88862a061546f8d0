"""Where a switch was recorded, as words say it: interfaces, their ports, how frames are stamped."""
from __future__ import annotations

from dataclasses import dataclass
from typing import NamedTuple


class Place(NamedTuple):
    """Where an interface was: on a side, at a port (None: that of the system that a frame names),
    and whether its frames left the switch there."""

    side: str
    port: int | None
    is_left: bool


class Taps(NamedTuple):
    """The ports that were recorded: those by which frames came, and those by which they left. None:
    all of them. A port None stands for all ports of a side."""

    came: frozenset[tuple[str, int | None]] | None = None
    left: frozenset[tuple[str, int | None]] | None = None

    def has(self, side: str, port: int, is_left: bool) -> bool:
        """What goes through that port in that direction was recorded."""
        places = self.left if is_left else self.came
        return places is None or not places.isdisjoint({(side, port), (side, None)})


def place_of(word: str, is_left: bool) -> tuple[int, Place]:
    """A word K=SIDE or K=SIDE:PORT."""
    number, _, place = word.partition("=")
    side, _, port = place.partition(":")
    return int(number), Place(side, int(port) if port else None, is_left)


@dataclass(frozen=True)
class Recorders:
    """The options of recordings: the words of interfaces where frames came and where they left,
    whether frames have their check sequence (None: the recording says it), and of what came and
    what left whether the stamps are of first bits."""

    came: tuple[str, ...] = ()
    left: tuple[str, ...] = ()
    fcs: bool | None = None
    stamps: str = "end"

    def places(self, is_left: bool | None) -> dict[int, Place]:
        """The interfaces of one of two recordings, or of the only one."""
        came = [place_of(word, False) for word in self.came if not is_left]
        return dict(came + [place_of(word, True) for word in self.left if is_left is not False])

    def taps(self) -> Taps:
        """The ports that these interfaces were at."""
        came, left = ({(each.side, each.port) for each in self.places(is_left).values()}
                      for is_left in (False, True))
        return Taps(frozenset(came), frozenset(left))

    def are_starts(self, is_left: bool) -> bool:
        """The stamps of these frames are of first bits."""
        came, _, left = self.stamps.partition("-")
        return (left or came if is_left else came) == "start"
