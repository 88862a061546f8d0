"""Commands on two recordings, one of which is weak; a part of tests/run/devices.py."""
from __future__ import annotations

from collections.abc import Iterator

from pair_wanted import PairCase
from program import Program
from reads import ORDERS, READS
from recorded_pair import NETWORKS, PairOptions
from recording_rows import F1, G1, H1, H2, IL, PL, SL, US, ZERO, E, R
from weak import Call, WeakOfTwo, weak_devices
from weak_recordings import commands_of

FOREIGN = "ff" + H1[2:]  # a frame that is no AFDX frame


class WeakHalf(WeakOfTwo):
    """A command on two recordings, one of which is read from a weak device."""

    def __init__(self, program: Program, case: PairCase, place: int, by_path: bool) -> None:
        self.case = case
        super().__init__(program, case.words(), case.pair, place, by_path)

    def text_of(self, case: PairCase, opens: str, at_once: bool) -> bytes:
        """What is reported of the recordings where the run asks for more of one of these sides."""
        case = case.at_once() if at_once else case
        if self.words[0] == "list":
            return case.told(opens).text()
        return case.listed(self.program, opens=opens).out

    def lines_before(self, count: int, at_once: bool = False) -> bytes:
        """What is reported once so many bytes of the weak one were read, if the run then stops."""
        case = self.case._replace(pair=self.front_of(count))
        return self.text_of(case, NETWORKS[self.place], at_once)

    def told_before(self, reads: list[Call]) -> bytes:
        """What these reads give with --line-buffered; an input of which one gives nothing is at its
        end."""
        pair, are_open = self.read_by(reads)
        opens = "".join(side for side, is_open in zip(NETWORKS, are_open) if is_open)
        return self.text_of(self.case._replace(pair=pair), opens, at_once=True)


def pairs() -> dict[str, tuple[str, str]]:
    """Sound ones of both forms, and some with faults."""
    a = PL + R(ZERO, H1) + R("02000000", FOREIGN) + R("04000000", H2)
    b = SL + IL + E(US, H1) + E("03401e18", H2)
    return {
        "in turn": (a, b),
        "A's fault": (F1 + PL, b),
        "B's fault": (a, G1 + "00" * 12),
        "nothing is left of B": (F1, PL + R(ZERO, FOREIGN)),
        "A has no frame": (PL, b),
    }


def weak_half(program: Program, case: PairCase, place: int, by_path: bool) -> None:
    """All that weak devices do to one of two recordings."""
    weak_devices(WeakHalf(program, case, place, by_path))


def out_of_order() -> tuple[str, str]:
    """Both of them, and after what is held of B a fault."""
    a = PL + R("05000000", H1) + R("06000000", FOREIGN) + R("03000000", H2) + R("09000000", H1)
    return a, SL + IL + E("08401e18", H1) + E("04401e18", H2) + "00" * 12


def tries(command: str) -> Iterator[tuple[str, tuple[str, str], int | None]]:
    """Pairs with their names, and how many arrivals are held of each. That of `list` is said, since
    it reports elsewhere than --line-buffered does what is skipped."""
    for name, texts in pairs().items():
        yield name, texts, 0
        if ORDERS:
            yield name, texts, 1 if command == "list" else None
    if ORDERS:
        yield "out of order", out_of_order(), 1


def weak_pairs(program: Program, config: str, two: str) -> Iterator[tuple]:
    """Each command on two recordings, each of which is weak, by path and as standard input by
    turns; the configurations are that of the base tables and that of two switches."""
    by_path = False
    for named, command in commands_of(config, two).items() if "two" in READS else ():
        for name, texts, reorder in tries(command.words[0]) if named != "police" else ():
            pair = bytes.fromhex(texts[0]), bytes.fromhex(texts[1])
            case = PairCase(pair, PairOptions(reorder=reorder), command)
            for place, side in enumerate(NETWORKS):
                by_path = not by_path
                given = program, case, place, by_path
                yield f"{named}, {side} is weak: {name}, {reorder} held", weak_half, *given
            by_path = not by_path
