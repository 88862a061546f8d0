"""`conform` on two lists, one of which is weak, with and without `--senders`; a part of
tests/run/devices.py."""
from __future__ import annotations

from collections.abc import Iterator

from beside_rows import BESIDE_ROWS
from conform import conform
from conform_claims import pair_of
from hostile_lists import LISTS
from program import Program
from rows import CONFIGS, ROWS, Row, list_of
from sender_rows import SENDER_CONFIGS
from sender_rows import list_of as sent_by
from senders import conform_senders
from small_cases import Pair
from weak import BEYOND, Call, WeakOfTwo, large_texts, many_writes, weak_devices

TRIED = (  # rows of each ending, with lines that are told before the end and at it
    "two, of which one is over-rate", "nothing has left yet", "a nanosecond late",
    "over twice the latency", "frames of no stream", "an account too large",
    "all orders at one moment", "links that are left out", "a bad line", "times that go back",
    "told before what is passed over", "a bad line behind what is told", "nothing at all",
    "a switch of two",
)

TRIED_BESIDE = (  # the same of a switch and its systems
    "systems before the switch, by moment", "the switch before systems, by moment",
    "at one port systems first", "a switch of several and its systems",
    "a bad line of what left", "a bad line of what came",
)


class WeakList(WeakOfTwo):
    """`conform` with its options on two lists, one of which is read from a weak device."""

    def __init__(self, program: Program, pair: Pair, place: int, by_path: bool) -> None:
        self.judged = pair
        words = ["conform", *pair.words, program.apart().write("config", pair.config)]
        super().__init__(program, words, (pair.came, pair.left), place, by_path)

    def text_of(self, pair: tuple[bytes, bytes], are_open: list[bool]) -> bytes:
        """What is written of these lists where the run asks for more of one that is open."""
        came, left = (
            text[: text.rfind(b"\n") + 1] + BEYOND if is_open else text
            for text, is_open in zip(pair, are_open)
        )
        return self.written(came, left)

    def written(self, came: bytes, left: bytes) -> bytes:
        """What is written of these lists."""
        return conform(self.judged.config, came, left, self.judged.words).out

    def lines_before(self, count: int, at_once: bool = False) -> bytes:
        """What is written once so many bytes of the weak one were read, if the run then stops."""
        return self.text_of(self.front_of(count), [self.place == 0, self.place == 1])

    def told_before(self, reads: list[Call]) -> bytes:
        """What these reads give with --line-buffered, where the run then asks for more."""
        return self.text_of(*self.read_by(reads))


class WeakBeside(WeakList):
    """The same of a switch and its systems, in one run."""

    def written(self, came: bytes, left: bytes) -> bytes:
        """What is written of these lists."""
        return conform_senders(self.judged.config, came, left, self.judged.words).out


def weak_list(
    program: Program, pair: Pair, place: int, by_path: bool, judge: type[WeakList] = WeakList
) -> None:
    """All that weak devices do to one of two lists."""
    weak_devices(judge(program, pair, place, by_path))


def pair_beside(row: Row) -> Pair:
    """A row's configuration, lists and options, where systems are judged, too."""
    return Pair(SENDER_CONFIGS[row.config], sent_by(row.came), sent_by(row.left), row.words())


def many_lines(count: int) -> Pair:
    """Frames of no stream, each at a moment of its own."""
    left = b"".join(b"R %d A 1 -\n" % time for time in range(count))
    return Pair(CONFIGS["base"], list_of("0", "came"), left, ())


def weak_lists(program: Program) -> Iterator[tuple]:
    """Rows of which each list is weak, by path and as standard input by turns; and long texts."""
    if not program.knows("conform"):
        return
    by_path, rows = False, {row.name: row for row in ROWS}
    for name in TRIED:
        for place, side in enumerate(LISTS):
            by_path = not by_path
            given = program, pair_of(rows[name]), place, by_path
            yield f"conform, {side} is weak: {name}", weak_list, *given
        by_path = not by_path
    beside = {each.row.name: each.row for each in BESIDE_ROWS}
    for name in TRIED_BESIDE:
        for place, side in enumerate(LISTS):
            by_path = not by_path
            of = program, pair_beside(beside[name]), place, by_path, WeakBeside
            yield f"conform --senders, {side} is weak: {name}", weak_list, *of
    many, large = WeakList(program, many_lines(60), 1, False), many_lines(9_000)
    yield "conform: more than 1,000 writes", many_writes, many
    yield "conform: more than a buffer", large_texts, WeakList(program, large, 1, True)
