"""Two recordings that come through pipes: each arrival is reported once it is known that none comes
before it, and not before; with --line-buffered, which holds none, or as many as --reorder says."""
from __future__ import annotations

import os
import subprocess
from collections.abc import Iterator
from contextlib import contextmanager
from typing import NamedTuple

from edge_rows import low
from pair_wanted import PairCase
from program import PATIENCE, Program, must, rests, same_text, text_within
from reads import LIVES, ORDERS
from recorded_pair import NETWORKS, PairOptions
from recording_rows import H1, H2, IL, ONE, PL, SL, US, ZERO, E, R

SILENCE = 0.1  # seconds in which nothing may come
WAITS = 4  # the status of the reference where more has to come
FOREIGN = "ff" * 6 + H1[12:]


class Step(NamedTuple):
    """A piece of a recording that comes, or its end."""

    side: str
    data: bytes | None


class Live(NamedTuple):
    """A run whose recordings are written while it goes on."""

    process: subprocess.Popen
    pipes: dict[str, int]  # by side, where its recording is written

    def within(self, size: int, seconds: float) -> bytes:
        """So many bytes of its standard output, or those that come in so many seconds."""
        assert self.process.stdout is not None
        return text_within(self.process.stdout.fileno(), size, seconds)

    def ends(self) -> tuple[int, bytes]:
        """The status with which it ends, and what it writes on standard error."""
        assert self.process.stderr is not None
        return self.process.wait(PATIENCE), self.process.stderr.read()


def steps_of(text: str) -> list[Step]:
    """Steps that are spelled out: the side and a piece, by ` / `; no piece is the end."""
    sides = [(each[0], each[1:].strip()) for each in text.split(" / ")]
    return [Step(side, bytes.fromhex(piece) if piece else None) for side, piece in sides]


@contextmanager
def started(program: Program, words: list[str], by_stdin: str) -> Iterator[Live]:
    """A run on two pipes; that of one side may be standard input."""
    ends = {side: os.pipe() for side in NETWORKS}
    names = {side: f"/dev/fd/{ends[side][0]}" for side in NETWORKS}
    given = subprocess.DEVNULL
    if by_stdin:
        names[by_stdin], given = "-", ends[by_stdin][0]
    process = subprocess.Popen(
        [program.path, *words, *names.values()],
        stdin=given,
        stdout=subprocess.PIPE,
        stderr=subprocess.PIPE,
        cwd=program.folder,
        bufsize=0,
        pass_fds=[end for end, _ in ends.values()],
    )
    for end, _ in ends.values():
        os.close(end)
    pipes = {side: end for side, (_, end) in ends.items()}
    try:
        yield Live(process, pipes)
    finally:
        for end in pipes.values():
            os.close(end)
        process.kill()
        process.communicate()


def told_now(program: Program, case: PairCase, command: str, opens: str) -> bytes:
    """What has to be reported of the bytes that have come, where more of these sides may come."""
    if command == "list":
        return case.told(opens).text()
    return case.listed(program, opens=opens).out


def silent(live: Live) -> None:
    """Nothing comes."""
    rests(live.process)
    must(live.within(1, SILENCE) == b"", "it is told too early")


def live_pair(
    program: Program, words: list[str], options: PairOptions, steps: list[Step], by_stdin: str
) -> None:
    """After each step everything is reported that is known then, and before its last byte nothing
    of that; where both end, the run does."""
    case, told, opens = held_case(options), b"", NETWORKS
    with started(program, [*words, *case.options.words()], by_stdin) as live:
        for step in steps:
            place = NETWORKS.index(step.side)
            if step.data is None:
                silent(live)
                os.close(live.pipes.pop(step.side))
                opens = opens.replace(step.side, "")
            else:
                os.write(live.pipes[step.side], step.data[:-1])
                silent(live)
                os.write(live.pipes[step.side], step.data[-1:])
                case = case.with_half(place, case.pair[place] + step.data)
            wanted = told_now(program, case, words[0], opens)
            must(wanted.startswith(told), "what was told is no beginning")
            more = wanted[len(told) :]
            same_text("what is told at once", more, live.within(len(more), PATIENCE))
            told = wanted
        said = case.told(opens)
        if said.status() != WAITS:
            ended = live.ends()
            must(ended == (said.status(), said.fault), f"it ends with {ended!r}")


def held_case(options: PairOptions) -> PairCase:
    """Two recordings of which no byte has come yet."""
    return PairCase((b"", b""), options._replace(at_once=True))


def held_in_order() -> dict[str, tuple[str, list[int]]]:
    """The same where one arrival of each is held."""
    first, second = R(ZERO, H1), R("01000000", H2)
    third, fourth, foreign = R("02000000", H1), R("03000000", H2), R(ZERO, FOREIGN)
    heads = f"A{PL} / B{PL}"
    return {
        "one is held, in order": (
            f"{heads} / A{first} / B{first} / A{second} / B{second} / A{third} / A / B",
            [0, 0, 0, 0, 0, 1, 2, 2, 5],
        ),
        "one is held, out of order": (
            f"{heads} / A{second} / A{first} / B{fourth} / B{third} / A{foreign} / A / B",
            [0, 0, 0, 0, 0, 1, 1, 3, 4],
        ),
        "one is held, a fault of A": (
            f"{heads} / A{second} / B{first} / B{third} / A{fourth} / A{first} / B",
            [0, 0, 0, 0, 0, 1, 1, 4],
        ),
    }


def held_by_clock() -> dict[str, tuple[str, list[int]]]:
    """The same where frames may stand 1 ms late: a network is silent, and its recorder isn't."""
    heads = f"A{PL} / B{PL}"
    first, second = R(ZERO, H1), R("d0070000", H2)  # 2 ms
    heard = {ms: R(low(1000 * ms), FOREIGN) for ms in (1, 2, 3, 4, 5)}
    return {
        "A hears": (
            f"{heads} / A{heard[1]} / B{first} / B{heard[2]} / A{heard[3]} / B{second}"
            f" / A{heard[5]} / B{heard[4]} / B",
            [0, 0, 0, 0, 0, 1, 1, 1, 2, 2],
        ),
        "B hears": (
            f"{heads} / A{first} / B{heard[1]} / A{heard[2]} / A{second} / B{heard[3]}"
            f" / A{heard[4]} / A",
            [0, 0, 0, 0, 1, 1, 1, 2, 2],
        ),
        "A is silent": (
            f"{heads} / B{first} / B{heard[2]} / B{second} / B{heard[4]} / A{heard[5]}",
            [0, 0, 0, 0, 0, 0, 2],
        ),
        "in its own order": (
            f"{heads} / A{R(ONE, H2)} / B{heard[2]} / A{first} / A{heard[2]}",
            [0, 0, 0, 0, 0, 2],
        ),
    }


def held_back() -> dict[str, tuple[str, list[int]]]:
    """Steps, and how many arrivals have been reported after each."""
    first, second, foreign = R(ZERO, H1), R("01000000", H2), R(ZERO, FOREIGN)
    heads, third, same = f"A{PL} / B{PL}", R("02000000", H1), R("01000000", H1)
    waits = f"B{first} / B{second} / A{R('05000000', H1)} / B{R('09000000', H2)}"
    blocks = f"A{SL} / B{SL} / A{IL} / B{IL} / B{E(US, H1)} / A{E('01401e18', H2)}"
    return {
        "A is silent": (
            f"{heads} / {waits} / A / B{R('0c000000', H1)} / B",
            [0, 0, 0, 0, 2, 3, 4, 5, 5],
        ),
        "A hasn't begun": (
            f"B{PL} / B{first} / B{second} / A{PL} / A / B",
            [0, 0, 0, 0, 2, 2],
        ),
        "B is silent": (
            f"A{PL} / A{first} / A{second} / B{PL} / B{same} / B / A",
            [0, 0, 0, 0, 2, 2, 3],
        ),
        "equal moments": (
            f"{heads} / B{first} / A{first} / A{first} / A{second} / B / A",
            [0, 0, 0, 1, 2, 3, 4, 4],
        ),
        "skipped frames": (
            f"{heads} / A{foreign} / B{foreign} / A{first} / B{second} / B / A",
            [0, 0, 0, 0, 0, 1, 1, 2],
        ),
        "pcapng": (f"{blocks} / B / A", [0, 0, 0, 0, 0, 1, 2, 2]),
        "a fault of B": (
            f"{heads} / A{first} / B{second} / A{third} / B{first}",
            [0, 0, 0, 1, 2, 2],
        ),
    }


def counts_hold(options: PairOptions, steps: list[Step], counts: list[int]) -> None:
    """The reference reports so many arrivals after each step."""
    case, opens, found = held_case(options), NETWORKS, []
    for step in steps:
        place = NETWORKS.index(step.side)
        if step.data is None:
            opens = opens.replace(step.side, "")
        else:
            case = case.with_half(place, case.pair[place] + step.data)
        found.append(sum(line[:1] != b"#" for line in case.told(opens).lines))
    must(found == counts, f"the reference tells {found} arrivals, wanted {counts}")


def live_pairs(program: Program) -> Iterator[tuple]:
    """All, by `replay` and by `list`, from two pipes and from one and standard input."""
    turns = ["", "A", "B"]
    tries: list[tuple[str, PairOptions, str, list[int]]] = []
    tries += [(name, PairOptions(), *each) for name, each in held_back().items()]
    if ORDERS:
        tries += [(name, PairOptions(reorder=1), *each) for name, each in held_in_order().items()]
    if LIVES:
        tries += [(name, PairOptions(live=1), *each) for name, each in held_by_clock().items()]
    for name, options, text, counts in tries:
        steps = steps_of(text)
        yield f"two, as they come: {name}, counted", counts_hold, options, steps, counts
        for command in ("replay", "list"):
            turns.append(turns.pop(0))
            given = program, [command, "base.toml"], options, steps, turns[0]
            yield f"two, as they come: {name}, {command}", live_pair, *given
