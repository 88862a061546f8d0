"""Runs with `--live`: recordings made at random, one or two; what the reference itself keeps; and
the words."""
from __future__ import annotations

import random
from collections.abc import Iterator

from live_rows import live_pairs, live_rows
from made_recordings import made_data
from pair_reading import both_of_pair, pair_row_is_read
from pair_wanted import PairCase, random_pair
from program import Cases, Program, answers, must
from reading import both, row_is_read
from reads import LIVES
from recorded_arrivals import standing_in
from recorded_list import Told
from recorded_pair import NETWORKS
from recording_rows import F1
from wanted import Case, path_of, random_case

KINDS = ("made", "mutated")
GROUPS, EACH = 4, 12  # recordings made at random
PAIRS = 100  # of the reference alone
TIMES = (0, 0, 0, 1, 2, 500, 10_000)  # ms
MOST = 100_000  # arrivals that may be held by their count
BAD, REFUSED = b"words BadNumber\n", b"cannot be used with"


def live_case(kind: str, name: str) -> Case:
    """A recording made at random, with `--live`."""
    chance = random.Random(f"live/{kind}/{name}")
    case = random_case(chance, made_data(kind, f"live/{name}"))
    options = case.options._replace(reorder=None, port=None, live=chance.choice(TIMES))
    return case._replace(options=options, rule="")


def live_pair(kind: str, name: str) -> PairCase:
    """Two of them."""
    chance = random.Random(f"live pair/{kind}/{name}")
    case = random_pair(kind, f"live/{name}")
    options = case.options._replace(reorder=None, live=chance.choice(TIMES))
    return case._replace(options=options)


def many(program: Program, kind: str, group: int) -> None:
    """Recordings made at random."""
    for number in range(group * EACH, (group + 1) * EACH):
        both(program, live_case(kind, str(number)))
        both_of_pair(program, live_pair(kind, str(number)))


def arrivals(said: Told) -> list[bytes]:
    """The lines of arrivals."""
    return [line for line in said.lines if line[:1] != b"#"]


def goes_back(case: PairCase) -> bool:
    """A frame of one of both stands later than it may."""
    found = [standing_in(case.options.of(side), case.command.systems, data).fault
             for side, data in zip(NETWORKS, case.pair)]
    return any(fault.startswith("TimeBack") for fault in found)


def same_as_by_count(kind: str) -> None:
    """Where no frame stands too late, what is taken is what is taken by a count; before a fault it
    is that, or more of the other recording."""
    for number in range(PAIRS):
        case = live_pair(kind, f"same/{number}")
        if goes_back(case):
            continue
        counted = case._replace(options=case.options._replace(live=None, reorder=MOST))
        one, other = case.told(), counted.told()
        found, wanted = arrivals(one), arrivals(other)
        must(found[: len(wanted)] == wanted, f"{number}: another beginning")
        is_same = (found, one.skipped) == (wanted, other.skipped)
        must(bool(one.fault) or (is_same and not other.fault), f"{number}: another end")


def word_holds(program: Program, words: list[str], said: bytes) -> None:
    """Words that are refused."""
    path = path_of(program, bytes.fromhex(F1))
    found = program.run(*words, "base.toml", path)
    must(found.status == 2 and not found.out, f"status {found.status}")
    must(said in found.err, f"standard error is {found.err!r}")


def words() -> Iterator[tuple[list[str], bytes]]:
    """Words that are refused, and what is said of them."""
    for command in ("replay", "list"):
        yield [command, "--live=10001"], BAD
        yield [command, "--live=5", "--reorder=5"], REFUSED
        yield [command, "--live=-1"], b"live"
    yield ["police", "--live=5", "1", "64", "500"], b"--live"


def beside_list(program: Program) -> None:
    """It asks for a recording."""
    path = program.write("live.list", b"F 0 A 1 -\n")
    found = program.run("replay", "--live=5", "base.toml", path)
    answers(found, 3, b"", b"recording NotRecording 0\n")


def reference_cases() -> Iterator[tuple]:
    """What the reference keeps."""
    for kind in KINDS:
        yield f"live: as by a count, {kind}", same_as_by_count, kind


def live_cases(program: Program) -> Iterator[tuple]:
    """All of the program."""
    for row in live_rows():
        yield f"row: {row.name}", row_is_read, program, row
    for pair in live_pairs():
        yield f"two: {pair.name}", pair_row_is_read, program, pair
    for group in range(GROUPS):
        for kind in KINDS:
            yield f"live: {kind} {group}", many, program, kind, group
    for given, said in words():
        yield f"live: {' '.join(given)}", word_holds, program, given, said
    yield "live: beside a list", beside_list, program


def try_live(cases: Cases, program: Program) -> None:
    """The program's cases, if it has the option."""
    if LIVES:
        cases.try_at_once([*live_cases(program)])
    else:
        cases.skip("recordings by their clocks", "the program has no --live (tests/lib/reads.py)")
