#!/usr/bin/env python3
"""Replays recordings over several switches a side, and makes lists of them.

    tests/run/cascade_recordings.py [PROGRAM]

tests/lib/recorded_list.py says what is taken from recordings, with the switch of each frame, and
tests/lib/cascade_run.py what a replay of that writes, both apart from the program. What they say
must be what stands beside recordings that are spelled out (tests/cascades/tapped_rows.py), and of
lists that taps, mirrors of switches or one recorder would have recorded the lists' own frames.
The program must write what they say: of these recordings, of random ones with any options, of two
at once, and of words that say where interfaces are. Its `list` must write the list that says the
same, of which a replay writes the same but for the numbers of frames.

Where no PROGRAM is given only what is computed here is tried. Prints `ok NAME` or `FAILED NAME` for
each case, then `N passed, M failed`; ends with status 1 if a case failed. Needs Python 3.11.
"""
from __future__ import annotations

import os
import random
import sys
from collections import Counter
from collections.abc import Callable, Iterator

sys.dont_write_bytecode = True
TESTS = os.path.join(os.path.dirname(os.path.abspath(__file__)), "..")
sys.path[:0] = [os.path.join(TESTS, name) for name in ("lib", "cascades", "recordings", "fuzzing")]
from cascade import loaded  # noqa: E402
from cascade_rows import TWO_TEXT  # noqa: E402
from cascade_run import refused  # noqa: E402
from compared_recordings import AnyCase, as_computed, case_over, files_of  # noqa: E402
from compared_recordings import inputs_in, listed_answer, replayed_answer  # noqa: E402
from compared_runs import DROPS, FREE, SUMMARY  # noqa: E402
from large_cascades import around_one, in_a_mesh, in_a_row  # noqa: E402
from made_cascades import made_cascade, solved, three_of  # noqa: E402
from made_lists import made_list  # noqa: E402
from pair_reading import both_of_pair  # noqa: E402
from pair_wanted import PairCase  # noqa: E402
from place_words import told_apart, word_cases  # noqa: E402
from program import Answer, Program, answers, main_of_both, must  # noqa: E402
from random_taps import of_any_frames, of_list  # noqa: E402
from reading import both  # noqa: E402
from reads import is_read  # noqa: E402
from recorded_arrivals import Options  # noqa: E402
from tapped_lists import FIRST, GRAINS, MIRRORS, TAPS  # noqa: E402
from tapped_lists import frames_of, names_its_port, over_cables, recorded  # noqa: E402
from tapped_rows import ROWS, TappedRow, shown  # noqa: E402
from wanted import Case  # noqa: E402

EVERY: list[tuple[str, ...]] = [(), (FREE,), (FREE, DROPS, SUMMARY)]


# ---- what is spelled out -------------------------------------------------------------------------


def case_of(row: TappedRow) -> AnyCase:
    """The recordings of a row."""
    given = tuple(bytes.fromhex(each) for each in row.given)
    words = (FREE,) if FREE in row.words else ()
    return case_over(loaded(row.text), given, row.options, words)


def wanted_of(row: TappedRow) -> Answer:
    """The answer that stands in a row."""
    return Answer(row.status, shown(row.out), shown(row.err))


def row_is_computed(row: TappedRow) -> None:
    """What is spelled out is what is computed here."""
    said = case_of(row).told()
    if row.words[0] == "list":
        found = listed_answer(said, row.words)
    else:
        found = replayed_answer(loaded(row.text), said, row.words)
    answers(found, *wanted_of(row))


def row_is_told(program: Program, row: TappedRow) -> None:
    """The program answers what is spelled out; so it does in the other ways of a run."""
    program, case = program.apart(), case_of(row)
    program.write("cascade.toml", row.text)
    files = files_of(program, case)
    found = program.run(*row.words, *case.options.words(), *files)
    answers(found, *wanted_of(row))
    is_admitted = FREE in row.words or refused(loaded(row.text)["switch"]) is None
    if is_admitted and all(map(is_read, inputs_in(case))):
        read(program, case)


def read(program: Program, case: AnyCase) -> None:
    """Runs on recordings, and `list`, in all ways."""
    if isinstance(case, Case):
        both(program, case)
    else:
        both_of_pair(program, case)


# ---- lists, as they are recorded -----------------------------------------------------------------


def as_listed(cascade: dict, text: bytes, grain: str, chance: random.Random) -> None:
    """What is taken from the recording of a list are the list's frames, those whose sender is the
    system at their port where that isn't said."""
    frames = frames_of(cascade, text)
    if grain != TAPS:
        frames = [one for one in frames if names_its_port(cascade, one)]
    copies = over_cables(cascade, text) if grain == MIRRORS else []
    data, names = recorded(chance, cascade, sorted([*frames, *copies], key=lambda f: f.time), grain)
    places = {number: name for number, name in enumerate(names) if name}
    case = case_over(cascade, (data,), Options(places, origin=FIRST))
    said = case.told()
    must(not said.fault or not frames, f"it has the fault {said.fault!r}")
    taken = frames_of(cascade, said.text())
    bare = [[one._replace(frame=one.frame._replace(number=0)) for one in some]
            for some in (frames, taken)]
    must(bare[0] == bare[1], f"of {len(frames)} frames {len(taken)} are taken, or others")
    counts = [f"unknown-sender {len(copies)} no-network 0 "]
    counts.append("claimed 0 " if grain == TAPS else f"claimed {len(frames)} contradicted 0 ")
    must(all(each.encode() in said.skipped for each in counts), f"the counts are {said.skipped!r}")


def all_as_listed(seed: int, grain: str) -> None:
    """The same of lists over random cascades; over admitted ones, where cables bring no frame back.
    """
    chance = random.Random(f"{seed}/{grain}")
    for _ in range(20):
        cascade = made_cascade(chance, chance.randint(1, 5), chance.randint(1, 25), True)
        cascade = solved(cascade) if grain == MIRRORS else cascade
        if grain != MIRRORS or refused(cascade["switch"]) is None:
            as_listed(cascade, made_list(chance, cascade, 60), grain, chance)


# ---- at random -----------------------------------------------------------------------------------


def of_lists(seed: int, count: int) -> Iterator[tuple[dict, AnyCase]]:
    """Lists over so many random cascades, each with three kinds of values, as they are recorded."""
    chance = random.Random(f"taps/{seed}")
    for _ in range(count):
        for one in three_of(chance, chance.random() < 0.6):
            yield one, of_list(chance, one)


def of_frames(kind: str, seed: int, count: int) -> Iterator[tuple[dict, AnyCase]]:
    """So many recordings of any form, some of them with changed bytes, over the two switches."""
    chance, two = random.Random(f"{kind}/{seed}"), loaded(TWO_TEXT)
    for number in range(count):
        yield two, of_any_frames(chance, two, kind, f"cascade/{seed}/{number}")


def everything_is_shown(seed: int, count: int) -> None:
    """What is taken from the random recordings has all that a place can make of a frame, and what a
    replay writes of them has lines of all kinds."""
    words: Counter[str] = Counter()
    for cascade, case in [*of_lists(seed, count), *of_frames("made", seed, count)]:
        said = case.told()
        names = said.skipped.decode().split()[1:]
        words.update({name: int(number) for name, number in zip(names[::2], names[1::2])})
        words.update([said.fault.decode().split(" ")[1]] if said.fault else [])
        words["two" if isinstance(case, PairCase) else "one"] += 1
        lines = replayed_answer(cascade, said, (FREE,)).out.decode().splitlines()
        words.update(line[0] for line in lines)
    kinds = ["left-out", "unknown-sender", "no-network", "before-origin", "claimed", "contradicted"]
    kinds += ["unused", "one", "two", "NoArrival", "TimeBack", *"VLDTMX"]
    must(all(words[kind] for kind in kinds), f"absent: {[k for k in kinds if not words[k]]}")


def all_alike(program: Program, cases: Iterator[tuple[dict, AnyCase]]) -> None:
    """The program answers of recordings what is computed; so it does in all ways of a run, and its
    list says the same."""
    program = program.apart()
    for cascade, case in cases:
        as_computed(program, cascade, case, EVERY)
        read(program, case)


def large_alike(program: Program, make: Callable[[], dict]) -> None:
    """A large cascade, with a tap at each port that a list names, and with a mirror of each switch.
    """
    cascade, program = make(), program.apart()
    chance = random.Random(len(cascade["switch"]))
    text = made_list(chance, cascade, 200)
    for grain in (TAPS, MIRRORS):
        data, names = recorded(chance, cascade, frames_of(cascade, text), grain)
        case = case_over(cascade, (data,), Options(dict(enumerate(names))))
        as_computed(program, cascade, case, [(FREE, DROPS, SUMMARY)])
        said = case.told()
        found = program.run("list", *case.options.words(), *files_of(program, case))
        answers(found, *listed_answer(said, ()))


# ---- all -----------------------------------------------------------------------------------------


def computed_cases() -> list[tuple]:
    """What is tried without the program."""
    return [
        *((f"computed: {row.name}", row_is_computed, row) for row in ROWS),
        *((f"computed: lists as {grain} records them, {seed}", all_as_listed, seed, grain)
          for grain in GRAINS for seed in range(2)),
        ("computed: words of places", told_apart),
        ("the random recordings show everything", everything_is_shown, 1, 40),
    ]


def program_cases(program: Program) -> list[tuple]:
    """What is tried with the program."""
    cases: list[tuple] = [(row.name, row_is_told, program, row) for row in ROWS]
    cases += [
        ("24 switches in a row", large_alike, program, lambda: in_a_row(24)),
        ("23 switches around one", large_alike, program, lambda: around_one(23)),
        ("24 switches each to each", large_alike, program, lambda: in_a_mesh(24, False)),
    ]
    for seed in range(4):
        name = f"lists of 30 cascades as recordings, {seed}"
        cases.append((name, all_alike, program, of_lists(seed, 10)))
        for kind in ("made", "mutated"):
            name = f"any recordings over two switches: {kind}, {seed}"
            cases.append((name, all_alike, program, of_frames(kind, seed, 15)))
    return [*cases, *word_cases(program)]


if __name__ == "__main__":
    main_of_both(__doc__, computed_cases, program_cases)
