#!/usr/bin/env python3
"""Judges what left a switch by what came to it, computed here apart from the program.

    tests/run/conformance.py [--seed S] [--count N] [--frames F] [--recorded R] [PROGRAM]

tests/lib/conform.py says what `conform` must answer of two lists; it must answer what
tests/conform/rows.py spells out. Each wrong body of tests/conform/wrong_bodies.py is refused by
some row. On small cases made at random a stream has no finding exactly where it has an explanation,
and by exact stamps exactly where the frames are those that the window rule accepts. A right switch
is never accused, whatever its clock, its stamps, its asking and its delays inside; a wrong one is
found at each frame with which it is amiss. What a replay says to leave conforms. With PROGRAM so
does what the program replays, and where it has `conform` it must answer as is computed here, byte
for byte, from files and standard input, with each option that changes nothing. Where its help has
`--left`, recordings are judged too: those that are spelled out in tests/conform/recorded_rows.py,
small cases as recorders would write them, and such that are cut, changed or of other options.
Several switches of which none is named are judged from edge to edge, as tests/lib/conform_edges.py
computes: rows of tests/conform/cascade_edge_rows.py, wrong bodies that these refuse, and replays of
admitted switches; by PROGRAM too, where it offers that.
Where it has `--senders`, the systems that sent what came are judged too: rows that are spelled out
in tests/conform/sender_rows.py, right ones, ones with something amiss, and cases at random; and
beside a switch in one run those of tests/conform/beside_rows.py, and cases at random.
N small cases (100 where it isn't given) are tried for each of the seeds S to S + 3 (0 to 3): N of
25000 tries 100,000 on the program. The long run is of F frames of each side (20,000); R frames are
recorded to see what memory they take (200,000).
Prints `ok NAME` or `FAILED NAME` for each case, then `N passed, M failed`; ends with status 1 if a
case failed. Needs Python 3.11.
"""
from __future__ import annotations

import argparse
import os
import sys

sys.dont_write_bytecode = True
TESTS = os.path.join(os.path.dirname(os.path.abspath(__file__)), "..")
PARTS = ("lib", "conform", "cascades", "fuzzing", "recordings")
sys.path[:0] = [os.path.join(TESTS, name) for name in PARTS]
from beside_claims import beside_random_cases  # noqa: E402
from conform_claims import JUDGED, Judge  # noqa: E402
from conform_claims import are_explained, bodies_are_refused, judged_alike  # noqa: E402
from conform_claims import anywhere_conform, left_out_conform, long_run_conforms  # noqa: E402
from conform_claims import right_conform, row_holds, rows_are_explained  # noqa: E402
from conform_claims import steady_memory, told_early, wrong_are_found  # noqa: E402
from cascade_edge_claims import computed_edge_cases, edge_cases, offers_edges  # noqa: E402
from long_recorded import long_memory  # noqa: E402
from program import Program, try_both  # noqa: E402
from recorded_claims import HOW_MANY, apart_conforms, half_conforms, half_is_found  # noqa: E402
from recorded_claims import list_rows_hold, long_recording_conforms, recorded_alike  # noqa: E402
from recorded_claims import recorded_as_lists, recorded_row_holds  # noqa: E402
from recorded_claims import recorded_rows_are_explained  # noqa: E402
from recorded_judge import RecordingJudge  # noqa: E402
from recorded_more_rows import MORE_RECORDED_ROWS  # noqa: E402
from recorded_rows import RECORDED_ROWS  # noqa: E402
from replay_claims import cascades_conform, computed_replay, examples_conform  # noqa: E402
from replay_claims import replay_of, stored_conform  # noqa: E402
from rows import ROWS  # noqa: E402
from sender_claims import sender_cases  # noqa: E402
from wrong_bodies import wrong_bodies  # noqa: E402
from wrong_recorded import readings_are_refused, wrong_readings  # noqa: E402
from wrong_switches import WRONG_SWITCHES  # noqa: E402

SEEDS = 4  # that are tried, from the first on


def cases_of(judge: Judge, who: str, given: argparse.Namespace) -> list[tuple]:
    """What a judge must answer, whichever it is."""
    cases: list[tuple] = [(f"{who}: {row.name}", row_holds, judge, row) for row in ROWS]
    for seed in range(given.seed, given.seed + SEEDS - 1):
        cases.append((f"{who}: right switches, {seed}", right_conform, judge, seed, 4))
        cases.append((f"{who}: begun and ended anywhere, {seed}", anywhere_conform, judge, seed))
        cases.append((f"{who}: what is left out, {seed}", left_out_conform, judge, seed))
    for wrong in WRONG_SWITCHES:
        cases.append((f"{who}: {(wrong.__doc__ or '').strip()}", wrong_are_found, judge, wrong))
    cases.append((f"{who}: clocks that drift for long", long_run_conforms, judge, given.frames))
    cases.append((f"{who}: what is told before a fault", told_early, judge, given.seed,
                  given.count))
    return cases


def recorded_cases(judge: Judge, who: str, given: argparse.Namespace) -> list[tuple]:
    """What a judge must answer to recordings."""
    who = f"{who}, recorded"
    cases: list[tuple] = [
        (f"{who}: {row.name}", recorded_row_holds, judge, row)
        for row in (*RECORDED_ROWS, *MORE_RECORDED_ROWS)
    ]
    for is_one, how_many in enumerate(HOW_MANY):
        asked = RecordingJudge(judge, bool(is_one))
        cases.append((f"{who}: rows of lists by {how_many}", list_rows_hold, judge, bool(is_one)))
        cases.append((f"{who}: right switches by {how_many}", right_conform, asked, given.seed, 2))
        cases.append((f"{who}: what is left out by {how_many}", left_out_conform, asked,
                      given.seed))
    for seed in range(given.seed, given.seed + SEEDS - 1):
        name = f"{who}: as the lists that say the same, {seed}"
        cases.append((name, recorded_as_lists, judge, seed, given.count))
        cases.append((f"{who}: half of the ports, {seed}", half_conforms, judge, seed, 8))
        cases.append((f"{who}: recorders that start and stop apart, {seed}", apart_conforms, judge,
                      seed, 8))
    for at, wrong in enumerate(WRONG_SWITCHES):
        name = (wrong.__doc__ or "").strip()
        asked = RecordingJudge(judge, at % 2 == 0)
        cases.append((f"{who}: {name}", wrong_are_found, asked, wrong))
        cases.append((f"{who}, half of the ports: {name}", half_is_found, judge, wrong))
    cases.append((f"{who}: a clock that drifts for long", long_recording_conforms, judge,
                  given.frames))
    cases.append((f"{who}: replays conform", stored_conform, RecordingJudge(judge, True)))
    return cases


def computed_cases(given: argparse.Namespace) -> list[tuple]:
    """What is tried without the program."""
    seeds = range(given.seed, given.seed + SEEDS - 1)
    return [
        *cases_of(JUDGED, "computed", given),
        *recorded_cases(JUDGED, "computed", given),
        *sender_cases(JUDGED, "computed", seeds, given.count),
        *computed_edge_cases(JUDGED, given.seed),
        *((f"refused: {name}", bodies_are_refused, body) for name, body in wrong_bodies()),
        *((f"refused: {name}", readings_are_refused, reads) for name, reads in wrong_readings()),
        *((f"explained exactly where nothing is found, {seed}", are_explained, seed, given.count)
          for seed in seeds),
        ("the stored outputs conform", stored_conform, JUDGED),
        ("computed replays of several switches conform", cascades_conform, JUDGED,
         computed_replay, 7, 4),
    ]


def judged_cases(judge: Judge, given: argparse.Namespace) -> list[tuple]:
    """What is tried with a program that judges."""
    cases = cases_of(judge, "program", given)
    cases.append(("what is explained", rows_are_explained, judge))
    cases.append(("memory of 100,000 frames", steady_memory, judge.program, 100_000))
    for seed in range(given.seed, given.seed + SEEDS):
        cases.append((f"cases made at random, {seed}", judged_alike, judge, seed, given.count))
    return cases


def program_cases(program: Program, given: argparse.Namespace) -> list[tuple]:
    """What is tried with the program."""
    judge, who = JUDGED, "computed"
    cases: list[tuple] = []
    if program.knows("conform"):
        judge, who = Judge(program), "program"
        cases += judged_cases(judge, given)
    if program.knows("conform", "--left"):
        cases += recorded_cases(judge, who, given)
        for is_one, how_many in enumerate(HOW_MANY):
            name = f"memory of {given.recorded:,} frames recorded by {how_many}"
            cases.append((name, long_memory, program, given.recorded, bool(is_one)))
        rows = (*RECORDED_ROWS, *MORE_RECORDED_ROWS)
        cases.append(("recorded: what is explained", recorded_rows_are_explained, judge, rows))
        for seed in range(given.seed, given.seed + SEEDS):
            cases.append((f"recordings made at random, {seed}", recorded_alike, judge, seed,
                          given.count))
    if program.knows("conform") and offers_edges(judge):
        cases += edge_cases(judge, who, replay_of(program), given.seed)
    if program.knows("conform", "--senders"):
        seeds = range(given.seed, given.seed + SEEDS)
        cases += sender_cases(judge, who, seeds, given.count)
        cases += beside_random_cases(judge, who, seeds, given.count)
    cases.append((f"{who}: replays by the program conform", examples_conform, judge, program))
    cases.append((f"{who}: replays by the program, several switches", cascades_conform, judge,
                  replay_of(program), 8, 6))
    return cases


def main() -> None:
    """Takes the words, and tries all."""
    words = argparse.ArgumentParser(
        description=__doc__, formatter_class=argparse.RawDescriptionHelpFormatter
    )
    words.add_argument("--seed", metavar="S", type=int, default=0)
    words.add_argument("--count", metavar="N", type=int, default=100)
    words.add_argument("--frames", metavar="F", type=int, default=20_000)
    words.add_argument("--recorded", metavar="R", type=int, default=200_000)
    words.add_argument("program", metavar="PROGRAM", nargs="?", help="the built program")
    given = words.parse_args()
    if given.program is not None and not os.access(given.program, os.X_OK):
        words.error(f"there is no program at {given.program}")
    try_both(given.program, lambda: computed_cases(given), lambda own: program_cases(own, given))


if __name__ == "__main__":
    main()
