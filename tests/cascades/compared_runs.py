"""Replays of cascades by the program, compared with what is computed apart from it."""
from __future__ import annotations

from cascade import cascade_text
from cascade_run import Ran, refused, replayed
from program import Answer, Program, answers

FREE, DROPS, SUMMARY = "--no-admission", "--explain-drops", "--summary"
ALL = (FREE, DROPS, SUMMARY)
OPTIONS: list[tuple[str, ...]] = [(), (DROPS, SUMMARY), (FREE,), ALL]


def replay_by(
    program: Program, cascade: dict, text: bytes, options: tuple[str, ...] = (FREE,)
) -> Answer:
    """What the program's `replay` answers."""
    config = program.write("config", cascade_text(cascade))
    return program.run("replay", *options, config, "-", given=text)


def run_alike(
    program: Program,
    cascade: dict,
    text: bytes,
    every: list[tuple[str, ...]] | None = None,
) -> Ran:
    """`replay` answers what is computed apart, with each of these options, all where none are
    given."""
    ran, fault = replayed(cascade, text), refused(cascade["switch"])
    for options in OPTIONS if every is None else every:
        is_judged = fault is not None and FREE not in options
        wanted = fault if fault is not None and is_judged else ran.answer(options)
        answers(replay_by(program, cascade, text, options), *wanted)
    return ran
