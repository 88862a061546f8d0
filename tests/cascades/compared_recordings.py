"""Recordings of cascades, and what the program's `replay` and `list` must answer, computed apart
from it."""
from __future__ import annotations

from cascade import cascade_text
from cascade_run import refused, replayed
from compared_runs import FREE, SUMMARY
from pair_wanted import PairCase
from program import Answer, Program, answers
from recorded_arrivals import Options, systems_of
from recorded_list import Told
from recorded_pair import PairOptions
from wanted import Case, Command, by_its_list, list_of

CONFIG = "cascade.toml"
AnyCase = Case | PairCase


def case_over(
    cascade: dict,
    given: tuple[bytes, ...],
    options: Options | PairOptions,
    words: tuple[str, ...] = (FREE,),
) -> AnyCase:
    """A recording, or two, of a cascade, whose file is CONFIG."""
    command = Command(("replay", *words, CONFIG), systems_of(cascade["switch"]))
    if isinstance(options, Options):
        return Case(given[0], options, command=command)
    return PairCase((given[0], given[1]), options, command)


def replayed_answer(cascade: dict, said: Told, words: tuple[str, ...]) -> Answer:
    """What `replay` answers to recordings of which this is said."""
    fault = None if FREE in words else refused(cascade["switch"])
    if fault is not None:
        return fault
    found = by_its_list(said, replayed(cascade, list_of(said)).answer(words))
    is_counted = SUMMARY in words and not said.fault
    return found._replace(err=found.err + said.skipped) if is_counted else found


def listed_answer(said: Told, words: tuple[str, ...]) -> Answer:
    """What `list` answers."""
    counts = said.skipped if SUMMARY in words else b""
    return Answer(said.status(), said.text(), said.fault or counts)


def inputs_in(case: AnyCase) -> tuple[bytes, ...]:
    """The recordings."""
    return (case.data,) if isinstance(case, Case) else case.pair


def files_of(program: Program, case: AnyCase) -> list[str]:
    """Files of the configuration and of the recordings: the words behind a command."""
    every = enumerate(inputs_in(case))
    return [CONFIG, *(program.write(f"tap-{place}", each) for place, each in every)]


def as_computed(
    program: Program, cascade: dict, case: AnyCase, every: list[tuple[str, ...]]
) -> None:
    """`replay` with each of these words answers what is computed apart from the program."""
    program.write(CONFIG, cascade_text(cascade))
    said, files = case.told(), files_of(program, case)
    for words in every:
        found = program.run("replay", *words, *case.options.words(), *files)
        answers(found, *replayed_answer(cascade, said, words))
