"""The program reads two recordings at once: it must write what it writes of the list that says the
same, but for the numbers of frames, `list` that list, and the faults and counts that the reference
says."""
from __future__ import annotations

import random
import threading

from made_recordings import made_data
from pair_live import live_pairs
from pair_rows import PairRow
from pair_wanted import PairCase, cut_pair, pair_case, random_pair
from pair_words import try_pair_words
from program import Answer, Cases, Program, answers, must, same_text
from reads import ORDERS
from recorded_pair import NETWORKS
from recording_rows import PL
from row_holds import row_holds
from wanted import renumbered

KINDS = ("made", "mutated")
GROUPS, EACH = 8, 15  # pairs made at random
CUTS = 4  # of each pair
CUT_ROWS = 3  # rows that are cut at each byte


def paths_of(program: Program, pair: tuple[bytes, bytes]) -> list[str]:
    """Two files that hold these bytes, until this thread writes its next ones."""
    names = [f"recording-{side}-{threading.get_ident()}" for side in NETWORKS]
    return [program.write(name, data) for name, data in zip(names, pair)]


def from_anywhere(program: Program, words: list[str], case: PairCase, wanted: Answer) -> None:
    """The same from two files, and from a file and standard input."""
    paths = paths_of(program, case.pair)
    answers(program.run(*words, *paths), *wanted)
    answers(program.run(*words, "-", paths[1], given=case.pair[0]), *wanted)
    answers(program.run(*words, paths[0], "-", given=case.pair[1]), *wanted)


def reads_pair(program: Program, case: PairCase) -> None:
    """The run: from files and standard input, line by line; counted; with what came too early."""
    words, said, wanted = case.words(), case.told(), case.listed(program)
    from_anywhere(program, words, case, wanted)
    paths = paths_of(program, case.pair)
    live = case.at_once()
    answers(program.run(*live.words(), *paths), *live.listed(program))
    counts = said.fault or case.listed(program, "--summary").err + said.skipped
    answers(program.run(*words, "--summary", *paths), wanted.status, wanted.out, counts)
    early = case.listed(program, "--explain-drops")
    answers(program.run(*words, "--explain-drops", *paths), *early)


def list_words(case: PairCase) -> list[str]:
    """`list` in the place of the replay, with the case's options."""
    return ["list", *case.options.words(), case.command.words[-1]]


def lists_pair(program: Program, case: PairCase) -> None:
    """`list` writes the list that says the same."""
    words, said = list_words(case), case.told()
    from_anywhere(program, words, case, Answer(said.status(), said.text(), said.fault))
    live = case.at_once()
    said, paths = live.told(), paths_of(program, case.pair)
    counted = program.run(*list_words(live), "--summary", *paths)
    answers(counted, said.status(), said.text(), said.fault or said.skipped)


def by_its_list(program: Program, case: PairCase) -> None:
    """The run and the list agree, whatever the reference says: arrivals and V lines one by one, of
    a frame its first, and the replay of the list."""
    paths = paths_of(program, case.pair)
    run = program.run(*case.words(), *paths)
    listed = program.run(*list_words(case), *paths)
    must((run.status, run.err) == (listed.status, listed.err), f"{run.err!r}, {listed.err!r}")
    arrivals = [line.split(b" ") for line in listed.out.splitlines() if line[:1] != b"#"]
    verdicts = [line.split(b" ") for line in run.out.splitlines() if line[:1] == b"V"]
    wanted = b" ".join(words[2] for words in arrivals)
    firsts = dict.fromkeys((words[1], words[2]) for words in verdicts)
    same_text("the sides of V lines", wanted, b" ".join(side for _, side in firsts))
    if run.status == 0:
        again = program.run(*case.command.words, "-", given=listed.out)
        answers(again, 0, None, b"")
        texts = [renumbered(text, lambda number: 0) for text in (again.out, run.out)]
        same_text("the replay of its list, without numbers", *texts)


def both_of_pair(program: Program, case: PairCase) -> None:
    """The run, and `list`."""
    reads_pair(program, case)
    lists_pair(program, case)
    by_its_list(program, case)


def pair_row_is_read(program: Program, row: PairRow) -> None:
    """Two recordings that are spelled out."""
    row_holds(program, row)
    both_of_pair(program, pair_case(row))


def many_pairs(program: Program, kind: str, group: int) -> None:
    """Pairs made at random, whole and cut."""
    for number in range(group * EACH, (group + 1) * EACH):
        case, chance = random_pair(kind, number), random.Random(f"pair cuts/{number}")
        both_of_pair(program, case)
        for _ in range(CUTS):
            reads_and_lists(program, cut_pair(chance, case))


def reads_and_lists(program: Program, case: PairCase) -> None:
    """The run and `list` on two files alone."""
    paths, said = paths_of(program, case.pair), case.told()
    answers(program.run(*case.words(), *paths), *case.listed(program))
    found = program.run(*list_words(case), *paths)
    answers(found, said.status(), said.text(), said.fault)


def cut_each_byte(program: Program, case: PairCase, place: int) -> None:
    """A pair of which one recording is cut at each byte."""
    for size in range(len(case.pair[place])):
        reads_and_lists(program, case.with_half(place, case.pair[place][:size]))


def alone(program: Program, number: int) -> None:
    """A recording beside an empty one is reported like one alone whose frames all have its side."""
    data, empty = made_data("made", number), bytes.fromhex(PL)
    for place, side in enumerate(NETWORKS):
        case = PairCase((empty, empty)).with_half(place, data)
        found = program.run(*case.words(), *paths_of(program, case.pair))
        places = [f"--interface={each}={side}" for each in range(6)]
        path = program.write(f"alone-{threading.get_ident()}", data)
        wanted = program.run(*case.words(), *places, path)
        err = wanted.err.replace(b"\n", b" %s\n" % side.encode())
        answers(found, wanted.status, wanted.out, err)


def cut_cases(every: list[PairRow]) -> dict[str, PairCase]:
    """Those with the most numbers, of two sound recordings: as they stand, and where arrivals are
    held."""
    sound = [pair_case(row) for row in every if not row.fault]
    longest = sorted(sound, key=lambda case: -len(case.told().lines))[:CUT_ROWS]
    reorders = {"as they stand": 0} | ({"one is held": 1, "held": None} if ORDERS else {})
    return {
        f"{number}, {name}": case._replace(options=case.options._replace(reorder=reorder))
        for number, case in enumerate(longest, 1)
        for name, reorder in reorders.items()
    }


def try_pairs(cases: Cases, program: Program, every: list[PairRow]) -> None:
    """All cases but those of memory; these rows are spelled out."""
    cases.try_at_once([(f"two: {row.name}", pair_row_is_read, program, row) for row in every])
    try_pair_words(cases, program)
    some: list[tuple] = []
    for place, side in enumerate(NETWORKS):
        for name, case in cut_cases(every).items():
            some.append((f"two, {side} cut: {name}", cut_each_byte, program, case, place))
    for kind in KINDS:
        names = [(f"two: {kind}, {group}", group) for group in range(GROUPS)]
        some += [(name, many_pairs, program, kind, group) for name, group in names]
    some += [(f"two: one beside none, {number}", alone, program, number) for number in range(8)]
    cases.try_at_once([*some, *live_pairs(program)])
