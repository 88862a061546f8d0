#!/usr/bin/env python3
"""Compares what `solve` makes of several switches a side with what is computed here.

    tests/run/cascade_solving.py [PROGRAM]

tests/lib/cascade_least.py finds the least values of a cascade apart from the program, and so what
`solve` must write, byte for byte, what it tells, and its line where no values are enough; it must
find what tests/cascades/cascade_rows.py spells out. What `solve` writes must be admitted by
`check`; be written again by another `solve`; and have the least values: each less by one makes its
own line of admission false, and none is above what an admitted cascade had. So it is of rows that
are spelled out, of the examples, of generated cascades of 1 to 5 switches whose four keys are
absent, 0, any number in range or beyond it, of keys that are kept or only raised, where one copy
may be sent later than the other, of rings of cables whose ports wait for each other, of 24
switches, of the large cascade that bench/ measures.
Of files that are changed at random or break off at any byte the first fault is reported. One switch
is answered as a file of its own, with its name. Where no PROGRAM is given only what is computed
here is tried. Prints `ok NAME` or `FAILED NAME` for each case, then `N passed, M failed`; ends with
status 1 if a case failed. Needs Python 3.11.
"""
from __future__ import annotations

import itertools
import os
import random
import sys
from typing import Collection

sys.dont_write_bytecode = True
TESTS = os.path.join(os.path.dirname(os.path.abspath(__file__)), "..")
PLACES = [*(os.path.join(TESTS, name) for name in ("lib", "cascades")), f"{TESTS}/../bench"]
sys.path[:0] = PLACES
import make_cascade as bench  # noqa: E402
import tables as made  # noqa: E402
from admitted_cascades import admitted  # noqa: E402
from cascade import cascade_text, loaded, of_one  # noqa: E402
from cascade_check import at_switch  # noqa: E402
from cascade_least import solve_cascade_answer, solve_file_fault  # noqa: E402
from cascade_least import solved_cascade, solved_text  # noqa: E402
from cascade_rows import LEAST, ROWS, THREE_TEXT, TWO, TWO_TEXT, LeastRow, text_with  # noqa: E402
from judged import solve  # noqa: E402
from large_cascades import around_one, in_a_mesh, in_a_ring, in_a_row  # noqa: E402
from least import KEEPS  # noqa: E402
from made_cascades import made_cascade, mutated, spoiled  # noqa: E402
from networks import BEYOND, network  # noqa: E402
from program import Program, Wrong, answers, main_of_both, must, same_text  # noqa: E402
from solved_cascades import LINES_OF, Vain, busy_ring, check_all_less, check_solve  # noqa: E402
from solved_cascades import faulty, in_vain, must_be_below, with_any, with_keys  # noqa: E402

ONE = "only"  # the name of a switch that is alone


# ---- what is computed here -----------------------------------------------------------------------


def least_is_computed(row: LeastRow) -> None:
    """What is spelled out is what is computed here."""
    found = solved_cascade(row.cascade, row.keep)
    must(found.fault == row.fault, f"the first false line is {found.fault!r}")
    for switch in found.switches if not row.fault else ():
        links = [tuple(one[key] for key in LINES_OF) for one in switch["link"]]
        values = [switch["buffer"], *links]
        must(values == row.values[switch["name"]], f"{switch['name']} has {values}")
    if row.told is not None:
        told = solve_cascade_answer(cascade_text(row.cascade), row.keep).err
        same_text("what is told", row.told.encode(), told)


def vain_is_computed(vain: Vain) -> None:
    """The same of what is never enough; the line may end in `..`."""
    found = solve_cascade_answer(cascade_text(vain.cascade), vain.keep, vain.raised)
    line = found.out.decode()
    begins = vain.line.endswith("..") and line.startswith(vain.line.removesuffix(".."))
    must(begins or line == f"{vain.line}\n", f"it is {found}")


# ---- what the program makes of them --------------------------------------------------------------


def solution_of(
    program: Program, text: bytes, keep: Collection[str] = (), raise_only: bool = False
) -> bytes:
    """The same of one that has values that are enough."""
    written = check_solve(program, text, keep, raise_only)
    if written is None:
        raise Wrong("it can't be admitted")
    return written


def check_least(program: Program, text: bytes) -> bool:
    """The same where all keys are solved, of which then each is the least; or there are none, and
    then false."""
    written = check_solve(program, text)
    if written is not None:
        check_all_less(program, loaded(written))
    return written is not None


def row_is_solved(program: Program, row: LeastRow) -> None:
    """The program writes and tells what is spelled out."""
    text = cascade_text(row.cascade)
    found = solve(program, text, row.keep, False)
    must(row.told is None or found.err == row.told.encode(), f"{found.err!r} is told")
    must(not row.fault or found.out == f"{row.fault}\n".encode(), f"{found.out!r} is written")
    check_solve(program, text, row.keep)


# ---- examples, and cascades that are wide or long ------------------------------------------------


def check_example(program: Program, text: bytes) -> None:
    """An admitted cascade as it stands, without its four keys, and with others in their place;
    where they are absent or less, also if they may only be raised."""
    cascade = loaded(text)
    texts = [with_keys(cascade, value) for value in (None, *BEYOND)]
    written = {solution_of(program, changed) for changed in (text, *texts)}
    must(len(written) == 1, "it isn't the same where its keys are changed")
    raised = {solution_of(program, changed, (), True) for changed in texts[:3]}
    must(raised == written, "raised from nothing, 0 or 1 it isn't the same")
    must_be_below(loaded(written.pop()), cascade, "the least values")
    must(solution_of(program, text, (), True) == solved_text(cascade["switch"]), "it is changed")
    must(check_least(program, text), "it can't be admitted")


def check_wide(program: Program, cascade: dict) -> None:
    """A cascade with its least values: they are found again where they are absent."""
    wanted = solved_text(cascade["switch"])
    same_text("what is written", wanted, solution_of(program, with_keys(cascade, None)))
    check_all_less(program, cascade)


def check_ring(program: Program, cascade: dict, line: str = "") -> None:
    """Ports that wait for each other: the least values; or the line, since none are enough."""
    text = cascade_text(cascade)
    if not line:
        must(check_least(program, text), "it can't be admitted")
    else:
        found = solve(program, text, (), False).out.decode()
        must(check_solve(program, text) is None and found == f"{line}\n", f"it is {found!r}")


# ---- generated cascades --------------------------------------------------------------------------


def all_solved(program: Program, seed: int, count: int) -> None:
    """So many cascades with any values, or none; some can be admitted, some not."""
    chance = random.Random(seed)
    having = 0
    for _ in range(count):
        cascade = made_cascade(chance, chance.randint(1, 5), chance.randint(0, 25), True)
        text = with_any(chance, cascade)
        having += check_least(program, text)
        check_solve(program, text, (), True)
        check_solve(program, cascade_text(spoiled(chance, cascade)))
    must(0 < having, "none of the cascades can be admitted")


def none_above(program: Program, seed: int, count: int) -> None:
    """Of so many admitted cascades none has a value below what is found of it, whatever stays; and
    what may only be raised stays all."""
    chance = random.Random(seed)
    for _ in range(count):
        cascade = admitted(chance)
        text = cascade_text(cascade)
        for keep in ((), chance.choice(KEEPS)):
            found = loaded(solution_of(program, text, keep))
            must_be_below(found, cascade, f"where {keep} stay")
        raised = solution_of(program, text, chance.choice(KEEPS), True)
        same_text("what is raised", solved_text(cascade["switch"]), raised)


def all_apart(program: Program, seed: int, count: int) -> None:
    """So many cascades of which one copy may be sent later by any time: some leave it."""
    chance = random.Random(seed)
    having = 0
    for _ in range(count):
        cascade = made_cascade(chance, chance.randint(1, 5), chance.randint(0, 25), True)
        apart = chance.randint(1, chance.choice([2000, 1_000_000, 99_000_000, 100_000_000]))
        keep = chance.choice(KEEPS) if chance.random() < 0.3 else ()
        raised = chance.random() < 0.5
        having += check_solve(program, with_any(chance, cascade), keep, raised, apart) is not None
    must(0 < having, "none of the cascades leaves what is asked for")


def apart_rows(program: Program) -> None:
    """Of the two switches: over the cable the copies have the time on two lines."""
    for apart, wanted in (
        (0, b"apart 1 11520\napart 2 5760\n"),
        (1, b"apart 1 12520\napart 2 6760\n"),
        (500_000, b"apart 1 511520\napart 2 505760\n"),
    ):
        written = check_solve(program, TWO_TEXT, (), False, apart) or b""
        found = program.run("check", "--margins", "/dev/stdin", given=written).out
        same_text(f"what {apart} leaves", wanted, found.partition(b"ok\n")[2])
    kept = ["jitter", "buffer", "latency", "skew"]
    must(check_solve(program, TWO_TEXT, kept, False, 969_520) is not None, "it is left")
    for apart in (969_521, 976_521):
        answers(solve(program, TWO_TEXT, kept, False, apart), 1, b"no apart fwd 2 969520\n", b"")


def all_choices(program: Program, seed: int) -> None:
    """Each choice of keys that are kept or only raised, also where a kept one is absent or out of
    range."""
    chance = random.Random(seed)
    cascade = made_cascade(chance, chance.randint(2, 5), 12, True)
    least = check_solve(program, cascade_text(cascade))
    for keep, raise_only in itertools.product(KEEPS, (False, True)):
        check_solve(program, cascade_text(cascade), keep, raise_only)
        check_solve(program, with_any(chance, cascade), keep, raise_only)
        if least is not None:
            check_solve(program, least, keep, raise_only)


# ---- no values are enough, and faults ------------------------------------------------------------


def check_vain(program: Program, vain: Vain) -> None:
    """No values are enough: the line is written in place of a configuration."""
    text = cascade_text(vain.cascade)
    must(check_solve(program, text, vain.keep, vain.raised) is None, "it can be admitted")
    if not vain.keep and not vain.raised:
        for value in (None, BEYOND[-1]):
            must(check_solve(program, with_keys(vain.cascade, value)) is None, "it can be admitted")


def check_faults(program: Program) -> None:
    """Faults are those of `check`, with the switch, except that a key that is solved may be absent
    or any whole number from 0."""
    for name, changes, keep in faulty():
        text = text_with(TWO, changes)
        fault = solve_file_fault(text, keep)
        must(fault.startswith(b"config "), f"{name} is no fault")
        for raise_only in (False, True):
            answers(solve(program, text, keep, raise_only), 1, b"", fault)
        if keep:
            must(check_solve(program, text) is not None, f"{name} is one where it is solved")


def changed_files(program: Program, seed: int, count: int) -> None:
    """So many files that are changed at random, with any keys kept: what is computed here, most of
    it faults."""
    chance = random.Random(seed)
    faults = 0
    for _ in range(count):
        cascade = made_cascade(chance, chance.randint(1, 5), chance.randint(0, 8), True)
        text, keep = mutated(chance, cascade), chance.choice(KEEPS)
        faults += solve_file_fault(text, keep) != b""
        check_solve(program, text, keep, chance.random() < 0.5)
    must(faults > count // 4, f"{faults} of {count} have a fault")


def all_beginnings(program: Program, text: bytes) -> None:
    """Every beginning of a file: its solution, or its fault."""
    for count in range(len(text)):
        wanted = solve_cascade_answer(text[:count])
        answers(solve(program, text[:count], (), False), wanted.status, wanted.out, wanted.err)


# ---- one switch ----------------------------------------------------------------------------------


def of_file(text: bytes) -> bytes:
    """What is written of a cascade of one switch, from what is written of a file of it."""
    return b'[[switch]]\nname = "%s"\n' % ONE.encode() + text.replace(b"\n[[", b"\n[[switch.")


def one_as_file(program: Program, tables: dict, keep: Collection[str], raise_only: bool) -> None:
    """A cascade of one switch has the values that a file of it has; its name stands in each line
    that is told, and in that of admission."""
    found = solve(program, made.text_of(tables), keep, raise_only)
    out, err = found.out, found.err.replace(b" at ", b" at %s " % ONE.encode())
    out = of_file(out) if found.status == 0 else at_switch(out.decode(), ONE).encode()
    cascade = of_one({"port": [], **tables}, ONE)
    answers(solve(program, cascade_text(cascade), keep, raise_only), found.status, out, err)


def ones_as_file(program: Program, seed: int, count: int) -> None:
    """The same of so many generated networks, and of the examples."""
    chance = random.Random(seed)
    every = [network(chance, chance.randint(1, 40), chance.random() < 0.7) for _ in range(count)]
    every += [{"port": [], **made.example_tables(f"{name}.toml")}
              for name in ("base", "network", "refused", "gigabit")]
    for tables in every:
        one_as_file(program, tables, (), False)
        one_as_file(program, tables, chance.choice(KEEPS), True)


# ---- all -----------------------------------------------------------------------------------------


def computed_cases() -> list[tuple]:
    """What is tried without the program."""
    cases: list[tuple] = [(f"computed: {row.name}", least_is_computed, row) for row in LEAST]
    return cases + [(f"computed: {vain.name}", vain_is_computed, vain) for vain in in_vain()]


def program_cases(program: Program) -> list[tuple]:
    """What is tried with the program."""
    cases: list[tuple] = [(row.name, row_is_solved, program, row) for row in LEAST]
    cases += [(vain.name, check_vain, program, vain) for vain in in_vain()]
    cases += [(f"solved: {row.name}", check_solve, program, row.text) for row in ROWS]
    measured = bench.config_text(bench.ways_of(bench.LINKS)).encode()
    for name in ("aircraft", "two_switches"):
        cases.append((f"{name}.toml", check_example, program, made.example(f"{name}.toml")))
    cases += [
        ("three switches", check_example, program, THREE_TEXT),
        ("24 switches in a row", check_wide, program, in_a_row(24)),
        ("23 switches around one", check_wide, program, around_one(23)),
        ("24 switches in a ring", check_wide, program, in_a_ring(24)),
        ("24 switches each to each", check_wide, program, in_a_mesh(24, False)),
        ("984 links over 8 switches", check_least, program, measured),
        ("a ring of few rounds", check_ring, program, busy_ring(3, 4, 2)),
        ("a ring of 25 rounds", check_ring, program, busy_ring(6, 10, 2)),
        ("a ring of 28 rounds", check_ring, program, busy_ring(4, 12, 1)),
        ("a long ring", check_ring, program, busy_ring(24, 4, 8), "no B3 w0 5 115349"),
        ("faults", check_faults, program),
        ("copies that aren't sent at once", apart_rows, program),
        ("beginnings of two switches", all_beginnings, program, TWO_TEXT),
    ]
    for seed in range(4):
        cases += [
            (f"15 generated cascades, {seed}", all_solved, program, seed, 15),
            (f"25 admitted cascades, {seed}", none_above, program, seed, 25),
            (f"each choice of keys, {seed}", all_choices, program, seed),
            (f"10 cascades of copies sent apart, {seed}", all_apart, program, seed, 10),
            (f"300 changed files, {seed}", changed_files, program, seed, 300),
            (f"12 networks of one switch, {seed}", ones_as_file, program, seed, 12),
        ]
    return cases


if __name__ == "__main__":
    main_of_both(__doc__, computed_cases, program_cases)
