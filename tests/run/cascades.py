#!/usr/bin/env python3
"""Compares what `check` says of several switches a side with what is computed here.

    tests/run/cascades.py [PROGRAM]

tests/lib/cascade_check.py and switch_fault.py say what `check` must write of a configuration of
several switches, apart from the program; they must say what tests/cascades/cascade_rows.py spells
out. So must the program, of these and of generated ones of 1 to 5 switches, admitted or not, with
`--all` and `--margins` and without; of files that are changed at random or break off at any byte,
of which the first fault is reported; of 24 switches in a row and around one. One switch must be
answered as a file of its own, with its name and its latencies added, and such a file as ever. Where
no PROGRAM is given only what is computed here is tried. Prints `ok NAME` or `FAILED NAME` for each
case, then `N passed, M failed`; ends with status 1 if a case failed. Needs Python 3.11.
"""
from __future__ import annotations

import os
import random
import sys

sys.dont_write_bytecode = True
TESTS = os.path.join(os.path.dirname(os.path.abspath(__file__)), "..")
sys.path[:0] = [os.path.join(TESTS, name) for name in ("lib", "cascades")]
import tables as made  # noqa: E402
from cascade import cascade_text, loaded, of_one  # noqa: E402
from cascade_check import at_switch, check_lines  # noqa: E402
from cascade_rows import FAULTS, ROWS, THREE_TEXT, TWO, TWO_TEXT, FaultRow, Row  # noqa: E402
from large_cascades import around_one, in_a_mesh, in_a_ring, in_a_row  # noqa: E402
from least import check_text, port_lines  # noqa: E402
from made_cascades import made_cascade, mutated, solved, spoiled  # noqa: E402
from networks import network  # noqa: E402
from program import Answer, Program, answers, main_of_both, must, same_text  # noqa: E402
from switch_fault import file_fault  # noqa: E402

OPTIONS: list[tuple[str, ...]] = [(), ("--all",), ("--margins",), ("--all", "--margins")]
EXAMPLES = ("base.toml", "network.toml", "refused.toml", "gigabit.toml")
ONE = "only"  # the name of a switch that is alone


# ---- what is computed here -----------------------------------------------------------------------


def wanted(cascade: dict, options: tuple[str, ...]) -> bytes:
    """What `check` writes of such tables."""
    lines = check_lines(cascade, "--all" in options, "--margins" in options)
    return "".join(f"{line}\n" for line in lines).encode()


def row_is_computed(row: Row) -> None:
    """What is spelled out is what is computed here."""
    must(file_fault(row.text) == b"", file_fault(row.text).decode())
    found = wanted(loaded(row.text), row.options).decode()
    must(found.endswith(row.lines), f"it ends {found[-len(row.lines) :]!r}")


def fault_is_computed(row: FaultRow) -> None:
    """The same of a fault."""
    found = file_fault(row.text).decode()
    must(found == f"config {row.fault}\n", f"it is {found!r}, wanted {row.fault!r}")


# ---- what the program says -----------------------------------------------------------------------


def checked(program: Program, text: bytes, options: tuple[str, ...] = ()) -> Answer:
    """What `check` answers."""
    return program.run("check", *options, "/dev/stdin", given=text)


def check_alike(program: Program, text: bytes, every: list[tuple[str, ...]]) -> bytes:
    """`check` answers what is computed here, with each of these options; its fault."""
    fault = file_fault(text)
    cascade = {} if fault else loaded(text)
    for options in every:
        found = checked(program, text, options)
        if fault:
            answers(found, 1, b"", fault)
        else:
            lines = wanted(cascade, options)
            answers(found, 0 if b"\nok\n" in lines else 1, lines, b"")
    return fault


def row_is_told(program: Program, row: Row) -> None:
    """The program ends with the lines that are spelled out."""
    found = checked(program, row.text, row.options)
    answers(found, 0 if "\nok\n" in row.lines else 1, None, b"")
    lines = row.lines.encode()
    same_text("the end of standard output", lines, found.out[-len(lines) :])
    check_alike(program, row.text, OPTIONS)


def fault_is_told(program: Program, row: FaultRow) -> None:
    """The program reports the fault that is spelled out, and has no output."""
    for options in OPTIONS:
        answers(checked(program, row.text, options), 1, b"", f"config {row.fault}\n".encode())


def all_alike(program: Program, seed: int, count: int) -> None:
    """So many cascades with any values, with the least ones, and with these spoiled."""
    chance = random.Random(seed)
    for _ in range(count):
        is_light = chance.random() < 0.7
        cascade = made_cascade(chance, chance.randint(1, 5), chance.randint(0, 25), is_light)
        least = solved(cascade)
        for one in (cascade, least, spoiled(chance, least), spoiled(chance, least)):
            check_alike(program, cascade_text(one), OPTIONS)


def all_faults(program: Program, seed: int, count: int) -> None:
    """So many files that are changed at random."""
    chance = random.Random(seed)
    faults = 0
    for _ in range(count):
        cascade = made_cascade(chance, chance.randint(1, 5), chance.randint(0, 8), True)
        faults += check_alike(program, mutated(chance, cascade), [()]) != b""
    must(faults > count // 2, f"{faults} of {count} have a fault")


def all_beginnings(program: Program, text: bytes) -> None:
    """Every beginning of a file: what it describes, or its fault."""
    for count in range(len(text)):
        check_alike(program, text[:count], [()])


def needed_to_the_end() -> bytes:
    """The two switches: the first one's end of the cable stands before its last key, and the other
    one's is the last table."""
    one, other = (
        b'[[switch.neighbour]]\nname = "%s"\nport = %d\nrate = 100\n' % end
        for end in ((b"aft", 24), (b"fwd", 20))
    )
    text = cascade_text(TWO)
    must(text.count(one) == text.count(other) == 1, "there are no such tables")
    end = b'neighbour = [{ name = "aft", port = 24, rate = 100 }]\nbuffer ='
    return text.replace(b"buffer =", end, 1).replace(one, b"").replace(other, b"") + other


def no_beginning_is_whole(program: Program) -> None:
    """A file of which each beginning has one fault, up to its last key."""
    text = needed_to_the_end()
    answers(checked(program, text), 0, wanted(TWO, ()), b"")
    for count in range(len(text) - len(b"0\n")):
        fault = file_fault(text[:count])
        must(fault.startswith(b"config ") and fault.count(b"\n") == 1, f"{count}: {fault!r}")
        answers(checked(program, text[:count]), 1, b"", fault)


def admitted(program: Program, cascade: dict) -> None:
    """It is admitted, and answered as computed here."""
    must(wanted(cascade, ()).endswith(b"\nok\n"), "it is not admitted")
    check_alike(program, cascade_text(cascade), OPTIONS)


def one_as_ever(program: Program, text: bytes) -> None:
    """A file of one switch has its lines; the cascade of this switch has them too, its name before
    them and in a false line, and its latencies behind the ports."""
    tables: dict = {"system": [], "link": [], "port": []}
    tables |= made.tomllib.loads(text.decode())
    ends = [f"E {link['vl']} {system['name']} {1000 * link['latency_us']}"
            for link in tables["link"] for system in tables["system"]
            if system["name"] in link["to"]]
    for options in OPTIONS:
        is_all, with_margins = "--all" in options, "--margins" in options
        ports = [*port_lines(tables, with_margins)]
        lines = check_text(tables, is_all, with_margins).decode()
        behind = lines.splitlines()[len(ports):]
        status = 0 if behind[0] == "ok" else 1
        answers(checked(program, text, options), status, lines.encode(), b"")
        named = behind if status == 0 else [at_switch(line, ONE) for line in behind]
        lines = "".join(f"{line}\n" for line in [f"S {ONE}", *ports, *ends, *named])
        found = checked(program, cascade_text(of_one(tables, ONE)), options)
        answers(found, status, lines.encode(), b"")


def ones_as_ever(program: Program, seed: int, count: int) -> None:
    """The same of so many generated networks."""
    chance = random.Random(seed)
    for _ in range(count):
        tables = network(chance, chance.randint(1, 40), chance.random() < 0.5)
        one_as_ever(program, made.text_of(tables))


# ---- all -----------------------------------------------------------------------------------------


def computed_cases() -> list[tuple]:
    """What is tried without the program."""
    return [
        *((f"computed: {row.name}", row_is_computed, row) for row in ROWS),
        *((f"computed: {row.name}", fault_is_computed, row) for row in FAULTS),
    ]


def program_cases(program: Program) -> list[tuple]:
    """What is tried with the program."""
    cases: list[tuple] = [(row.name, row_is_told, program, row) for row in ROWS]
    cases += [(row.name, fault_is_told, program, row) for row in FAULTS]
    cases += [
        ("24 switches in a row", admitted, program, in_a_row(24)),
        ("23 switches around one", admitted, program, around_one(23)),
        ("24 switches in a ring", admitted, program, in_a_ring(24)),
        ("24 switches each to each", admitted, program, in_a_mesh(24, False)),
        ("aircraft.toml", admitted, program, loaded(made.example("aircraft.toml"))),
        ("no beginning is whole", no_beginning_is_whole, program),
        ("beginnings of two switches", all_beginnings, program, TWO_TEXT),
        ("beginnings of three switches", all_beginnings, program, THREE_TEXT),
    ]
    for seed in range(4):
        cases.append((f"25 generated cascades, {seed}", all_alike, program, seed, 25))
        cases.append((f"400 changed files, {seed}", all_faults, program, seed, 400))
        cases.append((f"30 networks of one switch, {seed}", ones_as_ever, program, seed, 30))
    return cases + [
        (f"one switch: {name}", one_as_ever, program, made.example(name)) for name in EXAMPLES
    ]


if __name__ == "__main__":
    main_of_both(__doc__, computed_cases, program_cases)
