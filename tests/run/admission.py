#!/usr/bin/env python3
"""Compares what the built program says of admission with what is computed here.

    tests/run/admission.py PROGRAM

`check`, `check --all` and `check --margins` must write of generated networks, of up to 400 links,
and of the largest tables exactly what tests/lib/least.py computes apart from the program. `check`
least jitters, buffer, latencies and skews that are computed there: a network that has them is
admitted, and each of them less by one makes its own line of admission false; where a key has no
value that is enough, the line that is reported is the first false one. The same holds if keys are
kept, or only raised. Prints `ok NAME` or `FAILED NAME` for each case, then `N passed, M failed`;
ends with status 1 if a case failed. Needs Python 3.11.
"""
from __future__ import annotations

import itertools
import os
import random
import sys

sys.dont_write_bytecode = True
sys.path.insert(0, os.path.join(os.path.dirname(os.path.abspath(__file__)), "..", "lib"))
import tables as made  # noqa: E402
from first_fault import RANGES  # noqa: E402
from judged import LINES_OF, check_all_less, checked  # noqa: E402
from least import KEEPS, SOLVED, Solved, check_text, key_line, needs  # noqa: E402
from least import solve_fault, solved  # noqa: E402
from networks import network, unsolvable  # noqa: E402
from program import Cases, Program, answers, main_of, must  # noqa: E402

# ---- what the program says of them ---------------------------------------------------------------


def check_alike(program: Program, tables: dict) -> int:
    """`check` writes what is computed here, with its options and without; its status."""
    status = 0 if check_text(tables, True).endswith(b"\nok\n") else 1
    answers(checked(program, tables), status, check_text(tables, False), b"")
    answers(checked(program, tables, "--all"), status, check_text(tables, True), b"")
    answers(checked(program, tables, "--margins"), status, check_text(tables, False, True), b"")
    return status


def check_all_alike(program: Program, seed: int, count: int) -> None:
    """The same of so many networks."""
    chance = random.Random(seed)
    for _ in range(count):
        check_alike(program, network(chance, chance.randint(1, 40), chance.random() < 0.5))


def is_hopeless(found: Solved) -> bool:
    """No value makes the line true that is reported: a port is overloaded, a sender too busy, or
    the key is the greatest in its range."""
    _, name, *words = found.fault.split()
    if name == "A2":
        return found.tables["buffer"] == RANGES["top", "buffer"][1]
    if name in LINES_OF["latency_us"]:
        link = next(link for link in found.tables["link"] if link["vl"] == int(words[1]))
        return link["latency_us"] == RANGES["link", "latency_us"][1]
    return name in ("A1", "A5")


def check_least(program: Program, tables: dict) -> bool:
    """The values that are computed are admitted, and each less by one is not; or there are none,
    and `check` names the same line. True where there are."""
    found = solved(tables)
    status = check_alike(program, found.tables)
    must((status == 0) == (found.fault == ""), f"{found.fault!r}, but the status is {status}")
    if found.fault:
        must(is_hopeless(found), f"{found.fault} is told, but a greater value is enough")
        return False
    check_all_less(program, found.tables)
    return True


def check_all_least(program: Program, seed: int, count: int, links: int) -> None:
    """The same of so many networks, of up to so many links; some have such values, some not."""
    chance = random.Random(seed)
    sizes = [links, *(chance.randint(1, links) for _ in range(count - 1))]
    networks = [network(chance, size, place % 3 < 2) for place, size in enumerate(sizes)]
    having = [check_least(program, tables) for tables in networks]
    must(any(having), "none of the networks can be admitted")


def check_example(program: Program, name: str, wanted: dict) -> None:
    """The least values of an example; those of some links are given."""
    tables = made.example_tables(name)
    must(check_least(program, tables), "it can't be admitted")
    links = {link["vl"]: link for link in solved(tables).tables["link"]}
    for vl, values in wanted.items():
        least = tuple(links[vl][key] for key in LINES_OF)
        must(least == values, f"link {vl} has {least}, wanted {values}")


# ---- no value that is enough, keys that are kept or raised ---------------------------------------


def check_none(program: Program, tables: dict, line: str) -> None:
    """No values are enough; the line, which may end in `..`, is the one that is reported."""
    found = solved(tables)
    begin = line.removesuffix("..")
    must(found.fault == line or (begin != line and found.fault.startswith(begin)), found.fault)
    must(not check_least(program, tables), "it can be admitted")
    answer = checked(program, found.tables).out.decode().splitlines()[-1]
    must(answer == found.fault, f"check says {answer}, here it is {found.fault}")


def check_choices(program: Program, seed: int) -> None:
    """Each choice of keys that are kept or only raised: `check` says of what is written what is
    reported; a kept key is that of the file, a raised one not less."""
    chance = random.Random(seed)
    tables = network(chance, 12, True)
    for keep, raise_only in itertools.product(KEEPS, (False, True)):
        found = solved(tables, keep, raise_only)
        check_alike(program, found.tables)
        lines = check_text(found.tables, False).decode().splitlines()
        must(lines[-1] == (found.fault or "ok"), f"{keep}: {lines[-1]}, but told is {found.fault}")
        rows = [(tables, found.tables), *zip(tables["link"], found.tables["link"])]
        for asked, written in rows:
            for word, key in SOLVED.items():
                if key not in asked:
                    continue
                kept = asked[key] == written[key]
                must(kept or word not in keep, f"{word} is not kept")
                must(not raise_only or written[key] >= asked[key], f"{word} is less")


def check_needs() -> None:
    """What is reported where more is needed than is asked."""
    tables = made.example_tables("refused.toml")
    told = needs(tables, solved(tables).tables)
    wanted = [f"vl 104 at {port}: 267674 ns needed, 250 us asked" for port in (7, 8)]
    must(told == wanted, f"told is {told}")
    del tables["link"][3]["latency_us"]
    told = needs(tables, solved(tables).tables)
    must(not told, f"of a latency that isn't there {told} is told")


def check_faults() -> None:
    """A key that is solved may be absent or any whole number; nothing else is other than for
    `check`."""
    text = made.example("base.toml")
    for old, new, keep, wanted in (
        (key_line("buffer", 252), b"", (), ""),
        (key_line("buffer", 252), key_line("buffer", 99999999999), (), ""),
        (key_line("buffer", 252), b"", ("buffer",), "config Missing top 0 key 2"),
        (key_line("buffer", 252), key_line("buffer", 5000000), ("buffer",),
         "config OutOfRange top 0 key 2"),
        (key_line("buffer", 252), key_line("buffer", -1), (), "config OutOfRange top 0 key 2"),
        (key_line("buffer", 252), key_line("buffer", '"252"'), (), "config WrongKind top 0 key 2"),
        (key_line("jitter", 500), b"", (), ""),
        (key_line("jitter", 500), key_line("jitter", 1001), ("jitter",),
         "config OutOfRange link 1 key 7"),
        (key_line("latency", 17), key_line("latency", 0), ("skew",), ""),
        (key_line("latency", 17), key_line("latency", 0.5), (), "config WrongKind link 1 key 10"),
        (key_line("skew", 1000), b"", ("skew",), "config Missing link 1 key 11"),
        (b"lmax = 64", b"lmax = 63", (), "config OutOfRange link 1 key 6"),
        (b"lmax = 64", b"=", (), "config NotToml"),
    ):
        found = solve_fault(text.replace(old, new), keep)
        must(found == wanted, f"{new!r}, {keep} kept: {found!r}, wanted {wanted!r}")


def try_all(cases: Cases, program: Program) -> None:
    """All cases."""
    cases.try_case("faults of a configuration whose keys are solved", check_faults)
    cases.try_case("what is told where more is needed than is asked", check_needs)
    some = {101: (304, 241, 241), 1101: (246, 77, 77)}
    for name, wanted in (
        ("base.toml", {1: (47, 14, 14), 2: (47, 15, 15)}),
        ("network.toml", some),
        ("refused.toml", {104: (304, 268, 268)}),
        ("gigabit.toml", {}),
    ):
        cases.try_case(f"the least values of {name}", check_example, program, name, wanted)
    for name, tables, line in unsolvable():
        cases.try_case(f"no values are enough: {name}", check_none, program, tables, line)
    at_once: list[tuple] = [
        (f"60 generated networks, {seed}", check_all_alike, program.apart(), seed, 60)
        for seed in range(4)
    ]
    for seed, (count, links) in enumerate([(20, 5), (12, 40), (4, 100), (3, 400), (3, 400)]):
        name = f"the least values of {count} networks of up to {links} links, {seed}"
        at_once.append((name, check_all_least, program.apart(), seed, count, links))
    at_once += [
        (f"keys that are kept, keys that are raised, {seed}", check_choices, program.apart(), seed)
        for seed in range(3)
    ]
    largest = made.largest_tables()
    at_once.append(("the largest tables", check_least, program.apart(), largest))
    cases.try_at_once(at_once)


if __name__ == "__main__":
    main_of(__doc__, try_all)
