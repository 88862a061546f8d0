#!/usr/bin/env python3
"""Compares what `solve` makes of configurations with what is computed here.

    tests/run/solving.py PROGRAM

`solve` must write the tables that tests/lib/least.py computes apart from the program, with the same
lines on standard error; or, where no values are enough, the same line in place of them. What it
writes must be admitted by `check`; be written again, byte for byte, by another `solve`; and have
the least values: each less by one makes its own line of admission false. So it is of the examples,
of the guide's network, of generated networks of up to 400 links whose four keys are absent, 0, any
number in range or beyond it, of 4,096 links at once, of keys that are kept or only raised, and
where one copy of a frame may be sent later than the other: then each link leaves so much. Prints
`ok NAME` or `FAILED NAME` for each case, then `N passed, M failed`; ends with status 1 if a case
failed. Needs Python 3.11.
"""
from __future__ import annotations

import itertools
import os
import random
import sys
from typing import Collection

sys.dont_write_bytecode = True
sys.path.insert(0, os.path.join(os.path.dirname(os.path.abspath(__file__)), "..", "lib"))
import tables as made  # noqa: E402
from judged import check_all_less, check_solution, solve  # noqa: E402
from least import KEEPS, SOLVED, key_line, solve_answer  # noqa: E402
from networks import BEYOND, network, unsolvable, with_any_keys  # noqa: E402
from program import Cases, Program, Wrong, answers, main_of, must, same_text  # noqa: E402
from tables import link_of, system_of, tables_of, text_of, tomllib  # noqa: E402

NO_TABLES: dict[str, list] = {"system": [], "link": [], "port": []}


# ---- what the program makes of them --------------------------------------------------------------


def spelled(tables: dict) -> bytes:
    """A configuration that spells the tables, in which keys may be absent: those with None."""
    rows = {
        part: [{key: value for key, value in row.items() if value is not None} for row in rows]
        for part, rows in tables.items()
        if part in NO_TABLES
    }
    text = text_of(tables | rows | {"buffer": tables.get("buffer")})
    return text.replace(b"buffer = None\n", b"", 1)


def difference(wanted: dict, found: dict) -> str:
    """The first row, and otherwise the first key, of which the tables don't say the same."""
    for part in NO_TABLES:
        for one, other in zip(wanted[part], found[part]):
            if one != other:
                return f"{part}: {other}, wanted {one}"
    keys = [key for key in {*wanted, *found} if wanted.get(key) != found.get(key)]
    return f"{keys} differ"


def check_solve(
    program: Program, text: bytes, keep: Collection[str] = (), raise_only: bool = False,
    apart: int = 0,
) -> bytes | None:
    """`solve` answers what is computed here; the configuration that it writes, if it does, which
    `check` admits, and which is the same when it is solved again."""
    wanted = solve_answer(text, keep, raise_only, apart)
    found = solve(program, text, keep, raise_only, apart)
    errors = "".join(f"{line}\n" for line in wanted.errors).encode()
    if wanted.tables is None:
        answers(found, wanted.status, f"{wanted.line}\n".encode() if wanted.line else b"", errors)
        return None
    answers(found, 0, None, errors)
    tables = NO_TABLES | tomllib.loads(found.out.decode())
    must(tables == wanted.tables, difference(wanted.tables, tables))
    check_solution(program, found.out, keep, raise_only, apart)
    return found.out


def check_least(program: Program, text: bytes) -> bool:
    """The same where all keys are solved, of which then each is the least; or there are none, and
    then false."""
    written = check_solve(program, text)
    if written is None:
        return False
    check_all_less(program, NO_TABLES | tomllib.loads(written.decode()))
    return True


# ---- examples ------------------------------------------------------------------------------------


def with_keys(tables: dict, value: int | None) -> bytes:
    """The tables with that value for each of the four keys, or without these."""

    def changed(row: dict) -> dict:
        items = row.items()
        return {key: value if key in SOLVED.values() else other for key, other in items}

    return spelled(changed(tables) | {"link": [changed(link) for link in tables["link"]]})


def check_example(program: Program, name: str) -> None:
    """An example as it stands, without its four keys, and with others in their place; where they
    are absent or less, also if they may only be raised."""
    text = made.example(name)
    tables = made.example_tables(name)
    texts = [with_keys(tables, value) for value in (None, *BEYOND)]
    written = {check_solve(program, changed) for changed in (text, *texts)}
    must(len(written) == 1, "it isn't the same where its keys are changed")
    must(check_least(program, text), "it can't be admitted")
    raised = {check_solve(program, changed, (), True) for changed in texts[:3]}
    must(raised == written, "raised from nothing, 0 or 1 it isn't the same")
    for changed in (text, *texts[3:]):
        check_solve(program, changed, (), True)


def guide_tables() -> dict:
    """The network of docs/GUIDE.md, as it is asked for there: three systems, five messages."""
    names = {"adc": (1, 17, 1), "fcc": (2, 33, 1), "disp": (3, 49, 2)}
    systems = [
        system_of(port, name=name, ident=number, partition=partition)
        for name, (port, number, partition) in names.items()
    ]
    links = [
        link_of(vl, sender, to, bag=bag, lmax=lmax, jitter=None, priority=priority,
                latency=latency, skew=None)
        for vl, sender, to, bag, lmax, priority, latency in (
            (10, "adc", ["fcc", "disp"], 16, 111, "high", 150),
            (20, "fcc", ["disp"], 8, 167, "high", 100),
            (21, "fcc", ["disp"], 128, 1047, "low", 1000),
            (22, "fcc", ["adc"], 32, 64, "low", 1000),
            (30, "disp", ["fcc"], 32, 79, "low", 1000),
        )
    ]  # fmt: skip
    return tables_of(systems, links, buffer=1000)


def check_guide(program: Program) -> None:
    """The guide's network: its values are those that the guide finds by hand."""
    tables = guide_tables()
    written = check_solve(program, text_of(tables))
    if written is None:
        raise Wrong("it can't be admitted")
    found = tomllib.loads(written.decode())
    must(found["buffer"] == 1391, f"its buffer is {found['buffer']}")
    values = {link["vl"]: (link["jitter_us"], link["latency_us"]) for link in found["link"]}
    wanted = {10: (51, 112), 20: (148, 112), 21: (148, 112), 22: (148, 7), 30: (48, 19)}
    must(values == wanted, f"jitters and latencies are {values}, wanted {wanted}")
    must(check_least(program, text_of(tables)), "it can't be admitted")
    for raise_only in (False, True):
        told = solve(program, text_of(tables), (), raise_only).err
        same_text("standard error", b"vl 20 at 3: 111111 ns needed, 100 us asked\n", told)


# ---- generated networks, choices of keys ---------------------------------------------------------


def check_networks(program: Program, seed: int, count: int, links: int) -> None:
    """So many networks of up to so many links; some can be admitted, some not."""
    chance = random.Random(seed)
    sizes = [links, *(chance.randint(1, links) for _ in range(count - 1))]
    having = 0
    for place, size in enumerate(sizes):
        text = spelled(with_any_keys(chance, network(chance, size, place % 3 < 2)))
        having += check_least(program, text)
        check_solve(program, text, (), True)
    must(having > 0, "none of the networks can be admitted")


def check_choices(program: Program, seed: int) -> None:
    """Each choice of keys that are kept or only raised, also where a kept one is absent or out of
    range."""
    chance = random.Random(seed)
    tables = network(chance, 12, True)
    least = tomllib.loads((check_solve(program, text_of(tables)) or b"").decode())
    for keep, raise_only in itertools.product(KEEPS, (False, True)):
        check_solve(program, text_of(tables), keep, raise_only)
        check_solve(program, spelled(with_any_keys(chance, tables)), keep, raise_only)
        if least:
            check_solve(program, text_of(NO_TABLES | least), keep, raise_only)


def check_apart(program: Program) -> None:
    """What the base network leaves the copies of a frame, what `solve` leaves without `--apart`:
    the time on the wire; and with it."""
    text = made.example("base.toml")
    for options, wanted in (
        (None, b"apart 1 988760\napart 2 984760\n"),
        (0, b"apart 1 5760\napart 2 5760\n"),
        (1, b"apart 1 6760\napart 2 6760\n"),
        (1_000_000, b"apart 1 1005760\napart 2 1005760\n"),
        (99_985_000, b"apart 1 99990760\napart 2 99990760\n"),
    ):
        solved = text if options is None else check_solve(program, text, (), False, options) or b""
        found = program.run("check", "--margins", "/dev/stdin", given=solved).out
        same_text(f"what {options} leaves", wanted, found.partition(b"ok\n")[2])
    must(check_solve(program, text, (), False, 99_990_761) is None, "no skew leaves so much")
    must(check_solve(program, text, ["skew"], False, 990_760) is not None, "the skew leaves it")
    for apart, line in ((990_761, b"no apart 2 990760\n"), (991_761, b"no apart 1 991760\n")):
        answers(solve(program, text, ["skew"], False, apart), 1, line, b"")


def check_networks_apart(program: Program, seed: int, count: int) -> None:
    """So many networks, of which one copy may be sent later by any time: some leave it."""
    chance = random.Random(seed)
    having = 0
    for _ in range(count):
        tables = with_any_keys(chance, network(chance, chance.randint(1, 40), True))
        most = chance.choice([2000, 1_000_000, 99_000_000, 100_000_000])
        apart, raise_only = chance.randint(1, most), chance.random() < 0.5
        keep = chance.choice(KEEPS) if chance.random() < 0.3 else ()
        having += check_solve(program, spelled(tables), keep, raise_only, apart) is not None
    must(0 < having < count, f"{having} of {count} networks leave what is asked for")


def check_largest(program: Program) -> None:
    """4,096 links at once, each to 23 systems, without the four keys."""
    must(check_least(program, with_keys(made.largest_tables(), None)), "it can't be admitted")


# ---- no values are enough, and faults ------------------------------------------------------------


def check_none(program: Program, tables: dict, line: str) -> None:
    """No values are enough: the line, which may end in `..`, is reported in place of tables,
    whatever the keys were."""
    for value, raise_only in ((None, False), (1, True), (BEYOND[-1], True)):
        text = with_keys(tables, value)
        must(check_solve(program, text, (), raise_only) is None, "it can be admitted")
    found = solve(program, text_of(tables), (), False).out.decode()
    must(found.startswith(line.removesuffix("..")), f"{found!r} is told, wanted {line}")


def check_kept(program: Program) -> None:
    """A kept value that makes a line false is that line; that of another key isn't looked at."""
    text = made.example("base.toml")
    for word, old, new, line in (
        ("buffer", 252, 64, b"no A2 3 176\n"),
        ("jitter", 500, 46, b"no A6 1 46720\n"),
        ("latency", 17, 10, b"no A3 3 1 13756\n"),
        ("skew", 1000, 9, b"no A7 1\n"),
    ):
        changed = text.replace(key_line(word, old), key_line(word, new))
        answers(solve(program, changed, [word], False), 1, line, b"")
        must(check_solve(program, changed, [word]) is None, f"{word} {new} kept is admitted")
        must(check_solve(program, changed) is not None, f"{word} {new} not kept isn't admitted")


def check_faults(program: Program) -> None:
    """Faults are those of `check`, except that a key that is solved may be absent or any whole
    number from 0."""
    text = made.example("base.toml")
    changes: list[tuple[bytes, bytes, list[str]]] = [
        (key_line("buffer", 252), b"", ["buffer"]),
        (key_line("buffer", 252), key_line("buffer", 5000000), ["buffer"]),
        (key_line("buffer", 252), key_line("buffer", -1), []),
        (key_line("buffer", 252), key_line("buffer", '"252"'), []),
        (key_line("jitter", 500), b"", ["jitter", "skew"]),
        (key_line("jitter", 500), key_line("jitter", 1001), ["jitter"]),
        (key_line("jitter", 500), key_line("jitter", -500), []),
        (key_line("latency", 17), key_line("latency", 0), ["latency"]),
        (key_line("latency", 17), key_line("latency", 0.5), []),
        (key_line("latency", 17), key_line("latency", -9223372036854775808), []),
        (key_line("skew", 1000), key_line("skew", 100001), ["skew"]),
        (key_line("skew", 1000), key_line("skew", "true"), []),
        (b"lmax = 64", b"lmax = 63", []),
        (b"lmax = 64", b"lmax = 64\nlength = 64", []),
        (b"lmax = 64", b"=", []),
        (b"profile = 1", b"", []),
        (b'from = "s1"', b'from = "s9"', []),
        (b"subs = 1", b"", []),
    ]
    for old, new, keep in changes:
        changed = text.replace(old, new)
        must(changed != text, f"{old!r} isn't there")
        for raise_only in (False, True):
            must(check_solve(program, changed, keep, raise_only) is None, f"{new!r} is no fault")
            told = solve(program, changed, keep, raise_only).err
            must(told.startswith(b"config "), f"{new!r}: {told!r} is told")


def try_all(cases: Cases, program: Program) -> None:
    """All cases."""
    cases.try_case("faults of a configuration", check_faults, program)
    cases.try_case("kept values that are too small", check_kept, program)
    cases.try_case("the guide's network", check_guide, program)
    cases.try_case("copies that aren't sent at once", check_apart, program)
    for name in ("base", "network", "refused", "gigabit"):
        cases.try_case(f"{name}.toml", check_example, program, f"{name}.toml")
    for name, tables, line in unsolvable():
        cases.try_case(f"no values are enough: {name}", check_none, program, tables, line)
    at_once: list[tuple] = [("4,096 links at once", check_largest, program.apart())]
    for seed, (count, links) in enumerate([(40, 5), (20, 40), (6, 100), (3, 400), (3, 400)]):
        name = f"{count} networks of up to {links} links, {seed}"
        at_once.append((name, check_networks, program.apart(), seed, count, links))
    at_once += [
        (f"keys that are kept, keys that are raised, {seed}", check_choices, program.apart(), seed)
        for seed in range(4)
    ]
    at_once += [
        (f"20 networks, copies sent apart, {seed}", check_networks_apart, program.apart(), seed, 20)
        for seed in range(3)
    ]
    cases.try_at_once(at_once)


if __name__ == "__main__":
    main_of(__doc__, try_all)
