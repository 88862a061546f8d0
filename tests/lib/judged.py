"""What `solve` answers; what `check` says of values that are enough, and of each of them less by
one."""
from __future__ import annotations

import random
from typing import Collection

import tables as made
from first_fault import RANGES
from least import SOLVED
from program import Answer, Program, answers, must

# the lines that a key's values less by one make false
LINES_OF = {
    SOLVED["jitter"]: ("A6",), SOLVED["latency"]: ("A3", "A4"), SOLVED["skew"]: ("A7",),
}  # fmt: skip
PICKED = 4  # links whose values are made less one at a time


def checked(program: Program, tables: dict, *options: str) -> Answer:
    """What `check` answers of the tables."""
    return program.run("check", *options, "/dev/stdin", given=made.text_of(tables))


def solve(
    program: Program, text: bytes, keep: Collection[str], raise_only: bool, apart: int = 0
) -> Answer:
    """What `solve` answers; an `apart` of 0 isn't said."""
    options = ["--keep", ",".join(keep)] if keep else []
    options += ["--raise-only"] if raise_only else []
    options += ["--apart", str(apart)] if apart else []
    return program.run("solve", *options, "/dev/stdin", given=text)


def check_solution(
    program: Program, text: bytes, keep: Collection[str], raise_only: bool, apart: int = 0
) -> None:
    """`check` admits what `solve` wrote, and says that each link leaves what was asked for; it is
    the same when it is solved again."""
    found = program.run("check", "--margins", "/dev/stdin", given=text)
    lines = found.out.decode().splitlines()
    must(found.status == 0 and "ok" in lines, "check doesn't admit what is written")
    behind = [line.split() for line in lines[lines.index("ok") + 1:]]
    less = [vl for word, vl, ns in behind if word != "apart" or ns == "-" or int(ns) < apart]
    must(not less, f"links {less} leave less than {apart}")
    must(len(behind) == len({vl for _, vl, _ in behind}), "a link stands twice")
    answers(solve(program, text, keep, raise_only, apart), 0, text, b"")


def false_of(program: Program, tables: dict) -> list[list[str]]:
    """The words of each line that `check --all` says to be false."""
    found = checked(program, tables, "--all")
    must(found.status == 1 and found.err == b"", f"status {found.status}: {found.err!r}")
    lines = found.out.decode().splitlines()
    return [line.split() for line in lines if line.startswith("no ")]


def links_named(lines: list[list[str]], key: str) -> list[int]:
    """The links that the key's lines name; Wrong where another line is false."""
    others = [line for line in lines if line[1] not in LINES_OF[key]]
    must(not others, f"{key} less by one makes {others[:1]} false")
    return sorted({int(line[3] if key == SOLVED["latency"] else line[2]) for line in lines})


def less(link: dict, key: str) -> dict:
    """The link with a value less by one, where that is in range."""
    return link | {key: max(link[key] - 1, RANGES["link", key][0])}


def check_each_less(program: Program, tables: dict, key: str, chance: random.Random) -> None:
    """Each link's value is needed: all less by one make each link's own line false, and one less
    by one makes that link's alone."""
    links = tables["link"]
    reduced = [link["vl"] for link in links if less(link, key) != link]
    if reduced:
        lower = tables | {"link": [less(link, key) for link in links]}
        named = links_named(false_of(program, lower), key)
        must(named == sorted(reduced), f"{key}: {set(reduced) ^ set(named)} are not the least")
    for vl in chance.sample(reduced, min(PICKED, len(reduced))):
        rows = [less(link, key) if link["vl"] == vl else link for link in links]
        named = links_named(false_of(program, tables | {"link": rows}), key)
        must(named == [vl], f"{key} of {vl} less by one makes lines of {named} false")


def check_all_less(program: Program, tables: dict) -> None:
    """The same of all keys: jitters, latencies and skews, and the buffer."""
    chance = random.Random(len(tables["link"]))
    for key in LINES_OF:
        check_each_less(program, tables, key, chance)
    buffer = tables["buffer"]
    if buffer > RANGES["top", "buffer"][0]:
        lines = false_of(program, tables | {"buffer": buffer - 1})
        must({line[1] for line in lines} == {"A2"}, f"a buffer less by one makes {lines[:1]} false")
