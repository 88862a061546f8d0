"""A cascade of one switch is answered as a file of that switch: its name stands in each place, and
nothing else differs."""
from __future__ import annotations

import random

from cascade import cascade_text, of_one
from cascade_check import at_switch
from compared_runs import OPTIONS
from made import changed_list, random_list, random_submissions, random_tables
from program import Program, answers
from tables import text_of

NAME = b"only"
SIDES = {b"V": 2, b"L": 2, b"R": 2, b"D": 3, b"T": 3}  # where a line has its side


def placed_list(text: bytes) -> bytes:
    """A list in which each line of five fields has the name of the switch too."""
    lines = []
    for line in text.split(b"\n"):
        fields = line.split(b" ")
        if len(fields) == 5 and not line.startswith(b"#"):
            fields.insert(3, NAME)
        lines.append(b" ".join(fields))
    return b"\n".join(lines)


def placed_line(line: bytes, listed: list[bytes]) -> bytes:
    """A line of either stream with the name of the switch behind its side; a line `early` has the
    side of its frame's line besides."""
    words = line.split(b" ")
    if words[0] in SIDES:
        words.insert(SIDES[words[0]] + 1, NAME)
    elif words[0] == b"early":
        words[2:2] = [listed[int(words[1]) - 1].split(b" ")[2], NAME]
    elif words[0] == b"admit":
        return at_switch(line.decode(), NAME.decode()).encode()
    return b" ".join(words)


def placed(out: bytes, listed: bytes = b"") -> bytes:
    """The same of all lines."""
    lines = listed.split(b"\n")
    return b"".join(placed_line(line, lines) + b"\n" for line in out.splitlines())


def one_as_its_file(program: Program, tables: dict, text: bytes) -> None:
    """Replays a list of one switch by its file, and by a cascade of it alone."""
    file = program.write("file", text_of(tables))
    cascade = program.write("cascade", cascade_text(of_one(tables, NAME.decode())))
    for options in OPTIONS:
        own = program.run("replay", *options, file, "-", given=text)
        found = program.run("replay", *options, cascade, "-", given=placed_list(text))
        answers(found, own.status, placed(own.out), placed(own.err, text))


def one_sends_as_its_file(program: Program, tables: dict, name: str, messages: bytes) -> None:
    """The same of what a system sends."""
    file = program.write("file", text_of(tables))
    cascade = program.write("cascade", cascade_text(of_one(tables, NAME.decode())))
    own = program.run("send", file, name, "-", given=messages)
    found = program.run("send", cascade, name, "-", given=messages)
    answers(found, own.status, placed(own.out), placed(own.err))


def ones_alike(program: Program, seed: int, count: int) -> None:
    """So many generated networks, each with lists of frames and of messages, with faults too."""
    chance, program = random.Random(seed), program.apart()
    for _ in range(count):
        tables = random_tables(chance)
        text = random_list(chance, tables)
        one_as_its_file(program, tables, text)
        one_as_its_file(program, tables, changed_list(chance, text))
        name = chance.choice(tables["system"])["name"]
        messages = random_submissions(chance, tables, name)
        one_sends_as_its_file(program, tables, name, messages)
