"""What must be written of a recording: the reference of tests/lib gives the list that says the
same, the fault and the counts, and the program's run on that list the text."""
from __future__ import annotations

import random
import re
import threading
from collections.abc import Callable
from typing import NamedTuple

from cascade import of_one
from order_rows import orders
from program import Answer, Program, answers, must
from reads import ORDERS
from recorded_arrivals import Options, Systems, systems_of
from recorded_list import Told, told
from recording_rows import FIRST_NS, Row, rows
from tables import example, example_tables

POLICE = ["police", "1", "64", "500"]
BEYOND = b"!\n"  # a line that is none: what stands before it is written, and no more
AT = {b"V": 1, b"L": 1, b"D": 1, b"T": 1, b"X": 3, b"early": 1}  # where a line's number stands


def fits(pattern: str, text: bytes) -> bool:
    """The lines of a row's text, in which ` / ` stands between lines and `..` for any words."""
    if pattern == "..":
        return True
    lines = "".join(f"{line}\n" for line in pattern.split(" / ") if line)
    return re.fullmatch(re.escape(lines).replace(r"\.\.", ".*"), text.decode()) is not None


def renumbered(text: bytes, number_of: Callable[[int], int]) -> bytes:
    """The text of a run with other numbers of frames."""
    lines = []
    for line in text.splitlines():
        words = line.split(b" ")
        at = AT.get(words[0])
        if at is not None:
            words[at] = b"%d" % number_of(int(words[at]))
        lines.append(b" ".join(words) + b"\n")
    return b"".join(lines)


def numbered(text: bytes, numbers: list[int]) -> bytes:
    """The text of a run on a list, with the numbers that its lines have in their recordings."""
    return renumbered(text, lambda line: numbers[line - 1])


class Command(NamedTuple):
    """A replay without the options and the list, and the systems of its configuration."""

    words: tuple[str, ...]
    systems: Systems


def of_one_switch(tables: dict) -> Systems:
    """The systems of a configuration of one switch."""
    return systems_of(of_one(tables, "")["switch"])


IN_BASE = Command(("replay", "base.toml"), of_one_switch(example_tables("base.toml")))
KNOWN: dict[tuple, Answer] = {}  # answers to lists of a few bytes, which many recordings give
FEW = 10_000
CUT_ROWS = ("remarks, --reorder 1", "remarks, no option", "by number", "stamps of starts")


class Case(NamedTuple):
    """A recording, the options of the run, and the words of `police`, or none for a replay."""

    data: bytes
    options: Options = Options()
    rule: str = ""
    command: Command = IN_BASE

    def told(self) -> Told:
        """What the reference says."""
        return told(self.options, self.command.systems, self.data)

    def at_once(self) -> Case:
        """The same where each line is written at once."""
        return self._replace(options=self.options._replace(at_once=True))

    def words(self) -> list[str]:
        """The command without the options and the list."""
        if not self.rule:
            return list(self.command.words)
        return ["police", f"--port={self.options.port}", *self.rule.split()]

    def run_words(self) -> list[str]:
        """The command with its options, without the recording."""
        return [*self.words(), *self.options.words()]

    def list_words(self) -> list[str]:
        """`list` in the place of the replay, with its options."""
        return ["list", *self.options.words(), self.command.words[-1]]

    def run_on(self, program: Program, given: bytes, *more: str) -> Answer:
        """The program's run on a list."""
        words = *self.words(), *more, "-"
        if len(given) > FEW or self.command != IN_BASE:
            return program.run(*words, given=given)
        key = program.path, words, given
        if key not in KNOWN:
            KNOWN[key] = program.run(*words, given=given)
        return KNOWN[key]

    def listed(self, program: Program, *more: str) -> Answer:
        """What the program must write of it: what it writes of the list that says the same, up to
        the fault, but for the numbers of frames. Where it ends well, standard error has what `more`
        words ask for."""
        return self.run_of(program, self.told(), *more)

    def run_of(self, program: Program, said: Told, *more: str) -> Answer:
        """What the program must write of a recording, or of two, of which this is said."""
        return by_its_list(said, self.run_on(program, list_of(said), *more))


def list_of(said: Told) -> bytes:
    """The list that says the same as recordings. Behind it stands a line that is none where they
    have a fault."""
    return said.text() + (BEYOND if said.fault else b"")


def by_its_list(said: Told, found: Answer) -> Answer:
    """The answer to recordings of which this is said, by that to their list."""
    out, err = numbered(found.out, said.numbers), found.err
    if not said.fault:
        must(found.status == 0, f"the list of it has a fault: {err!r}")
        return Answer(0, out, numbered(err, said.numbers))
    line = b"list BadLine %d\n" % (len(said.lines) + 1)
    must(found.status == 3 and err.endswith(line), f"the list of it: {err!r}")
    early = numbered(err.removesuffix(line), said.numbers)
    return Answer(said.status(), out, early + said.fault)


def case_of(row: Row) -> Case:
    """The recording of a row."""
    return Case(row.bytes(), row.options, row.rule)


def with_base(program: Program) -> Program:
    """The program, with base.toml in its folder."""
    program.write("base.toml", example("base.toml"))
    return program


def path_of(program: Program, data: bytes) -> str:
    """A file that holds these bytes, until this thread writes its next one."""
    return program.write(f"recording-{threading.get_ident()}", data)


def told_before(
    program: Program,
    words: list[str],
    options: Options,
    data: bytes,
    systems: Systems = IN_BASE.systems,
) -> bytes:
    """What a command with these options writes of the whole frames in these bytes, where the run
    asks for more."""
    options = options._replace(port=1) if words == POLICE else options
    said = told(options, systems, data, is_open=True)
    if words[0] == "list":
        return said.text()
    found = program.run(*words, "-", given=said.text() + BEYOND)
    answers(found, 3, None, b"list BadLine %d\n" % (len(said.lines) + 1))
    return numbered(found.out, said.numbers)


def cut_cases() -> dict[str, Case]:
    """Recordings of `replay` with several numbers and no fault, to be cut, by their names: as they
    stand, and where arrivals are held."""
    sound = {row.name: row for row in rows() if not row.fault and not row.rule}
    sound = {name: row for name, row in sound.items() if len(case_of(row).told().lines) > 1}
    as_read = {name: row.options._replace(reorder=0) for name, row in sound.items()}
    cases = {name: Case(row.bytes(), as_read[name]) for name, row in sound.items()}
    if ORDERS:
        cases |= {f"{name}, held": case_of(row) for name, row in sound.items()}
        cases |= {row.name: case_of(row) for row in orders() if row.name in CUT_ROWS}
    return cases


def random_order(chance: random.Random) -> tuple[int | None, str | None]:
    """The options --reorder and --stamps: none where the program doesn't know them."""
    reorder = chance.choice([None, None, None, 0, 1, 2, 3, 7, 9_999, 10_000, 100_000])
    stamps = chance.choice([None, None, "start", "start", "end"])
    return (reorder, stamps) if ORDERS else (None, None)


def random_options(chance: random.Random) -> Options:
    """Options that mostly leave arrivals."""
    places = {}
    for interface in range(6):
        if chance.random() < 0.2:
            places[interface] = chance.choice(["A", "B", "A:1", "B:2", "A:24", "-"])
    origin = FIRST_NS + chance.choice([-(10**15), -1, 0, 5 * 10**8, 10**9, 10**10])
    options = Options(
        places if chance.random() < 0.5 else {},
        chance.choice([None, None, None, True, False]),
        origin if chance.random() < 0.3 else None,
    )
    reorder, stamps = random_order(chance)
    return options._replace(reorder=reorder, stamps=stamps)


def random_case(chance: random.Random, data: bytes) -> Case:
    """A recording with random options, sometimes of `police`."""
    options = random_options(chance)
    if chance.random() < 0.3:
        police = options._replace(port=chance.randint(1, 3), stamps=None)
        return Case(data, police, "1 64 500")
    return Case(data, options)
