"""What `afdx solve` makes of a configuration, and what `afdx check` says of one."""
from __future__ import annotations

import re
import subprocess
from typing import Iterable, NamedTuple, Sequence

from afdx_tools.faults import Failed, Refused, shown
from afdx_tools.program import program, version
from afdx_tools.written import read_written

AS_WRITTEN = "jitter,buffer,latency,skew"  # the keys that `solve` finds; kept, all stay
NEED = re.compile(r"vl (\d+) at (?:([A-Za-z0-9]+) )?(\d+): (\d+) ns needed, (\d+) us asked")


class Need(NamedTuple):
    """A line of `solve` on standard error: at a port a link's frames can take more than is asked of
    them. Of several switches it names the port's."""

    vl: int
    port: int
    needed_ns: int
    asked_us: int
    switch: str = ""

    def line(self) -> str:
        """The line."""
        at = f"vl {self.vl} at {self.switch} {self.port}".replace("  ", " ")
        return f"{at}: {self.needed_ns} ns needed, {self.asked_us} us asked"


def need_of(line: str) -> Need | None:
    """A line of `solve` on standard error, if it is one."""
    match = NEED.fullmatch(line)
    if match is None:
        return None
    vl, switch, port, needed, asked = match.groups("")
    return Need(int(vl), int(port), int(needed), int(asked), switch)


class Worst(NamedTuple):
    """Where the most is needed: a port of the switch, and how many ns or bytes."""

    port: int
    amount: int


class Bounds(NamedTuple):
    """What `check` says of an admitted network: of each link the port where its frames can take
    longest, and the port where most bytes can wait."""

    latencies: dict[int, Worst]
    buffer: Worst


class Solved(NamedTuple):
    """What `solve` answered: a configuration and where more is needed than its file asked; or, in
    place of a configuration, the one line that says why there is none."""

    text: str
    needs: list[Need]
    line: str


class Said(NamedTuple):
    """How the program ended that was given a configuration: its status, and the lines of both
    streams, of which one has some."""

    status: int
    out: str
    errors: list[str]


def run(words: list[str], config: bytes) -> Said:
    """Runs the program on a configuration; Failed where it said nothing of it."""
    version()
    done = subprocess.run(
        [program(), *words, "/dev/stdin"], input=config, capture_output=True, check=False
    )
    out = done.stdout.decode(errors="replace")
    errors = done.stderr.decode(errors="replace").splitlines()
    if done.returncode < 0:
        raise Failed(f"signal {-done.returncode} ended the program", 128 - done.returncode)
    if done.returncode > 1 or not (out or errors):
        line = errors[0] if errors else f"{program()} {words[0]} said nothing"
        raise Failed(shown(line), done.returncode if done.returncode > 1 else 4)
    return Said(done.returncode, out, errors)


def solve(config: bytes, options: Sequence[str] = ("--raise-only",)) -> Solved:
    """Gives a configuration the least values with which it is admitted; with these options none of
    them is less than it has."""
    said = run(["solve", *options], config)
    if said.status == 1:
        return Solved("", [], shown([*said.out.splitlines(), *said.errors][0]))
    found = map(need_of, said.errors)
    return Solved(said.out, [need for need in found if need], "")


def worst_of(needs: Iterable[Need]) -> dict[int, Worst]:
    """Of each link the port where it needs the most time."""
    worst: dict[int, Worst] = {}
    for need in needs:
        if need.vl not in worst or need.needed_ns > worst[need.vl].amount:
            worst[need.vl] = Worst(need.port, need.needed_ns)
    return worst


def bounds(config: bytes) -> Bounds:
    """The bounds of a configuration that is admitted."""
    needs, fullest = [], Worst(0, 0)
    for line in run(["check", "--margins"], config).out.splitlines():
        match line.split():
            case ["m", port, vl, bound, latency]:
                needs.append(Need(int(vl), int(port), int(bound), int(latency) // 1000))
            case ["P", port, _, _, needed] if int(needed) > fullest.amount:
                fullest = Worst(int(port), int(needed))
    return Bounds(worst_of(needs), fullest)


def overloads(line: str, config: bytes) -> list[str]:
    """All lines of admission that no values make true, with the one by which `solve` refuses a
    configuration. Here it has values: any, since these lines don't depend on them."""
    out = run(["check", "--all"], config).out.splitlines()
    lines = [each for each in out if each.startswith(("no A1 ", "no A5 "))]
    return lines if line in lines else [line, *lines]


def check(config: bytes) -> str:
    """The answer of admission: `ok`, `no ..` or `config ..`."""
    said = run(["check"], config)
    return shown([*said.out.splitlines(), *said.errors][-1])


def read_admitted(path: str) -> dict:
    """The tables of a configuration that is admitted, as the program writes them; Refused if it
    isn't."""
    with open(path, "rb") as file:
        written = solve(file.read(), ("--keep", AS_WRITTEN))
    if written.line:
        raise Refused(f"{shown(path)}: {written.line}")
    try:
        return read_written(written.text)
    except ValueError as error:
        raise Failed("solve wrote no configuration", 4) from error
