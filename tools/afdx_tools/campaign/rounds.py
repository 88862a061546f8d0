"""The rounds of a campaign: each is a call of GNU parallel, for runs that have no result yet. A run
that ends without one goes to a machine where it hasn't failed, as long as there is one."""
from __future__ import annotations

import contextlib
import os
import subprocess
import tempfile
from collections import defaultdict
from typing import Callable, Iterable, NamedTuple, Sequence

from afdx_tools.campaign.machines import Machines
from afdx_tools.outputs import whole
from afdx_tools.program import end

PAUSE = 0.2  # seconds between two looks at the job log
HEAD = b"Seq\tHost\tStarttime\tJobRuntime\tSend\tReceive\tExitval\tSignal\tCommand\n"
MARK = b"run="  # what the command of a run begins with, before its number and a semicolon


class Attempt(NamedTuple):
    """A row of the job log: a run by its number, where it went, and its status; 128 and more where
    a signal ended it."""

    number: int
    machine: str
    status: int


def attempt_of(line: bytes) -> Attempt | None:
    """What a line of the job log says, if it is about a run, and wasn't cut."""
    fields = line.split(b"\t", 8)
    if len(fields) < 9 or not fields[8].startswith(MARK):
        return None
    try:
        number = int(fields[8][len(MARK) :].partition(b";")[0])
        status, signal = int(fields[6]), int(fields[7])
    except ValueError:
        return None
    return Attempt(number, os.fsdecode(fields[1]), 128 + signal if signal else status)


class JobLog:
    """GNU parallel's job log, which all rounds write on, read as it grows. It is a new file, also
    where it goes on from an earlier one: so what is appended to it goes nowhere else."""

    def __init__(self, path: str, goes_on: bool) -> None:
        self._path = path
        self._place = 0
        is_there = goes_on and os.path.isfile(path) and not os.path.islink(path)
        earlier = self.content() if is_there else HEAD
        with whole(path) as file:
            file.write(earlier)

    def content(self) -> bytes:
        """What it says from the place on up to which it was read."""
        with open(self._path, "rb") as file:
            file.seek(self._place)
            return file.read()

    def new(self) -> list[Attempt]:
        """What has come since the last look; only whole lines count."""
        lines, _, _ = self.content().rpartition(b"\n")
        self._place += len(lines) + 1 if lines else 0
        found = map(attempt_of, lines.split(b"\n"))
        return [attempt for attempt in found if attempt is not None]


class Round(NamedTuple):
    """Runs by their numbers, and the machines to which they may go."""

    numbers: list[int]
    machines: list[str]


def next_round(waiting: Iterable[int], tried: dict[int, list[str]], machines: Machines) -> Round:
    """The greatest group of runs that may go to the same machines; without runs where there is
    nowhere to go. No run is tried more often than there are machines."""
    groups: dict[tuple[str, ...], list[int]] = defaultdict(list)
    for number in waiting:
        if len(tried[number]) < len(machines.logins):
            left = (name for name in machines.taking_part() if name not in tried[number])
            groups[tuple(left)].append(number)
    groups.pop((), None)
    names = max(groups, key=lambda key: len(groups[key]), default=())
    return Round(groups[names] if names else [], list(names))


def play(
    words: Sequence[str], records: Iterable[bytes], folder: str, look: Callable[[], bool]
) -> None:
    """Runs GNU parallel over the records, and looks at its job log meanwhile. It is stopped where
    `look` says that there is nowhere to go any more."""
    with tempfile.TemporaryFile() as given:
        given.writelines(records)
        given.seek(0)
        with subprocess.Popen(words, stdin=given, stdout=subprocess.DEVNULL, cwd=folder) as run:
            try:
                has_ended = False
                while not has_ended:
                    with contextlib.suppress(subprocess.TimeoutExpired):
                        run.wait(PAUSE)
                    has_ended = run.returncode is not None
                    if not look():
                        run.terminate()
            finally:
                end(run)
