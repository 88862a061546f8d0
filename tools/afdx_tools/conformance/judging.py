"""What `afdx conform` says: its lines, one at a time, and its last line."""
from __future__ import annotations

import re
import subprocess
from dataclasses import dataclass, field
from typing import Iterable, NamedTuple, Protocol, Sequence

from afdx_tools.faults import Failed, shown
from afdx_tools.known import counts_of, kinds, of_senders
from afdx_tools.program import program
from afdx_tools.recordings.options import SENDERS

SKIPPED = "skipped "  # how the line of what was skipped begins
APART = "apart "  # and that of what the tables leave for a link's copies
CONFORMS, DEVIATES, UNDECIDED = "conforms", "deviates", "undecided"
STATUSES = {CONFORMS: 0, DEVIATES: 5, UNDECIDED: 3}
FINDING = re.compile(r"(?P<word>[a-z]+) (?P<n>[0-9]+) (?P<side>[AB]) (?P<port>[0-9]+)"
                     r"(?: (?P<more>[a-z0-9-]+))?")  # fmt: skip


class Line(Protocol):
    """A line about a frame of what came, or of what left: its word, and its line there."""

    @property
    def word(self) -> str:
        """The word with which it begins."""

    @property
    def number(self) -> int:
        """The line of CAME, or of LEFT."""

    @property
    def is_left(self) -> bool:
        """It names a frame that left."""


class Deviation(NamedTuple):
    """A line of `conform` but the last: a finding, or `unsure`. `number` is a line of CAME, or of
    LEFT for what names a frame that left; `why` is its word, and `by` its ns."""

    word: str
    number: int
    side: str
    port: int
    why: str = ""
    by: int | None = None

    @property
    def is_left(self) -> bool:
        """It names a frame that left."""
        return kinds()[self.word].is_left


class Amiss(NamedTuple):
    """A line of `conform --senders` about a frame of CAME that a system sent: `why` is its word,
    `by` its ns, and `wanted` the sequence number that the frame should have had."""

    word: str
    number: int
    side: str
    port: int
    why: str = ""
    by: int | None = None
    wanted: int | None = None

    @property
    def is_left(self) -> bool:
        """It names a frame that came."""
        return False


class Said(NamedTuple):
    """What a run wrote, line by line; the line of its fault, and its status."""

    lines: list[str]
    fault: str
    status: int


@dataclass
class Judged:
    """What `conform` wrote: its lines about what left a switch, and those about what systems sent;
    its last one as verdict and counts, which are missing where a fault ended it; of each recording
    the counts of what was skipped; that fault, and the status."""

    deviations: list[Deviation] = field(default_factory=list)
    amiss: list[Amiss] = field(default_factory=list)
    verdict: str = ""
    counts: dict[str, int] = field(default_factory=dict)
    skipped: list[dict[str, int]] = field(default_factory=list)
    fault: str = ""
    status: int = 0

    @property
    def found(self) -> Sequence[Line]:
        """All lines about frames, those of the switch first."""
        return [*self.deviations, *self.amiss]

    def of_switch(self, is_exercised: bool = False) -> str:
        """What the run would answer of the switch alone, by its lines and its last one; nothing
        after a fault. With `--exercised` no stream may be idle."""
        found = sum(kinds()[each.word].is_finding for each in self.deviations)
        if not self.verdict or found:
            return f"{DEVIATES} {found}" if self.verdict else ""
        is_idle = is_exercised and self.counts["idle"] > 0
        is_shown = self.counts["explained"] and not self.deviations  # these are `unsure`
        return CONFORMS if is_shown and not is_idle else UNDECIDED

    def of_senders(self) -> str:
        """The same of what systems sent."""
        if not self.verdict or self.amiss:
            return f"{DEVIATES} {len(self.amiss)}" if self.verdict else ""
        return CONFORMS if self.counts["sent"] else UNDECIDED


def status_of(verdict: str) -> int:
    """The status with which a run ends that has this verdict."""
    return STATUSES[verdict.partition(" ")[0]]


def deviation_of(line: str) -> Deviation | None:
    """A line as a finding, or `unsure`; None where it is another."""
    found = FINDING.fullmatch(line)
    kind = kinds().get(found["word"]) if found else None
    if found is None or kind is None:
        return None
    more = found["more"] or ""
    by = int(more) if kind.is_timed else None
    why = "" if kind.is_timed else more
    number, port = int(found["n"]), int(found["port"])
    return Deviation(found["word"], number, found["side"], port, why, by)


def amiss_of(line: str) -> Amiss | None:
    """A line as a finding of a sender; None where it is another."""
    found = FINDING.fullmatch(line)
    if found is None or found["word"] not in of_senders():
        return None
    kind, more = of_senders()[found["word"]], found["more"] or ""
    number, port = int(found["n"]), int(found["port"])
    return Amiss(
        found["word"], number, found["side"], port,
        why=more if kind == "WORD" else "",
        by=int(more) if kind == "NS" else None,
        wanted=int(more) if kind == "Q" else None,
    )  # fmt: skip


def last_of(line: str) -> tuple[str, dict[str, int]]:
    """A last line as its verdict and its counts."""
    verdict, _, counts = line.partition(" explained ")
    return shown(verdict), counts_of(["explained", *counts.split()])


def judged_of(lines: Iterable[str]) -> Judged:
    """Reads what `conform` wrote."""
    judged = Judged()
    for line in lines:
        deviation, amiss = deviation_of(line), amiss_of(line)
        if deviation:
            judged.deviations.append(deviation)
        elif amiss:
            judged.amiss.append(amiss)
        elif line.startswith(SKIPPED):
            judged.skipped.append(counts_of(line.split()[1:]))
        else:
            judged.verdict, judged.counts = last_of(line)
    return judged


def help_of() -> str:
    """What the program says of its command; nothing where it hasn't that one."""
    run = subprocess.run([program(), "conform", "--help"], capture_output=True, check=False,
                         stdin=subprocess.DEVNULL)  # fmt: skip
    return "" if run.returncode else run.stdout.decode(errors="replace")


def said_by(words: Sequence[str]) -> Said:
    """What the program says with these words; Failed where that can't be a verdict."""
    run = subprocess.run(
        [program(), "conform", *words],
        stdin=subprocess.DEVNULL,
        capture_output=True,
        encoding="utf-8",
        errors="replace",
        check=False,
    )
    fault = shown(run.stderr.strip())
    status = run.returncode if run.returncode >= 0 else 128 - run.returncode
    if status in (1, 2, 4):
        raise Failed(fault or f"the program ended with status {status}", status)
    return Said(run.stdout.splitlines(), fault, status)


def judge(words: Sequence[str]) -> Judged:
    """What the program says with these words of a switch, of the systems that send to it, or of
    both; Failed where that isn't even a verdict."""
    known = help_of()
    if not known:
        raise Failed("this program has no conform", 2)
    if SENDERS in words and SENDERS not in known:
        raise Failed("this program's conform judges no senders", 2)
    said = said_by(words)
    judged = judged_of(said.lines)
    judged.fault, judged.status = fault_of(said, judged.verdict), said.status
    return judged


def fault_of(said: Said, verdict: str) -> str:
    """What ended a run; nothing where it has a verdict."""
    return said.fault or ("" if verdict else f"the program ended with status {said.status}")


def least_apart(config: str) -> int | None:
    """By how many ns later one copy of a frame may be sent than the other, of all links the least
    that the tables leave; None where the program doesn't say it."""
    run = subprocess.run([program(), "check", "--margins", config], capture_output=True,
                         check=False, stdin=subprocess.DEVNULL, encoding="utf-8",
                         errors="replace")  # fmt: skip
    found = [line.split() for line in run.stdout.splitlines() if line.startswith(APART)]
    return min((int(words[-1]) for words in found if words[-1] != "-"), default=None)
