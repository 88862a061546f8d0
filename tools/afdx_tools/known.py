"""What the program knows: words and lines of which `afdx explain --list` says what they mean."""
from __future__ import annotations

import functools
import re
import subprocess
from typing import NamedTuple, Sequence

from afdx_tools.columns import COLUMNS
from afdx_tools.faults import Failed
from afdx_tools.program import program

# how the meaning of a line of `conform` about a frame begins
KIND = re.compile(
    r"^(?P<word>[a-z]+) (?P<n>[nm]) side port(?: (?P<more>WORD|NS))?: "
    r"(?P<from>from the arrival of )?frame (?P=n) of (?P<list>CAME|LEFT)\b", re.M,
)  # fmt: skip
# and that of a line about a frame that a system sent
SENT = re.compile(
    r"^(?P<word>[a-z]+) n side port(?: (?P<more>WORD|NS|Q))?: "
    r"the system at that port sent frame n\b",
    re.M,
)  # fmt: skip


class Kind(NamedTuple):
    """What a word of `conform` says of a frame: of one that left or else came, with ns or not; and
    whether that is a finding, or that nothing is said of it."""

    is_left: bool
    is_timed: bool
    is_finding: bool


@functools.cache
def listed() -> str:
    """What the program prints; Failed where it can't be called."""
    afdx = program()
    try:
        run = subprocess.run(
            [afdx, "explain", "--list"],
            stdin=subprocess.DEVNULL, capture_output=True, check=False,
        )  # fmt: skip
    except OSError as error:
        raise Failed(f"{afdx} can't be run: {error.strerror}", 4) from error
    return run.stdout.decode(errors="replace")


@functools.cache
def drops() -> tuple[str, ...]:
    """Why a switch drops a frame, in the program's order."""
    lines = (line for line in listed().splitlines() if line.startswith("drop "))
    return tuple(line.removeprefix("drop ") for line in lines)


@functools.cache
def kinds() -> dict[str, Kind]:
    """The words of lines of `conform` about frames, in the order of a report's columns, and behind
    them those without a column; Failed where the program lists none."""
    found = {
        each["word"]: Kind(each["list"] == "LEFT", each["more"] == "NS", not each["from"])
        for each in KIND.finditer(listed())
    }
    if not found:
        raise Failed(f"{program()} lists no lines of conform (explain --list)", 4)
    columns = COLUMNS["streams"].split()
    return {word: found[word] for word in sorted(found, key=lambda each: place_in(columns, each))}


@functools.cache
def of_senders() -> dict[str, str]:
    """The words of lines of `conform` about frames that systems sent, and what stands behind the
    place: WORD, NS, Q or nothing."""
    return {each["word"]: each["more"] or "" for each in SENT.finditer(listed())}


def counts_of(words: Sequence[str]) -> dict[str, int]:
    """Words that have their counts behind them, as in a line `skipped WORD N WORD N ..`."""
    return dict(zip(words[::2], map(int, words[1::2])))


def place_in(columns: list[str], word: str) -> int:
    """The place of a word's column; of one without a column the last."""
    return columns.index(word) if word in columns else len(columns)


def findings() -> tuple[str, ...]:
    """The words that are findings."""
    return tuple(word for word, kind in kinds().items() if kind.is_finding)
