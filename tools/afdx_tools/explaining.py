"""What the program says of its own faults, where a person reads them."""
from __future__ import annotations

import contextlib
import re
import subprocess
import sys
from typing import Iterable, Sequence

from afdx_tools.faults import Refused, shown
from afdx_tools.program import EXPLAIN, program

LINE = re.compile(r"[a-z]+( [A-Za-z0-9-]+)*")  # what a line of the program may be
OF_CONFIG = ("config ", "device Config")


def is_asked() -> bool:
    """Whether faults are explained: where standard error is a terminal, unless the variable
    AFDX_EXPLAIN says `always` or `never`."""
    if EXPLAIN in ("always", "never"):
        return EXPLAIN == "always"
    return sys.stderr is not None and sys.stderr.isatty()


def said(words: Sequence[str], stream: str) -> str:
    """What a run of the program writes on one of its streams, as it can be printed."""
    run = subprocess.run(
        [program(), *words],
        stdin=subprocess.DEVNULL,
        stdout=subprocess.PIPE,
        stderr=subprocess.PIPE,
        encoding="utf-8",
        errors="replace",
        check=False,
    )
    return "\n".join(map(shown, getattr(run, stream).split("\n")))


def meaning(line: str, again: Sequence[str] = ()) -> str:
    """What a fault's line means; nothing of a line that isn't the program's. `again` are words of
    the program that end at once with a fault of the configuration: with --explain they say more of
    it than `afdx explain`."""
    if not LINE.fullmatch(line):
        return ""
    if again and line.startswith(OF_CONFIG):
        first, _, rest = said([again[0], "--explain=always", *again[1:]], "stderr").partition("\n")
        if first == line and rest:
            return rest
    return said(["explain", line], "stdout")


def explain(line: str, again: Sequence[str] = ()) -> None:
    """Says what a fault that was reported just now means, if that is asked for, as the program
    itself does."""
    if is_asked():
        with contextlib.suppress(OSError, Refused):
            print(meaning(line, again), end="", file=sys.stderr)


def explain_all(lines: Iterable[str], again: Sequence[str] = ()) -> None:
    """The same of several, each meaning once, after the first line that has it."""
    if not is_asked():
        return
    known = set()
    with contextlib.suppress(OSError, Refused):
        for line in dict.fromkeys(lines):
            text = meaning(line, again)
            if text and text not in known:
                known.add(text)
                print(f"\n{line}\n{text}", end="", file=sys.stderr)
