"""Measures one run of a program: its time, its memory and its instructions.

For the scripts beside it.
"""
import filecmp
import os
import re
import shutil
import subprocess
import sys
from typing import NamedTuple, Optional

HERE = os.path.dirname(os.path.abspath(__file__))
PROGRAM = os.path.join(HERE, "..", "crates", "afdx", "out", "afdx")
STARTER = "/usr/bin/time"
CACHE = ["--cache-sim=yes", "--LL=1048576,16,64"]  # of callgrind


class Run(NamedTuple):
    """What a run took: user and system seconds together, user seconds alone, peak memory in KiB."""

    seconds: float
    user: float
    memory: int


def timed(words, given, taken, note, statuses=(0,), told=None):
    """Runs it once."""
    # Linux counts the memory of the process that starts a program to that program's peak, so a
    # small starter is put between. Without it the figure is at least what Python itself takes.
    has_starter = os.access(STARTER, os.X_OK)
    started = [STARTER, "-f", "%M", "-o", note, *words] if has_starter else words
    child = subprocess.Popen(started, stdin=given, stdout=taken, stderr=told)
    _, status, usage = os.wait4(child.pid, 0)
    child.returncode = os.waitstatus_to_exitcode(status)
    if child.returncode not in statuses:
        sys.exit(f"{' '.join(words)} ended with status {child.returncode}")
    memory = usage.ru_maxrss
    if has_starter:
        with open(note, encoding="ascii") as text:
            memory = int(text.read().split()[-1])
    return Run(usage.ru_utime + usage.ru_stime, usage.ru_utime, memory)


def print_the_same(words, others, folder):
    """Does another program take its words? If it does, both must print the same, but that the last
    line of one may have more words."""
    ours, theirs = (os.path.join(folder, name) for name in ("ours", "theirs"))
    with open(theirs, "wb") as out:
        status = subprocess.run(others, stdout=out, stderr=subprocess.DEVNULL).returncode
    if not status:
        with open(ours, "wb") as out:
            subprocess.run(words, stdout=out, check=True)
        if not filecmp.cmp(ours, theirs, shallow=False) and not is_longer(ours, theirs):
            sys.exit(f"{' '.join(words)}: the two programs don't print the same")
        os.unlink(ours)
    os.unlink(theirs)
    return not status


def is_longer(*paths):
    """The text of one of two files is that of the other, with more words in its last line."""
    texts = []
    for path in paths:
        with open(path, "rb") as file:
            texts.append(file.read().removesuffix(b"\n"))
    short, long = sorted(texts, key=len)
    return long.startswith(short + b" ") and b"\n" not in long[len(short) :]


class Counts(NamedTuple):
    """What callgrind counted: instructions, and reads and writes that missed a cache of 1 MiB."""

    instructions: float
    reads: Optional[float] = None
    writes: Optional[float] = None

    def line(self, fewer, lines):
        """The counts of a line, where a run of so many lines less takes those."""

        def each(most, least):
            return None if most is None else (most - least) / lines

        return Counts(*(each(*both) for both in zip(self, fewer)))


def counted(words, folder, misses=False):
    """The counts of one run; those of misses where they are asked for, which takes longer. None
    where valgrind isn't installed."""
    if shutil.which("valgrind") is None:
        return None
    out = os.path.join(folder, "callgrind.out")
    done = subprocess.run(
        ["valgrind", "--tool=callgrind", f"--callgrind-out-file={out}"]
        + (CACHE if misses else [])
        + words,
        stdin=subprocess.DEVNULL,
        stdout=subprocess.DEVNULL,
        stderr=subprocess.PIPE,
        check=False,
    )
    told = done.stderr.decode("ascii", "replace")
    names, numbers = (re.search(rf"{word} +: (.+)", told) for word in ("Events", "Collected"))
    if names is None or numbers is None:
        return None
    found = dict(zip(names[1].split(), map(int, numbers[1].split())))
    return Counts(found["Ir"], found.get("DLmr"), found.get("DLmw"))
