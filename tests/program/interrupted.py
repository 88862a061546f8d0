#!/usr/bin/env python3
"""Checks what is left of `conform` when Ctrl-C comes while a switch is being recorded.

    tests/program/interrupted.py PROGRAM INPUT [--blocks]

INPUT is `pipe` or `fifo`: one recording by standard input, or by a FIFO; or `lists`: CAME by a FIFO
and LEFT by standard input. What it reads grows meanwhile, and each frame leaves late. When so much
was read that findings were made SIGINT comes. Then each of them stands on standard output, a pipe;
no last line does, and the signal has ended the run. With --blocks the program isn't told to write
each line at once, and nothing stands there. Prints what isn't so, and ends with status 1 then.
"""
from __future__ import annotations

import os
import pathlib
import signal
import subprocess
import sys
import tempfile
import time
from contextlib import ExitStack
from typing import Iterator

sys.dont_write_bytecode = True
TOP = pathlib.Path(__file__).resolve().parent.parent.parent
sys.path.insert(0, str(TOP / "tests" / "lib"))
from program import LOOK, PATIENCE, Wrong, must, rests  # noqa: E402
from recording_rows import H1, IL9, LENGTHS, SL, ZERO  # noqa: E402
from until_read import is_read  # noqa: E402

RULES = str(TOP / "examples" / "base.toml")
PLACES = ["--reorder", "0", "--interface", "0=A:1", "--left", "1=A:3"]
APART = 2_000_000  # ns from one frame to the next
LATE = 17_001  # ns, 1 more than the link's latency
COUNT = 20  # frames
Step = tuple[bytes, bytes]  # what is added to what came, and to what left


def packet(interface: int, moment: int, frame: str) -> bytes:
    """A frame as a block of a recording."""
    which, low = (number.to_bytes(4, "little").hex() for number in (interface, moment))
    return bytes.fromhex(f"06000000 5c000000 {which} {ZERO} {low} {LENGTHS} {frame} 5c000000")


def line(interface: int, moment: int, frame: str) -> bytes:
    """A frame as a line of a list."""
    return f"F {moment} A {(1, 3)[interface]} {frame}\n".encode()


def steps(is_recorded: bool) -> Iterator[Step]:
    """What comes and leaves, frame by frame."""
    if is_recorded:
        yield bytes.fromhex(SL + IL9 + IL9), b""
    for number in range(COUNT):
        frame, moment = f"{H1[:-2]}{number:02x}", number * APART
        form = packet if is_recorded else line
        yield form(0, moment, frame), form(1, moment + LATE, frame)


def is_taken(pipes: list[int], run: subprocess.Popen) -> None:
    """Waits until all that was written is read, and the run waits for more."""
    end = time.monotonic() + PATIENCE
    while not all(map(is_read, pipes)):
        must(run.poll() is None, f"it ended with status {run.returncode}")
        must(time.monotonic() < end, f"it reads nothing for {PATIENCE} s")
        time.sleep(LOOK)
    rests(run)


def interrupted(words: list[str], fifo: str, given: str) -> bytes:
    """Runs the program over what grows, and ends it by SIGINT; what it wrote."""
    with ExitStack() as files:
        run = files.enter_context(
            subprocess.Popen(
                ["env", "--default-signal=INT", *words],
                stdin=subprocess.PIPE,
                stdout=subprocess.PIPE,
                stderr=subprocess.PIPE,
                bufsize=0,
            )
        )
        files.callback(run.kill)
        assert run.stdin and run.stdout and run.stderr
        by_fifo = os.open(fifo, os.O_RDWR)  # so it waits for no reader
        files.callback(os.close, by_fifo)
        by_stdin = run.stdin.fileno()
        came, left = {"pipe": (by_stdin, by_stdin), "fifo": (by_fifo, by_fifo)}.get(
            given, (by_fifo, by_stdin)
        )
        for of_came, of_left in steps(given != "lists"):
            os.write(came, of_came)
            os.write(left, of_left)
            is_taken([came, left], run)
        run.send_signal(signal.SIGINT)
        status, told = run.wait(PATIENCE), run.stdout.read()
        must(status == -signal.SIGINT, f"it ends with status {status}")
        must(run.stderr.read() == b"", "it says something on standard error")
    return told


def look(program: str, given: str, in_blocks: bool, folder: str) -> None:
    """Tries it, and raises what isn't as wanted."""
    fifo = os.path.join(folder, "fifo")
    os.mkfifo(fifo)
    places = [] if given == "lists" else PLACES
    words = [program, "conform", *places, *["--line-buffered"] * (not in_blocks), RULES]
    told = interrupted(
        [*words, *{"pipe": ["-"], "fifo": [fifo]}.get(given, [fifo, "-"])], fifo, given
    )
    if in_blocks:
        must(told == b"", f"it wrote {told!r}")
        return
    step = 1 if given == "lists" else 2  # a recording counts what left, too
    findings = "".join(f"late {1 + step * number} A 3 1\n" for number in range(COUNT)).encode()
    must(findings.startswith(told), f"it wrote {told!r}")
    made = told.count(b"\n")
    must(made >= COUNT - 1, f"of {COUNT - 1} findings only these: {told!r}")


def main() -> int:
    program, given, *more = sys.argv[1:] if 3 <= len(sys.argv) <= 4 else ["", ""]
    if given not in ("pipe", "fifo", "lists") or more not in ([], ["--blocks"]):
        print(str(__doc__).strip(), file=sys.stderr)
        return 2
    with tempfile.TemporaryDirectory(prefix="afdx-tests-") as folder:
        try:
            look(os.path.abspath(program), given, bool(more), folder)
        except Wrong as wrong:
            print(wrong)
            return 1
    return 0


if __name__ == "__main__":
    sys.exit(main())
