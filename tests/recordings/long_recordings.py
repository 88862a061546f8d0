"""Recordings longer than any list, streamed through a pipe: the run takes the memory that a short
one takes. Two at once, through two pipes, take that of reading twice. So do arrivals that are held
and put in order; of a frame no more is held than a switch takes."""
from __future__ import annotations

import os
import subprocess
import threading
from collections.abc import Iterable, Iterator
from typing import NamedTuple

from frames import HELLO, sealed
from program import LONGEST, Answer, Cases, Program, answers, least_room, must
from reads import ORDERS, READS
from wanted import POLICE

SHORT = 20_000  # frames: more than are held
SECOND_ROOM = 1024  # KiB that a second recording may take where none is held
A_SECOND = 1_000  # frames
STEP_NS = 10**9 // A_SECOND
AS_READ = ["--reorder=0"] if ORDERS else []
LARGE, MANY_LARGE = 60_000, 3_000  # bytes of a large frame, and how many of them are held
KEPT = 4_096  # bytes that one of them may take

# pcap, low byte first, in ns, frames that end with 4 bytes of check sequence
HEAD = bytes.fromhex("4d3cb2a1 02000400 00000000 00000000 00000400 01000024")


class Long(NamedTuple):
    """A command, how many recordings it reads, how many frames each has and of how many bytes, and
    whether they stand out of order."""

    words: list[str]
    frames: int
    inputs: int = 1
    size: int = 64
    is_mixed: bool = False

    def short(self) -> Long:
        """The same with a few frames."""
        return self._replace(frames=SHORT)


def long_runs() -> list[Long]:
    """Each command. `replay` takes several times as long for a frame."""
    replay, listed = ["replay", "--no-admission", "base.toml"], ["list", "base.toml"]
    runs = [Long(POLICE, 10_000_000), Long([*replay, *AS_READ], 1_100_000)]
    runs += [Long([*listed, *AS_READ], 1_100_000)] if "list" in READS else []
    runs += [Long(each, 1_000_000, 2) for each in (replay, listed) if "two" in READS]
    of_order = [POLICE, replay, listed] if ORDERS else []
    return runs + [Long(each, 1_100_000, is_mixed=True) for each in of_order]


def low(number: int) -> bytes:
    """A number of 32 bits, low byte first."""
    return number.to_bytes(4, "little")


def recording(run: Long) -> Iterator[bytes]:
    """A recording of so many frames of link 1, 1 ms apart, a second at a time; where they stand out
    of order the second half of each second comes first."""
    frame = sealed(HELLO + bytes(run.size - 64))
    half = A_SECOND // 2 if run.is_mixed else 0
    places = [(place + half) % A_SECOND for place in range(A_SECOND)]
    heads = (low(0) + low(place * STEP_NS) + 2 * low(len(frame)) for place in places)
    second, size = bytearray(b"".join(head + frame for head in heads)), 16 + len(frame)
    yield HEAD
    for number in range(run.frames // A_SECOND):
        for place, byte in enumerate(low(number)):
            second[place::size] = bytes([byte]) * A_SECOND
        yield bytes(second)


def write_to(pipe: int, pieces: Iterable[bytes]) -> None:
    """Writes a recording, as far as it is read."""
    try:
        with open(pipe, "wb") as file:  # (unbuffered it may write a part alone)
            for piece in pieces:
                file.write(piece)
                file.flush()
    except BrokenPipeError:
        pass


def piped(
    program: Program, words: list[str], room: int, recordings: list[Iterator[bytes]], out: int
) -> Answer:
    """A run on standard input, and another pipe, in an address space of so many KiB; what it writes
    goes to `out`."""
    pipes = [os.pipe() for _ in recordings]
    names = ["-", *(f"/dev/fd/{end}" for end, _ in pipes[1:])]
    limit = ["sh", "-c", 'ulimit -v "$0" && exec "$@"', str(room), program.path]
    with subprocess.Popen(
        [*limit, *words, *names],
        cwd=program.folder,
        stdin=pipes[0][0],
        pass_fds=[end for end, _ in pipes[1:]],
        stdout=out,
        stderr=subprocess.PIPE,
    ) as process:
        for end, _ in pipes:
            os.close(end)
        writers = [threading.Thread(target=write_to, args=(pipe, pieces))
                   for (_, pipe), pieces in zip(pipes, recordings)]
        for writer in writers:
            writer.start()
        text, err = process.communicate(timeout=LONGEST)
        for writer in writers:
            writer.join()
    return Answer(process.returncode, text or b"", err)


def streamed(program: Program, run: Long, room: int, *options: str) -> Answer:
    """A run whose recordings are streamed. What it writes is left out."""
    recordings = [recording(run) for _ in range(run.inputs)]
    return piped(program, [*run.words, *options], room, recordings, subprocess.DEVNULL)


def short_room(program: Program, run: Long) -> int:
    """The least address space, in KiB, in which short recordings are read."""
    return least_room(lambda room: streamed(program, run.short(), room).status == 0)


def long_memory(program: Program, run: Long) -> None:
    """As many frames as no list has lines take no more memory than a few, up to 64 KiB."""
    room = short_room(program, run)
    found = streamed(program, run, room + 64, "--summary")
    every = run.inputs * run.frames
    skips = "no-frame 0 left-out 0 not-afdx 0 unknown-sender 0 no-network 0 before-origin 0"
    # (all frames name network A, those of B's recording too)
    others = every - run.frames
    told = f"recorder-lost 0 claimed {every} contradicted {others} unused 0"
    counts = f"skipped {skips} {told}\n".encode()
    if run.words[0] != "list":
        line, _, counts_told = found.err.partition(b"\n")
        begin = f"summary lines {every} accepted {every} dropped 0 ".encode()
        must(line.startswith(begin), f"the counts are {found.err!r}")
        found = found._replace(err=counts_told)
    answers(found, 0, None, counts)


def second_memory(program: Program, words: list[str]) -> None:
    """A second recording takes no more memory than reading takes."""
    runs = [Long([*words, *AS_READ], SHORT, inputs) for inputs in (1, 2)]
    one, two = (short_room(program, run) for run in runs)
    must(two - one <= SECOND_ROOM, f"{one} KiB for one recording, {two} for two")


def large_memory(program: Program, words: list[str]) -> None:
    """Of a large frame that is held no more is kept than every switch drops."""
    room = short_room(program, Long([*words, *AS_READ], SHORT))
    more = (2 * LARGE + MANY_LARGE * KEPT) // 1024
    found = streamed(program, Long(words, MANY_LARGE, size=LARGE, is_mixed=True), room + more)
    answers(found, 0, None, b"")


def name_of(run: Long) -> str:
    """How a case is named."""
    of_how_many = f"{'2 * ' * (run.inputs - 1)}{run.frames:,}"
    return f"{of_how_many} frames{' out of order' * run.is_mixed}: {' '.join(run.words)}"


def try_long(cases: Cases, program: Program) -> None:
    """All cases, one by one."""
    for run in long_runs():
        cases.try_case(f"memory of {name_of(run)}", long_memory, program, run)
        if run.inputs == 2:
            name = f"memory of a second recording: {run.words[0]}"
            cases.try_case(name, second_memory, program, run.words)
    for words in (POLICE, ["list", "base.toml"]) if ORDERS else ():
        name = f"memory of {MANY_LARGE:,} large frames that are held: {words[0]}"
        cases.try_case(name, large_memory, program, words)
