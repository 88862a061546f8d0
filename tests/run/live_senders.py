#!/usr/bin/env python3
"""Records systems that send on a bench of this machine, and judges them by what was recorded.

    tests/run/live_senders.py [--sender NAME].. [--seconds N] [--keep FOLDER] [PROGRAM]

Two systems send on both networks, over cables of a network of their own
(tests/conform/live_sending.py), and `dumpcap` records what comes in. The right one conforms; of
each wrong one is found exactly what it was amiss with. One that sends as often as it may, with
priority in real time or without, shows what the stamps on the wire show, and nothing but times.
What is found is computed of the recording as a list, by tests/lib/senders.py. PROGRAM must answer
the same, of the list and of the recording. NAME is right, real-time, host, bursts, repeats,
masquerades, halves, changes or lags: all at once where none is given, for N seconds (4). FOLDER
keeps the configuration, and of each sender its recording and its list.

Prints `ok NAME`, `FAILED NAME` or `skipped NAME: why` for each case, then `N passed, M failed`;
ends with status 1 if a case failed. Needs Python 3.11, ip, unshare and dumpcap, and that it may
make a network: as root, or where users may have one.
"""
from __future__ import annotations

import argparse
import json
import os
import sys
import tempfile
from concurrent.futures import ThreadPoolExecutor
from typing import NamedTuple

sys.dont_write_bytecode = True
TESTS = os.path.join(os.path.dirname(os.path.abspath(__file__)), "..")
sys.path[:0] = [os.path.join(TESTS, name) for name in ("lib", "conform")]
from live import TRIES, run_bench, why_not  # noqa: E402
from live_senders import ENDS, FROM, SENDERS, TABLES, UNHEARD  # noqa: E402
from live_senders import begin_of, traffic, wanted_of  # noqa: E402
from one_switch import MS  # noqa: E402
from program import Answer, Cases, Program, Wrong, must, same_text  # noqa: E402
from recorded import recorded  # noqa: E402
from senders import conform_senders  # noqa: E402
from tables import text_of  # noqa: E402

BENCH = os.path.join(TESTS, "conform", "live_sending.py")
OPTIONS = ("--senders", "--from", str(FROM))
SLOW = 15 * MS  # a frame that goes out so much later than it should says nothing
TIMED = ("soon", "apart")  # what has ns behind it
OF_TIMES = {*TIMED, "single"}  # what a machine that is late may show


class Heard(NamedTuple):
    """A frame as it was recorded: its number, its time from the first frame on, its end, its bytes
    without the check sequence."""

    number: int
    time: int
    end: str
    content: bytes

    def line(self) -> str:
        """As a line of a list."""
        return f"F {self.time} {self.end[0]} {self.end[1:]} {self.content.hex()}\n"


class Run(NamedTuple):
    """A sender, recorded: the recording, its frames by time, when the first one was to go out, by
    how much one went out later than it was meant to, at most, and how many frames the recorder
    lost."""

    recording: bytes
    frames: list[Heard]
    begin: int
    longest: int
    lost: int

    def why_not(self, is_exact: bool) -> str:
        """Why it says nothing of the sender; empty where it does."""
        if is_exact and self.longest > SLOW:
            return f"this machine let a frame wait for {self.longest // MS} ms"
        if self.begin > UNHEARD:
            return f"the recorder missed the first {self.begin // MS} ms"
        return f"the recorder lost {self.lost} frames here" if self.lost else ""

    def listed(self) -> bytes:
        """What came, as a list."""
        return "".join(frame.line() for frame in self.frames).encode()


def heard_in(recording: bytes) -> list[Heard]:
    """The frames of a recording, by time."""
    found = [(frame.stamp or 0, number, frame)
             for number, frame in enumerate(recorded(recording).numbers, 1) if frame]
    first = min((stamp for stamp, _, _ in found), default=0)
    return sorted((Heard(number, stamp - first, ENDS[frame.interface], frame.bytes)
                   for stamp, number, frame in found), key=lambda each: (each.time, each.number))


def run_of(name: str, seconds: int, folder: str) -> Run:
    """A sender of this name, recorded."""
    run_bench(BENCH, name, seconds, folder)
    with open(os.path.join(folder, "run.pcapng"), "rb") as file:
        recording = file.read()
    with open(os.path.join(folder, "said.json"), encoding="ascii") as file:
        said = json.load(file)
    frames, puts = heard_in(recording), traffic(name, seconds * 10**9)
    must(bool(frames), "nothing was recorded")
    begin = begin_of(puts, frames[0].end, frames[0].content)
    return Run(recording, frames, begin, said["longest"], said["lost"])


def found_in(run: Run, answer: Answer) -> dict[tuple[str, bytes], list[str]]:
    """What was found of each frame, but for times."""
    found: dict[tuple[str, bytes], list[str]] = {}
    for line in answer.out.decode().splitlines()[:-1]:
        word, number, side, port, *more = line.split(" ")
        frame = run.frames[int(number) - 1]
        must(frame.end == side + port, f"{line} of {frame.end}")
        words = " ".join([word, *([] if word in TIMED else more)])
        found.setdefault((frame.end, frame.content), []).append(words)
    return {frame: sorted(words) for frame, words in found.items()}


def is_judged(name: str, run: Run, seconds: int, answer: Answer) -> None:
    """An answer says just what the sender was amiss with; of one that is as late as its machine,
    nothing but times."""
    must(not answer.err, answer.err.decode())
    found = found_in(run, answer)
    if not SENDERS[name].is_exact:
        others = {word for words in found.values() for word in words} - OF_TIMES
        must(not others, f"found {others}")
        return
    wanted = wanted_of(traffic(name, seconds * 10**9), run.begin)
    must(name == "right" or len(wanted) > 1, f"the sender was amiss {len(wanted)} times")
    for one, other, what in ((found, wanted, "found"), (wanted, found, "not found")):
        only = [(end, words) for (end, content), words in one.items()
                if other.get((end, content)) != words]
        must(not only, f"{what}: {only[:5]}")
    must(answer.status == (5 if wanted else 0), f"status {answer.status}")


def as_recorded(run: Run, answer: Answer) -> Answer:
    """An answer of the list, with the numbers of the recording in the place of its lines."""
    *lines, last = answer.out.decode().splitlines()
    told = []
    for line in lines:
        word, number, *others = line.split(" ")
        told.append(" ".join([word, str(run.frames[int(number) - 1].number), *others]))
    return answer._replace(out="".join(f"{line}\n" for line in (*told, last)).encode())


def same_answer(program: Program, name: str, content: bytes, words: list[str],
                wanted: Answer) -> None:  # fmt: skip
    """The program answers of a list or a recording what is computed."""
    apart = program.apart()
    path, config = apart.write(name, content), apart.write("bench.toml", text_of(TABLES))
    found = apart.run("conform", *OPTIONS, *words, config, path)
    same_text("standard output", wanted.out, found.out)
    must(found == wanted, f"status {found.status}, {found.err!r}")


def recording_words() -> list[str]:
    """The options of the recording: where its interfaces were."""
    words = ["--fcs", "no"]
    for place, end in enumerate(ENDS):
        words += ["--interface", f"{place}={end[0]}:{end[1:]}"]
    return words


def try_sender(
    cases: Cases, program: Program | None, name: str, seconds: int, kept: str
) -> None:
    """A sender, recorded and judged."""
    os.makedirs(kept, exist_ok=True)
    for _ in range(TRIES):
        try:
            run = run_of(name, seconds, kept)
        except Wrong as wrong:
            cases.try_case(f"{name}: the bench", must, False, str(wrong))
            return
        if not run.why_not(SENDERS[name].is_exact):
            break
    else:
        cases.skip(name, run.why_not(SENDERS[name].is_exact))
        return
    with open(os.path.join(kept, "came.list"), "wb") as file:
        file.write(run.listed())
    answer = conform_senders(text_of(TABLES), run.listed(), None, OPTIONS)
    cases.try_case(name, is_judged, name, run, seconds, answer)
    if program:
        cases.try_case(f"{name}, by the program", same_answer, program, "came.list", run.listed(),
                       [], answer)
        cases.try_case(f"{name}, as a recording, by the program", same_answer, program,
                       "run.pcapng", run.recording, recording_words(), as_recorded(run, answer))


def taken_words() -> argparse.Namespace:
    """The words."""
    words = argparse.ArgumentParser(
        description=__doc__, formatter_class=argparse.RawDescriptionHelpFormatter
    )
    words.add_argument("program", metavar="PROGRAM", nargs="?")
    words.add_argument("--sender", action="append", choices=list(SENDERS), metavar="NAME")
    words.add_argument("--seconds", type=int, default=4, choices=range(4, 61), metavar="N")
    words.add_argument("--keep", metavar="FOLDER")
    given = words.parse_args()
    if given.program and not os.access(given.program, os.X_OK):
        words.error(f"there is no program at {given.program}")
    return given


def program_of(path: str | None, folder: str) -> Program | None:
    """A program that judges senders, if there is one."""
    program = Program(path, folder) if path else None
    return program if program and program.knows("conform", "--senders") else None


def main() -> None:
    """Tries the senders, all at once."""
    given, cases = taken_words(), Cases()
    reason = why_not()
    if reason:
        cases.skip("senders on a bench", reason)
        sys.exit(cases.told())
    with tempfile.TemporaryDirectory(prefix="afdx-tests-") as folder:
        program, kept = program_of(given.program, folder), given.keep or folder
        os.makedirs(kept, exist_ok=True)
        with open(os.path.join(kept, "bench.toml"), "wb") as file:
            file.write(text_of(TABLES))
        names = given.sender or list(SENDERS)
        with ThreadPoolExecutor(len(names)) as pool:
            tried = [pool.submit(try_sender, cases, program, name, given.seconds, f"{kept}/{name}")
                     for name in names]
            for each in tried:
                each.result()
    if program is None:
        cases.skip("a program that judges senders", "there is none")
    sys.exit(cases.told())


if __name__ == "__main__":
    main()
