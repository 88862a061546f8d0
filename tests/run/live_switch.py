#!/usr/bin/env python3
"""Records a switch on a bench of this machine, and judges it by what was recorded.

    tests/run/live_switch.py [--switch NAME].. [--seconds N] [--keep FOLDER] [PROGRAM]

Three systems send to a switch in Python over cables of a network of their own
(tests/conform/live_bench.py), and `dumpcap` records at each port what comes in and what leaves. The
right switch conforms; of each wrong one is found exactly what it was amiss with. The recording is
judged as two lists by tests/lib/conform.py, and as it is by tests/lib/conform_recorded.py. PROGRAM
must answer the same, of what its `conform` takes. NAME is right, drops, delays, doubles, reorders
or leaks: all at once where none is given, for N seconds (4). FOLDER keeps the configuration, and of
each switch its recording and lists.

Prints `ok NAME`, `FAILED NAME` or `skipped NAME: why` for each case, then `N passed, M failed`;
ends with status 1 if a case failed. Needs Python 3.11, ip, unshare and dumpcap, and that it may
make a network: as root, or where users may have one.
"""
from __future__ import annotations

import argparse
import json
import os
import sys
import tempfile
from concurrent.futures import ThreadPoolExecutor
from typing import NamedTuple

sys.dont_write_bytecode = True
TESTS = os.path.join(os.path.dirname(os.path.abspath(__file__)), "..")
sys.path[:0] = [os.path.join(TESTS, name) for name in ("lib", "conform")]
from conform import conform  # noqa: E402
from conform_recorded import conform_recordings  # noqa: E402
from live import TRIES, run_bench, why_not  # noqa: E402
from live_switches import FROM, LATENCY, PORT, SLACK, SWITCHES, SYSTEMS, TABLES  # noqa: E402
from one_switch import MS  # noqa: E402
from program import Answer, Cases, Program, Wrong, must, same_text  # noqa: E402
from recorded import recorded  # noqa: E402
from tables import text_of  # noqa: E402

BENCH = os.path.join(TESTS, "conform", "live_bench.py")
OPTIONS = ("--slack", str(SLACK), "--from", str(FROM))
WAYS = ("came", "left")  # of the interfaces of a port
SLOW = LATENCY * 15 // 100  # a frame that goes out so much later than it should says nothing


class Run(NamedTuple):
    """A switch, recorded: the recording, the lists of it, what it was amiss with as `live_bench.py`
    says it, by how much a frame went out later than it was meant to, at most, and how many frames
    the recorder lost."""

    recording: bytes
    came: bytes
    left: bytes
    found: list[list[str]]
    longest: int
    lost: int

    def why_not(self) -> str:
        """Why it says nothing of the switch; empty where it does."""
        if self.longest > SLOW:
            return f"this machine let a frame wait for {self.longest // MS} ms"
        return f"the recorder lost {self.lost} frames here" if self.lost else ""


def lists_of(recording: bytes) -> tuple[bytes, bytes]:
    """What came to the switch, and what left it, by time, from the first frame's on."""
    frames = [each for each in recorded(recording).numbers if each and each.stamp is not None]
    first = min((each.stamp or 0 for each in frames), default=0)
    lines: tuple[list[tuple[int, str]], list[tuple[int, str]]] = ([], [])
    for frame in frames:
        place, way = divmod(frame.interface, len(WAYS))
        time = (frame.stamp or 0) - first
        port = SYSTEMS[place]["port"]
        lines[way].append((time, f"F {time} A {port} {frame.bytes.hex()}\n"))
    came, left = ("".join(text for _, text in sorted(each, key=lambda line: line[0])).encode()
                  for each in lines)
    return came, left


def run_of(name: str, seconds: int, folder: str) -> Run:
    """A switch of this name, recorded."""
    run_bench(BENCH, name, seconds, folder)
    with open(os.path.join(folder, "run.pcapng"), "rb") as file:
        recording = file.read()
    with open(os.path.join(folder, "said.json"), encoding="ascii") as file:
        said = json.load(file)
    return Run(recording, *lists_of(recording), said["found"], said["longest"], said["lost"])


def numbers_in(text: bytes) -> dict[str, int]:
    """Of each frame of a list the number of its last line."""
    lines = text.decode().splitlines()
    return {line.split(" ")[4]: number for number, line in enumerate(lines, 1)}


def wanted_of(run: Run) -> list[str]:
    """What must be found: word, number, place and what is behind it, but for times."""
    came, left = numbers_in(run.came), numbers_in(run.left)
    wanted = []
    for content, of_came, of_left in run.found:
        for words, numbers in ((of_came, came), (of_left, left)):
            if words:
                word, _, why = words.partition(" ")
                wanted.append(f"{word} {numbers[content]} A {PORT} {why}".rstrip())
    return sorted(wanted)


def found_in(answer: Answer) -> list[str]:
    """What was found; without by how much a frame was late."""
    lines = answer.out.decode().splitlines()[:-1]
    return sorted(line.rpartition(" ")[0] if line.startswith("late ") else line for line in lines)


def is_judged(name: str, run: Run, answer: Answer) -> None:
    """An answer says just what the switch was amiss with."""
    wanted, found = wanted_of(run), found_in(answer)
    must(name == "right" or len(wanted) > 1, f"the switch was amiss {len(wanted)} times")
    must(answer.status == (5 if wanted else 0), f"status {answer.status}: {answer.err.decode()}")
    only = [sorted(set(one) - set(other)) for one, other in ((found, wanted), (wanted, found))]
    must(found == wanted, f"found {only[0]}, and not {only[1]}")
    last = answer.out.decode().splitlines()[-1]
    verdict = f"deviates {len(wanted)}" if wanted else "conforms"
    must(last.startswith(f"{verdict} explained "), last)


def same_answer(program: Program, run: Run, wanted: Answer) -> None:
    """The program answers of the lists what is computed."""
    apart = program.apart()
    files = [apart.write(f"{name}.list", text) for name, text in zip(WAYS, (run.came, run.left))]
    config = apart.write("bench.toml", text_of(TABLES))
    found = apart.run("conform", *OPTIONS, config, *files)
    same_text("standard output", wanted.out, found.out)
    must(found == wanted, f"status {found.status}, {found.err!r}")


def recording_words() -> list[str]:
    """The options of the recording: where its interfaces were, too."""
    words = [*OPTIONS, "--fcs", "no"]
    for place, system in enumerate(SYSTEMS):
        words += ["--interface", f"{2 * place}=A:{system['port']}"]
        words += ["--left", f"{2 * place + 1}=A:{system['port']}"]
    return words


def recording_judged(of_lists: Answer, answer: Answer) -> None:
    """The answer of the recording is that of its lists, but for the numbers of frames."""
    must(answer.status == of_lists.status, f"status {answer.status}: {answer.err.decode()}")
    words = [sorted(line.split(b" ")[0] for line in each.out.splitlines())
             for each in (answer, of_lists)]
    must(words[0] == words[1], f"found {words[0]}, wanted {words[1]}")


def same_of_recording(program: Program, run: Run, wanted: Answer) -> None:
    """The program answers of the recording what is computed."""
    apart = program.apart()
    path = apart.write("run.pcapng", run.recording)
    config = apart.write("bench.toml", text_of(TABLES))
    found = apart.run("conform", *recording_words(), config, path)
    same_text("standard output", wanted.out, found.out)
    must(found == wanted, f"status {found.status}, {found.err!r}")


class Judge(NamedTuple):
    """Who judges beside what is computed: the program, if it has `conform`; whether it reads
    recordings there; and what isn't so."""

    program: Program | None = None
    is_recorded: bool = False
    lacks: str = "there is no program"


def judge_of(path: str | None, folder: str) -> Judge:
    """What a program can judge."""
    if path is None:
        return Judge()
    program = Program(path, folder)
    said = program.run("conform", "--help")
    if said.status:
        return Judge(lacks="the program has no conform")
    is_recorded = b"--left" in said.out
    return Judge(program, is_recorded, "" if is_recorded else "conform takes no recordings")


def try_switch(cases: Cases, judge: Judge, name: str, seconds: int, kept: str) -> None:
    """A switch, recorded and judged."""
    os.makedirs(kept, exist_ok=True)
    for _ in range(TRIES):
        try:
            run = run_of(name, seconds, kept)
        except Wrong as wrong:
            cases.try_case(f"{name}: the bench", must, False, str(wrong))
            return
        if not run.why_not():
            break
    else:
        cases.skip(name, run.why_not())
        return
    for way, text in zip(WAYS, (run.came, run.left)):
        with open(os.path.join(kept, f"{way}.list"), "wb") as file:
            file.write(text)
    answer = conform(text_of(TABLES), run.came, run.left, OPTIONS)
    cases.try_case(f"{name}, as two lists", is_judged, name, run, answer)
    whole = conform_recordings(text_of(TABLES), (run.recording,), tuple(recording_words()))
    cases.try_case(f"{name}, as a recording", recording_judged, answer, whole)
    if judge.program:
        cases.try_case(f"{name}, by the program", same_answer, judge.program, run, answer)
    if judge.program and judge.is_recorded:
        cases.try_case(f"{name}, as a recording, by the program", same_of_recording,
                       judge.program, run, whole)


def taken_words() -> argparse.Namespace:
    """The words."""
    words = argparse.ArgumentParser(
        description=__doc__, formatter_class=argparse.RawDescriptionHelpFormatter
    )
    words.add_argument("program", metavar="PROGRAM", nargs="?")
    words.add_argument("--switch", action="append", choices=list(SWITCHES), metavar="NAME")
    words.add_argument("--seconds", type=int, default=4, choices=range(3, 61), metavar="N")
    words.add_argument("--keep", metavar="FOLDER")
    given = words.parse_args()
    if given.program and not os.access(given.program, os.X_OK):
        words.error(f"there is no program at {given.program}")
    return given


def main() -> None:
    """Tries the switches, all at once."""
    given, cases = taken_words(), Cases()
    reason = why_not()
    if reason:
        cases.skip("a switch on a bench", reason)
        sys.exit(cases.told())
    with tempfile.TemporaryDirectory(prefix="afdx-tests-") as folder:
        judge, kept = judge_of(given.program, folder), given.keep or folder
        os.makedirs(kept, exist_ok=True)
        with open(os.path.join(kept, "bench.toml"), "wb") as file:
            file.write(text_of(TABLES))
        names = given.switch or list(SWITCHES)
        with ThreadPoolExecutor(len(names)) as pool:
            tried = [pool.submit(try_switch, cases, judge, name, given.seconds, f"{kept}/{name}")
                     for name in names]
            for each in tried:
                each.result()
    if judge.lacks:
        cases.skip("a program that judges recordings", judge.lacks)
    sys.exit(cases.told())


if __name__ == "__main__":
    main()
