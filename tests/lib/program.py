"""Runs the built program, and counts the cases that pass."""
from __future__ import annotations

import contextlib
import os
import re
import resource
import select
import signal
import subprocess
import sys
import tempfile
import threading
import time
from concurrent.futures import ThreadPoolExecutor
from typing import Callable, NamedTuple, NoReturn

TOP = os.path.dirname(os.path.dirname(os.path.dirname(os.path.abspath(__file__))))
LONGEST = 3600  # seconds of one run, which end one that hangs
PATIENCE = 300  # seconds in which comes what has to come, however busy the machine is
LOOK = 0.002  # seconds between two looks at a run


class Answer(NamedTuple):
    """What a run leaves: its status and both streams."""

    status: int
    out: bytes
    err: bytes


class Wrong(Exception):
    """What is not as wanted."""


def must(holds: object, text: str) -> None:
    """Raises the text where something doesn't hold."""
    if not holds:
        raise Wrong(text or "not as wanted")


def matched(pattern: re.Pattern[str], line: str, text: str) -> re.Match[str]:
    """A line as its pattern reads it; raises the text where it is another."""
    found = pattern.fullmatch(line)
    if found is None:
        raise Wrong(text)
    return found


class Program:
    """The program, with a folder for its files; a run may take no more than `most` seconds of the
    processor, which are no more on a busy machine."""

    def __init__(self, path: str, folder: str, most: int | None = None) -> None:
        self.path, self.folder, self.most = os.path.abspath(path), folder, most

    def apart(self) -> Program:
        """The same program, with a folder of its own."""
        return Program(self.path, tempfile.mkdtemp(dir=self.folder), self.most)

    def write(self, name: str, content: bytes) -> str:
        """A file in the folder; its path."""
        path = os.path.join(self.folder, name)
        with open(path, "wb") as file:
            file.write(content)
        return path

    def run(self, *words: str, given: bytes = b"", env: dict[str, str] | None = None) -> Answer:
        """One run; `given` is what it reads on standard input."""
        with subprocess.Popen(
            [self.path, *words],
            stdin=subprocess.PIPE,
            stdout=subprocess.PIPE,
            stderr=subprocess.PIPE,
            cwd=self.folder,
            env=None if env is None else {**os.environ, **env},
        ) as run:
            if self.most is not None:
                limit(run, self.most)
            try:
                out, err = run.communicate(given, LONGEST)
            except subprocess.TimeoutExpired:
                raise Wrong(f"{' '.join(words)} takes more than {LONGEST} s") from None
            finally:
                run.kill()
        must(
            run.returncode != -signal.SIGXCPU,
            f"{' '.join(words)} takes more than {self.most} s of the processor",
        )
        return Answer(run.returncode, out, err)

    def knows(self, command: str, word: str = "") -> bool:
        """It has the command, and its help has the word."""
        found = self.run(command, "--help")
        return found.status == 0 and word.encode() in found.out

    def run_limited(self, room: int, *words: str) -> Answer:
        """One run in an address space of so many KiB."""
        limited = ["sh", "-c", 'ulimit -v "$0" && exec "$@"', str(room), self.path, *words]
        done = subprocess.run(
            limited, capture_output=True, cwd=self.folder, timeout=LONGEST, check=False
        )
        return Answer(done.returncode, done.stdout, done.stderr)


def least_room(runs_in: Callable[[int], bool]) -> int:
    """The least address space, in KiB and to the nearest 64, in which something runs."""
    low, high = 0, 1 << 20
    while high - low > 64:
        middle = (low + high) // 2
        if runs_in(middle):
            high = middle
        else:
            low = middle
    must(high < 1 << 20, "it takes a GiB")
    return high


def limit(run: subprocess.Popen, most: int) -> None:
    """A signal ends it once it has taken so many seconds of the processor."""
    _, highest = resource.getrlimit(resource.RLIMIT_CPU)
    with contextlib.suppress(ProcessLookupError):  # it has ended
        resource.prlimit(run.pid, resource.RLIMIT_CPU, (most, highest))


def rests(run: subprocess.Popen) -> None:
    """Waits until a run waits for input, or has ended: all that it does with what came is done."""
    end = time.monotonic() + PATIENCE
    while state_of(run.pid) not in "SZ":
        must(time.monotonic() < end, f"it works for more than {PATIENCE} s")
        time.sleep(LOOK)


def state_of(pid: int) -> str:
    """A letter, as Linux names it: S sleeps, Z has ended."""
    with open(f"/proc/{pid}/stat", encoding="utf-8") as file:
        return file.read().rpartition(") ")[2][0]


def text_within(pipe: int, size: int, seconds: float) -> bytes:
    """So many bytes of a pipe, or those that come in so many seconds."""
    text = b""
    while len(text) < size and select.select([pipe], [], [], seconds)[0]:
        piece = os.read(pipe, size - len(text))
        if not piece:
            break
        text += piece
    return text


def short(text: object) -> str:
    """How it is spelled, or the beginning where that is long."""
    shown = repr(text)
    return shown if len(shown) < 300 else f"{shown[:300]}.."


def same_text(what: str, wanted: bytes, found: bytes) -> None:
    """The two texts are equal; if not, the first line that differs is reported."""
    if wanted == found:
        return
    pairs = zip(wanted.split(b"\n"), found.split(b"\n"))
    for number, (one, other) in enumerate(pairs, 1):
        if one != other:
            raise Wrong(f"{what}, line {number}: wanted {short(one)}, found {short(other)}")
    raise Wrong(f"{what}: wanted {wanted.count(10)} lines, found {found.count(10)}")


def answers(found: Answer, status: int, out: bytes | None, err: bytes) -> None:
    """The run ended so; `out` is not looked at where it is None."""
    told = f"status {found.status}, on standard error: {short(found.err)}"
    must((found.status, found.err) == (status, err), f"wanted {status} with {short(err)}: {told}")
    if out is not None:
        same_text("standard output", out, found.out)


class Cases:
    """Counts the cases, and reports each."""

    def __init__(self) -> None:
        self.passed = self.failed = self.skipped = 0
        self.telling = threading.Lock()

    def try_case(self, name: str, case: Callable[..., object], *given: object) -> None:
        """One case: it passes where it raises nothing."""
        began = time.monotonic()
        try:
            case(*given)
        except Wrong as wrong:
            fault = str(wrong)
        else:
            fault = ""
        took = time.monotonic() - began
        with self.telling:
            self.passed += not fault
            self.failed += bool(fault)
            text = f"FAILED {name}\n    {fault}" if fault else f"ok {name}"
            print(text + (f" ({took:.0f} s)" if took >= 2 and not fault else ""), flush=True)

    def skip(self, name: str, why: str) -> None:
        """A case that can't be tried here."""
        with self.telling:
            self.skipped += 1
            print(f"skipped {name}: {why}", flush=True)

    def try_at_once(self, cases: list[tuple]) -> None:
        """So many cases at a time as there are processors; each is a name, a case, and what it is
        given."""
        with ThreadPoolExecutor(os.cpu_count()) as pool:
            for future in [pool.submit(self.try_case, *case) for case in cases]:
                future.result()

    def told(self) -> int:
        """The last line; the status to end with."""
        text = f"{self.passed} passed, {self.failed} failed"
        print(text + (f", {self.skipped} skipped" if self.skipped else ""), flush=True)
        return 1 if self.failed else 0


def main_of(
    text: str, try_all: Callable[[Cases, Program], None], most: int | None = None
) -> None:
    """Takes PROGRAM from the words, tries all cases in a folder that is removed, and ends. A run
    may take so many seconds of the processor."""
    if len(sys.argv) != 2 or not os.access(sys.argv[1], os.X_OK):
        print(text.strip(), file=sys.stderr)
        sys.exit(2)
    cases = Cases()
    with tempfile.TemporaryDirectory(prefix="afdx-tests-") as folder:
        try_all(cases, Program(sys.argv[1], folder, most))
    sys.exit(cases.told())


Given = Callable[[], list[tuple]]
OfProgram = Callable[[Program], list[tuple]]


def try_both(path: str | None, computed: Given, of_program: OfProgram) -> NoReturn:
    """Tries what is computed here, and where there is a program what is tried of it; ends."""
    cases = Cases()
    with tempfile.TemporaryDirectory(prefix="afdx-tests-") as folder:
        given = computed()
        if path is not None:
            given += of_program(Program(path, folder))
        cases.try_at_once(given)
    sys.exit(cases.told())


def main_of_both(text: str, computed: Given, of_program: OfProgram) -> None:
    """Takes PROGRAM from the words, where it is there; without it only what is computed here is
    tried."""
    words = sys.argv[1:]
    if len(words) > 1 or not all(os.access(path, os.X_OK) for path in words):
        print(text.strip(), file=sys.stderr)
        sys.exit(2)
    try_both(words[0] if words else None, computed, of_program)
