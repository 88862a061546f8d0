"""Runs a command of the program on weak devices, and looks at what it does. weak_devices.c makes
them move little at a time and fail, at each call in turn."""
from __future__ import annotations

import os
import subprocess
from itertools import accumulate
from typing import NamedTuple

from program import TOP, Answer, Program, answers, must

FEW = 16  # bytes of one call
FIRST = 6  # reads of one byte
READ, WRITE = (4, b"device Read\n"), (4, b"device Write\n")
ERRORS = ("fails", "once", "interrupted")
STEADY = "steady"  # the file of the one of two inputs that doesn't fail
BEYOND = b"!\n"  # a line that is none: what stands before it is written, and no more


class Call(NamedTuple):
    """A line of the log: read, write or a read of the second input, the bytes that were asked for,
    and the answer."""

    kind: str
    asked: int
    answer: int


class Weak:
    """A command on a list, and what it does where nothing is disturbed."""

    def __init__(self, program: Program, words: list[str], given: bytes, by_path: bool) -> None:
        self.program, self.words, self.given, self.by_path = program.apart(), words, given, by_path
        self.shim = os.path.join(program.folder, "devices.so")
        self.log = os.path.join(self.program.folder, "calls")
        self.known: dict[bytes, Answer] = {}
        self.whole = self.undisturbed(given)

    def undisturbed(self, given: bytes) -> Answer:
        """The answer to a list on devices that do as they should."""
        if given not in self.known:
            self.known[given] = self.program.run(*self.words, "-", given=given)
        return self.known[given]

    def lines_before(self, count: int, at_once: bool = False) -> bytes:
        """What the whole lines of the first bytes give, where the run then stops; whether each line
        is written at once changes that for recordings."""
        front = self.given[:count]
        return self.undisturbed(front[: front.rfind(b"\n") + 1] + BEYOND).out

    def told_before(self, reads: list[Call]) -> bytes:
        """What these reads give with --line-buffered, where the run then asks for more."""
        return self.lines_before(sum(call.answer for call in reads), at_once=True)

    def run(self, most: int, *options: str, **broken: str) -> tuple[Answer, list[Call]]:
        """One run on weak devices, with the log of its calls."""
        path = self.program.write("list", self.given) if self.by_path else "-"
        env, given = self.weakened(path, most, broken), b"" if self.by_path else self.given
        words = [*self.words, *options, *self.inputs(path)]
        found = self.program.run(*words, given=given, env=env)
        return found, self.calls()

    def inputs(self, weak: str) -> list[str]:
        """The last words of the command: the input, which is weak."""
        return [weak]

    def weakened(self, path: str, most: int, broken: dict[str, str]) -> dict[str, str]:
        """What makes the devices weak."""
        env = {"LD_PRELOAD": self.shim, "DEVICE_LOG": self.log, "DEVICE_MOST": str(most)}
        env |= {"DEVICE_LIST": path} if path != "-" else {}
        return env | {f"DEVICE_{name.upper()}": how for name, how in broken.items()}

    def calls(self) -> list[Call]:
        """The log of the last run's calls."""
        with open(self.log, encoding="ascii") as file:
            calls = [line.split() for line in file]
        return [Call(kind, int(asked), int(answer)) for kind, asked, answer in calls]

    def failed_write(self, at_once: bool) -> tuple[int, bytes]:
        """How a run ends where a write fails. Where the text comes at the end, a status that isn't
        0 stands."""
        whole = self.whole.status, self.whole.err
        return WRITE if at_once or whole[0] == 0 else whole

    def ends(self, found: Answer, wanted: tuple[int, bytes], out: bytes) -> None:
        """The run ended so, and wrote just this, which is a beginning of the undisturbed text."""
        answers(found, wanted[0], out, wanted[1])
        must(self.whole.out.startswith(out), "it wrote what the undisturbed run doesn't write")


class WeakOfTwo(Weak):
    """A command on two inputs. The one at this place is read from a weak device, by path or as
    standard input, the other one by path."""

    def __init__(
        self, program: Program, words: list[str], pair: tuple[bytes, bytes], place: int,
        by_path: bool,
    ) -> None:
        self.pair, self.place = pair, place
        super().__init__(program, words, pair[place], by_path)

    def inputs(self, weak: str) -> list[str]:
        """Both; the weak one is named so."""
        steady = self.program.write(STEADY, self.pair[1 - self.place])
        return [weak, steady] if self.place == 0 else [steady, weak]

    def undisturbed(self, given: bytes) -> Answer:
        """The answer where the weak one has these bytes, on devices that do as they should."""
        if given not in self.known:
            paths = self.inputs(self.program.write("whole", given))
            self.known[given] = self.program.run(*self.words, *paths)
        return self.known[given]

    def weakened(self, path: str, most: int, broken: dict[str, str]) -> dict[str, str]:
        """What makes the devices weak; the steady one moves little."""
        steady = os.path.join(self.program.folder, STEADY)
        return super().weakened(path, most, broken) | {"DEVICE_SECOND": steady}

    def front_of(self, count: int) -> tuple[bytes, bytes]:
        """Both, of the weak one these first bytes alone."""
        first, second = self.pair
        return (first[:count], second) if self.place == 0 else (first, second[:count])

    def read_by(self, reads: list[Call]) -> tuple[tuple[bytes, bytes], list[bool]]:
        """What these reads give of both, and which of them aren't at their end."""
        kinds = "rs" if self.place == 0 else "sr"
        moved = [[call.answer for call in reads if call.kind == kind] for kind in kinds]
        first, second = (text[: sum(each)] for text, each in zip(self.pair, moved))
        return (first, second), [0 not in each for each in moved]


def of_kind(calls: list[Call], kind: str) -> list[Call]:
    """The calls of one device."""
    return [call for call in calls if call.kind == kind]


def never_again(calls: list[Call], kind: str) -> None:
    """The last call of the device is the one that failed or moved nothing, and the only such."""
    dead = [place for place, call in enumerate(of_kind(calls, kind)) if call.answer <= 0]
    must(
        dead == [len(of_kind(calls, kind)) - 1],
        f"broken calls {dead} of {len(of_kind(calls, kind))}",
    )


def whole_runs(weak: Weak) -> dict[int, list[int]]:
    """Devices that move little and don't fail change nothing; how many bytes each read gives, by
    how many it may give."""
    given: dict[int, list[int]] = {}
    for most in (1, FEW):
        for options in ((), ("--line-buffered",)):
            found, calls = weak.run(most, *options)
            weak.ends(found, (weak.whole.status, weak.whole.err), weak.whole.out)
            must(all(call.answer > 0 for call in of_kind(calls, "w")), "a write of nothing")
            reads = [call.answer for call in of_kind(calls, "r")]
            must(0 not in reads[:-1], "the list was read beyond its end")
            must(weak.whole.err or reads[-1] == 0, "the list was not read to its end")
            given[most] = reads
    return given


def each_line_at_once(weak: Weak) -> None:
    """At each read the text of all lines that have been read whole has been handed over, and no
    more."""
    for most in (1, FEW):
        _, calls = weak.run(most, "--line-buffered")
        reads: list[Call] = []
        written = 0
        for call in calls:
            if call.kind == "w":
                written += call.answer
                continue
            wanted, got = len(weak.told_before(reads)), sum(call.answer for call in reads)
            told = f"{written} bytes written where {got} were read, wanted {wanted}"
            must(written == wanted, told)
            reads.append(call)


def broken_reads(weak: Weak, most: int, reads: list[int]) -> None:
    """Each of the first reads, which give so many bytes, fails in turn, or says that there is no
    more."""
    for k, got in enumerate(accumulate(reads[:-1], initial=0), 1):
        for how in ERRORS:
            found, calls = weak.run(most, read=f"{k}:{how}")
            weak.ends(found, READ, weak.lines_before(got))
            never_again(calls, "r")
            kinds = "".join(call.kind for call in calls)
            must("s" not in kinds[kinds.rfind("r") :], "the second input is read on")
        found, calls = weak.run(most, read=f"{k}:none")
        shorter = weak.undisturbed(weak.given[:got])
        answers(found, shorter.status, shorter.out, shorter.err)
        never_again(calls, "r")


def broken_writes(weak: Weak, options: list[str]) -> None:
    """Each write in turn fails, or takes nothing."""
    fault = weak.failed_write(bool(options))
    _, calls = weak.run(FEW, *options)
    written = 0
    for k, whole in enumerate(of_kind(calls, "w"), 1):
        for how in (*ERRORS, "none"):
            found, calls = weak.run(FEW, *options, write=f"{k}:{how}")
            weak.ends(found, fault, weak.whole.out[:written])
            never_again(calls, "w")
            must(calls[-1].kind == "w", "more was read after a failed write")
        written += whole.answer


def both_broken(weak: Weak, reads: int) -> None:
    """The list can't be read on, and what is held can't be written: the first fault is reported."""
    for k in range(1, reads + 1):
        found, calls = weak.run(FEW, read=f"{k}:fails", write="1:fails")
        weak.ends(found, READ, b"")
        never_again(calls, "r")
        must(len(of_kind(calls, "w")) <= 1, "a failed output is asked again")


def reason_of_the_fault(weak: Weak, reads: int) -> None:
    """Where both devices fail, the explanation is of the one that the fault's line names."""
    found, _ = weak.run(FEW, "--explain", read=f"{reads}:fails", write="1:interrupted")
    lines = found.err.decode().splitlines()
    name = "list" if weak.by_path else "standard input"
    must(lines[0] == "device Read", f"the fault's line is {lines[0]}")
    must(name in lines[-1] and "Input/output error" in lines[-1], f"the last line is {lines[-1]}")


def weak_devices(weak: Weak) -> None:
    """All of it, for one command on one list."""
    reads = whole_runs(weak)
    each_line_at_once(weak)
    broken_reads(weak, FEW, reads[FEW])
    broken_reads(weak, 1, reads[1][:FIRST])
    both_broken(weak, len(reads[FEW]))
    reason_of_the_fault(weak, len(reads[FEW]))
    broken_writes(weak, [])
    broken_writes(weak, ["--line-buffered"])


def many_writes(weak: Weak) -> None:
    """A text of more than 1,000 writes, whole and broken here and there."""
    for options in ((), ("--line-buffered",)):
        found, calls = weak.run(1, *options)
        weak.ends(found, (weak.whole.status, weak.whole.err), weak.whole.out)
        writes = len(of_kind(calls, "w"))
        must(writes == len(weak.whole.out) > 1000, f"{writes} writes")
        for k in (1, 2, 999, 1000, 1001, writes):
            for how in ("fails", "once", "none"):
                found, calls = weak.run(1, *options, write=f"{k}:{how}")
                fault = weak.failed_write(bool(options))
                weak.ends(found, fault, weak.whole.out[: k - 1])
                never_again(calls, "w")


def large_texts(weak: Weak) -> None:
    """A text of several buffers: where one can't be handed over, the list isn't read on."""
    for most in (0, 5000):
        found, calls = weak.run(most)
        weak.ends(found, (weak.whole.status, weak.whole.err), weak.whole.out)
        written = of_kind(calls, "w")
        must(len(written) > 3, f"{len(written)} writes")
        must(
            most > 0 or max(call.asked for call in written) <= 65_536 + 4_200,
            "more is held than a buffer and a line",
        )
        for k in (1, 2, 3, len(written)):
            for how in ("fails", "once", "none"):
                found, calls = weak.run(most, write=f"{k}:{how}")
                fault = weak.failed_write(at_once=k < len(written))
                before = sum(call.answer for call in written[: k - 1])
                weak.ends(found, fault, weak.whole.out[:before])
                never_again(calls, "w")
                must(calls[-1].kind == "w", "more was read after a failed write")


def compile_devices(program: Program) -> None:
    """Compiles the weak devices, to be loaded before the C library."""
    source = os.path.join(TOP, "tests", "lib", "weak_devices.c")
    shim = os.path.join(program.folder, "devices.so")
    try:
        subprocess.run(["cc", "-shared", "-fPIC", "-O1", "-o", shim, source, "-ldl"], check=True)
    except (OSError, subprocess.CalledProcessError) as fault:
        raise SystemExit(f"tests/lib/weak_devices.c can't be compiled: {fault}") from None
