#!/usr/bin/env python3
"""Runs the built program on devices that move little at a time and fail, at each call in turn.

    tests/run/devices.py PROGRAM

tests/lib/weak_devices.c, which `cc` compiles, makes the devices weak: at most 16 bytes a call, and
the first call broken, then the second, and so on. A call is broken by an error that stays, by an
error that is gone at the next call, by an interruption, or by moving no byte. `police`, `replay`,
with admission and without, and `send` are run on lists of a few lines, read by path or as standard
input, and `check` and `solve` on configurations; `police` and `replay` also on recordings, and on
two at once, of which one is weak, if the program reads them (tests/lib/reads.py); `conform` on two
lists, of which one is weak, with `--senders` too, and on recordings once its help has `--left`.
`replay` and `send` are also run over several switches a side. Each run must write a beginning of
the undisturbed text, exactly as far as it has to, and end with the status and the one line of the
device that failed; and a device that failed, or has ended, must not be asked again, nor the other
one be asked for more than what is held. With --line-buffered the text of each line, or recorded
frame, must be handed over before more is read; frames that are held to be put in order are reported
at the end and at a fault, and not after a failed read. The first bytes are also read one by one,
and each of these reads is broken too.
Prints `ok NAME` or `FAILED NAME` for each case, then `N passed, M failed`; ends with status 1 if a
case failed.
"""
from __future__ import annotations

import itertools
import os
import re
import subprocess
import sys
from collections.abc import Iterator

sys.dont_write_bytecode = True
TESTS = os.path.join(os.path.dirname(os.path.abspath(__file__)), "..")
sys.path[:0] = [os.path.join(TESTS, name) for name in ("lib", "recordings", "conform", "cascades")]
import tables as made  # noqa: E402
from frames import HELLO, frame_of  # noqa: E402
from program import Cases, Program, answers, main_of, must  # noqa: E402
from sender import Message, list_sent, submission_list  # noqa: E402
from weak import ERRORS, FEW, WRITE, Weak, compile_devices  # noqa: E402
from weak import large_texts, many_writes, weak_devices  # noqa: E402
from weak_lists import weak_lists  # noqa: E402
from weak_pairs import weak_pairs  # noqa: E402
from weak_recorded import weak_recorded  # noqa: E402
from weak_recordings import weak_recordings  # noqa: E402

POLICE = ["police", "1", "64", "500"]


def weak_config(program: Program, words: list[str], config: bytes, status: int) -> None:
    """`check` or `solve`: each write of its text, and each read of its configuration, in turn."""
    shim = os.path.join(program.folder, "devices.so")
    program = program.apart()
    path = program.write("config", config)
    log = os.path.join(program.folder, "calls")
    env = {"LD_PRELOAD": shim, "DEVICE_LOG": log, "DEVICE_LIST": path}
    whole = program.run(*words, path)
    must(whole.status == status, f"status {whole.status}")
    for most in (1, FEW):
        env["DEVICE_MOST"] = str(most)
        answers(program.run(*words, path, env=env), status, whole.out, whole.err)
    with open(log, encoding="ascii") as file:
        kinds = [line[0] for line in file]
    writes, reads = kinds.count("w"), kinds.count("r")
    must(writes == -(-len(whole.out) // FEW) and reads > len(config) // FEW, "calls are missing")
    for k in range(1, writes + 1):
        for how in (*ERRORS, "none"):
            found = program.run(*words, path, env=env | {"DEVICE_WRITE": f"{k}:{how}"})
            answers(found, *WRITE[:1], whole.out[: FEW * (k - 1)], WRITE[1])
            with open(log, encoding="ascii") as file:
                dead = [line for line in file if line.startswith("w") and int(line.split()[2]) <= 0]
            must(len(dead) == 1, "a failed output is asked again")
    for k in range(1, reads + 1):
        for how in ("fails", "once"):
            found = program.run(*words, path, env=env | {"DEVICE_READ": f"{k}:{how}"})
            answers(found, 4, b"", b"device Config\n")


def explained_config(program: Program, words: list[str], config: bytes, status: int) -> None:
    """A command whose last line is explained: so it is however little of it a call writes."""
    shim = os.path.join(program.folder, "devices.so")
    program = program.apart()
    path = program.write("config", config)
    env = {"LD_PRELOAD": shim, "DEVICE_LOG": os.path.join(program.folder, "calls")}
    env["DEVICE_LIST"] = path
    whole = program.run(*words, "--explain", path)
    must(whole.status == status and whole.err.count(b"\n") > 1, "it isn't explained")
    for most in range(1, FEW + 1):
        env["DEVICE_MOST"] = str(most)
        answers(program.run(*words, "--explain", path, env=env), status, whole.out, whole.err)


def deaf_errors(program: Program, words: list[str], given: bytes, status: int) -> None:
    """A fault that can't be reported leaves the status as it is."""
    with open("/dev/full", "wb") as full:
        done = subprocess.run(
            [program.path, *words, "-"],
            input=given,
            stdout=subprocess.PIPE,
            stderr=full,
            check=False,
        )
    must(done.returncode == status, f"status {done.returncode}")


# ---- the lists -----------------------------------------------------------------------------------

TABLES = made.base_tables()
SMALL = TABLES | {"buffer": 64}
HASTY = TABLES | {"link": [link | {"latency_us": 1} for link in TABLES["link"]]}
H1, H2 = (
    HELLO.hex().encode(),
    frame_of(TABLES["system"][1], 2, 2000, b"world", 0, "A")[:-4].hex().encode(),
)


def spelled(text: str) -> bytes:
    """A list, written with ` / ` between its lines; H1 is link 1's frame with `hello`, H2 link 2's
    with `world`."""
    return b"\n".join(text.encode().split(b" / ")).replace(b"H1", H1).replace(b"H2", H2)


WRONG = f"B 0 A 1 H1 / R 0 A 1 {'00' * 63} / R 0 A 1 0300000000 / F 0 A 1 {'00' * 60}"
WRONG += (
    f" / F 0 A 1 {HELLO.hex()[:11]}9{HELLO.hex()[12:]} / F 0 A 1 H100 / R 0 A 1 - / F 0 A 1 H1 / "
)
SENT = list_sent(TABLES, "s1", [Message(0, 1, 1 + k % 2, 1000, b"%c" % (97 + k)) for k in range(4)])

FRAMES = {
    "five frames": spelled(
        "F 0 A 1 H1 / F 499999 A 1 H1 / F 500000 A 1 H1 / F 1499999 A 1 H1 / F 1500000 A 1 H1 / "
    ),
    "frames of each wrong kind": spelled(WRONG),
    "a time that goes back": spelled("F 5 A 1 H1 / F 4 A 1 H1 / "),
    "remarks and a line that breaks off": spelled("# a / \r / F 0 A 1 H1\r / F 0 A"),
}
REPLAYED = {
    "high before low": spelled("F 0 A 2 H2 / F 0 A 1 H1"),
    "a frame and its copy": spelled("F 0 A 1 H1 / F 0 B 1 H1 / "),
    "eight frames that were sent": SENT,
    "all that policing lets through": spelled(
        "F 0 A 1 H1 / F 0 A 2 H2 / F 500000 A 1 H1 / F 500000 A 2 H2 / "
    ),
    "an odd number of digits": spelled("F 0 A 1 H1 / F 7000 A 2 H2 / F 20000 A 1 030"),
}
TOO_OLD = {"frames too old": spelled("F 0 A 1 H1 / F 0 A 2 H2 / F 6720 B 1 H1 / ")}
OVER_TWO = {
    "frames over two switches": spelled("F 0 A fwd 1 H1 / F 6720 A aft 2 H2 / F 6720 B fwd 1 H1"),
    "a cable's port": spelled("F 0 A aft 2 H2 / F 20000 A aft 3 H1 / F 20000 A fwd 24 H2 / "),
}
MESSAGES = {
    "four messages": submission_list(
        [Message(0, 1, 1 + k % 2, 1000, b"%c" % (97 + k)) for k in range(4)]
    ),
    "refused messages": b"0 2 1 1000 00\n0 1 3 1000 00\n0 1 1 1000 -\n7000 1 1 1000 "
    + b"00" * 18
    + b"\n",
    "a time beyond the last": b"0 1 1 1000 61\n5000000 1 2 1000 62\n1000000000000001 1 1 1000 61\n",
}
SENT_OVER_TWO = {"messages to two switches": b"0 2 1 2000 61\n0 1 1 2000 62\n9000 2 1 7 63\n"}


def short_lists(program: Program, config: str, two: str) -> Iterator[tuple]:
    """Each command on lists of a few lines, read by path and as standard input by turns."""
    old = made.base_tables(2)
    old["link"][1]["latency_us"] = 6
    too_old = program.write("old.toml", made.text_of(old))
    unadmitted = ["replay", "--no-admission"]
    for words, lists in (
        (POLICE, FRAMES),
        (["replay", config], REPLAYED),
        ([*unadmitted, config], REPLAYED),
        ([*unadmitted, too_old], TOO_OLD),
        (["send", config, "s1"], MESSAGES),
        (["replay", two], OVER_TWO),
        ([*unadmitted, two], OVER_TWO),
        (["send", two, "s2"], SENT_OVER_TWO),
    ):
        for by_path, (name, given) in zip(itertools.cycle((True, False)), lists.items()):
            yield f"{named(words)}: {name}", weak_devices, Weak(program, words, given, by_path)


def long_lists(program: Program, config: str) -> Iterator[tuple]:
    """Each command on a list with a text of many writes, and on one of several buffers."""
    replay, send = ["replay", config], ["send", config, "s1"]
    for words, given in (
        (POLICE, b"".join(b"F %d A 1 %s\n" % (n * 500_000, H1) for n in range(80))),
        (replay, b"".join(b"F %d A 1 %s\n" % (n * 1_000_000, H1) for n in range(30))),
        (send, MESSAGES["four messages"]),
    ):
        weak = Weak(program, words, given, False)
        yield f"{named(words)}: more than 1,000 writes", many_writes, weak
    for words, line in (
        (POLICE, b"R 0 A 1 -\n"),
        (replay, b"R 0 A 1 -\n"),
        (send, b"0 2 1 1000 61\n"),
    ):
        weak = Weak(program, words, line * 30_000, True)
        yield f"{named(words)}: more than a buffer", large_texts, weak


def weak_configs(program: Program) -> Iterator[tuple]:
    """Each command that reads a configuration alone, of one switch and of two."""
    two = made.example("two_switches.toml")
    small, hasty = made.text_of(SMALL), re.sub(rb"(?m)^latency_us = .*", b"latency_us = 1", two)
    for name, words, config, status in (
        ("check", ["check"], made.text_of(TABLES), 0),
        ("check, not admitted", ["check"], small, 1),
        ("solve", ["solve"], small, 0),
        ("solve, with needs", ["solve"], made.text_of(HASTY), 0),
        ("solve, in vain", ["solve", "--keep", "buffer"], small, 1),
        ("solve of two switches", ["solve"], two, 0),
        ("solve of two switches, with needs", ["solve"], hasty, 0),
        ("solve of two switches, in vain", ["solve", "--keep", "latency"], hasty, 1),
    ):
        yield name, weak_config, program, words, config, status
    yield "check, explained", explained_config, program, ["check"], small, 1
    yield "solve, explained", explained_config, program, ["solve", "--keep", "buffer"], small, 1


def untold_faults(program: Program, config: str) -> Iterator[tuple]:
    """A fault of each kind where the standard error is full."""
    for name, words, given, status in (
        ("a list's fault", POLICE, b"F\n", 3),
        ("wrong words", ["police", "3", "64", "500"], b"", 2),
        ("a fault of the configuration", ["replay", "/dev/null"], b"", 1),
        ("a fault of a submission list", ["send", config, "s1"], b"x\n", 3),
    ):
        yield f"{name} on a full standard error", deaf_errors, program, words, given, status


def named(words: list[str]) -> str:
    """The command that a case is named by: its word, and its options."""
    return " ".join([words[0], *(word for word in words if word.startswith("--"))])


def try_all(cases: Cases, program: Program) -> None:
    """All cases."""
    compile_devices(program)
    config = program.write("base.toml", made.text_of(TABLES))
    two = program.write("two.toml", made.example("two_switches.toml"))
    if not program.knows("conform"):
        cases.skip("conform", "the program doesn't have it")
    cases.try_at_once(
        [
            *short_lists(program, config, two),
            *long_lists(program, config),
            *weak_recordings(program, config, two),
            *weak_pairs(program, config, two),
            *weak_lists(program),
            *weak_recorded(program),
            *weak_configs(program),
            *untold_faults(program, config),
        ]
    )


if __name__ == "__main__":
    main_of(__doc__, try_all)
