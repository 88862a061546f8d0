#!/usr/bin/env python3
"""Checks that the program hands each fault's line to standard error in one write.

    tests/program/error_writes.py PROGRAM

Standard error is a socket that keeps each write apart. For each row the program is run, and each
write must be one line, or with words that can't be read, of any length, their whole text. Prints a
line for each row that isn't so, and nothing where all are; ends with status 1 if there is one.
"""
import os
import pathlib
import socket
import subprocess
import sys
import tempfile

TOP = pathlib.Path(__file__).resolve().parent.parent.parent
sys.dont_write_bytecode = True
sys.path.insert(0, str(TOP / "tests" / "lib"))
from tables import base_tables, changed, text_of  # noqa: E402

EXAMPLES = TOP / "examples"
NETWORK, REFUSED = EXAMPLES / "network.toml", EXAMPLES / "refused.toml"
BENCH, MESSAGES = EXAMPLES / "bench.list", EXAMPLES / "messages.list"
BASE = (EXAMPLES / "base.toml").read_text(encoding="utf-8")
POLICE = ["police", "1", "64", "500"]
RECORDING = bytes.fromhex("d4c3b2a1020004000000000000000000ffff000001000000")
LONG = "d" * 3000
NAME = "s234567890123456"


def slow_network() -> str:
    """A network whose first system has a long name and a slow line, and so too much jitter."""
    tables = base_tables()
    tables["buffer"] = 4_194_304
    tables["link"] = changed(tables["link"], lmax=1518, bag=128, latency=100_000, skew=100_000)
    tables["link"][0] |= {"from": NAME}
    tables["system"][0] |= {"name": NAME, "rate": 10}
    return text_of(tables).decode()


def writes_of(program: str, words: list[str], given: bytes) -> list[bytes]:
    """What each write to standard error has."""
    ours, theirs = socket.socketpair(socket.AF_UNIX, socket.SOCK_SEQPACKET)
    with ours, theirs:
        run = subprocess.Popen(
            [program, *words],
            stdin=subprocess.PIPE,
            stdout=subprocess.DEVNULL,
            stderr=theirs.fileno(),
            cwd=TOP,
        )
        theirs.close()
        try:
            run.communicate(given)
        except BrokenPipeError:
            pass
        writes = []
        while write := ours.recv(100_000):
            writes.append(write)
    return writes


def rows(folder: str) -> list[tuple[list[str], bytes, list[str]]]:
    """Words, what is read on standard input, and the lines that come, if they are known."""

    def made(name: str, content: str) -> str:
        path = os.path.join(folder, name)
        pathlib.Path(path).write_text(content, encoding="utf-8")
        return path

    def told(line: str, *words: object, given: bytes = b"") -> tuple[list[str], bytes, list[str]]:
        return [str(word) for word in words], given, [line]

    key = made("key.toml", BASE.replace("bag_ms = 1\n", "bag_ms = 3\n"))
    top = made("top.toml", BASE.replace("profile = 1", "profile = 3"))
    slow = made("slow.toml", slow_network())
    return [
        told("list BadLine 1", *POLICE, "-", given=b"x\n"),
        told("list TimeTooLarge 1", *POLICE, "-", given=b"F 1000000000000001 A 1 -\n"),
        told("recording Ended 0", *POLICE, "-", given=RECORDING[:10]),
        told("recording NotRecording 0", *POLICE, "--fcs", "yes", "-", given=b"x\n"),
        told("recording NotRecording 0 B", "replay", NETWORK, "-", BENCH, given=RECORDING),
        told("words BadRule", "police", "3", "64", "0", "-"),
        told("words BadNumber", *POLICE, "--reorder", "100001", "-"),
        told("words BadInterface", *POLICE, "--interface", "x", "-"),
        told("words SameInput", "replay", NETWORK, "-", "-"),
        told("words NoSuchSystem", "send", NETWORK, "x", "-"),
        told("words UnknownText", "explain", "x"),
        told("device Config", "check", LONG[:200]),
        told("device List", *POLICE, LONG[:200]),
        told("device Read", *POLICE, folder),
        told("config OutOfRange link 2 key 4", "check", key),
        told("config OutOfRange link 2 key 4", "replay", key, "-"),
        told("config OutOfRange link 2 key 4", "solve", key),
        told("config BadProfile", "list", top, "-"),
        told("admit A3 7 104 267995", "replay", REFUSED, BENCH),
        told("admit A3 7 104 267995", "send", REFUSED, "fcc1", MESSAGES),
        told(f"admit A5 {NAME} 1270400", "replay", slow, "-"),
        (["replay", "--explain-drops", str(NETWORK), str(BENCH)], b"", []),
        (["police", "1", "64", LONG, "-"], b"", []),
        ([LONG], b"", []),
    ]


def wrong_writes(writes: list[bytes], lines: list[str]) -> str:
    """What is wrong with what was written; the lines are known, or each write is some."""
    if not writes:
        return "nothing is written"
    if lines:
        wanted = [f"{line}\n".encode() for line in lines]
        return "" if writes == wanted else f"{writes} is written"
    words = writes[0].startswith(b"error: ")
    for write in writes:
        if not write.endswith(b"\n") or (words and len(writes) > 1):
            return f"{len(writes)} writes, one of them {write[:100]!r}"
        if not words and write.count(b"\n") != 1:
            return f"no line: {write[:100]!r}"
    return ""


def main() -> int:
    if len(sys.argv) != 2:
        print(__doc__, file=sys.stderr)
        return 2
    status = 0
    with tempfile.TemporaryDirectory(prefix="afdx-tests-") as folder:
        for words, given, lines in rows(folder):
            if wrong := wrong_writes(writes_of(sys.argv[1], words, given), lines):
                print(f"{' '.join(words)[:100]}: {wrong}")
                status = 1
    return status


if __name__ == "__main__":
    sys.exit(main())
