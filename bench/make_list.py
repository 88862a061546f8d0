#!/usr/bin/env python3
"""Writes a frame list to measure `afdx police` with.

    bench/make_list.py PATH [N] [--both-sides] [--length L] [--raw]

Writes N lines (1,000,000 where it isn't given, which is the most a list may have) to PATH. Each is
a frame of link 1 at input port 1. The first comes at 0, each next one 1 ms later. Without --length
all are one and the same frame of 64 bytes. With it they have L bytes, 64 to 1518, their messages
are random bytes, and each is another; with --raw they are R lines, which have their check sequence
in the list. With --both-sides the lines alternate between side A and B. `-` as PATH is standard
output.
"""
import argparse
import contextlib
import os
import random
import sys

HERE = os.path.dirname(os.path.abspath(__file__))
sys.dont_write_bytecode = True
sys.path.insert(0, os.path.join(HERE, "..", "examples"))
from frame_builder import frame_of, sealed  # noqa: E402

FRAME = frame_of(1, 1, 1, b"hello", 0, "A", 1000)
STEP_NS = 1_000_000
MOST_LINES = 1_000_000


def frames(length, raw):
    """Frame after frame, each with another message."""
    chance = random.Random(length)
    size = length - 47
    head = frame_of(1, 1, 1, bytes(size), 0, "A", 1000, length)[:42]
    while True:
        frame = head + chance.randbytes(size) + bytes([chance.randrange(256)])
        yield sealed(frame) if raw else frame


def lines(count, both_sides=False, length=None, raw=False):
    made = None if length is None else frames(length, raw)
    kind = "R" if raw else "F"
    for k in range(count):
        side = "B" if both_sides and k % 2 else "A"
        frame = FRAME if made is None else next(made)
        yield f"{kind} {k * STEP_NS} {side} 1 {frame.hex()}\n"


def write_list(path, count=MOST_LINES, both_sides=False, length=None, raw=False):
    with contextlib.ExitStack() as stack:
        out = sys.stdout
        if path != "-":
            out = stack.enter_context(open(path, "w", encoding="ascii"))
        out.writelines(lines(count, both_sides, length, raw))


def main():
    words = argparse.ArgumentParser(
        description=__doc__, formatter_class=argparse.RawDescriptionHelpFormatter
    )
    words.add_argument("path", metavar="PATH", help="where to write the list; - is standard output")
    words.add_argument(
        "count", metavar="N", nargs="?", type=int, default=MOST_LINES, help="how many lines"
    )
    words.add_argument(
        "--both-sides", action="store_true", help="alternate between side A and side B"
    )
    words.add_argument(
        "--length", metavar="L", type=int, help="the length of the frames, each of them another"
    )
    words.add_argument("--raw", action="store_true", help="R lines in place of F lines")
    given = words.parse_args()
    if not 0 <= given.count <= MOST_LINES:
        words.error(f"N is 0 to {MOST_LINES}")
    if given.length is not None and not 64 <= given.length <= 1518:
        words.error("L is 64 to 1518")
    if given.raw and given.length is None:
        words.error("--raw goes with --length")
    write_list(given.path, given.count, given.both_sides, given.length, given.raw)


if __name__ == "__main__":
    main()
