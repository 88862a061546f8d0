#!/usr/bin/python3
"""Reads interfaces of recordings as afdx-taps does, compared with tests/lib/recorded.py.

    tests/tools/read_interfaces.py COUNT

Recordings are made at random, and changed. Of each that has no fault the names of interfaces, the
source addresses of AFDX frames, how many there are and the number of the first must be those of the
reference; one with a fault must be read without a fault of the reader's. Prints what isn't so, then
how many were compared; ends with status 1 if one isn't.
"""
from __future__ import annotations

import os
import random
import sys
import tempfile

sys.dont_write_bytecode = True
HERE = os.path.dirname(os.path.abspath(__file__))
sys.path[:0] = [os.path.join(HERE, "..", where) for where in ("../tools", "lib", "recordings")]
from afdx_tools.recordings import interfaces  # noqa: E402
from made_recordings import made, mutated  # noqa: E402
from recorded import is_recording, recorded  # noqa: E402

Sources = dict[int, dict[bytes, tuple[int, int]]]


def wanted(data: bytes) -> Sources:
    """Of each interface the sources of AFDX frames: how many there are, and the first's number."""
    found: Sources = {}
    for number, frame in enumerate(recorded(data).numbers, 1):
        if frame and len(frame.bytes) >= 12 and frame.bytes[:4] == b"\x03\0\0\0":
            sources = found.setdefault(frame.interface, {})
            count, first = sources.get(frame.bytes[6:12], (0, number))
            sources[frame.bytes[6:12]] = (count + 1, first)
    return found


def fault_of(data: bytes, path: str) -> tuple[str, bool]:
    """What is wrong with how a recording is read, or nothing; and whether it was compared."""
    with open(path, "wb") as file:
        file.write(data)
    read = interfaces.interfaces_of(path)
    if not is_recording(data) or recorded(data).fault:
        return "", False
    got = {place: dict(each.sources) for place, each in enumerate(read) if each.sources}
    if got == wanted(data):
        return "", True
    return f"{got}, wanted {wanted(data)}", True


def main() -> None:
    """Makes recordings, and reads them in pieces of a few bytes, so that blocks come apart."""
    chance, compared, wrong = random.Random(1), 0, 0
    with tempfile.TemporaryDirectory() as folder:
        for number in range(int(sys.argv[1])):
            interfaces.PIECE = chance.choice([1, 13, 100, 1 << 16])
            data = made(chance)
            if chance.random() < 0.4:
                data = mutated(data, chance)
            fault, is_compared = fault_of(data, os.path.join(folder, "recording"))
            compared += is_compared
            wrong += bool(fault)
            if fault:
                print(f"{number}: {fault}")
    print(f"{compared} were compared")
    sys.exit(1 if wrong or not compared else 0)


main()
