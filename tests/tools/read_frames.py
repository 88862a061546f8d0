#!/usr/bin/python3
"""Reads and copies frames of recordings as afdx-report and afdx-capture annotate do, compared with
tests/lib/recorded.py.

    tests/tools/read_frames.py COUNT

Recordings are made at random, and changed. Of each the frames in front of its fault must be those
of the reference, also where only some are wanted; of one without a fault the copy must say the same
as the recording, but for frames without a stamp. Prints what isn't so, then how many were copied;
ends with status 1 if one isn't.
"""
from __future__ import annotations

import io
import os
import random
import sys
import tempfile

sys.dont_write_bytecode = True
HERE = os.path.dirname(os.path.abspath(__file__))
sys.path[:0] = [os.path.join(HERE, "..", where) for where in ("../tools", "lib", "recordings")]
from afdx_tools.recordings import reading  # noqa: E402
from afdx_tools.recordings.annotated import MOST_LINK_TYPE, Copied  # noqa: E402
from made_recordings import made, mutated  # noqa: E402
from recorded import Frame, is_recording, recorded  # noqa: E402


def plain(frame: Frame | None) -> tuple | None:
    """A frame of the reference, as far as it is compared."""
    return frame and (frame.interface, frame.link_type, frame.stamp, frame.original, frame.bytes)


def read(frame: reading.Frame) -> tuple | None:
    """A frame of the tools, likewise."""
    if frame.kind:
        return None
    return (
        frame.place,
        frame.interface.link_type,
        frame.stamp,
        frame.original,
        frame.content,
    )


def copied(frames: list[reading.Frame]) -> bytes:
    """The copy of a recording, with a comment for each frame."""
    out = io.BytesIO()
    copy = Copied(out, False)
    for frame in frames:
        copy.write("", frame, [b"# %d" % frame.number])
    return out.getvalue()


def unsaid(frame: Frame | None, other: Frame | None) -> Frame | None:
    """A frame of a copy, with what no copy says as the other one has it: that there is no stamp, or
    a wrong one; a link type that only a pcap can have."""
    if frame is None or other is None:
        return frame
    link_type = other.link_type if frame.link_type == MOST_LINK_TYPE else frame.link_type
    if other.in_range:
        return frame._replace(link_type=link_type)
    stamp = None if other.stamp is None else frame.stamp
    return frame._replace(link_type=link_type, stamp=stamp, in_range=False)


def fault_of(data: bytes, path: str, chance: random.Random) -> tuple[str, bool]:
    """What is wrong with how a recording is read, or nothing; and whether it was copied."""
    with open(path, "wb") as file:
        file.write(data)
    recording = reading.Recording(path)
    frames = list(recording.frames())
    if not is_recording(data):
        return "it is read" if frames else "", False
    wanted = recorded(data)
    count = len(wanted.numbers)
    if [read(each) for each in frames[:count]] != [plain(each) for each in wanted.numbers]:
        return "the frames are others", False
    some = sorted(chance.sample(range(1, count + 1), chance.randrange(count + 1)))
    found = list(recording.frames(some))
    if [each.number for each in found] != some or any(
        read(each) != plain(wanted.numbers[each.number - 1]) for each in found
    ):
        return "some of the frames are others", False
    if wanted.fault or len(frames) != count:
        return "" if wanted.fault else f"{len(frames)} frames, wanted {count}", False
    again = recorded(copied(frames))
    pairs = zip(again.numbers, wanted.numbers)
    if again.fault or [unsaid(*pair) for pair in pairs] != wanted.numbers:
        return f"the copy says otherwise {again.fault}", False
    return "", True


def main() -> None:
    """Makes recordings, reads and copies them."""
    chance, compared, wrong = random.Random(2), 0, 0
    with tempfile.TemporaryDirectory() as folder:
        for number in range(int(sys.argv[1])):
            data = made(chance)
            if chance.random() < 0.4:
                data = mutated(data, chance)
            fault, is_copied = fault_of(data, os.path.join(folder, "recording"), chance)
            compared += is_copied
            wrong += bool(fault)
            if fault:
                print(f"{number}: {fault}")
    print(f"{compared} were copied")
    sys.exit(1 if wrong or not compared else 0)


main()
