#!/usr/bin/env python3
"""Measures `afdx replay` of a long recording: a large aircraft, 10,000,000 frames.

    bench/long_recording.py [PROGRAM] [--frames N] [--reorder R] [--folder FOLDER]

PROGRAM is the built program, crates/afdx/out/afdx where it isn't given. afdx-traffic makes what the
systems of examples/aircraft.toml send in 12.8 s, a hundred times the longest BAG. What came to the
switches comes again and again, after a pause of 0.2 s, until there are N frames (10,000,000 where
it isn't given). They are recorded in a pcapng with an interface for each port of a system on each
side, without check sequences, as cards record them, and written as they are made. A recording of a
tenth as many frames stands beside it. Both have whole turns, so they have a few frames more. R is
that of `--reorder R`: 0 holds no frame, what isn't given 10,000.

One table in Markdown is printed: of each recording, replayed once from a file into /dev/null, the
frames and MB, the user and system seconds and the user seconds alone, frames a second by the former
and the greatest memory; a line below says how much memory the long one takes beside the other.
Neither has a limit of lines, and the memory mustn't grow.

The files are made in a temporary folder, or in FOLDER, which has to be there, one at a time: some
220 bytes for each frame. Needs /usr/bin/python3 and /usr/bin/time. It is a measurement and no test:
it fails only where a run fails.
"""
import argparse
import os
import subprocess
import sys
import tempfile

HERE = os.path.dirname(os.path.abspath(__file__))
TOP = os.path.dirname(HERE)
sys.dont_write_bytecode = True
sys.path.insert(0, os.path.join(TOP, "tests", "lib"))
from campaign import CABLES, CONFIG, SECONDS, TABLES, tool  # noqa: E402
from measure import PROGRAM, timed  # noqa: E402
from table import head, show  # noqa: E402
from tapped_switches import listed_in, write_recording  # noqa: E402

FRAMES = 10_000_000
SHARE = 10  # of which there is one in the shorter recording
HEAD = ["frames", "MB", "seconds", "user seconds", "frames a second", "peak memory"]


def traffic(folder):
    """What came from the systems, in the order of time."""
    words = ["--profile", "2", "--cables", CABLES, "--config", CONFIG, "--seconds", SECONDS]
    subprocess.run([tool("afdx-traffic"), *words, *TABLES, folder], check=True)
    return list(listed_in(os.path.join(folder, "all-systems.list")))


def places_of(names):
    """The words that say where each interface was."""
    words = []
    for number, tap in enumerate(names):
        words += ["--interface", f"{number}={tap.side} {tap.switch}:{tap.port}"]
    return words


def measure(program, folder, seen, frames, reorder):
    """Records so many frames, replays them, and prints the row; the memory in KiB."""
    path, turns = os.path.join(folder, "long.pcapng"), -(-frames // len(seen))
    names = {tap: tap.name for tap in dict.fromkeys(each.tap for each in seen)}
    write_recording(path, seen, names, turns)
    held = [] if reorder is None else ["--reorder", str(reorder)]
    words = [program, "replay", *held, *places_of(names), CONFIG, path]
    with open(os.devnull, "w", encoding="ascii") as nothing:
        run = timed(words, subprocess.DEVNULL, nothing, os.path.join(folder, "note"))
    count, size = turns * len(seen), os.path.getsize(path)
    os.unlink(path)
    show([
        f"{count:,}",
        f"{size / 1e6:,.0f}",
        f"{run.seconds:.2f}",
        f"{run.user:.2f}",
        f"{count / run.seconds:,.0f}",
        f"{run.memory / 1024:.1f} MiB",
    ])  # fmt: skip
    return run.memory


def main():
    words = argparse.ArgumentParser(
        description=__doc__, formatter_class=argparse.RawDescriptionHelpFormatter
    )
    add = words.add_argument
    add("program", metavar="PROGRAM", nargs="?", default=PROGRAM, help="the built program")
    add("--frames", metavar="N", type=int, default=FRAMES, help=f"how many frames ({FRAMES:,})")
    add("--reorder", metavar="R", type=int, help="the option of `replay`")
    add("--folder", metavar="FOLDER", help="where files are made")
    given = words.parse_args()
    program = os.environ["AFDX"] = os.path.abspath(given.program)
    with tempfile.TemporaryDirectory(prefix="afdx-long.", dir=given.folder) as folder:
        seen = traffic(folder)
        head(HEAD)
        few, many = (
            measure(program, folder, seen, frames, given.reorder)
            for frames in (given.frames // SHARE, given.frames)
        )
    print(f"\nThe long recording takes {(many - few) / 1024:+.1f} MiB beside the other.")


if __name__ == "__main__":
    main()
