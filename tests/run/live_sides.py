#!/usr/bin/env python3
"""Replays two recordings while they are written, of which one network is dead.

    tests/run/live_sides.py [--seconds N] [--keep FOLDER] PROGRAM

A system sends on network A alone, over cables of a network of its own
(tests/recordings/live_sides.py), and each network has a recorder that also hears heartbeats. With
`--live` each verdict comes at most so many ms and a heartbeat after its frame, beside what this
machine takes; without it, and without heartbeats, none comes while the recorders run. N is the
seconds of traffic (3). FOLDER keeps what was said of each bench.

Prints `ok NAME`, `FAILED NAME` or `skipped NAME: why` for each case, then `N passed, M failed`;
ends with status 1 if a case failed. Needs Python 3.11, ip and unshare, and that it may make a
network: as root, or where users may have one.
"""
from __future__ import annotations

import argparse
import json
import os
import subprocess
import sys
import tempfile

sys.dont_write_bytecode = True
TESTS = os.path.join(os.path.dirname(os.path.abspath(__file__)), "..")
sys.path[:0] = [os.path.join(TESTS, name) for name in ("lib", "recordings")]
from live import run_script, why_no_network  # noqa: E402
from program import Cases, must  # noqa: E402
from tables import link_of, system_of, tables_of, text_of  # noqa: E402

BENCH = os.path.join(TESTS, "recordings", "live_sides.py")
MS = 10**6  # ns
LIVE = 200  # ms by which a recorder's interfaces may stand out of order
HEARTBEAT = 50  # ms
MACHINE = 400  # ms that a busy machine may take beside them
PLACES = ("--interface=0=A:1", "--interface=0=B:1", "--interface=1=-")
SYSTEMS = [system_of(port) for port in (1, 2)]
TABLES = tables_of(SYSTEMS, [link_of(1, "s1", ["s2"], bag=8, jitter=500, latency=1000, skew=5000)])


class Bench:
    """What was said of a bench: when each message was sent, and when each verdict was there."""

    def __init__(self, said: dict) -> None:
        self.sent = {int(place): moment for place, moment in said["sent"].items()}
        self.until, self.err, self.status = said["until"], said["err"], said["status"]
        self.told = [(moment, line.split(" ")) for moment, line in said["told"]]

    def verdicts(self) -> list[int]:
        """When the verdict of each message came, in turn."""
        return [moment for moment, words in self.told if words[0] == "V"]

    def early(self) -> int:
        """How many verdicts came while both recorders ran."""
        return sum(moment < self.until for moment in self.verdicts())


def bench_of(program: str, seconds: int, folder: str, *words: str) -> Bench:
    """A bench with these options."""
    os.makedirs(folder, exist_ok=True)
    config = os.path.join(folder, "bench.toml")
    with open(config, "wb") as file:
        file.write(text_of(TABLES))
    run_script(BENCH, seconds, os.path.abspath(program), config, str(seconds), folder, *words)
    with open(os.path.join(folder, "said.json"), encoding="ascii") as file:
        return Bench(json.load(file))


def comes_in_time(program: str, seconds: int, folder: str) -> None:
    """Each verdict comes within the time that is said."""
    words = "--line-buffered", f"--live={LIVE}", *PLACES
    bench = bench_of(program, seconds, folder, *words)
    verdicts = bench.verdicts()
    must(len(verdicts) == len(bench.sent), f"{len(verdicts)} verdicts of {len(bench.sent)}")
    must(bench.early() == len(verdicts), f"{bench.early()} verdicts of {len(verdicts)} in time")
    delays = [moment - bench.sent[place] for place, moment in enumerate(verdicts)]
    most = (LIVE + HEARTBEAT + MACHINE) * MS
    must(max(delays) <= most, f"a verdict came {max(delays) // MS} ms after its frame")


def nothing_comes(program: str, seconds: int, folder: str, *words: str) -> None:
    """No verdict comes while the recorders run."""
    bench = bench_of(program, seconds, folder, *words, *PLACES)
    must(bench.early() == 0, f"{bench.early()} verdicts came")


def why_no_option(program: str) -> str:
    """Why the program can't be tried; empty where it can."""
    said = subprocess.run([program, "replay", "--help"], capture_output=True, check=False)
    return "" if b"--live" in said.stdout else "the program has no --live"


def main() -> None:
    """Tries the benches."""
    words = argparse.ArgumentParser(
        description=__doc__, formatter_class=argparse.RawDescriptionHelpFormatter
    )
    words.add_argument("program", metavar="PROGRAM")
    words.add_argument("--seconds", type=int, default=3, choices=range(2, 61), metavar="N")
    words.add_argument("--keep", metavar="FOLDER")
    given, cases = words.parse_args(), Cases()
    if not os.access(given.program, os.X_OK):
        words.error(f"there is no program at {given.program}")
    reason = why_no_network() or why_no_option(given.program)
    if reason:
        cases.skip("two networks, one dead", reason)
        sys.exit(cases.told())
    with tempfile.TemporaryDirectory(prefix="afdx-tests-") as folder:
        kept = given.keep or folder
        run = given.program, given.seconds
        tries = [
            ("one network dead: --live", comes_in_time, *run, f"{kept}/live"),
            ("one network dead: as they come", nothing_comes, *run, f"{kept}/as-they-come",
             "--line-buffered"),
            ("one network dead: --live without heartbeats", nothing_comes, *run, f"{kept}/silent",
             "--line-buffered", f"--live={LIVE}", "silent"),
        ]
        cases.try_at_once(tries)
    sys.exit(cases.told())


if __name__ == "__main__":
    main()
