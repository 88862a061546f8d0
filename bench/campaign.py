#!/usr/bin/env python3
"""Measures `afdx-campaign --conform` on recordings of eight switches a side, on one core and more.

    bench/campaign.py [PROGRAM] [--times N] [--cores C] [--folder FOLDER]

PROGRAM is the built program, crates/afdx/out/afdx where it isn't given. afdx-traffic makes what the
systems of examples/aircraft.toml send in 12.8 s, of which the program says what came to each switch
and what left it. That comes N times (24 where it isn't given, which is five minutes of the aircraft
and 5.1 GB), and each switch has a recording of each network, 16 in all, with a table of taps. So a
day is some 280 times as much. All are judged with one run at a time, then with C (4).
Both times are printed by the clock, what the runs took of the processor, and the second time as a
share of the first. So are those of the longest recording alone, as a whole and in C slices of time,
whose places are said beforehand. Each run has to conform.

The files are made in a temporary folder, or in FOLDER, which has to be there. They should fit into
memory beside what else runs: else the disk is measured. Needs /usr/bin/python3 and GNU parallel.
It is a measurement and no test: it fails only where a run fails.
"""
import argparse
import os
import resource
import subprocess
import sys
import tempfile
import time

HERE = os.path.dirname(os.path.abspath(__file__))
TOP = os.path.dirname(HERE)
sys.dont_write_bytecode = True
sys.path.insert(0, os.path.join(TOP, "tests", "lib"))
from measure import PROGRAM  # noqa: E402
from tapped_switches import write_taps  # noqa: E402

CONFIG = os.path.join(TOP, "examples", "aircraft.toml")
TABLES = [os.path.join(TOP, "examples", f"aircraft_{name}.csv") for name in ("systems", "messages")]
CABLES = os.path.join(TOP, "examples", "aircraft_cables.csv")
SECONDS = "12.8"  # a hundred times the longest BAG
TIMES = 24


def tool(name):
    """The path of a tool."""
    return os.path.join(TOP, "tools", name)


def make(folder, times):
    """Writes the recordings and their table; each recording with its switch before it."""
    words = ["--profile", "2", "--cables", CABLES, "--config", CONFIG, "--seconds", SECONDS]
    subprocess.run([tool("afdx-traffic"), *words, *TABLES, folder], check=True)
    names = write_taps(CONFIG, os.path.join(folder, "all-systems.list"), folder, times)
    return [f"{name}={os.path.join(folder, path)}" for name, path in names]


def used():
    """The seconds of the processor that ended children took."""
    usage = resource.getrusage(resource.RUSAGE_CHILDREN)
    return usage.ru_utime + usage.ru_stime


def judged(folder, words):
    """Judges by a campaign of these words: seconds by the clock, and of the processor."""
    campaign = [tool("afdx-campaign"), "--conform", "--out", os.path.join(folder, "judged")]
    begin, before = time.monotonic(), used()
    subprocess.run([*campaign, *words], stdout=subprocess.DEVNULL, stderr=subprocess.DEVNULL,
                   check=True)  # fmt: skip
    return time.monotonic() - begin, used() - before


def tell(one, several, cores):
    """Prints what a campaign took with one run at a time and with several."""
    print(f"one run at a time: {one[0]:.1f} s, {one[1]:.1f} s of the processor")
    print(f"{cores} at a time: {several[0]:.1f} s, {several[1]:.1f} s of the processor")
    print(f"share: {several[0] / one[0]:.3f}; a {cores}th is {1 / cores:.3f}", flush=True)


def measure_slices(folder, word, cores):
    """Judges one recording as a whole and in so many slices, and prints."""
    switch, _, path = word.partition("=")
    print(f"{os.path.basename(path)}, {os.path.getsize(path) / 1e6:,.0f} MB, in slices of time")
    words = [tool("afdx-taps"), "--conform", "--switch", switch, CONFIG]
    words += [os.path.join(folder, "taps.csv"), path]
    places = subprocess.run(words, stdout=subprocess.PIPE, stderr=subprocess.DEVNULL, check=True)
    given = [f"--switch={switch}", *places.stdout.decode().split(), CONFIG, path]
    one = judged(folder, given)
    tell(one, judged(folder, [f"--slices={cores}", f"--jobs={cores}", *given]), cores)


def measure(folder, times, cores):
    """Makes, judges and prints."""
    words = make(folder, times)
    size = sum(os.path.getsize(word.partition("=")[2]) for word in words)
    print(f"{len(words)} recordings, {size / 1e6:,.0f} MB")
    given = ["--taps", os.path.join(folder, "taps.csv"), CONFIG, *words]
    one = judged(folder, ["--jobs=1", *given])
    tell(one, judged(folder, [f"--jobs={cores}", *given]), cores)
    longest = max(words, key=lambda word: os.path.getsize(word.partition("=")[2]))
    measure_slices(folder, longest, cores)


def main():
    words = argparse.ArgumentParser(
        description=__doc__, formatter_class=argparse.RawDescriptionHelpFormatter
    )
    add = words.add_argument
    add("program", metavar="PROGRAM", nargs="?", default=PROGRAM, help="the built program")
    add("--times", metavar="N", type=int, default=TIMES, help=f"how often all comes ({TIMES})")
    add("--cores", metavar="C", type=int, default=4, help="runs at a time (4)")
    add("--folder", metavar="FOLDER", help="where files are made")
    given = words.parse_args()
    os.environ["AFDX"] = os.path.abspath(given.program)
    with tempfile.TemporaryDirectory(prefix="afdx-campaign.", dir=given.folder) as folder:
        measure(folder, given.times, given.cores)


if __name__ == "__main__":
    main()
