"""The rows of `afdx conform` for bench/run.py: two lists, one recording, and two."""
import os
import subprocess

from make_two_lists import LINKS, place_words, write_recordings, write_sent, write_two_lists
from table import show

FEW = 20_000  # frames that don't count: what is held of a recording, and more
LISTS, ONE, TWO = "lists", "one recording", "two recordings"
AS_READ = ["--reorder=0"]
SENDERS = "conform --senders, 400 links"
POLICED = "what `replay` takes to read, check and police two frames"
CONFORM = [  # the ports of a link, what is read, and options
    ("conform, 400 links to one port each", 1, LISTS, []),
    ("conform, 400 links to four ports each", 4, LISTS, []),
    ("conform, one recording, 400 links to one port each", 1, ONE, AS_READ),
    ("conform, one recording, 400 links to four ports each", 4, ONE, AS_READ),
    ("conform, two recordings, 400 links to one port each", 1, TWO, AS_READ),
    ("conform, one recording, to one port each, 10,000 frames held", 1, ONE, []),
]


def told_by(program, option=""):
    """It has the command, and its help names an option."""
    told = subprocess.run([program, "conform", "--help"], capture_output=True)
    return told.returncode == 0 and option.encode() in told.stdout


def has_conform(program):
    """It has the command."""
    return told_by(program)


def words_of(bench, ports, kind, options):
    """The words of a run but for its last input; and what writes its inputs, of which that one
    stands at a path."""
    config, came = bench.path("judged.toml"), bench.path("came.list")

    def make(path, count):
        if kind == LISTS:
            write_two_lists(config, came, path, count, ports)
        else:
            write_recordings(config, path if kind == ONE else came, path, count, ports)

    words = [bench.program, "conform", *options]
    words += [] if kind == LISTS else place_words(kind == ONE)
    return [*words, config, *([] if kind == ONE else [came])], make


def row_of(bench, row, lines):
    """A row, of so many lines that left."""
    name, ports, kind, options = row
    frames = lines // ports
    words, make = words_of(bench, ports, kind, options)
    make(bench.path("long.list"), frames)
    beside = 0 if kind == ONE else os.path.getsize(words[-1])
    return bench.row(name, words, frames, make, FEW, beside)


def policed(bench):
    """The instructions for which `replay` reads, checks and polices a frame that came: what it
    takes for one that goes to one port, less what it takes for each further port of four."""
    config, left = bench.path("judged.toml"), bench.path("left.list")
    taken: dict[int, float] = {}
    for ports in (1, 4):

        def make(path, count):
            write_two_lists(config, path, left, count, ports)

        words = [bench.program, "replay", "--no-admission", config]
        counts = bench.a_line(make, words, FEW)
        taken[ports] = 0 if counts is None else counts.instructions
    return taken[1] - (taken[4] - taken[1]) / 3


def show_senders(bench, lines):
    """The row of senders; the line of what a frame takes."""
    config, path = bench.path("judged.toml"), bench.path("long.list")

    def make(to, count):
        write_sent(config, to, count)

    make(path, lines)
    words = [bench.program, "conform", "--senders", config]
    measured = bench.row(SENDERS, words, lines, make, FEW)
    bench.show(measured)
    if measured.instructions is None:
        return []
    times = measured.instructions / policed(bench)
    return [f"{SENDERS}: {times:.2f} times what `replay` takes to read, check and police a frame"]


def show_conform(bench, only, lines):
    """The rows with this text in their names; the lines of what a frame takes, which are printed
    last."""
    told, judged = [], 0.0
    for row in CONFORM if has_conform(bench.program) else ():
        name, ports, kind, _ = row
        if only not in name or (kind != LISTS and not told_by(bench.program, "--left")):
            continue
        measured = row_of(bench, row, lines)
        bench.show(measured)
        if measured.instructions is None:
            continue
        times = measured.instructions / (bench.line_of_64() * (1 + ports))
        told.append(f"{name}: {times:.2f} times {1 + ports} lines of `police`")
        judged = judged or policed(bench)
        times = measured.instructions / ports / (2 * judged)
        told.append(f"{name}: at each port {times:.2f} times {POLICED}")
    if only in SENDERS and told_by(bench.program, "--senders"):
        told += show_senders(bench, lines)
    return told


def show_conform_growth(bench, sizes):
    """How time and memory grow with the frames that came."""
    for count in sizes:
        frames = max(1, count)
        words, make = words_of(bench, 1, LISTS, [])
        make(bench.path("long.list"), frames)
        seconds, memory = bench.best([*words, bench.path("long.list")])
        each, size = f"{seconds / frames * 1e6:.2f}", f"{memory / 1024:.1f} MiB"
        show([f"{LINKS:,}", f"{frames:,}", f"{seconds:.2f}", "-", each, size])
