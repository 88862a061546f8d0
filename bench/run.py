"""Measures `afdx police`, `afdx replay`, `afdx send` and `afdx conform` on long lists.

    bench/run.py [PROGRAM] [--lines N] [--times T] [--only TEXT] [--baseline | --beside OTHER]
                 [--misses] [--scaling | --short]

PROGRAM is the built program, crates/afdx/out/afdx where it isn't given. The lists have N lines
(1,000,000 where it isn't given), but at most about 500 MB, and are made in a temporary folder by
bench/make_list.py, bench/make_network.py, bench/make_cascade.py, bench/make_messages.py and, for
`conform`, bench/make_two_lists.py, where a line is a frame that came, with those that left. Each
list is run T times (3 where it isn't given) from a file into /dev/null. Where the program reads
recordings, frames are also recorded, by bench/make_recording.py; each counts as a line. So are
those of `conform`, in one recording or in two. They stand in order, and none is held but in rows
that say so. One table in Markdown is printed:

    seconds        user and system seconds together, the least of the runs
    user seconds   the least of the runs
    peak memory    the greatest of the runs
    instructions   for each line, by valgrind's callgrind, the run of 20,000 lines less that of
                   none, of `conform` and where frames are held of 40,000 less that of 20,000;
                   `-` where valgrind isn't installed

MB are 1,000,000 bytes of the list, or of both. Lines below the table say what each further copy of
a frame takes (the run in which a link goes to 23 ports less that in which it goes to one), what
share of the instructions of its list line a recorded frame takes, what a frame takes at each of
several switches that it passes, and how many times as much as lines of `police`, and as reading,
checking and policing in `replay`, the lines take of a frame that came and left.

With --baseline the hand-written C program bench/handwritten/police_baseline.c is compiled by
`cc -O2`, and measured beside `police`; with --beside OTHER the program at that path beside each
row, with the same words. It must print the same, but for words at the end of the last line; where
it doesn't take the words it isn't measured.
Both run by turns, and two more columns say how the program compares with it: the ratio of the
instructions, and that of the user seconds, the median of the T turns. A ratio below 1 means that
the program takes less.

With --misses two more columns say how many reads and writes of a line miss a cache of 1 MiB, as
callgrind reckons them.

With --only the rows whose name has TEXT in it are measured. With --scaling another table is
printed: how time and memory grow with the lines of a list and with the links of a network, and for
`conform` with the frames that came. With --short it is a table of five rows, where user
CPU is that of a million lines, and the ratios to C are the least and the greatest of the turns.

Needs Linux and Python 3, no packages; with /usr/bin/time the figure for memory is the program's
alone. It is a measurement and no test: it fails only where a run fails or the two programs differ.
"""
import argparse
import os
import subprocess
import sys
import tempfile

sys.dont_write_bytecode = True
from conform_rows import show_conform  # noqa: E402
from growth import show_growth  # noqa: E402
from make_cascade import write_cascade  # noqa: E402
from make_list import MOST_LINES, write_list  # noqa: E402
from make_messages import write_messages  # noqa: E402
from make_network import write_network  # noqa: E402
from make_recording import write_recording  # noqa: E402
from measure import HERE, PROGRAM, counted, print_the_same, timed  # noqa: E402
from short_rows import show_short  # noqa: E402
from table import HEAD, MISSES, RATIOS, Row, head, show  # noqa: E402

BASELINE = os.path.join(HERE, "handwritten", "police_baseline.c")
MOST_BYTES = 500_000_000
FEW = 20_000  # lines of the list for callgrind

POLICE = [
    ("police, one frame of 64 bytes, N times", {}),
    ("police, frames of 64 random bytes", {"length": 64}),
    ("police, frames of 200 random bytes", {"length": 200}),
    ("police, frames of 1,518 random bytes", {"length": 1518}),
    ("police, R lines of 200 random bytes", {"length": 200, "raw": True}),
]
OF_64, OF_1518 = POLICE[1][0], POLICE[3][0]
HELD = ["--fcs=no", "--reorder=10000"]
NO_FCS = ["--fcs=no"]
# a name, the form, the length of the frames, options, and the row of the list that says the same
RECORDED: list[tuple[str, str, int, list[str], str]] = [
    ("police, a recording, 64 random bytes a frame", "pcap", 64, [], OF_64),
    ("the same with --fcs no, 64 bytes", "pcap", 64, NO_FCS, OF_64),
    ("the same as pcapng, 64 bytes", "pcapng", 64, NO_FCS, OF_64),
    ("the same as pcap, 10,000 frames held, 64 bytes", "pcap", 64, HELD, OF_64),
    ("police, a recording, 1,518 random bytes a frame", "pcap", 1518, [], OF_1518),
    ("the same with --fcs no, 1,518 bytes", "pcap", 1518, NO_FCS, OF_1518),
    ("the same as pcapng, 1,518 bytes", "pcapng", 1518, NO_FCS, OF_1518),
    ("the same as pcap, 10,000 frames held, 1,518 bytes", "pcap", 1518, HELD, OF_1518),
]
REPLAY = [
    ("replay, 24 systems, 400 links, 100 Mbit/s", "aircraft", True),
    ("replay, 24 systems, 4,096 links, 1 Gbit/s, profile 2", "gigabit", True),
    ("replay, 4,096 links to 23 ports each, 1 Gbit/s, profile 2", "wide", True),
    ("replay, one link to 1 port", "one", True),
    ("replay, one link to 23 ports: 22 further copies of each frame", "copies", True),
    ("replay, an overloaded port, frames lost", "lost", False),
    ("replay, an overloaded port, frames too old, profile 2", "old", False),
]
CASCADE = "replay, 8 switches a side, 984 links on ways of 1 to 4 switches"
TENTH = "the same, a tenth of the lines"
FURTHER = 22  # copies of a frame in the row `copies` beyond that in the row `one`
SEND = "send, 20 links of one system"


class Bench:
    """What is measured: a program, and where they are given one that polices a list as
    `C BAG LMAX JITTER LIST`, or another that takes the same words."""

    def __init__(self, given, folder):
        self.program, self.times, self.folder = os.path.abspath(given.program), given.times, folder
        self.misses, self.baseline = given.misses, None
        self.other = os.path.abspath(given.beside) if given.beside else None

    def path(self, name):
        return os.path.join(self.folder, name)

    def by_turns(self, *programs):
        """The runs of each of these words on a list, by turns."""
        runs: list[list] = [[] for _ in programs]
        with open(os.devnull, "w", encoding="ascii") as nothing:
            for _ in range(self.times):
                for own, words in zip(runs, programs):
                    own.append(timed(words, subprocess.DEVNULL, nothing, self.path("note")))
        return runs

    def best(self, words):
        """The least seconds and the greatest memory of some runs."""
        runs = self.by_turns(words)[0]
        return min(run.seconds for run in runs), max(run.memory for run in runs)

    def a_line(self, make, words, first):
        """What callgrind counts for each line: a list less one of the first lines alone.

        `make` writes a list of so many lines.
        """
        counts = []
        for count in (first, first + FEW):
            make(self.path("few.list"), count)
            counts.append(counted([*words, self.path("few.list")], self.folder, self.misses))
        fewer, most = counts
        return None if fewer is None or most is None else most.line(fewer, FEW)

    def head(self):
        """Prints the head of the table."""
        is_beside = self.baseline or self.other
        head([*HEAD, *(MISSES if self.misses else []), *(RATIOS if is_beside else [])])

    def show(self, row):
        """Prints a row."""
        is_beside = self.baseline or self.other
        misses = row.misses() if self.misses else []
        show([*row.cells(), *misses, *(row.ratios() if is_beside else [])])

    def beside(self, words):
        """The words of the other program, where it takes them and prints the same of the long list;
        else none."""
        if self.baseline and words[1] == "police":
            others = [self.baseline, *words[2:]]
        elif self.other:
            others = [self.other, *words[1:]]
        else:
            return []
        listing = self.path("long.list")
        is_same = print_the_same([*words, listing], [*others, listing], self.folder)
        return others if is_same else []

    def row(self, name, words, count, make, first=0, beside=0):
        """The row of some words on the long list of so many lines. Those of the first lines don't
        count as instructions; so many bytes are read beside it."""
        listing, others = self.path("long.list"), self.beside(words)
        both = [each for each in (words, others) if each]
        all_runs = self.by_turns(*([*each, listing] for each in both))
        size, found = os.path.getsize(listing) + beside, None
        for each, runs in reversed([*zip(both, all_runs)]):
            found = Row(name, count, size, runs, self.a_line(make, each, first), found)
        return found

    def police(self, name, options, lines):
        """The row of `police`."""
        length = options.get("length", 64)
        count = min(lines, MOST_BYTES // (2 * length + 20))

        def make(path, count):
            write_list(path, count, **options)

        make(self.path("long.list"), count)
        words = [self.program, "police", "1", str(max(length, 64)), "500"]
        return self.row(name, words, count, make)

    def recording(self, name, form, length, options, lines):
        """The row of `police` on a recording."""
        count = min(lines, MOST_BYTES // (length + 16))

        def make(path, count):
            write_recording(path, count, length, form=form)

        make(self.path("long.list"), count)
        words = [self.program, "police", *options, "1", str(length), "500"]
        first = FEW if options is HELD else 0  # so many are held, and more
        return self.row(name, words, count, make, first)

    def network(self, kind, is_admitted, lines, links=None):
        """Writes a network and its list; gives the words that replay it."""
        config = self.path(f"{kind}.toml")
        write_network(kind, config, self.path("long.list"), lines, links)
        if is_admitted:
            subprocess.run([self.program, "check", config], stdout=subprocess.DEVNULL, check=True)
        return [self.program, "replay", *([] if is_admitted else ["--no-admission"]), config]

    def replay(self, name, kind, is_admitted, lines):
        words = self.network(kind, is_admitted, lines)

        def make(path, count):
            write_network(kind, self.path("few.toml"), path, count)

        return self.row(name, words, lines, make)

    def cascade(self, lines):
        """The rows of several switches a side: all lines, and a tenth; and the instructions of a
        hop, where a frame passes a switch."""
        config, listing, hops = self.path("cascade.toml"), self.path("long.list"), [0]

        def make(path, count):
            hops[0] = write_cascade(self.path("few.toml"), path, count)

        write_cascade(config, listing, lines // 10)
        words = [self.program, "replay", config]
        runs = self.by_turns([*words, listing])[0]
        tenth = Row(TENTH, lines // 10, os.path.getsize(listing), runs, None)
        write_cascade(config, listing, lines)
        row = self.row(CASCADE, words, lines, make)
        hop = None if row.instructions is None else row.instructions * FEW / hops[0]
        return [row, tenth], hop

    def send(self, lines):
        config = self.path("send.toml")
        write_messages(config, self.path("long.list"), lines)

        def make(path, count):
            write_messages(self.path("few.toml"), path, count)

        return self.row(SEND, [self.program, "send", config, "s1"], lines, make)

    def line_of_64(self):
        """The instructions of a line of `police`."""

        def make(path, count):
            write_list(path, count, length=64)

        counts = self.a_line(make, [self.program, "police", "1", "64", "500"], FEW)
        return None if counts is None else counts.instructions


def read_words():
    """The words of the command line, where they are right."""
    words = argparse.ArgumentParser(
        description=__doc__, formatter_class=argparse.RawDescriptionHelpFormatter
    )
    words.add_argument(
        "program", metavar="PROGRAM", nargs="?", default=PROGRAM, help="the built program"
    )
    words.add_argument("--lines", metavar="N", type=int, default=MOST_LINES, help="lines of a list")
    words.add_argument("--times", metavar="T", type=int, default=3, help="runs of each kind")
    words.add_argument(
        "--only", metavar="TEXT", default="", help="measure the rows with TEXT in their names"
    )
    beside = words.add_mutually_exclusive_group()
    beside.add_argument(
        "--baseline", action="store_true", help="measure the hand-written C program too"
    )
    beside.add_argument("--beside", metavar="OTHER", help="measure the program at this path too")
    words.add_argument(
        "--misses", action="store_true", help="count what misses a cache of 1 MiB, too"
    )
    tables = words.add_mutually_exclusive_group()
    tables.add_argument("--scaling", action="store_true", help="print the table of growth")
    tables.add_argument("--short", action="store_true", help="print a table of five rows")
    given = words.parse_args()
    if not 1 <= given.lines <= MOST_LINES:
        words.error(f"N is 1 to {MOST_LINES}")
    if given.times < 1:
        words.error("T is at least 1")
    if not os.access(given.program, os.X_OK):
        words.error(
            f"there is no program at {given.program}: build it first, by bin/afdx --version"
        )
    if given.beside and not os.access(given.beside, os.X_OK):
        words.error(f"there is no program at {given.beside}")
    if given.beside and (given.scaling or given.short):
        words.error("--beside is for the table of all rows")
    return given


def show_police(bench, given):
    """The rows of `police`, by their names."""
    by_name = {}
    for name, options in POLICE:
        if given.only in name:
            by_name[name] = bench.police(name, options, given.lines)
            bench.show(by_name[name])
    return by_name


def knows(program, option):
    """Its help names an option of recordings."""
    told = subprocess.run([program, "police", "--help"], capture_output=True, check=True)
    return option in told.stdout


def show_recorded(bench, given):
    """The rows of recordings, each with the name of its list's row."""
    rows, orders = [], knows(bench.program, b"--reorder")
    for name, form, length, options, listed in RECORDED:
        if options is not HELD and orders:
            options = [*options, "--reorder=0"]
        if given.only in name and (options is not HELD or orders):
            rows.append((bench.recording(name, form, length, options, given.lines), listed))
            bench.show(rows[-1][0])
    return rows


def show_shares(recorded, by_name):
    """What share of the instructions of its list line a recorded frame takes."""
    for row, listed in recorded:
        line = by_name.get(listed)
        if line is not None and line.instructions and row.instructions is not None:
            share = row.instructions / line.instructions
            print(f"\n{row.name}: {share:.0%} of the instructions of a list's line")


def show_replay(bench, given):
    """The rows of `replay`, and what a further copy takes."""
    by_kind = {}
    for name, kind, is_admitted in REPLAY:
        if given.only in name:
            by_kind[kind] = bench.replay(name, kind, is_admitted, given.lines)
            bench.show(by_kind[kind])
    return by_kind


def show_cascade(bench, given):
    """The rows of several switches a side; the line of a hop, which is printed last."""
    if given.only not in CASCADE:
        return ""
    rows, hop = bench.cascade(given.lines)
    for row in rows:
        bench.show(row)
    return "" if hop is None else f"A frame through a switch of several: {hop:,.0f} instructions"


def show_copies(one, copies):
    """What each further copy of a frame takes."""
    ns = (copies.seconds - one.seconds) / copies.lines / FURTHER * 1e9
    told = f"Each further copy of a frame: {ns:,.0f} ns"
    if one.instructions is not None:
        told += f", {(copies.instructions - one.instructions) / FURTHER:,.0f} instructions"
    print(f"\n{told}")


def main():
    given = read_words()
    with tempfile.TemporaryDirectory(prefix="afdx-bench-") as folder:
        bench = Bench(given, folder)
        if given.scaling:
            show_growth(bench, given.lines)
            return
        if given.baseline or given.short:
            bench.baseline = bench.path("police_baseline")
            subprocess.run(["cc", "-O2", "-o", bench.baseline, BASELINE], check=True)
        if given.short:
            show_short(bench, given.lines)
            return
        bench.head()
        by_name, recorded = show_police(bench, given), []
        if knows(bench.program, b"--interface"):
            recorded = show_recorded(bench, given)
        by_kind = show_replay(bench, given)
        told = show_cascade(bench, given)
        if given.only in SEND:
            bench.show(bench.send(given.lines))
        judged = show_conform(bench, given.only, given.lines)
        show_shares(recorded, by_name)
        if {"one", "copies"} <= set(by_kind):
            show_copies(by_kind["one"], by_kind["copies"])
        for line in [told, *judged] if told else judged:
            print(f"\n{line}")


if __name__ == "__main__":
    main()
