"""The tables of bench/run.py that say how time and memory grow."""
import os

from conform_rows import has_conform, show_conform_growth
from table import head, show

HEAD = [
    "links",
    "lines",
    "seconds",
    "of these before the first line",
    "us a line",
    "peak memory",
]


def cells_of(bench, kind, lines, links):
    """The cells of a network with so many links, and a list of so many lines."""
    words = bench.network(kind, True, lines, links)
    seconds, memory = bench.best([*words, bench.path("long.list")])
    empty = bench.best([*words, os.devnull])[0]
    return [
        f"{links:,}",
        f"{lines:,}",
        f"{seconds:.2f}",
        f"{empty:.2f}",
        f"{(seconds - empty) / lines * 1e6:.2f}",
        f"{memory / 1024:.1f} MiB",
    ]


def show_growth(bench, lines):
    """The table of growth, with the lines and then with the links."""
    head(HEAD)
    sizes = [lines // 100, lines // 10, lines]
    for count in sizes:
        show(cells_of(bench, "gigabit", max(1, count), 400))
    for links in (1, 64, 1024, 4096):
        show(cells_of(bench, "gigabit", max(1, sizes[1]), links))
    if has_conform(bench.program):
        print("\n`conform`:\n")
        head(HEAD)
        show_conform_growth(bench, sizes)
