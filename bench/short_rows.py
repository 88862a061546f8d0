"""The short table of bench/run.py: five rows, by a million lines."""
from table import head, show

HEAD = [
    "A million lines of a list take",
    "Instructions of a line",
    "User CPU",
    "Beside fast C by hand: instructions",
    "User CPU",
]


def spread(turns):
    """The least and the greatest of the ratios, in times."""
    least, greatest = (f"{ratio:.2f}" for ratio in (min(turns), max(turns)))
    return f"{least} times" if least == greatest else f"{least} to {greatest} times"


def short_cells(name, row):
    """The cells of a row, but for what stands beside it."""
    count = "-" if row.instructions is None else f"{row.instructions:,.0f}"
    return [name, count, f"{row.user / row.lines * 1e6:.1f} s"]


def beside(row):
    """How it compares with the program by hand."""
    turns, ratio = row.turns(), row.ratio()
    told = "-" if ratio is None else f"{ratio:.2f} times"
    return [told, spread(turns) if turns else "-"]


def show_short(bench, lines):
    """The table."""
    head(HEAD)
    for length, told in ((64, "64 bytes"), (1518, "1,518 bytes")):
        row = bench.police("police", {"length": length}, lines)
        show([*short_cells(f"`police`, {told}", row), *beside(row)])
    for kind, told in (("aircraft", "400 links"), ("gigabit", "4,096 links")):
        row = bench.replay("replay", kind, True, lines)
        show([*short_cells(f"`replay`, 24 systems, {told}", row), "", ""])
    show([*short_cells("`send`, 20 links of a system", bench.send(lines)), "", ""])
