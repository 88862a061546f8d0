"""The table that bench/run.py prints: its head, and a row for each run."""
import statistics
from typing import NamedTuple, Optional

from measure import Counts, Run

HEAD = [
    "run",
    "lines",
    "MB",
    "seconds",
    "user seconds",
    "lines a second",
    "MB a second",
    "peak memory",
    "instructions a line",
]
RATIOS = ["instructions to the other", "user CPU to the other"]
MISSES = ["reads that miss", "writes that miss"]


class Row(NamedTuple):
    """What a list took: its runs, and what callgrind counts of a line where that is known."""

    name: str
    lines: int
    size: int
    runs: list[Run]
    counts: Optional[Counts]
    other: Optional["Row"] = None  # what another program took, whose runs took turns with these

    @property
    def seconds(self):
        return min(run.seconds for run in self.runs)

    @property
    def instructions(self):
        return None if self.counts is None else self.counts.instructions

    @property
    def user(self):
        return min(run.user for run in self.runs)

    def misses(self):
        """The cells of the misses, where they were counted."""
        told = (None, None) if self.counts is None else (self.counts.reads, self.counts.writes)
        return ["-" if count is None else f"{count:.1f}" for count in told]

    def cells(self):
        memory = max(run.memory for run in self.runs)
        return [
            self.name,
            f"{self.lines:,}",
            f"{self.size / 1e6:,.0f}",
            f"{self.seconds:.2f}",
            f"{self.user:.2f}",
            f"{self.lines / self.seconds:,.0f}" if self.seconds else "-",
            f"{self.size / self.seconds / 1e6:,.0f}" if self.seconds else "-",
            f"{memory / 1024:.1f} MiB",
            "-" if self.instructions is None else f"{self.instructions:,.0f}",
        ]

    def turns(self):
        """The ratios of user seconds to those of the other program."""
        both = zip(self.runs, self.other.runs) if self.other else ()
        return [one.user / two.user for one, two in both if two.user]

    def ratio(self):
        """That of the instructions, where they were counted."""
        if self.other is None or not self.instructions or not self.other.instructions:
            return None
        return self.instructions / self.other.instructions

    def ratios(self):
        """How it compares with the other program."""
        ratio, turns = self.ratio(), self.turns()
        return [
            "-" if ratio is None else f"{ratio:.2f}",
            f"{statistics.median(turns):.2f}" if turns else "-",
        ]


def show(cells):
    print("| " + " | ".join(cells) + " |", flush=True)


def head(cells):
    show(cells)
    print("|" + "---|" * len(cells))
