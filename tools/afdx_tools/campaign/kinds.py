"""What the runs of a campaign do, and what is told of them."""
from __future__ import annotations

import argparse
import os
import shutil
from abc import ABC, abstractmethod
from typing import Sequence
from xml.etree import ElementTree as xml

from afdx_tools.campaign.outcomes import Outcome
from afdx_tools.campaign.rounds import Attempt
from afdx_tools.campaign.runs import Run
from afdx_tools.program import HERE
from afdx_tools.tables import Row

FIRST = 8  # the place of the first word of a kind's own among those that GNU parallel fills in


def tool_at(name: str) -> str:
    """The path of a tool: beside the package, else on PATH."""
    beside = os.path.join(HERE, name)
    return beside if os.access(beside, os.X_OK) else shutil.which(name) or beside


class Kind(ABC):
    """What the runs of a campaign are."""

    def __init__(self, args: argparse.Namespace, runs: Sequence[Run]) -> None:
        self.args, self.runs = args, runs

    @abstractmethod
    def tool(self) -> str:
        """The path of what is run, which is filled in as {6}."""

    @abstractmethod
    def words(self, run: Run) -> list[str]:
        """The words that are filled in from {8} on; of each run as many."""

    @abstractmethod
    def command(self) -> str:
        """The command, which finds the configuration in $config and the files in "$@"."""

    @abstractmethod
    def outcome_of(self, attempt: Attempt, machine: str) -> Outcome:
        """What came of a run; `machine` is where, as the user named it."""

    @abstractmethod
    def not_run(self, run: Run) -> Outcome:
        """What came of one that was never run."""

    @abstractmethod
    def sum_row(self, outcomes: Sequence[Outcome]) -> Row:
        """The last row of the table."""

    @abstractmethod
    def suite_of(self, run: Run, outcome: Outcome) -> xml.Element:
        """A run as a test suite."""

    def count(self) -> int:
        """How many words each run has."""
        return len(self.words(self.runs[0]))

    def job(self, is_remote: bool) -> str:
        """The command line of one run, which GNU parallel fills in, and quotes what it puts there:
        {1} is the number of the run, {2} its first file, {3} the second, or the configuration where
        there is none, {4} the configuration, {5} the word that names the program, {6} the tool, {7}
        the folder of pages; then the kind's own, and the table of names that is only copied. On
        another machine pages are written where the job runs, and so stand the files that were
        copied there."""
        names = "config={4} list={2} other={3}"
        choice = f"{names} out={{7}}/{{1}}"
        if is_remote:
            there = "config=./{4/} list=./{2/} other=./{3/}" if self.args.transfer else names
            here, there = f":) {choice};;", f"*) {there} out=pages/{{1}};;"
            choice = f'case "$PARALLEL_SSHLOGIN" in {here} {there} esac'
        files = 'set -- "$list"; if [ "$other" != "$config" ]; then set -- "$list" "$other"; fi'
        return f"run={{1}}; {choice}; {files}; {self.command()}"
