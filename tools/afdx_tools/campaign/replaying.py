"""Campaigns of replays: each run is one of afdx-report."""
from __future__ import annotations

import os
from typing import Sequence
from xml.etree import ElementTree as xml

from afdx_tools.campaign.kinds import FIRST, Kind, tool_at
from afdx_tools.campaign.machines import THIS
from afdx_tools.campaign.outcomes import Outcome, not_run, outcome_of, sum_row
from afdx_tools.campaign.rounds import Attempt
from afdx_tools.campaign.runs import Run
from afdx_tools.recordings.options import handed_on
from afdx_tools.report.junit import suite_of
from afdx_tools.tables import Row


class Replays(Kind):
    """Each run is a report on the replay of a list, a recording, or two."""

    def tool(self) -> str:
        return tool_at("afdx-report")

    def words(self, run: Run) -> list[str]:
        return handed_on(self.args)

    def command(self) -> str:
        words = ["--json"]
        if self.args.no_admission:
            words.append("--no-admission")
        if self.args.fail_on:
            words += ["--fail-on", ",".join(self.args.fail_on)]
        words += [f"{{{place}}}" for place in range(FIRST, FIRST + self.count())]
        words += ["--out", '"$out"'] if self.args.pages else []
        return f'env {{5}} {{6}} {" ".join(words)} -- "$config" "$@"'

    def outcome_of(self, attempt: Attempt, machine: str) -> Outcome:
        args, run = self.args, self.runs[attempt.number - 1]
        has_page = attempt.machine == THIS or not args.pages or os.path.exists(
            os.path.join(args.out, "pages", str(attempt.number), "report.html")
        )
        named = attempt._replace(machine=machine)
        return outcome_of(args.out, named, run.name, args.fail_on, has_page)

    def not_run(self, run: Run) -> Outcome:
        return not_run(run.name)

    def sum_row(self, outcomes: Sequence[Outcome]) -> Row:
        return sum_row(outcomes)

    def suite_of(self, run: Run, outcome: Outcome) -> xml.Element:
        words, findings = self.args.fail_on, outcome.findings
        return suite_of(run.name, outcome.fault, outcome.totals, words, findings)
