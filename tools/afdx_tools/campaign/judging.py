"""Campaigns over recorded switches: each run is one of `afdx conform`."""
from __future__ import annotations

import argparse
import os
import re
from dataclasses import replace
from typing import NamedTuple, Sequence
from xml.etree import ElementTree as xml

from afdx_tools.campaign.kinds import FIRST, Kind, tool_at
from afdx_tools.campaign.outcomes import NO_RESULT, REFUSED, Outcome, text_of, worst
from afdx_tools.campaign.rounds import Attempt
from afdx_tools.campaign.runs import Run
from afdx_tools.conformance.options import conform_options
from afdx_tools.faults import Refused, shown
from afdx_tools.known import counts_of
from afdx_tools.program import program
from afdx_tools.report.criteria import OF_SWITCHES, judged, status_of
from afdx_tools.report.junit import add_conforms, suite_of
from afdx_tools.tables import Row

# options of replays, with what they are where not given
OF_REPLAYS = {"no_admission": False, "origin": None, "pages": False}
COUNTS = ("explained", "open", "uncertain", "left_out", "unseen", "idle")
VERDICTS = ("deviates", "undecided", "conforms")  # the worst first
CONCLUDED = (0, 5, 3)  # the statuses of a run with a last line
LAST = re.compile(r"(conforms|undecided|deviates)(?: (\d+))? (explained \d+(?: [a-z-]+ \d+)*)")
# how a fault begins where the program, or the tool that reads a table of taps, was called
SPOKEN = re.compile(r"(config|words|list|recording|device|memory|error:|afdx-taps:)( |$)")
OF_TAPS = "afdx-taps: "
UNKNOWN = "-"  # in the place of words of places that the run itself has to find
FEW = 20  # findings of a run in a test case
TAIL = 4096  # bytes in which the last line is


class Told(NamedTuple):
    """What a run wrote: its first findings; its verdict, with how many findings there are, and the
    counts of its last line, nothing where there is none."""

    findings: list[str]
    verdict: str = ""
    deviations: int = 0
    counts: dict[str, int] = {}


def told_by(path: str) -> Told:
    """What a run wrote into a file, which may be long."""
    try:
        with open(path, "rb") as file:
            first = [line.decode(errors="replace").rstrip() for _, line in zip(range(FEW), file)]
            file.seek(max(0, os.path.getsize(path) - TAIL))
            lines = file.read().decode(errors="replace").splitlines()
    except FileNotFoundError:
        return Told([])
    found = LAST.fullmatch(lines[-1]) if lines else None
    if found is None:
        return Told(first)
    words = found[3].replace("-", "_").split()
    count = int(found[2] or 0)
    return Told(first[:count], found[1], count, counts_of(words))


def row_of(run: Run, told: Told, fault: str, status: int | None) -> Row:
    """A run's row of the table."""
    row: Row = {"switch": run.switch} if run.switch else {}
    row |= {"list": shown(run.name), **(run.part.cells() if run.part else {})}
    row["verdict"] = told.verdict or None
    row["findings"] = told.deviations if told.verdict else None
    row |= {key: told.counts.get(key) for key in COUNTS}
    return {**row, "status": status, "fault": fault or None}


def remarks_of(lines: Sequence[str]) -> str:
    """What afdx-taps said of a recording that agrees with its table: the first line, and how many
    there are more."""
    first = lines[0].removeprefix(OF_TAPS) if lines else ""
    return f"{first} (and {len(lines) - 1} more)" if lines[1:] else first


def options_of(args: argparse.Namespace) -> list[str]:
    """The options that all runs have; Refused where one is of replays, or says nothing here."""
    others = [word for word in args.fail_on if word not in OF_SWITCHES]
    if others:
        raise Refused(f"--fail-on {others[0]} isn't a criterion with --conform")
    options = replace(conform_options(args, OF_REPLAYS), switch=None)
    if args.slices > 1:  # each says its own times
        options = replace(options, start=None, until=None)
    return [*options.words(), *options.of_recordings]


class Judgements(Kind):
    """Each run judges a recorded switch."""

    def __init__(self, args: argparse.Namespace, runs: Sequence[Run]) -> None:
        super().__init__(args, runs)
        self.options = options_of(args)
        self.taps: list[str] = []
        if args.taps is not None:
            if any(len(run.files) > 1 for run in runs):
                raise Refused("--taps takes one recording of what came and of what left")
            self.taps = [tool_at("afdx-taps"), os.path.abspath(args.taps)]

    def tool(self) -> str:
        return os.path.abspath(program())

    def words(self, run: Run) -> list[str]:
        switch = [f"--switch={run.switch}"] if run.switch else []
        times = [" ".join(run.part.words())] if run.part else []
        places = [" ".join(run.places) or UNKNOWN] if self.taps else []
        return [*switch, *self.options, *times, *places, *self.taps]

    def command(self) -> str:
        past = FIRST + self.count() - (len(self.taps) + 1 if self.taps else 0)
        before, places, times = past, "", ""
        if self.runs[0].part:
            before -= 1
            times = f"times={{{before}}}; "
        words = " ".join(f"{{{place}}}" for place in range(FIRST, before))
        if self.taps:
            switch = f"{{{FIRST}}} " if self.runs[0].switch else ""
            table = f'-- "$config" {{{past + 2}}} "$list"'
            asked = f"places=$(env {{5}} {{{past + 1}}} --conform {switch}{table}) || exit"
            places = f'places={{{past}}}; if [ "$places" = {UNKNOWN} ]; then {asked}; fi; '
        given = "$times $places" if times else "$places"
        return f'{times}{places}{{6}} conform {given} {words} -- "$config" "$@"'

    def outcome_of(self, attempt: Attempt, machine: str) -> Outcome:
        run, status = self.runs[attempt.number - 1], attempt.status
        folder = os.path.join(self.args.out, "runs", str(attempt.number))
        told = told_by(os.path.join(folder, "stdout"))
        said = text_of(os.path.join(folder, "stderr")).splitlines()
        if told.verdict and status in CONCLUDED:
            unmet = judged(told.counts, self.args.fail_on)
            fault = "not met: " + ", ".join(unmet) if unmet else ""
            row = row_of(run, told, fault, status_of(status, unmet))
            remarks = remarks_of([line for line in said if line.startswith(OF_TAPS)])
            findings = [{"words": line} for line in told.findings]
            return Outcome(row, machine, told.counts, findings, "", True, True, remarks)
        fault = said[-1] if said else "no answer"
        has_answered = SPOKEN.match(fault) is not None
        row = row_of(run, Told([]), fault, NO_RESULT if status in CONCLUDED[:2] else status)
        is_result = has_answered and status in REFUSED
        return Outcome(row, machine, None, [], fault, is_result, has_answered)

    def not_run(self, run: Run) -> Outcome:
        fault = "not run"
        return Outcome(row_of(run, Told([]), fault, None), "", None, [], fault, False, False)

    def sum_row(self, outcomes: Sequence[Outcome]) -> Row:
        rows = [outcome.row for outcome in outcomes]
        missing = sum(not outcome.is_result for outcome in outcomes)
        verdicts = {row["verdict"] for row in rows}
        worse = [word for word in VERDICTS if word in verdicts]
        total: Row = dict.fromkeys(rows[0])
        total[next(iter(total))] = f"all {len(rows)}"
        total["verdict"] = worse[0] if None not in verdicts or worse[:1] == ["deviates"] else None
        total |= {key: sum(row[key] or 0 for row in rows) for key in ("findings", *COUNTS)}
        fault = f"{missing} without a result" if missing else None
        return {**total, "status": worst(outcomes), "fault": fault}

    def suite_of(self, run: Run, outcome: Outcome) -> xml.Element:
        name, words, row = run.title(), self.args.fail_on, outcome.row
        suite = suite_of(name, outcome.fault, outcome.totals, words, (), OF_SWITCHES)
        unlike = "" if row["verdict"] in (None, "conforms") else row["verdict"]
        unlike += f" {row['findings']}" if row["findings"] else ""
        why = [finding["words"] for finding in outcome.findings]
        add_conforms(suite, name, outcome.totals is not None, unlike, why)
        return suite
