"""What came of the runs of a campaign: the rows of its table, their sums, the status of all."""
from __future__ import annotations

import json
import math
import os
from typing import NamedTuple, Sequence

from afdx_tools.campaign.rounds import Attempt
from afdx_tools.faults import shown
from afdx_tools.report.criteria import judged
from afdx_tools.report.ranking import latencies_of, nearest, place_of, port_of
from afdx_tools.tables import Row, link_words

SUMS = (
    "frames",
    "accepted",
    "dropped",
    "full_buffer",
    "late",
    "too_old",
    "delivered",
    "redundant",
    "refused",
    "missing",
)
SPEAKER = "afdx-report: "  # what the last line of a run begins with that gave no report
NO_RESULT = 4
ORDER = (0, 6, 5, 3, 1, 2, NO_RESULT)  # the statuses of runs, the worst last
OF_REPORTS = (0, 6, 3, 1, 2)  # those of a run that gave a report
REFUSED = (1, 2, 3)  # those of a run whose words or files can't be used: a result without a report


class Outcome(NamedTuple):
    """What came of a run: its row, its machine, the sums and findings of its report if it gave one,
    its fault. A run without a result is repeated. It has answered if the tool began on its machine
    and said how it ended. Remarks are what its standard error has besides, where it ended well."""

    row: Row
    machine: str
    totals: Row | None
    findings: Sequence[Row]
    fault: str
    is_result: bool
    has_answered: bool
    remarks: str = ""


def text_of(path: str) -> str:
    """A file's text, or nothing where it isn't there."""
    try:
        with open(path, encoding="utf-8", errors="replace") as file:
            return file.read().strip()
    except FileNotFoundError:
        return ""


def is_report(report: Row) -> bool:
    """Has a report what stands in the table and in test cases, each of its kind?"""
    counts = [report["totals"][key] for key in SUMS]
    rows = latencies_of(report)
    counts += [row[key] for row in rows for key in ("greatest_ns", "configured_ns")]
    counts += [row[key] for row in rows for key in ("frames", "late", "bound_ns")]
    places = [(*place_of(row), row["side"]) for row in rows]
    texts = [one[key] for one in report["findings"] for key in ("criterion", "words")]
    texts += [row.get("message", "") for row in rows]
    return (
        all(count is None or isinstance(count, int) for count in counts)
        and all(isinstance(part, (int, str)) for place in places for part in place)
        and all(0 <= row["share"] < math.inf for row in rows)
        and all(isinstance(text, str) for text in [*texts, report["fault"]])
    )


def report_of(out: str, number: int) -> tuple[Row | None, str]:
    """A run's report, if it gave one, and its fault."""
    folder = os.path.join(out, "runs", str(number))
    try:
        report = json.loads(text_of(os.path.join(folder, "stdout")))
        if is_report(report):
            return report, report["fault"]
        return None, "its report has values of another kind"
    except (ValueError, LookupError, TypeError, RecursionError):
        said = text_of(os.path.join(folder, "stderr")).splitlines()
        return None, said[-1] if said else "no answer"


def run_row(name: str, report: Row | None, fault: str, status: int | None, unmet: list[str]) -> Row:
    """A run's row of the table."""
    most = nearest(latencies_of(report)) if report else None
    row: Row = {"list": shown(name)}
    row.update({key: report["totals"][key] if report else None for key in SUMS})
    row["latency_ns"] = most["greatest_ns"] if most else None
    row["bound_ns"] = most["bound_ns"] if most else None
    row["configured_ns"] = most["configured_ns"] if most else None
    row["share"] = most["share"] if most else None
    row["where"] = f"{link_words(most)} at {port_of(most)}, {most['side']}" if most else None
    row["status"] = NO_RESULT if status == 0 and not report else status  # 0 only with a report
    row["fault"] = fault or ("not met: " + ", ".join(unmet) if unmet else None)
    return row


def is_result(report: Row | None, status: int, has_answered: bool) -> bool:
    """Did a run come to an end that says something of its list? A device that failed, a signal and
    a machine that broke off don't."""
    return status in (OF_REPORTS if report else REFUSED) and has_answered


def outcome_of(
    out: str, attempt: Attempt, name: str, criteria: Sequence[str], has_page: bool
) -> Outcome:
    """What came of the run of a list, on the machine of its row in the job log; whether its page is
    there, if it has to be."""
    number, machine, status = attempt
    report, fault = report_of(out, number)
    has_answered = report is not None or fault.startswith(SPEAKER)
    is_good = is_result(report, status, has_answered)
    if is_good and report and not has_page:
        is_good, fault = False, "its page didn't come back"
    totals, findings = (report["totals"], report["findings"]) if report else (None, [])
    row = run_row(name, report, fault, status, judged(totals, criteria))
    return Outcome(row, machine, totals, findings, fault, is_good, has_answered)


def not_run(name: str) -> Outcome:
    """What came of a list that was never run."""
    fault = "not run"
    return Outcome(run_row(name, None, fault, None, []), "", None, [], fault, False, False)


def worst(outcomes: Sequence[Outcome]) -> int:
    """The status of a campaign: that of its worst run."""
    found = [outcome.row["status"] if outcome.is_result else NO_RESULT for outcome in outcomes]
    return max(found, key=ORDER.index)


def sum_row(outcomes: Sequence[Outcome]) -> Row:
    """The last row of the table: sums over all runs, the latency that is nearest to its link's of
    all, the status of all, and how many runs have no result."""
    rows = [outcome.row for outcome in outcomes]
    most = max(rows, key=lambda row: row["share"] or 0)
    missing = sum(not outcome.is_result for outcome in outcomes)
    total: Row = dict.fromkeys(rows[0])
    total["list"] = f"all {len(rows)}"
    total.update({key: sum(row[key] or 0 for row in rows) for key in SUMS})
    for key in ("latency_ns", "bound_ns", "configured_ns", "share", "where"):
        total[key] = most[key]
    total["status"] = worst(outcomes)
    total["fault"] = f"{missing} without a result" if missing else None
    return total
