"""The report on a recorded switch as text, with its head first: fault or verdict, and findings."""
from __future__ import annotations

from typing import Iterator

from afdx_tools.conformance.grouping import firsts, of_link
from afdx_tools.conformance.numbers import account_words, no_verdict
from afdx_tools.conformance.page import COUNTED, PROVED, proved_of_senders, shown_in
from afdx_tools.conformance.proposals import option_words
from afdx_tools.conformance.senders import source_words
from afdx_tools.conformance.together import verdict_of_switch
from afdx_tools.report.ranking import latency_text, nearest
from afdx_tools.tables import Row, as_text, cell

MOST_TOLD = 10  # findings in the head of the text


def frame_text(row: Row, is_one: bool) -> str:
    """Which frame a finding names; `is_one`: one recording has all numbers."""
    if "stamp" not in row:
        return f"line {row['line']} of {row['list']}"
    return f"frame {row['line']}" + ("" if is_one else f" of {row['list']}")


def deviation_text(row: Row, is_one: bool) -> str:
    """A finding in words."""
    words = f"{row['what']}: {frame_text(row, is_one)}"
    words += "" if row["time_ns"] is None else f" at {row['time_ns']} ns"
    words += f", {of_link(row)}" if of_link(row) else ""
    words += f", port {row['port']}" + (f" ({row['system']})" if row["system"] else "")
    words += f" of {row['side']}" + (f": {row['reason']}" if row["reason"] else "")
    words += f", by {row['by_ns']} ns" if row["by_ns"] is not None else ""
    return words + (f"; {row['by_numbers']}" if row["by_numbers"] else "")


def findings_of(report: Row) -> Iterator[str]:
    """The findings in the head: all of them, or of many the first one of each link and port, and
    how many there are of a kind."""
    found, is_one = report["deviations"], len(report.get("skipped", ())) == 1
    told = found if len(found) <= MOST_TOLD else firsts(found)
    for row in told[:MOST_TOLD]:
        yield f"finding     {deviation_text(row, is_one)}"
    if len(found) > MOST_TOLD:
        for group in report["groups"][:MOST_TOLD]:
            yield f"in all      {group['words']}"
        if len(report["groups"]) > MOST_TOLD:
            yield f"in all      {len(report['groups']) - MOST_TOLD} kinds more, in the table below"


def head_of(report: Row) -> Iterator[str]:
    """The head: the fault and what it makes of the findings, or the verdict; the findings; the
    counts."""
    totals = report["totals"]
    for name in ("fault", "verdict"):
        if report[name]:
            yield f"{name:11} {report[name]}"
    if no_verdict(report):
        yield f"verdict     none: {no_verdict(report)}"
    if report["verdict"] and "of_senders" in report:
        yield f"switch      {verdict_of_switch(report)}"
    yield from findings_of(report)
    if report["verdict"]:
        for name in ("explained", "open", "uncertain", "left_out", "unseen", "idle"):
            yield f"{name.replace('_', ' '):11} {totals[name]}"
        yield f"account     {account_words(totals)}"
        yield f"measured    {totals['measured']} of {totals['of_streams']} frames that left"
        most = nearest([row for row in report["streams"] if row["frames"]])
        if most:
            yield f"nearest     {latency_text(most)}"
    if "of_senders" in report:
        yield from head_of_senders(report)
    for row in report["options"]:
        yield f"option      {option_words(row)}"
    for name, counts in report.get("skipped", {}).items():
        yield f"skipped     {cell(counts)} in {name}"


def amiss_text(row: Row) -> str:
    """A finding of a sender in words."""
    words = f"{row['what']}: {'line' if 'stamp' not in row else 'frame'} {row['line']}"
    words += "" if row["time_ns"] is None else f" at {row['time_ns']} ns"
    words += f", {of_link(row)}" if of_link(row) else ""
    words += f", port {row['port']}" + (f" ({row['system']})" if row["system"] else "")
    words += f" of {row['side']}" + (f": {row['reason']}" if row["reason"] else "")
    words += f", by {row['by_ns']} ns" if row["by_ns"] is not None else ""
    return words + (f": {row['wanted']} was next" if row["wanted"] is not None else "")


def head_of_senders(report: Row) -> Iterator[str]:
    """The same of the senders, and what the run says of both."""
    told, found = report["of_senders"], report["sender_deviations"]
    yield f"senders     {told['verdict'] or 'none: ' + told['fault']}"
    for row in (found if len(found) <= MOST_TOLD else firsts(found))[:MOST_TOLD]:
        yield f"finding     {amiss_text(row)}"
    if len(found) > MOST_TOLD:
        amiss = sorted((row for row in report["senders"] if row["amiss"]),
                       key=lambda row: -row["amiss"])  # fmt: skip
        for row in amiss[:MOST_TOLD]:
            yield f"in all      {source_words(row)}"
        if len(amiss) > MOST_TOLD:
            yield f"in all      {len(amiss) - MOST_TOLD} sources more, in the table below"
    if told["verdict"]:
        for name in ("sent", "cut", "alone"):
            yield f"{name:11} {told['totals'][name]}"
    yield f"together    {told['says']}"


def print_text(report: Row) -> None:
    """The report as text."""
    print(f"{report['run']['title']}\n")
    for line in head_of(report):
        print(line)
    for name, head in shown_in(report).items():
        print(f"\n{head}\n{as_text(report[name])}", end="")
    print("\n" + "\n".join((PROVED, *proved_of_senders(report), COUNTED)))
