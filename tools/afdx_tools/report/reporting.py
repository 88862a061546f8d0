"""What afdx-report does: it runs the program, counts, and writes page, tables and numbers."""
from __future__ import annotations

import argparse
import contextlib
import json
import sys
from typing import Iterator

from afdx_tools.config import read_config
from afdx_tools.explaining import explain
from afdx_tools.faults import Failed, shown
from afdx_tools.inputs import as_file, at_hand
from afdx_tools.naming import Naming, as_called, named_rows, naming_beside
from afdx_tools.outputs import write_folder
from afdx_tools.program import program, version
from afdx_tools.progress import Progress
from afdx_tools.recordings.options import recording_options
from afdx_tools.replay.absence import (
    Copied,
    clock_rows,
    copied_of,
    dropped_rows,
    silence_rows,
    skew_rows,
)
from afdx_tools.replay.checked import Checked
from afdx_tools.replay.counting import Counting
from afdx_tools.replay.lines import keep_memory
from afdx_tools.replay.running import Source, check, listed_of, replay
from afdx_tools.replay.silence import Silences
from afdx_tools.replay.sites import Sites
from afdx_tools.report import numbers
from afdx_tools.report.compare import compared, other_report, words_of
from afdx_tools.report.cover import Cover
from afdx_tools.report.criteria import judged, status_of
from afdx_tools.report.findings import findings_of
from afdx_tools.report.lanes import arrivals_of
from afdx_tools.report.made import header
from afdx_tools.report.page import page
from afdx_tools.report.ranking import FEWEST, late_ones, latencies_of, latency_text, nearest
from afdx_tools.report.where import Where
from afdx_tools.tables import (
    COUNTED,
    EARLY,
    PROVED,
    PROVED_OF_SEVERAL,
    UNPROMISED,
    VERSION,
    WRITTEN,
    Row,
    as_text,
    cell,
    files_of,
    names_of,
)


def tables_of(counting: Counting, checked: Checked, worst: int) -> Row:
    """What is counted of a run."""
    ports, loads = numbers.port_rows(counting, checked)
    silences = Silences(counting)
    copied, sums = copied_of(counting, silences), numbers.sums_by(counting)
    return {
        **several_of(counting, checked, copied),
        "bounds": bounds_of(counting, checked),
        "silences": silence_rows(counting, silences),
        "dropped": dropped_rows(counting),
        "links": numbers.link_rows(counting, sums),
        "latency": numbers.latency_rows(counting, checked),
        "frames": numbers.frame_rows(counting, checked, worst),
        "sides": numbers.side_rows(counting, copied, sums),
        "skews": skew_rows(counting, copied),
        "clocks": clock_rows(copied),
        "ports": ports,
        "histogram": numbers.histogram_of(counting),
        "drops": numbers.drops_of(counting),
        "loads": loads,
        "arrivals": arrivals_of(counting, silences),
        "troubles": numbers.trouble_rows(counting),
        **early_of(counting, worst),
    }


def bounds_of(counting: Counting, checked: Checked) -> Row:
    """What `check` says of each port, by its number; of several switches with the switch's name."""
    config = counting.config
    named = {port: " ".join(map(str, config.keys_of(port).values())) for port in checked.bounds}
    return {
        named[port] if config.several else port: vars(bound)
        for port, bound in checked.bounds.items()
    }


def several_of(counting: Counting, checked: Checked, copied: Copied) -> Row:
    """The tables of several switches a side."""
    if counting.config.several is None:
        return {}
    from afdx_tools.report.switches import line_rows, switch_rows
    from afdx_tools.report.ways import receiver_rows, way_rows

    _, queues = counting.queues
    return {
        "ways": way_rows(counting, checked),
        "receivers": receiver_rows(counting, copied),
        "switches": switch_rows(counting),
        "lines": line_rows(counting, queues),
    }


def early_of(counting: Counting, worst: int) -> Row:
    """By how much frames came too early, where some did."""
    if not len(counting.events.early.lines):
        return {}
    frames = numbers.early_frames(counting, worst)
    return {"early_ns": numbers.early_rows(counting), "early_frames": frames}


def report_of(
    args: argparse.Namespace, source: Source, cover: Cover | None, progress: Progress
) -> tuple[Row, Counting, Where]:
    """Runs the program, and counts: the report, what the pictures need, and where frames stand."""
    called = version()
    checked = check(program(), source.config)
    tables = read_config(source.config)
    is_run = checked.answer == "ok" or args.no_admission
    listed = listed_of(source, Sites(tables.names), progress, is_run)
    events, fault, status = replay(source, tables, listed, progress)
    progress.report("counting")
    naming = naming_beside(args.config)
    counting = Counting(as_called(tables, naming), listed.listing, events)
    where = Where(source, counting)
    report: Row = {
        "version": VERSION,
        "run": header(args, source, counting, where, called, cover),
        "cover": cover.content if cover else None,
        "admission": checked.answer,
        "fault": fault,
        "status": status,
        "totals": {},
        "findings": [],
        **named_rows(tables_of(counting, checked, args.worst), Naming({}, naming.messages)),
        "proved": PROVED + (PROVED_OF_SEVERAL if tables.several else ""),
        "counted": COUNTED,
    }
    if listed.skipped and not status:
        report["skipped"] = listed.skipped
    if source.taps:
        report["taps"] = {"file": shown(args.taps), "rows": source.taps.rows}
    report["totals"] = numbers.totals(counting, report)
    report["findings"] = findings_of(report)
    where.add_to(report)
    return report, counting, where


def print_head(report: Row) -> None:
    """The findings, the sums, what is nearest."""
    print(f"{report['run']['title']}\n")
    print(f"admission   {report['admission']}")
    if report["fault"]:
        print(f"fault       {report['fault']}")
    for found in report["findings"]:
        print(f"finding     {found['criterion']}: {found['words']}")
    for line in report["unmet"]:
        print(f"not met     {line}")
    for name in (*numbers.SUMS, "missing"):
        print(f"{name.replace('_', ' '):11} {report['totals'][name]}")
    most = nearest(latencies_of(report))
    if "skipped" in report:
        print(f"skipped     {cell(report['skipped'])}")
    print(f"nearest     {latency_text(most) if most else f'no link has {FEWEST} copies at a port'}")
    for row in late_ones(latencies_of(report)):
        print(f"late        {latency_text(row)}, {row['late']} of {row['frames']} copies")
    if report["admission"] != "ok":
        print(UNPROMISED)


def print_text(report: Row) -> None:
    """The numbers as text."""
    print_head(report)
    for name, head in names_of(report).items():
        print(f"\n{head}\n{as_text(report[name])}", end="")
    if "early_ns" in report:
        print(f"\n{EARLY}, in ns\n{as_text(report['early_ns'])}", end="")
    if "compared" in report:
        print("\n" + "\n".join(words_of(report["compared"])))
        print(as_text(report["compared"]["rows"]), end="")
    print(f"\n{report['proved']}\n{COUNTED}")


@contextlib.contextmanager
def source_of(args: argparse.Namespace, progress: Progress) -> Iterator[Source]:
    """What the words name, at hand to be read more than once."""
    names = [args.list] if args.other is None else [args.list, args.other]
    if names == ["-", "-"]:
        raise Failed("words SameInput", 2)
    of_replay = ["--no-admission"] if args.no_admission else []
    with contextlib.ExitStack() as files:
        config = files.enter_context(at_hand(args.config))
        paths = [files.enter_context(at_hand(name)) for name in names]
        options, taps = recording_options(args), None
        if args.taps is not None:
            from afdx_tools.recordings.tapped import found_by

            taps = found_by(args.taps, config, paths, names, progress)
            options += taps.words
        yield Source(config, paths, options, of_replay, taps)


def write_suite(
    args: argparse.Namespace, name: str, fault: str, totals: Row | None, findings: list[Row]
) -> None:
    """Writes the run as JUnit's XML."""
    from afdx_tools.report.junit import suite_of, write_junit

    write_junit(args.junit, [suite_of(name, fault, totals, args.fail_on, findings)])


def run_report(tool: str, args: argparse.Namespace) -> int:
    """Makes the report; the status."""
    keep_memory()
    progress = Progress(tool)
    other = other_report(args.compare) if args.compare else None
    cover = Cover(args.cover) if args.cover else None
    name = args.list if args.other is None else f"{args.list},{args.other}"
    try:
        with source_of(args, progress) as source:
            for line in source.taps.remarks if source.taps else []:
                print(f"{tool}: {shown(line)}", file=sys.stderr)
            report, counting, where = report_of(args, source, cover, progress)
    except Failed as error:
        if args.junit:
            write_suite(args, name, str(error), None, [])
        raise
    finally:
        progress.done()
    report["unmet"] = judged(report["totals"], args.fail_on)
    if other is not None:
        report["compared"] = compared(report, other, args.compare)
    if args.out or not args.json:
        texts = {**files_of(report), "report.html": page(report, counting, where, args)}
        write_folder(as_file(args.out or "report"), texts, WRITTEN)
    if args.junit:
        write_suite(args, name, report["fault"], report["totals"], report["findings"])
    if args.json:
        print(json.dumps(report))
    else:
        print_text(report)
    for line in [report["fault"], *report["unmet"]]:
        if line:
            print(f"{tool}: {line}", file=sys.stderr)
            explain(line)
    return status_of(report["status"], report["unmet"])
