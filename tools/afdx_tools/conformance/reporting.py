"""What afdx-report does with --conform: it has the program judge a recorded switch, measures, and
writes page, tables and numbers."""
from __future__ import annotations

import argparse
import contextlib
import json
import os
import sys
from typing import Collection, Iterable, Iterator, NamedTuple
from xml.etree import ElementTree as xml

from afdx_tools.columns import BEHIND_LINK, SWITCH, columns_of
from afdx_tools.config import Config, read_config
from afdx_tools.conformance.frames import Frame, frames_of_list
from afdx_tools.conformance.grouping import groups, left_twice
from afdx_tools.conformance.judging import CONFORMS, Judged, judge, least_apart, status_of
from afdx_tools.conformance.measuring import Measured, links_at, numbers_in
from afdx_tools.conformance.numbers import Numbers, totals_of
from afdx_tools.conformance.options import Options
from afdx_tools.conformance.page import COUNTED, PROVED, is_judged, page, shown_in
from afdx_tools.conformance.proposals import Proposals
from afdx_tools.conformance.recorded import Ends, Reading, Recorded
from afdx_tools.conformance.recorders import Taps
from afdx_tools.conformance.senders import Senders, source_words
from afdx_tools.conformance.senders import totals_of as totals_of_senders
from afdx_tools.conformance.text import print_text
from afdx_tools.conformance.together import of_senders_alone, premises, sentence
from afdx_tools.conformance.together import verdict_of_switch
from afdx_tools.explaining import explain
from afdx_tools.faults import Failed, Refused, shown
from afdx_tools.inputs import as_file, at_hand
from afdx_tools.naming import Naming, named_rows, naming_beside
from afdx_tools.outputs import write_folder
from afdx_tools.program import program, version
from afdx_tools.progress import Progress
from afdx_tools.recordings.options import is_recording
from afdx_tools.recordings.tapped import asked_for, found_by
from afdx_tools.replay.running import check
from afdx_tools.report.cover import Cover
from afdx_tools.report.junit import add_conforms, suite_of, write_junit
from afdx_tools.report.made import digest, run_of
from afdx_tools.report.where import utc
from afdx_tools.tables import VERSION, WRITTEN, Row, csv_text


TOO_FAR_BACK = "recording TimeBack"  # how a fault begins


class Inputs(NamedTuple):
    """What is judged, at hand to be read more than once: the configuration, what came and what
    left; and whether these are recordings. One recording has both; one list what came."""

    config: str
    paths: list[str]
    are_recorded: bool

    def names(self) -> list[str]:
        """What the inputs are, one word each."""
        names = ["CAME", "LEFT"][: len(self.paths)]
        return ["the recording"] if self.are_recorded and len(names) == 1 else names

    def are_of_senders(self, options: Options) -> bool:
        """They have what came alone, by which senders are judged."""
        return options.senders and len(self.paths) == 1 and not options.recorders.left


@contextlib.contextmanager
def inputs_of(args: argparse.Namespace, options: Options) -> Iterator[Inputs]:
    """Configuration and inputs."""
    if args.list == args.other == "-":
        raise Failed("words SameInput", 2)
    with contextlib.ExitStack() as files:
        names = (args.config, args.list, args.other)
        paths = [files.enter_context(at_hand(name)) for name in names if name is not None]
        are_said = bool(options.of_recordings) or args.taps is not None
        lacks_one = args.other is None and not options.senders
        if not are_said and (lacks_one or any(map(is_recording, paths[1:]))):
            raise Refused(
                "--interface and --left have to say where the frames of a recording came in and "
                "left; frame lists are two: CAME and LEFT"
            )
        yield Inputs(paths[0], paths[1:], are_said)


def tapped(
    args: argparse.Namespace, inputs: Inputs, options: Options, progress: Progress
) -> Options:
    """The options, with the words of a table of taps where there is one."""
    if args.taps is None:
        return options
    if len(inputs.paths) > 1:
        raise Refused("--taps takes one recording with --conform, of what came and of what left")
    asked = asked_for(read_config(inputs.config), options.switch)
    found = found_by(args.taps, inputs.config, inputs.paths, [args.list], progress, asked)
    return options.tapped(found.words)


def read(
    inputs: Inputs, options: Options, judged: Judged, config: Config
) -> tuple[Iterable[Frame], Iterable[Frame], Recorded]:
    """What came and what left, nothing where a fault ended the run; and what recordings say: after
    a fault only how far back frames stand, if that is the fault."""
    if judged.fault and not (inputs.are_recorded and judged.fault.startswith(TOO_FAR_BACK)):
        return (), (), Recorded()
    if not inputs.are_recorded:
        came, *left = map(frames_of_list, inputs.paths)
        return came, left[0] if left else (), Recorded()
    ends = Ends(config, links_at(config, options.switch)[0])
    reading = Reading(options.recorders, ends, numbers_in(judged.found))
    recorded = reading.read(inputs.paths)
    if judged.fault:
        return (), (), Recorded(back=recorded.back)
    return recorded.came, recorded.left, recorded


def made_by(
    args: argparse.Namespace,
    inputs: Inputs,
    options: Options,
    called: str,
    cover: Cover | None,
    time_0: int | None,
) -> Row:
    """What made the report."""
    names = [name for name in (args.config, args.list, args.other) if name is not None]
    heads = ["Configuration", *inputs.names()]
    if inputs.are_recorded:
        heads[1:] = ["Recording"] if len(inputs.paths) == 1 else ["Came", "Left"]
    files = [
        (head, shown(name), digest(path))
        for head, name, path in zip(heads, names, (inputs.config, *inputs.paths))
    ]
    run = run_of(args, files + ([("Cover", cover.path, cover.digest)] if cover else []), called)
    if inputs.are_recorded:
        words = options.recorders
        run["taps"] = [*words.came, *(f"left {word}" for word in words.left)]
        run["time_0_ns"] = time_0
        run["time_0"] = None if time_0 is None else f"{utc(time_0)} UTC"
    return run


def report_of(
    args: argparse.Namespace,
    options: Options,
    inputs: Inputs,
    naming: Naming,
    progress: Progress,
) -> Row:
    """Runs the program, and measures: the report."""
    cover = Cover(args.cover) if args.cover else None
    called, checked = version(), check(program(), inputs.config)
    progress.report("judging")
    more = [*options.of_recordings, "--summary"] if inputs.are_recorded else []
    judged = judge([*options.words(), *more, inputs.config, *inputs.paths])
    progress.report("measuring")
    config = read_config(inputs.config)
    came, left, recorded = read(inputs, options, judged, config)
    are_alone = inputs.are_of_senders(options)
    taps = Taps(left=frozenset()) if are_alone else Taps()
    taps = options.recorders.taps() if inputs.are_recorded else taps
    measured = Measured(config, options, came, left, judged.found, taps)
    stood = recorded.stood if inputs.are_recorded else None
    numbers = Numbers(config, checked, judged, measured, stood)
    streams, idle, deviations = numbers.streams(), numbers.idle(), numbers.deviations()
    of_switch = Judged() if are_alone else judged
    return {
        "version": VERSION,
        "run": made_by(args, inputs, options, called, cover, recorded.time_0),
        "cover": cover.content if cover else None,
        "admission": checked.answer,
        "fault": of_switch.fault,
        "status": of_switch.status,
        "verdict": of_switch.verdict,
        "totals": totals_of(of_switch, streams, idle),
        "groups": groups(named_rows(deviations, naming), left_twice(measured)),
        "deviations": named_rows(deviations, naming),
        "streams": named_rows(streams, naming),
        **(of_senders(inputs, options, numbers, naming) if options.senders else {}),
        **named_rows(Proposals(measured, recorded.resolution, recorded.back).tables(), naming),
        "idle": named_rows(idle, naming),
        **named_rows(of_recordings(inputs, judged, numbers) if inputs.are_recorded else {}, naming),
        "proved": PROVED,
        "counted": COUNTED,
    }


def of_senders(inputs: Inputs, options: Options, numbers: Numbers, naming: Naming) -> Row:
    """What a report has where senders were judged, too. After a fault nothing was counted."""
    judged = numbers.judged
    senders = Senders(numbers.measured, judged, numbers.stood)
    verdict = judged.of_senders()
    told: Row = {
        "verdict": verdict,
        "fault": judged.fault,
        "status": judged.status if judged.fault else status_of(verdict),
        "totals": totals_of_senders(judged),
    }
    asked = []
    if inputs.are_of_senders(options):
        told |= {"switch": "", "says": of_senders_alone(judged)}
    else:
        least = None if options.apart is None else least_apart(inputs.config)
        asked = premises(numbers.checked.answer, judged, options, least)
        told |= {"switch": judged.of_switch(options.exercised),
                 "says": sentence(judged, options, asked)}  # fmt: skip
    return {
        "of_senders": {**told, "status_of_both": judged.status},
        **({"premises": [premise.row() for premise in asked]} if asked else {}),
        "senders": named_rows([] if judged.fault else senders.sources(), naming),
        "sender_deviations": named_rows(senders.lines(), naming),
    }


def of_recordings(inputs: Inputs, judged: Judged, numbers: Numbers) -> Row:
    """What a report has of recordings besides: what was skipped, and what isn't judged."""
    return {
        "skipped": dict(zip(inputs.names(), judged.skipped)),
        "unseen": numbers.unseen(),
    }


# ---- what is written -----------------------------------------------------------------------------


def json_of(report: Row) -> str:
    """The report as JSON."""
    parts = (f"{json.dumps(name)}: {json.dumps(value)}" for name, value in report.items())
    return "{" + ",\n".join(parts) + "}\n"


def known_columns(options: Options, naming: Naming) -> list[str]:
    """The columns that the tables have, also without rows: which of several switches is judged, and
    what links are called."""
    columns = [] if options.switch is None else [SWITCH]
    return columns + ([BEHIND_LINK] if naming.messages else [])


def write_files(report: Row, known: Collection[str], folder: str, most: int) -> None:
    """Writes page, tables and numbers."""
    texts = {
        f"{name}.csv": csv_text(report[name], columns_of(name, report, known))
        for name in shown_in(report)
    }
    texts |= {"report.json": json_of(report), "report.html": page(report, most)}
    write_folder(folder, texts, WRITTEN)


def suite(name: str, report: Row) -> xml.Element:
    """The run as a test suite: that it ended without a fault, and that the switch conforms; where
    senders were judged, that these do."""
    told: Row = report.get("of_senders", {})
    found = suite_of(name, report["fault"] or told.get("fault", ""), None, [])
    if is_judged(report):
        verdict = verdict_of_switch(report)
        unlike = verdict if verdict != CONFORMS else ""
        why = [group["words"] for group in report["groups"]]
        add_conforms(found, name, not report["fault"], unlike, why)
    if told:
        unlike = told["verdict"] if told["verdict"] != CONFORMS else ""
        why = [source_words(row) for row in report["senders"] if row["amiss"]]
        add_conforms(found, name, not told["fault"], unlike, why, "senders")
    return found


def report_conformance(tool: str, args: argparse.Namespace, options: Options) -> int:
    """Makes the report; the status, which is that of the program."""
    progress = Progress(tool)
    naming = naming_beside(args.config)
    try:
        with inputs_of(args, options) as inputs:
            told = tapped(args, inputs, options, progress)
            report = report_of(args, told, inputs, naming, progress)
    finally:
        progress.done()
    if args.out or not args.json:
        known = known_columns(options, naming)
        write_files(report, known, as_file(args.out or "report"), args.rows)
    if args.junit:
        names = [os.path.basename(name) for name in (args.list, args.other) if name is not None]
        write_junit(args.junit, [suite(",".join(names), report)])
    if args.json:
        print(json.dumps(report))
    else:
        print_text(report)
    of_both: Row = report.get("of_senders", {})
    for fault in dict.fromkeys([report["fault"], of_both.get("fault", "")]):
        if fault:
            print(f"{tool}: {fault}", file=sys.stderr)
            explain(fault)
    return of_both.get("status_of_both", report["status"])
