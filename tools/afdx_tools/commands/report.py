"""Replays a frame list or recordings with `afdx`, and reports on it.

    afdx-report examples/network.toml examples/bench.list --out report
    afdx-report net.toml A.pcapng B.pcapng --out report
    afdx-report --conform --interface 0=A:1 --left 1=A:3 net.toml run.pcapng

Runs `afdx check CONFIG` and `afdx replay --explain-drops CONFIG LIST`, prints
the numbers as text, and writes into the folder of --out: report.html (one page
that needs nothing beside it), report.json, and a CSV file for each table. Times
and links of recordings are those that `afdx list` writes. The exit status is
that of the program; with --fail-on it is 6 where the program's is 0 and a
criterion isn't met. With --conform it reports on a recorded switch: it runs
`afdx conform CONFIG RECORDING`, or `afdx conform CONFIG CAME LEFT` of two
recordings or lists, and measures how long frames were inside; with --senders
that judges the systems by what they sent, too, or these alone.
"""
from __future__ import annotations

import argparse
import gc
import importlib
from typing import NoReturn

from afdx_tools.command_line import parser_of, whole
from afdx_tools.conformance.options import (
    BY_ROLE,
    add_conform_words,
    add_sender_words,
    conform_options,
    refuse_conform_options,
)
from afdx_tools.faults import leave
from afdx_tools.guard import guarded
from afdx_tools.recordings.options import add_recording_words
from afdx_tools.report.criteria import add_words

TOOL = "afdx-report"


def words() -> argparse.ArgumentParser:
    """The words that the tool takes."""
    parser = parser_of(TOOL, __doc__)
    add = parser.add_argument
    add("config", metavar="CONFIG", help="the configuration of the network")
    add("list", metavar="LIST", help="a frame list, a recording, or - for standard input")
    add("other", metavar="LIST", nargs="?",
        help="the recording of B, beside that of A; with --conform what left, beside what came")
    add("--out", metavar="DIR", help="the folder for page, CSV and JSON (report)")
    add("--no-admission", action="store_true", help="also where the network isn't admitted")
    add(
        "--link",
        type=whole(0, 65_535),
        action="append",
        default=[],
        metavar="VL",
        help="a link with a time line, whose way the pictures of several switches show; several "
        "times (that with the most trouble, and no way)",
    )
    add("--from", dest="begin", type=whole(0, 10**15), metavar="NS",
        help="where the time lines begin; with --conform as of afdx conform")
    add("--rows", type=whole(1, 4096), default=40, metavar="N",
        help="links in the picture of latencies (40)")
    add("--worst", type=whole(1, 10_000), default=20, metavar="N",
        help="frames in the tables of the worst: nearest to their latency, most too early (20)")
    add("--compare", metavar="OTHER.json", help="the report.json of a run to compare with")
    add("--title", help="the title of the page")
    add("--cover", metavar="FILE", help="a cover from this TOML: title, fields, parts, signatures")
    add("--json", action="store_true",
        help="print the JSON instead of the text, and write a folder only where --out names one")
    add_recording_words(parser, BY_ROLE)
    add_words(parser)
    add_conform_words(parser)
    add_sender_words(parser)
    return parser


def run() -> int:
    """Makes the report that the words ask for; the status. Help needs no numpy.

    What is made is kept until the end, and none of it refers to itself: looking for what does
    would take a seventh of the time."""
    args = words().parse_args()
    gc.disable()
    try:
        importlib.import_module("numpy")
    except ModuleNotFoundError:
        leave(TOOL, "numpy is missing: apt-get install python3-numpy", 4)
    if args.conform:
        from afdx_tools.conformance.reporting import report_conformance

        return report_conformance(TOOL, args, conform_options(args))
    from afdx_tools.report.reporting import run_report

    refuse_conform_options(args)
    return run_report(TOOL, args)


def main() -> NoReturn:
    """Runs the tool."""
    guarded(TOOL, run)
