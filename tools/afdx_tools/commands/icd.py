"""Makes the configuration of a network from the tables of its interface document.

    afdx-icd systems.csv messages.csv network.toml
    afdx-icd --cables cables.csv systems.csv messages.csv aircraft.toml

The tables are CSV as spreadsheets write it; their first rows name the columns:

    systems    system, port (of the switches), id, partition, rate (Mbit/s)
    messages   message, vl, from, to (names, spaces between), every_ms, bytes,
               within_us (from end to end), priority (high or low),
               port (UDP), kind (sampling or queuing), depth
    cables     switch, port, switch, port (at both ends), rate (Mbit/s)

With cables a side has several switches, and each system a column switch. Links
take the shortest ways, or those that messages name in a column via.

The messages of one vl share a virtual link. `afdx solve` finds the least
jitters, buffers, latencies and skews with which the network is admitted. Prints
`ok`; or names each message that can't be in time, and writes nothing then
(status 1). Beside network.toml it writes network.names.csv, what the tables
call systems, switches and messages: reports and Wireshark show these names.
"""
from __future__ import annotations

import argparse
import sys
import tomllib
from typing import NoReturn

from afdx_tools.command_line import parser_of, whole
from afdx_tools.faults import Failed, Refused, shown
from afdx_tools.guard import guarded
from afdx_tools.icd.aircraft import left_out, made_of
from afdx_tools.icd.cascade import Cascade, Values
from afdx_tools.icd.changes import Comparison
from afdx_tools.icd.changes_over import change_lines
from afdx_tools.icd.document import Document
from afdx_tools.icd.layout import any_text, asked_text, config_text, naming_text, with_solved
from afdx_tools.icd.making import text_with
from afdx_tools.icd.reading import add_document_words, read_document
from afdx_tools.icd.room import Room, room_of, roomy
from afdx_tools.icd.untimely import late_lines, refusal
from afdx_tools.naming import with_table
from afdx_tools.outputs import finished
from afdx_tools.solving import bounds, check, overloads, read_admitted, solve

TOOL = "afdx-icd"
MOST_REPORTED = 20  # lines of what is wrong
MOST_RESERVE = 1000  # percent
MOST_APART = 100_000_000  # ns


def say(lines: list[str]) -> None:
    """Lines for the user, on standard error."""
    for line in lines[:MOST_REPORTED]:
        print(f"{TOOL}: {shown(line)}", file=sys.stderr)
    if len(lines) > MOST_REPORTED:
        print(f"{TOOL}: {len(lines) - MOST_REPORTED} more lines are like these", file=sys.stderr)


def solved_tables(document: Document, text: str) -> dict:
    """The tables that `solve` wrote, in the order and with the keys of the document's."""
    try:
        return with_solved(document, tomllib.loads(text))
    except (ValueError, KeyError, TypeError) as error:
        raise Failed("solve wrote other tables than it was given", 4) from error


def read_earlier(path: str, document: Document) -> dict:
    """The tables of an earlier configuration; Refused if it isn't admitted, or of another kind than
    the document."""
    tables = read_admitted(path)
    if "switch" in tables and document.cabling is None:
        raise Refused(f"{shown(path)}: it has several switches a side, and the tables have one")
    if "switch" not in tables and document.cabling is not None:
        raise Refused(f"{shown(path)}: it has one switch a side, and the tables have several")
    return tables


def run() -> int:
    """Makes the configuration that the words ask for; the status."""
    args = words().parse_args()
    document, remarks = read_document(args)
    say(remarks)
    if document.faults:
        say(document.faults)
        return 2
    since = None if args.since is None else read_earlier(args.since, document)
    if document.cabling is not None:
        return make_several(args, Cascade(document, document.cabling), since)
    solved = solve(asked_text(document), Room(args.reserve, args.apart).solve_options())
    if solved.line:
        lines = overloads(solved.line, any_text(document))
        say([refusal(document, line) for line in lines])
        return 1
    return make(args, document, solved_tables(document, solved.text), since)


def make_several(args: argparse.Namespace, cascade: Cascade, since: dict | None) -> int:
    """Makes the configuration of several switches a side; the status."""
    say(left_out(cascade))
    old = [] if since is None else since["switch"]
    room = Room(args.reserve, args.apart)
    late, values = made_of(cascade, room, Values.of(old), args.raised)
    say(late)
    if values is None:
        return 1
    lines = [] if since is None else change_lines(cascade, old, values)
    return write(args, cascade.document, text_with(cascade, values), lines)


def make(args: argparse.Namespace, document: Document, tables: dict, since: dict | None) -> int:
    """Makes the configuration with these tables and the room that is asked for, if no message is
    late; the status."""
    room, proved = room_of(args.reserve, args.apart, since), bounds(config_text(document, tables))
    late = late_lines(document, proved.latencies, room.enough_us(proved), args.reserve)
    say(late)
    if late and not args.raised:
        return 1
    made = roomy(document, room, proved, tables)
    lines = [] if since is None else Comparison(document, since, made, proved).lines()
    return write(args, document, config_text(document, made), lines)


def write(args: argparse.Namespace, document: Document, config: bytes, lines: list[str]) -> int:
    """Writes a configuration that is admitted, with the names of the document beside it, and prints
    these lines and `ok`; the status."""
    answer = check(config)
    if answer != "ok":
        raise Failed(f"what it made isn't admitted: {answer}", 4)
    with finished(args.config) as file, with_table(args.config, naming_text(document)):
        file.write(config)
    for line in [*lines, answer]:
        print(line, file=sys.stderr if args.config == "-" else sys.stdout)
    return 0


def words() -> argparse.ArgumentParser:
    """The words that the tool takes."""
    parser = parser_of(TOOL, __doc__)
    add_document_words(parser)
    add = parser.add_argument
    add("config", metavar="CONFIG", help="the configuration, or - for standard output")
    raised = "write it also where messages can't be in time, with the latencies they need"
    add("--raise", dest="raised", action="store_true", help=raised)
    reserve = "let latencies and buffer be so much more than is needed, for what comes later (0)"
    add("--reserve", type=whole(0, MOST_RESERVE), default=0, metavar="PERCENT", help=reserve)
    apart = "by how many ns one copy of a frame may be sent later than the other (0)"
    add("--apart", type=whole(0, MOST_APART), default=0, metavar="NS", help=apart)
    since = "an earlier configuration: keep what is still enough, and print what changed, and why"
    add("--since", metavar="OLD", help=since)
    return parser


def main() -> NoReturn:
    """Runs the tool."""
    guarded(TOOL, run)
