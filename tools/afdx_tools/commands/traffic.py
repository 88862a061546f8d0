"""Writes what all systems of an interface document send, as submission lists.

    afdx-traffic systems.csv messages.csv traffic
    afdx-traffic --config network.toml systems.csv messages.csv traffic

The tables are those of afdx-icd. FOLDER gets a list NAME.messages for each
system, for `afdx send`: each message again after its period, in its greatest
length. With --config also the frames that `afdx send` makes of it, NAME.list,
and those of all systems in the order of time, all-systems.list, for
`afdx replay`, a bench or a campaign.
"""
from __future__ import annotations

import argparse
import contextlib
import heapq
import os
import re
import subprocess
import sys
from fractions import Fraction
from typing import BinaryIO, NoReturn

from afdx_tools.command_line import parser_of, whole
from afdx_tools.faults import Failed, Refused, shown
from afdx_tools.guard import guarded
from afdx_tools.icd.reading import add_document_words, read_document
from afdx_tools.icd.submissions import Stream, streams_of, submissions
from afdx_tools.inputs import as_file
from afdx_tools.lists import MOST_LINES
from afdx_tools.placing import together
from afdx_tools.program import program, version

TOOL = "afdx-traffic"
ALL = "all-systems.list"  # no system has such a name
MOST_SECONDS = 1_000_000
MOST_REPORTED = 20  # faults of the tables
NS = 1_000_000_000  # in a second


def say(line: str) -> None:
    """A line for the user, on standard error."""
    print(f"{TOOL}: {shown(line)}", file=sys.stderr)


def seconds(text: str) -> Fraction:
    """The type of a word that is a length of time, also with a fraction."""
    if not re.fullmatch(r"[0-9]{1,7}(\.[0-9]{1,9})?", text) or not 0 < Fraction(text):
        raise argparse.ArgumentTypeError(f"{shown(text)} is no number of seconds")
    if Fraction(text) > MOST_SECONDS:
        raise argparse.ArgumentTypeError(f"{text} s are more than {MOST_SECONDS}")
    return Fraction(text)


def want_room(counts: dict[str, int], is_sent: bool, end_ns: int) -> None:
    """Refused where a list would have more lines than it may. Each message is a line, and two in
    the list of all frames."""
    most = 2 * sum(counts.values()) if is_sent else max(counts.values())
    if most > MOST_LINES:
        fits = end_ns * MOST_LINES // most // 1_000_000 / 1000
        text = f"{most} lines, and a list has {MOST_LINES} at most; --seconds {fits} has fewer"
        raise Refused(text)


def sent(config: str, name: str, written: str, submitted: str) -> bytes:
    """What the program sends of a system's messages; Failed where it refuses one. They are written
    in one place, and called as another one."""
    words = [program(), "send", as_file(config), name, as_file(written)]
    done = subprocess.run(words, capture_output=True, check=False)
    errors = done.stderr.decode("utf-8", "replace").splitlines()
    if done.returncode:
        line = errors[0] if errors else f"{program()} send ended with status {done.returncode}"
        status = done.returncode if done.returncode > 0 else 128 - done.returncode
        raise Failed(f"{name}: {shown(line)}", status)
    refused = re.search(rb"^# (\d+) (\w+)$", done.stdout, re.M)
    if refused:
        number, why = (part.decode() for part in refused.groups())
        raise Failed(f"{shown(config)} refuses line {number} of {shown(submitted)}: {why}", 1)
    if not re.fullmatch(rb"(R \d+ [AB] ([A-Za-z0-9]+ )?\d+ [0-9a-f]+\n)*", done.stdout):
        raise Failed("send wrote other lines than those of frames", 4)
    return done.stdout


def time_of(line: bytes) -> int:
    """The time of a line of a frame list."""
    return int(line.split(b" ", 2)[1])


def merge(paths: list[str], file: BinaryIO) -> None:
    """Writes the lines of frame lists as one list, in the order of time."""
    with contextlib.ExitStack() as files:
        lists = [files.enter_context(open(each, "rb")) for each in paths]
        file.writelines(heapq.merge(*lists, key=time_of))


def write(args: argparse.Namespace, streams: dict[str, list[Stream]], end_ns: int) -> None:
    """Writes the lists of all systems into the folder."""
    os.makedirs(args.folder, exist_ok=True)
    with together(args.folder) as new:
        lists = []
        for name, each in streams.items():
            with new(f"{name}.messages") as file:
                file.writelines(line.encode() for line in submissions(each, end_ns))
            if args.config is not None:
                called = os.path.join(args.folder, f"{name}.messages")
                frames = sent(args.config, name, file.name, called)
                with new(f"{name}.list") as file:
                    file.write(frames)
                lists.append(file.name)
        if args.config is not None:
            with new(ALL) as file:
                merge(lists, file)


def run() -> int:
    """Writes the lists that the words ask for; the status."""
    args = words().parse_args()
    document, remarks = read_document(args)
    for line in [*remarks, *document.faults[:MOST_REPORTED]]:
        say(line)
    if document.faults:
        return 2
    streams, end_ns = streams_of(document, args.seed), int(args.seconds * NS)
    counts = {name: sum(one.count(end_ns) for one in each) for name, each in streams.items()}
    want_room(counts, args.config is not None, end_ns)
    if args.config is not None:
        version()
    write(args, streams, end_ns)
    say(f"{sum(counts.values())} messages of {len(counts)} systems written")
    return 0


def words() -> argparse.ArgumentParser:
    """The words that the tool takes."""
    parser = parser_of(TOOL, __doc__)
    add_document_words(parser)
    add = parser.add_argument
    add("folder", metavar="FOLDER", help="where the lists go; it is made where there is none")
    add("--seconds", type=seconds, default=Fraction(1), metavar="S", help="for how long (1)")
    seed = "messages begin by chance within their period, else all at 0; which chance, 0 to 2^32"
    add("--seed", type=whole(0, 2**32), metavar="N", help=seed)
    add("--config", metavar="CONFIG", help="write frames too, as they are sent on this network")
    return parser


def main() -> NoReturn:
    """Runs the tool."""
    guarded(TOOL, run)
