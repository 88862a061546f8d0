"""Says to the program where the interfaces of a recording were plugged in.

    afdx replay $(afdx-taps net.toml taps.csv run.pcapng) net.toml run.pcapng
    afdx-taps net.toml taps.csv A.pcapng B.pcapng
    afdx-taps --conform net.toml taps.csv run.pcapng
    afdx-taps --conform --senders net.toml taps.csv run.pcapng
    afdx-taps --senders net.toml taps.csv run.pcapng

TAPS is a table as spreadsheets write it (CSV). Its first row names the columns:

    interface   its name in the recording, or #0 for interface 0 if it has none
    side, port  A or B; the port of the switch, 1 to 24
    switch      its name, where there are several a side
    direction   in (into the switch), out (from it to the system), or none

Prints the words --interface, with --conform also --left, one a line, if
recording and table agree: each interface has its row, each row its interface,
and the source addresses of the frames name the place. Else it says what
doesn't, with status 3. With --senders 'afdx conform' judges the systems by what
they sent: beside the switch with --conform, alone without it, by what came in.
"""
from __future__ import annotations

import argparse
import os
import sys
from typing import Iterable, NoReturn

from afdx_tools.command_line import parser_of
from afdx_tools.config import read_config
from afdx_tools.faults import Refused, shown
from afdx_tools.guard import guarded
from afdx_tools.progress import Progress
from afdx_tools.recordings.tapped import DISAGREE, OF_REPLAYS, asked_for, checked
from afdx_tools.recordings.taps import WrongTaps, read_taps

TOOL = "afdx-taps"
# what the program refuses: so no run goes on without places where `$(afdx-taps ..)` failed
NO_WORD = "--interface=refused"


def say(lines: Iterable[str]) -> None:
    """Lines for the user, on standard error."""
    for line in lines:
        print(f"{TOOL}: {shown(line)}", file=sys.stderr)


def words_of(args: argparse.Namespace) -> tuple[list[str], int]:
    """The words of the program, and the status."""
    recordings = [args.recording] if args.other is None else [args.recording, args.other]
    is_judged = args.conform or args.senders
    if is_judged and len(recordings) > 1:
        word = "--conform" if args.conform else "--senders"
        raise Refused(f"{word} takes one recording, of what came and of what left")
    for path in recordings:
        if os.path.exists(path) and not os.path.isfile(path):
            raise Refused(f"{shown(path)} is no file, and it has to be read twice")
    try:
        taps = read_taps(args.taps, args.switch if is_judged else None)
        config = read_config(args.config)
        asked = OF_REPLAYS
        if is_judged:
            asked = asked_for(config, args.switch, args.senders, args.conform)
        found = checked(config, taps, recordings, recordings, Progress(TOOL), asked)
    except WrongTaps as wrong:
        say(wrong.lines)
        return [], 2
    say([*found.remarks, *found.faults])
    if found.faults and not args.anyway:
        return [], DISAGREE
    return found.words, 0


def run() -> int:
    """Prints the words; the status. Where it isn't 0 there is one that the program refuses."""
    words = [NO_WORD]
    try:
        found, status = words_of(parser().parse_args())
        words = [NO_WORD] if status else found
    except SystemExit as end:
        words = words if end.code else []
        raise
    finally:
        print("".join(f"{word}\n" for word in words), end="")
    return status


def parser() -> argparse.ArgumentParser:
    """The words that the tool takes."""
    words = parser_of(TOOL, __doc__)
    add = words.add_argument
    add("config", metavar="CONFIG", help="the configuration, which has the systems' ports")
    add("taps", metavar="TAPS", help="the table of the taps")
    add("recording", metavar="RECORDING", help="pcap or pcapng, a file")
    add("other", metavar="RECORDING", nargs="?", help="the recording of B, beside that of A")
    add("--anyway", action="store_true", help="print the words also where they don't agree")
    add("--conform", action="store_true",
        help="print the words by which 'afdx conform' judges a switch")
    add("--senders", action="store_true",
        help="those by which it judges the systems by what they sent; with --conform both")
    add("--switch", metavar="NAME",
        help="which of several switches is judged, with --conform or --senders")
    return words


def main() -> NoReturn:
    """Runs the tool."""
    guarded(TOOL, run)
