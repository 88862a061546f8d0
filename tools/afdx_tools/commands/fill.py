"""Writes the least values of four keys into a configuration as a person wrote it.

    afdx-fill network.toml network.toml

`afdx solve` finds the least jitter_us, buffer, latency_us and skew_us with
which the network is admitted. FILLED is CONFIG with these values; remarks,
order and spaces stay as they are. Prints `ok`, and on standard error a line for
each link and port where more time is needed than CONFIG asks.
"""
from __future__ import annotations

import argparse
import sys
from typing import NoReturn

from afdx_tools.command_line import parser_of
from afdx_tools.explaining import explain
from afdx_tools.faults import Failed
from afdx_tools.filling import filled
from afdx_tools.guard import guarded
from afdx_tools.inputs import as_file
from afdx_tools.naming import copied_table
from afdx_tools.outputs import finished
from afdx_tools.solving import check, solve

TOOL = "afdx-fill"


def options_of(args: argparse.Namespace) -> list[str]:
    """The words that are handed on to `solve`."""
    keep = ["--keep", args.keep] if args.keep is not None else []
    return keep + (["--raise-only"] if args.raise_only else [])


def run() -> int:
    """Fills the configuration that the words name; the status."""
    args = words().parse_args()
    with open(args.config, "rb") as file:
        config = file.read()
    solved = solve(config, options_of(args))
    if solved.line:
        print(f"{TOOL}: {solved.line}", file=sys.stderr)
        explain(solved.line, ["solve", *options_of(args), as_file(args.config)])
        return 1
    made = filled(config.decode(), solved.text).encode()
    answer = check(made)
    if answer != "ok":
        raise Failed(f"what it made isn't admitted: {answer}", 4)
    for need in solved.needs:
        print(f"{TOOL}: {need.line()}", file=sys.stderr)
    with finished(args.filled) as file, copied_table(args.config, args.filled):
        file.write(made)
    print(answer, file=sys.stderr if args.filled == "-" else sys.stdout)
    return 0


def words() -> argparse.ArgumentParser:
    """The words that the tool takes."""
    parser = parser_of(TOOL, __doc__)
    add = parser.add_argument
    add("config", metavar="CONFIG", help="the configuration; the four keys may be absent")
    add("filled", metavar="FILLED", help="where it goes: also CONFIG, or - for standard output")
    add("--keep", metavar="KEYS",
        help="of jitter,buffer,latency,skew: these keys stay as CONFIG has them")
    add("--raise-only", action="store_true", help="no value gets less than CONFIG has")
    return parser


def main() -> NoReturn:
    """Runs the tool."""
    guarded(TOOL, run)
