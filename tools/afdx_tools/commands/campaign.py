"""Replays or judges many lists or recordings with `afdx`; ends with one table.

    afdx-campaign examples/network.toml monday/*.list --out monday
    afdx-campaign net.toml 1/A.pcapng,1/B.pcapng 2/A.pcapng,2/B.pcapng
    afdx-campaign --conform --taps taps.csv net.toml fwd=1.pcapng aft=2.pcapng

Each run is one of `afdx-report`, over a list, a recording, or the recordings of
both networks with a comma between. With --conform it is one of `afdx conform`,
over what came to a switch and left it: a recording, or CAME,LEFT. Of several
switches each is judged that the word names, or that the table of taps has.
Which runs where and when is left to GNU parallel (apt-get install parallel).
The folder of --out gets campaign.csv, what each run wrote (runs/1/stdout and
so on, in the order of the lists: the report as JSON, or the lines of conform),
and what --resume needs. A run that didn't begin, or whose machine died, goes to
another machine. The exit status is that of the worst run: a run without a
result (4) is worst, then come 2, 1, 3, 5 and 6.
"""
from __future__ import annotations

import argparse
import itertools
import os
import shutil
import sys
from collections import defaultdict
from typing import Iterator, NoReturn, Sequence

from afdx_tools.campaign.judging import Judgements
from afdx_tools.campaign.kinds import FIRST, Kind
from afdx_tools.campaign.machines import MOST_FAILED, PATIENCE, Machines
from afdx_tools.campaign.outcomes import SPEAKER, Outcome, worst
from afdx_tools.campaign.replaying import Replays
from afdx_tools.campaign.rounds import Attempt, JobLog, next_round, play
from afdx_tools.campaign.runs import in_slices, judgements, replays
from afdx_tools.campaign.slices import HIDDEN as HIDDEN_BY_SLICES, MOST
from afdx_tools.command_line import parser_of, whole as whole_number
from afdx_tools.config import read_config
from afdx_tools.conformance.options import (
    BY_ROLE,
    LATEST,
    add_conform_words,
    refuse_conform_options,
)
from afdx_tools.explaining import explain_all
from afdx_tools.faults import Refused, shown
from afdx_tools.guard import guarded
from afdx_tools.inputs import as_file
from afdx_tools.naming import table_beside
from afdx_tools.outputs import whole
from afdx_tools.placing import clear
from afdx_tools.program import program, version
from afdx_tools.recordings.options import add_recording_words
from afdx_tools.report.criteria import CRITERIA, add_words
from afdx_tools.report.junit import write_junit
from afdx_tools.tables import as_text, csv_text

TOOL = "afdx-campaign"
HIDDEN = (
    "with --from a switch may have let frames through that it had to drop for what came before, "
    "or dropped some for which it had room: that isn't found"
)
NO_SLICES = (
    "a replay isn't split, since what a switch does with a frame depends on all that came before"
)


def say(line: str) -> None:
    """A line for the user, on standard error."""
    print(f"{TOOL}: {line}", file=sys.stderr)


def remote_words(args: argparse.Namespace, kind: Kind) -> list[str]:
    """What GNU parallel has to know where runs go to other machines."""
    needed = [name for name, on in (("--transfer", args.transfer), ("--pages", args.pages)) if on]
    if needed and shutil.which("rsync") is None:
        raise Refused(f"{needed[0]} with other machines wants rsync: apt-get install rsync")
    words = ["--workdir", "...", "--cleanup"]
    if args.transfer and args.taps is not None:
        raise Refused("--transfer copies no table of taps: let it lie where all machines see it")
    if "PARALLEL_SSH" not in os.environ:
        words += ["--ssh", f"ssh {PATIENCE}"]
    if args.transfer:
        copied = [2, 3, 4, *(FIRST + kind.count() for _ in args.names)]
        for run in kind.runs:
            files = (args.config, *args.names, *run.files)
            names = [os.path.basename(path) for path in files]
            if len(names) != len(set(names)):
                raise Refused(
                    "--transfer wants lists that have other names than the configuration, and "
                    "other names than one another where two belong together"
                )
        for place in copied:
            words += ["--transferfile", f"{{{place}//}}/./{{{place}/}}"]
    return words + (["--return", "pages/{1}"] if args.pages else [])


def starter(args: argparse.Namespace, kind: Kind, machines: Machines) -> list[str]:
    """The words of GNU parallel, which runs in the folder of the campaign."""
    parallel = shutil.which("parallel")
    if parallel is None:
        raise Refused("GNU parallel is missing: apt-get install parallel")
    words = [parallel, "--null", "--max-args", str(FIRST - 1 + kind.count() + len(args.names))]
    words += ["--joblog", "+joblog", "--results", os.path.join("runs", "{1}", "")]
    if sys.stderr.isatty():
        words.append("--bar")
    if args.jobs:
        words += ["--jobs", args.jobs]
    if machines.are_named:
        words += ["--sshloginfile", "machines"]
    if machines.have_others:
        words += remote_words(args, kind)
    return [*words, kind.job(machines.have_others)]


def records(args: argparse.Namespace, kind: Kind, numbers: Sequence[int]) -> Iterator[bytes]:
    """What GNU parallel fills in for these runs: the longest first, so that none of these runs
    alone at the end."""
    tool, config = kind.tool(), os.path.abspath(args.config)
    pages = os.path.abspath(os.path.join(args.out, "pages"))
    afdx = f"AFDX={os.path.abspath(program())}"
    for number in sorted(numbers, key=lambda number: -kind.runs[number - 1].size):
        run = kind.runs[number - 1]
        first, *second = (os.path.abspath(path) for path in run.files)
        files = [first, *(second or [config])]
        words = [str(number), *files, config, afdx, tool, pages, *kind.words(run), *args.names]
        yield b"".join(os.fsencode(word) + b"\0" for word in words)


def names_to_copy(args: argparse.Namespace) -> list[str]:
    """The table of names beside the configuration, where there is one, and files are copied."""
    path = os.path.abspath(table_beside(args.config))
    return [path] if args.transfer and os.path.isfile(path) else []


def noted(path: str) -> list[bytes]:
    """The names of a file of names; none where it isn't there."""
    try:
        with open(path, "rb") as file:
            return file.read().split(b"\0")[:-1]
    except FileNotFoundError:
        return []


def note_lists(args: argparse.Namespace, kind: Kind) -> None:
    """Notes the lists in their order, the recordings of B or what left beside them, or the
    configuration, and which switch and slice is judged; with --resume the earlier ones have to
    stand first again."""
    for path in (os.path.join(args.out, name) for name in ("runs", "pages", "campaign.csv")):
        if not args.resume or os.path.islink(path):  # nothing is written where a link leads to
            clear(path)
    notes: dict[str, list[str]] = {"lists": [], "others": [], "judged": []}
    for run in kind.runs:
        first, other, *_ = (os.path.abspath(path) for path in (*run.files, args.config))
        judged = run.judged if args.conform else ""
        for each, note in zip(notes.values(), (first, other, judged)):
            each.append(note)
    for name, noted_now in notes.items():
        path = os.path.join(args.out, name)
        names = list(map(os.fsencode, noted_now))
        before = noted(path) if args.resume else []
        if names[: len(before)] != before:
            raise Refused(
                f"--resume wants the lists of {path} in that order, then any new ones, and the "
                "same configuration"
            )
        with whole(path) as file:
            file.writelines(name + b"\0" for name in names)


class Campaign:
    """The runs of a campaign: what came of each, and on which machines each was tried since."""

    def __init__(self, args: argparse.Namespace, kind: Kind, machines: Machines) -> None:
        self.args, self.kind, self.machines = args, kind, machines
        self.outcomes: dict[int, Outcome] = {}
        self.tried: dict[int, list[str]] = defaultdict(list)
        self.going_to: list[str] = []
        self.log = JobLog(os.path.join(args.out, "joblog"), args.resume)
        earlier = {attempt.number: attempt for attempt in self.log.new()}
        for number in earlier.keys() & self.numbers():
            self.take(earlier[number])

    def numbers(self) -> set[int]:
        """The numbers of all runs."""
        return set(range(1, len(self.kind.runs) + 1))

    def take(self, attempt: Attempt) -> Outcome:
        """Notes what came of a run."""
        outcome = self.kind.outcome_of(attempt, self.machines.shown(attempt.machine))
        self.outcomes[attempt.number] = outcome
        return outcome

    def look(self) -> bool:
        """Notes what has ended since the last look. Is there a machine left to go to?"""
        for attempt in self.log.new():
            outcome = self.take(attempt)
            self.tried[attempt.number].append(attempt.machine)
            if self.machines.note(attempt.machine, outcome.has_answered):
                why = f"{MOST_FAILED} runs in a row failed there: {shown(outcome.fault)}"
                say(f"{shown(outcome.machine)} is left out, as {why}")
                self.go_to([name for name in self.going_to if name != attempt.machine])
        return bool(self.going_to)

    def go_to(self, names: list[str]) -> None:
        """Says to which machines runs go from now on."""
        self.going_to = names
        if names:
            self.machines.write(os.path.join(self.args.out, "machines"), names)

    def run_all(self, words: Sequence[str]) -> None:
        """Runs all that have no result yet, in rounds, until there is nowhere to go."""
        while True:
            waiting = [n for n in sorted(self.numbers()) if not self.has_result(n)]
            numbers, names = next_round(waiting, self.tried, self.machines)
            if not numbers:
                return
            self.go_to(names)
            for folder, number in itertools.product(("runs", "pages"), numbers):
                clear(os.path.join(self.args.out, folder, str(number)))
            before = sum(map(len, self.tried.values()))
            play(words, records(self.args, self.kind, numbers), self.args.out, self.look)
            if sum(map(len, self.tried.values())) == before and self.going_to == names:
                return  # GNU parallel began nothing, and has said why

    def has_result(self, number: int) -> bool:
        """Has a run come to its end?"""
        return number in self.outcomes and self.outcomes[number].is_result

    def all_outcomes(self) -> list[Outcome]:
        """What came of each run, in their order."""
        runs = enumerate(self.kind.runs, 1)
        return [self.outcomes.get(number) or self.kind.not_run(run) for number, run in runs]


def report(args: argparse.Namespace, kind: Kind, outcomes: Sequence[Outcome]) -> None:
    """Writes the table and the criteria, and prints the table with a last line of sums."""
    if args.junit:
        write_junit(args.junit, list(map(kind.suite_of, kind.runs, outcomes)))
    rows = [{**outcome.row, "machine": shown(outcome.machine)} for outcome in outcomes]
    with whole(os.path.join(args.out, "campaign.csv")) as file:
        file.write(csv_text(rows).encode(errors="backslashreplace"))
    for number, (run, outcome) in enumerate(zip(kind.runs, outcomes), 1):
        if outcome.remarks:
            path = os.path.join(args.out, "runs", str(number), "stderr")
            say(shown(f"{run.switch or run.name}: {path} says: {outcome.remarks}"))
    print(as_text([*(outcome.row for outcome in outcomes), kind.sum_row(outcomes)]), end="")
    faults = [outcome.fault.removeprefix(SPEAKER) for outcome in outcomes]
    explain_all(faults, ["check", as_file(args.config)])
    if args.begin is not None:
        say(HIDDEN)
    if args.slices > 1:
        say(HIDDEN_BY_SLICES)
    missing = sum(not outcome.is_result for outcome in outcomes)
    if missing:
        say(f"{missing} of {len(outcomes)} runs have no result (--resume repeats them)")


def kind_of(args: argparse.Namespace) -> Kind:
    """What the runs are; Refused where a word is of the other kind."""
    if args.conform:
        config = read_config(as_file(args.config))
        return Judgements(args, in_slices(config, args, judgements(config, args, say), say))
    refuse_conform_options(args)
    if args.slices > 1:
        raise Refused(f"--slices is an option with --conform only: {NO_SLICES}")
    if args.begin is not None:
        raise Refused("--from is an option with --conform only")
    others = [word for word in args.fail_on if word not in CRITERIA]
    if others:
        raise Refused(f"--fail-on {others[0]} is a criterion with --conform only")
    return Replays(args, replays(args.lists))


def run(args: argparse.Namespace) -> int:
    """Runs all lists and prints the table; the worst status."""
    args.out, args.names = as_file(args.out), names_to_copy(args)
    version()  # built once, if at all
    machines = Machines(args.sshlogin)
    kind = kind_of(args)
    words = starter(args, kind, machines)
    os.makedirs(args.out, exist_ok=True)
    note_lists(args, kind)
    campaign = Campaign(args, kind, machines)
    campaign.run_all(words)
    outcomes = campaign.all_outcomes()
    report(args, kind, outcomes)
    return worst(outcomes)


def words() -> argparse.ArgumentParser:
    """The words that the tool takes."""
    parser = parser_of(TOOL, __doc__)
    add = parser.add_argument
    add("config", metavar="CONFIG", help="the configuration of the network")
    files = "a frame list, a recording, or A.pcapng,B.pcapng; with --conform a recording or "
    files += "CAME,LEFT, of several switches also with NAME= before it"
    add("lists", nargs="+", metavar="LIST", help=files)
    add("--out", metavar="DIR", default="campaign", help="the folder of the campaign (campaign)")
    add("--no-admission", action="store_true", help="also where the network isn't admitted")
    add("--pages", action="store_true", help="a page for each run too, pages/1 and so on")
    add("--jobs", "-j", metavar="N", help="runs at a time (one for each core)")
    resume = "repeat the runs that have no result, and run new lists"
    add("--resume", action="store_true", help=resume)
    add(
        "--sshlogin",
        "-S",
        action="append",
        default=[],
        metavar="LOGIN",
        help="run on this machine too (`:` is this one); as of GNU parallel",
    )
    add(
        "--transfer",
        action="store_true",
        help="copy lists and configuration to those machines first (rsync)",
    )
    add_recording_words(parser, BY_ROLE)
    add_words(parser, of_switches=True)
    add_conform_words(parser)
    begin = "what came before this is passed over, with --conform"
    add("--from", dest="begin", type=whole_number(0, LATEST), metavar="NS", help=begin)
    slices = "judge each recording in so many slices of time, a run each, with --conform (1)"
    add("--slices", type=whole_number(1, MOST), default=1, metavar="N", help=slices)
    return parser


def main() -> NoReturn:
    """Runs the tool."""
    guarded(TOOL, lambda: run(words().parse_args()), "stopped; --resume goes on")
