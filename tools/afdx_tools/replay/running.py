"""The runs of the program that a report is made of: its bounds, the list, the replay."""
from __future__ import annotations

import re
import subprocess
import tempfile
from dataclasses import dataclass, field
from typing import TYPE_CHECKING

import numpy as np

from afdx_tools.config import Config
from afdx_tools.faults import Failed, shown
from afdx_tools.known import counts_of
from afdx_tools.lists import MOST_LINES
from afdx_tools.program import program
from afdx_tools.progress import Progress
from afdx_tools.recordings.options import is_recording
from afdx_tools.replay.checked import Checked, checked_of
from afdx_tools.replay.events import OVER_RATE, Events
from afdx_tools.replay.listing import Listing
from afdx_tools.replay.sites import Sites

if TYPE_CHECKING:
    from afdx_tools.recordings.taps import Found

ENDED = (0, 3)  # the input came to its end or has a fault: each over-rate frame has its line
ANY_RULE = ("1", "64", "0")  # BAG, Lmax and jitter of a link, of which no fault of a list depends
PIECE = 1 << 20  # bytes of a pipe


@dataclass(frozen=True)
class Source:
    """What is replayed: a configuration, a list or a recording, or those of both networks; the
    options of recordings and of the replay; what a table of taps says of the recordings."""

    config: str
    paths: list[str]
    options: list[str]
    of_replay: list[str]
    taps: Found | None = None

    @property
    def is_recorded(self) -> bool:
        """It isn't a list."""
        return self.is_pair or bool(self.options) or is_recording(self.paths[0])

    @property
    def is_pair(self) -> bool:
        """It is a recording of each network."""
        return len(self.paths) > 1

    def listed(self) -> list[str]:
        """The words that write a recording as a list."""
        return [program(), "list", "--summary", *self.options, self.config, *self.paths]

    def replayed(self) -> list[str]:
        """The words of the replay."""
        words = [program(), "replay", "--explain-drops", *self.of_replay]
        return [*words, *self.options, self.config, *self.paths]


@dataclass(frozen=True)
class Listed:
    """The list's columns; of a recording the counts of what was left out."""

    listing: Listing
    skipped: dict[str, int] = field(default_factory=dict)


def check(afdx: str, config: str) -> Checked:
    """What `check` says of the configuration."""
    run = subprocess.run(
        [afdx, "check", config],
        capture_output=True,
        encoding="utf-8",
        errors="replace",
        check=False,
    )
    if run.stderr or run.returncode not in (0, 1):
        status = run.returncode if run.returncode > 0 else 128 - run.returncode
        raise Failed(run.stderr.strip() or ended_by(run.returncode), status, ["check", config])
    return checked_of(map(shown, run.stdout.splitlines()))


def ended_by(status: int) -> str:
    """What is said of a program that said nothing itself."""
    return f"the program was ended by signal {-status}" if status < 0 else f"status {status}"


def taken_of(path: str, sites: Sites) -> int:
    """How many lines of a list the program takes: those before the first fault, which is the same
    for all networks. What stands there or after it isn't looked at here. Of several switches no
    command says it, and lines that the program doesn't judge count for nothing."""
    if sites.are_several:
        return MOST_LINES
    words = [program(), "police", *ANY_RULE, path]
    run = subprocess.run(words, stdout=subprocess.DEVNULL, stderr=subprocess.PIPE, check=False)
    if run.returncode == 0 or run.stderr.split() == [b"list", b"TooManyLines"]:
        return MOST_LINES
    fault = re.fullmatch(rb"list [A-Za-z]+ ([0-9]{1,7})\n", run.stderr)
    return int(fault[1]) - 1 if fault else 0


def listed_of(source: Source, sites: Sites, progress: Progress, is_run: bool) -> Listed:
    """The list's columns; a recording's are those of the list that `afdx list` writes. `is_run`:
    the program replays it, since the network is admitted or needn't be."""

    def report(count: int) -> None:
        progress.report(f"{count:,} lines of the list read")

    if not source.is_recorded:
        most = MOST_LINES if is_run else 0  # after a fault `replay` forgets those behind it
        with open(source.paths[0], "rb") as file:
            return Listed(Listing(file, report, most=most, sites=sites))
    with tempfile.TemporaryFile() as errors:
        with subprocess.Popen(
            source.listed(), stdout=subprocess.PIPE, stderr=errors, pipesize=PIECE
        ) as run:
            assert run.stdout is not None
            listing = Listing(
                run.stdout, report, is_recorded=True, is_pair=source.is_pair, sites=sites
            )
        errors.seek(0)
        said = shown(errors.read().decode("utf-8", "replace").strip())
    if run.returncode not in ENDED:
        status = run.returncode if run.returncode > 0 else 128 - run.returncode
        raise Failed(said or ended_by(run.returncode), status)
    return Listed(listing, {} if run.returncode else counts_of(said.split()[1:]))


def replay(
    source: Source, config: Config, listed: Listed, progress: Progress
) -> tuple[Events, str, int]:
    """Runs the replay and takes its lines; its fault line and its status. The list ends where the
    program took no more of it."""
    events = Events(listed.listing, config)
    most = max(listed.listing.lines, 1)
    with tempfile.TemporaryFile() as errors:
        with subprocess.Popen(
            source.replayed(), stdout=subprocess.PIPE, stderr=errors, pipesize=PIECE
        ) as run:
            assert run.stdout is not None
            events.read(
                run.stdout, lambda line: progress.report(f"{100 * line // most} % of the replay")
            )
        if run.returncode and not source.is_recorded and listed.listing.lines:
            listed.listing.end_at(taken_of(source.paths[0], listed.listing.sites))
        errors.seek(0)
        fault = shown(events.read_errors(errors))
    if run.returncode < 0:
        return events, fault or ended_by(run.returncode), 128 - run.returncode
    if run.returncode in ENDED:
        want_whole(events)
    return events, fault, run.returncode


def want_whole(events: Events) -> None:
    """Failed where only a part of the `early` lines came: the program says nothing of those that it
    couldn't write."""
    came = events.came
    got, wanted = events.early.lines, came.line[came.verdict == events.code_of(OVER_RATE)]
    if len(got) and not np.array_equal(got, wanted):
        raise Failed(
            f"{len(got)} lines 'early' came for {len(wanted)} over-rate frames: is there no room "
            f"in {shown(tempfile.gettempdir())}?",
            4,
        )
