"""The runs of a campaign: which files each is over, which of several switches it judges, and which
slice of time."""
from __future__ import annotations

import argparse
import os
from typing import Callable, NamedTuple, Sequence

from afdx_tools.campaign.slices import Slice, slices_of
from afdx_tools.config import Config
from afdx_tools.conformance.options import LEFT
from afdx_tools.faults import Refused, shown
from afdx_tools.inputs import as_file
from afdx_tools.progress import Progress
from afdx_tools.recordings.options import files_of
from afdx_tools.recordings.tapped import (
    OF_ALL_SWITCHES,
    asked_for,
    found_by,
    want_switch,
    want_switches,
)
from afdx_tools.recordings.taps import read_rows

Say = Callable[[str], None]


class Run(NamedTuple):
    """A run: its files as they were named, and one by one: a list or a recording, or two, those of
    both networks or what came and what left; which of several switches is judged, if one is; and
    its words of places, where they are known before it."""

    name: str
    files: tuple[str, ...]
    switch: str = ""
    places: tuple[str, ...] = ()
    part: Slice | None = None

    @property
    def judged(self) -> str:
        """What is judged of its files."""
        return " ".join(["switch", self.switch, *(self.part.words() if self.part else [])])

    def title(self) -> str:
        """What it is called among others."""
        name = f"{self.switch}: {self.name}" if self.switch else self.name
        return f"{name}, slice {self.part}" if self.part else name

    @property
    def size(self) -> int:
        """The bytes of its files, as far as they are there."""
        return sum(os.path.getsize(path) for path in self.files if os.path.isfile(path))


def replays(words: Sequence[str]) -> list[Run]:
    """A run for each word of files."""
    return [Run(word, files_of(word)) for word in words]


def tapped_switches(config: Config, taps: str) -> list[str]:
    """The switches of which a table of taps has a port, in the order of the configuration."""
    rows = read_rows(taps)
    want_switches(config, rows)
    found = {tap.place.switch for tap in rows if tap.place}
    return [name for name in config.names if name in found]


def named_switch(word: str, names: Sequence[str]) -> tuple[str, str]:
    """The switch before the `=` of a word, and its files; no switch where the word is a file, or
    has none."""
    name, sign, files = word.partition("=")
    if not sign or os.path.exists(word):
        return "", word
    if name not in names:
        what = f"NAME has to be one of {', '.join(names)}"
        raise Refused(f"{shown(word)}: {what} in NAME=RECORDING")
    return name, files


def places_in(args: argparse.Namespace, path: str, say: Say) -> dict[str, tuple[str, ...]]:
    """The words of places of each switch in a recording of all that the table has, which is looked
    at once; none where there is no such file. Failed where it doesn't agree with the table."""
    found: dict[str, tuple[str, ...]] = {}
    if os.path.isfile(path):
        config, progress = as_file(args.config), Progress("afdx-campaign")
        all_found = found_by(args.taps, config, [path], [path], progress, OF_ALL_SWITCHES)
        for remark in all_found.remarks:
            say(shown(remark))
        for switch, _, word in (each.partition(" ") for each in all_found.words):
            found[switch] = (*found.get(switch, ()), word)
    return found


def places_at(
    config: Config, args: argparse.Namespace, path: str, switch: str, say: Say
) -> tuple[str, ...]:
    """The words of places of a switch in its recording, for all slices of it; none where no table
    says them, or there is no such file. Failed where it doesn't agree with the table."""
    if args.taps is None or not os.path.isfile(path):
        return ()
    asked, progress = asked_for(config, switch or None), Progress("afdx-campaign")
    found = found_by(args.taps, as_file(args.config), [path], [path], progress, asked)
    for remark in found.remarks:
        say(shown(remark))
    return tuple(found.words)


def in_slices(config: Config, args: argparse.Namespace, runs: Sequence[Run], say: Say) -> list[Run]:
    """The runs, each with its slices of time in its place, if slices are wanted."""
    if args.slices == 1:
        return list(runs)
    found, given = [], [f"{LEFT}{each}" for each in args.left]
    for run in runs:
        places = run.places or places_at(config, args, run.files[0], run.switch, say)
        parts = slices_of(run.files, args.slices, args.begin, args.until, [*given, *places])
        found += [run._replace(part=part, places=places) for part in parts]
    return found


def judgements(config: Config, args: argparse.Namespace, say: Say) -> list[Run]:
    """A run for each word of files; of several switches for each that is judged there: the one that
    the word or the option names, else all that the table of taps has."""
    switch, names = args.switch, config.names
    if not names or switch is not None:
        want_switch(config, switch)
        if names and any(named_switch(word, names)[0] for word in args.lists):
            raise Refused("--switch and NAME= say the same: give one of them")
        return [Run(word, files_of(word), switch or "") for word in args.lists]
    tapped = [] if args.taps is None else tapped_switches(config, args.taps)
    runs = []
    for word in args.lists:
        name, file = named_switch(word, names)
        if not name and not tapped:
            what = "NAME=RECORDING, --switch or --taps says it"
            raise Refused(f"{shown(word)}: which of several switches is judged? {what}")
        files = files_of(file)
        places = {} if name or len(files) > 1 else places_in(args, file, say)
        judged = [name] if name else tapped
        runs += [Run(file, files, each, places.get(each, ())) for each in judged]
    return runs
