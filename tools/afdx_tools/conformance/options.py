"""The options of `afdx conform` among the words of a tool."""
from __future__ import annotations

import argparse
from dataclasses import dataclass, replace
from typing import Mapping, Sequence

from afdx_tools.command_line import whole
from afdx_tools.conformance.recorders import Recorders
from afdx_tools.faults import Refused
from afdx_tools.recordings.options import SENDERS, recording_options

LATEST = 10**15
MOST_APART = 100_000_000
LEFT = "--left="  # how a word begins that says where frames left
OTHER = "other"  # frames that name no link
AMOUNTS = {
    "slack": (1_000_000, "NS", "by how many ns a stamp may be off, with --conform (0)"),
    "between": (100_000_000, "NS", "by how many ns more one of LEFT is off, with --conform (0)"),
    "drift": (1_000, "PPM", "by how many millionths clocks may differ, with --conform (0)"),
    "inner": (1_000_000, "NS", "what a frame may take beyond its latency, with --conform (0)"),
    "asked": (1_000_000, "NS", "how much later the account may be asked, with --conform (0)"),
    "until": (LATEST, "NS", "the end of the recordings, with --conform (the latest time)"),
}  # fmt: skip
# options of replays, which say nothing of a recorded switch, with what they are where not given
OF_REPLAYS = {
    "no_admission": False,
    "link": [],
    "compare": None,
    "fail_on": [],
    "origin": None,
}
BY_ROLE = ("start-end", "end-start")  # of --stamps


def add_sender_words(parser: argparse.ArgumentParser) -> None:
    """Teaches a parser --senders, and the option that goes with it."""
    add = parser.add_argument
    add("--senders", action="store_true",
        help="also judge the systems by what they sent, with --conform")
    add("--apart", type=whole(0, MOST_APART), metavar="NS",
        help="by how many ns later a copy may be sent, with --senders (what the tables leave)")


def vl_or_other(text: str) -> int | None:
    """The type of a word that is a link's identifier, or `other`."""
    return None if text == OTHER else whole(0, 65_535)(text)


def add_conform_words(parser: argparse.ArgumentParser) -> None:
    """Teaches a parser --conform, and the options of `afdx conform`."""
    add = parser.add_argument
    add("--conform", action="store_true",
        help="report on a recorded switch; the words are those of afdx conform")
    for name, (most, what, words) in AMOUNTS.items():
        add(f"--{name}", type=whole(0, most), metavar=what, help=words)
    add("--leave-out", type=vl_or_other, action="append", default=[], metavar="VL",
        help="a link that isn't judged, or other, with --conform; several times")
    add("--switch", metavar="NAME", help="which of several switches is judged, with --conform")
    add("--left", action="append", default=[], metavar="K=PLACE",
        help="where the frames of interface K left: A:PORT or B:PORT, with --conform; several "
        "times")
    add("--lossy", action="store_true",
        help="also where the recorder lost frames, with --conform")
    add("--exercised", action="store_true",
        help="no verdict where a stream that is judged is idle, with --conform")


@dataclass(frozen=True)
class Options:
    """The options of `afdx conform`: ns and millionths; None where they aren't given. With
    `senders` the systems are judged, too."""

    slack: int | None = None
    between: int | None = None
    drift: int | None = None
    inner: int | None = None
    asked: int | None = None
    start: int | None = None
    until: int | None = None
    left_out: tuple[int | None, ...] = ()
    switch: str | None = None
    exercised: bool = False
    of_recordings: tuple[str, ...] = ()
    recorders: Recorders = Recorders()
    reorder: int | None = None
    senders: bool = False
    apart: int | None = None

    def words(self) -> list[str]:
        """The words that say the same to the program; those of recordings stand apart."""
        amounts = {name: getattr(self, name) for name in AMOUNTS}
        amounts |= {"from": self.start, "apart": self.apart}
        words = [f"--{name}={amount}" for name, amount in amounts.items() if amount is not None]
        words += [f"--leave-out={OTHER if vl is None else vl}" for vl in self.left_out]
        words += [] if self.switch is None else [f"--switch={self.switch}"]
        return words + ["--exercised"] * self.exercised + [SENDERS] * self.senders

    def tapped(self, words: Sequence[str]) -> Options:
        """The same, with the words of interfaces that a table of taps says."""
        came, left = (tuple(word.removeprefix(name) for word in words if word.startswith(name))
                      for name in ("--interface=", LEFT))
        return replace(self, of_recordings=(*words, *self.of_recordings),
                       recorders=replace(self.recorders, came=came, left=left))  # fmt: skip

    @property
    def reach(self) -> int:
        """By how much the times of a line that came and of one that left may be off together."""
        return 2 * (self.slack or 0) + (self.between or 0)

    def is_taken(self, time: int, vl: int | None, is_left: bool) -> bool:
        """A line of this time and link isn't passed over."""
        begin = (self.start or 0) - self.reach * is_left
        return begin <= time <= (LATEST if self.until is None else self.until) and (
            vl not in self.left_out
        )


def conform_options(
    args: argparse.Namespace, of_replays: Mapping[str, object] = OF_REPLAYS
) -> Options:
    """The options that were given; Refused where some of replays were given, too."""
    for name, default in of_replays.items():
        if getattr(args, name) != default:
            raise Refused(f"--{name.replace('_', '-')} isn't an option with --conform")
    amounts = {name: getattr(args, name) for name in AMOUNTS}
    if args.taps is not None and args.left:
        raise Refused("--taps and --left say the same: give one of them")
    if getattr(args, "apart", None) is not None and not args.senders:
        raise Refused("--apart is an option with --senders only")
    words = recording_options(args) + [f"{LEFT}{each}" for each in args.left]
    fcs = None if args.fcs is None else args.fcs == "yes"
    reorder = None if args.reorder is None else int(args.reorder)
    return Options(
        **amounts,
        start=args.begin,
        left_out=tuple(args.leave_out),
        switch=args.switch,
        exercised=args.exercised,
        of_recordings=(*words, *["--lossy"] * args.lossy),
        recorders=Recorders(tuple(args.interface), tuple(args.left), fcs, args.stamps or "end"),
        reorder=reorder,
        senders=getattr(args, "senders", False),
        apart=getattr(args, "apart", None),
    )


def refuse_conform_options(args: argparse.Namespace) -> None:
    """Refused where options of `afdx conform` were given for a replay."""
    given = [name for name in AMOUNTS if getattr(args, name) is not None]
    given += ["leave-out"] * bool(args.leave_out) + ["switch"] * (args.switch is not None)
    given += ["left"] * bool(args.left) + ["lossy"] * args.lossy
    given += ["exercised"] * args.exercised
    given += ["senders"] * getattr(args, "senders", False)
    given += ["apart"] * (getattr(args, "apart", None) is not None)
    if args.stamps in BY_ROLE:
        given.append(f"stamps {args.stamps}")
    if given:
        raise Refused(f"--{given[0]} is an option with --conform only")
