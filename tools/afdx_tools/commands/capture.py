"""Turns recordings (pcap, pcapng) into frame lists for `afdx`, and back.

    afdx-capture list --config CONFIG run.pcapng -o run.list
    afdx-capture list --config CONFIG A.pcapng B.pcapng -o run.list
    afdx-capture pcap run.list run.pcap
    afdx-capture annotate CONFIG run.list run.pcapng
    afdx-capture annotate CONFIG A.pcapng B.pcapng said.pcapng

`afdx-capture COMMAND --help` says more of each. To write recordings it needs
the package dpkt: apt-get install python3-dpkt
"""
from __future__ import annotations

import argparse
import contextlib
import itertools
import os
import subprocess
import sys
from typing import BinaryIO, Callable, Iterator, NoReturn

from afdx_tools.command_line import parser_of
from afdx_tools.explaining import is_asked
from afdx_tools.faults import Refused, leave, let_go, shown
from afdx_tools.guard import guarded
from afdx_tools.inputs import at_hand
from afdx_tools.lists import MOST_LINES, Listed, is_sealed, read_list, sealed
from afdx_tools.outputs import finished
from afdx_tools.placing import together
from afdx_tools.program import program, version
from afdx_tools.progress import Progress, counted
from afdx_tools.recordings.options import (
    add_recording_words,
    is_foreign,
    is_recording,
    recording_options,
)
from afdx_tools.recordings.said import Beside, beside
from afdx_tools.recordings.tapped import found_by

TOOL = "afdx-capture"
TOO_MANY = 3
ORIGIN = "ns since 1970 of the list's time 0 (0)"


def say(line: str) -> None:
    """A line for the user, on standard error."""
    print(f"{TOOL}: {shown(line)}", file=sys.stderr)


class TooMany(Refused):
    """More numbers than a list can have lines."""


class Unlisted(Exception):
    """`afdx list` ended with this status, and the reason is reported."""

    def __init__(self, status: int) -> None:
        super().__init__()
        self.status = status


# ---- recordings to a list --------------------------------------------------------------------


def write_one(path: str | None, lines: Iterator[bytes]) -> None:
    """Writes one list."""
    with finished(path) as file:
        file.writelines(itertools.islice(lines, MOST_LINES))
        if next(lines, None) is not None:
            raise TooMany(
                f"that is more than {MOST_LINES:,} numbers, the most lines of a list; "
                "afdx replay and police read recordings as they are; "
                "--split PREFIX writes several lists"
            )


def write_parts(prefix: str, lines: Iterator[bytes]) -> None:
    """Writes as many lists as are needed, PREFIX-1.list, PREFIX-2.list and so on, all or none. Of
    longer ones of that prefix none stays."""
    folder, begin = os.path.split(prefix)
    longer: list[str] = []
    with together(folder or os.curdir, longer, is_whole=False) as new:
        for number in itertools.count(1):
            first = next(lines, None)
            if first is None and number > 1:
                break
            with new(f"{begin}-{number}.list") as file:
                file.write(first or b"")
                file.writelines(itertools.islice(lines, MOST_LINES - 1))
        names = (f"{begin}-{each}.list" for each in itertools.count(number))
        longer += itertools.takewhile(
            lambda name: os.path.lexists(os.path.join(folder, name)), names
        )
    for each in range(1, number):
        say(f"wrote {prefix}-{each}.list")
    for name in longer:
        say(f"removed {os.path.join(folder, name)}, which was there before")


def names_of(args: argparse.Namespace) -> list[str]:
    """The list or the recordings that the words name."""
    first = args.list if "list" in args else args.recording
    return [first] if args.other is None else [first, args.other]


def tapped(args: argparse.Namespace, config: str, paths: list[str]) -> list[str]:
    """The words for the interfaces of the recordings, by the table of --taps."""
    found = found_by(args.taps, config, paths, names_of(args), Progress(TOOL))
    for line in found.remarks:
        say(line)
    return found.words


def program_words(args: argparse.Namespace) -> list[str]:
    """The words of `afdx list`."""
    words = [program(), "list", "--summary", *recording_options(args)]
    words += ["--explain=always"] if is_asked() else []
    names = names_of(args)
    if args.taps is not None:
        for name in names:
            if name == "-" or not os.path.isfile(name):
                text = "is no file, and with --taps it has to be read twice"
                raise Refused(f"{shown(name)} {text}")
        words += tapped(args, args.config, names)
    files = [name if name == "-" else os.path.join(".", name) for name in names]
    return [*words, os.path.join(".", args.config), *files]


def listed_lines(run: subprocess.Popen[bytes]) -> Iterator[bytes]:
    """What the program writes; at its end its status is looked at."""
    assert run.stdout is not None
    yield from run.stdout
    status = run.wait()
    if status < 0:
        say(f"signal {-status} ended the program")
        raise Unlisted(128 - status)
    if status > 0:
        raise Unlisted(status)


def pass_on(run: subprocess.Popen[bytes]) -> None:
    """Passes on what the program reported, its counts or its fault."""
    assert run.stderr is not None
    try:
        for line in run.stderr.read().decode(errors="surrogateescape").splitlines():
            print(shown(line), file=sys.stderr)
    except OSError:
        let_go(sys.stderr)


def to_list(args: argparse.Namespace) -> None:
    """Recordings to a frame list, by `afdx list`. Its counts come once the list is written."""
    version()
    pipe = subprocess.PIPE
    with subprocess.Popen(program_words(args), stdout=pipe, stderr=pipe) as run:
        lines = listed_lines(run)
        try:
            if args.split:
                write_parts(args.split, counted(lines, "lines"))
            else:
                write_one(args.out, counted(lines, "lines"))
        except Unlisted:
            pass_on(run)
            raise
        except BaseException:
            run.kill()
            raise
        pass_on(run)


# ---- a list to a recording -------------------------------------------------------------------


def wired(args: argparse.Namespace, listed: Listed) -> bytes | None:
    """The bytes of a line's frame that go into the recording; without check sequences none of a
    frame whose check sequence is wrong, since what sends the recording would add a right one."""
    frame = sealed(listed)
    if args.fcs == "yes":
        return frame
    return frame[:-4] if is_sealed(frame) else None


def writer_of(
    args: argparse.Namespace, file: BinaryIO, first: Listed | None
) -> Callable[[int, str, bytes], None]:
    """What writes a frame by its time and place: a pcap, or a pcapng where lines name switches, as
    a pcap can't tell places apart."""
    from afdx_tools.recordings.writing import Pcap, Pcapng

    has_check_sequences = args.fcs == "yes"
    if first is not None and first.switch:
        several = Pcapng(file, has_check_sequences)
        return lambda time, place, frame: several.write(time, place, frame, [])
    one = Pcap(file, has_check_sequences)
    return lambda time, place, frame: one.write(time, frame)


def to_recording(args: argparse.Namespace) -> None:
    """A frame list to a recording."""
    from afdx_tools.recordings.writing import in_range

    written, wrong = 0, 0
    with finished(args.recording) as file:
        path = "/dev/stdin" if args.list == "-" else args.list
        lines = read_list(path)
        first = next(lines, None)
        write = writer_of(args, file, first)
        for listed in counted(itertools.chain([first] if first else [], lines), "lines"):
            if bool(listed.switch) != bool(first and first.switch):
                raise Refused(f"only one of the lines {first and first.line} and {listed.line} "
                              "names a switch")  # fmt: skip
            if args.side not in (None, listed.side):
                continue
            frame = wired(args, listed)
            if frame is None:
                wrong += 1
                continue
            in_range(args.origin + listed.time, frame, listed.line)
            write(args.origin + listed.time, listed.place, frame)
            written += 1
    with_it = "each with its" if args.fcs == "yes" else "without"
    say(f"{written} frames written, {with_it} check sequence")
    if wrong:
        say(f"{wrong} left out: a wrong check sequence, which a recording without them can't say")


# ---- a replay beside its frames --------------------------------------------------------------


def of_list(
    args: argparse.Namespace, config: str, path: str, besides: Beside, file: BinaryIO
) -> Iterator[None]:
    """Writes the frames of a list with the lines of their replay; gives one None for each."""
    from afdx_tools.recordings.annotating import replayed
    from afdx_tools.recordings.writing import Pcapng, in_range

    origin = args.origin or "0"
    if not (origin.isascii() and origin.isdigit() and len(origin) < 20):
        raise Refused(f"--origin {shown(origin)} is no whole number of ns")
    recording = Pcapng(file)
    for one in replayed(config, path, args.no_admission, read_list(path)):
        frame, time = sealed(one.listed), int(origin) + one.listed.time
        in_range(time, frame, one.listed.line)
        said = one.lines + besides.of(one.listed.line, one.listed.vl)
        recording.write(time, one.listed.place, frame, said)
        yield None


def options_of(args: argparse.Namespace, config: str, paths: list[str]) -> list[str]:
    """The options of the recordings, with those of a table of taps."""
    if args.taps is None:
        return recording_options(args)
    return recording_options(args) + tapped(args, config, paths)


def to_annotated(args: argparse.Namespace) -> None:
    """A frame list or recordings to a recording whose frames carry the lines of their replay."""
    names = names_of(args)
    if names == ["-", "-"]:
        leave(TOOL, "words SameInput")
    if args.conform is not None and len(names) > 1:
        leave(TOOL, "--conform is of one list or recording")
    if args.recording != "-" and is_foreign(args.recording):
        raise Refused(f"{args.recording} is a recording that annotate didn't write: name another")
    version()
    count = 0
    with contextlib.ExitStack() as files:
        config = files.enter_context(at_hand(os.path.join(".", args.config)))
        paths = [files.enter_context(at_hand(name)) for name in names]
        options = options_of(args, config, paths)
        file = files.enter_context(finished(args.recording))
        others = [word for word in options if not word.startswith("--origin=")]
        is_list = len(paths) == 1 and not others and args.taps is None
        is_list = is_list and not is_recording(paths[0])
        besides = beside(args.config, args.conform, not is_list)
        if is_list:
            frames = of_list(args, config, paths[0], besides, file)
        else:
            from afdx_tools.recordings.annotated import annotated

            frames = annotated(config, paths, options, args.no_admission, besides, file)
        for _ in counted(frames, "frames"):
            count += 1
    say(f"{count} frames written, each with what became of it as its comments")


# ---- the words -------------------------------------------------------------------------------


def list_words(parser: argparse.ArgumentParser) -> None:
    """The words of `list`."""
    add = parser.add_argument
    add("recording", metavar="RECORDING", help="pcap or pcapng, or - for standard input")
    add("other", metavar="RECORDING", nargs="?", help="the recording of B, beside that of A")
    add("--config", required=True, help="the configuration; its systems' ports are those of frames")
    add_recording_words(parser)
    out = parser.add_mutually_exclusive_group()
    out.add_argument("-o", "--out", metavar="FILE", help="the list (standard output)")
    out.add_argument(
        "--split",
        metavar="PREFIX",
        help=f"write lists PREFIX-1.list and so on, of {MOST_LINES:,} lines each",
    )


def pcap_words(parser: argparse.ArgumentParser) -> None:
    """The words of `pcap`."""
    add = parser.add_argument
    add("list", metavar="LIST", help="a frame list, or - for standard input")
    add("recording", metavar="RECORDING", help="the pcap file, or - for standard output")
    add("--side", choices=("A", "B"), help="only this network's frames")
    add(
        "--fcs",
        choices=("yes", "no"),
        default="yes",
        help="with each frame's check sequence, or without, for programs that send the recording",
    )
    add("--origin", type=int, default=0, metavar="NS", help=ORIGIN)


def annotate_words(parser: argparse.ArgumentParser) -> None:
    """The words of `annotate`."""
    add = parser.add_argument
    add("config", metavar="CONFIG", help="the configuration of the network")
    add("list", metavar="LIST", help="a frame list, a recording, or - for standard input")
    add("other", metavar="LIST", nargs="?", help="the recording of B, beside that of A")
    add("recording", metavar="RECORDING", help="the pcapng file, or - for standard output")
    add("--no-admission", action="store_true", help="also where the network isn't admitted")
    conform = "what afdx conform said of this list, or of this one recording: comments, too"
    add("--conform", metavar="FILE", help=conform)
    add_recording_words(parser)


def words() -> argparse.ArgumentParser:
    """The words that the tool takes."""
    parser = parser_of(TOOL, __doc__)
    commands = parser.add_subparsers(required=True, metavar="list|pcap|annotate")
    for name, short, text, add_words, run in (
        (
            "list",
            "a recording, or those of both networks, to a frame list",
            "Writes the frame list that says the same as a recording, or as those of both "
            "networks, by `afdx list`.",
            list_words,
            to_list,
        ),
        (
            "pcap",
            "a frame list to a recording",
            "Writes a frame list, or what `afdx send` writes, as pcap with times in ns; of several "
            "switches as pcapng, with an interface for each port.",
            pcap_words,
            to_recording,
        ),
        (
            "annotate",
            "a list or recordings as a recording whose frames tell what became of them",
            "Replays a frame list or recordings, and writes the frames as pcapng; the lines of the "
            "replay about a frame are its comments. Of a list of several switches a frame stands "
            "there once for each switch to which it came. Recorded frames stay as they were "
            "recorded; those that were left out say why.",
            annotate_words,
            to_annotated,
        ),
    ):
        command = commands.add_parser(name, help=short, description=text)
        add_words(command)
        command.set_defaults(run=run)
    return parser


def run() -> int:
    """Runs the command of the words; the status."""
    args = words().parse_args()
    try:
        args.run(args)
    except TooMany as error:
        leave(TOOL, error, TOO_MANY)
    except Unlisted as error:
        return error.status
    return 0


def main() -> NoReturn:
    """Runs the tool."""
    guarded(TOOL, run, wants_output=False)
