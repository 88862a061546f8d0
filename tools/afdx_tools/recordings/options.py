"""Recordings among the words of the tools: what is one, and the options that `afdx` takes."""
from __future__ import annotations

import argparse
import os
from typing import Sequence

from afdx_tools.faults import Refused

HEADS = frozenset(
    bytes.fromhex(head) for head in ("d4c3b2a1", "a1b2c3d4", "4d3cb2a1", "a1b23c4d", "0a0d0d0a")
)
SENDERS = "--senders"  # the word of `conform` that judges the systems by what they sent
WRITER_CODE, WRITER = 4, b"afdx-capture annotate"  # an option of a section: who wrote it

# packed files, by gzip, bzip2, zstd, xz and zip: a fault of a recording
PACKED = tuple(map(bytes.fromhex, ("1f8b", "425a68", "28b52ffd", "fd377a58", "504b0304")))


def add_recording_words(
    parser: argparse.ArgumentParser, more_stamps: Sequence[str] = ()
) -> None:
    """The options of recordings, which are handed on to the program; some commands have words of
    --stamps besides."""
    add = parser.add_argument
    add(
        "--interface",
        action="append",
        default=[],
        metavar="K=PLACE",
        help="where the frames of interface K came in: A, B, A:PORT or B:PORT, of several "
        "switches also 'A NAME' or 'A NAME:PORT'; - leaves them out",
    )
    taps = "a table of taps in the place of --interface, which is checked; see afdx-taps"
    add("--taps", metavar="FILE", help=taps)
    add("--fcs", choices=("yes", "no"), help="do recorded frames end with their check sequence?")
    origin = "the moment that is time 0, in ns since 1970 (that of the first arrival)"
    add("--origin", metavar="NS", help=origin)
    reorder = "how many arrivals in front of a frame may be later; it is put before them (10000)"
    add("--reorder", metavar="N", help=reorder)
    stamps = "whether stamps are those of a frame's last bit or of its first (end)"
    add("--stamps", choices=("end", "start", *more_stamps), help=stamps)


def recording_options(args: argparse.Namespace) -> list[str]:
    """The options that were given, as the program takes them; without those of a table of taps."""
    if args.taps is not None and args.interface:
        raise Refused("--taps and --interface say the same: give one of them")
    words = [f"--interface={each}" for each in args.interface]
    for name in ("fcs", "origin", "reorder", "stamps"):
        said = getattr(args, name)
        if said is not None:
            words.append(f"--{name}={said}")
    return words


def handed_on(args: argparse.Namespace) -> list[str]:
    """The options that were given, as afdx-report takes them, wherever it runs."""
    taps = [] if args.taps is None else [f"--taps={os.path.abspath(args.taps)}"]
    return recording_options(args) + taps


def head_of(path: str) -> bytes:
    """The bytes by which the program tells what a file is, if it has so many."""
    with open(path, "rb") as file:
        return file.read(4)


def is_packed(path: str) -> bool:
    """The program takes the file for a packed one."""
    head = head_of(path)
    return len(head) == 4 and head.startswith(PACKED)


def is_recording(path: str) -> bool:
    """The program takes the file for a recording, or for a packed one."""
    return head_of(path) in HEADS or is_packed(path)


def is_foreign(path: str) -> bool:
    """A recording stands there that `afdx-capture annotate` didn't write."""
    if not os.path.isfile(path):
        return False
    with open(path, "rb") as file:
        head = file.read(256)
    return head[:4] in HEADS and WRITER not in head


def files_of(word: str) -> tuple[str, ...]:
    """The files that a word names: a list or a recording, or those of both networks with a comma
    between, if no file has all of that name."""
    first, _, second = word.partition(",")
    if not (first and second) or os.path.exists(word):
        return (word,)
    return first, second
