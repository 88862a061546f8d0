"""What made a report: words, taps, files with their sums, versions, host, date, and time 0."""
from __future__ import annotations

import argparse
import datetime
import hashlib
import os
import platform
import shlex
import socket
import sys
from html import escape

import numpy as np

from afdx_tools.faults import LONGEST_NAME, cut, shown
from afdx_tools.replay.counting import Counting
from afdx_tools.replay.running import Source
from afdx_tools.report.compare import LONGEST_TITLE
from afdx_tools.report.cover import Cover
from afdx_tools.report.where import Where, utc
from afdx_tools.tables import Row
from afdx_tools.version import NUMBER

TAP = "--interface="
LONGEST_ROW = 1_000  # characters of a row on the page; report.json has all
FOOT = "font: 7pt system-ui, sans-serif; color: #444a52;"


def digest(path: str) -> str:
    """The SHA-256 of a file."""
    with open(path, "rb") as file:
        return hashlib.file_digest(file, "sha256").hexdigest()


def files_of(
    args: argparse.Namespace, source: Source, of_list: str, cover: Cover | None
) -> list[tuple[str, str, str]]:
    """The files that went in: what each is, its name, its SHA-256; that of a list is known."""
    paths = [args.list] if args.other is None else [args.list, args.other]
    heads = ["List"] if len(paths) == 1 else ["Recording of A", "Recording of B"]
    if source.is_recorded and len(paths) == 1:
        heads = ["Recording"]
    sums = map(digest, source.paths) if source.is_recorded else [of_list]
    files = [
        ("Configuration", shown(args.config), digest(source.config)),
        *zip(heads, map(shown, paths), sums),
    ]
    for head, path in (("Taps", args.taps), ("Compared with", args.compare)):
        if path and os.path.isfile(path):
            files.append((head, shown(path), digest(path)))
    return files + ([("Cover", cover.path, cover.digest)] if cover else [])


def header(
    args: argparse.Namespace,
    source: Source,
    counting: Counting,
    where: Where,
    called: str,
    cover: Cover | None,
) -> Row:
    """What the run was, and what made its report."""
    time_0 = where.time_0
    return {
        **run_of(args, files_of(args, source, counting.listing.digest, cover), called),
        "taps": [word.removeprefix(TAP) for word in source.options if word.startswith(TAP)],
        "admission_waived": args.no_admission,
        "time_0_ns": time_0,
        "time_0": None if time_0 is None else f"{utc(time_0)} UTC",
        "first_ns": counting.first,
        "span_ns": counting.last - counting.first,
    }


def run_of(args: argparse.Namespace, files: list[tuple[str, str, str]], called: str) -> Row:
    """What a report of any kind says of its run: title, files, words, what made it, where, when."""
    paths = [args.list] if args.other is None else [args.list, args.other]
    names = [cut(os.path.basename(path), LONGEST_NAME) for path in (*paths, args.config)]
    now = datetime.datetime.now(datetime.timezone.utc)
    return {
        "title": cut(args.title or f"{' and '.join(names[:-1])} on {names[-1]}", LONGEST_TITLE),
        "files": files,
        "words": [shown(word) for word in ("afdx-report", *sys.argv[1:])],
        "program": called,
        "tool": f"afdx-report {NUMBER}",
        "python": platform.python_version(),
        "numpy": np.__version__,
        "host": shown(socket.gethostname()),
        "system": shown(platform.platform()),
        "written": now.strftime("%Y-%m-%d %H:%M UTC"),
    }


def places_of(run: Row) -> list[tuple[str, str]]:
    """Where the frames of a replay came in, and what its time 0 is."""
    if "taps" not in run:
        return []
    taps = ", ".join(run["taps"]) or "none named: the frames' own addresses say where they came in"
    is_list = run["files"][1][0] == "List"
    time_0 = run["time_0"] or ("a list has no date" if is_list else "no frame arrived")
    return [("Taps", "a list" if is_list else taps), ("Time 0", time_0)]


def made_of(run: Row) -> list[tuple[str, str]]:
    """The same for a reader, in rows."""
    return [
        ("Words", shlex.join(run["words"])),
        *((head, f"SHA-256 {digest}, {path}") for head, path, digest in run["files"]),
        *places_of(run),
        ("Program", run["program"]),
        ("Tool", f"{run['tool']}, Python {run['python']}, numpy {run['numpy']}"),
        ("Host", f"{run['host']}, {run['system']}"),
        ("Written", run["written"]),
    ]


def made_table(run: Row) -> str:
    """These rows as a table."""
    body = "".join(
        f'<tr><th scope="row"><span>{escape(name)}</span></th><td class="words"><code>'
        f"{escape(cut(words, LONGEST_ROW))}</code></td></tr>"
        for name, words in made_of(run)
    )
    head = '<tr><th scope="col">what</th><th scope="col">which</th></tr>'
    caption = "<caption>What made this report</caption>"
    return f'<table id="made">{caption}<thead>{head}</thead><tbody>{body}</tbody></table>'


def made_section(run: Row) -> str:
    """The table in a section of its own."""
    return f'<section class="wide small">{made_table(run)}</section>'


def sheet_style(run: Row) -> str:
    """What stands at the foot of each sheet of paper: which files the report is of, and its
    number."""
    files = ", ".join(f"{head} {digest[:12]}" for head, _, digest in run["files"])
    return (
        f'@page {{ @bottom-left {{ content: "{files}; written {run["written"]}"; {FOOT} }} '
        f'@bottom-right {{ content: "sheet " counter(page) " of " counter(pages); {FOOT} }} }}'
    )
