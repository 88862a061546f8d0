#!/usr/bin/python3
"""Runs the commands of a document, and compares what they print with what stands there.

    tests/tools/document_commands.py DOCUMENT FOLDER

Each block ```sh is run by bash in FOLDER, in the order of the document. A block ```text right after
it is what it prints on standard output, in which a line `..` stands for any lines. Words after `sh`
say what the block wants: `status=N` (0), and names of what it needs; a block that needs what is not
in the environment variable HAS is skipped. An indented block that begins with `$ ` is a command and
what it prints. Prints a line for each block as tests/run/tools.sh does.
"""
from __future__ import annotations

import os
import re
import subprocess
import sys
from typing import NamedTuple

BLOCK = re.compile(r"^```sh *([^\n]*)\n(.*?)^```\n(?:\n```text\n(.*?)^```$)?", re.M | re.S)
INDENTED = re.compile(r"^    \$ ([^\n]*\n)((?:    (?!\$ )[^\n]*\n)*)", re.M)


class Block(NamedTuple):
    """A command block: its wants, its commands, what it should print (None: anything)."""

    wants: list[str]
    commands: str
    printed: str | None


def blocks_of(document: str) -> list[Block]:
    """The blocks of a document."""
    with open(document, encoding="utf-8") as file:
        text = file.read()
    fenced = [Block(m[1].split(), m[2], m[3]) for m in BLOCK.finditer(text)]
    return fenced + [
        Block([], m[1], m[2].replace("\n    ", "\n").removeprefix("    "))
        for m in INDENTED.finditer(text)
    ]


def pattern(printed: str) -> re.Pattern[str]:
    """A text in which a line `..` stands for any lines."""
    lines = [
        "(?:.*\n)*?" if line == ".." else re.escape(line) + "\n" for line in printed.splitlines()
    ]
    return re.compile("".join(lines))


def fault_of(block: Block, folder: str) -> str:
    """Runs a block; what is wrong, or nothing."""
    status = next((int(w[7:]) for w in block.wants if w.startswith("status=")), 0)
    run = subprocess.run(
        ["bash", "-o", "pipefail", "-c", block.commands],
        cwd=folder,
        text=True,
        check=False,
        stdin=subprocess.DEVNULL,
        stdout=subprocess.PIPE,
        stderr=subprocess.PIPE,
    )
    faults = []
    if run.returncode != status:
        faults.append(f"status {run.returncode}, wanted {status}\n{run.stderr.strip()}")
    if block.printed is not None and not pattern(block.printed).fullmatch(run.stdout):
        faults.append(f"it prints\n{run.stdout.rstrip()}\nwanted\n{block.printed.rstrip()}")
    return "\n".join(faults)


def main() -> None:
    """Runs all blocks."""
    document, folder = sys.argv[1:]
    has = set(os.environ.get("HAS", "").split())
    for number, block in enumerate(blocks_of(document), 1):
        name = f"{os.path.basename(document)}, block {number}: {block.commands.splitlines()[-1]}"
        missing = [w for w in block.wants if "=" not in w and w not in has]
        if missing:
            print(f"skipped {name}: needs {', '.join(missing)}")
            continue
        fault = fault_of(block, folder)
        print(f"FAILED {name}" if fault else f"ok {name}")
        if fault:
            print("    " + fault.replace("\n", "\n    "))


main()
