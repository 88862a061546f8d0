"""What `--help` of the program and of the tools says: its usage, words, options and texts."""
from __future__ import annotations

import dataclasses
import functools
import os
import re
import subprocess
import sys

from printing.sources import TOP

TOOLS = ("afdx-campaign", "afdx-capture", "afdx-fill", "afdx-icd", "afdx-report", "afdx-taps",
         "afdx-traffic")
DEEPEST = 6  # columns before a word or an option; what it means stands farther to the right


@dataclasses.dataclass(frozen=True)
class Entry:
    """A word that is given, or an option."""
    names: tuple[str, ...]  # of an option; the long one is the last
    value: str              # what it is called: the word, or the value that the option takes
    text: str
    words: tuple[str, ...]  # which values there are, if that is said
    optional: bool          # it may be left out: the word, or the value of the option


@dataclasses.dataclass
class Help:
    """The parts of a help text."""
    command: str
    usage: str = ""
    about: list[str] = dataclasses.field(default_factory=list)
    commands: list[Entry] = dataclasses.field(default_factory=list)
    arguments: list[Entry] = dataclasses.field(default_factory=list)
    options: list[Entry] = dataclasses.field(default_factory=list)
    rest: list[str] = dataclasses.field(default_factory=list)


def entry_of(head: str, text: str) -> Entry:
    """The entry of a line: what stands at its left, and what it means."""
    names = re.findall(r"(?<![\w=-])--?[A-Za-z][a-z-]*", head) if head.startswith("-") else []
    last = head.split()[-1]
    value = "" if names and last.startswith("-") and "=" not in last else last
    value = value.partition("[=")[2] or value
    said = re.search(r" \[possible values: (.*?)\]", text)
    words = said.group(1).split(", ") if said else []
    if value.startswith("{"):
        words = value.strip("{}").split(",")
    text = re.sub(r" \[possible values: .*?\]", "", text)
    shown = value.strip("[]<>{}.").rstrip("]")
    return Entry(tuple(sorted(names, key=len)), shown, text, tuple(words), "[" in head)


def entries_in(lines: list[str]) -> list[Entry]:
    """The entries of a section; what goes on over several lines is put together."""
    found: list[tuple[str, str]] = []
    for line in lines:
        indent = len(line) - len(line.lstrip())
        if indent <= DEEPEST:
            head, _, text = line.strip().partition("  ")
            found.append((head, text.strip()))
        else:
            head, text = found[-1]
            found[-1] = (head, f"{text} {line.strip()}".strip())
    return [entry_of(head, text) for head, text in found]


def without_commands(entries: list[Entry]) -> tuple[list[Entry], list[Entry]]:
    """Words, and the commands among which one of them chooses."""
    choices = [entry for entry in entries if "|" in entry.value]
    names = [name for entry in choices for name in entry.value.split("|")]
    words = [entry for entry in entries if entry not in choices and entry.value not in names]
    return words, [entry for entry in entries if entry.value in names]


def parsed(command: str, told: str) -> Help:
    """The parts of what was printed."""
    said = Help(command)
    for block in told.strip("\n").split("\n\n"):
        lines = block.split("\n")
        if re.match("usage:", block, re.I):
            said.usage = " ".join(block.split())[len("usage: "):]
        elif lines[0] == "Commands:":
            said.commands = [entry for entry in entries_in(lines[1:]) if entry.value != "help"]
        elif lines[0] in ("Arguments:", "positional arguments:"):
            said.arguments, commands = without_commands(entries_in(lines[1:]))
            said.commands += commands
        elif lines[0] in ("Options:", "options:"):
            said.options = entries_in(lines[1:])
        elif said.options:
            said.rest.append(block)
        else:
            said.about.append(block)
    return said


@functools.cache
def help_of(command: str, program: str = "") -> Help:
    """The help of `afdx`, which the program of that path tells, of a tool, or of a command."""
    name, *words = command.split()
    ran = [name] if name == "afdx" else [sys.executable, "-B", str(TOP / "tools" / name)]
    told = subprocess.run([*ran, *words, "--help"], executable=program if name == "afdx" else None,
                          env=os.environ | {"COLUMNS": "80"}, capture_output=True, text=True,
                          check=True).stdout
    return parsed(command, told)


def helps_of(tool: str, program: str = "") -> list[Help]:
    """The help of a tool, or of the program, and then that of each of its commands."""
    first = help_of(tool, program)
    return [first, *(help_of(f"{tool} {entry.value}", program) for entry in first.commands)]
