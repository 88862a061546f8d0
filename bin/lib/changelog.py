"""Prints CHANGELOG.md (standard input) in the form of Debian's changelogs.

    python3 changelog.py MAINTAINER SECONDS     SECONDS since 1970: the date of what isn't released

Each section `## VERSION (DATE)` is an entry. Its items are items, its other lines stand in brackets
above them. bin/package calls it.
"""
from __future__ import annotations

import datetime
import email.utils
import re
import sys
import textwrap

MIDNIGHT = datetime.time(tzinfo=datetime.timezone.utc)
COLUMNS = 78


def day_of(said: str, otherwise: datetime.datetime) -> datetime.datetime:
    """The day in a section's heading, if it has one."""
    try:
        return datetime.datetime.combine(datetime.date.fromisoformat(said), MIDNIGHT)
    except ValueError:
        return otherwise


def body_of(text: str) -> list[str]:
    """The lines of a section, wrapped."""
    lines = []
    for line in filter(None, text.splitlines()):
        item = line.startswith("- ")
        if not item:
            lines.append("")
        lines += textwrap.wrap(
            line[2:] if item else f"[ {line} ]", COLUMNS, break_long_words=False,
            break_on_hyphens=False, initial_indent="  * " if item else "  ",
            subsequent_indent="    ")
    return lines


def printed(changes: str, maintainer: str, seconds: int) -> str:
    """The whole changelog."""
    now = datetime.datetime.fromtimestamp(seconds, datetime.timezone.utc)
    parts = re.split(r"^## (\S+) \((.*)\)$", changes, flags=re.M)[1:]
    entries = []
    for version, said, text in zip(parts[::3], parts[1::3], parts[2::3]):
        date = email.utils.format_datetime(day_of(said, now))
        entries.append("\n".join([f"afdx ({version}) unstable; urgency=medium", *body_of(text), "",
                                  f" -- {maintainer}  {date}", ""]))
    return "\n".join(entries)


if __name__ == "__main__":
    sys.stdout.write(printed(sys.stdin.read(), sys.argv[1], int(sys.argv[2])))
