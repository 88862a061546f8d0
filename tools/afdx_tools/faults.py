"""What a tool can't do, how it is said in one line, and texts as they can be printed."""
from __future__ import annotations

import os
import sys
from typing import IO, NoReturn, Sequence

LONGEST_NAME = 64  # characters of a name from a recording or another report that are shown


class Refused(Exception):
    """What a tool can't do, in a line for its user."""


class Failed(Exception):
    """The program ended with a fault before there was anything to report. `again` are words of the
    program that end with this fault at once, if there are such."""

    def __init__(self, line: str, status: int, again: Sequence[str] = ()) -> None:
        super().__init__(line)
        self.status = status
        self.again = again


def shown(text: str) -> str:
    """A text as it can be printed in a line: bytes that are no text, and characters that a terminal
    would obey, as `\\xNN` or the like."""
    return text if text.isprintable() else "".join(map(shown_one, text))


def shown_one(character: str) -> str:
    """A character as it can be printed."""
    if character.isprintable():
        return character
    if 0xDC80 <= ord(character) <= 0xDCFF:  # in a name it stands for a byte that is no text
        return f"\\x{ord(character) - 0xDC00:02x}"
    return character.encode("unicode_escape").decode()


def cut(text: str, most: int) -> str:
    """A text as it can be printed, of which at most so many characters are."""
    shorter = shown(text[: most + 1])
    return shorter if len(shorter) <= most else f"{shorter[:most]}.."


def let_go(stream: IO[str] | None) -> None:
    """Gives up what a stream that failed still has to write: nothing more is said of it."""
    if stream is not None:
        os.dup2(os.open(os.devnull, os.O_WRONLY), stream.fileno())


def report_fault(tool: str, line: object) -> None:
    """Writes one line on standard error, if that takes it."""
    try:
        print(f"{tool}: {shown(str(line))}", file=sys.stderr)
    except OSError:
        let_go(sys.stderr)


def leave(tool: str, line: object, status: int = 2) -> NoReturn:
    """Ends the tool with one line on standard error."""
    report_fault(tool, line)
    sys.exit(status)
