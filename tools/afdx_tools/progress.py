"""How far a tool is, on standard error, where that is a terminal and the work takes a while."""
from __future__ import annotations

import sys
import time
from typing import Iterable, Iterator, TypeVar

Item = TypeVar("Item")

WAIT = 2.0  # seconds after which progress is reported
SILENT = 2.0  # seconds in which nothing is said
APART = 0.5  # seconds from one word to the next
LOOKED_AT = 1000  # items between two looks at the clock


class Progress:
    """Says on standard error how far the work is, once it takes more than two seconds, where that
    is a terminal."""

    def __init__(self, tool: str) -> None:
        self.tool = tool
        self.length = 0
        self.next = time.monotonic() + WAIT
        self.on = sys.stderr.isatty()

    def report(self, words: str) -> None:
        """Writes the words over the last ones, at most five times a second."""
        now = time.monotonic()
        if not self.on or now < self.next:
            return
        self.next = now + 0.2
        line = f"{self.tool}: {words}"
        print(f"\r{line:{self.length}}", end="", file=sys.stderr, flush=True)
        self.length = len(line)

    def done(self) -> None:
        """Wipes the last words out."""
        if self.length:
            print("\r" + " " * self.length + "\r", end="", file=sys.stderr, flush=True)
            self.length = 0


def counted(items: Iterable[Item], what: str) -> Iterator[Item]:
    """The items; how many have been taken is said in a line that is wiped off at the end."""
    if not sys.stderr.isatty():
        yield from items
        return
    due, has_spoken = time.monotonic() + SILENT, False
    try:
        for number, item in enumerate(items, 1):
            yield item
            if number % LOOKED_AT == 0 and time.monotonic() >= due:
                due, has_spoken = time.monotonic() + APART, True
                print(f"\r{number:,} {what}", end="", file=sys.stderr, flush=True)
    finally:
        if has_spoken:
            print("\r\x1b[K", end="", file=sys.stderr, flush=True)
