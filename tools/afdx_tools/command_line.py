"""The words that a tool takes."""
from __future__ import annotations

import argparse
from typing import Any, Callable, NoReturn

from afdx_tools.faults import leave, shown
from afdx_tools.version import NUMBER


class Parser(argparse.ArgumentParser):
    """A parser whose faults are one line."""

    def parse_known_args(self, args: Any = None, namespace: Any = None) -> tuple[Any, list[str]]:
        """As argparse does; but a second `--`, of which it makes an empty list, is a fault."""
        found, others = super().parse_known_args(args, namespace)
        for action in self._actions:
            if action.default is None and getattr(found, action.dest, None) == []:
                self.error("a file that is named -- has to be written as ./--")
        return found, others

    def error(self, message: str) -> NoReturn:
        """Ends the tool with status 2."""
        leave(self.prog, shown(message))


def parser_of(tool: str, text: str | None) -> Parser:
    """The parser of a tool, with what it says of itself; it takes the word --version."""
    parser = Parser(
        prog=tool, description=text, formatter_class=argparse.RawDescriptionHelpFormatter
    )
    version = f"{tool} {NUMBER}"
    parser.add_argument(
        "--version", action="version", version=version, help="print the version and leave"
    )
    return parser


def whole(least: int, most: int) -> Callable[[str], int]:
    """The type of a word that is a whole number of a range."""

    def number(text: str) -> int:
        if not (text.isascii() and text.isdigit()) or not least <= int(text[:20]) <= most:
            raise argparse.ArgumentTypeError(f"{text} is no whole number of {least} to {most}")
        return int(text)

    return number
