"""What `afdx explain --list` prints: of each word and each form of a line what it means."""
from __future__ import annotations

import dataclasses
import re
import subprocess


@dataclasses.dataclass(frozen=True)
class Row:
    """A text of one of the lists, and the words or forms that it is of."""
    kind: str
    forms: tuple[str, ...]
    text: str

    @property
    def word(self) -> str:
        """The word, or the first of the forms."""
        return self.forms[0]


def rows_in(told: str) -> list[Row]:
    """The rows of what was printed."""
    rows = []
    for block in told.strip("\n").split("\n\n"):
        lines = block.split("\n")
        kind = lines[0].split(" ")[0]
        count = 0
        while count < len(lines) and lines[count].startswith(kind + " "):
            count += 1
        forms = tuple(line.removeprefix(kind + " ") for line in lines[:count])
        rows.append(Row(kind, forms, " ".join(lines[count:])))
    return rows


def rows_of(program: str) -> list[Row]:
    """The rows of a program."""
    words = [program, "explain", "--list"]
    return rows_in(subprocess.run(words, capture_output=True, text=True, check=True).stdout)


def sentences(text: str, count: int = 1) -> str:
    """The first sentences of a text, without the last full stop."""
    parts = re.split(r"(?<!\.)\.(?=\s|$)", text)
    return ".".join(parts[:count])
