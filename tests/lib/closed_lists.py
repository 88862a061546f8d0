"""The closed lists of the program, as docs/FORMATS.md and docs/RECORDINGS.md have them: bin/pages
prints their tables from what `afdx explain --list` prints, and bin/test compares the two."""
from __future__ import annotations

import pathlib

DOCUMENTS = pathlib.Path(__file__).resolve().parent.parent.parent / "docs"
FORMATS = DOCUMENTS / "FORMATS.md"
RECORDINGS = DOCUMENTS / "RECORDINGS.md"


def rows_below(heading: str, page: pathlib.Path = FORMATS) -> list[list[str]]:
    """The cells of the table with this heading, without marks; none where there is no such."""
    _, found, rest = page.read_text(encoding="utf-8").partition("\n" + heading + "\n")
    rows = rest.split("\n\n")[0].splitlines()[1:] if found else []
    return [[cell.strip().replace("`", "") for cell in row.strip("|").split(" | ")] for row in rows]


def firsts(heading: str, column: int = 0, page: pathlib.Path = FORMATS) -> list[str]:
    """A column of such a table."""
    rows = rows_below(heading, page)
    if not rows:
        raise SystemExit(f"{page} has no table {heading}")
    return [row[column] for row in rows]


# why a switch drops a frame, why a system drops one that a switch passed to it
REASONS = firsts("| WORD | The frame |")
NOT_RECEIVED = firsts("| WORD of X | The frame |")
REFUSALS = firsts("| Text | When |")
SKIPPED = firsts("| WORD of a skipped number | When |", page=RECORDINGS)
# of each condition of admission its line, after `no`
ADMISSION_LINES = [
    line.removeprefix("no ") for line in firsts("| Last line | What is wrong | What may help |")
]
ADMISSION = [line.split()[0] for line in ADMISSION_LINES]
CONFIG_FAULTS = [line.split()[1] for line in firsts("| Line on standard error | When |")]
LIST_FAULTS = [
    line for line in firsts("| Order | Line on standard error | When |", 1) if line[0] != "("
]
RECORDING_FAULTS = firsts("| Recording fault | When |", page=RECORDINGS)
# of each key its part, its number, its name and its values
KEYS = rows_below("| Part | Number | Key | Value |")
