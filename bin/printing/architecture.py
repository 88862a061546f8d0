"""The columns of docs/ARCHITECTURE.md that say what each crate may cite, and its definitions."""
from __future__ import annotations

import re

from printing.crates import crates_cited, files_of_definitions, short

HEADING = "| Crate | What it is | May cite | Definitions | What the layer above uses |"
COLUMNS = 5


def row_of(crate: str, cited: list[str], said: dict[str, list[str]]) -> str:
    """The row of a crate, with what is said of it by hand."""
    if crate not in said:
        raise SystemExit(f"docs/ARCHITECTURE.md: {crate} has no row; begin one there")
    what, _, _, uses = said[crate]
    names = ", ".join(f"`{file}`" for file in files_of_definitions(crate))
    return " | ".join([f"| `{crate}`", what, ", ".join(map(short, cited)) or "none",
                       names or "none", f"{uses} |"])


def printed(page: str) -> str:
    """The page with both columns as they have to be, and its rows in the order of crates.txt."""
    before, heading, rest = page.partition(HEADING + "\n")
    rows, blank, after = rest.partition("\n\n")
    rule, *lines = rows.splitlines()
    said = {}
    for line in lines:
        cells = re.fullmatch(r"\| `(\w+)` \| " + r" \| ".join([r"(.*?)"] * (COLUMNS - 1)) + r" \|",
                             line)
        if not heading or cells is None:
            raise SystemExit(f"docs/ARCHITECTURE.md: a row of crates has other columns: {line}")
        said[cells.group(1)] = list(cells.groups()[1:])
    crates = crates_cited()
    if set(said) - set(crates):
        raise SystemExit(f"docs/ARCHITECTURE.md: no crates are {set(said) - set(crates)}")
    made = [row_of(crate, cited, said) for crate, cited in crates.items()]
    return before + heading + "\n".join([rule, *made]) + blank + after
