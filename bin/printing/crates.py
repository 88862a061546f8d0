"""The crates in the order of crates.txt, what each may cite, and its files of definitions."""
from __future__ import annotations

import re

from printing.sources import CRATES, TOP, text_of

PREFIX = "afdx_"


def short(crate: str) -> str:
    """The name of a crate as the pages have it: without the prefix."""
    return crate.removeprefix(PREFIX)


def crates_cited() -> dict[str, list[str]]:
    """Each crate, the lowest first, and those that it may cite."""
    cited = {}
    for line in text_of(TOP / "crates.txt").splitlines():
        if line and line[0] not in "# ":
            crate, _, names = line.partition(":")
            cited[crate.strip()] = names.split()
    return cited


def files_of_definitions(crate: str, folder: str = "Lib") -> list[str]:
    """Its files of definitions in the order in which they are declared; those of a folder as
    `folder.File`."""
    specs = CRATES / crate / "specs"
    listed = specs / (folder.replace(".", "/") + ".antt")
    if not listed.is_file():
        return []
    above = "" if folder == "Lib" else folder + "."
    files = []
    for name in re.findall(r"^pub mod (\w+)", text_of(listed), re.M):
        files += files_of_definitions(crate, above + name) or [above + name]
    return files


def head_of(crate: str, file: str) -> str:
    """The first sentence that a file of definitions begins with."""
    path = CRATES / crate / "specs" / (file.replace(".", "/") + ".antt")
    lines = []
    for line in text_of(path).splitlines():
        if not line.startswith("--"):
            break
        lines.append(line.removeprefix("--").strip())
    return re.split(r"(?<=[.])\s+(?=[A-Z`])", " ".join(lines))[0]
