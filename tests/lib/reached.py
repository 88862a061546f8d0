"""Which definitions of specs/ and lemmas of proofs/ nothing reaches, read off the sources; a part
of tests/run/house.py.

What a function's contract, its answers or a tactic in its source names is reached, and what is
named by a definition that is reached."""
from __future__ import annotations

import pathlib
import re
from collections.abc import Iterator
from typing import NamedTuple

WORDS = re.compile(r"[^\s(){}\[\],;.λ]+")
DOTTED = re.compile(r"([^\s(){}\[\],;.λ]+)\.([^\s(){}\[\],;.λ]+)")
HEAD = re.compile(
    r"\s*(?:(?:abbrev|unfoldable|pub|record|data) )*([^\s:(){}]+)(?= :| where| \(| \{)"
)
IMPORT = re.compile(
    r"^\s*(?:ghost |pub )*use (?:Rattle\.)?([^\s{]+?)(?:\.\{(.*)\})?(?: as (\S+?))?;?$", re.M
)
TACTIC = re.compile(r"\b(crate|afdx_\w+)::((?:specs|proofs)(?:::\w+)*)::([^\s,()\]]+)")


class Place(NamedTuple):
    """A definition: the file where it stands, as a path of names, and its own name."""

    file: str
    name: str


class Source:
    """The definitions of a file: the words that each names, and its lines."""

    def __init__(self, text: str, file: str) -> None:
        self.file = file
        self.imports: dict[str, Place] = {}
        self.files: dict[str, str] = {}
        self.words: dict[str, set[str]] = {}
        self.lines: dict[str, list[int]] = {}
        self.outside: set[str] = set()  # words that stand in no definition
        self.read(text)

    def read(self, text: str) -> None:
        modules: list[int] = []
        here: str | None = None
        for number, line in enumerate(text.splitlines(), 1):
            bare = line.split(" -- ")[0]
            if not bare.strip() or bare.lstrip().startswith("--") or self.imported(bare):
                continue
            indent = len(bare) - len(bare.lstrip())
            while modules and indent <= modules[-1]:
                modules.pop()
            if bare.lstrip().startswith("module _"):
                modules.append(indent)
                here = None
            elif indent == (modules[-1] + 2 if modules else 0):
                here = self.headed(bare, here)
            said = set(WORDS.findall(bare)) | {f"{a}.{b}" for a, b in DOTTED.findall(bare)}
            if here is None:
                self.outside |= said
            else:
                self.words[here] |= said
                self.lines[here].append(number)

    def headed(self, line: str, here: str | None) -> str | None:
        """The definition to which a line of the file's own level belongs."""
        found = HEAD.match(line)
        if found and line.split()[0] != "unfolding":
            self.words.setdefault(found.group(1), set())
            self.lines.setdefault(found.group(1), [])
            return found.group(1)
        first = line.split()[0]
        return first if first in self.words else here

    def imported(self, line: str) -> bool:
        found = IMPORT.match(line)
        if not found:
            return False
        file, names, alias = found.groups()
        if names is None:
            self.files[alias or file.split(".")[-1]] = file
        for name in (names or "").split(","):
            said, _, other = name.strip().partition(" as ")
            self.imports[other or said] = Place(file, said)
        return True

    def named(self, words: set[str]) -> Iterator[Place]:
        """What these words of the file name."""
        for word in words:
            file, dot, name = word.partition(".")
            if dot:
                if file in self.files:
                    yield Place(self.files[file], name)
            elif word in self.words:
                yield Place(self.file, word)
            elif word in self.imports:
                yield self.imports[word]


def sources_of(top: pathlib.Path) -> dict[str, Source]:
    """The files of definitions and of proofs of all crates."""
    found = {}
    for part in ("specs", "proofs"):
        for path in sorted((top / "crates").glob(f"*/{part}/**/*.antt")):
            file = ".".join(path.relative_to(top / "crates").with_suffix("").parts)
            found[file] = Source(path.read_text(encoding="utf-8"), file)
    return found


def is_of_lemmas(file: str) -> bool:
    """It has definitions or lemmas; other files of proofs answer what a function asks."""
    parts = file.split(".")
    return parts[1] == "specs" or len(parts) == 3


def named_in_code(top: pathlib.Path) -> Iterator[Place]:
    """What the crates' sources name."""
    for path in sorted((top / "crates").glob("*/src/**/*.rt")):
        text = path.read_text(encoding="utf-8")
        for found in IMPORT.finditer("\n".join(re.findall(r"^\s*ghost use .*", text, re.M))):
            file, names, alias = found.groups()
            if names is None:
                alias = alias or file.split(".")[-1]
                for a, b in DOTTED.findall(text):
                    if a == alias:
                        yield Place(file, b)
            for name in (names or "").split(","):
                yield Place(file, name.strip().partition(" as ")[0])
        crate = path.relative_to(top / "crates").parts[0]
        for own, parts, name in TACTIC.findall(text):
            file = f"{crate if own == 'crate' else own}.{parts.replace('::', '.')}"
            yield Place(file, name)


def unreached(top: pathlib.Path) -> list[Place]:
    """The definitions and lemmas that nothing reaches."""
    sources = sources_of(top)
    ahead = list(named_in_code(top))
    for source in sources.values():
        ahead += source.named(source.outside)
        if not is_of_lemmas(source.file):
            for words in source.words.values():
                ahead += source.named(words)
    reached: set[Place] = set()
    while ahead:
        place = ahead.pop()
        if place in reached:
            continue
        reached.add(place)
        if place.file in sources:
            ahead += sources[place.file].named(sources[place.file].words.get(place.name, set()))
    return [
        Place(source.file, name)
        for source in sources.values()
        if is_of_lemmas(source.file)
        for name in source.words
        if Place(source.file, name) not in reached
    ]
