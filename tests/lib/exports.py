"""What a crate gives to others and none of them names, read off the sources; a part of
tests/run/house.py."""
from __future__ import annotations

import pathlib
import re
from collections.abc import Iterator

GIVEN = re.compile(r"^pub use ([^;]+);", re.M)
SIGNED = [  # what a caller sees of what is public: signatures, fields, traits of a type
    re.compile(r"^\s*pub fn (.*?)(?=^\s*(?:requires|ensures|\{)|\{$)", re.M | re.S),
    re.compile(r"^\s*pub \w+: ([^\n]*)", re.M),
    re.compile(r"^impl([^\n]*) for ", re.M),
    re.compile(r"^    \w+\(([^\n]*)\),$", re.M),
]


def names_of(text: str) -> Iterator[str]:
    """The names that are taken over, as they are called then: of `a::{b, c as d}` b and d."""
    last = text[text.find("{") + 1 :] if "{" in text else text.split("::")[-1]
    for name in last.strip().rstrip("}").split(","):
        if name.strip():
            yield name.split(" as ")[-1].strip()


def given(crate: pathlib.Path) -> set[str]:
    """What the crate gives: what its root takes over from its modules."""
    root = crate / "src" / "lib.rt"
    text = root.read_text(encoding="utf-8") if root.is_file() else ""
    return {name for said in GIVEN.findall(text) for name in names_of(said)}


def words_of(crate: pathlib.Path) -> set[str]:
    """The words of the crate's sources."""
    texts = (path.read_text(encoding="utf-8") for path in crate.glob("src/**/*.rt"))
    return {word for text in texts for word in re.findall(r"\w+", text)}


def signed(crate: pathlib.Path) -> set[str]:
    """The words of what a caller sees of the crate's public items."""
    texts = (path.read_text(encoding="utf-8") for path in crate.glob("src/**/*.rt"))
    seen = (said for text in texts for form in SIGNED for said in form.findall(text))
    return {word for said in seen for word in re.findall(r"\w+", said)}


def unnamed(top: pathlib.Path) -> list[str]:
    """What no other crate names of what a crate gives, as `afdx_port::Left`. A type that a caller
    is handed, or hands over, needs no name there."""
    crates = sorted((top / "crates").glob("afdx*"))
    words = {crate: words_of(crate) for crate in crates}
    return [
        f"{crate.name}::{name}"
        for crate in crates
        for name in sorted(given(crate))
        if name[0].islower() or name not in signed(crate)
        if not any(name in words[other] for other in crates if other != crate)
    ]
