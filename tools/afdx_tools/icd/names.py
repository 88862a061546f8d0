"""Names of an interface document, and what a configuration calls them: it takes no `_` and `-`."""
from __future__ import annotations

import itertools
import re
from typing import Iterable, Iterator

LONGEST_NAME = 16
NO_NAME = f"it has to be a name of 1 to {LONGEST_NAME} letters A to Z and digits"


def is_lawful(name: str) -> bool:
    """A configuration takes the name."""
    return re.fullmatch(f"[A-Za-z0-9]{{1,{LONGEST_NAME}}}", name) is not None


def numbered(name: str) -> Iterator[str]:
    """A name, then the same with a number each: x2, x3 and so on."""
    ends = itertools.chain([""], (f"x{number}" for number in itertools.count(2)))
    return (name[: LONGEST_NAME - len(end)] + end for end in ends)


def lawful_names(names: Iterable[str]) -> dict[str, str]:
    """What the configuration calls each of these, if it can: one that has `_` and `-` without them,
    as no other is called. If two would be the same, the second has a number too: x2, x3 and so
    on."""
    names = list(names)
    found = {name: name for name in names if is_lawful(name)}
    taken = set(found)
    others: dict[str, Iterator[str]] = {}
    for name in names:
        plain = re.sub("[_-]", "", name)
        if name in found or not is_lawful(plain):
            continue
        choice = others.setdefault(plain, numbered(plain))
        found[name] = next(other for other in choice if other not in taken)
        taken.add(found[name])
    return found
