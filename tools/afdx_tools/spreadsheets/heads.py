"""Which column the head of one names, in which unit its numbers are, and what a number says."""
from __future__ import annotations

import re
from fractions import Fraction
from typing import Iterable, Iterator, Mapping, NamedTuple

from afdx_tools.faults import Refused, shown

IN_US = {"us": Fraction(1), "ms": Fraction(1000), "s": Fraction(10**6), "ns": Fraction(1, 1000)}
IN_MS = {unit: factor / 1000 for unit, factor in IN_US.items()}
MBIT = dict.fromkeys(("mbit_s", "mb_s", "mbit", "mbps"), Fraction(1))
GBIT = dict.fromkeys(("gbit_s", "gbit", "gbps"), Fraction(1000))
BYTES = dict.fromkeys(("b", "byte", "bytes", "octets"), Fraction(1))
# the columns of quantities: their heads without a unit, and by what numbers of a unit are
# multiplied
UNITS: dict[str, tuple[str, Mapping[str, Fraction]]] = {
    "every_ms": ("every", IN_MS),
    "within_us": ("within", IN_US),
    "skew_us": ("skew", IN_US),
    "rate": ("rate", MBIT | GBIT),
    "bytes": ("bytes", BYTES),
}


SECOND = "second"  # before the name of a column: the second one of two that have the same head


class Head(NamedTuple):
    """The column that a head names, by what its numbers are multiplied, and how the head is
    written, in one spelling."""

    column: str
    factor: Fraction
    written: str


def heads_of(column: str) -> Iterator[tuple[str, Head]]:
    """The heads that name a column, in one spelling, and what they say."""
    yield spelled(column), Head(column, Fraction(1), column)
    base, factors = UNITS.get(column, ("", {}))
    for unit, factor in factors.items():
        for head in (f"{base}_{unit}", *([f"{column}_{unit}"] if factor == 1 else [])):
            yield head, Head(column, factor, column if factor == 1 else head)


def spelled(head: str) -> str:
    """A head in small letters, with `_` in the place of all that is neither letter nor digit: so
    `Every [ms]` is `every_ms`."""
    plain = head.lower().replace("\u00b5", "u").replace("\u03bc", "u")
    return re.sub(r"[\W_]+", "_", plain).strip("_")


def named_by(heads: Iterable[str], known: Mapping[str, Head]) -> list[Head | None]:
    """The columns that heads name; a head that comes again names the second column of that name, if
    there is one."""
    found: list[Head | None] = []
    for head in heads:
        named = known.get(spelled(head))
        if named is not None and named in found:
            named = known.get(spelled(f"{SECOND} {named.column}"), named)
        found.append(named)
    return found


def columns_of(path: str, heads: Iterable[str], columns: Mapping[str, bool]) -> list[Head | None]:
    """The columns that the first row of a table names, None where a head names none; Refused where
    one of those that have to be there isn't, or one stands twice."""
    known = dict(head for column in columns for head in heads_of(column))
    found = named_by(heads, known)
    names = [head.column for head in found if head]
    missing = [name for name, is_needed in columns.items() if is_needed and name not in names]
    if missing:
        raise Refused(f"{shown(path)}: no column is named {', '.join(missing)}")
    twice = [name for name in columns if names.count(name) > 1]
    if twice:
        raise Refused(f"{shown(path)}: two columns are named {twice[0]}")
    return found


def amount_of(text: str) -> Fraction | None:
    """The number that a cell says, if it says one: digits, with a fraction after a point or a
    comma. Three digits after a comma, and three zeros after either, may also be thousands: that
    says none."""
    found = re.fullmatch(r"([0-9]{1,20})(?:([.,])([0-9]{1,9}))?", text, re.ASCII)
    if not found:
        return None
    _, mark, digits = found.groups("")
    if len(digits) == 3 and (mark == "," or digits == "000"):
        return None
    return Fraction(f"{found[1]}.{digits or 0}")
