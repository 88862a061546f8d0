"""Bytes of a text eight at a time, each eight as one number: what is found in them is found for all
at once. The first byte is the lowest of the number.
"""
from __future__ import annotations

from typing import TypeAlias

import numpy as np

Eights: TypeAlias = np.ndarray  # of uint64
ONES = np.uint64(0x0101_0101_0101_0101)
HIGHEST = np.uint64(0x8080_8080_8080_8080)  # the highest bit of each byte
ZEROS = np.uint64(ord("0")) * ONES
SPACES = np.uint64(ord(" ")) * ONES
OVER_NINE = np.uint64(0x7F - 9) * ONES  # added to a byte that is over 9 it sets the highest bit
ONE, SEVEN, BYTE, TOP, INDEX = map(np.uint64, (1, 7, 8, 56, 61))
# By what numbers of one, two and four digits are multiplied, so that each one and the next are
# joined, in the bits of the next; by how many these are moved down; and the bits that are kept.
JOINING = [
    (np.uint64(10 << 8 | 1), BYTE, np.uint64(0x00FF_00FF_00FF_00FF)),
    (np.uint64(100 << 16 | 1), np.uint64(16), np.uint64(0x0000_FFFF_0000_FFFF)),
    (np.uint64(10_000 << 32 | 1), np.uint64(32), np.uint64(0xFFFF_FFFF)),
]
PLACES = np.uint64(sum(n << 61 - 8 * n for n in range(8)))  # times a byte's lowest bit: its place
MASKS = np.array([*((1 << 8 * n) - 1 for n in range(9)), *[2**64 - 1] * 8], np.uint64)  # of bytes
POWERS = np.array([10**n for n in range(9)], np.uint64)


def windows(text: np.ndarray) -> Eights:
    """The eight bytes from each place of a text on; it is read where it lies."""
    return np.ndarray((len(text) - 7,), "<u8", buffer=text, strides=(1,))


def fours(text: np.ndarray) -> np.ndarray:
    """The same of four bytes."""
    return np.ndarray((len(text) - 3,), "<u4", buffer=text, strides=(1,))


def before(marks: Eights) -> Eights:
    """All bits of the bytes before the first that is marked by its highest bit."""
    first = marks & (~marks + ONE)
    return (first >> SEVEN) - ONE


def count(before_it: Eights) -> np.ndarray:
    """How many bytes these are."""
    return ((before_it & ONES) * ONES >> TOP).astype(np.int64)


def until_space(eights: Eights) -> Eights:
    """All bits of the bytes before the first space."""
    other = eights ^ SPACES
    return before((other - ONES) & ~other & HIGHEST)


def joined(values: Eights) -> Eights:
    """The numbers of eight digits each, of which each byte holds one; they take their place."""
    for factor, down, kept in JOINING:
        values *= factor
        values >>= down
        values &= kept
    return values


def digits(eights: Eights) -> tuple[Eights, np.ndarray | int]:
    """The number that the bytes begin with, 0 where it has no digit, and how many digits it has,
    one number where all have as many."""
    values = eights ^ ZEROS
    others = values + OVER_NINE  # a byte that is no digit is marked by its highest bit
    others |= values
    others &= HIGHEST
    even = even_length(others)
    if even is not None:
        values <<= BYTE * np.uint64(8 - even)  # at the highest bytes
        return joined(values), even
    mask = before(others)
    length = count(mask)
    values &= mask
    values <<= BYTE * (BYTE - length.astype(np.uint64))
    return joined(values), length


def even_length(others: Eights) -> int | None:
    """How many bytes stand before the first one that is marked, if these are as many in all."""
    if not len(others):
        return 0
    first = int(others[0])
    length = ((first & -first).bit_length() - 1) // 8 if first else 8
    until = others & MASKS[length + 1]
    return length if (until == until[0]).all() else None


def places_of(text: np.ndarray, size: int, byte: int) -> np.ndarray:
    """The places of a byte among the first `size` ones of a text, behind which eight more stand
    that are others. Eight bytes are looked at together, and seldom two of them should be it."""
    marked = text[: size + 7 & ~7] == byte
    eights = marked.view(np.uint64)
    found = np.flatnonzero(eights != 0)
    lowest = eights[found]
    if np.bitwise_or.reduce(lowest & (lowest - ONE)):
        return np.flatnonzero(marked)
    lowest *= PLACES
    lowest >>= INDEX
    found <<= 3
    found += lowest.view(np.int64)
    return found
