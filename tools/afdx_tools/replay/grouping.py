"""Places by keys: what has the same key stands together. Keys are whole numbers, none below 0."""
from __future__ import annotations

from typing import Iterator

import numpy as np

FEW = 1 << 16  # keys that are sorted by their digits, several times faster than others
SPARSE = 8  # times as many keys as there are could be, at most, where all of them are counted


class Groups:
    """The places of each key, in their order: those of `keys[n]` are `order[bounds[n]]` and after,
    up to `bounds[n + 1]`; the keys ascend."""

    def __init__(self, keys: np.ndarray) -> None:
        most = int(keys.max(initial=-1)) + 1
        if most > FEW + SPARSE * len(keys):
            found, counts = np.unique(keys, return_counts=True)
        else:
            all_counts = np.bincount(keys)
            found = np.flatnonzero(all_counts)
            counts = all_counts[found]
        self.keys = found.tolist()
        self.bounds = [0, *np.cumsum(counts).tolist()]
        self.order = order_by(keys, found, most)

    def parts(self) -> Iterator[tuple[int, int, int]]:
        """Of each key the key, where its places begin, and where they end."""
        return zip(self.keys, self.bounds, self.bounds[1:])


class ByKey:
    """Values by their keys, those of each in their order: of each of the keys, which ascend, which
    part of the values it has."""

    def __init__(self, keys: np.ndarray, values: np.ndarray) -> None:
        groups = Groups(keys)
        self.keys, self.bounds, self.values = groups.keys, groups.bounds, values[groups.order]
        self.spans = {key: slice(begin, end) for key, begin, end in groups.parts()}

    def of(self, key: int) -> np.ndarray:
        """The values of a key."""
        return self.values[self.spans.get(key, slice(0))]


def order_by(keys: np.ndarray, found: np.ndarray, most: int) -> np.ndarray:
    """The order by keys below `most`, of which these are `found`; equal ones as they stand."""
    if most <= FEW:
        return np.argsort(keys.astype(np.uint16), kind="stable")
    if len(found) > FEW or most > FEW + SPARSE * len(keys):
        return order_of(keys)
    ranks = np.zeros(most, np.uint16)
    ranks[found] = range(len(found))
    return np.argsort(ranks[keys], kind="stable")


def order_of(keys: np.ndarray) -> np.ndarray:
    """The order by keys below 2 ** 32, equal ones as they stand: by two halves of 16 bits, which
    numpy sorts several times faster."""
    low = (keys & 0xFFFF).astype(np.uint16)
    order = np.argsort(low, kind="stable")
    high = (keys >> 16).astype(np.uint16)
    return order[np.argsort(high[order], kind="stable")] if high.any() else order


def grouped(keys: np.ndarray) -> dict[int, np.ndarray]:
    """The places of each key, in their order."""
    groups = Groups(keys)
    return {key: groups.order[begin:end] for key, begin, end in groups.parts()}


def first_greatest(values: np.ndarray, bounds: np.ndarray) -> np.ndarray:
    """Of each part of the values, from one of the bounds to the next, the place of the greatest, of
    equal ones the first. No part is empty."""
    if len(bounds) < 2:
        return bounds[:0]
    greatest = np.maximum.reduceat(values, bounds[:-1])
    at = np.flatnonzero(values == np.repeat(greatest, np.diff(bounds)))
    return at[np.searchsorted(at, bounds[:-1])]


def is_ascending(values: np.ndarray) -> bool:
    """Is none of them below the one before it?"""
    return not (values[1:] < values[:-1]).any()


def narrowed(values: np.ndarray) -> np.ndarray:
    """The values in 32 bits, where all find room there: so they are sorted twice as fast."""
    room = np.iinfo(np.int32)
    if len(values) and room.min <= values.min() and values.max() <= room.max:
        return values.astype(np.int32)
    return values
