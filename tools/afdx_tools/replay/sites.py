"""The places of lines: a side, and of several switches a side the name of one behind it."""
from __future__ import annotations

from typing import Sequence

import numpy as np

from afdx_tools.replay.eights import MASKS, count, until_space
from afdx_tools.replay.lines import SPACE, Block

UNKNOWN = -1  # the number of a switch that the configuration doesn't have
LONGEST = 16  # characters of a name
SLOTS = 10  # bits of the slot that a name has in a table
GOLDEN = np.uint64(0x9E37_79B9_7F4A_7C15)  # spreads numbers that are near each other
FACTORS = range(1, 1_000_000, 2)  # with one of them the slots of all names are different


class Sites:
    """Reads places. `names` are those of the switches, in the order of the configuration; of one
    switch a side there are none."""

    def __init__(self, names: Sequence[str] = ()) -> None:
        self.names = tuple(names)
        known = np.array([name.encode() for name in names], f"S{LONGEST}")
        letters = known.view("<u8").reshape(-1, 2)
        differing = (n for n in FACTORS if len(np.unique(slots_of(letters, n))) == len(names))
        self.factor = next(differing, 1)
        self.letters = np.zeros((1 << SLOTS, 2), "<u8")
        self.switches = np.full(1 << SLOTS, UNKNOWN, np.int16)
        slots = slots_of(letters, self.factor)
        self.letters[slots], self.switches[slots] = letters, range(len(names))

    @property
    def are_several(self) -> bool:
        """Do lines name switches?"""
        return bool(self.names)

    def read(self, block: Block, at: np.ndarray) -> tuple[np.ndarray, np.ndarray]:
        """Of places that begin there: the number of each one's switch, which is 0 where there is
        one, and where the place ends."""
        if not self.names:
            return np.zeros(len(at), np.int16), at + 1
        letters, length = names_at(block, at + 2)
        is_known = (length > 0) & (block.at(at + 1) == SPACE)
        return np.where(is_known, self.named(letters), UNKNOWN), at + 2 + length

    def between(self, block: Block, begin: np.ndarray, end: np.ndarray) -> np.ndarray:
        """The numbers of the switches whose names stand between these places."""
        length = np.minimum(end - begin, LONGEST)
        letters = np.empty((len(begin), 2), "<u8")
        letters[:, 0] = block.eights[begin] & MASKS[length]
        letters[:, 1] = block.eights[begin + 8] & MASKS[np.maximum(length - 8, 0)]
        return np.where(end - begin == length, self.named(letters), UNKNOWN)

    def named(self, letters: np.ndarray) -> np.ndarray:
        """The numbers of the switches with these names."""
        slots = slots_of(letters, self.factor)
        is_known = self.letters[slots, 0] == letters[:, 0]
        is_known &= self.letters[slots, 1] == letters[:, 1]
        return np.where(is_known, self.switches[slots], UNKNOWN)


def slots_of(letters: np.ndarray, factor: int) -> np.ndarray:
    """The slots of names, of each of which the letters are two numbers."""
    mixed = (letters[:, 0] * np.uint64(factor) + letters[:, 1]) * GOLDEN
    return (mixed >> np.uint64(64 - SLOTS)).astype(np.int16)


def names_at(block: Block, at: np.ndarray) -> tuple[np.ndarray, np.ndarray]:
    """The letters of the words that begin there and end with a space, eight in a number, and how
    many they are: 0 where they are more than a name has."""
    letters = np.zeros((len(at), LONGEST // 8), "<u8")
    length = np.zeros(len(at), np.int64)
    left = np.arange(len(at))
    for part in range(LONGEST // 8):
        eights = block.eights[at[left] + 8 * part]
        inside = until_space(eights)
        letters[left, part] = eights & inside
        own = count(inside)
        length[left] += own
        left = left[own == 8]
    is_cut = left[block.at(at[left] + LONGEST) != SPACE]
    length[is_cut] = 0
    return letters, length
