"""What `afdx replay --explain-drops` writes on standard error, as columns.

Each line `early n NS` is one of the proved program: NS is the least wait in ns after which the
frame of line n, dropped as over-rate, would have been accepted. Of several switches a PLACE stands
before it.
"""
from __future__ import annotations

from typing import IO

import numpy as np

from afdx_tools.faults import Refused
from afdx_tools.replay.lines import Block, blocks_of, readable
from afdx_tools.replay.named import Named
from afdx_tools.replay.sites import Sites

HEAD = b"early "


class Early:
    """The `early` lines in their order: the list's line, and the ns that its frame came too early
    by. What else stands there is the `fault`. A last such line that was cut doesn't count. With two
    recordings they have no side, and with several switches a number may come more than once: the
    i-th is about the i-th frame that is `over_rate`."""

    def __init__(
        self,
        file: IO[bytes],
        named: Named,
        over_rate: np.ndarray | None = None,
        sites: Sites = Sites(),
    ) -> None:
        self.named, self.over_rate, self.sites = named, over_rate, sites
        self.parts = [(np.zeros(0, np.int32), np.zeros(0, np.int64))]
        others, end = [], 0
        for block in blocks_of(readable(file), ended=True):
            end += int(block.ends[-1]) + 1
            others += self.take(block)
        file.seek(end)
        rest = file.read()
        if not HEAD.startswith(rest[: len(HEAD)]):
            others.append(rest)
        self.fault = b"\n".join(others).decode("utf-8", "replace").strip()
        self.lines, self.amounts = (np.concatenate(column) for column in zip(*self.parts))
        self.parts = []

    def lines_of(self, numbers: np.ndarray) -> np.ndarray:
        """The lines of the next `early` lines, which have these numbers."""
        if self.over_rate is None:
            return self.named.of(numbers)
        lines, self.over_rate = np.split(self.over_rate, [len(numbers)])
        if not np.array_equal(self.named.numbers[lines], numbers):
            raise Refused("the program's lines 'early' aren't those of its verdicts")
        return lines

    def take(self, block: Block) -> list[bytes]:
        """Takes a block's `early` lines; its other lines."""
        is_early = np.ones(len(block.starts), bool)
        for place, letter in enumerate(HEAD):
            is_early &= block.at(block.starts + place) == letter
        numbers, after = block.numbers(block.starts[is_early] + len(HEAD))
        if self.sites.are_several:
            _, after = self.sites.read(block, after + 1)
        amounts, _ = block.numbers(after + 1)
        self.parts.append((self.lines_of(numbers), amounts))
        others = np.flatnonzero(~is_early)
        return [block.text(block.starts[n], block.ends[n]) for n in others]
