"""The lines of `afdx replay` as columns: verdicts by the list's line, and what became of copies."""
from __future__ import annotations

from typing import IO, Callable

import numpy as np

from afdx_tools.config import MOST_PORTS, Config
from afdx_tools.faults import Refused
from afdx_tools.known import drops
from afdx_tools.replay.early import Early
from afdx_tools.replay.hops import Came, Hops
from afdx_tools.replay.lines import SPACE, Block, blocks_of, readable
from afdx_tools.replay.listing import SIDES, Listing
from afdx_tools.replay.named import Named

ACCEPT = "accept"
DELIVERED, REDUNDANT = "delivered", "redundant"
OVER_RATE = "over-rate"
LOST, OLD, LEFT = "full-buffer", "too-old", "left"
FATES = (LEFT, LOST, OLD)
NOT_YET = -1  # stands for a line without a verdict, and for a departure without a receiver's line
LETTERS = {letter: ord(letter) for letter in "VLDTMX"}
OTHERS = np.isin(np.arange(256), list(LETTERS.values()), invert=True)


class Words:
    """Words by small numbers, in the order in which they came."""

    def __init__(self, *first: str) -> None:
        self.names = list(first)

    def of(self, names: list[str]) -> np.ndarray:
        """The numbers of some words; a new word gets the next number."""
        self.names += [name for name in names if name not in self.names]
        return np.array([self.names.index(name) for name in names], np.int8)


class Events:
    """What a replay wrote. Of each line of the list `verdict`, the place of its word in
    `verdicts.names`; of each copy that came to its end, in the order of the lines, the list's line,
    the output port, the time, the fate (the place in FATES), what its receiver did with it (the
    place in `ends.names`), and `since`, when its frame came to that switch. `came` is all that came
    to a switch and was judged there, over cables too. `early` is what standard error said; `named`
    has the number that the program gave a line. With several switches `config` says how they hang
    together."""

    def __init__(self, listing: Listing, config: Config | None = None) -> None:
        self.listing, self.sites = listing, listing.sites
        self.named = Named(listing)
        self.hops = Hops(config) if config and config.several else None
        self.verdicts = Words(ACCEPT, *drops())
        self.ends = Words(DELIVERED, REDUNDANT)
        self.verdict = np.full(listing.lines + 1, NOT_YET, np.int8)
        self.parts: list[dict[str, np.ndarray]] = [none_at_all()]

    def read(self, file: IO[bytes], report: Callable[[int], None] = lambda line: None) -> None:
        """Takes the lines of `replay`, and joins them. A last line that was cut doesn't count."""
        for block in blocks_of(readable(file), ended=True, joined=b"D"):
            self.take(block, report)
        joined = {name: np.concatenate([p[name] for p in self.parts]) for name in self.parts[0]}
        self.parts = []
        self.line, self.time, self.port = joined["line"], joined["time"], joined["port"]
        self.fate, self.end = joined["fate"], joined["end"]
        self.join()

    def join(self) -> None:
        """Finds what came to each switch, and when."""
        listing = self.listing
        if self.hops is None:
            lines = np.flatnonzero(self.verdict != NOT_YET)
            times = listing.time[lines]
            self.came = Came(lines, listing.port[lines], times, self.verdict[lines])
            self.since = listing.time[self.line]
            return
        left = self.fate == FATES.index(LEFT)
        self.came, self.since = self.hops.joined(listing, self.line, self.port, self.time, left)
        lost = self.fate == FATES.index(LOST)
        self.time[lost] = self.since[lost]

    def read_errors(self, file: IO[bytes]) -> str:
        """Takes the lines of standard error, a file that was written; the fault line there."""
        wanted = self.listing.is_pair or self.sites.are_several
        over_rate = self.came.line[self.came.verdict == self.code_of(OVER_RATE)] if wanted else None
        self.early = Early(file, self.named, over_rate, self.sites)
        return self.early.fault

    def take(self, block: Block, report: Callable[[int], None]) -> None:
        """Takes a block's lines; behind a departure stands what the receiver did."""
        counts = np.bincount(block.heads, minlength=len(OTHERS))
        if counts[OTHERS].any():
            raise Refused("the program wrote a line that this tool doesn't know")
        lines = self.judged(block)
        if len(lines):
            report(int(lines[-1]))
        kinds = (("L", self.lost), ("D", self.departed), ("T", self.old))
        found = [columns(block) for letter, columns in kinds if counts[LETTERS[letter]]]
        if len(found) > 1:  # else they stand in their order
            part = {name: np.concatenate([one[name] for one in found]) for name in found[0]}
            order = np.argsort(part["at"], kind="stable")
            found = [{name: column[order] for name, column in part.items()}]
        for part in found:
            del part["at"]
            self.parts.append(part)

    def judged(self, block: Block) -> np.ndarray:
        """`V n PLACE accept` or `V n PLACE drop WORD`"""
        at = np.flatnonzero(block.heads == LETTERS["V"])
        numbers, end = block.numbers(block.starts[at] + 2)
        verdict = np.zeros(len(at), np.int8)
        before = block.ends[at] - len(ACCEPT) - 1  # a space, where the word is as long as that
        dropped = np.flatnonzero(block.bytes[before] != SPACE)
        names, places = block.last_words(at[dropped])
        verdict[dropped] = self.verdicts.of(names)[places]
        sides = block.at(end + 1)
        if self.hops is None:
            lines = self.named.next_lines(numbers, sides)
        else:
            first = self.named.are_first(numbers, sides)
            listed = self.named.next_lines(numbers[first], sides[first])
            switch, _ = self.sites.read(block, end + 1)
            self.hops.judged(self.named.of(numbers, sides), switch, verdict, first)
            lines, verdict = listed, verdict[first]
        self.verdict[lines] = verdict
        return lines

    def site(
        self, block: Block, lines: np.ndarray, at: np.ndarray
    ) -> tuple[np.ndarray, np.ndarray]:
        """Of `PLACE port`, with which these lines end and which begins there, the letter of the
        side, and the port."""
        port, side, blank = block.last_ports(lines)
        if self.sites.are_several:
            side = block.at(at)
            port = MOST_PORTS * self.sites.between(block, at + 2, blank) + port
        return side, port

    def lost(self, block: Block) -> dict[str, np.ndarray]:
        """`L n PLACE port`: the time is that of the list's line."""
        at = np.flatnonzero(block.heads == LETTERS["L"])
        numbers, end = block.numbers(block.starts[at] + 2)
        side, port = self.site(block, at, end + 1)
        line = self.named.of(numbers, side)
        return copies(at, line, self.listing.time[line], port, LOST)

    def old(self, block: Block) -> dict[str, np.ndarray]:
        """`T n time PLACE port`"""
        return self.ended(block, "T", OLD)

    def departed(self, block: Block) -> dict[str, np.ndarray]:
        """`D n time PLACE port`, and what the line after it says: M, or X with its word."""
        part = self.ended(block, "D", LEFT)
        after = np.minimum(part["at"] + 1, len(block.heads) - 1)
        heads = block.heads[after]
        part["end"][heads == LETTERS["M"]] = 0
        refused = np.flatnonzero(heads == LETTERS["X"])
        names, places = block.last_words(after[refused])
        part["end"][refused] = self.ends.of(names)[places]
        return part

    def ended(self, block: Block, letter: str, fate: str) -> dict[str, np.ndarray]:
        """The copies of the lines `LETTER n time PLACE port`."""
        at = np.flatnonzero(block.heads == LETTERS[letter])
        numbers, end = block.numbers(block.starts[at] + 2)
        time, end = block.numbers(end + 1)
        side, port = self.site(block, at, end + 1)
        return copies(at, self.named.of(numbers, side), time, port, fate)

    def side_of_copies(self) -> np.ndarray:
        """The side of each copy: 0 for A, 1 for B."""
        return self.listing.side[self.line]

    def number_of(self, line: int) -> int:
        """The number that the program gave a line of the list."""
        return int(self.named.numbers[line])

    def verdict_of(self, line: int) -> str:
        """The verdict of a line, as a word."""
        return self.verdicts.names[self.verdict[line]]

    def code_of(self, verdict: str) -> int:
        """The place of a verdict among the words."""
        return self.verdicts.names.index(verdict)

    def end_of(self, copy: int) -> str:
        """What the receiver did with a copy, as a word; nothing where no line says it."""
        return "" if self.end[copy] == NOT_YET else self.ends.names[self.end[copy]]


def side_name(side: int) -> str:
    """A or B."""
    return SIDES[side]


def none_at_all() -> dict[str, np.ndarray]:
    """The columns of no copies."""
    none = np.zeros(0, np.int64)
    columns = copies(none, none, none, none, LEFT)
    del columns["at"]
    return columns


def copies(
    at: np.ndarray, line: np.ndarray, time: np.ndarray, port: np.ndarray, fate: str
) -> dict[str, np.ndarray]:
    """The columns of copies with one fate; `at` is their place in the block."""
    return {
        "at": at,
        "line": line.astype(np.int32),
        "time": time,
        "port": port.astype(np.int16, copy=False),
        "fate": np.full(len(at), FATES.index(fate), np.int8),
        "end": np.full(len(at), NOT_YET, np.int8),
    }
