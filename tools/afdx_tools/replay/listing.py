"""A frame list as columns: of each line when and where it came in, what its frame's bytes say."""
from __future__ import annotations

import hashlib
from typing import IO, Callable, Iterator

import numpy as np

from afdx_tools.config import MOST_PORTS
from afdx_tools.lists import MOST_LINES
from afdx_tools.replay.lines import RETURN, SPACE, Block, Readable, blocks_of, readable
from afdx_tools.replay.sites import Sites

NO_LINK = -1  # stands for frames that name no link of the configuration
NO_NUMBER = -1  # stands for frames too short for a sequence number
NO_SOURCE = -1  # stands for frames too short for a source address
SIDES = "AB"
KINDS = np.isin(np.arange(256), list(b"FBR"))
CONSTANT = np.frombuffer(b"03000000", "<u8")[0]
DIGIT = np.full(256, 0, np.int32)
DIGIT[np.frombuffer(b"0123456789", np.uint8)] = range(10)
DIGIT[np.frombuffer(b"abcdef", np.uint8)] = range(10, 16)
DIGIT[np.frombuffer(b"ABCDEF", np.uint8)] = range(10, 16)
BYTES = (DIGIT * 16 + DIGIT[:, None]).ravel()  # by two letters: the byte that they spell
NETWORKS = np.full(256, NO_SOURCE, np.int8)  # by the last byte of a source address
NETWORKS[[0x20, 0x40]] = 0, 1


class Listing:
    """The columns of a list, by the number of the line; `sound` where it has a line's form.
    `arrivals` are these lines. `port` is where the frame came in; `source` the end system that its
    source address names, and `network` the side. Only the first `most` lines are looked at, those
    that the program took; what the program writes itself of one recording (`is_recorded`), or of
    two (`is_pair` too), has any length."""

    def __init__(
        self,
        file: IO[bytes],
        report: Callable[[int], None] = lambda count: None,
        is_recorded: bool = False,
        is_pair: bool = False,
        most: int = MOST_LINES,
        sites: Sites = Sites(),
    ) -> None:
        digest = hashlib.sha256()  # of a list; recordings are files of their own
        parts: list[dict[str, np.ndarray]] = [columns_of_none()]
        lines = 0
        source = readable(file)
        if not is_recorded:
            source = Hashed(source, digest.update)
        for block in blocks_of(source):
            if not is_recorded:
                block = block.first(most - lines)
            if len(block.ends):
                part = columns_of(block, sites)
                parts.append(part)
                lines += len(part["time"])
                report(lines)
        self.lines, self.sites = lines, sites
        self.is_recorded, self.is_pair = is_recorded, is_pair
        self.digest = digest.hexdigest()
        joined = {name: np.concatenate([part[name] for part in parts]) for name in parts[0]}
        self.sound = joined["sound"]
        self.time = joined["time"]
        self.side = joined["side"]
        self.port = joined["port"]
        self.link = joined["link"]
        self.length = joined["length"]
        self.number = joined["number"]
        self.source = joined["source"]
        self.network = joined["network"]
        self.arrivals = np.flatnonzero(self.sound)

    def end_at(self, most: int) -> None:
        """Forgets all lines but the first ones."""
        if most >= self.lines:
            return
        self.lines = most
        for name in columns_of_none():
            setattr(self, name, getattr(self, name)[: most + 1])
        self.arrivals = np.flatnonzero(self.sound)


class Hashed:
    """A file whose bytes, as they are read, are handed to `update` as well."""

    def __init__(self, file: Readable, update: Callable[[memoryview], None]) -> None:
        self.file, self.update = file, update

    def readinto(self, room: memoryview) -> int | None:
        """The next bytes of the file."""
        read = self.file.readinto(room) or 0
        self.update(room[:read])
        return read


def columns_of_none() -> dict[str, np.ndarray]:
    """The line of number 0, which no list has."""
    return {
        "sound": np.zeros(1, bool),
        "time": np.zeros(1, np.int64),
        "side": np.zeros(1, np.int8),
        "port": np.zeros(1, np.int16),
        "link": np.full(1, NO_LINK, np.int32),
        "length": np.zeros(1, np.int16),
        "number": np.full(1, NO_NUMBER, np.int16),
        "source": np.full(1, NO_SOURCE, np.int32),
        "network": np.full(1, NO_SOURCE, np.int8),
    }


def columns_of(block: Block, sites: Sites) -> dict[str, np.ndarray]:
    """The columns of a block's lines; those of lines that aren't sound are of no use."""
    lines = np.flatnonzero(KINDS[block.heads] & (block.at(block.starts + 1) == SPACE))
    time, after = block.numbers(block.starts[lines] + 2)
    side = block.at(after + 1) - np.uint8(ord("A"))
    switch, behind = sites.read(block, after + 1)
    port, blank = block.ports(behind + 1)
    begin, end = blank + 1, block.ends[lines]
    end = end - (block.bytes[end - 1] == RETURN)
    sound = (side <= 1) & (switch >= 0) & (begin < end)
    for place in (after, behind, blank):
        sound &= block.at(place) == SPACE
    # over 24: a fault, with which the run ends
    port = MOST_PORTS * switch + np.minimum(port, MOST_PORTS - 1)
    found = (lines, time, side, port, begin, end)
    if not sound.all():
        lines, time, side, port, begin, end = (part[sound] for part in found)
    size = np.where(block.at(begin) == ord("-"), 0, end - begin)
    raw = block.heads[lines] == ord("R")
    columns = {
        "sound": np.ones(len(lines), bool),
        "time": time,
        "side": side,
        "port": port,
        "length": (size >> 1) + np.where(raw, 0, 4),
        "link": links_of(block, begin, size),
        "number": numbers_of(block, begin, size, raw),
    }
    columns["source"], columns["network"] = sources_of(block, begin, size)
    return among(len(block.ends), lines, columns)


def among(
    count: int, lines: np.ndarray, columns: dict[str, np.ndarray]
) -> dict[str, np.ndarray]:
    """The columns of these lines among so many, those of the others as of no line."""
    none = columns_of_none()
    if len(lines) == count:
        return {name: columns[name].astype(one.dtype, copy=False) for name, one in none.items()}
    filled = {name: np.repeat(one, count) for name, one in none.items()}
    for name, column in columns.items():
        filled[name][lines] = column
    return filled


def links_of(block: Block, begin: np.ndarray, size: np.ndarray) -> np.ndarray:
    """The links that the destination addresses name, NO_LINK where they are no link's."""
    named = (size >= 12) & (block.eights[begin] == CONSTANT)
    high, low, _, _ = bytes_of(block, begin + 8)
    return np.where(named, high * 256 + low, NO_LINK)


def sources_of(
    block: Block, begin: np.ndarray, size: np.ndarray
) -> tuple[np.ndarray, np.ndarray]:
    """The end systems that the source addresses name, and the networks."""
    there = size >= 24
    _, high, low, last = bytes_of(block, begin + 16)
    network = np.where(there, NETWORKS[last], np.int8(NO_SOURCE))
    return np.where(there, high * 256 + low, NO_SOURCE), network


def numbers_of(
    block: Block, begin: np.ndarray, size: np.ndarray, raw: np.ndarray
) -> np.ndarray:
    """The sequence numbers: the last bytes, in `raw` lines before the check sequence."""
    last = np.where(raw, 10, 2)  # digits from the sequence number on
    there = size >= last
    at = np.where(there, begin + size - last, 0)
    value = BYTES[block.fours[at].astype(np.uint16)]
    return np.where(there, value, np.int32(NO_NUMBER))


def bytes_of(block: Block, at: np.ndarray) -> Iterator[np.ndarray]:
    """The four bytes that the eight digits at these places spell."""
    pairs = block.eights[at].view(np.uint16).reshape(-1, 4)
    return (BYTES[pairs[:, place]] for place in range(4))
