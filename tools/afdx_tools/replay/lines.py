"""Lines of text as columns of numbers, by numpy: a loop over millions of lines is too slow.

A block is a piece of text that ends at a line's end. What is asked of it is answered for many lines
at once, as an array with an element for each.
"""
from __future__ import annotations

import contextlib
import ctypes
from typing import IO, Iterator, Protocol, cast

import numpy as np

from afdx_tools.lists import LONGEST_LINE
from afdx_tools.replay.eights import POWERS, digits, fours, places_of, windows

SPACE, LINE_FEED, RETURN = 32, 10, 13
EACH = 2 << 20  # bytes of text that are looked at together
TRIM_THRESHOLD, MMAP_THRESHOLD = -1, -3  # options of mallopt
PADDING = bytes(64)  # what is read after a text, at most
MOST_EIGHTS = LONGEST_LINE // 8 + 1  # digits of a number, eight at a time
PORTS = np.zeros(1 << 16, np.int16)  # by the last two bytes of a line: its last number, below 100
PORTS[np.frombuffer(b"".join(b"%2d" % n for n in range(100)), "<u2")] = range(100)
PORTS[np.frombuffer(b"".join(b"%02d" % n for n in range(10)), "<u2")] = range(10)


def keep_memory() -> None:
    """Has the C library keep what is freed for the next block: otherwise it gives the columns of
    each block back to the system, and takes them again page by page, a tenth of all time."""
    with contextlib.suppress(OSError, AttributeError):
        set_option = ctypes.CDLL(None).mallopt
        set_option(TRIM_THRESHOLD, 1 << 30)
        set_option(MMAP_THRESHOLD, 1 << 25)


FIRST = np.full(1 << 16, -1, np.int16)  # by two bytes: the number that they are, or one digit is
FIRST[np.frombuffer(b"".join(b"%02d" % n for n in range(100)), "<u2")] = range(100)
FIRST[np.frombuffer(b"".join(b"%d " % n for n in range(10)), "<u2")] = range(10)


class Readable(Protocol):
    """What fills a room with bytes, and says how many came: fewer, or none, only at its end."""

    def readinto(self, room: memoryview, /) -> int | None:
        """The next bytes."""
        ...


def readable(file: IO[bytes]) -> Readable:
    """A file that fills rooms, as each does that was opened in binary."""
    return cast(Readable, file)


class Block:
    """Whole lines of text: where each begins and ends, and the letter that it begins with; of each
    place of the text the `eights` from there on. The text is copied, but where its first `size`
    bytes count, and padding stands behind them."""

    def __init__(self, text: bytes | memoryview, size: int | None = None) -> None:
        whole = bytes(text) + PADDING if size is None else text
        self.bytes = np.frombuffer(whole, np.uint8)
        self.eights = windows(self.bytes)
        self.fours = fours(self.bytes)
        size = len(whole) - len(PADDING) if size is None else size
        self.ends = places_of(self.bytes, size, LINE_FEED)
        self.starts = np.concatenate((np.zeros(1, np.int64), self.ends[:-1] + 1))
        self.heads = self.bytes[self.starts]

    def text(self, begin: int, end: int) -> bytes:
        """The text between two places."""
        return self.bytes[begin:end].tobytes()

    def first(self, count: int) -> Block:
        """At most so many of the lines."""
        if len(self.ends) <= count:
            return self
        return Block(self.text(0, int(self.ends[count - 1]) + 1) if count > 0 else b"")

    def at(self, places: np.ndarray) -> np.ndarray:
        """The bytes at these places; zeros after the last one, for as far as numbers are read from
        a line that is cut."""
        return self.bytes[places]

    def numbers(self, begin: np.ndarray) -> tuple[np.ndarray, np.ndarray]:
        """The numbers whose digits begin there, and where each ends, or is longer than a line that
        the program takes."""
        values, length = digits(self.eights[begin])
        places = begin + length
        for _ in range(MOST_EIGHTS):
            if not isinstance(length, int) or length < 8:
                break
            more, length = digits(self.eights[places])  # there may be more
            values *= POWERS[length]
            values += more
            places += length
        left = np.flatnonzero(length == 8)
        for _ in range(MOST_EIGHTS):
            if not len(left):
                break
            more, length = digits(self.eights[places[left]])
            values[left] = values[left] * POWERS[length] + more
            places[left] += length
            left = left[np.broadcast_to(length == 8, len(left))]
        return values.view(np.int64), places

    def ports(self, begin: np.ndarray) -> tuple[np.ndarray, np.ndarray]:
        """The same, sooner where all of them have one or two digits and a space behind these."""
        words = self.fours[begin]
        values = FIRST[words.astype(np.uint16)]
        is_long = words & np.uint32(0xFF00) != SPACE << 8
        ended = words & np.uint32(0xFF_0000) == SPACE << 16
        if (values < 0).any() or (is_long & ~ended).any():
            return self.numbers(begin)
        return values.astype(np.int64), begin + 1 + is_long

    def last_ports(self, lines: np.ndarray) -> tuple[np.ndarray, np.ndarray, np.ndarray]:
        """Of lines that end with a space and a number of one or two digits: that number, the byte
        before the space, and the place of the space."""
        ends = self.ends[lines]
        tails = self.fours[ends - 4]
        ports = PORTS[tails >> np.uint32(16)]
        is_long = tails & np.uint32(0xFF_0000) != SPACE << 16
        before = np.where(is_long, tails, tails >> np.uint32(8)).astype(np.uint8)
        return ports, before, ends - 2 - is_long

    def last_words(self, lines: np.ndarray) -> tuple[list[str], np.ndarray]:
        """The words that these lines end with, and for each line the place of its word among them.
        Words are told apart by their last eight bytes; the lines must have as many."""
        keys = self.eights[self.ends[lines] - 8]
        if len(keys) and (keys == keys[0]).all():
            first, places = np.zeros(1, np.int64), np.zeros(len(keys), np.int64)
        else:
            _, first, places = np.unique(keys, return_index=True, return_inverse=True)
        found = [self.text(self.starts[n], self.ends[n]).split(b" ")[-1] for n in lines[first]]
        return [word.decode("ascii", "replace") for word in found], places


def blocks_of(
    file: Readable, each: int = EACH, ended: bool = False, joined: bytes = b""
) -> Iterator[Block]:
    """The text of a file in blocks, each of use until the next one is asked for. A last line
    without a line feed gets one, or is left out where all lines should be `ended`. A block that no
    line ends in gets one too: such a line is too long for the program. A line that begins with
    `joined` stands in a block with the next one, if that doesn't begin so, and if there is room."""
    room, held = bytearray(each + 1 + len(PADDING)), 0
    with memoryview(room) as view:
        while read := file.readinto(view[held:each]):
            end = held + read
            cut = room.rfind(b"\n", 0, end) + 1
            last = room.rfind(b"\n", 0, max(cut - 1, 0)) + 1
            if joined and last and room.startswith(joined, last):
                cut = last
            if not cut and end == each:
                view[each] = LINE_FEED
                cut = end = each + 1
            rest = bytes(view[cut:end])
            if cut:
                yield padded(view, cut)
            held = len(rest)
            view[:held] = rest
        cut = room.rfind(b"\n", 0, held) + 1
        if held > cut and not ended:
            view[held] = LINE_FEED
            cut = held + 1
        if cut:
            yield padded(view, cut)


def padded(room: memoryview, size: int) -> Block:
    """The block of the first bytes of a room, behind which padding is put."""
    room[size : size + len(PADDING)] = PADDING
    return Block(room[: size + len(PADDING)], size)
