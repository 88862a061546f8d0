"""Where slices of a recording begin and end, and how its span is found."""
from __future__ import annotations

import os
import struct
import tempfile
import unittest
from typing import Sequence

from afdx_tools.campaign.slices import COMMON, LEAST, Slice, cut, interfaces_in, slices_of
from afdx_tools.faults import Refused
from afdx_tools.recordings.span import span_of

HEAD = struct.pack("<4I", 0x0A0D0D0A, 28, 0x1A2B3C4D, 1) + bytes(8) + struct.pack("<I", 28)


def block(kind: int, body: bytes) -> bytes:
    """A block of a pcapng."""
    size = struct.pack("<I", len(body) + 12)
    return struct.pack("<I", kind) + size + body + size


def packet(ns: int, place: int = 0) -> bytes:
    """A frame of no bytes."""
    return block(6, struct.pack("<5I", place, ns >> 32, ns & 0xFFFF_FFFF, 0, 0))


def interface(digits: int = 9) -> bytes:
    """An interface with stamps of so many digits."""
    return block(1, struct.pack("<HHI", 1, 0, 0) + struct.pack("<HHI", 9, 1, digits))


def span(*blocks: bytes, left: Sequence[int] = (0, 1)) -> int | None:
    """The span of a recording of these blocks, of which these interfaces are of what left."""
    with tempfile.TemporaryDirectory() as folder:
        path = os.path.join(folder, "some.pcapng")
        with open(path, "wb") as file:
            file.write(b"".join(blocks))
        return span_of(path, left)


class Slices(unittest.TestCase):
    """The slices of a time."""

    def test_each_goes_on_where_the_next_has_begun(self) -> None:
        found = cut(3, None, 9 * COMMON, None)
        self.assertEqual(found[0], Slice(1, 3, None, 4 * COMMON))
        self.assertEqual(found[1], Slice(2, 3, 3 * COMMON, 7 * COMMON))
        self.assertEqual(found[2], Slice(3, 3, 6 * COMMON, None))
        self.assertEqual(found[1].words(), ["--from=3000000000", "--until=7000000000"])

    def test_what_is_given_stands_at_both_ends(self) -> None:
        found = cut(2, 1, 2 * LEAST + 1, 2 * LEAST + 1)
        wanted = [(1, LEAST + COMMON + 1), (LEAST + 1, 2 * LEAST + 1)]
        self.assertEqual([(each.begin, each.until) for each in found], wanted)

    def test_only_the_last_has_the_last_second(self) -> None:
        for count in (2, 3, 7, 1000):
            for more in (0, 1, count - 1):
                end = count * LEAST + more
                *others, last = slices_of(("a",), count, None, end, ())
                self.assertEqual(last.until, end)
                self.assertTrue(all((each.until or end) <= end - COMMON for each in others))

    def test_what_is_not_cut(self) -> None:
        for files, begin, end in (
            (("a", "b"), None, 2 * LEAST),
            (("a",), None, 2 * LEAST - 1),
            (("a",), 1, 2 * LEAST),
        ):
            with self.assertRaises(Refused):
                slices_of(files, 2, begin, end, ())

    def test_which_interfaces_are_of_what_left(self) -> None:
        words = ["--interface=0=A:1", "--left=2=A:3", "--left=11=B:3", "--left=x=B:3", "--left="]
        self.assertEqual(interfaces_in(words), {2, 11})


class Spans(unittest.TestCase):
    """The time from the first frame to the last one."""

    def test_statistics_and_other_blocks_behind_the_last_frame(self) -> None:
        frames = [packet(5), packet(900), packet(700, 1)]
        blocks = [HEAD, interface(), interface(), *frames, block(5, bytes(12)), block(99, b"")]
        self.assertEqual(span(*blocks), 695)

    def test_it_begins_and_ends_with_what_left(self) -> None:
        frames = [packet(5), packet(100, 1), packet(600, 1), packet(900)]
        begun = [HEAD, interface(), interface(), block(0xBAD, bytes(4)), *frames]
        self.assertEqual(span(*begun, left=[0]), 895)
        self.assertEqual(span(*begun, left=[1]), 500)
        self.assertIsNone(span(*begun, left=[2]))

    def test_each_interface_has_its_own_unit(self) -> None:
        self.assertEqual(span(HEAD, interface(), interface(6), packet(5), packet(7, 1)), 6995)

    def test_what_says_no_time(self) -> None:
        begun = [HEAD, interface(), packet(5)]
        cases: list[list[bytes]] = [
            [],
            [b"F 0 A 1 00"],
            [HEAD, interface()],
            [*begun, b"\0"],  # cut
            [*begun, block(6, bytes(8))[:-4] + b"\0\0\0\0"],  # a length that can't be
            [*begun, packet(7, 1)],  # an interface that isn't there
            [bytes.fromhex("d4c3b2a1") + bytes(20)],  # a pcap
        ]
        for blocks in cases:
            self.assertIsNone(span(*blocks), blocks)


if __name__ == "__main__":
    unittest.main()
