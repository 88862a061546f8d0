"""A text is taken in blocks of whole lines, wherever a room ends."""
from __future__ import annotations

import io
import random
import unittest

try:
    import numpy as np
except ModuleNotFoundError:
    raise unittest.SkipTest("there is no package numpy") from None

from afdx_tools.replay.lines import Block, blocks_of
from afdx_tools.replay.sites import UNKNOWN, Sites

ROOMS = (24, 25, 31, 64, 1000)


def taken(text: bytes, each: int, ended: bool = False, joined: bytes = b"") -> list[bytes]:
    """The texts of the blocks, each as it was when it was taken."""
    blocks = blocks_of(io.BytesIO(text), each, ended, joined)
    return [block.text(0, int(block.ends[-1]) + 1) for block in blocks]


def made(dice: random.Random) -> bytes:
    """Lines of at most 20 letters, with a line feed behind the last one or not."""
    lines = (dice.choice("VDMX") + "a" * dice.randrange(19) for _ in range(dice.randrange(30)))
    return ("\n".join(lines) + dice.choice(("", "\n"))).encode()


class Blocks(unittest.TestCase):
    """Blocks of a text."""

    def test_all_lines_come(self) -> None:
        dice = random.Random(1)
        for each in ROOMS * 40:
            text = made(dice)
            wanted = text if not text or text.endswith(b"\n") else text + b"\n"
            self.assertEqual(b"".join(taken(text, each)), wanted)
            whole = text[: text.rfind(b"\n") + 1]
            self.assertEqual(b"".join(taken(text, each, ended=True)), whole)

    def test_what_is_joined_stands_with_the_next_line(self) -> None:
        dice = random.Random(2)
        for each in ROOMS[3:] * 60:
            text = made(dice)
            blocks = taken(text, each, ended=True, joined=b"D")
            self.assertEqual(b"".join(blocks), text[: text.rfind(b"\n") + 1])
            for block, after in zip(blocks, blocks[1:]):
                last = block.splitlines()[-1]
                self.assertFalse(last.startswith(b"D") and not after.startswith(b"D"), block)

    def test_a_line_that_is_too_long_is_cut(self) -> None:
        self.assertEqual(taken(b"a" * 30 + b"\nb\n", 24), [b"a" * 24 + b"\n", b"a" * 6 + b"\nb\n"])

    def test_padding_follows(self) -> None:
        for block in blocks_of(io.BytesIO(b"V 1\nV 2345678\n" * 9), 24):
            begin = int(block.ends[-1]) + 1
            self.assertEqual(block.bytes[begin:].max(initial=0), 0)


class Ends(unittest.TestCase):
    """A place and a port, with which a line ends."""

    def test_ports_at_the_ends_of_lines(self) -> None:
        names = ["fwd", "aft", "eightlet", "A" * 16]
        places = [(side, name, port) for side in "AB" for name in names for port in range(25)]
        for several in (False, True):
            between = {name: f"{name} " if several else "" for name in names}
            lines = [f"D 7 {side} {between[name]}{port}" for side, name, port in places]
            block = Block("".join(f"{line}\n" for line in lines).encode())
            ports, before, blanks = block.last_ports(np.arange(len(lines)))
            self.assertEqual(ports.tolist(), [port for _, _, port in places])
            wanted = [line.rindex(" ") for line in lines]
            self.assertEqual((blanks - block.starts).tolist(), wanted)
            if not several:
                self.assertEqual(bytes(before).decode(), "".join(side for side, _, _ in places))
                continue
            found = Sites(names).between(block, block.starts + 6, blanks)
            self.assertEqual(found.tolist(), [names.index(name) for _, name, _ in places])

    def test_ports_at_the_begins_of_lines(self) -> None:
        short = [f"{port} 0300" for port in (*range(25), "00", "07", 99)]
        for other in ("", "123 4", "7", "12", "a", "1a ", " ", "12a", "1\t", "1234567890 "):
            lines = [*short, other]
            block = Block("".join(f"{line}\n" for line in lines).encode())
            for found, wanted in zip(block.ports(block.starts), block.numbers(block.starts)):
                self.assertEqual(found.tolist(), wanted.tolist(), other)

    def test_other_names_are_unknown(self) -> None:
        for name in ("fw", "fwdx", "", "A" * 17, "A" * 15):
            block = Block(f"A {name} 3\n".encode())
            _, _, blank = block.last_ports(np.zeros(1, np.int64))
            found = Sites(["fwd", "A" * 16]).between(block, np.array([2]), blank)
            self.assertEqual(found.tolist(), [UNKNOWN], name)


if __name__ == "__main__":
    unittest.main()
