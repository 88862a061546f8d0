"""Numbers and names are found in a text as by looking at each of its letters."""
from __future__ import annotations

import random
import unittest

try:
    import numpy as np
except ModuleNotFoundError:
    raise unittest.SkipTest("there is no package numpy") from None

from afdx_tools.replay.eights import places_of
from afdx_tools.replay.lines import PADDING, Block
from afdx_tools.replay.sites import LONGEST, names_at

AFTER = (" ", "A", "/", ":", ";", "\r", "\xff", "\x00", "a ", "?", "")
LENGTHS = (0, 1, 2, 7, 8, 9, 15, 16, 17, 18, 24, 30)


def number_in(line: bytes) -> tuple[int, int]:
    """The number that a line begins with, as 64 bits hold it, and how many digits it has."""
    length = len(line) - len(line.lstrip(b"0123456789"))
    return (int(line[:length] or b"0") + 2**63) % 2**64 - 2**63, length


class Numbers(unittest.TestCase):
    """The digits that stand at a place."""

    def test_numbers_of_any_length(self) -> None:
        dice = random.Random(1)
        lines = ["".join(dice.choices("0123456789", k=n)) + after
                 for n in LENGTHS for after in AFTER for _ in range(9)]  # fmt: skip
        block = Block("".join(f"{line}\n" for line in lines).encode("latin-1"))
        values, ends = block.numbers(block.starts)
        wanted = [number_in(line.encode("latin-1")) for line in lines]
        self.assertEqual(list(zip(values.tolist(), (ends - block.starts).tolist())), wanted)

    def test_numbers_of_one_length(self) -> None:
        dice = random.Random(3)
        for length in (*LENGTHS, 25):
            lines = ["".join(dice.choices("0123456789", k=length)) + "/" for _ in range(9)]
            block = Block("".join(f"{line}\n" for line in lines).encode())
            values, ends = block.numbers(block.starts)
            self.assertEqual(values.tolist(), [number_in(line.encode())[0] for line in lines])
            self.assertEqual((ends - block.starts).tolist(), [length] * 9)

    def test_a_number_that_the_text_ends_in(self) -> None:
        values, _ = Block(b"12").numbers(np.array([0, 2]))
        self.assertEqual(values.tolist(), [12, 0])


class Places(unittest.TestCase):
    """Where a byte stands."""

    def test_places_of_a_byte(self) -> None:
        dice = random.Random(4)
        for share in (0, 1, 20, 200):
            for size in (0, 1, 7, 8, 9, 64, 1000):
                text = bytes(10 if dice.randrange(200) < share else 97 for _ in range(size))
                found = places_of(np.frombuffer(text + PADDING, np.uint8), size, 10)
                wanted = [place for place, byte in enumerate(text) if byte == 10]
                self.assertEqual(found.tolist(), wanted)


class Names(unittest.TestCase):
    """The word that ends with a space."""

    def test_names_at_any_place(self) -> None:
        dice = random.Random(2)
        text = "".join("".join(dice.choices("abXY09\n", k=n)) + dice.choice((" ", "  ", "\n"))
                       for n in LENGTHS for _ in range(40)).encode()  # fmt: skip
        places = np.arange(len(text))
        words, lengths = names_at(Block(text), places)
        for place, word, length in zip(places, words.view(f"S{LONGEST}")[:, 0].tolist(), lengths):
            until = (text + PADDING)[place : place + LONGEST + 1].find(b" ")
            self.assertEqual(length, max(until, 0))
            if length:
                self.assertEqual(word, text[place : place + until])


if __name__ == "__main__":
    unittest.main()
