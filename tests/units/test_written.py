"""Configurations as `afdx solve` writes them are read as any TOML is."""
from __future__ import annotations

import tomllib
import unittest

from afdx_tools.written import LINE, read_written

WRITTEN = """profile = 1
buffer = 65536

[[system]]
name = "s1"
port = 1

[[switch]]
name = "fwd"

[[switch.link]]
vl = 0
to = ["s2", "aft"]
policing = "byte"

[[switch.link]]
to = ["s3"]

[[switch]]
[[switch.link]]
kind = "sampling"
"""
OTHERS = ("a = []\n", "a = 1 # one\n", "[a]\nb = 1\n", "a = 1\r\nb = 2\r\n", 'a = "\\u0041"\n', "",
          "[[a.b]]\nc = 1\n", 'a = ["b", "c",]\n', "a.b = 1\n", "a = 0x10\n")  # fmt: skip
FAULTS = ("a = 01\n", 'a = ["b""c"]\n', "a = 1\n[[a]]\n", "a = 1\x0b\n", "a\n")


class Written(unittest.TestCase):
    """Both ways to read them give the same."""

    def test_what_the_program_writes(self) -> None:
        self.assertEqual(len(LINE.findall(WRITTEN)), WRITTEN.count("\n") + 1)
        self.assertEqual(read_written(WRITTEN), tomllib.loads(WRITTEN))

    def test_what_others_write(self) -> None:
        for text in OTHERS:
            self.assertEqual(read_written(text), tomllib.loads(text), text)

    def test_what_is_no_toml(self) -> None:
        for text in FAULTS:
            with self.assertRaises(tomllib.TOMLDecodeError, msg=text):
                read_written(text)


if __name__ == "__main__":
    unittest.main()
