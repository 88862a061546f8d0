"""Frame lists: their lines, and the bytes of the frames that these name."""
from __future__ import annotations

import re
import zlib
from typing import Iterator, NamedTuple

from afdx_tools.faults import Refused

MOST_LINES = 1_000_000
LONGEST_LINE = 4_200  # bytes, without the line feed
LATEST = 10**15
CONSTANT = "03000000"
SWITCH, PORT = re.compile(r"[A-Za-z0-9]{1,16}"), re.compile(r"[1-9][0-9]?")


class Listed(NamedTuple):
    """A line of a frame list: its number, its five fields; of several switches also the name of its
    switch."""

    line: int
    kind: str
    time: int
    side: str
    port: int
    digits: str
    switch: str = ""

    @property
    def place(self) -> str:
        """Where the frame came in, as an interface of a recording is called."""
        side = f"{self.side} {self.switch}" if self.switch else f"side {self.side}"
        return f"{side} port {self.port}"

    @property
    def length(self) -> int:
        """The frame's bytes, check sequence included."""
        return len(self.digits) // 2 + (0 if self.kind == "R" else 4)

    @property
    def vl(self) -> int | None:
        """The link that its destination address names, or None where it is no link's address."""
        if len(self.digits) < 12 or self.digits[:8] != CONSTANT:
            return None
        return int(self.digits[8:12], 16)


def listed_of(number: int, text: str) -> Listed:
    """A line's fields; Refused where it hasn't the form of a line of a frame list."""
    fields = text.split(" ")
    try:
        switch = fields.pop(3) if len(fields) == 6 else ""
        kind, time, side, port, digits = fields
        if kind not in ("F", "B", "R") or side not in ("A", "B"):
            raise ValueError
        if switch and not (SWITCH.fullmatch(switch) and PORT.fullmatch(port)):
            raise ValueError
        digits = "" if digits == "-" else digits
        return Listed(number, kind, int(time), side, int(port), digits, switch)
    except ValueError as error:
        raise Refused(f"line {number} is no line of a frame list") from error


def read_list(path: str) -> Iterator[Listed]:
    """The lines of a frame list, one at a time; empty lines and lines with `#` are passed over."""
    with open(path, encoding="ascii", errors="replace", newline="\n") as file:
        lines = iter(lambda: file.readline(LONGEST_LINE + 2), "")
        for number, text in enumerate(lines, 1):
            text = text.removesuffix("\n")
            if len(text) > LONGEST_LINE:
                raise Refused(f"line {number} has more than {LONGEST_LINE:,} bytes")
            text = text.removesuffix("\r")
            if text and not text.startswith("#"):
                yield listed_of(number, text)


def check_sequence(frame: bytes) -> bytes:
    """The check sequence of a frame's bytes, as it stands in the frame."""
    return zlib.crc32(frame).to_bytes(4, "little")


def sealed(listed: Listed) -> bytes:
    """The bytes of a line's frame on the wire: F with its check sequence, B with a wrong one."""
    try:
        body = bytes.fromhex(listed.digits)
    except ValueError as error:
        raise Refused(f"line {listed.line} has no hexadecimal digits") from error
    if listed.kind == "R":
        return body
    end = check_sequence(body)
    return body + (end if listed.kind == "F" else bytes(255 - byte for byte in end))


def is_sealed(frame: bytes) -> bool:
    """Do the last four bytes hold the check sequence of the others?"""
    return len(frame) > 4 and frame[-4:] == check_sequence(frame[:-4])
