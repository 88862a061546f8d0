#!/usr/bin/python3
"""Writes a recording of taps: interfaces with names, and AFDX frames from some systems.

    tests/tools/tapped_recording.py FILE NAME=SENDER,SENDER.. ..

Each word is an interface of a pcapng, by its name (none where nothing stands before `=`), and the
senders of its frames: a system's number and the letter of a side, as 17A; any other letter is no
side; `x` is a frame that is no AFDX frame. A word `/` begins a section anew. Frames of all
interfaces stand one after the other, 100 ms apart, in the order of the words. A FILE that ends in
`.pcap` gets the frames without interfaces.
"""
from __future__ import annotations

import struct
import sys

BEGIN, STEP = 10**18, 10**8  # ns


def block(kind: int, body: bytes) -> bytes:
    """A block of a pcapng."""
    size = 12 + len(body)
    return struct.pack("<II", kind, size) + body + struct.pack("<I", size)


def option(code: int, data: bytes) -> bytes:
    """An option of a block."""
    return struct.pack("<HH", code, len(data)) + data + bytes(-len(data) % 4)


SECTION = block(0x0A0D0D0A, struct.pack("<IHHq", 0x1A2B3C4D, 1, 0, -1))


def interface(name: str) -> bytes:
    """An interface of Ethernet, with times in ns."""
    named = option(2, name.encode()) if name else b""
    return block(1, struct.pack("<HHI", 1, 0, 65535) + named + option(9, b"\x09") + option(0, b""))


def frame(sender: str) -> bytes:
    """A frame of link 10 from a sender."""
    if sender == "x":
        return bytes(60)
    side = {"A": 0x20, "B": 0x40}.get(sender[-1], 0x99)
    source = b"\x02\0\0" + int(sender[:-1]).to_bytes(2, "big") + bytes([side])
    return b"\x03\0\0\0\0\x0a" + source + b"\x08\0" + bytes(46)


def packet(number: int, place: int, content: bytes, is_pcap: bool) -> bytes:
    """A recorded frame."""
    time, size = BEGIN + number * STEP, len(content)
    if is_pcap:
        return struct.pack("<IIII", time // 10**9, time % 10**9, size, size) + content
    head = struct.pack("<IIIII", place, time >> 32, time & 0xFFFF_FFFF, size, size)
    return block(6, head + content)


def main() -> None:
    """Writes the recording."""
    path, *words = sys.argv[1:]
    is_pcap, number = path.endswith(".pcap"), 0
    parts = [struct.pack("<IHHiIII", 0xA1B23C4D, 2, 4, 0, 0, 65535, 1) if is_pcap else b""]
    for section in " ".join(words).split(" / "):
        parts.append(b"" if is_pcap else SECTION)
        taps = [word.partition("=")[::2] for word in section.split()]
        parts += [interface(name) for name, _ in taps if not is_pcap]
        for place, (_, senders) in enumerate(taps):
            for sender in filter(None, senders.split(",")):
                parts.append(packet(number, place, frame(sender), is_pcap))
                number += 1
    with open(path, "wb") as file:
        file.write(b"".join(parts))


main()
