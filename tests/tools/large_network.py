#!/usr/bin/python3
"""Writes the largest network, 4,096 links of 16 systems, and a frame list of it.

    tests/tools/large_network.py CONFIG LIST

Each link has two frames on each side; every 50th link lacks one on side B, every 70th comes in at
another port. The network isn't admitted.
"""
from __future__ import annotations

import os
import sys

sys.dont_write_bytecode = True
TOP = os.path.join(os.path.dirname(os.path.realpath(__file__)), "..", "..")
sys.path[:0] = [os.path.join(TOP, "examples"), os.path.join(TOP, "tests", "lib")]
from frame_builder import frame_of  # noqa: E402
from tables import link_of, system_of, tables_of, text_of  # noqa: E402

SYSTEMS, LINKS = 16, 4096


def config_text() -> bytes:
    """The configuration."""
    links = []
    for vl in range(LINKS):
        sender = vl % SYSTEMS + 1
        one, two = (vl // SYSTEMS + sender) % SYSTEMS + 1, 0
        one = one if one != sender else one % SYSTEMS + 1
        two = one % SYSTEMS + 1
        two = two if two != sender else two % SYSTEMS + 1
        links.append(link_of(vl, f"s{sender}", [f"s{one}", f"s{two}"], priority="low"))
    systems = [system_of(number) for number in range(1, SYSTEMS + 1)]
    return text_of(tables_of(systems, links, buffer=4194304))


def lines() -> list[tuple[int, str]]:
    """Time and line of each frame."""
    found = []
    for vl in range(LINKS):
        sender = vl % SYSTEMS + 1
        for number in (0, 1):
            time = number * 130_000_000 + vl * 30_000
            for side in "AB":
                if side == "B" and number and vl % 50 == 0:
                    continue
                port = sender if vl % 70 else sender % SYSTEMS + 1
                frame = frame_of(sender, 1, vl, b"large", number, side, 1000).hex()
                found.append((time, f"F {time} {side} {port} {frame}"))
    return sorted(found, key=lambda one: one[0])


def main() -> None:
    """Writes both files."""
    config, listed = sys.argv[1:]
    with open(config, "wb") as file:
        file.write(config_text())
    with open(listed, "w", encoding="ascii") as file:
        file.writelines(f"{text}\n" for _, text in lines())


main()
