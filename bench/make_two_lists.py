#!/usr/bin/env python3
"""Writes a network and two frame lists to measure `afdx conform` with.

    bench/make_two_lists.py CONFIG CAME LEFT [N] [--links C] [--ports P] [--pcapng]

Writes a configuration to CONFIG, to CAME a list of N frames (250,000 where it isn't given) that
come to the switch, and to LEFT one of those frames as they leave it. There are 24 systems at 100
Mbit/s and C links (400) to P systems each (1), with a BAG of 128 ms and a latency of 500 us. Their
frames have 64 bytes, random messages and numbers. They come in turn, by halves of them on both
sides, each link's a BAG apart, and leave each of their ports 10 to 200 us later: so all is as
promised, and `conform` finds nothing. The same words give the same files.

With --pcapng they are recordings in ns, with check sequences: interfaces 0 to 23 of CAME are at the
input ports 1 to 24 of side A, 24 to 47 at those of side B; those of LEFT stand so at the output
ports. If LEFT is the same file as CAME, it has both, and what left is of interfaces 48 to 95.
"""
import argparse
import contextlib
import heapq
import os
import random
import sys
import zlib

HERE = os.path.dirname(os.path.abspath(__file__))
sys.dont_write_bytecode = True
sys.path[:0] = [os.path.join(HERE, "..", "examples"), os.path.join(HERE, "..", "tests", "lib")]
sys.path.insert(0, HERE)
from frame_builder import frame_of  # noqa: E402
from make_recording import FCSLEN, NANOSECONDS, block, low  # noqa: E402
from tables import link_of, system_of, tables_of, text_of  # noqa: E402

MOST_LINES = 1_000_000
SYSTEMS = 24
BAG_MS = 128
MS = 1_000_000
SOONEST, LATEST = 10_000, 200_000  # ns, from when a frame came to when it leaves
LINKS = 400


def ports_of(vl, count):
    """The output ports of a link; the sender's is none of them."""
    return [(vl + step) % SYSTEMS + 1 for step in range(1, count + 1)]


def write_config(path, links, ports):
    rows = [
        link_of(vl, f"s{vl % SYSTEMS + 1}", [f"s{port}" for port in ports_of(vl, ports)],
                bag=BAG_MS, latency=500, skew=1000)
        for vl in range(links)
    ]  # fmt: skip
    systems = [system_of(place) for place in range(1, SYSTEMS + 1)]
    with open(path, "wb") as config:
        config.write(text_of(tables_of(systems, rows)))


def came(links, count):
    """The frames that come: time, side, link, and the digits of the frame."""
    chance, step = random.Random(links), BAG_MS * MS // links
    heads = [
        [frame_of(vl % SYSTEMS + 1, 1, vl, bytes(17), 0, side, 1000)[:42] for side in "AB"]
        for vl in range(links)
    ]
    for place in range(count):
        turn, vl = divmod(place, links)
        on_b = turn % 2
        tail = chance.randbytes(17) + bytes([turn % 255 + 1])
        yield place * step, "AB"[on_b], vl, (heads[vl][on_b] + tail).hex()


def events(count, ports, links):
    """What comes and what leaves, by time: whether it left, its time, side, port, and digits."""
    chance = random.Random(count)
    leaving: list[tuple[int, str, int, str]] = []  # by time
    for time, side, vl, digits in came(links, count):
        while leaving and leaving[0][0] <= time:
            yield True, *heapq.heappop(leaving)
        yield False, time, side, vl % SYSTEMS + 1, digits
        for port in ports_of(vl, ports):
            end = time + chance.randint(SOONEST, LATEST)
            heapq.heappush(leaving, (end, side, port, digits))
    while leaving:
        yield True, *heapq.heappop(leaving)


def write_two_lists(config, came_path, left_path, count, ports=1, links=LINKS):
    """Writes all three."""
    write_config(config, links, ports)
    with open(came_path, "w", encoding="ascii") as coming:
        with open(left_path, "w", encoding="ascii") as left:
            for has_left, time, side, port, digits in events(count, ports, links):
                (left if has_left else coming).write(f"F {time} {side} {port} {digits}\n")


def write_sent(config, path, count, links=LINKS):
    """A list of so many frames that right systems sent, each message on both sides at one time; and
    its configuration."""
    write_config(config, links, 1)
    chance, step = random.Random(links), BAG_MS * MS // links
    heads = [
        [frame_of(vl % SYSTEMS + 1, 1, vl, bytes(17), 0, side, 1000)[:42] for side in "AB"]
        for vl in range(links)
    ]
    message = b""
    with open(path, "w", encoding="ascii") as coming:
        for place in range(count):
            (turn, vl), on_b = divmod(place // 2, links), place % 2
            message = message if on_b else chance.randbytes(17)
            tail = message + bytes([(turn - 1) % 255 + 1 if turn else 0])
            frame = (heads[vl][on_b] + tail).hex()
            coming.write(f"F {place // 2 * step} {'AB'[on_b]} {vl % SYSTEMS + 1} {frame}\n")


def place_words(is_one):
    """The words that say where the interfaces of recordings were, of one or of two."""
    words = []
    for number in range(2 * SYSTEMS):
        place = f"{'AB'[number // SYSTEMS]}:{number % SYSTEMS + 1}"
        words += [f"--interface={number}={place}"]
        words += [f"--left={number + 2 * SYSTEMS * is_one}={place}"]
    return words


def write_recordings(config, came_path, left_path, count, ports=1, links=LINKS):
    """Writes all three, or both where one recording has all."""
    write_config(config, links, ports)
    is_one = came_path == left_path
    head = block(0x0A0D0D0A, low(0x1A2B3C4D, 1, 0xFFFF_FFFF, 0xFFFF_FFFF))
    head += block(1, low(1, 65_535, *NANOSECONDS, *FCSLEN["yes"])) * (2 * SYSTEMS * (1 + is_one))
    with contextlib.ExitStack() as stack:
        coming = left = stack.enter_context(open(came_path, "wb"))
        if not is_one:
            left = stack.enter_context(open(left_path, "wb"))
            left.write(head)
        coming.write(head)
        for has_left, time, side, port, digits in events(count, ports, links):
            number = SYSTEMS * "AB".index(side) + port - 1
            number += 2 * SYSTEMS * (is_one and has_left)
            frame = bytes.fromhex(digits)
            frame += zlib.crc32(frame).to_bytes(4, "little")
            body = low(number, time >> 32, time & 0xFFFF_FFFF, len(frame), len(frame)) + frame
            (left if has_left else coming).write(block(6, body))


def main():
    words = argparse.ArgumentParser(
        description=__doc__, formatter_class=argparse.RawDescriptionHelpFormatter
    )
    words.add_argument("config", metavar="CONFIG")
    words.add_argument("came", metavar="CAME")
    words.add_argument("left", metavar="LEFT")
    words.add_argument("count", metavar="N", nargs="?", type=int, default=250_000)
    words.add_argument("--links", metavar="C", type=int, default=LINKS, help="1 to 4096")
    words.add_argument("--pcapng", action="store_true", help="recordings in place of lists")
    words.add_argument("--ports", metavar="P", type=int, default=1, help="1 to 23")
    given = words.parse_args()
    if not 1 <= given.links <= 4096:
        words.error("C is 1 to 4096")
    if not 1 <= given.ports < SYSTEMS:
        words.error("P is 1 to 23")
    if not 0 <= given.count * given.ports <= MOST_LINES:
        words.error(f"N times P is 0 to {MOST_LINES}")
    paths = given.config, given.came, given.left
    write = write_recordings if given.pcapng else write_two_lists
    write(*paths, given.count, given.ports, given.links)


if __name__ == "__main__":
    main()
