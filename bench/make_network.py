#!/usr/bin/env python3
"""Writes a network and a frame list to measure `afdx replay` with.

    bench/make_network.py KIND CONFIG LIST [N] [--links C]

Writes a configuration to CONFIG, and to LIST a list of N lines (1,000,000 where it isn't given,
which is the most a list may have), F lines on both sides. KIND is one of

    aircraft    24 systems at 100 Mbit/s with C links (400) to 1 to 6 systems each, profile 1;
                admitted
    gigabit     24 systems at 1000 Mbit/s with C links (4,096) to 1 to 6 systems each, profile 2;
                admitted
    lost        C links (64) to one system at 10 Mbit/s, which they overload, profile 1: frames
                are lost
    old         the same in profile 2: frames are dropped as too old
    wide        24 systems at 1000 Mbit/s with C links (4,096) of 64 bytes to all 23 others each,
                profile 2; admitted
    one         one link of 64 bytes to one system at 100 Mbit/s, profile 1; admitted
    copies      the same link to 23 systems, so that each frame has 22 further copies; admitted

Of the links of the first four kinds 57 % have frames of up to 150 bytes, 21 % up to 300, 12 % up to
600, 6 % up to 900 and 4 % more; BAGs are 2 to 128 ms, four fifths of them 16 and more. Links of 64
bytes have a BAG of 128 ms in `wide`, else of 1 ms. Each link sends a frame each BAG,
at most 10 us late, with a message of random bytes; side B has its copy 5 us later. The same words
give the same files.
"""
import argparse
import heapq
import os
import random
import sys

HERE = os.path.dirname(os.path.abspath(__file__))
sys.dont_write_bytecode = True
sys.path[:0] = [os.path.join(HERE, "..", "examples"), os.path.join(HERE, "..", "tests", "lib")]
from frame_builder import frame_of  # noqa: E402
from tables import link_of, port_of, system_of, tables_of, text_of  # noqa: E402

MOST_LINES = 1_000_000
SYSTEMS = 24
KINDS = {"aircraft": 400, "gigabit": 4096, "lost": 64, "old": 64}
KINDS |= {"wide": 4096, "one": 1, "copies": 1}
EVEN = ("wide", "one", "copies")  # the kinds whose links are all alike
MS = 1_000_000


class Link:
    """A link and what its next frame is made of."""

    def __init__(self, vl, sender, to, bag_ms, lmax):
        self.vl, self.sender, self.to, self.bag_ms, self.lmax = vl, sender, to, bag_ms, lmax
        self.heads = {}  # by length the bytes before the message
        self.number = 0


def longest(chance):
    """Lmax by the mix."""
    ends = chance.choices(
        [(64, 150), (151, 300), (301, 600), (601, 900), (901, 1518)], [57, 21, 12, 6, 4]
    )[0]
    return chance.randint(*ends)


def links_of(kind, count):
    chance = random.Random(f"{kind} {count}")
    is_overload = kind in ("lost", "old")
    loads = {place: 0 for place in range(1, SYSTEMS + (0 if is_overload else 1))}
    links = []
    for vl in range(count):
        lmax = longest(chance)
        # all senders have about the same jitter
        sender = min(loads, key=lambda place: loads[place])
        loads[sender] += lmax + 20
        if is_overload:
            links.append(Link(vl, sender, [SYSTEMS], 4, lmax))
            continue
        others = [place for place in range(1, SYSTEMS + 1) if place != sender]
        to = sorted(chance.sample(others, chance.randint(1, 6)))
        bag = chance.choices([2, 4, 8, 16, 32, 64, 128], [2, 6, 12, 20, 25, 20, 15])[0]
        links.append(Link(vl, sender, to, bag, lmax))
    return links


def even_links(kind, count):
    """Links of 64 bytes, each system's in turn."""
    links = []
    for vl in range(count):
        sender = vl % SYSTEMS + 1
        others = [place for place in range(1, SYSTEMS + 1) if place != sender]
        to = others[:1] if kind == "one" else others
        links.append(Link(vl, sender, to, 128 if kind == "wide" else 1, 64))
    return links


def priority_of(link):
    """A third of the links is high."""
    return "low" if link.vl % 3 else "high"


def write_config(path, kind, links):
    profile = 2 if kind in ("gigabit", "old", "wide") else 1
    buffer = 524288 if kind in ("gigabit", "wide") else 65536
    latency = 5000 if kind == "old" else 100000
    systems = []
    for place in range(1, SYSTEMS + 1):
        is_overloaded = kind in ("lost", "old") and place == SYSTEMS
        rate = 1000 if kind in ("gigabit", "wide") else 10 if is_overloaded else 100
        systems.append(system_of(place, rate))
    rows = [
        link_of(
            link.vl, f"s{link.sender}", [f"s{place}" for place in link.to], bag=link.bag_ms,
            lmax=link.lmax, priority=priority_of(link), latency=latency,
        )
        for link in links
    ]  # fmt: skip
    places = [(place, link.vl) for link in links for place in link.to]
    ports = [port_of(f"s{place}", vl) for place, vl in places[:4096]]
    with open(path, "wb") as config:
        config.write(text_of(tables_of(systems, rows, ports, profile, buffer)))


def next_frames(link, chance):
    """The link's next frame for side A and for side B."""
    length = chance.randint(max(64, link.lmax // 2), link.lmax)
    if length not in link.heads:
        link.heads[length] = tuple(
            frame_of(link.sender, 1, link.vl, bytes(length - 47), 0, side, 1000, length)[:42]
            for side in "AB"
        )
    tail = chance.randbytes(length - 47) + bytes([link.number])
    link.number = link.number % 255 + 1
    return [head + tail for head in link.heads[length]]


def sent(links):
    """Arrivals without end: time, side, port, frame; by time."""
    chance = random.Random(len(links))
    queue = [(chance.randrange(link.bag_ms * MS), at) for at, link in enumerate(links)]
    heapq.heapify(queue)
    copies: list[tuple] = []  # of side B, waiting for their time
    while True:
        time, at = queue[0]
        link = links[at]
        heapq.heapreplace(queue, (time + link.bag_ms * MS + chance.randrange(10_000), at))
        while copies and copies[0][0] <= time:
            yield copies.pop(0)
        frames = next_frames(link, chance)
        yield time, "A", link.sender, frames[0]
        copies.append((time + 5_000, "B", link.sender, frames[1]))


def write_list(path, links, count):
    with open(path, "w", encoding="ascii") as out:
        for _, (time, side, port, frame) in zip(range(count), sent(links)):
            out.write(f"F {time} {side} {port} {frame.hex()}\n")


def write_network(kind, config, listing, count=MOST_LINES, links=None):
    make = even_links if kind in EVEN else links_of
    made = make(kind, links or KINDS[kind])
    write_config(config, kind, made)
    write_list(listing, made, count)


def main():
    words = argparse.ArgumentParser(
        description=__doc__, formatter_class=argparse.RawDescriptionHelpFormatter
    )
    words.add_argument("kind", metavar="KIND", choices=KINDS)
    words.add_argument("config", metavar="CONFIG")
    words.add_argument("list", metavar="LIST")
    words.add_argument(
        "count", metavar="N", nargs="?", type=int, default=MOST_LINES, help="how many lines"
    )
    words.add_argument("--links", metavar="C", type=int, help="how many links, 1 to 4096")
    given = words.parse_args()
    if not 0 <= given.count <= MOST_LINES:
        words.error(f"N is 0 to {MOST_LINES}")
    if given.links is not None and not 1 <= given.links <= 4096:
        words.error("C is 1 to 4096")
    write_network(given.kind, given.config, given.list, given.count, given.links)


if __name__ == "__main__":
    main()
