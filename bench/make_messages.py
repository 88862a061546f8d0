#!/usr/bin/env python3
"""Writes a network and a submission list to measure `afdx send` with.

    bench/make_messages.py CONFIG SUBMISSIONS [N]

The system s1 of CONFIG sends 20 links of up to 200 bytes with a BAG of 1 ms to s2; the network is
admitted. SUBMISSIONS has N lines (1,000,000 where it isn't given): each ms a message of random
bytes for each link, none of which is refused. The same words give the same files.
"""
import os
import random
import sys

sys.dont_write_bytecode = True
sys.path.insert(0, os.path.join(os.path.dirname(os.path.abspath(__file__)), "..", "tests", "lib"))
from tables import link_of, system_of, tables_of, text_of  # noqa: E402

LINKS = 20
MOST_LINES = 1_000_000
MS = 1_000_000


def write_config(path):
    links = [
        link_of(vl, "s1", ["s2"], bag=1, lmax=200, priority="low", latency=1000, skew=1000)
        for vl in range(1, LINKS + 1)
    ]
    with open(path, "wb") as text:
        text.write(text_of(tables_of([system_of(port) for port in (1, 2)], links)))


def write_messages(config, listing, count=MOST_LINES):
    chance = random.Random("messages")
    write_config(config)
    with open(listing, "w", encoding="ascii") as text:
        for line in range(count):
            time, vl = line // LINKS * MS, line % LINKS + 1
            message = chance.randbytes(chance.randint(1, 153)).hex()
            text.write(f"{time} {vl} 1 1000 {message}\n")


def main():
    if not 3 <= len(sys.argv) <= 4:
        sys.exit(__doc__)
    write_messages(sys.argv[1], sys.argv[2], *map(int, sys.argv[3:]))


if __name__ == "__main__":
    main()
