#!/usr/bin/env python3
"""A bench of one machine: two systems that send on both networks, and a recorder at their cables.

    unshare --net tests/conform/live_sending.py SENDER SECONDS FOLDER

It wants a network of its own, which ends with it. Each cable is a pair of interfaces: pA1, pB1, pA2
and pB2 are where the systems 1 and 2 come in. SENDER is a name of live_senders.py. `dumpcap`
records what comes in into FOLDER/run.pcapng; FOLDER/said.json has by how much a frame went out
later than it was meant to, at most, and how many frames that were sent the recorder lost.
"""
from __future__ import annotations

import collections
import json
import os
import sys
import time
from typing import Counter

sys.dont_write_bytecode = True
HERE = os.path.dirname(os.path.abspath(__file__))
sys.path[:0] = [os.path.join(HERE, "..", "lib"), HERE]
from live_bench import go_first, lay_cables, opened, recorder  # noqa: E402
from live_senders import ENDS, FROM, SENDERS, Put, traffic  # noqa: E402
from one_switch import MS  # noqa: E402


def send_all(puts: list[Put], begin: int) -> int:
    """Sends each frame at its time from that moment on. By how much one was late, at most."""
    lines = {end: opened(f"s{end}") for end in ENDS}
    longest = 0
    for put in puts:
        due = begin + put.time
        while (wait := due - time.time_ns()) > 0:
            time.sleep(wait / 10**9)
        lines[put.end].send(put.content)
        longest = max(longest, time.time_ns() - due)
    return longest


def main() -> None:
    """Runs the bench."""
    name, seconds, folder = sys.argv[1], int(sys.argv[2]), sys.argv[3]
    lay_cables(ENDS)
    if SENDERS[name].goes_first:
        go_first()
    puts = traffic(name, seconds * 10**9)
    path = os.path.join(folder, "run.pcapng")
    with recorder(path, seconds, ENDS, ("inbound",)) as await_recorded:
        longest = send_all(puts, time.time_ns() + 500 * MS)
        sent: Counter[bytes] = collections.Counter(put.content for put in puts if put.time >= FROM)
        lost = await_recorded(sent)
    with open(os.path.join(folder, "said.json"), "w", encoding="ascii") as file:
        json.dump({"longest": longest, "lost": lost}, file)


if __name__ == "__main__":
    main()
