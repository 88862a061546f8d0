"""Writes recordings for which the program has to take memory; for tests/run/refused_growths.sh.

    tests/recordings/growing_recordings.py FOLDER

Prints a line for each that the program reads (tests/lib/reads.py): its name, a tab, its path; and
for two that it reads at once their name and both paths. Frames of one stand out of order, as far
apart as the program puts them in order.
"""
from __future__ import annotations

import os
import sys

sys.dont_write_bytecode = True
TESTS = os.path.join(os.path.dirname(os.path.abspath(__file__)), "..")
sys.path[:0] = [os.path.join(TESTS, name) for name in ("lib", "recordings")]
from edge_rows import block, low  # noqa: E402
from reads import ORDERS, READS, is_read  # noqa: E402
from recording_rows import H1, H2, IL, IW, ONE, PL, SL, US, ZERO, E, R, Z  # noqa: E402

PAIRS = [("a pcap", "a pcapng"), ("a pcapng", "a pcap that breaks off")]
LARGE = 200_000  # bytes: more than is held of any input at the start
MANY = 20  # frames, twice


def out_of_order() -> str:
    """Frames of several lengths, the later half first, those of each pair by turns; then one."""
    places = [place ^ 1 for place in (*range(MANY, 2 * MANY), *range(MANY))]
    frames = [R(low(each), H1 + "00" * each, 2 * low(60 + each)) for each in places]
    return PL + "".join(frames) + R(low(2 * MANY), H2)


def texts() -> dict[str, str]:
    """By their names, in hexadecimal: frames, one larger than what is held at the start, and for
    pcapng interfaces, a large block, statistics; frames to be put in order."""
    large = H1 + "00" * (LARGE - 60)
    lost, other = Z(ZERO, "07000000", ZERO), E("08401e18", H2)
    frames = [R(ZERO, H1), R(ONE, large, 2 * low(LARGE)), R("02000000", H2)]
    packets = [E(US, H1), block(5, ZERO * 3 + "00" * LARGE), lost, other]
    return {
        "a pcap": PL + "".join(frames),
        "a pcap that breaks off": PL + "".join(frames)[:-2],
        "a pcapng": SL + IL + IW * 40 + "".join(packets),
    } | ({"a pcap out of order": out_of_order()} if ORDERS else {})


def main() -> None:
    """Writes those that are read."""
    paths = {}
    for name, text in texts().items():
        data = bytes.fromhex(text)
        if is_read(data):
            path = paths[name] = os.path.join(sys.argv[1], name.replace(" ", "-"))
            with open(path, "wb") as file:
                file.write(data)
            print(f"{name}\t{path}")
    for one, other in PAIRS if "two" in READS else ():
        print(f"{one} and {other}\t{paths[one]}\t{paths[other]}")


if __name__ == "__main__":
    main()
