"""Which recordings the built program reads. One line says it for all steps, NOW; for a single run
the environment variable AFDX_READS says it, words of WORDS with commas between them.

    tests/lib/reads.py     prints the words
"""
from __future__ import annotations

import os
import sys

sys.dont_write_bytecode = True
sys.path.insert(0, os.path.dirname(os.path.abspath(__file__)))
from recorded import PCAPS, is_packed, is_recording  # noqa: E402

# the two forms, the command that makes a list of one, two recordings at once, the options
# `--reorder` and `--stamps`, and `--live`
WORDS = ("pcap", "pcapng", "list", "two", "reorder", "live")
NOW = "pcap,pcapng,list,two,reorder"  # what the program reads today

READS = frozenset(os.environ.get("AFDX_READS", NOW).split(",")) - {""}
if not READS <= set(WORDS) or (READS and "pcap" not in READS):
    raise SystemExit(f"AFDX_READS is {','.join(WORDS)} or a part of it with pcap")
for late in ("two", "reorder", "live"):
    before = WORDS[: WORDS.index(late)]
    if late in READS and not READS.issuperset(before):
        raise SystemExit(f"AFDX_READS has {late} where it has {','.join(before)} too")

ORDERS = "reorder" in READS
LIVES = "live" in READS
HELD = 10_000 if ORDERS else 0  # N of `--reorder` where no word says it, nor `--line-buffered`


def is_pcap(data: bytes) -> bool:
    """Its first four bytes are those of a pcap."""
    return data[:4].hex() in PCAPS


def is_read(data: bytes) -> bool:
    """The program takes it for a recording, or for a packed one."""
    kind = "pcap" if is_packed(data) or is_pcap(data) else "pcapng"
    return (is_packed(data) or is_recording(data)) and kind in READS


if __name__ == "__main__":
    print(" ".join(word for word in WORDS if word in READS))
