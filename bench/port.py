#!/usr/bin/env python3
"""Measures the output port alone.

    bench/port.py [PROGRAM]

PROGRAM is the built program of crates/afdx_port_bench, made by `rt run` there:
crates/afdx_port_bench/out/afdx_port_bench where it isn't given. It puts and takes 10,000,000
frames in turn, and fills a queue of 4 MiB with 65,536 frames of 64 bytes and drains it.
"""
import os
import sys
import tempfile

sys.dont_write_bytecode = True
from measure import HERE, timed  # noqa: E402

PROGRAM = os.path.join(HERE, "..", "crates", "afdx_port_bench", "out", "afdx_port_bench")
RUNS = [("10,000,000 pairs of put and take", "10000000"), ("65,536 frames in and out", "fill")]


def main():
    program = sys.argv[1] if len(sys.argv) > 1 else PROGRAM
    with tempfile.TemporaryDirectory() as folder:
        note = os.path.join(folder, "note")
        with open(os.devnull, "w", encoding="ascii") as nothing:
            for name, word in RUNS:
                run = timed([program, word], None, nothing, note)
                print(f"{name}   {run.seconds:.3f} s   {run.memory / 1024:.1f} MiB peak")


if __name__ == "__main__":
    main()
