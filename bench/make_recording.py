#!/usr/bin/env python3
"""Writes a recording to measure `afdx police` with: the frames of bench/make_list.py.

    bench/make_recording.py PATH [N] [--length L] [--fcs yes|no|unsaid] [--form pcap|pcapng]

Writes a pcap or a pcapng in ns of N frames (1,000,000 where it isn't given; there may be more) to
PATH. Each is a frame of link 1 of system 1, each next one 1 ms later. Without --length all are one
and the same frame of 64 bytes. With it they have L bytes, 64 to 1518, their messages are random
bytes, and each is another. Their check sequences are recorded with `--fcs yes`; else they are left
off, and with `no` the recording says so. `-` as PATH is standard output.
"""
import argparse
import contextlib
import itertools
import sys

sys.dont_write_bytecode = True
from make_list import FRAME, STEP_NS, frames, sealed  # noqa: E402

MANY = 1_000_000
# the last word of a pcap's head: Ethernet, and what it says of check sequences
SAID = {"yes": 0x2400_0001, "no": 0x0400_0001, "unsaid": 1}
# the option of a pcapng's interface that says it, and the option of a stamp's unit
FCSLEN = {"yes": (0x1_000D, 4), "no": (0x1_000D, 0), "unsaid": ()}
NANOSECONDS = (0x1_0009, 9)


def low(*numbers):
    """Numbers of 32 bits, low byte first."""
    return b"".join(number.to_bytes(4, "little") for number in numbers)


def stamped(count, length, is_sealed):
    """Each frame with its ns."""
    one = sealed(FRAME) if is_sealed else FRAME
    made = itertools.repeat(one) if length is None else frames(length, is_sealed)
    for place, frame in enumerate(itertools.islice(made, count)):
        yield place * STEP_NS, frame


def packets(count, length=None, fcs="unsaid"):
    """A pcap: the head, and then each frame with its stamp."""
    yield low(0xA1B23C4D, 4 << 16 | 2, 0, 0, 65_535, SAID[fcs])
    for moment, frame in stamped(count, length, fcs == "yes"):
        seconds, ns = divmod(moment, 10**9)
        yield low(seconds, ns, len(frame), len(frame)) + frame


def block(kind, body):
    """A block of a pcapng."""
    body += bytes(-len(body) % 4)
    size = low(len(body) + 12)
    return low(kind) + size + body + size


def blocks(count, length=None, fcs="unsaid"):
    """A pcapng: a section with an interface, and then a packet for each frame."""
    yield block(0x0A0D0D0A, low(0x1A2B3C4D, 1, 0xFFFF_FFFF, 0xFFFF_FFFF))
    yield block(1, low(1, 65_535, *NANOSECONDS, *FCSLEN[fcs]))
    for moment, frame in stamped(count, length, fcs == "yes"):
        head = low(0, moment >> 32, moment & 0xFFFF_FFFF, len(frame), len(frame))
        yield block(6, head + frame)


FORMS = {"pcap": packets, "pcapng": blocks}


def write_recording(path, count=MANY, length=None, fcs="unsaid", form="pcap"):
    with contextlib.ExitStack() as stack:
        out = sys.stdout.buffer if path == "-" else stack.enter_context(open(path, "wb"))
        out.writelines(FORMS[form](count, length, fcs))


def main():
    words = argparse.ArgumentParser(
        description=__doc__, formatter_class=argparse.RawDescriptionHelpFormatter
    )
    words.add_argument("path", metavar="PATH", help="where to write it; - is standard output")
    words.add_argument(
        "count", metavar="N", nargs="?", type=int, default=MANY, help="how many frames"
    )
    words.add_argument(
        "--length", metavar="L", type=int, help="the length of the frames, each of them another"
    )
    words.add_argument(
        "--fcs", choices=sorted(SAID), default="unsaid", help="whether check sequences are recorded"
    )
    words.add_argument("--form", choices=sorted(FORMS), default="pcap", help="its form")
    given = words.parse_args()
    if given.count < 0:
        words.error("N is 0 or more")
    if given.length is not None and not 64 <= given.length <= 1518:
        words.error("L is 64 to 1518")
    write_recording(given.path, given.count, given.length, given.fcs, given.form)


if __name__ == "__main__":
    main()
