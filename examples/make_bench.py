#!/usr/bin/env python3
"""Writes the frame lists bench.list, gigabit.list and two_switches.list.

    examples/make_bench.py [FOLDER]

They are written to FOLDER, where it isn't given to the folder of this script. What the frames are
made of stands in docs/FORMATS.md, what happens to them in docs/NETWORK.md, section 16. The lists
are the same each time.
"""
import os
import sys

sys.dont_write_bytecode = True
from frame_builder import frame_of, sealed  # noqa: E402

US = 1_000
MS = 1_000_000

# The systems of network.toml: port, id, partition.
SYSTEMS = {
    "fcc1": (1, 17, 1),
    "fcc2": (2, 18, 1),
    "ads1": (3, 33, 1),
    "irs1": (5, 49, 1),
    "irs2": (6, 50, 1),
    "disp1": (7, 65, 2),
    "fms1": (9, 81, 2),
    "eec1": (10, 97, 1),
    "eec2": (11, 98, 1),
    # and those of gigabit.toml
    "radar1": (1, 1, 1),
    "radar2": (2, 2, 1),
    "fms": (3, 3, 1),
    # and those of two_switches.toml, with their switches
    "s1": ("fwd 1", 1, 1),
    "s2": ("aft 2", 2, 1),
}


def built(system, vl, text, number, side="A", udp=None, least=64, **changes):
    """The frame of a system of the lists with a text as its message."""
    _, ident, partition = SYSTEMS[system]
    port = 20000 + vl if udp is None else udp
    payload = text.encode("ascii")
    return frame_of(ident, partition, vl, payload, number, side, port, least, **changes)


class Frames:
    """The lines of a list, sorted by time; at one time in the order in which they were added."""

    def __init__(self):
        self.lines = []
        self.head = []

    def say(self, time, text):
        """Adds each line of the text as a remark."""
        self.lines += [(time, f"# {line}") for line in text.splitlines()]

    def add(self, time, side, port, frame, kind="F"):
        self.lines.append((time, f"{kind} {time} {side} {port} {frame.hex() or '-'}"))

    def send(self, time, system, vl, text, number, sides="AB", late=5 * US, **more):
        """The frame on both sides, or on one; the copy on side B comes `late` ns after A's."""
        for side in sides:
            at = time + late if side == "B" else time
            self.add(at, side, SYSTEMS[system][0], built(system, vl, text, number, side, **more))

    def write(self, path):
        ordered = sorted(self.lines, key=lambda line: line[0])
        with open(path, "w", encoding="ascii") as out:
            out.writelines(f"{text}\n" for text in self.head + [text for _, text in ordered])


def next_number(number):
    return number % 255 + 1


def background(frames, end):
    """Body rates from both inertial systems, every 2 ms on both sides, as far as `end`.

    From 30 ms to 38 ms nothing of irs1 comes on side A: its line to that switch is broken.
    """
    for system, vl, phase in (("irs1", 501, 0), ("irs2", 601, 700 * US)):
        number = 0
        for count, time in enumerate(range(phase, end, 2 * MS)):
            broken = system == "irs1" and 30 * MS <= time < 38 * MS
            frames.send(time, system, vl, f"rates {count}", number, "B" if broken else "AB")
            number = next_number(number)


PRIORITIES = """\
At the captain's displays: the long low frame of link 903 is first, but the choice of this moment
is made when all have come: the high frame of link 104 goes first, and then the low one. A high
frame that comes while that is being sent (link 303) doesn't interrupt it.
"""


def priorities(frames, start):
    frames.say(start, PRIORITIES)
    frames.send(start, "fms1", 903, "flight plan page 1 of 4", 0, "A", least=512)
    frames.send(start, "fcc1", 104, "pitch 2.0", 0, "A")
    frames.send(start + 8 * US, "ads1", 303, "speed 251", 0, "A")


LATE_COPIES = """\
Late copies on side B: 1,400 us after the one on A, within the skew of 1,500 us: dropped as
redundant. The next one comes 1,600 us late, beyond the skew: it counts as new, and is delivered.
"""


def late_copies(frames, start):
    frames.say(start, LATE_COPIES)
    frames.send(start, "fcc1", 102, "elevator 1", 0, late=1400 * US)
    frames.send(start + 2 * MS, "fcc1", 102, "elevator 2", 1, late=1600 * US)


BABBLING = """\
disp1 babbles: link 703, which may send one frame in 32 ms, sends one each 50 us. Only the first
passes; link 706 of the same system isn't touched by that.
"""


def babbling(frames, start):
    frames.say(start, BABBLING)
    for count in range(24):
        frames.send(start + count * 50 * US, "disp1", 703, "baro 1013", count, "A")
    frames.send(start + 610 * US, "disp1", 706, "position", 0, "A")


MASKED = """\
eec2 sends under the name of eec1: link 1001, but at port 11. Wrong port; and link 1001's own
frame, between those, is accepted as if they weren't there.
"""


def masked(frames, start):
    frames.say(start, MASKED)
    for count in range(10):
        time = start + count * 20 * US
        frames.add(time, "A", SYSTEMS["eec2"][0], built("eec1", 1001, "thrust 0", count, "A"))
        if count == 5:
            frames.send(time, "eec1", 1001, "thrust 81", 0)


def wrong_at_the_switch(frames, start):
    frames.say(
        start, "One frame of each kind that the switch drops by its shape, all from fcc1 at port 1."
    )
    good = built("fcc1", 110, "record", 0, "A", least=128)
    changed = sealed(good)[:50] + b"\x01" + sealed(good)[51:]
    elsewhere = built("fcc1", 110, "record", 0, address=b"\x01\x00\x5e\x00\x00\x6e")
    too_great = built("fcc1", 107, "alignment", 0, least=85)
    too_small = built("fcc1", 110, "record", 0, least=127)
    port = SYSTEMS["fcc1"][0]
    kinds = [
        ("too-short: 20 bytes", "R", sealed(good)[:20]),
        ("too-short: no bytes", "R", b""),
        ("too-long: 1519 bytes", "R", bytes(1519)),
        ("bad-fcs: the check sequence is turned over", "B", good),
        ("bad-fcs: one bit of a sealed frame is changed", "R", changed),
        ("bad-address: another destination", "F", elsewhere),
        ("unknown-link: no link has the identifier 199", "F", built("fcc1", 199, "record", 0)),
        ("over-lmax: link 107 has at most 84 bytes", "F", too_great),
        ("under-lmin: link 110 has at least 128 bytes", "F", too_small),
        ("and a good one, which they cost nothing", "F", good),
    ]
    for count, (text, kind, frame) in enumerate(kinds):
        time = start + count * 10 * US
        frames.say(time, text)
        frames.add(time, "A", port, frame, kind)


def wrong_at_the_receiver(frames, start):
    frames.say(start, "Frames of link 101 that pass the switch, and that fcc2 drops.")
    one_less = 8 + len("monitor 10") - 1
    kinds = [
        ("good: number 0", 0, {}),
        ("good: number 1", 1, {}),
        ("sequence: number 4 after 1", 4, {}),
        ("good: number 5 after 4", 5, {}),
        ("not-ipv4: type 0806", 6, {"ether_type": 0x0806}),
        ("bad-ip-header: a checksum that is 1 too great", 7, {"checksum": 1}),
        ("fragment: more fragments follow", 8, {"flags": 0x2000}),
        ("not-udp: protocol 1", 9, {"protocol": 1}),
        ("bad-udp-length: 1 less than the IPv4 header says", 10, {"udp_length": one_less}),
        ("no-port: fcc2 reads link 101 at port 20101 alone", 11, {"udp": 20102}),
        ("good: number 12", 12, {}),
    ]
    for count, (text, number, changes) in enumerate(kinds):
        time = start + count * MS
        frames.say(time, text)
        frames.send(time, "fcc1", 101, f"monitor {number}", number, "A", **changes)


BENCH = """\
# A test bench for network.toml, written by examples/make_bench.py: 60 ms at both switches.
#
#     afdx replay examples/network.toml examples/bench.list
#
# All the while the inertial systems send body rates (links 501 and 601) every 2 ms on both
# sides; the copy on side B comes 5 us after that on A, so the receivers drop it as redundant.
"""
BREAKS = """\
The line from irs1 to switch A breaks: link 501 comes by side B alone, and fcc1 and fcc2 go on by
that, without a gap.
"""
MENDED = """\
It is mended. The first frame on side A is five numbers after the last one there: dropped as
sequence, so its copy on B is used. From the next one on side A is first again.
"""


def bench():
    frames = Frames()
    frames.head = BENCH.splitlines()
    priorities(frames, 1200 * US)
    late_copies(frames, 3 * MS)
    babbling(frames, 10 * MS + 100 * US)
    masked(frames, 13 * MS)
    wrong_at_the_switch(frames, 15 * MS)
    wrong_at_the_receiver(frames, 17 * MS + 300 * US)
    frames.say(30 * MS, BREAKS)
    frames.say(38 * MS, MENDED)
    background(frames, 60 * MS)
    return frames


GIGABIT = """\
# A list for gigabit.toml, written by examples/make_bench.py.
#
#     afdx replay --no-admission examples/gigabit.toml examples/gigabit.list
#
# Both radars send two frames in 6 us, as their accounts allow. The displays at port 4 take them at
# 1000 Mbit/s; the recorder at port 5 takes 256 us for each.
"""


def gigabit():
    frames = Frames()
    frames.head = GIGABIT.splitlines()
    for start, number in ((0, 0), (4 * MS, 2)):
        frames.send(start, "radar1", 1, f"echo {number}", number, "A", least=300)
        frames.send(start, "radar2", 2, f"cloud {number}", number, "A", least=300)
        frames.send(start, "fms", 3, f"track {number}", number, "A")
        frames.send(start + 6 * US, "radar1", 1, f"echo {number + 1}", number + 1, "A", least=300)
        frames.send(start + 6 * US, "radar2", 2, f"cloud {number + 1}", number + 1, "A", least=300)
    frames.say(
        8 * MS,
        "With 2 ms between the frames nothing is lost, and nothing grows too old.",
    )
    for count, time in enumerate(range(8 * MS, 16 * MS, 2 * MS)):
        frames.send(time, "radar1", 1, f"echo {4 + count}", 4 + count, least=300)
        frames.send(time, "radar2", 2, f"cloud {4 + count}", 4 + count, least=300)
    return frames


TWO_SWITCHES = """\
# A list for two_switches.toml, written by examples/make_bench.py: each line names a switch too.
#
#     afdx replay examples/two_switches.toml examples/two_switches.list
#
# What comes over the cable has the number of its line here. No frame is lost or too old, as the
# network is admitted. Smaller buffers and a limit on waiting (profile 2) show that too:
#
#     sed 's/^profile = 1/profile = 2/; s/^buffer = 254/buffer = 64/
#         s/^latency_us = 21/latency_us = 6/' examples/two_switches.toml > small.toml
#     afdx replay --no-admission small.toml examples/two_switches.list
#
# A message of s1, on both sides: fwd passes it to the cable, aft to s3, which drops the copy.
"""
AT_ONE_MOMENT = """\
What the cable brings arrives at aft when a frame of s2 does, before it. Both go to s3, the one of
s1 first, as it is high; that of s2 goes over the cable to s1 too. (small.toml: L 18 A aft 3.)
"""
A_NS_LATER = "The same, but s2's frame comes 1 ns later. (small.toml: T 21 2013440 A aft 3.)"
TOO_SOON = "s1 sends again after 600 us, which its account at fwd covers, and after 100 us more."
STRANGER = "s3 sends under the name of link 1: it comes from fwd, at port 20. Then a damaged frame."
UNREAD = "s3 has no communication port for this UDP port; and then two numbers are left out."


def two_switches():
    frames = Frames()
    frames.head = TWO_SWITCHES.splitlines()
    frames.send(0, "s1", 1, "hello", 0, udp=1000)
    frames.say(1 * MS, AT_ONE_MOMENT)
    frames.send(1 * MS, "s1", 1, "first", 1, "A", udp=1000)
    frames.send(1 * MS + 6_720, "s2", 2, "second", 0, "A", udp=2000)
    frames.say(2 * MS, A_NS_LATER)
    frames.send(2 * MS, "s1", 1, "first", 2, "A", udp=1000)
    frames.send(2 * MS + 6_721, "s2", 2, "second", 1, "A", udp=2000)
    frames.say(4 * MS, TOO_SOON)
    frames.send(4 * MS, "s1", 1, "once", 3, "A", udp=1000)
    frames.send(4 * MS + 600 * US, "s1", 1, "twice", 4, "A", udp=1000)
    frames.send(4 * MS + 700 * US, "s1", 1, "thrice", 5, "A", udp=1000)
    frames.say(6 * MS, STRANGER)
    frames.add(6 * MS, "A", "aft 3", built("s1", 1, "mine", 6, udp=1000))
    frames.add(6 * MS + 1, "A", "fwd 1", built("s1", 1, "damaged", 6, udp=1000), "B")
    frames.say(8 * MS, UNREAD)
    frames.send(8 * MS, "s1", 1, "unread", 5, "A", udp=1001)
    frames.send(10 * MS, "s1", 1, "late", 8, "A", udp=1000)
    return frames


def main():
    if len(sys.argv) > 2:
        sys.exit(__doc__)
    folder = sys.argv[1] if len(sys.argv) == 2 else os.path.dirname(os.path.abspath(__file__))
    bench().write(os.path.join(folder, "bench.list"))
    gigabit().write(os.path.join(folder, "gigabit.list"))
    two_switches().write(os.path.join(folder, "two_switches.list"))


if __name__ == "__main__":
    main()
