#!/usr/bin/env python3
"""Writes several switches a side and a frame list to measure `afdx replay` with.

    bench/make_cascade.py CONFIG LIST [N] [--links C]

Writes a configuration to CONFIG, and to LIST a list of N lines (1,000,000 where it isn't given,
which is the most a list may have), F lines on both sides. On each side 8 switches stand in a ring
of cables of 1000 Mbit/s, each with 22 systems at 100 Mbit/s. C links (984) go on ways of 1 to 4
switches, as many of each, round the ring in both directions: at each switch to two systems, at the
last one to three. It is admitted. Lengths, BAGs, moments and messages of the links are those of
bench/make_network.py. The same words give the same files.
"""
import argparse
import random
import sys

sys.dont_write_bytecode = True
from make_network import MOST_LINES, Link, longest, priority_of, sent  # noqa: E402
from cascade import cascade_text  # noqa: E402
from tables import cable_of, link_of, port_of, switch_of, system_of  # noqa: E402

SWITCHES = 8
OWN = 22  # systems of a switch
WAY = 4  # switches on the longest way
LINKS = 984
LATENCY = 10_000  # us, of each row


class Way:
    """A link and the switches that it passes, in order."""

    def __init__(self, link, switches):
        self.link, self.switches = link, switches


def number_of(switch, port):
    """The number of the system at a switch's port."""
    return switch * OWN + port


def place_of(number):
    """The switch and the port of the system of this number."""
    return (number - 1) // OWN, (number - 1) % OWN + 1


def ways_of(count):
    """So many links with their ways, at each switch from the system that sends least."""
    chance = random.Random(f"cascade {count}")
    loads = [[0] * OWN for _ in range(SWITCHES)]
    ways = []
    for vl in range(count):
        lmax, begin = longest(chance), vl % SWITCHES
        own = loads[begin]
        port = own.index(min(own))
        own[port] += lmax + 20
        bag = chance.choices([2, 4, 8, 16, 32, 64, 128], [2, 6, 12, 20, 25, 20, 15])[0]
        step = chance.choice([1, -1])
        hops = vl // SWITCHES % WAY + 1
        switches = [(begin + step * hop) % SWITCHES for hop in range(hops)]
        ways.append(Way(Link(vl, number_of(begin, port + 1), [], bag, lmax), switches))
    return ways


def link_row(way, hop, to, sender):
    """A link's row, where its frames have passed so many switches."""
    link = way.link
    return link_of(
        link.vl, sender, to, bag=link.bag_ms, lmax=link.lmax, jitter=500 + hop * LATENCY,
        priority=priority_of(link), latency=LATENCY, skew=(hop + 1) * LATENCY,
    )  # fmt: skip


def switch_row(switch, links, ports):
    """A switch with its ends."""
    systems = [system_of(port, 100, f"s{number}", number)
               for port in range(1, OWN + 1) for number in [number_of(switch, port)]]  # fmt: skip
    cables = [cable_of(f"w{other % SWITCHES}", port, 1000)
              for port, other in ((OWN + 1, switch - 1), (OWN + 2, switch + 1))]  # fmt: skip
    name = f"w{switch}"
    return switch_of(name, systems, cables, links, ports, profile=2, buffer=65536)


def compact(switches):
    """The text of a cascade, without empty lines."""
    return cascade_text({"switch": switches}).decode().replace("\n\n", "\n")


def receivers(way, hop):
    """The systems at the switch to which the row there goes, in turn others."""
    switch, is_last = way.switches[hop], hop + 1 == len(way.switches)
    own, vl = place_of(way.link.sender), way.link.vl
    ports = [(vl * 7 + step) % OWN + 1 for step in range(4)]
    ports = [port for port in ports if (switch, port) != own]
    return [f"s{number_of(switch, port)}" for port in ports[: 3 if is_last else 2]]


def config_text(ways):
    """The configuration."""
    links: list[list[dict]] = [[] for _ in range(SWITCHES)]
    ports: list[list[dict]] = [[] for _ in range(SWITCHES)]
    for way in ways:
        sender = f"s{way.link.sender}"
        for hop, switch in enumerate(way.switches):
            own, after = receivers(way, hop), way.switches[hop + 1 : hop + 2]
            to = [*own, *(f"w{other}" for other in after)]
            links[switch].append(link_row(way, hop, to, sender))
            ports[switch].append(port_of(own[0], way.link.vl))
            sender = f"w{switch}"
    return compact([switch_row(each, links[each], ports[each]) for each in range(SWITCHES)])


def write_cascade(config, listing, count=MOST_LINES, links=LINKS):
    """Writes both files; gives how many switches all frames of the list pass, together."""
    ways, hops = ways_of(links), 0
    with open(config, "w", encoding="ascii") as out:
        out.write(config_text(ways))
    with open(listing, "w", encoding="ascii") as out:
        for _, (time, side, number, frame) in zip(range(count), sent([way.link for way in ways])):
            switch, port = place_of(number)
            out.write(f"F {time} {side} w{switch} {port} {frame.hex()}\n")
            hops += len(ways[int.from_bytes(frame[4:6], "big")].switches)
    return hops


def main():
    words = argparse.ArgumentParser(
        description=__doc__, formatter_class=argparse.RawDescriptionHelpFormatter
    )
    words.add_argument("config", metavar="CONFIG")
    words.add_argument("list", metavar="LIST")
    words.add_argument(
        "count", metavar="N", nargs="?", type=int, default=MOST_LINES, help="how many lines"
    )
    words.add_argument(
        "--links", metavar="C", type=int, default=LINKS, help=f"how many links, 1 to {LINKS}"
    )
    given = words.parse_args()
    if not 0 <= given.count <= MOST_LINES:
        words.error(f"N is 0 to {MOST_LINES}")
    if not 1 <= given.links <= LINKS:
        words.error(f"C is 1 to {LINKS}")
    write_cascade(given.config, given.list, given.count, given.links)


if __name__ == "__main__":
    main()
