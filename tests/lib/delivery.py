"""What a replay reports: computed for one link's stream, and looked at for those of many."""
from __future__ import annotations

import re

from frames import Sent, slot
from program import must


def told_pairs(tables: dict, sent: list[Sent], port: int, first: int = 1) -> bytes:
    """The replay of one link's emissions, each frame before its copy, to one idle port that reads
    them all.

    `first` is the number of the first line.
    """
    receiver = next(system for system in tables["system"] if system["port"] == port)
    name, lines = receiver["name"].encode(), []
    for place, one in enumerate(sent):
        a, b, end = first + 2 * place, first + 2 * place + 1, one.end + slot(one.a, receiver)
        lines.append(b"V %d A accept\nV %d B accept\n" % (a, b))
        lines.append(b"D %d %d A %d\n" % (a, end, port))
        lines.append(b"M %d %s %d %s\n" % (end, name, one.vl, one.payload.hex().encode()))
        lines.append(b"D %d %d B %d\nX %d %s %d redundant\n" % (b, end, port, end, name, b))
    return b"".join(lines)


def bounds_of(told: bytes) -> dict[tuple[int, str], int]:
    """The bounds that `check` reports of admitted tables, in ns, by port and priority."""
    bounds = {}
    for line in told.splitlines()[:-1]:
        _, port, high, low, _ = line.split(b" ")
        bounds[int(port), "high"], bounds[int(port), "low"] = int(high), int(low)
    return bounds


def check_all_accepted(
    tables: dict, bounds: dict[tuple[int, str], int], text: bytes, out: bytes
) -> None:
    """Each frame of the list is accepted, and each of its copies leaves once, within the port's
    bound and the link's latency."""
    links = {link["vl"]: link for link in tables["link"]}
    ports = {system["name"]: system["port"] for system in tables["system"]}
    waiting = {}
    for number, line in enumerate(text.splitlines(), 1):
        words = line.split(b" ")
        waiting[number] = int(words[1]), words[2], links[int(words[4][8:12], 16)]
    left: dict[int, set[int]] = {number: set() for number in waiting}
    accepted = 0
    for line in out.splitlines():
        words = line.split(b" ")
        must(words[0] in (b"V", b"D", b"M", b"X"), f"a line is {line!r}")
        if words[0] == b"V":
            accepted += 1
            must(
                words[1:] == [b"%d" % accepted, waiting[accepted][1], b"accept"],
                f"a verdict is {line!r}",
            )
        elif words[0] == b"D":
            time, side, link = waiting[int(words[1])]
            stay, port = int(words[2]) - time, int(words[4])
            longest = min(1000 * link["latency_us"], bounds[port, link["priority"]])
            must(words[3] == side and 0 < stay <= longest, f"{line!r} after {stay} ns")
            must(port not in left[int(words[1])], f"{line!r} came before")
            left[int(words[1])].add(port)
    must(accepted == len(waiting), f"{accepted} of {len(waiting)} frames have a verdict")
    for number, (_, _, link) in waiting.items():
        must(
            left[number] == {ports[name] for name in link["to"]},
            f"line {number} left ports {left[number]}",
        )


def check_delivered(tables: dict, sent: list[Sent], out: bytes) -> None:
    """Each message is read once, and a link's in order, by each system that has a port for it."""
    must(not re.search(rb"^X .* sequence$", out, re.MULTILINE), "a number that was sent is dropped")
    read: dict[tuple[str, int], list[bytes]] = {}
    for line in out.splitlines():
        words = line.decode().split(" ")
        if words[0] == "M":
            read.setdefault((words[2], int(words[3])), []).append(bytes.fromhex(words[4]))
    by_link: dict[int, list[Sent]] = {}
    for one in sent:
        by_link.setdefault(one.vl, []).append(one)
    open_ports = {(row["system"], row["link"], row["udp"]) for row in tables["port"]}
    for link in tables["link"]:
        for name in link["to"]:
            of_link = by_link.get(link["vl"], [])
            wanted = [one.payload for one in of_link if (name, one.vl, one.udp) in open_ports]
            found = read.pop((name, link["vl"]), [])
            of_what = f"messages of link {link['vl']} in place of {len(wanted)}"
            must(found == wanted, f"{name} reads {len(found)} {of_what}")
    must(not read, f"messages are read where none are sent: {sorted(read)[:5]}")


def lines_to(text: bytes, others: bytes) -> tuple[bytes, list[int]]:
    """Both lists in one, by time; with it the places of the first list's lines, from 1."""
    lines = [(int(line.split(b" ")[1]), 1, line) for line in text.splitlines(keepends=True)]
    lines += [(int(line.split(b" ")[1]), 0, line) for line in others.splitlines(keepends=True)]
    lines.sort(key=lambda entry: entry[:2])
    return b"".join(line for _, _, line in lines), [
        n for n, entry in enumerate(lines, 1) if entry[1] == 1
    ]


def renumbered(out: bytes, places: list[int]) -> tuple[list[bytes], bytes]:
    """The lines on all other frames, and the rest with the numbers that its frames have without
    them."""
    numbers = {b"%d" % old: b"%d" % new for new, old in enumerate(places, 1)}
    others, rest = [], []
    for line in out.splitlines():
        words = line.split(b" ")
        place = {b"V": 1, b"L": 1, b"D": 1, b"T": 1, b"X": 3}.get(words[0])
        if place is None:
            rest.append(line)
        elif words[place] in numbers:
            words[place] = numbers[words[place]]
            rest.append(b" ".join(words))
        else:
            others.append(line)
    return others, b"".join(line + b"\n" for line in rest)
