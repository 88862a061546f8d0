"""Cascades that are as wide and long as they may be: 24 switches in a row, around one, in a ring,
each joined to each; and lines that are overloaded to the end of the clock."""
from __future__ import annotations

import tables as made
from frames import frame_of
from made_cascades import solved

MOST = 24  # switches, and ports of one
LATEST = 10**15  # ns of a list


def link_with(**values: object) -> dict:
    """A link of frames of 64 bytes, which may take any time."""
    return made.with_values(made.base_tables()["link"][0], skew=100_000, **values)


def switch_with(name: str, systems: list[dict], cables: list[dict], links: list[dict]) -> dict:
    """A switch with a communication port of its systems for each link."""
    own = [system["name"] for system in systems]
    ports = [made.port_of(one, link["vl"]) for link in links for one in own if one in link["to"]]
    return made.switch_of(name, systems, cables, links, ports)


def cable(switch: int, port: int, rate: int = 100) -> dict:
    """A cable to the switch of this number."""
    return made.cable_of(f"w{switch}", port, rate)


def in_a_row(count: int, **values: object) -> dict:
    """So many switches in a row; one link goes from the first to the last, with these values."""
    switches = []
    for k in range(count):
        cables = [cable(n, 20 + n - k) for n in (k - 1, k + 1) if 0 <= n < count]
        systems = [made.system_of(k // (count - 1) + 1)] if k in (0, count - 1) else []
        to = [f"w{k + 1}" if k < count - 1 else "s2"]
        row = link_with(sender=f"w{k - 1}" if k else "s1", to=to, **values)
        switches.append(switch_with(f"w{k}", systems, cables, [row]))
    return solved({"switch": switches})


def around_one(count: int) -> dict:
    """So many switches around one, each with a system whose link goes to all others."""
    names = range(1, count + 1)
    rows = [
        link_with(vl=n, bag=32, sender=f"w{n}", to=[f"w{m}" for m in names if m != n])
        for n in names
    ]
    switches = [switch_with("w0", [], [cable(n, n) for n in names], rows)]
    for n in names:
        rows = [link_with(vl=n, bag=32, sender=f"s{n}", to=["w0"])]
        rows += [link_with(vl=m, bag=32, sender="w0", to=[f"s{n}"]) for m in names if m != n]
        switches.append(switch_with(f"w{n}", [made.system_of(n)], [cable(0, MOST)], rows))
    return solved({"switch": switches})


def in_a_ring(count: int) -> dict:
    """So many switches in a ring, each with a system whose link goes round both ways, to the
    systems of all others."""
    switches = []
    for k in range(count):
        before, after = (k - 1) % count, (k + 1) % count
        rows = []
        for n in range(count):
            far = (k - n) % count  # how far the link has come
            row: dict = {"from": f"s{n + 1}", "to": [f"w{before}", f"w{after}"]}
            if 0 < far <= count // 2:
                row = {"from": f"w{before}", "to": [f"s{k + 1}"]}
                row["to"] += [f"w{after}"] if far < count // 2 else []
            elif far:
                row = {"from": f"w{after}", "to": [f"s{k + 1}"]}
                row["to"] += [f"w{before}"] if far > count // 2 + 1 else []
            rows.append(link_with(vl=n, bag=128, **row))
        cables = [cable(before, MOST - 1, 1000), cable(after, MOST, 1000)]
        system = made.system_of(k + 1) | {"port": 1}
        switches.append(switch_with(f"w{k}", [system], cables, rows) | {"profile": 2})
    return solved({"switch": switches})


def in_a_mesh(count: int, is_flooded: bool) -> dict:
    """So many switches, each joined to each, with a system whose link goes to the systems of all
    others: by the cable to each, or where it is flooded by each cable of each switch, so that its
    frames come again and again."""
    numbers = range(count)
    switches = []
    for k in numbers:
        others = [n for n in numbers if n != k]
        rows = []
        for n in numbers:
            to = [f"w{m}" for m in others if n == k or (is_flooded and m != n)]
            to += [] if n == k else [f"s{k + 1}"]
            row = {"from": f"s{k + 1}" if n == k else f"w{n}", "to": to}
            rows.append(link_with(vl=n, bag=128, **row))
        cables = [cable(n, n + 1, 1000) for n in others]
        system = made.system_of(k + 1)  # at the port that stays
        switches.append(switch_with(f"w{k}", [system], cables, rows) | {"profile": 2})
    return {"switch": switches} if is_flooded else solved({"switch": switches})


# ---- to the end of the clock ---------------------------------------------------------------------

LONG = 1518  # bytes of a frame, which takes 1,230,400 ns at 10 Mbit/s
TRAIN = 2_763  # such frames fill a buffer


def overloaded(count: int, links: int) -> dict:
    """So many switches in a row, joined by cables of 10 Mbit/s: from each go so many links to the
    last."""
    switches = []
    for k in range(count):
        rows = []
        for n in range(k + 1):
            row: dict = {"from": f"s{k + 1}" if n == k else f"w{k - 1}"}
            row |= {"to": [f"w{k + 1}" if k + 1 < count else f"s{count + 1}"]}
            row |= {"lmax": LONG, "jitter": 1_000 if n == k else 101_000}
            rows += [link_with(vl=n * links + each, **row) for each in range(links)]
        cables = [cable(n, 20 + n - k, 10) for n in (k - 1, k + 1) if 0 <= n < count]
        systems = [made.system_of(k + 1) | {"port": 1}]
        if k + 1 == count:
            systems.append(made.system_of(k + 2, 10) | {"port": 2})
        switches.append(switch_with(f"w{k}", systems, cables, rows) | {"buffer": TRAIN * LONG})
    return {"switch": switches}


def overload(cascade: dict, links: int) -> bytes:
    """A list that ends at the latest time, at which the buffers of all these switches are full."""
    lines, turns = [], -(-TRAIN // links) + 30
    frames = [
        [
            frame_of(sw["system"][0], k * links + each, 1000, bytes(LONG - 47), 0, "A").hex()
            for each in range(links)
        ]
        for k, sw in enumerate(cascade["switch"])
    ]
    for turn in range(turns):
        time = LATEST - (turns - 1 - turn) * 1_000_000
        for switch, own in zip(cascade["switch"], frames):
            place = f"A {switch['name']} {switch['system'][0]['port']}"
            lines += [f"R {time} {place} {frame}\n" for frame in own]
    return "".join(lines).encode()
