"""The parts of a page that only several switches a side have: the network, and where the time goes
on the ways of the links."""
from __future__ import annotations

import argparse
from typing import Sequence

from afdx_tools.replay.counting import Counting
from afdx_tools.replay.events import FATES, LOST, OLD
from afdx_tools.report.layout import is_there
from afdx_tools.report.network import Map
from afdx_tools.report.parts import section
from afdx_tools.report.svg import WIDTH, box, in_us, line, picture, text, titled
from afdx_tools.tables import Row, percent

NO_GRAPHVIZ = "Graphviz isn't installed (apt-get install graphviz)"
NO_LAYOUT = "Graphviz made no layout"
MOST_TOLD = 10  # ports at which copies were late or lost


# ---- the network ---------------------------------------------------------------------------------


def wrong_at(counting: Counting) -> dict[int, str]:
    """Of each output port at which copies were late or lost how many, in words."""
    ports, count = counting.events.port, counting.ports
    fates, late = counting.fates_by(ports, count), counting.late_by(ports, count)
    found = {}
    for port in range(count):
        counts = {"late": late[port], "at a full buffer": fates[port][FATES.index(LOST)],
                  "too old": fates[port][FATES.index(OLD)]}  # fmt: skip
        if any(counts.values()):
            found[port] = ", ".join(f"{n:,} {word}" for word, n in counts.items() if n)
    return found


def network_section(report: Row, counting: Counting, args: argparse.Namespace) -> str:
    """The network with its loads in the replay, and where copies were late or lost."""
    network, head = Map(counting.config), "The network: where copies were late or lost, and loads"
    if network.layout is None:
        why = NO_LAYOUT if is_there() else NO_GRAPHVIZ
        words = f"{why}, so there is no picture: the table of lines below has its numbers."
        return section("network", head, words, "")
    words = (
        "Loads are the share of each line that frames took up over the run, on the side with more; "
        "the table of lines has both, and what contracts allow. "
    )
    wrong = wrong_at(counting)
    most = [f"{counting.config.called(port)}: {what}" for port, what in wrong.items()]
    words += f"Late or lost: {'; '.join(most[:MOST_TOLD])}." if wrong else "None was late or lost."
    if len(most) > MOST_TOLD:
        words += f" So were copies at {len(most) - MOST_TOLD} more ports."
    rows = [{**row, "load": max(row["load_A"], row["load_B"])} for row in report["lines"]]
    return section("network", head, words, network.picture("network-loads", rows, wrong, args.link))


# ---- where the time goes -------------------------------------------------------------------------

LEFT, RIGHT, ROW, TOP = 250, 190, 34, 30
NARROW, LETTER = 20, 6.2  # of a part that has no name; a letter's width


def hop_in_words(row: Row, name: str, time: int, asked: int) -> str:
    """What a switch took of a copy's time."""
    share = f" ({percent(time / asked)})" if asked else ""
    return f"link {row['link']} at {name}: {time:,} of {asked:,} ns configured there{share}"


def hop_row(row: Row, asked: Sequence[int], y: float) -> list[str]:
    """A link's way to a receiver: above the latency that each switch may take, below what each took
    of the copy that was on its way for longest."""
    scale = (WIDTH - LEFT - RIGHT) / max(row["configured_ns"], row["greatest_ns"])
    parts = [
        text(0, y + 4, f"VL {row['link']}", "strong"),
        text(70, y + 4, f"{row['from']} to {row['system']}, {row['side']}"),
    ]
    x = at = float(LEFT)
    for n, ((name, time), most) in enumerate(zip(row["hops_ns"].items(), asked)):
        words = hop_in_words(row, name, time, most)
        kind = "late" if time > most else "replayed" if n % 2 == 0 else "median"
        parts.append(titled(box(x, y - 9, scale * most, 8, "asked"), words))
        parts.append(titled(box(at, y + 1, scale * time, 8, kind), words))
        if scale * most > max(NARROW, LETTER * len(name)):
            parts.append(text(x + 3, y - 2, name, "small"))
        x, at = x + scale * most, at + scale * time
    share = f"{in_us(row['greatest_ns'])} of {in_us(row['configured_ns'])} us, "
    share += percent(row["share"])
    parts.append(text(WIDTH - RIGHT + 12, y + 4, share, "bad" if row["late"] else "muted"))
    return parts


def hops(counting: Counting, pairs: Sequence[Sequence[Row]], most: int) -> str:
    """Where the time goes of the links that come nearest to their latency."""
    shown = [max(pair, key=lambda row: row["share"]) for pair in pairs[:most]]
    parts = [
        box(LEFT, 4, 30, 8, "asked"),
        text(LEFT + 36, 13, "what each switch may take"),
        box(LEFT + 226, 4, 14, 8, "replayed"),
        box(LEFT + 240, 4, 14, 8, "median"),
        text(LEFT + 260, 13, "what each took of the longest"),
        box(LEFT + 466, 4, 24, 8, "late"),
        text(LEFT + 496, 13, "over it"),
    ]
    words = []
    for n, row in enumerate(shown):
        y = TOP + ROW * n + ROW / 2
        asked = asked_of(counting, row)
        parts += hop_row(row, asked, y)
        words += [
            hop_in_words(row, name, time, each)
            for (name, time), each in zip(row["hops_ns"].items(), asked)
        ]
    bottom = TOP + ROW * len(shown)
    parts.append(line(LEFT, TOP - 2, LEFT, bottom, "axis"))
    label = "What each switch took of the longest way of each link"
    return picture("hops-parts", bottom + 8, parts, label, ". ".join(words))


def asked_of(counting: Counting, row: Row) -> list[int]:
    """The configured latencies on the way of a row, in ns."""
    config, vl = counting.config, row["link"]
    port = config.systems[row["system"]].port
    found = (config.row_at(vl, each) for each in config.way_to(vl, port))
    return [each.latency_ns if each else 0 for each in found]


def hops_section(counting: Counting, pairs: Sequence[Sequence[Row]], most: int) -> str:
    """The picture of where the time goes."""
    if not pairs:
        return ""
    words = (
        "Of each link of the picture above, to the receiver and on the side where it came nearest "
        "to its latency: the copy that took longest, from the list's arrival to its last slot's "
        "end, by switches."
    )
    return section("hops", "Where the time goes", words, hops(counting, pairs, min(most, 20)))
