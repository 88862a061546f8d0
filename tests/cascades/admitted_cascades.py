"""Cascades that are admitted, made at random: chains, stars, trees and rings of cables, with more
than the least values, and with jitters behind cables of more than a BAG."""
from __future__ import annotations

import random

from cascade import own_names
from cascade_least import solved_cascade
from first_fault import LATE_US
from made_cascades import Join, add_link, add_ports, switches_of
from tables import row_of

MOST_TRIES = 1000
RARELY, MOSTLY = 0.15, 0.85


# ---- cables --------------------------------------------------------------------------------------


def in_a_chain(chance: random.Random, names: list[str]) -> list[tuple[str, str]]:
    """One behind the other."""
    order = chance.sample(names, len(names))
    return list(zip(order, order[1:]))


def in_a_star(chance: random.Random, names: list[str]) -> list[tuple[str, str]]:
    """All around one."""
    first, *others = chance.sample(names, len(names))
    return [(first, other) for other in others]


def in_a_tree(chance: random.Random, names: list[str]) -> list[tuple[str, str]]:
    """Each at any one before it."""
    order = chance.sample(names, len(names))
    return [(chance.choice(order[:place]), order[place]) for place in range(1, len(order))]


def in_a_ring(chance: random.Random, names: list[str]) -> list[tuple[str, str]]:
    """A chain whose ends are joined too, where that is no second cable between two."""
    chain = in_a_chain(chance, names)
    return [*chain, (chain[0][0], chain[-1][1])] if len(names) > 2 else chain


SHAPES: dict[str, Join] = {
    "a chain": in_a_chain, "a star": in_a_star, "a tree": in_a_tree, "a ring": in_a_ring,
}


# ---- values --------------------------------------------------------------------------------------


def rows_by_link(switches: list[dict]) -> dict[int, list[tuple[dict, bool]]]:
    """The rows of each link; with each whether it comes from a system."""
    rows: dict[int, list[tuple[dict, bool]]] = {}
    for switch in switches:
        own = own_names(switch)
        for link in switch["link"]:
            rows.setdefault(link["vl"], []).append((link, link["from"] in own))
    return rows


def give_values(chance: random.Random, switches: list[dict]) -> None:
    """Each link has a BAG and lengths, in all its rows; and least values of the keys that are to be
    solved, some of which are much more than is needed."""
    for rows in rows_by_link(switches).values():
        bag, lmin = chance.choice([1, 2, 4, 8, 16, 32]), chance.choice([64, 64, 70, 100])
        lmax = chance.choice([lmin, chance.randint(lmin, 300), chance.randint(lmin, 300)])
        for link, is_first in rows:
            late = 0 if is_first else LATE_US // 2
            wide = chance.randint(0, 1000 * bag + late)
            jitter = wide if chance.random() < RARELY else 0
            latency = chance.choice([1, 1, 1, 200, 3000])
            skew = chance.choice([1, 1, 5000, 100_000])
            link |= row_of(
                bag=bag, lmin=lmin, lmax=lmax, jitter=jitter, latency=latency, skew=skew
            )
    for switch in switches:
        switch["buffer"] = chance.choice([64, 64, 65_536])


def any_cascade(chance: random.Random, join: Join, count: int, links: int) -> dict:
    """So many switches with so many links, with what admission needs, as far as it can be had."""
    switches = switches_of(chance, count, join)
    for vl in chance.sample(range(65_536), links):
        add_link(chance, switches, vl, True)
    give_values(chance, switches)
    for switch in switches:
        chance.shuffle(switch["link"])
        add_ports(chance, switch)
    return {"switch": switches}


def admitted_cascade(chance: random.Random, join: Join, count: int, links: int) -> dict:
    """One that is admitted."""
    for _ in range(MOST_TRIES):
        found = solved_cascade(any_cascade(chance, join, count, links), (), True)
        if not found.fault:
            return {"switch": found.switches}
    raise ValueError(f"of {MOST_TRIES} cascades none is admitted")


def admitted(chance: random.Random) -> dict:
    """One of 2 to 5 switches, with cables of any shape."""
    join = chance.choice(list(SHAPES.values()))
    return admitted_cascade(chance, join, chance.randint(2, 5), chance.randint(1, 14))
