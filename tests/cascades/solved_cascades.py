"""Cascades whose keys are to be solved, what `solve` makes of them, what `check` says of that."""
from __future__ import annotations

import copy
import random
from collections.abc import Collection, Iterator

from cascade import cascade_text
from cascade_least import solve_cascade_answer
from cascade_rows import Changes, NO_LINK_1, NO_LINK_1_AFT, TWO, changed
from first_fault import LATE_US, RANGES
from judged import check_solution, solve
from large_cascades import cable, switch_with
from least import SOLVED
from networks import unsolvable, with_any_keys
from program import Program, answers, must
import tables as made

# the lines that a key's value less by one makes false, and where in them the link stands
LINES_OF = {
    SOLVED["jitter"]: {"A6": 3, "B3": 3},
    SOLVED["latency"]: {"A3": 4, "A4": 4},
    SOLVED["skew"]: {"A7": 3, "B4": 3},
}
PICKED = 12  # rows whose values are made less one at a time

Place = tuple[str, int]  # a switch and a link


# ---- keys ----------------------------------------------------------------------------------------


def links_of(cascade: dict) -> Iterator[tuple[dict, dict]]:
    """All rows of links, each with its switch."""
    return ((switch, link) for switch in cascade["switch"] for link in switch["link"])


def without_none(cascade: dict) -> dict:
    """The cascade without the keys that are None."""
    switches = []
    for switch in cascade["switch"]:
        links = [
            {key: value for key, value in link.items() if value is not None}
            for link in switch["link"]
        ]
        rows = {key: value for key, value in switch.items() if value is not None}
        switches.append(rows | {"link": links})
    return {"switch": switches}


def with_keys(cascade: dict, value: int | None) -> bytes:
    """The text of the cascade with that value for each of the four keys, or without these."""
    cascade = copy.deepcopy(cascade)
    for switch in cascade["switch"]:
        for row in (switch, *switch["link"]):
            row |= {key: value for key in SOLVED.values() if key in row}
    return cascade_text(without_none(cascade))


def with_any(chance: random.Random, cascade: dict) -> bytes:
    """The text of the cascade with some of the four keys absent, or with any number in their
    place."""
    switches = [with_any_keys(chance, switch) for switch in cascade["switch"]]
    return cascade_text(without_none({"switch": switches}))


def values_of(cascade: dict) -> dict[tuple[str, int, str], int]:
    """The values of the four keys, by switch, link and key; a buffer stands at link -1."""
    values = {
        (switch["name"], link["vl"], key): link[key]
        for switch, link in links_of(cascade)
        for key in LINES_OF
    }
    buffers = {(switch["name"], -1, "buffer"): switch["buffer"] for switch in cascade["switch"]}
    return values | buffers


def must_be_below(found: dict, others: dict, why: str) -> None:
    """No value is greater than that of the other cascade, which has the same links."""
    values, limits = values_of(found), values_of(others)
    must(values.keys() == limits.keys(), "it has other links")
    above = [key for key, value in values.items() if value > limits[key]]
    must(not above, f"{why}: {above[:3]} are above")


# ---- what the program makes of them --------------------------------------------------------------


def check_solve(
    program: Program, text: bytes, keep: Collection[str] = (), raise_only: bool = False,
    apart: int = 0,
) -> bytes | None:
    """`solve` answers what is computed here; the configuration that it writes, if it does, which
    `check` admits, and which is the same when it is solved again."""
    wanted = solve_cascade_answer(text, keep, raise_only, apart)
    answers(solve(program, text, keep, raise_only, apart), wanted.status, wanted.out, wanted.err)
    if wanted.status != 0:
        return None
    check_solution(program, wanted.out, keep, raise_only, apart)
    return wanted.out


# ---- less by one ---------------------------------------------------------------------------------


def false_of(program: Program, cascade: dict) -> list[list[str]]:
    """The words of each line that `check --all` says to be false."""
    found = program.run("check", "--all", "/dev/stdin", given=cascade_text(cascade))
    answers(found, 1, None, b"")
    lines = found.out.decode().splitlines()
    return [line.split() for line in lines if line.startswith("no ")]


def rows_named(lines: list[list[str]], key: str) -> set[Place]:
    """The rows that the key's lines name; Wrong where another line is false."""
    others = [line for line in lines if line[1] not in LINES_OF[key]]
    must(not others, f"{key} less by one makes {others[:1]} false")
    return {(line[2], int(line[LINES_OF[key][line[1]]])) for line in lines}


def with_less(cascade: dict, key: str, places: set[Place]) -> dict:
    """The cascade where the rows at these places have values less by one."""
    cascade = copy.deepcopy(cascade)
    for switch, link in links_of(cascade):
        if (switch["name"], link["vl"]) in places:
            link[key] -= 1
    return cascade


def check_each_less(
    program: Program, cascade: dict, key: str, chance: random.Random
) -> None:
    """Each row's value is needed: one less by one makes that row's own line false, and no other."""
    least = RANGES["link", key][0]
    places = [(sw["name"], link["vl"]) for sw, link in links_of(cascade) if link[key] > least]
    groups = [{place} for place in chance.sample(places, min(PICKED, len(places)))]
    if places and key != SOLVED["jitter"]:  # jitters less by one need less behind their cables
        groups.append(set(places))
    for group in groups:
        named = rows_named(false_of(program, with_less(cascade, key, group)), key)
        must(named == group, f"{key} of {group} less by one makes lines of {named} false")


def check_all_less(program: Program, cascade: dict) -> None:
    """The same of all keys: jitters, latencies and skews, and the buffers."""
    chance = random.Random(str(values_of(cascade)))
    for key in LINES_OF:
        check_each_less(program, cascade, key, chance)
    for place, switch in enumerate(cascade["switch"]):
        if switch["buffer"] > RANGES["top", "buffer"][0]:
            lower = copy.deepcopy(cascade)
            lower["switch"][place]["buffer"] -= 1
            found = {(line[1], line[2]) for line in false_of(program, lower)}
            must(found == {("A2", switch["name"])}, f"a buffer less by one makes {found} false")


# ---- cables in a ring ----------------------------------------------------------------------------


def busy_ring(count: int, links: int, bag_ms: int) -> dict:
    """So many switches in a ring of cables of 100 Mbit/s, from each of which so many links go round
    one way to the last: each cable's port waits for the one before it, and so for itself."""
    switches = []
    for k in range(count):
        rows = []
        for n in range(count):
            far = (k - n) % count  # how far the links of w`n` have come
            sender = f"w{(k - 1) % count}" if far else f"s{k + 1}"
            to = [f"w{(k + 1) % count}"] if far + 1 < count else [f"s{k + 1}"]
            rows += [
                made.link_of(
                    n * links + each, sender, to, bag=bag_ms, lmax=64 + 37 * each, jitter=0,
                    priority=["high", "low"][each % 2], latency=1, skew=1,
                )
                for each in range(links)
            ]  # fmt: skip
        cables = [cable((k - 1) % count, 23), cable((k + 1) % count, 24)]
        system = made.system_of(k + 1) | {"port": 1}
        switches.append(switch_with(f"w{k}", [system], cables, rows) | {"buffer": 64})
    return {"switch": switches}


# ---- no values are enough ------------------------------------------------------------------------

LONG_WAY: Changes = {"fwd link 1 latency": 60_000, "aft link 1 latency": 60_000}
SLOW_END: Changes = {"fwd link 1 lmax": 1518, "aft link 1 lmax": 1518}
SLOW_END |= {"aft system 2 rate": 10}


class Vain:
    """A cascade for which no values are enough: the options of `solve`, and the line."""

    def __init__(
        self, name: str, cascade: dict, line: str, keep: tuple[str, ...] = (), raised: bool = False
    ) -> None:
        self.name, self.cascade, self.line = name, cascade, line
        self.keep, self.raised = keep, raised


def in_vain() -> list[Vain]:
    """The two switches with changes; and a switch for which its own values are never enough."""
    cases: list[tuple[str, Changes, str, tuple[str, ...], bool]] = [
        ("a link from nowhere", NO_LINK_1, "no B1 aft 1", (), False),
        ("another contract behind a cable", {"aft link 1 policing": "byte"}, "no B2 aft 1", (),
         False),
        ("a link that isn't read", NO_LINK_1_AFT, "no B5 fwd 1 aft", (), False),
        ("an overloaded port", SLOW_END, "no A1 aft 3", (), False),
        ("a way that is too long", LONG_WAY, "no B4 aft 1 120000", (), True),
        ("a kept jitter of a system's link", {"fwd link 1 jitter": 46}, "no A6 fwd 1 46720",
         ("jitter",), False),
        ("a kept jitter behind a cable", {"aft link 1 jitter": 507}, "no B3 aft 1 511",
         ("jitter",), False),
        ("a kept latency", {"aft link 1 latency": 13}, "no A3 aft 3 1 13871", ("latency",),
         False),
        ("a kept skew", {"fwd link 1 skew": 7}, "no A7 fwd 1", ("skew",), False),
        ("a kept skew of a way", {"aft link 1 skew": 21}, "no B4 aft 1 22", ("skew",), False),
        ("a kept buffer", {"aft buffer": 176}, "no A2 aft 3 177", ("buffer",), False),
    ]
    found = [Vain(name, changed(TWO, changes), line, keep, raised)
             for name, changes, line, keep, raised in cases]
    for name, tables, line in unsolvable():
        no, condition, rest = line.split(" ", 2)
        own = {"name": "only", **tables, "neighbour": []}
        found.append(Vain(name, {"switch": [own]}, f"{no} {condition} only {rest}"))
    return found


# ---- faults --------------------------------------------------------------------------------------


def faulty() -> list[tuple[str, Changes, tuple[str, ...]]]:
    """The two switches with a fault, which `solve` reports where it keeps these keys."""
    beyond = 1000 + LATE_US + 1
    return [
        ("a kept buffer that is absent", {"aft buffer": None}, ("buffer",)),
        ("a kept jitter that is absent", {"aft link 1 jitter": None}, ("jitter", "skew")),
        ("a kept jitter over a BAG", {"aft link 2 jitter": 1001}, ("jitter",)),
        ("a kept jitter behind a cable", {"aft link 1 jitter": beyond}, ("jitter",)),
        ("a kept latency", {"fwd link 2 latency": 0}, ("latency",)),
        ("a kept skew", {"fwd link 2 skew": 100_001}, ("skew",)),
        ("a buffer below 0", {"fwd buffer": -1}, ()),
        ("a latency that is a text", {"aft link 2 latency": "1"}, ()),
        ("no name", {"aft name": None}, ()),
        ("another rate", {"aft neighbour 1 rate": 10}, ()),
        ("a system of another switch", {"aft link 1 from": "s1"}, ()),
        ("no links", {"fwd link": 5}, ()),
    ]
