"""What must hold of a judge of a switch and of its systems in one run, on lists and recordings made
at random; and of its systems alone, on recordings."""
from __future__ import annotations

import random

from conform_claims import WAYS, Judge
from conform_terms import SENDERS
from program import Wrong, answers, must
from recorded_cases import all_keys, seen_in
from recorded_forms import Key
from recorded_judge import RecordingJudge, of_links
from sender_claims import ALONE, BASE, OUTPUT, WIRE, changed, words_of
from sender_made import right
from senders import conform_senders
from small_cases import Pair, small_pair

LATENCY = 17_000  # of link 1, in ns
DELAYS = 8 * [WIRE] + [LATENCY, LATENCY + 1, WIRE - 961, 0, 3 * LATENCY]
FREE = (False, 0, 24)  # a place where frames come in, and no system stands: time 0 is said there
APARTS = ("0", "500", "100000000", "100000001")  # the last one is too great
WORDS = {"unlawful", "number", "soon", "differs", "apart", "single", "stopped", "late", "early",
         "strange", "conforms", "deviates", "undecided"}  # fmt: skip


def left_by(chance: random.Random, came: bytes) -> bytes:
    """What leaves a switch that passes nearly all of it to one port, mostly in time."""
    left = []
    for kind, time, side, _, digits in map(bytes.split, came.splitlines()):
        for _ in range(chance.choice(20 * [1] + [0, 2])):
            moment = int(time) + chance.choice(DELAYS)
            port = chance.choice(12 * [OUTPUT] + [1, 2])
            left.append((moment, b"%s %d %s %d %s\n" % (kind, moment, side, port, digits)))
    return b"".join(line for _, line in sorted(left, key=lambda each: each[0]))


def of_systems(chance: random.Random) -> Pair:
    """What systems sent, rightly or not quite, and a switch did with it, rightly or not quite."""
    made = right(chance)
    came = changed(chance, made)
    words = words_of(made.options)
    words += ("--leave-out", chance.choice(["2", "other"])) if chance.random() < 0.1 else ()
    words += ("--exercised",) if chance.random() < 0.1 else ()
    return Pair(BASE, came, left_by(chance, came), words)


def of_switch(chance: random.Random, faulty: float = 0.15) -> Pair:
    """A small case of a switch; what came is mostly sent by no right system."""
    pair = small_pair(chance, faulty=faulty)
    apart = ("--apart", chance.choice(APARTS)) if chance.random() < 0.3 else ()
    return pair._replace(words=(SENDERS, *apart, *pair.words))


def beside_alike(judge: Judge, seed: int, count: int) -> None:
    """It answers what is computed here, with any of the options that change nothing."""
    found: set[str] = set()
    for case in range(count):
        chance = random.Random(f"{seed} {case} beside")
        pair = of_systems(chance) if case % 2 else of_switch(chance)
        wanted, (more, standard) = conform_senders(*pair), WAYS[case % len(WAYS)]
        found |= {line.split()[0] for line in wanted.out.decode().splitlines()}
        try:
            answers(judge.answer(pair, *more, standard=standard), wanted.status, wanted.out,
                    wanted.err)
        except Wrong as wrong:
            raise Wrong(f"case {case} of seed {seed}, {(*more, *pair.words)}: {wrong}") from None
    must(count < 100 or found >= WORDS, f"only {found}")


def beside_recorded(judge: Judge, seed: int, count: int) -> None:
    """What is recorded of all ports is judged as the lists that say the same."""
    for case in range(count):
        chance = random.Random(f"{seed} {case} beside, recorded")
        pair = of_links(of_systems(chance) if case % 4 else of_switch(chance, 0))
        wanted = conform_senders(*pair)
        if wanted.err:
            continue  # of words
        places = [FREE, *(key for key in all_keys(pair, seen_in(pair)) if key != FREE)]
        asked = RecordingJudge(judge, case % 2 == 0, places, is_absent=True)
        try:
            answers(asked.answer(pair), wanted.status, wanted.out, b"")
        except Wrong as wrong:
            raise Wrong(f"case {case} of seed {seed}, {pair.words}: {wrong}") from None


def alone_recorded(judge: Judge, seed: int, count: int) -> None:
    """What is recorded of some input ports is judged as the list, of which these were seen."""
    for case in range(count):
        chance = random.Random(f"{seed} {case} alone, recorded")
        made = right(chance)
        pair = of_links(Pair(BASE, changed(chance, made), b"", words_of(made.options)))
        keys = [key for key in all_keys(pair, seen_in(pair)) if not key[0] and key != FREE]
        missing = chance.choice([FREE, FREE, (False, 1, 1), chance.choice(keys)])
        places = [FREE, *(key for key in keys if key != missing)]

        def seen(side: int, port: int, at: tuple[Key, ...] = tuple(places)) -> bool:
            return (False, side, port) in at

        wanted = conform_senders(BASE, pair.came, None, pair.words, seen)
        found = RecordingJudge(judge, True, places, is_absent=True).answer(pair)
        try:
            answers(found, wanted.status, wanted.out, b"")
        except Wrong as wrong:
            raise Wrong(f"case {case} of seed {seed}, {pair.words}: {wrong}") from None


def beside_random_cases(judge: Judge, who: str, seeds: range, count: int) -> list[tuple]:
    """What a program must answer of both, if it judges both."""
    if judge.program is None or judge.program.knows("conform", ALONE):
        return []
    tried = {"made at random": beside_alike, "recorded": beside_recorded}
    tried = {f"beside its systems: {name}": call for name, call in tried.items()}
    tried["its systems alone, recorded"] = alone_recorded
    return [(f"{who}, {name}, {seed}", call, judge, seed, count)
            for name, call in tried.items() for seed in seeds]
