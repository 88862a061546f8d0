#!/usr/bin/env python3
"""What is promised of admitted cascades from end to end, tried with whole streams.

    tests/run/cascade_streams.py [PROGRAM]

Cascades of 2 to 5 switches are made at random: chains, stars, trees and rings of cables, of both
profiles, with jitters behind cables of more than a BAG. All systems send at once, or their frames
are late by up to a jitter. Strangers' frames come in at each port, and a side is dead from the
begin, dies at any frame, or links' streams end anywhere. So it is in cascades of 24 switches, and
of what all systems of examples/aircraft.toml send. What is written of such a list, up to its end or
to a fault, and of two recordings of it, is read for what is promised, by
tests/cascades/end_claims.py:

- what a cable brings is accepted, and no copy is lost or too old;
- from each port of a link's way leave just the frames that its first switch accepted, in order, and
  each within the latencies of the way, which is what `check` writes in its E lines;
- a link's frames are judged and passed on alike, whatever else comes;
- each receiver reads each message once and in order.

All but the last is read of any lists too, and of frames that come as early as the first switch
accepts them, of all links at once. Each of the lines B1 to B5 of admission is needed: where it
alone is false something of this isn't so of a list that is spelled out. Where no PROGRAM is given
only what is computed here is tried. Prints `ok NAME` or `FAILED NAME` for each case, then `N
passed, M failed`; ends with status 1 if a case failed. Needs Python 3.11.
"""
from __future__ import annotations

import os
import random
import sys
from collections import Counter
from collections.abc import Callable

sys.dont_write_bytecode = True
TESTS = os.path.join(os.path.dirname(os.path.abspath(__file__)), "..")
sys.path[:0] = [os.path.join(TESTS, name) for name in ("lib", "cascades", "recordings", "fuzzing")]
from admitted_cascades import SHAPES, admitted, admitted_cascade, rows_by_link  # noqa: E402
from aircraft_sent import OfExample, aircraft_arrives, aircraft_is_looked_at  # noqa: E402
from aircraft_sent import aircraft_is_recorded  # noqa: E402
from amiss import AMISS, refused_by  # noqa: E402
from cascade import cascade_text  # noqa: E402
from cascade_check import cascade_false_lines, check_lines  # noqa: E402
from cascade_run import replayed  # noqa: E402
from claimed_runs import Called, Computed, any_list_runs, sound  # noqa: E402
from claimed_runs import streams_arrive, streams_of, taps_arrive  # noqa: E402
from compared_runs import FREE, replay_by  # noqa: E402
from end_claims import Told, accepted_everywhere, from_end_to_end  # noqa: E402
from large_cascades import around_one, in_a_mesh, in_a_ring, in_a_row  # noqa: E402
from lawful_streams import lines_of, messages_in, ways_to_end, with_strangers  # noqa: E402
from needed_lines import NEEDED, Needed, read_once  # noqa: E402
from program import Program, Wrong, answers, main_of_both, must, same_text  # noqa: E402
from tapped_lists import MIRRORS, TAPS  # noqa: E402

Case = Callable[[Computed, random.Random, dict], None]


# ---- lines of admission that are needed ----------------------------------------------------------


def breaks_its_promise(row: Needed, out: bytes) -> None:
    """What was written isn't what is promised of admitted cascades."""
    told = Told(row.cascade, sound(row.cascade, row.given), out)
    try:
        row.promise(told)
    except Wrong:
        return
    raise Wrong("nothing that is promised is broken")


def keeps_all(cascade: dict, given: bytes, out: bytes) -> None:
    """What was written is all that is promised."""
    told = Told(cascade, sound(cascade, given), out)
    for promise in (accepted_everywhere, from_end_to_end, read_once):
        promise(told)


def needed_is_computed(row: Needed) -> None:
    """What is spelled out is what is computed here."""
    found = cascade_false_lines(row.cascade["switch"])
    must(found == [f"no {row.line}"], f"false are {found}")
    must(cascade_false_lines(row.mended["switch"]) == [], "it isn't mended")
    same_text("what is computed", row.out, replayed(row.cascade, row.given).out())
    breaks_its_promise(row, row.out)
    keeps_all(row.mended, row.given, replayed(row.mended, row.given).out())


def needed_is_told(program: Program, row: Needed) -> None:
    """The program says that just this line is false, and refuses to run; without admission it
    writes what is spelled out. Mended all is kept."""
    program = program.apart()
    config = program.write("config", cascade_text(row.cascade))
    for option in ((), ("--all",)):
        wanted = "".join(f"{line}\n" for line in check_lines(row.cascade, True)).encode()
        must(wanted.endswith(b"\nno %s\n" % row.line.encode()), "another line is false")
        answers(program.run("check", *option, config), 1, wanted, b"")
    answers(replay_by(program, row.cascade, row.given, ()), 1, b"",
            f"admit {row.line}\n".encode())
    answers(replay_by(program, row.cascade, row.given, (FREE,)), 0, row.out, b"")
    breaks_its_promise(row, row.out)
    found = replay_by(program, row.mended, row.given, ())
    answers(found, 0, None, b"")
    keeps_all(row.mended, row.given, found.out)


# ---- what the tests themselves are worth ---------------------------------------------------------


def amiss_is_seen(name: str, seed: int) -> None:
    """An output in which something is amiss isn't taken for what is promised."""
    chance, tried = random.Random(f"{name}/{seed}"), 0
    for _ in range(200):
        cascade = admitted(chance)
        streams = streams_of(Computed(), chance, cascade)
        lines = ways_to_end(chance, lines_of(chance, streams))["both"][:60]
        text = with_strangers(chance, cascade["switch"], lines)
        arrivals, out = sound(cascade, text), replayed(cascade, text).out()
        sent = messages_in(streams, lines)
        must(refused_by(cascade, arrivals, out, sent) is None, "an output is refused")
        other = AMISS[name](chance, Told(cascade, arrivals, out), out.decode().splitlines())
        if other is not None:
            bad = "".join(f"{line}\n" for line in other).encode()
            must(refused_by(cascade, arrivals, bad, sent), f"an output is taken with {name}")
            tried += 1
        if tried == 5:
            return
    raise Wrong(f"only {tried} outputs have {name}")


def shapes_are_shown(seed: int, count: int) -> None:
    """The generated cascades have all shapes, profiles, lengths of ways, and wide jitters; of the
    streams frames are dropped as copies, and strangers' at wrong ports."""
    chance, words = random.Random(seed), Counter[str]()
    for _ in range(count):
        for name, join in SHAPES.items():
            cascade = admitted_cascade(chance, join, chance.randint(2, 5), chance.randint(1, 14))
            words.update([name, *(f"profile {sw['profile']}" for sw in cascade["switch"])])
            words.update(of_links(cascade))
        streams = streams_of(Computed(), chance, cascade)
        for name, lines in ways_to_end(chance, lines_of(chance, streams)).items():
            text = with_strangers(chance, cascade["switch"], lines[:40])
            found = replayed(cascade, text).lines
            words.update(line.split(" ")[-1] for line in found if line[0] in "VX")
    wanted = [*SHAPES, "profile 1", "profile 2", "wide", "accept", "redundant", "wrong-port"]
    wanted += [f"over {count}" for count in range(1, 6)] + ["no-port"]
    must(all(words[word] for word in wanted), f"absent: {[w for w in wanted if not words[w]]}")


def of_links(cascade: dict) -> list[str]:
    """Over how many switches links go, and whether a jitter is wide."""
    words, network = [], Told(cascade, [], b"").network
    for vl, rows in rows_by_link(cascade["switch"]).items():
        words += ["wide" for link, _ in rows if link["jitter_us"] > 1000 * link["bag_ms"]]
        words.append(f"over {len(network.hops[vl])}")
    return words


# ---- all -----------------------------------------------------------------------------------------


def so_many(runs: Computed, case: Case, seed: int, count: int) -> None:
    """The case with so many admitted cascades."""
    chance = random.Random(f"{case.__name__}/{seed}")
    for _ in range(count):
        case(runs, chance, admitted(chance))


def called(program: Program, case: Case, seed: int, count: int) -> None:
    """The same with the program."""
    so_many(Called(program), case, seed, count)


def large(program: Program, make: Callable[[], dict]) -> None:
    """Streams and any lists over a large cascade."""
    runs, chance, cascade = Called(program), random.Random(0), make()
    streams_arrive(runs, chance, cascade)
    any_list_runs(runs, chance, cascade)


def computed_cases() -> list[tuple]:
    """What is tried without the program."""
    return [
        *((f"computed: needed: {row.name}", needed_is_computed, row) for row in NEEDED),
        *((f"seen: {name}", amiss_is_seen, name, 1) for name in AMISS),
        ("the generated cascades show everything", shapes_are_shown, 1, 20),
        ("computed: streams over 4 cascades", so_many, Computed(), streams_arrive, 1, 4),
        ("computed: any lists over 6 cascades", so_many, Computed(), any_list_runs, 1, 6),
        ("computed: streams over 2 cascades, recorded", so_many, Computed(), taps_arrive, 1, 2),
        ("computed: what the aircraft's systems send", aircraft_arrives, Computed(), 0),
        ("computed: the same, recorded", aircraft_is_recorded, Computed(), 0, MIRRORS),
        ("seen: a stranger in the aircraft, or an absent message", aircraft_is_looked_at, 0),
    ]


def program_cases(program: Program) -> list[tuple]:
    """What is tried with the program."""
    cases: list[tuple] = [(f"needed: {row.name}", needed_is_told, program, row) for row in NEEDED]
    cases += [
        ("23 switches around one", large, program, lambda: around_one(23)),
        ("24 switches in a ring", large, program, lambda: in_a_ring(24)),
        ("24 switches each to each", large, program, lambda: in_a_mesh(24, False)),
        ("24 switches in a row", large, program, lambda: in_a_row(24)),
    ]
    for seed in range(2):
        name = f"what the aircraft's systems send, {seed}"
        cases.append((name, aircraft_arrives, OfExample(program), seed))
    for grain in (TAPS, MIRRORS):
        name = f"what the aircraft's systems send, recorded at {grain}"
        cases.append((name, aircraft_is_recorded, OfExample(program), 0, grain))
    for seed in range(4):
        cases += [
            (f"streams over 12 cascades, {seed}", called, program, streams_arrive, seed, 12),
            (f"any lists over 15 cascades, {seed}", called, program, any_list_runs, seed, 15),
            (f"streams over 5 cascades, recorded, {seed}", called, program, taps_arrive, seed, 5),
        ]
    return cases


if __name__ == "__main__":
    main_of_both(__doc__, computed_cases, program_cases)
