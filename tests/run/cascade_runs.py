#!/usr/bin/env python3
"""Replays lists over several switches a side, and compares with what is computed here.

    tests/run/cascade_runs.py [PROGRAM]

tests/lib/cascade_run.py says what `replay` and `send` must write of several switches, apart from
the program; it must say what tests/cascades/cascade_run_rows.py spells out, and of one switch what
stands in examples/. So must the program, of these and of generated lists over cascades of 1 to 5
switches, admitted or not, with faults or without; of 24 switches in a row, in a ring, around one
and each joined to each; of frames of each length; of lines that are overloaded to the end of the
clock. What systems send
must be delivered once and in order. What the program writes of each switch must be what it writes
of a file of that switch alone, on what came to it; a cascade of one switch is answered as such a
file, its places apart. Where no PROGRAM is given only what is computed here is tried. Prints `ok
NAME` or `FAILED NAME` for each case, then `N passed, M failed`; ends with status 1 if a case
failed. Needs Python 3.11.
"""
from __future__ import annotations

import os
import random
import re
import sys
from collections import Counter
from collections.abc import Callable

sys.dont_write_bytecode = True
TESTS = os.path.join(os.path.dirname(os.path.abspath(__file__)), "..")
sys.path[:0] = [os.path.join(TESTS, name) for name in ("lib", "cascades", "fuzzing")]
import closed_lists  # noqa: E402
import tables as made  # noqa: E402
from cascade import loaded  # noqa: E402
from cascade_run import Ran, refused, replayed, replayed_one, sent_text  # noqa: E402
from cascade_run_rows import REPLAYS, SENDS, RunRow, spelled  # noqa: E402
from compared_runs import ALL, DROPS, FREE, SUMMARY, replay_by, run_alike  # noqa: E402
from frames import frame_of, number_of  # noqa: E402
from large_cascades import around_one, in_a_mesh, in_a_ring, in_a_row  # noqa: E402
from large_cascades import overload, overloaded  # noqa: E402
from made_cascades import three_of  # noqa: E402
from made_lists import faulty_list, made_list  # noqa: E402
from one_as_file import ones_alike, one_as_its_file  # noqa: E402
from program import Answer, Program, answers, main_of_both, must  # noqa: E402
from run_claims import each_switch_alone, with_short_jitters  # noqa: E402
from sent_over import all_sent, message_of  # noqa: E402

EARLY_BEGINS = (0, 5)  # times of a list whose events all come before the latest time
EXAMPLES = (("network.toml", "bench"), ("gigabit.toml", "gigabit"))
NOT_TOLD = ("too-short", "too-long", "bad-fcs", "bad-address", "not-subscribed")  # of X lines


# ---- what is computed here -----------------------------------------------------------------------


def computed_answer(row: RunRow) -> Answer:
    """What is computed here of a row; a send is one message."""
    cascade = loaded(row.text)
    fault = None if FREE in row.words else refused(cascade["switch"])
    if fault is not None:
        return fault
    if row.words[0] == "replay":
        return replayed(cascade, row.given).answer(row.words)
    return Answer(0, sent_text(cascade, row.behind[0], [message_of(row.given)]), b"")


def row_is_computed(row: RunRow) -> None:
    """What is spelled out is what is computed here."""
    found = computed_answer(row)
    answers(found, row.status, row.out, row.err)


def example_is_computed(tables: str, name: str) -> None:
    """So is the stored output of an example of one switch."""
    every: dict = {"system": [], "link": [], "port": []}
    ran = replayed_one(every | made.example_tables(tables), made.example(f"{name}.list"))
    answers(ran.answer(), 0, made.example(f"{name}.out"), b"")


def over_two_is_computed() -> None:
    """So is the stored output of the example of two switches; and with smaller buffers and a limit
    on waiting come the lines that its remarks name."""
    text, given = made.example("two_switches.toml"), made.example("two_switches.list")
    answers(replayed(loaded(text), given).answer(), 0, made.example("two_switches.out"), b"")
    for old, new in (("profile = 1", "profile = 2"), ("buffer = 254", "buffer = 64"),
                     ("latency_us = 21", "latency_us = 6")):
        text = text.replace(f"\n{old}".encode(), f"\n{new}".encode())
    small = [line for line in replayed(loaded(text), given).lines if line[0] in "LT"]
    named = re.findall(r"small\.toml: (.*)\.\)", given.decode())
    must(small == named and len(named) == 2, f"the lines are {small}")


def alone_computed(seed: int, count: int) -> None:
    """What is computed of so many cascades is what is computed of each switch alone."""
    replay_all(seed, count, lambda cascade, text: replayed(cascade, text).out(),
               lambda tables, text: replayed_one(tables, text).out())


def replay_all(
    seed: int,
    count: int,
    replay: Callable[[dict, bytes], bytes],
    replay_one: Callable[[dict, bytes], bytes],
) -> None:
    """Replays lists over so many cascades, and over each of their switches alone."""
    chance = random.Random(seed)
    for _ in range(count):
        for one in map(with_short_jitters, three_of(chance, chance.random() < 0.7)):
            text = made_list(chance, one, chance.choice([5, 30, 100]), EARLY_BEGINS)
            each_switch_alone(one, text, replay(one, text), replay_one)


def words_of(ran: Ran) -> Counter:
    """How often each kind of line stands in an output, with its word; V lines of frames that have
    one already are those of cables."""
    words: Counter[str] = Counter({"early": len(ran.early)})
    seen: set[str] = set()
    for line in ran.lines:
        kind, *rest = line.split(" ")
        if kind == "V":
            words[" ".join(["V", *rest[3:]])] += 1
            words[" ".join(["cable", *rest[3:]])] += rest[0] in seen
            seen.add(rest[0])
        else:
            words[f"X {rest[-1]}" if kind == "X" else kind] += 1
    return words


def everything_is_shown(seed: int, count: int) -> None:
    """The generated lists have lines of each kind and word, and cables bring what is dropped; no
    cascade that is admitted has a line L or T, or drops what a cable brings."""
    chance = random.Random(seed)
    words: Counter[str] = Counter()
    for _ in range(count):
        for one in three_of(chance, chance.random() < 0.5):
            ran = replayed(one, made_list(chance, one, 100))
            found = words_of(ran)
            words += found
            if refused(one["switch"]) is None:
                words["admitted"] += 1
                bad = [word for word in found if word in "LT" or word.startswith("cable drop")]
                must(not any(found[word] for word in bad), f"an admitted cascade has {bad}")
    kinds = ["L", "D", "T", "M", "early", "admitted", "V accept", "cable accept"]
    kinds += [f"V drop {word}" for word in closed_lists.REASONS]
    kinds += [f"X {word}" for word in closed_lists.NOT_RECEIVED if word not in NOT_TOLD]
    kinds += [f"cable drop {word}" for word in ("over-rate", "wrong-port", "unknown-link")]
    must(all(words[kind] for kind in kinds), f"absent: {[k for k in kinds if not words[k]]}")


# ---- what the program says -----------------------------------------------------------------------


def row_is_told(program: Program, row: RunRow) -> None:
    """The program answers what is spelled out."""
    program = program.apart()
    config = program.write("config", row.text)
    found = program.run(*row.words, config, *row.behind, "-", given=row.given)
    answers(found, row.status, row.out, row.err)


def all_alike(program: Program, seed: int, count: int) -> None:
    """So many cascades, each with lists of any length; and with lists that mostly have a fault."""
    chance, program = random.Random(seed), program.apart()
    for _ in range(count):
        for one in three_of(chance, chance.random() < 0.6):
            text = made_list(chance, one, chance.choice([5, 30, 100, 100]))
            run_alike(program, one, text)
            for _ in range(3):
                run_alike(program, one, faulty_list(chance, one, text), [ALL])


def all_beginnings(program: Program, text: bytes, given: bytes) -> None:
    """Every beginning of a list."""
    cascade, program = loaded(text), program.apart()
    for count in range(len(given) + 1):
        run_alike(program, cascade, given[:count], [(DROPS, SUMMARY)])


def alone_told(program: Program, seed: int, count: int) -> None:
    """What the program writes of each switch is what it writes of that switch alone."""
    program = program.apart()

    def replay(cascade: dict, text: bytes) -> bytes:
        found = replay_by(program, cascade, text)
        answers(found, 0, None, b"")
        return found.out

    def replay_one(tables: dict, text: bytes) -> bytes:
        config = program.write("alone", made.text_of(tables))
        found = program.run("replay", FREE, config, "-", given=text)
        answers(found, 0, None, b"")
        return found.out

    replay_all(seed, count, replay, replay_one)


def other_kind_of_list(program: Program, text: bytes) -> None:
    """A list of one switch is none of a cascade, and the other way round: the first line that isn't
    skipped is the fault."""
    base = program.write("base", made.example("base.toml"))
    config = program.write("config", text)
    one, several = spelled("F 0 A 1 H1 / F 0 B 1 H1"), spelled("F 0 A fwd 1 H1 / F 0 B fwd 1 H1")
    for skipped in (b"", b"# a remark\n\n\r\n", b"\n" * 999_998):
        line = b"list BadLine %d\n" % (skipped.count(b"\n") + 1)
        for path, given in ((config, one), (base, several)):
            for options in ((), ALL):
                found = program.run("replay", *options, path, "-", given=skipped + given)
                answers(found, 3, b"", line)


def alone_in_cascade(program: Program, name: str, listed: str) -> None:
    """The examples of one switch, as cascades."""
    every: dict = {"system": [], "link": [], "port": []}
    one_as_its_file(program.apart(), every | made.example_tables(name), made.example(listed))


# ---- large ones ----------------------------------------------------------------------------------


def large_alike(program: Program, make: Callable[[], dict], is_admitted: bool) -> None:
    """A large cascade, which is admitted or not, with a list of frames of its links."""
    cascade, program = make(), program.apart()
    must((refused(cascade["switch"]) is None) == is_admitted, "admission is not as it should be")
    chance = random.Random(len(cascade["switch"]))
    for count in (3, 40):
        run_alike(program, cascade, made_list(chance, cascade, count))


def each_length(program: Program, count: int) -> None:
    """A frame of each length, 64 to 1,518 bytes, over so many switches, on both sides: none wants
    memory, and each leaves each switch."""
    cascade, program = in_a_row(count, lmax=1518), program.apart()
    first = cascade["switch"][0]
    system, link = first["system"][0], first["link"][0]
    lines = []
    for place, length in enumerate(range(64, 1519)):
        time, payload = place * link["bag_ms"] * 1_000_000, bytes([place % 251]) * (length - 47)
        for side in "AB":
            frame = frame_of(system, link["vl"], 1000, payload, number_of(place), side)
            must(len(frame) == length, f"the frame has {len(frame)} bytes")
            lines.append(f"F {time} {side} w0 {system['port']} {frame[:-4].hex()}\n")
    ran = run_alike(program, cascade, "".join(lines).encode())
    left = Counter(line.split(" ")[4] for line in ran.lines if line.startswith("D "))
    must(all(left[f"w{k}"] == len(lines) for k in range(count)), f"so many left: {left}")


def to_the_end_of_the_clock(program: Program, count: int, links: int) -> None:
    """Full buffers at the latest time of a list, in so many switches: a cable's last frames leave
    when the clock has ended, and arrive nowhere."""
    cascade, program = overloaded(count, links), program.apart()
    text = overload(cascade, links)
    wanted = replayed(cascade, text)
    last = [line.split(" ") for line in wanted.lines if line.startswith("D ")][-2:]
    must(all(int(words[2]) > 1_000_036_000_000_000 for words in last), f"the last are {last}")
    options = ALL
    found = replay_by(program, cascade, text, options)
    answers(found, *wanted.answer(options))
    accepted = {line.split(" ")[1] for line in wanted.lines
                if line.startswith("V ") and f" w{count - 1} accept" in line}
    left = [line.split(" ")[1] for line in wanted.lines
            if line.startswith("D ") and f" w{count - 2} " in line]
    must(any(number not in accepted for number in left), "all frames arrive")


# ---- all -----------------------------------------------------------------------------------------


def computed_cases() -> list[tuple]:
    """What is tried without the program."""
    rows = [row for row in (*REPLAYS, *SENDS) if not row.err.startswith(b"words")]
    return [
        *((f"computed: {row.name}", row_is_computed, row) for row in rows),
        *((f"computed: {each[1]}.out", example_is_computed, *each) for each in EXAMPLES),
        *((f"computed: each switch alone, {seed}", alone_computed, seed, 20) for seed in range(2)),
        ("computed: two_switches.out", over_two_is_computed),
        ("the generated lists show everything", everything_is_shown, 1, 40),
    ]


def program_cases(program: Program) -> list[tuple]:
    """What is tried with the program."""
    two, lines = REPLAYS[0].text, "F 0 A fwd 1 H1 / F 6720 A aft 2 H2\r / R 7000 B aft 24 -"
    cases: list[tuple] = [
        ("to the end of the clock", to_the_end_of_the_clock, program, 11, 12),
        *((row.name, row_is_told, program, row) for row in (*REPLAYS, *SENDS)),
        ("beginnings of a list", all_beginnings, program, two, spelled(f"# a / {lines}")),
        ("a list of the other kind", other_kind_of_list, program.apart(), two),
        ("each length over three switches", each_length, program, 3),
        ("24 switches in a row", large_alike, program, lambda: in_a_row(24), True),
        ("23 switches around one", large_alike, program, lambda: around_one(23), True),
        ("24 switches in a ring", large_alike, program, lambda: in_a_ring(24), True),
        ("24 switches each to each", large_alike, program, lambda: in_a_mesh(24, False), True),
        ("24 switches each to each, flooded", large_alike, program,
         lambda: in_a_mesh(24, True), False),
    ]
    for seed in range(4):
        cases.append((f"60 generated cascades, {seed}", all_alike, program, seed, 20))
        cases.append((f"what the systems of 8 cascades send, {seed}", all_sent, program, seed, 8))
        cases.append((f"each switch of 30 cascades alone, {seed}", alone_told, program, seed, 10))
        cases.append((f"30 networks of one switch, {seed}", ones_alike, program, seed, 30))
    return cases + [
        (f"one switch: {name}", alone_in_cascade, program, tables, f"{name}.list")
        for tables, name in EXAMPLES
    ]


if __name__ == "__main__":
    main_of_both(__doc__, computed_cases, program_cases)
