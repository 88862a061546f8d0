"""Runs of the program on recordings whose frames stand out of order, beside those that are spelled
out or made at random: how far apart they may stand, runs that must be the same, rates of lines."""
from __future__ import annotations

import random
from collections.abc import Iterator
from itertools import permutations

from made_recordings import PCAP_NS, made_data, recorded_at
from program import Program, answers, must, same_text
from reading import both
from recording_rows import H1, H2
from tables import long_tables, text_of
from wanted import POLICE, Case, Command, of_one_switch, path_of, random_options, renumbered

FRAMES = bytes.fromhex(H1), bytes.fromhex(H2)
REPLAY, LISTED = ["replay", "base.toml"], ["list", "base.toml"]
COMMANDS = [REPLAY, POLICE, LISTED]
GROUPS, EACH = 4, 10  # recordings made at random
MOST = 100_000  # arrivals that may be held
CARDS, BLOCK = 9_600, 1_000  # frames of two cards, and how many of one stand together


def recording_of(times: list[int]) -> bytes:
    """A pcap of frames at these times, in ns; which link's a frame is says its time."""
    return PCAP_NS + b"".join(recorded_at(time, FRAMES[time // 7 % 2]) for time in times)


def verdicts(text: bytes) -> list[int]:
    """The numbers of the frames that are judged, in their order."""
    lines = [line.split(b" ") for line in text.splitlines()]
    return [int(words[1]) for words in lines if words[0] == b"V"]


# ---- how far apart ---------------------------------------------------------------------------


def late_frame(program: Program, behind: int, words: list[str], is_sorted: bool) -> None:
    """A frame that stands after so many later ones: it comes first, or is a fault after them."""
    data = recording_of([*range(1, behind + 1), 0])
    path, last = path_of(program, data), behind + 1
    fault = b"" if is_sorted else b"recording TimeBack %d\n" % last
    wanted = [last, *range(1, last)] if is_sorted else [*range(1, last)]
    for command in (REPLAY, POLICE):
        found = program.run(*command, *words, path)
        answers(found, 3 if fault else 0, None, fault)
        must(verdicts(found.out) == wanted, f"{command[0]} takes them in another order")
    found = program.run(*LISTED, *words, path)
    answers(found, 3 if fault else 0, None, fault)
    times = [int(line.split(b" ")[1]) for line in found.out.splitlines()]
    must(times == [*range(len(wanted))], f"the times are {times[:5]} ..")


def late_frames() -> Iterator[tuple[int, list[str], bool]]:
    """How many are later, the words, and whether the frame is put in order."""
    for behind in (10_000, 10_001):
        yield behind, [], behind == 10_000
        yield behind, ["--reorder=10000", "--line-buffered"], behind == 10_000
    yield 1, ["--line-buffered"], False
    yield 1, ["--reorder=0"], False
    yield 2, ["--reorder=1"], False
    yield 2, ["--line-buffered", "--reorder=2"], True
    yield MOST, [f"--reorder={MOST}"], True
    yield MOST + 1, [f"--reorder={MOST}"], False


def two_cards(program: Program) -> None:
    """Blocks of frames of two cards by turns, each card's in order: the verdicts are those of the
    frames in order, which is that of their times."""
    blocks = [range(0, CARDS, 2), range(1, CARDS, 2)]
    times = [
        1000 * time
        for begin in range(0, CARDS // 2, BLOCK)
        for card in blocks
        for time in card[begin : begin + BLOCK]
    ]
    path, order = path_of(program, recording_of(times)), sorted(range(CARDS), key=times.__getitem__)
    for command in (REPLAY, POLICE):
        found = program.run(*command, path)
        answers(found, 0, None, b"")
        wanted = [place + 1 for place in order]
        must(verdicts(found.out) == wanted, f"{command[0]} takes them in another order")


# ---- runs that must be the same --------------------------------------------------------------


def without_remarks(text: bytes) -> bytes:
    """A list without the lines of what was skipped, which stand where it was read."""
    return b"".join(line for line in text.splitlines(True) if line[:1] != b"#")


def least_held(case: Case) -> int:
    """The least N without the fault TimeBack."""
    held = 0
    while b"TimeBack" in case._replace(options=case.options._replace(reorder=held)).told().fault:
        held += 1
    return held


def same_texts(program: Program, kind: str, group: int) -> None:
    """Where no frame is out of order by more, other numbers give the same text; and where one is,
    that is a fault."""
    for number in range(group * EACH, (group + 1) * EACH):
        case = Case(made_data(kind, f"same/{number}"))
        least, path = least_held(case), path_of(program, case.data)
        for command in (REPLAY, LISTED):
            found = [
                program.run(*command, f"--reorder={held}", path)
                for held in (least, least + 1, least + 7, 10_000, MOST)
            ]
            found = [each._replace(out=without_remarks(each.out)) for each in found]
            for each in found[1:]:
                answers(each, *found[0])
            if least > 0:
                fault = program.run(*command, f"--reorder={least - 1}", path).err
                must(fault.startswith(b"recording TimeBack "), f"{least - 1} held: {fault!r}")


def shuffled(program: Program, number: int) -> None:
    """Frames that are shuffled are reported as those in order, but for their numbers."""
    chance = random.Random(f"shuffled/{number}")
    mixed = chance.sample(range(10**7), 200)
    texts = [recording_of(sorted(mixed)), recording_of(mixed)]
    paths = [program.write(f"shuffled-{number}-{place}", text) for place, text in enumerate(texts)]
    for command in COMMANDS:
        one, other = (program.run(*command, path) for path in paths)
        for found in (one, other):
            answers(found, 0, None, b"")
        same_text("the text", *(renumbered(found.out, lambda _: 0) for found in (one, other)))


# ---- lines of other rates --------------------------------------------------------------------


def other_rates(program: Program, rates: tuple[int, ...], number: int) -> None:
    """Stamps of a frame's start, where systems have lines of other rates."""
    program = program.apart()
    tables = long_tables(2)
    systems = [system | {"rate": rate} for system, rate in zip(tables["system"], rates)]
    tables |= {"system": systems}
    program.write("rates.toml", text_of(tables))
    command = Command(("replay", "--no-admission", "rates.toml"), of_one_switch(tables))
    for place in range(number * EACH, (number + 1) * EACH):
        chance = random.Random(f"rates/{place}")
        options = random_options(chance)._replace(stamps="start")
        both(program, Case(made_data("made", f"rates/{place}"), options, command=command))


def order_cases(program: Program) -> Iterator[tuple]:
    """All."""
    for behind, words, is_sorted in late_frames():
        name = f"order: a frame behind {behind:,} later ones, {' '.join(words) or 'no option'}"
        yield name, late_frame, program, behind, words, is_sorted
    yield "order: two cards", two_cards, program
    for group in range(GROUPS):
        yield f"order: other numbers, {group}", same_texts, program, "made", group
        yield f"order: shuffled, {group}", shuffled, program, group
    for number, rates in enumerate(permutations((10, 100, 1000))):
        yield f"order: from starts, at {rates} Mbit/s", other_rates, program, rates, number
