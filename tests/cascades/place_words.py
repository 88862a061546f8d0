"""Words `K=PLACE`: those that are none, those of places that a configuration hasn't, and those that
it has; and which fault comes first."""
from __future__ import annotations

import random

from cascade import loaded, of_one
from cascade_rows import TWO_TEXT
from cascade_run_rows import two_with
from compared_recordings import as_computed, case_over, files_of, listed_answer
from compared_runs import FREE
from places import is_bad, is_unsuited
from program import Program, answers, must, same_text
from reading_words import LIST
from recorded_arrivals import Options
from recorded_pair import PairOptions
from recording_rows import F1, G1
from tables import base_tables, example
from tapped_rows import SHORT_JITTER
from wanted import POLICE, Case, with_base

BAD = 2, b"", b"words BadInterface\n"
NO_PROFILE = 1, b"", b"config BadProfile\n"
PAIR = bytes.fromhex(F1), bytes.fromhex(G1)
CONFIGS = {
    "base.toml": example("base.toml"),
    "two.toml": TWO_TEXT,
    "bad.toml": b"profile = 3\n",
    "worse.toml": TWO_TEXT.replace(b'name = "fwd"', b"", 1),
    "tight.toml": two_with(SHORT_JITTER),
}
NO_NAME = 1, b"", b"config Missing switch 1 top 0 key 6\n"
FAULTS = {"bad.toml": NO_PROFILE, "worse.toml": NO_NAME}
ONE, TWO = of_one(base_tables(), "")["switch"], loaded(TWO_TEXT)["switch"]

NO_FORMS = [
    "A  fwd", "A fwd ", " A fwd", "A fwd :1", "A fwd: 1", "A:1 fwd", "A x_y", "A x-y", "A \u00e9",
    "A ", "A :1", "A fwd:", "A fwd:0", "A fwd:25", "A fwd:001", "A fwd:1:2", "- fwd", "-fwd",
    "Afwd", "fwd", "A,fwd", "A\tfwd", "A fwd\n", f"A {17 * 'x'}", "A/fwd", "A fwd aft", "C fwd",
    "a fwd", "fwd A", "A fwd:+1", "A fwd:-1", "A fwd:x", "AB fwd", "", "C", "A:0", "A\u00a0fwd",
]
OF_TWO = ["A", "B", "-", "A fwd", "B aft", "A fwd:1", "A fwd:01", "B aft:2", "A fwd:7", "A aft:24"]
NOT_OF_TWO = [
    "A:1", "B:24", "A:07", "A mid", "A Fwd", "A fw", "A fwdd", "A fwd:24", "B fwd:24", "A aft:20",
    "A 1", "A A", "A mid:1", f"B {16 * 'x'}", "A s1", "A s1:1",
]
OF_ONE = ["A", "B", "-", "A:1", "B:24", "A:07"]
NOT_OF_ONE = ["A fwd", "B fwd:1", "A A", "A 1", f"A {16 * '9'}", "A base", "A s1:1"]


def told_apart() -> None:
    """What is computed of each word is what is spelled out."""
    must(all(is_bad([f"0={place}"]) for place in NO_FORMS), "some are words")
    own, foreign = [(OF_ONE, ONE), (OF_TWO, TWO)], [(NOT_OF_ONE, ONE), (NOT_OF_TWO, TWO)]
    for wanted, groups in ((False, own), (True, foreign)):
        for places, switches in groups:
            for words in ([f"0={place}"] for place in places):
                must(not is_bad(words), f"{words} are none")
                must(is_unsuited(words, switches) == wanted, f"is there the place of {words}?")


def with_files(program: Program) -> Program:
    """The program with the configurations and recordings in a folder of its own."""
    program = program.apart()
    for name, text in CONFIGS.items():
        program.write(name, text)
    for name, data in zip(("a", "b"), PAIR):
        program.write(name, data)
    program.write("listed", LIST)
    return program


def options_of(places: list[str]) -> list[str]:
    """The options that say them of interface 0."""
    return [f"--interface=0={place}" for place in places]


def no_words(program: Program) -> None:
    """What is no PLACE, whatever the configuration is; in `police` a name is none."""
    program = with_files(program)
    for option in options_of(NO_FORMS):
        for config in CONFIGS:
            for command in ("replay", "list"):
                answers(program.run(command, option, config, "a"), *BAD)
        answers(program.run("replay", option, "two.toml", "a", "b"), *BAD)
    for option in options_of([*NO_FORMS, "A fwd", "B aft:1", "A A"]):
        answers(program.run(*POLICE, option, "a"), *BAD)


def foreign_places(program: Program, places: list[str], config: str) -> None:
    """Places that the configuration hasn't, with one recording and with two."""
    program = with_files(program)
    for option in options_of(places):
        for command in (["replay"], ["list"], ["replay", FREE]):
            for inputs in (["a"], ["a", "b"]):
                answers(program.run(*command, option, config, *inputs), *BAD)
        for broken, fault in FAULTS.items():
            answers(program.run("replay", option, broken, "a"), *fault)
        answers(program.run("list", "--interface=1=A", option, config, "a"), *BAD)


def own_places(program: Program) -> None:
    """Places of the two switches: one recording, and two."""
    program, cascade = program.apart(), loaded(TWO_TEXT)
    for place in OF_TWO:
        one = case_over(cascade, PAIR[:1], Options({0: place}))
        as_computed(program, cascade, one, [(), (FREE,)])
        found = program.run("list", "--interface", f"0={place}", *files_of(program, one))
        answers(found, *listed_answer(one.told(), ()))
        two = case_over(cascade, PAIR, PairOptions((f"0={place}",)))
        as_computed(program, cascade, two, [()])


def places_of_one(program: Program) -> None:
    """Places of a file of one switch."""
    program = with_base(with_files(program))
    for place in OF_ONE:
        case = Case(PAIR[0], Options({0: place}))
        answers(program.run(*case.run_words(), "a"), *case.listed(program))


def twice(program: Program) -> None:
    """An interface that is given twice, with names too; of two recordings one each may be."""
    program = with_files(program)
    both = ["0=A fwd", "0=B aft"]
    for words in (both, ["0=A fwd", "0=A aft"], ["0=A fwd:1", "00=-"], ["1=A", "1=A fwd"]):
        options = [f"--interface={word}" for word in words]
        for command in ("replay", "list"):
            answers(program.run(command, *options, "two.toml", "a"), *BAD)
            if words != both:
                answers(program.run(command, *options, "two.toml", "a", "b"), *BAD)
    case = case_over({"switch": TWO}, PAIR, PairOptions(tuple(both)))
    as_computed(program, {"switch": TWO}, case, [()])


def fault_order(program: Program) -> None:
    """Which fault comes first: the devices', the words', the configuration's, a place that it
    hasn't, admission's, the recording's."""
    program, place = with_files(program), "--interface=0=A mid"
    late, form = "--origin=9223372036854775808", "--interface=1=A m_d"
    number, none = (2, b"", b"words BadNumber\n"), (4, b"", b"device List\n")
    tries = [
        ([place, "none.toml", "a"], (4, b"", b"device Config\n")),
        ([place, "two.toml", "none"], none),
        ([form, "two.toml", "none"], none),
        ([place, late, form, "worse.toml", "a"], BAD),
        ([place, late, "two.toml", "a"], number),
        ([place, "two.toml", "-", "-"], (2, b"", b"words SameInput\n")),
        ([place, "bad.toml", "a"], NO_PROFILE),
        ([place, "worse.toml", "listed"], NO_NAME),
        ([place, "tight.toml", "a"], BAD),
        ([place, "two.toml", "listed"], BAD),
        ([place, "two.toml", program.folder], BAD),
        (["--interface=0=A fwd", "two.toml", program.folder], (4, b"", b"device Read\n")),
        (["--interface=0=A aft:20", "two.toml", "a", "listed"], BAD),
        (["--interface=0=A fwd", "base.toml", "listed"], BAD),
    ]
    for words, wanted in tries:
        for command in ("replay", "list"):
            answers(program.run(command, *words), *wanted)
    answers(program.run("replay", "tight.toml", "a"), 1, b"", b"admit B3 aft 1 517\n")


def explained(program: Program) -> None:
    """What such a fault means is what `explain` says of its line; then comes why the configuration
    hasn't the place."""
    program = with_files(program)
    meant = program.run("explain", "words", "BadInterface")
    answers(meant, 0, None, b"")
    tries = (
        ("A mid", "two.toml", "CONFIG has no switch of this name"),
        ("A:1", "two.toml", "a port needs the name of its switch"),
        ("A fwd", "base.toml", "CONFIG describes one switch a side"),
    )
    for place, config, why in tries:
        found = program.run("list", "--explain", f"--interface=0={place}", config, "a")
        must(found.status == 2, f"status {found.status}")
        cause = f"--interface '0={place}': {why}.\n".encode()
        same_text("standard error", BAD[2] + meant.out + cause, found.err)


def any_words(program: Program, seed: int) -> None:
    """Words at random: which are bad, and which the configuration hasn't, is what is computed."""
    chance, program = random.Random(seed), with_files(program)
    every = [*NO_FORMS[::6], *OF_TWO, *OF_TWO, *NOT_OF_TWO, *OF_ONE, *OF_ONE, *NOT_OF_ONE]
    numbers = ["0", "0", "1", "2", "3", "00", "0001", "4095", "4096", "00002", "x", ""]
    for _ in range(40):
        places = chance.sample(every, chance.choice([1, 1, 2, 3]))
        words = [f"{chance.choice(numbers)}={place}" for place in places]
        options = [f"--interface={word}" for word in words]
        of_two, config = chance.random() < 0.5, chance.choice(sorted(CONFIGS))
        switches = ONE if config == "base.toml" else TWO
        inputs = ["a", "b"] if of_two else ["a"]
        found = program.run("list", *options, config, *inputs)
        if is_bad(words, of_two=of_two):
            answers(found, *BAD)
        elif config in FAULTS:
            answers(found, *FAULTS[config])
        elif is_unsuited(words, switches):
            answers(found, *BAD)
        else:
            must(found.status in (0, 3), f"{words} for {config}: status {found.status}")


def word_cases(program: Program) -> list[tuple]:
    """All."""
    cases: list[tuple] = [
        ("places: no words", no_words, program),
        ("places: not of two switches", foreign_places, program, NOT_OF_TWO, "two.toml"),
        ("places: not of one switch", foreign_places, program, NOT_OF_ONE, "base.toml"),
        ("places: of two switches", own_places, program),
        ("places: of one switch", places_of_one, program),
        ("places: given twice", twice, program),
        ("places: the order of faults", fault_order, program),
        ("places: explained", explained, program),
    ]
    return cases + [(f"places: any words, {seed}", any_words, program, seed) for seed in range(4)]
