"""Words of runs on two recordings: those that are refused, and which fault comes first."""
from __future__ import annotations

from collections.abc import Callable

from pair_edge_rows import LIST, pair_rows
from pair_rows import PairRow
from pair_wanted import PairCase, pair_case
from program import Cases, Program, answers, must, same_text
from reading_words import BAD_INTERFACES, GOOD_INTERFACES, SPELLED, TIGHT
from reads import ORDERS
from recorded_pair import PairOptions
from recording_rows import FIRST_NS
from wanted import with_base

COMMANDS = [["replay", "base.toml"], ["list", "base.toml"]]
BAD, LATE = "--interface=0=C", "--origin=9223372036854775808"
MANY = "--reorder=100001"
PAIR = SPELLED["pcap"], SPELLED["pcapng"]

# places that can't be said together, and those that can
TWICE = [
    ["0=A:1", "0=-"],
    ["0=-", "0=A:1"],
    ["0=-", "0=B"],
    ["0=B", "0=-"],
    ["0=-", "0=-"],
    ["0=A", "0=A"],
    ["0=A", "0=A:1"],
    ["0=B:2", "0=B:1"],
    ["3=B", "0003=B"],
    ["0=A", "0=B", "0=A"],
    ["0=A", "0=B", "0=-"],
    ["0=A", "1=-", "01=B"],
]
APART = [
    ["0=A:1", "0=B:1"],
    ["0=B", "0=A"],
    ["0=A", "1=-", "0=B:2"],
    ["0=-", "1=A", "1=B", "2=-"],
    ["4095=A", "4095=B:24"],
]


def files(program: Program) -> list[str]:
    """The two recordings, as files."""
    return [program.write(f"words-{name}", data) for name, data in SPELLED.items()]


def words_of(places: list[str]) -> list[str]:
    """The options that say these places."""
    return [f"--interface={each}" for each in places]


def refused(program: Program, paths: list[str], places: list[str]) -> None:
    """Both commands refuse the places."""
    for command in COMMANDS:
        found = program.run(*command, *words_of(places), *paths)
        answers(found, 2, b"", b"words BadInterface\n")


def taken(program: Program, paths: list[str], places: list[str]) -> None:
    """Both commands take the places."""
    case = PairCase(PAIR, PairOptions(tuple(places)))
    answers(program.run(*case.words(), *paths), *case.listed(program))
    said = case.told()
    found = program.run(*COMMANDS[1], *words_of(places), *paths)
    answers(found, said.status(), said.text(), said.fault)


def sides_of_one(program: Program, paths: list[str]) -> None:
    """For one recording an interface is at one side."""
    for places in (["0=A:1", "0=B:1"], ["0=B", "0=A"], ["0=-", "0=A"]):
        for command in COMMANDS:
            found = program.run(*command, *words_of(places), paths[0])
            answers(found, 2, b"", b"words BadInterface\n")


def spaced(program: Program, paths: list[str]) -> None:
    """An option and its value as two words, before the recordings, between and after them."""
    options = PairOptions(("0=A:1", "7=-", "0=B:2"), True, FIRST_NS - 5)
    places = ["--interface", "7=-", "--origin", f"{FIRST_NS - 5}", "--interface", "0=B:2"]
    more = ["--fcs", "yes", "--interface", "0=A:1"]
    if ORDERS:
        options = options._replace(reorder=3, stamps="start")
        places, more = [*places, "--reorder", "3"], [*more, "--stamps", "start"]
    case = PairCase(PAIR, options)
    wanted = case.listed(program)
    answers(program.run("replay", *places, *more, "base.toml", *paths), *wanted)
    answers(program.run("replay", "base.toml", paths[0], *places, paths[1], *more), *wanted)
    answers(program.run("replay", *more, "base.toml", *places, *paths), *wanted)


def same_file(program: Program, paths: list[str]) -> None:
    """One file may be both; standard input can't."""
    case = PairCase((PAIR[0], PAIR[0]))
    answers(program.run("replay", "base.toml", paths[0], paths[0]), *case.listed(program))
    for command in COMMANDS:
        found = program.run(*command, "-", "-", given=PAIR[0])
        answers(found, 2, b"", b"words SameInput\n")


def too_many(program: Program, paths: list[str]) -> None:
    """`police` takes no second recording, and no command a third one."""
    for words in (
        ["police", "1", "64", "500", *paths],
        *([*command, *paths, paths[0]] for command in COMMANDS),
    ):
        found = program.run(*words)
        must((found.status, found.out) == (2, b""), f"{words[0]}: status {found.status}")
        must(found.err != b"", f"{words[0]}: nothing is told")


def order(program: Program, paths: list[str]) -> None:
    """Which fault comes first: the devices', then the words', then the configuration's, then those
    of the recordings."""
    program.write("bad.toml", b"profile = 3\n")
    program.write("tight.toml", TIGHT)
    listed, twice = program.write("words-list", bytes.fromhex(LIST)), ["-", "-"]
    other = [paths[0], listed]
    tries = [
        ([BAD, "none.toml", *paths], 4, b"device Config\n"),
        (["base.toml", "none", paths[1]], 4, b"device List\n"),
        (["base.toml", paths[0], "none"], 4, b"device List\n"),
        (["base.toml", "none", "none"], 4, b"device List\n"),
        (["base.toml", "-", "none"], 4, b"device List\n"),
        ([BAD, "base.toml", paths[0], "none"], 4, b"device List\n"),
        (["bad.toml", paths[0], "none"], 4, b"device List\n"),
        (["base.toml", paths[0], program.folder], 4, b"device Read\n"),
        (["base.toml", program.folder, paths[1]], 4, b"device Read\n"),
        ([BAD, LATE, "bad.toml", *twice], 2, b"words BadInterface\n"),
        ([LATE, BAD, "base.toml", *twice], 2, b"words BadInterface\n"),
        ([LATE, "bad.toml", *twice], 2, b"words BadNumber\n"),
        ([LATE, "base.toml", *other], 2, b"words BadNumber\n"),
        (["bad.toml", *twice], 2, b"words SameInput\n"),
        (["bad.toml", *other], 1, b"config BadProfile\n"),
        (["base.toml", *other], 3, b"recording NotRecording 0 B\n"),
        (["base.toml", *reversed(other)], 3, b"recording NotRecording 0 A\n"),
    ]
    if ORDERS:
        tries += [
            ([MANY, BAD, "bad.toml", *twice], 2, b"words BadInterface\n"),
            ([MANY, "bad.toml", *twice], 2, b"words BadNumber\n"),
            ([MANY, LATE, "base.toml", *other], 2, b"words BadNumber\n"),
            (["--reorder=0", "--stamps=start", "bad.toml", *twice], 2, b"words SameInput\n"),
        ]
    for words, status, err in tries:
        for command in ("replay", "list"):
            answers(program.run(command, *words), status, b"", err)
    answers(program.run("replay", "tight.toml", *other), 1, b"", b"admit A2 3 252\n")


def not_admitted(program: Program, paths: list[str]) -> None:
    """Tables that aren't admitted: `list` takes them, and so does a run with --no-admission."""
    program.write("tight.toml", TIGHT)
    case = PairCase(PAIR)
    answers(program.run("replay", "tight.toml", *paths), 1, b"", b"admit A2 3 252\n")
    answers(program.run("list", "tight.toml", *paths), 0, case.told().text(), b"")
    words, given = ("replay", "--no-admission", "tight.toml"), case.command._replace
    wanted = case._replace(command=given(words=words)).listed(program)
    answers(program.run(*words, *paths), *wanted)


def explained(program: Program, row: PairRow) -> None:
    """A fault with what it means, which is what `explain` says of its line, and of the same of one
    recording; and which of the two has it."""
    program, case = with_base(program.apart()), pair_case(row)
    paths = [program.write(name, data) for name, data in zip("AB", case.pair)]
    found = program.run(*case.command.words, *case.options.words(), "--explain", *paths)
    meant = program.run("explain", "recording", *row.fault.split())
    answers(meant, 0, None, b"")
    must(found.status == 3, f"status {found.status}")
    line = f"recording {row.fault}\n".encode()
    path = paths["AB".index(row.fault[-1])]
    same_text("standard error", line + meant.out + f"{path}\n".encode(), found.err)


def explained_devices(program: Program, paths: list[str]) -> None:
    """A recording that can't be opened or read is named, whichever it is."""
    folder = program.folder
    for words in ([paths[0], "none"], ["none", paths[1]], [paths[0], folder], [folder, paths[1]]):
        name = "none" if "none" in words else folder
        found = program.run("replay", "--explain", "base.toml", *words)
        line = found.err.decode().splitlines()[-1]
        must(found.status == 4 and line.startswith(f"{name}: "), f"the last line is {line}")


def explained_words(program: Program, paths: list[str]) -> None:
    """What the faults of words mean is known, and which word is wrong."""
    twice = b"--interface '0=-': the interface was named before.\n"
    tries = {"BadInterface": ["--interface=0=A", "--interface=0=-", *paths]}
    tries |= {"BadNumber": [LATE, *paths], "SameInput": ["-", "-"]}
    for name, words in tries.items():
        meant = program.run("explain", "words", name)
        answers(meant, 0, None, b"")
        found = program.run("replay", "--explain", "base.toml", *words)
        line = b"words %s\n" % name.encode()
        cause = twice if name == "BadInterface" else b""
        same_text("standard error", line + meant.out + cause, found.err)


def faulty_rows() -> list[PairRow]:
    """A row for each name of a fault, and side."""
    named = {}
    for row in pair_rows():
        if row.fault:
            name, *_, side = row.fault.split()
            named[name, side] = row
    return list(named.values())


def try_pair_words(cases: Cases, program: Program) -> None:
    """All cases."""
    paths = files(program)
    some: list[tuple] = []
    single = [[each] for each in BAD_INTERFACES]
    for places in [*TWICE, *single]:
        some.append((f"two, words: {places}", refused, program, paths, places))
    for places in [*APART, *([each] for each in GOOD_INTERFACES)]:
        some.append((f"two, words: {places}", taken, program, paths, places))
    for row in faulty_rows():
        some.append((f"two, explained: {row.fault}", explained, program, row))
    every: dict[str, Callable[..., None]] = {
        "an interface of one recording": sides_of_one,
        "spaced words": spaced,
        "the same file": same_file,
        "too many": too_many,
        "the order of faults": order,
        "tables that aren't admitted": not_admitted,
        "devices, explained": explained_devices,
        "words, explained": explained_words,
    }
    for name, case in every.items():
        some.append((f"two: {name}", case, with_base(program.apart()), paths))
    cases.try_at_once(some)
