"""Words of runs on recordings: those that are refused, and what is no recording."""
from __future__ import annotations

from first_fault import list_fault
from frames import HELLO
from program import Cases, Program, answers, must, same_text
from reads import HELD, ORDERS, READS, is_read
from recorded_arrivals import Options
from recording_rows import BACK, F1, FIRST_NS, G1, PL, WRONG_WORDS, Row, rows
from tables import base_tables, text_of
from wanted import POLICE, Case, case_of, path_of

COMMANDS = [["replay", "base.toml"], POLICE]
COMMANDS += [["list", "base.toml"]] if "list" in READS else []
SPELLED = {name: bytes.fromhex(text) for name, text in (("pcap", F1), ("pcapng", G1))}
LIST = b"F 0 A 1 " + HELLO.hex().encode() + b"\n"

TIGHT = text_of(base_tables() | {"buffer": 251})  # not admitted

BAD_INTERFACES = ["", "0", "=A", "0=", "0=a", "0=C", "0=AB", "0=A:", "0=A:0", "0=A:25", "0=A:001"]
BAD_INTERFACES += ["0=A:1:2", "0=A:+1", "0=-:1", "0=:1", "0=--", "+0=A", "4096=A", "00001=A", "x=A"]
BAD_INTERFACES += ["0= A", " 0=A", "0=A ", "0=A:1 ", "0 =A", "0==A", "0x1=A"]
# words that are taken, and how many arrivals are held
GOOD_ORDERS = [
    (["--reorder=0"], 0),
    (["--reorder=1"], 1),
    (["--reorder=100000"], 100_000),
    (["--reorder", "0000001"], 1),
    (["--stamps=end"], HELD),
    (["--line-buffered"], 0),
    (["--line-buffered", "--reorder=0"], 0),
    (["--reorder=10000", "--stamps=end", "--line-buffered"], 10_000),
]
BAD_STAMPS = ["--stamps", "--stamps=", "--stamps=middle", "--stamps=END", "--stamps=0"]
GOOD_INTERFACES = ["0=A", "0=B", "0=A:1", "0=B:24", "0=A:01", "0000=A", "4095=-", "0=-"]


def wrong_words(program: Program, command: list[str], words: list[str], line: str) -> None:
    """The words are refused."""
    path = path_of(program, SPELLED["pcap"])
    answers(program.run(*command, *words, path), 2, b"", line.encode() + b"\n")


def good_words(program: Program, word: str) -> None:
    """The word is taken."""
    interface, place = word.removeprefix("--interface=").split("=")
    data = SPELLED["pcap"]
    case = Case(data, Options({int(interface): place}))
    said, path = case.told(), path_of(program, data)
    answers(program.run(*case.words(), word, path), *case.listed(program))
    if "list" in READS:
        found = program.run("list", word, "base.toml", path)
        answers(found, 3 if said.fault else 0, said.text(), said.fault)


def good_orders(program: Program, words: list[str], held: int) -> None:
    """The words are taken, and as many arrivals are held as they say."""
    data = bytes.fromhex(BACK)
    path, case = path_of(program, data), Case(data, Options(reorder=held))
    said, wanted = case.told(), case.listed(program)
    answers(program.run("replay", *words, "base.toml", path), *wanted)
    found = program.run("list", *words, "base.toml", path)
    answers(found, said.status(), said.text(), said.fault)
    police = Case(data, Options(port=1, reorder=held), " ".join(POLICE[1:]))
    words = [word for word in words if not word.startswith("--stamps")]
    answers(program.run(*POLICE, *words, path), *police.listed(program))


def spaced_words(program: Program) -> None:
    """An option and its value as two words, and the options in any order."""
    options = Options({0: "B:2", 7: "-"}, True, FIRST_NS - 5)
    words = ["--interface", "7=-", "--origin", f"{FIRST_NS - 5}", "--interface", "0=B:2"]
    if ORDERS:
        options = options._replace(reorder=3, stamps="start")
        words += ["--reorder", "3", "--stamps", "start"]
    case = Case(SPELLED["pcap"], options)
    path, wanted = path_of(program, case.data), case.listed(program)
    answers(program.run("replay", *words, "--fcs", "yes", "base.toml", path), *wanted)
    answers(program.run("replay", "base.toml", path, "--fcs", "yes", *words), *wanted)


def numbers_of(word: str) -> list[str]:
    """An option with what is no number of 64 bits, and with nothing."""
    return [word, *(f"{word}={each}" for each in ("-1", "", "x", "1e9", "0x1", 2**64))]


def unknown_words(program: Program) -> None:
    """What the parser of words refuses, in lines of its own; `--stamps` is no word of `police`."""
    path = path_of(program, SPELLED["pcap"])
    each = ["--fcs=maybe", "--fcs=", "--fcs", "--interface", *numbers_of("--origin")]
    twice = [["--fcs=yes", "--fcs=no"], ["--origin=0", "--origin=1"]]
    of_police: list[str] = []
    if ORDERS:
        each += [*numbers_of("--reorder"), *BAD_STAMPS]
        twice += [["--reorder=0", "--reorder=0"], ["--stamps=end", "--stamps=start"]]
        of_police += ["--stamps=end", "--stamps=start"]
    tries = [(command, [word]) for command in COMMANDS for word in each]
    tries += [(POLICE, [word]) for word in of_police]
    tries += [(COMMANDS[0], words) for words in twice]
    for command, words in tries:
        found = program.run(*command, path, *words)
        must((found.status, found.out) == (2, b""), f"{words}: status {found.status}")
        must(found.err != b"", f"{words}: nothing is told")


def helpful(program: Program) -> None:
    """The help names the options, and says that --summary alone reports what was left out, in the
    line `skipped`."""
    for command, *_ in COMMANDS:
        found, words = program.run(command, "--help"), ["--interface", "--fcs", "--origin"]
        words += ["--reorder"] if ORDERS else []
        words += ["--stamps"] if ORDERS and command != "police" else []
        for word in [*words, "'skipped"]:
            must(word.encode() in found.out, f"the help of {command} has no {word}")


def word_cases(program: Program) -> list[tuple]:
    """Words that are refused, and words that are not."""
    cases: list[tuple] = []
    for command in COMMANDS:
        for words, line in WRONG_WORDS:
            name = f"words: {command[0]} {' '.join(words)}"
            cases.append((name, wrong_words, program, command, words, line))
    for place, each in enumerate(BAD_INTERFACES):
        words, command = [f"--interface={each}"], COMMANDS[place % len(COMMANDS)]
        given = command, words, "words BadInterface"
        cases.append((f"words: {words[0]!r}", wrong_words, program, *given))
    for twice in (["0=A", "0=A"], ["4=A", "0004=B"]):
        words = [f"--interface={each}" for each in twice]
        given = ["replay", "base.toml"], words, "words BadInterface"
        cases.append((f"words: {twice}", wrong_words, program, *given))
    for each in GOOD_INTERFACES:
        word = f"--interface={each}"
        cases.append((f"words: {word}", good_words, program, word))
    for words, held in GOOD_ORDERS if ORDERS else ():
        cases.append((f"words: {' '.join(words)}", good_orders, program, words, held))
    return cases


def late_orders(path: str, bad: str, late: str) -> list[tuple[list[str], int, bytes]]:
    """Words of `--reorder` that are out of range, and what comes before and after that."""
    many, number = "--reorder=100001", b"words BadNumber\n"
    return [
        (["replay", many, "none.toml", path], 4, b"device Config\n"),
        (["replay", many, "base.toml", "none"], 4, b"device List\n"),
        (["replay", many, bad, "bad.toml", path], 2, b"words BadInterface\n"),
        (["replay", many, "bad.toml", path], 2, number),
        (["replay", many, late, "base.toml", path], 2, number),
        (["list", many, "bad.toml", path], 2, number),
        (["list", "--stamps=start", "bad.toml", path], 1, b"config BadProfile\n"),
        (["police", many, "3", "64", "500", path], 2, number),
        (["police", many, bad, "3", "64", "500", path], 2, b"words BadInterface\n"),
        (["police", "--reorder=0", "3", "64", "500", path], 2, b"words BadRule\n"),
    ]


def word_order(program: Program) -> None:
    """Which fault comes first: the devices', then the words', then the configuration's."""
    path, bad = program.write("f1.pcap", SPELLED["pcap"]), "--interface=0=C"
    listed = program.write("one.list", LIST)
    late = "--origin=9223372036854775808"
    program.write("bad.toml", b"profile = 3\n")
    program.write("tight.toml", TIGHT)
    tries = [
        (["replay", bad, "none.toml", path], 4, b"device Config\n"),
        (["replay", bad, "base.toml", "none"], 4, b"device List\n"),
        (["police", bad, "3", "64", "500", "none"], 4, b"device List\n"),
        (["replay", "base.toml", program.folder], 4, b"device Read\n"),
        (["replay", "--fcs=no", "base.toml", program.folder], 4, b"device Read\n"),
        (["replay", bad, "bad.toml", path], 2, b"words BadInterface\n"),
        (["replay", late, "bad.toml", path], 2, b"words BadNumber\n"),
        (["replay", late, bad, "base.toml", path], 2, b"words BadInterface\n"),
        (["police", bad, "3", "64", "500", path], 2, b"words BadInterface\n"),
        (["police", late, "3", "64", "500", path], 2, b"words BadNumber\n"),
        (["police", "3", "64", "500", path], 2, b"words BadRule\n"),
        (["replay", "bad.toml", path], 1, b"config BadProfile\n"),
        (["replay", "--fcs=yes", "bad.toml", listed], 1, b"config BadProfile\n"),
        (["replay", "--fcs=yes", "tight.toml", listed], 1, b"admit A2 3 252\n"),
    ]
    lists = [
        (["list", bad, "base.toml", "none"], 4, b"device List\n"),
        (["list", "base.toml", program.folder], 4, b"device Read\n"),
        (["list", "bad.toml", path], 1, b"config BadProfile\n"),
        (["list", "--fcs=yes", "bad.toml", listed], 1, b"config BadProfile\n"),
    ]
    tries += lists if "list" in READS else []
    tries += late_orders(path, bad, late) if ORDERS else []
    for words, status, err in tries:
        answers(program.run(*words), status, b"", err)


def no_recordings(program: Program) -> None:
    """What is no recording: a fault for `list` and with an option, else a list."""
    pieces = [b"", b"\xd4\xc3\xb2", b"\n\r\r", b"\x0a\x0d\x0d\x0b" + b"\0" * 24, LIST]
    pieces += [bytes.fromhex(f"34cdb2a1{PL[8:]}"), b"\x1f\x8b\x08", b"BZ09", b"PK\5\6"]
    pieces += [] if "pcapng" in READS else [SPELLED["pcapng"]]
    fault = 3, b"", b"recording NotRecording 0\n"
    for data in pieces:
        path = path_of(program, data)
        if "list" in READS:
            answers(program.run("list", "base.toml", path), *fault)
        options = ["--interface=0=A", "--fcs=no", "--origin=0"]
        options += ["--reorder=0", "--reorder=10000", "--stamps=end"] if ORDERS else []
        for option in options:
            answers(program.run("replay", option, "base.toml", path), *fault)
            if "stamps" not in option:
                answers(program.run(*POLICE, option, path), *fault)
        line = list_fault(data, True)
        answers(program.run("replay", "base.toml", path), 3 if line else 0, None, line)


def not_admitted(program: Program) -> None:
    """Tables that aren't admitted: nothing is read, but with --no-admission; `list` takes them."""
    program.write("tight.toml", TIGHT)
    data = SPELLED["pcap"]
    path, words = path_of(program, data), ["replay", "tight.toml"]
    answers(program.run(*words, path), 1, b"", b"admit A2 3 252\n")
    given = Case(data).told().text()
    wanted = program.run(*words, "--no-admission", "-", given=given)
    answers(program.run(*words, "--no-admission", path), *wanted)
    if "list" in READS:
        answers(program.run("list", "tight.toml", path), 0, given, b"")


def explained(program: Program, row: Row) -> None:
    """A fault with what it means, as `explain` has it, and the path of the recording."""
    path, words = path_of(program, row.bytes()), case_of(row).run_words()
    meant = program.run("explain", "recording", *row.fault.split())
    answers(meant, 0, None, b"")
    found = program.run(*words, "--explain", path)
    must(found.status == 3, f"status {found.status}")
    line = f"recording {row.fault}\n".encode()
    same_text("standard error", line + meant.out + f"{path}\n".encode(), found.err)


def explained_cases(program: Program) -> list[tuple]:
    """A row for each name of a fault."""
    by_name = {row.fault.split()[0]: row for row in rows() if row.fault}
    return [
        (f"explained: {row.fault}", explained, program, row)
        for row in by_name.values()
        if is_read(row.bytes()) or row.options.want_recording()
    ]


def try_words(cases: Cases, program: Program) -> None:
    """All cases."""
    cases.try_at_once([*word_cases(program), *explained_cases(program)])
    cases.try_case("words: the help", helpful, program)
    cases.try_case("words: the parser's", unknown_words, program)
    cases.try_case("words: spaced", spaced_words, program)
    cases.try_case("words: their order", word_order, program)
    cases.try_case("what is no recording", no_recordings, program)
    cases.try_case("tables that aren't admitted", not_admitted, program)
