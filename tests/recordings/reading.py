"""The program reads recordings itself: it must write what it writes of the list that says the same,
`list` that list, and the faults and counts that the reference says. What it doesn't read yet is no
recording for it (tests/lib/reads.py)."""
from __future__ import annotations

import random
import subprocess

from first_fault import list_fault
from foreign_recordings import try_foreign
from made_recordings import made_data, of_each_length
from program import PATIENCE, Cases, Program, answers, must, rests, same_text, text_within
from reading_words import try_words
from reads import ORDERS, READS, is_read
from recorded import recorded
from recorded_arrivals import Options
from recording_rows import H1, H2, IL, PL, SL, US, ZERO, E, R, Row
from row_holds import row_holds
from tshark_frames import has, listed_as_tshark
from wanted import POLICE, Case, case_of, cut_cases, path_of, random_case, told_before

GROUPS, EACH = 12, 25  # recordings made at random
KINDS = ("made", "mutated") if "pcapng" in READS else ("pcap", "mutated pcap")


def is_unread(program: Program, case: Case) -> None:
    """What is no recording for the program is a list, and where an option asks for a recording a
    fault."""
    words, path = case.run_words(), path_of(program, case.data)
    fault = b"recording NotRecording 0\n"
    out: bytes | None = b""
    if not case.options.want_recording():
        fault, out = list_fault(case.data, True), None
    for words_of_input, given in (([path], b""), (["-"], case.data)):
        found = program.run(*words, *words_of_input, given=given)
        answers(found, 3 if fault else 0, out, fault)


def reads(program: Program, case: Case) -> None:
    """The run on a recording: from a file, from standard input, line by line; counted; with what
    came too early."""
    if not is_read(case.data):
        is_unread(program, case)
        return
    words, path = case.run_words(), path_of(program, case.data)
    wanted, said, live = case.listed(program), case.told(), case.at_once()
    answers(program.run(*words, path), *wanted)
    answers(program.run(*words, "-", given=case.data), *wanted)
    answers(program.run(*live.run_words(), path), *live.listed(program))
    counts = said.fault or case.listed(program, "--summary").err + said.skipped
    answers(program.run(*words, "--summary", path), wanted.status, wanted.out, counts)
    if not case.rule:
        early = case.listed(program, "--explain-drops")
        answers(program.run(*words, "--explain-drops", path), *early)


def lists(program: Program, case: Case) -> None:
    """`list` writes the list that says the same."""
    words, path = case.list_words(), path_of(program, case.data)
    if not is_read(case.data):
        answers(program.run(*words, path), 3, b"", b"recording NotRecording 0\n")
        return
    said = case.told()
    answers(program.run(*words, path), said.status(), said.text(), said.fault)
    answers(program.run(*words, "-", given=case.data), said.status(), said.text(), said.fault)
    live = case.at_once()
    said, found = live.told(), program.run(*live.list_words(), "--summary", path)
    answers(found, said.status(), said.text(), said.fault or said.skipped)


def both(program: Program, case: Case) -> None:
    """The run, and `list` where it is one of `replay` and the program has it."""
    reads(program, case)
    if not case.rule and "list" in READS:
        lists(program, case)


def row_is_read(program: Program, row: Row) -> None:
    """A recording that is spelled out."""
    row_holds(program, row)
    both(program, case_of(row))


def many(program: Program, kind: str, group: int) -> None:
    """Recordings made at random, with random options and without."""
    for number in range(group * EACH, (group + 1) * EACH):
        chance, data = random.Random(f"options/{number}"), made_data(kind, number)
        both(program, Case(data))
        both(program, random_case(chance, data))


def each_length(program: Program, options: Options) -> None:
    """Frames of each length."""
    both(program, Case(of_each_length(), options))


def from_a_file(program: Program, case: Case) -> None:
    """The run and `list` from a file alone."""
    path, said = path_of(program, case.data), case.told()
    answers(program.run(*case.run_words(), path), *case.listed(program))
    found = program.run(*case.list_words(), path)
    answers(found, said.status(), said.text(), said.fault)


def cut_anywhere(program: Program, case: Case) -> None:
    """A recording that is cut at each byte: what stands before the cut is reported."""
    for size in range(len(case.data)):
        part = case._replace(data=case.data[:size])
        if case.options.held() == 0:
            both(program, part)
        elif is_read(part.data):
            from_a_file(program, part)


def one_port_each(program: Program, path: str) -> None:
    """A file that another program wrote, each interface at a port of its own, so that the list
    names it."""
    with open(path, "rb") as file:
        data = file.read()
    frames = [frame for frame in recorded(data).numbers if frame is not None]
    places = {frame.interface: f"A:{frame.interface + 1}" for frame in frames}
    both(program, Case(data))
    both(program, Case(data, Options(places)))
    both(program, Case(data, Options(places, reorder=0)))


# ---- while it is recorded -------------------------------------------------------------------


def told_of_all(program: Program, words: list[str], options: Options, data: bytes) -> bytes:
    """What a command with these options writes of a recording."""
    if words == POLICE:
        return Case(data, options._replace(port=1), " ".join(POLICE[1:])).listed(program).out
    case = Case(data, options)
    return case.told().text() if words[0] == "list" else case.listed(program).out


def comes(run: subprocess.Popen, wanted: bytes, told: bytes, more: int = 0) -> None:
    """What is wanted comes, of which this was reported before, and within so many bytes no more."""
    must(wanted.startswith(told), "what was told is no beginning")
    rest = wanted[len(told) :]
    assert run.stdout is not None
    found = text_within(run.stdout.fileno(), len(rest) + more, PATIENCE)
    same_text("what is told at once", rest, found)


def at_once(program: Program, words: list[str], options: Options, pieces: list[bytes]) -> None:
    """While a recording is written piece by piece, each arrival is reported when its last byte is
    there, or that of as many others as the options say, and not before; those that are held at the
    end. The first piece has no frame."""
    done, told = b"", b""
    with subprocess.Popen(
        [program.path, *words, *options.words(), "-"],
        stdin=subprocess.PIPE,
        stdout=subprocess.PIPE,
        cwd=program.folder,
        bufsize=0,
    ) as run:
        assert run.stdin is not None and run.stdout is not None
        try:
            for piece in pieces:
                run.stdin.write(piece[:-1])
                rests(run)
                must(text_within(run.stdout.fileno(), 1, 0.1) == b"", "it is told too early")
                run.stdin.write(piece[-1:])
                done += piece
                wanted = told_before(program, words, options, done)
                comes(run, wanted, told)
                told = wanted
            run.stdin.close()
            comes(run, told_of_all(program, words, options, done), told, 1)
        finally:
            run.kill()


def live_cases(program: Program) -> list[tuple]:
    """Recordings that come through a pipe."""
    pcap = [PL, R(ZERO, H1), R("09000000", H2), R("0a000000", H1), R("40000000", H2)]
    mixed = [PL, R("05000000", H1), R("03000000", H2), R("09000000", H1), R("08000000", H2)]
    pcapng = [SL, IL, E(US, H1), SL, IL, E("01401e18", H2)]
    none, one, two = (Options(reorder=each, at_once=True) for each in (None, 1, 2))
    kinds = [("pcap", pcap, none), ("pcapng", pcapng, none)]
    kinds += [("one is held", mixed, one), ("two are held", mixed, two)] if ORDERS else []
    kinds += [("pcapng, one is held", pcapng, one)] if ORDERS else []
    commands = [["replay", "base.toml"], POLICE]
    commands += [["list", "base.toml"]] if "list" in READS else []
    cases: list[tuple] = []
    for name, texts, options in kinds:
        pieces = [bytes.fromhex(text) for text in texts]
        for words in commands if is_read(b"".join(pieces)) else []:
            given = program, words, options, pieces
            cases.append((f"at once: {words[0]}, {name}", at_once, *given))
    return cases


# ---- all ------------------------------------------------------------------------------------


def each_lengths() -> dict[str, Options]:
    """Options for recordings of frames of each length."""
    given = {
        "as it is": Options(),
        "with check sequences": Options(fcs=True),
        "without": Options(fcs=False),
    }
    return given | {"none held": Options(reorder=0)} if ORDERS else given


def try_reading(cases: Cases, program: Program, every: list[Row]) -> None:
    """All cases but those of memory; these rows are spelled out."""
    cases.try_at_once([(f"read: {row.name}", row_is_read, program, row) for row in every])
    try_words(cases, program)
    cuts = {name: case for name, case in cut_cases().items() if is_read(case.data)}
    some: list[tuple] = []
    some += [(f"cut: {name}", cut_anywhere, program, case) for name, case in cuts.items()]
    for kind in KINDS:
        some += [(f"read: {kind}, {group}", many, program, kind, group) for group in range(GROUPS)]
    for name, options in each_lengths().items():
        some.append((f"read: frames of each length, {name}", each_length, program, options))
    written = try_foreign(cases, program.folder)
    some += [(f"read: {name}", one_port_each, program, path) for name, path in written.items()]
    if has("tshark") and "list" in READS:
        named = [(f"list and tshark: {name}", path) for name, path in written.items()]
        some += [(name, listed_as_tshark, program, path) for name, path in named]
    cases.try_at_once([*some, *live_cases(program)])
