#!/usr/bin/env python3
"""Gives the built program what breaks off, is malicious, or is as large as it may be.

    tests/run/hostile.py PROGRAM

Tried are all beginnings of a configuration, of frame lists, of a submission list and of frames;
lines as long as they may be and one byte longer; fields that are nearly right; numbers of up to
5,000 digits; as many lines as there may be and one more; configurations of 4 MB; both lists of
`conform`, cut at each byte, of equal and of the greatest times; recordings that are large,
senseless or far out of order, of `conform` too, if the program reads them (tests/lib/reads.py).
Each run must end soon, with the status and the one line of the first fault, by the orders of
docs/FORMATS.md, which tests/lib/ follows apart from the program, and with the output of the lines
before it. Prints `ok NAME` or `FAILED NAME` for each case, then `N passed, M failed`; ends with
status 1 if a case failed. Needs Python 3.11.
"""
from __future__ import annotations

import os
import sys
import tomllib
from collections.abc import Iterator

sys.dont_write_bytecode = True
TESTS = os.path.join(os.path.dirname(os.path.abspath(__file__)), "..")
sys.path[:0] = [os.path.join(TESTS, name) for name in ("lib", "recordings", "cascades", "conform")]
import tables as made  # noqa: E402
from conform_claims import Judge  # noqa: E402
from conform_terms import SENDERS  # noqa: E402
from first_fault import config_fault, list_fault, list_lines  # noqa: E402
from frames import HELLO, frame_of, sealed  # noqa: E402
from hostile_lists import OneList, hostile_lists, one_list_commands  # noqa: E402
from hostile_recorded import hostile_recorded  # noqa: E402
from hostile_recordings import hostile_recordings  # noqa: E402
from hostile_senders import hostile_senders  # noqa: E402
from least import solve_answer  # noqa: E402
from program import Answer, Cases, Program, answers, main_of, must, same_text, short  # noqa: E402
from sender import Message, list_sent, submission_list  # noqa: E402
from weak_recorded import cut_cases  # noqa: E402

MS = 1_000_000
SOON = 100  # seconds of the processor that a run may take
POLICE = ["police", "1", "64", "500"]
H1 = HELLO.hex().encode()
SOUND = sealed(HELLO).hex().encode()
FRAMES = b"F 0 A 1 %s\r\n# a remark\n\nF 0 A 1 %s\nR 1000000 A 1 %s" % (H1, H1, SOUND)
BEYOND = b"!\n"  # a line that is none: what stands before it is written, and no more


class Command:
    """A command that reads a list."""

    def __init__(self, program: Program, words: list[str], is_frames: bool = True) -> None:
        self.program, self.words, self.is_frames = program, words, is_frames
        self.names_lines = is_frames  # that are too short
        self.known: dict[bytes, Answer] = {}

    def run(self, given: bytes) -> Answer:
        """The answer to a list."""
        if len(given) > 10_000 or given not in self.known:
            found = self.program.run(*self.words, "-", given=given)
            if len(given) > 10_000:
                return found
            self.known[given] = found
        return self.known[given]

    def before(self, front: bytes) -> bytes:
        """What these whole lines give, where the run then stops."""
        found = self.run(front + BEYOND)
        answers(found, 3, None, b"list BadLine %d\n" % (front.count(b"\n") + 1))
        return found.out

    def is_told(self, given: bytes) -> Answer:
        """The first fault is reported, and the output is that of the lines before it."""
        fault, found = list_fault(given, self.is_frames), self.run(given)
        answers(found, 3 if fault else 0, None, fault)
        if fault:
            words = fault.split()
            lines = list_lines(given)[: int(words[2]) - 1 if len(words) == 3 else 1_000_000]
            front = b"".join(line + b"\n" for line in lines)
            if len(lines) < 1_000_000:
                same_text("standard output", self.before(front), found.out)
        elif self.is_frames:
            told = [
                line.split(b" ")[1:3] for line in found.out.splitlines() if line.startswith(b"V")
            ]
            must(told == frames_in(given), f"the verdicts are on {short(told)}")
        return found


def frames_in(given: bytes) -> list[list[bytes]]:
    """Number and side of each line of a sound list that isn't skipped."""
    lines = [(n, line.rstrip(b"\r")) for n, line in enumerate(list_lines(given), 1)]
    return [
        [b"%d" % n, line.split(b" ")[2]] for n, line in lines if line and not line.startswith(b"#")
    ]


def commands_of(program: Program) -> dict[str, Command]:
    """Every command that reads a list, with base tables."""
    config = program.write("config", made.text_of(made.base_tables()))
    return {
        "police": Command(program, POLICE),
        "replay": Command(program, ["replay", config]),
        "replay --no-admission": Command(program, ["replay", "--no-admission", config]),
        "send": Command(program, ["send", config, "s1"], is_frames=False),
    }


# ---- beginnings ----------------------------------------------------------------------------------


def is_solved(found: Answer, text: bytes) -> None:
    """`solve` ended so: with the tables that are worked out apart, with a line, or with a fault."""
    wanted = solve_answer(text)
    told = "".join(f"{line}\n" for line in wanted.errors).encode()
    if wanted.tables is None:
        line = f"{wanted.line}\n".encode() if wanted.line else b""
        answers(found, wanted.status, line, told)
    else:
        answers(found, wanted.status, None, told)
        must(tomllib.loads(found.out.decode()) == without_empty(wanted.tables), "other tables")


def without_empty(tables: dict) -> dict:
    """The tables as they are read where a part without rows isn't written."""
    return {key: value for key, value in tables.items() if value != []}


def config_beginnings(program: Program, text: bytes, part: int, parts: int) -> None:
    """Every beginning of a configuration, of which every so many-th is tried here."""
    program = program.apart()
    for count in range(part, len(text) + 1, parts):
        path, fault = program.write("config", text[:count]), config_fault(text[:count])
        found = program.run("check", path)
        if fault:
            answers(found, 1, b"", fault)
        else:
            last = found.out.splitlines()[-1][:2]
            must(
                found.err == b"" and (found.status, last) in ((0, b"ok"), (1, b"no")),
                f"{count} bytes: {found}",
            )
        for words in (["replay", "--no-admission", path], ["send", path, "s1"]) if fault else ():
            answers(program.run(*words, "-"), 1, b"", fault)
        is_solved(program.run("solve", path), text[:count])


def frame_list_beginnings(command: Command | OneList, text: bytes) -> None:
    """Every beginning of a list of frames: one that breaks off is too short."""
    for count in range(len(text) + 1):
        found, front = command.is_told(text[:count]), text[: text.rfind(b"\n", 0, count) + 1]
        last = text[len(front) : count]
        breaks_off = last[:1] in (b"F", b"R") and text[count : count + 1] not in (b"\r", b"\n", b"")
        if not found.err and breaks_off:
            short = front + last[: last.rfind(b" ") + 1].replace(b"F", b"R") + b"-"
            same_text("standard output", command.run(short).out, found.out)


def submission_list_beginnings(command: Command, messages: list[Message]) -> None:
    """Every beginning of a submission list: one that breaks off in its bytes is a shorter
    message."""
    text, tables = submission_list(messages), made.base_tables()
    for count in range(len(text) + 1):
        found = command.is_told(text[:count])
        if found.status == 0:
            whole = messages[: text.count(b"\n", 0, count)]
            last = text[text.rfind(b"\n", 0, count) + 1 : count]
            if last:
                cut = bytes.fromhex(last.split(b" ")[4].decode())
                whole = whole + [messages[len(whole)]._replace(payload=cut)]
            same_text("standard output", list_sent(tables, "s1", whole), found.out)


def frame_beginnings(program: Program) -> None:
    """Every beginning of a frame of 300 bytes that carries 100, raw, sealed, and sealed wrongly."""
    tables = made.long_tables()
    tables["link"][0] |= {"skew_us": 999, "latency_us": 999}
    config = program.write("config", made.text_of(tables))
    frame = frame_of(tables["system"][0], 1, 1000, bytes(100), 0, "A", 300)
    lines: list[bytes] = []
    wanted = []
    for kind, added in (("R", 0), ("F", 4), ("B", 4)):
        for count in range(len(frame) - added + 1):
            n, at, length = len(lines) + 1, len(lines) * MS, count + added
            lines.append(
                b"%s %d A 1 %s\n" % (kind.encode(), at, frame[:count].hex().encode() or b"-")
            )
            whole = kind == "F" or (kind == "R" and count == len(frame))
            word = "drop too-short" if length < 64 else "accept" if whole else "drop bad-fcs"
            wanted.append(f"V {n} A {word}\n")
            end = at + (length + 20) * 80
            if word == "accept":
                is_cut = length - 19 < 128  # before the end of the datagram
                told = (
                    f"X {end} s3 {n} bad-ip-header"
                    if is_cut
                    else f"M {end} s3 1 {bytes(100).hex()}"
                )
                wanted.append(f"D {n} {end} A 3\n{told}\n")
    found = program.run("replay", "--no-admission", config, "-", given=b"".join(lines))
    answers(found, 0, "".join(wanted).encode(), b"")


# ---- lines ---------------------------------------------------------------------------------------


def longest_lines(command: Command | OneList) -> None:
    """Lines of 4,200 and of 4,201 bytes, with a line feed and without, first and later."""
    good = b"F 5 A 1 %s\n" % H1 if command.is_frames else b"5 1 1 1000 61\n"
    head = b"R 5 A 1 " if command.is_frames else b"5 1 1 1000 "
    for size in (4199, 4200, 4201, 4202, 9000, 70_000, 1_000_000):
        for line in (
            b"#" * size,
            b"#" * (size - 1) + b"\r",
            head + b"0" * (size - len(head)),
            head.replace(b"5", b"0" * (size - len(head) - 1) + b"5", 1) + b"00",
            b" " * size,
            b"\0" * size,
            b"\r" * size,
        ):
            for given in (
                line,
                line + b"\n",
                good + line,
                good + line + b"\n" + good,
                line + b"\r\n" + good,
            ):
                command.is_told(given)


ODD_FRAMES = [
    b"\0", b"F\0 5 A 1 00", b"\xef\xbb\xbfF 5 A 1 00", b"F 5 A 1 00\r\r", b"\r\r", b"\rF 5 A 1 00",
    b" # x", b"F 5 A 1 00 ", b" F 5 A 1 00", b"F  5 A 1 00", b"F\t5 A 1 00", b"f 5 A 1 00",
    b"F 5 a 1 00", b"FF 5 A 1 00", b"F +5 A 1 00", b"F 0x5 A 1 00", b"F 5. A 1 00", b"F 5e0 A 1 00",
    b"F 5_0 A 1 00", b"F \xd9\xa5 A 1 00", b"F 5 A 1.0 00", b"F 5 A +1 00", b"F 5 AB 1 00",
    b"F 5 A 1 0X", b"F 5 A 1 0x00", b"F 5 A 1 -0", b"F 5 A 1 --", b"F 5 A 1 \xff\xff",
    b"F 5 A 1 00\0", b"F 5 A 1 0\r", b"F 5 A 1", b"F 5 A 1 ", b"F", b"R 5 A 24 -", b"B 5 A 1 -",
    b"F 5 A 24 00", b"F 5 A 25 00", b"F 5 A 00 00", b"F 4 A 25 0", b"F 4 C 25 0", b"V 5 A accept",
    b"R 5 A 1 -\r", b"F 1000000000000000 A 1 -", b"F 1000000000000001 A 1 -",
    b"F 1000000000000001 A 25 0", b"F 5 A 1 aAfF",
]
ODD_MESSAGES = [
    b"\0", b"5\0 1 1 1000 61", b"\xef\xbb\xbf5 1 1 1000 61", b"5 1 1 1000 61\r\r", b"\r\r", b" # x",
    b"5 1 1 1000 61 ", b"5  1 1 1000 61", b"+5 1 1 1000 61", b"5 -1 1 1000 61", b"5 1 1 65536 61",
    b"5 65536 1 1000 61", b"5 1 256 1000 61", b"5 65535 255 65535 61", b"5 1 0 1000 61",
    b"5 1 1 0 61", b"5 1 1 1000 6", b"5 1 1 1000 6g", b"5 1 1 1000", b"4 1 1 65536 6",
    b"4 1 1 1000 6", b"1000000000000001 1 1 1000 6", b"1000000000000001 1 1 65536 6",
    b"5 1 1 1000 --", b"R 5 A 1 00", b"5 1 1 1000 -", b"5 1 1 1000 61\r", b"5 1 1 1000 0\r",
    b"5 1.0 1 1000 61", b"5 1 1 1000 \xff\xff",
]


def odd_lines(command: Command | OneList) -> None:
    """Lines that are nearly right, first, later, and last without a line feed."""
    good = b"F 5 A 1 %s\n" % H1 if command.is_frames else b"5 1 1 1000 61\n"
    for line in ODD_FRAMES if command.is_frames else ODD_MESSAGES:
        for given in (
            line,
            line + b"\n",
            good + line,
            good + line + b"\n" + good,
            b"\n#\n\r\n" + line + b"\r\n" + good,
        ):
            command.is_told(given)


def long_numbers(command: Command | OneList) -> None:
    """Numbers of 1 to 5,000 digits in each field."""
    fields = (
        [b"R", b"0", b"A", b"1", b"-"] if command.is_frames else [b"0", b"1", b"1", b"1000", b"61"]
    )
    places = (1, 3) if command.is_frames else (0, 1, 2, 3)
    around = sum(map(len, fields)) + 4
    for place in places:
        lines = []
        for count in range(0, 4201 - around):
            lines.append(
                b" ".join([*fields[:place], b"0" * count + fields[place], *fields[place + 1 :]])
            )
        found = command.is_told(b"\n".join(lines) + b"\n")
        must(not found.err and len(lines[-1]) == 4200, f"status {found.status}")
        if command.names_lines:
            read = found.out.count(b"too-short")
            must(read == len(lines), "a line with zeros before a number is not read")
        for count in [*range(1, 41), 64, 65, 100, 1000, 4000, *range(4185, 4201), 5000]:
            for digit in (b"1", b"9"):
                odd = [*fields[:place], digit * count, *fields[place + 1 :]]
                command.is_told(b" ".join(odd))


def most_lines(command: Command) -> None:
    """1,000,000 lines, and one more."""
    one = b"R 0 A 1 -\n" if command.is_frames else b"0 9 1 1000 61\n"
    told = b"V %d A drop too-short\n" if command.is_frames else b"# %d S1\n"
    last = told % 1_000_000
    for filler in (b"\n", b"#\n", b"\r\n"):
        text = filler * 999_999 + one
        answers(command.run(text), 0, last, b"")
        answers(command.run(text[:-1]), 0, last, b"")
        for more in (b"\n", b"#", b"\0", one):
            answers(command.run(text + more), 3, last, b"list TooManyLines\n")
    whole = b"".join(told % n for n in range(1, 1_000_001))
    answers(command.run(one * 1_000_000), 0, whole, b"")
    answers(command.run(one * 1_000_001), 3, whole, b"list TooManyLines\n")


# ---- configurations of 4 MB ----------------------------------------------------------------------

HEAD = b"profile = 1\nbuffer = 252\n"
MOST = 4_194_304  # the bytes of the longest configuration
ROOM = MOST - len(HEAD) - 20


def deep_configs() -> list[tuple[str, bytes, bytes]]:
    """Arrays and tables in one another: name, text and fault."""
    value, fault = HEAD + b"x = ", b"NotToml"
    return [
        ("arrays 80 deep", value + b"[" * 80 + b"]" * 80, b"UnknownKey top 0 key 0"),
        ("arrays 81 deep", value + b"[" * 81 + b"]" * 81, fault),
        ("arrays in arrays, open", value + b"[" * ROOM, fault),
        ("arrays in arrays", value + b"[" * (ROOM // 2) + b"]" * (ROOM // 2), fault),
        ("tables in tables, open", value + b"{a=" * (ROOM // 3), fault),
        ("tables in tables", value + b"{a=" * (ROOM // 4) + b"1" + b"}" * (ROOM // 4), fault),
        ("a key of many parts", HEAD + b"x" + b".x" * (ROOM // 2) + b" = 1", fault),
        ("a head of many parts", HEAD + b"[x" + b".x" * (ROOM // 2) + b"]", fault),
    ]


def wide_configs() -> list[tuple[str, bytes, bytes]]:
    """Many keys, tables and receivers: name, text and fault."""
    keys = [b"k%d = 1" % n for n in range(100_000)]
    lines, row = b"\n".join(keys), b", ".join(keys)
    names = b"".join(b'"n%d", ' % n for n in range(300_000))
    systems = b"".join(b"[[system]]\nname = 's%d'\n" % n for n in range(100_000))
    link = b"[[link]]\nvl = 1\nfrom = 's1'\nto = ["
    known = b"[[system]]\nname = 's1'\nport = 1\nid = 1\npartition = 1\nrate = 100\n"
    in_line = HEAD + b"system = [{" + row + b"}]"
    return [
        ("100,000 keys", HEAD + lines, b"UnknownKey top 0 key 0"),
        ("100,000 keys in a table", HEAD + known + lines, b"UnknownKey system 1 key 0"),
        ("100,000 keys in a table in a line", in_line, b"Missing system 1 key 1"),
        ("100,000 systems", HEAD + systems, b"OutOfRange top 0 key 3"),
        ("300,000 receivers", HEAD + known + link + names + b"]\n", b"OutOfRange link 1 key 3"),
    ]


def long_configs() -> list[tuple[str, bytes, bytes]]:
    """Long values, and bytes around what is meant: name, text and fault, none where it is sound."""
    base, fault = made.example("base.toml"), b"NotToml"
    name = HEAD + b'[[system]]\nname = "' + b"a" * (ROOM - 20) + b'"'
    return [
        ("a long text", HEAD + b'x = "' + b"a" * ROOM + b'"', b"UnknownKey top 0 key 0"),
        ("a long text, open", HEAD + b'x = "' + b"a" * ROOM, fault),
        ("a long name", name, b"OutOfRange system 1 key 1"),
        ("a long number", HEAD + b"x = " + b"1" * ROOM, fault),
        ("zeros before a number", b"profile = 1\nbuffer = " + b"0" * ROOM + b"252\n", fault),
        ("bytes of zero", b"\0" * MOST, fault),
        ("bytes that are no text", HEAD + b"# \xff\n", fault),
        ("two byte order marks", b"\xef\xbb\xbf" * 2 + base, fault),
        ("text of 16 bits", base.decode().encode("utf-16"), fault),
        ("a long remark", HEAD + b"#" * ROOM, b""),
        ("many empty lines", HEAD + b"\n" * ROOM, b""),
        ("a byte order mark", b"\xef\xbb\xbf" + base, b""),
        ("carriage returns", base.replace(b"\n", b"\r\n"), b""),
    ]


def large_config(program: Program, text: bytes, fault: bytes) -> None:
    """It is answered by each command."""
    program = program.apart()
    path = program.write("config", text)
    wanted = b"config %s\n" % fault if fault else b""
    found = program.run("check", path)
    answers(found, 1 if fault else 0, b"" if fault else None, wanted)
    solution = program.run("solve", path)
    answers(solution, 1 if fault else 0, b"" if fault else None, wanted)
    if fault:
        answers(program.run("replay", path, "-"), 1, b"", wanted)
        answers(program.run("send", path, "s1", "-"), 1, b"", wanted)
    else:
        must(found.out.endswith(b"ok\n"), "it is not admitted")
        least = b"profile = 1\nbuffer = %d\n" % (176 if b"[[link]]" in text else 64)
        must(solution.out.startswith(least), "it is solved otherwise")


def long_words(program: Program) -> None:
    """Words of 100,000 bytes."""
    for word in ("9" * 100_000, "0" * 100_000 + "x", "-" * 100_000):
        found = program.run("police", "1", word, "500", "-")
        must(found.status == 2 and found.out == b"" and found.err != b"", f"status {found.status}")
    answers(program.run("police", "1", "0" * 100_000 + "64", "500", "-"), 0, b"", b"")
    answers(program.run("police", "1", "64", "500", "x" * 100_000), 4, b"", b"device List\n")
    config = program.write("config", made.text_of(made.base_tables()))
    answers(program.run("send", config, "s" * 100_000, "-"), 2, b"", b"words NoSuchSystem\n")


def line_cases(name: str, command: Command | OneList) -> Iterator[tuple]:
    """What is tried with the lines of a command's list."""
    yield f"{name}: the longest lines", longest_lines, command
    yield f"{name}: odd lines", odd_lines, command
    yield f"{name}: long numbers", long_numbers, command


def list_cases(name: str, command: Command) -> Iterator[tuple]:
    """What is tried with a command's list."""
    messages = [Message(0, 1, 1, 1000, b"first"), Message(7, 1, 2, 1000, bytes(range(17)))]
    messages.append(Message(10**7, 1, 1, 1000, b"x"))
    if command.is_frames:
        yield f"{name}: beginnings of a list", frame_list_beginnings, command, FRAMES
    else:
        yield f"{name}: beginnings of a list", submission_list_beginnings, command, messages
    yield from line_cases(name, command)
    yield f"{name}: the most lines", most_lines, command


def conform_cases(cases: Cases, program: Program) -> Iterator[tuple]:
    """What is tried with the two lists of `conform`."""
    if not program.knows("conform"):
        cases.skip("conform", "the program doesn't have it")
        return
    for name, command in one_list_commands(program).items():
        yield f"{name}: beginnings of a list", frame_list_beginnings, command, FRAMES
        yield from line_cases(name, command)
    yield from hostile_lists(program)
    yield from cut_cases(program)
    yield from hostile_recorded(program)
    if program.knows("conform", SENDERS):
        yield from hostile_senders(Judge(program))


def try_all(cases: Cases, program: Program) -> None:
    """All cases."""
    base = made.example("base.toml")
    all_cases: list[tuple] = [("beginnings of a frame", frame_beginnings, program.apart())]
    for part in range(4):
        name = f"beginnings of a configuration, {part + 1} of 4"
        all_cases.append((name, config_beginnings, program, base, part, 4))
    for name, command in commands_of(program).items():
        all_cases += list_cases(name, command)
    all_cases.append(("long words", long_words, program.apart()))
    for name, text, fault in [*deep_configs(), *wide_configs(), *long_configs()]:
        all_cases.append((f"a configuration: {name}", large_config, program, text, fault))
    all_cases += conform_cases(cases, program)
    cases.try_at_once([*all_cases, *hostile_recordings(program)])


if __name__ == "__main__":
    main_of(__doc__, try_all, SOON)
