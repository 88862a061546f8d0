"""What must hold of whatever the program answers, for tests/run/fuzz.py.

No rule is computed a second time here: no schedule, no account, no reception. What is looked at is
the form of each line, the order of lines, and what must be so by the promises.
"""
import os
import re
import sys
import zlib

sys.path.insert(0, os.path.join(os.path.dirname(os.path.abspath(__file__)), "..", "lib"))

import closed_lists as lists  # noqa: E402
from program import matched, must  # noqa: E402

PARTS = ("system", "link", "port")
CONFIG_FAULT = re.compile(
    rf"config ({'|'.join(lists.CONFIG_FAULTS[:2])}|({'|'.join(lists.CONFIG_FAULTS[2:])})"
    rf" (top 0|({'|'.join(PARTS)}) [1-9][0-9]*) key [0-9]+)\n"
)
# of each condition its word, and its fields: names, or numbers
NAMES = ("system", "switch", "neighbour")
FORMS = [
    word + "".join(r" \w+" if field in NAMES else " [0-9]+" for field in fields)
    for word, *fields in map(str.split, lists.ADMISSION_LINES)
]
ADMISSION = f"({'|'.join(FORMS)})"
ADMIT_FAULT = re.compile(rf"admit {ADMISSION}\n")
LIST_FAULT = re.compile(
    "(?:" + "|".join(form.replace(" n", " [1-9][0-9]*") for form in lists.LIST_FAULTS) + r")\n"
)
NUMBER = r"(?:0|[1-9][0-9]*)"
DROPS = "|".join(lists.REASONS)
UNREAD = "|".join(lists.NOT_RECEIVED)
PORT = "(?:[1-9]|1[0-9]|2[0-4])"
EVENT = re.compile(
    rf"V {NUMBER} [AB] (?:accept|drop (?:{DROPS}))"
    rf"|L {NUMBER} [AB] {PORT}|[DT] {NUMBER} {NUMBER} [AB] {PORT}"
    rf"|M {NUMBER} \w+ {NUMBER} (?:[0-9a-f][0-9a-f])+|X {NUMBER} \w+ {NUMBER} (?:{UNREAD})"
)
BOUND = re.compile(rf"P ({PORT}) {NUMBER} (?:{NUMBER}|-) {NUMBER}")
BYTE_NS = {10: 800, 100: 80, 1000: 8}


class Frame:
    """A frame of a list: its line's number, and what the line says."""

    def __init__(self, n, line):
        kind, time, side, port, digits = line.split(b" ")
        self.n, self.time, self.side, self.port = n, int(time), side.decode(), int(port)
        self.bytes = b"" if digits == b"-" else bytes.fromhex(digits.decode())
        if kind != b"R":
            turned = 0xFFFFFFFF if kind == b"B" else 0
            self.bytes += (zlib.crc32(self.bytes) ^ turned).to_bytes(4, "little")

    def vl(self):
        return int.from_bytes(self.bytes[4:6], "big")


def raw_lines(text):
    lines = text.split(b"\n")
    return lines[:-1] if lines[-1] == b"" else lines


def said(line):
    """A line without its carriage return; None where it is skipped."""
    line = line[:-1] if line.endswith(b"\r") else line
    return None if line == b"" or line.startswith(b"#") else line


def frames_before(text, fault):
    """The frames of the lines before the faulty one, or of all where there is none."""
    frames = {}
    for n, line in enumerate(raw_lines(text), 1):
        if n == fault:
            break
        line = said(line)
        if line is not None:
            frames[n] = Frame(n, line)
    return frames


def faulty_line(err):
    """The number of the line that a list fault names; None where there is none."""
    if not LIST_FAULT.fullmatch(err):
        return None
    _, _, *number = err.split()
    return int(number[0]) if number else 1_000_001


def check_status(command, status, err):
    """The status says what standard error says."""
    must(status in (0, 1, 3), f"status {status}, with on standard error: {err[:200]!r}")
    if status == 3:
        must(LIST_FAULT.fullmatch(err), f"status 3 with on standard error: {err[:200]!r}")
    elif status == 1 and command != "check":
        must(
            CONFIG_FAULT.fullmatch(err) or ADMIT_FAULT.fullmatch(err),
            f"status 1 with on standard error: {err[:200]!r}",
        )
    elif status == 1:
        must(
            err == "" or CONFIG_FAULT.fullmatch(err),
            f"check: status 1 with on standard error: {err[:200]!r}",
        )
    else:
        must(err == "", f"status 0 with on standard error: {err[:200]!r}")


def lines_in(out):
    must(out == "" or out.endswith("\n"), "the last line has no line feed")
    return out.split("\n")[:-1]


def check_check(tables, status, out, err):
    lines = lines_in(out)
    if err:
        must(not lines, "check wrote both a fault and lines")
        return
    must(
        lines and (lines[-1] == "ok") == (status == 0),
        "the last line of check doesn't say what its status says",
    )
    must(
        status == 0 or re.fullmatch(f"no {ADMISSION}", lines[-1]),
        f"check's last line is {lines[-1]!r}",
    )
    ports = []
    for line in lines[:-1]:
        match = matched(BOUND, line, f"check wrote the line {line!r}")
        ports.append(int(match[1]))
    must(ports == sorted(set(ports)), "the ports of check are not ascending")
    if tables is not None:
        must(
            ports == sorted(row["port"] for row in tables["system"]),
            "check's ports are not those of the systems",
        )


def check_verdict(line, frames, numbers):
    """A V line stands for the next frame of the list."""
    _, n, side, *_ = line.split(" ")
    must(numbers and int(n) == numbers[0], f"{line!r} is not the line of the next frame")
    must(frames[int(n)].side == side, f"{line!r} has another side than its line")
    return numbers.pop(0)


def check_police(text, status, out, err):
    frames = frames_before(text, faulty_line(err))
    numbers = list(frames)
    for line in lines_in(out):
        must(EVENT.fullmatch(line) and line[0] == "V", f"police wrote the line {line!r}")
        check_verdict(line, frames, numbers)
    must(not numbers, f"line {numbers[:1]} has no verdict")


class Events:
    """The lines of a replay, taken one by one."""

    def __init__(self, tables, text, status, err):
        self.tables, self.status = tables, status
        self.frames = frames_before(text, faulty_line(err))
        self.numbers = list(self.frames)
        self.accepted, self.gone = set(), {}
        self.latest = 0  # the time of the last event
        # time, turn (leaves, arrives, too old), side and port of the last event
        self.place = (0, 0, "A", 0)
        self.left = {}  # by side, port and link the line that had its turn last
        self.free = {}  # by side and port the end of the last slot
        self.before: list[str] | None = None  # the words of the line before
        self.systems = {} if tables is None else {row["port"]: row for row in tables["system"]}
        self.links = {} if tables is None else {row["vl"]: row for row in tables["link"]}

    def take(self, line):
        must(EVENT.fullmatch(line), f"replay wrote the line {line!r}")
        words = line.split(" ")
        waits = self.before is not None and self.before[0] == "D"
        must(
            waits == (words[0] in "MX"),
            f"{line!r} after {self.before}: M and X stand right behind a D line",
        )
        told = {"V": self.verdict, "L": self.loss, "D": self.turn, "T": self.turn}
        told |= {"M": self.message, "X": self.unread}
        told[words[0]](words)
        self.before = words

    def follow(self, place, line):
        must(place > self.place, f"{line} after {self.place}: the lines are not in their order")
        self.place = place

    def verdict(self, words):
        n = check_verdict(" ".join(words), self.frames, self.numbers)
        self.follow((self.frames[n].time, 1, "", n), words)
        if words[3] == "accept":
            self.accepted.add(n)
            must(
                not self.links or self.frames[n].vl() in self.links,
                f"{words}: the tables have no such link",
            )

    def once(self, n, side, port, line):
        must(n in self.accepted, f"{line}: its frame was not accepted before")
        must(self.frames[n].side == side, f"{line} has another side than its line")
        must(
            (n, port) not in self.gone,
            f"{line}: the copy is gone already, by {self.gone.get((n, port))}",
        )
        self.gone[n, port] = line
        if self.links:
            to = self.links[self.frames[n].vl()]["to"]
            must(
                port in self.systems and self.systems[port]["name"] in to,
                f"{line}: the link doesn't go there",
            )

    def loss(self, words):
        n, side, port = int(words[1]), words[2], int(words[3])
        before = self.before
        must(
            before is not None
            and before[0] in "VL"
            and before[1] == words[1]
            and (before[0] == "V" or int(before[3]) < port),
            f"{words} stands after {before}",
        )
        self.once(n, side, port, words)

    def turn(self, words):
        n, time, side, port = int(words[1]), int(words[2]), words[3], int(words[4])
        self.once(n, side, port, words)
        frame = self.frames[n]
        turn = 0 if words[0] == "D" else 2
        # Several frames may be too old at one moment at one port; but each slot takes its time.
        self.follow((time, turn, side, port) + ((len(self.gone),) if turn == 2 else ()), words)
        of_link = (side, port, frame.vl())
        must(
            self.left.get(of_link, 0) < n,
            f"{words}: line {self.left.get(of_link)} of its link was put later",
        )
        self.left[of_link] = n
        begin = time
        if self.links:
            wait = self.links[frame.vl()]["latency_us"] * 1000
            if words[0] == "D":
                begin = time - (len(frame.bytes) + 20) * BYTE_NS[self.systems[port]["rate"]]
            if self.tables["profile"] == 2:
                old = begin - frame.time > wait
                must(
                    old == (turn == 2),
                    f"{words}: its turn came {begin - frame.time} ns after it, of {wait}",
                )
        must(begin >= frame.time, f"{words}: its slot began before it came")
        must(
            begin >= self.free.get((side, port), 0),
            f"{words}: its turn came before the last slot's end",
        )
        self.free[side, port] = time

    def received(self, words):
        assert self.before is not None  # a D line, as `take` has looked
        _, n, time, _, port = self.before
        must(words[1] == time, f"{words} has another time than {self.before}")
        name = self.systems[int(port)]["name"] if self.systems else words[2]
        must(words[2] == name, f"{words} is of another system than {self.before}")
        return int(n)

    def message(self, words):
        n = self.received(words)
        frame = self.frames[n]
        payload = bytes.fromhex(words[4])
        must(int(words[3]) == frame.vl(), f"{words} has another link than line {n}")
        must(
            frame.bytes[42 : 42 + len(payload)] == payload,
            f"{words} has another message than line {n}",
        )
        if self.tables is not None:
            udp = int.from_bytes(frame.bytes[36:38], "big")
            row = (words[2], frame.vl(), udp)
            ports = {(com["system"], com["link"], com["udp"]) for com in self.tables["port"]}
            must(row in ports, f"{words}: no communication port {row}")

    def unread(self, words):
        n = self.received(words)
        must(int(words[3]) == n, f"{words} is of another line than {self.before}")

    def end(self):
        must(not self.numbers, f"line {self.numbers[:1]} has no V line")
        must(self.before is None or self.before[0] != "D", f"nothing behind {self.before}")
        if self.status == 3:
            must(
                self.before is None or self.before[0] in "VL",
                f"{self.before} is written after the fault of the list",
            )
        if self.status == 0 and self.links:
            for n in self.accepted:
                for name in self.links[self.frames[n].vl()]["to"]:
                    port = next(port for port, row in self.systems.items() if row["name"] == name)
                    must(
                        (n, port) in self.gone,
                        f"the copy of line {n} for port {port} is never told of",
                    )


def check_replay(tables, text, admission, status, out, err):
    """Gives the events; None where nothing was replayed."""
    if status == 1:
        must(out == "", "there is output beside a fault of the configuration")
        return None
    events = Events(tables, text, status, err)
    for line in lines_in(out):
        events.take(line)
    events.end()
    if admission:
        must(
            not re.search("^[LT]", out, re.MULTILINE),
            "a frame is lost or too old on an admitted network",
        )
        for (n, port), words in events.gone.items():
            frame = events.frames[n]
            if events.links:
                took = int(words[2]) - frame.time
                must(
                    took <= events.links[frame.vl()]["latency_us"] * 1000,
                    f"{words} is late: it took {took} ns",
                )
    return events


def cut(text, fault):
    """The lines before the faulty one; all where there is none."""
    lines = raw_lines(text)[: None if fault is None else fault - 1]
    return b"".join(line + b"\n" for line in lines)


def alone(text, frames, vl):
    """The list with a remark for each line that is no frame of the link's name."""
    lines = raw_lines(text)
    for n, frame in frames.items():
        if frame.bytes[:6] != b"\x03\0\0\0" + vl.to_bytes(2, "big"):
            lines[n - 1] = b"#"
    return b"".join(line + b"\n" for line in lines)


def told_of(out, kinds, numbers):
    """The lines of these kinds that are of these list lines."""
    return [
        line for line in lines_in(out) if line[0] in kinds and int(line.split(" ")[1]) in numbers
    ]
