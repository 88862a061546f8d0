"""The first fault of a configuration and of a list, by the orders of docs/FORMATS.md, apart from
the program."""
from __future__ import annotations

import itertools
import re
from typing import Callable, Iterator, NamedTuple

from tables import KEY_ROWS, LEFT_OUT, SWITCH_ROWS, tomllib

BAGS = (1, 2, 4, 8, 16, 32, 64, 128)
MOST_LINES, LONGEST_LINE, LATEST = 1_000_000, 4_200, 10**15
# of each part the names of its keys by their numbers; of all parts, and the range of each key
KEYS = {part: list(rows) for part, rows in KEY_ROWS.items()}
ALL_KEYS = KEYS | {part: list(rows) for part, rows in SWITCH_ROWS.items()}
RANGES = {
    (part, key): rows[key] for part, rows in (KEY_ROWS | SWITCH_ROWS).items() for key in rows
}
ROWS = ("system", "neighbour", "link", "port")  # the parts that are arrays, in their order
TEXTS = ("name", "from", "priority", "policing", "kind")
LATE_US = 100_000  # what the jitter of a link from a neighbour may have beside its BAG


def is_whole(value: object) -> bool:
    """A whole number; in Python a truth value is one too."""
    return isinstance(value, int) and not isinstance(value, bool)


def is_of_kind(part: str, key: str, value: object) -> bool:
    """The value is of the key's kind."""
    if part in ("top", "switch") and key in ROWS:
        return isinstance(value, list) and all(isinstance(row, dict) for row in value)
    if key == "to":
        return isinstance(value, list) and all(isinstance(name, str) for name in value)
    if key in TEXTS or (part, key) == ("port", "system"):
        return isinstance(value, str)
    return is_whole(value)


def names_of(tables: dict, *parts: str) -> list[str]:
    """The names of the systems, of the neighbours, or of both."""
    return [row["name"] for part in parts for row in tables.get(part, [])]


def in_range(tables: dict, part: str, row: dict, key: str) -> bool:
    """The value, of its kind, is in its range."""
    value = row[key]
    low, high = RANGES[part, key]
    lower = {
        "name": r"[A-Za-z0-9]{1,16}",
        "priority": "high|low",
        "policing": "byte|frame",
        "kind": "sampling|queuing",
    }
    if key in lower:
        return re.fullmatch(lower[key], value) is not None
    if isinstance(value, list):
        return low <= len(value) <= high
    if (part, key) == ("port", "link"):
        return any(link["vl"] == value and row["system"] in link["to"] for link in tables["link"])
    if key in ("from", "system"):
        return True
    if key == "rate":
        return value in ((10, 100, 1000) if tables["profile"] == 2 else (10, 100))
    if key == "bag_ms":
        return value in BAGS
    if key == "lmax":
        low = row["lmin"]
    if key == "jitter_us":
        late = LATE_US if row["from"] in names_of(tables, "neighbour") else 0
        high = 1000 * row["bag_ms"] + late
    if key == "depth" and row["kind"] == "sampling":
        high = 1
    return low <= value <= high


def names_systems(tables: dict, part: str, row: dict, key: str) -> bool:
    """Each system that the value names is there; of a link it may be a neighbour as well."""
    if (part, key) == ("port", "system"):
        return row[key] in names_of(tables, "system")
    if key not in ("from", "to"):
        return True
    names = names_of(tables, "system", "neighbour")
    return all(name in names for name in (row["to"] if key == "to" else [row[key]]))


def is_new(tables: dict, part: str, place: int, key: str) -> bool:
    """The value stood not earlier."""
    rows, row = itertools.islice(tables[part], place), tables[part][place]
    if part == "neighbour" and key in ("name", "port"):
        return all(other[key] != row[key] for other in [*tables["system"], *rows])
    if (part == "system" and key in ("name", "port", "id")) or (part, key) == ("link", "vl"):
        return all(other[key] != row[key] for other in rows)
    if key == "to":
        return len(set(row["to"])) == len(row["to"]) and row["from"] not in row["to"]
    if (part, key) == ("port", "udp"):
        named = (row["system"], row["link"])
        same = (other for other in rows if other["udp"] == row["udp"])
        return all((other["system"], other["link"]) != named for other in same)
    return True


class Fault(NamedTuple):
    """Its name, and where it is: in which part, the how manieth of them, at the key of which
    number."""

    name: str
    part: str
    place: int
    key: int

    def text(self, switch: str = "") -> str:
        """As it is written; `switch` says in which one it is, where there are several."""
        if self.name == "BadProfile" and not switch:
            return self.name
        return f"{self.name} {switch}{self.part} {self.place} key {self.key}"


def has_profile(tables: dict) -> bool:
    """There is a profile, and it is known."""
    return is_whole(tables.get("profile")) and tables["profile"] in (1, 2)


def top_faults(tables: dict, part: str) -> Iterator[Fault]:
    """The faults of the top of a file or of a switch; arrays that are absent are empty then."""
    for number, key in enumerate(ALL_KEYS[part], 1):
        if key in ROWS:
            tables.setdefault(key, [])
        if key == "profile":
            if not has_profile(tables):
                yield Fault("BadProfile", "top", 0, number)
            continue
        if key not in tables:
            yield Fault("Missing", "top", 0, number)
            continue
        if not is_of_kind(part, key, tables[key]):
            yield Fault("WrongKind", "top", 0, number)
        if not in_range(tables, part, tables, key):
            yield Fault("OutOfRange", "top", 0, number)
    if set(tables) - set(ALL_KEYS[part]):
        yield Fault("UnknownKey", "top", 0, 0)


def row_faults(tables: dict, part: str, place: int) -> Iterator[Fault]:
    """The faults of a row."""
    row = tables[part][place]
    for number, key in enumerate(ALL_KEYS[part], 1):
        if key not in row:
            if key not in LEFT_OUT.get(part, ()):
                yield Fault("Missing", part, place + 1, number)
            continue
        if not is_of_kind(part, key, row[key]):
            yield Fault("WrongKind", part, place + 1, number)
        if not in_range(tables, part, row, key):
            yield Fault("OutOfRange", part, place + 1, number)
        if not names_systems(tables, part, row, key):
            yield Fault("NoSuchSystem", part, place + 1, number)
        if not is_new(tables, part, place, key):
            yield Fault("Twice", part, place + 1, number)
    if set(row) - set(ALL_KEYS[part]):
        yield Fault("UnknownKey", part, place + 1, 0)


def table_faults(tables: dict, part: str) -> Iterator[Fault]:
    """The faults of a file of one switch (`top`), or of a switch by its own table (`switch`), in
    their order; only the first one counts."""
    yield from top_faults(tables, part)
    for rows in ROWS:
        for place in range(len(tables.get(rows, []))):
            yield from row_faults(tables, rows, place)


def faults_of(tables: dict) -> Iterator[str]:
    """The faults of tables of one switch in their order; only the first one counts."""
    return (fault.text() for fault in table_faults(tables, "top"))


def config_fault(text: bytes, faults: Callable[[dict], Iterator[str]] = faults_of) -> bytes:
    """The line on standard error; none where the configuration has no fault."""
    try:
        tables = tomllib.loads(text.decode("utf-8"))
    except ValueError:
        return b"config NotToml\n"
    fault = next(faults(tables), None)
    return b"" if fault is None else f"config {fault}\n".encode()


def list_lines(text: bytes) -> list[bytes]:
    """The lines of a list; a last one of no byte is none."""
    lines = text.split(b"\n")
    return lines[:-1] if lines[-1] == b"" else lines


def is_digits(field: bytes) -> bool:
    """One or more decimal digits."""
    return re.fullmatch(rb"[0-9]+", field) is not None


def field_faults(fields: list[bytes], latest: int, is_frames: bool) -> Iterator[str]:
    """The faults of a line's fields in their order; only the first one counts."""
    if len(fields) != 5 or b"" in fields:
        yield "BadLine"
    time, numbers = fields[0], fields[1:4]
    if is_frames:
        time, numbers = fields[1], fields[3:4]
        if fields[0] not in (b"F", b"B", b"R") or fields[2] not in (b"A", b"B"):
            yield "BadLine"
    if not is_digits(time) or not all(map(is_digits, numbers)):
        yield "BadLine"
    limits = (65535, 255, 65535)
    if not is_frames and any(int(number) > most for number, most in zip(numbers, limits)):
        yield "BadLine"
    if int(time) > LATEST:
        yield "TimeTooLarge"
    if int(time) < latest:
        yield "TimeBack"
    if is_frames and not 1 <= int(numbers[0]) <= 24:
        yield "BadPort"
    if not re.fullmatch(rb"-|([0-9a-fA-F]{2})+", fields[4]):
        yield "BadHex"


def first_field_fault(is_frames: bool) -> Callable[[list[bytes], int], str | None]:
    """What is wrong first with the fields of a line, given them and the time before."""
    return lambda fields, latest: next(field_faults(fields, latest, is_frames), None)


def list_fault(
    text: bytes,
    is_frames: bool,
    fault_of: Callable[[list[bytes], int], str | None] | None = None,
) -> bytes:
    """The line on standard error; none where the list has no fault. Where lines have other fields
    than those of one switch `fault_of` says what is wrong with them."""
    latest, fault_of = 0, fault_of or first_field_fault(is_frames)
    for number, line in enumerate(list_lines(text), 1):
        if number > MOST_LINES:
            return b"list TooManyLines\n"
        if len(line) > LONGEST_LINE:
            return b"list LineTooLong %d\n" % number
        line = line[:-1] if line.endswith(b"\r") else line
        if line == b"" or line.startswith(b"#"):
            continue
        fields = line.split(b" ")
        fault = fault_of(fields, latest)
        if fault is not None:
            return f"list {fault} {number}\n".encode()
        latest = int(fields[1 if is_frames else 0])
    return b""
