#!/usr/bin/env python3
"""Checks that the program explains each line and word alike, and none that can't come.

    tests/program/explained_formats.py PROGRAM

Of each word and form that `afdx explain --list` prints an example is given to `afdx explain`; the
answer must have the list's text. So it must for lines that have such a word, as a V line that was
dropped, for the name of a fault alone, for the faults of one of two lists, and for those that each
key of a configuration can have. The lines of the command `list` are those of docs/RECORDINGS.md.
docs/FORMATS.md, whose tables are printed from the same list, must have the keys and ranges of
tests/lib/tables.py. Prints a line for each that isn't so, and nothing where all is; ends with
status 1 if there is one.
"""
import itertools
import pathlib
import re
import subprocess
import sys

TOP = pathlib.Path(__file__).resolve().parent.parent.parent
sys.path[:0] = [str(TOP / "tests" / "lib"), str(TOP / "bin")]
sys.dont_write_bytecode = True

import closed_lists as lists  # noqa: E402
from first_fault import ALL_KEYS, KEYS, RANGES  # noqa: E402
from printing.listing import Row, rows_of  # noqa: E402
from tables import LEFT_OUT  # noqa: E402

Wanted = list[tuple[str, list[str]]]
FIELDS = {"port": "3", "vl": "101", "needed": "252", "bound": "16800", "system": "s3", "ns": "6",
          "switch": "aft", "neighbour": "fwd"}
KEY_FAULTS = ["Missing", "WrongKind", "OutOfRange", "Twice", "NoSuchSystem"]
# keys by their part and number that can't have this fault, beside those of `LEFT_OUT`, or that
# alone can; those of a switch of several stand behind those of a file of one
NEVER = {
    "Missing": ["top 1", "top 6", "switch 1"],
    "WrongKind": ["top 1", "switch 1"],
    "OutOfRange": ["top 1", "link 2", "port 1", "switch 1", "switch's link 2", "switch's port 1"],
}
ALONE = {
    "Twice": ["system 1", "system 2", "system 3", "link 1", "link 3", "port 3", "switch 6",
              "switch's system 1", "switch's system 2", "switch's system 3", "switch's link 1",
              "switch's link 2", "switch's link 3", "switch's port 3", "neighbour 1",
              "neighbour 2"],
    "NoSuchSystem": ["link 2", "link 3", "port 1", "switch's link 2", "switch's link 3",
                     "switch's port 1", "neighbour 1"],
}
# what is said of each fault in a switch of several
IN_SWITCH = "A switch of the configuration has a fault: "
# the keys that have other values there
OTHER_VALUES = {"switch's system": ["port"], "switch's link": ["from", "to", "jitter_us"]}
# what no line of `conform` has
NEVER_FOUND = [("passed", "bad-address"), ("passed", "unknown-link"), ("passed", "no-arrival"),
               ("strange", "wrong-port"), ("strange", "over-rate"), ("strange", "not-its-link"),
               ("unlawful", "bad-address"), ("unlawful", "wrong-port"), ("unlawful", "over-rate"),
               ("unlawful", "not-its-port"), ("unlawful", "redundant")]
# the words of a frame that isn't lawful by itself, in their order
UNLAWFUL = ["too-short", "too-long", "bad-fcs", "unknown-link", "not-its-link", "over-lmax",
            "under-lmin", "not-its-address", "not-ipv4", "bad-ip-header", "fragment", "not-udp",
            "bad-udp-length"]
# names of faults that an earlier list has too
EARLIER = ["recording TimeBack", "recording TimeTooLarge", "config NoSuchSystem"]


def plain(text: str) -> str:
    """In small letters, without marks, one space between words."""
    return " ".join(re.sub(r"[`']", "", text).lower().split())


def examples_of(form: str) -> list[str]:
    """A form with each of its words, 7 for a number, and a name for any word."""
    words = [
        ["7"] if word == "n" else ["s3"] if word == "*" else word.split("|")
        for word in form.split(" ")
    ]
    return [" ".join(chosen) for chosen in itertools.product(*words)]


def of_kind(rows: list[Row], *kinds: str) -> list[Row]:
    return [row for row in rows if row.kind in kinds]


def wanted_forms(rows: list[Row]) -> Wanted:
    """Each word and each form of the lists; of a fault of a configuration without its place."""
    wanted = []
    for row in rows:
        for form in row.forms:
            form = f"config {form}" if row.kind == "config" else form
            wanted += [(line, [row.text]) for line in examples_of(form)]
    return wanted


def wanted_lines(rows: list[Row]) -> Wanted:
    """Lines with the words of the lists."""
    wanted = []
    for row in of_kind(rows, "drop"):
        wanted += [(f"V 3 {place} drop {row.word}", [row.text]) for place in ("A", "B", "B fwd")]
    wanted += [(f"passed 7 {side} 3 {row.word}", ["had to drop it", row.text]) for side in "AB"
               for row in of_kind(rows, "drop") if row.word not in ("bad-address", "unknown-link")]
    wanted += [(f"strange 7 {side} 3 {row.word}", ["nothing explains it", row.text])
               for side in "AB" for row in of_kind(rows, "drop")[:5] + of_kind(rows, "strange")]
    drops = {row.word: row for row in of_kind(rows, "drop", "unread", "unlawful")}
    wanted += [(f"unlawful 7 {side} 3 {word}", ["isn't lawful by itself", drops[word].text])
               for side in "AB" for word in UNLAWFUL]
    wanted += [(line.replace("list ", f"list {role} "), [row.text]) for role in ("came", "left")
               for row in of_kind(rows, "fault") if row.word.startswith("list ")
               for line in examples_of(row.word)]
    wanted += [(f"{line} {which}", [row.text]) for which in ("A", "B", "came", "left")
               for row in of_kind(rows, "fault") if row.word.startswith("recording ")
               for line in examples_of(row.word)]
    wanted += [(f"X 6720 s3 2 {row.word}", [row.text]) for row in of_kind(rows, "unread")]
    wanted += [(f"# 7 {row.word}", [row.text, "was refused"]) for row in of_kind(rows, "refusal")]
    wanted += [(f"# {row.word} 7", [row.text]) for row in of_kind(rows, "skipped")]
    for row in of_kind(rows, "admission"):
        word, *fields = row.text.partition(":")[0].split()
        values = " ".join(FIELDS[field] for field in fields)
        places = ["", " aft"] if word.startswith("A") else [""]
        wanted += [(f"{first} {word}{place} {values}", ["isn't admitted", row.text])
                   for first in ("no", "admit") for place in places]
    low = of_kind(rows, "admission")[3].text
    return wanted + [(f"no A4 {port} 101 -", ["isn't admitted", low]) for port in ("3", "aft 3")]


def wanted_names(rows: list[Row]) -> Wanted:
    """The names of faults, without a place or a number: of their whole lines, and alone."""
    wanted = []
    for row in of_kind(rows, "fault", "config"):
        kind, *rest = (f"config {row.word}" if row.kind == "config" else row.word).split()
        if rest:
            wanted.append((f"{kind} {rest[0]}", [row.text]))
            if f"{kind} {rest[0]}" not in EARLIER:
                wanted.append((rest[0], [row.text]))
    return wanted


def wanted_of_list() -> Wanted:
    """The lines of the command `list`, with what each stands for."""
    wanted = []
    for number, lines in lists.rows_below("| Number | Line |", lists.RECORDINGS):
        for kind in re.findall(r"\b([RFB]) (?:time|\.\.)", lines):
            says = number if kind != "B" else "found wrong"
            wanted += [(f"{kind} 6720 {side} 3 0300", [says]) for side in "AB"]
    return wanted


def may_be_absent(part: str, number: str) -> bool:
    """The key of this number may be left out."""
    own = part.removeprefix("switch's ")
    keys = ALL_KEYS[own][int(number) - 1 : int(number)]
    return any(key in LEFT_OUT.get(own, ()) for key in keys)


def can_come(fault: str, key: str) -> bool:
    """A key can have this fault."""
    if fault == "Missing" and may_be_absent(*key.rsplit(" ", 1)):
        return False
    return key not in NEVER.get(fault, []) and key in ALONE.get(fault, [key])


def place_of(part: str) -> str:
    """The place of a part in the form of a line."""
    if part == "top":
        return "top 0"
    if part == "switch":
        return "switch n top 0"
    own = part.removeprefix("switch's ")
    return f"switch n {own} n" if own != part or part == "neighbour" else f"{part} n"


def listed_keys() -> list[list[str]]:
    """Part, number, name and values of each key; of a switch of several also where the values are
    those of a file of one."""
    there = [row[:2] for row in lists.KEYS]
    same = [[f"switch's {part}", *row] for part, *row in lists.KEYS
            if part in ("system", "link", "port") and [f"switch's {part}", row[0]] not in there]
    return lists.KEYS + same


def key_lines(rows: list[Row]) -> tuple[Wanted, list[str]]:
    """The faults of keys that can come, with what is said of the fault and of the key; and those
    that can't."""
    texts = {row.word: row.text for row in of_kind(rows, "config")}
    said = {form.split(" ", 2)[2]: row.text
            for row in of_kind(rows, "key") for form in row.forms if " key " in form}
    wanted, never = [], []
    for part, number, key, value in listed_keys():
        place = place_of(part)
        text = said.get(f"{place} key {number}", "")
        for fault in KEY_FAULTS:
            line = f"config {fault} {place} key {number}".replace(" n ", " 12 ")
            kind = IN_SWITCH if " switch " in line else texts[fault]
            if can_come(fault, f"{part} {number}"):
                wanted.append((line, [kind, text, f"{key}: {value}"]))
            else:
                never.append(line)
    never += [f"{line} 7 A 3 {word}" for line, word in NEVER_FOUND]
    for place in ("top 0", "system 1", "link 4096", "port 2"):
        wanted.append((f"config UnknownKey {place} key 0", [texts["UnknownKey"]]))
    for place in ("top 0", "system 1", "neighbour 23", "link 4096", "port 2"):
        wanted.append((f"config UnknownKey switch 24 {place} key 0", [IN_SWITCH]))
    return wanted, never


def numbered_keys() -> list[list[str]]:
    """Part, number and name of each key, in the order of FORMATS."""
    parts = {part: keys for part, keys in ALL_KEYS.items() if part not in KEYS}
    keys = [[part, str(number), key] for part, keys in KEYS.items()
            for number, key in enumerate(keys, 1)]
    keys.append(["top", str(len(KEYS["top"]) + 1), "switch"])
    keys += [[part, str(number), key] for part, keys in parts.items()
             for number, key in enumerate(keys, 1)]
    return keys + [[part, str(KEYS[part.removeprefix("switch's ")].index(key) + 1), key]
                   for part, keys in OTHER_VALUES.items() for key in keys]


def other_keys(rows: list[Row]) -> list[str]:
    """How the keys of FORMATS, and those that are said where a key is unknown, are others than
    those that the tests compute with."""
    found = []
    if [row[:3] for row in lists.KEYS] != numbered_keys():
        found.append(f"FORMATS has the keys {[row[:3] for row in lists.KEYS]}")
    for part, _, key, value in lists.KEYS:
        greatest = 24 if key == "switch" else RANGES[part.removeprefix("switch's "), key][1]
        numbers = {int(digits) for digits in re.findall(r"\b\d+\b", value)}
        if greatest and "name" not in value and greatest not in numbers | {128000}:
            found.append(f"FORMATS says of {key} of {part} {value}, and it goes to {greatest}")
    unknown = " ".join(row.text for row in of_kind(rows, "key") if "UnknownKey" in row.word)
    for part, keys in ALL_KEYS.items():
        whose = "the top" if part == "top" else f"a {part}"
        if f"Keys of {whose} are {', '.join(keys[:-1])} and {keys[-1]}." not in unknown:
            found.append(f"what is said of unknown keys has other keys of {whose}")
    return found


def answer(program: str, line: str) -> str | None:
    ran = subprocess.run([program, "explain", line], capture_output=True, text=True, check=False)
    return plain(ran.stdout) if ran.returncode == 0 else None


def faults(program: str) -> list[str]:
    rows = rows_of(program)
    of_keys, never = key_lines(rows)
    found = other_keys(rows)
    wanted = wanted_forms(rows) + wanted_lines(rows) + wanted_names(rows) + wanted_of_list()
    for line, says in wanted + of_keys + [("X 6720 s3 2 not-subscribed", [])]:
        said = answer(program, line)
        if said is None:
            found.append(f"'{line}' is not explained")
        else:
            found += [f"'{line}' is explained without '{plain(part)}'" for part in says
                      if plain(part) not in said]
    found += [f"'{line}' is explained, and can't come" for line in never
              if answer(program, line) is not None]
    return found


def main() -> int:
    if len(sys.argv) != 2:
        print(__doc__, file=sys.stderr)
        return 2
    found = faults(sys.argv[1])
    for fault in found:
        print(fault)
    return 1 if found else 0


if __name__ == "__main__":
    sys.exit(main())
