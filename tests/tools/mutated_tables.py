#!/usr/bin/python3
"""Reads tables of interface documents with changed bytes and cells.

    tests/tools/mutated_tables.py COUNT SYSTEMS.csv MESSAGES.csv [CABLES.csv]

The tables of a document must be read, or refused in lines that can be printed. What is read must
make a configuration without a fault for `solve`, by the rules of tests/lib/. Prints what isn't so,
then how many were read; ends with status 1 if one isn't.
"""
from __future__ import annotations

import argparse
import os
import random
import re
import sys
import tempfile

sys.dont_write_bytecode = True
HERE = os.path.dirname(os.path.abspath(__file__))
sys.path[:0] = [os.path.join(HERE, "..", "..", "tools"), os.path.join(HERE, "..", "lib")]
from afdx_tools.faults import Refused  # noqa: E402
from afdx_tools.icd.cascade import Cascade, Values  # noqa: E402
from afdx_tools.icd.document import Document  # noqa: E402
from afdx_tools.icd.layout import asked_text  # noqa: E402
from afdx_tools.icd.reading import read_document  # noqa: E402
from afdx_tools.icd.making import text_with  # noqa: E402
from least import solve_fault  # noqa: E402
from switch_fault import file_fault  # noqa: E402

NAMES = "systems", "messages", "cables"
CELLS = "0 1 3 17 20 24 25 64 65 80 100 1471 1472 65535 65536 100000 100001 0.5 12,5 1000 -1 +1 010"
CELLS += " adc fcc disp high low sampling queuing Frame x \u0661 \u00b2 1e3 0x10 nan a-dc f_cc"
CELLS += " 1.0 16.0 10,0 1.000 fcc;disp Every_[s] within[ms] nose bay bay_nose port second_switch"
PIECES = [b'"', b",", b";", b"\t", b"\n", b"\r", b"\0", b"\xff", b" ", b"#"]
PIECES += ["\ufeff".encode(), "\u2028".encode()]


def changed(chance: random.Random, text: bytes) -> bytes:
    """The text with one to three cells or bytes changed."""
    for _ in range(chance.randint(1, 3)):
        if chance.random() < 0.7:
            cells = list(re.finditer(rb"[^,\n]*", text))
            cell = chance.choice(cells)
            other = chance.choice(CELLS.split() + [""]).encode()
            text = text[: cell.start()] + other + text[cell.end() :]
        else:
            place = chance.randrange(len(text) + 1)
            text = text[:place] + chance.choice(PIECES) + text[place + chance.randint(0, 1) :]
    return text


def lawful(document: Document) -> str:
    """The fault of the configuration of a document that has none, or nothing. Of several switches
    the keys that are solved have the least values of their ranges."""
    if document.cabling is None:
        return solve_fault(asked_text(document))
    cascade = Cascade(document, document.cabling)
    places = cascade.places()
    ones = dict.fromkeys(places, 1)
    values = Values(dict.fromkeys(cascade.switches, 64), dict.fromkeys(places, 0), ones, ones)
    return file_fault(text_with(cascade, values)).decode()


def fault_of(paths: list[str], is_filled: bool) -> tuple[str, bool]:
    """What is wrong with how the tables are read, or nothing; and whether they have no fault."""
    files = dict.fromkeys(NAMES) | dict(zip(NAMES, paths))
    try:
        document, remarks = read_document(
            argparse.Namespace(**files, fill=is_filled, profile=2)
        )
    except Refused as refused:
        line = str(refused)
        return "" if line.isprintable() else f"a line that can't be printed: {line!r}", False
    for line in [*remarks, *document.faults]:
        if not line.isprintable():
            return f"a line that can't be printed: {line!r}", False
    return ("", False) if document.faults else (lawful(document), True)


def main() -> None:
    """Changes the tables, and reads them."""
    count, *paths = sys.argv[1:]
    texts = []
    for path in paths:
        with open(path, "rb") as file:
            texts.append(file.read())
    chance, read, wrong = random.Random(1), 0, 0
    with tempfile.TemporaryDirectory() as folder:
        for number in range(int(count)):
            made = [os.path.join(folder, os.path.basename(path)) for path in paths]
            for path, text in zip(made, texts):
                with open(path, "wb") as file:
                    file.write(changed(chance, text) if chance.random() < 0.7 else text)
            fault, is_read = fault_of(made, chance.random() < 0.3)
            read += is_read
            wrong += bool(fault)
            if fault:
                print(f"{number}: {fault}")
    print(f"{read} were read")
    sys.exit(1 if wrong or not read else 0)


main()
