#!/usr/bin/env python3
"""Tries recordings, of both forms.

    tests/run/recordings.py [--reads] PROGRAM

Without `--reads` the program is given lists alone. tests/lib/recorded.py and recorded_list.py say
what has to be taken from a recording, apart from the program: the list that says the same, the
fault, the counts. Here they must say

- what stands beside recordings that are spelled out byte by byte (tests/lib/recording_rows.py,
  tests/recordings/), and the program's run on that list must write what stands there;
- of each frame what tshark says, in recordings made at random, and in those that text2pcap,
  editcap, mergecap, reordercap, dumpcap and tcpdump wrote, some of them cut;
- of a recording that is cut at any byte what stands before the cut, as they say it of the whole.

tests/lib/recorded_pair.py says the same of two recordings that are read at once.

With `--reads` the program itself reads all of these, and others, and must write what they say: from
files, from pipes while they are written, and of 10,000,000 frames in the memory that 20,000 take. A
recording of a form that it doesn't read yet (tests/lib/reads.py says which it reads) is no
recording for it; if it reads none, nothing is tried.

Prints `ok NAME`, `FAILED NAME` or `skipped NAME: why` for each case, then `N passed, M failed`;
ends with status 1 if a case failed. A case is skipped only where a program isn't installed, or
where the program doesn't know its words yet. Needs Python 3.11.
"""
from __future__ import annotations

import argparse
import os
import random
import sys
import tempfile

sys.dont_write_bytecode = True
TESTS = os.path.join(os.path.dirname(os.path.abspath(__file__)), "..")
sys.path[:0] = [os.path.join(TESTS, name) for name in ("lib", "recordings")]
import pair_reading  # noqa: E402
import reading  # noqa: E402
from edge_rows import edges  # noqa: E402
from foreign_recordings import try_foreign  # noqa: E402
from live_reading import reference_cases, try_live  # noqa: E402
from live_rows import live_pairs, live_rows  # noqa: E402
from long_recordings import try_long  # noqa: E402
from made_recordings import made_data  # noqa: E402
from order_reading import order_cases  # noqa: E402
from order_rows import orders  # noqa: E402
from outcome_rows import outcomes  # noqa: E402
from pair_edge_rows import pair_rows  # noqa: E402
from pair_order_rows import pair_orders  # noqa: E402
from pair_rows import PairRow  # noqa: E402
from pair_wanted import random_pair  # noqa: E402
from program import Cases, Program, must  # noqa: E402
from reads import ORDERS, READS  # noqa: E402
from recorded_list import Told  # noqa: E402
from recording_rows import Row, rows  # noqa: E402
from row_holds import row_holds  # noqa: E402
from tshark_frames import has, same_as_tshark  # noqa: E402
from wanted import Case, cut_cases, random_case, with_base  # noqa: E402

MADE = 48  # recordings of one kind
CUT = 12  # places where tshark sees one cut


def every_row() -> list[Row]:
    """What is spelled out, as far as the program knows the options."""
    return rows() + edges() + outcomes() + (orders() if ORDERS else [])


def every_pair_row() -> list[PairRow]:
    """The same of two recordings."""
    return pair_rows() + (pair_orders() if ORDERS else [])


def many_lists(program: Program, kind: str) -> None:
    """The lists of recordings made at random are sound."""
    for number in range(MADE):
        chance = random.Random(f"options/{number}")
        random_case(chance, made_data(kind, number)).listed(program)


def many_pair_lists(program: Program, kind: str) -> None:
    """The lists of pairs made at random are sound."""
    for number in range(MADE):
        random_pair(kind, number).listed(program)


def taken(said: Told) -> list[int]:
    """The numbers of the arrivals that are reported, in their order."""
    told = zip(said.numbers, said.lines)
    return [number for number, line in told if not line.startswith(b"#")]


def cut_anywhere(case: Case) -> None:
    """Of what is cut at any byte all is reported that stands before, arrivals in the same order,
    and the fault that it ends there; if none is held, a beginning of what the whole reports."""
    whole = case.told()
    for size in range(4, len(case.data)):
        part = case._replace(data=case.data[:size]).told()
        count = len(part.lines)
        must(sorted(part.numbers) == [*range(1, count + 1)], f"cut at {size}: {part.numbers}")
        wanted = [number for number in taken(whole) if number <= count]
        must(taken(part) == wanted, f"cut at {size} it takes {taken(part)}")
        is_same = case.options.held() > 0 or part.lines == whole.lines[:count]
        must(is_same, f"cut at {size} it tells something else")
        ended = [b"", b"recording Ended %d\n" % count, b"recording NoArrival %d\n" % count]
        must(part.fault in ended, f"cut at {size}: {part.fault!r}")


def seen_by_tshark(program: Program, name: str, data: bytes) -> None:
    """The reference says of a recording what tshark says."""
    same_as_tshark(program.write(name, data))


def tshark_cases(program: Program) -> list[tuple]:
    """Recordings made at random, and one of them cut."""
    every = [made_data("tshark", number) for number in range(MADE)]
    given = {f"made {number}": data for number, data in enumerate(every)}
    longest, chance = max(every, key=len), random.Random("cut")
    for size in sorted(chance.sample(range(28, len(longest)), CUT)):
        given[f"cut at {size}"] = longest[:size]
    return [
        (f"tshark: {name}", seen_by_tshark, program, name.replace(" ", "-"), data)
        for name, data in given.items()
    ]


def try_tshark(cases: Cases, program: Program) -> None:
    """The cases for which tshark, and other programs, are needed."""
    if not has("tshark"):
        cases.skip("what tshark says", "there is no tshark (apt-get install tshark)")
        return
    cases.try_at_once(tshark_cases(program))
    written = try_foreign(cases, program.folder)
    cases.try_at_once([(f"tshark: {name}", same_as_tshark, path) for name, path in written.items()])


def try_reference(cases: Cases, program: Program) -> None:
    """What the reference says."""
    every = [*every_row(), *live_rows()]
    cases.try_at_once([(f"row: {row.name}", row_holds, program, row) for row in every])
    cases.try_at_once([(f"cut: {name}", cut_anywhere, case) for name, case in cut_cases().items()])
    kinds = ["made", "mutated"]
    cases.try_at_once([(f"lists: {kind}", many_lists, program, kind) for kind in kinds])
    pairs = [*every_pair_row(), *live_pairs()]
    cases.try_at_once([(f"two: {row.name}", row_holds, program, row) for row in pairs])
    cases.try_at_once([*reference_cases()])
    cases.try_at_once([(f"lists of two: {kind}", many_pair_lists, program, kind) for kind in kinds])
    try_tshark(cases, program)


def try_orders(cases: Cases, program: Program) -> None:
    """Frames out of order, if the program puts them in order."""
    if ORDERS:
        cases.try_at_once([*order_cases(program)])
    else:
        cases.skip("frames out of order", "the program takes none (tests/lib/reads.py)")


def try_pairs(cases: Cases, program: Program) -> None:
    """Two recordings at once, if the program reads two."""
    if "two" in READS:
        pair_reading.try_pairs(cases, program, every_pair_row())
    else:
        cases.skip("two recordings at once", "the program reads one (tests/lib/reads.py)")


def main() -> None:
    """Takes the words, tries all cases in a folder that is removed, and ends."""
    words = argparse.ArgumentParser(
        description=__doc__, formatter_class=argparse.RawDescriptionHelpFormatter
    )
    words.add_argument("--reads", action="store_true", help="the program reads recordings")
    words.add_argument("program", metavar="PROGRAM", help="the built program")
    given = words.parse_args()
    if not os.access(given.program, os.X_OK):
        words.error(f"there is no program at {given.program}")
    cases = Cases()
    with tempfile.TemporaryDirectory(prefix="afdx-tests-") as folder:
        program = with_base(Program(given.program, folder))
        if not given.reads:
            try_reference(cases, program)
        elif READS:
            reading.try_reading(cases, program, every_row())
            try_orders(cases, program)
            try_pairs(cases, program)
            try_live(cases, program)
            try_long(cases, program)
    sys.exit(cases.told())


if __name__ == "__main__":
    main()
