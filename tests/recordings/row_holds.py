"""The rows that spell out a recording, or two of them: what stands there is what the reference
says, and what the program writes of the list that says the same."""
from __future__ import annotations

from pair_rows import PairRow
from pair_wanted import PairCase, pair_case
from program import Program, must, short
from recording_rows import Row
from wanted import Case, case_of, fits


def row_holds(program: Program, row: Row | PairRow) -> None:
    """The reference says what stands in the row, and so does the program's run on its list."""
    case: Case | PairCase = case_of(row) if isinstance(row, Row) else pair_case(row)
    wanted = case.told()
    fault = f"recording {row.fault}\n" if row.fault else ""
    must(wanted.fault == fault.encode(), f"wanted {fault!r}, found {wanted.fault!r}")
    must(fits(row.listed, wanted.text()), f"the list is {short(wanted.text())}")
    skipped = ".." if row.skipped == ".." else f"skipped {row.skipped}"
    must(fits(skipped, wanted.skipped), f"the counts are {wanted.skipped!r}")
    found = case.listed(program)
    must(fits(row.told, found.out), f"the run on the list writes {short(found.out)}")
    if not row.fault:
        counts = case.listed(program, "--summary").err
        summary = ".." if row.summary == ".." else f"summary {row.summary}"
        must(fits(summary, counts), f"the run on the list counts {counts!r}")
