"""`conform` on recordings that are read from weak devices, or cut at each byte; a part of
tests/run/devices.py and of tests/run/hostile.py."""
from __future__ import annotations

from collections.abc import Iterator

from conform_claims import Judge
from conform_recorded import NAMES, conform_recordings
from program import Program, answers
from recorded_cases import RecordedCase
from recorded_judge import answer_to
from recorded_more_rows import MORE_RECORDED_ROWS
from recorded_rows import RECORDED_ROWS, RecordedRow
from rows import CONFIGS
from weak import FEW, Call, Weak, WeakOfTwo, never_again, of_kind, weak_devices

AT_ONCE = "--line-buffered"
TRIED = (  # rows of one recording and of two, of each ending, in which none is out of order unsaid
    "a frame came and left", "out of order, in the order of numbers",
    "frames that the recorder lost", "other frames and interfaces",
    "the same interface of two recordings", "the second one breaks off",
    "a time too large, of what left", "nothing came", "at one moment what came first",
    "lost of both", "a fault before what was lost", "told before a fault", "no frames of two",
)
SUMMED_UP = ("nothing was skipped of two", "some of each kind was skipped")
ROWS = {row.name: row for row in (*RECORDED_ROWS, *MORE_RECORDED_ROWS)}


def case_of(row: RecordedRow) -> RecordedCase:
    """A row's configuration, recordings and options."""
    return RecordedCase(CONFIGS[row.config], row.inputs(), row.words())


def written(case: RecordedCase, data: tuple[bytes, ...], opens: str, at_once: bool) -> bytes:
    """What is written of these bytes where the run asks for more of an input that is open."""
    words = (*case.words, AT_ONCE) if at_once else case.words
    return conform_recordings(case.config, data, words, opens).out


def words_of(program: Program, case: RecordedCase) -> list[str]:
    """The command with its options, without the recordings."""
    return ["conform", *case.words, program.apart().write("config", case.config)]


class WeakBoth(Weak):
    """`conform` on one recording."""

    def __init__(self, program: Program, case: RecordedCase, by_path: bool) -> None:
        self.case = case
        super().__init__(program, words_of(program, case), case.data[0], by_path)

    def lines_before(self, count: int, at_once: bool = False) -> bytes:
        """What is written once so many bytes were read, if the run then stops."""
        return written(self.case, (self.given[:count],), NAMES[0], at_once)


class WeakOne(WeakOfTwo):
    """`conform` on two recordings, one of which is weak."""

    def __init__(self, program: Program, case: RecordedCase, place: int, by_path: bool) -> None:
        self.case = case
        pair = case.data[0], case.data[1]
        super().__init__(program, words_of(program, case), pair, place, by_path)

    def lines_before(self, count: int, at_once: bool = False) -> bytes:
        """What is written once so many bytes of the weak one were read, if the run then stops."""
        return written(self.case, self.front_of(count), NAMES[self.place], at_once)

    def told_before(self, reads: list[Call]) -> bytes:
        """What these reads give with --line-buffered, where the run then asks for more."""
        pair, are_open = self.read_by(reads)
        opens = " ".join(name for name, is_open in zip(NAMES, are_open) if is_open)
        return written(self.case, pair, opens, at_once=True)


def broken_summary(program: Program, case: RecordedCase) -> None:
    """Each write in turn fails, or takes nothing, down to the last of what was skipped; where one
    is interrupted, the text is whole or so it is said."""
    weak = WeakBoth(program, case, True) if len(case.data) == 1 else WeakOne(program, case, 0, True)
    fault, (_, calls) = weak.failed_write(False), weak.run(FEW)
    written = 0
    for k, whole in enumerate(of_kind(calls, "w"), 1):
        for how in ("fails", "once", "none", "interrupted"):
            found, calls = weak.run(FEW, write=f"{k}:{how}")
            if how == "interrupted" and found == weak.whole:
                continue
            weak.ends(found, fault, weak.whole.out[:written])
            never_again(calls, "w")
        written += whole.answer


def weak_case(program: Program, case: RecordedCase, place: int, by_path: bool) -> None:
    """All that weak devices do to a recording, or to one of two."""
    is_one = len(case.data) == 1
    weak_devices(WeakBoth(program, case, by_path) if is_one
                 else WeakOne(program, case, place, by_path))


def tried_rows() -> Iterator[RecordedRow]:
    """Those that are tried here."""
    return (ROWS[name] for name in TRIED)


def weak_recorded(program: Program) -> Iterator[tuple]:
    """Rows of which each recording is weak, by path and as standard input by turns."""
    by_path = False
    for row in tried_rows() if program.knows("conform", "--left") else ():
        for place, name in enumerate(NAMES[: len(row.data)]):
            if name == NAMES[1] and row.err.endswith(NAMES[0]):
                continue  # it isn't read
            by_path = not by_path
            given = program, case_of(row), place, by_path
            yield f"conform, {name} is weak: {row.name}", weak_case, *given
        by_path = not by_path
    for name in SUMMED_UP if program.knows("conform", "--left") else ():
        yield f"conform, a weak output: {name}", broken_summary, program, case_of(ROWS[name])


def cut_recordings(judge: Judge, row: RecordedRow) -> None:
    """Each of them, cut at each byte, is answered as is computed here."""
    case = case_of(row)
    for place, data in enumerate(case.data):
        for count in range(len(data)):
            cut = tuple(data[:count] if at == place else each for at, each in enumerate(case.data))
            wanted = conform_recordings(case.config, cut, case.words)
            found = answer_to(judge, case._replace(data=cut))
            answers(found, wanted.status, wanted.out, wanted.err)


def cut_cases(program: Program) -> Iterator[tuple]:
    """Rows that are cut."""
    for row in tried_rows() if program.knows("conform", "--left") else ():
        yield f"conform, cut recordings: {row.name}", cut_recordings, Judge(program), row
