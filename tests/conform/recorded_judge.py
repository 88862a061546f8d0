"""A judge of lists that is asked by recordings: what stands in two lists is recorded, in one
recording or in two, and the answer has the lines' numbers again."""
from __future__ import annotations

from cascade_run import Places, arrivals_of
from conform_claims import Judge
from conform_recorded import conform_recordings
from program import Answer, must
from recorded_cases import RecordedCase, all_keys, as_recordings, begin_at, seen_in
from recorded_forms import Key, Seen
from small_cases import Pair

LEFT_TOO = "strange"  # the word of lines that name what left
LAST = 8  # words of the last line, at least


def answer_to(judge: Judge, case: RecordedCase, *more: str, standard: int = -1) -> Answer:
    """What it answers, with more options; the recording at that place is its standard input."""
    if judge.program is None:
        return conform_recordings(case.config, case.data, case.words)
    inputs = {f"input-{place}": data for place, data in enumerate(case.data)}
    return judge.run((*more, *case.words), {"config": case.config} | inputs, f"input-{standard}")


def numbers_of(seen: list[Seen], is_one: bool) -> dict[tuple[bool, int], int]:
    """The line of each number of a recording, of what came and of what left."""
    found: dict[tuple[bool, int], int] = {}
    counts = [0, 0]  # of what came, of what left
    for number, each in enumerate(seen, 1):
        has_left = each.key[0]
        counts[has_left] += 1
        found[has_left, number if is_one else counts[has_left]] = each.line.frame.number
    return found


def renumbered(out: bytes, numbers: dict[tuple[bool, int], int]) -> bytes:
    """An output of recordings with the numbers of lines."""
    lines = []
    for line in out.decode().splitlines():
        words = line.split(" ")
        if len(words) < LAST:
            key = words[0] == LEFT_TOO, int(words[1])
            must(key in numbers, f"there is no frame of that number: {line}")
            words[1] = str(numbers[key])
        lines.append(" ".join(words) + "\n")
    return "".join(lines).encode()


def of_links(pair: Pair) -> Pair:
    """The lists without what came of no link: recorded, it is skipped."""
    lines, _ = arrivals_of(pair.came, Places([], False))
    texts = [text for text in pair.came.splitlines(keepends=True) if text[:1] in b"FBR"]
    kept = (text for line, text in zip(lines, texts) if line.frame.link() is not None)
    return pair._replace(came=b"".join(kept))


class RecordingJudge(Judge):
    """Asks a judge by one recording, or by two. Of what stands at other places than these nothing
    is said, or where it `is_absent` nothing is recorded; all places stand where none is given."""

    def __init__(
        self, judge: Judge, is_one: bool, places: list[Key] | None = None, is_absent: bool = False
    ) -> None:
        super().__init__(judge.program)
        self.is_one, self.places, self.is_absent = is_one, places, is_absent

    def case_of(self, pair: Pair) -> tuple[RecordedCase, list[Seen]]:
        """The recordings of two lists, and the frames in them."""
        seen = seen_in(pair)
        keys = all_keys(pair, seen)
        named = keys if self.places is None else self.places
        recorded = named if self.is_absent else keys
        first = next(key for key in named if not key[0])
        seen = [begin_at(first), *(each for each in seen if each.key in recorded)]
        return as_recordings(pair, seen, recorded, named, self.is_one), seen

    def answer(self, pair: Pair, *more: str, standard: str = "") -> Answer:
        """What it answers, with the numbers of lines."""
        case, seen = self.case_of(pair)
        found = answer_to(self, case, *more)
        return found._replace(out=renumbered(found.out, numbers_of(seen, self.is_one)))
