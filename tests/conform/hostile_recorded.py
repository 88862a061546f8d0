"""Recordings for `conform` that are malicious, or as large as they may be; a part of
tests/run/hostile.py."""
from __future__ import annotations

import random
from collections.abc import Iterator

from conform_claims import Judge, pair_of
from conform_recorded import conform_recordings
from hostile_lists import equal_frames, largest_numbers, largest_tables, many_begun, many_states
from hostile_lists import nothing_came
from hostile_recordings import large_blocks, large_frames, odd_bytes
from program import Program, answers
from recorded_cases import RecordedCase
from recorded_claims import HOW_MANY
from recorded_forms import packet
from recorded_judge import RecordingJudge, answer_to, of_links
from recorded_rows import HERE, SAME, TWO
from recording_rows import FIRST_NS, H1
from rows import CONFIGS, ROWS
from small_cases import Pair

MANY = 1_000_001  # frames: more than a list may have lines
SLOW = ("4,000,000 options", "100,000 sections")  # which take long to be computed
SOUND = bytes.fromhex(TWO + packet(0, FIRST_NS, bytes.fromhex(H1)))


def hostile_data(judge: Judge, data: bytes) -> None:
    """It is answered as is computed here: as the one recording, and as either of two."""
    for pair, words in (((data,), HERE), ((data, SOUND), SAME), ((SOUND, data), SAME)):
        case = RecordedCase(CONFIGS["base"], pair, (*words.split(), "--until", str(10**15)))
        wanted = conform_recordings(*case)
        answers(answer_to(judge, case), wanted.status, wanted.out, wanted.err)


def many_frames(judge: Judge) -> None:
    """More frames of one moment than a list may have lines: came, and left of no stream."""
    begin, odd = bytes.fromhex(TWO), bytes.fromhex("030000000001")
    came = bytes.fromhex(packet(0, FIRST_NS, odd)) * MANY
    left = bytes.fromhex(packet(1, FIRST_NS, b"")) * MANY
    counts = "explained 0 open 0 uncertain 0 left-out 0 unseen 3 idle 1\n"
    case = RecordedCase(CONFIGS["base"], (begin + came,), tuple(HERE.split()))
    answers(answer_to(judge, case), 3, f"undecided {counts}".encode(), b"")
    told = b"".join(b"strange %d A 3 too-short\n" % n for n in range(2, MANY + 2))
    found = answer_to(judge, case._replace(data=(SOUND + left,)), "--until", "0")
    last = f"deviates {MANY} {counts}".replace("open 0", "open 1").encode()
    answers(found, 5, told + last, b"")


def latest_first(judge: Judge, count: int) -> None:
    """So many frames that left, the latest first, and as many that came behind them."""
    frames = [packet(place, FIRST_NS + time, bytes.fromhex(H1)) for place in (1, 0)
              for time in range(count - 1, -1, -1)]
    words = (*HERE.split(), "--reorder", "100000")
    case = RecordedCase(CONFIGS["base"], (bytes.fromhex(TWO + "".join(frames)),), words)
    wanted = conform_recordings(*case)
    answers(answer_to(judge, case), wanted.status, wanted.out, wanted.err)


def cut_pairs(judge: Judge, pair: Pair, seed: int) -> None:
    """Two recordings that say the same, both cut anywhere."""
    chance = random.Random(seed)
    case, _ = RecordingJudge(judge, False).case_of(pair)
    for _ in range(40):
        data = tuple(each[: chance.randrange(len(each) + 1)] for each in case.data)
        cut = case._replace(data=data)
        wanted = conform_recordings(*cut)
        answers(answer_to(judge, cut), wanted.status, wanted.out, wanted.err)


def hostile_recorded(program: Program) -> Iterator[tuple]:
    """What is tried, where recordings are judged."""
    if not program.knows("conform", "--left"):
        return
    asked = Judge(program)
    for name, data in (large_frames() | large_blocks() | odd_bytes()).items():
        if name in SLOW:
            continue
        yield f"conform, a recording: {name}", hostile_data, asked, data
    for is_one, how_many in enumerate(HOW_MANY):
        judge, name = RecordingJudge(asked, bool(is_one)), f"conform, recorded by {how_many}"
        for seed in range(4):
            yield f"{name}: the greatest numbers, {seed}", largest_numbers, judge, seed
        yield f"{name}: equal times", equal_frames, judge, 5_000, 0
        yield f"{name}: nothing came", nothing_came, judge
        yield f"{name}: many have begun", many_begun, judge
        yield f"{name}: many states", many_states, judge
        yield f"{name}: the largest tables", largest_tables, judge
    for seed, row in enumerate(ROWS):
        pair = pair_of(row)
        if not row.err and row.came and row.left and of_links(pair) == pair:
            yield f"conform, recordings cut: {row.name}", cut_pairs, asked, pair, seed
    yield "conform: the most recorded frames", many_frames, asked
    yield "conform: recorded frames, the latest first", latest_first, asked, 800
