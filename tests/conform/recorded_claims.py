"""What must hold of a judge of recordings: what is computed here, or the program."""
from __future__ import annotations

import random

from cascade_run import SIDES
from conform import conform
from conform_claims import Judge, any_options, just_these, nothing_found, pair_of, recorded
from conform_claims import words_of, wrong_pair
from conform_recorded import conform_recordings
from conform_terms import Options
from one_switch import MS
from program import Wrong, answers, must
from recorded_cases import RecordedCase, all_keys, seen_in, small_recordings
from recorded_forms import Key
from recorded_judge import RecordingJudge, answer_to, of_links
from recorded_rows import RecordedRow
from recorded_switch import Recorded, RecordedSwitch, Told
from rows import CONFIGS, ROWS
from small_cases import Pair, small_pair
from traffic_made import bench_tables, traffic

FAR = 10**18
HOW_MANY = ("two", "one")  # recordings
# options that change nothing of an answer, and the place of the one that is standard input
WAYS: tuple[tuple[tuple[str, ...], int], ...] = (
    ((), -1), ((), 0), (("--progress",), 1), (("--explain=never",), 0), ((), -1),
)


def recorded_row_holds(judge: Judge, row: RecordedRow) -> None:
    """It answers as the row spells out."""
    wanted = row.answer()
    case = RecordedCase(CONFIGS[row.config], row.inputs(), row.words())
    answers(answer_to(judge, case), wanted.status, wanted.out, wanted.err)


def recorded_rows_are_explained(judge: Judge, rows: tuple[RecordedRow, ...]) -> None:
    """With --explain more stands behind a fault's line, and nothing else is other."""
    for row in rows:
        wanted, case = row.answer(), RecordedCase(CONFIGS[row.config], row.inputs(), row.words())
        found = answer_to(judge, case, "--explain")
        front = found.err[: len(wanted.err)]
        answers(found._replace(err=front), wanted.status, wanted.out, wanted.err)
        more = found.err[len(wanted.err):]
        must((more != b"") == (wanted.err != b""), f"{row.name}: explained by {more!r}")


def list_rows_hold(judge: Judge, is_one: bool) -> None:
    """What is spelled out of lists is answered of the recordings that say the same."""
    tried = 0
    for row in ROWS:
        pair, wanted = pair_of(row), row.answer()
        if wanted.err or of_links(pair) != pair:
            continue
        tried += 1
        found = RecordingJudge(judge, is_one).answer(pair)
        try:
            answers(found, wanted.status, wanted.out, b"")
        except Wrong as wrong:
            raise Wrong(f"{row.name}: {wrong}") from None
    must(tried > len(ROWS) // 2, "too few rows")


def recorded_as_lists(judge: Judge, seed: int, count: int) -> None:
    """What is recorded of all ports is judged as the lists that say the same."""
    for case in range(count):
        pair = of_links(small_pair(random.Random(f"{seed} {case} recorded"), faulty=0))
        wanted = conform(*pair)
        found = RecordingJudge(judge, case % 2 == 0).answer(pair)
        try:
            answers(found, wanted.status, wanted.out, b"")
        except Wrong as wrong:
            raise Wrong(f"case {case} of seed {seed}, {pair.words}: {wrong}") from None


def recorded_alike(judge: Judge, seed: int, count: int, first: int = 0) -> None:
    """It answers what is computed here, with any of the options that change nothing."""
    for case in range(first, first + count):
        made = small_recordings(random.Random(f"{seed} {case} recordings"))
        wanted, (more, standard) = conform_recordings(*made), WAYS[case % len(WAYS)]
        try:
            found = answer_to(judge, made, *more, standard=standard)
            answers(found, wanted.status, wanted.out, wanted.err)
        except Wrong as wrong:
            raise Wrong(f"case {case} of seed {seed}, {made.words}: {wrong}") from None


# ---- half of the ports ---------------------------------------------------------------------------


def half_of(chance: random.Random, pair: Pair) -> list[Key]:
    """About half of the places, of either role one at least; and one at which something left."""
    seen = seen_in(pair)
    keys, last = all_keys(pair, seen), max(each.key for each in seen)
    roles = ([key for key in keys if key[0] == has_left] for has_left in (False, True))
    half = {key for role in roles for key in chance.sample(role, chance.randint(1, len(role) - 1))}
    return sorted(half | {last})


def is_seen(tables: dict, half: list[Key], vl: int, side: int, port: int) -> bool:
    """What comes of a link and what leaves this port of it are recorded."""
    port_of = {system["name"]: system["port"] for system in tables["system"]}
    sender = next(port_of[link["from"]] for link in tables["link"] if link["vl"] == vl)
    return (False, side, sender) in half and (True, side, port) in half


def unseen_of(tables: dict, half: list[Key]) -> int:
    """How many streams aren't."""
    port_of = {system["name"]: system["port"] for system in tables["system"]}
    return sum(not is_seen(tables, half, link["vl"], side, port_of[name])
               for link in tables["link"] for name in link["to"] for side in range(len(SIDES)))


def half_judge(judge: Judge, chance: random.Random, half: list[Key]) -> RecordingJudge:
    """Asks by what was recorded at these places; the others weren't recorded, or aren't named."""
    return RecordingJudge(judge, chance.random() < 0.5, half, chance.random() < 0.5)


def half_conforms(judge: Judge, seed: int, count: int) -> None:
    """Of a right switch nothing is found where half of its ports were recorded."""
    for case in range(count):
        chance = random.Random(f"{seed} {case} half")
        tables, options = bench_tables(chance, 3), any_options(chance)
        switch = RecordedSwitch(tables, options, chance)
        switch.run(traffic(chance, tables, 15, chance.choice([1, 2, 1000]), odd=0.05))
        pair = recorded(switch, words_of(options), (0, 0), (FAR, FAR))
        half = half_of(chance, pair)
        asked = half_judge(judge, chance, half)
        nothing_found(asked, pair)
        out, unseen = asked.answer(pair).out, unseen_of(tables, half)
        must(b" unseen %d idle " % unseen in out, f"case {case}, not {unseen}: {out!r}")


def is_foreign(switch: RecordedSwitch, word: str, vl: int, port: int) -> bool:
    """A frame left that no right switch sends, whatever came: damaged, or where its link doesn't
    go."""
    return word == "strange" and (switch.damages or port not in switch.ports_of(vl))


def half_is_found(judge: Judge, wrong: type[RecordedSwitch]) -> None:
    """Of a wrong switch what it was amiss with is found in the streams that were recorded, and of
    others what is foreign at a port that was."""
    told, case = 0, -1
    while case < 3 or (told == 0 and case < 20):
        case += 1
        switch, pair = wrong_pair(wrong, case)
        chance = random.Random(f"{case} half {wrong.__name__}")
        half = half_of(chance, pair)

        def is_told(
            each: Told, half: list[Key] = half, switch: RecordedSwitch = switch
        ) -> bool:
            vl, side, port = int(each[3][8:12], 16), SIDES.index(each[1]), each[2]
            is_open = (True, side, port) in half and is_foreign(switch, each[0], vl, port)
            return is_open or is_seen(switch.tables, half, vl, side, port)

        wanted = set(filter(is_told, switch.told))
        answer = half_judge(judge, chance, half).answer(pair)
        told += just_these(switch, answer, wanted, f"case {case}")
    must(told, "nothing amiss was recorded")


def within(chance: random.Random, lines: list[Recorded], begin: int, end: int) -> list[Recorded]:
    """The lines of each place from a time before this begin up to one behind this end."""
    spans = {line[1:3]: (begin - chance.randrange(5 * MS), end + chance.randrange(5 * MS))
             for line in lines}
    return [line for line in lines if spans[line[1:3]][0] <= line[0] <= spans[line[1:3]][1]]


def apart_conforms(judge: Judge, seed: int, count: int) -> None:
    """Of a right switch nothing is found where the recorder of each port starts and stops at a time
    of its own, before the one that is said and behind the other."""
    for case in range(count):
        chance = random.Random(f"{seed} {case} apart")
        tables, options = bench_tables(chance, 3), any_options(chance)
        switch = RecordedSwitch(tables, options, chance)
        switch.run(traffic(chance, tables, 30, chance.choice([1, 2, 1000]), odd=0.05))
        times = sorted(line[0] for line in switch.came)
        begin, end = sorted(max(0, chance.choice(times)) for _ in range(2))
        words = (*words_of(options), "--from", str(begin), "--until", str(end))
        switch.came = within(chance, switch.came, begin, end)
        switch.left = within(chance, switch.left, begin - options.reach(), end)
        pair = recorded(switch, words, (0, 0), (FAR, FAR))
        nothing_found(RecordingJudge(judge, case % 2 == 0), pair)


def long_recording_conforms(judge: Judge, count: int) -> None:
    """A sender at its full rate, whose frames are all equal, by a clock that drifts by 100 ppm."""
    chance, options = random.Random(count), Options(drift=100)
    tables = bench_tables(chance, 1)
    tables["link"][0] |= {"bag_ms": 1, "jitter_us": 0, "lmax": 64, "latency_us": 150}
    switch = RecordedSwitch(tables, options, chance)
    coming = [each for each in traffic(chance, tables, count, 1, 0) if each.side == "A"]
    switch.run([each._replace(moment=place * MS) for place, each in enumerate(coming)])
    must(len(switch.left) > count // 2, "too few frames are accepted")
    pair = recorded(switch, words_of(options), (0, 0), (FAR, FAR))
    nothing_found(RecordingJudge(judge, True), pair)
