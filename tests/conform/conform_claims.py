"""What must hold of a judge of switches: what is computed here, or the program."""
from __future__ import annotations

import random
import threading
from typing import Callable, NamedTuple

import tables as made
from conform import Judging, Taken, conform
from conform_explains import is_explained, is_right
from conform_terms import Options
from one_switch import MS
from program import Answer, Program, Wrong, answers, least_room, must
from recorded_switch import Recorded, RecordedSwitch, Told, lines_of
from rows import CONFIGS, ROWS, Row, list_of
from small_cases import Pair, small_pair
from traffic_made import bench_tables, traffic

NAMES = {name: f"--{name}" for name in ("slack", "between", "drift", "inner", "asked")}
FILES = ("config", "came", "left")  # the inputs of a judge
SHORT = 5_000  # frames of which it holds what it holds of any number
# options that change nothing of an answer, and the list that is read as standard input
WAYS: tuple[tuple[tuple[str, ...], str], ...] = (
    ((), ""), (("--line-buffered",), ""), (("--progress",), "came"), (("--summary",), "left"),
    (("--explain=never", "--line-buffered"), "came"),
)


class Judge:
    """The program, or without one what is computed here."""

    def __init__(self, program: Program | None = None) -> None:
        self.program = program

    def answer(self, pair: Pair, *more: str, standard: str = "") -> Answer:
        """What it answers, with more options; the list of that name is its standard input."""
        if self.program is None:
            return conform(*pair)
        return self.run((*more, *pair.words), dict(zip(FILES, pair[:3])), standard)

    def run(self, words: tuple[str, ...], inputs: dict[str, bytes], standard: str = "") -> Answer:
        """What the program answers to these options and inputs, by their names."""
        assert self.program is not None
        paths = []
        for name, text in inputs.items():
            # until this thread writes its next one
            path = self.program.write(f"{name}-{threading.get_ident()}", text)
            paths.append("-" if name == standard else path)
        return self.program.run("conform", *words, *paths, given=inputs.get(standard, b""))


JUDGED = Judge()


# ---- rows, small cases ---------------------------------------------------------------------------


def pair_of(row: Row) -> Pair:
    """A row's configuration, lists and options."""
    came, left = list_of(row.came, "came"), list_of(row.left, "left")
    return Pair(CONFIGS[row.config], came, left, row.words())


def row_holds(judge: Judge, row: Row) -> None:
    """It answers as the row spells out."""
    wanted = row.answer()
    answers(judge.answer(pair_of(row)), wanted.status, wanted.out, wanted.err)


def rows_are_explained(judge: Judge) -> None:
    """With --explain more stands behind a fault's line, and nothing else is other."""
    for row in ROWS:
        wanted, found = row.answer(), judge.answer(pair_of(row), "--explain")
        front = found.err[: len(wanted.err)]
        answers(found._replace(err=front), wanted.status, wanted.out, wanted.err)
        more = found.err[len(wanted.err):]
        must((more != b"") == (wanted.err != b""), f"{row.name}: explained by {more!r}")


def bodies_are_refused(body: type[Judging]) -> None:
    """Some row refuses a wrong body."""
    must(any(conform(*pair_of(row), body) != row.answer() for row in ROWS), "no row refuses it")


def are_explained(seed: int, count: int) -> None:
    """In small cases a stream has no finding exactly where it has an explanation; where the account
    is known, exactly where it is right, and no answer is uncertain."""
    tried = 0

    class Explaining(Judging):
        """Compares each stream."""

        def __init__(self, tables: dict, options: Options, taken: Taken) -> None:
            nonlocal tried
            super().__init__(tables, options, taken)
            links = list(self.switch.links.values())
            for (_, _, place), stream in self.streams.items():
                none, terms = not stream.found, stream.terms
                explained = is_explained(terms, stream.came, stream.left)
                must(stream.is_unsure or explained == none, f"{stream.found} in case {case}")
                apart, inner = options.between, options.inner
                if options[:5] == (0, apart, 0, inner, 0) and options.start is None:
                    must(len(stream.states) == 1, f"several states in case {case}")
                    must(not stream.counts()[2], f"something is uncertain in case {case}")
                    right = is_right(terms, links[place], stream.came, stream.left)
                    must(right == none, f"by a known account {stream.found} in case {case}")
                tried += 1

    for case in range(count):
        conform(*small_pair(random.Random(f"{seed} {case}")), Explaining)
    must(tried > count, "too few streams")


def told_early(judge: Judge, seed: int, count: int) -> None:
    """What is written before a fault is the beginning of what is written without it, down to the
    lines whose moments are over."""
    told = 0
    for case in range(count):
        chance = random.Random(f"{seed} {case} early")
        pair = small_pair(chance, faulty=0)
        whole = judge.answer(pair)
        lists = [text.splitlines(keepends=True) for text in (pair.came, pair.left)]
        times = sorted(int(line.split(b" ")[1]) for line in [*lists[0], *lists[1]])
        if whole.status not in (0, 3, 5) or whole.err or not times:
            continue
        end, bad = chance.choice(times), chance.randrange(2)
        cut = [[line for line in lines if int(line.split(b" ")[1]) <= end] for lines in lists]
        cut[bad].append(b"bad\n")
        begun = pair._replace(came=b"".join(cut[0]), left=b"".join(cut[1]))
        found = judge.answer(begun)
        name = ("came", "left")[bad]
        must(found.status == 3 and found.err.startswith(b"list %s " % name.encode()), "no fault")
        must(whole.out.startswith(found.out), f"case {case}: {found.out!r} of {whole.out!r}")
        told += found.out != b""
    must(told, "nothing was told before a fault")


def judged_alike(judge: Judge, seed: int, count: int, first: int = 0) -> None:
    """It answers what is computed here, with any of the options that change nothing."""
    for case in range(first, first + count):
        pair = small_pair(random.Random(f"{seed} {case} alike"), faulty=0.15)
        wanted, (more, standard) = conform(*pair), WAYS[case % len(WAYS)]
        found = judge.answer(pair, *more, standard=standard)
        try:
            answers(found, wanted.status, wanted.out, wanted.err)
        except Wrong as wrong:
            raise Wrong(f"case {case} of seed {seed}, {(*more, *pair.words)}: {wrong}") from None


# ---- right switches ------------------------------------------------------------------------------


def words_of(options: Options) -> tuple[str, ...]:
    """The words of the leeway."""
    words = []
    for name, option in NAMES.items():
        words += [option, str(getattr(options, name))]
    return tuple(words)


def any_options(chance: random.Random) -> Options:
    """Any leeway of a bench."""
    slack, drift = chance.choice([0, 1, 500, 100_000]), chance.choice([0, 1, 100, 1_000])
    between = chance.choice([0, 0, 1, 20_000, 300_000, 100 * MS])
    inner, asked = chance.choice([0, 60_000]), chance.choice([0, 1, 10_000])
    return Options(slack=slack, between=between, drift=drift, inner=inner, asked=asked)


def nothing_found(
    judge: Judge, pair: Pair, asked: Callable[[Judge, Pair], Answer] = Judge.answer
) -> None:
    """No finding, and none that couldn't be told."""
    answer = asked(judge, pair)
    last = answer.out.decode().split(" ")[0]
    told = answer.out[:300], answer.err[:300], pair.words
    must(answer.status in (0, 3) and last in ("conforms", "undecided"), f"{told}")
    must(answer.out.count(b"\n") == 1 and not answer.err, f"{told}")


def recorded(
    switch: RecordedSwitch, words: tuple[str, ...], begins: tuple[int, int], ends: tuple[int, int]
) -> Pair:
    """What was recorded of what came and of what left, each from a time up to another."""
    came = lines_of(switch.came, begins[0], ends[0])
    left = lines_of(switch.left, begins[1], ends[1])
    return Pair(made.text_of(switch.tables), came, left, words)


def near(chance: random.Random, switch: RecordedSwitch) -> int:
    """A time at which a line of a recording may be missing."""
    time = chance.choice(chance.choice([switch.came, switch.left or switch.came]))[0]
    slack, reach = switch.options.slack, switch.options.reach()
    return max(0, time + chance.choice([-1, 0, 1, slack, reach, chance.randint(0, MS)]))


def right_conform(judge: Judge, seed: int, count: int) -> None:
    """Right switches are never accused: recorded as a whole, or from a time on, or by recorders
    that stop apart."""
    for case in range(count):
        chance = random.Random(f"{seed} {case} right")
        tables, options = bench_tables(chance, chance.choice([1, 3])), any_options(chance)
        switch = RecordedSwitch(tables, options, chance)
        kinds = chance.choice([1, 2, 1000])
        switch.run(traffic(chance, tables, chance.choice([5, 40]), kinds, odd=0.05))
        words, none, far = words_of(options), (0, 0), (10**18, 10**18)
        nothing_found(judge, recorded(switch, words, none, far))
        begin, end = sorted(near(chance, switch) for _ in range(2))
        stopped = end, end + chance.randrange(MS)
        until = (*words, "--until", str(end))
        nothing_found(judge, recorded(switch, until, none, stopped))
        nothing_found(judge, recorded(switch, until, none, stopped[::-1]))
        first = max(0, begin - options.reach())
        starts = begin, first - chance.randrange(MS)
        nothing_found(judge, recorded(switch, (*words, "--from", str(begin)), starts, far))
        nothing_found(judge, recorded(switch, (*until, "--from", str(begin)), starts, stopped))


def anywhere_conform(judge: Judge, seed: int) -> None:
    """Wherever a recording begins or ends, a right switch isn't accused. Stamps may be off by more
    than a frame takes, so that it may seem to leave before it came, by their own accuracy or since
    the recorders are apart."""
    chance = random.Random(f"{seed} anywhere")
    tables = bench_tables(chance, 1)
    tables["link"][0] |= {"to": ["s3"], "latency_us": 150}
    slack = (100_000, 50_000, 0)[seed % 3]
    options = Options(slack, between=200_000 - 2 * slack, asked=chance.choice([0, 10_000]))
    switch = RecordedSwitch(tables, options, chance)
    switch.run([each for each in traffic(chance, tables, 12, 1000, odd=0) if each.side == "A"])
    words, far = words_of(options), (10**18, 10**18)
    for time, *_ in [*switch.came, *switch.left]:
        for more in (-1, 0, 1, 200_000, 350_000, 450_000, 550_000):
            at = max(0, time + more)
            until, start = (*words, "--until", str(at)), (*words, "--from", str(at))
            nothing_found(judge, recorded(switch, until, (0, 0), (at, at)))
            begins = at, max(0, at - options.reach())
            nothing_found(judge, recorded(switch, start, begins, far))


def left_out_conform(judge: Judge, seed: int) -> None:
    """What is left out isn't judged: a link of which nothing left, and frames of the switch's own.
    Nothing else is passed over."""
    chance = random.Random(f"{seed} left out")
    tables = bench_tables(chance, 3)
    switch = RecordedSwitch(tables, Options(), chance)
    switch.run(traffic(chance, tables, 12, 1000, odd=0))
    head = f"F 03000000{1:04x}"
    own = [(time, "A", 3, f"F {'ff' * 60}") for time in range(0, 10 * MS, 3 * MS)]
    left = [line for line in switch.left if not line[3].startswith(head)] + own
    words = ("--leave-out", "1", "--leave-out", "other")
    pair = Pair(made.text_of(tables), lines_of(switch.came), lines_of(left), words)
    nothing_found(judge, pair)
    count = len(own) + sum(line[3].startswith(head) for line in switch.came)
    out = judge.answer(pair).out
    must(b" left-out %d unseen 0 idle " % count in out, f"not {count}: {out!r}")
    for given in (words[:2], words[2:]):
        status = judge.answer(pair._replace(words=given)).status
        must(status == 5, f"{given} alone: status {status}")


def long_run_conforms(judge: Judge, count: int) -> None:
    """A sender at its full rate, whose frames are all equal, by clocks that drift by the most."""
    chance, options = random.Random(count), Options(slack=1_000, drift=100)
    tables = made.base_tables()
    tables["link"] = [tables["link"][0] | {"jitter_us": 40, "latency_us": 150}]
    tables["port"] = []
    switch = RecordedSwitch(tables, options, chance)
    coming = [each for each in traffic(chance, tables, count, 1, 0) if each.side == "A"]
    switch.run([each._replace(moment=place * MS) for place, each in enumerate(coming)])
    must(len(switch.left) > count * 9 // 10, "too few frames are accepted")
    pair = Pair(made.text_of(tables), lines_of(switch.came), lines_of(switch.left),
                words_of(options))
    nothing_found(judge, pair)


def steady_lists(program: Program, count: int) -> list[str]:
    """Files of a configuration, of so many frames that came, a BAG apart, and of them as they left.
    """
    texts = [list_of(" / ".join(str(place * MS + more) for place in range(count)), name)
             for name, more in (("came", 0), ("left", 6_720))]
    every = zip(FILES, (CONFIGS["base"], *texts))
    return [program.write(f"{name}-{count}", text) for name, text in every]


def steady_memory(program: Program, frames: int) -> None:
    """So many frames take no more memory than a few, up to 64 KiB."""
    program = program.apart()
    short, long = (steady_lists(program, count) for count in (SHORT, frames))
    room = least_room(lambda room: program.run_limited(room, "conform", *short).status == 0)
    last = b"conforms explained %d open 0 uncertain 0 left-out 0 unseen 0 idle 3\n" % frames
    answers(program.run_limited(room + 64, "conform", *long), 0, last, b"")


# ---- wrong switches ------------------------------------------------------------------------------


class Named(NamedTuple):
    """The frames of two lists, by the numbers of their lines."""

    came: list[str]
    left: list[str]


def digits_of(lines: list[Recorded]) -> list[str]:
    """The digits of each line, by its number from 1."""
    ordered = sorted(lines, key=lambda line: line[0])
    return ["", *(words.split(" ")[1] for _, _, _, words in ordered)]


def told_in(out: bytes, named: Named) -> set[Told]:
    """The findings of an output, by their frames."""
    found = set()
    for line in out.decode().splitlines()[:-1]:
        word, number, side, port = line.split(" ")[:4]
        digits = named.left if word == "strange" else named.came
        found.add((word, side, int(port), digits[int(number)]))
    return found


def wrong_pair(wrong: type[RecordedSwitch], case: int) -> tuple[RecordedSwitch, Pair]:
    """A wrong switch that ran, and what was recorded of it, by exact stamps."""
    chance = random.Random(f"{case} {wrong.__name__}")
    tables = bench_tables(chance, 4)
    switch = wrong(tables, Options(), chance)
    switch.run(traffic(chance, tables, 25, 1000, odd=0.05))
    last = max(line[0] for line in [*switch.came, *switch.left])
    words = ("--until", str(last + 1000 * MS))
    return switch, Pair(made.text_of(tables), lines_of(switch.came), lines_of(switch.left), words)


def just_these(switch: RecordedSwitch, answer: Answer, wanted: set[Told], name: str) -> int:
    """Just these are found; how many."""
    found = told_in(answer.out, Named(digits_of(switch.came), digits_of(switch.left)))
    apart = sorted(found ^ wanted)
    must(not apart, f"{name}: {len(apart)} of {len(wanted)}, {apart[:2]}")
    statuses = (5,) if wanted else (0, 3)
    must(answer.status in statuses, f"{name}: status {answer.status}")
    return len(found)


def wrong_are_found(judge: Judge, wrong: type[RecordedSwitch]) -> None:
    """By exact stamps a wrong switch is found at each frame with which it is amiss, and at no
    other."""
    told = 0
    for case in range(2):
        switch, pair = wrong_pair(wrong, case)
        told += just_these(switch, judge.answer(pair), switch.told, f"case {case}")
    must(told, "it was never amiss")
