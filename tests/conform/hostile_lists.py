"""Lists for `conform` that break off, are malicious, or as long as they may be; a part of
tests/run/hostile.py."""
from __future__ import annotations

import random
from collections.abc import Iterable, Iterator

import tables as made
from conform import conform
from conform_claims import Judge, pair_of
from first_fault import LATEST
from frames import frame_of
from one_switch import MS
from program import Answer, Program, answers, least_room, must
from rows import CONFIGS, ROWS, list_of
from rows import digits as digits_of
from small_cases import Pair

LISTS = ("CAME", "LEFT")
# a list that isn't tried
BESIDE = list_of("0 / 20000", "came"), list_of("6720 / 60000", "left")
CUT = (  # rows
    "all orders at one moment", "times that go back", "a frame twice",
    "told before what is passed over",
)
SHORT, ODD_TIMES = b"R 0 A 1 -\n", (0, 1, MS, LATEST - 1, LATEST)
FRAME = 132  # bytes of a line with a frame, beside its time and port


class OneList:
    """`conform` with base tables, of which one list is tried: that at this place."""

    is_frames = True

    def __init__(self, judge: Judge, place: int) -> None:
        self.judge, self.names_lines = judge, place == 1
        self.known: dict[bytes, Answer] = {}

    def pair(self, given: bytes) -> Pair:
        """What is given beside the other list."""
        came, left = (BESIDE[0], given) if self.names_lines else (given, BESIDE[1])
        return Pair(CONFIGS["base"], came, left, ())

    def run(self, given: bytes) -> Answer:
        """The answer to a list."""
        return self.judge.answer(self.pair(given))

    def is_told(self, given: bytes) -> Answer:
        """It is answered as is computed here."""
        wanted, found = conform(*self.pair(given)), self.run(given)
        answers(found, wanted.status, wanted.out, wanted.err)
        return found


def one_list_commands(program: Program) -> dict[str, OneList]:
    """By their names."""
    judge = Judge(program)
    return {f"conform, {name}": OneList(judge, place) for place, name in enumerate(LISTS)}


def same_as_computed(judge: Judge, pair: Pair) -> None:
    """It is answered as is computed here."""
    wanted = conform(*pair)
    answers(judge.answer(pair), wanted.status, wanted.out, wanted.err)


def cut_lists(judge: Judge, pair: Pair, seed: int) -> None:
    """Each of the two lists cut at each byte, and some of both."""
    chance, (_, came, left, _) = random.Random(seed), pair
    for place, text in enumerate((came, left)):
        for count in range(max(0, len(text) - 5 * FRAME), len(text)):
            same_as_computed(judge, pair.with_list(place, text[:count]))
    for _ in range(100):
        counts = chance.randrange(len(came) + 1), chance.randrange(len(left) + 1)
        same_as_computed(judge, pair._replace(came=came[: counts[0]], left=left[: counts[1]]))


def most_lines(judge: Judge) -> None:
    """1,000,000 lines of either list, and one more; all of one moment."""
    base, full = Pair(CONFIGS["base"], b"", b"", ()), SHORT * 1_000_000
    last = b"undecided explained 0 open 0 uncertain 0 left-out 0 unseen 0 idle 4\n"
    answers(judge.answer(base._replace(came=full)), 3, last, b"")
    for place, name in enumerate(LISTS):
        one = base.with_list(place, full + SHORT)
        answers(judge.answer(one), 3, b"", b"list %s TooManyLines\n" % name.lower().encode())
    told = b"".join(b"strange %d A 1 too-short\n" % n for n in range(1, 1_000_001))
    told += b"deviates 1000000" + last.removeprefix(b"undecided")
    answers(judge.answer(base._replace(left=full)), 5, told, b"")


def equal_frames(judge: Judge, count: int, span: int) -> None:
    """So many equal frames come at one moment, and leave within so many ns: one is right, and each
    other one that came has passed."""
    form, _, side, port, digits = list_of("6720", "left").decode().split()
    lines = (f"{form} {6_720 + span * place // count} {side} {port} {digits}\n"
             for place in range(count))
    came = list_of("0", "came") * count
    found = judge.answer(Pair(CONFIGS["base"], came, "".join(lines).encode(), ()))
    told = b"".join(b"passed %d A 3 over-rate\n" % n for n in range(2, count + 1))
    last = b"deviates %d explained 1 open 0 uncertain 0 left-out 0 unseen 0 idle 3\n" % (count - 1)
    answers(found, 5, told + last, b"")


def nothing_came(judge: Judge) -> None:
    """30,000 frames of a stream leave at one moment, of which none came."""
    count = 30_000
    found = judge.answer(Pair(CONFIGS["base"], b"", list_of("0", "left") * count, ()))
    told = b"".join(b"strange %d A 3 no-arrival\n" % n for n in range(1, count + 1))
    last = b"deviates %d explained 0 open 0 uncertain 0 left-out 0 unseen 0 idle 3\n" % count
    answers(found, 5, told + last, b"")


def many_begun(judge: Judge) -> None:
    """30,000 frames of a stream leave at one moment, which all came before the begin."""
    count = 30_000
    pair = Pair(CONFIGS["base"], b"", list_of("1", "left") * count, ("--from", "0"))
    last = b"conforms explained %d open 0 uncertain 0 left-out 0 unseen 0 idle 3\n" % count
    answers(judge.answer(pair), 0, last, b"")


def distinct_frames(first: int, count: int) -> list[str]:
    """The digits of so many frames of link 1, no two of the same bytes, numbered from the first."""
    system = made.base_tables()["system"][0]
    payloads = (place.to_bytes(4, "big") for place in range(first, first + count))
    return [frame_of(system, 1, 1000, payload, 0, "A").hex() for payload in payloads]


def distinct_list(port: int, time: int, first: int, count: int) -> bytes:
    """They at this time."""
    lines = (f"R {time} A {port} {frame}\n" for frame in distinct_frames(first, count))
    return "".join(lines).encode()


def strangers(judge: Judge, count: int) -> None:
    """So many frames come at one moment, and as many others leave."""
    came, left = distinct_list(1, 0, 0, count), distinct_list(3, 6_720, count, count)
    found = judge.answer(Pair(CONFIGS["base"], came, left, ()))
    told = b"".join(b"strange %d A 3 no-arrival\n" % n for n in range(1, count + 1))
    last = b"deviates %d explained 0 open 1 uncertain 0 left-out 0 unseen 0 idle 3\n" % count
    answers(found, 5, told + last, b"")


def turned_round(judge: Judge, count: int, span: int) -> None:
    """So many frames come at one moment, and leave in the other order, within so many ns."""
    came, lines = distinct_list(1, 0, 0, count), []
    for place, frame in enumerate(reversed(distinct_frames(0, count))):
        lines.append(f"R {6_720 + span * place // count} A 3 {frame}\n")
    found = judge.answer(Pair(CONFIGS["base"], came, "".join(lines).encode(), ()))
    told = b"stopped 1 A 3\n"
    told += b"".join(b"passed %d A 3 over-rate\n" % n for n in range(count, 1, -1))
    told += b"strange %d A 3 out-of-turn\n" % count
    last = b"deviates %d explained 0 open 0 uncertain 0 left-out 0 unseen 0 idle 3\n" % (count + 1)
    answers(found, 5, told + last, b"")


def spread(count: int, first: int, span: int, port: int, form: str = "F", frame: str = "H1") -> str:
    """So many equal frames from this time on, within so many ns, through this port."""
    words = f"A {port} {digits_of(frame)}\n"
    return "".join(f"{form} {first + span * n // count} {words}" for n in range(count))


def many_equal(
    judge: Judge, came: str, left: str, told: Iterable[str], end: str, until: int = 0
) -> None:
    """These lists are told so, with this last line but for its last numbers."""
    words = ("--until", str(until)) if until else ()
    found = judge.answer(Pair(CONFIGS["base"], came.encode(), left.encode(), words))
    last = f"deviates {end} uncertain 0 left-out 0 unseen 0 idle 3\n"
    answers(found, 5, ("".join(f"{line}\n" for line in told) + last).encode(), b"")


def passed(first: int, count: int) -> list[str]:
    """So many have passed, from this one on."""
    return [f"passed {n} A 3 over-rate" for n in range(first, first + count)]


def strange(first: int, count: int) -> list[str]:
    """Of so many frames, from this one on, nothing came."""
    return [f"strange {n} A 3 no-arrival" for n in range(first, first + count)]


def one_held_back(judge: Judge, count: int) -> None:
    """A refused frame never leaves, and too late for it so many refused ones come and leave."""
    came = spread(2, 0, 0, 1) + spread(count, 30_000, 10_000, 1)
    left = spread(1, 6_720, 0, 3) + spread(count, 36_720, 10_000, 3)
    many_equal(judge, came, left, passed(3, count), f"{count} explained 1 open 0")


def sealed_otherwise(judge: Judge, count: int) -> None:
    """So many frames that are sealed wrongly never leave; as many of the same message do."""
    came = spread(count, 0, 0, 1, "B") + spread(count, 0, 0, 1)
    left = spread(count, 6_720, 10_000, 3)
    told = passed(count + 2, count - 1)
    many_equal(judge, came, left, told, f"{count - 1} explained 1 open 0")


def all_too_late(judge: Judge, count: int) -> None:
    """Of so many frames that come one leaves, and as many leave that are too late."""
    left = spread(1, 6_720, 0, 3) + spread(count, 17_500, 0, 3)
    told = strange(2, count)
    many_equal(judge, spread(count, 0, 0, 1), left, told, f"{count} explained 1 open 0")


def each_twice(judge: Judge, count: int) -> None:
    """So many refused frames leave twice, too late to be the accepted one."""
    came = spread(1, 0, 0, 1) + spread(count, 12_000, 0, 1)
    left = spread(1, 6_720, 0, 3) + spread(2 * count, 20_000, 5_000, 3)
    told = passed(2, count) + strange(count + 2, count)
    many_equal(judge, came, left, told, f"{2 * count} explained 1 open 0")


def all_too_early(judge: Judge, count: int, until: int) -> None:
    """So many frames leave before as many come, behind one that doesn't leave."""
    came = spread(1, 0, 0, 1) + spread(count, 15_000, 0, 1, frame="H1(01)")
    left = spread(count, 7_000, 0, 3, frame="H1(01)")
    told = strange(1, count)
    if until:
        told.append("stopped 1 A 3")
    end = f"{len(told)} explained 0 open {0 if until else 1}"
    many_equal(judge, came, left, told, end, until)


def forms_of(place: int, chance: random.Random) -> list[bytes]:
    """Lines, without time and port, of a frame of link 1: sealed, sealed wrongly, and with other
    ends; of some the bytes are the same."""
    system = made.base_tables()["system"][0]
    frame = frame_of(system, 1, 1000, place.to_bytes(2, "big"), 0, "A")
    front, seal = frame[:-4], frame[-4:]
    ends = seal, bytes(255 - byte for byte in seal), chance.randbytes(4), b""
    whole = [b"R %s" % (front + end).hex().encode() for end in ends]
    return [b"F %s" % front.hex().encode(), b"B %s" % front.hex().encode(), *whole]


def out_of_order(judge: Judge, seed: int) -> None:
    """Some frames in several forms come and leave many times within two latencies, in any order."""
    chance = random.Random(seed)
    forms = [line for place in range(8) for line in forms_of(place, chance)]
    lists = []
    for port, latest, count in ((1, 20_000, 700), (3, 40_000, 300)):
        times = sorted(chance.randrange(latest) for _ in range(count))
        lines = [chance.choice(forms).split() for _ in times]
        lists.append(b"".join(b"%s %d A %d %s\n" % (form, time, port, digits)
                              for time, (form, digits) in zip(times, lines)))
    words = ("--slack", str(chance.choice([0, 1, 1_000])))
    same_as_computed(judge, Pair(CONFIGS["base"], lists[0], lists[1], words))


def largest_tables(judge: Judge) -> None:
    """A frame of each of 4,096 links came, and none left any of 23 ports."""
    tables = made.largest_tables()
    lines = []
    for place, link in enumerate(tables["link"]):
        system = made.system_named(tables, link["from"])
        frame = frame_of(system, link["vl"], 1000, b"", 0, "A")
        lines.append(f"R 0 A {system['port']} {frame.hex()}\n")
    pair = Pair(made.text_of(tables), "".join(lines).encode(), b"", ("--until", str(LATEST)))
    ports = [made.system_named(tables, link["from"])["port"] for link in tables["link"]]
    told = "".join(f"stopped {place} A {port}\n" for port in range(1, 25)
                   for place, own in enumerate(ports, 1) if own != port)
    last = f"deviates {4096 * 23} explained 0 open 0 uncertain 0 left-out 0 unseen 0"
    last += f" idle {4096 * 23}\n"
    answers(judge.answer(pair), 5, (told + last).encode(), b"")


def held_room(program: Program, receivers: int, count: int) -> int:
    """The least address space, in KiB, in which so many of the longest frames of a link are held
    until the end, for so many receivers."""
    systems = [made.system_of(port, 1000) for port in range(1, 2 + receivers)]
    to = [system["name"] for system in systems[1:]]
    link = made.link_of(0, "s1", to, lmax=1518, subs=4)
    tables = made.tables_of(systems, [link], profile=2, buffer=524288)
    frame = frame_of(systems[0], link["vl"], 1000, b"x" * 1471, 0, "A").hex()
    came = "".join(f"R {place} A 1 {frame}\n" for place in range(count))
    files = [program.write(name, text) for name, text in (
        ("held.toml", made.text_of(tables)), ("held.came", came.encode()), ("held.left", b""))]
    words = "conform", "--until", str(count), *files
    found = program.run(*words)
    last = b" open %d uncertain 0 left-out 0 unseen 0 idle %d\n" % (receivers, 2 * receivers)
    must(found.out.endswith(last), f"the answer is {found}")
    return least_room(lambda room: program.run_limited(room, *words) == found)


def held_once(program: Program, count: int) -> None:
    """A frame that is held for 23 receivers takes the room of one, and a little for each."""
    program = program.apart()
    one, all_of_them = (held_room(program, receivers, count) for receivers in (1, 23))
    beside = (all_of_them - one) * 1024 // count
    must(beside < 23 * 400, f"beside one a frame takes {beside} bytes more for 22 others")


def largest_numbers(judge: Judge, seed: int) -> None:
    """The greatest times and options."""
    chance = random.Random(seed)
    most = [("--slack", MS), ("--between", 100 * MS), ("--drift", 1000), ("--inner", MS),
            ("--asked", MS)]
    most += [("--from", LATEST), ("--until", LATEST)]
    for _ in range(100):
        words = [word for name, value in chance.sample(most, chance.randint(0, len(most)))
                 for word in (name, str(value - chance.choice([0, 0, 1])))]
        came, left = (" / ".join(
            str(time) for time in sorted(chance.choices(ODD_TIMES, k=chance.randint(0, 4)))
        ) for _ in "cl")
        pair = Pair(CONFIGS["base"], list_of(came, "came"), list_of(left, "left"), tuple(words))
        same_as_computed(judge, pair)


def many_states(judge: Judge) -> None:
    """Equal frames each 6,720 ns, where it isn't known which of them passed."""
    times = [place * 6_720 for place in range(150)]
    came = list_of(" / ".join(map(str, times)), "came")
    left = list_of(" / ".join(str(time + 10_000) for time in times[::20]), "left")
    for slack in (0, 1_000, 100_000):
        words = ("--from", "0", "--slack", str(slack))
        same_as_computed(judge, Pair(CONFIGS["base"], came, left, words))


def hostile_lists(program: Program) -> Iterator[tuple]:
    """What is tried of both lists."""
    judge, rows = Judge(program), {row.name: row for row in ROWS}
    for seed, name in enumerate(CUT):
        yield f"conform, cut: {name}", cut_lists, judge, pair_of(rows[name]), seed
        yield f"conform, the greatest numbers, {seed}", largest_numbers, judge, seed
    yield "conform: the most lines", most_lines, judge
    yield "conform: equal times", equal_frames, judge, 200_000, 0
    yield "conform: nothing came", nothing_came, judge
    for times in (1, 2, 4):  # what is quadratic takes too long
        yield f"conform: {20_000 * times} strangers", strangers, judge, 20_000 * times
        for span in (0, 10_000):
            name = f"conform: {20_000 * times} turned round within {span} ns"
            yield name, turned_round, judge, 20_000 * times, span
        name = f"conform: {20_000 * times} equal frames within 10000 ns"
        yield name, equal_frames, judge, 20_000 * times, 10_000
        for case in (sealed_otherwise, all_too_late):
            yield f"conform: {20_000 * times} equal, {case.__name__}", case, judge, 20_000 * times
        for until in (0, 100_000):
            name = f"conform: {20_000 * times} equal, all_too_early until {until}"
            yield name, all_too_early, judge, 20_000 * times, until
    for case in (one_held_back, each_twice):
        yield f"conform: 400000 equal, {case.__name__}", case, judge, 400_000
    for seed in range(4):
        yield f"conform: out of order, {seed}", out_of_order, judge, seed
    yield "conform: the largest tables", largest_tables, judge
    yield "conform: a frame is held once for all receivers", held_once, program, 4_000
    yield "conform: many have begun", many_begun, judge
    yield "conform: many states", many_states, judge
