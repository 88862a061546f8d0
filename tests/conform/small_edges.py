"""Small cases of several switches from edge to edge, made at random: what came from systems, what
left to systems, rightly or not quite, and options; and whether times on the cables are possible by
which each switch does right."""
from __future__ import annotations

import random
from collections.abc import Callable
from typing import NamedTuple

from admitted_cascades import SHAPES, admitted_cascade
from cascade import cascade_text, loaded
from cascade_check import Ways
from conform import Taken
from conform_edges import PORTS, EdgesJudging
from conform_explains import accepted_by
from conform_terms import BEFORE_FRAME, Came, Left, Options, Terms
from frames import byte_ns
from made_lists import made_list
from one_switch import MS
from replay_claims import Replay
from replayed_lists import Replayed
from small_cases import APART, ASKED, BAD_LINES, DRIFTS, INNERS, OFF, SLACKS, Pair

LEEWAY = {"--slack": SLACKS, "--between": APART, "--drift": DRIFTS, "--inner": INNERS,
          "--asked": ASKED}  # fmt: skip
Edges = Callable[[list[dict], bytes, bytes], Replayed]
FLAGS = {"--exercised": 0.1, "--senders": 0.4}


# ---- lists ---------------------------------------------------------------------------------------


class Choices(NamedTuple):
    """What lines are changed to: places with their ports, and times by which they are moved."""

    places: list[bytes]
    moved: list[int]


def choices_of(switches: list[dict]) -> Choices:
    """Of these switches: where systems stand, and the latencies."""
    places = [f"{switch['name']} {end['port']}".encode()
              for switch in switches for end in switch["system"]]  # fmt: skip
    latencies = [1000 * row["latency_us"] for switch in switches for row in switch["link"]]
    return Choices(places, [*OFF, *latencies, MS])


def changed(chance: random.Random, text: bytes, often: float, choices: Choices) -> bytes:
    """A list of which some lines are gone, twice there, or changed."""
    lines: list[list[bytes]] = []
    for line in text.splitlines():
        if line.count(b" ") != 5 or chance.random() >= often:
            lines.append(line.split(b" "))
            continue
        kind, time, side, switch, port, digits = line.split(b" ")
        how = chance.randrange(7)
        if how < 2:
            lines += how * 2 * [line.split(b" ")]
            continue
        if how < 4:
            time = b"%d" % max(0, int(time) + chance.choice(choices.moved))
        elif how == 4:
            switch, port = chance.choice(choices.places).split(b" ")
        elif how == 5:
            side = chance.choice([b"A", b"B"])
        else:
            kind, digits = chance.choice([(b"B", digits), (b"F", digits[:-2] + b"77"),
                                          (b"R", digits[:12]), (b"F", b"ff" * 60)])
        lines.append([kind, time, side, switch, port, digits])
    lines = [fields for fields in lines if len(fields) == 6]
    lines.sort(key=lambda fields: int(fields[1]))
    return b"".join(b" ".join(fields) + b"\n" for fields in lines)


def some_words(chance: random.Random, pair: Replayed, is_exact: bool) -> tuple[str, ...]:
    """Options, or none."""
    times = [int(line.split(b" ")[1]) for text in pair for line in text.splitlines()] or [0]
    words: list[str] = []
    for name, values in LEEWAY.items():
        if not is_exact and chance.random() < 0.3:
            words += [name, str(chance.choice(values))]
    for name in ("--until",) if is_exact else ("--from", "--until"):
        if chance.random() < 0.3:
            words += [name, str(max(0, chance.choice(times) + chance.choice([*OFF, MS])))]
    if not is_exact:
        words += [name for name, often in FLAGS.items() if chance.random() < often]
        words += ["--leave-out", "other"] if chance.random() < 0.1 else []
    if "--senders" in words and chance.random() < 0.3:
        words += ["--apart", str(chance.choice(APART))]
    return tuple(words)


def small_edges(chance: random.Random, replay: Replay, edges: Edges, is_exact: bool) -> Pair:
    """A small case; `edges` makes lists of a replay. An exact one has exact stamps and clocks, and
    lists without a fault."""
    shape = SHAPES[chance.choice(list(SHAPES))]
    cascade = admitted_cascade(chance, shape, chance.randint(2, 3), chance.randint(1, 3))
    text, switches = made_list(chance, cascade, 30), loaded(cascade_text(cascade))["switch"]
    choices = choices_of(switches)
    text = changed(chance, text, 0.0, choices)
    pair = edges(switches, text, replay(cascade, text))
    often = chance.choice([0.0, 0.05, 0.3])
    came = changed(chance, pair.came, chance.choice([0.0, 0.0, 0.1]), choices)
    left = changed(chance, pair.left, often, choices)
    words = some_words(chance, Replayed(came, left), is_exact)
    if not is_exact and chance.random() < 0.05:
        left += chance.choice(BAD_LINES)
    return Pair(cascade_text(cascade), came, left, words)


# ---- times on the cables -------------------------------------------------------------------------


class Way:
    """The rows of a link on its way to a system, and what a byte takes on each line."""

    def __init__(self, switches: list[dict], switch: dict, system: str, vl: int) -> None:
        self.rows = Ways(switches).way_to(switch["name"], vl) or []
        named = {each["name"]: each for each in switches}
        lines = [byte_ns(end) for end in switch["system"] if end["name"] == system]
        for row in reversed(self.rows[1:]):
            lines.insert(0, next(byte_ns(end) for end in switch["neighbour"]
                                 if end["name"] == row["from"]))
            switch = named[row["from"]]
        self.lines = lines

    def possible(self, came: list[Came], left: list[Left]) -> bool:
        """There are times on all cables at which these frames went there in order, from when they
        came to when they left, at each switch within its time on the line and its latency. Found
        as the longest ways between times of which each is at least so much after another."""
        hops = len(self.rows)
        after: dict[tuple, list[tuple[tuple, int]]] = {}  # of each time what comes so much later
        for at, (arrival, frame) in enumerate(zip(came, left)):
            ends = {0: arrival.time, hops: frame.time}
            for hop, time in ends.items():
                after.setdefault(("begin",), []).append(((at, hop), time))
                after.setdefault((at, hop), []).append((("begin",), -time))
            for hop, (row, line) in enumerate(zip(self.rows, self.lines)):
                least = (len(frame.content) + BEFORE_FRAME) * line
                after.setdefault((at, hop), []).append(((at, hop + 1), least))
                most = -1000 * row["latency_us"]
                after.setdefault((at, hop + 1), []).append(((at, hop), most))
            if at:
                for hop in range(hops + 1):
                    after.setdefault((at - 1, hop), []).append(((at, hop), 0))
        least_times = dict.fromkeys(after, 0)
        for _ in range(len(after) + 1):
            is_same = True
            for one, others in after.items():
                for other, more in others:
                    if least_times[one] + more > least_times[other]:
                        least_times[other], is_same = least_times[one] + more, False
            if is_same:
                return True
        return False


class Possible(EdgesJudging):
    """Compares each stream of exact stamps: it has no finding exactly where such times exist for
    what the first switch has to accept."""

    tried = [0, 0]  # by whether it is possible

    def __init__(self, tables: dict, options: Options, taken: Taken) -> None:
        self.way_of: dict[int, Way] = {}
        super().__init__(tables, options, taken)
        for (_, port, place), stream in self.streams.items():
            switch = self.switches[port // PORTS]
            system = next(one["name"] for one in switch["system"] if one["port"] == port % PORTS)
            way = Way(self.switches, switch, system, self.links[place]["vl"])
            accepted = accepted_by(way.rows[0], stream.came)
            wanted = self.is_right(stream.terms, way, accepted, stream.left)
            Possible.tried[wanted] += 1
            if wanted == bool(stream.found):
                raise ValueError(f"{stream.place}: {stream.found}, possible {wanted}")

    @staticmethod
    def is_right(terms: Terms, way: Way, accepted: list[Came], left: list[Left]) -> bool:
        """The frames are the first of the accepted ones, in time, and the others are open."""
        pairs = list(zip(accepted, left))
        is_same = all(arrival.content == frame.content for arrival, frame in pairs)
        are_open = all(terms.is_open(arrival) for arrival in accepted[len(left):])
        return len(pairs) == len(left) and is_same and are_open and way.possible(accepted, left)
