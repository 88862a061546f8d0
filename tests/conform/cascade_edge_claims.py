"""What must hold of a judge of several switches from edge to edge: what is computed here, or a
program that offers it."""
from __future__ import annotations

import random

from admitted_cascades import admitted
from cascade import cascade_text, loaded
from cascade_run import Places, arrivals_of
from conform import NO_SWITCH, Judging
from conform_claims import WAYS, Judge, any_options, nothing_found, words_of
from conform_edges import conform_edges
from cascade_edge_rows import EDGE_ROWS, SENDER_EDGE_ROWS, SenderEdgeRow, edge_pair
from made_lists import made_list
from one_switch import MS
from places import place_text
from program import Answer, Wrong, answers, must
from replay_claims import LEEWAYS, Replay, computed_replay, conforms
from recorded_cascade import RecordedCascade, list_of
from replayed_lists import Replayed, departures_of, raw, text_of
from rows import Row
from small_cases import Pair
from small_edges import Possible, small_edges
from wrong_cascades import WRONG_HOPS, Hop, Told, Wanted, wrong_cascade
from wrong_edges import wrong_edges


def edges_by(judge: Judge, pair: Pair) -> Answer:
    """What it answers of all switches."""
    return conform_edges(*pair) if judge.program is None else judge.answer(pair)


def offers_edges(judge: Judge) -> bool:
    """It judges several switches of which none is named."""
    return edges_by(judge, edge_pair(EDGE_ROWS[0])) != NO_SWITCH


def edge_row_holds(judge: Judge, row: Row) -> None:
    """It answers as the row spells out."""
    wanted = row.answer()
    answers(edges_by(judge, edge_pair(row)), wanted.status, wanted.out, wanted.err)


def senders_by(judge: Judge, row: SenderEdgeRow) -> Answer:
    """What it answers of all switches and of their systems."""
    config, came, left, words = row.pair()
    if judge.program is None:
        return conform_edges(config, came, left, words)
    inputs = {"config": config, "came": came} | ({} if left is None else {"left": left})
    return judge.run(words, inputs)


def sender_edge_row_holds(judge: Judge, row: SenderEdgeRow) -> None:
    """It answers as the row spells out."""
    wanted, found = row.answer(), senders_by(judge, row)
    answers(found, wanted.status, wanted.out, wanted.err)


def offers_sender_edges(judge: Judge) -> bool:
    """It judges the systems of several switches of which none is named, beside these; else it
    refuses the words."""
    return senders_by(judge, SENDER_EDGE_ROWS[0]).status != NO_SWITCH.status


def edges_are_refused(body: type[Judging]) -> None:
    """Some row refuses a wrong body."""
    is_refused = any(conform_edges(*edge_pair(row), body) != row.answer() for row in EDGE_ROWS)
    must(is_refused, "no row refuses it")


def at_edges(switches: list[dict], text: bytes, out: bytes) -> Replayed:
    """A list over several switches, and what left to their systems, as a replay says it."""
    arrivals, _ = arrivals_of(text, Places(switches, True))
    content = {arrival.frame.number: arrival.frame.content for arrival in arrivals}
    systems = {(switch["name"], end["port"]) for switch in switches for end in switch["system"]}
    left = [
        raw(each.time, place_text(each.side, each.switch), each.port, content[each.number])
        for each in departures_of(out, True) if (each.switch, each.port) in systems
    ]  # fmt: skip
    return Replayed(text, text_of(left))


def edges_conform(judge: Judge, replay: Replay, seed: int, count: int) -> None:
    """What a replay writes of admitted cascades conforms from edge to edge, with each leeway."""
    chance = random.Random(seed)
    for _ in range(count):
        cascade = admitted(chance)
        text, config = made_list(chance, cascade, 40), cascade_text(cascade)
        pair = at_edges(loaded(config)["switch"], text, replay(cascade, text))
        for words in LEEWAYS:
            answer = edges_by(judge, Pair(config, pair.came, pair.left, words))
            conforms(answer, not words and pair.left != b"", f"{words}")


def right_edges(judge: Judge, seed: int, count: int) -> None:
    """Right switches, each with a clock of its own, are never accused: recorded as a whole, or from
    a time on, or by recorders that stop apart."""
    for case in range(count):
        chance = random.Random(f"{seed} {case} right edges")
        cascade, options = admitted(chance), any_options(chance)
        run = RecordedCascade(cascade, options, chance)
        run.run_all(chance.choice([3, 12]), chance.choice([1, 2, 1000]))
        config, (came, left) = cascade_text(cascade), run.edges
        words, far = words_of(run.options), 10**18
        begin, end = sorted(chance.choice(came)[0] + chance.randrange(MS) for _ in range(2))
        since, first = ("--from", str(begin)), max(0, begin - options.reach())
        until, stopped = ("--until", str(end)), end + chance.randrange(MS)
        for more, starts, ends in (
            ((), (0, 0), (far, far)), (until, (0, 0), (end, stopped)),
            (since, (begin, first), (far, far)), ((*since, *until), (begin, first), (stopped, end)),
        ):  # fmt: skip
            lists = [list_of(each, one, other)
                     for each, one, other in zip((came, left), starts, ends)]  # fmt: skip
            nothing_found(judge, Pair(config, lists[0], lists[1], (*words, *more)), edges_by)


def told_at_edges(out: bytes, lists: Replayed) -> set[Told]:
    """The findings of an output, by their frames."""
    named = [[line.split(" ")[5] for line in text.decode().splitlines()] for text in lists]
    found = set()
    for line in out.decode().splitlines()[:-1]:
        word, number, side, switch, port, *_ = line.split(" ")
        found.add((word, f"{side} {switch}", int(port), named[word == "strange"][int(number) - 1]))
    return found


def wrong_edges_are_found(judge: Judge, kind: type[Hop], count: int = 6) -> None:
    """By exact stamps what is amiss inside or at an edge is found at just its frames."""
    told = 0
    for case in range(count):
        run = wrong_cascade(kind, case)
        lists = Replayed(*map(list_of, run.edges))
        until = max(line[0] for line in run.edges.came) + 1_000 * MS
        pair = Pair(cascade_text({"switch": list(run.switches.values())}), *lists,
                    ("--until", str(until)))
        answer, wanted = edges_by(judge, pair), Wanted(run).told
        apart = sorted(told_at_edges(answer.out, lists) ^ wanted)
        must(not apart, f"case {case}: {len(apart)} of {len(wanted)}, {apart[:2]}")
        must(answer.status in ((5,) if wanted else (0, 3)), f"case {case}: {answer.status}")
        told += len(wanted)
    must(told or count < 6, "it was never amiss")


def edges_are_exact(seed: int, count: int) -> None:
    """By exact stamps a stream has no finding exactly where times on the cables are possible."""
    Possible.tried = [0, 0]
    for case in range(count):
        chance = random.Random(f"{seed} {case} exact edges")
        conform_edges(*small_edges(chance, computed_replay, at_edges, True), Possible)
    must(min(Possible.tried) > count // 4, f"too few streams: {Possible.tried}")


def edges_alike(judge: Judge, seed: int, count: int) -> None:
    """It answers what is computed here, with any of the options that change nothing."""
    for case in range(count):
        chance = random.Random(f"{seed} {case} edges")
        pair = small_edges(chance, computed_replay, at_edges, False)
        wanted, (more, standard) = conform_edges(*pair), WAYS[case % len(WAYS)]
        try:
            answers(judge.answer(pair, *more, standard=standard), wanted.status, wanted.out,
                    wanted.err)
        except Wrong as wrong:
            raise Wrong(f"case {case} of seed {seed}, {(*more, *pair.words)}: {wrong}") from None


def edge_cases(judge: Judge, who: str, replay: Replay, seed: int) -> list[tuple]:
    """What a judge must answer of several switches from edge to edge."""
    who = f"{who}, from edge to edge"
    cases: list[tuple] = [(f"{who}: {row.name}", edge_row_holds, judge, row) for row in EDGE_ROWS]
    if offers_sender_edges(judge):
        cases += [(f"{who}, senders: {row.name}", sender_edge_row_holds, judge, row)
                  for row in SENDER_EDGE_ROWS]  # fmt: skip
    cases += [(f"{who}: right switches, {each}", right_edges, judge, each, 3)
              for each in range(seed, seed + 3)]  # fmt: skip
    cases += [(f"{who}: {(kind.__doc__ or '').strip()}", wrong_edges_are_found, judge, kind)
              for kind in WRONG_HOPS]  # fmt: skip
    if judge.program is not None:
        cases += [(f"{who}: made at random, {each}", edges_alike, judge, each, 100)
                  for each in range(seed, seed + 3)]  # fmt: skip
    return [*cases, (f"{who}: replays conform", edges_conform, judge, replay, seed, 6)]


def computed_edge_cases(judge: Judge, seed: int) -> list[tuple]:
    """What is tried without a program."""
    bodies: list[tuple] = [(f"refused: {name}", edges_are_refused, body)
                           for name, body in wrong_edges()]  # fmt: skip
    bodies += [(f"times on cables are possible exactly where nothing is found, {each}",
                edges_are_exact, each, 100) for each in range(seed, seed + 3)]  # fmt: skip
    return [*edge_cases(judge, "computed", computed_replay, seed), *bodies]
