"""What the systems of examples/aircraft.toml send, replayed over its switches: each frame passes at
each switch of its link's way, and each message is read once and in order at each system that has a
port for it, also where one side is dead or dies. The program reads the example's own file."""
from __future__ import annotations

import random
from collections.abc import Callable
from functools import cache

import tables
from cascade import loaded
from claimed_runs import CONFIG, Called, Computed, sent_by, told_of, told_of_taps
from end_claims import Network, Told, ends_are_sums, exactly_once, receivers_named
from lawful_streams import MOST_READ, MS, Messages, Stream
from lawful_streams import lines_of, messages_in, text_of, ways_to_end, with_strangers
from program import Wrong, must
from sender import Message

EXAMPLE = "aircraft.toml"
ROUNDS, ROUND = 3, 200 * MS  # rounds of messages, and the time from one to the next
NO_PORT = 7  # a UDP port that no system has


class OfExample(Called):
    """Runs of the program on the example's file as it is."""

    def config(self, cascade: dict) -> str:
        """The file, of which these are the tables."""
        must(cascade == aircraft(), "other tables")
        return self.program.write(CONFIG, tables.example(EXAMPLE))


@cache
def aircraft() -> dict:
    """The tables of the example."""
    return loaded(tables.example(EXAMPLE))


# ---- what is submitted ---------------------------------------------------------------------------


def ports_of(cascade: dict, vl: int) -> list[int]:
    """The UDP ports that a link's receivers have for it."""
    return [row["udp"] for sw in cascade["switch"] for row in sw["port"] if row["link"] == vl]


def round_of(chance: random.Random, link: dict, udps: list[int], begin: int) -> list[Message]:
    """Messages of a link in a round: most at once, and all together; others late by up to some
    BAGs. Most are as long as they may be, and most are to ports that a receiver has."""
    messages, most = [], link["lmax"] - MOST_READ
    for _ in range(chance.choice([1, 1, 2, 4])):
        late = chance.choice([0, 0, 0, chance.randrange(2 * MS * link["bag_ms"])])
        size = chance.choice([most, most, 1, chance.randint(1, most)])
        udp = chance.choice([*udps * 9, NO_PORT])
        sub = chance.randint(1, link["subs"])
        messages.append(Message(begin + late, link["vl"], sub, udp, chance.randbytes(size)))
    return messages


def submitted(chance: random.Random, cascade: dict, switch: dict, name: str) -> list[Message]:
    """What a system submits for all its links, by time. All systems begin each round at once."""
    messages = [
        message
        for link in switch["link"] if link["from"] == name
        for number in range(ROUNDS)
        for message in round_of(chance, link, ports_of(cascade, link["vl"]), number * ROUND)
    ]
    return sorted(messages, key=lambda message: message.time)


def streams_sent(runs: Computed, chance: random.Random, cascade: dict) -> list[Stream]:
    """What all systems send: frames of each link, for which each of its receivers has a port."""
    streams = sent_by(runs, cascade, lambda sw, name: submitted(chance, cascade, sw, name))
    links, network = {one.vl for stream in streams for one in stream.sent}, Network(cascade)
    must(links == network.links, f"nothing is sent on {sorted(network.links - links)}")
    deaf = {*receivers_named(network)} - {(name, vl) for name, vl, _ in network.open}
    must(not deaf, f"without a port are {sorted(deaf)}")
    return streams


# ---- what must be told of it ---------------------------------------------------------------------


def all_pass(told: Told) -> None:
    """Each frame is accepted at each switch of its link's way."""
    for key, verdicts in told.verdicts.items():
        vl = told.link[key]
        assert vl is not None
        wanted = sorted((hop.switch, "accept") for hop in told.network.hops[vl])
        must(sorted(verdicts) == wanted, f"{key} of link {vl}: {verdicts}")


def all_arrive(told: Told, sent: dict[int, Messages]) -> None:
    """The frames pass, and each receiver reads the messages that it has a port for."""
    all_pass(told)
    exactly_once(told, sent)


def aircraft_arrives(runs: Computed, seed: int) -> None:
    """A list of all frames on both sides; of A alone, of B alone, and of a side that dies."""
    chance, cascade = random.Random(f"aircraft/{seed}"), aircraft()
    ends_are_sums(Network(cascade), runs.check(cascade))
    streams = streams_sent(runs, chance, cascade)
    for name, lines in ways_to_end(chance, lines_of(chance, streams)).items():
        told = told_of(runs, cascade, text_of([line.text for line in lines]))
        must(told.left, f"no frame leaves, {name}")
        all_arrive(told, messages_in(streams, lines))


def aircraft_is_recorded(runs: Computed, seed: int, grain: str) -> None:
    """The same lists as two recordings, one of each side."""
    chance, cascade = random.Random(f"aircraft/{grain}/{seed}"), aircraft()
    streams = streams_sent(runs, chance, cascade)
    for lines in ways_to_end(chance, lines_of(chance, streams)).values():
        text = text_of([line.text for line in lines])
        all_arrive(told_of_taps(runs, chance, cascade, text, grain), messages_in(streams, lines))


def is_refused(promise: Callable[..., None], *given: object) -> bool:
    """What is told isn't as promised."""
    try:
        promise(*given)
    except Wrong:
        return True
    return False


def aircraft_is_looked_at(seed: int) -> None:
    """Of a list with strangers not each frame passes, and of one without a frame of both sides a
    message isn't read; all else is as of what was sent."""
    chance, cascade, runs = random.Random(f"aircraft/{seed}"), aircraft(), Computed()
    streams = streams_sent(runs, chance, cascade)
    lines = lines_of(chance, streams)
    sent = messages_in(streams, lines)
    strange = told_of(runs, cascade, with_strangers(chance, cascade["switch"], lines))
    must(is_refused(all_pass, strange), "a stranger isn't seen")
    exactly_once(strange, sent)
    lost = chance.choice([line for line in lines if sent[line.vl][line.place][0] != NO_PORT])
    others = [line.text for line in lines if (line.vl, line.place) != (lost.vl, lost.place)]
    absent = told_of(runs, cascade, text_of(others))
    all_pass(absent)
    must(is_refused(exactly_once, absent, sent), "a message isn't missed")
