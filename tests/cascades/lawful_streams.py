"""Lists over cascades of which is known what must be read: lawful streams of the systems' links, of
which a side may end at any frame, and frames of strangers between them. And lists of frames that
come as early as their first switch takes them."""
from __future__ import annotations

import random
from collections import Counter
from collections.abc import Callable
from typing import NamedTuple

from cascade import own_names
from cascade_run import refusal
from frames import Sent, frame_of, number_of
from made_lists import made_list
from one_switch import Policing
from sender import Message, emissions
from tables import system_named

MS = 1_000_000
MOST_READ = 47  # bytes of a frame that are no payload

# the messages of the link's frames, in order
Messages = list[tuple[int, bytes]]
# what a system submits, at a switch
Submit = Callable[[dict, str], list[Message]]
# what a system sends of such messages, at a switch
Send = Callable[[dict, str, list[Message]], list[Sent]]


class Stream(NamedTuple):
    """The frames of a link in order: where its system is, and when each comes there."""

    switch: str
    port: int
    sent: list[Sent]


class Line(NamedTuple):
    """A frame of a stream on a side: where it stands among all, and which frame of the stream it
    is."""

    time: int
    order: float
    side: str
    vl: int
    place: int
    text: str


# ---- streams -------------------------------------------------------------------------------------


def sent_streams(switches: list[dict], submit: Submit, send: Send) -> list[Stream]:
    """What all systems send of what they submit."""
    streams = []
    for switch in switches:
        for name in sorted(own_names(switch)):
            by_link: dict[int, list[Sent]] = {}
            for one in send(switch, name, submit(switch, name)):
                by_link.setdefault(one.vl, []).append(one)
            port = system_named(switch, name)["port"]
            streams += [Stream(switch["name"], port, sent) for sent in by_link.values()]
    return streams


def computed_send(switch: dict, name: str, messages: list[Message]) -> list[Sent]:
    """What a system sends of messages."""
    taken = [one for one in messages if not refusal(switch, name, one)]
    return emissions(switch, name, taken)


def late_stream(chance: random.Random, switch: dict, link: dict, count: int) -> Stream:
    """Frames that come later than they were released by up to the link's jitter, mostly by nothing
    or by all of it."""
    system, late = system_named(switch, link["from"]), 1000 * link["jitter_us"]
    release, time, sent = chance.randrange(2 * MS), 0, []
    for place in range(count):
        time = max(time, release + chance.choice([0, late, late, chance.randint(0, late)]))
        size = chance.choice([1, link["lmax"] - MOST_READ])
        payload, udp = (b"%d " % place + bytes(size))[:size], chance.choice([1000, 1000, 1000, 7])
        a, b = (
            frame_of(system, link["vl"], udp, payload, number_of(place), side, link["lmin"])
            for side in "AB"
        )
        sent.append(Sent(time, link["vl"], udp, payload, a, b))
        release += MS * link["bag_ms"] + chance.choice([0, 0, 0, 1, MS])
    return Stream(switch["name"], system["port"], sent)


def late_streams(chance: random.Random, switches: list[dict]) -> list[Stream]:
    """Such a stream of each link."""
    streams = []
    for switch in switches:
        for link in switch["link"]:
            if link["from"] in own_names(switch):
                count = chance.choice([1, 5, 20, 300 if chance.random() < 0.1 else 20])
                streams.append(late_stream(chance, switch, link, count))
    return streams


# ---- greedy lists --------------------------------------------------------------------------------


def greedy_stream(
    chance: random.Random, switch: dict, link: dict, side: str, time: int
) -> list[tuple[int, str]]:
    """Frames of a link from a time on, each as early as its switch accepts it; some come a ns too
    early before that, and are dropped."""
    system, policing = system_named(switch, link["from"]), Policing(link)
    place, lines = f"{side} {switch['name']} {system['port']}", []
    for number in range(chance.choice([5, 20, 60])):
        payload = bytes(chance.choice([1, link["lmax"] - MOST_READ]))
        frame = frame_of(system, link["vl"], 1000, payload, number_of(number), side, link["lmin"])
        digits = frame.hex()
        early = policing.early(time, len(frame))
        if early:
            time += early
            policing.early(time, len(frame))
            if chance.random() < 0.2:
                lines.append((time - 1, f"R {time - 1} {place} {digits}"))
        lines.append((time, f"R {time} {place} {digits}"))
    return lines


def greedy_lines(chance: random.Random, switches: list[dict]) -> list[str]:
    """Such frames of all links, which begin at once or nearly so."""
    lines: list[tuple[int, str]] = []
    for switch in switches:
        for link in switch["link"]:
            if link["from"] in own_names(switch):
                for side in chance.choice(["A", "B", "AB"]):
                    begin = chance.choice([0, 0, 1, 6_720, chance.randrange(MS)])
                    lines += greedy_stream(chance, switch, link, side, begin)
    return [line for _, line in sorted(lines, key=lambda each: each[0])]


# ---- sides that end ------------------------------------------------------------------------------


def lines_of(chance: random.Random, streams: list[Stream]) -> list[Line]:
    """All frames on both sides, by time; what comes at one time stands in any order."""
    lines = []
    for switch, port, sent in streams:
        for side in "AB":
            order = chance.random()
            for place, one in enumerate(sent):
                frame = one.a if side == "A" else one.b
                text = f"R {one.end} {side} {switch} {port} {frame.hex()}"
                lines.append(Line(one.end, order, side, one.vl, place, text))
    return sorted(lines)


def without_side(lines: list[Line], side: str, begin: int) -> list[Line]:
    """The lines without those of a side from a place on."""
    return [line for at, line in enumerate(lines) if line.side != side or at < begin]


def ended_anywhere(chance: random.Random, lines: list[Line]) -> list[Line]:
    """Each link's stream ends on each side where it likes, or goes on."""
    most = Counter((line.side, line.vl) for line in lines)
    ends = {key: chance.choice([0, count, count, chance.randint(0, count)])
            for key, count in sorted(most.items())}
    return [line for line in lines if line.place < ends[line.side, line.vl]]


def ways_to_end(chance: random.Random, lines: list[Line]) -> dict[str, list[Line]]:
    """The lines of both sides; of one that lives alone; of both until one dies; of streams that end
    anywhere."""
    died, at = chance.choice("AB"), chance.randrange(len(lines) + 1)
    return {
        "both": lines,
        "A alone": without_side(lines, "B", 0),
        "B alone": without_side(lines, "A", 0),
        "until one dies": without_side(lines, died, at),
        "to anywhere": ended_anywhere(chance, lines),
    }


def messages_in(streams: list[Stream], lines: list[Line]) -> dict[int, Messages]:
    """The messages of each link's stream, as far as the side that has more of it."""
    counts: dict[int, int] = {}
    for line in lines:
        counts[line.vl] = max(counts.get(line.vl, 0), line.place + 1)
    return {
        vl: [(one.udp, one.payload) for one in stream.sent[: counts[vl]]]
        for stream in streams
        for vl in [one.vl for one in stream.sent[:1]]
        if vl in counts
    }


# ---- strangers -----------------------------------------------------------------------------------


def strangers_at(chance: random.Random, switches: list[dict], most: int) -> list[str]:
    """Frames under the links' names at each port of each side that is no neighbour's, and not that
    of the link's sender; by a time. Where a system has all links nothing comes."""
    begins = [
        (switch, link) for switch in switches
        for link in switch["link"] if link["from"] in own_names(switch)
    ]
    lines = []
    for switch in switches:
        ports = {*range(1, 25)} - {end["port"] for end in switch["neighbour"]}
        for port in sorted(ports):
            others = [
                (home, link) for home, link in begins
                if home is not switch or system_named(switch, link["from"])["port"] != port
            ]
            for side in "AB" if others else "":
                lines.append(stranger(chance, *chance.choice(others), most,
                                      f"{side} {switch['name']} {port}"))
    return lines


def stranger(chance: random.Random, home: dict, link: dict, most: int, place: str) -> str:
    """A frame as the link's sender would send it, at another place."""
    size = chance.randint(1, link["lmax"] - MOST_READ)
    system, number = system_named(home, link["from"]), chance.randrange(256)
    frame = frame_of(system, link["vl"], 1000, chance.randbytes(size), number, place[0],
                     link["lmin"])
    return f"R {chance.randint(0, most)} {place} {frame.hex()}"


def merged_lines(chance: random.Random, lines: list[str], others: list[str]) -> list[str]:
    """Both in one list by time; each keeps its order, at one time the others come before or
    behind."""
    behind = chance.choice([0, 2])
    placed = [(int(line.split(" ")[1]), 1, line) for line in lines]
    placed += [(int(line.split(" ")[1]), behind, line) for line in others]
    return [line for _, _, line in sorted(placed, key=lambda each: each[:2])]


def with_strangers(chance: random.Random, switches: list[dict], lines: list[Line]) -> bytes:
    """A list of these frames, with strangers between them."""
    most = lines[-1].time if lines else MS
    others = sorted(strangers_at(chance, switches, most), key=lambda one: int(one.split(" ")[1]))
    return text_of(merged_lines(chance, [line.text for line in lines], others))


def text_of(lines: list[str]) -> bytes:
    """The list of these lines."""
    return "".join(f"{line}\n" for line in lines).encode()


def other_lines(chance: random.Random, cascade: dict, count: int) -> list[str]:
    """Any frames, from the begin on."""
    lines = made_list(chance, cascade, count, (0,)).decode().splitlines()
    return [line for line in lines if line and not line.startswith("#")]
