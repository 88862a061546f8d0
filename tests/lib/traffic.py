"""Messages and lists of frames of which whole streams are made, and what a replay reports."""
from __future__ import annotations

import random

import tables as made
from frames import frame_of, number_of
from sender import Message, list_sent

MS = 1_000_000


def random_messages(tables: dict, name: str, count: int, chance: random.Random) -> list[Message]:
    """Messages of all links of a system, in bursts and with pauses; most to a configured UDP
    port."""
    messages = []
    for link in tables["link"]:
        if link["from"] != name:
            continue
        udps = [row["udp"] for row in tables["port"] if row["link"] == link["vl"]] or [7]
        time = chance.randrange(2 * MS)
        for place in range(count):
            size = chance.choice([1, link["lmax"] - 47, chance.randint(1, link["lmax"] - 47)])
            payload = (b"%d.%d " % (link["vl"], place) + chance.randbytes(size))[:size]
            udp = chance.choice(udps) if chance.random() < 0.95 else 7
            sub = chance.randint(1, link["subs"])
            messages.append(Message(time, link["vl"], sub, udp, payload))
            pause = chance.choice([0, 1, 500_000, 1, 2, 4]) * chance.choice([1, MS // 2, MS])
            time += pause * link["bag_ms"] // 2
    return sorted(messages, key=lambda message: message.time)


def merged(lists: list[bytes]) -> bytes:
    """One list of the lines of all, by time."""
    lines = [line for text in lists for line in text.splitlines(keepends=True)]
    lines.sort(key=lambda line: int(line.split(b" ")[1]))
    return b"".join(lines)


def strangers(tables: dict, end: int, count: int, chance: random.Random) -> bytes:
    """Frames under the links' names that come in at other systems' ports, or where no system is."""
    lines = []
    for place in range(count):
        link = chance.choice(tables["link"])
        sender = made.system_named(tables, link["from"])
        port = chance.choice([port for port in range(1, 25) if port != sender["port"]])
        payload = chance.randbytes(chance.randint(1, link["lmax"] - 47))
        side, least = chance.choice("AB"), link["lmin"]
        frame = frame_of(sender, link["vl"], 1000, payload, number_of(place), side, least)
        time = chance.randrange(end)
        lines.append(b"R %d %s %d %s\n" % (time, side.encode(), port, frame.hex().encode()))
    return b"".join(lines)


def stream_of(tables: dict, gap: int, count: int) -> tuple[list[Message], list[bytes]]:
    """Messages of link 1 with a gap between them, and what is sent."""
    messages = [Message(k * gap, 1, 1, 1000, b"%d" % k) for k in range(count)]
    return messages, list_sent(tables, "s1", messages).splitlines(keepends=True)


def payloads_read(out: bytes) -> list[bytes]:
    """The messages of the M lines, in order."""
    lines = (line.split(b" ") for line in out.splitlines())
    return [bytes.fromhex(words[4].decode()) for words in lines if words[0] == b"M"]


def late(lines: list[bytes], side: bytes, delay: int) -> bytes:
    """The lines with those of one side later by so much."""
    moved = []
    for line in lines:
        words = line.split(b" ")
        if words[2] == side:
            words[1] = b"%d" % (int(words[1]) + delay)
        moved.append(b" ".join(words))
    return merged(moved)
