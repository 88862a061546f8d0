"""Lists for `conform` as recorders would write them, in one recording or in two; and small cases of
recordings, made at random."""
from __future__ import annotations

import random
import zlib
from typing import NamedTuple

from cascade_run import SIDES, Arrival, Places, arrivals_of
from conform import tables_of
from edge_rows import low
from frames import sealed
from one_switch import Frame
from recorded_arrivals import SEALED
from recorded_forms import CHECK_SEQUENCE, Key, Seen, any_form, pcap_of, pcapng_of
from recording_rows import Z
from small_cases import Pair, small_pair

MOST_LOST = 3
LARGE = 2_000  # bytes: of a longer frame a switch sees the first ones
NO_LINK = 65_000  # of no table


class RecordedCase(NamedTuple):
    """A configuration, one recording or two, and the words of options."""

    config: bytes
    data: tuple[bytes, ...]
    words: tuple[str, ...]


def seen_in(pair: Pair) -> list[Seen]:
    """The frames of two lists, by their times; at one time what came first."""
    every = []
    for is_left, text in enumerate((pair.came, pair.left)):
        lines, _ = arrivals_of(text, Places([], False))
        every += [Seen(line, (bool(is_left), line.side, line.port)) for line in lines]
    return sorted(every, key=lambda each: each.line.time)


def begin_at(key: Key) -> Seen:
    """A frame that came at time 0, of a link that no table has: it says when time 0 is."""
    content = sealed(b"\x03\0\0\0" + NO_LINK.to_bytes(2, "big") + bytes(54))
    return Seen(Arrival(0, key[1], 0, key[2], Frame(0, content)), key)


def ends_of(config: bytes, words: tuple[str, ...]) -> dict[str, int]:
    """The systems and neighbours of the switch that is judged, and their ports."""
    given = dict(zip(words[::2], words[1::2]))
    tables = tables_of(config, given.get("--switch")) or {"system": []}
    ends = [*tables["system"], *tables.get("neighbour", [])]
    return {end["name"]: end["port"] for end in ends}


def all_keys(pair: Pair, seen: list[Seen]) -> list[Key]:
    """Each place of the switch that is judged, and of these frames."""
    ports = {each.key[2] for each in seen} | set(ends_of(pair.config, pair.words).values()) or {1}
    return [(is_left, side, port) for is_left in (False, True) for side in range(len(SIDES))
            for port in sorted(ports)]


def words_of(keys: list[Key], numbers: list[int]) -> list[str]:
    """The words that name interfaces of these places, of these numbers."""
    words = []
    for number, (is_left, side, port) in zip(numbers, keys):
        name = "--left" if is_left else "--interface"
        words += [name, f"{number}={SIDES[side]}:{port}"]
    return words


def named_words(halves: list[list[Key]], keys: list[Key]) -> list[str]:
    """The words that name the interfaces of recordings that stand at these places."""
    words = []
    for half in halves:
        named = [key for key in half if key in keys]
        words += words_of(named, [half.index(key) for key in named])
    return words


def halves_of(keys: list[Key], is_one: bool) -> list[list[Key]]:
    """The places of one recording, or of two."""
    if is_one:
        return [keys]
    return [[key for key in keys if key[0] == is_left] for is_left in (False, True)]


def as_recordings(
    pair: Pair, seen: list[Seen], keys: list[Key], named: list[Key], is_one: bool
) -> RecordedCase:
    """These frames in one recording or in two, with an interface for each of the places `keys`, of
    which these are named."""
    halves = halves_of(keys, is_one)
    data = [pcapng_of(half, [each for each in seen if each.key in half]) for half in halves]
    return RecordedCase(pair.config, tuple(data), (*pair.words, *named_words(halves, named)))


# ---- small cases ---------------------------------------------------------------------------------


def addressed(each: Seen, ids: dict[int | None, int]) -> Seen:
    """The frame with the address of its link's sender and its network."""
    content = each.line.frame.content
    name = ids.get(each.line.frame.link())
    if name is None or len(content) < 60:
        return each
    own = content[:6] + b"\x02\0\0" + name.to_bytes(2, "big") + b"\x20\x40"[each.key[1]:][:1]
    changed = own + content[12:]
    if zlib.crc32(content) == SEALED:
        changed = sealed(changed[:-CHECK_SEQUENCE])
    return each._replace(line=each.line._replace(frame=Frame(each.line.frame.number, changed)))


def enlarged(each: Seen) -> Seen:
    """The frame with so many more bytes that a switch sees the first alone."""
    frame = each.line.frame
    longer = Frame(frame.number, sealed(frame.content + bytes(LARGE)))
    return each._replace(line=each.line._replace(frame=longer))


def other_frames(chance: random.Random, pair: Pair, seen: list[Seen]) -> list[Seen]:
    """The frames, sometimes with addresses, or large ones, and some out of order."""
    if chance.random() < 0.5:
        tables = tables_of(pair.config, None) or {"link": []}
        ports = ends_of(pair.config, ())
        ids: dict[int | None, int] = {link["vl"]: ports[link["from"]] for link in tables["link"]}
        seen = [addressed(each, ids) for each in seen]
    if chance.random() < 0.05:
        seen = [enlarged(each) if each.line.frame.link() == 1 else each for each in seen]
    for at in range(1, len(seen)):
        if chance.random() < 0.05:
            seen[at - 1 : at + 1] = seen[at], seen[at - 1]
    return seen


def other_words(chance: random.Random, words: tuple[str, ...]) -> tuple[str, ...]:
    """The words with others of recordings; some places aren't named, or all of a side is."""
    kept: list[str] = []
    part, wide = chance.choice([0, 0, 0.2, 0.6]), chance.choice([0, 0.1, 1])
    for name, value in zip(words[::2], words[1::2]):
        if name in ("--interface", "--left"):
            if chance.random() < part:
                continue
            if name == "--interface" and chance.random() < wide:
                value = value.partition(":")[0]
        kept += [name, value]
    if chance.random() < 0.15:
        kept += ["--fcs", chance.choice(["yes", "no"])]
    if chance.random() < 0.3:
        kept += ["--stamps", chance.choice(["start", "end", "start-end", "end-start"])]
    if chance.random() < 0.4:
        kept += ["--reorder", str(chance.choice([0, 1, 2, 10_000, 100_000]))]
    kept += [word for word in ("--lossy", "--summary", "--line-buffered") if chance.random() < 0.3]
    return tuple(kept)


def changed(chance: random.Random, data: bytes) -> bytes:
    """The recording, often with a change: cut, lost frames, or another byte."""
    way = chance.random()
    if way < 0.1:
        return data[: chance.randrange(len(data) + 1)]
    if way < 0.3:
        return data + bytes.fromhex(Z(low(0), low(chance.randrange(MOST_LOST)), low(0)))
    if way < 0.35 and data:
        at = chance.randrange(len(data))
        return data[:at] + chance.randbytes(1) + data[at + 1 :]
    return data


def of_one_cable(chance: random.Random, pair: Pair, seen: list[Seen]) -> RecordedCase:
    """Two recordings of one cable each, as pcap."""
    data, words = [], list(pair.words)
    for is_left, name in enumerate(("--interface", "--left")):
        keys = [each.key for each in seen if each.key[0] == bool(is_left)]
        key = chance.choice(keys or [(bool(is_left), 0, 3)])
        own = [each for each in seen if each.key == key]
        data.append(pcap_of(own, any_form(chance)))
        words += [name, f"0={SIDES[key[1]]}:{key[2]}"]
    return RecordedCase(pair.config, tuple(data), tuple(words))


def small_recordings(chance: random.Random) -> RecordedCase:
    """A small case."""
    pair = small_pair(chance, faulty=0)
    seen = other_frames(chance, pair, seen_in(pair))
    if chance.random() < 0.2:
        case = of_one_cable(chance, pair, seen)
    else:
        halves = halves_of(all_keys(pair, seen), chance.random() < 0.6)
        data = (pcapng_of(half, [each for each in seen if each.key in half], any_form(chance))
                for half in halves)
        words = named_words(halves, all_keys(pair, seen))
        case = RecordedCase(pair.config, tuple(data), (*pair.words, *words))
    changes = tuple(changed(chance, each) for each in case.data)
    return case._replace(data=changes, words=other_words(chance, case.words))
