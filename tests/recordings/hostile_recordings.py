"""Recordings that are malicious, or as large as they may be; a part of tests/run/hostile.py."""
from __future__ import annotations

import random
from collections.abc import Iterable, Iterator

from made_recordings import PCAP_NS, recorded_at
from pair_wanted import PairCase
from program import Answer, Program, answers
from reads import HELD, ORDERS, READS, is_read
from recorded import PCAPS
from recorded_arrivals import Options
from recorded_pair import NETWORKS
from recording_rows import H1, H2, IL, PL, SL, US, ZERO, E, R
from wanted import POLICE, Case, path_of, with_base

MOST_BLOCK = 16_777_216  # bytes of a block that is looked into
MOST_FRAME = 262_144  # bytes of a frame
MANY = 1_200_000  # more than a list has lines
BEGIN, ONE = bytes.fromhex(SL + IL), bytes.fromhex(E(US, H1))
FRAME, NEXT = bytes.fromhex(R(ZERO, H1)), bytes.fromhex(R("02000000", H2))
HEAD = bytes.fromhex(PL)


def is_told(program: Program, data: bytes, options: Options = Options()) -> None:
    """The commands report what the reference says."""
    path, of_police = path_of(program, data), options._replace(port=1, stamps=None)
    for case in (Case(data, options), Case(data, of_police, "1 64 500")):
        answers(program.run(*case.run_words(), path), *case.listed(program))
    if "list" in READS:
        case = Case(data, options)
        said = case.told()
        answers(program.run(*case.list_words(), path), said.status(), said.text(), said.fault)


def skips(program: Program, data: bytes, fault: str) -> None:
    """A recording of which nothing is reported but its fault."""
    path = path_of(program, data)
    commands = [["replay", "base.toml"], ["replay", "--no-admission", "base.toml"], POLICE]
    for words in commands:
        answers(program.run(*words, path), 3, b"", f"recording {fault}\n".encode())


def pair_is_told(program: Program, pair: tuple[bytes, bytes]) -> None:
    """Of two recordings at once both commands report what the reference says."""
    case = PairCase(pair)
    said, wanted = case.told(), case.listed(program)
    listed = Answer(said.status(), said.text(), said.fault)
    paths = [program.write(name, data) for name, data in zip(NETWORKS, pair)]
    for words, answer in ((case.words(), wanted), (["list", "base.toml"], listed)):
        answers(program.run(*words, *paths), *answer)


def pair_skips(program: Program, pair: tuple[bytes, bytes], fault: str) -> None:
    """Two recordings of which a replay reports nothing but a fault."""
    paths = [program.write(name, data) for name, data in zip(NETWORKS, pair)]
    found = program.run("replay", "base.toml", *paths)
    answers(found, 3, b"", f"recording {fault}\n".encode())


def low(number: int) -> bytes:
    """A number of 32 bits, low byte first."""
    return number.to_bytes(4, "little")


def block(kind: int, size: int, body: bytes = b"") -> bytes:
    """A block of so many bytes, filled with zeros."""
    return low(kind) + low(size) + body + bytes(size - 12 - len(body)) + low(size)


def large_frames() -> dict[str, bytes]:
    """Frames of pcap as long as they may be, and longer ones."""

    def frame(size: int) -> bytes:
        content = bytes.fromhex(H1) + bytes(size - 60)
        return low(1_700_000_000) + low(0) + 2 * low(size) + content

    most, over = frame(MOST_FRAME), frame(MOST_FRAME + 1)
    return {
        "the longest frame": HEAD + most + NEXT,
        "the longest frames": HEAD + 20 * most + NEXT,
        "the longest frame, less a byte": HEAD + FRAME + most[:-1],
        "a longer frame": HEAD + FRAME + over + NEXT,
        "a frame of 4 GB": HEAD + FRAME + low(0) * 2 + b"\xff" * 8 + bytes(10**6),
    }


def large_blocks() -> dict[str, bytes]:
    """Blocks of pcapng as long as they may be, and longer ones of types that are passed over."""
    some = {}
    sizes = [(0x99, MOST_BLOCK + 4), (0x0BAD, MOST_BLOCK + 4), (1, MOST_BLOCK), (5, MOST_BLOCK)]
    for kind, size in [*sizes, (5, MOST_BLOCK + 4), (6, MOST_BLOCK), (6, MOST_BLOCK + 4)]:
        name, whole = f"a block {kind:x} of {size:,} bytes", BEGIN + block(kind, size) + ONE
        some[name] = whole
        some[f"{name}, less one"] = whole[: len(BEGIN) + size - 1]
    options = low(1) + b"\x01\0\0\0" * ((MOST_BLOCK - 20) // 4 - 1)
    return some | {
        "4,000,000 options": BEGIN + block(1, MOST_BLOCK, low(1) + low(0) + options) + ONE,
        "4,096 interfaces": BEGIN + bytes.fromhex(IL) * 4095 + ONE,
        "100,000 sections": BEGIN * 100_000 + ONE,
        "a block of 4 GB": BEGIN + ONE + low(0x99) + low(2**32 - 4) + bytes(10**6),
    }


def odd_bytes() -> dict[str, bytes]:
    """What looks like a recording for its first bytes alone."""
    some: dict[str, bytes] = {}
    chance = random.Random("odd bytes")
    for magic in [*PCAPS, "0a0d0d0a"]:
        begin = bytes.fromhex(magic)
        some |= {
            f"{magic}, zeros": begin + bytes(10**6),
            f"{magic}, ones": begin + b"\xff" * 10**6,
            f"{magic}, text": begin + b"F 0 A 1 00\n" * 10**5,
            f"{magic}, itself": begin * 10**5,
            f"{magic}, bytes at random": begin + chance.randbytes(10**5),
        }
    return some | {
        "the head, bytes at random": HEAD + chance.randbytes(10**6),
        "a frame, bytes at random": HEAD + FRAME + chance.randbytes(10**6),
        "a section, bytes at random": BEGIN + ONE + chance.randbytes(10**6),
    }


def recorded(times: Iterable[int]) -> bytes:
    """A recording of frames at these times, in ns."""
    return PCAP_NS + b"".join(recorded_at(time, FRAME[16:]) for time in times)


def hostile_orders() -> dict[str, tuple[bytes, Options]]:
    """Orders in which much is held for long, or late."""
    most, chance = 100_000, random.Random("orders")
    back, mixed = range(most, -1, -1), chance.sample(range(2 * most), most)
    far = [place + (10**9 if place % 2 else 0) for place in range(3 * HELD)]
    block = (*range(1, HELD + 1), 0)
    late = [number * (HELD + 1) + place for number in range(9) for place in block]
    all_of_it, one = Options(reorder=most), Options(reorder=1)
    return {
        "100,001 frames in reverse, all held": (recorded(back), all_of_it),
        "100,001 frames in reverse, all but one held": (recorded(back), Options(reorder=most - 1)),
        "100,001 frames in reverse": (recorded(back), Options()),
        "100,000 frames of one moment": (recorded([0] * most), all_of_it),
        "100,000 frames at random": (recorded(mixed), all_of_it),
        "100,000 frames at random, from their starts": (
            recorded(mixed),
            Options(reorder=most, stamps="start"),
        ),
        "the latest frame first": (recorded([most, *range(most)]), one),
        "the latest frame first, many held": (recorded([most, *range(most)]), Options()),
        "every second frame far ahead": (recorded(far), Options()),
        "every 10,001st frame 10,000 places late": (recorded(late), Options()),
        "every 10,001st frame 10,000 places late, one held less": (
            recorded(late),
            Options(reorder=HELD - 1),
        ),
    }


def hostile_pairs() -> dict[str, tuple[bytes, bytes]]:
    """Two at once: sound beside hostile, and both as large as they may be."""
    sound = HEAD + FRAME + NEXT
    large = BEGIN + block(0x99, MOST_BLOCK + 4) + block(5, MOST_BLOCK) + ONE
    some = {"16 MiB of both": (large, large)}
    for name, data in (large_frames() | odd_bytes()).items():
        some |= {f"A is {name}": (data, sound), f"B is {name}": (sound, data)}
    return some | {
        "100,000 sections of both": (BEGIN * 100_000 + ONE, BEGIN * 100_000 + ONE),
        "100,000 frames beside none": (HEAD + FRAME * 100_000, HEAD),
        "100,000 frames in turn": (HEAD + FRAME * 100_000, HEAD + FRAME * 100_000),
    }


def hostile_recordings(program: Program) -> Iterator[tuple]:
    """All that the program reads, each in a folder of its own."""
    every = large_frames() | large_blocks() | odd_bytes()
    for name, data in every.items():
        if is_read(data):
            yield f"a recording: {name}", is_told, with_base(program.apart()), data
    for name, (data, options) in hostile_orders().items() if ORDERS else ():
        yield f"a recording: {name}", is_told, with_base(program.apart()), data, options
    if READS:
        given: tuple = with_base(program.apart()), HEAD + bytes(16 * MANY), f"NoArrival {MANY}"
        yield f"a recording: {MANY:,} frames of no bytes", skips, *given
        cut = with_base(program.apart()), HEAD + bytes(16 * MANY + 15), f"Ended {MANY}"
        yield f"a recording: {MANY:,} frames of no bytes, and a piece", skips, *cut
    for name, pair in hostile_pairs().items() if "two" in READS else ():
        yield f"two recordings: {name}", pair_is_told, with_base(program.apart()), pair
    if "two" in READS:
        many, sound = HEAD + bytes(16 * MANY), HEAD + FRAME
        for side, pair in zip(NETWORKS, ((many, sound), (sound, many))):
            given = with_base(program.apart()), pair, f"NoArrival {MANY} {side}"
            yield f"two recordings: {MANY:,} frames of no bytes in {side}", pair_skips, *given
