#!/usr/bin/env python3
"""Sends and replays whole streams with the built program, and compares with what is computed here.

    tests/run/streams.py PROGRAM

What `send` writes is compared byte for byte with frames and times that tests/lib computes apart
from the program. Its replay must accept every frame, lose none, and deliver each message once and
in order to each system that has a port for it. Tried are messages of every length, numbers that go
round, all systems of examples/network.toml at once, strangers under the links' names, a side that
dies or is late, long lists, how much memory they take, and the largest tables. Prints `ok NAME` or
`FAILED NAME` for each case, then `N passed, M failed`; ends with status 1 if a case failed. Needs
Python 3.11.
"""
from __future__ import annotations

import os
import random
import sys

sys.dont_write_bytecode = True
sys.path.insert(0, os.path.join(os.path.dirname(os.path.abspath(__file__)), "..", "lib"))
import tables as made  # noqa: E402
from delivery import bounds_of, check_all_accepted, check_delivered  # noqa: E402
from delivery import lines_to, renumbered, told_pairs  # noqa: E402
from frames import frame_of, number_of, slot  # noqa: E402
from program import Cases, Program, answers, main_of, must, same_text  # noqa: E402
from sender import Message, emissions, list_sent, submission_list  # noqa: E402
from traffic import late, merged, payloads_read, random_messages  # noqa: E402
from traffic import stream_of, strangers  # noqa: E402

MS = 1_000_000
REPLAYS = (["replay"], ["replay", "--no-admission"])


def sent_by(program: Program, tables: dict, name: str, messages: list[Message]) -> bytes:
    """What `send` writes, which is what is computed here."""
    config = program.write("config", made.text_of(tables))
    found = program.run("send", config, name, "-", given=submission_list(messages))
    answers(found, 0, list_sent(tables, name, messages), b"")
    return found.out


def replayed(program: Program, tables: dict, text: bytes) -> bytes:
    """What a replay writes, the same with and without admission."""
    config = program.write("config", made.text_of(tables))
    first, second = (program.run(*words, config, "-", given=text) for words in REPLAYS)
    answers(first, 0, None, b"")
    answers(second, 0, first.out, b"")
    return first.out


def bounds(program: Program, tables: dict) -> dict[tuple[int, str], int]:
    """What `check` says that a frame takes at most, in tables that are admitted."""
    found = program.run("check", program.write("config", made.text_of(tables)))
    answers(found, 0, None, b"")
    must(found.out.endswith(b"ok\n"), "check doesn't end with ok")
    return bounds_of(found.out)


def letters(count: int) -> bytes:
    """A payload of so many bytes, no two alike."""
    return bytes((7 * count + 3 * n) % 256 for n in range(count))


def every_length(program: Program, least: int) -> None:
    """Messages of 1 to 1,471 bytes, a ms apart, on both sub-VLs."""
    tables = made.long_tables()
    tables["link"][0]["lmin"] = least
    messages = [Message(k * MS, 1, 1 + k % 2, 1000, letters(k)) for k in range(1, 1472)]
    text = sent_by(program, tables, "s1", messages)
    must(text.count(b"\n") == 2942, f"{text.count(10)} lines were sent")
    wanted = told_pairs(tables, emissions(tables, "s1", messages), 3)
    same_text("the replay", wanted, replayed(program, tables, text))


def round_and_round(program: Program, profile: int, rate: int, count: int) -> None:
    """Numbers go round: after 255 comes 1."""
    tables = made.base_tables(profile, rate)
    messages = [Message(k * MS, 2, 1, 2000, b"%d" % k) for k in range(count)]
    text = sent_by(program, tables, "s2", messages)
    numbers = [int(line[-10:-8], 16) for line in text.split(b"\n")[:-1:2]]
    must(numbers[254:258] == [254, 255, 1, 2], f"the numbers are {numbers[254:258]}")
    wanted = told_pairs(tables, emissions(tables, "s2", messages), 3)
    same_text("the replay", wanted, replayed(program, tables, text))


def bursts(program: Program) -> None:
    """Both sub-VLs of a link are filled to the last place, again and again."""
    tables = made.base_tables()
    messages = [
        Message(128 * MS * burst, 1, sub, 1000, b"%d %d %d" % (burst, sub, place))
        for burst in range(5)
        for sub in (1, 2)
        for place in range(64)
    ]
    text = sent_by(program, tables, "s1", messages)
    wanted = told_pairs(tables, emissions(tables, "s1", messages), 3)
    same_text("the replay", wanted, replayed(program, tables, text))


def beside_a_babbler(program: Program, profile: int) -> None:
    """100 frames of another link, and then what `send` writes of four messages."""
    tables = made.base_tables(profile)
    payloads = [(1, b"a"), (1, b"b"), (2, b"c"), (2, b"d")]
    messages = [Message(0, 1, sub, 1000, payload) for sub, payload in payloads]
    text = sent_by(program, tables, "s1", messages)
    world = frame_of(tables["system"][1], 2, 2000, b"world", 0, "A")
    babble = b"F 6720 A 2 %s\n" % world[:-4].hex().encode()
    wanted = [b"V 1 A accept\n", *(b"V %d A drop over-rate\n" % n for n in range(2, 101))]
    told = told_pairs(tables, emissions(tables, "s1", messages), 3, first=101)
    first, rest = told[: told.index(b"V 103")], told[told.index(b"V 103") :]
    left = b"D 1 20160 A 3\nM 20160 s3 2 776f726c64\n"
    same_text(
        "the replay",
        b"".join(wanted) + first + left + rest,
        replayed(program, tables, babble * 100 + text),
    )


# ---- all systems at once -------------------------------------------------------------------------


def every_system(program: Program, tables: dict, count: int) -> None:
    """All systems send at once; then again with strangers' frames between."""
    chance = random.Random(count)
    lists, sent = [], []
    for system in tables["system"]:
        messages = random_messages(tables, system["name"], count, chance)
        lists.append(sent_by(program, tables, system["name"], messages))
        sent += emissions(tables, system["name"], messages)
    text = merged(lists)
    out = replayed(program, tables, text)
    check_all_accepted(tables, bounds(program, tables), text, out)
    check_delivered(tables, sorted(sent, key=lambda one: one.end), out)
    last = int(text.splitlines()[-1].split(b" ")[1])
    others = strangers(tables, last, 2000, chance)
    mixed, places = lines_to(text, others)
    wrong, rest = renumbered(replayed(program, tables, mixed), places)
    must(len(wrong) == 2000, f"{len(wrong)} of the strangers' frames have a verdict")
    must(
        all(line.endswith(b" drop wrong-port") for line in wrong),
        "a stranger's frame is not dropped",
    )
    same_text("the replay with strangers", out, rest)


# ---- a side that fails ---------------------------------------------------------------------------


def one_side(program: Program, profile: int) -> None:
    """A side dies, is away for a while, or loses every other frame: each message is still read
    once, in order."""
    tables = made.base_tables(profile)
    messages, lines = stream_of(tables, MS, 600)
    wanted = [message.payload for message in messages]
    for side in (b"A", b"B"):
        for away in (range(300, 600), range(0, 300), range(200, 460), range(1, 600, 2)):
            kept = [
                line
                for n, line in enumerate(lines)
                if n // 2 not in away or line.split(b" ")[2] != side
            ]
            found = payloads_read(replayed(program, tables, b"".join(kept)))
            must(
                found == wanted,
                f"side {side.decode()} is away for {away}: {len(found)} messages are read",
            )


def late_side(program: Program, profile: int, skew: int, gap: int) -> None:
    """One side is late by up to the skew, in us: each message is read once. A ns later each is read
    twice."""
    tables = made.base_tables(profile)
    tables["link"][0] |= made.row_of(skew=skew)
    messages, lines = stream_of(tables, gap, 300)
    wanted = [message.payload for message in messages]
    for side in (b"A", b"B"):
        for delay in (1, 16_999, skew * 1000 - 1, skew * 1000):
            found = payloads_read(replayed(program, tables, late(lines, side, delay)))
            must(
                found == wanted,
                f"side {side.decode()} is late by {delay} ns: {len(found)} messages are read",
            )
    if gap > skew * 1000 + 1:
        found = payloads_read(replayed(program, tables, late(lines, b"B", skew * 1000 + 1)))
        must(
            found == [one for one in wanted for _ in "AB"],
            "copies beyond the skew are not read again",
        )


def late_in_the_switch(program: Program) -> None:
    """Switch B alone is busy: each copy there waits for a long frame that began a ns before it
    came."""
    tables = made.base_tables()
    tables["buffer"] = 4096
    tables["link"][0] |= made.row_of(latency=134, skew=134)
    tables["link"][1] |= made.row_of(lmax=1518, latency=1000)
    _, lines = stream_of(tables, MS, 300)
    busy, wanted = [], []
    for k in range(300):
        frame = frame_of(tables["system"][1], 2, 2000, letters(1471), number_of(k), "B")
        busy.append(b"R %d B 2 %s\n" % (k * MS + 6719, frame.hex().encode()))
        long, first, copy, told = 3 * k + 1, 3 * k + 2, 3 * k + 3, (b"%d" % k).hex().encode()
        wanted.append(b"V %d B accept\nV %d A accept\nV %d B accept\n" % (long, first, copy))
        wanted.append(
            b"D %d %d A 3\nM %d s3 1 %s\n" % (first, k * MS + 13440, k * MS + 13440, told)
        )
        end = k * MS + 6719 + 123040
        wanted.append(
            b"D %d %d B 3\nM %d s3 2 %s\n" % (long, end, end, letters(1471).hex().encode())
        )
        wanted.append(b"D %d %d B 3\nX %d s3 %d redundant\n" % (copy, end + 6720, end + 6720, copy))
    same_text("the replay", b"".join(wanted), replayed(program, tables, merged(lines + busy)))


# ---- long lists, the largest tables --------------------------------------------------------------


def long_police(program: Program, count: int) -> None:
    """So many frames, all accepted, on both sides."""
    system = made.base_tables()["system"][0]
    lines, wanted = [], []
    for k in range(count):
        side = "AB"[k % 2]
        frame = frame_of(system, 1, 1000, b"%d" % k, number_of(k), side)
        lines.append(b"R %d %s 1 %s\n" % (k * MS // 2, side.encode(), frame.hex().encode()))
        wanted.append(b"V %d %s accept\n" % (k + 1, side.encode()))
    found = program.run("police", "1", "64", "500", "-", given=b"".join(lines))
    answers(found, 0, b"".join(wanted), b"")


def long_stream(program: Program, count: int) -> None:
    """So many messages through `send`, and their replay."""
    tables = made.base_tables()
    messages = [Message(k * MS, 1, 1, 1000, b"%d" % k) for k in range(count)]
    text = sent_by(program, tables, "s1", messages)
    wanted = told_pairs(tables, emissions(tables, "s1", messages), 3)
    same_text("the replay", wanted, replayed(program, tables, text))


def least_memory(program: Program, words: list[str]) -> int:
    """The least address space, in KiB and to the nearest 64, in which the run doesn't want
    memory."""
    low, high = 0, 1 << 20
    while high - low > 64:
        middle = (low + high) // 2
        if program.run_limited(middle, *words).status == 0:
            high = middle
        else:
            low = middle
    return high


def bounded_memory(program: Program, count: int) -> None:
    """So many accepted frames, or messages, take the memory that a hundredth of them takes."""
    tables = made.base_tables()
    config = program.write("config", made.text_of(tables))
    frame = frame_of(tables["system"][0], 1, 1000, b"hello", 0, "A").hex().encode()
    lines = [b"R %d A 1 %s\n" % (k * MS, frame) for k in range(count)]
    messages = [b"%d 1 1 1000 61\n" % (k * MS) for k in range(count)]
    two = program.write("two", made.example("two_switches.toml"))
    over_two = [line.replace(b" A ", b" A fwd ", 1) for line in lines]
    for words, all_lines in (
        (["police", "1", "64", "500"], lines),
        (["replay", config], lines),
        (["replay", "--no-admission", config], lines),
        (["replay", two], over_two),
        (["send", config, "s1"], messages),
    ):
        few = program.write("few", b"".join(all_lines[: count // 100]))
        room = least_memory(program, [*words, few])
        many = program.write("many", b"".join(all_lines))
        found = program.run_limited(room + 64, *words, many)
        answers(found, 0, None, b"")
        must(found.out.count(b"\n") >= count, f"{words[0]} writes {found.out.count(10)} lines")


def largest(program: Program) -> None:
    """A message on each of 4,096 links at once, each frame to 23 ports."""
    tables = made.largest_tables()
    must(len(bounds(program, tables)) == 2 * 24, "check doesn't tell of 24 ports")
    lists, sent = [], []
    for system in tables["system"]:
        own = [link for link in tables["link"] if link["from"] == system["name"]]
        messages = [
            Message(0, link["vl"], 1 + link["vl"] % 4, 1000 + link["vl"], b"%d" % link["vl"])
            for link in own
        ]
        lists.append(sent_by(program, tables, system["name"], messages))
        sent += emissions(tables, system["name"], messages)
    text = merged(lists)
    out = replayed(program, tables, text)
    must(out.count(b"\nD ") == 2 * 4096 * 23, f"{out.count(b'D ')} copies left")
    check_all_accepted(tables, bounds(program, tables), text, out)
    check_delivered(tables, sent, out)


def largest_one_frame(program: Program) -> None:
    """One frame to 23 ports, line by line."""
    tables = made.largest_tables()
    sender = tables["system"][5]
    link = next(link for link in tables["link"] if link["from"] == "s6")
    udp = 1000 + link["vl"]
    frame = frame_of(sender, link["vl"], udp, b"hello", 0, "A")
    reader = next(row["system"] for row in tables["port"] if row["link"] == link["vl"])
    end = slot(frame, sender)
    wanted = [b"V 1 A accept\n"]
    for system in tables["system"]:
        if system is not sender:
            name = system["name"].encode()
            wanted.append(b"D 1 %d A %d\n" % (end, system["port"]))
            if name == reader.encode():
                wanted.append(b"M %d %s %d 68656c6c6f\n" % (end, name, link["vl"]))
            else:
                wanted.append(b"X %d %s 1 no-port\n" % (end, name))
    text = b"R 0 A 6 %s\n" % frame.hex().encode()
    same_text("the replay", b"".join(wanted), replayed(program, tables, text))


def try_all(cases: Cases, program: Program) -> None:
    """All cases."""
    cases.try_case("messages of every length", every_length, program, 64)
    cases.try_case(
        "messages of every length, with a least length of 300", every_length, program, 300
    )
    cases.try_case("numbers that go round", round_and_round, program, 1, 100, 300)
    cases.try_case(
        "numbers that go round thrice, profile 2", round_and_round, program, 2, 1000, 800
    )
    cases.try_case("full queues", bursts, program)
    for profile in (1, 2):
        cases.try_case(
            f"four messages beside a babbler, profile {profile}", beside_a_babbler, program, profile
        )
        cases.try_case(f"a side that is away, profile {profile}", one_side, program, profile)
        cases.try_case(
            f"a side that is late, profile {profile}", late_side, program, profile, 1000, 3 * MS
        )
        cases.try_case(
            f"a side that is late by many frames, profile {profile}",
            late_side,
            program,
            profile,
            100_000,
            MS,
        )
    cases.try_case("a side whose switch is busy", late_in_the_switch, program)
    network = made.example_tables("network.toml")
    cases.try_case("every system of network.toml", every_system, program, network, 12)
    cases.try_case("5,000 accepted frames policed", long_police, program, 5000)
    cases.try_case("5,000 messages sent and replayed", long_stream, program, 5000)
    cases.try_case("memory that doesn't grow with the list", bounded_memory, program, 100_000)
    cases.try_case("the largest tables: one frame", largest_one_frame, program)
    cases.try_case("the largest tables: a message on each link", largest, program)


if __name__ == "__main__":
    main_of(__doc__, try_all)
