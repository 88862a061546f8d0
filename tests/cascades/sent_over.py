"""What the systems of a cascade send, and its replay: each message is read once and in order by
each system that has a port for it, at whichever switch."""
from __future__ import annotations

import random

from cascade import cascade_text, own_names
from cascade_run import refusal, refused, sent_text
from compared_runs import DROPS, run_alike
from delivery import check_delivered
from made_cascades import made_cascade, solved
from program import Program, answers, must
from sender import Message, emissions, submission_list
from traffic import merged, random_messages


def message_of(line: bytes) -> Message:
    """The message of a line."""
    time, vl, sub, udp, digits = line.split()
    payload = b"" if digits == b"-" else bytes.fromhex(digits.decode())
    return Message(int(time), int(vl), int(sub), int(udp), payload)


def all_tables(switches: list[dict]) -> dict:
    """All communication ports, and of each link all systems that it goes to."""
    to: dict[int, list[str]] = {}
    for switch in switches:
        for link in switch["link"]:
            to.setdefault(link["vl"], []).extend(own_names(switch).intersection(link["to"]))
    ports = [row for switch in switches for row in switch["port"]]
    return {"link": [{"vl": vl, "to": names} for vl, names in to.items()], "port": ports}


def odd_messages(chance: random.Random, switches: list[dict], time: int) -> list[Message]:
    """Messages that a system mostly refuses: on any link, of any sub-VL and size."""
    vls = [link["vl"] for switch in switches for link in switch["link"]] + [9]
    return [
        Message(time, chance.choice(vls), chance.choice([0, 1, 2, 5, 255]), 7,
                bytes(chance.choice([0, 0, 1, 1472])))
        for _ in range(chance.randint(0, 4))
    ]


def messages_of(
    chance: random.Random, switches: list[dict], switch: dict, name: str
) -> list[Message]:
    """Messages of a system, and some that it mostly refuses."""
    tables = switch | {"port": [row for one in switches for row in one["port"]]}
    messages = random_messages(tables, name, 12, chance)
    odd = odd_messages(chance, switches, chance.choice([0, 1_000_000]))
    odd = [one for one in odd if refusal(switch, name, one)]
    return sorted([*messages, *odd], key=lambda message: message.time)


def sends_alike(program: Program, chance: random.Random, cascade: dict) -> None:
    """All systems send; then all that was sent is replayed, and delivered."""
    config, switches = program.write("config", cascade_text(cascade)), cascade["switch"]
    lists, sent = [], []
    for switch in switches:
        for name in sorted(own_names(switch)):
            messages = messages_of(chance, switches, switch, name)
            found = program.run("send", config, name, "-", given=submission_list(messages))
            answers(found, 0, sent_text(cascade, name, messages), b"")
            lines = found.out.splitlines(keepends=True)
            lists.append(b"".join(line for line in lines if not line.startswith(b"#")))
            taken = [one for one in messages if not refusal(switch, name, one)]
            sent += emissions(switch, name, taken)
    ran = run_alike(program, cascade, merged(lists), [(), (DROPS,)])
    must(not any(line[0] in "LT" or " drop " in line for line in ran.lines), "a frame is dropped")
    check_delivered(all_tables(switches), sorted(sent, key=lambda one: one.end), ran.out())


def refused_sends(program: Program, cascade: dict) -> None:
    """A cascade that is not admitted sends nothing; but the name of a system is looked at first."""
    config, fault = program.write("config", cascade_text(cascade)), refused(cascade["switch"])
    if fault is None:
        return
    names = [name for switch in cascade["switch"] for name in own_names(switch)]
    for name in names[:1]:
        answers(program.run("send", config, name, "-"), *fault)
    for name in ("nobody", cascade["switch"][0]["name"]):
        answers(program.run("send", config, name, "-"), 2, b"", b"words NoSuchSystem\n")


def all_sent(program: Program, seed: int, count: int) -> None:
    """So many cascades that are admitted; and others that aren't."""
    chance, program = random.Random(seed), program.apart()
    tried = 0
    while tried < count:
        cascade = made_cascade(chance, chance.randint(1, 5), chance.randint(1, 15), True)
        refused_sends(program, cascade)
        least = solved(cascade)
        if refused(least["switch"]) is None:
            sends_alike(program, chance, least)
            tried += 1
