#!/usr/bin/python3
"""Makes networks of interface documents at random, has them grow, and sends their traffic.

    tests/tools/random_documents.py COUNT PROGRAM

The configuration that afdx-icd makes with --reserve must be admitted, with that room. After a
change each number that is another than before, and nothing else, must be reported by --since; none
may be less that the document doesn't ask for. What afdx-traffic writes must be sent without a
refusal, accepted and delivered. Prints what isn't so, then how many messages were sent; ends with
status 1 if something isn't.
"""
from __future__ import annotations

import csv
import os
import random
import re
import subprocess
import sys
import tempfile
import tomllib

sys.dont_write_bytecode = True
HERE = os.path.dirname(os.path.abspath(__file__))
sys.path[:0] = [os.path.join(HERE, "..", "lib")]
from program import Wrong, must  # noqa: E402

TOOLS = os.path.join(HERE, "..", "..", "tools")
PERIODS = ["1", "2", "4.5", "8", "10", "12,5", "20.0", "33.3", "50", "100", "200", "1000"]
MARKS = ["", "", "_", "-"]
NAMED = re.compile(r"links? ([0-9, ]+?)(?:, [a-z].*)?: (\w+) .+ to .+ \(.+\)")


def run(folder: str, *words: str) -> tuple[int, str]:
    """Runs a tool in a folder: its status, and what it says on either stream."""
    done = subprocess.run(
        [os.path.join(TOOLS, words[0]), *words[1:]],
        cwd=folder,
        text=True,
        check=False,
        stdout=subprocess.PIPE,
        stderr=subprocess.STDOUT,
    )
    return done.returncode, done.stdout


def systems_of(chance: random.Random) -> list[dict]:
    """Some systems at ports of a switch."""
    ports = chance.sample(range(1, 25), chance.randint(2, 8))
    return [
        {
            "system": f"s{chance.choice(MARKS)}{number}{chance.choice(MARKS)}",
            "port": port,
            "id": 100 + number,
            "partition": number,
            "rate": chance.choice([100, 1000, 1000]),
        }
        for number, port in enumerate(ports)
    ]


def message_of(
    chance: random.Random, names: list[str], vl: int, udp: int, like: dict, periods: list[str]
) -> dict:
    """A message of a link; `like` is an earlier one of the same link, or empty."""
    source = like.get("from") or chance.choice(names)
    others = [name for name in names if name != source]
    kind = chance.choice(["sampling", "queuing"])
    return {
        "message": f"m{vl}.{udp}",
        "vl": vl,
        "from": source,
        "to": chance.choice([" ", ", ", ";"]).join(
            chance.sample(others, chance.randint(1, len(others)))
        ),
        "every_ms": chance.choice(periods),
        "bytes": chance.choice([1, 17, 18, 100, 1471, chance.randint(1, 1471)]),
        "within_us": chance.choice(["", "", chance.randint(1, 20_000)]),
        "priority": like.get("priority") or chance.choice(["high", "low"]),
        "port": udp,
        "kind": kind,
        "depth": chance.randint(1, 64) if kind == "queuing" else "",
        "subs": chance.choice(["", 1, 2, 4]),
        "skew_us": chance.choice(["", "", 50_000]),
    }


def messages_of(chance: random.Random, names: list[str], first: int, count: int) -> list[dict]:
    """The messages of some links, up to four on one."""
    rows: list[dict] = []
    for vl in range(first, first + count):
        like: dict = {}
        count_here = chance.choice([1, 1, 1, 2, 3, 4])
        periods = PERIODS if count_here == 1 else PERIODS[2:]  # four of these go on a link
        for place in range(count_here):
            like = message_of(chance, names, vl, 1000 + place, like, periods)
            rows.append(like)
    return rows


def write(path: str, rows: list[dict]) -> None:
    """A table."""
    with open(path, "w", encoding="utf-8", newline="") as file:
        writer = csv.DictWriter(file, rows[0].keys())
        writer.writeheader()
        writer.writerows(rows)


def tables_of(folder: str, name: str) -> dict:
    """The tables of a configuration."""
    with open(os.path.join(folder, name), "rb") as file:
        return tomllib.load(file)


def bounds_of(folder: str, name: str) -> tuple[dict[int, int], int]:
    """The greatest bound of each link in ns, and the bytes that can wait, as `check` has them."""
    status, said = run(folder, os.environ["AFDX"], "check", "--margins", name)
    must(status == 0 and "ok" in said.splitlines(), f"{name}: {said.splitlines()[-1]}")
    bounds: dict[int, int] = {}
    buffer = 0
    for line in said.splitlines():
        match line.split():
            case ["m", _, vl, bound, _]:
                bounds[int(vl)] = max(bounds.get(int(vl), 0), int(bound))
            case ["P", _, _, _, needed]:
                buffer = max(buffer, int(needed))
    return bounds, buffer


def made(folder: str, name: str, *options: str) -> str:
    """Makes a configuration; what is printed."""
    words = ["--profile", "2", "--raise", *options, "systems.csv", "messages.csv", name]
    status, said = run(folder, "afdx-icd", *words)
    must(status == 0 and said.endswith("ok\n"), f"afdx-icd {options}: {status} {said}")
    return said


def must_have_room(folder: str, name: str, reserve: int) -> None:
    """Latencies and buffer are so much more than is needed, or more where the document says it."""
    bounds, buffer = bounds_of(folder, name)
    tables = tables_of(folder, name)
    must(tables["buffer"] >= -(-buffer * (100 + reserve) // 100), f"the buffer of {name}")
    for link in tables["link"]:
        enough = -(-bounds[link["vl"]] * (100 + reserve) // 100_000)
        must(link["latency_us"] >= enough, f"{name}: link {link['vl']} has less than {enough} us")
        must(link["skew_us"] >= link["latency_us"], f"{name}: the skew of link {link['vl']}")


def must_tell(folder: str, old: str, new: str, said: str) -> None:
    """What `--since` reported is what is another."""
    before = {link["vl"]: link for link in tables_of(folder, old)["link"]}
    after = {link["vl"]: link for link in tables_of(folder, new)["link"]}
    told = set()
    for found in filter(None, map(NAMED.fullmatch, said.splitlines())):
        told |= {(int(vl), found[2]) for vl in found[1].split(",")}
    other = {
        (vl, key)
        for vl in before.keys() & after.keys()
        for key in before[vl]
        if before[vl][key] != after[vl][key]
    }
    must(told == other, f"told and not so {told - other}, not told {other - told}\n{said}")
    for vl in after.keys() - before.keys():
        must(f"link {vl}, " in said, f"link {vl} is new, which isn't told")
    for vl in before.keys() - after.keys():
        must(f"link {vl}: gone" in said, f"link {vl} is gone, which isn't told")


def must_stay(folder: str, old: str, new: str, rows: list[dict]) -> None:
    """Where the document asks nothing, latencies and skews that were enough are as they were."""
    before = {link["vl"]: link for link in tables_of(folder, old)["link"]}
    bounds, _ = bounds_of(folder, new)
    for link in tables_of(folder, new)["link"]:
        asked = [row for row in rows if row["vl"] == link["vl"] and row["within_us"] != ""]
        was = before.get(link["vl"])
        if was and not asked and 1000 * was["latency_us"] >= bounds[link["vl"]]:
            must(link["latency_us"] == was["latency_us"], f"the latency of link {link['vl']}")


def sent(folder: str, name: str, seed: int, copies: int) -> int:
    """Sends the traffic of the tables; how many messages that are."""
    words = ["--profile", "2", "--seed", str(seed), "--seconds", "1.5", "--config", name]
    status, said = run(folder, "afdx-traffic", *words, "systems.csv", "messages.csv", "sent")
    must(status == 0, f"afdx-traffic: {status} {said}")
    messages = int(said.splitlines()[-1].split()[1])
    words = ["replay", "--summary", name, "sent/all-systems.list"]
    status, said = run(folder, os.environ["AFDX"], *words)
    summary = said.splitlines()[-1].split()
    counts = dict(zip(summary[1::2], map(int, summary[2::2])))
    must(status == 0 and counts["accepted"] == counts["lines"] == 2 * messages, f"{summary}")
    must(counts["dropped"] == counts["lost"] == counts["too-old"] == 0, f"{summary}")
    must(2 * counts["delivered"] <= counts["departed"] and counts["delivered"] >= copies, "M lines")
    return messages


def tried(folder: str, chance: random.Random, number: int) -> int:
    """A network that grows; how many messages it sent. One that can't be is passed over."""
    systems = systems_of(chance)
    names = [row["system"] for row in systems]
    rows = messages_of(chance, names, 10, chance.randint(1, 12))
    write(os.path.join(folder, "systems.csv"), systems)
    write(os.path.join(folder, "messages.csv"), rows)
    words = ["--profile", "2", "--raise", "systems.csv", "messages.csv", "least.toml"]
    status, said = run(folder, "afdx-icd", *words)
    must(status == 0 or "no A" in said, f"afdx-icd: {status} {said}")
    if status:
        return 0
    reserve = chance.choice([1, 10, 20, 50, 99])
    made(folder, "roomy.toml", "--reserve", str(reserve))
    must_have_room(folder, "roomy.toml", reserve)
    messages = sent(folder, "roomy.toml", number, len(rows))
    gone = chance.choice(rows)["vl"] if chance.random() < 0.5 else None
    rows = [row for row in rows if row["vl"] != gone] + messages_of(chance, names, 50, 1)
    write(os.path.join(folder, "messages.csv"), rows)
    status, said = run(folder, "afdx-icd", *words)
    if status == 0:
        said = made(folder, "grown.toml", "--since", "roomy.toml")
        must_tell(folder, "roomy.toml", "grown.toml", said)
        must_stay(folder, "roomy.toml", "grown.toml", rows)
        must_have_room(folder, "grown.toml", 0)
        messages += sent(folder, "grown.toml", number, len(rows))
    return messages


def main() -> None:
    """Tries as many networks as are asked for."""
    count, os.environ["AFDX"] = int(sys.argv[1]), os.path.abspath(sys.argv[2])
    messages = wrong = 0
    for number in range(count):
        with tempfile.TemporaryDirectory() as folder:
            try:
                messages += tried(folder, random.Random(number), number)
            except Wrong as fault:
                wrong += 1
                print(f"{number}: {fault}")
    print(f"{messages} messages were sent")
    sys.exit(1 if wrong or not messages else 0)


main()
