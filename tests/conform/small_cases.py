"""Small pairs of lists for `conform`, made at random: what came to a small switch at times at which
its accounts are nearly full or empty, what left it, nearly right or not, and options."""
from __future__ import annotations

import random
from typing import NamedTuple

import tables as made
from cascade_run import SIDES
from first_fault import LATEST
from frames import byte_ns, sealed
from one_switch import MS, Policing

GAPS = [0, 0, 1, 5_760, 54_617, 480_000, 498_000, 499_499, 499_501, 499_999, 500_000, 500_001]
GAPS += [500_500, 999_000, MS - 1, MS, MS + 1_001, 2 * MS]
OFF = (-5_760, -1_000, -2, -1, 0, 0, 1, 2, 1_000, 17_000)  # of times, by which lists are changed
SLACKS, DRIFTS, INNERS = (0, 1, 1_000, 50_000, MS), (0, 1, 100, 1_000), (0, 1, 60_000, MS)
ASKED, APART = (0, 1, 700, 10_000), (0, 1, 1_000, 20_000, 300_000, 100 * MS)
ODD_BYTES = ("0300", "ff" * 60, "0300000000", "03000000ffff" + "00" * 58, "-", "00" * 1_519)
BAD_LINES = (b"F 0 A\n", b"F 1 A 25 00\n", b"F 0 A 1 0\n", b"X\n", b"F 9 C 1 00\n", b"#\n", b"\n")

Line = tuple[int, str, str, int, str]  # time, kind, side, port, digits


class Pair(NamedTuple):
    """A configuration, two lists, and the words of options."""

    config: bytes
    came: bytes
    left: bytes
    words: tuple[str, ...]

    def with_list(self, place: int, text: bytes) -> Pair:
        """The same with another list in the place of one."""
        return self._replace(came=text) if place == 0 else self._replace(left=text)


def small_tables(chance: random.Random) -> dict:
    """Tables of one to three links between three systems, of short BAGs; most go to s3 alone."""
    tables = made.base_tables(2)
    tables["system"] = [made.system_of(port, chance.choice([10, 100, 1000])) for port in (1, 2, 3)]
    links = []
    for vl in range(1, chance.choice([1, 1, 2, 3]) + 1):
        sender = chance.choice(["s1", "s1", "s2"])
        others = [name for name in ("s3", "s2", "s1") if name != sender]
        link = {"vl": vl, "from": sender, "to": others[: chance.choice([1, 1, 2])]}
        link |= {"lmin": chance.choice([64, 64, 66]), "lmax": chance.choice([66, 66, 80, 300])}
        link |= {"jitter_us": chance.choice([0, 0, 1, 500, 1000]), "bag_ms": chance.choice([1, 2])}
        link |= {"policing": chance.choice(["byte", "frame"])}
        link |= {"latency_us": chance.choice([6, 7, 17, 100, 700, 2000])}
        links.append(tables["link"][0] | link)
    return tables | {"link": links, "port": []}


class Maker:
    """Makes the lines of two lists for a switch with these tables."""

    def __init__(self, chance: random.Random, tables: dict) -> None:
        self.chance, self.tables = chance, tables
        self.system = {system["name"]: system for system in tables["system"]}
        self.kinds = chance.choice([1, 1, 2, 5])  # how many frames of a link there are
        self.gaps = chance.sample(GAPS, 3)
        self.slow = [link["latency_us"] * 1000 for link in tables["link"]]

    def digits(self, link: dict) -> str:
        """A frame of the link, without its check sequence."""
        length = self.chance.choice([64, link["lmax"]]) if self.chance.random() < 0.3 else 64
        length -= self.chance.random() < 0.02
        number = self.chance.randrange(self.kinds)
        return f"03000000{link['vl']:04x}" + "00" * (length - 11) + f"{number:02x}"

    def came(self, most: int) -> list[Line]:
        """What comes."""
        chance, lines = self.chance, []
        time = chance.choice([0, 0, 5_000, LATEST - 40 * MS])
        for _ in range(chance.randint(0, most)):
            link, kind = chance.choice(self.tables["link"]), "F"
            port = self.system[link["from"]]["port"]
            digits, odd = self.digits(link), chance.random()
            if odd < 0.06:
                port = chance.randint(1, 4)
            elif odd < 0.12:
                kind = chance.choice("RB")
            elif odd < 0.15:
                digits = chance.choice(ODD_BYTES)
            lines.append((time, kind, chance.choice("AAAAB"), port, digits))
            time += chance.choice([*self.gaps, chance.randrange(MS)])
        return lines

    def left(self, came: list[Line]) -> list[Line]:
        """What a right switch might let leave of this; its output lines have no order."""
        lines = []
        rules = {(side, link["vl"]): Policing(link) for side in SIDES
                 for link in self.tables["link"]}
        links = {f"03000000{link['vl']:04x}": link for link in self.tables["link"]}
        for time, kind, side, port, digits in came:
            link = links.get(digits[:12])
            if kind != "F" or link is None or port != self.system[link["from"]]["port"]:
                continue
            length = len(sealed(bytes.fromhex(digits)))
            if rules[side, link["vl"]].early(time, length):
                continue
            for name in link["to"]:
                least = (length + 8) * byte_ns(self.system[name])
                longest = max(least, 1000 * link["latency_us"])
                delay = self.chance.choice([least, longest, self.chance.randint(least, longest)])
                end = min(time + delay, LATEST)
                lines.append((end, "F", side, self.system[name]["port"], digits))
        return lines

    def spoiled(self, lines: list[Line], count: int) -> list[Line]:
        """The lines after so many changes."""
        chance, lines = self.chance, list(lines)
        for _ in range(count):
            if not lines:
                break
            at, other = chance.randrange(len(lines)), chance.choice(lines)
            time, kind, side, port, digits = lines[at]
            if chance.random() < 0.6:
                longest = chance.choice(self.slow)
                time = max(0, time + chance.choice([*OFF, longest, 2 * longest, -longest]))
                lines[at] = (min(time, LATEST), kind, side, port, digits)
            else:
                lines[at : at + 1] = chance.choice([
                    [], [], 2 * [lines[at]], [(time, kind, side, port, other[4])],
                    [(time, chance.choice("BR"), side, port, digits)],
                    [(time, kind, "B", port, digits)], [(time, kind, side, 2, digits)],
                    [(time, kind, side, port, chance.choice(ODD_BYTES))],
                ])
        return lines

    def options(self, times: list[int]) -> tuple[str, ...]:
        """Options, or none."""
        chance, words = self.chance, []
        for name, values in (("--slack", SLACKS), ("--between", APART), ("--drift", DRIFTS),
                             ("--inner", INNERS), ("--asked", ASKED)):
            if chance.random() < 0.35:
                words += [name, str(chance.choice(values))]
        for name in ("--from", "--until"):
            if chance.random() < 0.25:
                time = chance.choice(times) + chance.choice([*OFF, *self.slow])
                words += [name, str(min(max(0, time), LATEST))]
        if chance.random() < 0.08:
            words += ["--leave-out", chance.choice(["1", "2", "9", "other"])]
        return tuple(words)


def spelled(lines: list[Line]) -> bytes:
    """A list of the lines, by their times."""
    lines = sorted(lines, key=lambda line: line[0])
    texts = (f"{kind} {time} {side} {port} {digits}\n" for time, kind, side, port, digits in lines)
    return "".join(texts).encode()


def with_fault(chance: random.Random, text: bytes) -> bytes:
    """The list with a line that is bad, or no frame; or cut."""
    lines = text.splitlines(keepends=True)
    if chance.random() < 0.3:
        return text[: chance.randint(0, len(text))]
    lines.insert(chance.randint(0, len(lines)), chance.choice(BAD_LINES))
    return b"".join(lines)


def small_pair(chance: random.Random, most: int = 9, faulty: float = 0.05) -> Pair:
    """A small case; some lists have a fault."""
    tables = small_tables(chance)
    maker = Maker(chance, tables)
    came = maker.came(most)
    left = maker.spoiled(maker.left(came), chance.choice([0, 0, 1, 1, 2, 4]))
    words = maker.options([line[0] for line in [*came, *left]] or [0])
    came = maker.spoiled(came, chance.choice([0, 0, 0, 1, 2]))
    texts = [spelled(came), spelled(left)]
    if chance.random() < faulty:
        at = chance.randrange(2)
        texts[at] = with_fault(chance, texts[at])
    return Pair(made.text_of(tables), texts[0], texts[1], words)
