"""What tests/run/fuzz.py tries: configurations and lists, made at random and changed at random."""
import os
import sys
import tomllib

TOP = os.path.dirname(os.path.dirname(os.path.dirname(os.path.abspath(__file__))))
EXAMPLES = os.path.join(TOP, "examples")
sys.path[:0] = [EXAMPLES, os.path.join(TOP, "tests", "lib")]
from frame_builder import frame_of, sealed  # noqa: E402
from tables import link_of, port_of, system_of, tables_of, text_of  # noqa: E402

BAGS = [1, 2, 4, 8, 16, 32, 64, 128]
WORDS = [b"F", b"B", b"R", b"A", b"B", b"#", b"-", b"", b"0", b"1", b"24", b"25", b"07", b"+5"]
WORDS += [b"1000000000000000", b"1000000000000001", b"18446744073709551616"]
WORDS += [b"99999999999999999999999", b"\r", b"\xff", b"\t"]
TOML_WORDS = ["0", "1", "2", "3", "-1", "24", "25", "63", "64", "1518", "1519", "65536", "4194305"]
TOML_WORDS += ["1.5", '"s1"', "[]", "true", '"high"', "9223372036854775808", "[[link]]", "x = 1"]
TOML_WORDS += ["[port]", '""', "= ", "\u00e9", "'''"]


def read(name):
    with open(os.path.join(EXAMPLES, name), "rb") as file:
        return file.read()


def parsed(text):
    """The tables that a text spells, as dicts; None where it isn't TOML."""
    try:
        tables = tomllib.loads(text.decode("utf-8"))
    except (ValueError, RecursionError):
        return None
    return {key: tables.get(key, []) for key in ("system", "link", "port")} | tables


def random_systems(random, profile):
    """Systems at ports of their own."""
    rates = [10, 100, 100, 100] + ([1000, 1000] if profile == 2 else [])
    count = random.randint(2, 6)
    ports = random.sample(range(1, 25), count)
    return [
        system_of(ports[place], random.choice(rates), f"s{place}", place * 257, place)
        for place in range(count)
    ]


def random_link(random, vl, names, ample):
    """A link between these systems."""
    sender = random.choice(names)
    others = [name for name in names if name != sender]
    lmin = random.choice([64, 64, 64, 65, 100, 300])
    lmax = max(lmin, random.choice([64, 80, 100, 300] if ample else [64, 80, 100, 300, 1518]))
    bag = random.choice(BAGS[4:] if ample else BAGS)
    latency = random.choice([20000, 100000] if ample else [1, 6, 20, 100, 1000, 100000])
    return link_of(
        vl,
        sender,
        random.sample(others, random.randint(1, len(others))),
        bag=bag,
        lmin=lmin,
        lmax=lmax,
        jitter=min(1000 * bag, 4000) if ample else random.choice([0, 500, 1000 * bag]),
        priority=random.choice(["high", "low"]),
        policing=random.choice(["byte", "frame"]),
        latency=latency,
        skew=100000 if ample else random.choice([1, 1000, 100000]),
        subs=random.randint(1, 4),
    )


def random_ports(random, links):
    """A port at most of the links' receivers."""
    ports = []
    for link in links:
        for name in link["to"]:
            if random.random() < 0.8:
                kind = random.choice(["sampling", "queuing"])
                depth = 1 if kind == "sampling" else random.randint(1, 64)
                ports.append(port_of(name, link["vl"], kind=kind, depth=depth))
    return ports


def random_tables(random):
    """Lawful tables; often admitted, as the jitters and latencies are ample in half of the
    cases."""
    profile = random.choice([1, 1, 2])
    systems = random_systems(random, profile)
    names = [system["name"] for system in systems]
    ample = random.random() < 0.6
    numbers = random.sample([0, 1, 2, 3, 255, 256, 4660, 65535], random.randint(1, 5))
    links = [random_link(random, vl, names, ample) for vl in numbers]
    ports = random_ports(random, links)
    buffer = 65536 if ample else random.choice([64, 200, 700, 3000])
    return tables_of(systems, links, ports, profile, buffer)


def changed_config(random, text):
    """A configuration with a change or a few."""
    for _ in range(random.choice([1, 1, 1, 2, 3])):
        lines = text.split(b"\n")
        at = random.randrange(len(lines))
        way = random.randrange(7)
        if way == 0 and text:
            place = random.randrange(len(text))
            text = text[:place] + bytes([random.randrange(256)]) + text[place + 1 :]
        elif way == 1:
            text = text[: random.randrange(len(text) + 1)]
        elif way == 2:
            other = random.randrange(len(lines))
            lines[at], lines[other] = lines[other], lines[at]
            text = b"\n".join(lines)
        elif way == 3:
            text = b"\n".join(lines[:at] + lines[at + 1 :])
        elif way == 4:
            text = b"\n".join(lines[:at] + [lines[at]] + lines[at:])
        elif way == 5:
            key = lines[at].split(b"=")[0]
            lines[at] = key + b"= " + random.choice(TOML_WORDS).encode("utf-8")
            text = b"\n".join(lines)
        else:
            lines.insert(at, random.choice(TOML_WORDS).encode("utf-8"))
            text = b"\n".join(lines)
    return text


def random_frame(random, tables, link, number, side):
    """A frame of the link, mostly a good one, with its check sequence or without."""
    sender = next(
        (system for system in tables["system"] if system["name"] == link["from"]),
        tables["system"][0],
    )
    longest = max(link["lmax"] - 47, 1)
    payload = bytes(
        random.randrange(256) for _ in range(random.choice([1, 5, 17, longest, min(longest, 30)]))
    )
    changes = {}
    if random.random() < 0.1:
        key = random.choice(
            ["ether_type", "flags", "protocol", "checksum", "udp_length", "address"]
        )
        changes[key] = random.randbytes(6) if key == "address" else random.randrange(256)
    least = random.choice([64, link["lmin"], link["lmin"], link["lmax"], link["lmax"] + 1])
    udps = [row["udp"] for row in tables["port"] if row["link"] == link["vl"]] or [1000]
    udp = random.choice(udps) if random.random() < 0.95 else 7
    return sender, frame_of(
        sender["id"], sender["partition"], link["vl"], payload, number, side, udp, least, **changes
    )


def random_list(random, tables):
    """A list of frames for the tables: bursts and pauses, copies on side B, and some that are
    wrong."""
    lines, time = [], random.choice([0, 0, 5, 10**15 - 10**8])
    numbers: dict = {}
    links = tables["link"]
    for _ in range(random.choice([1, 3, 10, 40])):
        time += random.choice([0, 0, 0, 1, 719, 720, 6720, 6719, 100000, 500000, 1000000, 16000000])
        if not links or not tables["system"] or random.random() < 0.03:
            lines.append(
                (
                    time,
                    "R",
                    random.choice("AB"),
                    random.randint(1, 24),
                    random.randbytes(random.choice([0, 5, 64])),
                )
            )
            continue
        link = random.choice(links)
        vl = link["vl"]
        number = numbers.get(vl, -1) + random.choice([1, 1, 1, 1, 1, 0, 2, 3])
        numbers[vl] = number
        number = (number - 1) % 255 + 1 if number > 0 else 0
        state = random.getstate()
        for side in random.choice(["A", "AB", "AB", "B", "BA"]):
            random.setstate(state)  # the copy is the same frame
            sender, frame = random_frame(random, tables, link, number, side)
            at = time + (0 if side == "A" else random.choice([0, 1, 3000, 1000000]))
            port = sender["port"] if random.random() < 0.95 else random.randint(1, 24)
            kind = random.choice(["F"] * 12 + ["R", "B"])
            lines.append((at, kind, side, port, sealed(frame) if kind == "R" else frame))
    lines.sort(key=lambda line: line[0])
    texts = [
        f"{kind} {min(at, 10**15)} {side} {port} {frame.hex() or '-'}"
        for at, kind, side, port, frame in lines
    ]
    return ("\n".join(texts) + random.choice(["\n", ""])).encode("ascii")


def changed_fields(random, line):
    fields = line.split(b" ")
    at = random.randrange(len(fields))
    if at == 1 and fields[1].isdigit():
        step = random.choice([-1, 1, 1000, -1000, 10**9, 6720])
        fields[1] = b"%d" % max(0, int(fields[1]) + step)
    elif at == len(fields) - 1 and len(fields[at]) > 2:
        place = random.randrange(len(fields[at]))
        fields[at] = (
            fields[at][:place]
            + random.choice([b"0", b"f", b"F", b"g", b"", b"00"])
            + fields[at][place + 1 :]
        )
    else:
        fields[at] = random.choice(WORDS)
    return b" ".join(fields)


def changed_list(random, text):
    """A list with a change or a few."""
    for _ in range(random.choice([1, 1, 2, 5])):
        lines = text.split(b"\n")
        at = random.randrange(len(lines))
        way = random.randrange(10)
        if way == 0 and text:
            place = random.randrange(len(text))
            text = text[:place] + bytes([random.randrange(256)]) + text[place + 1 :]
            continue
        if way == 1:
            text = text[: random.randrange(len(text) + 1)]
            continue
        if way == 2:
            other = random.randrange(len(lines))
            lines[at], lines[other] = lines[other], lines[at]
        elif way == 3:
            del lines[at]
        elif way == 4:
            lines.insert(at, lines[at])
        elif way == 5:
            lines.insert(
                at,
                random.choice([b"", b"# a remark", b"\r", b" ", b"#" * 4200, b"#" * 4201, b"\0"]),
            )
        elif way == 6:
            lines[at] += b"\r"
        else:
            lines[at] = changed_fields(random, lines[at])
        text = b"\n".join(lines)
    return text


def random_submissions(random, tables, name):
    """A list of messages for one system: bursts and pauses, and some that are refused."""
    own = [link for link in tables["link"] if link["from"] == name]
    others = tables["link"]
    lines, time = [], random.choice([0, 0, 5, 10**15 - 10**8])
    count = random.choice([1, 3, 10, 40, 200])
    gaps = [0, 0, 0, 0, 1, 6720, 100000, 1000000, 16000000]
    if random.random() < 0.1:
        count, gaps = 400, [128000000]  # numbers go round
        own = own[:1]
    for _ in range(count):
        time = min(10**15, time + random.choice(gaps))
        link = (
            random.choice(own if own and random.random() < 0.95 else others)
            if others
            else {"vl": 1, "lmax": 64, "subs": 1}
        )
        sub = (
            random.randint(1, link["subs"])
            if random.random() < 0.95
            else random.choice([0, 5, 255])
        )
        longest = link["lmax"] - 47
        size = random.choice([1, 1, 5, 17, longest, longest + 1, random.randint(0, longest)])
        udp = random.choice([1000] * 9 + [7, 0, 65535])
        lines.append(f"{time} {link['vl']} {sub} {udp} {random.randbytes(size).hex() or '-'}")
    return ("\n".join(lines) + random.choice(["\n", ""])).encode("ascii")


class Case:
    """A configuration, a list, what is known of the configuration, a system and its messages."""

    def __init__(self, config, tables, text, name="s1", messages=b""):
        self.config, self.tables, self.text = config, tables, text
        self.name, self.messages = name, messages


def stored():
    """The examples' configurations and lists."""
    configs = {
        name: read(name) for name in ("base.toml", "network.toml", "refused.toml", "gigabit.toml")
    }
    lists = {
        name: read(name)
        for name in ("bench.list", "gigabit.list", "babbling.list", "one_link.list")
    }
    return configs, lists


HOMES = {"bench.list": "network.toml", "gigabit.list": "gigabit.toml"}


def random_case(random, configs, lists):
    if random.random() < 0.65:
        tables = random_tables(random)
        config = text_of(tables)
        text = random_list(random, tables)
    else:
        name = random.choice(sorted(lists))
        config, text = configs[HOMES.get(name, "base.toml")], lists[name]
        if random.random() < 0.7:
            lines = text.split(b"\n")
            begin = random.randrange(len(lines))
            text = b"\n".join(lines[begin : begin + random.choice([5, 30, 300])])
        if random.random() < 0.1:
            config = random.choice(sorted(configs.values()))
        tables = parsed(config)
    is_sound = tables is not None
    if random.random() < 0.25:
        is_sound = False
        config = changed_config(random, config)
        tables = parsed(config)
    if random.random() < 0.5:
        text = changed_list(random, text)
    if not is_sound:
        return Case(config, tables, text)
    name = random.choice(tables["system"])["name"]
    messages = random_submissions(random, tables, name)
    if random.random() < 0.4:
        messages = changed_list(random, messages)
    return Case(config, tables, text, name, messages)
