"""What must be so of what `send` writes, and of its replay; checks.py has the rest."""
import re
import zlib

from checks import BYTE_NS, NUMBER, PORT, faulty_line, lines_in, matched, must, raw_lines, said

EMISSION = re.compile(rf"R ({NUMBER}) ([AB]) ({PORT}) ((?:[0-9a-f][0-9a-f])+)")
REFUSAL = re.compile(rf"# ({NUMBER}) S[1-5]")


class Sent:
    """A frame that `send` wrote, with its copy."""

    def __init__(self, first, second):
        fault = f"send wrote the lines {first!r} and {second!r}"
        one, two = (matched(EMISSION, line, fault) for line in (first, second))
        same = one[1] == two[1] and one[2] == "A" and two[2] == "B" and one[3] == two[3]
        must(same, f"{first!r} and {second!r} are not a frame and its copy")
        self.time, self.port, self.bytes = int(one[1]), int(one[3]), bytes.fromhex(one[4])
        other = bytes.fromhex(two[4])
        for side, frame in ((0x20, self.bytes), (0x40, other)):
            must(
                zlib.crc32(frame[:-4]).to_bytes(4, "little") == frame[-4:],
                f"{first!r}: a wrong check sequence",
            )
            must(frame[11] == side, f"{first!r}: not the side in the source address")
        must(
            self.bytes[:11] + self.bytes[12:-4] == other[:11] + other[12:-4],
            f"{first!r}: its copy is another frame",
        )
        self.vl, self.number = int.from_bytes(self.bytes[4:6], "big"), self.bytes[-5]
        length = int.from_bytes(self.bytes[38:40], "big") - 8
        udp = int.from_bytes(self.bytes[36:38], "big")
        self.message = (self.vl, udp, self.bytes[42 : 42 + length])


def check_send(tables, name, text, status, out, err):
    """Gives what was sent."""
    if status == 1:
        must(out == "", "there is output beside a fault of the configuration")
        return []
    given, times = {}, {}
    fault = faulty_line(err)
    for n, line in enumerate(raw_lines(text), 1):
        if n == fault:
            break
        line = said(line)
        if line is not None:
            time, vl, _, udp, digits = line.split(b" ")
            times[n] = int(time)
            payload = b"" if digits == b"-" else bytes.fromhex(digits.decode())
            given[n] = (int(vl), int(udp), payload)
    lines, sent, refused = lines_in(out), [], 0
    while lines:
        refusal = REFUSAL.fullmatch(lines[0])
        if refusal:
            n = int(refusal[1])
            is_next = n in given and n > refused
            must(is_next, f"{lines[0]!r} is no line of the list, or not in order")
            del given[n]
            refused = n
            lines.pop(0)
        else:
            must(len(lines) > 1, f"{lines[0]!r} has no copy")
            sent.append(Sent(lines.pop(0), lines.pop(0)))
    if status == 0:
        must(
            sorted(given.values()) == sorted(frame.message for frame in sent),
            "other messages are sent than were taken",
        )
    taken: dict[int, list[int]] = {}
    for n in sorted(given):
        taken.setdefault(given[n][0], []).append(times[n])
    check_sent(tables, name, sent, taken)
    return sent


def check_sent(tables, name, sent, taken):
    """The frames are this system's, follow each other on its line, and their numbers go round.

    `taken` holds by link the times of the messages that were taken: no frame begins before there
    were as many, nor before as many gaps are over.
    """
    system = next(row for row in tables["system"] if row["name"] == name)
    links = {row["vl"]: row for row in tables["link"] if row["from"] == name}
    numbers: dict[int, int] = {}
    counts: dict[int, int] = {}
    free = 0
    for frame in sent:
        is_own = frame.vl in links and frame.port == system["port"]
        must(is_own, f"link {frame.vl} is not of {name}")
        link = links[frame.vl]
        must(
            link["lmin"] <= len(frame.bytes) <= link["lmax"],
            f"a frame of link {frame.vl} has {len(frame.bytes)} bytes",
        )
        wanted = numbers.get(frame.vl, 0)
        must(frame.number == wanted, f"link {frame.vl}: number {frame.number} in place of {wanted}")
        numbers[frame.vl] = wanted % 255 + 1
        begin = frame.time - (len(frame.bytes) + 20) * BYTE_NS[system["rate"]]
        count = counts.get(frame.vl, 0)
        counts[frame.vl] = count + 1
        gaps = count * link["bag_ms"] * 10**6
        earliest = max(taken[frame.vl][count], taken[frame.vl][0] + gaps)
        must(
            begin >= earliest,
            f"frame {count + 1} of link {frame.vl} begins at {begin}, before {earliest}",
        )
        must(
            begin >= free,
            f"the slot that ends at {frame.time} begins before that before it has ended",
        )
        free = frame.time


def check_delivered(tables, sent, out):
    """Each message that was sent is read once, and in order, by each of its link's systems that has
    a port for it."""
    must(
        not re.search("^([LT]|V .* drop)", out, re.MULTILINE),
        "a frame that was sent is dropped or lost",
    )
    must(not re.search("^X .* sequence$", out, re.MULTILINE), "a number that was sent is dropped")
    read: dict = {}
    for line in lines_in(out):
        words = line.split(" ")
        if words[0] == "M":
            read.setdefault((words[2], int(words[3])), []).append(bytes.fromhex(words[4]))
    open_ports = {(row["system"], row["link"], row["udp"]) for row in tables["port"]}
    for link in tables["link"]:
        for name in link["to"]:
            vl = link["vl"]
            of_link = [frame.message for frame in sent if frame.vl == vl]
            wanted = [payload for _, udp, payload in of_link if (name, vl, udp) in open_ports]
            must(
                read.get((name, vl), []) == wanted,
                f"{name} reads other messages of link {vl} than were sent",
            )
