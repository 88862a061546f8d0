"""Writes what Wireshark should report of the AFDX fields of a list's frames, one frame a line.

    tests/tools/expected_afdx_fields.py LIST

Link, side, system, partition, sequence number, steps since the number before, gap in ns. The
fields stand at their offsets in the line's digits; nothing of tools/ is used. A frame that is
shorter than a frame may be has no number, and no steps or gap.
"""
import sys


def steps_between(before: int, number: int) -> int:
    """Steps from a number to the next one: 0, 1, .. 255, 1, .., counted one by one; below 0 where
    that is more than half of the round, counted back: .. 2, 1, 255, 254, .. and 0, 255, 254, .."""
    steps, place = 0, before
    while place != number and steps <= 127:
        place = place % 255 + 1
        steps += 1
    if steps <= 127:
        return steps
    steps, place = 0, before
    while place != number:
        place = place - 1 if place > 1 else 255
        steps -= 1
    return steps


def main() -> None:
    """A line of fields for each line of the list."""
    before: dict[str, tuple[int, int]] = {}
    with open(sys.argv[1], encoding="ascii") as file:
        for line in file:
            kind, time, _, _, digits = line.split()
            frame = bytes.fromhex(digits)
            body = frame[:-4] if kind == "R" else frame
            side = {0x20: "A", 0x40: "B"}.get(frame[11], "")
            system = int.from_bytes(frame[9:11], "big")
            link = int.from_bytes(frame[4:6], "big")
            partition = frame[29] if frame[12:15] == b"\x08\0\x45" else ""
            row = [link, side, system, partition, "", "", ""]
            if len(body) >= 60:
                number, key = body[-1], digits[8:12] + digits[22:24]
                row[4] = number
                if key in before:
                    row[5] = steps_between(before[key][1], number) if number else ""
                    row[6] = int(time) - before[key][0]
                before[key] = int(time), number
            print(*row, sep="\t")


main()
