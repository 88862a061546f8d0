"""Writes lists and recordings for which `conform` has to take memory; for
tests/run/refused_growths.sh.

    tests/conform/growing_lists.py FOLDER

`came` and `left` have findings of each kind, many frames at one moment, and frames of both links on
both sides; `bad` is `left` with a bad line behind the findings. `both.pcapng` is the recording that
says the same, `came.pcapng` and `left.pcapng` are two that do; the later half of the frames stands
in front. `bad.pcapng` is `left.pcapng` without its last byte, and `lossy.pcapng` has lost frames.
`both.words` and `two.words` have the words that name their interfaces, a line each.
"""
from __future__ import annotations

import os
import sys

sys.dont_write_bytecode = True
TESTS = os.path.join(os.path.dirname(os.path.abspath(__file__)), "..")
sys.path[:0] = [os.path.join(TESTS, name) for name in ("lib", "cascades", "recordings", "fuzzing")]
from edge_rows import low  # noqa: E402
from one_switch import MS  # noqa: E402
from recorded_cases import all_keys, as_recordings, seen_in  # noqa: E402
from recording_rows import Z  # noqa: E402
from rows import CONFIGS, list_of  # noqa: E402
from small_cases import Pair  # noqa: E402

MANY = 30  # frames at a moment


def came() -> str:
    """What came: twice what the rule lets pass, of both links on both sides."""
    times = [str(place * MS // 2) for place in range(MANY)]
    each = [f"F {time} {side} {vl} H{vl}" for time in times for side in "AB" for vl in (1, 2)]
    return " / ".join(MANY * ["0"] + each)


def left() -> str:
    """What left: at one moment, too early, late, and frames of no stream."""
    odd = ("A 3 X", "B 2 H1", "A 3 H9", "B 3 H2(77)")
    lines = [(10, "A 3 H1"), (10, "B 3 H1"), *(MANY * [(6_720, "A 3 H1")])]
    for place in range(MANY):
        time = 6_720 + place * MS // 2
        lines += [(time, line) for line in (*odd, "A 3 H1", "B 3 H2", "A 3 H2")]
        lines.append((time + 17_000, "B 3 H1"))
    return " / ".join(f"F {time} {line}" for time, line in sorted(lines))


def recordings(texts: dict[str, bytes]) -> dict[str, bytes]:
    """The recordings that say the same, and words."""
    pair = Pair(CONFIGS["base"], texts["came"], texts["left"], ())
    seen = seen_in(pair)
    half, keys = len(seen) // 2, all_keys(pair, seen)
    one, two = (as_recordings(pair, seen[half:] + seen[:half], keys, keys, is_one)
                for is_one in (True, False))
    lost = bytes.fromhex(Z(low(0), low(1), low(2)))
    files = {"both": one.data[0], "came": two.data[0], "left": two.data[1],
             "bad": two.data[1][:-1], "lossy": two.data[1] + lost}
    found = {f"{name}.pcapng": data for name, data in files.items()}
    for name, case in (("both", one), ("two", two)):
        found[f"{name}.words"] = "".join(f"{word}\n" for word in case.words).encode()
    return found


def main() -> None:
    """Writes them."""
    texts = {"came": list_of(came(), "came"), "left": list_of(left(), "left")}
    more = {"bad": texts["left"] + b"F\n"} | recordings(texts)
    for name, text in (texts | more).items():
        with open(os.path.join(sys.argv[1], name), "wb") as file:
            file.write(text)


if __name__ == "__main__":
    main()
