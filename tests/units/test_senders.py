"""What is computed of the systems that sent what came to a switch: rows that are spelled out, and
what changes nothing."""
from __future__ import annotations

import os
import random
import sys
import unittest

TESTS = os.path.join(os.path.dirname(os.path.abspath(__file__)), "..")
sys.path[:0] = [os.path.join(TESTS, name) for name in ("lib", "conform", "cascades", "fuzzing",
                                                       "recordings")]

import rows as plain  # noqa: E402
import tables as made  # noqa: E402
from cascade import cascade_text  # noqa: E402
from cascade_run import Places, arrivals_of  # noqa: E402
from conform import conform  # noqa: E402
from conform_terms import Options  # noqa: E402
from conform_claims import JUDGED  # noqa: E402
from sender_claims import wrong_are_found  # noqa: E402
from sender_made import is_right, right, small  # noqa: E402
from sender_made import small_recording  # noqa: E402
from sender_rows import SENDER_CONFIGS, SENDER_ROWS, digits, list_of  # noqa: E402
from sender_source import Way, further_on, step  # noqa: E402
from senders import Senders, conform_senders, switches_of, ways_of  # noqa: E402
from wrong_senders import WRONG_SENDERS  # noqa: E402

BASE = plain.CONFIGS["base"]


def of_ports(seen: set[tuple[int, int]], came: str, until: int = 0) -> Senders:
    """The senders of the base tables, where these ports were recorded."""
    tables: dict = made.base_tables() | {"neighbour": []}
    arrivals, _ = arrivals_of(list_of(came), Places([], False))
    return Senders(switches_of(BASE, tables), tables, Options(), until, arrivals,
                   lambda side, port: (side, port) in seen)


class Rows(unittest.TestCase):
    """Rows that are spelled out."""

    def test_senders_alone(self) -> None:
        for row in SENDER_ROWS:
            config = SENDER_CONFIGS[row.config]
            found = conform_senders(config, list_of(row.came), None, row.words())
            self.assertEqual(found, row.answer(), row.name)

    def test_beside_streams(self) -> None:
        copies = list_of("0 00 / 0 00 B")
        left = f"F 6720 A 3 {digits('G1', 'A')}\nF 6720 B 3 {digits('G1', 'B')}\n".encode()
        found = conform_senders(BASE, copies, left, ("--senders",))
        self.assertEqual(found, (0, b"conforms explained 2 open 0 uncertain 0 left-out 0 unseen 0 "
                                 b"idle 2 sent 2 cut 0 alone 0\n", b""))

    def test_both_deviate(self) -> None:
        copies = list_of("0 01 / 0 01 B")
        left = f"F 6720 B 3 {digits('G1(01)', 'B')}\nF 17001 A 3 {digits('G1(01)', 'A')}\n"
        words = ("--senders", "--until", "17001")
        found = conform_senders(BASE, copies, left.encode(), words)
        self.assertEqual(found.out.decode().splitlines(), [
            "number 1 A 1 0", "number 2 B 1 0", "late 1 A 3 1",
            "deviates 3 explained 1 open 0 uncertain 0 left-out 0 unseen 0 idle 2 sent 0 cut 0 "
            "alone 0",
        ])

    def test_a_switch_of_two(self) -> None:
        two = cascade_text(plain.two_tables())
        came = list_of("F 0 A 1 G1 / F 0 B 1 G1")
        alone = conform_senders(two, came, None, ("--senders", "--switch", "k2"))
        self.assertIn(b"sent 2 cut 0 alone 0\n", alone.out)
        behind = conform_senders(two, came, None, ("--senders", "--switch", "k1"))
        self.assertIn(b"sent 0 cut 0 alone 0\n", behind.out)


class Others(unittest.TestCase):
    """What isn't spelled out."""

    def test_streams_are_judged_as_without_senders(self) -> None:
        for row in SENDER_ROWS:
            if "--apart" in row.options:
                continue
            config, came = SENDER_CONFIGS[row.config], list_of(row.came)
            streams = conform(config, came, b"", tuple(row.options.split()))
            beside = conform_senders(config, came, b"", row.words())
            alone = conform_senders(config, came, None, row.words())
            found = [part.out.splitlines() for part in (streams, beside, alone)]
            if row.counts:
                found = [lines[:-1] for lines in found]
            self.assertEqual(sorted(found[1]), sorted(found[0] + found[2]), row.name)

    def test_ports_that_were_not_recorded(self) -> None:
        both = {(0, 1), (1, 1)}
        self.assertEqual(of_ports(both, "0 00 / 100 00 B").counted, (2, 0, 1))
        one = of_ports({(0, 1)}, "0 00 / F 5 A 1 X")
        self.assertEqual((one.counted, one.lines), ((1, 0, 2), []))
        self.assertEqual(of_ports({(0, 1)}, "0 00 / 5 03 B").counted, (1, 0, 2))

    def test_what_a_way_leaves(self) -> None:
        for skew, left in ((1_000_000, 988_760), (17_000, 5_760), (11_239, 0)):
            self.assertEqual(Way(skew, 17_000, 80).leaves(64), left)
        self.assertEqual(Way(1_000_000, 1_000, 80).leaves(64), 1_000_000)
        tables: dict = made.base_tables() | {"neighbour": []}
        self.assertEqual(ways_of(switches_of(BASE, tables), 1), [Way(1_000_000, 17_000, 80)])

    def test_numbers(self) -> None:
        self.assertEqual([step(n) for n in (0, 1, 254, 255)], [1, 2, 255, 1])
        self.assertEqual(further_on(0), set(range(1, 46)))
        self.assertEqual(further_on(254), {255, *range(1, 45)})


class Made(unittest.TestCase):
    """Recordings that are made at random."""

    def test_a_right_system_is_never_accused(self) -> None:
        for seed in range(200):
            made = right(random.Random(seed))
            found = made.source()
            self.assertEqual((found.told, found.sent), ([], len(made.within())), seed)

    def test_wrong_systems_are_found_by_their_frames(self) -> None:
        self.assertGreater(len(WRONG_SENDERS), 20)
        for wrong in WRONG_SENDERS:
            with self.subTest(wrong.__doc__):
                wrong_are_found(JUDGED, wrong)

    def test_nothing_is_found_exactly_of_what_a_right_system_may_send(self) -> None:
        outcomes = set()
        for seed in range(600):
            times, until = small(random.Random(seed))
            outcome = is_right(times, until)
            outcomes.add(outcome)
            self.assertEqual(not small_recording(times, until).source().told, outcome, seed)
        self.assertEqual(outcomes, {False, True})


if __name__ == "__main__":
    unittest.main()
