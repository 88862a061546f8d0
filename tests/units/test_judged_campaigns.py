"""Which switches a campaign judges, and what it reads of the runs of `afdx conform`."""
from __future__ import annotations

import os
import tempfile
import unittest

from afdx_tools.campaign.judging import SPOKEN, Told, remarks_of, told_by
from afdx_tools.campaign.runs import named_switch
from afdx_tools.faults import Refused
from afdx_tools.recordings.taps import Place, Table, Tap, for_switch
from afdx_tools.spreadsheets.sheets import Row

LAST = "explained 2 open 0 uncertain 0 left-out 4 unseen 3 idle 1"
COUNTS = {"explained": 2, "open": 0, "uncertain": 0, "left_out": 4, "unseen": 3, "idle": 1}


def told(text: str) -> Told:
    """What is read of a run that wrote this."""
    with tempfile.TemporaryDirectory() as folder:
        path = os.path.join(folder, "stdout")
        with open(path, "w", encoding="ascii") as file:
            file.write(text)
        return told_by(path)


class Runs(unittest.TestCase):
    """What a run wrote."""

    def test_a_switch_that_conforms(self) -> None:
        self.assertEqual(told(f"conforms {LAST}\n"), Told([], "conforms", 0, COUNTS))

    def test_a_stream_that_is_unsure_is_no_finding(self) -> None:
        text = f"unsure 3 A 1\nundecided {LAST}\n"
        self.assertEqual(told(text), Told([], "undecided", 0, COUNTS))

    def test_the_first_findings_of_many(self) -> None:
        lines = [f"stopped {number} A 3" for number in range(1, 2001)]
        found = told("\n".join([*lines, f"deviates 2000 {LAST}\n"]))
        self.assertEqual((found.verdict, found.deviations), ("deviates", 2000))
        self.assertEqual(found.findings, lines[:20])

    def test_what_has_no_last_line(self) -> None:
        self.assertEqual(told("stopped 3 A 1\n"), Told(["stopped 3 A 1"]))
        self.assertEqual(told(""), Told([]))
        self.assertEqual(told_by("/nowhere/stdout"), Told([]))

    def test_faults_of_the_program_and_of_the_table(self) -> None:
        for line in ("recording Lossy 3", "memory", "config NotToml", "afdx-taps: eth1 has no row"):
            self.assertTrue(SPOKEN.match(line), line)
        for line in ("ssh: connect to host there port 22", "recordings", "no answer"):
            self.assertFalse(SPOKEN.match(line), line)

    def test_remarks(self) -> None:
        self.assertEqual(remarks_of([]), "")
        self.assertEqual(remarks_of(["afdx-taps: one"]), "one")
        self.assertEqual(remarks_of(["afdx-taps: one", "afdx-taps: two"]), "one (and 1 more)")


class Switches(unittest.TestCase):
    """Which switch a word names."""

    def test_names(self) -> None:
        self.assertEqual(named_switch("fwd=a=b.pcapng", ["fwd", "aft"]), ("fwd", "a=b.pcapng"))
        self.assertEqual(named_switch("day.pcapng", ["fwd", "aft"]), ("", "day.pcapng"))
        with self.assertRaises(Refused):
            named_switch("mid=a.pcapng", ["fwd", "aft"])

    def test_rows_of_others_give_way(self) -> None:
        row = Row("taps.csv line 2", "interface", {}, {})
        own, other = Place("A", 1, "fwd"), Place("A", 2, "aft")
        rows = [("eth1", Place("A", 1, "aft")), ("eth1", own), ("eth2", other), ("eth2", other)]
        kept = for_switch([Tap(row, name, place, "in") for name, place in rows], "fwd")
        self.assertEqual([(tap.name, tap.place) for tap in kept], [("eth1", own), ("eth2", other)])

    def test_a_number_at_another_switch_gives_way_to_a_name(self) -> None:
        row, own = Row("taps.csv line 2", "interface", {}, {}), Place("A", 1, "fwd")
        taps = [Tap(row, "#0", Place("A", 2, "aft"), "in"), Tap(row, "eth1", own, "in")]
        for switch, name in (("fwd", "eth1"), ("aft", "#0"), (None, "#0")):
            rows = Table(taps, switch).rows_for(0, "eth1")
            self.assertEqual([tap.name for tap in rows], [name], switch)


if __name__ == "__main__":
    unittest.main()
