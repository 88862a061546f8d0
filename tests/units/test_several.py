"""Several switches a side: tables, the places of lines, what came to each switch, pictures."""
from __future__ import annotations

import io
import os
import tomllib
import unittest

try:
    import numpy as np
except ModuleNotFoundError:
    raise unittest.SkipTest("there is no package numpy") from None

from afdx_tools.config import Config, config_of, port_at
from afdx_tools.faults import Refused
from afdx_tools.places import Unplaced, places_of
from afdx_tools.replay.checked import checked_of
from afdx_tools.replay.counting import Counting
from afdx_tools.replay.events import Events
from afdx_tools.replay.lines import Block
from afdx_tools.replay.listing import Listing
from afdx_tools.replay.sites import UNKNOWN, Sites
from afdx_tools.report.layout import curve, halves, layout_of
from afdx_tools.report.network import tree_of
from known_words import ask_no_program

ask_no_program()

EXAMPLES = os.path.join(os.path.dirname(__file__), "..", "..", "examples")
FWD_1, FWD_24 = port_at(0, 1), port_at(0, 24)
AFT_2, AFT_3, AFT_20 = port_at(1, 2), port_at(1, 3), port_at(1, 20)
HEX = "030000000001020000000120" + "00" * 47 + "05"  # number 5 of link 1


def two_switches() -> Config:
    """The tables of the example."""
    with open(os.path.join(EXAMPLES, "two_switches.toml"), "rb") as file:
        return config_of(tomllib.load(file), "two_switches.toml")


def counted(listed: str, written: str) -> Counting:
    """What is counted of a list for the example, and of the lines of its replay."""
    config = two_switches()
    listing = Listing(io.BytesIO(listed.encode()), sites=Sites(config.names))
    events = Events(listing, config)
    events.read(io.BytesIO(written.encode()))
    events.read_errors(io.BytesIO(b""))
    return Counting(config, listing, events)


class Tables(unittest.TestCase):
    """The ports, cables and ways of a configuration."""

    def test_links_go_from_their_sender_to_all_receivers(self) -> None:
        config = two_switches()
        self.assertEqual((config.links[2].source, config.links[2].to), ("s2", ("s1", "s3")))
        self.assertEqual(config.links[2].ports, (FWD_1, AFT_3))
        self.assertEqual(config.row_at(2, FWD_1).source, "aft")  # type: ignore[union-attr]

    def test_ways_and_their_latencies(self) -> None:
        config = two_switches()
        self.assertEqual(config.way_to(1, AFT_3), (FWD_24, AFT_3))
        self.assertEqual(config.latency_to(1, AFT_3), 35_000)
        self.assertEqual(config.way_to(2, AFT_3), (AFT_3,))
        self.assertEqual(config.way_to(1, AFT_2), ())

    def test_cables_have_both_ends(self) -> None:
        config = two_switches()
        far = {port: cable.far for port, cable in config.cables.items()}
        self.assertEqual(far, {FWD_24: AFT_20, AFT_20: FWD_24})
        self.assertEqual(config.called(AFT_20), "aft port 20")
        self.assertEqual(config.keys_of(AFT_3), {"switch": "aft", "port": 3})

    def test_a_link_that_begins_nowhere_is_none(self) -> None:
        with open(os.path.join(EXAMPLES, "two_switches.toml"), "rb") as file:
            tables = tomllib.load(file)
        del tables["switch"][0]["link"][0]
        config = config_of(tables, "x.toml")
        self.assertEqual(list(config.links), [2])

    def test_the_tree_of_a_link(self) -> None:
        wanted = {(AFT_2, True), (AFT_20, False), (FWD_1, False), (AFT_3, False)}
        self.assertEqual(tree_of(two_switches(), [2, 7]), wanted)

    def test_what_check_says(self) -> None:
        lines = "S fwd|P 1 6720 10222 128|S aft|P 3 16915 - 254|E 1 s3 35000|E 2 s1 -|ok"
        checked = checked_of(lines.split("|"))
        self.assertEqual(checked.bounds[AFT_3].low, None)
        self.assertEqual(checked.ends, {(1, "s3"): 35_000, (2, "s1"): None})
        self.assertEqual(checked.answer, "ok")


class Placed(unittest.TestCase):
    """The places of lines."""

    def read(self, names: list[str], *places: str) -> list[int]:
        """The numbers of the switches of places, each at the begin of a line."""
        block = Block("".join(f"{place} 1\n" for place in places).encode())
        return Sites(names).read(block, block.starts)[0].tolist()

    def test_names_in_any_order_and_one_the_begin_of_another(self) -> None:
        names = ["fwd", "aft", "fwd2", "f", "A" * 16]
        places = ["A f", "B fwd2", "A fwd", "B aft", "A " + "A" * 16]
        self.assertEqual(self.read(names, *places), [3, 2, 0, 1, 4])

    def test_others_are_unknown(self) -> None:
        places = ["A fw", "A fwd2", "A ", "A", "A " + "A" * 17, "Afwd"]
        self.assertEqual(self.read(["fwd", "A" * 16], *places), [UNKNOWN] * 6)

    def test_of_one_switch_a_place_is_a_letter(self) -> None:
        block = Block(b"A 7\n")
        numbers, ends = Sites().read(block, block.starts)
        self.assertEqual((numbers.tolist(), ends.tolist()), ([0], [1]))


class Brought(unittest.TestCase):
    """What cables bring."""

    LISTED = f"F 0 A fwd 1 {HEX}\nF 9 A aft 3 {HEX}\n"
    WRITTEN = ("V 1 A fwd accept\nV 2 A aft drop wrong-port\nD 1 6720 A fwd 24\nV 1 A aft accept\n"
               "D 1 13440 A aft 3\nM 13440 s3 1 68\n")

    def test_it_comes_when_it_left(self) -> None:
        counting = counted(self.LISTED, self.WRITTEN)
        came = counting.events.came
        self.assertEqual(came.line.tolist(), [1, 2, 1])
        self.assertEqual(came.port.tolist(), [FWD_1, AFT_3, AFT_20])
        self.assertEqual(came.time.tolist(), [0, 9, 6_720])
        self.assertEqual(counting.events.since.tolist(), [0, 6_720])

    def test_latencies_at_a_switch_and_from_end_to_end(self) -> None:
        counting = counted(self.LISTED, self.WRITTEN)
        self.assertEqual(counting.latency.tolist(), [6_720, 6_720])
        self.assertEqual(counting.ended.tolist(), [False, True])
        self.assertEqual((int(counting.whole[1]), int(counting.promised[1])), (13_440, 35_000))
        self.assertEqual(counting.configured.tolist(), [17_000, 18_000])

    def test_a_copy_that_is_lost_has_the_time_at_its_switch(self) -> None:
        lost = self.WRITTEN.partition("D 1 13440")[0] + "L 1 A aft 3\n"
        counting = counted(self.LISTED, lost)
        self.assertEqual(counting.events.time.tolist(), [6_720, 6_720])

    def test_lines_that_are_none_of_this_network_are_refused(self) -> None:
        begin = "V 1 A fwd accept\nD 1 6720 A fwd 24\n"
        for written in (begin + "V 1 A fwd accept\n", "V 1 A fwd accept\nV 1 A aft accept\n",
                        "V 1 A fwd accept\nD 1 6720 A aft 3\n"):
            with self.assertRaisesRegex(Refused, "aren't those of this network"):
                counted(self.LISTED, written)


class Pictures(unittest.TestCase):
    """What Graphviz writes."""

    def test_a_layout(self) -> None:
        text = ("graph 1 4 2\nnode n0 1 0.5 1 1 \"\" solid box black lightgrey\n"
                "node n1 3 1.5 1 1 \"\" solid box black lightgrey\n"
                "edge n0 n1 4 1 0.5 1 0.5 3 1.5 3 1.5 solid black\nstop\n")
        layout = layout_of(text, 2)
        self.assertEqual((layout.width, layout.height), (288, 144))
        self.assertEqual(layout.boxes, [(72, 108), (216, 36)])
        self.assertEqual(layout.cables[0, 1][0], (72, 108))
        self.assertEqual(layout.cables[0, 1][-1], (216, 36))

    def test_halves_of_a_line(self) -> None:
        one, two = halves([(0, 0), (10, 0), (10, 10)])
        self.assertEqual((one, two), ([(0, 0), (10, 0)], [(10, 10), (10, 0)]))
        one, two = halves([(0, 0), (1, 0), (4, 0)])
        self.assertEqual((one[-1], two[-1]), ((2, 0), (2, 0)))

    def test_a_curve_goes_from_its_first_point_to_its_last(self) -> None:
        points = curve([(0, 0), (0, 3), (3, 3), (3, 0)])
        self.assertEqual((points[0], points[-1]), ((0, 0), (3, 0)))
        self.assertTrue(np.allclose(points[5], (1.5, 2.25)))


class Texts(unittest.TestCase):
    """Where values stand in a file of several switches."""

    def test_tables_belong_to_the_switch_before_them(self) -> None:
        places = places_of('[[switch]]\nname = "a"\n[[switch.link]]\nvl = 1\n[[switch]]\n'
                           'link = [{vl = 2}, {vl = 3}]\n')
        self.assertEqual([len(switch.rows["link"]) for switch in places.switches], [1, 2])

    def test_switches_in_braces(self) -> None:
        places = places_of("switch = [{buffer = 1, link = [{vl = 2}]}, {}]\n")
        self.assertEqual([len(switch.rows) for switch in places.switches], [1, 0])

    def test_a_part_of_no_switch(self) -> None:
        with self.assertRaises(Unplaced):
            places_of("[[switch.link]]\nvl = 1\n")


if __name__ == "__main__":
    unittest.main()
