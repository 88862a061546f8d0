"""The ways of links over cables, and how the time that a document allows is shared over them."""
from __future__ import annotations

import tomllib
import unittest

from afdx_tools.faults import Failed, Refused
from afdx_tools.icd.cabling import CABLES
from afdx_tools.icd.cascade import Cascade, Receiver, Values
from afdx_tools.icd.document import CABLED_MESSAGES, CABLED_SYSTEMS, Document
from afdx_tools.icd.layout import several_text, shortened
from afdx_tools.icd.making import Making, values_in
from afdx_tools.icd.reading import document_of
from afdx_tools.icd.room import Room
from afdx_tools.icd.sharing import filled, left_over, limits_of, needed, shares, wishes
from afdx_tools.icd.ways import shortest, way_to
from afdx_tools.spreadsheets.heads import columns_of
from afdx_tools.spreadsheets.sheets import Sheet, cells_of_text, row_of

CABLE_HEAD = "switch,port,switch,port,rate\n"
SYSTEM_HEAD = "system,switch,port,id,partition,rate\n"
MESSAGE_HEAD = "message,vl,from,to,every_ms,bytes,within_us,priority,port,kind,via\n"


def sheet_of(name: str, columns: dict[str, bool], text: str) -> Sheet:
    """The table that a text spells."""
    (_, first), *others = cells_of_text(name, text)
    heads = columns_of(name, first, columns)
    rows = [row_of(f"{name} line {line}", heads, columns, cells) for line, cells in others]
    return Sheet(name, rows)


def document(cables: str, systems: str, messages: str) -> Document:
    """The document of these rows."""
    return document_of(
        sheet_of("systems.csv", CABLED_SYSTEMS, SYSTEM_HEAD + systems),
        sheet_of("messages.csv", CABLED_MESSAGES, MESSAGE_HEAD + messages),
        2,
        sheet_of("cables.csv", CABLES, CABLE_HEAD + cables),
    )


def cables_text(*pairs: str) -> str:
    """Rows of cables between switches of one letter, as `ab` or, at another rate, `ab10`, each at
    ports of its own."""
    rows = []
    for number, pair in enumerate(pairs, 1):
        rows.append(f"{pair[0]},{number},{pair[1]},{number},{pair[2:] or 100}\n")
    return "".join(rows)


def way(to: str, *pairs: str) -> str:
    """The shortest way from the switch a over such cables."""
    made = document(cables_text(*pairs), "s,a,24,1,1,100\n", "m,1,s,t,9,9,,low,1,sampling,\n")
    assert made.cabling is not None
    return "".join(way_to(shortest(made.cabling, "a"), to))


class ShortestWays(unittest.TestCase):
    """Fewest cables; then the rate of the slowest; then the order of the table."""

    def test_fewest_cables(self) -> None:
        self.assertEqual(way("d", "ab1000", "bc1000", "cd1000", "ae10", "ed10"), "aed")

    def test_then_the_slowest_cable(self) -> None:
        self.assertEqual(way("d", "ab", "bd10", "ac", "cd"), "acd")
        self.assertEqual(way("d", "ab10", "bd1000", "ac", "cd"), "acd")
        self.assertEqual(way("e", "ab1000", "bd10", "de1000", "ac", "cd", "ab"), "acde")

    def test_then_the_order_of_the_table(self) -> None:
        self.assertEqual(way("d", "ab", "ac", "cd", "bd"), "acd")
        self.assertEqual(way("d", "ab", "ac", "bd", "cd"), "abd")
        self.assertEqual(way("d", "db", "dc", "ac", "ba"), "abd")

    def test_of_many_switches(self) -> None:
        names = [f"s{number}" for number in range(100_000)]
        self.assertEqual(way_to(dict(zip(names, [None, *names])), names[-1]), names)

    def test_none(self) -> None:
        with self.assertRaises(KeyError):
            way("d", "ab", "cd")


RING = cables_text("ab", "bc", "cd", "da10")
PLACES = "p,a,20,1,1,100\nq,b,20,2,1,100\nr,c,20,3,1,100\nt,d,20,4,1,100\n"
ROW = '{},{},p,{},9,9,{},low,{},sampling,"{}"\n'


def on_the_ring(*messages: tuple[str, str], within: str = "") -> Document:
    """The document of a ring of four switches with a system each, and of messages on link 1, each
    with its receivers and what it says by which way."""
    rows = (ROW.format(f"m{n}", 1, to, within, n, via) for n, (to, via) in enumerate(messages, 1))
    return document(RING, PLACES, "".join(rows))


class GivenWays(unittest.TestCase):
    """What the column `via` says."""

    def trees(self, *messages: tuple[str, str]) -> dict:
        """The tree of the link."""
        made = on_the_ring(*messages)
        self.assertEqual(made.faults, [])
        return made.trees[1]

    def test_a_way_that_is_not_the_shortest(self) -> None:
        self.assertEqual(self.trees(("t", "")), {"a": None, "d": "a"})
        self.assertEqual(
            self.trees(("t", "a b c d")), {"a": None, "b": "a", "c": "b", "d": "c"}
        )

    def test_receivers_on_the_way(self) -> None:
        self.assertEqual(self.trees(("q r", "a, b; c")), {"a": None, "b": "a", "c": "b"})

    def test_another_message_of_the_link_goes_on_from_there(self) -> None:
        # the shortest way to c is by b; where the link comes to b by c, it doesn't come there twice
        self.assertEqual(
            self.trees(("q", "a d c b"), ("r", "")), {"a": None, "d": "a", "c": "d", "b": "c"}
        )

    def test_what_is_no_way(self) -> None:
        for to, via, wanted in (
            ("t", "a x d", "no switch is named x"),
            ("t", "a b a d", "a stands twice"),
            ("t", "b c d", "it has to begin at a, where the sender is"),
            ("t", "a c d", "no cable joins a and c"),
            ("r t", "a d", "a receiver is at c, which it doesn't name"),
            ("q", "a b c", "no receiver is at c"),
        ):
            made = on_the_ring((to, via))
            self.assertEqual(made.faults, [f"messages.csv line 2, m1: via {via}: {wanted}"])

    def test_two_that_come_to_a_switch_by_two_ways(self) -> None:
        made = on_the_ring(("r", "a b c"), ("t", "a d"), ("r", "a d c"))
        wanted = "messages.csv line 2 comes to c from b, on this link"
        self.assertEqual(made.faults, [f"messages.csv line 4, m3: via a d c: {wanted}"])


class Rows(unittest.TestCase):
    """A row at each switch on the ways of a link."""

    def test_where_links_come_from_and_go_to(self) -> None:
        made = on_the_ring(("q r t", ""))
        assert made.cabling is not None
        cascade = Cascade(made, made.cabling)
        rows = {name: row for name in cascade.switches for row in cascade.rows[name].values()}
        ends = {name: (row["from"], row["to"]) for name, row in rows.items()}
        self.assertEqual(
            ends,
            {"a": ("p", ["b", "d"]), "b": ("a", ["q", "c"]), "c": ("b", ["r"]), "d": ("a", ["t"])},
        )
        unneeded = [[end.switch for end in cable.ends] for cable in cascade.unneeded]
        self.assertEqual(unneeded, [["c", "d"]])
        ends_of_c = [row["name"] for row in cascade.neighbours("c")]
        self.assertEqual(ends_of_c, ["b"])

    def test_a_switch_that_nothing_needs_is_left_out(self) -> None:
        made = document(
            cables_text("ab", "bc"), "p,a,20,1,1,100\nq,b,20,2,1,100\n",
            "m,1,p,q,9,9,,low,1,sampling,\n",
        )
        assert made.cabling is not None
        self.assertEqual(Cascade(made, made.cabling).switches, ["a", "b"])

    def test_names_that_no_configuration_takes(self) -> None:
        made = document(
            "a_1,1,a-1,1,100\n", "a1,a_1,2,1,1,100\nb_,a-1,2,2,1,100\n",
            "m,1,a1,b_,9,9,,low,1,sampling,\n",
        )
        assert made.cabling is not None
        self.assertEqual(made.faults, [])
        self.assertEqual(made.cabling.switches, {"a_1": "a1x2", "a-1": "a1x3"})
        cascade = Cascade(made, made.cabling)
        text = several_text(made, [cascade.tables(name, Values()) for name in cascade.switches])
        self.assertIn(b'[[switch]]\n# a_1\nname = "a1x2"\n', text)
        self.assertIn(b'  # a-1\n  { name = "a1x3", port = 1, rate = 100 },\n', text)
        self.assertIn(b'  # b_\n  { name = "b", port = 2, ', text)

    def test_a_text_that_would_be_too_long(self) -> None:
        made = document("a_1,1,b,1,100\n", "s,a_1,2,1,1,100\nt,b,2,2,1,100\nu,b,3,3,1,100\n",
                        'a = { b },1,s,t u,9,9,,low,1,sampling,\n')
        assert made.cabling is not None
        cascade = Cascade(made, made.cabling)
        text = several_text(made, [cascade.tables(name, Values()) for name in cascade.switches])
        short = shortened(text)
        self.assertEqual(tomllib.loads(short.decode()), tomllib.loads(text.decode()))
        self.assertIn(b'[[switch]]\n# a_1\nname="a1"\nprofile=2\nsystem=[\n{name="s",port', short)
        self.assertIn(b'{vl=1,from="a1",to=["t","u"],bag_ms=8,', short)
        self.assertNotIn(b"a = { b }", short)


class Shares(unittest.TestCase):
    """How the time of a way is shared over its switches."""

    def setUp(self) -> None:
        made = on_the_ring(("r", ""), within="90")
        assert made.cabling is not None
        self.cascade = Cascade(made, made.cabling)
        self.least = {("a", 1): 10, ("b", 1): 20, ("c", 1): 5}
        self.receiver = Receiver(1, "r")

    def test_as_each_switch_needs(self) -> None:
        limits = limits_of(self.cascade, self.least)
        self.assertEqual(limits, {self.receiver: 90})
        found = shares(self.cascade, limits, self.least)
        self.assertEqual(found, {("a", 1): 25, ("b", 1): 51, ("c", 1): 12})  # 25.7, 51.4, 12.9

    def test_the_last_switch_has_the_rest(self) -> None:
        limits = limits_of(self.cascade, self.least)
        made = filled(self.cascade, limits, shares(self.cascade, limits, self.least))
        self.assertEqual(made, {("a", 1): 25, ("b", 1): 51, ("c", 1): 14})
        self.assertEqual(needed(self.cascade, made), {self.receiver: 90})
        self.assertEqual(left_over(self.cascade, limits, made), {self.receiver: 0})

    def test_a_limit_is_no_less_than_is_needed(self) -> None:
        least = {("a", 1): 10, ("b", 1): 80, ("c", 1): 5}
        self.assertEqual(limits_of(self.cascade, least), {self.receiver: 95})
        self.assertEqual(shares(self.cascade, {self.receiver: 95}, least), least)

    def test_a_row_on_two_ways_has_the_less_of_its_shares(self) -> None:
        made = document(
            RING, PLACES,
            ROW.format("m", 1, "r", 60, 1, "") + ROW.format("n", 1, "q t", 100, 2, ""),
        )
        assert made.cabling is not None
        cascade = Cascade(made, made.cabling)
        least = {("a", 1): 10, ("b", 1): 10, ("c", 1): 10, ("d", 1): 10}
        limits = limits_of(cascade, least)
        found = shares(cascade, limits, least)
        self.assertEqual(found, {("a", 1): 20, ("b", 1): 20, ("c", 1): 20, ("d", 1): 50})
        made_full = filled(cascade, limits, found)
        self.assertEqual(made_full, {("a", 1): 20, ("b", 1): 20, ("c", 1): 20, ("d", 1): 80})

    def test_of_two_receivers_at_a_switch_the_one_that_may_wait_less_counts(self) -> None:
        made = document(
            RING, PLACES + "u,c,21,5,1,100\n",
            ROW.format("m", 1, "r", 60, 1, "") + ROW.format("n", 1, "u", 90, 2, ""),
        )
        assert made.cabling is not None
        cascade = Cascade(made, made.cabling)
        least = {("a", 1): 10, ("b", 1): 10, ("c", 1): 9}
        limits = limits_of(cascade, least)
        found = filled(cascade, limits, shares(cascade, limits, least))
        self.assertEqual(found, {("a", 1): 20, ("b", 1): 20, ("c", 1): 20})


class Wishes(unittest.TestCase):
    """Which latencies are asked for one after the other."""

    def setUp(self) -> None:
        rows = ROW.format("m", 1, "q", 30, 1, "") + ROW.format("n", 2, "q", "", 1, "")
        made = document(RING, PLACES, rows)
        assert made.cabling is not None
        self.cascade = Cascade(made, made.cabling)
        self.least = {("a", 1): 5, ("b", 1): 10, ("a", 2): 7, ("b", 2): 8}

    def asked(self, old: Values) -> list[list[int]]:
        """The wishes, each as the latencies of link 1 at both switches and of link 2."""
        making = Making(self.cascade, Room(0), old)
        limits = limits_of(self.cascade, self.least)
        return [list(each.values()) for each in wishes(making, self.least, limits)]

    def test_parts_of_what_is_left_over(self) -> None:
        self.assertEqual(
            self.asked(Values()), [[10, 20, 7, 8], [7, 15, 7, 8], [6, 12, 7, 8], [5, 11, 7, 8]]
        )

    def test_what_an_earlier_configuration_has_comes_first(self) -> None:
        old = Values(latencies={("a", 1): 9, ("b", 1): 21, ("b", 2): 11, ("c", 1): 4})
        first, second, *others = self.asked(old)
        self.assertEqual(first, [9, 21, 7, 11])
        self.assertEqual(second, [10, 20, 7, 11])
        self.assertEqual(others[3:], self.asked(Values()))

    def test_none_where_the_document_says_nothing(self) -> None:
        made = document(RING, PLACES, ROW.format("n", 2, "q", "", 1, ""))
        assert made.cabling is not None
        making = Making(Cascade(made, made.cabling), Room(0), Values())
        self.assertEqual(list(wishes(making, {("a", 2): 7, ("b", 2): 8}, {})), [])


class WrittenBySolve(unittest.TestCase):
    """What `solve` writes of several switches."""

    TEXT = "[[switch]]\nbuffer = 64\n\n[[switch.link]]\nvl = 1\njitter_us = 2\n"
    TEXT += "latency_us = 3\nskew_us = 4\n\n"

    def setUp(self) -> None:
        systems = "p,a,20,1,1,100\nq,b,20,2,1,100\n"
        made = document(cables_text("ab"), systems, ROW.format("m", 1, "q", "", 1, ""))
        assert made.cabling is not None
        self.cascade = Cascade(made, made.cabling)

    def test_its_values(self) -> None:
        other = self.TEXT.replace("= 3", "= 30").replace("64", "65")
        values = values_in(self.cascade, self.TEXT + other)
        self.assertEqual(values.buffers, {"a": 64, "b": 65})
        self.assertEqual(values.latencies, {("a", 1): 3, ("b", 1): 30})
        self.assertEqual((values.jitters["b", 1], values.skews["b", 1]), (2, 4))

    def test_other_tables_are_refused(self) -> None:
        for text in ("", self.TEXT, self.TEXT * 3, self.TEXT * 2 + "vl = 1\n",
                     self.TEXT + self.TEXT.replace("vl = 1", "vl = 2"),
                     self.TEXT + self.TEXT.replace("skew_us = 4\n", "")):
            with self.assertRaises(Failed):
                values_in(self.cascade, text)


class Faults(unittest.TestCase):
    """What is wrong with the tables."""

    def faults(self, cables: str, systems: str, messages: str = "") -> list[str]:
        """The faults of these tables."""
        row = "m,1,p,q,9,9,,low,1,sampling,\n"
        return document(cables, systems, messages or row).faults

    def test_switches(self) -> None:
        self.assertEqual(
            self.faults("a,1,b,1,100\na,2,a,3,100\nb,4,a,4,10\n",
                        "p,a,9,1,1,100\nq,c,9,2,1,100\n"),
            [
                "systems.csv line 3, q: switch c: no cable goes there",
                "cables.csv line 3, a: second switch a: a cable joins two switches",
                "cables.csv line 4, b: second switch a: cables.csv line 2 joins them too",
            ],
        )

    def test_ports(self) -> None:
        self.assertEqual(
            self.faults("a,9,b,1,100\na,2,c,9,100\nb,1.0,c,0,100\n",
                        "p,a,9,1,1,100\nq,c,9,2,1,100\nr,c,9,3,1,100\n"),
            [
                "cables.csv line 4, b: second port 0: it has to be a whole number from 1 to 24",
                "systems.csv line 4, r: port 9: systems.csv line 3 has it too, at c",
                "cables.csv line 2, a: port 9: systems.csv line 2 has it too, at a",
                "cables.csv line 3, a: second port 9: systems.csv line 3 has it too, at c",
                "cables.csv line 4, b: port 1.0: cables.csv line 2 has it too, at b",
            ],
        )

    def test_names(self) -> None:
        self.assertEqual(
            self.faults("a,1,b,1,100\n", "p,a,9,1,1,100\na,b,9,2,1,100\nq,,9,3,1,100\n"),
            [
                "systems.csv line 3, a: system a: a switch has that name",
                "systems.csv line 4, q: switch (empty): it has to name a switch",
            ],
        )

    def test_too_many_switches(self) -> None:
        cables = "".join(f"s{n},1,s{n + 1},2,100\n" for n in range(24))
        line = "cables.csv line 25, s23: second switch s24: a side has 24 switches at most"
        with self.assertRaisesRegex(Refused, f"^{line}$"):
            self.faults(cables, "p,s0,9,1,1,100\nq,s3,9,2,1,100\n")

    def test_a_receiver_that_can_not_be_reached(self) -> None:
        self.assertEqual(
            self.faults("a,1,b,1,100\nc,1,d,1,100\n", "p,a,9,1,1,100\nq,d,9,2,1,100\n"),
            ["messages.csv line 2, m: to q: no cables lead to q at d from a"],
        )

    def test_heads_that_come_twice(self) -> None:
        head = "Port,Second port,Rate (Gbit/s),SWITCH,second_switch\n"
        sheet = sheet_of("cables.csv", CABLES, head + "1,2,0.1,a,b\n")
        cells = dict(zip(CABLES, ["a", "1", "b", "2", "0.1"]))
        self.assertEqual(sheet.rows[0].cells, cells)


if __name__ == "__main__":
    unittest.main()
