"""How numbers of an interface document are read, and which way they are rounded."""
from __future__ import annotations

import unittest
from fractions import Fraction

from afdx_tools.faults import Refused
from afdx_tools.icd.document import MESSAGES, SYSTEMS, Document, apart
from afdx_tools.icd.reading import document_of
from afdx_tools.icd.room import Room, room_of
from afdx_tools.icd.submissions import Stream, begin_of, streams_of, submissions
from afdx_tools.solving import Bounds, Worst
from afdx_tools.spreadsheets.cells import Cells, bag_of, sum_of
from afdx_tools.spreadsheets.heads import amount_of, columns_of
from afdx_tools.spreadsheets.sheets import Row, Sheet, cells_of_text, row_of

MS = 1_000_000  # ns


def sheet_of(name: str, columns: dict[str, bool], text: str) -> Sheet:
    """The table that a text spells."""
    (_, first), *others = cells_of_text(name, text)
    heads = columns_of(name, first, columns)
    rows = [row_of(f"{name} line {line}", heads, columns, cells) for line, cells in others]
    return Sheet(name, rows)


def document(messages: str, profile: int = 1, rate: str = "100") -> Document:
    """The document of three systems and these messages."""
    systems = f"system,port,id,partition,rate\nadc,1,1,0,{rate}\nfcc,2,2,0,100\ndisp,3,3,0,10\n"
    head = "message,vl,from,to,every_ms,bytes,within_us,priority,port,kind,depth,lmin,skew_us,subs"
    return document_of(
        sheet_of("systems.csv", SYSTEMS, systems),
        sheet_of("messages.csv", MESSAGES, f"{head}\n{messages}"),
        profile,
    )


def one(head: str, cell: str, column: str = "every_ms") -> tuple[Cells, list[str]]:
    """The cells of a row with one column, and what is wrong with them."""
    faults: list[str] = []
    columns = {column: True}
    row = row_of("t.csv line 2", columns_of("t.csv", [head], columns), columns, [cell])
    return Cells(row, faults), faults


class Amounts(unittest.TestCase):
    """The number that a cell says."""

    def test_a_point_or_a_comma(self) -> None:
        self.assertEqual(amount_of("12.5"), Fraction(25, 2))
        self.assertEqual(amount_of("12,5"), Fraction(25, 2))
        self.assertEqual(amount_of("0.1"), Fraction(1, 10))
        self.assertEqual(amount_of("010"), 10)

    def test_what_may_be_thousands_is_none(self) -> None:
        self.assertEqual(amount_of("1.500"), Fraction(3, 2))
        for text in ("1,500", "1.000", "10,000"):
            self.assertIsNone(amount_of(text))

    def test_what_is_no_number(self) -> None:
        for text in ("", "-1", "+1", "1e3", "1.", ".5", "1 000", "\u0661", "\u00b2", "nan", "0x10"):
            self.assertIsNone(amount_of(text))


class Units(unittest.TestCase):
    """Numbers in the unit of their column."""

    def test_a_period(self) -> None:
        for head, cell, wanted in (
            ("every_ms", "20", 20),
            ("Every [ms]", "12,5", Fraction(25, 2)),
            ("every (s)", "1", 1000),
            ("every_us", "12500", Fraction(25, 2)),
            ("every_ns", "1000001", Fraction(1_000_001, 1_000_000)),
        ):
            self.assertEqual(one(head, cell)[0].period_ms("every_ms"), wanted)

    def test_a_period_below_a_ms_has_no_bag(self) -> None:
        cells, faults = one("every_us", "999")
        self.assertIsNone(cells.period_ms("every_ms"))
        self.assertEqual(faults, ["t.csv line 2, 999: every_us 999: no BAG is so short; the least "
                                  "is 1 ms"])

    def test_a_latency_has_to_be_whole_in_us(self) -> None:
        for head, cell in (("within_ms", "0.25"), ("within [\u00b5s]", "250")):
            cells, _ = one(head, cell, "within_us")
            self.assertEqual(cells.whole("within_us", 1, 250), 250)
        cells, faults = one("within_ns", "1500", "within_us")
        self.assertIsNone(cells.whole("within_us", 1, 1000))
        self.assertEqual(len(faults), 1)

    def test_a_rate(self) -> None:
        for head, cell in (("rate", "1000"), ("Rate [Mbit/s]", "1000"), ("rate (Gbit/s)", "1"),
                           ("rate_gbps", "1.0")):
            self.assertEqual(one(head, cell, "rate")[0].member("rate", (10, 100, 1000), {}), 1000)
        cells, faults = one("rate", "25", "rate")
        self.assertIsNone(cells.member("rate", (10, 100), {}))
        self.assertEqual(faults, ["t.csv line 2, 25: rate 25: it has to be 10 or 100"])

    def test_columns_that_are_missing_or_there_twice(self) -> None:
        with self.assertRaisesRegex(Refused, "no column is named every_ms"):
            columns_of("t.csv", ["period"], {"every_ms": True})
        with self.assertRaisesRegex(Refused, "two columns are named every_ms"):
            columns_of("t.csv", ["every_ms", "every (s)"], {"every_ms": True})


class Bags(unittest.TestCase):
    """The greatest BAG in which a link can send its messages, one frame in each."""

    def test_of_one_message_the_power_of_two_below_its_period(self) -> None:
        for period, bag in ((1, 1), (2, 2), (20, 16), (127, 64), (128, 128), (1000, 128)):
            self.assertEqual(bag_of([Fraction(period)]), bag)
        self.assertEqual(bag_of([Fraction(25, 2)]), 8)

    def test_of_several_their_rates_together(self) -> None:
        # 1/20 + 1/12.5 = 0.13 messages in a ms: in 4 ms 0.52 of one, in 8 ms 1.04
        self.assertEqual(bag_of([Fraction(20), Fraction(25, 2)]), 4)
        self.assertEqual(bag_of([Fraction(32)] * 4), 8)
        self.assertEqual(bag_of([Fraction(32)] * 4 + [Fraction(10**6)]), 4)
        self.assertEqual(bag_of([Fraction(2), Fraction(2)]), 1)

    def test_none_where_more_than_a_frame_a_ms_is_sent(self) -> None:
        self.assertIsNone(bag_of([Fraction(2), Fraction(2), Fraction(10**6)]))

    def test_of_many_that_fill_it_to_the_last_bit(self) -> None:
        # 1/2 + 1/6 + 1/12 and so on is 1 - 1/n
        periods = [Fraction(number * (number + 1)) for number in range(1, 5000)]
        self.assertEqual(bag_of([*periods, Fraction(5000)]), 1)
        self.assertIsNone(bag_of([*periods, Fraction(5000) - Fraction(1, 10**9)]))
        self.assertEqual(sum_of(periods)[0] * 5000, sum_of(periods)[1] * 4999)
        self.assertEqual(bag_of([16 * period for period in [*periods, Fraction(5000)]]), 16)


class Links(unittest.TestCase):
    """The virtual link of some messages."""

    def test_each_key_as_its_messages_need_it(self) -> None:
        made = document(
            "a,5,adc,fcc,20,100,300,high,1000,sampling,,,,\n"
            "b,5,adc,fcc,12.5,8,200,high,1001,queuing,4,80,900,2\n"
            "c,6,fcc,adc,50,1,,low,1000,sampling,,,,\n"
        )
        self.assertEqual(made.faults, [])
        five, six = made.links
        self.assertEqual((five["bag_ms"], five["lmin"], five["lmax"]), (4, 80, 147))
        self.assertEqual((five["latency_us"], five["skew_us"], five["subs"]), (200, 900, 2))
        self.assertEqual((six["bag_ms"], six["lmin"], six["lmax"]), (32, 64, 64))
        self.assertEqual((six["latency_us"], six["skew_us"], six["subs"]), (None, None, 1))
        ports = [(port["link"], port["udp"], port["depth"]) for port in made.ports]
        self.assertEqual(ports, [(5, 1000, 1), (5, 1001, 4), (6, 1000, 1)])

    def test_a_frame_is_no_shorter_than_its_link_lets_it_be(self) -> None:
        made = document("a,5,adc,fcc,2,8,,high,1000,sampling,,80,,\n")
        self.assertEqual((made.links[0]["lmin"], made.links[0]["lmax"]), (80, 80))

    def test_rows_of_one_message_count_once(self) -> None:
        row = "a,5,adc,{},2,8,,high,1000,sampling,,,,\n"
        made = document(row.format("fcc") + row.format("disp"))
        self.assertEqual(made.faults, [])
        self.assertEqual((len(made.messages[5]), len(apart(made.messages[5]))), (2, 1))
        self.assertEqual((made.links[0]["bag_ms"], made.links[0]["to"]), (2, ["fcc", "disp"]))

    def test_a_message_of_a_wrong_link_makes_none(self) -> None:
        made = document("a,65536,adc,fcc,2,8,,high,1000,sampling,,,,\n")
        self.assertEqual((made.links, made.messages, len(made.faults)), ([], {}, 1))

    def test_1_gbit_s_in_profile_2_alone(self) -> None:
        message = "a,5,adc,fcc,2,8,,high,1000,sampling,,,,\n"
        self.assertEqual(document(message, 2, "1000").faults, [])
        self.assertEqual(len(document(message, 1, "1000").faults), 1)


class Reserve(unittest.TestCase):
    """Latencies, skews and buffers with room, rounded up."""

    def test_ns_to_us_are_rounded_up(self) -> None:
        for needed, wanted in ((1, 1), (1000, 1), (1001, 2), (16_720, 17)):
            self.assertEqual(Room(0).added(needed, 1000), wanted)

    def test_with_a_reserve(self) -> None:
        self.assertEqual(Room(10).added(100_000, 1000), 110)
        self.assertEqual(Room(10).added(100_001, 1000), 111)  # 110.0011 us
        self.assertEqual(Room(25).added(252), 315)
        self.assertEqual(Room(1).added(1), 2)
        self.assertEqual(Room(1000).added(3), 33)

    def test_what_is_enough_for_each_link(self) -> None:
        bounds = Bounds({5: Worst(2, 16_720), 6: Worst(1, 33_000)}, Worst(2, 147))
        self.assertEqual(Room(50).enough_us(bounds), {5: 26, 6: 50})

    def test_an_earlier_latency_stays_while_it_is_enough(self) -> None:
        old = {"buffer": 500, "link": [{"vl": 5, "latency_us": 40, "skew_us": 90}]}
        wanted = {"vl": 5, "latency_us": None, "skew_us": None}
        solved = {"vl": 5, "latency_us": 17, "skew_us": 17}
        kept = room_of(10, 0, old).link(wanted, solved, 40_000)
        self.assertEqual((kept["latency_us"], kept["skew_us"]), (40, 90))
        grown = room_of(10, 0, old).link(wanted, solved, 40_001)
        self.assertEqual((grown["latency_us"], grown["skew_us"]), (45, 90))  # 44.0011 us

    def test_a_skew_is_no_less_than_the_latency(self) -> None:
        wanted = {"vl": 5, "latency_us": 100, "skew_us": 50}
        made = Room(0).link(wanted, {"vl": 5, "latency_us": 100, "skew_us": 50}, 17_000)
        self.assertEqual((made["latency_us"], made["skew_us"]), (100, 100))

    def test_a_skew_allows_for_copies_that_are_not_sent_at_once(self) -> None:
        wanted = {"vl": 5, "latency_us": 100, "skew_us": 50}
        made = Room(0, 1_000_001).link(wanted, {"vl": 5, "latency_us": 100, "skew_us": 50}, 17_000)
        self.assertEqual((made["latency_us"], made["skew_us"]), (100, 1101))
        self.assertEqual(Room(0).solve_options(), ["--raise-only"])
        self.assertEqual(Room(0, 7).solve_options(), ["--raise-only", "--apart", "7"])


class Submissions(unittest.TestCase):
    """When messages come again, and what they say."""

    def stream(self, begin_ns: int = 0, size: int = 16) -> Stream:
        """A message each 12.5 ms."""
        return Stream("airspeed", 5, 1, 1000, size, Fraction(25, 2) * MS, begin_ns)

    def test_how_often_before_a_moment(self) -> None:
        counts = [self.stream().count(end) for end in (0, 1, 12_500_000, 12_500_001, 10**9)]
        self.assertEqual(counts, [0, 1, 1, 2, 80])
        self.assertEqual(self.stream(begin_ns=5).count(5), 0)
        self.assertEqual(self.stream(begin_ns=5).count(6), 1)

    def test_a_time_that_is_no_whole_ns_is_rounded_up(self) -> None:
        stream = Stream("a", 5, 1, 1000, 1, Fraction(10**7, 3), 0)
        times = [time for time, _ in stream.lines(10**7)]
        self.assertEqual(times, [0, 3_333_334, 6_666_667])

    def test_the_payload_has_the_length_of_the_message(self) -> None:
        self.assertEqual(self.stream().payload(3), b"00000003 airspee")
        self.assertEqual(self.stream(size=20).payload(3), b"00000003 airspeed\0\0\0")
        self.assertEqual(self.stream(size=3).payload(12_345), b"345")

    def test_a_beginning_by_chance_lies_in_the_first_period(self) -> None:
        self.assertEqual(begin_of(None, 5, 1000, Fraction(MS)), 0)
        begins = {begin_of(seed, 5, 1000, Fraction(MS)) for seed in range(20)}
        self.assertTrue(len(begins) > 10 and all(0 <= begin < MS for begin in begins))
        self.assertEqual(begin_of(1, 5, 1000, Fraction(MS)), begin_of(1, 5, 1000, Fraction(MS)))

    def test_messages_of_a_link_go_round_its_sub_links(self) -> None:
        made = document(
            "a,5,adc,fcc,20,8,,high,1000,sampling,,,,2\n"
            "b,5,adc,fcc,20,8,,high,1001,sampling,,,,2\n"
            "c,5,adc,fcc,20,8,,high,1002,sampling,,,,2\n"
        )
        streams = streams_of(made, None)["adc"]
        subs = [(each.sub, each.udp) for each in streams]
        self.assertEqual(subs, [(1, 1000), (2, 1001), (1, 1002)])
        lines = [line.split()[:4] for line in submissions(streams, 1) if line[0] != "#"]
        self.assertEqual(lines, [["0", "5", "1", "1000"], ["0", "5", "2", "1001"],
                                 ["0", "5", "1", "1002"]])


class Places(unittest.TestCase):
    """What a row is called in a fault's line."""

    def test_a_cell(self) -> None:
        row = Row("t.csv line 2", "message", {"message": "a\x1b", "bytes": ""}, {})
        self.assertEqual(row.at("bytes"), "t.csv line 2, a\\x1b: bytes (empty)")
