"""What of a report's tables stands on paper: all that is wrong, and no more than has room."""
from __future__ import annotations

import unittest

try:
    from afdx_tools.report.paper import LEAST_TOP, ROOM, cut_words, on_paper
except ModuleNotFoundError:
    raise unittest.SkipTest("there is no package numpy") from None

from known_words import ask_no_program
from afdx_tools.report.parts import MOST_ROWS, most_shown
from afdx_tools.tables import Row

ask_no_program()

Tables = dict[str, list[Row]]


def latencies(count: int, late: int = 0) -> list[Row]:
    """So many rows of links, of which the last ones are late."""
    return [{"link": n, "share": n / count, "late": n >= count - late} for n in range(count)]


def places(tables: Tables, name: str) -> list[int]:
    """The places of a table's rows that stand on paper."""
    return sorted(on_paper(tables)[name].places)


class Paper(unittest.TestCase):
    """Which rows of which tables stand on paper, and in how many columns."""

    def test_a_short_table_stands_there_as_a_whole(self) -> None:
        self.assertEqual(places({"links": latencies(100)}, "links"), list(range(100)))

    def test_of_a_long_one_the_rows_that_are_nearest_to_their_latency(self) -> None:
        rows = latencies(3 * ROOM + 1)
        self.assertEqual(places({"links": rows}, "links"), list(range(len(rows)))[-LEAST_TOP:])

    def test_what_is_wrong_is_never_cut(self) -> None:
        rows = [{**row, "share": 0.0} for row in latencies(9_000, late=8_000)]
        self.assertEqual(places({"links": rows}, "links"), [*range(20), *range(1_000, 9_000)])
        for name, value in (("alone", 1), ("silent", "link"), ("missing", 2), ("twice", 1),
                            ("reason", "over-rate"), ("what", "too-old")):  # fmt: skip
            wrong = [{"link": n, name: value} for n in range(4 * ROOM)]
            self.assertEqual(len(places({"some": wrong}, "some")), 4 * ROOM, name)

    def test_nor_of_so_many_rows_that_a_page_has_not_all(self) -> None:
        rows = latencies(MOST_ROWS + 500)
        rows[7] |= {"late": True}
        self.assertIn(7, [r["link"] for r in on_page(rows, places({"links": rows}, "links"))])

    def test_the_shortest_tables_first(self) -> None:
        wide = {f"column_{n}": 10**9 for n in range(20)}
        tables = {name: [{"link": n, **wide} for n in range(count)]
                  for name, count in (("one", 300), ("two", 200), ("three", 100))}  # fmt: skip
        found = {name: len(paper.places) for name, paper in on_paper(tables).items()}
        self.assertEqual(found, {"one": LEAST_TOP, "two": 200, "three": 100})

    def test_narrow_tables_stand_in_columns(self) -> None:
        narrow = [{"link": n, "frames": 1} for n in range(90)]
        wide = [{"link": n, "words": "some words " * 12} for n in range(90)]
        papers = on_paper({"narrow": narrow, "wide": wide})
        self.assertEqual([papers[name].columns for name in ("narrow", "wide")], [3, 1])
        self.assertEqual(papers["narrow"].styles, "columns-3 small")
        self.assertEqual(papers["wide"].styles, "")

    def test_a_table_without_rows(self) -> None:
        self.assertEqual(places({"silences": []}, "silences"), [])

    def test_a_sentence_names_the_files_that_have_the_rest(self) -> None:
        tables: Tables = {"links": latencies(5_000), "taps": latencies(5_000), "ports": []}
        words = cut_words(tables, on_paper(tables))
        self.assertIn("the rest is in links.csv, report.json.", words)
        self.assertEqual(cut_words({"ports": []}, on_paper({"ports": []})), "")


def on_page(rows: list[Row], chosen: list[int]) -> list[Row]:
    """These of the rows that a page has."""
    shown = most_shown(rows)
    return [shown[place] for place in chosen]


if __name__ == "__main__":
    unittest.main()
