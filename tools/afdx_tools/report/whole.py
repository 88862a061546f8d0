"""What the pages of all reports have in common: the frame around their parts, the links to these,
the cards of sums, the field that finds rows, which links the picture of latencies shows."""
from __future__ import annotations

from html import escape
from typing import Iterable, Sequence

from afdx_tools.report.cover import cover_section
from afdx_tools.report.made import made_section, made_table, sheet_style
from afdx_tools.report.ranking import place_of, ranked
from afdx_tools.report.style import POLICY, SCRIPT, STYLE
from afdx_tools.tables import Row

OF_ANSWERS = "#cover .answers tbody th { white-space: nowrap; }\n"  # a style
FIND = (
    "<p class='find' hidden><label>Find rows <input id='find' type='search' "
    "placeholder='links and names, as 304 A'></label> <span id='found' role='status'></span></p>"
)
NEAREST = (
    "Each link at the port where it came nearest to its configured latency, the nearest first, "
    "late ones at each port; sides A and B apart; "
)


def one_each(latency: Sequence[Row]) -> list[list[Row]]:
    """Of each ranked link both sides at the port where it has the greatest share, in that order; of
    a link that is late, each port where it is."""
    of_place: dict[tuple, list[Row]] = {}
    for row in latency:
        of_place.setdefault(place_of(row), []).append(row)
    seen: set[int] = set()
    places: dict[tuple, None] = {}
    for row in ranked(latency):
        if row["link"] not in seen or row["late"]:
            places[place_of(row)] = None
        seen.add(row["link"])
    return [of_place[place] for place in places]


def first_words(most: int, count: int) -> str:
    """How many of the links a picture shows, if it isn't all."""
    return f"The first {most} of {count}; the table below has all. " if count > most else ""


def cards_of(counts: Iterable[tuple[str, int, bool]]) -> str:
    """Sums, one a card: what each is, and whether it is bad if it isn't 0."""
    parts = []
    for words, count, is_bad in counts:
        styled = ' class="bad"' if count and is_bad else ""
        parts.append(f'<div class="card"><dt>{words}</dt><dd{styled}>{count:,}</dd></div>')
    return f'<dl class="cards">{"".join(parts)}</dl>'


def links_of(names: dict[str, str]) -> str:
    """Anchors to the parts of a page, by their names, with what they are called."""
    parts = [f'<a href="#{name}">{escape(words)}</a>' for name, words in names.items()]
    return f'<nav aria-label="Parts of the report">{" ".join(parts)}</nav>'


def whole_page(
    title: str, words: str, report: Row, parts: Sequence[str], proved: Sequence[str],
    answers: str = "",
) -> str:  # fmt: skip
    """A page that needs nothing beside it: cover, with a table of answers, title and words below
    it, its parts, what made it, what is proved."""
    run, cover = report["run"], report["cover"]
    foot = "".join(f"<p>{escape(each)}</p>" for each in proved)
    return "".join([
        "<!doctype html><html lang='en'><head><meta charset='utf-8'>",
        f'<meta http-equiv="Content-Security-Policy" content="{POLICY}">',
        "<meta name='viewport' content='width=device-width, initial-scale=1'>",
        f"<title>{escape(title)}</title><style>{STYLE}{OF_ANSWERS if answers else ''}",
        f"{sheet_style(run)}</style></head>",
        "<body><main>",
        cover_section(cover, answers + made_table(run)),
        f"<header><h1>{escape(title)}</h1><p>{escape(words)}</p></header>",
        *parts,
        "" if cover else made_section(run),
        f"<footer class='wide small'>{foot}</footer>",
        f"</main><script>{SCRIPT}</script></body></html>\n",
    ])  # fmt: skip
