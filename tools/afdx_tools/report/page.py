"""The report as one HTML page that needs nothing beside it."""
from __future__ import annotations

import argparse
from typing import Sequence

import numpy as np

from afdx_tools.replay.counting import Counting
from afdx_tools.report import figures, tracks
from afdx_tools.report.compare import words_of
from afdx_tools.report.findings import left_words
from afdx_tools.report.head import answer, cards, words_section
from afdx_tools.report.lanes import lanes
from afdx_tools.report.paper import cut_words, file_of, on_paper
from afdx_tools.report.parts import section, table, table_section
from afdx_tools.report.ranking import FEWEST, latencies_of
from afdx_tools.report.where import Where
from afdx_tools.report.whole import FIND, NEAREST, first_words, links_of, one_each, whole_page
from afdx_tools.tables import (
    COUNTED,
    EARLY,
    TROUBLES,
    UNPROMISED,
    Row,
    in_us,
    link_words,
    names_of,
)

EARLY_FRAMES = "Over-rate frames that came too early by most, in us"
TAPS = "Taps: where the interfaces were plugged in, and frames that name another place"
TRACKS_ON_PAPER = 6
TROUBLES_SHOWN = 500


def latency_section(report: Row, counting: Counting, most: int) -> str:
    """The picture of latencies."""
    pairs = one_each(latencies_of(report))
    head = "Latency in the replay against the configured latency"
    if "ways" in report:
        head = "Latency from end to end in the replay, against the configured latencies together"
    if not pairs:
        words = f"No link has {FEWEST} copies at a port." if report["latency"] else "None left."
        return section("picture", head, words, "")
    words = f"{NEAREST}links with {FEWEST} copies there or more, or a late one. "
    words += first_words(most, len(pairs)) + "From a frame's arrival to the end of its slot."
    if "ways" in report:
        words += " At the last switch; the bound is that of all ports of the way together."
    name = "proved bound" if report["admission"] == "ok" else "bound of check"
    if report["admission"] != "ok":
        words += f" {UNPROMISED}"
    shown = section("picture", head, words, figures.latencies(pairs[:most], name))
    if "ways" not in report:
        return shown
    from afdx_tools.report.several import hops_section

    return shown + hops_section(counting, pairs, most)


def track_sections(counting: Counting, args: argparse.Namespace) -> str:
    """The time lines of the links."""
    wrong = tracks.troubled(counting)
    first = tracks.chosen(counting, wrong)
    parts: list[str] = []
    for vl in dict.fromkeys(args.link or ([] if first is None else [first])):
        part = track_section(counting, vl, wrong, args.begin or 0)
        is_on_paper = len(parts) < TRACKS_ON_PAPER
        parts.append(part if is_on_paper else f'<div class="screen">{part}</div>')
    return "".join(parts)


def track_section(counting: Counting, vl: int, wrong: np.ndarray, begin: int) -> str:
    """The time line of a link."""
    called = {"link": vl, "message": counting.config.messages.get(vl)}
    name, head = f"line-{vl}", f"Time line of link {link_words(called)}"
    link = counting.config.links.get(vl)
    lines = np.zeros(0, np.int64)
    if link is not None:
        lines = tracks.shown_lines(counting, vl, wrong, begin)
    if link is None or not len(lines):
        return section(name, head, "It has no frames there.", "")
    words = (
        f"From {link.source} to {', '.join(link.to)}; {link.priority} priority, "
        f"BAG {link.bag_ms} ms, Lmax {link.lmax} bytes. "
    )
    frames = int((counting.place[counting.arrived] == counting.vls.index(vl)).sum())
    if len(lines) < frames:
        where = ", where most went wrong" if not begin and wrong[lines].any() else ""
        words += f"{len(lines)} of {frames:,} arrivals{where}."
    shown = tracks.arrivals_of(counting, lines)
    return section(name, head, words, tracks.track(name, shown, tracks.lane_names(counting, vl)))


def arrivals_section(report: Row) -> str:
    """When frames came, of each link on each side."""
    words = (
        "Of each link side A above, side B below, by the time of arrival. Links with a silence, "
        "with more than they may send, or with frames at a wrong port stand first."
    )
    return section("arrivals", "Arrivals over time", words, lanes(report["arrivals"]))


def pictures(report: Row, counting: Counting, args: argparse.Namespace) -> str:
    """All pictures."""
    parts = [arrivals_section(report), latency_section(report, counting, args.rows)]
    if "ways" in report:
        from afdx_tools.report.several import network_section

        parts.append(network_section(report, counting, args))
    if report["latency"]:
        words = "How near the copies came to their link's configured latency, sides A and B apart."
        shares = figures.histogram(report["histogram"])
        parts.append(section("histogram", "Copies by share of latency", words, shares))
    words = (
        "At the switches, a lane for each reason, by the time of the arrival; copies that were too "
        "old by that of their drop."
    )
    lanes = figures.drops(report["drops"])
    parts.append(section("drops", "Drops by reason over time", words, lanes))
    if report["ports"]:
        words = "The share of each output port's line that slots take up."
        shown = figures.loads(report["loads"], report["ports"])
        parts.append(section("loads", "Load of each port over time", words, shown))
    return "".join(parts) + track_sections(counting, args)


def early_tables(report: Row) -> dict[str, tuple[str, Sequence[Row]]]:
    """By how much over-rate frames came too early, in us: the worst frames, sums. Nothing where
    there are none."""
    if "early_ns" not in report:
        return {}
    sums = [
        {
            **{name: row[name] for name in ("link", "message", "side") if name in row},
            "over-rate": row["count"],
            "median_us": in_us(row["median"]),
            "greatest_us": in_us(row["greatest"]),
        }
        for row in report["early_ns"]
    ]
    frames = [
        {("early_us" if key == "early_ns" else key): value for key, value in row.items()}
        | {"early_us": in_us(row["early_ns"])}
        for row in report["early_frames"]
    ]
    return {"early-frames": (EARLY_FRAMES, frames), "early": (f"{EARLY}, in us", sums)}


def compared_tables(report: Row) -> dict[str, tuple[str, Sequence[Row]]]:
    """Two runs beside one another."""
    pair = report.get("compared")
    if pair is None:
        return {}
    return {
        "compared": ("Numbers that differ from the other run", pair["rows"]),
        "only-here": ("Frames with trouble only in this run", pair["only_here"]),
        "only-there": ("Frames with trouble only in the other", pair["only_there"]),
    }


def table_sections(report: Row, where: Where) -> str:
    """All tables, and the field that finds rows in them."""
    early, both = early_tables(report), compared_tables(report)
    tables = dict(both)
    if "taps" in report:
        tables["taps"] = TAPS, report["taps"]["rows"]
    for name, head in names_of(report).items():
        tables[name] = head, report[name]
        after = {"frames": "early-frames", "sides": "early"}.get(name)
        if after in early:
            tables[after] = early[after]
    troubles = report["troubles"]
    first = f" (the first {TROUBLES_SHOWN:,}; the CSV file has {len(troubles):,})"
    cut = first if len(troubles) > TROUBLES_SHOWN else ""
    tables["troubles"] = TROUBLES + cut, troubles[:TROUBLES_SHOWN]
    shown = {name: rows for name, (_, rows) in tables.items()}
    papers = on_paper(shown)
    sections = {
        name: table_section(
            name, head, table(rows, head, papers[name].places, where, file_of(name)),
            papers[name].styles,
        )
        for name, (head, rows) in tables.items()
    }  # fmt: skip
    words = " ".join(words_of(report["compared"])) if both else ""
    first = section("other", "Compared with another run", words, "") if both else ""
    first += "".join(sections.pop(name) for name in both)
    return first + FIND + cut_words(shown, papers) + "".join(sections.values())


def links_to(report: Row) -> str:
    """Anchors to the parts of the page."""
    names = {"words": "words", "arrivals": "arrivals", "picture": "latency"}
    names |= {"network": "network"} if "ways" in report else {}
    names |= {"drops": "drops"}
    names |= {name: f"table of {name}" for name in (*names_of(report), "troubles")}
    names |= {"early": "table of over-rate frames"} if "early_ns" in report else {}
    names |= {"made": "what made it"}
    return links_of(names)


def page(report: Row, counting: Counting, where: Where, args: argparse.Namespace) -> str:
    """The whole page."""
    title = f"AFDX replay: {report['run']['title']}"
    span = report["run"]["span_ns"] / 1e6
    switches = len(counting.config.names)
    at = f"at {switches} switches a side" if switches else "at both switches"
    words = f"{report['totals']['frames']:,} frames over {span:,.3f} ms {at}."
    if report["run"]["time_0"]:
        words += f" Time 0 is {report['run']['time_0']}."
    if "skipped" in report:
        words += f" Left out of the recording: {left_words(report) or 'nothing'}."
    parts = [
        answer(report),
        links_to(report),
        cards(report),
        words_section(report),
        pictures(report, counting, args),
        table_sections(report, where),
    ]
    return whole_page(title, words, report, parts, (report["proved"], COUNTED))
