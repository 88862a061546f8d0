"""What isn't as it should be in a run, in sentences and as values: the head of the page, and of the
text."""
from __future__ import annotations

from typing import Callable, Iterator, Sequence

from afdx_tools.replay.silence import LINK, NETWORK, SYSTEM
from afdx_tools.report.criteria import places_of
from afdx_tools.report.ranking import late_ones, latencies_of, latency_words
from afdx_tools.tables import Row, link_words

MOST_NAMED = 3  # of a kind, each in a sentence of its own
Finding = tuple[str, Row]  # in words, and as values
# the values that a finding has of its rows, by their columns
VALUES = {"links": "link", "sides": "side", "systems": "system", "switches": "switch",
          "reasons": "reason"}  # fmt: skip


def moment(ns: int) -> str:
    """A time of the list, as a person reads it; each ns of it, where it isn't long."""
    size, unit = (1e9, "s") if abs(ns) >= 1e10 else (1e6, "ms")
    whole, _, parts = f"{ns / size:,.6f}".partition(".")
    return f"{whole}.{parts.rstrip('0'):0<3} {unit}"


def amount(ns: int) -> str:
    """A length of time."""
    return moment(ns) if abs(ns) >= 1_000_000 else f"{ns / 1e3:,.3f} us"


def many(count: int, one: str, more: str) -> str:
    """So many of them, in the right number."""
    return f"{count:,} {one if count == 1 else more}"


def named_links(rows: Sequence[Row], most: int = 5) -> str:
    """The first of the links that these rows are about."""
    links = list(dict.fromkeys(map(link_words, rows)))
    more = f" and {len(links) - most:,} more" if len(links) > most else ""
    return ("link " if len(links) == 1 else "links ") + ", ".join(links[:most]) + more


def with_message(row: Row, words: str) -> str:
    """Words about a row's link behind what its messages are called, where that is known."""
    return ", ".join(filter(None, (row.get("message"), words)))


def about(rows: Sequence[Row], count: int) -> Row:
    """A finding as values: how many there are; the links, sides and so on of its rows, and the
    moments between which it was."""
    found: Row = {"count": count}
    for name, column in VALUES.items():
        values = dict.fromkeys(row[column] for row in rows if row.get(column) is not None)
        if values:
            found[name] = list(values)
    begins = [row["from_ns"] for row in rows if row.get("from_ns") is not None]
    ends = [row["until_ns"] for row in rows if row.get("until_ns") is not None]
    if begins and ends:
        found |= {"from_ns": min(begins), "until_ns": max(ends)}
    return found


# ---- silence -------------------------------------------------------------------------------------


def whose(row: Row) -> str:
    """What is silent."""
    if row["silent"] == NETWORK:
        return f"network{'s' if len(row['side']) > 1 else ''} {row['side']}"
    side = f"on {row['side']}"
    if row["silent"] == SYSTEM:
        return f"all of {row['system']} {side}"
    return f"link {row['link']} ({with_message(row, row['system'])}) {side}"


def silence_words(row: Row) -> str:
    """A silence in words."""
    never = row["last_line"] is None and row["next_line"] is None
    bags = f"{many(row['bags'], 'BAG', 'BAGs')} of {row['bag_ms']} ms"
    if never:
        words = f"{whose(row)}: no frame in the whole run of {amount(row['for_ns'])}, {bags}"
    else:
        begin = "the begin" if row["last_line"] is None else moment(row["from_ns"])
        end = moment(row["until_ns"]) + ("" if row["next_line"] else ", the end")
        words = f"{whose(row)}: silent from {begin} to {end}, {bags}"
    if row["on_other_side"]:
        other = "B" if row["side"] == "A" else "A"
        frames = many(row["on_other_side"], "frame", "frames")
        words += f"; meanwhile {frames} came on {other}"
    return words


def silent(report: Row) -> Iterator[Finding]:
    """The silences, those of networks first, of each kind the longest."""
    for level, more in ((NETWORK, "networks"), (SYSTEM, "systems"), (LINK, "links")):
        rows = [row for row in report["silences"] if row["silent"] == level]
        rows.sort(key=lambda row: (-row["bags"], row["from_ns"]))
        if level == LINK and len(rows) > MOST_NAMED:
            words = f"{many(len(rows), 'silence', 'silences')} of {named_links(rows)}; the longest:"
            yield words, about(rows, len(rows))
        yield from ((silence_words(row), about([row], 1)) for row in rows[:MOST_NAMED])
        if level != LINK and len(rows) > MOST_NAMED:
            rest = rows[MOST_NAMED:]
            yield f"{len(rest):,} more silences of {more}", about(rest, len(rest))


# ---- sides and numbers ---------------------------------------------------------------------------


def contradicted(report: Row) -> Iterator[Finding]:
    """Source addresses of the other network."""
    count, frames = report["totals"]["contradicted"], report["totals"]["frames"]
    if count:
        swapped = "; are the recordings swapped?" if 2 * count > frames else ""
        words = f"{count:,} of {frames:,} frames name the other network in their address{swapped}"
        yield words, about([], count)


def unused(report: Row) -> Iterator[Finding]:
    """Interfaces that aren't there."""
    if count := report["totals"]["unused"]:
        interfaces = many(count, "interface", "interfaces")
        words = f"{interfaces} that --interface names, and that the recording doesn't have"
        yield words, about([], count)


def clock(report: Row) -> Iterator[Finding]:
    """Clocks that are apart."""
    rows = [row for row in report["clocks"] if row["clock"]]
    if rows:
        medians = sorted(row["median_ns"] for row in rows)
        median = medians[(len(medians) - 1) // 2]
        later, sooner = ("B", "A") if median > 0 else ("A", "B")
        begin = sorted(row["at_begin_ns"] for row in rows)[(len(rows) - 1) // 2]
        end = sorted(row["at_end_ns"] for row in rows)[(len(rows) - 1) // 2]
        drift = abs(end - begin) > abs(median) // 4
        drifts = f", at the begin {amount(begin)}, at the end {amount(end)}" if drift else ""
        of = many(len(rows), "sender that has", "senders that have")
        words = (
            f"the clocks are apart: of {'the' if len(rows) == 1 else 'all'} {of} enough copies, "
            f"those on {later} came {amount(abs(median))} after those on {sooner} "
            f"(the median{drifts})"
        )
        yield words, about(rows, len(rows)) | {"median_ns": median}


def twice(report: Row) -> Iterator[Finding]:
    """Messages that were delivered twice."""
    rows = [row for row in report["skews"] if row["twice"]]
    if rows:
        count, delivered = report["totals"]["twice"], report["totals"]["delivered"]
        words = (
            f"{count:,} of {delivered - count:,} messages were delivered twice, of "
            f"{named_links(rows)}: the copy came more than SkewMax later"
        )
        yield words, about(rows, count)


def unequal(report: Row) -> Iterator[Finding]:
    """Frames that came on one side alone."""
    rows = [row for row in report["sides"] if row["alone"]]
    if rows:
        sums = {side: sum(row["alone"] for row in rows if row["side"] == side) for side in "AB"}
        words = (
            f"{many(sum(sums.values()), 'frame', 'frames')} came on one side alone, on A "
            f"{sums['A']:,}, on B {sums['B']:,}, of {named_links(rows)}"
        )
        yield words, about(rows, sum(sums.values()))


def missing(report: Row) -> Iterator[Finding]:
    """Sequence numbers that were skipped."""
    rows = [row for row in report["sides"] if row["missing"]]
    if rows:
        sums = {side: sum(row["missing"] for row in rows if row["side"] == side) for side in "AB"}
        numbers = many(sum(sums.values()), "sequence number is", "sequence numbers are")
        words = f"{numbers} missing, on A {sums['A']:,}, on B {sums['B']:,}, of {named_links(rows)}"
        yield words, about(rows, sum(sums.values()))


def first_number(report: Row) -> Iterator[Finding]:
    """Links that don't begin with number 0."""
    rows = [row for row in report["sides"] if row["first_number"]]
    if rows:
        words = (
            f"the first number isn't 0 of {named_links(rows)}: their senders began before the run, "
            "or the first frames are missing"
        )
        yield words, about(rows, len(rows))


# ---- at the switches and receivers ---------------------------------------------------------------


def dropped(report: Row) -> Iterator[Finding]:
    """Frames that a switch dropped: by link and reason, those at wrong ports first."""
    sums: dict[tuple, list[Row]] = {}
    for row in report["dropped"]:
        port = row["came_in"] if row["reason"] == "wrong-port" else None
        sums.setdefault((row["reason"], row["link"], row.get("switch"), port), []).append(row)
    groups = sorted(
        sums.values(),
        key=lambda rows: (rows[0]["reason"] != "wrong-port", -sum(r["frames"] for r in rows)),
    )
    for rows in groups[:MOST_NAMED]:
        yield drop_words(rows), about(rows, sum(row["frames"] for row in rows))
    if rest := [row for rows in groups[MOST_NAMED:] for row in rows]:
        reasons: dict[str, int] = {}
        for row in rest:
            reasons[row["reason"]] = reasons.get(row["reason"], 0) + row["frames"]
        words = ", ".join(f"{count:,} {word}" for word, count in reasons.items())
        frames = many(sum(reasons.values()), "other frame was", "other frames were")
        words = f"{frames} dropped: {words}, of {named_links(rest)}"
        yield words, about(rest, sum(reasons.values()))


def drop_words(rows: Sequence[Row]) -> str:
    """The frames of a link that were dropped for one reason; at which wrong port they came in."""
    row, frames = rows[0], sum(row["frames"] for row in rows)
    sides = " and ".join(dict.fromkeys(row["side"] for row in rows))
    begin, end = min(r["from_ns"] for r in rows), max(r["until_ns"] for r in rows)
    when = f"from {moment(begin)} to {moment(end)}" if frames > 1 else f"at {moment(begin)}"
    switch = row.get("switch", "")
    own = f" ({row['own_system']})"
    called = with_message(row, "" if switch else row["own_system"])
    of = f"link {row['link']}{called and f' ({called})'}" if row["own_port"] else "no link"
    words = f"{many(frames, 'frame', 'frames')} of {of}"
    if row["reason"] != "wrong-port":
        return f"{words} dropped as {row['reason']}{switch and f' at {switch}'} on {sides}, {when}"
    port = f"{switch} port {row['came_in']}".lstrip()
    right = f"{row['own_port']}{own if switch else ''}"
    return (
        f"{words} came in at {port} ({row['system'] or 'no system'}) on {sides}, "
        f"{when}; that isn't its port {right}: dropped as wrong-port; their source "
        f"address names {row['address'] or 'nobody'}"
    )


def late(report: Row) -> Iterator[Finding]:
    """Copies that left too late."""
    tables = latencies_of(report), report["latency"]
    late_rows = map(late_ones, tables)
    rows: list[Row] = next(filter(None, late_rows), [])
    if rows:
        copies = many(report["totals"]["late"], "copy", "copies")
        copies += places_of(report["totals"], "late")
        words = f"LATE: {copies} of {named_links(rows)}; {latency_words(rows[0])}"
        worst = {name: rows[0][name] for name in ("greatest_ns", "configured_ns")}
        yield words, about(rows, report["totals"]["late"]) | worst


def full_buffer(report: Row) -> Iterator[Finding]:
    """Copies for which a port had no room."""
    if count := report["totals"]["full_buffer"]:
        rows = [row for row in report["links"] if row["full_buffer"]]
        copies = many(count, "copy", "copies") + places_of(report["totals"], "full-buffer")
        yield f"{copies} lost to a full buffer, of {named_links(rows)}", about(rows, count)


def too_old(report: Row) -> Iterator[Finding]:
    """Copies that were dropped for their age."""
    if count := report["totals"]["too_old"]:
        rows = [row for row in report["links"] if row["too_old"]]
        copies = many(count, "copy", "copies") + places_of(report["totals"], "too-old")
        yield f"{copies} dropped as too old, of {named_links(rows)}", about(rows, count)


def refused(report: Row) -> Iterator[Finding]:
    """Copies that a receiver dropped, redundant ones apart."""
    rows = [row for row in report["links"] if row["refused"]]
    if rows:
        reasons: dict[str, int] = {}
        for row in rows:
            for word, count in row["refusals"].items():
                reasons[word] = reasons.get(word, 0) + count
        words = ", ".join(f"{count:,} {word}" for word, count in sorted(reasons.items()))
        copies = many(report["totals"]["refused"], "copy", "copies")
        words = f"{copies} refused at receivers: {words}, of {named_links(rows)}"
        yield words, about(rows, report["totals"]["refused"]) | {"reasons": sorted(reasons)}


def skew(report: Row) -> Iterator[Finding]:
    """Copies that left the switches further apart than SkewMax."""
    rows = [row for row in report["skews"] if (row["at_receivers_ns"] or 0) > row["table_skew_ns"]]
    if rows:
        worst = max(rows, key=lambda row: row["at_receivers_ns"] / row["table_skew_ns"])
        words = (
            f"skew over SkewMax of {named_links(rows)}; link {link_words(worst)}: "
            f"{amount(worst['at_receivers_ns'])}, SkewMax {amount(worst['table_skew_ns'])}"
        )
        yield words, about(rows, len(rows))


def jitter(report: Row) -> Iterator[Finding]:
    """Links that came with more jitter than their tables have."""
    rows = [row for row in report["sides"] if (row["jitter_ns"] or 0) > row["table_jitter_ns"]]
    if rows:
        worst = max(rows, key=lambda row: row["jitter_ns"] - row["table_jitter_ns"])
        words = (
            f"jitter over the table's of {named_links(rows)}; link {link_words(worst)} on "
            f"{worst['side']}: {amount(worst['jitter_ns'])}, in the table "
            f"{amount(worst['table_jitter_ns'])}"
        )
        yield words, about(rows, len(rows))


# ---- at the recorder -----------------------------------------------------------------------------


def recorder_lost(report: Row) -> Iterator[Finding]:
    """Frames that the recorder lost."""
    if count := report["totals"]["recorder_lost"]:
        yield f"the recorder itself lost {many(count, 'frame', 'frames')}", about([], count)


def left_words(report: Row) -> str:
    """Why recorded frames are no arrivals, each with its count; empty where all are."""
    others = ("recorder-lost", "claimed", "contradicted", "unused")
    return ", ".join(
        f"{n:,} {word}" for word, n in report["skipped"].items() if n and word not in others
    )


def left_out(report: Row) -> Iterator[Finding]:
    """Frames that were recorded and are no arrivals."""
    if count := report["totals"]["left_out"]:
        frames = many(count, "recorded frame was", "recorded frames were")
        yield f"{frames} left out: {left_words(report)}", about([], count)


def claimed(report: Row) -> Iterator[Finding]:
    """Frames that only their own addresses place."""
    if count := report["totals"]["claimed"]:
        words = (
            f"{count:,} of {report['totals']['frames']:,} frames are only claimed to have come "
            "where they did: their own addresses say it, and no word of --interface"
        )
        yield words, about([], count)


FINDINGS: dict[str, Callable[[Row], Iterator[Finding]]] = {
    "silent": silent,
    "contradicted": contradicted,
    "clock": clock,
    "twice": twice,
    "late": late,
    "full-buffer": full_buffer,
    "too-old": too_old,
    "dropped": dropped,
    "unequal": unequal,
    "missing": missing,
    "refused": refused,
    "skew": skew,
    "jitter": jitter,
    "first-number": first_number,
    "recorder-lost": recorder_lost,
    "left-out": left_out,
    "unused": unused,
    "claimed": claimed,
}


def findings_of(report: Row) -> list[Row]:
    """Each finding with its criterion, the gravest first."""
    return [
        {"criterion": word, "words": words, **values}
        for word, find in FINDINGS.items()
        for words, values in find(report)
    ]
