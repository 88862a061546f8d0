"""The head of a report's page: what was found, the sums, and the words for what isn't there."""
from __future__ import annotations

from html import escape

from afdx_tools.report.criteria import CRITERIA
from afdx_tools.report.ranking import latencies_of, latency_words, nearest
from afdx_tools.report.whole import cards_of
from afdx_tools.tables import Row

CARDS = {
    "frames": "frames in",
    "accepted": "accepted",
    "dropped": "dropped",
    "full_buffer": "full buffer",
    "late": "late copies",
    "too_old": "too old",
    "departed": "copies out",
    "delivered": "delivered",
    "redundant": "redundant",
    "refused": "refused",
    "missing": "missing numbers",
    "silent": "silences",
}
# The words for what isn't there, on a frame's way: where, the word, what it says.
WORDS = (
    ("sender to switch", "silent", "a network, a system or a link from which no frame came, for "
     "more than 4 BAGs and 4 of its usual gaps"),
    ("sender to switch", "missing", "sequence numbers that were skipped from one frame of a link "
     "and side to the next, if there was time to send them"),
    ("sender to switch", "first-number", "links and sides whose first frame hasn't number 0"),
    ("sender to switch", "unequal", "accepted frames of which no copy came on the other side, "
     "outside of its silences"),
    ("recorder", "recorder-lost", "frames that the recorder itself lost, by what it noted"),
    ("recorder", "left-out", "recorded frames that are no arrivals: other traffic, senders or "
     "networks that aren't known, interfaces that were left out"),
    ("recorder", "claimed", "frames of which only their own addresses say where they came in"),
    ("recorder", "contradicted", "frames whose own address names the other network"),
    ("switch, input", "dropped", "frames that the switch dropped, for their shape, their port or "
     "their rate"),
    ("switch, output", "full-buffer", "copies for which an output port had no room: lines L, lost"),
    ("switch, output", "too-old", "copies that waited in an output port for too long: lines T"),
    ("switch, output", "late", "copies that left, later than their link's configured latency"),
    ("receiver", "refused", "copies that a receiver dropped, as out of sequence or unreadable"),
    ("receiver", "redundant", "second copies that a receiver dropped, as it should"),
    ("receiver", "twice", "messages that a receiver read from both copies"),
)  # fmt: skip


def badge(words: str, kind: str) -> str:
    """Words that stand out."""
    return f'<span class="answer {kind}">{escape(words)}</span>'


def answer(report: Row) -> str:
    """What admission said, the run's fault, what was found, which criteria aren't met."""
    said, found = report["admission"], report["findings"]
    parts = []
    if report["fault"]:
        parts.append(badge(f"the run ended with: {report['fault']}", "bad"))
    if report["unmet"]:
        parts.append(badge("failed: " + ", ".join(report["unmet"]), "bad"))
    if found:
        parts.append(badge(f"{len(found)} finding{'s' if len(found) > 1 else ''}", "bad"))
    elif not report["fault"]:  # which may be that nothing could be looked at
        parts.append(badge("no findings", "good"))
    parts.append(
        badge("tables admitted", "good") if said == "ok" else badge(f"not admitted: {said}", "bad")
    )
    most = nearest(latencies_of(report))
    if most and not report["totals"]["late"]:
        parts.append(f'<span class="muted">Nearest: {escape(latency_words(most))}.</span>')
    return f'<p class="answers">{"".join(parts)}</p>{findings(report)}'


def findings(report: Row) -> str:
    """What isn't as it should be, the gravest first."""
    if not report["findings"]:
        return ""
    rows = "".join(
        f'<li><b>{escape(one["criterion"])}</b> {escape(one["words"])}</li>'
        for one in report["findings"]
    )
    return f'<ul class="findings" id="findings">{rows}</ul>'


def cards(report: Row) -> str:
    """The sums, one a card."""
    bad = ("dropped", "full_buffer", "late", "too_old", "refused", "missing", "silent")
    return cards_of(
        (words, report["totals"][key], key in bad) for key, words in CARDS.items()
    )


def words_section(report: Row) -> str:
    """The words for what isn't there beside one another, each with its count."""
    rows = []
    for where, word, words in WORDS:
        count = report["totals"][word.replace("-", "_")]
        over = ' class="over"' if count and word in CRITERIA else ""
        rows.append(
            f'<tr{over}><th scope="row"><span>{word}</span></th><td class="number">{count:,}</td>'
            f'<td class="where">{where}</td><td class="words">{escape(words)}</td></tr>\n'
        )
    kinds = {"word": "", "count": "number", "where": "where", "what it says": "words"}
    head = "".join(f'<th scope="col" class="{kind}">{name}</th>' for name, kind in kinds.items())
    caption = "<caption>The words for what isn't there, on a frame's way</caption>"
    return (
        '<section id="words"><div class="box" tabindex="0" role="region" '
        f'aria-label="The words for what is absent"><table>{caption}<thead><tr>{head}</tr></thead>'
        f'<tbody>{"".join(rows)}</tbody></table></div></section>'
    )
