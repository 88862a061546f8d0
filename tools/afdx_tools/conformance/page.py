"""The report on a recorded switch as one HTML page that needs nothing beside it."""
from __future__ import annotations

from html import escape

from afdx_tools.conformance.judging import CONFORMS
from afdx_tools.conformance.numbers import account_words, no_verdict
from afdx_tools.conformance.together import answers_table, said_of_both, verdict_of_switch
from afdx_tools.known import findings, of_senders
from afdx_tools.report import figures
from afdx_tools.report.findings import left_words
from afdx_tools.report.head import badge
from afdx_tools.report.paper import cut_words, on_paper
from afdx_tools.report.parts import section, table, table_section
from afdx_tools.report.ranking import FEWEST
from afdx_tools.report.whole import (
    FIND,
    NEAREST,
    cards_of,
    first_words,
    links_of,
    one_each,
    whole_page,
)
from afdx_tools.tables import Row

TABLES = {
    "groups": "Findings by link, port and kind: how many, and the first line that each names",
    "deviations": "Findings: the lines of the program, with the frame that each names",
    "streams": "Links, ports and sides: what came, left, was found, and latency as measured, in ns",
    "premises": "What has to be so for each message to come once and in order, and what is so",
    "senders": "Links and the systems that send them: frames on both networks, and what was found",
    "sender_deviations": "Findings of senders: the lines of the program, with the frame of each",
    "options": "Options that the stamps ask for, at the least, and what was measured",
    "idle": "Links, ports and sides that are judged, and of which no frame is explained",
    "unseen": "Links, ports and sides that aren't judged, and what wasn't recorded of them",
    "stamps": "Stamps by port: their steps, and how near to one another frames stand, in ns",
    "offsets": "Left less came, less the time on the line, by input and output port, in ns",
}
OF_SWITCH = ("groups", "deviations", "streams", "offsets", "idle", "unseen")
PROVED = (
    "Proved: the verdict, its counts and each finding are lines of the proved program, and so are "
    "the bounds of the ports (P). `conforms` says that what left at the recorded ports is what the "
    "tables' rules let leave of what came, as far as the options leave no doubt."
)
COUNTED = (
    "Counted by this report from the lists or recordings, and not proved: how long a frame was "
    "inside, which is the time of the frame that left less that of the one with its bytes that "
    "came, by their stamps; with percentiles, shares and the picture; what the numbers of frames "
    "say; which links were idle; and the options that the stamps ask for. A frame of which the "
    "program found nothing may be paired with another one of equal bytes."
)
PROVED_OF_SENDERS = (
    "Of senders each line and the counts are of the same run of the proved program. How many lines "
    "are of the switch and how many of senders, what is answered of each by that, how many frames "
    "of each source have no line, and whether the premises of the law hold, is counted by this "
    "report. The law is proved: both_show_once of PROMISES.md."
)
CARDS_OF_SENDERS = {"sent": "sent", "cut": "copies cut", "alone": "links alone"}
CARDS = {
    "explained": "explained",
    "open": "open",
    "uncertain": "uncertain",
    "left_out": "left out",
    "unseen": "unseen",
    "idle": "idle",
}


def is_judged(report: Row) -> bool:
    """A switch was judged, and not what systems sent alone."""
    return bool(report["verdict"] or report["fault"])


def answer(report: Row) -> str:
    """The verdict, or the fault that was in its way; how much of the account was tested."""
    parts = []
    if not is_judged(report):
        parts.append(badge("no switch was judged", "muted"))
    elif report["fault"]:
        parts.append(badge(f"the run ended with: {report['fault']}", "bad"))
        if no_verdict(report):
            parts.append(f'<span class="muted">There is no verdict: {no_verdict(report)}</span>')
    else:
        is_good = report["status"] == 0
        parts.append(badge(report["verdict"], "good" if is_good else "bad"))
        words = f"Of the account: {account_words(report['totals'])}."
        if report.get("unseen"):
            words += f" Of {len(report['unseen'])} links, ports and sides nothing is said: they "
            words += "weren't recorded."
        if report["idle"]:
            words += f" Of {len(report['idle'])} that were no frame is explained: they were idle."
        parts.append(f'<span class="muted">{escape(words)}</span>')
    if "of_senders" in report:
        parts[1:1] = badges_of_senders(report)
    if report["admission"] != "ok":
        parts.append(badge(f"not admitted: {report['admission']}", "bad"))
    return f'<p class="answers">{"".join(parts)}</p>{said_of_both(report)}'


def badges_of_senders(report: Row) -> list[str]:
    """What is answered of the switch and of the senders; of these alone also the fault that was in
    its way."""
    told, switch = report["of_senders"], verdict_of_switch(report)
    named = {"switch": switch} if switch else {}
    if told["verdict"]:
        named["senders"] = told["verdict"]
    elif not is_judged(report):
        return [badge(f"the run ended with: {told['fault']}", "bad")]
    return [badge(f"{name}: {verdict}", "good" if verdict == CONFORMS else "bad")
            for name, verdict in named.items()]  # fmt: skip


def picture(report: Row, most: int) -> str:
    """Measured latencies against bounds and configured ones."""
    head = "Latency as recorded against the configured latency"
    pairs = one_each([row for row in report["streams"] if row["frames"]])
    if not pairs:
        words = f"No link has {FEWEST} frames at a port that could be measured."
        return section("picture", head, words, "")
    words = f"{NEAREST}links with {FEWEST} frames there or more. "
    words += "From the stamp at the input to the stamp at the output. "
    words += first_words(most, len(pairs))
    bound = "proved bound" if report["admission"] == "ok" else "bound of check"
    return section("picture", head, words, figures.latencies(pairs[:most], bound, "as recorded"))


def shown_in(report: Row) -> dict[str, str]:
    """The tables of a report, with their heads: where no switch was judged, those that say nothing
    of one."""
    return {name: head for name, head in TABLES.items()
            if name in report and (is_judged(report) or name not in OF_SWITCH)}  # fmt: skip


def tables(report: Row) -> str:
    """All tables, and the field that finds rows in them."""
    shown = {name: report[name] for name in shown_in(report)}
    papers = on_paper(shown)
    sections = [
        table_section(
            name, TABLES[name], table(rows, TABLES[name], papers[name].places, file=f"{name}.csv"),
            papers[name].styles,
        )
        for name, rows in shown.items()
    ]  # fmt: skip
    return FIND + cut_words(shown, papers) + "".join(sections)


def words_of(report: Row) -> str:
    """What was measured, when time 0 was, what was left out of recordings."""
    totals = report["totals"]
    words = f"{totals['measured']:,} of {totals['of_streams']:,} frames that left were measured."
    if report["fault"]:
        words = "Nothing was measured."
    if not is_judged(report):
        words = "What systems sent was judged, and no switch."
    if report["run"].get("time_0"):
        words += f" Time 0 is {report['run']['time_0']}."
    for name, counts in report.get("skipped", {}).items():
        left = left_words({"skipped": counts}) or "nothing"
        words += f" Left out of {name}: {left}."
    return words


def cards_of_senders(report: Row) -> list[tuple[str, int, bool]]:
    """The sums of the senders, and whether each is bad; none where they weren't judged."""
    totals = report.get("of_senders", {}).get("totals", {})
    cards = [(words, totals[key], False) for key, words in CARDS_OF_SENDERS.items()
             if key in totals]  # fmt: skip
    return cards + [(word, totals[word], True) for word in of_senders() if word in totals]


def proved_of_senders(report: Row) -> list[str]:
    """What is proved of the senders, where they were judged."""
    return [PROVED_OF_SENDERS] if "of_senders" in report else []


def page(report: Row, most: int) -> str:
    """The whole page, with so many links in its picture."""
    totals = report["totals"]
    names = {"picture": "latency", "groups": "findings by kind", "deviations": "findings"}
    names |= {"streams": "table of streams", "options": "options", "idle": "what was idle"}
    names |= {"unseen": "what isn't judged"} if "unseen" in report else {}
    names |= {"senders": "senders"} if "of_senders" in report else {}
    names |= {"stamps": "stamps", "made": "what made it"}
    names = {name: words for name, words in names.items()
             if name not in ("picture", *OF_SWITCH) or is_judged(report)}  # fmt: skip
    cards = [(words, totals[key], False) for key, words in CARDS.items() if key in totals]
    cards += [(word, totals[word], True) for word in findings() if is_judged(report)]
    cards += cards_of_senders(report)
    parts = [
        answer(report),
        links_of(names),
        cards_of(cards),
        picture(report, most) if is_judged(report) else "",
        tables(report),
    ]  # fmt: skip
    title = f"AFDX conformance: {report['run']['title']}"
    foot = (PROVED, *proved_of_senders(report), COUNTED)
    return whole_page(title, words_of(report), report, parts, foot, answers_table(report))
