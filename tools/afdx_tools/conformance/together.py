"""What a recorded switch and the systems that send to it say together, by one run of the program:
what it answers of each, and whether the premises of the law hold by which each message came once
and in order."""
from __future__ import annotations

from html import escape
from typing import Iterator, NamedTuple

from afdx_tools.conformance.judging import CONFORMS, UNDECIDED, Judged
from afdx_tools.conformance.options import Options
from afdx_tools.report.cover import table_of
from afdx_tools.tables import Row

EXACT = ("slack", "between", "drift", "inner", "asked")  # options that leave no exact answer
LAW, SWITCH = "no sender left the law", "the switch conforms"
COUNTS = {  # counts of the last line that have to be 0, with what that says
    "open": "what became of each frame was recorded",
    "left-out": "nothing was left out",
    "unseen": "all ports were recorded",
    "alone": "both networks were recorded of each link",
}
ALL_MET = (
    "The tables are admitted, all was recorded and judged, from the begin on and with exact "
    "stamps. By the law both_show_once of PROMISES.md it follows: each receiver that keeps the "
    "rules, from a reset on, got each message to a UDP port of its own once and in order, as far "
    "as one of both networks was recorded."
)
SOME_LACK = "That each message came once and in order doesn't follow, since this isn't so: "


class Premise(NamedTuple):
    """What is asked for, what is so, and whether that is enough."""

    asked: str
    found: str
    holds: bool

    def row(self) -> Row:
        """As a row of a report."""
        return {"premise": self.asked, "found": self.found, "holds": "yes" if self.holds else "no"}


def findings(verdict: str) -> str:
    """How many a verdict says there are."""
    count = verdict.rpartition(" ")[2]
    return "1 finding" if count == "1" else f"{count} findings"


def of_switch(verdict: str) -> str:
    """What is answered of the switch, in a sentence."""
    if verdict == CONFORMS:
        return "The switch conforms."
    if verdict == UNDECIDED:
        return "Nothing was shown of the switch."
    return f"The switch deviates: {findings(verdict)}."


def of_senders(verdict: str) -> str:
    """What is answered of the senders."""
    if verdict == CONFORMS:
        return "No sender left the law."
    if verdict == UNDECIDED:
        return "Nothing was shown of the senders."
    return f"Senders left the law: {findings(verdict)}."


def of_senders_alone(judged: Judged) -> str:
    """What a run says by which no switch was judged."""
    if judged.fault:
        return f"There is no verdict on the senders: {judged.fault}. No switch was judged."
    return f"{of_senders(judged.of_senders())} No switch was judged."


def given(options: Options) -> Iterator[str]:
    """The options with which no answer is exact."""
    for name in EXACT:
        if getattr(options, name):
            yield f"--{name} {getattr(options, name)}"


def apart_premise(options: Options, least: int | None) -> Premise:
    """Copies are near enough for receivers: `least` is what the tables leave of all links, in
    ns."""
    asked = "copies may be no further apart than the tables leave"
    if options.apart is None:
        return Premise(asked, "as they leave", True)
    leave = "not known" if least is None else f"{least} at least"
    found = f"--apart {options.apart}; what they leave is {leave}"
    return Premise(asked, found, least is not None and options.apart <= least)


def premises(admission: str, judged: Judged, options: Options, least: int | None) -> list[Premise]:
    """What has to be so, by the lines and the last one, by `check` and by the options."""
    lost = [counts.get("recorder-lost", 0) for counts in judged.skipped]
    exact = " ".join(given(options))
    switch = "one" if options.switch is None else f"--switch {options.switch}"
    answers = {LAW: judged.of_senders(), SWITCH: judged.of_switch(options.exercised)}
    found = [
        Premise("the tables are admitted", admission, admission == "ok"),
        Premise("there is one switch a side", switch, options.switch is None),
        *(Premise(words, verdict or judged.fault, verdict == CONFORMS)
          for words, verdict in answers.items()),
    ]  # fmt: skip
    for name, words in COUNTS.items():
        count = judged.counts.get(name)
        found.append(Premise(words, "-" if count is None else f"{name} {count}", count == 0))
    if lost:
        found.append(Premise("recorders lost nothing", f"{sum(lost)} lost", not any(lost)))
    start = "" if options.start is None else f"--from {options.start}"
    return found + [
        Premise("all is judged from the begin on", start or "no --from", not start),
        Premise("stamps and clocks are exact", exact or "no leeway was given", not exact),
        apart_premise(options, least),
    ]  # fmt: skip


def sentence(judged: Judged, options: Options, all_premises: list[Premise]) -> str:
    """What a run says: of senders, of the switch, and where both are right what follows, or what is
    lacking for it."""
    if judged.fault:
        return f"There is no verdict: {judged.fault}."
    senders, switch = judged.of_senders(), judged.of_switch(options.exercised)
    words = f"{of_senders(senders)} {of_switch(switch)}"
    if switch != CONFORMS or senders != CONFORMS:
        return words
    lacks = [f"{each.asked} ({each.found})" for each in all_premises if not each.holds]
    return f"{words} " + (f"{SOME_LACK}{'; '.join(lacks)}." if lacks else ALL_MET)


def verdict_of_switch(report: Row) -> str:
    """What is answered of the switch alone."""
    return report.get("of_senders", {}).get("switch", report["verdict"])


def answers_table(report: Row) -> str:
    """Both answers as a table of a cover; nothing where senders weren't judged."""
    if "of_senders" not in report:
        return ""
    told = report["of_senders"]
    rows = [
        ("Switch", verdict_of_switch(report) or report["fault"] or "not judged"),
        ("Senders", told["verdict"] or told["fault"]),
        ("Both", told["says"]),
    ]
    return table_of("Answers", ("of", "answer"), rows)


def said_of_both(report: Row) -> str:
    """What both say, for the head of a page; nothing where senders weren't judged."""
    if "of_senders" not in report:
        return ""
    return f'<p class="muted" id="both">{escape(report["of_senders"]["says"])}</p>'
