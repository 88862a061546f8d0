"""Pass or fail of a run by criteria, each a count that has to be 0."""
from __future__ import annotations

import argparse
from typing import Callable, Sequence

from afdx_tools.faults import shown
from afdx_tools.tables import Row

FAILED = 6  # the status of a run that ended well and failed by a criterion
CRITERIA = {
    "silent": "silences of networks, systems or links",
    "contradicted": "frames whose own address names the other network",
    "clock": "senders whose copies show that the clocks are apart",
    "twice": "messages that were delivered twice",
    "late": "copies that left later than their link's configured latency",
    "full-buffer": "copies that were lost to a full buffer",
    "too-old": "copies that were dropped for their age",
    "dropped": "frames that a switch dropped",
    "unequal": "frames that came on one side alone",
    "missing": "sequence numbers that were skipped",
    "refused": "copies that a receiver dropped, redundant ones apart",
    "skew": "links with more skew than SkewMax",
    "jitter": "links and sides with more jitter than in the table",
    "first-number": "links and sides whose first number isn't 0",
    "recorder-lost": "frames that the recorder itself lost",
    "left-out": "recorded frames that were left out",
    "unused": "interfaces that were named and that the recording doesn't have",
    "claimed": "frames of which only their own addresses say where they came in",
}
OF_SWITCHES = {  # of a recorded switch, by the last line of `conform`
    "open": "frames that may have left behind the end",
    "uncertain": "answers of the account that were left open",
    "left-out": "lines and frames that were passed over",
    "unseen": "links at output ports that weren't recorded",
    "idle": "links at recorded output ports of which nothing was shown",
}
LOST = ("full-buffer", "too-old", "missing")  # what `lost` stands for: sent, and gone for good


def criteria_among(known: Sequence[str]) -> Callable[[str], list[str]]:
    """The type of the word of --fail-on: criteria with commas between them."""

    def criteria_of(text: str) -> list[str]:
        words: set[str] = set()
        for word in text.split(","):
            if word not in known and word != "lost":
                raise argparse.ArgumentTypeError(f"{word} is none of {', '.join(known)}, lost")
            words |= set(LOST) if word == "lost" else {word}
        return [word for word in known if word in words]

    return criteria_of


def add_words(parser: argparse.ArgumentParser, of_switches: bool = False) -> None:
    """Teaches a parser --fail-on, with the criteria of recorded switches too where it judges such,
    and --junit."""
    known = list(CRITERIA | OF_SWITCHES if of_switches else CRITERIA)
    told = f"status {FAILED} where one of these isn't 0, with commas: {', '.join(known)}; "
    told += f"lost stands for {', '.join(LOST)}"
    told += f"; with --conform one of {', '.join(OF_SWITCHES)}" if of_switches else ""
    parser.add_argument(
        "--fail-on", type=criteria_among(known), default=[], metavar="WORDS", help=told
    )
    parser.add_argument(
        "--junit", metavar="FILE", help="write the run and each criterion as a JUnit test case"
    )


def failure_of(totals: Row, word: str) -> str:
    """The count of a criterion that isn't met, or that the report doesn't have; else nothing."""
    count = totals.get(word.replace("-", "_"))
    if count is None:
        return "no count of"
    return f"{count}" if count else ""


def places_of(totals: Row, word: str) -> str:
    """How many of these there are at which of several switches; nothing where that isn't known."""
    found = totals.get("at_switches")
    places = found.get(word.replace("-", "_")) if isinstance(found, dict) else None
    if not isinstance(places, dict) or not places:
        return ""
    return f" ({', '.join(shown(f'{count} at {name}') for name, count in places.items())})"


def judged(totals: Row | None, words: Sequence[str]) -> list[str]:
    """The criteria that aren't met, each with its count."""
    if totals is None:
        return []
    found = [(failure_of(totals, word), word) for word in words]
    return [f"{count} {word}{places_of(totals, word)}" for count, word in found if count]


def status_of(status: int, unmet: Sequence[str]) -> int:
    """The status of a run with unmet criteria: that of the program, if it has one."""
    return status or (FAILED if unmet else 0)
