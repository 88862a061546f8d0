"""The systems that sent what came to a recorded switch, as rows of a report: what was found of each
link of theirs, and of which frames."""
from __future__ import annotations

from collections import Counter, defaultdict
from typing import Iterator, Mapping, NamedTuple, Sequence

from afdx_tools.conformance.judging import Amiss, Judged
from afdx_tools.conformance.measuring import SIDES, Measured
from afdx_tools.conformance.numbers import standing_of
from afdx_tools.conformance.recorded import Stood
from afdx_tools.config import Link, System
from afdx_tools.known import of_senders
from afdx_tools.tables import Row, link_words

NAMES = {  # what frames with a finding are called, where it isn't the finding's word
    "number": "with another number",
    "soon": "too soon",
    "differs": "unlike their copies",
    "apart": "too long behind their copies",
    "single": "without a copy",
}


class Source(NamedTuple):
    """A link, and the port of a system that sent it, or sent frames that name it."""

    vl: int | None
    port: int


class Senders:
    """The sources of a recorded switch. `stood` says of recordings where the frames stand that
    lines name."""

    def __init__(
        self, measured: Measured, judged: Judged, stood: Mapping[tuple[bool, int], Stood] | None
    ) -> None:
        self.measured, self.judged, self.stood = measured, judged, stood
        self.found: dict[Source, list[Amiss]] = defaultdict(list)
        for each in judged.amiss:
            self.found[Source(self.vl_of(each), each.port)].append(each)

    def vl_of(self, each: Amiss) -> int | None:
        """The link that a frame names; None where nothing was measured."""
        frame = self.measured.named[False].get(each.number)
        return frame.vl if frame else None

    def networks_of(self, link: Link) -> str:
        """The sides on which what a link's sender sends was recorded."""
        port = link.port - self.measured.first
        return "".join(side for side in SIDES if self.measured.taps.has(side, port, False))

    def own(self) -> Iterator[Link]:
        """The links that a system of the switch sends, and of which that was recorded."""
        for _, link in sorted(self.measured.links.items()):
            if isinstance(self.measured.by_port[link.port], System) and self.networks_of(link):
                yield link

    def sources(self) -> list[Row]:
        """A row for each source: how many of its frames have no line, and how many of each kind of
        line it has. Behind those of the tables come systems with frames of links of others."""
        links = {Source(link.vl, link.port - self.measured.first): link for link in self.own()}
        rows = [self.source(source, self.frames_of(link), self.networks_of(link))
                for source, link in links.items()]  # fmt: skip
        others = sorted((each for each in self.found if each not in links), key=str)
        return rows + [self.of_none(source) for source in others]

    def frames_of(self, link: Link) -> int:
        """How many frames of a link its sender sent, on both sides together."""
        return sum(len(self.measured.came.get((side, link.vl), ())) for side in SIDES)

    def of_none(self, source: Source) -> Row:
        """The row of a system that sent frames of a link that isn't its own: these have all a
        line."""
        lines = self.found[source]
        networks = "".join(sorted({each.side for each in lines}))
        return self.source(source, len({each.number for each in lines}), networks)

    def source(self, source: Source, frames: int, networks: str) -> Row:
        """A source's row, which has so many frames."""
        lines = self.found.get(source, [])
        amiss = len({each.number for each in lines})
        return {
            "link": source.vl,
            **self.place_of(source.port),
            "networks": networks,
            "frames": frames,
            "sent": frames - amiss,
            "amiss": amiss,
            **counts_of(lines),
        }

    def place_of(self, port: int) -> Row:
        """A system as columns of a row."""
        number = self.measured.first + port
        end = self.measured.by_port.get(number)
        return {"system": end.name if end else None, **self.measured.config.keys_of(number)}

    def lines(self) -> list[Row]:
        """A row for each line, with the frame that it names."""
        return [self.line(each) for each in self.judged.amiss]

    def line(self, each: Amiss) -> Row:
        """A line's row."""
        frame = self.measured.named[False].get(each.number)
        place = self.place_of(each.port)
        return {
            "what": each.word,
            "line": each.number,
            "time_ns": frame.time if frame else None,
            "link": frame.vl if frame else None,
            "side": each.side,
            "port": each.port,
            "system": place["system"],
            "reason": each.why or None,
            "by_ns": each.by,
            "wanted": each.wanted,
            **standing_of(self.stood, False, each.number),
        }


def counts_of(lines: Sequence[Amiss]) -> Row:
    """How many lines there are of each kind, by how many ns at most; and of what words."""
    row: Row = {}
    for word, more in of_senders().items():
        found = [each for each in lines if each.word == word]
        row[word] = len(found)
        if more == "NS":
            times = [each.by for each in found if each.by is not None]
            row[f"{word}_by_ns"] = max(times, default=None)
    return {**row, "reasons": dict(Counter(each.why for each in lines if each.why))}


def totals_of(judged: Judged) -> Row:
    """The sums: the counts of the last line that are of senders, each kind of line."""
    words = Counter(each.word for each in judged.amiss)
    names = ("sent", "cut", "alone")
    counts = {name: judged.counts[name] for name in names if name in judged.counts}
    return {**counts, **{word: words[word] for word in of_senders()}}


def source_words(row: Row) -> str:
    """A source and what was found of it, in words."""
    said = []
    for word in filter(row.get, of_senders()):
        by = row.get(f"{word}_by_ns")
        words = f"{row[word]:,} {NAMES.get(word, word)}"
        words += f" ({', '.join(row['reasons'])})" if of_senders()[word] == "WORD" else ""
        said.append(words + ("" if by is None else f", by up to {by:,} ns"))
    return f"link {link_words(row)} of {row['system']} at port {row['port']}: {'; '.join(said)}"
