"""The numbers of a report on a recorded switch, as rows."""
from __future__ import annotations

from collections import Counter
from typing import Mapping, Sequence

from afdx_tools.config import Config
from afdx_tools.conformance.grouping import firsts
from afdx_tools.conformance.judging import Deviation, Judged
from afdx_tools.conformance.losses import Losses
from afdx_tools.conformance.measuring import Measured, Named, Stream
from afdx_tools.conformance.recorded import Stood
from afdx_tools.faults import LONGEST_NAME, cut
from afdx_tools.known import findings, kinds
from afdx_tools.replay.checked import Checked
from afdx_tools.report.where import utc
from afdx_tools.tables import Row, percent

LATE_SHARE = 1000  # a rank is a whole number of so many parts
HALF, MOST = 500, 990


def rank(latencies: Sequence[int], share: int) -> int:
    """The least of ascending latencies that so many in a thousand don't exceed."""
    return latencies[-(-len(latencies) * share // LATE_SHARE) - 1]


def spread_of(latencies: Sequence[int]) -> Row:
    """How many frames were measured, and their latencies."""
    names = ("least_ns", "median_ns", "p99_ns", "greatest_ns")
    if not latencies:
        return {"frames": 0} | dict.fromkeys(names)
    ranks = latencies[0], rank(latencies, HALF), rank(latencies, MOST), latencies[-1]
    return {"frames": len(latencies)} | dict(zip(names, ranks))


class Numbers:
    """The rows of a recorded switch: measured, with what was found of each stream. `stood` says of
    recordings where the frames stand that findings name."""

    def __init__(
        self,
        config: Config,
        checked: Checked,
        judged: Judged,
        measured: Measured,
        stood: dict[tuple[bool, int], Stood] | None = None,
    ) -> None:
        self.config, self.checked, self.measured, self.judged = config, checked, measured, judged
        self.stood = stood
        self.pairs = {stream: measured.pairs(stream) for stream in measured.streams()}
        self.left_by = {stream: {pair.came for pair in pairs}
                        for stream, pairs in self.pairs.items()}  # fmt: skip
        self.found: dict[tuple[str, int | None, int], Counter[str]] = {}
        for each in judged.deviations:
            frame = self.frame_of(each)
            key = each.side, frame.vl if frame else None, each.port
            self.found.setdefault(key, Counter())[each.word] += 1

    def frame_of(self, deviation: Deviation) -> Named | None:
        """The frame that a line names, None where nothing was measured."""
        return self.measured.named[deviation.is_left].get(deviation.number)

    def streams(self) -> list[Row]:
        """A row for each stream: what came and left, what was found, what was measured of it beside
        bound and configured latency."""
        return [self.stream(stream) for stream in self.pairs]

    def stream(self, stream: Stream) -> Row:
        """A stream's row. Of several switches the bound is that of the judged one alone."""
        link, port = self.measured.links[stream.vl], self.measured.first + stream.port
        found = self.found.get((stream.side, stream.vl, stream.port), Counter())
        pairs = sorted((pair.latency, pair.left) for pair in self.pairs[stream])
        latencies = [latency for latency, _ in pairs]
        bound = self.checked.bound_of(link, port)
        spread = spread_of(latencies)
        greatest = spread["greatest_ns"]
        return {
            "link": stream.vl,
            "from": link.source,
            **self.config.keys_of(port),
            "system": self.measured.by_port[port].name,
            "side": stream.side,
            "priority": link.priority,
            "came": len(self.measured.came.get((stream.side, stream.vl), [])),
            "left": len(self.measured.left.get(stream, [])),
            **{word: found[word] for word in findings()},
            **spread,
            "greatest_line": pairs[-1][1] if pairs else None,
            "bound_ns": bound,
            "margin_ns": None if bound is None else link.latency_ns - bound,
            "configured_ns": link.latency_ns,
            "share": None if greatest is None else greatest / link.latency_ns,
        }

    def deviations(self) -> list[Row]:
        """A row for each line of the program, with the frame that it names, and with what the
        numbers say of that frame, or of those before the first finding of its stream."""
        rows = [self.deviation(each) for each in self.judged.deviations]
        losses = {stream: self.losses(stream) for stream in self.pairs
                  if (stream.side, stream.vl, stream.port) in self.found}  # fmt: skip
        for each, row in zip(self.judged.deviations, rows):
            stream = Stream(row["side"], row["link"], row["port"])
            if stream in losses:
                ports = self.ports_of(stream, each.number)
                row["by_numbers"] = losses[stream].words_of(each.is_left, each.number, ports)
        for row in firsts(rows):
            stream = Stream(row["side"], row["link"], row["port"])
            if stream in losses and not row["by_numbers"]:
                row["by_numbers"] = losses[stream].words_at(row["time_ns"])
        return rows

    def losses(self, stream: Stream) -> Losses:
        """What the numbers of a stream's frames say; what left and isn't whole says nothing."""
        damaged = {each.number for each in self.judged.deviations
                   if each.is_left and each.why != "no-arrival"}  # fmt: skip
        return Losses(self.measured, stream, self.pairs[stream], damaged)

    def ports_of(self, stream: Stream, line: int) -> list[int]:
        """The other ports by which a frame left that came."""
        return [other.port for other, came in self.left_by.items()
                if other != stream and other[:2] == stream[:2] and line in came]  # fmt: skip

    def deviation(self, each: Deviation) -> Row:
        """A line's row."""
        port = self.measured.by_port.get(self.measured.first + each.port)
        frame = self.frame_of(each)
        return {
            "what": each.word,
            "list": "LEFT" if each.is_left else "CAME",
            "line": each.number,
            "time_ns": frame.time if frame else None,
            "link": frame.vl if frame else None,
            "side": each.side,
            "port": each.port,
            "system": port.name if port else None,
            "reason": each.why or None,
            "by_ns": each.by,
            "by_numbers": "",
            **standing_of(self.stood, each.is_left, each.number),
        }

    def place_of(self, stream: Stream) -> Row:
        """A stream as columns of a row."""
        link, port = self.measured.links[stream.vl], self.measured.first + stream.port
        system = self.measured.by_port[port].name
        return {"link": stream.vl, "from": link.source, **self.config.keys_of(port),
                "system": system, "side": stream.side}  # fmt: skip

    def unseen(self) -> list[Row]:
        """A row for each stream that isn't judged, with what wasn't recorded of it."""
        lacks = {each: self.measured.lacks(each) for each in self.measured.all_streams()}
        return [{**self.place_of(each), "lacks": what} for each, what in lacks.items() if what]

    def idle(self) -> list[Row]:
        """A row for each idle stream: it is judged, no frame of it is explained, and it has no
        line. Of each how many frames came that could have left. After a fault nothing is known."""
        if self.judged.fault:
            return []
        rows = []
        for stream in self.measured.all_streams():
            has_line = (stream.side, stream.vl, stream.port) in self.found
            if not (has_line or self.measured.lacks(stream)) and self.measured.is_idle(stream):
                came = len(self.measured.came.get((stream.side, stream.vl), []))
                rows.append({**self.place_of(stream), "came": came})
        return rows


def standing_of(
    stood: Mapping[tuple[bool, int], Stood] | None, is_left: bool, number: int
) -> Row:
    """Where a recording has a frame of what came or of what left; nothing of lists."""
    if stood is None:
        return {}
    frame = stood.get((is_left, number))
    if frame is None:
        return dict.fromkeys(("interface", "name", "stamp"))
    name = cut(frame.name, LONGEST_NAME) or None
    return {"interface": frame.interface, "name": name, "stamp": utc(frame.stamp)}


def totals_of(judged: Judged, streams: Sequence[Row], idle: Sequence[Row] = ()) -> Row:
    """The sums: the counts of the last line, each kind of finding, the frames of streams. A program
    whose last line doesn't say how many streams are idle has them counted here."""
    words = Counter(each.word for each in judged.deviations)
    counts = {name.replace("-", "_"): count for name, count in judged.counts.items()}
    counts = {**counts, "idle": judged.counts.get("idle", len(idle))} if counts else counts
    told = {word: words[word] for word in kinds()}
    sums = {name: sum(row[name] for row in streams) for name in ("left", "frames")}
    return {**counts, **told, "of_streams": sums["left"], "measured": sums["frames"]}


def account_words(totals: Row) -> str:
    """How much of the account was tested."""
    if not totals.get("explained"):
        return "nothing was shown, as no frame is explained"
    uncertain, explained = totals["uncertain"], totals["explained"]
    frames = "1 explained frame" if explained == 1 else f"{explained:,} explained frames"
    if not uncertain:
        return f"no answer was left open beside {frames}"
    share = percent(uncertain / explained)
    answers = "1 answer was" if uncertain == 1 else f"{uncertain:,} answers were"
    words = f"{answers} left open beside {frames} ({share}), where both "
    words += "would have been right"
    return words + ("; so little was shown" if 2 * uncertain > explained else "")


def no_verdict(report: Row) -> str:
    """What findings are that stand before a fault."""
    fault = report["fault"]
    count = len(report["deviations"]) + len(report.get("sender_deviations", ()))
    if not fault or not count:
        return ""
    words = "the finding before it is" if count == 1 else f"the {count:,} findings before it are"
    words += " no verdict"
    if fault.startswith("recording TimeBack"):
        return words + ": with a greater --reorder frames come in that seem missing there."
    if fault.startswith("recording Lossy"):
        return words + ": each may be of a frame that the recorder lost."
    if fault.startswith("recording Absent"):
        return words + ": an option names an interface that isn't in the recording."
    return words + "."
