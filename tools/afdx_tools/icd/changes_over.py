"""What is another in the tables of several switches a side than in earlier ones, and why."""
from __future__ import annotations

from afdx_tools.icd.cascade import Cascade, Values
from afdx_tools.icd.changes import Comparison, row_lines
from afdx_tools.icd.making import Bounds
from afdx_tools.icd.sharing import allowed
from afdx_tools.solving import Bounds as BoundsOfOne
from afdx_tools.solving import Worst

OF_CABLE = ("port", "rate")


class ComparisonAt(Comparison):
    """An earlier and a later state of a switch's tables."""

    def __init__(
        self, cascade: Cascade, old: dict, new: dict, bounds: BoundsOfOne, limited: set[int]
    ) -> None:
        super().__init__(cascade.document, old, new, bounds)
        self.name, self.limited = new["name"], limited

    def why(self, vl: int, key: str) -> str:
        """Why a key of a row that is solved has another value."""
        source = self.new.links[vl]["from"]
        if key == "jitter_us":
            is_first = source in self.new.systems
            return self.of_sender(source) if is_first else f"jitter and latency at {source}"
        if key == "skew_us":
            return "as the latencies on its way"
        if vl in self.limited:
            return "its share of what the table allows"
        return self.why_bound(self.bounds.latencies[vl], "it can take {0} ns to {1}")

    def lines(self) -> list[str]:
        """A line for each thing that is another."""
        old, new = self.old.neighbours, self.new.neighbours
        lines = row_lines(old, new, OF_CABLE, lambda name: f"cable to {name}")
        lines += [line for line in super().lines() if line != "nothing changed"]
        return [f"{self.name}: {line}" for line in lines]


def change_lines(cascade: Cascade, old: list[dict], values: Values) -> list[str]:
    """A line for each thing that is another than in the old tables; one if nothing is."""
    before = {tables["name"]: tables for tables in old}
    after = {switch: cascade.tables(switch, values) for switch in cascade.switches}
    lines = row_lines(before, after, (), lambda name: f"switch {name}")
    bounds = Bounds(cascade, values)
    limited = {
        place
        for messages in cascade.document.messages.values()
        for receiver, _ in allowed(messages)
        for place in cascade.places_to(receiver)
    }
    for switch in filter(before.get, after):
        worst = {vl: most for (at, vl), most in bounds.latencies.items() if at == switch}
        here = BoundsOfOne(worst, bounds.buffers.get(switch, Worst(0, 0)))
        vls = {vl for at, vl in limited if at == switch}
        lines += ComparisonAt(cascade, before[switch], after[switch], here, vls).lines()
    return lines or ["nothing changed"]
