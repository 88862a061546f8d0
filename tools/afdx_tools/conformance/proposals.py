"""Which options of `afdx conform` a recording itself asks for, each with what was measured. They
are the least that its stamps need: what the recorders' maker says may be more."""
from __future__ import annotations

import math
from typing import NamedTuple, Sequence

from afdx_tools.conformance.measuring import Measured
from afdx_tools.conformance.options import AMOUNTS, Options
from afdx_tools.conformance.stamps import (
    Line,
    Offset,
    line_row,
    lines_of,
    offset_row,
    offsets_of,
)
from afdx_tools.tables import Row

USUAL_REORDER, MOST_REORDER = 10_000, 100_000  # of --reorder
BILLION = 1_000_000_000


class Proposal(NamedTuple):
    """An option with the least value that the recording asks for, and why."""

    option: str
    value: int
    reason: str


def half(ns: int) -> int:
    """What two stamps share."""
    return -(-ns // 2)


def at_line(line: Line) -> str:
    """A line in words."""
    return f"{'left' if line.is_left else 'came in'} at {line.side}:{line.port}"


def way(offset: Offset) -> str:
    """A way through the switch in words."""
    return f"from {offset.side}:{offset.came} to {offset.side}:{offset.left}"


def shift(ns: int) -> str:
    """How the stamps of what left are set right by so many ns."""
    return f"editcap -t {ns / BILLION:.9f} on the recording of what left"


def of_steps(lines: Sequence[Line]) -> Proposal | None:
    """Half of the longest step: a stamp that is cut is off by that at most, beside its middle."""
    known = [line for line in lines if line.step is not None]
    worst = max(known, key=lambda line: line.step or 0, default=None)
    if worst is None or (worst.step or 0) < 2:
        return None
    step = worst.step or 0
    reason = f"stamps of what {at_line(worst)} are multiples of {step} ns"
    return Proposal("--slack", half(step), reason)


def of_bunches(lines: Sequence[Line]) -> Proposal | None:
    """Half of that by which frames in a row are nearer to one another than the line lets them."""
    worst = max(lines, key=lambda line: line.bunched, default=None)
    if worst is None or worst.bunched <= 0:
        return None
    reason = f"frames in a row that {at_line(worst)} are stamped {worst.bunched} ns nearer to one "
    reason += "another than they can go over the line"
    return Proposal("--slack", half(worst.bunched), reason)


def is_behind(offset: Offset) -> bool:
    """Most frames left before they can have."""
    return not offset.slope and offset.spread[2] < 0


def earliest(offsets: Sequence[Offset], are_behind: bool) -> Offset | None:
    """Where a frame left the furthest before it can have, by a clock that is behind, or by one that
    is not; None where none did."""
    steady = [each for each in offsets if not each.slope and is_behind(each) == are_behind]
    worst = min(steady, key=lambda offset: offset.spread[0], default=None)
    return None if worst is None or worst.spread[0] >= 0 else worst


def of_early_frames(offsets: Sequence[Offset]) -> Proposal | None:
    """Half of that by which a frame left before it can have, where most frames did not."""
    worst = earliest(offsets, False)
    if worst is None:
        return None
    early = -worst.spread[0]
    reason = f"a frame seems to leave {early} ns before it can have, {way(worst)}"
    return Proposal("--slack", half(early), reason)


def of_a_clock_behind(offsets: Sequence[Offset], is_of_last_bits: bool) -> Proposal | None:
    """That by which frames left before they can have, where most did: a clock is behind, or stamps
    that are taken for those of last bits are of first ones."""
    worst = earliest(offsets, True)
    if worst is None:
        return None
    early, median = -worst.spread[0], worst.spread[2]
    reason = f"the clock of what left is behind that of what came, {way(worst)}: frames seem "
    reason += f"to leave up to {early} ns before they can have, half of them {-median} ns or "
    reason += f"more. Better set it right: {shift(-median)}"
    if worst.by_first_bits >= 0 and is_of_last_bits:
        reason += "; or do cards stamp first bits there? Then say --stamps end-start instead"
    return Proposal("--between", early, reason)


def of_clocks_that_part(offsets: Sequence[Offset]) -> Proposal | None:
    """That by which frames seem to leave too early or too late, where left less came grows or
    shrinks with time."""
    parting = [offset for offset in offsets if offset.slope]
    worst = max(parting, key=amiss, default=None)
    if worst is None or amiss(worst) <= 0:
        return None
    reason = f"the recorders' clocks go apart, {way(worst)}, so that frames seem to leave up to "
    reason += f"{amiss(worst)} ns too early or too late. Better record by one clock"
    return Proposal("--between", amiss(worst), reason)


def amiss(offset: Offset) -> int:
    """By how much a frame seems to leave too early or too late, at most."""
    return max(-offset.spread[0], offset.most_over)


def slack(lines: Sequence[Line], offsets: Sequence[Offset]) -> Proposal | None:
    """What stamps need; None where there are none."""
    if not offsets and not any(line.step for line in lines):
        return None
    found = of_steps(lines), of_bunches(lines), of_early_frames(offsets)
    if any(found):
        return max(filter(None, found), key=lambda each: each.value)
    reason = "frames in a row stand as far apart as they take on the line"
    if all(offset.spread[0] >= 0 for offset in offsets):
        reason += ", and none leaves before it can have"
    if all(line.step is None for line in lines):
        return Proposal("--slack", 0, f"{reason}; but there are few frames to tell by")
    return Proposal("--slack", 0, f"stamps have steps of 1 ns, {reason}")


def between(
    offsets: Sequence[Offset], is_of_last_bits: bool, slack_ns: int, given: int | None
) -> Proposal | None:
    """What recorders that are apart need beside so much slack; None where they aren't, but for an
    option that was given."""
    found = of_a_clock_behind(offsets, is_of_last_bits), of_clocks_that_part(offsets)
    worst = max(filter(None, found), key=lambda each: each.value, default=None)
    if worst is not None and worst.value > 2 * slack_ns:
        return worst._replace(value=worst.value - 2 * slack_ns)
    if not given or not offsets or any(amiss(offset) > 2 * slack_ns for offset in offsets):
        return None
    reason = "no frame seems to leave too early or too late by more than the slack"
    return Proposal("--between", 0, reason)


def drift(offsets: Sequence[Offset]) -> Proposal | None:
    """The greatest slope; None where none can be told."""
    known = [offset for offset in offsets if offset.slope is not None]
    worst = max(known, key=lambda offset: abs(offset.slope or 0), default=None)
    if worst is None:
        return None
    slope = worst.slope or 0
    if not slope:
        reason = "left less came doesn't grow or shrink with time: the recorders have one clock. "
        reason += "The switch's own isn't in a recording: for it say 100, or what its maker says"
        return Proposal("--drift", 0, reason)
    reason = f"left less came {'grows' if slope > 0 else 'shrinks'} by {abs(slope):.1f} ns each "
    reason += f"ms, {way(worst)}: the recorders' clocks go apart"
    return Proposal("--drift", math.ceil(abs(slope)), reason)


def inner(offsets: Sequence[Offset]) -> Proposal | None:
    """By how much frames are inside for longer than their latency, where more than half are."""
    most = [offset for offset in offsets if 2 * offset.over > offset.frames and not offset.slope]
    worst = max(most, key=lambda offset: offset.most_over, default=None)
    if worst is None:
        return None
    reason = f"{worst.over} of {worst.frames} frames are inside for longer than their latency, "
    reason += f"{way(worst)}, by up to {worst.most_over} ns: the switch takes so long, or the "
    reason += f"clock of what left is ahead. Then set that right: {shift(-worst.spread[0])}; or "
    reason += f"say --between {worst.most_over} instead"
    return Proposal("--inner", worst.most_over, reason)


def reorder(back: int | None, given: int | None) -> Proposal | None:
    """How far back frames stand, where that is further than the program looks."""
    if back is None or back <= (USUAL_REORDER if given is None else given):
        return None
    reason = f"a frame stands behind {back:,} frames with later stamps"
    if back > MOST_REORDER:
        reason += ", or more: sort the file, reordercap IN OUT"
    return Proposal("--reorder", min(back, MOST_REORDER), reason)


def too_much(proposal: Proposal) -> str:
    """What is said of a value that the option doesn't take."""
    name = proposal.option.removeprefix("--")
    most = AMOUNTS[name][0] if name in AMOUNTS else MOST_REORDER
    return f"; the option takes {most} at most" if proposal.value > most else ""


def given_of(options: Options, option: str) -> int | None:
    """The value that was given."""
    return getattr(options, option.removeprefix("--"))


class Proposals:
    """The options that a recording asks for, and what was measured for them. `resolution` is that
    of the stamps of what came and what left, in ns, as the recording says it, `back` how far frames
    stand back in it."""

    def __init__(
        self, measured: Measured, resolution: dict[bool, int], back: int | None = None
    ) -> None:
        self.options = measured.options
        self.lines = lines_of(measured, resolution)
        self.offsets = offsets_of(measured)
        is_of_last_bits = not self.options.recorders.are_starts(True)
        off = slack(self.lines, self.offsets)
        found = (
            off,
            between(self.offsets, is_of_last_bits, off.value if off else 0, self.options.between),
            drift(self.offsets),
            inner(self.offsets),
            reorder(back, self.options.reorder),
        )
        self.found = [each for each in found if each]

    def tables(self) -> Row:
        """The tables of a report: options, and what was measured for them."""
        return {
            "options": self.rows(),
            "stamps": [line_row(line) for line in self.lines],
            "offsets": [offset_row(offset) for offset in self.offsets],
        }

    def rows(self) -> list[Row]:
        """A row for each option."""
        return [
            {
                "option": each.option,
                "value": each.value,
                "given": given_of(self.options, each.option),
                "reason": each.reason + too_much(each),
            }
            for each in self.found
        ]


def option_words(row: Row) -> str:
    """A row in words."""
    given = row["given"] or 0
    words = f"{row['option']} {row['value']}"
    if given == row["value"]:
        words += " (as given)"
    elif given:
        words += f" ({given} was given{', which is more' if given > row['value'] else ''})"
    return f"{words}: {row['reason']}"
