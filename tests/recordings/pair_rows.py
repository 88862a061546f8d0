"""Pairs of recordings spelled out byte by byte, in hexadecimal, and what a run reports of each: the
order of arrivals, and of what is skipped."""
from __future__ import annotations

from typing import NamedTuple

from edge_rows import ARRIVAL, block, option
from recorded_pair import PairOptions
from recording_rows import ACCEPT, CUSTOM, F1, G1, H1, H2, IL, OK, ONE, PL, SL, US, ZERO, E, R, Z

FOREIGN = "ff" * 6 + H1[12:]
OF_B = f"F 0 B 1 {H1}"
FIVE, SIX, EIGHT = "05000000", "06000000", "08000000"  # us
TOLD_OF_B = "V 1 B accept / D 1 6720 B 3 / M 6720 s3 1 68656c6c6f"
CUT = R(FIVE, H1[:80], "28000000 3c000000")
AS_READ = PairOptions(reorder=0)


class PairRow(NamedTuple):
    """Two recordings, and what is reported of them, as in a row of one."""

    name: str
    a: str
    b: str
    told: str = ".."
    fault: str = ""  # without `recording`
    options: PairOptions = PairOptions()
    listed: str = ".."
    summary: str = ".."
    skipped: str = ".."

    def pair(self) -> tuple[bytes, bytes]:
        """The recordings."""
        return bytes.fromhex(self.a), bytes.fromhex(self.b)


def listed(
    name: str, a: str, b: str, lines: str, options: PairOptions = PairOptions()
) -> PairRow:
    """A row of which the list is reported."""
    return PairRow(name, a, b, options=options, listed=lines)


def at_places(*words: str) -> PairOptions:
    """Options that say where interfaces are."""
    return PairOptions(words)


def merged_rows() -> list[PairRow]:
    """The order of arrivals."""
    twice, same = F1 + R(FIVE, H2), F1 + R(ZERO, H2)
    later = f"{PL} {R(SIX, H1)} {R(EIGHT, H2)}"
    a_late, b_late = PL + R(FIVE, H1), PL + R(ONE, H1) + R("09000000", H2)
    shown = f"F 0 A 1 {H1} / {OF_B}"
    return [
        listed("equal moments, in turn", twice, twice, f"{shown} / {listed_at(5000)}"),
        listed(
            "equal moments: all of A's first",
            same,
            same,
            f"{ARRIVAL} / F 0 A 2 {H2} / {OF_B} / F 0 B 2 {H2}",
        ),
        listed(
            "B comes first and ends first",
            later,
            F1,
            f"{OF_B} / F 6000 A 1 {H1} / F 8000 A 2 {H2}",
        ),
        listed(
            "in turn, B first", a_late, b_late, f"{OF_B} / F 4000 A 1 {H1} / F 8000 B 2 {H2}"
        ),
        PairRow("A has no number", PL, G1, TOLD_OF_B, listed=OF_B),
        PairRow("B has no number", F1, SL, OK, listed=ARRIVAL),
        PairRow("neither has a number", PL, SL + IL, "", "", listed="", summary="lines 0 .."),
    ]


def listed_at(time: int) -> str:
    """The lines of H2, from both, at a time in ns."""
    return f"F {time} A 2 {H2} / F {time} B 2 {H2}"


def told_rows() -> list[PairRow]:
    """What a run reports, and counts."""
    return [
        PairRow(
            "a frame and its copy",
            F1,
            G1,
            f"{ACCEPT} / V 1 B accept / D 1 6720 A 3 / M 6720 s3 1 68656c6c6f / D 1 6720 B 3"
            " / X 6720 s3 1 redundant",
            listed=f"{ARRIVAL} / {OF_B}",
            summary="lines 2 accepted 2 dropped 0 ..",
            skipped=".. recorder-lost 0 claimed 2 ..",
        ),
        PairRow(
            "A ends first",
            F1,
            f"{PL} {R(SIX, H1)} {R(EIGHT, H2)}",
            f"{ACCEPT} / V 1 B accept / D 1 6720 A 3 / M 6720 s3 1 68656c6c6f / V 2 B drop"
            " wrong-port / D 1 12720 B 3 / X 12720 s3 1 redundant",
            options=at_places("0=B:1"),
            listed=f"{ARRIVAL} / F 6000 B 1 {H1} / F 8000 B 1 {H2}",
            summary="lines 3 accepted 2 dropped 1 ..",
            skipped=".. claimed 1 ..",
        ),
    ]


def reading_rows() -> list[PairRow]:
    """Skipped numbers stand where they are read."""
    a = SL + IL + CUSTOM + E(US, H1) + CUSTOM + E("05401e18", H2)
    b = PL + R(ZERO, FOREIGN) + R(ONE, H1) + R("02000000", FOREIGN)
    return [
        PairRow(
            "skipped numbers, where they are read",
            a,
            b,
            options=AS_READ,
            listed=f"# no-frame 1 / # not-afdx 1 / {ARRIVAL} / # no-frame 3 / F 1000 B 1 {H1}"
            f" / # not-afdx 3 / F 5000 A 2 {H2}",
            summary="lines 7 accepted 3 ..",
            skipped="no-frame 2 left-out 0 not-afdx 2 unknown-sender 0 no-network 0"
            " before-origin 0 recorder-lost 0 claimed 3 ..",
        ),
        PairRow(
            "what is skipped before a fault of B's head",
            SL + IL + CUSTOM + E(US, H1),
            PL + R(ZERO, FOREIGN) + CUT,
            "",
            "Cut 2 B",
            listed="# no-frame 1 / # not-afdx 1",
        ),
        PairRow(
            "what is lost, of both",
            G1 + Z(ZERO, "07000000", ONE),
            G1 + Z(ZERO, "25000000", "02000000"),
            skipped=".. recorder-lost 47 claimed 2 ..",
        ),
        PairRow(
            "no more is lost than 2^64 - 1",
            G1 + block(5, ZERO * 3 + option(5, "ff" * 8)),
            G1 + Z(ZERO, ONE, ZERO),
            skipped=f".. recorder-lost {2**64 - 1} ..",
        ),
    ]
