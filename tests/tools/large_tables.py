#!/usr/bin/python3
"""Writes tables that are as long as one wants.

    tests/tools/large_tables.py KIND ROWS FOLDER

KIND is `chain`, of so many switches in a row; `doubled`, of so many cables between 24 switches;
`odd`, of so many messages on a link, each of another period with nine digits behind the point;
`even`, of as many that have all one period; `unsent`, of so many rows of a message that goes
nowhere; or `taps`, of so many interfaces. FOLDER gets the tables of an interface document, or
taps.csv.
"""
from __future__ import annotations

import os
import sys
from typing import Callable, Iterator

Lines = Iterator[str]
Tables = dict[str, Lines]

CABLES = "switch,port,switch,port,rate"
OF_ONE = "system,port,id,partition,rate"
OF_SEVERAL = "system,switch,port,id,partition,rate"
MESSAGES = "message,vl,from,to,every_ms,bytes,within_us,priority,port,kind"
MESSAGE = "m,1,a,b,20,64,,low,1000,sampling"
TAPS = "interface,side,port,direction"
MOST_SWITCHES = 24


def over(cables: Iterator[str], last: str) -> Tables:
    """Tables of two systems, at the first and at the last switch."""
    return {
        "cables": iter((CABLES, *cables)),
        "systems": iter((OF_SEVERAL, "a,s0,3,1,1,100", f"b,{last},3,2,1,100")),
        "messages": iter((MESSAGES, MESSAGE)),
    }


def between(messages: Iterator[str]) -> Tables:
    """Tables of two systems at one switch, one of which has a fault: so nothing is made of them."""
    return {
        "systems": iter((OF_ONE, "a,1,1,1,100", "b,25,2,1,100")),
        "messages": iter((MESSAGES, *messages)),
    }


def chain(rows: int) -> Tables:
    """So many switches, each joined to the next."""
    return over((f"s{n},1,s{n + 1},2,100" for n in range(rows - 1)), f"s{rows - 1}")


def doubled(rows: int) -> Tables:
    """So many cables, which join the same switches again and again."""
    pairs = ((n % MOST_SWITCHES, (n + 1) % MOST_SWITCHES) for n in range(rows))
    return over((f"s{one},1,s{other},2,100" for one, other in pairs), "s1")


def odd(rows: int) -> Tables:
    """So many periods that have no small number in common."""
    pairs = ((n, f"{100_001 + 2 * n}.{(n * 829_348_951 + 1) % 10**9:09d}") for n in range(rows))
    return between(f"m{n},1,a,b,{period},64,,low,{1000 + n},sampling" for n, period in pairs)


def even(rows: int) -> Tables:
    """So many messages of one period."""
    return between(f"m{n},1,a,b,100001,64,,low,{1000 + n},sampling" for n in range(rows))


def unsent(rows: int) -> Tables:
    """So many rows of one message, without a receiver."""
    return between("m,1,a,,20,64,,low,1000,sampling" for _ in range(rows))


def taps(rows: int) -> Tables:
    """So many interfaces that are left out."""
    return {"taps": iter((TAPS, *(f"eth{n},,,none" for n in range(rows))))}


KINDS: dict[str, Callable[[int], Tables]] = {
    each.__name__: each for each in (chain, doubled, odd, even, unsent, taps)
}


def main() -> None:
    """Writes the tables."""
    kind, rows, folder = sys.argv[1:]
    for name, lines in KINDS[kind](int(rows)).items():
        with open(os.path.join(folder, f"{name}.csv"), "w", encoding="ascii") as file:
            file.writelines(f"{line}\n" for line in lines)


main()
