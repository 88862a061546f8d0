"""Where the interfaces of a recording were plugged in: the table of taps, and which row is that of
which interface."""
from __future__ import annotations

from dataclasses import dataclass, field
from typing import NamedTuple

from afdx_tools.faults import LONGEST_NAME, Refused, cut, shown
from afdx_tools.recordings.interfaces import Interface
from afdx_tools.spreadsheets.cells import Cells
from afdx_tools.spreadsheets.sheets import Row, read_sheet

COLUMNS = dict.fromkeys(("interface", "side", "port", "direction"), True) | {"switch": False}
SIDES = {0x20: "A", 0x40: "B"}  # by the last byte of a source address
IN, OUT, NONE = "in", "out", "none"


class Place(NamedTuple):
    """A side, and a port of its switch; of several switches also which one it is at."""

    side: str
    port: int
    switch: str = ""

    def __str__(self) -> str:
        return f"{self.side} {self.switch}".rstrip() + f":{self.port}"


@dataclass(frozen=True)
class Tap:
    """A row of the table: an interface by its name, its place (None for `none`), and whether its
    frames go into the switch there, out of it, or nowhere that counts."""

    row: Row
    name: str
    place: Place | None
    direction: str

    @property
    def says(self) -> str:
        """Its place and direction, as the table has them."""
        return f"{self.place} {self.direction}" if self.place else self.direction

    def is_of_another(self, switch: str | None) -> bool:
        """It is at another switch than that one; None stands for all."""
        return self.place is not None and switch not in (None, self.place.switch)

    def is_at(self, side: str | None) -> bool:
        """It can be in a recording of that side; one of no side is of both."""
        return side is None or self.place is None or self.place.side == side


class Recording(NamedTuple):
    """A recording: its name as it can be printed, the side that it is of where there are two, and
    its interfaces."""

    name: str
    side: str | None
    interfaces: list[Interface]


@dataclass
class Found:
    """What the recordings are, by the table: the words of the program, and their interfaces as rows
    of a report; what contradicts the table, and what is only worth knowing."""

    words: list[str] = field(default_factory=list)
    rows: list[dict] = field(default_factory=list)
    faults: list[str] = field(default_factory=list)
    remarks: list[str] = field(default_factory=list)


# ---- the table -----------------------------------------------------------------------------------


def tap_of(row: Row, faults: list[str]) -> Tap:
    """A tap from its row; what is wrong with it is noted."""
    cells = Cells(row, faults)
    if not row.name:
        cells.refuse("interface", "it has to have a name")
    direction = cells.one_of("direction", (IN, OUT, NONE)) or NONE
    place = None
    if direction != NONE:
        side, port = row.cells["side"].upper(), cells.whole("port", 1, 24)
        if side not in SIDES.values():
            cells.refuse_other("side", list(SIDES.values()))
        place = Place(side, port or 0, row.cells["switch"])
    return Tap(row, row.name, place, direction)


def refuse_twice(taps: list[Tap], faults: list[str]) -> None:
    """Notes the taps that are one interface twice, in a recording of the same side or of none, or
    one place."""
    names: dict[tuple[str, str | None], Tap] = {}
    places: dict[tuple[Place, str], Tap] = {}
    for tap in taps:
        side = tap.place.side if tap.place else None
        sides = ("A", "B", None) if side is None else (side, None)
        same = [names[tap.name, each] for each in sides if (tap.name, each) in names]
        if same:
            faults.append(f"{tap.row.at('interface')}: {same[0].row.place} has it too")
        names.setdefault((tap.name, side), tap)
        if tap.place:
            before = places.setdefault((tap.place, tap.direction), tap)
            if before is not tap:
                faults.append(f"{tap.row.at('port')}: {before.row.place} is {tap.says} too")


class WrongTaps(Refused):
    """What is wrong with a table of taps, a line each."""

    def __init__(self, lines: list[str]) -> None:
        others = f" (and {len(lines) - 1} more)" if len(lines) > 1 else ""
        super().__init__(lines[0] + others)
        self.lines = lines


def for_switch(taps: list[Tap], switch: str) -> list[Tap]:
    """The rows where one of several switches is judged: its own, those of no place, and of other
    switches those of interfaces that none of these names. For each switch may have a recorder of
    its own, and these have interfaces of the same names."""
    own = [tap for tap in taps if not tap.is_of_another(switch)]
    names = {tap.name for tap in own}
    others = {tap.name: tap for tap in taps if tap.name not in names}
    return own + list(others.values())


def read_rows(path: str) -> list[Tap]:
    """All rows of a table, each looked at alone; WrongTaps where something is wrong with one."""
    faults: list[str] = []
    taps = [tap_of(row, faults) for row in read_sheet(path, COLUMNS).rows]
    if faults:
        raise WrongTaps(faults)
    return taps


def read_taps(path: str, switch: str | None = None) -> list[Tap]:
    """The rows of a table, where one of several switches is judged those for it; WrongTaps where
    something is wrong with them."""
    faults: list[str] = []
    taps = read_rows(path)
    if switch is not None:
        taps = for_switch(taps, switch)
    refuse_twice(taps, faults)
    if faults:
        raise WrongTaps(faults)
    return taps


# ---- which interface is which row ----------------------------------------------------------------


def called(number: int, name: str | None) -> str:
    """An interface by its number and its name."""
    named = "" if name is None else f" ({cut(name, LONGEST_NAME)})"
    return f"interface {number}{named}"


class Table:
    """The rows of a table by the names of their interfaces; where one of several switches is
    judged, those of others behind its own."""

    def __init__(self, taps: list[Tap], switch: str | None = None) -> None:
        self.parts: tuple[dict[str, list[Tap]], ...] = {}, {}
        for tap in taps:
            part = self.parts[tap.is_of_another(switch)]
            part.setdefault(tap.name, []).append(tap)

    def rows_for(self, number: int, name: str | None) -> list[Tap]:
        """The rows for an interface: those that have its number, as #0, else those of its name."""
        found = (part.get(key, []) for part in self.parts for key in (f"#{number}", name or ""))
        return next(filter(None, found), [])


def tap_for(table: Table, recording: Recording, number: int, interface: Interface) -> Tap | str:
    """The row of an interface, or why it has none."""
    if interface.other is not None:
        other = cut(interface.other, LONGEST_NAME)
        return f"is {other} in a later section of the file; mergecap makes one section of them"
    rows = table.rows_for(number, interface.name)
    here = [tap for tap in rows if tap.is_at(recording.side)]
    if len(here) > 1:
        return "is on both sides in the table; that takes a recording of each"
    if here:
        return here[0]
    if rows:
        row, side = rows[0].row.place, recording.side
        return f"is {rows[0].says} by {row}, and this is given as the recording of {side}"
    named = f"#{number}" if interface.name is None else cut(interface.name, LONGEST_NAME)
    return f"has no row in the table; one named {named} with direction none leaves it out"


def is_crossed(table: Table, recording: Recording) -> bool:
    """All of its interfaces that have a place are on the other side."""
    sides = {
        tap.place.side
        for number, interface in enumerate(recording.interfaces)
        for tap in table.rows_for(number, interface.name)
        if tap.place
    }
    return recording.side is not None and bool(sides) and recording.side not in sides


def matched(
    found: Found, taps: list[Tap], recording: Recording, switch: str | None = None
) -> dict[int, Tap]:
    """The row of each interface of a recording, by its number. What has none is noted, and rows
    without an interface, of the switch alone where one of several is judged."""
    rows: dict[int, Tap] = {}
    table, taken = Table(taps, switch), set()
    if is_crossed(table, recording):
        side, other = recording.side, "B" if recording.side == "A" else "A"
        why = f"is given as the recording of {side}, and the table has its interfaces on {other}"
        found.faults.append(f"{recording.name} {why}")
        return rows
    for number, interface in enumerate(recording.interfaces):
        tap = tap_for(table, recording, number, interface)
        at = f"{recording.name}: {called(number, interface.name)}"
        if isinstance(tap, str):
            found.faults.append(f"{at} {tap}")
        elif tap.row.place in taken:
            found.faults.append(f"{at} has the name of another; a row #{number} tells them apart")
        else:
            rows[number] = tap
            taken.add(tap.row.place)
    own = [tap for tap in taps if not tap.is_of_another(switch)]
    for side in "AB":
        note_absent(found, recording, side, own, taken)
    return rows


def note_absent(
    found: Found, recording: Recording, side: str, taps: list[Tap], taken: set[str]
) -> None:
    """Notes the rows of a side whose interfaces the recording doesn't have; `taken` are the places
    of those that it has."""
    there = [tap for tap in taps if tap.place and tap.place.side == side]
    wanted = [tap for tap in there if tap.is_at(recording.side)]
    absent = [tap for tap in wanted if tap.row.place not in taken]
    if wanted and len(absent) == len(wanted) and recording.side is None:
        found.remarks.append(f"{recording.name}: no interface of side {side} is in it")
        return
    for tap in absent:
        found.faults.append(f"{tap.row.place}: {shown(tap.name)} isn't in {recording.name}")
