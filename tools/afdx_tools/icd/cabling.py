"""The switches of a side and the cables between them: the third table of an interface document."""
from __future__ import annotations

from dataclasses import dataclass, field
from typing import Iterable, NamedTuple

from afdx_tools.faults import Refused, shown
from afdx_tools.icd.names import NO_NAME
from afdx_tools.spreadsheets.cells import Cells
from afdx_tools.spreadsheets.heads import SECOND, amount_of
from afdx_tools.spreadsheets.sheets import Row

ENDS = (("switch", "port"), (f"{SECOND} switch", f"{SECOND} port"))  # the columns of each end
CABLES = dict.fromkeys((*ENDS[0], *ENDS[1], "rate"), True)
RATES = {1: (10, 100), 2: (10, 100, 1000)}
# rates that need a word of the command
RATES_WITH: dict[int, dict[int, str]] = {1: {1000: "--profile 2"}, 2: {}}
MOST_SWITCHES = 24


class End(NamedTuple):
    """Where a cable ends: a switch, by its name in the configuration, a port of it, and the column
    that has the port."""

    switch: str
    port: int | None
    column: str


class Cable(NamedTuple):
    """A cable between two switches, and its row; what has a fault is None."""

    ends: tuple[End, End]
    rate: int | None
    row: Row

    def towards(self, switch: str) -> tuple[End, End]:
        """Its two ends, that at this switch the last."""
        one, other = self.ends
        return (one, other) if other.switch == switch else (other, one)


class Ending(NamedTuple):
    """An end of a cable: the cable's place in the table, the cable, the end and the other one."""

    place: int
    cable: Cable
    end: End
    far: End


@dataclass
class Cabling:
    """The switches, by what the document calls them, in the order in which its cables name them;
    the cables; and the switch of each system, all by their names in the configuration. The cables
    stand there by the switch at which they end, and by the two that they join, too."""

    source: str
    switches: dict[str, str]
    cables: list[Cable] = field(default_factory=list)
    switch_of: dict[str, str] = field(default_factory=dict)
    ending: dict[str, list[Ending]] = field(default_factory=dict)
    joining: dict[frozenset[str], Cable] = field(default_factory=dict)

    def add(self, cable: Cable) -> None:
        """Adds a cable, the last one of the table till now."""
        place, (one, other) = len(self.cables), cable.ends
        self.cables.append(cable)
        for end, far in ((one, other), (other, one)):
            self.ending.setdefault(end.switch, []).append(Ending(place, cable, end, far))
        self.joining.setdefault(frozenset((one.switch, other.switch)), cable)

    def called(self, switch: str) -> str:
        """What the document calls a switch of the configuration."""
        return shown(next(name for name, lawful in self.switches.items() if lawful == switch))

    def renamed(self) -> dict[str, str]:
        """The switches that have another name in the configuration."""
        return {name: lawful for name, lawful in self.switches.items() if name != lawful}

    def at(self, switch: str) -> list[Ending]:
        """The cables that end at a switch, in the order of the table."""
        return self.ending.get(switch, [])

    def joined(self, one: str, other: str) -> Cable | None:
        """The first cable of the table that joins two switches."""
        return self.joining.get(frozenset((one, other)))


def switches_of(cables: Iterable[Row]) -> list[str]:
    """What the document calls the switches that cables name; Refused at the first one too many."""
    found: dict[str, None] = {}
    for row, column in ((row, column) for row in cables for column, _ in ENDS):
        found[row.cells[column]] = None
        if len(found) > MOST_SWITCHES:
            raise Refused(f"{row.at(column)}: a side has {MOST_SWITCHES} switches at most")
    return list(found)


def add_cable(cabling: Cabling, row: Row, profile: int, faults: list[str]) -> None:
    """A cable from its row."""
    cells = Cells(row, faults)
    for column, _ in ENDS:
        if row.cells[column] not in cabling.switches:
            cells.refuse(column, NO_NAME)
    one, other = (
        End(cabling.switches.get(row.cells[column], ""), cells.whole(port, 1, 24), port)
        for column, port in ENDS
    )
    rate = cells.member("rate", RATES[profile], RATES_WITH[profile])
    if one.switch == other.switch != "":
        cells.refuse(ENDS[1][0], "a cable joins two switches")
    elif one.switch and other.switch:
        before = cabling.joined(one.switch, other.switch)
        if before:
            cells.refuse(ENDS[1][0], f"{before.row.place} joins them too")
        cabling.add(Cable((one, other), rate, row))


def add_to_switch(cabling: Cabling, row: Row, name: str | None, faults: list[str]) -> None:
    """The switch of a system, from the system's row; `name` is the system's in the
    configuration."""
    cells, switch = Cells(row, faults), row.cells["switch"]
    if row.name in cabling.switches:
        cells.refuse("system", "a switch has that name")
    if not switch:
        cells.refuse("switch", "it has to name a switch")
    elif switch not in cabling.switches:
        cells.refuse("switch", "no cable goes there")
    elif name is not None:
        cabling.switch_of[name] = cabling.switches[switch]


def refuse_taken(uses: Iterable[tuple[Row, str, str]], faults: list[str]) -> None:
    """Notes each port of a switch that is used a second time. Uses are a row, the column of the
    port and what the document calls the switch."""
    first: dict[object, Row] = {}
    for row, column, switch in uses:
        number = amount_of(row.cells[column])
        if number is None:  # that has been noted
            continue
        before = first.setdefault((switch, number), row)
        if before is not row:
            faults.append(f"{row.at(column)}: {before.place} has it too, at {shown(switch)}")
