"""An interface document, which is a table of systems and one of messages, as the tables of a
configuration: the messages of a number are those of a virtual link, each with a communication port
at each of its receivers."""
from __future__ import annotations

import functools
from dataclasses import dataclass, field
from fractions import Fraction
from typing import Iterable, Iterator

from afdx_tools.faults import shown
from afdx_tools.icd.cabling import RATES, RATES_WITH, Cabling
from afdx_tools.icd.names import NO_NAME
from afdx_tools.icd.ways import Tree
from afdx_tools.spreadsheets.cells import MOST_US, Cells, bag_of
from afdx_tools.spreadsheets.heads import amount_of
from afdx_tools.spreadsheets.sheets import Row

# the columns, and whether each has to be there; then those beside a table of cables
SYSTEMS = dict.fromkeys(("system", "port", "id", "partition", "rate"), True)
MESSAGES = dict.fromkeys(
    ("message", "vl", "from", "to", "every_ms", "bytes", "within_us", "priority", "port", "kind"),
    True,
) | dict.fromkeys(("depth", "lmin", "policing", "skew_us", "subs"), False)
CABLED_SYSTEMS = SYSTEMS | {"switch": True}
CABLED_MESSAGES = MESSAGES | {"via": False}
# those whose cells may not be empty
FULL_SYSTEMS = tuple(CABLED_SYSTEMS)
FULL_MESSAGES = tuple(
    name for name, is_needed in MESSAGES.items() if is_needed and name != "within_us"
)
AROUND = 47  # bytes of a frame that aren't the message's
SHORTEST, LONGEST = 64, 1518  # bytes of a frame
MOST_LINKS = MOST_PORTS = 4096
MOST_BUFFER = 4_194_304  # bytes of a port
POLICINGS = ("byte", "frame")
# what all rows of a message say alike: the columns, and what a message has of them
GIVEN_ALIKE = (("every_ms", "period_ms"), ("bytes", "bytes"))


@dataclass
class Message:
    """A row of the messages; what has a fault, or isn't given, is None."""

    row: Row
    vl: int | None
    source: str | None
    to: list[str]
    udp: int | None
    period_ms: Fraction | None
    bytes: int | None
    priority: str | None
    kind: str | None
    depth: int | None
    within_us: int | None
    lmin: int | None
    policing: str | None
    skew_us: int | None
    subs: int | None
    via: list[str]


@dataclass
class Document:
    """The tables of a configuration without the keys that are solved, unless they are asked for;
    the rows that they were made of; and what is wrong with these. `names` are those of the systems
    in the configuration, by those that the document has. Of several switches a side `cabling` has
    the switches, and `trees` how each link's frames come to them."""

    profile: int
    source: str = ""
    names: dict[str, str] = field(default_factory=dict)
    systems: list[dict] = field(default_factory=list)
    links: list[dict] = field(default_factory=list)
    ports: list[dict] = field(default_factory=list)
    system_rows: dict[str, Row] = field(default_factory=dict)
    messages: dict[int, list[Message]] = field(default_factory=dict)
    faults: list[str] = field(default_factory=list)
    cabling: Cabling | None = None
    trees: dict[int, Tree] = field(default_factory=dict)

    @functools.cached_property
    def by_lawful(self) -> dict[str, str]:
        """What the document calls each system, by its name in the configuration."""
        return {lawful: name for name, lawful in self.names.items()}

    def called(self, name: str) -> str:
        """What the document calls a system of the configuration."""
        return self.by_lawful[name]

    def system_at(self, port: int) -> str:
        """What the document calls the system at a port of the switch."""
        return self.called(next(row["name"] for row in self.systems if row["port"] == port))

    def renamed(self) -> dict[str, str]:
        """The systems that have another name in the configuration, which takes no `_` and `-`."""
        return {name: lawful for name, lawful in self.names.items() if name != lawful}


# ---- systems -------------------------------------------------------------------------------------


def add_system(document: Document, row: Row) -> None:
    """A system from its row."""
    cells = Cells(row, document.faults)
    if row.name not in document.names:
        cells.refuse("system", NO_NAME)
    system = {
        "name": document.names.get(row.name, ""),
        "port": cells.whole("port", 1, 24),
        "id": cells.whole("id", 0, 65_535),
        "partition": cells.whole("partition", 0, 255),
        "rate": cells.member("rate", RATES[document.profile], RATES_WITH[document.profile]),
    }
    document.systems.append(system)
    document.system_rows.setdefault(row.name, row)


def refuse_twice(document: Document, rows: Iterable[Row], column: str) -> None:
    """Notes each row whose cell an earlier one has too, as a name or as a number."""
    first: dict[object, Row] = {}
    for row in filter(lambda row: row.cells[column], rows):
        text = row.cells[column]
        number = None if column == "system" else amount_of(text)
        before = first.setdefault(text if number is None else number, row)
        if before is not row:
            document.faults.append(f"{row.at(column)}: {before.place} has it too")


# ---- messages ------------------------------------------------------------------------------------


def receivers_of(document: Document, cells: Cells) -> list[str]:
    """The names of the systems that a message goes to."""
    names = cells.words("to")
    if not names:
        cells.refuse("to", "it has to name a system")
    before: set[str] = set()
    for name in names:
        if name not in document.system_rows:
            cells.refuse("to", f"no system is named {shown(name)}")
        if name in before:
            cells.refuse("to", f"{shown(name)} stands twice")
        if name == cells.row.cells["from"]:
            cells.refuse("to", f"{shown(name)} is the sender")
        before.add(name)
    return [document.names.get(name, "") for name in names]


def sender_of(document: Document, cells: Cells) -> str | None:
    """The name of the system that a message comes from."""
    name = cells.row.cells["from"]
    if name not in document.system_rows:
        cells.refuse("from", "no system has that name")
    return document.names.get(name)


def message_of(document: Document, row: Row) -> Message:
    """A message from its row."""
    cells = Cells(row, document.faults)
    if not row.name:
        cells.refuse("message", "it has to have a name")
    kind = cells.one_of("kind", ("sampling", "queuing"))
    return Message(
        row=row,
        vl=cells.whole("vl", 0, 65_535),
        source=sender_of(document, cells),
        to=receivers_of(document, cells),
        udp=cells.whole("port", 1, 65_535),
        period_ms=cells.period_ms("every_ms"),
        bytes=cells.whole("bytes", 1, LONGEST - AROUND),
        priority=cells.one_of("priority", ("high", "low")),
        kind=kind,
        depth=cells.depth("depth", kind),
        within_us=cells.given("within_us", 1, MOST_US),
        lmin=cells.given("lmin", SHORTEST, LONGEST),
        policing=cells.one_of("policing", POLICINGS) if row.cells["policing"] else None,
        skew_us=cells.given("skew_us", 1, MOST_US),
        subs=cells.given("subs", 1, 4),
        via=cells.words("via") if "via" in row.cells else [],
    )


def other_link(first: Message, other: Message) -> Iterator[tuple[str, str]]:
    """The columns by which a message can't be on the link of the first one, and why."""
    for column, one, two in (
        ("from", first.source, other.source),
        ("priority", first.priority, other.priority),
        ("policing", first.policing, other.policing),
    ):
        if None not in (one, two) and one != two:
            has = first.row.shown(column)
            yield column, f"{first.row.place} has {has}, on this link"


class Rows:
    """Rows of one message, which agree: the first of them, those that first give its period and its
    bytes, and which one has each receiver, with its number."""

    def __init__(self, first: Message) -> None:
        self.first, self.count = first, 0
        self.givers: dict[str, Message] = {}
        self.receivers: dict[str, tuple[int, Message]] = {}

    def add(self, message: Message) -> None:
        """Adds a row."""
        for column, name in GIVEN_ALIKE:
            if getattr(message, name) is not None:
                self.givers.setdefault(column, message)
        for receiver in message.to:
            self.receivers.setdefault(receiver, (self.count, message))
        self.count += 1

    def contradicted(self, other: Message) -> Iterator[tuple[str, str]]:
        """The columns by which a row isn't more receivers of the message, and why."""
        if self.first.row.name != other.row.name:
            yield "port", f"{self.first.row.place} has it too, on this link"
            return
        for column, name in GIVEN_ALIKE:
            giver, value = self.givers.get(column), getattr(other, name)
            if giver and value is not None and getattr(giver, name) != value:
                yield column, f"{giver.row.place} has {giver.row.shown(column)}, of this message"
        taken = [(*self.receivers[name], name) for name in other.to if name in self.receivers]
        if taken:
            _, message, name = min(taken, key=lambda each: each[0])
            yield "to", f"{message.row.place} has {shown(name)} too, of this message"


def apart(messages: list[Message]) -> dict[int | None, Message]:
    """The messages of a link by their UDP ports; of rows for one message the first."""
    found: dict[int | None, Message] = {}
    for message in messages:
        found.setdefault(message.udp, message)
    return found


def refuse_apart(document: Document, messages: list[Message]) -> None:
    """Notes which rows of a link contradict one another."""
    by_port: dict[int, Rows] = {}
    for message in messages:
        found: dict[str, str] = {}
        pairs = list(other_link(messages[0], message))
        if message.udp is not None:
            before = by_port.get(message.udp)
            pairs += before.contradicted(message) if before else []
            if not pairs:  # others are refused, and needn't agree with one another
                by_port.setdefault(message.udp, Rows(message)).add(message)
        for column, why in pairs:
            found.setdefault(column, why)
        document.faults += [f"{message.row.at(column)}: {why}" for column, why in found.items()]


# ---- links ---------------------------------------------------------------------------------------


def bag_ms(document: Document, messages: list[Message]) -> int | None:
    """The BAG of a link with these messages."""
    periods = [message.period_ms for message in apart(messages).values() if message.period_ms]
    bag = bag_of(periods)
    if bag is None:
        at, vl = messages[-1].row.at("every_ms"), messages[-1].vl
        document.faults.append(f"{at}: link {vl} would have to send more than a frame a ms")
    return bag


def link_of(document: Document, vl: int, messages: list[Message]) -> dict:
    """The virtual link of these messages: each key as they need it all. Keys that are solved have a
    value where a row asks for one."""

    def given(name: str) -> list:
        values = (getattr(message, name) for message in messages)
        return [value for value in values if value is not None]

    lmin = min(given("lmin"), default=SHORTEST)
    return {
        "vl": vl,
        "from": messages[0].source,
        "to": list(dict.fromkeys(name for message in messages for name in message.to)),
        "bag_ms": bag_ms(document, messages),
        "lmin": lmin,
        "lmax": max(max(given("bytes"), default=0) + AROUND, lmin),
        "jitter_us": None,
        "priority": messages[0].priority,
        "policing": next(iter(given("policing")), POLICINGS[0]),
        "latency_us": min(given("within_us"), default=None),
        "skew_us": max(given("skew_us"), default=None),
        "subs": max(given("subs"), default=1),
    }


def add_link(document: Document, vl: int, messages: list[Message]) -> None:
    """A link from its messages, and a communication port for each of them at each receiver."""
    refuse_apart(document, messages)
    document.links.append(link_of(document, vl, messages))
    for message in messages:
        for name in message.to:
            document.ports.append(
                {
                    "system": name,
                    "link": vl,
                    "udp": message.udp,
                    "kind": message.kind,
                    "depth": message.depth,
                }
            )
