"""Reads the tables of an interface document: what the tools that read them share."""
from __future__ import annotations

import argparse
import functools
import os
from typing import Iterator

from afdx_tools.faults import shown
from afdx_tools.icd.cabling import (
    CABLES,
    ENDS,
    Cabling,
    add_cable,
    add_to_switch,
    refuse_taken,
    switches_of,
)
from afdx_tools.icd.document import (
    CABLED_MESSAGES,
    CABLED_SYSTEMS,
    FULL_MESSAGES,
    FULL_SYSTEMS,
    MESSAGES,
    MOST_LINKS,
    MOST_PORTS,
    SYSTEMS,
    Document,
    add_link,
    add_system,
    message_of,
    refuse_twice,
)
from afdx_tools.icd.names import lawful_names
from afdx_tools.icd.ways import add_tree, shortest
from afdx_tools.spreadsheets.sheets import Row, Sheet, read_sheet

TABLES = {"systems": SYSTEMS, "messages": MESSAGES}
CABLED_TABLES = {"systems": CABLED_SYSTEMS, "messages": CABLED_MESSAGES, "cables": CABLES}
FULL = {"systems": FULL_SYSTEMS, "messages": FULL_MESSAGES, "cables": tuple(CABLES)}


def fill_depths(sheet: Sheet) -> None:
    """Gives each queuing message without a depth that of the row above it."""
    above = None
    for row in sheet.rows:
        if row.cells["kind"].lower() == "queuing":
            sheet.fill(above, row, "depth")
        above = row


# ---- the document --------------------------------------------------------------------------------


def port_uses(systems: Sheet, cables: Sheet) -> Iterator[tuple[Row, str, str]]:
    """The ports of switches that the rows of both tables name, as `refuse_taken` wants them."""
    for row in systems.rows:
        yield row, "port", row.cells["switch"]
    for row in cables.rows:
        for switch, port in ENDS:
            yield row, port, row.cells[switch]


def name_all(document: Document, systems: Sheet, cables: Sheet) -> Cabling:
    """What the configuration calls the systems and the switches, no two alike; the switches without
    their cables."""
    switches = switches_of(cables.rows)
    names = lawful_names([*switches, *(row.name for row in systems.rows)])
    document.names = {row.name: names[row.name] for row in systems.rows if row.name in names}
    return Cabling(cables.name, {name: names[name] for name in switches if name in names})


def add_cables(document: Document, cabling: Cabling, systems: Sheet, cables: Sheet) -> None:
    """The cables, and the switches of the systems."""
    document.cabling = cabling
    for row in systems.rows:
        add_to_switch(cabling, row, document.names.get(row.name), document.faults)
    for row in cables.rows:
        add_cable(cabling, row, document.profile, document.faults)
    refuse_taken(port_uses(systems, cables), document.faults)


def add_systems(document: Document, systems: Sheet, cables: Sheet | None) -> None:
    """The systems, and the switches where they are."""
    cabling = None if cables is None else name_all(document, systems, cables)
    if cabling is None:
        document.names = lawful_names(row.name for row in systems.rows)
    for row in systems.rows:
        add_system(document, row)
    for column in ("system", "port", "id") if cabling is None else ("system", "id"):
        refuse_twice(document, systems.rows, column)
    if cabling is not None and cables is not None:
        add_cables(document, cabling, systems, cables)


def add_links(document: Document, messages: Sheet) -> None:
    """The messages, their links, and how these come to their receivers."""
    for row in messages.rows:
        message = message_of(document, row)
        if message.vl is not None:
            document.messages.setdefault(message.vl, []).append(message)
    for vl, group in document.messages.items():
        add_link(document, vl, group)
    if document.cabling is not None:
        ways_from = functools.cache(functools.partial(shortest, document.cabling))
        for vl in document.messages:
            add_tree(document, vl, ways_from)


def refuse_many(document: Document, messages: str) -> None:
    """Notes where there are more links and receivers than a switch's tables take; `messages` names
    the table."""
    links = [(len(document.links), len(document.ports), "")]
    if document.cabling is not None:
        at, switches = document.cabling.switch_of, document.cabling.switches
        links = [
            (
                sum(switch in tree for tree in document.trees.values()),
                sum(at.get(port["system"]) == switch for port in document.ports),
                f" at {shown(name)}",
            )
            for name, switch in switches.items()
        ]
    for count, ports, where in links:
        if count > MOST_LINKS:
            document.faults.append(f"{messages}: it has more than {MOST_LINKS} links{where}")
        if ports > MOST_PORTS:
            text = f"its messages have {ports} receivers{where}; {MOST_PORTS} are the most"
            document.faults.append(f"{messages}: {text}")


def document_of(
    systems: Sheet, messages: Sheet, profile: int, cables: Sheet | None = None
) -> Document:
    """Reads the tables; all that is wrong with their cells is noted."""
    sheets = [sheet for sheet in (systems, messages, cables) if sheet is not None]
    *others, last = [os.path.basename(sheet.path) for sheet in sheets]
    document = Document(profile, shown(f"{', '.join(others)} and {last}"))
    add_systems(document, systems, cables)
    add_links(document, messages)
    refuse_many(document, messages.name)
    return document


# ---- what the tools that read the tables share ---------------------------------------------------


def add_document_words(parser: argparse.ArgumentParser) -> None:
    """The words that name the tables, and how they are read."""
    add = parser.add_argument
    add("systems", metavar="SYSTEMS.csv", help="the table of the systems")
    add("messages", metavar="MESSAGES.csv", help="the table of the messages")
    cables = "the table of the cables between switches, where a side has several"
    add("--cables", metavar="CABLES.csv", help=cables)
    profile = "2 has rates of 1000 Mbit/s, and drops frames that grow too old (1)"
    add("--profile", type=int, choices=(1, 2), default=1, help=profile)
    fill = "an empty cell that has to have a value has that of the cell above, as if merged"
    add("--fill", action="store_true", help=fill)


def renamed_in(sheet: str, renamed: dict[str, str]) -> list[str]:
    """A line about names of a table that the configuration hasn't."""
    pairs = [f"{shown(name)} is {other}" for name, other in renamed.items()]
    return [f"{sheet}: in the configuration {', '.join(pairs)}"] if pairs else []


def read_document(args: argparse.Namespace) -> tuple[Document, list[str]]:
    """Reads the tables that the words name; lines about what was read otherwise than it stands
    there."""
    tables = TABLES if args.cables is None else CABLED_TABLES
    sheets = {
        name: read_sheet(
            getattr(args, name),
            columns,
            [column for column in FULL[name] if column in columns] if args.fill else (),
        )
        for name, columns in tables.items()
    }
    if args.fill:
        fill_depths(sheets["messages"])
    remarks = []
    for sheet in sheets.values():
        if sheet.others:
            others = ", ".join(sheet.others)
            if "switch" in sheet.others:
                others += "; with --cables each system is at the switch that it names"
            remarks.append(f"{sheet.name}: columns passed over: {others}")
        if sheet.filled:
            remarks.append(f"{sheet.name}: {sheet.filled} empty cells have what stands above them")
    systems, messages, cables = (sheets.get(name) for name in CABLED_TABLES)
    assert systems is not None and messages is not None
    document = document_of(systems, messages, args.profile, cables)
    remarks += renamed_in(systems.name, document.renamed())
    if document.cabling is not None:
        remarks += renamed_in(document.cabling.source, document.cabling.renamed())
    return document, remarks
