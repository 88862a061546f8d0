"""A configuration as the program reads it.

The tools take it from there, so that what `afdx` admits is read alike by all of them: TOML 1.1, a
byte order mark. Of a network that isn't admitted the program doesn't write the tables; these are
read by Python's parser, which knows TOML 1.0.
"""
from __future__ import annotations

from dataclasses import dataclass, field, replace

from afdx_tools.faults import Failed, Refused, shown
from afdx_tools.solving import AS_WRITTEN, solve
from afdx_tools.written import read_written

MOST_PORTS = 32  # more than the ports of a switch


def port_at(switch: int, port: int) -> int:
    """The number of a port: its own, and of several switches also which one it is at, from 0."""
    return MOST_PORTS * switch + port


@dataclass(frozen=True)
class System:
    """An end system: its name, its port at both switches, its number in addresses, Mbit/s."""

    name: str
    port: int
    id: int
    rate: int

    @property
    def byte_ns(self) -> int:
        """The time of one byte on its line."""
        return 8000 // self.rate


@dataclass(frozen=True)
class Cable:
    """A cable to another switch on each side: that switch's name, the port here and the port there,
    Mbit/s."""

    name: str
    port: int
    far: int
    rate: int

    @property
    def byte_ns(self) -> int:
        """The time of one byte on it."""
        return 8000 // self.rate


@dataclass(frozen=True)
class Link:
    """A virtual link, with the ports of its sender and of its receivers."""

    vl: int
    source: str
    port: int
    to: tuple[str, ...]
    ports: tuple[int, ...]
    bag_ms: int
    lmax: int
    priority: str
    latency_ns: int
    policing: str
    jitter_ns: int
    skew_ns: int


Way = tuple[int, ...]  # output ports, one at each switch


@dataclass(frozen=True)
class Several:
    """What is known of several switches a side: their names and buffers, the cables by their ports,
    the rows of the links by switch and link, and the way of each link to each output port that it
    comes to, that port being its last."""

    names: tuple[str, ...]
    buffers: tuple[int, ...]
    cables: dict[int, Cable]
    rows: dict[tuple[int, int], Link]
    ways: dict[tuple[int, int], Way] = field(default_factory=dict)


@dataclass(frozen=True)
class Config:
    """The tables of a network, as far as the tools use them. Of several switches a side a link is
    that of the switch where it begins, and `to` and `ports` are all of its receivers. `messages`
    says which messages a link has, as far as that is known."""

    profile: int
    buffer: int
    systems: dict[str, System]
    links: dict[int, Link]
    several: Several | None = None
    messages: dict[int, str] = field(default_factory=dict)

    @property
    def names(self) -> tuple[str, ...]:
        """The names of the switches; none where there is one."""
        return self.several.names if self.several else ()

    def ports_by_id(self) -> dict[int, int]:
        """The switch port of each end system number."""
        return {system.id: system.port for system in self.systems.values()}

    def by_port(self) -> dict[int, System | Cable]:
        """What is at each switch port: a system, or a cable."""
        found: dict[int, System | Cable] = {one.port: one for one in self.systems.values()}
        return {**found, **self.cables}

    @property
    def cables(self) -> dict[int, Cable]:
        """The cables by their ports."""
        return self.several.cables if self.several else {}

    def switch_of(self, port: int) -> str:
        """The name of the switch that has a port; nothing where there is one switch."""
        return self.names[port // MOST_PORTS] if self.several else ""

    def called(self, port: int) -> str:
        """A port in words: `port 3`, of several switches `fwd port 3`."""
        return f"{self.switch_of(port)} port {port % MOST_PORTS}".lstrip()

    def keys_of(self, port: int) -> dict:
        """A port as columns of a row."""
        switch = {"switch": self.switch_of(port)} if self.several else {}
        return {**switch, "port": port % MOST_PORTS}

    def buffer_at(self, port: int) -> int:
        """The bytes of a port's buffer."""
        return self.several.buffers[port // MOST_PORTS] if self.several else self.buffer

    def row_at(self, vl: int, port: int) -> Link | None:
        """The row of a link at the switch of a port, if there is one."""
        if self.several:
            return self.several.rows.get((port // MOST_PORTS, vl))
        return self.links.get(vl)

    def way_to(self, vl: int, port: int) -> Way:
        """The output ports through which a link comes to one; none where it comes there by none."""
        return self.several.ways.get((vl, port), ()) if self.several else (port,)

    def latency_to(self, vl: int, port: int) -> int:
        """The configured latencies of a link's way to an output port together, in ns."""
        rows = [self.row_at(vl, each) for each in self.way_to(vl, port)]
        return sum(row.latency_ns for row in rows if row)

    def skew_at(self, vl: int, port: int) -> int:
        """SkewMax of a link in the row that goes to a port, in ns."""
        row = self.row_at(vl, port)
        return row.skew_ns if row else 0


def link_of(row: dict, ports: dict[str, int]) -> Link:
    """A link from its table; `ports` are those of its switch's ends by their names."""
    to = tuple(row["to"])
    return Link(
        vl=row["vl"],
        source=row["from"],
        port=ports[row["from"]],
        to=to,
        ports=tuple(sorted(ports[name] for name in to)),
        bag_ms=row["bag_ms"],
        lmax=row["lmax"],
        priority=row["priority"],
        latency_ns=1000 * row["latency_us"],
        policing=row["policing"],
        jitter_ns=1000 * row["jitter_us"],
        skew_ns=1000 * row["skew_us"],
    )


def tables_of(path: str) -> dict:
    """The tables of a configuration; Failed with the program's line where it refuses them."""
    with open(path, "rb") as file:
        config = file.read()
    solved = solve(config, ("--keep", AS_WRITTEN))
    if solved.text:
        return read_written(solved.text)
    if not solved.line.startswith("no "):
        raise Failed(solved.line, 1)
    try:
        return read_written(config.decode("utf-8-sig"))
    except (ValueError, RecursionError) as error:
        text = f"{shown(path)} isn't admitted ({solved.line}); of such a network TOML 1.0 is read"
        raise Refused(f"{text}: {error}") from error


def systems_of(tables: dict, switch: int) -> dict[str, System]:
    """The systems of a switch by their names."""
    return {
        row["name"]: System(row["name"], port_at(switch, row["port"]), row["id"], row["rate"])
        for row in tables.get("system", [])
    }


# ---- several switches a side ---------------------------------------------------------------------


def cables_of(switches: list[dict]) -> dict[int, Cable]:
    """The cables by their ports, each from both of its ends."""
    places = {switch["name"]: place for place, switch in enumerate(switches)}
    ends = {
        (switch["name"], row["name"]): port_at(places[switch["name"]], row["port"])
        for switch in switches
        for row in switch.get("neighbour", [])
    }
    return {
        ends[switch["name"], row["name"]]: Cable(
            row["name"],
            ends[switch["name"], row["name"]],
            ends[row["name"], switch["name"]],
            row["rate"],
        )
        for switch in switches
        for row in switch.get("neighbour", [])
    }


def ways_of(several: Several, vl: int, switch: int, before: Way) -> dict[tuple[int, int], Way]:
    """The ways of a link's frames to output ports of a switch, and on from there over cables whose
    other end has them come in at that port. A row has one such port, so no way comes round."""
    ways: dict[tuple[int, int], Way] = {}
    for port in several.rows[switch, vl].ports:
        ways[vl, port] = (*before, port)
        if cable := several.cables.get(port):
            there = cable.far // MOST_PORTS
            row = several.rows.get((there, vl))
            if row and row.port == cable.far:
                ways |= ways_of(several, vl, there, ways[vl, port])
    return ways


def several_of(switches: list[dict]) -> Config:
    """What the tools use of the tables of several switches. A link that begins at no switch of
    tables that aren't admitted isn't among the links."""
    systems: dict[str, System] = {}
    rows: dict[tuple[int, int], Link] = {}
    begins: dict[int, int] = {}
    cables = cables_of(switches)
    for place, switch in enumerate(switches):
        own = systems_of(switch, place)
        ports = {name: system.port for name, system in own.items()}
        ports |= {c.name: c.port for c in cables.values() if c.port // MOST_PORTS == place}
        rows |= {(place, row["vl"]): link_of(row, ports) for row in switch.get("link", [])}
        begins |= {row["vl"]: place for row in switch.get("link", []) if row["from"] in own}
        systems |= own
    names = tuple(switch["name"] for switch in switches)
    several = Several(names, tuple(switch["buffer"] for switch in switches), cables, rows)
    links = {}
    for vl, place in begins.items():
        ways = ways_of(several, vl, place, ())
        several.ways.update(ways)
        ends = sorted(port for _, port in ways if port not in cables)
        to = tuple(system.name for system in systems.values() if system.port in ends)
        links[vl] = replace(rows[place, vl], to=to, ports=tuple(ends))
    return Config(switches[0]["profile"], switches[0]["buffer"], systems, links, several)


def config_of(tables: dict, path: str) -> Config:
    """What the tools use of the tables of a configuration."""
    try:
        if "switch" in tables:
            return several_of(tables["switch"])
        systems = systems_of(tables, 0)
        ports = {name: system.port for name, system in systems.items()}
        links = {row["vl"]: link_of(row, ports) for row in tables.get("link", [])}
        return Config(tables["profile"], tables["buffer"], systems, links)
    except (LookupError, TypeError, AttributeError) as error:
        raise Refused(f"{shown(path)}: these are not the tables of a configuration") from error


def read_config(path: str) -> Config:
    """A configuration. Whether it is sound is the program's to say."""
    return config_of(tables_of(path), path)
