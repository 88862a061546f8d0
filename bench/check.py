#!/usr/bin/env python3
"""Measures `afdx check` and `afdx solve` on the largest tables, on smaller ones, and on cascades.

    bench/check.py [PROGRAM] [--times T] [--cascades]

PROGRAM is the built program, crates/afdx/out/afdx where it isn't given. The tables have 24 systems,
4,096 or 400 virtual links, each to all other systems, and as many communication ports. For `check`
all links are of the first system: such a network isn't admitted, so `check` ends with status 1. For
`solve` they are of all systems in turn, on lines of 1 Gbit/s. With each option a line is printed
for each of these sizes: the best of T times (3 where it isn't given), the memory, and the
instructions; behind the larger ones, how many times those of the smaller ones they are.

Then both are measured on cascades: 8 switches a side, that cables of 1 Gbit/s join to a ring, each
with 22 systems, and links on ways of 1 to 4 switches, which have 1,000 to 9,000 rows in all. A row
goes to two systems, and to the next switch or a third system. Such a cascade is admitted. Beside it
stands one switch with 4,096 links, each to three systems. Of each the instructions and the bytes of
memory a row are printed: those beyond the same tables without links. Last comes the cascade of
bench/make_cascade.py, of a large aircraft's size: how many times the instructions of its `check`
its `solve` takes. `--cascades` measures cascades alone.

Needs Linux and Python 3, no packages; for instructions valgrind. It is a measurement and no test.
"""
import argparse
import os
import sys
import tempfile

sys.dont_write_bytecode = True
from make_cascade import LINKS, compact, config_text, ways_of  # noqa: E402
from measure import PROGRAM, counted, timed  # noqa: E402
from tables import cable_of, link_of, port_of, switch_of, system_of, tables_of  # noqa: E402
from tables import text_of, wide_tables  # noqa: E402

SYSTEMS = 24
SIZES = (400, 4096)
CHECKS: tuple[list[str], ...] = ([], ["--all"], ["--margins"], ["--all", "--margins"])
RUNS = (*(["check", *options] for options in CHECKS), ["solve"])
SWITCHES = 8
OWN = SYSTEMS - 2  # the systems of a switch that has two cables
WAY = 4  # the switches on the longest way
ROWS = (1000, 3000, 9000)
LATENCY = 10_000  # us, of each row in a cascade, and of one switch beside it


def tables(links, is_solved):
    """The text of tables with so many links, of the first system alone or of all in turn."""
    return text_of(wide_tables(links, SYSTEMS if is_solved else 1)).decode()


def link_row(vl, sender, to, jitter, skew):
    """A link's row, which may send little."""
    priority = "low" if vl % 3 else "high"
    return link_of(vl, sender, to, jitter=jitter, priority=priority, latency=LATENCY, skew=skew)


def one_switch(links):
    """The text of one switch with so many links, each to three systems."""
    rows = []
    for vl in range(links):
        sender = vl % SYSTEMS
        to = [f"s{(sender + step) % SYSTEMS + 1}" for step in (1, 2, 3)]
        rows.append(link_row(vl, f"s{sender + 1}", to, 500, LATENCY))
    ports = [port_of(f"s{(vl + 1) % SYSTEMS + 1}", vl) for vl in range(links)]
    systems = [system_of(place, 1000) for place in range(1, SYSTEMS + 1)]
    return text_of(tables_of(systems, rows, ports, profile=2, buffer=524288)).decode()


def switch_row(place, links, ports):
    """A switch of the cascade, with its ends."""
    numbers = [(port, place * OWN + port) for port in range(1, OWN + 1)]
    systems = [system_of(port, 1000, f"s{number}", number) for port, number in numbers]
    cables = [cable_of(f"w{other % SWITCHES}", port, 1000)
              for port, other in ((23, place - 1), (24, place + 1))]  # fmt: skip
    name = f"w{place}"
    return switch_of(name, systems, cables, links or None, ports or None, 2, 524288)


def cascade(rows):
    """The text of the cascade with so many rows."""
    links: list[list[dict]] = [[] for _ in range(SWITCHES)]
    ports: list[list[dict]] = [[] for _ in range(SWITCHES)]
    vl = count = 0
    while count < rows:
        hops = min(vl // SWITCHES % WAY + 1, rows - count)
        for hop in range(hops):
            place = (vl + hop) % SWITCHES
            own = [f"s{place * OWN + (vl + step) % OWN + 1}" for step in range(4)]
            sender = f"w{(place - 1) % SWITCHES}" if hop else own[3]
            to = [*own[:2], f"w{(place + 1) % SWITCHES}" if hop + 1 < hops else own[2]]
            row = link_row(vl, sender, to, 500 + hop * LATENCY, (hop + 1) * LATENCY)
            links[place].append(row)
            ports[place].append(port_of(own[0], vl))
        vl, count = vl + 1, count + hops
    return compact([switch_row(place, links[place], ports[place]) for place in range(SWITCHES)])


def measured(program, command, path, folder, times, status):
    """The best of so many runs of this command, which end with that status, and their
    instructions."""
    words = [program, *command, path]
    note = os.path.join(folder, "note")
    with open(os.devnull, "w", encoding="ascii") as nothing:
        runs = [timed(words, None, nothing, note, (status,), nothing) for _ in range(times)]
    seconds = min(run.seconds for run in runs)
    memory = max(run.memory for run in runs)
    counts = counted(words, folder)
    return seconds, memory, None if counts is None else counts.instructions


def measure_tables(program, folder, times):
    """The largest tables and smaller ones, with each command."""
    path = os.path.join(folder, "tables.toml")
    for command in RUNS:
        before = None
        for links in SIZES:
            text = tables(links, command == ["solve"])
            write(path, text)
            status = 0 if command == ["solve"] else 1
            seconds, memory, count = measured(program, command, path, folder, times, status)
            told = told_of(" ".join(command), f"{links:5,} links", text, seconds, memory, count)
            if None not in (count, before):
                told += f", {count / before:.1f} times"
            print(told)
            before = count


def measure_cascades(program, folder, times):
    """Cascades of more and more rows beside one switch, with and without options."""
    path = os.path.join(folder, "cascade.toml")
    for command in (["check"], ["check", "--all", "--margins"], ["solve"]):
        for name, make, sizes in (
            ("one switch", one_switch, SIZES[1:]),
            (f"{SWITCHES} switches", cascade, ROWS),
        ):
            empty = None
            for rows in (0, *sizes):
                text = make(rows)
                write(path, text)
                seconds, memory, count = measured(program, command, path, folder, times, 0)
                if empty is None:
                    empty = (memory, count)
                    continue
                rows = text.count("link]]")
                what = f"{' '.join(command)}, {name}"
                told = told_of(what, f"{rows:5,} rows", text, seconds, memory, count)
                if count is not None:
                    told += f", {(count - empty[1]) / rows:,.0f} a row"
                print(told + f"   {1024 * (memory - empty[0]) / rows:,.0f} bytes a row")


def measure_aircraft(program, folder, times):
    """`solve` of the large cascade beside its `check`."""
    path, text, before = os.path.join(folder, "cascade.toml"), config_text(ways_of(LINKS)), None
    write(path, text)
    for command in ("check", "solve"):
        seconds, memory, count = measured(program, [command], path, folder, times, 0)
        what = f"{command}, {LINKS} links, {SWITCHES} switches"
        rows = text.count("link]]")
        told = told_of(what, f"{rows:5,} rows", text, seconds, memory, count)
        if None not in (count, before):
            told += f", {count / before:.1f} times"
        print(told)
        before = count


def write(path, text):
    """Writes a configuration."""
    with open(path, "w", encoding="ascii") as config:
        config.write(text)


def told_of(what, size, text, seconds, memory, count):
    """The line of a measurement."""
    told = f"{what:36} {size}, {len(text):9,} bytes   {seconds:.3f} s"
    told += f"   {memory / 1024:.1f} MiB peak"
    return told if count is None else f"{told}   {count:,} instructions"


def main():
    parser = argparse.ArgumentParser(description="Measures `check` and `solve` on large tables.")
    parser.add_argument("program", nargs="?", default=PROGRAM)
    parser.add_argument("--times", type=int, default=3)
    parser.add_argument("--cascades", action="store_true", help="measure cascades alone")
    given = parser.parse_args()
    with tempfile.TemporaryDirectory() as folder:
        if not given.cascades:
            measure_tables(given.program, folder, given.times)
        measure_cascades(given.program, folder, given.times)
        measure_aircraft(given.program, folder, given.times)


if __name__ == "__main__":
    main()
