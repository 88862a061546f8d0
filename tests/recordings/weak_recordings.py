"""Commands on recordings that are read from weak devices; a part of tests/run/devices.py."""
from __future__ import annotations

from collections.abc import Iterator

from cascade import loaded
from made_recordings import of_each_length
from program import Program
from reads import HELD, ORDERS, READS, is_read
from recorded_arrivals import Options, systems_of
from recording_rows import F1, G1, H1, H2, IL, PL, SL, US, ZERO, E, R
from tables import example
from wanted import IN_BASE, POLICE, Command, told_before
from weak import FEW, Weak, weak_devices

OTHER = "ff" + H1[2:]  # a frame that is no AFDX frame
TWO_TEXT = example("two_switches.toml")


class WeakRecording(Weak):
    """A command with options on a recording, read from a weak device. With --line-buffered it must
    write the same, sooner."""

    def __init__(
        self, program: Program, command: Command, options: Options, data: bytes, by_path: bool
    ) -> None:
        self.command, self.options = command, options
        super().__init__(program, [*command.words, *options.words()], data, by_path)

    def lines_before(self, count: int, at_once: bool = False) -> bytes:
        """What is reported of the whole frames of these bytes, if the run then asks for more."""
        options = self.options._replace(at_once=at_once)
        words, systems = self.command
        return told_before(self.program, list(words), options, self.given[:count], systems)


def in_order() -> dict[str, str]:
    """Of both forms: sound ones, one that is damaged, and one of which nothing is left."""
    frames = [R(f"{2 * k:02x}000000", each) for k, each in enumerate((H1, OTHER, H2))]
    return {
        "a pcap": PL + "".join(frames),
        "a pcap that breaks off": F1 + PL,
        "a pcap of which nothing is left": PL + R(ZERO, OTHER),
        "a pcapng": SL + IL + E(US, H1) + E(US, H2),
        "a damaged pcapng": G1 + "00" * 12,
    }


def out_of_order() -> dict[str, str]:
    """Of both forms, one of them with a fault after what is held."""
    frames = [(5, H1), (7, OTHER), (3, H2), (9, H1), (8, H2)]
    back = "".join(R(f"{us:02x}000000", each) for us, each in frames)
    return {
        "a pcap out of order": PL + back,
        "a pcap out of order that breaks off": PL + back + PL,
        "a pcapng out of order": SL + IL + E("05401e18", H1) + E("03401e18", H2),
    }


def tries(command: str) -> Iterator[tuple[str, str, int | None]]:
    """Recordings with their names, and how many arrivals are held. That of `list` is said, since it
    reports elsewhere than --line-buffered does what is skipped."""
    for name, text in in_order().items():
        yield name, text, 0
        if ORDERS:
            yield name, text, HELD if command == "list" else None
    for name, text in out_of_order().items() if ORDERS else ():
        yield name, text, 1
        yield name, text, HELD


def weak_run(
    program: Program, command: Command, options: Options, data: bytes, by_path: bool
) -> None:
    """All that weak devices do to one command on a recording."""
    weak_devices(WeakRecording(program, command, options, data, by_path))


def each_length(program: Program) -> None:
    """Frames of each length, of which a read gives a few bytes: so for each there must be read."""
    command = Command(tuple(POLICE), IN_BASE.systems)
    weak = WeakRecording(program, command, Options(reorder=0), of_each_length(), True)
    found, _ = weak.run(FEW)
    weak.ends(found, (0, b""), weak.whole.out)


def commands_of(config: str, two: str) -> dict[str, Command]:
    """The commands on a recording, by their names."""
    of_two = systems_of(loaded(TWO_TEXT)["switch"])
    listed = {"list": Command(("list", config), IN_BASE.systems)} if "list" in READS else {}
    return {
        "replay": Command(("replay", config), IN_BASE.systems),
        "replay --no-admission": Command(("replay", "--no-admission", config), IN_BASE.systems),
        "police": Command(tuple(POLICE), IN_BASE.systems),
        **listed,
        "over two switches: replay": Command(("replay", two), of_two),
    }


def weak_recordings(program: Program, config: str, two: str) -> Iterator[tuple]:
    """Each command on recordings, read by path and as standard input by turns; the configurations
    are that of the base tables and that of two switches."""
    by_path = False
    yield "police: a pcap with frames of each length", each_length, program
    for named, command in commands_of(config, two).items():
        for name, text, reorder in tries(command.words[0]):
            data, by_path = bytes.fromhex(text), not by_path
            if is_read(data):
                given = program, command, Options(reorder=reorder), data, by_path
                yield f"{named}: {name}, {reorder} held", weak_run, *given
