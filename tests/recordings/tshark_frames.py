"""What tshark says of the frames of a recording, compared with the reference of tests/lib."""
from __future__ import annotations

import json
import shutil
import subprocess
from typing import NamedTuple

from program import Program, Wrong, must
from recorded import Broken, Frame, Recording, Section, numbered, recorded
from recorded_arrivals import Options

LONGEST = 3600  # seconds of one run, which end one that hangs


class Said(NamedTuple):
    """A frame as tshark reports it, and whether it found something wrong after the last."""

    frames: list[dict]
    is_faulty: bool


def has(program: str) -> bool:
    """The program is installed."""
    return shutil.which(program) is not None


def said_of(path: str) -> Said:
    """What tshark reports of a recording."""
    words = ["tshark", "-n", "-r", path, "-T", "json", "-x", "-j", "frame"]
    done = subprocess.run(words, capture_output=True, timeout=LONGEST, check=False)
    try:
        packets = json.loads(done.stdout or b"[]")
    except ValueError:
        raise Wrong(f"tshark writes no JSON: {done.stderr!r}") from None
    frames = [packet["_source"]["layers"] for packet in packets]
    return Said(frames, done.returncode != 0)


def nanoseconds(text: str | None) -> int | None:
    """A stamp as tshark writes it, in seconds with nine decimals."""
    if text is None:
        return None
    seconds, _, fraction = text.partition(".")
    return int(seconds + fraction)


def has_fine_units(data: bytes) -> bool:
    """The units of an interface's stamps are so fine that tshark computes with too few bits."""
    sections: list[Section] = []
    try:
        for _ in numbered(data, sections):
            pass
    except Broken:
        pass
    units = [each.units for section in sections for each in section.interfaces]
    return any((unit - 1) * 10**9 >= 2**64 for unit in units)


def same_frame(number: int, frame: Frame | None, layers: dict, are_fine: bool) -> None:
    """Both say the same of a number."""
    told = layers["frame"]
    must(told["frame.number"] == str(number), f"tshark numbers {number} otherwise")
    must(("frame.encap_type" in told) == (frame is not None), f"{number} is no frame for one")
    if frame is None:
        return
    flags = int(told.get("frame.packet_flags", "0"), 16)
    found = {
        "interface": int(told.get("frame.interface_id", "0")),
        "Ethernet": told["frame.encap_type"] == "1",
        "original length": int(told["frame.len"]),
        "captured length": int(told["frame.cap_len"]),
        "wrong check sequence": flags >> 24 & 1 == 1,
        "bytes": layers.get("frame_raw", [""])[0],
        "stamp": nanoseconds(told.get("frame.time_epoch")),
    }
    wanted = {
        "interface": frame.interface,
        "Ethernet": frame.link_type == 1,
        "original length": frame.original,
        "captured length": len(frame.bytes),
        "wrong check sequence": frame.found_wrong,
        "bytes": frame.bytes.hex(),
        "stamp": frame.stamp,
    }
    if are_fine:
        wanted["stamp"] = found["stamp"]
    for what, value in wanted.items():
        must(found[what] == value, f"{number}, {what}: {value}, by tshark {found[what]}")


def interface_of(layers: dict) -> int:
    """The number of a frame's interface."""
    return int(layers["frame"].get("frame.interface_id", "0"))


def lines_of(frames: list[dict]) -> list[str]:
    """The lines of a list that say what tshark says of frames, where interface K is at A:K+1; first
    letters aside."""
    lines = list[str]()
    origin: int | None = None
    for number, layers in enumerate(frames, 1):
        told, content = layers["frame"], layers.get("frame_raw", [""])[0]
        if "frame.encap_type" not in told:
            lines.append(f"# no-frame {number}")
        elif not content.startswith("03000000"):
            lines.append(f"# not-afdx {number}")
        else:
            moment = nanoseconds(told["frame.time_epoch"])
            assert moment is not None
            origin = moment if origin is None else origin
            lines.append(f" {moment - origin} A {interface_of(layers) + 1} {content}")
    return lines


def listed_as_tshark(program: Program, path: str) -> None:
    """`list` says of number n what tshark says of frame n, in line n, where no arrival is held; up
    to a fault."""
    frames = said_of(path).frames
    places = {interface_of(layers): f"A:{interface_of(layers) + 1}" for layers in frames}
    options, wanted = Options(places, reorder=0), lines_of(frames)
    found = program.run("list", *options.words(), "base.toml", path)
    lines = [line if line[0] == "#" else line[1:] for line in found.out.decode().splitlines()]
    must(found.status in (0, 3), f"status {found.status}: {found.err!r}")
    must(found.status == 3 or len(lines) == len(wanted), f"{len(lines)} lines")
    for number, (line, said) in enumerate(zip(lines, wanted), 1):
        must(line == said, f"line {number} is {line}, by tshark {said}")


def same_as_tshark(path: str) -> Recording:
    """The reference and tshark say the same of a file; what they say."""
    with open(path, "rb") as file:
        data = file.read()
    said, wanted = said_of(path), recorded(data)
    must(
        len(said.frames) == len(wanted.numbers),
        f"{len(wanted.numbers)} numbers, by tshark {len(said.frames)}; {wanted.fault}",
    )
    are_fine = has_fine_units(data)
    for number, pair in enumerate(zip(wanted.numbers, said.frames), 1):
        same_frame(number, *pair, are_fine)
    must(said.is_faulty == (wanted.fault != ""), f"a fault {wanted.fault!r}, not so by tshark")
    return wanted
