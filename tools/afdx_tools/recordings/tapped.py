"""Whether recordings agree with a table of taps, and the program's words that follow from it."""
from __future__ import annotations

import filecmp
import functools
import os
from typing import Callable, Iterable, NamedTuple

from afdx_tools.config import MOST_PORTS, Config, port_at, read_config
from afdx_tools.faults import LONGEST_NAME, Failed, Refused, cut, shown
from afdx_tools.progress import Progress
from afdx_tools.recordings.interfaces import OTHERS, Interface, interfaces_of
from afdx_tools.recordings.options import SENDERS, is_packed
from afdx_tools.recordings.taps import (
    IN,
    NONE,
    OUT,
    SIDES,
    Found,
    Place,
    Recording,
    Tap,
    WrongTaps,
    called,
    matched,
    read_taps,
)

SENDER = b"\x02\0\0"  # a source address of an end system begins with it
DISAGREE = 3  # the status where recording and table don't agree
FEW = 3  # places that are named of frames that contradict theirs


class Tapped(NamedTuple):
    """An interface of a recording, by its number there, and its row."""

    recording: str
    number: int
    interface: Interface
    tap: Tap

    def at(self) -> str:
        """The interface and what the table says of it."""
        interface = called(self.number, self.interface.name)
        return f"{self.recording}: {interface} is {self.tap.says} by {self.tap.row.place}"


# ---- what the frames say -------------------------------------------------------------------------


class Claims:
    """Where the systems of a configuration are, by the source addresses of their frames."""

    def __init__(self, config: Config, all_tapped: Iterable[Tapped]) -> None:
        self.config, self.ports = config, config.ports_by_id()
        self.names = {port: end.name for port, end in config.by_port().items()}
        # the places from which frames came that name them
        self.named = {
            each.tap.place
            for each in all_tapped
            if each.tap.direction == IN
            and any(self.agrees(each.tap, source) for source in each.interface.sources)
        }

    def place_of(self, source: bytes) -> Place | None:
        """The place that a source address names; None where it names none."""
        side = SIDES.get(source[-1]) if source.startswith(SENDER) else None
        port = self.ports.get(int.from_bytes(source[3:5], "big"))
        if not side or not port:
            return None
        return Place(side, port % MOST_PORTS, self.config.switch_of(port))

    def port_of(self, place: Place) -> int:
        """The number of a place's port."""
        names = self.config.names
        return port_at(names.index(place.switch) if names else 0, place.port)

    def is_cable(self, place: Place | None) -> bool:
        """A cable to another switch is there."""
        return place is not None and self.port_of(place) in self.config.cables

    def called(self, source: bytes) -> str:
        """That place in words."""
        place = self.place_of(source)
        if place:
            return f"{place} ({self.names[self.port_of(place)]})"
        return f"no place ({source.hex(':')})" if source != OTHERS else "other addresses"

    def agrees(self, tap: Tap, source: bytes) -> bool:
        """A frame of that source can come there: into the switch only from the system at the port,
        or over a cable from one of another switch; out of it only from another one on that side;
        anything where it doesn't count."""
        place, here = self.place_of(source), tap.place
        if tap.direction == NONE:
            return True
        if tap.direction == IN and not self.is_cable(here):
            return place == here
        if place is None or here is None or place.side != here.side:
            return False
        return place.switch != here.switch if tap.direction == IN else place != here

    def are_others(self, tap: Tap, sources: Iterable[bytes]) -> bool:
        """These are systems of the same side that were recorded at their places, too."""
        side = tap.place.side if tap.place else None
        places = map(self.place_of, sources)
        return all(place and place in self.named and place.side == side for place in places)

    def come_out(self, tap: Tap, sources: Iterable[bytes]) -> bool:
        """These are such systems, and their frames come out of the switch at the tap's place."""
        ports = self.senders.get(self.port_of(tap.place), set()) if tap.place else set()
        places = map(self.place_of, sources)
        come = all(place is not None and self.port_of(place) in ports for place in places)
        return come and self.are_others(tap, sources)

    @functools.cached_property
    def senders(self) -> dict[int, set[int]]:
        """The ports of the senders of the links whose frames come out at each port."""
        links, several = self.config.links, self.config.several
        ends = several.ways if several else ((vl, end) for vl in links for end in links[vl].ports)
        found: dict[int, set[int]] = {}
        for vl, end in ends:
            found.setdefault(end, set()).add(links[vl].port)
        return found

    def is_wrong(self, tap: Tap, sources: Iterable[bytes]) -> bool:
        """The place is wrong, where not one frame agrees with it. It may be right if no system is
        there, or if the one there sends as others do; but not if their frames come out there."""
        if tap.direction == OUT:
            return True
        if tap.place is None or self.port_of(tap.place) not in self.names:
            return False
        return not self.are_others(tap, sources) or self.come_out(tap, sources)


def swapped(recording: Recording) -> str:
    """What is wrong with one of two recordings whose frames all name the other side; or nothing."""
    counts = {"A": 0, "B": 0}
    for interface in recording.interfaces:
        for source, seen in interface.sources.items():
            side = SIDES.get(source[-1]) if source.startswith(SENDER) else None
            if side:
                counts[side] += seen.frames
    side = recording.side or ""
    other = {"A": "B", "B": "A"}.get(side)
    if other is None or counts[side] or not counts[other]:
        return ""
    total = sum(interface.frames for interface in recording.interfaces)
    return (
        f"{recording.name} is given as the recording of {recording.side}, and {counts[other]} of "
        f"its {total} AFDX frames name side {other}, none {recording.side}"
    )


def row_of(tapped: Tapped, count: int) -> dict:
    """An interface as a row of a report, with so many frames that contradict its place."""
    name, tap = tapped.interface.name, tapped.tap
    return {
        "recording": tapped.recording,
        "interface": tapped.number,
        "name": None if name is None else cut(name, LONGEST_NAME),
        "place": str(tap.place) if tap.place else None,
        "direction": tap.direction,
        "frames": tapped.interface.frames,
        "contradicting": count,
    }


def note_frames(found: Found, claims: Claims, tapped: Tapped) -> None:
    """Notes what frames an interface has, and those that contradict its place: a fault where the
    place is wrong, else worth a look."""
    tap, total = tapped.tap, tapped.interface.frames
    others = {s: n for s, n in tapped.interface.sources.items() if not claims.agrees(tap, s)}
    count = sum(source.frames for source in others.values())
    found.rows.append(row_of(tapped, count))
    if not total and tap.direction != NONE:
        found.remarks.append(f"{tapped.at()}, and has no AFDX frame")
    if not count:
        return
    most = sorted(others, key=lambda source: -others[source].frames)
    places = ", ".join(claims.called(source) for source in most[:FEW])
    more = f" and {len(most) - FEW} others" if len(most) > FEW else ""
    first = min(source.first for source in others.values())
    line = f"{tapped.at()}, and {count} of its {total} AFDX frames name {places}{more}; "
    line += f"the first is number {first}"
    if tap.direction == IN and claims.come_out(tap, others):
        which = "were both directions" if count < total else "was the other direction"
        line += f". Such frames come out there: {which} recorded?"
    is_wrong = count == total and claims.is_wrong(tap, others)
    (found.faults if is_wrong else found.remarks).append(line)


# ---- the words -----------------------------------------------------------------------------------


class Asked(NamedTuple):
    """What is asked of a table: the word of an interface; where one of several switches is judged,
    which: rows of others may be of other recordings; and whether systems are judged as senders, for
    which something has to come in, and a switch beside them."""

    word: Callable[[Claims, Tap, int], str]
    switch: str | None = None
    of_senders: bool = False
    of_switch: bool = True


def word_of(claims: Claims, tap: Tap, number: int) -> str:
    """The word of the program for an interface. What a cable brings is left out: it is computed."""
    is_in = tap.direction == IN and not claims.is_cable(tap.place)
    return f"--interface={number}={tap.place if is_in else '-'}"


def want_switch(config: Config, switch: str | None) -> None:
    """Refused where that is no switch of the configuration, or none is said of several."""
    if (switch or "") not in (config.names or ("",)):
        names = ", ".join(config.names)
        what = f"it has to be one of {names}" if names else "there is one switch a side"
        raise Refused(f"--switch {shown(switch) if switch else 'is missing'}: {what}")


def conform_word(tap: Tap, number: int) -> str:
    """The word of `conform` for an interface; none where it doesn't count."""
    if tap.place is None:
        return ""
    name = "interface" if tap.direction == IN else "left"
    return f"--{name}={number}={tap.place.side}:{tap.place.port}"


def asked_for(
    config: Config, switch: str | None, of_senders: bool = False, of_switch: bool = True
) -> Asked:
    """The words of `conform`, of one switch of several: there cables bring arrivals, too, what
    leaves counts, where the switch is judged, and an interface without a word is left out."""
    want_switch(config, switch)

    def word(_: Claims, tap: Tap, number: int) -> str:
        is_out = not of_switch and tap.direction == OUT
        return "" if is_out or tap.is_of_another(switch) else conform_word(tap, number)

    return Asked(word, switch, of_senders, of_switch)


OF_REPLAYS = Asked(word_of)


def note_senders(found: Found, of_switch: bool) -> None:
    """Notes where nothing came in, by which systems are judged, and where nothing left, by which a
    switch is."""
    if not any(word.startswith("--interface=") for word in found.words):
        found.faults.append("no interface goes in: nothing that systems sent was recorded")
    elif of_switch and not any(word.startswith("--left=") for word in found.words):
        found.remarks.append("no interface goes out: these words judge the systems alone")


def note_words(found: Found, claims: Claims, rows: list[dict[int, Tap]], asked: Asked) -> None:
    """The words for all recordings; an interface that is left out is so in both."""
    for number in sorted(set().union(*rows)):
        words = {asked.word(claims, each[number], number) for each in rows if number in each}
        words -= {""}
        if f"--interface={number}=-" in words and len(words) > 1:
            found.faults.append(
                f"interface {number} is left out of one recording and not of the other, which no "
                "word says; record the interfaces of both networks in one order"
            )
        found.words += sorted(words)
    if asked.of_senders:
        if any(rows):
            note_senders(found, asked.of_switch)
        found.words.insert(0, SENDERS)


def want_switches(config: Config, taps: list[Tap]) -> None:
    """WrongTaps where a row names no switch of the configuration, or one where there is but one."""
    wrong = [tap for tap in taps if tap.place and tap.place.switch not in (config.names or ("",))]
    what = f"it has to be one of {', '.join(config.names)}"
    what = what if config.several else "the configuration has one switch a side"
    if wrong:
        raise WrongTaps([f"{tap.row.at('switch')}: {what}" for tap in wrong])


def are_same(paths: list[str]) -> bool:
    """Two recordings have the same content."""
    one, other = paths
    return os.path.samefile(one, other) or filecmp.cmp(one, other, shallow=False)


def read(paths: list[str], names: list[str], progress: Progress) -> list[Recording]:
    """The recordings; that of A first where there are two."""
    sides: list[str | None] = ["A", "B"] if len(paths) == 2 else [None]
    recordings = []
    for path, name, side in zip(paths, map(shown, names), sides):

        def report(count: int, name: str = name) -> None:
            progress.report(f"{count >> 20} MiB of {name} read")

        recordings.append(Recording(name, side, interfaces_of(path, report)))
    progress.done()
    return recordings


def checked(
    config: Config,
    taps: list[Tap],
    paths: list[str],
    names: list[str],
    progress: Progress,
    asked: Asked = OF_REPLAYS,
) -> Found:
    """Looks at one recording, or at those of A and B, and at the table. Recordings have to be files
    that can be read again; `names` are what they are called."""
    found = Found()
    want_switches(config, taps)
    if len(paths) == 2 and are_same(paths):
        found.faults.append(f"{shown(names[0])} and {shown(names[1])} are the same recording")
        return found
    rows: list[dict[int, Tap]] = []
    all_tapped = []
    for path, recording in zip(paths, read(paths, names, progress)):
        if not recording.interfaces:
            what = "a packed file: unpack it first"
            what = what if is_packed(path) else "no recording that has an interface"
            found.faults.append(f"{recording.name} is {what}")
            continue
        if swapped(recording):
            found.faults.append(swapped(recording))
            continue
        rows.append(matched(found, taps, recording, asked.switch))
        all_tapped += [
            Tapped(recording.name, number, recording.interfaces[number], tap)
            for number, tap in rows[-1].items()
        ]
    claims = Claims(config, all_tapped)
    for tapped in all_tapped:
        note_frames(found, claims, tapped)
    note_words(found, claims, rows, asked)
    return found


def word_of_any(_: Claims, tap: Tap, number: int) -> str:
    """The word of `conform` for an interface, behind the name of its switch."""
    return f"{tap.place.switch} {conform_word(tap, number)}" if tap.place else ""


OF_ALL_SWITCHES = Asked(word_of_any)


def found_by(
    taps: str,
    config: str,
    paths: list[str],
    names: list[str],
    progress: Progress,
    asked: Asked = OF_REPLAYS,
) -> Found:
    """What the recordings are, by a table of --taps; Failed where they don't agree with it."""
    rows = read_taps(taps, asked.switch)
    found = checked(read_config(config), rows, paths, names, progress, asked)
    if found.faults:
        more = len(found.faults) - 1
        others = f" (and {more} more; afdx-taps says all)" if more else ""
        raise Failed(found.faults[0] + others, DISAGREE)
    return found
