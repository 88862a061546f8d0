"""A replay beside its frames: each frame of a list with the program's lines about it, once at each
switch to which it came."""
from __future__ import annotations

import subprocess
import tempfile
from collections import deque
from dataclasses import dataclass
from typing import Iterable, Iterator

from afdx_tools.config import MOST_PORTS, Config, port_at, read_config
from afdx_tools.faults import Failed, Refused
from afdx_tools.lists import Listed
from afdx_tools.program import program, version
from afdx_tools.recordings.said import latency_lines


@dataclass
class Followed:
    """A frame as it came to a switch, which is a line of the list, or one with the time and the
    place to which a cable brought the frame; the lines about it there so far, its copies of which
    more will be said."""

    listed: Listed
    lines: list[str]
    copies: int


class Following:
    """Follows the frames of a list through the lines of its replay. Several switches have a name
    behind each side, and frames come to further switches in the order in which they left for
    them."""

    def __init__(self, config: str, listed: Iterator[Listed]) -> None:
        self._path = config
        self._config: Config | None = None
        self._listed = listed
        self._latest = 0  # the list's line of the latest frame that it brought
        self._waiting: deque[Followed] = deque()
        self._accepted: dict[tuple[int, str], Followed] = {}  # by line and switch
        self._brought: deque[Listed] = deque()  # what cables bring
        self._last: Followed | None = None  # that of the last D line

    @property
    def config(self) -> Config:
        """The configuration; it is read when the program has taken it."""
        if self._config is None:
            self._config = read_config(self._path)
        return self._config

    def take(self, text: str) -> None:
        """Takes the next line of the replay."""
        kind, *fields = text.split(" ")
        if kind == "V":
            switch = fields.pop(2) if self.config.several else ""
            self._begin(int(fields[0]), switch, text, fields[2] == "accept")
        elif kind in ("D", "T", "L"):
            self._end(kind, fields, text)
        elif kind in ("M", "X") and self._last is not None:
            # the message itself stands in the frame
            self._last.lines.append(" ".join(["M", *fields[:3]]) if kind == "M" else text)
        else:
            raise ValueError

    def _begin(self, number: int, switch: str, text: str, accepted: bool) -> None:
        """A verdict: the frame is followed from here on."""
        if number > self._latest:
            listed = next(self._listed)
            self._latest = listed.line
        else:
            listed = self._brought.popleft()
        if (listed.line, listed.switch) != (number, switch):
            raise ValueError
        followed = Followed(listed, [text], 0)
        self._waiting.append(followed)
        if accepted:
            row = self.config.row_at(-1 if listed.vl is None else listed.vl, self._port(listed))
            if row is None:
                raise ValueError
            followed.copies = len(row.ports)
            self._accepted[number, switch] = followed

    def _end(self, kind: str, fields: list[str], text: str) -> None:
        """The end of a copy; what goes on over a cable comes to another switch."""
        place = fields[1:] if kind == "L" else fields[2:]
        switch = place[1] if self.config.several else ""
        followed = self._accepted[int(fields[0]), switch]
        followed.lines.append(text)
        followed.copies -= 1
        if kind == "D":
            self._last = followed
            port = port_at(self._switch(switch), int(place[-1]))
            if cable := self.config.cables.get(port):
                time, far = int(fields[1]), cable.far % MOST_PORTS
                there = followed.listed._replace(time=time, switch=cable.name, port=far)
                self._brought.append(there)
        if not followed.copies:
            del self._accepted[int(fields[0]), switch]

    def _switch(self, name: str) -> int:
        """The number of a switch."""
        return self.config.names.index(name) if name else 0

    def _port(self, listed: Listed) -> int:
        """The number of the port where a frame came in."""
        return port_at(self._switch(listed.switch), listed.port)

    def done(self) -> Iterator[Followed]:
        """The frames, in the order in which they came, of which nothing more will be said; behind
        the program's lines those of how long their copies took."""
        while self._waiting and self._waiting[0].copies == 0:
            one = self._waiting.popleft()
            came = {self._switch(one.listed.switch): one.listed.time}
            one.lines += list(latency_lines(self.config, one.listed.vl, came, one.lines))
            yield one


def follow(config: str, listed: Iterator[Listed], lines: Iterable[str]) -> Iterator[Followed]:
    """The frames of a list in the order in which they came to a switch, each with the program's
    lines about it there."""
    following = Following(config, listed)
    for line in lines:
        text = line.rstrip("\n")
        if text[:1] not in ("M", "X"):  # these stand right after the D line of their frame
            yield from following.done()
        try:
            following.take(text)
        except (ValueError, LookupError, StopIteration) as error:
            raise Refused(f"the program's line '{text[:60]}' is none of this replay") from error
    yield from following.done()


def replayed(
    config: str, path: str, no_admission: bool, listed: Iterator[Listed]
) -> Iterator[Followed]:
    """Replays a list and follows its frames; Failed where the program had a fault."""
    version()
    words = [program(), "replay", *(["--no-admission"] if no_admission else []), config, path]
    with tempfile.TemporaryFile("w+", encoding="utf-8", errors="replace") as errors:
        with subprocess.Popen(
            words, stdout=subprocess.PIPE, stderr=errors, encoding="ascii", errors="replace"
        ) as run:
            assert run.stdout is not None
            yield from follow(config, listed, run.stdout)
        errors.seek(0)
        fault, status = errors.read().strip(), run.returncode
    if status < 0:
        raise Failed(fault or f"signal {-status} ended the program", 128 - status)
    if status:
        raise Failed(fault or f"the program ended with status {status}", status, ["check", config])
