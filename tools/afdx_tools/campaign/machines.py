"""The machines of a campaign: their logins, as GNU parallel takes them, and which are left out."""
from __future__ import annotations

import os
import re
import time
from typing import Sequence

from afdx_tools.outputs import whole

THIS = ":"  # the machine on which the tool runs
MOST_FAILED = 3  # runs in a row that didn't begin or broke off
# ssh gives up on a machine that doesn't answer for 10 s at first, or for 30 s later
PATIENCE = "-oConnectTimeout=10 -oServerAliveInterval=10 -oServerAliveCountMax=3"


def logins_of(words: Sequence[str]) -> list[str]:
    """The logins of some words, which have several with commas between; `,,` and `\\,` stand for a
    comma."""
    parts = (re.split(r"[,\n]", re.sub(r"\\,|,,", "\0", word)) for word in words)
    logins = (part.replace("\0", ",").strip() for word in parts for part in word)
    return list(dict.fromkeys(login for login in logins if login))


def patient(login: str) -> str:
    """A login whose own ssh gives up too where nothing answers; what it says itself comes first."""
    command, blank, host = login.rpartition(" ")
    if os.path.basename(command.split(" ")[0]) != "ssh":
        return login
    return f"{command} {PATIENCE} {host}"


def name_of(login: str) -> str:
    """The name that the job log has for a login: without groups, number of runs and password."""
    command, blank, host = re.sub(r"^(@[^/]+/?)?(\d+/)?", "", login).rpartition(" ")
    return command + blank + re.sub(r"^([^@:]*):[^@]*@", r"\1@", host)


class Machines:
    """The machines that were named, by their names in the job log; this one, if none was. A machine
    is left out once three runs in a row didn't begin or broke off there; this one never is."""

    def __init__(self, words: Sequence[str]) -> None:
        self.are_named = bool(words)
        self.logins = {name_of(patient(login)): login for login in logins_of(words) or [THIS]}
        self.left_out: list[str] = []
        self._failed = dict.fromkeys(self.logins, 0)
        self._stamp = time.time()

    @property
    def have_others(self) -> bool:
        """Is one of them another machine than this?"""
        return any(name != THIS for name in self.logins)

    def shown(self, name: str) -> str:
        """A machine as the user named it."""
        return self.logins.get(name, name)

    def taking_part(self) -> list[str]:
        """The names of those that aren't left out."""
        return [name for name in self.logins if name not in self.left_out]

    def note(self, name: str, has_answered: bool) -> bool:
        """Notes how a run ended on a machine. Is that one left out from now on?"""
        if name not in self._failed or name == THIS or name in self.left_out:
            return False
        self._failed[name] = 0 if has_answered else self._failed[name] + 1
        if self._failed[name] < MOST_FAILED:
            return False
        self.left_out.append(name)
        return True

    def write(self, path: str, names: Sequence[str]) -> None:
        """Writes logins into a file. GNU parallel reads it again where it is two seconds newer."""
        with whole(path) as file:
            for name in names:
                file.write(os.fsencode(patient(self.logins[name]).replace(",", ",,") + "\n"))
        self._stamp += 2
        os.utime(path, (self._stamp, self._stamp))
