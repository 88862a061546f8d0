"""The program: where it is, and what it is, asked before anything is given to it."""
from __future__ import annotations

import contextlib
import functools
import os
import shutil
import subprocess

from afdx_tools.faults import Failed, Refused

# the folder of the package: tools/ of a checkout, or where bin/install puts it
HERE = os.path.dirname(os.path.dirname(os.path.realpath(__file__)))
PATIENCE = 2.0  # seconds after which a program is asked again to end
NAME = "afdx "  # how its answer begins
LONGEST = 40  # characters of another answer that are shown
NEW_LINE = "\n"
# when faults are explained; the program doesn't by itself, since the tools read what it says
EXPLAIN = os.environ.get("AFDX_EXPLAIN", "auto")
os.environ["AFDX_EXPLAIN"] = "never"


def program() -> str:
    """The path of the program: AFDX, else bin/afdx of the checkout or of the install, else PATH."""
    named = os.environ.get("AFDX")
    if named:
        return named
    for up in ("..", os.path.join("..", "..")):
        near = os.path.normpath(os.path.join(HERE, up, "bin", "afdx"))
        if os.access(near, os.X_OK):
            return near
    found = shutil.which("afdx")
    if found is None:
        raise Refused("the program afdx isn't found: name it by the environment variable AFDX")
    return found


@functools.cache
def version() -> str:
    """What the program calls itself; Failed where it isn't the program `afdx`. Standard error is
    seen: the program of a checkout may build itself first, which takes minutes and is said there.
    """
    afdx, nothing = program(), subprocess.DEVNULL
    try:
        run = subprocess.run(
            [afdx, "--version"], stdin=nothing, stdout=subprocess.PIPE, check=False
        )
    except OSError as error:
        raise Failed(f"{afdx} can't be run: {error.strerror}", 4) from error
    if run.returncode < 0:
        raise Failed(f"signal {-run.returncode} ended the program", 128 - run.returncode)
    said = run.stdout.decode(errors="replace").strip()
    if run.returncode or not said.startswith(NAME):
        what = f"says '{said.partition(NEW_LINE)[0][:LONGEST]}'" if said else "says nothing"
        text = f"{afdx} is not the program afdx: its --version {what}"
        raise Failed(f"{text}, with status {run.returncode}", 4)
    return said


def end(run: subprocess.Popen[bytes]) -> None:
    """Ends another program, which may want to be asked more than once."""
    while run.poll() is None:
        run.terminate()
        with contextlib.suppress(subprocess.TimeoutExpired):
            run.wait(PATIENCE)
