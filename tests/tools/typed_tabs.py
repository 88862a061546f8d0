#!/usr/bin/python3
"""Types lines into a shell in a terminal, each with a tab at its end, and has the shell run them.

    tests/tools/typed_tabs.py bash|zsh|fish FOLDER LINE..

The shell has the completion of tools/ and begins in FOLDER; `afdx` is a script there that notes its
words; the home has a file own.toml. Prints for each line the words that the script got, as Python
writes them, with ~ for the home, or `nothing` if it wasn't run.
"""
from __future__ import annotations

import contextlib
import os
import pty
import select
import shutil
import signal
import sys
import tempfile
import time
from typing import NamedTuple

QUIET = 0.3  # seconds after which a shell that rests has written all
LOOK = 0.02  # seconds between two looks
LONGEST = 300.0  # seconds that it may take
TOOLS = os.path.join(os.path.dirname(os.path.abspath(__file__)), "..", "..", "tools")
SCRIPT = '#!/bin/sh\nprintf "%s\\0" "$@" >"$NOTED.new"\nmv "$NOTED.new" "$NOTED"\n'
SHELLS = {
    "bash": (["bash", "--norc", "--noprofile", "-i"], "source {home}/afdx.bash"),
    "zsh": (["zsh", "-f", "-i"], "fpath=({home} $fpath); autoload -Uz compinit; compinit -D -u"),
    "fish": (["fish", "--no-config", "-i"], "source {home}/afdx.fish"),
}


def furnish(home: str) -> None:
    """Puts completion and script into a folder."""
    for name in ("afdx.bash", "afdx.fish"):
        shutil.copy(os.path.join(TOOLS, name), os.path.join(home, name))
    shutil.copy(os.path.join(TOOLS, "afdx.zsh"), os.path.join(home, "_afdx"))
    with open(os.path.join(home, "afdx"), "w", encoding="ascii") as file:
        file.write(SCRIPT)
    os.chmod(os.path.join(home, "afdx"), 0o755)
    with open(os.path.join(home, "own.toml"), "w", encoding="ascii"):
        pass


class Typed(NamedTuple):
    """A shell in a terminal: the number of its process, and the terminal's other end."""

    child: int
    terminal: int


def start(shell: str, folder: str, home: str) -> Typed:
    """Starts a shell with completion."""
    words, setup = SHELLS[shell]
    child, terminal = pty.fork()
    if child == 0:
        os.chdir(folder)
        own = {"HOME": home, "XDG_CONFIG_HOME": home, "NOTED": os.path.join(home, "noted")}
        own |= {"PATH": f"{home}:{os.environ['PATH']}", "TERM": "vt100", "LC_ALL": "C.UTF-8"}
        os.execvpe(words[0], words, os.environ | own)
    typed = Typed(child, terminal)
    wait(typed)
    type_in(typed, setup.format(home=home) + "\r")
    return typed


def type_in(typed: Typed, text: str) -> None:
    """Types a text, of which the shell shows at least what was typed, and waits till it is
    quiet."""
    os.write(typed.terminal, os.fsencode(text))
    wait(typed)


def wait(typed: Typed) -> None:
    """Reads until something has come from the shell, and then nothing more does while it waits for
    something to be typed."""
    end, has_come = time.monotonic() + LONGEST, False
    since = time.monotonic()
    while (now := time.monotonic()) < end and not (has_come and now - since >= QUIET):
        if select.select([typed.terminal], [], [], LOOK)[0]:
            os.read(typed.terminal, 65_536)
            since, has_come = time.monotonic(), True
        elif not rests(typed.child):
            since = time.monotonic()


def rests(child: int) -> bool:
    """Each thread of the process sleeps, and it has no process of its own that could wake it."""
    tasks = f"/proc/{child}/task"
    with contextlib.suppress(FileNotFoundError, ProcessLookupError):
        for task in os.listdir(tasks):
            with open(f"{tasks}/{task}/stat", encoding="utf-8", errors="replace") as file:
                if file.read().rpartition(") ")[2][0] != "S":
                    return False
            if os.path.exists(path := f"{tasks}/{task}/children"):
                with open(path, encoding="ascii") as file:
                    if file.read().strip():
                        return False
    return True


def noted(home: str) -> str:
    """The words that the script got, once it has noted them."""
    path = os.path.join(home, "noted")
    end = time.monotonic() + LONGEST
    while not os.path.exists(path):
        if time.monotonic() > end:
            return "nothing"
        time.sleep(0.02)
    with open(path, "rb") as file:
        words = [os.fsdecode(word).replace(home, "~") for word in file.read().split(b"\0")[:-1]]
    os.remove(path)
    return repr(words)


def stop(typed: Typed) -> None:
    """Kills the shell: one that ends as it likes may still write its history as HOME is removed."""
    os.kill(typed.child, signal.SIGKILL)
    os.waitpid(typed.child, 0)
    os.close(typed.terminal)


def main() -> None:
    """Types the lines."""
    shell, folder, *lines = sys.argv[1:]
    with tempfile.TemporaryDirectory() as home:
        furnish(home)
        typed = start(shell, folder, home)
        for line in lines:
            type_in(typed, line + "\t")
            type_in(typed, "\r")
            print(noted(home))
        stop(typed)


if __name__ == "__main__":
    main()
