"""What benches of this machine have in common: a network of their own, and why there is none."""
from __future__ import annotations

import os
import shutil
import subprocess
import sys

from program import must

PATIENCE = 300  # seconds beside those of the traffic
TRIES = 3  # of a bench that was too slow
NEEDED = ("ip", "unshare", "dumpcap")


def network_words() -> list[str]:
    """How a command gets a network of its own."""
    return ["unshare", "--net"] if os.geteuid() == 0 else ["unshare", "--map-root-user", "--net"]


def why_not(needed: tuple[str, ...] = NEEDED) -> str:
    """Why no bench can be made here that needs these programs; empty where one can."""
    missing = [name for name in needed if shutil.which(name) is None]
    if missing:
        return f"there is no {', '.join(missing)}"
    words = [*network_words(), "ip", "link", "add", "p1", "type", "veth", "peer", "name", "s1"]
    run = subprocess.run(words, capture_output=True, text=True, check=False)
    return run.stderr.strip().split("\n")[0] or f"status {run.returncode}" if run.returncode else ""


def why_no_network() -> str:
    """Why no network of its own can be made here; empty where one can."""
    return why_not(NEEDED[:2])


def run_bench(bench: str, name: str, seconds: int, folder: str) -> None:
    """Runs the script of a bench for so many seconds of traffic."""
    run_script(bench, seconds, name, str(seconds), folder)


def run_script(bench: str, seconds: int, *given: str) -> None:
    """Runs a script with these words, in a network of its own, for so many seconds of traffic."""
    words = [*network_words(), sys.executable, bench, *given]
    run = subprocess.run(
        words, capture_output=True, text=True, timeout=seconds + PATIENCE, check=False
    )
    must(run.returncode == 0, f"the bench ended with {run.returncode}: {run.stderr.strip()}")
