"""What `afdx explain --list` prints of some words, for unit tests; no program is run. Who calls
`ask_no_program` has the tools read it."""
from __future__ import annotations

from afdx_tools import known

DROPS = ("over-rate", "over-lmax", "under-lmin", "wrong-port")
LINES = (
    "L n side port: its copy for that output port was lost to a full buffer.",
    "strange m side port WORD: frame m of LEFT left that output port, and nothing explains it.",
    "passed n side port WORD: frame n of CAME left that output port, and had to be dropped.",
    "stopped n side port: frame n of CAME had to pass, and it didn't leave that output port.",
    "late n side port NS: frame n of CAME left that output port NS ns later than it may.",
    "early n side port NS: frame n of CAME left that output port NS ns before it can have gone.",
    "unsure n side port: from the arrival of frame n of CAME on nothing is said of its link.",
    "unlawful n side port WORD: the system at that port sent frame n of CAME, which isn't lawful.",
    "number n side port Q: the system at that port sent frame n of CAME with another number.",
    "soon n side port NS: the system at that port sent frame n of CAME NS ns too soon.",
    "differs n side port: the system at that port sent frame n of CAME, which isn't its copy.",
    "apart n side port NS: the system at that port sent frame n of CAME NS ns later than it may.",
    "single n side port: the system at that port sent frame n of CAME, and no copy of it came.",
)
LISTED = "\n".join(
    [f"drop {word}\n{word}: why.\n" for word in DROPS]
    + [f"line {line.split()[0]}\n{line}\nMore of it.\n" for line in LINES]
)

called = known.listed  # which asks the program


def ask_no_program() -> None:
    """From now on the tools read these words, where they would ask a program for them."""
    setattr(known, "listed", lambda: LISTED)  # (a patch might be stopped with those of a test)
