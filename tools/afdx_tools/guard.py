"""How a tool ends: its status, one line for a fault, and what a signal does."""
from __future__ import annotations

import io
import os
import signal
import sys
import time
import traceback
from typing import Callable, NoReturn

from afdx_tools.explaining import explain
from afdx_tools.faults import Failed, Refused, leave, let_go, report_fault

TWICE = 0.5  # seconds in which a signal that comes again is the same one
HEEDED: dict[int, float] = {}  # when a signal came
FAULTY = 70  # the status where a tool has a fault of its own
STOPPING = {"SIGSTOP", "SIGTSTP", "SIGTTIN", "SIGTTOU", "SIGCONT"}
PASSED_OVER = {"SIGCHLD", "SIGURG", "SIGWINCH"}  # they end no program
SUDDEN = {"SIGKILL", "SIGABRT", "SIGBUS", "SIGFPE", "SIGILL", "SIGSEGV", "SIGSYS", "SIGTRAP"}
UNHEEDED = {signal.Signals[name] for name in STOPPING | PASSED_OVER | SUDDEN}


def streams() -> bool:
    """Puts something in the place of streams that were closed; false where nothing can be said.
    Names that aren't UTF-8 are printed with `\\xNN`."""
    for number, mode in ((0, os.O_RDONLY), (1, os.O_WRONLY), (2, os.O_WRONLY)):
        try:
            os.fstat(number)
        except OSError:
            os.dup2(os.open(os.devnull, mode), number)
    if sys.stdin is None:
        sys.stdin = open(0, encoding="utf-8")
    if sys.stderr is None:
        sys.stderr = open(2, "w", encoding="utf-8")
    if sys.stdout is None:
        return False
    for stream in (sys.stdout, sys.stderr):
        if isinstance(stream, io.TextIOWrapper):
            stream.reconfigure(errors="backslashreplace")
    return True


class Ended(SystemExit):
    """A signal ended the tool."""


def heed_signals() -> None:
    """Lets each signal that would end the tool at once end it so that nothing temporary is left.
    One that is ignored stays ignored."""
    for number in signal.valid_signals() - UNHEEDED:
        if signal.getsignal(number) == signal.SIG_DFL:
            signal.signal(number, end_by)


def leave_signals() -> None:
    """Lets signals be as they were, when nothing is left to tidy up."""
    for number in signal.valid_signals() - UNHEEDED:
        if signal.getsignal(number) == end_by:
            signal.signal(number, signal.SIG_DFL)


def end_by(number: int, frame: object) -> None:
    """Ends the tool with the status that shells give a signal. Some programs send it twice, which
    is no other one."""
    now = time.monotonic()
    if now - HEEDED.get(number, -TWICE) < TWICE:
        return
    HEEDED[number] = now
    if number == signal.SIGINT:
        raise KeyboardInterrupt
    raise Ended(128 + number)


def flush(status: int) -> int:
    """The status of a tool whose output is written. If it can't be, that is a fault, unless the
    tool has had another one."""
    try:
        if sys.stdout is not None:
            sys.stdout.flush()
    except OSError:
        let_go(sys.stdout)
        if not status:
            raise
    return status


def end_of(tool: str, error: BaseException, stopped: str) -> NoReturn:
    """The last line and the status for an exception."""
    flush(FAULTY)
    if isinstance(error, Failed):
        report_fault(tool, error)
        explain(str(error), error.again)
        sys.exit(error.status)
    if isinstance(error, Refused):
        leave(tool, error)
    if isinstance(error, KeyboardInterrupt):
        leave(tool, stopped, 130)
    if isinstance(error, MemoryError):
        leave(tool, "memory", 4)
    if not isinstance(error, OSError):
        at = traceback.extract_tb(error.__traceback__)[-1]
        place = f"{os.path.basename(at.filename)} line {at.lineno}"
        leave(tool, f"a fault of this tool: {type(error).__name__} in {place}: {error}", FAULTY)
    if error.filename is None:  # no file was named: it was a stream
        leave(tool, f"device Write: {error.strerror}", 4)
    leave(tool, f"{os.fsdecode(error.filename)}: {error.strerror}", 4)


def guarded(
    tool: str, work: Callable[[], int], stopped: str = "stopped", wants_output: bool = True
) -> NoReturn:
    """Runs a tool: its status, or one line on standard error, and never more than that. Whether it
    `wants_output`: is it a fault that standard output is closed?"""
    if not streams() and wants_output:
        leave(tool, "device Write: standard output is closed", 4)
    heed_signals()
    try:
        try:
            status = work()
        except Ended:
            let_go(sys.stdout)
            raise
        except SystemExit as end:  # help was asked for, or a fault was reported
            status = end.code if isinstance(end.code, int) else 0
        sys.exit(flush(status))
    except (Exception, KeyboardInterrupt) as error:
        end_of(tool, error, stopped)
    finally:
        leave_signals()
