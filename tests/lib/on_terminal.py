"""Runs a program whose standard error is a terminal, and prints what it wrote there.

    tests/lib/on_terminal.py [--slowly SECONDS] PROGRAM WORD..

Its standard input is the caller's, its standard output is not kept. Ends with the program's status.

With --slowly it reads the caller's list slowly: behind the first line comes a remark, a letter at a
time, until something stands on the terminal, or for so many seconds from when the first line was
read. Then comes the rest.
"""
import os
import pty
import select
import subprocess
import sys
import time

sys.dont_write_bytecode = True
from until_read import is_read  # noqa: E402

APART = 0.1  # seconds from one letter of the remark to the next
MOST = 1200  # letters


def written(terminal: int) -> bytes:
    """All bytes that come from it. Linux ends them with a fault once no program holds its end."""
    text = b""
    try:
        while piece := os.read(terminal, 65_536):
            text += piece
    except OSError:
        pass
    return text.replace(b"\r\n", b"\n")


def feed(pipe: int, terminal: int, seconds: float) -> None:
    """Gives the program the caller's list, as is said above."""
    first, _, rest = sys.stdin.buffer.read().partition(b"\n")
    os.write(pipe, first + b"\n#")
    begin = None
    for _ in range(MOST):
        if begin is None and is_read(pipe):
            begin = time.monotonic()
        if begin is not None and time.monotonic() - begin >= seconds:
            break
        if select.select([terminal], [], [], APART)[0]:
            break
        os.write(pipe, b".")
    with os.fdopen(os.dup(pipe), "wb") as file:
        file.write(b"\n" + rest)


def main() -> int:
    words = sys.argv[1:]
    seconds = None
    if words[0] == "--slowly":
        seconds, words = float(words[1]), words[2:]
    terminal, end = pty.openpty()
    given = subprocess.PIPE if seconds is not None else None
    with subprocess.Popen(
        words, stdin=given, stdout=subprocess.DEVNULL, stderr=end, bufsize=0
    ) as program:
        os.close(end)
        if seconds is not None and program.stdin is not None:
            try:
                feed(program.stdin.fileno(), terminal, seconds)
            except BrokenPipeError:
                pass  # what it wrote says why
            program.stdin.close()
        sys.stdout.buffer.write(written(terminal))
        sys.stdout.flush()
    return program.returncode


if __name__ == "__main__":
    sys.exit(main())
