"""Waits until all that stands in a pipe is read: its standard output. At most ten minutes, and not
where nobody reads it.

    { echo first; tests/lib/until_read.py; echo second; } | PROGRAM
"""
import fcntl
import select
import sys
import termios
import time

LONGEST = 600.0  # seconds
LOOK = 0.01  # seconds between two looks


def is_read(pipe: int) -> bool:
    """Nothing waits in the pipe."""
    return not any(fcntl.ioctl(pipe, termios.FIONREAD, bytes(4)))


def main() -> None:
    pipe, end = sys.stdout.fileno(), time.monotonic() + LONGEST
    readers = select.poll()
    readers.register(pipe, 0)  # a reader that is gone is told unasked
    while not is_read(pipe) and not readers.poll(0) and time.monotonic() < end:
        time.sleep(LOOK)


if __name__ == "__main__":
    main()
