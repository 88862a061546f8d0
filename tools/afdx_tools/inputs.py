"""Where input comes from: files that can be read more than once, standard input."""
from __future__ import annotations

import contextlib
import os
import shutil
import stat
import tempfile
from typing import IO, Iterator

from afdx_tools.faults import Refused, shown


def as_file(path: str) -> str:
    """A path as a word that no program takes for an option."""
    return os.path.join(".", path) if path.startswith("-") else path


@contextlib.contextmanager
def at_hand(path: str) -> Iterator[str]:
    """A file that can be read more than once, under a name that the program takes. `-` is standard
    input. What is no file is copied into one that has no name in any folder; so no copy stays,
    whatever ends the tool."""
    if path != "-" and os.path.isdir(path):
        raise Refused(f"{shown(path)} is a folder")
    if path == "-" or not stat.S_ISREG(os.stat(path).st_mode):
        with tempfile.TemporaryFile() as copy:
            with source_of(path) as file:
                copy_into(copy, file)
            yield open_name(copy)
    elif path.isprintable():
        yield as_file(path)
    else:
        with open(path, "rb") as file:
            yield open_name(file)


def copy_into(copy: IO[bytes], file: IO[bytes]) -> None:
    """Copies what is left of a file into a temporary one; a fault is reported by its folder."""
    try:
        shutil.copyfileobj(file, copy)
        copy.flush()
    except OSError as error:
        raise OSError(error.errno, error.strerror, tempfile.gettempdir()) from error


def open_name(file: IO[bytes]) -> str:
    """The name by which other programs find a file that this one has open."""
    return f"/proc/{os.getpid()}/fd/{file.fileno()}"


def source_of(path: str) -> IO[bytes]:
    """A file, or standard input."""
    return os.fdopen(os.dup(0), "rb") if path == "-" else open(path, "rb")
