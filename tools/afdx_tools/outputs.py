"""Where output goes: files that get their names when they are whole, a device, standard output."""
from __future__ import annotations

import contextlib
import errno
import os
import secrets
import stat
import sys
import tempfile
from typing import BinaryIO, Collection, Iterator, Mapping

from afdx_tools.placing import HIDDEN, named, together

NO_UNNAMED = (errno.EOPNOTSUPP, errno.EISDIR, errno.EINVAL)  # the file system has no such files
OWN_FILES = "/proc/self/fd"  # the files that this process has open, by their numbers


def is_written_through(path: str) -> bool:
    """Does a device, a FIFO, a symbolic link or the like stand there, which has to stay?"""
    try:
        return not stat.S_ISREG(os.lstat(path).st_mode)
    except FileNotFoundError:
        return False


@contextlib.contextmanager
def standard_output() -> Iterator[BinaryIO]:
    """Standard output; its faults are reported by its name."""
    if sys.stdout is None:
        raise OSError(0, "it is closed", "standard output")
    try:
        yield sys.stdout.buffer
        sys.stdout.buffer.flush()
    except OSError as error:
        if error.filename is None:
            error.filename = "standard output"
        raise


class Partial:
    """A new file in the folder of a path, whose name it gets when it is whole. Till then it has
    none, so that nothing is left of it whatever ends the tool; or, where the file system has no
    such files, one that is new and that nobody can know before. Either way no link is followed."""

    def __init__(self, path: str) -> None:
        self.path, self.folder = path, os.path.dirname(path) or "."
        self.name: str | None = None
        try:
            self.file: BinaryIO = os.fdopen(self.opened(), "wb")
        except OSError as error:
            raise OSError(error.errno, error.strerror, path) from error

    def opened(self) -> int:
        """A new file, as open to others as the caller's mask lets it be."""
        if os.path.isdir(OWN_FILES):
            try:
                return os.open(self.folder, os.O_TMPFILE | os.O_WRONLY | os.O_CLOEXEC, 0o666)
            except OSError as error:
                if error.errno not in NO_UNNAMED:
                    raise
        number, self.name = tempfile.mkstemp(".part", HIDDEN, self.folder)
        mask = os.umask(0)
        os.umask(mask)
        os.fchmod(number, 0o666 & ~mask)
        return number

    def give_name(self) -> None:
        """The file gets its name; it is then as open to others as the one that had it before."""
        with contextlib.suppress(FileNotFoundError):
            before = os.lstat(self.path).st_mode
            if stat.S_ISREG(before):
                os.fchmod(self.file.fileno(), stat.S_IMODE(before))
        if self.name is None:
            self.name = self.link()
        self.file.close()
        os.replace(self.name, self.path)
        self.name = None

    def link(self) -> str:
        """Gives an unnamed file a name that no other has."""
        name = f"{HIDDEN}{secrets.token_hex(8)}.part"
        folder = os.open(self.folder, os.O_RDONLY | os.O_DIRECTORY | os.O_CLOEXEC)
        try:
            number = self.file.fileno()
            os.link(f"{OWN_FILES}/{number}", name, dst_dir_fd=folder, follow_symlinks=True)
        finally:
            os.close(folder)
        return os.path.join(self.folder, name)

    def remove(self) -> None:
        """Removes what has no name of its own; the fault of a last write was reported before."""
        with contextlib.suppress(OSError):
            self.file.close()
        if self.name is not None:
            with contextlib.suppress(FileNotFoundError):
                os.remove(self.name)


@contextlib.contextmanager
def whole(path: str) -> Iterator[BinaryIO]:
    """A regular file, which gets its name when it is whole; it is as open to others as the one was
    that had the name before."""
    partial = Partial(path)
    try:
        yield partial.file
        with named(path):
            partial.file.flush()
            partial.give_name()
    except OSError as error:
        if error.filename is None:  # a write
            error.filename = path
        raise
    finally:
        partial.remove()


def finished(path: str | None) -> contextlib.AbstractContextManager[BinaryIO]:
    """Where a path's bytes go: a file that is there only when it is whole; what isn't a regular
    file as it stands; standard output for `-` and where no path is given."""
    if path is None or path == "-":
        return standard_output()
    if is_written_through(path):
        return open(path, "wb")
    return whole(path)


def write_folder(folder: str, texts: Mapping[str, str], others: Collection[str] = ()) -> None:
    """Writes texts into files of a folder, all or none of them. Of the `others` that an earlier run
    may have left there none stays."""
    os.makedirs(folder, exist_ok=True)
    with together(folder, others) as new:
        for name, text in texts.items():
            with new(name) as file:
                file.write(text.encode(errors="backslashreplace"))
