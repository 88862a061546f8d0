"""Files that belong together: they are written into a folder of their own, and put in the place of
older ones all at once, so that at no moment new ones stand beside old ones."""
from __future__ import annotations

import contextlib
import ctypes
import errno
import os
import shutil
import signal
import stat
import tempfile
from typing import BinaryIO, Callable, Collection, ContextManager, Iterator

HIDDEN = ".afdx-"  # what names begin with that stay for a moment only
HERE = -100  # AT_FDCWD: paths begin where the tool stands
EXCHANGE = 2  # RENAME_EXCHANGE
NAMES = (ctypes.c_int, ctypes.c_char_p, ctypes.c_int, ctypes.c_char_p, ctypes.c_uint)

New = Callable[[str], ContextManager[BinaryIO]]  # opens a new file by its name


@contextlib.contextmanager
def signals_held() -> Iterator[None]:
    """Signals wait until this has ended, and end the tool then. They are held by their handlers:
    one that this thread blocks would come by another thread of a library."""
    came: list[int] = []
    handlers = {number: signal.getsignal(number) for number in signal.valid_signals()}
    held = [(number, heed) for number, heed in handlers.items() if callable(heed)]
    try:
        for number, _ in held:
            signal.signal(number, lambda which, frame: came.append(which))
        yield
    finally:
        for number, heed in held:
            signal.signal(number, heed)
        for number, heed in held:
            if number in came:
                heed(number, None)


@contextlib.contextmanager
def named(path: str, part: str | None = None) -> Iterator[None]:
    """A fault gets the path of the file that it is about. Where a `part` is given, only one that
    names no file, or one in that folder."""
    try:
        yield
    except OSError as error:
        at = error.filename
        if part is None or at is None or os.fsdecode(at).startswith(os.path.join(part, "")):
            raise OSError(error.errno, error.strerror, path) from error
        raise


def exchange(one: str, other: str) -> None:
    """Two folders get each other's names, at one moment; OSError where the system can't do that."""
    call = getattr(ctypes.CDLL(None, use_errno=True), "renameat2", None)
    if call is None:
        raise OSError(errno.ENOSYS, os.strerror(errno.ENOSYS), other)
    call.argtypes = NAMES
    if call(HERE, os.fsencode(one), HERE, os.fsencode(other), EXCHANGE):
        raise OSError(ctypes.get_errno(), os.strerror(ctypes.get_errno()), other)


def is_folder(path: str) -> bool:
    """A folder is there, and no link to one."""
    return os.path.isdir(path) and not os.path.islink(path)


def clear(path: str) -> None:
    """Removes what is there, and of a link no more than the link."""
    if is_folder(path):
        shutil.rmtree(path)
    else:
        with contextlib.suppress(FileNotFoundError):
            os.remove(path)


def is_stood_in(folder: str) -> bool:
    """The tool, and what began it, stand in that folder: they would be left in the old one."""
    try:
        return os.path.samefile(folder, os.curdir)
    except OSError:
        return False


def make_alike(folder: str, other: str) -> None:
    """A folder gets owner and rights of another one."""
    old, new = os.stat(other), os.stat(folder)
    if (old.st_uid, old.st_gid) != (new.st_uid, new.st_gid):
        os.chown(folder, old.st_uid, old.st_gid)
    shutil.copystat(other, folder)
    os.utime(folder)


class Staged:
    """New files of a folder, in a hidden one inside it until all of them are whole."""

    def __init__(self, folder: str) -> None:
        self.folder = folder
        with named(folder):
            self.path = tempfile.mkdtemp(".part", HIDDEN, folder)
        self.names: list[str] = []

    @contextlib.contextmanager
    def new(self, name: str) -> Iterator[BinaryIO]:
        """Opens a new file; a fault of it is reported by the name that it is to have."""
        with named(os.path.join(self.folder, name), self.path):
            with open(os.path.join(self.path, name), "xb") as file:
                self.names.append(name)
                yield file

    def place(self, others: Collection[str], is_whole: bool) -> None:
        """Puts the files in their places. Of old ones of their names, and of the others, none
        stays; after a fault all do. `is_whole`: they are all of the folder, which may be another
        one then."""
        for name in self.names:
            if is_folder(self.at(name)):
                raise OSError(errno.EISDIR, os.strerror(errno.EISDIR), self.at(name))
            self.keep_mode(name)
        old = [name for name in {*self.names, *others} if os.path.lexists(self.at(name))]
        old = [name for name in old if not is_folder(self.at(name))]
        with signals_held():
            if not (is_whole and self.is_exchanged(old)):
                self.replace(old)

    def at(self, name: str) -> str:
        """The path of a file in the folder."""
        return os.path.join(self.folder, name)

    def keep_mode(self, name: str) -> None:
        """A new file is as open to others as the one that has its name."""
        with contextlib.suppress(FileNotFoundError):
            before = os.lstat(self.at(name)).st_mode
            if stat.S_ISREG(before):
                os.chmod(os.path.join(self.path, name), stat.S_IMODE(before))

    # ---- one rename ------------------------------------------------------------------------------

    def is_exchanged(self, old: Collection[str]) -> bool:
        """Exchanges the folder for that of the new files, with all else that it has; false where
        that can't be, and then nothing has changed."""
        folder = os.path.realpath(self.folder)
        beside = os.path.join(os.path.dirname(folder), os.path.basename(self.path))
        if is_stood_in(folder):
            return False
        try:
            os.rename(self.path, beside)
        except OSError:  # the folder isn't to be renamed, or another file system begins there
            return False
        try:
            make_alike(beside, folder)
            for name in set(os.listdir(folder)).difference(old):
                os.link(os.path.join(folder, name), os.path.join(beside, name),
                        follow_symlinks=False)  # fmt: skip
            exchange(beside, folder)
        except OSError:
            self.undo(beside)
            return False
        with contextlib.suppress(OSError):
            remove_exchanged(beside, folder, old)
        return True

    def undo(self, beside: str) -> None:
        """Puts the folder of the new files where it was, with these alone."""
        try:
            for name in set(os.listdir(beside)).difference(self.names):
                os.remove(os.path.join(beside, name))
            os.rename(beside, self.path)
        except OSError:
            shutil.rmtree(beside, ignore_errors=True)
            raise

    # ---- where one rename can't be ---------------------------------------------------------------

    def replace(self, old: Collection[str]) -> None:
        """Puts all old files aside, and then the new ones in their places; after a fault the old
        ones again."""
        with named(self.folder):
            aside = tempfile.mkdtemp(".old", HIDDEN, self.folder)
        moved, placed = [], []
        try:
            for name in old:
                with named(self.at(name)):
                    os.rename(self.at(name), os.path.join(aside, name))
                moved.append(name)
            for name in self.names:
                with named(self.at(name)):
                    os.rename(os.path.join(self.path, name), self.at(name))
                placed.append(name)
        except OSError:
            for name in placed:
                os.remove(self.at(name))
            for name in moved:
                os.rename(os.path.join(aside, name), self.at(name))
            os.rmdir(aside)
            raise
        shutil.rmtree(aside, ignore_errors=True)


def remove_exchanged(beside: str, folder: str, old: Collection[str]) -> None:
    """Removes the folder that another one was exchanged for. What is no old file has its name there
    by now; what came, or was changed, at the last moment gets it."""
    for name in set(os.listdir(beside)).difference(old):
        one, other = os.path.join(beside, name), os.path.join(folder, name)
        if not (os.path.lexists(other) and os.path.samestat(os.lstat(one), os.lstat(other))):
            os.rename(one, other)
    shutil.rmtree(beside, ignore_errors=True)


def remove(folder: str) -> None:
    """Removes a folder for a moment, if it is still there, whatever signal comes meanwhile."""
    with signals_held():
        shutil.rmtree(folder, ignore_errors=True)


@contextlib.contextmanager
def together(folder: str, others: Collection[str] = (), is_whole: bool = True) -> Iterator[New]:
    """Opens new files of a folder, which get their places there all at once, when they are whole;
    none of `others`, which an earlier run may have left there, stays then. `is_whole`: the folder
    is theirs, and may be exchanged for another one."""
    with contextlib.ExitStack() as tidying:
        with signals_held():
            staged = Staged(folder)
            tidying.callback(remove, staged.path)
        yield staged.new
        staged.place(others, is_whole)
