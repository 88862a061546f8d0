"""Files that belong together: whatever ends the tool, new ones never stand beside old ones."""
from __future__ import annotations

import errno
import os
import signal
import tempfile
import unittest
from pathlib import Path
from typing import Any, Callable, Iterator
from unittest import mock

from afdx_tools import placing
from afdx_tools.outputs import write_folder
from afdx_tools.placing import HIDDEN, clear, together

NAMES = ("report.html", "links.csv", "ports.csv")
OLD = dict.fromkeys((*NAMES, "early.csv"), "old")
NEW = dict.fromkeys((*NAMES, "where.csv"), "new")
OTHERS = {"early.csv", "where.csv", "compared.csv"}
CALLS = ("chmod", "chown", "link", "mkdir", "remove", "rename", "rmdir", "utime")


class Stopped(Exception):
    """A signal came."""


def stop(number: int, frame: object) -> None:
    """What a signal does."""
    raise Stopped


def refuse(one: str, other: str) -> None:
    """A system that can't exchange folders."""
    raise OSError(errno.EINVAL, os.strerror(errno.EINVAL), other)


class Calls:
    """Calls of the system, of which one does something else first."""

    def __init__(self, place: int, first: Callable[[], None]) -> None:
        self.place, self.first, self.count = place, first, 0

    def of(self, call: Callable[..., Any]) -> Callable[..., Any]:
        """A call that is counted."""

        def counted(*words: Any, **more: Any) -> Any:
            self.count += 1
            if self.count == self.place:
                self.first()
            return call(*words, **more)

        return counted

    def patched(self, exchange: Callable[[str, str], None]) -> list[Any]:
        """All calls that are counted."""
        calls = [mock.patch.object(os, name, self.of(getattr(os, name))) for name in CALLS]
        return [*calls, mock.patch.object(placing, "exchange", self.of(exchange))]


def fail() -> None:
    """A device that fails."""
    raise OSError(errno.EIO, os.strerror(errno.EIO))


def interrupt() -> None:
    """A signal."""
    os.kill(os.getpid(), signal.SIGTERM)


def texts_in(folder: Path) -> dict[str, str]:
    """The texts of the files of a folder, by their names."""
    return {path.name: path.read_text() for path in folder.iterdir() if path.is_file()}


class Places(unittest.TestCase):
    """A folder with an older report, and a file and perhaps a folder of its user's."""

    def setUp(self) -> None:
        self.top = Path(self.enterContext(tempfile.TemporaryDirectory()))
        self.addCleanup(signal.signal, signal.SIGTERM, signal.signal(signal.SIGTERM, stop))

    def made(self, has_folder: bool) -> Path:
        """Such a folder."""
        folder = Path(tempfile.mkdtemp(dir=self.top))
        for name, text in {**OLD, "notes": "mine"}.items():
            (folder / name).write_text(text)
        if has_folder:
            (folder / "mine").mkdir()
            (folder / "mine" / "precious").write_text("mine")
        return folder

    def ways(self) -> Iterator[tuple[bool, Callable[[str, str], None]]]:
        """Has the folder one of its user's? What exchanges it?"""
        yield False, placing.exchange
        yield True, placing.exchange
        yield False, refuse

    def write(self, folder: Path, calls: Calls, exchange: Callable[[str, str], None]) -> bool:
        """Writes a newer report; false if it wasn't written."""
        try:
            for each in calls.patched(exchange):
                each.start()
            write_folder(str(folder), NEW, OTHERS)
            return True
        except (OSError, Stopped):
            return False
        finally:
            mock.patch.stopall()

    def tried(self, first: Callable[[], None]) -> Iterator[tuple[Path, bool, str]]:
        """Each way, where each of the calls does something first: the folder then, and whether the
        report was written."""
        for has_folder, exchange in self.ways():
            place, is_last = 0, False
            while not is_last:
                place += 1
                folder, calls = self.made(has_folder), Calls(place, first)
                is_written = self.write(folder, calls, exchange)
                is_last = calls.count < place
                yield folder, is_written, f"call {place}, {has_folder}, {exchange.__name__}"
                self.assertEqual((folder / "mine" / "precious").exists(), has_folder)
            self.assertGreater(place, 8)

    def want_nothing_hidden(self, words: str, is_broken: bool = False) -> None:
        """Nothing stays that was there for a moment, but an empty folder that can't be removed."""
        found = [path for path in self.top.rglob(f"{HIDDEN}*")
                 if not is_broken or any(path.iterdir())]  # fmt: skip
        self.assertEqual(found, [], words)


class Whole(Places):
    """All of the new report is there, or all of the old one."""

    def test_without_a_fault(self) -> None:
        for has_folder, exchange in self.ways():
            folder = self.made(has_folder)
            (folder / "links.csv").chmod(0o640)
            number, mode = folder.stat().st_ino, folder.stat().st_mode
            self.assertTrue(self.write(folder, Calls(0, fail), exchange))
            self.assertEqual(texts_in(folder), {**NEW, "notes": "mine"})
            self.assertEqual((folder / "links.csv").stat().st_mode & 0o777, 0o640)
            self.assertEqual(folder.stat().st_mode, mode)
            is_other = folder.stat().st_ino != number
            self.assertEqual(is_other, not has_folder and exchange is placing.exchange)
            self.want_nothing_hidden("no fault")

    def test_each_call_fails(self) -> None:
        for folder, is_written, words in self.tried(fail):
            wanted = NEW if is_written else OLD
            self.assertEqual(texts_in(folder), {**wanted, "notes": "mine"}, words)
            self.want_nothing_hidden(words, is_broken=True)

    def test_a_signal_at_each_call(self) -> None:
        found = set()
        for folder, _, words in self.tried(interrupt):
            texts = texts_in(folder)
            self.assertEqual(texts.pop("notes"), "mine", words)
            self.assertIn(texts, (OLD, NEW), words)
            self.want_nothing_hidden(words)
            found.add(texts == NEW)
        self.assertEqual(found, {True, False})

    def test_an_end_without_warning_at_each_call(self) -> None:
        for folder, is_written, words in self.killed():
            texts = texts_in(folder)
            self.assertEqual(texts.pop("notes"), "mine", words)
            self.assertLessEqual(len(set(texts.values())), 1, words)
            if is_written:
                self.assertEqual(texts, NEW, words)

    def killed(self) -> Iterator[tuple[Path, bool, str]]:
        """The same, where the tool ends at a call."""
        for has_folder, exchange in self.ways():
            place, status = 0, 9
            while status:
                place += 1
                folder, calls = self.made(has_folder), Calls(place, lambda: os._exit(9))
                child = os.fork()
                if not child:
                    os._exit(0 if self.write(folder, calls, exchange) else 1)
                status = os.waitstatus_to_exitcode(os.waitpid(child, 0)[1])
                yield folder, not status, f"call {place}, {has_folder}, {exchange.__name__}"


class InTheWay(Places):
    """What stands in the folder, and where the folder is."""

    def test_a_folder_of_a_name_leaves_all_as_it_was(self) -> None:
        folder = self.made(False)
        (folder / "ports.csv").unlink()
        (folder / "ports.csv").mkdir()
        with self.assertRaises(IsADirectoryError) as caught:
            write_folder(str(folder), NEW, OTHERS)
        self.assertEqual(caught.exception.filename, str(folder / "ports.csv"))
        before = {name: text for name, text in OLD.items() if name != "ports.csv"}
        self.assertEqual(texts_in(folder), {**before, "notes": "mine"})
        self.want_nothing_hidden("a folder in the way")

    def test_links_are_replaced_and_not_followed(self) -> None:
        for has_folder, exchange in self.ways():
            folder, precious = self.made(has_folder), self.top / "precious"
            precious.write_text("mine")
            for name in ("links.csv", "early.csv"):
                (folder / name).unlink()
                (folder / name).symlink_to(precious)
            (folder / "hers").symlink_to(precious)
            self.assertTrue(self.write(folder, Calls(0, fail), exchange))
            self.assertEqual(precious.read_text(), "mine")
            self.assertFalse((folder / "links.csv").is_symlink())
            self.assertFalse(os.path.lexists(folder / "early.csv"))
            self.assertTrue((folder / "hers").is_symlink())

    def test_the_folder_may_be_a_link(self) -> None:
        folder, link = self.made(False), self.top / "link"
        link.symlink_to(folder)
        write_folder(str(link), NEW, OTHERS)
        self.assertTrue(link.is_symlink())
        self.assertEqual(texts_in(folder), {**NEW, "notes": "mine"})

    def test_who_stands_in_it_still_does(self) -> None:
        folder = self.made(False)
        before = os.getcwd()
        self.addCleanup(os.chdir, before)
        os.chdir(folder)
        write_folder(".", NEW, OTHERS)
        self.assertEqual(texts_in(Path(".")), {**NEW, "notes": "mine"})
        self.assertTrue(os.path.samefile(".", folder))

    def test_a_new_folder(self) -> None:
        write_folder(str(self.top / "a" / "b"), NEW)
        self.assertEqual(texts_in(self.top / "a" / "b"), NEW)

    def test_a_fault_while_they_are_written(self) -> None:
        folder = self.made(False)
        with self.assertRaises(ZeroDivisionError):
            with together(str(folder), OTHERS) as new:
                with new("links.csv") as file:
                    file.write(b"new")
                raise ZeroDivisionError
        self.assertEqual(texts_in(folder), {**OLD, "notes": "mine"})
        self.want_nothing_hidden("a fault")

    def test_clearing_follows_no_link(self) -> None:
        folder = self.made(True)
        link = self.top / "link"
        link.symlink_to(folder)
        clear(str(link))
        self.assertEqual(texts_in(folder), {**OLD, "notes": "mine"})
        clear(str(folder))
        clear(str(folder))
        self.assertFalse(folder.exists())


if __name__ == "__main__":
    unittest.main()
