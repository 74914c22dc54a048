"""Copies of a market, also beside a run that rotates."""
import contextlib
import functools
import io
import itertools
import os
import subprocess
import threading
import time
from pathlib import Path
from typing import BinaryIO, Callable, Iterator, List, Tuple
from unittest import mock

from liq import Journal, NoJournal, backup, guard
from liq.ends import Damaged, TooMuch
from liq.journal import NoRegularFile, open_file
from liq.words import state

from .market import PROGRAM, OverProgram, status_of

MANY = 60


Read = Callable[[Path, BinaryIO, int], bytes]


class Watched:
    """A file, of which all is read in a way of its own."""

    def __init__(self, path: Path, read: Read) -> None:
        self.path, self.file, self.how = path, open_file(path), read

    def __enter__(self) -> "Watched":
        return self

    def __exit__(self, *end: object) -> None:
        self.file.close()

    def read(self, count: int) -> bytes:
        return self.file.read(count) if count == 65 else self.how(self.path, self.file, count)

    def __getattr__(self, name: str) -> object:
        return getattr(self.file, name)


def rotate_until_it_ends(run: "subprocess.Popen[bytes]") -> None:
    """Sends a run rotations, client 1's from number 4 on, for as long as it takes them."""
    assert run.stdin is not None
    with contextlib.suppress(BrokenPipeError), run.stdin as lines:
        for number in itertools.count(4):
            lines.write(b"1 %d rotate\n" % number)


class Copies(OverProgram):
    """A copy has all that was answered before it began, and nothing is left of one that failed."""

    def setUp(self) -> None:
        super().setUp()
        self.market, self.copy = self.folder / "market", self.folder / "copy"
        self.run_of_it = self.service()
        self.client = self.run_of_it.client(1)
        for account in (1, 2, 3):
            self.client.fund(account, 10**9)

    def stands(self, folder: Path) -> Tuple[int, int]:
        """The generation and the records that count in a folder."""
        current = Journal(folder).current
        return current.generation, len(current.commands)

    def run_backup(self, *words: str) -> Tuple[int, str]:
        """The status of a call, and what it writes."""
        written = io.StringIO()
        with contextlib.redirect_stdout(written):
            status = status_of(backup.main, *words)
        return status, written.getvalue()

    def test_both_files_beside_a_run(self) -> None:
        backup.backup(self.market, self.copy)
        self.assertEqual(sorted(os.listdir(self.copy)), ["left.liq", "right.liq"])
        self.assertEqual(self.stands(self.copy), (1, 3))
        self.assertEqual([path.stat().st_mode & 0o777 for path in (self.copy, self.copy / "left.liq")], [0o700, 0o600])
        self.client.rotate()
        self.client.fund(4, 1)
        empty = self.folder / "empty"
        empty.mkdir()
        backup.backup(self.market, empty)
        self.assertEqual((self.stands(empty), len(Journal(empty).chain)), ((2, 1), 2))
        self.assertEqual(guard.look(empty).lines, [])

    def test_all_is_synced(self) -> None:
        synced: List[int] = []
        sync = os.fsync

        def noted(descriptor: int) -> None:
            synced.append(os.fstat(descriptor).st_ino)
            sync(descriptor)

        with mock.patch("os.fsync", noted):
            backup.backup(self.market, self.copy)
        names = [self.market / "left.liq", self.market / "right.liq"]  # what was read may not go with the power
        names += [self.copy / "left.liq", self.copy / "right.liq", self.copy, self.folder]
        self.assertEqual(synced, [path.stat().st_ino for path in names])

    def rotate_over_the_copy(self) -> None:
        """Rotates until the left file has the newest generation, and stops the run as it begins the next rotation: so
        what was copied of the left file is of an older generation, and the right file has none that is open."""
        self.client.rotate()
        if self.stands(self.market)[0] % 2 == 0:
            self.client.rotate()
        self.client.fund(5, 1)
        self.run_of_it.kill()
        with (self.market / "right.liq").open("r+b") as file:
            file.write(b"\0")
        self.run_of_it.start()

    @contextlib.contextmanager
    def rotating(self, times: int, at_once: int) -> Iterator[None]:
        """Has rotations come once the left file was copied, so many times."""
        left = times

        def rotates(path: Path) -> None:
            nonlocal left
            if path == self.market / "left.liq" and left:
                left -= 1
                self.rotate_over_the_copy()

        def read(path: Path, file: BinaryIO, count: int) -> bytes:
            data = file.read(count)
            rotates(path)
            return data

        opened = functools.partial(Watched, read=read)
        with mock.patch.multiple("liq.backup", open_file=opened, AT_ONCE_MOST=at_once):
            yield

    def test_a_rotation_between(self) -> None:
        self.client.rotate()
        self.client.fund(4, 1)
        for times, at_once in ((1, 400), (3, 400), (1, 2**26), (3, 2**26)):
            answered = self.stands(self.market)
            copy = self.folder / f"copy-{times}-{at_once}"
            with self.rotating(times, at_once):
                backup.backup(self.market, copy)
            self.assertGreater(self.stands(copy), answered)
            self.assertEqual((self.stands(copy), guard.look(copy).found), (self.stands(self.market), []))

    def test_a_rotation_within_a_file(self) -> None:
        """The front of one generation was copied, and then what stands behind that of another."""
        self.client.rotate()
        reads = []

        def read(path: Path, file: BinaryIO, count: int) -> bytes:
            front = file.read(65)
            reads.append(path.name)
            if len(reads) == 1:
                self.client.rotate()
            return front + file.read(count)

        with mock.patch("liq.backup.open_file", functools.partial(Watched, read=read)):
            backup.backup(self.market, self.copy)
        self.assertEqual((self.stands(self.copy), reads.count("right.liq")), ((3, 0), 2))

    def test_a_command_meanwhile(self) -> None:
        """A record is appended behind the bytes that are copied, and its gate, their last byte, is copied open."""
        for at_once in (400, 2**26):
            copy = self.folder / f"copy-{at_once}"

            def read(path: Path, file: BinaryIO, count: int) -> bytes:
                if path.name == "left.liq":
                    self.client.fund(5, 1)
                return file.read(count)

            answered = self.stands(self.market)
            opened = functools.partial(Watched, read=read)
            with mock.patch.multiple("liq.backup", open_file=opened, AT_ONCE_MOST=at_once):
                backup.backup(self.market, copy)
            self.assertEqual((self.stands(copy), guard.look(copy).lines), (answered, []))

    def test_a_rotation_each_time(self) -> None:
        for at_once in (400, 2**26):
            with self.rotating(10**9, at_once), mock.patch("liq.backup.SECONDS", 0.05):
                with self.assertRaises(backup.Rotating) as rotating:
                    backup.backup(self.market, self.copy)
            self.assertIn("was rotated during each copy", str(rotating.exception))
            self.assertFalse(self.copy.exists())

    def test_a_rotation_that_was_stopped(self) -> None:
        """The gate of the file that it was to begin in is shut, and stays so."""
        self.client.rotate()
        self.run_of_it.kill()
        with (self.market / "left.liq").open("r+b") as file:
            file.write(b"\0")
        backup.backup(self.market, self.copy)
        self.assertEqual(self.stands(self.copy), (2, 0))

    def test_beside_a_run_that_rotates_all_the_time(self) -> None:
        """Long files, of which only the front means something, so that several rotations come within one copying."""
        self.run_of_it.kill()
        for side in ("left", "right"):
            os.truncate(self.market / f"{side}.liq", 300_000)
        with (self.folder / "replies").open("wb") as sink:
            run = subprocess.Popen([PROGRAM, "run"], cwd=self.market, stdin=subprocess.PIPE, stdout=sink, bufsize=0)
        feeder = threading.Thread(target=rotate_until_it_ends, args=(run,))
        feeder.start()
        self.addCleanup(feeder.join)
        self.addCleanup(run.wait)
        self.addCleanup(run.kill)
        answered = 0
        with (self.folder / "replies").open("rb") as replies:
            while answered < 10:
                answered += replies.read().count(b"\n")
                time.sleep(0.001)
            for trial in range(MANY):
                answered += replies.read().count(b"\n")
                copy = self.folder / f"copy-{trial}"
                backup.backup(self.market, copy)
                self.assertGreaterEqual(self.stands(copy), (answered + 1, 0))
        self.assertIsNone(run.poll())

    def test_folders_that_no_copy_goes_to(self) -> None:
        self.copy.mkdir()
        (self.copy / "kept").write_text("mine")
        self.assertRaises(backup.NotEmpty, backup.backup, self.market, self.copy)
        self.assertRaises(backup.NotEmpty, backup.backup, self.market, self.market)
        self.assertEqual((self.copy / "kept").read_text(), "mine")
        self.assertRaises(FileNotFoundError, backup.backup, self.market, self.folder / "none" / "copy")
        self.assertRaises(NotADirectoryError, backup.backup, self.market, self.copy / "kept")

    def test_folders_of_which_there_is_no_copy(self) -> None:
        self.run_of_it.kill()
        pipe, none = self.folder / "pipe", self.folder / "none"
        pipe.mkdir()
        none.mkdir()
        backup.backup(self.market, self.folder / "whole")
        os.rename(self.folder / "whole/left.liq", pipe / "left.liq")
        os.mkfifo(pipe / "right.liq")
        self.copy.mkdir()
        self.assertRaises(NoRegularFile, backup.backup, pipe, self.copy)
        self.assertRaises(NoJournal, backup.backup, none, self.copy)
        self.assertRaises(TooMuch, backup.backup, self.market, self.copy, 400)
        self.assertEqual(os.listdir(self.copy), [])
        self.copy.rmdir()
        self.assertRaises(NoJournal, backup.backup, none, self.copy)
        self.assertFalse(self.copy.exists())

    def test_words(self) -> None:
        self.assertEqual(self.run_backup(self.market, self.copy), (0, "journal 1 3\n"))
        status, said = self.run_backup(self.market, self.copy)
        self.assertEqual((status, said[:16]), (1, "backup refuses: "))
        for words in ([], [self.market], [self.market, self.copy, self.copy]):
            with contextlib.redirect_stderr(io.StringIO()):
                self.assertEqual(self.run_backup(*words), (2, ""))

    def test_it_opens_a_copy_of_the_copy(self) -> None:
        self.run_of_it.kill()
        with (self.market / "left.liq").open("r+b") as file:  # opening sets the byte behind the records to 0
            file.seek(-1, os.SEEK_END)
            file.write(b"\7")
        left = (self.market / "left.liq").read_bytes()
        self.assertEqual(self.run_backup(self.market, self.copy), (0, "journal 1 3\n"))
        self.assertEqual((self.copy / "left.liq").read_bytes(), left)
        self.assertEqual(state(self.copy).records, 3)
        self.assertNotEqual((self.copy / "left.liq").read_bytes(), left)

    def test_a_market_that_does_not_open(self) -> None:
        self.run_of_it.kill()
        with (self.market / "left.liq").open("r+b") as file:
            file.seek(100)
            file.write(b"\7")
        status, said = self.run_backup(self.market, self.copy)
        self.assertEqual((status, said), (1, "copied, but it does not open: liq ended with 6, damaged left 1\n"))
        self.assertRaises(Damaged, state, self.copy)

    def test_without_a_program(self) -> None:
        with mock.patch.dict(os.environ, {"LIQ_PROGRAM": str(self.folder / "none")}):
            status, said = self.run_backup(self.market, self.copy)
        self.assertEqual(status, 0)
        self.assertIn("copied, and not opened: there is no program", said)
        self.assertEqual(self.stands(self.copy), (1, 3))
