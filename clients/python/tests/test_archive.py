"""Archives: what a rotation leaves behind is copied whole, once, and nothing else."""
import contextlib
import io
import os
import shutil
import subprocess
import sys
import threading
from pathlib import Path
from typing import List, Optional, Tuple
from unittest import mock

from liq import Journal, NoJournal, Service, Unfit, archive, recheck, statement
from liq.archive import NotArchived, kept_in
from liq.history import digest_of
from liq.journal import Command, Disk, files_of
from liq.model import market_on
from liq.progress import Bar

from . import modelled
from .market import TOP, InFolder, OverProgram, status_of

GONE = "generation 2 is missing, and it is on no file"

FULL = """
import sys
full = True
for line in sys.stdin:
    words = line.split()
    full = full and words[2:] != ["rotate"]
    reply = "1" if words[0] == "?" else "no 81 1000000" if full else "ok " + words[1]
    print("ok 2" if words[2:] == ["rotate"] else reply, flush=True)
"""


class Copies(InFolder):
    def setUp(self) -> None:
        super().setUp()
        self.directory = self.folder / "archive"
        self.made = modelled.two_depositors(self.folder / "market")

    def archive(self) -> List[int]:
        """The generations of which a call makes copies."""
        return [kept.generation for kept in archive.archive(self.made.folder, self.directory)]

    def generations(self) -> List[int]:
        return [kept.generation for kept in kept_in(self.directory)]

    def refused(self) -> str:
        with self.assertRaises(NotArchived) as refused:
            self.archive()
        return refused.exception.why

    def run_archive(self, *words: str) -> Tuple[int, str]:
        with contextlib.redirect_stdout(io.StringIO()) as said, contextlib.redirect_stderr(said):
            status = status_of(archive.main, *words)
        return status, said.getvalue()

    def test_each_generation_once(self) -> None:
        self.assertEqual((self.archive(), self.directory.exists()), ([], False))
        lines = []
        for generation in range(1, 5):
            lines.append([command.line for command in Journal(self.made.folder).current.commands])
            self.made.rotate()
            self.assertEqual((self.archive(), self.archive()), ([generation], []))
            self.made.call(1, f"price {400 * 10**6 + generation}")
            self.made.write()
            self.assertEqual(self.archive(), [])
        self.assertEqual(self.generations(), [1, 2, 3, 4])
        for kept, of in zip(kept_in(self.directory), lines):
            data = kept.path.read_bytes()
            self.assertEqual(kept.path.name, f"{kept.generation:011}-{digest_of(data)}.liq")
            self.assertEqual((kept.path.stat().st_mode & 0o777, kept.path.stat().st_nlink), (0o600, 1))
            self.assertEqual([command.line for command in Disk(kept.path).commands], of)
            self.assertEqual(data, archive.what_counts(Disk(kept.path)))

    def test_what_stands_behind_the_last_record_is_left_out(self) -> None:
        """A generation in the file of a longer one, and a byte that an opening sets."""
        self.made.rotate()
        self.archive()
        self.made.rotate()
        self.archive()
        self.made.rotate()
        left = self.made.folder / "left.liq"
        self.assertGreater(left.stat().st_size, Disk(left).end + 1)
        self.assertEqual(self.archive(), [3])
        self.assertEqual(kept_in(self.directory)[-1].path.stat().st_size, Disk(left).end + 1)
        data = bytearray(left.read_bytes())
        data[Disk(left).end] = 7
        left.write_bytes(data)
        self.assertEqual(self.archive(), [])

    def test_a_copy_is_a_market_of_its_own(self) -> None:
        self.made.rotate()
        self.archive()
        shutil.copy(kept_in(self.directory)[0].path, self.folder / "left.liq")
        market = market_on(Journal(self.folder).current)
        self.assertEqual(market.pool_lusd, self.made.market.pool_lusd)

    def test_an_archive_may_begin_late(self) -> None:
        for _ in range(3):
            self.made.rotate()
        status, said = self.run_archive(self.made.folder, self.directory)
        self.assertEqual((status, self.generations()), (0, [3]))
        self.assertIn("has 1 generation, from generation 3 on; those before it are gone", said)

    def test_a_gap(self) -> None:
        self.made.rotate()
        self.archive()
        self.made.rotate()
        self.made.rotate()
        self.assertEqual(self.refused(), GONE)
        os.truncate(self.made.folder / "right.liq", 0)
        self.assertEqual(self.refused(), GONE)
        self.assertEqual(self.generations(), [1])

    def test_a_gap_within(self) -> None:
        for _ in range(3):
            self.made.rotate()
            self.archive()
        kept_in(self.directory)[1].path.unlink()
        self.assertEqual(self.refused(), "generation 2 is missing")

    def test_a_generation_that_is_there_twice(self) -> None:
        self.made.rotate()
        self.archive()
        first = kept_in(self.directory)[0].path
        shutil.copy(first, first.with_name(f"{1:011}-{'0' * 64}.liq"))
        self.assertEqual(self.refused(), "generation 1 is there twice, and the two are not the same")

    def test_damage(self) -> None:
        self.made.rotate()
        left, (kept,) = self.made.folder / "left.liq", archive.archive(self.made.folder, self.directory)
        for path, why in ((kept.path, "its bytes are not those of its name"), (left, "left.liq has other commands")):
            data = path.read_bytes()
            path.write_bytes(data[:100] + bytes([data[100] ^ 1]) + data[101:])
            self.assertIn(why, self.refused())
            path.write_bytes(data)
        self.assertEqual(self.archive(), [])
        kept.path.unlink()
        left.write_bytes(left.read_bytes()[:200] + b"x" + left.read_bytes()[201:])
        self.assertEqual(self.refused(), "left.liq is damaged at 2: its digest is another")
        self.assertEqual(self.generations(), [])

    def test_records_that_came_later(self) -> None:
        """A file that a copy is a front of, as that of a market which was brought back and went on."""
        self.made.rotate()
        self.archive()
        other = modelled.two_depositors(self.folder / "other")
        other.call(1, "price 450000000")
        other.rotate()
        shutil.copy(other.folder / "left.liq", self.made.folder / "left.liq")
        self.assertIn("generation 1 differs: ", self.refused())
        self.assertIn("is sound, and left.liq goes on behind it. Where the market's files count, move", self.refused())
        kept_in(self.directory)[0].path.rename(self.folder / "moved-away")
        shutil.copy(other.folder / "right.liq", self.made.folder / "right.liq")
        self.assertEqual((self.archive(), self.generations()), ([1], [1]))

    def test_a_copy_is_a_file_of_its_own(self) -> None:
        """The next rotation would write over what is the market's own file."""
        self.made.rotate()
        self.archive()
        kept, left = kept_in(self.directory)[0].path, self.made.folder / "left.liq"
        data = kept.read_bytes()
        for link, why in (
            (lambda: kept.symlink_to(left), f"{kept.name} is a link, and a copy is a file of its own"),
            (lambda: os.link(left, kept), f"{kept.name} is the market's own file, by a second name"),
        ):
            kept.unlink()
            left.write_bytes(data)
            link()
            self.assertEqual(self.refused(), why)
            for reader in (statement.main, recheck.main):
                with contextlib.redirect_stdout(io.StringIO()) as said:
                    status = status_of(reader, "--archive", str(self.directory), str(self.made.folder))
                self.assertEqual((status, why in said.getvalue()), (1, True), said.getvalue())
        kept.unlink()
        kept.write_bytes(data)
        self.assertEqual(self.archive(), [])

    def test_a_checkpoint_that_is_not_the_state_before(self) -> None:
        self.made.rotate()
        modelled.rewrite_checkpoint(
            self.made.folder / "right.liq", lambda made: made._replace(minute=made.minute + 1))
        self.assertEqual(
            self.refused(), "right.liq is damaged at 0: generation 1 does not lead to it: minute: it has 1, and the"
            " commands lead to 0")
        self.assertEqual(self.generations(), [])

    def test_another_market(self) -> None:
        self.made.rotate()
        self.archive()
        self.made.rotate()
        self.archive()
        self.made.rotate()
        other = modelled.two_depositors(self.folder / "other")
        other.call(1, "advance 1")
        for _ in range(3):
            other.rotate()
        for name in ("left.liq", "right.liq"):
            shutil.copy(other.folder / name, self.made.folder / name)
        self.assertIn("generation 2 does not lead to it", self.refused())
        older = modelled.two_depositors(self.folder / "older")
        self.made.folder = older.folder
        self.assertEqual(self.refused(), "it has generation 2, and the files are of generation 1, so they are older")

    def test_a_file_that_no_rotation_leaves(self) -> None:
        for _ in range(3):
            if self.made.market.generation == 2:
                older = (self.made.folder / "right.liq").read_bytes()
            self.made.rotate()
        self.made.rotate()
        (self.made.folder / "right.liq").write_bytes(older)
        self.assertEqual(
            self.refused(),
            "right.liq is damaged at 0: it has generation 2, and beside generation 5 a rotation leaves 4")

    def test_the_second_of_two_calls_at_once(self) -> None:
        """One begins while the other one writes, and both give the copy its name."""
        self.made.rotate()
        real, inner = archive.what_counts, []

        def written(disk: Disk) -> bytes:
            if not inner:
                inner.append(True)
                self.assertEqual(self.archive(), [1])
            return real(disk)

        with mock.patch.object(archive, "what_counts", written):
            self.assertEqual(self.archive(), [1])
        self.assertEqual(len(list(self.directory.iterdir())), 1)

    def test_a_rotation_comes_between(self) -> None:
        """It writes over what was being read: a gap where nobody has archived it, and none where somebody has."""
        self.made.rotate()
        self.archive()
        self.made.rotate()
        self.made.call(1, "price 470000000")
        self.made.write()
        real, turned = archive.check_link, []

        def rotated(disk: Disk, following: Disk, bar: Optional[Bar] = None) -> None:
            if not turned:
                turned.append(True)
                if archives:
                    self.archive()
                self.made.rotate()
                raise NotArchived(self.directory, "a mixture")
            real(disk, following)

        for archives in (False, True):
            if archives:
                self.made.rotate()
                shutil.rmtree(self.directory)
                turned.clear()
            with mock.patch.object(archive, "check_link", rotated):
                if archives:
                    self.assertEqual(self.archive(), [5])
                    self.assertEqual(self.generations(), [4, 5])
                else:
                    self.assertEqual(self.refused(), GONE)

    def test_a_rotation_that_was_stopped_as_it_began(self) -> None:
        """It has shut the gate of the file that it takes, and the next one writes over what is whole behind that."""
        self.made.rotate()
        left, right = self.made.folder / "left.liq", self.made.folder / "right.liq"
        counts = digest_of(archive.what_counts(Disk(left)))
        left.write_bytes(b"\0" + left.read_bytes()[1:])
        self.assertEqual(self.archive(), [1])
        self.assertEqual([kept.digest for kept in kept_in(self.directory)], [counts])
        self.assertEqual(self.archive(), [])
        self.made.write()
        self.made.rotate()
        right.write_bytes(b"\0" + right.read_bytes()[1:])
        self.assertEqual((self.archive(), self.generations()), ([2], [1, 2]))

    def test_a_rotation_that_was_stopped_as_it_wrote(self) -> None:
        """What it wrote over is gone. An archive that has nothing yet begins behind that, and any other has a gap."""
        self.made.rotate()
        self.made.rotate()
        right = self.made.folder / "right.liq"
        right.write_bytes(b"\0" + right.read_bytes()[1:70] + b"x" + right.read_bytes()[71:])
        self.assertEqual(self.archive(), [])
        told = "generation 2 is on no file: the next rotation leaves generation 3 behind\n"
        self.assertEqual(self.run_archive(self.made.folder, self.directory), (0, told))
        other = modelled.two_depositors(self.folder / "other")
        other.rotate()
        archive.archive(other.folder, self.directory)
        self.assertEqual(self.refused(), GONE)
        self.made.rotate()
        shutil.rmtree(self.directory)
        self.assertEqual(self.archive(), [3])

    def test_a_gate_that_is_shut_while_it_reads(self) -> None:
        self.made.rotate()
        right, real = self.made.folder / "right.liq", archive.read_begin

        def shut(path: Path, most: int) -> Disk:
            right.write_bytes(b"\0" + right.read_bytes()[1:])
            return real(path, most)

        with mock.patch.object(archive, "read_begin", shut):
            self.assertEqual((self.archive(), self.directory.exists()), ([], False))

    def test_what_is_synced_before_what_is_named(self) -> None:
        """The copy, before it gets its name; and each name, before a call says that it is there."""
        self.made.rotate()
        self.directory = self.folder / "of" / "many" / "archives"
        done: List[str] = []

        def note(what: str) -> str:
            done.append(what)
            return what

        real_sync, real_replace, real_fsync = archive.sync, os.replace, os.fsync
        market = {path.stat().st_ino for path in files_of(self.made.folder)}

        def fsync(file: int) -> None:
            note("settled" if os.fstat(file).st_ino in market else "sync")
            real_fsync(file)

        with mock.patch.object(archive, "sync", lambda folder: (note(f"names in {folder.name}"), real_sync(folder))), \
                mock.patch.object(os, "replace", lambda one, other: (note("name"), real_replace(one, other))), \
                mock.patch.object(os, "fsync", fsync):
            self.assertEqual(self.archive(), [1])
            self.assertEqual((done[:4], done.count("settled")), (["settled"] * 4, 4))
            del done[:4]
            names = [f"names in {folder}" for folder in (self.folder.name, "of", "many", "archives")]
            self.assertEqual(done, [
                names[0], "sync", names[1], "sync", names[2], "sync", "sync", "name", names[3], "sync"])
            done.clear()
            self.assertEqual((self.archive(), done[-2:]), ([], [names[3], "sync"]))
            self.assertEqual(done.count("settled"), 3)

    def test_nothing_is_left_of_a_copy_that_failed(self) -> None:
        self.made.rotate()
        with mock.patch.object(os, "replace", side_effect=OSError(28, "No space left on device")):
            self.assertRaises(OSError, self.archive)
        self.assertEqual(list(self.directory.iterdir()), [])
        (self.directory / ".00000000001-part").write_bytes(b"of a call that was killed")
        self.assertEqual((self.archive(), self.generations()), ([1], [1]))

    def test_a_journal_of_version_1(self) -> None:
        """Rotated by the build of today, and by an earlier one."""
        for version in (2, 1):
            self.made = modelled.Made(self.folder / f"of {version}", 1)
            self.directory = self.folder / f"archive {version}"
            self.made.call(1, "fund 1 5")
            limit = self.made.market.limit
            line = Command(modelled.ROTATING, 1, "rotate", (), (), ())
            self.made.call(modelled.ROTATING, "rotate")
            if version == 1:
                self.made.market.limit = limit
                self.made.disks.write(self.made.market, line, version=1)
            self.made.write()
            self.made.call(1, "fund 1 6")
            self.made.write()
            self.assertEqual(self.archive(), [1])
            self.made.rotate()
            self.assertEqual(self.archive(), [2])
            self.assertEqual([Disk(kept.path).version for kept in kept_in(self.directory)], [1, version])

    def test_words_and_statuses(self) -> None:
        self.assertEqual(self.run_archive(self.made.folder)[0], 2)
        self.assertEqual(self.run_archive(self.folder / "nothing", self.directory)[0], 1)
        self.assertRaises(NoJournal, archive.archive, self.folder / "nothing", self.directory)
        status, said = self.run_archive(self.made.folder, self.directory)
        self.assertEqual((status, said), (0, "no rotation has left anything behind\n"))
        self.made.rotate()
        ran = subprocess.run(
            [sys.executable, "-m", "liq.archive", self.made.folder, self.directory], stdout=subprocess.PIPE, text=True,
            env={**os.environ, "PYTHONPATH": str(TOP / "clients/python")})
        self.assertEqual(ran.returncode, 0)
        self.assertRegex(
            ran.stdout, r"^generation 1: 00000000001-[0-9a-f]{64}\.liq\n.* from the first generation on\n$")
        (self.made.folder / "left.liq").write_bytes(b"")
        self.made.rotate()
        self.made.rotate()
        status, said = self.run_archive(self.made.folder, self.directory)
        self.assertEqual((status, said), (1, f"archive refuses: {self.directory} is no archive of it: {GONE}\n"))


class OfAClient(OverProgram):
    """A client that is told of an archive sends no rotation before it has what that writes over."""

    def test_each_rotation_is_behind_its_copy(self) -> None:
        directory = self.folder / "archive"
        client = self.service().client(1, archive=directory)
        for account in range(1, 5):
            client.fund(account, account)
            self.assertEqual(client.rotate().generation, account + 1)
        self.assertEqual([kept.generation for kept in kept_in(directory)], [1, 2, 3])
        self.assertEqual([kept.generation for kept in archive.archive(self.folder / "market", directory)], [4])

    def test_nothing_is_sent_over_a_gap(self) -> None:
        directory, service = self.folder / "archive", self.service()
        client, other = service.client(1, archive=directory), service.client(2)
        for _ in range(2):
            client.fund(1, 1)
            client.rotate()
        other.rotate()
        other.rotate()
        with self.assertRaises(NotArchived):
            client.rotate()
        self.assertEqual((service.system().records, client.next_number), (0, 5))
        self.assertEqual(client.fund(1, 1), ())
        other.rotate()
        self.assertEqual(Journal(self.folder / "market").current.generation, 6)

    def test_a_full_journal(self) -> None:
        """The command that finds it full sends `rotate` behind the archive; where that raises neither was sent."""
        full = self.stand_in(FULL)
        with Service(self.folder / "full", full, create=True) as market:
            client = market.client(1, rotate_when_full=True, archive="archive")
            with mock.patch.object(archive, "archive", side_effect=NotArchived("archive", "it has a gap")) as made:
                self.assertRaises(NotArchived, client.advance, 1)
            self.assertEqual((client.next_number, market.pending), (1, None))
            made.assert_called_once_with(self.folder / "full", "archive")
            with mock.patch.object(archive, "archive", return_value=[]) as made:
                self.assertEqual((client.advance(1).minute, client.next_number), (2, 3))
            made.assert_called_once_with(self.folder / "full", "archive")

    def test_beside_a_run_that_rotates(self) -> None:
        """Another one archives all the while: neither is ever refused, and all generations are there."""
        directory, market = self.folder / "archive", self.folder / "market"
        client = self.service().client(1, archive=directory)
        client.fund(1, 1)
        done, faults = threading.Event(), []

        def beside() -> None:
            while not done.is_set():
                try:
                    archive.archive(market, directory)
                except (Unfit, OSError) as fault:
                    faults.append(fault)

        other = threading.Thread(target=beside)
        other.start()
        try:
            for account in range(40):
                client.fund(account, 1)
                client.rotate()
        finally:
            done.set()
            other.join()
        archive.archive(market, directory)
        self.assertEqual((faults, [kept.generation for kept in kept_in(directory)]), ([], list(range(1, 41))))
        self.assertEqual([path for path in directory.iterdir() if path.name.startswith(".")], [])
        made = statement.statement(market, directory)
        self.assertEqual((made.commands, made.faults, made.whole), (41, [], True))
