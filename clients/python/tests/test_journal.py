"""Journals as bytes: made by scripts/make-disks, which knows the formats alone, and by the program."""
import os
import subprocess
import sys
from pathlib import Path

from liq import Journal, journal
from liq.backup import backup
from liq.ends import NoJournal, TooMuch
from liq.journal import DamagedFile, KeptReply, NoRegularFile, Unknown, copy_file, read_file

from .market import TOP, InFolder, OverProgram, forged

LINES = ["1 1 fund 1 10000000000", "2 1 advance 5", "1 2 fund 2 7"]


class Bounded(InFolder):
    """What a foreign folder may have in the place of a file."""

    def setUp(self) -> None:
        super().setUp()
        self.bounded()

    def refusals(self, folder: Path, kind: type) -> list:
        """How each way to come to the bytes of `left.liq` is refused."""
        path, copies = folder / "left.liq", folder / "copies"
        copies.mkdir()
        found = []
        for read in (
            lambda: Journal(folder), lambda: read_file(path), lambda: copy_file(path, copies / "left.liq"),
            lambda: backup(folder, copies),
        ):
            with self.assertRaises(kind) as refused:
                read()
            found.append(refused.exception)
        self.assertEqual(list(copies.iterdir()), [])
        return found

    def test_what_is_no_regular_file_is_neither_read_nor_waited_for(self) -> None:
        for name, make in (
            ("pipe", os.mkfifo), ("folder", os.mkdir), ("zeros", lambda path: os.symlink("/dev/zero", path)),
        ):
            with self.subTest(name):
                folder = self.folder / name
                folder.mkdir()
                make(folder / "left.liq")
                for refusal in self.refusals(folder, NoRegularFile):
                    self.assertEqual(refusal.path, folder / "left.liq")
                self.assertRaises(NoRegularFile, journal.holds_journal, folder)

    def test_a_hole_is_not_read(self) -> None:
        path = self.folder / "left.liq"
        path.write_bytes(b"\1LIQJRNL2" + bytes(60))
        os.truncate(path, 2**42)
        self.assertTrue(journal.holds_journal(self.folder))
        for refusal in self.refusals(self.folder, TooMuch):
            self.assertEqual((refusal.most, refusal.unit), (2**28, "bytes"))

    def test_as_many_bytes_as_a_call_is_told(self) -> None:
        path, to = self.folder / "file", self.folder / "copy"
        path.write_bytes(bytes(range(200)))
        self.assertEqual((read_file(path, 200), copy_file(path, to, 200)), (bytes(range(200)), 200))
        self.assertEqual((to.read_bytes(), to.stat().st_mode & 0o777), (bytes(range(200)), 0o600))
        self.assertRaises(FileExistsError, copy_file, path, to)
        to.unlink()
        self.assertRaises(TooMuch, read_file, path, 199)
        self.assertRaises(TooMuch, copy_file, path, to, 199)
        self.assertFalse(to.exists())

    def test_a_file_that_states_no_length(self) -> None:
        self.assertRaises(TooMuch, read_file, "/proc/self/status", 100)
        self.assertGreater(len(read_file("/proc/self/status")), 100)


class OfForge(InFolder):
    """Cases over files that scripts/make-disks makes."""

    def forge(self, versions: str, *lines: str) -> Journal:
        for side, data in forged(versions, list(lines)).items():
            (self.folder / f"{side}.liq").write_bytes(data)
        return Journal(self.folder)


class Forged(OfForge):
    """Files of both versions."""

    def test_the_script_prints_what_it_makes(self) -> None:
        lines = [*LINES, "3 1 rotate", "3 2 fund 3 1"]
        script = [sys.executable, TOP / "scripts/make-disks", "12", *lines]
        made = subprocess.run(script, stdout=subprocess.PIPE, check=True, text=True).stdout
        self.assertEqual(
            dict(line.split(" ") for line in made.splitlines()),
            {side: data.hex() for side, data in forged("12", lines).items()})

    def test_both_versions(self) -> None:
        for version in (1, 2):
            journal = self.forge(str(version), *LINES)
            self.assertEqual((journal.current.version, journal.current.generation, journal.lines), (version, 1, LINES))
            self.assertIsNone(journal.current.checkpoint)

    def test_a_rotation_of_each_version(self) -> None:
        for versions, first, second in (("1", 1, 1), ("12", 1, 2), ("2", 2, 2)):
            journal = self.forge(versions, *LINES, "3 1 rotate", "3 2 fund 3 1")
            self.assertEqual([disk.version for disk in journal.chain], [first, second])
            self.assertEqual([disk.generation for disk in journal.chain], [1, 2])
            self.assertEqual((journal.earlier.commands[0].line, journal.lines), (LINES[0], ["3 2 fund 3 1"]))
            found = journal.current.checkpoint
            self.assertEqual((found.version, found.generation, found.minute), (second, 2, 5))
            self.assertEqual(found.brought, 10000000007)
            self.assertEqual(found.wallets, {1: (10000000000, 0), 2: (7, 0)})
            self.assertEqual(found.clients[2], KeptReply(last=1, verb="advance", values=(5, 0, 0, 0, 0, 0)))
            self.assertEqual(found.clients[3].values[0], 2)

    def test_a_fee_notes_its_minute(self) -> None:
        opened = f"1 2 open 1 9000000000 4000000000 {10**18} - -"
        found = self.forge("2", "1 1 fund 1 9000000000", "2 1 advance 5", opened, "2 2 rotate").current.checkpoint
        self.assertEqual((found.minute, found.fee_minute, found.fee_lusd), (5, 5, 20000000))

    def test_what_stands_behind_the_records_has_no_meaning(self) -> None:
        self.forge("2", *LINES)
        file = self.folder / "left.liq"
        whole = file.read_bytes()
        file.write_bytes(whole + b"\7" + bytes(200))
        self.assertEqual(Journal(self.folder).lines, LINES)
        file.write_bytes(whole[:-2])
        self.assertEqual(Journal(self.folder).lines, LINES[:2])

    def test_each_byte_that_is_turned_is_found(self) -> None:
        self.forge("2", *LINES)
        file = self.folder / "left.liq"
        whole = file.read_bytes()
        for place in (*range(1, 65), 70, 150, 190, 193):
            data = bytearray(whole)
            data[place] ^= 1
            file.write_bytes(data)
            with self.subTest(place=place), self.assertRaises(DamagedFile) as damaged:
                Journal(self.folder)
            self.assertEqual(damaged.exception.record, 0 if place < 65 else 1)

    def test_no_journal(self) -> None:
        self.assertRaises(NoJournal, Journal, self.folder)
        (self.folder / "left.liq").write_bytes(bytes(65))
        self.assertRaises(NoJournal, Journal, self.folder)


class Extends(OfForge):
    """A journal beside an earlier copy of it."""

    def test_a_journal_goes_on_from_its_own_copies(self) -> None:
        older = self.forge("2", *LINES[:2])
        self.assertTrue(older.extends(older))
        newer = self.forge("2", *LINES)
        self.assertTrue(newer.extends(older))
        self.assertFalse(older.extends(newer))

    def test_another_record_is_found(self) -> None:
        older = self.forge("2", *LINES)
        self.assertFalse(self.forge("2", LINES[0], "2 1 advance 6", LINES[2]).extends(older))
        self.assertFalse(self.forge("2", LINES[0], LINES[2]).extends(older))
        self.assertFalse(self.forge("1", *LINES).extends(older))

    def test_over_rotations(self) -> None:
        older = self.forge("2", *LINES)
        once = self.forge("2", *LINES, "3 1 rotate", "3 2 fund 3 1")
        self.assertTrue(once.extends(older))
        self.assertFalse(self.forge("2", *LINES[:2], "3 1 rotate").extends(older))
        twice = self.forge("2", *LINES, "3 1 rotate", "3 2 fund 3 1", "3 3 rotate")
        self.assertTrue(twice.extends(once))
        self.assertRaises(Unknown, twice.extends, older)
        self.assertFalse(older.extends(once))


class OfProgram(OverProgram):
    def test_a_checkpoint_has_the_list_of_troves(self) -> None:
        with self.service() as market:
            client = market.client(1)
            for account, lusd in ((1, 3000), (2, 5000), (3, 4000)):
                client.fund(account, 10**10)
                client.open(account, 10**10, lusd * 10**6)
            client.provide(2, 10**9)
            client.price(330000000)
            client.liquidate(4, 2)
            client.rotate()
            system, pools = market.system(), market.pools()
        found = Journal(self.folder / "market").current.checkpoint
        for asked in (system, pools):
            shared = set(found._fields) - {"troves"}
            named = {name: value for name, value in asked._asdict().items() if name in shared}
            self.assertEqual(named, {name: getattr(found, name) for name in named})
            self.assertGreater(len(named), 4)
        self.assertEqual(found.list_of_troves, [1, 3])
        self.assertEqual((found.troves[3].coll, found.troves[3].debt), (10**10, 4220000000))
        self.assertEqual((found.deposits[2].amount, found.epoch, found.sum), (10**9, 0, 0))
