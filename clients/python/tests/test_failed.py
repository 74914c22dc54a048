"""What is said behind a unit that has ended, by its status and by what a look tells."""
import contextlib
import io
import os
from unittest import mock

from liq import failed, guard

from .market import OverProgram, status_of


class Failed(OverProgram):
    def setUp(self) -> None:
        super().setUp()
        self.bounded()
        self.market = self.folder / "market"
        with self.service() as run:
            for _ in range(3):
                run.client(1).fund(1, 5)

    def said(self, status: str, *words: str) -> str:
        """What is said at a status, which changes nothing."""
        before = {path: path.read_bytes() for path in self.market.iterdir()}
        written = io.StringIO()
        with contextlib.redirect_stdout(written), mock.patch.dict(os.environ, EXIT_STATUS=status):
            self.assertEqual(status_of(failed.main, "--mark", "/mark", *words, self.market), 0)
        self.assertEqual(before, {path: path.read_bytes() for path in self.market.iterdir()})
        return written.getvalue()

    def test_nothing_has_failed(self) -> None:
        for status in "0", "TERM", "KILL", "":
            self.assertEqual(self.said(status), "")

    def test_damage(self) -> None:
        with (self.market / "left.liq").open("r+b") as file:
            file.seek(200)
            file.write(b"x")
        why, way = self.said("6").splitlines()
        self.assertEqual(
            why, "liq has ended with 6, and nothing begins by itself: left.liq: it is damaged at 2: its digest is another:"
            " bring back a copy")
        commands = way.partition(": ")[2].split("; ")
        self.assertEqual(commands, [
            f"python3 -m liq.restore --older COPY {self.market}", "rm -f /mark", "systemctl reset-failed 'liq*'",
            "systemctl start liq",
        ])

    def test_damage_that_liq_alone_finds(self) -> None:
        program = self.stand_in("print('damaged left 2')\nraise SystemExit(6)\n")
        with mock.patch.dict(os.environ, LIQ_PROGRAM=str(program)):
            self.assertIn("over a copy of it liq ended with 6, damaged left 2", self.said("6"))
        self.assertIn("the guard finds nothing now", self.said("6"))

    def test_a_folder_that_is_gone(self) -> None:
        (self.market / "left.liq").unlink()
        (self.market / "right.liq").unlink()
        self.assertIn(f"no journal in {self.market}", self.said("6"))

    def test_a_market_behind_its_note(self) -> None:
        note = self.folder / "note"
        guard.guard(self.market, note)
        text = note.read_text()
        with (self.market / "left.liq").open("r+b") as file:
            file.truncate(65 + 129)
            file.seek(0, 2)
            file.write(b"\0")
        self.assertIn("behind the note: it has generation 1 with 3 records", self.said("6", "--note", str(note)))
        self.assertEqual(note.read_text(), text)

    def test_a_disk_fault(self) -> None:
        self.assertIn("a look at the files says nothing more", self.said("5"))
        with mock.patch("liq.reasons.free_bytes", return_value=100):
            self.assertIn("100 bytes are free on the file system", self.said("5"))
        (self.market / "left.liq").chmod(0o666)
        self.assertIn("every user may write it: chmod o-w", self.said("5"))

    def test_another_status(self) -> None:
        self.assertIn("liq has ended with 1: the line of its event `ended`", self.said("1"))
