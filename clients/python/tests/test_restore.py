"""Copies of markets that are brought back: what it refuses, what it keeps, and each moment at which it may be stopped."""
import contextlib
import io
import json
import os
import shutil
import subprocess
import sys
import unittest
from pathlib import Path
from typing import Any, Callable, Dict, List, Tuple
from unittest import mock

from liq import Journal, archive, backup, guard, restore
from liq.gateway.caller import Caller
from liq.words import state

from .gateways import Gateways
from .market import PROGRAM, TOP, OverProgram, status_of

Bytes = Dict[str, bytes]
CHANGES = ("link", "mkdir", "rename", "replace", "rmdir", "unlink", "fsync")  # of a file system: a stop may come at each
SOMEBODY = 12345


def bytes_of(folder: Path) -> Bytes:
    """What counts of each file: up to the gate behind the last record."""
    found = {}
    for seen in guard.look(folder).files:
        data = seen.path.read_bytes()
        found[seen.name] = data[: seen.gate_of(seen.records + 1)] if seen.header else data
    return found


def restored(*words: object) -> Tuple[int, str]:
    """The status of a call, and what it writes."""
    written = io.StringIO()
    with contextlib.redirect_stdout(written):
        status = status_of(restore.main, *words)
    return status, written.getvalue()


class Restores(OverProgram):
    """A market in `state/market`, of which there is a copy, and which went on."""

    def setUp(self) -> None:
        super().setUp()
        self.bounded()
        self.state = self.folder / "state"
        self.state.mkdir()
        self.market, self.copy, self.note = self.state / "market", self.folder / "copy", self.state / "note"
        self.archive = self.state / "archive"
        self.fund(3)
        backup.backup(self.market, self.copy)

    def fund(self, count: int, name: str = "state/market", amount: int = 5) -> None:
        with self.service(name) as run:
            client = run.client(1)
            for _ in range(count):
                client.fund(1, amount)

    def rotate(self) -> None:
        archive.archive(self.market, self.archive)
        with self.service("state/market") as run:
            run.client(1).rotate()
        archive.archive(self.market, self.archive)

    def refuses(self, why: str, *words: object) -> None:
        """It says why, and leaves all as it was."""
        before = self.everything()
        status, said = restored(*words)
        self.assertEqual(status, 1, said)
        self.assertIn("restore refuses: ", said)
        self.assertIn(why, said)
        self.assertEqual(before, self.everything())

    def everything(self) -> Bytes:
        return {str(path): path.read_bytes() for path in sorted(self.folder.rglob("*")) if path.is_file()}

    def stands(self, folder: Path) -> Tuple[int, int]:
        found = state(folder)
        return found.generation, found.records

    def aside(self) -> List[Path]:
        return sorted(self.market.glob("replaced-*"))


class Market(Restores):
    """The two files."""

    def test_a_copy_is_brought_back(self) -> None:
        copied = bytes_of(self.copy)
        self.refuses("the copy is the market's own folder", self.market, self.market)
        self.fund(2)
        newer = bytes_of(self.market)
        has = f"{self.market} has generation 1 with 5 records"
        self.refuses(f"the copy has journal 1 3, and {has}. --older says", self.copy, self.market)
        before = self.everything()
        status, said = restored("--dry-run", "--older", self.copy, self.market)
        self.assertEqual((status, said.splitlines()[-1]), (0, "nothing was changed"))
        self.assertEqual(before, self.everything())
        status, said = restored("--older", self.copy, self.market)
        self.assertEqual(status, 0, said)
        (kept,) = self.aside()
        self.assertEqual(said.splitlines()[0], f"{self.copy} is sound, and liq opens it: journal 1 3")
        self.assertRegex(said.splitlines()[1], f"of user [a-z0-9]+, with mode 600; those of before are in {kept}$")
        self.assertEqual((bytes_of(self.market), bytes_of(kept)), (copied, newer))
        self.assertEqual({path.name for path in self.market.iterdir()}, {"left.liq", "right.liq", kept.name})
        self.assertEqual(guard.guard(self.market), [])
        self.assertEqual(self.stands(self.market), (1, 3))

    def test_what_was_put_aside_comes_back(self) -> None:
        self.fund(2)
        newer = bytes_of(self.market)
        restored("--older", self.copy, self.market)
        (kept,) = self.aside()
        self.assertEqual(restored(kept, self.market)[0], 0)
        self.assertEqual(bytes_of(self.market), newer)

    def test_into_an_empty_folder(self) -> None:
        shutil.rmtree(self.market)
        self.refuses("make it, as that of who runs liq", self.copy, self.market)
        self.market.mkdir()
        self.assertEqual(restored(self.copy, self.market)[0], 0)
        self.assertEqual(bytes_of(self.market), bytes_of(self.copy))
        self.assertEqual({path.name for path in self.market.iterdir()}, {"left.liq", "right.liq"})

    def test_nothing_is_kept(self) -> None:
        self.fund(1)
        self.assertEqual(restored("--older", "--discard", self.copy, self.market)[0], 0)
        self.assertEqual({path.name for path in self.market.iterdir()}, {"left.liq", "right.liq"})

    def test_a_run(self) -> None:
        for name, why in (("state/market", "a run holds"), ("copy", f"a run holds {self.copy}: have liq.backup copy it")):
            with self.service(name) as run:
                run.ask("? pools")  # else it may not hold them yet
                self.refuses(why, self.copy, self.market)

    def test_two_at_once(self) -> None:
        with restore.alone(self.market):
            self.refuses("a run holds", self.copy, self.market)

    def test_a_copy_that_is_not_sound(self) -> None:
        def missing() -> None:
            (self.copy / "right.liq").unlink()

        def damaged() -> None:
            with (self.copy / "left.liq").open("r+b") as file:
                file.seek(100)
                file.write(b"x")

        def rotted() -> None:
            with (self.copy / "left.liq").open("r+b") as file:
                file.seek(65)
                file.write(b"\0")

        for spoil, why in ((missing, "right.liq: it is missing"), (damaged, "damaged at 1"), (rotted, "No stop leaves")):
            with self.subTest(why):
                spoil()
                self.refuses(why, "--older", self.copy, self.market)
                shutil.rmtree(self.copy)
                backup.backup(self.market, self.copy)

    def test_a_copy_that_liq_does_not_open(self) -> None:
        program = self.stand_in("print('damaged left 2')\nraise SystemExit(6)\n")
        with mock.patch.dict(os.environ, LIQ_PROGRAM=str(program)):
            self.refuses("over the copy liq ended with 6, damaged left 2", "--older", self.copy, self.market)
        with mock.patch.dict(os.environ, LIQ_PROGRAM=str(self.folder / "none")):
            status, said = restored(self.copy, self.market)
        self.assertEqual(status, 0)
        self.assertIn("was not opened, as there is no program", said)

    def test_links(self) -> None:
        os.rename(self.market / "left.liq", self.folder / "elsewhere")
        (self.market / "left.liq").symlink_to(self.folder / "elsewhere")
        self.refuses("left.liq: it is a link", self.copy, self.market)

    def test_a_full_disk(self) -> None:
        with mock.patch("liq.restore.os.fsync", side_effect=OSError(28, "No space left on device")):
            self.refuses("No space left", self.copy, self.market)

    def test_json(self) -> None:
        self.fund(1)
        status, said = restored("--json", self.copy, self.market)
        self.assertEqual((status, set(json.loads(said))), (1, {"refused", "behind"}))
        status, said = restored("--json", "--older", self.copy, self.market)
        self.assertEqual((status, len(json.loads(said)["done"])), (0, 2))


class Newer(Restores):
    """What the copy has not is given up by the operator's word alone."""

    def test_by_a_note(self) -> None:
        self.fund(2)
        guard.guard(self.market, self.note)
        for path in self.market.iterdir():
            path.write_bytes(b"")
        self.refuses(f"{self.note} has generation 1 with 5 records", self.copy, self.market)
        status, said = restored("--older", self.copy, self.market)
        self.assertEqual(status, 0, said)
        (kept,) = self.state.glob("note.replaced-*")
        self.assertEqual(said.splitlines()[-1], f"{self.note}: it has journal 1 3; as it was it is {kept.name}")
        self.assertEqual(guard.guard(self.market, self.note), [])

    def test_by_a_note_that_is_left(self) -> None:
        self.fund(2)
        guard.guard(self.market, self.note)
        text = self.note.read_text()
        status, _ = restored("--older", "--leave", "note", self.copy, self.market)
        self.assertEqual((status, self.note.read_text()), (0, text))

    def test_behind_damage(self) -> None:
        self.fund(2)
        for place in 100, 65 + 129 * 4 + 50:  # in record 1, and in the last one
            with self.subTest(place), (self.market / "left.liq").open("r+b") as file:
                file.seek(place)
                file.write(b"x")
                self.refuses("has generation 1 with 5 records", self.copy, self.market)

    def test_damage_within_what_the_copy_has(self) -> None:
        with (self.market / "left.liq").open("r+b") as file:
            file.seek(300)
            file.write(b"x")
        self.assertEqual(restored(self.copy, self.market)[0], 0)
        self.assertEqual(bytes_of(self.market), bytes_of(self.copy))

    def test_another_history(self) -> None:
        self.fund(3, "other", 6)
        self.refuses(f"{self.market} has another history, generation 1 with 3", self.folder / "other", self.market)

    def test_a_later_generation_whose_header_rotted(self) -> None:
        self.fund(1)
        with self.service("state/market") as run:
            run.client(1).rotate()
            run.client(1).fund(1, 1)
        with (self.market / "right.liq").open("r+b") as file:
            file.write(b"\2")
        self.refuses("has generation 2 with 1 record", self.copy, self.market)

    def test_a_copy_that_is_newer(self) -> None:
        behind = self.folder / "behind"
        shutil.copytree(self.market, behind)
        self.fund(2)
        with self.service("state/market") as run:
            run.client(1).rotate()
        newer = self.folder / "newer"
        backup.backup(self.market, newer)
        self.assertEqual(restored(newer, behind)[0], 0)
        self.assertEqual(self.stands(behind), (2, 0))


class Archived(Restores):
    """An archive goes on from what is brought back."""

    def test_later_generations_are_put_aside(self) -> None:
        self.rotate()
        self.fund(2)
        copy = self.folder / "second"
        backup.backup(self.market, copy)
        self.fund(1)
        self.rotate()
        self.rotate()
        guard.guard(self.market, self.note)
        self.assertEqual([kept.generation for kept in archive.kept_in(self.archive)], [1, 2, 3])
        self.refuses(f"{self.archive} has generation 3 whole", copy, self.market)
        self.assertEqual(restored("--older", copy, self.market)[0], 0)
        self.assertEqual([kept.generation for kept in archive.kept_in(self.archive)], [1])
        (kept,) = self.archive.glob("replaced-*")
        self.assertEqual([copy.generation for copy in archive.kept_in(kept)], [2, 3])
        self.fund(7)
        self.rotate()
        self.assertEqual([kept.generation for kept in archive.kept_in(self.archive)], [1, 2])
        self.assertEqual(restored("--older", "--discard", self.copy, self.market)[0], 0)
        self.assertEqual(list(archive.named_in(self.archive)), [])

    def test_one_of_another_market(self) -> None:
        self.fund(2, "other", 6)
        with self.service("other") as run:
            run.client(1).rotate()
        archive.archive(self.folder / "other", self.archive)
        self.refuses("is of another market", "--older", self.copy, self.market)
        before = os.listdir(self.archive)
        self.assertEqual(restored("--leave", "archive", self.copy, self.market)[0], 0)
        self.assertEqual(os.listdir(self.archive), before)

    def test_one_with_a_gap(self) -> None:
        for _ in range(3):
            self.rotate()
        newer = self.folder / "newer"
        backup.backup(self.market, newer)
        archive.kept_in(self.archive)[1].path.unlink()
        self.refuses("generation 2 is missing", newer, self.market)


class Stops(Restores):
    """At each moment at which it may be killed the folder has what it had, or is refused, or has the copy; and the same
    call once more ends it."""

    def killed_at(self, count: int) -> bool:
        """Has a process restore, and kills it before its change number `count`. Whether it came to that."""
        child = os.fork()
        if child == 0:
            left = count

            def counted(call: Callable[..., Any]) -> Callable[..., Any]:
                def changes(*words: Any, **named: Any) -> Any:
                    nonlocal left
                    left -= 1
                    if left < 0:
                        os._exit(9)
                    return call(*words, **named)
                return changes

            patches = {name: counted(getattr(os, name)) for name in CHANGES}
            with mock.patch.multiple(os, **patches):  # type: ignore[arg-type]
                status, _ = restored("--older", self.copy, self.market)
            os._exit(status)
        _, status = os.waitpid(child, 0)
        self.assertIn(os.waitstatus_to_exitcode(status), (0, 9))
        return os.waitstatus_to_exitcode(status) == 9

    def test_each_moment(self) -> None:
        self.rotate()
        self.fund(2)
        self.copy = self.folder / "second"
        backup.backup(self.market, self.copy)
        self.rotate()
        self.fund(1)
        guard.guard(self.market, self.note)
        old, new = bytes_of(self.market), bytes_of(self.copy)
        kept = self.folder / "kept"
        shutil.copytree(self.state, kept)
        count, seen = 0, set()
        while True:
            shutil.rmtree(self.state)
            shutil.copytree(kept, self.state)
            is_killed = self.killed_at(count)
            seen.add(self.judged(old, new))
            status, said = restored("--older", self.copy, self.market)
            self.assertEqual(status, 0, said)
            self.assertEqual(bytes_of(self.market), new)
            self.assertEqual(guard.guard(self.market, self.note), [])
            self.assertIn(old, [bytes_of(path) for path in self.aside()])
            self.assertFalse((self.market / restore.ROOM).exists())
            self.assertEqual([it.generation for it in archive.kept_in(self.archive)], [1])
            if not is_killed:
                break
            count += 1
        self.assertEqual(seen, {"old", "closed", "new", "done"})
        self.assertGreater(count, 20)

    def judged(self, old: Bytes, new: Bytes) -> str:
        """What a stop has left: nothing that a service would start from but the one market or the other."""
        found = guard.guard(self.market, None)
        if any("damaged at 0" in line.text for line in found):
            self.assertEqual(subprocess.run([PROGRAM, "state"], cwd=self.market, stdout=subprocess.DEVNULL).returncode, 6)
            return "closed"
        here = bytes_of(self.market)
        self.assertIn(here, (old, new))
        if here == old:
            return "old"
        noted = [line for line in guard.look(self.market).lines if line.is_finding]
        self.assertEqual(noted, [])
        is_behind = any("behind the note" in line.text for line in guard.guard(self.market, self.note))
        return "new" if is_behind else "done"

    def test_a_fault_between_the_files(self) -> None:
        self.fund(2)
        old = bytes_of(self.market)
        replace = os.replace
        for failing in (1, 2, 3):
            left = failing

            def fails(*words: Any) -> None:
                nonlocal left
                left -= 1
                if left == 0:
                    raise OSError(5, "Input/output error")
                replace(*words)

            with mock.patch.object(os, "replace", fails):
                status, said = restored("--older", self.copy, self.market)
            self.assertEqual((status, "Input/output" in said), (1, True), said)
            self.assertEqual(bytes_of(self.market), old)
            self.assertEqual({path.name for path in self.market.iterdir()}, {"left.liq", "right.liq"})


class Book(Gateways):
    """A gateway's book goes on from the copy, and the files are the owner's."""

    def ask(self, *lines: str) -> List[str]:
        process = self.start()
        with Caller(self.socket, "alice") as alice:
            said = [alice.ask(line) for line in lines]
        process.terminate()
        process.wait()
        return said

    def setUp(self) -> None:
        super().setUp()
        self.copy = self.folder / "copy"
        self.assertEqual(self.ask("a fund 1 5"), ["ok"])
        backup.backup(self.market, self.copy)
        self.assertEqual(self.ask("b fund 1 5", "c take 1 100"), ["ok", "no 14 100 10"])

    def test_adopted(self) -> None:
        self.assertIn("gateway's table", restored("--older", self.copy, self.market)[1])
        words = ["--older", "--table", self.table, self.copy, self.market]
        status, said = restored(*words)
        self.assertEqual(status, 0, said)
        (kept,) = self.market.glob("gateway.book.replaced-*")
        self.assertRegex(said.splitlines()[-1], f"of alice it goes on behind command 1, and not 2; as it was it is {kept}$")
        self.assertEqual(self.ask("a fund 1 5", "? wallet 1", "b fund 1 5", "? wallet 1"), ["ok", "5 0", "ok", "10 0"])

    def test_the_keys_of_another_history(self) -> None:
        second = self.folder / "second"
        backup.backup(self.market, second)
        words = ["--older", "--table", self.table]
        self.assertEqual(restored(*words, self.copy, self.market)[0], 0)
        self.assertEqual(self.ask("other fund 1 7"), ["ok"])
        status, said = restored(*words, second, self.market)
        self.assertEqual((status, "of alice the keys of another history are forgotten" in said), (0, True), said)
        self.assertEqual(self.ask("a fund 1 5", "? wallet 1", "other fund 1 7", "? wallet 1"), ["ok", "10 0", "ok", "17 0"])

    def test_beside_a_gateway(self) -> None:
        process = self.start()
        why = restored("--older", "--table", self.table, self.copy, self.market)[1]
        self.assertIn("a run holds", why)
        process.terminate()

    @unittest.skipUnless(os.geteuid() == 0, "it takes root")
    def test_as_root(self) -> None:
        state, copy = self.folder / "state", self.folder / "copy"
        state.mkdir()
        os.rename(self.market, state / "market")
        self.market = state / "market"
        guard.guard(self.market, state / "note")
        os.rename(self.market / "gateway.book", state / "book")
        for path in (state, *state.rglob("*")):
            os.chown(path, SOMEBODY, SOMEBODY)
        self.folder.chmod(0o711)
        self.table.chmod(0o644)
        copy.chmod(0o700)
        python = next((path for path in (sys.executable, "/usr/bin/python3") if not path.startswith("/root/")), "")
        if not os.access(python, os.X_OK):
            self.skipTest("it takes a Python that others than root reach")
        words = [python, "-m", "liq.restore", "--older", "--table", str(self.table), str(copy), str(self.market)]
        modules = self.folder / "modules"
        shutil.copytree(TOP / "clients/python/liq", modules / "liq", ignore=shutil.ignore_patterns("__pycache__"))
        environment = {**self.environment, "PYTHONPATH": str(modules)}
        done = subprocess.run(words, env=environment, cwd=copy, stdout=subprocess.PIPE, text=True)
        self.assertEqual(done.returncode, 0, done.stdout)
        self.assertEqual(len(Journal(self.market).current.commands), 1)
        owners = {path.name: (path.stat().st_uid, path.stat().st_mode & 0o777) for path in state.rglob("*") if path.is_file()}
        self.assertEqual(set(owners.values()), {(SOMEBODY, 0o600)}, owners)


if __name__ == "__main__":
    unittest.main()
