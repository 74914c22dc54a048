"""Why liq can't use its files, as a look at them says; a missing journal, and a program that can't be run."""
import errno
import os
import re
import subprocess
import sys
import unittest
from pathlib import Path
from types import SimpleNamespace
from typing import Any, Callable, Optional, Type
from unittest import mock

from liq import DiskFault, Journal, Killed, LiqError, Locked, Market, NoJournal, NoProgram, NoSpace, NotBuilt
from liq import NotPermitted, Service, reasons, words
from liq.across import across
from liq.archive import archive
from liq.backup import backup
from liq.gateway.run import Run
from liq.guard import guard, held
from liq.recheck import recheck
from liq.statement import statement

from .market import TOP, InFolder, OverProgram, OverStandIn
from .modelled import two_depositors

NOBODY = 65534
FAULTS = "import sys; sys.stdin.readline(); print('disk fault'); sys.exit(5)"


class Seen(InFolder):
    """Cases over files that the model makes, and programs that stand in for liq."""

    def setUp(self) -> None:
        super().setUp()
        self.market = self.folder / "market"
        two_depositors(self.market)

    def refused(self, kind: Type[DiskFault], folder: Optional[Path] = None, **how: Any) -> DiskFault:
        """How a service is refused, before a program is begun: there is none here."""
        with self.assertRaises(kind) as raised:
            Service(folder or self.market, self.folder / "no-program", **how)
        fault = raised.exception
        self.assertEqual((type(fault), fault.status, fault.last, fault.pending), (kind, 5, "", None))
        self.assertEqual(str(fault), f"liq can't use its files: {fault.why}")
        return fault

    def ended(self, program: str = FAULTS) -> DiskFault:
        """How a program ends with 5 at its first line."""
        with self.assertRaises(DiskFault) as raised:
            Service(self.market, self.stand_in(program)).ask("1 9 fund 1 5")
        self.assertEqual((raised.exception.last, raised.exception.pending), ("disk fault", "1 9 fund 1 5"))
        return raised.exception


class Locks(Seen):
    def test_at_the_constructor(self) -> None:
        with held(self.market):
            fault = self.refused(Locked)
        self.assertEqual(fault.why, f"another process holds {self.market}/left.liq: stop it first")
        self.assertIsNone(reasons.holder(self.market))
        self.assertRaises(NoProgram, Service, self.market, self.folder / "no-program")

    def test_behind_an_end(self) -> None:
        program = self.stand_in(FAULTS)
        service = Service(self.market, program)
        with held(self.market), self.assertRaises(Locked) as raised:
            service.ask("? pools")
        self.assertIn("liq ended with 5, disk fault; without a reply: ? pools (another process holds",
            str(raised.exception))

    def test_a_look_holds_nothing(self) -> None:
        """Whoever locks the files at that moment waits for nobody: a look is let go at once, also in a copy of it."""
        unlocked = []
        flock = reasons.fcntl.flock

        def watched(file: Any, how: int) -> None:
            unlocked.append(how)
            flock(file, how)

        with mock.patch.object(reasons.fcntl, "flock", watched):
            self.assertIsNone(reasons.holder(self.market))
        self.assertEqual(unlocked, [reasons.fcntl.LOCK_SH | reasons.fcntl.LOCK_NB, reasons.fcntl.LOCK_UN] * 2)
        with held(self.market):
            pass


class Rights(Seen):
    def test_a_file_that_all_may_write(self) -> None:
        (self.market / "right.liq").chmod(0o606)
        why = f"{self.market}, right.liq: every user may write it: chmod o-w"
        self.assertEqual(self.refused(NotPermitted).why, why)

    def test_one_file_under_both_names(self) -> None:
        (self.market / "right.liq").unlink()
        os.link(self.market / "left.liq", self.market / "right.liq")
        fault = self.refused(DiskFault)
        self.assertEqual(fault.why, f"{self.market}, right.liq: it is the same file as left.liq")

    def test_a_second_name_elsewhere_is_no_fault_of_liq(self) -> None:
        os.link(self.market / "left.liq", self.folder / "second")
        self.assertRaises(NoProgram, Service, self.market, self.folder / "no-program")

    def test_a_file_system_that_is_read_only(self) -> None:
        flags = SimpleNamespace(f_flag=os.ST_RDONLY)
        may = mock.patch.object(reasons, "may", lambda path, mode: not mode & os.W_OK)
        with may, mock.patch.object(reasons.os, "statvfs", return_value=flags):
            fault = self.refused(NotPermitted)
        self.assertEqual(fault.why, f"{self.market}/left.liq is on a file system that is read-only")

    def test_a_folder_that_cant_be_made(self) -> None:
        for code, kind in ((errno.EACCES, NotPermitted), (errno.EROFS, NotPermitted), (errno.ENOSPC, NoSpace)):
            with mock.patch.object(Path, "mkdir", side_effect=OSError(code, os.strerror(code))):
                fault = self.refused(kind, self.folder / "new", create=True)
            self.assertEqual(fault.why, f"{self.folder}/new can't be made: {os.strerror(code)}")
        with mock.patch.object(Path, "mkdir", side_effect=OSError(errno.EIO, "Input/output error")):
            self.assertRaises(OSError, Service, self.folder / "new", self.folder / "none", True)

    def told_as_nobody(self) -> str:
        """What a service over the market is refused with, as a user who owns nothing here."""
        here, there = os.pipe()
        child = os.fork()
        if child == 0:
            try:
                os.setgroups([])
                os.setgid(NOBODY)
                os.setuid(NOBODY)
                Service(self.market, self.folder / "no-program")
            except DiskFault as fault:
                os.write(there, f"{type(fault).__name__} {fault.why}".encode())
            finally:
                os._exit(0)
        os.close(there)
        os.waitpid(child, 0)
        with open(here, "rb") as told:
            return told.read().decode()

    @unittest.skipIf(os.geteuid(), "only root can be another user")
    def test_as_another_user(self) -> None:
        self.folder.chmod(0o755)
        for mode, file_mode, told in (
            (0o700, 0o600, f"user {NOBODY} may not look into it: {self.market}"),
            (0o755, 0o600, f"user {NOBODY} may not read and write it: {self.market}/left.liq"),
            (0o755, 0o644, f"user {NOBODY} may not read and write it: {self.market}/left.liq"),
            (0o755, 0o666, f"{self.market}, left.liq: it belongs to user 0, and liq runs as {NOBODY}: chown it"),
        ):
            self.market.chmod(mode)
            for name in ("left", "right"):
                (self.market / f"{name}.liq").chmod(file_mode)
            self.assertEqual(self.told_as_nobody(), f"NotPermitted {told}")
        (self.market / "right.liq").unlink()
        self.assertEqual(self.told_as_nobody(), f"NotPermitted user {NOBODY} may not make files in it: {self.market}")


class Room(Seen):
    def test_for_a_new_market(self) -> None:
        with mock.patch.object(reasons, "free_bytes", return_value=0):
            fault = self.refused(NoSpace, self.folder / "new", create=True)
            self.assertEqual(fault.why, f"nothing is free on the file system of {self.folder}/new")
            self.assertRaises(NoProgram, Service, self.market, self.folder / "no-program")

    def test_behind_an_end(self) -> None:
        for free, kind in ((0, NoSpace), (4096, NoSpace), (2**30, DiskFault), (None, DiskFault)):
            with mock.patch.object(reasons, "free_bytes", return_value=free):
                fault = self.ended()
            self.assertIs(type(fault), kind)
        with mock.patch.object(reasons, "free_bytes", return_value=4096):
            self.assertEqual(self.ended().why, f"4096 bytes are free on the file system of {self.market}")

    def test_another_status_is_no_matter_of_room(self) -> None:
        with mock.patch.object(reasons, "free_bytes", return_value=0), self.assertRaises(Killed):
            Service(self.market, self.stand_in("import os; os.kill(os.getpid(), 9)")).ask("? pools")

    def test_what_the_system_tells(self) -> None:
        self.assertGreater(reasons.free_bytes(self.market) or 0, 0)
        self.assertIsNone(reasons.free_bytes(self.folder / "none"))
        told = {"f_blocks": 10, "f_files": 5, "f_ffree": 5, "f_bavail": 3, "f_bfree": 4, "f_frsize": 100}
        for change, user, free in (
            ({}, 0, 400), ({}, 7, 300), ({"f_bavail": 0}, 7, 0), ({"f_ffree": 0}, 7, 0),
            ({"f_blocks": 0}, 7, None), ({"f_files": 0, "f_ffree": 0}, 7, 300),
        ):
            found = SimpleNamespace(**{**told, **change})
            with mock.patch.object(reasons.os, "statvfs", return_value=found):
                with mock.patch.object(reasons.os, "geteuid", return_value=user):
                    self.assertEqual(reasons.free_bytes(self.market), free)


class OverTheProgram(OverProgram):
    """liq says `disk fault`, and a look says why."""

    def test_a_second_run(self) -> None:
        first = self.service()
        first.client(1).fund(1, 5)
        with self.assertRaises(Locked):
            self.service(create=False)
        with self.assertRaises(Locked) as raised:
            words.state(self.folder / "market")
        self.assertEqual((raised.exception.status, raised.exception.last), (5, "disk fault"))
        first.close()
        self.assertEqual(words.state(self.folder / "market").records, 1)

    def test_a_file_that_all_may_write(self) -> None:
        self.service().close()
        (self.folder / "market/left.liq").chmod(0o602)
        self.assertRaises(NotPermitted, self.service)
        self.assertRaises(NotPermitted, words.state, self.folder / "market")


class Missing(OverStandIn):
    """A missing journal is one class, whoever looks for it."""

    def test_everywhere(self) -> None:
        for name in ("none", "empty", "shut"):
            folder = self.folder / name
            if name != "none":
                folder.mkdir()
            if name == "shut":
                (folder / "left.liq").write_bytes(bytes(100))
            calls: "list[Callable[[], Any]]" = [
                lambda: Service(folder), lambda: Run(folder), lambda: Journal(folder),
                lambda: Market.of_folder(folder), lambda: words.state(folder), lambda: words.audit(folder),
                lambda: backup(folder, self.folder / "copy"), lambda: archive(folder, self.folder / "archive"),
                lambda: recheck(folder), lambda: statement(folder), lambda: across("audit", folder),
            ]
            for call in calls:
                with self.assertRaises(NoJournal) as raised:
                    call()
                self.assertIsInstance(raised.exception, LiqError)
                self.assertIn("liq would begin a new market there", str(raised.exception))
            said = [line.text for line in guard(folder)]
            begins = f"no journal in {folder}: liq would begin a new market there"
            self.assertIn(begins if folder.is_dir() else f"{folder} is no folder: liq can't begin there", said)


class Programs(Seen):
    def test_one_that_cant_be_run(self) -> None:
        (self.folder / "text").write_text("no program")
        (self.folder / "data").write_bytes(bytes(100))
        (self.folder / "data").chmod(0o700)
        for name, why in (
            ("none", "no such file or directory"), ("text", "permission denied"), ("data", "exec format error"),
            ("market", "permission denied"), ("text/below", "not a directory"),
        ):
            path = self.folder / name
            for call in (lambda: Service(self.market, path), lambda: words.state(self.market, path)):
                with self.assertRaises(NoProgram) as raised:
                    call()
                self.assertIsInstance(raised.exception, NotBuilt)
                self.assertEqual(raised.exception.status, 70)
                self.assertEqual(str(raised.exception), f"{path} can't be run, {why}: name one by LIQ_PROGRAM, or put"
                    " `liq` on the PATH; bin/liq of a checkout builds one")

    def test_want_of_processes_is_not_for_the_program(self) -> None:
        with mock.patch("liq.service.subprocess.Popen", side_effect=BlockingIOError(11, "no more processes")):
            self.assertRaises(BlockingIOError, Service, self.market, self.folder / "none")


class Told(Seen):
    """The logger `liq`."""

    def test_begin_end_refusals_and_faults(self) -> None:
        text = """
import sys
for line in sys.stdin:
    if "take" in line:
        print("no 14 5 0", flush=True)
    elif "close" in line:
        sys.exit(7)
    else:
        print("1" if line[0] == "?" else "ok", flush=True)
"""
        with self.assertLogs("liq", "DEBUG") as logged:
            service = Service(self.market, self.stand_in(text))
            pid, client = service.pid, service.client(1)
            client.fund(1, 5)
            self.assertRaises(LiqError, client.take, 1, 5)
            service.close()
            service.start()
            again = service.pid
            self.assertRaises(LiqError, client.close, 1)
        self.assertEqual([(it.levelname, it.getMessage()) for it in logged.records], [
            ("INFO", f"begun: {self.folder}/stand-in run in {self.market}, process {pid}"),
            ("DEBUG", "refused: no 14, need 5, have 0: `fund` the account first. `? wallet A` says what it has."),
            ("INFO", f"process {pid}: liq ended with 0"),
            ("INFO", f"begun: {self.folder}/stand-in run in {self.market}, process {again}"),
            ("ERROR", f"process {again}: liq ended with 7; without a reply: 1 2 close 1"),
        ])

    def test_the_other_words(self) -> None:
        program = self.stand_in("import sys; sys.exit(print('damaged left 2') or 6 if sys.argv[1] == 'audit' else 0)")
        with self.assertLogs("liq", "DEBUG") as logged:
            self.assertRaises(LiqError, words.audit, self.market, program)
            self.assertRaises(ValueError, words.state, self.market, program)
        told = [(it.levelname, re.sub("process [0-9]+", "process N", it.getMessage())) for it in logged.records]
        self.assertEqual(told, [
            ("INFO", f"begun: {program} audit in {self.market}, process N"),
            ("ERROR", "process N: liq ended with 6, damaged left 2"),
            ("INFO", f"begun: {program} state in {self.market}, process N"),
            ("INFO", "process N: liq ended with 0"),
        ])

    def test_a_service_that_nobody_closes(self) -> None:
        """The run ends with the program that began it, without a word."""
        text = "import liq, sys; kept = liq.Service(sys.argv[1], sys.argv[2]); print(kept.pid)"
        environment = {**os.environ, "PYTHONPATH": str(TOP / "clients/python"), "PYTHONDONTWRITEBYTECODE": "1"}
        asked = [sys.executable, "-c", text, self.market, self.stand_in("import sys\nfor line in sys.stdin: pass")]
        ran = subprocess.run(asked, capture_output=True, text=True, env=environment)
        self.assertEqual((ran.returncode, ran.stderr), (0, ""))
        with self.assertRaises(ProcessLookupError):
            os.kill(int(ran.stdout), 0)

    def test_nothing_is_printed_where_nobody_listens(self) -> None:
        asked = [sys.executable, "-c", "import logging; from liq import Refusal; logging.getLogger('liq').error('x'); print(1)"]
        environment = {**os.environ, "PYTHONPATH": str(TOP / "clients/python"), "PYTHONDONTWRITEBYTECODE": "1"}
        ran = subprocess.run(asked, capture_output=True, text=True, env=environment)
        self.assertEqual((ran.stdout, ran.stderr), ("1\n", ""))
