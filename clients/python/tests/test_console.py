"""The commands: their help, their forms, how they end, and the bar of what takes long."""
import contextlib
import csv
import importlib
import io
import json
import os
import socket
import subprocess
import sys
import threading
import unittest
from pathlib import Path
from typing import Any, Dict, Iterator, List, Optional, Tuple
from unittest import mock

import liq
from liq import across, archive, backup, console, guard, progress, recheck, statement
from liq.__main__ import COMMANDS, listed
from liq.__main__ import main as list_or_run
from liq.journal import Journal

from .market import TOP, InFolder, OverProgram, status_of
from .modelled import Made, two_depositors

NO_PROGRAM = {"LIQ_PROGRAM": "/none"}
NEED_NO_WORD = ("prompt", "whole")


class Terminal(io.StringIO):
    """Standard error at a terminal."""

    def isatty(self) -> bool:
        return True


def ran(main: Any, *words: object, given: str = "", error: Optional[io.StringIO] = None) -> Tuple[int, str, str]:
    """The status of a command, and what it writes to standard output and error."""
    source, said = io.TextIOWrapper(io.BytesIO(given.encode())), error or io.StringIO()
    with mock.patch.object(sys, "stdin", source), contextlib.redirect_stdout(io.StringIO()) as told:
        with contextlib.redirect_stderr(said):
            status = status_of(main, *words)
    return status, told.getvalue(), said.getvalue()


def mains() -> Iterator[Tuple[str, Any]]:
    for name, each in COMMANDS.items():
        yield name, importlib.import_module(f"liq.{each.module}").main


class Words(unittest.TestCase):
    def test_each_command_has_its_help(self) -> None:
        for name, main in mains():
            with self.subTest(name), mock.patch.dict(os.environ, COLUMNS="200"):
                status, told, said = ran(main, "--help")
                self.assertEqual((status, said), (0, ""))
                self.assertTrue(told.startswith(f"usage: python3 -m liq.{name} "), told[:80])
                self.assertIn("xamples:\n", told)
                self.assertIn(f"  python3 -m liq.{name} " if "speak" not in name else "liq.gateway.speak ", told)
                self.assertGreater(len(told), 400)

    def test_each_command_says_its_version(self) -> None:
        for name, main in mains():
            self.assertEqual(ran(main, "--version"), (0, f"liq.{name} {liq.__version__}\n", ""))

    def test_words_that_are_not_understood(self) -> None:
        for name, main in mains():
            for words in ([], ["--other"], ["a", "b", "c", "d"])[name in NEED_NO_WORD :]:
                with self.subTest(name=name, words=words):
                    status, told, said = ran(main, *words)
                    self.assertEqual((status, told), (2, ""))
                    self.assertIn(f"python3 -m liq.{name}", said)

    def test_one_form_at_a_time(self) -> None:
        for main, words in (
            (recheck.main, ["--json", "--csv", "x"]), (archive.main, ["--csv", "--json", "x", "y"]),
            (statement.main, ["--csv", "gains", "--form", "page", "x"]), (statement.main, ["--csv", "x", "y"]),
            (across.main, ["--json", "--csv", "--archive", "x", "audit", "y"]),
        ):
            self.assertEqual(ran(main, *words)[:2], (2, ""))

    def test_a_bound_on_time(self) -> None:
        for word in ("0", "-1", "1.5", "x", "", str(10**9 + 1), "\u0661"):
            for main in (recheck.main, statement.main):
                status, _, said = ran(main, "--seconds", word, "x")
                self.assertEqual(status, 2)
                self.assertIn("argument --seconds", said)

    def test_the_pages_that_are_named(self) -> None:
        self.assertIn("docs/GATEWAY.md its routines", ran(dict(mains())["gateway"], "--help")[1])

    def test_the_list(self) -> None:
        status, told, _ = ran(list_or_run)
        lines = told.splitlines()
        self.assertEqual((status, lines, lines[2:]), (0, listed(), [line for line in lines if "liq." in line][1:]))
        self.assertEqual(len(lines), 2 + len(COMMANDS))
        for name, line in zip(COMMANDS, lines[2:]):
            self.assertTrue(line.startswith(f"python3 -m liq.{name} "), line)
            self.assertLessEqual(len(line), 120)
        package = Path(liq.__file__).parent
        having = {str(path.relative_to(package)) for path in package.rglob("*.py") if "\ndef main(" in path.read_text()}
        named = {each.module.replace(".", "/") + ".py" for each in COMMANDS.values()}
        self.assertEqual(having, named | {"__main__.py"})

    def test_by_the_list(self) -> None:
        self.assertEqual(ran(list_or_run, "--version")[:2], (0, f"liq {liq.__version__}\n"))
        status, told, _ = ran(list_or_run, "guard", "--help")
        self.assertEqual((status, told[:30]), (0, "usage: python3 -m liq.guard [-"))
        self.assertEqual(ran(list_or_run, "guard")[0], 2)
        status, told, said = ran(list_or_run, "run")
        self.assertEqual((status, told, said[:41]), (2, "", "liq: run is no command of python3 -m liq:"))


class OverFiles(InFolder):
    """A case over files that the model makes."""

    def setUp(self) -> None:
        super().setUp()
        self.made: Made = two_depositors(self.folder / "market")
        self.market, self.directory = self.made.folder, self.folder / "archive"

    def rotate(self) -> None:
        self.made.rotate()
        archive.archive(self.market, self.directory)


class Forms(OverFiles):
    """What needs no program."""

    def object(self, main: Any, *words: object, status: int = 0, given: str = "") -> Dict[str, Any]:
        found, told, said = ran(main, *words, given=given)
        self.assertEqual((found, said), (status, ""), told)
        return dict(json.loads(told))

    def rows(self, main: Any, *words: object, given: str = "") -> List[Dict[str, str]]:
        found, told, said = ran(main, *words, given=given)
        self.assertEqual((found, said), (0, ""), told)
        return list(csv.DictReader(io.StringIO(told)))

    def test_guard(self) -> None:
        told = self.object(guard.main, "--json", self.market)
        self.assertEqual(told, {
            "folder": str(self.market), "may_start": True, "generation": 1, "records": 9, "findings": [],
            "left_by_a_stop": [], "mended": [],
        })
        with (self.market / "left.liq").open("r+b") as file:
            file.seek(65 + 129)
            file.write(b"\0")
        told = self.object(guard.main, "--json", self.market, status=1)
        self.assertEqual((told["may_start"], told["records"], len(told["findings"])), (False, 1, 1))
        self.assertIn("left.liq: the gate of record 2, at 194, is 0", told["findings"][0])
        with mock.patch.dict(os.environ, NO_PROGRAM):
            told = self.object(guard.main, "--json", "--mend", self.market)
        self.assertEqual((told["may_start"], told["records"], told["mended"][-1]),
            (True, 9, "left.liq: the gate at 194 is open"))
        told = self.object(guard.main, "--json", self.folder / "none", status=1)
        self.assertEqual((told["generation"], told["records"]), (None, None))

    def test_backup(self) -> None:
        with mock.patch.dict(os.environ, NO_PROGRAM):
            told = self.object(backup.main, "--json", self.market, self.folder / "copy")
            self.assertEqual((told["opened"], told["generation"], told["records"]), (False, None, None))
            self.assertEqual([file["name"] for file in told["files"]], ["left.liq", "right.liq"])
            self.assertEqual([file["bytes"] for file in told["files"]], [1227, 0])
            again = self.object(backup.main, "--json", self.market, self.folder / "copy", status=1)
        self.assertEqual(list(again), ["refused"])
        self.assertIn("has something in it", again["refused"])

    def test_archive(self) -> None:
        told = self.object(archive.main, "--json", self.market, self.directory)
        self.assertEqual(told, {"generations": [], "said": "no rotation has left anything behind"})
        self.made.rotate()
        self.made.call(1, "fund 1 5")
        self.made.write()
        (row,) = self.rows(archive.main, "--csv", self.market, self.directory)
        self.assertEqual((row["generation"], row["bytes"], row["made"]), ("1", "1227", "yes"))
        self.assertEqual(row["name"], f"00000000001-{row['sha256']}.liq")
        told = self.object(archive.main, "--json", self.market, self.directory)
        self.assertEqual([each["made"] for each in told["generations"]], [False])
        self.assertEqual(told["said"], f"{self.directory} has 1 generation, from the first generation on")
        refused = self.object(archive.main, "--json", self.folder / "none", self.directory, status=1)
        self.assertIn("no journal", refused["refused"])

    def test_across(self) -> None:
        self.rotate()
        self.rotate()
        words = ["--archive", self.directory, "audit", self.market]
        _, text, _ = ran(across.main, *words)
        rows = self.rows(across.main, "--csv", *words)
        self.assertEqual([" ".join(row.values()) for row in rows], text.splitlines()[:-1])
        self.assertEqual(list(rows[0])[:3], ["account", "balance_low", "balance_high"])
        told = self.object(across.main, "--json", *words)
        self.assertEqual((told["within"], told["of"], [row["account"] for row in told["rows"]]), (2, 2, [2, 3]))
        stakes = ["--archive", self.directory, "staking", self.market]
        told = self.object(across.main, "--json", *stakes, given="2 7 stake 5\n11 7 unstake 6\n")
        self.assertEqual(told["replies"], ["ok", "no 44 11 2 9"])
        self.assertEqual(told["rows"], [{"account": 7, "stake": 5, "coll": 0, "lusd": 100000000, "allowance": 2}])
        rewards = ["--archive", self.directory, "rewards", self.market]
        rows = self.rows(across.main, "--csv", *rewards, given="tag 2 7 500000000000000000\n")
        self.assertEqual([row["front"] for row in rows], ["7", ""])
        refused = self.object(across.main, "--json", *stakes, status=1, given="x\n")
        self.assertEqual(refused, {"refused": "line 1 is none of staking"})

    def test_across_names_its_columns_at_a_terminal(self) -> None:
        self.rotate()
        told, said = Terminal(), io.StringIO()
        with contextlib.redirect_stdout(told), contextlib.redirect_stderr(said):
            self.assertEqual(across.main(["--archive", str(self.directory), "audit", str(self.market)]), 0)
        self.assertEqual(said.getvalue().split(" ")[:3], ["liq:", "account", "balance_low"])

    def test_statement(self) -> None:
        told = self.object(statement.main, "--json", "--date", "2026-11-30", self.market)
        self.assertEqual(told, self.object(statement.main, "--form", "json", "--date", "2026-11-30", self.market))
        for name in statement.TABLES:
            rows = self.rows(statement.main, "--csv", name, self.market)
            wanted = [{key: "" if cell is None else str(cell) for key, cell in row.items()} for row in told[name]]
            self.assertEqual(rows, wanted, name)
        self.assertEqual({name for name, each in told.items() if each and isinstance(each, list)
            and isinstance(each[0], dict)}, set(statement.TABLES))
        (self.market / "left.liq").write_bytes((self.market / "left.liq").read_bytes()[:700] + bytes(600))
        refused = self.object(statement.main, "--json", self.market, status=1)
        self.assertEqual(sorted(refused), ["behind", "refused"])
        self.assertIn("left.liq is damaged at 5", refused["refused"])
        self.assertEqual(len(refused["behind"]), 5)


class OverTheProgram(OverProgram):
    def setUp(self) -> None:
        super().setUp()
        self.market = two_depositors(self.folder / "market").folder

    def test_recheck(self) -> None:
        status, text, _ = ran(recheck.main, self.market)
        self.assertEqual((status, text.splitlines()[:3]), (0, [
            "account     balance         exactly  may be short by        gain         exactly  may be short by",
            "      2  5186666666  5186666666.666                9  6633333333  6633333333.333              111",
            "      3  2593333333  2593333333.333                5  3316666666  3316666666.666               63",
        ]))
        status, told, _ = ran(recheck.main, "--csv", self.market)
        rows = list(csv.reader(io.StringIO(told)))
        self.assertEqual(rows[0], list(recheck.KEYS))
        wanted = [" ".join(line.split()) for line in text.splitlines()[1:3]]
        self.assertEqual([" ".join(row) for row in rows[1:]], wanted)
        status, told, _ = ran(recheck.main, "--json", self.market)
        made = json.loads(told)
        self.assertEqual((made["holds"], made["commands"], made["offsets"], made["faults"]), (True, 9, 1, []))
        self.assertEqual(made["depositors"][0]["balance_fraction"], "15560000000/3")
        self.assertEqual(made["said"], text.splitlines()[3:])
        status, told, _ = ran(recheck.main, "--json", self.folder / "none")
        self.assertEqual((status, list(json.loads(told))), (1, ["refused"]))

    def test_backup(self) -> None:
        status, told, _ = ran(backup.main, "--json", self.market, self.folder / "copy")
        made = json.loads(told)
        self.assertEqual((status, made["opened"], made["generation"], made["records"]), (0, True, 1, 9))
        self.assertEqual(Journal(self.folder / "copy").lines, Journal(self.market).lines)


class Bars(OverFiles):
    """What takes long shows how far it is, at a terminal alone."""

    def shown(self, main: Any, *words: object, given: str = "") -> str:
        quick = mock.patch.multiple(progress, QUIET_SECONDS=0.0, BETWEEN_SECONDS=0.0)
        with quick, mock.patch.dict(os.environ, NO_PROGRAM):
            status, told, said = ran(main, *words, given=given, error=Terminal())
            self.assertEqual(status, 0, told)
            plain = ran(main, *words[:-1], f"{words[-1]}2" if main is backup.main else words[-1], given=given)
        self.assertEqual((plain[0], plain[2]), (0, ""))
        self.assertTrue(said.endswith("\r"), said)
        return said

    def test_backup(self) -> None:
        self.assertIn("100% copied", self.shown(backup.main, self.market, self.folder / "copy"))

    def test_guard(self) -> None:
        with mock.patch.object(guard, "RECORDS_AT_ONCE", 4):
            self.assertIn("left.liq", self.shown(guard.main, self.market))

    def test_archive(self) -> None:
        self.made.rotate()
        with mock.patch.object(archive, "_keep", return_value=archive.Kept(1, self.market / "left.liq", "0")):
            self.assertIn("100% generation 1", self.shown(archive.main, self.market, self.directory))

    def test_across(self) -> None:
        self.rotate()
        self.assertIn("records", self.shown(across.main, "--archive", self.directory, "audit", self.market))

    def test_statement(self) -> None:
        self.assertIn("exact shares", self.shown(statement.main, self.market))

    def test_nothing_within_two_seconds(self) -> None:
        self.assertEqual(progress.QUIET_SECONDS, 2.0)
        with mock.patch.object(progress, "QUIET_SECONDS", 60.0):  # beside other work it may take more than two
            self.assertEqual(ran(statement.main, self.market, error=Terminal())[2], "")


class BarOfRecheck(OverProgram):
    def test_it(self) -> None:
        market = two_depositors(self.folder / "market").folder
        with mock.patch.multiple(progress, QUIET_SECONDS=0.0, BETWEEN_SECONDS=0.0):
            said = ran(recheck.main, market, error=Terminal())[2]
        self.assertIn("100% commands", said)
        self.assertIn("100% exact shares", said)


class Console(unittest.TestCase):
    def test_rows_under_heads(self) -> None:
        rows = [("alice", 5, None), ("bo", 1234, "x")]
        self.assertEqual(list(console.aligned(("name", "count", "rest"), rows)),
            ["name   count  rest", "alice      5  -", "bo      1234  x"])
        self.assertEqual(list(console.aligned(("name", "count"), [])), ["name  count"])
        self.assertEqual(console.as_csv(("a", "b"), [(1, None), ("x,y", 2**70)]), f'a,b\n1,\n"x,y",{2**70}\n')

    def test_want_of_memory(self) -> None:
        def fails() -> int:
            raise MemoryError

        with contextlib.redirect_stdout(io.StringIO()) as told:
            self.assertEqual((console.ended("x", fails), console.ended("x", fails, True)), (1, 1))
        self.assertEqual(told.getvalue(),
            'x refuses: there is not enough memory\n{\n "refused": "there is not enough memory"\n}\n')



class Readers(OverFiles):
    """A reader that goes, as `head` does."""

    def ended(self, *words: object, given: bytes = b"") -> Tuple[int, bytes]:
        """The status of a process whose output nobody reads, and what stands on standard error."""
        here = {"PYTHONPATH": str(TOP / "clients/python"), "PYTHONDONTWRITEBYTECODE": "1"}
        with subprocess.Popen(
            [sys.executable, "-m", *map(str, words)], stdin=subprocess.PIPE, stdout=subprocess.PIPE,
            stderr=subprocess.PIPE, env={**os.environ, **NO_PROGRAM, **here},
        ) as process:
            assert process.stdin and process.stdout and process.stderr
            process.stdout.close()
            with contextlib.suppress(BrokenPipeError):
                process.stdin.write(given)
                process.stdin.close()
            return process.wait(), process.stderr.read()

    def test_it_ends_as_it_would_have(self) -> None:
        """Without a word of Python, and with the same status."""
        self.rotate()
        nobody = self.folder / "none"
        for status, words in (
            (0, ("liq",)), (0, ("liq", "--version")), (0, ("liq", "guard", "--help")), (0, ("liq.guard", self.market)),
            (1, ("liq.guard", nobody)), (1, ("liq.guard", "--json", nobody)),
            (0, ("liq.backup", self.market, self.folder / "copy")), (1, ("liq.backup", nobody, self.folder / "other")),
            (0, ("liq.archive", self.market, self.directory)), (1, ("liq.archive", nobody, self.directory)),
            (0, ("liq.statement", "--archive", self.directory, self.market)), (1, ("liq.statement", nobody)),
            (0, ("liq.statement", "--archive", self.directory, "--form", "page", self.market)),
            (0, ("liq.across", "--archive", self.directory, "audit", self.market)),
            (1, ("liq.across", "--archive", self.directory, "audit", nobody)),
            (1, ("liq.recheck", nobody)), (1, ("liq.recheck", "--json", nobody)),
            *((0, (f"liq.{name}", "--help")) for name in COMMANDS),
        ):
            with self.subTest(words):
                self.assertEqual(self.ended(*words), (status, b""))

    def test_much_that_is_written(self) -> None:
        """More than a pipe holds, of which a part is read."""
        (self.folder / "much.py").write_text(
            "from liq import console; import sys; sys.exit(console.as_process(lambda words: print('y' * 10**6) or 3))")
        with mock.patch.dict(os.environ, PYTHONPATH=str(TOP / "clients/python")):
            process = subprocess.run(
                ["bash", "-c", '"$0" much.py | head -c 5; echo "${PIPESTATUS[0]}"', sys.executable], cwd=self.folder,
                stdout=subprocess.PIPE, stderr=subprocess.PIPE, check=True)
        self.assertEqual((process.stdout, process.stderr), (b"yyyyy3\n", b""))

    def test_output_that_is_full_or_closed(self) -> None:
        full = "liq: standard output can't be written: No space left on device"
        where = {**os.environ, **NO_PROGRAM, "PYTHONPATH": str(TOP / "clients/python"), "PYTHONDONTWRITEBYTECODE": "1"}
        for words, wanted in (
            ("liq > /dev/full", f"{full}\n1\n"), ("liq >&-", "0\n"),
            (f"liq.statement {self.market} > /dev/full", f"{full}\n1\n"),
        ):
            ran = subprocess.run(
                ["bash", "-c", f'"$0" -m {words}; echo "$?" >&2', sys.executable], stderr=subprocess.PIPE, text=True,
                env=where)
            self.assertEqual(ran.stderr, wanted)

    def test_replies_that_nobody_reads(self) -> None:
        """Of a gateway, which is a socket here."""
        path = str(self.folder / "socket")
        with socket.socket(socket.AF_UNIX) as listens:
            listens.bind(path)
            listens.listen()

            def answers() -> None:
                with listens.accept()[0] as taken:
                    taken.recv(100)
                    taken.sendall(b"ok\n")

            thread = threading.Thread(target=answers, daemon=True)
            thread.start()
            self.assertEqual(self.ended("liq.gateway.speak", path, given=b"a fund 1 1\n"), (1, b""))
            thread.join(10)
