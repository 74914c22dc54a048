"""Statements: what they say of markets, what they refuse, and what of forged files they find out."""
import contextlib
import io
import json
import os
import pty
import re
import shutil
import subprocess
import sys
from fractions import Fraction
from pathlib import Path
from typing import Any, Callable, Dict, Iterator, List, Optional, Tuple
from unittest import mock

from liq import Journal, across, archive, guard, recheck, stated, statement
from liq.archive import kept_in
from liq.history import begun
from liq.journal import Checkpoint, Command, DepositRow, Disk
from liq.model import Market, market_on, owed
from liq.model.amounts import ONE
from liq.model.owed import audit_text
from liq.model.sound import first_unsound
from liq.model.told import report_text, state_text
from liq.progress import Bar
from liq.service import Service, find_program
from liq.shares import Share
from liq.stated import Depositor, Statement
from liq.words import report

from . import modelled
from .market import TOP, InFolder, OverProgram, status_of
from .modelled import Made

DAY = "2026-01-01"


def run_statement(*words: object) -> Tuple[int, str]:
    """The status and the output of the module, with a date."""
    with contextlib.redirect_stdout(io.StringIO()) as said, contextlib.redirect_stderr(said):
        status = status_of(statement.main, "--date", DAY, *words)
    return status, said.getvalue()


def of(folder: Path, directory: Optional[Path] = None, earlier: Optional[statement.Earlier] = None) -> Statement:
    return statement.statement(folder, directory, DAY, earlier)


class WhatItSays(InFolder):
    def setUp(self) -> None:
        super().setUp()
        self.market, self.directory = self.folder / "market", self.folder / "archive"

    def turned(self, *steps: int) -> Path:
        """The market of a crash, rotated behind these steps, with an archive from the beginning on."""
        modelled.crash(self.market, steps, lambda: archive.archive(self.market, self.directory))
        archive.archive(self.market, self.directory)
        return self.market

    def test_two_depositors_and_an_offset(self) -> None:
        """Worked out by hand: the pool of 12,000 LUSD takes over 4,220, for 9.95 of the trove's 10 ether; of both two
        thirds are one's, and one third the other's."""
        modelled.two_depositors(self.market)
        made = of(self.market)
        left, coll = 12_000_000_000 - 4_220_000_000, 9_950_000_000
        two, three = (Share(Fraction(left * part, 3), Fraction(coll * part, 3)) for part in (2, 1))
        self.assertEqual(made.depositors, [
            Depositor(2, 5186666666, 6633333333, 6633333333, two, 9, 111),
            Depositor(3, 2593333333, 3316666666, 3316666666, three, 5, 63),
        ])
        self.assertEqual((made.faults, made.commands, made.offsets, made.brought), ([], 9, 1, coll))
        status, said = run_statement(self.market)
        self.assertEqual(status, 0)
        self.assertRegex(said, r"\n +2 +5186666666 +15560000000/3 +2/3 +9\n")
        self.assertRegex(said, r"\n +3 +3316666666 +3316666666 +9950000000/3 +2/3 +63\n")

    def test_fractions_in_all_forms(self) -> None:
        made = Made(self.market)
        made.call(1, "fund 4 100000000000")
        made.call(1, f"open 4 100000000000 {4 * 10**9} {modelled.ANY_FEE} - -")
        made.call(1, "fund 1 9000000000")
        made.call(1, f"open 1 9000000000 {18 * 10**8} {modelled.ANY_FEE} - -")
        for account, lusd in ((1, 10**9), (2, 10**9), (3, 10**9)):
            made.call(1, f"send 4 {account} {lusd}")
            made.call(1, f"provide {account} {lusd + (account == 1) * 7}")
        made.call(1, "price 230000000")
        made.call(1, "liquidate 9 1")
        row = of(made.write()).depositors[1]
        self.assertEqual(row.share.balance, Fraction(10**9 * (3 * 10**9 + 7 - 2009 * 10**6), 3 * 10**9 + 7))
        self.assertLess(0, row.short.balance)
        words = stated.spelt(row.share.balance)
        for form in ("text", "json", "page"):
            status, said = run_statement("--form", form, self.market)
            self.assertEqual((status, said.count(words)), (0, 2 if form != "json" else 2), form)

    def test_a_long_fraction_is_whole_in_json_and_cut_off_elsewhere(self) -> None:
        share = Fraction(10**60 + 1, 3 * 10**50)
        self.assertEqual(stated.spelt(share), f"{10**60 + 1:#x}/{3 * 10**50:#x}")
        self.assertEqual(stated.shown(share), "3333333333.333333333..")
        self.assertEqual(stated.shown(-share), "-3333333333.333333333..")
        self.assertEqual((stated.shown(Fraction(2, 3)), stated.shown(Fraction(4, 2))), ("2/3", "2"))
        self.turned()
        made = json.loads(run_statement("--form", "json", self.market)[1])
        row, was = made["gains"][2], of(self.market).depositors[2]
        numerator, denominator = (int(part, 16) for part in row["exact"].split("/"))
        self.assertEqual(Fraction(numerator, denominator), was.share.gain)
        self.assertIn(row["exact_shown"], run_statement(self.market)[1])
        lines = "".join(
            f"{one['account']} {one['exact']} {two['exact']}\n" for one, two in zip(made["balances"], made["gains"]))
        self.assertEqual(made["shares_digest"], archive.digest_of(lines.encode()))

    def test_the_same_numbers_in_all_forms(self) -> None:
        """Each number of the text, as often, in the page, and each cell in JSON."""
        self.turned(20, 70)
        words = ["--archive", self.directory, self.market]
        text, page, made = (run_statement("--form", form, *words)[1] for form in ("text", "page", "json"))
        body = re.sub(r"<style>.*?</style>|<meta[^>]*>|<!DOCTYPE[^>]*>|</?h[12]>|<[^>]*>", " ", page, flags=re.S)
        number = re.compile(r"(?<![\w.])-?[0-9][0-9a-f]*(?:[./][0-9.]+)?")
        self.assertEqual(sorted(number.findall(text)), sorted(number.findall(body)))
        self.assertGreater(len(number.findall(text)), 400)
        cells: List[str] = []

        def walk(value: Any) -> None:
            if isinstance(value, dict):
                for each in value.values():
                    walk(each)
            elif isinstance(value, list):
                for each in value:
                    walk(each)
            else:
                cells.append("-" if value is None else str(value))

        walk(json.loads(made))
        for table in stated.tables(of(self.market, self.directory)):
            for row in table.rows:
                for value in row:
                    self.assertIn(stated.cell(value), cells)

    def test_it_is_the_same_each_time(self) -> None:
        self.turned(20, 70)
        shutil.copytree(self.folder, self.folder.with_name(self.folder.name + "-copy"))
        again = self.folder.with_name(self.folder.name + "-copy")
        self.addCleanup(shutil.rmtree, again)
        for form in statement.FORMS:
            here = run_statement("--form", form, "--archive", self.directory, self.market)
            self.assertEqual(here, run_statement("--form", form, "--archive", again / "archive", again / "market"))
            self.assertEqual(here[0], 0)
        self.assertNotIn(DAY, statement.statement(self.market).day)

    def test_an_archive_makes_one_history(self) -> None:
        """As if nobody had ever rotated: exact shares, allowances, and the texts of the words."""
        plain = modelled.crash(self.folder / "plain")
        self.turned(20, 70, 90)
        one, many = of(plain.folder), of(self.market, self.directory)
        self.assertEqual(many.depositors, one.depositors)
        self.assertEqual((many.whole, many.faults, many.offsets, many.brought), (True, [], one.offsets, one.brought))
        self.assertEqual([row.generation for row in many.generations], [1, 2, 3, 4])
        self.assertEqual(many.commands, one.commands)
        self.assertGreater(one.market.epoch, 1)
        for word, lines in (
            ("audit", []), ("staking", ["10 1 stake 7", "60 2 stake 9", "300 1 unstake 3", "299 1 stake 4"]),
            ("rewards", ["tag 1 2 500000000000000000", "tag 1 2 0"]),
        ):
            told = across.across(word, self.market, self.directory, lines)
            self.assertEqual(told, across.across(word, plain.folder, None, lines))
            self.assertGreater(len(told), len(lines) + 1)
        market = market_on(Disk(plain.folder / "left.liq"), True)
        self.assertEqual(across.across("audit", plain.folder), audit_text(market))

    def test_where_epochs_end_and_scales_rise(self) -> None:
        """From the first generation on, and from a checkpoint in which deposits are many scales behind."""
        for seed, turns in enumerate(((11, 30, 47), (1, 2, 59), (25, 26, 40))):
            plain = of(modelled.emptied(self.folder / f"plain {seed}", seed).folder)
            market, directory = self.folder / f"turned {seed}", self.folder / f"archive {seed}"
            modelled.emptied(market, seed, turns, lambda: archive.archive(market, directory))
            many, late = of(market, directory), of(market)
            self.assertEqual((many.depositors, many.faults, late.faults), (plain.depositors, [], []))
            self.assertEqual((many.whole, late.whole, late.generations[0].generation), (True, False, 3))
            self.assertGreater(plain.market.epoch, 10)
            self.assertGreater(max(scale for _, scale in plain.market.finished), 2)

    def test_a_rotation_while_it_copies(self) -> None:
        """The archive has then what is newer than the copy of the files, or the files what the archive had not."""
        made = modelled.crash(self.market, (20, 70), lambda: archive.archive(self.market, self.directory))
        said, audit = of(self.market, self.directory), across.across("audit", self.market, self.directory)
        real = statement.backup

        def turn() -> None:
            archive.archive(self.market, self.directory)
            made.rotate()
            archive.archive(self.market, self.directory)

        def behind(folder: Path, room: Path, bar: Optional[Bar] = None) -> None:
            real(folder, room)
            turn()

        def before(folder: Path, room: Path, bar: Optional[Bar] = None) -> None:
            turn()
            real(folder, room)

        for copying in (behind, before):
            generation = made.market.generation + (copying is before)
            with mock.patch.object(statement, "backup", copying):
                found = of(self.market, self.directory)
            self.assertEqual((found.depositors, found.faults, found.whole), (said.depositors, [], True))
            self.assertEqual([row.generation for row in found.generations], list(range(1, generation + 1)))
            with mock.patch.object(across, "backup", copying):
                self.assertEqual(across.across("audit", self.market, self.directory), audit)

    def test_across_counts_the_records_of_all_generations(self) -> None:
        self.turned(20, 70)
        lines = [f"{of(self.market, self.directory).commands} 1 stake 7", "100000 1 stake 7"]
        told = across.across("staking", self.market, self.directory, lines)
        self.assertEqual((told[0], told[1].split(" ")[:2]), ("ok", ["no", "44"]))

    def test_without_an_archive_shares_count_from_the_older_file_on(self) -> None:
        self.turned(20, 70, 90)
        made = of(self.market)
        self.assertEqual((made.whole, made.generations[0].generation, made.faults), (False, 3, []))
        begins = begun(Disk(self.market / "left.liq"))
        self.assertEqual({row.account for row in made.depositors} >= set(begins.deposits), True)
        self.assertEqual({row.balance_allowance for row in made.depositors}, {None})
        status, said = run_statement(self.market)
        self.assertEqual(status, 0)
        self.assertIn("shares since generation: 3", said)
        self.assertIn("the commands before generation 3, which are not here", said)
        self.assertNotIn("short of it by more", said)

    def test_behind_one_rotation_all_is_there(self) -> None:
        plain = modelled.crash(self.folder / "plain")
        self.turned(60)
        self.assertEqual(of(self.market).depositors, of(plain.folder).depositors)

    def test_what_it_has_of_files(self) -> None:
        self.turned(20, 70)
        made = of(self.market, self.directory)
        for row in made.files:
            path = self.market / row.name
            if row.place == "archive":
                path = next(kept.path for kept in kept_in(self.directory) if kept.generation == row.generation)
            self.assertEqual((row.size, row.sha256), (path.stat().st_size, archive.digest_of(path.read_bytes())))
        last = Disk(self.market / "left.liq")
        self.assertEqual(made.generations[-1].last, last.data[last.end - 32 : last.end].hex())
        digests = [kept.digest for kept in kept_in(self.directory)]
        self.assertEqual([row.counts for row in made.generations[:2]], digests)
        self.assertEqual([row.version for row in made.generations], [2, 2, 2])

    def test_a_journal_of_version_1_and_a_note_of_the_guard(self) -> None:
        """The last digest is the guard's: that of the last record, or of the header where there is none."""
        made = Made(self.market, 1)
        for step, versions in enumerate(([1], [1, 2], [1, 2])):
            if step == 0:
                made.call(1, "fund 1 5")
            elif step == 1:
                made.rotate()
            else:
                made.call(1, "fund 1 6")
            made.write()
            found = of(self.market)
            self.assertEqual(([row.version for row in found.generations], found.faults), (versions, []))
            note, last = guard.note_of(guard.look(self.market)), found.generations[-1]
            self.assertEqual((note.generation, note.records, note.digest), (last.generation, last.records, last.last))

    def test_a_program_is_not_wanted(self) -> None:
        self.turned(20, 70)
        ran = subprocess.run(
            [sys.executable, "-m", "liq.statement", "--archive", self.directory, self.market], stdout=subprocess.PIPE,
            env={"PYTHONPATH": str(TOP / "clients/python"), "LIQ_PROGRAM": "/bin/false", "PATH": ""})
        self.assertEqual(ran.returncode, 0)

    def test_what_a_stop_left_is_told(self) -> None:
        made = modelled.two_depositors(self.market)
        path = self.market / "left.liq"
        data = bytearray(path.read_bytes())
        data[Disk(path).end - 129] = 0
        path.write_bytes(data)
        status, said = run_statement(self.market)
        self.assertEqual(status, 0)
        self.assertIn("- left.liq: behind the shut gate at 1097 stands record 9, 1 7 liquidate 9 1.", said)
        self.assertEqual(made.disks.index, 9)

    def test_what_does_not_hold(self) -> None:
        """As where the model had an error: a balance above the exact share, one too short, and sums that are others."""
        modelled.two_depositors(self.market)
        real = statement.position
        for by, short, wrong in ((1, "-1/3", True), (-8, "26/3", False), (-9, "29/3", True)):
            def other(market: Market, deposit: DepositRow, by: int = by) -> Tuple[int, int]:
                balance, gain = real(market, deposit)
                return balance + by * (deposit.amount == 8 * 10**9), gain

            with mock.patch.object(statement, "position", other):
                status, said = run_statement(self.market)
                page = run_statement("--form", "page", self.market)[1]
                made = json.loads(run_statement("--form", "json", self.market)[1])
            line = f"account 2: balance short by {short}, gain short by 1/3"
            self.assertEqual((status, f"Does not hold:\n- {line}\n" in said, f"<li>{line}</li>" in page), (wrong,) * 3)
            self.assertEqual((made["holds"], made.get("does_not_hold")), (not wrong, [line] if wrong else None))
        made = of(self.market)
        for changed, line in (
            (made._replace(brought=1), "the exact gains are what all offsets brought: 9950000000, 1"),
            (made._replace(sums=Share(Fraction(1, 3), Fraction(9950000000))),
             "the exact balances are what the pool has: 1/3, 7780000000"),
        ):
            self.assertEqual(changed.faults, [line])
        for name in ("active_debt", "brought", "reserve", "active_coll", "surplus"):
            with mock.patch.object(made.market, name, getattr(made.market, name) + 1):
                self.assertGreater(len(made.faults), 0, name)
        made.market.default_coll = -1
        self.assertIn("what is pending for troves, of the default collateral: 0 of -1", made.faults)

    def test_words_and_statuses(self) -> None:
        self.turned()
        for words in ([], ["--form", "pdf", self.market], ["--date", "1.1.2026", self.market],
                      ["--date", "20260101", "x"], ["--seconds", "0", self.market], ["--arch", "x", self.market]):
            status, said = run_statement(*words)
            self.assertEqual((status, said[:7]), (2, "usage: "), words)
        (self.folder / "other.json").write_text(
            run_statement("--form", "json", self.market)[1].replace(f'"{DAY}"', '"\\u001b[2J"'))
        for words in ([self.folder / "nothing"], ["--earlier", self.market / "left.liq", self.market],
                      ["--earlier", self.folder / "other.json", self.market],
                      ["--seconds", "1", "--earlier", "/dev/zero", self.market]):
            status, said = run_statement(*words)
            self.assertEqual((status, said[:19]), (1, "statement refuses: "), words)
        with mock.patch.object(statement, "replay", side_effect=MemoryError):
            self.assertEqual(run_statement(self.market), (1, "statement refuses: there is not enough memory\n"))

    def test_words_and_statuses_of_across(self) -> None:
        self.turned(20, 70)
        def ran(*words: object, lines: str = "") -> Tuple[int, str]:
            source = io.TextIOWrapper(io.BytesIO(lines.encode()))
            with mock.patch.object(sys, "stdin", source), contextlib.redirect_stdout(io.StringIO()) as said:
                with contextlib.redirect_stderr(said):
                    return status_of(across.main, *words), said.getvalue()

        words, lines = ["--archive", self.directory, "staking", self.market], "9 1 stake 7\n12 1 stake 3"
        status, said = ran(*words, lines=lines)
        self.assertEqual((status, said.split("\n")[:2]), (0, ["ok", "ok"]))
        done = subprocess.run(
            [sys.executable, "-m", "liq.across", *map(str, words)], input=lines, stdout=subprocess.PIPE, text=True,
            env={**os.environ, "PYTHONPATH": str(TOP / "clients/python")})
        self.assertEqual((done.returncode, done.stdout), (status, said))
        for line in ("9 1 stake 07\n", "9 1 stake 7\r\n", "9 1 stake 7\r9 1 stake 8", "9 1 stake \u0667"):
            status, said = ran("--archive", self.directory, "staking", self.market, lines=line)
            self.assertEqual((status, said), (1, "across refuses: line 1 is none of staking\n"))
        for words in (["audit", self.market], ["--archive", self.directory, "gen", self.market], []):
            self.assertEqual(ran(*words)[0], 2)
        with mock.patch.object(owed, "DEPOSITORS_MOST", 29), contextlib.redirect_stdout(io.StringIO()) as limit:
            self.assertEqual(across.main(["--archive", str(self.directory), "audit", str(self.market)]), 1)
        self.assertEqual(limit.getvalue(), "limit 30\n")
        kept_in(self.directory)[0].path.unlink()
        status, said = ran("--archive", self.directory, "audit", self.market)
        self.assertEqual((status, "the generations before 2 are missing" in said), (1, True))

    def test_a_bar_at_a_terminal_alone(self) -> None:
        from liq.progress import Bar

        with mock.patch.object(sys, "stderr", io.StringIO()) as said, Bar() as bar:
            bar.next = 0.0
            bar.add()
        self.assertEqual(said.getvalue(), "")
        terminal, slave = pty.openpty()
        with os.fdopen(slave, "w") as file, mock.patch.object(sys, "stderr", file):
            with Bar() as bar:
                bar.begin("records", 10)
                bar.add(5)
                self.assertEqual(bar.shown, 0)  # too soon
                bar.next = 0.0
                bar.add()
        shown = ""
        with contextlib.suppress(OSError):  # of a terminal that nobody has open any more
            while True:
                shown += os.read(terminal, 1000).decode()
        os.close(terminal)
        self.assertIn("\r[########################                ]  60% records", shown)
        self.assertRegex(shown, "records\r {55}\r$")


class Refused(InFolder):
    """What a statement finds out of files that were spoiled or forged. Each digest is true, unless it is spoiled."""

    def setUp(self) -> None:
        super().setUp()
        self.made = modelled.two_depositors(self.folder / "market")
        self.market, self.directory = self.made.folder, self.folder / "archive"
        self.left, self.right = self.market / "left.liq", self.market / "right.liq"
        self.counts = {1: 9}

    def rotate(self) -> None:
        """Archives and rotates, and one command more."""
        archive.archive(self.market, self.directory)
        self.made.rotate()
        self.made.call(2, "withdraw 2 0")
        self.made.call(1, f"price {400 * 10**6 + self.made.market.generation}")
        self.made.write()

    def refusal(self, *words: object) -> List[str]:
        """The lines of a statement that refuses."""
        status, said = run_statement(*words, self.market)
        self.assertEqual((status, said[:19]), (1, "statement refuses: "))
        return said[19:].splitlines()

    def check_stands(self, lines: List[str], generation: int, records: int, path: Path) -> None:
        """That the lines behind the first one say what the records before the damage stand for."""
        data = path.read_bytes()
        disk = Disk(path, data=data[: 65 + int.from_bytes(data[17:25], "big") + 129 * records] + b"\0")
        self.assertRegex(lines[1], f"^the first {records} records? of generation {generation}, up to the digest ")
        self.assertIn(disk.data[disk.end - 32 : disk.end].hex(), lines[1])
        self.assertEqual(lines[2:], state_text(market_on(disk)))

    def test_a_record_that_is_damaged(self) -> None:
        data = self.left.read_bytes()
        at = 65 + 129 * 6
        self.left.write_bytes(data[: at + 20] + b"x" + data[at + 21 :])
        lines = self.refusal()
        self.assertEqual(lines[0], "left.liq is damaged at 7: its digest is another")
        self.check_stands(lines, 1, 6, self.left)

    def test_a_header_and_a_checkpoint_that_are_damaged(self) -> None:
        self.rotate()
        data = self.right.read_bytes()
        self.right.write_bytes(data[:200] + b"x" + data[201:])
        lines = self.refusal()
        self.assertEqual(lines[0], "right.liq is damaged at 0: its digest is another")
        self.check_stands(lines, 1, 9, self.left)
        self.left.write_bytes(b"")
        self.assertEqual(self.refusal(), [
            "right.liq is damaged at 0: its digest is another", "nothing stands before that"])

    def test_the_other_file_beside_a_header_that_is_damaged(self) -> None:
        self.rotate()
        data = self.right.read_bytes()
        self.right.write_bytes(data[:20] + b"x" + data[21:])
        lines = self.refusal()
        self.assertEqual(lines[1], "nothing stands before that, but beside it:")
        self.check_stands(lines[1:], 1, 9, self.left)
        self.made.write()
        data = self.left.read_bytes()
        self.left.write_bytes(data[:20] + b"x" + data[21:])
        lines = self.refusal()
        self.assertEqual(lines[0], "left.liq is damaged at 0: a checkpoint of 515396075520 bytes in generation 1")
        self.check_stands(lines[1:], 2, 2, self.right)

    def test_a_gate_that_rotted(self) -> None:
        data = bytearray(self.left.read_bytes())
        data[65 + 129 * 4] = 0
        self.left.write_bytes(data)
        lines = self.refusal()
        self.assertIn("left.liq is damaged at 5: the gate of record 5, at 581, is 0, and 5 whole records", lines[0])
        self.check_stands(lines, 1, 4, self.left)

    def test_a_command_that_the_rules_refuse(self) -> None:
        modelled.rewrite(self.left, lambda found: [each._replace(amounts=(10**18,)) if at == 5 else each
                                                   for at, each in enumerate(found)])
        lines = self.refusal()
        self.assertTrue(lines[0].startswith("left.liq is damaged at 6: the rules refuse it, no 15 "), lines)
        self.check_stands(lines, 1, 5, self.left)

    # ---- one gwei moved between two depositors

    def test_a_gwei_moved_in_a_checkpoint(self) -> None:
        """In wallets, in what is left of gains, and in LUSD of deposits: the checkpoint stays sound each time."""
        self.rotate()
        whole = self.right.read_bytes()
        by = {2: 1, 9: -1}
        for name, change in (
            ("wallets of 2", lambda found: found._replace(wallets={
                account: (row[0] + by.get(account, 0), row[1]) for account, row in found.wallets.items()})),
            ("deposits of 3", lambda found: found._replace(deposits={
                account: row._replace(sum=row.sum + (account == 3)) for account, row in found.deposits.items()})),
            ("deposits of 2", lambda found: found._replace(deposits={
                account: row._replace(amount=row.amount + (-1)**account) for account, row in found.deposits.items()})),
        ):
            modelled.rewrite_checkpoint(self.right, change)
            self.assertEqual(first_unsound(Disk(self.right).checkpoint), 0)
            lines = self.refusal()
            self.assertIn(f"right.liq is damaged at 0: generation 1 does not lead to it: {name}", lines[0])
            self.check_stands(lines, 1, 9, self.left)
            self.right.write_bytes(whole)
        self.assertEqual(run_statement(self.market)[0], 0)

    def test_a_gwei_moved_in_the_commands(self) -> None:
        """The rules allow it: it is found out by the checkpoint behind it, else by an earlier statement alone."""
        def moved(found: List[Command]) -> List[Command]:
            more = {"send 2 3 4000000000": 1, "provide 2 8000000000": -1, "provide 3 4000000000": 1}
            return [each._replace(amounts=(each.amounts[0] + more.get(each.call, 0), *each.amounts[1:])) if each.amounts
                    else each for each in found]

        earlier = self.folder / "earlier.json"
        earlier.write_text(run_statement("--form", "json", self.market)[1])
        before = self.left.read_bytes()
        modelled.rewrite(self.left, moved)
        self.assertEqual(run_statement(self.market)[0], 0)
        self.assertEqual(self.refusal("--earlier", earlier), [
            f"left.liq: the first 9 records of generation 1 are not those of a statement of {DAY} over generation 1"
            " with 9 records"])
        self.left.write_bytes(before)
        self.rotate()
        self.assertEqual(run_statement("--earlier", earlier, self.market)[0], 0)
        modelled.rewrite(self.left, moved)
        self.assertIn("right.liq is damaged at 0: generation 1 does not lead to it", self.refusal()[0])

    def test_other_commands_that_lead_to_the_same_checkpoint(self) -> None:
        """A depositor who came and went in one generation, and another one in its place: a checkpoint holds what came
        out, and not how. The digest of an earlier statement does."""
        earlier = self.folder / "earlier.json"

        def exchanged(found: List[Command]) -> List[Command]:
            return [each._replace(accounts=tuple(5 if account == 4 else account for account in each.accounts))
                    for each in found]

        self.made.call(1, "price 1000000000")
        for call in ("fund 6 10000000000", f"open 6 10000000000 {4 * 10**9} {modelled.ANY_FEE} - -",
                     "send 2 4 1000000000", "provide 4 1000000000", "price 460000000", "liquidate 9 6",
                     "withdraw 4 1000000000"):
            self.made.call(1, call)
        coll, lusd = self.made.market.wallet(4)
        self.made.call(1, f"send 4 2 {lusd}")
        self.made.call(1, f"take 4 {coll}")
        self.rotate()
        earlier.write_text(run_statement("--form", "json", self.market)[1])
        gained = {row.account: row.gained for row in of(self.market).depositors}
        modelled.rewrite(self.left, exchanged)
        forged = of(self.market)
        self.assertEqual(forged.faults, [])
        self.assertGreater(gained[4], 0)
        gained[5] = gained.pop(4)
        self.assertEqual({row.account: row.gained for row in forged.depositors}, gained)
        self.assertIn("left.liq: the first 19 records of generation 1 are not", self.refusal("--earlier", earlier)[0])

    # ---- a withdraw left out

    def test_a_withdraw_left_out(self) -> None:
        self.rotate()
        self.made.call(2, "withdraw 2 0")
        self.made.write()
        modelled.rewrite(self.right, lambda found: [found[1], found[2]])
        lines = self.refusal()
        self.assertEqual(lines[0], "right.liq is damaged at 2: the rules refuse it, no 70 3: 2 4 withdraw 2 0")
        self.assertRegex(lines[1], "^the first 1 record of generation 2, ")

    def test_a_withdraw_left_out_and_all_numbered_anew(self) -> None:
        for _ in range(2):
            self.made.call(2, "withdraw 3 0")
        earlier = self.folder / "earlier.json"
        self.made.write()
        earlier.write_text(run_statement("--form", "json", self.market)[1])

        def without(found: List[Command]) -> List[Command]:
            return modelled.renumbered(found[:-1])

        before = self.left.read_bytes()
        modelled.rewrite(self.left, without)
        self.assertEqual(run_statement(self.market)[0], 0)
        first = "left.liq: the first 11 records of generation 1 are not those"
        self.assertIn(first, self.refusal("--earlier", earlier)[0])
        self.left.write_bytes(before)
        self.rotate()
        self.assertEqual(run_statement("--earlier", earlier, self.market)[0], 0)
        modelled.rewrite(self.left, without)
        self.assertIn("generation 1 does not lead to it: clients of 2", self.refusal()[0])

    # ---- a checkpoint with one deposit more

    def test_a_checkpoint_with_one_deposit_more(self) -> None:
        self.rotate()
        whole = Disk(self.right).checkpoint
        row = DepositRow(5, whole.p, whole.sum, whole.scale, whole.epoch)
        modelled.rewrite_checkpoint(self.right, lambda found: found._replace(deposits={**found.deposits, 7: row}))
        self.assertIn("generation 1 does not lead to it: deposits of 7: it has (5, ", self.refusal()[0])
        self.left.write_bytes(b"")
        status, said = run_statement(self.market)
        self.assertEqual(status, 1)
        self.assertIn("- all balances, of the Stability Pool's LUSD: 7780000004 of 7780000000", said)
        self.assertIn("its checkpoint is taken as true", said)

    # ---- an older right file beside a newer left one

    def test_an_older_right_file_beside_a_newer_left_one(self) -> None:
        self.rotate()
        older = self.right.read_bytes()
        self.made.call(1, "advance 7")
        self.rotate()
        self.assertEqual(run_statement(self.market)[0], 0)
        self.right.write_bytes(older)
        lines = self.refusal()
        self.assertIn("left.liq is damaged at 0: generation 2 does not lead to it: minute: it has 7", lines[0])
        self.assertEqual(lines[-1], "journal 2 2")
        self.made.write()
        for _ in range(2):
            self.rotate()
        self.right.write_bytes(older)
        self.assertEqual(self.refusal()[0], (
            "right.liq is damaged at 0: it has generation 2, and beside generation 5 a rotation leaves 4"))

    # ---- a record twice

    def test_a_record_twice(self) -> None:
        modelled.rewrite(self.left, lambda found: [*found, found[-1]])
        lines = self.refusal()
        self.assertEqual(lines[0], "left.liq is damaged at 10: it comes again: 1 7 liquidate 9 1")
        self.check_stands(lines, 1, 9, self.left)

    def test_a_record_twice_under_another_number(self) -> None:
        modelled.rewrite(self.left, lambda found: modelled.renumbered([*found[:7], found[6], *found[7:]]))
        why = "left.liq is damaged at 8: the rules refuse it, no 15 4000000000 0: 2 3 provide 3"
        self.assertIn(why, self.refusal()[0])

    # ---- a file of another market

    def test_a_file_of_another_market(self) -> None:
        other = modelled.crash(self.folder / "other", (60,))
        self.rotate()
        self.left.write_bytes((other.folder / "left.liq").read_bytes())
        self.assertIn("right.liq is damaged at 0: generation 1 does not lead to it: ", self.refusal()[0])

    def test_an_archive_of_another_market(self) -> None:
        other = Made(self.folder / "other")
        for generation in range(3):
            self.rotate()
            other.call(1, f"fund 1 {generation + 1}")
            other.write()
            archive.archive(other.folder, self.folder / "foreign")
            other.rotate()
        self.assertEqual(run_statement("--archive", self.directory, self.market)[0], 0)
        lines = self.refusal("--archive", self.folder / "foreign")
        self.assertIn("left.liq is damaged at 0: generation 2 does not lead to it: ", lines[0])
        self.assertEqual(lines[-1], "journal 2 1")
        archive.archive(other.folder, self.folder / "foreign")
        self.assertIn("generation 3 differs: ", self.refusal("--archive", self.folder / "foreign")[0])

    # ---- an archive with a gap

    def test_an_archive_with_a_gap(self) -> None:
        for _ in range(4):
            self.rotate()
        self.assertEqual([kept.generation for kept in kept_in(self.directory)], [1, 2, 3])
        first, second, _ = kept_in(self.directory)
        second.path.unlink()
        lines = self.refusal("--archive", self.directory)
        self.assertEqual(lines[0], f"{self.directory} is no archive of it: generation 2 is missing")
        self.check_stands(lines, 1, 9, first.path)
        kept_in_all = [path for path in self.directory.iterdir() if path.name.startswith("00000000003")]
        kept_in_all[0].unlink()
        self.assertIn("generation 2 is missing, and it is on no file", self.refusal("--archive", self.directory)[0])
        self.assertIn("it is no folder", self.refusal("--archive", self.folder / "nothing")[0])

    def test_a_copy_that_is_damaged(self) -> None:
        for _ in range(3):
            self.rotate()
        first = kept_in(self.directory)[0]
        data = bytearray(first.path.read_bytes())
        data[65 + 129 * 3 + 5] ^= 1
        first.path.write_bytes(data)
        lines = self.refusal("--archive", self.directory)
        self.assertEqual(lines[0], f"{first.path.name} is damaged at 4: its digest is another")
        self.check_stands(lines, 1, 3, first.path)
        data[65 + 129 * 3 + 5] ^= 1
        data[65 + 129 * 3] = 0
        first.path.write_bytes(data)
        why = "is damaged at 0: its bytes are not those of its name"
        self.assertIn(why, self.refusal("--archive", self.directory)[0])

    def test_an_archive_of_pipes_and_devices(self) -> None:
        for _ in range(2):
            self.rotate()
        kept = kept_in(self.directory)[0].path
        kept.unlink()
        os.mkfifo(kept)
        self.assertIn("is no regular file", self.refusal("--archive", self.directory)[0])
        kept.unlink()
        kept.symlink_to("/dev/zero")
        self.assertIn("is a link, and a copy is a file of its own", self.refusal("--archive", self.directory)[0])

    def test_a_checkpoint_that_is_not_sound(self) -> None:
        """Nothing stands before it that it could be compared with."""
        self.rotate()
        modelled.rewrite_checkpoint(self.right, lambda found: found._replace(brought=found.brought + 1))
        self.left.write_bytes(b"")
        self.assertEqual(self.refusal(), [
            "right.liq is damaged at 0: its checkpoint breaks rule 3 of a sound state", "nothing stands before that"])
        self.made.write()
        modelled.rewrite_checkpoint(
            self.right, lambda found: found._replace(wallets={**found.wallets, 2**20 - 1: (0, 0)}))
        self.assertIn("its checkpoint has an empty row in wallets", self.refusal()[0])
        self.made.write()
        modelled.rewrite_checkpoint(self.right, lambda found: found._replace(clients={
            **found.clients, modelled.ROTATING: found.clients[modelled.ROTATING]._replace(values=(3, 0, 0, 0, 0, 0))}))
        self.assertIn("no client of its checkpoint has begun generation 2", self.refusal()[0])

    def test_an_earlier_statement_that_is_none(self) -> None:
        """Numbers and digests that no statement has; with an empty digest it would be compared with nothing."""
        self.rotate()
        path = self.folder / "earlier.json"
        path.write_text(run_statement("--form", "json", self.market)[1])
        self.assertEqual(run_statement("--earlier", path, self.market)[0], 0)
        made = json.loads(path.read_text())
        for key, values in (
            ("generation", (0, -1, True, 1.0, "1", 2**36 + 1, 10**400)), ("sha256", ("", "0" * 63, "A" * 64, 0, None)),
            ("records", (-1, 10**6 + 1, 1.5, float("inf"), float("nan"), None, [])),
        ):
            for value in values:
                rows = [{**row, key: value} for row in made["generations"]]
                path.write_text(json.dumps({**made, "generations": rows}))
                self.assertEqual(self.refusal("--earlier", path)[0], f"{path} is no statement of this form, as JSON")

    def test_what_an_earlier_statement_does_not_show(self) -> None:
        path, title = self.folder / "earlier.json", f"a statement of {DAY} over generation 1 with 9 records"
        path.write_text(run_statement("--form", "json", self.market)[1])
        self.rotate()
        said = run_statement("--earlier", path, self.market)[1]
        self.assertIn(f"- that the files go on from {title}\n", said)
        self.assertIn(f"- who made {title}, and whether what came behind it is what users saw\n", said)

    def test_a_refusal_is_the_same_each_time(self) -> None:
        """It names no copy of its own."""
        for _ in range(2):
            self.rotate()
        archive.archive(self.market, self.directory)
        modelled.rewrite(self.right, lambda found: found[:-1])
        here = self.refusal("--archive", self.directory)
        self.assertEqual(self.refusal("--archive", self.directory), here)
        self.assertIn("generation 2 differs: ", here[0])

    def test_files_that_are_older_than_an_archive_or_a_statement(self) -> None:
        shutil.copytree(self.market, self.folder / "old")
        for _ in range(3):
            self.rotate()
        earlier = self.folder / "earlier.json"
        earlier.write_text(run_statement("--form", "json", self.market)[1])
        self.market = self.folder / "old"
        self.assertIn("so they are older", self.refusal("--archive", self.directory)[0])
        self.assertIn("generation 4, of a statement", self.refusal("--earlier", earlier)[0])
        shutil.copy(self.made.folder / "right.liq", self.market / "right.liq")
        modelled.rewrite(self.market / "right.liq", lambda found: found[:-1])
        (self.market / "left.liq").write_bytes((self.made.folder / "left.liq").read_bytes())
        self.assertIn("right.liq: the first 2 records of generation 4 are not", self.refusal("--earlier", earlier)[0])


class OverTheProgram(OverProgram):
    """What the program itself says of the same files."""

    def test_who_has_what(self) -> None:
        directory, market = self.folder / "archive", self.folder / "market"
        modelled.crash(market, (20, 70), lambda: archive.archive(market, directory))
        made = statement.statement(market, directory, DAY)
        told = report(market)
        self.assertEqual(
            [(row.account, row.balance, row.gain) for row in made.depositors if row.balance or row.gain],
            [(row.account, row.balance, row.gain) for row in told.deposits if row.balance or row.gain])
        self.assertEqual(report_text(made.market), report_text(market_on(Journal(market).current)))
        tables = {table.name: table for table in stated.tables(made)}
        self.assertEqual([tuple(row) for row in told.troves], tables["troves"].rows)
        with Service(market) as service:
            rows = tables["wallets"].rows
            wallets = service.wallets([int(str(row[0])) for row in rows])
            self.assertEqual([tuple(wallet) for wallet in wallets], [row[:3] for row in rows])

    def test_recheck_says_the_same_over_an_archive(self) -> None:
        directory, market = self.folder / "archive", self.folder / "market"
        modelled.crash(market, (20, 70, 90), lambda: archive.archive(market, directory))
        result = recheck.recheck(market, archive=directory)
        self.assertEqual((result.faults, result.replay.start, result.why_no_audit), ([], None, "rotated 4"))
        made = statement.statement(market, directory, DAY)
        self.assertEqual([row.account for row in result.rows], [row.account for row in made.depositors])
        for here, there in zip(result.rows, made.depositors):
            self.assertEqual((here.balance, here.gain, here.share), (there.balance, there.gained, there.share))
            self.assertEqual(here[-2:], there[-2:])
        with contextlib.redirect_stdout(io.StringIO()) as said:
            self.assertEqual(recheck.main(["--archive", str(directory), str(market)]), 0)
        self.assertNotIn("are gone", said.getvalue())
        kept_in(directory)[0].path.unlink()
        self.assertEqual(recheck.recheck(market, archive=directory).replay.start.generation, 2)
        kept_in(directory)[-1].path.write_bytes(b"x")
        with contextlib.redirect_stdout(io.StringIO()) as said:
            self.assertEqual(recheck.main(["--archive", str(directory), str(market)]), 1)
        self.assertIn("its bytes are not those of its name", said.getvalue())

    def test_what_stands_before_damage(self) -> None:
        made = modelled.two_depositors(self.folder / "market")
        path = made.folder / "left.liq"
        data = path.read_bytes()
        at = 65 + 129 * 6
        path.write_bytes(data[: at + 20] + b"x" + data[at + 21 :])
        status, said = run_statement(made.folder)
        self.assertEqual(status, 1)
        path.write_bytes(data[:at] + b"\0")
        told = subprocess.run(
            [find_program(), "state"], cwd=made.folder, stdout=subprocess.PIPE, text=True)
        self.assertEqual(said.splitlines()[2:], told.stdout.splitlines())

    def test_the_rules_of_a_sound_state(self) -> None:
        """Checkpoints of which a field was changed: liq opens those that are sound, and calls the others damaged."""
        made = modelled.crash(self.folder / "market", (60,))
        path, whole = made.folder / "right.liq", (made.folder / "right.liq").read_bytes()
        (made.folder / "left.liq").write_bytes(b"")
        found: Dict[int, int] = {}
        for change in unsound():
            path.write_bytes(whole)
            modelled.rewrite(path, lambda records: [])
            try:
                modelled.rewrite_checkpoint(path, change)
            except OverflowError:
                continue
            checkpoint = Disk(path).checkpoint
            rule = first_unsound(checkpoint)
            found[rule] = found.get(rule, 0) + 1
            status = subprocess.run([find_program(), "state"], cwd=made.folder, stdout=subprocess.PIPE).returncode
            self.assertEqual(status, 6 if rule else 0, (rule, checkpoint))
        self.assertEqual(set(found), set(range(12)))


def unsound() -> Iterator[Callable[[Checkpoint], Checkpoint]]:
    """Changes of a checkpoint, on both sides of the edges of each rule."""
    def word(name: str, value: Callable[[int], int]) -> Callable[[Checkpoint], Checkpoint]:
        return lambda made: made._replace(**{name: value(getattr(made, name))})

    def row(table: str, **fields: Callable[[int], int]) -> Callable[[Checkpoint], Checkpoint]:
        def change(made: Checkpoint) -> Checkpoint:
            rows = dict(getattr(made, table))
            if not rows:
                return made
            key = max(rows)
            rows[key] = rows[key]._replace(**{name: value(getattr(rows[key], name)) for name, value in fields.items()})
            return made._replace(**{table: rows})
        return change

    def moved(table: str, by: int) -> Callable[[Checkpoint], Checkpoint]:
        def change(made: Checkpoint) -> Checkpoint:
            rows = dict(getattr(made, table))
            if not rows:
                return made
            key = max(rows)
            rows[by] = rows.pop(key)
            return made._replace(**{table: rows})
        return change

    for name in Checkpoint._fields[1:26]:
        if name != "generation":
            for by in (-1, 1):
                yield word(name, lambda value, by=by: max(0, value + by))
    for name, edges in (
        ("price", (10**8 - 1, 10**8, 10**12, 10**12 + 1)), ("minute", (10**12, 10**12 + 1)),
        ("base_rate", (ONE, ONE + 1)),
        ("brought", (10**19,)), ("p", (10**9 - 1, 10**9, ONE, ONE + 1)), ("sum_coll", (10**37, 10**37 + 1)),
        ("scale", (2 * 10**8, 2 * 10**8 + 1)), ("epoch", (2 * 10**8, 2 * 10**8 + 1)), ("sum", (0, 11 * ONE)),
        ("snap_coll", (0,)), ("snap_stakes", (0,)),
    ):
        for edge in edges:
            yield word(name, lambda value, edge=edge: edge)
    for account in (2**20 - 1, 2**20):
        for table in ("wallets", "troves", "surpluses", "deposits", "clients"):
            yield moved(table, account)
    for name in ("coll", "debt", "stake", "mark_coll", "mark_debt"):
        for by in (-(10**18), -1, 1, 10**18):
            yield row("troves", **{name: lambda value, by=by: max(1, value + by)})
    for by in (-1, 1):
        yield row("deposits", p=lambda value, by=by: value + by)
        yield row("deposits", sum=lambda value, by=by: max(0, value + by))
        yield row("deposits", epoch=lambda value, by=by: max(0, value + by))
        yield row("deposits", scale=lambda value, by=by: max(0, value + by))
    for amount in (1, 10**19, 10**19 + 1):
        yield row("deposits", amount=lambda value, amount=amount: amount)
    for p in (10**9 - 1, 10**9, ONE, ONE + 1):
        yield row("deposits", p=lambda value, p=p: p, sum=lambda value: 0)
    yield row("clients", values=lambda values: (*values[:1], 1, *values[2:]))
    yield row("clients", verb=lambda verb: "advance")
    yield row("clients", verb=lambda verb: "price")
    for reached in (11 * ONE, 11 * ONE + 1):
        yield lambda made, reached=reached: made._replace(finished={**made.finished, (0, 0): reached})
    for by in (-1, 0, 1):
        yield lambda made, by=by: made._replace(finished={**made.finished, (made.epoch, max(0, made.scale + by)): 1})
    yield lambda made: made._replace(surpluses={**made.surpluses, 2**20 - 1: 1})
    yield lambda made: made._replace(surpluses={**made.surpluses, 2**20 - 1: 1}, surplus=made.surplus + 1,
                                     brought=made.brought + 1)
    yield lambda made: made
