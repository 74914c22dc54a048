"""The prompt: what is typed and what is told, over memory, files, a program and a gateway; and at a terminal."""
import contextlib
import io
import os
import pty
import re
import select
import signal
import subprocess
import sys
import termios
import time
from pathlib import Path
from typing import List

from liq.errors import BadValue
from liq.grammar import NAMES, QUERIES
from liq.journal import VERBS
from liq.model.program import answer
from liq.prompt import InMemory, Prompt, amount, call_of, help_on, main

from .casefiles import Sink, Source
from .gateways import Gateways
from .market import TOP, InFolder, OverProgram, status_of

ENVIRONMENT = {**os.environ, "PYTHONPATH": str(TOP / "clients/python"), "TERM": "dumb", "INPUTRC": "/dev/null"}
SECONDS = 30


class Typed(InFolder):
    """Lines over a market in memory."""

    def setUp(self) -> None:
        super().setUp()
        self.prompt = Prompt(InMemory(), 1)

    def told(self, *typed: str) -> List[str]:
        """What is told to the last of these lines."""
        return [self.prompt.answer(line) for line in typed][-1]

    def test_amounts(self) -> None:
        for word, wanted in {
            "10ether": "10000000000", "1.5eth": "1500000000", "7gwei": "7", "4000lusd": "4000000000", "0.5%": "5000000000000000",
            "any": "1000000000000000000", "2h": "120", "14d": "20160", "30min": "30", "0.5h": "30", "77": "77", "-": "-",
            "x": "x", "1..2h": "1..2h",
        }.items():
            self.assertEqual(amount(word), wanted)
        for word in ("1.2345678901ether", "0.1min", "1.1234567lusd", "0.5gwei"):
            self.assertRaises((BadValue, ValueError), amount, word)

    def test_what_may_be_left_out(self) -> None:
        for typed, wanted in {
            "open 1 10ether 4000lusd": "open 1 10000000000 4000000000 1000000000000000000 - -",
            "open 1 5 6 1% 2 3": "open 1 5 6 10000000000000000 2 3", "gain_to_trove 1": "gain_to_trove 1 - -",
            "redeem 1 500lusd": "redeem 1 500000000 1000000000000000000 - -",
            "adjust 1 borrow 5lusd in 2ether": "adjust 1 2000000000 0 5000000 0 1000000000000000000 - -",
            "adjust 1 out 1gwei repay 3": "adjust 1 0 1 0 3 1000000000000000000 - -", "adjust 1": "adjust 1",
            "adjust 1 1 2 3 4": "adjust 1 1 2 3 4 1000000000000000000 - -", "rotate": "rotate", "nonsense 5": "nonsense 5",
        }.items():
            self.assertEqual(call_of(typed), wanted)

    def test_a_trove_and_its_ratio(self) -> None:
        told = self.told("fund 1 10ether", "open 1 10ether 4000lusd")
        self.assertEqual(told[0], "sent: 1 2 open 1 10000000000 4000000000 1000000000000000000 - -")
        self.assertEqual(told[1:], ["ok 4220000000 20000000", "debt 4220 LUSD, fee 20 LUSD"])
        self.assertEqual(self.told("client 3", "price 460lusd"), ["sent: 3 1 price 460000000", "ok"])
        self.assertEqual(self.told("trove 1"),
            ["coll 10 ether, debt 4220 LUSD, stake 10 ether, ratio 109.00% at 460 LUSD"])
        self.assertEqual(self.told("? wallet 1"), ["coll 0 ether, lusd 4000 LUSD"])
        self.assertEqual((self.told("trove 2"), self.told("next_number 1")), (["none"], ["number 3"]))

    def test_a_typo_costs_nothing(self) -> None:
        for typed, part in {
            "opne 1 5": "not sent: 'opne' is no verb: open?", "fund 1": "COLL is missing", "fund 1 1.5": "1.5 is 1500000000 gwei",
            "trove x": "ACCOUNT is 'x'", "wallet": "ACCOUNT is missing", "1 1 fund 1": "COLL is missing", "?": "a query has a name",
        }.items():
            self.assertIn(part, self.told(typed)[0])
        self.assertEqual(self.told("next_number 1"), ["number 1"])

    def test_a_refusal_has_its_advice(self) -> None:
        told = self.told("take 1 5ether")
        self.assertEqual(told[1], "no 14 5000000000 0")
        self.assertIn("(need 5 ether, have 0 ether) What to do: fund the account first.", told[2])
        self.assertEqual(self.told("client 2000000", "fund 1 5")[:2], ["sent: ? next_number 2000000", "no 13 2000000"])

    def test_a_kept_reply_is_told(self) -> None:
        self.assertEqual(self.told("again"), ["nothing was sent yet"])
        self.assertNotIn("kept", " ".join(self.told("fund 1 5ether")))
        self.assertIn("kept", self.told("again")[-1])
        self.assertIn("kept", self.told("1 1 fund 1 9")[-1])
        self.assertEqual(self.told("wallet 1"), ["coll 5 ether, lusd 0 LUSD"])
        self.assertEqual(self.told("take 1 9ether", "again")[1], "no 14 9000000000 5000000000")

    def test_every_reply_has_names(self) -> None:
        for typed in (
            "fund 1 20ether", "open 1 10ether 4000lusd", "fund 2 90ether", "open 2 80ether 4000lusd", "provide 2 1000lusd",
            "advance 14d", "adjust 1 in 1ether", "send 1 2 100lusd", "redeem 1 300lusd", "price 350lusd", "liquidate_lowest 3 1",
            "withdraw 2 0", "price 900lusd", "system", "pools", "deposit 2", "rotate",
        ):
            told = self.told(typed)
            self.assertNotIn("refused", " ".join(told), typed)
        self.assertEqual(told[-1], "generation 2")

    def test_help(self) -> None:
        listed = "\n".join(help_on([]))
        for name in (*VERBS, *QUERIES):
            self.assertIn(f"    {name}", listed)
        self.assertEqual(self.told("help open"), [f"open {NAMES['open']}"])

    def test_a_folder_of_the_model(self) -> None:
        source = Source(b"1 1 fund 1 10000000000\n", 100, [])
        answer(["run"], self.folder, source, Sink(100, []))  # type: ignore[arg-type]
        ran = self.ran("wallet 1\nfund 1 1ether\nwallet 1\n", str(self.folder))
        self.assertEqual(ran.returncode, 0, ran.stderr)
        self.assertEqual(ran.stdout.splitlines()[-1], "coll 11 ether, lusd 0 LUSD")
        (self.folder / "unproved").unlink()
        self.assertEqual(self.ran("", str(self.folder), "--model").returncode, 1)
        with contextlib.redirect_stderr(io.StringIO()) as said:
            self.assertEqual(status_of(main, self.folder / "none", "--model"), 1)
        self.assertIn("no journal", said.getvalue())

    def ran(self, text: str, *words: str) -> "subprocess.CompletedProcess[str]":
        command = [sys.executable, "-m", "liq.prompt", *words]
        return subprocess.run(command, input=text, capture_output=True, text=True, env=ENVIRONMENT, timeout=SECONDS)


class AtTerminal(InFolder):
    """The same at a terminal: with a prompt, history and completion."""

    def setUp(self) -> None:
        super().setUp()
        self.bounded()
        self.terminal, slave = pty.openpty()
        modes = termios.tcgetattr(slave)
        modes[3] &= ~termios.ECHO
        termios.tcsetattr(slave, termios.TCSANOW, modes)
        self.process = subprocess.Popen(
            [sys.executable, "-m", "liq.prompt"], stdin=slave, stdout=slave, stderr=slave, start_new_session=True,
            env={**ENVIRONMENT, "XDG_STATE_HOME": str(self.folder)})
        os.close(slave)
        self.addCleanup(os.close, self.terminal)
        self.addCleanup(self.process.wait)
        self.addCleanup(self.process.kill)
        self.read("client 1> ")

    def read(self, wanted: str) -> str:
        """What comes, up to these words."""
        came, until = "", time.monotonic() + SECONDS
        while wanted not in came:
            ready = select.select([self.terminal], [], [], until - time.monotonic())[0]
            self.assertTrue(ready, f"{wanted!r} did not come: {came!r}")
            came += os.read(self.terminal, 4096).decode()
        return re.sub("\x1b\\[[0-9;?]*[a-zA-Z]", "", came)

    def type(self, text: str, wanted: str = "client 1> ") -> str:
        os.write(self.terminal, text.encode())
        return self.read(wanted)

    def test_history_and_completion(self) -> None:
        self.assertIn("lusd 0 LUSD", self.type("wall\t1\n"))
        self.assertIn("sent: 1 1 fund 1 5000000000", self.type("fund 1 5ether\n"))
        self.assertIn("sent: 1 2 fund 1 5000000000", self.type("\x1b[A\n"))  # the line before, once more
        self.type("\x04", "\n")
        self.assertEqual(self.process.wait(SECONDS), 0)
        kept = self.folder / "liq-prompt"
        self.assertEqual(kept.read_text().split("\n")[:2], ["wallet 1", "fund 1 5ether"])
        self.assertEqual(kept.stat().st_mode & 0o777, 0o600)

    def test_a_line_is_given_up(self) -> None:
        os.write(self.terminal, b"fund 1 5ether")
        time.sleep(0.5)  # readline has no echo here, so nothing says that it has come
        self.process.send_signal(signal.SIGINT)
        self.read("client 1> ")
        self.assertIn("coll 0 ether", self.type("wallet 1\n"))
        os.write(self.terminal, b"quit\n")
        self.assertEqual(self.process.wait(SECONDS), 0)


class OverRun(OverProgram):
    """A run of the program."""

    def test_a_folder(self) -> None:
        folder = str(self.folder / "market")
        command = [sys.executable, "-m", "liq.prompt", folder]
        for words, text, status, told in (
            ([], "wallet 1\n", 1, "no journal"), (["--create"], "fund 1 2ether\nwallet 1\n", 0, "coll 2 ether"),
            ([], "wallet 1\nagain\n1 1 fund 1 5\n", 0, "that is the reply which was kept"),
        ):
            ran = subprocess.run([*command, *words], input=text, capture_output=True, text=True, env=ENVIRONMENT, timeout=SECONDS)
            self.assertEqual(ran.returncode, status, ran.stderr)
            self.assertIn(told, ran.stdout + ran.stderr)
        self.assertFalse(Path(folder, "unproved").exists())


class OverGateway(Gateways):
    """A gateway: under keys of the prompt's own."""

    def test_a_socket(self) -> None:
        self.start()
        command = [sys.executable, "-m", "liq.prompt", str(self.socket), "--name", "alice"]
        text = "fund 1 2ether\nagain\nfnud 1 5\nfund 15 1\nwallet 1\ntrove 1\n"
        ran = subprocess.run(command, input=text, capture_output=True, text=True, env=ENVIRONMENT, timeout=SECONDS)
        self.assertEqual((ran.returncode, ran.stderr), (0, ""))
        lines = re.sub("prompt-[0-9a-f]{8}", "KEY", ran.stdout).splitlines()
        kept = "that is the reply which was kept: the command is carried out once, and was before"
        self.assertEqual(lines, [
            "sent: KEY-1 fund 1 2000000000", "ok", "sent: KEY-1 fund 1 2000000000", "ok", kept,
            "not sent: 'fnud' is no verb: fund?", "sent: KEY-2 fund 15 1", "refused account 15 is none of your accounts",
            "coll 2 ether, lusd 0 LUSD", "refused verb trove is none of your verbs",
        ])
