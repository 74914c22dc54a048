"""What scripts/try-faults, try-power-loss, try-kills and try-refused-memory share: the program, lines of a market, what the model of the
rules answers to them, and what the next run must find behind some of them."""

import os
import random
import shutil
import signal
import subprocess
import sys
import tempfile
from typing import Dict, Iterator, List, NamedTuple, Optional, Sequence, Tuple

SCRIPTS = os.path.dirname(os.path.realpath(__file__))
TOP = os.path.dirname(SCRIPTS)
sys.dont_write_bytecode = True
sys.path.insert(0, os.path.join(TOP, "clients/python"))

from liq.model import Market, answer  # noqa: E402
from liq.model.amounts import ONE  # noqa: E402
from liq.model.requests import next_number  # noqa: E402

SECONDS_OF_A_RUN = 60
ACCOUNTS = range(1, 6)
CLIENTS = (1, 2, 3)
QUERIES = [f"? {query}\n" for query in (
    "system", "pools", *(f"{what} {account}" for what in ("wallet", "trove", "deposit") for account in ACCOUNTS),
    *(f"next_number {client}" for client in CLIENTS),
)]
SCRIPT = [  # two troves, the pool, three rotations, a liquidation and a redemption; all are accepted
    "1 1 fund 1 10000000000", f"1 2 open 1 10000000000 4000000000 {ONE} - -", "2 1 fund 2 100000000000",
    f"2 2 open 2 100000000000 8000000000 {ONE} - -", "2 3 provide 2 4000000000", "3 1 rotate", "? pools",
    "1 3 price 460000000", "3 2 liquidate 3 1", "3 2 liquidate 3 1", "2 4 gain_to_trove 2 - -", "3 3 advance 20160",
    "1 4 rotate", f"2 5 redeem 2 1000000000 {ONE} - -", "1 5 fund 5 7", "3 4 rotate", "1 6 take 5 7",
]


class Wrong(Exception):
    """Something else came than what must."""


class Skipped(Exception):
    """It can't be tried here."""


def built_program(path: Optional[str]) -> str:
    """The program of this path, or the one that is built here."""
    program = os.path.realpath(path or os.path.join(TOP, "crates/liq_main/out/liq_main"))
    if not os.access(program, os.X_OK):
        raise Skipped(f"there is no program at {program} (a call of bin/liq builds it)")
    return program


def c_compiler() -> str:
    compiler = shutil.which("cc") or shutil.which("gcc") or shutil.which("clang")
    if not compiler:
        raise Skipped("there is no C compiler")
    return compiler


def compiled(name: str, folder: str, *words: str, text: Optional[str] = None) -> str:
    """What a C compiler makes of scripts/NAME.c or of this text, in this folder."""
    made, source = os.path.join(folder, name), os.path.join(SCRIPTS, f"{name}.c")
    if text is not None:
        source = os.path.join(folder, f"{name}.c")
        with open(source, "w") as file:
            file.write(text)
    # Where it is ended early it leaves files in TMPDIR.
    ran = subprocess.run([c_compiler(), "-O1", *words, "-o", made, source], env={**os.environ, "TMPDIR": folder},
                         stderr=subprocess.PIPE, text=True)
    if ran.returncode:
        lines = ran.stderr.splitlines() or [""]
        raise Skipped(f"the C compiler does not take {os.path.basename(source)}: {lines[0]}")
    return made


def compiled_front(name: str, folder: str, text: Optional[str] = None) -> str:
    """The same, as a library that is put in front of the C library."""
    return compiled(name, folder, "-fno-builtin", "-shared", "-fPIC", text=text)


def working_folder(runs_programs: bool = True) -> "tempfile.TemporaryDirectory[str]":
    """A folder in memory, where it may be had, since what is tried syncs often; in which programs may run where that is said. A signal that
    ends this leaves none."""
    for number in (signal.SIGHUP, signal.SIGTERM):
        if signal.getsignal(number) == signal.SIG_DFL:
            signal.signal(number, lambda number, _: sys.exit(128 + number))
    places = ("/dev/shm", tempfile.gettempdir())
    for place in places:
        if os.access(place, os.W_OK) and not (runs_programs and os.statvfs(place).f_flag & os.ST_NOEXEC):
            return tempfile.TemporaryDirectory(prefix="liq-", dir=place)
    raise Skipped(f"no program may run in {' or in '.join(places)}; TMPDIR may name another folder")


def modelled(market: Market, lines: Sequence[str]) -> str:
    """What the model answers, a line each."""
    return "".join([f"{answer(market, line.rstrip())}\n" for line in lines])


class Ended(NamedTuple):
    """How a run ended: its status, and what it wrote to standard output."""

    status: int
    out: str


def run(program: str, folder: str, lines: Sequence[str], word: str, around: Dict[str, str]) -> Ended:
    """A run over the files of a folder, with these changes of its surroundings."""
    ended = subprocess.run([program, *word.split()], cwd=folder, input="".join(lines).encode(), stdout=subprocess.PIPE,
                           stderr=subprocess.DEVNULL, env={**os.environ, **around}, timeout=SECONDS_OF_A_RUN)
    return Ended(ended.returncode, ended.stdout.decode("utf-8", "backslashreplace"))


class Script:
    """Lines, the replies of the model to them, and what queries tell before the first and behind each."""

    def __init__(self, lines: Sequence[str]) -> None:
        market = Market()
        self.lines = [f"{line.rstrip()}\n" for line in lines]
        self.replies: List[str] = []
        self.states = [modelled(market, QUERIES)]
        for line in self.lines:
            self.replies.append(modelled(market, [line]))
            self.states.append(modelled(market, QUERIES))

    def answered(self, out: str) -> int:
        """How many lines have their whole reply in this output. Raises Wrong where it is no beginning of all replies."""
        if not "".join(self.replies).startswith(out):
            raise Wrong(f"{out!r} is no beginning of the replies")
        return out.count("\n")

    def go_on(self, runner: "Runner", folder: str, answered: int, more: int = 1) -> int:
        """The next run: it finds what these lines led to, or so many more, and answers the others, of which the first may come again. Gives
        how many it found."""
        ended = runner.run_next(folder, [*QUERIES, *self.lines[answered:], *QUERIES])
        wanted = "".join(self.replies[answered:]) + self.states[-1]
        for count in range(answered, min(answered + more, len(self.lines)) + 1):
            if ended == (0, self.states[count] + wanted):
                return count
        told = difference(ended.out, self.states[answered] + wanted)
        raise Wrong(f"{answered} lines were answered, and the next run ends with {ended.status} and {told}")


class Runner:
    """Runs the program, or a wrong one of it (scripts/wrong.c)."""

    def __init__(self, program: str, folder: str, wrong: str = "") -> None:
        self.program, self.folder, self.wrong = program, folder, wrong
        self.front = compiled_front("wrong", folder) if wrong else ""
        self.around = {"LD_PRELOAD": self.front, "WRONG": wrong} if wrong else {}

    def run_next(self, market: str, lines: Sequence[str], word: str = "run") -> Ended:
        """A run over the files of a folder, as it comes behind what was tried there."""
        return run(self.program, market, lines, word, self.around)


def difference(came: str, wanted: str) -> str:
    """The first line in which two texts differ."""
    ours, theirs = came.split("\n"), wanted.split("\n")
    for at, (line, other) in enumerate(zip(ours, theirs), 1):
        if line != other:
            return f"{line!r} as line {at}, not {other!r}"
    return f"{len(ours) - 1} lines, not {len(theirs) - 1}"


class Writer:
    """Draws lines that are accepted, of three clients, as the model says: at first troves and deposits, so that there are some."""

    def __init__(self, chance: random.Random) -> None:
        self.chance, self.market = chance, Market()
        self.first = [f"fund {account} {200 * 10 ** 9}" for account in ACCOUNTS]
        self.first += [f"open {account} {10 ** 10 * (2 + account)} {(2 + account) * 3 * 10 ** 9} {ONE} - -" for account in ACCOUNTS]
        self.first += [f"provide {account} {account * 2 * 10 ** 9}" for account in ACCOUNTS[1:]]

    def call(self) -> str:
        """A call of any kind, which may be refused."""
        chance, account, other = self.chance, self.chance.choice(ACCOUNTS), self.chance.choice(ACCOUNTS)
        coll, lusd = self.market.wallet(account)
        return chance.choice((
            "rotate", f"price {chance.randint(3 * 10 ** 8, 2 * 10 ** 9)}", f"advance {chance.randint(1, 6000)}",
            f"fund {account} {chance.randint(1, 10 ** 12)}", f"fund {account} {chance.randint(1, 10 ** 12)}",
            f"take {account} {chance.randint(0, coll)}", f"send {account} {other} {chance.randint(0, lusd)}",
            f"open {account} {coll} {chance.randint(2 * 10 ** 9, 10 ** 11)} {ONE} - -", f"provide {account} {chance.randint(0, lusd)}",
            f"provide {account} {lusd}", f"adjust {account} {coll // 2} 0 {chance.randint(0, 10 ** 10)} 0 {ONE} - -", f"close {account}",
            f"withdraw {account} {chance.randint(0, 10 ** 9)}", f"gain_to_trove {account} - -", f"liquidate {account} {other}",
            f"liquidate_lowest {account} 2", f"redeem {account} {chance.randint(0, lusd)} {ONE} - -", f"claim {account}",
        ))

    def lines(self, count: int) -> List[str]:
        lines: List[str] = []
        while len(lines) < count:
            client = self.chance.choice(CLIENTS)
            call = self.first.pop(0) if self.first else self.call()
            line = f"{client} {next_number(self.market, client)} {call}"
            if answer(self.market, line).startswith("ok"):
                lines.append(line + "\n")
                if self.chance.randrange(10) == 0:  # A line that comes again has the same reply.
                    lines.append(lines[-1])
        return lines[:count]


# ---- a run whose calls of the system are noted


class Call(NamedTuple):
    """A call of the system. `at` is an offset, a new length or the flags of an opening, `asked` how many bytes it asks for; -1 where
    there is none."""

    number: int
    name: str
    file: str
    at: int
    asked: int
    result: int
    data: bytes


class Fault(NamedTuple):
    """How the call of this number fails, and how many of its kind, 0 for all from there on (scripts/traced.c)."""

    number: int
    way: str
    value: int
    times: int = 1
    bytes: int = 0

    def __str__(self) -> str:
        times = {0: "from there on", 1: "once"}.get(self.times, f"{self.times} times")
        return f"call {self.number}: {self.way} {self.value} {times}"


class Tracer(Runner):
    """Runs the program and notes its calls. Its folder holds what it notes."""

    def __init__(self, program: str, folder: str, wrong: str = "") -> None:
        super().__init__(program, folder, wrong)
        self.tool = compiled("traced", folder)

    def run(self, market: str, lines: Sequence[str], *faults: Fault, word: str = "run") -> Tuple[Ended, List[Call]]:
        """A run over the files of a folder, its calls but for those of the faults as ever."""
        log, source, sink = (os.path.join(self.folder, name) for name in ("log", "in", "out"))
        with open(source, "w") as text:
            text.writelines(lines)
        words = [":".join(map(str, it)) for it in faults]
        with open(source) as text, open(sink, "wb") as out, open(os.path.join(self.folder, "err"), "wb") as err:
            status = subprocess.run([self.tool, log, str(SECONDS_OF_A_RUN), *words, "--", self.program, word], cwd=market, stdin=text,
                                    stdout=out, stderr=err, env={**os.environ, "TRACED_PRELOAD": self.front, "WRONG": self.wrong}).returncode
        with open(os.path.join(self.folder, "err")) as err:
            told = err.read()
        if status == 125 and "traced:" in told:
            raise Skipped(f"a program can't be traced here ({told.strip()})")
        calls = list(read_calls(log))
        if not calls:
            raise Wrong(f"no call of the system was seen, of a run that ends with {status}")
        with open(sink, "rb") as out:
            return Ended(status, out.read().decode("utf-8", "backslashreplace")), calls


def read_calls(log: str) -> Iterator[Call]:
    with open(log, errors="backslashreplace") as lines:
        for line in lines:
            number, name, file, at, asked, result, data = line.rstrip("\n").split("\t")
            yield Call(int(number), name, file, int(at), int(asked), int(result), bytes.fromhex(data))
