"""The other words of the command line, each run once and read as typed rows.

They open a market's files for themselves: so close its `Service` first, or work on a copy. Where a program does not
have a word it ends with `Usage`.
"""
import json
import subprocess
from typing import Dict, Iterable, Iterator, List, Mapping, NamedTuple, Optional, Sequence, Tuple

from .client import AMOUNTS
from .ends import Folder, is_reply, read_end
from .errors import BadValue
from .reasons import explained
from .refusals import Refusal, read_refusal
from .replies import Pools, System
from .service import Create, begin_program, find_program, log_end, prepare
from .units import Whole, within


class Served(NamedTuple):
    """What `serve` answered: the replies of each session, as words, and an order of all calls, each as session and
    call."""

    replies: Dict[int, List[List[str]]]
    history: List[Tuple[int, int]]


class State(NamedTuple):
    """What stands: `p`, `scale`, `epoch` and `sum` are words of the Stability Pool."""

    system: System
    pools: Pools
    p: int
    scale: int
    epoch: int
    sum: int
    generation: int
    records: int


class AuditRow(NamedTuple):
    """A depositor: the exact balance lies between `balance_low` and `balance_high`, and so on. Gains are cumulative."""

    account: int
    balance_low: int
    balance_high: int
    balance: int
    balance_allowance: int
    gain_low: int
    gain_high: int
    gain: int
    gain_allowance: int

    @property
    def holds(self) -> bool:
        """Whether neither lies above the exact share, nor short of it by more than its allowance."""
        balance = self.balance <= self.balance_high and self.balance_low <= self.balance + self.balance_allowance
        return balance and self.gain <= self.gain_high and self.gain_low <= self.gain + self.gain_allowance


class Audit(NamedTuple):
    """All rows, and how many of them hold."""

    rows: List[AuditRow]
    within: int
    of: int


class Generated(NamedTuple):
    """Where a generated load leads."""

    accepted: int
    refused: int
    offsets: int
    epochs: int
    scale: int
    p: int
    total: int
    coll: int
    supply: int


class ReportedDeposit(NamedTuple):
    """A deposit as the report has it."""

    account: int
    balance: int
    gain: int


class ReportedTrove(NamedTuple):
    """A trove as the report has it, with all that is pending."""

    account: int
    coll: int
    debt: int
    stake: int


class Report(NamedTuple):
    """A market as a whole, as `report` tells it. Deposits and troves ascend by account."""

    system: System
    p: int
    scale: int
    epoch: int
    sum: int
    troves: List[ReportedTrove]
    deposits: List[ReportedDeposit]


class StakeRow(NamedTuple):
    """What an account has at stake, the fees it gained so far, and by how much these may fall short."""

    account: int
    stake: int
    coll: int
    lusd: int
    allowance: int


class Staking(NamedTuple):
    """A refusal, or None, for each line; a row for each staker; and the fees that nobody shared."""

    replies: List[Optional[Refusal]]
    rows: List[StakeRow]
    unshared_coll: int
    unshared_lusd: int


class RewardRow(NamedTuple):
    """A depositor's reward, by how much it may fall short, and how it is split with its front end, if it has one."""

    account: int
    reward: int
    allowance: int
    kept: int
    front: Optional[int]
    given: int


class Rewards(NamedTuple):
    """A refusal, or None, for each line; a row for each depositor; and the units issued and unshared."""

    replies: List[Optional[Refusal]]
    rows: List[RewardRow]
    issued: int
    unshared: int


def serve(
    folder: Folder, scripts: Mapping[int, Sequence[str]], program: Optional[Folder] = None, create: Create = False
) -> Served:
    """Runs the scripts of sessions 1 to 8 at once, each a list of request lines, and gives the replies and an order
    of all. `create` is that of `Service`."""
    given = joined(f"{session} {line}" for session, script in sorted(scripts.items()) for line in script)
    served = Served({}, [])
    replies: Optional[List[List[str]]] = []
    for line in _lines(folder, ["serve"], given, program, create):
        words = line.split(" ")
        if words[0] == "session":
            replies = served.replies.setdefault(int(words[1]), [])
        elif words == ["history"]:
            replies = None
        elif replies is None:
            served.history.append((int(words[0]), int(words[1])))
        else:
            replies.append(words)
    return served


def state(folder: Folder, program: Optional[Folder] = None) -> State:
    """What stands on the files."""
    return read_state(list(_lines(folder, ["state"], b"", program)))


def follow(journal: bytes, program: Optional[Folder] = None) -> State:
    """What a first generation's file stands for, by its bytes alone."""
    return read_state(_run(None, ["follow"], journal, program))


def audit(folder: Folder, program: Optional[Folder] = None) -> Audit:
    """Each depositor's balance and gain beside its exact share."""
    *rows, last = _lines(folder, ["audit"], b"", program)
    _, within, _, of = last.split(" ")
    return Audit([AuditRow(*_numbers(row)) for row in rows], int(within), int(of))


def generate(seed: Whole, count: Whole, program: Optional[Folder] = None) -> Generated:
    """Runs a generated load, on no disk."""
    words = [str(within(number, AMOUNTS)) for number in (seed, count)]
    (line,) = _run(None, ["gen", *words], b"", program)
    return Generated(*map(int, line.split(" ")[1::2]))


def report(folder: Folder, program: Optional[Folder] = None) -> Report:
    """The market as a whole."""
    return read_report("\n".join(_lines(folder, ["report"], b"", program)))


def staking(folder: Folder, lines: Sequence[str], program: Optional[Folder] = None) -> Staking:
    """How stakers share the fees, by lines `AT ACCOUNT stake AMOUNT` and `AT ACCOUNT unstake AMOUNT`."""
    told = list(_lines(folder, ["staking"], joined(lines), program))
    return read_staking(told, len(lines))


def rewards(folder: Folder, lines: Sequence[str], program: Optional[Folder] = None) -> Rewards:
    """How depositors earn rewards, by lines `tag ACCOUNT FRONT RATE`."""
    told = list(_lines(folder, ["rewards"], joined(lines), program))
    return read_rewards(told, len(lines))


# ---- what the words write


def read_state(lines: Sequence[str]) -> State:
    """The four lines of `state`."""
    system, pools, pool, journal = lines
    words, places = _numbers(pool.partition(" ")[2]), _numbers(journal.partition(" ")[2])
    return State(System(*_numbers(system)), Pools(*_numbers(pools)), *words, *places)


def read_report(text: str) -> Report:
    """The object that `report` writes."""
    found = json.loads(text)
    system, pool = dict(found["system"]), found["pool"]
    system["base_rate"] = system.pop("base")
    return Report(
        System(**system), int(pool["p"]), pool["scale"], pool["epoch"], int(pool["sum"]),
        [ReportedTrove(**row) for row in found["troves"]], [ReportedDeposit(**row) for row in found["deposits"]],
    )


def read_staking(told: Sequence[str], count: int) -> Staking:
    """What `staking` writes to so many lines."""
    last = told[-1].split(" ")
    rows = [StakeRow(*_numbers(row)) for row in told[count:-1]]
    return Staking(_refusals(told[:count]), rows, int(last[1]), int(last[2]))


def read_rewards(told: Sequence[str], count: int) -> Rewards:
    """What `rewards` writes to so many lines."""
    last = told[-1].split(" ")
    rows = []
    for row in told[count:-1]:
        account, reward, allowance, kept, front, given = row.split(" ")
        rows.append(RewardRow(int(account), int(reward), int(allowance), int(kept), _front(front), int(given)))
    return Rewards(_refusals(told[:count]), rows, int(last[1]), int(last[3]))


def _front(word: str) -> Optional[int]:
    return None if word == "-" else int(word)


def _refusals(lines: Sequence[str]) -> List[Optional[Refusal]]:
    return [None if line == "ok" else read_refusal(line.split(" ")) for line in lines]


def _numbers(line: str) -> List[int]:
    return [int(word) for word in line.split(" ")]


# ---- the program


def joined(lines: Iterable[str]) -> bytes:
    """Lines as the input of a word. One with a line end in it would be two, and shift the replies: it is an error, as
    is one that is not ASCII. What else is no line the program says, by `BadLine`."""
    given = list(lines)
    for line in given:
        if "\n" in line or not line.isascii():
            raise BadValue(f"no line: {line!r}")
    return "".join(f"{line}\n" for line in given).encode("ascii")


def _lines(
    folder: Folder, words: List[str], given: bytes, program: Optional[Folder], create: Create = False
) -> Iterator[str]:
    """What a word writes over a folder's files, line by line."""
    prepare(folder, create)
    return iter(_run(folder, words, given, program))


def _run(folder: Optional[Folder], words: List[str], given: bytes, program: Optional[Folder]) -> List[str]:
    """What a word writes. Raises how it ended, where that is not with 0."""
    pipe = subprocess.PIPE
    with begin_program([find_program(program), *words], folder, stdin=pipe, stdout=pipe) as ran:
        try:
            told, _ = ran.communicate(given)
        except BaseException:  # as a bound on time: what was begun goes with it
            ran.kill()
            raise
    lines = told.decode("ascii", "replace").splitlines()
    last = lines[-1] if ran.returncode and lines and not is_reply(lines[-1]) else ""
    end = explained(read_end(ran.returncode, last), folder)
    log_end(ran.pid, end)
    if end.status != 0:
        raise end
    return lines
