"""Markets that the model makes, as files, and files that somebody forged: with true digests."""
import random
from pathlib import Path
from typing import Callable, Dict, Iterable, List, Optional

from liq.journal import Checkpoint, Command, Disk, KeptReply
from liq.model import Disks, Market, answer, read_request
from liq.model.disks import checkpoint_bytes, command_bytes, header, record

ANY_FEE = 10**18
ROTATING = 9  # the client that rotates


class Made:
    """A market in a folder, made by the model. Each line that is sent is accepted, unless it may be refused."""

    def __init__(self, folder: Path, version: int = 2) -> None:
        self.folder, self.market = folder, Market(10**19 if version == 2 else 10**18)
        self.disks = Disks(self.market, version)
        self.numbers: Dict[int, int] = {}
        folder.mkdir(parents=True, exist_ok=True)
        self.write()

    def call(self, client: int, call: str, may_fail: bool = False) -> str:
        """The reply to a client's call under its next number."""
        line = f"{client} {self.numbers.get(client, 0) + 1} {call}"
        reply = answer(self.market, line)
        if reply.startswith("ok"):
            self.numbers[client] = self.numbers.get(client, 0) + 1
            self.disks.write(self.market, read_request(line))
        elif not may_fail:
            raise AssertionError(f"{reply} to {line}")
        return reply

    def rotate(self) -> None:
        """The next generation, on the files."""
        self.call(ROTATING, "rotate")
        self.write()

    def write(self) -> Path:
        """Writes both files."""
        for side, data in zip(("left", "right"), self.disks.sides):
            (self.folder / f"{side}.liq").write_bytes(data)
        return self.folder


def two_depositors(folder: Path) -> Made:
    """Two depositors of 8,000 and 4,000 LUSD, behind an offset of a trove of 10 ether and 4,220 LUSD of debt."""
    made = Made(folder)
    for account, coll, lusd in ((1, 10**10, 4 * 10**9), (2, 10**11, 2 * 10**10)):
        made.call(1, f"fund {account} {coll}")
        made.call(1, f"open {account} {coll} {lusd} {ANY_FEE} - -")
    made.call(1, f"send 2 3 {4 * 10**9}")
    made.call(2, f"provide 2 {8 * 10**9}")
    made.call(2, f"provide 3 {4 * 10**9}")
    made.call(1, "price 460000000")
    made.call(1, "liquidate 9 1")
    made.write()
    return made


def crash(folder: Path, rotations: Iterable[int] = (), before: Optional[Callable[[], object]] = None) -> Made:
    """A market in which the price falls, troves are liquidated, and depositors come and go, with rotations behind some
    of its 120 steps. `before` is called in front of each."""
    chance, made, turns = random.Random(5), Made(folder), set(rotations)
    for account in range(1, 31):
        made.call(1, f"fund {account} {2 * 10**10}")
        made.call(1, f"open {account} {2 * 10**10} {chance.randrange(5 * 10**9, 9 * 10**9)} {ANY_FEE} - -")
        made.call(1, f"provide {account} {chance.randrange(1, 4 * 10**9)}")
    for step in range(120):
        if step in turns:
            if before:
                made.write()
                before()
            made.rotate()
        made.call(1, f"price {10**9 - step * 52 * 10**5}")
        made.call(1, "advance 400")
        one, two, three, four = (chance.randrange(1, 31) for _ in range(4))
        for call in (
            "liquidate_lowest 99 2", f"gain_to_trove {one} - -", f"withdraw {two} {chance.randrange(10**9)}",
            f"provide {three} {chance.randrange(1, 10**9)}",
            f"redeem {four} {chance.randrange(1, 10**9)} {ANY_FEE} - -",
            f"claim {one}",
        ):
            made.call(1, call, may_fail=True)
    made.write()
    return made


def emptied(
    folder: Path, seed: int, rotations: Iterable[int] = (), before: Optional[Callable[[], object]] = None
) -> Made:
    """A market whose Stability Pool is emptied in most of its 60 steps, or but for one or two millionths, so that
    epochs end and the scale rises. `rotations` and `before` are those of `crash`."""
    chance, made, turns = random.Random(seed), Made(folder), set(rotations)
    for account in range(1, 9):
        made.call(1, f"fund {account} {4 * 10**12}")
    made.call(1, f"open 1 {10**12} {10**11} {ANY_FEE} - -")
    for step in range(60):
        if step in turns:
            if before:
                made.write()
                before()
            made.rotate()
        owner, leaves = chance.randrange(2, 9), chance.choice((0, 0, 1, 1, 2, 1000))
        calls = ["price 1000000000", f"open {owner} {5 * 10**9} {chance.randrange(18, 35) * 10**8} {ANY_FEE} - -"]
        for account in chance.sample(range(1, 9), 2):
            lusd = chance.randrange(1, 10**9)
            calls += [f"send 1 {account} {lusd}", f"provide {account} {lusd}"]
        for call in calls:
            made.call(1, call, may_fail=True)
        wanted = made.market.troves[owner].debt + leaves if owner in made.market.troves else 0
        for account in range(1, 9):
            over = made.market.pool_lusd - wanted
            if over > 0:
                made.call(2, f"withdraw {account} {over}", may_fail=True)
        lacks = max(0, wanted - made.market.pool_lusd)
        for call in (
            f"send 1 8 {lacks}", f"provide 8 {lacks}", "price 350000000", f"liquidate 9 {owner}",
            f"withdraw {chance.randrange(1, 9)} {chance.randrange(10**9)}",
        ):
            made.call(2, call, may_fail=True)
    made.write()
    return made


# ---- forging


def rewrite(path: Path, change: Callable[[List[Command]], List[Command]], size: Optional[int] = None) -> None:
    """Other records in a generation's file, each with its true digest."""
    disk = Disk(path)
    records = [
        record(disk.generation, index, command_bytes(command)) for index, command in enumerate(change(disk.commands), 1)
    ]
    path.write_bytes(disk.data[: disk.begin] + b"".join(records) + b"\0")


def rewrite_checkpoint(path: Path, change: Callable[[Checkpoint], Checkpoint]) -> None:
    """Another checkpoint in a generation's file, with its true digest, and the records as they are."""
    disk = Disk(path)
    assert disk.checkpoint
    front = header(disk.version, disk.generation, checkpoint_bytes(change(disk.checkpoint)))
    path.write_bytes(front + disk.data[disk.begin : disk.end] + b"\0")


def renumbered(commands: List[Command]) -> List[Command]:
    """Commands, each under its client's next number."""
    last: Dict[int, int] = {}
    for command in commands:
        last.setdefault(command.client, command.number - 1)
    made = []
    for command in commands:
        last[command.client] += 1
        made.append(command._replace(number=last[command.client]))
    return made


def kept(last: int) -> KeptReply:
    """A kept reply."""
    return KeptReply(last, "price", (0,) * 6)
