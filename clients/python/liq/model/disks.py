"""Both files of a journal, as bytes: records, headers of both versions, checkpoints."""
import hashlib
from typing import List, Optional, Tuple

from ..journal import COMMAND, FIELDS, KINDS, LIMITS, NO_HINT, Checkpoint, Command
from .state import Market


def big(size: int, *numbers: int) -> bytes:
    """Numbers of so many bytes, the high one first."""
    return b"".join([number.to_bytes(size, "big") for number in numbers])


def command_bytes(command: Command) -> bytes:
    """A command in 96 bytes."""
    hints = [NO_HINT if hint is None else hint for hint in command.hints]
    fields: List[int] = []
    for found, size in zip((command.accounts, command.amounts, hints), FIELDS.values()):
        fields += [*found, *[0] * (size - len(found))]
    return COMMAND.pack(KINDS.index(command.verb) + 1, command.client, command.number, *fields)


def record(generation: int, index: int, command: bytes) -> bytes:
    """An open gate, a command's bytes, and their digest."""
    return b"\1" + command + hashlib.sha256(big(8, generation, index) + command).digest()


def header(version: int, generation: int, checkpoint: bytes = b"", limit: Optional[int] = None) -> bytes:
    """An open header, and the checkpoint behind it."""
    fields = b"LIQJRNL%d" % version + big(8, generation, len(checkpoint))
    if version == 2:
        fields += big(8, LIMITS[2] if limit is None else limit)
    return b"\1" + fields + hashlib.sha256(fields + checkpoint).digest() + checkpoint


def checkpoint_bytes(checkpoint: Checkpoint) -> bytes:
    """A checkpoint as bytes."""
    words = checkpoint[1:26]
    sizes = (*(8,) * 14, 16, 16, 8, 8, 8, 16, 8, 8, 16, 8, 8)
    data = [b"LIQSTAT%d" % checkpoint.version, *(big(size, word) for size, word in zip(sizes, words))]
    tables: Tuple[List[bytes], ...] = (
        [big(4, account) + big(8, *row) for account, row in checkpoint.wallets.items()],
        [big(4, account) + big(8, *row[:3]) + big(16, *row[3:]) for account, row in checkpoint.troves.items()],
        [big(4, account) + big(8, coll) for account, coll in checkpoint.surpluses.items()],
        [big(8, *place) + big(16, reached) for place, reached in checkpoint.finished.items()],
        [
            big(4, account) + big(8, row.amount) + big(16, row.p, row.sum) + big(8, row.scale, row.epoch)
            for account, row in checkpoint.deposits.items()
        ],
        [
            big(4, client) + big(8, row.last) + bytes([KINDS.index(row.verb) + 1]) + big(8, *row.values)
            for client, row in checkpoint.clients.items()
        ],
    )
    for rows in tables:
        data += [big(8, len(rows)), *rows]
    return b"".join(data)


class Disks:
    """What liq leaves in both files: `left` and `right`. They begin with a generation's header.

    A journal of version 1 is what an earlier build began; a rotation is always of version 2, unless it is said
    otherwise.
    """

    def __init__(self, market: Market, version: int = 2) -> None:
        self.sides = [bytearray(), bytearray()]
        self.end = 0
        self.begin(market, version)

    def begin(self, market: Market, version: int = 2) -> None:
        """A new generation, with a checkpoint in each but the first."""
        self.generation, self.index = market.generation, 0
        checkpoint = b""
        if market.generation > 1:
            checkpoint = checkpoint_bytes(market.checkpoint()._replace(version=version))
        put = header(version, market.generation, checkpoint) + b"\0"
        self.current[: len(put)] = put
        self.end = len(put) - 1

    @property
    def current(self) -> bytearray:
        """The file on which the journal goes on: the left one has the odd generations."""
        return self.sides[(self.generation + 1) % 2]

    def write(self, market: Market, command: Command, version: int = 2) -> None:
        """What an accepted command leaves, behind which the market is this one."""
        if command.verb == "rotate":
            self.begin(market, version)
            return
        self.index += 1
        put = record(self.generation, self.index, command_bytes(command)) + b"\0"
        self.current[self.end : self.end + len(put)] = put
        self.end += len(put) - 1
