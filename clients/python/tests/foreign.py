"""Files as somebody else may have written them: with right digests, and whatever stands in them."""
import hashlib
from pathlib import Path
from typing import Iterable

from liq.journal import COMMAND, FIELDS, KINDS, LIMITS, NO_HINT, VERBS, Checkpoint, Command

WORDS = [8] * 14 + [16, 16, 8, 8, 8, 16, 8, 8, 16, 8, 8]


def bytes_of(checkpoint: Checkpoint) -> bytes:
    """A checkpoint as docs/FORMATS.md has it."""
    words = zip(WORDS, checkpoint[1:26])
    data = bytearray(b"LIQSTAT%d" % checkpoint.version)
    data += b"".join(word.to_bytes(size, "big") for size, word in words)
    clients = {client: (row.last, KINDS.index(row.verb) + 1, *row.values) for client, row in checkpoint.clients.items()}
    for size, sizes, rows in (
        (4, (8, 8), checkpoint.wallets), (4, (8, 8, 8, 16, 16), checkpoint.troves),
        (4, (8,), {account: (coll,) for account, coll in checkpoint.surpluses.items()}),
        (16, (16,), {(epoch << 64) + scale: (grown,) for (epoch, scale), grown in checkpoint.finished.items()}),
        (4, (8, 16, 16, 8, 8), checkpoint.deposits), (4, (8, 1, *[8] * 6), clients),
    ):
        data += len(rows).to_bytes(8, "big")
        for key, row in sorted(rows.items()):
            data += key.to_bytes(size, "big")
            data += b"".join(field.to_bytes(each, "big") for each, field in zip(sizes, row))
    return bytes(data)


def header(generation: int, checkpoint: bytes = b"") -> bytes:
    """An open header of version 2, and the checkpoint behind it."""
    numbers = generation, len(checkpoint), LIMITS[2]
    fields = b"LIQJRNL2" + b"".join(number.to_bytes(8, "big") for number in numbers)
    return b"\1" + fields + hashlib.sha256(fields + checkpoint).digest() + checkpoint


def record(generation: int, index: int, command: Command) -> bytes:
    """A whole record."""
    fields = {"a": list(command.accounts), "v": list(command.amounts)}
    fields["h"] = [NO_HINT if hint is None else hint for hint in command.hints]
    padded = [number for letter, size in FIELDS.items() for number in (fields[letter] + [0] * size)[:size]]
    body = COMMAND.pack(KINDS.index(command.verb) + 1, command.client, command.number, *padded)
    numbers = generation.to_bytes(8, "big") + index.to_bytes(8, "big")
    return b"\1" + body + hashlib.sha256(numbers + body).digest()


def commands(lines: Iterable[str]) -> Iterable[Command]:
    """Request lines as commands."""
    for line in lines:
        client, number, verb, *words = line.split(" ")
        found = {"a": [], "v": [], "h": []}
        for letter, word in zip(VERBS[verb], words):
            found[letter].append(None if word == "-" else int(word))
        yield Command(int(client), int(number), verb, *(tuple(found[letter]) for letter in "avh"))


def write(folder: Path, generation: int, checkpoint: bytes, lines: Iterable[str] = ()) -> None:
    """A generation's file in its place, with records of these lines."""
    folder.mkdir(exist_ok=True)
    records = [record(generation, index, command) for index, command in enumerate(commands(lines), 1)]
    side = ("right", "left")[generation % 2]
    (folder / f"{side}.liq").write_bytes(header(generation, checkpoint) + b"".join(records) + b"\0")
