"""A market's generations one behind the other: the model goes from each into the next, and tells where they part.

A generation begins with a checkpoint. That is the market behind the generation before it and behind its `rotate`, which
is no record: the client that sent it is the one whose kept reply names the new generation. So a generation whose
predecessor is there is checked to the byte, and one whose predecessor is gone is taken as it is, where it is sound.
"""
import copy
import hashlib
from pathlib import Path
from typing import Any, Callable, Optional, Tuple

from .journal import BYTES_MOST, FRONT_BYTES, LIMITS, Checkpoint, Command, DamagedFile, Disk, KeptReply
from .journal import is_open, open_file, read_header, settle
from .model import Market, carry_out
from .model.disks import checkpoint_bytes
from .model.requests import is_repeated, refusal_text
from .model.sound import empty_row, first_unsound
from .refusals import Refusal


def what_counts(disk: Disk) -> bytes:
    """A file's bytes up to the gate behind its last whole record, and that gate, shut. What stands behind it has no
    meaning, and may be left of an older generation."""
    return disk.data[: disk.end] + b"\0"


def digest_of(data: bytes) -> str:
    """The SHA-256 of bytes, in hexadecimal."""
    return hashlib.sha256(data).hexdigest()


def read_begin(path: Path, most: int = BYTES_MOST) -> Disk:
    """A file's header and checkpoint, without its records."""
    with open_file(path) as file:
        front = file.read(FRONT_BYTES)
        if not is_open(front):
            raise DamagedFile(path, 0, "its gate is shut")
        begin = read_header(path, front, path.stat().st_size).begin
        if begin > most:
            raise DamagedFile(path, 0, f"its header and its checkpoint have more than {most:,} bytes")
        data = front
        while len(data) < begin:
            piece = file.read(begin - len(data))
            if not piece:
                raise DamagedFile(path, 0, "bytes are missing")
            data += piece
        settle(file)
    return Disk(path, data=data[:begin])


def begun(disk: Disk) -> Market:
    """The market with which a generation begins, as far as its own file can tell: the opening, or its checkpoint, which
    has to be sound. Raises `DamagedFile`."""
    if disk.checkpoint is None:
        return Market(LIMITS[disk.version])
    check_form(disk, disk.checkpoint)
    broken = first_unsound(disk.checkpoint)
    if broken:
        raise DamagedFile(disk.path, 0, f"its checkpoint breaks rule {broken} of a sound state")
    return Market.begun_with(disk.checkpoint)


def check_form(disk: Disk, made: Checkpoint) -> None:
    """Raises `DamagedFile` where a checkpoint has an empty row, or belongs to another header."""
    if (made.generation, made.version) != (disk.generation, disk.version):
        raise DamagedFile(
            disk.path, 0, f"its header is of generation {disk.generation}, version {disk.version}, and its checkpoint"
            f" of generation {made.generation}, version {made.version}",
        )
    table = empty_row(made)
    if table:
        raise DamagedFile(disk.path, 0, f"its checkpoint has an empty row in {table}")


def replay(market: Market, disk: Disk, each: Optional[Callable[[int], object]] = None) -> None:
    """Carries out a generation's records, and calls `each` behind each of them, with its number. Raises `DamagedFile`
    at one that the rules refuse, or that comes again; then the market is as the records before it leave it."""
    for index, command in enumerate(disk.commands, 1):
        if is_repeated(market, command):
            raise DamagedFile(disk.path, index, f"it comes again: {command.line}")
        try:
            carry_out(market, command)
        except Refusal as refusal:
            why = f"the rules refuse it, {refusal_text(refusal)}: {command.line}"
            raise DamagedFile(disk.path, index, why) from None
        if each:
            each(index)


def rotated(market: Market, following: Disk) -> Market:
    """The market behind the rotation with which a generation begins. It has the tables of the one before, which is left
    as it was. Raises `DamagedFile` where it is not what the checkpoint has, to the byte."""
    made = following.checkpoint
    assert made
    check_form(following, made)
    client, row = rotating(following, made)
    part = f"generation {market.generation} does not lead to it"
    after = copy.copy(market)
    after.clients = dict(market.clients)
    try:
        carry_out(after, Command(client, row.last, "rotate", (), (), ()))
    except Refusal as refusal:
        why = f"{part}: {refusal_text(refusal)} to {client} {row.last} rotate"
        raise DamagedFile(following.path, 0, why) from None
    if made.version == 1 and market.limit == LIMITS[1]:
        after.limit = LIMITS[1]  # an earlier build has rotated it, and stayed with its own version
    comes = after.checkpoint()
    if checkpoint_bytes(comes) != following.data[following.header : following.begin]:
        raise DamagedFile(following.path, 0, f"{part}: {first_other(made, comes)}")
    return after


def rotating(disk: Disk, made: Checkpoint) -> Tuple[int, KeptReply]:
    """The client whose `rotate` made a checkpoint, and what is kept of it."""
    for client, row in made.clients.items():
        if row.verb == "rotate" and row.values[0] == made.generation:
            return client, row
    raise DamagedFile(disk.path, 0, f"no client of its checkpoint has begun generation {made.generation}")


def first_other(made: Checkpoint, comes: Checkpoint) -> str:
    """The first field in which a checkpoint is not what the commands lead to. Of a table it is the first row."""
    for name, here, there in zip(Checkpoint._fields, made, comes):
        if here != there:
            return field_other(name, here, there)
    return "its bytes are others"


def field_other(name: str, here: Any, there: Any) -> str:
    """How a field differs."""
    if isinstance(here, dict):
        key = min(key for key in here.keys() | there.keys() if here.get(key) != there.get(key))
        name, here, there = f"{name} of {key}", here.get(key, "nothing"), there.get(key, "nothing")
    here, there = (tuple(value) if isinstance(value, tuple) else value for value in (here, there))
    return f"{name}: it has {here}, and the commands lead to {there}"
