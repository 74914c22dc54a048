"""Whether two files are of one market: the older one's commands lead to the checkpoint with which the newer one begins.

A rotation begins a generation with the market behind the one before it. liq believes that checkpoint, and looks at the
newer file alone. So a file of another market, or of a copy that went on by itself, is told here and nowhere else.
"""
import struct
from pathlib import Path
from typing import Dict, NamedTuple, Optional

from .ends import NoJournal
from .history import begun, read_begin, replay, rotated, rotating
from .journal import FRONT_BYTES, RECORD_BYTES, RECORDS_MOST, DamagedFile, Disk, files_of, is_open, open_file
from .journal import read_checkpoint, read_file, read_header, settle
from .progress import Bar

CLIENT_AND_NUMBER = struct.Struct(">4xIQ")
APART = "these are not two files of one market: bring back both of one copy"


class Left(NamedTuple):
    """What a folder has: the file of the current generation, and that of the one before, where it is there."""

    generation: int
    current: Path
    before: Optional[Path]


def left_in(folder: Path) -> Left:
    """What a folder has, by the fronts of its files. Raises `NoJournal`, or `DamagedFile` where a file is of a
    generation that no rotation leaves there."""
    generations: Dict[int, Path] = {}
    for path in files_of(folder):
        with open_file(path) as file:
            front = file.read(FRONT_BYTES)
            settle(file)
        if is_open(front):
            generations[read_header(path, front, path.stat().st_size).generation] = path
    if not generations:
        raise NoJournal(folder)
    current, oldest = max(generations), min(generations)
    if oldest < current - 1:
        why = f"it has generation {oldest}, and beside generation {current} a rotation leaves {current - 1}"
        raise DamagedFile(generations[oldest], 0, why)
    return Left(current, generations[current], generations.get(current - 1))


def apart(folder: Path, most: int, quick: bool = False, bar: Optional[Bar] = None) -> Optional[str]:
    """How the files of a folder, which no run changes, are not of one market; None where they are, or where one is
    alone. Raises `NoJournal`, and `DamagedFile` where one is no journal."""
    left = left_in(folder)
    return unlinked(left.before, left.current, most, quick, bar) if left.before else None


def check_link(disk: Disk, following: Disk, bar: Optional[Bar] = None) -> None:
    """Carries out a generation's commands by the model. Raises `DamagedFile` where they do not lead to the checkpoint
    of the next one, to the byte."""
    market, bar = begun(disk), bar or Bar()
    bar.begin(f"generation {disk.generation}", len(disk.data) // RECORD_BYTES)
    replay(market, disk, bar.each)
    rotated(market, following)


def unlinked(older: Path, newer: Path, most: int, quick: bool = False, bar: Optional[Bar] = None) -> Optional[str]:
    """How the older of two sound files, each of at most `most` bytes, does not lead to the newer one; None where it
    does. A `quick` look compares each client's last number alone, which tells most files of another market, and not a
    copy that went on with as many commands of each client."""
    following = read_begin(newer, most)
    try:
        if quick:
            _check_numbers(older, following, most)
        else:
            check_link(Disk(older, most), following, bar)
    except DamagedFile as fault:
        at = f"at record {fault.record}: " if fault.record else ""
        return f"{fault.path.name}: {at}{fault.why}; {APART}"
    return None


def _check_numbers(older: Path, following: Disk, most: int) -> None:
    """Raises `DamagedFile` where a client's last number behind an older file's commands is not that of a checkpoint."""
    assert following.checkpoint
    client, row = rotating(following, following.checkpoint)
    had = last_numbers(older, most)
    comes = {**had, client: had.get(client, 0) + 1}
    made = {number: kept.last for number, kept in following.checkpoint.clients.items()}
    for client in sorted(comes.keys() | made.keys()):
        if comes.get(client) != made.get(client):
            why = f"client {client}'s last number is {made.get(client, 0)} in it, and {comes.get(client, 0)} behind"
            raise DamagedFile(following.path, 0, f"{why} the commands of generation {following.generation - 1}")


def last_numbers(path: Path, most: int, records: int = RECORDS_MOST) -> Dict[int, int]:
    """Each client's last number behind the records of a sound file, or behind its first ones."""
    data = read_file(path, most)
    header = read_header(path, data[:FRONT_BYTES], len(data))
    made = read_checkpoint(path, data[header.bytes : header.begin], header.bytes)
    last = {client: row.last for client, row in made.clients.items()} if made else {}
    at, end = header.begin, min(len(data), header.begin + RECORD_BYTES * records)
    while data[at : at + 1] == b"\1" and end >= at + RECORD_BYTES:
        client, number = CLIENT_AND_NUMBER.unpack_from(data, at + 1)
        last[client] = number
        at += RECORD_BYTES
    return last
