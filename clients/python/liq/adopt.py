"""A market of an unproved program, taken over by the proved one: `python3 -m liq.guard --adopt-unproved`.

In the first generation the proved program carries all commands out again. Where that leads to what the rules in Python
lead to, in each table and word, the mark of the market is taken away. A later generation begins with a checkpoint,
which no program can check, so that is refused.
"""
import os
import subprocess
from pathlib import Path
from typing import Optional

from .backup import backup
from .ends import Folder, Unfit
from .guard import held
from .history import begun, first_other, replay
from .journal import Command, Disk, Journal
from .model import Market, carry_out
from .model.requests import next_number
from .scratch import scratch
from .service import find_program
from .unproved import is_marked, is_proved, take_away

BEHIND_LAUNCHER = ("crates/liq_main/out/liq_main", "libexec/liq/liq")  # from the folder above that of bin/liq
ROTATING = 0


class NotAdopted(Unfit):
    """A market is not taken over, and its mark stays."""

    def __init__(self, folder: Folder, why: str) -> None:
        super().__init__(folder, why)
        self.folder, self.why = folder, why

    def __str__(self) -> str:
        return self.why


def adopt(folder: Folder, program: Optional[Folder] = None) -> str:
    """Compares, takes the mark away, and says what was compared. Both files are held meanwhile. Raises `NotAdopted`,
    `NoJournal`, `DamagedFile` and `Held`."""
    folder = Path(folder)
    if not is_marked(folder):
        raise NotAdopted(folder, f"no unproved program has written in {folder}: there is no mark to take away")
    proved = proved_program(folder, program)
    with held(folder), scratch(folder, "liq-adopt") as room:
        backup(folder, room)
        disk = Journal(room).current
        if disk.generation > 1:
            raise NotAdopted(folder, f"it is in generation {disk.generation}, whose checkpoint no program can check: "
                             "begin a new market, or bring back a copy from before the rotation")
        compare(folder, room, proved, disk)
        take_away(folder)
    return f"{len(disk.commands)} commands lead {proved} to the market that the rules in Python have: the mark is gone"


def compare(folder: Path, room: Path, program: Path, disk: Disk) -> None:
    """Has a program carry out a copy's commands and rotate it, and holds that checkpoint beside that of the model.
    Raises `NotAdopted`."""
    market = begun(disk)
    replay(market, disk)
    command = Command(ROTATING, next_number(market, ROTATING), "rotate", (), (), ())
    carry_out(market, command)
    ran = subprocess.run([program, "run"], cwd=room, input=f"{command.line}\n", capture_output=True, text=True)
    if (ran.returncode, ran.stdout) != (0, f"ok {market.generation}\n"):
        raise NotAdopted(folder, f"{program} says {ran.stdout.strip()!r} and ends with {ran.returncode}")
    differs = difference(market, Journal(room).current)
    if differs:
        raise NotAdopted(folder, f"{program} comes to another market: {differs}")


def difference(market: Market, disk: Disk) -> str:
    """How a generation's checkpoint differs from a market; nothing where it doesn't."""
    if disk.checkpoint == market.checkpoint():
        return ""
    return first_other(disk.checkpoint, market.checkpoint()) if disk.checkpoint else "it has none"


def proved_program(folder: Path, program: Optional[Folder]) -> Path:
    """The program that was built from proofs, also where a launcher stands in front. Raises `NotAdopted`."""
    named = Path(find_program(program))
    top = Path(os.path.realpath(named)).parent.parent
    for path in (named, *(top / name for name in BEHIND_LAUNCHER)):
        if path.is_file() and os.access(path, os.X_OK) and is_proved(path):
            return path
    raise NotAdopted(folder, f"{named} is no program that was built from proofs: scripts/build builds it")
