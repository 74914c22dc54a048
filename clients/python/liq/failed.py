"""Says why a service over a market has ended, and the commands that bring it back.

usage: python3 -m liq.failed [--status N] [--note FILE] [--mark FILE] [--unit NAME] FOLDER

The unit of systemd calls it behind each run, so that its lines stand in the journal behind those of the run. The status
is that of EXIT_STATUS, as systemd gives it, if left out. At 0, and where a signal ended the run, it says nothing: the
unit is begun again. Else it writes what has failed, why, as far as a look at the folder tells, and the commands that
bring it back.

It changes nothing. It ends with 0, and with 2 where its words are not understood.
"""
import os
import sys
from argparse import Namespace
from pathlib import Path
from typing import List, Optional

from .backup import LARGEST, open_copy
from .console import as_process, ended, parser_of
from .ends import DiskFault, End, Unfit
from .guard import behind, look, read_note
from .journal import copy_file, files_of
from .reasons import explained
from .scratch import bounded, scratch

DISK_FAULT, DAMAGED = 5, 6
SECONDS_A_LOOK = 10 * 60  # as long as a start may take
EXAMPLES = """
python3 -m liq.failed --status 6 --note /var/lib/liq/note --mark /var/lib/liq/look-first /var/lib/liq/market
"""


def said_of_end(status: int, asked: Namespace) -> List[str]:
    """What is said of an end, a line each."""
    folder, unit, mark = asked.folder.absolute(), asked.unit, asked.mark
    begin = f"systemctl reset-failed '{unit}*'; systemctl start {unit}"
    if status == DAMAGED:
        first = f"python3 -m liq.restore --older COPY {folder}"
        return [
            f"{unit} has ended with 6, and nothing begins by itself: {why_damaged(folder, asked.note)}",
            f"what brings it back, with a copy of yours: {first}; rm -f {mark}; {begin}",
        ]
    if status == DISK_FAULT:
        return [
            f"{unit} has ended with 5, and nothing begins by itself: {why_faulty(folder)}",
            "where the disk itself failed, restart the machine first",
            f"what brings it back, once that is mended: rm -f {mark}; {begin}",
        ]
    return [
        f"{unit} has ended with {status}: the line of its event `ended`, or the last one in front of this, says why",
        f"what brings it back, once that is mended, where systemd begins it no more: {begin}",
    ]


def why_damaged(folder: Path, note: Optional[Path]) -> str:
    """What the guard finds in a folder and beside a note, which stays; where it finds nothing, what liq says of a copy."""
    try:
        found = look(folder)
        noted = read_note(note) if note else None
        why = [line.text for line in found.found] + [behind(found, noted) or "" if noted else ""]
        if any(why):
            return "; ".join(filter(None, why))
        with scratch(folder, "liq-failed") as room:
            for path in files_of(folder):
                copy_file(path, room / path.name, LARGEST)
            open_copy(room)
    except End as end:
        return f"over a copy of it {end}"
    except (Unfit, OSError) as fault:
        return str(fault)
    return "the guard finds nothing now, and liq opens a copy: the lines in front of this have more"


def why_faulty(folder: Path) -> str:
    """Which rights, room or locks are missing, as far as a look tells."""
    end = explained(DiskFault(DISK_FAULT), folder)
    return (isinstance(end, DiskFault) and end.why) or "a look at the files says nothing more: see `dmesg` for the disk"


def main(words: List[str]) -> int:
    parser = parser_of("failed", __doc__, EXAMPLES)
    parser.add_argument("folder", metavar="FOLDER", type=Path, help="the market's folder")
    parser.add_argument("--status", metavar="N", default=os.environ.get("EXIT_STATUS", "0"), help="of the end; EXIT_STATUS if left out")
    parser.add_argument("--note", metavar="FILE", type=Path, help="the guard's note, which is compared and stays")
    parser.add_argument("--unit", metavar="NAME", default="liq", help="the unit's name; liq if left out")
    parser.add_argument("--mark", metavar="FILE", default="look-first", help="what nothing is begun in front of")
    asked = parser.parse_args(words)
    status = int(asked.status) if asked.status.isdecimal() else 0  # else the name of a signal

    def tell() -> int:
        if status:
            with bounded(SECONDS_A_LOOK):
                print("\n".join(said_of_end(status, asked)))
        return 0

    return ended("failed", tell)


def command() -> int:
    """The command, with the words of its process."""
    return as_process(main)


if __name__ == "__main__":
    sys.exit(command())
