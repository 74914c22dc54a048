"""How a run of liq ends: an exception for each status but 0. docs/OPERATING.md says what to do at each."""
import re
from pathlib import Path
from typing import Dict, Optional, Type, Union

from .errors import LiqError

Folder = Union[str, Path]


class Unfit(LiqError):
    """A folder is not read, or not judged; its classes say why. liq itself has not ended."""


class TooMuch(Unfit):
    """It would take more than a stated bound: of bytes, of rows, of memory or of time."""

    def __init__(self, what: str, most: int, unit: str) -> None:
        super().__init__(what, most, unit)
        self.what, self.most, self.unit = what, most, unit

    def __str__(self) -> str:
        return f"{self.what} more than {self.most:,} {self.unit}"


class NoJournal(Unfit):
    """Neither file of the folder holds a journal. `Service(.., create=True)` lets liq begin a new market."""

    def __init__(self, folder: Folder) -> None:
        super().__init__(folder)
        self.folder = folder

    def __str__(self) -> str:
        return f"no journal in {self.folder}: liq would begin a new market there"


class MarketExists(Unfit):
    """A new market was asked for, by `create=True`, where a journal is already. Nothing was begun or changed."""

    def __init__(self, folder: Folder) -> None:
        super().__init__(folder)
        self.folder = folder

    def __str__(self) -> str:
        return (
            f"a market is in {self.folder} already: take another folder for a new one; to go on with it leave `create` "
            "out, or say `create=\"if missing\"` to go on or begin"
        )


class End(LiqError):
    """liq has ended before its time. What it answered stands.

    `status` is that of the process, negative where a signal ended it. `last` is its last line, empty where there is
    none. `pending` is the line that was sent and has no reply, the first of queries that were sent together, or None.
    """

    status: int

    def __init__(self, status: int, last: str = "", pending: Optional[str] = None) -> None:
        super().__init__(status, last, pending)
        self.status, self.last, self.pending = status, last, pending

    @property
    def number(self) -> Optional[int]:
        """The number in the last line: of the line, the record, the limit or the generation."""
        found = re.search(r"[0-9]+", self.last)
        return int(found[0]) if found else None

    def __str__(self) -> str:
        said = f", {self.last}" if self.last else ""
        return f"liq ended with {self.status}{said}" + (f"; without a reply: {self.pending}" if self.pending else "")


class Usage(End):
    """1: the program has no such word."""


class BadLine(End):
    """2: a line is no request."""

    def __str__(self) -> str:
        from .why import why  # only here: it is wanted once

        said = why(self.pending) if self.pending else ""
        return super().__str__() + (f" ({said})" if said else "")


class ReadFault(End):
    """3: reading the input failed."""


class WriteFault(End):
    """4: writing the output failed."""


class DiskFault(End):
    """5: a file met a fault, or liq may not use it. The pending command may stand or not.

    `why` is what a look at the folder says of the reason, empty where it says nothing (`reasons`). Where that was seen
    before the start no run was begun, and `last` is empty."""

    def __init__(self, status: int, last: str = "", pending: Optional[str] = None, why: str = "") -> None:
        super().__init__(status, last, pending)
        self.args = (status, last, pending, why)
        self.why = why

    def __str__(self) -> str:
        if self.why and not self.last:
            return f"liq can't use its files: {self.why}"
        return super().__str__() + (f" ({self.why})" if self.why else "")


class Locked(DiskFault):
    """Another process holds the files: a run, or whoever looks at them by a word of liq."""


class NoSpace(DiskFault):
    """The file system is full. What was answered stands."""


class NotPermitted(DiskFault):
    """The rights on the folder or on a file don't let liq read and write there, or let others write."""


class Damaged(End):
    """6: a file is not as liq wrote it, or the journal that `follow` was given. The last line says which, and `number`
    which record."""


class NoMemory(End):
    """7: there was no memory. The pending command was not carried out."""


class Limit(End):
    """8: more lines than a run takes, more bytes than `follow` takes, or one of the limits of `audit`."""


class Rotated(End):
    """9: the commands before the last rotation are gone, so `audit` and `follow` have nothing to tell."""


class NotBuilt(End):
    """70: bin/liq of a checkout found no program and could not build one."""


class NoProgram(NotBuilt):
    """There is no program at a path, or the system runs none there. Nothing was begun."""

    def __str__(self) -> str:
        return self.last


class Killed(End):
    """A signal ended it. The pending command may stand or not: send it again."""


BY_STATUS: Dict[int, Type[End]] = {
    1: Usage, 2: BadLine, 3: ReadFault, 4: WriteFault, 5: DiskFault, 6: Damaged, 7: NoMemory, 8: Limit, 9: Rotated,
    70: NotBuilt,
}


def read_end(status: int, last: str = "", pending: Optional[str] = None) -> End:
    """The end that a status says. A shell tells a signal as 128 and its number."""
    kind: Type[End] = BY_STATUS.get(status, End)
    if status < 0 or status > 128:
        kind = Killed
    return kind(status, last, pending)


def is_reply(line: str) -> bool:
    """Whether a line is a reply, and not a last line."""
    first, _, rest = line.partition(" ")
    return first in ("ok", "none") or first.isdigit() or (first == "no" and rest.partition(" ")[0].isdigit())


def replies_end(text: str) -> int:
    """Where the replies end in a text of whole lines, which may go on with a last line."""
    ahead = "\n" + text
    if ahead.count("\nok") + ahead.count("\nno ") == text.count("\n") and is_reply(text[:-1].rpartition("\n")[2]):
        return len(text)  # nothing comes behind a last line, so all are replies
    end = 0
    for line in text.splitlines(keepends=True):
        if not is_reply(line.rstrip("\n")):
            break
        end += len(line)
    return end
