"""A market as a process: `liq run` in its folder, asked line by line."""
import contextlib
import errno
import fcntl
import logging
import os
import select
import shutil
import subprocess
import time
from collections import deque
from pathlib import Path
from types import TracebackType
from typing import Any, Callable, Deque, Iterable, Iterator, List, Optional, Sequence, Tuple, Type, Union

from .client import ACCOUNTS, Client, spelt
from .ends import End, Folder, MarketExists, NoJournal, NoProgram, NoSpace, NotPermitted, is_reply, read_end
from .ends import replies_end
from .errors import BadValue, NotReady, TimedOut
from .journal import holds_journal
from .queries import Queries
from .reasons import check_usable, explained, forbidden
from .refusals import read_refusal
from .units import Whole

LOG = logging.getLogger("liq")
LINES_OF_A_RUN = 1_000_000
BYTES_AT_ONCE = 10_000
MEMORY = Path("/dev/shm")  # where files cost no wait for a disk, and outlast no restart of the machine
PIECE_BYTES = 65536
SECONDS_MOST = 10**6  # of a timeout: what poll takes
LINE_SHOWN = 300  # of one that is not sent: liq takes 200 bytes
SET_PIPE_SIZE, PIPE_SIZE = 1031, 1032  # fcntl.F_SETPIPE_SZ and F_GETPIPE_SZ, which Python names from 3.10 on
PIPE_BYTES = 2**18  # some thousand lines; a system counts what it has for all pipes of a user
SECONDS_A_LINE = 5e-7  # less than liq takes for a line, whatever it is
LINES_OF_A_NAP, LINES_AWAKE = 8192, 256
IF_MISSING = "if missing"
Create = Union[bool, str]  # False, True or "if missing"
Take = Callable[[List[str]], object]  # what is done with replies that came
TakeText = Callable[[str], object]


def find_program(program: Optional[Folder] = None) -> str:
    """The program: the one that is named, that of LIQ_PROGRAM, the `liq` of the PATH, or bin/liq of this checkout."""
    named = program or os.environ.get("LIQ_PROGRAM") or shutil.which("liq")
    return os.path.abspath(named or Path(__file__).resolve().parents[3] / "bin" / "liq")


def prepare(folder: Folder, create: Create) -> None:
    """Sees that a folder has what `create` says: a journal where it is False; none where it is True; either where it is
    "if missing". Makes the folder where a market may begin. Raises `NoJournal`, `MarketExists`, `NotPermitted` or
    `NoSpace`."""
    if not isinstance(create, bool) and create != IF_MISSING:
        raise BadValue(f"create is False, True or {IF_MISSING!r}, and not {create!r}")
    there = is_market(folder)
    if not create and not there:
        raise NoJournal(folder)
    if create is True and there:
        raise MarketExists(folder)
    if create:
        make_folder(Path(folder))


def is_market(folder: Folder) -> bool:
    """Whether a folder holds a journal. Raises `NotPermitted` where that can't be seen."""
    try:
        return holds_journal(folder)
    except PermissionError as fault:
        raise NotPermitted(5, "", None, forbidden(folder) or str(fault)) from None


def log_end(process: int, end: End, is_killed: bool = False) -> None:
    """Tells how a process of the program ended: at ERROR, where that is neither with 0 nor by whoever began it."""
    LOG.log(logging.INFO if is_killed or end.status == 0 else logging.ERROR, "process %d: %s", process, end)


def make_folder(folder: Path) -> None:
    """Makes a folder for a new market, where there is none. Raises `NotPermitted` or `NoSpace`."""
    try:
        folder.mkdir(parents=True, exist_ok=True)
    except OSError as fault:
        if fault.errno in (errno.EACCES, errno.EPERM, errno.EROFS):
            raise NotPermitted(5, "", None, f"{folder} can't be made: {fault.strerror}") from None
        if fault.errno in (errno.ENOSPC, errno.EDQUOT):
            raise NoSpace(5, "", None, f"{folder} can't be made: {fault.strerror}") from None
        raise


def begin_program(words: Sequence[str], folder: Optional[Folder], **how: Any) -> "subprocess.Popen[bytes]":
    """A process of the program, in a folder. Raises `NoProgram`, or `NoJournal` where the folder is gone."""
    try:
        process = subprocess.Popen(words, cwd=folder, bufsize=0, **how)
        where = f" in {folder}" if folder is not None else ""
        LOG.info("begun: %s%s, process %d", " ".join(map(str, words)), where, process.pid)
        return process
    except OSError as fault:
        if folder is not None and not os.path.isdir(folder):
            raise NoJournal(folder) from None
        if fault.errno not in (errno.ENOENT, errno.EACCES, errno.ENOEXEC, errno.ENOTDIR, errno.EISDIR):
            raise  # as for want of processes, of memory or of open files
        why = f"{words[0]} can't be run, {(fault.strerror or str(fault)).lower()}"
        ways = "name one by LIQ_PROGRAM, or put `liq` on the PATH"
        raise NoProgram(70, f"{why}: {ways}; bin/liq of a checkout builds one") from None


class Service(Queries):
    """A run of liq over the files of a folder.

    A folder without a journal is an error, for liq would begin a new market there. `create=True` begins one, and is an
    error where a journal is; `create="if missing"` goes on with the journal that is there, or begins one. Where liq
    could not use the files, as far as a look says, no run is begun: `NotPermitted`, `Locked` or `NoSpace`.

    After 1,000,000 lines the run is full, and another one begins by itself. Where liq ends, the call raises how
    (`ends`); what was answered stands, and `start` begins again. A service is for one thread.

    Each call waits for its reply at most `timeout` seconds, for ever where that is None; the first one of a run waits
    for the opening too, which takes seconds where the journal is long. `ask`, `ask_many` and `close` take a time of
    their own; for typed calls there is `within`. Where the time is over the call raises `TimedOut`. **Then the reply is
    unknown**: the line may stand, or be carried out later. The run goes on, and nothing else is sent before that reply
    has come: the same line again, as by `Client.resend`, waits on for it. Or `kill`, `start` and send it again: under
    the same number it counts once, and the reply tells the truth. The reply to a query that was late is left out by
    itself.
    """

    def __init__(
        self, folder: Folder, program: Optional[Folder] = None, create: Create = False,
        timeout: Optional[float] = None,
    ) -> None:
        self._process: Optional["subprocess.Popen[bytes]"] = None
        self.folder = Path(folder)
        self.program = find_program(program)
        self.timeout = seconds_of(timeout)
        self._owed: Deque[str] = deque()  # lines that were sent and have no reply
        self._text, self._told = "", 0  # lines that were sent as one text, and how many of them have their reply
        prepare(folder, create)
        self._may_create = bool(create)
        self.start()

    # ---- the process

    def start(self) -> None:
        """Begins a run, where none goes on. Files that were there before may not be missing. Raises `NotPermitted`,
        `Locked`, `NoSpace` or `DiskFault` where a look says that liq couldn't use them (`reasons`).

        After an end it goes on with the market of this service, also where that was created by it."""
        if self._process is not None:
            return
        there = is_market(self.folder)
        if not self._may_create and not there:
            raise NoJournal(self.folder)
        check_usable(self.folder, begins=not there)
        process = self._spawn()
        assert process.stdin and process.stdout
        self._process = process
        self._in, self._out = process.stdin.fileno(), process.stdout.fileno()
        self._room = min(BYTES_AT_ONCE, pipe_size(self._in))
        self._poll = select.poll()
        self._poll.register(self._out, select.POLLIN)
        self._unread = b""
        self._lines_left = LINES_OF_A_RUN
        self._owed.clear()
        self._text = ""

    def _spawn(self) -> "subprocess.Popen[bytes]":
        return begin_program([self.program, "run"], self.folder, stdin=subprocess.PIPE, stdout=subprocess.PIPE)

    @property
    def pid(self) -> Optional[int]:
        """The process's number; None where no run goes on."""
        return self._process.pid if self._process else None

    @property
    def pending(self) -> Optional[str]:
        """The line that was sent and has no reply, the first of lines that were sent together; else None."""
        if self._text:
            return self._text.split("\n", self._told + 1)[self._told] or None
        return self._owed[0] if self._owed else None

    def close(self, timeout: Optional[float] = None) -> None:
        """Ends the run in good order. Raises how it ended, where that is not with 0; `TimedOut` where it does not end
        in time, and then it was killed, which takes nothing from what was answered."""
        if self._process is not None:
            self._close(self._until(timeout))

    def _close(self, until: Optional[float]) -> None:
        end = self._end(until)
        if end.status != 0:
            raise end

    def kill(self) -> None:
        """Ends the run at once, as a crash would. What was answered stands."""
        if self._process is not None:
            self._process.kill()
            self._end(is_killed=True)

    def _end(self, until: Optional[float] = None, is_killed: bool = False) -> End:
        """Closes both pipes, waits for the process, and gives how it ended. Kills it where that takes too long."""
        process, self._process = self._process, None
        assert process and process.stdin and process.stdout
        process.stdin.close()
        is_late = False
        while True:
            if until is not None and not is_late and not self._poll.poll(1000 * max(0.0, until - time.monotonic())):
                is_late = True
                process.kill()
            piece = process.stdout.read(PIECE_BYTES)
            if not piece:
                break
            self._unread += piece
        said = self._unread.decode("ascii", "replace")
        process.stdout.close()
        last = said.rstrip("\n").rpartition("\n")[2] if said.endswith("\n") else ""
        try:
            process.wait(None if until is None or is_late else max(0.0, until - time.monotonic()))
        except subprocess.TimeoutExpired:
            is_late = True
            process.kill()
        end = read_end(process.wait(), "" if is_reply(last) else last, self.pending)
        if is_late:
            LOG.error("process %d did not end in time, and was killed", process.pid)
            raise TimedOut(self._seconds, self.pending, "liq did not end")
        end = explained(end, self.folder)
        log_end(process.pid, end, is_killed)
        return end

    def _make_room(self, until: Optional[float] = None) -> None:
        """Begins another run where this one has had all its lines."""
        if self._lines_left == 0:
            self._close(until)
            self.start()

    def __enter__(self) -> "Service":
        return self

    def __exit__(
        self, kind: Optional[Type[BaseException]], fault: Optional[BaseException], trace: Optional[TracebackType]
    ) -> None:
        if kind is None:
            self.close()
        else:
            self.kill()

    def __del__(self) -> None:
        if getattr(self, "_process", None) is not None:
            self.kill()

    # ---- time

    def _until(self, timeout: Optional[float]) -> Optional[float]:
        """When a call of so many seconds is too late, by the clock that never goes back; None where it may take any
        time."""
        seconds = self.timeout if timeout is None else seconds_of(timeout)
        if seconds is None:
            return None
        self._seconds = seconds
        return time.monotonic() + seconds

    def within(self, seconds: float) -> "Within":
        """The queries of this market, each of which may take so many seconds: `service.within(2).wallet(1)`."""
        return Within(self, seconds)

    # ---- lines

    def _check_going(self) -> None:
        if self._process is None:
            raise NotReady("no run goes on: start() begins one")

    def _settle(self, until: Optional[float]) -> None:
        """Reads the replies to queries that came too late, and leaves them out. Raises `NotReady` where it is a command
        that has no reply."""
        for line in self._owed:
            if not line.startswith("? "):
                raise NotReady(f"a line has no reply yet: {line!r}; send it again, which waits for its reply")
        while self._owed:
            self._read(until)

    def ask(self, line: str, timeout: Optional[float] = None) -> List[str]:
        """Sends a line, and gives the words of its reply. A client of its own numbers commands: see `client`.

        Where that line was sent and has no reply yet, it is not sent again: the call waits on for its reply."""
        return self._ask(line, self._until(timeout))

    def _ask(self, line: str, until: Optional[float]) -> List[str]:
        self._check_going()
        if "\n" in line or not line.isascii() or len(line) >= self._room:
            raise BadValue(f"it is no line, of ASCII and without a line end: {line[:LINE_SHOWN]!r}")
        if len(self._owed) != 1 or self._owed[0] != line:
            if self._owed:
                self._settle(until)
            self._make_room(until)
            self._write([line])
        words = self._read(until)
        self._may_create = False
        return words

    def ask_many(self, queries: Iterable[str], timeout: Optional[float] = None) -> List[List[str]]:
        """The words of the replies to many queries, which are sent together.

        No more are sent at once than the pipe holds, so neither side waits for the other. Commands are not taken: a
        refused one would leave its number to the next.
        """
        until = self._until(timeout)
        self._check_going()
        given = list(queries)
        for query in given:
            if not query.startswith("? ") or "\n" in query or not query.isascii() or len(query) >= self._room:
                raise BadValue(f"no query: {query[:LINE_SHOWN]!r}")
        self._settle(until)
        replies: List[List[str]] = []
        for batch in self._batches(given, until):
            self._write(batch)
            replies += [self._read(until) for _ in batch]
        return replies

    def ask_together(self, lines: Sequence[str], take: Take, timeout: Optional[float] = None) -> None:
        """Sends lines of any kind together, and gives the replies to `take`, some at a time as they come, such as
        `replies.extend`: one for each line, in their order.

        Replies are read while lines are written, so neither side waits for the other. A refused command leaves its
        number to the next of its client: so each command wants a client of its own (`liq.together`). Where liq ends the
        replies before that were given, and `pending` is the first line without one. So it is where no reply comes for
        `timeout` seconds, but then liq is killed: what it was sent may end within a line.
        """
        text = "\n".join([*lines, ""])
        if text.count("\n") != len(lines):
            wrong = next(line for line in lines if "\n" in line)
            raise BadValue(f"it is no line, of ASCII and without a line end: {wrong[:LINE_SHOWN]!r}")
        self.ask_text(text, lambda told: take(told[:-1].split("\n")), timeout)

    def ask_text(self, text: str, take: TakeText, timeout: Optional[float] = None) -> None:
        """`ask_together` with all lines as one text, each with its line end, and so the replies that `take` is given: a
        part of all, of whole lines."""
        self._until(timeout)
        seconds = self.timeout if timeout is None else timeout
        self._check_going()
        if not text.isascii() or text[-1:] not in ("", "\n"):
            wrong = next((line for line in text.split("\n") if not line.isascii()), text.rpartition("\n")[2])
            raise BadValue(f"it is no line, of ASCII and with a line end: {wrong[:LINE_SHOWN]!r}")
        self._settle(self._until(timeout))
        while text:
            self._make_room(self._until(timeout))
            part, text = front(text, self._lines_left)
            try:
                self._pump(part, take, seconds)
            except BaseException:  # as an interrupt, or what `take` raises: what was sent may end within a line
                self.kill()
                raise

    def _pump(self, text: str, take: TakeText, seconds: Optional[float]) -> None:
        """Writes lines, and reads as many replies. The pipe takes what there is room for, without a wait."""
        unsent, count = memoryview(text.encode("ascii")), text.count("\n")
        self._text, self._told = text, 0
        self._lines_left -= count
        ready = select.poll()
        ready.register(self._out, select.POLLIN)
        ready.register(self._in, select.POLLOUT)
        widen(self._in)
        widen(self._out)
        os.set_blocking(self._in, False)
        while self._told < count:
            found = ready.poll(None if seconds is None else 1000 * seconds)
            if not found:
                pending = self.pending
                LOG.error("process %d: no reply in %g seconds to %s, it is killed", self.pid, self._seconds, pending)
                self.kill()
                raise TimedOut(self._seconds, pending)
            for descriptor, _ in found:
                if descriptor == self._out:
                    self._take_replies(take)
                    continue
                try:
                    unsent = unsent[os.write(self._in, unsent) :]
                except BlockingIOError:
                    pass
                except BrokenPipeError:
                    unsent = unsent[:0]  # what was answered is read, and then how it ended
                if not unsent:
                    ready.unregister(self._in)
            # Liq writes each reply by itself, and whoever listens would be woken by each.
            owed = count - self._told
            if owed > LINES_AWAKE:
                time.sleep(SECONDS_A_LINE * min(owed, LINES_OF_A_NAP))
        self._text = ""
        os.set_blocking(self._in, True)

    def _take_replies(self, take: TakeText) -> None:
        """Reads the replies that are there. Raises how liq ended where no more come."""
        piece = os.read(self._out, PIECE_BYTES)
        data = self._unread + piece
        told = data[: data.rfind(b"\n") + 1].decode("ascii", "replace")
        end = replies_end(told)
        self._unread = data[end:]
        if end:
            self._told += told.count("\n", 0, end)
            self._may_create = False
            take(told[:end])
        if end < len(told) or not piece:
            raise self._end()

    def _batches(self, lines: Sequence[str], until: Optional[float] = None) -> Iterator[List[str]]:
        """Lines in parts: no more of them than the pipe holds, and than the run takes."""
        batch: List[str] = []
        size = 0
        for line in lines:
            if not batch or size + len(line) + 1 > self._room or len(batch) == self._lines_left:
                if batch:
                    yield batch
                self._make_room(until)
                batch, size = [], 0
            batch.append(line)
            size += len(line) + 1
        if batch:
            yield batch

    def _write(self, lines: Sequence[str]) -> None:
        """Sends lines together, which the pipe holds."""
        self._owed.extend(lines)
        self._lines_left -= len(lines)
        data = "".join([line + "\n" for line in lines]).encode("ascii")
        try:
            while data:
                data = data[os.write(self._in, data):]
        except BrokenPipeError:
            raise self._end() from None

    def _read(self, until: Optional[float] = None) -> List[str]:
        """The words of the next reply. Raises how liq ended where there is none, and `TimedOut` where none comes in
        time."""
        unread = self._unread
        while b"\n" not in unread:
            if until is not None and not self._poll.poll(1000 * max(0.0, until - time.monotonic())):
                LOG.error("process %d: no reply in %g seconds to %s", self.pid, self._seconds, self.pending)
                raise TimedOut(self._seconds, self.pending)
            piece = os.read(self._out, PIECE_BYTES)
            if not piece:
                raise self._end(until)
            unread = self._unread = unread + piece if unread else piece
        line, _, self._unread = unread.partition(b"\n")
        text = line.decode("ascii", "replace")
        if not text.startswith("ok") and not is_reply(text):
            self._unread = line + b"\n" + self._unread
            raise self._end(until)
        self._owed.popleft()
        return text.split(" ")

    # ---- queries

    def _row(self, query: str, *accounts: int) -> Optional[List[int]]:
        return numbers_of(self.ask(f"? {query}" + spelt(accounts, ACCOUNTS)))

    def _rows(self, query: str, accounts: Sequence[int]) -> List[Optional[Sequence[int]]]:
        return [numbers_of(words) for words in self.ask_many(f"? {query}" + spelt((it,), ACCOUNTS) for it in accounts)]

    def client(
        self, client: Whole, rotate_when_full: bool = False, archive: Optional[Folder] = None,
        timeout: Optional[float] = None,
    ) -> Client:
        """A client of this market. Each program, and each thread of work, wants a number of its own. `timeout` is for
        its calls, and that of the service where it is None."""
        return Client(self, client, rotate_when_full, archive, timeout)


class Within(Queries):
    """The queries of a service, each of which may take so many seconds."""

    def __init__(self, service: Service, seconds: float) -> None:
        self.service, self.seconds = service, seconds

    def _row(self, query: str, *accounts: int) -> Optional[List[int]]:
        return numbers_of(self.service.ask(f"? {query}" + spelt(accounts, ACCOUNTS), self.seconds))

    def _rows(self, query: str, accounts: Sequence[int]) -> List[Optional[Sequence[int]]]:
        lines = [f"? {query}" + spelt((it,), ACCOUNTS) for it in accounts]
        return [numbers_of(words) for words in self.service.ask_many(lines, self.seconds)]


def seconds_of(timeout: Optional[float]) -> Optional[float]:
    """A time that a call may take; None for any. Raises `BadValue` where it is not above 0."""
    if timeout is not None and not 0 < timeout <= SECONDS_MOST:
        raise BadValue(f"a timeout is a number of seconds above 0, at most {SECONDS_MOST:,}, or None: {timeout!r}")
    return timeout


def numbers_of(words: Sequence[str]) -> Optional[List[int]]:
    """The numbers of a query's reply; None for `none`. Raises its refusal."""
    if words[0] == "no":
        raise read_refusal(words)
    return None if words == ["none"] else [int(word) for word in words]


def front(text: str, count: int) -> Tuple[str, str]:
    """The first lines of a text, at most so many, and the rest."""
    if text.count("\n") <= count:
        return text, ""
    rest = text.split("\n", count)[-1]
    return text[: len(text) - len(rest)], rest


def widen(descriptor: int) -> None:
    """Lets a pipe hold more, where the system allows it: so there are fewer waits, above all beside other work."""
    if pipe_size(descriptor) < PIPE_BYTES:
        with contextlib.suppress(OSError):
            fcntl.fcntl(descriptor, SET_PIPE_SIZE, PIPE_BYTES)


def pipe_size(descriptor: int) -> int:
    """How many bytes a pipe holds."""
    try:
        return int(fcntl.fcntl(descriptor, PIPE_SIZE))
    except OSError:
        return 4096
