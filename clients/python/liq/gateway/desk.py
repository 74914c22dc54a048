"""The desk: numbers commands, notes them in the book, has the run carry them out, and answers.

It works in turns. A turn takes one line of each caller at most, so nobody waits for more than a line of each other one.
Its steps, each whole before the next one begins:

1. A key that is known gets its reply again.
2. The other commands get their client's next number, and are noted in the book.
3. All lines go to the run together, and the replies are read.
4. The replies are noted in the book, and then go out.

Where the run ends, another one is begun. The journal's next numbers are compared with the book, and what has no reply
goes to the run once more, word for word: one that was carried out gets its reply, any other one is carried out now. A
line at which the run ends a second time is given up, and the journal says whether it was carried out.

A disk fault or damage ends all: a run begun behind it might answer for what is not on the disk.
"""
import sqlite3
import time
import traceback
from collections import deque
from typing import Any, Callable, Deque, Dict, List, Mapping, NamedTuple, Optional, Tuple

from ..ends import BadLine, Damaged, DiskFault, End, NoProgram, NotBuilt, Unfit, Usage
from ..errors import LiqError
from .book import BadBook, Book, Order, Settled, Slot
from .jobs import Answers, Job, Queue, Sent
from .keeper import Keeper
from .lines import Refused
from .log import Counts, Log
from .run import Run
from .table import OWN, Table

STARTS_MOST = 3  # of a run, one behind the other, that ends before it has answered
ENDS_MOST = 3  # of runs at one line, which is given up before unless it was carried out
SECONDS_BETWEEN_STARTS = 0.2
SECONDS_BETWEEN_ARCHIVES = 60.0  # where the last one failed
SECONDS_A_LOOK = 0.05
SECONDS_UNWOKEN = 3600.0
HOPELESS = (Usage, DiskFault, Damaged, NotBuilt)
FULL, OUT_OF_TURN = "no 81 ", "no 70 "
STOPPED = Refused("stopped", "the gateway has ended: send it again, with its key, once it is back")


def is_hopeless(end: End) -> bool:
    """Whether nothing is begun behind an end. A program that can't be begun may be one that is being installed."""
    return isinstance(end, HOPELESS) and not isinstance(end, NoProgram)


class Stopped(LiqError):
    """The gateway can't go on: with which status it ends, and why."""

    def __init__(self, status: int, why: str) -> None:
        super().__init__(status, why)
        self.status, self.why = status, why


class Parts(NamedTuple):
    """What a desk works with. Without a keeper the journal is not rotated."""

    run: Run
    book: Book
    log: Log
    counts: Counts
    keeper: Optional[Keeper] = None


class Desk:
    """Answers jobs. `deliver` is called with the answers of a turn, in the thread that works. Where a job is answered
    twice, as at an end, the first answer counts."""

    def __init__(self, parts: Parts, table: Table, deliver: Callable[[Answers], None], adopts: bool = False) -> None:
        self.run, self.book, self.log, self.counts, self.keeper = parts
        self.table, self.deliver = table, deliver
        self.queue = Queue()
        self._held: List[Job] = []  # commands that wait for a rotation
        self._unsettled: List[Settled] = []
        self._numbers: Dict[int, int] = {}  # the next one of each client, as the journal had it when the run began
        self._wants_rotation = False
        self._next_archive = 0.0
        self._tables: Deque[Tuple[Table, Callable[[Optional[str]], None]]] = deque()
        self._is_stopping = False
        self._enroll(table, adopts)
        self._check([], adopts)
        self._begun()
        if self.keeper:
            self.keeper.begin()

    # ---- from other threads

    def put(self, job: Job) -> None:
        """Has a job answered."""
        if not self.queue.put(job):
            self.deliver([(job, str(STOPPED))])

    def change_table(self, table: Table, told: Callable[[Optional[str]], None]) -> None:
        """Has another table noted; `told` is called in the working thread, with why not, or with None."""
        self._tables.append((table, told))
        self.queue.wake()

    def stop(self) -> None:
        """Has the work end behind the turn that goes on."""
        self._is_stopping = True
        self.queue.wake()

    def rotate(self) -> None:
        """Has the journal rotated behind the archive, full or not."""
        self._wants_rotation = True
        self.queue.wake()

    # ---- the working thread

    def work(self) -> Stopped:
        """Works until it is stopped, or can't go on. Whoever waits then is told so."""
        why = Stopped(0, "the gateway is stopped")
        jobs: List[Job] = []
        try:
            while not self._is_stopping:
                busy = self.keeper is not None and self.keeper.is_busy
                jobs = self.queue.take(SECONDS_A_LOOK if busy else SECONDS_UNWOKEN)
                self._change_tables()
                self._look_at_archive()
                self.turn(jobs)
                jobs = []
        except Stopped as stopped:
            why = stopped
        except (Unfit, OSError, sqlite3.Error) as fault:
            why = Stopped(1, str(fault))
        except Exception as fault:  # it would leave callers without an answer
            why = Stopped(1, f"a fault of the gateway itself: {fault!r}")
            self.log.write("fault", trace=traceback.format_exc())
        self._is_stopping = True
        self.deliver([(job, str(STOPPED)) for job in jobs + self._held + self.queue.close()])  # the first one counts
        return self._end(why)

    def _end(self, why: Stopped) -> Stopped:
        """Ends the run and the archiving, and closes the book."""
        if self.keeper:
            self.keeper.stop()
        try:
            self.run.close()
        except End as end:
            self._ended(end)
            why = why if why.status else Stopped(end.status if is_hopeless(end) else 1, str(end))
        self.book.close()
        return why

    def turn(self, jobs: List[Job]) -> None:
        """Answers jobs, of different callers each. Raises `Stopped` where it can't go on: behind its answers."""
        answers: Answers = []
        sent: List[Sent] = []
        books = self._settle_rest()
        try:
            for job in jobs:
                try:
                    sent.append(self._prepared(job, books))
                except Refused as refused:
                    answers.append((job, self._refusal(job, refused)))
                except _Known as known:
                    answers.append((job, known.reply))
            sent = self._intended(sent, answers)
            try:
                self._carry_out(sent)
            finally:
                answers += self._settled(sent)
        finally:
            self.deliver(answers)

    # ---- the steps of a turn

    def _prepared(self, job: Job, books: bool) -> Sent:
        """A job as what is sent. Raises `_Known` where its key has a reply, and `Refused`."""
        line, client = job.line, job.caller.client
        self._check_caller(job)
        if line.is_query:
            return Sent(job, line.call)
        if not books:
            raise Refused("book", "the gateway can't write its book: nothing was passed on")
        kept = self.book.reply(client, line.key) if line.key else None
        if kept is not None:
            if kept.call != line.call:
                raise Refused("key", f"{line.key} was the key of: {kept.call}")
            self.counts.add("lines", caller=job.caller.name, what="again")
            raise _Known(kept.reply)
        return Sent(job, line.call, Order(client, self.book.slots[client].accepted + 1, line.key, line.call))

    def _check_caller(self, job: Job) -> None:
        """Raises `Refused` where the table gives a line to its caller no more: it may be another one than that by which
        the door judged, as behind a wait for a rotation, and the client may be somebody else's."""
        then, now = job.caller, self.table.callers.get(job.caller.name)
        if now is then or then.name == OWN:
            return
        if now is None or (now.client, now.user, now.is_relayed) != (then.client, then.user, then.is_relayed):
            raise Refused("caller", f"the table has changed: this connection is no more {then.name}'s")
        now.check(job.line)

    def _intended(self, sent: List[Sent], answers: Answers) -> List[Sent]:
        """Notes the commands in the book. Where that fails they are refused, and the queries are left."""
        orders = [one.order for one in sent if one.order]
        if not orders:
            return sent
        try:
            self.book.intend(orders)
            return sent
        except sqlite3.Error as fault:
            self.counts.add("book_faults")
            self.log.write("book", why=str(fault))
            refused = Refused("book", f"the gateway can't write its book ({fault}): nothing was passed on")
            answers += [(one.job, self._refusal(one.job, refused)) for one in sent if one.order and one.job]
            return [one for one in sent if not one.order]

    def _carry_out(self, sent: List[Sent]) -> None:
        """Has the run answer. Raises `Stopped` where it can't."""
        left = deque(sent)
        while left:
            try:
                for reply in self.run.exchange([one.line for one in left]):
                    one = left.popleft()
                    if one.order and reply.startswith(OUT_OF_TURN):
                        raise Stopped(1, f"liq says {reply} to {one.line}, so the book's numbers are not its own")
                    one.reply = reply
            except End as end:
                self._ended(end)
                first = left[0] if left else None
                if is_hopeless(end):
                    raise self._hopeless(end) from None
                self._begin_again(sent)
                if first and self._gives_up(first, end):
                    left.popleft()

    def _gives_up(self, one: Sent, end: End) -> bool:
        """Whether a line at which a run has ended is not sent again. One that was carried out always is: liq has kept
        its reply."""
        one.ends += 1
        if one.ends > ENDS_MOST:
            raise Stopped(1, f"liq ended {one.ends} times at {one.line!r}")
        if isinstance(end, BadLine):
            one.refused = Refused("bad_line", "liq takes it for no request")
        elif one.ends > 1 and not (one.order and self._numbers[one.order.client] > one.order.number):
            one.refused = Refused("run", "liq ended at it twice, and it was not carried out")
        return one.refused is not None

    def _settled(self, sent: List[Sent]) -> Answers:
        """Notes the replies in the book, and gives the answers. What has no reply stays noted as such."""
        settled = [Settled(one.order, self._kept(one)) for one in sent if one.order and (one.reply or one.refused)]
        is_booked = self._book_settled(settled)
        self._log_replies([one for one in sent if one.order and one.reply])
        answers: Answers = []
        full: List[Job] = []
        for one in sent:
            job = one.job
            if job is None:
                continue
            if one.order and self._waits_for_rotation(one) and is_booked:
                full.append(job)
            elif one.order and not is_booked:
                lost = Refused("book", "it was passed on, and its reply was not noted: send it again, with its key")
                answers.append((job, self._refusal(job, lost)))
            elif one.reply is not None:
                what = one.reply.partition(" ")[0] if one.order else "query"
                self.counts.add("lines", caller=job.caller.name, what=what)
                answers.append((job, one.reply))
            else:
                gone = one.refused or STOPPED
                answers.append((job, self._refusal(job, gone)))
        self._hold(full)
        return answers

    def _kept(self, one: Sent) -> Optional[str]:
        """The reply that a key is to get again."""
        return None if one.reply is None or self._waits_for_rotation(one) else one.reply

    def _waits_for_rotation(self, one: Sent) -> bool:
        return self.keeper is not None and one.reply is not None and one.reply.startswith(FULL)

    def _book_settled(self, settled: List[Settled]) -> bool:
        """Notes what became of commands. Where that fails it is tried again in front of the next ones."""
        if not settled:
            return True
        try:
            self.book.settle(settled)
            return True
        except sqlite3.Error as fault:
            self.counts.add("book_faults")
            self.log.write("book", why=str(fault))
            self._unsettled = settled
            return False

    def _settle_rest(self) -> bool:
        """Whether all that came back is noted."""
        rest, self._unsettled = self._unsettled, []
        return self._book_settled(rest)

    # ---- the run

    def _begun(self) -> None:
        self.counts.add("run_starts")
        self.log.write("run begun", pid=self.run.pid)

    def _ended(self, end: End) -> None:
        self.counts.add("run_ends", status=str(end.status))
        self.log.write("run ended", status=end.status, last=end.last, pending=end.pending)

    def _hopeless(self, end: End) -> Stopped:
        """The end of all, with the run's status, behind which nothing is begun by itself."""
        return Stopped(end.status, f"{end}: see docs/OPERATING.md, Statuses")

    def _begin_again(self, sent: List[Sent]) -> None:
        """Begins another run, and compares its journal with the book. Raises `Stopped`."""
        for count in range(1, STARTS_MOST + 1):
            try:
                self.run.start()
                self._check(sent)
                self._begun()
                return
            except (OSError, NoProgram) as fault:  # as for want of processes or of open files
                self.run.kill()
                self.log.write("run not begun", why=str(fault))
            except End as end:
                self._ended(end)
                if is_hopeless(end):
                    raise self._hopeless(end) from None
            time.sleep(SECONDS_BETWEEN_STARTS * count)
        raise Stopped(1, f"liq was begun {STARTS_MOST} times, and ended before it answered")

    def _check(self, sent: List[Sent], adopts: bool = False) -> None:
        """Compares the journal's next numbers with the book, and settles what is without a reply there. What is in
        hand, `sent`, may or may not be carried out, unless it was answered. Where the book can't be written what was
        found is noted in front of the next commands. Raises `Stopped`."""
        found: List[Settled] = []
        in_hand = {one.order.client: one for one in sent if one.order}
        slots = list(self.book.slots.values())
        replies = self.run.ask_many([f"? next_number {slot.client}" for slot in slots])
        for slot, words in zip(slots, replies):
            self._numbers[slot.client] = int(words[0])
            last = self._numbers[slot.client] - 1
            one = in_hand.get(slot.client)
            least = slot.accepted + (one is not None and one.reply is not None and one.reply.startswith("ok"))
            if not least <= last <= slot.accepted + (slot.pending is not None):
                if not adopts:
                    raise Stopped(1, _apart(slot, last))
                self.log.write("adopted", caller=slot.caller, client=slot.client, book=slot.accepted, journal=last)
                self.book.adopt(slot.client, last)
            elif slot.pending and one is None:
                reply = " ".join(self.run.ask(slot.pending.line)) if last > slot.accepted else None
                found.append(Settled(slot.pending, reply))
                about = {"caller": slot.caller, "key": slot.pending.key, "call": slot.pending.call, "reply": reply}
                self.log.write("found", client=slot.client, number=slot.pending.number, **about)
        self._book_settled(found)

    # ---- the table

    def _enroll(self, table: Table, adopts: bool = False) -> None:
        """Notes the clients of a table, and compares them with the journal. Raises `BadBook` or `Stopped`."""
        new = [Slot(client, name, 0) for client, name in table.clients.items() if client not in self.book.slots]
        replies = self.run.ask_many([f"? next_number {slot.client}" for slot in new])
        for slot, words in zip(new, replies):
            if words != ["1"] and not adopts:
                raise Stopped(1, _apart(slot, int(words[0]) - 1))
        self.book.enroll(table.clients)
        self.table = table

    def _change_tables(self) -> None:
        while self._tables:
            table, told = self._tables.popleft()
            try:
                self._enroll(table)
            except (BadBook, sqlite3.Error) as fault:
                told(str(fault))
            except Stopped as stopped:
                told(stopped.why)
            except End as end:
                self._ended(end)
                told(str(end))
                if is_hopeless(end):
                    raise self._hopeless(end) from None
                self._begin_again([])
            else:
                told(None)

    # ---- rotations

    def _hold(self, jobs: List[Job]) -> None:
        """Has commands wait for a rotation, and the archive begin in front of it."""
        if not jobs:
            return
        assert self.keeper
        if time.monotonic() < self._next_archive:
            refused = Refused("archive", "the journal is full, and was not archived: it is tried again in a minute")
            self.deliver([(job, self._refusal(job, refused)) for job in jobs])
            return
        if not self._held:
            self.log.write("journal full")
        self._held += jobs
        self.keeper.begin()

    def _look_at_archive(self) -> None:
        """Takes the outcome of an archiving that has ended; rotates where that is waited for."""
        if self.keeper is None:
            if self._wants_rotation:
                self.log.write("not rotated", why="there is no --archive")
                self._wants_rotation = False
            return
        if self._wants_rotation and not self.keeper.is_busy:
            self.keeper.begin()
        outcome = self.keeper.outcome()
        if outcome is None:
            return
        self.log.write("archived" if outcome.is_done else "not archived", said=outcome.said)
        self.counts.add("archives", what="done" if outcome.is_done else "failed")
        is_wanted, self._wants_rotation = self._wants_rotation or bool(self._held), False
        if outcome.is_done and is_wanted:
            why = self._rotated()
        else:
            why = None if outcome.is_done else outcome.said
        held, self._held = self._held, []
        if why is None:
            self.queue.put_back(held)
            return
        self._next_archive = time.monotonic() + SECONDS_BETWEEN_ARCHIVES
        refused = Refused("archive", f"the journal is full, and was not rotated: {why}")
        self.deliver([(job, self._refusal(job, refused)) for job in held])

    def _rotated(self) -> Optional[str]:
        """Sends the gateway's own `rotate`, and has the file that was left archived; or says why not."""
        assert self.keeper
        is_booked = self._settle_rest()
        client = self.table.client
        own = Sent(None, "", Order(client, self.book.slots[client].accepted + 1, None, "rotate"))
        sent = self._intended([own], []) if is_booked else []
        try:
            self._carry_out(sent)
        finally:
            self._settled(sent)
        self.log.write("rotated", reply=own.reply)
        if own.reply is None or not own.reply.startswith("ok"):
            return own.reply or (own.refused.reason if own.refused else "the gateway can't write its book")
        self.counts.add("rotations")
        self.keeper.begin()
        return None

    # ---- what is said

    def _refusal(self, job: Job, refused: Refused) -> str:
        """Counts and logs a refusal, and gives its text."""
        self.counts.add("lines", caller=job.caller.name, what=f"refused {refused.name}")
        self.log.refused(job.caller.name, refused.name, reason=refused.reason, key=job.line.key, call=job.line.call)
        return str(refused)

    def _log_replies(self, sent: List[Sent]) -> None:
        """A line of the log for each command that was answered."""
        events: List[Tuple[str, Mapping[str, Any]]] = []
        for one in sent:
            assert one.order
            client, number, key, call = one.order
            caller = self.book.slots[client].caller
            about = {"caller": caller, "client": client, "number": number, "key": key, "call": call, "reply": one.reply}
            events.append(("command", about))
        if events:
            self.log.write_all([(event, dict(about)) for event, about in events])


class _Known(LiqError):
    """A key has a reply already."""

    def __init__(self, reply: str) -> None:
        super().__init__(reply)
        self.reply = reply


def _apart(slot: Slot, last: int) -> str:
    """What is said where journal and book are apart."""
    which = "behind" if last < slot.accepted else "ahead of"
    return (
        f"the market is {which} the book: of {slot.caller} it has accepted {last} commands under client {slot.client},"
        f" and the book {slot.accepted}. Was a copy of one of the two brought back, or were lines sent beside the"
        " gateway? See docs/GATEWAY.md; --adopt goes on from the market"
    )
