"""Lines that wait for the desk, by caller, and lines on their way through it."""
import threading
from collections import OrderedDict, deque
from typing import Any, Deque, List, Optional, Tuple

from .book import Order
from .lines import Line, Refused
from .table import Caller

LINES_OF_TURN = 256


class Job:
    """A line of a caller, to be answered once. `waits` is for who delivers the answer."""

    def __init__(self, caller: Caller, line: Line, waits: Any = None) -> None:
        self.caller, self.line, self.waits = caller, line, waits


class Sent:
    """A line that goes to the run, with its order where it is a command, and what comes back. `ends` counts the runs
    that have ended at it."""

    def __init__(self, job: Optional[Job], call: str, order: Optional[Order] = None) -> None:
        self.job, self.order = job, order
        self.line = order.line if order else call
        self.reply: Optional[str] = None
        self.refused: Optional[Refused] = None
        self.ends = 0


class Queue:
    """Jobs that wait, by caller: a turn takes the first one of each."""

    def __init__(self) -> None:
        self._jobs: "OrderedDict[str, Deque[Job]]" = OrderedDict()
        self._is_closed = self._is_woken = False
        self._changed = threading.Condition()

    def put(self, job: Job) -> bool:
        """Has a job wait; False where nothing is taken any more."""
        with self._changed:
            if self._is_closed:
                return False
            self._jobs.setdefault(job.caller.name, deque()).append(job)
            self._changed.notify()
            return True

    def put_back(self, jobs: List[Job]) -> None:
        """Puts jobs in front of those of the same caller."""
        with self._changed:
            for job in reversed(jobs):
                self._jobs.setdefault(job.caller.name, deque()).appendleft(job)
                self._jobs.move_to_end(job.caller.name, last=False)
            self._changed.notify()

    def wake(self) -> None:
        """Has the next `take`, or the one that waits, come back at once."""
        with self._changed:
            self._is_woken = True
            self._changed.notify()

    def take(self, seconds: float, most: int = LINES_OF_TURN) -> List[Job]:
        """One job of each caller, those first that have waited through a turn; none where none comes in time or
        somebody wakes it."""
        with self._changed:
            if not self._jobs and not self._is_woken:
                self._changed.wait(seconds)
            self._is_woken = False
            taken: List[Job] = []
            for name in list(self._jobs)[:most]:
                waiting = self._jobs[name]
                taken.append(waiting.popleft())
                if waiting:
                    self._jobs.move_to_end(name)
                else:
                    del self._jobs[name]
            return taken

    def close(self) -> List[Job]:
        """All that wait, when nothing is taken any more."""
        with self._changed:
            self._is_closed = True
            jobs = [job for waiting in self._jobs.values() for job in waiting]
            self._jobs.clear()
            return jobs


Answers = List[Tuple[Job, str]]
