"""Many markets: a run of yours for each seed, in as many processes as there are processors, and its rows collected.

    def run(market, seed):
        chance, client = random.Random(seed), market.client(1)
        ...
        yield {"hour": hour, "troves": market.system().troves}

    if __name__ == "__main__":
        runs = simulate(run, range(1000))
        runs.csv("runs.csv")
        print(runs.frame().groupby("hour").troves.mean())

The same seeds give the same rows, in the order of the seeds, whatever the processes are: as long as a run draws from a
generator of its own that begins with the seed, and from nothing else.
"""
import contextlib
import itertools
import multiprocessing
import os
import pickle
import signal
import sys
import threading
import time
import traceback
import warnings
from collections import deque
from concurrent.futures import Future, ProcessPoolExecutor
from concurrent.futures.process import BrokenProcessPool
from pathlib import Path
from types import FrameType
from typing import Any, Callable, ContextManager, Deque, Dict, Iterable, Iterator, List, NamedTuple, Optional, Sequence
from typing import TextIO, Tuple, Union

from .ends import Folder
from .errors import BadValue, LiqError, NotReady
from .frames import frame, table, write_csv
from .memory import LIBRARY, UNPROVED, Market
from .progress import Bar
from .scratch import passing_folder
from .service import Service
from .units import Whole, counted, whole

Run = Callable[[Any, Any], Any]  # of a market and a seed
Begin = Union[Market, Callable[[], ContextManager[Any]]]
AHEAD = 16  # runs for each process that are handed out before the first of them is done
SECONDS_TO_STOP = 5.0
STOPPED = 143  # the status of a process that was stopped, as a shell tells it
ROOM = 2**25  # bytes of a run's files for which there should be room in memory, many times over


class Failed(NamedTuple):
    """A run that came to no end: its seed, the exception as text, and where it was raised."""

    seed: Any
    error: str
    trace: str


class RunsFailed(LiqError, UserWarning):
    """The warning that runs came to no end; the rows of the others are there."""


class RunFailed(LiqError, RuntimeError):
    """A run came to no end: the text has its seed and where that was."""


class Runs:
    """The rows of all runs, as dictionaries with the seed first, in the order of the seeds; and the runs that
    failed, of which no rows are there."""

    def __init__(self) -> None:
        self.rows: List[Dict[str, Any]] = []
        self.failed: List[Failed] = []

    def frame(self) -> Any:
        """The rows as a frame of pandas (`liq.frames`)."""
        return frame(self.rows)

    def csv(self, to: Union[str, Path, TextIO]) -> None:
        """Writes the rows as CSV, into a file of that name or an open one."""
        write_csv(self.rows, to)

    def check(self) -> "Runs":
        """The same runs. Raises `RunFailed` with the seed and the place of the first that failed, if any did."""
        if self.failed:
            seed, _, trace = self.failed[0]
            raise RunFailed(f"{self.summary}\n\nof seed {seed!r}:\n{trace}")
        return self

    @property
    def summary(self) -> str:
        """Which runs failed, in a line."""
        seeds = ", ".join(repr(failed.seed) for failed in self.failed[:5]) + (", .." if len(self.failed) > 5 else "")
        first = f": {self.failed[0].error}" if self.failed else ""
        return f"{counted(len(self.failed), 'run')} failed, of seed {seeds}{first}"


def simulate(
    run: Run, seeds: Iterable[Any], processes: Optional[Whole] = None, begin: Begin = Market
) -> Runs:
    """Calls `run(market, seed)` for each seed, and collects the rows that it gives or yields: named tuples, dataclasses
    or mappings, one or several, or none.

    Each run has a market of its own, which is gone behind it. `begin` says how it begins: with a `Market`, as a fork of
    that one; else by a call that gives a context manager: `Market` itself, or `service_in_memory` for a run of the
    program. `processes` are as many as there are processors, where nothing is said; with 1 all is done in this process.

    With several `run` has to be a function of a module or of the script, and the script's own call of `simulate` has to
    stand under `if __name__ == "__main__":`, for each process reads the script anew.

    A run that raises an exception, or whose process ends, costs no other its rows: it is among `failed`, and a warning
    (`RunsFailed`) names its seed. A bar at the terminal shows how far it is, where it takes some seconds. An interrupt
    ends all runs.
    """
    wanted = [whole(seed) if _is_number(seed) else seed for seed in seeds]
    count = min(_processors() if processes is None else whole(processes), max(1, len(wanted)))
    if count < 1:
        raise BadValue(f"{processes} processes are none")
    begun = begin.fork if isinstance(begin, Market) else begin
    runs = Runs()
    with Bar() as bar:
        bar.begin("of the runs", len(wanted))
        for outcome in _each(run, wanted, count, begin, begun):
            bar.add()
            if isinstance(outcome, Failed):
                runs.failed.append(outcome)
            else:
                runs.rows += outcome
    if runs.failed:
        warnings.warn(runs.summary, RunsFailed, stacklevel=2)
    return runs


@contextlib.contextmanager
def service_in_memory(program: Optional[Folder] = None) -> Iterator[Service]:
    """A run of the program over a new market, in a folder in memory where there is one, and else where temporary files
    go. The folder is gone behind it."""
    with passing_folder("liq-run", ROOM) as folder, Service(folder, program, create=True) as service:
        yield service


# ---- a run

Outcome = Union[List[Dict[str, Any]], Failed]


def _each(
    run: Run, seeds: Sequence[Any], count: int, begin: Begin, begun: Callable[[], ContextManager[Any]]
) -> Iterator[Outcome]:
    """The outcomes of all runs, in their order."""
    if count == 1:
        return (_outcome(run, seed, begun) for seed in seeds)
    _check_reachable(run)
    with begun():
        pass  # where no market can be begun, that is told at once and by this process
    return _pooled(run, seeds, count, _picklable(begin))


def _outcome(run: Run, seed: Any, begun: Callable[[], ContextManager[Any]]) -> Outcome:
    """What comes of one run."""
    try:
        with begun() as market:
            given = run(market, seed)
            rows = [] if given is None else table(given)[1]
        return [_seeded(seed, row) for row in rows]
    except (Exception, SystemExit) as fault:
        return _failed(seed, fault)


def _seeded(seed: Any, row: Dict[str, Any]) -> Dict[str, Any]:
    """A row with its seed in front."""
    if row.get("seed", seed) != seed:
        raise BadValue(f"a row has a seed of its own: {row['seed']!r}")
    return {"seed": seed, **row}


def _failed(seed: Any, fault: BaseException) -> Failed:
    return Failed(seed, f"{type(fault).__name__}: {fault}", "".join(
        traceback.format_exception(type(fault), fault, fault.__traceback__)))


def _is_number(seed: Any) -> bool:
    """Whether a seed is a whole number of numpy or the like, which counts as one of Python."""
    return hasattr(seed, "__index__") and not isinstance(seed, int) and getattr(seed, "shape", ()) == ()


def _processors() -> int:
    """How many processors this process may use."""
    return len(os.sched_getaffinity(0)) if hasattr(os, "sched_getaffinity") else os.cpu_count() or 1


# ---- processes


class Saved(NamedTuple):
    """A market with which runs begin in other processes."""

    saved: bytes
    library: Optional[str]
    rotating: Optional[int]
    engine: str

    def forks(self) -> Callable[[], Market]:
        """A call that gives a fork of it; it is loaded once."""
        return Market.load(self.saved, self.library, self.rotating, self.engine).fork


_begun: Optional[Callable[[], ContextManager[Any]]] = None
_in_run = False


def _set_up(begin: Any) -> None:
    """What a process does first. An interrupt at the terminal comes to all: it is for the one that has begun this."""
    global _begun
    signal.signal(signal.SIGINT, signal.SIG_IGN)
    warnings.filterwarnings("ignore", UNPROVED)  # who has begun this is told
    signal.signal(signal.SIGTERM, _stop_here)
    threading.Thread(target=_end_with_parent, daemon=True).start()
    _begun = begin.forks() if isinstance(begin, Saved) else begin


def _end_with_parent() -> None:
    """Stops this process where the one ends that has begun it: nobody would, and it would wait for ever."""
    parent = multiprocessing.parent_process()
    if parent is not None:
        parent.join()
        os.kill(os.getpid(), signal.SIGTERM)


def _outcome_there(run: Run, seed: Any) -> Outcome:
    """What comes of one run, in one of the processes."""
    global _in_run
    assert _begun is not None
    _in_run = True
    try:
        return _outcome(run, seed, _begun)
    except KeyboardInterrupt:  # the process is stopped: what the run had is gone, as a folder in memory
        os._exit(STOPPED)
    finally:
        _in_run = False


def _stop_here(number: int, frame: Optional[FrameType]) -> None:
    """Ends a process that is stopped, behind what its run has to clear away."""
    if _in_run:
        signal.default_int_handler(number, frame)
    os._exit(STOPPED)


def _picklable(begin: Begin) -> Any:
    """How runs begin, as it goes to other processes."""
    if isinstance(begin, Market):
        library = str(begin.library) if begin.engine == LIBRARY else None
        return Saved(begin.save(), library, begin.rotating, begin.engine)
    return begin


def _check_reachable(run: Run) -> None:
    """Raises the error of a function that other processes can't find."""
    if getattr(multiprocessing.current_process(), "_inheriting", False):
        raise NotReady(
            "simulate() was called while a script was read anew: put if __name__ == \"__main__\": around it")
    main = sys.modules.get("__main__")
    if getattr(run, "__module__", "") == "__main__" and not hasattr(main, "__file__"):
        raise BadValue("other processes can't read what was typed in: put the run into a file, or say processes=1")
    try:
        pickle.dumps(run)
    except Exception as fault:
        raise BadValue(
            f"other processes can't find the run, say processes=1 or define it in a module: {fault}") from None


def _pooled(run: Run, seeds: Sequence[Any], count: int, begin: Any) -> Iterator[Outcome]:
    """The outcomes in the order of the seeds, by so many processes. Where one of these ends, all of its pool are lost:
    then those that may have ended it are run one by one, each in a process of its own, and the others anew."""
    done: Dict[int, Outcome] = {}
    given = 0
    while given < len(seeds):
        handed: Deque[Tuple[int, "Future[Outcome]"]] = deque()
        suspects: List[int] = []
        rest = iter([index for index in range(given, len(seeds)) if index not in done])
        with _pool(count, begin) as pool:
            try:
                for index in itertools.islice(rest, AHEAD * count):
                    handed.append((index, pool.submit(_outcome_there, run, seeds[index])))
                while handed:
                    index, future = handed[0]
                    done[index] = _result(future, seeds[index])
                    handed.popleft()
                    for index in itertools.islice(rest, 1):
                        handed.append((index, pool.submit(_outcome_there, run, seeds[index])))
                    while given in done:
                        yield done.pop(given)
                        given += 1
            except BrokenProcessPool:
                done.update({at: it.result() for at, it in handed if it.done() and it.exception() is None})
                suspects = [at for at, _ in handed if at not in done][:count]
            except BaseException:
                _stop(pool)
                raise
        if suspects and not done and given == 0:
            _probe(begin)
        done.update({at: _alone(run, seeds[at], begin) for at in suspects})
        while given in done:
            yield done.pop(given)
            given += 1


def _pool(count: int, begin: Any) -> ProcessPoolExecutor:
    """So many processes, each begun anew."""
    return ProcessPoolExecutor(count, multiprocessing.get_context("spawn"), _set_up, (begin,))


def _stop(pool: ProcessPoolExecutor) -> None:
    """Ends the processes of a pool, whatever they do."""
    processes = list((getattr(pool, "_processes", None) or {}).values())
    pool.shutdown(wait=False, cancel_futures=True)
    for process in processes:
        process.terminate()
    until = time.monotonic() + SECONDS_TO_STOP
    for process in processes:
        process.join(max(0.0, until - time.monotonic()))
        if process.is_alive():
            process.kill()


def _result(future: "Future[Outcome]", seed: Any) -> Outcome:
    """What a process gave of a run. Raises BrokenProcessPool."""
    try:
        return future.result()
    except BrokenProcessPool:
        raise
    except Exception as fault:  # rows that can't be sent, for one
        return _failed(seed, fault)


def _alone(run: Run, seed: Any, begin: Any) -> Outcome:
    """The outcome of a run that may end its process."""
    with _pool(1, begin) as pool:
        try:
            return _result(pool.submit(_outcome_there, run, seed), seed)
        except BrokenProcessPool:
            return Failed(seed, "its process ended", "its process ended\n")
        except BaseException:
            _stop(pool)
            raise


def _probe(begin: Any) -> None:
    """Raises a RuntimeError where processes end before they do anything."""
    with _pool(1, begin) as pool:
        try:
            pool.submit(_processors).result()
        except BrokenProcessPool:
            raise NotReady(
                "no process can be begun (see above): a script that calls simulate() does so under "
                "if __name__ == \"__main__\":, for each process reads it anew") from None
