"""Many markets: rows of many runs, runs that fail, processes that end; the same rows whatever the processes are."""
import contextlib
import dataclasses
import importlib.util
import io
import os
import random
import signal
import subprocess
import sys
import unittest
from pathlib import Path
from typing import Any, Dict, Iterator, List, NamedTuple
from unittest import mock

from liq import Market, Refusal, ether, lusd, progress
from liq.model import Market as Model
from liq.model import answer
from liq.service import MEMORY
from liq.simulate import RunsFailed, service_in_memory, simulate

from .market import LIBRARY, TOP, InFolder, OverLibrary, OverProgram, OverStandIn

HAS_PANDAS = importlib.util.find_spec("pandas") is not None


class Counted(NamedTuple):
    """A row."""

    step: int
    coll: int


@dataclasses.dataclass
class Told:
    """A row."""

    step: int
    draw: float


def model() -> Any:
    """A market that wants neither program nor library."""
    return contextlib.nullcontext(Model())


def model_run(market: Model, seed: int) -> Iterator[Counted]:
    """A run over the model."""
    chance = random.Random(seed)
    for step in range(3):
        answer(market, f"1 {step + 1} fund {seed} {chance.randrange(1, 10**6)}")
        yield Counted(step, market.wallet(seed)[0])


def failing_run(market: Model, seed: int) -> List[Counted]:
    """A run that fails for some seeds."""
    if seed % 4 == 3:
        raise ValueError(f"no {seed}")
    return list(model_run(market, seed))


def ending_run(market: Model, seed: int) -> List[Counted]:
    """A run that ends its process for some seeds."""
    if seed == 5:
        os._exit(3)
    return list(model_run(market, seed))


def unsendable_run(market: Model, seed: int) -> Dict[str, Any]:
    """A run whose row can't go to another process."""
    return {"call": (lambda: 5) if seed == 1 else 5}


def path(market: Any, seed: int) -> Iterator[Dict[str, Any]]:
    """A path of a price over a market that has troves, or begins some."""
    client, chance = market.client(1), random.Random(seed)
    if market.system().troves == 0:
        for account in range(10):
            client.fund(account, ether(20))
            client.open(account, ether(20), lusd(4000 + 300 * account))
    price = 1000.0
    for hour in range(5):
        price *= chance.gauss(0.93, 0.1)
        client.price(lusd(f"{price:.6f}"))
        client.advance(60)
        with contextlib.suppress(Refusal):
            client.liquidate_lowest(99, 64)
        yield {"hour": hour, "price": price, **market.system()._asdict(), "price": market.system().price}


class Rows(unittest.TestCase):
    """Rows of runs in this process."""

    def test_rows_of_each_kind(self) -> None:
        given: Dict[int, Any] = {
            0: None, 1: Counted(1, 2), 2: {"step": 3, "note": "x"}, 3: Told(4, 0.5),
            4: [Counted(5, 6), None, Told(7, 1.5)], 5: iter([{"other": 8}]), 6: [],
        }
        runs = simulate(lambda market, seed: given[seed], range(7), processes=1, begin=model)
        self.assertEqual(runs.rows, [
            {"seed": 1, "step": 1, "coll": 2}, {"seed": 2, "step": 3, "note": "x"}, {"seed": 3, "step": 4, "draw": 0.5},
            {"seed": 4, "step": 5, "coll": 6}, {"seed": 4, "step": 7, "draw": 1.5}, {"seed": 5, "other": 8}])
        told = io.StringIO()
        runs.csv(told)
        self.assertEqual(told.getvalue().splitlines()[:3], ["seed,step,coll,note,draw,other", "1,1,2,,,", "2,3,,x,,"])
        self.assertIs(runs.check(), runs)

    def test_each_run_has_a_market_of_its_own(self) -> None:
        runs = simulate(model_run, [7, 7, 8], processes=1, begin=model)
        self.assertEqual(runs.rows[:3], runs.rows[3:6])
        self.assertEqual([row["seed"] for row in runs.rows], [7] * 6 + [8] * 3)
        self.assertEqual(simulate(model_run, [], begin=model).rows, [])

    def test_what_is_no_row(self) -> None:
        for given in (5, "text", [1], {"seed": 9}):
            with self.assertWarns(RunsFailed):
                runs = simulate(lambda market, seed: given, [1], processes=1, begin=model)
            self.assertEqual((runs.rows, runs.failed[0].seed), ([], 1))
        runs = simulate(lambda market, seed: {"a": 1, "seed": seed}, ["x"], processes=1, begin=model)
        self.assertEqual(runs.rows, [{"seed": "x", "a": 1}])

    def test_a_run_that_fails(self) -> None:
        with self.assertWarns(RunsFailed) as warned:
            runs = simulate(failing_run, range(9), processes=1, begin=model)
        self.assertEqual(str(warned.warning), "2 runs failed, of seed 3, 7: ValueError: no 3")
        self.assertEqual([row["seed"] for row in runs.rows if row["step"] == 0], [0, 1, 2, 4, 5, 6, 8])
        self.assertEqual([failed[:2] for failed in runs.failed], [(3, "ValueError: no 3"), (7, "ValueError: no 7")])
        with self.assertRaises(RuntimeError) as raised:
            runs.check()
        self.assertIn("in failing_run", str(raised.exception))
        self.assertIn("of seed 3:", str(raised.exception))

    def test_what_stops_all(self) -> None:
        def stopped(market: Any, seed: int) -> None:
            raise KeyboardInterrupt

        self.assertRaises(KeyboardInterrupt, simulate, stopped, range(3), 1, model)
        for wrong in (0, -1):
            self.assertRaises(ValueError, simulate, model_run, range(3), wrong, model)
        self.assertRaises(TypeError, simulate, model_run, range(3), 1.5, model)


class Shown(unittest.TestCase):
    """The bar that tells how far it is."""

    def test_each_run_is_counted(self) -> None:
        for count in (1, 2):
            with mock.patch.object(progress.Bar, "begin") as begun, mock.patch.object(progress.Bar, "add") as added:
                simulate(model_run, range(3), processes=count, begin=model)
            self.assertEqual((begun.call_args.args, added.call_count), (("of the runs", 3), 3))

    def test_it_is_shown_at_a_terminal_alone(self) -> None:
        with mock.patch.object(progress, "QUIET_SECONDS", 0), mock.patch.object(progress, "BETWEEN_SECONDS", 0):
            for is_terminal in (False, True):
                shown = io.StringIO()
                shown.isatty = lambda: is_terminal  # type: ignore[method-assign]
                with mock.patch.object(sys, "stderr", shown):
                    simulate(model_run, range(4), processes=1, begin=model)
                self.assertEqual("50% of the runs" in shown.getvalue(), is_terminal)
                self.assertEqual(bool(shown.getvalue()), is_terminal)


class Processes(unittest.TestCase):
    """Runs of several processes."""

    def test_the_same_rows_whatever_the_processes(self) -> None:
        seeds = [*range(40), 7]
        one, three = (simulate(model_run, seeds, processes=count, begin=model).rows for count in (1, 3))
        self.assertEqual((len(one), three), (123, one))

    def test_a_run_that_fails_there(self) -> None:
        with self.assertWarns(RunsFailed):
            here = simulate(failing_run, range(9), processes=1, begin=model)
        with self.assertWarns(RunsFailed):
            there = simulate(failing_run, range(9), processes=2, begin=model)
        self.assertEqual((there.rows, [it[:2] for it in there.failed]), (here.rows, [it[:2] for it in here.failed]))
        self.assertIn("in failing_run", there.failed[0].trace)

    def test_a_process_that_ends(self) -> None:
        """It costs its own run, and no other."""
        with self.assertWarns(RunsFailed):
            runs = simulate(ending_run, range(9), processes=2, begin=model)
        self.assertEqual([failed[:2] for failed in runs.failed], [(5, "its process ended")])
        self.assertEqual(runs.rows, simulate(model_run, [it for it in range(9) if it != 5], 1, model).rows)

    def test_rows_that_cannot_be_sent(self) -> None:
        with self.assertWarns(RunsFailed):
            runs = simulate(unsendable_run, range(3), processes=2, begin=model)
        self.assertEqual((runs.rows, runs.failed[0].seed), ([{"seed": 0, "call": 5}, {"seed": 2, "call": 5}], 1))

    def test_a_run_that_others_cannot_find(self) -> None:
        with self.assertRaises(ValueError) as refused:
            simulate(lambda market, seed: None, range(3), processes=2, begin=model)
        self.assertIn("processes=1", str(refused.exception))


class Scripts(InFolder):
    """Scripts that call it."""

    def run_script(self, text: str, **how: Any) -> "subprocess.CompletedProcess[str]":
        path = self.folder / "script.py"
        path.write_text(f"import sys; sys.path[:0] = [{str(TOP / 'clients/python')!r}]\n{text}")
        return subprocess.run([sys.executable, path], capture_output=True, text=True, timeout=120, **how)

    def test_rows_of_a_class_of_the_script(self) -> None:
        told = self.run_script("""
import contextlib, dataclasses
from liq.simulate import simulate

@dataclasses.dataclass
class Row:
    square: int

def run(market, seed):
    yield Row(seed * seed)

if __name__ == "__main__":
    runs = simulate(run, range(4), processes=2, begin=contextlib.nullcontext)
    runs.csv(sys.stdout)
""")
        self.assertEqual((told.stdout, told.stderr), ("seed,square\n0,0\n1,1\n2,4\n3,9\n", ""))

    def test_a_script_without_the_guard(self) -> None:
        told = self.run_script("""
import contextlib
from liq.simulate import simulate

def run(market, seed):
    return None

simulate(run, range(40), processes=2, begin=contextlib.nullcontext)
""")
        self.assertEqual(told.returncode, 1)
        self.assertIn("simulate() was called while a script was read anew", told.stderr)
        self.assertTrue(told.stderr.rstrip().endswith("each process reads it anew"), told.stderr)

    def test_what_was_typed_in(self) -> None:
        told = subprocess.run([sys.executable, "-c", """
import contextlib
from liq.simulate import simulate
def run(market, seed):
    return {"a": seed}
print(simulate(run, range(2), processes=1, begin=contextlib.nullcontext).rows)
simulate(run, range(2), processes=2, begin=contextlib.nullcontext)
"""], capture_output=True, text=True, cwd=TOP / "clients/python", timeout=120)
        self.assertEqual(told.stdout, "[{'seed': 0, 'a': 0}, {'seed': 1, 'a': 1}]\n")
        self.assertIn("BadValue: other processes can't read what was typed in", told.stderr)

    def check_stopped(self, number: int, to_all: bool) -> None:
        """A signal in the midst of runs ends all processes, and what runs made is gone."""
        self.bounded(90)
        path = self.folder / "script.py"
        path.write_text(f"""
import contextlib, os, sys, time
sys.path[:0] = [{str(TOP / 'clients/python')!r}]
from liq.scratch import passing_folder
from liq.simulate import simulate

def begin():
    return passing_folder("liq-stopped-{os.getpid()}", 0)

def run(folder, seed):
    print(folder, flush=True)
    time.sleep(60)

if __name__ == "__main__":
    simulate(run, range(20), processes=2, begin=begin)
""")
        pipe = subprocess.PIPE
        streams = {"stdout": pipe, "stderr": pipe, "text": True}
        with subprocess.Popen([sys.executable, path], start_new_session=True, **streams) as told:
            assert told.stdout
            begun = [told.stdout.readline().strip() for _ in range(2)]
            (os.killpg if to_all else os.kill)(told.pid, number)
            told.communicate()  # comes to its end once no process holds the pipes
        self.assertEqual(told.returncode, -number)
        self.assertEqual([Path(folder).exists() for folder in begun], [False, False])

    def test_an_interrupt(self) -> None:
        self.check_stopped(signal.SIGINT, to_all=True)

    def test_a_kill(self) -> None:
        self.check_stopped(signal.SIGKILL, to_all=False)

    def test_without_a_library(self) -> None:
        """That is told at once, and not once for each seed."""
        told = self.run_script("""
from liq.simulate import simulate
def run(market, seed):
    pass
if __name__ == "__main__":
    simulate(run, range(4), processes=2)
""", env={**os.environ, "LIQ_LIBRARY": "/nowhere"})
        self.assertIn("there is no library at /nowhere", told.stderr.splitlines()[-1])


@unittest.skipUnless(HAS_PANDAS, "there is no pandas")
class Frames(unittest.TestCase):
    """Rows as frames."""

    def test_numbers_stay_whole(self) -> None:
        import numpy

        runs = simulate(lambda market, seed: {"number": 2**60 + seed}, numpy.arange(3), processes=1, begin=model)
        made = runs.frame()
        self.assertEqual((list(made), made.number.tolist()), (["seed", "number"], [2**60 + seed for seed in range(3)]))
        self.assertEqual({type(row["seed"]) for row in runs.rows}, {int})


class Forks(OverStandIn):
    """Runs that begin with a market, over what stands in for the library."""

    def test_each_run_has_a_fork(self) -> None:
        market = self.begin()
        self.assertEqual(sum(1 for _ in path(market, 1)), 5)
        before = market.save()
        runs = simulate(path, [1, 2, 1], processes=1, begin=market)
        self.assertEqual(runs.rows[:5], runs.rows[10:])
        self.assertNotEqual(runs.rows[:5], runs.rows[5:10])
        self.assertEqual((market.save(), len(self.library.markets)), (before, 1))
        simulate(path, [1, 2], processes=1)
        self.assertEqual(len(self.library.markets), 1)


class InMemory(OverLibrary):
    """Markets in memory."""

    def test_forks_in_several_processes(self) -> None:
        market = self.begin()
        list(path(market, 1))
        for begin in (market, Market):
            one, two = (simulate(path, range(6), processes=count, begin=begin).rows for count in (1, 2))
            self.assertEqual((len(one), two), (30, one))


class OverRuns(OverProgram):
    """Runs of the program, in memory."""

    def test_services(self) -> None:
        before = set(MEMORY.iterdir()) if MEMORY.is_dir() else set()
        one, two = (simulate(path, range(4), processes=count, begin=service_in_memory).rows for count in (1, 2))
        self.assertEqual((len(one), two), (20, one))
        if LIBRARY is not None:
            self.assertEqual(simulate(path, range(4), processes=1).rows, one)
        if MEMORY.is_dir():
            self.assertEqual({it for it in set(MEMORY.iterdir()) - before if it.name.startswith("liq-run")}, set())

    def test_a_service_is_gone_behind_its_use(self) -> None:
        with self.assertRaises(ZeroDivisionError), service_in_memory() as service:
            folder = service.folder
            self.assertEqual(folder.parent, MEMORY if MEMORY.is_dir() else folder.parent)
            service.client(1).fund(1, 5)
            raise ZeroDivisionError
        self.assertFalse(folder.exists())
