"""Every exception of the package is a `LiqError`, and goes to another process and back, as a pool of processes sends
it."""
import ast
import builtins
import copy
import importlib
import multiprocessing
import pickle
import pkgutil
import unittest
from pathlib import Path
from typing import Iterator, Type

import liq
from liq import refusals
from liq.across import NoLine
from liq.archive import Differing, NotArchived
from liq.batch import BatchStopped
from liq.ends import End, MarketExists, NoJournal, TooMuch
from liq.adopt import NotAdopted
from liq.errors import LiqError, TimedOut
from liq.gateway.book import BadBook
from liq.gateway.desk import Stopped
from liq.gateway.lines import Refused
from liq.gateway.sockets import BadSocket
from liq.guard import Parted
from liq.journal import DamagedFile, NoRegularFile
from liq.model.streams import BadInput, Halt
from liq.own import NotOwn
from liq.refusals import Refusal, read_refusal
from liq.statement import NotStated

MADE = {  # by what an exception is made where that is not a message alone
    NoJournal: (Path("a"),), MarketExists: ("a",), NoRegularFile: (Path("a/left.liq"),),
    DamagedFile: (Path("a/left.liq"), 3, "its digest is another"), TooMuch: ("a/left.liq has", 5, "bytes"),
    Parted: (1, 2), Differing: (Path("a/1-0.liq"), Path("b/left.liq"), 1, True),
    NotArchived: (Path("a"), "generation 2 is missing"), NoLine: ("staking", 3), NotOwn: ("a/book", "it is a link"),
    BatchStopped: (3, 8, (1, 2)), TimedOut: (2.5, "1 1 fund 1 5"),
    BadBook: ("a/book", "it is none"), Stopped: (5, "disk fault"), Refused: ("verb", "it is none of yours"),
    BadSocket: ("a/callers", "it is heard"),
    NotAdopted: ("a", "it is in generation 2"), Halt: (5, "disk fault"), BadInput: (3, b"x"),
    NotStated: ("left.liq is damaged at 3: its digest is another", ("nothing stands before that",)),
}


NOT_OURS = {  # raised by the package, and of Python alone: what a method without a body, an attribute or a signal is
    "NotImplementedError", "AttributeError", "SystemExit",
}


def modules() -> Iterator[str]:
    """The modules of the package. What runs a command where it is imported has `__main__` for its name."""
    for module in pkgutil.walk_packages(liq.__path__, "liq."):
        if not module.name.endswith("__main__"):
            yield module.name


def classes() -> Iterator[Type[BaseException]]:
    """The exceptions that the modules of the package define."""
    for module in modules():
        for name, each in sorted(vars(importlib.import_module(module)).items()):
            is_raised = isinstance(each, type) and issubclass(each, BaseException) and not issubclass(each, Warning)
            if is_raised and each.__module__ == module:
                yield each


class OneBase(unittest.TestCase):
    """Who catches `LiqError` catches all that the package raises of its own."""

    def test_each_class_derives_from_it(self) -> None:
        for kind in classes():
            self.assertTrue(issubclass(kind, LiqError), kind)

    def test_no_module_raises_a_class_of_python(self) -> None:
        package = Path(liq.__file__).parent
        for path in sorted(package.rglob("*.py")):
            for node in ast.walk(ast.parse(path.read_text())):
                raised = node.exc.func if isinstance(node, ast.Raise) and isinstance(node.exc, ast.Call) else None
                if isinstance(node, ast.Raise) and isinstance(node.exc, ast.Name):
                    raised = node.exc
                if isinstance(raised, ast.Name) and hasattr(builtins, raised.id) and raised.id not in NOT_OURS:
                    self.fail(f"{path.relative_to(package)}:{node.lineno} raises {raised.id}")


def sample(kind: Type[BaseException]) -> BaseException:
    """An exception of a kind. A bare refusal is that of a code which only a later program has."""
    if kind is Refusal:
        return read_refusal(["no", "99", "1"])
    if issubclass(kind, End):
        return kind(5, "disk fault", "1 1 fund 1 5")
    if issubclass(kind, Refusal):
        return kind(*range(7, 7 + len(kind.fields)))
    return kind(*MADE.get(kind, ("it differs",)))


def fail(kind: Type[BaseException]) -> None:
    raise sample(kind)


class Sent(unittest.TestCase):
    def check_same(self, there: BaseException, here: BaseException) -> None:
        self.assertIs(type(there), type(here))
        self.assertEqual((str(there), there.args, vars(there)), (str(here), here.args, vars(here)))

    def test_each_class_is_copied_whole(self) -> None:
        found = list(classes())
        self.assertGreater(len(found), 50)
        self.assertLessEqual(set(MADE), set(found))
        for kind in found:
            with self.subTest(kind=kind.__name__):
                made = sample(kind)
                for protocol in range(pickle.HIGHEST_PROTOCOL + 1):
                    self.check_same(pickle.loads(pickle.dumps(made, protocol)), made)
                self.check_same(copy.copy(made), made)
                self.check_same(copy.deepcopy(made), made)

    def test_a_pool_of_processes(self) -> None:
        """Where an exception can't be made again the pool waits for ever."""
        with multiprocessing.Pool(2) as pool:
            for kind in (DamagedFile, NoJournal, TooMuch, End, refusals.NotLiquidatable, refusals.NoChange):
                with self.assertRaises(kind) as raised:
                    pool.apply_async(fail, (kind,)).get(timeout=30)
                self.assertEqual(str(raised.exception), str(sample(kind)))
