"""A market in this process: over the built library, and over what stands in for it where none is built."""
import copy
import gc
import multiprocessing
import os
import pickle
import re
import threading
import warnings
from typing import List
from unittest import mock

from liq import BadSave, BatchStopped, Busy, Market, NotBuilt
from liq.memory import UNPROVED
from liq.model.engine import UnprovedWarning, model_library

from . import calls, inmemory
from .inmemory import busy_market, fund
from .market import InFolder, OverLibrary, OverStandIn

# ---- over the library


class VerbsInMemory(OverLibrary, calls.EveryVerb):
    """Each verb."""


class RefusedInMemory(OverLibrary, calls.Refused):
    """Refusals."""


class LifeInMemory(OverLibrary, inmemory.Life):
    """Forks and saves."""


class CallsInMemory(OverLibrary, inmemory.Calls):
    """Clients, previews and lines."""


class FullInMemory(OverLibrary, inmemory.Full):
    """Rotations."""


class BytesInMemory(OverLibrary, inmemory.Bytes):
    """Batches."""


class OfFolderInMemory(OverLibrary, inmemory.OfFolder):
    """Files."""


# ---- over what stands in


class VerbsBeside(OverStandIn, calls.EveryVerb):
    """Each verb."""


class RefusedBeside(OverStandIn, calls.Refused):
    """Refusals."""


class LifeBeside(OverStandIn, inmemory.Life):
    """Forks and saves."""


class CallsBeside(OverStandIn, inmemory.Calls):
    """Clients, previews and lines."""


class BytesBeside(OverStandIn, inmemory.Bytes):
    """Batches."""


class FullBeside(OverStandIn, inmemory.Full):
    """Rotations."""


class OfFolderBeside(OverStandIn, inmemory.OfFolder):
    """Files."""


class Faults(OverStandIn):
    """What a library of plenty of memory doesn't show."""

    def test_no_memory(self) -> None:
        market = busy_market(self.begin())
        before = market.save()
        client, self.library.fails = market.client(1), 0
        for call in (
            lambda: client.fund(1, 5), lambda: client.preview.fund(1, 5), market.fork, Market, lambda: market.wallet(1),
            lambda: market.wallets([1]),
        ):
            self.assertRaises((MemoryError, BatchStopped), call)
        self.library.fails = -1
        self.assertEqual(market.save(), before)
        self.library.fails = 1 + 2  # the count of records is asked for first
        with self.assertRaises(BatchStopped) as stopped:
            market.next(fund(5))
        self.assertEqual((stopped.exception.index, len(stopped.exception.replies)), (2, 2 * 96))
        self.assertIsInstance(stopped.exception.why, MemoryError)

    def test_a_call_in_the_midst_of_a_batch(self) -> None:
        market = busy_market(self.begin())
        client, found = market.client(1), []

        def meanwhile() -> None:
            self.library.while_many = None
            for call in (
                lambda: client.fund(1, 5), lambda: client.preview.fund(1, 5), lambda: market.wallet(1), market.fork,
                market.save, market.close,
                lambda: market.do(b""), lambda: market.lines("? pools"), market.touched,
            ):
                try:
                    call()
                except Busy:
                    found.append(call)
            market._held.let_go(self.library)

        self.library.while_many = meanwhile
        self.assertEqual(market.do(fund(3, market.next_number(1)))[::96], bytes([1, 1, 1]))
        self.assertEqual(len(found), 9)
        self.assertEqual(client.fund(1, 5), ())
        market.close()
        self.assertEqual(self.library.markets, {})

    def test_nothing_is_left_behind(self) -> None:
        for _ in range(3):
            market = self.begin()
            fork = market.fork()
            self.assertRaises(BadSave, Market.load, b"")
            Market.load(fork.save())
            copy.copy(fork)
            del market, fork
        gc.collect()
        self.assertEqual(self.library.markets, {})


class Threads(OverLibrary):
    """Several threads, and several processes."""

    def test_a_batch_lets_others_run(self) -> None:
        """A second thread finds its own market free and this one busy, as long as a batch goes on. On a busy machine it
        may come too late, so it has several."""
        market, other, seen, rounds = self.begin(), self.begin(), [], 0
        commands = bytes(fund(200_000))

        def batch() -> None:
            given = bytearray(commands)
            while True:
                try:
                    market.next(given)
                    return
                except Busy:
                    pass  # the other thread was in it

        while not seen and rounds < 20:
            rounds += 1
            thread = threading.Thread(target=batch)
            thread.start()
            while thread.is_alive():
                other.client(1).fund(1, 1)
                try:
                    market.wallet(1)
                except Busy:
                    seen.append(1)
            thread.join()
        self.assertTrue(seen)
        self.assertEqual(market.wallet(1).coll, rounds * 200_000 * 5)

    def test_a_pool_of_processes(self) -> None:
        market = busy_market(self.begin())
        for how in ("spawn", "fork"):
            with multiprocessing.get_context(how).Pool(2) as pool:
                self.assertEqual(pool.map(troves_of, [market] * 3), [market.trove_accounts()] * 3)


def troves_of(market: Market) -> List[int]:
    return market.trove_accounts()


class Engine(InFolder):
    """The engine that is named."""

    def setUp(self) -> None:
        super().setUp()
        model_library.cache_clear()
        self.addCleanup(model_library.cache_clear)

    def test_it_is_told_once(self) -> None:
        with warnings.catch_warnings(record=True) as told:
            warnings.simplefilter("always")
            markets = [Market(engine="model") for _ in range(3)]
        self.assertEqual([(it.category, it.filename) for it in told], [(UnprovedWarning, __file__)])
        self.assertTrue(re.match(UNPROVED, str(told[0].message)))
        self.assertEqual({market.engine for market in markets}, {"model"})

    def test_it_is_named_in_the_environment(self) -> None:
        with mock.patch.dict(os.environ, LIQ_ENGINE="model"), warnings.catch_warnings():
            warnings.simplefilter("ignore")
            market = busy_market(Market())
            again = [Market.load(market.save()), copy.copy(market), market.fork(), pickle.loads(pickle.dumps(market))]
            self.assertEqual({(it.engine, it.save()) for it in again}, {("model", market.save())})
        with warnings.catch_warnings():
            warnings.simplefilter("ignore")
            self.assertEqual(pickle.loads(pickle.dumps(market)).engine, "model")  # whatever the environment is then

    def test_what_is_no_engine(self) -> None:
        self.assertRaises(ValueError, Market, engine="other")
        self.assertRaises(ValueError, Market, "libliq.so", engine="model")
        with mock.patch.dict(os.environ, LIQ_LIBRARY="/none", LIQ_ENGINE=""):
            for make in (Market, lambda: Market(engine="library")):
                with self.assertRaises(NotBuilt) as refused:
                    make()
                self.assertIn('Market(engine="model")', str(refused.exception))
