"""The cases of a market in this process, for whoever derives from them: over the built library, or over what stands in
for it."""
import copy
import gc
import hashlib
import pickle
import struct
from typing import Any, List

from liq import BadSave, BatchStopped, Market, MarketClosed, NoJournal, Refusal, ether, lusd, memory, refusals
from liq.journal import VERBS, DamagedFile, Journal
from liq.model import Market as Model
from liq.model import answer, market_on
from liq.model.disks import checkpoint_bytes, command_bytes
from liq.model.told import generated
from liq.packed import FORMS
from liq.replies import NextGeneration, Opened

from .calls import Cases
from .market import TOP
from .modelled import Made, crash, emptied, renumbered, rewrite, rewrite_checkpoint

FULL = 1_000_000


def with_records(saved: bytes, records: int) -> bytes:
    """A saved market with another count of records, under its own digest."""
    data = saved[:8] + records.to_bytes(8, "big") + saved[16:-32]
    return data + hashlib.sha256(data).digest()


def busy_market(market: Any) -> Any:
    """A market in which something stands in each table."""
    owner = market.client(1)
    owner.advance(20160)
    for account in range(1, 9):
        owner.fund(account, ether(40))
        owner.open(account, ether(20 + account), lusd(4000))
    owner.provide(2, lusd(3000))
    owner.provide(3, lusd(2000))
    market.client(2).price(lusd(200))
    market.client(2).liquidate_lowest(9, 1)
    market.client(2).price(lusd(900))
    return market


class Carried:
    """What fails where its pickle is read."""

    def __reduce__(self) -> Any:
        return carried, ()


def carried() -> None:
    raise AssertionError("a pickle is a program, and it was carried out")


class Life(Cases):
    """Forks, saves, and the end of a market."""

    def test_a_fork_goes_its_own_way(self) -> None:
        market = busy_market(self.begin())
        fork = market.fork()
        self.assertEqual((fork.save(), fork.system(), fork.touched()), (market.save(), market.system(), []))
        fork.client(1).price(lusd(460))
        fork.client(3).fund(5, 1)
        self.assertEqual((market.system().price, fork.system().price), (lusd(900), lusd(460)))
        self.assertEqual(market.next_number(3), 1)
        market.close()
        self.assertEqual(fork.wallet(5).coll, ether(15) + 1)

    def test_a_copy_is_a_fork(self) -> None:
        market = busy_market(self.begin())
        for copied in (copy.copy(market), copy.deepcopy(market), pickle.loads(pickle.dumps(market))):
            self.assertEqual(copied.save(), market.save())
            copied.client(1).fund(1, 1)
            self.assertNotEqual(copied.save(), market.save())

    def test_a_save_is_loaded(self) -> None:
        market = busy_market(self.begin())
        saved = market.save()
        again = Market.load(bytearray(saved))
        self.assertEqual((again.save(), again.system(), again.pools()), (saved, market.system(), market.pools()))
        self.assertEqual(again.lines("1 1 price 5\n1 19 price 5"), market.fork().lines("1 1 price 5\n1 19 price 5"))
        for client in (market, again):
            client.client(4).liquidate_lowest(9, 2) if client.system().recovery else client.client(4).fund(1, 5)
        self.assertEqual(again.save(), market.save())

    def test_a_save_is_as_it_is_written_down(self) -> None:
        """docs/FORMATS.md has its bytes; the checkpoint is that of the model behind the same lines."""
        lines = [f"1 1 fund 1 {ether(10)}", f"1 2 open 1 {ether(10)} {lusd(4000)} {10**18} - -", "2 1 fund 3 7"]
        market, model = self.begin(), Model()
        self.assertEqual(market.lines("\n".join(lines)), [answer(model, line) for line in lines])
        data = b"LIQSNAP1" + (3).to_bytes(8, "big") + checkpoint_bytes(model.checkpoint())
        self.assertEqual(market.save(), data + hashlib.sha256(data).digest())

    def test_bytes_that_are_no_save(self) -> None:
        saved = busy_market(self.begin()).save()
        turned = [saved[:at] + bytes([saved[at] ^ 1]) + saved[at + 1 :] for at in range(0, len(saved), 29)]
        for data in (b"", saved[:-1], saved + b"\0", saved[:8], bytes(len(saved)), *turned):
            self.assertRaises(BadSave, Market.load, data)
        self.assertRaises(TypeError, Market.load, None)

    def test_a_save_that_somebody_else_made(self) -> None:
        """Under a digest that is right it is refused, or it is a market that saves just these bytes. A pickle is no
        save, and nothing in it is carried out."""
        saved = busy_market(self.begin()).save()
        refused = 0
        for at in range(0, len(saved) - 32, 29):
            forged = saved[:at] + bytes([saved[at] ^ 1]) + saved[at + 1 : -32]
            forged += hashlib.sha256(forged).digest()
            try:
                self.assertEqual(Market.load(forged).save(), forged)
            except BadSave:
                refused += 1
        self.assertGreater(refused, 0)
        made = pickle.dumps(Carried())
        self.assertRaises(BadSave, Market.load, made)
        self.assertRaises(AssertionError, pickle.loads, made)

    def test_a_closed_market(self) -> None:
        market = self.begin()
        client = market.client(1)
        self.assertFalse(market.closed)
        with market:
            client.fund(1, 5)
        self.assertTrue(market.closed)
        market.close()
        for call in (
            lambda: client.fund(1, 5), lambda: client.preview.fund(1, 5), lambda: client.next_number, market.fork,
            market.save,
            lambda: market.wallet(1), lambda: market.wallets([1]), market.pools, lambda: market.lines("? pools"),
            market.touched,
            market.trove_accounts, lambda: market.do(bytes(96)), lambda: market.next(bytearray()),
            lambda: copy.copy(market),
            lambda: pickle.dumps(market), lambda: market.query(b""), lambda: market.preview(b""),
        ):
            self.assertRaises(MarketClosed, call)

    def test_a_market_that_nobody_has_is_freed(self) -> None:
        market = self.begin()
        at, end = market._held.place, market._end
        self.assertNotEqual(at.state, 0)
        del market
        gc.collect()
        self.assertEqual((at.state, end.alive), (0, False))


class Calls(Cases):
    """Clients, previews and lines."""

    def test_the_market_numbers_the_commands(self) -> None:
        market = self.begin()
        here, there = market.client(1), market.client(1)
        here.fund(1, 1)
        there.fund(1, 1)
        self.assertEqual(market.lines("1 3 fund 1 1\n1 3 fund 1 9"), ["ok", "ok"])
        here.fund(1, 1)
        self.assertEqual((here.next_number, there.next_number, market.wallet(1).coll), (5, 5, 4))

    def test_a_preview_changes_nothing(self) -> None:
        market = busy_market(self.begin())
        client, before = market.client(1), market.save()
        for call in (
            lambda it: it.price(lusd(800)), lambda it: it.fund(1, 5), lambda it: it.close(2),
            lambda it: it.withdraw(2, 5),
            lambda it: it.redeem(3, lusd(1900)), lambda it: it.liquidate(9, 4), lambda it: it.take(1, ether(1000)),
            lambda it: it.rotate(),
            lambda it: it.adjust(4, borrow=lusd(10)), lambda it: it.liquidate_lowest(9, 64),
            lambda it: it.gain_to_trove(3),
        ):
            told = self.outcome(lambda: call(client.preview))
            self.assertEqual(market.save(), before)
            self.assertEqual(told, self.outcome(lambda: call(market.fork().client(1))))

    def outcome(self, call: Any) -> Any:
        try:
            return call()
        except Refusal as refusal:
            return type(refusal), refusal.values

    def test_hints_come_in_pairs(self) -> None:
        client = self.begin().client(1)
        client.fund(1, ether(10))
        self.assertRaises(ValueError, client.open, 1, ether(10), lusd(4000), hints=(1,))
        self.assertEqual(client.open(1, ether(10), lusd(4000), hints=(7, 8)), Opened(lusd(4220), lusd(20)))

    def test_lines_are_answered_as_by_a_run(self) -> None:
        lines = (TOP / "crates/liq_main/stdin").read_text()
        wanted = (TOP / "crates/liq_main/stdout").read_text().splitlines()
        market = self.begin()
        self.assertEqual(market.lines(lines), wanted)
        self.assertEqual(market.lines(""), [])
        self.assertEqual(market.ask("? wallet 77"), ["0", "0"])
        self.assertRaises(ValueError, market.ask, "? pools\n? pools")

    def test_many_lines(self) -> None:
        """More than the room for replies takes at once, though none is cut."""
        market = busy_market(self.begin())
        wanted = " ".join(map(str, market.system()))
        self.assertEqual(market.lines("? system\n" * 2000), [wanted] * 2000)

    def test_a_line_that_is_no_request(self) -> None:
        market = self.begin()
        for bad in ("", "1 2 fund 1 05", "? pools ", "x" * 300):
            with self.assertRaises(BatchStopped) as stopped:
                market.lines(f"? wallet 1\n9 1 take 1 5\n{bad}\n1 1 fund 1 5\n")
            fault = stopped.exception
            self.assertEqual((fault.index, fault.why, fault.replies), (2, bad, ["0 0", "no 14 5 0"]))
            self.assertIn(repr(bad), str(fault))
        self.assertEqual(market.system().records, 0)
        self.assertRaises(ValueError, market.lines, "? wall\u00e9t 1")

    def test_lists_of_accounts(self) -> None:
        market = busy_market(self.begin())
        rows = {account: market.trove(account) for account in market.trove_accounts()}
        self.assertEqual(len(rows), market.system().troves)
        ratios = [row.coll / row.debt for row in rows.values() if row]
        self.assertEqual(ratios, sorted(ratios))
        order = market.trove_accounts()
        self.assertEqual((market.trove_accounts(2, 3), market.trove_accounts(most=1)), (order[2:5], order[:1]))
        self.assertEqual((market.trove_accounts(len(order)), market.trove_accounts(2**60),
            market.trove_accounts(most=0)), ([], [], []))
        self.assertEqual((market.deposit_accounts(), market.wallet_accounts()), ([2, 3], list(range(1, 10))))
        self.assertRaises(ValueError, market.trove_accounts, -1)
        for account in range(100, 1400):
            market.client(3).fund(account, 1)
        self.assertEqual(market.wallet_accounts(), [*range(1, 10), *range(100, 1400)])

    def test_whom_a_command_touched(self) -> None:
        market = busy_market(self.begin())
        client, order = market.client(5), market.trove_accounts()
        client.fund(7, 1)
        self.assertEqual(market.touched(), [7])
        market.wallet(5)
        self.assertRaises(Refusal, client.take, 4, ether(1000))
        self.assertEqual(market.touched(), [7])
        client.price(lusd(200))
        self.assertEqual(market.touched(), [])
        client.liquidate_lowest(9, 2)
        self.assertEqual(market.touched(), [9, *sorted(order[:2])])


class Full(Cases):
    """A market that takes no more commands before it is rotated."""

    def full(self, left: int, **how: Any) -> Market:
        """A market that takes so many more."""
        return Market.load(with_records(busy_market(self.begin()).save(), FULL - left), **how)

    def test_a_typed_call_rotates_first(self) -> None:
        market = self.full(1)
        client, number = market.client(1), market.next_number(1)
        client.fund(1, 5)
        self.assertEqual((market.system().records, market.next_number(memory.ROTATING)), (FULL, 1))
        client.fund(1, 5)
        self.assertEqual((market.system().records, market.next_number(memory.ROTATING)), (1, 2))
        self.assertEqual(client.next_number, number + 2)
        self.assertEqual(client.rotate(), NextGeneration(3))
        for hints in (None, None), (2, None):
            market = self.full(0)
            debt = market.trove(4).debt
            adjusted = market.client(1).adjust(4, borrow=lusd(10), hints=hints)
            self.assertGreater(adjusted.debt, debt + lusd(10))
            self.assertEqual(market.trove(4), (4, adjusted.coll, adjusted.debt, market.trove(4).stake))

    def test_nobody_rotates_unasked(self) -> None:
        market = self.full(0, rotating=None)
        client = market.client(1)
        with self.assertRaises(refusals.JournalFull) as refused:
            client.fund(1, 5)
        self.assertEqual(refused.exception.records, FULL)
        self.assertRaises(refusals.JournalFull, client.preview.fund, 1, 5)
        self.assertEqual(market.next(fund(1))[:2], bytes([3, 81]))
        self.assertEqual(market.lines(f"1 {client.next_number} fund 1 5"), [f"no 81 {FULL}"])
        self.assertEqual(client.rotate(), NextGeneration(2))
        client.fund(1, 5)

    def test_a_batch_rotates_in_its_midst(self) -> None:
        market = self.full(3, rotating=6)
        commands = fund(8)
        replies = market.next(commands)
        self.assertEqual(replies[::96], bytes([1] * 8))
        self.assertEqual(market.system().records, 5)
        self.assertEqual(market.next_number(6), 2)
        numbers = [int.from_bytes(commands[at + 8 : at + 16], "big") for at in range(0, len(commands), 96)]
        self.assertEqual(numbers, list(range(numbers[0], numbers[0] + 8)))

    def test_lines_and_numbered_commands_never_rotate(self) -> None:
        market = self.full(0)
        number = market.next_number(1)
        self.assertEqual(market.do(fund(1, number))[:2], bytes([3, 81]))
        self.assertEqual(market.lines(f"1 {number} fund 1 5"), [f"no 81 {FULL}"])

    def test_a_client_that_may_rotate(self) -> None:
        for rotating in (2**20, -1):
            self.assertRaises(ValueError, Market, rotating=rotating)
        self.assertRaises(TypeError, Market, rotating="1")


def fund(count: int, number: int = 0) -> bytearray:
    """So many commands, from a number on; 0 for those that are to be numbered."""
    form, made = FORMS["fund"], bytearray(96 * count)
    for at in range(count):
        form.pack_into(made, 96 * at, form.kind, 1, number and number + at, 1, 5)
    return made


class Bytes(Cases):
    """Batches without numpy."""

    def test_a_load_is_answered_as_by_the_model(self) -> None:
        market, model, commands, wanted = self.begin(), Model(), bytearray(), []
        for command in generated(7, 400):
            command = command._replace(hints=(None, None)[: VERBS[command.verb].count("h")])
            commands += command_bytes(command)
            number = model.clients[1].last + 1 if 1 in model.clients else 1
            wanted.append(answer(model, command._replace(number=number).line).split(" "))
        sent = bytes(commands)
        replies = market.next(commands)
        self.assertEqual([words(replies[at : at + 96]) for at in range(0, len(replies), 96)], wanted)
        self.assertEqual(market.save()[16:-32], checkpoint_bytes(model.checkpoint()))
        again = self.begin()
        accepted = [at for at in range(0, len(replies), 96) if replies[at] == 1]
        taken = b"".join(commands[at : at + 96] for at in accepted)
        self.assertEqual(again.do(taken), b"".join(replies[at : at + 96] for at in accepted))
        self.assertEqual(again.save(), market.save())
        self.assertNotEqual(sent, bytes(commands))

    def test_a_batch_stops_at_what_is_no_command(self) -> None:
        market = self.begin()
        for place, byte in ((0, 0), (0, 17), (1, 1), (20, 1), (32, 1), (64, 1), (95, 1)):
            commands = fund(3, 1)
            commands[96 + place] = byte
            with self.assertRaises(BatchStopped) as stopped:
                market.do(commands)
            fault = stopped.exception
            self.assertEqual((fault.index, fault.why), (1, 72 if place == 95 else place))
            self.assertEqual((len(fault.replies), fault.replies[0]), (96, 1))
            self.assertIn(f"byte {fault.why}", str(fault))
        commands = fund(2)
        commands[96 + 15] = 9
        with self.assertRaises(BatchStopped) as stopped:
            market.next(commands)
        self.assertEqual((stopped.exception.index, stopped.exception.why), (1, 8))
        self.assertEqual(market.wallet(1).coll, 10)

    def test_queries(self) -> None:
        market = busy_market(self.begin())
        told = market.query(b"".join(struct.pack("=2I", topic, 0 if topic in (4, 5) else 2) for topic in range(1, 7)))
        wanted = [market.ask(f"? {query}") for query in ("wallet 2", "trove 2", "deposit 2", "pools", "system", "next_number 2")]
        self.assertEqual([words(told[at : at + 96]) for at in range(0, len(told), 96)], wanted)
        for topic, account, place in ((0, 0, 0), (7, 1, 0), (2**32 - 1, 0, 0), (4, 1, 4), (5, 1, 4)):
            with self.assertRaises(BatchStopped) as stopped:
                market.query(struct.pack("=4I", 1, 2, topic, account))
            self.assertEqual((stopped.exception.index, stopped.exception.why), (1, place))

    def test_previews_of_many(self) -> None:
        market = busy_market(self.begin())
        before, commands = market.save(), fund(3)
        self.assertEqual(market.preview(bytes(commands))[::96], bytes([1, 1, 1]))
        self.assertEqual((market.preview(fund(2, 7))[:2], commands), (bytes([3, 70]), fund(3)))
        self.assertEqual(market.save(), before)
        out = bytearray(fund(1))
        out[4:8] = (2**20).to_bytes(4, "big")
        self.assertEqual(market.preview(out)[:2], bytes([3, 13]))

    def test_what_is_no_row_of_bytes(self) -> None:
        market = self.begin()
        self.assertEqual((market.do(b""), market.next(bytearray())), (b"", b""))
        for wrong in (bytes(95), bytes(97), memoryview(bytes(192))[::2]):
            self.assertRaises(ValueError, market.do, wrong)
        self.assertRaises(ValueError, market.next, bytes(96))
        self.assertRaises(TypeError, market.do, "text")


def words(reply: bytes) -> List[str]:
    """A reply as the words of its line."""
    kind, which, count = reply[0], reply[1], reply[2]
    size = 16 if kind == 3 else 8
    numbers = [str(int.from_bytes(reply[8 + size * at : 8 + size * (at + 1)], "little")) for at in range(count)]
    assert not any(reply[3:8]) and not any(reply[8 + size * count :]), reply.hex()
    if kind == 2:
        return numbers or ["none"]
    return ["ok", *numbers] if kind == 1 else ["no", str(which), *numbers]


class OfFolder(Cases):
    """A market of a folder's files."""

    folder: Any

    def check(self, version: int = 2, rotations: Any = ()) -> None:
        made = crash(self.folder / "market", rotations)
        market = Market.of_folder(made.folder)
        model = market_on(Journal(made.folder).current)
        self.assertEqual(market.save()[8:-32], model.records.to_bytes(8, "big") + checkpoint_bytes(model.checkpoint()))
        self.assertEqual(market.trove_accounts(), [account for _, account in reversed(model.order)])
        self.assertEqual((market.deposit_accounts(), sorted(market.trove_accounts())),
            (sorted(model.deposits), sorted(model.troves)))

    def test_a_first_generation(self) -> None:
        self.check()

    def test_behind_rotations(self) -> None:
        self.check(rotations=(40, 80))

    def test_an_emptied_pool(self) -> None:
        made = emptied(self.folder / "market", 3)
        market, model = Market.of_folder(made.folder), market_on(Journal(made.folder).current)
        self.assertEqual(market.save()[16:-32], checkpoint_bytes(model.checkpoint()))
        self.assertEqual(market.fork().save(), market.save())

    def test_a_journal_of_version_1(self) -> None:
        made = Made(self.folder / "market", 1)
        made.call(1, f"fund 1 {10**18}")
        market = Market.of_folder(made.write())
        self.assertRaises(refusals.AmountLimit, market.client(1).fund, 1, 1)
        self.assertEqual(market.client(2).rotate(), NextGeneration(2))
        market.client(1).fund(1, 1)

    def test_what_is_no_market(self) -> None:
        self.assertRaises(NoJournal, Market.of_folder, self.folder)
        made = crash(self.folder / "market", (40,))
        disk = Journal(made.folder).current
        rewrite(disk.path, lambda commands: [*commands[:5], commands[4], *commands[5:]])
        with self.assertRaises(DamagedFile) as refused:
            Market.of_folder(made.folder)
        self.assertEqual(refused.exception.record, 6)
        made.write()
        taken = disk.commands[6]._replace(verb="take", accounts=(77,), amounts=(5,), hints=())
        rewrite(disk.path, lambda commands: renumbered([*commands[:7], taken]))
        with self.assertRaises(DamagedFile) as refused:
            Market.of_folder(made.folder)
        self.assertEqual(refused.exception.record, 8)
        made.write()
        for change in (
            lambda found: found._replace(stakes=found.stakes + 1), lambda found: found._replace(generation=9),
            lambda found: found._replace(version=1),
        ):
            rewrite_checkpoint(disk.path, change)
            with self.assertRaises(DamagedFile) as refused:
                Market.of_folder(made.folder)
            self.assertEqual(refused.exception.record, 0)
            made.write()
