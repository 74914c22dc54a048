"""Drawn commands through a run, a market in memory and the model of the rules: all are equal in each reply, and in what
they tell at the end. Wants hypothesis, which makes a list that differs short and prints it as lines for `liq run`.

LIQ_EXAMPLES says how many lists are drawn for each case, where it is set; and then other ones each time."""
import importlib.util
import os
import unittest
from typing import Any, Callable, List, NamedTuple, Optional, Sequence, Tuple

from liq import Journal, Market
from liq.client import ACCOUNTS
from liq.frames import fields_of
from liq.journal import VERBS
from liq.model import Market as Model
from liq.model import answer, market_on
from liq.model.disks import checkpoint_bytes
from liq.model.requests import next_number
from liq.refusals import Refusal

from .market import LIBRARY, OverLibrary, OverProgram, OverStandIn

HAS_HYPOTHESIS = importlib.util.find_spec("hypothesis") is not None
if HAS_HYPOTHESIS:
    from hypothesis import HealthCheck, find, given, settings
    from hypothesis import strategies as st

EXAMPLES = int(os.environ.get("LIQ_EXAMPLES", "0"))
PLACES = range(6)  # accounts and clients that are drawn
ETHER, LUSD = 10**9, 10**6


class Step(NamedTuple):
    """A command to be sent. `off` is by how much its number is another than its client's next one."""

    client: int
    off: int
    verb: str
    words: Tuple[Optional[int], ...]

    @property
    def call(self) -> str:
        """The verb and its words."""
        return " ".join([self.verb, *("-" if word is None else str(word) for word in self.words)])


def step(verb: str, *words: Optional[int]) -> Step:
    return Step(1, 0, verb, words)


PRELUDE = [  # four troves, a deposit, and redemptions may begin
    step("advance", 20160),
    *(it for account in range(4) for it in (
        step("fund", account, 40 * ETHER),
        step("open", account, (10 + 5 * account) * ETHER, 4000 * LUSD, 10**18, None, None))),
    step("provide", 3, 3000 * LUSD),
]


def steps(verbs: Sequence[str] = tuple(VERBS), most_steps: int = 30) -> Any:
    """Lists of commands: most in range and in turn, some at the limits, some neither."""
    account = st.one_of(st.sampled_from(PLACES), st.sampled_from(PLACES), st.sampled_from([ACCOUNTS - 1, ACCOUNTS]))
    hint = st.one_of(st.none(), account)
    least, most = [0, 1], [10**18, 10**19, 10**19 + 1, 2**64 - 1]
    limits = st.sampled_from(least + most)
    ether = st.one_of(st.integers(0, 100).map(lambda it: it * ETHER), st.integers(0, 10**11), limits)
    lusd = st.one_of(st.integers(0, 9000).map(lambda it: it * LUSD), st.integers(0, 2**34), limits)
    price = st.one_of(st.integers(100, 1200).map(lambda it: it * LUSD), st.sampled_from([0, 10**8 - 1, 10**12 + 1]))
    minutes = st.sampled_from([1, 60, 20160, 0, 10**12])
    bound = st.sampled_from([10**18, 10**16, 5 * 10**15, 0, 10**18 + 1])
    some_ether, some_lusd = (st.one_of(st.just(0), st.just(0), kind) for kind in (ether, lusd))
    words = {
        "price": [price], "advance": [minutes], "fund": [account, ether], "take": [account, ether],
        "send": [account, account, lusd], "open": [account, ether, lusd, bound, hint, hint],
        "adjust": [account, some_ether, some_ether, some_lusd, some_lusd, bound, hint, hint], "close": [account],
        "provide": [account, lusd], "withdraw": [account, lusd], "gain_to_trove": [account, hint, hint],
        "liquidate": [account, account], "liquidate_lowest": [account, st.integers(0, 65)],
        "redeem": [account, lusd, bound, hint, hint], "claim": [account], "rotate": [],
    }
    assert list(words) == list(VERBS)
    client = st.one_of(st.just(1), st.just(1), st.sampled_from(PLACES), st.just(ACCOUNTS))
    off = st.sampled_from([0, 0, 0, 0, 0, 0, 0, 0, -1, 1])
    one = st.one_of(*(st.builds(Step, client, off, st.just(verb), st.tuples(*words[verb])) for verb in verbs))
    prelude = st.sampled_from([[], PRELUDE])
    return st.tuples(prelude, st.lists(one, max_size=most_steps)).map(lambda both: [*both[0], *both[1]])


def lines_of(found: Sequence[Step]) -> Tuple[List[str], List[str], Model]:
    """The lines of these commands, what the model replies, and the model behind them."""
    model, lines, replies = Model(), [], []
    for command in found:
        number = next_number(model, command.client) if command.client < ACCOUNTS else 1
        lines.append(f"{command.client} {max(0, number + command.off)} {command.call}")
        replies.append(answer(model, lines[-1]))
    return lines, replies, model


def questions() -> List[str]:
    """What a market is asked at the end."""
    about = [f"? {name} {place}" for name in ("wallet", "trove", "deposit", "next_number") for place in PLACES]
    return [*about, "? pools", "? system"]


def check_same(lines: Sequence[str], wanted: Sequence[str], told: Sequence[str], who: str) -> None:
    """Fails where replies differ, with the lines for `liq run`."""
    if list(wanted) != list(told):
        at = next(at for at, both in enumerate(zip([*wanted, None], [*told, None])) if both[0] != both[1])
        by = f"the model {wanted[at] if at < len(wanted) else None!r}, {who} {told[at] if at < len(told) else None!r}"
        raise AssertionError("\n".join([f"reply {at + 1} differs: {by}", *lines[: at + 1]]))


def property_of(case: Callable[[Any, List[Step]], None], examples: int = 100) -> Any:
    """A case over drawn lists of commands; the same ones each time, unless their number is said."""
    if not HAS_HYPOTHESIS:
        return unittest.skip("there is no hypothesis")(lambda self: None)

    def test(self: Any) -> None:
        chosen = settings(
            max_examples=EXAMPLES or examples, deadline=None, database=None, derandomize=not EXAMPLES, print_blob=False,
            suppress_health_check=list(HealthCheck))
        chosen(given(steps())(lambda found: case(self, found)))()

    test.__doc__ = case.__doc__
    return test


def check_market(market: Market, found: List[Step]) -> None:
    """A market in memory beside the model, by lines."""
    lines, wanted, model = lines_of(found)
    asked = questions()
    told = market.lines("\n".join(lines + asked))
    check_same(lines + asked, wanted + [answer(model, it) for it in asked], told, "the market")
    if market.save()[16:-32] != checkpoint_bytes(model.checkpoint()):
        raise AssertionError("\n".join(["the save differs", *lines]))
    if market.trove_accounts() != [account for _, account in reversed(model.order)]:
        raise AssertionError("\n".join(["the list differs", *lines]))


def check_typed(market: Any, found: List[Step]) -> None:
    """Typed calls, rows and refusals of a market beside the model, each under its client's next number."""
    model, lines = Model(), []
    for command in found:
        if command.client >= ACCOUNTS or any(it is not None and it >= ACCOUNTS for it in accounts_of(command)):
            continue  # typed calls send no account that is out of range
        lines.append(f"{command.client} {next_number(model, command.client)} {command.call}")
        check_same(lines, [answer(model, lines[-1])], [typed(market.client(command.client), command)], "the typed call")
    for place in PLACES:
        for name in ("wallet", "trove", "deposit"):
            row = getattr(market, name)(place)
            told = "none" if row is None else " ".join(map(str, list(row)[1:]))
            check_same([*lines, f"? {name} {place}"], [answer(model, f"? {name} {place}")], [told], "the market")
            if row is not None and fields_of(row)["account"] != place:
                raise AssertionError(f"{row} is not of {place}")


def accounts_of(command: Step) -> List[Optional[int]]:
    """The accounts and hints among the words of a command."""
    return [word for letter, word in zip(VERBS[command.verb], command.words) if letter in "ah"]


def typed(client: Any, command: Step) -> str:
    """The reply to a typed call, as a line."""
    hints = [word for letter, word in zip(VERBS[command.verb], command.words) if letter == "h"]
    words = command.words[: len(command.words) - len(hints)]
    try:
        row = getattr(client, command.verb)(*words, **({"hints": tuple(hints)} if hints else {}))
    except Refusal as refusal:
        return " ".join(["no", *map(str, (refusal.code, *refusal.values))])
    return " ".join(["ok", *map(str, row)])


class InMemory:
    """A market in memory beside the model."""

    def lines_case(self, found: List[Step]) -> None:
        """Each reply, the answers at the end, the save and the list."""
        with self.begin() as market:  # type: ignore[attr-defined]  # of those who derive from it
            check_market(market, found)

    def typed_case(self, found: List[Step]) -> None:
        """Typed calls and rows."""
        with self.begin() as market:  # type: ignore[attr-defined]
            check_typed(market, found)

    test_lines = property_of(lines_case)
    test_typed_calls = property_of(typed_case)


class InMemoryBeside(InMemory, OverStandIn):
    """Over what stands in for the library, which is the model too: what lies between is tried."""


class InMemoryOverLibrary(InMemory, OverLibrary):
    """Over the library."""


class AllThree(OverProgram):
    """A run, a market in memory where there is a library, and the model."""

    count = 0

    def begin_run(self) -> Any:
        self.count += 1
        return self.service(f"market{self.count}", create=True)

    def lines_case(self, found: List[Step]) -> None:
        """Each reply, the answers at the end, and the journal."""
        lines, wanted, model = lines_of(found)
        asked, told = questions(), []  # type: Tuple[List[str], List[str]]
        with self.begin_run() as service:
            service.ask_together(lines + asked, told.extend)
        check_same(lines + asked, wanted + [answer(model, it) for it in asked], told, "the run")
        stands = market_on(Journal(service.folder).current) if model.records or model.generation > 1 else Model()
        if (stands.checkpoint(), stands.records) != (model.checkpoint(), model.records):
            raise AssertionError("\n".join(["the journal differs", *lines]))
        if LIBRARY is not None:
            with Market() as market:
                check_market(market, found)

    def typed_case(self, found: List[Step]) -> None:
        """Typed calls and rows."""
        with self.begin_run() as service:
            check_typed(service, found)

    test_lines = property_of(lines_case, 40)
    test_typed_calls = property_of(typed_case, 15)


@unittest.skipUnless(HAS_HYPOTHESIS, "there is no hypothesis")
class Shrinking(unittest.TestCase):
    """That a fault is found, and the list that shows it is short."""

    def test_a_fault_that_takes_a_few_commands(self) -> None:
        """A market in which a gift of more than 3,000 LUSD loses a millionth."""
        def told_wrong(found: List[Step]) -> bool:
            lines, wanted, right = lines_of(found)
            model, told = Model(), []
            for line in lines:
                reply, words = answer(model, line), line.split(" ")
                if reply == "ok" and words[2] == "send" and int(words[5]) > 3000 * LUSD:
                    coll, lusd = model.wallet(int(words[4]))
                    model.wallets[int(words[4])] = coll, lusd - 1
                told.append(reply)
            asked = questions()
            try:
                check_same(lines + asked, wanted + [answer(right, it) for it in asked],
                    told + [answer(model, it) for it in asked], "it")
            except AssertionError as fault:
                self.printed = str(fault)
                return True
            return False

        chosen = settings(max_examples=1000, deadline=None, database=None, derandomize=True)
        found = find(steps(("send", "fund", "price"), 10), told_wrong, settings=chosen)
        self.assertTrue(told_wrong(found))
        first, *lines = self.printed.split("\n")
        self.assertIn("differs: the model '", first)
        short = [line for line in lines if not line.startswith("?")]
        self.assertLessEqual(len(short), len(PRELUDE) + 1)
        self.assertIn("send", short[-1])
        model = Model()
        self.assertTrue(all(answer(model, line).startswith("ok") for line in short), short)
