"""A client of a market: numbered commands as typed calls."""
from typing import TYPE_CHECKING, Any, Callable, Optional, Sequence, Tuple, Type, TypeVar

from .ends import Folder
from .errors import BadValue, NotReady
from .refusals import JournalFull, read_refusal
from .replies import Adjusted, Advanced, Claimed, Closed, Done, Liquidated, LowestLiquidated, Moved, NextGeneration
from .replies import Opened, Provided, Redeemed, Withdrawn
from .units import ANY_FEE, Whole, within

if TYPE_CHECKING:
    from .service import Service

Row = TypeVar("Row", bound=Tuple[Any, ...])
Hints = Tuple[Optional[Whole], Optional[Whole]]
NO_HINTS: Hints = (None, None)
ACCOUNTS = 2**20  # accounts, and clients, are below it
AMOUNTS = 2**64
LOWEST_MOST = 64  # the most troves of one `liquidate_lowest`


class Calls:
    """A call for each verb. How a command is sent is up to who derives from it.

    An accepted command gives a named tuple of its values (`replies`); a refused one raises its refusal (`refusals`)
    and leaves its number to the next. Amounts are whole numbers: ether in gwei, LUSD and prices in millionths;
    `units` makes them of decimal text, and says what counts as a whole number. Hints are two, each an account or None;
    liq finds the place by itself. An account or a hint of 2^20 or more, an amount of 2^64 or more, or one hint alone, is a
    `ValueError`, what is no whole number a `TypeError`: then nothing is sent.
    """

    def _send(
        self, row: Type[Row], verb: str, accounts: Sequence[Whole], amounts: Sequence[Whole],
        hints: Optional[Sequence[Optional[Whole]]] = None,
    ) -> Row:
        """Sends a command, and gives what it was replied as such a row. Raises its refusal. Without hints: the verb has
        none."""
        raise NotImplementedError

    # ---- the price and time

    def price(self, price: Whole) -> Done:
        """Sets the price of one ether, from 100 to 1,000,000 LUSD."""
        return self._send(Done, "price", (), (price,))

    def advance(self, minutes: Whole) -> Advanced:
        """Lets time pass."""
        return self._send(Advanced, "advance", (), (minutes,))

    # ---- wallets

    def fund(self, account: Whole, coll: Whole) -> Done:
        """Brings ether from outside into a wallet."""
        return self._send(Done, "fund", (account,), (coll,))

    def take(self, account: Whole, coll: Whole) -> Done:
        """Takes ether out of a wallet, and out of the protocol."""
        return self._send(Done, "take", (account,), (coll,))

    def send(self, sender: Whole, receiver: Whole, lusd: Whole) -> Done:
        """Moves LUSD from one wallet to another."""
        return self._send(Done, "send", (sender, receiver), (lusd,))

    # ---- troves

    def open(self, account: Whole, coll: Whole, lusd: Whole, bound: Whole = ANY_FEE, hints: Hints = NO_HINTS) -> Opened:
        """Opens a trove: ether leaves the wallet, LUSD is borrowed into it. `bound` is the greatest fee, over 10^18."""
        return self._send(Opened, "open", (account,), (coll, lusd, bound), hints)

    def adjust(
        self, account: Whole, coll_in: Whole = 0, coll_out: Whole = 0, borrow: Whole = 0, repay: Whole = 0,
        bound: Whole = ANY_FEE, hints: Hints = NO_HINTS,
    ) -> Adjusted:
        """Changes a trove: collateral in or out, LUSD borrowed or repaid."""
        return self._send(Adjusted, "adjust", (account,), (coll_in, coll_out, borrow, repay, bound), hints)

    def close(self, account: Whole) -> Closed:
        """Repays the whole debt of a trove, and returns its collateral."""
        return self._send(Closed, "close", (account,), ())

    # ---- the Stability Pool

    def provide(self, account: Whole, lusd: Whole) -> Provided:
        """Puts LUSD into the Stability Pool, and pays out the gain so far."""
        return self._send(Provided, "provide", (account,), (lusd,))

    def withdraw(self, account: Whole, lusd: Whole) -> Withdrawn:
        """Takes LUSD out of the Stability Pool, at most the balance, and pays out the gain. 0 is for the gain alone."""
        return self._send(Withdrawn, "withdraw", (account,), (lusd,))

    def gain_to_trove(self, account: Whole, hints: Hints = NO_HINTS) -> Moved:
        """Moves a depositor's gain into its own trove."""
        return self._send(Moved, "gain_to_trove", (account,), (), hints)

    # ---- liquidation

    def liquidate(self, liquidator: Whole, owner: Whole) -> Liquidated:
        """Liquidates the trove of an owner."""
        return self._send(Liquidated, "liquidate", (liquidator, owner), ())

    def liquidate_lowest(self, liquidator: Whole, count: Whole) -> LowestLiquidated:
        """Liquidates the lowest trove again and again, up to `count` (at most 64), or to the first that may not be."""
        return self._send(LowestLiquidated, "liquidate_lowest", (liquidator,), (count,))

    # ---- redemption

    def redeem(self, account: Whole, lusd: Whole, bound: Whole = ANY_FEE, hints: Hints = NO_HINTS) -> Redeemed:
        """Turns LUSD into ether at the price, from the troves of the lowest ratios."""
        return self._send(Redeemed, "redeem", (account,), (lusd, bound), hints)

    def claim(self, account: Whole) -> Claimed:
        """Pays out what a redemption or a capped liquidation left of a trove."""
        return self._send(Claimed, "claim", (account,), ())

    # ---- the journal

    def rotate(self) -> NextGeneration:
        """Begins the next generation, without records."""
        return self._send(NextGeneration, "rotate", (), ())


class Client(Calls):
    """Sends commands to a service under one client's number, each with its next number, and one at a time.

    Where there is no reply to the last command `resend` it: behind `TimedOut` that waits on for its reply; where liq
    has ended, start the service again first.

    With `rotate_when_full` a command that finds the journal full sends `rotate` first. After it the records before are
    on the other file alone, and `audit` has nothing to tell: docs/OPERATING.md, "A full journal". With `archive`, a
    folder, each `rotate` of this client first copies there what it would write over (`liq.archive`), in whatever time
    that takes; where that raises nothing was sent.

    `timeout` is how many seconds a call may take, with the rotation in front of it; that of the service where it is
    None.
    """

    def __init__(
        self, service: "Service", client: Whole, rotate_when_full: bool = False, archive: Optional[Folder] = None,
        timeout: Optional[float] = None,
    ) -> None:
        self.service, self.client, self.rotate_when_full = service, within(client, ACCOUNTS), rotate_when_full
        self.archive, self.timeout = archive, timeout
        self._unanswered: Optional[Tuple[str, Type[Tuple[int, ...]]]] = None
        until = service._until(timeout)
        self.next_number = int(service._ask("? next_number" + spelt((self.client,), ACCOUNTS), until)[0])

    def rotate(self) -> NextGeneration:
        """Begins the next generation of the journal, in the other file, with a checkpoint of the market."""
        self._archive()
        return super().rotate()

    def resend(self, timeout: Optional[float] = None) -> Any:
        """Gives the reply to the command that has none yet. In the run to which it was sent that is waited for; another
        one gets it once more, word for word. It counts once."""
        if self._unanswered is None:
            raise NotReady("no command is without a reply")
        return self._ask(*self._unanswered, self._until(timeout))

    def within(self, seconds: float) -> "WithinClient":
        """The commands of this client, each of which may take so many seconds: `client.within(2).fund(1, 5)`."""
        return WithinClient(self, seconds)

    # ---- lines

    def _archive(self) -> None:
        if self.archive is not None:
            from .archive import archive  # not at the top: the model stands on this package's words, and they on this

            archive(self.service.folder, self.archive)

    def _until(self, timeout: Optional[float]) -> Optional[float]:
        return self.service._until(self.timeout if timeout is None else timeout)

    def _send(
        self, row: Type[Row], verb: str, accounts: Sequence[Whole], amounts: Sequence[Whole],
        hints: Optional[Sequence[Optional[Whole]]] = None,
    ) -> Row:
        return self._send_within(None, row, verb, accounts, amounts, hints)

    def _send_within(
        self, timeout: Optional[float], row: Type[Row], verb: str, accounts: Sequence[Whole], amounts: Sequence[Whole],
        hints: Optional[Sequence[Optional[Whole]]] = None,
    ) -> Row:
        if self._unanswered is not None:
            raise NotReady(f"a command has no reply yet, resend() it first: {self._unanswered[0]}")
        call = call_of(verb, accounts, amounts, hints)
        until = self._until(timeout)
        try:
            return self._ask(f"{self.client} {self.next_number} {call}", row, until)
        except JournalFull:
            if not self.rotate_when_full or verb == "rotate":
                raise
        self._archive()
        self._ask(f"{self.client} {self.next_number} rotate", NextGeneration, until)
        return self._ask(f"{self.client} {self.next_number} {call}", row, until)

    def _ask(self, line: str, row: Type[Row], until: Optional[float]) -> Row:
        before, self._unanswered = self._unanswered, (line, row)
        try:
            words = self.service._ask(line, until)
        except NotReady:
            self._unanswered = before  # nothing was sent
            raise
        self._unanswered = None
        if words[0] == "no":
            raise read_refusal(words)
        self.next_number += 1
        made: Callable[..., Row] = row
        return made(*[int(word) for word in words[1:]])


class WithinClient(Calls):
    """The commands of a client, each of which may take so many seconds."""

    def __init__(self, client: Client, seconds: float) -> None:
        self.client, self.seconds = client, seconds

    def rotate(self) -> NextGeneration:
        """Begins the next generation of the journal, behind the client's archive."""
        self.client._archive()
        return super().rotate()

    def _send(
        self, row: Type[Row], verb: str, accounts: Sequence[Whole], amounts: Sequence[Whole],
        hints: Optional[Sequence[Optional[Whole]]] = None,
    ) -> Row:
        return self.client._send_within(self.seconds, row, verb, accounts, amounts, hints)


def call_of(
    verb: str, accounts: Sequence[Whole], amounts: Sequence[Whole], hints: Optional[Sequence[Optional[Whole]]]
) -> str:
    """The words of a command behind its client and number."""
    call = verb + spelt(accounts, ACCOUNTS) + spelt(amounts, AMOUNTS)
    if hints is None:
        return call
    if hints is NO_HINTS:
        return call + " - -"
    for hint in pair(hints):
        call += " -" if hint is None else spelt((hint,), ACCOUNTS)
    return call


def pair(hints: Sequence[Optional[Whole]]) -> Hints:
    """Two hints. More or fewer are an error here, for liq would end at such a line."""
    if len(hints) != 2:
        raise BadValue(f"{len(hints)} hints, and not two: {hints!r}")
    return hints[0], hints[1]


def spelt(numbers: Sequence[Whole], limit: int) -> str:
    """Numbers as words of a line, each with a space in front.

    What is no whole number in its range is an error here, for liq would end at such a line."""
    spelt = ""
    for number in numbers:
        if type(number) is not int or not 0 <= number < limit:
            number = within(number, limit)
        spelt += f" {number}"
    return spelt
