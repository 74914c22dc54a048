"""The queries of a market as typed calls."""
from typing import Iterable, List, Optional, Sequence

from .client import ACCOUNTS
from .replies import Deposit, Pools, System, Trove, Wallet
from .units import Whole, all_within, within


class Queries:
    """A call for each query. How it is asked is up to who derives from it. An account or a client of 2^20 or more is a
    `ValueError`, what is no whole number (`liq.units`) a `TypeError`: then nothing is asked. A row of an account says
    whose it is."""

    def _row(self, query: str, *accounts: int) -> Optional[Sequence[int]]:
        """The numbers that a query is replied; None for `none`."""
        raise NotImplementedError

    def _rows(self, query: str, accounts: Sequence[int]) -> List[Optional[Sequence[int]]]:
        """The numbers that a query is replied for each account; None for `none`."""
        raise NotImplementedError

    def wallet(self, account: Whole) -> Wallet:
        """The ether and the LUSD of an account."""
        account = within(account, ACCOUNTS)
        return Wallet(account, *self._row("wallet", account) or ())

    def trove(self, account: Whole) -> Optional[Trove]:
        """The trove of an account, with all that is pending; None where it has none."""
        account = within(account, ACCOUNTS)
        row = self._row("trove", account)
        return None if row is None else Trove(account, *row)

    def deposit(self, account: Whole) -> Optional[Deposit]:
        """The deposit of an account in the Stability Pool; None where it has none."""
        account = within(account, ACCOUNTS)
        row = self._row("deposit", account)
        return None if row is None else Deposit(account, *row)

    def wallets(self, accounts: Iterable[Whole]) -> List[Wallet]:
        """The wallets of many accounts."""
        asked = all_within(accounts, ACCOUNTS)
        return [Wallet(account, *row or ()) for account, row in zip(asked, self._rows("wallet", asked))]

    def troves(self, accounts: Iterable[Whole]) -> List[Optional[Trove]]:
        """The troves of many accounts, None where an account has none."""
        asked = all_within(accounts, ACCOUNTS)
        rows = zip(asked, self._rows("trove", asked))
        return [None if row is None else Trove(account, *row) for account, row in rows]

    def deposits(self, accounts: Iterable[Whole]) -> List[Optional[Deposit]]:
        """The deposits of many accounts, None where an account has none."""
        asked = all_within(accounts, ACCOUNTS)
        rows = zip(asked, self._rows("deposit", asked))
        return [None if row is None else Deposit(account, *row) for account, row in rows]

    def pools(self) -> Pools:
        """The pools."""
        return Pools(*self._row("pools") or ())

    def system(self) -> System:
        """The market as a whole."""
        return System(*self._row("system") or ())

    def next_number(self, client: Whole) -> int:
        """The number of the client's next new command."""
        (number,) = self._row("next_number", within(client, ACCOUNTS)) or ()
        return number
