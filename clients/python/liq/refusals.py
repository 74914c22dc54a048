"""A class for each refusal, with its code, its values by name, and what to do about it.

The advice is that of docs/REFUSALS.md, which says of each code when it comes and what its values mean. Ether is in
gwei, LUSD and prices are in millionths of a LUSD.
"""
import logging
from typing import ClassVar, Dict, Sequence, Tuple, Type, get_type_hints

from .errors import BadValue, LiqError

LOG = logging.getLogger("liq")
LOG.addHandler(logging.NullHandler())  # who wants to hear it adds one


class Refusal(LiqError):
    """A command was refused: it changed nothing, and its number may be used again."""

    code: ClassVar[int]
    advice: ClassVar[str] = ""
    fields: ClassVar[Tuple[str, ...]] = ()

    def __init_subclass__(cls) -> None:
        super().__init_subclass__()
        common = get_type_hints(Refusal)
        cls.fields = tuple(name for name in get_type_hints(cls) if name not in common)

    def __init__(self, *values: int) -> None:
        super().__init__(*values)
        self.values = values
        self.__dict__.update(zip(self.fields, values))

    def __str__(self) -> str:
        named = ", ".join(f"{name} {value}" for name, value in zip(self.fields, self.values))
        return f"no {self.code}" + (f", {named}" if named else "") + (f": {self.advice}" if self.advice else "")


# ---- amounts and accounts


class PriceRange(Refusal):
    """The price is below 100 LUSD or above 1,000,000 LUSD for one ether."""

    code = 10
    price: int
    advice = "write the price in millionths of a LUSD. 1,000 LUSD are `1000000000`."


class AmountZero(Refusal):
    """An amount, a count or a time of 0."""

    code = 11
    advice = "leave the command out."


class AmountLimit(Refusal):
    """The sum or count would pass the limit."""

    code = 12
    sum: int
    limit: int
    advice = (
        "ask for less. For `liquidate_lowest`, send it more than once. Where the limit is 10^18, `rotate` makes "
        "it 10^19 (OPERATING)."
    )


class AccountRange(Refusal):
    """An account or client of 2^20 or more."""

    code = 13
    value: int
    advice = "give accounts and clients numbers below that."


class ShortCollateral(Refusal):
    """The wallet, or the trove, has less ether than is asked for."""

    code = 14
    need: int
    have: int
    advice = "`fund` the account first. `? wallet A` says what it has."


class ShortTokens(Refusal):
    """The wallet has less LUSD than is asked for."""

    code = 15
    need: int
    have: int
    advice = "get LUSD by `send` from another account, or ask for less."


# ---- troves


class TroveExists(Refusal):
    """The account has a trove already."""

    code = 20
    account: int
    advice = "use `adjust`."


class NoTrove(Refusal):
    """The account has no trove."""

    code = 21
    account: int
    advice = "look with `? trove A`. What a redemption or a capped liquidation left is got by `claim`."


class FeeBound(Refusal):
    """The fee bound lies outside its range."""

    code = 22
    bound: int
    least: int
    advice = "give a bound over 10^18: `5000000000000000` is half a percent, `1000000000000000000` any fee."


class FeeOver(Refusal):
    """The fee is a greater part of the amount than its bound allows."""

    code = 23
    left: int
    right: int
    advice = "allow more, or wait: the base rate halves in 12 hours."


class NetDebtLow(Refusal):
    """The trove would owe less than 1,800 LUSD beside its reserve."""

    code = 24
    net: int
    least: int
    advice = "borrow more or repay less; to repay all, `close`."


class RatioLow(Refusal):
    """The trove's ratio would be below 110 percent, or below 150 in Recovery Mode."""

    code = 25
    left: int
    right: int
    advice = "put more collateral in, or borrow less."


class SystemRatioLow(Refusal):
    """The ratio of all troves together would fall below 150 percent."""

    code = 26
    left: int
    right: int
    advice = "put more collateral in, or borrow less; or wait until others have repaid."


class RecoveryForbids(Refusal):
    """Recovery Mode: no trove is closed, and no collateral leaves one."""

    code = 27
    left: int
    right: int
    advice = "repay or add collateral. Wait until the total ratio is 150 percent again."


class RatioFalls(Refusal):
    """Recovery Mode: borrowing would make the trove's ratio fall."""

    code = 28
    left: int
    right: int
    advice = "put in enough collateral with the same command."


class BothWays(Refusal):
    """The change goes both ways: collateral in and out, or borrowed and repaid."""

    code = 29
    first: int
    second: int
    advice = "send the difference alone."


class NoChange(Refusal):
    """All four amounts of the change are 0."""

    code = 30
    advice = "leave the command out."


class LastTrove(Refusal):
    """There is no more than one trove, and the last one stays."""

    code = 31
    troves: int
    advice = "wait until somebody opens another."


# ---- the Stability Pool


class NoDeposit(Refusal):
    """The account has no deposit in the Stability Pool."""

    code = 40
    account: int
    advice = "look with `? deposit A`."


class TroveUnder(Refusal):
    """No LUSD leaves the Stability Pool while the lowest trove is below 110 percent."""

    code = 41
    account: int
    left: int
    right: int
    advice = "`liquidate` that trove first. `withdraw A 0`, for the gain alone, is not refused for this."


class NoGain(Refusal):
    """The deposit has gained nothing."""

    code = 42
    account: int
    advice = "wait for a liquidation."


# ---- liquidation


class NotLiquidatable(Refusal):
    """The trove's ratio is too good."""

    code = 50
    coll: int
    debt: int
    price: int
    total_coll: int
    total_debt: int
    advice = "nothing. Compare again when the price has changed."


class PoolTooSmall(Refusal):
    """The Stability Pool has less LUSD than the trove's whole debt."""

    code = 51
    total: int
    debt: int
    advice = "`provide` more, or liquidate a smaller trove."


class SumLimit(Refusal):
    """A sum per unit of stake would pass 10^37."""

    code = 52
    sum: int
    advice = "`provide` LUSD, so that the pool takes the debt and less is spread over the other troves."


# ---- redemption and claims


class Bootstrap(Refusal):
    """There is no redemption in the first two weeks."""

    code = 60
    minute: int
    limit: int
    advice = "`advance`, or wait."


class SystemUnder(Refusal):
    """All troves together are below 110 percent."""

    code = 61
    left: int
    right: int
    advice = "wait."


class NothingRedeemed(Refusal):
    """Not even the first trove that a redemption visits can be cut."""

    code = 62
    amount: int
    net: int
    advice = (
        "redeem no more than leaves the trove 1,800 LUSD; or, where it is not the only one, at least all that it "
        "owes beside the reserve."
    )


class FeeEatsAll(Refusal):
    """The fee would be all of the ether that is drawn."""

    code = 63
    fee: int
    drawn: int
    advice = "redeem a larger amount. Where the base rate is near the whole, wait."


class NoSurplus(Refusal):
    """The account has nothing to claim."""

    code = 64
    account: int
    advice = "nothing."


# ---- numbers and the journal


class OutOfTurn(Refusal):
    """The command's number is neither the client's next one nor its last accepted one."""

    code = 70
    expected: int
    advice = (
        "after a crash, compare with what you sent: see OPERATING. Else use the number that is shown. A client "
        "that shares its number with others gets this often: give each its own client."
    )


class JournalFull(Refusal):
    """The generation has 1,000,000 accepted commands."""

    code = 81
    records: int
    advice = "send `rotate`, then the refused command again. See OPERATING."


# ---- the words `staking` and `rewards`, which not every program has


class ShortStake(Refusal):
    """The account has less at stake than is taken out."""

    code = 43
    need: int
    have: int


class OutOfPlace(Refusal):
    """The line's place lies before that of an earlier line, or behind the last record."""

    code = 44
    at: int
    least: int
    most: int


class TagRate(Refusal):
    """The front end's rate is above the whole, 10^18."""

    code = 45
    rate: int
    limit: int


class TagTwice(Refusal):
    """The account has a tag already."""

    code = 46
    account: int


OF_OTHER_WORDS = (ShortStake, OutOfPlace, TagRate, TagTwice)
BY_CODE: Dict[int, Type[Refusal]] = {each.code: each for each in Refusal.__subclasses__()}


def read_refusal(words: Sequence[str]) -> Refusal:
    """The refusal that a reply `no CODE ..` says, by its words."""
    return refusal_of(int(words[1]), [int(word) for word in words[2:]])


def refusal_of(code: int, values: Sequence[int]) -> Refusal:
    """The refusal of a code, with its values in their order."""
    if code not in BY_CODE:
        refusal = Refusal(*values)
        refusal.code = code  # type: ignore[misc]  # one that a later program has: its class is not known here
    elif len(values) != len(BY_CODE[code].fields):
        raise BadValue(f"not the values of refusal {code}: {' '.join(map(str, values))}")
    else:
        refusal = BY_CODE[code](*values)
    LOG.debug("refused: %s", refusal)
    return refusal
