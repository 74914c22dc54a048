"""The eleven rules that a state meets, of a checkpoint: docs/RULES.md, "The state"."""
from typing import Callable, Dict, List, Optional, Tuple

from ..journal import LIMITS, Checkpoint
from .amounts import (
    ACCOUNTS, GENERATIONS_MOST, LEAST_NET_DEBT, LIMIT, MINUTE_MOST, ONE, PRICE_LEAST, PRICE_MOST, PRODUCT_LEAST,
    RECORDS_MOST, RESERVE, SUM_MOST,
)
from .state import VALUES

GAIN_MOST = 11  # gwei that an offset brings for a micro-LUSD that it takes over
PLACES_A_RECORD = 200  # by which one command raises scale or epoch


def has_ranges(made: Checkpoint) -> bool:
    """Price, minutes, base rate, generation and collateral inside lie within their bounds."""
    return (
        PRICE_LEAST <= made.price <= PRICE_MOST and made.fee_minute <= made.minute <= MINUTE_MOST
        and made.base_rate <= ONE and 1 <= made.generation <= GENERATIONS_MOST
        and made.version in LIMITS and made.brought <= LIMITS[made.version]
    )


def has_accounts(made: Checkpoint) -> bool:
    """No row is of an account or a client that is out of range."""
    tables: Tuple[Dict[int, object], ...] = (
        dict(made.wallets), dict(made.troves), dict(made.surpluses), dict(made.deposits), dict(made.clients),
    )
    return all(max(table, default=0) < ACCOUNTS for table in tables)


def has_coll_at_home(made: Checkpoint) -> bool:
    """The collateral inside is in its six homes."""
    wallets = sum(coll for coll, _ in made.wallets.values())
    pools = made.active_coll + made.default_coll + made.surplus + made.fee_coll + made.pool_coll
    return made.brought == wallets + pools


def has_lusd_at_home(made: Checkpoint) -> bool:
    """All debt is within the limit and in its four homes, and the reserve is that of each trove."""
    wallets, debt = sum(lusd for _, lusd in made.wallets.values()), made.active_debt + made.default_debt
    return (
        debt == wallets + made.pool_lusd + made.reserve + made.fee_lusd and debt <= LIMITS[made.version]
        and made.reserve == RESERVE * len(made.troves)
    )


def has_surplus_at_home(made: Checkpoint) -> bool:
    """The surplus is what all owners may claim."""
    return made.surplus == sum(made.surpluses.values())


def has_sound_troves(made: Checkpoint) -> bool:
    """Each trove's stake, debt and marks lie within their bounds, and so do the sums per stake."""
    return max(made.sum_coll, made.sum_debt) <= SUM_MOST and all(
        1 <= trove.stake <= trove.coll and trove.debt >= RESERVE + LEAST_NET_DEBT
        and trove.mark_coll <= made.sum_coll and trove.mark_debt <= made.sum_debt for trove in made.troves.values()
    )


def has_troves_added_up(made: Checkpoint) -> bool:
    """Stakes and the active pool are what all troves have; the snapshot has some of both or nothing of either."""
    troves = made.troves.values()
    return (
        made.stakes == sum(trove.stake for trove in troves) and made.active_coll == sum(trove.coll for trove in troves)
        and made.active_debt == sum(trove.debt for trove in troves) and made.snap_stakes <= made.snap_coll
        and (made.snap_stakes > 0) == (made.snap_coll > 0)
    )


def is_backed(made: Checkpoint) -> bool:
    """What is pending for all troves is in the default pool."""
    coll = sum(trove.stake * (made.sum_coll - trove.mark_coll) for trove in made.troves.values())
    debt = sum(trove.stake * (made.sum_debt - trove.mark_debt) for trove in made.troves.values())
    return coll <= made.default_coll * ONE and debt <= made.default_debt * ONE


def has_sound_words(made: Checkpoint) -> bool:
    """The product, the sums and the place of the Stability Pool lie within their bounds."""
    most = PLACES_A_RECORD * RECORDS_MOST * (made.generation - 1)
    return (
        PRODUCT_LEAST <= made.p <= ONE and made.sum <= GAIN_MOST * (ONE - made.p)
        and max(made.scale, made.epoch) <= most
        and all(reached <= GAIN_MOST * ONE for reached in made.finished.values())
        and all(place < (made.epoch, made.scale) for place in made.finished)
    )


def has_sound_deposits(made: Checkpoint) -> bool:
    """Each deposit's amount, product, place and mark lie within their bounds."""
    here = made.epoch, made.scale
    for deposit in made.deposits.values():
        place = deposit.epoch, deposit.scale
        reached = made.sum if place == here else made.finished.get(place, 0)
        if deposit.amount > LIMIT or not PRODUCT_LEAST <= deposit.p <= ONE or place > here or deposit.sum > reached:
            return False
    return True


def has_sound_clients(made: Checkpoint) -> bool:
    """A kept reply has nothing behind the values of its verb."""
    return not any(any(row.values[VALUES[row.verb] :]) for row in made.clients.values())


RULES: Tuple[Callable[[Checkpoint], bool], ...] = (
    has_ranges, has_accounts, has_coll_at_home, has_lusd_at_home, has_surplus_at_home, has_sound_troves,
    has_troves_added_up, is_backed, has_sound_words, has_sound_deposits, has_sound_clients,
)


def empty_row(made: Checkpoint) -> Optional[str]:
    """A table with an empty row, which no checkpoint has; None where there is none."""
    empty: List[Tuple[str, bool]] = [
        ("wallets", not all(any(row) for row in made.wallets.values())),
        ("surpluses", not all(made.surpluses.values())),
        ("finished", not all(made.finished.values())),
        ("deposits", not all(row.amount for row in made.deposits.values())),
        ("clients", not all(row.last for row in made.clients.values())),
    ]
    return next((name for name, is_empty in empty if is_empty), None)


def first_unsound(made: Checkpoint) -> int:
    """The first rule that a checkpoint breaks, from 1 on; 0 where it meets them all."""
    return next((number for number, rule in enumerate(RULES, 1) if not rule(made)), 0)
