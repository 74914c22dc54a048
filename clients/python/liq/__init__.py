"""A client for liq: a market as a process or in this one, its commands as typed calls, its journal as a list.

What it raises is a `LiqError`. What it does is told to the logger `liq`: begin and end of a program, each refusal at
DEBUG, faults at ERROR. `python3 -m liq` lists its commands. A part is read where it is first asked for.
"""
import importlib
from typing import TYPE_CHECKING, Any

from .version import __version__

if TYPE_CHECKING:
    from .batch import BatchStopped
    from .client import Client
    from .ends import BadLine, Damaged, DiskFault, End, Killed, Limit, Locked, MarketExists, NoJournal, NoMemory
    from .ends import NoProgram, NoSpace, NotBuilt, NotPermitted, ReadFault, Rotated, TooMuch, Unfit, Usage, WriteFault
    from .errors import BadType, BadValue, LiqError, NotReady, TimedOut
    from .journal import Journal
    from .memory import BadSave, Busy, Market, MarketClosed
    from .refusals import Refusal
    from .service import Service
    from .units import ANY_FEE, ether, lusd, rate, show_ether, show_lusd

PARTS = {  # which module has what
    "batch": "BatchStopped",
    "client": "Client",
    "ends": (
        "BadLine Damaged DiskFault End Killed Limit Locked MarketExists NoJournal NoMemory NoProgram NoSpace "
        "NotBuilt NotPermitted ReadFault Rotated TooMuch Unfit Usage WriteFault"
    ),
    "errors": "BadType BadValue LiqError NotReady TimedOut",
    "journal": "Journal",
    "memory": "BadSave Busy Market MarketClosed",
    "refusals": "Refusal",
    "service": "Service",
    "units": "ANY_FEE ether lusd rate show_ether show_lusd",
}
PLACES = {name: module for module, names in PARTS.items() for name in names.split(" ")}


def __getattr__(name: str) -> Any:
    """A name of `__all__`, or a module that has some of them, when it is first asked for: a command that wants a few of
    them does not wait for all."""
    if name in PARTS:
        return importlib.import_module(f".{name}", __name__)
    if name not in PLACES:
        raise AttributeError(f"module {__name__!r} has no attribute {name!r}")
    found = getattr(importlib.import_module(f".{PLACES[name]}", __name__), name)
    globals()[name] = found
    return found


__all__ = [
    "ANY_FEE", "BadLine", "BadSave", "BadType", "BadValue", "BatchStopped", "Busy", "Client", "Damaged", "DiskFault",
    "End", "Journal", "Killed", "Limit", "LiqError", "Locked", "Market", "MarketClosed", "MarketExists", "NoJournal",
    "NoMemory", "NoProgram", "NoSpace", "NotBuilt", "NotPermitted", "NotReady", "ReadFault", "Refusal", "Rotated",
    "Service", "TimedOut", "TooMuch", "Unfit", "Usage", "WriteFault", "__version__", "ether", "lusd", "rate",
    "show_ether", "show_lusd",
]
