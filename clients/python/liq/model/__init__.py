"""The rules a second time: a model of liq in Python, written from the pages of docs/ alone.

The modules have the names of the headings of docs/RULES.md; `disks` and `told` are docs/FORMATS.md, and `beside` has
stakers and reward units. `Market` is the state, and `answer` gives the reply to a line:

    market = Market()
    answer(market, "1 1 fund 1 10000000000")    # "ok"

It runs no part of liq, and it proves nothing. It is there to be compared with, and for whoever wants to follow a
journal without the program.
"""
from .disks import Disks
from ..grammar import NoRequest, read_request
from .requests import answer, carry_out, run
from .state import Fee, Market, Offset, Own
from .told import market_on

__all__ = [
    "Disks", "Fee", "Market", "NoRequest", "Offset", "Own", "answer", "carry_out", "market_on", "read_request", "run",
]
