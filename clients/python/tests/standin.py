"""What stands in for the library where none is built: that of `Market(engine="model")`. And what stands in for the
program where it has to be late.

With it the package over the library has its cases, and faults that a library of plenty of memory never shows: behind
`fails` more items there is no memory."""
from pathlib import Path
from typing import Any, Callable, Optional, Tuple

from liq.library import NO_MEMORY, OUT_OF_MEMORY, Answered, Place
from liq.model.engine import OPEN, Each, ModelLibrary, address, command_of, count_of, place_of, reply

__all__ = ["StandIn", "answers_late", "command_of", "never_answers", "place_of"]

# A program that reads lines, and never answers; one that does not even end with its input.
NEVER_ANSWERS = """
import sys, time
for line in sys.stdin:
    pass
time.sleep(600 * STAYS)
"""
# A program that answers by the model, in memory: where account 77 is named as soon as a file `answers` is there.
ANSWERS_LATE = """
import os, sys, time
sys.path.insert(0, PACKAGE)
from liq.model import Market, answer
market = Market()
for line in sys.stdin:
    while " 77" in line and not os.path.exists("answers"):
        time.sleep(0.01)
    print(answer(market, line[:-1]), flush=True)
"""


def never_answers(stays: bool = False) -> str:
    """The text of a program that never answers; one that `stays` does not end where its input does."""
    return NEVER_ANSWERS.replace("STAYS", str(int(stays)))


def answers_late() -> str:
    """The text of a program that answers, where account 77 is named, as soon as its folder has a file `answers`."""
    return ANSWERS_LATE.replace("PACKAGE", repr(str(Path(__file__).resolve().parents[1])))


class StandIn(ModelLibrary):
    """A library."""

    def __init__(self) -> None:
        super().__init__()
        self.path = Path("stand-in")
        self.fails = -1  # behind so many more items there is no memory
        self.while_many: Optional[Callable[[], None]] = None  # what another thread does in a batch
        self.given = 0

    def held(self, at: Any) -> Optional[int]:
        place = Place.from_address(address(at))
        assert place.state in (0, OPEN) and not any(place.reserved)
        return super().held(at)

    def open(self, at: Any) -> int:
        return NO_MEMORY if self.fails == 0 else super().open(at)

    def fork(self, at: Any, into: Any) -> int:
        return NO_MEMORY if self.fails == 0 and self.held(at) is not None else super().fork(at, into)

    def items(self, at: Any, begin: Any, count: Any, to: Any, places: Any, size: int, each: Each) -> Answered:
        self.given = count_of(count)
        return super().items(at, begin, count, to, places, size, each)

    def item(self, data: bytes, here: int, each: Each) -> Tuple[int, bytes]:
        if self.while_many is not None and self.given > 1:
            self.while_many()
        if self.fails == 0:
            return NO_MEMORY, reply(OUT_OF_MEMORY)
        self.fails -= 1
        return super().item(data, here, each)
