"""Commands, queries and replies as the library takes and gives them: 96 bytes, 8 bytes and 96 bytes
(clients/c/liq.h)."""
import struct
from typing import Any, Callable, Dict, Iterator, NamedTuple, Optional, Sequence, Tuple, Type

from .client import ACCOUNTS, pair
from .errors import NotReady, OutOfMemory
from .journal import FIELDS, KINDS, NO_HINT, VERBS
from .library import ITEM_BYTES, OUT_OF_MEMORY, REFUSED, TOPICS
from .refusals import refusal_of
from .replies import BY_QUERY, BY_VERB, told_fields
from .units import Whole, within

Numbers = Tuple[int, ...]
FIELD = {"a": (4, "I"), "v": (8, "Q"), "h": (4, "I")}


class Form(NamedTuple):
    """How a verb's command is packed: kind, client, number, and its words; and how the numbers of its reply are read,
    which begin at byte 8, where it has some."""

    kind: int
    pack_into: Callable[..., None]
    read: Optional[Callable[[Any, int], Numbers]]


class Asked(NamedTuple):
    """A query's topic; how the numbers of a reply are read, and those of many in a row, each with their count in
    front."""

    topic: int
    read: Callable[[Any, int], Numbers]
    read_all: Callable[[Any], Iterator[Numbers]]


def form_of(verb: str) -> Form:
    """The form of a verb. What it has no word for is 0."""
    spelling = ">B3xIQ"
    for letter, (size, field) in FIELD.items():
        used = VERBS[verb].count(letter)
        spelling += field * used + f"{size * (FIELDS[letter] - used)}x"
    count = width(BY_VERB[verb])
    read = struct.Struct(f"<{count}Q").unpack_from if count else None
    return Form(KINDS.index(verb) + 1, struct.Struct(spelling + "24x").pack_into, read)


def asked_by(topic: int, count: int) -> Asked:
    """The form of a query that so many numbers are told of."""
    whole = struct.Struct(f"<2xB5x{count}Q{ITEM_BYTES - 8 - 8 * count}x")
    return Asked(topic, struct.Struct(f"<{count}Q").unpack_from, whole.iter_unpack)


def width(row: Optional[Type[Any]]) -> int:
    """How many numbers a reply has for a row; for a client's next number it is one."""
    return len(told_fields(row)) if row else 1


FORMS: Dict[str, Form] = {verb: form_of(verb) for verb in VERBS}
ASKED: Dict[str, Asked] = {name: asked_by(topic, width(BY_QUERY.get(name))) for topic, name in enumerate(TOPICS, 1)}
HALVES = [struct.Struct(f"<{2 * count}Q").unpack_from for count in range(6)]  # of a refusal's numbers, by their count
pack_query = struct.Struct("=2I").pack_into


def fault_in(reply: Any) -> Exception:
    """What a reply says that is not what was asked for: a refusal, or that there was no memory."""
    kind, which, count = reply[0], reply[1], reply[2]
    if kind == REFUSED:
        halves = HALVES[count](reply, 8)
        numbers, above = halves[::2], halves[1::2]
        return refusal_of(which, [low | high << 64 for low, high in zip(numbers, above)] if any(above) else numbers)
    if kind == OUT_OF_MEMORY:
        return OutOfMemory("there was no memory for it, and nothing changed")
    return NotReady(f"no reply to this: {bytes(reply[:16]).hex()}")


def hint_words(hints: Sequence[Optional[Whole]]) -> Tuple[int, int]:
    """Two hints as they are packed."""
    before, after = (NO_HINT if hint is None else within(hint, ACCOUNTS) for hint in pair(hints))
    return before, after
