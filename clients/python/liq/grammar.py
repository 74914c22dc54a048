"""The grammar of request lines, and the names of their words."""
import re
from typing import Any, Dict, List, NamedTuple, Tuple, Union

from .errors import LiqError
from .journal import NO_HINT, VERBS, Command

LINE_BYTES_MOST = 200
NUMBER_MOST = 2**64 - 1
IS_NUMBER = re.compile("0|[1-9][0-9]{0,19}").fullmatch
QUERIES = {"wallet": 1, "trove": 1, "deposit": 1, "pools": 0, "system": 0, "next_number": 1}
NAMES = {  # of a verb's words, and of a query's
    "price": "PRICE", "advance": "MINUTES", "fund": "ACCOUNT COLL", "take": "ACCOUNT COLL", "send": "FROM TO LUSD",
    "open": "ACCOUNT COLL LUSD BOUND HINT HINT", "adjust": "ACCOUNT COLL_IN COLL_OUT BORROW REPAY BOUND HINT HINT",
    "close": "ACCOUNT", "provide": "ACCOUNT LUSD", "withdraw": "ACCOUNT LUSD", "gain_to_trove": "ACCOUNT HINT HINT",
    "liquidate": "LIQUIDATOR OWNER", "liquidate_lowest": "LIQUIDATOR COUNT", "redeem": "ACCOUNT LUSD BOUND HINT HINT",
    "claim": "ACCOUNT", "rotate": "",
    "wallet": "ACCOUNT", "trove": "ACCOUNT", "deposit": "ACCOUNT", "pools": "", "system": "", "next_number": "CLIENT",
}


class NoRequest(LiqError, ValueError):
    """A line is no request."""


class Query(NamedTuple):
    """A question, with the account or the client that it asks for."""

    name: str
    accounts: Tuple[int, ...]


class Form(NamedTuple):
    """The form of a word's lines: the names of what stands in them, a letter for each, and the verbs among them. The
    letters are v for a number, a for an account, w for a verb."""

    names: str
    letters: str
    verbs: Tuple[str, ...]


Request = Union[Command, Query]
FORMS: Dict[str, Form] = {
    "staking": Form("AT ACCOUNT stake|unstake AMOUNT", "vawv", ("stake", "unstake")),
    "rewards": Form("tag ACCOUNT FRONT RATE", "waav", ("tag",)),
}


def read_number(word: str, most: int = NUMBER_MOST) -> int:
    """A number without a sign or a zero in front. Raises NoRequest."""
    if not IS_NUMBER(word) or int(word) > most:
        raise NoRequest(word)
    return int(word)


def read_asked(word: str, line: str) -> List[Any]:
    """The words of a line of `staking` or `rewards`. Raises NoRequest."""
    words, form = line.split(" "), FORMS[word]
    is_long = len(line) > LINE_BYTES_MOST or len(words) != len(form.letters)
    if is_long or words[form.letters.index("w")] not in form.verbs:
        raise NoRequest(line)
    most = {"v": NUMBER_MOST, "a": NO_HINT}
    return [found if letter == "w" else read_number(found, most[letter]) for letter, found in zip(form.letters, words)]


def read_request(line: str) -> Request:
    """What a line asks for. Raises NoRequest."""
    words = line.split(" ")
    if len(line) > LINE_BYTES_MOST or len(words) < 2:
        raise NoRequest(line)
    if words[0] == "?":
        if QUERIES.get(words[1]) != len(words) - 2:
            raise NoRequest(line)
        return Query(words[1], tuple([read_number(word, NO_HINT) for word in words[2:]]))
    shape = VERBS.get(words[2]) if len(words) > 2 else None
    if shape is None or len(shape) != len(words) - 3:
        raise NoRequest(line)
    client, number = read_number(words[0], NO_HINT), read_number(words[1])
    found: Dict[str, List[int]] = {"a": [], "v": [], "h": []}
    for letter, word in zip(shape, words[3:]):
        is_none = letter == "h" and word == "-"
        found[letter].append(NO_HINT if is_none else read_number(word, NUMBER_MOST if letter == "v" else NO_HINT))
    hints = tuple([None if hint == NO_HINT else hint for hint in found["h"]])
    return Command(client, number, words[2], tuple(found["a"]), tuple(found["v"]), hints)
