"""A caller's line: a key and a command, or a query; or why it is refused.

    KEY VERB WORDS      a command, under a key of the caller's own: the same line again gets the same reply
    - VERB WORDS        a command without a key: the same line again is carried out again
    ? QUERY WORDS       a query

Verbs, queries and their words are those of liq (docs/REFERENCE.md): client and number, which stand in front there, are
the gateway's. A key is one word of 1 to 64 letters, digits and `._:-`. A line ends with one LF, and has at most 250
bytes.
"""
import re
from typing import NamedTuple, Optional, Tuple

from ..errors import LiqError
from ..grammar import NoRequest, Query, read_request
from ..journal import Command
from ..why import why, why_call

LINE_BYTES_MOST = 250
NO_KEY = "-"
IS_KEY = re.compile(r"[A-Za-z0-9._:][A-Za-z0-9._:-]{0,63}", re.ASCII).fullmatch


class Refused(LiqError):
    """A line that the gateway does not pass on, by a name that stays and a reason for whoever reads it.

    It concerns this line alone: what came before it stands, and what comes behind it is read."""

    def __init__(self, name: str, reason: str) -> None:
        super().__init__(name, reason)
        self.name, self.reason = name, reason

    def __str__(self) -> str:
        return f"refused {self.name} {self.reason}"


class Line(NamedTuple):
    """What a caller asks for. `call` is liq's line, a command's without client and number."""

    key: Optional[str]
    verb: str
    accounts: Tuple[int, ...]
    call: str
    is_query: bool


def read_line(data: bytes) -> Line:
    """A line, without its LF, by the grammar. Raises `Refused`."""
    if len(data) > LINE_BYTES_MOST:
        raise Refused("long_line", f"a line has at most {LINE_BYTES_MOST} bytes")
    try:
        text = data.decode("ascii")
        if text.startswith("? "):
            query = read_request(text)
            assert isinstance(query, Query)
            return Line(None, query.name, query.accounts, text, True)
        key, _, call = text.partition(" ")
        if key != NO_KEY and not IS_KEY(key):
            raise Refused("bad_line", "it begins with no key: a word of letters, digits and ._:-, or - for none, or ?")
        command = read_request(f"0 0 {call}")
    except (NoRequest, UnicodeDecodeError):
        raise Refused("bad_line", reason_of(data)) from None
    assert isinstance(command, Command)
    return Line(None if key == NO_KEY else key, command.verb, command.accounts, call, False)


def reason_of(data: bytes) -> str:
    """Why a line is no request, for whoever wrote it."""
    text = data.decode("latin-1")
    _, space, call = text.partition(" ")
    said = why(text) if text.startswith("?") else why_call(call) if space else "KEY VERB WORDS, or ? QUERY WORDS"
    return f"it is no request: {said}"
