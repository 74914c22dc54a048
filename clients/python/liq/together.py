"""Commands of a run that are sent together, and not one by one behind each other's reply.

    together = Together(service)
    for account in range(1000):
        together.fund(account, ether(10))
        together.open(account, ether(10), lusd(4000))
    replies = together.send_all()           # a row or a refusal for each, in their order

A refused command leaves its number to the next of its client, so what one client sends has to wait for its replies.
Here each command has a client of its own, and a refused one stops no other.
"""
import json
from itertools import accumulate, repeat
from typing import Any, List, Optional, Sequence, Type, Union

from .client import ACCOUNTS, Calls, Client, Row, call_of
from .errors import BadValue, LiqError, NotReady
from .refusals import JournalFull, Refusal, read_refusal
from .replies import Done
from .service import Service, seconds_of
from .units import Whole, all_within

CLIENTS = range(2**16, 2**16 + 2**12)  # by whom commands are sent, where nobody else is named
Answer = Union[Any, Refusal]  # a row of `liq.replies`, or why there is none


class NoReplyYet(LiqError, AttributeError):
    """The reply to a command was asked for before it was sent."""


class Later:
    """What a typed call gives that is sent with others."""

    def __getattr__(self, name: str) -> Any:
        raise NoReplyYet(f"no {name} yet: the command is sent by send_all(), which gives the replies of all")

    def __repr__(self) -> str:
        return "LATER"


LATER: Any = Later()
DONE = Done()
new_tuple: Any = tuple.__new__


class Together(Calls):
    """Puts commands in, by the typed calls of a client, and sends them together. Each call gives `LATER` in place of a
    row; `send_all` gives the rows, and has them in the order of the calls.

    The commands go as the clients of `clients`, from the first on, which nobody else may use meanwhile; behind as many
    commands they begin again. They are carried out in the order of the calls, one behind the other.

    Where liq ends meanwhile, `send_all` raises how. Start the service again and `resend`: what has its reply is kept,
    and what has none is sent once more under the same number, so it counts once. One that was refused without a word
    of it is ruled on anew then, behind those that were accepted without one.

    Where the journal is full, commands are refused, unless a client is named that is `rotating`: it rotates, and the
    refused ones are sent again. Where no reply comes for `timeout` seconds, or those of the service where that is None,
    liq is killed and `TimedOut` raised: `start` and `resend`.
    """

    def __init__(
        self, service: Service, clients: Sequence[Whole] = CLIENTS, rotating: Optional[Client] = None,
        timeout: Optional[float] = None,
    ) -> None:
        self.service, self.rotating, self.timeout = service, rotating, seconds_of(timeout)
        self.clients = all_within(clients, ACCOUNTS)
        if not self.clients or len(set(self.clients)) < len(self.clients):
            raise BadValue("a client is named twice" if self.clients else "there are no clients")
        # Of each client the head of its lines, and its next number: 0 where it was not asked for yet.
        self._heads = [f"{client} " for client in self.clients]
        self._numbers = [0] * len(self.clients)
        self._put: List[Any] = []  # by turns the words of a command, with a line end, and the row that it is replied
        self._sent: Optional[List[Any]] = None
        self._answers: List[Answer] = []
        self._is_full = False

    def __len__(self) -> int:
        """How many commands are put in and not sent."""
        return len(self._put) // 2

    def send_all(self) -> List[Answer]:
        """Sends all that was put in, and gives what each was replied: its row, or its refusal, which is not raised."""
        if self._sent is not None:
            raise NotReady("commands have no reply yet, resend() them first")
        self._sent, self._put, self._answers = self._put, [], []
        return self.resend()

    def resend(self) -> List[Answer]:
        """Goes on with a `send_all` that did not come to its end, and gives the replies to all of its commands."""
        if self._sent is None:
            raise NotReady("no command is without a reply")
        calls, rows = self._sent[::2], self._sent[1::2]
        while len(self._answers) < len(calls):
            self._send_part(calls, rows)
        answers, self._sent, self._answers = self._answers, None, []
        return answers

    def _send(
        self, row: Type[Row], verb: str, accounts: Sequence[Whole], amounts: Sequence[Whole],
        hints: Optional[Sequence[Optional[Whole]]] = None,
    ) -> Row:
        self._put.extend((call_of(verb, accounts, amounts, hints) + "\n", row))
        later: Row = LATER
        return later

    # ---- parts, in which each client has one command

    def _send_part(self, calls: List[str], rows: List[Type[Any]]) -> None:
        """Sends the next commands that have no reply, up to the last client; or up to where the journal is full."""
        begin = len(self._answers)
        place = begin % len(self.clients)
        part = calls[begin : begin + len(self.clients) - place]
        which = slice(place, place + len(part))
        self._ask_numbers(which)
        spelt = {number: f"{number} " for number in set(self._numbers[which])}
        words = [""] * (3 * len(part))
        words[::3], words[2::3] = self._heads[which], part
        words[1::3] = map(spelt.__getitem__, self._numbers[which])
        self._is_full = False
        self.service.ask_text("".join(words), lambda replies: self._take(rows, replies), self.timeout)
        if self._is_full and self.rotating is not None:
            self.rotating.rotate()

    def _ask_numbers(self, which: slice) -> None:
        """Asks for the numbers of those clients that have sent nothing yet."""
        unknown = [at for at in range(which.start, which.stop) if self._numbers[at] == 0]
        told: List[str] = []
        self.service.ask_together([f"? next_number {self.clients[at]}" for at in unknown], told.extend, self.timeout)
        for at, number in zip(unknown, told):
            self._numbers[at] = int(number)

    def _take(self, rows: List[Type[Any]], replies: str) -> None:
        """Takes replies to the next commands, while liq works on. Where somebody rotates nothing counts behind one that
        says that the journal is full: nothing was accepted there, and all was ruled on without it."""
        if self._is_full:
            return
        lines, begin = replies[:-1].split("\n"), len(self._answers)
        answers = rows_of(rows[begin : begin + len(lines)], lines, replies)
        place = begin % len(self.clients)
        numbers = [number + 1 for number in self._numbers[place : place + len(lines)]]
        for at in [at for at, line in enumerate(lines) if line[0] == "n"]:
            refusal = read_refusal(lines[at].split(" "))
            if self.rotating is not None and isinstance(refusal, JournalFull):
                self._is_full = True
                del answers[at:], numbers[at:]
                break
            answers[at] = refusal
            numbers[at] -= 1
        # At once, so that an interrupt finds either both or none.
        self._numbers[place : place + len(numbers)] = numbers
        self._answers += answers


def rows_of(rows: Sequence[Type[Any]], lines: Sequence[str], replies: str) -> List[Answer]:
    """The rows of replies, which are given as lines and as one text; of no use where it is a refusal. All numbers are
    read at once, as JSON, and no row makes a list that the collector of garbage would go through."""
    told = ("\n" + replies).replace("\nok", "").replace("\nno", "")[1:-1].replace(" ", ",")
    numbers = json.loads(f"[{told}]")
    counts = list(map(str.count, lines, repeat(" ")))
    each = zip(rows, counts, accumulate(counts))
    return [new_tuple(row, numbers[end - count : end]) if count else DONE for row, count, end in each]
