"""A prompt for a market: verbs and queries are typed, replies come with names and units.

usage: python3 -m liq.prompt [FOLDER|SOCKET] [--client N] [--create] [--model]

    open 1 10ether 4000lusd        hints and the bound on the fee may be left out: none, and any
    price 460lusd                  amounts are 10ether, 4000lusd, 5%, any; or whole numbers in the smallest unit
    adjust 1 borrow 500lusd        in, out, borrow and repay stand in front of their amounts
    advance 12h                    minutes, or 30min, 12h, 14d
    trove 1                        a query; the trove's ratio comes with it
    client 2    again    help [VERB]    quit

Client and number are put in front of a verb, and the line that is sent is shown. What is no request is not sent. Over
a FOLDER it is a run of the program (`--create` where a market may begin), or the rules in Python where the market is
theirs or --model says so; over a SOCKET a gateway, under keys of its own; and without either a market in memory, by the
rules in Python, of which nothing is kept. Arrows go back to earlier lines, the tabulator completes.
"""
import contextlib
import os
import re
import secrets
import stat
import sys
from decimal import Decimal
from pathlib import Path
from typing import Dict, Iterator, List, NamedTuple, Optional, Sequence

from .console import as_process, parser_of
from .ends import NoJournal
from .errors import BadValue, LiqError
from .grammar import NAMES, QUERIES, NoRequest, read_request
from .journal import VERBS
from .lender import ratio
from .refusals import BY_CODE, read_refusal
from .replies import BY_QUERY, BY_VERB, Trove, told_fields
from .service import is_market
from .units import ANY_FEE, ether, lusd, show_ether, show_lusd
from .unproved import is_marked
from .why import why, why_call

EXAMPLES = """
python3 -m liq.prompt
python3 -m liq.prompt market --client 2
python3 -m liq.prompt /run/liq/callers
"""
AMOUNT = re.compile(r"([0-9]+(?:\.[0-9]+)?)(ether|eth|gwei|lusd|%|min|h|d)").fullmatch
MINUTES = {"min": 1, "h": 60, "d": 1440}
PARTS = ("in", "out", "borrow", "repay")  # of `adjust`, in the order of its words
UNITS: Dict[str, str] = {  # of the names of a reply's values
    **dict.fromkeys((
        "coll", "gain", "gas", "pool_coll", "spread_coll", "surplus", "drawn", "active_coll", "default_coll",
        "fee_coll", "total_coll",
    ), "ether"),
    **dict.fromkeys((
        "debt", "lusd", "pool_debt", "spread_debt", "repaid", "price", "active_debt", "default_debt", "reserve",
        "fee_lusd", "pool_lusd", "paid", "amount", "redeemed", "balance", "total_debt", "net", "total",
    ), "LUSD"),
    **dict.fromkeys(("base", "base_rate", "bound"), "%"),
    **dict.fromkeys(("minute", "fee_minute"), "min"),
}
OF_VERBS = {("fee", "redeem"): "ether", ("fee", "open"): "LUSD", ("fee", "adjust"): "LUSD"}
OF_REFUSALS = {  # the unit of values whose names don't say it, by codes
    **dict.fromkeys((14,), "ether"), **dict.fromkeys((15, 24, 51, 62), "LUSD"), 63: "ether",
}
PRODUCTS = ("left", "right")  # both sides of a comparison, which say nothing to a reader
WORDS = ("client", "again", "help", "quit")
HISTORY = 1000  # lines that are kept


class Told(NamedTuple):
    """A line that was sent, its reply, and whether that is a kept one."""

    line: str
    reply: str
    is_kept: bool


# ---- what is asked


class Market:
    """What answers. `begun` says what it is."""

    begun = ""

    def ask(self, line: str) -> str:
        """The reply to a line."""
        raise NotImplementedError

    def send(self, client: int, call: str) -> Told:
        """Sends a command under the client's next number."""
        query = f"? next_number {client}"
        number = self.ask(query)
        if not number.isdigit():
            return Told(query, number, False)
        line = f"{client} {number} {call}"
        return Told(line, self.ask(line), False)

    def again(self, line: str) -> Told:
        """Sends a line as it is, perhaps once more."""
        client, number = ("", "") if line.startswith("?") else line.split(" ")[:2]
        is_kept = bool(number) and self.ask(f"? next_number {client}") == str(int(number) + 1)
        return Told(line, self.ask(line), is_kept)


class InMemory(Market):
    """A market by the rules in Python, of which nothing is kept."""

    begun = "a new market in memory, by the rules in Python: unproved, and nothing is kept"

    def __init__(self) -> None:
        from .model import Market as Model

        self.market = Model()

    def ask(self, line: str) -> str:
        from .model import answer

        return answer(self.market, line)


class ByModel(Market):
    """The files of a folder, by the rules in Python."""

    def __init__(self, folder: Path) -> None:
        from .guard import Held
        from .model.files import Store, take_files
        from .unproved import admit

        admit(folder, "model")
        try:
            self.pair = take_files(folder)
        except BlockingIOError:
            raise Held(folder) from None
        self.store = Store(self.pair)
        self.begun = f"the market in {folder}, by the rules in Python: unproved"

    def ask(self, line: str) -> str:
        from .grammar import Query
        from .model.requests import reply_to

        request = read_request(line)
        return reply_to(self.store.market, request) if isinstance(request, Query) else self.store.carry_out(request)


class ByProgram(Market):
    """A run of the program over a folder."""

    def __init__(self, folder: Path, creates: bool) -> None:
        from .service import Service

        self.service = Service(folder, create="if missing" if creates else False)
        self.begun = f"a run of {self.service.program} in {folder}"

    def ask(self, line: str) -> str:
        return " ".join(self.service.ask(line))


class ByGateway(Market):
    """A gateway: client and number are its own, and each command has a key."""

    def __init__(self, socket: Path, name: Optional[str]) -> None:
        from .gateway.caller import Caller

        self.caller, self.key = Caller(socket, name), f"prompt-{secrets.token_hex(4)}"
        self.count = 0
        self.sent: Dict[str, str] = {}
        self.begun = f"the gateway at {socket}"

    def ask(self, line: str) -> str:
        return self.caller.ask(line)

    def send(self, client: int, call: str) -> Told:
        self.count += 1
        line = f"{self.key}-{self.count} {call}"
        return Told(line, self.ask(line), False)

    def again(self, line: str) -> Told:
        return Told(line, self.ask(line), not line.startswith("?"))


@contextlib.contextmanager
def opened(place: Optional[Path], creates: bool, by_model: bool, name: Optional[str]) -> Iterator[Market]:
    """What answers at a place."""
    with contextlib.ExitStack() as stack:
        if place is None:
            yield InMemory()
        elif place.exists() and stat.S_ISSOCK(place.stat().st_mode):
            gateway = ByGateway(place, name)
            stack.callback(gateway.caller.close)
            yield gateway
        elif by_model or is_marked(place):
            if creates:
                place.mkdir(exist_ok=True)
            elif not is_market(place):
                raise NoJournal(place)
            model = ByModel(place)
            stack.callback(model.pair.close)
            yield model
        else:
            program = ByProgram(place, creates)
            stack.callback(program.service.close)
            yield program


# ---- what is typed


def amount(word: str) -> str:
    """A word with its unit read: an amount in the smallest unit, or the word as it is. Raises BadValue."""
    if word.lower() == "any":
        return str(ANY_FEE)
    found = AMOUNT(word.lower())
    if not found:
        return word
    number, unit = found.groups()
    if unit in MINUTES:
        value = Decimal(number) * MINUTES[unit]
        if value != int(value):
            raise BadValue(f"{word} is no whole number of minutes")
        return str(int(value))
    if unit == "%":
        return str(lusd(number) * 10**10)
    return str(lusd(number) if unit == "lusd" else ether(number) if unit != "gwei" else int(number))


def call_of(typed: str) -> str:
    """A command as it is sent, behind client and number: units are read, and what may be left out is put in."""
    verb, *given = typed.split()
    if verb == "adjust" and any(word in PARTS for word in given):
        given = spread(given)
    given = [amount(word) for word in given]
    names = NAMES[verb].split() if verb in VERBS else []
    if "BOUND" in names and len(given) == names.index("BOUND"):
        given.append(str(ANY_FEE))
    if "HINT" in names and len(given) == names.index("HINT"):
        given += ["-", "-"]
    return " ".join([verb, *given])


def spread(given: Sequence[str]) -> List[str]:
    """The words of `adjust` where its amounts have names: all four in their order, 0 where there is none."""
    account, rest = given[0], list(given[1:])
    amounts: Dict[str, str] = {}
    while len(rest) > 1 and rest[0] in PARTS:
        amounts[rest[0]] = rest[1]
        rest = rest[2:]
    return [account, *(amounts.get(part, "0") for part in PARTS), *rest]


# ---- what is told


def shown(name: str, value: int, unit: Optional[str]) -> str:
    """A value with its name and its unit."""
    name = name.replace("_", " ")
    if unit == "ether":
        return f"{name} {show_ether(value)} ether"
    if unit == "LUSD":
        return f"{name} {show_lusd(value)} LUSD"
    if unit == "%":
        return f"{name} {show_lusd(value // 10**10)}%"
    return f"{name} {value}" + (f" {unit}" if unit else "")


def named(name: str, words: Sequence[str]) -> str:
    """The values of a reply under their names."""
    if name == "next_number":
        return f"number {words[0]}"
    row = BY_VERB.get(name) or BY_QUERY[name]
    units = [OF_VERBS.get((field, name)) or UNITS.get(field) for field in told_fields(row)]
    if name == "system":
        units[told_fields(row).index("stakes")] = "ether"
    told = [shown(field, int(word), unit) for field, word, unit in zip(told_fields(row), words, units)]
    if name == "trove":
        told[-1] = shown("stake", int(words[-1]), "ether")
    return ", ".join(told)


def refused(words: Sequence[str]) -> str:
    """A refusal with its values and its advice."""
    refusal = read_refusal(words)
    kind = type(refusal)
    unit = OF_REFUSALS.get(refusal.code)
    told = [(field, value) for field, value in zip(kind.fields, refusal.values) if field not in PRODUCTS]
    values = ", ".join(shown(field, value, unit or UNITS.get(field)) for field, value in told)
    said = " ".join((kind.__doc__ or "").split()) if refusal.code in BY_CODE else "a refusal that is not known here"
    return f"refused: {said}" + (f" ({values})" if values else "") + (
        f" What to do: {refusal.advice.replace('`', '')}" * bool(refusal.advice))


class Prompt:
    """A market at a prompt, and the client whose commands are typed."""

    def __init__(self, market: Market, client: int) -> None:
        self.market, self.client, self.last = market, client, ""

    def answer(self, typed: str) -> List[str]:
        """What is told to a line that was typed. Raises LiqError."""
        first, *rest = typed.split()
        if first == "help":
            return help_on(rest)
        if first == "client" and len(rest) == 1 and rest[0].isdigit():
            self.client = int(rest[0])
            return [f"commands are client {self.client}'s"]
        if first == "again":
            return self.told(self.market.again(self.last)) if self.last else ["nothing was sent yet"]
        if first in QUERIES or first == "?":
            return self.query(rest if first == "?" else [first, *rest])
        if first[0].isdigit():
            return self.whole(typed)
        call = call_of(typed)
        said = why_call(call)
        if said:
            return [f"not sent: {said}", *help_on([first])[: first in NAMES]]
        told = self.market.send(self.client, call)
        self.last = told.line
        return self.told(told)

    def query(self, words: Sequence[str]) -> List[str]:
        """The reply to a query, with its names."""
        line = " ".join(["?", *words])
        said = why(line)
        if said:
            return [f"not sent: {said}"]
        reply = self.market.ask(line).split(" ")
        if reply[0] in ("no", "refused"):
            return [refused(reply) if reply[0] == "no" else " ".join(reply)]
        if reply == ["none"]:
            return ["none"]
        told = named(words[0], reply)
        return [f"{told}, {self.ratio(words[1], reply)}" if words[0] == "trove" else told]

    def ratio(self, account: str, reply: Sequence[str]) -> str:
        """A trove's ratio at the market's price."""
        asked = self.market.ask("? system").split(" ")
        if not asked[0].isdigit():  # as where a gateway's table does not allow it
            return "its price may not be asked"
        found = ratio(Trove(int(account), *map(int, reply)), int(asked[0]), 2)
        return f"ratio {found}% at {show_lusd(int(asked[0]))} LUSD"

    def whole(self, typed: str) -> List[str]:
        """The reply to a line that has client and number."""
        said = why(typed)
        if said:
            return [f"not sent: {said}"]
        told = self.market.again(typed)
        self.last = typed
        return self.told(told)

    def told(self, told: Told) -> List[str]:
        """A line that was sent, its reply, and what that says."""
        words = told.reply.split(" ")
        lines = [f"sent: {told.line}", told.reply]
        if words[0] == "no":
            lines.append(refused(words))
        elif words[0] == "ok" and len(words) > 1:
            lines.append(named(verb_of(told.line), words[1:]))
        if told.is_kept and words[0] == "ok":
            lines.append("that is the reply which was kept: the command is carried out once, and was before")
        return lines


def verb_of(line: str) -> str:
    """The verb of a line that was sent, to liq or to a gateway."""
    return next(word for word in line.split(" ") if word in VERBS)


def help_on(words: Sequence[str]) -> List[str]:
    """What there is to type."""
    names = [word for word in words if word in NAMES]
    if names:
        return [f"{name} {NAMES[name]}".rstrip() for name in names]
    parts = (__doc__ or "").split("\n\n")
    listed = [f"    {name} {NAMES[name]}".rstrip() for name in (*VERBS, *QUERIES)]
    return [parts[2], "", *listed]


# ---- the terminal


def set_up_history() -> None:
    """History and completion by readline, where it is there."""
    try:
        import readline
    except ImportError:
        return
    path = Path(os.environ.get("XDG_STATE_HOME") or Path.home() / ".local/state", "liq-prompt")
    names = sorted({*VERBS, *QUERIES, *WORDS, *PARTS, "any"})

    def complete(begin: str, place: int) -> Optional[str]:
        fit = [f"{name} " for name in names if name.startswith(begin)]
        return fit[place] if place < len(fit) else None

    readline.set_completer(complete)
    readline.set_completer_delims(" ")
    readline.parse_and_bind("tab: complete")
    readline.set_history_length(HISTORY)
    with contextlib.suppress(OSError):
        readline.read_history_file(path)
    import atexit

    atexit.register(save_history, path)


def save_history(path: Path) -> None:
    """Keeps what was typed, for its owner alone."""
    import readline

    with contextlib.suppress(OSError):
        path.parent.mkdir(parents=True, exist_ok=True)
        os.close(os.open(path, os.O_WRONLY | os.O_CREAT, 0o600))
        readline.write_history_file(path)


def typed_lines(prompt: Prompt) -> Iterator[str]:
    """What is typed, up to the end. Ctrl-C gives up a line."""
    is_terminal = sys.stdin.isatty()
    if is_terminal:
        set_up_history()
    while True:
        try:
            yield input(f"client {prompt.client}> " if is_terminal else "").strip()
        except EOFError:
            if is_terminal:
                print()
            return
        except KeyboardInterrupt:
            print()


def serve(prompt: Prompt) -> int:
    """Answers what is typed. Gives the status: 1 where the market has ended."""
    if sys.stdin.isatty():
        print(f"liq.prompt: {prompt.market.begun}. `help` says what there is, Ctrl-D ends.")
    for typed in typed_lines(prompt):
        if typed in ("quit", "exit"):
            return 0
        if not typed:
            continue
        try:
            told = prompt.answer(typed)
        except (BadValue, NoRequest) as fault:
            told = [f"not sent: {fault}"]
        print(*told, sep="\n", flush=True)
    return 0


def main(words: List[str]) -> int:
    parser = parser_of("prompt", __doc__, EXAMPLES)
    said_of_place = "a market's folder, or a gateway's socket"
    parser.add_argument("place", metavar="FOLDER|SOCKET", nargs="?", type=Path, help=said_of_place)
    parser.add_argument("--client", metavar="N", type=int, default=1, help="whose commands are typed; 1 if left out")
    parser.add_argument("--create", action="store_true", help="begin a market where the folder has none")
    parser.add_argument("--model", action="store_true", help="by the rules in Python, and no program")
    parser.add_argument("--name", metavar="NAME", help="for whom a gateway's relay speaks")
    asked = parser.parse_args(words)
    try:
        with opened(asked.place, asked.create, asked.model, asked.name) as market:
            return serve(Prompt(market, asked.client))
    except (LiqError, OSError) as fault:
        print(f"prompt: {fault}", file=sys.stderr)
        return 1


def command() -> int:
    """The command, with the words of its process."""
    return as_process(main)


if __name__ == "__main__":
    sys.exit(command())
