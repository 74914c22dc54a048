"""Brings a market's clock to the minute that has passed, and its price, through a gateway.

usage: python3 -m liq.feed (--begin TIME | --begin-file FILE) [--price-file FILE | --price-command COMMAND]
           [--price-age N] [--jump N] [--accept-jump] [--look] [--name NAME] [--json] SOCKET

A timer calls it each minute. It asks `? system` for the market's minute, and sends `advance` up to the minute that has
passed since the market's minute 0. The key names the minute that is reached, so a second call counts once, and a call
behind one that was missed makes up for it. --begin is the unix time of minute 0; --begin-file has it, and is made at
the first call, so that the market goes on from the minute where it is.

The price is the first word of a file, or of what a command writes; a second word is the unix time that it is of, which
for a file is else its last change. It is sent once a minute, where it is another than the market's. It is refused where
it is older than --price-age minutes, or is further from the market's than --jump parts in a hundred, unless
--accept-jump says that a person has looked. The clock goes on then. With --look nothing is sent: it tells how far the
market is behind.

It ends with 0; with 1 where the clock or the price was refused, or, with --look, the market is more than a minute
behind; with 2 where the words are not understood.
"""
import argparse
import os
import shlex
import subprocess
import sys
import time
from argparse import Namespace
from pathlib import Path
from typing import Dict, List, NamedTuple, Optional, Union

from .console import add_forms, as_json, as_process, ended, parser_of, refused
from .errors import BadValue, LiqError
from .gateway.caller import Caller, Gone
from .units import lusd, show_lusd

MINUTE = 60
SECONDS_OF_COMMAND = 30
AGE_MOST = 5  # minutes
JUMP_MOST = 20  # parts in a hundred
TEXT_MOST = 100  # characters of a price and its time
NUMBER_MOST = 10**12
WORDS_OF_SYSTEM = 10
EXAMPLES = """
python3 -m liq.feed --begin-file /var/lib/liq-feed/begin --price-file /run/price /run/liq/callers
python3 -m liq.feed --begin 1796169600 --price-command 'ask-price ETH' --price-age 2 --jump 5 /run/liq/callers
python3 -m liq.feed --begin-file /var/lib/liq-feed/begin --look /run/liq/callers
"""


class NotFed(LiqError):
    """The market's clock or its price is not brought further: the text says why."""


class System(NamedTuple):
    """What the market says of itself."""

    price: int
    minute: int


class Price(NamedTuple):
    """A price in millionths, and the unix time that it is of."""

    price: int
    time: float


# ---- the clock


def asked_system(gateway: Caller) -> System:
    """The market's price and minute. Raises `NotFed` where the gateway does not tell them."""
    reply = said(gateway, "? system")
    words = reply.split(" ")
    if len(words) != WORDS_OF_SYSTEM or not all(map(str.isdecimal, words[:2])):
        raise NotFed(f"the gateway does not tell the market's minute: {reply}")
    return System(int(words[0]), int(words[1]))


def said(gateway: Caller, line: str) -> str:
    """The reply to a line. Raises `NotFed` where the gateway ends the connection in place of it."""
    try:
        return gateway.ask(line)
    except Gone as gone:
        raise NotFed(f"the gateway has ended the connection: {gone}".rstrip(": ")) from None


def begin_of(asked: Namespace, minute: int) -> int:
    """The unix time of the market's minute 0. A file that is not there is made, so that the market's minute is now."""
    if asked.begin is not None:
        return int(asked.begin)
    path: Path = asked.begin_file
    if not path.exists() and not asked.look:
        fresh = path.with_name(f"{path.name}.{os.getpid()}")
        with fresh.open("x") as file:
            file.write(f"{int(time.time()) - minute * MINUTE}\n")
            file.flush()
            os.fsync(file.fileno())
        try:
            os.link(fresh, path)  # where another call has made it meanwhile, that one holds
        except FileExistsError:
            pass
        finally:
            fresh.unlink()
    return whole_of(first_words(path)[0], f"{path}: a unix time")


def minute_reached(begin: int, minute: int) -> int:
    """The minute that has passed now. Raises `NotFed` where the market is further."""
    wanted = (int(time.time()) - begin) // MINUTE
    if wanted < minute:
        raise NotFed(
            f"the market's minute is {minute}, and by the clock of this machine it is {wanted}: the clock was set back, or"
            " the time of minute 0 is another")
    return wanted


def send_minute(gateway: Caller, minute: int, wanted: int) -> None:
    """Has the time pass up to a minute, once."""
    if wanted > minute:
        reply = said(gateway, f"minute-{wanted} advance {wanted - minute}")
        if not reply.startswith("ok "):
            raise NotFed(f"the clock stays at minute {minute}: {reply}")


# ---- the price


def first_words(path: Path) -> List[str]:
    """The words of a short text. Raises `NotFed` where there are none, or too many."""
    with path.open("rb") as file:
        return words_of(file.read(TEXT_MOST + 1), str(path))


def words_of(data: bytes, where: str) -> List[str]:
    """A number, and a time where one stands behind it."""
    words = data.decode("ascii", "replace").split()
    if len(data) > TEXT_MOST or len(words) not in (1, 2):
        raise NotFed(f"{where} has not one number, or two, in {TEXT_MOST} characters")
    return words


def whole_of(word: str, what: str) -> int:
    if not (word.isascii() and word.isdecimal() and int(word[:20]) <= NUMBER_MOST):
        raise NotFed(f"{what} is a whole number up to {NUMBER_MOST:,}, and not {word!r}")
    return int(word)


def read_price(asked: Namespace) -> Price:
    """The price of the file or of the command. Raises `NotFed` or `OSError`."""
    if asked.price_file:
        where = str(asked.price_file)
        words, of = first_words(asked.price_file), asked.price_file.stat().st_mtime
    else:
        where = asked.price_command
        words, of = words_of(written_by(asked.price_command), where), time.time()
    try:
        return Price(lusd(words[0]), whole_of(words[1], f"{where}: the time") if words[1:] else of)
    except BadValue as fault:
        raise NotFed(f"{where}: {fault}") from None


def written_by(line: str) -> bytes:
    """What a command writes to standard output. Its words are as a shell's, and no shell reads them."""
    try:
        words = shlex.split(line)
        ran = subprocess.run(
            words, stdin=subprocess.DEVNULL, stdout=subprocess.PIPE, timeout=SECONDS_OF_COMMAND, check=False)
    except subprocess.TimeoutExpired:
        raise NotFed(f"{line} took more than {SECONDS_OF_COMMAND} seconds") from None
    except (ValueError, IndexError) as fault:
        raise NotFed(f"{line!r} is no command: {fault}") from None
    if ran.returncode:
        raise NotFed(f"{line} ended with {ran.returncode}")
    return ran.stdout


def check_price(found: Price, before: int, asked: Namespace) -> None:
    """Raises `NotFed` for a price that is too old, of a time to come, or too far from the one before."""
    age = time.time() - found.time
    if age > asked.price_age * MINUTE:
        raise NotFed(f"the price is {int(age) // MINUTE} minutes old, and may be {asked.price_age}")
    if age < -MINUTE:
        raise NotFed(f"the price is of a time to come, {int(-age) // MINUTE} minutes from now")
    if abs(found.price - before) * 100 > asked.jump * before and not asked.accept_jump:
        raise NotFed(
            f"the price jumps from {show_lusd(before)} to {show_lusd(found.price)}, by more than {asked.jump} parts in a"
            " hundred: look, and then --accept-jump")


def send_price(gateway: Caller, found: Price, minute: int) -> None:
    """Sets the price, once a minute."""
    reply = said(gateway, f"price-{minute} price {found.price}")
    if reply.startswith("refused key "):
        raise NotFed(f"another price was set in minute {minute}: the next call sets this one")
    if reply != "ok":
        raise NotFed(f"the price {show_lusd(found.price)} is not taken: {reply}")


# ---- the call


def fed(asked: Namespace) -> int:
    """Brings clock and price, and tells it."""
    told: Dict[str, Union[int, str, bool]] = {}
    why: Optional[str] = None
    with Caller(asked.socket, asked.name) as gateway:
        system = asked_system(gateway)
        wanted = minute_reached(begin_of(asked, system.minute), system.minute)
        if asked.look:
            return looked(system, wanted, asked.json)
        send_minute(gateway, system.minute, wanted)
        told.update(minute=wanted, advanced=wanted - system.minute)
        if asked.price_file or asked.price_command:
            try:
                found = read_price(asked)
                check_price(found, system.price, asked)
                if found.price != system.price:
                    send_price(gateway, found, wanted)
                told.update(price=show_lusd(found.price), is_new=found.price != system.price)
            except (LiqError, OSError) as fault:
                why = str(fault)
    lines = [f"minute {wanted}, {told['advanced']} further"]
    if why is not None:
        return refused("feed", why, asked.json, lines)
    if "price" in told:
        lines.append(f"price {told['price']}" + ("" if told["is_new"] else ", as before"))
    sys.stdout.write(as_json(told) if asked.json else "\n".join(lines) + "\n")
    return 0


def looked(system: System, wanted: int, is_json: bool) -> int:
    """Tells where the market is."""
    behind = wanted - system.minute
    told = {"minute": system.minute, "behind": behind, "price": show_lusd(system.price)}
    text = f"minute {system.minute}, {behind} behind, price {told['price']}\n"
    sys.stdout.write(as_json(told) if is_json else text)
    return 1 if behind > 1 else 0


def read_number(word: str) -> int:
    """A whole number. Raises BadValue."""
    try:
        return whole_of(word, "N")
    except NotFed as fault:
        raise BadValue(str(fault)) from None


def parser() -> argparse.ArgumentParser:
    made = parser_of("feed", __doc__, EXAMPLES)
    made.add_argument("socket", metavar="SOCKET", help="that of the gateway's callers")
    begin = made.add_mutually_exclusive_group(required=True)
    begin.add_argument("--begin", metavar="TIME", type=read_number, help="the unix time of the market's minute 0")
    begin.add_argument("--begin-file", metavar="FILE", type=Path, help="has it; it is made at the first call")
    price = made.add_mutually_exclusive_group()
    price.add_argument("--price-file", metavar="FILE", type=Path, help="has the price in LUSD, and its time or none")
    price.add_argument("--price-command", metavar="COMMAND", help=f"writes them, in {SECONDS_OF_COMMAND} seconds")
    made.add_argument("--price-age", metavar="N", type=read_number, default=AGE_MOST,
        help=f"how many minutes old the price may be; {AGE_MOST} if left out")
    made.add_argument("--jump", metavar="N", type=read_number, default=JUMP_MOST,
        help=f"how many parts in a hundred it may be from the market's; {JUMP_MOST} if left out")
    made.add_argument("--accept-jump", action="store_true", help="take a price that is further away, this once")
    made.add_argument("--look", action="store_true", help="send nothing, and tell how far the market is behind")
    made.add_argument("--name", metavar="NAME", help="for whom it speaks, which the relay's user may say")
    add_forms(made)
    return made


def main(words: List[str]) -> int:
    asked = parser().parse_args(words)
    return ended("feed", lambda: fed(asked), asked.json)


def command() -> int:
    """The command, with the words of its process."""
    return as_process(main)


if __name__ == "__main__":
    sys.exit(command())
