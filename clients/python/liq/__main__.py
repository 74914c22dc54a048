"""The commands of this package.

usage: python3 -m liq [NAME WORDS]

Without words it lists them, a line each. `python3 -m liq NAME WORDS` is `python3 -m liq.NAME WORDS`.
"""
import importlib
import sys
from typing import Dict, List, NamedTuple

from .console import as_process
from .version import __version__


class Command(NamedTuple):
    """A command: the module that has its `main`, its words, and what it does."""

    module: str
    words: str
    does: str


COMMANDS: Dict[str, Command] = {
    "guard": Command("guard", "FOLDER", "looks before a start for what liq would not see"),
    "whole": Command("whole", "", "hands on whole lines alone, in front of a run"),
    "backup": Command("backup", "FOLDER DIR", "copies a market, also beside a run"),
    "restore": Command("restore", "COPY FOLDER", "brings a copy back, with note, archive and book"),
    "failed": Command("failed", "FOLDER", "why a unit has ended, and what brings it back"),
    "archive": Command("archive", "FOLDER DIR", "keeps what rotations leave behind"),
    "statement": Command("statement", "FOLDER", "who has what by the files alone, to be signed"),
    "recheck": Command("recheck", "FOLDER", "an audit with arithmetic of its own, beside that of liq"),
    "across": Command("across", "--archive DIR WORD FOLDER", "what `audit` and the like tell behind rotations"),
    "prompt": Command("prompt", "[FOLDER|SOCKET]", "a prompt: verbs are typed, replies come with names"),
    "why": Command("why", "LINE", "what is wrong with a line"),
    "page": Command("page", "FOLDER", "a page of a market: what falls at which price"),
    "gateway": Command("gateway.__main__", "FOLDER --socket PATH --table FILE", "a socket in front of a run"),
    "feed": Command("feed", "--begin-file FILE SOCKET", "brings clock and price to a market behind a gateway"),
    "gateway.speak": Command("gateway.speak", "SOCKET [NAME]", "lines to a gateway, replies back"),
}


def listed() -> List[str]:
    """What there is, a line each."""
    width = max(len(f"{name} {each.words}") for name, each in COMMANDS.items())
    return [
        f"liq {__version__}: a client for liq. python3 -m liq.NAME --help has all words and examples.", "",
        *(f"python3 -m liq.{f'{name} {each.words}':{width}}  {each.does}" for name, each in COMMANDS.items()),
    ]


def main(words: List[str]) -> int:
    if not words or words[0] in ("-h", "--help"):
        print("\n".join(listed()))
        return 0
    if words[0] == "--version":
        print(f"liq {__version__}")
        return 0
    if words[0] not in COMMANDS:
        print(f"liq: {words[0]} is no command of python3 -m liq: {', '.join(COMMANDS)}", file=sys.stderr)
        return 2
    status: int = importlib.import_module(f".{COMMANDS[words[0]].module}", "liq").main(words[1:])
    return status


if __name__ == "__main__":
    sys.exit(as_process(main))
