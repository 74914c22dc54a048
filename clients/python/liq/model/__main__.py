"""The words of liq without a program: by the rules in Python (`liq.model`), over the same two files. Unproved.

usage: python3 -m liq.model run|serve|state|report|audit|staking|rewards|follow|gen SEED COUNT

It does what `liq` does with these words, in the folder where it is started: the files, the replies, the statuses and
the last lines are the same. It is slower: `gen` takes some sixty times as long. A market that it begins is marked by a
file `unproved` beside it; files without that mark may be the proved program's, and it opens none: it ends with 70 then.
At a terminal it says that it is unproved, and what is wrong with a line that is no request.
"""
import os
import signal
import sys
from pathlib import Path
from typing import List

from ..unproved import Unmarked
from .program import OPENS, answer
from .streams import BadInput, Halt, Sink, Source

NO_PROGRAM = 70  # as bin/liq ends where it runs nothing


def say(text: str) -> None:
    """A line on standard error."""
    print(f"liq: {text}", file=sys.stderr, flush=True)


def fill_streams() -> None:
    """Opens the null device in the place of each standard stream that is closed, so that no file takes its place."""
    for stream in (0, 1, 2):
        try:
            os.fstat(stream)
        except OSError:
            os.open(os.devnull, os.O_RDONLY)


def begin_at_terminal(words: List[str]) -> None:
    """What a terminal is told before anything is read."""
    say("UNPROVED: the rules in Python (liq.model), and no proved program")
    is_new = not any(path.is_file() and path.stat().st_size for path in map(Path, ("left.liq", "right.liq")))
    if len(words) == 1 and words[0] in OPENS and is_new:
        say(f"no left.liq here, or an empty one: a new market begins in {os.getcwd()}")


def explain(end: Halt, words: List[str]) -> None:
    """What a terminal is told of an end."""
    if isinstance(end, BadInput):
        from ..why import why, why_asked  # only here: a run that goes well wants neither

        line = end.line.decode("latin-1")
        say(f"line {end.number}: {why_asked(words[0], line) if words[0] != 'run' else why(line)}")
    elif end.__cause__ is not None:
        say(str(end.__cause__))


def run_words(words: List[str]) -> int:
    """Carries out words, and gives the status."""
    if words and words[0] in ("-h", "--help"):
        Sink(1).write(f"{(__doc__ or '').strip()}\n".encode())
        return 0
    fill_streams()
    is_terminal = os.isatty(2)
    if is_terminal:
        begin_at_terminal(words)
    try:
        end = answer(words, Path("."), Source(0), Sink(1))
    except Unmarked as fault:
        say(str(fault))
        return NO_PROGRAM
    if is_terminal:
        explain(end, words)
    return end.status


def command() -> int:
    """The command, with the words of its process. A signal ends it as it ends the program."""
    signal.signal(signal.SIGINT, signal.SIG_DFL)
    return run_words(sys.argv[1:])


if __name__ == "__main__":
    sys.exit(command())
