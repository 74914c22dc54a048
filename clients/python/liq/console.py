"""What the package's commands share: their words, the forms of what they tell, and how they end.

Each command is `python3 -m liq.NAME`, and `--help` has its description, its words and examples. What it tells is text;
`--json` makes it one object, and `--csv` rows under their heads, where it tells rows. It ends with 0; with 1 where it
finds something or refuses; with 2 where its words are not understood.
"""
import argparse
import csv
import io
import json
import os
import re
import sys
from typing import Any, Callable, Dict, Iterable, Iterator, List, Optional, Sequence

from .errors import BadValue, LiqError
from .version import __version__

SECONDS_MOST = 10**9
NUMBER = re.compile("-|-?[0-9./]+").fullmatch


def parser_of(name: str, said: Optional[str], examples: str) -> argparse.ArgumentParser:
    """A parser for the words of `python3 -m liq.NAME`. `said` is the text at the head of its module, of which usage and
    options are left out; `examples` are a line each."""
    parts = [part for part in (said or "").strip().split("\n\n") if not part.startswith(("usage: ", "--"))]
    listed = "\n".join(f"  {line.strip()}" for line in examples.strip().splitlines())
    parser = argparse.ArgumentParser(
        prog=f"python3 -m liq.{name}", description="\n\n".join(parts), epilog=f"examples:\n{listed}",
        formatter_class=argparse.RawDescriptionHelpFormatter, allow_abbrev=False)
    parser.add_argument("--version", action="version", version=f"liq.{name} {__version__}")
    return parser


def add_forms(parser: argparse.ArgumentParser, rows: bool = False) -> None:
    """Takes --json, and --csv where there are rows."""
    forms = parser.add_mutually_exclusive_group()
    forms.add_argument("--json", action="store_true", help="what it tells as one object")
    if rows:
        forms.add_argument("--csv", action="store_true", help="the rows alone, under their heads")


def add_seconds(parser: argparse.ArgumentParser, seconds: int) -> None:
    """Takes --seconds."""
    said = f"the most time that it may take; {seconds} if left out"
    parser.add_argument("--seconds", metavar="N", type=read_seconds, default=seconds, help=said)


def read_seconds(word: str) -> int:
    """A bound on time, in whole seconds. Raises BadValue."""
    if not word.isdecimal() or not word.isascii() or not 1 <= int(word) <= SECONDS_MOST:
        raise BadValue(f"N is from 1 to {SECONDS_MOST:,}, and not {word!r}")
    return int(word)


# ---- what is told


def aligned(heads: Sequence[str], rows: Iterable[Sequence[object]]) -> Iterator[str]:
    """Rows under their heads: numbers stand to the right, all else to the left. None says a hyphen."""
    texts = [tuple(heads), *(tuple("-" if value is None else str(value) for value in row) for row in rows)]
    widths = [max(map(len, column)) for column in zip(*texts)]
    is_number = [len(texts) > 1 and all(map(NUMBER, column)) for column in zip(*texts[1:])] or [False] * len(widths)
    for text in texts:
        cells = zip(text, widths, is_number)
        yield "  ".join(it.rjust(width) if number else it.ljust(width) for it, width, number in cells).rstrip()


def as_csv(heads: Sequence[str], rows: Iterable[Sequence[object]]) -> str:
    """Rows as CSV, under their heads. None says nothing."""
    made = io.StringIO()
    writer = csv.writer(made, lineterminator="\n")
    writer.writerow(heads)
    writer.writerows(rows)
    return made.getvalue()


def as_json(told: object) -> str:
    """What is told as JSON. Whole numbers are whole, however long they are."""
    return json.dumps(told, indent=1) + "\n"


# ---- how it ends


def ended(name: str, call: Callable[[], int], is_json: bool = False) -> int:
    """The status of a command, whose work is a call. Where it refuses, that is told: on standard output, as a line
    `NAME refuses: WHY`, or as the object `{"refused": WHY}`."""
    try:
        return call()
    except (LiqError, OSError) as fault:
        return refused(name, str(fault), is_json)
    except MemoryError:
        return refused(name, "there is not enough memory", is_json)


class Output(io.FileIO):
    """Standard output. Where its reader goes, as `head` does, what is written behind that is lost without a word, and
    the command comes to its end and its status as it would have."""

    def write(self, data: Any) -> int:
        try:
            return super().write(data) or 0
        except BrokenPipeError:
            return memoryview(data).nbytes


def as_process(main: Callable[[List[str]], int]) -> int:
    """The status of a command, with the words, and the output, of its process."""
    out = sys.stdout
    if not isinstance(out, io.TextIOWrapper):  # as where standard output is closed
        return main(sys.argv[1:])
    into = io.BufferedWriter(Output(out.fileno(), "w", closefd=False))
    sys.stdout = io.TextIOWrapper(into, out.encoding, out.errors, line_buffering=out.line_buffering)
    status = main(sys.argv[1:])
    try:
        sys.stdout.flush()
    except OSError as fault:  # as where a file system is full
        print(f"liq: standard output can't be written: {fault.strerror}", file=sys.stderr)
        os.dup2(os.open(os.devnull, os.O_WRONLY), out.fileno())  # for what Python writes at its end
        return 1
    return status


def refused(name: str, why: str, is_json: bool = False, behind: Sequence[str] = ()) -> int:
    """Tells that a command refuses, and what it says behind that. Gives the status."""
    if is_json:
        told: Dict[str, object] = {"refused": why}
        if behind:
            told["behind"] = list(behind)
        sys.stdout.write(as_json(told))
    else:
        print("\n".join([f"{name} refuses: {why}", *behind]))
    return 1


def rows_of(rows: Iterable[Any]) -> List[Any]:
    """Named tuples as objects."""
    return [row._asdict() for row in rows]
