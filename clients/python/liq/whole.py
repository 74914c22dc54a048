"""Whole lines alone: a filter in front of `liq run`, for lines that a program writes.

usage: python3 -m liq.whole

A last line without its line end is a line to liq. Where its writer was killed within a number, what is there of the
number counts: 100 for 1000000, answered `ok`, and the whole line sent again gets that `ok` too. So this hands on each
line once it is whole, and a last one that was cut not at all.

It ends with 0; with 1 where the last line was cut, which standard error says, or where it can't read or write.
"""
import os
import sys
from typing import List

from .console import parser_of

PIECE_BYTES = 65536
EXAMPLES = """
python3 -m liq.whole < lines | liq run
awk '{ print 1, NR, "fund", $1, $2 }' list | python3 -m liq.whole | liq run
"""


def write_all(data: bytes) -> None:
    """Writes bytes to standard output, however many calls it takes."""
    while data:
        data = data[os.write(1, data):]


def hand_on() -> bytes:
    """Hands on the lines of standard input, and gives what stands behind the last line end."""
    rest: List[bytes] = []
    while True:
        piece = os.read(0, PIECE_BYTES)
        if not piece:
            return b"".join(rest)
        end = piece.rfind(b"\n") + 1
        if end:
            write_all(b"".join([*rest, piece[:end]]))
            rest = []
        rest.append(piece[end:])


def main(words: List[str]) -> int:
    parser_of("whole", __doc__, EXAMPLES).parse_args(words)
    try:
        cut = hand_on()
    except BrokenPipeError:
        print("whole: nobody reads the lines any more", file=sys.stderr)
        return 1
    except OSError as fault:
        print(f"whole: {fault}", file=sys.stderr)
        return 1
    if cut:
        print(f"whole: the last line was cut behind {len(cut)} bytes, and is not handed on", file=sys.stderr)
    return 1 if cut else 0


def command() -> int:
    """The command, with the words of its process."""
    return main(sys.argv[1:])


if __name__ == "__main__":
    sys.exit(command())
