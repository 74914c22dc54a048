"""Lines of standard input to a gateway, replies to standard output: by hand, and as ssh's forced command.

usage: python3 -m liq.gateway.speak SOCKET [NAME]

With NAME it says first for whom it speaks, which the gateway takes from the relay's user alone. In `authorized_keys` of
that user, a line for each caller's key:

    restrict,command="cd / && PYTHONPATH=.. python3 -m liq.gateway.speak /run/liq/callers alice" ssh-ed25519 AAAA..

It ends with 0 once the gateway has closed the connection, behind all replies; with 1 where there is none,
and without a word where nobody reads the replies any more.
"""
import contextlib
import os
import socket
import sys
import threading
from typing import List

from ..console import as_process, parser_of

PIECE_BYTES = 65536
EXAMPLES = """
echo 'order-1 fund 1 1000' | python3 -m liq.gateway.speak /run/liq/callers
echo '? wallet 1' | python3 -m liq.gateway.speak callers alice
python3 -m liq.gateway.speak counts < /dev/null
"""


def send_all(to: socket.socket) -> None:
    """Sends what comes in, and that it has ended."""
    with contextlib.suppress(OSError):
        while True:
            piece = os.read(0, PIECE_BYTES)
            if not piece:
                break
            to.sendall(piece)
        to.shutdown(socket.SHUT_WR)


def main(words: List[str]) -> int:
    parser = parser_of("gateway.speak", __doc__, EXAMPLES)
    parser.add_argument("socket", metavar="SOCKET", help="that of the gateway, or of its counts")
    parser.add_argument("name", metavar="NAME", nargs="?", help="for whom it speaks, which the relay's user may say")
    asked = parser.parse_args(words)
    to = socket.socket(socket.AF_UNIX, socket.SOCK_STREAM)
    try:
        to.connect(asked.socket)
        if asked.name is not None:
            to.sendall(f"as {asked.name}\n".encode("ascii"))
        threading.Thread(target=send_all, args=(to,), daemon=True).start()
        while True:
            piece = to.recv(PIECE_BYTES)
            if not piece:
                return 0
            while piece:
                try:
                    piece = piece[os.write(1, piece):]
                except BrokenPipeError:
                    return 1  # nobody reads the replies
    except (OSError, UnicodeEncodeError) as fault:
        print(f"speak: {fault}", file=sys.stderr)
        return 1


def command() -> int:
    """The command, with the words of its process."""
    return as_process(main)


if __name__ == "__main__":
    sys.exit(command())
