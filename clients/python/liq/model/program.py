"""The words of liq, by the rules in Python, over the same two files: statuses and last lines are the program's."""
import contextlib
from typing import Callable, Dict, Iterator, List, Optional, Sequence, Tuple

from ..ends import Folder
from ..grammar import NoRequest, Query, Request, read_asked, read_number, read_request
from ..journal import DamagedFile
from ..unproved import admit
from .beside import rewards_text, staking_text
from .files import Pair, Store, take_files
from .follower import Follower
from .owed import audit_text
from .requests import reply_to
from .state import Market
from .streams import LINES_MOST, BadInput, Halt, Lines, Sink, Source
from .told import gen_text, report_text, state_text

USAGE = "usage: liq run, serve, state, audit or gen SEED COUNT"
SESSIONS = "12345678"
COUNT_MOST = 1_000_000
FED_MOST = 2**28
PIECE_BYTES = 4_096
WAITING_MOST = 16_384


class Run:
    """What a word reads, writes and opens."""

    def __init__(self, folder: Folder, source: Source, sink: Sink) -> None:
        self.folder, self.source, self.sink = folder, source, sink
        self.pair: Optional[Pair] = None

    def store(self, keeps_events: bool = False) -> Store:
        """The market on both files. Raises `Halt`."""
        if self.pair is None:
            raise Halt(5, "disk fault")
        with faults_of_files():
            return Store(self.pair, keeps_events)

    def put(self, data: bytes) -> None:
        """Writes bytes. Raises `Halt`."""
        try:
            self.sink.write(data)
        except OSError:
            raise Halt(4) from None

    def tell(self, lines: Sequence[str]) -> None:
        """Writes lines. Raises `Halt`."""
        self.put("".join(f"{line}\n" for line in lines).encode())


@contextlib.contextmanager
def faults_of_files() -> Iterator[None]:
    """Raises `Halt` in the place of what files raise."""
    try:
        yield
    except DamagedFile as fault:
        raise Halt(6, f"damaged {fault.path.stem} {fault.record}") from fault
    except OSError as fault:
        raise Halt(5, "disk fault") from fault


# ---- the words


def answer_run(run: Run) -> None:
    """`run`: a reply for each line. Before a command is carried out all other replies are written, and before the
    source is read."""
    store, lines, waiting = run.store(), Lines(run.source), bytearray()

    def flush() -> None:
        told = bytes(waiting)
        waiting.clear()
        run.put(told)

    try:
        while lines.count < LINES_MOST:
            if not lines.has_whole():
                flush()
            line = lines.next()
            if line is None:
                break
            request = request_of(line, lines.count)
            if isinstance(request, Query):
                told = reply_to(store.market, request)
            else:
                flush()
                with faults_of_files():
                    told = store.carry_out(request)
            waiting += told.encode() + b"\n"
            if len(waiting) > WAITING_MOST:
                flush()
        else:
            flush()
            lines.check_limit()
    finally:
        flush()


def request_of(line: bytes, number: int) -> Request:
    """The request on a line. Raises `Halt`."""
    try:
        return read_request(line.decode("latin-1"))
    except NoRequest:
        raise BadInput(number, line) from None


def answer_serve(run: Run) -> None:
    """`serve`: all lines are read, and answered in their order; then each session's replies are written."""
    scripts = Lines(run.source).all(read_session)
    store = run.store()
    replies: Dict[str, List[str]] = {}
    history = []
    for session, request in scripts:
        told = replies.setdefault(session, [])
        if isinstance(request, Query):
            told.append(reply_to(store.market, request))
        else:
            with faults_of_files():
                told.append(store.carry_out(request))
        history.append(f"{session} {len(told)}")
    blocks = [line for session in sorted(replies) for line in (f"session {session}", *replies[session])]
    run.tell([*blocks, "history", *history])


def read_session(line: str) -> Tuple[str, Request]:
    """A session and its request. Raises NoRequest."""
    session, _, rest = line.partition(" ")
    if len(session) != 1 or session not in SESSIONS:
        raise NoRequest(line)
    return session, read_request(rest)


def tell_state(run: Run) -> None:
    """`state`: what stands."""
    run.tell(state_text(run.store().market))


def tell_report(run: Run) -> None:
    """`report`: the same for programs."""
    run.tell([report_text(run.store().market)])


def tell_audit(run: Run) -> None:
    """`audit`: each depositor beside the exact share."""
    told = audit_text(all_commands(run))
    if told[0].startswith("limit "):
        raise Halt(8, told[0])
    run.tell(told)


def tell_staking(run: Run) -> None:
    """`staking`: what stakers are answered."""
    lines = Lines(run.source).all(checked("staking"))
    market = all_commands(run)
    run.tell(staking_text(market.events or [], market.records, lines))


def tell_rewards(run: Run) -> None:
    """`rewards`: what depositors have earned."""
    lines = Lines(run.source).all(checked("rewards"))
    run.tell(rewards_text(all_commands(run), lines))


def checked(word: str) -> Callable[[str], str]:
    """What gives a line again that is one of a word's. It raises NoRequest."""
    def check(line: str) -> str:
        read_asked(word, line)
        return line

    return check


def all_commands(run: Run) -> Market:
    """The market, with what became of its pool since the beginning. Raises `Halt` behind a rotation."""
    market = run.store(keeps_events=True).market
    if market.generation > 1:
        raise Halt(9, f"rotated {market.generation}")
    return market


def tell_follow(run: Run) -> None:
    """`follow`: what a journal leads to that comes in."""
    follower, room = Follower(), FED_MOST
    try:
        while room:
            piece = run.source.read(min(room, PIECE_BYTES))
            if not piece:
                break
            room -= len(piece)
            follower.feed(piece)
        if not room and run.source.read(1):
            raise Halt(8, f"limit {FED_MOST}")
    except OSError:
        raise Halt(3, "read fault") from None
    run.tell(state_text(follower.market))


WORDS: Dict[str, Callable[[Run], None]] = {
    "run": answer_run, "serve": answer_serve, "state": tell_state, "report": tell_report, "audit": tell_audit,
    "staking": tell_staking, "rewards": tell_rewards, "follow": tell_follow,
}
OPENS = [word for word in WORDS if word != "follow"]


# ---- the whole


def load_of(words: List[str]) -> Optional[Tuple[int, int]]:
    """The seed and the count behind `gen`; None where the words are others."""
    if len(words) != 3 or words[0] != "gen":
        return None
    try:
        seed, count = read_number(words[1]), read_number(words[2], COUNT_MOST)
    except NoRequest:
        return None
    return (seed, count) if count else None


def carry_out(words: List[str], run: Run) -> None:
    """Does what the words ask for. Raises `Halt`."""
    load = load_of(words)
    if load is not None:
        run.tell([gen_text(*load)])
    elif len(words) == 1 and words[0] in WORDS:
        WORDS[words[0]](run)
    else:
        raise Halt(1, USAGE)


def answer(words: List[str], folder: Folder, source: Source, sink: Sink) -> Halt:
    """Carries out words over a folder's files, and gives how that ended: with 0 where all was done. Raises `Unmarked`
    where the files may be a proved program's; then none was opened."""
    run = Run(folder, source, sink)
    if len(words) == 1 and words[0] in OPENS:
        with contextlib.suppress(OSError):  # then there are no files, which each word meets where it comes to them
            admit(folder, "model")
            run.pair = take_files(folder)
    try:
        carry_out(words, run)
        return Halt(0)
    except MemoryError:
        halt = Halt(7, "no memory")
    except Halt as fault:
        halt = fault
    finally:
        if run.pair is not None:
            run.pair.close()
    if halt.last:
        with contextlib.suppress(OSError):
            sink.write(f"{halt.last}\n".encode())
    return halt
