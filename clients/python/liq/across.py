"""What `audit`, `staking` and `rewards` would tell of a rotated market, whose generations an archive has kept.

usage: python3 -m liq.across [--seconds N] --archive DIR [--json|--csv] audit|staking|rewards FOLDER < LINES

The word of the program ends with 9 behind a rotation, since the commands before it are gone from the files. This goes
through all generations by `liq.model`, from the first one on, as one history, and writes what the word would write. The
lines are those of the word; `audit` takes none. AT of a staker's line counts the records of all generations, one behind
the other; a rotation is none of them. At a terminal the names of the columns come on standard error.

It ends with 0; with 1 where it refuses, as of an archive that does not begin with the first generation, or where
`audit` has a limit; and with 2 where the words are not understood.
"""
import sys
from typing import Any, Dict, List, NamedTuple, Optional

from .archive import Generations, Kept, NotArchived, named_in, sources
from .backup import backup
from .console import add_forms, add_seconds, as_csv, as_json, as_process, ended, parser_of, rows_of
from .ends import Folder, TooMuch, Unfit
from .grammar import read_asked
from .history import begun, replay, rotated
from .journal import BYTES_MOST, RECORD_BYTES
from .model import Market, NoRequest
from .model.beside import rewards_text, staking_text
from .model.owed import audit_text
from .progress import Bar
from .recheck import SECONDS
from .scratch import bounded, scratch
from .service import LINES_OF_A_RUN
from .words import AuditRow, RewardRow, StakeRow, read_rewards, read_staking

EXAMPLES = """
python3 -m liq.across --archive archive audit market
echo '2 7 stake 5' | python3 -m liq.across --archive archive staking market
python3 -m liq.across --archive archive --csv rewards market < tags > rewards.csv
"""
COLUMNS = {"audit": AuditRow._fields, "staking": StakeRow._fields, "rewards": RewardRow._fields}


class NoLine(Unfit):
    """A line, counted from 1, is none of the word's."""

    def __init__(self, word: str, line: int) -> None:
        super().__init__(word, line)
        self.word, self.line = word, line

    def __str__(self) -> str:
        return f"line {self.line} is none of {self.word}"


class Past(NamedTuple):
    """A market whose events were kept since its beginning, and how many records of all generations led to it. An
    event's record is counted in these."""

    market: Market
    records: int


def past_of(
    folder: Folder, archive: Optional[Folder] = None, named: Optional[List[Kept]] = None, bar: Optional[Bar] = None
) -> Past:
    """The whole past of a folder's market, by the copies that an archive has, or had (`sources`). Raises `NotArchived`
    where its first generation is not there, `DamagedFile` where a generation is not as the rules have it, or does not
    lead to the next."""
    market: Optional[Market] = None
    records, bar = 0, bar or Bar()
    found = sources(folder, archive, named)
    bar.begin("records", sum(source.path.stat().st_size // RECORD_BYTES for source in found))
    for disk in Generations(found, BYTES_MOST):
        if market is None and disk.checkpoint:
            why = f"the generations before {disk.generation} are missing"
            raise NotArchived(archive if archive is not None else folder, why)
        market = begun(disk) if market is None else rotated(market, disk)
        events = market.events = market.events or []
        before = len(events)
        replay(market, disk, bar.each)
        events[before:] = [event._replace(record=event.record + records) for event in events[before:]]
        records += len(disk.commands)
    assert market
    return Past(market, records)


def told(word: str, past: Past, lines: List[str]) -> List[str]:
    """What a word tells. Raises `NoLine`."""
    for at, line in enumerate(lines, 1):
        try:
            read_asked(word, line)
        except NoRequest:
            raise NoLine(word, at) from None
    if word == "audit":
        return audit_text(past.market)
    if word == "staking":
        return staking_text(past.market.events or [], past.records, lines)
    return rewards_text(past.market, lines)


def across(
    word: str, folder: Folder, archive: Optional[Folder] = None, lines: Optional[List[str]] = None,
    bar: Optional[Bar] = None,
) -> List[str]:
    """What a word tells of a folder's market and of its archive, on copies."""
    named = named_in(archive, folder) if archive is not None else None
    with scratch(folder, "liq-across") as room:
        backup(folder, room, bar=bar)
        return told(word, past_of(room, archive, named, bar), lines or [])


class Parts(NamedTuple):
    """What a word tells, in parts: its rows, the replies to lines, and what stands in its last line."""

    rows: List[Any]
    replies: List[str]
    sums: Dict[str, int]


def parts_of(word: str, said: List[str], count: int) -> Parts:
    """The parts of what a word told to so many lines."""
    if said[0].startswith("limit "):
        return Parts([], [], {"limit": int(said[0].split(" ")[1])})
    if word == "audit":
        _, within, _, of = said[-1].split(" ")
        rows = [AuditRow(*map(int, line.split(" "))) for line in said[:-1]]
        return Parts(rows, [], {"within": int(within), "of": int(of)})
    if word == "staking":
        stakes = read_staking(said, count)
        sums = {"unshared_coll": stakes.unshared_coll, "unshared_lusd": stakes.unshared_lusd}
        return Parts(stakes.rows, said[:count], sums)
    rewards = read_rewards(said, count)
    return Parts(rewards.rows, said[:count], {"issued": rewards.issued, "unshared": rewards.unshared})


def read_lines() -> List[str]:
    """The lines of standard input, of which there may be 1,000,000. They are bytes, whatever the locale is."""
    lines = []
    for line in sys.stdin.buffer:
        lines.append((line[:-1] if line.endswith(b"\n") else line).decode("latin-1"))
        if len(lines) > LINES_OF_A_RUN:
            raise TooMuch("the input has", LINES_OF_A_RUN, "lines")
    return lines


def main(words: List[str]) -> int:
    parser = parser_of("across", __doc__, EXAMPLES)
    parser.add_argument("word", metavar="audit|staking|rewards", choices=sorted(COLUMNS), help="the word of the program")
    parser.add_argument("folder", metavar="FOLDER", help="the market's folder")
    said_of_archive = "the generations before, as liq.archive keeps them"
    parser.add_argument("--archive", metavar="DIR", required=True, help=said_of_archive)
    add_seconds(parser, SECONDS)
    add_forms(parser, rows=True)
    asked = parser.parse_args(words)

    def tell() -> int:
        with bounded(asked.seconds), Bar() as bar:
            lines = read_lines() if asked.word != "audit" else []
            said = across(asked.word, asked.folder, asked.archive, lines, bar)
        parts = parts_of(asked.word, said, len(lines))
        if asked.json:
            told = {"word": asked.word, "rows": rows_of(parts.rows), "replies": parts.replies, **parts.sums}
            sys.stdout.write(as_json(told))
        elif asked.csv:
            sys.stdout.write(as_csv(COLUMNS[asked.word], parts.rows))
        else:
            if sys.stdout.isatty():
                print(f"liq: {' '.join(COLUMNS[asked.word])}", file=sys.stderr)
            sys.stdout.write("".join(f"{line}\n" for line in said))
        return 1 if "limit" in parts.sums else 0

    return ended("across", tell, asked.json)


def command() -> int:
    """The command, with the words of its process."""
    return as_process(main)


if __name__ == "__main__":
    sys.exit(command())
