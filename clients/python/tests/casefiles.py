"""The case files of the gate (docs/CASES.md), read for a program in this process: the words of `liq.model`.

Faults of the source and the sink are made, those of a disk are not: a case ends before the run that has one. A sweep is
left out, and its run is made as it is written."""
import re
from pathlib import Path
from typing import Any, Dict, Iterator, List, NamedTuple, Optional, Tuple

from liq.journal import SIDES

ESCAPES = re.compile(rb"\\(r|s[0-9]+|x[0-9a-f]{2}|e$)")
COUNTED = re.compile(r"\{([0-9]+)(?:\+([0-9]+))?\}")
CHANGES = ("bytes", "text", "crash", "cut", "flip", "set")
FACTS = ("has", "begins", "ends", "is")
WHOLE_READ = 16384


class Step(NamedTuple):
    """A run of a case: what comes in, what must go out, and its settings by their first words."""

    place: str
    words: List[str]
    lines: List[Tuple[Optional[bytes], Optional[bytes]]]
    settings: List[List[str]]

    def of(self, *names: str) -> Iterator[List[str]]:
        """What stands behind these words, of each setting that begins with them."""
        for setting in self.settings:
            if setting[: len(names)] == list(names):
                yield setting[len(names) :]

    def numbers(self, *names: str) -> List[int]:
        """The numbers behind these words; none where there is no such setting."""
        return [int(word) for found in self.of(*names) for word in found if word.isdigit()]

    @property
    def has_disk_fault(self) -> bool:
        """Whether a disk fails in it."""
        return any(setting[0] in SIDES and setting[1] == "fails" for setting in self.settings if len(setting) > 1)

    @property
    def is_legal(self) -> bool:
        """Whether its replies are not written down, as those of sessions that ask of each other."""
        return ["legal"] in self.settings

    @property
    def status(self) -> int:
        return (self.numbers("status") or [0])[0]

    def changes(self) -> List[List[str]]:
        """What is done to the files before it."""
        return [it for it in self.settings if it[0] in SIDES and it[1] in CHANGES]

    def facts(self) -> List[List[str]]:
        """What is tested of the files behind it."""
        return [it for it in self.settings if it[0] in SIDES and it[1] in FACTS]

    def input(self, files: Dict[str, bytes]) -> bytes:
        """What comes in."""
        for found in self.of("input"):
            if found[0] in SIDES:
                return files[found[0]]
        return b"".join(asked for asked, _ in self.lines if asked is not None)

    def output(self, told: List[bytes]) -> bytes:
        """What must go out: of `serve` by its sessions, where it is done."""
        replies = [reply for _, reply in self.lines if reply is not None]
        if self.words != ["serve"] or self.status:
            return b"".join(replies)
        sessions: Dict[bytes, List[bytes]] = {}
        history = []
        for asked, reply in self.lines:
            if asked is not None:
                found = sessions.setdefault(asked[:1], [])
                found.append(reply if reply is not None else told[len(history)])
                history.append(asked[:1] + b" %d\n" % len(found))
        blocks = [line for session in sorted(sessions) for line in (b"session " + session + b"\n", *sessions[session])]
        return b"".join([*blocks, b"history\n", *history])


class Source:
    """Bytes that come in, so many at a read; some reads fail."""

    def __init__(self, data: bytes, most: int, fails: List[int]) -> None:
        self.data, self.at, self.most, self.fails, self.reads = data, 0, most, fails, 0

    def read(self, count: int) -> bytes:
        self.reads += 1
        if self.reads - 1 in self.fails:
            raise OSError("a read fails")
        part = self.data[self.at : self.at + min(count, self.most)]
        self.at += len(part)
        return part

    @property
    def unread(self) -> int:
        """How many bytes were not read."""
        return len(self.data) - self.at


class Sink:
    """What goes out, so many bytes at a call; some calls fail."""

    def __init__(self, most: int, fails: List[int]) -> None:
        self.data, self.most, self.fails, self.calls = bytearray(), most, fails, 0

    def write(self, data: bytes) -> None:
        for at in range(0, len(data), self.most):
            self.calls += 1
            if self.calls - 1 in self.fails:
                raise OSError("a write fails")
            self.data += data[at : at + self.most]


# ---- reading


def cases_of(path: Path) -> Iterator[Tuple[str, List[Step]]]:
    """The cases of a file: what they say, and their runs."""
    name: Optional[str] = None
    steps: List[Step] = []
    lines = path.read_bytes().decode("latin-1").split("\n")
    skips, at = False, 0
    while at < len(lines):
        line, at = lines[at].strip(" "), at + 1
        if not line or line.startswith("#"):
            continue
        if line.startswith("case "):
            if name is not None:
                yield name, steps
            name, steps, skips = line[5:], [Step(f"{path.name}:{at}", ["run"], [], [])], False
        elif line.startswith(":"):
            words = line[1:].split()
            if words[0] == "again":
                steps.append(Step(f"{path.name}:{at}", unquoted(words[1:]) or ["run"], [], []))
                skips = False
            elif words[0] == "words":
                steps[-1] = steps[-1]._replace(words=unquoted(words[1:]))
            elif words[0] == "found":
                skips = True
            elif words[0] == "times":
                count, of = int(words[1]), int(words[3]) if len(words) > 3 else 1
                steps[-1].lines.extend(repeated(lines[at : at + of], count))
                at += of
            else:
                steps[-1].settings.append(words)
        elif not skips:
            steps[-1].lines.append(line_of(line))
    if name is not None:
        yield name, steps


def unquoted(words: List[str]) -> List[str]:
    return ["" if word == "''" else word for word in words]


def repeated(lines: List[str], count: int) -> Iterator[Tuple[Optional[bytes], Optional[bytes]]]:
    """Lines with their counting numbers, so many times."""
    for turn in range(count):
        for line in lines:
            counted = COUNTED.sub(lambda found: str(int(found[1]) + turn * int(found[2] or 1)), line.strip(" "))
            yield line_of(counted)


def line_of(line: str) -> Tuple[Optional[bytes], Optional[bytes]]:
    """A request and its reply, each with its line end, or None."""
    asked, arrow, reply = line.partition("->")
    sent = plain(asked.strip(" ")) if asked.strip(" ") else None
    return sent, plain(reply.strip(" ")) if arrow else None


def plain(text: str) -> bytes:
    """A line with its escapes read, and its line end."""
    def read(found: Any) -> bytes:
        word: bytes = found[1]
        if word == b"r":
            return b"\r"
        if word[:1] == b"s":
            return b" " * int(word[1:])
        return bytes([int(word[1:], 16)]) if word[:1] == b"x" else b""

    data = text.encode("latin-1")
    return ESCAPES.sub(read, data) + (b"" if data.endswith(b"\\e") else b"\n")


# ---- the files


def changed(files: Dict[str, bytes], step: Step) -> Dict[str, bytes]:
    """Both files as they are when a run begins."""
    files = dict(files)
    for side, what, *words in step.changes():
        data = files[side]
        if what == "bytes":
            data = bytes.fromhex("".join(words))
        elif what == "text":
            data = " ".join(words).encode()
        elif what == "cut":
            data = data[: int(words[0])]
        elif what in ("flip", "set"):
            at = int(words[0])
            byte = data[at] ^ 1 if what == "flip" else int(words[1])
            data = data[:at] + bytes([byte]) + data[at + 1 :]
        files[side] = data
    return files


def faults_of_files(step: Step, before: Dict[str, bytes], after: Dict[str, bytes]) -> Iterator[str]:
    """Which facts do not hold."""
    for side, what, *words in step.facts():
        data = after[side]
        if what == "has":
            holds = len(data) == int(words[0])
        elif words == ["as", "before"]:
            holds = data == before[side]
        else:
            wanted = bytes.fromhex("".join(words))
            parts = {"is": data, "begins": data[: len(wanted)], "ends": data[len(data) - len(wanted) :]}
            holds = parts[what] == wanted
        if not holds:
            yield f"{side} {what} {' '.join(words)[:80]}: it has {len(data)} bytes"
