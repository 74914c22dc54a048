"""What the cases share: a folder in memory for each, the program, files that are forged, and the documents."""
import functools
import os
import runpy
import shutil
import sys
import tempfile
import unittest
from pathlib import Path
from typing import Any, Callable, Dict, List, Optional
from unittest import mock

from liq import Market, NotBuilt, memory, scratch
from liq.journal import SIDES
from liq.library import find_library
from liq.service import MEMORY, Create, Service, find_program

from .standin import StandIn

TOP = Path(__file__).resolve().parents[3]
os.environ.setdefault("LIQ_BUILD", "no")  # a case never begins a build, which bin/liq does where nothing is built
PROGRAM = find_program()
BUILT = TOP / "crates/liq_main/out/liq_main"
READY = os.access(BUILT if os.path.realpath(PROGRAM) == str(TOP / "bin/liq") else PROGRAM, os.X_OK)
try:
    LIBRARY: Optional[Path] = find_library()
except NotBuilt:
    LIBRARY = None


class InFolder(unittest.TestCase):
    """A case with a folder of its own."""

    def setUp(self) -> None:
        self.folder = Path(tempfile.mkdtemp(dir=MEMORY if MEMORY.is_dir() else None, prefix="liq-test-"))
        self.addCleanup(shutil.rmtree, self.folder)
        super().setUp()

    def bounded(self, seconds: int = 60) -> None:
        """Makes the case an error where it takes more seconds, as one that waits for ever would."""
        bound = scratch.bounded(seconds)
        bound.__enter__()
        self.addCleanup(bound.__exit__, None, None, None)

    def stand_in(self, text: str) -> Path:
        """A program of these lines of Python, in the place of liq."""
        path = self.folder / "stand-in"
        path.write_text(f"#!{sys.executable}\n{text}")
        path.chmod(0o700)
        return path


@unittest.skipUnless(READY, f"there is no program of {PROGRAM} (scripts/build builds it)")
class OverProgram(InFolder):
    """A case over the built program."""

    def service(self, name: str = "market", create: Create = "if missing") -> Service:
        made = Service(self.folder / name, create=create)
        self.addCleanup(made.kill)
        return made

    def lines(self, name: str, lines: List[str]) -> List[str]:
        """The replies to lines, in a market of that name."""
        with Service(self.folder / name, create=True) as service:
            return [" ".join(service.ask(line)) for line in lines]


@unittest.skipIf(LIBRARY is None, "there is no libliq.so")
class OverLibrary(InFolder):
    """A case over the built library."""

    def begin(self) -> Market:
        return Market()


class OverStandIn(InFolder):
    """A case over what stands in for the library (`tests.standin`)."""

    def setUp(self) -> None:
        self.library = StandIn()
        loads = mock.patch.object(memory, "load_library", lambda library=None: self.library)
        loads.start()
        self.addCleanup(loads.stop)
        super().setUp()

    def begin(self) -> Market:
        return Market()


def status_of(main: Callable[[List[str]], int], *words: object) -> int:
    """The status of a command, also where its words are not understood."""
    try:
        return main([str(word) for word in words])
    except SystemExit as end:
        return int(end.code or 0)


@functools.lru_cache(maxsize=1)
def disk_maker() -> Callable[[str, List[str]], Any]:
    """What makes both disks, of scripts/make-disks: a start of Python for each would take longer than all that it does."""
    return runpy.run_path(str(TOP / "scripts/make-disks"))["disks_after"]


def forged(versions: str, lines: List[str]) -> Dict[str, bytes]:
    """Both files after these commands, as scripts/make-disks makes them."""
    return {side: bytes(data) for side, data in zip(SIDES, disk_maker()(versions, lines))}


def document(name: str) -> str:
    """A document of the repository."""
    return (TOP / "docs" / name).read_text()
