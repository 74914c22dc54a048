"""libliq.so, the engine as a library: where it is, whether it fits, and what its calls take (clients/c/liq.h).

It is looked for in this order: LIQ_LIBRARY names it; beside the modules of this package, where a wheel has it; in the
checkout in which the package lies; and where scripts/install puts it, beside an installed package or under the prefix
of this Python, /usr/local and /usr.
"""
import ctypes
import functools
import os
import platform
import sys
from pathlib import Path
from typing import Any, Dict, List, Optional, Sequence, Tuple

from .ends import Folder, NotBuilt

ABI = 1
LINE_MOST = 256  # bytes of a line that `lines` writes, with its end
OK, NO_MARKET, NO_MEMORY, BAD, SHORT = range(5)  # statuses
ACCEPTED, TOLD, REFUSED, NO_COMMAND, OUT_OF_MEMORY = range(1, 6)  # kinds of replies
TOPICS = ("wallet", "trove", "deposit", "pools", "system", "next_number")  # from 1 on
TROVES, DEPOSITS, WALLETS, TOUCHED = range(1, 5)  # lists of accounts
ITEM_BYTES = 96  # of a command, and of a reply
QUERY_BYTES = 8

NEEDED = {"cx16", "lahf_lm", "pni", "popcnt", "sse4_1", "sse4_2", "ssse3"}  # x86-64-v2, as Linux calls it
HERE = Path(__file__).resolve().parent
TOP = HERE.parents[2]  # of a checkout
PLACES = (  # where the library is looked for: beside the package, in its checkout, and installed
    HERE / "libliq.so", TOP / "crates/liq_c/out/libliq.so", HERE.parents[1] / "libliq.so.1",
    *(Path(prefix, "lib/libliq.so.1") for prefix in dict.fromkeys((sys.prefix, "/usr/local", "/usr"))),
)
TRIED = TOP / "crates/liq_c/out/libliq-tried.so"  # without a proof, where LIQ_TRY=1 asks for it and there is no other


class NoLibrary(NotBuilt):
    """There is no library, or none that can be used here; its text says which, and what to run. A `Service` needs
    none."""

    def __str__(self) -> str:
        return self.last


class Place(ctypes.Structure):
    """What holds a market. All zero: none."""

    _fields_ = [("inside", ctypes.c_void_p), ("state", ctypes.c_uint64), ("reserved", ctypes.c_uint64 * 2)]


class Answered(ctypes.Structure):
    """How many items are answered, and why no more are."""

    _fields_ = [("done", ctypes.c_size_t), ("status", ctypes.c_uint32)]


class Written(ctypes.Structure):
    """How many bytes of a text were taken, how many were written, and why no more were."""

    _fields_ = [("taken", ctypes.c_size_t), ("written", ctypes.c_size_t), ("status", ctypes.c_uint32)]


AT, COUNT, STATUS = ctypes.c_void_p, ctypes.c_size_t, ctypes.c_uint32
Shape = Tuple[Any, Optional[Sequence[Any]]]  # what a call gives, and what it takes
ITEMS: Shape = (Answered, (AT, AT, COUNT, AT, COUNT))
CALLS: Dict[str, Shape] = {
    "abi": (STATUS, ()),
    "open": (STATUS, (AT,)),
    "close": (None, (AT,)),
    "do": ITEMS,
    "next": ITEMS,
    "ask": ITEMS,
    "preview": ITEMS,
    "lines": (Written, (AT, AT, COUNT, AT, COUNT)),
    "fork": (STATUS, (AT, AT)),
    "save_size": (COUNT, (AT,)),
    "save": (STATUS, (AT, AT, COUNT)),
    "load": (STATUS, (AT, AT, COUNT)),
    "accounts": (Answered, (AT, STATUS, COUNT, AT, COUNT)),
}


class Library:
    """The library's calls. Those of `one` keep the interpreter's lock, which is quicker for a short call; those of
    `many` let it go, so that other threads run meanwhile.

    The calls of `one` that take items take one, as numbers of C, and give nothing: its reply says all, and a structure
    that is made of two registers, or a look at each argument, would take a third of the time of the call."""

    def __init__(self, path: Folder) -> None:
        self.path = Path(path)
        self.one: Any
        self.many: Any
        self.one, self.many = Bound(ctypes.PyDLL(str(path)), (None, None)), Bound(ctypes.CDLL(str(path)), ITEMS)


class Bound:
    """The calls by their names. Those of items give and take what is said."""

    def __init__(self, opened: ctypes.CDLL, of_items: Shape) -> None:
        for name, shape in CALLS.items():
            call = opened[f"liq_{name}"]
            call.restype, takes = of_items if shape is ITEMS else shape
            if takes is not None:
                call.argtypes = takes
            setattr(self, name, call)

    def __getattr__(self, name: str) -> Any:
        raise AttributeError(name)


def find_library(library: Optional[Folder] = None) -> Path:
    """The library: the one that is named, that of LIQ_LIBRARY, or the first that is there of `PLACES`. Raises
    `NoLibrary`."""
    named = library or os.environ.get("LIQ_LIBRARY")
    if named:
        path = Path(named).resolve()
        if not path.is_file():
            raise missing(f"there is no library at {path}")
        return path
    if os.environ.get("LIQ_TRY") == "1" and TRIED.is_file() and not any(path.is_file() for path in PLACES):
        print(f"liq: UNPROVED library {TRIED} (tests at run time stay in); LIQ_TRY is set", file=sys.stderr)
        return TRIED
    for path in PLACES:
        if path.is_file():
            return path
    raise missing("there is no libliq.so")


def load_library(library: Optional[Folder] = None) -> Library:
    """The library, loaded and found to fit. Raises `NoLibrary`."""
    return loaded(find_library(library))


@functools.lru_cache(maxsize=None)
def loaded(path: Path) -> Library:
    """The library at a path. It is loaded once, and stays loaded."""
    if sys.platform != "linux" or platform.machine() != "x86_64":
        raise missing(f"{path} is for Linux on x86-64, and this is {sys.platform} on {platform.machine()}", "")
    lacking = sorted(NEEDED - set(processor_flags()))
    if lacking:
        raise missing(f"{path} is for x86-64-v2, and this processor lacks {', '.join(lacking)}", "")
    try:
        library = Library(path)
        abi = library.one.abi()
    except (OSError, AttributeError) as fault:
        raise missing(f"{path} can't be loaded: {fault}") from None
    if abi != ABI:
        raise missing(f"{path} has interface {abi}, and this package is for {ABI}")
    return library


def processor_flags() -> List[str]:
    """What the first processor says that it can do; all that is needed where nothing is said."""
    try:
        with open("/proc/cpuinfo") as told:
            for line in told:
                if line.startswith("flags"):
                    return line.partition(":")[2].split()
    except OSError:
        pass
    return list(NEEDED)


def missing(why: str, command: str = f"{TOP}/scripts/build --library") -> NoLibrary:
    """That there is no library, and the command that builds one; none where that wouldn't help."""
    if command and Path(command.split(" ")[0]).is_file():
        why += f": build it by `{command}`"
    elif command:
        why += ": in a checkout of liq `scripts/build --library` builds one"
    return NoLibrary(70, f'{why}; Market(engine="model") and a Service need none')
