"""What scripts/spec-pages, promise-pages and check-docs share: the mark of a heading, lines of limited
length, and how the pages of a folder that a script writes are written, or held against what it would
write."""
import difflib
import re
from pathlib import Path
from typing import Dict, Iterable, Iterator

TOP = Path(__file__).resolve().parent.parent


def mark_of(heading: str) -> str:
    """The mark by which a link names a heading."""
    return re.sub(r"[^\w\- ]", "", heading.lower()).strip().replace(" ", "-")


def plain(name: str) -> str:
    """A name as it stands in a heading and in a link."""
    return "and then" if name == "◌>>=◌" else name


def filled(words: Iterable[str], columns: int, indent: str = "") -> Iterator[str]:
    """The words in lines of at most so many columns, all but the first one indented."""
    line = ""
    for word in words:
        if line and len(line) + 1 + len(word) > columns:
            yield line
            line = indent + word
        else:
            line += (" " if line else "") + word
    yield line


def texts_of(pages: Iterable[Path]) -> Dict[str, str]:
    """The pages that are there, by their names."""
    return {page.name: page.read_text(encoding="utf-8") for page in pages}


def write(folder: Path, there: Dict[str, str], wanted: Dict[str, str]) -> None:
    """Writes the pages that are wanted, and removes the others of those that are there."""
    folder.mkdir(exist_ok=True)
    for name in there.keys() - wanted.keys():
        (folder / name).unlink()
    for name, text in wanted.items():
        (folder / name).write_text(text, encoding="utf-8")


def are_as_wanted(folder: Path, there: Dict[str, str], wanted: Dict[str, str], script: str) -> bool:
    """Whether the pages that are there are those that the script would write. It tells each that is not."""
    home = folder.relative_to(TOP)
    names = there.keys() | wanted.keys()
    differ = sorted(name for name in names if there.get(name) != wanted.get(name))
    for name in differ:
        if name not in there or name not in wanted:
            print(f"{home}/{name}: {'a page too many' if name in there else 'missing'}")
            continue
        both = there[name].splitlines(), wanted[name].splitlines()
        found = list(difflib.unified_diff(*both, lineterm="", n=0))[2:]
        changed = [line for line in found if not line.startswith("@@")]
        print(f"{home}/{name}: {len(changed)} lines are not as {script} writes them")
        print("\n".join(changed[:4]))
    return not differ
