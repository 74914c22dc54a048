"""What scripts/spec-size, spec-pages and promise-pages share: the definitions of crates/*/specs, the types,
traits and constants of crates/*/src that contracts name, and on which of them one rests.

It goes by the text: a name is what the `use` lines of its file say, unless it is bound where it
stands. Fields are not followed, nor what the names of the kit rest on."""
import re
import sys
from dataclasses import dataclass, field
from functools import lru_cache
from pathlib import Path
from typing import Dict, Iterable, Iterator, List, NamedTuple, Optional, Set, Tuple

TOP = Path(__file__).resolve().parent.parent
HEAD = re.compile(r"( *)(?:pub )?(abbrev|unfoldable|record|data) (?:pub )?([^\s(){}:]+)")
USE = re.compile(r" *(?:ghost )?(?:pub )?use ([A-Za-z][\w.\-]+?)(?:\.\{([^}]*)\}| as (\w+));?$")
TOKEN = re.compile(r"[^\s(){}.,;:]+(?:\.[^\s(){}.,;:]+)*")
STRING = re.compile(r'"(?:\\.|[^"\\])*"')
TYPE = r"^(?:pub(?:\(crate\))? )?(struct|enum|trait) {}\b"
BINDERS = (r"λ ([^.()]+)\.", r"[({]([^(){}:]+) : ", r"\blet ([^\s=]+) =", r"(?m)^\s+(\S+) ←")


class Key(NamedTuple):
    """A name that stands in this repository: its crate, the file in it, and the name there."""

    crate: str
    file: str
    name: str


class KitName(NamedTuple):
    """A name of the kit, and the module from which it comes."""

    module: str
    name: str


@dataclass
class Item:
    """A definition, a type, a trait, a constant or the head of a module, as it stands in its file
    with its comment, and the names that it cites, in their order."""

    key: Key
    kind: str
    lines: List[str]
    head: Optional["Item"] = None
    names: List[object] = field(default_factory=list)

    @property
    def size(self) -> int:
        """How many lines it has, without comments and blank ones."""
        return sum(bool(line.strip()) and not is_comment(line) for line in self.lines)

    @property
    def heads(self) -> List["Item"]:
        """The heads of the modules in which it stands, the innermost first."""
        return [self.head, *self.head.heads] if self.head else []


@dataclass
class Spec:
    """A file of definitions: what it says of itself, what it has in scope, and what it defines."""

    crate: str
    file: str
    title: List[str] = field(default_factory=list)
    imports: Dict[str, Tuple[str, str]] = field(default_factory=dict)
    aliases: Dict[str, str] = field(default_factory=dict)
    items: Dict[str, Item] = field(default_factory=dict)
    builders: Dict[str, str] = field(default_factory=dict)

    def bring_in(self, line: str) -> bool:
        """Takes a `use` line into the scope."""
        found = USE.match(line)
        if found is None:
            return False
        module, names, alias = found.groups()
        if alias:
            self.aliases[alias] = module
        for name in re.split(r", *", names) if names else []:
            there, _, here = name.partition(" as ")
            self.imports[here or there] = module, there
        return True


def is_comment(line: str) -> bool:
    """Whether a line has a comment alone."""
    return line.lstrip().startswith(("--", "//"))


def code_of(lines: Iterable[str]) -> str:
    """Lines without comments and strings."""
    kept = ("" if is_comment(line) else STRING.sub(" ", line) for line in lines)
    return "\n".join(re.sub(r"(--|//).*", "", line) for line in kept)


# ---- the files of specs/


def read_spec(path: Path) -> Spec:
    """A file of definitions."""
    spec = Spec(path.parts[-3], f"specs/{path.name}")
    heads: List[Tuple[int, Item]] = []
    above: List[str] = []
    item: Optional[Item] = None
    in_head = False
    for line in path.read_text(encoding="utf-8").split("\n"):
        bare, indent = line.strip(), len(line) - len(line.lstrip())
        if in_head:
            heads[-1][1].lines.append(line)
            in_head = not bare.endswith("where")
        elif not bare or bare.startswith("-- ----"):
            if not spec.items and not heads:
                spec.title = spec.title or above
            above = []
            item = None if bare else item
            if item:
                item.lines.append("")
        elif bare.startswith("--"):
            above.append(line)
        elif spec.bring_in(line) or re.match(r"(pub )?mod ", line) or line.startswith("infix"):
            spec.title, above = spec.title or above, []
        elif bare.startswith("module _") or (HEAD.match(line) and indent <= 2 * len(heads)):
            while heads and heads[-1][0] >= indent:
                heads.pop()
            head = heads[-1][1] if heads else None
            if bare.startswith("module _"):
                key = Key(spec.crate, spec.file, f"module {len(spec.items)}")
                item = Item(key, "module", above + [line], head)
                heads.append((indent, item))
                in_head = not bare.endswith("where")
            else:
                _, kind, name = HEAD.match(line).groups()
                item = Item(Key(spec.crate, spec.file, name), kind, above + [line], head)
                spec.items[name] = item
            above = []
        elif item:
            item.lines += above + [line]
            above = []
            if item.kind == "data" and re.match(r" *[^\s:]+ : ", line):
                spec.builders[line.split()[0]] = item.key.name
    for item in spec.items.values():
        while not item.lines[-1]:
            item.lines.pop()
    return spec


@lru_cache(None)
def all_specs() -> Dict[Tuple[str, str], Spec]:
    """The files of definitions by crate and file."""
    specs = map(read_spec, sorted(TOP.glob("crates/*/specs/*.antt")))
    return {(spec.crate, spec.file): spec for spec in specs if spec.file != "specs/Lib.antt"}


@lru_cache(None)
def own_crates() -> Set[str]:
    """The crates of this repository."""
    return {path.parent.name for path in TOP.glob("crates/*/src")}


@lru_cache(None)
def found_in(module: str, name: str) -> object:
    """What a name stands for that a module gives: a key, or a name of the kit."""
    whole = re.fullmatch(r"Rattle\.(\w+)\.specs\.(.*)", module)
    crate, rest = whole.groups() if whole else ("", "")
    if crate not in own_crates():
        return KitName(module, name)
    if rest.startswith("declared."):
        parts = rest.split(".")[1:]
        file = f"src/{parts[0]}.rt" if len(parts) > 1 else "src/lib.rt"
        return Key(crate, file, parts[-2] if parts[-1] == "TheVariants" else name)
    spec = all_specs().get((crate, f"specs/{rest}.antt"), Spec(crate, rest))
    if name in spec.items or name in spec.builders:
        return Key(crate, spec.file, spec.builders.get(name, name))
    if name not in spec.imports:
        sys.exit(f"scripts/specs.py: {module} has no {name}, which is taken from there")
    return found_in(*spec.imports[name])


def named_by(spec: Spec, word: str) -> Optional[object]:
    """What a word stands for in a file where it is not bound; None where it is no name."""
    if word in spec.items or word in spec.builders:
        return Key(spec.crate, spec.file, spec.builders.get(word, word))
    if word in spec.imports:
        return found_in(*spec.imports[word])
    return None


def is_builder(spec: Spec, word: str) -> bool:
    """Whether a word of a pattern is what it is matched with, and no variable."""
    if word in spec.builders:
        return True
    if word not in spec.imports:
        return False
    module, there = spec.imports[word]
    key = found_in(module, there)
    return isinstance(key, KitName) or key.file.startswith("src/") or key.name != there


def bound_in(code: str) -> Set[str]:
    """The variables that are bound somewhere in these lines."""
    return {name for form in BINDERS for found in re.findall(form, code) for name in found.split()}


def pieces_of(item: Item) -> Iterator[Tuple[str, Set[str]]]:
    """The pieces of an item, each with its variables: a record's fields, each of which sees those
    before it; or the clauses."""
    code = code_of(item.lines)
    if item.kind == "record":
        head, *fields = re.split(r"(?m)^(?= *(?:pub )?[^\s:(){}]+ :(?: |$))", code)
        bound = bound_in(head)
        yield head, bound
        for piece in fields:
            name = re.match(r" *(?:pub )?([^\s:]+) :", piece)
            yield piece[name.end():], bound | bound_in(piece)
            bound = bound | {name.group(1)}
        return
    first = next(line for line in item.lines if HEAD.match(line) or item.kind == "module")
    indent = " " * (len(first) - len(first.lstrip()))
    for piece in re.split(rf"(?m)^(?={indent}\S)", code):
        yield piece, bound_in(piece)


def names_in(spec: Spec, item: Item) -> List[object]:
    """What an item cites, in its order, without what its own variables hide."""
    found: List[object] = []
    outer = {name for head in item.heads for name in bound_in(code_of(head.lines))}
    for piece, bound in pieces_of(item):
        bound = bound | outer
        left, equal, _ = piece.partition(" =")
        if equal and item.kind in ("abbrev", "unfoldable") and not HEAD.match(piece):
            words = {word for word in re.findall(r"[^\s(){},]+", left) if "." not in word}
            bound |= {word for word in words - {item.key.name} if not is_builder(spec, word)}
        if re.search(r"\bdo$", piece, re.M) and "◌>>=◌" in spec.items:
            found.append(Key(spec.crate, spec.file, "◌>>=◌"))
        # what stands before = in a record is a field, and so is what stands behind a dot
        code = re.sub(r"(?<=[{;])(\s*)[^\s=;{}]+ =", r"\1 =", piece)
        for word in TOKEN.findall(re.sub(r"\)(\.[^\s(){}.,;:]+)+", ")", code)):
            front, _, rest = word.partition(".")
            if rest and front in spec.aliases and front not in bound:
                found.append(found_in(spec.aliases[front], rest.split(".")[0]))
            elif front not in bound and named_by(spec, front):
                found.append(named_by(spec, front))
            else:
                found += mixed_in(spec, front)
    return [name for name in dict.fromkeys(found) if name != item.key]


def mixed_in(spec: Spec, sign: str) -> List[object]:
    """The names with places for what they are given, of which a sign is a part."""
    mixed = [name for name in spec.imports if "◌" in name and sign in name.split("◌")]
    return [found_in(*spec.imports[name]) for name in mixed]


# ---- the files of src/


@lru_cache(None)
def source_of(crate: str, file: str) -> Tuple[List[str], Spec]:
    """The lines of a file of code, and what its clauses have in scope."""
    lines = (TOP / "crates" / crate / file).read_text(encoding="utf-8").split("\n")
    scope = Spec(crate, file)
    for line in lines:
        if "ghost use" in line:
            scope.bring_in(line)
    return lines, scope


@lru_cache(None)
def types_of(crate: str) -> Dict[str, str]:
    """The types and traits of a crate, each with its file."""
    found = {}
    for path in sorted((TOP / "crates" / crate / "src").glob("*.rt")):
        for _, name in re.findall(TYPE.format(r"(\w+)"), path.read_text(encoding="utf-8"), re.M):
            found[name] = f"src/{path.name}"
    return found


def brought_in(lines: List[str], name: str) -> Optional[str]:
    """The crate of this repository from which a file of code takes a type."""
    for line in lines:
        found = re.match(r"(?:pub )?use (\w+)::(?:\w+::)*(?:\{([^}]*)\}|(\w+));", line)
        if found and name in re.findall(r"\w+", found.group(2) or found.group(3) or ""):
            return found.group(1) if found.group(1) in own_crates() else None
    return None


def seen_as(crate: str, name: str) -> Optional[Tuple[str, Key]]:
    """As what contracts see a type, where that is not its fields; and where that is said."""
    file = types_of(crate).get(name)
    lines = source_of(crate, file)[0] if file else []
    is_model = re.compile(rf"impl(<.*>)? Model for {name}\b").match
    at = next((at for at, line in enumerate(lines) if is_model(line)), None)
    if at is None:
        return None
    value = re.search(r"ghost Value = \{ (.*?) \};", "\n".join(lines[at:]), re.S)
    return (value.group(1), Key(crate, file, name)) if value else None


def read_code(key: Key) -> Item:
    """A type, a trait, a constant or a function's promise, out of its file."""
    lines, scope = source_of(key.crate, key.file)
    forms = TYPE.format(re.escape(key.name)), rf" *pub const {key.name}: ", rf"pub fn {key.name}\b"
    at = next(at for at, line in enumerate(lines) if any(re.match(form, line) for form in forms))
    end = at
    kind = re.search(r"struct|enum|trait|const|fn", lines[at]).group(0)
    is_done = {"const": r".*;$", "fn": r"\{$"}.get(kind, r"\}$")
    while not re.match(is_done, lines[end]) and not (end == at and lines[at].endswith(";")):
        end += 1
    begin = at
    while re.match(r" *(///|#\[|//[^!])", lines[begin - 1]):
        begin -= 1
    body = [line for line in lines[begin:end + (kind != "fn")] if not re.match(r" *#\[", line)]
    item = Item(key, kind, body)
    code = code_of(body)
    if kind in ("struct", "enum"):
        for name in dict.fromkeys(re.findall(r"\b[A-Z]\w*[a-z]\w*", code)):
            if name == key.name or re.search(rf"(?m)^ *{name}\b", code):
                continue
            crate = key.crate if name in types_of(key.crate) else brought_in(lines, name)
            view = seen_as(crate, name) if crate else None
            if view:
                item.lines.append(f"// contracts see {name} as: {view[0]}")
                item.names += clause_names(source_of(crate, view[1].file)[1], view[0])
            elif crate and name in types_of(crate):
                item.names.append(Key(crate, types_of(crate)[name], name))
    else:
        for name, bounds in re.findall(r"\b([A-Z]): ([^,>]+)", code):
            for bound in re.findall(r"\w+", bounds):
                crate = brought_in(lines, bound)
                if crate and re.search(rf"\b{name}\.\w", code):
                    item.names.append(Key(crate, types_of(crate)[bound], bound))
        clauses = re.findall(r"\{ (.*?) \}(?:;?$)", code, re.M | re.S)
        item.names += clause_names(scope, "\n".join(clauses))
    item.names = [name for name in dict.fromkeys(item.names) if name != key]
    return item


def clause_names(scope: Spec, clause: str) -> List[object]:
    """What a clause cites."""
    words = [word.partition(".")[0] for word in TOKEN.findall(clause)]
    found = [named_by(scope, word) for word in words]
    mixed = [name for word in words for name in mixed_in(scope, word)]
    return [name for name in found if name] + mixed


# ---- what rests on what


@lru_cache(None)
def item_at(key: Key) -> Item:
    """The item of a key, with what it cites."""
    if key.file.startswith("src/"):
        return read_code(key)
    spec = all_specs()[key.crate, key.file]
    item = spec.items[key.name]
    item.names = names_in(spec, item)
    for head in item.heads:
        head.names = head.names or names_in(spec, head)
    return item


def cited_by(item: Item) -> List[object]:
    """What an item cites, also in the heads of the modules in which it stands."""
    return [name for it in (*reversed(item.heads), item) for name in it.names]


def reached_from(starts: Iterable[Key]) -> Dict[Key, Item]:
    """All on which these rest, each behind what it rests on."""
    done: Dict[Key, Item] = {}
    begun: Set[Key] = set()
    left = [(key, False) for key in reversed(list(starts))]
    while left:
        key, is_over = left.pop()
        if is_over:
            done[key] = item_at(key)
        elif key not in begun:
            begun.add(key)
            left.append((key, True))
            cited = [name for name in cited_by(item_at(key)) if isinstance(name, Key)]
            left += [(name, False) for name in reversed(cited)]
    return done


def layers() -> List[Tuple[str, List[str]]]:
    """The headings of crates.txt, each with its crates."""
    found: List[Tuple[str, List[str]]] = []
    for block in (TOP / "crates.txt").read_text(encoding="utf-8").split("\n\n")[1:]:
        heading, *lines = block.strip().split("\n")
        found.append((heading.lstrip("# "), [re.match(r"\w+", line).group(0) for line in lines]))
    return found


# The program's one call, and what it makes of words that the system did not give.
STARTS = [Key("liq_serve", "src/top.rt", name) for name in ("protocol", "without_words")]
