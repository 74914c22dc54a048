"""Pages by templates: files of this package (`templates`) in which values are put. Each value is escaped here, and
nowhere else.

What stands in a template, besides what is written as it is:

    {{ trove.coll }}             a value, by its name; behind a dot a part of it, of a dict or an object
    {{ trove.coll | ether }}     as the form `ether` shows it
    {% for trove in troves %} .. {% end %}
    {% if trove.now %} .. {% else %} .. {% end %}       where it is true; no number 0, nothing empty
    {% if there trove.price %} .. {% end %}             where it is not None
    {% put table.html %}         another template, with the values that there are here

A line in which a `{% .. %}` stands alone is not written. A value stands in text, or in an attribute between double
quotes. What is `Markup` is put in as it is: a filled template, a picture, the style sheet. A name that there is not, a
value that is None, and what is no such form raise `TemplateFault`.
"""
import base64
import hashlib
import re
from html import escape
from importlib.resources import files
from typing import Any, Callable, Dict, List, Mapping, NamedTuple, Sequence, Tuple, Union

from .errors import LiqError

Form = Callable[[Any], str]
TAG = re.compile(r"^[ \t]*\{%[ ]*([^%\n]*?)[ ]*%\}[ \t]*\n|\{%[ ]*([^%\n]*?)[ ]*%\}|\{\{[ ]*([^}\n]*?)[ ]*\}\}", re.M)
VALUE = re.compile(r"([a-z_][a-z_0-9.]*)(?: *\| *([a-z_]+))?").fullmatch
FOR = re.compile(r"for ([a-z_]+) in ([a-z_][a-z_0-9.]*)").fullmatch
IF = re.compile(r"if (there )?([a-z_][a-z_0-9.]*)").fullmatch
PUT = re.compile(r"put ([a-z_]+\.html)").fullmatch


class TemplateFault(LiqError):
    """A template is not in the form, or asks for what there is not. It says which template, and the line."""


class Markup(str):
    """Text that is HTML already."""


class Value(NamedTuple):
    """A value that is put in."""

    where: str
    path: str
    form: str


class Each(NamedTuple):
    """What is written for each of several values."""

    where: str
    name: str
    path: str
    body: List[Any]


class Choice(NamedTuple):
    """What is written where a value is true, or there at all, and what where it is not."""

    where: str
    is_there: bool
    path: str
    then: List[Any]
    otherwise: List[Any]


class Put(NamedTuple):
    """Another template."""

    where: str
    name: str


Part = Union[str, Value, Each, Choice, Put]


def of_package(name: str) -> str:
    """A file of the package's templates."""
    return (files(__package__) / "templates" / name).read_text("utf-8")


class Templates:
    """Templates, and the forms in which they show values."""

    def __init__(self, forms: Mapping[str, Form], read: Callable[[str], str] = of_package) -> None:
        self.forms, self.read = forms, read
        self.parsed: Dict[str, List[Part]] = {}

    def fill(self, name: str, values: Mapping[str, Any]) -> Markup:
        """A template with these values."""
        written: List[str] = []
        self._write(self._parts_of(name), dict(values), written)
        return Markup("".join(written))

    def _parts_of(self, name: str) -> List[Part]:
        if name not in self.parsed:
            self.parsed[name] = parse(name, self.read(name))
        return self.parsed[name]

    def _write(self, parts: Sequence[Part], scope: Dict[str, Any], written: List[str]) -> None:
        for part in parts:
            if isinstance(part, str):
                written.append(part)
            elif isinstance(part, Value):
                written.append(self._shown(part, found(scope, part.path, part.where)))
            elif isinstance(part, Each):
                within = dict(scope)
                for each in found(scope, part.path, part.where):
                    within[part.name] = each
                    self._write(part.body, within, written)
            elif isinstance(part, Choice):
                value = found(scope, part.path, part.where)
                is_so = value is not None if part.is_there else bool(value)
                self._write(part.then if is_so else part.otherwise, scope, written)
            else:
                self._write(self._parts_of(part.name), scope, written)

    def _shown(self, part: Value, value: Any) -> str:
        """A value as it is written: here it is escaped."""
        if part.form:
            if part.form not in self.forms:
                raise TemplateFault(f"{part.where}: there is no form {part.form!r}")
            value = self.forms[part.form](value)
        if value is None:
            raise TemplateFault(f"{part.where}: {part.path} is None")
        return value if isinstance(value, Markup) else escape(str(value))


def head_of(title: str) -> Dict[str, Any]:
    """What begins each page: its title, the style sheet, and the policy by which a browser loads nothing, runs no
    script, sends no form, and takes that style sheet alone."""
    style = of_package("style.css")
    digest = base64.b64encode(hashlib.sha256(style.encode()).digest()).decode()
    policy = f"default-src 'none'; style-src 'sha256-{digest}'; base-uri 'none'; form-action 'none'"
    return {"title": title, "style": Markup(style), "policy": policy}


def found(scope: Dict[str, Any], path: str, where: str) -> Any:
    """What a name says."""
    value: Any = scope
    for name in path.split("."):
        try:
            if isinstance(value, dict):
                value = value[name]
            elif name.startswith("_"):
                raise AttributeError
            else:
                value = getattr(value, name)
        except (KeyError, AttributeError):
            raise TemplateFault(f"{where}: there is no {path}") from None
    return value


# ---- how a template is read


def parse(name: str, text: str) -> List[Part]:
    """The parts of a template."""
    top: List[Any] = []
    # What is open: the parts that are being read, and what they are of.
    open_parts: List[Tuple[List[Any], Any]] = [(top, None)]
    at = 0
    for tag in TAG.finditer(text):
        here = open_parts[-1][0]
        if text[at : tag.start()]:
            here.append(text[at : tag.start()])
        at = tag.end()
        where = f"{name}, line {text.count(chr(10), 0, tag.start()) + 1}"
        if tag[3] is not None:
            here.append(_value(where, tag[3]))
        else:
            _read_tag(where, tag[1] if tag[1] is not None else tag[2], open_parts)
    if len(open_parts) > 1:
        raise TemplateFault(f"{open_parts[-1][1].where}: it has no end")
    if text[at:]:
        top.append(text[at:])
    for part in top:
        if isinstance(part, str) and re.search(r"\{[{%]|[%}]\}", part):
            raise TemplateFault(f"{name}: not in the form: {part.strip()[:60]}")
    return top


def _value(where: str, said: str) -> Value:
    value = VALUE(said)
    if not value:
        raise TemplateFault(f"{where}: {said!r} is no value")
    return Value(where, value[1], value[2] or "")


def _read_tag(where: str, said: str, open_parts: List[Tuple[List[Any], Any]]) -> None:
    """Reads one `{% .. %}`."""
    here, of = open_parts[-1]
    repeated, chosen, put = FOR(said), IF(said), PUT(said)
    made: Any
    if repeated:
        made = Each(where, repeated[1], repeated[2], [])
        here.append(made)
        open_parts.append((made.body, made))
    elif chosen:
        made = Choice(where, bool(chosen[1]), chosen[2], [], [])
        here.append(made)
        open_parts.append((made.then, made))
    elif put:
        here.append(Put(where, put[1]))
    elif said == "else" and isinstance(of, Choice) and here is of.then:
        open_parts[-1] = (of.otherwise, of)
    elif said == "end" and of is not None:
        open_parts.pop()
    else:
        raise TemplateFault(f"{where}: {said!r} is not in the form, or not in its place")
